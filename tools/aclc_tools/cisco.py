# SPDX-License-Identifier: BSD-3-Clause
"""Access lists of Cisco's IOS and IOS XE: standard and extended ones, numbered and named, and IPv6 lists.

Source: Cisco IOS Security Command Reference, "access-list (IP extended)", "access-list (IP standard)", "permit (IP)",
"ipv6 access-list", "object-group network", "object-group service". Masks of entries are wildcard masks, in which a set
bit is one that doesn't count, and those of groups are masks of networks.
"""
from aclc_tools import boxes, cisco_groups, cisco_lists, ios_words
from aclc_tools.cisco_entries import VERDICTS, Dialect, Service, boxes_of, once, read, skip_options
from aclc_tools.cisco_words import (ICMP, ICMP6, PORTS, PROTOCOLS, Words, address_range, any_of, compares, host,
                                    is_number, netmask, ports, prefix, protocol, union, wildcard)
from aclc_tools.lists import ACCEPT, CantSay, Rule

IP4 = {**PROTOCOLS, "ip": None}
IP6 = {"ahp": 51, "esp": 50, "icmp": 58, "ipv6": None, "pcp": 108, "sctp": 132, "tcp": 6, "udp": 17}
DIALECT = Dialect({4: IP4, 6: IP6}, PORTS, "object-group", "object-group", None, False, True,
                  {"log": None, "log-input": None, "sequence": 1})
STANDARD, EXTENDED = "a standard list", "an extended list"
# Commands of lists that decide nothing about their entries.
SETTINGS = ("log-update", "logging", "persistent", "helper", "match-local-traffic")
UNREAD_LISTS = ("role-based", "fqdn")
# Kinds of groups; an entry that names one of the last three is refused.
GROUPS = ("network", "service", "v6-network", "v6-service", "security")
COMMUNITIES = (["ip", "community-list"], ["ip", "extcommunity-list"])
NUMBERS = {STANDARD: ((1, 99), (1300, 1999)), EXTENDED: ((100, 199), (2000, 2699))}
KINDS = {"standard": STANDARD, "extended": EXTENDED}


def kind_of(name):
    """The kind of a numbered list, or None."""
    return next((kind for kind, ranges in NUMBERS.items() for low, high in ranges if low <= int(name) <= high), None)


def member(groups, kind, words, path):
    """What one line of a group holds."""
    words = Words(words)
    word = words.next()
    if word == "group-object":
        value = groups.value(words.next("a group"), (kind,), path)
    else:
        value = network_member(word, words) if kind == "network" else service_member(word, words)
    words.end()
    return value


def network_member(word, words):
    """The addresses of a member: a host, a range, or a network with the length of its prefix or its mask."""
    if word == "any":
        return any_of(4)
    if word == "host":
        return of_4(host(words.next("an address")))
    if word == "range":
        return of_4(address_range(words.next("an address"), words.next("an address")))
    if word.startswith("/") or "/" in word:
        return of_4(prefix(word))
    if words.peek().startswith("/"):
        return of_4(prefix(word + words.next()))
    mask = words.next("a mask") if words.peek() else "255.255.255.255"
    if mask == "0.0.0.0":
        raise CantSay("the mask 0.0.0.0 is that of all addresses, or a wildcard mask of one: write any or host")
    return netmask(word, mask)


def of_4(found):
    """Addresses that have to be of IPv4."""
    if 4 not in found:
        raise CantSay("the address is of IPv6")
    return found


def service_member(word, words):
    """The services of a member: a protocol with its ports, of the source after `source`."""
    protocols = boxes.union(((6, 6), (17, 17))) if word == "tcp-udp" else protocol(word, IP4)
    if protocols in (ICMP, ICMP6) and words.peek():
        raise CantSay(compares("a type of ICMP"))
    source = None
    if words.peek() == "source":
        words.next()
        source = member_ports(words)
    return [Service(protocols, source, member_ports(words) if words.peek() else None)]


def member_ports(words):
    """Ports with or without a comparison; a port alone is that one."""
    alone = is_number(words.peek()) or words.peek() in PORTS
    return ports(Words(["eq", words.next()]) if alone else words, PORTS)


def join(kind, parts):
    """The members of a group together."""
    return union(parts) if kind == "network" else once(parts)


class Groups(cisco_groups.Groups):
    """The groups, as entries ask for them."""

    def addresses(self, name, family):
        """The addresses of a group of networks."""
        if family == 6:
            raise CantSay("a group of IPv6 addresses isn't read")
        return self.value(name, ("network",))

    def services(self, name):
        """The services of a group of services."""
        return self.value(name, ("service",))


class Configuration(cisco_lists.Configuration):
    """A configuration of IOS."""

    known = ios_words.KNOWN

    def __init__(self):
        super().__init__()
        self.groups = Groups(member, join)

    def begin(self, number, text, words):
        """Whether a line is a command of a list, or begins one, a group, or a part with entries that aren't read."""
        removed = words[0] == "no"
        words = words[1:] if removed else words
        if words[:1] == ["access-list"]:
            self.numbered(number, text, words[1:], removed)
        elif words[:2] == ["ip", "access-list"] or words[:2] == ["ipv6", "access-list"]:
            self.named(number, text, words, removed)
        elif words[:1] == ["object-group"]:
            self.group(number, text, words[1:], removed)
        elif words[:2] in COMMUNITIES and not {"permit", "deny"} & set(words):
            self.open = cisco_lists.UNREAD
        else:
            return self.begin_other(words, removed)
        return True

    def numbered(self, number, text, words, removed):
        """A command `access-list`: an entry of a numbered list, or the end of one."""
        self.open = cisco_lists.AFTER
        if words[:1] in (["rate-limit"], ["compiled"], ["dynamic-extended"]):
            return
        if words[1:2] in (["extended"], ["standard"], ["line"]):
            raise CantSay("the list is one of Cisco's ASA, whose masks aren't wildcard masks: the form asa reads it",
                          number, text)
        if not words or not cisco_lists.is_plain(words[0]):
            raise CantSay("the line has no number of a list after access-list", number, text)
        kind = kind_of(words[0])
        if removed and len(words) > 1:
            raise CantSay("the line takes an entry out of a list, and on some devices the whole list", number, text)
        if removed:
            self.lists.pop(words[0], None)
        elif kind is not None:
            self.add_numbered(number, text, words, kind)
        elif not 200 <= int(words[0]) <= 1299:
            raise CantSay(f"{words[0]} is no number of a list", number, text)

    def add_numbered(self, number, text, words, kind):
        """An entry of a numbered list."""
        if words[1:2] not in (["permit"], ["deny"], ["remark"], ["dynamic"]):
            raise CantSay("the line has none of permit, deny and remark after the number of its list", number, text)
        entry = cisco_lists.Entry(number, text, None, words[1:])
        reason = kind == STANDARD and words[1] in VERDICTS and standard(entry).reason
        if reason:
            raise CantSay(f"the line is no entry of a standard list, as its number says: {reason}", number, text)
        self.begin_list(words[0], kind, 4, number, text).entries.append(entry)

    def named(self, number, text, words, removed):
        """A command `ip access-list` or `ipv6 access-list`: it begins a list, or removes one."""
        family, kind = (6, "an IPv6 list") if words[0] == "ipv6" else (4, KINDS.get("".join(words[2:3])))
        name = words[2:] if family == 6 else words[3:]
        self.open = cisco_lists.UNREAD if words[2:3] and words[2] in UNREAD_LISTS else cisco_lists.OUTSIDE
        if words[2:3] and words[2] in (*SETTINGS, *UNREAD_LISTS):
            return
        if kind is None or len(name) != 1:
            raise CantSay("the line begins no list: ip access-list extended NAME, ip access-list standard NAME or "
                          "ipv6 access-list NAME does", number, text)
        if family == 4 and is_number(name[0]) and (kind_of(name[0]) != kind or not cisco_lists.is_plain(name[0])):
            raise CantSay(f"{name[0]} isn't the number of {kind}", number, text)
        if removed:
            self.lists.pop(name[0], None)
        else:
            self.open = self.begin_list(name[0], kind, family, number, text)

    def group(self, number, text, words, removed):
        """A command `object-group`."""
        if len(words) > 2:
            raise CantSay("the line begins no group of IOS: object-group network NAME or object-group service NAME "
                          "does", number, text)
        if len(words) < 2 or words[0] not in GROUPS:
            raise CantSay("the line has no kind that is known here and a name of a group", number, text)
        self.open = cisco_lists.OUTSIDE
        if removed:
            self.groups.remove(words[1])
        else:
            self.open = self.groups.begin(words[1], words[0], number, text)


def standard(entry):
    """The rule of an entry of a standard list, which compares the source alone."""
    words = Words(entry.words)
    verdict = VERDICTS[words.next()]
    try:
        word = words.next("an address")
        if word == "any":
            source = any_of(4)
        elif word == "host":
            source = of_4(host(words.next("an address")))
        else:
            source = wildcard(word, words.next() if words.peek()[:1].isdigit() else "0.0.0.0")
        found = [Service(boxes.PROTOCOLS, None, None)]
        skip_options(words, DIALECT, found)
        return Rule(entry.number, entry.text, boxes_of(source, any_of(4), found), verdict, None, None)
    except CantSay as said:
        return Rule(entry.number, entry.text, [], verdict, None, said.reason)


def rule_of(entry, found, groups):
    """The rule of an entry."""
    if entry.words[0] == "evaluate":
        return Rule(entry.number, entry.text, [], ACCEPT, None, compares("the state of a connection"))
    if entry.words[0] == "dynamic":
        return Rule(entry.number, entry.text, [], ACCEPT, None,
                    "it is opened by a user who logs in, and a rule can't be")
    if found.kind == STANDARD:
        return standard(entry)
    return read(entry.number, entry.text, Words(entry.words), found.family, DIALECT, groups)


def convert(lines, options):
    """The chain of the list that is meant, its name, and its family."""
    configuration = cisco_lists.read(Configuration(), lines)
    found = configuration.chosen(options)
    if found.kind == "an IPv6 list":
        for entry in found.entries:
            take_sequence(entry)
    rules = [rule_of(entry, found, configuration.groups) for entry in found.in_order(False)]
    return cisco_lists.chain_of(found, rules, [found.family], "two types of ICMP, which find neighbors")


def take_sequence(entry):
    """The number in the sequence, which an entry of an IPv6 list may have at its end."""
    words = entry.words
    if not entry.remark and words[-2:-1] == ["sequence"] and is_number(words[-1]):
        if entry.sequence is not None:
            raise CantSay("the entry has two sequence numbers", entry.number, entry.text)
        entry.sequence, entry.words = int(words[-1]), words[:-2]
