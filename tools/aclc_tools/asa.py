# SPDX-License-Identifier: BSD-3-Clause
"""Extended access lists of Cisco's ASA, with its objects and object groups.

Source: Cisco ASA Series Command Reference, "access-list extended", "object network", "object service", "object-group";
General Operations CLI Guide, "Access Control Lists". Masks are those of networks, and `any` is of both families.
"""
from aclc_tools import asa_groups, boxes, cisco_lists
from aclc_tools.asa_words import KNOWN, PORTED_BY, PORTS, PROTOCOLS, ANY
from aclc_tools.cisco_entries import VERDICTS, Service, boxes_of
from aclc_tools.cisco_words import (OPERATORS, Words, compares, host, is_number, netmask, option_reason, ports, prefix,
                                    protocol)
from aclc_tools.lists import PASS, CantSay, Rule

EXTENDED = "an extended list"
OTHER_KINDS = {"standard": "a standard list", "ethertype": "a list of types of Ethernet",
               "webtype": "a list of addresses of the web"}
SETTINGS = ("alert-interval", "deny-flow-max", "cached", "commit", "mode")
LEVELS = ("emergencies", "alerts", "critical", "errors", "warnings", "notifications", "informational", "debugging",
          "default", "disable", *"01234567")
BY_OTHERS = {"interface": "the address of an interface", "user": "a user", "user-group": "a user",
             "object-group-user": "a user", "security-group": "a security group",
             "object-group-security": "a security group", "object-network-service": "a service of the network",
             "object-group-network-service": "a service of the network"}


def addresses(words, groups):
    """What stands for addresses."""
    word = words.next("an address")
    if word in BY_OTHERS:
        raise CantSay(compares(BY_OTHERS[word]))
    if word in ANY:
        return ANY[word]
    if word == "host":
        return host(groups.named(words.next("an address")))
    if word == "object":
        return groups.value(words.next("an object"), (asa_groups.NETWORK,))
    if word == "object-group":
        return groups.value(words.next("a group"), (asa_groups.NETWORKS,))
    if ":" in word:
        return prefix(word)
    return netmask(groups.named(word), groups.named(words.next("a mask")))


def services(words, groups):
    """What stands for protocols, and whether it has its own ports: a protocol, an object, or a group."""
    word = words.next("a protocol")
    if word == "object":
        return groups.value(words.next("an object"), (asa_groups.SERVICE,)), True
    if word != "object-group":
        return [Service(protocol(word, PROTOCOLS), None, None)], False
    name = words.next("a group")
    kinds = asa_groups.SERVICES, asa_groups.PROTOCOLS_GROUP
    return groups.value(name, kinds), groups.kind_of(name) == asa_groups.SERVICES


def side_ports(words, groups, protocols):
    """The ports of one side, or None where it compares none; a group of ports is one of some protocols."""
    if words.peek() in OPERATORS:
        return ports(words, PORTS)
    if words.peek() != "object-group" or len(words.words) < 2:
        return None
    kind = groups.kind_of(words.words[1])
    if kind not in PORTED_BY:
        return None
    if boxes.both(protocols, PORTED_BY[kind]) != protocols:
        raise CantSay(f"the group {words.words[1]} is of the kind {kind}, and the entry of other protocols")
    words.next()
    return groups.value(words.next(), (kind,))


def skip_options(words, protocols):
    """Passes over `log` with its level and interval and over `inactive`; whether that stands there."""
    if words.peek() == "log":
        words.next()
        if words.peek() in LEVELS:
            words.next()
        if words.peek() == "interval":
            words.next()
            if not is_number(words.next("a number of seconds")):
                raise CantSay("the interval of log is no number of seconds")
    inactive = words.words == ["inactive"]
    if words.peek() and not inactive:
        grouped = words.peek() == "object-group"
        raise CantSay(compares("a type of ICMP") if grouped else option_reason(words.peek(), protocols))
    return inactive


def read(entry, groups):
    """The rule of an entry; one that is inactive decides nothing."""
    words = Words(entry.words)
    verdict = VERDICTS[words.next()]
    try:
        found, own = services(words, groups)
        protocols = boxes.union([one for service in found for one in service.protocols])
        source = addresses(words, groups)
        source_ports = side_ports(words, groups, protocols)
        destination = addresses(words, groups)
        destination_ports = side_ports(words, groups, protocols)
        if own and (source_ports, destination_ports) != (None, None):
            raise CantSay("ports stand after an object or a group of services, which has its own")
        if not own:
            found = [Service(service.protocols, source_ports, destination_ports) for service in found]
        inactive = skip_options(words, protocols)
        made = boxes_of(source, destination, found)
        return Rule(entry.number, entry.text, [] if inactive else made, PASS if inactive else verdict, None, None)
    except CantSay as said:
        return Rule(entry.number, entry.text, [], verdict, None, said.reason)


class Configuration(cisco_lists.Configuration):
    """A configuration of an ASA, whose lists have all their words on each line."""

    known = KNOWN
    banners = False

    def __init__(self):
        super().__init__()
        self.groups = asa_groups.Groups()

    def begin(self, number, text, words):
        """Whether a line is one of a list, begins an object or a group, or gives a name."""
        removed = words[0] == "no"
        words = words[1:] if removed else words
        if words[:1] == ["access-list"]:
            self.open = cisco_lists.AFTER
            self.access_list(number, text, words[1:], removed)
        elif words[:1] == ["object-group"] and not isinstance(self.open, asa_groups.ObjectGroup):
            self.group(number, text, words, removed)
        elif words[:1] in (["object"], ["object-group"]):
            self.group(number, text, words, removed)
        elif words[:1] == ["name"] and len(words) > 2 and not removed:
            self.groups.name(number, text, words)
        elif words[:2] == ["clear", "configure"] or removed and words[:1] == ["name"]:
            raise CantSay("the line takes something out of the configuration: write it as it is then", number, text)
        else:
            return text[0] == ":"
        return True

    def group(self, number, text, words, removed):
        """A line that begins an object or a group, or removes one."""
        self.open = cisco_lists.OUTSIDE
        if len(words) < 3:
            raise CantSay("the line has no kind and no name of an object or a group", number, text)
        kind = asa_groups.kind_of(words)
        if kind is None:
            raise CantSay(f"the words after {words[2]} aren't known at this place", number, text)
        if removed:
            self.groups.remove(words[2])
        else:
            self.open = self.groups.begin(words[2], kind, number, text)

    def access_list(self, number, text, words, removed):
        """A line of a list: an entry or a remark, at its end or at a place that is said."""
        if words and words[0] in SETTINGS:
            return
        if removed:
            raise CantSay("the line takes an entry out of a list: write the list as it is then", number, text)
        name, rest, place = words[0] if words else "", words[1:], None
        if rest[:1] == ["line"]:
            place = int(rest[1]) if len(rest) > 1 and is_number(rest[1]) else 0
            rest = rest[2:]
            if place == 0:
                raise CantSay("a number above 0 stands after line", number, text)
        kind = OTHER_KINDS.get("".join(rest[:1]), EXTENDED)
        if rest[:1] == ["extended"] or kind != EXTENDED:
            rest = rest[1:]
        if rest[:1] not in (["permit"], ["deny"], ["remark"]):
            raise CantSay("the line has none of permit, deny and remark after the name of its list", number, text)
        entry = cisco_lists.Entry(number, text, None, rest)
        entries = self.list_of(name, None if entry.remark else kind, number, text).entries
        entries.insert(len(entries) if place is None else place - 1, entry)

    def list_of(self, name, kind, number, text):
        """The list of a name; a remark says nothing of its kind."""
        found = self.lists.setdefault(name, cisco_lists.AccessList(name, kind, None, number, text))
        found.kind = found.kind or kind
        if kind and kind != found.kind:
            raise CantSay(f"the list {name} is begun as {found.kind}, and the line is of {kind}", number, text)
        return found


def convert(lines, options):
    """The chain of the list that is meant, its name, and both families."""
    configuration = cisco_lists.read(Configuration(), lines)
    found = configuration.chosen(options)
    if found.kind not in (None, EXTENDED):
        raise CantSay(f"{found.name} is {found.kind}, and extended lists alone are read", found.number, found.text)
    rules = [read(entry, configuration.groups) for entry in found.entries if not entry.remark]
    return cisco_lists.chain_of(found, rules, [options.family] if options.family else [4, 6])
