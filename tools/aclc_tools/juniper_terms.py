# SPDX-License-Identifier: BSD-3-Clause
"""Terms of Juniper's firewall filters: what they compare and what they do, as rules.

Of several values of one condition any may match, and all conditions have to. A term without a verdict accepts.
"""
import difflib

from aclc_tools import boxes
from aclc_tools.cisco_words import compares, is_number, of_family, prefix
from aclc_tools.lists import ACCEPT, DROP, PASS, REJECT, CantSay, Rule

PROTOCOLS = {"ah": 51, "egp": 8, "esp": 50, "gre": 47, "icmp": 1, "icmp6": 58, "icmpv6": 58, "igmp": 2, "ipip": 4,
             "ipv6": 41, "ospf": 89, "pim": 103, "rsvp": 46, "sctp": 132, "tcp": 6, "udp": 17, "vrrp": 112}
PORTS = {"afs": 1483, "bgp": 179, "biff": 512, "bootpc": 68, "bootps": 67, "cmd": 514, "cvspserver": 2401, "dhcp": 67,
         "domain": 53, "eklogin": 2105, "ekshell": 2106, "exec": 512, "finger": 79, "ftp": 21, "ftp-data": 20,
         "http": 80, "https": 443, "ident": 113, "imap": 143, "kerberos-sec": 88, "klogin": 543, "kpasswd": 761,
         "krb-prop": 754, "krbupdate": 760, "kshell": 544, "ldap": 389, "ldp": 646, "login": 513, "mobileip-agent": 434,
         "msdp": 639, "netbios-dgm": 138, "netbios-ns": 137, "netbios-ssn": 139, "nfsd": 2049, "nntp": 119,
         "ntalk": 518, "ntp": 123, "pop3": 110, "pptp": 1723, "printer": 515, "radacct": 1813, "radius": 1812,
         "rip": 520, "rkinit": 2108, "smtp": 25, "snmp": 161, "snmptrap": 162, "snpp": 444, "socks": 1080, "ssh": 22,
         "sunrpc": 111, "syslog": 514, "tacacs": 49, "tacacs-ds": 65, "talk": 517, "telnet": 23, "tftp": 69,
         "timed": 525, "who": 513, "xdmcp": 177}
# Conditions on addresses, with the sides that may match.
ADDRESSES = {"source-address": ("source",), "destination-address": ("destination",),
             "address": ("source", "destination")}
LISTS = {"source-prefix-list": "source-address", "destination-prefix-list": "destination-address",
         "prefix-list": "address"}
PORT_SIDES = {"source-port": ("source_ports",), "destination-port": ("destination_ports",),
              "port": ("source_ports", "destination_ports")}
NUMBERS = {"protocol": ("protocols",), "payload-protocol": ("protocols",), **PORT_SIDES}
COMPARED = {"next-header": "the first header after that of IPv6 (payload-protocol is what a rule compares)",
            "tcp-flags": "TCP flags", "tcp-established": "TCP flags", "tcp-initial": "TCP flags",
            "icmp-type": "a type of ICMP", "icmp-code": "a type of ICMP", "interface": "an interface",
            "interface-group": "an interface", "interface-set": "an interface", "fragment-flags": "fragments",
            "fragment-offset": "fragments", "first-fragment": "fragments", "is-fragment": "fragments",
            "ip-options": "options of the header", "packet-length": "the length of a packet",
            "dscp": "a mark of the header", "precedence": "a mark of the header",
            "traffic-class": "a mark of the header", "ttl": "the lifetime of a packet",
            "hop-limit": "the lifetime of a packet", "forwarding-class": "a class of the device",
            "loss-priority": "a class of the device"}
# Actions that decide more than a rule can.
DOING = ("policer", "three-color-policer", "hierarchical-policer", "routing-instance", "logical-system", "next-ip",
         "next-ip6", "next-interface", "topology", "decapsulate", "encapsulate", "prefix-action", "ipsec-sa",
         "load-balance", "service-filter-hit")
VERDICTS = {"accept": ACCEPT, "discard": DROP, "reject": REJECT, "next": PASS}
# Actions that decide nothing, each with whether a word follows.
PASSING = {"count": 1, "log": 0, "syslog": 0, "sample": 0, "port-mirror": 0, "loss-priority": 1, "forwarding-class": 1,
           "packet-mode": 0, "traffic-class": 1, "dscp": 1}


def near(word):
    """Whether a word is nearly one that begins a filter or a list of prefixes."""
    return bool(difflib.get_close_matches(word.lower(), ("firewall", "prefix-list"), 1, 0.75))


class Term:
    """A term: its first line, its conditions by name with the values of each, and its actions."""

    def __init__(self, name, number):
        self.name, self.number, self.conditions, self.actions, self.texts = name, number, {}, [], []

    def take(self, number, text, words):
        """One line of the term."""
        if words[:1] == ["from"] and len(words) > 1:
            values = words[2].strip("[] ").split() if words[2:3] and words[2][:1] == "[" else words[2:3]
            rest = words[3:]
            for value in values or [None]:
                self.conditions.setdefault(words[1], []).append((number, text, value, rest))
        elif words[:1] == ["then"] and len(words) > 1:
            self.actions.append((number, text, words[1:]))
        elif words:
            raise CantSay("the line has neither from nor then after the name of its term", number, text)
        self.texts.append(" ".join(words))


class Match:
    """What the conditions of a term match so far."""

    def __init__(self, family):
        self.family, self.boxes, self.ports_read = family, [boxes.whole(family)], False

    def keep(self, sides, intervals):
        """Keeps what has one of the sides in the intervals."""
        kept = [box._replace(**{side: met}) for box in self.boxes for side in sides
                for met in [boxes.both(getattr(box, side), intervals)] if met]
        self.boxes = kept

    def check(self):
        """Ports are compared whatever the protocol is, so a term that does has to name protocols that have some."""
        if self.ports_read and any(boxes.both(box.protocols, boxes.PORTED) != box.protocols for box in self.boxes):
            raise CantSay(compares("ports of a protocol other than TCP, UDP and SCTP"))


def number_range(text, names, most):
    """The interval of a number, a name, or two with a dash between them."""
    ends = [text] if text in names else text.split("-", 1)
    found = [int(end) if is_number(end) else names.get(end) for end in ends]
    if None in found or max(found) > most:
        raise CantSay(f"{text} is no number or name that is known here")
    if found[0] > found[-1]:
        raise CantSay(f"no number lies from {ends[0]} to {ends[-1]}")
    return found[0], found[-1]


def one_value(value, rest):
    """The one value of a condition."""
    if value is None or rest:
        raise CantSay("the condition has no value, or more words than one value")
    return value


def numbers(name, values):
    """The intervals of a condition on protocols or ports."""
    names, most = (PORTS, 0xFFFF) if name in PORT_SIDES else (PROTOCOLS, 0xFF)
    return boxes.union(each(values, lambda value, rest: [number_range(one_value(value, rest), names, most)]))


def each(values, read):
    """What all values of a condition say together; where one can't be read, its line is told."""
    found = []
    for number, text, value, rest in values:
        try:
            found += read(value, rest)
        except CantSay as said:
            raise CantSay(said.reason, number, text) from None
    return found


def network(text, family):
    """The addresses of a prefix, or of one address."""
    of_family(text.partition("/")[0], family)
    found, = prefix(text if "/" in text else f"{text}/{boxes.BITS[family]}")[family]
    return found


def excepted(value, rest):
    """Whether a value is excepted from those that match."""
    if value is None or rest not in ([], ["except"]):
        raise CantSay("the condition has no value, or other words than except after it")
    return rest == ["except"]


def listed(name, family, prefixes):
    """The addresses of a list of prefixes."""
    if not prefixes.get(name):
        raise CantSay(f"the list of prefixes {name} doesn't stand in this file, or is empty")
    found = []
    for number, text in prefixes[name]:
        if text == "apply-path":
            raise CantSay(f"the list of prefixes {name} is drawn from other parts of the configuration")
        try:
            found.append(network(text, family))
        except CantSay as said:
            raise CantSay(f"the list of prefixes {name} can't be taken: in line {number}, {said.reason}") from None
    return found


def longest_match(parts):
    """The addresses whose longest prefix of those given isn't excepted."""
    if all(out for _, out in parts):
        raise CantSay("the condition excepts addresses, and says none of which they are excepted")
    if {one for one, out in parts if out} & {one for one, out in parts if not out}:
        raise CantSay("a prefix stands with except and without it")
    return boxes.union(by_longest(parts))


def by_longest(parts):
    """The intervals whose longest prefix isn't excepted. Prefixes lie in each other or apart."""
    around, at, end = [], 0, ((1 << 128, 1 << 128), True)
    for (low, high), out in [*sorted(parts, key=lambda it: (it[0][0], -it[0][1])), end]:
        while around and around[-1][0] < low:
            last, excepted_here = around.pop()
            if not excepted_here and at <= last:
                yield at, last
            at = last + 1
        if around and not around[-1][1] and at < low:
            yield at, low - 1
        around.append((high, out))
        at = low


def addresses(name, values, family, prefixes):
    """The intervals of a condition on addresses or on lists of prefixes."""
    def read(value, rest):
        """The prefixes of one value, and whether they are excepted."""
        out = excepted(value, rest)
        if out and name in ("address", "prefix-list"):
            raise CantSay(f"{name} with except is read in two ways: write source-{name} and destination-{name}")
        return [(one, out) for one in (listed(value, family, prefixes) if name in LISTS else [network(value, family)])]
    return longest_match(each(values, read))


def take(match, name, values, prefixes):
    """Narrows what is matched by one condition."""
    positive = name[:-len("-except")] if name.endswith("-except") else name
    if name in ADDRESSES or name in LISTS:
        match.keep(ADDRESSES[LISTS.get(name, name)], addresses(name, values, match.family, prefixes))
    elif positive in NUMBERS:
        found = numbers(positive, values)
        if positive == ("protocol" if match.family == 6 else "payload-protocol"):
            raise CantSay(f"{positive} is no condition of this family")
        if positive != name and positive == "port":
            raise CantSay("port-except is read in two ways: write source-port-except and destination-port-except")
        match.ports_read = match.ports_read or positive in PORT_SIDES
        match.keep(NUMBERS[positive], boxes.without(0xFFFF if positive in PORT_SIDES else 0xFF, found)
                   if positive != name else found)
    else:
        raise CantSay(compares(COMPARED[positive]) if positive in COMPARED
                      else f"the condition {name} isn't known here")


def take_at_line(match, name, values, prefixes):
    """Narrows by one condition; where it can't be said, its first line is told, unless the line at fault is known."""
    try:
        take(match, name, values, prefixes)
    except CantSay as said:
        number, text = (said.number, said.text) if said.number else values[0][:2]
        raise CantSay(said.reason, number, text) from None


def check_together(conditions):
    """How a device joins these conditions isn't written, so they aren't taken together."""
    for one, other in LISTS.items():
        if one in conditions and other in conditions:
            raise CantSay(f"a term with both {one} and {other} isn't taken: put the prefixes in one of them")
    either = {"address", "prefix-list"} & set(conditions)
    if either and len({*ADDRESSES, *LISTS} & set(conditions)) > 1:
        raise CantSay(f"a term with {min(either)} and another condition on addresses isn't taken")
    for name in conditions:
        if name.endswith("-except") and name[:-len("-except")] in conditions:
            raise CantSay(f"a term with both {name} and {name[:-len('-except')]} isn't taken")


def is_verdict(words):
    """Whether an action decides: it accepts, discards, rejects with or without a message, or hands on to the next
    term."""
    return words in (["accept"], ["discard"], ["next", "term"]) or words[0] == "reject" and len(words) < 3


def verdict_of(actions):
    """The verdict of a term's actions, or CantSay; without one it accepts."""
    found = {}
    for number, text, words in actions:
        if is_verdict(words):
            found[words[0]] = number
        elif words[0] not in PASSING or len(words) - 1 != PASSING[words[0]]:
            action = " ".join(words)
            known = words[0] in DOING
            raise CantSay(f"it does {action}, and a rule can't" if known else f"the action {action} isn't known here",
                          number, text)
        if len(found) > 1:
            raise CantSay(f"the term has two verdicts: {' and '.join(found)}", number, text)
    return VERDICTS[next(iter(found), "accept")]


def rule_of(term, family, prefixes):
    """The rule of a term; where it can't be said, with the line at fault and the reason."""
    text = f"term {term.name} {' '.join(term.texts)}"
    match = Match(family)
    try:
        verdict = verdict_of(term.actions)
        check_together(term.conditions)
        for name, values in term.conditions.items():
            take_at_line(match, name, values, prefixes)
        match.check()
    except CantSay as said:
        return Rule(said.number or term.number, said.text or text, [], DROP, None, said.reason)
    return Rule(term.number, text, match.boxes, verdict, None, None)
