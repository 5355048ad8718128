# SPDX-License-Identifier: BSD-3-Clause
"""Comparisons of nft: which packets they match."""
from aclc_tools import boxes
from aclc_tools.lists import CantSay
from aclc_tools.nft_text import one_of, plain
from aclc_tools.nft_values import OTHERS, compared, elements

SIDES = {"saddr": "source", "daddr": "destination", "sport": "source_ports", "dport": "destination_ports"}
PORTED = {"tcp": ((6, 6),), "udp": ((17, 17),), "sctp": ((132, 132),), "th": boxes.PROTOCOLS}
NFPROTO = {"ipv4": 4, "ipv6": 6}
ETHERTYPES = {"ip": 4, "ip6": 6}
INTERFACES = {"iifname": "in", "iif": "in", "oifname": "out", "oif": "out"}
# The hooks whose packets have an interface: where they have none, the kernel's versions say different things.
HAVING = {"in": ("ingress", "prerouting", "input", "forward"), "out": ("forward", "output", "postrouting", "egress")}
# At these hooks the kernel looks a packet's connection up, by this priority.
TRACKING, TRACKED = -200, ("prerouting", "output")
STATES = ("new", "established", "related", "invalid", "untracked")
META_REASONS = {"mark": "a mark", "iiftype": "a type of interface", "skuid": "a user", "skgid": "a user",
                "length": "a length",
                "pkttype": "a type of frame", "hour": "a time", "day": "a time", "time": "a time"}


def place_of(base):
    """Where a base chain stands, in words."""
    return f"at the hook {base['hook']} with the priority {base['prio']}"


def has_interface(base, key):
    """Whether packets of a base chain, if there is one, have an interface."""
    return not base or base["hook"] in HAVING[key]


def has_state(base):
    """Whether the state of their connections is known."""
    return not base or not (base["hook"] == "ingress" or base["hook"] in TRACKED and base["prio"] <= TRACKING)


class Comparing:
    """Takes comparisons into a match: of a ruleset's sets, with what is assumed, of packets of a base chain."""

    def __init__(self, sets, assumption, base=None):
        self.sets, self.assumption, self.base = sets, assumption, base

    def take(self, match, left, operator, right):
        """One comparison."""
        name, said = one_of(left)
        if operator not in ("==", "in", "!=", "<", "<=", ">", ">="):
            raise CantSay(f"the comparison {operator} isn't known")
        taking = {"payload": self.payload, "meta": self.meta, "ct": self.state, "fib": self.fib,
                  "concat": self.concat}.get(name)
        if not taking:
            raise CantSay(f"it compares {name}, which no rule of aclc can")
        taking(match, said, operator, right)

    def keep(self, match, side, operator, right, families):
        """Narrows a side, in each of the families in which it is compared."""
        match.of_family(*families)
        for family in {box.family for box in match.boxes}:
            match.keep(side, *compared(operator, elements(right, self.sets), side, family), family)

    def payload(self, match, said, operator, right):
        """A comparison of a field of a header."""
        if set(said) == {"base", "offset", "len"}:
            raise CantSay("it compares raw bytes of the packet")
        protocol, field = said["protocol"], said["field"]
        families = {"ip": (4,), "ip6": (6,)}.get(protocol, (4, 6))
        if protocol in ("ip", "ip6") and field in ("saddr", "daddr"):
            self.check_addresses(families[0], SIDES[field], operator, right)
            self.keep(match, SIDES[field], operator, right, families)
        elif protocol == "ip" and field == "protocol":
            self.keep(match, "protocols", operator, right, families)
        elif protocol in PORTED and field in ("sport", "dport"):
            match.ports_read = True
            match.keep("protocols", PORTED[protocol])
            self.keep(match, SIDES[field], operator, right, families)
        elif protocol == "ip6" and field == "nexthdr":
            raise CantSay("it compares the first header after IPv6's own, where aclc compares meta l4proto")
        elif protocol in ("icmp", "icmpv6"):
            raise CantSay("it compares a type of ICMP")
        else:
            raise CantSay(f"it compares the field {protocol} {field}, which no rule of aclc can")

    def check_addresses(self, family, side, operator, right):
        """Refuses addresses of the other family, in rules of which nothing is left too."""
        compared(operator, elements(right, self.sets), side, family)

    def meta(self, match, said, operator, right):
        """A comparison of what is known of a packet beside its bytes."""
        key = said["key"]
        if key == "l4proto":
            self.keep(match, "protocols", operator, right, (4, 6))
        elif key in ("nfproto", "protocol"):
            known = NFPROTO if key == "nfproto" else ETHERTYPES
            found = self.equal(operator, right, lambda it: known.get(it) if isinstance(it, str) else None,
                               "family of packets")
            wanted = {4, 6} if OTHERS in found else set(found)
            match.of_family(*({4, 6} - wanted if operator == "!=" else wanted))
        elif key in INTERFACES:
            self.interface(match, INTERFACES[key], operator, right)
        else:
            raise CantSay(f"it compares {META_REASONS.get(key, f'meta {key}')}, which no rule of aclc can")

    def equal(self, operator, right, known, what):
        """The values of a comparison for equality, each as it is known."""
        if isinstance(right, list) and operator != "in":
            raise CantSay("it compares several values at once, and not for one of them")
        found = []
        for value in elements(right, self.sets):
            for it in value if isinstance(value, list) else [value]:
                found.append(OTHERS if it == OTHERS else known(it))
                if found[-1] is None:
                    raise CantSay(f"{plain(it)} is no {what} that is known here")
        if operator not in ("==", "in", "!="):
            raise CantSay(f"the comparison {operator} isn't one of equality")
        return found

    def interface(self, match, key, operator, right):
        """A comparison of the name of an interface."""
        names = self.equal(operator, right, lambda it: it if isinstance(it, str) and "\\" not in it else None,
                           "name of an interface")
        given = self.assumption.interface(key)
        if not has_interface(self.base, key):
            raise CantSay(f"it compares an interface that packets don't have {place_of(self.base)}")
        if given is None:
            raise CantSay(f"it compares an interface, which only --assume {key}=NAME tells")
        met = any(given.startswith(it[:-1]) if it.endswith("*") else given == it for it in names)
        match.truth(met != (operator == "!="))

    def state(self, match, said, operator, right):
        """A comparison of the state of a connection."""
        if said["key"] != "state":
            raise CantSay(f"it compares {said['key']} of a connection, which no rule of aclc can")
        states = self.equal(operator, right, lambda it: it if it in STATES else None, "state of a connection")
        if not has_state(self.base):
            raise CantSay(f"it compares the state of a connection, which isn't known yet {place_of(self.base)}")
        if not self.assumption.state:
            raise CantSay("it compares state of a connection, which only --assume state=NAME tells")
        match.truth((self.assumption.state in states or OTHERS in states) != (operator == "!="))

    def fib(self, match, said, operator, right):
        """A comparison of the type of an address."""
        flags = said["flags"] if isinstance(said["flags"], list) else [said["flags"]]
        types = self.equal(operator, right, lambda it: it if isinstance(it, str) else None, "type of an address")
        if said["result"] != "type" or flags not in (["saddr"], ["daddr"]) or types != ["local"]:
            raise CantSay("it compares what the tables of routes say of an address")
        match.keep_local(SIDES[flags[0]], self.assumption, operator == "!=")

    def concat(self, match, lefts, operator, right):
        """A comparison of several things at once: each element is a box."""
        if operator not in ("==", "in"):
            raise CantSay("it compares a concatenation in another way than for equality")
        found = []
        for value in elements(right, self.sets):
            part = match.copy()
            self.part(part, {"concat": lefts}, value)
            found += part.boxes
            match.ports_read |= part.ports_read
        match.boxes = found

    def part(self, match, left, value):
        """Narrows a match to one element of a set or a map."""
        name, said = one_of(left)
        if name != "concat":
            self.take(match, left, "==", {"set": [value]})
            return
        # What stands for all others has any values, and still is a packet that has what is compared.
        inner, values = ("concat", [OTHERS] * len(said)) if value == OTHERS else one_of(value)
        if inner != "concat" or len(values) != len(said):
            raise CantSay("an element has another number of parts than what it is compared with")
        for one, it in zip(said, values):
            self.take(match, one, "==", {"set": [it]})
