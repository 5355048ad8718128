# SPDX-License-Identifier: BSD-3-Clause
"""A drawer of filters of Junos, and a walker over their text that shares no code with the converter."""
import ipaddress
import re
from functools import lru_cache

from routers import Unknown, decider

FORM, GIVEN, FAMILIES = "juniper", {"list": "A"}, (4,)
PORTS = {"http": 80, "domain": 53, "https": 443, "ftp": 21, "ssh": 22}
PROTOCOLS = {"tcp": 6, "udp": 17, "icmp": 1, "gre": 47, "esp": 50}
LINE = re.compile(r"set firewall (?:family inet )?filter A (?:term (\S+)(?: (from|then) (.+))?|interface-specific)")
PORTED = {6, 17, 132}
PASSING = r"log|syslog|sample|port-mirror|packet-mode|(?:count|loss-priority|forwarding-class|dscp|traffic-class) \S+"


@lru_cache(None)
def network(text):
    """The first number of a prefix and the bits after it."""
    start, slash, length = text.partition("/")
    try:
        base = int(ipaddress.IPv4Address(start))
    except ValueError:
        raise Unknown(text) from None
    if slash and not (length.isdigit() and int(length) < 33):
        raise Unknown(text)
    return base, 32 - int(length) if slash else 0


def has(text, value):
    """Whether an address lies in a prefix."""
    base, free = network(text)
    return base >> free == value >> free


def between(text, value, names):
    """Whether a number is one that a name, a number or a range says."""
    ends = [text] if text in names else text.split("-")
    found = [names.get(end, int(end) if end.isdigit() else -1) for end in ends]
    if len(found) > 2 or not 0 <= found[0] <= found[-1] <= (65535 if names is PORTS else 255):
        raise Unknown(text)
    return found[0] <= value <= found[-1]


@lru_cache(None)
def unported(text):
    """Whether a protocol has no ports."""
    return not all(number in PORTED for number in range(256) if between(text, number, PROTOCOLS))


class Text:
    """A configuration: the prefixes of lists, and the terms of filter A in order, each with its lines."""

    def __init__(self, text):
        self.prefixes, self.terms, self.first = {}, {}, {}
        for line, words in enumerate(text.split("\n"), 1):
            self.line(line, " ".join(words.split()))
        for words in (line.split() for line in text.split("\n")):
            if words[:6] == "deactivate firewall family inet filter A".split():
                if len(words) != 8 or words[6] != "term" or words[7] not in self.terms:
                    raise Unknown(words)
                del self.terms[words[7]]

    def line(self, line, text):
        """One line."""
        words = text.split()
        if words[:3] == ["set", "policy-options", "prefix-list"] and len(words) in (4, 5):
            self.prefixes.setdefault(words[3], []).extend(words[4:])
        found = LINE.fullmatch(text)
        if found and found.group(1):
            self.first.setdefault(found.group(1), line)
            self.terms.setdefault(found.group(1),
                                  []).extend([(found.group(2), found.group(3))] if found.group(2) else [])
        elif not found and re.match(r"\S+ firewall.* filter A( |$)",
                                    text) and words[0] == "set" or text and words[0] not in ("set", "deactivate"):
            if text[:1] != "#":
                raise Unknown(text)

    def decide(self, packet):
        """The line that decides a packet."""
        if not self.terms:
            raise Unknown("no filter A")
        for name, lines in self.terms.items():
            if self.matches([said for kind, said in lines if kind == "from"], packet):
                verdict = self.verdict([said for kind, said in lines if kind == "then"])
                if verdict != "next":
                    return self.first[name]
        return 0

    def verdict(self, actions):
        """What a term does with what it matches."""
        found = set()
        for action in actions:
            if re.fullmatch(r"accept|discard|reject(?: \S+)?|next term", action):
                found.add(action.split()[0])
            elif not re.fullmatch(PASSING, action):
                raise Unknown(action)
        if len(found) > 1:
            raise Unknown(actions)
        return found.pop() if found else "accept"

    def matches(self, conditions, packet):
        """Whether all conditions of a term match; all are looked at."""
        kinds = {}
        for condition in conditions:
            words = condition.replace("[", " ").replace("]", " ").split()
            rest = words[1:]
            kinds.setdefault(words[0], []).extend([rest] if words[0].endswith(("address", "-list"))
                                                  else [[one] for one in rest])
            if not rest or "[" not in condition and len(rest) > 1 and not words[0].endswith(("address", "-list")):
                raise Unknown(condition)
        lists = {name.replace("prefix-list", "address") for name in kinds if name.endswith("prefix-list")}
        addresses = [it for it in kinds if it.endswith(("address", "-list"))]
        if lists & set(kinds) or {"address", "prefix-list"} & set(kinds) and len(addresses) > 1:
            raise Unknown(kinds)
        found = [self.condition(name, values, packet) for name, values in kinds.items()]
        ported = "protocol" in kinds and not all(unported(value) for (value,) in kinds["protocol"])
        if any("port" in name for name in kinds) and not ported:
            raise Unknown(kinds)
        if any("port" in name for name in kinds) and any(unported(value) for (value,) in kinds["protocol"]):
            raise Unknown(kinds)
        return all(found)

    def condition(self, name, values, packet):
        """Whether one condition matches."""
        _, source, destination, ports, protocol = packet
        positive = name[:-7] if name.endswith("-except") else name
        if positive + "-except" == name and positive == "port":
            raise Unknown(name)
        if name in ("source-address", "source-prefix-list"):
            return self.longest(name, values, source)
        if name in ("destination-address", "destination-prefix-list"):
            return self.longest(name, values, destination)
        if name in ("address", "prefix-list"):
            return any([self.longest(name, values, source), self.longest(name, values, destination)])
        sides = {"source-port": (ports[0],), "destination-port": (ports[1],), "port": ports, "protocol": (protocol,)}
        if positive not in sides:
            raise Unknown(name)
        names = PROTOCOLS if positive == "protocol" else PORTS
        met = any([between(value, side, names) for (value,) in values for side in sides[positive]])
        return met != (positive != name)

    def longest(self, name, values, value):
        """Whether the longest prefix that has an address isn't excepted."""
        prefixes = {}
        for text, *rest in values:
            if rest not in ([], ["except"]):
                raise Unknown(values)
            for one in self.prefixes.get(text) or [None] if name.endswith("list") else [text]:
                if one is None:
                    raise Unknown(text)
                base, free = network(one)
                key = base >> free << free, free
                if prefixes.setdefault(key, bool(rest)) != bool(rest):
                    raise Unknown(values)
        if all(prefixes.values()):
            raise Unknown(values)
        near = [(free, out) for (base, free), out in prefixes.items() if base >> free == value >> free]
        return bool(near) and not min(near)[1]


# The first line of the term of filter A that decides a packet, or 0.
decide = decider(Text)


def conditions(draw):
    """Some conditions of a term."""
    low, found = draw.randrange(12), []
    prefix = f"10.0.0.{low & 12}/30"
    if draw.random() < 0.7:
        side = draw.choice(["source", "destination"])
        found += draw.choice([[f"{side}-address {prefix}"], [f"{side}-prefix-list NETS"],
                              [f"{side}-address 10.0.0.{low}"],
                              [f"{side}-address 10.0.0.0/28", f"{side}-address {prefix} except",
                               f"{side}-address 10.0.0.{low & 12}/32"],
                              [f"{side}-prefix-list NETS", f"{side}-prefix-list HOSTS except"],
                              ["address 10.0.0.0/29"], ["prefix-list HOSTS"]])
    ported = draw.random() < 0.6
    protocols = draw.choice(["tcp", "udp", "[ tcp udp ]"] if ported else ["icmp", "50", "gre", "[ esp gre ]"])
    found += [f"protocol {protocols}"] if ported or draw.random() < 0.4 else []
    if not ported and not found and draw.random() < 0.2:
        found.append(f"protocol-except {draw.choice(['tcp', 'icmp'])}")
    first, second = sorted(draw.sample([21, 22, 53, 80, 443, 1023], 2))
    return found + (draw.choice([[], ["destination-port http", "destination-port 443"],
                                 [f"source-port {first}-{second}"],
                                 [f"port {first}", f"port {second}"], [f"destination-port-except {first}"],
                                 [f"source-port {first}", f"destination-port {second}"]]) if ported else [])


def draw(draw):
    """A configuration with lists of prefixes and the filters A and B."""
    lines = ["## Last commit", "set system host-name border", "set policy-options prefix-list NETS 10.0.0.0/29",
             "set policy-options prefix-list NETS 10.1.0.0/16",
             f"set policy-options prefix-list HOSTS 10.0.0.{draw.randrange(8)}/32",
             "set policy-options policy-statement out term all then accept",
             "set firewall family inet filter A interface-specific"]
    for name in "AB":
        for number in range(draw.randrange(1, 6)):
            head = f"set firewall family inet filter {name} term t{number}"
            actions = draw.choice([["accept"], ["discard"], ["count hits", "accept"], ["log", "discard"], ["next term"],
                                   ["count hits"],
                                   ["reject"], ["reject tcp-reset"]])
            lines += [f"{head} from {it}" for it in conditions(draw)] + [f"{head} then {it}" for it in actions]
            if draw.random() < 0.08:
                lines.append(f"deactivate firewall family inet filter {name} term t{number}")
        lines += [f"set firewall family inet filter {name} term rest then discard"]
    return "\n".join([*lines, "set interfaces ge-0/0/0 unit 0 family inet filter input A"])
