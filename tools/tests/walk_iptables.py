# SPDX-License-Identifier: BSD-3-Clause
"""What a list of iptables-save does with a packet: read plainly from iptables(8), with none of the converter's code.

A line that isn't understood is unlawful, and no packet is judged by such a list. Rules are gone through one by one,
each option is a question about the packet, and what is assumed of interfaces, state and local addresses is part of
the packet.
"""
import ipaddress
import re

PROTOCOLS = {"tcp": 6, "udp": 17, "sctp": 132, "icmp": 1, "ipv6-icmp": 58, "icmpv6": 58, "gre": 47, "esp": 50, "ah": 51,
             "ipip": 94,
             "ipencap": 4, "all": 0, "udplite": 136, "igmp": 2, "ospf": 89}
WITH_PORTS = (6, 17, 132)
ASIDE = {"LOG": ("--log-prefix", "--log-level"), "MARK": ("--set-mark", "--set-xmark"),
         "NFLOG": ("--nflog-group", "--nflog-prefix")}
ENDING = {"ACCEPT": (), "DROP": (), "REJECT": ("--reject-with",), "RETURN": ()}
MODULES = {"tcp": ("--sport", "--dport"), "udp": ("--sport", "--dport"), "sctp": ("--sport", "--dport"),
           "multiport": ("--sports", "--dports", "--ports"), "comment": ("--comment",),
           "iprange": ("--src-range", "--dst-range"),
           "conntrack": ("--ctstate",), "state": ("--state",), "addrtype": ("--src-type", "--dst-type"),
           "icmp": ("--icmp-type",),
           "limit": ("--limit", "--limit-burst")}
STATES = ("NEW", "ESTABLISHED", "RELATED", "INVALID", "UNTRACKED")
BUILT_IN = {"filter": ("INPUT", "FORWARD", "OUTPUT")}


class Unlawful(Exception):
    """A list that isn't understood."""


def require(condition, what):
    """Ends it where a condition doesn't hold."""
    if not condition:
        raise Unlawful(what)


def words_of(line):
    """The words of a line; quotes hold words together, and what stands before them belongs to their word."""
    word = r'([^\s"]*)"((?:\\.|[^"\\])*)"(?=\s|$)|([^\s"]+)(?=\s|$)'
    require(re.fullmatch(rf"\s*(?:(?:{word})(?:\s+|$))*", line), line)
    return [bare or before + re.sub(r"\\(.)", r"\1", quoted) for before, quoted, bare in re.findall(word, line)]


def address_matches(text, value, family):
    """Whether an address is the one that is written, in the bits of its mask."""
    base, _, mask = text.partition("/")
    kind = ipaddress.IPv4Address if family == 4 else ipaddress.IPv6Address
    try:
        wanted, bits = int(kind(base)), 32 if family == 4 else 128
        if not mask:
            ones = (1 << bits) - 1
        elif mask.isdigit():
            require(int(mask) <= bits and str(int(mask)) == mask, text)
            ones = (1 << bits) - (1 << bits - int(mask))
        else:
            ones = int(kind(mask))
    except ValueError:
        raise Unlawful(text) from None
    return wanted & ones == value & ones


def port_matches(text, value):
    """Whether a port is the one that is written, or between the two."""
    require(re.fullmatch(r"(\d+)(:\d+)?|:\d+|\d+:", text), text)
    low, colon, high = text.partition(":")
    low, high = int(low or 0), int((high or 65535) if colon else low)
    require(low <= high <= 65535 and not re.search(r"(^|:)0\d", text), text)
    return low <= value <= high


def range_matches(text, value, family):
    """Whether an address lies between two others."""
    low, _, high = text.partition("-")
    kind = ipaddress.IPv4Address if family == 4 else ipaddress.IPv6Address
    try:
        ends = int(kind(low)), int(kind(high or low))
    except ValueError:
        raise Unlawful(text) from None
    require(ends[0] <= ends[1], text)
    return ends[0] <= value <= ends[1]


def protocol_of(text):
    """The number of a protocol."""
    number = int(text) if text.isdigit() and str(int(text)) == text else PROTOCOLS.get(text.lower(), 256)
    require(number < 256, text)
    return number


class Rule:
    """One line that begins with -A: its questions and its target."""

    def __init__(self, number, words):
        self.number, self.questions, self.target, self.goes, self.protocol = number, [], None, False, None
        self.modules, seen = [], set()
        while words:
            negated = words[0] == "!"
            words = words[1:] if negated else words
            require(len(words) >= 2, "a word is missing")
            option, argument, words = words[0], words[1], words[2:]
            place = option if option in ("-s", "-d", "-p", "-i", "-o", "-j", "-g") else (option, len(self.modules))
            require(option == "-m" or place not in seen, f"{option} twice")
            seen.add(place)
            self.take(option, argument, negated)
        self.check()

    def take(self, option, argument, negated):
        """Takes an option with its argument."""
        if option == "-m":
            require(argument in MODULES and not negated, argument)
            self.modules.append(argument)
        elif option in ("-j", "-g"):
            require(self.target is None and not negated, "two targets")
            self.target, self.goes = argument, option == "-g"
        elif option in (*ASIDE.get(self.target, ()), *ENDING.get(self.target, ())):
            require(not negated and not self.goes, option)
        else:
            implied = {6: ["tcp"], 17: ["udp"], 132: ["sctp"], 1: ["icmp"]}.get(self.protocol, [])
            lawful = ["-s", "-d", "-p", "-i", "-o", *(it for name in self.modules + implied for it in MODULES[name])]
            require(option in lawful, option)
            if option == "-p":
                self.protocol = None if negated else protocol_of(argument)
                require(not negated or protocol_of(argument), "no protocol")
            require(not negated or option not in ("--comment", "--limit", "--limit-burst"), option)
            self.questions.append((option, argument, negated))

    def check(self):
        """What iptables asks for beside lawful options."""
        names = [it[0] for it in self.questions]
        for number, module in ((6, "tcp"), (17, "udp"), (132, "sctp"), (1, "icmp")):
            require(module not in self.modules or self.protocol == number, f"{module} without its protocol")
        for module in self.modules:
            wanted = MODULES[module]
            require(module in ("tcp", "udp", "sctp", "limit") or any(it in names for it in wanted),
                    f"{module} without an option")
        require("multiport" not in self.modules or self.protocol in (6, 17, 132, 136), "ports without a protocol")
        require(sum(it in MODULES["multiport"] for it in names) <= self.modules.count("multiport"),
                "two lists of ports")

    def matches(self, packet):
        """Whether all questions are answered with yes."""
        return all(self.asked(option, argument, packet) != negated for option, argument, negated in self.questions)

    def asked(self, option, argument, packet):
        """The answer to one question."""
        family, source, destination, (sport, dport), protocol = packet.fields
        value = source if option in ("-s", "--src-range", "--src-type") else destination
        if option in ("-s", "-d"):
            return any(address_matches(it, value, family) for it in argument.split(","))
        if option in ("--src-range", "--dst-range"):
            return range_matches(argument, value, family)
        if option in ("--src-type", "--dst-type"):
            require(argument == "LOCAL" and packet.local is not None, argument)
            return value in packet.local or (value >> 24 == 127 if family == 4 else value == 1)
        if option == "-p":
            return protocol_of(argument) in (0, protocol)
        if option in ("-i", "-o"):
            name = packet.interfaces[option]
            require(name is not None and argument, "an interface")
            return name.startswith(argument[:-1]) if argument.endswith("+") else name == argument
        if option in ("--ctstate", "--state"):
            states = argument.upper().split(",")
            require(all(it in STATES for it in states) and packet.state, argument)
            return packet.state in states
        if option in ("--sport", "--dport", "--sports", "--dports", "--ports"):
            require(self.protocol in WITH_PORTS, "ports of another protocol")
            parts = argument.split(",") if option.endswith("s") else [argument]
            require(not option.endswith("s") or all(re.fullmatch(r"\d+(:\d+)?", it) for it in parts), argument)
            ports = {"--sport": [sport], "--sports": [sport], "--dport": [dport], "--dports": [dport],
                     "--ports": [sport, dport]}
            return any([port_matches(it, port) for it in parts for port in ports[option]])
        require(option == "--comment" or option == "--icmp-type" and argument == "any", option)
        return True


class Packet:
    """A packet, and what is assumed of it."""

    def __init__(self, fields, assumed):
        self.fields = fields
        self.interfaces = {"-i": assumed.get("in"), "-o": assumed.get("out")}
        self.state = assumed.get("state", "").upper()
        self.local = {int(ipaddress.ip_address(it)) for it in assumed["local"]} if "local" in assumed else None


class Judge:
    """A list that decides packets: of IPv4 or IPv6, and from one chain of the table filter on."""

    def __init__(self, text, chain, family, assumed):
        self.chains, self.policies, self.chain, self.family, self.assumed = {}, {}, chain, family, assumed
        self.read(text)
        require(chain in self.policies, "no such chain")
        for name in self.chains:
            self.check_loops(name, [])
        for rules in self.chains.values():
            for rule in rules:
                self.check(rule)

    def read(self, text):
        """Reads the one table, which begins, declares its chains, and ends."""
        lines = [(number, line) for number, line in enumerate(text.split("\n"), 1) if line and line[0] != "#"]
        require(lines and lines[0][1] == "*filter" and lines[-1][1] == "COMMIT", "no table")
        for number, line in lines[1:-1]:
            words = words_of(line)
            if line[0] == ":":
                require(re.fullmatch(r":\S+ (ACCEPT|DROP|-)( \[\d+:\d+\])?", line) and words[0][1:] not in self.chains,
                        line)
                require((words[0][1:] in BUILT_IN["filter"]) == (words[1] != "-"), line)
                self.chains[words[0][1:]] = []
                if words[1] != "-":
                    self.policies[words[0][1:]] = number, words[1]
            else:
                require(words[:1] == ["-A"] and len(words) > 1 and words[1] in self.chains, line)
                self.chains[words[1]].append(Rule(number, words[2:]))

    def check(self, rule):
        """A target has to be known, and a rule that decides depends on the packet alone."""
        target = rule.target
        require(target in self.chains and target not in self.policies or not rule.goes
                and (target is None or target in ENDING or target in ASIDE), str(target))
        if target is not None and target not in ASIDE:
            require("limit" not in rule.modules or target in self.chains and not rule.goes and not self.ends(target),
                    "a rate")

    def ends(self, chain):
        """Whether a chain decides anything."""
        return any(rule.target in ("ACCEPT", "DROP", "REJECT") or rule.target in self.chains and self.ends(rule.target)
                   for rule in self.chains[chain])

    def check_loops(self, chain, way):
        """Refuses jumps that lead in a circle."""
        require(chain not in way, "a loop")
        for rule in self.chains[chain]:
            if rule.target in self.chains:
                self.check_loops(rule.target, way + [chain])

    def decides(self, fields):
        """The line that decides a packet."""
        return self.walk(self.chain, Packet(fields, self.assumed)) or self.policies[self.chain][0]

    def walk(self, chain, packet):
        """The line that decides within a chain, or None at its end."""
        for rule in self.chains[chain]:
            leads = rule.target in self.chains
            if rule.target is None or rule.target in ASIDE or leads and not rule.goes and not self.ends(rule.target):
                continue
            if not rule.matches(packet):
                continue
            if rule.target == "RETURN":
                return None
            if rule.target in ENDING:
                return rule.number
            found = self.walk(rule.target, packet)
            if found or rule.goes:
                return found
        return None
