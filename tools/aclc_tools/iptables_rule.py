# SPDX-License-Identifier: BSD-3-Clause
"""One rule of iptables-save: its words, and which packets it matches."""
import re

from aclc_tools import assume, boxes, iptables_options, names, rule_file
from aclc_tools.iptables_words import Line, protocol
from aclc_tools.lists import ACCEPT, DROP, GO, JUMP, PASS, REJECT, RETURN, CantSay, Malformed, Rule
from aclc_tools.matching import Match

VERDICTS = {"ACCEPT": ACCEPT, "DROP": DROP, "REJECT": REJECT, "RETURN": RETURN}
STATES = ("INVALID", "NEW", "ESTABLISHED", "RELATED", "UNTRACKED")
MULTICAST = ((0xE0000000, 0xEFFFFFFF),)
MOST_LISTED = 15
# What REJECT answers with in each family.
REJECTS = {4: ("icmp-net-unreachable", "icmp-host-unreachable", "icmp-proto-unreachable", "icmp-port-unreachable",
               "icmp-net-prohibited", "icmp-host-prohibited", "icmp-admin-prohibited"),
           6: ("icmp6-no-route", "icmp6-adm-prohibited", "icmp6-addr-unreachable", "icmp6-port-unreachable",
               "icmp6-policy-fail", "icmp6-reject-route", "no-route", "adm-prohibited", "addr-unreach", "port-unreach",
               "policy-fail", "reject-route")}
# The matches that are read.
READ = ("tcp", "udp", "sctp", "icmp", "icmp6", "multiport", "iprange", "comment", "conntrack", "state", "addrtype")
SIDES = {"-s": "source", "-d": "destination", "--src-range": "source", "--dst-range": "destination",
         "--src-type": "source",
         "--dst-type": "destination", "--sport": "source_ports", "--dport": "destination_ports",
         "--sports": "source_ports",
         "--dports": "destination_ports"}


def address(text, family):
    """The number of an address."""
    value = rule_file.ip6_address(text.encode()) if family == 6 else rule_file.ip4_address(text.encode())
    if value is None or family == 4 and re.search(r"(?<!\d)0\d", text):
        raise Malformed(f"{text} is no address of IPv{family}")
    return value


def network(text, family):
    """The interval of an address with a prefix length or a mask."""
    first, slash, mask = text.partition("/")
    value, bits = address(first, family), boxes.BITS[family]
    if not slash:
        free = 0
    elif re.fullmatch(r"0|[1-9]\d{0,2}", mask) and int(mask) <= bits:
        free = bits - int(mask)
    else:
        gaps = (1 << bits) - 1 - address(mask, family)
        free = gaps.bit_length()
        if gaps & gaps + 1:
            raise CantSay(f"the mask {mask} has gaps")
    low = value >> free << free
    return low, low + (1 << free) - 1


def address_range(text, family):
    """The interval of two addresses, or of one."""
    low, dash, high = text.partition("-")
    ends = address(low, family), address(high if dash else low, family)
    if ends[0] > ends[1]:
        raise Malformed(f"no address lies from {low} to {high}")
    return ends


def port(text, number):
    """The number of a port; names are those of TCP."""
    if re.fullmatch(r"0|[1-9]\d{0,4}", text) and int(text) <= 0xFFFF:
        return int(text)
    if number == 6 and text in names.SERVICES:
        return names.SERVICES[text]
    raise Malformed(f"{text or 'nothing'} is no port")


def port_range(text, number):
    """A port, or two with a colon, 0 and 65535 where one is left out."""
    low, colon, high = text.partition(":")
    if not colon:
        return port(low, number), port(low, number)
    ends = port(low or "0", number), port(high or "65535", number)
    if ends[0] > ends[1]:
        raise Malformed(f"no port lies from {low} to {high}")
    return ends


def listed_ports(text, number):
    """The intervals of a list of the match multiport."""
    parts = text.split(",")
    if sum(2 if ":" in it else 1 for it in parts) > MOST_LISTED:
        raise Malformed(f"the match multiport has more than {MOST_LISTED} ports")
    if any(it.startswith(":") or it.endswith(":") for it in parts):
        raise Malformed("a range of the match multiport has no end")
    return boxes.union([port_range(it, number) for it in parts])


class Reading:
    """What a rule matches, read option by option."""

    def __init__(self, line, family, assumption):
        self.line, self.family, self.assumption = line, family, assumption
        self.match, self.reason = Match([family]), None
        for match in line.matches:
            # Matches that aren't read are a reason, even without options.
            if match not in READ:
                self.note(f"it matches {iptables_options.REASONS.get(match, f'what {match} compares')}")
        for option in line.options:
            self.attempt(self.take, option)
        before = self.reason
        self.attempt(self.match.check)
        # Ports of protocols that have none say nothing.
        self.broken = self.reason != before

    def note(self, reason):
        """Keeps the first reason why the rule can't be said."""
        self.reason = self.reason or reason

    def attempt(self, what, *given):
        """Calls a reader; why it can't say what it reads is the rule's reason, if it's the first."""
        try:
            what(*given)
        except Malformed:
            raise
        except CantSay as said:
            self.note(said.reason)

    def take(self, option):
        """Takes one option."""
        name, negated = option.name, option.negated
        text = option.arguments[0] if option.arguments else ""
        if name in ("-s", "-d"):
            self.take_addresses(option, text)
        elif name in ("--src-range", "--dst-range"):
            self.match.keep(SIDES[name], [address_range(text, self.family)], negated)
        elif name == "-p":
            self.take_protocol(text, negated)
        elif name in ("-i", "-o"):
            self.take_interface(name, text, negated)
        elif name in ("--sport", "--dport"):
            self.take_ports(name, [port_range(text, self.line.protocol)], negated)
        elif option.match == "multiport":
            self.take_ports(name, listed_ports(text, self.line.protocol), negated)
        elif name in ("--ctstate", "--state"):
            self.take_state(text, negated)
        elif name in ("--src-type", "--dst-type"):
            self.take_type(SIDES[name], text, negated)
        elif name == "--icmp-type" and text == "any":
            self.match.truth(not negated)
        elif name not in ("--comment", "-c"):
            self.refuse(option)

    def refuse(self, option):
        """Refuses an option of which no rule of aclc can say anything."""
        reasons = {**iptables_options.REASONS, **iptables_options.OPTION_REASONS}
        raise CantSay(f"it matches {reasons.get(option.name) or reasons.get(option.match, option.name)}")

    def take_addresses(self, option, text):
        """Takes -s or -d with its addresses."""
        parts = [network(part, self.family) for part in text.split(",")]
        if option.negated and parts[0] == (0, (1 << boxes.BITS[self.family]) - 1):
            raise Malformed(f"{option.name} excludes all addresses")
        self.match.keep(SIDES[option.name], parts, option.negated)

    def take_protocol(self, text, negated):
        """Takes -p."""
        number = protocol(text)
        if not number and negated:
            raise Malformed("it matches no protocol at all")
        if number:
            self.match.keep("protocols", [(number, number)], negated)

    def take_interface(self, name, text, negated):
        """Takes -i or -o, as it is assumed; a name that ends with + stands for all that begin so."""
        key = "in" if name == "-i" else "out"
        if not text or len(text.rstrip("+")) > 15 or re.search(r"[/\s]", text):
            raise Malformed(f"{text or 'nothing'} is no interface")
        given = self.assumption.interface(key)
        if given is None:
            raise CantSay(f"it matches an interface, which only --assume {key}=NAME tells")
        met = given.startswith(text[:-1]) if text.endswith("+") else given == text
        self.match.truth(met != negated)

    def take_ports(self, name, intervals, negated):
        """Takes an option on ports."""
        self.match.ports_read = True
        if negated and boxes.union(intervals) == boxes.PORTS:
            raise Malformed(f"{name} excludes all ports")
        if name != "--ports":
            self.match.keep(SIDES[name], intervals, negated)
            return
        # Either port; of a negated list neither.
        sides = ("source_ports", "destination_ports")
        for side in sides if negated else ():
            self.match.keep(side, intervals, True)
        if not negated:
            self.match.narrow([(side, intervals) for side in sides])

    def take_state(self, text, negated):
        """Takes the states of a connection, as it is assumed."""
        states = text.upper().split(",")
        for state in states:
            if state in ("SNAT", "DNAT"):
                raise CantSay("it matches connections whose addresses are changed")
            if state not in STATES:
                raise Malformed(f"{state or 'nothing'} is no state of a connection")
        if not self.assumption.state:
            raise CantSay("it matches state of a connection, which only --assume state=NAME tells")
        self.match.truth((self.assumption.state.upper() in states) != negated)

    def take_type(self, side, text, negated):
        """Takes the type of an address."""
        if text == "LOCAL":
            self.match.keep_local(side, self.assumption, negated)
        elif text == "MULTICAST" and self.family == 4:
            self.match.keep(side, MULTICAST, negated)
        else:
            raise CantSay(f"it matches addresses of type {text}")


def verdict_of(line):
    """The verdict of a line's target, and the chain that it names."""
    if line.target is None:
        return PASS, None
    if line.goes:
        return GO, line.target
    if line.target in VERDICTS:
        return VERDICTS[line.target], None
    if line.target in iptables_options.PASSING:
        return PASS, None
    return JUMP, line.target


def check_place(line, chain, family):
    """Refuses what a chain's packets can't have yet, or have no more, and answers that aren't of the list's family."""
    for option, chains in (("-o", ("PREROUTING", "INPUT")), ("-i", ("OUTPUT", "POSTROUTING"))):
        if chain in chains and any(it.name == option for it in line.options):
            raise Malformed(f"{option} stands in no rule of {chain}")
    if "icmp6" in line.matches and family == 4 or "icmp" in line.matches and family == 6:
        raise Malformed(f"its match on a type of ICMP isn't one of IPv{family}")
    if line.reject not in (None, "tcp-reset", *REJECTS[family]):
        raise Malformed(f"{line.reject} is no answer of REJECT in IPv{family}")
    if line.reject == "tcp-reset" and line.protocol != 6:
        raise Malformed("tcp-reset needs -p tcp")


def read_rule(saved, chain, family, assumption=assume.NOTHING):
    """The rule of a line of a chain; Malformed where the line isn't lawful."""
    number, text, words = saved
    try:
        line = Line(words)
        check_place(line, chain, family)
        reading = Reading(line, family, assumption)
    except Malformed as said:
        raise Malformed(said.reason, number, text) from None
    verdict, goal = verdict_of(line)
    if verdict == PASS or reading.reason:
        # Each option leaves fewer packets, so that those that are read hold all that the rule may match.
        known = reading.match.boxes if verdict != PASS and not reading.broken else []
        return Rule(number, text, known, verdict, goal, reading.reason if verdict != PASS else None)
    return Rule(number, text, reading.match.boxes, verdict, goal, None)
