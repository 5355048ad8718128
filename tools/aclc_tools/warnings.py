# SPDX-License-Identifier: BSD-3-Clause
"""What is lawful in a rule file and likely not what was meant."""
import bisect
import heapq
import re

from aclc_tools.boxes import prefixes
from aclc_tools.printing import shown

PORTED = (6, 17, 132)
# Above so many rules of the same two networks they are found by their ports.
FEW = 32


def network_text(rule, network):
    """A network without the bits that don't count."""
    address, bits = network
    kept = address >> rule.bits - bits << rule.bits - bits
    if rule.family == 4:
        return ".".join(str(kept >> shift & 255) for shift in (24, 16, 8, 0)) + f"/{bits}"
    return ip6_text(kept) + f"/{bits}"


def ip6_text(value):
    """An IPv6 address with its longest run of zeros left out."""
    groups = [value >> shift & 0xFFFF for shift in range(112, -1, -16)]
    runs = [(0, 0)]
    for first in range(8):
        last = first
        while last < 8 and groups[last] == 0:
            last += 1
        runs.append((last - first, -first))
    length, first = max(runs)
    texts = [f"{group:x}" for group in groups]
    if length < 2:
        return ":".join(texts)
    return ":".join(texts[:-first]) + "::" + ":".join(texts[-first + length:])


def of_networks(rule):
    for name in ("source", "destination"):
        address, bits = getattr(rule, name)
        if address & (1 << rule.bits - bits) - 1:
            yield name, f"Bits after the prefix are ignored: this is {network_text(rule, (address, bits))}"


def of_protocol(rule):
    value, mask = rule.protocol
    if value & ~mask & 0xFF:
        what = "so any protocol matches" if mask == 0 else "so more protocols match"
        yield "protocol", f"Bits of the number that aren't in the mask are ignored, {what}; one protocol has the mask 0xFF."
    matching = [it for it in range(256) if it & mask == value & mask]
    if any(it in PORTED for it in matching):
        return
    for name in ("source ports", "destination ports"):
        if (rule.source_ports if name[0] == "s" else rule.destination_ports)[0] > 0:
            yield name, "The rule can't match: only TCP, UDP and SCTP have ports, and those of other protocols count as 0."


def of_attributes(rule):
    if rule.flags and rule.flags[1]:
        yield "flags", "Flags are ignored: the rule matches whatever flags a packet has."
    if rule.given.get("cat", 0) >> 16:
        yield "cat", "Only the low 16 bits are categories, and the others are ignored."
    if rule.given.get("data") == 0:
        yield "data", "Userdata 0 looks like the answer of a packet that no rule matches; marks=on tells them apart."


def of_zeros(rule):
    """Warnings on numbers of IPv4 addresses that begin with 0."""
    for name in ("source", "destination"):
        start, end = rule.places[name]
        if re.search(rb"(?<![0-9a-fA-F:])0[0-9]+\.|\.0[0-9]", rule.text[start:end]):
            text = network_text(rule, getattr(rule, name))
            yield name, f"A number with a 0 before it is decimal here, where other tools read octal: this is {text}"


def of_line_ends(lines):
    """A warning on the first CR within a comment: what follows it belongs to the comment."""
    for number, line in enumerate(lines, 1):
        if b"\r" in line and line.lstrip(b" \t")[:1] == b"#":
            said = f"In line {number} CR alone ends no line, so what follows it is a comment: save the file with LF or CR LF."
            yield "ends", None, None, said
            return


def of_rule(rule):
    """The warnings on a rule alone: a part of it, and a sentence."""
    for kind in (of_networks, of_protocol, of_attributes):
        yield from kind(rule)


def outranks(one, other):
    """Whether of two rules that match a packet the first one decides."""
    return (one.priority, -one.ordinal) > (other.priority, -other.ordinal)


def covers(one, other):
    """Whether the first rule matches all that the second one matches, ports and protocol, in all its categories."""
    mask, other_mask = one.protocol[1], other.protocol[1]
    return (one.categories & other.categories == other.categories
            and one.source_ports[0] <= other.source_ports[0] and other.source_ports[1] <= one.source_ports[1]
            and one.destination_ports[0] <= other.destination_ports[0]
            and other.destination_ports[1] <= one.destination_ports[1]
            and mask & other_mask == mask and one.protocol[0] & mask == other.protocol[0] & mask)


class Ports:
    """Rules by the blocks of ports, 1, 2, 4 and so on long, that their range on a side is made of."""

    def __init__(self, side, rules):
        self.side, self.found = side, {}
        for rule in rules:
            for block in prefixes(*getattr(rule, side), 16):
                self.found.setdefault(block, []).append(rule)

    def around(self, rule):
        """The rules whose range has the first port of this one's: a list for each block that has it."""
        first = getattr(rule, self.side)[0]
        blocks = [(first >> 16 - length << 16 - length, length) for length in range(17)]
        return [self.found[block] for block in blocks if block in self.found]


class Alike:
    """Rules of the same two networks, in the order of their lines."""

    def __init__(self):
        self.rules, self.sides = [], None

    def around(self, rule):
        """Those whose ports may hold those of a rule, in the order of their lines."""
        if len(self.rules) <= FEW:
            return self.rules
        self.sides = self.sides or [Ports(side, self.rules) for side in ("source_ports", "destination_ports")]
        lists = min((side.around(rule) for side in self.sides), key=lambda found: sum(map(len, found)))
        return heapq.merge(*lists, key=lambda it: it.line)


class Networks:
    """Rules by the lengths of their two prefixes and by the prefixes, so that those around a rule are found."""

    def __init__(self, rules):
        self.lengths, self.found = {}, {}
        for rule in rules:
            lengths = rule.family, rule.source[1], rule.destination[1]
            self.lengths.setdefault(rule.family, set()).add(lengths[1:])
            self.found.setdefault((lengths, self.prefixes(rule, *lengths[1:])), Alike()).rules.append(rule)

    @staticmethod
    def prefixes(rule, source, destination):
        return rule.source[0] >> rule.bits - source, rule.destination[0] >> rule.bits - destination

    def around(self, rule):
        """The rules whose two networks hold those of this one, those of the same networks together."""
        for source, destination in self.lengths.get(rule.family, ()):
            if source <= rule.source[1] and destination <= rule.destination[1]:
                lengths = rule.family, source, destination
                alike = self.found.get((lengths, self.prefixes(rule, source, destination)))
                if alike:
                    yield alike.around(rule)


def dead(rules):
    """Each rule that never decides because one other rule matches all that it matches and wins, with that rule."""
    networks = Networks(rules)
    for rule in rules:
        winners = [next((it for it in alike if outranks(it, rule) and covers(it, rule)), None)
                   for alike in networks.around(rule)]
        if any(winners):
            yield rule, min(filter(None, winners), key=lambda it: it.line)


def of_order(rules):
    """Warnings on priorities that turn the order of the lines."""
    given = [rule for rule in rules if "pri" in rule.given]
    unsaid = [rule for rule in rules if "pri" not in rule.given]
    lines = [rule.line for rule in unsaid]
    for rule in given:
        # The next one has the greatest priority of those after it.
        at = bisect.bisect(lines, rule.line)
        later = unsaid[at:at + 1]
        if later and later[0].priority > rule.priority:
            yield rule, "pri", f"Rules that say no priority are above this one, also those after it, as in line {later[0].line}."
            return
    rising = all(one.priority < other.priority for one, other in zip(given, given[1:]))
    if len(given) > 1 and rising and not unsaid:
        yield given[-1], "pri", "The greatest priority wins, so the lines decide from the last one to the first."


def of_file(rules, lines=()):
    """All warnings on a file: what it is about, a rule or None, a part of it or None, and a sentence."""
    yield from of_line_ends(lines)
    if not rules:
        yield "empty", None, None, "There is no rule, so that the answer is 0 for each packet."
    for rule in rules:
        for part, said in of_rule(rule):
            yield part, rule, part, said
        for part, said in of_zeros(rule):
            yield "zeros", rule, part, said
    for rule, winner in dead(rules):
        text = " ".join(shown(winner.text).split())
        yield "dead", rule, None, f"This rule never decides: line {winner.line} matches all that it matches, and wins: {text}"
    for rule, part, said in of_order(rules):
        yield "order", rule, part, said
