# SPDX-License-Identifier: BSD-3-Clause
"""Parts of all keys, so that a list whose table is too large is looked at part by part.

A part has a family, and like a rule a protocol with its mask, two networks and two ranges of ports. A rule is clipped
to it: what is left matches the keys of the part that the rule matches. Parts are cut until the program takes their
tables.
"""
from collections import namedtuple

from aclc_tools import boxes
from aclc_tools.answers import Refusal, columns_of
from aclc_tools.keys import WITH_PORTS
from aclc_tools.rule_file import MOST_BYTES, MOST_RULES

Part = namedtuple("Part", "protocol source destination source_ports destination_ports")
# A rule, the place of its list, and what is left of it.
Clipped = namedtuple("Clipped", "rule owner part")
WHOLE = Part((0, 0), (0, 0), (0, 0), (0, 0xFFFF), (0, 0xFFFF))
BITS = {4: 32, 6: 128}
MOST_RUNS = 200
# So many runs ask for the greatest table, and the others for the usual one, which is refused sooner.
MOST_GREAT = 40
# The greatest priority: no rule of a list has it, since ranks begin below.
GREATEST = 536870911
# The exit codes of a table that is too large, and of two lists with too many rules.
TOO_LARGE = (4, 11)


def of_rule(rule):
    """The part of all keys that a rule matches."""
    return Part(rule.protocol, rule.source, rule.destination, rule.source_ports, rule.destination_ports)


def of_key(key):
    """The part that has one key alone."""
    (source, destination, *ports), bits = key.numbers[:4], BITS[key.family]
    return Part((key.protocol, 0xFF), (source, bits), (destination, bits), *((it, it) for it in ports))


def both_protocols(one, other):
    """The protocol and mask of what two of them match, or None."""
    (value, mask), (other_value, other_mask) = one, other
    if (value ^ other_value) & mask & other_mask:
        return None
    return value & mask | other_value & other_mask, mask | other_mask


def both_networks(one, other, bits):
    """The longer one of two prefixes, if the other one holds it."""
    short, long = sorted((one, other), key=lambda it: it[1])
    free = bits - short[1]
    return long if short[0] >> free == long[0] >> free else None


def both_ranges(one, other):
    """What two ranges have in common, or None."""
    low, high = max(one[0], other[0]), min(one[1], other[1])
    return (low, high) if low <= high else None


def meet(one, other, bits):
    """The part that two parts have in common, or None."""
    found = Part(both_protocols(one.protocol, other.protocol), both_networks(one.source, other.source, bits),
                 both_networks(one.destination, other.destination, bits),
                 both_ranges(one.source_ports, other.source_ports),
                 both_ranges(one.destination_ports, other.destination_ports))
    return None if None in found else found


def clip(clipped, part, family):
    """What is left in a part of rules that were clipped before."""
    met = ((it, meet(it.part, part, BITS[family])) for it in clipped)
    return [it._replace(part=left) for it, left in met if left]


def by_bit(part, bit):
    """A part cut in two by a bit of the protocol."""
    value, mask = part.protocol
    return [] if mask & bit else [part._replace(protocol=(value & mask | it, mask | bit)) for it in (0, bit)]


def by_network(clipped, part, family, side):
    """A part cut by the bits of a network down to the first that separates rules: both halves, and what was cut off."""
    (address, length), values, cut_off = getattr(part, side), [getattr(it.part, side) for it in clipped], []
    address = address >> BITS[family] - length << BITS[family] - length
    while length < BITS[family]:
        shift, length = BITS[family] - length - 1, length + 1
        narrow = [value >> shift & 1 for value, its_length in values if its_length >= length]
        halves = [part._replace(**{side: (it, length)}) for it in (address, address | 1 << shift)]
        if 0 < sum(narrow) < len(narrow):
            return cut_off + halves
        if not narrow:
            break
        cut_off.append(halves[1 - narrow[0]])
        address |= narrow[0] << shift
    return []


def by_ports(clipped, part, side):
    """A part cut in two where ranges of rules begin or end: at that of these ports that stands in the middle."""
    low, high = getattr(part, side)
    ends = {end for it in clipped for end in (getattr(it.part, side)[0], getattr(it.part, side)[1] + 1)
            if low < end <= high}
    middle = sorted(ends)[len(ends) // 2] if ends else None
    return [part._replace(**{side: it}) for it in ((low, middle - 1), (middle, high))] if ends else []


def cut(clipped, part, family):
    """The cut of a part that leaves the fewest rules in the fullest of its pieces, or nothing where none helps."""
    choices = [by_bit(part, 1 << bit) for bit in range(8)]
    choices += [by_network(clipped, part, family, side) for side in ("source", "destination")]
    choices += [by_ports(clipped, part, side) for side in ("source_ports", "destination_ports")]
    counted = []
    for pieces in filter(None, choices):
        counts = [sum(meet(it.part, piece, BITS[family]) is not None for it in clipped) for piece in pieces]
        if min(counts) < len(clipped):
            counted.append((max(counts), sum(counts), pieces))
    return min(counted, key=lambda it: it[:2])[2] if counted else []


def line(family, part, data=None, priority=None, categories=0xFFFF):
    """A line of a rule file, without what the program takes for what isn't there."""
    networks = [f"{boxes.address_text(family, address >> BITS[family] - length << BITS[family] - length)}/{length}"
                for address, length in (part.source, part.destination)]
    ranges = [f"{low}:{high}" for low, high in (part.source_ports, part.destination_ports)]
    value, mask = part.protocol
    more = [f"pri={priority}"] * (priority is not None) + [f"cat={categories}"] * (categories != 0xFFFF)
    more += [f"data={data}"] * (data is not None)
    return f"@{' '.join([*networks, *ranges, f'{value & mask}/{mask}', *more])}\n"


def rule_file(family, part, clipped, of_packets, data=None, masks=()):
    """The bytes of a rule file of what is left of rules in a part, in their order, with the userdata that stands under their
    numbers. Lines that mask keys are decided before all rules, and so are keys that no packet has, if only those of packets
    are looked at.

    A rule without pri= or data= has a priority by its place, and its place as userdata; so neither is written then.
    """
    lines = [*masks, *(it.encode() for it in (of_no_packet(family, part) if of_packets else ()))]
    ranked = any("pri" in it.rule.given for it in clipped)
    for it in clipped:
        number = data[it.rule.ordinal] if data and data[it.rule.ordinal] != len(lines) + 1 else None
        lines.append(whole_line(it.rule, number, ranked) if part == WHOLE else
                     line(family, it.part, number, it.rule.priority if ranked else None, it.rule.categories).encode())
    if len(lines) > MOST_RULES or sum(map(len, lines)) > MOST_BYTES:
        raise Refusal(TOO_LARGE[0], "the rules of both lists are too many for a file")
    return b"".join(lines)


def whole_line(rule, data, ranked):
    """A rule's own line with this userdata, and with its priority, if it isn't by its place."""
    more = b" pri=%d" % rule.priority if ranked and "pri" not in rule.given else b""
    return columns_of(rule, "data") + more + (b"" if data is None else b" data=%d" % data) + b"\n"


def of_no_packet(family, part):
    """Lines for the keys of a part that no packet has, above all others: ports of protocols that have none."""
    every, rest = 0xFFFF, (1, 0xFFFF)
    for value, mask in boxes.masks(boxes.without(0xFF, [(it, it) for it in WITH_PORTS])):
        for ports in ((rest, (0, every)), ((0, 0), rest)):
            met = meet(WHOLE._replace(protocol=(value, mask), source_ports=ports[0], destination_ports=ports[1]), part,
                       BITS[family])
            if met:
                yield line(family, met, 0, GREATEST, 0xFFFF)


def words(family, part):
    """A part in words."""
    value, mask = part.protocol
    text = line(family, part, 0, 0, 1).split()
    ends = f"{text[0][1:]} to {text[1]}, ports {text[2]} to {text[3]}"
    return f"IPv{family}, protocol {value & mask:#04x}/{mask:#04x}, {ends}"


class Search:
    """Looks at all keys of a family, in parts where the program refuses the whole.

    `look` gets the part, the rules of all lists that are left in it, whether keys that no packet has are left out, and
    whether the greatest table is asked for. It asks the program, and says whether the part has to be looked at once more
    without these keys.
    """

    def __init__(self, family, lists, look):
        self.family, self.look = family, look
        self.rules = [Clipped(rule, owner, of_rule(rule)) for owner, rules in enumerate(lists) for rule in rules
                      if rule.family == family]
        self.left, self.runs, self.parts, self.message = [], 0, 0, ""

    def run(self):
        """Looks at each part, and gives those that couldn't be looked at."""
        waiting = [(WHOLE, self.rules, False)] if self.rules else []
        while waiting:
            part, clipped, of_packets = waiting.pop()
            if self.runs == MOST_RUNS:
                self.left.append((part, clipped))
                continue
            self.runs += 1
            try:
                if self.look(self.family, part, clipped, of_packets, self.runs <= MOST_GREAT) and not of_packets:
                    waiting.append((part, clipped, True))
                else:
                    self.parts += 1
            except Refusal as refusal:
                if refusal.code not in TOO_LARGE:
                    raise
                self.message, pieces = refusal.message, cut(clipped, part, self.family)
                narrowed = [(piece, clip(clipped, piece, self.family), of_packets) for piece in reversed(pieces)]
                waiting += [it for it in narrowed if it[1]]
                self.left += [] if pieces else [(part, clipped)]
        return self.left
