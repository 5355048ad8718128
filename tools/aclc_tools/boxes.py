# SPDX-License-Identifier: BSD-3-Clause
"""Sets of packets that a firewall rule matches, and the rules of aclc that say them.

A box has a family and, for each of source, destination, both ports and protocol, the numbers that it allows: disjoint
intervals in order, both ends included. A packet is in it where each of its numbers is allowed.
"""
from collections import namedtuple
from functools import lru_cache

BITS = {4: 32, 6: 128}
PORTS = ((0, 0xFFFF),)
PROTOCOLS = ((0, 0xFF),)
PORTED = ((6, 6), (17, 17), (132, 132))
Box = namedtuple("Box", "family source destination source_ports destination_ports protocols")
SIDES = ("source", "destination", "source_ports", "destination_ports", "protocols")


def whole(family):
    """All packets of a family."""
    every = ((0, (1 << BITS[family]) - 1),)
    return Box(family, every, every, PORTS, PORTS, PROTOCOLS)


def union(intervals):
    """Disjoint intervals in order, with those joined that meet."""
    joined = []
    for low, high in sorted(intervals):
        if joined and low <= joined[-1][1] + 1:
            joined[-1] = joined[-1][0], max(joined[-1][1], high)
        else:
            joined.append((low, high))
    return tuple(joined)


def both(one, other):
    """What two sets of intervals have in common."""
    found, first, second = [], 0, 0
    while first < len(one) and second < len(other):
        low, high = max(one[first][0], other[second][0]), min(one[first][1], other[second][1])
        if low <= high:
            found.append((low, high))
        if one[first][1] < other[second][1]:
            first += 1
        else:
            second += 1
    return tuple(found)


def minus(one, other):
    """What is in a set of intervals and not in another."""
    return both(one, without(max(one[-1][1], other[-1][1]) if one and other else one[-1][1] if one else 0, other))


def without(most, intervals):
    """The numbers up to the greatest that aren't in the intervals."""
    found, at = [], 0
    for low, high in union(intervals):
        if at < low:
            found.append((at, low - 1))
        at = high + 1
    return tuple(found) + (((at, most),) if at <= most else ())


def meet(one, other):
    """The box of what two boxes have in common, or None."""
    if one.family != other.family:
        return None
    sides = []
    for mine, its in zip(one[1:], other[1:]):
        sides.append(mine if mine == its else both(mine, its))
        if not sides[-1]:
            return None
    return Box(one.family, *sides)


def prefixes(low, high, bits):
    """The prefixes that an interval is made of: the first number of each and its length."""
    while low <= high:
        free = (low & -low).bit_length() - 1 if low else bits
        while low + (1 << free) - 1 > high:
            free -= 1
        yield low, bits - free
        low += 1 << free


def masks(intervals, low=0, free=8):
    """The protocols of the intervals as numbers and masks."""
    high = low + (1 << free) - 1
    kept = both(intervals, ((low, high),))
    if kept == ((low, high),):
        yield low, 0xFF >> free << free
    elif kept:
        yield from masks(kept, low, free - 1)
        yield from masks(kept, low + (1 << free - 1), free - 1)


def address_text(family, value):
    """An address as it is written in a rule."""
    if family == 4:
        return ".".join(str(value >> shift & 255) for shift in (24, 16, 8, 0))
    from aclc_tools.warnings import ip6_text
    return ip6_text(value)


@lru_cache(maxsize=65536)
def prefix_count(intervals, bits):
    """How many prefixes some intervals are made of."""
    return sum(1 for low, high in intervals for _ in prefixes(low, high, bits))


@lru_cache(maxsize=1024)
def mask_count(intervals):
    """How many masks some protocols are made of."""
    return sum(1 for _ in masks(intervals))


def side_count(side, intervals, family):
    """How many pieces the intervals of a side of a box are made of in rules."""
    if side in SIDES[:2]:
        return prefix_count(intervals, BITS[family])
    return mask_count(intervals) if side == "protocols" else len(intervals)


def size(box):
    """How many rules a box takes."""
    count = 1
    for side in SIDES:
        count *= side_count(side, getattr(box, side), box.family)
    return count


def with_holes(met, around, most):
    """A box between `met` and the box around it that takes at most so many rules, and boxes of what it has too much.

    Sides are widened that take fewer pieces so, and of which little is too much: those of most pieces come first.
    """
    counts = {side: side_count(side, getattr(met, side), met.family) for side in SIDES}
    wider, widened = met, {}
    for side in sorted(SIDES, key=lambda it: -counts[it]):
        hole = minus(getattr(around, side), getattr(met, side))
        pieces = [side_count(side, it, met.family) for it in (hole, getattr(around, side))]
        if size(wider) > most and hole and max(pieces) < counts[side]:
            wider, widened[side] = wider._replace(**{side: getattr(around, side)}), hole
    return wider, [wider._replace(**{side: hole}) for side, hole in widened.items()]


def lines(box, tail):
    """The lines of the rules of a box, each with what stands after its columns."""
    networks = [[f"{address_text(box.family, first)}/{length}" for low, high in getattr(box, side)
                 for first, length in prefixes(low, high, BITS[box.family])] for side in SIDES[:2]]
    for source in networks[0]:
        for destination in networks[1]:
            for low, high in box.source_ports:
                for first, last in box.destination_ports:
                    for number, mask in masks(box.protocols):
                        yield (f"@{source}\t{destination}\t{low} : {high}\t{first} : {last}"
                               f"\t0x{number:02X}/0x{mask:02X}\t{tail}")
