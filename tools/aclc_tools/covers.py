# SPDX-License-Identifier: BSD-3-Clause
"""Which earlier rules cover one that decides nothing: the fewest of them that are found.

What is left of a rule is a list of pieces: a bit for each protocol, and intervals of addresses and ports. Keys that no
packet has are left out from the first.
"""
from bisect import bisect_left
from collections import namedtuple
from functools import lru_cache
from itertools import combinations, product

from aclc_tools.boxes import prefixes
from aclc_tools.keys import WITH_PORTS

Piece = namedtuple("Piece", "protocols source destination source_ports destination_ports")
PORTED = sum(1 << it for it in WITH_PORTS)
MOST_PIECES = 20_000
MOST_PAIRS = 60


class TooMany(Exception):
    """What is left of a rule has too many pieces."""


@lru_cache(maxsize=None)
def protocols_of(value, mask):
    """A bit for each protocol that agrees with a value in the bits of a mask."""
    return sum(1 << it for it in range(256) if not (it ^ value) & mask)


def piece_of(rule):
    """All keys that a rule matches."""
    return Piece(protocols_of(*rule.protocol), *rule.intervals())


def of_box(box):
    """The pieces of a box of `boxes`."""
    protocols = sum(1 << it for low, high in box.protocols for it in range(low, high + 1))
    return [Piece(protocols, *sides) for sides in product(*box[1:5])]


def of_packets(piece):
    """The pieces of the keys that packets have: protocols without ports have ports 0."""
    found = [piece._replace(protocols=piece.protocols & PORTED)]
    if piece.source_ports[0] == piece.destination_ports[0] == 0:
        found.append(piece._replace(protocols=piece.protocols & ~PORTED, source_ports=(0, 0), destination_ports=(0, 0)))
    return [it for it in found if it.protocols]


def meets(one, other):
    """Whether two pieces have a key in common."""
    if not one[0] & other[0]:
        return False
    for (low, high), (first, last) in zip(one[1:], other[1:]):
        if low > last or first > high:
            return False
    return True


def both(one, other):
    """What two pieces have in common, which is something."""
    sides = (((low if low > first else first), (high if high < last else last))
             for (low, high), (first, last) in zip(one[1:], other[1:]))
    return Piece(one[0] & other[0], *sides)


class Networks:
    """Pieces of rules, each with its place, by their network on one side."""

    def __init__(self, side, pieces):
        self.places = {}
        for place, piece in pieces:
            self.places.setdefault(getattr(piece, side), []).append(place)
        self.networks = sorted(self.places)
        self.sizes = sorted({high - low for low, high in self.networks})

    def near(self, low, high):
        """The places of the networks that hold an interval's least number, or begin within the interval."""
        around = [(low & ~size, low | size) for size in self.sizes if low & size]
        within = self.networks[bisect_left(self.networks, (low,)):bisect_left(self.networks, (high + 1,))]
        return [place for it in (*around, *within) for place in self.places.get(it, ())]


class Ranges:
    """Pieces of rules, each with its place, by their ports on one side, in blocks 1, 2, 4 and so on long."""

    def __init__(self, side, pieces):
        self.places = {}
        for place, piece in pieces:
            for block in prefixes(*getattr(piece, side), 16):
                self.places.setdefault(block, []).append(place)
        self.starts = sorted((getattr(piece, side)[0], place) for place, piece in pieces)

    def near(self, low, high):
        """The places of the ranges that hold an interval's least number, or begin within the interval."""
        around = [self.places.get((low >> free << free, 16 - free), ()) for free in range(17)]
        within = self.starts[bisect_left(self.starts, (low + 1,)):bisect_left(self.starts, (high + 1,))]
        return [place for it in around for place in it] + [place for _, place in within]


class Near:
    """Pieces of rules, each with its place, so that those near others are found without a look at each."""

    def __init__(self, pieces):
        self.sides = [Networks(side, pieces) for side in ("source", "destination")]
        self.sides += [Ranges(side, pieces) for side in ("source_ports", "destination_ports")]

    def places(self, pieces):
        """The places of those that may have a key in common with some pieces, in order."""
        return sorted({place for it in pieces for place in
                       min((side.near(*interval) for side, interval in zip(self.sides, it[1:])), key=len)})


def without(piece, other):
    """What is left of a piece without another one."""
    if not meets(piece, other):
        yield piece
        return
    for place, side in enumerate(Piece._fields[1:], 1):
        (low, high), (first, last) = piece[place], other[place]
        if low < first:
            yield piece._replace(**{side: (low, first - 1)})
        if last < high:
            yield piece._replace(**{side: (last + 1, high)})
        piece = piece._replace(**{side: (max(low, first), min(high, last))})
    if piece.protocols & ~other.protocols:
        yield piece._replace(protocols=piece.protocols & ~other.protocols)


def left_by(pieces, others):
    """What others leave of some pieces."""
    for other in others:
        pieces = [left for piece in pieces for left in without(piece, other)]
        if len(pieces) > MOST_PIECES:
            raise TooMany
    return pieces


def cover(pieces, candidates):
    """The fewest candidates that are found to match all of some pieces together, or None where all of them don't.

    A candidate is an entry with the pieces of its rules; they are tried in their order.
    """
    if not pieces:
        return []
    near = [(entry, [it for it in its if any(meets(piece, it) for piece in pieces)]) for entry, its in candidates]
    near = [it for it in near if it[1]]
    for count in (1, 2) if len(near) <= MOST_PAIRS else (1,):
        for some in combinations(near, count):
            if not left_by(pieces, [piece for _, its in some for piece in its]):
                return [entry for entry, _ in some]
    needed, left = [], pieces
    for entry, its in near:
        fewer = left_by(left, its)
        if fewer != left:
            share = [both(piece, it) for piece in left for it in its if meets(piece, it)]
            needed.append((entry, its, share))
            left = fewer
    return None if left else thinned(needed)


def thinned(needed):
    """The entries that can't be left out of some that match all together; the last ones are tried first.

    Each has its share: what those before it leave and it matches. They all are still there when it is tried.
    """
    near, kept = Near([(place, it) for place, (_, its, _) in enumerate(needed) for it in its]), {}
    for place in reversed(range(len(needed))):
        entry, its, share = needed[place]
        later = [it for other in near.places(share) if other in kept for it in kept[other][1]]
        if left_by(share, later):
            kept[place] = entry, its
    return [kept[place][0] for place in sorted(kept)]
