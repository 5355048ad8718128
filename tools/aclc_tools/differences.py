# SPDX-License-Identifier: BSD-3-Clause
"""All packets that two lists answer differently, by the pairs of lines that decide them.

A rule that both lists have, with the same answer and in the same order beside the others of this kind, is kept. A
packet that kept rules decide in both lists is decided by the same one: else this one would stand before the other in
one list, and after it in the other. So each difference is at a packet that a rule decides which isn't kept. Such a rule
decides what the rules before it leave of it. That is cut by the rules that decide it in the other list.
"""
from bisect import bisect_left
from collections import namedtuple

from aclc_tools import answers, covers, labels

# Pieces are compared so often in all, and at most so many are left of a rule.
MOST_STEPS = 4_000_000
MOST_PIECES = covers.MOST_PIECES
# The lines of rules that decide, each by the number of one of its rules or None, and under the numbers of two rules the
# pieces of the packets for which it is so.
Pair = namedtuple("Pair", "family categories old new is_open pieces")
# A rule whose packets are too many to cut: the place of its list, its number, and the limit that was met.
Untold = namedtuple("Untold", "owner number why")


class TooMuch(Exception):
    """Which limit of the work was met."""


class Work:
    """Cuts pieces, up to the limits."""

    def __init__(self):
        self.steps = 0

    def cut(self, pieces, other):
        """What some pieces have in common with another one, and what is left of them."""
        self.steps += len(pieces)
        if self.steps > MOST_STEPS:
            raise TooMuch(f"{MOST_STEPS:,} comparisons of pieces in all")
        met, left = [], []
        for piece in pieces:
            if covers.meets(piece, other):
                met.append(covers.both(piece, other))
                left.extend(covers.without(piece, other))
            else:
                left.append(piece)
        if len(left) > MOST_PIECES:
            raise TooMuch(f"{MOST_PIECES:,} pieces of a rule")
        return met, left


class Ranked:
    """The rules of a family that count in a category, in the order in which they decide."""

    def __init__(self, rules):
        self.rules, self.pieces = rules, [covers.piece_of(it) for it in rules]
        self.near = covers.Near(list(enumerate(self.pieces)))

    def deciding(self, pieces, work, end=None):
        """The rules before a place that decide some of the pieces, each with those, and None with what is left."""
        for place in self.near.places(pieces):
            if end is not None and place >= end or not pieces:
                break
            met, pieces = work.cut(pieces, self.pieces[place])
            if met:
                yield self.rules[place], met
        if pieces:
            yield None, pieces


def ranked(rules):
    """Rules in the order in which they decide."""
    return sorted(rules, key=lambda rule: (-rule.priority, rule.ordinal))


def longest_rise(places):
    """Places of the longest part of some different numbers that rises."""
    ends, last, before = [], [], [None] * len(places)
    for at, number in enumerate(places):
        count = bisect_left(ends, number)
        before[at] = last[count - 1] if count else None
        ends[count:count + 1], last[count:count + 1] = [number], [at]
    found, at = [], last[-1] if last else None
    while at is not None:
        found.append(at)
        at = before[at]
    return found[::-1]


def common(old, new):
    """The places in both of two sequences of what they have in the same order; not always the most that there is."""
    waiting = {}
    for place in reversed(range(len(new))):
        waiting.setdefault(new[place], []).append(place)
    pairs = [(place, waiting[it].pop()) for place, it in enumerate(old) if waiting.get(it)]
    return [pairs[at] for at in longest_rise([place for _, place in pairs])]


def alike(lists):
    """The categories that the program looks at, in groups in which the same rules count."""
    known = {rule.categories for listed in lists for rule in listed.rules}
    groups = {}
    for category in range(answers.MOST_CATEGORIES):
        groups.setdefault(tuple(it >> category & 1 for it in known), []).append(category)
    return list(groups.values())


class Differences:
    """Pairs of lines that decide packets which two lists answer differently, and rules of which that isn't told.

    A pair is open if a line that was left out may decide its packets in a list.
    """

    def __init__(self, lists, data):
        self.lists, self.work = lists, Work()
        self.said = [labels.whatever(listed, data) for listed in lists]
        self.groups, self.untold, self.pairs = alike(lists), [], {}
        # What decides in the other list, where a rule does that isn't kept: under the categories and the rule's number.
        self.others, self.ranked, self.kept = ({}, {}), {}, ({}, {})
        for family in (4, 6):
            its = [ranked(it for it in listed.rules if it.family == family) for listed in lists]
            pairs = common(*([self.key(owner, it) for it in rules] for owner, rules in enumerate(its)))
            self.ranked[family] = its
            for one, other in ((its[0][old].ordinal, its[1][new].ordinal) for old, new in pairs):
                self.kept[0][one], self.kept[1][other] = other, one
            kept = self.kept
            for categories in self.groups:
                both = [[it for it in rules if it.categories >> categories[0] & 1] for rules in its]
                self.search(family, tuple(categories), [Ranked(rules) for rules in both], kept)

    def key(self, owner, rule):
        """What a rule matches and answers: rules alike have it in common."""
        return rule.categories, covers.piece_of(rule), self.said[owner][rule.ordinal]

    def search(self, family, categories, both, kept):
        """Adds the pairs of a family and of categories in which the same rules count."""
        for owner, own in enumerate(both):
            for place, rule in enumerate(own.rules):
                if rule.ordinal in kept[owner]:
                    continue
                try:
                    found = self.decided(both, owner, place)
                except TooMuch as limit:
                    self.untold.append(Untold(owner, rule.ordinal, str(limit)))
                    continue
                self.others[owner][categories, rule.ordinal] = {it.ordinal if it else None for it, _ in found}
                for other, pieces in found:
                    # If neither rule is kept, the pair was found from the old one.
                    if not owner:
                        self.add(family, categories, rule, other, pieces)
                    elif other is None or other.ordinal in kept[0]:
                        self.add(family, categories, other, rule, pieces)

    def decided(self, both, owner, place):
        """What decides in the other list, where a rule decides in its own: each rule or None with the pieces."""
        pieces = covers.of_packets(both[owner].pieces[place])
        own = next((left for rule, left in both[owner].deciding(pieces, self.work, place) if rule is None), [])
        return list(both[1 - owner].deciding(own, self.work))

    def add(self, family, categories, old, new, pieces):
        """Adds pieces to the pair of two rules, if their answers differ."""
        numbers = [rule.ordinal if rule else None for rule in (old, new)]
        if self.said[0][numbers[0] or 0] == self.said[1][numbers[1] or 0]:
            return
        is_open = any(number in listed.beneath for listed, number in zip(self.lists, numbers))
        entries = [listed.entry(rule) if rule else None for listed, rule in zip(self.lists, (old, new))]
        pair = Pair(family, categories, *numbers, is_open, {})
        pair = self.pairs.setdefault((family, categories, *entries, is_open), pair)
        pair.pieces.setdefault(tuple(numbers), []).extend(pieces)
