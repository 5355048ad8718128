# SPDX-License-Identifier: BSD-3-Clause
"""Two lists whose answers are the pairs of rules that decide, so that the program can tell whether these pairs are all.

In each list a rule is cut by the rules that decide in the other one where it does, in their order. What is cut off has
the number of the pair as its answer, if the pair is told, and else what the rule answers. So the lists are the same, if
each packet that gets another answer is decided by a pair that is told. If a pair is missing or wrong, they differ.
"""
from collections import defaultdict, namedtuple

from aclc_tools import boxes, parts, rule_file

# A list of rules made so, in place of one that is read.
Made = namedtuple("Made", "rules")


class PairsAsRules:
    """The rules of both lists, and the number of the answer of each, by its place; 0 is the answer of no rule."""

    def __init__(self, lists, found):
        self.found, self.known = found, {("answer", found.said[0][0]): 0}
        self.told = {(it.categories, *two) for it in found.pairs.values() for two in it.pieces}
        self.own = [{rule.ordinal: rule for rule in listed.rules} for listed in lists]
        self.rank = [{rule.ordinal: place for rules in found.ranked.values() for place, rule in enumerate(rules[owner])}
                     for owner in (0, 1)]
        self.beside = self.from_the_other_side()
        self.lists, self.numbers = [Made([]), Made([])], [[0], [0]]
        for owner in (0, 1):
            for family in (4, 6):
                self.make(owner, family)

    def from_the_other_side(self):
        """Under categories and the number of a kept rule, or of none: the rules that aren't kept of the other list."""
        found = defaultdict(list), defaultdict(list)
        for owner in (0, 1):
            for (categories, number), others in self.found.others[owner].items():
                for other in others:
                    found[1 - owner][categories, other].append(number)
        return found

    def others(self, owner, categories, number):
        """The rules of the other list that decide where a rule does, in their order; None stands last."""
        if number in self.found.kept[owner]:
            some = [self.found.kept[owner][number], *self.beside[owner][categories, number]]
        else:
            some = self.found.others[owner].get((categories, number), ())
        return sorted(some, key=lambda it: len(self.rank[1 - owner]) if it is None else self.rank[1 - owner][it])

    def answer(self, owner, categories, own, other):
        """What stands for a pair of rules: the pair, if it is told, and else the answer that the own one gives."""
        pair = (categories, own, other) if owner == 0 else (categories, other, own)
        if pair in self.told:
            return "pair", pair
        said = self.found.said[owner][own or 0]
        return ("answer", said) if said == self.found.said[1 - owner][other or 0] else (owner, pair)

    def add(self, owner, family, part, categories, answer):
        """Adds a rule below all before it."""
        made = self.lists[owner].rules
        text = parts.line(family, part, categories=sum(1 << it for it in categories)).rstrip()
        made.append(rule_file.read_rule(text.encode(), len(made) + 1, len(made) + 1))
        self.numbers[owner].append(self.known.setdefault(answer, len(self.known)))

    def make(self, owner, family):
        """Makes the rules of a family of a list."""
        for rule in self.found.ranked[family][owner]:
            part, kept = parts.of_rule(rule), self.found.kept[owner].get(rule.ordinal)
            for categories in (tuple(it) for it in self.found.groups if rule.categories >> it[0] & 1):
                others = self.others(owner, categories, rule.ordinal)
                for other in others:
                    met = part if other is None else parts.meet(part, parts.of_rule(self.own[1 - owner][other]),
                                                                boxes.BITS[family])
                    if met:
                        self.add(owner, family, met, categories, self.answer(owner, categories, rule.ordinal, other))
                if kept is None and None not in others:
                    self.add(owner, family, part, categories, (owner, rule.ordinal))
        for categories in map(tuple, self.found.groups):
            for other in sorted(self.beside[owner][categories, None], key=self.rank[1 - owner].get):
                rule, answer = self.own[1 - owner][other], self.answer(owner, categories, None, other)
                if rule.family == family:
                    self.add(owner, family, parts.of_rule(rule), categories, answer)
