# SPDX-License-Identifier: BSD-3-Clause
"""Whether some packet may come to a line of a list and be decided by it, whatever those lines do that can't be said.

Such a line may match the packets of its boxes or not: packets go on after it as if it weren't there, and where it leads
to another chain or out of its own they go there as well. So "no" is certain, and "yes" may be too much.
"""
from aclc_tools import boxes, covers, lists

MOST_VISITS = 200_000


class Found(Exception):
    """Some packet may come to the line."""


class Reach:
    """The chains of a list, and the one that is meant."""

    def __init__(self, chains, start, families):
        self.chains, self.start, self.families = chains, start, families
        self.pieces, self.wanted, self.visits = {}, None, 0

    def may_decide(self, number, verdict=None):
        """Whether the line of a number may decide some packet; with a verdict, that part of the line."""
        self.wanted, self.visits = (number, verdict), 0
        own = [rule for chain in self.chains.values() for rule in chain.rules if self.is_wanted(rule)]
        try:
            for family in self.families:
                pieces = [it for rule in own for it in self.pieces_of(rule, family)]
                self.flow(self.start, family, pieces)
        except (Found, covers.TooMany, RecursionError):
            return True
        return False

    def is_wanted(self, rule):
        """Whether a rule is of the line that is asked about."""
        number, verdict = self.wanted
        return rule.number == number and (verdict in (None, rule.verdict) or bool(rule.reason))

    def pieces_of(self, rule, family):
        """What a rule may match in a family: all, if nothing of it can be said."""
        key = id(rule), family
        if key not in self.pieces:
            known = rule.boxes if rule.boxes or not rule.reason else [boxes.whole(family)]
            found = [it for it in known if it.family == family]
            self.pieces[key] = [it for box in found for piece in covers.of_box(box) for it in covers.of_packets(piece)]
        return self.pieces[key]

    def flow(self, name, family, pieces):
        """Sends the packets of pieces through a chain; those that come back from it."""
        back = []
        for rule in self.chains[name].rules:
            if not pieces:
                break
            self.visits += 1
            if self.visits > MOST_VISITS or len(pieces) > covers.MOST_PIECES:
                raise covers.TooMany
            if rule.verdict == lists.PASS and not rule.reason:
                continue
            mine = self.pieces_of(rule, family)
            met = [covers.both(piece, it) for piece in pieces for it in mine if covers.meets(piece, it)]
            if not met:
                continue
            if self.is_wanted(rule):
                raise Found
            came = self.follow(rule, family, met)
            back += came if rule.verdict in (lists.RETURN, lists.GO) else []
            if not rule.reason:
                pieces = covers.left_by(pieces, mine) + (came if rule.verdict == lists.JUMP else [])
        return back + pieces

    def follow(self, rule, family, met):
        """What comes back of the packets that a rule sends elsewhere."""
        if rule.verdict == lists.RETURN:
            return met
        if rule.verdict in (lists.JUMP, lists.GO):
            if rule.target not in self.chains:
                raise Found
            return self.flow(rule.target, family, met)
        return []
