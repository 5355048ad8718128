# SPDX-License-Identifier: BSD-3-Clause
"""Which lines of a list decide no packet at all, and which earlier lines cover each."""
from aclc_tools import answers, covers, parts, reach
from aclc_tools.any_list import RULES
from aclc_tools.lists import CantSay
from aclc_tools.program import leave


class Audit:
    """Which rules of a list decide a packet, and which weren't looked at in all parts."""

    def __init__(self, listed, given, room):
        self.listed, self.given, self.room = listed, given, room
        self.categories = answers.MOST_CATEGORIES if listed.has_categories else 1
        self.live, self.left, self.parts = set(), [], 0
        # Under a rule's number and a category: its least key there, one of a packet if there is one.
        self.least = {}
        for family in (4, 6):
            search = parts.Search(family, [listed.rules], self.look)
            self.left += [(family, part, search.message, {it.rule.ordinal for it in clipped})
                          for part, clipped in search.run()]
            self.parts += search.parts if search.runs > 2 else 0

    def look(self, family, part, clipped, of_packets, great):
        """Audits a part; whether some rules are seen to decide keys alone that no packet has."""
        content = parts.rule_file(family, part, clipped, of_packets)
        before, unclear = content.count(b"\n") - len(clipped), set()
        for place, win in answers.audited(self.room.write(".rules", content), self.categories, self.given, great):
            # The first rules are of the keys which no packet has.
            if win and place > before:
                number, (category, key) = clipped[place - before - 1].rule.ordinal, win
                (self.live if of_packets or key.is_of_a_packet() else unclear).add(number)
                met = self.least.get((number, category), key)
                self.least[number, category] = min(met, key, key=lambda it: (not it.is_of_a_packet(), it.content()))
        return bool(unclear - self.live)

    def dead(self):
        """The entries that decide no packet, and those of which it isn't known. An end may well decide none."""
        unknown = set().union(*(numbers for *_, numbers in self.left)) - self.live
        maybe = {below for number, (_, below) in self.listed.beneath.items() if number in self.live | unknown}
        found, open_ones = [], []
        for entry in self.listed.entries:
            numbers = {rule.ordinal for rule in entry.rules}
            if not numbers & self.live and not entry.is_end and not entry.why:
                is_open = numbers & unknown or entry in maybe or self.may_decide(entry)
                (open_ones if is_open else found).append(entry)
        return found, open_ones

    def may_decide(self, entry):
        """Whether lines that were left out may send packets to an entry."""
        listed = self.listed
        if not listed.left_out:
            return False
        if listed.may_lead_anywhere():
            return True
        return reach.Reach(listed.chains.chains, listed.chains.start, (4, 6)).may_decide(entry.number, entry.verdict)

    def not_under_assumption(self, dead):
        """Those of some dead entries that may decide packets of which something else holds than is assumed."""
        if not self.listed.read_free or not dead:
            return []
        try:
            chains, start, families = self.listed.read_free()
        except CantSay:
            return dead
        free = reach.Reach(chains, start, families)
        return [entry for entry in dead if free.may_decide(entry.number, entry.verdict)]


class Covers:
    """Which earlier entries cover one."""

    def __init__(self, listed):
        self.listed = listed
        self.ranked = sorted(listed.rules, key=lambda rule: (-rule.priority, rule.ordinal))
        self.rank = {rule.ordinal: rank for rank, rule in enumerate(self.ranked)}
        self.pieces = {rule.ordinal: covers.piece_of(rule) for rule in self.ranked}
        self.entries = {entry: place for place, entry in enumerate(listed.entries)}
        kept = self.without_repeats()
        self.near = {family: covers.Near([(rank, self.pieces[rule.ordinal]) for rank, rule in kept
                                          if rule.family == family]) for family in (4, 6)}

    def without_repeats(self):
        """The rules that may be told as covers, each with its rank: of those of a rule file that match the same, in
        the same categories, the first one is told before the others. Entries of other lists have several rules."""
        kept = {}
        for rank, rule in enumerate(self.ranked):
            what = rank if self.listed.form != RULES else (rule.family, self.pieces[rule.ordinal], rule.categories)
            kept.setdefault(what, (rank, rule))
        return kept.values()

    def candidates(self, family, rank, category, own, pieces):
        """The entries other than its own whose rules rank above a place and are near, with these rules' pieces."""
        found = {}
        for rule in (self.ranked[it] for it in self.near[family].places(pieces) if it < rank):
            entry = self.listed.below(rule)
            if entry is not own and rule.categories >> category & 1:
                found.setdefault(entry, []).append(self.pieces[rule.ordinal])
        return list(found.items())

    def cover(self, pieces, candidates, own):
        """The entries that cover some pieces: earlier ones, unless packets come to the entry by several ways."""
        order = self.listed.order
        earlier = [it for it in candidates if order[it[0]] < order[own]] if self.listed.form != RULES else candidates
        found = covers.cover(pieces, earlier)
        return covers.cover(pieces, candidates) if found is None and len(earlier) < len(candidates) else found

    def groups(self, entry):
        """The rules of an entry, in groups that no other rule stands between, each with its place in the ranks."""
        found = []
        for rank in sorted(self.rank[rule.ordinal] for rule in entry.rules):
            rule = self.ranked[rank]
            if found and found[-1][-1][0] == rank - 1 and found[-1][-1][1].family == rule.family:
                found[-1].append((rank, rule))
            else:
                found.append([(rank, rule)])
        return found

    def of_entry(self, entry):
        """The entries that cover one, and a sentence in place of them where they can't be told."""
        try:
            return self.of_rules(entry) if entry.rules else self.of_boxes(entry)
        except covers.TooMany:
            return [], "earlier lines cover it together, too many to tell which"

    def of_rules(self, entry):
        """The same of an entry that has rules."""
        found = []
        for group in self.groups(entry):
            pieces = [piece for _, rule in group for piece in covers.of_packets(self.pieces[rule.ordinal])]
            family, categories = group[0][1].family, group[0][1].categories
            for category in range(answers.MOST_CATEGORIES) if self.listed.has_categories else [0]:
                if not categories >> category & 1:
                    continue
                some = self.cover(pieces, self.candidates(family, group[0][0], category, entry, pieces), entry)
                if some is None:
                    leave(f"{entry.place()}: the program says that it decides nothing, and this tool finds a packet", 2)
                found += [it for it in some if it not in found]
        return found, None if found else "it matches no packet"

    def of_boxes(self, entry):
        """The same of an entry for which there is no rule: its boxes are empty, or no packet comes to it."""
        if entry.boxes is None:
            return [], "no packet comes to it"
        found = []
        for box in entry.boxes:
            pieces = [piece for it in covers.of_box(box) for piece in covers.of_packets(it)]
            some = self.cover(pieces, self.candidates(box.family, len(self.ranked), 0, entry, pieces), entry)
            if some is None:
                return [], "no packet comes to it"
            found += [it for it in some if it not in found]
        return found, None if found else "it matches no packet"


def row_of(entry, its_covers):
    """What is told of an entry that decides nothing."""
    found, why = its_covers.of_entry(entry)
    found = sorted(found, key=its_covers.entries.get)
    if not why:
        places = " and ".join(it.place() for it in found)
        why = f"{places} match{'es' if len(found) == 1 else ' together'} all that it matches"
    return {"line": entry.number, "place": entry.place(), "verdict": entry.verdict, "rule": entry.text, "why": why,
            "covered_by": [{"line": it.number, "verdict": it.verdict, "rule": it.text} for it in found],
            "told": entry.told(),
            "by": [it.told() for it in found]}
