# SPDX-License-Identifier: BSD-3-Clause
"""All differences of two lists: pairs of lines with their boxes and a packet, which the program confirms.

The tool cuts the key space by itself. Then the program answers a packet of each box that is told, by both lists. And it
compares the lists with pairs in place of answers, and so confirms that no other pair of lines decides differently.
"""
from collections import namedtuple

from aclc_tools import answers, capture, keys, packet_words, parts, regions
from aclc_tools.compared import Compared, answer_at
from aclc_tools.differences import Differences
from aclc_tools.pairs_as_rules import PairsAsRules
from aclc_tools.program import leave
from aclc_tools.two_lists import Change, excepted_of

MOST_BOXES = 8
# A pair of lines, all its boxes, and the least packet of the first one.
Told = namedtuple("Told", "pair boxes key")


def lead_anywhere(lists):
    """The families in which lines that were left out may lead packets anywhere, if the lists aren't the same."""
    one, other = lists
    if one.content == other.content and one.form == other.form:
        return set()
    trusted = all(listed.does_what_it_says(it) for listed in lists for it in listed.left_out)
    return set() if trusted else {it for listed in lists if listed.left_out for it in listed.chains.families}


class Rest(Compared):
    """Two lists over all packets but those of the pairs that are told, whatever the lines do that were left out."""

    def __init__(self, lists, given, room, found):
        made = PairsAsRules(lists, found)
        self.lists, self.numbers, self.given, self.room = made.lists, made.numbers, given, room
        self.least, self.left, self.parts, self.odd, self.masked = {}, [], 0, set(), [(), ()]
        self.search()


class AllPairs:
    """The pairs of lines of two lists that decide packets differently, and what of them isn't told or confirmed.

    What the excepted lines of the new list decide is left out of the pairs.
    """

    def __init__(self, two, given, room):
        self.two, self.given, self.room = two, given, room
        self.excepted = excepted_of(two.lists[1], given)
        self.found = Differences(two.lists, two.data)
        told = [self.pair_told(it) for it in self.found.pairs.values()]
        told.sort(key=lambda it: (it.pair.family, it.pair.old or 1 << 32, it.pair.new or 1 << 32, it.pair.categories))
        self.told = [it for it in told if not self.is_excepted(it.pair)]
        self.unknown = [self.untold(it) for it in self.found.untold]
        self.open = {it.pair.family for it in self.told if it.pair.is_open} | lead_anywhere(two.lists)
        self.rest = None
        self.confirm()

    def pair_told(self, pair):
        """A pair with its boxes."""
        found = regions.joined([piece for its in pair.pieces.values() for piece in its])
        return Told(pair, found, regions.key_of(pair.family, found[0]))

    def is_excepted(self, pair):
        """Whether an excepted line decides the packets of a pair in the new list."""
        return pair.new is not None and not pair.is_open and self.entry(1, pair.new) in self.excepted

    def entry(self, owner, number):
        """The entry of a rule, given by its number, or None."""
        listed = self.two.lists[owner]
        return listed.entry(listed.rules[number - 1]) if number else None

    def untold(self, it):
        """What is said of a rule that couldn't be cut."""
        listed = self.two.lists[it.owner]
        place = self.entry(it.owner, it.number).place()
        return f"{listed.name}: {place}: what it decides is cut no further: the limit is {it.why}"

    def confirm(self):
        """Lets the program confirm the packets, and that there are no others."""
        self.ask(self.told)
        self.rest = Rest(self.two.lists, self.given, self.room, self.found)
        self.add_left(self.rest)
        for *_, key in self.rest.least.values():
            said = packet_words.words_of(key)
            if not self.found.untold:
                leave(f"the program says that the lists differ at {said}, and this tool finds no pair", 2)
            self.unknown.append(f"packets of no pair that is told get another answer too, as {said}")

    def add_left(self, compared):
        """Adds the parts that couldn't be compared."""
        self.unknown += [f"not compared: {parts.words(family, part)}: {message}"
                         for family, part, message in compared.left]

    def ask(self, told):
        """Asks the program about a packet of each box that is told, by both lists."""
        wanted = [(it, regions.key_of(it.pair.family, box)) for it in told for box in it.boxes[:MOST_BOXES]]
        packets = self.room.write(".pcap", capture.write([keys.frame(key) for _, key in wanted]))
        for owner, (listed, copy) in enumerate(zip(self.two.lists, self.two.copies)):
            for (it, key), (kind, numbers) in zip(wanted, self.answers(listed, copy, packets, wanted)):
                number = (it.pair.old, it.pair.new)[owner]
                known = {self.entry(owner, numbers[category]) for category in it.pair.categories[:len(numbers)]}
                if kind != f"ip{key.family}" or known != {self.entry(owner, number)}:
                    said = f"the program answers {packet_words.words_of(key)} by another line than this tool"
                    leave(f"{listed.name}: {said}", 2)

    def answers(self, listed, copy, packets, wanted):
        """What the program answers to packets, by the rules that match each where the table of all is too large."""
        try:
            return list(answers.classified(listed, copy, packets, answers.MOST_CATEGORIES, self.given))[:-1]
        except answers.Refusal as refusal:
            if refusal.code not in parts.TOO_LARGE:
                raise
        single = ((key, self.room.write(".pcap", capture.write([keys.frame(key)]))) for _, key in wanted)
        return [answer_at(key, listed, copy, packet, self.given, self.room) for key, packet in single]

    def is_told(self):
        """Whether all pairs are told, and that is confirmed."""
        return not self.unknown and not self.open

    def row(self, it):
        """What is told of a pair."""
        categories = list(it.pair.categories)
        row = self.two.row(Change(None, None, categories[0], it.pair.old, it.pair.new), it.key)
        return {"family": it.pair.family, **row, "categories": categories}
