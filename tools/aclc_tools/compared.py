# SPDX-License-Identifier: BSD-3-Clause
"""Two lists over all packets that there are: the least packet of each family that they answer differently."""
from collections import Counter

from aclc_tools import answers, capture, keys, labels, packet_words, parts
from aclc_tools.program import leave
from aclc_tools.two_lists import Change


class Compared:
    """The least key of packets at which two lists differ in each family, and what couldn't be compared.

    If lines were left out, `least` has packets alone that none of them may decide, and `open` the families in which the
    lists may differ by them.
    """

    def __init__(self, lists, data, given, room):
        self.lists, self.given, self.room, self.data = lists, given, room, data
        self.least, self.left, self.parts, self.odd, self.open = {}, [], 0, set(), set()
        left_out = any(listed.left_out for listed in lists)
        self.masked = [{number for number in listed.beneath} for listed in lists]
        self.numbers = numbers_of(lists, labels.of_list, data)
        self.search()
        if left_out:
            self.open = self.open_families()

    def search(self):
        """Compares all packets, in parts where it has to be."""
        for family in (4, 6):
            search = parts.Search(family, [listed.rules for listed in self.lists], self.look)
            self.left += [(family, part, search.message) for part, _ in search.run()]
            self.parts += search.parts if search.runs > 2 else 0

    def look(self, family, part, clipped, of_packets, great):
        """Compares a part; whether the lists differ there at a key that no packet has."""
        names, masks = [], self.masks_of(family, clipped)
        for owner, numbers in enumerate(self.numbers):
            mine = [it for it in clipped if it.owner == owner]
            names.append(self.room.write(".rules", parts.rule_file(family, part, mine, of_packets, numbers, masks)))
        for category, key in answers.compared(*names, self.given, great):
            if not key.is_of_a_packet():
                self.odd.add(family)
                return True
            found = category > 7, key.content(), category, key
            self.least[family] = min(self.least.get(family, found), found, key=lambda it: it[:2])
        return False

    def masks_of(self, family, clipped):
        """Rules above all others of what lines that were left out may decide in either list."""
        masked = (it.part for it in clipped if it.rule.ordinal in self.masked[it.owner])
        return [parts.line(family, it, 0, parts.GREATEST).encode() for it in masked]

    def is_told(self):
        """Whether nothing is left that couldn't be told."""
        return not self.left and not self.open

    def open_families(self):
        """The families in which the lists may differ by the lines that were left out."""
        one, other = self.lists
        if one.content == other.content and one.form == other.form:
            return set()
        families = {family for listed in self.lists if listed.left_out for family in listed.chains.families}
        if not all(listed.does_what_it_says(it) for listed in self.lists for it in listed.left_out):
            return families - set(self.least)
        again = Whatever(self.lists, self.data, self.given, self.room)
        return ({*again.least} | {family for family, *_ in again.left}) - set(self.least)


class Whatever(Compared):
    """Two lists by what they answer whatever the lines do that were left out: the same ones, and then the same answer."""

    def __init__(self, lists, data, given, room):
        self.lists, self.given, self.room = lists, given, room
        self.least, self.left, self.parts, self.odd, self.masked = {}, [], 0, set(), [(), ()]
        self.numbers = numbers_of(lists, labels.whatever, data)
        self.search()


def numbers_of(lists, answers_of, data):
    """A number for each answer of the rules of two lists, the same for equal ones; 0 is the answer of no rule. The more rules
    have an answer, the less its number, so that the program's copies of the lists are short."""
    own = [answers_of(listed, data) for listed in lists]
    counts = Counter(it for its in own for it in its)
    counts.pop(own[0][0])
    known = {own[0][0]: 0, **{answer: number for number, (answer, _) in enumerate(counts.most_common(), 1)}}
    return [[known[answer] for answer in its] for its in own]


def answer_at(key, listed, copy, packet, given, room):
    """What the program answers to the packet of a key: by the whole list, or where its table is too large by the rules
    that match the key, cut down to it."""
    try:
        return next(answers.classified(listed, copy, packet, answers.MOST_CATEGORIES, given))
    except answers.Refusal as refusal:
        if refusal.code not in parts.TOO_LARGE:
            raise
    part = parts.of_key(key)
    met = parts.clip(parts.Search(key.family, [listed.rules], None).rules, part, key.family)
    narrow = room.write(".rules", parts.rule_file(key.family, part, met, False, range(len(listed.rules) + 1)))
    return next(answers.classified(listed, narrow, packet, answers.MOST_CATEGORIES, given))


def decided(two, found, given, room):
    """The change at the least key of a family, and the key: the rules of both lists that decide its packet."""
    *_, category, key = found
    packet, numbers = room.write(".pcap", capture.write([keys.frame(key)])), []
    for listed, copy in zip(two.lists, two.copies):
        kind, by_category = answer_at(key, listed, copy, packet, given, room)
        if kind != f"ip{key.family}":
            leave(f"the program prints {kind} of a packet that it compared as ip{key.family}", 2)
        numbers.append(by_category[category])
    change = Change(None, None, category, *numbers)
    if not two.differ(change.old, change.new):
        leave(f"the program says that the lists differ at {packet_words.words_of(key)}, and answers it alike", 2)
    return two.row(change, key)


def remark(two, compared, given, room):
    """What the numbers of lines have to do with it, if the lists aren't written alike; nothing if that isn't known."""
    written = [[(entry.number, entry.text) for entry in listed.entries] for listed in two.lists]
    if written[0] == written[1] or two.data == "text" or compared.left or any(it.left_out for it in two.lists):
        return None
    if not compared.least and [text for _, text in written[0]] == [text for _, text in written[1]]:
        return "only the numbers of lines differ"
    if bool(compared.least) == (two.data == "verdict"):
        return None
    by_text = Compared(two.lists, "text", given, room)
    if by_text.left or bool(by_text.least) == bool(compared.least):
        return None
    return ("other lines decide some packets, with the same verdict" if by_text.least else
            "only the numbers of lines differ: each packet is decided by a line of the same text")
