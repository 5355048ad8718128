# SPDX-License-Identifier: BSD-3-Clause
"""Images of pairs of tables, read and walked by an independent program after the description of their format.

It shares nothing with the crates, and is slow and plain on purpose: what aclc answers is compared with it.
"""
MOST_RULES, MOST_TRIES, MOST_WORDS, ROW_WORDS = 262144, 8, 67108864, 16
QUAD, MATCH = 3, 4
NODE_WORDS = {0: 256, 1: 1, QUAD: 5}
FAMILIES = {4: 13, 6: 37}  # and how many bytes their keys have


class Refused(Exception):
    """The first failing check: the place of the field, and what is wrong with it."""

    def __init__(self, place, kind):
        super().__init__(f"byte {place}: {kind}")


def kind_of(word):
    return word >> 29 & 7


def index_of(word):
    return word & 0x1FFFFFFF


def leads_into(word, low, high):
    """Whether the word leads to a node that lies whole between two places."""
    kind = kind_of(word)
    if kind not in NODE_WORDS or kind != QUAD and word >> 32:
        return False
    return low <= index_of(word) and index_of(word) + NODE_WORDS[kind] <= high


class Fields:
    """The fields of an image, from the first to the last."""

    def __init__(self, content):
        self.content, self.at = content, 0

    def next(self, size, kind=None, passes=None):
        """The number of the next field, which is whole and passes its test."""
        place, text = self.at, self.content[self.at:self.at + size]
        if len(text) < size:
            raise Refused(place, "length")
        number = int.from_bytes(text, "big")
        if passes and not passes(number):
            raise Refused(place, kind)
        self.at += size
        return number


class Trie:
    """The places of a key that a trie reads, where its levels begin and end, and its root."""

    def __init__(self, fields, version, key_len, table):
        groups = 1 + (key_len - 1) // 4
        kept = 2 ** groups - 1
        if version == 2:
            kept = fields.next(4, "kept groups", lambda number: 0 < number < 2 ** groups)
        self.places = [place for place in range(key_len) if kept >> (place + 3) // 4 & 1]
        self.levels = []
        for _ in self.places:
            low = table.size
            table.size += fields.next(4, "too many", lambda number: table.rows_size + low + number <= MOST_WORDS)
            self.levels.append((low, table.size))
        self.root = fields.next(8, "unsound", lambda word: leads_into(word, *self.levels[0]))


class Table:
    """One table of an image."""

    def __init__(self, fields, version, family):
        key_len = FAMILIES[family]
        fields.next(4, "family", lambda number: number == family)
        self.rules = fields.next(4, "too many", lambda number: number <= MOST_RULES)
        tries = fields.next(4, "too many", lambda number: number <= MOST_TRIES)
        rows = 1 + fields.next(4, "too many", lambda number: ROW_WORDS * (number + 1) <= MOST_WORDS)
        self.size, self.rows_size, self.words = 0, ROW_WORDS * rows, []
        self.tries = [Trie(fields, version, key_len, self) for _ in range(tries)]
        for trie in self.tries:
            for (low, high), (first, end) in zip(trie.levels, trie.levels[1:] + [(0, 0)]):
                def is_sound(word):
                    if kind_of(word) == MATCH:
                        return word >> 32 == 0 and index_of(word) < rows
                    return leads_into(word, first, end)
                for _ in range(low, high):
                    self.words.append(fields.next(8, "unsound", is_sound))
        self.rows = [[0] * ROW_WORDS]
        for _ in range(1, rows):
            self.rows.append([fields.next(8, "row form", self.is_row_word) for _ in range(ROW_WORDS)])

    def is_row_word(self, word):
        return word == 0 or 1 <= word >> 32 <= self.rules

    def walk(self, trie, key):
        """The row to which a key leads, and how many words the walk takes."""
        word, taken = trie.root, 0
        for place in trie.places:
            boundaries = [word >> 32 + 8 * nth & 0xFF for nth in range(4)]
            offset = {0: key[place], QUAD: sum(boundary < key[place] for boundary in boundaries)}.get(kind_of(word), 0)
            word, taken = self.words[index_of(word) + offset], taken + 1
            if kind_of(word) == MATCH:
                return self.rows[index_of(word)], taken
        raise AssertionError("a sound table ends each walk")

    def answer(self, key):
        """For each category the greatest word of the rows to which a key leads, and how many words its walks take."""
        walks = [self.walk(trie, key) for trie in self.tries]
        return [max(words) for words in zip([0] * ROW_WORDS, *(row for row, _ in walks))], sum(taken for _, taken in walks)

    def line(self, family):
        return f"ip{family} rules {self.rules} tries {len(self.tries)} words {len(self.words) + self.rows_size}\n"


def read(content):
    """The tables of an image, by their families."""
    fields = Fields(content)
    fields.next(4, "magic", lambda number: number == int.from_bytes(b"ACLT", "big"))
    version = fields.next(4, "version", lambda number: number in (1, 2))
    pair = {family: Table(fields, version, family) for family in FAMILIES}
    if fields.at < len(content):
        raise Refused(fields.at, "trailing")
    return pair
