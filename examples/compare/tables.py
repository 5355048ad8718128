# SPDX-License-Identifier: BSD-3-Clause
"""Sizes of tables and lengths of walks, worked out by an independent program over one rule after the other.

No word of a table is made here: a state is what the rules of a group still allow, and its size and the number of steps
of a walk follow from that alone. It is slow and plain on purpose.
"""
MOST_TRIES, ROW_WORDS, CATEGORIES = 8, 16, 16
WIDTHS = {4: (1, 4, 4, 2, 2), 6: (1, 8, 8, 8, 8, 2, 2)}


def interval(value, bits, width):
    """The numbers of so many bytes that agree with the value in the first bits."""
    free = 8 * width - bits
    return value >> free << free, (value >> free << free) + 2 ** free - 1


def fields(rule):
    """Of each field of a rule the numbers that it lets through; the protocol comes as value and mask."""
    source, destination, ports, protocol, _ = rule
    ranges = []
    for family, address, bits in (source, destination):
        if family == 4:
            ranges.append(interval(address, bits, 4))
        else:
            ranges.append(interval(address >> 64, min(bits, 64), 8))
            ranges.append(interval(address & 2 ** 64 - 1, max(bits - 64, 0), 8))
    return [protocol, *ranges, *ports]


def is_wild(place, value, width):
    return value[1] == 0 if place == 0 else value == (0, 256 ** width - 1)


class Rules:
    """The rules of one family, in the order of the file."""

    def __init__(self, family, rules):
        self.widths = WIDTHS[family]
        self.rules = rules
        self.values = [fields(rule) for rule in rules]
        self.places = [(field, place) for field, width in enumerate(self.widths) for place in range(width)]
        self.sizes = {}

    def wild(self, number, field):
        return is_wild(field, self.values[number][field], self.widths[field])

    def kept(self, group):
        """The places of a key in the groups of bytes that some rule binds, or place 0 alone."""
        bound = {(at + 3) // 4 for at, (field, _) in enumerate(self.places)
                 if not all(self.wild(number, field) for number in group)} or {0}
        return [at for at in range(len(self.places)) if (at + 3) // 4 in bound]

    def step(self, at, state, byte):
        """What the rules of a state allow after one more byte: each with the interval of its unread bytes."""
        field, place = self.places[at]
        unread = 8 * (self.widths[field] - place - 1)
        after = []
        for number, rest in state:
            low, high = self.values[number][field] if place == 0 else rest
            if field == 0:
                if byte & high != low & high:
                    continue
                left = None
            else:
                low, high = max(low, byte << unread), min(high, (byte + 1 << unread) - 1)
                if low > high:
                    continue
                left = (low - (byte << unread), high - (byte << unread)) if unread else None
            after.append((number, left))
        return tuple(after)

    def row(self, state):
        """The winner of each category, or None."""
        numbers = [number for number, _ in state]
        winners = []
        for category in range(CATEGORIES):
            taking_part = [n for n in numbers if self.rules[n][4][1] >> category & 1]
            winners.append(max(taking_part, key=lambda n: self.rules[n][4][0], default=None))
        return tuple(winners) if numbers else ()

    def successors(self, places, nth, state):
        """What each byte leads to from a state before the place of that number."""
        last = nth + 1 == len(places)
        after = [self.step(places[nth], state, byte) for byte in range(256)]
        for at in range(places[nth] + 1, len(self.places) if last else places[nth + 1]):
            after = [self.step(at, one, 0) for one in after]
        return [self.row(one) for one in after] if last else after

    def words(self, group):
        """How many words the trie of a group takes."""
        if group not in self.sizes:
            places, total = self.kept(group), 0
            states, rows = {tuple((number, None) for number in group)}, set()
            for nth in range(len(places)):
                found = set()
                for state in states:
                    after = self.successors(places, nth, state)
                    runs = 1 + sum(one != other for one, other in zip(after, after[1:]))
                    total += 1 if runs == 1 else 5 if runs <= 5 else 256
                    found.update(one for one in after if one)
                states = found
            rows = states
            self.sizes[group] = total + ROW_WORDS * len(rows)
        return self.sizes[group]

    def divided(self, group):
        """The two groups that take the place of a group."""
        wilds = [sum(self.wild(number, field) for number in group) for field in range(len(self.widths))]
        fewer = [min(wild, len(group) - wild) for wild in wilds]
        if max(fewer) == 0:
            half = (len(group) + 1) // 2
            return [group[:half], group[half:]]
        divider = fewer.index(max(fewer))
        return [tuple(n for n in group if not self.wild(n, divider)), tuple(n for n in group if self.wild(n, divider))]

    def split(self, budget):
        """The groups under a budget, and their total."""
        groups = [tuple(range(len(self.rules)))] if self.rules else []
        while True:
            costs = [min(self.words(group), budget + 1) for group in groups]
            total = ROW_WORDS + sum(costs)
            larger = [cost if len(group) > 1 else -1 for group, cost in zip(groups, costs)]
            if total <= budget or len(groups) == MOST_TRIES or max(larger, default=-1) < 0:
                return groups, total
            place = larger.index(max(larger))
            groups[place:place + 1] = self.divided(groups[place])

    def steps(self, group, key):
        """How many words the walk of a key through the trie of a group takes."""
        places, state = self.kept(group), tuple((number, None) for number in group)
        for nth, at in enumerate(places):
            state = self.step(at, state, key[at])
            for idle in range(at + 1, len(key) if nth + 1 == len(places) else places[nth + 1]):
                state = self.step(idle, state, 0)
            if not state:
                return nth + 1
        return len(places)
