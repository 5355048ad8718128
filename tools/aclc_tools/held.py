# SPDX-License-Identifier: BSD-3-Clause
"""The packets of a report: which entries of each list decide them, when they came, and the keys of those that are held.

Packets of one kind that the same entries decide have one outcome. Outcomes count all packets. So many of the first
packets are held with their keys as are asked for, and after them some of each outcome that has fewer.
"""
import array
import os
import sys
from collections import defaultdict
from pathlib import Path

from aclc_tools import answers, blocks, capture, confirmed, keys, progress
from aclc_tools.printing import shown
from aclc_tools.program import leave, note

KINDS = {"ip4": 4, "ip6": 6, "other": 0, "short": 1}
# How many packets of each outcome are held at least, if there are so many.
FIRST = 10
MOST_BUCKETS = 512
IP4_SIZE = 13
# The columns of held packets in their order, and the type of each.
COLUMNS = {"number": "I", "capture": "H", "time": "q", "kind": "B", "key": "I", "outcome": "I"}


def little(column):
    """The bytes of an array in little-endian order."""
    if sys.byteorder == "big":
        column = array.array(column.typecode, column)
        column.byteswap()
    return column.tobytes()


class Outcome:
    """What decides some packets: the place of an entry, or -1, in each list and category; and how many they are."""

    def __init__(self, place, kind, decides, time):
        self.place, self.kind, self.decides = place, kind, decides
        self.count, self.held, self.first, self.last = 0, 0, time, time

    def add(self, time):
        """Counts a packet."""
        self.count += 1
        if time < self.first:
            self.first = time
        if time > self.last:
            self.last = time


class Buckets:
    """How many packets of each outcome there are in each part of the time; all parts are equally long."""

    def __init__(self):
        self.start, self.width, self.counts = None, 1, defaultdict(int)

    def add(self, time, outcome):
        """Counts a packet; where there are too many parts, each two become one."""
        if self.start is None:
            self.start = time
        place = (time - self.start) // self.width
        self.counts[place, outcome] += 1
        while not -MOST_BUCKETS // 2 <= place < MOST_BUCKETS // 2:
            self.width *= 2
            wider = defaultdict(int)
            for (at, its_outcome), count in self.counts.items():
                wider[at // 2, its_outcome] += count
            self.counts, place = wider, place // 2

    def rows(self):
        """Each part's start, an outcome, and a count."""
        start = self.start or 0
        return [[str(start + place * self.width), outcome, count]
                for (place, outcome), count in sorted(self.counts.items())]


class Held:
    """The packets of captures, by some lists."""

    def __init__(self, lists, categories, most, given, room):
        self.lists, self.categories, self.most, self.given, self.room = lists, categories, most, given, room
        self.copies = [room.write(".rules", answers.numbered(listed.rules)) for listed in lists]
        places = [{entry: place for place, entry in enumerate(listed.entries)} for listed in lists]
        self.places = [[-1, *(own[listed.entry(rule)] for rule in listed.rules)] for own, listed in zip(places, lists)]
        # The outcomes in their order, and by what the program answers.
        self.outcomes, self.known = {}, {}
        self.captures, self.count = [], 0
        self.columns = {name: array.array(code) for name, code in COLUMNS.items()}
        self.key_bytes, self.key_places = bytearray(), {}
        self.buckets, self.confirmed = Buckets(), confirmed.Confirmed(room)

    def of_capture(self, name, told):
        """Takes the packets of a capture; `told` gets what is said of the capture, also where a refusal ends it."""
        path = self.room.of_capture(name)
        # Of a compressed file as it is, and of a pipe what was read of it, unpacked.
        told["checksum"], told["bytes"] = checksum_of(Path(name) if os.path.isfile(name) else path)
        count = answers.count_of(self.categories)
        runs = [answers.classified(listed, copy, path, count, self.given)
                for listed, copy in zip(self.lists, self.copies)]
        own = len(self.captures)
        self.captures.append(told)
        content = answers.content_of(path)
        reader = capture.records_with_times(content)
        tell_passed_over(name, content)
        try:
            for number, found in enumerate(progress.packets(zip(*runs), shown(name)), 1):
                if found[0][0] == "packets":
                    self.check_end(name, found, reader)
                    break
                self.take(name, (own, number), found, self.record_of(name, number, reader))
                told["packets"] = number
        finally:
            self.confirmed.ask()

    def check_end(self, name, found, reader):
        """Ends the tool where both lists or this tool's reader see other packets."""
        if len({last for _, last in found}) > 1 or next(reader, None) is not None:
            leave(f"{name}: this tool reads another number of packets than the program", 2)

    def record_of(self, name, number, reader):
        """The record of a number. One whose time has no date ends its capture."""
        try:
            record = next(reader, None)
        except capture.Fault as fault:
            return leave(f"{name}: record {number}: the program reads it, and this tool doesn't: {fault.kind}", 2)
        if record is None:
            return leave(f"{name}: record {number}: the program reads it, and this tool sees no more records", 2)
        return answers.dated(record, number, "a report")

    def take(self, name, at, found, record):
        """Counts a packet, and holds it if there is room."""
        outcome = self.known.get(found)
        if outcome is None:
            outcome = self.known[found] = self.outcome_of(name, at[1], found, record.time)
        outcome.add(record.time)
        self.count += 1
        self.buckets.add(record.time, outcome.place)
        if self.count <= self.most or outcome.held < FIRST:
            self.hold(name, at, found[0][0], outcome, record)

    def outcome_of(self, name, number, found, time):
        """The outcome of a packet by the kind and the numbers of the rules that each list decides it by."""
        kinds = {kind for kind, _ in found}
        if len(kinds) > 1:
            leave(f"{name}: packet {number}: the program prints {' and '.join(sorted(kinds))} by two lists", 2)
        if any(it and it > len(listed.rules) for listed, (_, numbers) in zip(self.lists, found) for it in numbers):
            leave(f"the program answers by a rule that the list hasn't: {found}", 2)
        kind = found[0][0]
        if kind not in ("ip4", "ip6"):
            decides = (-1,) * (len(self.lists) * len(self.categories))
        else:
            decides = tuple(places[numbers[category] or 0] for places, (_, numbers) in zip(self.places, found)
                            for category in self.categories)
        key = KINDS[kind], decides
        if key not in self.outcomes:
            self.outcomes[key] = Outcome(len(self.outcomes), *key, time)
        return self.outcomes[key]

    def hold(self, name, at, kind, outcome, record):
        """Takes a packet with its key."""
        outcome.held += 1
        capture_at, number = at
        values = number, capture_at, record.time, KINDS[kind], self.key_of(name, number, kind, record), outcome.place
        for column, value in zip(self.columns.values(), values):
            column.append(value)

    def key_of(self, name, number, kind, record):
        """The place of a packet's key among the bytes of all keys."""
        try:
            content = keys.content_of_frame(record.link, record.frame)
            read = "ip4" if len(content) == IP4_SIZE else "ip6"
        except keys.NoKey as fault:
            content, read = None, str(fault)
        if read != kind:
            leave(f"{name}: packet {number}: the program prints {kind} of it, and this tool reads it as {read}", 2)
        if content is None:
            return 0
        self.confirmed.add((name, number), record.link, record.frame, content)
        place = self.key_places.get(content)
        if place is None:
            place = self.key_places[content] = len(self.key_bytes)
            self.key_bytes += content
        return place

    def told(self):
        """What a report says of them, and the columns with their names and types."""
        outcomes = list(self.outcomes.values())
        decides = array.array("i", (it for outcome in outcomes for it in outcome.decides))
        columns = {**self.columns, "decides": decides}
        held = len(self.columns["number"])
        # Times are numbers of nanoseconds since 1970. JSON's numbers have too few digits for them.
        told = {"count": self.count, "held": held, "allHeld": held == self.count, "confirmed": self.confirmed.count,
                "most": self.most, "first": FIRST, "start": str(min((it.first for it in outcomes), default=0)),
                "width": str(self.buckets.width),
                "buckets": [] if held == self.count else self.buckets.rows(),
                "outcomes": [[it.kind, it.count, str(it.first), str(it.last)] for it in outcomes]}
        parts = [(name, column.typecode, little(column)) for name, column in columns.items()]
        return told, [*parts, ("keys", "B", bytes(self.key_bytes))]


def tell_passed_over(name, content):
    """Says how many packets of a capture no rule is asked about, since their blocks aren't read."""
    count = blocks.passed_over(content) if content[:4] == blocks.SECTION else 0
    if count:
        note(f"{name}: {count} packet{'s' * (count > 1)} passed over, in simple or obsolete packet blocks: no rule was asked")


def checksum_of(path):
    """The checksum of a file, and its length."""
    from aclc_tools import made_by
    return made_by.sum_of(path), path.stat().st_size
