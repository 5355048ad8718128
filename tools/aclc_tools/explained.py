# SPDX-License-Identifier: BSD-3-Clause
"""Which rules of a list match a packet, and why those that match and don't decide lose."""
import collections

from aclc_tools import answers, capture, keys, packet_words, progress, walks
from aclc_tools.printing import shown
from aclc_tools.program import leave

NOTHING = "no rule matches"
# The outcome of a packet that a line may decide which was left out.
OPEN = "not decided"
# No number of a packet has more, and Python reads no number of thousands.
MOST_DIGITS = 20
# What a user names, a packet's frame with its link type, and its key, or why it has none.
Asked = collections.namedtuple("Asked", "name link frame key kind")


def asked(name, room):
    """The packet that a word names."""
    file, sign, number = name.rpartition("#")
    if sign and number.isascii() and number.isdigit() and len(number) <= MOST_DIGITS:
        return recorded(name, file, int(number), room)
    try:
        key = packet_words.typed(name)
    except packet_words.NoPacket as reason:
        return leave(f"{name}: {reason}", 2)
    return Asked(name, 1, keys.frame(key), key, f"ip{key.family}")


def recorded(name, file, number, room):
    """The packet of a number in a capture."""
    try:
        records = capture.records_with_times(answers.content_of(room.of_capture(file)))
        for place, record in enumerate(progress.packets(records, shown(file)), 1):
            if place == number:
                return of_record(name, record)
    except answers.Refusal as refusal:
        leave(f"{file}: {refusal.message}", 2)
    except capture.Fault as fault:
        leave(f"{file}: record {fault.record}: {fault.kind}\n    {fault.sentence}", 2)
    return leave(f"{file}: it has no record {number}; the first one is 1", 2)


def of_record(name, record):
    """A packet of a capture."""
    try:
        key = keys.of_frame(record.link, record.frame)
        return Asked(name, record.link, record.frame, key, f"ip{key.family}")
    except keys.NoKey as kind:
        return Asked(name, record.link, record.frame, None, str(kind))


def printed(packets, listed, categories, given, room):
    """What the program prints of each packet: its kind, and in each category the deciding rule's number, or None."""
    copy, found = room.write(".rules", answers.numbered(listed.rules)), {}
    for link in sorted({it.link for it in packets}):
        mine = [place for place, it in enumerate(packets) if it.link == link]
        frames = room.write(".pcap", capture.write([packets[place].frame for place in mine], link))
        try:
            found.update(zip(mine, answers.classified(listed, copy, frames, answers.count_of(categories), given)))
        except answers.Refusal as refusal:
            leave(answers.told(refusal, "the packets"), 2)
    return [found[place] for place in range(len(packets))]


def matching(listed, key, category):
    """The entries that match a key in a category, each with a rule that says it or None, the one that decides first."""
    if listed.chains:
        rules = {listed.entry(rule): rule for rule in reversed(listed.rules) if rule.matches(key)}
        return [(entry, rules.get(entry)) for entry in walks.way(listed, key)]
    matched = [rule for rule in listed.rules if rule.matches(key) and rule.categories >> category & 1]
    matched = sorted(matched, key=lambda rule: (-rule.priority, rule.ordinal))
    first = list({listed.entry(rule): rule for rule in reversed(matched)}.items())[::-1]
    way = walks.way(listed, key, listed.walk) if listed.walk else []
    # The lines after the one that decides, as the tools read the list, if they agree on that one.
    return [(entry, dict(first).get(entry)) for entry in way] if first and way[:1] == [first[0][0]] else first


def outcome(listed, packet, category, number):
    """The entries that match in a category, the one that decides first: it has to be the one of the program's rule."""
    found = matching(listed, packet.key, category) if packet.key else []
    programs = listed.entry(listed.rules[number - 1]) if number else None
    own = found[0][0] if found else None
    if programs is not own:
        told = [it.place() if it else NOTHING for it in (programs, own)]
        leave(f"{packet.name}: the program answers by {told[0]}, and this tool finds {told[1]}", 2)
    return tuple(found)


def why(loser, winner):
    """Why an entry that matches doesn't decide; each is an entry with its rule, or with None."""
    (entry, rule), (first, winning) = loser, winner
    by_priority = rule and winning and ("pri" in rule.given or "pri" in winning.given)
    if by_priority and rule.priority != winning.priority:
        return f"its priority {rule.priority} is less than {winning.priority}"
    if entry.verdict:
        return f"packets come to it after {first.place()}"
    return f"it stands after {first.place()}" + (" and has the same priority" if by_priority else "")


def of_packet(listed, packet, printed_of, categories):
    """What matches a packet: the entries of each outcome, with the categories that have it."""
    kind, numbers = printed_of
    if kind != packet.kind:
        leave(f"{packet.name}: the program prints {kind} of it, and this tool reads it as {packet.kind}", 2)
    groups = {}
    for category in categories:
        number = numbers[category] if packet.key else None
        groups.setdefault(outcome(listed, packet, category, number), []).append(category)
    return [(group, found) for found, group in groups.items()]


def rows_of(packet, group, found):
    """What is told of each entry that matches in a group of categories."""
    words = packet_words.words_of(packet.key) if packet.key else packet.kind
    base = dict.fromkeys(("outcome", "place", "line", "verdict", "userdata", "rule", "why"))
    base.update(packet=packet.name, words=words, categories=group)
    if not found:
        yield {**base, "outcome": "unmatched",
               "why": NOTHING if packet.key else f"a packet that is {packet.kind} has no rule"}
    # Lines that were left out come first; the first line after them decides if none of them does.
    last = next((place for place, (entry, _) in enumerate(found) if not entry.why), len(found))
    for place, (entry, rule) in enumerate(found):
        is_open = entry.why and place < last
        outcome_of = OPEN if is_open else "loses" if place > last else "may" if last else "decides"
        reason = (f"it was left out, and may decide: {entry.why}" if is_open else
                  why((entry, rule), found[last]) if place > last else
                  "it decides if no line does that was left out" if last else None)
        yield {**base, "outcome": outcome_of, "place": entry.place(), "line": entry.number,
               "verdict": None if entry.why else entry.verdict, "userdata": rule.userdata if rule and not entry.why else None,
               "rule": entry.text, "why": reason}


def left_out_rows(listed):
    """A row for each line that was left out."""
    base = dict.fromkeys(("packet", "words", "categories", "outcome", "place", "line", "verdict", "userdata", "rule", "why"))
    for it in listed.told_left_out():
        yield {**base, "outcome": "left out", "file": it["file"], "line": it["line"], "rule": it["text"], "why": it["why"]}
