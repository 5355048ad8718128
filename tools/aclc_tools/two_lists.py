# SPDX-License-Identifier: BSD-3-Clause
"""Two lists beside each other: which rules of them decide a packet, and whether that is a change."""
from collections import namedtuple

from aclc_tools import answers, any_list, labels, packet_words
from aclc_tools.printing import shown
from aclc_tools.program import leave

COLUMNS = ["category", "old", "old_line", "old_rule", "new", "new_line", "new_rule"]
# A packet that changed: its capture and number, a category, and the numbers of the rules that decide, or None.
Change = namedtuple("Change", "capture number category old new")


class TwoLists:
    """An old and a new list, what counts as their answers, and copies of them whose userdata are the rules' numbers."""

    def __init__(self, given, room, lists=None):
        """With lists that were read before, or reads them."""
        self.lists = lists or [answers.read(name, given, room) for name in (given.old, given.new)]
        any_list.check_words(given, [given.old, given.new, *getattr(given, "captures", ())], self.lists)
        self.data = labels.chosen(given, *self.lists)
        self.labels = [labels.of_list(listed, self.data) for listed in self.lists]
        self.copies = [room.write(".rules", answers.numbered(listed.rules)) for listed in self.lists]

    def differ(self, old, new):
        """Whether the answers of two rules differ, each given by its number or None."""
        return self.labels[0][old or 0] != self.labels[1][new or 0]

    def told_left_out(self):
        """What is told of the lines of both that were left out."""
        return [it for listed in self.lists for it in listed.told_left_out()]

    def is_open(self, old, new):
        """Whether a line that was left out may decide the packets of two rules, each given by its number or None."""
        return any(number in listed.beneath for listed, number in zip(self.lists, (old, new)))

    def rules(self, change):
        """The rules that decide, each of its list or None."""
        return [listed.rules[number - 1] if number else None
                for listed, number in zip(self.lists, (change.old, change.new))]

    def row(self, change, key=None):
        """What is told of a change, or of a pair of rules where no packet is named."""
        row = {"capture": change.capture, "number": change.number,
               "packet": packet_words.words_of(key) if key else None,
               "category": change.category}
        for side, listed, rule, own in zip(("old", "new"), self.lists, self.rules(change), self.labels):
            entry = listed.entry(rule) if rule else None
            row[side] = own[rule.ordinal if rule else 0]
            row[f"{side}_place"] = entry.place() if entry else None
            row[f"{side}_line"] = entry.number if entry else None
            row[f"{side}_rule"] = entry.text if entry else None
        return row

    def print_sides(self, row):
        """Both answers with the lines that give them."""
        width = max(len(labels.told(row[side], self.data)) for side in ("old", "new"))
        for side in ("old", "new"):
            rule = f"{row[side + '_place']}: {row[side + '_rule']}" if row[side + "_place"] else "no rule matches"
            print("  " + "  ".join(filter(None, [side, labels.told(row[side], self.data).ljust(width), shown(rule)])))


def excepted_of(listed, given):
    """The entries of the lines that the options except, by their numbers."""
    numbers = getattr(given, "excepted", None) or ()
    found = [entry for entry in listed.entries if entry.number is not None and entry.number in numbers]
    for number in numbers:
        if number not in {entry.number for entry in found}:
            what = listed.entries[0].what if listed.entries else "line"
            leave(f"{listed.name}: --except {number}: no rule of the new list is {what} {number}", 2)
    left = next((entry for entry in found if entry.why), None)
    if left:
        leave(f"{listed.name}: --except {left.number}: it was left out, so that its packets aren't known", 2)
    return found


def words_of_excepted(entries):
    """Excepted lines in words, and that they decide."""
    decide = "decides" if len(entries) == 1 else "decide"
    return f"{' and '.join(entry.place() for entry in entries)} of NEW {decide}"


def print_excepted(entries):
    """Says which lines are excepted, before all else."""
    if entries:
        print(f"except: packets that {words_of_excepted(entries)} are left out")
    for entry in entries:
        print(f"  {entry.told()}")


def told_excepted(entries):
    """Excepted lines for a program."""
    return [{"line": it.number, "verdict": it.verdict, "rule": it.text} for it in entries]
