# SPDX-License-Identifier: BSD-3-Clause
"""What a report holds of a list: its entries, which of them can't decide, and what the page needs to say which match.

Numbers that are compared are written in hexadecimal digits of their field's width, in which they sort as numbers.
"""
from functools import lru_cache

from aclc_tools import audits, boxes, labels, lists, parts
from aclc_tools.answers import Refusal
from aclc_tools.any_list import NOT_DECIDED, RULES
from aclc_tools.program import leave

WIDTHS = {4: (8, 8, 4, 4), 6: (32, 32, 4, 4)}


def digits(value, width):
    """A number in so many hexadecimal digits."""
    return f"{value:0{width}x}"


def match_of(rule):
    """What a rule of a rule file compares, and what ranks it."""
    value, mask = rule.protocol
    sides = [[digits(low, width), digits(high, width)]
             for (low, high), width in zip(rule.intervals(), WIDTHS[rule.family])]
    return {"family": rule.family, "sides": sides, "protocol": [value & mask, mask], "priority": rule.priority,
            "byPriority": "pri" in rule.given, "categories": rule.categories, "userdata": rule.userdata}


def box_of(box):
    """A box of `boxes`: its family, and the intervals of each side, those of the protocols last."""
    widths = *WIDTHS[box.family], 2
    return [box.family, *([[digits(low, width), digits(high, width)] for low, high in side]
                          for side, width in zip(box[1:], widths))]


def chains_of(listed, places):
    """The chains of a list of another program: each rule's verdict, the chain that it leads to, its entry, its boxes."""
    if not listed.chains:
        return None if listed.form == RULES else one_chain(listed, places)
    chains = {}
    for name, chain in listed.chains.chains.items():
        chains[name] = rules = []
        for rule in chain.rules:
            entry = listed.by_key.get((rule.number, rule.verdict)) if rule.verdict in lists.DECIDING else None
            if not rule.reason and rule.verdict != lists.PASS:
                rules.append([rule.verdict, rule.target, places.get(entry, -1), [box_of(box) for box in rule.boxes]])
            elif rule.reason and (rule.number, NOT_DECIDED) in listed.by_key:
                rules.append(left_out_rule(listed, rule, places))
    beside = [left_out_rule(listed, rule, places) for rule in listed.chains.beside]
    chains[listed.chains.start] = beside + chains[listed.chains.start]
    return {"start": listed.chains.start, "families": sorted(listed.chains.families), "chains": chains}


@lru_cache(maxsize=None)
def protocols_of(value, mask):
    """The intervals of the protocols that agree with a value in the bits of a mask."""
    return boxes.union([(it, it) for it in range(256) if not (it ^ value) & mask])


def one_chain(listed, places):
    """The rules of a list as one chain."""
    rules = []
    for rule in listed.rules:
        box = boxes.Box(rule.family, *((side,) for side in rule.intervals()), protocols_of(*rule.protocol))
        entry = listed.entry(rule)
        rules.append([entry.verdict, None, places[entry], [box_of(box)]])
    return {"start": "rules", "families": sorted({rule.family for rule in listed.rules}), "chains": {"rules": rules}}


def left_out_rule(listed, rule, places):
    """A line that was left out: it may decide the packets of its boxes, or all."""
    known = rule.boxes or [boxes.whole(family) for family in (4, 6)]
    return [NOT_DECIDED, None, places[listed.by_key[rule.number, NOT_DECIDED]], [box_of(box) for box in known]]


def least_of(entry, audit):
    """The least keys at which an entry's rules decide: each with a bit for each category in which it is the least."""
    found = {}
    for category in range(audit.categories):
        own = [audit.least[rule.ordinal, category] for rule in entry.rules if (rule.ordinal, category) in audit.least]
        if own:
            key = min(own, key=lambda it: (not it.is_of_a_packet(), it.content()))
            content = key.content().hex()
            found[content] = found.get(content, 0) | 1 << category
    return [[key, categories] for key, categories in found.items()]


def entry_of(listed, entry, answer):
    """An entry as the page gets it."""
    told = {"place": entry.place(), "number": entry.number, "text": entry.text, "verdict": entry.verdict,
            "end": entry.is_end, "answer": answer, "dead": None, "unknown": False, "least": [], "leftOut": entry.why}
    if listed.form == RULES:
        told["match"] = match_of(entry.rules[0])
    return told


def answer_of(listed, entry, labels_of):
    """What counts as the answer of an entry: that of its first rule, or its verdict if no rule says it."""
    return labels_of[entry.rules[0].ordinal] if entry.rules and not entry.why else entry.verdict


class Audited:
    """A list with its audit; what it says of its entries comes with `told`."""

    def __init__(self, listed, given, room):
        self.listed = listed
        self.places = {entry: place for place, entry in enumerate(listed.entries)}
        try:
            self.audit = audits.Audit(listed, given, room)
        except Refusal as refusal:
            leave(f"{listed.name}: {refusal.message}", 2)

    def told(self, data, checksum):
        """What a report holds of it, if `data` counts as the answer."""
        listed, labels_of = self.listed, labels.of_list(self.listed, data)
        entries = [entry_of(listed, entry, answer_of(listed, entry, labels_of)) for entry in listed.entries]
        self.add_audit(entries)
        return {"name": str(listed.name), "checksum": checksum, "form": listed.form, "none": labels_of[0],
                "what": listed.entries[0].what if listed.entries else "line", "rules": len(listed.rules),
                "hasCategories": listed.has_categories, "entries": entries, "chains": chains_of(listed, self.places),
                "parts": self.audit.parts or 1, "assumed": listed.assumed, "leftOut": listed.told_left_out(),
                "notLooked": [f"{parts.words(family, part)}: {message}"
                              for family, part, message, _ in self.audit.left]}

    def add_audit(self, entries):
        """Says of each entry whether it can decide, and what covers it if it can't."""
        dead, unknown = self.audit.dead()
        its_covers, elsewhere = audits.Covers(self.listed), self.audit.not_under_assumption(dead)
        for entry in dead:
            found, why = its_covers.of_entry(entry)
            by = sorted(self.places[it] for it in found)
            which = "notHere" if entry in elsewhere else "dead"
            entries[self.places[entry]][which] = {"why": why, "by": by}
        for entry in unknown:
            entries[self.places[entry]]["unknown"] = True
        for entry, told in zip(self.listed.entries, entries):
            told["least"] = least_of(entry, self.audit)


def only_in(one, other):
    """The places of the entries of a list whose texts no entry of the other one has."""
    def text(listed, entry):
        return labels.text_label(entry.rules[0], entry) if entry.rules else f"{entry.verdict} {entry.text}"

    texts = {text(other, entry) for entry in other.entries}
    return [place for place, entry in enumerate(one.entries) if text(one, entry) not in texts]
