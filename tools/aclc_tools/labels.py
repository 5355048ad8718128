# SPDX-License-Identifier: BSD-3-Clause
"""What counts as the answer of a list, so that the answers of two lists can be compared."""
import re

from aclc_tools.any_list import NOT_DECIDED, RULES
from aclc_tools.program import leave

CHOICES = {"verdict": "what a list of another program does: accept or drop",
           "data": "the number that aclc prints: data= of a rule file, and the line or handle of another list",
           "line": "the line that decides, or the handle of nft",
           "text": "the text of the line that decides, wherever it stands"}
COUNTS = re.compile(r"^\[\d+:\d+\] | \[\d+:\d+\]$")


def add_option(parser):
    """The option that says what counts as the answer."""
    parser.add_argument("--data", choices=CHOICES)


def chosen(given, old, new):
    """What is compared: what is asked for, or verdicts of lists of other programs, and userdata of rule files."""
    own = [listed.form == RULES for listed in (old, new)]
    if given.data == "verdict" and any(own):
        leave(f"{(old if own[0] else new).name}: a rule file has no verdicts: --data data compares its userdata", 2)
    if not given.data and own[0] != own[1]:
        leave("one list is a rule file, and the other isn't: --data data compares the numbers that aclc prints", 2)
    return given.data or ("data" if own[0] else "verdict")


def text_label(rule, entry):
    """What a line says, without the numbers that its place gives it and without counters."""
    if entry.verdict:
        return f"{entry.verdict} {COUNTS.sub('', entry.text)}"
    value, mask = rule.protocol
    columns = rule.family, *rule.intervals(), (value & mask,
                                               mask), rule.given.get("pri"), rule.categories, rule.given.get("data")
    return " ".join(map(str, columns))


def label(listed, rule, data):
    """The answer of a rule of a list, or of none."""
    if rule is None:
        return 0 if data in ("data", "line") else None
    entry = listed.entry(rule)
    return NOT_DECIDED if entry.why else of_entry(rule, entry, data)


def of_entry(rule, entry, data):
    """The answer of a rule if this entry decides."""
    if data == "text":
        return text_label(rule, entry)
    if data == "verdict":
        return entry.verdict
    return rule.userdata if data == "data" else entry.number or 0


def of_list(listed, data):
    """The answer of each rule, by its place, with that of no rule before them."""
    return [label(listed, rule, data) for rule in (None, *listed.rules)]


def whatever(listed, data):
    """The answer of each rule, and beside it the lines that may decide otherwise, by what they say; that of no rule first."""
    found = []
    for rule in (None, *listed.rules):
        left, entry = listed.beneath.get(rule.ordinal, ((), None)) if rule else ((), None)
        texts = tuple(COUNTS.sub("", it.text) for it in left)
        found.append((texts, of_entry(rule, entry or listed.entry(rule), data) if rule else label(listed, rule, data)))
    return found


def told(answer, data):
    """An answer as it is printed; a text stands beside it anyway."""
    if data == "text":
        return ""
    return "no answer" if answer is None else str(answer)
