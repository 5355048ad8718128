# SPDX-License-Identifier: BSD-3-Clause
"""What a report says of files that are refused: the program's message, the line that it is about, and what to do."""
import re

from aclc_tools import advice, rule_file
from aclc_tools.printing import shown

MESSAGE = re.compile(r"aclc: (?:(?:second )?rules: line|capture: record) (\d+): (.*)")
MOST_FAULTS = 20


def refused(role, name, message, code=2):
    """A refusal as the page gets it; the kind is the heading of docs/MISTAKES.md that it stands under."""
    found = MESSAGE.search(message)
    kind = found.group(2) if found else message.partition("aclc: ")[2]
    kind = "read fault" if code == 7 else "table too large" if " table too large" in kind else kind
    return {"role": role, "file": str(name), "message": shown_lines(message), "code": code, "kind": kind,
            "faults": [], "sentence": None}


def shown_lines(text):
    """A text whose lines can be printed."""
    return "\n".join(map(shown, text.split("\n")))


def of_rules(role, name, content, message, code):
    """A rule file that the program refuses: its faulty lines, the first of which is the program's."""
    told = refused(role, name, message, code)
    faults, lines = rule_file.read_rules(content)[1], rule_file.lines_of(content)
    said = MESSAGE.search(message)
    if not said or not faults or (str(faults[0].line), faults[0].kind) != said.groups():
        return told
    told["more"] = max(0, len(faults) - MOST_FAULTS)
    foreign = advice.no_list(content)
    for fault in faults[:1 if foreign else MOST_FAULTS]:
        line = lines[fault.line - 1] if fault.line else b""
        parts = line[:fault.start], line[fault.start:fault.end], line[fault.end:]
        told["faults"].append({"line": fault.line, "kind": fault.kind, "parts": [shown(it) for it in parts],
                               "sentence": foreign or advice.sentence(fault, line)})
    return told


def of_capture(name, refusal):
    """A capture that is refused, with a sentence on what to do, if there is one."""
    return {**refused("capture", name, refusal.message, refusal.code), "sentence": refusal.sentence}
