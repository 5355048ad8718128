# SPDX-License-Identifier: BSD-3-Clause
"""Converts lists for tests, and decides packets by rule files, a rule at a time."""
from collections import namedtuple
from pathlib import Path

from aclc_tools import rule_file
from aclc_tools.forms import converted, options_of

DATA = Path(__file__).resolve().parent / "data"
# A list as lines, how they stand in a file, the options of the converter, what judges its text, and what that raises.
Drawn = namedtuple("Drawn", "lines join options judge unlawful")


def convert(form, text, file="-", **given):
    """The rule file of a list as text, and what was left out."""
    done = converted(options_of(form, file, **given), text)
    return "".join(line + "\n" for line in done.lines), done.left_out


def rules_of(text):
    """The rules of a rule file, which has no fault."""
    rules, faults = rule_file.read_rules(text.encode())
    if faults:
        raise AssertionError(f"line {faults[0].line}: {faults[0].kind}")
    return rules


def matches(rule, fields):
    """Whether a rule of a rule file matches a packet."""
    family, source, destination, ports, protocol = fields
    near = [(rule.source, source), (rule.destination, destination)]
    return (rule.family == family
            and all(value >> rule.bits - length == network >> rule.bits - length for (network, length), value in near)
            and rule.source_ports[0] <= ports[0] <= rule.source_ports[1]
            and rule.destination_ports[0] <= ports[1] <= rule.destination_ports[1]
            and protocol & rule.protocol[1] == rule.protocol[0] & rule.protocol[1])


def decided(rules, fields):
    """The userdata of the first rule of a rule file that matches a packet, or None."""
    return next((rule.userdata for rule in rules if matches(rule, fields)), None)
