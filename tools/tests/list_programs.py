# SPDX-License-Identifier: BSD-3-Clause
"""Lists of iptables, of Cisco's IOS and of nft by the program aclc-lists, beside tools/convert and their own judges.

The program takes what iptables-save prints, and tools/convert also takes what people write, as masks and words in
another order. Of a configuration the program takes extended lists, and knows each line before it passes over it. So a
list may be one that the program alone refuses. It alone takes a list only where the line that the tools refuse is one
of another list. It takes a ruleset if what they refuse is a rule that no packet meets, a table's own object, or a
handle that comes twice.
"""
import random
import re
import tempfile
from collections import Counter
from pathlib import Path

import damages
import draws_cisco
import draws_iptables
import draws_nft
import draws_rulesets
from aclc_tools import forms, list_program, lists, program
from converting import decided, rules_of

NEAR = 40
WORDS = {("iptables", 4): "iptables", ("iptables", 6): "ip6tables", ("cisco", 4): "cisco", ("cisco", 6): "cisco",
         ("nft", 4): "nft", ("nft", 6): "nft6"}


def text_of(lines):
    """A text of these lines."""
    return "".join(line + "\n" for line in lines)


def saved(lines):
    """Lines as iptables-save prints them: prefix lengths in the place of masks."""
    return text_of(lines).replace("/255.255.255.0", "/24")


# Of each form what draws a list, what damages its lines, and what makes its text.
FORMS = {"iptables": (draws_iptables.draw, damages.damaged, saved),
         "cisco": (draws_cisco.draw, draws_cisco.damaged, text_of),
         "nft": (draws_rulesets.draw, damages.damaged, draws_nft.joined)}
# Whether what the tools refuse of a text has no part in the list that is asked for.
NO_PART = {"cisco": draws_cisco.has_no_part, "nft": draws_rulesets.has_no_part}


def by_program(options, text):
    """The rule file that the program writes of a list, or None where it refuses it."""
    given = filter_alone(text) if options.form == "iptables" else text
    made = list_program.written(options, given, WORDS[options.form, options.family], options.chain or options.list)
    return made.lines and text_of(made.lines)


def filter_alone(text):
    """A list with an empty line in the place of each one of another table than filter."""
    kept, table = [], None
    for line in text.split("\n"):
        begins = re.match(r"\*(\S+)", line) if table is None else None
        table = begins.group(1) if begins else table
        kept.append(line if table in (None, "filter") else "")
        table = None if line.rstrip("\r") == "COMMIT" else table
    return "\n".join(kept)


def by_converter(options, text):
    """The rule file that the tools write of a list, and None; or None, and why they refuse it."""
    try:
        return text_of(forms.converted(options, text).lines), None
    except lists.CantSay as said:
        return None, said


def answer_alike(one, other):
    """Whether two rule files answer each key alike, by aclc itself."""
    with tempfile.TemporaryDirectory() as folder:
        names = Path(folder) / "one.rules", Path(folder) / "other.rules"
        for name, text in zip(names, (one, other)):
            name.write_text(text)
        done = program.run("compare", *names, path=program.built_program())
    if done.code:
        raise AssertionError(f"aclc compare ended with {done.code}: {done.message}")
    return done.lines == b"ip4 same\nip6 same\n"


def differing(rules, wanted, judge, draw):
    """A sentence for each packet near the rules of either that those of the program answer not as the judge does."""
    for fields in [*damages.fields_near(rules, NEAR, draw), *damages.fields_near(wanted, NEAR, draw)]:
        said = judge.decides(fields) or 0
        if (decided(rules, fields) or 0) != said:
            yield f"packet {fields}: {decided(rules, fields)} by the program, {said} by the list"


def decides_by_part(drawn, part, text, made, draw):
    """Whether the program decides as a part of a ruleset does."""
    try:
        return not any(differing(rules_of(made), [], drawn.judge(part(text)), draw))
    except drawn.unlawful:
        return False


def is_idle(drawn, text, refused, made, draw):
    """Whether the program decides as what it reads of a ruleset does, or as the ruleset without the rule that the tools
    refuse, which no packet meets."""
    parts = [draws_rulesets.read_part] + [lambda it: draws_rulesets.without(it, refused.number)] * bool(refused)
    return any(decides_by_part(drawn, part, text, made, draw) for part in parts)


def judged(drawn, text, draw):
    """What became of a list: `same`, `both refuse`, `program refuses`, `no part`, or a sentence that tells a fault."""
    made, (wanted, refused) = by_program(drawn.options, text), by_converter(drawn.options, text)
    if made is None:
        return "both refuse" if wanted is None else "program refuses"
    form = drawn.options.form
    allowed = refused is None or form in NO_PART and NO_PART[form](text, refused)
    try:
        found = next(differing(rules_of(made), rules_of(wanted or ""), drawn.judge(text), draw), None)
    except drawn.unlawful as error:
        idle = refused and allowed or form == "nft" and is_idle(drawn, text, refused, made, draw)
        return "no part" if idle else f"it isn't lawful, and was taken: {error}"
    if refused and not found and not allowed and form != "nft":
        return f"the converter refuses what the program takes: {refused.reason}"
    if found or refused:
        return found or "no part"
    if program.built_program() and not answer_alike(made, wanted):
        return "aclc compare says that the rules of the program and of the converter differ"
    return "same"


def outcomes(form, count, seed, damage):
    """How many drawn lists of a form have which outcome, and the faults among them."""
    draw, counts, faults = random.Random(seed), Counter(), []
    make, damaged, text_for = FORMS[form]
    for _ in range(count):
        drawn = make(draw)
        text = text_for(damaged(draw, drawn.lines) if damage else drawn.lines)
        found = judged(drawn, text, random.Random(draw.random()))
        known = found in ("same", "both refuse", "program refuses", "no part")
        counts[found if known else "fault"] += 1
        faults += [] if known else [(found, text)]
    return counts, faults
