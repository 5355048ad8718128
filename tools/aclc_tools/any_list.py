# SPDX-License-Identifier: BSD-3-Clause
"""Lists of any form as rules that the program reads, each with the line of the list that it was made of.

The form is told, or found by what stands in the file. A list of another program is turned into rules by `forms`.
"""
import argparse
import re
import sys
from collections import namedtuple

from aclc_tools import list_program, lists, rule_file
from aclc_tools.advice import no_list
from aclc_tools.boxes import lines as lines_of
from aclc_tools.forms import FORMS, assumed, complete, converted
from aclc_tools.printing import shown
from aclc_tools.program import leave, note, read_file

RULES = "rules"
# What a line of each form looks like; a comment of a rule file looks like none. The blanks before a word are those of
# its line alone, since else each of many empty lines would be searched to the last one.
MARKS = {"nft": r'\A\s*\{(?s:.)*"nftables"', "iptables": r"(?m)^\*[a-z]+\s*$", "l3fwd": r"(?m)^R[0-9]",
         "cisco": r"(?m)^[^\S\n]*(ip access-list (extended|standard) |access-list \d+ (permit|deny|dynamic) )",
         "asa": r"(?m)^access-list \S+ (line \d+ )?extended ", "iosxr": r"(?m)^[^\S\n]*ipv4 access-list \S",
         "nxos": r"(?m)^[^\S\n]*ip access-list (?!(extended|standard|resequence|logging|role-based) )\S+\s*$",
         "juniper": r"(?m)^set (.* )?firewall ",
         "aws": r'\A\s*[\[{](?s:.)*"(SecurityGroups|SecurityGroupRules|NetworkAcls)"',
         "azure": r'\A\s*[\[{](?s:.)*"(securityRules|destinationPortRange)"', RULES: r"(?m)^[ \t]*@"}
# What several forms have in common, where nothing else tells which of them it is.
COMMON = ((r"(?m)^[^\S\n]*ipv6 access-list \S", ("cisco", "nxos", "iosxr")),)
STANDARD_INPUT = "-", "/dev/stdin", "/proc/self/fd/0", "/dev/fd/0"
# Options that mean nothing for a rule file.
OF_OTHERS = "chain", "table", "list", "family", "lenient", "assume"
# Chains, the one that is meant, and the rules that are left out.
Walked = namedtuple("Walked", "chains start left_out")
UNPROVED = "    --unproved reads it by a reader that isn't proved"
# The chains of a list, the one that is meant, the families of its rules, and what else may decide, if it was left out.
Chains = namedtuple("Chains", "chains start families beside")
# A line that was left out: the file, what numbers it, its number and text, and why; and the rule that is known of it.
LeftOut = namedtuple("LeftOut", "file what number text why rule")
NOT_DECIDED = "not decided"
# The forms whose lines say all that they do, whether they match or not: no jumps and returns, nor names that stand
# elsewhere in the file, but those of groups.
JUMPING = "iptables", "nft"
PLAIN = ("iptables", "cisco", "nxos", "iosxr", "aws", "azure")
NAMES = re.compile(r"\b(object-group|addrgroup|portgroup|net-group|port-group|time-range|evaluate|reflect|dynamic)\b")


class Entry:
    """A line of a list as it was written, and the rules that say it.

    Boxes have what it matches by itself, if that is known. An end is a policy, or what a list does if no line matches.
    The rules of a line that was left out are those of the packets that it may decide; its verdict is NOT_DECIDED.
    """

    def __init__(self, what, number, text, verdict=None, boxes=None):
        self.what, self.number, self.text, self.verdict, self.boxes = what, number, text, verdict, boxes
        self.rules, self.is_end, self.why = [], False, None

    def place(self):
        """Where it stands, in words."""
        return f"{self.what} {self.number}" if self.number else "the end"

    def told(self):
        """Where it stands, what it does and what it says."""
        verdict = f" ({self.verdict})" if self.verdict else ""
        return f"{self.place()}{verdict}: {self.text}"


class AnyList:
    """A list: its rules in the order of their places, and its entries in the order of its lines.

    A list of another program has its chains, and the entries also in the order in which packets come to them, each
    under the number and the verdict of its rules. If lines were left out, `beneath` has under a rule's number the lines
    that may decide its packets, and the entry that does if none of them does.
    """

    def __init__(self, name, form, rules, entries, chains=None, by_key=None, left_out=(), beneath=None, content=None):
        self.name, self.form, self.rules, self.entries = name, form, rules, entries
        self.chains, self.by_key, self.left_out, self.beneath, self.content = chains, by_key, left_out, beneath or {}, content
        # What reads its chains without what is assumed, if something is.
        self.assumed, self.read_free = "", None
        # The chains as the tools read them, of a list whose rules another program made.
        self.walk = None
        self.entry_of = {rule.ordinal: entry for entry in entries for rule in entry.rules}
        self.has_categories = any("cat" in rule.given for rule in rules)
        order = list(by_key.values()) if by_key else entries
        self.order = {entry: place for place, entry in enumerate(order)}

    def entry(self, rule):
        """The entry that a rule says."""
        return self.entry_of[rule.ordinal]

    def does_what_it_says(self, left):
        """Whether a line that was left out decides the same in each list in which it has the same text and place."""
        return (self.form in PLAIN and left.rule.verdict in lists.DECIDING and not NAMES.search(left.text)
                and (bool(left.rule.boxes) or self.form != "iptables"))

    def below(self, rule):
        """The entry that decides if no line does that was left out."""
        return self.beneath[rule.ordinal][1] if rule.ordinal in self.beneath else self.entry(rule)

    def may_lead_anywhere(self):
        """Whether it isn't known of a line that was left out that it decides, if it matches."""
        return any(self.form in JUMPING and not it.rule.boxes and it.rule not in self.chains.beside for it in self.left_out)

    def told_left_out(self):
        """What is told of the lines that were left out, for a program."""
        return [{"file": shown(str(it.file)), "line": it.number, "text": it.text, "why": it.why} for it in self.left_out]

    def print_left_out(self):
        """The same as text."""
        for it in self.left_out:
            place = f"{it.what} {it.number}" if it.number else "the list"
            print(f"left out: {shown(str(self.name))}: {place}: {it.text}\n  {it.why}")


def add_options(parser):
    """The options of all tools that ask the program about a list: its form, what of it is meant, and how to print."""
    printed = parser.add_mutually_exclusive_group()
    for name in ("--csv", "--json"):
        printed.add_argument(name, action="store_true")
    parser.add_argument("--form", choices=[RULES, *FORMS])
    for name in ("--chain", "--table", "--list"):
        parser.add_argument(name)
    parser.add_argument("--family", type=int, choices=(4, 6))
    parser.add_argument("--lenient", action="store_true")
    parser.add_argument("--unproved", action="store_true")
    parser.add_argument("--assume", type=assumed)
    parser.add_argument("--max-words", metavar="W")


def check_words(given, names, lists):
    """Refuses what would be ignored: standard input named twice, and options of other lists beside rule files alone."""
    if sum(name in STANDARD_INPUT for name in names) > 1:
        leave("standard input is named twice, and can be read once", 2)
    if all(listed.form == RULES for listed in lists):
        for option in OF_OTHERS:
            if getattr(given, option, None):
                leave(f"--{option} is for lists of other programs, and {lists[0].name} is a rule file", 2)


def forms_seen(text):
    """The forms that lines of a text look like."""
    known = [RULES, *FORMS]
    found = [form for form in MARKS if form in known and re.search(MARKS[form], text)]
    if found == ["l3fwd", RULES]:
        return ["l3fwd"]
    for mark, forms in COMMON:
        if not found and re.search(mark, text):
            return [form for form in forms if form in known]
    return found


def form_of(name, text, told):
    """The form of a list: as it is told, or as its lines say."""
    found = [told] if told else forms_seen(text)
    if len(found) > 1:
        leave(f"{name}: its lines fit more than one form: --form {' or --form '.join(found)} says which", 2)
    if not found and any(line.strip() and not line.lstrip().startswith("#") for line in text.split("\n")):
        leave(f"{name}: no form of a list is seen in it: --form says which it has, of {', '.join([RULES, *FORMS])}."
              " A list of nftables is written by nft -j list ruleset", 2)
    return found[0] if found else RULES


def read_list(name, given, content=None):
    """The list of a file, or of the bytes of one. What isn't read ends the tool with the reason."""
    content = read_file(name, 2) if content is None else content
    foreign = no_list(content)
    if foreign and not given.form:
        leave(f"{name}: {foreign[0].lower()}{foreign[1:]}", 2)
    text = content.decode("utf-8-sig", "surrogateescape")
    form = form_of(name, text, given.form)
    return of_rule_file(name, content) if form == RULES else of_other(name, form, text, given)


def of_rule_file(name, content):
    """A rule file as a list; Faulty where it isn't read."""
    rules, faults = rule_file.read_rules(content)
    if faults:
        raise Faulty(name, content, faults[0])
    if not rules:
        note(f"{name}: there is no rule in it")
    entries = []
    for rule in rules:
        entries.append(Entry("line", rule.line, shown(b" ".join(rule.text.split()))))
        entries[-1].rules.append(rule)
    return AnyList(name, RULES, rules, entries)


class Faulty(Exception):
    """A rule file that isn't read: its name, its bytes and its first fault."""

    def __init__(self, name, content, fault):
        super().__init__(name)
        self.name, self.content, self.fault = name, content, fault


def of_other(name, form, text, given):
    """A list of another program, with what it does at its end where no line of it says that."""
    options = {key: value for key, value in vars(given).items() if value is not None and key != "data"}
    options, what = complete(argparse.Namespace(**{**options, "form": form, "file": str(name)})), FORMS[form].what
    try:
        answered = list_program.answered(options, text)
        if answered is not None:
            return Proved(name, options, answered, text).list()
        found = converted(options, text, True)
    except list_program.Refused as refused:
        leave(f"{name}: {refused.message}\n{UNPROVED}", 2)
    except lists.CantSay as said:
        for it in said.notes:
            tell(name, what, *it)
        tell(name, what, said.number, said.text, said.reason)
        sys.exit(2)
    for it in found.notes:
        tell(name, what, *it)
    return freed(Built(name, form, found.flattener, text).list(), options, text)


def freed(listed, options, text):
    """A list with what is assumed of its packets, and what reads it without that."""
    if options.assume and options.assume.told():
        free = argparse.Namespace(**{**vars(options), "assume": None, "lenient": True})
        listed.assumed = options.assume.told()
        listed.read_free = lambda: FORMS[listed.form].reader.convert(text.split("\n"), complete(free))
    return listed


def tell(name, what, number, text, reason):
    """A line on standard error for what can't be said, or what is told beside it."""
    note((f"{name}: {what} {number}" if number else str(name)) + f": {reason}" + (f"\n    {text}" if text else ""))


def deciding(flattener):
    """The rules that decide or were left out, of the chain that is meant and of all that it leads to, in the order in
    which packets come to them, each with whether it stands in the chain that is meant."""
    met, waiting = set(), [iter([(None, flattener.start)])]
    while waiting:
        rule, target = next(waiting[-1], (None, None))
        if rule and (rule.number in flattener.left_out if rule.reason else rule.verdict in lists.DECIDING):
            yield rule, len(waiting) == 2
        if not rule and not target:
            waiting.pop()
        elif target in flattener.chains and target not in met:
            met.add(target)
            waiting.append(iter([(it, it.target) for it in flattener.chains[target].rules]))


class Proved:
    """A list whose rules are those of the program aclc-lists. Which lines stand in it that decide nothing is told by the
    reader of the tools, if it reads the list."""

    def __init__(self, name, options, answered, text):
        self.name, self.options, self.answered, self.text = name, options, answered, text
        self.form, self.what = options.form, FORMS[options.form].what
        self.written = text.split("\n") if self.what == "line" else None
        self.entries, self.walk = {}, None

    def entry(self, number, verdict, text):
        """The entry of a line."""
        if not number:
            return self.entries.setdefault(None, Entry(self.what, None, "what no line matches", verdict))
        text = self.written[number - 1] if self.written and number <= len(self.written) else text
        return self.entries.setdefault((number, verdict), Entry(self.what, number, shown(" ".join(text.split())), verdict))

    def add_others(self):
        """The lines that decide and have no rule: they match nothing, or no packet comes to them."""
        try:
            chains, start, families = FORMS[self.form].reader.convert(self.text.split("\n"), self.options)
        except lists.CantSay as said:
            note(f"{self.name}: lines that have no rule aren't listed, since this tool doesn't read the list: {said.reason}")
            return
        # Of nft alone a rule may have several verdicts.
        known = {} if self.form == "nft" else {entry.number: entry for entry in self.entries.values()}
        for rule, is_in_chain in deciding(Walked(chains, start, {})):
            entry = known.get(rule.number) or self.entry(rule.number, rule.verdict, rule.text)
            entry.text = shown(" ".join(rule.text.split())) if not self.written else entry.text
            if is_in_chain:
                entry.boxes = [*(entry.boxes or ()), *rule.boxes]
        self.walk = Chains(chains, start, families, ())
        policy = chains[start].policy
        if policy and policy.verdict in lists.DECIDING:
            # No packet may come to it, and then it has no rule.
            end = known.get(policy.number) or self.entry(policy.number, policy.verdict, policy.text)
            end.is_end, end.text = True, end.text if self.written else policy.text

    def list(self):
        """The list."""
        rules = []
        for it in self.answered:
            line = f"{it.columns}\tdata={it.number}"
            rules.append(rule_file.read_rule(line.encode(), len(rules) + 1, len(rules) + 1))
            self.entry(it.number, it.verdict, it.text).rules.append(rules[-1])
        if FORMS[self.form].end:
            self.entry(0, FORMS[self.form].end, "").is_end = True
        self.add_others()
        entries = list(self.entries.values())
        if self.written:
            entries.sort(key=lambda it: (it.number is None, it.number or 0))
        listed = AnyList(self.name, self.form, rules, entries, None, self.entries, content=self.text)
        listed.walk = self.walk
        return freed(listed, self.options, self.text)


class Built:
    """A list of another program that is made of what its lines decide."""

    def __init__(self, name, form, flattener, text):
        self.name, self.form, self.flattener, self.text = name, form, flattener, text
        self.what = FORMS[form].what
        self.written = text.split("\n") if self.what == "line" else None
        self.entries, self.rules, self.beneath, self.left = {}, [], {}, {}

    def text_of(self, rule):
        """The text of a rule as it is printed: that of its line, if lines number the rules."""
        text = self.written[rule.number - 1] if self.written and rule.number else rule.text
        return shown(" ".join(text.split()))

    def entry_of(self, rule):
        """The entry of a rule that decides."""
        if rule is self.flattener.policy and self.flattener.end:
            key, number, text = None, None, "what no line matches"
        else:
            key, number, text = (rule.number, rule.verdict), rule.number, self.text_of(rule)
        return self.entries.setdefault(key, Entry(self.what, number, text, rule.verdict))

    def entry_of_left_out(self, rule):
        """The entry of a line that was left out."""
        key = rule.number, NOT_DECIDED
        if key not in self.entries:
            self.entries[key] = Entry(self.what, rule.number, self.text_of(rule), NOT_DECIDED)
            self.entries[key].why = rule.reason
            self.left[key] = LeftOut(self.name, self.what, rule.number, self.text_of(rule), rule.reason, rule)
        return self.entries[key]

    def add_lines(self):
        """Makes the entries, in the order in which packets come to them."""
        for rule in self.flattener.beside:
            self.entry_of_left_out(rule)
        for rule, is_in_chain in deciding(self.flattener):
            if rule.reason:
                self.entry_of_left_out(rule)
                continue
            entry = self.entry_of(rule)
            if is_in_chain:
                entry.boxes = [*(entry.boxes or ()), *rule.boxes]
        if self.flattener.policy.verdict in lists.DECIDING:
            self.entry_of(self.flattener.policy).is_end = True

    def add_rules(self):
        """Makes the rules of the boxes that are decided, each of its entry, or of the first line that may decide it."""
        # Of packets of a family that no line is about nothing is said, though they come to the list's end.
        with_lines = {it.box.family for it in self.flattener.found if it.rule is not self.flattener.policy or it.unless}
        for rule, box, unless in self.flattener.found:
            if box.family not in with_lines and self.flattener.end:
                continue
            entry = self.entry_of(rule)
            left = [self.entry_of_left_out(it) for it in unless]
            data = rule.number if entry.number is not None else 0
            for line in lines_of(box, f"data={data}"):
                made = rule_file.read_rule(line.encode(), len(self.rules) + 1, len(self.rules) + 1)
                self.rules.append(made)
                (left[0] if left else entry).rules.append(made)
                if left:
                    self.beneath[made.ordinal] = tuple(left), entry

    def list(self):
        """The list."""
        self.add_lines()
        self.add_rules()
        entries = list(self.entries.values())
        if self.written:
            entries.sort(key=lambda it: (it.number is None, it.number or 0))
        chains = Chains(self.flattener.chains, self.flattener.start, {rule.family for rule in self.rules},
                        self.flattener.beside)
        return AnyList(self.name, self.form, self.rules, entries, chains, self.entries, list(self.left.values()),
                       self.beneath, self.text)
