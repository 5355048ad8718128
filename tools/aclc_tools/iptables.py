# SPDX-License-Identifier: BSD-3-Clause
"""Lists of iptables-save and ip6tables-save: their tables, chains and lines.

Source: the manual pages iptables(8), ip6tables(8), iptables-extensions(8) and iptables-save(8).
"""
import re
from collections import namedtuple

from aclc_tools import assume, iptables_options, iptables_rule, iptables_words
from aclc_tools.lists import ACCEPT, DROP, GO, JUMP, Aside, CantSay, Chain, Malformed, Read, Rule

POLICIES = {"ACCEPT": ACCEPT, "DROP": DROP}
# The chains of each table that packets come to by themselves.
BASE = {"filter": ("INPUT", "FORWARD", "OUTPUT"), "nat": ("PREROUTING", "INPUT", "OUTPUT", "POSTROUTING"),
        "mangle": ("PREROUTING", "INPUT", "FORWARD", "OUTPUT", "POSTROUTING"), "raw": ("PREROUTING", "OUTPUT"),
        "security": ("INPUT", "FORWARD", "OUTPUT")}
# The chains that are on the way of a packet that comes to a chain.
WAYS = {"INPUT": ("PREROUTING", "INPUT"), "FORWARD": ("PREROUTING", "FORWARD", "POSTROUTING"),
        "OUTPUT": ("OUTPUT", "POSTROUTING"),
        "PREROUTING": ("PREROUTING", "INPUT", "FORWARD", "POSTROUTING"),
        "POSTROUTING": ("PREROUTING", "FORWARD", "OUTPUT", "POSTROUTING")}
COUNTERS = r"\[\d+:\d+\]"
# The words by which a comment names legacy iptables, which has tables of its own.
LEGACY = {"iptables-legacy", "ip6tables-legacy"}
Declared = namedtuple("Declared", "number text policy lines")
Saved = namedtuple("Saved", "number text words")


def hides_tables(line):
    """Whether a comment tells of tables that the list lacks, or of which it lacks chains or rules.

    iptables-nft-save prints one where nft made something in a table. It warns of tables of legacy iptables on standard
    error, whose text may come in the midst of a line.
    """
    return line.startswith("# Table `") or not LEGACY.isdisjoint(line[1:].split())


class Tables:
    """The tables of a file, each with its chains, and each chain with its lines."""

    def __init__(self, lines):
        self.tables, self.open = {}, None
        for number, line in enumerate(lines, 1):
            line = line[:-1] if line.endswith("\r") else line
            try:
                self.take_any(number, line)
            except CantSay as said:
                raise CantSay(said.reason, number, line) from None
        if self.open is not None:
            raise CantSay(f"the table {self.open} has no COMMIT after it, so that its end may be missing", len(lines))

    def take_any(self, number, line):
        """A line, which may be empty or a comment."""
        if line and not line.startswith("#"):
            self.take(number, line)
        elif hides_tables(line):
            raise CantSay("tables are missing in this list, or a part of them, and may drop packets: nft -j list ruleset "
                          "and iptables-legacy-save show them")

    def take(self, number, line):
        """A line that isn't a comment."""
        if self.open is None:
            self.begin(line)
        elif line == "COMMIT":
            self.open = None
        elif line.startswith(":"):
            self.declare(number, line)
        else:
            self.add(number, line)

    def begin(self, line):
        """A line outside of tables, which can only begin one."""
        found = re.fullmatch(r"\*(\S+)[ \t]*", line)
        if not found:
            raise CantSay("the line is in no table: a list of iptables-save begins with a line such as *filter")
        name = found.group(1)
        if name in self.tables:
            raise CantSay(f"the table {name} stands twice, and the second empties the first")
        if name not in BASE:
            raise CantSay(f"the table {name} isn't known")
        self.tables[name], self.open = {}, name

    def declare(self, number, line):
        """A line that declares a chain."""
        found = re.fullmatch(rf":(\S+) +(\S+)(?: +{COUNTERS})?[ \t]*", line)
        if not found:
            raise CantSay("the line declares no chain: it is a colon with a name, then a policy, then counters")
        name, policy = found.groups()
        if name in self.tables[self.open]:
            raise CantSay(f"the chain {name} is declared twice")
        if name in iptables_options.TARGETS:
            raise CantSay(f"the chain {name} has the name of a target, and rules may lead to either")
        if name in BASE[self.open]:
            if policy not in POLICIES:
                raise CantSay(f"the policy of {name} is {policy}, and neither ACCEPT nor DROP")
        elif policy != "-":
            raise CantSay(f"the chain {name} has a policy, which those of the table {self.open} alone have")
        self.tables[self.open][name] = Declared(number, line, policy, [])

    def add(self, number, line):
        """A line of a chain."""
        words = iptables_words.split(re.sub(rf"^{COUNTERS} ", "", line))
        if words[:1] not in (["-A"], ["--append"]) or len(words) < 2:
            raise CantSay("the line is none that iptables-save writes: it begins with -A and a chain")
        if words[1] not in self.tables[self.open]:
            raise CantSay(f"the chain {words[1]} isn't declared before it")
        self.tables[self.open][words[1]].lines.append(Saved(number, line, words[2:]))


def checked(rule, chains, lenient):
    """A rule whose target can be reached; where it can't, that is a reason."""
    known = chains.get(rule.target)
    if rule.verdict not in (JUMP, GO) or known and known.policy == "-" and known.number < rule.number:
        return rule
    reason = (f"the chain {rule.target} isn't declared before it" if known and known.policy == "-"
              else f"no rule leads to {rule.target}, which packets come to by themselves" if known
              else f"the target {rule.target} is none that a rule of aclc has"
              if rule.target in iptables_options.TARGETS
              else f"the target {rule.target} isn't known, and no chain has that name")
    if not lenient:
        raise Malformed(reason, rule.number, rule.text)
    return rule._replace(reason=reason)


def read_line(line, chain, given, lenient):
    """The rule of a line; one that isn't lawful is left out where that is asked for."""
    try:
        return iptables_rule.read_rule(line, chain, *given)
    except Malformed as said:
        if not lenient:
            raise
        return Rule(line.number, line.text, [], DROP, None, said.reason)


def chains_of(declared, given, lenient):
    """The chains of a table, with their rules: of a family, and as it is assumed."""
    chains = {}
    for name, chain in declared.items():
        verdict = POLICIES.get(chain.policy)
        policy = Rule(chain.number, chain.text, [], verdict, None, None) if verdict else None
        rules = [read_line(line, name, given, lenient) for line in chain.lines]
        chains[name] = Chain(name, [checked(rule, declared, lenient) for rule in rules], policy)
    return chains


def drops(target):
    """Whether a target that isn't a chain may end a packet's way."""
    return target not in (None, "ACCEPT", "RETURN", *iptables_options.PASSING, *iptables_options.CHANGING)


def aside_of(line, table, given):
    """What a line of another table does to a packet, or None, and the chain that it leads to."""
    try:
        read = iptables_words.Line(line.words)
        reading = iptables_rule.Reading(read, *given)
    except CantSay as said:
        return Aside(line.number, line.text, f"it can't be read, in the table {table}: {said.reason}", True), None
    if not reading.reason and not reading.match.boxes:
        return None, None
    untracked = read.target == "NOTRACK" or read.target == "CT" and "--notrack" in line.words
    if read.target in iptables_options.CHANGING:
        return Aside(line.number, line.text, f"it changes addresses in the table {table}", False), None
    if untracked:
        return Aside(line.number, line.text, f"it takes packets out of the table of connections, in the table {table}",
                     False), None
    if drops(read.target):
        return Aside(line.number, line.text, f"it may drop packets in the table {table}", True), read.target
    return None, read.target


def asides_of_chain(declared, table, name, done, given):
    """What the lines of a chain and of those that it leads to do to packets."""
    waiting = [name]
    while waiting:
        here = waiting.pop()
        for line in declared[here].lines if here not in done else ():
            aside, target = aside_of(line, table, given)
            if target in declared:
                waiting.append(target)
            elif aside:
                yield aside
        done.add(here)


def asides_of(tables, chosen, chain, family):
    """What other tables do to packets of a family that come to a chain.

    What is assumed isn't asked there: before routing packets have no interface by which they leave, and before the table
    of connections no state.
    """
    found, way, given = [], WAYS.get(chain, ()), (family, assume.NOTHING)
    if set(tables) == {chosen}:
        found.append(Aside(0, "", "other tables weren't in this list, so whether one drops isn't known", False))
    for table, declared in tables.items():
        done = set()
        for name in (it for it in declared if it in way and (table, it) != (chosen, chain) and it in BASE[table]):
            if declared[name].policy == "DROP":
                found.append(Aside(declared[name].number, declared[name].text,
                                   f"its policy drops packets in the table {table}", True))
            found += asides_of_chain(declared, table, name, done, given)
    return sorted(found)


def family_of(lines, given):
    """The family of a list: as given, or as its first comment, an address or an ICMP says."""
    text = "\n".join(lines)
    # The command prints the name by which it was called.
    makers = re.findall(r"(?m)^# Generated by (ip6?tables)(?:-nft|-legacy)?-save", text)
    found = {6 if name.startswith("ip6") else 4 for name in makers}
    if not found:
        # Between quotes stand comments.
        bare = re.sub(r'"[^"\n]*"', "", text)
        addresses = r"(?m) (?:-[sd]|--(?:src|dst)-range) [0-9a-fA-F]*([.:])"
        found = {6 if sign == ":" else 4 for sign in re.findall(addresses, bare)}
        found |= {6 if six else 4 for six in re.findall(r"(?m) --reject-with (?:icmp(6)?-|adm-)", bare)}
    if given or len(found) == 1:
        return given or found.pop()
    raise CantSay("nothing tells whether the list is of IPv4 or IPv6: --family 4 or --family 6 says it" if not found
                  else "lines of IPv4 and IPv6 stand in one list: --family 4 or --family 6 says which is meant")


def only_chain(chains):
    """The one chain with a policy that has rules."""
    filled = [chain.name for chain in chains.values() if chain.policy and chain.rules]
    if len(filled) == 1:
        return filled[0]
    based = filled or [chain.name for chain in chains.values() if chain.policy]
    if not based:
        raise CantSay("the table has no chain that packets come to")
    raise CantSay(f"which chain is meant isn't said: --chain {' or --chain '.join(based)}")


def lacking(chain, given):
    """Refuses an assumption on an interface that the packets of a chain lack."""
    if chain in ("OUTPUT", "POSTROUTING") and given.inward:
        raise CantSay(f"in= is assumed, and the packets of {chain} come by no interface")
    if chain in ("INPUT", "PREROUTING") and given.outward:
        raise CantSay(f"out= is assumed, and the packets of {chain} leave by no interface that is known there")


def convert(lines, options):
    """The chains of the table, the chain that is meant and its family, beside what other tables do."""
    tables, name = Tables(lines).tables, options.table or "filter"
    if name not in tables:
        raise CantSay(f"there is no table {name}; a list of iptables-save begins with a line such as *filter")
    family, given = family_of(lines, options.family), assume.of(options)
    chains = chains_of(tables[name], (family, given), options.lenient)
    chain = options.chain or only_chain(chains)
    lacking(chain, given)
    return Read(chains, chain, [family]).beside(asides_of(tables, name, chain, family))
