# SPDX-License-Identifier: BSD-3-Clause
"""Firewall filters of Juniper's Junos, as `show configuration | display set` writes them.

Source: Junos OS Routing Policies, Firewall Filters, and Traffic Policers User Guide, "Firewall Filter Match Conditions
for IPv4 Traffic", "Firewall Filter Terminating Actions", "Firewall Filter Match Conditions Based on Address Fields".
"""
import re

from aclc_tools import juniper_terms
from aclc_tools.juniper_terms import Term
from aclc_tools.lists import PASS, CantSay, Chain, Rule

FAMILIES = {"inet": 4, "inet6": 6}
# What may stand in a filter outside of its terms, and decides nothing, each with how many words follow it.
SETTINGS = {"interface-specific": 0, "accounting-profile": 1, "enhanced-mode": 0, "fast-lookup-filter": 0,
            "physical-interface-filter": 0, "instance-shared": 0}
OTHER_FAMILIES = ("any", "bridge", "ccc", "ethernet-switching", "evpn", "mpls", "vpls")
# What stands beside filters, and what else is named by filters and is none.
BESIDE = ("policer", "three-color-policer", "hierarchical-policer", "interface-set", "load-balance-group")
OTHER_FILTERS = ("prefix-action", "simple-filter", "service-filter", "dialer-filter")
# Commands of a session that set nothing.
SHOWING = ("show", "run", "quit", "exit", "configure")
# Words that look like those of filters, in other parts.
OF_OTHERS = ("firewall", "rtf-prefix-list")
# Parts of a configuration other than filters that have terms.
WITH_TERMS = ("applications", "class-of-service", "dynamic-profiles", "event-options", "forwarding-options", "groups",
              "logical-systems", "policy-options", "routing-instances", "security", "services", "snmp")


class Filter:
    """A filter: its family, its first line, and its terms in order."""

    def __init__(self, name, family, number, text):
        self.name, self.family, self.number, self.text, self.terms = name, family, number, text, {}


def tokens(number, text):
    """The words of a line, those in quotes, which are left out, or in brackets as one."""
    found = re.findall(r'"[^"]*"|\[[^\]"]*\]|[^\s"\[\]]+', text)
    if re.sub(r"\s", "", "".join(found)) == re.sub(r"\s", "", text):
        return [word.strip('"') for word in found]
    if re.search("firewall|prefix-list", text):
        raise CantSay("the quotes or brackets of the line don't end", number, text)
    return text.split()


def is_noise(words):
    """Whether a line is of a session and not of its configuration: a prompt with a command that shows, or the place."""
    prompt = re.fullmatch(r"[\w.-]+@[\w.-]+[>#%]", words[0]) and (len(words) == 1 or words[1] in SHOWING)
    return bool(prompt) or re.fullmatch(r"\{(master|primary|backup)\S*\}|\[edit.*", words[0]) is not None


def check_other(number, text, words):
    """A line of another part is passed over, unless it may be meant for a filter or a list of prefixes."""
    known = bool(words) and words[0] in WITH_TERMS
    near = any(juniper_terms.near(word) for word in words[:2] if not (known and word in OF_OTHERS))
    if len(words) < 2 or near or "term" in words and not known:
        raise CantSay("the line isn't read, and may be meant for a filter: set firewall family inet filter NAME begins "
                      "one", number, text)


class Configuration:
    """The filters and the lists of prefixes of a configuration."""

    def __init__(self):
        self.filters, self.prefixes, self.others = {}, {}, {}
        self.deactivated = []

    def take(self, number, text):
        """One line."""
        if not text.strip() or text.lstrip()[0] in "#!":
            return
        words = tokens(number, text)
        if words[0] == "set":
            self.take_set(number, text, words[1:])
        elif words[0] == "deactivate":
            self.deactivated.append((number, text, words[1:]))
        elif not is_noise(words):
            raise CantSay("the line doesn't begin with set: show configuration | display set writes such lines", number,
                          text)

    def take_set(self, number, text, words):
        """A line that sets something: of a filter, of a list of prefixes, or of something else."""
        if words[:1] == ["groups"] and {"firewall", "prefix-list"} & set(words):
            raise CantSay("the line gives a part to filters by a group: show configuration | display inheritance | "
                          "display set writes them whole", number, text)
        if words[:1] == ["firewall"]:
            self.firewall(number, text, words[1:])
        elif words[:2] == ["policy-options", "prefix-list"]:
            self.prefix_list(number, text, words[2:])
        else:
            check_other(number, text, words)

    def prefix_list(self, number, text, words):
        """A prefix of a list, or the list alone."""
        if not words or len(words) > 2 and words[1] != "apply-path":
            raise CantSay("the line has no name of a list of prefixes, or words after a prefix", number, text)
        self.prefixes.setdefault(words[0], []).extend([(number, word) for word in words[1:2]])

    def firewall(self, number, text, words):
        """A line of a filter, or of what filters name."""
        family, stated = "inet", words[:1] == ["family"] and len(words) > 2
        if stated:
            family, words = words[1], words[2:]
        if len(words) > 1 and (words[0] in OTHER_FILTERS if stated else words[0] in BESIDE and "term" not in words):
            return
        if words[:1] != ["filter"] or len(words) < 2:
            raise CantSay("the line begins no filter: set firewall family inet filter NAME does", number, text)
        if family in OTHER_FAMILIES:
            self.others[words[1]] = family
            return
        if family not in FAMILIES:
            raise CantSay(f"there is no family {family} of filters", number, text)
        found = self.filters.setdefault((family, words[1]), Filter(words[1], family, number, text))
        if words[2:3] == ["term"] and len(words) > 3:
            found.terms.setdefault(words[3], Term(words[3], number)).take(number, text, words[4:])
        elif words[2:] and SETTINGS.get(words[2]) != len(words) - 3:
            raise CantSay("the line is no term of its filter: set firewall family inet filter NAME term NAME begins "
                          "one", number, text)

    def deactivate(self, found):
        """The lines that deactivate a part: a term of the filter is taken out, and less or more than one is refused."""
        path = ["firewall", "family", found.family, "filter", found.name]
        for number, text, words in self.deactivated:
            words = ["firewall", "family", "inet", *words[1:]] if words[:2] == ["firewall", "filter"] else words
            ours = words[:5] == path[:len(words)]
            if ours and words[5:6] == ["term"] and len(words) == 7 and words[6] in found.terms:
                del found.terms[words[6]]
            elif ours or words[:2] == ["policy-options", "prefix-list"][:len(words)] or not self.is_known(words):
                raise CantSay("the line deactivates something other than one term of the filter", number, text)
            elif words[:1] != ["firewall"]:
                check_other(number, text, words)

    def is_known(self, words):
        """Whether what is deactivated of firewalls is something that isn't read, or another filter of the file."""
        if words[:1] != ["firewall"]:
            return True
        if words[1:2] != ["family"]:
            return words[1] in BESIDE
        filters = [[family, "filter", name] for family, name in self.filters]
        return words[2:5] in filters or words[2] in OTHER_FAMILIES or words[3:4] and words[3] in OTHER_FILTERS

    def chosen(self, options):
        """The filter that is meant."""
        name = options.list or options.chain
        families = [family for family, bits in FAMILIES.items() if options.family in (None, bits)]
        found = [it for it in self.filters.values() if it.family in families and name in (None, it.name)]
        names = ", ".join(sorted({it.name for it in self.filters.values()})) or "none"
        if len(found) == 1:
            return found[0]
        if name in self.others:
            raise CantSay(f"the filter {name} is of {self.others[name]}, and those of inet and inet6 are read")
        if not found:
            raise CantSay(f"there is no filter {name}; there are: {names}" if name
                          else "there is no filter of inet or inet6 in it")
        if name:
            raise CantSay(f"the filter {name} is of both families: --family 4 or --family 6 tells which is meant")
        choice = " or --list ".join(sorted({it.name for it in found}))
        raise CantSay(f"which filter is meant isn't said: --list {choice}")


def convert(lines, options):
    """The chain of the filter that is meant, its name, and its family. At its end it discards, and the answer is 0."""
    configuration = Configuration()
    for number, line in enumerate(lines, 1):
        configuration.take(number, line.strip())
    found = configuration.chosen(options)
    configuration.deactivate(found)
    family = FAMILIES[found.family]
    rules = [juniper_terms.rule_of(term, family, configuration.prefixes) for term in found.terms.values()]
    if not rules:
        raise CantSay(f"the filter {found.name} has no terms", found.number, found.text)
    chain = Chain(found.name, rules, Rule(found.number, found.text, [], PASS, None, None))
    return {found.name: chain}, found.name, [family]
