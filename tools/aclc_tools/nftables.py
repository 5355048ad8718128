# SPDX-License-Identifier: BSD-3-Clause
"""Rulesets of nftables, as `nft -j list ruleset` writes them.

Source: the manual pages nft(8) and libnftables-json(5). A rule is named by its handle, a policy by its chain's.
"""
import json

from aclc_tools import assume, nft_rule
from aclc_tools.lists import ACCEPT, DROP, CantSay, Chain, Malformed, Read, Rule
from aclc_tools.nft_asides import asides_of
from aclc_tools.nft_match import TRACKING, Comparing, has_interface
from aclc_tools.nft_text import SHAPES, one_of, plain

FAMILIES = {"ip": (4,), "ip6": (6,), "inet": (4, 6)}
OTHER_FAMILIES = ("arp", "bridge", "netdev")
POLICIES = {"accept": ACCEPT, "drop": DROP}
# Base chains of each family: at which hooks there are such of a type (nft(8), "CHAINS").
NETWORK = {"filter": ("prerouting", "input", "forward", "output", "postrouting"),
           "nat": ("prerouting", "input", "output", "postrouting"), "route": ("output",)}
TYPES = {"ip": NETWORK, "ip6": NETWORK, "inet": {**NETWORK, "filter": ("ingress", *NETWORK["filter"])},
         "netdev": {"filter": ("ingress", "egress")}}
# Objects that say nothing of packets by themselves.
SILENT = ("metainfo", "flowtable", "counter", "quota", "limit", "ct helper", "ct timeout", "ct expectation", "secmark",
          "synproxy")
# Flags of a table to which packets come.
AWAKE = ("owner", "persist")
MOST_HANDLE = 0xFFFFFFFF


def unique(pairs):
    """An object of JSON, whose names come once."""
    found = dict(pairs)
    if len(found) != len(pairs):
        raise CantSay("an object of the JSON has a name twice")
    return found


def there_is(chain):
    """Whether a family has base chains of a type at a hook with a priority."""
    priority = chain["prio"]
    if isinstance(priority, bool) or not isinstance(priority, int) or not -2 ** 31 <= priority < 2 ** 31:
        return False
    hooks = TYPES[chain["family"]].get(chain["type"], ()) if isinstance(chain["type"], str) else ()
    return chain["hook"] in hooks and (chain["type"] != "nat" or priority > TRACKING)


class Ruleset:
    """The tables of a ruleset, with chains, rules and sets."""

    def __init__(self, objects):
        self.tables, self.chains, self.rules, self.sets, self.handles, self.changes = {}, {}, {}, {}, set(), {}
        for it in objects:
            name, said = one_of(it)
            if name in ("table", "chain", "rule", "set", "map"):
                getattr(self, f"add_{name}")(said)
            elif name not in SILENT:
                raise CantSay(f"the ruleset has the object {name}, which nft -j list ruleset doesn't write")

    def key(self, said, *names):
        """The names of an object, of which the first are those of its table."""
        found = tuple(said[it] for it in names)
        if not all(isinstance(it, str) for it in found):
            raise CantSay(f"{plain(list(found))} aren't names")
        if len(found) > 2 and found[:2] not in self.tables:
            raise CantSay(f"the table {' '.join(found[:2])} isn't declared before what it has")
        return found

    def claim(self, said):
        """Takes an object's handle, which comes once in its table."""
        table, handle = (said["family"], said["table"]), said["handle"]
        if isinstance(handle, bool) or not isinstance(handle, int) or not 0 < handle <= MOST_HANDLE:
            raise CantSay(f"{plain(handle)} is no handle")
        if (table, handle) in self.handles:
            raise CantSay(f"the handle stands twice in the table {' '.join(table)}", handle)
        self.handles.add((table, handle))

    def add_table(self, said):
        """Takes a table, which stands once."""
        key = self.key(said, "family", "name")
        if key[0] not in (*FAMILIES, *OTHER_FAMILIES):
            raise CantSay(f"{key[0]} is no family of tables")
        if key in self.tables:
            raise CantSay(f"the table {' '.join(key)} stands twice")
        self.tables[key] = said

    def add_chain(self, said):
        """Takes a chain of a table, which stands once."""
        key = self.key(said, "family", "table", "name")
        if key in self.chains:
            raise CantSay(f"the chain {' '.join(key)} stands twice")
        if not {"hook", "policy", "prio", "type"}.isdisjoint(said) and not {"hook", "prio", "type"} <= set(said):
            raise CantSay(f"the chain {' '.join(key)} has a hook, a type or a policy, and not what belongs to it")
        if "hook" in said and key[0] in TYPES and not there_is(said):
            raise CantSay(f"the chain {' '.join(key)} has a type, a hook and a priority of which there is no base chain",
                          said["handle"])
        if said.get("policy", "accept") not in POLICIES:
            raise CantSay(f"the policy {plain(said['policy'])} isn't known", said["handle"])
        self.claim(said)
        self.chains[key], self.rules[key] = said, []

    def add_rule(self, said):
        """Takes a rule of a chain that stands before it."""
        key = self.key(said, "family", "table", "chain")
        if key not in self.chains:
            raise CantSay(f"the chain {' '.join(key)} isn't declared before its rule", said["handle"])
        if not isinstance(said["expr"], list):
            raise CantSay("its JSON isn't what nft writes", said["handle"])
        self.claim(said)
        self.rules[key].append(said)
        self.changes.update({(*key[:2], name): said["handle"] for name in nft_rule.changed_sets(said["expr"])})

    def add_set(self, said):
        """Takes a set or a map of a table, which stands once."""
        key = self.key(said, "family", "table", "name")
        if key in self.sets:
            raise CantSay(f"the set {' '.join(key)} stands twice")
        self.sets[key] = said

    add_map = add_set

    def sets_of(self, family, table):
        """The sets and maps of a table by name, each with the handle of a rule that changes it, or none."""
        return {key[2]: {**said, "changed": self.changes.get(key)} for key, said in self.sets.items()
                if key[:2] == (family, table)}

    def flags(self, key):
        """The flags of a chain's table."""
        flags = self.tables[key[:2]].get("flags", [])
        return flags if isinstance(flags, list) else [flags]

    def dormant(self, key):
        """Whether a chain's table is asleep, so that no packet comes to it."""
        return "dormant" in self.flags(key)

    def unknown_flags(self, key):
        """Flags of a chain's table that don't tell whether it is asleep: nft 1.0.6 writes its name for each flag."""
        return [it for it in self.flags(key) if it not in AWAKE or it == key[1]]


def chosen(ruleset, options):
    """The one chain that is meant."""
    fitting = [key for key in ruleset.chains if options.table in (None, key[1]) and options.chain in (None, key[2])
               and (not options.family or options.family in FAMILIES.get(key[0], ()))]
    if not options.chain:
        fitting = [key for key in fitting if "hook" in ruleset.chains[key] and ruleset.rules[key]]
    if len(fitting) != 1:
        raise CantSay("which chain is meant isn't said: --chain NAME, with --table or --family where several have it;"
                      f" there are: {', '.join(map(' '.join, ruleset.chains)) or 'none'}")
    if fitting[0][0] not in FAMILIES:
        raise CantSay(f"a table of the family {fitting[0][0]} isn't of IPv4 or IPv6 alone")
    if ruleset.dormant(fitting[0]):
        raise CantSay(f"the table {' '.join(fitting[0][:2])} is dormant, so that no packet comes to it")
    unknown = ruleset.unknown_flags(fitting[0])
    if unknown:
        raise CantSay(f"the table {' '.join(fitting[0][:2])} has the flag {plain(unknown[0])}, by which it may be"
                      " dormant")
    return fitting[0]


def table_alone(text, options):
    """A ruleset with the table alone whose chain is meant: an object that says nothing stands for each other one."""
    objects = json.loads(text, object_pairs_hook=unique)["nftables"]
    family, table, _ = chosen(Ruleset(objects), options)
    kept = [it if (said.get("family"), said.get("name" if name == "table" else "table")) == (family, table)
            else {"metainfo": {}} for it in objects for name, said in [one_of(it)]]
    return json.dumps({"nftables": kept})


def policy_of(chain):
    """The policy of a chain that packets come to by themselves."""
    if "hook" not in chain:
        return None
    policy = chain.get("policy", "accept")
    return Rule(chain["handle"], f"chain {chain['name']} policy {policy}", [], POLICIES[policy], None, None)


def checked(rule, chains, lenient):
    """A rule whose target can be reached; where it can't, that is a reason."""
    if not rule.target or rule.target in chains and "hook" not in chains[rule.target]:
        return rule
    reason = (f"no rule leads to {rule.target}, which packets come to by themselves" if rule.target in chains
              else f"there is no chain {rule.target}")
    if not lenient:
        raise Malformed(reason, rule.number, rule.text)
    return rule._replace(reason=reason)


def check_base(base, assumption):
    """Refuses a base chain whose packets aren't those that are asked for."""
    if base["type"] == "nat":
        raise CantSay(f"the chain {base['name']} is of type nat, to which only the first packet of a connection comes",
                      base["handle"])
    for key in ("in", "out"):
        if assumption.interface(key) is not None and not has_interface(base, key):
            raise CantSay(f"--assume {key}={assumption.interface(key)}: packets at the hook {base['hook']} have no such"
                          " interface", base["handle"])


def read(text, options):
    """The chains of the table, the chain that is meant and its families, beside what other chains do."""
    ruleset, given = Ruleset(json.loads(text, object_pairs_hook=unique)["nftables"]), assume.of(options)
    family, table, name = chosen(ruleset, options)
    families = [it for it in FAMILIES[family] if options.family in (None, it)]
    base = ruleset.chains[family, table, name] if "hook" in ruleset.chains[family, table, name] else None
    if base:
        check_base(base, given)
    comparing = Comparing(ruleset.sets_of(family, table), given, base)
    own = {key[2]: said for key, said in ruleset.chains.items() if key[:2] == (family, table)}
    chains = {}
    for key, said in own.items():
        rules = [rule for it in ruleset.rules[(family, table, key)]
                 for rule in nft_rule.read_rule(it, families, comparing, options.lenient)]
        chains[key] = Chain(key, [checked(rule, own, options.lenient) for rule in rules], policy_of(said))
    asides = asides_of(ruleset, own[name], families, given) if "hook" in own[name] else ()
    return Read(chains, name, families).beside(asides)


def convert(lines, options):
    """What `read` gives; where the text isn't JSON of nft, a reason."""
    try:
        return read("\n".join(lines), options)
    except json.JSONDecodeError as error:
        reason = f"the file isn't JSON ({error.msg}, line {error.lineno}): nft -j list ruleset writes it"
        raise CantSay(reason) from None
    except SHAPES:
        raise CantSay("the JSON isn't what nft -j list ruleset writes") from None
