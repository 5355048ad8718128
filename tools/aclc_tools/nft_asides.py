# SPDX-License-Identifier: BSD-3-Clause
"""What other base chains of nft do to the packets that come to one chain."""
from aclc_tools.lists import PASS, Aside, CantSay
from aclc_tools.nft_match import Comparing
from aclc_tools.nft_rule import HALTING, PASSING, QUIET_XT, map_of, read_rule
from aclc_tools.nft_text import SHAPES, one_of, rule_text

FAMILIES = {"ip": (4,), "ip6": (6,), "inet": (4, 6), "netdev": (4, 6)}
# The hooks on the way of a packet that comes to a hook.
WAYS = {"input": ("ingress", "prerouting", "input"), "forward": ("ingress", "prerouting", "forward", "postrouting",
                                                                 "egress"),
        "output": ("output", "postrouting", "egress"), "ingress": ("ingress", "prerouting", "input", "forward",
                                                                   "postrouting", "egress"),
        "prerouting": ("ingress", "prerouting", "input", "forward", "postrouting", "egress"),
        "postrouting": ("ingress", "prerouting", "forward", "output", "postrouting", "egress")}
CHANGING = ("snat", "dnat", "masquerade", "redirect")
QUIET = ("match", "accept", "return", "continue", *(it for it in PASSING if it != "notrack"), *HALTING)


def base_chains(ruleset, chosen):
    """The other base chains on the way of a chain's packets, by hook and priority."""
    way = WAYS.get(chosen["hook"], ())
    found = []
    for key, chain in ruleset.chains.items():
        near = set(FAMILIES.get(chain["family"], ())) & set(FAMILIES[chosen["family"]])
        if chain is not chosen and chain.get("hook") in way and near and not ruleset.dormant(key):
            found.append(chain)
    return sorted(found, key=lambda it: (way.index(it["hook"]), priority(it)))


def priority(chain):
    """The priority of a base chain."""
    value = chain.get("prio", 0)
    return value if isinstance(value, int) else 0


def place_of(chain):
    """Where a base chain stands."""
    return f"chain {chain['family']} {chain['table']} {chain['name']}, hook {chain['hook']}, priority {priority(chain)}"


class Scan:
    """The rules of a base chain and of those that it leads to."""

    def __init__(self, ruleset, base, families, assumption):
        self.ruleset, self.base, self.families, self.seen = ruleset, base, families, set()
        self.comparing = Comparing(ruleset.sets_of(base["family"], base["table"]), assumption, base)

    def asides(self):
        """What each of them does."""
        if self.base.get("policy", "accept") != "accept":
            yield Aside(self.base["handle"], f"chain {self.base['name']} policy drop",
                        f"its policy drops packets ({place_of(self.base)})", True)
        yield from self.of_chain(self.base["name"])

    def of_chain(self, name):
        """What the rules of a chain do, and those that it leads to."""
        key = self.base["family"], self.base["table"], name
        if name in self.seen or key not in self.ruleset.chains:
            return
        self.seen.add(name)
        for rule in self.ruleset.rules[key]:
            targets, done = [], None
            read = read_rule(rule, self.families, self.comparing, True)
            if not any(it.boxes or it.reason or it.verdict == PASS for it in read):
                # It matches nothing, under what is assumed.
                continue
            try:
                for statement in rule["expr"]:
                    done = self.worst(done, self.statement(statement, targets))
            except (CantSay, *SHAPES):
                done = "it may drop packets, and can't be read", True
            if done:
                yield Aside(rule["handle"], rule_text(rule["expr"]), f"{done[0]} ({place_of(self.base)})", done[1])
            for target in targets:
                yield from self.of_chain(target)

    def worst(self, one, other):
        """The one of two effects that drops, or that is there."""
        return other if one is None or other and other[1] else one

    def statement(self, statement, targets):
        """What a statement does: a sentence and whether it can drop; it adds the chains that it leads to."""
        name, said = one_of(statement)
        if name in ("jump", "goto"):
            targets.append(said["target"])
        elif name == "vmap":
            return self.of_map(said, targets)
        elif name == "notrack":
            return "it takes packets out of the table of connections", False
        elif name in CHANGING or name == "mangle" and one_of(said["key"])[0] not in ("meta", "ct"):
            return "it changes packets", False
        elif name == "xt" and isinstance(said, dict) and (said.get("type") == "match" or said.get("name") in QUIET_XT):
            return None
        elif name not in QUIET and name != "mangle":
            return "it may drop packets", True
        return None

    def of_map(self, said, targets):
        """The worst that a map of verdicts does."""
        done = None
        for _, verdict in map_of(said["data"], self.ruleset.sets_of(self.base["family"], self.base["table"])):
            done = self.worst(done, self.statement(verdict, targets))
        return done


def asides_of(ruleset, chosen, families, assumption):
    """What the other base chains do to packets of some families, in the order in which packets come to them."""
    scans = (Scan(ruleset, base, families, assumption) for base in base_chains(ruleset, chosen))
    return [aside for scan in scans for aside in scan.asides()]
