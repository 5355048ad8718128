# SPDX-License-Identifier: BSD-3-Clause
"""Rulesets of nft for the program aclc-lists: what rules say of packets of a family, in statements that it reads."""
import json
import re

import draws_nft
import walk_nft
from aclc_tools import assume
from aclc_tools.forms import options_of
from aclc_tools.nftables import OTHER_FAMILIES
from converting import Drawn
from draws_iptables import assumed_of

PORTS = draws_nft.PORTS
PROTOCOLS = ("tcp", "udp", "icmp", "gre", "esp", 47, 253)
PORTED, L4 = ("tcp", "udp", "sctp"), {"meta": {"key": "l4proto"}}
STATES = ("new", "established", "related")
# Addresses of which none is in another.
APART = {"ip": ("10.1.2.3", {"range": ["10.1.2.4", "10.1.2.9"]}, {"prefix": {"addr": "10.2.0.0", "len": 16}}),
         "ip6": ("2001:db8::1", {"range": ["2001:db8::4", "2001:db8::9"]},
                 {"prefix": {"addr": "2001:db9::", "len": 32}})}


class Rules:
    """Draws rules for packets of one family, `ip` or `ip6`, in a table."""

    def __init__(self, draw, network, table):
        self.draw, self.network, self.table = draw, network, table

    def compared(self, left, operators, right):
        """A comparison by one of some operators."""
        return draws_nft.comparison(left, self.draw.choice(operators), right)

    def field(self, _):
        """A comparison of an address or of the protocol."""
        if self.draw.random() < 0.25:
            lefts = [draws_nft.payload("ip", "protocol")] * (self.network == "ip") + [{"meta": {"key": "l4proto"}}]
            return self.compared(self.draw.choice(lefts), ["==", "!="], draws_nft.some(self.draw, PROTOCOLS))
        left = draws_nft.payload(self.network, self.draw.choice(["saddr", "daddr"]))
        return self.compared(left, ["==", "!="], draws_nft.some(self.draw, draws_nft.ADDRESSES[self.network]))

    def port(self, transport):
        """A comparison of a port."""
        left = draws_nft.payload(transport, self.draw.choice(["sport", "dport"]))
        return self.compared(left, ["==", "!="], draws_nft.some(self.draw, PORTS))

    def named(self, transport):
        """A comparison with a named set."""
        left, name = self.draw.choice([(draws_nft.payload(self.network, "saddr"), "@hosts"),
                                       (draws_nft.payload(self.network, "daddr"), "@hosts"),
                                       (draws_nft.payload(transport, "dport"), "@ports")])
        return self.compared(left, ["==", "!="], name)

    def any_ports(self):
        """A comparison of protocols that have ports, and one of their ports."""
        ports = draws_nft.payload("th", self.draw.choice(["sport", "dport"]))
        return [draws_nft.comparison(L4, "==", {"set": self.draw.sample(PORTED, 2)}),
                self.compared(ports, ["==", "!="], draws_nft.some(self.draw, PORTS))]

    def together(self, transport):
        """A comparison of several things together: an address and a port, two addresses and a protocol, or a protocol
        and a port."""
        source, destination = (draws_nft.payload(self.network, side) for side in ("saddr", "daddr"))
        address = lambda: self.draw.choice(draws_nft.ADDRESSES[self.network])
        ports, port = self.draw.sample(PORTS, 2), draws_nft.payload(transport, "dport")
        keys, values = self.draw.choice([
            ([source, port], None), ([source, port], [[address(), it] for it in ports]),
            ([source, destination, L4], [[address(), address(), it] for it in self.draw.sample(PROTOCOLS, 2)]),
            ([L4, draws_nft.payload("th", "dport")], list(zip(self.draw.sample(PORTED, 2), ports)))])
        found = {"set": [{"concat": it} for it in values]} if values else "@pairs"
        return draws_nft.comparison({"concat": keys}, "==", found)

    def looked_up(self, transport, later):
        """A map to verdicts, of which no two elements have packets in common; `*` is last, as nft lists it."""
        port = draws_nft.payload(transport, "dport")
        address = draws_nft.payload(self.network, self.draw.choice(["saddr", "daddr"]))
        verdicts = [{name: None} for name in ("accept", "drop", "return", "continue")]
        verdicts += [{name: {"target": target}} for name in ("jump", "goto") for target in later]
        several = [{"concat": pair} for pair in zip(APART[self.network], self.draw.sample(PORTS, 3))]
        key, values = self.draw.choice([
            (port, self.draw.sample(PORTS, 3)), (address, APART[self.network]), ({"concat": [address, port]}, several),
            ({"ct": {"key": "state"}}, STATES), ({"meta": {"key": "iifname"}}, ["eth0", "eth1", "lo"])])
        found = [[value, self.draw.choice(verdicts)] for value in values[self.draw.randrange(2):]]
        found += [["*", self.draw.choice(verdicts)]] * ("concat" not in key and self.draw.random() < 0.5)
        data = "@services" if key == port and self.draw.random() < 0.3 else {"set": found}
        return {"vmap": {"key": key, "data": data}}

    def sets(self, of, handles):
        """The named sets, and a map to verdicts."""
        kind = {"ip": "ipv4_addr", "ip6": "ipv6_addr"}[self.network]
        addresses = self.draw.sample(draws_nft.ADDRESSES[self.network], 2)
        commented = [{"elem": {"val": addresses[0], "comment": "x"}}, addresses[1]]
        counted = [{"elem": {"val": address, "counter": {"packets": 1, "bytes": 40}}} for address in addresses]
        pairs = [{"concat": [address, port]} for address, port in zip(addresses, self.draw.sample(PORTS, 2))]
        for name, kinds, found in (("hosts", kind, self.draw.choice([addresses, commented, counted])),
                                   ("ports", "inet_service", self.draw.choice([[], self.draw.sample(PORTS, 2)])),
                                   ("pairs", [kind, "inet_service"], pairs)):
            yield {"set": {**of, "name": name, "type": kinds, "handle": next(handles), "flags": ["interval"],
                           **({"elem": found} if found else {}),
                           **({"stmt": [{"counter": None}]} if found is counted else {})}}
        yield {"set": {**of, "name": "seen", "type": kind, "handle": next(handles), "size": 100}}
        services = [[25, {"drop": None}], [{"range": [80, 90]}, {"accept": None}], ["*", {"return": None}]]
        yield {"map": {**of, "name": "services", "type": "inet_service", "handle": next(handles), "map": "verdict",
                       "flags": ["interval"], "elem": self.draw.choice([services[:2], services[1:], services])}}

    def assumed(self, _):
        """A comparison of what is assumed."""
        name = self.draw.choice(["eth0", "eth*", "lo", {"set": ["lo", "eth1"]}])
        return self.draw.choice([
            self.compared({"meta": {"key": self.draw.choice(["iifname", "oifname"])}}, ["==", "!="], name),
            draws_nft.comparison({"ct": {"key": "state"}}, "in", self.draw.sample(STATES, 2)),
            self.compared({"ct": {"key": "state"}}, ["==", "!="], self.draw.choice(STATES))])

    def other(self, _):
        """A comparison of the family, or one of the other family, which no packet here meets."""
        far = {"ip": "ip6", "ip6": "ip"}[self.network]
        return self.draw.choice([
            self.compared(draws_nft.payload(far, "saddr"), ["!="], draws_nft.ADDRESSES[far][0]),
            self.compared({"meta": {"key": "nfproto"}}, ["==", "!="], self.draw.choice(["ipv4", "ipv6"]))])

    def expression(self, later):
        """The statements of a rule."""
        transport = self.draw.choice(["tcp", "udp", "sctp"])
        kinds = [self.field, self.field, self.port, self.port, self.assumed, self.named, self.together]
        kinds += [self.other] * (self.table == "inet")
        found = draws_nft.without_pairs([self.draw.choice(kinds)(transport) for _ in range(self.draw.randrange(4))])
        if not found and self.draw.random() < 0.3:
            found, transport = draws_nft.without_pairs(self.any_ports()), "th"
        if self.draw.random() < 0.05:
            source = draws_nft.payload(self.network, "saddr")
            return found + [{"set": {"op": "add", "elem": source, "set": "@seen"}}]
        if self.draw.random() < 0.2:
            return found + [self.looked_up(transport, later)]
        # A reset is refused where the protocol is one of several.
        alone = None if re.search('"(key|field)": "(l4proto|protocol)"', json.dumps(found)) else transport
        return found + draws_nft.verdict(self.draw, draws_nft.answers(self.table, self.network, alone), later)


def objects(draw, network):
    """The objects of a drawn ruleset for packets of a family."""
    table, handles, chains = draw.choice([network, "inet"]), iter(range(1, 100)), ["forward", "one", "two"]
    rules, of = Rules(draw, network, table), {"family": table, "table": "t"}
    found = [{"metainfo": {"version": "1.0.6"}}, {"table": {"family": table, "name": "t", "handle": 1}}]
    found += [{draw.choice(walk_nft.SILENT): {**of, "name": "o", "handle": next(handles)}}] * (draw.random() < 0.5)
    comment = draw.choice([{}, {"comment": "x"}])
    found.append({"chain": {**of, "name": "forward", "handle": next(handles), **comment, "type": "filter",
                            "hook": "forward", "prio": 0, "policy": draw.choice(["accept", "drop"])}})
    found += [{"chain": {**of, "name": name, "handle": next(handles), **comment}} for name in chains[1:]]
    found += rules.sets(of, handles)
    return found + [{"rule": {**of, "chain": chain, "handle": next(handles),
                              "expr": rules.expression(chains[place + 1:])}}
                    for place, chain in enumerate(chains) for _ in range(draw.randrange(1, 5))]


def options(chain, assumed="", data="line", family=4):
    """The options of a base chain of this name, for a family."""
    return options_of("nft", "ruleset", chain=chain, family=family, data=data, assume=assume.parse(assumed))


def draw(draw):
    """A ruleset with the base chain forward, and what is assumed."""
    network = draw.choice(["ip", "ip6"])
    assumed = f"in=eth{draw.randrange(2)},out=lo,state={draw.choice(STATES)}"
    return Drawn([json.dumps(it) for it in objects(draw, network)], draws_nft.joined,
                 options("forward", assumed, family={"ip": 4, "ip6": 6}[network]),
                 lambda text: walk_nft.Judge(text, "forward", assumed_of(assumed)[0]),
                 (walk_nft.Unlawful, KeyError, TypeError, AttributeError, ValueError))


def without(text, handle):
    """A ruleset without the rule of a handle."""
    kept = [it for it in json.loads(text)["nftables"] if it.get("rule", {}).get("handle") != handle]
    return json.dumps({"nftables": kept})


def reached_rules(listed):
    """The rules of some objects to which packets may come that begin in the chain forward."""
    rules, chains, before = [it for it in listed if "rule" in it], {"forward"}, 0
    while before < len(chains):
        before = len(chains)
        said = json.dumps([it for it in rules if it["rule"]["chain"] in chains])
        chains |= set(re.findall('"target": "([^"]*)"', said))
    return [it for it in rules if it["rule"]["chain"] in chains]


def read_part(text):
    """What the program reads of a ruleset: no rules that packets don't come to, and sets and maps that have names and
    that the others name, each once."""
    listed, kept = json.loads(text)["nftables"], []
    rules = reached_rules(listed)
    named = set(re.findall('"@([^"]*)"', json.dumps(rules)))
    for it in listed:
        said = it.get("set", it.get("map"))
        has_names = said is None or all(isinstance(said.get(key), str) for key in ("family", "table", "name"))
        if it in rules or "rule" not in it and has_names and (said is None or said["name"] in named and it not in kept):
            kept.append(it)
    return json.dumps({"nftables": kept})


def is_passed_over(name, said, refused):
    """Whether the program passes over an object: a table whose name is none, one of a family that it doesn't read, or a
    rule that compares the family, so that it may catch no packet that is asked for."""
    if name == "table":
        return not isinstance(said.get("name"), str)
    if name == "rule" and said.get("handle") == refused.number:
        return "nfproto" in json.dumps(said) or "ip6" in json.dumps(said)
    return isinstance(said, dict) and said.get("family") in OTHER_FAMILIES


def has_no_part(text, refused):
    """Whether a ruleset is refused for an object that the program passes over, or a handle that comes twice."""
    told = re.search("^the (handle|table .*) stands twice|^the table .* isn't declared before", refused.reason)
    return bool(told) or any(is_passed_over(name, said, refused)
                             for it in json.loads(text)["nftables"] for name, said in it.items())
