# SPDX-License-Identifier: BSD-3-Clause
"""Rulesets of nft for the damage test: those that are shipped, and drawn ones, with an object on each line."""
import json

import walk_nft
from aclc_tools.forms import options_of
from converting import DATA, Drawn
from draws_iptables import ASSUMED, assumed_of

SHIPPED = (("router.nft-json", "forward", ""), ("server.nft-json", "input", "in=eth0,state=new,local=192.0.2.10"))
ADDRESSES = {"ip": ("10.1.2.3", {"prefix": {"addr": "10.1.0.0", "len": 16}}, {"range": ["10.1.2.3", "10.1.2.9"]},
                    "10.1.2.4"),
             "ip6": ("2001:db8::1", {"prefix": {"addr": "2001:db8::", "len": 32}},
                     {"range": ["2001:db8::4", "2001:db8::9"]})}
PORTS = (22, 80, {"range": [1000, 2000]}, 443)


def payload(protocol, field):
    """A field of a header."""
    return {"payload": {"protocol": protocol, "field": field}}


def comparison(left, operator, right):
    """A comparison as JSON."""
    return {"match": {"op": operator, "left": left, "right": right}}


def some(draw, values):
    """One value, or a set of some."""
    return draw.choice([draw.choice(values), {"set": draw.sample(values, 2)}])


def address(draw, network, _):
    """A comparison of an address."""
    right = draw.choice([some(draw, ADDRESSES[network]), some(draw, ADDRESSES[network]), "@hosts" if network == "ip"
                         else "@hosts6"])
    return comparison(payload(network, draw.choice(["saddr", "daddr"])), draw.choice(["==", "==", "!="]), right)


def port(draw, _, transport):
    """A comparison of a port."""
    left = payload(transport, draw.choice(["sport", "dport"]))
    if draw.random() < 0.3:
        return comparison(left, draw.choice(["<", ">=", ">", "<="]), draw.choice([22, 1024]))
    return comparison(left, draw.choice(["==", "!="]), some(draw, PORTS))


def pair(draw, network, transport):
    """A comparison of an address and a port at once."""
    element = lambda at: {"concat": [ADDRESSES[network][at], draw.choice(PORTS)]}
    values = {"set": [element(3), element(draw.choice([0, 2]))]} if network == "ip" else {"set": [element(0),
                                                                                                  element(2)]}
    return comparison({"concat": [payload(network, "saddr"), payload(transport, "dport")]}, "==", values)


def other(draw, network, transport):
    """A comparison of the protocol, or of what is assumed."""
    return draw.choice([
        comparison({"meta": {"key": "l4proto"}}, "==", transport),
        comparison({"ct": {"key": "state"}}, "in", ["established", "related"]),
        comparison({"ct": {"key": "state"}}, draw.choice(["==", "!="]), "new"),
        comparison({"meta": {"key": "iifname"}}, draw.choice(["==", "!="]),
                   draw.choice(["eth0", "eth*", {"set": ["lo", "eth1"]}])),
        comparison({"fib": {"result": "type", "flags": ["daddr"]}}, draw.choice(["==", "!="]), "local")])


def first(draw, family):
    """A comparison that stands alone: of the family, or of protocols that have no ports."""
    choices = [comparison({"meta": {"key": "l4proto"}}, "!=", some(draw, ["tcp", "udp", "icmp", "gre"]))]
    return draw.choice(choices + [comparison({"meta": {"key": "nfproto"}}, "==",
                                             draw.choice(["ipv4", "ipv6"]))] * (family == "inet"))


def answers(family, network, transport):
    """The answers of reject that nft takes in a rule for these packets."""
    kinds = [{"ip": "icmp", "ip6": "icmpv6"}[network]] if network else []
    kinds += ["icmpx"] * (family == "inet") + ["tcp reset"] * (transport == "tcp")
    return [{"reject": {"type": kind} if kind == "tcp reset" else {"type": kind, "expr": "admin-prohibited"}}
            for kind in kinds]


def verdict(draw, rejecting, later):
    """The statements at a rule's end, one of these answers of reject among them."""
    choices = [{"accept": None}, {"drop": None}, {"return": None}, {"counter": {"packets": 0, "bytes": 0}},
               {"log": {"prefix": "seen "}}, draw.choice(rejecting)]
    choices += [{"jump": {"target": draw.choice(later)}}, {"goto": {"target": draw.choice(later)}}] * 2 if later else []
    one = draw.choice(choices)
    return [one] if draw.random() < 0.7 or "log" in one else [{"log": {"prefix": "x "}}, one]


def unequal_port(statement):
    """The port that a comparison says isn't one number, if it does."""
    said = statement.get("match", {})
    single = said.get("op") == "!=" and not isinstance(said["right"], (dict, list)) and said["right"] != "@ports"
    return said["left"].get("payload", {}).get("field") if single else None


def without_pairs(statements):
    """Statements of which no two say of the two ports that they aren't one number: nft joins them."""
    found = list(map(unequal_port, statements))
    return [it for it, field in zip(statements, found) if field != "dport" or "sport" not in found]


def expression(draw, family, later):
    """The statements of a rule."""
    network, transport = family if family != "inet" else draw.choice(["ip", "ip6"]), draw.choice(["tcp", "udp"])
    if draw.random() < 0.1:
        alone = answers(family, None if family == "inet" else family, None)
        return [first(draw, family)] + verdict(draw, alone, later)
    found = [draw.choice([address, address, port, port, pair, other])(draw, network, transport)
             for _ in range(draw.randrange(3))]
    found = without_pairs(found)
    if draw.random() < 0.2 and transport == "tcp":
        pairs = [[22, {"drop": None}], [{"range": [80, 90]}, {"accept": None}]]
        pairs += [[443, {"jump": {"target": draw.choice(later)}}]] if later else []
        return found + [{"vmap": {"key": payload("tcp", "dport"), "data": draw.choice([{"set": pairs}, "@services"])}}]
    return found + verdict(draw, answers(family, network, transport), later)


def drawn_objects(draw, hook):
    """The objects of a drawn ruleset."""
    family, handles = draw.choice(["ip", "ip6", "inet", "inet"]), iter(range(1, 100))
    of = {"family": family, "table": "t"}
    objects = [{"metainfo": {"version": "1.0.6"}}, {"table": {"family": family, "name": "t", "handle": 1}}]
    objects.append({"chain": {**of, "name": hook, "handle": next(handles), "type": "filter", "hook": hook, "prio": 0,
                              "policy": draw.choice(["accept", "drop"])}})
    objects += [{"chain": {**of, "name": name, "handle": next(handles)}} for name in ("one", "two")]
    objects.append({"set": {**of, "name": "hosts", "type": "ipv4_addr", "handle": next(handles), "flags": ["interval"],
                            "elem": ["10.1.2.3", {"prefix": {"addr": "10.2.0.0", "len": 16}}]}})
    objects.append({"set": {**of, "name": "hosts6", "type": "ipv6_addr", "handle": next(handles),
                            "elem": ["2001:db8::1"]}})
    objects.append({"map": {**of, "name": "services", "type": "inet_service", "handle": next(handles), "map": "verdict",
                            "elem": [[25, {"drop": None}], ["*", {"accept": None}]]}})
    chains = [hook, "one", "two"]
    for place, chain in enumerate(chains):
        for _ in range(draw.randrange(1, 5)):
            objects.append({"rule": {**of, "chain": chain, "handle": next(handles),
                                     "expr": expression(draw, family, chains[place + 1:])}})
    return objects


def joined(lines):
    """The text of a ruleset with these objects."""
    return '{"nftables": [\n' + ",\n".join(lines) + "\n]}\n"


def made(objects, chain, text):
    """Some objects, how they are converted under an assumption, and what judges them."""
    assumed, parsed = assumed_of(text)
    return Drawn([json.dumps(it) for it in objects], joined, options_of("nft", "-", chain=chain, assume=parsed),
                 lambda text: walk_nft.Judge(text, chain, assumed),
                 (walk_nft.Unlawful, KeyError, TypeError, AttributeError, ValueError))


def forwarding(draw, text):
    """A drawn ruleset of the packets that are forwarded."""
    return made(drawn_objects(draw, "forward"), "forward", text)


# Where other base chains stand: the family, the hook and the priority.
PLACES = (("ip", "prerouting", -300), ("inet", "prerouting", -150), ("ip6", "prerouting", -200), ("netdev", "ingress", 0),
          ("inet", "ingress", -10), ("inet", "input", 0), ("ip", "output", -300), ("ip", "forward", -1),
          ("ip6", "forward", 1), ("inet", "forward", 200), ("ip", "postrouting", -150), ("inet", "postrouting", 300),
          ("netdev", "egress", 0))
# What their rules say, by the family of their packets.
SAID = {"ip": ("ip saddr 10.1.0.0/16", "ip daddr != 10.1.2.3", "meta l4proto tcp"),
        "ip6": ("ip6 saddr 2001:db8::/32", "meta l4proto udp"),
        "inet": ("ip saddr 10.1.2.4", "meta nfproto ipv6", "ip6 daddr 2001:db8::1", "ct state invalid",
                 'iifname != "eth0"', 'meta protocol ip'),
        "netdev": ("ip saddr 10.1.0.0/16", "tcp dport 22", "meta protocol ip6")}
DONE = ("accept", "accept", "return", "continue", "counter", "meta mark set 1", "jump more", "goto more", "drop")


def beside(draw):
    """Commands that make other base chains, of which some may drop packets that are forwarded."""
    for number, (family, hook, priority) in enumerate(draw.sample(PLACES, draw.randrange(1, 4))):
        table = f"{family} other{number}"
        device = ' device "eth0"' if hook == "ingress" else ' device "eth1"' if hook == "egress" else ""
        policy = draw.choice(["accept"] * 5 + ["drop"])
        yield f"add table {table}"
        yield (f"add chain {table} base {{ type filter hook {hook}{device} priority {priority}; policy {policy}; }}")
        yield f"add chain {table} more"
        for chain in ("base", "base", "more"):
            done = draw.choice(DONE[:6] + DONE[-1:] if chain == "more" else DONE)
            yield f"add rule {table} {chain} {draw.choice(SAID[family])} {done}"


def draw(draw):
    """A ruleset that is shipped or drawn."""
    if draw.random() < 0.3:
        file, chain, text = draw.choice(SHIPPED)
        return made(json.loads((DATA / file).read_text())["nftables"], chain, text)
    return made(drawn_objects(draw, "forward"), "forward", draw.choice(ASSUMED))
