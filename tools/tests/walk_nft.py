# SPDX-License-Identifier: BSD-3-Clause
"""What a ruleset of nft does with a packet: JSON read plainly from libnftables-json(5), with no code of the converter.

Statements are gone through one by one, as nft does: a comparison asks for a number of the packet, and compares it.
What isn't understood is unlawful, and no packet is judged by such a ruleset.
"""
import ipaddress
import json

PROTOCOLS = {"tcp": 6, "udp": 17, "sctp": 132, "icmp": 1, "ipv6-icmp": 58, "gre": 47, "esp": 50, "ah": 51, "ipip": 94,
             "igmp": 2}
QUIET = ("counter", "log")
# Objects that do nothing until a rule names them.
SILENT = ("counter", "quota", "limit", "ct helper", "ct timeout", "ct expectation", "synproxy", "secmark", "flowtable")
ENDING = ("accept", "drop", "reject", "return", "continue")


class Unlawful(Exception):
    """A ruleset that isn't understood."""


def require(condition, what):
    """Ends it where a condition doesn't hold."""
    if not condition:
        raise Unlawful(what)


def only(value):
    """The one name of an object, and what it says."""
    if isinstance(value, str):
        return value, None
    require(isinstance(value, dict) and len(value) == 1, value)
    return list(value.items())[0]


def number_of(value, kind):
    """A number of a kind: of an address, a port or a protocol."""
    if kind in (4, 6):
        try:
            return int((ipaddress.IPv4Address if kind == 4 else ipaddress.IPv6Address)(value))
        except ValueError:
            raise Unlawful(value) from None
    if kind == "protocol" and isinstance(value, str):
        require(value in PROTOCOLS, value)
        return PROTOCOLS[value]
    require(isinstance(value, int) and not isinstance(value, bool), value)
    require(0 <= value <= (255 if kind == "protocol" else 65535), value)
    return value


def of_any_transport(left):
    """Whether ports are compared of whatever transport protocol."""
    name, said = only(left)
    return name == "payload" and said["protocol"] == "th"


class Missing(Exception):
    """What is compared isn't in the packet, so that the rule ends."""


class Judge:
    """A ruleset that decides packets, from one chain on."""

    def __init__(self, text, chain, assumed):
        try:
            objects = json.loads(text)["nftables"]
        except (ValueError, KeyError, TypeError) as error:
            raise Unlawful(str(error)) from None
        self.chains, self.rules, self.sets, self.assumed, tables, handles = {}, {}, {}, assumed, set(), set()
        for it in objects:
            kind, said = only(it)
            self.add(kind, said, tables, handles)
        self.start = self.only_chain(chain)
        for key in self.chains:
            self.check_loops(key[2], key, [])

    def add(self, kind, said, tables, handles):
        """Takes one object."""
        require(kind in ("metainfo", "table", "chain", "rule", "set", "map", *SILENT), kind)
        if kind in ("metainfo", *SILENT):
            return
        table = said.get("family"), said.get("name" if kind == "table" else "table")
        require((table in tables) == (kind != "table"), table)
        tables.add(table)
        if kind in ("chain", "rule"):
            require((table, said["handle"]) not in handles, said)
            handles.add((table, said["handle"]))
        key = (*table, said.get("chain" if kind == "rule" else "name"))
        if kind == "chain":
            require(key not in self.chains and said.get("policy", "accept") in ("accept", "drop"), said)
            require(("hook" in said) == ("type" in said) == ("prio" in said)
                    and ("hook" in said or "policy" not in said), said)
            self.chains[key], self.rules[key] = said, []
        elif kind == "rule":
            require(key in self.rules and isinstance(said["expr"], list), said)
            self.rules[key].append(said)
        elif kind in ("set", "map"):
            require(key not in self.sets and not set(said.get("flags", [])) & {"dynamic", "timeout"}
                    and all(only(it)[0] == "counter" for it in said.get("stmt", [])), said)
            self.sets[key] = said

    def only_chain(self, name):
        """The one base chain of a name."""
        found = [key for key in self.chains if key[2] == name]
        require(len(found) == 1 and found[0][0] in ("ip", "ip6", "inet") and "hook" in self.chains[found[0]], name)
        return found[0]

    def check_loops(self, name, key, way):
        """Refuses jumps that lead in a circle, or nowhere."""
        require(name not in way and (*key[:2], name) in self.chains, name)
        for rule in self.rules[(*key[:2], name)]:
            for word in self.targets(rule, key):
                require("hook" not in self.chains.get((*key[:2], word), {}), word)
                self.check_loops(word, key, way + [name])

    def targets(self, rule, key):
        """The chains that a rule names."""
        for statement in rule["expr"]:
            name, said = only(statement)
            if name == "vmap":
                for pair in self.members(said["data"], key):
                    require(isinstance(pair, list) and len(pair) == 2, pair)
                    inner, goal = only(pair[1])
                    if inner in ("jump", "goto"):
                        yield goal["target"]
            elif name in ("jump", "goto"):
                yield said["target"]

    def members(self, value, key):
        """The members of a set, or of one that is named."""
        if isinstance(value, str) and value.startswith("@"):
            require((*key[:2], value[1:]) in self.sets, value)
            found = self.sets[(*key[:2], value[1:])].get("elem", [])
        else:
            found = only(value)[1]
        return found if isinstance(found, list) else [found]

    def decides(self, fields):
        """The handle that decides a packet."""
        return self.walk(self.start, fields)[0] or self.chains[self.start]["handle"]

    def walk(self, key, fields):
        """The handle that decides within a chain, and whether nothing is asked after it."""
        for rule in self.rules[key]:
            names = [only(it)[0] for it in rule["expr"]]
            if set(names) <= {"match", "limit", "set", *QUIET}:
                continue
            verdict, target = self.run(rule, key, fields)
            if verdict in ("accept", "drop", "reject"):
                return rule["handle"], True
            if verdict == "return":
                return None, False
            if verdict in ("jump", "goto"):
                found = self.walk((*key[:2], target), fields)
                if found[0] or verdict == "goto":
                    return found
        return None, False

    def run(self, rule, key, fields):
        """The verdict of a rule for a packet, and the chain that it names."""
        verdict = None, None
        require(not {"sport", "dport"} <= {self.other_port(it) for it in rule["expr"]}, "of both ports nft makes one")
        try:
            for statement in rule["expr"]:
                require(verdict[0] is None, statement)
                name, said = only(statement)
                if name == "match":
                    if not self.compare(said, key, fields):
                        return None, None
                elif name == "vmap":
                    verdict = self.of_map(said, key, fields)
                else:
                    require(name in (*QUIET, *ENDING, "jump", "goto"), name)
                    if name == "reject" and not self.can_answer(said, fields):
                        return None, None
                    if name not in QUIET:
                        verdict = name, said.get("target") if said else None
        except Missing:
            return None, None
        return verdict

    def other_port(self, statement):
        """The port that a statement says isn't one number."""
        name, said = only(statement)
        if name != "match" or said["op"] != "!=" or only(said["left"])[0] != "payload":
            return None
        right = said["right"]
        several = isinstance(right, (dict, list)) or isinstance(right, str) and right.startswith("@")
        return None if several else said["left"]["payload"].get("field")

    def can_answer(self, said, fields):
        """Whether a packet is one to which the answer of reject is sent."""
        kind = said["type"] if said else "icmpx"
        require(kind in ("tcp reset", "icmp", "icmpv6", "icmpx"), kind)
        return {"tcp reset": fields[4] == 6, "icmp": fields[0] == 4, "icmpv6": fields[0] == 6}.get(kind, True)

    def of_map(self, said, key, fields):
        """The verdict of the element that a packet is of, the one for all others last."""
        for others in (False, True):
            for value, verdict in self.members(said["data"], key):
                if (value == "*") == others and (others or self.equals(said["key"], value, key, fields)):
                    name, goal = only(verdict)
                    require(name in (*ENDING, "jump", "goto"), name)
                    return name, goal.get("target") if goal else None
        raise Missing

    def compare(self, said, key, fields):
        """Whether a comparison holds."""
        left, operator, right = said["left"], said["op"], said["right"]
        if operator in ("==", "in", "!="):
            named = isinstance(right, str) and right.startswith("@")
            several = named or isinstance(right, dict) and "set" in right
            values = self.members(right, key) if several else right if isinstance(right, list) else [right]
            self.has(left, fields)
            return any([it == "*" or self.equals(left, it, key, fields) for it in values]) != (operator == "!=")
        value, kind = self.of_packet(left, fields)
        other = number_of(right, kind)
        require(operator in ("<", "<=", ">", ">="), operator)
        return {"<": value < other, "<=": value <= other, ">": value > other, ">=": value >= other}[operator]

    def has(self, left, fields):
        """Ends the rule where the packet hasn't what is compared."""
        name, said = only(left)
        for one in said if name == "concat" else [left]:
            if one is left or not of_any_transport(one):
                self.of_packet(one, fields)

    def equals(self, left, value, key, fields):
        """Whether what is compared is an element of a set."""
        name, said = only(left)
        if isinstance(value, dict) and "elem" in value:
            require(set(value["elem"]) <= {"val", "comment", "counter"}, value)
            value = value["elem"]["val"]
        if name == "concat":
            parts = only(value)
            require(parts[0] == "concat" and len(parts[1]) == len(said), value)
            # What stands at the place of ports is asked for last, since not each packet has ports there.
            pairs = sorted(zip(said, parts[1]), key=lambda pair: of_any_transport(pair[0]))
            met = [self.equals(one, it, key, fields) for one, it in pairs if not of_any_transport(one)]
            return all(met) and all([self.equals(one, it, key, fields) for one, it in pairs[len(met):]])
        number, kind = self.of_packet(left, fields)
        if kind == "name":
            require(isinstance(value, str), value)
            return number.startswith(value[:-1]) if value.endswith("*") and name == "meta" else number == value
        if kind == "local":
            require(value == "local", value)
            return number
        inner, ends = only(value) if isinstance(value, dict) else (None, None)
        if inner == "range":
            low, high = number_of(ends[0], kind), number_of(ends[1], kind)
            require(low <= high, value)
            return low <= number <= high
        if inner == "prefix":
            low, free = number_of(ends["addr"], kind), (32 if kind == 4 else 128) - ends["len"]
            require(free >= 0, value)
            return low >> free == number >> free
        require(inner is None, value)
        return number == number_of(value, kind)

    def of_packet(self, left, fields):
        """What is compared, and its kind; Missing where the packet hasn't it."""
        family, source, destination, ports, protocol = fields
        name, said = only(left)
        if name == "payload":
            of, field = said["protocol"], said["field"]
            if of in ("ip", "ip6") and field in ("saddr", "daddr"):
                if family != {"ip": 4, "ip6": 6}[of]:
                    raise Missing
                return (source if field == "saddr" else destination), family
            if (of, field) == ("ip", "protocol"):
                if family != 4:
                    raise Missing
                return protocol, "protocol"
            require(of in ("tcp", "udp", "sctp", "th") and field in ("sport", "dport"), left)
            if of != "th" and PROTOCOLS[of] != protocol:
                raise Missing
            require(protocol in (6, 17, 132), "ports of another protocol")
            return ports[field == "dport"], "port"
        if name == "meta":
            key = said["key"]
            if key == "l4proto":
                return protocol, "protocol"
            if key in ("nfproto", "protocol"):
                return ("ipv4" if family == 4 else "ipv6") if key == "nfproto" else ("ip" if family == 4
                                                                                     else "ip6"), "name"
            way = {"iifname": "in", "oifname": "out"}.get(key)
            require(way in self.assumed, key)
            return self.assumed[way], "name"
        if name == "ct" and said["key"] == "state":
            require("state" in self.assumed, left)
            return self.assumed["state"], "name"
        require(name == "fib" and said["result"] == "type" and said["flags"] in ("daddr", ["daddr"])
                and "local" in self.assumed, left)
        own = [int(ipaddress.ip_address(it)) for it in self.assumed["local"]]
        return destination in own or (destination >> 24 == 127 if family == 4 else destination == 1), "local"
