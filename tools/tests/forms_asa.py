# SPDX-License-Identifier: BSD-3-Clause
"""A drawer of lists of Cisco's ASA, and a walker over their text that shares no code with the converter."""
import ipaddress
import re
from functools import lru_cache

from routers import Unknown, decider

FORM, GIVEN, FAMILIES = "asa", {"list": "A"}, (4, 6)
PORTS = {"www": 80, "domain": 53, "https": 443, "ftp": 21, "ssh": 22}
PROTOCOLS = {"tcp": {6}, "udp": {17}, "icmp": {1}, "icmp6": {58}, "esp": {50}, "gre": {47}, "ip": set(range(256)),
             "sctp": {132}}
COMPARED = r"(?:eq|neq|gt|lt) \S+|range \S+ \S+"
PORT_GROUPS = tuple(f"object-group service {it}" for it in ("tcp", "udp", "tcp-udp"))
COMMANDS = ("hostname", "interface", "access-group", "names")


def entry_form(port_groups):
    """The form of an entry, where some groups are known to be of ports: they stand for ports, and all others for
    addresses."""
    names = "|".join(map(re.escape, port_groups)) or "(?!)"
    side = rf"(?: ({COMPARED}|object-group (?:{names})(?= |$)))?"
    address = (rf"(any4|any6|any|host \S+|object-group (?!(?:{names})(?: |$))\S+|object \S+|[0-9a-f:]*:[0-9a-f:]*/\d+"
               r"|[\d.]+ \S+|server \S+)")
    return re.compile(rf"(permit|deny) (object-group \S+|object \S+|\S+) {address}{side} {address}{side}"
                      rf"( log(?: warnings)?(?: interval \d+)?)?( inactive)?")


@lru_cache(None)
def number(text):
    """The family and the number of an address."""
    try:
        found = ipaddress.ip_address(text)
    except ValueError:
        raise Unknown(text) from None
    return found.version, int(found)


def compare(text, value):
    """Whether a port lies in what a comparison says."""
    words = text.split()
    ends = [PORTS.get(word, int(word) if word.isdigit() else -1) for word in words[1:]]
    if words[0] not in ("eq", "neq", "gt", "lt",
                        "range") or len(ends) != 1 + (words[0] == "range") or not 0 <= min(ends) <= max(ends) < 65536:
        raise Unknown(text)
    if ends != sorted(ends):
        raise Unknown(text)
    return {"eq": value == ends[0], "neq": value != ends[0], "gt": value > ends[0], "lt": value < ends[0],
            "range": ends[0] <= value <= ends[-1]}[words[0]]


class Text:
    """A configuration: names, objects with their lines, and the entries of list A in order."""

    def __init__(self, text):
        self.names, self.objects, self.entries, self.here, self.after = {}, {}, [], None, False
        for line, words in enumerate(text.split("\n"), 1):
            self.line(line, words.split())
        self.form = entry_form([name for name, lines in self.objects.items()
                                if {rest for word, rest in lines if not word} & set(PORT_GROUPS)])

    def line(self, line, words):
        """One line; what follows an entry at once, and is no command, may be its end."""
        after, self.after = self.after, False
        if not words or words[0][0] in "!:":
            return
        if words[0] == "access-list":
            self.here, self.after = None, True
            if words[1] == "A":
                self.entry(line, words[2:])
        elif words[0] in ("object", "object-group") and len(words) > 2:
            self.here = words[2]
            self.objects.setdefault(self.here, []).append(("", " ".join([*words[:2], *words[3:]])))
        elif words[0] == "name" and len(words) > 2:
            self.names[words[2]] = words[1]
        elif words[0] in COMMANDS:
            self.here = None
        elif after:
            raise Unknown(words)
        elif self.here and words[0] not in ("description", "nat"):
            self.objects[self.here].append((words[0], " ".join(words[1:])))

    def entry(self, line, words):
        """One line of list A."""
        place = len(self.entries)
        if words[:1] == ["line"]:
            place, words = int(words[1]) - 1, words[2:]
        words = words[1:] if words[:1] == ["extended"] else words
        if words[:1] not in (["remark"], ["permit"], ["deny"]) or place < 0:
            raise Unknown(words)
        self.entries.insert(place, (line, " ".join(words)))

    def lines(self, name, *kinds, depth=0):
        """The kind and the lines of an object or group."""
        found = self.objects.get(name, [])
        heads = {rest for word, rest in found if not word}
        if len(heads) != 1 or not heads & set(kinds) or depth > 20 or not [it for it in found if it[0]]:
            raise Unknown(f"{name} {heads}")
        body = [it for it in found if it[0]]
        if min(heads) in ("object network", "object service") and len(body) != 1:
            raise Unknown(name)
        return min(heads), body

    def decide(self, packet):
        """The line that decides a packet."""
        if not [it for it in self.entries if not it[1].startswith("remark")]:
            raise Unknown("no list A")
        return next((line for line, text in self.entries if not text.startswith("remark")
                     and self.matches(text, packet)), 0)

    def matches(self, text, packet):
        """Whether an entry matches; all its parts are looked at."""
        entry = self.form.fullmatch(text)
        if not entry:
            raise Unknown(text)
        _, service, source, source_ports, destination, destination_ports, _, inactive = entry.groups()
        family, first, second, ports, protocol = packet
        protocols, fits, own = self.service(service, ports, protocol)
        found = [fits, self.at(source, family, first), self.at(destination, family, second)]
        for said, value in zip((source_ports, destination_ports), ports):
            if said and (own or not protocols <= {6, 17, 132}):
                raise Unknown(text)
            if said:
                found.append(self.port(said, value, protocols))
        return all(found) and not inactive

    def service(self, text, ports, protocol):
        """The protocols that stand there, whether the packet fits, and whether ports stand there too."""
        words = text.split()
        if len(words) == 1:
            if text not in PROTOCOLS and not (text.isdigit() and 0 < int(text) < 256):
                raise Unknown(text)
            found = PROTOCOLS.get(text) or {int(text)}
            return found, protocol in found, False
        if words[0] == "object":
            return set(), self.services(words[1], ports, protocol, "object service"), True
        kind, body = self.lines(words[1], "object-group service", "object-group protocol")
        if kind == "object-group service":
            return set(), self.services(words[1], ports, protocol, kind), True
        found = set()
        for word, rest in body:
            if word != "protocol-object" or rest not in PROTOCOLS and not (rest.isdigit() and 0 < int(rest) < 256):
                raise Unknown(rest)
            found |= PROTOCOLS.get(rest) or {int(rest)}
        return found, protocol in found, False

    def services(self, name, ports, protocol, *kinds, depth=0):
        """Whether a packet fits a service of an object or a group."""
        kind, body = self.lines(name, *kinds, depth=depth)
        found = []
        for word, rest in body:
            if (word, kind) == ("group-object", "object-group service"):
                found.append(self.services(rest, ports, protocol, kind, depth=depth + 1))
                continue
            if (word, rest.split()[:1], kind) == ("service-object", ["object"],
                                                  "object-group service") and rest.count(" ") == 1:
                found.append(self.services(rest.split()[1], ports, protocol, "object service", depth=depth + 1))
                continue
            shape = re.fullmatch(rf"(\S+)(?: source ({COMPARED}))?(?: (?:destination )?({COMPARED}))?", rest)
            if word != {"object service": "service"}.get(kind, "service-object") or not shape:
                raise Unknown(f"{word} {rest}")
            if shape.group(3) and "destination" not in rest and (shape.group(2) or kind == "object service"):
                raise Unknown(rest)
            both = shape.group(1) == "tcp-udp" and kind != "object service"
            protocols = {6, 17} if both else self.service(shape.group(1), ports, 0)[0]
            sides = [compare(side, value) for side, value in zip(shape.groups()[1:], ports) if side]
            if sides and not protocols <= {6, 17, 132}:
                raise Unknown(rest)
            found.append(protocol in protocols and all(sides))
        return any(found)

    def port(self, text, value, protocols):
        """Whether a port fits a comparison or a group of ports."""
        if not text.startswith("object-group "):
            return compare(text, value)
        kind, body = self.lines(text.split()[1], *PORT_GROUPS)
        allowed = {"tcp": {6}, "udp": {17}, "tcp-udp": {6, 17}}[kind.split()[2]]
        if not protocols <= allowed:
            raise Unknown(text)
        found = []
        for word, rest in body:
            if word != "port-object":
                raise Unknown(word)
            found.append(compare(rest, value))
        return any(found)

    def at(self, text, family, value, depth=0):
        """Whether an address is one of those that stand there."""
        words = text.split()
        if text in ("any", "any4", "any6"):
            return text in ("any", f"any{family}")
        if words[0] == "host" and len(words) == 2:
            return number(self.names.get(words[1], words[1])) == (family, value)
        if words[0] in ("object", "object-group") and len(words) == 2:
            kind, body = self.lines(words[1], f"{words[0]} network", depth=depth)
            return any([self.member(kind, word, rest, family, value, depth) for word, rest in body])
        if len(words) == 1 and ":" in text:
            try:
                network = ipaddress.IPv6Network(text, strict=False)
            except ValueError:
                raise Unknown(text) from None
            return family == 6 and "/" in text and value in range(int(network[0]), int(network[-1]) + 1)
        if len(words) != 2:
            raise Unknown(text)
        (one, base), (other, mask) = (number(self.names.get(word, word)) for word in words)
        if (one, other) != (4, 4) or "01" in f"{mask:032b}" or base & ~mask:
            raise Unknown(text)
        return family == 4 and value & mask == base

    def member(self, kind, word, rest, family, value, depth):
        """Whether an address is one of a line of an object or a group."""
        if kind == "object-group network":
            if word == "group-object":
                return self.at(f"object-group {rest}", family, value, depth + 1)
            if word != "network-object" or rest.startswith("object-group"):
                raise Unknown(word)
            return self.at(rest, family, value, depth + 1)
        if word == "range" and rest.count(" ") == 1:
            low, high = map(number, rest.split())
            if low[0] != high[0] or low > high:
                raise Unknown(rest)
            return low <= (family, value) <= high
        if word not in ("host", "subnet") or word == "subnet" and rest.split()[0] in ("host", "object", "object-group"):
            raise Unknown(word)
        return self.at(f"host {rest}" if word == "host" else rest, family, value)


# The line of list A that decides a packet, or 0.
decide = decider(Text)


def spot(draw):
    """Words for addresses."""
    low = draw.randrange(12)
    return draw.choice(["any", "any", "any4", f"host 10.0.0.{low}", f"10.0.0.{low & 12} 255.255.255.252",
                        "object-group NETS", "object ONE",
                        "object SOME", "10.1.0.0 255.255.0.0", "2001:db8::/126", "host 2001:db8::1", "host server"])


def comparison(draw):
    """Words for ports, or none."""
    first, second = sorted(draw.sample([21, 22, 53, 80, 443, 1023], 2))
    return draw.choice(["", "", f" eq {first}", " eq https", f" neq {second}", f" gt {first}", f" lt {second}",
                        f" range {first} {second}"])


def entry(draw):
    """An entry."""
    verdict = draw.choice(["permit", "permit", "deny"])
    tail = draw.choice(["", "", "", " log", " log warnings interval 60", " inactive"])
    kind = draw.choice(["tcp", "tcp", "udp", "ip", "icmp", "esp", "object-group SERVICES", "object RDP",
                        "object-group TUNNELS"])
    last = draw.choice([comparison(draw),
                        " object-group WEB"]) if kind == "tcp" else comparison(draw) if kind == "udp" else ""
    return f"{verdict} {kind} {spot(draw)}{comparison(draw) if kind in ('tcp', 'udp') else ''} {spot(draw)}{last}{tail}"


def draw(draw):
    """A configuration with objects, groups, the lists A and B, and what stands around them."""
    low = draw.randrange(8)
    lines = [": Saved", "hostname site", "names", "name 10.0.0.7 server", "!", "object network ONE",
             f" host 10.0.0.{low}",
             "object network SOME", f" range 10.0.0.{low} 10.0.0.{low + 2}", "object service RDP",
             " service tcp source gt 1022 destination eq 443", "object-group network NETS", " description a few",
             " network-object object SOME", " network-object 10.1.0.0 255.255.0.0", " network-object host 2001:db8::2",
             "object-group network MORE", " group-object NETS", "object-group service WEB tcp", " port-object eq www",
             " port-object range 442 444", "object-group service SERVICES", " service-object udp destination eq domain",
             " service-object tcp source eq 22", " service-object object RDP", " service-object esp",
             "object-group protocol TUNNELS", " protocol-object esp", " protocol-object gre", "!"]
    for _ in range(draw.randrange(4, 11)):
        place = f" line {draw.randrange(1, 4)}" if draw.random() < 0.1 else ""
        kind = draw.choice([" extended", " extended", ""])
        lines.append(f"access-list {draw.choice('AAAB')}{place}{kind} {entry(draw)}")
    lines.insert(lines.index("!", 6) + 1, "access-list A remark permit the web")
    return "\n".join([*lines, "access-list A extended deny ip any any", "access-group A in interface outside", ": end"])
