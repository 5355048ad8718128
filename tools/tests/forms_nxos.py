# SPDX-License-Identifier: BSD-3-Clause
"""A drawer of lists of Cisco's NX-OS and IOS XR, and a walker over their text that shares no code with the
converter."""
import re
from functools import lru_cache, partial

from routers import Unknown, decider

FORM, GIVEN, FAMILIES = "nxos", {"list": "A"}, (4,)
QUAD = r"\d{1,3}\.\d{1,3}\.\d{1,3}\.\d{1,3}"
PORTS = {"www": 80, "domain": 53, "ftp": 21, "telnet": 23}
PROTOCOLS = {"tcp": 6, "udp": 17, "icmp": 1, "gre": 47, "esp": 50}
# Of each form: the words that begin a list, a group of addresses and one of ports, and that name these in an entry, the
# word for all protocols, and what may stand at an entry's end.
WORDS = {"nxos": ("ip access-list", "object-group ip address", "object-group ip port", "addrgroup", "portgroup", "ip",
                  "log"),
         "iosxr": ("ipv4 access-list", "object-group network ipv4", "object-group port", "net-group", "port-group",
                   "ipv4", "log|log-input|counter \\S+")}
COMMANDS = ("hostname", "interface", "feature", "router", "ip ")


@lru_cache(None)
def number(text):
    """An address as a number."""
    parts = text.split(".")
    if len(parts) != 4 or not all(part.isdigit() and part == str(int(part)) and int(part) < 256 for part in parts):
        raise Unknown(text)
    return int("".join(f"{int(part):02x}" for part in parts), 16)


def compare(text, value):
    """Whether a port lies in what a comparison says."""
    words = text.split()
    ends = [int(word) if word.isdigit() else PORTS.get(word, -1) for word in words[1:]]
    lengths = {"eq": 1, "neq": 1, "gt": 1, "lt": 1, "range": 2}
    if lengths.get(words[0]) != len(ends) or min(ends) < 0 or max(ends) > 65535 or ends[0] > ends[-1]:
        raise Unknown(text)
    return {"eq": value == ends[0], "neq": value != ends[0], "gt": value > ends[0], "lt": value < ends[0],
            "range": ends[0] <= value <= ends[-1]}[words[0]]


class Text:
    """A configuration: the groups with their lines, and the entries of list A by their numbers."""

    def __init__(self, form, text):
        self.form, self.groups, self.entries, self.here = form, {}, {}, None
        begin, self.network, self.port, nets, ports, _, tails = WORDS[form]
        spot = rf"any|host \S+|{nets} \S+|{QUAD}/\d+|{QUAD} {QUAD}"
        side = rf"(?: ((?:eq|neq|gt|lt) \S+|range \S+ \S+|{ports} \S+))?"
        self.shape = re.compile(rf"(permit|deny) (\S+) ({spot}){side} ({spot}){side}(?: (?:{tails}))*")
        for line, words in enumerate(text.split("\n"), 1):
            self.line(line, words[:1] != " ", begin, " ".join(words.split()))

    def line(self, line, first, begin, text):
        """One line; `first` where it has no blanks before it."""
        if not text or text[0] == "!":
            self.here = None if text == "!" and first and self.form == "iosxr" else self.here
        elif text.startswith(f"{begin} ") and text.count(" ") == 2:
            self.here = ("list", text.split()[2])
        elif text.startswith((f"{self.network} ", f"{self.port} ")) and text.count(" ") == max(
                it.count(" ") + 1 for it in (self.network, self.port) if text.startswith(it)):
            kind, _, name = text.rpartition(" ")
            self.here = ("group", name)
            self.groups.setdefault(name, [kind])
            if self.groups[name][0] != kind:
                raise Unknown(text)
        elif self.here and self.here[0] == "list" and re.match(r"(\d+ )?(remark|permit|deny) ", text):
            self.entry(line, text) if self.here[1] == "A" else None
        elif text.startswith(("no ip access-list A", "no ipv4 access-list A")):
            raise Unknown(text)
        elif self.here and self.here[0] == "group" and not text.startswith(COMMANDS):
            self.groups[self.here[1]] += [text] if not text.startswith("description") else []
        elif not (self.here and self.here[0] == "list" and text == "statistics per-entry"):
            self.here = None

    def entry(self, line, text):
        """One line of list A."""
        found = re.match(r"(\d+) (.*)", text)
        place = int(found.group(1)) if found else max(self.entries, default=0) + 10
        if place in self.entries:
            raise Unknown(f"{place} twice")
        self.entries[place] = line, found.group(2) if found else text

    def decide(self, packet):
        """The line that decides a packet."""
        entries = [it for _, it in sorted(self.entries.items()) if not it[1].startswith("remark")]
        if not entries:
            raise Unknown("no list A")
        return next((line for line, text in entries if self.matches(text, packet)), 0)

    def matches(self, text, packet):
        """Whether an entry matches; all its parts are looked at."""
        entry = self.shape.fullmatch(text)
        if not entry:
            raise Unknown(text)
        _, name, source, source_ports, destination, destination_ports = entry.groups()
        _, first, second, ports, protocol = packet
        known = int(name) if name.isdigit() else PROTOCOLS.get(name, -1)
        every = name == WORDS[self.form][5]
        if not every and not 0 < known < 256:
            raise Unknown(text)
        found = [every or known == protocol, self.at(source, first), self.at(destination, second)]
        for side, value in zip((source_ports, destination_ports), ports):
            if side and known not in (6, 17, 132):
                raise Unknown(text)
            if side:
                found.append(self.fits(side, value))
        return all(found)

    def members(self, name, kind, depth):
        """The members of a group."""
        found = self.groups.get(name, [""])
        if found[0] != kind or len(found) == 1 or depth > 20:
            raise Unknown(name)
        return [re.sub(r"^\d+ ", "", text) if self.form == "nxos" else text for text in found[1:]]

    def fits(self, text, value, depth=0):
        """Whether a port fits a comparison or a group."""
        words = text.split()
        if words[0] in ("portgroup", "port-group", "object-group") and len(words) == 2:
            return any([self.fits(one, value, depth + 1) for one in self.members(words[1], self.port, depth)])
        return compare(text, value)

    def at(self, text, value, depth=0):
        """Whether an address is one of those that stand there."""
        words = text.split()
        if text == "any":
            return True
        if words[0] == "host" and len(words) == 2:
            return number(words[1]) == value
        if words[0] in ("addrgroup", "net-group", "object-group") and len(words) == 2:
            return any([self.member(one, value, depth + 1) for one in self.members(words[1], self.network, depth)])
        if len(words) == 1 and "/" in text:
            start, length = text.split("/")
            if not length.isdigit() or int(length) > 32:
                raise Unknown(text)
            return number(start) >> 32 - int(length) == value >> 32 - int(length)
        if len(words) != 2:
            raise Unknown(text)
        return not (number(words[0]) ^ value) & (number(words[1]) ^ 0xFFFFFFFF)

    def member(self, text, value, depth):
        """Whether an address is one of a line of a group."""
        words = text.split()
        if self.form == "iosxr" and words[0] == "range" and len(words) == 3 and number(words[1]) <= number(words[2]):
            return number(words[1]) <= value <= number(words[2])
        if words[0] == "object-group" and self.form == "nxos" or words[0] in ("addrgroup", "net-group") or (
                self.form == "iosxr" and len(words) == 2 and words[0] not in ("host", "object-group")):
            raise Unknown(text)
        return self.at(text, value, depth)


# The line of list A that decides a packet, or 0.
decide = decider(partial(Text, FORM))


def spot(draw, nets):
    """Words for addresses."""
    low = draw.randrange(12)
    return draw.choice(["any", "any", f"host 10.0.0.{low}", f"10.0.0.{low}/{draw.choice([30, 31, 32])}", f"{nets} NETS",
                        f"{nets} HOSTS",
                        f"10.0.0.{low} 0.0.0.{draw.choice([0, 1, 3, 2, 7, 5])}"])


def comparison(draw, ports):
    """Words for ports, or none."""
    first, second = sorted(draw.sample([21, 22, 53, 80, 443, 1023], 2))
    return draw.choice(["", "", f" eq {first}", " eq www", f" neq {second}", f" gt {first}", f" lt {second}",
                        f" range {first} {second}",
                        f" {ports} WEB"])


def draw(draw, form="nxos"):
    """A configuration with groups, the lists A and B, and what stands around them."""
    begin, network, port, nets, ports, every, _ = WORDS[form]
    nested = " object-group HOSTS" if form == "iosxr" else " host 10.0.0.9"
    parts = [["hostname leaf"], [f"{network} HOSTS", f" host 10.0.0.{draw.randrange(12)}", " 10.1.0.0/16"],
             [f"{network} NETS", f" 10.0.0.{draw.choice([0, 4, 8])}/30", nested],
             [f"{port} WEB", " eq 80", " range 442 444"]]
    for name in draw.sample("AB", 2):
        lines, place, numbered = [], 0, draw.random() < 0.6
        for _ in range(draw.randrange(2, 7)):
            place += draw.choice([5, 10])
            kind = draw.choice(["tcp", "tcp", "udp", every, "icmp", "50"])
            sides = [f"{spot(draw, nets)}{comparison(draw, ports) if kind in ('tcp', 'udp') else ''}" for _ in range(2)]
            start = f"{place} " if numbered else ""
            lines.append(f" {start}{draw.choice(['permit', 'deny'])} {kind} {sides[0]} {sides[1]}"
                         f"{draw.choice(['', '', ' log'])}")
        lines.insert(draw.randrange(len(lines)),
                     f" {place + 10} remark permit the rest" if numbered else " remark deny others")
        parts.append([f"{begin} {name}", *([" statistics per-entry"] if form == "nxos" else []), *lines])
    parts.append(["interface Ethernet1/1", " description uplink"])
    return "\n".join(line for part in parts for line in [*part, "!"])
