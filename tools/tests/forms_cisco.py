# SPDX-License-Identifier: BSD-3-Clause
"""A drawer of lists of Cisco's IOS, and a walker over their text that shares no code with the converter."""
import re
from functools import lru_cache

from routers import Unknown, decider

FORM, GIVEN, FAMILIES = "cisco", {"list": "101"}, (4,)
QUAD = r"\d{1,3}\.\d{1,3}\.\d{1,3}\.\d{1,3}"
SPOT = rf"any|host {QUAD}|object-group \S+|{QUAD} {QUAD}"
NAMED = {"www": 80, "domain": 53, "telnet": 23, "ftp": 21, "finger": 79}
ONE = "|".join(["[0-9]+", *NAMED])
PORT = rf"(?:eq|neq)(?: (?:{ONE}))+|(?:gt|lt) \S+|range \S+ \S+"
ENTRY = re.compile(rf"(?:(\d+) )?(permit|deny) (object-group \S+|\S+) ({SPOT})(?: ({PORT}))? ({SPOT})(?: ({PORT}))?"
                   r"((?: log| log-input)*)")
NUMBERED = {"tcp": 6, "udp": 17, "icmp": 1, "gre": 47, "esp": 50, "sctp": 132}
OF_LISTS = re.compile(r"\s*(sequence )?([0-9]+ )?(no |ip |ipv6 )*(permit|deny|remark|access-list|object-group)\b")
KINDS = "motd|login|exec|incoming|prompt-timeout|slip-ppp|config-save|text"
BANNERS = (["banner motd ^C", "Use of this device is watched.", " no entry", "^C"], ["banner login #Staff only#"],
           ["banner exec @ Welcome", "", "to the lab, 10.0.0.1 or not @ and so on"], ["banner motd ^C text ^C"])
COMMANDS = ("banner", "hostname", "interface", "ip route", "line", "logging", "login", "router", "service")


@lru_cache(None)
def number(text):
    """An address as a number."""
    parts = [int(part) for part in text.split(".")]
    if max(parts) > 255 or any(part != str(int(part)) for part in text.split(".")):
        raise Unknown(text)
    return sum(part << shift for part, shift in zip(parts, (24, 16, 8, 0)))


def port(text):
    """A port as a number."""
    if not text.isdigit() and text not in NAMED or text.isdigit() and int(text) > 65535:
        raise Unknown(text)
    return NAMED.get(text) if text in NAMED else int(text)


def near(text, value):
    """Whether a port lies in what a comparison says."""
    words = text.split()
    ends = [port(word) for word in words[1:]]
    if words[0] == "range":
        if ends[0] > ends[1]:
            raise Unknown(text)
        return ends[0] <= value <= ends[1]
    return {"eq": value in ends, "neq": value not in ends, "gt": value > ends[0], "lt": value < ends[0]}[words[0]]


def outside_banners(lines):
    """Lines, with an empty one in the place of each that belongs to a banner of several."""
    mark = None
    for line in lines:
        begins = None if mark else re.match(r"\s*banner\s+(?:%s)\s+(\^C|\S)(.*)" % KINDS, line)
        if mark and OF_LISTS.match(line):
            raise Unknown(line)
        yield "hostname banner" if begins else "" if mark else line
        if begins:
            mark = None if begins.group(1) in begins.group(2) else begins.group(1)
        elif mark and mark in line:
            mark = None
    if mark:
        raise Unknown("a banner without an end")


class Text:
    """A configuration, line by line: the groups, and the entries of list 101 with their lines."""

    def __init__(self, text):
        self.groups, self.entries, self.last, self.here, self.after = {}, {}, 0, None, False
        for line, words in enumerate(outside_banners(text.split("\n")), 1):
            self.line(line, " ".join(words.split()))

    def line(self, line, text):
        """One line; what follows a whole entry at once, and is no command, may be its end."""
        after, self.after = self.after, False
        if not text or text[0] == "!" or text.split()[0] == "description" and self.here in self.groups:
            return
        header = re.fullmatch(r"ip access-list extended (\S+)|object-group (?:network|service) (\S+)", text)
        if header and header.group(1):
            self.here = "list " + header.group(1)
        elif header:
            self.here = header.group(2)
            self.groups.setdefault(self.here, []).append((0, text.split()[1]))
        elif text.startswith("access-list "):
            self.here, self.after = "list " + text.split()[1], True
            self.entry(line, " ".join(text.split()[2:]))
            self.here = None
        elif re.fullmatch("no (ip access-list extended|access-list) 10[12]", text):
            self.entries, self.last = ({}, 0) if text.endswith("101") else (self.entries, self.last)
            self.here, self.after = None, text.startswith("no access-list")
        elif text.startswith("no object-group ") and text.count(" ") == 2 and text.split()[2] in self.groups:
            self.here = self.groups.pop(text.split()[2]) and None
        elif self.here in self.groups:
            self.member(line, text)
        elif self.here and (re.match(r"(\d+ )?(remark|permit|deny)\b", text)):
            self.entry(line, text)
        elif (self.here or after) and not text.startswith(COMMANDS):
            raise Unknown(text)
        else:
            self.here = None

    def member(self, line, text):
        """One line of a group."""
        if text.startswith(COMMANDS):
            self.here = None
        else:
            self.groups[self.here].append((line, text))

    def entry(self, line, text):
        """One line of a list."""
        found = re.match(r"(?:(\d+) )?(permit|deny)\b", text)
        if self.here == "list 101" and not found and not re.match(r"(\d+ )?remark\b", text):
            raise Unknown(text)
        if self.here != "list 101" or not found:
            return
        place = int(found.group(1) or self.last + 10)
        if place in self.entries:
            raise Unknown(f"{place} twice")
        self.entries[place], self.last = (line, text), max(place, self.last)

    def decide(self, packet):
        """The line that decides a packet."""
        if not self.entries:
            raise Unknown("no list 101")
        return next((line for _, (line, text) in sorted(self.entries.items()) if self.matches(text, packet)), 0)

    def matches(self, text, packet):
        """Whether an entry matches."""
        entry = ENTRY.fullmatch(re.sub(r" (log|log-input) \S+$", r" \1", text))
        if not entry:
            raise Unknown(text)
        _, _, protocol, source, source_ports, destination, destination_ports, _ = entry.groups()
        _, first, second, ports, number_of = packet
        ported = number_of in (6, 17, 132)
        if (source_ports or destination_ports) and protocol not in ("tcp", "udp", "sctp", "6", "17", "132"):
            raise Unknown(text)
        # All parts are looked at, so that one that is unknown is told for each packet.
        found = [self.carried(protocol, ports, number_of), self.at(source, first), self.at(destination, second)]
        found += [near(said, value) and ported for said, value in zip((source_ports, destination_ports), ports) if said]
        return all(found)

    def carried(self, protocol, ports, number_of):
        """Whether a packet is one of the protocol or the group of services."""
        if protocol.startswith("object-group "):
            return self.service(protocol.split()[1], ports, number_of, 0)
        return number_of == self.known(protocol) or protocol == "ip"

    def known(self, protocol):
        """The number of a protocol, or None for all."""
        if protocol.isdigit() and 0 < int(protocol) < 256:
            return int(protocol)
        if protocol not in NUMBERED and protocol != "ip":
            raise Unknown(protocol)
        return NUMBERED.get(protocol)

    def members(self, name, kind, depth):
        """The members of a group."""
        found = self.groups.get(name, [])
        kinds = {text for line, text in found if not line}
        if all(not line for line, _ in found) or kinds != {kind} or depth > 20:
            raise Unknown(f"group {name}")
        return [text for line, text in found if line]

    def service(self, name, ports, number_of, depth):
        """Whether a group of services has a packet."""
        found = []
        for text in self.members(name, "service", depth):
            words = text.split()
            if words[0] == "group-object" and len(words) == 2:
                found.append(self.service(words[1], ports, number_of, depth + 1))
                continue
            shape = re.fullmatch(rf"(\S+)(?: source ({PORT}|\S+))?(?: ({PORT}|\S+))?", text)
            if not shape or shape.group(1) == "icmp" and len(words) > 1:
                raise Unknown(text)
            protocols = (6, 17) if words[0] == "tcp-udp" else (self.known(words[0]),)
            sides = [side and (side if " " in side else f"eq {side}") for side in shape.groups()[1:]]
            many = any(side and side.split()[0] in ("eq", "neq") and side.count(" ") > 1 for side in sides)
            if any(sides) and not set(protocols) <= {6, 17, 132} or many:
                raise Unknown(text)
            fits = [near(side, value) for side, value in zip(sides, ports) if side]
            found.append((number_of in protocols or words[0] == "ip") and all(fits))
        return any(found)

    def at(self, spot, value, depth=0):
        """Whether an address is one that stands there."""
        words = spot.split()
        if words[0] == "any":
            return True
        if words[0] == "host":
            return number(words[1]) == value
        if words[0] == "object-group":
            return any([self.of_group(text, value, depth) for text in self.members(words[1], "network", depth)])
        return not (number(words[0]) ^ value) & ~number(words[1]) & 0xFFFFFFFF

    def of_group(self, text, value, depth):
        """Whether an address is that of a member of a group."""
        words = text.split()
        if words[0] == "group-object" and len(words) == 2:
            return self.at(f"object-group {words[1]}", value, depth + 1)
        if re.fullmatch(rf"any|host {QUAD}", text):
            return self.at(text, value)
        if re.fullmatch(rf"range {QUAD} {QUAD}", text) and number(words[1]) <= number(words[2]):
            return number(words[1]) <= value <= number(words[2])
        shape = re.fullmatch(rf"({QUAD}) ?/(\d+)|({QUAD})(?: ({QUAD}))?", text)
        if not shape:
            raise Unknown(text)
        start, length, base, mask = shape.groups()
        if start:
            if int(length) > 32:
                raise Unknown(text)
            return number(start) >> 32 - int(length) == value >> 32 - int(length)
        bits = number(mask) if mask else 0xFFFFFFFF
        if not bits or "01" in f"{bits:032b}" or number(base) & ~bits:
            raise Unknown(text)
        return value & bits == number(base)


# The line of list 101 that decides a packet, or 0.
decide = decider(Text)


def spot(draw):
    """Words for addresses."""
    low = draw.randrange(12)
    return draw.choice(["any", "any", f"host 10.0.0.{low}", f"10.0.0.{low} 0.0.0.{draw.choice([0, 1, 3, 2, 7, 5])}",
                        "object-group NETS",
                        "object-group HOSTS", f"10.{draw.randrange(2)}.0.0 0.0.255.255"])


def comparison(draw):
    """Words for ports, or none."""
    first, second = sorted(draw.sample([21, 22, 53, 80, 443, 1023], 2))
    return draw.choice(["", "", f" eq {first}", " eq www 443", f" neq {second}", f" gt {first}", f" lt {second}",
                        f" range {first} {second}",
                        " eq domain"])


def entry(draw):
    """An entry."""
    verdict = draw.choice(["permit", "permit", "deny  "])
    tail = draw.choice(["", "", "", " log", " log-input"])
    if draw.random() < 0.15:
        return f"{verdict} object-group SERVICES {spot(draw)} {spot(draw)}{tail}"
    protocol = draw.choice(["tcp", "tcp", "udp", "ip", "icmp", "gre", "50"])
    ported = protocol in ("tcp", "udp")
    return (f"{verdict} {protocol} {spot(draw)}{comparison(draw) if ported else ''} {spot(draw)}"
            f"{comparison(draw) if ported else ''}{tail}")


def draw_list(draw, name):
    """The lines of a list, with their numbers in the sequence or without them, or each a command of its own."""
    if draw.random() < 0.3:
        return [f"access-list {name} {entry(draw)}" for _ in range(draw.randrange(2, 7))]
    lines, place = [f"ip access-list extended {name}"], 0
    numbered = draw.random() < 0.5
    for _ in range(draw.randrange(2, 7)):
        place += draw.choice([5, 10, 10])
        lines.append(f" {place} {entry(draw)}" if numbered else f" {entry(draw)}")
    if not numbered and draw.random() < 0.5:
        lines.insert(draw.randrange(1, len(lines)), " remark permit what others need")
    if numbered and draw.random() < 0.3:
        lines[1:] = draw.sample(lines[1:], len(lines) - 1)
    return [line.strip() for line in lines] if draw.random() < 0.2 else lines


def draw(draw):
    """A configuration with groups, the lists 101 and 102, and what stands around them."""
    groups = [["object-group network HOSTS", " description some hosts", f" host 10.0.0.{draw.randrange(12)}",
               " range 10.0.0.3 10.0.0.5"],
              ["object-group network NETS", f" 10.0.0.{draw.choice([0, 4, 8])} 255.255.255.252", " 10.1.0.0 /16",
               " group-object HOSTS"],
              ["object-group service SERVICES", " tcp eq www", " udp source gt 1023 range 53 80", " tcp-udp 443",
               " esp"]]
    parts = [["hostname edge"], *groups, draw_list(draw, "101"), draw_list(draw, "102"),
             ["interface Gi0/0", " ip access-group 101 in"]]
    parts.insert(draw.randrange(len(parts) + 1), draw.choice(BANNERS))
    return "\n".join(line for part in parts for line in [*part, "!"])
