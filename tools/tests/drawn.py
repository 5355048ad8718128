# SPDX-License-Identifier: BSD-3-Clause
"""Lists and packets that are drawn, and what a plain reading of the lists as they are written answers."""
import itertools
import random
import struct
import sys

from aclc_tools import keys, rule_file
from aclc_tools.program import TOP

sys.path.insert(0, str(TOP / "examples" / "compare"))
import reading

NETWORKS = {4: ["0.0.0.0/0", "10.0.0.0/8", "10.0.0.1/32", "10.0.0.0/31", "10.128.0.0/9", "192.168.0.0/16"],
            6: ["::/0", "2001:db8::/32", "2001:db8::/127", "2001:db8::1/128"]}
RANGES = ["0:65535", "0:65535", "80:80", "0:1023", "1024:65535", "81:1024", "0:0"]
PROTOCOLS = ["0/0", "0/0", "6/0xFF", "6/0x0F", "17/0xFF", "1/0xFF", "58/0xFF", "132/0xFF"]
# Packets have these protocols, of which the rules tell some apart.
SENT = (0, 1, 6, 17, 22, 58, 132)


def rule_line(draw, with_categories, most=9):
    """A line of a rule file, with attributes or without, of so many choices for each column at most."""
    family = draw.choice([4, 4, 4, 6])
    words = [draw.choice(choices[:most]) for choices in (NETWORKS[family], NETWORKS[family], RANGES, RANGES, PROTOCOLS)]
    words += [f"pri={draw.randrange(4)}"] if draw.random() < 0.3 else []
    words += [f"cat={draw.randrange(1, 8)}"] if with_categories and draw.random() < 0.5 else []
    words += [f"data={draw.randrange(4)}"] if draw.random() < 0.5 else []
    return "@" + " ".join(words)


def rule_lines(draw, most=8, with_categories=False, choices=9):
    """The lines of a rule file, with comments and empty lines between the rules."""
    lines = []
    for _ in range(draw.randrange(1, most)):
        lines += draw.choice([[], [], ["# a comment"], [""]]) + [rule_line(draw, with_categories, choices)]
    return lines


def edited(draw, lines, choices=9):
    """The lines with one of them left out, doubled, moved or drawn anew."""
    lines, at = list(lines), draw.randrange(len(lines))
    lines[at:at + 1] = draw.choice([[], [lines[at]] * 2, [rule_line(draw, False, choices)], ["# new", lines[at]]])
    if draw.random() < 0.3:
        draw.shuffle(lines)
    return lines


def text_of(lines):
    """The text of some lines."""
    return "".join(line + "\n" for line in lines)


def key_of(fields):
    """The key of a packet of these fields, as packets.fields draws them."""
    family, source, destination, ports, protocol = fields
    size = 4 if family == 4 else 16
    return keys.Key(protocol, source.to_bytes(size, "big"), destination.to_bytes(size, "big"),
                    ports if protocol in keys.WITH_PORTS else (0, 0))


def read(lines):
    """The rules by the plain reading, and the line of each."""
    numbers = [number for number, line in enumerate(lines, 1) if line.startswith("@")]
    return list(zip(reading.rule_file(text_of(lines).encode()), numbers))


def plain(key):
    """A key as the plain reading has it."""
    return key.family, key.protocol, key.source, key.destination, key.ports


def matching(rules, key):
    """The rules that match, each with its line, the one that decides first; their categories have to be looked at."""
    return sorted((it for it in rules if reading.matches(it[0], plain(key))), key=lambda it: -it[0][4][0])


def lines_of(matched, category):
    """The lines of those rules that are in a category."""
    return [line for rule, line in matched if rule[4][1] >> category & 1]


def answer(matched, category):
    """The userdata of the rule that decides in a category, or 0."""
    return next((rule[4][2] for rule, _ in matched if rule[4][1] >> category & 1), 0)


def categories_of(*lists):
    """The categories that have to be looked at."""
    return range(16) if any("cat=" in line for lines in lists for line in lines) else [0]


def corners(*lists):
    """A packet for each part of all keys in which no rule of the lists tells two packets apart: the least one."""
    rules = [rule for lines in lists for rule in rule_file.read_rules(text_of(lines).encode())[0]]
    for family in (4, 6):
        mine = [rule for rule in rules if rule.family == family]
        lows = [sorted({0, *(end for rule in mine for low, high in [rule.intervals()[side]] for end in (low, high + 1)
                             if end < 1 << (rule.bits if side < 2 else 16))}) for side in range(4)]
        for protocol, *values in itertools.product(SENT, *lows) if mine else ():
            if protocol in keys.WITH_PORTS or values[2:] == [0, 0]:
                yield key_of((family, *values[:2], values[2:], protocol))


# A firewall's list: each line permits or denies what it names.
ADDRESSES = [("any", None), ("10.0.0.0", 8), ("10.1.0.0", 16), ("10.1.2.3", 32), ("192.168.0.0", 16)]
SERVICES = [("ip", None), ("tcp", None), ("tcp", 80), ("tcp", 443), ("udp", 53), ("icmp", None)]


def firewall(draw, count):
    """Lines of a firewall: verdict, protocol, source, destination and destination port."""
    return [(draw.choice(["accept", "drop"]), *draw.choice(SERVICES), draw.choice(ADDRESSES), draw.choice(ADDRESSES))
            for _ in range(count)]


def cisco_address(address, length):
    """An address as IOS writes it."""
    if length is None:
        return "any"
    wild = ".".join(str(255 if 8 * it >= length else 0) for it in range(4))
    return f"host {address}" if length == 32 else f"{address} {wild}"


def as_cisco(lines):
    """The list of Cisco's IOS that says these lines."""
    text = "ip access-list extended A\n"
    for verdict, protocol, port, source, destination in lines:
        words = ["permit" if verdict == "accept" else "deny", protocol, cisco_address(*source),
                 cisco_address(*destination)]
        text += " " + " ".join(words + ([f"eq {port}"] if port else [])) + "\n"
    return text


def as_iptables(lines):
    """The list of iptables-save that says these lines, with a policy that drops."""
    text = "# Generated by iptables-save\n*filter\n:INPUT DROP [0:0]\n"
    for verdict, protocol, port, source, destination in lines:
        words = [f"-{option} {address}/{length}" for option, (address, length) in (("s", source), ("d", destination))
                 if length]
        words += [f"-p {protocol}"] if protocol != "ip" else []
        words += [f"-m {protocol} --dport {port}"] if port else []
        text += " ".join(["-A INPUT", *words, f"-j {verdict.upper()}"]) + "\n"
    return text + "COMMIT\n"


def said_by(lines, key):
    """The places of the lines that match a packet of IPv4, in order, from 1."""
    number = {"ip": None, "tcp": 6, "udp": 17, "icmp": 1}
    found = []
    for place, (_, protocol, port, source, destination) in enumerate(lines, 1):
        near = all(length is None or inside(address, length, value) for (address, length), value in
                   ((source, key.source), (destination, key.destination)))
        if key.family == 4 and near and number[protocol] in (None, key.protocol) and port in (None, key.ports[1]):
            found.append(place)
    return found


def inside(address, length, value):
    """Whether the bytes of an address are in a network."""
    wanted = int.from_bytes(bytes(map(int, address.split("."))), "big")
    return wanted >> 32 - length == int.from_bytes(value, "big") >> 32 - length


def firewall_key(draw):
    """A packet near such lines."""
    source, destination = (draw.choice([0x0A010203, 0x0A010204, 0x0A020000, 0xC0A80001, 0x08080808]) for _ in range(2))
    return key_of((4, source, destination, (draw.randrange(65536), draw.choice([53, 80, 443, 22])),
                   draw.choice([1, 6, 6, 17, 47])))


def chances(seed):
    """Chances that are the same in each run."""
    return random.Random(seed)


def record(seconds, part, frame):
    """A record of a savefile with its time."""
    return struct.pack("<IIII", seconds, part, len(frame), len(frame)) + frame
