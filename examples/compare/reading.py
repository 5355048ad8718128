# SPDX-License-Identifier: BSD-3-Clause
"""Rule files, captures and verdicts, read by an independent program after the README alone.

It is slow and plain on purpose: what aclc prints is compared with it on random files.
"""
import re
import struct

import tables

BLANKS = b" \t"
PORTED = (6, 17, 132)
OPTIONS, FRAGMENT = (0, 43, 60), 44
TAGS, IP4, IP6 = (0x8100, 0x88A8), 0x0800, 0x86DD
TYPED_LINKS = {1: (14, 12), 113: (16, 14), 276: (20, 0)}
PLAIN_LINKS = (101, 228, 229)
NUMBER = re.compile(rb"0[xX]([0-9a-fA-F]+)|([0-9]+)")


class Fault(Exception):
    """Why a line or a frame can't be read."""


def number(text, at, greatest, fault):
    """The number at a place, and the place after it."""
    found = NUMBER.match(text, at)
    value = None
    if found:
        value = int(found.group(1), 16) if found.group(1) else int(found.group(2))
    if value is None or value > greatest:
        raise Fault(fault)
    return value, found.end()


def whole(text, greatest, fault):
    """The number that is the whole text."""
    value, end = number(text, 0, greatest, fault)
    if end != len(text):
        raise Fault(fault)
    return value


def pair(text, greatest, fault):
    """Two numbers around a slash."""
    first, slash, second = text.partition(b"/")
    if not slash:
        raise Fault(fault)
    return whole(first, greatest, fault), whole(second, greatest, fault)


def ip4_address(text):
    parts = text.split(b".")
    if len(parts) != 4 or not all(re.fullmatch(rb"[0-9]{1,3}", p) and int(p) < 256 for p in parts):
        raise Fault("bad address")
    return int.from_bytes(bytes(int(p) for p in parts), "big")


def pieces(text, may_end_in_ip4):
    """The 16-bit pieces of one side of an IPv6 address."""
    found = []
    parts = text.split(b":") if text else []
    for place, part in enumerate(parts):
        if b"." in part and may_end_in_ip4 and place == len(parts) - 1:
            value = ip4_address(part)
            found += [value >> 16, value & 0xFFFF]
        elif re.fullmatch(rb"[0-9a-fA-F]{1,4}", part):
            found.append(int(part, 16))
        else:
            raise Fault("bad address")
    return found


def ip6_address(text):
    front, gap, after = text.partition(b"::")
    left, right = pieces(front, not gap), pieces(after, True)
    missing = 8 - len(left) - len(right)
    if missing < 1 if gap else missing != 0:
        raise Fault("bad address")
    value = 0
    for piece in left + [0] * missing + right:
        value = value << 16 | piece
    return value


def network(word):
    """Family, address and length of the prefix."""
    text, slash, bits = word.partition(b"/")
    family = 6 if b":" in text else 4
    address = ip6_address(text) if family == 6 else ip4_address(text)
    if not slash:
        raise Fault("bad prefix")
    return family, address, whole(bits, 128 if family == 6 else 32, "bad prefix")


class Line:
    """A line that is read from left to right."""

    def __init__(self, text):
        self.text, self.at = text, 0

    def skip(self):
        while self.text[self.at:self.at + 1] and self.text[self.at] in BLANKS:
            self.at += 1

    def mark(self, byte, fault):
        self.skip()
        if self.text[self.at:self.at + 1] != byte:
            raise Fault(fault)
        self.at += 1

    def word(self):
        self.skip()
        found = re.compile(rb"[^ \t]*").match(self.text, self.at)
        self.at = found.end()
        return found.group()

    def port(self):
        self.skip()
        value, self.at = number(self.text, self.at, 0xFFFF, "bad ports")
        return value

    def ports(self):
        low = self.port()
        self.mark(b":", "bad ports")
        high = self.port()
        if self.text[self.at:self.at + 1].strip(BLANKS):
            raise Fault("bad ports")
        if low > high:
            raise Fault("empty range")
        return low, high


def attributes(words, ordinal):
    """Priority, categories and userdata."""
    if words and b"/" in words[0] and b"=" not in words[0]:
        pair(words.pop(0), 0xFFFF, "bad flags")
    given = {}
    for word in words:
        name, sign, text = word.partition(b"=")
        if not sign:
            raise Fault("tail left")
        if name not in (b"pri", b"cat", b"data") or name in given:
            raise Fault("bad attribute")
        given[name] = whole(text, 2**31 - 1 if name == b"pri" else 2**32 - 1, "bad attribute")
    priority = given.get(b"pri", 536870911 - ordinal)
    categories = given.get(b"cat", 0xFFFF)
    if categories & 0xFFFF == 0:
        raise Fault("no category")
    if priority > 536870911:
        raise Fault("priority range")
    return priority, categories, given.get(b"data", ordinal)


def rule(text, ordinal):
    line = Line(text)
    line.mark(b"@", "bad start")
    source, destination = network(line.word()), network(line.word())
    if source[0] != destination[0]:
        raise Fault("mixed families")
    ports = line.ports(), line.ports()
    protocol = pair(line.word(), 0xFF, "bad protocol")
    words = [word for word in re.split(rb"[ \t]+", line.text[line.at:]) if word]
    return source, destination, ports, protocol, attributes(words, ordinal)


def rule_file(content):
    """The rules, or a Fault of the message's words."""
    lines = content.split(b"\n")
    if not lines[-1]:
        lines.pop()
    rules = []
    for place, line in enumerate(lines, 1):
        line = line[:-1] if line.endswith(b"\r") else line
        if not line.strip(BLANKS) or line.lstrip(BLANKS).startswith(b"#"):
            continue
        try:
            rules.append(rule(line, len(rules) + 1))
        except Fault as fault:
            raise Fault(f"rules: line {place}: {fault}") from None
    return rules


def need(text, length):
    if len(text) < length:
        raise Fault("short")
    return text


def ports_after(protocol, text):
    return struct.unpack(">HH", need(text, 4)[:4]) if protocol in PORTED else (0, 0)


def ip4_key(packet):
    need(packet, 20)
    if packet[0] >> 4 != 4 or packet[0] & 15 < 5:
        raise Fault("other")
    length = packet[0] % 16 * 4
    need(packet, length)
    fragment = int.from_bytes(packet[6:8], "big") & 0x1FFF
    ports = (0, 0) if fragment else ports_after(packet[9], packet[length:])
    return 4, packet[9], packet[12:16], packet[16:20], ports


def ip6_key(packet):
    need(packet, 40)
    if packet[0] >> 4 != 6:
        raise Fault("other")
    following, left = packet[6], packet[40:]
    while following in OPTIONS or following == FRAGMENT:
        need(left, 8)
        if following == FRAGMENT and int.from_bytes(left[2:4], "big") >> 3:
            return 6, left[0], packet[8:24], packet[24:40], (0, 0)
        length = 8 if following == FRAGMENT else 8 * (left[1] + 1)
        following, left = need(left, length)[0], left[length:]
    return 6, following, packet[8:24], packet[24:40], ports_after(following, left)


def key(link, frame):
    """The key of the packet in a frame; a Fault of `other` or `short` where there is none."""
    if link in TYPED_LINKS:
        length, place = TYPED_LINKS[link]
        need(frame, length)
        kind, packet = int.from_bytes(frame[place:place + 2], "big"), frame[length:]
        for _ in range(2):
            if kind in TAGS:
                kind, packet = int.from_bytes(need(packet, 4)[2:4], "big"), packet[4:]
        version = {IP4: 4, IP6: 6}.get(kind)
    else:
        packet, version = frame, {228: 4, 229: 6}.get(link) or need(frame, 1)[0] >> 4
    if version not in (4, 6):
        raise Fault("other")
    return ip4_key(packet) if version == 4 else ip6_key(packet)


def matches(rule, key):
    (family, *source), (_, *destination), ranges, (value, mask), _ = rule
    of, protocol, source_bytes, destination_bytes, ports = key
    if family != of or protocol & mask != value & mask:
        return False
    for (address, bits), text in ((source, source_bytes), (destination, destination_bytes)):
        free = 8 * len(text) - bits
        if int.from_bytes(text, "big") >> free != address >> free:
            return False
    return all(low <= port <= high for (low, high), port in zip(ranges, ports))


def winner(rules, key, category):
    """The first matching rule of greatest priority, or None."""
    taking_part = [r for r in rules if r[4][1] >> category & 1 and matches(r, key)]
    return max(taking_part, key=lambda r: r[4][0], default=None)


def answer(rules, key, category, marks):
    """What is printed for a category: the winner's userdata, or 0 or a dash for none."""
    found = winner(rules, key, category)
    return str(found[4][2]) if found else "-" if marks else "0"


def capture(content):
    """The link type, the records, and the fault that ends them, if there is one."""
    if len(content) < 24:
        return 0, [], "0: header cut"
    orders = [o for o in "<>" if struct.unpack(o + "I", content[:4])[0] in (0xA1B2C3D4, 0xA1B23C4D)]
    if not orders:
        return 0, [], "0: magic"
    major, minor, _, _, _, link = struct.unpack(orders[0] + "HHIIII", content[4:24])
    if (major, minor) != (2, 4):
        return 0, [], "0: version"
    link &= 0xFFFF
    if link not in TYPED_LINKS and link not in PLAIN_LINKS:
        return 0, [], "0: link type"
    records, left = [], content[24:]
    while left:
        length = struct.unpack(orders[0] + "I", left[8:12])[0] if len(left) >= 16 else 0
        if length > 262144:
            return link, records, f"{len(records) + 1}: too long"
        if len(left) < 16 + length:
            return link, records, f"{len(records) + 1}: cut"
        records.append(left[16:16 + length])
        left = left[16 + length:]
    return link, records, None


def key_bytes(found):
    """The bytes of a key, as walks read them."""
    _, protocol, source, destination, ports = found
    return bytes([protocol]) + source + destination + struct.pack(">HH", *ports)


def built(rules, budget):
    """The rules of each family and the groups of their tries; a Fault where a family doesn't fit."""
    pair = {}
    for family in (4, 6):
        own = tables.Rules(family, [r for r in rules if r[0][0] == family])
        groups, total = own.split(budget)
        if total > budget:
            raise Fault(f"ip{family} table too large: words {total} budget {budget}")
        pair[family] = own, groups, total
    return pair


def table_lines(pair, taken):
    """The three lines of the tables."""
    lines = [f"ip{family} rules {len(own.rules)} tries {len(groups)} words {total}\n"
             for family, (own, groups, total) in pair.items()]
    return lines + [f"transitions {taken}\n"]


def classify(rules_content, capture_content, categories, budget, stats, marks):
    """What `aclc classify` has to print, its message, and its exit code."""
    try:
        rules = rule_file(rules_content)
    except Fault as fault:
        return "", f"aclc: {fault}\n", 3
    try:
        pair = built(rules, budget)
    except Fault as fault:
        return "", f"aclc: {fault}\n", 4
    link, records, fault = capture(capture_content)
    counts = dict.fromkeys(("ip4", "ip6", "other", "short"), 0)
    lines, taken = [], 0
    for place, frame in enumerate(records, 1):
        try:
            found = key(link, frame)
            name = f"ip{found[0]}"
            answers = " ".join(answer(rules, found, c, marks) for c in range(categories))
            own, groups, _ = pair[found[0]]
            taken += sum(own.steps(group, key_bytes(found)) for group in groups)
        except Fault as kind:
            name, answers = str(kind), "-"
        counts[name] += 1
        lines.append(f"{place} {name} {answers}\n")
    if fault:
        return "".join(lines), f"aclc: capture: record {fault}\n", 5
    counted = " ".join(f"{name} {count}" for name, count in counts.items())
    lines.append(f"packets {len(records)} {counted}\n")
    return "".join(lines + (table_lines(pair, taken) if stats else [])), "", 0
