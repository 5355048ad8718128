# SPDX-License-Identifier: BSD-3-Clause
"""Rule files as aclc reads them, with the place of each part in its line.

A fault has the number of its line, its kind as the program names it, and the bytes of the line that it is about.
"""
import re

MOST_BYTES = 16777216
MOST_RULES = 262144
MOST_PRIORITY = 536870911
ALL_CATEGORIES = 0xFFFF
ATTRIBUTES = {b"pri": 2**31 - 1, b"cat": 2**32 - 1, b"data": 2**32 - 1}
NUMBER = re.compile(rb"0[xX]([0-9a-fA-F]+)|([0-9]+)")
WORD = re.compile(rb"[^ \t]*")
BLANKS = re.compile(rb"[ \t]*")
# No number that a rule may have is longer without its leading zeros.
MOST_DIGITS = 20


class Fault(Exception):
    """Why a line isn't read: a kind of the program, and the place of the word at fault."""

    def __init__(self, kind, start, end, line=0):
        super().__init__(kind)
        self.kind, self.start, self.end, self.line = kind, start, end, line


class Rule:
    """A rule, what was written of it, and where its parts stand in the line."""

    def __init__(self, line, text, ordinal):
        self.line, self.text, self.ordinal = line, text, ordinal
        self.family = 0
        self.source = self.destination = (0, 0)
        self.source_ports = self.destination_ports = (0, 65535)
        self.protocol = (0, 0)
        self.flags = None
        self.given = {}
        self.places = {}

    @property
    def priority(self):
        """The greatest one decides."""
        return self.given.get("pri", MOST_PRIORITY - self.ordinal)

    @property
    def categories(self):
        """A bit for each category."""
        return self.given.get("cat", ALL_CATEGORIES) & ALL_CATEGORIES

    @property
    def userdata(self):
        """What is printed of packets that the rule decides."""
        return self.given.get("data", self.ordinal)

    @property
    def bits(self):
        """How many bits an address has."""
        return 32 if self.family == 4 else 128

    def intervals(self):
        """The numbers of each column but the protocol that match: addresses and ports, the least and the greatest."""
        free = [self.bits - length for _, length in (self.source, self.destination)]
        lows = [value >> it << it for (value, _), it in zip((self.source, self.destination), free)]
        return [(low, low + (1 << it) - 1) for low, it in zip(lows, free)] + [self.source_ports, self.destination_ports]

    def matches(self, key):
        """Whether packets of a key match."""
        value, mask = self.protocol
        return (self.family == key.family and not (value ^ key.protocol) & mask
                and all(low <= number <= high for (low, high), number in zip(self.intervals(), key.numbers)))


def number(text, at, most):
    """The number of at most so much that stands at a place, and the place after it, or None."""
    found = NUMBER.match(text, at)
    if not found:
        return None
    digits = (found.group(1) or found.group(2)).lstrip(b"0") or b"0"
    value = int(digits, 16 if found.group(1) else 10) if len(digits) <= MOST_DIGITS else most + 1
    return (value, found.end()) if value <= most else None


def whole(text, most):
    """The number that is the whole text, or None."""
    found = number(text, 0, most)
    return found[0] if found and found[1] == len(text) else None


def pair(word, most):
    """The two numbers around a slash, or None."""
    first, slash, second = word.partition(b"/")
    numbers = whole(first, most), whole(second, most)
    return numbers if slash and None not in numbers else None


def ip4_address(text):
    """The number of an IPv4 address, or None."""
    groups = text.split(b".")
    if len(groups) != 4 or not all(re.fullmatch(rb"[0-9]{1,3}", it) and int(it) < 256 for it in groups):
        return None
    return int.from_bytes(bytes(int(it) for it in groups), "big")


def pieces(text, may_end_in_ip4):
    """The pieces of 16 bits of one side of an IPv6 address, or None."""
    found, groups = [], text.split(b":") if text else []
    for place, group in enumerate(groups):
        if b"." in group and may_end_in_ip4 and place + 1 == len(groups):
            value = ip4_address(group)
            if value is None:
                return None
            found += [value >> 16, value & 0xFFFF]
        elif re.fullmatch(rb"[0-9a-fA-F]{1,4}", group):
            found.append(int(group, 16))
        else:
            return None
    return found


def ip6_address(text):
    """The number of an IPv6 address, or None."""
    before, gap, after = text.partition(b"::")
    left, right = pieces(before, not gap), pieces(after, True)
    if left is None or right is None:
        return None
    missing = 8 - len(left) - len(right)
    if missing < 1 if gap else missing:
        return None
    value = 0
    for piece in left + [0] * missing + right:
        value = value << 16 | piece
    return value


class Reader:
    """A line that is read from left to right."""

    def __init__(self, text):
        self.text, self.at = text, 0

    def skip(self):
        self.at = BLANKS.match(self.text, self.at).end()

    def word(self):
        """The next word and its place."""
        self.skip()
        start, self.at = self.at, WORD.match(self.text, self.at).end()
        return self.text[start:self.at], (start, self.at)

    def fault(self, kind):
        """A fault at the word that stands here."""
        start = self.at
        while start and self.text[start - 1:start] not in b" \t" and self.at < len(self.text):
            start -= 1
        return Fault(kind, start, max(WORD.match(self.text, self.at).end(), self.at))

    def network(self):
        """Family, address, and how many bits of it count."""
        word, place = self.word()
        text, slash, bits = word.partition(b"/")
        family = 6 if b":" in text else 4
        address = ip6_address(text) if family == 6 else ip4_address(text)
        if address is None:
            raise Fault("bad address", *place)
        length = whole(bits, 128 if family == 6 else 32) if slash else None
        if length is None:
            raise Fault("bad prefix", *place)
        return family, (address, length), place

    def port(self):
        self.skip()
        found = number(self.text, self.at, 0xFFFF)
        if not found:
            raise self.fault("bad ports")
        self.at = found[1]
        return found[0]

    def ports(self):
        """The two ends of a range, and its place."""
        self.skip()
        start = self.at
        low = self.port()
        self.skip()
        if self.text[self.at:self.at + 1] != b":":
            raise self.fault("bad ports")
        self.at += 1
        high = self.port()
        if self.at < len(self.text) and self.text[self.at] not in b" \t":
            raise self.fault("bad ports")
        if low > high:
            raise Fault("empty range", start, self.at)
        return (low, high), (start, self.at)


def read_attributes(reader, rule):
    """The words after the protocol."""
    word, place = reader.word()
    if b"/" in word and b"=" not in word:
        rule.flags, rule.places["flags"] = pair(word, 0xFFFF), place
        if rule.flags is None:
            raise Fault("bad flags", *place)
        word, place = reader.word()
    while word:
        name, sign, text = word.partition(b"=")
        if not sign:
            raise Fault("tail left", *place)
        value = whole(text, ATTRIBUTES[name]) if name in ATTRIBUTES and name.decode() not in rule.given else None
        if value is None:
            raise Fault("bad attribute", *place)
        rule.given[name.decode()], rule.places[name.decode()] = value, place
        word, place = reader.word()
    if not rule.categories:
        raise Fault("no category", *rule.places["cat"])
    if rule.priority > MOST_PRIORITY:
        raise Fault("priority range", *rule.places["pri"])


def read_rule(text, line, ordinal):
    """The rule that a line says."""
    rule, reader = Rule(line, text, ordinal), Reader(text)
    reader.skip()
    if text[reader.at:reader.at + 1] != b"@":
        raise Fault("bad start", reader.at, max(WORD.match(text, reader.at).end(), reader.at + 1))
    reader.at += 1
    rule.family, rule.source, rule.places["source"] = reader.network()
    family, rule.destination, rule.places["destination"] = reader.network()
    if family != rule.family:
        raise Fault("mixed families", *rule.places["destination"])
    rule.source_ports, rule.places["source ports"] = reader.ports()
    rule.destination_ports, rule.places["destination ports"] = reader.ports()
    word, rule.places["protocol"] = reader.word()
    rule.protocol = pair(word, 0xFF)
    if rule.protocol is None:
        raise Fault("bad protocol", *rule.places["protocol"])
    read_attributes(reader, rule)
    return rule


def lines_of(content):
    """The lines of a file, without their ends."""
    lines = content.split(b"\n")
    if not lines[-1]:
        lines.pop()
    return [line[:-1] if line.endswith(b"\r") else line for line in lines]


def is_skipped(line):
    """Whether a line is empty or a comment."""
    return line.lstrip(b" \t")[:1] in (b"", b"#")


def read_rules(content):
    """The rules of a file and its faults, of which the first is the one that the program tells."""
    if len(content) > MOST_BYTES:
        return [], [Fault("file too long", 0, 0)]
    rules, faults, ordinal = [], [], 0
    for place, line in enumerate(lines_of(content), 1):
        if is_skipped(line):
            continue
        ordinal += 1
        if ordinal > MOST_RULES:
            return rules, faults + [Fault("too many rules", 0, len(line), place)]
        try:
            rules.append(read_rule(line, place, ordinal))
        except Fault as fault:
            fault.line = place
            faults.append(fault)
    return rules, faults
