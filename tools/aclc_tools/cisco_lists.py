# SPDX-License-Identifier: BSD-3-Clause
"""Configurations of Cisco's devices line by line: which list or group each line belongs to, and the order of entries.

A line that isn't of a list is passed over only where it can't be one: an entry that stands outside of a list is
refused, as is a line in a list that is no entry, and one whose words nearly begin a list.
"""
import difflib

from aclc_tools import boxes, ios_words
from aclc_tools.cisco_words import ICMP6, is_number
from aclc_tools.lists import ACCEPT, PASS, CantSay, Chain, Rule

ENTRIES = ("permit", "deny", "remark", "evaluate")
# Words that look like the beginning of a list, and begin none.
OTHERS = ("access-group", "access-class", "access-map", "access-lists", "access-session")
# What follows `ip` in an entry whose first word is lost.
BEFORE_ADDRESSES = ("any", "host", "object-group", "addrgroup", "net-group")
# What stands before `access-list` where entries of another kind follow, and where none do.
OTHER_LISTS = ("mac", "arp", "ipx", "appletalk", "ethernet-services")
NO_LISTS = ("hardware",)
STEP, MOST_SEQUENCE = 10, 4294967294
# Where a line stands: outside of lists, in a list whose entries aren't read, or after a command that is a whole entry.
OUTSIDE, UNREAD, AFTER = "outside", "unread", "after"


class Entry:
    """An entry as it stands: its line, its number in the sequence or None, and its words."""

    def __init__(self, number, text, sequence, words):
        self.number, self.text, self.sequence, self.words = number, text, sequence, words
        self.remark = words[0] == "remark"


class AccessList:
    """A list: its kind, its family, the line that begins it, and its entries."""

    def __init__(self, name, kind, family, number, text):
        self.name, self.kind, self.family, self.number, self.text, self.entries = name, kind, family, number, text, []

    def in_order(self, remarks_count):
        """The entries in the order of their sequence; one without a number comes ten after the greatest so far."""
        placed, last, loose = {}, 0, None
        for entry in self.entries:
            if entry.remark and not remarks_count:
                loose = loose or entry.number
                continue
            if entry.sequence is None and isinstance(loose, int):
                loose = entry
            elif entry.sequence is not None and isinstance(loose, Entry):
                raise CantSay(f"the entry in line {loose.number} has no sequence number, and whether the remarks "
                              "before it have some isn't known: write a number for each", entry.number, entry.text)
            sequence = last + STEP if entry.sequence is None else entry.sequence
            if sequence in placed:
                raise CantSay(f"the sequence number {sequence} is that of line {placed[sequence].number} too",
                              entry.number, entry.text)
            placed[sequence] = entry
            last = max(last, sequence)
        return [placed[sequence] for sequence in sorted(placed) if not placed[sequence].remark]


def is_plain(name):
    """Whether a name is a number as devices write it, without a zero before it."""
    return is_number(name) and name[0] != "0"


def entry_of(number, text, words):
    """The entry that a line is, or None."""
    sequence, rest = None, words
    if words[0] == "sequence" and len(words) > 2 and is_number(words[1]):
        sequence, rest = int(words[1]), words[2:]
    elif is_number(words[0]) and len(words) > 1:
        sequence, rest = int(words[0]), words[1:]
    if rest[0] not in ENTRIES:
        return None
    if sequence is not None and not 1 <= sequence <= MOST_SEQUENCE:
        raise CantSay(f"the sequence numbers go from 1 to {MOST_SEQUENCE}", number, text)
    return Entry(number, text, sequence, rest)


def near(word):
    """Whether a word is one that begins a list or a group, or nearly, or is its beginning."""
    word, wanted = word.lower(), ("access-list", "object-group")
    begun = len(word) > 2 and any(it.startswith(word) for it in wanted)
    return begun or bool(difflib.get_close_matches(word, wanted, 1, 0.7)) and word not in OTHERS


def suspicious(words, known, inside):
    """Whether a line that wasn't taken may have been meant as a part of a list."""
    words = words[1:] if words[0] == "no" else words
    if words and words[0] in known:
        return any(near(word) for word in words[1:2])
    if inside:
        return any(near(word) for word in words[:1])
    return any(near(word) for word in words[:3]) or any(word.lower() in ("permit", "deny") for word in words)


class Configuration:
    """A configuration; a device's own says by `begin` what its lines begin, and by `known` the words that begin other
    parts."""

    known = frozenset()
    # Whether a banner goes on to a mark, and isn't a line alone, and there are macros.
    banners = True

    def __init__(self):
        self.lists, self.groups, self.open, self.banner = {}, None, OUTSIDE, None
        # Whether an empty line or a comment stands before a line.
        self.apart = True

    def begin(self, number, text, words):
        """Whether a line begins a list, a group or a part that isn't read, or is a whole command of a list."""
        raise NotImplementedError

    def begin_list(self, name, kind, family, number, text):
        """The list of a name, new or known."""
        found = self.lists.setdefault(name, AccessList(name, kind, family, number, text))
        if (found.kind, found.family) != (kind, family):
            raise CantSay(f"the list {name} is begun as {found.kind} in line {found.number}, and here as {kind}",
                          number, text)
        return found

    def begin_other(self, words, removed):
        """Whether a line begins or removes a list of a kind that isn't read, or names lists and begins none."""
        if words[1:2] != ["access-list"] or words[0] not in (*OTHER_LISTS, *NO_LISTS):
            return False
        self.open = UNREAD if words[0] in OTHER_LISTS and not removed else OUTSIDE
        return True

    def comment(self, text):
        """What a line that begins with an exclamation mark ends: nothing."""

    def passes(self, words):
        """Whether a line in a list decides nothing."""
        return False

    def take(self, number, text):
        """One line; those of a banner or a macro say nothing."""
        words = text.split()
        if self.banner:
            self.banner = self.banner.after(number, text)
        elif not words or words[0][0] == "!":
            self.open, self.apart = OUTSIDE if self.open == AFTER else self.open, True
            self.comment(text)
            return
        elif not self.begin(number, text, words):
            self.take_inside(number, text, words)
            self.banner = ios_words.banner_of(number, text) if self.banners else None
        self.apart = False

    def take_inside(self, number, text, words):
        """A line that begins no list: an entry, a member of a group, or one of another part."""
        inside = text[0] in " \t"
        entry = entry_of(number, text, words)
        if self.open in (OUTSIDE, AFTER) and entry:
            raise CantSay("the entry stands outside of a list", number, text)
        over = words[0] in ("exit", "end", "root") and len(words) == 1
        if self.open == AFTER and not over and (inside or not self.ends(words)):
            raise CantSay("the line isn't read, and may be meant for a list, or be the end of the entry before it",
                          number, text)
        if isinstance(self.open, AccessList) and (entry or self.passes(words)):
            self.open.entries += [entry] if entry else []
        elif over:
            self.open = OUTSIDE
        elif not isinstance(self.open, str) and (inside or not self.ends(words)):
            self.take_member(number, text, words)
        elif self.open != UNREAD or not (inside or entry):
            self.open = self.open if inside else OUTSIDE
            if suspicious(words, self.known, inside):
                raise CantSay("the line isn't read, and may be meant for a list, as show running-config writes it",
                              number, text)

    def take_member(self, number, text, words):
        """A line in a list or a group: the list has no such entry."""
        if isinstance(self.open, AccessList):
            raise CantSay(f"the line is no entry of the list {self.open.name}, and doesn't end it", number, text)
        self.open.add(number, text, words)

    def ends(self, words):
        """Whether a line without blanks before it begins another part of a configuration."""
        words = words[1:] if words[0] == "no" else words
        if not words or words[0] not in self.known:
            return False
        address = len(words) < 2 or words[1] in BEFORE_ADDRESSES or words[1][0].isdigit()
        return not (words[0] in ("ip", "ipv4", "ipv6") and address or words[0] == "time-range" and not self.apart)

    def chosen(self, options):
        """The list that is meant."""
        name = options.list or options.chain
        if not self.lists:
            raise CantSay("there is no access list in it")
        if not name and len(self.lists) > 1:
            raise CantSay(f"which list is meant isn't said: --list {' or --list '.join(self.lists)}")
        if name and name not in self.lists:
            raise CantSay(f"there is no list {name}; there are: {', '.join(self.lists)}")
        return self.lists[name or next(iter(self.lists))]


def decides_all_icmp(rules):
    """Whether a rule decides all packets of ICMP of IPv6."""
    whole = boxes.whole(6)._replace(protocols=ICMP6)
    return any(boxes.meet(whole, box) == whole for rule in rules if not rule.reason for box in rule.boxes)


def with_end(found, rules, end_permits):
    """The rules with one for the end of an IPv6 list, which permits some packets unless an entry decides on all of
    ICMP."""
    if decides_all_icmp(rules):
        return rules
    reason = f"the end of the list isn't written, and permits {end_permits}: let an entry permit or deny icmp any any"
    return [*rules, Rule(found.number, found.text, [], ACCEPT, None, reason)]


def chain_of(found, rules, families, end_permits=""):
    """A list's chain. At its end, which isn't written, it refuses all: no rule says so, and the answer is 0."""
    if not rules:
        raise CantSay(f"the list {found.name} has no entries", found.number, found.text)
    if end_permits and found.family == 6:
        rules = with_end(found, rules, end_permits)
    chain = Chain(found.name, rules, Rule(found.number, found.text, [], PASS, None, None))
    return {found.name: chain}, found.name, families


def read(configuration, lines):
    """A configuration with all lines taken."""
    for number, line in enumerate(lines, 1):
        configuration.take(number, line)
    if configuration.banner:
        raise CantSay(f"the {configuration.banner.what} doesn't end", configuration.banner.number,
                      configuration.banner.text)
    return configuration
