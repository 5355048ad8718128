# SPDX-License-Identifier: BSD-3-Clause
"""What NX-OS and IOS XR have in common: lists by name, each remark and entry with a number in the sequence, and groups
of addresses of one family or of ports.
"""
from aclc_tools import boxes, cisco_groups, cisco_lists
from aclc_tools.cisco_entries import read
from aclc_tools.cisco_words import Words, ports, union
from aclc_tools.lists import CantSay

ADDRESSES = {4: "IPv4 addresses", 6: "IPv6 addresses"}
PORTS = "ports"


def join(kind, parts):
    """The members of a group together."""
    return boxes.union([one for part in parts for one in part]) if kind == PORTS else union(parts)


def member_of(words, kind, names, network):
    """What a line of a group holds that names no other group: ports by their names, or addresses."""
    value = ports(words, names) if kind == PORTS else network(words, 4 if kind == ADDRESSES[4] else 6)
    words.end()
    return value


class Groups(cisco_groups.Groups):
    """The groups, as entries ask for them."""

    def addresses(self, name, family):
        """The addresses of a group of a family."""
        return self.value(name, (ADDRESSES[family],))

    def ports(self, name):
        """The ports of a group of ports."""
        return self.value(name, (PORTS,))


class Configuration(cisco_lists.Configuration):
    """A configuration; each device says which first words have lists, which commands of lists decide nothing about
    entries, how a group begins, and how a member of a group is read."""

    families, settings, group_form, groups_class = {}, (), "", Groups

    def __init__(self, member):
        super().__init__()
        self.groups = self.groups_class(member, join)

    def group_of(self, words):
        """The kind of the group that a line begins, or None; its name is the last word."""
        raise NotImplementedError

    def begins_group(self, words):
        """Whether a line begins a group, and isn't a member of one."""
        return words[:1] == ["object-group"]

    def begin(self, number, text, words):
        """Whether a line begins a list or a group, or a part with entries that aren't read."""
        removed = words[0] == "no"
        words = words[1:] if removed else words
        if words[1:2] == ["access-list"] and words[0] in self.families:
            self.named(number, text, words, removed)
        elif self.begins_group(words):
            self.group(number, text, words, removed)
        elif words[:1] == ["resequence"] and not removed:
            raise CantSay("the line gives other sequence numbers to a list: write the list as it is then", number, text)
        else:
            return self.begin_other(words, removed)
        return True

    def named(self, number, text, words, removed):
        """A command that begins a list, or removes one."""
        if words[2:3] in (["extended"], ["standard"]) and len(words) > 3:
            raise CantSay("the list is one of Cisco's IOS: the form cisco reads it", number, text)
        self.open = cisco_lists.OUTSIDE
        if words[2:3] and words[2] in self.settings:
            return
        if len(words) != 3:
            begins = " or ".join(f"{word} access-list NAME" for word in self.families)
            raise CantSay(f"the line begins no list: {begins} does", number, text)
        if removed:
            self.lists.pop(words[2], None)
            return
        family = self.families[words[0]]
        self.open = self.begin_list(words[2], f"an IPv{family} list", family, number, text)

    def group(self, number, text, words, removed):
        """A command that begins a group, or removes one."""
        kind = self.group_of(words)
        if kind is None:
            raise CantSay(f"the line begins no group: {self.group_form} does", number, text)
        self.open = cisco_lists.OUTSIDE
        if removed:
            self.groups.remove(words[-1])
        else:
            self.open = self.groups.begin(words[-1], kind, number, text)


def chain_of(configuration, lines, options, dialect, end_permits):
    """The chain of the list that is meant, its name, and its family."""
    cisco_lists.read(configuration, lines)
    found = configuration.chosen(options)
    rules = [read(entry.number, entry.text, Words(entry.words), found.family, dialect, configuration.groups)
             for entry in found.in_order(True)]
    return cisco_lists.chain_of(found, rules, [found.family], end_permits)
