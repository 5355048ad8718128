# SPDX-License-Identifier: BSD-3-Clause
"""Object groups of Cisco's devices: named addresses, ports, protocols and services, which may name other groups.

A group's value is made when an entry asks for it, since it may stand after the entry, and may be added to in many
places.
"""
from aclc_tools.lists import CantSay

MOST_DEPTH = 100


class Group:
    """A group: its kind, and its members with the lines that they stand in."""

    def __init__(self, name, kind, number, text):
        self.name, self.kind, self.number, self.text, self.members = name, kind, number, text, []

    def add(self, number, text, words):
        """One more member; `description` says nothing."""
        if words[0] == "no":
            raise CantSay("a member is taken out of a group: write the group as it is then", number, text)
        if words[0] != "description":
            self.members.append((number, words))


class Groups:
    """All groups of a configuration; how a member is read is the device's own."""

    group_class = Group

    def __init__(self, read_member, join):
        self.read_member, self.join, self.groups, self.values = read_member, join, {}, {}

    def begin(self, name, kind, number, text):
        """The group of a name, new or known."""
        group = self.groups.setdefault(name, self.group_class(name, kind, number, text))
        if group.kind != kind:
            raise CantSay(f"the group {name} is begun as {group.kind} in line {group.number}, and here as {kind}",
                          number, text)
        return group

    def remove(self, name):
        """Takes a group out."""
        self.groups.pop(name, None)

    def kind_of(self, name):
        """The kind of a group."""
        if name not in self.groups:
            raise CantSay(f"the group {name} doesn't stand in this file")
        return self.groups[name].kind

    def value(self, name, kinds, path=()):
        """What a group of one of some kinds holds, with all that the groups in it hold."""
        kind = self.kind_of(name)
        if kind not in kinds:
            raise CantSay(f"the group {name} is of the kind {kind}, which doesn't fit at this place")
        if name in path:
            raise CantSay(f"the group {name} has itself as a member")
        if len(path) > MOST_DEPTH:
            raise CantSay(f"the group {name} lies in more than {MOST_DEPTH} groups")
        if name not in self.values:
            self.values[name] = self.made(self.groups[name], (*path, name))
        return self.values[name]

    def made(self, group, path):
        """The value of a group whose members are read now."""
        if not group.members:
            raise CantSay(f"the group {group.name} has no members")
        parts = []
        for number, words in group.members:
            try:
                parts.append(self.read_member(self, group.kind, words, path))
            except CantSay as said:
                # The innermost group tells its line.
                told = f"the group {group.name} can't be taken: in line {number}, {said.reason}"
                raise CantSay(said.reason if "can't be taken: " in said.reason else told) from None
        try:
            return self.join(group.kind, parts)
        except CantSay as said:
            raise CantSay(f"the group {group.name} can't be taken: {said.reason}") from None
