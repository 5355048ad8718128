# SPDX-License-Identifier: BSD-3-Clause
"""The way of a packet through the chains of a list, rule by rule, as the other program goes it."""
from aclc_tools import lists
from aclc_tools.any_list import NOT_DECIDED


def is_within(boxes, key):
    """Whether a packet of this key is in one of the boxes."""
    return any(box.family == key.family and all(any(low <= number <= high for low, high in side)
                                                for side, number in zip(box[1:], key.numbers)) for box in boxes)


def way(listed, key, chains=None):
    """The entries that match a packet, in the order in which it comes to them: the first one decides, and the others
    would without those before them."""
    found, chains = [], chains or listed.chains
    if key.family not in chains.families:
        return found
    found += [listed.by_key[it.number, NOT_DECIDED] for it in chains.beside]
    follow(listed, chains, chains.start, key, found)
    return found + [entry for entry in listed.entries if entry.is_end]


def follow(listed, chains, name, key, found):
    """Goes through a chain to its end, or to where the packet leaves it."""
    for rule in chains.chains[name].rules:
        if rule.reason:
            entry = listed.by_key.get((rule.number, NOT_DECIDED))
            if entry and entry not in found and (not rule.boxes or is_within(rule.boxes, key)):
                found.append(entry)
            continue
        if not is_within(rule.boxes, key):
            continue
        if rule.verdict in lists.DECIDING:
            entry = listed.by_key.get((rule.number, rule.verdict))
            if entry and entry not in found:
                found.append(entry)
        elif rule.verdict == lists.RETURN:
            return
        elif rule.verdict in (lists.JUMP, lists.GO):
            follow(listed, chains, rule.target, key, found)
            if rule.verdict == lists.GO:
                return
