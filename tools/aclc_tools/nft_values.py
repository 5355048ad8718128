# SPDX-License-Identifier: BSD-3-Clause
"""Values of nft's JSON: numbers, addresses, prefixes, ranges, and sets of these, as intervals of a side of a box."""
import re

from aclc_tools import boxes, names, rule_file
from aclc_tools.lists import CantSay, Malformed
from aclc_tools.matching import MOST
from aclc_tools.nft_text import SHAPES, one_of, plain

# An element's own statements that decide nothing.
QUIET = ("val", "comment", "counter", "last")
# Flags of a set whose elements don't come and go by themselves.
KEPT = ("interval", "constant")
# Types of elements that are compared here.
TYPES = ("ipv4_addr", "ipv6_addr", "inet_service", "inet_proto", "ifname", "ct_state", "iface_index", "nf_proto",
         "ether_type", "fib_addrtype")
# The element that stands for all others.
OTHERS = "*"


def shaped(read, *given):
    """What a reader gives; where the JSON has another shape, a reason."""
    try:
        return read(*given)
    except SHAPES:
        raise Malformed("its JSON isn't what nft writes") from None


def elements(value, sets):
    """The elements of a value: of a set that is named or stands there, or the value itself."""
    if isinstance(value, str) and value.startswith("@"):
        return named_elements(value[1:], sets)
    if isinstance(value, dict) and "set" in value:
        _, said = one_of(value)
        return [element(it) for it in (said if isinstance(said, list) else [said])]
    return [element(value)]


def named_elements(name, sets):
    """The elements of a set or a map that stands in the same table."""
    if name not in sets:
        raise Malformed(f"the set {name} isn't in the ruleset")
    said = sets[name]
    flags = said.get("flags", [])
    other = [it for it in (flags if isinstance(flags, list) else [flags]) if it not in KEPT]
    if other or "timeout" in said:
        kind = " and ".join(map(str, other)) or "timed"
        raise CantSay(f"the elements of the set {name} come and go, since it is {kind}")
    if said["changed"]:
        raise CantSay(f"the elements of the set {name} come and go, since the rule {said['changed']} changes them")
    types = said["type"] if isinstance(said["type"], list) else [said["type"]]
    if not all(isinstance(it, str) and it in TYPES for it in types):
        raise CantSay(f"the type of the set {name} isn't known here: {plain(said['type'])}")
    if any(one_of(it)[0] not in QUIET for it in said.get("stmt", [])):
        raise CantSay(f"the set {name} has a statement that decides")
    found = said.get("elem", [])
    return [it if isinstance(it, list) else element(it) for it in (found if isinstance(found, list) else [found])]


def element(value):
    """An element without its comment and its counter."""
    if not isinstance(value, dict) or "elem" not in value:
        return value
    _, said = one_of(value)
    if any(key not in QUIET for key in said):
        raise CantSay(f"an element has {', '.join(key for key in said if key not in QUIET)}")
    return said["val"]


def number_of(value, side, family):
    """A number, an address or a protocol as JSON gives it."""
    if side in ("source", "destination"):
        return address(value, family)
    if isinstance(value, bool) or not isinstance(value, (int, str)):
        raise Malformed(f"the value {plain(value)} is no number")
    if isinstance(value, int):
        if not 0 <= value <= MOST[side]:
            raise Malformed(f"{value} is no {'protocol' if side == 'protocols' else 'port'}")
        return value
    found = names.firewall_protocol(value) if side == "protocols" else names.SERVICES.get(value)
    if found is None:
        raise CantSay(f"the value {value} is no {'protocol' if side == 'protocols' else 'port'} that is known")
    return found


def address(text, family):
    """The number of an address of a family."""
    read = rule_file.ip4_address if family == 4 else rule_file.ip6_address
    value = read(text.encode()) if isinstance(text, str) else None
    if value is None or family == 4 and re.search(r"(?<!\d)0\d", text):
        raise Malformed(f"{text} is no address of IPv{family}")
    return value


def prefix(said, family):
    """The interval of a prefix."""
    low, length = address(said["addr"], family), said["len"]
    if isinstance(length, bool) or not isinstance(length, int) or not 0 <= length <= boxes.BITS[family]:
        raise Malformed(f"{plain(length)} is no length of a prefix")
    free = boxes.BITS[family] - length
    low = low >> free << free
    return low, low + (1 << free) - 1


def interval(value, side, family):
    """The interval of one element."""
    name, said = one_of(value) if isinstance(value, dict) else (None, value)
    if name == "prefix" and side in ("source", "destination"):
        return prefix(said, family)
    if name == "range":
        low, high = (number_of(end, side, family) for end in said)
        if low > high:
            raise CantSay(f"a range goes from {low} to {high}; nft lists some pairs of comparisons so")
        return low, high
    if name:
        raise CantSay(f"{name} isn't a value that is known here")
    number = number_of(said, side, family)
    return number, number


def compared(operator, values, side, family):
    """The intervals that a comparison allows, and whether they are those that it refuses."""
    if OTHERS in values:
        whole = boxes.whole(family)
        return getattr(whole, side), operator == "!="
    found = boxes.union([interval(value, side, family) for value in values])
    if operator in ("==", "in", "!="):
        return found, operator == "!="
    if operator not in ("<", "<=", ">", ">=") or len(values) != 1 or found[0][0] != found[0][1]:
        raise CantSay(f"the comparison {operator} isn't one of two numbers")
    (low, _), most = found[0], MOST.get(side, (1 << boxes.BITS[family]) - 1)
    low, high = {"<": (0, low - 1), "<=": (0, low), ">": (low + 1, most), ">=": (low, most)}[operator]
    return [(low, high)] if low <= high else [], False
