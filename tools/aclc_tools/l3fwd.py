# SPDX-License-Identifier: BSD-3-Clause
"""Lists of DPDK's sample application l3fwd-acl: rules after `@`, which drop, and routes after `R`, which have a port.

Source: DPDK Sample Applications User Guide, "L3 Forwarding with Access Control Sample Application", and its main.c: the
first line that matches decides, and numbers with a leading zero are octal.
"""
import re

from aclc_tools import boxes
from aclc_tools.lists import ACCEPT, DROP, PASS, CantSay, Chain, Rule
from aclc_tools.rule_file import ip6_address

COLUMNS = 9
# A route's result is the number that it leads to and one. A result of 0, or with one of the four highest bits set, drops.
MOST_ROUTE = 0x0FFFFFFE
# No number that a list may have is longer, and Python reads none of thousands of digits.
MOST_DIGITS = 40


def number(text, most):
    """A number as C's strtoul reads it, with base 0."""
    if re.fullmatch(r"0[xX][0-9a-fA-F]+", text):
        value = int(text, 16)
    elif re.fullmatch(r"0[0-7]*", text):
        value = int(text, 8)
    elif re.fullmatch(r"[1-9][0-9]*", text):
        value = int(text) if len(text) <= MOST_DIGITS else most + 1
    else:
        raise CantSay(f"{text or 'nothing'} is no number")
    if value > most:
        raise CantSay(f"{text} is above {most}")
    return value


def network(text):
    """The family and the interval of an address with its prefix length."""
    address, slash, length = text.partition("/")
    family = 6 if ":" in address else 4
    if family == 4:
        groups = [number(group, 255) for group in address.split(".")]
        value = int.from_bytes(bytes(groups), "big") if len(groups) == 4 else None
    else:
        value = ip6_address(address.encode())
    if value is None or not slash:
        raise CantSay(f"{text} is no address with its prefix length")
    free = boxes.BITS[family] - number(length, boxes.BITS[family])
    low = value >> free << free
    return family, ((low, low + (1 << free) - 1),)


def ports(low, colon, high):
    if colon != ":":
        raise CantSay("a colon stands between two ports, with blanks around it")
    ends = number(low, 0xFFFF), number(high, 0xFFFF)
    if ends[0] > ends[1]:
        raise CantSay(f"no port lies from {low} to {high}")
    return (ends,)


def protocols(text):
    """The protocols that agree with a number in the bits of a mask."""
    value, slash, mask = text.partition("/")
    if not slash:
        raise CantSay(f"{text} is no protocol with its mask")
    value, mask = number(value, 0xFF), number(mask, 0xFF)
    return boxes.union([(it, it) for it in range(256) if it & mask == value & mask])


def read(place, text):
    """The rule of a line, and its family."""
    words = text[1:].split()
    wanted = COLUMNS + (text[0] == "R")
    if len(words) < wanted:
        raise CantSay(f"{wanted} words follow the first letter", place, text)
    given = next((word for word in words[COLUMNS:] if "=" in word), None)
    if given:
        raise CantSay(f"{given} is an attribute of aclc's rule files, which a list of l3fwd doesn't have")
    (family, source), (other, destination) = network(words[0]), network(words[1])
    if family != other:
        raise CantSay("source and destination are of different families")
    if text[0] == "R" and number(words[COLUMNS], 0xFFFFFFFF) > MOST_ROUTE:
        raise CantSay(f"the route leads to {words[COLUMNS]}, above {MOST_ROUTE}: l3fwd-acl drops its packets")
    box = boxes.Box(family, source, destination, ports(*words[2:5]), ports(*words[5:8]), protocols(words[8]))
    return Rule(place, text, [box], ACCEPT if text[0] == "R" else DROP, None, None)


def convert(lines, options):
    """The rules as one chain; a packet that none matches is dropped."""
    rules, families = [], set()
    for place, text in enumerate(lines, 1):
        if not text.strip() or text[0] == "#":
            continue
        if text[0] not in "@R":
            raise CantSay("a line begins with @, R or #", place, text)
        try:
            rules.append(read(place, text))
            families.add(rules[-1].boxes[0].family)
        except CantSay as said:
            rules.append(Rule(place, text, [], DROP, None, said.reason))
    nothing = Rule(0, "", [], PASS, None, None)
    return {"rules": Chain("rules", rules, nothing)}, "rules", sorted(families) or [4]
