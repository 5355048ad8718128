# SPDX-License-Identifier: BSD-3-Clause
"""The words that Cisco's devices share: names of protocols and ports, addresses with their masks, comparisons of ports.

Source: Cisco IOS Security Command Reference, "permit (IP)"; Cisco ASA General Operations CLI Guide, "Addresses,
Protocols, and Ports". A name whose number differs between their pages isn't in the tables: it is refused, and its
number is taken.
"""
import ipaddress
import re

from aclc_tools import boxes
from aclc_tools.lists import CantSay

# A wildcard mask with gaps is said by as many prefixes as its gaps have numbers.
MOST_GAPS = 8
WHOLE = ("ip", "ipv4", "ipv6")
PROTOCOLS = {"ahp": 51, "eigrp": 88, "esp": 50, "gre": 47, "icmp": 1, "igmp": 2, "igrp": 9, "ipinip": 4, "nos": 94,
             "ospf": 89, "pcp": 108, "pim": 103, "sctp": 132, "tcp": 6, "udp": 17}
PORTS = {"bgp": 179, "biff": 512, "bootpc": 68, "bootps": 67, "chargen": 19, "cmd": 514, "daytime": 13, "discard": 9,
         "dnsix": 195, "domain": 53, "drip": 3949, "echo": 7, "exec": 512, "finger": 79, "ftp": 21, "ftp-data": 20,
         "gopher": 70, "hostname": 101, "ident": 113, "irc": 194, "isakmp": 500, "klogin": 543, "kshell": 544,
         "ldp": 646, "login": 513, "lpd": 515, "mobile-ip": 434, "msrpc": 135, "nameserver": 42, "netbios-dgm": 138,
         "netbios-ns": 137, "netbios-ss": 139, "nntp": 119, "non500-isakmp": 4500, "ntp": 123, "pim-auto-rp": 496,
         "pop2": 109, "pop3": 110, "rip": 520, "smtp": 25, "snmp": 161, "snmptrap": 162, "ssh": 22, "sunrpc": 111,
         "syslog": 514, "tacacs": 49, "talk": 517, "telnet": 23, "tftp": 69, "time": 37, "uucp": 540, "who": 513,
         "whois": 43, "www": 80, "xdmcp": 177}
OPERATORS = ("eq", "neq", "gt", "lt", "range")
FLAGS = ("ack", "fin", "psh", "rst", "syn", "urg", "established", "match-all", "match-any", "tcp-flags-mask")
# What an entry compares after its ports, by the word that begins it.
COMPARED = {"fragments": "fragments", "fragment-type": "fragments", "dscp": "a mark of the header",
            "precedence": "a mark of the header", "tos": "a mark of the header", "time-range": "the time",
            "option": "options of the header", "ttl": "the lifetime of a packet",
            "reflect": "the state of a connection", "evaluate": "the state of a connection",
            "packet-length": "the length of a packet", "vlan": "a VLAN", "routing": "a header of IPv6",
            "dest-option": "a header of IPv6", "mobility": "a header of IPv6", "hbh": "a header of IPv6",
            "destopts": "a header of IPv6", "authen": "a header of IPv6", "flow-label": "a label of the header",
            **{flag: "TCP flags" for flag in FLAGS}}
ICMP, ICMP6 = ((1, 1),), ((58, 58),)


def compares(what):
    """The sentence for what an entry compares and a rule doesn't."""
    return f"it compares {what}, and a rule can't"


def is_number(text):
    """Whether a word is a number of a sensible length, in plain digits."""
    return re.fullmatch("[0-9]{1,10}", text) is not None


class Words:
    """The words of a line, taken from the left."""

    def __init__(self, words):
        self.words = list(words)

    def next(self, what="a word"):
        """The next word, which has to be there."""
        if not self.words:
            raise CantSay(f"the line ends where {what} should stand")
        return self.words.pop(0)

    def peek(self):
        """The next word, or none, which stays."""
        return self.words[0] if self.words else ""

    def end(self):
        """Nothing may be left."""
        if self.words:
            raise CantSay(f"the word {self.words[0]} isn't known at this place")


def any_of(*families):
    """All addresses of some families; addresses are intervals by family."""
    return {family: boxes.whole(family).source for family in families}


def union(parts):
    """The addresses of all parts."""
    families = {family for part in parts for family in part}
    return {family: boxes.union([one for part in parts for one in part.get(family, ())]) for family in families}


def address(text):
    """The family and the number of an address, whose numbers have no zero before them."""
    plain = re.fullmatch("[0-9a-fA-F:.]+", text) and not re.search(r"(^|[.:])0[0-9]+\.|\.0[0-9]+$", text)
    try:
        found = ipaddress.ip_address(text if plain else "")
    except ValueError:
        raise CantSay(f"{text or 'nothing'} isn't an address") from None
    return found.version, int(found)


def host(text):
    """One address."""
    family, value = address(text)
    return {family: ((value, value),)}


def address_range(low, high):
    """The addresses from one to another."""
    (family, first), (other, last) = address(low), address(high)
    if family != other or first > last:
        raise CantSay(f"no address lies from {low} to {high}")
    return {family: ((first, last),)}


def prefix(text):
    """The addresses that begin as one does, for so many bits as stand after the slash."""
    start, _, length = text.partition("/")
    family, value = address(start)
    bits = boxes.BITS[family]
    if not is_number(length) or int(length) > bits:
        raise CantSay(f"{text} isn't an address with the length of its prefix")
    free = bits - int(length)
    low = value >> free << free
    return {family: ((low, low + (1 << free) - 1),)}


def of_family(text, family):
    """The number of an address of a family."""
    found, value = address(text)
    if found != family:
        raise CantSay(f"{text} is an address of the other family")
    return value


def wildcard(start, mask):
    """The addresses under a wildcard mask, in which a set bit is one that doesn't count."""
    value, bits = of_family(start, 4), of_family(mask, 4)
    free = (~bits & bits + 1).bit_length() - 1
    low_free = (1 << free) - 1
    gaps = [bit for bit in range(free, 32) if bits >> bit & 1]
    if len(gaps) > MOST_GAPS:
        raise CantSay(f"the wildcard mask {mask} has more than {MOST_GAPS} gaps")
    found = []
    for choice in range(1 << len(gaps)):
        base = value & ~bits & 0xFFFFFFFF
        for place, bit in enumerate(gaps):
            base |= (choice >> place & 1) << bit
        found.append((base, base | low_free))
    return {4: boxes.union(found)}


def netmask(start, mask):
    """The addresses of a network with its mask, in which the set bits stand at the left, and are those that count."""
    value, bits = of_family(start, 4), of_family(mask, 4)
    free = bits ^ 0xFFFFFFFF
    if free & free + 1:
        raise CantSay(f"{mask} isn't the mask of a network: its set bits don't all stand at the left")
    if value & free:
        raise CantSay(f"the address {start} has bits set that the mask {mask} leaves out")
    return {4: ((value, value | free),)}


def port(text, names):
    """The number of a port."""
    number = int(text) if is_number(text) else names.get(text)
    if number is None or number > 0xFFFF:
        raise CantSay(f"{text} is no port that is known here")
    return number


def ports(words, names, many=False):
    """The intervals of a comparison and its ports; `many` ports may stand after eq and neq."""
    operator = words.next("a comparison of ports")
    if operator not in OPERATORS:
        raise CantSay(f"{operator} is no comparison of ports")
    first = port(words.next("a port"), names)
    listed = [(first, first)]
    if operator == "range":
        last = port(words.next("a port"), names)
        if first > last:
            raise CantSay(f"no port lies from {first} to {last}")
        return ((first, last),)
    while many and operator in ("eq", "neq") and (is_number(words.peek()) or words.peek() in names):
        number = port(words.next(), names)
        listed.append((number, number))
    if operator == "gt":
        return ((first + 1, 0xFFFF),) if first < 0xFFFF else ()
    if operator == "lt":
        return ((0, first - 1),) if first else ()
    return boxes.union(listed) if operator == "eq" else boxes.without(0xFFFF, listed)


def protocol(text, names, family=4):
    """The intervals of a protocol by its name or number; of IPv6 `icmp` is its own."""
    if text in WHOLE and text in names:
        return boxes.PROTOCOLS
    number = int(text) if is_number(text) else names.get(text)
    if number == 0:
        raise CantSay("the protocol 0 means all protocols to some devices: write ip or ipv6")
    if number is None or number > 0xFF:
        raise CantSay(compares(COMPARED[text]) if text in COMPARED else f"{text} is no protocol that is known here")
    return ICMP6 if family == 6 and text == "icmp" else ((number, number),)


def option_reason(word, protocols):
    """Why an entry with this word after its addresses can't be said."""
    if word.lstrip("+-") in COMPARED:
        return compares(COMPARED[word.lstrip("+-")])
    if protocols in (ICMP, ICMP6):
        return compares("a type of ICMP")
    return f"the word {word} isn't known at this place"
