# SPDX-License-Identifier: BSD-3-Clause
"""Parts of the key space as they are told: pieces joined to few boxes, their words and values, and a packet.

A box stands for the packets whose protocol, addresses and ports are in it. Without ports both count as 0, as for rules.
"""
import ipaddress

from aclc_tools import boxes, covers, keys, packet_words

EVERY_PORT, NO_PORT = (0, 0xFFFF), (0, 0)
SIDES = ("source", "destination", "source_ports", "destination_ports")


def joined_along(pieces, side):
    """Pieces with those joined that touch along one side and are alike on the others."""
    groups = {}
    for piece in pieces:
        rest = piece._replace(**{side: None})
        groups.setdefault(rest, []).append(getattr(piece, side))
    return [rest._replace(**{side: it}) for rest, intervals in groups.items() for it in boxes.union(intervals)]


def joined_protocols(pieces):
    """Pieces with those joined that are alike but for their protocols."""
    groups = {}
    for piece in pieces:
        rest = piece._replace(protocols=0)
        groups[rest] = groups.get(rest, 0) | piece.protocols
    return [rest._replace(protocols=it) for rest, it in groups.items()]


def with_portless(pieces):
    """Pieces with those joined that are alike but for their ports, if one has protocols without ports alone. Port 0 has
    to be in the ranges of the other one, so that packets of these protocols are in it."""
    waiting, kept = {}, []
    for piece in pieces:
        if piece.protocols & covers.PORTED or piece.source_ports != NO_PORT or piece.destination_ports != NO_PORT:
            kept.append(piece)
        else:
            waiting[piece.source, piece.destination] = piece
    found = []
    for piece in kept:
        at = piece.source, piece.destination
        if at in waiting and piece.source_ports[0] == piece.destination_ports[0] == 0:
            piece = piece._replace(protocols=piece.protocols | waiting.pop(at).protocols)
        found.append(piece)
    return found + list(waiting.values())


def joined(pieces):
    """Boxes of disjoint pieces: as few as are found by joining two and two, in order."""
    count = None
    while count != len(pieces):
        count = len(pieces)
        for side in SIDES:
            pieces = joined_along(pieces, side)
        pieces = joined_protocols(pieces)
    return sorted(with_portless(pieces), key=lambda it: (*it[1:], it.protocols))


def protocols_of(box):
    """The protocols of a box as intervals."""
    return boxes.union((it, it) for it in range(256) if box.protocols >> it & 1)


def key_of(family, box):
    """The least key of a packet in a box that has the least protocol of its."""
    protocol = (box.protocols & -box.protocols).bit_length() - 1
    ports = [low if protocol in keys.WITH_PORTS else 0 for low, _ in box[3:]]
    addresses = [low.to_bytes(boxes.BITS[family] // 8, "big") for low, _ in box[1:3]]
    return keys.Key(protocol, *addresses, ports)


def has(family, box, key):
    """Whether a packet of a key is in a box."""
    return (key.family == family and box.protocols >> key.protocol & 1
            and all(low <= number <= high for number, (low, high) in zip(key.numbers, box[1:])))


def address(family, number):
    """An address as it is written."""
    return str(ipaddress.IPv4Address(number) if family == 4 else ipaddress.IPv6Address(number))


def network_words(family, interval):
    """An interval of addresses in words: a prefix, if it is one."""
    found = list(boxes.prefixes(*interval, boxes.BITS[family]))
    if len(found) == 1:
        first, length = found[0]
        return address(family, first) + (f"/{length}" if length < boxes.BITS[family] else "")
    return "-".join(address(family, it) for it in interval)


def range_words(interval):
    """An interval of numbers in words."""
    return str(interval[0]) if interval[0] == interval[1] else f"{interval[0]}-{interval[1]}"


def protocol_words(family, box):
    """The protocols of a box in words."""
    known = packet_words.SHOWN if family == 4 else packet_words.SHOWN_6
    if box.protocols == (1 << 256) - 1:
        return "any"
    names = [known[it] for it in sorted(known) if box.protocols >> it & 1]
    if len(names) == bin(box.protocols).count("1"):
        return ",".join(names)
    return ",".join(range_words(it) for it in protocols_of(box))


def words(family, box):
    """A box in words, as packets are told: protocols, and both ends with the ports that aren't all."""
    ends = []
    for interval, ports in zip(box[1:3], box[3:]):
        network = network_words(family, interval)
        with_ports = ports != EVERY_PORT and box.protocols & covers.PORTED
        ends.append(network if not with_ports else
                    f"{network}:{range_words(ports)}" if family == 4 else f"[{network}]:{range_words(ports)}")
    return f"{protocol_words(family, box)} {ends[0]} -> {ends[1]}"


def values(family, box):
    """A box for a program: each side as intervals, both ends included."""
    return {"protocols": [list(it) for it in protocols_of(box)],
            **{side: [address(family, it) for it in getattr(box, side)] for side in SIDES[:2]},
            **{side: list(getattr(box, side)) for side in SIDES[2:]}}
