# SPDX-License-Identifier: BSD-3-Clause
"""Packets at the edges of the rules of a file, for tests: addresses and ports at the ends of their ranges."""
import random
import struct

from aclc_tools.traces import checksum

PROTOCOLS = (6, 6, 6, 17, 17, 17, 132, 1, 58, 47, 50, 2)
# Headers of IPv6 that stand before the protocol, so that no packet ends in one.
EXTENSIONS = (0, 43, 44, 60)
PAYLOAD, MARK = 48, 20


def ends(low, high, most, draw):
    """A number in an interval, at its ends or beside them."""
    return max(0, min(most, draw.choice([low, high, low - 1, high + 1, draw.randint(low, high),
                                         draw.randint(low, high)])))


def address(network, bits, draw):
    value, length = network
    free = bits - length
    low = value >> free << free
    return ends(low, low + (1 << free) - 1, (1 << bits) - 1, draw)


def fields(rules, draw):
    """Family, source, destination, ports and protocol of a packet near some rules."""
    one, other = draw.choice(rules), draw.choice(rules)
    other = other if other.family == one.family and draw.random() < 0.3 else one
    bits = one.bits
    ports = [ends(*pair, 65535, draw) for pair in (other.source_ports, one.destination_ports)]
    value, mask = draw.choice([one.protocol, (draw.choice(PROTOCOLS), 255)])
    matching = [it for it in range(256) if it & mask == value & mask and it not in EXTENSIONS]
    protocol = draw.choice([it for it in PROTOCOLS if it in matching] or matching[:1] or PROTOCOLS)
    return one.family, address(one.source, bits, draw), address(other.destination, bits, draw), ports, protocol


def start(ports, protocol, number):
    """The first bytes of a payload, so that a table of connections takes a packet for the first of its own."""
    if protocol == 17:
        return struct.pack(">HHHH", *ports, PAYLOAD, 0)
    if protocol in (1, 58):
        return struct.pack(">BBHI", 8 if protocol == 1 else 128, 0, 0, number)
    if protocol in (6, 132):
        return struct.pack(">HHIIBB", *ports, number, 0, 0x50, 0x02)
    return b""


def packet(family, source, destination, ports, protocol, number):
    """An IP packet that has a number in its payload."""
    payload = start(ports, protocol, number).ljust(MARK, b"\0") + b"aclc" + struct.pack(">I", number)
    payload = payload.ljust(PAYLOAD, b"\0")
    if family == 4:
        header = struct.pack(">BBHHHBBH", 0x45, 0, 20 + len(payload), 0, 0, 64, protocol, 0)
        header += struct.pack(">II", source, destination)
        header = header[:10] + struct.pack(">H", checksum(header)) + header[12:]
    else:
        header = struct.pack(">IHBB", 6 << 28, len(payload), protocol,
                             64) + source.to_bytes(16, "big") + destination.to_bytes(16, "big")
    return header + payload


def number_in(packet):
    """The number in a packet that `packet` made, or None."""
    at = (20 if packet[:1] == b"\x45" else 40) + MARK
    return struct.unpack(">I", packet[at + 4:at + 8])[0] if packet[at:at + 4] == b"aclc" else None


def ethernet(packet, target=bytes(6)):
    return target + bytes(6) + (b"\x08\x00" if packet[0] >> 4 == 4 else b"\x86\xdd") + packet


def draw_fields(rules, count, seed, allowed=lambda fields: True):
    """So many packets' fields, those alone that are allowed."""
    draw, found = random.Random(seed), []
    while len(found) < count:
        one = fields(rules, draw)
        if allowed(one):
            found.append(one)
    return found
