# SPDX-License-Identifier: BSD-3-Clause
"""Keys of packets: what rules look at, read from hexadecimal digits or from a frame, and a frame that has a key.

A key has the bytes of protocol, source, destination, source port and destination port, in network order.
"""
import ipaddress
import struct

from aclc_tools.traces import checksum

SIZES = {13: 4, 37: 16}
DIGITS = {2 * length for length in SIZES}
WITH_PORTS = {6: "TCP", 17: "UDP", 132: "SCTP"}
HOP_BY_HOP, ROUTING, FRAGMENT, DESTINATION = EXTENSIONS = 0, 43, 44, 60
TAGS, IP4, IP6 = (0x8100, 0x88A8), 0x0800, 0x86DD
VERSIONS = {IP4: 4, IP6: 6}
NO_PORTS = bytes(4)
# Each byte by itself.
BYTES = [bytes([it]) for it in range(256)]
# The length of a link's header, and where the type of what follows stands in it.
TYPED_LINKS = {1: (14, 12), 113: (16, 14), 276: (20, 0)}
PLAIN_LINKS = {228: 4, 229: 6}


class NoKey(Exception):
    """Why a frame has no key: it is `other` or `short`, as the program prints it."""


class Key:
    """The fields of a key, each address as its bytes."""

    def __init__(self, protocol, source, destination, ports):
        self.protocol, self.source, self.destination, self.ports = protocol, source, destination, tuple(ports)
        # The numbers of the fields, in the order of the columns of a rule.
        self.numbers = (int.from_bytes(source, "big"), int.from_bytes(destination, "big"), *self.ports, protocol)

    @property
    def family(self):
        """4 or 6."""
        return 4 if len(self.source) == 4 else 6

    def content(self):
        """The bytes of the key."""
        return bytes([self.protocol]) + self.source + self.destination + struct.pack(">HH", *self.ports)

    def is_of_a_packet(self):
        """Whether a packet may have it: without ports both count as 0."""
        return self.protocol in WITH_PORTS or self.ports == (0, 0)

    def told(self):
        """The fields by their names."""
        name = f" ({WITH_PORTS[self.protocol]})" if self.protocol in WITH_PORTS else ""
        source, destination = ipaddress.ip_address(self.source), ipaddress.ip_address(self.destination)
        return (f"ip{self.family} protocol {self.protocol}{name} source {source} destination {destination}"
                f" ports {self.ports[0]} {self.ports[1]}")


def of_bytes(content):
    """The key of these bytes, or None."""
    if len(content) not in SIZES:
        return None
    size = SIZES[len(content)]
    return Key(content[0], content[1:1 + size], content[1 + size:1 + 2 * size],
               struct.unpack(">HH", content[1 + 2 * size:]))


def of_digits(text):
    """The key of hexadecimal digits, or None."""
    try:
        return of_bytes(bytes.fromhex(text)) if len(text) in DIGITS else None
    except ValueError:
        return None


def payload(key):
    """What follows the headers of the packet: the head of a TCP, UDP or SCTP packet, and else nothing."""
    if key.protocol not in WITH_PORTS:
        return b""
    rest = {6: struct.pack(">IIBBHHH", 0, 0, 0x50, 0, 0, 0, 0), 17: struct.pack(">HH", 8, 0),
            132: bytes(8)}[key.protocol]
    return struct.pack(">HH", *key.ports) + rest


def ip4_packet(key):
    """The packet of a key of IPv4."""
    body = payload(key)
    header = struct.pack(">BBHHHBBH", 0x45, 0, 20 + len(body), 0, 0, 64, key.protocol, 0) + key.source + key.destination
    return header[:10] + struct.pack(">H", checksum(header)) + header[12:] + body


def ip6_packet(key):
    """A protocol that has the number of a header that is passed over stands in a later fragment alone."""
    protocol, body = key.protocol, payload(key)
    if protocol in EXTENSIONS:
        protocol, body = FRAGMENT, struct.pack(">BBHI", key.protocol, 0, 1 << 3, 0)
    return struct.pack(">IHBB", 6 << 28, len(body), protocol, 64) + key.source + key.destination + body


def frame(key):
    """A packet of the key in an Ethernet frame."""
    if key.family == 4:
        return bytes(12) + struct.pack(">H", IP4) + ip4_packet(key)
    return bytes(12) + struct.pack(">H", IP6) + ip6_packet(key)


def need(content, length):
    """Refuses a frame that has fewer bytes."""
    if len(content) < length:
        raise NoKey("short")


def content_of_packet_4(frame, at):
    """The bytes of the key of an IPv4 packet, which begins at a place of a frame."""
    need(frame, at + 20)
    words = frame[at] & 15
    if frame[at] >> 4 != 4 or words < 5:
        raise NoKey("other")
    end = at + 4 * words
    need(frame, end)
    is_later = frame[at + 6] & 0x1F or frame[at + 7]
    return with_ports(frame, frame[at + 9], frame[at + 12:at + 20], None if is_later else end)


def content_of_packet_6(frame, at):
    """The bytes of the key of an IPv6 packet, after the headers that are passed over."""
    need(frame, at + 40)
    if frame[at] >> 4 != 6:
        raise NoKey("other")
    protocol, addresses, at = frame[at + 6], frame[at + 8:at + 40], at + 40
    while protocol in EXTENSIONS:
        need(frame, at + 8)
        if protocol == FRAGMENT and (frame[at + 2] or frame[at + 3] >> 3):
            return with_ports(frame, frame[at], addresses, None)
        end = at + (8 if protocol == FRAGMENT else 8 * (frame[at + 1] + 1))
        need(frame, end)
        protocol, at = frame[at], end
    return with_ports(frame, protocol, addresses, at)


def with_ports(frame, protocol, addresses, at):
    """The bytes of a key whose ports stand at a place of a frame, or nowhere in a later fragment."""
    if at is None or protocol not in WITH_PORTS:
        return BYTES[protocol] + addresses + NO_PORTS
    need(frame, at + 4)
    return BYTES[protocol] + addresses + frame[at:at + 4]


def packet_in(link, frame):
    """The version of the packet in a frame, or None, and the place where it begins."""
    if link not in TYPED_LINKS:
        if link not in PLAIN_LINKS:
            need(frame, 1)
        return PLAIN_LINKS.get(link) or frame[0] >> 4, 0
    at, place = TYPED_LINKS[link]
    need(frame, at)
    kind = frame[place] << 8 | frame[place + 1]
    for _ in range(2):
        if kind in TAGS:
            need(frame, at + 4)
            kind, at = frame[at + 2] << 8 | frame[at + 3], at + 4
    return VERSIONS.get(kind), at


def content_of_frame(link, frame):
    """The bytes of the key of the packet in a frame; NoKey where there is none."""
    version, at = packet_in(link, frame)
    if version == 4:
        return content_of_packet_4(frame, at)
    if version == 6:
        return content_of_packet_6(frame, at)
    raise NoKey("other")


def of_frame(link, frame):
    """The key of the packet in a frame; NoKey where there is none."""
    return of_bytes(content_of_frame(link, frame))
