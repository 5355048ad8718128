# SPDX-License-Identifier: BSD-3-Clause
"""Packets in words, as `tcp 10.0.0.5:4000 -> 10.1.0.1:443`: read as a user types them, and written to be printed."""
import ipaddress
import re

from aclc_tools import keys, names

SHOWN = {6: "tcp", 17: "udp", 132: "sctp", 1: "icmp"}
SHOWN_6 = {6: "tcp", 17: "udp", 132: "sctp", 58: "icmpv6"}
EXAMPLE = "tcp 10.0.0.5:4000 -> 10.1.0.1:443"


class NoPacket(Exception):
    """Why words are no packet: a sentence."""


def words_of(key):
    """A key in words."""
    name = (SHOWN if key.family == 4 else SHOWN_6).get(key.protocol, str(key.protocol))
    with_ports = key.protocol in keys.WITH_PORTS or key.ports != (0, 0)
    ends = [end_words(ipaddress.ip_address(address), port if with_ports else None)
            for address, port in zip((key.source, key.destination), key.ports)]
    return f"{name} {ends[0]} -> {ends[1]}"


def end_words(address, port):
    """An address with its port, if it has one."""
    if port is None:
        return str(address)
    return f"{address}:{port}" if address.version == 4 else f"[{address}]:{port}"


def end_of(text):
    """The address and the port that are typed, the port None where there is none."""
    found = re.fullmatch(r"\[([^\]%]*)\](?::([0-9]+))?|([0-9.]+)(?::([0-9]+))?|([0-9A-Fa-f:.]*:[0-9A-Fa-f:.]*)", text)
    if not found:
        raise NoPacket(f"{text} is no address: write 10.0.0.5:4000, or in IPv6 [2001:db8::1]:4000")
    address = found.group(1) or found.group(3) or found.group(5) or ""
    port = found.group(2) or found.group(4)
    try:
        return ipaddress.ip_address(address), port_of(port)
    except ValueError:
        raise NoPacket(f"{address or text} is no address") from None


def port_of(text):
    """The number of a port, or None."""
    if text is None:
        return None
    if len(text) > 9 or int(text) > 0xFFFF:
        raise NoPacket(f"{text} is above 65535, which is the greatest port")
    return int(text)


def protocol_of(text, version):
    """The number of a protocol. ICMP is that of the family: IPv6 has one of its own."""
    number = names.protocol(text) if text.isascii() else None
    if number is None:
        raise NoPacket(f"{text} is no protocol: write tcp, udp, sctp, icmp, or a number of at most 255")
    return 58 if version == 6 and text.lower() == "icmp" else number


def typed(text):
    """The key of a packet that is typed."""
    digits = text.lower()
    if re.fullmatch(r"[0-9a-f]{20,}", digits):
        return of_key(digits)
    words = text.replace("->", " -> ").split()
    if len(words) != 4 or words[2] != "->":
        raise NoPacket(f"it is no packet: write it in quotes, as '{EXAMPLE}', or a key of 26 or 74 digits, or FILE#N")
    (source, source_port), (destination, destination_port) = end_of(words[1]), end_of(words[3])
    if source.version != destination.version:
        raise NoPacket("source and destination are of different families")
    protocol, ports = protocol_of(words[0], source.version), (source_port, destination_port)
    if protocol in keys.WITH_PORTS and None in ports:
        raise NoPacket(f"a packet of {words[0]} has two ports: write them after the addresses, as in '{EXAMPLE}'")
    if protocol not in keys.WITH_PORTS and ports != (None, None):
        raise NoPacket(f"a packet of {words[0]} has no ports: only TCP, UDP and SCTP have some")
    return keys.Key(protocol, source.packed, destination.packed, [port or 0 for port in ports])


def of_key(digits):
    """The key of hexadecimal digits, if a packet has it."""
    key = keys.of_digits(digits)
    if not key:
        raise NoPacket(f"a key has 26 hexadecimal digits, or 74 in IPv6, and this has {len(digits)}")
    if not key.is_of_a_packet():
        raise NoPacket(f"no packet has this key: protocol {key.protocol} has no ports, so both count as 0")
    return key
