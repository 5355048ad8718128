# SPDX-License-Identifier: BSD-3-Clause
"""Header traces of ClassBench and of DPDK's test-acl, made into captures.

A line has source, destination, both ports and the protocol, and may have more that is ignored: a mask, flags, the number
of the filter. Addresses are numbers, or texts as 10.0.0.1 and 2001:db8::1.
"""
import ipaddress
import re
import struct
from collections import namedtuple

from aclc_tools import capture

Fault = namedtuple("Fault", "number text reason")
PORTED = (6, 17, 132)
IP4, IP6 = 0x0800, 0x86DD


def number(text, most):
    value = int(text, 16 if text[:2].lower() == "0x" else 10) if re.fullmatch(r"0[xX][0-9a-fA-F]+|[0-9]+", text) else most + 1
    if value > most:
        raise ValueError(f"{text} is no number of at most {most}")
    return value


def address(text):
    """An address of either family as bytes."""
    if "." in text or ":" in text:
        try:
            return ipaddress.ip_address(text).packed
        except ValueError:
            raise ValueError(f"{text} is no address") from None
    return number(text, 0xFFFFFFFF).to_bytes(4, "big")


def frame(source, destination, ports, protocol):
    """An Ethernet frame of a packet."""
    payload = struct.pack(">HHHHHH", *ports, 0, 0, 0, 0)
    if len(source) == 4:
        header = struct.pack(">BBHHHBBH", 0x45, 0, 20 + len(payload), 0, 0, 64, protocol, 0)
        kind, checked = IP4, header + source + destination
        checked = checked[:10] + struct.pack(">H", checksum(checked)) + checked[12:]
    else:
        kind, checked = IP6, struct.pack(">IHBB", 6 << 28, len(payload), protocol, 64) + source + destination
    return bytes(12) + struct.pack(">H", kind) + checked + payload


def checksum(header):
    """The checksum of an IPv4 header: RFC 791, section 3.1."""
    total = sum(struct.unpack(f">{len(header) // 2}H", header))
    while total >> 16:
        total = (total & 0xFFFF) + (total >> 16)
    return total ^ 0xFFFF


def read(text):
    """The frame of a line, and why it isn't what the line says, if it isn't."""
    words = text.split()
    if len(words) < 5:
        raise ValueError("a line has source, destination, two ports and a protocol")
    source, destination = address(words[0]), address(words[1])
    if len(source) != len(destination):
        raise ValueError("source and destination are of different families")
    ports, protocol = [number(word, 0xFFFF) for word in words[2:4]], number(words[4], 0xFF)
    if protocol not in PORTED and any(ports):
        raise ValueError("a packet of this protocol has no ports")
    return frame(source, destination, ports, protocol)


def convert(lines, lenient):
    """The capture of a trace, and what can't be said of it."""
    frames, faults = [], []
    for place, text in enumerate(lines, 1):
        if not text.strip() or text.lstrip().startswith("#"):
            continue
        try:
            frames.append(read(text))
        except ValueError as error:
            faults.append(Fault(place, text, str(error)))
            if not lenient:
                break
    return capture.write(frames), faults
