# SPDX-License-Identifier: BSD-3-Clause
"""pcapng captures: their packets, or the fault that ends them, and what to do about it."""
import struct
from collections import namedtuple

from .refusal import LINKS, MOST_CAPTURED, Fault, Record, link_sentence

SECTION = b"\n\r\r\n"
SECTION_TYPE, INTERFACE, PACKET = 0x0A0D0D0A, 1, 6
# Blocks of packets that aren't read: those of the obsolete form, and simple packets, which name no interface.
PASSED_OVER = (2, 3)
# How many bytes a block has at least, with its type and its two lengths.
LEAST = {SECTION_TYPE: 28, INTERFACE: 20, PACKET: 32}
MOST_INTERFACES = 1024
END_OF_OPTIONS, RESOLUTION, TIME_OFFSET = 0, 9, 14
# An interface's link type, how many units of time a second has, and the seconds that are added to each time.
Interface = namedtuple("Interface", "link units offset")
MOST_RECORDS, MOST_BLOCKS = 1_000_000_000, 2_000_000_000
# What reads one, two and five numbers in each byte order.
ONE, TWO, FIVE = ({order: struct.Struct(order + "I" * count).unpack_from for order in "<>"} for count in (1, 2, 5))
ENDS = "The file ends within this block: it is still being written, or was cut."
DAMAGED = "the file is damaged here, or one block before it is."


def section_order(content, at):
    """The byte order of a section, or none."""
    return next((order for order in "<>" if struct.unpack(order + "I", content[at + 8:at + 12])[0] == 0x1A2B3C4D), None)


def interface_of(order, body):
    """The interface that the body of its block tells. Times are microseconds where no option says otherwise."""
    link, units, offset, at = struct.unpack(order + "H", body[:2])[0], 1_000_000, 0, 8
    while at + 4 <= len(body):
        code, length = struct.unpack(order + "HH", body[at:at + 4])
        value, at = body[at + 4:at + 4 + length], at + 4 + length + -length % 4
        if code == END_OF_OPTIONS:
            break
        if code == RESOLUTION and len(value) == 1:
            units = 2 ** (value[0] & 127) if value[0] & 128 else 10 ** value[0]
        if code == TIME_OFFSET and len(value) == 8:
            offset, = struct.unpack(order + "q", value)
    return Interface(link, units, offset)


def record_of(order, content, at, total, interfaces, number):
    """The record of an enhanced packet."""
    place, high, low, captured, length = FIVE[order](content, at + 8)
    if place >= len(interfaces):
        raise Fault(number, "no interface",
                    f"The packet is of interface {place}, and {len(interfaces)} stand before it in its section.")
    link, units, offset = interfaces[place]
    if link not in LINKS:
        raise Fault(number, "interface link type", link_sentence("The interface's", link))
    if captured > MOST_CAPTURED:
        raise Fault(number, "too long", f"The packet claims {captured} bytes: {DAMAGED}")
    if -captured % 4 + captured + 32 > total:
        raise Fault(number, "block length", f"The packet claims {captured} bytes, and its block has {total}: {DAMAGED}")
    time = (high << 32 | low) * 1_000_000_000 // units + offset * 1_000_000_000
    return Record(content[at + 28:at + 28 + captured], length, link, time)


def told(order, content, at, kind, total, interfaces, number):
    """What the head of a block says: the record of a packet, or none, with the interfaces after it."""
    if kind == SECTION_TYPE:
        major, minor = struct.unpack(order + "HH", content[at + 12:at + 16])
        if major != 1:
            raise Fault(number, "section version", f"The section's version is {major}.{minor}, and only 1 is read.")
        return None, []
    if kind == INTERFACE:
        if len(interfaces) >= MOST_INTERFACES:
            raise Fault(number, "too many interfaces", f"A section has at most {MOST_INTERFACES} interfaces.")
        return None, [*interfaces, interface_of(order, content[at + 8:at + total - 4])]
    if kind == PACKET:
        return record_of(order, content, at, total, interfaces, number), interfaces
    return None, interfaces


def records(content):
    """Each packet's record; a Fault at the first block that isn't whole."""
    order, interfaces, at, count, read, size = ">", [], 0, 0, 0, len(content)
    while at < size:
        number, left = count + 1, size - at
        if count == MOST_RECORDS or read == MOST_BLOCKS:
            raise Fault(number, "too many",
                        f"A capture has at most {MOST_RECORDS} packets and {MOST_BLOCKS} blocks: divide it.")
        if left < 12:
            raise Fault(number, "block cut", ENDS)
        kind, total = TWO[order](content, at)
        if kind == SECTION_TYPE:
            order = section_order(content, at)
            if order is None:
                raise Fault(number, "byte order", f"The section's byte-order magic is of neither order: {DAMAGED}")
            kind, total = TWO[order](content, at)
        least = LEAST.get(kind, 12)
        if total % 4 or total < least:
            raise Fault(number, "block length", f"The block claims {total} bytes: {DAMAGED}")
        if left < least - 4:
            raise Fault(number, "block cut", ENDS)
        record, interfaces = told(order, content, at, kind, total, interfaces, number)
        if left < total:
            raise Fault(number, "block cut", ENDS)
        if ONE[order](content, at + total - 4)[0] != total:
            raise Fault(number, "block length", f"The block's two lengths differ: {DAMAGED}")
        at, read = at + total, read + 1
        if record is not None:
            count += 1
            yield record


def passed_over(content):
    """How many packets stand in blocks that aren't read: simple packets, and those of the obsolete form."""
    order, at, count = ">", 0, 0
    while len(content) - at >= 12:
        kind, total = TWO[order](content, at)
        if kind == SECTION_TYPE:
            order = section_order(content, at) or order
            kind, total = TWO[order](content, at)
        if total < 12 or total % 4 or total > len(content) - at:
            break
        count += kind in PASSED_OVER
        at += total
    return count


def block(kind, body):
    """A block of little-endian numbers with this body, filled up to a multiple of 4 bytes."""
    body += bytes(-len(body) % 4)
    return struct.pack("<II", kind, len(body) + 12) + body + struct.pack("<I", len(body) + 12)


def write(frames, link=1):
    """A pcapng capture of these frames: a section, an interface and a packet for each frame."""
    start = block(SECTION_TYPE, struct.pack("<IHHq", 0x1A2B3C4D, 1, 0,
                                            -1)) + block(INTERFACE, struct.pack("<HHI", link, 0, MOST_CAPTURED))
    return start + b"".join(block(PACKET, struct.pack("<IIIII", 0, 0, 0, len(frame), len(frame)) + frame)
                            for frame in frames)
