# SPDX-License-Identifier: BSD-3-Clause
"""Captures of either format: their records, or the fault that ends them, and what to do about it."""
import struct

from . import blocks
from .refusal import LINKS, MOST_CAPTURED, Fault, Record, link_sentence

# The first number of a savefile, and how many nanoseconds one of the smaller numbers of its times has.
MAGICS = {0xA1B2C3D4: 1000, 0xA1B23C4D: 1}


def foreign(content):
    """What a file is that isn't a capture."""
    content = content[:4096]
    if content[:2] == b"\x1f\x8b":
        return "It is compressed by gzip: gunzip it first, or give <(zcat FILE) as the capture."
    if content[:4] == b"\x28\xb5\x2f\xfd" or content[:3] == b"BZh" or content[:6] == b"\xfd7zXZ\0":
        return "It is compressed: unpack it first."
    if content[:4] in (b"\x34\xcd\xb2\xa1", b"\xa1\xb2\xcd\x34"):
        return "It is a capture in the modified form of 1999: editcap -F pcap FILE NEW makes a capture of it."
    if content[:8] == b"snoop\0\0\0":
        return "It is a snoop file: editcap -F pcap FILE NEW makes a capture of it."
    if content.lstrip(b" \t\r\n")[:1] in (b"@", b"#"):
        return "It is a rule file: the rule file is named first, and the capture second."
    if content[:4] == b"ACLT":
        return "It is an image: replay reads it, before the capture."
    if all(byte in b"\t\n\r" or 32 <= byte < 127 for byte in content):
        return "It is a text: tcpdump -w FILE writes a capture, and without -w it prints lines."
    return "It is no capture: tcpdump -w FILE writes one."


def begin(content):
    """The byte order of a savefile, its link type, and the unit of its times in nanoseconds."""
    orders = [order for order in "<>" if len(content) >= 4 and struct.unpack(order + "I", content[:4])[0] in MAGICS]
    if not len(content):
        raise Fault(0, "header cut", "The file is empty: tcpdump writes what it holds back when it ends.")
    if len(content) < 24:
        sentence = "The file ends within its header, which has 24 bytes: it was cut." if orders else foreign(content)
        raise Fault(0, "header cut", sentence)
    if not orders:
        raise Fault(0, "magic", foreign(content))
    magic, major, minor, _, _, _, network = struct.unpack(orders[0] + "IHHIIII", content[:24])
    if (major, minor) != (2, 4):
        raise Fault(0, "version", f"Its version is {major}.{minor}, and only 2.4 is read.")
    link = network & 0xFFFF
    if link not in LINKS:
        raise Fault(0, "link type", link_sentence("Its", link))
    return orders[0], link, MAGICS[magic]


def records_with_times(content):
    """Each record with its link type and its time; a Fault at the first one that isn't whole."""
    if content[:4] == blocks.SECTION:
        yield from blocks.records(content)
        return
    order, link, unit = begin(content)
    read_head, size = struct.Struct(order + "IIII").unpack_from, len(content)
    at, count = 24, 0
    while at < size:
        count += 1
        if size - at < 16:
            raise Fault(count, "cut", "The file ends within this record: it is still being written, or was cut.")
        seconds, part, captured, length = read_head(content, at)
        if captured > MOST_CAPTURED:
            raise Fault(count, "too long",
                        f"The record claims {captured} bytes: the file is damaged here, or one before it is.")
        start = at + 16
        at = start + captured
        if at > size:
            raise Fault(count, "cut", "The file ends within this record: it is still being written, or was cut.")
        yield Record(content[start:at], length, link, seconds * 1_000_000_000 + part * unit)


def records(content):
    """Each record's captured bytes and its length on the wire; a Fault at the first one that isn't whole."""
    for record in records_with_times(content):
        yield record.frame, record.length


def write(frames, link=1):
    """A capture of these frames."""
    head = struct.pack("<IHHIIII", 0xA1B2C3D4, 2, 4, 0, 0, MOST_CAPTURED, link)
    return head + b"".join(struct.pack("<IIII", 0, 0, len(frame), len(frame)) + frame for frame in frames)
