# SPDX-License-Identifier: BSD-3-Clause
"""A capture that comes while it is read, cut into whole captures: each has the file's start, and what came in a time.

Only whole records of a savefile are cut off, and whole blocks of a pcapng file, whose start is that of the section with
its interfaces so far.
"""
import os
import select
import signal
import struct
import time
from collections import namedtuple

from aclc_tools import blocks, capture
from aclc_tools.refusal import MOST_CAPTURED, Fault

READ_AT_ONCE = 1 << 20
# How many bytes are held before what came is handed on within an interval.
MOST_HELD = 1 << 26
# No block of a packet has more, nor any other one that is written to a pipe.
MOST_BLOCK = 1 << 24
# How long what writes the capture may take to end after a signal that both got.
LAST_WAIT = 0.3
CUT = "The capture ends within this packet, which isn't counted."
# When an interval began, a capture of packets that came in it, and whether these are the last ones of it.
Piece = namedtuple("Piece", "begins content is_last")


class Cut:
    """What came of a capture and wasn't handed on: the start of a file, whole records after it, and a rest that isn't
    whole. A fault is that of the rest."""

    def __init__(self):
        self.rest, self.start, self.next_start, self.whole, self.held = bytearray(), b"", b"", [], 0
        self.order, self.count, self.fault = None, 0, None

    def add(self, content):
        """Takes bytes that came."""
        self.rest += content
        try:
            if blocks.SECTION in (self.rest[:4], self.next_start[:4]):
                self.add_whole(self.block_size)
            elif self.begun():
                self.add_whole(self.record_size)
        except Fault as fault:
            self.fault = fault

    def begun(self):
        """Whether the header of a savefile came, which then is the start."""
        if not self.start and len(self.rest) >= 24:
            self.order = capture.begin(bytes(self.rest[:24]))[0]
            self.start = self.next_start = bytes(self.rest[:24])
            del self.rest[:24]
        return bool(self.start)

    def add_whole(self, size_at):
        """Moves what is whole; size_at tells the length of what begins at a place, or None if it isn't known yet."""
        at = 0
        try:
            while True:
                size = size_at(at)
                if size is None or at + size > len(self.rest):
                    return
                self.keep(bytes(self.rest[at:at + size]))
                at += size
        finally:
            del self.rest[:at]

    def record_size(self, at):
        """How long a record is."""
        if len(self.rest) - at < 16:
            return None
        captured, = struct.unpack_from(self.order + "I", self.rest, at + 8)
        if captured > MOST_CAPTURED:
            raise Fault(self.count + 1, "too long", f"The record claims {captured} bytes: the capture is damaged here.")
        return 16 + captured

    def block_size(self, at):
        """How long a block is, whose section may begin with it."""
        if len(self.rest) - at < 12:
            return None
        if self.rest[at:at + 4] == blocks.SECTION:
            self.order = blocks.section_order(self.rest, at)
            if self.order is None:
                raise Fault(self.count + 1, "byte order", "The section's byte-order magic is of neither order.")
        total, = struct.unpack_from(self.order + "I", self.rest, at + 4)
        if total % 4 or not 12 <= total <= MOST_BLOCK:
            raise Fault(self.count + 1, "block length",
                        f"The block claims {total} bytes, and --follow reads up to {MOST_BLOCK}.")
        return total

    def keep(self, content):
        """Takes a whole record or block."""
        self.whole.append(content)
        self.held += len(content)
        is_block = self.next_start[:4] in (b"", blocks.SECTION)
        kind = struct.unpack_from(self.order + "I", content)[0] if is_block else None
        if kind == blocks.SECTION_TYPE:
            self.next_start = content
        elif kind == blocks.INTERFACE:
            self.next_start += content
        self.count += kind in (None, blocks.PACKET)

    def take(self):
        """The capture of what is whole, or None where no file has begun."""
        content = self.start + b"".join(self.whole)
        self.start, self.whole, self.held = self.next_start, [], 0
        return content or None

    def end(self):
        """Notes that nothing more comes."""
        if self.rest and not self.fault:
            self.fault = Fault(self.count + 1, "cut", CUT)
        elif not self.start and not self.whole and not self.fault:
            self.fault = Fault(0, "header cut", "Nothing came.")


class Stop:
    """Tells whether SIGINT or SIGTERM came. A second signal does what it usually does."""

    def __init__(self):
        self.reads, self.writes = os.pipe()
        self.usual = {number: signal.signal(number, self.came) for number in (signal.SIGINT, signal.SIGTERM)}
        self.is_meant = False

    def came(self, _, __):
        """Ends the wait for what comes."""
        self.is_meant = True
        os.write(self.writes, b"\n")
        for number, usual in self.usual.items():
            signal.signal(number, usual)


def pieces(file, interval, cut, stop):
    """The pieces of a capture: at the end of each interval, in nanoseconds, and at its own end or after a signal."""
    begins, until = time.time_ns(), time.monotonic() + interval / 1e9
    signals, has_ended = [stop.reads], False
    while not has_ended:
        ready, _, _ = select.select([file, *signals], [], [], max(0, until - time.monotonic()))
        if stop.reads in ready:
            signals, until = [], time.monotonic() + LAST_WAIT
        if file in ready:
            content = os.read(file, READ_AT_ONCE)
            cut.add(content)
            has_ended = not content or cut.fault is not None
        is_over = time.monotonic() >= until
        has_ended = has_ended or is_over and not signals
        if is_over or has_ended or cut.held > MOST_HELD:
            yield Piece(begins, cut.take(), is_over or has_ended)
        if is_over:
            begins, until = time.time_ns(), time.monotonic() + interval / 1e9
    if not stop.is_meant:
        cut.end()
