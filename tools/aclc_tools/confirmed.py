# SPDX-License-Identifier: BSD-3-Clause
"""Keys of packets that the program confirms.

A key is read from a frame by this tool. Then the program gets the same frames, and a list with a rule for each key that
matches this key alone. Where it answers by another rule, it reads the packet in another way.
"""
import struct
from collections import defaultdict

from aclc_tools import answers, capture
from aclc_tools.program import leave

MOST_KEYS = 20_000
MOST_BYTES = 1 << 25
WORDS = "max-words=67108864"
TOO_LARGE = 4
# The fields of a key of IPv4, each byte of an address by itself, and those of a key of IPv6.
IP4, IP6 = struct.Struct(">B4B4BHH"), struct.Struct(">B16s16sHH")

KINDS = {IP4.size: b"ip4", IP6.size: b"ip6"}


def exact_rule(content, number):
    """The line of a rule that matches one key alone."""
    if len(content) == IP4.size:
        protocol, a, b, c, d, e, f, g, h, source, destination = IP4.unpack(content)
        addresses = f"@{a}.{b}.{c}.{d}/32 {e}.{f}.{g}.{h}/32"
    else:
        protocol, one, other, source, destination = IP6.unpack(content)
        addresses = f"@{one.hex(':', 2)}/128 {other.hex(':', 2)}/128"
    return f"{addresses} {source}:{source} {destination}:{destination} {protocol}/255 data={number}\n"


class Confirmed:
    """Frames whose keys are still to be confirmed: by their link types, each with its key and what names it."""

    def __init__(self, room):
        self.room, self.waiting, self.known, self.size, self.count = room, defaultdict(list), set(), 0, 0

    def add(self, name, link, frame, content):
        """Takes a packet with its key, by the name of its capture and its number; asks the program once there are many."""
        self.waiting[link].append((name, frame, content))
        self.known.add(content)
        self.size += len(frame)
        if len(self.known) >= MOST_KEYS or self.size >= MOST_BYTES:
            self.ask()

    def ask(self):
        """Asks the program about all that wait."""
        for link, packets in sorted(self.waiting.items()):
            self.ask_some(packets, link)
            self.count += len(packets)
        self.waiting.clear()
        self.known.clear()
        self.size = 0

    def ask_some(self, packets, link):
        """Asks about packets of one link type, in halves where the table of their keys is too large."""
        numbers = {}
        for _, _, content in packets:
            numbers.setdefault(content, len(numbers) + 1)
        rules = self.room.write(".rules", "".join(exact_rule(*it) for it in numbers.items()).encode())
        frames = self.room.write(".pcap", capture.write([frame for _, frame, _ in packets], link))
        try:
            self.compare(packets, numbers, answers.printed("classify", rules, frames, "marks=on", WORDS))
        except answers.Refusal as refusal:
            if refusal.code != TOO_LARGE or len(packets) < 2:
                raise
            middle = len(packets) // 2
            self.ask_some(packets[:middle], link)
            self.ask_some(packets[middle:], link)
        finally:
            rules.unlink()
            frames.unlink()

    def compare(self, packets, numbers, lines):
        """Ends the tool where the program answers a packet by another key's rule."""
        for at, ((name, _, content), line) in enumerate(zip(packets, lines), 1):
            if line != b"%d %s %d\n" % (at, KINDS[len(content)], numbers[content]):
                leave(f"{name[0]}: packet {name[1]}: this tool reads the packet in another way than the program", 2)
        last = next(lines, b"none").decode().split()
        if last[:2] != ["packets", str(len(packets))]:
            leave(f"the program told {' '.join(last)} of {len(packets)} packets", 2)
