# SPDX-License-Identifier: BSD-3-Clause
"""What both formats of captures share: a record, and why a capture is refused."""
from collections import namedtuple

LINKS = (1, 101, 113, 228, 229, 276)
MOST_CAPTURED = 262144
OTHER_LINKS = {0: "BSD loopback", 9: "PPP", 12: "raw IP of some systems", 105: "802.11", 108: "OpenBSD loopback",
               127: "802.11 radiotap",
               147: "a private link type", 189: "USB", 195: "802.15.4", 239: "netfilter log", 280: "VPP",
               253: "netlink"}
# The captured bytes, the length on the wire, the link type, and the nanoseconds since 1970.
Record = namedtuple("Record", "frame length link time")


class Fault(Exception):
    """Why a capture isn't read: the number of the record, 0 for the header, a kind of the program, and a sentence."""

    def __init__(self, record, kind, sentence):
        super().__init__(kind)
        self.record, self.kind, self.sentence = record, kind, sentence


def link_sentence(whose, link):
    """What to tell of a link type that isn't read."""
    name = f" ({OTHER_LINKS[link]})" if link in OTHER_LINKS else ""
    return f"{whose} link type is {link}{name}; read are Ethernet, raw IP, IPv4, IPv6 and Linux cooked captures."
