# SPDX-License-Identifier: BSD-3-Clause
"""What a rule of a firewall matches so far, as boxes: each condition narrows them."""
from aclc_tools import boxes
from aclc_tools.lists import CantSay

MOST = {"source_ports": 0xFFFF, "destination_ports": 0xFFFF, "protocols": 0xFF}


class Match:
    """Boxes of some families that every condition narrows."""

    def __init__(self, families):
        self.boxes, self.ports_read = [boxes.whole(family) for family in families], False

    def copy(self):
        """The same conditions, to be narrowed apart."""
        other = Match([])
        other.boxes, other.ports_read = self.boxes, self.ports_read
        return other

    def of_family(self, *families):
        """Keeps the packets of some families."""
        self.boxes = [box for box in self.boxes if box.family in families]

    def truth(self, value):
        """A condition that is true or false for all packets."""
        self.boxes = self.boxes if value else []

    def narrow(self, choices):
        """Keeps what is in one of the choices, each a side and its intervals."""
        narrowed = []
        for box in self.boxes:
            for side, intervals in choices:
                met = boxes.both(getattr(box, side), intervals)
                if met:
                    narrowed.append(box._replace(**{side: met}))
        self.boxes = narrowed

    def keep(self, side, intervals, negated=False, family=None):
        """Keeps the packets whose number of a side is in the intervals, or isn't, and all of other families."""
        kept = []
        for box in self.boxes:
            most = MOST.get(side, (1 << boxes.BITS[box.family]) - 1)
            wanted = boxes.without(most, intervals) if negated else boxes.union(intervals)
            met = boxes.both(getattr(box, side), wanted) if family in (None, box.family) else getattr(box, side)
            if met:
                kept.append(box._replace(**{side: met}))
        self.boxes = kept

    def keep_local(self, side, assumption, negated):
        """Keeps the packets whose address is a local one, or isn't."""
        for family in {box.family for box in self.boxes}:
            intervals = assumption.local_addresses(family)
            if intervals is None:
                raise CantSay("which addresses are local is only known by --assume local=ADDRESS")
            self.keep(side, intervals, negated, family)

    def check(self):
        """Only packets with ports have any: a rule that compares ports has to name protocols that have some."""
        ported = all(boxes.both(box.protocols, boxes.PORTED) == box.protocols for box in self.boxes)
        if self.ports_read and not ported:
            raise CantSay("it compares ports of a protocol other than TCP, UDP and SCTP")
