# SPDX-License-Identifier: BSD-3-Clause
"""What is assumed of packets beside their bytes, so that matches on it are true or false.

The text is `in=eth0,out=eth1,state=new,local=10.0.0.1`, with any of these; `local` may come several times, and is told
once for each address of the machine. 127.0.0.0/8 and ::1 are always local.
"""
import ipaddress
from collections import namedtuple

from aclc_tools import boxes

STATES = ("new", "established", "related", "invalid", "untracked")
LOOPBACK = {4: [(0x7F000000, 0x7FFFFFFF)], 6: [(1, 1)]}


class Assumption(namedtuple("Assumption", "inward outward state local")):
    """The names of both interfaces, the state, and the local addresses as texts; None where nothing is assumed."""

    def interface(self, option):
        """The interface by which packets come (`in`) or leave (`out`), or None."""
        return self.inward if option == "in" else self.outward

    def local_addresses(self, family):
        """The intervals of the local addresses of a family, or None."""
        if not self.local:
            return None
        own = [ipaddress.ip_address(it) for it in self.local]
        return boxes.union(LOOPBACK[family] + [(int(it), int(it)) for it in own if it.version == family])

    def told(self):
        """What is assumed, as it is given."""
        parts = [("in", self.inward), ("out", self.outward), ("state", self.state),
                 *(("local", it) for it in self.local or ())]
        return ",".join(f"{key}={value}" for key, value in parts if value)


NOTHING = Assumption(None, None, None, None)


def of(options):
    """What options say of it; nothing, where they are of a tool that doesn't ask."""
    return getattr(options, "assume", None) or NOTHING


def parse(text):
    """The assumption of a text; ValueError with a sentence where it is none."""
    found = {"in": None, "out": None, "state": None, "local": ()}
    for part in text.split(",") if text else ():
        key, sign, value = part.partition("=")
        if key not in found or not sign or not value or value != value.strip():
            raise ValueError(f"{part or 'nothing'} is no assumption: in=, out=, state= or local= begins one")
        if key == "state" and value not in STATES:
            raise ValueError(f"{value} is no state: it is {', '.join(STATES)}")
        if key == "local":
            found[key] += (address(value),)
        elif found[key]:
            raise ValueError(f"{key} is assumed twice")
        else:
            found[key] = value
    return Assumption(found["in"], found["out"], found["state"], found["local"] or None)


def address(text):
    """An address as it is usually written."""
    try:
        return str(ipaddress.ip_address(text))
    except ValueError:
        raise ValueError(f"{text} is no address") from None
