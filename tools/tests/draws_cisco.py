# SPDX-License-Identifier: BSD-3-Clause
"""Lists of Cisco's IOS for the program aclc-lists: extended ones."""
import re

import forms_cisco
import routers
from aclc_tools.forms import options_of
from converting import Drawn

# The shipped lists, and the rules that they become.
SHIPPED = (("edge.cisco", "OUTSIDE-IN", "edge-outside.rules"), ("edge.cisco", "101", "edge-101.rules"))


class Walked:
    """What judges a text."""

    def __init__(self, text):
        self.text = text

    def decides(self, fields):
        """The number of the line that decides a packet, or 0."""
        return forms_cisco.decide(self.text, fields)


def options(name, data="line"):
    """The options of a list of this name."""
    return options_of("cisco", "router", list=name, family=4, data=data)


def draw(draw):
    """A configuration with the list 101."""
    lines = forms_cisco.draw(draw).split("\n")
    return Drawn(lines, "\n".join, options("101"), Walked, routers.Unknown)


def has_no_part(text, refused):
    """Whether the refused line is one of another list than 101, or names the device."""
    lines = text.split("\n")[:refused.number]
    begun = [line for line in lines if re.match(r"object-group\b|(ip )?access-list\b", line)]
    if lines[-1].startswith("hostname "):
        return True
    return bool(begun) and not re.match(r"(ip access-list extended|access-list) 101\b|object-group\b", begun[-1])


def damaged(draw, lines):
    """The lines with one of them damaged."""
    return routers.damage(draw, "\n".join(lines)).split("\n")
