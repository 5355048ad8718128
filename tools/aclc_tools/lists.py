# SPDX-License-Identifier: BSD-3-Clause
"""What a reader makes of a list of another program: chains of rules whose first match decides.

A form plugs in as one module with a function `convert(lines, options)`, and as a line in FORMS of `forms`. The function
reads the lines of the list, and gives a `Read`, or a plain tuple of the same three:

- the chains by name. A `Chain` has its rules, and a policy (a rule without boxes) where packets come to it by
  themselves; a policy of PASS gives no answer at the list's end;
- the name of the chain that is meant;
- the families (4, 6) of the packets that come to it.

A `Read` may have asides: what else in the file decides on these packets.

A `Rule` matches the packets of its boxes, and has a verdict; JUMP and GO have a target, the name of a chain. What a
rule says beyond that is its reason, a sentence why it can't be said; such a rule is refused, or left out leniently. Its
boxes then hold all packets that it may match, and it has none if nothing is known of them. A reader raises CantSay for
what isn't the form at all. Readers turn nothing into rules of aclc: `flatten` does that for all forms.
"""
from collections import namedtuple

Rule = namedtuple("Rule", "number text boxes verdict target reason")
Chain = namedtuple("Chain", "name rules policy")
# What else decides on a packet's way: whether it can drop one, and a sentence.
Aside = namedtuple("Aside", "number text reason drops")
ACCEPT, DROP, REJECT, JUMP, GO, RETURN, PASS = "accept", "drop", "reject", "jump", "go", "return", "pass"
DECIDING = (ACCEPT, DROP, REJECT)


class Read(namedtuple("Read", "chains chain families")):
    """The chains of a list, the one that is meant, and its families; and asides."""

    asides = ()

    def beside(self, asides):
        """The same with these asides."""
        self.asides = tuple(asides)
        return self


class CantSay(Exception):
    """What a list of aclc can't say, with the number and the text of its rule, and what is told beside it."""

    def __init__(self, reason, number=0, text="", notes=()):
        super().__init__(reason)
        self.reason, self.number, self.text, self.notes = reason, number, text, notes


class Malformed(CantSay):
    """What is no lawful line of its form, wherever in the list it stands."""


def printable(text):
    """A text on one line, without characters that change what a terminal shows. A byte that isn't UTF-8 is a surrogate."""
    return "".join(it if it.isprintable() else escaped(ord(it)) for it in " ".join(text.split()))


def escaped(number):
    """A character by its number."""
    return f"\\x{number - 0xDC00 if 0xDC80 <= number <= 0xDCFF else number:02x}"
