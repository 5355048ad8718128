# SPDX-License-Identifier: BSD-3-Clause
"""Lists of routers for tests: packets and words of a small world, damage to a list, and what the converted list
decides.

Each form has a module `forms_NAME` with FORM, GIVEN (the options that name the list), draw(random), which makes a list,
and decide(text, packet), which walks over its text and shares no code with the converter: it gives the number of the
rule that decides, 0 at the list's end, or raises Unknown where it can't tell what a device does.
"""
import random
import unittest
from functools import lru_cache

import converting
from aclc_tools import lists, rule_file
from converting import DATA
from tool import tool

ADDRESSES = {4: [0x0A000000 + it for it in range(12)] + [0x0A000100, 0x0A010000, 0xC0000201, 0],
             6: [(0x20010DB8 << 96) + it for it in range(8)] + [(0x20010DB8 << 96) + (1 << 64), 1]}
PORTS = [0, 21, 22, 23, 53, 79, 80, 81, 100, 442, 443, 444, 1023, 1024, 65535]
PROTOCOLS = {4: (6, 6, 6, 17, 17, 1, 47, 50, 132), 6: (6, 6, 6, 17, 17, 58, 50, 132)}


class Unknown(Exception):
    """The walker can't tell what a device does with this list."""


def decider(read):
    """The function that decides a packet by a text, of a class whose objects read one."""
    kept = lru_cache(8)(read)
    return lambda text, packet: kept(text).decide(packet)


def packet(draw, families=(4,)):
    """Family, source, destination, ports and protocol of a packet."""
    family = draw.choice(families)
    protocol = draw.choice(PROTOCOLS[family])
    ports = (draw.choice(PORTS), draw.choice(PORTS)) if protocol in (6, 17, 132) else (0, 0)
    return family, draw.choice(ADDRESSES[family]), draw.choice(ADDRESSES[family]), ports, protocol


def convert(form, text, **given):
    """The rule file of a list as text."""
    return converting.convert(form, text, **given)[0]


def converted(form, text, **given):
    """The rules that a list is converted to, in order."""
    return converting.rules_of(convert(form, text, **given))


def deciding(form, text, **given):
    """The numbers that decide, each once, in the order of the rules."""
    return list(dict.fromkeys(rule.userdata for rule in converted(form, text, **given)))


def decided(rules, fields):
    """The number of the first rule that matches a packet, or 0."""
    return converting.decided(rules, fields) or 0


def misspell(draw, word):
    """A word with two letters changed in their places, or one left out, doubled or changed."""
    at = draw.randrange(len(word))
    kind = draw.randrange(4)
    if kind == 0 and len(word) > 1:
        at = min(at, len(word) - 2)
        return word[:at] + word[at + 1] + word[at] + word[at + 2:]
    return word[:at] + ["", word[at] * 2, draw.choice("abcxyz0123456789./-")][kind - 1] + word[at + 1:]


def change(draw, line, words):
    """A line with one word misspelled, left out, doubled, or changed to one of the list."""
    blanks = line[:len(line) - len(line.lstrip())]
    parts = line.split()
    if not parts:
        return draw.choice(words)
    at, kind = draw.randrange(len(parts)), draw.randrange(6)
    parts[at:at + 1] = [[misspell(draw, parts[at])], [misspell(draw, parts[at])], [], parts[at:at + 1] * 2,
                        [draw.choice(words)],
                        [parts[at], draw.choice(words)]][kind]
    return (blanks if draw.random() < 0.9 else "") + " ".join(parts)


def damage(draw, text):
    """A list with one line changed, removed, doubled, moved, or cut in two, or without the blanks before it."""
    lines, kind = text.split("\n"), draw.randrange(9)
    at = draw.randrange(len(lines))
    if kind < 4:
        lines[at] = change(draw, lines[at], text.split())
    elif kind == 4:
        del lines[at]
    elif kind == 5:
        lines.insert(draw.randrange(len(lines)), lines[at])
    elif kind == 6:
        lines.insert(draw.randrange(len(lines)), lines.pop(at))
    elif kind == 7 and " " in lines[at].strip():
        words = lines[at].rsplit(" ", draw.randrange(1, 4))
        lines[at:at + 1] = [words[0], draw.choice(["", " "]) + " ".join(words[1:])]
    else:
        lines[at] = lines[at].strip()
    return "\n".join(lines)


class Tally:
    """How many lists were converted and refused, and the faults that were found."""

    def __init__(self):
        self.converted, self.refused, self.faults = 0, 0, []

    def compare(self, module, text, draw, packets):
        """Converts one list, and compares what it decides with what the walker says."""
        try:
            found = converted(module.FORM, text, **module.GIVEN)
        except lists.CantSay as said:
            self.refused += 1
            if len(said.reason.split()) < 4:
                self.faults.append((text, f"no sentence: {said.reason}"))
            return
        self.converted += 1
        for _ in range(packets):
            fields = packet(draw, module.FAMILIES)
            try:
                expected = module.decide(text, fields)
            except Unknown as unknown:
                self.faults.append((text, f"converted, and the walker says: {unknown}"))
                return
            if decided(found, fields) != expected:
                self.faults.append((text, f"{fields}: converted {decided(found, fields)}, walker {expected}"))
                return


def damaged(module, count, seed, packets=25):
    """So many drawn lists, each as drawn and then damaged."""
    draw, tally = random.Random(seed), Tally()
    for _ in range(count):
        text = module.draw(draw)
        tally.compare(module, text, draw, packets)
        if tally.refused > tally.converted + 20:
            tally.faults.append((text, "most drawn lists are refused"))
        tally.compare(module, damage(draw, text), draw, packets)
    return tally


class ListsCase(unittest.TestCase):
    """What tests of all forms ask."""

    def becomes(self, form, given, file, expected):
        """A shipped list becomes the expected rule file, which has no fault."""
        with self.subTest(file=file, given=given):
            text = convert(form, (DATA / file).read_text(), file=file, **given)
            self.assertEqual(text, (DATA / expected).read_text())
            self.assertEqual(rule_file.read_rules(text.encode())[1], [])

    def refuses(self, form, text, number, reason, **given):
        """A list is refused with a number and a reason."""
        with self.subTest(text=text), self.assertRaises(lists.CantSay) as raised:
            convert(form, text, **given)
        self.assertEqual((raised.exception.number, reason in raised.exception.reason), (number, True),
                         raised.exception.reason)

    def tells(self, words, code, said):
        """The command ends with a code, and says something on standard error."""
        done = tool("convert", *words, cwd=DATA)
        self.assertEqual((done[0], bool(done[1])), (code, code == 0), done)
        self.assertIn(said, done[2])

    def loses_nothing(self, module, count, seed):
        """Damaged lists of a form are converted without loss, or refused."""
        with self.subTest(form=module.FORM):
            tally = damaged(module, count, seed, 8)
            self.assertEqual(tally.faults, [])
            self.assertGreater(min(tally.converted, tally.refused), 3)
