# SPDX-License-Identifier: BSD-3-Clause
"""The words of a line of iptables-save, taken as iptables-restore takes them: options of matches and targets.

An option is known once its match or target is named; of two that have one of the same name the later is meant.
"""
import re
from collections import namedtuple

from aclc_tools import iptables_options as known
from aclc_tools import names
from aclc_tools.lists import Malformed

# The seconds of the units of rates; each may be cut short.
UNITS = {"second": 1, "minute": 60, "hour": 3600, "day": 86400}
# An option with its arguments; `of` numbers the match that has it, which is named by `match`.
Option = namedtuple("Option", "name arguments negated of match")


def split(text):
    """The words of a line; a word ends with its quotes, within which a backslash is before what is meant literally."""
    words, word, quoted, at = [], "", False, 0
    while at < len(text):
        letter, at = text[at], at + 1
        if quoted and letter == "\\":
            word, at = word + text[at:at + 1], at + 1
        elif letter == '"' and quoted:
            words.append(word)
            word, quoted = "", False
        elif letter == '"':
            quoted = True
        elif letter in " \t" and not quoted:
            words += [word] if word else []
            word = ""
        else:
            word += letter
    if quoted:
        raise Malformed("its quotes don't end")
    return words + ([word] if word else [])


class Line:
    """The options of a rule, its protocol and its target."""

    def __init__(self, words):
        self.options, self.matches = [], []
        self.protocol, self.target, self.goes, self.reject = None, None, False, None
        self.words, self.at = words, 0
        self.seen = set()
        self.read()

    def read(self):
        """Reads all words."""
        negated = False
        while self.at < len(self.words):
            word = self.words[self.at]
            self.at += 1
            if word != "!":
                self.take(known.SYNONYMS.get(word, word), negated)
                negated = False
            elif negated:
                raise Malformed("two ! follow each other")
            else:
                negated = True
        if negated:
            raise Malformed("no option follows the last !")
        self.check()

    def owner(self, name):
        """Which match has an option: 0 for options of all rules, -1 for the target's, and how many words follow it."""
        if name in known.BASE:
            return 0, None, known.BASE[name]
        for place in range(len(self.matches), 0, -1):
            match = self.matches[place - 1]
            if name in known.MATCHES[match]:
                return place, match, known.MATCHES[match][name]
        if name in known.TARGETS.get(self.target, {}) and not self.goes:
            return -1, None, known.TARGETS[self.target][name]
        implied = known.OF_PROTOCOL.get(self.protocol)
        if implied and implied not in self.matches and name in known.MATCHES[implied]:
            self.matches.append(implied)
            return self.owner(name)
        raise Malformed(f"{name} is no option that belongs to this rule" if name.startswith("-")
                        else f"the word {name} belongs to no option")

    def take(self, name, negated):
        """Takes an option, whose name was read, with its arguments."""
        of, match, count = self.owner(name)
        arguments = self.words[self.at:self.at + count]
        self.at += count
        if len(arguments) < count:
            raise Malformed(f"{name} needs {count} more word{'s'[:count > 1]}, and the line ends")
        if match == "limit" and name == "--limit" and not is_rate(arguments[0]):
            raise Malformed(f"{arguments[0]} is no rate")
        if match == "multiport" and self.protocol not in (6, 17, 33, 132, 136):
            raise Malformed("the match multiport needs a protocol with ports before it, by -p")
        if negated and (name in known.NEVER_NEGATED or of < 0):
            raise Malformed(f"{name} can't be negated")
        if (of, name) in self.seen and name != "-m":
            raise Malformed(f"{name} stands twice")
        self.seen.add((of, name))
        if name == "-m":
            self.add_match(arguments[0])
        elif name in ("-j", "-g"):
            self.take_target(name, arguments[0])
        elif name == "--reject-with":
            self.reject = arguments[0]
        elif of >= 0:
            if name == "-p" and not negated:
                self.protocol = protocol(arguments[0])
            self.options.append(Option(name, arguments, negated, of, match))

    def add_match(self, name):
        """Loads a match, whose options are known after it."""
        name = known.MATCH_SYNONYMS.get(name, name)
        if name not in known.MATCHES:
            raise Malformed(f"the match {name} isn't known")
        self.matches.append(name)

    def take_target(self, name, target):
        """Takes -j or -g with its target."""
        if self.target is not None:
            raise Malformed("it has two targets")
        self.target, self.goes = target, name == "-g"

    def check(self):
        """Refuses matches without the options or the protocol that they need."""
        for place, name in enumerate(self.matches, 1):
            own = [it for it in self.options if it.of == place]
            if name in known.NEEDING and not own:
                raise Malformed(f"the match {name} has no option")
            if name == "multiport" and len(own) > 1:
                raise Malformed("the match multiport has two options")
            number = next((it for it, match in known.OF_PROTOCOL.items() if match == name), None)
            if number and self.matches.count(name) > 1:
                raise Malformed(f"the match {name} stands twice")
            if number and self.protocol != number:
                raise Malformed(f"the match {name} needs its protocol before it, by -p")
        addresses = [it for it in self.options if it.name in ("-s", "-d")]
        if any("," in it.arguments[0] for it in addresses) and any(it.negated for it in addresses):
            raise Malformed("one of -s and -d has several addresses, and one has ! before it")


def is_rate(text):
    """Whether a text is a rate of the match limit: at most 10,000 a second."""
    found = re.fullmatch(r"([0-9]+)/([a-z]+)", text)
    seconds = next((UNITS[it] for it in UNITS if found and it.startswith(found.group(2))), 0)
    return seconds > 0 and 0 < int(found.group(1)) <= 10000 * seconds


def protocol(text):
    """The number of a protocol; 0 is any."""
    number = 0 if text == "all" else names.firewall_protocol(text)
    if number is None:
        raise Malformed(f"the protocol {text} isn't known")
    return number
