# SPDX-License-Identifier: BSD-3-Clause
"""Lists that the command lines of clouds print as JSON: read so that nothing in them is passed over.

A name that stands twice, one that isn't known, and a value of another kind end the conversion.
"""
import json

from aclc_tools import boxes
from aclc_tools.cisco_words import is_number
from aclc_tools.lists import CantSay

INGRESS, EGRESS = "ingress", "egress"


def unique(pairs):
    """An object whose names differ."""
    found = dict(pairs)
    if len(found) != len(pairs):
        names = [name for name, _ in pairs]
        raise CantSay(f"the name {next(name for name in names if names.count(name) > 1)} stands twice in one object")
    return found


def load(lines):
    """The value of a JSON text, in which all characters are whole."""
    try:
        value = json.loads("\n".join(lines), object_pairs_hook=unique)
        json.dumps(value, ensure_ascii=False).encode()
        return value
    except json.JSONDecodeError as error:
        text = lines[error.lineno - 1] if error.lineno <= len(lines) else ""
        raise CantSay(f"the text isn't JSON: {error.msg.lower()} in column {error.colno}", error.lineno, text) from None
    except UnicodeEncodeError:
        raise CantSay("the text is JSON with half a character, as \\ud800 alone is") from None
    except (RecursionError, ValueError):
        raise CantSay("the text is JSON that is nested too deep, or has a number that is too long") from None


def part(value, name, kind, default=None):
    """The value of a name in an object, of a kind; where it isn't there the default, and without one a refusal."""
    if not isinstance(value, dict):
        raise CantSay(f"an object with the name {name} should stand where {short(value)} does")
    found = value.get(name)
    if found is None and default is not None:
        return default
    if not isinstance(found, kind) or isinstance(found, bool) and kind is not bool:
        raise CantSay(f"the value of {name} is {short(found)}, which isn't of its kind" if name in value
                      else f"the name {name} is missing")
    return found


def only(value, names):
    """An object without other names than these."""
    if not isinstance(value, dict):
        raise CantSay(f"an object should stand where {short(value)} does")
    for name in value:
        if name not in names:
            raise CantSay(f"the name {name} isn't known at this place")
    return value


def short(value):
    """A value as JSON, cut."""
    text = json.dumps(value)
    return text if len(text) <= 60 else text[:60] + ".."


def number(text, most, what):
    """A number that is written as text."""
    if not is_number(text) or int(text) > most:
        raise CantSay(f"{text or 'nothing'} is no {what}")
    return int(text)


def sided(family, near, source_ports, destination_ports, protocols, inward):
    """The box of what comes from addresses, or goes to them."""
    box = boxes.Box(family, *boxes.whole(family)[1:3], source_ports, destination_ports, protocols)
    return box._replace(source=near) if inward else box._replace(destination=near)


def direction(options, names):
    """Which direction is meant: the first or the second of two names."""
    asked = (options.chain or "").lower()
    if asked not in [name.lower() for name in names]:
        raise CantSay(f"which direction is meant isn't said: --chain {names[0]} or --chain {names[1]}")
    return [name.lower() for name in names].index(asked)


def chosen(found, asked, what):
    """The one of some lists that is asked for by one of its names, or that is alone."""
    known = ", ".join(names[0] for names, _ in found)
    meant = [value for names, value in found if asked is None or asked in names]
    if not found:
        raise CantSay(f"there is no {what} in it")
    if not meant:
        raise CantSay(f"there is no {what} {asked}; there are: {known}")
    if len(meant) > 1:
        raise CantSay(f"which {what} is meant isn't said: --list takes one of {known}")
    return meant[0]
