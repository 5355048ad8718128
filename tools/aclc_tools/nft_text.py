# SPDX-License-Identifier: BSD-3-Clause
"""Rules of nft as texts, nearly as nft writes them, and what any JSON is made of."""
import json

from aclc_tools.lists import CantSay, Malformed

# What a reader meets where the JSON isn't what nft writes.
SHAPES = (KeyError, TypeError, ValueError, AttributeError, IndexError, RecursionError)


def one_of(value):
    """The name of a statement, an expression or an object, and what it says: a text, or an object with one name."""
    if isinstance(value, str):
        return value, None
    if not isinstance(value, dict) or len(value) != 1:
        raise Malformed("its JSON isn't what nft writes")
    return next(iter(value.items()))


def plain(value):
    """A value as JSON."""
    return json.dumps(value, ensure_ascii=False)


def value_text(value):
    """A value as nft writes it."""
    name, said = one_of(value) if isinstance(value, dict) else (None, value)
    if name == "prefix":
        return f"{said['addr']}/{said['len']}"
    if name == "range":
        return "-".join(map(value_text, said))
    if name == "set":
        return "{ " + ", ".join(map(value_text, said if isinstance(said, list) else [said])) + " }"
    if name == "concat":
        return " . ".join(map(value_text, said))
    if name == "elem":
        return value_text(said["val"])
    if isinstance(said, list) and len(said) == 2 and isinstance(said[1], dict) and name is None:
        return f"{value_text(said[0])} : {statement_text(said[1])}"
    if isinstance(said, list):
        return ", ".join(map(value_text, said))
    return left_text(value) if name else said if isinstance(said, str) else plain(said)


def left_text(left):
    """What is compared, as nft writes it."""
    name, said = one_of(left)
    if name == "payload" and "field" in said:
        return f"{said['protocol']} {said['field']}"
    if name == "concat":
        return " . ".join(map(left_text, said))
    if name == "fib":
        flags = said["flags"] if isinstance(said["flags"], list) else [said["flags"]]
        return f"fib {' . '.join(flags)} {said['result']}"
    return f"{name} {said['key']}" if name in ("meta", "ct") else plain(left)


def statement_text(statement):
    """A statement as nft writes it, nearly."""
    name, said = one_of(statement)
    if name == "match":
        operator = "" if said["op"] in ("==", "in") else said["op"] + " "
        return f"{left_text(said['left'])} {operator}{value_text(said['right'])}"
    if name == "vmap":
        return f"{left_text(said['key'])} vmap {value_text(said['data'])}"
    if name in ("jump", "goto"):
        return f"{name} {said['target']}"
    if name == "log" and said and "prefix" in said:
        return f"log prefix {plain(said['prefix'])}"
    return name if said is None or name in ("counter", "log", "reject", "limit") else plain(statement)


def rule_text(statements):
    """The statements of a rule, as nft writes them where they can be read so."""
    try:
        return " ".join(map(statement_text, statements))
    except (CantSay, *SHAPES):
        return plain(statements)
