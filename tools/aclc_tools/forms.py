# SPDX-License-Identifier: BSD-3-Clause
"""The forms of lists that rule files are made of; `lists` says how one plugs in."""
import argparse
from collections import namedtuple
from pathlib import Path

from aclc_tools import (asa, assume, aws, azure, cisco, flatten, iosxr, iptables, juniper, l3fwd, lists, nftables,
                        nxos)

# Each form's reader, what numbers its rules, what its lists are called, and the verdict of a list's unsaid end.
Form = namedtuple("Form", "reader what kind end", defaults=("line", "list", lists.DROP))
FORMS = {
    "iptables": Form(iptables, kind="chain", end=None),
    "nft": Form(nftables, "handle", "chain", None),
    "cisco": Form(cisco),
    "asa": Form(asa),
    "nxos": Form(nxos),
    "iosxr": Form(iosxr),
    "juniper": Form(juniper, kind="filter"),
    "aws": Form(aws, "rule"),
    "azure": Form(azure, "priority"),
    "l3fwd": Form(l3fwd),
}
MOST_DATA = 0xFFFFFFFF
Converted = namedtuple("Converted", "lines left_out notes flattener families")


def data_of(text):
    """What becomes userdata: line, verdict, or a number."""
    if text in ("line", "verdict"):
        return text
    if not (text.isascii() and text.isdigit() and int(text) <= MOST_DATA):
        raise argparse.ArgumentTypeError(f"{text} is neither line nor verdict nor a number of at most {MOST_DATA}")
    return int(text)


def assumed(text):
    """An assumption, or a usage error."""
    try:
        return assume.parse(text)
    except ValueError as error:
        raise argparse.ArgumentTypeError(str(error)) from None


def add_options(parser):
    """The options that say which list of a file is meant, and how it is converted."""
    for name in ("--chain", "--table", "--list"):
        parser.add_argument(name)
    parser.add_argument("--family", type=int, choices=(4, 6))
    parser.add_argument("--lenient", action="store_true")
    parser.add_argument("--unproved", action="store_true")
    parser.add_argument("--data", type=data_of, default="line")
    parser.add_argument("--assume", type=assumed, default=assume.NOTHING)


def options_of(form, file, **given):
    """The options of a file with their defaults, and those that are given."""
    parser = argparse.ArgumentParser(add_help=False)
    add_options(parser)
    return argparse.Namespace(**{**vars(parser.parse_args([])), "form": form, "file": file, **given})


def complete(options):
    """The options, with defaults for those that aren't there."""
    return argparse.Namespace(**{**vars(options_of(options.form, options.file)), **vars(options)})


def head_of(options, form, chain):
    """The first comment of a rule file."""
    data = {"line": f"the {form.what} that decides",
            "verdict": "1 where a rule accepts, 2 where it drops, 3 where it rejects"}
    head = (f"Made by aclc convert {options.form}, unproved, of {Path(options.file).name}, {chain}. "
            f"Userdata is {data.get(options.data, options.data)}.")
    return head + (f"\nAssumed: {assume.of(options).told()}." if assume.of(options).told() else "")


def end_of(form, data):
    """The verdict that is written for a list's unsaid end: none where userdata is a line, since it has none."""
    return None if data == "line" else form.end


def converted(options, text, tracks=False):
    """The rule file of a list, with all that is told of it; CantSay where one can't be said. If it tracks what is left
    out, each box also has the rules that may decide it, and the end of the list is written."""
    options, form = complete(options), FORMS[options.form]
    read = form.reader.convert(text.split("\n"), options)
    read = read if isinstance(read, lists.Read) else lists.Read(*read)
    if read.chain not in read.chains:
        raise lists.CantSay(f"there is no {form.kind} {read.chain}; there are: {', '.join(read.chains) or 'none'}")
    notes = [(it.number, it.text, it.reason) for it in read.asides]
    dropping = next((it for it in read.asides if it.drops), None)
    if dropping and not options.lenient:
        raise lists.CantSay(f"{dropping.reason}; --lenient leaves it out", dropping.number, dropping.text,
                            [note for note, it in zip(notes, read.asides) if it is not dropping])
    beside = [lists.Rule(it.number, it.text, [], lists.DROP, None, it.reason) for it in read.asides if it.drops]
    end = form.end if tracks else end_of(form, options.data)
    flattener = flatten.Flattener(read.chains, options.lenient, end, tracks, beside)
    flattener.list_of(read.chain, read.families)
    lines = list(flatten.write(flattener, head_of(options, form, read.chain), form.what, options.data))
    return Converted(lines, [rule for _, rule in sorted(flattener.left_out.items())], notes + list(flattener.notes()),
                     flattener, read.families)


def rule_file_of(options, text):
    """The lines of the rule file of a list, and the rules that were left out; CantSay where one can't be said."""
    return converted(options, text)[:2]
