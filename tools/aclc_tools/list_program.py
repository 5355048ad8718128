# SPDX-License-Identifier: BSD-3-Clause
"""The proved program aclc-lists, which is asked first for the rules of a list of iptables, nft or Cisco's IOS.

What it answers is the answer, and so is what it refuses. The readers of the tools, which aren't proved, read such a list
only if it is refused, or the program isn't there, and the user says --unproved. The program gets the whole file; the
tools choose its word, by the family, and the chain or the list, if none is named.
"""
import argparse
import json
import re
import subprocess
from collections import namedtuple
from pathlib import Path

from aclc_tools import assume, iptables, lists
from aclc_tools.lists import printable
from aclc_tools.program import NOTES, leave, list_program, note

# The forms that it reads, and what its lists are called.
READS = {"iptables": "chain", "nft": "chain", "cisco": "list"}
DONE, REFUSED = 0, 3
VERDICTS = {1: lists.ACCEPT, 2: lists.DROP, 3: lists.REJECT}
RULE = re.compile(r"(@\S+\t.*)\tpri=(\d+) cat=65535 data=(\d+)")
NFT_WORDS = {"ip": {4: "nft"}, "ip6": {6: "nft6"}, "inet": {4: "nft", 6: "nft6"}}
# What came of a list: the lines of the program's rule file, or None and what it said as it refused.
Written = namedtuple("Written", "lines message")
# A rule of its answer: its columns, the number of the line that decides, the verdict, and the text of the line.
Answered = namedtuple("Answered", "columns number verdict text")


class Refused(Exception):
    """What the program said as it refused a list, or why it can't be asked."""

    def __init__(self, message):
        super().__init__(message)
        self.message = message


def only(names, what, option):
    """The one name of several."""
    if len(names) != 1:
        there = f"{option} {f' or {option} '.join(names)}" if names else "there is none"
        raise Refused(f"which {what} is meant isn't said: {there}")
    return names[0]


def of_iptables(options, text):
    """The words for a list of iptables: those of the family, and the chain."""
    if options.table not in (None, "filter"):
        raise Refused(f"aclc-lists reads the table filter alone, and not {options.table}")
    lines, named = text.split("\n"), options.chain
    if not named:
        inside = re.search(r"(?ms)^\*filter[ \t\r]*$(.*?)(?:^COMMIT\b|\Z)", text)
        based = re.findall(r"(?m)^:(\S+) +(?:ACCEPT|DROP)\b", inside.group(1) if inside else "")
        filled = set(re.findall(r"(?m)^(?:\[\d+:\d+\] )?-A (\S+)", inside.group(1) if inside else ""))
        named = only([it for it in based if it in filled] or based, "chain", "--chain")
    try:
        family = iptables.family_of(lines, options.family)
    except lists.CantSay as said:
        raise Refused(said.reason) from None
    return [("ip6tables" if family == 6 else "iptables", named)]


def of_nft(options, text):
    """The words for a ruleset of nft: a word for each family of the chain's table."""
    try:
        objects = json.loads(text)["nftables"]
        chains = [it["chain"] for it in objects if "chain" in it]
        filled = {(it["rule"]["family"], it["rule"]["table"], it["rule"]["chain"]) for it in objects if "rule" in it}
        keys = [(it["family"], it["table"], it["name"]) for it in chains if "hook" in it and it["family"] in NFT_WORDS]
    except (ValueError, TypeError, KeyError, AttributeError):
        raise Refused("it isn't the JSON that nft -j list ruleset writes") from None
    fits = [key for key in keys if options.chain in (None, key[2]) and options.table in (None, key[1])
            and options.family in (None, *NFT_WORDS[key[0]]) and (options.chain or key in filled)]
    if options.chain and not fits:
        return [("nft6" if options.family == 6 else "nft", options.chain)]
    family, _, name = fits[0] if len(fits) == 1 else only([" ".join(it) for it in fits], "chain", "--chain").split(" ")
    words = {it: word for it, word in NFT_WORDS[family].items() if options.family in (None, it)}
    if sum(key[2] == name and set(NFT_WORDS[key[0]]) & set(words) != set() for key in keys) > 1:
        raise Refused(f"several tables have a chain {name}, and aclc-lists is told its name alone")
    return [(word, name) for word in words.values()]


def of_cisco(options, text):
    """The words for a list of IOS."""
    named = options.list or options.chain
    if not named:
        found = re.findall(r"(?m)^[ \t]*(?:ip access-list (?:extended|standard)|access-list|ipv6 access-list) (\S+)", text)
        named = only(list(dict.fromkeys(found)), "list", "--list")
    return [("cisco", named)]


MEANT = {"iptables": of_iptables, "nft": of_nft, "cisco": of_cisco}


def head_of(options, word, chain):
    """The first comment of a rule file."""
    data = {"line": f"the {'handle' if options.form == 'nft' else 'line'} that decides",
            "verdict": "1 where a rule accepts, 2 where it drops, 3 where it rejects"}
    made = (f"Made by aclc-lists {word} of {Path(options.file).name}, {chain}. "
            f"Userdata is {data.get(options.data, options.data)}.")
    yield f"# {printable(made)}"
    if assume.of(options).told():
        yield f"# {printable(f'Assumed: {assume.of(options).told()}.')}"


def written(options, text, word, chain):
    """What the program makes of a list; what isn't the list's own fault ends the tool."""
    told = assume.of(options).told()
    data = options.data if options.data in ("line", "verdict") else "line"
    words = [word, "/dev/stdin", chain, f"data={data}"] + [f"assume={told}"] * bool(told)
    done = subprocess.run([str(list_program()), *words], input=text.encode(errors="surrogateescape"),
                          stdout=subprocess.PIPE, stderr=subprocess.PIPE)
    said = done.stderr.decode(errors="replace").rstrip("\n")
    if done.returncode == REFUSED and said:
        return Written(None, said)
    if done.returncode != DONE:
        return leave(f"{options.file}: aclc-lists ended with {done.returncode}: {said or 'no message'}", 2)
    # What it says beside its answer is told once, though it is asked for lines and for verdicts.
    if said and f"{options.file}: {said}" not in NOTES:
        note(f"{options.file}: {said}")
    lines = [f"# {printable(line[2:])}" if line.startswith("#") else line
             for line in done.stdout.decode(errors="surrogateescape").split("\n")[:-1]]
    if data != options.data:
        lines = [line if line.startswith("#") else re.sub(r"data=\d+\Z", f"data={options.data}", line) for line in lines]
    return Written(lines, said)


def rule_file_of(options, text):
    """The lines of the rule file of a list by the program, or None where the tool's own reader is to read it: a form
    that the program doesn't read, or what the user says of it. Refused where neither is so."""
    if options.form not in READS:
        return None
    try:
        if not list_program():
            raise Refused("the proved program aclc-lists isn't there")
        found = []
        for word, chain in MEANT[options.form](options, text):
            done = written(options, text, word, chain)
            if done.lines is None:
                raise Refused(done.message)
            found += [*head_of(options, word, chain), *done.lines]
        return found
    except Refused as refused:
        if not getattr(options, "unproved", False):
            raise
        note(f"{options.file}: read by this tool's own reader, which isn't proved: {refused.message}")
        return None


def answered(options, text):
    """The rules of a list by the program, or None as above: it is asked for lines, and for verdicts."""
    by_line = rule_file_of(options_with(options, "line"), text)
    by_verdict = by_line and rule_file_of(options_with(options, "verdict"), text)
    if not by_verdict:
        return None
    found, said, last = [], "", {}
    verdicts = (line for line in by_verdict if not line.startswith("#"))
    for line in by_line:
        if line.startswith("#"):
            said = line[2:]
            continue
        one, other = RULE.fullmatch(line), RULE.fullmatch(next(verdicts, ""))
        if not one or not other or one.groups()[:2] != other.groups()[:2] or int(other.group(3)) not in VERDICTS:
            return leave(f"{options.file}: aclc-lists writes a line that isn't read: {line}", 2)
        family = 6 if one.group(1).count(":") > 2 else 4
        if int(one.group(2)) >= last.get(family, 1 << 32):
            return leave(f"{options.file}: aclc-lists writes rules in another order than their priorities", 2)
        last[family] = int(one.group(2))
        found.append(Answered(one.group(1), int(one.group(3)), VERDICTS[int(other.group(3))], said))
    if next(verdicts, None) is not None:
        return leave(f"{options.file}: aclc-lists writes other rules for lines than for verdicts", 2)
    return found


def options_with(options, data):
    """The options with this userdata."""
    return argparse.Namespace(**{**vars(options), "data": data})
