# SPDX-License-Identifier: BSD-3-Clause
"""Commands over small files, runs of them with a fault, and what is right of a run."""
import collections
import os
import struct
import subprocess
import sys
from pathlib import Path

HERE = Path(__file__).resolve().parent
REPOSITORY = HERE.parent.parent
PROGRAM = os.environ.get("ACLC", str(REPOSITORY / "crates" / "aclc" / "out" / "aclc"))
RECORDS = 1500
# A script has at most this many bytes.
MOST_SCRIPT = 16_777_216
MESSAGES = {1: b"", 7: b"aclc: read fault\n", 8: b"aclc: write fault\n", 9: b"aclc: out of memory\n"}

Run = collections.namedtuple("Run", "code out err made")
# What is counted of a run, and the parts that it stands for.
COLUMNS = {"code": ["code"], "output": ["out", "made"], "message": ["err"]}


def example(name, *words):
    """What a program of this folder's neighbours writes."""
    return subprocess.run([REPOSITORY / "examples" / name, *words], stdout=subprocess.PIPE, check=True).stdout


class Commands:
    """The seven commands, their files in a folder, and what each leaves where nothing fails."""

    def __init__(self, folder):
        self.folder, self.image = Path(folder), Path(folder) / "new.image"
        rules = example("lists", "firewall", "40", "1")
        (self.folder / "list.rules").write_bytes(rules)
        (self.folder / "edited.rules").write_bytes(b"".join(rules.splitlines(True)[::-1]))
        capture = example("packets", self.folder / "list.rules", str(RECORDS), "1")
        (self.folder / "many.pcap").write_bytes(capture)
        self.ends = ends_of_records(capture)
        (self.folder / "fields.script").write_bytes((REPOSITORY / "examples" / "own_layout.script").read_bytes() * 4)
        with open(self.folder / "long.script", "wb") as script:
            script.truncate(MOST_SCRIPT + 1)
        options = ["categories=4", "stats=on"]
        self.words = {
            "classify": ["classify", "list.rules", "many.pcap", *options],
            "build": ["build", "list.rules", "new.image"],
            "replay": ["replay", "old.image", "many.pcap", *options],
            "bench": ["bench", "1", "40", "300"],
            "audit": ["audit", "list.rules", "categories=16"],
            "compare": ["compare", "list.rules", "edited.rules"],
            "session": ["session", "fields.script"],
        }
        old = self.run(["build", "list.rules", "old.image"])
        self.whole = {name: self.run(words) for name, words in self.words.items()}
        for name, run in [("build", old), *self.whole.items()]:
            if run.code or run.err or not (run.out or name == "build"):
                sys.exit(f"run: {name} ends with {run.code}: {run.err.decode()}")

    def run(self, words, before=(), made=None, **more):
        """Runs the program, with these words before it, over an image that is `made`, or isn't there."""
        self.image.unlink(missing_ok=True)
        if made is not None:
            self.image.write_bytes(made)
        done = subprocess.run([*before, PROGRAM, *words], cwd=self.folder, stdin=subprocess.DEVNULL,
                              stdout=more.pop("stdout", subprocess.PIPE), stderr=more.pop("stderr", subprocess.PIPE), **more)
        return Run(done.returncode, done.stdout, done.stderr, self.image.read_bytes() if self.image.exists() else None)

    def lines_of(self, name, count):
        """The text of the lines of so many bytes of the capture: those of the records that are whole there."""
        records = sum(end <= count for end in self.ends)
        return b"".join(self.whole[name].out.splitlines(True)[:records])


def ends_of_records(capture):
    """The place after each record of a little-endian capture."""
    ends, at = [], 24
    while at < len(capture):
        at += 16 + struct.unpack_from("<I", capture, at + 8)[0]
        ends.append(at)
    return ends


class Table:
    """How often each fault was tried of each command, and how often code, output and message were right."""

    def __init__(self):
        self.tried, self.right, self.wrong = collections.Counter(), collections.Counter(), 0

    def note(self, command, fault, given, right):
        """Counts a run, and compares it with what is right: a run, where None stands for whatever is there."""
        self.tried[command, fault] += 1
        differs = [name for name, ours, theirs in zip(Run._fields, given, right) if theirs not in (None, ours)]
        for column, names in COLUMNS.items():
            self.right[command, fault, column] += not set(names) & set(differs)
        if differs:
            self.wrong += 1
            print(f"run: {command}, {fault}: {given!r:.400} and not {right!r:.400}", file=sys.stderr)

    def print(self):
        print(f"{'command':<10} {'fault':<46} {'times':>5}", *COLUMNS)
        for (command, fault), times in self.tried.items():
            counts = [f"{self.right[command, fault, column]:>{len(column)}}" for column in COLUMNS]
            print(f"{command:<10} {fault:<46} {times:>5}", *counts)
        print(f"{sum(self.tried.values())} runs, {self.wrong} not right")
