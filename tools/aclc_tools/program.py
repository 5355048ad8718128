# SPDX-License-Identifier: BSD-3-Clause
"""Where the program is, and how it is run."""
import os
import shutil
import subprocess
import sys
from pathlib import Path

from aclc_tools import progress
from aclc_tools.printing import shown

TOP = Path(__file__).resolve().parents[2]
# All that this run told on standard error.
NOTES = []


class Ran:
    """What a run printed, and its exit code."""

    def __init__(self, code, lines, message):
        self.code, self.lines, self.message = code, lines, message


def place_of(name):
    """Where a proved program is: in a checkout what a build leaves, and else what is installed with the tools."""
    crate = name.replace("-", "_")
    is_checkout = (TOP / "crates.txt").is_file()
    return TOP / "crates" / crate / "out" / crate if is_checkout else TOP.parents[1] / "libexec" / "aclc" / name


BUILT = place_of("aclc")


def program():
    """What starts the program: what ACLC names, what a build left or is installed, aclc on the path, or this script."""
    named = os.environ.get("ACLC") or built_program() or shutil.which("aclc")
    return str(named or TOP / "aclc")


def built_program():
    """The built program, or None: what ACLC names, or what a build left or is installed."""
    named = os.environ.get("ACLC")
    found = Path(named) if named else BUILT
    return found if os.access(found, os.X_OK) and not found.is_dir() else None


def list_program():
    """The proved program aclc-lists, or None: what ACLC_LISTS names, what is installed with the tools or a build left, or
    what is on the path. An empty ACLC_LISTS names none."""
    named = os.environ.get("ACLC_LISTS")
    found = place_of("aclc-lists") if named is None else Path(named)
    if os.access(found, os.X_OK) and not found.is_dir():
        return found
    if named:
        return leave(f"{named}: ACLC_LISTS names no program", 2)
    return shutil.which("aclc-lists") if named is None else None


def run(*words, path=None):
    """Runs the program with these words."""
    done = subprocess.run([str(path or program()), *map(str, words)], stdout=subprocess.PIPE, stderr=subprocess.PIPE)
    return Ran(done.returncode, done.stdout, done.stderr.decode(errors="replace"))


def start(*words):
    """Starts the program with these words; its lines are read while it runs."""
    try:
        return subprocess.Popen([program(), *map(str, words)], stdout=subprocess.PIPE, text=True)
    except OSError as error:
        return leave(f"{program()}: {error.strerror}: ACLC names no program", 101)


def tell_help(text):
    """Where a word asks for help: prints what the tool does, and ends it."""
    if {"--help", "-h"} & set(sys.argv[1:]):
        print(text.strip())
        sys.exit(0)


def leave(message, code=1):
    """Ends the tool with a line on standard error."""
    note(message)
    sys.exit(code)


def note(message):
    """A line on standard error."""
    NOTES.append(message)
    progress.erase()
    lines = f"{Path(sys.argv[0]).name}: {message}".split("\n")
    print("\n".join(map(shown, lines)), file=sys.stderr)


def read_file(name, code=7):
    """The bytes of a file; `-` is standard input. Where it can't be read the tool ends with the code."""
    try:
        return sys.stdin.buffer.read() if name == "-" else Path(name).read_bytes()
    except (OSError, ValueError) as error:
        return leave(f"{name}: {getattr(error, 'strerror', None) or error}", code)
