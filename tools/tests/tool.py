# SPDX-License-Identifier: BSD-3-Clause
"""The scripts of tools, run as a user runs them or as modules, with the built program."""
import argparse
import importlib.machinery
import importlib.util
import os
import re
import subprocess
import sys
import unittest

from aclc_tools.program import TOP, built_program

BUILT = unittest.skipUnless(built_program(), "the program isn't built")
# The tools that read lists, and what they say where their own readers do.
READERS = "changes", "convert", "dead", "explain", "hits", "report", "same"
UNPROVED = re.compile(r"(?m)^\w+: .*: read by this tool's own reader, which isn't proved: .*\n")
EXAMPLES, DATA = TOP / "examples", TOP / "tools" / "tests" / "data"


def script(path):
    """A script without a suffix, as a module."""
    loader = importlib.machinery.SourceFileLoader(path.name, str(path))
    module = importlib.util.module_from_spec(importlib.util.spec_from_loader(path.name, loader))
    loader.exec_module(module)
    return module


def tool(name, *words, **more):
    """What a tool ends with, what it prints, and its messages. Unless ACLC_LISTS is given the readers of the tools are
    tested: no aclc-lists is there, and the message that says so is taken out."""
    given = more.pop("env", {})
    env = {**os.environ, "ACLC": str(built_program() or "/nosuch"), "ACLC_LISTS": "", **given}
    own = [] if "ACLC_LISTS" in given or name not in READERS else ["--unproved"]
    done = subprocess.run([sys.executable, str(TOP / "tools" / name), *map(str, words), *own], stdout=subprocess.PIPE,
                          stderr=subprocess.PIPE, env=env, **more)
    said = done.stderr.decode()
    return done.returncode, done.stdout.decode(errors="replace"), UNPROVED.sub("", said) if own else said


def given(**more):
    """The options of a tool with their defaults, and those that are given."""
    usual = dict.fromkeys(("form", "chain", "table", "list", "family", "max_words", "category", "data", "csv", "json"))
    return argparse.Namespace(**{**usual, "lenient": False, "unproved": True, "all": True, **more})
