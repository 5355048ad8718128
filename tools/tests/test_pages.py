# SPDX-License-Identifier: BSD-3-Clause
"""What help, the manual and the completion of each command tell: the options are those that the command takes."""
import argparse
import functools
import os
import re
import shutil
import subprocess
import sys
import tempfile
import unittest
from pathlib import Path
from unittest import mock

from aclc_tools.program import TOP
from tool import script

TOOLS = ("explain", "hits", "changes", "dead", "same", "convert", "check", "report")
PROGRAMS = ("classify", "replay", "build", "audit", "compare", "session", "bench", "lists")
# Options that a parser has for all tools, and that a tool refuses.
REFUSED = {"report": {"--json", "--csv"}}
# What proved programs take beside names, in the words of their crates.
ALLOWED = TOP / "crates" / "command_words" / "src" / "allowed.rt"
OF_LISTS = TOP / "crates" / "list_tool" / "src" / "words.rt"


@functools.lru_cache(maxsize=None)
def help_of(name):
    """What is told of a command."""
    if name in TOOLS:
        words = [sys.executable, "-B", str(TOP / "tools" / name), "--help"]
        return subprocess.run(words, stdout=subprocess.PIPE, check=True).stdout.decode()
    return (TOP / "docs" / "commands" / name).read_text(encoding="utf-8")


def told(name):
    """The options that a help names where it explains them, or how it is called."""
    text = re.sub(r",\n +(?=-)", ", ", help_of(name))
    rows = re.findall(r"(?m)^    (-.*?|[a-z-]+=.*?|aclc .*?)(?:  .*)?$", text)
    signs = {sign.group(0) for sign in (re.match(r"[a-z-]+=", row) for row in rows) if sign}
    return signs | {word for row in rows for word in re.findall(r"(?<![\w-])-+[a-z][a-z-]*", row)}


def parsed(name):
    """The options that a tool's parser knows, or None where it has none."""
    found, module = set(), script(TOP / "tools" / name)
    if not hasattr(module, "options"):
        return None

    def see(parser, *_, **__):
        found.update(word for action in parser._actions for word in action.option_strings)
        sys.exit(0)

    with mock.patch.object(argparse.ArgumentParser, "parse_known_args", see), mock.patch.object(sys, "argv", [name]):
        try:
            module.options()
        except SystemExit:
            pass
    return found - REFUSED.get(name, set()) - {"-h", "--help"}


def allowed(name):
    """The options that a proved program allows a command."""
    if name == "lists":
        return set(re.findall(r'strip_prefix\(b"([a-z-]+=)"\)', OF_LISTS.read_text()))
    found = re.search(rf"fn for_{name}\(\).*?\n    }}\n", ALLOWED.read_text(), re.S)
    if not found:
        return set()
    others = re.findall(r"Allowed::for_(\w+)\(\)", found.group(0))
    names = {f"{option.replace('_', '-')}=" for option in re.findall(r"^\s+(\w+): true", found.group(0), re.M)}
    taken = {f"{option.replace('_', '-')}=" for option in re.findall(r"\.(\w+) = false", found.group(0))}
    return names.union(*map(allowed, others)) - taken


class Pages(unittest.TestCase):
    @classmethod
    def setUpClass(cls):
        cls.share = Path(tempfile.mkdtemp())
        cls.addClassCleanup(shutil.rmtree, cls.share)
        subprocess.run([str(TOP / "make" / "pages"), str(cls.share)], check=True)

    def page(self, name):
        return (self.share / "man" / "man1" / f"aclc-{name}.1").read_text(encoding="utf-8")

    def completed(self, *words):
        """What bash offers for the last of these words."""
        lines = ["source " + str(self.share / "bash-completion" / "completions" / "aclc"),
                 f"COMP_WORDS=({' '.join(map(repr, words))}) COMP_CWORD={len(words) - 1}", "compopt() { :; }", "_aclc",
                 "printf '%s\\n' \"${COMPREPLY[@]}\""]
        done = subprocess.run(["bash", "-c", "\n".join(lines)], stdout=subprocess.PIPE, stderr=subprocess.PIPE, text=True)
        self.assertEqual(done.stderr, "")
        return done.stdout.split()

    def test_options_of_help_are_those_that_are_taken(self):
        for name in TOOLS:
            self.assertIn(parsed(name), (told(name), None), name)
        for name in PROGRAMS:
            self.assertEqual(told(name), allowed(name), name)
        self.assertTrue(allowed("classify") and allowed("lists"))

    def test_the_manual_and_the_completion_have_the_options_of_help(self):
        zsh = (self.share / "zsh" / "site-functions" / "_aclc").read_text()
        for name in (*TOOLS, *PROGRAMS):
            shown = re.sub(r"\\f[BIR]|\\&", "", self.page(name)).replace("\\-", "-")
            case = re.search(rf"^    {name}\) .*$", zsh, re.M).group(0)
            options = told(name)
            for option in options:
                self.assertRegex(shown, rf"(?m)(^|[ \[]){re.escape(option)}", (name, option))
                self.assertRegex(case, rf"['\s{{]{re.escape(option)}", (name, option))
            offered = self.completed("aclc", name, "x", "")
            self.assertEqual({word for word in offered if word[0] == "-" or word[-1] == "="}, options, name)

    def test_the_reference_names_every_command_and_the_options_of_the_program(self):
        text = (TOP / "docs" / "aclc.1").read_text(encoding="utf-8")
        for name in TOOLS:
            self.assertIn(f"\\fBaclc\\-{name}\\fR(1)", text)
        part = text[text.index(".SH OPTIONS"):text.index(".SH RULE FILES")].replace("\\-", "-")
        named = set(re.findall(r"(?m)^(?:.*, )?\\fB([a-z-]+=)", part))
        self.assertEqual(named, set().union(*map(told, PROGRAMS[:-1])))

    def test_each_command_has_a_page_and_no_other(self):
        pages = {file.name for file in (self.share / "man" / "man1").iterdir()}
        self.assertEqual(pages, {"aclc.1", *(f"aclc-{name}.1" for name in (*TOOLS, *PROGRAMS))})
        version, date = (TOP / "VERSION").read_text().split()
        for name in pages:
            head = [line for line in (self.share / "man" / "man1" / name).read_text().split("\n") if line.startswith(".TH")]
            title = name[:-2].upper()
            self.assertEqual(head, [f'.TH {title} 1 "{date}" "aclc {version}" "User commands"'])

    @unittest.skipUnless(shutil.which("man"), "there is no man")
    def test_man_has_no_warning_and_shows_what_help_says(self):
        for name in (*TOOLS, *PROGRAMS):
            file = self.share / "man" / "man1" / f"aclc-{name}.1"
            done = subprocess.run(["man", "--warnings", "-l", str(file)], stdout=subprocess.PIPE, stderr=subprocess.PIPE,
                                  env={**os.environ, "MANWIDTH": "400", "LC_ALL": "C.UTF-8"})
            self.assertEqual((done.returncode, done.stderr), (0, b""), name)
            shown = set(re.sub(r".\x08", "", done.stdout.decode()).replace("‐", "-").split())
            said = re.sub(r"(?m)^    aclc .*$|^[A-Z][^:]*:( aclc .*)?$", "", help_of(name).replace("Exit code ", ""))
            for word in said.split("\n\n", 1)[-1].split():
                self.assertIn(word, shown, name)

    def test_bash_offers_what_may_follow(self):
        self.assertIn("hits", self.completed("aclc", ""))
        self.assertEqual(self.completed("aclc", "cla"), ["classify"])
        self.assertEqual(self.completed("aclc", "help", "cl"), ["classify"])
        self.assertEqual(self.completed("aclc", "hits", "--ov"), ["--over"])
        self.assertEqual(self.completed("aclc", "hits", "--family", ""), ["4", "6"])
        self.assertEqual(self.completed("aclc", "hits", "--form", "ni"), [])
        self.assertEqual(self.completed("aclc", "hits", "--form", "nf"), ["nft"])
        self.assertEqual(self.completed("aclc", "convert", "ju"), ["juniper"])
        self.assertEqual(self.completed("aclc", "lists", "nft"), ["nft", "nft6"])
        self.assertEqual(self.completed("aclc", "classify", "a", "b", "ma"), ["max-words=", "marks="])
        self.assertEqual(self.completed("aclc", "classify", "a", "b", "marks", "="), ["on", "off"])
        self.assertEqual(self.completed("aclc", "classify", "a", "b", "marks", "=", "of"), ["off"])
        self.assertEqual(self.completed("aclc", "report", "a", "-o", ""), [])

    @unittest.skipUnless(shutil.which("zsh"), "there is no zsh")
    def test_zsh_reads_its_file(self):
        file = self.share / "zsh" / "site-functions" / "_aclc"
        done = subprocess.run(["zsh", "-n", str(file)], stdout=subprocess.PIPE, stderr=subprocess.STDOUT)
        self.assertEqual((done.returncode, done.stdout), (0, b""))


if __name__ == "__main__":
    unittest.main()
