# SPDX-License-Identifier: BSD-3-Clause
"""The command aclc as it is installed: it adds nothing to the words, the streams and the exit codes of what it starts.

A program that notes its words, its streams and its environment stands for the proved ones, beside the built one.
"""
import hashlib
import json
import os
import re
import shutil
import signal
import subprocess
import sys
import tempfile
import unittest
from pathlib import Path

from aclc_tools.program import TOP, built_program
from tool import BUILT, EXAMPLES, script

NOTES = r"""#!%s -IS
import json, os, sys
streams = {}
for number in map(int, os.listdir("/proc/self/fd")):
    try:
        streams[number] = os.readlink(f"/proc/self/fd/{number}")
    except OSError:
        pass
streams = {number: name for number, name in streams.items() if not name.startswith("/proc/")}
environment = {name.hex(): value.hex() for name, value in os.environb.items() if name not in (b"_", b"PWD", b"SHLVL", b"NOTE")}
given = os.read(0, 1 << 16).hex() if 0 in streams else None
with open(os.environ["NOTE"], "w") as note:
    json.dump([[os.fsencode(word).hex() for word in sys.argv[1:]], streams, environment, given], note)
for number, text in ((1, b"lines\n"), (2, b"message\n")):
    try:
        os.write(number, text)
    except OSError:
        pass
if sys.argv[-1:] == ["killed"]:
    os.kill(os.getpid(), 15)
os._exit(int(sys.argv[-1]) if sys.argv[-1:] and sys.argv[-1].isdigit() else 5)
"""
COMMANDS = ("classify", "replay", "build", "audit", "compare", "session", "bench")
TOOLS = ("explain", "hits", "changes", "dead", "same", "convert", "check", "report")
UNKNOWN = ("", "clasify", "--verbose", "-", "--", "-x", "prove", "install", "CLASSIFY", "classify ", "aclc", "lists2", "*")
EVERY_BYTE = bytes(range(1, 256))
FURTHER = ([], [""], ["a b"], ["a\nb", "\n"], ["-"], ["--", "-"], ["--help"], ["--version"], ["-h"], ["*", "?", "[a]"],
           ["$HOME", "`x`", "$(x)"], ["\\", "\\n", "'", '"'], [EVERY_BYTE], [b"\xff\xfe"], ["ü"], ["a" * 100000],
           ["lists"], ["hits", "help"], ["a", "b", "stats=on"], [""] * 3)
# Of streams that are closed the numbers.
CLOSED = ((), (0,), (1,), (2,), (0, 1), (1, 2), (0, 1, 2))
SHELLS = (["dash"], ["bash"], ["bash", "--posix"], ["busybox", "sh"])


def closing(numbers):
    """Closes these streams of a program before it starts."""
    def close():
        for number in numbers:
            os.close(number)
    return close


class Installed(unittest.TestCase):
    """The command in a folder of its own, over a program that notes what it is given."""

    def setUp(self):
        self.room = Path(tempfile.mkdtemp()).resolve()
        self.addCleanup(shutil.rmtree, self.room)
        self.prefix = self.room / "a folder"
        for name in ("bin", "libexec/aclc", "share/aclc"):
            (self.prefix / name).mkdir(parents=True)
        self.front = self.prefix / "bin" / "aclc"
        shutil.copy(TOP / "aclc", self.front)
        for name in ("aclc", "aclc-lists"):
            self.place(f"libexec/aclc/{name}", NOTES % sys.executable)
        shutil.copytree(TOP / "docs" / "commands", self.prefix / "share" / "aclc" / "commands")
        shutil.copy(TOP / "VERSION", self.prefix / "share" / "aclc")
        (self.prefix / "share" / "aclc" / "tools").symlink_to(TOP / "tools")

    def place(self, name, text):
        """Writes a program."""
        (self.prefix / name).write_text(text)
        (self.prefix / name).chmod(0o755)

    def run_words(self, *words, closed=(), **more):
        """What a command does with its words: how it ends, what it prints, and what it notes."""
        note = self.room / "note"
        note.unlink() if note.exists() else None
        (self.room / "in").write_text("given\n")
        env = {"PATH": os.environ["PATH"], "NOTE": str(note), "version": "mine", "tools": "x", **more}
        with open(self.room / "in", "rb") as stdin, open(self.room / "out", "wb") as out, open(self.room / "err", "wb") as err:
            done = subprocess.run(words, stdin=stdin, stdout=out, stderr=err, env=env, cwd=self.room,
                                  preexec_fn=closing(closed))
        noted = json.loads(note.read_text()) if note.exists() else None
        return done.returncode, (self.room / "out").read_bytes(), (self.room / "err").read_bytes(), noted

    def compare(self, program, words, started=None, closed=()):
        """Fails if the command does otherwise than a program that it starts."""
        started = self.run_words(program, *(words if started is None else started), closed=closed)
        self.assertIsNotNone(started[3])
        self.assertEqual(self.run_words(self.front, *words, closed=closed), started, (words, closed))


class Front(Installed):
    def test_words_of_the_program_are_handed_on_as_they_are(self):
        program = self.prefix / "libexec" / "aclc" / "aclc"
        self.compare(program, [])
        for further in FURTHER:
            for command in COMMANDS if further == ["a b"] else COMMANDS[:1]:
                self.compare(program, [command, *further])
        for word in UNKNOWN:
            self.compare(program, [word])
        self.compare(program, ["", "a", "b"])
        for words in (["--version", "x"], ["--help", "x"], ["-h", "x"], ["help", "a", "b"]):
            self.compare(program, words)

    def test_words_of_the_program_of_lists_are_handed_on_and_standard_input_is_named(self):
        program = self.prefix / "libexec" / "aclc" / "aclc-lists"
        for words in ([], [""], ["nft"], ["nft", "a b", "in\nput"], ["nft", "", ""], ["-", "a", "b"], ["nft", "a", "-"],
                      ["nft", "./-", "input"], ["--help", "x"], ["--version", "a", "b"], [EVERY_BYTE, EVERY_BYTE]):
            self.compare(program, ["lists", *words], words)
        self.compare(program, ["lists", "nft", "-"], ["nft", "/dev/stdin"])
        self.compare(program, ["lists", "nft", "-", "", "data=line"], ["nft", "/dev/stdin", "", "data=line"])
        (self.prefix / "bin" / "aclc-lists").symlink_to("aclc")
        self.assertEqual(self.run_words(self.prefix / "bin" / "aclc-lists", "nft", "-", "x"),
                         self.run_words(program, "nft", "/dev/stdin", "x"))

    def test_streams_are_handed_on_open_or_closed_and_no_other(self):
        program = self.prefix / "libexec" / "aclc" / "aclc"
        for closed in CLOSED:
            self.compare(program, ["classify", "a", "b"], closed=closed)
            self.compare(program.with_name("aclc-lists"), ["lists", "nft", "a"], ["nft", "a"], closed=closed)

    def test_codes_and_signals_are_handed_on(self):
        program = self.prefix / "libexec" / "aclc" / "aclc"
        for code in (0, 1, 2, 12, 101, 126, 127, 128, 255):
            self.compare(program, ["classify", str(code)])
        self.assertEqual(self.run_words(self.front, "classify", "killed")[0], -signal.SIGTERM)

    def test_each_shell_does_the_same(self):
        """But for bash, which leaves its script open in the place of a standard error that is closed: it takes no message either."""
        program, shells = self.prefix / "libexec" / "aclc" / "aclc", [it for it in SHELLS if shutil.which(it[0])]
        for words, closed in ((["classify", "", "a\nb", "*", "\\n", EVERY_BYTE], ()), ([], ()), (["x"], (0,)), (["x"], (1,)),
                              (["x"], (2,)), (["x"], (0, 1, 2))):
            started = self.run_words(program, *words, closed=closed)
            for shell in shells:
                if shell[0] != "bash" or 2 not in closed:
                    self.assertEqual(self.run_words(*shell, self.front, *words, closed=closed), started, (shell, words, closed))
        self.assertGreater(len(shells), 1)

    def test_it_is_found_by_any_way(self):
        program, words = self.prefix / "libexec" / "aclc" / "aclc", ["classify", "a"]
        started = self.run_words(program, *words)
        (self.room / "link").symlink_to(self.front)
        (self.room / "aclc-1.2").symlink_to("link")
        (self.room / "folder").symlink_to(self.prefix / "bin")
        for front in (self.room / "link", "./link", self.room / "aclc-1.2", self.room / "folder" / "aclc", "a folder/bin/aclc"):
            self.assertEqual(self.run_words(front, *words), started, front)
        for folder in (self.prefix / "bin", self.room / "folder"):
            env = {"PATH": f"{folder}:{os.environ['PATH']}"}
            self.assertEqual(self.run_words("env", f"PATH={env['PATH']}", "aclc", *words)[:2], started[:2])
        done = subprocess.run(["sh", "aclc", *words], cwd=self.prefix / "bin", env={"NOTE": str(self.room / "note"), **os.environ},
                              stdout=subprocess.PIPE, stderr=subprocess.PIPE)
        self.assertEqual((done.returncode, done.stdout), started[:2])

    def test_an_installation_beside_a_checkout_is_not_run_there(self):
        """A checkout in a folder into which aclc is installed runs its own."""
        checkout = self.prefix / "bin" / "checkout"
        (checkout / "make").mkdir(parents=True)
        shutil.copy(TOP / "aclc", checkout)
        (checkout / "crates.txt").write_text("")
        self.place("bin/checkout/make/run", "#!/bin/sh\necho run \"$@\"\n")
        self.assertEqual(self.run_words(checkout / "aclc", "x", "y")[:2], (0, b"run aclc x y\n"))
        self.assertEqual(self.run_words(checkout / "aclc", "lists", "y")[:2], (0, b"run aclc-lists y\n"))


class Tools(Installed):
    def test_words_of_a_tool_are_handed_on_as_they_are(self):
        (self.prefix / "share" / "aclc" / "tools").unlink()
        (self.prefix / "share" / "aclc" / "tools").mkdir()
        for name in TOOLS:
            self.place(f"share/aclc/tools/{name}", NOTES % sys.executable)
            (self.prefix / "bin" / f"aclc-{name}").symlink_to("aclc")
        for name in TOOLS:
            tool = self.prefix / "share" / "aclc" / "tools" / name
            for further in FURTHER if name == "hits" else FURTHER[3:4]:
                self.compare(tool, [name, *further], further)
                self.assertEqual(self.run_words(self.prefix / "bin" / f"aclc-{name}", *further), self.run_words(tool, *further))
            self.compare(tool, ["help", name], ["--help"])
        for closed in CLOSED:
            self.compare(tool, ["report", "a", "b"], ["a", "b"], closed=closed)

    def test_without_python_it_says_so(self):
        (self.room / "bin").mkdir()
        for name in ("readlink", "sh", "cat"):
            (self.room / "bin" / name).symlink_to(shutil.which(name))
        code, lines, said, _ = self.run_words(self.front, "hits", "a", PATH=str(self.room / "bin"))
        self.assertEqual((code, lines, said.count(b"\n"), b"needs Python 3.8" in said), (2, b"", 1, True), said)

    def test_help_and_version_are_told_without_a_program(self):
        version = (TOP / "VERSION").read_text().split()[0]
        shutil.rmtree(self.prefix / "libexec")
        for words, told in ((["--version"], f"aclc {version}\n"), (["lists", "--version"], f"aclc-lists {version}\n")):
            self.assertEqual(self.run_words(self.front, *words)[:3], (0, told.encode(), b""))
        overview = (TOP / "docs" / "commands" / "aclc").read_bytes()
        for words in (["help"], ["--help"], ["-h"], ["help", "aclc"]):
            self.assertEqual(self.run_words(self.front, *words)[:3], (0, overview, b""))
        for name in (*COMMANDS, "lists", "help"):
            self.assertEqual(self.run_words(self.front, "help", name)[:3], (0, (TOP / "docs" / "commands" / name).read_bytes(), b""))
        self.assertEqual(self.run_words(self.front, "lists", "-h"), self.run_words(self.front, "help", "lists"))
        for name in TOOLS:
            code, lines, said, _ = self.run_words(self.front, "help", name)
            self.assertEqual((code, said), (0, b""))
            self.assertIn(f"aclc {name} ".encode(), lines)
        for name in ("", "no", "../VERSION", "aclc/../help"):
            code, lines, said, _ = self.run_words(self.front, "help", name)
            self.assertEqual((code, lines, said), (2, b"", b"aclc: usage: help: no such command; aclc help shows them\n"))
        for words in (["--version"], ["--help"], ["help", "bench"], ["help", "hits"]):
            self.assertNotEqual(self.run_words(self.front, *words, closed=(1,))[0], 0)

    def test_the_help_names_every_command(self):
        named = re.findall(r"^    (\w+) ", (TOP / "docs" / "commands" / "aclc").read_text(), re.M)
        self.assertEqual(sorted(named), sorted([*COMMANDS, "lists", *TOOLS]))
        self.assertEqual(sorted(file.name for file in (TOP / "tools").iterdir() if file.is_file()), sorted(TOOLS))


@BUILT
class Proved(Installed):
    def setUp(self):
        super().setUp()
        self.program = self.prefix / "libexec" / "aclc" / "aclc"
        shutil.copy(built_program(), self.program)
        for name in ("office.rules", "edited.rules", "office.pcap", "own_layout.script"):
            shutil.copy(EXAMPLES / name, self.room)

    def test_each_command_prints_says_and_ends_as_the_program_does(self):
        for words in ([], ["classify", "office.rules", "office.pcap"], ["classify", "office.rules", "office.pcap", "stats=on"],
                      ["classify", "/dev/stdin", "office.pcap"], ["classify", "office.rules"], ["classify", "no", "no"],
                      ["classify", "office.pcap", "office.pcap"], ["classify", "office.rules", "office.rules"], ["classify", "", ""],
                      ["classify", "a b", "a\nb"], ["classify", b"\xff", "x"], ["build", "office.rules", "office.image"],
                      ["build", "office.rules", "no/image"], ["build", "office.rules", "office.image"],
                      ["replay", "office.image", "office.pcap"], ["replay", "office.rules", "office.pcap"], ["audit", "office.rules"], ["audit", "office.rules", "x=y"],
                      ["compare", "office.rules", "edited.rules"], ["compare", "office.rules", "office.pcap"],
                      ["session", "own_layout.script"], ["session", ""], ["bench", "1", "2", "3"], ["bench", "x", "2", "3"],
                      ["bench"], *([word] for word in UNKNOWN[:3]), *(["classify", *it] for it in FURTHER[::3])):
            for closed in CLOSED if words[0:2] == ["classify", "office.rules"] else CLOSED[:1]:
                ended = []
                for first in (self.program, self.front):
                    image = self.room / "office.image"
                    image.unlink() if words[:1] == ["build"] and image.exists() else None
                    ended.append((self.run_words(first, *words, closed=closed)[:3], image.exists() and image.read_bytes()))
                self.assertEqual(*ended, (words, closed))


if __name__ == "__main__":
    unittest.main()
