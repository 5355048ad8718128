# SPDX-License-Identifier: BSD-3-Clause
"""The built program where it meets the system: what it opens, what it writes and keeps, how much memory it asks for.

No contract says this, and no desk over memory shows it. Each test says which fault it would see. The commands, their
files and what is right of a run with a fault are those of examples/faults.
"""
import os
import re
import struct
import subprocess
import sys
import tempfile
import unittest
from pathlib import Path

from aclc_tools.program import TOP, built_program

sys.path.insert(0, str(TOP / "examples" / "faults"))
import calls
import memory
import runs

LACK = calls.lack()
TRACED = unittest.skipIf(LACK, LACK)
NAMED = re.compile(r'^(\w+)\(.*?"([^"]*)"', re.M)

# An image's first fields: ACLT, the version, and of a table the family, the rules, the tries and the rows.
HEAD = b"ACLT" + struct.pack(">I", 2)
EMPTY = struct.pack(">IIII", 4, 0, 0, 0)
MOST_WORDS, ROW_WORDS, SPARE, MOST_CAPTURED = 1 << 26, 16, 4096, 262144


def rows_claimed(family):
    """A table that claims as many rows as there may be, of which 32 are there."""
    return struct.pack(">IIII", family, 1, 0, MOST_WORDS // ROW_WORDS - 1) + bytes(SPARE)


def words_claimed(family):
    """A table that claims as many words as there may be, in one trie of one level, of which 512 are there."""
    root, match = 1 << 29, struct.pack(">Q", 4 << 29)
    counts = struct.pack(">IIIIII", family, 0, 1, 0, 1, MOST_WORDS - ROW_WORDS)
    return counts + struct.pack(">Q", root) + match * (SPARE // len(match))


# Captures with one record, or one block after a section and an interface, of 256 KiB, of which 64 bytes are there.
PCAP = (struct.pack("<IHHIIII", 0xA1B2C3D4, 2, 4, 0, 0, MOST_CAPTURED, 1)
        + struct.pack("<IIII", 0, 0, MOST_CAPTURED, MOST_CAPTURED))
PCAPNG = (struct.pack("<IIIHHqI", 0x0A0D0D0A, 28, 0x1A2B3C4D, 1, 0, -1, 28) + struct.pack("<IIHHII", 1, 20, 1, 0, 0, 20)
          + struct.pack("<IIIIIII", 6, MOST_CAPTURED + 32, 0, 0, 0, MOST_CAPTURED, MOST_CAPTURED))
# Files that claim more than they have.
CLAIMS = {
    "rows.image": HEAD + rows_claimed(4),
    "words.image": HEAD + words_claimed(4),
    "rows6.image": HEAD + EMPTY + rows_claimed(6),
    "words6.image": HEAD + EMPTY + words_claimed(6),
    "claims.pcap": PCAP + bytes(64),
    "claims.pcapng": PCAPNG + bytes(64),
    "claims.script": b"field range 1 0 0\ncontext 262144\nrule 1 1 7 17:17\nbuild 67108864\nclassify 16 11\n",
}
# What the program needs to say that a command is missing, with the C library.
MOST_BASE = 16 << 20
# A command, its exit code and message, and how many KiB it may have above that: about one and a half times what it
# takes today, and at least what the heap grows by at once.
LIMITS = [
    (["replay", "rows.image", "few.pcap"], 6, "image: byte 4120: length", 160),
    (["replay", "words.image", "few.pcap"], 6, "image: byte 4136: length", 160),
    (["replay", "rows6.image", "few.pcap"], 6, "image: byte 4136: length", 160),
    (["replay", "words6.image", "few.pcap"], 6, "image: byte 4152: length", 160),
    (["classify", "few.rules", "claims.pcap"], 5, "capture: record 1: cut", 512),
    (["classify", "few.rules", "claims.pcapng"], 5, "capture: record 1: block cut", 512),
    (["classify", "few.rules", "few.pcap", "max-words=67108864"], 0, "", 512),
    (["build", "few.rules", "new.image", "max-words=67108864"], 0, "", 224),
    (["audit", "few.rules", "max-words=67108864"], 0, "", 160),
    (["compare", "few.rules", "few.rules", "max-words=67108864"], 0, "", 160),
    (["session", "claims.script"], 0, "", 224),
]
# Commands that end with a message, beside those of examples/faults.
MESSAGES = {"classify !": ["classify", "old.image", "many.pcap"], "audit !": ["audit", "missing.rules"]}


@unittest.skipUnless(built_program(), "the program isn't built")
class Edge(unittest.TestCase):
    @classmethod
    def setUpClass(cls):
        folder = tempfile.TemporaryDirectory()
        cls.addClassCleanup(folder.cleanup)
        cls.folder, cls.commands = Path(folder.name), runs.Commands(folder.name)
        for name, content in CLAIMS.items():
            (cls.folder / name).write_bytes(content)
        for name in ("rules", "pcap"):
            (cls.folder / f"few.{name}").symlink_to(TOP / "examples" / f"office.{name}")

    def files_of(self, words):
        """The files that the words of a command name."""
        return [word for word in words[1:] if "." in word]

    def test_a_pipe_in_place_of_the_image_is_a_write_fault(self):
        """Fails where `finish` doesn't ask that the image is kept: a pipe takes all bytes, and refuses that alone."""
        os.mkfifo(self.folder / "pipe.image")
        pipe = os.open(self.folder / "pipe.image", os.O_RDWR | os.O_NONBLOCK)
        self.addCleanup(os.close, pipe)
        run = self.commands.run(["build", "few.rules", "pipe.image"])
        self.assertEqual(run, runs.Run(8, b"", runs.MESSAGES[8], None))
        self.commands.run(["build", "few.rules", "file.image"])
        self.assertEqual(os.read(pipe, 1 << 16), (self.folder / "file.image").read_bytes())

    @TRACED
    def test_an_image_that_is_not_kept_is_a_write_fault(self):
        """Fails where what the system says of `fsync` is dropped."""
        whole = self.commands.whole["build"]
        for fault in ("EIO", "ENOSPC", "EINVAL", "EROFS"):
            run, _ = calls.traced(self.commands, self.commands.words["build"], f"fsync:error={fault}")
            self.assertEqual(run, runs.Run(8, b"", runs.MESSAGES[8], whole.made), fault)

    @TRACED
    def test_an_image_is_kept_once_after_its_last_write(self):
        """Fails where `fsync` is left out, is asked for twice, or before the last write or after the file is closed."""
        _, made = calls.traced(self.commands, self.commands.words["build"])
        names = [call.name for call in calls.own_calls(made) if call.file == "new.image"]
        self.assertRegex(" ".join(names), "^openat( write)+ fsync close$")

    @TRACED
    def test_each_file_is_opened_once_and_no_other(self):
        """Fails where a file is opened or looked for a second time, or one that the words don't name."""
        log = self.folder / "names.log"
        for words in self.commands.words.values():
            self.commands.run(words, before=["strace", "-o", log, "-e", "trace=%file"])
            named = NAMED.findall(log.read_text())
            own = named[named.index(("openat", "/dev/null")):]
            self.assertEqual(own, [("openat", name) for name in ["/dev/null"] * 3 + self.files_of(words)], words)

    @TRACED
    def test_a_write_that_takes_nothing_is_a_fault_and_the_last(self):
        """Fails where a write of 0 bytes is tried again, or is taken for one that wrote."""
        for command, words in {**self.commands.words, **MESSAGES}.items():
            whole = self.commands.run(words)
            _, made = calls.traced(self.commands, words)
            writes = [call for call in calls.own_calls(made) if call.name == "write"]
            for call in {writes[place].number: writes[place] for place in (0, len(writes) // 2, -1)}.values():
                run, came = calls.traced(self.commands, words, f"write:retval=0:when={call.number}")
                right = calls.right_of(self.commands, command, whole, call, "retval=0", came)
                self.assertEqual(run, right, (command, call))
                later = [each.file for each in came if each.name == "write" and each.number > call.number]
                self.assertNotIn(call.file, later, command)

    def test_no_more_memory_is_asked_for_than_is_needed(self):
        """Fails where memory is asked for by what a file, an option or a call claims: room for the rows or words that
        an image's header names, a table of `max-words=` words, or what a record or a context claims."""
        base = memory.enough(self.commands, [], 2)
        self.assertLess(base, MOST_BASE)
        for words, code, message, more in LIMITS:
            whole = self.commands.run(words)
            told = f"aclc: {message}\n" if message else ""
            self.assertEqual((whole.code, whole.err.decode()), (code, told), words)
            self.assertEqual(memory.limited(self.commands, words, base + more * 1024), whole, words)


if __name__ == "__main__":
    unittest.main()
