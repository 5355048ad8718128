# SPDX-License-Identifier: BSD-3-Clause
"""What is told of long runs on a terminal, and nowhere else."""
import os
import pty
import subprocess
import sys
import tempfile
import unittest
from pathlib import Path

from aclc_tools import progress
from aclc_tools.program import TOP
from tool import EXAMPLES

# Stands for the program: it answers to 1,200 packets, with a wait in their midst or without one.
SLOW = """#!/bin/sh
seq -f '%%.0f other' 1 600
sleep %s
seq -f '%%.0f other' 601 1200
echo packets 1200 ip4 0 ip6 0 other 1200 short 0
"""


def read_all(reads, writes):
    """What was written to a pipe or a terminal, and an end after it."""
    os.write(writes, b"end")
    said = b""
    while not said.endswith(b"end"):
        said += os.read(reads, 1 << 16)
    return said.decode()


class Progress(unittest.TestCase):
    def hits(self, wait, has_terminal):
        """What hits prints, and what it tells on standard error, by a program that waits so long."""
        with tempfile.TemporaryDirectory() as folder:
            program = Path(folder) / "program"
            program.write_text(SLOW % wait)
            program.chmod(0o755)
            reads, writes = pty.openpty() if has_terminal else os.pipe()
            try:
                done = subprocess.run([sys.executable, str(TOP / "tools" / "hits"), str(EXAMPLES / "office.rules"),
                                       str(EXAMPLES / "office.pcap")], check=True,
                                      stdout=subprocess.PIPE, stderr=writes,
                                      env={**os.environ, "ACLC": str(program), "ACLC_LISTS": ""})
                return done.stdout.decode(), read_all(reads, writes)
            finally:
                os.close(reads)
                os.close(writes)

    def test_a_long_run_is_told_on_a_terminal_and_taken_away(self):
        printed, said = self.hits("1.2", has_terminal=True)
        line = f"{progress.ERASE}{EXAMPLES / 'office.pcap'}: 1024 packets so far"
        self.assertTrue(said.endswith(line + progress.ERASE + "end"), said)
        self.assertIn("packets 1200 ip4 0", printed)

    def test_nothing_is_told_elsewhere(self):
        printed, said = self.hits("1.2", has_terminal=False)
        self.assertEqual(said, "end")
        self.assertEqual(printed, self.hits("1.2", has_terminal=True)[0])

    def test_nothing_is_told_of_what_comes_at_once(self):
        usual, progress.FIRST = progress.FIRST, 60
        self.addCleanup(setattr, progress, "FIRST", usual)
        reads, writes = pty.openpty()
        stderr = sys.stderr
        try:
            sys.stderr = os.fdopen(writes, "w", closefd=False)
            self.assertEqual(list(progress.packets(range(2000), "a")), list(range(2000)))
            progress.FIRST = 0
            self.assertEqual(list(progress.packets(range(2000), "a")), list(range(2000)))
        finally:
            sys.stderr = stderr
        self.assertEqual(read_all(reads, writes), f"{progress.ERASE}a: 0 packets so far{progress.ERASE}end")
        os.close(reads)
        os.close(writes)


if __name__ == "__main__":
    unittest.main()
