# SPDX-License-Identifier: BSD-3-Clause
"""The scripts of examples: against_tcpdump, many and many_captures/run, and what they say where something lacks."""
import os
import shutil
import subprocess
import sys
import tempfile
import unittest
from pathlib import Path

from aclc_tools.program import TOP, built_program, run

EXAMPLES = TOP / "examples"
BUILT = unittest.skipUnless(built_program(), "the program isn't built")


def script(name, *words, **more):
    env = {**os.environ, "ACLC": str(built_program()), **more}
    done = subprocess.run([str(EXAMPLES / name), *map(str, words)], stdout=subprocess.PIPE, stderr=subprocess.PIPE, env=env)
    return done.returncode, done.stdout, done.stderr.decode()


class AgainstTcpdump(unittest.TestCase):
    NAMES = EXAMPLES / "office.rules", EXAMPLES / "office.pcap"

    def test_without_tcpdump_nothing_else_is_begun(self):
        # The path has python alone, and the program isn't there.
        with tempfile.TemporaryDirectory() as folder:
            (Path(folder) / "python3").symlink_to(sys.executable)
            if shutil.which("tcpdump", path="/usr/sbin:/sbin"):
                self.skipTest("tcpdump is where it is looked for besides the path")
            code, lines, said = script("against_tcpdump", *self.NAMES, PATH=folder, ACLC="/nosuch")
        self.assertEqual((code, lines, said), (1, b"", "against_tcpdump: tcpdump isn't installed\n"))

    @unittest.skipUnless(shutil.which("tcpdump"), "tcpdump isn't installed")
    def test_what_lacks_is_told_in_a_line(self):
        for names, program, part in ((reversed(self.NAMES), "", "the rule file is named first"), (self.NAMES, "/nosuch", "no program")):
            code, lines, said = script("against_tcpdump", *names, ACLC=program)
            self.assertEqual((code, lines, said.count("\n")), (1, b"", 1), said)
            self.assertIn(part, said)


class Many(unittest.TestCase):
    def test_so_many_records_are_written(self):
        head = 24
        for words, records in ((["1"], 1), (["08"], 8), (["0"], 0), (["5"], 5)):
            code, content, said = script("many", *words)
            self.assertEqual((code, len(content), said), (0, head + 54 * records, ""))

    def test_no_number_is_told(self):
        for words in ([], [""], ["x"], ["-1"], ["1", "2"]):
            code, content, said = script("many", *words)
            self.assertEqual((code, content, said), (2, b"", "many: give the number of records: many COUNT > FILE\n"))


class ManyCaptures(unittest.TestCase):
    def setUp(self):
        self.folder = Path(tempfile.mkdtemp())
        self.addCleanup(shutil.rmtree, self.folder)
        self.image, self.capture = self.folder / "image", self.folder / "a.pcap"
        self.lines, self.part = self.folder / "a.pcap.lines", self.folder / "a.pcap.lines.part"
        shutil.copy(EXAMPLES / "office.pcap", self.capture)

    def answer(self, **more):
        return script("many_captures/run", self.image, self.capture, WITH="xargs", **more)

    @BUILT
    def test_a_run_that_fails_leaves_the_lines_of_an_earlier_one(self):
        run("build", EXAMPLES / "office.rules", self.image, path=built_program())
        code, sums, said = self.answer()
        self.assertEqual((code, sums, said), (0, b"captures 1 packets 3 ip4 3 ip6 0 other 0 short 0\n", ""))
        before = self.lines.read_bytes()
        self.assertEqual(before, (EXAMPLES / "office.expected").read_bytes())
        self.image.unlink()
        code, sums, said = self.answer()
        self.assertEqual((code, sums), (1, b"captures 0\n"))
        self.assertIn("code 7: aclc: read fault", said)
        self.assertEqual(self.lines.read_bytes(), before)
        self.assertFalse(self.part.exists())

    @BUILT
    def test_the_lines_before_a_fault_are_kept(self):
        run("build", EXAMPLES / "office.rules", self.image, path=built_program())
        self.capture.write_bytes(self.capture.read_bytes()[:-1])
        self.assertEqual(self.answer()[0], 1)
        self.assertEqual(self.part.read_bytes(), b"1 ip4 101\n2 ip4 102\n")
        self.assertFalse(self.lines.exists())

    def test_a_program_that_is_not_there_is_told_once(self):
        self.assertEqual(self.answer(ACLC="/nosuch"), (1, b"", "run: /nosuch is no program\n"))
        if not (TOP / "crates" / "aclc" / "out" / "aclc").exists():
            self.assertEqual(self.answer(ACLC=""), (1, b"", "run: the program isn't built: make/prove\n"))


if __name__ == "__main__":
    unittest.main()
