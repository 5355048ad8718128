# SPDX-License-Identifier: BSD-3-Clause
"""How the tools begin and end: odd names and bytes, and signals."""
import os
import signal
import subprocess
import sys
import tempfile
import time
import unittest
from pathlib import Path

from aclc_tools.program import TOP, built_program
from tool import BUILT, DATA, EXAMPLES, tool

SAVED = (DATA / "gateway.iptables-save").read_bytes() + b"*raw\nCOMMIT\n"


class Ends(unittest.TestCase):
    def setUp(self):
        folder = tempfile.TemporaryDirectory()
        self.addCleanup(folder.cleanup)
        self.folder = Path(folder.name)

    @BUILT
    def test_a_signal_leaves_no_file_with_the_rules(self):
        for number in (signal.SIGTERM, signal.SIGHUP):
            reading, writing = os.pipe()
            started = subprocess.Popen([sys.executable, str(TOP / "tools" / "hits"), str(EXAMPLES / "office.rules"), "-"],
                                       stdin=reading, stdout=subprocess.DEVNULL, stderr=subprocess.PIPE,
                                       env={**os.environ, "TMPDIR": str(self.folder), "ACLC": str(built_program())})
            os.close(reading)
            deadline = time.monotonic() + 60
            while not list(self.folder.glob("aclc-*/*.rules")) and time.monotonic() < deadline:
                time.sleep(0.05)
            self.assertTrue(list(self.folder.glob("aclc-*/*.rules")))
            # It reads the capture by then.
            time.sleep(2)
            started.send_signal(number)
            said = started.communicate()[1]
            os.close(writing)
            self.assertEqual((started.returncode, said, list(self.folder.iterdir())), (128 + number, b"", []))

    def test_a_fault_of_a_tool_is_no_answer_and_has_its_place(self):
        """Python would end with 1, which tells of a difference. What the system refuses has its words alone."""
        for raised, said in (("{}['x']", r"a fault of this tool: KeyError: 'x' \(<string>, line 1\)"),
                             ("struct.unpack('B', b'')", r"a fault of this tool: error: unpack .*, line 1\)"),
                             ("open('/nosuch')", "No such file or directory")):
            code = f"import struct; from aclc_tools.printing import end_of; end_of(lambda: {raised}, 2)"
            done = subprocess.run([sys.executable, "-c", code], cwd=TOP / "tools", stdout=subprocess.PIPE,
                                  stderr=subprocess.PIPE)
            self.assertEqual((done.returncode, done.stdout), (2, b""))
            self.assertRegex(done.stderr.decode(), rf"^\S+: {said}\n$")

    @BUILT
    def test_a_name_that_begins_with_a_dash_stands_after_two(self):
        (self.folder / "-odd").write_bytes((EXAMPLES / "office.rules").read_bytes())
        for name, words in (("dead", ["--", "-odd"]), ("check", ["--quiet", "--", "-odd"]), ("same", ["--", "-odd", "-odd"]),
                            ("hits", ["--", "-odd", EXAMPLES / "office.pcap"])):
            self.assertEqual(tool(name, *words, cwd=self.folder, env={"ACLC_LISTS": ""})[::2], (0, ""), name)

    def test_bytes_of_another_encoding_are_no_reason_to_refuse_a_list(self):
        told = SAVED.replace(b"a network that sends", b"caf\xe9")
        code, printed, said = tool("convert", "iptables", "--chain", "FORWARD", "-", input=told)
        self.assertEqual((code, said), (0, ""))
        self.assertIn("--comment \"caf\\xe9 \\\"noise\\\"\" -j DROP", printed)

    @BUILT
    def test_such_bytes_are_shown_escaped(self):
        (self.folder / "fw").write_bytes(SAVED.replace(b"a network that sends", b"caf\xe9"))
        code, printed, said = tool("hits", "--chain", "FORWARD", self.folder / "fw", EXAMPLES / "office.pcap")
        self.assertEqual((code, said, "caf\\xe9" in printed), (0, "", True))


if __name__ == "__main__":
    unittest.main()
