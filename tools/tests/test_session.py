# SPDX-License-Identifier: BSD-3-Clause
"""The example of `session`: its script and replies stand once more in a crate that the gate runs, and in LISTS_ALONE."""
import re
import subprocess
import unittest

from aclc_tools.program import TOP, built_program

SCRIPT = TOP / "examples" / "own_layout.script"
REPLIES = TOP / "examples" / "own_layout.replies"
RUN = TOP / "crates" / "commands_run"


def calls():
    """The lines of the script that are answered."""
    return [line for line in SCRIPT.read_text().splitlines() if re.match("[a-z]", line)]


class Session(unittest.TestCase):
    def test_the_gate_runs_the_example(self):
        self.assertEqual((RUN / "data" / SCRIPT.name).read_bytes(), SCRIPT.read_bytes())
        self.assertTrue((RUN / "stdout").read_bytes().endswith(b")\n" + REPLIES.read_bytes() + b"ExitCode(unix_exit_status(0))\n"))

    def test_the_page_has_each_line_beside_its_reply(self):
        replies = REPLIES.read_text().splitlines()
        self.assertEqual(len(calls()), len(replies))
        page = (TOP / "docs" / "LISTS_ALONE.md").read_text(encoding="utf-8").split("## Fields of your own\n", 1)[1]
        block = re.search(r"(?s)```console\n(.*?)```", page)[1].splitlines()
        rows = [f"{line}\t{reply}".expandtabs(36) for line, reply in zip(calls(), replies)]
        self.assertEqual([line for line in block if not line.startswith("$")], rows)

    @unittest.skipUnless(built_program(), "the program isn't built")
    def test_the_built_program_prints_the_replies(self):
        done = subprocess.run([str(built_program()), "session", str(SCRIPT)], stdout=subprocess.PIPE, stderr=subprocess.PIPE)
        self.assertEqual((done.returncode, done.stdout, done.stderr), (0, REPLIES.read_bytes(), b""))

    @unittest.skipUnless(built_program(), "the program isn't built")
    def test_a_rule_file_has_a_bad_line_for_each_rule(self):
        done = subprocess.run([str(built_program()), "session", str(TOP / "examples" / "office.rules")], stdout=subprocess.PIPE)
        self.assertEqual((done.returncode, done.stdout), (0, b"bad line\n" * 3))


if __name__ == "__main__":
    unittest.main()
