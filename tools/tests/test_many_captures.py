# SPDX-License-Identifier: BSD-3-Clause
"""The scripts of examples/many_captures: odd names, parts, what wasn't answered, pieces and machines."""
import os
import shutil
import signal
import subprocess
import tempfile
import time
import unittest
from pathlib import Path

from aclc_tools.program import TOP, built_program, run

EXAMPLES = TOP / "examples"
HERE = EXAMPLES / "many_captures"
BUILT = unittest.skipUnless(built_program(), "the program isn't built")
ODD = ("a b.pcap", "it's.pcap", "$HOME.pcap", "$(touch made).pcap", 'a"b;c.pcap', "*.pcap", "-x.pcap", "one\ntwo.pcap")
SUMS = "captures %d packets %d ip4 %d ip6 0 other 0 short 0\n"
# Stands for ssh: the machine down can't be reached, and the machine lost is lost after the first line of an answer.
REACH = """#!/bin/sh
while [ "$1" = -o ]; do shift 2; done
echo "$1" >> "$LOG"
case $1 in
    down) exit 255 ;;
    lost) case $2 in *replay*) echo 1 ip4 999; exit 255 ;; esac ;;
esac
exec sh -c "$2"
"""


class Folder(unittest.TestCase):
    """A folder with an image and captures, both with odd names."""

    def setUp(self):
        self.folder = Path(tempfile.mkdtemp())
        self.addCleanup(shutil.rmtree, self.folder)
        for name in ODD:
            shutil.copy(EXAMPLES / "office.pcap", self.folder / name)
        self.names, self.expected = list(ODD), (EXAMPLES / "office.expected").read_bytes()
        if built_program():
            run("build", EXAMPLES / "office.rules", self.folder / "an image", path=built_program())

    def script(self, name, *words, image="an image", **more):
        env = {**os.environ, "ACLC": str(built_program()), "WITH": "xargs", **more}
        done = subprocess.run([str(HERE / name), *([image] if image else []), *words], cwd=self.folder, env=env,
                              stdout=subprocess.PIPE, stderr=subprocess.PIPE)
        return done.returncode, done.stdout.decode(), done.stderr.decode()

    def write(self, name, text):
        file = self.folder / name
        file.write_text(text)
        file.chmod(0o755)
        return str(file)

    def content(self):
        return {file.name: file.read_bytes() for file in self.folder.iterdir()}

    def answers(self):
        return {name: self.expected for name in (f"{capture}.lines" for capture in self.names)}


class Names(Folder):
    def check_with(self, way):
        before = self.content()
        count = len(ODD)
        self.assertEqual(self.script("run", *ODD, WITH=way), (0, SUMS % (count, 3 * count, 3 * count), ""))
        self.assertEqual(self.content(), {**before, **self.answers()})
        self.assertEqual(self.script("unanswered", *ODD), (0, f"captures {count} answered {count} unanswered 0\n", ""))

    @BUILT
    def test_names_may_have_any_sign_by_xargs(self):
        self.check_with("xargs")

    @BUILT
    @unittest.skipUnless(shutil.which("parallel"), "parallel isn't installed")
    def test_names_may_have_any_sign_by_parallel(self):
        self.check_with("parallel")


class Whole(Folder):
    def test_lines_without_a_packets_line_are_no_answer(self):
        program = self.write("program", "#!/bin/sh\necho 1 ip4 101\n")
        code, _, said = self.script("run", "a b.pcap", ACLC=program)
        self.assertEqual((code, said), (1, "run: a b.pcap: code 1: the lines can't be written\n"))
        self.assertFalse((self.folder / "a b.pcap.lines").exists())
        self.assertEqual((self.folder / "a b.pcap.lines.part").read_bytes(), b"1 ip4 101\n")

    def test_a_run_that_is_killed_leaves_no_answer(self):
        program = self.write("program", "#!/bin/sh\necho 1 ip4 101\necho packets 1\ntouch begun\nexec sleep 60\n")
        words = [str(HERE / "run"), "--one", "an image", "a b.pcap"]
        one = subprocess.Popen(words, cwd=self.folder, env={**os.environ, "ACLC": program}, start_new_session=True)
        while not (self.folder / "begun").exists():
            time.sleep(0.02)
        os.killpg(one.pid, signal.SIGKILL)
        one.wait()
        self.assertFalse((self.folder / "a b.pcap.lines").exists())
        code, said, _ = self.script("unanswered", "a b.pcap")
        self.assertEqual((code, said.split(", begun on ")[0]), (1, "a b.pcap: not ended"))

    @BUILT
    def test_two_runs_of_a_capture_leave_one_whole_answer(self):
        self.names = ["a b.pcap"]
        before = self.content()
        self.assertEqual(self.script("run", *self.names * 8, JOBS="8")[0], 0)
        self.assertEqual(self.content(), {**before, **self.answers()})


class Unanswered(Folder):
    @BUILT
    def test_each_reason_is_told(self):
        cut = self.folder / "cut.pcap"
        cut.write_bytes((self.folder / "*.pcap").read_bytes()[:-1])
        names = ["a b.pcap", "it's.pcap", "$HOME.pcap", "*.pcap", "cut.pcap", "none.pcap"]
        self.assertEqual(self.script("run", *names[:5])[0], 1)
        (self.folder / "a b.pcap.lines").unlink()
        (self.folder / "it's.pcap.lines").write_bytes(self.expected[:-20])
        os.utime(self.folder / "$HOME.pcap.lines", (1, 1))
        listed = ["a b.pcap: no answer", "it's.pcap: not whole", "$HOME.pcap: an answer of an earlier run",
                  "cut.pcap: code 5: aclc: capture: record 3: cut", "none.pcap: no answer",
                  "captures 6 answered 1 unanswered 5"]
        self.assertEqual(self.script("unanswered", *names), (1, "".join(line + "\n" for line in listed), ""))
        left = "".join(name + "\0" for name in names if name != "*.pcap")
        self.assertEqual(self.script("unanswered", "an image", *names, image="--null"), (1, left, ""))

    @BUILT
    def test_an_answer_of_another_run_does_not_hide_a_fault(self):
        capture = self.folder / "a b.pcap"
        self.assertEqual(self.script("run", capture.name)[0], 0)
        whole = capture.read_bytes()
        for content, code in ((whole[:-1], 1), (whole, 0)):
            capture.write_bytes(content)
            self.assertEqual(self.script("run", capture.name)[0], code)
            self.assertEqual(self.script("unanswered", capture.name)[0], code)
            self.assertEqual((self.folder / "a b.pcap.lines").read_bytes(), self.expected)


class Pieces(Folder):
    @BUILT
    def test_the_answers_of_pieces_are_that_of_the_whole(self):
        whole = (EXAMPLES / "office.pcap").read_bytes()
        pieces = {"1": whole, "2": whole[:24], "3": whole, "10": whole}
        for name, content in pieces.items():
            (self.folder / name).write_bytes(content)
        (self.folder / "whole").write_bytes(whole + whole[24:] + whole[24:])
        for options in ("", "categories=4", "stats=on"):
            self.assertEqual(self.script("run", "whole", *pieces, OPTIONS=options)[0], 0)
            code, lines, said = self.script("joined", *pieces, image=None)
            self.assertEqual((code, lines, said), (0, (self.folder / "whole.lines").read_text(), ""))

    def test_numbers_are_exact_where_they_are_great(self):
        for name, count in (("1", 4000000000), ("2", 3000000001)):
            lines = f"{count} ip4 7\npackets {count} ip4 {count} ip6 0 other 0 short 0\n"
            (self.folder / f"{name}.lines").write_text(lines)
        lines = "4000000000 ip4 7\n7000000001 ip4 7\npackets 7000000001 ip4 7000000001 ip6 0 other 0 short 0\n"
        self.assertEqual(self.script("joined", "1", "2", image=None), (0, lines, ""))

    @BUILT
    def test_without_a_piece_nothing_is_printed(self):
        self.script("run", "a b.pcap")
        self.assertEqual(self.script("joined", "a b.pcap", "*.pcap", image=None)[:2], (1, ""))


class Machines(Folder):
    """Machines that are reached by a script instead of ssh."""

    def over(self, machines, *captures, **more):
        self.write("reach", REACH)
        temporary = self.folder / "tmp"
        temporary.mkdir(exist_ok=True)
        words = {"SSH": str(self.folder / "reach"), "LOG": str(self.folder / "log"), "TMPDIR": str(temporary), **more}
        done = self.script("over_ssh", "an image", *captures, image=machines, **words)
        self.assertEqual(list(temporary.iterdir()), [])
        return done

    @BUILT
    def test_captures_are_answered_and_left(self):
        self.over("one", "a b.pcap")
        before = {name: content for name, content in self.content().items() if name != "log"}
        count = len(ODD)
        self.assertEqual(self.over("one,two", *ODD), (0, SUMS % (count, 3 * count, 3 * count), ""))
        now = self.content()
        machines = now.pop("log").split()
        self.assertEqual(now, {**before, **self.answers()})
        self.assertGreater(min(machines.count(name) for name in (b"one", b"two")), 2)

    def content(self):
        return {file.name: file.read_bytes() for file in self.folder.iterdir() if file.is_file()}

    @BUILT
    def test_another_machine_answers_what_one_did_not(self):
        code, sums, said = self.over("down,lost,one", *ODD, JOBS="2")
        self.assertEqual((code, sums), (0, SUMS % (len(ODD), 3 * len(ODD), 3 * len(ODD))))
        self.assertIn("over_ssh: down is left out\n", said)
        self.assertIn("code 255", said)
        self.assertEqual({**self.content(), **self.answers()}, self.content())
        self.assertEqual(self.script("unanswered", *ODD)[0], 0)

    @BUILT
    def test_what_no_machine_answers_is_told(self):
        code, sums, said = self.over("lost", "a b.pcap")
        self.assertEqual((code, sums), (1, "captures 0\n"))
        self.assertIn("over_ssh: a b.pcap: no machine can be reached\n", said)
        self.assertFalse((self.folder / "a b.pcap.lines").exists())
        self.assertEqual(self.script("unanswered", "a b.pcap")[1].split("\n")[0], "a b.pcap: code 255: ")
        self.assertEqual(self.over("down", "a b.pcap")[:2], (1, ""))
        code, _, said = self.over("one", "a b.pcap", ACLC="/nosuch")
        self.assertEqual((code, said.split("\n")[0]), (1, "/nosuch is no program there"))

    @BUILT
    def test_a_refused_capture_is_not_tried_again(self):
        (self.folder / "cut.pcap").write_bytes((self.folder / "*.pcap").read_bytes()[:-1])
        code, _, said = self.over("one,two", "cut.pcap", "none.pcap")
        self.assertEqual(code, 1)
        self.assertEqual(said.count("run: cut.pcap: code 5: aclc: capture: record 3: cut\n"), 1)
        self.assertEqual(said.count("run: none.pcap: code "), 1)


class SlurmTask(Folder):
    @BUILT
    def test_a_task_answers_its_ten(self):
        names = [f"{number} of 12.pcap" for number in range(12)]
        for name in names:
            shutil.copy(EXAMPLES / "office.pcap", self.folder / name)
        (self.folder / "names").write_text("".join(name + "\n" for name in names))
        for task, count in (("2", 2), ("1", 10)):
            done = self.script("slurm_task", "names", SLURM_ARRAY_TASK_ID=task)
            self.assertEqual(done[:2], (0, SUMS % (count, 3 * count, 3 * count)))
            self.assertEqual(len(list(self.folder.glob("*of 12.pcap.lines"))), 2 if task == "2" else 12)
        self.assertEqual(self.script("slurm_task", "names", SLURM_ARRAY_TASK_ID="")[0], 1)
        self.assertEqual(self.script("slurm_task", "names", SLURM_ARRAY_TASK_ID="3")[0], 1)


if __name__ == "__main__":
    unittest.main()
