# SPDX-License-Identifier: BSD-3-Clause
"""How many instructions and calls of the system runs of the built program take, beside what is stored.

Tables that are made twice, another walk than was asked for, or a call for each byte print the same lines, and show
here alone. More than a tenth above what data/counts.json has is refused. Below nine tenths of it, a line on standard
error says so. Then, or if a change has to cost more, this stores what the built program takes:

    RENEW=counts tools/tests/run test_counts
"""
import json
import os
import re
import shutil
import subprocess
import sys
import tempfile
import unittest
from pathlib import Path

from aclc_tools.program import TOP, built_program

sys.path.insert(0, str(TOP / "examples" / "faults"))
import calls
import runs

STORED = TOP / "tools" / "tests" / "data" / "counts.json"
EXAMPLES = TOP / "examples"
NO_VALGRIND = "valgrind isn't installed (Debian: apt-get install valgrind)"
LACK = calls.lack() or (None if shutil.which("valgrind") else NO_VALGRIND)
# The words of each run. The list `few` has 100 rules and `many` 1,000.
RUNS = {
    "scalar": ["classify", "few.rules", "few.pcap"],
    "lanes": ["classify", "few.rules", "few.pcap", "walk=lanes"],
    "marks": ["classify", "few.rules", "few.pcap", "marks=on", "categories=4"],
    "pcapng": ["classify", "mixed.rules", "long.pcapng"],
    "build": ["build", "many.rules", "new.image"],
    "replay": ["replay", "many.image", "many.pcap"],
    "audit": ["audit", "many.rules"],
    "session": ["session", "long.script"],
}
# A packet by lanes takes some 35 instructions more than by the other, of about 400, and the tables of the run the same.
LANES_TO_SCALAR = 1.02


def make_files(folder):
    """Writes what the runs read."""
    for name, count in (("few", 100), ("many", 1000)):
        rules = folder / f"{name}.rules"
        rules.write_bytes(runs.example("lists", "access", str(count), "1"))
        (folder / f"{name}.pcap").write_bytes(runs.example("packets", rules, "6000", "1"))
    shutil.copy(EXAMPLES / "mixed.rules", folder)
    # A section may follow another, and a script may begin again.
    (folder / "long.pcapng").write_bytes((EXAMPLES / "mixed.pcapng").read_bytes() * 500)
    (folder / "long.script").write_bytes((EXAMPLES / "own_layout.script").read_bytes() * 20)


@unittest.skipUnless(built_program(), "the program isn't built")
@unittest.skipIf(LACK, LACK)
class Counts(unittest.TestCase):
    @classmethod
    def setUpClass(cls):
        folder = tempfile.TemporaryDirectory()
        cls.addClassCleanup(folder.cleanup)
        cls.folder = Path(folder.name)
        make_files(cls.folder)
        cls.watched(["build", "many.rules", "many.image"])
        cls.counts = {name: {"instructions": cls.instructions(words), "calls": cls.calls_of(words)}
                      for name, words in RUNS.items()}

    @classmethod
    def watched(cls, words, *watcher):
        """What is told on standard error where the program is run, by a watcher."""
        return subprocess.run([*watcher, str(built_program().resolve()), *words], cwd=cls.folder, check=True, text=True,
                              stdout=subprocess.DEVNULL, stderr=subprocess.PIPE).stderr

    @classmethod
    def instructions(cls, words):
        told = cls.watched(words, "valgrind", "--tool=callgrind", "--callgrind-out-file=/dev/null")
        return int(re.search(r"Collected : (\d+)", told)[1])

    @classmethod
    def calls_of(cls, words):
        """The calls from the first one of the program itself on: what comes before is the loader's."""
        log = cls.folder / "calls.log"
        cls.watched(words, "strace", "-o", log)
        return log.read_text().partition('"/dev/null"')[2].count(" = ")

    def test_a_run_takes_no_more_than_is_stored(self):
        """Fails where a table is made twice, a packet is walked twice, or a call moves less than it may."""
        if os.environ.get("RENEW") == "counts":
            STORED.write_text(json.dumps(self.counts, indent=2) + "\n")
        stored = json.loads(STORED.read_text())
        self.assertEqual(stored.keys(), RUNS.keys())
        for name, kinds in self.counts.items():
            for kind, count in kinds.items():
                before = stored[name][kind]
                self.assertLessEqual(count, before * 1.1, f"{name}: {before} {kind} are stored. {__doc__}")
                if count < before * 0.9:
                    print(f"counts: {name}: {count} {kind}, and {before} are stored: store anew", file=sys.stderr)

    def test_the_walk_by_lanes_is_another_one(self):
        """Fails where `walk=lanes` silently takes the scalar walk, or the other way round."""
        scalar, lanes = (self.counts[name]["instructions"] for name in ("scalar", "lanes"))
        self.assertGreater(lanes, LANES_TO_SCALAR * scalar)


if __name__ == "__main__":
    unittest.main()
