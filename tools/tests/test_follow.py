# SPDX-License-Identifier: BSD-3-Clause
"""Captures that are counted while they come: by a pipe that is written slowly, and cut at any place."""
import csv
import json
import os
import signal
import subprocess
import sys
import tempfile
import time
import unittest
from pathlib import Path

import drawn
from aclc_tools import blocks, capture, live
from aclc_tools.program import TOP, built_program
from tool import BUILT, EXAMPLES, tool

OFFICE, CAPTURE = EXAMPLES / "office.rules", EXAMPLES / "office.pcap"
CONTENT, MIXED = CAPTURE.read_bytes(), (EXAMPLES / "mixed.pcapng").read_bytes()
FRAMES = [frame for frame, _ in capture.records(CONTENT)]


def records_of(content):
    """The records of a capture, each with its link type and its time."""
    return list(capture.records_with_times(content)) if content else []


class Cutting(unittest.TestCase):
    def pieces_of(self, content, draw):
        """The captures that are cut off where bytes come in drawn amounts."""
        cut, found, at = live.Cut(), [], 0
        while at < len(content):
            size = draw.choice([1, 3, 16, 40, 200])
            cut.add(content[at:at + size])
            at += size
            if draw.random() < 0.3:
                found.append(cut.take())
        cut.end()
        return cut, [*found, cut.take()]

    def test_all_records_are_in_the_pieces_wherever_they_are_cut(self):
        draw = drawn.chances(31)
        again = MIXED + blocks.write(FRAMES)
        for content in (CONTENT, (EXAMPLES / "mixed.pcap").read_bytes(), MIXED, again, blocks.write(FRAMES * 9, 101)):
            for _ in range(30):
                cut, found = self.pieces_of(content, draw)
                self.assertEqual([it for piece in found for it in records_of(piece)], records_of(content))
                self.assertEqual((cut.fault, bytes(cut.rest), cut.count), (None, b"", len(records_of(content))))

    def test_what_is_not_whole_is_a_fault_and_the_rest_counts(self):
        for content, count, kind in ((CONTENT[:-1], 2, "cut"), (CONTENT[:30], 0, "cut"), (CONTENT[:20], 0, "cut"),
                                     (b"", 0, "header cut"), (blocks.write(FRAMES)[:-4], 2, "cut"),
                                     (b"a text of many words, no capture", 0, "magic"),
                                     (CONTENT[:24] + bytes(8) + b"\xff" * 8, 0, "too long"),
                                     (blocks.write(FRAMES) + b"\1\0\0\0\xff\0\0\0" + bytes(8), 3, "block length")):
            cut = live.Cut()
            cut.add(content)
            if not cut.fault:
                cut.end()
            self.assertEqual((len(records_of(cut.take())), cut.fault.kind), (count, kind), content[:30])


@BUILT
class Following(unittest.TestCase):
    def setUp(self):
        folder = tempfile.TemporaryDirectory()
        self.addCleanup(folder.cleanup)
        self.folder = Path(folder.name)

    def start(self, *words):
        """The tool with a pipe to write to, and a folder of its own for temporary files."""
        return subprocess.Popen([sys.executable, str(TOP / "tools" / "hits"), *words, str(OFFICE), "-"],
                                stdin=subprocess.PIPE, stdout=subprocess.PIPE, stderr=subprocess.PIPE,
                                env={**os.environ, "TMPDIR": str(self.folder), "ACLC": str(built_program()),
                                     "ACLC_LISTS": "", "TZ": "UTC"})

    def written_slowly(self, *words, ends=None):
        """What the tool tells of a capture that comes in three parts, with a wait after each, of which the second and
        the third divide a packet; then the pipe is closed, or a signal sent."""
        started = self.start("--follow", "1s", *words)
        lines = []
        middle = 24 + (len(CONTENT) - 24) // 2
        for part in (CONTENT[:24], CONTENT[24:middle], CONTENT[middle:]):
            started.stdin.write(part)
            started.stdin.flush()
            lines.append(started.stdout.readline())
            time.sleep(1.2)
        if ends:
            started.send_signal(ends)
            lines.append(started.stdout.read())
            said = started.stderr.read()
            started.stdin.close()
        else:
            out, said = started.communicate()
            lines.append(out)
        started.stdout.close()
        started.stderr.close()
        self.assertEqual(list(self.folder.iterdir()), [])
        return started.wait(), b"".join(lines).decode().splitlines(), said.decode()

    def test_json_has_a_line_for_each_interval_and_the_totals(self):
        whole = json.loads(tool("hits", "--json", OFFICE, CAPTURE)[1])
        for ends in (None, signal.SIGINT, signal.SIGTERM):
            code, lines, said = self.written_slowly("--json", ends=ends)
            told = [json.loads(line) for line in lines]
            self.assertEqual((code, said, told[-1]), (0, "", whole))
            self.assertGreater(len(told), 2)
            self.assertEqual(sum(it["packets"] for it in told[:-1]), 3)
            self.assertGreater(sum(it["packets"] > 0 for it in told[:-1]), 1)
            hits = [sum(row["hits"] for it in part for row in it["rules"]) for part in (told[:-1], [whole])]
            self.assertEqual(*hits)
            self.assertEqual([it["begins"] for it in told[:-1]], sorted(it["begins"] for it in told[:-1]))
            self.assertTrue(told[0]["begins"].endswith("+00:00"))

    def test_text_ends_with_the_totals(self):
        code, lines, said = self.written_slowly(ends=signal.SIGTERM)
        whole = tool("hits", OFFICE, CAPTURE)[1].splitlines()
        self.assertEqual((code, said, lines[-len(whole):]), (0, "", whole))
        self.assertEqual(" ".join(lines[0].split()), "begins packets hits of each line")
        self.assertGreater(len(lines), len(whole) + 2)

    def test_csv_has_the_rows_of_each_interval(self):
        rows = list(csv.DictReader(self.written_slowly("--csv")[1]))
        hits = [sum(int(row["hits"]) for row in rows if row["line"] == it) for it in ("2", "3", "4", "")]
        self.assertEqual(hits, [1, 1, 0, 1])
        self.assertGreater(len({row["begins"] for row in rows}), 1)

    def test_a_capture_that_ends_within_a_packet_is_refused_after_the_totals(self):
        code, lines, said = tool("hits", "--follow", "60", OFFICE, "-", input=CONTENT[:-1])
        self.assertEqual((code, said), (2, f"hits: -: record 3: cut\n    {live.CUT}\n"))
        self.assertIn("packets 2 ip4 2", lines)

    def test_a_capture_of_blocks_is_followed(self):
        rules = EXAMPLES / "mixed.rules"
        lines = tool("hits", "--follow", "60", "--json", rules, "-", input=MIXED)[1].splitlines()
        self.assertEqual(json.loads(lines[-1]), json.loads(tool("hits", "--json", rules, EXAMPLES / "mixed.pcapng")[1]))

    def test_what_the_program_refuses_is_told_with_its_interval(self):
        frame = blocks.write(FRAMES)
        code, _, said = tool("hits", "--follow", "60", "--utc", OFFICE, "-", input=frame[:-4] + b"\1\0\0\0")
        self.assertEqual(code, 2)
        self.assertRegex(said, r"^hits: -: of what came from \S+ \S+\+00:00 on: aclc: capture: record 3: block length\n"
                               "    The block's two lengths differ")

    def test_one_capture_is_followed_without_over(self):
        for words in (["--over", "60s", OFFICE, "-"], [OFFICE, "-", CAPTURE]):
            code, lines, said = tool("hits", "--follow", "10", *words, input=b"")
            self.assertEqual((code, lines), (2, ""))
            self.assertIn("--follow counts one capture while it comes, and has no --over", said)
        self.assertEqual(tool("hits", "--follow", "10", OFFICE, "none")[::2],
                         (2, "hits: none: No such file or directory\n"))


if __name__ == "__main__":
    unittest.main()
