# SPDX-License-Identifier: BSD-3-Clause
"""The built program where standard streams are closed when it begins: any of the three, of `classify` and `build`. And
where a capture is a pipe into which packets come one by one."""
import itertools
import os
import re
import select
import shutil
import struct
import subprocess
import sys
import tempfile
import unittest
from pathlib import Path

from aclc_tools.program import TOP, built_program

sys.path.insert(0, str(TOP / "examples" / "faults"))
import calls

LACK = calls.lack()
OPENED = re.compile(r'^openat\(AT_FDCWD, "([^"]*)",.* = (\d+)$', re.M)
LAST_STREAM = 2
CLOSED = [streams for count in range(4) for streams in itertools.combinations(range(LAST_STREAM + 1), count)]
# The words of a command, and the streams that it can't do without. `build` prints nothing.
COMMANDS = [
    (["classify", "office.rules", "office.pcap"], {1}),
    (["build", "office.rules", "made.image"], set()),
]


@unittest.skipUnless(built_program(), "the program isn't built")
class Streams(unittest.TestCase):
    def setUp(self):
        self.folder = Path(tempfile.mkdtemp())
        self.addCleanup(shutil.rmtree, self.folder)
        for name in ("office.rules", "office.pcap"):
            # It may be written to, so that lines which went there would be seen.
            shutil.copy(TOP / "examples" / name, self.folder)
        self.whole = {words[0]: self.run_without((), words) for words, _ in COMMANDS}

    def run_without(self, streams, words, before=()):
        """What a run with these streams closed printed and told, its exit code, and the files of the folder."""
        (self.folder / "made.image").unlink(missing_ok=True)
        closed = "".join(f"exec {stream}>&-; " for stream in streams)
        done = subprocess.run([*before, "sh", "-c", closed + 'exec "$0" "$@"', str(built_program().resolve()), *words],
                              cwd=self.folder, stdin=subprocess.DEVNULL, stdout=subprocess.PIPE, stderr=subprocess.PIPE)
        files = {path.name: path.read_bytes() for path in self.folder.iterdir() if path.suffix != ".log"}
        return done.returncode, done.stdout, done.stderr, files

    def test_a_closed_stream_takes_no_byte_and_no_file_is_changed(self):
        for (words, needed), streams in itertools.product(COMMANDS, CLOSED):
            code, lines, told, files = self.whole[words[0]]
            self.assertEqual((code, told), (0, b""), words)
            if needed & set(streams):
                code, lines, told = 8, b"", b"" if LAST_STREAM in streams else b"aclc: write fault\n"
            self.assertEqual(self.run_without(streams, words), (code, lines, told, files), (words, streams))

    @unittest.skipIf(LACK, LACK)
    def test_no_file_gets_the_number_of_a_stream(self):
        """Fails where a closed stream isn't held, or only until the files are opened: then a file gets its number, and
        what is told goes into the image."""
        log = self.folder / "opened.log"
        for (words, _), streams in itertools.product(COMMANDS, CLOSED):
            self.run_without(streams, words, ["strace", "-o", log, "-e", "trace=openat"])
            opened = [(name, int(number)) for name, number in OPENED.findall(log.read_text())]
            held = [number for name, number in opened if name == "/dev/null" and number <= LAST_STREAM]
            self.assertEqual(held, list(streams), (words, streams))
            named = [number for name, number in opened if name in words]
            self.assertEqual(len(named), 2, (words, streams))
            self.assertGreater(min(named), LAST_STREAM, (words, streams))


# How long a line may take to come, in seconds, and how many bytes of the next packet stand in the pipe meanwhile.
LINE_TIME, BYTES_AHEAD = 20, 9
PCAPNG_SECTION, PCAPNG_PACKET = b"\x0a\x0d\x0d\x0a", 6


def pcap_ends(capture):
    """Where each record of a little-endian savefile ends."""
    at, ends = 24, []
    while at < len(capture):
        at += 16 + struct.unpack_from("<I", capture, at + 8)[0]
        ends.append(at)
    return ends


def pcapng_ends(capture):
    """Where each packet of a pcapng file ends, whose sections have either order."""
    at, ends, order = 0, [], "<"
    while at < len(capture):
        if capture[at:at + 4] == PCAPNG_SECTION:
            order = "<" if capture[at + 8] == 0x4D else ">"
        kind, length = struct.unpack_from(order + "II", capture, at)
        at += length
        if kind == PCAPNG_PACKET:
            ends.append(at)
    return ends


ENDS = {"mixed.pcap": pcap_ends, "mixed.pcapng": pcapng_ends}


@unittest.skipUnless(built_program(), "the program isn't built")
class Pipes(unittest.TestCase):
    def classify(self, capture):
        """A run over the capture of the examples, or of its standard input."""
        words = [str(built_program().resolve()), "classify", "mixed.rules", capture]
        return subprocess.Popen(words, cwd=TOP / "examples", bufsize=0, stdin=subprocess.PIPE, stdout=subprocess.PIPE)

    def line_of(self, lines):
        """The next line of a pipe, which has to come while nothing is written."""
        line = b""
        while not line.endswith(b"\n"):
            self.assertTrue(select.select([lines], [], [], LINE_TIME)[0], f"no line came, but {line}")
            byte = os.read(lines.fileno(), 1)
            self.assertTrue(byte, f"the lines ended in {line}")
            line += byte
        return line

    def test_the_line_of_a_packet_comes_before_the_next_packet(self):
        """Fails where a read of the capture waits while a line is outstanding: each packet is written once the line of
        the one before came, and of the next one its first bytes."""
        for name, ends_of in ENDS.items():
            capture = (TOP / "examples" / name).read_bytes()
            whole, _ = self.classify(name).communicate()
            ends, lines = ends_of(capture), whole.splitlines(keepends=True)
            self.assertEqual(len(lines), len(ends) + 1, name)
            with self.classify("/dev/stdin") as run:
                written = 0
                for end, line in zip(ends, lines):
                    run.stdin.write(capture[written:end + BYTES_AHEAD])
                    written = end + BYTES_AHEAD
                    self.assertEqual(self.line_of(run.stdout), line, name)
                rest, _ = run.communicate(capture[written:])
            self.assertEqual((rest, run.returncode), (lines[-1], 0), name)

    def test_how_a_capture_is_cut_changes_no_line(self):
        for name in ENDS:
            capture = (TOP / "examples" / name).read_bytes()
            whole, _ = self.classify(name).communicate()
            for size in (1, 7, 100):
                with self.classify("/dev/stdin") as run:
                    for at in range(0, len(capture), size):
                        run.stdin.write(capture[at:at + size])
                    self.assertEqual(run.communicate(b"")[0], whole, (name, size))


if __name__ == "__main__":
    unittest.main()
