# SPDX-License-Identifier: BSD-3-Clause
"""Captures that are compressed, several of them, and those that come from standard input."""
import json
import shutil
import subprocess
import tempfile
import unittest
from pathlib import Path

from aclc_tools import packed
from tool import BUILT, EXAMPLES, tool

OFFICE, EDITED, CAPTURE = EXAMPLES / "office.rules", EXAMPLES / "edited.rules", EXAMPLES / "office.pcap"
# What each tool says of a file that ends too early.
SAID = {"gzip": "unexpected end of file", "zstd": "premature end", "lz4": "Unfinished stream"}
# Each command with its words before and after a capture, and what it tells of office.pcap.
COMMANDS = [("hits", [OFFICE], "", "packets 3 ip4 3"), ("explain", [OFFICE], "#2", "decides  line 3"),
            ("changes", [OFFICE, EDITED], "", "1 of 3 packets get another answer"),
            ("check", [OFFICE], "", ": 3 records are read")]
LINK = "link type is 105 (802.11); read are Ethernet, raw IP, IPv4, IPv6 and Linux cooked captures."


def compressed(name, content):
    """The bytes of a file that a tool compresses."""
    return subprocess.run([name, "-c"], input=content, stdout=subprocess.PIPE, check=True).stdout


class Folder(unittest.TestCase):
    def setUp(self):
        folder = tempfile.TemporaryDirectory()
        self.addCleanup(folder.cleanup)
        self.folder = Path(folder.name)

    def write(self, name, content):
        path = self.folder / name
        path.write_bytes(content)
        return path

    def need(self, name):
        if not shutil.which(name):
            self.skipTest(f"{name} isn't installed (Debian: apt-get install {name})")


@BUILT
class Compressed(Folder):
    def check_with(self, name):
        """Each command by a file without a telling name, by standard input, and by the half of a file."""
        self.need(name)
        content = compressed(name, CAPTURE.read_bytes())
        whole, cut = self.write("whole", content), self.write("cut", content[:-3])
        for command, words, after, told in COMMANDS:
            with self.subTest(command=command):
                code, lines, said = tool(command, *words, f"{whole}{after}")
                self.assertEqual((code, said), (int(command == "changes"), ""))
                self.assertIn(told, lines)
                stdin = tool(command, *words, f"-{after}", input=content)
                self.assertEqual(stdin, (code, lines.replace(str(whole), "/dev/stdin" if after else "-"), said))
                code, lines, said = tool(command, *words, f"{cut}{after}")
                self.assertEqual((code, "3" in lines.replace("3 rules", "").split()), (2, False))
                self.assertTrue(said.startswith(f"{command}: {cut}: {name} can't unpack it: "), said)
                self.assertIn(SAID[name], said)

    def test_gzip(self):
        self.check_with("gzip")

    def test_zstd(self):
        self.check_with("zstd")

    def test_lz4(self):
        self.check_with("lz4")

    def test_the_first_bytes_tell_and_not_the_name(self):
        plain = self.write("plain.gz", CAPTURE.read_bytes())
        self.assertEqual(tool("hits", OFFICE, plain), tool("hits", OFFICE, CAPTURE))

    def test_a_tool_that_is_not_there_is_named_with_its_package(self):
        packed_file = self.write("a", b"\x28\xb5\x2f\xfd" + bytes(40))
        code, lines, said = tool("hits", OFFICE, packed_file, env={"PATH": str(self.folder)})
        self.assertEqual((code, lines, said), (2, "", f"hits: {packed_file}: it is compressed by zstd, which isn't "
                                                      "installed (Debian: apt-get install zstd)\n"))

    def test_a_report_names_the_file_as_it_is(self):
        self.need("gzip")
        whole = self.write("a.pcap.gz", compressed("gzip", CAPTURE.read_bytes()))
        cut = self.write("b.pcap.gz", whole.read_bytes()[:-3])
        page = self.folder / "page"
        code, _, said = tool("report", OFFICE, whole, "-o", page)
        self.assertEqual((code, said), (0, ""))
        code, _, said = tool("report", OFFICE, cut, CAPTURE, "-o", page)
        self.assertEqual((code, said.startswith(f"report: {cut}: gzip can't unpack it: ")), (2, True))

    def test_nothing_is_left_behind(self):
        self.need("gzip")
        names = [self.write("a.gz", compressed("gzip", CAPTURE.read_bytes()))]
        names.append(self.write("b.gz", names[0].read_bytes()[:-3]))
        inside = self.folder / "inside"
        inside.mkdir()
        for name in names:
            tool("hits", OFFICE, name, env={"TMPDIR": str(inside)})
            self.assertEqual(list(inside.iterdir()), [])


class Told(unittest.TestCase):
    def test_frames_to_skip_are_skipped(self):
        skipped = b"\x50\x2a\x4d\x18" + (4).to_bytes(4, "little") + bytes(4)
        for start, found in ((b"\x28\xb5\x2f\xfd", "zstd"), (b"\x04\x22\x4d\x18", "lz4"), (b"\xd4\xc3\xb2\xa1", None)):
            for before in (b"", skipped, skipped * 2):
                self.assertEqual(packed.tool_for(before + start + bytes(20)), found)
        for head in (b"", b"\x1f", b"\x50\x2a\x4d\x18", b"\x50\x2a\x4d\x18" + b"\xff" * 8):
            self.assertIsNone(packed.tool_for(head))


@BUILT
class Several(Folder):
    def test_counts_are_of_all(self):
        self.need("gzip")
        again = self.write("again.gz", compressed("gzip", CAPTURE.read_bytes()))
        named = [CAPTURE], [CAPTURE, again, CAPTURE]
        told = [json.loads(tool("hits", "--json", OFFICE, *names)[1]) for names in named]
        self.assertEqual([3 * row["hits"] for row in told[0]["rules"]], [row["hits"] for row in told[1]["rules"]])
        self.assertEqual(3 * told[0]["unmatched"], told[1]["unmatched"])
        code, lines, _ = tool("check", OFFICE, CAPTURE, again)
        self.assertEqual((code, lines.count(": 3 records are read\n")), (0, 2))

    def test_each_refusal_names_its_file(self):
        cut = self.write("cut.pcap", CAPTURE.read_bytes()[:-1])
        for command, words, _, _ in COMMANDS[:1] + COMMANDS[2:3]:
            code, _, said = tool(command, *words, CAPTURE, cut)
            self.assertEqual((code, said.split("\n")[0]), (2, f"{command}: {cut}: aclc: capture: record 3: cut"))
            self.assertEqual(tool(command, *words, CAPTURE, "none")[::2],
                             (2, f"{command}: none: No such file or directory\n"))
        self.assertEqual(tool("check", OFFICE, CAPTURE, "none")[::2], (2, "check: none: No such file or directory\n"))

    def test_standard_input_may_have_several_packets_and_one_name(self):
        code, lines, _ = tool("explain", OFFICE, "-#1", "-#2", input=CAPTURE.read_bytes())
        self.assertEqual((code, lines.count("  decides  ")), (0, 2))
        for command, words in (("hits", [OFFICE, "-", "-"]), ("check", ["-", "-"]), ("explain", ["-", "-#1"])):
            self.assertEqual(tool(command, *words, input=OFFICE.read_bytes())[::2],
                             (2, f"{command}: standard input is named twice, and can be read once\n"))

    def test_a_link_type_that_is_not_read_has_its_sentence(self):
        content = bytearray(CAPTURE.read_bytes())
        content[20:22] = (105).to_bytes(2, "little")
        radio = self.write("radio.pcap", content)
        for command, words, after, _ in COMMANDS:
            code, lines, said = tool(command, *words, f"{radio}{after}")
            self.assertIn(f"{radio}: ", lines + said)
            self.assertIn(f"record 0: link type\n    Its {LINK}\n", lines + said)
        code, _, said = tool("report", OFFICE, radio, "-o", self.folder / "page")
        self.assertEqual((code, said), (2, f"report: {radio}: aclc: capture: record 0: link type\n    Its {LINK}\n"))


if __name__ == "__main__":
    unittest.main()
