# SPDX-License-Identifier: BSD-3-Clause
"""The page of mistakes: each row is one that is tried, and what the program says of it."""
import os
import re
import resource
import subprocess
import tempfile
import unittest
from pathlib import Path

import list_mistakes
import mistakes
from aclc_tools import blocks, capture, keys, program
from aclc_tools.program import TOP, built_program, run
from tool import BUILT, EXAMPLES

PAGE = TOP / "docs" / "MISTAKES.md"
ORDER = [b"@10.0.0.0/8 0.0.0.0/0 0:65535 80:80 6/0xFF\n", b"@11.0.0.0/8 0.0.0.0/0 0:65535 80:80 6/0xFF\n"]


def rows(text):
    """The rows of the page, each after the heading that it stands under."""
    found, heading = [], ""
    for line in text.split("\n"):
        heading = line.lstrip("#").strip() if line.startswith("#") else heading
        found += [(heading, line[2:])] if line.startswith("- ") else []
    return found


def tried():
    """The headings and the beginnings of all rows that are tried."""
    kinds = [(it[0].split(": ")[-1], it[1])
             for it in mistakes.RULES + mistakes.CAPTURES + mistakes.WORDS + mistakes.LARGE]
    kinds += [(kind, title) for kind, title, _ in mistakes.FILES] + [("read fault", mistakes.CLOSED)]
    alone = [it[1] for it in mistakes.IMAGES] + [it[0] for it in mistakes.REPLIES + mistakes.WARNED
                                                 + mistakes.SURPRISES] + list_mistakes.TITLES
    alone += [it[2] for it in mistakes.OTHERS if it[2]]
    alone += [mistakes.ALL_BAD, mistakes.LONG, mistakes.MANY, mistakes.MEMORY, mistakes.NAME, mistakes.STACK,
              mistakes.SCRIPT,
              mistakes.BUILT_OVER, mistakes.ORDER, mistakes.NO_PACKET, mistakes.SIMPLE]
    return kinds, alone


def frames(*content):
    """What the bytes of a capture are written of."""
    return capture.write(list(content))


class Page(unittest.TestCase):
    def test_each_row_is_tried_and_each_mistake_is_a_row(self):
        listed, (kinds, alone) = rows(PAGE.read_text(encoding="utf-8")), tried()
        headings = {kind for kind, _ in kinds}
        for heading, text in listed:
            titles = [title for kind, title in kinds if kind == heading] if heading in headings else alone
            self.assertTrue([title for title in titles if text.startswith(f"{title}: ")], f"{heading}: {text}")
        for kind, title in kinds:
            self.assertTrue([text for heading, text in listed if heading == kind and text.startswith(f"{title}: ")],
                            (kind, title))
        for title in alone:
            self.assertTrue([text for _, text in listed if text.startswith(f"{title}: ")], title)


class Lists(unittest.TestCase):
    def test_each_message_of_the_program_of_lists_has_a_row(self):
        source = (TOP / "crates" / "list_tool" / "src" / "message.rt").read_text(encoding="utf-8")
        kinds = set(re.findall(r'(?:Kind|Fault)::\w+(?:\(\w+\))? => b"([^"]*)"', source))
        page = (TOP / "docs" / "MISTAKES.md").read_text(encoding="utf-8")
        part = page[page.index("## Lists: exit code 3"):page.index("## Captures: exit code 5")]
        rows = {kind for row in re.findall(r"(?m)^- ((?:`[^`]+`, )*`[^`]+`): ", part) for kind in re.findall(r"`([^`]+)`", row)}
        self.assertGreater(len(kinds), 70)
        self.assertEqual(kinds - rows, set())

    @unittest.skipUnless(program.list_program(), "the program aclc-lists isn't built")
    def test_each_row_on_lists_is_what_the_program_says(self):
        tried = [(form, *row) for form, rows in list_mistakes.FORMS.items() for row in rows]
        tried += [("iptables", title, list_mistakes.of_hosts(count), said) for title, count, said in list_mistakes.LARGE]
        for form, title, lines, said, *chain in tried:
            done = subprocess.run([program.list_program(), form, "/dev/stdin", *(chain or ["INPUT"])],
                                  input=lines.encode(), stdout=subprocess.PIPE, stderr=subprocess.PIPE)
            self.assertEqual((done.returncode, done.stdout, done.stderr.decode().split("\n")[0]),
                             (3, b"", f"aclc-lists: list: {said}"), title)


@BUILT
class Tried(unittest.TestCase):
    def setUp(self):
        self.folder = tempfile.TemporaryDirectory()
        self.addCleanup(self.folder.cleanup)
        here = os.getcwd()
        os.chdir(EXAMPLES)
        self.addCleanup(os.chdir, here)

    def write(self, name, content):
        """A file of these bytes."""
        path = Path(self.folder.name) / name
        path.write_bytes(content)
        return path

    def says(self, message, code, *words):
        """The program ends with a message and a code."""
        done = run(*words, path=built_program())
        self.assertRegex(done.message, f"\\Aaclc: {message}\n\\Z")
        self.assertEqual(done.code, code)

    def test_words_and_names(self):
        for said, _, words in mistakes.WORDS:
            self.says(f"usage: {said}", 2, *words)
        for said, _, words in mistakes.FILES:
            self.says(said, 7, *words)
        for said, code, _, words in mistakes.OTHERS:
            self.says(said, code, *words)

    def test_files_that_are_too_large(self):
        for kind, _, line, count in mistakes.LARGE:
            place = 0 if kind == "file too long" else count
            self.says(f"rules: line {place}: {kind}", 3, "audit", self.write("large", line * count))
        self.says("script: too long", 10, "session", self.write("script", b"#" * 16777217))
        line = mistakes.LARGE[1][2]
        self.says("compare: too many rules", 11, "compare", self.write("one", line * 131073),
                  self.write("two", line * 131072))

    def test_images(self):
        image = Path(self.folder.name) / "image"
        self.assertEqual(run("build", mistakes.WHOLE, image, path=built_program()).code, 0)
        whole = image.read_bytes()
        for said, _, change in mistakes.IMAGES:
            content = bytearray(whole)
            if change == -1:
                content.pop()
            elif change == 1:
                content += b"x"
            else:
                content[change[0]] = change[1]
            said = said if said.startswith("byte") else f"byte \\d+: {said}"
            self.says(f"image: {said}", 6, "replay", self.write("changed", bytes(content)), "office.pcap")
        self.says("image: byte 0: magic", 6, "replay", "office.pcap", image)

    def test_replies(self):
        for _, lines, reply in mistakes.REPLIES:
            done = run("session", self.write("script", "".join(f"{line}\n" for line in lines).encode()),
                       path=built_program())
            self.assertEqual(done.code, 0)
            self.assertRegex(done.lines.decode().split("\n")[-2], f"\\A{reply}\\Z")
        self.assertEqual(set(run("session", "office.rules", path=built_program()).lines.split(b"\n")),
                         {b"bad line", b""})

    def test_other_ends(self):
        words = [str(built_program()), "classify", "office.rules", "office.pcap"]
        with open("/dev/full", "wb") as full:
            done = subprocess.run(words, stdout=full, stderr=subprocess.PIPE)
        self.assertEqual((done.returncode, done.stderr), (8, b"aclc: write fault\n"))
        many = self.write("many", capture.write([frame for frame, _ in capture.records(
            Path("office.pcap").read_bytes())] * 5000))
        ended = subprocess.run(["bash", "-c", f"{words[0]} classify {words[2]} {many} | true; exit ${{PIPESTATUS[0]}}"],
                               stderr=subprocess.PIPE)
        self.assertEqual((ended.returncode, ended.stderr), (8, b"aclc: write fault\n"))
        limit = lambda kind, size: lambda: resource.setrlimit(kind, (size, size))
        done = subprocess.run([*words[:-1], os.fsencode("office.pcap") + b"\xff"], stderr=subprocess.PIPE)
        self.assertEqual((done.returncode, done.stderr), (1, b""))
        done = subprocess.run(words, stderr=subprocess.PIPE, stdout=subprocess.PIPE,
                              preexec_fn=limit(resource.RLIMIT_STACK, 64 << 10))
        self.assertLess(done.returncode, 0)
        large = self.write("large", mistakes.LARGE[1][2] * 262144)
        done = subprocess.run([words[0], "audit", str(large)], stderr=subprocess.PIPE, stdout=subprocess.PIPE,
                              preexec_fn=limit(resource.RLIMIT_AS, 24 << 20))
        self.assertEqual((done.returncode, done.stderr), (9, b"aclc: out of memory\n"))

    def test_answers_that_surprise(self):
        for title, rules, content, words, printed in mistakes.SURPRISES:
            command = ["audit", self.write("rules", rules)] if content is None else [
                "classify", self.write("rules", rules), self.write("pcap", frames(*content))]
            self.assertIn(printed, run(*command, *words, path=built_program()).lines.split(b"\n")[0], title)
        names = [self.write(str(place), b"".join(ORDER[::step])) for place, step in enumerate((1, -1))]
        self.assertIn(b"ip4 differ", run("compare", *names, path=built_program()).lines)
        done = subprocess.run([str(EXAMPLES / "packet_of_key"), "0100000000c0a8010000000050"], stdout=subprocess.PIPE,
                              stderr=subprocess.PIPE)
        self.assertEqual(done.returncode, 1)
        frame = keys.frame(mistakes.TCP)
        simple = blocks.write([]) + blocks.block(3, len(frame).to_bytes(4, "little") + frame)
        self.assertTrue(run("classify", names[0], self.write("pcapng", simple),
                            path=built_program()).lines.startswith(b"packets 0 "))
        self.assertEqual(run("build", names[0], names[0], path=built_program()).code, 0)
        self.assertEqual(names[0].read_bytes()[:4], b"ACLT")

    def test_a_part_of_a_list_answers_its_packets_as_the_whole(self):
        lines = [b"@10.0.0.0/8 0.0.0.0/0 0:65535 80:80 6/0xFF data=1",
                 b"@10.0.0.0/8 0.0.0.0/0 0:65535 80:80 17/0xFF data=2",
                 b"@0.0.0.0/0 0.0.0.0/0 0:65535 0:65535 0/0 data=3"]
        sent = self.write("pcap", frames(keys.frame(mistakes.TCP), keys.frame(keys.Key(6, bytes(4), bytes(4), (1, 2)))))
        whole, part = (self.write(name, b"\n".join(some)) for name, some in (("whole", lines), ("part", lines[::2])))
        self.assertEqual(run("classify", whole, sent, path=built_program()).lines,
                         run("classify", part, sent, path=built_program()).lines)


if __name__ == "__main__":
    unittest.main()
