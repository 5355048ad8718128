# SPDX-License-Identifier: BSD-3-Clause
"""tools/report: what stands in the page, against the other tools and by hand; what it refuses; and damaged files."""
import base64
import html.parser
import json
import os
import random
import re
import shutil
import socket
import struct
import subprocess
import sys
import tempfile
import unittest
import zlib
from pathlib import Path

from aclc_tools import blocks, capture, confirmed, held, keys, made_by, page_file, program, refusals
from aclc_tools.program import TOP, built_program
from tool import BUILT, DATA, EXAMPLES, script, tool

sys.path.insert(0, str(TOP / "page" / "tests"))
import made

OFFICE, EDITED, PCAP = EXAMPLES / "office.rules", EXAMPLES / "edited.rules", EXAMPLES / "office.pcap"
GATEWAY = DATA / "gateway.iptables-save"
TYPES = {"B": "B", "H": "H", "I": "I", "i": "i", "q": "q"}
# A program that answers as the built one, but for what `sed` makes of its lines.
OTHER = "#!/bin/bash\nset -o pipefail\n'{}' \"$@\" | sed '{}'\n"


def unpacked(text):
    """What the page of a report holds: the text of JSON, and the columns by their names."""
    content = zlib.decompress(base64.b64decode(re.search(r'id="report">([^<]*)<', text)[1]))
    length, = struct.unpack("<Q", content[:8])
    told, rest = json.loads(content[8:8 + length]), content[8 + length:]
    columns = {name: struct.unpack(f"<{size // struct.calcsize('<' + TYPES[code])}{TYPES[code]}", rest[at:at + size])
               for name, code, at, size in told["columns"]}
    return told, columns


class Room(unittest.TestCase):
    def setUp(self):
        folder = tempfile.TemporaryDirectory()
        self.addCleanup(folder.cleanup)
        self.folder = Path(folder.name)

    def report(self, *words, **more):
        """The exit code of a report, what it says, and what its page holds."""
        page = self.folder / "page.html"
        page.unlink(missing_ok=True)
        code, lines, said = tool("report", *words, "-o", page, **more)
        self.assertEqual(lines, "")
        self.assertNotIn("a fault of this tool", said)
        self.text = page.read_text() if page.exists() else ""
        return (code, said, *(unpacked(self.text) if self.text else (None, None)))

    def write(self, name, content):
        """A file of these bytes, or of this text."""
        path = self.folder / name
        path.write_bytes(content.encode() if isinstance(content, str) else content)
        return path


def hits_of(told, columns, category=0):
    """How many packets each entry of the last list decides, by its place."""
    found, lists, count = {}, len(told["lists"]), len(told["categories"])
    for outcome, (kind, total, *_) in enumerate(told["packets"]["outcomes"]):
        if kind >= 4:
            place = columns["decides"][(outcome * lists + lists - 1) * count + category]
            found[place] = found.get(place, 0) + total
    return found


@BUILT
class Told(Room):
    def test_the_page_has_the_guides_answers(self):
        code, said, told, columns = self.report(OFFICE, PCAP)
        self.assertEqual((code, said), (0, ""))
        self.assertEqual(hits_of(told, columns), {0: 1, 1: 1, -1: 1})
        self.assertEqual(columns["number"], (1, 2, 3))
        first = bytes(columns["keys"][:13]).hex()
        self.assertEqual(first, "11c0a80105c0a8021f138804d2")
        self.assertEqual([it["text"].split()[-1] for it in told["lists"][0]["entries"]], ["data=101", "data=102", "data=103"])
        self.assertEqual(told["lists"][0]["entries"][0]["least"], [["11c0a80100c0a8021f000004d2", 1]])

    def test_counts_are_those_of_hits(self):
        for words, captures in (((EXAMPLES / "mixed.rules",), ["mixed.pcapng", "mixed.pcap"]),
                                (("--chain", "FORWARD", GATEWAY), ["mixed.pcap", "office.pcap"])):
            names = [EXAMPLES / it for it in captures]
            _, _, told, columns = self.report(*words, *names)
            code, lines, said = tool("hits", "--json", *words, *names)
            counted, found = json.loads(lines), hits_of(told, columns)
            self.assertEqual([found.get(place, 0) for place in range(len(told["lists"][0]["entries"]))],
                             [it["hits"] for it in counted["rules"]])
            self.assertEqual(found.get(-1, 0), counted["unmatched"])
            self.assertEqual([it["text"] for it in told["lists"][0]["entries"]], [it["rule"] for it in counted["rules"]])

    def test_two_lists_are_those_of_changes_and_same(self):
        code, _, told, columns = self.report(OFFICE, "--old", EDITED, PCAP)
        self.assertEqual(code, tool("changes", EDITED, OFFICE, PCAP)[0])
        same = json.loads(tool("same", "--json", EDITED, OFFICE)[1])
        families = told["compare"]["families"]
        self.assertEqual([it["same"] for it in families], [False, True])
        self.assertEqual(families[0]["key"], "11c0a80100c0a8021f000004d2")
        self.assertEqual([told["lists"][at]["entries"][families[0]["decides"][at]]["number"] for at in (0, 1)],
                         [same["differ"]["ip4"]["old_line"], same["differ"]["ip4"]["new_line"]])
        self.assertEqual([told["compare"][it] for it in ("onlyOld", "onlyNew")], [[1], [1]])

    def test_dead_lines_are_those_of_dead(self):
        _, _, told, _ = self.report(EXAMPLES / "shadowed.rules")
        dead = json.loads(tool("dead", "--json", EXAMPLES / "shadowed.rules")[1])["dead"]
        entries = told["lists"][0]["entries"]
        self.assertEqual([(it["number"], [entries[at]["number"] for at in it["dead"]["by"]]) for it in entries if it["dead"]],
                         [(it["line"], [by["line"] for by in it["covered_by"]]) for it in dead])
        self.assertEqual(len(dead), 1)

    def test_the_exit_code_is_that_of_changes(self):
        changed = EXAMPLES / "guide.pcap"
        for new, old, names, code in ((OFFICE, EDITED, [PCAP], 1), (OFFICE, EXAMPLES / "halves.rules", [PCAP], 0),
                                      (OFFICE, EDITED, [], 1), (OFFICE, EXAMPLES / "halves.rules", [], 0)):
            self.assertEqual(self.report(new, "--old", old, *names)[0], code, (new, old, names))
        _, _, told, _ = self.report(OFFICE, "--old", EDITED, changed)
        self.assertEqual(self.report(OFFICE, "--old", EDITED, changed)[0], tool("changes", EDITED, OFFICE, changed)[0])

    def test_times_are_those_of_the_capture(self):
        sent, rules = self.write("hour.pcap", made.capture(50)), self.write("hour.rules", made.RULES)
        _, _, told, columns = self.report(rules, sent)
        times = [record.time for record in capture.records_with_times(sent.read_bytes())]
        self.assertEqual(list(columns["time"]), times)
        far = [1, 1_764_000_000_123_456_789, (1 << 32) * 10 ** 9 - 1]
        _, _, told, columns = self.report(rules, self.write("far.pcap", made.steady(far)))
        self.assertEqual(list(columns["time"]), far)
        self.assertEqual(sorted(int(it[2]) for it in told["packets"]["outcomes"])[0], far[0])
        self.assertEqual(max(int(it[3]) for it in told["packets"]["outcomes"]), far[-1])
        sent = self.write("hour.pcap", made.capture(50))
        _, _, told, columns = self.report(rules, sent)
        self.assertEqual([told["packets"]["count"], told["packets"]["confirmed"]], [50, 50])

    def test_packets_that_are_passed_over_are_told(self):
        sent = self.write("simple.pcapng", blocks.write([bytes(60)]) + made.simple_packets(3))
        code, said, told, _ = self.report(OFFICE, sent)
        self.assertEqual((code, told["packets"]["count"]), (0, 1))
        self.assertIn("simple.pcapng: 3 packets passed over, in simple or obsolete packet blocks: no rule was asked", said)
        self.assertIn("3 packets passed over", "\n".join(told["notes"]))

    def test_above_the_limit_all_are_counted_and_the_first_are_held(self):
        sent, rules = self.write("hour.pcap", made.capture(300)), self.write("hour.rules", made.RULES)
        _, _, whole, all_columns = self.report(rules, sent)
        _, _, told, columns = self.report(rules, sent, "--packets", "20")
        self.assertEqual((whole["packets"]["allHeld"], told["packets"]["allHeld"]), (True, False))
        self.assertEqual(hits_of(told, columns), hits_of(whole, all_columns))
        self.assertEqual(told["packets"]["count"], 300)
        self.assertEqual(list(columns["number"])[:20], list(range(1, 21)))
        self.assertEqual(list(columns["number"]), sorted(columns["number"]))
        outcomes = told["packets"]["outcomes"]
        seen = [columns["outcome"].count(it) for it in range(len(outcomes))]
        self.assertTrue(all(its >= min(held.FIRST, total) for its, (_, total, *_) in zip(seen, outcomes)), (seen, outcomes))
        self.assertLessEqual(len(columns["number"]), 20 + held.FIRST * len(outcomes))
        one_more = self.report(rules, sent, "--packets", "299")[3]
        self.assertEqual(list(one_more["number"])[:299], list(range(1, 300)))
        self.assertEqual(sum(count for *_, count in told["packets"]["buckets"]), 300)
        place = {number: at for at, number in enumerate(all_columns["number"])}
        for name in ("time", "kind"):
            self.assertEqual([all_columns[name][place[it]] for it in columns["number"]], list(columns[name]))

    def test_a_page_of_100000_packets_by_1000_rules_is_small(self):
        """The time isn't tested: it is 10 seconds at most where nothing else runs."""
        rules = self.write("many.rules", tool("../examples/lists", "access", "1000", "1")[1])
        sent = self.write("many.pcap", made.capture(100_000, hosts=30))
        code, _, told, columns = self.report(rules, sent)
        self.assertEqual((code, len(columns["number"])), (0, 100_000))
        self.assertLess(len(self.text), 20 << 20)


@BUILT
class Refused(Room):
    def test_the_faulty_line_stands_in_the_page(self):
        rules = self.write("bad.rules", OFFICE.read_text().replace("1234 : 1234", "1234"))
        code, said, told, _ = self.report(rules, PCAP)
        self.assertEqual((code, told["lists"], told["packets"]), (2, [], None))
        self.assertIn("aclc: rules: line 2: bad ports", said)
        fault = told["refusals"][0]["faults"][0]
        self.assertEqual((fault["line"], fault["kind"], fault["parts"][1]), (2, "bad ports", "0x11/0xFF"))
        self.assertEqual("".join(fault["parts"]), rules.read_text().split("\n")[1])

    def test_what_stands_before_the_fault_of_a_capture_is_kept(self):
        sent = self.write("cut.pcap", PCAP.read_bytes()[:-1])
        code, said, told, columns = self.report(OFFICE, sent, PCAP)
        self.assertEqual((code, told["packets"]["count"], columns["number"]), (2, 5, (1, 2, 1, 2, 3)))
        self.assertEqual([it["packets"] for it in told["files"][1:]], [2, 3])
        refusal = told["refusals"][0]
        self.assertEqual((refusal["kind"], refusal["message"], refusal["code"]), ("cut", "aclc: capture: record 3: cut", 5))
        self.assertIn("still being written", refusal["sentence"])

    def test_other_refusals_stand_in_the_page(self):
        for words, part in (([self.folder / "none.rules"], "No such file"), ([OFFICE, self.folder / "none.pcap"], "No such file"),
                            (["--chain", "none", GATEWAY], "no chain none"), ([PCAP, OFFICE], "this is a capture"),
                            ([OFFICE, PCAP, "--max-words", "20"], "table too large")):
            code, said, told, _ = self.report(*words)
            self.assertEqual(code, 2, words)
            self.assertTrue(any(part in it["message"] for it in told["refusals"]) or part in said, (words, told["refusals"], said))
            self.assertTrue(told["refusals"] or told["lists"][0]["notLooked"], words)

    def test_usage_errors_write_no_page(self):
        for words in ([], [OFFICE], ["--packets", "0", OFFICE, "-o", "x"], ["--json", OFFICE, "-o", "x"],
                      ["--chain", "X", OFFICE, "-o", self.folder / "x"], ["-", "-", "-o", self.folder / "x"]):
            code, lines, said = tool("report", *words, stdin=-3)
            self.assertEqual((code, lines, bool(said)), (2, "", True), words)
        self.assertEqual(list(self.folder.iterdir()), [])

    def test_no_file_that_it_is_made_of_is_written_over(self):
        rules = self.write("my.rules", OFFICE.read_bytes())
        code, _, said = tool("report", rules, "-o", rules)
        self.assertEqual((code, rules.read_bytes()), (2, OFFICE.read_bytes()))
        self.assertIn("one of the files", said)

    def test_standard_input_is_not_written_over(self):
        for words in (["-", PCAP], [OFFICE, "-"], ["-", "--old", OFFICE], [OFFICE, "--old", "-"]):
            own = self.write("own", (PCAP if words[1] == "-" else OFFICE).read_bytes())
            before = own.read_bytes()
            with open(own, "rb") as file:
                code, _, said = tool("report", *words, "-o", own, stdin=file)
            self.assertEqual((code, "one of the files" in said, own.read_bytes()), (2, True, before), words)

    def test_standard_output_may_be_a_socket_or_a_file_that_grows(self):
        """Fails where standard output is opened by a name: a socket has none, and a file would be emptied."""
        words = [sys.executable, str(TOP / "tools" / "report"), str(OFFICE), "-o", "-"]
        whole = tool("report", OFFICE, "-o", "-")[1].rpartition("<script>")[2]
        grown = self.write("grown", b"before\n")
        with open(grown, "ab") as file:
            subprocess.run(words, stdout=file, check=True)
        text = grown.read_text()
        self.assertEqual((text[:7], text.rpartition("<script>")[2]), ("before\n", whole))
        near, far = socket.socketpair()
        with near, far:
            near.settimeout(60)
            started = subprocess.Popen(words, stdout=far)
            far.close()
            read = b"".join(iter(lambda: near.recv(1 << 16), b""))
        self.assertEqual((started.wait(), read.decode().rpartition("<script>")[2]), (0, whole))

    def test_a_page_that_cannot_be_written_is_told(self):
        code, _, said = tool("report", OFFICE, "-o", self.folder / "none" / "page.html")
        self.assertEqual((code, said.count("\n")), (2, 1))
        code, _, said = tool("report", OFFICE, "-o", "/dev/full")
        self.assertEqual((code, said), (2, "report: No space left on device\n"))

    def test_a_program_that_answers_otherwise_ends_the_tool(self):
        """Fails where a key isn't confirmed, or an answer isn't compared."""
        for change, part in (("s/^1 ip4 .*/1 ip4 9/;s/^1 ip6 .*/1 ip6 9/", ""), ("s/^2 ip4/2 ip6/", "ip6"),
                             ("s/^packets 3/packets 4/", "packets 4 ip4 3")):
            other = self.write("other", OTHER.format(built_program(), change))
            other.chmod(0o755)
            code, said, told, _ = self.report(OFFICE, PCAP, env={"ACLC": str(other)})
            self.assertTrue(code == 2 and part in said and said, (change, code, said))


class Elements(html.parser.HTMLParser):
    """The elements of a page, each with its attributes, and the texts outside of scripts."""

    def __init__(self, text):
        super().__init__()
        self.found, self.texts = [], []
        self.feed(text)

    def handle_starttag(self, tag, attributes):
        self.found.append((tag, dict(attributes)))

    def handle_data(self, text):
        self.texts.append(text)


@BUILT
class Hostile(Room):
    def test_texts_and_names_of_files_are_data(self):
        rules = self.write("a<b>.rules", "".join(f"# {it}\n" for it in (made.HOSTILE, made.ENDING)) + OFFICE.read_text())
        sent = self.write(made.HOSTILE.replace("/", ""), PCAP.read_bytes())
        list_ = GATEWAY.read_text().replace("a network that sends", made.HOSTILE.replace('"', ""))
        for words in ((rules, sent), ("--chain", "FORWARD", self.write("gateway", list_), sent)):
            code, _, told, columns = self.report(*words)
            self.assertEqual(code, 0)
            self.assertEqual([it["name"] for it in told["files"]][-1], str(sent))
            self.assertNotIn("onerror", self.text)
            self.assertNotIn(made.ENDING, self.text)
            tags = [tag for tag, _ in Elements(self.text).found]
            self.assertEqual(tags.count("script"), 2)
            self.assertNotIn("img", tags)
        self.assertTrue(any(made.HOSTILE.replace('"', "") in it["text"] for it in told["lists"][0]["entries"]))

    def test_the_policy_allows_what_stands_in_the_page_alone(self):
        self.report(OFFICE)
        policy = next(it["content"] for tag, it in Elements(self.text).found if it.get("http-equiv"))
        self.assertEqual(re.sub(r"sha256-[A-Za-z0-9+/=]{44}", "SUM", policy),
                         "default-src 'none'; script-src 'SUM'; style-src 'SUM'; img-src data:")
        for element in ("script", "style"):
            text = re.search(rf"<{element}>(.*?)</{element}>", self.text, re.S)[1]
            self.assertIn(f"{element}-src {page_file.sum_of(text)}", policy)

    def test_odd_bytes_of_lists_are_shown_or_refused(self):
        """What isn't a rule decides nothing; a comment may hold anything but what isn't text."""
        office, gateway, chain = OFFICE.read_bytes(), GATEWAY.read_bytes(), ("--chain", "FORWARD")
        told = b"a network that sends"
        for content, words, code, part in (
                (b"# a\0b\n" + office, (), 2, "no text"), (office.replace(b"pri=20", b"pri=20\0"), (), 2, "line 2: bad attribute"),
                (office.replace(b"data=101", b"data=101 \xff"), (), 2, "line 2: tail left"), (b"# \xff\xfe caf\xe9\n" + office, (), 0, ""),
                (b"#" + b"x" * 300_000 + b"\n" + office, (), 0, ""), (office.replace(b"pri=20", b" " * 200_000 + b"pri=20"), (), 0, ""),
                (gateway.replace(told, b"\xff"), chain, 0, ""), (gateway.replace(told, b"a \0 b"), chain, 0, ""),
                (gateway.replace(told, b"y" * 100_000), chain, 0, ""), (gateway.replace(told, "\u202e \u2028".encode()), chain, 0, "")):
            code_of, said, page, columns = self.report(*words, self.write("odd", content), PCAP)
            self.assertEqual((code_of, part in said), (code, True), (content[:80], said))
            counted = page["packets"] and page["packets"]["count"]
            self.assertEqual((len(page["refusals"]), counted), (1, None) if code else (0, 3), content[:80])
            texts = "".join(it["text"] for listed in page["lists"] for it in listed["entries"])
            self.assertFalse(any(ord(it) < 32 or it in "\x7f\u202e\u2028" for it in texts), content[:80])

    def test_odd_names_of_captures_are_told_as_they_are(self):
        for name in (b"new\nline.pcap", b"bad\xff.pcap", b"<!--.pcap", b"' onload='x.pcap"):
            path = Path(os.fsdecode(bytes(self.folder) + b"/" + name))
            path.write_bytes(PCAP.read_bytes())
            code, said, told, columns = self.report(OFFICE, path)
            self.assertEqual((code, said, told["files"][1]["name"], len(columns["number"])), (0, "", str(path), 3))

    def test_times_that_no_clock_has_are_told(self):
        """A pcapng interface adds seconds to its times: before 1970 they are told, and where they have no date the packet is refused."""
        head, rest = blocks.write([bytes(60)])[:28], blocks.write([bytes(60)])[48:]
        for offset, code, part in ((-1000, 0, ""), (1 << 60, 2, "packet 1: its time is before 1678 or after 2262")):
            interface = blocks.block(blocks.INTERFACE, struct.pack("<HHIHHqI", 1, 0, 0, blocks.TIME_OFFSET, 8, offset, 0))
            sent = self.write("times.pcapng", head + interface + rest)
            code_of, said, told, columns = self.report(OFFICE, sent, PCAP)
            self.assertEqual((code_of, part in said, len(told["refusals"])), (code, True, code // 2), said)
            self.assertEqual((told["packets"]["count"], told["packets"]["start"]), (3, "0") if code else (4, str(offset * 10**9)))

    def test_damaged_files_are_answered_or_refused(self):
        draw = random.Random(3)
        for place in range(16):
            rules, sent = bytearray(OFFICE.read_bytes()), bytearray((EXAMPLES / "mixed.pcapng").read_bytes())
            for content in (rules, sent):
                for _ in range(draw.randrange(3)):
                    content[draw.randrange(len(content))] = draw.randrange(256)
            code, said, told, columns = self.report(self.write("r", bytes(rules)), self.write("p", bytes(sent)))
            self.assertIn(code, (0, 2), said)
            self.assertEqual(code == 2, bool(said) and bool(told is None or told["refusals"]), said)
            if told and told["packets"]:
                lines = tool("hits", "--json", self.folder / "r", self.folder / "p")
                if lines[0] == 0:
                    self.assertEqual(sum(hits_of(told, columns).values()),
                                     sum(it["hits"] for it in json.loads(lines[1])["rules"]) + json.loads(lines[1])["unmatched"])


class MadeBy(Room):
    def test_the_note_of_an_installed_program_is_told(self):
        program_of = self.folder / "bin" / "aclc"
        for name in ("bin", "share/doc/aclc", "share/man/man1"):
            (self.folder / name).mkdir(parents=True)
        program_of.write_bytes(b"\x7fELF")
        self.write("share/man/man1/aclc.1", '.TH ACLC 1 "2026-11-29" "aclc 1.2.3" "User commands"\n')
        total = made_by.sum_of(program_of)
        note = self.write("share/doc/aclc/proof", f"logic=proved modules=1\n{total}  bin/aclc\n")
        self.assertEqual(made_by.proof_near(program_of, total), ("logic=proved modules=1", None))
        self.assertEqual(made_by.version_near(program_of), "1.2.3")
        note.write_text(f"logic=proved modules=1\n{'0' * 64}  bin/aclc\n")
        self.assertEqual(made_by.proof_near(program_of, total), (None, "the note beside it is of another program"))
        note.unlink()
        self.assertEqual(made_by.proof_near(program_of, total), (None, "no note of a proof stands beside it"))


class Page(unittest.TestCase):
    def test_the_rows_of_the_page_are_those_of_mistakes(self):
        """Fails where docs/MISTAKES.md has other rows: page/make_mistakes writes them anew."""
        written = script(TOP / "page" / "make_mistakes").module()
        self.assertEqual((TOP / "page" / "mistakes.js").read_text(encoding="utf-8"), written)
        for kind in ("bad ports", "cut", "block length", "read fault", "too many rules", "table too large"):
            self.assertIn(f'"{kind}": [[', written)

    def test_the_page_names_no_place_outside(self):
        for name in ("index.html", "style.css", *(path.name for path in (TOP / "page").glob("*.js"))):
            text = (TOP / "page" / name).read_text(encoding="utf-8")
            found = set(re.findall(r"(?:https?:)?//[a-z][a-z0-9.]*\.[a-z]+[^\s'\"]*", text))
            self.assertLessEqual(found, {"http://www.w3.org/2000/svg"}, name)
            for word in ("innerHTML", "outerHTML", "insertAdjacentHTML", "document.write", "eval(", "new Function"):
                self.assertNotIn(word, text, name)

    def test_functions_and_files_are_short(self):
        for path in (TOP / "page").glob("*.js"):
            lines = path.read_text(encoding="utf-8").split("\n")
            self.assertLess(len(lines), 500, path.name)
            if path.name != "mistakes.js":
                starts = [at for at, line in enumerate(lines) if re.match(r"(export )?(async )?function|  (async )?#?\w+\([^)]*\) \{$", line) and not line.endswith("}")]
                for at in starts:
                    indent = re.match(" *", lines[at])[0]
                    end = next(place for place in range(at, len(lines)) if lines[place].startswith(indent + "}"))
                    self.assertLess(end - at, 40, f"{path.name}:{at + 1}")


if __name__ == "__main__":
    unittest.main()
