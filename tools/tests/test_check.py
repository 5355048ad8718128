# SPDX-License-Identifier: BSD-3-Clause
"""tools/check: its judgement against the program's, and the page of mistakes against both."""
import os
import subprocess
import tempfile
import unittest
from pathlib import Path

import drawn
import mistakes
from aclc_tools import advice, capture, rule_file, warnings
from aclc_tools.program import TOP, built_program, run
from mistakes import LINE
from tool import script

HERE = Path(__file__).resolve().parent
CHECK = TOP / "tools" / "check"
EXAMPLES = TOP / "examples"
damaged = script(HERE / "damaged")


def judged(content):
    """The faults of a rule file, with what is said of each."""
    lines = rule_file.lines_of(content)
    return [(fault.line, fault.kind, advice.sentence(fault, lines[fault.line - 1]))
            for fault in rule_file.read_rules(content)[1]]


def never_decides(rule, other):
    """Whether the other rule matches all that a rule matches, and wins."""
    within = all(low <= first and last <= high
                 for (first, last), (low, high) in zip(rule.intervals(), other.intervals()))
    return rule.family == other.family and within and warnings.outranks(other, rule) and warnings.covers(other, rule)


class Check(unittest.TestCase):
    def setUp(self):
        self.folder = tempfile.TemporaryDirectory()
        self.addCleanup(self.folder.cleanup)

    def write(self, name, content):
        path = Path(self.folder.name) / name
        path.write_bytes(content)
        return path

    def program_says(self, message, code, *words):
        """The program's message, where it is built."""
        if not built_program():
            return
        done = run(*words, path=built_program())
        self.assertEqual((done.message, done.code), (message, code))

    def test_examples_are_read(self):
        for rules in sorted(EXAMPLES.glob("*.rules")):
            content, packets = rules.read_bytes(), rules.with_suffix(".pcap")
            if not packets.exists():  # a list for `audit` or `compare`
                self.program_says("", 0, "audit", rules)
                continue
            self.assertEqual(judged(content), [])
            self.assertTrue(list(capture.records(packets.read_bytes())))
            self.program_says("", 0, "classify", rules, packets)

    def test_both_formats_have_the_same_records(self):
        savefile, blocks = EXAMPLES / "mixed.pcap", EXAMPLES / "mixed.pcapng"
        self.assertEqual(list(capture.records(blocks.read_bytes())), list(capture.records(savefile.read_bytes())))
        self.program_says("", 0, "classify", EXAMPLES / "mixed.rules", blocks)

    def test_mistakes_in_rules(self):
        for kind, title, lines, advised in mistakes.RULES:
            with self.subTest(title=title):
                line, said, sentence = judged(mistakes.GUIDE + lines)[0]
                self.assertEqual((line, said), (2, kind))
                self.assertRegex(sentence, advised)
                rules = self.write("list.rules", mistakes.GUIDE + lines)
                self.program_says(f"aclc: rules: line 2: {kind}\n", 3, "classify", rules, EXAMPLES / "guide.pcap")

    def test_mistakes_in_captures(self):
        for kind, title, content, advised in mistakes.CAPTURES:
            with self.subTest(title=title):
                with self.assertRaises(capture.Fault) as raised:
                    list(capture.records(content))
                fault = raised.exception
                self.assertEqual(f"record {fault.record}: {fault.kind}", kind)
                self.assertIn(advised, fault.sentence)
                self.program_says(f"aclc: capture: {kind}\n", 5, "classify", EXAMPLES / "guide.rules",
                                  self.write("list.pcap", content))

    def test_likely_mistakes_are_warned_of(self):
        for title, content, said in mistakes.WARNED:
            with self.subTest(title=title):
                rules, faults = rule_file.read_rules(content)
                self.assertEqual(faults, [])
                self.assertIn(said, " ".join(it[3] for it in warnings.of_file(rules, rule_file.lines_of(content))))
        rules, _ = rule_file.read_rules((EXAMPLES / "mixed.rules").read_bytes())
        self.assertEqual(list(warnings.of_file(rules)), [])

    def test_rules_that_never_decide_are_those_of_a_plain_reading(self):
        """Also where many rules have the same networks, so that they are found by their ports."""
        usual, draw, count = warnings.FEW, drawn.chances(21), 0
        self.addCleanup(setattr, warnings, "FEW", usual)
        for turn in range(90):
            warnings.FEW = turn % 3 * 4
            content = drawn.text_of(drawn.rule_lines(draw, 60, turn % 4 == 0, 2 + turn % 5)).encode()
            rules, _ = rule_file.read_rules(content)
            expected = [(rule.line, [it.line for it in rules if never_decides(rule, it)][:1]) for rule in rules]
            told = [(rule.line, [winner.line]) for rule, winner in warnings.dead(rules)]
            self.assertEqual(told, [it for it in expected if it[1]])
            count += len(told)
        self.assertGreater(count, 300)

    def test_the_first_rule_below_one_after_it_is_told(self):
        for text, told in (("pri=5,,pri=6", (1, "line 2.")), (",pri=5,pri=6", None), (",pri=6,,pri=5,", (2, "line 3.")),
                           ("pri=536870911,,pri=1,,", (3, "line 4.")), ("pri=5", None)):
            content = "".join(f"@10.0.0.0/8 0.0.0.0/0 0:65535 80:80 6/0xFF {it}\n" for it in text.split(","))
            rules, _ = rule_file.read_rules(content.encode())
            found = [(it.line, said[-7:]) for it, _, said in warnings.of_order(rules) if "say no priority" in said]
            self.assertEqual(found, [told] if told else [], text)

    def test_control_characters_and_other_bytes_are_escaped(self):
        rules = self.write("\x1b.rules",
                           b"@10.0.0.0/8 \x1b[31m0.0.0.0/0 \xff\n@1.1.1.1/32 \x7f\n" + LINE + b" flags\xe2\x80\xae\n")
        done = subprocess.run([str(CHECK), str(rules)], stdout=subprocess.PIPE)
        self.assertFalse([byte for byte in done.stdout if byte < 32 and byte != 10 or byte > 126])
        for part in (b"\\x1b.rules:1: bad address\n", b"@10.0.0.0/8 \\x1b[31m0.0.0.0/0 \\xff\n", b"\\x7f\n",
                     b"flags\\u202e\n"):
            self.assertIn(part, done.stdout)

    def test_a_mark_stands_under_the_word(self):
        rules = self.write("list.rules", b"@10.0.0.0/8\t0.0.0.0/0 0:65535 80-90 6/0xFF\n@1.1.1.1/32 any\n")
        done = subprocess.run([str(CHECK), str(rules), str(EXAMPLES / "guide.pcap")], stdout=subprocess.PIPE)
        lines = done.stdout.decode().split("\n")
        self.assertEqual(done.returncode, 1)
        self.assertEqual(lines[0], f"{rules}:1: bad ports")
        self.assertEqual(lines[1][lines[2].index("^"):lines[2].rindex("^") + 1], "80-90")
        self.assertIn(f"{rules}:2: bad address", lines)
        self.assertIn("the program says: aclc: rules: line 1: bad ports", lines)

    def test_swapped_names_are_told_once(self):
        for kind in ("pcap", "pcapng"):
            names = EXAMPLES / f"mixed.{kind}", EXAMPLES / "mixed.rules"
            done = subprocess.run([str(CHECK), *map(str, names)], stdout=subprocess.PIPE, text=True)
            self.assertEqual(done.returncode, 1)
            self.assertEqual(done.stdout.count("the rule file is named first"), 2)
            self.assertNotIn("UTF-16", done.stdout)
            told = [line for line in done.stdout.splitlines() if line.startswith("the program says: ")]
            self.assertEqual(len(told), 1)
            self.program_says(told[0].partition(": ")[2] + "\n", 3, "classify", *names)

    def test_its_words_are_told(self):
        for words, code in ((["--help"], 0), (["-h"], 0), (["--other", "x"], 2)):
            done = subprocess.run([str(CHECK), *words], stdout=subprocess.PIPE, stderr=subprocess.PIPE, text=True)
            self.assertEqual(done.returncode, code)
            self.assertTrue((done.stderr if code else done.stdout).startswith("Tells what is wrong"))
            self.assertEqual(done.stdout if code else done.stderr, "")

    def test_codes(self):
        for words, code in (([EXAMPLES / "office.rules"], 0),
                            ([EXAMPLES / "guide.rules", EXAMPLES / "office.rules"], 1),
                            ([EXAMPLES / "guide.pcap"], 1), (["none"], 2), ([], 2),
                            ([EXAMPLES / "guide.rules", "none"], 2), ([EXAMPLES / "guide.pcap", "none"], 2)):
            done = subprocess.run([str(CHECK), *map(str, words)], stdout=subprocess.PIPE, stderr=subprocess.PIPE)
            self.assertEqual(done.returncode, code, done.stderr)

    def test_damaged_files_as_the_program_judged_them(self):
        for content, judgement in damaged.stored():
            self.assertEqual(damaged.by_check(content), judgement, content)

    @unittest.skipUnless(built_program(), "the program isn't built")
    def test_damaged_files_as_the_program_judges_them(self):
        self.assertEqual(damaged.compare(300, 7)[0], [])


if __name__ == "__main__":
    unittest.main()
