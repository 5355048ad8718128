# SPDX-License-Identifier: BSD-3-Clause
"""tools/same and tools/dead: lists alone, against a plain reading of every part of the keys, and what they refuse."""
import json
import unittest

import drawn
from aclc_tools import answers, any_list, covers, packet_words, parts, rule_file
from aclc_tools.program import TOP
from tool import BUILT, DATA, EXAMPLES, given, script, tool

SAME, DEAD = (script(TOP / "tools" / name) for name in ("same", "dead"))
OFFICE, EDITED, CAPTURE = EXAMPLES / "office.rules", EXAMPLES / "edited.rules", EXAMPLES / "office.pcap"
# Tables of so many words are too large for most of the lists, and those of their parts aren't.
FEW_WORDS = 600
# So many networks, ranges and protocols are drawn of.
CHOICES = 4
WEB = "@10.0.0.0/8 0.0.0.0/0 0:65535 80:80 6/0xFF"
ANY = "@0.0.0.0/0 0.0.0.0/0 0:65535 0:65535 0/0"
# Lists of rules, and of each rule that decides no packet the lines that cover it.
DEAD_LINES = [([WEB, ANY], {}), ([ANY, WEB], {2: [1]}), ([WEB, ANY + " pri=536870911"], {1: [2]}),
              ([WEB + " cat=2", ANY + " cat=1"], {}),
              ([ANY + " cat=1", WEB + " cat=2", WEB + " cat=3"], {3: [1, 2]}),
              ([WEB.replace("6/0xFF", "1/0xFF")], {1: []}),
              ([WEB.replace("6/0xFF", f"{it}/0xFF") for it in (6, 17, 132)] + [WEB.replace("6/0xFF", "0/0")],
               {4: [1, 2, 3]}),
              ([WEB.replace("10.0.0.0/8", f"10.{it}.0.0/10") for it in (0, 64, 128, 192)] + [WEB], {5: [1, 2, 3, 4]}),
              ([WEB] * 3, {2: [1], 3: [1]}), ([WEB, WEB + " pri=536870911", WEB], {1: [2], 3: [2]}),
              ([WEB + " cat=1", WEB + " cat=3", WEB + " cat=2", WEB + " cat=2"], {3: [2], 4: [2]}),
              ([WEB, "# a comment", "@::/0 ::/0 0:65535 0:65535 0/0", "@::1/128 ::/0 0:65535 0:65535 0/0"], {4: [3]}),
              ([], {})]
FIREWALL = [("accept", "tcp", 80, ("10.0.0.0", 8), ("any", None)), ("drop", "tcp", None, ("any", None), ("any", None)),
            ("accept", "tcp", 443, ("10.1.0.0", 16), ("any", None)),
            ("accept", "ip", None, ("any", None), ("any", None)),
            ("accept", "icmp", None, ("10.1.2.3", 32), ("any", None))]
REFUSED = [("same", [OFFICE, "none"], "none: No such file"),
           ("same", [OFFICE, "{faulty}"], "aclc: rules: line 2: bad ports"),
           ("same", [OFFICE, CAPTURE], "this is a capture"), ("same", [OFFICE], "NEW"),
           ("same", [OFFICE, "{cisco}"], "one list is a rule file"),
           ("same", [OFFICE, EDITED, "--max-words", "0"], "aclc: usage: word 4: bad value"),
           ("same", [OFFICE, EDITED, "--data", "x"], "--data"),
           ("dead", ["none"], "none: No such file"), ("dead", ["{faulty}"], "aclc: rules: line 2: bad ports"),
           ("dead", [CAPTURE], "this is a capture"),
           ("dead", [OFFICE, "--max-words", "x"], "aclc: usage: word 4: bad value"),
           ("dead", [OFFICE, OFFICE], "unrecognized"),
           ("dead", ["{cisco}", "--list", "B"], "there is no list B"), ("dead", ["{state}"], "TCP flags"),
           ("dead", [OFFICE, "--max-words", "20"], "office.rules: not looked at: IPv4, "),
           ("same", [OFFICE, OFFICE, "--max-words", "20"], "not compared: IPv4")]


class Alone(unittest.TestCase):
    def setUp(self):
        self.room = answers.Room()
        self.addCleanup(self.room.folder.cleanup)
        usual, parts.MOST_RUNS = parts.MOST_RUNS, 40
        self.addCleanup(setattr, parts, "MOST_RUNS", usual)

    def read(self, text, **options):
        """The list of a text."""
        return answers.read(self.room.write(".list", text.encode()), given(**options), self.room)


@BUILT
class Dead(Alone):
    def dead(self, listed, **options):
        """The dead lines, each with those that cover it, and how many parts were looked at."""
        audit = DEAD.Audit(listed, given(**options), self.room)
        found, unknown = audit.dead()
        self.assertTrue(audit.left or not unknown)
        its_covers = DEAD.Covers(listed)
        rows = [DEAD.row_of(it, its_covers) for it in found]
        return {row["line"]: [it["line"] for it in row["covered_by"]] for row in rows}, {it.number
                                                                                         for it in unknown}, audit.parts

    def test_each_dead_line_has_its_covers(self):
        for lines, expected in DEAD_LINES:
            with self.subTest(lines=lines):
                self.assertEqual(self.dead(self.read(drawn.text_of(lines)))[0], expected)

    def test_drawn_lists_in_one_table_and_in_parts(self):
        draw, in_parts, found = drawn.chances(11), 0, 0
        for turn in range(24):
            lines = drawn.rule_lines(draw, 10, turn % 4 == 0, CHOICES)
            rules = drawn.read(lines)
            live = {line for key in drawn.corners(lines) for matched in [drawn.matching(rules, key)]
                    for it in drawn.categories_of(lines) for line in drawn.lines_of(matched, it)[:1]}
            listed = self.read(drawn.text_of(lines))
            told, unknown, _ = self.dead(listed)
            self.assertEqual(unknown, set())
            self.assertEqual(set(told), {line for _, line in rules} - live, lines)
            for line, covering in told.items():
                self.is_covered(lines, line, covering)
            found += len(told)
            if turn % 3 == 1:
                again, unknown, count = self.dead(listed, max_words=FEW_WORDS)
                self.assertEqual(again, {line: told[line] for line in told if line not in unknown})
                in_parts += count > 1 and len(again) > 0
        self.assertGreater(in_parts, 0)
        self.assertGreater(found, 12)

    def is_covered(self, lines, line, covering):
        """Whether the lines that are told match all packets of a dead line, and none of them can be left out."""
        kept = [text if number == line or number in covering else "" for number, text in enumerate(lines, 1)]
        matched = [drawn.matching(drawn.read(kept), key) for key in drawn.corners(kept)]
        for category in drawn.categories_of(lines):
            self.assertNotIn([line], [drawn.lines_of(it, category)[:1] for it in matched])

    def test_lists_of_firewalls(self):
        for text, first in ((drawn.as_cisco(FIREWALL), 1), (drawn.as_iptables(FIREWALL), 3)):
            self.assertEqual(self.dead(self.read(text))[0], {first + 3: [first + 2], first + 5: [first + 4]})

    def test_codes_and_lines(self):
        code, lines, said = tool("dead", EXAMPLES / "shadowed.rules")
        self.assertEqual((code, said), (1, ""))
        self.assertTrue(lines.startswith("line 3: @10.1.0.0/16 192.168.1.7/32 0 : 65535 22 : 22 6/0xFF\n"
                                         "  decides no packet: line 2 matches"), lines)
        self.assertTrue(lines.endswith("1 of 3 lines decides no packet\n"), lines)
        self.assertEqual(tool("dead", OFFICE), (0, "0 of 3 lines decide no packet\n", ""))
        self.assertEqual(json.loads(tool("dead", EDITED, "--json")[1])["dead"][0]["covered_by"][0]["line"], 3)
        self.assertEqual(tool("dead", EDITED, "--csv")[1].splitlines()[1].split(",")[0], "2")


@BUILT
class Same(Alone):
    def least(self, lists, data, **options):
        """The least packets at which two lists differ, and how many parts were compared."""
        compared = SAME.Compared(lists, data, given(**options), self.room)
        if compared.left:
            return None, 0
        return {family: (category, key.content())
                for family, (*_, category, key) in compared.least.items()}, compared.parts

    def expected(self, old, new):
        """The same by the plain reading of the corners of both."""
        rules, found = [drawn.read(lines) for lines in (old, new)], {}
        for key in drawn.corners(old, new):
            matched = [drawn.matching(its, key) for its in rules]
            odd = [it for it in drawn.categories_of(old, new)
                   if drawn.answer(matched[0], it) != drawn.answer(matched[1], it)]
            if odd:
                here = odd[0] > 7, key.content(), odd[0]
                found[key.family] = min(found.get(key.family, here), here)
        return {family: (category, content) for family, (_, content, category) in found.items()}

    def test_drawn_edits_in_one_table_and_in_parts(self):
        draw, in_parts, differing = drawn.chances(12), 0, 0
        for turn in range(24):
            old = drawn.rule_lines(draw, 8, turn % 4 == 0, CHOICES)
            new = drawn.edited(draw, old, CHOICES)
            lists = [self.read(drawn.text_of(lines)) for lines in (old, new)]
            told = self.least(lists, "data")[0]
            self.assertEqual(told, self.expected(old, new), (old, new))
            differing += bool(told)
            if turn % 2 == 1:
                again, count = self.least(lists, "data", max_words=FEW_WORDS)
                self.assertIn(again, (told, None))
                in_parts += count > 1
        self.assertGreater(in_parts, 0)
        self.assertGreater(differing, 8)

    def test_codes_and_lines(self):
        code, lines, said = tool("same", OFFICE, EDITED)
        self.assertEqual((code, said), (1, ""))
        self.assertTrue(lines.startswith("IPv4: some packets get another answer; the least one is udp 192.168.1.0:0 "
                                         "-> 192.168.2.31:1234\n  old  101  line 2: @192.168.1.0/24"), lines)
        self.assertEqual(tool("same", OFFICE, EXAMPLES / "halves.rules"), (0, "IPv4: the same\nIPv6: the same\n", ""))
        told = json.loads(tool("same", OFFICE, EDITED, "--json")[1])
        self.assertEqual((told["same"], told["differ"]["ip4"]["old_line"], told["differ"]["ip4"]["new"]),
                         (False, 2, 102))

    def test_a_difference_is_told_where_no_table_holds_a_list(self):
        """What decides at the least packet is asked of the rules that match it, if the table of all is too large."""
        draw, refused = drawn.chances(13), 0
        for turn in range(12):
            old = drawn.rule_lines(draw, 14, turn % 4 == 0, CHOICES)
            names = [self.room.write(".rules", drawn.text_of(lines).encode())
                     for lines in (old, drawn.edited(draw, old, CHOICES))]
            few = given(max_words=FEW_WORDS // 2)
            try:
                list(answers.lines_of("classify", names[0], CAPTURE, *answers.words_more(few)))
            except answers.Refusal as refusal:
                refused += refusal.code == 4
            whole, narrow = (tool("same", "--json", *names, *words) for words in ((), ("--max-words", few.max_words)))
            self.assertNotIn("too large", narrow[2] if "not compared" not in narrow[2] else "")
            if not json.loads(narrow[1])["not_compared"]:
                self.assertEqual((narrow[0], json.loads(narrow[1])["differ"]),
                                 (whole[0], json.loads(whole[1])["differ"]))
        self.assertGreater(refused, 4)

    def test_keys_that_no_packet_has_make_no_difference(self):
        lists = [[WEB.replace("6/0xFF", f"{it}/0xFF") + " data=1" for it in kinds]
                 for kinds in ((6, 17, 132), (6, 17, 132, 1))]
        names = [self.room.write(".rules", drawn.text_of(lines).encode()) for lines in lists]
        self.assertEqual(tool("same", *names)[:2],
                         (0, "IPv4: the same, but for keys that no packet has\nIPv6: the same\n"))

    def test_numbers_of_lines_are_told(self):
        moved = drawn.as_cisco(FIREWALL).replace("A\n", "A\n remark moved\n")
        opened = drawn.as_cisco(FIREWALL[:4] + [("drop", *FIREWALL[4][1:])])
        names = [self.room.write(".list", text.encode())
                 for text in (drawn.as_cisco(FIREWALL), moved, drawn.as_iptables(FIREWALL), opened,
                                                                      drawn.as_cisco(FIREWALL[1:]))]
        alone = "only the numbers of lines differ"
        for words, code, part in (((0, 1), 0, alone), ((0, 1, "--data", "line"), 1, alone), ((0, 0), 0, None),
                                  ((0, 2), 0, "other lines decide"),
                                  ((0, 3), 0, None), ((0, 4), 1, None), ((0, 1, "--data", "text"), 0, None)):
            done = tool("same", *(names[it] if isinstance(it, int) else it for it in words))
            self.assertEqual(done[0], code, done)
            self.assertEqual([it for it in (alone, "other lines decide") if it in done[1]], [part] if part else [],
                             done)

    def test_rules_without_userdata_are_told(self):
        names = [self.room.write(".rules", drawn.text_of(lines).encode())
                 for lines in ([WEB, ANY], ["@::/0 ::/0 1:1 0:0 1/0xFF", WEB, ANY])]
        code, lines, _ = tool("same", *names)
        self.assertEqual(code, 1)
        self.assertIn("only the numbers of lines differ: each packet is decided by a line of the same text", lines)
        self.assertEqual(tool("same", *names, "--data", "text")[0], 0)


class Refusals(Alone):
    @BUILT
    def test_what_is_refused_ends_with_2_and_its_message(self):
        made = {"faulty": b"# one\n@10.0.0.0/8 0.0.0.0/0 80 80 6/0xFF\n", "cisco": drawn.as_cisco(FIREWALL).encode(),
                "state": b"ip access-list extended A\n permit tcp any any established\n"}
        names = {name: self.room.write("." + name, content) for name, content in made.items()}
        for name, words, part in REFUSED:
            with self.subTest(name=name, words=words):
                code, _, said = tool(name, *(str(word).format(**names) for word in words), cwd=EXAMPLES)
                self.assertEqual(code, 2, said)
                self.assertIn(part, said)
                self.assertNotIn("Traceback", said)


class Copies(unittest.TestCase):
    """What the program gets of a list."""

    def test_they_are_not_longer_than_the_list(self):
        """Else a list that the program takes would be too long for it as a copy."""
        draw = drawn.chances(17)
        for turn in range(60):
            lines = [line for line in drawn.rule_lines(draw, 30, turn % 2 == 0) if line.startswith("@")]
            source = drawn.text_of(lines).encode()
            rules, faults = rule_file.read_rules(source)
            self.assertEqual(faults, [])
            self.assertLessEqual(len(answers.numbered(rules)), len(source))
            again, _ = rule_file.read_rules(answers.numbered(rules))
            self.assertEqual([(it.userdata, it.priority, it.categories) for it in again],
                             [(it.ordinal, it.priority, it.categories) for it in rules])
            mine = [parts.Clipped(it, 0, parts.of_rule(it)) for it in rules if it.family == 4]
            if mine and all("pri" in it.given for it in rules) or not any("pri" in it.given for it in rules):
                self.assertLessEqual(len(parts.rule_file(4, parts.WHOLE, mine, False)), len(source))

    def test_a_copy_that_is_too_long_is_cut_into_parts(self):
        rules, _ = rule_file.read_rules(drawn.text_of([WEB, ANY]).encode())
        mine = [parts.Clipped(it, 0, parts.of_rule(it)) for it in rules]
        self.addCleanup(setattr, parts, "MOST_BYTES", parts.MOST_BYTES)
        parts.MOST_BYTES = 60
        with self.assertRaises(answers.Refusal) as raised:
            parts.rule_file(4, parts.WHOLE, mine, False)
        self.assertIn(raised.exception.code, parts.TOO_LARGE)

    def test_the_greatest_table_is_asked_for_first(self):
        asked = []
        search = parts.Search(4, [rule_file.read_rules(drawn.text_of([WEB, ANY]).encode())[0]],
                              lambda *words: asked.append(words[-1]))
        search.run()
        self.assertEqual((asked, answers.words_more(given(), True)), ([True], ["max-words=67108864"]))
        self.assertEqual(answers.words_more(given(max_words=600), True), ["max-words=600"])


class Parts(unittest.TestCase):
    def test_the_pieces_of_a_cut_are_the_part_and_disjoint(self):
        draw = drawn.chances(13)
        for _ in range(200):
            rules, _ = rule_file.read_rules(drawn.text_of(drawn.rule_lines(draw, 9)).encode())
            mine = [parts.Clipped(it, 0, parts.of_rule(it)) for it in rules if it.family == 4]
            pieces = parts.cut(mine, parts.WHOLE, 4) if mine else []
            for one in pieces:
                self.assertEqual([it for it in pieces if parts.meet(one, it, 32)], [one])
            sizes = [2 ** (72 - bin(it.protocol[1]).count("1") - it.source[1] - it.destination[1])
                     * count_of([it.source_ports, it.destination_ports]) for it in pieces]
            self.assertIn(sum(sizes), (0, 2 ** 104))

    def covered_by(self, lines, *numbers):
        """The lines that cover each of some lines which decide nothing."""
        listed = any_list.of_rule_file("rules", drawn.text_of(lines).encode())
        its_covers, entries = DEAD.Covers(listed), {it.number: it for it in listed.entries}
        return {number: [it["line"] for it in DEAD.row_of(entries[number], its_covers)["covered_by"]]
                for number in numbers}

    def test_covers_are_found_without_the_program(self):
        for lines, expected in DEAD_LINES:
            self.assertEqual(self.covered_by(lines, *expected), expected)

    def test_covers_among_many_lines_are_found(self):
        hosts = [WEB.replace("10.0.0.0/8", f"10.0.{it >> 8}.{it & 255}/32") for it in range(2048)]
        self.assertEqual(self.covered_by([*hosts, WEB.replace("/8", "/21")], 2049), {2049: list(range(1, 2049))})
        self.assertEqual(self.covered_by([WEB, *hosts], *range(2, 2050)), {it: [1] for it in range(2, 2050)})
        ports = [WEB.replace("80:80", f"{it}:{it}") for it in range(2048)]
        self.assertEqual(self.covered_by([*ports, WEB.replace("80:80", "0:2047")], 2049), {2049: list(range(1, 2049))})

    def test_pieces_near_others_are_all_that_meet_them(self):
        draw, count = drawn.chances(15), 0
        for _ in range(60):
            lines = drawn.rule_lines(draw, 40)
            rules = [it for it in rule_file.read_rules(drawn.text_of(lines).encode())[0] if it.family == 4]
            pieces = list(enumerate(map(covers.piece_of, rules)))
            near = covers.Near(pieces)
            for _, one in pieces:
                met = {place for place, other in pieces if covers.meets(one, other)}
                self.assertLessEqual(met, set(near.places([one])))
                count += len(met) < len(near.places([one])) < len(pieces)
        self.assertGreater(count, 20)

    def test_what_is_left_is_counted_exactly(self):
        size = lambda piece: bin(piece.protocols).count("1") * count_of(piece[1:])
        draw = drawn.chances(14)
        for _ in range(300):
            rules, _ = rule_file.read_rules(drawn.text_of([drawn.rule_line(draw, False) for _ in range(2)]).encode())
            one, other = (covers.piece_of(rule) for rule in rules)
            if rules[0].family != rules[1].family:
                continue
            both = covers.Piece(one.protocols & other.protocols,
                                *((max(a[0], b[0]), min(a[1], b[1])) for a, b in zip(one[1:], other[1:])))
            left = list(covers.without(one, other))
            self.assertEqual(sum(map(size, left)), size(one) - (size(both) if covers.meets(one, other) else 0))
            self.assertFalse([it for it in left if covers.meets(it, other)])


def count_of(sides):
    """How many values some intervals have together."""
    count = 1
    for low, high in sides:
        count *= high - low + 1
    return count


if __name__ == "__main__":
    unittest.main()
