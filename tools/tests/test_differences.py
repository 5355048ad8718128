# SPDX-License-Identifier: BSD-3-Clause
"""All differences of two lists: pairs of lines and their boxes against a plain reading of every part of the keys, what
`same --all` and --except tell of them, and what is said where a limit is met."""
import contextlib
import csv
import io
import itertools
import json
import unittest
from unittest import mock

import drawn
from aclc_tools import all_pairs, answers, covers, differences, keys, pairs_told, regions, two_lists
from tool import BUILT, EXAMPLES, given, tool

# So many networks, ranges and protocols are drawn of.
CHOICES = 5
TURNS = 24


class Lists(unittest.TestCase):
    def setUp(self):
        self.room = answers.Room()
        self.addCleanup(self.room.folder.cleanup)

    def file(self, text):
        """A file of this text."""
        return self.room.write(".list", text.encode())

    def read(self, text, **options):
        """The list of a text."""
        return answers.read(self.file(text), given(**options), self.room)


class Pairs(Lists):
    """The pairs of lines and their boxes, each key of which is read plainly too."""

    def told(self, found, key, category):
        """The pairs of lines in whose boxes a packet is."""
        return [tuple(listed.entry(listed.rules[number - 1]).number if number else None
                      for listed, number in zip(found.lists, (pair.old, pair.new)))
                for pair in found.pairs.values() if category in pair.categories
                for box in regions.joined(sum(pair.pieces.values(), [])) if regions.has(pair.family, box, key)]

    def decides(self, rules, key, category):
        """The line that decides by the plain reading, or None."""
        return next(iter(drawn.lines_of(drawn.matching(rules, key), category)), None)

    def check(self, old, new, data="data"):
        """Compares pairs and boxes with the plain reading of the corners of both lists; how many packets differ."""
        found = differences.Differences([self.read(drawn.text_of(lines)) for lines in (old, new)], data)
        self.assertEqual(found.untold, [])
        rules, count = [drawn.read(lines) for lines in (old, new)], 0
        for key in drawn.corners(old, new):
            matched = [drawn.matching(its, key) for its in rules]
            for category in drawn.categories_of(old, new):
                pair = tuple(self.decides(its, key, category) for its in rules)
                wanted = (pair if data == "line" else [drawn.answer(it, category) for it in matched])
                expected = [pair] if wanted[0] != wanted[1] else []
                self.assertEqual(self.told(found, key, category), expected, (old, new, key.told(), category))
                count += len(expected)
        return count

    def test_drawn_edits_are_told_whole_and_nothing_else_is(self):
        draw, differing = drawn.chances(51), 0
        for turn in range(TURNS):
            old = drawn.rule_lines(draw, 8, turn % 5 == 0, CHOICES)
            new = drawn.edited(draw, old, CHOICES)
            for _ in range(turn % 3):
                new = drawn.edited(draw, new or old, CHOICES)
            differing += bool(self.check(old, new, ("data", "line")[turn % 2]))
        self.assertGreater(differing, TURNS // 3)

    def test_lists_that_have_nothing_in_common_are_told_whole(self):
        draw = drawn.chances(52)
        for turn in range(TURNS // 5):
            self.check(*(drawn.rule_lines(draw, 6, turn % 4 == 0, CHOICES) for _ in range(2)))

    def test_a_list_against_none(self):
        lines = drawn.rule_lines(drawn.chances(53), 8)
        self.assertGreater(min(self.check(lines, []), self.check([], lines)), 0)


class Joined(unittest.TestCase):
    """Pieces joined to boxes have the same packets."""

    def test_boxes_have_the_packets_of_their_pieces(self):
        draw, fewer = drawn.chances(54), 0
        for _ in range(120):
            pieces = covers.of_packets(piece(draw))
            for other in range(draw.randrange(5)):
                pieces = [left for it in pieces for left in covers.without(it, piece(draw))]
            found = regions.joined(pieces)
            fewer += len(found) < len(pieces)
            for key in every_key():
                there = [any(regions.has(4, it, key) for it in its) for its in (pieces, found)]
                self.assertEqual(*there, (pieces, found, key.told()))
        self.assertGreater(fewer, 3)

    def test_a_box_in_words(self):
        every, any_port = (0, (1 << 32) - 1), (0, 0xFFFF)
        for box, said in (
                (covers.Piece((1 << 256) - 1, every, every, any_port, any_port), "any 0.0.0.0/0 -> 0.0.0.0/0"),
                (covers.Piece(1 << 6 | 1 << 17, (1, 1), (0, 1), any_port, (22, 23)),
                 "tcp,udp 0.0.0.1 -> 0.0.0.0/31:22-23"),
                (covers.Piece(1 << 1, (1, 2), (0, 1), (0, 0), (0, 0)), "icmp 0.0.0.1-0.0.0.2 -> 0.0.0.0/31"),
                (covers.Piece(~(1 << 6) & (1 << 256) - 1, (1, 2), (0, 1), (80, 80), any_port),
                 "0-5,7-255 0.0.0.1-0.0.0.2:80 -> 0.0.0.0/31")):
            self.assertEqual(regions.words(4, box), said)
        self.assertEqual(regions.words(6, covers.Piece(1 << 58 | 1 << 6, (0, 1), (2, 2), any_port, (1, 1))),
                         "tcp,icmpv6 ::/127 -> [::2]:1")


def piece(draw):
    """A piece of the least addresses and ports."""
    sides = [tuple(sorted(draw.choices(range(4), k=2))) for _ in range(4)]
    every = (1 << 256) - 1
    return covers.Piece(draw.choice([every, 1 << 6, 1 << 1, 1 << 6 | 1 << 1, every - (1 << 1)]), *sides)


def every_key():
    """Keys of packets that have the least addresses and ports."""
    ends = (0, 0), (0, 3), (1, 2), (2, 1), (3, 3)
    for protocol, source, destination in ((it, *two) for it in (1, 6) for two in ends):
        for ports in [(one, other) for one in range(4) for other in range(4)] if protocol == 6 else [(0, 0)]:
            yield keys.Key(protocol, source.to_bytes(4, "big"), destination.to_bytes(4, "big"), ports)


WEB, ANY = "@10.0.0.0/8 0.0.0.0/0 0:65535 80:80 6/0xFF", "@0.0.0.0/0 0.0.0.0/0 0:65535 0:65535 0/0"
OFFICE, EDITED = EXAMPLES / "office.rules", EXAMPLES / "edited.rules"
CAPTURE = EXAMPLES / "office.pcap"
EXCEPT = "except: packets that line 3 of NEW decides are left out\n"
CISCO = ("ip access-list extended A\n permit tcp any any established\n permit udp any any eq 53\n"
         " permit tcp 10.0.0.0 0.0.0.255 any eq 22\n deny ip any any\n")
# Tables of so many words are too large for most of the lists, and those of their parts aren't.
FEW_WORDS = 600


@BUILT
class Same(Lists):
    """What the tool tells, and what the program confirms."""

    def json(self, *words):
        """The exit code and what is told as JSON."""
        code, told, said = tool("same", "--json", *words)
        self.assertNotIn("fault of this tool", said)
        return code, json.loads(told or "{}"), said

    def test_pairs_as_text_and_as_a_table(self):
        code, told, said = tool("same", "--all", OFFICE, EDITED)
        self.assertEqual((code, said), (1, ""))
        self.assertEqual(told.splitlines()[0], "IPv4: 1 pair of lines gives packets another answer")
        self.assertEqual(told.splitlines()[3:], ["    udp 192.168.1.0/24 -> 192.168.2.31:1234",
                                                 "    as udp 192.168.1.0:0 -> 192.168.2.31:1234", "IPv6: the same"])
        rows = list(csv.DictReader(io.StringIO(tool("same", "--all", "--csv", OFFICE, EDITED)[1])))
        self.assertEqual([(row["old"], row["new_line"], row["source"], row["destination_ports"]) for row in rows],
                         [("101", "3", "192.168.1.0-192.168.1.255", "1234-1234")])
        halves = tool("same", "--all", OFFICE, EXAMPLES / "halves.rules")
        self.assertEqual(halves, (0, "IPv4: the same\nIPv6: the same\n", ""))

    def test_only_the_excepted_lines_are_left_out_and_it_says_so(self):
        code, told, said = tool("same", "--except", "3", OFFICE, EDITED)
        self.assertEqual((code, said), (0, ""))
        self.assertTrue(told.startswith(EXCEPT), told)
        self.assertNotRegex(told, r"the same(?!, except)")
        code, told, _ = self.json("--except", "3", OFFICE, EDITED)
        self.assertEqual((code, told["same_except_these"], [it["line"] for it in told["except"]]), (0, True, [3]))
        self.assertNotIn("same", told)
        self.assertEqual(tool("same", "--except", "2", OFFICE, EDITED)[0], 1)
        code, _, said = tool("same", "--except", "1", OFFICE, EDITED)
        self.assertEqual((code, said), (2, f"same: {EDITED}: --except 1: no rule of the new list is line 1\n"))

    def test_drawn_lists_and_exceptions_as_the_plain_reading_says(self):
        draw, codes = drawn.chances(56), {0: 0, 1: 0}
        for turn in range(16):
            old = drawn.rule_lines(draw, 8, turn % 4 == 0, CHOICES)
            new = drawn.edited(draw, drawn.edited(draw, old, CHOICES) or old, CHOICES)
            names = [self.file(drawn.text_of(lines)) for lines in (old, new)]
            rules = [drawn.read(lines) for lines in (old, new)]
            some = draw.choice([number for _, number in rules[1]]) if rules[1] and turn % 2 else None
            expected = set()
            for key, category in itertools.product(list(drawn.corners(old, new)), drawn.categories_of(old, new)):
                matched = [drawn.matching(its, key) for its in rules]
                pair = tuple(next(iter(drawn.lines_of(it, category)), None) for it in matched)
                is_left_out = some is not None and pair[1] == some
                if drawn.answer(matched[0], category) != drawn.answer(matched[1], category) and not is_left_out:
                    expected.add((key.family, *pair))
            words = [] if some is None else ["--except", str(some)]
            code, told, said = self.json(*words, "--all", "--form", "rules", *names)
            self.assertEqual((code, {(it["family"], it["old_line"], it["new_line"]) for it in told["pairs"]}),
                             (1 if expected else 0, expected), (old, new, some, said))
            codes[code] += 1
        self.assertGreater(min(codes.values()), 2, codes)

    def test_tables_that_are_too_large_are_confirmed_in_parts_or_it_is_said(self):
        draw, codes = drawn.chances(57), {0: 0, 1: 0, 2: 0}
        for _ in range(8):
            old = drawn.rule_lines(draw, 12, False, CHOICES)
            names = [self.file(drawn.text_of(lines)) for lines in (old, drawn.edited(draw, old, CHOICES))]
            (code, whole, _), (narrow, parted, said) = (
                self.json("--all", "--form", "rules", *names, *more) for more in ((), ("--max-words", FEW_WORDS)))
            self.assertEqual(whole["pairs"], parted["pairs"])
            self.assertIn((narrow, parted["all_told"]), ((code, True), (2, False)), said)
            codes[narrow] += 1
        self.assertGreater(codes[1], 0, codes)

    def test_lines_that_were_left_out_are_no_difference_and_not_the_same(self):
        opened = CISCO.replace(" deny", " permit icmp any any echo\n deny")
        for new, code, open_ones in ((CISCO, 0, []), (CISCO.replace("eq 53", "eq 54"), 1, []), (opened, 2, ["ip4"])):
            done, told, _ = self.json("--all", "--lenient", self.file(CISCO), self.file(new))
            self.assertEqual((done, told["couldnt_tell"], told["same"]), (code, open_ones, code == 0), new)
        self.assertEqual([(it["old_line"], it["new_line"], it["not_decided"]) for it in told["pairs"]], [(5, 5, True)])
        self.assertEqual(self.json("--except", "5", "--lenient", self.file(CISCO), self.file(opened))[0], 2)

    def test_changes_leave_out_what_excepted_lines_decide_and_count_it(self):
        code, told, said = tool("changes", "--except", "3", OFFICE, EDITED, CAPTURE)
        self.assertEqual((code, said), (0, ""))
        self.assertTrue(told.startswith(EXCEPT), told)
        self.assertTrue(told.endswith("0 of 3 packets get another answer, except 1 that line 3 of NEW decides\n"), told)
        code, told, _ = tool("changes", "--json", "--except", "2", OFFICE, EDITED, CAPTURE)
        told = json.loads(told)
        self.assertEqual((code, told["changed"], told["changed_by_excepted"], told["except"][0]["line"]), (1, 1, 0, 2))
        self.assertIn(",except\n", tool("changes", "--csv", "--except", "3", OFFICE, EDITED, CAPTURE)[1])
        self.assertNotIn("except", tool("changes", "--csv", OFFICE, EDITED, CAPTURE)[1])
        self.assertEqual(tool("changes", "--except", "9", OFFICE, EDITED, CAPTURE)[0], 2)


@BUILT
class Limits(Lists):
    """What keeps the pairs from being all that there are is told."""

    def pairs(self, old, new, **more):
        """The pairs of two lists."""
        names = [self.file(drawn.text_of(lines)) for lines in (old, new)]
        options = given(old=names[0], new=names[1], **more)
        return all_pairs.AllPairs(two_lists.TwoLists(options, self.room), options, self.room)

    def test_a_limit_is_told_by_name(self):
        for place, name, limit, part in ((differences, "MOST_STEPS", 1, "the limit is 1 comparisons"),
                                         (differences, "MOST_PIECES", 1, "the limit is 1 pieces")):
            with mock.patch.object(place, name, limit):
                found = self.pairs([ANY + " data=2"], [WEB + " data=1", ANY + " data=3"])
            self.assertFalse(found.is_told())
            self.assertIn(part, found.unknown[0])
            self.assertIn("packets of no pair that is told get another answer too, as ", found.unknown[-1])

    def test_boxes_beyond_the_limit_are_counted(self):
        lists = [[f"@10.0.{it}.0/32 0.0.0.0/0 0:65535 80:80 6/0xFF" for it in range(12)] + [ANY + f" data={data}"]
                 for data in (1, 2)]
        found = self.pairs(*lists)
        self.assertTrue(found.is_told())
        self.assertEqual(len(found.told), 1)
        with contextlib.redirect_stdout(io.StringIO()) as printed:
            pairs_told.print_text(found, None)
        count = len(found.told[0].boxes) - all_pairs.MOST_BOXES
        self.assertGreater(count, 0)
        self.assertIn(f"    and {count} more boxes of packets\n", printed.getvalue())

    def ends(self, name, does, old, new, **more):
        """Whether a run with a fault in the tool is refused."""
        with mock.patch.object(differences.Differences, name, does), self.assertRaises(SystemExit) as end:
            self.pairs(old, new, **more)
        self.assertEqual(end.exception.code, 2)

    def test_the_program_finds_a_pair_that_is_missing(self):
        usual = differences.Differences.add

        def without_one(found, family, categories, old, new, pieces):
            if new.ordinal != 1:
                usual(found, family, categories, old, new, pieces)

        self.ends("add", without_one, [ANY + " data=2"], [WEB + " data=1", ANY + " data=3"])

    def test_the_program_finds_another_line_that_decides_what_is_told(self):
        """What WEB decides is told as that of ANY, which is excepted."""
        usual, lists = differences.Differences.decided, ([ANY + " data=2"], [WEB + " data=4", ANY + " data=3"])

        def of_the_last(found, both, owner, place):
            told = usual(found, both, owner, place)
            return [(told[-1][0], sum((pieces for _, pieces in told), []))] if owner == 0 else told[:place]

        self.assertEqual(len(self.pairs(*lists, excepted=[2]).told), 1)
        self.ends("decided", of_the_last, *lists, excepted=[2])

    def test_many_boxes_are_confirmed_in_one_run(self):
        before = [f"@10.{it}.0.0/16 10.{it}.1.0/24 0:65535 {it}:{it + 9} 6/0xFF data=1" for it in range(60)]
        found = self.pairs(*(before + [ANY + f" data={data}"] for data in (1, 2)))
        self.assertEqual((found.is_told(), len(found.told)), (True, 1))
        self.assertGreater(len(found.told[0].boxes), 100)
