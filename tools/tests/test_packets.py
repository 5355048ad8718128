# SPDX-License-Identifier: BSD-3-Clause
"""tools/explain, tools/changes, tools/hits: their answers against a plain reading of lists, and what they refuse."""
import csv
import json
import os
import shutil
import struct
import subprocess
import tempfile
import unittest
from pathlib import Path

import drawn
import packets
from aclc_tools import answers, any_list, blocks, capture, explained, keys, packet_words, program, rule_file
from aclc_tools.program import TOP
from tool import BUILT, DATA, EXAMPLES, given, script, tool

CHANGES, HITS = (script(TOP / "tools" / name) for name in ("changes", "hits"))
OFFICE, EDITED, CAPTURE = EXAMPLES / "office.rules", EXAMPLES / "edited.rules", EXAMPLES / "office.pcap"

# Packets that are typed: what they are in words, or a part of what is said of them.
TYPED = [("tcp 10.0.0.5:4000 -> 10.1.0.1:443", "tcp 10.0.0.5:4000 -> 10.1.0.1:443"),
         ("icmp 10.0.0.1->10.0.0.2", "icmp 10.0.0.1 -> 10.0.0.2"),
         ("47 1.2.3.4 -> 5.6.7.8", "47 1.2.3.4 -> 5.6.7.8"), ("gre 1.2.3.4 -> 5.6.7.8", "47 1.2.3.4 -> 5.6.7.8"),
         ("6 1.2.3.4:1 -> 5.6.7.8:2", "tcp 1.2.3.4:1 -> 5.6.7.8:2"), ("icmp ::1 -> ::2", "icmpv6 ::1 -> ::2"),
         ("0" * 5000 + "47 ::1 -> ::2", "47 ::1 -> ::2"),
         ("1 ::1 -> ::2", "1 ::1 -> ::2"),
         ("tcp [2001:db8::1]:4000 -> [2001:db8::2]:443", "tcp [2001:db8::1]:4000 -> [2001:db8::2]:443"),
         ("0600000000c0a8010000000050", "tcp 0.0.0.0:0 -> 192.168.1.0:80"), ("00" * 37, "0 :: -> ::")]
NO_PACKETS = [("tcp 10.0.0.5:4000 -> 10.0.0.1.2:1", "is no address"),
              ("tcp 1.2.3.4:1 -> [::1]:2", "different families"),
              ("udp 1.2.3.4 -> 1.2.3.4:5", "has two ports"), ("icmp 1.2.3.4:1 -> 1.2.3.4", "has no ports"),
              ("tcp", "in quotes"),
              ("tcp 1.2.3:1 -> 1.2.3.4:5", "1.2.3 is no address"),
              ("tcp 1.2.3.4:65536 -> 1.2.3.4:1", "65536 is above 65535"),
              ("foo 1.2.3.4 -> 2.3.4.5", "foo is no protocol"), ("² 1.2.3.4 -> 2.3.4.5", "is no protocol"),
              ("", "in quotes"),
              ("256 1.2.3.4 -> 2.3.4.5", "is no protocol"), ("0100000000c0a8010000000050", "no packet has this key"),
              ("06" * 12, "has 24"),
              ("tcp 1.2.3.4:1 > 1.2.3.4:1", "in quotes"), ("tcp fe80::1%eth0 -> ::1", "is no address"),
              ("tcp [fe80::1%1]:4000 -> [::1]:443", "is no address"), ("6" * 5000 + " ::1 -> ::2", "is no protocol")]
# Runs that end with exit code 2: the tool, its words, and a part of the message.
REFUSED = [("explain", [OFFICE, "tcp"], "explain: tcp: it is no packet"),
           ("explain", [OFFICE, f"{CAPTURE}#4"], "it has no record 4"),
           ("explain", [OFFICE, f"{CAPTURE}#0"], "it has no record 0"),
           ("explain", [OFFICE, "none.pcap#1"], "none.pcap: No such file"),
           ("explain", [OFFICE, f"{CAPTURE}#" + "1" * 5000], "it is no packet"),
           ("explain", [OFFICE, f"{OFFICE}#1"], "record 0: magic"),
           ("explain", ["none", "00" * 13], "none: No such file"),
           ("explain", [CAPTURE, "00" * 13], "this is a capture"),
           ("explain", ["{faulty}", "00" * 13], "aclc: rules: line 2: bad ports"),
           ("explain", ["{text}", "00" * 13], "no form of a list is seen"),
           ("explain", [OFFICE, "00" * 13, "--category", "16"], "category"),
           ("explain", [OFFICE, "00" * 13, "--max-words", "1"], "office.rules: aclc: ip4 table too large"),
           ("explain", [OFFICE], "PACKET"),
           ("explain", [DATA / "gateway.iptables-save", "00" * 13, "--chain", "NONE"], "there is no chain NONE"),
           ("changes", [OFFICE, "{faulty}", CAPTURE], "aclc: rules: line 2: bad ports"),
           ("changes", [OFFICE, EDITED], "CAPTURE"),
           ("changes", [OFFICE, EDITED, OFFICE], "office.rules: aclc: capture: record 0: magic"),
           ("changes", [OFFICE, EDITED, "none"], "none: No such"),
           ("changes", [OFFICE, EDITED, "{cut}"], "aclc: capture: record 3: cut"),
           ("changes", [OFFICE, EDITED, DATA], "Is a directory"),
           ("changes", [OFFICE, EDITED, CAPTURE, "--max-words", "1"], "office.rules: aclc: ip4 table too large"),
           ("changes", [OFFICE, EDITED, CAPTURE, "--max-words", "x"], "aclc: usage: word 6: bad value"),
           ("changes", [OFFICE, EDITED, CAPTURE, "--data", "verdict"], "a rule file has no verdicts"),
           ("changes", [OFFICE, "{cisco}", CAPTURE], "one list is a rule file"),
           ("hits", [OFFICE, "none"], "none: No such file"),
           ("hits", [OFFICE, CAPTURE, "--over", "0s"], "0s is no time"),
           ("hits", [OFFICE, CAPTURE, "--over", "60x"], "60x is no time"),
           ("hits", [OFFICE, "{cut}"], "aclc: capture: record 3: cut"),
           ("hits", ["{image}", CAPTURE], "this is an image"),
           ("hits", [OFFICE, CAPTURE, "--form", "nft"], "the file isn't JSON")]
ESCAPE = b"@10.0.0.0/8 0.0.0.0/0 0:65535 0:65535 0/0 \x1b[31m\n"


class Forms(unittest.TestCase):
    def test_the_form_of_each_shipped_list_is_seen(self):
        kinds = {".rules": "rules", ".cisco": "cisco", ".iptables-save": "iptables", ".ip6tables-save": "iptables",
                 ".nft-json": "nft", ".l3fwd": "l3fwd", ".asa": "asa", ".nxos": "nxos", ".iosxr": "iosxr",
                 ".juniper": "juniper"}
        shipped = [path for path in DATA.iterdir() if path.suffix in kinds
                   and kinds[path.suffix] in (*any_list.FORMS, "rules")]
        self.assertGreater(len(shipped), 8)
        for path in shipped:
            self.assertEqual(any_list.forms_seen(path.read_text()), [kinds[path.suffix]], path)
        for path in EXAMPLES.glob("*.rules"):
            self.assertEqual(any_list.forms_seen(path.read_text()), ["rules"], path)

    def test_what_could_be_several_forms_is_none_of_them(self):
        both = drawn.as_cisco([]) + "*filter\n"
        self.assertEqual(any_list.forms_seen(both), ["iptables", "cisco"])
        self.assertEqual(any_list.forms_seen("10.0.0.0/8 any\n"), [])

    def test_the_form_below_many_empty_lines_is_seen(self):
        for line, forms in (("@10.0.0.0/8", ["rules"]), ("ip access-list A", ["nxos"]),
                            ("ipv4 access-list A", ["iosxr"]), ("ip access-list standard A", ["cisco"])):
            self.assertEqual(any_list.forms_seen("\n" * 50000 + f"\t{line}\n"), forms)


class Typed(unittest.TestCase):
    def test_packets_are_read(self):
        for text, words in TYPED:
            self.assertEqual(packet_words.words_of(packet_words.typed(text)), words)
            self.assertEqual(packet_words.typed(words).content(), packet_words.typed(text).content())

    def test_what_is_no_packet_is_refused(self):
        for text, part in NO_PACKETS:
            with self.subTest(text=text), self.assertRaises(packet_words.NoPacket) as raised:
                packet_words.typed(text)
            self.assertIn(part, str(raised.exception))

    def test_frames_have_the_keys_that_the_plain_reading_finds(self):
        draw = drawn.chances(3)
        for file in ("mixed.pcap", "office.pcap"):
            for record in capture.records_with_times((EXAMPLES / file).read_bytes()):
                self.compare(record.link, record.frame)
                for _ in range(60):
                    damaged = bytearray(record.frame[:draw.choice([len(record.frame),
                                                                   draw.randrange(len(record.frame) + 1)])])
                    for at in [draw.randrange(len(damaged)) for _ in range(2)] if damaged else ():
                        damaged[at] = draw.choice([0, 6, 44, 60, 0x81, draw.randrange(256)])
                    self.compare(draw.choice([record.link, 101, 228, 229, 113, 276]), bytes(damaged))

    def compare(self, link, frame):
        """Compares the key of a frame, or why it has none."""
        found = []
        for read, fault in ((keys.of_frame, keys.NoKey), (drawn.reading.key, drawn.reading.Fault)):
            try:
                key = read(link, frame)
                found.append(key.content() if read is keys.of_frame else drawn.reading.key_bytes(key))
            except fault as kind:
                found.append(str(kind))
        self.assertEqual(*found)


@BUILT
class Explain(unittest.TestCase):
    def setUp(self):
        self.room = answers.Room()
        self.addCleanup(self.room.folder.cleanup)

    def explained(self, listed, asked, categories, options):
        """Of each packet the groups of categories, each with the lines that match."""
        printed = explained.printed(asked, listed, categories, options, self.room)
        return [[(group, [entry.number for entry, _ in found])
                 for group, found in explained.of_packet(listed, packet, answer, categories)]
                for packet, answer in zip(asked, printed)]

    def test_drawn_rule_files(self):
        draw = drawn.chances(1)
        for turn in range(80):
            lines = drawn.rule_lines(draw, with_categories=turn % 3 == 0)
            listed = answers.read(self.room.write(".rules", drawn.text_of(lines).encode()), given(), self.room)
            near = [drawn.key_of(packets.fields(listed.rules, draw)) for _ in range(12)]
            asked = [explained.Asked("", 1, keys.frame(key), key, f"ip{key.family}") for key in near]
            categories, rules = answers.categories_of(given(), listed), drawn.read(lines)
            for key, groups in zip(near, self.explained(listed, asked, categories, given())):
                told, matched = {category: found for group, found in groups
                                 for category in group}, drawn.matching(rules, key)
                self.assertEqual(told, {it: drawn.lines_of(matched, it) for it in categories}, lines)

    def test_drawn_lists_of_firewalls(self):
        draw = drawn.chances(2)
        for turn in range(30):
            lines = drawn.firewall(draw, draw.randrange(1, 12))
            text, first, end = [(drawn.as_cisco(lines), 1, None), (drawn.as_iptables(lines), 3, 3)][turn % 2]
            listed = answers.read(self.room.write(".list", text.encode()), given(), self.room)
            near = [drawn.firewall_key(draw) for _ in range(12)]
            asked = [explained.Asked("", 1, keys.frame(key), key, "ip4") for key in near]
            for key, groups in zip(near, self.explained(listed, asked, [0], given())):
                self.assertEqual(groups, [([0], [first + place for place in drawn.said_by(lines, key)] + [end])], text)

    def test_the_reason_is_priority_or_place(self):
        code, lines, _ = tool("explain", OFFICE, f"{CAPTURE}#1", f"{CAPTURE}#2", f"{CAPTURE}#3", cwd=EXAMPLES)
        self.assertEqual(code, 0)
        self.assertIn("its priority 10 is less than 20", lines)
        self.assertIn("it stands after line 3 and has the same priority", lines)
        self.assertTrue(lines.endswith("#3: udp 10.0.0.9:5000 -> 10.0.0.1:53\n  no rule matches\n"), lines)

    def test_a_packet_without_a_key_is_told(self):
        frames = [bytes(60), bytes(12) + b"\x08\x00\x45" + bytes(10)]
        path = self.room.write(".pcap", capture.write(frames))
        code, lines, _ = tool("explain", OFFICE, f"{path}#1", f"{path}#2")
        self.assertEqual(code, 0)
        self.assertIn("a packet that is other has no rule", lines)
        self.assertIn("a packet that is short has no rule", lines)

    def test_it_stops_where_the_program_differs(self):
        liar = self.room.write("", b"#!/bin/sh\necho '1 ip4 3'\necho 'packets 1 ip4 1 ip6 0 other 0 short 0'\n")
        liar.chmod(0o755)
        code, lines, said = tool("explain", OFFICE, f"{CAPTURE}#1", env={"ACLC": str(liar)})
        self.assertEqual((code, lines), (2, ""))
        self.assertIn("the program answers by line 4, and this tool finds line 2", said)

    def test_forms_agree(self):
        words = [EXAMPLES / "mixed.rules", f"{EXAMPLES / 'mixed.pcapng'}#1", "tcp 1.1.1.1:1 -> 1.1.1.1:1"]
        rows = json.loads(tool("explain", "--json", *words)[1])
        table = list(csv.DictReader(tool("explain", "--csv", *words)[1].splitlines()))
        self.assertEqual([(it["outcome"], it["line"]) for it in rows], [("decides", 2), ("unmatched", None)])
        self.assertEqual([(it["outcome"], it["line"]) for it in table], [("decides", "2"), ("unmatched", "")])


@BUILT
class Changes(unittest.TestCase):
    def setUp(self):
        self.room = answers.Room()
        self.addCleanup(self.room.folder.cleanup)

    def test_drawn_edits(self):
        draw, changed = drawn.chances(4), 0
        for turn in range(50):
            old = drawn.rule_lines(draw, with_categories=turn % 4 == 0)
            lists = old, drawn.edited(draw, old)
            names = [self.room.write(".rules", drawn.text_of(lines).encode()) for lines in lists]
            near = [drawn.key_of(packets.fields(rule_file.read_rules(names[0].read_bytes())[0], draw))
                    for _ in range(20)]
            write = draw.choice([capture.write, blocks.write])
            options = given(old=names[0], new=names[1],
                            captures=[self.room.write(".pcap", write(list(map(keys.frame, near))))])
            comparison = CHANGES.Comparison(options, self.room)
            told = [(change.number, change.category, row["old_line"], row["new_line"], row["packet"]) for change, key
                    in CHANGES.all_changes(comparison) for row in [comparison.row(change, key)]]
            rules = [drawn.read(lines) for lines in lists]
            expected = []
            for number, key in enumerate(near, 1):
                old, new = (drawn.matching(its, key) for its in rules)
                odd = [it for it in drawn.categories_of(*lists) if drawn.answer(old, it) != drawn.answer(new, it)]
                lines = [(drawn.lines_of(its, odd[0]) or [None])[0] for its in (old, new)] if odd else []
                expected += [(number, odd[0], *lines, packet_words.words_of(key))] if odd else []
            self.assertEqual(told, expected, lists)
            self.assertEqual((comparison.packets, comparison.changed, sum(comparison.pairs.values())),
                             (20, len(told), len(told)))
            changed += len(told)
        self.assertGreater(changed, 40)

    def test_codes_and_lines(self):
        new = self.room.write(".rules", b"".join(line for line in OFFICE.read_bytes().splitlines(True)
                                                 if b"data=102" not in line))
        code, lines, said = tool("changes", OFFICE, new, CAPTURE)
        self.assertEqual((code, said), (1, ""))
        self.assertIn("#2: udp 192.168.1.5:5000 -> 192.168.2.31:1235\n  old  102  line 3: @192.168.1.0/24", lines)
        self.assertTrue(lines.endswith("      1  line 3 102  line 3 103\n1 of 3 packets get another answer\n"), lines)
        self.assertEqual(tool("changes", OFFICE, EXAMPLES / "halves.rules", CAPTURE)[:2],
                         (0, "0 of 3 packets get another answer\n"))

    def test_twenty_are_shown_or_all(self):
        frames = [frame for frame, _ in capture.records(CAPTURE.read_bytes())]
        many = self.room.write(".pcap", capture.write(frames * 30))
        shown = [tool("changes", OFFICE, EDITED, many, *more)[1].count("\n  old") for more in ((), ("--all",))]
        self.assertEqual(shown, [20, 30])
        self.assertIn("... and 10 more packets", tool("changes", OFFICE, EDITED, many)[1])
        told = json.loads(tool("changes", OFFICE, EDITED, many, "--json", "--all")[1])
        self.assertEqual((told["packets"], told["changed"], len(told["shown"]), told["pairs"][0]["packets"]),
                         (90, 30, 30, 30))

    def test_verdicts_count_and_lines_do_not(self):
        draw = drawn.chances(8)
        lines = drawn.firewall(draw, 8)
        sent = [drawn.firewall_key(draw) for _ in range(40)]
        path = self.room.write(".pcap", capture.write(list(map(keys.frame, sent))))
        cisco = drawn.as_cisco(lines)
        texts = cisco, cisco.replace("A\n", "A\n remark moved\n"), drawn.as_iptables(lines)
        names = [self.room.write(".list", text.encode()) for text in texts]
        for words, code in (((0, 1), 0), ((0, 2), 0), ((0, 1, "--data", "line"), 1), ((0, 1, "--data", "text"), 0)):
            done = tool("changes", *(names[it] if it in (0, 1, 2) else it for it in words), path)
            self.assertEqual(done[0], code, done)

    def test_a_refused_capture_leaves_the_others(self):
        code, lines, said = tool("changes", OFFICE, EDITED, OFFICE, CAPTURE)
        self.assertEqual((code, lines.count("\n  old")), (2, 1))
        self.assertEqual(said, f"changes: {OFFICE}: aclc: capture: record 0: magic\n"
                               "    It is a rule file: the rule file is named first, and the capture second.\n")

    def test_a_capture_may_be_a_pipe(self):
        with open(CAPTURE, "rb") as pipe:
            done = subprocess.run([str(TOP / "tools" / "changes"), str(OFFICE), str(EDITED), "-"], input=pipe.read(),
                                  stdout=subprocess.PIPE,
                                  env={**os.environ, "ACLC": str(program.built_program())})
        self.assertEqual((done.returncode, done.stdout.count(b"\n  old")), (1, 1))


@BUILT
class Hits(unittest.TestCase):
    def setUp(self):
        self.room = answers.Room()
        self.addCleanup(self.room.folder.cleanup)

    def test_each_rule_has_its_count(self):
        code, text, _ = tool("hits", OFFICE, CAPTURE)
        self.assertEqual(code, 0)
        self.assertEqual([line.split()[:2] for line in text.split("\n")[1:5]],
                         [["1", "2"], ["1", "3"], ["0", "4"], ["1", "-"]])
        self.assertTrue(text.endswith("1 of 3 lines decides none of these packets\n"), text)
        self.assertEqual(tool("hits", "--category", "15", OFFICE, CAPTURE)[1], text)

    def test_forms_and_formats_agree(self):
        names = EXAMPLES / "mixed.rules", EXAMPLES / "mixed.pcap"
        told = json.loads(tool("hits", "--json", *names)[1])
        rows = list(csv.DictReader(tool("hits", "--csv", *names)[1].splitlines()))
        self.assertEqual([rule["hits"] for rule in told["rules"]], [1, 1, 1, 1, 1, 1])
        sums = program.run("classify", *names, path=program.built_program()).lines.decode().split("\n")[-2].split()
        self.assertEqual([str(told["packets"]), *(str(told["kinds"][it]) for it in ("ip4", "ip6", "other", "short"))],
                         [sums[1], *sums[3::2]])
        self.assertEqual(told, json.loads(tool("hits", "--json", names[0], EXAMPLES / "mixed.pcapng")[1]))
        self.assertEqual([int(row["hits"]) for row in rows], [1, 1, 1, 1, 1, 1, told["unmatched"]])
        self.assertEqual([row["line"] for row in rows], ["2", "3", "4", "5", "7", "8", ""])

    def test_rows_are_lines_of_the_list_as_it_was_written(self):
        draw = drawn.chances(5)
        lines = drawn.firewall(draw, 30)
        sent = [drawn.firewall_key(draw) for _ in range(300)]
        path = self.room.write(".pcap", capture.write(list(map(keys.frame, sent))))
        deciding = [(drawn.said_by(lines, key) + [None])[0] for key in sent]
        for text, first in ((drawn.as_cisco(lines), 1), (drawn.as_iptables(lines), 3)):
            told = json.loads(tool("hits", "--json", self.room.write(".list", text.encode()), path)[1])
            counts = {row["line"]: row["hits"] for row in told["rules"]}
            self.assertEqual(len(counts), 31)
            self.assertEqual([counts[first + place] for place in range(1, 31)],
                             [deciding.count(place) for place in range(1, 31)])
            self.assertEqual((counts[None if first == 1 else 3], told["unmatched"]), (deciding.count(None), 0))

    def test_intervals_have_the_times_of_both_formats(self):
        frame, head = keys.frame(packet_words.typed("udp 192.168.1.5:1 -> 192.168.2.31:1234")), capture.write([])
        times = [(1000, 5), (1000, 999999), (1059, 0), (1060, 5), (1200, 0)]
        plain = b"".join(drawn.record(*at, frame) for at in times)
        names = [self.room.write(".pcap", content)
                 for content in (head + plain, head[:0] + bytes.fromhex("4d3cb2a1") + head[4:] +
                                                                    b"".join(drawn.record(at, part * 1000, frame)
                                                                             for at, part in times))]
        for name in names:
            told = json.loads(tool("hits", "--json", "--utc", "--over", "60s", OFFICE, name)[1])
            self.assertEqual([(it["begins"], it["rules"][0]["hits"]) for it in told["intervals"]],
                             [("1970-01-01T00:16:40.000+00:00", 3), ("1970-01-01T00:17:40.000+00:00", 1),
                              ("1970-01-01T00:19:40.000+00:00", 1)])
        text = tool("hits", "--utc", "--over", "60s", OFFICE, names[0])[1]
        self.assertIn("1970-01-01 00:17:40.000+00:00        1  2: 1\n", text)

    def test_times_have_their_zone(self):
        """Two in the east, with and without half an hour, one in the west, one whose offset has seconds, and --utc."""
        frame = keys.frame(packet_words.typed("udp 192.168.1.5:1 -> 192.168.2.31:1234"))
        sent = self.room.write(".pcap", capture.write([]) + drawn.record(1_700_000_000, 250_000, frame))
        for zone, words, told in (("UTC", (), "2023-11-14T22:13:20.250+00:00"),
                                  ("XXX-1", (), "2023-11-14T23:13:20.250+01:00"),
                                  ("XXX-5:30", (), "2023-11-15T03:43:20.250+05:30"),
                                  ("XXX8", (), "2023-11-14T14:13:20.250-08:00"),
                                  ("XXX-0:19:32", (), "2023-11-14T22:32:52.250+00:19:32"),
                                  ("XXX8", ("--utc",), "2023-11-14T22:13:20.250+00:00")):
            run = [tool("hits", "--over", "60s", *words, *form, OFFICE, sent, env={"TZ": zone})[1]
                   for form in (["--json"], ["--csv"], [])]
            self.assertEqual(json.loads(run[0])["intervals"][0]["begins"], told)
            self.assertEqual(next(csv.DictReader(run[1].splitlines()))["begins"], told)
            self.assertIn(told.replace("T", " ") + " " * (31 - len(told)), run[2])

    def test_intervals_begin_with_the_first_packet_of_any_kind(self):
        frame = keys.frame(packet_words.typed("udp 192.168.1.5:1 -> 192.168.2.31:1234"))
        other = bytes(12) + b"\x08\x06" + bytes(28)
        sent = self.room.write(".pcap", capture.write([]) + b"".join(
            drawn.record(at, 0, it) for at, it in ((1000, other), (1030, frame), (1070, frame), (1071, other))))
        code, told, _ = tool("hits", "--json", "--utc", "--over", "60s", OFFICE, sent)
        self.assertEqual((code, [(it["begins"], it["rules"][0]["hits"]) for it in json.loads(told)["intervals"]]),
                         (0, [("1970-01-01T00:16:40.000+00:00", 1), ("1970-01-01T00:17:40.000+00:00", 1)]))

    def test_intervals_look_at_the_lines_that_decide_alone(self):
        """A list of many lines and many intervals would else take their product."""
        draw = drawn.chances(6)
        lines = drawn.firewall(draw, 30)
        listed = any_list.read_list(self.room.write(".list", drawn.as_iptables(lines).encode()), given())
        counts = HITS.Counts(listed, given(over=1), self.room)
        for number in (None, *(draw.randrange(len(listed.rules)) + 1 for _ in range(40))):
            counts.hits[number] += 1
        rows, unmatched = counts.rows(counts.hits)
        self.assertEqual(counts.deciding(counts.hits), ([row for row in rows if row["hits"]], unmatched))
        counts.listed.entries = None
        self.assertEqual(counts.deciding(counts.hits), ([row for row in rows if row["hits"]], unmatched))

    def test_times_without_a_date_have_no_interval(self):
        """A pcapng file may count in seconds, and add some: its times reach far beyond all dates."""
        content = blocks.write([keys.frame(packet_words.typed("icmp 192.168.1.5 -> 192.168.2.31"))])
        for offset in (1 << 61, -1 << 61, 1 << 56):
            interface = struct.pack("<HHIHHqI", 1, 0, 0, blocks.TIME_OFFSET, 8, offset, 0)
            sent = self.room.write(".pcapng", content[:28] + blocks.block(blocks.INTERFACE, interface) + content[48:])
            for form in ([], ["--json"], ["--csv"]):
                code, told, said = tool("hits", *form, "--over", "1h", OFFICE, sent)
                self.assertEqual((code, told), (2, ""))
                self.assertIn("packet 1: its time is before 1678 or after 2262, and --over tells none such", said)
            self.assertEqual(tool("hits", OFFICE, sent)[0], 0)

    def test_resolutions_of_pcapng(self):
        for options, seconds in ((b"", 5), (b"\x09\x00\x01\x00\x09\x00\x00\x00", 5_000_000_000),
                                 (b"\x09\x00\x01\x00\x8a\x00\x00\x00", 5_000_000),
                                 (b"\x0e\x00\x08\x00" + (7).to_bytes(8, "little"), 12)):
            content = blocks.write([bytes(60)])
            interface = blocks.block(blocks.INTERFACE, bytes.fromhex("0100000000000400") + options)
            low = 5_000_000 if seconds in (5, 12) else 5 * 10**9 if seconds == 5 * 10**9 else 5 * 1024
            packet = bytearray(content[48:])
            packet[12:20] = (low >> 32).to_bytes(4, "little") + (low & 0xFFFFFFFF).to_bytes(4, "little")
            record, = capture.records_with_times(content[:28] + interface + bytes(packet))
            self.assertEqual(record.time, (12 if seconds == 12 else 5) * 10**9)


@BUILT
class Refusals(unittest.TestCase):
    def test_what_is_refused_ends_with_2_and_its_message(self):
        room = answers.Room()
        self.addCleanup(room.folder.cleanup)
        made = {"faulty": b"# one\n@10.0.0.0/8 0.0.0.0/0 80 80 6/0xFF\n", "text": b"10.0.0.0/8 any\n",
                "cut": CAPTURE.read_bytes()[:-1],
                "cisco": drawn.as_cisco([]).encode() + b" permit ip any any\n", "image": b"ACLT" + bytes(40)}
        names = {name: room.write("." + name, content) for name, content in made.items()}
        for name, words, part in REFUSED:
            with self.subTest(name=name, words=words):
                code, lines, said = tool(name, *(str(word).format(**names) for word in words), cwd=EXAMPLES)
                self.assertEqual(code, 2)
                self.assertIn(part, said)
                self.assertNotIn("Traceback", said)
                if "cut" not in str(words) and name != "changes":
                    self.assertEqual(lines, "")

    def test_control_characters_are_escaped(self):
        room = answers.Room()
        self.addCleanup(room.folder.cleanup)
        list_of_cisco = room.write("", b"ip access-list extended A\n permit ip any any log\n remark \x1b[2J\n"
                                   b" deny ip any any \x1b[31m\n")
        faulty = room.write("", ESCAPE)
        for words in (("explain", list_of_cisco, "00" * 13), ("hits", list_of_cisco, CAPTURE), ("check", faulty),
                      ("explain", faulty, "00" * 13),
                      ("explain", OFFICE, "tcp \x1b[31m"), ("hits", OFFICE, "none\x1b[31m"),
                      ("changes", "a\x1b", OFFICE, CAPTURE)):
            _, lines, said = tool(*words)
            self.assertNotIn("\x1b", lines + said)
            self.assertNotIn("Traceback", said)


class WithoutTheProgram(unittest.TestCase):
    def test_a_program_that_says_nothing_or_something_else_is_no_answer(self):
        for name, words in (("explain", [OFFICE, "00" * 13]), ("changes", [OFFICE, EDITED, CAPTURE]),
                            ("hits", [OFFICE, CAPTURE]), ("same", [OFFICE, EDITED]), ("dead", [OFFICE])):
            for program_name in ("true", "echo"):
                code, lines, said = tool(name, *words, env={"ACLC": shutil.which(program_name)})
                self.assertEqual((code, "Traceback" in said), (2, False), (name, program_name, lines, said))

    def test_lines_that_cannot_be_written_are_no_answer(self):
        for name, words in (("changes", ["--help"]), ("explain", ["--help"]), ("check", [OFFICE])):
            with open("/dev/full", "wb") as full:
                done = subprocess.run([str(TOP / "tools" / name), *map(str, words)], stdout=full,
                                      stderr=subprocess.PIPE)
            self.assertNotIn(done.returncode, (0, 1) if name != "check" else (0,))
            self.assertEqual(done.stderr.decode(), f"{name}: No space left on device\n")

    def test_a_program_that_is_not_there_is_told(self):
        for name, words in (("explain", [OFFICE, "00" * 13]), ("changes", [OFFICE, EDITED, CAPTURE]),
                            ("hits", [OFFICE, CAPTURE]),
                            ("same", [OFFICE, EDITED]), ("dead", [OFFICE])):
            code, lines, said = tool(name, *words, env={"ACLC": "/nosuch"})
            self.assertEqual((code, lines, said),
                             (2, "", f"{name}: /nosuch: No such file or directory: ACLC names no program\n"))

    def test_words_are_told(self):
        for name in ("explain", "changes", "hits", "same", "dead"):
            code, lines, said = tool(name, "--help")
            self.assertEqual((code, said), (0, ""))
            self.assertIn(f": aclc {name} [OPTION..] ", lines)
            code, lines, said = tool(name)
            self.assertEqual((code, lines), (2, ""))
            self.assertIn("are required", said)

    def test_a_closed_pipe_is_no_traceback(self):
        with tempfile.TemporaryDirectory() as folder:
            liar = Path(folder) / "aclc"
            liar.write_text("#!/bin/sh\nseq 1 20000 | sed 's/$/ ip4 1/'\n")
            liar.chmod(0o755)
            env = {**os.environ, "ACLC": str(liar)}
            for words in (["hits", "--help"], ["explain", "--json", str(OFFICE)] + [f"{CAPTURE}#1"] * 400):
                process = subprocess.Popen([str(TOP / "tools" / words[0]), *words[1:]], stdout=subprocess.PIPE,
                                           stderr=subprocess.PIPE, env=env)
                process.stdout.close()
                said = process.stderr.read()
                process.stderr.close()
                self.assertNotEqual(process.wait(), 1)
                self.assertNotIn(b"Traceback", said)

    def test_the_program_is_found_on_the_path(self):
        with tempfile.TemporaryDirectory() as folder:
            here = Path(folder) / "aclc"
            here.write_text("#!/bin/sh\n")
            here.chmod(0o755)
            found = subprocess.run(["python3", "-c", "from aclc_tools import program; print(program.program())"],
                                   stdout=subprocess.PIPE, text=True,
                                   env={**os.environ, "ACLC": "", "PATH": f"{folder}:{os.environ['PATH']}",
                                        "PYTHONPATH": str(TOP / "tools")})
            built = TOP / "crates" / "aclc" / "out" / "aclc"
            self.assertEqual(found.stdout.strip(), str(built if built.exists() else here))


if __name__ == "__main__":
    unittest.main()
