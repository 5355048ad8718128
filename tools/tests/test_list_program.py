# SPDX-License-Identifier: BSD-3-Clause
"""The program aclc-lists beside tools/convert and the lists' own judge, and tools/convert where it asks the program."""
import json
import random
import re
import subprocess
import tempfile
import unittest
from pathlib import Path

import damages
import draws_cisco
import draws_iptables
import draws_nft
import draws_rulesets
import list_programs
import test_cisco
import test_nftables
import test_report
from aclc_tools import assume, capture, forms, keys, list_program, packet_words, program
from converting import DATA, decided, rules_of
from tool import EXAMPLES, tool

DRAWN, SEED = 200, 53
DAMAGED = {"iptables": 200, "cisco": 1000, "nft": 1000}
# The shipped lists, and the rules that they become.
SHIPPED = zip(draws_iptables.SHIPPED, ("gateway.rules", "gateway6.rules", "server.rules"))
LIST = ("*nat\n:PREROUTING ACCEPT [0:0]\nCOMMIT\n*filter\n:INPUT DROP [0:0]\n-A INPUT -s 10.0.0.1/32 -j ACCEPT\nCOMMIT\n"
        "# Completed\n")
# What stands in for the program: it notes its words and the list, and prints a rule file or a message.
STAND_IN = """#!/bin/sh
printf '%s\\n' "$@" > {0}/words
cat > {0}/list
printf '%b' '{1}'
printf '%b' '{2}' >&2
exit {3}
"""
RULES = "# :INPUT DROP [0:0]\\n@0.0.0.0/0 0.0.0.0/0 0 : 65535 0 : 65535 0/0 data=5\\n"
BUILT = unittest.skipUnless(program.list_program(), "the program aclc-lists isn't built")


GATEWAY = str(DATA / "gateway.iptables-save")
EDGE = str(DATA / "edge.cisco")
# Words, and how the program ends with them, and what it says.
ENDS = (
    ([], 2, "usage: word 1: missing command"), (["asa", GATEWAY, "x"], 2, "usage: word 1: unknown command"),
    (["iptables"], 2, "usage: word 2: missing name"), (["iptables", GATEWAY], 2, "usage: word 3: missing name"),
    (["iptables", GATEWAY, "FORWARD", "lenient"], 2, "usage: word 4: unknown option"),
    (["iptables", GATEWAY, "FORWARD", "data=line", "data=7"], 2, "usage: word 5: repeated option"),
    (["iptables", GATEWAY, "FORWARD", "assume=in=eth0,in=eth1"], 2, "usage: word 4: bad value"),
    (["iptables", "/nosuch", "INPUT"], 7, "/nosuch: read fault"), (["iptables", ".", "INPUT"], 7, ".: read fault"),
    (["iptables", GATEWAY, "NONE"], 3, "list: line 0: no such chain"),
    (["iptables", GATEWAY, "trusted"], 3, "list: line 0: chain without a policy"),
    (["ip6tables", GATEWAY, "FORWARD"], 3, "list: line 9: bad address"),
    (["iptables", str(DATA / "server.iptables-save"), "INPUT", "assume=in=eth0"], 3, "list: line 9: state not assumed"),
    (["cisco", EDGE], 2, "usage: word 3: missing name"),
    (["cisco", EDGE, "NONE"], 3, "list: line 35: no such list"),
    (["cisco", EDGE, "WEB6"], 3, "list: line 23: no extended list of IPv4"),
    (["cisco", EDGE, "WITH-STATE"], 3, "list: line 30: matches what no rule file says"),
    (["cisco", str(DATA / "branch.cisco"), "CLIENTS"], 3, "list: line 37: no extended list of IPv4"),
    (["cisco", str(DATA / "branch.cisco"), "TO-SERVERS"], 3, "list: line 50: list, entry or group taken out"),
    (["nft", str(DATA / "router.nft-json"), "admins"], 3, "list: object 0: no base chain of this name"),
    (["nft", str(DATA / "router.nft"), "forward"], 3, "list: object 0: no JSON in UTF-8"),
)
# Lists that the tools refuse for what has no part in the list that is asked for, and the program takes: a line near one
# that begins a list, and a list beside another, of which one has to be named.
OF_NO_PART = ("\nip acces-list extended A\n", "\nip access-list extended B\n")


def below(words, said):
    """What stands below a refusal: the line of the list, if the fault stands in one, up to its 100th byte."""
    place = re.fullmatch(r"list: line (\d+): (.*)", said)
    if not place or place.group(1) == "0" or place.group(2) == "no such list":
        return ""
    line = Path(words[1]).read_text().split("\n")[int(place.group(1)) - 1]
    return f"  {line[:100]}{'..' if len(line) > 100 else ''}\n"


class ListProgram(unittest.TestCase):
    @BUILT
    def test_the_program_ends_as_its_words_and_files_say(self):
        for words, code, said in ENDS:
            done = subprocess.run([program.list_program(), *words], stdout=subprocess.PIPE,
                                  stderr=subprocess.PIPE)
            self.assertEqual((done.returncode, done.stdout, done.stderr.decode()), (code, b"", f"aclc-lists: {said}\n{below(words, said)}"))

    @BUILT
    def test_what_cannot_be_written_is_a_write_fault(self):
        with open("/dev/full", "wb") as full:
            done = subprocess.run([program.list_program(), "iptables", GATEWAY, "FORWARD"], stdout=full,
                                  stderr=subprocess.PIPE)
        self.assertEqual((done.returncode, done.stderr), (8, b"aclc-lists: write fault\n"))

    @BUILT
    def test_shipped_lists_decide_as_the_expected_files(self):
        draw = random.Random(SEED)
        for (file, family, chain, assumed), expected in SHIPPED:
            with self.subTest(file=file):
                lines = (DATA / file).read_text().rstrip("\n").split("\n")
                drawn = draws_iptables.made(lines, family, chain, assumed)
                self.assertEqual(list_programs.judged(drawn, drawn.join(lines), draw), "same")
                made = rules_of(list_programs.by_program(drawn.options, drawn.join(lines)))
                wanted = rules_of((DATA / expected).read_text())
                for fields in damages.fields_near(wanted, 400, draw):
                    self.assertEqual(decided(made, fields), decided(wanted, fields), fields)

    @BUILT
    def test_drawn_lists_are_taken_and_decide_as_they_say(self):
        for form in list_programs.FORMS:
            counts, faults = list_programs.outcomes(form, DRAWN, SEED, False)
            self.assertEqual(faults, [])
            self.assertEqual(counts, {"same": DRAWN})

    @BUILT
    def test_damaged_lists_decide_as_they_say_or_are_refused(self):
        for form, count in DAMAGED.items():
            counts, faults = list_programs.outcomes(form, count, SEED, True)
            self.assertEqual(faults, [])
            self.assertGreater(counts["same"], count // 10)
            self.assertGreater(counts["both refuse"], count // 10)


class Configurations(unittest.TestCase):
    """Lists of Cisco's IOS."""

    def alike(self, text, name, data):
        """The program's rules of a list, which answer as those of the tools; or None where it refuses the list."""
        options = draws_cisco.options(name, data)
        made, (wanted, _) = list_programs.by_program(options, text), list_programs.by_converter(options, text)
        if made is None:
            return None
        self.assertIsNotNone(wanted, "the tools refuse the list")
        rules, expected = rules_of(made), rules_of(wanted)
        for fields in damages.fields_near(expected, 400, random.Random(SEED)):
            self.assertEqual(decided(rules, fields) or 0, decided(expected, fields) or 0, fields)
        return rules

    @BUILT
    def test_shipped_lists_decide_as_the_expected_files(self):
        for file, name, expected in draws_cisco.SHIPPED:
            for data in ("line", "verdict"):
                with self.subTest(file=file, name=name, data=data):
                    self.assertIsNotNone(self.alike((DATA / file).read_text(), name, data))
            made = rules_of(list_programs.by_program(draws_cisco.options(name), (DATA / file).read_text()))
            wanted = rules_of((DATA / expected).read_text())
            for fields in damages.fields_near(wanted, 400, random.Random(SEED)):
                self.assertEqual(decided(made, fields) or 0, decided(wanted, fields) or 0, fields)

    @BUILT
    def test_lists_that_the_tools_take_decide_as_theirs_or_are_refused(self):
        taken = 0
        for form, text, _ in test_cisco.TAKEN:
            name = re.search(r"access-list (?:extended )?(\S+)", text).group(1)
            for data in ("line", "verdict") if form == "cisco" else ():
                with self.subTest(text=text, data=data):
                    taken += self.alike(text, name, data) is not None
        self.assertEqual(taken, 16)

    @BUILT
    def test_lists_that_the_tools_refuse_are_refused(self):
        for form, text, _, _ in test_cisco.REFUSED:
            if form == "cisco" and not any(part in text for part in OF_NO_PART):
                for name in {"A", "101", *re.findall(r"access-list (?:extended )?(\S+)", text)}:
                    with self.subTest(text=text, name=name):
                        self.assertIsNone(list_programs.by_program(draws_cisco.options(name), text))


class Rulesets(unittest.TestCase):
    """Rulesets of nft, for IPv4 packets."""

    def alike(self, text, chain, assumed, data):
        """Whether the program takes a ruleset; its rules then answer as those of the tools."""
        options = draws_rulesets.options(chain, assumed, data)
        made, (wanted, _) = list_programs.by_program(options, text), list_programs.by_converter(options, text)
        if made is None:
            return False
        self.assertIsNotNone(wanted, "the tools refuse the ruleset")
        for rules in (rules_of(made), rules_of(wanted)):
            for fields in damages.fields_near(rules, 400, random.Random(SEED)):
                self.assertEqual(decided(rules_of(made), fields), decided(rules_of(wanted), fields), fields)
        return True

    @BUILT
    def test_shipped_rulesets_decide_as_those_of_the_tools_or_are_refused(self):
        for file, chain, assumed in draws_nft.SHIPPED:
            for data in ("line", "verdict"):
                with self.subTest(file=file, data=data):
                    self.alike((DATA / file).read_text(), chain, assumed, data)

    @BUILT
    def test_rulesets_that_the_tools_take_decide_as_theirs_or_are_refused(self):
        taken = 0
        rules = [((*statements, test_nftables.DROP), test_nftables.MORE) for statements, _, _ in test_nftables.TAKEN]
        rules += [(({"reject": {"type": kind}},), ()) for kind, _, _ in test_nftables.REJECTED]
        mapped = [test_nftables.services([[22, {"return": None}], [80, test_nftables.DROP]])]
        rules += [(({"vmap": {"key": test_nftables.DPORT, "data": data}},), mapped)
                  for data, _, _ in test_nftables.MAPPED]
        rules += [(statements, ()) for statements in test_nftables.IDLE]
        for statements, more in rules:
            for data in ("line", "verdict"):
                with self.subTest(statements=statements, data=data):
                    text = test_nftables.ruleset(*statements, more=more)
                    taken += self.alike(text, "c", "in=eth0,out=eth1,state=new,local=10.0.0.1", data)
        self.assertGreater(taken, 10)

    @BUILT
    def test_objects_and_comments_that_say_nothing_of_packets_are_taken(self):
        for text in test_nftables.silent_texts():
            with self.subTest(text=text):
                self.assertTrue(self.alike(text, "c", "", "line"))

    @BUILT
    def test_rulesets_that_the_tools_refuse_are_refused(self):
        texts = [test_nftables.ruleset(*statements) for statements, _ in test_nftables.REFUSED
                 if '"ip6"' not in json.dumps(statements)]
        texts += [text for text, reason in test_nftables.BROKEN if reason != "stands twice"]
        for text in texts:
            with self.subTest(text=text[:400]):
                self.assertIsNone(list_programs.by_program(draws_rulesets.options("c"), text))


class Asking(unittest.TestCase):
    """tools/convert over what stands in for the program."""

    def convert(self, printed, said, code, *words, form="iptables", family="4", text=LIST):
        """What tools/convert ends with, prints and says; and the words and the list that the program was given."""
        with tempfile.TemporaryDirectory() as folder:
            folder = Path(folder)
            (folder / "program").write_text(STAND_IN.format(folder, printed, said, code))
            (folder / "program").chmod(0o755)
            (folder / "fw").write_text(text)
            done = tool("convert", form, "--family", family, *words, folder / "fw",
                        env={"ACLC_LISTS": str(folder / "program")})
            asked = [(folder / name).read_text() if (folder / name).exists() else None for name in ("words", "list")]
        return done, asked

    def test_its_rules_are_written_after_a_head(self):
        (code, printed, said), (words, _) = self.convert(RULES, "", 0, "--data", "verdict", "--assume", "in=eth0")
        self.assertEqual((code, said), (0, ""))
        self.assertEqual(printed.split("\n")[:3], [
            "# Made by aclc-lists iptables of fw, INPUT. Userdata is 1 where a rule accepts, 2 where it drops, "
            "3 where it rejects.", "# Assumed: in=eth0.", "# :INPUT DROP [0:0]"])
        self.assertEqual([rule.userdata for rule in rules_of(printed)], [5])
        self.assertEqual(words, "iptables\n/dev/stdin\nINPUT\ndata=verdict\nassume=in=eth0\n")

    def test_its_head_is_a_comment_whatever_the_file_is_called(self):
        options = forms.options_of("iptables", "fw\n@0.0.0.0", assume=assume.parse("in=a\n@"))
        self.assertEqual(list(list_program.head_of(options, "iptables", "INPUT\n@")), [
            "# Made by aclc-lists iptables of fw @0.0.0.0, INPUT @. Userdata is the line that decides.",
            "# Assumed: in=a @."])

    def test_it_is_handed_the_file_as_it_is(self):
        _, (_, text) = self.convert(RULES, "", 0)
        self.assertEqual(text, LIST)

    def test_what_it_refuses_is_refused_with_its_message(self):
        for words, text in (([], LIST), (["--lenient"], LIST)):
            (code, printed, said), _ = self.convert("", "aclc-lists: list: line 6: bad address\\n", 3, *words, text=text)
            self.assertEqual((code, printed), (2, ""))
            self.assertIn("fw: aclc-lists: list: line 6: bad address\n    --unproved reads it", said)
        shown = "aclc-lists: list: line 6: bad address\\n  -A INPUT -s ?[2J -j DROP\\n"
        (code, printed, said), _ = self.convert("", shown, 3, "--unproved")
        self.assertEqual(code, 0)
        self.assertIn("read by this tool's own reader, which isn't proved: aclc-lists: list: line 6: bad address", said)
        self.assertTrue(printed.startswith("# Made by aclc convert iptables, unproved, of fw, INPUT."), printed)

    def test_each_line_of_what_it_says_is_shown(self):
        told = ["aclc-lists: list: line 6: bad address", "  -A INPUT -s 10.0.0 -j DROP",
                "aclc-lists: list: line 9: bad ports", "  -A INPUT -p tcp --dport x -j DROP"]
        for words, code in (([], 2), (["--unproved"], 0)):
            (ended, _, said), _ = self.convert("", "".join(f"{line}\\n" for line in told), 3, *words)
            self.assertEqual(ended, code, said)
            self.assertIn("\n".join(told) + "\n", said)

    def test_its_answer_is_taken_also_where_the_unproved_reader_may_read(self):
        for words in (["--unproved"], ["--lenient"], ["--unproved", "--lenient"]):
            (code, printed, said), _ = self.convert(RULES, "", 0, *words)
            self.assertEqual((code, said), (0, ""))
            self.assertTrue(printed.startswith("# Made by aclc-lists iptables of fw, INPUT."), printed)

    def test_without_the_program_only_what_it_does_not_read_is_converted(self):
        words = ["--chain", "FORWARD", DATA / "gateway.iptables-save"]
        code, printed, said = tool("convert", "iptables", *words, env={"ACLC_LISTS": ""})
        self.assertEqual((code, printed), (2, ""))
        self.assertIn("the proved program aclc-lists isn't there\n    --unproved reads it", said)
        self.assertEqual(tool("convert", "iptables", "--unproved", *words, env={"ACLC_LISTS": ""})[0], 0)
        code, printed, said = tool("convert", "nxos", "--list", "EDGE-IN", DATA / "leaf.nxos", env={"ACLC_LISTS": ""})
        self.assertEqual((code, said), (0, ""))
        self.assertTrue(printed.startswith("# Made by aclc convert nxos, unproved, of leaf.nxos, EDGE-IN."))

    def test_a_number_as_userdata_is_written_into_its_rules(self):
        (code, printed, _), (words, _) = self.convert(RULES, "", 0, "--data", "7")
        self.assertEqual((code, [rule.userdata for rule in rules_of(printed)]), (0, [7]))
        self.assertIn("data=line", words)

    def test_another_table_than_filter_is_read_by_the_unproved_reader_alone(self):
        words = ["--table", "nat", "--chain", "PREROUTING", "--lenient"]
        (code, printed, said), (asked, _) = self.convert(RULES, "", 0, *words)
        self.assertEqual((code, printed, asked), (2, "", None))
        self.assertIn("aclc-lists reads the table filter alone", said)
        (code, printed, _), _ = self.convert(RULES, "", 0, *words, "--unproved")
        self.assertEqual(code, 0)

    def test_the_chain_and_the_family_are_found_where_one_is_there(self):
        text = test_nftables.ruleset(test_nftables.DROP)
        for form, family, wanted in (("nft", "4", "nft\n/dev/stdin\nc"), ("nft", "6", "nft6\n/dev/stdin\nc")):
            _, (words, _) = self.convert(RULES, "", 0, form=form, family=family, text=text)
            self.assertTrue(words.startswith(wanted), words)
        (code, _, said), (words, _) = self.convert(RULES, "", 0, text=LIST.replace(":INPUT", ":OUTPUT DROP [0:0]\n:INPUT"))
        self.assertEqual((code, words.split("\n")[2]), (0, "INPUT"))
        both = LIST.replace("-A INPUT", "-A OUTPUT -j ACCEPT\n-A INPUT").replace(":INPUT", ":OUTPUT DROP [0:0]\n:INPUT")
        (code, _, said), (words, _) = self.convert(RULES, "", 0, text=both)
        self.assertEqual((code, words, "which chain is meant isn't said: --chain OUTPUT or --chain INPUT" in said), (2, None, True))

    def test_any_other_end_of_it_ends_the_tool(self):
        for printed, said, code in ((RULES, "aclc-lists: write fault\\n", 8), ("", "aclc-lists: out of memory\\n", 9),
                                    ("", "", 3)):
            (ended, printed, told), _ = self.convert(printed, said, code)
            self.assertEqual(ended, 2)
            self.assertEqual(printed, "")
            self.assertIn(f"aclc-lists ended with {code}", told)

    def test_a_name_that_is_no_program_is_told(self):
        ended, _, said = tool("convert", "iptables", "--chain", "FORWARD", DATA / "gateway.iptables-save",
                              env={"ACLC_LISTS": "/nosuch"})
        self.assertEqual((ended, "names no program" in said), (2, True))


# What lies: it drops what the list accepts, and refuses lists that have a line for 9.9.9.9.
LIAR = """#!/bin/sh
grep -q 9.9.9.9 && { echo 'aclc-lists: list: line 7: bad address' >&2; exit 3; }
case $* in *data=verdict*) data=2 end=1 ;; *) data=6 end=5 ;; esac
printf '# a\\n@10.0.0.1/32\t0.0.0.0/0\t0 : 65535\t0 : 65535\t0x00/0x00\tpri=262144 cat=65535 data=%s\n' $data
printf '# b\\n@0.0.0.0/0\t0.0.0.0/0\t0 : 65535\t0 : 65535\t0x00/0x00\tpri=262143 cat=65535 data=%s\n' $end
"""


@unittest.skipUnless(program.built_program(), "the program isn't built")
class EachTool(unittest.TestCase):
    """A program that lies stands in front of each tool: what it answers is used, and where it refuses nothing else is."""

    def setUp(self):
        folder = tempfile.TemporaryDirectory()
        self.addCleanup(folder.cleanup)
        self.folder = Path(folder.name)
        (self.folder / "liar").write_text(LIAR)
        (self.folder / "liar").chmod(0o755)
        self.list, self.refused = self.file("fw", LIST), self.file("other", LIST.replace("ACCEPT\nCOMMIT\n#", "ACCEPT\n-A INPUT -s 9.9.9.9/32 -j ACCEPT\nCOMMIT\n#"))
        frames = [keys.frame(packet_words.typed(it)) for it in ("tcp 10.0.0.1:1 -> 1.1.1.1:2", "tcp 10.0.0.2:1 -> 1.1.1.1:2")]
        self.sent = self.folder / "sent.pcap"
        self.sent.write_bytes(capture.write(frames))

    def file(self, name, text):
        """A file of this text."""
        (self.folder / name).write_text(text)
        return self.folder / name

    def ask(self, name, *words):
        """What a tool ends with, prints and says."""
        return tool(name, "--family", "4", *words, env={"ACLC_LISTS": str(self.folder / "liar")})

    def test_what_it_answers_is_used(self):
        _, printed, _ = self.ask("hits", "--json", self.list, self.sent)
        self.assertEqual([(it["line"], it["verdict"], it["hits"]) for it in json.loads(printed)["rules"] if it["hits"]],
                         [(5, "accept", 1), (6, "drop", 1)])
        _, printed, _ = self.ask("explain", "--json", self.list, f"{self.sent}#1")
        self.assertEqual([(it["outcome"], it["line"], it["verdict"]) for it in json.loads(printed)],
                         [("decides", 6, "drop"), ("loses", 5, "accept")])
        honest = self.file("honest.nxos", "ip access-list A\n  10 permit ip host 10.0.0.1 any\n")
        for name, words, code in (("same", [self.list, self.list], 0), ("changes", [self.list, self.list, self.sent], 0),
                                  ("dead", [self.list], 0)):
            self.assertEqual(self.ask(name, *words)[0], code, name)
        code, printed, _ = self.ask("changes", "--json", self.list, honest, self.sent)
        self.assertEqual([(it["old"], it["old_line"]) for it in json.loads(printed)["shown"]], [("drop", 6), ("accept", 5)], printed)
        code, printed, _ = self.ask("convert", "iptables", self.list)
        self.assertEqual((code, [rule.userdata for rule in rules_of(printed)]), (0, [6, 5]))
        page = self.folder / "page.html"
        code, _, said = self.ask("report", self.list, self.sent, "-o", page)
        self.assertEqual((code, said), (0, ""))
        told = test_report.unpacked(page.read_text())[0]
        self.assertEqual([(it["number"], it["verdict"]) for it in told["lists"][0]["entries"] if it["least"]], [(5, "accept"), (6, "drop")])

    def test_where_it_refuses_nothing_else_is_used(self):
        page = self.folder / "page.html"
        for name, words, code in (("hits", [self.refused, self.sent], 2), ("explain", [self.refused, f"{self.sent}#1"], 2),
                                  ("dead", [self.refused], 2), ("same", [self.list, self.refused], 2),
                                  ("changes", [self.list, self.refused, self.sent], 2), ("convert", ["iptables", self.refused], 2),
                                  ("report", [self.refused, self.sent, "-o", page], 2)):
            for more in ([], ["--lenient"]):
                ended, printed, said = self.ask(name, *words, *more)
                self.assertEqual((ended, printed), (code, ""), (name, said))
                self.assertIn("aclc-lists: list: line 7: bad address\n    --unproved reads it", said)
            ended, printed, said = self.ask(name, *words, "--unproved")
            self.assertIn("read by this tool's own reader, which isn't proved: aclc-lists: list: line 7: bad address", said)
            self.assertNotEqual(printed == "" and name != "report", True, name)

    @BUILT
    def test_the_proved_program_and_the_readers_of_the_tools_tell_the_same(self):
        sent = EXAMPLES / "office.pcap"
        for file, words in (("gateway.iptables-save", ["--chain", "FORWARD"]), ("edge.cisco", ["--list", "101"]),
                            ("edge.cisco", ["--list", "OUTSIDE-IN"])):
            for name, more in (("hits", [sent]), ("dead", []), ("explain", [f"{sent}#1", f"{sent}#3"])):
                asked = ["--json", *words, DATA / file, *more]
                proved = tool(name, *asked, env={"ACLC_LISTS": str(program.list_program())})
                self.assertEqual(proved[:2], tool(name, *asked)[:2], (name, file))


if __name__ == "__main__":
    unittest.main()
