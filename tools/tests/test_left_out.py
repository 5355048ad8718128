# SPDX-License-Identifier: BSD-3-Clause
"""Lines that --lenient leaves out: what the tools say of the packets that such a line may decide, and their exit codes."""
import csv
import io
import itertools
import json
import re
import unittest
import zlib
import base64

import drawn
from aclc_tools import answers, capture, keys, packet_words
from aclc_tools.program import TOP
from tool import BUILT, tool

LEFT = " permit tcp any any established\n"
OLD = f"ip access-list extended A\n{LEFT} permit udp any any eq 53\n deny ip any any\n"
OPENED = OLD.replace(" deny", " permit icmp any any echo\n deny")
MOVED = OLD.replace(LEFT, "").replace(" deny", f"{LEFT} deny")
CHANGED = OLD.replace("udp any any eq 53", "udp any any eq 54")
BELOW = OLD.replace(" deny", " permit tcp any any eq 22\n deny")
REMARK = OLD.replace(" deny", " remark nothing\n deny")
# A list of iptables: the chain that a line which is left out sends packets back from, or on to.
SAVED = ("*filter\n:INPUT DROP [0:0]\n:own - [0:0]\n-A INPUT -j own\n-A INPUT -s 10.0.0.0/8 -j ACCEPT\n"
         "-A own -m set --match-set friends src -j {}\n-A own -s 10.0.0.0/8 -j DROP\nCOMMIT\n")
SYN, DNS, PING = "tcp 1.2.3.4:5 -> 5.6.7.8:9", "udp 1.2.3.4:5 -> 5.6.7.8:53", "icmp 1.2.3.4 -> 5.6.7.8"


class LeftOut(unittest.TestCase):
    def setUp(self):
        self.room = answers.Room()
        self.addCleanup(self.room.folder.cleanup)

    def file(self, text):
        """A file of this text."""
        return self.room.write(".list", text.encode())

    def packets(self, *words):
        """A capture of these packets."""
        return self.room.write(".pcap", capture.write([keys.frame(packet_words.typed(it)) for it in words]))

    def tool(self, name, *words):
        """What a tool ends with and prints, leniently."""
        code, printed, said = tool(name, "--lenient", *words)
        self.assertNotIn("fault of this tool", said)
        return code, printed


@BUILT
class TwoLists(LeftOut):
    def test_lists_that_differ_in_a_line_that_was_left_out_are_not_the_same(self):
        for other in (OPENED, BELOW, OLD.replace("established", "fragments")):
            code, told = self.tool("same", "--json", self.file(OLD), self.file(other))
            told = json.loads(told)
            self.assertEqual((code, told["same"], told["couldnt_tell"], told["differ"]), (2, False, ["ip4"], {}), other)
            self.assertEqual(told["left_out"][0]["text"], LEFT.strip())
            self.assertIn("TCP flags", told["left_out"][0]["why"])
            code, told = self.tool("same", self.file(OLD), self.file(other))
            self.assertIn("IPv4: couldn't tell: lines were left out", told)

    def test_lists_that_leave_out_the_same_in_the_same_place_are_compared(self):
        for other, code in ((OLD, 0), (REMARK, 0), (MOVED, 0), (CHANGED, 1)):
            self.assertEqual(self.tool("same", self.file(OLD), self.file(other))[0], code, other)

    def test_a_line_that_sends_packets_elsewhere_needs_equal_files(self):
        for verdict in ("RETURN", "own2"):
            text = SAVED.format(verdict).replace(":own -", ":own2 - [0:0]\n:own -")
            text = text.replace("-A own -s", "-A own2 -s 11.0.0.0/8 -j ACCEPT\n-A own -s")
            other = text.replace("COMMIT", "-A own -s 11.0.0.0/8 -j DROP\nCOMMIT")
            words = ["--family", "4", "--chain", "INPUT"]
            self.assertEqual(self.tool("same", *words, self.file(text), self.file(text))[0], 0)
            self.assertEqual(self.tool("same", *words, self.file(text), self.file(other))[0], 2)

    def test_what_other_tables_drop_is_left_out_of_both(self):
        raw = "*raw\n:PREROUTING ACCEPT [0:0]\n-A PREROUTING -i eth0 -j DROP\nCOMMIT\n"
        plain = "*filter\n:INPUT DROP [0:0]\n-A INPUT -s 10.0.0.0/8 -j ACCEPT\nCOMMIT\n"
        words = ["--family", "4", "--chain", "INPUT"]
        code, told = self.tool("same", *words, "--json", self.file(plain), self.file(raw + plain))
        self.assertEqual((code, json.loads(told)["left_out"][0]["line"]), (2, 3))
        code, told = self.tool("explain", *words, self.file(raw + plain), "tcp 10.0.0.1:1 -> 1.1.1.1:2")
        self.assertEqual((code, "not decided  line 3: -A PREROUTING" in told), (2, True), told)

    def test_drawn_lists_are_the_same_only_if_they_are_whatever_the_lines_match(self):
        draw, counts = drawn.chances(41), {0: 0, 1: 0, 2: 0}
        for turn in range(24):
            old = [(*line, draw.random() < 0.8 and line[1] == "tcp") for line in drawn.firewall(draw, 5)]
            new = list(old)
            for _ in range(turn % 3):
                at = draw.randrange(len(new))
                new[at:at + 1] = draw.choice([[], [new[at]] * 2, [draw.choice(old)], [(*drawn.firewall(draw, 1)[0], False)]])
            form = draw.choice([as_cisco, as_iptables])
            names = [self.file(form(lines)) for lines in (old, new)]
            code, told = self.tool("same", *["--chain", "INPUT"] * (form is as_iptables), *names)
            counts[code] += 1
            packets = [drawn.firewall_key(draw) for _ in range(60)]
            differing = [key for key in packets if differ(old, new, key)]
            if code == 0:
                self.assertEqual(differing, [], (old, new))
            if code == 1:
                least = packet_words.typed(re.search(r"the least one is (.*)", told)[1])
                self.assertTrue(all(decided(old, least, some) != decided(new, least, some) for some in subsets(old, new)))
        self.assertGreater(min(counts.values()), 2, counts)

    def test_a_packet_that_such_a_line_may_decide_is_no_change_and_not_unchanged(self):
        for other, changed, left in ((OLD, 0, 1), (OPENED, 0, 2), (CHANGED, 1, 1)):
            words = self.file(OLD), self.file(other), self.packets(SYN, DNS, PING)
            code, told = self.tool("changes", "--json", *words)
            told = json.loads(told)
            self.assertEqual((code, told["changed"], told["not_decided"]), (2, changed, left), other)
            self.assertEqual(told["left_out"][0]["line"], 2)
            rows = list(csv.DictReader(io.StringIO(self.tool("changes", "--csv", *words)[1])))
            self.assertEqual([row["left_out_line"] for row in rows if row["left_out_text"]][0], "2")
            self.assertIn(f"of {left} it isn't decided", self.tool("changes", *words)[1])
        self.assertEqual(self.tool("changes", self.file(OLD), self.file(OPENED), self.packets(DNS))[0], 0)

    def test_a_report_says_it_and_ends_with_2(self):
        page = self.room.name(".html")
        for old, new, sent, code in ((OLD, OPENED, (SYN, PING), 2), (OLD, OPENED, (), 2), (OLD, OLD, (), 0), (OLD, OLD, (DNS,), 0),
                                     (REMARK, OLD, (SYN,), 2)):
            words = ["--old", self.file(old), self.file(new), *[self.packets(*sent)] * bool(sent), "-o", page]
            self.assertEqual(self.tool("report", *words)[0], code)
        told = held(page)
        self.assertEqual([it["leftOut"][:20] for it in told["lists"][0]["entries"] if it["leftOut"]], ["it compares TCP flag"])
        self.assertEqual(told["lists"][1]["leftOut"][0]["line"], 2)


@BUILT
class OneList(LeftOut):
    def test_packets_that_come_to_such_a_line_are_not_counted_as_decided(self):
        words = self.file(OPENED), self.packets(SYN, DNS, PING)
        code, told = self.tool("hits", "--json", *words)
        told = json.loads(told)
        self.assertEqual((code, told["not_decided"], [it["line"] for it in told["left_out"]]), (2, 2, [2, 4]))
        self.assertEqual([(row["line"], row["hits"]) for row in told["rules"] if row["hits"]], [(2, 1), (3, 1), (4, 1)])
        self.assertIn("2 packets aren't decided", self.tool("hits", *words)[1])
        self.assertIn("left_out_why", self.tool("hits", "--csv", *words)[1])
        self.assertEqual(self.tool("hits", self.file(OPENED), self.packets(DNS))[0], 0)

    def test_explain_says_which_line_may_decide_and_which_does_else(self):
        code, told = self.tool("explain", "--json", self.file(BELOW), SYN.replace(":9", ":22"), DNS)
        told = json.loads(told)
        self.assertEqual(code, 2)
        self.assertEqual([(it["outcome"], it["line"]) for it in told if it["words"] == SYN.replace(":9", ":22")][:2],
                         [("not decided", 2), ("may", 4)])
        self.assertEqual([it["outcome"] for it in told if it["words"] == DNS][0], "decides")
        self.assertEqual(told[-1]["outcome"], "left out")
        self.assertEqual(self.tool("explain", self.file(OLD), DNS)[0], 0)

    def test_a_line_of_which_nothing_can_be_said_may_decide_all_packets(self):
        text = OLD.replace("tcp any any established", "ip object-group NONE any")
        code, told = self.tool("hits", "--json", self.file(text), self.packets(SYN, DNS, PING))
        self.assertEqual((code, json.loads(told)["not_decided"]), (2, 3))

    def test_a_line_that_may_get_packets_from_one_that_was_left_out_is_not_called_dead(self):
        every = " permit ip any any\n"
        returns = ["--family", "4", "--chain", "INPUT"]
        for text, words, dead, unknown, code in (
                (OLD, [], [], [], 0), (BELOW, [], [], [4], 2), (OLD.replace(" deny", f"{every} deny"), [], [5], [], 1),
                (OLD.replace(LEFT, LEFT + every), [], [4, 5], [], 1),
                (SAVED.format("RETURN"), returns, [], [5, 7], 2), (SAVED.format("ACCEPT"), returns, [5], [7], 1)):
            ended, told = self.tool("dead", "--json", *words, self.file(text))
            told = json.loads(told)
            self.assertEqual((ended, [it["line"] for it in told["dead"]], told["unknown"]), (code, dead, unknown), text)
            self.assertEqual(len(told["left_out"]), 1)


@BUILT
class Assumed(LeftOut):
    def dead(self, text, *assumed):
        """What tools/dead tells of a list of iptables, and its exit code."""
        code, printed, _ = tool("dead", "--json", "--family", "4", "--chain", "INPUT", *assumed, self.file(text))
        told = json.loads(printed)
        return code, told["assumed"], [[it["line"] for it in told[name]] for name in ("dead", "not_under_this_assumption")]

    def test_what_the_assumption_alone_switches_off_is_not_dead(self):
        lines = ["-m conntrack --ctstate RELATED,ESTABLISHED -j ACCEPT", "-i lo -j ACCEPT", "-i eth1 -j lan",
                 "-p tcp -m tcp --dport 22 -j ACCEPT", "-s 10.0.0.0/8 -p tcp -m tcp --dport 22 -j ACCEPT",
                 "-m conntrack --ctstate NEW -j DROP", "-p udp -j ACCEPT"]
        text = "*filter\n:INPUT DROP [0:0]\n:lan - [0:0]\n" + "".join(f"-A INPUT {it}\n" for it in lines)
        text += "-A lan -p icmp -j ACCEPT\n-A lan -p icmp -j DROP\nCOMMIT\n"
        for assumed, here in (("in=eth0,state=new", [4, 5, 10, 11]), ("in=lo,state=established", [5, 7, 9, 10, 11])):
            self.assertEqual(self.dead(text, "--assume", assumed), (1, assumed, [[8, 12], here]))
        kept = text.replace("-A INPUT -s 10.0.0.0/8 -p tcp -m tcp --dport 22 -j ACCEPT\n", "").replace("-A lan -p icmp -j DROP\n", "")
        self.assertEqual(self.dead(kept, "--assume", "in=eth0,state=new"), (0, "in=eth0,state=new", [[], [4, 5, 9, 10]]))
        code, printed, _ = tool("dead", "--family", "4", "--chain", "INPUT", "--assume", "in=eth0,state=new", self.file(kept))
        self.assertIn("decides no packet under this assumption (in=eth0,state=new): it matches no packet", printed)
        self.assertTrue(printed.endswith("0 of 6 lines decide no packet; 4 more under this assumption alone; "
                                         "assumed: in=eth0,state=new\n"), printed)

    def test_a_report_tells_them_apart(self):
        page = self.room.name(".html")
        text = "*filter\n:INPUT DROP [0:0]\n-A INPUT -i lo -j ACCEPT\n-A INPUT -p udp -j ACCEPT\n-A INPUT -p udp -j DROP\nCOMMIT\n"
        self.assertEqual(tool("report", "--family", "4", "--assume", "in=eth0", self.file(text), "-o", page)[0], 0)
        listed = held(page)["lists"][0]
        self.assertEqual((listed["assumed"], [it["number"] for it in listed["entries"] if it["dead"]],
                          [it["number"] for it in listed["entries"] if it.get("notHere")]), ("in=eth0", [5], [3]))

    def test_a_report_of_lists_that_could_not_be_compared_ends_with_2(self):
        old, new = TOP / "examples" / "office.rules", TOP / "examples" / "halves.rules"
        for words, code in ((["--old", old, new], 0), (["--old", old, new, "--max-words", "30"], 2), ([old, "--max-words", "30"], 2)):
            self.assertEqual(tool("report", *words, "-o", self.room.name(".html"))[0], code, words)


def held(page):
    """What the page of a report holds."""
    content = zlib.decompress(base64.b64decode(re.search(r'id="report">([^<]*)<', page.read_text())[1]))
    return json.loads(content[8:8 + int.from_bytes(content[:8], "little")])


def subsets(*lists):
    """All choices of the lines that are left out and match."""
    left = sorted({line[:-1] for lines in lists for line in lines if line[-1]}, key=str)
    return [set(some) for count in range(len(left) + 1) for some in itertools.combinations(left, count)]


def decided(lines, key, some):
    """What lines decide, if of those that are left out some match."""
    matched = [place for place in drawn.said_by([line[:-1] for line in lines], key)
               if not lines[place - 1][-1] or lines[place - 1][:-1] in some]
    return lines[matched[0] - 1][0] if matched else "drop"


def differ(old, new, key):
    """Whether two lists may decide a packet differently."""
    return any(decided(old, key, some) != decided(new, key, some) for some in subsets(old, new))


def as_cisco(lines):
    """The list of IOS, in which a line that is left out compares flags."""
    text = drawn.as_cisco([line[:-1] for line in lines]).rstrip("\n").split("\n")
    return "\n".join([text[0], *(f"{it} established" if line[-1] else it for it, line in zip(text[1:], lines))]) + "\n"


def as_iptables(lines):
    """The list of iptables-save, in which a line that is left out looks into a set."""
    text = drawn.as_iptables([line[:-1] for line in lines]).rstrip("\n").split("\n")
    made = [it.replace(" -j", " -m set --match-set friends src -j") if line[-1] else it for it, line in zip(text[3:], lines)]
    return "\n".join([*text[:3], *made, "COMMIT"]) + "\n"


if __name__ == "__main__":
    unittest.main()
