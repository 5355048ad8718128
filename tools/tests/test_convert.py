# SPDX-License-Identifier: BSD-3-Clause
"""tools/convert: its words, what it writes and refuses, and what userdata and assumptions become."""
import os
import subprocess
import unittest

from aclc_tools import assume, capture, forms, lists, rule_file, traces
from aclc_tools.program import TOP
from converting import DATA, convert, rules_of
from tool import UNPROVED, tool

CONVERT = TOP / "tools" / "convert"
# No aclc-lists is there, so that the tool reads by itself.
OWN = {**os.environ, "ACLC_LISTS": ""}
CISCO = "ip access-list extended A\n {}\n"
SHIPPED = [("l3fwd", {}, "sample.l3fwd", "sample-l3fwd.rules")]
# What a rule file can't say: the form, the list, and the reason.
REFUSED = [
    ("l3fwd", "@10.0.0.0/8 0.0.0.0/0 0:65535 0:65535 6/0xff\n", "9 words"),
    ("l3fwd", "@10.0.0.0/8 0.0.0.0/0 0 : 65535 0 : 65536 6/0xff\n", "65536 is above 65535"),
    ("l3fwd", "R10.0.0.0/8 0.0.0.0/0 0 : 65535 0 : 65535 6/0xff one\n", "one is no number"),
    ("l3fwd", "R10.0.0.0/8 0.0.0.0/0 0 : 65535 0 : 65535 6/0xff 268435455\n", "l3fwd-acl drops its packets"),
    ("l3fwd", "R10.0.0.0/8 0.0.0.0/0 0 : 65535 0 : 65535 6/0xff 0xFFFFFFFF\n", "l3fwd-acl drops its packets"),
    ("l3fwd", f"@10.0.0.0/8 0.0.0.0/0 0 : 65535 0 : {'9' * 5000} 6/0xff\n", "9 is above 65535"),
    ("l3fwd", "@10.0.0.0/8 0.0.0.0/0 0 : 65535 0 : 65535 6/0xff pri=20 data=101\n", "pri=20 is an attribute of aclc's"),
    ("l3fwd", "R10.0.0.0/8 0.0.0.0/0 0 : 65535 0 : 65535 6/0xff data=101\n", "data=101 is an attribute of aclc's"),
]


class Convert(unittest.TestCase):
    def test_shipped_lists_become_the_expected_files(self):
        for form, given, file, expected in SHIPPED:
            with self.subTest(file=file, given=given):
                text, _ = convert(form, (DATA / file).read_text(), file, **given)
                self.assertEqual(text, (DATA / expected).read_text())
                self.assertEqual(rule_file.read_rules(text.encode())[1], [])

    def test_what_cannot_be_said_ends_it_with_a_reason(self):
        for form, text, reason in REFUSED:
            with self.subTest(text=text), self.assertRaises(lists.CantSay) as raised:
                convert(form, text)
            self.assertIn(reason, raised.exception.reason)

    def test_the_tool_tells_its_forms(self):
        for words, code in ((["--help"], 0), (["l3fwd", "-h"], 0), ([], 2)):
            done = subprocess.run([str(CONVERT), *words], stdout=subprocess.PIPE, stderr=subprocess.PIPE, text=True)
            self.assertEqual(done.returncode, code)
            self.assertIn("convert classbench-trace", done.stderr if code else done.stdout)

    def test_the_command_writes_and_refuses(self):
        for words, code, said in ((["iptables", "--chain", "FORWARD", "gateway.iptables-save"], 0, ""),
                                  (["classbench-trace", "sample.trace"], 0, ""),
                                  (["l3fwd", str(TOP / "examples" / "office.rules")], 2,
                                   "office.rules:2: pri=20 is an attribute"),
                                  (["l3fwd", "--lenient", str(TOP / "examples" / "office.rules")], 0,
                                   "office.rules:3: left out: pri=10 is an attribute"),
                                  (["l3fwd", "none"], 2, "No such file"), (["other", "x"], 2, "")):
            done = tool("convert", *words, cwd=DATA)
            self.assertEqual(done[0], code, done)
            self.assertIn(said, done[2])
            self.assertEqual(code == 0, bool(done[1]))

    def test_userdata_is_the_line_the_verdict_or_a_number(self):
        text = "*filter\n:INPUT DROP [0:0]\n-A INPUT -s 10.0.0.1 -j ACCEPT\n-A INPUT -s 10.0.0.2 -j REJECT\nCOMMIT\n"
        for data, expected in (("line", [3, 4, 2]), ("verdict", [1, 3, 2]), (7, [7, 7, 7])):
            rules = rules_of(convert("iptables", text, data=data)[0])
            self.assertEqual([rule.userdata for rule in rules], expected)

    def test_the_unsaid_end_of_a_list_has_a_verdict_and_no_line(self):
        for data, expected in (("line", [2]), ("verdict", [1, 2])):
            rules = rules_of(convert("cisco", CISCO.format("permit tcp any any"), data=data)[0])
            self.assertEqual([rule.userdata for rule in rules], expected)

    def test_packets_that_no_line_of_l3fwd_matches_are_dropped(self):
        route = "R10.0.0.0/8 0.0.0.0/0 0 : 65535 0 : 65535 6/0xff 268435454\n"
        self.assertEqual([rule.userdata for rule in rules_of(convert("l3fwd", route, data="verdict")[0])], [1, 2])
        self.assertEqual([rule.userdata for rule in rules_of(convert("l3fwd", route)[0])], [1])

    def test_what_is_assumed_is_read_or_a_usage_error(self):
        said = assume.parse("in=eth0,state=new,local=10.0.0.1,local=2001:db8::1")
        self.assertEqual(said.told(), "in=eth0,state=new,local=10.0.0.1,local=2001:db8::1")
        self.assertEqual(said.local_addresses(6), ((1, 1), (0x20010DB8 << 96 | 1,) * 2))
        for text in ("in", "in=", "way=eth0", "state=gone", "local=router", "in=a,in=b", "in=a,", " in=a"):
            with self.assertRaises(ValueError, msg=text):
                assume.parse(text)
        for words in (["--assume", "state=gone"], ["--data", "lines"], ["--data", "4294967296"]):
            done = subprocess.run([str(CONVERT), "iptables", *words, "-"], stdout=subprocess.PIPE,
                                  stderr=subprocess.PIPE)
            self.assertEqual((done.returncode, done.stdout), (2, b""))

    def test_what_is_assumed_is_told_in_the_file(self):
        done = forms.converted(forms.options_of("iptables", "x", chain="INPUT",
                                                assume=assume.parse("in=eth0,state=new,local=192.0.2.10")),
                               (DATA / "server.iptables-save").read_text())
        self.assertEqual(done.lines[1], "# Assumed: in=eth0,state=new,local=192.0.2.10.")

    def test_a_closed_pipe_is_no_traceback(self):
        unseen = "other tables weren't in this list, so whether one drops isn't known"
        for form, file, told in (("iptables", "gateway6.ip6tables-save",
                                  f"convert: {DATA / 'gateway6.ip6tables-save'}: {unseen}\n"),
                                 ("classbench-trace", "sample.trace", "")):
            reading, writing = os.pipe()
            os.close(reading)
            done = subprocess.run([str(CONVERT), form, str(DATA / file), "--unproved"], stdout=writing, stderr=subprocess.PIPE, env=OWN)
            os.close(writing)
            self.assertEqual((done.returncode, UNPROVED.sub("", done.stderr.decode())), (2, told))

    def test_a_rule_file_is_utf_8_whatever_the_terminal_has(self):
        text = "*filter\n:INPUT DROP [0:0]\n-A INPUT -s 10.0.0.1 -m comment --comment \"\u2192\" -j ACCEPT\nCOMMIT\n"
        text += "*raw\nCOMMIT\n"
        done = subprocess.run([str(CONVERT), "iptables", "--unproved", "-"], input=text.encode(), stdout=subprocess.PIPE,
                              stderr=subprocess.PIPE, env={**OWN, "PYTHONIOENCODING": "ascii"})
        self.assertEqual((done.returncode, UNPROVED.sub("", done.stderr.decode())), (0, ""))
        self.assertIn("--comment \"\u2192\" -j ACCEPT", done.stdout.decode())

    def test_a_closed_output_is_no_traceback(self):
        done = subprocess.run(["sh", "-c", '"$0" l3fwd sample.l3fwd >&-', str(CONVERT)], cwd=DATA,
                              stderr=subprocess.PIPE)
        self.assertEqual((done.returncode, done.stderr), (2, b"convert: standard output is closed\n"))

    def test_traces_with_what_a_packet_cannot_say(self):
        for text, reason in (("1 2 3 4 1", "has no ports"), ("1 2 3", "a line has"),
                             ("1 ::1 0 0 1", "different families"), ("x 2 3 4 6", "no number")):
            content, faults = traces.convert([text, "1 2 3 4 6"], True)
            self.assertIn(reason, faults[0].reason)
            self.assertEqual(len(list(capture.records(content))), 1)

    def test_a_trace_is_a_capture_of_its_packets(self):
        content, _ = traces.convert((DATA / "sample.trace").read_text().split("\n"), False)
        self.assertEqual(content, (DATA / "sample-trace.pcap").read_bytes())
        frames = list(capture.records(content))
        self.assertEqual(len(frames), 6)
        packet = frames[0][0][14:].hex()
        self.assertEqual(packet[18:20] + packet[24:48], "06" + "0a010105" + "c000020a" + "9c400050")


if __name__ == "__main__":
    unittest.main()
