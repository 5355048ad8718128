# SPDX-License-Identifier: BSD-3-Clause
"""tools/convert iptables: what is taken, what is refused with its line, and what other tables do."""
import unittest

from aclc_tools import assume, lists
from aclc_tools.forms import converted, options_of
from converting import DATA, convert, decided, rules_of

SHIPPED = [("gateway.iptables-save", {"chain": "FORWARD"}, "gateway.rules"),
           ("gateway6.ip6tables-save", {}, "gateway6.rules"),
           ("server.iptables-save", {"chain": "INPUT", "assume": assume.parse("in=eth0,state=new,local=192.0.2.10")},
            "server.rules")]
ONE = "*filter\n:INPUT ACCEPT [0:0]\n-A INPUT {}\nCOMMIT\n"
# Options of a rule that ends the conversion, and a part of the reason.
RULES_REFUSED = [
    ("-i eth0 -j ACCEPT", "an interface, which only --assume in=NAME tells"),
    ("-m conntrack --ctstate ESTABLISHED -j ACCEPT", "state of a connection, which only --assume state=NAME tells"),
    ("-m addrtype --dst-type LOCAL -j ACCEPT", "only known by --assume local=ADDRESS"),
    ("-p tcp -m tcp --tcp-flags SYN,ACK SYN -j ACCEPT", "TCP flags"), ("-p tcp --syn -j ACCEPT", "TCP flags"),
    ("-m set --match-set bad src -j DROP", "a set that is kept elsewhere"), ("-f -j DROP", "fragments"),
    ("-p icmp -m icmp --icmp-type 8 -j ACCEPT", "a type of ICMP"), ("-s 10.0.0.1/255.0.0.255 -j DROP", "has gaps"),
    ("-s 10.0.0.0/0.0.0.255 -j DROP", "has gaps"), ("-s 10.0.0.010 -j DROP", "no address"),
    ("-s router -j DROP", "no address"),
    ("-p udplite -m multiport --dports 7 -j DROP", "ports of a protocol"),
    ("-m limit --limit 1/sec -j ACCEPT", "a rate"),
    ("-m limit -j DROP", "a rate"), ("-m rpfilter -j ACCEPT", "what rpfilter compares"),
    ("-m helper -j ACCEPT", "what helper compares"),
    ("-j NFQUEUE --queue-num 1", "the target NFQUEUE"), ("-j MASQUERADE", "the target MASQUERADE"),
    ("-j web", "the target web"),
    ("-j INPUT", "which packets come to by themselves"), ("-g INPUT", "which packets come to by themselves"),
    ("-j", "the line ends"),
    ("-o eth1 -j DROP", "-o stands in no rule of INPUT"), ("-j REJECT --reject-with none", "no answer of REJECT"),
    ("-j REJECT --reject-with tcp-reset", "needs -p tcp"), ("-p tcp -m tcp -m tcp --dport 1 -j DROP", "stands twice"),
    ("-p tcp ! --dport : -j DROP", "excludes all ports"), ("! -s 0.0.0.0/0 -j DROP", "excludes all addresses"),
    ("-s", "the line ends"), ("-s 10.0.0.0/8 -j", "the line ends"), ("-s 10.0.0.0/8 !", "follows the last !"),
    ("! ! -s 10.0.0.0/8 -j DROP", "two !"), ("! -j DROP", "can't be negated"), ("-j ACCEPT -j DROP", "stands twice"),
    ("-j ACCEPT -g DROP", "two targets"),
    ("-s 10.0.0.1 -s 10.0.0.2 -j DROP", "stands twice"),
    ("-j ACCEPT --reject-with tcp-reset", "no option that belongs"),
    ("-j ACCEPT foo", "belongs to no option"), ("foo -j ACCEPT", "belongs to no option"),
    ("-k DROP", "no option that belongs"),
    ("--dport 80 -j DROP", "no option that belongs"), ("--dport 80 -p tcp -j DROP", "no option that belongs"),
    ("-p udp -m tcp --dport 80 -j DROP", "needs its protocol"),
    ("! -p tcp -m tcp --dport 80 -j DROP", "needs its protocol"),
    ("-p tcp -m tcp --dport 80,443 -j DROP", "no port"), ("-p tcp --dport 90:80 -j DROP", "no port lies from 90 to 80"),
    ("-p tcp --dport 65536 -j DROP", "no port"), ("-p tcp --dport 0x50 -j DROP", "no port"),
    ("-p tcp --dport 010 -j DROP", "no port"),
    ("-p udp --dport http -j DROP", "no port"), ("-m multiport --dports 80 -j DROP", "needs a protocol with ports"),
    ("-p tcp -m multiport -j DROP", "has no option"), ("-m comment -j DROP", "has no option"),
    ("-m nonsense -j DROP", "isn't known"),
    ("-p tcp -m multiport --dports 1,2,3,4,5,6,7,8,9,10,11,12,13,14,15,16 -j DROP", "more than 15 ports"),
    ("-p ipinip -j DROP", "ipinip"),
    ("-p 256 -j DROP", "the protocol 256"), ("! -p all -j DROP", "no protocol at all"),
    ("-s 10.0.0.1,10.0.0.2 ! -s 1.1.1.1 -j DROP", "twice"),
    ("! -s 10.0.0.1,10.0.0.2 -j DROP", "several addresses"),
    ("-s 10.0.0.1,10.0.0.2 ! -d 10.0.0.3 -j DROP", "several addresses"),
    ("-m multiport --dports 80 -p tcp -j DROP", "needs a protocol with ports"),
    ("-m comment --comment \"no end -j DROP", "quotes don't end"),
    ("-m iprange --src-range 10.0.0.9-10.0.0.1 -j DROP", "no address lies"),
    ("-m conntrack --ctstate DNAT -j DROP", "addresses are changed"),
    ("-m conntrack --ctstate NEWW -j DROP", "no state"), ("-s 2001:db8::1 -j DROP", "no address of IPv4"),
    ("-m limit --limti 3/s -j LOG", "--limti"), ("-m limit --limit 5/ -j LOG", "no rate"),
    ("-m limit --limit 0/min -j LOG", "no rate"), ("-m limit --limit 10001/s -j LOG", "no rate"),
]
# Whole lists that are refused, with the line that is told.
LISTS_REFUSED = [
    ("@10.0.0.0/8 0.0.0.0/0\n", 1, "the line is in no table"), ("*nat\nCOMMIT\n", 0, "there is no table filter"),
    ("*filter\n:INPUT ACCEPT [0:0]\n:FORWARD DROP [0:0]\nCOMMIT\n", 0, "--chain INPUT or --chain FORWARD"),
    (ONE.format("-j DROP") + ONE.format("-j ACCEPT"), 5, "the table filter stands twice"),
    ("*filter\n:INPUT ACCEPT [0:0]\n:INPUT DROP [0:0]\nCOMMIT\n", 3, "declared twice"),
    ("*filter\n:INPUT DORP [0:0]\nCOMMIT\n", 2, "neither ACCEPT nor DROP"),
    ("*filter\n:INPUT\nCOMMIT\n", 2, "declares no chain"),
    ("*filter\n:INPUT ACCEPT [0:0]\n:one ACCEPT [0:0]\nCOMMIT\n", 3, "the chain one has a policy"),
    ("*filter\n:INPUT - [0:0]\nCOMMIT\n", 2, "neither ACCEPT nor DROP"),
    ("*filter\n:INPUT ACCEPT [0:0]\n-A one -j DROP\nCOMMIT\n", 3, "the chain one isn't declared"),
    (ONE.format("-j DROP").replace("COMMIT\n", ""), 4, "has no COMMIT"),
    (ONE.format("-j DROP").replace("COMMIT", "COMMITT"), 4, "begins with -A"),
    (ONE.format("-j DROP") + "-A INPUT -j ACCEPT\n", 5, "the line is in no table"),
    ("*filter\n:INPUT ACCEPT [0:0]\n-D INPUT 1\nCOMMIT\n", 3, "begins with -A"),
    ("*filter\n:INPUT ACCEPT [0:0]\n-I INPUT -j DROP\nCOMMIT\n", 3, "begins with"),
    ("*filter\n:INPUT ACCEPT [0:0]\n-N one\nCOMMIT\n", 3, "begins with -A"),
    ("*filter\n:INPUT ACCEPT [0:0]\n*nat\nCOMMIT\n", 3, "begins with -A"),
    ("*filter\n:INPUT ACCEPT [0:0]\n:a - [0:0]\n:b - [0:0]\n-A INPUT -j a\n-A a -j b\n-A b -j a\nCOMMIT\n", 7,
     "leads back to chain a"),
    ("*filter\n:INPUT ACCEPT [0:0]\n-A INPUT -j a\n:a - [0:0]\nCOMMIT\n", 3, "the chain a isn't declared before it"),
    ("*filter\n:INPUT ACCEPT [0:0]\n:a - [0:0]\n-A a -j DORP\n-A INPUT -j ACCEPT\nCOMMIT\n", 4, "the target DORP"),
    ("# Table `raw' is incompatible, use 'nft' tool.\n" + ONE.format("-j DROP"), 1, "tables are missing"),
    (ONE.format("-j DROP") + "# Table `filter' contains incompatible base-chains, use 'nft' tool to list them.\n", 5,
     "tables are missing"),
    ("# Warning: iptables-legacy tables present, use iptables-legacy-save to see them\n" + ONE.format("-j DROP"), 1,
     "tables are missing"),
    ("# Completed on Wed Dec  2 08:35:38 2026# Warning: ip6tables-legacy tables present, use ip6tables-legacy-save to "
     "see them\n" + ONE.format("-j DROP"), 1, "tables are missing"),
    # iptables-restore takes it, and jumps to the chain.
    ("*filter\n:INPUT ACCEPT [0:0]\n:LOG - [0:0]\n-A INPUT -j LOG\n-A LOG -j DROP\nCOMMIT\n", 3,
     "the chain LOG has the name of a target"),
    ("*filter\n:INPUT ACCEPT [0:0]\n:REJECT - [0:0]\n-A INPUT -j REJECT\nCOMMIT\n", 3, "the name of a target"),
]
# Options of a rule that drops packets, those that it matches and those that it doesn't: source, ports and protocol.
TAKEN = [
    ("-p ipip -j DROP", [("9.9.9.9", 0, 0, 94)], [("9.9.9.9", 0, 0, 4)]),
    ("-p ipencap -j DROP", [("9.9.9.9", 0, 0, 4)], [("9.9.9.9", 0, 0, 94)]),
    ("-j DROP -s 10.0.0.0/8", [("10.1.1.1", 1, 2, 6)], [("9.9.9.9", 1, 2, 6)]),
    ("-p tcp -j REJECT --dport 25 --reject-with tcp-reset", [("9.9.9.9", 1, 25, 6)],
     [("9.9.9.9", 1, 26, 6), ("9.9.9.9", 1, 25, 17)]),
    ("-p tcp --dport ssh -j DROP", [("9.9.9.9", 1, 22, 6)], [("9.9.9.9", 1, 23, 6)]),
    ("-p icmp -m icmp --icmp-type any -j DROP", [("9.9.9.9", 0, 0, 1)], [("9.9.9.9", 1, 2, 6)]),
    ("-p icmp -m icmp ! --icmp-type any -j DROP", [], [("9.9.9.9", 0, 0, 1)]),
    ("-s 10.0.0.0/255.255.0.0 -j DROP", [("10.0.9.9", 1, 2, 6)], [("10.1.0.0", 1, 2, 6)]),
    ("-p all -j DROP", [("9.9.9.9", 0, 0, 1)], []), ("-c 5 300 -j DROP", [("9.9.9.9", 1, 2, 6)], []),
    ("-m comment --comment \"-j ACCEPT \\\" \\\\\" -j DROP", [("9.9.9.9", 1, 2, 6)], []),
    ("-m comment --comment -j -j DROP", [("9.9.9.9", 1, 2, 6)], []),
    ("-p tcp -m multiport --sports 1:9 -m multiport --dports 80 -j DROP", [("9.9.9.9", 5, 80, 6)],
     [("9.9.9.9", 10, 80, 6)]),
    ("-i eth+ -m state --state NEW -m addrtype --src-type LOCAL -j DROP",
     [("10.0.0.1", 1, 2, 6), ("127.9.9.9", 1, 2, 17)], [("10.0.0.2", 1, 2, 6)]),
    ("! -i eth0 -j DROP", [], [("9.9.9.9", 1, 2, 6)]),
    ("-i eth -j DROP", [], [("9.9.9.9", 1, 2, 6)]),
    ("-m conntrack ! --ctstate RELATED,ESTABLISHED -j DROP", [("9.9.9.9", 1, 2, 6)], []),
    ("-m conntrack --ctstate RELATED,ESTABLISHED -j DROP", [], [("9.9.9.9", 1, 2, 6)]),
    ("-m addrtype --src-type MULTICAST -j DROP", [("224.0.0.1", 1, 2, 17)], [("223.0.0.1", 1, 2, 17)]),
]
IDLE = ("-m limit --limit 5/min -j LOG --log-prefix \"x \"", "-i eth0",
        "-m conntrack --ctstate NEW -j MARK --set-mark 1", "-s 10.0.0.0/8",
        "-i eth0 -j counted", "-m recent --set --name x")
ASSUMED = assume.parse("in=eth0,state=new,local=10.0.0.1")
OTHERS = ("*raw\n:PREROUTING ACCEPT [0:0]\n{}COMMIT\n*nat\n:PREROUTING ACCEPT [0:0]\n"
          "-A PREROUTING -p tcp -j DNAT --to-destination 10.0.0.9\nCOMMIT\n")


def number(address):
    """The number of an address of IPv4."""
    return int.from_bytes(bytes(map(int, address.split("."))), "big")


class Iptables(unittest.TestCase):
    def refused(self, text, **given):
        """Why a list is refused."""
        with self.assertRaises(lists.CantSay) as raised:
            convert("iptables", text, **given)
        return raised.exception

    def test_shipped_lists_become_the_expected_files(self):
        for file, given, expected in SHIPPED:
            with self.subTest(file=file):
                text, _ = convert("iptables", (DATA / file).read_text(), file, **given)
                self.assertEqual(text, (DATA / expected).read_text())
                rules_of(text)

    def test_rules_that_cannot_be_said_are_refused_with_their_line(self):
        for options, reason in RULES_REFUSED:
            with self.subTest(options=options):
                said = self.refused(ONE.format(options), family=4)
                self.assertIn(reason, said.reason)
                self.assertEqual(said.number, 3)

    def test_lists_that_are_not_whole_are_refused_with_their_line(self):
        for text, line, reason in LISTS_REFUSED:
            with self.subTest(text=text):
                said = self.refused(text, family=4)
                self.assertIn(reason, said.reason)
                self.assertEqual(said.number, line)

    def test_other_comments_are_passed_over(self):
        for comment in ("# Generated by iptables-nft-save v1.8.9 (nf_tables) on Wed Dec  2 08:35:38 2026",
                        "# Completed on Wed Dec  2 08:35:38 2026", "# Table 'filter' of the gateway, without legacy tables",
                        "#", ""):
            rules = rules_of(convert("iptables", comment + "\n" + ONE.format("-s 10.0.0.1 -j DROP"))[0])
            self.assertEqual([rule.userdata for rule in rules], [4, 3], comment)
        commented = ONE.format('-s 10.0.0.1 -m comment --comment "# iptables-legacy tables" -j DROP')
        self.assertEqual([rule.userdata for rule in rules_of(convert("iptables", commented)[0])], [3, 2])

    def test_rules_match_what_they_say(self):
        for options, inside, outside in TAKEN:
            with self.subTest(options=options):
                rules = rules_of(convert("iptables", ONE.format(options), family=4, assume=ASSUMED)[0])
                for packets, line in ((inside, 3), (outside, 2)):
                    for source, *ports, protocol in packets:
                        self.assertEqual(decided(rules, (4, number(source), 1, ports, protocol)), line)

    def test_rules_that_decide_nothing_are_no_reason(self):
        for options in IDLE:
            text = ONE.replace("-A INPUT", ":counted - [0:0]\n-A counted -s 10.0.0.1 -j RETURN\n-A INPUT")
            rules = rules_of(convert("iptables", text.format(options), family=4)[0])
            self.assertEqual([rule.userdata for rule in rules], [2], options)

    def test_the_family_is_told_or_refused(self):
        self.assertIn("--family 4 or --family 6", self.refused(ONE.format("-j DROP")).reason)
        self.assertIn("stand in one list", self.refused(ONE.format("-s 10.0.0.1 -d 2001:db8::1 -j DROP")).reason)
        for options, family in (("-s 2001:db8::1 -j DROP", 6), ("-s 10.0.0.1 -j DROP", 4),
                                ("-j REJECT --reject-with icmp6-port-unreachable", 6),
                                ("-m comment --comment \" -s 2001:\" -s 10.0.0.1 -j DROP", 4)):
            self.assertEqual(rules_of(convert("iptables", ONE.format(options))[0])[-1].family, family)
        for maker in ("ip6tables-save", "ip6tables-nft-save", "ip6tables-legacy-save"):
            text = f"# Generated by {maker} v1.8.9 on Wed Dec  2 08:35:38 2026\n" + ONE.format("-j DROP")
            self.assertEqual(rules_of(convert("iptables", text)[0])[0].family, 6, maker)

    def test_other_tables_are_told_and_end_it_where_they_drop(self):
        for line, drops in (("-A PREROUTING -s 1.1.1.1 -j DROP\n", True), ("-A PREROUTING -j NFQUEUE\n", True),
                            ("-A PREROUTING -j NOTRACK\n", False),
                            (":one - [0:0]\n-A PREROUTING -j one\n-A one -j DROP\n", True),
                            (":one - [0:0]\n-A one -j DROP\n", False)):
            text = OTHERS.format(line) + ONE.format("-s 10.0.0.1 -j DROP")
            if drops:
                self.assertIn("may drop packets in the table raw", self.refused(text).reason)
            notes = converted(options_of("iptables", "-", lenient=drops), text).notes
            self.assertEqual(any("changes addresses in the table nat" in note[2] for note in notes), True)
        dropping = OTHERS.format("").replace("ACCEPT", "DROP", 1) + ONE.format("-s 10.0.0.1 -j DROP")
        self.assertIn("its policy drops", self.refused(dropping).reason)

    def test_what_is_assumed_is_not_asked_of_other_tables(self):
        # Before routing `! -o eth0` matches each packet, whatever is assumed of its way out.
        for options, chain, assumed in (("-i eth9", "INPUT", "in=eth0"), ("! -o eth0", "FORWARD", "out=eth0"),
                                        ("-m state --state INVALID", "FORWARD", "state=new")):
            lines = f":one - [0:0]\n-A PREROUTING -j one\n-A one {options} -j DROP\n"
            text = OTHERS.format(lines) + ONE.format("-s 10.0.0.1 -j DROP").replace("INPUT", chain)
            said = self.refused(text, assume=assume.parse(assumed))
            self.assertIn("may drop packets in the table raw", said.reason)
            self.assertEqual(said.number, 5)

    def test_a_list_of_one_table_tells_that_others_were_not_seen(self):
        for text, unseen in ((ONE, True), (OTHERS.format("") + ONE, False)):
            done = converted(options_of("iptables", "-"), text.format("-s 10.0.0.1 -j DROP"))
            self.assertEqual(any("other tables weren't in this list" in note[2] for note in done.notes), unseen)

    def test_an_interface_that_packets_lack_is_not_assumed(self):
        for chain, assumed in (("INPUT", "out=eth0"), ("OUTPUT", "in=eth0")):
            text = ONE.format("-s 10.0.0.1 -j DROP").replace("INPUT", chain)
            said = self.refused(text, assume=assume.parse(assumed))
            self.assertIn(f"the packets of {chain}", said.reason)

    def test_what_is_left_out_is_told(self):
        text = ONE.replace("-A INPUT {}",
                           ":one - [0:0]\n-A INPUT -i lo -j ACCEPT\n-A INPUT -j one\n-A INPUT -s 10.0.0.1 -j ACCEPT\n"
                           "-A one -i lo -j RETURN\n-A one -j DROP")
        done = converted(options_of("iptables", "-", family=4, lenient=True), text)
        self.assertEqual([rule.number for rule in done.left_out], [4, 7])
        told = {note[0]: note[2] for note in done.notes}
        self.assertIn("left out: it matches an interface", told[4])
        self.assertIn("later lines may decide the opposite", told[7])
        self.assertIn("no packet is left for this rule", told[6])
        reason = "it matches an interface, which only --assume in=NAME tells"
        self.assertIn(f"# left out, {reason}: line 4: -A INPUT -i lo -j ACCEPT", done.lines)


if __name__ == "__main__":
    unittest.main()
