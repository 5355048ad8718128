# SPDX-License-Identifier: BSD-3-Clause
"""Lists of Cisco's devices: shipped lists against expected rule files, what is refused, and damaged lists beside a
walker."""
import unittest

import forms_asa
import forms_cisco
import forms_iosxr
import forms_nxos
import routers

SHIPPED = [("cisco", {"list": "OUTSIDE-IN"}, "edge.cisco", "edge-outside.rules"),
           ("cisco", {"list": "101"}, "edge.cisco", "edge-101.rules"),
           ("cisco", {"list": "WEB6"}, "edge.cisco", "edge-web6.rules"),
           ("cisco", {"list": "WITH-STATE", "lenient": True}, "edge.cisco", "edge-state.rules"),
           ("cisco", {"list": "TO-SERVERS"}, "branch.cisco", "branch-servers.rules"),
           ("cisco", {"list": "CLIENTS"}, "branch.cisco", "branch-clients.rules"),
           ("cisco", {"list": "12"}, "branch.cisco", "branch-12.rules"),
           ("asa", {"list": "outside_in"}, "site.asa", "site-outside.rules"),
           ("asa", {"list": "with_types", "lenient": True, "family": 4}, "site.asa", "site-types.rules"),
           ("nxos", {"list": "EDGE-IN"}, "leaf.nxos", "leaf-edge.rules"),
           ("nxos", {"list": "EDGE6-IN"}, "leaf.nxos", "leaf-edge6.rules"),
           ("iosxr", {"list": "FROM-PEERS"}, "core.iosxr", "core-peers.rules"),
           ("iosxr", {"list": "FROM-PEERS6"}, "core.iosxr", "core-peers6.rules"),
           ("iosxr", {"list": "FROM-PEERS6-ALL"}, "core.iosxr", "core-peers6-all.rules")]
IOS = "ip access-list extended A\n {}\n"
IOS_GROUPS = "object-group network N\n {}\nip access-list extended A\n permit ip object-group N any\n"
IOS_SERVICES = "object-group service S\n {}\nip access-list extended A\n permit object-group S any any\n"
ASA = "access-list A extended {}\n"
ASA_GROUPS = "{}\naccess-list A extended permit {}\n"
NXOS = "ip access-list A\n  {}\n"
XR = "ipv4 access-list A\n {}\n"
# What is refused: the form, the list, the line or 0, and a part of the reason.
REFUSED = [
    ("cisco", IOS.format("permit tcp any any established"), 2, "it compares TCP flags"),
    ("cisco", IOS.format("permit tcp any any syn"), 2, "TCP flags"),
    ("cisco", IOS.format("permit tcp any any match-all +syn -ack"), 2, "TCP flags"),
    ("cisco", IOS.format("permit icmp any any echo"), 2, "a type of ICMP"),
    ("cisco", IOS.format("permit icmp any any log 8"), 2, "a type of ICMP"),
    ("cisco", IOS.format("permit ip any any fragments"), 2, "it compares fragments"),
    ("cisco", IOS.format("permit ip any any time-range NIGHT"), 2, "it compares the time"),
    ("cisco", IOS.format("permit tcp any any reflect BACK"), 2, "the state of a connection"),
    ("cisco", IOS.format("evaluate BACK"), 2, "the state of a connection"),
    ("cisco", IOS.format("permit ip 10.0.0.0 0.255.3.0 any"), 2, "0.255.3.0 has more than 8 gaps"),
    ("cisco", IOS.format("permit ip 10.0.0.1 any"), 2, "any isn't an address"),
    ("cisco", IOS.format("permit ip any"), 2, "ends where an address should stand"),
    ("cisco", IOS.format("permit tcp any any eq 65536"), 2, "65536 is no port"),
    ("cisco", IOS.format("permit tcp any any eq http"), 2, "http is no port"),
    ("cisco", IOS.format("permit tcp any any range 90 80"), 2, "no port lies from 90 to 80"),
    ("cisco", IOS.format("permit ip any any eq 80"), 2, "ports of a protocol"),
    ("cisco", IOS.format("permit 0 any any"), 2, "the protocol 0"),
    ("cisco", IOS.format("permit ipip any any"), 2, "ipip is no protocol"),
    ("cisco", IOS.format("permit ip any any\n no permit ip any any"), 3, "is no entry of the list A"),
    ("cisco", IOS.format("permit ip any any\nno permit ip any any"), 3, "is no entry of the list A"),
    ("cisco", IOS.format("deyn ip any any\n permit ip any any"), 2, "is no entry of the list A"),
    ("cisco", IOS.format("permit tcp any any\ndeyn ip any any"), 3, "is no entry of the list A"),
    ("cisco", IOS.format("permit tcp any any\nip any any"), 3, "is no entry of the list A"),
    ("cisco", IOS.format("dynamic D permit ip any any"), 2, "is no entry of the list A"),
    ("cisco", IOS.format("permit tcp any any\n 10 deny ip any any"), 3, "the sequence number 10 is that of line 2 too"),
    ("cisco", IOS.format("0 permit ip any any"), 2, "go from 1 to"),
    ("cisco", IOS.format("remark R\n permit tcp any any\n 15 permit udp any any"), 4,
     "whether the remarks before it have some"),
    ("cisco", IOS.format("remark nothing else"), 1, "has no entries"),
    ("cisco", "ip access-list extended A\n", 1, "has no entries"),
    ("cisco", IOS.format("permit ip any any\nno ip access-list extended A"), 0, "there is no access list"),
    ("cisco", "access-list 101 permit ip any any\nno access-list 101\n", 0, "there is no access list"),
    ("cisco", "access-list 101 permit ip any any\nno access-list 101 permit ip any any\n", 2, "takes an entry out"),
    ("cisco", "access-list 101 permit tcp any any\npermit ip any any\n", 2, "stands outside of a list"),
    ("cisco", "interface Gi0/0\n permit ip any any\n", 2, "stands outside of a list"),
    ("cisco", IOS.format("permit tcp any any\nexit\n permit ip any any"), 4, "stands outside of a list"),
    ("cisco", "access-list 101 permit tcp any any\nacess-list 101 permit ip any any\n", 2, "may be meant for a list"),
    ("cisco", "access-list 101 permit tcp any any\naccess-list 101 prmit ip any any\n", 2,
     "none of permit, deny and remark"),
    ("cisco", "access-list 101 dynamic D permit ip any any\n", 1, "a user who logs in"),
    ("cisco", "access-list 101 permit tcp any any\n eq 443\n", 2, "the end of the entry before it"),
    ("cisco", IOS.format("permit tcp any any\ntime-range N"), 3, "is no entry of the list A"),
    ("cisco", "access-list 0101 permit ip any any\n", 1, "no number of a list"),
    ("cisco", "ip access-list extended 0101\n permit ip any any\n", 1, "0101 isn't the number"),
    ("cisco", "access-list 1O1 permit ip any any\n", 1, "no number of a list"),
    ("cisco", "access-list 3000 permit ip any any\n", 1, "3000 is no number of a list"),
    ("cisco", "access-list 11 permit tcp any any\n", 1, "no entry of a standard list"),
    ("cisco", "access-list 101 permit ip any any\nip acces-list extended A\n", 2, "may be meant for a list"),
    ("cisco", "ip access-list extendd A\n permit ip any any\n", 1, "begins no list"),
    ("cisco", "ip access-list extended 99\n permit ip any any\n", 1, "99 isn't the number of an extended list"),
    ("cisco", "ip access-list resequence A 10 10\n", 1, "begins no list"),
    ("cisco", "access-list OUT extended permit ip any any\n", 1, "the form asa reads it"),
    ("cisco", "ipv6 access-list A\n permit tcp any any eq 80\n", 1, "two types of ICMP"),
    ("cisco", "ipv6 access-list A\n permit ip any any\n", 2, "ip is no protocol"),
    ("cisco", "ipv6 access-list A\n 10 permit ipv6 any any sequence 20\n", 2, "two sequence numbers"),
    ("cisco", "ip access-list extended A\n permit ip any any\nipv6 access-list A\n permit ipv6 any any\n", 3,
     "is begun as"),
    ("cisco", "ip access-list extended A\n permit ip any any\nip access-list extended B\n permit ip any any\n", 0,
     "--list A or --list B"),
    ("cisco", "banner motd #\naccess-list 101 permit ip any any\n#\n", 2, "stands in the banner"),
    ("cisco", "banner motd #\n", 1, "the banner doesn't end"),
    ("cisco", "macro name m\naccess-list 101 permit ip any any\n@\n", 2, "stands in the macro"),
    ("cisco", IOS_GROUPS.format("host 10.0.0.300"), 4, "in line 2, 10.0.0.300 isn't an address"),
    ("cisco", IOS_GROUPS.format("10.0.0.0 0.0.0.255"), 4, "in line 2, 0.0.0.255 isn't the mask of a network"),
    ("cisco", IOS_GROUPS.format("10.0.0.1 0.0.0.0"), 4, "write any or host"),
    ("cisco", IOS_GROUPS.format("group-object N"), 4, "the group N has itself as a member"),
    ("cisco", IOS_GROUPS.format("description none"), 4, "the group N has no members"),
    ("cisco", IOS_GROUPS.format("host 10.0.0.1\n no host 10.0.0.1"), 3, "taken out of a group"),
    ("cisco", IOS.format("permit ip object-group N any"), 2, "the group N doesn't stand in this file"),
    ("cisco", IOS_SERVICES.format("icmp echo"), 4, "a type of ICMP"),
    ("cisco", IOS_SERVICES.format("esp 80"), 4, "ports of a protocol"),
    ("cisco", IOS_SERVICES.format("tcp 80").replace("any any", "any any eq 80"), 4, "after a group of services"),
    ("cisco", IOS_SERVICES.format("tcp 80").replace("permit object-group S", "permit ip object-group S"), 4,
     "doesn't fit at this place"),
    ("cisco", "object-group service S tcp\n", 1, "begins no group of IOS"),
    ("asa", ASA.format("permit tcp 10.0.0.0 0.0.0.255 any"), 1, "isn't the mask of a network"),
    ("asa", ASA.format("permit tcp 10.0.0.1 255.255.255.0 any"), 1, "that the mask 255.255.255.0 leaves out"),
    ("asa", ASA.format("permit tcp interface outside any"), 1, "the address of an interface"),
    ("asa", ASA.format("permit icmp any any echo"), 1, "a type of ICMP"),
    ("asa", ASA.format("permit ip any any time-range NIGHT"), 1, "the time"),
    ("asa", ASA.format("permit tcp any any eq sqlnet"), 1, "sqlnet is no port"),
    ("asa", ASA.format("permit ip user LAB\\joe any any"), 1, "it compares a user"),
    ("asa", ASA.format("permt ip any any"), 1, "the line has none of permit"),
    ("asa", "access-list A line 0 extended permit ip any any\n", 1, "a number above 0"),
    ("asa", ASA.format("permit ip any any") + "no access-list A extended permit ip any any\n", 2, "takes an entry out"),
    ("asa", "access-list A standard permit 10.0.0.0 255.0.0.0\n", 1, "extended lists alone"),
    ("asa", "access-list A remark nothing else\n", 1, "has no entries"),
    ("asa", ASA.format("permit ip any any") + "acces-list A extended deny ip any any\n", 2, "may be meant for a list"),
    ("asa", ASA.format("permit tcp any any") + " eq 443\n", 2, "the end of the entry before it"),
    ("asa", ASA.format("permit ip any any") + "clear configure access-list A\n", 2, "takes something out"),
    ("asa", ASA_GROUPS.format("object network O\n fqdn www.example.com", "ip object O any"), 3,
     "addresses that don't stand in this file"),
    ("asa", ASA_GROUPS.format("object network O\n host 10.0.0.1\n host 10.0.0.2", "ip object O any"), 4,
     "more than one value"),
    ("asa", ASA_GROUPS.format("object-group network A\n group-object B\nobject-group network B\n group-object A",
                              "ip object-group A any"),
     5, "the group A has itself as a member"),
    ("asa", ASA_GROUPS.format("object-group service P udp\n port-object eq 53", "tcp any any object-group P"), 3,
     "of other protocols"),
    ("asa", ASA_GROUPS.format("object-group icmp-type T\n icmp-object echo", "icmp any any object-group T"), 3,
     "a type of ICMP"),
    ("nxos", NXOS.format("permit tcp any any established"), 2, "TCP flags"),
    ("nxos", NXOS.format("permit tcp any any eq 80 443"), 2, "the word 443 isn't known"),
    ("nxos", NXOS.format("permit ip any any\n  fragments permit-all"), 3, "is no entry of the list A"),
    ("nxos", NXOS.format("10 permit tcp any any\n  10 permit ip any any"), 3, "the sequence number 10"),
    ("nxos", NXOS.format("permit ip addrgroup G any"), 2, "the group G doesn't stand in this file"),
    ("nxos", NXOS.format("permit ip any 10.0.0.0/33"), 2, "the length of its prefix"),
    ("nxos", NXOS.format("permit ip any any") + "resequence ip access-list A 5 5\n", 3, "other sequence numbers"),
    ("nxos", "object-group ip address G\n  10 host 10.0.0.1\n  10 any\n", 3, "the sequence number 10 stands twice"),
    ("nxos", "ip access-list extended A\n  permit ip any any\n", 1, "the form cisco reads it"),
    ("nxos", "ipv6 access-list A\n  permit tcp any any\n", 1, "four types of ICMP"),
    ("iosxr", XR.format("permit tcp any any established"), 2, "TCP flags"),
    ("iosxr", XR.format("permit ipv4 any any\n!\n permit tcp any any"), 4, "stands outside of a list"),
    ("iosxr", XR.format("permit ipv4 net-group G any"), 2, "the group G doesn't stand in this file"),
    ("iosxr", XR.format("permit ipv4 any any nexthop1 ipv4 10.0.0.1"), 2, "the word nexthop1 isn't known"),
    ("iosxr", XR.format("10 permit ipv4 any any\n 10 deny ipv4 any any"), 3, "the sequence number 10"),
    ("iosxr", "ipv6 access-list A\n permit tcp any any\n", 1, "two types of ICMP"),
]
# What is taken, though it isn't as a device writes it: the form, the list, and the lines that decide, in order.
TAKEN = [
    ("cisco", "access-list 101 permit tcp any any\nend\n", [1]),
    ("cisco", IOS.format("permit tcp any any\n!\ntime-range N\n periodic daily 1:00 to 2:00"), [2]),
    ("cisco", "ip access-list extended A\npermit tcp any any eq 80\ndeny ip any any\ninterface Gi0/0\n", [2, 3]),
    ("cisco", "ip access-list extended A\n20 permit tcp any any\n10 permit udp any any\n permit gre any any\n",
     [3, 2, 4]),
    ("cisco", "access-list 101 permit udp any any\nno access-list 101\naccess-list 101 permit tcp any any log Cookie\n",
     [3]),
    ("cisco", IOS.format("permit udp any any\nno ip access-list extended A") + IOS.format("permit tcp any any"), [5]),
    ("cisco", IOS.format("!comment\n permit tcp any any\n!\n deny ip any any log-input\n!\nbanner motd # permit #"),
     [3, 5]),
    ("cisco", "macro name m\nswitchport mode access\n@\n" + IOS.format("permit tcp any any"), [5]),
    ("cisco", "ip access-list extended A\r\n permit ipinip any any\r\n permit nos any any\r\n", [2, 3]),
    ("cisco", "ip access-list extended 101\n permit tcp any any\naccess-list 101 permit udp any any\n", [2, 3]),
    ("cisco", IOS_GROUPS.format("10.0.0.0/8\n range 192.0.2.1 192.0.2.6\n group-object M")
     + "object-group network M\n 198.51.100.0 255.255.255.0\n", [6]),
    ("asa", "access-list A permit tcp any4 any4\naccess-list A line 1 extended deny udp any4 any4 log 3 interval 5\n",
     [2, 1]),
]


class Cisco(routers.ListsCase):
    """The readers of Cisco's lists."""

    def test_shipped_lists_become_the_expected_files(self):
        for case in SHIPPED:
            self.becomes(*case)

    def test_what_cannot_be_said_is_refused_with_its_line_and_a_sentence(self):
        for case in REFUSED:
            self.refuses(*case)

    def test_entries_are_taken_as_the_device_takes_them(self):
        for form, text, lines in TAKEN:
            with self.subTest(text=text):
                self.assertEqual(routers.deciding(form, text, family=4), lines)

    def test_the_command_tells_the_line(self):
        self.tells(["cisco", "--list", "WITH-STATE", "edge.cisco"], 2, "edge.cisco:30: it compares TCP flags")
        self.tells(["cisco", "--lenient", "--list", "WITH-STATE", "edge.cisco"], 0,
                   "edge.cisco:31: left out: it compares a type of ICMP")
        self.tells(["asa", "--list", "with_types", "site.asa"], 2, "site.asa:55: it compares a type of ICMP")
        self.tells(["nxos", "--list", "NONE", "leaf.nxos"], 2, "there is no list NONE; there are: EDGE-IN")

    def test_damaged_lists_are_converted_without_loss_or_refused(self):
        for module in (forms_cisco, forms_asa, forms_nxos, forms_iosxr):
            self.loses_nothing(module, 25, 48)


if __name__ == "__main__":
    unittest.main()
