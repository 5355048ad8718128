# SPDX-License-Identifier: BSD-3-Clause
"""Filters of Junos, and lists of AWS and Azure: shipped ones, what is refused, and damaged ones beside a walker."""
import json
import random
import unittest

import forms_aws
import forms_azure
import forms_juniper
import routers
from aclc_tools import juniper_terms

SHIPPED = [("juniper", {"list": "from-world"}, "border.juniper", "border-world.rules"),
           ("juniper", {"list": "from-world6"}, "border.juniper", "border-world6.rules"),
           ("juniper", {"list": "limited", "lenient": True}, "border.juniper", "border-limited.rules"),
           ("aws", {"list": "web", "chain": "ingress"}, "vpc.aws-groups.json", "vpc-web.rules"),
           ("aws", {"list": "sg-0a1b2c3d4e5f60718", "chain": "egress"}, "vpc.aws-groups.json", "vpc-out.rules"),
           ("aws", {"list": "database", "chain": "ingress", "lenient": True}, "vpc.aws-groups.json",
            "vpc-database.rules"),
           ("aws", {"chain": "ingress"}, "vpc.aws-acls.json", "vpc-acl.rules"),
           ("azure", {"chain": "inbound"}, "shop.azure-nsg.json", "shop-in.rules"),
           ("azure", {"chain": "Outbound", "lenient": True}, "shop.azure-nsg.json", "shop-out.rules"),
           ("azure", {"chain": "Inbound", "family": 4}, "shop.azure-rules.json", "shop-rules.rules")]
TERM = "set firewall family inet filter A term T {}\n"
TERM6 = "set firewall family inet6 filter A term T {}\n"
PREFIX = "set policy-options prefix-list P {}\n"
# Filters that are refused: the text, the line or 0, and a part of the reason.
JUNIPER = [
    (TERM.format("from interface ge-0/0/0.0"), 1, "it compares an interface"),
    (TERM.format("from tcp-established"), 1, "it compares TCP flags"),
    (TERM.format("from icmp-type echo-request"), 1, "a type of ICMP"),
    (TERM.format("from is-fragment"), 1, "it compares fragments"),
    (TERM.format("from destination-port 80"), 1, "ports of a protocol"),
    (TERM.format("from protocol [ tcp icmp ]") + TERM.format("from port 80"), 1, "ports of a protocol"),
    (TERM.format("from protocol tcp") + TERM.format("from destination-port 90-80"), 2, "no number lies from 90 to 80"),
    (TERM.format("from protocol tcp") + TERM.format("from destination-port 8O"), 2, "8O is no number"),
    (TERM.format("from protocol tpc"), 1, "tpc is no number or name"),
    (TERM.format("from protocol"), 1, "the condition has no value"),
    (TERM.format('from protocol ""'), 1, "is no number or name"),
    (TERM.format("form protocol tcp"), 1, "neither from nor then"),
    (TERM.format("from source-adress 10.0.0.0/8"), 1, "the condition source-adress isn't known"),
    (TERM.format("from source-address 10.0.0.0/33"), 1, "the length of its prefix"),
    (TERM.format("from source-address 2001:db8::/32"), 1, "of the other family"),
    (TERM.format("from source-address 10.0.0.0/8 excpt"), 1, "other words than except"),
    (TERM.format("from source-address 10.0.0.0/8 except"), 1, "says none of which they are excepted"),
    (TERM.format("from source-address 10.0.0.0/8 except") + TERM.format("from source-address 10.0.0.0/8"), 1,
     "with except and without it"),
    (TERM.format("from source-prefix-list P"), 1, "doesn't stand in this file"),
    (PREFIX.format("10.0.0.0/8x") + TERM.format("from source-prefix-list P"), 2, "in line 1, 10.0.0.0/8x isn't"),
    (PREFIX.format('apply-path "interfaces <*>"') + TERM.format("from source-prefix-list P"), 2,
     "drawn from other parts"),
    (PREFIX.format("10.0.0.0/8") + TERM.format("from source-prefix-list P")
     + TERM.format("from source-address 10.0.0.1"), 2,
     "a term with both source-prefix-list and source-address"),
    (TERM.format("from address 10.0.0.1") + TERM.format("from source-address 10.0.0.2"), 1,
     "a term with address and another"),
    (TERM.format("from protocol tcp") + TERM.format("from port-except 80"), 2, "read in two ways"),
    (TERM.format("from address 10.0.0.0/8") + TERM.format("from address 10.1.0.0/16 except"), 2,
     "address with except is read in two ways"),
    (PREFIX.format("10.0.0.0/8") + TERM.format("from prefix-list P except"), 2,
     "prefix-list with except is read in two ways"),
    (TERM.format("then policer P"), 1, "it does policer P, and a rule can't"),
    (TERM.format("then routing-instance R"), 1, "it does routing-instance R"),
    (TERM.format("then acept"), 1, "the action acept isn't known"),
    (TERM.format("then accept") + TERM.format("then discard"), 2, "two verdicts: accept and discard"),
    (TERM.format("filter B"), 1, "neither from nor then"),
    (TERM6.format("from next-header tcp"), 1, "the first header after that of IPv6"),
    (TERM6.format("from protocol tcp"), 1, "no condition of this family"),
    (TERM.format("then accept") + "deactivate firewall family inet filter A\n", 2, "something other than one term"),
    (TERM.format("then accept") + "deactivate firewall family inet filter A term T from protocol tcp\n", 2,
     "something other than one term"),
    (TERM.format("then accept") + "deactivate firewall family inet filter A term U\n", 2,
     "something other than one term"),
    (TERM.format("then accept") + "deactivate firewall family inet filter A term T\n", 1, "has no terms"),
    (TERM.format("then accept") + "deactivate firewall famly inet filter A term T\n", 2,
     "something other than one term"),
    (TERM.format("then accept") + "deactivate firewall family inet filter B term T\n", 2,
     "something other than one term"),
    (TERM.format("then accept") + "op@border# " + TERM.format("then discard"), 2, "doesn't begin with set"),
    (TERM.format("then accept") + "deactivate firewall\n", 2, "something other than one term"),
    (TERM.format("then accept") + "insert firewall family inet filter A term T before term S\n", 2,
     "doesn't begin with set"),
    (TERM.format("then accept") + "delete firewall family inet filter A term T\n", 2, "doesn't begin with set"),
    (TERM.format("then accept") + "set groups G firewall family inet filter A term S then discard\n", 2,
     "gives a part to filters by a group"),
    (TERM.format("then accept") + "set firewall family inet filter A apply-groups G\n", 2, "no term of its filter"),
    (TERM.format("then accept") + "set firewal family inet filter A term S then discard\n", 2,
     "may be meant for a filter"),
    (TERM.format("then accept") + "set policy-option prefix-list P 10.0.0.0/8\n", 2, "may be meant for a filter"),
    (TERM.format("then accept") + "set policy-options prefixlist P 10.0.0.0/8\n", 2, "may be meant for a filter"),
    (TERM.format("then accept") + "set firewall famly inet filter A term S then discard\n", 2, "begins no filter"),
    (TERM.format("then accept") + "set firewall family inte filter A term S then discard\n", 2, "no family inte"),
    (TERM.format("then accept") + "set firewall family inet filter A interface-specific x\n", 2, "no term of its"),
    (TERM.format("then accept") + "set firewall family inet filter A trem S then discard\n", 2,
     "no term of its filter"),
    (TERM.format('from protocol "tcp') + TERM.format("then accept"), 1, "the quotes or brackets"),
    ("firewall {\n    family inet {\n", 1, "doesn't begin with set"),
    ("set firewall family vpls filter A term T then accept\n", 0, "there is no filter of inet or inet6"),
    (TERM.format("then accept") + TERM.replace("filter A", "filter B").format("then accept"), 0,
     "--list A or --list B"),
    (TERM.format("then accept") + TERM6.format("then accept"), 0, "which filter is meant isn't said"),
]
# Filters that are taken, and the lines of the terms that decide.
TAKEN = [(TERM.format("then count hits"), [1]),
         (TERM.format("from protocol udp") + TERM.replace("T {}", "S {}").format("then discard"), [1, 2]),
         (TERM.format("then next term") + TERM.replace("T {}", "S {}").format("then reject"), [2]),
         ("user@border> show configuration | display set\n" + TERM.format("then log").replace("family inet ", ""), [2])]


def group(**changed):
    """A security group with one permission, in which something is changed."""
    permission = {"IpProtocol": "tcp", "FromPort": 80, "ToPort": 80, "IpRanges": [{"CidrIp": "10.0.0.0/8"}], **changed}
    permission = {name: value for name, value in permission.items() if value is not None}
    return {"SecurityGroups": [{"GroupId": "sg-1", "GroupName": "web", "IpPermissions": [permission],
                                "IpPermissionsEgress": []}]}


def acl(**changed):
    """A network ACL with one entry, in which something is changed."""
    entry = {"RuleNumber": 100, "Protocol": "6", "RuleAction": "allow", "Egress": False, "CidrBlock": "10.0.0.0/8",
             "PortRange": {"From": 80, "To": 80}, **changed}
    entry = {name: value for name, value in entry.items() if value is not None}
    return {"NetworkAcls": [{"NetworkAclId": "acl-1", "Entries": [entry]}]}


def nsg(*more, **changed):
    """A network security group with one rule, in which something is changed."""
    made = {**forms_azure.rule("web", 100, "Allow", "Inbound", "Tcp", [(["*"], ["*"]), (["10.0.0.0/8"], ["80"])]),
            **changed}
    made = {name: value for name, value in made.items() if value is not ...}
    return {"name": "shop", "securityRules": [made, *more],
            "defaultSecurityRules": [forms_azure.rule("end", 65500, "Deny", "Inbound", "*", [(["*"], ["*"])] * 2)]}


# Lists in JSON that are refused: the form, the value, the number of the rule or 0, and a part of the reason.
CLOUDS = [
    ("aws", group(UserIdGroupPairs=[{"GroupId": "sg-2"}]), 2, "it names a group"),
    ("aws", group(PrefixListIds=[{"PrefixListId": "pl-1"}]), 2, "it names a list of prefixes"),
    ("aws", group(IpProtocol="icmp", FromPort=8, ToPort=-1), 1, "a type of ICMP"),
    ("aws", group(IpProtocol="tpc"), 1, "tpc is no protocol"),
    ("aws", group(IpProtocol="47"), 1, "ports of a protocol"),
    ("aws", group(FromPort=None), 1, "no port lies from None to 80"),
    ("aws", group(FromPort=81), 1, "no port lies from 81 to 80"),
    ("aws", group(ToPort="80"), 1, "which isn't of its kind"),
    ("aws", group(FromPort=True), 1, "which isn't of its kind"),
    ("aws", group(IpRanges=[{"CidrIp": "10.0.0.0/8", "CidrIpv6": "::/0"}]), 1, "the name CidrIpv6 isn't known"),
    ("aws", group(IpRanges=[{"CidrIp": "10.0.0.0/33"}]), 1, "the length of its prefix"),
    ("aws", group(IpRanges=[]), 1, "no range of addresses"),
    ("aws", group(IpRangs=[]), 1, "the name IpRangs isn't known"),
    ("aws", group(IpRanges=None), 1, "no range of addresses"),
    ("aws", group(IpRanges={}), 1, "which isn't of its kind"),
    ("aws", {"SecurityGroups": []}, 0, "it isn't what aws ec2"), ("aws", [1], 0, "should stand"),
    ("aws", {"SecurityGroups": [{"GroupId": "sg-1"}]}, 0, "the name IpPermissions is missing"),
    ("aws", {**group(), "NextToken": "x"}, 0, "ends before the last group"),
    ("aws", {**group(), "Groups": []}, 0, "the name Groups"),
    ("aws", acl(RuleAction="alow"), 100, "neither allow nor deny"),
    ("aws", acl(Egress="no"), 0, "which isn't of its kind"),
    ("aws", acl(Protocol="1", PortRange=None, IcmpTypeCode={"Type": 8, "Code": -1}), 100, "a type of ICMP"),
    ("aws", acl(RuleNumber=0), 0, "0 is no number of an entry"),
    ("aws", acl(RuleNumber=-1), 0, "-1 is no number of an entry"),
    ("aws", acl(CidrBlock=None), 100, "not exactly one range"),
    ("aws", acl(Ipv6CidrBlock="::/0"), 100, "not exactly one range"),
    ("aws", acl(PortRange=None), 100, "no port lies"), ("aws", acl(Egress=True), 0, "has no rules for ingress"),
    ("azure", nsg(sourceAddressPrefix="VirtualNetwork"), 100, "the service tag VirtualNetwork"),
    ("azure", nsg(sourceApplicationSecurityGroups=[{"id": "x"}]), 100, "a group of applications"),
    ("azure", nsg(protocol="*"), 100, "ports of a protocol"), ("azure", nsg(protocol="Tpc"), 100, "Tpc is no protocol"),
    ("azure", nsg(destinationPortRange="90-80"), 100, "no port lies"),
    ("azure", nsg(destinationPortRange=None), 100, "not exactly one"),
    ("azure", nsg(destinationPortRanges=["80"]), 100, "not exactly one"),
    ("azure", nsg(sourceAddressPrefix="10.0.0.0/40"), 100, "the length"),
    ("azure", nsg(access="Permit"), 100, "neither Allow nor Deny"),
    ("azure", nsg(direction="In"), 0, "neither Inbound nor Outbound"),
    ("azure", nsg(priority="100"), 0, "which isn't of its kind"),
    ("azure", nsg(protocl="Tcp"), 100, "the name protocl isn't known"),
    ("azure", nsg(protocol=...), 100, "the name protocol is missing"),
    ("azure", nsg(nsg()["securityRules"][0]), 100, "the priority stands twice"),
    ("azure", {**nsg(), "defaultSecurityRules": []}, 65000, "the default rules"),
    ("azure", {"name": "x"}, 0, "it isn't what az network"),
    ("azure", [nsg(), {**nsg(), "name": "other"}], 0, "--list takes one of shop, other"),
]


class Clouds(routers.ListsCase):
    """The readers of Junos, AWS and Azure."""

    def test_shipped_lists_become_the_expected_files(self):
        for case in SHIPPED:
            self.becomes(*case)

    def test_filters_that_cannot_be_said_are_refused_with_their_line(self):
        for text, line, reason in JUNIPER:
            self.refuses("juniper", text, line, reason)
        both = TERM.format("then accept") + TERM6.format("then accept")
        self.refuses("juniper", both, 0, "--family 4 or --family 6", list="A")
        self.refuses("juniper", both, 0, "there is no filter B; there are: A", list="B")

    def test_filters_are_taken_as_the_device_takes_them(self):
        for text, lines in TAKEN:
            with self.subTest(text=text):
                self.assertEqual(routers.deciding("juniper", text), lines)

    def test_the_longest_prefix_decides(self):
        """Compares with a search of each number, for prefixes over 256 of them."""
        draw, apart = random.Random(3), []
        for _ in range(300):
            parts = {(base >> free << free, (base >> free << free) + (1 << free) - 1): draw.random() < 0.5
                     for base, free in ((draw.randrange(256), draw.choice([0, 0, 1, 2, 3, 5, 8])) for _ in range(6))}
            parts = {**parts, (0, 1): False}
            near = [[(high - low, out) for (low, high), out in parts.items() if low <= it <= high] for it in range(256)]
            found = juniper_terms.longest_match(list(parts.items()))
            self.assertEqual([any(low <= it <= high for low, high in found) for it in range(256)],
                             [bool(its) and not min(its)[1] for its in near])
            apart += [one[1] + 1 < other[0] for one, other in zip(found, found[1:])]
        self.assertTrue(all(apart) and len(apart) > 300)

    def test_many_prefixes_are_one_condition(self):
        text = "".join(PREFIX.format(f"10.0.{it >> 7}.{it << 1 & 255}/32") for it in range(5000))
        rules = routers.converted("juniper", text + TERM.format("from source-prefix-list P"))
        self.assertEqual(len({rule.source for rule in rules}), 5000)

    def test_lists_of_clouds_that_cannot_be_said_are_refused(self):
        for form, value, number, reason in CLOUDS:
            self.refuses(form, json.dumps(value), number, reason, chain={"aws": "ingress", "azure": "Inbound"}[form])
        self.refuses("aws", json.dumps(group()), 0, "--chain ingress or --chain egress")
        self.refuses("azure", json.dumps(nsg()), 0, "--chain Inbound or --chain Outbound", chain="in")
        self.refuses("aws", '{"SecurityGroups":\n [}', 2, "the text isn't JSON")
        self.refuses("aws", '{"SecurityGroups": [], "SecurityGroups": []}', 0, "stands twice in one object")
        self.refuses("aws", '{"SecurityGroups": ["\\ud800"]}', 0, "half a character")
        self.refuses("aws", "[" * 100000, 0, "nested too deep")

    def test_the_command_tells_the_rule(self):
        self.tells(["juniper", "--list", "limited", "border.juniper"], 2,
                   "border.juniper:44: it does policer one-megabit")
        self.tells(["aws", "--list", "database", "--chain", "ingress", "vpc.aws-groups.json"], 2,
                   "rule 2: it names a group")
        self.tells(["azure", "--chain", "Outbound", "shop.azure-nsg.json"], 2,
                   "priority 65000: it names the service tag")

    def test_damaged_lists_are_converted_without_loss_or_refused(self):
        for module in (forms_juniper, forms_aws, forms_azure):
            self.loses_nothing(module, 25, 49)


if __name__ == "__main__":
    unittest.main()
