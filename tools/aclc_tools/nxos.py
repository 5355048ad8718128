# SPDX-License-Identifier: BSD-3-Clause
"""Access lists of Cisco's NX-OS: `ip access-list` and `ipv6 access-list`, with their object groups.

Source: Cisco Nexus 9000 Series NX-OS Security Configuration Guide, "Configuring IP ACLs"; its Command Reference,
"permit (IPv4)", "permit (IPv6)", "object-group ip address", "object-group ip port". Addresses have prefixes or wildcard
masks.
"""
from aclc_tools import cisco_groups, cisco_numbered, ios_words
from aclc_tools.cisco_entries import Dialect, addresses
from aclc_tools.cisco_words import PORTS, PROTOCOLS, Words, is_number
from aclc_tools.lists import CantSay

IP4 = {**{name: number for name, number in PROTOCOLS.items() if name not in ("ipinip", "igrp", "sctp")}, "ip": None}
IP6 = {**{name: PROTOCOLS[name] for name in ("ahp", "esp", "icmp", "pcp", "sctp", "tcp", "udp")}, "ipv6": None}
DIALECT = Dialect({4: IP4, 6: IP6}, PORTS, None, "addrgroup", "portgroup", True, False, {"log": 0})
KINDS = {("ip", "address"): cisco_numbered.ADDRESSES[4], ("ipv6", "address"): cisco_numbered.ADDRESSES[6],
         ("ip", "port"): cisco_numbered.PORTS}
KNOWN = ios_words.KNOWN | frozenset("""
bloggerd cfs cli copp evpn fabric fc-redirect feature feature-set fex forwarding hardware icam install itd keystore
level limit-resource ngoam nv nve nxapi nxsdk pktmgr port-profile rate-limiter role rollback slot ssh switchname
switching-mode tacacs+ terminal vdc vpc vsan vxlan
""".split())


def member(groups, kind, words, path):
    """What one line of a group holds; a number in the sequence may stand before it."""
    words = Words(words[1:] if is_number(words[0]) and len(words) > 1 else words)
    return cisco_numbered.member_of(words, kind, PORTS, network_member)


def network_member(words, family):
    """The addresses of a member: as in an entry, but for a group."""
    return addresses(words, family, DIALECT._replace(address_group=None), None)


class NumberedGroup(cisco_groups.Group):
    """A group, whose members may have numbers in a sequence."""

    def __init__(self, *words):
        super().__init__(*words)
        self.numbers = set()

    def add(self, number, text, words):
        """One more member."""
        if is_number(words[0]) and int(words[0]) in self.numbers:
            raise CantSay(f"the sequence number {words[0]} stands twice in the group {self.name}", number, text)
        self.numbers |= {int(words[0])} if is_number(words[0]) else set()
        super().add(number, text, words)


class Groups(cisco_numbered.Groups):
    """The groups, whose members may have numbers."""

    group_class = NumberedGroup


class Configuration(cisco_numbered.Configuration):
    """A configuration of NX-OS."""

    known = KNOWN
    families = {"ip": 4, "ipv6": 6}
    settings = ("match-local-traffic",)
    groups_class = Groups
    group_form = "object-group ip address NAME, object-group ipv6 address NAME or object-group ip port NAME"

    def group_of(self, words):
        """The kind of the group that a line begins, or None."""
        return KINDS.get(tuple(words[1:3])) if len(words) == 4 else None

    def passes(self, words):
        """Counters decide nothing."""
        return words == ["statistics", "per-entry"]


def convert(lines, options):
    """The chain of the list that is meant, its name, and its family."""
    end_permits = "four types of ICMP, which find neighbors and routers"
    return cisco_numbered.chain_of(Configuration(member), lines, options, DIALECT, end_permits)
