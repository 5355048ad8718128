# SPDX-License-Identifier: BSD-3-Clause
"""Access lists of Cisco's IOS XR: `ipv4 access-list` and `ipv6 access-list`, with their object groups.

Source: Cisco IOS XR IP Addresses and Services Command Reference, "permit (IPv4)", "permit (IPv6)", "object-group
network", "object-group port". Addresses of entries have prefixes or wildcard masks, and those of groups have prefixes.
"""
from aclc_tools import cisco_groups, cisco_lists, cisco_numbered, ios_words
from aclc_tools.cisco_entries import Dialect
from aclc_tools.cisco_words import PORTS, PROTOCOLS, Words, address_range, any_of, host, of_family, prefix

IP4 = {**PROTOCOLS, "ipv4": None}
IP6 = {**{name: PROTOCOLS[name] for name in ("ahp", "esp", "icmp", "pcp", "sctp", "tcp", "udp")}, "icmpv6": 58,
       "ipv6": None}
DIALECT = Dialect({4: IP4, 6: IP6}, PORTS, None, "net-group", "port-group", True, False,
                  {"log": 0, "log-input": 0, "counter": 1, "icmp-off": 0})
KNOWN = ios_words.KNOWN | frozenset("""
as-path-set bundle cef cinetd clear-policy community-set domain dhcp end-policy end-set explicit-path extcommunity-set
fpd frequency grpc group http ipsla ipv4 linux lpts multicast-routing nsr performance-mgmt policy-global prefix-set
rd-set route-policy segment-routing sflow ssh statistics svd taskgroup telnet tpa traps usergroup vty-pool xml
""".split())


def member(groups, kind, words, path):
    """What one line of a group holds."""
    if words[0] == "object-group" and len(words) == 2:
        return groups.value(words[1], (kind,), path)
    return cisco_numbered.member_of(Words(words), kind, PORTS, network_member)


def network_member(words, family):
    """The addresses of a member: a host, a range or a prefix."""
    word = words.next("an address")
    if word == "any":
        return any_of(family)
    if word in ("host", "range"):
        first = words.next("an address")
        of_family(first, family)
        return host(first) if word == "host" else address_range(first, words.next("an address"))
    of_family(word.partition("/")[0], family)
    return prefix(word)


class Configuration(cisco_numbered.Configuration):
    """A configuration of IOS XR."""

    known = KNOWN
    families = {"ipv4": 4, "ipv6": 6}
    settings = ("log-update", "maximum")
    group_form = "object-group network ipv4 NAME, object-group network ipv6 NAME or object-group port NAME"

    def begins_group(self, words):
        """In a group, `object-group NAME` is a member; a line that begins a group has more words."""
        return words[:1] == ["object-group"] and not (isinstance(self.open, cisco_groups.Group) and len(words) == 2)

    def group_of(self, words):
        """The kind of the group that a line begins, or None."""
        if words[1:2] == ["port"] and len(words) == 3:
            return cisco_numbered.PORTS
        families = {"ipv4": 4, "ipv6": 6}
        if words[1:2] == ["network"] and len(words) == 4 and words[2] in families:
            return cisco_numbered.ADDRESSES[families[words[2]]]
        return None

    def comment(self, text):
        """A line of an exclamation mark alone, without blanks before it, ends a list or a group."""
        if text.rstrip() == "!":
            self.open = cisco_lists.OUTSIDE


def convert(lines, options):
    """The chain of the list that is meant, its name, and its family."""
    return cisco_numbered.chain_of(Configuration(member), lines, options, DIALECT,
                                   "two types of ICMP, which find neighbors")
