# SPDX-License-Identifier: BSD-3-Clause
"""What surrounds access lists in a configuration of IOS: the words that begin its other parts, banners and macros.

Source: Cisco IOS Master Command List, commands of the global configuration mode.
"""
import re

from aclc_tools.lists import CantSay

KNOWN = frozenset("""
aaa access-session alias archive arp authentication banner bba-group bfd boot boot-end-marker boot-start-marker bridge
buffers call call-home card cdp class-map clns clock config-register control-plane controller crypto cts
device-tracking diagnostic dial-peer dialer dialer-list dot11 dot1x dspfarm enable epm errdisable ethernet event
exception facility-alarm flow frame-relay ftp-server hostname hw-module identity interface ip ipc ipv6 ipx isdn
kerberos key kron l2 l2tp-class l2vpn lacp ldap license line lldp logging login mab mac mac-address-table macro
map-class map-list memory memory-size mls modemcap monitor mpls multilink netconf netconf-yang network-clock
network-policy ntp onep parameter-map parser pcep platform policy-map port-channel power privilege process prompt
pseudowire-class ptp qos queue-list radius radius-server redundancy restconf rmon route-map router rtr sampler
scheduler sdm security service service-template shell sip-ua snmp snmp-server software spanning-tree stackwise standby
subscriber switch system tacacs tacacs-server telemetry template tftp-server time-range track transceiver tunnel udld
upgrade username version virtual-service virtual-template vlan voice voice-port vpdn vpdn-group vrf vtp wireless wlan
wsma x25 zone zone-pair
""".split())
# The kinds of banners, and the mark with what follows it.
BEGINS_BANNER = re.compile(r"\s*banner\s+(?:exec|incoming|login|motd|prompt-timeout|slip-ppp|config-save|text)\s+"
                           r"(\^C|\S)(.*)")
# A line of a banner that looks like one of a list.
OF_A_LIST = re.compile(r"\s*((sequence )?[0-9]+ )?(permit|deny|(no |ip |ipv6 )*access-list|object-group)\b")


class Banner:
    """A banner or a macro that has begun: it goes on to its mark."""

    def __init__(self, what, mark, number, text):
        self.what, self.mark, self.number, self.text = what, mark, number, text

    def after(self, number, text):
        """What goes on after a line, or None where it ends."""
        if OF_A_LIST.match(text):
            raise CantSay(f"the line stands in the {self.what} of line {self.number}, and looks like one of a list",
                          number, text)
        return None if self.mark in text else self


def banner_of(number, text):
    """The banner that a line begins and doesn't end, or a macro, or None."""
    if re.match(r"\s*macro\s+name\s+\S", text):
        return Banner("macro", "@", number, text)
    found = BEGINS_BANNER.match(text)
    return Banner("banner", found.group(1), number, text) if found and found.group(1) not in found.group(2) else None
