# SPDX-License-Identifier: BSD-3-Clause
"""Names of protocols and ports, as the lists of other programs write them.

SYSTEM has the names of the protocols database, which a test compares with the system's own file.
"""

SYSTEM = {"ip": 0, "hopopt": 0, "icmp": 1, "igmp": 2, "ggp": 3, "ipencap": 4, "st": 5, "tcp": 6, "egp": 8, "igp": 9,
          "pup": 12,
          "udp": 17, "hmp": 20, "xns-idp": 22, "rdp": 27, "iso-tp4": 29, "dccp": 33, "xtp": 36, "ddp": 37,
          "idpr-cmtp": 38,
          "ipv6": 41, "ipv6-route": 43, "ipv6-frag": 44, "idrp": 45, "rsvp": 46, "gre": 47, "esp": 50, "ah": 51,
          "skip": 57,
          "ipv6-icmp": 58, "ipv6-nonxt": 59, "ipv6-opts": 60, "rspf": 73, "vmtp": 81, "eigrp": 88, "ospf": 89,
          "ax.25": 93,
          "ipip": 94, "etherip": 97, "encap": 98, "pim": 103, "ipcomp": 108, "vrrp": 112, "l2tp": 115, "isis": 124,
          "sctp": 132,
          "fc": 133, "mobility-header": 135, "udplite": 136, "mpls-in-ip": 137, "manet": 138, "hip": 139, "shim6": 140,
          "wesp": 141, "rohc": 142, "ethernet": 143}
# Names of iptables, ip6tables and nft that the database hasn't.
FIREWALL = {"icmpv6": 58, "ipv6-mh": 135, "mh": 135}
# Names in lists of routers that the database hasn't.
ROUTERS = {"ipinip": 4, "igrp": 9, "ahp": 51, "icmp6": 58, "nos": 94, "pcp": 108}
# The names that Cisco's IOS writes for ports.
PORTS = {"bgp": 179, "biff": 512, "bootpc": 68, "bootps": 67, "chargen": 19, "cmd": 514, "daytime": 13, "discard": 9,
         "dnsix": 195,
         "domain": 53, "drip": 3949, "echo": 7, "exec": 512, "finger": 79, "ftp": 21, "ftp-data": 20, "gopher": 70,
         "hostname": 101,
         "ident": 113, "irc": 194, "isakmp": 500, "klogin": 543, "kshell": 544, "login": 513, "lpd": 515,
         "mobile-ip": 434,
         "nameserver": 42, "netbios-dgm": 138, "netbios-ns": 137, "netbios-ss": 139, "nntp": 119, "non500-isakmp": 4500,
         "ntp": 123,
         "pim-auto-rp": 496, "pop2": 109, "pop3": 110, "rip": 520, "smtp": 25, "snmp": 161, "snmptrap": 162, "ssh": 22,
         "sunrpc": 111,
         "syslog": 514, "tacacs": 49, "talk": 517, "telnet": 23, "tftp": 69, "time": 37, "uucp": 540, "who": 513,
         "whois": 43,
         "www": 80, "xdmcp": 177}
# Names of the services database for ports of TCP, which a test compares with the system's own file.
SERVICES = {"domain": 53, "http": 80, "https": 443, "imaps": 993, "kerberos": 88, "ldap": 389, "ldaps": 636,
            "pop3s": 995,
            "rsync": 873, "smtp": 25, "ssh": 22, "sunrpc": 111, "telnet": 23}


def number_of(text, tables):
    """The number of a protocol by its number, or by its name in one of the tables, or None."""
    if text.isascii() and text.isdigit():
        digits = text.lstrip("0") or "0"
        return int(digits) if len(digits) < 4 and int(digits) < 256 else None
    return next((table[text.lower()] for table in tables if text.lower() in table), None)


def protocol(text):
    """The number of a protocol by its name or number, or None."""
    return number_of(text, (ROUTERS, SYSTEM, FIREWALL))


def firewall_protocol(text):
    """The same by the names that iptables, ip6tables and nft know; a number with a zero before it is octal there."""
    if text.startswith("0") and text != "0":
        return None
    return number_of(text, (SYSTEM, FIREWALL))
