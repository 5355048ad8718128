# SPDX-License-Identifier: BSD-3-Clause
"""The words of Cisco's ASA: its names of protocols and ports, and what begins the parts of its configuration.

Source: Cisco ASA Series General Operations CLI Guide, "Addresses, Protocols, and Ports". Its page and its devices
differ on the port `sqlnet`, so that name is refused.
"""
from aclc_tools import cisco_words
from aclc_tools.cisco_words import any_of

ANY = {"any": any_of(4, 6), "any4": any_of(4), "any6": any_of(6)}
PROTOCOLS = {"ah": 51, "ahp": 51, "eigrp": 88, "esp": 50, "gre": 47, "icmp": 1, "icmp6": 58, "igmp": 2, "igrp": 9,
             "ip": None, "ipinip": 4, "ipsec": 50, "nos": 94, "ospf": 89, "pcp": 108, "pim": 103, "pptp": 47,
             "sctp": 132, "snp": 109, "tcp": 6, "udp": 17}
PORTS = {**{name: number for name, number in cisco_words.PORTS.items()
            if name not in ("drip", "ldp", "msrpc", "netbios-ss", "non500-isakmp")},
         "aol": 5190, "cifs": 3020, "citrix-ica": 1494, "ctiqbe": 2748, "h323": 1720, "http": 80, "https": 443,
         "imap4": 143, "kerberos": 750, "ldap": 389, "ldaps": 636, "lotusnotes": 1352, "netbios-ssn": 139, "nfs": 2049,
         "pcanywhere-data": 5631, "pcanywhere-status": 5632, "pptp": 1723, "radius": 1645, "radius-acct": 1646,
         "rsh": 514, "rtsp": 554, "secureid-udp": 5510, "sip": 5060, "vxlan": 4789}
# Groups of ports, by their kind, with the protocols that they are for.
PORTED_BY = {"object-group service tcp": ((6, 6),), "object-group service udp": ((17, 17),),
             "object-group service tcp-udp": ((6, 6), (17, 17))}
KNOWN = frozenset("""
aaa aaa-server access-group arp asdm asp auth-prompt banner boot call-home checkheaps class-map client-update clock
cluster command-alias compression configure console coredump crashinfo crypto ctl-file ctl-provider cts ddns dhcp
dhcp-client dhcpd dhcprelay dns dns-group dns-guard dynamic-access-policy-record dynamic-filter email enable eou
established event failover filter firewall fixup flow-export flow-offload fragment ftp ftp-map global group-policy
gtp-map hostname hpm http hw-module icmp igmp imap4s interface ip ipv6 isakmp jumbo-frame key lacp ldap license
logging mac-address mac-address-table mac-list management-access media-termination mgcp-map monitor-interface mount
mroute mtu multicast-routing nac-policy name names nat nat-control ntp nve object-group-search pager passwd password
phone-proxy pim policy-list policy-map pop3s port-channel prefix-list priority-queue privilege prompt quota regex rip
route route-map router same-security-traffic scansafe service service-interface service-policy shun sip-map sla
smart-tunnel smtp-server smtps snmp snmp-map snmp-server ssh ssl static sunrpc-server sysopt tcp-map telnet terminal
tftp-server threat-detection time-range timeout tls-proxy track tunnel-group tunnel-group-map uc-ime url-block
url-cache url-server user-identity user-statistics username virtual vpdn vpn vpn-addr-assign vpn-sessiondb vpnclient
wccp webvpn xlate zone zonelabs-integrity
""".split())
