# SPDX-License-Identifier: BSD-3-Clause
"""The options of iptables' matches and targets, each with how many words follow it.

Source: the manual pages iptables(8) and iptables-extensions(8).
"""

SYNONYMS = {"--source": "-s", "--src": "-s", "--destination": "-d", "--dst": "-d", "--protocol": "-p", "--proto": "-p",
            "--in-interface": "-i", "--out-interface": "-o", "--fragment": "-f", "--jump": "-j", "--goto": "-g",
            "--match": "-m",
            "--source-port": "--sport", "--destination-port": "--dport", "--source-ports": "--sports",
            "--destination-ports": "--dports", "--set-counters": "-c"}


def table(text):
    """Options by name: a word for each, with a slash and how many words follow it where that isn't 1."""
    return {name: int(count or 1) for name, _, count in (word.partition("/") for word in text.split())}


BASE = table("-s -d -p -i -o -f/0 -j -g -m -c/2")
# What stands after `!` in no list.
NEVER_NEGATED = ("-j", "-g", "-m", "-c", "--comment")
PORTS = "--sport --dport"
MATCHES = {name: table(text) for name, text in {
    "tcp": f"{PORTS} --tcp-flags/2 --syn/0 --tcp-option", "udp": PORTS, "sctp": f"{PORTS} --chunk-types/2",
    "dccp": f"{PORTS} --dccp-types --dccp-option", "icmp": "--icmp-type", "icmp6": "--icmpv6-type",
    "ah": "--ahspi --ahres/0 --ahlen",
    "esp": "--espspi", "multiport": "--sports --dports --ports", "iprange": "--src-range --dst-range",
    "comment": "--comment",
    "addrtype": "--src-type --dst-type --limit-iface-in/0 --limit-iface-out/0", "state": "--state",
    "conntrack": "--ctstate --ctproto --ctorigsrc --ctorigdst --ctreplsrc --ctrepldst --ctorigsrcport --ctorigdstport "
                 "--ctreplsrcport --ctrepldstport --ctstatus --ctexpire --ctdir",
    "limit": "--limit --limit-burst", "mark": "--mark", "connmark": "--mark", "mac": "--mac-source",
    "length": "--length",
    "hashlimit": "--hashlimit-upto --hashlimit-above --hashlimit-burst --hashlimit-mode --hashlimit-name "
                 "--hashlimit-srcmask --hashlimit-dstmask --hashlimit-htable-size --hashlimit-htable-max "
                 "--hashlimit-htable-expire --hashlimit-htable-gcinterval --hashlimit-rate-match/0 "
                 "--hashlimit-rate-interval",
    "recent": "--name --set/0 --rcheck/0 --update/0 --remove/0 --seconds --hitcount --rttl/0 --rsource/0 --rdest/0 "
              "--mask --reap/0",
    "set": "--match-set/2 --return-nomatch/0 --update-counters/0 --update-subcounters/0",
    "ttl": "--ttl-eq --ttl-gt --ttl-lt",
    "hl": "--hl-eq --hl-gt --hl-lt", "tos": "--tos", "dscp": "--dscp --dscp-class", "pkttype": "--pkt-type",
    "owner": "--uid-owner --gid-owner --socket-exists/0 --suppl-groups/0", "helper": "--helper", "quota": "--quota",
    "physdev": "--physdev-in --physdev-out --physdev-is-in/0 --physdev-is-out/0 --physdev-is-bridged/0",
    "connlimit": "--connlimit-upto --connlimit-above --connlimit-mask --connlimit-saddr/0 --connlimit-daddr/0",
    "string": "--string --hex-string --algo --from --to --icase/0",
    "statistic": "--mode --probability --every --packet",
    "time": "--datestart --datestop --timestart --timestop --monthdays --weekdays --contiguous/0 --kerneltz/0",
    "policy": "--dir --pol --strict/0 --reqid --spi --proto --mode --tunnel-src --tunnel-dst --next/0",
    "tcpmss": "--mss",
    "rpfilter": "--loose/0 --validmark/0 --accept-local/0 --invert/0", "u32": "--u32",
    "socket": "--transparent/0 --nowildcard/0 --restore-skmark/0",
    "connbytes": "--connbytes --connbytes-dir --connbytes-mode"}.items()}
TARGETS = {name: table(text) for name, text in {
    "ACCEPT": "", "DROP": "", "RETURN": "", "REJECT": "--reject-with", "QUEUE": "", "TRACE": "", "NOTRACK": "",
    "LOG": "--log-level --log-prefix --log-tcp-sequence/0 --log-tcp-options/0 --log-ip-options/0 --log-uid/0 "
           "--log-macdecode/0",
    "NFLOG": "--nflog-group --nflog-prefix --nflog-range --nflog-size --nflog-threshold",
    "ULOG": "--ulog-nlgroup --ulog-prefix --ulog-cprange --ulog-qthreshold",
    "MARK": "--set-mark --set-xmark --and-mark --or-mark --xor-mark", "SECMARK": "--selctx",
    "CONNSECMARK": "--save/0 --restore/0",
    "CONNMARK": "--set-mark --set-xmark --and-mark --or-mark --xor-mark --save-mark/0 --restore-mark/0 --nfmask "
                "--ctmask --mask",
    "CLASSIFY": "--set-class", "AUDIT": "--type", "CHECKSUM": "--checksum-fill/0",
    "TCPMSS": "--set-mss --clamp-mss-to-pmtu/0",
    "CT": "--notrack/0 --helper --ctevents --expevents --zone --zone-orig --zone-reply --timeout",
    "SET": "--add-set/2 --del-set/2 --map-set/2 --exist/0 --timeout --map-mark/0 --map-prio/0 --map-queue/0",
    "LED": "--led-trigger-id --led-delay --led-always-blink/0",
    "RATEEST": "--rateest-name --rateest-interval --rateest-ewmalog",
    "TOS": "--set-tos --and-tos --or-tos --xor-tos", "DSCP": "--set-dscp --set-dscp-class",
    "TTL": "--ttl-set --ttl-dec --ttl-inc",
    "HL": "--hl-set --hl-dec --hl-inc", "NFQUEUE": "--queue-num --queue-balance --queue-bypass/0 --queue-cpu-fanout/0",
    "DNAT": "--to-destination --random/0 --persistent/0",
    "SNAT": "--to-source --random/0 --random-fully/0 --persistent/0",
    "MASQUERADE": "--to-ports --random/0 --random-fully/0", "REDIRECT": "--to-ports --random/0", "NETMAP": "--to",
    "TPROXY": "--on-port --on-ip --tproxy-mark",
    "SYNPROXY": "--mss --wscale --sack-perm/0 --timestamp/0 --ecn/0"}.items()}
# Targets after which the next rule decides.
PASSING = ("LOG", "NFLOG", "ULOG", "TRACE", "MARK", "CONNMARK", "SECMARK", "CONNSECMARK", "CLASSIFY", "AUDIT",
           "CHECKSUM", "TCPMSS",
           "NOTRACK", "CT", "SET", "LED", "RATEEST", "TOS", "DSCP", "TTL", "HL")
# Targets that change addresses.
CHANGING = ("DNAT", "SNAT", "MASQUERADE", "REDIRECT", "NETMAP")
# The matches that belong to a protocol, and are there without -m once it is named.
OF_PROTOCOL = {6: "tcp", 17: "udp", 132: "sctp", 33: "dccp", 1: "icmp", 58: "icmp6", 51: "ah", 50: "esp"}
# Matches of which at least one option has to be there.
NEEDING = ("multiport", "iprange", "comment", "icmp", "icmp6", "conntrack", "state", "addrtype")
MATCH_SYNONYMS = {"icmpv6": "icmp6"}
# What a match compares that no rule of aclc can.
REASONS = {"set": "members of a set that is kept elsewhere", "limit": "a rate", "hashlimit": "a rate",
           "recent": "packets before it",
           "mark": "a mark", "connmark": "a mark", "mac": "an address of Ethernet", "length": "a length",
           "ttl": "a lifetime",
           "hl": "a lifetime", "tos": "a mark of the header", "dscp": "a mark of the header", "owner": "a user",
           "time": "a time",
           "connlimit": "a number of connections", "string": "bytes of the payload", "u32": "bytes of the packet",
           "statistic": "a chance", "quota": "an amount", "physdev": "an interface of a bridge", "policy": "IPsec",
           "pkttype": "a type of frame", "conntrack": "state of a connection", "state": "state of a connection"}
OPTION_REASONS = {"--tcp-flags": "TCP flags", "--syn": "TCP flags", "--tcp-option": "TCP options",
                  "--icmp-type": "a type of ICMP",
                  "--icmpv6-type": "a type of ICMP", "--chunk-types": "chunks of SCTP", "-f": "fragments"}
