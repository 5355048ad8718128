# SPDX-License-Identifier: BSD-3-Clause
"""Mistakes that people make, each with what the program says of it.

The first text of a row stands in docs/MISTAKES.md under the message. RULES are lines of a rule file after a lawful one,
CAPTURES the bytes of a capture, WORDS the words of a command, IMAGES a change of an image, and REPLIES lines
of a script.
"""
import struct

from aclc_tools import blocks, capture, keys, packet_words

GUIDE = b"@192.168.1.0/24 192.168.2.31/32 0:65535 1234:1234 0x11/0xFF\n"
NETWORKS = b"@10.0.0.0/8 0.0.0.0/0 "
LINE = NETWORKS + b"0:65535 80:80 6/0xFF"

RULES = [
    ("bad start", "the two names are swapped", capture.write([bytes(60)])[:40], "capture second"),
    ("bad start", "the file is compressed", b"\x1f\x8b\x08\x00rules", "gunzip"),
    ("bad start", "the file is an image", b"ACLT" + bytes(60), "This is an image"),
    ("bad start", "a byte order mark stands first", b"\xef\xbb\xbf" + LINE, "byte order mark"),
    ("bad start", "the text is UTF-16", LINE.decode().encode("utf-16"), "UTF-8"),
    ("bad start", "it is a list of iptables", b"*filter", "aclc convert"),
    ("bad start", "it is a list of another firewall", b"permit tcp any any eq 80", "aclc convert cisco"),
    ("bad start", "the @ is missing", LINE[1:], "begins with @"),
    ("bad start", "a comment begins with //", b"// web servers", "A comment begins with #"),
    ("bad address", "`any` in place of a network", b"@any 0.0.0.0/0 0:65535 80:80 6/0xFF", "0.0.0.0/0"),
    ("bad start", "columns of CSV", LINE[1:].replace(b" ", b","), "blanks stand between"),
    ("bad address", "a number of the address is missing", b"@10.0.0/8 0.0.0.0/0 0:65535 80:80 6/0xFF", "four numbers"),
    ("bad address", "a number is above 255", b"@10.0.0.256/32 0.0.0.0/0 0:65535 80:80 6/0xFF", "at most 255"),
    ("bad address", "the name of a host", b"@server/32 0.0.0.0/0 0:65535 80:80 6/0xFF", "names aren't looked up"),
    ("bad address", "a negation", b"@!10.0.0.0/8 0.0.0.0/0 0:65535 80:80 6/0xFF", "no negation"),
    ("bad address", "a second @", b"@10.0.0.0/8 @0.0.0.0/0 0:65535 80:80 6/0xFF", "Only the source"),
    ("bad address", "brackets around an IPv6 address", b"@[2001:db8::1]/128 ::/0 0:65535 80:80 6/0xFF",
     "without brackets"),
    ("bad address", "a zone", b"@fe80::1%eth0/64 ::/0 0:65535 80:80 6/0xFF", "no zone"),
    ("bad address", "a range of addresses", b"@10.0.0.1-10.0.0.9 0.0.0.0/0 0:65535 80:80 6/0xFF", "one rule for each"),
    ("bad address", "the destination is missing", b"@10.0.0.0/8", "The line ends"),
    ("bad prefix", "a host without its prefix length", b"@10.0.0.1 0.0.0.0/0 0:65535 80:80 6/0xFF", "10.0.0.1/32"),
    ("bad prefix", "a mask in place of the prefix length", b"@10.0.0.0/255.0.0.0 0.0.0.0/0 0:65535 80:80 6/0xFF",
     "10.0.0.0/8"),
    ("bad prefix", "a wildcard mask", b"@10.0.0.0/0.255.255.255 0.0.0.0/0 0:65535 80:80 6/0xFF", "10.0.0.0/8"),
    ("bad prefix", "more bits than the address has", b"@10.0.0.0/33 0.0.0.0/0 0:65535 80:80 6/0xFF", "at most 32"),
    ("bad prefix", "two networks, or the columns of CSV, with a comma between them",
     b"@10.0.0.0/8,192.168.0.0/16 0.0.0.0/0 0:65535 80:80 6/0xFF", "a rule for each network"),
    ("bad prefix", "two networks, or the columns of CSV, with a comma between them",
     b"@" + LINE[1:].replace(b" ", b","),
     "blanks between columns"),
    ("bad prefix", "a no-break space or another character that only looks like a blank",
     NETWORKS.replace(b"8 ", b"8\xc2\xa0"), "no-break"),
    ("mixed families", "anywhere of the other family", b"@10.0.0.0/8 ::/0 0:65535 80:80 6/0xFF",
     "both IPv4 or both IPv6"),
    ("bad ports", "a dash in place of the colon", NETWORKS + b"0:65535 80-90 6/0xFF", "80 : 90"),
    ("bad ports", "the name of a service", NETWORKS + b"0:65535 http 6/0xFF", "80 : 80"),
    ("bad ports", "`any` in place of ports", NETWORKS + b"any 80:80 6/0xFF", "0 : 65535"),
    ("bad ports", "a list of ports", NETWORKS + b"0:65535 80,443 6/0xFF", "a rule for each"),
    ("bad ports", "one port written once", NETWORKS + b"0:65535 80 6/0xFF",
     "Two ranges of ports|written twice|come before the protocol"),
    ("bad ports", "no ports at all", NETWORKS + b"6/0xFF", "come before the protocol"),
    ("bad ports", "a port above 65535", NETWORKS + b"0:65536 80:80 6/0xFF", "at most 65535"),
    ("bad ports", "a range without its upper end", NETWORKS + b"1024: tcp 6/0xFF", "two ranges|Two ranges|upper end"),
    ("empty range", "the ends are turned round", NETWORKS + b"0:65535 90:80 6/0xFF", "80 : 90"),
    ("bad protocol", "the name of a protocol", NETWORKS + b"0:65535 80:80 tcp", "6/0xFF"),
    ("bad protocol", "a number without its mask", NETWORKS + b"0:65535 80:80 6", "6/0xFF"),
    ("bad protocol", "a number or mask above 255", NETWORKS + b"0:65535 80:80 6/0x1FF", "at most 255"),
    ("bad protocol", "the line ends after the ports", NETWORKS + b"0:65535 80:80", "The line ends"),
    ("bad protocol", "lines that end with CR alone", LINE + b"\r@11.0.0.0/8 0.0.0.0/0 0:65535 80:80 6/0xFF\r",
     "CR alone"),
    ("bad flags", "a flag by its name, or a number above 65535", LINE + b" SYN/SYN", "at most 65535"),
    ("bad attribute", "a name or another attribute that rules don't have", LINE + b" name=web", "pri=, cat= and data="),
    ("bad attribute", "a priority from 2147483648 on", LINE + b" pri=2147483648", "at most 536870911"),
    ("bad attribute", "a negative priority", LINE + b" pri=-1", "without a sign"),
    ("bad attribute", "an attribute twice", LINE + b" pri=5 pri=6", "given before"),
    ("bad attribute", "no number after the sign", LINE + b" data=", "stands right after"),
    ("bad attribute", "a word as userdata, as in `data=permit`, or a number from 2^32 on",
     LINE + b" data=permit", "below 2\\^32, .*1 for permit"),
    ("bad attribute", "a word as userdata, as in `data=permit`, or a number from 2^32 on",
     LINE + b" data=99999999999", "below 2\\^32"),
    ("tail left", "a comment after a rule", LINE + b" # web", "line of its own"),
    ("tail left", "`accept` or another action", LINE + b" accept", "attributes alone"),
    ("tail left", "blanks around the sign", LINE + b" pri = 5", "without blanks"),
    ("no category", "`cat=0`", LINE + b" cat=0", "decide nothing"),
    ("no category", "bits above the 16 alone, as `cat=0x10000`", LINE + b" cat=0x10000", "decide nothing"),
    ("priority range", "a priority above 536870911", LINE + b" pri=600000000", "at most 536870911"),
]

FRAME = capture.write([bytes(60)])
BLOCKS = blocks.write([bytes(60)])
CAPTURES = [
    ("record 0: header cut", "nothing was captured yet", b"", "is empty"),
    ("record 0: header cut", "a file of fewer than 24 bytes", FRAME[:20], "ends within its header"),
    ("record 0: magic", "a text, such as the lines that tcpdump prints",
     b"12:00:00.000000 IP 10.0.0.5.4000 > 10.1.0.1.443: tcp 0\n", "It is a text"),
    ("record 0: magic", "a file of snoop", b"snoop\0\0\0" + bytes(60), "snoop file"),
    ("record 0: magic", "the capture is compressed", b"\x1f\x8b\x08\x08" + bytes(40), "gunzip"),
    ("record 0: magic", "a rule file in place of the capture", GUIDE, "rule file"),
    ("record 0: version", "another version", FRAME[:6] + b"\5" + FRAME[7:], "only 2.4"),
    ("record 0: link type", "wireless frames, or a loopback of BSD", FRAME[:20] + b"\x69" + FRAME[21:], "802.11"),
    ("record 1: cut", "the capture is still being written", FRAME[:-1], "still being written"),
    ("record 1: block cut", "the capture is still being written", BLOCKS[:-1], "still being written"),
    ("record 1: block length", "the file is damaged", BLOCKS[:-4] + bytes(4), "damaged"),
    ("record 1: byte order", "the file is damaged", BLOCKS[:8] + bytes(4) + BLOCKS[12:], "damaged"),
    ("record 1: section version", "another version", BLOCKS[:12] + b"\2" + BLOCKS[13:], "only 1"),
    ("record 1: no interface", "packets before their interface", BLOCKS[:28] + BLOCKS[48:], "interface 0"),
    ("record 1: interface link type", "wireless frames, or a loopback of BSD", blocks.write([bytes(60)], 105),
     "802.11"),
    ("record 1: too many interfaces", "more than 1,024 interfaces in a section", BLOCKS[:28] + BLOCKS[28:48] * 1025,
     "1024"),
    ("record 1: too long", "the file is damaged", FRAME[:32] + b"\xff\xff\xff\xff" + FRAME[36:], "damaged"),
]

R, C = "guide.rules", "guide.pcap"
WORDS = [
    ("word 1: missing command", "no words at all", []),
    ("word 1: unknown command", "a word that is no command, as `prove`", ["prove"]),
    ("word 1: unknown command", "a word more after `--help`, `-h` or `--version`", ["--help", "x"]),
    ("word 1: unknown command", "a word more after `--help`, `-h` or `--version`", ["--version", "x"]),
    ("word 3: missing name", "the capture isn't named", ["classify", R]),
    ("word 3: missing name", "a name of `build`, `compare`, `audit` or `session` is missing", ["build", R]),
    ("word 3: missing name", "a name of `build`, `compare`, `audit` or `session` is missing", ["compare", R]),
    ("word 2: missing name", "a name of `build`, `compare`, `audit` or `session` is missing", ["audit"]),
    ("word 2: missing name", "a name of `build`, `compare`, `audit` or `session` is missing", ["session"]),
    ("word 4: unknown option", "an option before the names", ["classify", "stats=on", R, C]),
    ("word 4: unknown option", "dashes before an option", ["classify", R, C, "--stats"]),
    ("word 4: unknown option", "capitals, as in `STATS=on`", ["classify", R, C, "STATS=on"]),
    ("word 4: unknown option", "a third file", ["classify", R, C, C]),
    ("word 4: unknown option", "a blank in a name that isn't quoted", ["classify", "my", "list.rules", C]),
    ("word 4: unknown option", "blanks around the sign, as in `stats = on`", ["classify", R, C, "stats", "=", "on"]),
    ("word 3: unknown option", "`walk=`, `stats=` or `marks=` for `audit`", ["audit", R, "walk=lanes"]),
    ("word 3: unknown option", "`walk=`, `stats=` or `marks=` for `audit`", ["audit", R, "stats=on"]),
    ("word 3: unknown option", "`walk=`, `stats=` or `marks=` for `audit`", ["audit", R, "marks=on"]),
    ("word 4: unknown option", "`categories=` for `compare`", ["compare", R, R, "categories=16"]),
    ("word 4: bad value", "`stats=yes`", ["classify", R, C, "stats=yes"]),
    ("word 4: bad value", "`categories=2`", ["classify", R, C, "categories=2"]),
    ("word 4: bad value", "`walk=simd`", ["classify", R, C, "walk=simd"]),
    ("word 4: bad value", "`max-words=0`", ["classify", R, C, "max-words=0"]),
    ("word 2: bad value", "a word of `bench` that is no number", ["bench", "x", "10", "10"]),
    ("word 4: bad value", "a word of `bench` that is no number", ["bench", "42", "10", "1e3"]),
    ("word 4: bad value", "`max-words=16M`", ["classify", R, C, "max-words=16M"]),
    ("word 5: repeated option", "an option twice", ["classify", R, C, "stats=on", "stats=on"]),
    ("word 3: bad value", "more than 1,024 rules for `bench`", ["bench", "42", "2000", "10"]),
    ("word 4: unknown option", "`max-words=` for `replay`", ["replay", "r.image", C, "max-words=15"]),
]
FILES = [
    ("read fault", "a file that isn't there", ["classify", R, "none.pcap"]),
    ("read fault", "a folder in place of a file", ["classify", ".", C]),
    ("read fault", "`-` for standard input", ["classify", R, "-"]),
]
# A file that may not be read, where the tests aren't run by the administrator.
CLOSED = "a file that you may not read"
# Rule files that are too large, each as a line and how often it stands there.
LARGE = [("file too long", "more than 16,777,216 bytes", b"#" * 1023 + b"\n", 16385),
         ("too many rules", "more than 262,144 rules", b"@::/0 ::/0 0:0 0:0 0/0\n", 262145)]

# Images that are changed: the place of a byte and its new value, or what stands after or misses at the end.
CHANGED, WHOLE = "`family`, `too many`, `unsound`, `row form`, `kept groups`", "office.rules"
IMAGES = [("byte 0: magic", "`magic`", (0, 0)), ("byte 4: version", "`version`", (4, 255)), ("length", "`length`", -1),
          ("trailing", "`trailing`", 1),
          ("byte 8: family", CHANGED, (8, 255)), ("byte 12: too many", CHANGED, (12, 255)),
          ("unsound", CHANGED, (7, 1)),
          ("row form", CHANGED, (15, 0)), ("byte 24: kept groups", CHANGED, (24, 255))]

# Lines of a script, and the reply to the last one.
FIELDS = ["field bits 1 0 0", "field range 2 1 1", "field range 2 1 3"]
READY = FIELDS + ["context 5", "rule 1 1 7 0&0 0:9 0:9"]
REPLIES = [("`bad line`: a blank within a value, as in `0 : 65535`",
            FIELDS + ["context 5", "rule 1 1 7 0&0 0 : 65535 0:9"], "bad line"),
           ("`bad line`: an odd number of digits in `classify`, or `0x` before them",
            READY + ["build 1000", "classify 1 00000"], "bad line"),
           ("`bad line`: an odd number of digits in `classify`, or `0x` before them",
            READY + ["build 1000", "classify 1 0x0000000000"], "bad line"),
           ("`bad line`: a comment after a call", READY + ["build 1000 # now"], "bad line"),
           ("`refused layout 4`", ["field bits 2 0 0", "context 5"], "refused layout 4"),
           ("`refused layout 5 F`", ["field bits 1 0 0", "field bits 4 2 1", "context 5"], "refused layout 5 1"),
           ("`refused layout 6 F`", ["field bits 1 0 0", "field range 2 1 1", "context 5"], "refused layout 6 1"),
           ("`refused no context`", ["field bits 2 0 0", "context 5", "build 1000"], "refused no context"),
           ("`refused rule 1`", FIELDS + ["context 5", "rule 1 1 7 0&0 0:9"], "refused rule 1"),
           ("`refused rule 2 F`", FIELDS + ["context 5", "rule 1 1 7 0&0 0/9 0:9"], "refused rule 2 1"),
           ("`refused words W budget B`", READY + ["build 1"], r"refused words \d+ budget 1"),
           ("`refused not built`", READY + ["classify 1 0000000000"], "refused not built"),
           ("`refused short buffer`", READY + ["build 1000", "classify 1 00000000"], "refused short buffer")]
ALL_BAD = "`bad line` for each line"

# Lawful rule files that are likely mistakes, and what aclc check says of them.
WARNED = [
    ("bits of `cat=` above the 16", LINE + b" cat=0x10001", "low 16 bits"),
    ("bits after the prefix", b"@10.0.0.1/8 0.0.0.0/0 0:65535 80:80 6/0xFF", "this is 10.0.0.0/8"),
    ("flags", LINE + b" 0x0200/0x0200", "Flags are ignored"),
    ("a protocol whose mask is 0", NETWORKS + b"0:65535 80:80 6/0", "any protocol matches"),
    ("ports of a protocol that has none", NETWORKS + b"0:65535 80:80 1/0xFF", "can't match"),
    ("userdata 0", LINE + b" data=0", "marks=on"),
    ("a number with a 0 before it, as in `010.0.0.0/8`", b"@010.0.0.0/8 0.0.0.0/0 0:65535 80:80 6/0xFF",
     "this is 10.0.0.0/8"),
    ("a list without rules", b"# nothing yet", "no rule"),
    ("a comment whose line ends with CR alone", b"# web\r" + LINE, "what follows it is a comment"),
    ("a rule after one that matches as much", NETWORKS + b"0:65535 0:65535 0/0\n" + LINE, "never decides"),
    ("`pri=` on some rules alone", LINE + b" pri=9\n" + NETWORKS + b"0:65535 0:65535 0/0", "above this one"),
    ("`pri=` that rises from line to line", LINE + b" pri=1\n" + NETWORKS + b"0:65535 90:90 6/0xFF pri=2",
     "from the last one to the first"),
]
# Runs that end with other messages: what the program says, its exit code, the row, and the words.
OTHERS = [
    # So many words as it says are too few again.
    ("ip4 table too large: words 67 budget 16", 4, None, ["classify", "office.rules", "office.pcap", "max-words=16"]),
    (r"ip4 table too large: words \d{3} budget 67", 4, None,
     ["classify", "office.rules", "office.pcap", "max-words=67"]),
    ("ip4 table too large: words 21 budget 20", 4, None, ["audit", "office.rules", "max-words=20"]),
    ("ip4 table too large: words 21 budget 20", 4, None,
     ["compare", "office.rules", "office.rules", "max-words=20"]),
    ("second rules: line 1: bad start", 12, "`aclc: second rules: line N: KIND`, exit code 12",
     ["compare", R, C]),
    ("write fault", 8, "`aclc: write fault`, exit code 8", ["build", R, "."]),
    ("write fault", 8, "`aclc: write fault`, exit code 8", ["build", R, "none/r.image"])]
# Rows that tests of their own try: those below, and the script ./aclc.
LONG, MANY = "`aclc: script: too long`, exit code 10", "`aclc: compare: too many rules`, exit code 11"
MEMORY, NAME, STACK = "`aclc: out of memory`, exit code 9", "exit code 1 and no message", "a crash without a message"
SCRIPT = "exit code 101 from `./aclc`"
BUILT_OVER = "a rule file is full of odd bytes after `build`"

# Answers that surprise: the rules, the frames or none, the words of the command after the names, and what is printed.
TCP = packet_words.typed("tcp 10.0.0.5:4000 -> 10.1.0.1:80")
IP6 = packet_words.typed("tcp [2001:db8::1]:4000 -> [2001:db8::2]:80")


def fragment():
    """A later fragment of a packet."""
    frame = bytearray(keys.frame(TCP))
    frame[20:22] = struct.pack(">H", 1)
    return bytes(frame)


SURPRISES = [("`audit` says `never` of a rule that is needed", LINE + b" cat=2", None, [], b"ip4 rule 1 data 1 never"),
             ("`audit` says `never` of a rule that is needed", LINE + b" cat=2", None, ["categories=16"],
              b"ip4 rule 1 data 1 wins 1"),
             ("all answers are 0", LINE, [keys.frame(IP6)], [], b"1 ip6 0"),
             ("all answers are 0", LINE.replace(b"80:80", b"81:81"), [keys.frame(TCP)], [], b"1 ip4 0"),
             ("many `short`", LINE, [keys.frame(TCP)[:30]], [], b"1 short -"),
             ("many `other`", LINE, [bytes(12) + b"\x08\x06" + bytes(28)], [], b"1 other -"),
             ("later fragments match rules of port 0 alone", LINE + b"\n" + NETWORKS + b"0:0 0:0 6/0xFF", [fragment()],
              [], b"1 ip4 2")]
ORDER, NO_PACKET, SIMPLE = ("`compare` says `differ` of the same rules in another order",
                            "`packet_of_key` says that no packet has the key",
                            "`packets 0` of a pcapng file that has packets")
