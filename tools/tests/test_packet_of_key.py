# SPDX-License-Identifier: BSD-3-Clause
"""examples/packet_of_key: what it tells of keys, and that the program reads the same key from the capture that it writes."""
import subprocess
import tempfile
import unittest
from pathlib import Path

from aclc_tools.program import TOP, built_program, run

TOOL = TOP / "examples" / "packet_of_key"
WIDE = "20010db8" + "00" * 11 + "01" + "fe80" + "00" * 13 + "02"
FIELDS = "source 2001:db8::1 destination fe80::2"

# A key, what is told of it, and the rule that has this key alone.
KEYS = (
    ("0" * 26, "ip4 protocol 0 source 0.0.0.0 destination 0.0.0.0 ports 0 0", "@0.0.0.0/32 0.0.0.0/32 0:0 0:0 0/0xFF"),
    ("060a000001c0a80101003500ff", "ip4 protocol 6 (TCP) source 10.0.0.1 destination 192.168.1.1 ports 53 255",
     "@10.0.0.1/32 192.168.1.1/32 53:53 255:255 6/0xFF"),
    ("11" + "ff" * 12, "ip4 protocol 17 (UDP) source 255.255.255.255 destination 255.255.255.255 ports 65535 65535",
     "@255.255.255.255/32 255.255.255.255/32 65535:65535 65535:65535 17/0xFF"),
    ("84" + "00" * 8 + "00010002", "ip4 protocol 132 (SCTP) source 0.0.0.0 destination 0.0.0.0 ports 1 2",
     "@0.0.0.0/32 0.0.0.0/32 1:1 2:2 132/0xFF"),
    ("11" + WIDE + "00010002", f"ip6 protocol 17 (UDP) {FIELDS} ports 1 2", "@2001:db8::1/128 fe80::2/128 1:1 2:2 17/0xFF"),
    ("3a" + WIDE + "00000000", f"ip6 protocol 58 {FIELDS} ports 0 0", "@2001:db8::1/128 fe80::2/128 0:0 0:0 58/0xFF"),
    ("00" + WIDE + "00000000", f"ip6 protocol 0 {FIELDS} ports 0 0", "@2001:db8::1/128 fe80::2/128 0:0 0:0 0/0xFF"),
    ("2c" + WIDE + "00000000", f"ip6 protocol 44 {FIELDS} ports 0 0", "@2001:db8::1/128 fe80::2/128 0:0 0:0 44/0xFF"),
)

# What isn't written: words, the exit code, and a part of the message.
REFUSED = (
    (("00" * 9 + "00000050",), 1, "no packet has this key: protocol 0 has no ports"),
    (("3a" + WIDE + "00010000",), 1, "protocol 58 has no ports"),
    (("00",), 2, "26 hexadecimal digits"),
    (("key",), 2, "26 hexadecimal digits"),
    ((), 2, "give a key"),
)


def packet_of_key(*words):
    done = subprocess.run([str(TOOL), *map(str, words)], stdout=subprocess.PIPE, stderr=subprocess.PIPE, text=True)
    return done.returncode, done.stdout.strip(), done.stderr


class PacketOfKey(unittest.TestCase):
    def test_each_field_is_told(self):
        for key, told, _ in KEYS:
            self.assertEqual(packet_of_key(key), (0, told, ""))

    def test_what_is_no_key_of_a_packet_is_refused(self):
        for words, code, message in REFUSED:
            got, _, said = packet_of_key(*words)
            self.assertEqual(got, code)
            self.assertIn(message, said)

    def test_a_capture_that_cannot_be_written_is_told_alone(self):
        code, told, said = packet_of_key(KEYS[1][0], "/nosuch/x.pcap")
        self.assertEqual((code, told, said), (8, "", "packet_of_key: /nosuch/x.pcap: No such file or directory\n"))

    def test_help_is_told(self):
        code, told, said = packet_of_key("--help")
        self.assertEqual((code, said), (0, ""))
        self.assertIn("packet_of_key KEY [CAPTURE]", told)

    @unittest.skipUnless(built_program(), "the program isn't built")
    def test_the_program_reads_the_key_back(self):
        with tempfile.TemporaryDirectory() as folder:
            rules, packet = Path(folder) / "rules", Path(folder) / "packet.pcap"
            for key, told, rule in KEYS:
                rules.write_text(f"{rule} data=7\n")
                self.assertEqual(packet_of_key(key, packet)[0], 0)
                lines = run("classify", rules, packet, path=built_program()).lines
                self.assertEqual(lines.split(b"\n")[0], f"1 {told[:3]} 7".encode())


if __name__ == "__main__":
    unittest.main()
