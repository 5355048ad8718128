# SPDX-License-Identifier: BSD-3-Clause
"""Names of protocols and ports against the system's own files."""
import unittest
from pathlib import Path

from aclc_tools import names


def entries(file):
    """The words of each line of a file of names, without comments; the test is skipped where it isn't there."""
    if not Path(file).exists():
        raise unittest.SkipTest(f"this system has no {file}")
    lines = Path(file).read_text(encoding="utf-8", errors="replace").split("\n")
    return [words for words in (line.split("#")[0].split() for line in lines) if len(words) > 1]


class Names(unittest.TestCase):
    def test_protocols_are_those_of_the_system(self):
        system = {words[0]: int(words[1]) for words in entries("/etc/protocols") if int(words[1]) < 256}
        shared = set(system) & set(names.SYSTEM)
        self.assertGreater(len(shared), 20)
        self.assertEqual({name: names.SYSTEM[name] for name in shared}, {name: system[name] for name in shared})

    def test_own_names_hide_none_of_the_system(self):
        system = {words[0]: int(words[1]) for words in entries("/etc/protocols")}
        for table in (names.FIREWALL, names.ROUTERS):
            for name, number in table.items():
                self.assertEqual(system.get(name, number), number, name)

    def test_services_are_those_of_the_system(self):
        system = {}
        for words in entries("/etc/services"):
            for name in (words[0], *words[2:]):
                system.setdefault((name, words[1].split("/")[1]), int(words[1].split("/")[0]))
        for name, port in names.SERVICES.items():
            self.assertEqual(system.get((name, "tcp"), port), port, name)

    def test_names_of_ip_in_ip_are_told_apart(self):
        self.assertEqual([names.protocol(it) for it in ("ipip", "ipencap", "ipinip", "nos")], [94, 4, 4, 94])
        self.assertEqual([names.firewall_protocol(it) for it in ("ipip", "ipencap", "ipinip", "017", "17", "TCP")],
                         [94, 4, None, None, 17, 6])


if __name__ == "__main__":
    unittest.main()
