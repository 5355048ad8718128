# SPDX-License-Identifier: BSD-3-Clause
"""The view of two lists: all pairs of lines that answer packets differently, or why they may not be all."""
import unittest

import browsers
import made
from shown import DATA, EDITED, EXAMPLES, FILES, LEAD, OFFICE, SIDE, VIEW, Shown
from tool import tool

GATEWAY = DATA / "gateway.iptables-save"
PAIRS = ("[...document.querySelectorAll('[aria-label^=\"Pairs of lines\"] .row:not(.head)')]"
         ".map(row => [...row.children].map(it => it.innerText))")
# The rows of short tables that a bar hides, though their tables are as high as they.
CUT = """[...document.querySelectorAll('.table.short')].flatMap((it) => {
    const body = it.querySelector('.body');
    const end = body.getBoundingClientRect().top + body.clientHeight;
    return [...it.querySelectorAll('.row')].filter((row) => row.getBoundingClientRect().bottom > end + 1)
        .map((row) => row.innerText);
})"""
SAID = "document.getElementById('said').textContent"
# The mistakes that the page found in its own reading.
FAULTS = "[...document.querySelectorAll('#view .wrong')].map(it => it.innerText)"


class Pairs(Shown):
    """The tests of each browser."""

    def lists(self, *words):
        """Opens the view of two lists; what its first sentence says."""
        self.open(FILES.page(*words))
        self.tab("lists")
        return self.browser.evaluate(LEAD)

    def hour(self):
        """An hour's traffic by two lists."""
        rules, old = FILES.write("hour.rules", made.RULES), FILES.write("old.rules", made.OLD_RULES)
        return self.lists("hour", 1, rules, "--old", old, FILES.write("hour.pcap", made.capture(2000)))

    def test_all_pairs_have_their_packets_in_words(self):
        """What the two changed lines of the old list did, worked out by hand; the packets are counted by hand too."""
        self.assertIn("answers some packets otherwise than the old list", self.hour())
        old = made.OLD_RULES.split("\n")
        line = {number: f"line {number}: {old[number - 1]}" for number in (2, 6, 10)}
        rows = self.browser.evaluate(PAIRS)
        none = "no rule matches", "no rule"
        self.assertEqual([it[:4] for it in rows],
                         [[line[2], "1", *none], [line[6], "1", *none], [line[6], "1", line[10], "2"]])
        self.assertEqual(rows[0][4], "tcp: 10.1.0.0 – 10.3.255.255 → 192.0.2.0/24 port 443")
        self.assertIn("udp: 10.0.0.0/8 → 203.0.114.0 – 255.255.255.255 port 54", rows[1][4])
        self.assertEqual(rows[2][4], "udp: 10.0.0.0/8 → 203.0.113.0/24 port 54")
        self.assertEqual([it[5:] for it in rows[1:]], [["0", ""], ["0", ""]])
        self.assertIn(f"{rows[0][5]} of 2,000 packets get another answer", self.browser.evaluate(VIEW))
        self.assertEqual(self.browser.evaluate(FAULTS), [])
        self.picture("pairs")
        self.assertEqual(self.browser.evaluate(CUT), [])
        self.assertIn("and for which packets: the page’s own reading", self.tab("about"))

    def test_a_row_shows_both_lines_and_leads_to_a_packet(self):
        self.hour()
        first = self.browser.evaluate(PAIRS)[0][6]
        table = "document.querySelector('[aria-label^=\"Pairs of lines\"]')"
        self.browser.evaluate(f"{table}.focus()")
        self.browser.press("Enter")
        self.assertIn("Before line 2, now no rule", self.browser.evaluate(SIDE))
        self.browser.press("ArrowDown")
        self.assertIn("Before line 6, now no rule", self.browser.evaluate(SIDE))
        self.assertIn("No packet of the captures is one of these", self.browser.evaluate(SIDE))
        self.assertEqual(self.browser.evaluate(SAID), "Before line 6, now no rule")
        self.browser.press("ArrowUp")
        address = self.browser.evaluate("location.hash")
        self.browser.evaluate("document.querySelector('#side .link').click()")
        side = self.browser.evaluate(SIDE)
        self.assertIn(f"Packet {first}\n", side)
        self.assertRegex(side, r"tcp 10\.[123]\.\S+ → 192\.0\.2\.\d+:443")
        self.browser.evaluate(f"(location.hash = {address!r}, 0)")
        self.browser.until(f"{SIDE}.includes('Before line 2, now no rule')", "the address of a pair")
        self.browser.evaluate("(location.hash = '#view=lists&lines=9.9', 0)")
        self.browser.until("document.getElementById('side').hidden", "an address that names no pair")

    def test_paper_has_the_pairs(self):
        self.hour()
        self.browser.evaluate("window.dispatchEvent(new Event('beforeprint'))")
        paper = self.browser.evaluate("document.getElementById('print').textContent")
        self.assertIn("3 pairs of lines answer some packets differently.", paper)
        self.assertIn("tcp: 10.1.0.0 – 10.3.255.255 → 192.0.2.0/24 port 443", paper)
        self.browser.evaluate("window.dispatchEvent(new Event('afterprint'))")

    def test_drawn_lists_have_the_pairs_that_each_key_has(self):
        self.serve()
        told = self.browser.evaluate("import('./tests/drawn_lists.js').then((it) => it.compareDrawn())")
        self.assertEqual((told["fault"], told["tried"], told["differ"] > 10_000), (None, 150_000, True))

    def test_lists_of_iptables_have_pairs_through_their_chains(self):
        """A line that is taken out of a chain, and an end that is changed: each packet then has another line."""
        text = GATEWAY.read_text()
        old = FILES.write("old.iptables", text)
        new = FILES.write("new.iptables", text.replace("-A trusted -p gre -j ACCEPT\n", ""))
        self.lists("chains", 1, "--chain", "FORWARD", "--old", old, new)
        rows = self.browser.evaluate(PAIRS)
        self.assertEqual([it[1::2][:2] for it in rows], [["accept", "drop"]])
        self.assertIn("gre: 10.1.0.5 – 10.1.0.20 → ", rows[0][4])
        self.assertNotIn("tcp", rows[0][4])
        self.assertEqual(self.browser.evaluate(FAULTS), [])

    def test_the_first_sentence_says_what_is_missing(self):
        """A part that couldn't be compared, a line that was left out, or a search that was cut."""
        said = self.lists("uncompared", 2, "--max-words", "20", EDITED, "--old", OFFICE)
        self.assertTrue(said.startswith("The comparison isn’t complete: a part of all packets couldn’t be"), said)
        self.assertIn("isn’t known.", said)
        left = FILES.write("left.iptables", GATEWAY.read_text().replace(
            "-A FORWARD -p icmp -j ACCEPT", "-A FORWARD -p icmp -m quota --quota 5 -j ACCEPT"))
        said = self.lists("left", 2, "--chain", "FORWARD", "--lenient", "--unproved", "--old", GATEWAY, left)
        self.assertTrue(said.startswith("The comparison isn’t complete: lines were left out"), said)
        self.assertIn("aren’t told: what they get isn’t known", self.browser.evaluate(VIEW))
        lists = [FILES.write(f"fw{it}.rules", tool("../examples/lists", "firewall", "300", it)[1]) for it in (1, 2)]
        said = self.lists("cut_pairs", 1, "--max-words", "67108864", lists[0], "--old", lists[1])
        self.assertTrue(said.startswith("The pairs of lines below may not be all: the search for them ended"), said)
        self.assertIn("At least ", self.browser.evaluate(VIEW))
        self.assertIn("its limit of 3,000,000 looks at a rule", self.browser.evaluate(VIEW))

    def test_equal_lists_say_so_and_have_no_pairs(self):
        same = FILES.write("equal.rules", OFFICE.read_bytes())
        said = self.lists("equal", 0, OFFICE, "--old", same, EXAMPLES / "office.pcap")
        self.assertIn("answers every packet that there is as the old list", said)
        self.assertIn("No pair of lines answers packets differently.", self.browser.evaluate(VIEW))
        self.assertEqual(self.browser.evaluate(PAIRS), [])

    def test_each_category_has_its_own_pairs(self):
        rules = "".join(f"@{network} 0.0.0.0/0 0 : 65535 0 : 65535 0/0 cat={categories} data={data}\n"
                        for network, categories, data in (("10.0.0.0/8", 1, 1), ("0.0.0.0/0", 3, 2)))
        old, new = FILES.write("oldcat.rules", rules), FILES.write("cat.rules", rules.replace("cat=1", "cat=2"))
        self.lists("categories", 1, new, "--old", old)
        self.assertIn("in category 0", self.browser.evaluate(VIEW))
        self.assertEqual([it[1] + it[3] for it in self.browser.evaluate(PAIRS)], ["12"])
        self.type("category", "1")
        self.assertEqual([it[1] + it[3] for it in self.browser.evaluate(PAIRS)], ["21"])
        self.type("category", "5")
        self.assertIn("No pair of lines answers packets differently in category 5.", self.browser.evaluate(VIEW))


@unittest.skipUnless(browsers.Chromium.path, "chromium isn't installed")
class InChromium(Pairs, unittest.TestCase):
    browser_class = browsers.Chromium


@unittest.skipUnless(browsers.Firefox.path, "firefox-esr isn't installed")
class InFirefox(Pairs, unittest.TestCase):
    browser_class = browsers.Firefox


if __name__ == "__main__":
    unittest.main()
