# SPDX-License-Identifier: BSD-3-Clause
"""Files that are chosen in the page: the module with the proved code shows of them what tools/report shows.

ACLC_PAGE names the page, which packaging/page made.
"""
import json
import os
import unittest
from pathlib import Path

import browsers
import made
from aclc_tools import blocks
from shown import EDITED, EXAMPLES, FILES, LEAD, OFFICE, VIEW, Shown
from tool import tool

LIVE = os.environ.get("ACLC_PAGE")
# No file of this size is read, and it takes no room on a disk.
TOO_LARGE = 1_400_000_000
TOLD = "document.getElementById('told').textContent"


class Live(Shown):
    """The tests of each browser."""

    def choose(self, **files):
        """Opens the page, and chooses files by their roles."""
        self.open(Path(LIVE).resolve().as_uri())
        for role, file in files.items():
            self.browser.choose_files(f"#file-{role}", *(file if isinstance(file, list) else [file]))

    def begin(self):
        """Has the module answer."""
        self.browser.evaluate("document.getElementById('go').click()")

    def end(self, view="rules"):
        """Has the module answer, and waits for a view."""
        self.begin()
        self.browser.until(f"document.getElementById('tab-{view}') !== null", "the module")

    def until_told(self, part):
        """Waits until the page tells something, and gives all that it tells."""
        self.browser.until(f"{TOLD}.includes({part!r})", "what is told")
        return self.browser.evaluate(TOLD)

    def seen(self, views):
        """What the views show, without the folders of files."""
        found = [(self.tab(name), self.rows()) for name in views]
        for folder in (FILES.folder, EXAMPLES):
            found = [(text.replace(f"{folder}/", ""), rows) for text, rows in found]
        return found

    def is_as_in_a_report(self, views, name, code, list_, old, *captures):
        """Compares what views show by the module with what they show in a report of the same files."""
        self.open(FILES.page(name, code, list_, *(["--old", old] if old else []), *captures))
        expected = self.seen(views)
        self.choose(list=list_, **({"old": old} if old else {}), captures=[*captures])
        self.end()
        self.assertEqual(self.seen(views), expected)

    def test_two_lists_and_times_are_as_in_a_report(self):
        files = [FILES.write("hour.rules", made.RULES), FILES.write("old.rules", made.OLD_RULES),
                 FILES.write("hour.pcap", made.capture(2000))]
        self.is_as_in_a_report(["rules", "packets", "time", "lists"], "hour", 1, *files)

    def test_both_formats_of_captures_are_as_in_a_report(self):
        self.is_as_in_a_report(["rules", "packets"], "both", 0, EXAMPLES / "mixed.rules", None,
                               EXAMPLES / "mixed.pcapng", EXAMPLES / "mixed.pcap")

    def test_a_list_alone_has_its_rules(self):
        self.is_as_in_a_report(["rules"], "dead", 0, EXAMPLES / "shadowed.rules", None)
        self.assertEqual(len(self.browser.evaluate("[...document.querySelectorAll('.row.dead')].map(it => it.innerText)")), 1)
        self.assertEqual(self.browser.evaluate("document.querySelectorAll('.row.idle, #tab-packets, #tab-time').length"), 0)
        self.picture("rules")

    def test_a_list_whose_table_is_too_large_is_audited(self):
        """As many lines can't decide as tools/dead finds with all words that a table may have."""
        rules = FILES.write("fw1000.rules", tool("../examples/lists", "firewall", "1000", "1")[1])
        dead = json.loads(tool("dead", "--json", "--max-words", "67108864", rules)[1])
        self.assertEqual((len(dead["dead"]) > 0, dead["unknown"]), (True, []))
        self.choose(list=rules)
        self.end()
        self.assertIn(f"{len(dead['dead'])} lines can never decide a packet.", self.browser.evaluate(LEAD))
        self.type("rows", "dead")
        self.assertEqual([it.split(" ")[0] for it in self.rows()][:8], [str(it["line"]) for it in dead["dead"]][:8])

    def test_a_list_that_is_audited_in_parts_is_as_in_a_report(self):
        rules = FILES.write("fw100.rules", tool("../examples/lists", "firewall", "100", "1")[1])
        for words, is_open in (("5000", False), ("2000", True)):
            self.open(FILES.page(f"parts{words}", 2 * is_open, "--max-words", words, rules))
            expected = self.browser.evaluate(LEAD), self.seen(["rules"])
            self.assertEqual("it isn’t known whether" in expected[0], is_open)
            self.choose(list=rules)
            self.type("words", words)
            self.end()
            self.assertEqual((self.browser.evaluate(LEAD), self.seen(["rules"])), expected)

    def test_two_lists_without_a_capture_are_compared(self):
        self.is_as_in_a_report(["rules", "lists"], "two", 1, OFFICE, EDITED)

    def test_the_module_says_what_proved_it(self):
        self.choose(list=OFFICE)
        self.picture("files")
        self.end()
        text = self.tab("about")
        self.assertIn("logic=proved", text)
        self.assertIn("Keys of packets come from the readers of the program.", text)
        self.assertIn("Its change to WebAssembly, its heap, the engine of the browser and the script of this page aren’t.", text)

    def test_a_list_that_is_refused_is_told(self):
        self.choose(list=FILES.write("bad.rules", OFFICE.read_text().replace("1234 : 1234", "1234")))
        self.end("refusals")
        text = self.browser.evaluate(VIEW)
        for part in ("aclc: rules: line 2: bad ports", "192.168.2.31/32", "one port written once"):
            self.assertIn(part, text)

    def test_what_stands_before_the_fault_of_a_capture_is_shown(self):
        self.choose(list=OFFICE, captures=[FILES.write("cut.pcap", (EXAMPLES / "office.pcap").read_bytes()[:-1]),
                                           EXAMPLES / "office.pcap"])
        self.end()
        self.tab("packets")
        self.assertEqual([it.split(" ")[0] for it in self.rows()], ["1#1", "1#2", "2#1", "2#2", "2#3"])
        self.assertIn("aclc: capture: record 3: cut", self.tab("refusals"))

    def test_texts_and_names_that_are_chosen_are_never_markup(self):
        rules = FILES.write("a<b>.rules", f"# {made.HOSTILE}{made.ENDING}\n{OFFICE.read_text()}")
        self.choose(list=rules, captures=FILES.write(made.HOSTILE.replace("/", ""), (EXAMPLES / "office.pcap").read_bytes()))
        self.end()
        for name in ("files", "rules", "packets", "about"):
            self.tab(name)
            self.assertEqual(self.browser.evaluate("document.querySelectorAll('img, iframe').length"), 0)
        self.assertIn("onerror", self.browser.evaluate("document.getElementById('head').innerText"))
        self.assertNotEqual(self.browser.evaluate("document.title"), "pwned")

    def test_a_capture_that_is_too_large_gets_a_sentence(self):
        large = FILES.write("large.pcap", b"")
        os.truncate(large, TOO_LARGE)
        self.choose(list=OFFICE, captures=large)
        self.begin()
        self.assertIn("large.pcap has 1335.1 MiB, and a page has room for some", self.until_told("aclc report"))

    def test_a_file_that_was_chosen_can_be_taken_back(self):
        self.choose(list=OFFICE, old=EDITED)
        self.assertIn("Chosen: edited.rules", self.browser.evaluate(VIEW))
        self.browser.evaluate("document.getElementById('back-old').click()")
        self.assertNotIn("edited.rules", self.browser.evaluate(VIEW))
        self.end()
        self.assertTrue(self.browser.evaluate("document.getElementById('tab-lists') === null"))

    def drop(self, target, **files):
        """Drops files of these names on an element."""
        parts = "; ".join(f"dt.items.add(new File([Uint8Array.from({[*path.read_bytes()]})], {name!r}))" for name, path in files.items())
        self.browser.evaluate(f"""(() => {{ const dt = new DataTransfer(); {parts};
            document.querySelector({target!r}).dispatchEvent(new DragEvent('drop', {{ dataTransfer: dt, bubbles: true, cancelable: true }}));
        }})()""")

    def test_files_that_are_dropped_are_taken(self):
        """A capture is known by its first bytes; on a card a file has the card's role."""
        self.choose()
        self.drop("body", rules=OFFICE, sent=EXAMPLES / "office.pcap", more=EXAMPLES / "mixed.pcapng")
        self.browser.until("document.querySelectorAll('.chosen').length === 2", "what was dropped")
        self.drop("[data-role=old] p", before=EDITED)
        self.browser.until("document.querySelectorAll('.chosen').length === 3", "what was dropped")
        chosen = self.browser.evaluate("[...document.querySelectorAll('.chosen')].map(it => it.firstChild.data.trim())")
        self.assertEqual(chosen, ["Chosen: rules", "Chosen: sent, more", "Chosen: before"])
        self.end()
        self.assertIn("What rules does with sent and more", self.browser.evaluate("document.title"))

    def test_max_words_that_are_no_number_of_words_are_told(self):
        self.choose(list=OFFICE)
        for words in ("1.5", "0", "-3", "67108865", "1e3"):
            self.type("words", words)
            self.begin()
            self.until_told("max-words is a whole number from 1 to 67108864.")
            self.browser.evaluate("document.getElementById('told').textContent = ''")
        self.type("words", "2097152")
        self.end()

    def test_a_second_run_is_seen_from_other_views(self):
        many = FILES.write("many.pcap", made.capture(50_000, hosts=4))
        self.choose(list=OFFICE)
        self.end()
        self.tab("files")
        self.browser.choose_files("#file-captures", many)
        self.assertTrue(self.browser.evaluate("document.getElementById('work').hidden"))
        self.begin()
        self.browser.evaluate("document.getElementById('tab-rules').click()")
        self.browser.until("!document.getElementById('work').hidden && document.getElementById('work').innerText.includes('Stop')", "the work")
        self.browser.evaluate("document.querySelector('#work button').click()")
        self.assertEqual(self.browser.evaluate("[document.getElementById('work').hidden, document.getElementById('said').textContent]"),
                         [True, "Stopped"])

    def test_what_turns_the_direction_of_writing_is_escaped(self):
        for role, name in (("list", "a\u202egpj.rules"), ("captures", "b\u2066.pcap")):
            files = {"list": OFFICE, "captures": EXAMPLES / "office.pcap"}
            files[role] = FILES.write(name, files[role].read_bytes())
            self.choose(**files)
            self.end()
            for view in ("files", "rules", "about"):
                text = self.tab(view) + self.browser.evaluate("document.title + document.getElementById('head').innerText")
                self.assertNotRegex(text, "[\u202e\u2066]")
                self.assertIn("\\u202e" if role == "list" else "\\u2066", text)

    def test_packets_that_are_passed_over_are_told(self):
        sent = FILES.write("simple.pcapng", blocks.write([bytes(60)]) + made.simple_packets(3))
        self.choose(list=OFFICE, captures=sent)
        self.end()
        self.assertIn("simple.pcapng: 3 packets passed over", self.tab("refusals"))

    def test_without_a_list_one_is_asked_for(self):
        self.choose()
        self.begin()
        self.until_told("Choose a list of rules first.")

    def test_the_work_is_told_and_can_be_stopped(self):
        many = FILES.write("many.pcap", made.capture(50_000, hosts=4))
        self.choose(list=FILES.write("hour.rules", made.RULES), captures=[many, many, many])
        self.browser.evaluate("(() => { const told = document.getElementById('told'); window.heard = []; "
                              "new MutationObserver(() => window.heard.push(told.textContent)).observe(told, { childList: true }); })()")
        self.begin()
        self.browser.until("window.heard.some(it => it.includes('Asking about'))", "the capture")
        self.browser.evaluate("document.getElementById('stop').click()")
        heard = self.browser.evaluate("window.heard")
        for part in ("Reading hour.rules", "Looking at each rule", "Reading many.pcap, capture 1 of 3", "(the module has "):
            self.assertTrue(any(part in it for it in heard), (part, heard))
        self.assertEqual((heard[-1], self.browser.evaluate("document.getElementById('tab-rules') === null")), ("Stopped", True))
        self.end()
        self.tab("packets")
        self.assertIn("150,000 packets", self.browser.evaluate(VIEW))


@unittest.skipUnless(LIVE and browsers.Chromium.path, "ACLC_PAGE names no page with the module inside, or chromium isn't installed")
class InChromium(Live, unittest.TestCase):
    browser_class = browsers.Chromium


@unittest.skipUnless(LIVE and browsers.Firefox.path, "ACLC_PAGE names no page with the module inside, or firefox-esr isn't installed")
class InFirefox(Live, unittest.TestCase):
    browser_class = browsers.Firefox


if __name__ == "__main__":
    unittest.main()
