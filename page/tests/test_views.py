# SPDX-License-Identifier: BSD-3-Clause
"""The page in real browsers: what each view shows, what a user can do, and that nothing is asked of anybody.

Each test opens a page that tools/report made, as a user opens it: from a disk. At its end the console has no message, and
no request was made.
"""
import calendar
import re
import struct
import time
import unittest

import browsers
import made
from aclc_tools import capture, made_by
from shown import DATA, EDITED, EXAMPLES, FILES, LEAD, OFFICE, PICTURES, SIDE, TEXTS, VIEW, Shown


def nanoseconds(text):
    """The nanoseconds since 1970 of a time as the page shows it."""
    whole, _, part = text.partition(".")
    return calendar.timegm(time.strptime(whole, "%Y-%m-%d %H:%M:%S")) * 10 ** 9 + int(part.ljust(9, "0"))


def contrast(*colours):
    """The contrast of two colours as WCAG 2 defines it."""
    def luminance(text):
        parts = [int(it) / 255 for it in re.findall(r"[0-9]+", text)[:3]]
        parts = [it / 12.92 if it <= 0.03928 else ((it + 0.055) / 1.055) ** 2.4 for it in parts]
        return 0.2126 * parts[0] + 0.7152 * parts[1] + 0.0722 * parts[2]

    low, high = sorted(map(luminance, colours))
    return (high + 0.05) / (low + 0.05)


class Looks(Shown):
    """What each view shows: in each browser, and in dark colours."""

    def test_the_views_of_the_examples(self):
        self.open(FILES.page("office", 1, OFFICE, "--old", EDITED, EXAMPLES / "office.pcap"))
        rows = self.rows()
        self.assertTrue(rows[0].startswith("2 1 33 % @192.168.1.0/24 192.168.2.31/32"), rows)
        self.assertIn("least key: udp 192.168.1.0:0 → 192.168.2.31:1234", rows[0])
        self.picture("rules")
        self.tab("packets")
        self.assertTrue(self.rows()[0].startswith("1 ≠ IPv4 udp 192.168.1.5:5000 192.168.2.31:1234 "), self.rows())
        self.assertIn("The least one is udp 192.168.1.0:0 → 192.168.2.31:1234.", self.tab("lists"))
        self.assertIn("1 of 3 packets gets another answer", self.browser.evaluate(VIEW))
        self.assertIn("nothing to draw", self.tab("time"))
        self.assertIn(made_by.told()["proof"] or "Not known: ", self.tab("about"))

    def test_who_knows_only_iptables_finds_the_line_that_dropped_a_packet(self):
        self.open(FILES.page("gateway", 0, "--chain", "FORWARD", DATA / "gateway.iptables-save", EXAMPLES / "office.pcap"))
        self.tab("packets")
        self.assertIn("drop line 4: :FORWARD DROP [0:0]", self.rows()[0])
        self.click(3)
        side = self.browser.evaluate(SIDE)
        self.picture("why")
        self.assertLess(side.index("line 13 decides"), side.index("line 4 loses: "))
        self.assertIn("packets come to it after line 13", side)
        self.assertNotIn("A fault of this page", side)

    def hour(self):
        """An hour's traffic by two lists."""
        return FILES.page("hour", 1, FILES.write("hour.rules", made.RULES), "--old", FILES.write("old.rules", made.OLD_RULES),
                          FILES.write("hour.pcap", made.capture(2000)))

    def test_a_range_of_the_time_filters_the_packets(self):
        self.open(self.hour())
        self.tab("time")
        self.type("from", "40")
        self.type("to", "60")
        picked = self.browser.evaluate("document.querySelector('.tools [role=status]').textContent").split(": ")[1]
        self.picture("picked")
        self.browser.evaluate("[...document.querySelectorAll('button')].find(it => it.textContent === 'Show these packets').click()")
        told = self.browser.evaluate("document.querySelector('.tools [role=status]').textContent")
        self.assertEqual(told.split(" of ")[0], picked.split(" ")[0])

    def test_keys_of_legends_and_edges_of_fields_are_seen(self):
        """A contrast of at least 3 : 1 to what they stand on, and a chart whose texts keep their size."""
        self.open(self.hour())
        self.tab("time")
        colours = self.browser.evaluate("""(() => {
            const of = (element, name) => getComputedStyle(element)[name];
            const back = of(document.body, 'backgroundColor'), sheet = of(document.querySelector('.chart'), 'backgroundColor');
            const keys = ['others', 'none', ...[0, 1, 2, 3, 4, 5, 6, 7].map((it) => `series${it}`)].map((name) => {
                const key = document.querySelector('.legend .key').cloneNode();
                key.className = `key ${name}`;
                document.querySelector('.legend').append(key);
                return of(key, 'backgroundColor');
            });
            return [[back, sheet], [...keys, of(document.getElementById('stacked'), 'borderTopColor'), of(document.querySelector('.grid'), 'stroke')]];
        })()""")
        for ground in colours[0]:
            for colour in colours[1]:
                self.assertGreaterEqual(contrast(ground, colour), 3, (ground, colour))
        box = self.browser.evaluate("(() => { const it = document.querySelector('.chart'); return [it.clientWidth, it.viewBox.baseVal.width]; })()")
        self.assertLess(abs(box[0] - box[1]), 8, box)

    def test_dead_lines_are_struck_out_and_name_what_covers_them(self):
        self.open(FILES.page("dead", 0, EXAMPLES / "shadowed.rules"))
        dead = self.browser.evaluate("[...document.querySelectorAll('.row.dead')].map(it => it.innerText)")
        self.assertEqual(len(dead), 1)
        self.assertIn("can never decide: line 2 matches all that it matches", dead[0])
        self.assertEqual(self.browser.evaluate("getComputedStyle(document.querySelector('.row.dead .words')).textDecorationLine"),
                         "line-through")

    def test_the_first_sentence_says_what_is_known(self):
        """Each line can, some never can, or it isn't known; and no packet is counted that wasn't looked at."""
        none, cut = FILES.write("none.rules", "# nothing\n"), FILES.write("cut0.pcap", (EXAMPLES / "office.pcap").read_bytes()[:30])
        for name, code, words, said in (
                ("can", 0, [OFFICE, EXAMPLES / "office.pcap"],
                 "3 packets: 2 decided by 2 of 3 lines, 1 by none. Each line can decide some packet."),
                ("dead", 0, [EXAMPLES / "shadowed.rules"], "1 line can never decide a packet."),
                ("open", 2, ["--max-words", "20", OFFICE], "Of 3 lines it isn’t known whether they can. Not looked at: IPv4, "),
                ("none", 0, [none, EXAMPLES / "office.pcap"],
                 "3 packets: 0 decided by 0 of 0 lines, 3 by none. The list has no rules, so it decides no packet."),
                ("cut0", 2, [OFFICE, cut], "cut0.pcap is refused at the first record. Each line can decide some packet.")):
            self.open(FILES.page(name, code, *words))
            self.assertIn(said, self.browser.evaluate(LEAD))
            self.assertEqual("Each line" in self.browser.evaluate(LEAD), name in ("can", "cut0"))
        self.assertEqual(self.browser.evaluate("document.querySelectorAll('.row.idle, #tab-packets, #tab-time').length"), 0)

    def test_refusals_have_their_line_and_the_advice(self):
        bad = FILES.write("bad.rules", OFFICE.read_text().replace("1234 : 1234", "1234"))
        cut = FILES.write("cut.pcap", (EXAMPLES / "office.pcap").read_bytes()[:-1])
        self.open(FILES.page("bad", 2, bad, EXAMPLES / "office.pcap"))
        text = self.browser.evaluate(VIEW)
        self.picture("list")
        for part in ("aclc: rules: line 2: bad ports", "192.168.2.31/32", "one port written once"):
            self.assertIn(part, text)
        self.open(FILES.page("cut", 2, OFFICE, cut))
        self.assertEqual(self.rows()[0].split(" ")[0], "2")
        text = self.tab("refusals")
        for part in ("aclc: capture: record 3: cut", "still being written"):
            self.assertIn(part, text)


class Views(Looks):
    """The other tests of each browser."""

    def test_a_capture_of_pcapng_and_both_families(self):
        self.open(FILES.page("mixed", 0, EXAMPLES / "mixed.rules", EXAMPLES / "mixed.pcapng"))
        self.tab("packets")
        rows = self.rows()
        self.assertEqual(len(rows), 8)
        self.assertTrue(any("[2001:db8::3]:53" in it or "2001:db8" in it for it in rows), rows)
        self.assertTrue(rows[6].startswith("7 ") and "other" in rows[6] and "short" in rows[7], rows)
        self.click(8)
        self.assertIn("cut before the end of its key", self.browser.evaluate(SIDE))

    def test_the_page_agrees_with_the_program_on_each_packet(self):
        self.open(self.hour())
        self.tab("packets")
        for row in range(1, 13):
            self.click(row)
            side = self.browser.evaluate(SIDE)
            self.assertNotIn("A fault of this page", side)
            self.assertTrue("both agree here" in side or "No line matches" in side, side)

    def test_filters_keep_the_packets_that_they_name(self):
        self.open(self.hour())
        self.tab("packets")
        self.type("by-port", "22")
        self.type("by-address", "10.1.0.0/16")
        rows = self.rows()
        self.assertTrue(rows and all(":22 " in it and " 10.1.0." in it for it in rows), rows)
        self.type("by-address", "10.1.0.0/33")
        self.assertIn("write an address", self.browser.evaluate(VIEW))

    def test_100000_packets_are_scrolled_and_few_rows_drawn(self):
        self.open(FILES.page("many", 0, FILES.write("hour.rules", made.RULES), FILES.write("many.pcap", made.capture(100_000, hosts=4))))
        self.tab("packets")
        self.browser.evaluate("document.querySelector('.table').focus()")
        self.browser.press("End")
        self.assertTrue(self.rows()[-1].startswith("100000 "), self.rows()[-1])
        self.assertLess(len(self.rows()), 100)
        self.picture("end")

    def test_texts_and_names_are_never_markup(self):
        list_ = (DATA / "gateway.iptables-save").read_text().replace("a network that sends", made.HOSTILE)
        sent = FILES.write(made.HOSTILE.replace("/", ""), (EXAMPLES / "office.pcap").read_bytes())
        self.open(FILES.page("hostile", 0, "--chain", "FORWARD", FILES.write("hostile.iptables", list_), sent))
        for name in ("rules", "packets", "about"):
            self.tab(name)
            self.assertEqual(self.browser.evaluate("document.querySelectorAll('img, iframe, script[src]').length"), 0)
        self.assertIn("onerror", self.browser.evaluate("document.getElementById('head').innerText"))
        self.assertNotEqual(self.browser.evaluate("document.title"), "pwned")

    def test_the_keyboard_alone_suffices(self):
        self.open(FILES.page("office", 1, OFFICE, "--old", EDITED, EXAMPLES / "office.pcap"))
        self.browser.evaluate("document.getElementById('tab-rules').focus()")
        self.browser.press("ArrowRight", "Tab")
        self.assertEqual(self.browser.evaluate("document.querySelector('[role=tab][aria-selected=true]').id"), "tab-packets")
        self.browser.evaluate("document.querySelector('.table').focus()")
        self.browser.press("ArrowDown", "Enter")
        self.assertIn("Packet 2", self.browser.evaluate(SIDE))
        self.browser.press("Escape")
        self.assertTrue(self.browser.evaluate("document.getElementById('side').hidden"))
        self.assertEqual(self.browser.evaluate("document.activeElement.className"), "table")

    def test_details_follow_the_row_and_changes_have_a_mark(self):
        self.open(FILES.page("office", 1, OFFICE, "--old", EDITED, EXAMPLES / "office.pcap"))
        self.tab("packets")
        changed = [" ≠ " in f" {it} " for it in self.rows()]
        self.assertEqual(changed, self.browser.evaluate("[...document.querySelectorAll('.row:not(.head)')].map(it => it.classList.contains('changed'))"))
        self.assertEqual(sum(changed), 1)
        self.browser.evaluate("document.querySelector('.table').focus()")
        self.browser.press("Enter", "ArrowDown")
        self.assertIn("Packet 2", self.browser.evaluate(SIDE))
        self.assertEqual(self.browser.evaluate("[document.activeElement.className, document.getElementById('said').textContent]"),
                         ["table", "Packet 2"])
        self.browser.press("Escape")
        self.assertEqual(self.browser.evaluate("document.activeElement.className"), "table")

    def test_the_address_opens_what_was_looked_at(self):
        page = self.hour()
        self.open(page)
        self.tab("packets")
        self.type("by-port", "22")
        self.click(2)
        address, rows, side = self.browser.evaluate(f"[location.hash, {TEXTS}, {SIDE}]")
        self.assertTrue(address.startswith("#view=packets&port=22&packet="), address)
        self.open(page + "#view=about")
        self.assertIn("What answered", self.browser.evaluate(VIEW))
        self.browser.evaluate(f"(location.hash = {address!r}, 0)")
        self.browser.until("!document.getElementById('side').hidden", "the address")
        self.assertEqual(self.browser.evaluate(f"[{TEXTS}, {SIDE}]"), [rows, side])
        self.browser.evaluate("history.back()")
        self.browser.until("document.querySelector('[aria-selected=true]').id === 'tab-about'", "the step back")
        for bad in ("#view=none&rule=9999999&category=99&packet=-1", "#view=rules&entry=x&pair=1&time=5&choice=none", "#%ff", "#view"):
            self.browser.evaluate(f"(location.hash = {bad!r}, 0)")
            self.assertTrue(self.browser.evaluate("document.getElementById('view').innerText.length > 20"))

    def test_a_packet_that_is_thought_of_has_the_line_that_decides(self):
        """The line is that of the list by hand; each earlier one has the field that keeps it from matching."""
        self.open(self.hour())
        self.tab("ask")

        def ask(**fields):
            for name, value in fields.items():
                self.type(f"ask-{name}", value)
            self.browser.evaluate("document.getElementById('ask').click()")
            return self.browser.evaluate("document.getElementById('asked').innerText")

        self.assertIn("Write both addresses", ask())
        told = ask(source="10.1.2.3", destination="192.0.2.1", to="22")
        self.assertIn("The program wasn’t asked", told)
        self.assertIn("line 4 decides\n", told)
        self.assertIn("line 2 doesn’t match: its source doesn’t hold 10.1.2.3", told)
        self.assertIn("line 3 doesn’t match: its destination ports don’t hold 22", told)
        self.assertNotIn("line 5", told)
        self.assertIn("line 7 decides\n", ask(protocol="1"))
        self.assertIn("No line matches\n", ask(protocol="17", source="2001:db8::1", destination="2001:db8::2"))
        for field, bad, said in (("protocol", "256", "at most 255"), ("to", "65536", "at most 65535"), ("source", "10.0.0.0/8", "both addresses"),
                                 ("source", "10.0.0.1", "both of IPv6")):
            before = self.browser.evaluate(f"document.getElementById('ask-{field}').value")
            self.assertIn(said, ask(**{field: bad}))
            self.type(f"ask-{field}", before)
        self.picture("asked")

    def test_each_field_and_table_has_a_name(self):
        self.open(self.hour())
        for name in ("rules", "packets", "time", "ask", "lists", "about"):
            self.tab(name)
            nameless = self.browser.evaluate("[...document.querySelectorAll('input, select, [role=grid], [role=img], button')].filter(it => "
                                             "!it.labels?.length && !it.ariaLabel && !it.textContent.trim()).map(it => it.outerHTML)")
            self.assertEqual(nameless, [])

    def test_above_the_limit_the_page_says_so(self):
        self.open(FILES.page("few", 0, FILES.write("hour.rules", made.RULES), FILES.write("hour.pcap", made.capture(2000)), "--packets", "300"))
        text = self.tab("packets")
        self.assertIn("There are 2,000 packets, and all are counted.", text)
        self.assertIn("2,000 packets in", self.tab("time"))

    def test_what_covers_a_rule_among_thousands_is_found_soon(self):
        """By a look at each rule and pair it takes minutes."""
        self.serve()
        found = self.browser.evaluate("""(async () => {
            const { Covers } = await import('./covers.js');
            const digits = (number) => number.toString(16).padStart(8, '0');
            const entry = (low, high, ports, priority) => ({ place: 'it', match: { family: 4, protocol: [0, 0], categories: 65535,
                sides: [[digits(low), digits(high)], ['00000000', 'ffffffff'], ['0000', 'ffff'], ports], priority } });
            const part = 2 ** 20, every = ['0000', 'ffff'];
            const one = Array.from({ length: 4096 }, (_, it) => ((it * 1565) % 4096) * part).map((it) => entry(it, it + part - 1, every, 9));
            const many = one.slice(0, 1024).map((_, it) => ((it * 389) % 1024) * 4 * part).map((it) => entry(it, it + 4 * part - 1, every, 9));
            for (let it = 0; it < 30; it++) many.push(entry((it % 4) * 2 ** 30, (it % 4 + 1) * 2 ** 30 - 1,
                [it, 0xff00 + it].map((port) => digits(port).slice(4)), 8));
            const started = performance.now();
            const single = new Covers([...one, entry(0, 2 ** 32 - 1, every, 1)]).of(4096).by.length;
            const covers = new Covers(many);
            return [single, many.slice(1024).map((_, it) => covers.of(1024 + it).by.length), performance.now() - started];
        })()""")
        self.assertEqual(found[:2], [4096, [256] * 30])
        self.assertLess(found[2], 20_000)

    def test_each_bar_is_a_part_of_the_time_in_which_packets_were_counted(self):
        """A steady stream has bars of one height, and a range says how many packets it has, also where few are held."""
        times = [made.START * 10 ** 9 + at * 10 ** 6 for at in range(5000)]
        sent = FILES.write("steady.pcap", made.steady(times))
        for name, words in (("steady", []), ("steadily", ["--packets", "100"])):
            self.open(FILES.page(name, 0, FILES.write("hour.rules", made.RULES), sent, *words))
            self.tab("time")
            self.type("stacked", "line")
            bars = self.browser.evaluate("""(() => {
                const sums = {};
                for (const it of document.querySelectorAll('.chart rect:not(.range)')) {
                    sums[it.getAttribute('x')] = (sums[it.getAttribute('x')] ?? 0) + Number(it.getAttribute('height'));
                }
                return Object.keys(sums).sort((one, other) => one - other).map((it) => sums[it]);
            })()""")
            parts = int(self.browser.evaluate("document.getElementById('to').max"))
            self.assertEqual((len(bars), parts > 100), (parts, True))
            self.assertLess(max(bars[1:-1]) / min(bars[1:-1]), 1.1)
            for first, last in ((0, parts), (0, 1), (3, 10), (parts - 1, parts)):
                for field, value in (("to", parts), ("from", 0), ("to", last), ("from", first)):
                    self.type(field, str(value))
                told = self.browser.evaluate("document.querySelector('.tools [role=status]').textContent")
                start, end, count = re.fullmatch(r"(.*) to (.*): ([0-9,]+) packets?", told).groups()
                low, high = nanoseconds(start), nanoseconds(end if " " in end else f"{start[:11]}{end}")
                self.assertEqual(int(count.replace(",", "")), sum(low <= it < high for it in times), told)

    def test_times_are_exact_however_far_apart(self):
        times = [made.START * 10 ** 9 + 1, (made.START + 86400 * 4000) * 10 ** 9 + 123456789]
        self.open(FILES.page("far", 0, FILES.write("hour.rules", made.RULES), FILES.write("far.pcap", made.steady(times))))
        self.assertIn("2025-11-24 16:00:00.000000001", self.browser.evaluate(VIEW))
        self.tab("packets")
        self.assertEqual([nanoseconds(" ".join(it.split(" ")[1:3])) for it in self.rows()], times)
        self.click(2)
        self.assertIn("2036-11-06 16:00:00.123456789 UTC", self.browser.evaluate(SIDE))

    def test_a_time_without_a_date_is_not_cut(self):
        self.serve()
        found = self.browser.evaluate("""import('./text.js').then(({ exactText, rangeText, timeText }) => [
            timeText(-62167219200000000001n), timeText(253402300800123456789n, 3), exactText(-5n), rangeText(0n, 1500000000n),
            rangeText(253402300800123456789n, 253402300800123456790n)])""")
        self.assertEqual(found, ["-62167219200.000000001 s", "253402300800.123456789 s", "1969-12-31 23:59:59.999999995",
                                 "1970-01-01 00:00:00.000 to 00:00:01.500", "253402300800.123456789 s to 253402300800.123456790 s"])

    def test_a_rule_that_decides_has_a_packet_to_show(self):
        self.open(FILES.page("few", 0, FILES.write("hour.rules", made.RULES), FILES.write("hour.pcap", made.capture(2000)), "--packets", "300"))
        rows = self.browser.evaluate("document.querySelectorAll('.row:not(.head):not(.idle):not(.dead)').length")
        self.assertGreater(rows, 3)
        for at in range(rows):
            self.tab("rules")
            self.type("rows", "used")
            hits = self.browser.evaluate(f"document.querySelector('.row[aria-rowindex=\"{at + 2}\"]').innerText")
            self.click(at + 1)
            self.browser.evaluate("[...document.querySelectorAll('#side:not([hidden]) button')].find(it => it.textContent === 'Show its packets')?.click()")
            told = self.browser.evaluate("document.querySelector('.tools [role=status]').textContent")
            shown, held, total = re.fullmatch(r"(\S+) of the (\S+) packets that are in this file; in the captures there are (\S+)",
                                              told).groups()
            self.assertGreater(int(shown.replace(",", "")), 0)
            self.assertIn(total, re.split(r"\s+", hits))

    def test_what_turns_the_direction_of_writing_is_escaped(self):
        rules = FILES.write("a\u202egpj.rules", OFFICE.read_bytes())
        self.open(FILES.page("turned", 0, rules, FILES.write("b\u2066.pcap", (EXAMPLES / "office.pcap").read_bytes())))
        for name in ("rules", "packets", "about"):
            text = self.tab(name) + self.browser.evaluate("document.title + document.getElementById('head').innerText")
            self.assertNotRegex(text, "[\u202e\u2066]")
            self.assertIn("\\u202e", text)

    def test_the_filter_by_rule_names_the_rule_beyond_those_that_decide_most(self):
        rules = FILES.write("many.rules", "".join(
            f"@0.0.0.0/0 0.0.0.0/0 0 : 65535 {port} : {port} 6/0xFF data=1\n" for port in range(2100)))
        sent = FILES.write("ports.pcap", made.steady([made.START * 10 ** 9] * 2100, ports=range(2100)))
        self.open(FILES.page("many_rules", 0, rules, sent))
        self.browser.evaluate("document.querySelector('.table').focus()")
        self.browser.press("End", "Enter")
        self.browser.evaluate("[...document.querySelectorAll('#side button')].find(it => it.textContent === 'Show its packets').click()")
        self.assertIn("line 2100: ", self.browser.evaluate("document.getElementById('by-entry').selectedOptions[0]?.text"))
        self.assertEqual(len(self.rows()), 1)

    def wide(self):
        """Addresses of IPv6 in their longest form, by rules of 16 categories."""
        ends = [bytes.fromhex("20010db8aaaabbbbccccddddeeee%04x" % (0xf000 + it)) for it in range(4)]
        frames = [bytes(12) + b"\x86\xdd" + struct.pack(">IHBB16s16sHHHH", 0x60000000, 8, 17, 64, ends[it % 4], ends[3 - it % 4],
                                                       40000 + it, 65535, 8, 0) for it in range(20)]
        rules = FILES.write("wide.rules", "".join(
            f"@2001:db8:aaaa:bbbb:cccc:dddd:eeee:{0xf000 + it:x}/128 ::/0 0 : 65535 1024 : 65535 17/0xFF pri={900 - it} "
            f"cat={0xF << it % 13} data={4000000000 + it}\n" for it in range(40)))
        return FILES.page("wide", 0, rules, FILES.write("wide.pcap", capture.write(frames)))

    def test_no_cell_hides_what_it_is_about(self):
        """Fails where a text is wider than its cell: of 16 categories each has a column, if it is asked for."""
        cut = "[...document.querySelectorAll('.row .cell, .row .cell *')].filter(it => it.scrollWidth > it.clientWidth + 1 && it.clientWidth).map(it => it.innerText)"
        self.open(self.wide())
        self.assertEqual(self.browser.evaluate(cut), [])
        self.tab("packets")
        self.assertEqual(self.browser.evaluate(cut), [])
        self.assertIn("[2001:db8:aaaa:bbbb:cccc:dddd:eeee:f003]:65535", self.rows()[0])
        for category in (3, 15):
            self.browser.evaluate(f"document.getElementById('column-{category}').click()")
        self.assertEqual(self.browser.evaluate("[...document.querySelectorAll('.row.head .cell')].map(it => it.innerText)")[4:7],
                         ["Answer, category 0", "Answer, category 3", "Answer, category 15"])
        self.assertEqual(self.browser.evaluate(cut), [])
        self.type("category", "2")
        self.assertIn("Decided by in category 2", self.browser.evaluate(VIEW))
        self.picture("wide")
        self.open(self.hour())
        for name in ("rules", "packets", "lists"):
            self.tab(name)
            self.assertEqual(self.browser.evaluate(cut), [], name)

    def test_rules_are_searched_sorted_and_copied(self):
        self.open(self.hour())
        self.type("order", "packets")
        counts = [int(it.split(" ")[1].replace(",", "")) for it in self.rows()]
        self.assertEqual(counts, sorted(counts, reverse=True))
        self.type("search", "22 : 22")
        self.assertEqual(sorted(it.split(" ")[0] for it in self.rows()), ["4", "5"])
        self.browser.evaluate("(() => { navigator.clipboard.writeText = async (text) => { window.copied = text; }; "
                              "document.getElementById('copy-csv').click(); })()")
        self.browser.until("window.copied && document.getElementById('said').textContent === '2 rows copied'", "the copy")
        lines = self.browser.evaluate("window.copied").split("\r\n")
        self.assertEqual((lines[0], len(lines)), ("line,packets,verdict,rule,remark", 3))
        self.assertIn("@10.0.0.0/8 0.0.0.0/0 0 : 65535 22 : 22 6/0xFF data=2", "".join(lines))

    def test_paper_has_all_rules_and_a_bounded_number_of_packets(self):
        """No more pages than the rows fill, and a head line that each of them repeats."""
        rules = "".join(f"@0.0.0.0/0 0.0.0.0/0 0 : 65535 {port} : {port} 6/0xFF data=1\n" for port in range(300))
        self.open(FILES.page("paper", 0, FILES.write("paper.rules", rules),
                             FILES.write("paper.pcap", made.steady([made.START * 10 ** 9] * 900, ports=range(300)))))
        self.browser.evaluate("window.dispatchEvent(new Event('beforeprint'))")
        rows = "[...document.querySelectorAll('#print .paper')].map(it => it.tBodies[0].rows.length)"
        heads = "[...document.querySelectorAll('#print .paper thead tr:first-child')].map(it => it.textContent)"
        self.assertEqual(self.browser.evaluate(rows), [300, 500])
        for head, said in zip(self.browser.evaluate(heads), ("rules", "the first 500 of 900 that are shown, of 900 packets")):
            self.assertIn("paper.rules does with", head)
            self.assertIn(said, head)
        self.browser.evaluate("window.dispatchEvent(new Event('afterprint'))")
        self.assertTrue(self.browser.evaluate("document.getElementById('print') === null"))
        paper = self.browser.printed()
        (PICTURES / f"{self.browser.name}-paper.pdf").write_bytes(paper)
        if self.browser.name == "chromium":
            self.assertTrue(10 < len(re.findall(rb"/Type /Page\b", paper)) < 40, len(re.findall(rb"/Type /Page\b", paper)))

    def test_a_million_rows(self):
        server = self.serve()
        rows = self.browser.evaluate("""(async () => {
            const { Table } = await import('./table.js');
            const table = new Table({ label: 'a', columns: [{ title: 'a', width: '1fr' }], cells: (at) => [`row ${at}`] });
            document.getElementById('view').className = 'packets';
            document.getElementById('view').replaceChildren(table.element);
            table.show(1000000);
            const seen = () => [...table.element.querySelectorAll('.row:not(.head)')].map((it) => it.innerText.trim());
            table.choose(999999);
            await new Promise((it) => setTimeout(it, 200));
            const last = seen();
            table.choose(500000);
            await new Promise((it) => setTimeout(it, 200));
            const box = table.rows.get(500000).getBoundingClientRect(), all = table.body.getBoundingClientRect();
            return [last.at(-1), last.length, box.top >= all.top && box.bottom <= all.bottom + 1];
        })()""")
        self.assertEqual((rows[0], rows[1] < 100, rows[2]), ("row 999999", True, True))
        self.assertEqual(self.browser.messages, [])
        own = [it for it in self.browser.requests if not it.startswith(f"http://127.0.0.1:{server.server_port}/")]
        self.assertEqual([it for it in own if not it.startswith(("data:", "about:"))], [])


@unittest.skipUnless(browsers.Chromium.path, "chromium isn't installed")
class InChromium(Views, unittest.TestCase):
    browser_class = browsers.Chromium


@unittest.skipUnless(browsers.Firefox.path, "firefox-esr isn't installed")
class InFirefox(Views, unittest.TestCase):
    browser_class = browsers.Firefox


@unittest.skipUnless(browsers.Chromium.path, "chromium isn't installed")
class InTheDark(Looks, unittest.TestCase):
    """Likewise where a user has chosen dark colours, on a small screen."""

    @staticmethod
    def browser_class():
        browser = browsers.Chromium(size=(820, 1000), dark=True)
        browser.name = "dark"
        return browser


if __name__ == "__main__":
    unittest.main()
