# SPDX-License-Identifier: BSD-3-Clause
"""The page where a user's own colours are forced on it: the chart has them too, and a chosen row is told without colour."""
import unittest

import browsers
import made
from shown import FILES, Shown

COLOURS = """(() => {
    const of = (query, name) => getComputedStyle(document.querySelector(query))[name];
    return [of('.chart', 'backgroundColor') === of('body', 'backgroundColor'),
        of('.chart text', 'fill') === of('body', 'color'),
        of('.chart .grid', 'stroke') === of('body', 'color'), of('.chart rect', 'fill') !== of('body', 'backgroundColor')];
})()"""


@unittest.skipUnless(browsers.Chromium.path, "chromium isn't installed")
class InChromium(Shown, unittest.TestCase):
    browser_class = browsers.Chromium

    def test_colours_that_are_forced(self):
        rules, old = FILES.write("hour.rules", made.RULES), FILES.write("old.rules", made.OLD_RULES)
        page = FILES.page("hour", 1, rules, "--old", old, FILES.write("hour.pcap", made.capture(2000)))
        for scheme in ("light", "dark"):
            forced = {"forced-colors": "active", "prefers-color-scheme": scheme}
            features = [{"name": name, "value": value} for name, value in forced.items()]
            self.browser.do("Emulation.setEmulatedMedia", {"features": features})
            self.open(page)
            self.assertEqual(self.browser.evaluate("getComputedStyle(document.querySelector('.bar')).borderTopStyle"), "solid")
            self.click(1)
            chosen = "getComputedStyle(document.querySelector('.row[aria-selected=true]')).outlineStyle"
            self.assertEqual(self.browser.evaluate(chosen), "solid")
            self.tab("time")
            self.assertEqual(self.browser.evaluate(COLOURS), [True] * 4, scheme)


if __name__ == "__main__":
    unittest.main()
