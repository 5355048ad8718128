# SPDX-License-Identifier: BSD-3-Clause
"""The page on a phone: nothing stands beyond its edge, and nothing over something else."""
import unittest

import browsers
import made
from shown import FILES, Shown

# What reaches beyond the screen, but for what scrolls by itself.
BEYOND = """(() => {
    const others = '.table .body, .scroll, .chart, #said, .skip, .hidden';
    const all = [...document.querySelectorAll('body *')].filter((it) => !it.closest(others));
    const found = all.filter((it) => {
        const { left, right, width } = it.getBoundingClientRect();
        return width && (left < -1 || right > innerWidth + 1);
    });
    const isWide = document.documentElement.scrollWidth > innerWidth;
    return [...found.map((it) => it.outerHTML.slice(0, 120)), ...isWide ? ['the page'] : []];
})()"""
# What holds two that stand over each other.
OVER = """(() => {
    const isSeen = (it) => getComputedStyle(it).position !== 'absolute' && !it.matches('.skip, #said');
    const meet = (one, other) => one.width && other.width && one.left < other.right - 1 && other.left < one.right - 1
        && one.top < other.bottom - 1 && other.top < one.bottom - 1;
    const boxes = 'body, #head, #tabs, #view, #side, .tools, .field, .legend, .facts, .card';
    return [...document.querySelectorAll(boxes)].filter((box) => {
        const all = [...box.children].filter(isSeen).map((it) => it.getBoundingClientRect());
        return all.some((one, at) => all.slice(at + 1).some((other) => meet(one, other)));
    }).map((it) => it.outerHTML.slice(0, 120));
})()"""

# Whether the view and all in it end above the details, and whether their head is seen.
APART = """(() => {
    const view = document.getElementById('view');
    const ends = [view, ...getComputedStyle(view).overflowY === 'visible' ? view.children : []];
    const { top } = document.getElementById('side').getBoundingClientRect();
    return [ends.every((it) => it.getBoundingClientRect().bottom <= top), top >= 0 && top < innerHeight - 40];
})()"""


class Phone(Shown):
    """The tests of each browser."""

    def fits(self, what):
        """Looks at what is seen."""
        self.assertEqual((self.browser.evaluate(BEYOND), self.browser.evaluate(OVER)), ([], []), what)

    def test_each_view_fits_with_details_and_without(self):
        rules, old = FILES.write("hour.rules", made.RULES), FILES.write("old.rules", made.OLD_RULES)
        self.open(FILES.page("hour", 1, rules, "--old", old, FILES.write("hour.pcap", made.capture(2000))))
        for name in ("rules", "packets", "time", "ask", "lists", "about"):
            self.tab(name)
            self.fits(name)
            if name in ("rules", "packets", "lists"):
                self.click(1)
                self.assertFalse(self.browser.evaluate("document.getElementById('side').hidden"))
                self.picture(f"{name}-side")
                self.fits(f"{name} with details")
                self.assertEqual(self.browser.evaluate(APART), [True, True], name)


@unittest.skipUnless(browsers.Chromium.path, "chromium isn't installed")
class InChromium(Phone, unittest.TestCase):
    @staticmethod
    def browser_class():
        return browsers.Chromium(size=(360, 740))


@unittest.skipUnless(browsers.Firefox.path, "firefox-esr isn't installed")
class InFirefox(Phone, unittest.TestCase):
    @staticmethod
    def browser_class():
        return browsers.Firefox(size=(360, 740))


if __name__ == "__main__":
    unittest.main()
