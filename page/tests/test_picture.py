# SPDX-License-Identifier: BSD-3-Clause
"""The picture in README is of the page as it is."""
import unittest

import pictured


class OfToday(unittest.TestCase):
    def test_the_picture_is_of_the_page_as_it_is(self):
        self.assertTrue(pictured.PICTURE.read_bytes().startswith(b"\x89PNG"))
        self.assertEqual(pictured.SUMS.read_text(), pictured.sums(),
                         "docs/pictures/report.png is of another page: page/tests/picture makes it anew")


if __name__ == "__main__":
    unittest.main()
