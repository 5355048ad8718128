# SPDX-License-Identifier: BSD-3-Clause
"""Runs the tests of the page in the browsers that are there, and says what was left out."""
import os
import sys
import unittest

import browsers
from aclc_tools.program import built_program
from shown import FILES


def left_out():
    """Says which browsers aren't there, and whether there is nothing to try."""
    for name, it in (("chromium", browsers.Chromium), ("firefox-esr", browsers.Firefox)):
        if not it.path:
            print(f"page: left out: {name} isn't installed, so the page isn't tried in it", file=sys.stderr)
    if browsers.BROWSERS and not built_program():
        print("page: left out: the program isn't built, so nothing is tried", file=sys.stderr)
        sys.exit(1 if os.environ.get("CI") else 0)
    return not browsers.BROWSERS


def main():
    """Runs the tests."""
    if left_out():
        return
    loader = unittest.defaultTestLoader
    suite = loader.loadTestsFromNames(sys.argv[1:]) if sys.argv[1:] else loader.discover(".", "test_*.py")
    with FILES.room:
        result = unittest.TextTestRunner(verbosity=2).run(suite)
    for reason in sorted({reason for _, reason in result.skipped}):
        print(f"page: left out: {reason}", file=sys.stderr)
    sys.exit(0 if result.testsRun and result.wasSuccessful() else 1)


if __name__ == "__main__":
    main()
