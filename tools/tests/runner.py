# SPDX-License-Identifier: BSD-3-Clause
"""Runs the tests of this folder, or those of the files that are named, and tells which were skipped, and why."""
import os
import sys
import unittest


def main():
    loader = unittest.defaultTestLoader
    names = sys.argv[1:]
    suite = loader.loadTestsFromNames(names) if names else loader.discover(".", "test_*.py")
    result = unittest.TextTestRunner().run(suite)
    for test, reason in result.skipped:
        print(f"skipped: {test.id()}: {reason}", file=sys.stderr)
    passed = result.testsRun > 0 and result.wasSuccessful()
    if passed and result.skipped and os.environ.get("CI"):
        print(f"tests: {len(result.skipped)} were skipped, and none may be where CI is set", file=sys.stderr)
        passed = False
    sys.exit(0 if passed else 1)


if __name__ == "__main__":
    main()
