# SPDX-License-Identifier: BSD-3-Clause
"""The words of the pages: how checks/pages counts them, and that it refuses pages that grew too long."""
import tempfile
import unittest
from pathlib import Path

from aclc_tools.program import TOP
from tool import script

PAGES = script(TOP / "checks" / "pages")


class Words(unittest.TestCase):
    def setUp(self):
        folder = tempfile.TemporaryDirectory()
        self.addCleanup(folder.cleanup)
        self.top = Path(folder.name)
        (self.top / "docs").mkdir()
        (self.top / "README.md").write_text("# One two\n\nthree `four five`\n\n- six:\n\n  ```sh\n  an example\n  ```\n", encoding="utf-8")
        (self.top / "docs" / "PAGE.md").write_text("| seven | [eight](nine) - 10 |\n|---|---|\n", encoding="utf-8")
        (self.top / "docs" / "other.txt").write_text("not a page\n", encoding="utf-8")

    def test_words_are_those_of_the_text_without_blocks_and_lines_of_tables(self):
        counted = PAGES.words_of_pages(self.top)
        self.assertEqual(counted, {Path("README.md"): 6, Path("docs/PAGE.md"): 3})

    def test_one_word_more_than_allowed_is_a_fault(self):
        self.assertEqual(PAGES.too_many_words(self.top, 9), [])
        self.assertEqual(PAGES.too_many_words(self.top, 8),
                         ["the pages have 9 words, and at most 8 are allowed: checks/pages --words"])

    def test_the_pages_of_the_repository_are_within_the_limit(self):
        counted = PAGES.words_of_pages()
        self.assertIn(Path("docs/PROOFS.md"), counted)
        self.assertEqual(PAGES.too_many_words(), [])


if __name__ == "__main__":
    unittest.main()
