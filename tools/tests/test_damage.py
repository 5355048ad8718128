# SPDX-License-Identifier: BSD-3-Clause
"""Lists with one line damaged, of each form: converted without loss, or refused. `damage` does it for more of them."""
import unittest

import damages
from aclc_tools.program import built_program

COUNT, SEED = 150, 48


class Damage(unittest.TestCase):
    def test_no_damaged_list_is_converted_wrongly(self):
        for form in damages.FORMS:
            with self.subTest(form=form):
                counts, faults = damages.run(form, COUNT, SEED)
                self.assertEqual(faults, [])
                self.assertGreater(counts["converted"], COUNT // 10)
                self.assertGreater(counts["refused"], COUNT // 10)

    @unittest.skipUnless(built_program(), "the program isn't built")
    def test_the_program_answers_as_the_lists_decide(self):
        for form in damages.FORMS:
            wrong, asked = damages.by_program(form, 6, SEED)
            self.assertEqual(wrong, [])
            self.assertGreater(asked, 100)


if __name__ == "__main__":
    unittest.main()
