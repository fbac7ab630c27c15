"""Tests of the reader of the toolchain's last line."""
import unittest

from ..kit import last_of

WHOLE = """statements thiserror: modules loaded=0 checked=0
axioms os_c: malloc, free (2 of the 40 declared)
logic=proved functions=295 may-wait=2 axioms=12 sum=dac8208d650f15bf native=nat,char,string
rt: tg_could proved
"""
OF_SOME = """fn tg_word::words::field: no holes
only=5 holes=21
"""
STOPPED = "src/words.rt:45:50: error[unknown-name]: cannot find value `SPACE_COUNT` in this scope\n"


class LastLine(unittest.TestCase):
    """Tests of the reader of the last line of a check."""

    def test_a_whole_crate_is_proved(self):
        last = last_of(WHOLE)
        self.assertTrue(last.is_proved)
        self.assertEqual([last.number(name) for name in ("functions", "may-wait", "axioms")], [295, 2, 12])

    def test_some_functions_are_not_a_proved_crate(self):
        last = last_of(OF_SOME)
        self.assertFalse(last.is_proved)
        self.assertEqual((last.number("only"), last.number("holes"), last.number("functions")), (5, 21, 0))

    def test_a_check_that_stopped_has_no_last_line(self):
        self.assertIsNone(last_of(STOPPED))

    def test_the_last_of_two_counts(self):
        self.assertEqual(last_of(OF_SOME + WHOLE).number("functions"), 295)
