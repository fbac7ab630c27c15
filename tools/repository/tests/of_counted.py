"""Tests of the counts under valgrind. Without valgrind these tests are left
out."""
import unittest

from ..counted import CountFailed, can_count, counted


@unittest.skipUnless(can_count(), "valgrind isn't here")
class Instructions(unittest.TestCase):
    """Tests of the count of a run."""

    def test_the_output_comes_with_the_count(self):
        run = counted(["/bin/cat"], b"one\n")
        self.assertEqual(run.output, b"one\n")
        self.assertGreater(run.instructions, 1000)

    def test_a_run_that_fails_is_not_counted(self):
        with self.assertRaisesRegex(CountFailed, "/bin/false ended with status 1"):
            counted(["/bin/false"])
