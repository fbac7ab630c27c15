"""Tests of the reader of the output of a
check."""
import unittest

from ..answers import clause_of
from ..check import report_of
from .stored import said


class OutputOfACheck(unittest.TestCase):
    """Of functions, goals and answers."""

    def test_open_goals_name_their_clauses(self):
        grow = said("open_goals").of("RowIndex::grow_5")
        finish = said("open_goals").of("NameHasherHasher::finish")
        self.assertEqual([clause_of(goal) for goal in grow.open_goals], ["len", "vacant"])
        self.assertEqual([clause_of(goal) for goal in finish.open_goals], ["ensures"])
        self.assertFalse(grow.holds or finish.holds)

    def test_a_goal_is_of_a_clause(self):
        wanted = {
            "returns": "ensures",
            "returns-in-Ok": "ensures",
            "returns-in-Ok-clause-fresh": "fresh",
            "push-requires-room": "requires",
            "invariant_of-self": "invariant",
            "loop-kept": "invariant",
        }
        self.assertEqual({goal: clause_of(goal) for goal in wanted}, wanted)

    def test_a_function_is_named_by_the_end_of_its_path_alone(self):
        self.assertEqual(said("open_goals").of("NumberSet::lengthen_9").path, "number_set::NumberSet::lengthen_9")
        self.assertIn("says nothing of lengthen", said("open_goals").of("lengthen").error)

    def test_a_hole_below_does_not_matter(self):
        self.assertTrue(all(said("holes").of(name).holds for name in ("words::unpack_2", "words::with_place_3")))

    def test_an_answer_that_does_not_fit_is_of_its_function(self):
        for name, goal in (("pack_6", "returns-in-To-clause-reads"), ("unpack_10", "returns-clause-packs")):
            function = said("broken_answers").of(f"words::{name}")
            self.assertEqual((function.holds, function.misfits), (False, {goal}))

    def test_an_answer_that_uses_what_is_gone_does_not_fit(self):
        settle = said("gone_answers").of("Store::settle")
        self.assertEqual(settle.misfits, {"invariant_of-self-2", "returns-clause-swept"})
        line = "./proofs/twice/Answers.antt:4:1: error: 2 that depend on `p`, .., was not checked: sum, even\n"
        report = report_of([(line, 1.0), ("fn small::twice: not proved\n", 1.0), ("only=1 holes=0\n", 1.0)])
        self.assertEqual(report.of("twice").misfits, {"sum", "even"})

    def test_what_does_not_compile_is_not_whole(self):
        report = said("compile_error")
        self.assertEqual((report.is_whole, "cannot find value" in report.error), (False, True))

    def test_the_seconds_are_of_each_function_but_the_first(self):
        self.assertEqual([said("holes").of(name).seconds for name in ("words::field", "words::unpack_2")], [0, 1])
