"""Tests of the verdict on a mutant."""
from ..check import LIMIT
from ..verdict import Outcome, Verdict, groups_of, try_group
from .stored import OfASmallCrate, mutant_with

WHOLE = "only=1 holes=0\n"
# what is said of a function that isn't searched, whose answers fit
FITTING = "fn small::{0}: no proof: expected answers\n" + WHOLE
OPEN = "fn small::{0}: no proof: expected answers; `search` did not prove `returns-clause-even`\n"
OTHER = "fn small::{0}: no proof: expected answers; `search` did not prove `returns-clause-sum`\n"
BAD_ANSWER = "./proofs/{0}/Answers.antt:7:1: error: `returns-clause-even`: types differ\nfn small::{0}: not proved\n"
RIGHT, RIGHT_NOT = "fn small::{1}: proved\n", OPEN.replace("{0}", "{1}")


class Verdicts(OfASmallCrate):
    """The verdict by the reports of the check on the mutant, and then on the right
    function."""

    def verdict(self, *says: str, **fields: object) -> Verdict:
        """The verdict on a mutant with these fields, if the checks say this in turn."""
        self.says, self.asked = list(says), []
        (verdict,) = try_group(self.tree, self.check, [mutant_with(**fields)])
        self.assertEqual(self.says, [])
        return verdict

    def test_each_clause_that_is_named_has_to_be_open(self):
        for clauses, says, outcome in (
            (("even",), OPEN, Outcome.REFUSED),
            (("even", "sum"), OPEN, Outcome.ELSEWHERE),
            (("even",), OTHER, Outcome.ELSEWHERE),
            (("even",), "fn small::{0}: proved\n", Outcome.PROVED),
            (("even",), "fn small::{0}: could not tell\n", Outcome.NOT_JUDGED),
            (("even",), "", Outcome.NOT_JUDGED),
        ):
            with self.subTest(clauses=clauses, says=says):
                self.assertEqual(self.verdict(FITTING, says + WHOLE, clauses=clauses).outcome, outcome)

    def test_what_does_not_compile_is_not_judged(self):
        verdict = self.verdict("src/lib.rt:7:5: error: cannot find value `numbers`\n")
        self.assertEqual((verdict.outcome, "cannot find value" in verdict.said), (Outcome.NOT_JUDGED, True))

    def test_without_answers_that_do_not_fit_the_search_has_to_find_the_right_function(self):
        for second, outcome in (
            (OPEN + RIGHT, Outcome.REFUSED),
            (OPEN + RIGHT_NOT, Outcome.NOT_JUDGED),
            ("fn small::{0}: proved\n" + RIGHT, Outcome.PROVED),
            (OTHER + RIGHT, Outcome.ELSEWHERE),
        ):
            with self.subTest(second=second):
                self.assertEqual(self.verdict(BAD_ANSWER + WHOLE, second + WHOLE).outcome, outcome)
                (_, before), (functions, texts) = self.asked
                self.assertEqual(functions, ["twice_2", "twice_3"])
                self.assertEqual([text["src/lib.rt"].count("#[tactic(none)]") for text in (before, texts)], [1, 0])
                self.assertNotIn("even", texts["proofs/twice_2/Answers.antt"] + texts["proofs/twice_3/Answers.antt"])

    def test_the_right_function_has_to_be_found_in_a_third_of_the_limit(self):
        slow = f"checked s::a, 1 of 2\nchecked s::{{0}}, 2 of 3\nchecked s::{{1}}, 3 of 3\n{OPEN}{RIGHT}{WHOLE}"
        for seconds, outcome in ((LIMIT / 3, Outcome.REFUSED), (LIMIT / 3 + 1, Outcome.NOT_JUDGED)):
            self.seconds = [1, 2, 2 + seconds]
            self.assertEqual(self.verdict(BAD_ANSWER + WHOLE, slow).outcome, outcome)

    def test_a_search_over_the_limit_needs_the_right_function(self):
        slow = f"checked small::a, 1 of 2\nchecked small::{{0}}, 2 of 2\n{OPEN}"
        self.seconds = [1, 2 + LIMIT]
        for second, outcome in ((slow + RIGHT, Outcome.REFUSED), (slow + RIGHT_NOT, Outcome.NOT_JUDGED)):
            self.assertEqual(self.verdict(FITTING, slow + WHOLE, second + WHOLE).outcome, outcome)

    def test_no_other_answers_than_those_named_may_not_fit(self):
        for breaks, outcome in (
            (("returns-clause-even",), Outcome.REFUSED),
            (("returns-clause-sum",), Outcome.NOT_JUDGED),
            (("returns-clause-even", "returns-clause-sum"), Outcome.REFUSED),
            (("any",), Outcome.REFUSED),
        ):
            self.assertEqual(self.verdict(BAD_ANSWER + WHOLE, OPEN + WHOLE, breaks=breaks).outcome, outcome)
            self.assertEqual(self.asked[1][0], ["twice_2"])

    def test_what_does_not_compile_together_is_tried_in_halves(self):
        self.says = ["error: no\n", "error: no\n", FITTING, OPEN + WHOLE]
        verdicts = try_group(self.tree, self.check, [mutant_with("numbers", name="a"), mutant_with(name="b")])
        self.assertEqual([functions for functions, _ in self.asked], [["twice_2", "twice_3"], *[["twice_2"]] * 3])
        self.assertEqual([verdict.outcome for verdict in verdicts], [Outcome.NOT_JUDGED, Outcome.REFUSED])

    def test_groups_are_of_one_crate_and_of_copies(self):
        self.put({"crates.txt": "small:\nother:\n", "crates/other/src/lib.rt": self.tree.text("small", "src/lib.rt")})
        alone = mutant_with(name="alone", function="none")
        others = [mutant_with(name=name) for name in "acd"]
        of = [others[0], alone, mutant_with(name="b", crate="other"), *others[1:]]
        names = [[mutant.name for mutant in group] for group in groups_of(self.tree, of, 2)]
        self.assertEqual(names, [["a", "c"], ["alone"], ["b"], ["d"]])
