"""Tests of the places of functions, and of the content of a scratch
copy of a crate."""
import unittest

from repository.tree import read_text

from ..answers import stated
from ..mutant import Edit
from ..scratch import Standing, Trial, copy_of, plant
from ..source import functions_of, with_clauses, without_body
from .stored import ANSWERS, LIB, InARoom, OfASmallCrate, mutant_with

ROW = """pub struct Row<T> {
    cells: Vec<T>,
}

impl<T> Row<T> {
    #[inline]
    pub fn first(&self) -> Option<T> {
        self.first_of(0)
    }

    fn first_of(&self, at: u64) -> Option<T> {
        self.first_of(at + 1)
    }
}

impl Clone for Row<u64> {
    fn clone(&self) -> Row<u64> {}
}
"""
TWICE = LIB.split("\n")[:8]
EVEN = frozenset(["returns-clause-even"])


class InAScratchCopy(OfASmallCrate):
    """Tests of the functions that are checked, and of the functions
    that are taken as they are stated."""

    def planted(self, *trials: Trial) -> tuple[dict[str, str], list[Standing]]:
        """The files of the scratch copy, and where the trials are."""
        folder, standing = plant(self.tree, self.top / "room", list(trials))
        files = [path for path in folder.rglob("*") if path.is_file()]
        return {str(path.relative_to(folder)): read_text(path) for path in files}, standing

    def test_a_mutant_stands_in_a_copy_and_all_else_is_taken_as_stated(self):
        texts, standing = self.planted(trial := Trial(mutant_with()))
        self.assertEqual(standing, [Standing(trial, "twice_2", ("even",))])
        head = "\n".join(TWICE[1:6]) + "\n"
        copy = f"\n{head.replace('twice', 'twice_2')}    number * 3\n}}\n"
        wanted = LIB.replace("    number\n}", "    unreachable!()\n}")
        wanted = wanted.replace("    number + number\n}\n", "    unreachable!()\n}\n" + copy)
        self.assertEqual(texts["src/lib.rt"], wanted)
        self.assertEqual(texts["proofs/twice_2/Answers.antt"], ANSWERS.replace(".twice.", ".twice_2."))
        self.assertNotIn("proofs/twice/Answers.antt", texts)
        for path in ("twice", "same"):
            self.assertIn(f"{path}_spec = ?", texts[f"proofs/{path}/Proof.antt"])
        self.assertEqual(texts["proofs/Lemmas.antt"], "double : (n : ℕ) → n + n ≡ 2 * n\ndouble = ?\n")

    def test_the_right_function_stands_without_the_same_answers(self):
        texts, _ = self.planted(Trial(mutant_with(), EVEN), Trial(mutant_with(), EVEN, is_right=True))
        self.assertEqual(texts["src/lib.rt"].count("    number + number\n"), 1)
        for name in ("twice_2", "twice_3"):
            self.assertNotIn("even", texts[f"proofs/{name}/Answers.antt"])
            self.assertIn("{one-path}", texts[f"proofs/{name}/Answers.antt"])

    def test_a_mutant_of_more_than_a_function_stands_in_its_place(self):
        after = LIB.partition("    number + number\n}")[2]
        mutant = mutant_with(edits=(Edit("src/lib.rt", f"number + number\n}}{after}", f"number * 3\n}}{after} ", 1),))
        self.assertIsNone(copy_of(self.tree, mutant))
        texts, standing = self.planted(Trial(mutant, EVEN))
        self.assertEqual((standing[0].function, "number * 3" in texts["src/lib.rt"]), ("twice", True))
        self.assertNotIn("even", texts["proofs/twice/Answers.antt"])


class TextOfACopy(unittest.TestCase):
    """How functions and proofs are cut."""

    def test_clauses_that_are_not_wanted_are_left_out(self):
        lines, left_out, sole = with_clauses(TWICE, ("even",), set())
        self.assertEqual((lines, left_out, sole), ([line for line in TWICE if "sum" not in line], {"sum"}, "even"))

    def test_a_second_clause_stays_if_the_only_one_has_an_answer(self):
        self.assertEqual(with_clauses(TWICE, ("even",), {"even"}), (TWICE, set(), ""))

    def test_a_constant_and_a_function_that_gives_a_type_keep_their_bodies(self):
        self.assertEqual(without_body(TWICE), [*TWICE[:6], "    unreachable!()", "}"])
        for head in ("const fn most() -> u64", "fn each() -> impl Iterator<Item = u64>"):
            self.assertEqual(without_body([head, "{", "    made()", "}"]), [head, "{", "    made()", "}"])

    def test_lemmas_are_stated_but_those_that_are_unfolded(self):
        text = "pub low : ℕ\nlow = 1\n\nhigh : low ≡ 1\n  unfolding low\nhigh = refl\n"
        self.assertEqual(stated(text, {"low"}), "pub low : ℕ\nlow = 1\n\nhigh : low ≡ 1\n  unfolding low\nhigh = ?\n")


class FunctionsOfACrate(InARoom):
    """By the paths that the checker has for them."""

    def test_a_function_of_a_type_is_named_by_the_module_of_the_type(self):
        self.put({"src/lib.rt": "mod rows;\n\nfn row() {\n    1\n}\n\nfn drop() {}\n", "src/rows/row.rt": ROW})
        found = {one.path: (one.file, one.first, one.end, one.calls_itself) for one in functions_of(self.top / "src")}
        wanted = {
            "row": ("lib.rt", 2, 5, False),
            "drop": ("lib.rt", 6, 7, False),
            "rows::row::Row::first": ("rows/row.rt", 5, 9, False),
            "rows::row::Row::first_of": ("rows/row.rt", 10, 13, True),
        }
        self.assertEqual(found, wanted)
