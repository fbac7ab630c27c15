"""A run: what is due, which sample is tried, what runs find, the table, and what a run leaves."""
import subprocess
import sys
from unittest.mock import patch
from contextlib import redirect_stdout
from io import StringIO
from pathlib import Path

from repository.tree import Tree

from .. import by_run, trying
from ..check import Report, report_of
from ..due import Kept, drawn, stated_in, texts_below
from ..mutant import Public
from ..rooms import sweep
from ..source import functions_of
from ..table import table_of
from ..trying import Run
from ..verdict import Outcome
from .stored import ANSWERS, LEMMAS, LIB, InARoom, OfASmallCrate, mutant_with

COUNTS = "pub trait Counts {\n    fn count(&self) -> u64\n        ensures* { result ≤ 9 };\n}\n"
RUN = """
import sys, tempfile, time
from driver.rooms import in_a_room
in_a_room(lambda: (tempfile.mkdtemp(), print("begun", flush=True), time.sleep(60)))
"""


class WhatIsDue(OfASmallCrate):
    """A mutant of which a file has changed that its verdict rests on."""

    def is_due(self, file: str, text: str) -> bool:
        """Whether the mutant is due, if it was kept before a file had this text."""
        self.put({"name.edit": "", "crates.txt": "small: low\nlow:\n", "crates/low/src/lib.rt": LIB})
        mutant, kept = mutant_with(path=self.top / "name.edit"), Kept(self.top / "kept")
        for step in (lambda: kept.keep(Tree(self.top), mutant), lambda: self.put({file: text})):
            for one in (functions_of, stated_in, texts_below):
                one.cache_clear()
            step()
        return kept.due(Tree(self.top), [mutant]) == [mutant]

    def test_it_is_due_if_what_it_rests_on_changes(self):
        for file, text in {
            "name.edit": "changed",
            "crates/small/src/lib.rt": LIB.replace("1 << 63", "1 << 62"),
            "crates/small/proofs/twice/Answers.antt": ANSWERS + "-- more\n",
            "crates/small/proofs/Lemmas.antt": LEMMAS + "-- more\n",
            "crates/low/src/lib.rt": LIB.replace("result ≡ number }", "result ≤ number }"),
            "crates/low/specs/Lib.antt": "changed",
        }.items():
            self.assertTrue(self.is_due(file, text), file)

    def test_it_is_not_due_if_another_body_or_proof_changes(self):
        for file, text in {
            "crates/small/src/lib.rt": LIB.replace("    number\n}", "    number + 0\n}"),
            "crates/small/proofs/same/Answers.antt": ANSWERS,
            "crates/low/src/lib.rt": LIB.replace("    number + number\n", "    2 * number\n"),
            "crates/low/proofs/Lemmas.antt": LEMMAS,
        }.items():
            self.assertFalse(self.is_due(file, text), file)

    def test_without_a_folder_all_are_due(self):
        self.put({"kept": "no folder"})
        self.assertTrue(self.is_due("more", ""))


class WhatIsTried(OfASmallCrate):
    """All mutants, or the mutants that are due, within a time."""

    def run_of(self, names: str, is_limited: bool, seconds: list[float]) -> str:
        """The report on mutants that are refused, if the clock of processor time shows these seconds."""
        mutants = [mutant_with(name=name, path=self.top / "crates.txt") for name in names]

        def check(_run: Run, _crate: str, _folder: Path, functions: list[str]) -> Report:
            """The report on these functions."""
            lines = [f"fn small::{name}: `search` did not prove `returns-clause-even`\n" for name in functions]
            return report_of((line, 0.0) for line in (*lines, "only=1 holes=0\n"))

        clock = iter(seconds)
        with redirect_stdout(StringIO()) as told, patch.object(Run, "check", check), patch.object(trying, "MOST", 1):
            with patch.object(trying, "seconds_of_children", lambda: next(clock, seconds[-1])):
                run = Run(self.tree, self.top, 1, is_limited, began=0)
                self.assertTrue(run.try_mutants(Kept(self.top / "kept"), mutants))
        return told.getvalue()

    def test_what_was_tried_is_not_due(self):
        self.run_of("a", True, [0])
        self.assertIn("1 in all, 0 due, 0 tried\n", told := self.run_of("a", True, [0]))
        self.assertIn("\n0 refused, 0 found by tests, 0 not\n", told)

    def test_the_time_ends_a_limited_run(self):
        # (the first group takes 400 seconds of 600, so too few are left for another group)
        self.assertIn("3 in all, 3 due, 1 tried; a sample drawn by ", self.run_of("abc", True, [0, 400]))

    def test_what_is_due_is_tried_within_the_time(self):
        self.assertIn("3 in all, 3 due, 3 tried\n", self.run_of("abc", True, [0, 100]))

    def test_all_are_tried_without_a_limit(self):
        self.assertIn("\n3 refused, ", self.run_of("abc", False, [0, 4000]))

    def test_a_commit_draws_the_order(self):
        mutants = [mutant_with(name=name) for name in "abcdefgh"]
        self.assertEqual(drawn(mutants, "one"), drawn(reversed(mutants), "one"))
        self.assertNotEqual(drawn(mutants, "one"), drawn(mutants, "two"))


class FoundByARun(InARoom):
    """A script that fails finds the mutant, one that ends well doesn't, and all else judges nothing."""

    def told(self, script: str, errors: str | None = None) -> tuple[Outcome, str]:
        """The verdict on a mutant, by a script and the errors of the build."""
        self.put({"crates.txt": "", "script": script})
        with patch.object(by_run, "build_program", lambda *_: errors):
            return by_run.try_script(Tree(self.top), "tgstore", ["bash", f"{self.top}/script"])

    def test_each_end_of_a_run(self):
        for script, errors, wanted in (
            ("exit 1", "src/main.rt: error\n", (Outcome.NOT_JUDGED, "tgstore isn't built: src/main.rt: error ")),
            ("echo 'held: a_row of 3 FAILED: 1 for 2'; exit 1", None, (Outcome.FOUND, "a_row of 3 FAILED: 1 for 2")),
            ("echo runs: 3 passed, 1 failed; exit 1", None, (Outcome.FOUND, "3 passed, 1 failed")),
            ("echo runs: 0 passed, 0 failed; exit 1", None, (Outcome.NOT_JUDGED, "runs: 0 passed, 0 failed ")),
            ("echo runs: 1 passed, 0 failed", None, (Outcome.NOT_FOUND, "runs: 1 passed, 0 failed ")),
            ("echo allocation: 3 files, 2 faults; exit 1", None, (Outcome.FOUND, "3 files, 2 faults")),
            ("echo no such row >&2; exit 2", None, (Outcome.NOT_JUDGED, "no such row ")),
        ):
            self.assertEqual(self.told(script, errors), wanted)


class Table(OfASmallCrate):
    """A clause of a public function has the mutants that it refuses, and the mutants that a private clause below it
    refuses."""

    def test_a_clause_has_its_mutants(self):
        self.put({"crates/small/src/lib.rt": COUNTS + LIB})
        own = mutant_with(name="own", clauses=("sum",), kind="off by one")
        public = Public("twice", "small", ("sum", "even.part"))
        below = mutant_with(name="below", function="same", clauses=("ensures",), public=public)
        rows = [row for row in table_of(self.tree, [own, below]).split("\n") if "`" in row]
        wanted = ["| `Counts::count` | `ensures` | - |", "| `twice` | `sum` | below, own |"]
        wanted += ["| `twice` | `even` | below (part) |", "| off by one | `small` | own |"]
        self.assertEqual(rows, ["## `small`", *wanted])


class WhatARunLeaves(InARoom):
    """Nothing."""

    def test_a_run_that_is_ended_leaves_nothing(self):
        places = {"PYTHONPATH": ":".join(sys.path), "TMPDIR": str(self.top), "PATH": "/usr/bin:/bin"}
        for end in (subprocess.Popen.terminate, subprocess.Popen.kill):
            with subprocess.Popen([sys.executable, "-B", "-c", RUN], env=places, stdout=subprocess.PIPE) as ran:
                ran.stdout.readline()
                self.assertEqual(len(list(self.top.iterdir())), 1)
                end(ran)
            sweep(self.top)
            self.assertEqual(list(self.top.iterdir()), [])
