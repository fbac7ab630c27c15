"""Tests of the reader of crates.txt, and of a
tree."""
import tempfile
import unittest
from pathlib import Path

from ..tree import TOP, BadInput, Tree, files_below, parse_crates, proof_of

LIST = """# A head, with a colon: and words
high may_wait=2 tests_may=Threads+Wait: middle low std_heap   # behind it
archive staticlib: low
middle: low
low:
"""


class ListOfCrates(unittest.TestCase):
    """Tests of the reader of crates.txt."""

    def setUp(self):
        room = tempfile.TemporaryDirectory()
        self.addCleanup(room.cleanup)
        self.top = Path(room.name)
        (self.top / "crates.txt").write_text(LIST, encoding="utf-8")
        self.tree = Tree(self.top)

    def test_a_line_has_a_name_options_and_libraries(self):
        self.assertEqual(list(self.tree.crates), ["high", "archive", "middle", "low"])
        self.assertEqual(self.tree.crates["high"].options, ("may_wait=2", "tests_may=Threads+Wait"))
        self.assertEqual(self.tree.crates["high"].uses, ("middle", "low", "std_heap"))
        self.assertEqual(self.tree.crates["low"].uses, ())

    def test_a_line_can_be_written_again(self):
        for crate in self.tree.crates.values():
            self.assertEqual(parse_crates(crate.line), {crate.name: crate})

    def test_a_static_library_is_told(self):
        self.assertEqual([name for name, crate in self.tree.crates.items() if crate.is_static], ["archive"])

    def test_what_stands_below_comes_lowest_first(self):
        self.assertEqual(self.tree.below("high"), ["low", "middle"])
        self.assertEqual(self.tree.with_those_below("archive", "high"), ["low", "archive", "middle", "high"])

    def test_a_crate_that_is_not_there_is_named(self):
        with self.assertRaisesRegex(BadInput, "no crate highest in .*crates.txt"):
            self.tree.below("highest")

    def test_a_file_is_read_where_it_is(self):
        self.tree.source("low").mkdir(parents=True)
        (self.tree.source("low") / "main.rt").write_text("fn main() {}", encoding="utf-8")
        self.assertEqual(self.tree.text("low", "src/main.rt"), "fn main() {}")
        self.assertIsNone(self.tree.text("low", "src/lib.rt"))
        self.assertEqual(files_below(self.tree.folder("low"), ".rt"), ["src/main.rt"])
        self.assertTrue(self.tree.is_program("low"))
        self.assertFalse(self.tree.is_program("high"))

    def test_a_copy_leaves_out_what_was_built(self):
        (self.tree.folder("low") / "out").mkdir(parents=True)
        (self.tree.folder("low") / "src").mkdir()
        copied = self.tree.copy_crate("low", self.top / "room")
        self.assertEqual([it.name for it in copied.iterdir()], ["src"])

    def test_a_proof_stands_below_the_path_of_its_function(self):
        self.assertEqual(proof_of(Path("a"), "store::Store::grant"), Path("a/proofs/store/Store/grant"))


class ThisTree(unittest.TestCase):
    """The tree that the package is in."""

    def test_each_crate_has_a_folder(self):
        tree = Tree()
        self.assertTrue((TOP / "crates.txt").is_file())
        self.assertEqual([name for name in tree.crates if not tree.source(name).is_dir()], [])

    def test_each_crate_comes_after_those_that_use_it(self):
        listed = list(Tree().crates)
        for at, name in enumerate(listed):
            self.assertFalse(set(listed[:at]) & set(Tree().below(name)), name)
