"""Tests of the reader of the file of a mutant, and of how the mutant is planted."""
from repository.tree import BadInput, Tree, write_text

from ..mutant import Mutant, Public, mutants_of, read_mutant
from .stored import InARoom

WHAT = "what: a user suffers\ncheck: pack\nrefused: pack: bits\n"
EDIT = "file: src/words.rt\nold: left\nnew: right\n"

# Files that are no mutants, with the message on each after the name of the file.
BAD_FILES = {
    f"{WHAT}by chance\n{EDIT}": r":4: not of the form that .* has: by chance",
    f"{WHAT}by: chance\n{EDIT}": r":4: 'by:' isn't expected here",
    f"{WHAT}what: again\n{EDIT}": r":4: 'what:' isn't expected here",
    f"{WHAT}old: left\nnew: right\n": r":4: 'old:' isn't expected here",
    f"{WHAT}file: src/words.rt\nnew: right\n": r":5: 'new:' isn't expected here",
    f"{WHAT}file: src/words.rt\nold: left\n": r": it lacks one of ",
    f"what: a user suffers\n{EDIT}": r": it lacks one of ",
    f"what: a user suffers\ncheck: a, b\n{EDIT}": r":2: 'check:' is followed by 'FUNCTION', and not by: a, b",
    f"what: a user suffers\ncheck: pack\nrefused: pack\n{EDIT}": r":3: 'refused:' is followed by 'FUNCTION: CLAUSE",
    f"what: a user suffers\nfound: by chance\n{EDIT}": r":2: 'found:' is followed by 'test CRATE NAME', ",
}


class FileOfAMutant(InARoom):
    """Tests of the reader of a file, and of the messages if it isn't of the form or doesn't fit
    the tree."""

    def read(self, text: str) -> Mutant:
        """The mutant in a file with this text."""
        write_text(self.top / "name.edit", text)
        return read_mutant(self.top / "name.edit", "tg_word")

    def test_the_error_of_a_bad_file_names_its_line(self):
        for text, said in BAD_FILES.items():
            with self.subTest(text=text), self.assertRaisesRegex(BadInput, f"/name.edit{said}"):
                self.read(text)

    def test_the_error_of_an_edit_that_does_not_fit_names_its_line(self):
        mutant = self.read(WHAT + EDIT)
        for text, said in {"": "stands 0 times", "left, left": "stands 2 times", None: "has no file src/wo"}.items():
            with self.assertRaisesRegex(BadInput, f"/name.edit:5: .*{said}"):
                mutant.planted(lambda _, text=text: text)

    def test_each_line_is_read(self):
        lines = "kind: a kind\nrefused: row::Row::grow: len,\n  room\npublic: Heap::grow of tg_graph: grown.len, kept\n"
        mutant = self.read(f"what: a user\n  suffers\ncheck: grow\n{lines}breaks: returns, loop-1\n{EDIT}")
        self.assertEqual((mutant.name, mutant.crate, mutant.kind), ("name", "tg_word", "a kind"))
        self.assertEqual((mutant.what, mutant.function, mutant.clauses), ("a user suffers", "grow", ("len", "room")))
        self.assertEqual(mutant.public, Public("Heap::grow", "tg_graph", ("grown.len", "kept")))
        self.assertEqual(mutant.breaks, ("returns", "loop-1"))

    def test_a_text_of_several_lines_is_read(self):
        mutant = self.read(f"{WHAT}file: a.rt\nold:\n| left\n|   right\n|\nnew: right\nold: a: b\nnew:\n| c\n")
        edits = [(edit.old, edit.new, edit.line) for edit in mutant.edits]
        self.assertEqual(edits, [("left\n  right\n", "right", 5), ("a: b", "c", 10)])

    def test_a_run_stands_in_the_place_of_clauses(self):
        for found in ("test tg_graph grows", "held a_script", "row tgstore group/name", "counted takes", "allocation"):
            mutant = self.read(f"what: a user suffers\nfound: {found}\n{EDIT}")
            self.assertEqual((" ".join(mutant.found), mutant.function, mutant.clauses), (found, "", ()))

    def test_edits_of_one_file_are_planted_in_turn(self):
        mutant = self.read(f"{WHAT}{EDIT}old: right one\nnew: new one\nfile: src/lib.rt\nold: mod\nnew: pub mod\n")
        texts = {"src/words.rt": "the left one", "src/lib.rt": "mod words;"}
        wanted = {"src/words.rt": "the new one", "src/lib.rt": "pub mod words;"}
        self.assertEqual(mutant.planted(texts.get), wanted)


class MutantsOfATree(InARoom):
    """They are in the folders of crates, and each has a name of its own."""

    def test_the_mutants_of_all_crates_are_found(self):
        self.put({"crates.txt": "high: low\nlow:\n", "crates/low/mutants/one.edit": WHAT + EDIT})
        found = [(mutant.name, mutant.crate) for mutant in mutants_of(Tree(self.top)).values()]
        self.assertEqual(found, [("one", "low")])

    def test_a_name_is_of_one_mutant_and_a_folder_of_a_crate(self):
        files = {"crates/high/mutants/one.edit": "the same name", "crates/none/mutants/two.edit": "no crate none"}
        for file, said in files.items():
            self.put({"crates.txt": "high: low\nlow:\n", "crates/low/mutants/one.edit": WHAT + EDIT, file: WHAT + EDIT})
            with self.assertRaisesRegex(BadInput, said):
                mutants_of(Tree(self.top))
            (self.top / file).unlink()
