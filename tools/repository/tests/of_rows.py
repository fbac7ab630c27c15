"""Tests of the reader of a stored row."""
import tempfile
import unittest
from pathlib import Path

from ..rows import RUNS, Row, from_pieces, rows_in
from ..tree import BadInput


class StoredRow(unittest.TestCase):
    """Tests of the reader of the files of a
    row."""

    def setUp(self):
        room = tempfile.TemporaryDirectory()
        self.addCleanup(room.cleanup)
        self.row = Row(Path(room.name) / "scripts" / "some")
        self.row.folder.mkdir(parents=True)

    def put(self, file: str, text: str) -> None:
        """Puts a file into the row."""
        (self.row.folder / file).write_text(text, encoding="utf-8")

    def test_what_is_missing_is_empty(self):
        self.assertEqual((self.row.words, self.row.stored("stdin"), self.row.status, self.row.each), ([], b"", 0, []))
        self.assertEqual(self.row.named("stdin.from", "other"), "other")
        self.assertEqual(self.row.name, "scripts/some")

    def test_words_are_those_of_a_shell(self):
        self.put("args", "--ask '1 r 2' ''\n--stock c9\n")
        self.assertEqual(self.row.words, ["--ask", "1 r 2", "", "--stock", "c9"])

    def test_pieces_stand_for_a_file(self):
        self.put("stdin.pieces", "1 3 0 create r\\n0 read #\\n\n9 9 full\\n\n")
        self.assertEqual(self.row.stored("stdin"), b"".join(b"0 create r\n0 read %d\n" % it for it in (1, 2, 3)) + b"full\n")
        self.put("each.pieces", "1 2 --helpers=#\\n\n")
        self.assertEqual(self.row.each, ["--helpers=1", "--helpers=2"])

    def test_a_piece_without_numbers_is_named(self):
        with self.assertRaisesRegex(BadInput, "some:2: a line is 'FIRST LAST PIECE'"):
            from_pieces(b"1 1 full\\n\nfull\n", "some")


class StoredRows(unittest.TestCase):
    """The rows of this tree."""

    def test_each_can_be_read(self):
        for group in (it.name for it in RUNS.iterdir() if it.is_dir() and not it.name.startswith("__")):
            for row in rows_in(group):
                self.assertTrue(row.folder.name and isinstance(row.words, list) and row.status >= 0, row.name)
