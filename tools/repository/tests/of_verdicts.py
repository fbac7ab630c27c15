"""Tests of the reader of the toolchain's log. Each of five wrong logs has to be found."""
import tempfile
import unittest
from pathlib import Path

from ..tree import Tree
from ..verdicts import UNSAFE, axioms_in, faults_of, last_line, parts_of, planted_faults, sum_of, unsafe_code

LOG = """rt: begins
== tg_low
checked tg_low::f, 1 of 1
logic=proved functions=1 sum=0123456789abcdef
== program
axioms libc: libc::close, libc::read, libc::write (3 of the 393 declared)
axioms std: none reached of the 2 declared
logic=proved functions=2 axioms=3 sum=0123456789abcdef native=nat
== summary
2 of 2 crates ok
"""
LISTED = """axioms libc: 2 reached of the 3 declared
  libc::close reached
  libc::open
  libc::read reached
logic=proved functions=2 axioms=2 sum=0123456789abcdef
"""


class Logs(unittest.TestCase):
    """Tests of the reader of a log."""

    def test_parts_and_last_lines(self):
        parts = parts_of(LOG)
        self.assertEqual(list(parts), ["tg_low", "program", "summary"])
        self.assertEqual(last_line(parts["tg_low"]), "logic=proved functions=1 sum=0123456789abcdef")
        self.assertEqual(last_line("rt: stopped\n"), "")

    def test_axioms(self):
        self.assertEqual(axioms_in(parts_of(LOG)["program"]), ["libc::close", "libc::read", "libc::write"])
        self.assertEqual(axioms_in(LISTED), ["libc::close", "libc::read"])

    def test_a_right_log_has_no_faults(self):
        self.assertEqual(list(faults_of(parts_of(LOG), ["tg_low", "program"], "0123456789abcdef", str)), [])

    def test_wrong_logs_are_found(self):
        self.assertEqual(list(planted_faults()), [])


class Sources(unittest.TestCase):
    """Tests of the reader of the sources."""

    def test_unsafe_code(self):
        self.assertEqual(len(UNSAFE.findall("// It owns nothing.\nunsafe impl Send for Past {}\n\nfn safe() {}\n#[unsafe(no_mangle)]\n")), 1)
        files = [file for file, _ in unsafe_code(Tree())]
        self.assertIn("crates/tg_journal/src/past.rt", files)

    def test_a_sum_of_files(self):
        with tempfile.TemporaryDirectory() as name:
            folder = Path(name)
            (folder / "a").write_text("one")
            (folder / "b").write_text("two")
            both = sum_of([folder / "a", folder / "b"], folder)
            self.assertNotEqual(both, sum_of([folder / "a"], folder))
            (folder / "b").write_text("two.")
            self.assertNotEqual(both, sum_of([folder / "a", folder / "b"], folder))
