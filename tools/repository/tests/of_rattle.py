"""Tests of the reader of Rattle
sources."""
import unittest

from ..rattle import clauses, definitions, functions, head_of, types

SOURCE = '''
//! fn in_a_comment(a: u64) {}
pub(crate) struct Pair<T>(T, T);
enum Way { Left, Right }

impl<T> Pair<T> {
    /// Does nothing.
    pub fn none() -> u64
        ensures { result
            ≡ 0 }
    {
        0
    }
    fn three<F: Fn(u64) -> u64>(&self, f: F, pair: (u64, BTreeMap<u64, u64>),) {}
}

trait Shown {
    fn show(&self, text: &'static str)
        ghost { text }
        requires first { text ≡ "(" }
        ensures* second { { 0 } ≡ result };
}
'''

HEAD = """//! Places of cells.
//!
//! - `Place` names a cell.
use crate::place;
//! No part of the head.
"""

SPECS = """-- A comment.
use Rattle.std.specs.Prelude.{ℕ}
use Rattle.tg_model.specs.Graph.{ProtectionGraph, label as label_in}

pub record IsLike (a b : ℕ) : Type 0 where
  -- the same
  pub same : a ≡ b

abbrev pub twice : ℕ → ℕ
twice n = n + n
"""


class Sources(unittest.TestCase):
    """Tests of the reader of a .rt
    file."""

    def test_parameters_are_counted_with_self(self):
        found = [(it.name, it.parameters) for it in functions(SOURCE)]
        self.assertEqual(found, [("none", 0), ("three", 3), ("show", 2)])

    def test_types_are_named(self):
        self.assertEqual(types(SOURCE), ["Pair", "Way"])

    def test_a_head_ends_at_the_first_line_of_code(self):
        self.assertEqual(head_of(HEAD), "Places of cells.\n\n- `Place` names a cell.")
        self.assertEqual(head_of(SOURCE), "")

    def test_a_clause_is_one_text_however_it_is_broken(self):
        found = [(it.text, it.key) for it in clauses(SOURCE)]
        wanted = [("result ≡ 0", "result≡0"), ('text ≡ "("', 'text≡"("'), ("{ 0 } ≡ result", "{0}≡result;")]
        self.assertEqual(found, wanted)


class Specs(unittest.TestCase):
    """Tests of the reader of a .antt
    file."""

    def test_a_definition_has_its_lines(self):
        found = definitions(SPECS)
        self.assertEqual({name: len(lines) for name, lines in found.bodies.items()}, {"IsLike": 2, "twice": 2})

    def test_a_word_is_imported_under_its_name_or_another(self):
        wanted = {word: ("tg_model", "Graph", name) for word, name in (("ProtectionGraph",) * 2, ("label_in", "label"))}
        self.assertEqual(definitions(SPECS).imports, wanted)
