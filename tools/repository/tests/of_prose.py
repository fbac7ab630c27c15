"""Tests of the counts of a page's prose."""
import unittest

from ..prose import NEGATIONS, Prose

PAGE = """# A heading without a limit of words: it isn't counted; and so on

The first sentence is here. It has `two spans: of code`, and [a link](of/a/page.md) too.

- **A lead-in**: its colon isn't counted.
- An item. It has a second sentence.

| a table: | isn't; counted |

    a command: isn't

> A quotation isn't counted: it is as it was.
"""


class ProseOfAPage(unittest.TestCase):
    """Tests of the sentences and of the limits of a page."""

    def faults(self, text: str) -> list[str]:
        """The faults of a page that has this text alone."""
        return list(Prose.of(text).faults())

    def test_tables_code_headings_and_quotations_are_left_out(self):
        prose = Prose.of(PAGE)
        self.assertEqual(len(prose.paragraphs[0]), 2)
        self.assertEqual([len(sentence.split()) for sentence in prose.sentences], [5, 7, 6, 5])
        self.assertNotIn(":", " ".join(prose.sentences))

    def test_a_page_with_no_prose_has_no_fault(self):
        self.assertEqual(self.faults("| a | b |\n"), [])

    def test_a_row_has_the_measures_and_a_sign_of_a_fault(self):
        row = Prose.of("It is so here: and there; as it was. It is so.").row("PAGE").split()
        self.assertEqual(row, ["PAGE", "2", "6.0", "0.0%", "9", "0.50", "0.00", "0", "0", "x"])
        self.assertEqual(Prose.of("| a | b |").row("PAGE").split(), ["PAGE", "0"])

    def test_a_long_sentence_is_a_fault(self):
        others = "It is so here and it is also there today. " * 9
        self.assertEqual(self.faults(f"It {'is ' * 43}so. {others}"), [])
        self.assertIn("46 words", self.faults(f"It {'is ' * 44}so. {others}")[0])

    def test_many_long_sentences_are_a_fault(self):
        self.assertIn("100%", self.faults(f"It {'is ' * 24}so. ")[0])

    def test_marks_negations_and_favourite_words_are_counted(self):
        self.assertIn("colons", self.faults("It is so here: and there; as it was.")[0])
        self.assertIn("negations", self.faults("It is not so here and it is also there.")[0])
        self.assertEqual(list(Prose.of("It is not so here and it is also there.").faults(100 * NEGATIONS)), [])
        self.assertIn("stands", self.faults("It stands here, as it stands there, as it stands, and stands.")[0])

    def test_short_sentences_in_a_row_may_come_once(self):
        short = "It is so. It was so. It is so.\n\n"
        self.assertEqual(self.faults(short), [])
        self.assertIn("2 times", self.faults(2 * short)[0])


if __name__ == "__main__":
    unittest.main()
