"""Tests of the duties of a page for its figures and its words."""
import unittest

from ..pages import sections, unintroduced, unsourced


class Sections(unittest.TestCase):
    """How a page is cut."""

    def test_a_part_of_a_section_has_the_text_before_it(self):
        page = "# Page\nhead\n## One\nlead\n### A part\nits text\n## Two\nrest\n"
        found = {heading: text.split() for heading, text in sections(page)}
        self.assertEqual(found, {"Page": ["head"], "One": ["lead"], "A part": ["lead", "its", "text"], "Two": ["rest"]})

    def test_blocks_of_code_are_left_out(self):
        self.assertNotIn("12 ms", dict(sections("# Page\n```text\n12 ms\n```\nrest\n"))["Page"])


class Figures(unittest.TestCase):
    """Which figures need a command."""

    def faults(self, text: str) -> list[str]:
        """The sections of a page of this text that have a figure without a source."""
        return list(unsourced(f"# Page\n\n{text}\n"))

    def test_a_measured_figure_needs_a_source(self):
        for figure in ("9 ms", "0.44 microseconds", "1.41 times", "20,000 instructions", "36 MB", "2 percent", "95 s of the processor"):
            self.assertEqual(self.faults(f"It takes {figure}."), [f"Page: {figure}"])

    def test_a_command_a_page_of_figures_or_plain_words_are_a_source(self):
        for source in ("`bench/run.py`", "`.ci/run`", "[Limits](LIMITS.md#pauses)", "[it](../bench/README.md)", "It was measured\nonce.", "\n\n    bench/run.py"):
            self.assertEqual(self.faults(f"It takes 9 ms. {source}"), [])

    def test_sizes_and_counts_are_no_measured_figures(self):
        self.assertEqual(self.faults("A block has 4 KiB. At most 64 subjects are active, and 2 times 3 is 6."), [])

    def test_the_source_of_a_section_is_that_of_its_parts(self):
        self.assertEqual(list(unsourced("# Page\n## One\n`bench/run.py` prints this.\n### A part\n9 ms\n## Two\n8 ms\n")), ["Two: 8 ms"])


class Words(unittest.TestCase):
    """Where an own word is introduced."""

    def test_a_word_is_introduced_where_it_first_is(self):
        self.assertEqual(list(unintroduced("A *deed* is a command. Deeds have entries.", ["deed"])), [])
        self.assertEqual(list(unintroduced("- **Deeds**: here.", ["deed"])), [])
        self.assertEqual(list(unintroduced("| deed | what it is |", ["deed"])), [])
        self.assertEqual(list(unintroduced("Deeds are here. A *deed* is a command.", ["deed", "seat"])), ["deed"])

    def test_code_and_links_are_no_words(self):
        self.assertEqual(list(unintroduced("`deed` and [it](deed.md)", ["deed"])), [])


if __name__ == "__main__":
    unittest.main()
