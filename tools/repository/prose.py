"""How a page reads: its sentences outside of tables, code, headings and quotations, and whether these keep the limits."""
from __future__ import annotations

import re
from dataclasses import dataclass
from functools import cached_property
from typing import ClassVar, Iterator

# The most words of a sentence, and the share of the sentences of a page that may have more.
LONG, LONG_SHARE = 25, 0.25

# No sentence has more words than this.
LONGEST = 45

# The most colons and semicolons for each sentence. The colon that ends the lead-in of a list item isn't counted.
MARKS = 0.3

# The most negations in 100 words, and on a page that lists what isn't done. The answer `never` isn't one of them.
NEGATIONS, NEGATIONS_OF_LIMITS = 2.5, 3.5

# Sentences under this number of words are short. Three of them in a row may come once on a page.
SHORT, IN_A_ROW = 8, 3

# How often a page may have words that we use too often.
FAVOURITES = 3

NEGATION = re.compile(r"\b(no|not|none|nothing|nobody|neither|nor|without|cannot|\w+n't)\b", re.I)
FAVOURITE = re.compile(r"\b(told|tells?|stands?|behind|wants?|wanting)\b", re.I)
LEAD_IN = re.compile(r"(^|\n)(\*\*[^*]+\*\*|[A-Z][^:.\n]{0,40}):(?=\s)")
END = re.compile(r"(?<=[.!?])\s+(?=[A-Z`\"\[*])")
LEFT_OUT = ("|", "    ", "#", ">")


@dataclass(frozen=True)
class Prose:
    """The sentences of a page, by its paragraphs and list items. A span of code in them is one word."""

    paragraphs: tuple[tuple[str, ...], ...]

    @classmethod
    def of(cls, page: str) -> Prose:
        """The prose of a page in Markdown."""
        text = re.sub(r"```.*?```", "", page, flags=re.S)
        text = re.sub(r"`[^`]*`", "X", text)
        text = "\n".join(line for line in text.split("\n") if not line.startswith(LEFT_OUT))
        text = re.sub(r"!?\[([^]]*)\]\([^)]*\)", r"\1", text)
        text = re.sub(r"^\s*(?:[-*]|\d+\.)\s+", "\n\n", text, flags=re.M)
        text = LEAD_IN.sub(r"\1\2", text)
        paragraphs = (END.split(" ".join(paragraph.split())) for paragraph in re.split(r"\n\s*\n", text))
        return cls(tuple(tuple(it for it in paragraph if len(it.split()) > 2) for paragraph in paragraphs))

    @property
    def sentences(self) -> list[str]:
        """All sentences of the page, of three words and more."""
        return [sentence for paragraph in self.paragraphs for sentence in paragraph]

    HEADS: ClassVar[str] = f"{'page':28} sentences  words  over {LONG}  longest  marks  negations  rows  words of {FAVOURITES}"

    @cached_property
    def lengths(self) -> list[int]:
        """How many words each sentence has."""
        return [len(sentence.split()) for sentence in self.sentences]

    @property
    def long(self) -> float:
        """The share of the sentences that are long."""
        return sum(length > LONG for length in self.lengths) / len(self.lengths)

    @property
    def marks(self) -> float:
        """Colons and semicolons for each sentence."""
        return sum(sentence.count(":") + sentence.count(";") for sentence in self.sentences) / len(self.lengths)

    @property
    def negations(self) -> float:
        """Negations in 100 words."""
        return 100 * len(NEGATION.findall(" ".join(self.sentences))) / sum(self.lengths)

    @property
    def rows(self) -> int:
        """How many rows of short sentences there are."""
        return sum(self.short_rows(paragraph) for paragraph in self.paragraphs)

    @property
    def favourites(self) -> list[str]:
        """The words that we use too often, as often as they come."""
        return FAVOURITE.findall(" ".join(self.sentences))

    def row(self, name: str, most_negations: float = NEGATIONS) -> str:
        """The line of a page in a table with HEADS: its measures, and at last whether it has a fault."""
        if not self.sentences:
            return f"{name:28} {0:9}"
        mean = sum(self.lengths) / len(self.lengths)
        measures = f"{len(self.lengths):9} {mean:6.1f} {self.long:8.1%} {max(self.lengths):8} {self.marks:6.2f} {self.negations:10.2f}"
        return f"{name:28} {measures} {self.rows:5} {len(self.favourites):11}{' x' if any(self.faults(most_negations)) else ''}"

    def faults(self, most_negations: float = NEGATIONS) -> Iterator[str]:
        """The measures that are above their limits."""
        if not self.sentences:
            return
        if self.long > LONG_SHARE:
            yield f"{self.long:.0%} of the sentences have over {LONG} words, and at most {LONG_SHARE:.0%} may"
        for sentence, length in zip(self.sentences, self.lengths):
            if length > LONGEST:
                yield f"a sentence of {length} words, and at most {LONGEST}: {sentence[:60]} .."
        if self.marks > MARKS:
            yield f"{self.marks:.2f} colons and semicolons a sentence, and at most {MARKS}"
        if self.negations > most_negations:
            yield f"{self.negations:.2f} negations in 100 words, and at most {most_negations}"
        if self.rows > 1:
            yield f"{IN_A_ROW} sentences under {SHORT} words come in a row {self.rows} times, and at most once"
        if len(self.favourites) > FAVOURITES:
            yield f"{', '.join(self.favourites)}: at most {FAVOURITES} of these words"

    @staticmethod
    def short_rows(paragraph: tuple[str, ...]) -> int:
        """How many rows of short sentences are long enough to count."""
        marks = "".join("s" if len(sentence.split()) < SHORT else "." for sentence in paragraph)
        return len(re.findall(f"s{{{IN_A_ROW},}}", marks))
