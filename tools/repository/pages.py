"""The duties of a page for its figures and its words. It has a command for each measured figure, and an introduction for each own
word."""
from __future__ import annotations

import re
from typing import Iterable, Iterator

# A figure that somebody measured, by its unit. Sizes that follow from the code, as 16 MiB, are none.
MEASURED = re.compile(
    r"\d[\d.,]*\s(?:ns|µs|ms|MB|(?:nano|micro|milli)seconds?|(?:million )?instructions|percent)\b"
    r"|\d\.\d+ times\b|\d[\d.,]*\s(?:s|seconds|minutes) of (?:the )?processor\b|[\d.,]+ million commands a second\b"
)

# Where a figure comes from: a command, a page of figures, or the words that say that there is no command.
SOURCE = re.compile(
    r"`(?:bench|tests|tools|bindings|evidence|docs/inside|viewer)/[\w.-]|`(?:\.ci/run|rt )"
    r"|^ {4}(?:bench|tests|tools|bindings|evidence)/\w"
    r"|\]\([\w./]*(?:bench/|(?<![\w/]))(?:README|LEARNT|LIMITS)\.md[)#]|\bmeasured\s+once\b",
    re.M,
)

FENCE = re.compile(r"^```.*?^```$", re.S | re.M)


def sections(page: str) -> Iterator[tuple[str, str]]:
    """The heading and the text of each section, without blocks of code. A part of a section begins with the section's first text."""
    lead = ""
    pieces = re.split(r"^(#{1,3}) (.*)$", FENCE.sub("", page), flags=re.M)
    for level, heading, text in zip(pieces[1::3], pieces[2::3], pieces[3::3]):
        lead = lead if level == "###" else text
        yield heading, text if lead is text else lead + text


def unsourced(page: str) -> Iterator[str]:
    """The sections that have a measured figure and don't say where it comes from, each with its first figure."""
    for heading, text in sections(page):
        figure = MEASURED.search(re.sub(r"`[^`]*`", "", text))
        if figure and not SOURCE.search(text):
            yield f"{heading}: {' '.join(figure.group().split())}"


def unintroduced(page: str, words: Iterable[str]) -> Iterator[str]:
    """The words that a page uses before it introduces them in italics, in bold or as the head of a table's row."""
    text = re.sub(r"`[^`]*`|\]\([^)]*\)", "", FENCE.sub("", page))
    for word in words:
        first = re.search(rf"\b{word}s?\b", text, re.I)
        if first and not re.search(rf"\*[^*\n]*$|^\| $", text[:first.start()].rpartition("\n")[2]):
            yield word
