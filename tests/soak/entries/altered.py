#!/usr/bin/env python3
"""Tries the built tgaudit on texts of histories, whole and altered: tests/soak/entries/altered.py [SEED [TEXTS]]

The text of each random legal history is handed in as it is, which must pass, and then once for each kind of alteration. An alteration
changes a reply, a worker or a name, swaps two lines, loses a line, has a line twice, or cuts the end. The module plain.py says by the rules
of the plain model which line is the first at fault, and why. The program has to say the same. After some alterations, as two reads that
change places, the text is still the text of a legal history. Then it has to pass. Counts how many were found."""
import argparse
import random
import re
import subprocess
import sys
from collections import Counter
from pathlib import Path

sys.dont_write_bytecode = True
sys.path.insert(0, str(Path(__file__).resolve().parents[3] / "tools"))
from plain import history_at_random, judge
from repository.tree import Tree

PROGRAM = Tree().program("tgaudit")


def pick(draw, lines):
    """The place of an entry, if there is one."""
    places = [at for at, line in enumerate(lines) if " = " in line]
    return draw.choice(places) if places else None


def other_number(draw, word):
    return str(draw.choice([int(word) + 1, max(int(word) - 1, 0), draw.randint(0, 20), 2**64 - 1]))


def with_number(draw, text):
    """The text with one of its numbers altered."""
    found = list(re.finditer(r"[0-9]+", text))
    if not found:
        return None
    one = draw.choice(found)
    return text[: one.start()] + other_number(draw, one[0]) + text[one.end() :]


def a_reply(draw, lines):
    at = pick(draw, lines)
    before, answered, reply = lines[at].rstrip("\n").partition(" = ")
    others = ["ok", "ok 0", "refused vertices", "refused workers", "refused memory", "", "denied read distinct", "denied append law", f"{reply} ", f"{reply} 0"]
    others += [it for it in (with_number(draw, reply),) if it is not None]
    lines[at] = before + answered + draw.choice([it for it in others if it != reply]) + "\n"


def a_worker(draw, lines):
    at = pick(draw, lines)
    word, _, rest = lines[at].partition(" ")
    lines[at] = f"{other_number(draw, word)} {rest}"


def a_name(draw, lines):
    at = pick(draw, lines)
    before, answered, reply = lines[at].partition(" = ")
    word, _, rest = before.partition(" ")
    lines[at] = f"{word} {with_number(draw, rest) or rest}{answered}{reply}"


def two_swapped(draw, lines):
    at = draw.randrange(len(lines) - 1)
    lines[at], lines[at + 1] = lines[at + 1], lines[at]


def one_lost(draw, lines):
    del lines[draw.randrange(len(lines))]


def one_twice(draw, lines):
    at = draw.randrange(len(lines))
    lines.insert(at, lines[at])


def the_end_cut(draw, lines):
    text = "".join(lines)
    lines[:] = [text[: draw.randrange(len(text))]]


def a_byte(draw, lines):
    text = "".join(lines)
    at = draw.randrange(len(text))
    lines[:] = [text[:at] + draw.choice("0 1\n=rwx:,") + text[at + 1 :]]


def a_version(draw, lines):
    lines[0] = draw.choice(["kovshenul entries 2\n", "kovshenul entries\n", "\n", "kovshenul entries 1 \n"])


KINDS = [a_reply, a_worker, a_name, two_swapped, one_lost, one_twice, the_end_cut, a_byte, a_version]


def try_text(text, about):
    """The verdict of tgaudit on the text, which must be the verdict of the rules."""
    ran = subprocess.run([PROGRAM], input=text.encode(), capture_output=True, timeout=60)
    # A second line says what the line has to be.
    said, wanted = (ran.stdout + ran.stderr).decode().splitlines(keepends=True)[0], judge(text)
    if said != wanted or ran.returncode != (0 if wanted.startswith("audit ok") else 1):
        Path("/tmp/entries.failed").write_text(text)
        sys.exit(f"entries: FAILED: {about}: said {said!r} with status {ran.returncode}, and not {wanted!r}: see /tmp/entries.failed")
    return ran.returncode == 1


def main():
    words = argparse.ArgumentParser(usage=__doc__)
    words.add_argument("seed", nargs="?", type=int, default=1)
    words.add_argument("texts", nargs="?", type=int, default=120)
    asked = words.parse_args()
    seed, texts = asked.seed, asked.texts
    found, passed = Counter(), Counter()
    for number in range(texts):
        draw = random.Random(f"{seed} {number}")
        text = history_at_random(draw, draw.choice([1, 5, 30, 200]))
        if try_text(text, f"text {number} of seed {seed}"):
            sys.exit(f"entries: FAILED: text {number} of seed {seed} is legal, and was refused")
        for kind in KINDS:
            lines = text.splitlines(keepends=True)
            kind(draw, lines)
            told = try_text("".join(lines), f"text {number} of seed {seed}, {kind.__name__}")
            (found if told else passed)[kind.__name__] += 1
    for kind in KINDS:
        print(f"{kind.__name__}: {found[kind.__name__]} found, {passed[kind.__name__]} are legal still")
    print(f"entries: {texts} texts passed, {sum(found.values())} altered ones were found, and {sum(passed.values())} that are legal passed")


if __name__ == "__main__":
    main()
