#!/usr/bin/env python3
"""audited.py [PROGRAM]

Counts, under valgrind, the instructions of tgaudit for a create and a remove beside 1,000 vertices that stay and beside 50,000. It says
whether the second count is at most 1.5 times the first. No clause speaks of this cost. An audit that forgets unreached vertices at each
entry has the same answers.

For each size two texts are audited, with and without these entries. Their difference over the number of times is the cost of one of
them. PROGRAM is crates/tgaudit/out/tgaudit unless it is given. Exit status 1 if the second costs more, or if a run didn't end well.
Without valgrind nothing is run."""
import sys
from argparse import Namespace
from pathlib import Path

sys.dont_write_bytecode = True
sys.path.insert(0, str(Path(__file__).resolve().parents[2] / "tools"))
from repository.counted import instructions, run_check

FEW, MANY = 1_000, 50_000
TIMES = 100
MOST_TIMES = 1.5


def text(entries: list[str]) -> list[str]:
    """The lines of a history of one worker that has these entries."""
    return ["kovshenul entries 1", "opening 1 100000", "worker c0", *entries, f"entries {len(entries)}"]


def of_one(program: str, size: int) -> float:
    """The instructions of a create and a remove beside as many vertices that stay."""
    stay = [f"0 create r c0 = ok {name}" for name in range(1, size + 1)]
    names = range(size + 1, size + 1 + TIMES)
    rounds = [line for name in names for line in (f"0 create r c0 = ok {name}", f"0 remove {name} r = ok")]
    return (instructions(program, [], text(stay + rounds)) - instructions(program, [], text(stay))) / TIMES


def count(asked: Namespace) -> int:
    """Prints both counts. Returns the status."""
    few, many = (of_one(asked.program, size) for size in (FEW, MANY))
    told = f"beside {FEW:,} vertices: {few:.0f} instructions; {MANY:,}: {many:.0f}, {many / few:.2f} times as many"
    print(f"audited: a create and a remove {told}", flush=True)
    return 0 if many <= MOST_TIMES * few else 1


if __name__ == "__main__":
    sys.exit(run_check(__doc__, count, program="tgaudit"))
