#!/usr/bin/env python3
"""takes.py [PROGRAM]

Counts the instructions of a take from a row of 200 edges and from a row of 20,000, under valgrind. It says whether the second count
is at most 1.5 times the first. An index that is there and never asked meets every contract, because a walk along the row finds the
same. This script finds such an index. For each row two scripts are run. One makes the row, and the other also takes from it. Their
difference over the number of takes is the cost of one take. The takes go over names that are all along the row. Their number is the
same each time, so the row of the taker is as long in both.

PROGRAM is crates/tgstore/out/tgstore unless it is given. Exit status 1 if takes from the long row cost more, or if a run didn't end
as it has to. Without valgrind nothing is run."""
import sys
from argparse import Namespace
from pathlib import Path

sys.dont_write_bytecode = True
sys.path.insert(0, str(Path(__file__).resolve().parents[2] / "tools"))
from repository.counted import instructions, run_check

SHORT_ROW, LONG_ROW = 200, 20_000
NAMES = 100
TAKES = 2_000
MOST_TIMES = 1.5


def making(size: int) -> list[str]:
    """Worker 0 makes as many objects, and worker 1 may take from it."""
    return ["edge 1 0 t"] + ["0 create r"] * size


def taking(size: int) -> list[str]:
    """Takes of names that are all along the row."""
    step = size // NAMES
    return [f"1 take 0 {2 + i % NAMES * step} r" for i in range(TAKES)]


def of_one_take(program: str, size: int) -> float:
    """The instructions of a take from a row of so many edges."""
    options = ["--workers", "2", "--stock", f"c{LONG_ROW}"]
    made = instructions(program, options, making(size))
    taken = instructions(program, options, making(size) + taking(size))
    return (taken - made) / TAKES


def count(asked: Namespace) -> int:
    """Prints both counts. Returns the status."""
    short, long = (of_one_take(asked.program, size) for size in (SHORT_ROW, LONG_ROW))
    failed = long > MOST_TIMES * short
    told = f"a take from a row of {SHORT_ROW}: {short:.0f} instructions; of {LONG_ROW}: {long:.0f}, {long / short:.2f} times as many"
    print(f"takes: {told}{', FAILED' * failed}")
    return 1 if failed else 0


if __name__ == "__main__":
    sys.exit(run_check(__doc__, count))
