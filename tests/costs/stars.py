#!/usr/bin/env python3
"""stars.py [PROGRAM] [--most VERTICES]

Counts, under valgrind, the instructions of a question with a star and of a question about two vertices. The scripts make 1,000,
10,000 and 80,000 vertices. It says whether the first takes at most 20 times as many as the second. No clause speaks of this cost. A
question about each vertex by itself lists the same.

  * R Y   who could hold r over the first object
  X * *   what worker 1, who can take all of it, could hold

On each script a run asks one question about two vertices, and others ask one question more. The difference is the cost of the
additional question, so neither the start of the process nor the script counts. PROGRAM is crates/tgcould/out/tgcould unless it is
given. --most leaves out scripts that make more vertices. Exit status 1 if a star takes more, or if a run doesn't end well. Without
valgrind nothing is run."""
import sys
from argparse import Namespace
from pathlib import Path

sys.dont_write_bytecode = True
sys.path.insert(0, str(Path(__file__).resolve().parents[2] / "tools"))
from repository.counted import instructions, run_check

SIZES = (1_000, 10_000, 80_000)
MOST_TIMES = 20
ONE = "1 r 2"
STARS = ("* r 2", "1 * *")


def of_script(program: str, size: int, *questions: str) -> int:
    """The instructions of a run with these questions on a script that makes so many objects."""
    options = ["--workers", "2", "--stock", f"c{size}"]
    for question in questions:
        options += ["--ask", question]
    return instructions(program, options, ["edge 1 0 t"] + ["0 create rg"] * size)


def is_bounded(program: str, size: int) -> bool:
    """Whether each star costs little more than one question does."""
    first = of_script(program, size, ONE)
    one = of_script(program, size, ONE, ONE) - first
    is_kept = True
    for star in STARS:
        more = of_script(program, size, ONE, star) - first
        print(f"'{star}' of {size:,} vertices: {more:,} instructions, {more / one:.2f} times those of '{ONE}'", flush=True)
        is_kept = is_kept and more <= MOST_TIMES * one
    return is_kept


def count(asked: Namespace) -> int:
    """Tries each size that is asked for. Returns the status."""
    kept = [is_bounded(asked.program, size) for size in SIZES if size <= asked.most]
    return 0 if all(kept) else 1


if __name__ == "__main__":
    sys.exit(run_check(__doc__, count, {"--most": {"type": int, "default": 80_000}}, program="tgcould"))
