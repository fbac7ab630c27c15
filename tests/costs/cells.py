#!/usr/bin/env python3
"""cells.py [--write] [PROGRAM]

Counts, under valgrind, the instructions of a full collection for a vertex, by one thread and by two helpers. It says whether they are
at most 1.02 times the stored figure in tests/costs/cells.figures. No clause speaks of this cost. A call that the compiler no longer
inlines gives the same heap, and only this script finds it. The heaps:

  rows     64 workers with 546 objects each
  tree     objects that name two others each, the children before their parents
  random   the same tree, whose places are in no order

Two scripts are run, with 5 collections and with 25. Their difference over 20 times the number of vertices is the cost of a vertex. If
two helpers work, the instructions of both are counted. So the count shows a helper's walk, and not how the helpers share it. Because
they wait for each other, each script is run three times then, and the least counts.

--write makes the figures anew, beside the kit that built the program. Each kit has a compiler of its own, whose code differs a little.
Therefore a program that another kit built may take up to 1.08 times the stored figure. A walk that lost its layout took 1.11 to 1.19
times. PROGRAM is crates/tgstore/out/tgstore unless it is given. Exit status 1 if a collection takes more, or if a run didn't end as it
has to. Without valgrind nothing is run."""
import sys
from argparse import Namespace
from collections.abc import Callable
from pathlib import Path

sys.dont_write_bytecode = True
sys.path.insert(0, str(Path(__file__).resolve().parents[2] / "tools"))
from repository.counted import instructions, run_check
from repository.kit import version
from repository.tree import read_text, write_text

FIGURES = Path(__file__).resolve().parent / "cells.figures"

# How many workers there are, how many objects, and the lines that make them.
Shape = tuple[int, int, list[str]]
FEW, MANY = 5, 25
# The limit for a program of the kit that made the figures, and for one of another kit.
MOST_TIMES, MOST_TIMES_ELSEWHERE = 1.02, 1.08
HELPERS = (1, 2)
TIMES = {1: 1, 2: 3}
WORKERS, OBJECTS = 64, 546
NODES = 16_383
# A step that has no divisor with the number of nodes. It goes over all of them, in no order that a reader would see.
STEP = 10_001


def rows() -> Shape:
    """How many workers and objects there are, and the lines that make them."""
    return WORKERS, WORKERS * OBJECTS, [f"{worker} create rw" for worker in range(WORKERS) for _ in range(OBJECTS)]


def tree_of(name_of: Callable[[int], int]) -> Shape:
    """A worker makes the nodes, joins each but the root to its parent, and then holds the root alone."""
    made = ["0 create rg"] * NODES
    joined = [f"0 grant {name_of((node - 1) // 2)} {name_of(node)} r" for node in range(1, NODES)]
    left = [f"0 remove {name_of(node)} rg" for node in range(1, NODES)]
    return 1, NODES, made + joined + left


def tree() -> Shape:
    """The children before their parents."""
    return tree_of(lambda node: NODES - node)


def random() -> Shape:
    """The same tree, whose places are in no order."""
    return tree_of(lambda node: 1 + node * STEP % NODES)


SHAPES = {"rows": rows, "tree": tree, "random": random}


def of_a_vertex(program: str, shape: str, helpers: int) -> float:
    """The instructions of a full collection for a vertex."""
    workers, objects, before = SHAPES[shape]()
    options = ["--workers", str(workers), "--stock", f"c{objects}", "--helpers", str(helpers)]
    few, many = (least(TIMES[helpers], program, options, before + ["full"] * fulls) for fulls in (FEW, MANY))
    return (many - few) / (MANY - FEW) / (workers + objects)


def least(times: int, program: str, options: list[str], lines: list[str]) -> int:
    """The least instructions of so many runs."""
    return min(instructions(program, options, lines) for _ in range(times))


def read_figures() -> tuple[str, dict[tuple[str, int], float]]:
    """The kit that made the stored figures, and each of them by its shape and the number of helpers."""
    made_by, *rest = read_text(FIGURES).splitlines()
    words = [line.split() for line in rest]
    return made_by, {(shape, int(helpers)): float(figure) for shape, helpers, figure in words}


def write_figures(program: str) -> int:
    """Makes the figures anew. Returns the status."""
    made = [f"{shape} {helpers} {of_a_vertex(program, shape, helpers):.1f}" for shape in SHAPES for helpers in HELPERS]
    write_text(FIGURES, "\n".join([version(), *made]) + "\n")
    print("\n".join(made))
    return 0


def check(program: str) -> int:
    """Compares with the stored figures. Returns the status."""
    made_by, known = read_figures()
    most = MOST_TIMES
    if made_by != version():
        most = MOST_TIMES_ELSEWHERE
        print(f"cells: this is {version()}, and the figures are of {made_by}: up to {most} times is allowed. --write makes them anew")
    failed = 0
    for (shape, helpers), figure in known.items():
        now = of_a_vertex(program, shape, helpers)
        is_more = now > most * figure
        failed += is_more
        told = f"{now:.1f} instructions a vertex; {figure} is stored: {now / figure:.3f} times"
        print(f"cells: {shape} by {helpers}: {told}{', FAILED' * is_more}", flush=True)
    return 1 if failed else 0


def count(asked: Namespace) -> int:
    """Does what the command line asks for. Returns the status."""
    return write_figures(asked.program) if asked.write else check(asked.program)


if __name__ == "__main__":
    sys.exit(run_check(__doc__, count, {"--write": {"action": "store_true"}}))
