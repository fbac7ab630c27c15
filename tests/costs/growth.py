#!/usr/bin/env python3
"""growth.py [PROGRAM] [--only TEXT]

Counts, under valgrind, the instructions of a few commands beside little and beside much that they don't change. It says whether the
second count is at most so many times the first. No clause speaks of this cost. A walk over all that is there finds the same.

  minors   a vertex is made and given up, and a nursery collection follows, beside a row in Old of 1,000 edges and of 90,000, of
           which the first was given up
  learnt   the same beside a row of 1,000 edges and of 50,000 that nursery collections moved to Old
  marks    one nursery collection, beside a row of 1,000 edges and of 50,000 that the one before it moved to Old while another cell
           was remembered
  noted    one nursery collection, beside a row in Old of 1,000 edges and of 20,000, of which each cell came to name a young vertex that
           lies in Old by now
  rows     one row in Old after the other gets an edge to a new vertex, and a nursery collection follows, beside 30 other long rows in
           Old and beside 300
  grown    a row gets long, and a nursery collection follows, beside 30 other long rows in Old and beside 300
  removes  the last edge of a row is given up, of a row of 200 edges and of 20,000
  holes    the last edge of a row is given up and a vertex is made, whose edge takes its place, in a row of 1,000 and of 50,000
  young    a full collection of 30,000 vertices that were just made, by one worker and by 64
  bare     20 full collections of 16,383 objects. The first count is of a tree, in which each names two others. The second is of objects
           that name nothing, and has to be less, since one look tells it
  spawns   a worker is spawned and retires, beside 3 others and beside 63
  parties  worker 0, whose row is empty, lists it, beside one other worker and beside 63
  late     the same of the worker that was spawned last, after others retired
  hints    a take from a long row, by a worker whose own row is long. The first count is of rows whose names come after the first 64.
           Their indexes are looked up. The second is of rows among the first 64 names. Where their indexes are is kept, so that it
           has to be less

For each size two scripts are run, with and without the commands that are counted. Their difference over the number of times is the cost
of one. PROGRAM is crates/tgstore/out/tgstore unless it is given. --only runs only the counts whose name has the text. Exit status 1 if
one costs more, or if a run didn't end as it has to. Without valgrind nothing is run."""
import sys
from argparse import Namespace
from collections.abc import Callable
from dataclasses import dataclass
from pathlib import Path

sys.dont_write_bytecode = True
sys.path.insert(0, str(Path(__file__).resolve().parents[2] / "tools"))
from cells import NODES, tree
from repository.counted import instructions, run_check

TIMES = 100
# A row with so many edges has an index.
LONG = 40


@dataclass
class Counted:
    """A script without the commands that are counted, these commands, and how often each of them is there."""

    options: list[str]
    before: list[str]
    rounds: list[str]
    times: int = TIMES


def rounds_of(first: int) -> list[str]:
    """Rounds of a create, a remove and a nursery collection. The first vertex has this name."""
    names = range(first, first + TIMES)
    return [line for name in names for line in ("0 create r", f"0 remove {name} r", "minor")]


def beside_a_hole(row: int, collections: list[str]) -> Counted:
    """Such rounds beside a row that these collections move to Old, and whose first edge is given up then."""
    before = ["0 create r"] * row + collections + ["0 remove 1 r"]
    return Counted(["--workers", "1", "--stock", f"c{row + TIMES}"], before, rounds_of(row + 1))


def minors(row: int) -> Counted:
    return beside_a_hole(row, ["full"])


def learnt(row: int) -> Counted:
    return beside_a_hole(row, ["minor", "minor"])


def marks(row: int) -> Counted:
    """Worker 0 has an old object, 2, that comes to name a young one while the row of worker 1 comes to Old."""
    young = row + 3
    before = ["0 create g", "full", *["1 create r"] * row, "minor", "0 create r", f"0 grant 2 {young} r", "minor"]
    return Counted(["--workers", "2", "--stock", f"c{row + 2}"], before, ["minor"], times=1)


def noted(row: int) -> Counted:
    """Every third edge is given up and another edge made in its place, and all of these edges come to Old."""
    again = range(1, row + 1, 3)
    before = ["0 create r"] * row + ["full"] + [f"0 remove {name} r" for name in again] + ["0 create r"] * len(again)
    before += ["minor", "minor", "0 create r", "minor"]
    return Counted(["--workers", "1", "--stock", f"c{2 * row}"], before, ["minor"], times=1)


def long_row(name: int) -> list[str]:
    """An object with this name and a long row."""
    return ["0 create g", *(f"0 grant {name} {to} r" for to in range(1, LONG + 1))]


def long_rows(count: int) -> list[str]:
    """So many objects with long rows, all of which lie in Old."""
    first = LONG + 1
    made = [line for name in range(first, first + count) for line in long_row(name)]
    return ["--workers", "1", "--stock", "c1000"], ["0 create r"] * LONG + made + ["full"]


def rows(others: int) -> Counted:
    """One of these rows after the other gets an edge to a new vertex."""
    first, new = LONG + 1, LONG + others + 2
    given = [f"0 grant {first + i % (others + 1)} {new + i} r" for i in range(TIMES)]
    return Counted(*long_rows(others + 1), [line for grant in given for line in ("0 create r", grant, "minor")])


def grown(others: int) -> Counted:
    """Objects that are new get long rows."""
    new = LONG + others + 1
    rounds = [line for name in range(new, new + 10) for line in (*long_row(name), "minor")]
    return Counted(*long_rows(others), rounds, times=10)


def removes(row: int) -> Counted:
    names = range(row, row - TIMES, -1)
    return Counted(["--workers", "1", "--stock", f"c{row}"], ["0 create r"] * row, [f"0 remove {name} r" for name in names])


def holes(row: int) -> Counted:
    """The name that is given up is the name that was made last, whose edge is last."""
    names = range(row, row + TIMES)
    rounds = [line for name in names for line in (f"0 remove {name} r", "0 create r")]
    return Counted(["--workers", "1", "--stock", f"c{row + TIMES}"], ["0 create r"] * row, rounds)


def young(workers: int) -> Counted:
    """All are made by the workers one after the other, and collected once."""
    before = [f"{worker} create r" for worker in range(workers) for _ in range(30_000 // workers)]
    return Counted(["--workers", str(workers), "--stock", "c30000"], before, ["full"], times=1)


def bare(names: int) -> Counted:
    """Objects that name so many others each."""
    made = tree()[2] if names else ["0 create rg"] * NODES
    return Counted(["--workers", "1", "--stock", f"c{NODES}"], made + ["full"], ["full"] * 20, times=20)


def spawns(others: int) -> Counted:
    """Rounds in which worker 0 spawns one, which retires, beside so many others."""
    names = range(others, others + TIMES)
    rounds = [line for name in names for line in ("0 spawn r", f"{name} retire")]
    return Counted(["--workers", str(others), "--stock", f"c{TIMES}"], [], rounds)


def parties(others: int) -> Counted:
    return Counted(["--workers", str(others + 1)], [], ["0 list"] * TIMES)


def late(others: int) -> Counted:
    """Ten are spawned, of whom all but the last retire. So its place isn't its name, which has two digits."""
    *gone, last = range(others + 1, others + 11)
    before = ["0 spawn r", *(line for name in gone for line in (f"{name} retire", "0 spawn r"))]
    return Counted(["--workers", str(others + 1), "--stock", "c10"], before, [f"{last} list"] * TIMES)


def hints(worker: int) -> Counted:
    """The worker, 0 or 70, takes what it has from an object that it made first, and whose row is long, too. The index of another row
    comes first. All names have two digits."""
    made = ["1 create r"] * LONG + ["0 create rwtg"] * 28 + ["0 spawn r"] + ["70 create rwtg"] * 28
    first = {0: LONG + 2, 70: 71}[worker]
    targets = range(first + 1, first + 28)
    given = [f"{worker} grant {first} {target} r" for target in targets]
    takes = [f"{worker} take {first} {targets[i % 27]} r" for i in range(TIMES)]
    return Counted(["--workers", "2", "--stock", "c200"], made + given, takes)


@dataclass
class Check:
    """The count, the amounts beside which it is made, and how many times the first count the second may be."""

    script: Callable[[int], Counted]
    what: str
    unit: str
    sizes: tuple[int, int]
    most_times: float = 1.5


CHECKS = {
    "minors": Check(minors, "a create, a remove and a minor beside a row with a hole of", "edges", (1_000, 90_000), 1.1),
    "learnt": Check(learnt, "the same beside a row that minors moved to Old, of", "edges", (1_000, 50_000)),
    "marks": Check(marks, "a minor beside a row that came to Old while a cell was remembered, of", "edges", (1_000, 50_000), 10),
    "noted": Check(noted, "a minor beside a row whose cells were all remembered once, of", "edges", (1_000, 20_000), 3),
    "rows": Check(rows, "a create, a grant to a long row and a minor beside other long rows:", "rows", (30, 300), 1.2),
    "grown": Check(grown, "a row that gets long and a minor beside other long rows:", "rows", (30, 300), 1.1),
    "removes": Check(removes, "a remove of the last edge of a row of", "edges", (200, 20_000)),
    "holes": Check(holes, "a remove of the last edge and a create, in a row of", "edges", (1_000, 50_000)),
    "young": Check(young, "a full of 30,000 vertices that were made by", "workers", (1, 64)),
    "bare": Check(bare, "a full of 16,383 objects that name", "others each", (2, 0), 0.97),
    "spawns": Check(spawns, "a spawn and a retire beside", "others", (3, 63)),
    "parties": Check(parties, "a list of worker 0 beside", "others", (1, 63), 1.02),
    "late": Check(late, "a list of the last worker beside", "others", (1, 61), 1.02),
    "hints": Check(hints, "a take between long rows by the worker with the name", "and its first object", (70, 0), 0.95),
}


def of_one(program: str, counted: Counted) -> float:
    """The instructions of one round."""
    options, before, rounds = counted.options, counted.before, counted.rounds
    return (instructions(program, options, before + rounds) - instructions(program, options, before)) / counted.times


def is_bounded(program: str, name: str) -> bool:
    """Whether much beside it makes it little dearer."""
    check = CHECKS[name]
    (little, much), unit = check.sizes, check.unit
    few, many = (of_one(program, check.script(size)) for size in (little, much))
    failed = many > check.most_times * few
    told = f"{check.what} {little:,} {unit}: {few:.0f} instructions; {much:,}: {many:.0f}, {many / few:.2f} times as many"
    print(f"growth: {name}: {told}{', FAILED' * failed}", flush=True)
    return not failed


def count(asked: Namespace) -> int:
    """Tries each check that is asked for. Returns the status."""
    kept = [is_bounded(asked.program, name) for name in CHECKS if asked.only in name]
    return 0 if all(kept) else 1


if __name__ == "__main__":
    sys.exit(run_check(__doc__, count, {"--only": {"default": ""}}))
