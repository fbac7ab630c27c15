#!/usr/bin/env python3
"""run.py [PROGRAM] [--rounds N] [--only WORD] [--instructions]

Runs the store on scripts that it makes, beside two plain programs that keep a journal as the store does. In reference.rs vertices hold
their states. In boxed.rs payloads are boxes, and cells are counted. For each script it prints the seconds of processor time of the
three, as the median of rounds that take turns. It prints the store's time by each of the others', which of these is the leaner one, and
whether all wrote the same. With --instructions it counts millions of instructions in place of seconds, by valgrind and once each. Other
work on the machine doesn't change them. Some scripts show one thing alone. Their figure is the figure of the script, less the figure of
a script without that thing. With --only it runs only the scripts whose name has the word. It asserts nothing. PROGRAM is
crates/tgstore/out/tgstore unless it is given."""
import argparse
import os
import statistics
import subprocess
import sys
import tempfile
from concurrent.futures import ThreadPoolExecutor
from pathlib import Path

sys.dont_write_bytecode = True
sys.path.insert(0, str(Path(__file__).resolve().parents[1] / "tools"))
from mixture.mixture import WORKERS, Mixture
from repository.counted import counted
from repository.tree import Tree

HERE = os.path.dirname(os.path.abspath(__file__))
BUILT = str(Tree().program("tgstore"))
PLAIN = ("reference", "boxed")


def lists():
    """One worker lists its empty row: what reading a line and writing a reply cost."""
    return ["--workers", "1"], ["0 list"] * 149_796


def creates():
    """One worker makes vertices, about as many as a script can ask for."""
    return ["--workers", "1", "--stock", "c100000"], ["0 create r"] * 95_000


def creates_in_64_rows():
    """64 workers make vertices in turn."""
    return ["--workers", "64", "--stock", "c100000"], [f"{i % 64} create r" for i in range(88_000)]


def reads_and_writes():
    """Writes over eight vertices, and a read after each seventh."""
    lines = ["0 create rw"] * 8
    for i in range(65_000):
        name = 1 + i % 8
        lines.append(f"0 write {name} {i * 7919 % 1_000_003}" if i % 8 else f"0 read {1 + i // 8 % 8}")
    return ["--workers", "1", "--stock", "c2s2m2l2"], lines


def appends_and_inspections():
    """Appends over six logs and a cell, which are denied, and a look at the row of all seven after each seventh."""
    lines = ["edge 0 1 l"] + ["1 create rwtgaluv"] * 7
    for i in range(60_000):
        lines.append(f"1 append {2 + i % 7} {i * 7919 % 1_000_003}" if i % 8 else "0 inspect 1")
    return ["--workers", "2", "--stock", "l6c"], lines


def inspections():
    """A worker looks again and again at another one's row of eight edges."""
    lines = ["edge 0 1 l"] + ["1 create rwtg"] * 8 + ["0 inspect 1"] * 60_000
    return ["--workers", "2", "--stock", "c8"], lines


def takes():
    """A row of 2,000 edges is built by grants, and then 63 workers take from it, as often as a script has room for."""
    lines = [f"edge {k} 0 t" for k in range(1, 64)] + ["0 create tg"] + ["0 create r"] * 2_000
    lines += [f"0 grant 64 {65 + i} r" for i in range(2_000)]
    lines += [f"{k} take 0 64 t" for k in range(1, 64)]
    lines += [f"{1 + i % 63} take 64 {65 + i * 7 % 2_000} r" for i in range(56_900)]
    return ["--workers", "64", "--stock", "c2001"], lines


def collections():
    """A row of 20,000 vertices, and full collections with one new vertex between each two."""
    lines = ["0 create r"] * 20_000 + ["full", "0 create r"] * 200
    return ["--workers", "1", "--stock", "c20200"], lines


def fulls(workers):
    """The cost of 200 full collections of 30,000 vertices in Old alone, in the rows of so many workers."""
    words, lines = vertices_of(workers)
    return words, lines + ["full"] * 201, lines + ["full"]


def young(workers, kind):
    """One collection of 30,000 young vertices: what this takes alone."""
    words, lines = vertices_of(workers)
    return words, lines + [kind], lines


def vertices_of(workers):
    return ["--workers", str(workers), "--stock", "c30000"], [f"{i % workers} create r" for i in range(30_000)]


def holes():
    """A row of 30,000 edges, of which the newest is given up and another made in its place, 20,000 times."""
    lines = ["0 create r"] * 30_000
    last = 30_000
    for i in range(20_000):
        lines += [f"0 remove {last} r", "0 create r"]
        last = 30_001 + i
    return ["--workers", "1", "--stock", "c50000"], lines


def minors():
    """The cost of 1,000 nursery collections alone, beside a row of 20,000 vertices in Old, with nothing made between them."""
    lines = ["0 create r"] * 20_000 + ["full"]
    return ["--workers", "1", "--stock", "c20000"], lines + ["minor"] * 1_000, lines


def minors_beside_a_hole():
    """The same beside a row of 30,000 whose first edge was given up, with a vertex made and given up before each."""
    lines = ["0 create r"] * 30_000 + ["full", "0 remove 1 r"]
    rounds = [line for name in range(30_001, 31_001) for line in ("0 create r", f"0 remove {name} r", "minor")]
    return ["--workers", "1", "--stock", "c31000"], lines + rounds, lines


def spawns():
    """40,000 workers that are spawned and retire, one after the other, beside 63 others."""
    lines = [line for name in range(63, 40_063) for line in ("0 spawn r", f"{name} retire")]
    return ["--workers", "63", "--stock", "c40000"], lines


def mixture(live, commands):
    """A server of so many vertices (mixture/mixture.py)."""
    it = Mixture(live, commands)
    return ["--workers", str(WORKERS), "--stock", f"c{it.creates()}"], it.lines()


SCRIPTS = {
    "lists": lists,
    "creates": creates,
    "creates in 64 rows": creates_in_64_rows,
    "reads and writes": reads_and_writes,
    "appends and inspections": appends_and_inspections,
    "inspections": inspections,
    "takes": takes,
    "holes": holes,
    "collections": collections,
    "fulls of 64 rows": lambda: fulls(64),
    "fulls of one row": lambda: fulls(1),
    "spawns": spawns,
    "a mixture, 1,000": lambda: mixture(1_000, 60_000),
    "a mixture, 20,000": lambda: mixture(20_000, 33_000),
}

# These are too short for a clock.
COUNTED = {
    "minors": minors,
    "minors beside a hole": minors_beside_a_hole,
    "a full of young cells": lambda: young(64, "full"),
    "a minor of young cells": lambda: young(64, "minor"),
}


def seconds(command, script, output):
    """The processor time of one run."""
    with open(script, "rb") as source, open(output, "wb") as sink:
        run = subprocess.Popen(command, stdin=source, stdout=sink)
        _, status, used = os.wait4(run.pid, 0)
        run.returncode = os.waitstatus_to_exitcode(status)
    if run.returncode:
        print(f"{command[0]}: status {run.returncode}")
    return used.ru_utime + used.ru_stime


def instructions(command, script, output):
    """The instructions of one run, in millions."""
    run = counted(command, read(script))
    Path(output).write_bytes(run.output)
    return run.instructions / 1e6


def read(path):
    with open(path, "rb") as file:
        return file.read()


def write_script(folder, name, lines):
    script = os.path.join(folder, name)
    with open(script, "w") as file:
        file.write("".join(line + "\n" for line in lines))
    return script


def measure(name, script, folder, program, rounds, cost, jobs):
    words, lines, *without = script()
    whole, *part = [write_script(folder, f"script{i}", it) for i, it in enumerate([lines, *without])]
    runs = {"store": [program, *words], **{it: [os.path.join(folder, it), *words, "--journal"] for it in PLAIN}}

    def took(it):
        output = os.path.join(folder, f"{it}.out")
        less = sum(cost(runs[it], script, output) for script in part)
        return cost(runs[it], whole, output) - less

    with ThreadPoolExecutor(jobs) as pool:
        in_turn = [list(pool.map(took, runs)) for _ in range(rounds)]
    store, *plain = (statistics.median(it) for it in zip(*in_turn))
    same = len({read(os.path.join(folder, f"{it}.out")) for it in runs}) == 1
    leaner = PLAIN[plain.index(min(plain))]
    numbers = " ".join(f"{it:10.3f}" for it in (store, *plain))
    print(f"{name:24} {len(lines):8} {numbers} {store / plain[0]:12.2f} {store / plain[1]:9.2f}  {leaner:9}  {'yes' if same else 'NO'}", flush=True)


def main():
    words = argparse.ArgumentParser(usage=__doc__)
    words.add_argument("program", nargs="?", default=BUILT)
    words.add_argument("--rounds", type=int, default=5)
    words.add_argument("--only", default="")
    words.add_argument("--instructions", action="store_true")
    asked = words.parse_args()
    program = os.path.abspath(asked.program)
    if not os.path.exists(program):
        sys.exit(f"{program} isn't there: build it by `rt run` in crates/tgstore, or name a program")
    with tempfile.TemporaryDirectory() as folder:
        for it in PLAIN:
            subprocess.run(["rustc", "-O", "--edition", "2021", "-o", os.path.join(folder, it), os.path.join(HERE, f"{it}.rs")], check=True)
        unit = "M" if asked.instructions else "s"
        columns = " ".join(f"{f'{it} {unit}':>10}" for it in ("store", "ref.", "boxed"))
        print(f"{'script':24} {'lines':>8} {columns} {'of reference':>12} {'of boxed':>9}  {'leaner':9}  same output")
        scripts = {**SCRIPTS, **COUNTED} if asked.instructions else SCRIPTS
        how = (1, instructions, len(PLAIN) + 1) if asked.instructions else (asked.rounds, seconds, 1)
        for name in (it for it in scripts if asked.only in it):
            measure(name, scripts[name], folder, program, *how)


if __name__ == "__main__":
    main()
