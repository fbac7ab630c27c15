#!/usr/bin/env python3
"""run.py [--instructions]

The cost of collections of young vertices, and of the first nursery collection after a full one. It calls the library for C that
bindings/check has built (young.c).

By itself it prints the processor time of the first nursery collection after a full one, and of the nursery collection after it.
Each is of 1,000 young vertices, beside 10,000, 100,000 and 1,000,000 vertices. The times are medians of nine runs, and their
ratio comes after them. With --instructions it counts instructions for a vertex that was just made, under valgrind. It counts a
full and a nursery collection, at 100,000 and at 1,000,000 vertices, and prints how many times as many the second number has. It
needs a C compiler."""
import argparse
import os
import subprocess
import sys
import tempfile
from pathlib import Path
from statistics import median

sys.dont_write_bytecode = True
sys.path.insert(0, str(Path(__file__).resolve().parents[2] / "tools"))
from repository.counted import counted

HERE = Path(__file__).resolve().parent
BINDINGS = HERE.parent.parent / "bindings"
ROUNDS = 9
CLOCKED = (10_000, 100_000, 1_000_000)
COUNTED = (100_000, 1_000_000)
KINDS = {"full": "f", "minor": "n"}


def built(folder):
    program = Path(folder) / "young"
    words = [os.environ.get("CC", "cc"), "-O2", "-I", BINDINGS, "-o", program, HERE / "young.c", BINDINGS / "out" / "libkovshenul.a"]
    subprocess.run(words, check=True)
    return program


def ran(words):
    run = subprocess.run([str(word) for word in words], capture_output=True, text=True)
    if run.returncode:
        sys.exit(f"young: status {run.returncode}: {run.stderr[-500:]}")
    return run


def instructions(program, vertices, steps):
    return counted([program, str(vertices), steps]).instructions


def count(program):
    made = {vertices: instructions(program, vertices, "") for vertices in COUNTED}
    for kind, step in KINDS.items():
        few, many = ((instructions(program, vertices, step) - made[vertices]) / vertices for vertices in COUNTED)
        print(f"{kind}: {few:.0f} instructions a young vertex of {COUNTED[0]:,}, {many:.0f} of {COUNTED[1]:,}: {many / few:.2f} times", flush=True)


def clock(program):
    for vertices in CLOCKED:
        times = [[float(line) for line in ran([program, vertices, "fcncn"]).stdout.split()] for _ in range(ROUNDS)]
        full, first, following = (median(it) for it in zip(*times))
        print(f"{vertices:,} vertices: full {full:.0f} µs, first minor {first:.0f} µs, the next {following:.0f} µs: {first / following:.2f} times", flush=True)


def main():
    words = argparse.ArgumentParser(usage=__doc__)
    words.add_argument("--instructions", action="store_true")
    asked = words.parse_args()
    with tempfile.TemporaryDirectory() as folder:
        program = built(folder)
        if asked.instructions:
            count(program)
        else:
            clock(program)


if __name__ == "__main__":
    main()
