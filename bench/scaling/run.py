#!/usr/bin/env python3
"""run.py [VERTICES].. [--rounds N] [--helpers]

The cost of the store as it grows, through the library for C that bindings/build has made (store.c). Beside it comes a plain table of
edges in C (table.c). It prints a table with a row for each number of vertices. The numbers are 10,000, 100,000, 1,000,000, 10,000,000
and 16,000,000 unless others are given. The figures are medians of three rounds, in which the two programs take turns. The peak is the
most memory that was resident, divided by the resident memory after the creates. It prints the load of the machine before and after.
16,000,000 vertices take 4 GB.

With --helpers it prints in place of this how long full collections take by one thread and by four, by the clock. It builds the program
beside it for this (main.rt.in), without proofs. It needs a C compiler and Linux, and asserts nothing."""
import argparse
import os
import subprocess
import sys
import tempfile
from collections import defaultdict
from pathlib import Path
from statistics import median

sys.dont_write_bytecode = True
sys.path.insert(0, str(Path(__file__).resolve().parents[2] / "tools"))
from repository.tree import TOP
from repository.unproved import build_beside

HERE = Path(__file__).resolve().parent
BINDINGS = TOP / "bindings"
SIZES = (10_000, 100_000, 1_000_000, 10_000_000, 16_000_000)
USES = "tg_rights tg_model tg_payload tg_journal tg_store tg_parallel tg_helpers"
COLUMNS = ("create", "read", "label", "young", "old", "first", "next", "bytes", "resident", "greatest", "peak")


def compiled(folder, name, *more):
    compiler = os.environ.get("CC", "cc").split()
    subprocess.run([*compiler, "-O2", "-o", folder / name, *more], check=True)
    return folder / name


def lines_of(program, vertices):
    """What the program prints: a name and a number a line."""
    ran = subprocess.run([program, str(vertices)], stdin=subprocess.DEVNULL, capture_output=True, text=True)
    if ran.returncode:
        sys.exit(f"scaling: {program.name} ended with status {ran.returncode}: {ran.stderr[-500:]}")
    return {name: float(number) for name, number in (line.split() for line in ran.stdout.splitlines())}


def measure(programs, vertices, rounds):
    found = {program: defaultdict(list) for program in programs}
    for _ in range(rounds):
        for program in programs:
            for name, number in lines_of(program, vertices).items():
                found[program][name].append(number)
    for program in programs:
        medians = {name: median(numbers) for name, numbers in found[program].items()}
        medians["peak"] = medians["greatest"] / medians["resident"]
        cells = (f"{medians[it]:10.{3 if it in ('first', 'next', 'peak') else 1}f}" if it in medians else f"{'-':>10}" for it in COLUMNS)
        print(f"{vertices:10} {program.name:6}", *cells, flush=True)


def tell_load(when):
    print(f"load {when}: {os.getloadavg()[0]:.1f} on {os.cpu_count()} processors", flush=True)


def print_table(sizes, rounds, folder):
    store = compiled(folder, "store", "-I", BINDINGS, HERE / "store.c", BINDINGS / "out" / "libkovshenul.a")
    table = compiled(folder, "table", HERE / "table.c")
    print(f"{'vertices':>10} {'':6}", *(f"{it:>10}" for it in COLUMNS), flush=True)
    for vertices in sizes:
        measure((store, table), vertices, rounds)


def print_helpers(sizes, folder):
    program = build_beside(USES, HERE / "main.rt.in", folder / "scaling", is_counted=True)
    for vertices in sizes:
        ran = subprocess.run([program], input=f"{vertices}\n", capture_output=True, text=True, check=True)
        took = defaultdict(list)
        for threads, milliseconds in (line.split() for line in ran.stdout.splitlines()):
            took[threads].append(int(milliseconds))
        print(f"{vertices:10}", *(f"by {threads}: {median(them):.0f} ms" for threads, them in took.items()), flush=True)


def main():
    words = argparse.ArgumentParser(usage=__doc__)
    words.add_argument("sizes", type=int, nargs="*", default=SIZES)
    words.add_argument("--rounds", type=int, default=3)
    words.add_argument("--helpers", action="store_true")
    asked = words.parse_args()
    tell_load("before")
    with tempfile.TemporaryDirectory() as folder:
        if asked.helpers:
            print_helpers(asked.sizes, Path(folder))
        else:
            print_table(asked.sizes, asked.rounds, Path(folder))
    tell_load("after")


if __name__ == "__main__":
    main()
