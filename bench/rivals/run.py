#!/usr/bin/env python3
"""run.py [LIVE] [COMMANDS] [--rounds N] [--without-store]

The cost of the store beside programs that a host might have in its place. One has maps in plain Rust (maps.rs), and one has SQLite in
memory (sqlite.c). All run the same mixture of commands (../mixture/mixture.py), of 100,000 vertices and 150,000 commands unless they
are given, and have to give the same answers. The store is called through the library for C that bindings/build has made
(../mixture/mixture.c). All keep a journal.

It prints a table. It has millions of commands a second of processor time, for the making of the vertices and for the rest. It also has
the bytes of a vertex after the making. A figure is the median of N rounds, 3 unless N is given, in which the programs take turns. It
needs rustc, a C compiler and SQLite's headers. --without-store leaves the store out."""
import argparse
import re
import statistics
import subprocess
import sys
import tempfile
from pathlib import Path

sys.dont_write_bytecode = True
HERE = Path(__file__).resolve().parent
TOP = HERE.parent.parent
sys.path.insert(0, str(HERE.parent / "mixture"))
from mixture import Mixture

LIBRARY = TOP / "bindings/out/libkovshenul.a"

# What a program is called, with its words after the file of steps, and what it gives.
WAYS = {
    "the store": ("store", [], "rules, journal, collections"),
    "one map of edges": ("maps", ["edges"], "rules, journal; frees nothing"),
    "a map for each vertex, edges counted": ("maps", ["counts"], "rules, journal; circles stay"),
    "a map for each vertex, mark and sweep": ("maps", ["marks"], "rules, journal, collections"),
    "SQLite, 64 commands in a transaction": ("sqlite", ["64"], "rules, journal, collections"),
    "SQLite, each command by itself": ("sqlite", ["1"], "rules, journal, collections"),
}


def build(folder, has_store):
    """Makes the programs."""
    subprocess.run(["rustc", "-O", "--edition", "2021", "-o", folder / "maps", HERE / "maps.rs"], check=True)
    subprocess.run(["cc", "-O2", "-o", folder / "sqlite", HERE / "sqlite.c", "-lsqlite3"], check=True)
    if has_store:
        source = HERE.parent / "mixture/mixture.c"
        subprocess.run(["cc", "-O2", "-I", TOP / "bindings", "-o", folder / "store", source, LIBRARY], check=True)


def ran(words):
    """The sum over all answers, the bytes and the seconds that a run prints."""
    run = subprocess.run(words, capture_output=True, text=True)
    found = re.match(r"sum (\w+), (?:\d+ page faults, )?(\d+) bytes, ([\d.]+) s", run.stdout)
    if run.returncode or not found:
        sys.exit(f"rivals: {words[0].name}: status {run.returncode}: {run.stderr[-500:]}")
    return found[1], int(found[2]), float(found[3])


def measured(folder, ways, rounds):
    """By way: the seconds of making, those of all, and the bytes after the making, in each round. All give the same answers."""
    figures, sums = {way: [] for way in ways}, {"setup": set(), "all": set()}
    for _ in range(rounds):
        for way, (program, words, _) in ways.items():
            of_setup = ran([folder / program, folder / "steps", *words, "setup"])
            of_all = ran([folder / program, folder / "steps", *words])
            sums["setup"].add(of_setup[0])
            sums["all"].add(of_all[0])
            figures[way].append((of_setup[2], of_all[2], of_setup[1]))
    if any(len(found) > 1 for found in sums.values()):
        sys.exit("rivals: the programs gave different answers")
    return figures


def table(figures, ways, made, steps, live):
    """The lines of the table."""
    yield "| Program | What it gives | Making, million commands a second | The rest | Bytes a vertex |"
    yield "|---|---|---|---|---|"
    for way, rounds in figures.items():
        making = statistics.median(first for first, _, _ in rounds)
        rest = statistics.median(both - first for first, both, _ in rounds)
        size = statistics.median(size for _, _, size in rounds)
        yield f"| {way} | {ways[way][2]} | {made / making / 1e6:.2f} | {steps / rest / 1e6:.2f} | {size / live:.0f} |"


def main():
    words = argparse.ArgumentParser(usage=__doc__)
    words.add_argument("live", type=int, nargs="?", default=100_000)
    words.add_argument("commands", type=int, nargs="?", default=150_000)
    words.add_argument("--rounds", type=int, default=3)
    words.add_argument("--without-store", action="store_true")
    asked = words.parse_args()
    if not asked.without_store and not LIBRARY.is_file():
        sys.exit(f"rivals: there is no {LIBRARY}: run bindings/build, or give --without-store")
    ways = {way: it for way, it in WAYS.items() if it[0] != "store" or not asked.without_store}
    with tempfile.TemporaryDirectory() as name:
        folder, mixture = Path(name), Mixture(asked.live, asked.commands)
        build(folder, not asked.without_store)
        (folder / "steps").write_bytes(mixture.bytes())
        made, steps = len(mixture.setup), len(mixture.steps)
        del mixture
        for line in table(measured(folder, ways, asked.rounds), ways, made, steps, asked.live):
            print(line)


if __name__ == "__main__":
    main()
