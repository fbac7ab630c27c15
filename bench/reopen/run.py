#!/usr/bin/env python3
"""run.py [--entries N] [--vertices N] [--rounds N]

The cost to resume a store from entries, and to reopen a store from a snapshot. The first table compares `resume` with the calls of `apply`
and `make` that made the same entries. The store has 8 workers and 100,000 objects that live. The entries, 10,000,000 unless N is given, are
in memory already, in parts of 10,000, and the store forgets each part. The second table compares `Store::reopen` with the creates and
grants that made the same graph. The graph has 1,000,000 objects and twice as many edges, unless N is given.

A time is the processor time of a step, as the median of three rounds, in which the two steps take turns. Memory is of one more run. It is
the bytes of malloc that the process held (counted.c), and the resident memory, each without its amount before the step. The program beside
this script (main.rt.in) is built without proofs. It needs a C compiler and Linux, 4 GB of memory for 10,000,000 entries, and asserts
nothing."""
import argparse
import os
import re
import struct
import subprocess
import sys
import tempfile
from pathlib import Path
from statistics import median

sys.dont_write_bytecode = True
sys.path.insert(0, str(Path(__file__).resolve().parents[2] / "tools"))
from repository.unproved import build_beside

HERE = Path(__file__).resolve().parent
USES = "tg_rights tg_model tg_payload tg_journal tg_snapshot tg_store tg_resume"


class Program:
    """The program, which takes a step for each line."""

    def __init__(self, program, folder, is_counted=False):
        self.told = folder / "told"
        self.told.write_bytes(bytes(16))
        more = {"LD_PRELOAD": str(folder / "counted.so"), "COUNTED_IN": str(self.told)} if is_counted else {}
        self.process = subprocess.Popen([program], stdin=subprocess.PIPE, stdout=subprocess.PIPE, text=True, env=os.environ | more)

    def step(self, line):
        """Takes a step, and returns the number that it came to."""
        self.process.stdin.write(line + "\n")
        self.process.stdin.flush()
        said = self.process.stdout.readline().split()
        if len(said) != 2 or said[0] != line.split()[0]:
            sys.exit(f"reopen: {line}: {' '.join(said)}")
        return int(said[1])

    def seconds(self, line):
        """The processor time of a step."""
        before = self.spent()
        self.step(line)
        return self.spent() - before

    def spent(self):
        return int(Path(f"/proc/{self.process.pid}/schedstat").read_text().split()[0]) / 1e9

    def memory(self, line):
        """Of a step, in bytes: what is held of malloc after it, the most on the way, and the most that was resident."""
        held, _ = struct.unpack("<2Q", self.told.read_bytes())
        with open(self.told, "r+b") as file:
            file.write(struct.pack("<2Q", held, held))
        Path(f"/proc/{self.process.pid}/clear_refs").write_text("5")
        resident = self.resident("VmRSS")
        self.step(line)
        after, most = struct.unpack("<2Q", self.told.read_bytes())
        return after - held, most - held, self.resident("VmHWM") - resident

    def resident(self, name):
        told = Path(f"/proc/{self.process.pid}/status").read_text()
        return int(re.search(rf"^{name}:\s+(\d+) kB", told, re.M)[1]) * 1024

    def close(self):
        self.process.stdin.close()
        self.process.wait()


def print_row(name, number, beside=None, unit=""):
    ratio = "" if beside is None else f"{number / beside:10.2f}"
    print(f"{name:60} {number:12.2f} {unit:4}{ratio}", flush=True)


def resume(program, folder, entries, rounds):
    run = Program(program, folder)
    made = run.step(f"entries {entries}")
    times = {"apply": [], "resume": []}
    for _ in range(rounds):
        for step in times:
            times[step].append(run.seconds(step))
            run.step("drop")
    run.close()
    apply = median(times["apply"])
    print_row(f"apply of {made} entries", apply, unit="s")
    print_row("resume of the same entries", median(times["resume"]), apply, "s")
    found = {}
    for step in times:
        run = Program(program, folder, is_counted=True)
        run.step(f"entries {entries}")
        found[step] = run.memory(step)
        run.close()
    print_memory("apply", "resume", found)


def reopen(program, folder, vertices, rounds):
    run = Program(program, folder)
    run.step(f"make {vertices}")
    edges = run.step("snapshot")
    run.step("drop")
    times = {f"make {vertices}": [], "reopen": []}
    for _ in range(rounds):
        for step in times:
            times[step].append(run.seconds(step))
            run.step("drop")
    run.close()
    make = median(times[f"make {vertices}"])
    print_row(f"creates and grants of {vertices} objects and {edges} edges", make, unit="s")
    print_row("reopen from the snapshot", median(times["reopen"]), make, "s")
    print_memory("make", "reopen", memory_of_reopen(program, folder, vertices))


def memory_of_reopen(program, folder, vertices):
    run = Program(program, folder, is_counted=True)
    found = {"make": run.memory(f"make {vertices}"), "snapshot": run.memory("snapshot")}
    run.step("drop")
    found["reopen"] = run.memory("reopen")
    run.close()
    return found


def print_memory(first, second, found):
    least = found[first][0] / 1e6
    for name, (held, most, resident) in found.items():
        print_row(f"{name}: held of malloc after it", held / 1e6, least, "MB")
        print_row(f"{name}: the most that it held of malloc", most / 1e6, least, "MB")
        print_row(f"{name}: the most that was resident", resident / 1e6, None, "MB")


def print_load(when):
    print(f"load {when}: {os.getloadavg()[0]:.1f} on {os.cpu_count()} processors", flush=True)


def main():
    words = argparse.ArgumentParser(usage=__doc__)
    words.add_argument("--entries", type=int, default=10_000_000)
    words.add_argument("--vertices", type=int, default=1_000_000)
    words.add_argument("--rounds", type=int, default=3)
    asked = words.parse_args()
    print_load("before")
    with tempfile.TemporaryDirectory() as name:
        folder = Path(name)
        compiler = os.environ.get("CC", "cc").split()
        subprocess.run([*compiler, "-O2", "-shared", "-fPIC", "-o", folder / "counted.so", HERE / "counted.c"], check=True)
        program = build_beside(USES, HERE / "main.rt.in", folder / "reopen", is_counted=True)
        resume(program, folder, asked.entries, asked.rounds)
        reopen(program, folder, asked.vertices, asked.rounds)
    print_load("after")


if __name__ == "__main__":
    main()
