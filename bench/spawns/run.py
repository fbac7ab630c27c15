#!/usr/bin/env python3
"""run.py [ROUNDS]: the memory of eight sessions that spawn 1,600 subjects in each round, in 625 rounds unless it is given.

It builds the program beside it (`main.rt.in`), unproved, with the crates that it needs. It prints the memory after the seventh round, which
is after some 10,000 subjects, and after the last round. The figures are the bytes that the program holds, by the counter of tests/held, and
the resident memory. They are with glibc's malloc as it is, and with one arena and both thresholds at 64 KiB, as docs/LASTING.md advises. It
needs Linux and a C compiler."""
import argparse
import os
import re
import struct
import subprocess
import sys
import tempfile
from pathlib import Path

sys.dont_write_bytecode = True
sys.path.insert(0, str(Path(__file__).resolve().parents[2] / "tools"))
from repository.tree import TOP
from repository.unproved import build_beside

HERE = Path(__file__).resolve().parent
USES = "tg_rights tg_model tg_payload tg_journal tg_store tg_shared"
# So many subjects are spawned in a round, and after so many rounds it is looked for the first time.
SUBJECTS, FIRST = 1_600, 7

ADVISED = {"MALLOC_ARENA_MAX": "1", "MALLOC_MMAP_THRESHOLD_": "65536", "MALLOC_TRIM_THRESHOLD_": "65536"}


def resident(process):
    """What the process has resident, in KB."""
    told = Path(f"/proc/{process.pid}/status").read_text()
    return int(re.search(r"^VmRSS:\s+(\d+) kB", told, re.M)[1])


def held(program, rounds, more):
    """What was resident after the first rounds and after the last."""
    found = []
    with subprocess.Popen([program], stdin=subprocess.PIPE, stdout=subprocess.PIPE, text=True, env=os.environ | more) as process:
        for number in range(1, rounds + 1):
            process.stdin.write("\n")
            process.stdin.flush()
            said = process.stdout.readline().strip()
            if said != str(number):
                sys.exit(f"spawns: round {number}: {said}")
            if number in (FIRST, rounds):
                found.append(resident(process))
        process.stdin.close()
    return found


def counted(program, rounds, folder):
    """How many bytes it holds after so many rounds, when it has read that there are no more."""
    library, told = folder / "counter.so", folder / "told"
    compiler = os.environ.get("CC", "cc").split()
    subprocess.run([*compiler, "-O2", "-shared", "-fPIC", "-o", library, TOP / "tests/held/counter.c"], check=True)
    told.write_bytes(bytes(4096))
    with_counter = os.environ | {"LD_PRELOAD": str(library), "HELD_TELL": str(told)}
    subprocess.run([program], input="\n" * rounds, text=True, check=True, stdout=subprocess.DEVNULL, env=with_counter)
    return struct.unpack_from("<7Q", told.read_bytes())[6]


def tell(name, first, last, unit, rounds):
    behind = f"behind {FIRST * SUBJECTS} subjects, {last} behind {rounds * SUBJECTS}"
    print(f"{name}: {first} {unit} {behind}: {last / first:.2f}", flush=True)


def main():
    words = argparse.ArgumentParser(usage=__doc__)
    words.add_argument("rounds", nargs="?", type=int, default=625)
    rounds = words.parse_args().rounds
    with tempfile.TemporaryDirectory() as folder:
        program = build_beside(USES, HERE / "main.rt.in", Path(folder) / "spawns")
        tell("held", *(counted(program, number, Path(folder)) for number in (FIRST, rounds)), "bytes", rounds)
        for name, more in (("as it is", {}), ("as advised", ADVISED)):
            tell(f"resident, malloc {name}", *held(program, rounds, more), "KB", rounds)


if __name__ == "__main__":
    main()
