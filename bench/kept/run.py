#!/usr/bin/env python3
"""run.py [--folder FOLDER] [--rounds N] [--entries N]

What a store costs that is kept in a file, beside libsqlite3. The first table has answers a second, if a sync is for one answer, for 100,
and for 1,000. An answer is the answer to a write. Beside it stand rows a second that libsqlite3 inserts in transactions of as many rows, in
WAL with FULL sync. The second table has the time to open a file of N entries, 1,000,000 unless N is given. Beside it stand the time of
`tgstore --resume` for the text of the same history, and the time of a store without a file for the same commands.

A time is by the clock, as the median of three rounds unless N is given, in which both programs take turns. The files are in the
folder, which is made in the folder for temporary files unless it is given. A disk that does nothing at a sync shows other figures, so the
file system is printed. The program beside this script (main.rt.in) is built without proofs. It needs a C compiler and libsqlite3 with its
header. The second table needs the built tgstore. It asserts nothing."""
import argparse
import os
import subprocess
import sys
import tempfile
import time
from pathlib import Path
from statistics import median

sys.dont_write_bytecode = True
sys.path.insert(0, str(Path(__file__).resolve().parents[2] / "tools"))
from repository.tree import Tree
from repository.unproved import build_beside

HERE = Path(__file__).resolve().parent
USES = "sqlite_disk tg_file tg_filed tg_kept tg_model tg_payload tg_revive tg_store"
# How many answers a sync has, and how many answers are timed.
BATCHES = ((1, 1_000), (100, 50_000), (1_000, 500_000))


class Program:
    """The program, which takes a step for each line."""

    def __init__(self, program):
        self.process = subprocess.Popen([program], stdin=subprocess.PIPE, stdout=subprocess.PIPE, text=True)

    def seconds(self, line):
        """How long a step takes, by the clock."""
        begun = time.monotonic()
        self.process.stdin.write(line + "\n")
        self.process.stdin.flush()
        if not self.process.stdout.readline():
            sys.exit(f"kept: {line}: it ended")
        return time.monotonic() - begun


def clear(folder):
    for it in folder.iterdir():
        it.unlink()


def rate_kept(program, folder, batch, count):
    clear(folder)
    run = Program(program)
    run.seconds(f"begin {folder}/store.kept")
    rate = count / run.seconds(f"serve {count} {batch}")
    run.seconds("drop")
    return rate


def rate_sqlite(program, folder, batch, count):
    clear(folder)
    ran = subprocess.run([program, folder / "store.db", str(count), str(batch)], check=True, capture_output=True, text=True)
    return count / float(ran.stdout)


def rates(kept, sqlite, folder, rounds):
    print(f"{'answers a second':32} {'kept':>12} {'libsqlite3':>12} {'ratio':>8}")
    for batch, count in BATCHES:
        found = [(rate_kept(kept, folder, batch, count), rate_sqlite(sqlite, folder, batch, count)) for _ in range(rounds)]
        ours, theirs = (median(it) for it in zip(*found))
        print(f"{f'a sync for {batch}':32} {ours:12,.0f} {theirs:12,.0f} {ours / theirs:8.2f}", flush=True)


def resumed(path, text):
    """How long tgstore takes to resume the history of a kept file."""
    lines = [it[:-10] for it in path.read_bytes().split(b"\0", 1)[0].splitlines()]
    entries = sum(b" = " in it for it in lines)
    text.write_bytes(b"\n".join([b"kovshenul entries 1", *lines[1:], b"entries %d" % entries, b""]))
    begun = time.monotonic()
    ran = subprocess.run([Tree().program("tgstore"), "--resume", text], stdin=subprocess.DEVNULL, capture_output=True, text=True)
    if ran.returncode:
        sys.exit(f"kept: {ran.stderr}")
    return time.monotonic() - begun


def openings(kept, folder, rounds, entries):
    clear(folder)
    run, path = Program(kept), folder / "store.kept"
    run.seconds(f"begin {path}")
    run.seconds(f"serve {entries} 1000")
    run.seconds("drop")
    opens, applies = [], []
    for _ in range(rounds):
        opens.append(run.seconds(f"open {path}"))
        run.seconds("drop")
        applies.append(run.seconds(f"apply {entries}"))
    ours, theirs = median(opens), median(applies)
    resumes = [resumed(path, folder / "history") for _ in range(rounds)]
    print(f"{f'open a file of {entries:,} entries':48} {ours:8.2f} s")
    print(f"{'tgstore --resume, the text of the same history':48} {median(resumes):8.2f} s, ratio {ours / median(resumes):.2f}")
    print(f"{'the same commands without a file':48} {theirs:8.2f} s, ratio {ours / theirs:.2f}")


def main():
    words = argparse.ArgumentParser(usage=__doc__)
    words.add_argument("--folder", type=Path)
    words.add_argument("--rounds", type=int, default=3)
    words.add_argument("--entries", type=int, default=1_000_000)
    asked = words.parse_args()
    with tempfile.TemporaryDirectory() as built, tempfile.TemporaryDirectory(dir=asked.folder) as room:
        kept = build_beside(USES, HERE / "main.rt.in", Path(built) / "kept", is_counted=True)
        sqlite = Path(built) / "sqlite"
        compiler = os.environ.get("CC", "cc").split()
        subprocess.run([*compiler, "-O2", "-o", sqlite, HERE / "sqlite.c", "-lsqlite3"], check=True)
        system = subprocess.run(["stat", "-f", "-c", "%T", room], capture_output=True, text=True, check=True).stdout.strip()
        print(f"load {os.getloadavg()[0]:.1f} on {os.cpu_count()} processors, file system {system}")
        rates(kept, sqlite, Path(room), asked.rounds)
        openings(kept, Path(room), asked.rounds, asked.entries)


if __name__ == "__main__":
    main()
