#!/usr/bin/env python3
"""rates.py [--rounds N] [OURS PLAIN]

Prints how many commands a second 1, 2, 4 and 8 sessions on threads have answered. Beside them comes a plain program with a
journal in a mutex (plain.rs). Each session makes 33,333 vertices, grants a right over each to the next worker, and reads
it. The two programs take turns, and a number is the median of N rounds (5 if it is left out). Beside the rate it prints
the processor time of a command, and how often a thread slept for each command. A sleep is a voluntary switch, as the
kernel counts it.

OURS and PLAIN are the built programs, which run.sh proves and builds. Without them this script builds both, ours without
its proof. It needs rustc and Linux."""
import argparse
import os
import statistics
import subprocess
import sys
import tempfile
from dataclasses import dataclass
from pathlib import Path

sys.dont_write_bytecode = True
sys.path.insert(0, str(Path(__file__).resolve().parents[2] / "tools"))
from repository.unproved import build_beside

HERE = Path(__file__).resolve().parent
USES = "tg_rights tg_model tg_payload tg_store tg_shared"
THREADS = (1, 2, 4, 8)


@dataclass(frozen=True)
class Run:
    """What one run took: commands a second by the clock, sleeps a command, and nanoseconds of processor time a command."""

    rate: float
    sleeps: float
    processor: float


def run(program: Path, threads: int) -> Run:
    """Runs the program once with so many threads."""
    with subprocess.Popen([program], stdin=subprocess.PIPE, stdout=subprocess.PIPE, text=True) as process:
        process.stdin.write(f"{threads}\n")
        process.stdin.close()
        said = process.stdout.read()
        _, status, used = os.wait4(process.pid, 0)
        process.returncode = os.waitstatus_to_exitcode(status)
    words = said.split()
    if process.returncode != 0 or len(words) != 3 or words[0] != str(threads):
        sys.exit(f"{program}: {threads} threads: it ended with {process.returncode} and printed {said!r}")
    commands, took = int(words[1]), int(words[2])
    return Run(commands / took * 1e9, used.ru_nvcsw / commands, (used.ru_utime + used.ru_stime) / commands * 1e9)


def median(runs: list[Run], field: str) -> float:
    """The median of one figure."""
    return statistics.median(getattr(run, field) for run in runs)


def build(folder: Path) -> tuple[Path, Path]:
    """Builds both programs into the folder, ours without its proof."""
    plain = folder / "plain"
    subprocess.run(["rustc", "-O", "--edition", "2021", "-o", plain, HERE / "plain.rs"], check=True)
    return build_beside(USES, HERE / "main.rt.in", folder / "sessions", is_counted=True), plain


def measure(ours: Path, plain: Path, rounds: int) -> None:
    """Runs both programs in turn, and prints a row for each number of threads."""
    print("| Sessions | Millions a second | Plain | Ratio | Sleeps in 1,000 commands | Plain | Processor, ns a command | Plain |")
    print("|---|---|---|---|---|---|---|---|")
    for threads in THREADS:
        pairs = [(run(ours, threads), run(plain, threads)) for _ in range(rounds)]
        mine, theirs = [pair[0] for pair in pairs], [pair[1] for pair in pairs]
        ratio = statistics.median(one.rate / other.rate for one, other in pairs)
        rates = f"{median(mine, 'rate') / 1e6:.2f} | {median(theirs, 'rate') / 1e6:.2f} | {ratio:.2f}"
        sleeps = f"{median(mine, 'sleeps') * 1e3:.1f} | {median(theirs, 'sleeps') * 1e3:.1f}"
        times = f"{median(mine, 'processor'):.0f} | {median(theirs, 'processor'):.0f}"
        print(f"| {threads} | {rates} | {sleeps} | {times} |", flush=True)


def main() -> None:
    """Reads the words and measures."""
    words = argparse.ArgumentParser(usage=__doc__)
    words.add_argument("--rounds", type=int, default=5)
    words.add_argument("programs", nargs="*", type=Path)
    asked = words.parse_args()
    if asked.rounds < 1 or len(asked.programs) not in (0, 2):
        words.error("at least one round, and both programs or none")
    with tempfile.TemporaryDirectory() as folder:
        ours, plain = asked.programs or build(Path(folder))
        measure(ours.resolve(), plain.resolve(), asked.rounds)


if __name__ == "__main__":
    main()
