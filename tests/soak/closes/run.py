#!/usr/bin/env python3
"""run.py: how many instructions a close takes with 10,000 sessions and with 100,000, and whether the second is at most 15 times the first.

It builds the program beside it (`main.rt.in`), unproved, with the crates that it needs. One worker spawns so many subjects, who retire, and
the sessions are put in no order. The count of a close is the difference of a run with a close and a run without. Both drop the sessions and
the store. It needs valgrind and a C compiler."""
import argparse
import sys
import tempfile
from pathlib import Path

sys.dont_write_bytecode = True
sys.path.insert(0, str(Path(__file__).resolve().parents[3] / "tools"))
from repository.counted import counted
from repository.unproved import build_beside

HERE = Path(__file__).resolve().parent
USES = "tg_rights tg_model tg_payload tg_journal tg_store tg_shared"
FEW, MANY, MOST_TIMES = 10_000, 100_000, 15


def instructions(program: Path, sessions: int, word: str, said: str) -> int:
    """How many instructions a run takes, which has to say this."""
    run = counted([program], f"{sessions} {word}\n".encode())
    if run.output.decode().strip() != said:
        sys.exit(f"closes: {sessions} {word}: it said {run.output.decode().strip()}, and not {said}")
    return run.instructions


def of_close(program: Path, sessions: int) -> int:
    """The instructions of a close with so many sessions. The journal has a spawn and a retire of each."""
    with_close = instructions(program, sessions, "close", str(2 * sessions))
    return with_close - instructions(program, sessions, "keep", "0")


def main() -> int:
    """Prints both counts. Returns the status."""
    argparse.ArgumentParser(usage=__doc__).parse_args()
    with tempfile.TemporaryDirectory() as room:
        program = build_beside(USES, HERE / "main.rt.in", Path(room) / "closes")
        few, many = (of_close(program, sessions) for sessions in (FEW, MANY))
    print(f"close: {few:,} instructions with {FEW:,} sessions, {many:,} with {MANY:,}: {many / few:.2f} times as many")
    return 0 if many <= MOST_TIMES * few else 1


if __name__ == "__main__":
    sys.exit(main())
