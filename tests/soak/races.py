#!/usr/bin/env python3
"""races.py [PROGRAM] [--only WORD]

The cost of the audit at the end of a race. Each script of hostile.py is run plain and as a race, three times in turn. The script
prints the processor time of both, which is the middle one of three. Exit status 1 if a race took over 4 times the plain run, and
over 0.03 s more. PROGRAM is crates/tgstore/out/tgstore unless it is given. With --only it runs only the scripts whose name has the
word."""
import argparse
import os
import statistics
import sys
import tempfile

sys.dont_write_bytecode = True
import hostile

MOST_TIMES, MOST_MORE = 4, 0.03


def measure(case, program, folder):
    """Prints the row of a script, and answers whether its race took no longer than it may."""
    made = case()
    text, lines = hostile.script_of(made)
    script, written = os.path.join(folder, "script"), os.path.join(folder, "written")
    with open(script, "wb") as file:
        file.write(text)
    words = made.words.split()
    took = [[hostile.run(program, words + more, script, written)[0] for more in ([], ["--race"])] for _ in range(3)]
    plain, race = (statistics.median(them) for them in zip(*took))
    good = race <= MOST_TIMES * plain or race <= plain + MOST_MORE
    print(f"{case.__name__.replace('_', ' '):34} {lines:8} {plain:8.3f} {race:8.3f} {race / max(plain, 0.001):6.2f} {'' if good else ' NO'}", flush=True)
    return good


def main():
    words = argparse.ArgumentParser(usage=__doc__)
    words.add_argument("program", nargs="?")
    words.add_argument("--only", default="")
    asked = words.parse_args()
    program = os.path.abspath(asked.program or hostile.BUILT)
    if not os.path.exists(program):
        sys.exit(f"{program} isn't there: build it by `rt run` in crates/tgstore, or name a program")
    print(f"{'script':34} {'lines':>8} {'plain s':>8} {'race s':>8} {'times':>6}")
    with tempfile.TemporaryDirectory() as folder:
        good = [measure(case, program, folder) for case in hostile.CASES if asked.only in case.__name__]
    print(f"{len(good)} scripts, {good.count(False)} over the limit")
    return 0 if all(good) else 1


if __name__ == "__main__":
    sys.exit(main())
