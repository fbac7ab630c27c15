#!/usr/bin/env python3
"""limits.py [PROGRAM]

Runs the program under limits of its address space from 3 to 64 MB. There are three scripts, with each of --helpers and --race that
the program knows. A signal must not end it. Either it ends in status 1 with one line on standard error and no reply. Or it answers
each line. Then it may answer some lines by `refused memory`, and the others as if these were not in the script. It prints how many
runs there were of each kind, and stops at the first run of neither kind. The least limits are left out if the system's loader can't
start the program within them. PROGRAM is crates/tgstore/out/tgstore unless it is given."""
import argparse
import resource

from runs import PROGRAM, Run, WAYS, knows, listings, logs, refused_lines, rows, stop, what_is_wrong

# In steps of a quarter where the program just starts, and of one then.
MEGABYTES = [3 + quarter / 4 for quarter in range(20)] + list(range(8, 65))

# The status of the system's loader if it can't start a program.
NOT_STARTED = 127

SCRIPTS = [rows(9_000), listings(800, 1_500), logs(6_000, 4)]


def limited(megabytes):
    most = int(megabytes * 1024 * 1024)
    return lambda: resource.setrlimit(resource.RLIMIT_AS, (most, most))


def limits_of(program):
    """The limits, from the first one within which the program starts."""
    for at, megabytes in enumerate(MEGABYTES):
        if Run(SCRIPTS[0], [], lines=[], before=limited(megabytes), program=program).status != NOT_STARTED:
            print(f"the program starts within {megabytes:g} MB")
            return MEGABYTES[at:]
    stop(f"the program doesn't start within {MEGABYTES[-1]} MB")


def try_limits(script, way, program, limits):
    """How many runs ended in status 1, how many had refused lines, and how many had none."""
    ended, short, whole, lines = 0, 0, 0, 0
    for megabytes in limits:
        run = Run(script, way, before=limited(megabytes), program=program)
        wrong = what_is_wrong(script, way, run, program)
        if wrong:
            stop(f"{script.name} {' '.join(way)} in {megabytes} MB: {wrong}")
        refused = refused_lines(run)
        ended += run.status
        short += refused > 0
        whole += run.status == 0 and refused == 0
        lines += refused
    print(f"{script.name:9} {' '.join(way):20} {ended:3} ended in status 1, {short:3} refused lines ({lines} in all), {whole:3} were whole")


def main():
    words = argparse.ArgumentParser(usage=__doc__)
    words.add_argument("program", nargs="?", default=PROGRAM)
    program = words.parse_args().program
    limits = limits_of(program)
    for way in WAYS:
        if not knows(way, program):
            print(f"the program doesn't know {' '.join(way)}")
            continue
        for script in SCRIPTS:
            try_limits(script, way, program, limits)


if __name__ == "__main__":
    main()
