#!/usr/bin/env python3
"""refused.py [--tests FILE] [--alone] [--program FILE] [WORD ..]

Runs each test of tests/soak/memory/tests that has each request refused in turn, and then the program on eight small scripts. It runs them
once for every request that they make, with that request refused. A request is a call for memory, for the start of a thread, or for its
attributes. A test must pass, and the output of the program is judged by what_is_wrong of runs.py. If nothing is refused, each thread that
was started must be joined. With one thread as much memory must be given back as if nothing is refused. Then the program is run with two
requests refused, with three, and with all from one on, by each of its requests. It prints how many runs there were, and stops at the first
run that is wrong. With words, it runs only the tests and scripts that have one of them in their name. It needs cc, and what `rt run`
leaves. The tests are proved and built first (tests.sh), unless they are given as built or --alone leaves them out."""
import argparse
import collections
import itertools
import os
import re
import struct
import subprocess
import sys
import tempfile

from runs import HERE, MOST_SECONDS, PROGRAM, Run, WAYS, appends_and_inspections, knows, listings, log_and_sum_payloads, logs
from runs import old_cell_stays_remembered, refused_lines, rows, stop, subjects_that_come_and_go, ten_edges_and_a_hole, what_is_wrong

# The numbers of refuse.c.
TOLD = struct.Struct("7q")

# Which requests are refused with the request of a number. Of a test it is one, since the call that was refused has to pass when it is made
# again.
ONE = {"one": (0,)}
PLANS = {**ONE, "two": (0, 1), "three": (0, 2, 7), "all from one on": None}

SCRIPTS = [ten_edges_and_a_hole(), old_cell_stays_remembered(), log_and_sum_payloads(), appends_and_inspections()]
SCRIPTS += [subjects_that_come_and_go(), rows(24), listings(12, 6), logs(18, 6)]


class Refuser:
    """Has one request of a run refused, and reads what was met."""

    def __init__(self, folder):
        self.library = os.path.join(folder, "refuse.so")
        self.tell = os.path.join(folder, "told")
        source = os.path.join(HERE, "refuse.c")
        subprocess.run(["cc", "-O2", "-fPIC", "-shared", "-o", self.library, source, "-ldl"], check=True)

    def environment(self, at, plan):
        """The environment of a run in which the request of this number is refused, with the requests of the plan. With 0 none is
        refused."""
        with open(self.tell, "wb") as file:
            file.write(bytes(TOLD.size))
        numbers = f"{at}-" if plan is None else ",".join(str(at + behind) for behind in plan)
        return {"LD_PRELOAD": self.library, "REFUSE_AT": numbers if at else "0", "REFUSE_TELL": self.tell}

    def told(self):
        with open(self.tell, "rb") as file:
            return Told(*TOLD.unpack(file.read()))


class Told:
    def __init__(self, requests, refused, starts, beside, held, started, joined):
        self.requests = requests
        self.refused = refused
        self.starts = starts
        self.beside = beside
        self.held = held
        self.started = started
        self.joined = joined


def what_is_left(told, whole):
    """Why threads or memory aren't as they have to be at the end, or None."""
    # A thread that was let go says so at its very end, which the program's own end may cut off.
    if not told.refused and told.started != told.joined:
        return f"of {told.started} threads {told.joined} were joined"
    # The memory that the C library keeps for the next thread is held too.
    if told.held != whole.held and not told.started and not whole.started:
        return f"{told.held} pieces of memory are held at the end, and {whole.held} where nothing is refused"
    return None


def try_each(name, refuser, run, plan):
    """Refuses each request of a run in turn, with the requests of the plan. `run` is given the environment, and returns the fault of the
    run and how it ended."""
    starts = beside = 0
    ends = collections.Counter()
    whole = None
    for at in itertools.count():
        wrong, end = run(refuser.environment(at, plan))
        told = refuser.told()
        whole = whole or told
        wrong = wrong or what_is_left(told, whole)
        if wrong:
            stop(f"{name}, request {at} refused: {wrong}")
        if told.refused:
            ends[end] += 1
            starts += told.starts
            beside += told.beside
        elif at:
            break
    ended = ", ".join(f"{count} {end}" for end, count in sorted(ends.items()))
    print(f"{name}: {sum(ends.values())} runs ({starts} requests for a thread, {beside} from another thread than the first): {ended}", flush=True)


def of_test(tests, test):
    def run(environment):
        done = subprocess.run([tests, test], stdout=subprocess.PIPE, stderr=subprocess.STDOUT, timeout=MOST_SECONDS, env=environment)
        wrong = f"status {done.returncode}: {done.stdout.decode()}" if done.returncode else None
        return wrong, "passed"

    return run


def of_program(program, script, way):
    def run(environment):
        done = Run(script, way, environment=environment, program=program)
        end = "ended in status 1" if done.status else "refused a line" if refused_lines(done) else "were whole"
        return what_is_wrong(script, way, done, program), end

    return run


def built_tests(folder):
    tests = os.path.join(folder, "tests")
    subprocess.run([os.path.join(HERE, "tests.sh"), tests], check=True)
    return tests


def all_runs(tests, program):
    """Each run that has its requests refused, with its name and the requests that are refused together."""
    listed = subprocess.run([tests, "--list"], stdout=subprocess.PIPE, check=True).stdout.decode() if tests else ""
    for test in re.findall(r"[\w:]*refused\w*", listed):
        yield test, of_test(tests, test), ONE
    for way in WAYS:
        if not knows(way, program):
            print(f"the program doesn't know {' '.join(way)}")
            continue
        for script in SCRIPTS:
            yield " ".join(["tgstore", *way, "on", script.name]), of_program(program, script, way), PLANS


def main():
    words = argparse.ArgumentParser()
    words.add_argument("--tests")
    words.add_argument("--alone", action="store_true")
    words.add_argument("--program", default=PROGRAM)
    words.add_argument("words", nargs="*")
    words = words.parse_args()
    with tempfile.TemporaryDirectory() as folder:
        refuser = Refuser(folder)
        tests = None if words.alone else words.tests or built_tests(folder)
        for name, run, plans in all_runs(tests, words.program):
            for how in plans if not words.words or any(word in name for word in words.words) else ():
                try_each(f"{name}, {how} refused", refuser, run, plans[how])


if __name__ == "__main__":
    main()
