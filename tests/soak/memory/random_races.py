#!/usr/bin/env python3
"""random_races.py [--program FILE] [--races N] [--seed N] [--stay]

Runs random races, 1,000 unless another number is given. They are scripts of 1 to 8 workers. Some of their lines spawn, retire, name nobody
who has a thread, or lack a box. For each output what_is_wrong of runs.py says whether there is an order of the lines in which each gets its
reply. Each line of a name without a thread has to be answered `refused worker`. In ten of the outputs a wrong reply is then planted, and
has to be found. With --stay no script has a retire or a name without a thread, and no line may be answered `refused worker`.

It prints what the races had, and stops at the first that is wrong, with its script. FILE is crates/tgstore/out/tgstore unless it is given."""
import argparse
import collections
import random

from runs import PROGRAM, Run, Script, stop, what_is_wrong

RIGHTS = "rwtgal"

# In how many outputs a wrong reply is planted, and how many workers and lines a script may have.
PLANTED = 10
MOST_WORKERS = 8
MOST_LINES_EACH = 12


def rights(draw):
    return "".join(sorted(draw.sample(RIGHTS, draw.randint(1, 4)), key=RIGHTS.index))


class Scripts:
    """Draws scripts."""

    def __init__(self, seed, stay):
        self.draw = random.Random(seed)
        self.stay = stay

    def script(self, number):
        workers = self.draw.randint(1, MOST_WORKERS)
        lines = [self.line(workers) for _ in range(workers * self.draw.randint(4, MOST_LINES_EACH))]
        makings = sum(" create " in line or " spawn " in line for line in lines)
        boxes = makings if self.stay else max(0, makings - self.draw.choice((0, 0, 1, 3)))
        stock = "".join(self.draw.choice("csml") for _ in range(boxes))
        return Script(f"race {number}", workers, stock, self.edges(workers), lines)

    def edges(self, workers):
        pairs = [(x, y) for x in range(workers) for y in range(workers) if x != y]
        chosen = self.draw.sample(pairs, self.draw.randint(0, min(len(pairs), 12)))
        return [f"edge {x} {y} {rights(self.draw)}" for x, y in sorted(chosen)]

    def line(self, workers):
        x = self.draw.randrange(workers)
        if not self.stay and self.draw.random() < 0.05:
            x = workers + self.draw.randrange(workers)
        y, z = (self.draw.randrange(3 * workers) for _ in range(2))
        if self.draw.random() < 0.05:
            return self.draw.choice(["full", "minor"])
        if not self.stay and self.draw.random() < 0.04:
            return f"{x} retire"
        words = [
            "create {r}", "spawn {r}", "grant {y} {z} {r}", "take {y} {z} {r}", "remove {y} {r}", "read {y}", "write {y} {n}", "append {y} {n}",
            "inspect {y}", "list",
        ]
        weights = [4, 2, 3, 3, 1, 3, 4, 2, 1, 2]
        text = self.draw.choices(words, weights)[0]
        return f"{x} " + text.format(r=rights(self.draw), y=y, z=z, n=self.draw.randrange(9))


# ---- wrong replies, each of which no order allows

def served_behind_its_retire(script, replies):
    """A line of a worker who retired is answered `ok`."""
    gone = set()
    for at, line in enumerate(script.lines):
        x, _, rest = line.partition(" ")
        if x in gone:
            return at, b"ok"
        if rest == "retire" and replies[at] == b"ok":
            gone.add(x)
    return None


def a_name_given_twice(script, replies):
    """Two makings are answered by one name."""
    made = [at for at, line in enumerate(script.lines) if (" create " in line or " spawn " in line) and replies[at].startswith(b"ok ")]
    return (made[-1], replies[made[0]]) if len(made) > 1 else None


def a_number_that_was_not_written(script, replies):
    """A read is answered by a number that no line writes."""
    read = [at for at, line in enumerate(script.lines) if " read " in line and replies[at].startswith(b"ok ")]
    return (read[0], b"ok 1234567") if read else None


def a_line_without_a_thread(script, replies):
    """A line of a name that has no thread is answered `ok`."""
    workers = int(script.words[1])
    others = [at for at, line in enumerate(script.lines) if " " in line and int(line.split()[0]) >= workers]
    return (others[0], b"ok") if others else None


def an_edge_more(script, replies):
    """A list is answered by an edge to a vertex that is never made."""
    listed = [at for at, line in enumerate(script.lines) if line.endswith(" list") and replies[at].startswith(b"ok")]
    return (listed[0], replies[listed[0]] + b" 999999:r") if listed else None


WRONGS = [served_behind_its_retire, a_name_given_twice, a_number_that_was_not_written, a_line_without_a_thread, an_edge_more]


class Races:
    """The lines of the races that were run, and which wrong replies were found."""

    def __init__(self, program, stay):
        self.program, self.stay = program, stay
        self.had = collections.Counter()
        self.wanted = [] if stay else WRONGS * (PLANTED // len(WRONGS))

    def run(self, script, helpers):
        way = ["--race", "--helpers", str(helpers)]
        run = Run(script, way, program=self.program)
        wrong = what_is_wrong(script, way, run, self.program)
        if not wrong and self.stay and b"refused worker" in run.replies:
            wrong = "somebody is told `refused worker`"
        if wrong:
            stop(f"{script.name} {' '.join(script.words + way)}: {wrong}\n{script.text().decode()}")
        self.count(script, run)
        self.plant(script, way, run)

    def count(self, script, run):
        self.had.update(line.split()[-1] if line.endswith("retire") else "spawn" for line in script.lines if line.endswith("retire") or " spawn " in line)
        self.had["refused worker"] += run.replies.count(b"refused worker")
        self.had["lines"] += len(script.lines)

    def plant(self, script, way, run):
        """Plants the next wrong reply, where this race has a line for it."""
        found = self.wanted and self.wanted[0](script, run.replies)
        if not found:
            return
        at, reply = found
        wrong = self.wanted.pop(0)
        run.replies[at] = reply
        if not what_is_wrong(script, way, run, self.program):
            stop(f"{script.name}: {wrong.__name__}, at line {at}, isn't found\n{script.text().decode()}")
        self.had["planted and found"] += 1


def main():
    words = argparse.ArgumentParser()
    words.add_argument("--program", default=PROGRAM)
    words.add_argument("--races", type=int, default=1000)
    words.add_argument("--seed", type=int, default=1)
    words.add_argument("--stay", action="store_true")
    words = words.parse_args()
    scripts, races = Scripts(words.seed, words.stay), Races(words.program, words.stay)
    for number in range(words.races):
        races.run(scripts.script(number), (1, 2, 8)[number % 3])
    if races.wanted:
        stop(f"{len(races.wanted)} wrong replies found no race to stand in")
    print(f"{words.races} races: " + ", ".join(f"{count} {what}" for what, count in sorted(races.had.items())))


if __name__ == "__main__":
    main()
