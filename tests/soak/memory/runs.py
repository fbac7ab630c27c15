"""The parts that refused.py and limits.py share. They are the scripts, a run of the program, and the judgement of its output."""
import os
import subprocess
import sys
from pathlib import Path

sys.dont_write_bytecode = True
sys.path.insert(0, str(Path(__file__).resolve().parents[3] / "tools"))
from orders import Race, has_order
from repository.tree import Tree

HERE = os.path.dirname(os.path.abspath(__file__))
PROGRAM = str(Tree().program("tgstore"))

# How long a run may take, in seconds.
MOST_SECONDS = 60

# The options that the program may be given beside the words of a script. An option that it doesn't know is left out.
WAYS = [[], ["--helpers", "2"], ["--helpers", "8"], ["--race"], ["--race", "--helpers", "2"]]

# The answers that a line may have which was not run.
REFUSALS = {b"refused memory", b"refused threads"}

# Of how many lines a race may be for which an order is looked for.
MOST_LINES = 400


class Script:
    """Lines, with the words that they are run with."""

    def __init__(self, name, workers, stock, edges, lines):
        self.name = name
        self.words = ["--workers", str(workers), "--stock", stock]
        self.edges = edges
        self.lines = lines

    def text(self, lines=None):
        lines = self.lines if lines is None else lines
        return "".join(line + "\n" for line in self.edges + lines).encode()


def rows(vertices, workers=4):
    """Vertices that are handed on along rows, with collections of both kinds between."""
    lines = []
    for i in range(vertices):
        name = workers + i
        x, y = i % workers, (i + 1) % workers
        lines += [f"{x} create rwtg", f"{x} grant {y} {name} rw", f"{y} write {name} {i}", f"{y} read {name}"]
        if i % 5 == 4:
            lines.append(f"{x} remove {name} rwtg")
        if i % (vertices // 4) == vertices // 4 - 1:
            lines += ["minor", "full"]
    edges = [f"edge {x} {(x + 1) % workers} tg" for x in range(workers)]
    return Script("rows", workers, f"c{vertices}", edges, lines)


def listings(vertices, lists):
    """A row that is listed again and again, by its worker and by another, so that the journal grows."""
    lines = ["0 create r"] * vertices + ["0 list", "1 list", "1 inspect 0", "0 inspect 1"] * (lists // 2) + ["full", "0 list"]
    return Script("listings", 2, f"s{vertices}", ["edge 1 0 tgl"], lines)


def logs(vertices, writes):
    """Logs that grow by writes and by appends in turn, are read and are given up, with a collection after each."""
    lines = []
    for i in range(vertices):
        lines.append("0 create rwga")
        lines += [f"0 {'append' if value % 2 else 'write'} {2 + i} {value}" for value in range(writes)]
        lines += [f"0 grant 1 {2 + i} r", f"1 read {2 + i}", f"0 read {2 + i}"]
        lines += ["minor"] if i % 2 else []
        lines += [f"1 remove {1 + i} r", f"0 remove {1 + i} rwga", "full"] if i % 16 == 15 else []
    return Script("logs", 2, f"l{vertices}", ["edge 0 1 g", "edge 1 0 t"], lines)


def ten_edges_and_a_hole():
    """One edge among ten is given up, and the next takes its place."""
    lines = ["0 create r"] * 10 + ["0 remove 4 r", "0 create w", "0 list", "full", "0 list"]
    return Script("ten_edges_and_a_hole", 1, "c11", [], lines)


def old_cell_stays_remembered():
    """An old cell names a young vertex through two nursery collections."""
    lines = ["0 create tg", "minor", "minor", "0 create r", "0 grant 1 2 r", "minor", "0 remove 2 r", "minor"]
    return Script("old_cell_stays_remembered", 1, "c2", [], lines + ["0 take 1 2 r", "0 read 2", "full", "0 list"])


def log_and_sum_payloads():
    """A log that takes in more than it keeps, a denied write, and a sum that wraps around."""
    lines = ["0 create rw", "0 create rw", "0 read 2", "0 write 2 1", "0 write 2 2", "1 write 2 9", "0 write 2 3"]
    lines += ["0 write 2 4", "0 write 2 5", "0 read 2", "0 write 3 18446744073709551615", "0 write 3 1", "0 read 3"]
    return Script("log_and_sum_payloads", 2, "ls", [], lines)


def appends_and_inspections():
    """Two workers add to one log and are shown each other's rows, with each way to deny that, and rights that have no command."""
    lines = ["0 create rwa", "0 create rauv", "0 grant 1 3 rav", "1 append 3 5", "0 append 3 6", "1 append 3 7", "1 read 3"]
    lines += ["0 append 2 5", "1 append 2 5", "0 inspect 1", "1 inspect 0", "1 inspect 3", "0 append 0 1", "minor", "0 inspect 0"]
    lines += ["1 remove 3 av", "1 append 3 8", "0 inspect 1", "full", "1 inspect 0", "0 append 3 9", "0 read 3"]
    return Script("appends_and_inspections", 2, "cl", ["edge 0 1 gl", "edge 1 0 l"], lines)


def subjects_that_come_and_go():
    """Subjects are made by each other and retire, others take from them and give to them then, and collections come between."""
    lines = ["0 spawn rwtgl", "2 create rw", "2 create r", "2 spawn tg", "2 list", "0 take 2 3 rw", "0 write 3 5", "2 retire", "2 list", "2 create r"]
    lines += ["minor", "0 inspect 2", "0 take 2 4 r", "0 grant 2 3 r", "0 inspect 2", "5 create r", "1 spawn r", "1 retire", "full", "1 list"]
    lines += ["0 remove 2 rwtgl", "full", "6 spawn t", "6 retire", "7 create rw", "minor", "7 list", "0 retire", "full", "5 spawn r", "0 list"]
    return Script("subjects_that_come_and_go", 2, "cl9", ["edge 0 1 tg", "edge 1 0 l"], lines)


class Run:
    """A run of the program that has ended."""

    def __init__(self, script, way, lines=None, before=None, environment=None, program=PROGRAM):
        done = subprocess.run(
            [program] + script.words + way,
            input=script.text(lines),
            stdout=subprocess.PIPE,
            stderr=subprocess.PIPE,
            timeout=MOST_SECONDS,
            preexec_fn=before,
            env=environment,
        )
        self.status = done.returncode
        self.replies = done.stdout.split(b"\n")
        self.faults = done.stderr.split(b"\n")


def knows(way, program=PROGRAM):
    """Whether the program knows these words."""
    return Run(Script("none", 1, "", [], []), way, program=program).status == 0


def what_is_wrong(script, way, run, program=PROGRAM):
    """Why the run isn't one that lack of memory may leave, or None.

    With status 1 one line is on standard error and nothing was answered. With status 0 each line has its reply, and the lines that
    were not refused are answered as in a run of them alone. For a race there has to be an order in which they get their replies
    (orders.py), and its end has their number of entries. In a race with many lines each only has to have its reply."""
    if run.status == 1:
        is_told = len(run.faults) == 2 and run.faults[0].startswith(b"tgstore: ") and run.faults[1] == b""
        return None if is_told and run.replies == [b""] else f"status 1, with {run.faults} and {run.replies[:3]}"
    if run.status != 0 or run.faults != [b""] or run.replies[-1] != b"":
        return f"status {run.status}, with {run.faults}"
    is_race = "--race" in way
    replies = run.replies[: -2 if is_race else -1]
    if len(replies) != len(script.lines):
        return f"{len(replies)} replies to {len(script.lines)} lines"
    if is_race and not (run.replies[-2].startswith(b"entries ") and run.replies[-2].endswith(b" audit ok")):
        return f"a race that ends in {run.replies[-2]}"
    if is_race:
        return what_is_wrong_in_order(script, replies, run.replies[-2])
    left = [(line, reply) for line, reply in zip(script.lines, replies) if reply not in REFUSALS]
    alone = Run(script, [], [line for line, _ in left], program=program)
    if alone.status != 0 or alone.replies[:-1] != [reply for _, reply in left]:
        return "lines that were not refused are answered otherwise than alone"
    return None


def what_is_wrong_in_order(script, replies, end):
    if len(replies) > MOST_LINES:
        return None
    race = Race(script, replies, REFUSALS)
    if not race.are_others_refused:
        return "a line of a name without a thread that is told something else than `refused worker`"
    if end != b"entries %d audit ok" % race.entries:
        return f"a race of {race.entries} entries that ends in {end}"
    found = has_order(race)
    if found is None:
        print("a race whose order isn't found, and not known not to be there", flush=True)
    return "a race whose replies come in no order" if found is False else None


def refused_lines(run):
    """How many lines were refused."""
    return sum(reply in REFUSALS for reply in run.replies)


def stop(text):
    sys.exit(f"{os.path.basename(sys.argv[0])}: {text}")
