#!/usr/bin/env python3
"""python.py [--calls N] [--valgrind | --refused]: whether calls from Python leave memory or objects, or break if memory runs out.

It makes N calls (10,000,000) of every kind, which are served, denied, refused, or have wrong arguments. After the first tenth and at
the end it counts blocks, objects, references to shared objects of the package, and bytes. Exit status 1 if one of these grew.

  --valgrind   makes 20,000 calls, or N, under valgrind's memcheck, and fails for each error or lost block that names the library or
               the extension module
  --refused    makes each kind of call with each of its requests to Python's allocators refused in turn. It must raise MemoryError or
               do what it does, and the journal must pass its audit. It wants CPython 3.11 with its module _testcapi: from 3.12 on the
               interpreter itself crashes if it has no memory to iterate over a dictionary

It takes the package of bindings/python and the library that bindings/build made. KOVSHENUL_CTYPES=1 has it take ctypes, as always.
"""
import argparse
import ctypes
import gc
import os
import re
import shutil
import subprocess
import sys
from pathlib import Path

sys.dont_write_bytecode = True
if {"--help", "-h"} & set(sys.argv[1:]):
    print(__doc__)
    sys.exit()
BINDINGS = Path(__file__).resolve().parents[2] / "bindings"
os.environ.setdefault("KOVSHENUL_LIBRARY", str(BINDINGS / "out" / "libkovshenul.so.4"))
sys.path.insert(0, str(BINDINGS / "python"))

import kovshenul
from kovshenul import APPEND, GRANT, INSPECT, NURSERY, READ, TAKE, WRITE, Auditor, Cell, Error, Limits, Log, Max, Snapshot, Store, Sum, journal
from kovshenul import _values

OPENING = [Cell(0), Sum(1), Log(3)], [(0, 1, GRANT | INSPECT), (1, 0, TAKE | READ), (1, 2, READ | APPEND)], Limits(2**48, 4096)
LONG_ROW = 70

# What a store goes on from: entries, of which the last isn't legal after the others, and a snapshot.
ENTRIES = [
    journal.Entry(0, journal.Create(READ | WRITE, Log(2)), journal.Name(3)),
    journal.Entry(0, journal.Write(3, 8), journal.Done()),
    journal.Entry(0, journal.Read(3), journal.Values((8,))),
    journal.Entry(1, journal.List(), journal.Edges(())),
]
SNAPSHOT = Snapshot("kovshenul picture 1\nmade 4 281474976710656 3\nworker 0\nvertex 0 c0\nvertex 3 l2:8\nedge 0 3 rw\npicture 3")


def gone_on(entries):
    """Opens a store that goes on from entries, and closes it."""
    Store.resume(*OPENING, entries).close()


# How much of each may be there at the end that wasn't after the first tenth.
MOST_MORE = {"blocks": 300, "objects": 50, "references": 30, "bytes": 1_000_000}


class Wrong:
    """No number."""

    def __index__(self):
        raise TypeError("no number")


def calls_of(store, auditor, view):
    """One of each kind of call: each is a function without arguments, and may raise what the package raises."""
    big, some, cell = 2**64 - 1, 3, Cell(7)
    return [
        lambda: store.take(1, 0, 1, GRANT),
        lambda: store.take(0, 1, 2, READ),
        lambda: store.grant(0, 1, big, READ),
        lambda: store.grant(0, 1, 2, 0),
        lambda: store.write(1, 0, 5),
        lambda: store.write(0, 0, big),
        lambda: store.append(1, 2, big),
        lambda: store.append(1, 0, some),
        lambda: store.read(1, 0),
        lambda: store.read(1, 2),
        lambda: store.read(99, 2),
        lambda: store.read(0, Wrong()),
        lambda: store.read(-1, "r"),
        lambda: store.list(0),
        lambda: store.list(99),
        lambda: store.inspect(0, 1),
        lambda: store.inspect(1, 0),
        lambda: store.remove(0, store.create(0, READ | WRITE, cell), READ | WRITE),
        lambda: store.create(0, READ, None),
        lambda: store.create(0, READ, Log(65)),
        lambda: store.create(7, READ, Max(big)),
        lambda: store.leave(store.spawn(0, GRANT, cell)),
        lambda: store.retire(99),
        lambda: store.label(0, 1),
        lambda: store.label(99, 1),
        lambda: store.subjects(),
        lambda: store.who_holds(READ, 2),
        lambda: store.who_holds(3, 2),
        lambda: store.could(1, WRITE, 2, [0]),
        lambda: store.could(2, READ, 1, [], [(0, 2, TAKE)]),
        lambda: store.could(2, READ, 1, [9]),
        lambda: store.view([0]).could(1, READ, 2),
        lambda: store.view([9]),
        lambda: view.could(1, READ, 2),
        lambda: view.could(1, 3, 2),
        lambda: store.census(),
        lambda: store.names(),
        lambda: store.entry(store.first()),
        lambda: store.entry(big),
        lambda: list(store.journal()),
        lambda: store.collect(NURSERY),
        lambda: store.collect(5),
        lambda: store.audit(),
        lambda: auditor.feed(store),
        lambda: auditor.feed(None),
        lambda: auditor.at,
        lambda: auditor.forget(store, auditor.at),
        lambda: store.forget(0),
        lambda: Store([Cell(0)]).close(),
        lambda: Store([Cell(0), Log(2)], [(0, 1, READ)]),
        lambda: Store([Cell(0)], [(0, 0, READ)]),
        lambda: Auditor([Cell(0)], [], Limits(0)),
        lambda: gone_on(ENTRIES[:3]),
        lambda: gone_on(ENTRIES),
        lambda: store.go_on(0, ENTRIES),
        lambda: Snapshot(str(auditor.snapshot())),
        lambda: Snapshot(SNAPSHOT.text[:-1]),
        lambda: Store.reopen(SNAPSHOT, OPENING[2]).close(),
        lambda: Store.reopen(SNAPSHOT),
        lambda: Auditor.reopen(SNAPSHOT).close(),
        lambda: [*SNAPSHOT.subjects(), *SNAPSHOT.vertices(), *SNAPSHOT.edges()],
        lambda: SNAPSHOT.with_names(9),
        lambda: SNAPSHOT.with_names(3),
    ]


def made(call):
    """Makes the call. It may raise what the package raises."""
    try:
        call()
    except (Error, TypeError, OverflowError):
        pass


def long_rows(store):
    """Has a worker list a row that is read from its entry. Asks for names that Python makes objects of, for a room as large, and for an
    answer with as many turns."""
    names = [store.create(2, READ, Cell(0)) for _ in range(LONG_ROW)]
    assert len(store.list(2)) == len(list(store.journal())[-1].reply.edges) == LONG_ROW
    assert store.names().issuperset(names)
    for _ in range(100):
        assert store.who_holds(READ, names[0]) == [2]
    for _ in range(20):
        assert len(store.could(1, READ, names[-1] + LONG_ROW).turns) >= LONG_ROW
    for name in names:
        store.remove(2, name, READ)
    store.collect()


def counts():
    """The blocks, objects, references and bytes that there are now."""
    gc.collect()
    shared = [kovshenul.Target, journal.Record, kovshenul.Denied, kovshenul.NoSuchWorker, _values.RIGHTS, *_values.RIGHTS]
    return {
        "blocks": sys.getallocatedblocks(),
        "objects": len(gc.get_objects()),
        "references": sum(sys.getrefcount(it) for it in shared),
        "bytes": int(Path("/proc/self/statm").read_text().split()[1]) * os.sysconf("SC_PAGE_SIZE"),
    }


def soak(calls):
    """Makes so many calls. Returns the counts after the first tenth, and the counts at the end."""
    before, done = None, 0
    while done < calls:
        with Store(*OPENING) as store, Auditor(*OPENING) as auditor, store.view() as view:
            each = calls_of(store, auditor, view)
            for _ in range(100):
                for call in each:
                    made(call)
                done += len(each)
                if before is None and done >= calls // 10:
                    before = counts()
            long_rows(store)
    return before, counts()


def must_not_grow(calls):
    before, after = soak(calls)
    more = {name: after[name] - before[name] for name in after}
    print(f"{calls:,} calls over {kovshenul.BACKEND}: more at the end: " + ", ".join(f"{count:,} {name}" for name, count in more.items()))
    return all(more[name] <= most for name, most in MOST_MORE.items())


def must_pass_valgrind(calls):
    """Whether valgrind names neither the library nor the module in an error or in a lost block."""
    if not shutil.which("valgrind"):
        sys.exit("python.py: valgrind isn't here")
    words = ["valgrind", "--leak-check=full", "--show-leak-kinds=definite", "--num-callers=40", sys.executable, __file__]
    environment = {**os.environ, "PYTHONMALLOC": "malloc"}
    ran = subprocess.run([*words, "--plainly", "--calls", str(calls)], env=environment, capture_output=True, text=True)
    if ran.returncode:
        sys.exit(f"python.py: under valgrind it ended with status {ran.returncode}:\n{ran.stderr[-4000:]}")
    told = re.split(r"\n==\d+== ?\n", ran.stderr)
    ours = [part for part in told if re.search(r"_extension|libkovshenul", part)]
    print(f"{calls:,} calls over {kovshenul.BACKEND} under valgrind: {len(ours)} errors or lost blocks that name the library or the module")
    print("\n\n".join(ours), end="")
    return not ours


def outcome_of(call):
    """The class of the exception that the call raises, or None."""
    try:
        call()
    except Exception as error:
        return type(error)
    return None


def refused_at(api, call, at):
    """The outcome of the call with one request refused."""
    api.set_nomemory(at, at + 1)
    try:
        return outcome_of(call)
    finally:
        api.remove_mem_hooks()


def must_bear_refusals():
    """Whether each call with each of its first requests refused raises MemoryError or does what it does, and leaves a store that works.

    A call that raises may end by SystemError too, because the interpreter raises it if it has no memory for a traceback. With ctypes it
    makes an ArgumentError of a MemoryError, and reads snapshots over the extension module too."""
    try:
        import _testcapi
    except ImportError:
        sys.exit("python.py: this Python has no module _testcapi")
    refused, wrong, tried = 0, set(), 0
    with Store(*OPENING) as store, Auditor(*OPENING) as auditor, store.view() as view:
        for number, call in enumerate([*calls_of(store, auditor, view), lambda: long_rows(store)]):
            usual = outcome_of(call)
            right = {usual, MemoryError, ctypes.ArgumentError} | ({SystemError} if usual else set())
            outcomes = [refused_at(_testcapi, call, at) for at in range(200)]
            tried, refused = tried + len(outcomes), refused + outcomes.count(MemoryError)
            wrong |= {(number, outcome) for outcome in outcomes if outcome not in right}
        auditor.feed(store)
        assert auditor.at == store.entries()
    print(f"{tried:,} calls over {kovshenul.BACKEND} with a request refused: {refused:,} raised MemoryError, otherwise wrong {wrong or 0}")
    return refused > 0 and not wrong


def main():
    words = argparse.ArgumentParser(usage=__doc__)
    words.add_argument("--calls", type=int)
    words.add_argument("--valgrind", action="store_true")
    words.add_argument("--refused", action="store_true")
    words.add_argument("--plainly", action="store_true", help=argparse.SUPPRESS)
    asked = words.parse_args()
    if asked.refused:
        return must_bear_refusals()
    if asked.valgrind:
        return must_pass_valgrind(asked.calls or 20_000)
    if asked.plainly:
        soak(asked.calls)
        return True
    return must_not_grow(asked.calls or 10_000_000)


if __name__ == "__main__":
    sys.exit(0 if main() else 1)
