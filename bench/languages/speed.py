"""Commands a second from Python: speed.py CALLS prints a line for each kind, with the millions of calls in a second of processor time.

speed.py CALLS MARKS has callgrind write down the instructions of each kind instead, by the library MARKS (instructions.py).
"""
import ctypes
import sys
from time import process_time

from kovshenul import GRANT, READ, WRITE, Cell, Denied, Edge, Limits, Store

LIMITS = Limits(2**24, 65536, 2**20)

# Calls that aren't counted: the interpreter fits its code to what it meets.
WARM = 300


def denied(store, document):
    try:
        store.write(1, document, 1)
    except Denied:
        return
    sys.exit("speed: a denied write was served")


def kinds(document):
    """The calls by their names."""
    rights = READ | WRITE
    cell = Cell(0)
    return {
        "read": lambda store: store.read(0, document),
        "write": lambda store: store.write(0, document, 1),
        "grant": lambda store: store.grant(0, 1, document, READ),
        "denied": lambda store: denied(store, document),
        "list": lambda store: store.list(0),
        "create": lambda store: store.create(0, rights, cell),
        "bare": lambda store: store.entries(),
    }


def run(kind, calls, ended):
    """Makes the calls on a store of its own, with a row of two edges. The beginning and the end of the calls are reported."""
    with Store([Cell(0), Cell(0)], [Edge(0, 1, GRANT)], LIMITS) as store:
        document = store.create(0, READ | WRITE, Cell(0))
        call = kinds(document)[kind]
        for _ in range(WARM):
            call(store)
        start = ended(b"before")
        for _ in range(calls):
            call(store)
        return start, ended(kind.encode())


def main(calls, *marks):
    if marks:
        mark = ctypes.CDLL(*marks).mark
        for kind in kinds(0):
            run(kind, calls, mark)
        return
    for kind in kinds(0):
        start, end = run(kind, calls, lambda _: process_time())
        print(f"{kind} {calls / (end - start) / 1e6:.3f}")


main(int(sys.argv[1]), *sys.argv[2:])
