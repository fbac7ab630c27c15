"""Kovshenul for Python: a reference monitor with take-grant rules, through its shared library.

    with Store([Cell(0), Cell(0)], [(0, 1, GRANT)], Limits(10, 8, 4)) as store:
        document = store.create(0, READ | WRITE, Sum(40))
        store.grant(0, 1, document, READ)
        print(store.read(1, document))

A command that the rules don't allow raises Denied, whose cause says which check failed. Any other refusal raises a Refused. Both
are an Error. A number that isn't from 0 to 2^64 - 1 raises OverflowError, and an argument that is no number raises TypeError.
Nothing happened then.

`entry` and `journal` read a store's journal, and `forget` gives it up. An Auditor replays it before that, part after part. Another auditor
goes on from its Snapshot. `Store.resume` opens a store that goes on from the entries of another process, and `Store.reopen` one that goes
on from a Snapshot. `opening_text`, the `str` of each entry and `end_text` are the text that the program tgaudit reads. `kovshenul.journal`
has the types of the parts of an entry. `kovshenul.outlook` has the types of what `could` answers about the future. A View, which `view`
opens, answers many such questions. The module `kovshenul.plain` is a model of the store in plain Python, to test a host against.
`kovshenul.database` keeps entries in a database of the host.

Any thread may call, and so may a finalizer and a signal's handler. The module has one lock, so all calls come one after the other, also
those on different stores. The library is the file that the variable KOVSHENUL_LIBRARY names. Otherwise it is the file beside this module,
or the library that the system finds.

An extension module calls the library, if one was built for this Python. Otherwise ctypes does. All calls do the same either way.
`BACKEND` says which it is, `extension` or `ctypes`. The variable KOVSHENUL_CTYPES=1 makes the package use ctypes.
"""
from . import journal, outlook
from ._auditor import Auditor
from ._backend import BACKEND
from ._library import version as _version
from ._refusals import (
    CAUSES,
    RULES,
    AlreadyOpen,
    BadEdge,
    BadEntry,
    BadKind,
    BadLaw,
    BadLimits,
    BadPlace,
    BadRights,
    BadValues,
    BadWorkers,
    Denied,
    Error,
    HeapFull,
    InUse,
    NoSuchWorker,
    NotAudited,
    NotOpen,
    NotWhole,
    OutOfMemory,
    Refused,
    VerticesFull,
    WorkersFull,
)
from ._snapshot import Snapshot, Vertex
from ._store import Store
from ._texts import end_text, opening_text
from ._values import MOST_NUMBERS, Cell, Counts, Edge, Kind, Law, Limits, Log, Max, Rights, Sum, Target, Value
from ._view import View

READ, WRITE, TAKE, GRANT, APPEND, INSPECT, FREE_U, FREE_V = Rights
FULL, NURSERY = Kind

__version__ = _version()

__all__ = [
    "APPEND",
    "AlreadyOpen",
    "Auditor",
    "BACKEND",
    "BadEdge",
    "BadEntry",
    "BadKind",
    "BadLaw",
    "BadLimits",
    "BadPlace",
    "BadRights",
    "BadValues",
    "BadWorkers",
    "CAUSES",
    "Cell",
    "Counts",
    "Denied",
    "Edge",
    "Error",
    "FREE_U",
    "FREE_V",
    "FULL",
    "GRANT",
    "HeapFull",
    "INSPECT",
    "InUse",
    "Kind",
    "Law",
    "Limits",
    "Log",
    "MOST_NUMBERS",
    "Max",
    "NURSERY",
    "NoSuchWorker",
    "NotAudited",
    "NotOpen",
    "NotWhole",
    "OutOfMemory",
    "READ",
    "RULES",
    "Refused",
    "Rights",
    "Snapshot",
    "Store",
    "Sum",
    "TAKE",
    "Target",
    "Value",
    "Vertex",
    "VerticesFull",
    "View",
    "WRITE",
    "WorkersFull",
    "end_text",
    "journal",
    "opening_text",
    "outlook",
]
