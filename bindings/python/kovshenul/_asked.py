"""The arguments of a call of the model in plain Python, which are numbers, values and edges. The store looks at them in the same
order."""
from __future__ import annotations

from dataclasses import replace
from typing import Iterable, List, Optional, Tuple

from ._library import BITS, number_in
from ._refusals import BadEdge, BadLaw, BadLimits, BadRights, BadValues, BadWorkers, refusal
from ._rules import ALL_RIGHTS, MOST_SUBJECTS, Graph, Stored
from ._snapshot import Snapshot
from ._values import Cell, Law, Log, Max, Rights, Sum, Value
from .journal import Denied, Entry

MOST_VERTICES = 2**48
LAWS = {Cell: "cell", Sum: "sum", Max: "max"}
SINGLE = [int(right) for right in Rights]

# An edge: from whom, to whom, and the rights.
Pair = Tuple[int, int, int]


def numbers_in(*numbers: int) -> Tuple[int, ...]:
    """The same numbers, which must be in their range."""
    return tuple(number_in(BITS, it) for it in numbers)


def edges_in(edges: Iterable[Pair]) -> List[Pair]:
    """The same edges, whose numbers must be in their range."""
    return [(number_in(BITS, source), number_in(BITS, target), number_in(BITS, rights)) for source, target, rights in edges]


def stored_in(value: Value) -> Stored:
    """The value of a vertex of which this is the first value."""
    if isinstance(value, Log):
        return Stored("log", (), number_in(32, value.most))
    for law, word in LAWS.items():
        if isinstance(value, law):
            return Stored(word, (number_in(BITS, value.number),))
    raise TypeError("a value is a Cell, a Sum, a Max or a Log")


def law_in(stored: Optional[Stored]) -> Optional[Law]:
    """The law of what a vertex stores, or none."""
    if stored is None:
        return None
    return next((Law(law) for law, word in LAWS.items() if word == stored.law), Law(Log, stored.most))


def must_be_rights(*sets: int) -> None:
    """Each is a set of rights, and not the empty one."""
    if not all(0 < rights <= ALL_RIGHTS for rights in sets):
        raise BadRights


def must_be_written(entry: Entry) -> None:
    """A store makes such entries: each set of rights has one, and a denial says no more than its cause does."""
    named = [entry.deed, *getattr(entry.reply, "edges", ())]
    if not all(0 < it.rights <= ALL_RIGHTS for it in named if hasattr(it, "rights")):
        raise BadValues
    if isinstance(entry.reply, Denied):
        missing = entry.reply.cause == "missing"
        if not 0 <= entry.reply.rights <= (ALL_RIGHTS if missing else 0) or not (missing or entry.reply.edge in (None, (0, 0))):
            raise BadValues


def must_be_one(right: int) -> None:
    """One right is asked about."""
    if right not in SINGLE:
        raise refusal(BadRights.status, right=right)


def must_fit(*values: Stored) -> None:
    """Each value is one of its law."""
    if not all(value.fits() for value in values):
        raise BadLaw


def opened(workers: Iterable[Value], edges: Iterable[Pair], limits: Tuple[int, int, int]) -> Graph:
    """The graph of an opening."""
    values, pairs = [stored_in(value) for value in workers], edges_in(edges)
    max_vertices, _, _ = numbers_in(*limits)
    must_fit(*values)
    must_be_rights(*[rights for _, _, rights in pairs])
    if not 1 <= len(values) <= MOST_SUBJECTS:
        raise BadWorkers
    if not len(values) <= max_vertices <= MOST_VERTICES:
        raise BadLimits
    if any(source == target or max(source, target) >= len(values) for source, target, _ in pairs):
        raise BadEdge
    return Graph(values, pairs, max_vertices)


def shown_by(snapshot: Snapshot, limits: Tuple[int, int, int]) -> Tuple[Graph, int]:
    """The graph that a snapshot shows, and how many entries came before."""
    max_vertices, _, _ = numbers_in(*limits)
    if max_vertices != snapshot.limit:
        raise BadLimits
    subjects = [*snapshot.subjects()]
    if not subjects:
        raise BadWorkers
    values = {name: replace(stored_in(value), state=numbers) for name, value, numbers in snapshot.vertices()}
    graph = Graph.shown(subjects, values, snapshot.made, max_vertices)
    for source, target, rights in snapshot.edges():
        graph.add(source, target, rights)
    return graph, snapshot.entries
