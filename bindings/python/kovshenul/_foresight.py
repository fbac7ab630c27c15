"""The model in plain Python answers questions about the future. It has the closure of `_rules`, and the words of `outlook`."""
from __future__ import annotations

from functools import cached_property
from typing import Collection, Set, Tuple

from . import outlook
from ._rules import MOST_SUBJECTS, Future, Graph
from ._values import Cell, Rights
from .journal import Create, Grant, Spawn, Take
from .outlook import Outlook

MOST_NAMES_AHEAD = 65_536
MOVES = {"take": Take, "grant": Grant}
MAKINGS = {"create": Create, "spawn": Spawn}


class Foresight:
    """Answers questions about a graph, on which the silent ones take no turns. The graph must not change any more."""

    def __init__(self, graph: Graph, silent: Collection[int]) -> None:
        self.graph, self.silent = graph, silent

    @cached_property
    def reached(self) -> Set[int]:
        """The vertices that a subject reaches."""
        return self.graph.reached()

    @cached_property
    def future(self) -> Future:
        """All that could come about."""
        return Future(self.graph, self.silent)

    def answer(self, x: int, right: int, y: int) -> Outlook:
        """Whether x could ever come to hold the right over y."""
        if x < self.graph.made and x not in self.reached:
            return outlook.Unreached()
        if self.graph.label(x, y) & right:
            return outlook.Now()
        if self.future.comes(x, right, y) is None:
            return outlook.Never()
        if max(x, y) - self.graph.made > MOST_NAMES_AHEAD:
            return outlook.Open()
        return self._could(tuple(_turn(*turn) for turn in self.future.turns(x, right, y)))

    def _could(self, turns: Tuple[outlook.Turn, ...]) -> Outlook:
        """The answer if these turns do it."""
        spawns = sum(isinstance(turn.deed, Spawn) for turn in turns)
        makings = sum(isinstance(turn.deed, Create) for turn in turns) + spawns
        lacking = self.graph.made + makings - self.graph.limit
        if len(self.graph.subjects) + spawns > MOST_SUBJECTS:
            return outlook.Open()
        return outlook.WantsNames(turns, lacking) if lacking > 0 else outlook.Could(turns)


def _turn(worker: int, command: str, words: Tuple[int, ...]) -> outlook.Turn:
    """A turn of the closure. Its objects and subjects store a cell."""
    *named, rights = words
    if command in MOVES:
        return outlook.Turn(worker, MOVES[command](*named, Rights(rights)))
    return outlook.Turn(worker, MAKINGS[command](Rights(rights), Cell(0)))
