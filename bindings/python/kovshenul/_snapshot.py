"""A snapshot of the graph at an auditor's place, from which another auditor goes on. It is kept as its text.

The library reads each text, and its reader is proved. The parts of a snapshot are read here, from a text that the library has accepted.
"""
from __future__ import annotations

from ctypes import byref, c_size_t, c_uint64
from dataclasses import dataclass
from typing import Iterator, NamedTuple, Tuple

from ._library import BITS, PlaceOfC, library, number_in
from ._refusals import BadLimits, BadValues, refusal
from ._values import LETTERS, Edge, Log, Rights, Value

# The laws by their letters.
LAWS = {letter: law for law, letter in LETTERS.items()}

UNREAD = "line {}: not as it is due in the text of a snapshot, which begins with 'kovshenul picture 1' and ends with 'picture COUNT'"


class Vertex(NamedTuple):
    """A vertex of a snapshot. `value` has its law, and makes a vertex like it. `numbers` are what the vertex stores, as `Store.read`
    returns them. A Log begins empty, so only `numbers` say what a log stores."""

    name: int
    value: Value
    numbers: Tuple[int, ...]


@dataclass(frozen=True)
class Snapshot:
    """A snapshot of a graph, at a place of its history. It has the active workers, the vertices that they reach with their numbers, and how
    many entries came before. `Auditor.snapshot` takes one, and `Auditor.reopen` goes on from it.

    `subjects`, `vertices` and `edges` yield what it shows. Its text has a line for each thing that is shown, and no line feed after the last of them. One graph has one text at a place, so
    equal snapshots are of the same graph. `Snapshot(text)` raises BadValues if no snapshot has the text. The exception's `line` is
    the first line at fault, counted from 1.
    """

    text: str

    def __post_init__(self) -> None:
        if not isinstance(self.text, str):
            raise TypeError("the text of a snapshot is a str")
        object.__setattr__(self, "text", self.text[:-1] if self.text.endswith("\n") else self.text)
        place, line, packed = PlaceOfC(), c_uint64(), self._packed()
        status = library.tg_snapshot_read(byref(place), packed, c_size_t(len(packed)), byref(line))
        library.tg_snapshot_close(byref(place))
        if status == BadValues.status:
            refused = BadValues(text=UNREAD.format(line.value))
            refused.line = line.value
            raise refused
        if status:
            raise refusal(status)

    def __str__(self) -> str:
        return self.text

    @property
    def made(self) -> int:
        """How many names were given. It is the name that the next vertex gets."""
        return self._counts()[0]

    @property
    def limit(self) -> int:
        """How many names may be given in all: the `max_vertices` of the store."""
        return self._counts()[1]

    @property
    def entries(self) -> int:
        """How many entries came before. It is the place of the next entry."""
        return self._counts()[2]

    def subjects(self) -> Iterator[int]:
        """Yields the names of the active workers, rising."""
        for (name,) in self._lines("worker "):
            yield int(name)

    def vertices(self) -> Iterator[Vertex]:
        """Yields each vertex that an active worker reaches, and each active worker, by rising name."""
        for name, stored in self._lines("vertex "):
            value, numbers = _stored_by(stored)
            yield Vertex(int(name), value, numbers)

    def edges(self) -> Iterator[Edge]:
        """Yields each edge between these vertices, by rising source and then by rising target."""
        for source, target, letters in self._lines("edge "):
            yield Edge(int(source), int(target), Rights.of(letters))

    def with_names(self, made: int) -> Snapshot:
        """Returns the same snapshot, in which so many names were given. A host raises the number if entries after the snapshot were
        lost, and a client may still hold names that these entries gave. A store that is reopened gives none of the names before
        `made` again.

        It raises BadLimits if fewer names were given than are now, or more than `limit`.
        """
        made, (now, limit, entries) = number_in(BITS, made), self._counts()
        if not now <= made <= limit:
            raise BadLimits(text=f"the names of this snapshot may be from {now} to {limit}, and not {made}")
        version, _, rest = self.text.split("\n", 2)
        return Snapshot("\n".join([version, f"made {made} {limit} {entries}", rest]))

    def _counts(self) -> Tuple[int, int, int]:
        """How many names were given, how many may be, and how many entries came before."""
        _, made, limit, entries = self.text.split("\n", 2)[1].split(" ")
        return int(made), int(limit), int(entries)

    def _lines(self, word: str) -> Iterator[Tuple[str, ...]]:
        """The rest of each line that begins with the word."""
        return (tuple(line.split(" ")[1:]) for line in self.text.split("\n") if line.startswith(word))

    def _packed(self) -> bytes:
        """The text as the library reads it."""
        return self.text.encode() + b"\n"


def _stored_by(text: str) -> Tuple[Value, Tuple[int, ...]]:
    """The law of a vertex and its numbers, by their text, as `s42`, or `l2:7,8` for a log of at most two."""
    law, (first, _, rest) = LAWS[text[0]], text[1:].partition(":")
    if law is Log:
        return Log(int(first)), tuple(int(number) for number in rest.split(",") if number)
    return law(int(first)), (int(first),)
