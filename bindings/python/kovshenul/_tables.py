"""The two tables of a store that is kept in a database. One has its entries, and the other is the head, which has the snapshot
before the first of them.

The columns of an entry are the words of its line. So a query of the host finds entries by them, and a reader compares them with
the line. Numbers of vertices and places of a query come as text, because no database has a type for each number below 2^64.
"""
from __future__ import annotations

import re
from typing import List, NamedTuple, Optional, Sequence, Tuple, Type

from ._databases import Database, Row
from ._lines import entry_of_line, words_of
from ._refusals import BadEntry, BadPlace, BadValues, Error, Refused
from ._snapshot import Snapshot
from ._values import Limits
from .journal import Entry

VERSION = 1

# The columns of an entry after its place, in their order.
WORDS = ("worker", "deed", "via", "target", "rights", "value", "reply")
VERTICES = ("worker", "via", "target")

# How many rows are read at a time.
CHUNK = 2_000

PREFIX = re.compile(r"[a-z_][a-z0-9_]{0,39}")


class BadTables(Error):
    """The tables aren't the tables of a store. They aren't there, another version of the package wrote them, or a store is there
    already. The text says which. Nothing was changed."""


class Last(NamedTuple):
    """The end of a history: how many entries it has, and the line of the last one. A history without entries has no line."""

    entries: int
    line: Optional[str]


class Head(NamedTuple):
    """Where the entries begin: how many came before, the limits of the store, and the snapshot before the first entry."""

    first: int
    limits: Limits
    snapshot: Snapshot


class Tables:
    """The tables with a prefix, of a database."""

    def __init__(self, database: Database, prefix: str) -> None:
        if not PREFIX.fullmatch(prefix):
            raise ValueError(f"a prefix has 1 to 40 letters a-z, digits and _, and begins with no digit. It isn't {prefix!r}")
        self.database = database
        self.of_entries, self.of_head = f"{prefix}entry", f"{prefix}head"

    # ---- the head

    def begin(self, head: Head) -> None:
        """Makes the tables if they aren't there, and the head. BadTables if there is a head."""
        if self.is_there():
            raise BadTables(f"the table {self.of_head} has a store already: resume it")
        place, vertex = self.database.columns
        self.database.run(
            f"CREATE TABLE IF NOT EXISTS {self.of_head} (id INTEGER PRIMARY KEY CHECK (id = 0), version INTEGER NOT NULL, "
            f"first BIGINT NOT NULL, max_vertices BIGINT NOT NULL, max_blocks BIGINT NOT NULL, max_space_blocks BIGINT NOT NULL, "
            f"snapshot TEXT NOT NULL)"
        )
        self.database.run(
            f"CREATE TABLE IF NOT EXISTS {self.of_entries} (place {place}, worker {vertex} NOT NULL, deed TEXT NOT NULL, "
            f"via {vertex}, target {vertex}, rights TEXT, value TEXT, reply TEXT NOT NULL, line TEXT NOT NULL)"
        )
        row = 0, VERSION, head.first, *head.limits, str(head.snapshot)
        self.database.insert(self.of_head, [row])

    def is_there(self) -> bool:
        """Whether the tables have a store. BadTables if another version of the package wrote them."""
        if not self.database.has_table(self.of_head):
            return False
        versions = self.database.rows(f"SELECT CAST(version AS TEXT) FROM {self.of_head}")
        if versions not in ([], [(str(VERSION),)]):
            raise BadTables(f"the table {self.of_head} is of version {versions[0][0]}, and this package reads version {VERSION}")
        return bool(versions)

    def head(self) -> Head:
        """The head. BadTables if there is none."""
        if not self.is_there():
            raise BadTables(f"the table {self.of_head} has no store: open one")
        columns = ", ".join(f"CAST({name} AS TEXT)" for name in ("first", *Limits._fields))
        ((first, *limits, snapshot),) = self.database.rows(f"SELECT {columns}, snapshot FROM {self.of_head}")
        return Head(int(first), Limits(*map(int, limits)), Snapshot(snapshot))

    def first(self) -> int:
        """How many entries came before the snapshot of the head."""
        ((first,),) = self.database.rows(f"SELECT CAST(first AS TEXT) FROM {self.of_head}")
        return int(first or 0)

    def move_head(self, old: Head, new: Head) -> bool:
        """Puts a later head in the place of an old one, and deletes the entries before it but for the last of them. It changes
        nothing if the head was replaced. Returns whether it moved the head."""
        statement = f"UPDATE {self.of_head} SET first = ?, snapshot = ? WHERE first = ?"
        if self.database.run(statement, new.first, str(new.snapshot), old.first) == 0:
            return False
        self.database.run(f"DELETE FROM {self.of_entries} WHERE place < ?", new.first - 1)
        return True

    # ---- the entries

    def insert(self, at: int, entries: Sequence[Entry]) -> Last:
        """Inserts entries, of which the first has this place, and there is one. Returns the last of them."""
        lines = [*map(str, entries)]
        self.database.insert(self.of_entries, [_row_of(place, line) for place, line in enumerate(lines, at)])
        return Last(at + len(lines), lines[-1])

    def last(self) -> Last:
        """The last entry of the table. Its row stays when entries are deleted."""
        query = f"SELECT CAST(e.place AS TEXT), e.line FROM {self.of_entries} AS e ORDER BY e.place DESC LIMIT 1"
        for place, line in self.database.rows(query):
            return Last(int(place or 0) + 1, line)
        return Last(0, None)

    def line(self, at: int) -> Optional[str]:
        """The line of the entry at a place, or None if the table has none there."""
        for (line,) in self.database.rows(f"SELECT line FROM {self.of_entries} WHERE place = ?", at):
            return line
        return None

    def entries(self, at: int, most: int = CHUNK) -> List[Entry]:
        """The entries from a place on, at most so many. BadPlace if one of them isn't there, and BadEntry if a column isn't
        what the line says. The exception's `at` is the place."""
        words = ", ".join(f"CAST(e.{name} AS TEXT)" for name in ("place", *WORDS))
        query = f"SELECT {words}, e.line FROM {self.of_entries} AS e WHERE e.place >= ? ORDER BY e.place LIMIT {most}"
        return [_entry_of(place, row) for place, row in enumerate(self.database.rows(query, at), at)]


def _row_of(place: int, line: str) -> Tuple[object, ...]:
    """The row of an entry with this line."""
    words = words_of(line)
    return (place, *(int(words[name]) if name in VERTICES and name in words else words.get(name) for name in WORDS), line)


def _entry_of(place: int, row: Row) -> Entry:
    """The entry of a row, which has the place."""
    at, *columns, line = row
    if at != str(place):
        raise refused_at(BadPlace, place, "the table has no row of this place")
    try:
        entry = entry_of_line(line or "")
    except BadValues as error:
        raise refused_at(BadEntry, place, error.text) from None
    words = words_of(line or "")
    for name, column in zip(WORDS, columns):
        if column != words.get(name):
            raise refused_at(BadEntry, place, f"the column {name} is {column!r}, and the line is {line!r}")
    return entry


def refused_at(kind: Type[Refused], place: int, text: str) -> Refused:
    """A refusal for the row of a place."""
    refused = kind(text=text)
    refused.at = place
    return refused
