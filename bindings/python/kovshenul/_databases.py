"""The two kinds of database in which `kovshenul.database` keeps entries: sqlite3 of the standard library, and PostgreSQL by
psycopg2.

An object of one has a host's connection. It begins and ends transactions, runs statements, and checks what the connection is
set to.
"""
from __future__ import annotations

import sqlite3
import sys
from contextlib import contextmanager
from typing import Any, ClassVar, Dict, Iterator, List, NamedTuple, Optional, Sequence, Tuple, Type

from ._library import short_of
from ._refusals import Error

# The columns of a row when it is read, each as text, or None.
Row = Tuple[Optional[str], ...]

# The greatest integer that both databases keep in 64 bits.
MOST_SIGNED = 2**63 - 1


class BadSettings(Error, ValueError):
    """The connection or its server is set so that a crash may take back what was committed. The text names the setting and the
    right value. Nothing was changed."""


class InTransaction(Error, RuntimeError):
    """The connection has an open transaction, or the journal has one. End it first."""


class Ended(Error):
    """The body of a transaction ended the transaction of the journal itself."""


class Columns(NamedTuple):
    """The types of columns: of a place, and of the number of a vertex."""

    place: str
    vertex: str


class Database:
    """A connection to a database of one kind."""

    columns: ClassVar[Columns]
    # The text that represents a value in a statement.
    mark: ClassVar[str]

    def __init__(self, connection: Any) -> None:
        self.connection = connection

    def is_in_transaction(self) -> bool:
        """Whether the connection has an open transaction, or can't be used any more."""
        raise NotImplementedError

    def begin(self) -> None:
        """Begins a transaction that writes."""
        raise NotImplementedError

    def begin_reading(self) -> None:
        """Begins a transaction that sees the database at one moment."""
        raise NotImplementedError

    def must_be_same(self) -> None:
        """Raises Ended if the transaction isn't the transaction that `begin` began, or if it has failed."""
        raise NotImplementedError

    def must_last(self, standby: bool) -> None:
        """Raises BadSettings if a crash of the machine may lose a transaction that is committed now. If it is asked for, it
        looks at the loss of the server too."""
        raise NotImplementedError

    def commit(self) -> None:
        """Commits the transaction. Its exceptions don't say whether the transaction was committed."""
        raise NotImplementedError

    def roll_back(self) -> None:
        """Rolls back the transaction, if one is open."""
        raise NotImplementedError

    def has_table(self, name: str) -> bool:
        """Whether there is a table with this name."""
        raise NotImplementedError

    def cursor(self) -> Any:
        """A cursor whose rows are tuples, whatever the host has set."""
        raise NotImplementedError

    def insert(self, table: str, rows: Sequence[Sequence[object]]) -> None:
        """Inserts rows, whose values are in the order of the columns."""
        raise NotImplementedError

    # ---- what is the same for both

    def run(self, statement: str, *values: object) -> int:
        """Runs a statement with `?` for each value. Returns how many rows it changed."""
        cursor = self.cursor()
        cursor.execute(statement.replace("?", self.mark), values)
        return cursor.rowcount

    def rows(self, query: str, *values: object) -> List[Row]:
        """The rows of a query with `?` for each value."""
        cursor = self.cursor()
        cursor.execute(query.replace("?", self.mark), values)
        return cursor.fetchall()

    def must_be_idle(self) -> None:
        """Raises InTransaction if the connection has an open transaction."""
        if self.is_in_transaction():
            raise InTransaction("the connection has an open transaction, or is broken: commit or roll back first")

    @contextmanager
    def reading(self) -> Iterator[None]:
        """A transaction of its own, which reads the database as of one moment."""
        self.must_be_idle()
        try:
            self.begin_reading()
            yield
        finally:
            self.roll_back()

    @contextmanager
    def writing(self) -> Iterator[None]:
        """A transaction of its own, which is committed at its end."""
        self.must_be_idle()
        try:
            self.begin()
            yield
            self.commit()
        except BaseException:
            self.roll_back_quietly()
            raise

    def roll_back_quietly(self) -> None:
        """Rolls back, also where the connection is broken. The server itself rolls back then."""
        try:
            self.roll_back()
        except self.connection.Error:
            pass


class Sqlite(Database):
    """A connection of the module sqlite3."""

    columns = Columns("INTEGER PRIMARY KEY", "")
    mark = "?"
    # A COMMIT or a ROLLBACK of the host ends the savepoint with this name.
    SAVEPOINT = "kovshenul_of_journal"
    SYNCHRONOUS = ("OFF", "NORMAL", "FULL", "EXTRA")
    # The value that `synchronous` has to have, by the journal mode of the file. In the mode DELETE only EXTRA syncs the folder.
    ENOUGH: Dict[str, Tuple[str, ...]] = {
        "wal": ("FULL", "EXTRA"),
        "delete": ("EXTRA",),
        "truncate": ("FULL", "EXTRA"),
        "persist": ("FULL", "EXTRA"),
    }

    def __init__(self, connection: Any) -> None:
        super().__init__(connection)
        if getattr(connection, "autocommit", -1) is False:
            raise BadSettings("autocommit=False keeps a transaction open at all times: connect with autocommit=True")

    def is_in_transaction(self) -> bool:
        return self.connection.in_transaction

    def begin(self) -> None:
        self.connection.execute("BEGIN IMMEDIATE")
        self.connection.execute(f"SAVEPOINT {self.SAVEPOINT}")

    def begin_reading(self) -> None:
        self.connection.execute("BEGIN")

    def must_be_same(self) -> None:
        try:
            self.connection.execute(f"RELEASE {self.SAVEPOINT}")
        except sqlite3.OperationalError as error:
            raise Ended("the transaction was ended by a COMMIT or a ROLLBACK in its body") from error

    def must_last(self, standby: bool) -> None:
        (((mode,),), ((level,),)) = (self.rows(f"PRAGMA main.{name}") for name in ("journal_mode", "synchronous"))
        synchronous, mode = self.SYNCHRONOUS[int(level)], str(mode).lower()
        if standby:
            raise BadSettings("SQLite has no standby: leave standby out")
        if mode not in self.ENOUGH:
            raise BadSettings(f"PRAGMA journal_mode is {mode}, which outlives no crash: set PRAGMA journal_mode=WAL on a file")
        if synchronous not in self.ENOUGH[mode]:
            wanted = f"PRAGMA synchronous={self.ENOUGH[mode][0]}" + (", or PRAGMA journal_mode=WAL" if mode == "delete" else "")
            raise BadSettings(
                f"PRAGMA synchronous is {synchronous} with PRAGMA journal_mode={mode}: a crash of the machine may take back what "
                f"was committed. Set {wanted}"
            )

    def commit(self) -> None:
        self.connection.execute("COMMIT")

    def roll_back(self) -> None:
        if self.connection.in_transaction:
            self.connection.execute("ROLLBACK")

    def has_table(self, name: str) -> bool:
        return bool(self.rows("SELECT name FROM main.sqlite_master WHERE type = 'table' AND name = ?", name))

    def cursor(self) -> Any:
        cursor = self.connection.cursor(sqlite3.Cursor)
        cursor.row_factory = None
        return cursor

    def rows(self, query: str, *values: object) -> List[Row]:
        factory, self.connection.text_factory = self.connection.text_factory, str
        try:
            return super().rows(query, *values)
        finally:
            self.connection.text_factory = factory

    def insert(self, table: str, rows: Sequence[Sequence[object]]) -> None:
        if rows:
            marks = ", ".join("?" for _ in rows[0])
            self.cursor().executemany(f"INSERT INTO {table} VALUES ({marks})", [[*map(_kept, row)] for row in rows])


def _kept(value: object) -> object:
    """A value as SQLite keeps it: a number of more than 63 bits as text."""
    return str(value) if isinstance(value, int) and value > MOST_SIGNED else value


class Postgres(Database):
    """A connection of the module psycopg2."""

    columns = Columns("BIGINT PRIMARY KEY", "NUMERIC(20)")
    mark = "%s"
    SETTINGS = ("fsync", "synchronous_commit", "synchronous_standby_names")

    def __init__(self, connection: Any) -> None:
        super().__init__(connection)
        if connection.async_:
            raise BadSettings("the connection is asynchronous: a journal asks for one that isn't")
        # The number of the transaction that `begin` began.
        self._number: Optional[str] = None

    def is_in_transaction(self) -> bool:
        return self.connection.get_transaction_status() != self._status("IDLE")

    def _status(self, name: str) -> int:
        return getattr(_extensions(), f"TRANSACTION_STATUS_{name}")

    def begin(self) -> None:
        self._begin()
        ((self._number,),) = self.rows("SELECT CAST(txid_current() AS TEXT)")

    def begin_reading(self) -> None:
        self._begin()
        self.run("SET TRANSACTION ISOLATION LEVEL REPEATABLE READ, READ ONLY")

    def _begin(self) -> None:
        """Otherwise psycopg2 itself begins a transaction at the first statement."""
        if self.connection.autocommit:
            self.run("BEGIN")

    def must_be_same(self) -> None:
        if self.connection.get_transaction_status() == self._status("INERROR"):
            raise Ended("a statement of the transaction failed, so PostgreSQL rolls the transaction back")
        if not self.is_in_transaction() or self.rows("SELECT CAST(txid_current() AS TEXT)") != [(self._number,)]:
            raise Ended("the transaction was ended by a COMMIT or a ROLLBACK in its body")

    def must_last(self, standby: bool) -> None:
        settings = ", ".join(f"current_setting('{name}')" for name in self.SETTINGS)
        ((fsync, synchronous, standbys, is_standby),) = self.rows(f"SELECT {settings}, CAST(pg_is_in_recovery() AS TEXT)")
        if is_standby == "true":
            raise BadSettings("the server is a standby, which takes no entries: use a follower")
        if fsync == "off":
            raise BadSettings("fsync is off on the server: a crash of the machine may destroy the database. Set fsync = on")
        if synchronous == "off":
            raise BadSettings("synchronous_commit is off: a crash may take back what was committed. Set synchronous_commit = on")
        if standby and synchronous not in ("on", "remote_apply"):
            raise BadSettings(f"synchronous_commit is {synchronous}, which waits for no standby's disk: set synchronous_commit = on")
        if standby and not standbys:
            raise BadSettings("synchronous_standby_names is empty, so no COMMIT waits for a standby: name a standby")

    def commit(self) -> None:
        if self.connection.autocommit:
            self.run("COMMIT")
        else:
            self.connection.commit()

    def roll_back(self) -> None:
        if not self.connection.autocommit:
            self.connection.rollback()
        elif self.is_in_transaction():
            self.run("ROLLBACK")

    def has_table(self, name: str) -> bool:
        ((found,),) = self.rows("SELECT CAST(to_regclass(?) AS TEXT)", name)
        return found is not None

    def cursor(self) -> Any:
        return self.connection.cursor(cursor_factory=_extensions().cursor)

    def insert(self, table: str, rows: Sequence[Sequence[object]]) -> None:
        from psycopg2.extras import execute_values

        if rows:
            execute_values(self.cursor(), f"INSERT INTO {table} VALUES %s", rows, page_size=500)


def _extensions() -> Any:
    """The part of psycopg2 that has its types. It is there where a connection of psycopg2 is."""
    return sys.modules["psycopg2.extensions"]


def database_of(connection: Any) -> Database:
    """The database of a connection. TypeError if it is of no module that is known here."""
    kinds: List[Tuple[Type[Any], Type[Database]]] = [(sqlite3.Connection, Sqlite)]
    if "psycopg2.extensions" in sys.modules:
        kinds.append((_extensions().connection, Postgres))
    for kind, database in kinds:
        if isinstance(connection, kind):
            return database(connection)
    raise TypeError(f"a connection of sqlite3 or of psycopg2 is wanted, and not {short_of(connection)}")
