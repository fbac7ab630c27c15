"""Keeps the entries of a store in a host's database, in one transaction with the host's own tables.

    connection = sqlite3.connect("host.db")
    connection.execute("PRAGMA journal_mode=WAL")
    journal = Journal(connection)
    store = journal.open([Cell(0)])                       # or journal.resume(), in a later process
    with journal.transaction() as cursor:
        note = store.create(0, READ | WRITE, Sum(0))
        cursor.execute("INSERT INTO note VALUES (?, ?)", (note, "a note"))
    print(note)                                           # a reply is handed on after its transaction

The connection is one of sqlite3, or one of psycopg2 to PostgreSQL. A transaction is committed whole or not at all. It has the rows
of the host, and the entries of the commands that the store answered in it. A row of the table has the place of its entry as the
primary key. So of two writers one fails, which then raises Fenced.

Hand on the answers of the store only after the end of the `with`. Before, a crash may take the answer back. If a COMMIT fails or
has no answer, nobody knows whether the entries are in the table. Then the journal closes the store and raises Lost.
`Journal.resume` then opens a store with all entries of the table.

One thread at a time uses a journal, its store and its connection. Other threads and other processes ask a Follower, which has a
connection of its own. The page docs/DATABASE.md says which guarantees this gives.
"""
from __future__ import annotations

from contextlib import contextmanager
from threading import get_ident
from typing import Any, Iterable, Iterator, List, Optional, Sequence, Set, Tuple, TypeVar

from . import _store
from ._auditor import Auditor
from ._databases import BadSettings, Database, InTransaction, database_of
from ._guarded import NoTransaction, Store
from ._refusals import BadPlace, Error, NotOpen
from ._tables import CHUNK, BadTables, Head, Last, Tables, refused_at
from ._values import Limits, Rights, Value
from ._view import View
from .journal import Done, Entry, Name
from .outlook import Outlook

__all__ = [
    "BadSettings",
    "BadTables",
    "Fenced",
    "Follower",
    "InTransaction",
    "Journal",
    "Last",
    "Lost",
    "NoTransaction",
    "Older",
    "Store",
]

PREFIX = "kovshenul_"


class Lost(Error):
    """The journal closed its store, because the store may have other entries than the table. Each transaction raises Lost until
    `Journal.resume`. The text says what happened."""


class Fenced(Error):
    """Another writer made entries in the table. The journal closed its store, and raises Fenced from then on. To write again, make
    a new Journal."""


class Older(Error):
    """The table lacks an entry that was committed. It is an older copy, or the table of a standby that didn't have the entry yet.
    Rights that were given up may be back. The journal raises Older from then on. To go on from the older history, make a new
    Journal."""


def _take_all(tables: Tables, store: Optional[Store] = None, limits: Optional[Limits] = None) -> Store:
    """A store with all entries of the table. It is the same store, unless entries that the store lacks were deleted. Another kind
    of store has no marks. Each part of the entries is read in a transaction of its own."""
    own = None
    try:
        while True:
            with tables.database.reading():
                if store is None or store.entries() < tables.first():
                    head = tables.head()
                    store = own = Store.reopen(head.snapshot, head.limits if limits is None else limits)
                entries = tables.entries(store.entries())
            if not entries:
                return store
            store._take_up(entries)
    except BaseException:
        if own is not None:
            own.close()
        raise


# ---- the writer

Own = TypeVar("Own", bound="Journal")


class Journal:
    """The writer of a store whose entries are in the tables `PREFIXhead` and `PREFIXentry` of a database.

    It checks what the connection is set to, and raises BadSettings if a crash of the machine may take back what was committed.
    It checks the same in each transaction. With `standby` it also asks for a synchronous standby of PostgreSQL, so that the
    loss of the server takes back nothing. It raises InTransaction if the connection has an open transaction.
    """

    def __init__(self, connection: Any, prefix: str = PREFIX, standby: bool = False) -> None:
        self._database: Database = database_of(connection)
        self._tables = Tables(self._database, prefix)
        self._standby = standby
        self._store: Optional[Store] = None
        self._last = Last(0, None)
        # The last entry if a COMMIT that failed, or had no answer, was done.
        self._unknown = self._last
        # Why the journal closed its store.
        self._why: Optional[Error] = None
        with self._database.reading():
            self._database.must_last(standby)

    def has_store(self) -> bool:
        """Whether the tables have a store, which `resume` goes on from. Otherwise `open` makes one. It raises BadTables if
        another version of the package wrote them."""
        with self._database.reading():
            return self._tables.is_there()

    def open(
        self,
        workers: Iterable[Value],
        edges: Iterable[Tuple[int, int, int]] = (),
        limits: Tuple[int, int, int] = Limits(),
        trusted: Iterable[int] = (),
    ) -> Store:
        """Opens a new store in the database, with the arguments of `kovshenul.Store`. It makes the tables if they aren't there.

        It raises BadTables if the tables have a store, and what `kovshenul.Store` raises for these arguments. Nothing was changed
        then.
        """
        self._must_be_idle()
        with Auditor(workers, edges, limits) as auditor:
            head = Head(0, Limits(*limits), auditor.snapshot())
        with self._database.writing():
            self._database.must_last(self._standby)
            self._tables.begin(head)
        return self.resume(trusted=trusted)

    def resume(
        self,
        limits: Optional[Tuple[int, int, int]] = None,
        trusted: Iterable[int] = (),
        last: Optional[Last] = None,
    ) -> Store:
        """Opens a store that has all entries of the table, and closes the store before. Its limits are the limits of `open`, or
        others with the same `max_vertices`. `trusted` are workers after the last entry.

        It does the deed of each entry again, and compares the reply. It raises BadEntry if an entry isn't legal or if a column
        isn't what its line says, and BadPlace if a row is missing. The exception's `at` is the place. It raises BadTables if
        there is no store.

        `last` is what the property `last` of another journal was. It raises Older if the table has no such entry, unless it was
        pruned. The journal compares its own last entry too. After Lost it raises Fenced if another writer made entries since.
        """
        self._must_be_idle()
        if isinstance(self._why, (Fenced, Older)):
            raise self._why
        self.close()
        store = _take_all(self._tables, limits=None if limits is None else Limits(*limits))
        try:
            store._trust_each(trusted)
            with self._database.reading():
                end = self._end_of(store, (self._last, last))
        except BaseException:
            store.close()
            raise
        if self._why is not None and end not in (self._last, self._unknown):
            store.close()
            raise self._stop(Fenced("another writer made entries since the last one of this journal"))
        self._store, self._last, self._unknown, self._why = store, end, end, None
        return store

    @contextmanager
    def transaction(self) -> Iterator[Any]:
        """A transaction, in which the store may be asked for commands. It yields a cursor for the host's own statements.

        At the end of the `with` the new entries are inserted, and all is committed. It raises Lost or Fenced if that fails. If
        the body raises, the host's statements are rolled back, and the exception goes on. If the entries of the body changed
        nothing, as denials and reads do, they are then committed alone, and the store goes on. Otherwise the journal closes the
        store, because no entry can be taken out of a store. The exception has a note of that, and `resume` opens another store.

        Neither commit nor roll back in the body. It raises InTransaction if the connection has an open transaction, or if the
        journal has one. It raises Fenced or Older if the table doesn't end with the last entry of this journal.
        """
        store = self._begin()
        try:
            store._guard.thread = get_ident()
            yield self._database.connection.cursor()
        except BaseException as error:
            self._leave_undone(store, error)
            raise
        else:
            self._commit(store)
        finally:
            store._guard.thread = None

    @property
    def store(self) -> Store:
        """The store of `open` or `resume`. It raises Lost, Fenced or Older if the journal closed it, and NotOpen if there is
        none."""
        if self._why is not None:
            raise type(self._why)(*self._why.args)
        if self._store is None or self._store.closed:
            raise NotOpen
        return self._store

    @property
    def last(self) -> Last:
        """The last entry that this journal knows to be committed. Keep it outside of the database to notice an older copy of
        it."""
        return self._last

    def prune(self, upto: Optional[int] = None) -> int:
        """Keeps a snapshot at the end of the entries, or at the place `upto`, and deletes the rows before it. The row of the
        last entry before the snapshot stays. A store is then resumed from the snapshot. Returns the place of the snapshot.

        It replays the entries since the last snapshot, in a store and an auditor of its own. So the snapshot is of a legal
        history. A journal in another process may prune while a writer writes. If two prune at a time, one of them changes
        nothing.
        """
        self._must_be_idle()
        with self._database.reading():
            old = self._tables.head()
        with Store.reopen(old.snapshot, old.limits) as store, Auditor.reopen(old.snapshot) as auditor:
            while self._feed(store, auditor, old.first, upto):
                pass
            new = Head(auditor.at, old.limits, auditor.snapshot())
        with self._database.writing():
            self._database.must_last(self._standby)
            is_moved = self._tables.move_head(old, new)
        return new.first if is_moved else old.first

    def close(self) -> None:
        """Closes the store, and leaves the connection open."""
        if self._store is not None:
            self._store.close()

    def __enter__(self: Own) -> Own:
        return self

    def __exit__(self, *_exception: object) -> None:
        self.close()

    # ---- the parts of these calls

    def _must_be_idle(self) -> None:
        """No transaction is open, of the journal or of the connection."""
        if self._store is not None and self._store._guard.thread is not None:
            raise InTransaction("the journal has an open transaction: end it first")
        self._database.must_be_idle()

    def _stop(self, why: Error) -> Error:
        """Closes the store, and returns why, which is raised from then on."""
        self._why = why
        self.close()
        return why

    def _end_of(self, store: Store, wanted: Iterable[Optional[Last]]) -> Last:
        """The last entry of a store that has all entries of the table. The table has the requested entries too, if they weren't
        pruned."""
        first, entries = self._tables.first(), store.entries()
        for last in wanted:
            if last is not None and last.entries >= max(first, 1) and self._tables.line(last.entries - 1) != last.line:
                raise self._stop(Older(f"the table lacks the entry {last.entries - 1}, which was committed: {last.line!r}"))
        line = self._tables.line(entries - 1)
        if line is None and entries > 0:
            raise refused_at(BadPlace, entries - 1, "the table has no row of this place")
        return Last(entries, line)

    def _feed(self, store: Store, auditor: Auditor, first: int, upto: Optional[int]) -> bool:
        """Has a store and an auditor take up the next entries before a place. Returns whether there were any. There are none if
        somebody else moved the head."""
        at = store.entries()
        most = CHUNK if upto is None else min(CHUNK, max(upto - at, 0))
        with self._database.reading():
            entries = self._tables.entries(at, most) if self._tables.first() == first else []
        _store.Store.go_on(store, at, entries)
        auditor.forget(store, auditor.feed(store))
        return bool(entries)

    def _begin(self) -> Store:
        """Begins a transaction of the store. The table has to end with the last entry of this journal, and the store too."""
        store = self.store
        self._must_be_idle()
        try:
            self._database.begin()
            self._database.must_last(self._standby)
            self._must_be_last(self._tables.last())
            if store.entries() != self._last.entries:
                raise self._stop(Lost("the store has entries of no transaction"))
        except BaseException:
            self._database.roll_back_quietly()
            raise
        return store

    def _must_be_last(self, last: Last) -> None:
        """The table ends with the last entry of this journal."""
        known = self._last
        if last.entries < known.entries:
            raise self._stop(Older(f"the table has {last.entries} entries, and {known.entries} were committed"))
        if last != known:
            raise self._stop(Fenced(f"another writer made entries: the table has {last.entries}, and this journal {known.entries}"))

    def _commit(self, store: Store, is_begun: bool = True) -> None:
        """Inserts the new entries and commits. The journal closes the store if that fails."""
        store._guard.thread = None
        try:
            if not is_begun:
                self._database.begin()
            self._database.must_be_same()
            self._database.must_last(self._standby)
            self._unknown = self._insert(self._new(store))
            self._database.commit()
            self._last = self._unknown
        except BaseException as error:
            self._database.roll_back_quietly()
            if isinstance(error, Fenced):
                raise self._stop(error)
            what = str(error) or type(error).__name__
            lost = self._stop(Lost(f"the transaction may not be committed, so the store was closed: {what}"))
            if isinstance(error, Exception):
                raise lost from error
            raise
        store._give_up()

    def _new(self, store: Store) -> List[Entry]:
        """The entries that the store made since the last COMMIT."""
        return [store.entry(at) for at in range(self._last.entries, store.entries())]

    def _insert(self, entries: Sequence[Entry]) -> Last:
        """Inserts entries, and returns the last one of the table. Another writer's entry at a place of these raises Fenced."""
        if not entries:
            return self._last
        try:
            return self._tables.insert(self._last.entries, entries)
        except self._database.connection.IntegrityError as error:
            raise Fenced(f"another writer made an entry at the place {self._last.entries} or after it") from error

    def _leave_undone(self, store: Store, error: BaseException) -> None:
        """Rolls the host's statements back, after the body raised. Entries that changed nothing are committed alone."""
        store._guard.thread = None
        self._database.roll_back_quietly()
        try:
            replies = [entry.reply for entry in self._new(store)]
        except Error as lacking:
            self._stop(Lost(f"the store lacks entries of a transaction: {lacking}"))
            return
        if any(isinstance(reply, (Done, Name)) for reply in replies):
            self._stop(Lost("the body of a transaction raised after commands that were done, so the store was closed"))
            error.add_note("The journal closed its store, which had done commands of the transaction. Call Journal.resume.")
        elif replies:
            self._commit(store, is_begun=False)


# ---- readers

class Follower:
    """A reader of a store that is kept in a database. It has a store of its own, which takes up the entries of the table.

    It opens the store, and takes up all entries. From then on `follow` takes up what is new. It raises what `Journal.resume`
    raises. It writes nothing, so a standby of PostgreSQL may answer it. The answers are the answers of the writer's store at the
    same `place`. `trusted` are workers after the last entry that is there.
    """

    def __init__(self, connection: Any, prefix: str = PREFIX, trusted: Iterable[int] = ()) -> None:
        self._tables = Tables(database_of(connection), prefix)
        self._store = _take_all(self._tables)
        self._store._trust_each(trusted)

    def follow(self) -> int:
        """Takes up the entries that are new, and returns the place. It raises what `Journal.resume` raises. It has some of the
        new entries then, or after a bad entry it is closed. After an exception of the database it can follow again."""
        if self._store.closed:
            raise NotOpen
        store = _take_all(self._tables, self._store)
        if store is not self._store:
            store._trusted = self._store._trusted
            self._store.close()
            self._store = store
        return self.place

    @property
    def place(self) -> int:
        """How many entries it has taken up."""
        return self._store.entries()

    def label(self, worker: int, target: int) -> Rights:
        """Returns the rights that the worker holds over the target, as `Store.label`."""
        return self._store.label(worker, target)

    def who_holds(self, right: int, name: int) -> List[int]:
        """Returns who holds the right over the vertex with this name, as `Store.who_holds`."""
        return self._store.who_holds(right, name)

    def could(
        self,
        x: int,
        right: int,
        y: int,
        silent: Optional[Iterable[int]] = None,
        as_if: Iterable[Tuple[int, int, int]] = (),
    ) -> Outlook:
        """Returns whether x could ever come to hold the right over y, as `Store.could`."""
        return self._store.could(x, right, y, silent, as_if)

    def view(self, silent: Optional[Iterable[int]] = None, as_if: Iterable[Tuple[int, int, int]] = ()) -> View:
        """Opens a view of the vertices that the workers reach, as `Store.view`."""
        return self._store.view(silent, as_if)

    def subjects(self) -> List[int]:
        """Returns the names of the active workers, rising."""
        return self._store.subjects()

    def names(self) -> Set[int]:
        """Returns the names of the vertices, as `Store.names`."""
        return self._store.names()

    def trust(self, worker: int) -> None:
        """Marks a worker as trusted, as `Store.trust`."""
        self._store.trust(worker)

    def close(self) -> None:
        """Closes the store of the follower, and leaves the connection open."""
        self._store.close()

    def __enter__(self) -> Follower:
        if self._store.closed:
            raise NotOpen
        return self

    def __exit__(self, *_exception: object) -> None:
        self.close()
