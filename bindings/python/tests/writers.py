"""Writers of a store in a database that are killed at any moment, and what is checked after each kill.

A writer does commands at random. In the same transaction it inserts a row into the table of its host for each entry: the place
and the line. After the transaction it acknowledges the entries over a pipe, as a service answers its clients. After a kill both
tables have to have the same entries, with all that were acknowledged.
"""
import os
import random
import select
import signal
import sqlite3
import time

from kovshenul import GRANT, READ, WRITE, Cell, Denied, Edge, Limits, Sum
from kovshenul._databases import database_of
from kovshenul.database import Follower, Journal

OPENING = [Cell(0), Cell(0)], [Edge(0, 1, GRANT)], Limits(10**9, 2**12)
MOST_COMMANDS = 4


class Wrong(Exception):
    """What a check found."""


def connected(path):
    """A connection to a file of sqlite3, as a journal asks for it."""
    connection = sqlite3.connect(path, timeout=60)
    connection.execute("PRAGMA journal_mode=WAL")
    return connection


def make_tables(connection):
    """Opens the store, and makes the host's table."""
    Journal(connection).open(*OPENING).close()
    connection.cursor().execute("CREATE TABLE work (place BIGINT NOT NULL, line TEXT NOT NULL)")
    connection.commit()
    connection.close()


def insert(cursor, place, line):
    """Inserts the host's row of an entry. Both modules take a number and a line as they are printed."""
    cursor.execute(f"INSERT INTO work VALUES ({place}, '{line}')")


def do_one(store, rng, notes):
    """Does a command at random, of which some are denied."""
    kind = rng.random()
    if kind < 0.2 or not notes:
        notes.append(store.create(0, READ | WRITE, Sum(0)))
        return
    note = rng.choice(notes)
    try:
        if kind < 0.4:
            store.grant(0, 1, note, READ)
        elif kind < 0.6:
            store.write(0, note, rng.choice([1, 2**64 - 1]))
        elif kind < 0.8:
            store.read(rng.randrange(2), note)
        else:
            store.write(1, note, 5)
    except Denied:
        pass


def transact(journal, rng, notes, acknowledge):
    """One transaction of a few commands, with a row of the host for each."""
    store, done = journal.store, []
    with journal.transaction() as cursor:
        for _ in range(rng.randint(1, MOST_COMMANDS)):
            at = store.entries()
            do_one(store, rng, notes)
            done.append((at, str(store.entry(at))))
            insert(cursor, *done[-1])
    acknowledge(done)


def write_on(connection, acknowledge, rng, kind=Journal, prunes=False):
    """Resumes the store and writes without an end."""
    journal = kind(connection)
    if prunes:
        journal.prune()
    store = journal.resume()
    notes = [name for name in store.names() if store.label(0, name) & WRITE][-50:]
    while True:
        transact(journal, rng, notes, acknowledge)


def over(pipe):
    """Acknowledges entries over a pipe."""

    def acknowledge(done):
        os.write(pipe, "".join(f"{place} {line}\n" for place, line in done).encode())

    return acknowledge


def forked(run):
    """Runs a function in a child, which gets the end of a pipe. Returns the child's number, and the pipe's other end."""
    reader, pipe = os.pipe()
    child = os.fork()
    if child:
        os.close(pipe)
        return child, reader
    status = 1
    try:
        os.close(reader)
        run(pipe)
        status = 0
    except BaseException as error:
        os.write(pipe, f"wrong {error!r}\n".encode())
    finally:
        os._exit(status)


def killed(run, rng, longest):
    """Kills a child at a random moment, and returns the entries that it acknowledged, as places in text with lines. The moment
    is so many seconds at the most after the first acknowledgement, or for one child in five after its start."""
    child, reader = forked(run)
    if rng.random() < 0.8:
        select.select([reader], [], [], 60)
    time.sleep(rng.uniform(0, longest))
    os.kill(child, signal.SIGKILL)
    os.waitpid(child, 0)
    with open(reader, encoding="ascii") as file:
        return acknowledged(file.read())


def acknowledged(text):
    """The entries of acknowledgements, of which the last may be cut off."""
    whole = text[: text.rfind("\n") + 1].splitlines()
    for line in whole:
        if line.startswith("wrong "):
            raise Wrong(line)
    return [(place, line) for place, _, line in (one.partition(" ") for one in whole)]


class Checker:
    """Checks both tables after each kill. Its follower has each entry replayed. It has no connection open between two checks,
    because a process that forks must have no file of sqlite3 open."""

    def __init__(self, connect):
        self.connect, self.acknowledged, self.place = connect, 0, 0
        self.follower = None

    def check(self, acked):
        """Raises Wrong if an entry has no row, a row no entry, or if an acknowledged entry isn't there. A writer may go on
        meanwhile."""
        connection = self.connect()
        try:
            database = database_of(connection)
            with database.reading():
                self._compare(database, acked)
            if self.follower is None:
                self.follower = Follower(connection)
            self.follower._tables.database = database
            if self.follower.follow() < self.place:
                raise Wrong(f"the follower is at the place {self.follower.place}, and the table ends at {self.place}")
        finally:
            connection.close()
        self.acknowledged += len(acked)

    def _compare(self, database, acked):
        """The two tables have the same, and the acknowledged entries among them."""
        ((first,),) = database.rows("SELECT CAST(first AS TEXT) FROM kovshenul_head")
        query = "SELECT CAST(t.place AS TEXT), t.line FROM {} AS t WHERE t.place >= ? ORDER BY t.place"
        entries, rows = (database.rows(query.format(table), int(first)) for table in ("kovshenul_entry", "work"))
        if entries != rows:
            raise Wrong(f"{len(entries)} entries and {len(rows)} rows, of which {first_of(entries, rows)} differs")
        there = set(entries)
        lost = [one for one in acked if int(one[0]) >= int(first) and one not in there]
        if lost:
            raise Wrong(f"{len(lost)} acknowledged entries aren't there, of which the first is {lost[0]}")
        self.place = int(first) + len(entries)


def first_of(these, those):
    """The first item of two lists that is only in one of them."""
    return min({*these} ^ {*those}, key=lambda item: int(item[0]))


# ---- planted writers, which are wrong

# How long a wrong writer waits between its two transactions, so that a kill finds it soon.
PAUSE = 0.0


class TwoTransactions(Journal):
    """Commits the host's rows, and then the entries."""

    def _insert(self, entries):
        self._database.commit()
        time.sleep(PAUSE)
        self._database.begin()
        return super()._insert(entries)


class EntriesFirst(Journal):
    """Commits the entries, and then the host's rows, which it has to do a second time."""

    def _insert(self, entries):
        rows = self._database.rows("SELECT CAST(w.place AS TEXT), w.line FROM work AS w WHERE w.place >= ?", self._last.entries)
        self._database.roll_back()
        self._database.begin()
        last = super()._insert(entries)
        self._database.commit()
        time.sleep(PAUSE)
        self._database.begin()
        for place, line in rows:
            insert(self._database.cursor(), place, line)
        return last


def write_early(connection, acknowledge, rng):
    """Acknowledges entries before their transaction is committed."""
    journal = Journal(connection)
    store, notes = journal.resume(), []
    while True:
        with journal.transaction() as cursor:
            at = store.entries()
            do_one(store, rng, notes)
            insert(cursor, at, str(store.entry(at)))
            acknowledge([(at, str(store.entry(at)))])
            time.sleep(PAUSE)


def rounds(connect, count, rng, write=write_on, longest=0.03, **words):
    """Kills so many writers one after the other, each at a random moment, and checks after each. Returns how many entries were
    acknowledged and how many there are."""
    checker = Checker(connect)
    for _ in range(count):
        seed = rng.getrandbits(32)
        checker.check(killed(lambda pipe: write(connect(), over(pipe), random.Random(seed), **words), rng, longest))
    return checker.acknowledged, checker.place
