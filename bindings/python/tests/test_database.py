"""A store whose entries are in a host's database. It is over sqlite3, and over PostgreSQL if its server and psycopg2 are
there."""
import random
import shutil
import sqlite3
import sys
import tempfile
import threading
import unittest
from pathlib import Path
from unittest import mock

import servers
import writers
from kovshenul import (
    GRANT,
    READ,
    TAKE,
    WRITE,
    BadEntry,
    BadLimits,
    BadPlace,
    BadValues,
    BadWorkers,
    Cell,
    Denied,
    Limits,
    Log,
    NotOpen,
    Rights,
    Snapshot,
    Store,
    Sum,
    VerticesFull,
    journal,
)
from kovshenul import _guarded, _tables
from kovshenul._lines import entry_of_line
from kovshenul.database import BadSettings, BadTables, Fenced, Follower, InTransaction, Journal, Last, Lost, NoTransaction, Older
from test_journal import DEEDS, WORKERS, called, drawn, opened, opening

OPENING = [Cell(0), Cell(0)], [(0, 1, GRANT)], Limits(50, 64, 64)
BIG = 2**64 - 1

# A file in memory is enough, because the tests end no machine.
FOLDER = "/dev/shm" if Path("/dev/shm").is_dir() else None


def ask_any(store, rng, kinds):
    """Asks for a deed of one of these kinds, with words at random."""
    kind = rng.choice(kinds)
    deed = kind(READ | TAKE, Sum(BIG)) if kind is journal.Spawn else kind() if kind is journal.Retire else drawn(rng, kind)
    called(store, rng.randrange(WORKERS + 1), deed)


class Lines(unittest.TestCase):
    """The line of an entry, read back."""

    def setUp(self):
        rng = random.Random(5)
        with opened() as store:
            for _ in range(3_000):
                ask_any(store, rng, [*DEEDS, journal.Spawn])
            for _ in range(WORKERS):
                ask_any(store, rng, [journal.Retire])
            self.entries = [*store.journal()]

    def test_each_line_is_read_back(self):
        for entry in self.entries:
            self.assertEqual(entry_of_line(str(entry)), entry)

    def test_another_text_is_no_line(self):
        """A text that is read has to be the line of what was read. The library writes the lines."""
        rng, letters = random.Random(6), "0123456789 =:->rwtgaluvcsmok_\u0661"
        for line in {*map(str, self.entries)}:
            for _ in range(10):
                at = rng.randrange(len(line) + 1)
                text = line[:at] + rng.choice([rng.choice(letters), "", "00", "  "]) + line[at + rng.randrange(2) :]
                try:
                    self.assertEqual(str(entry_of_line(text)), text)
                except BadValues as bad:
                    self.assertIn(repr(text), str(bad))


class Cases:
    """What holds over both databases."""

    # ---- what a database is

    def connect(self):
        """A new connection to the same database."""
        raise NotImplementedError

    def setUp(self):
        self.connection = self.connected()
        self.run_in(self.connection, "CREATE TABLE host (number NUMERIC)")
        self.journal = Journal(self.connection)

    def connected(self):
        """A new connection, which is closed after the test."""
        connection = self.connect()
        self.addCleanup(connection.close)
        return connection

    def run_in(self, connection, *statements):
        """Runs statements in a transaction of their own. Returns the rows of the last one, if it has rows."""
        cursor = connection.cursor()
        for statement in statements:
            cursor.execute(statement)
        rows = [tuple(row) for row in cursor.fetchall()] if cursor.description else None
        connection.commit()
        return rows

    def hosts(self):
        """How many rows the host has."""
        ((count,),) = self.run_in(self.connection, "SELECT COUNT(*) FROM host")
        return count

    def lines(self):
        return [line for (line,) in self.run_in(self.connection, "SELECT line FROM kovshenul_entry ORDER BY place")]

    def open(self, *words):
        store = self.journal.open(*words or OPENING)
        self.addCleanup(store.close)
        return store

    def insert(self, cursor):
        cursor.execute("INSERT INTO host VALUES (1)")

    def with_three_entries(self):
        """A store with a note, which worker 1 reads."""
        store = self.open()
        with self.journal.transaction():
            note = store.create(0, READ | WRITE, Sum(0))
            store.grant(0, 1, note, READ)
            store.write(0, note, BIG)
        return store, note

    # ---- entries and rows

    def test_entries_and_rows_are_committed_together(self):
        self.assertFalse(self.journal.has_store())
        store = self.open()
        with self.journal.transaction() as cursor:
            note = store.create(0, READ | WRITE, Sum(BIG))
            self.insert(cursor)
            self.assertEqual(self.run_in(self.connected(), "SELECT COUNT(*) FROM kovshenul_entry"), [(0,)])
        self.assertEqual((note, self.hosts(), self.lines()), (2, 1, [f"0 create rw s{BIG} = ok 2"]))
        self.assertEqual((store.first(), self.journal.last), (1, Last(1, self.lines()[0])))
        self.assertTrue(self.journal.has_store())

    def test_a_random_history_is_resumed(self):
        rng, store = random.Random(8), self.open(*opening())
        for _ in range(200):
            with self.journal.transaction():
                for _ in range(rng.randrange(12)):
                    ask_any(store, rng, [*DEEDS, journal.Spawn])
                if rng.random() < 0.1:
                    store.collect()
        with mock.patch.object(_tables.Tables.entries, "__defaults__", (100,)):
            resumed = Journal(self.connected()).resume(last=self.journal.last)
        self.assertEqual(resumed.entries(), store.entries())
        self.assertGreater(store.entries(), 900)
        self.agree(resumed, store)
        text = "\n".join(self.lines())
        for kind in DEEDS:
            self.assertIn(f" {kind.__name__.lower()}", text)

    def agree(self, one, other):
        """Two stores, or a follower and a store, give the same answers."""
        self.assertEqual(one.subjects(), other.subjects())
        for worker in other.subjects():
            for target in range(12):
                self.assertEqual(one.label(worker, target), other.label(worker, target))
                self.assertEqual(type(one.could(worker, WRITE, target)), type(other.could(worker, WRITE, target)))
        for right in (READ, GRANT):
            for target in range(12):
                self.assertEqual(one.who_holds(right, target), other.who_holds(right, target))

    def test_the_columns_are_the_words_of_a_line(self):
        store, note = self.with_three_entries()
        with self.journal.transaction():
            store.create(0, READ, Log(64))
            self.assertRaises(Denied, store.write, 1, BIG, BIG)
            store.list(1)
        columns = "CAST(via AS TEXT), CAST(target AS TEXT), rights, value, reply"
        rows = self.run_in(self.connection, f"SELECT place, worker, deed, {columns} FROM kovshenul_entry ORDER BY place")
        self.assertEqual(
            rows,
            [
                (0, 0, "create", None, None, "rw", "s0", "ok 2"),
                (1, 0, "grant", "1", "2", "r", None, "ok"),
                (2, 0, "write", None, "2", None, str(BIG), "ok"),
                (3, 0, "create", None, None, "r", "l64", "ok 3"),
                (4, 1, "write", None, str(BIG), None, str(BIG), f"denied write 1->{BIG} w"),
                (5, 1, "list", None, None, None, None, "ok 2:r"),
            ],
        )
        found = self.run_in(self.connection, f"SELECT place FROM kovshenul_entry WHERE target = {note} ORDER BY place")
        self.assertEqual(found, [(1,), (2,)])

    def test_collections_and_refusals_make_no_row(self):
        store, _ = self.with_three_entries()
        with self.journal.transaction():
            store.collect()
            self.assertRaises(LookupError, store.read, 7, 0)
            self.assertRaises(ValueError, store.create, 0, READ, Log(65))
            self.assertRaises(OverflowError, store.read, 0, 2**64)
        self.assertEqual(len(self.lines()), 3)

    def test_calls_of_many_entries(self):
        store, note = self.with_three_entries()
        with self.journal.transaction():
            spawned = store.spawn(0, TAKE | GRANT, Cell(0), trusted=True)
            store.grant(0, spawned, note, READ)
            store.hand(0, spawned, 1, note, READ)
            store.apply_all(0, [journal.Read(note), journal.Write(note, 2), journal.Write(9, 2)])
            store.leave(spawned)
        self.assertEqual(self.journal.last.entries, len(self.lines()))
        self.assertEqual(Journal(self.connected()).resume().entries(), len(self.lines()))

    # ---- a body that raises

    def test_a_body_without_entries_raises(self):
        store, _ = self.with_three_entries()
        with self.assertRaises(KeyError), self.journal.transaction() as cursor:
            self.insert(cursor)
            raise KeyError
        self.assertEqual((self.hosts(), self.lines()[3:]), (0, []))
        with self.journal.transaction() as cursor:
            self.insert(cursor)
        self.assertEqual((self.hosts(), store.entries()), (1, 3))

    def test_a_denial_that_leaves_the_body_is_kept_alone(self):
        store, note = self.with_three_entries()
        with self.assertRaises(Denied) as caught, self.journal.transaction() as cursor:
            self.insert(cursor)
            store.read(1, note)
            store.write(1, note, 3)
        self.assertFalse(hasattr(caught.exception, "__notes__"))
        self.assertEqual(self.lines()[3:], [f"1 read 2 = ok {BIG}", "1 write 2 3 = denied write 1->2 w"])
        self.assertEqual(self.hosts(), 0)
        with self.journal.transaction() as cursor:
            self.assertEqual(store.read(1, note), [BIG])
            self.insert(cursor)
        self.assertEqual((self.hosts(), len(self.lines())), (1, 6))

    def test_a_limit_that_leaves_the_body_is_kept_alone(self):
        store = self.open([Cell(0)], [], Limits(1))
        with self.assertRaises(VerticesFull), self.journal.transaction():
            store.create(0, READ, Cell(0))
        self.assertEqual(self.lines(), ["0 create r c0 = refused vertices"])
        self.assertFalse(store.closed)

    def test_a_body_that_raises_after_a_command(self):
        store, note = self.with_three_entries()
        with self.assertRaises(KeyError) as caught, self.journal.transaction() as cursor:
            self.insert(cursor)
            store.write(0, note, 5)
            raise KeyError
        self.assertIn("Journal.resume", caught.exception.__notes__[0])
        self.assertEqual((self.hosts(), len(self.lines()), store.closed), (0, 3, True))
        for _ in range(2):
            self.assertRaises(Lost, self.journal.transaction().__enter__)
        self.assertRaises(NotOpen, store.label, 0, note)
        store = self.journal.resume()
        with self.journal.transaction() as cursor:
            self.assertEqual(store.read(0, note), [BIG])
            self.insert(cursor)
        self.assertEqual((self.hosts(), len(self.lines())), (1, 4))

    def test_a_body_that_raises_after_a_create(self):
        store, _ = self.with_three_entries()
        with self.assertRaises(KeyError), self.journal.transaction():
            store.create(0, READ, Cell(0))
            raise KeyError
        self.assertTrue(store.closed)
        self.assertEqual(self.journal.resume().entries(), 3)

    def test_an_interrupted_body(self):
        store, note = self.with_three_entries()
        with self.assertRaises(KeyboardInterrupt), self.journal.transaction():
            store.write(0, note, 5)
            raise KeyboardInterrupt
        self.assertRaises(Lost, lambda: self.journal.store)
        self.assertEqual(self.journal.resume().entries(), 3)

    def test_a_store_that_is_closed_in_the_body(self):
        store, note = self.with_three_entries()
        with self.assertRaises(Lost), self.journal.transaction() as cursor:
            self.insert(cursor)
            store.write(0, note, 5)
            store.close()
        self.assertEqual((self.hosts(), self.journal.resume().entries()), (0, 3))
        with self.assertRaises(KeyError), self.journal.transaction():
            self.journal.store.close()
            raise KeyError
        self.assertRaises(Lost, self.journal.transaction().__enter__)

    # ---- a COMMIT that fails

    def fail_commit(self, before):
        """Has the COMMIT of the journal raise, before or after it was done."""
        database = self.journal._database
        real = database.commit

        def commit():
            if not before:
                real()
            raise self.connection.OperationalError("no answer")

        return mock.patch.object(database, "commit", commit)

    def test_a_commit_without_an_answer(self):
        for before in (True, False):
            with self.subTest(before=before):
                count = len(self.lines()) if self.journal.has_store() else 0
                store, note = self.with_three_entries() if count == 0 else (self.journal.store, 2)
                count = len(self.lines())
                with self.assertRaises(Lost) as caught, self.fail_commit(before), self.journal.transaction() as cursor:
                    self.insert(cursor)
                    store.write(0, note, 5)
                self.assertIsInstance(caught.exception.__cause__, self.connection.OperationalError)
                self.assertTrue(store.closed)
                self.assertRaises(Lost, self.journal.transaction().__enter__)
                self.assertEqual(len(self.lines()), count + (not before))
                self.assertEqual(self.hosts(), int(not before))
                self.assertEqual(self.journal.resume().entries(), count + (not before))
        with self.journal.transaction():
            self.journal.store.write(0, note, 1)

    def test_a_commit_that_is_interrupted(self):
        store, note = self.with_three_entries()
        interrupted = mock.patch.object(self.journal._database, "commit", side_effect=KeyboardInterrupt)
        with self.assertRaises(KeyboardInterrupt), interrupted, self.journal.transaction():
            store.write(0, note, 5)
        self.assertRaises(Lost, lambda: self.journal.store)
        self.assertEqual(self.journal.resume().entries(), 3)

    def test_a_denial_whose_commit_fails(self):
        store, note = self.with_three_entries()
        with self.assertRaises(Lost) as caught, self.fail_commit(True), self.journal.transaction():
            store.write(1, note, 5)
        self.assertIsInstance(caught.exception.__cause__.__context__ or caught.exception.__context__, Exception)
        self.assertEqual(self.journal.resume().entries(), 3)

    def test_who_resumes_after_lost_is_alone(self):
        store, note = self.with_three_entries()
        with self.assertRaises(Lost), self.fail_commit(True), self.journal.transaction():
            store.write(0, note, 5)
        other = Journal(self.connected())
        other.resume()
        with other.transaction():
            other.store.write(0, note, 7)
        other.close()
        self.assertRaises(Fenced, self.journal.resume)
        self.assertRaises(Fenced, self.journal.resume)
        self.assertRaises(Fenced, lambda: self.journal.store)

    def test_a_body_that_ends_the_transaction(self):
        for end in ("commit", "rollback"):
            for again in (False, True):
                with self.subTest(end=end, again=again):
                    if not self.journal.has_store():
                        self.with_three_entries()
                    else:
                        self.journal.resume()
                    count = len(self.lines())
                    with self.assertRaises(Lost) as caught, self.journal.transaction() as cursor:
                        self.journal.store.write(0, 2, 5)
                        getattr(self.connection, end)()
                        if again:
                            self.insert(cursor)
                    self.assertIn("in its body", str(caught.exception))
                    self.assertEqual(len(self.lines()), count)

    # ---- where a command is asked for

    def test_a_command_needs_a_transaction(self):
        store, note = self.with_three_entries()
        asked = {
            "read": (0, note),
            "write": (0, note, 1),
            "append": (0, note, 1),
            "take": (0, 1, note, READ),
            "grant": (0, 1, note, READ),
            "remove": (0, note, READ),
            "withdraw": (note, READ),
            "hand": (0, 0, 1, note, READ),
            "create": (0, READ, Cell(0)),
            "spawn": (0, READ, Cell(0)),
            "retire": (0,),
            "leave": (0,),
            "park": (0, 1, note),
            "unpark": (0, 1, note),
            "list": (0,),
            "inspect": (0, note),
            "apply_all": (0, [journal.List()]),
            "forget": (3,),
            "go_on": (3, []),
        }
        for name, words in asked.items():
            with self.subTest(name):
                self.assertRaises(NoTransaction, getattr(store, name), *words)
        self.assertEqual((store.entries(), store.label(1, note), store.who_holds(WRITE, note)), (3, READ, [0]))
        self.assertEqual(store.read.__doc__, Store.read.__doc__)

    def test_each_call_of_a_store_is_a_command_or_a_question(self):
        """A command that is new has to be guarded."""
        plain = {"close", "collect", "first", "journal", "audit", "named", "set_name", "trust", "trusted", "reopen", "resume", "closed"}
        calls = {name for name in dir(Store) if not name.startswith("_")}
        self.assertEqual(calls, {*plain, *_guarded.COMMANDS, *_guarded.QUESTIONS, "forget", "go_on"})

    def test_an_entry_of_no_transaction(self):
        store, note = self.with_three_entries()
        Store.write(store, 0, note, 1)
        self.assertRaises(Lost, self.journal.transaction().__enter__)
        self.assertEqual(self.journal.resume().entries(), 3)

    def test_another_thread(self):
        store, note = self.with_three_entries()
        raised = []

        def ask():
            for call in (lambda: store.write(0, note, 1), lambda: store.label(0, note), lambda: store.journal().__next__()):
                try:
                    call()
                except Exception as error:
                    raised.append(type(error))

        with self.journal.transaction():
            thread = threading.Thread(target=ask)
            thread.start()
            thread.join()
        self.assertEqual(raised, [NoTransaction, NoTransaction, NoTransaction])
        self.assertEqual(len(self.lines()), 3)

    def test_an_open_transaction_is_refused(self):
        store, note = self.with_three_entries()
        with self.journal.transaction():
            for call in (self.journal.transaction().__enter__, self.journal.resume, self.journal.prune, self.journal.has_store):
                self.assertRaises(InTransaction, call)
            store.write(0, note, 1)
        self.assertEqual(len(self.lines()), 4)
        self.begin(self.connection)
        for call in (self.journal.transaction().__enter__, self.journal.resume, self.journal.prune):
            self.assertRaises(InTransaction, call)
        self.assertRaises(InTransaction, Journal, self.connection)
        self.connection.rollback()
        with self.journal.transaction():
            store.write(0, note, 1)

    def begin(self, connection):
        """Begins a transaction as a host does."""
        connection.cursor().execute("INSERT INTO host VALUES (1)")

    # ---- two writers

    def test_a_second_writer_is_fenced(self):
        store, note = self.with_three_entries()
        with Journal(self.connected()) as other:
            other.resume()
            with other.transaction():
                other.store.write(0, note, 7)
            for _ in range(2):
                self.assertRaises(Fenced, self.journal.transaction().__enter__)
            self.assertTrue(store.closed)
            self.assertRaises(Fenced, self.journal.resume)
            with other.transaction():
                other.store.write(0, note, 8)
        self.run_in(self.connection, "DELETE FROM kovshenul_entry WHERE place > 2")
        self.assertRaises(Fenced, self.journal.resume)
        self.assertEqual(Journal(self.connection).resume().entries(), 3)

    def test_another_history_of_the_same_length(self):
        store, note = self.with_three_entries()
        words = "deed = 'read', value = NULL, reply = 'ok 0', line = '0 read 2 = ok 0'"
        self.run_in(self.connection, f"UPDATE kovshenul_entry SET {words} WHERE place = 2")
        self.assertRaises(Older, Journal(self.connected()).resume, last=self.journal.last)
        self.assertRaises(Fenced, self.journal.transaction().__enter__)

    # ---- what is in the tables

    def test_openings(self):
        self.assertRaises(BadTables, self.journal.resume)
        self.assertRaises(BadTables, Follower, self.connected())
        self.assertRaises(NotOpen, self.journal.transaction().__enter__)
        self.assertRaises(BadWorkers, self.journal.open, [])
        self.assertFalse(self.journal.has_store())
        self.open(*OPENING, [1])
        self.assertEqual(self.journal.store.trusted(), [1])
        self.assertRaises(BadTables, self.journal.open, *OPENING)
        self.assertRaises(BadTables, Journal(self.connected()).open, *OPENING)
        self.assertRaises(BadLimits, Journal(self.connected()).resume, Limits(51))
        resumed = Journal(self.connected()).resume(Limits(50, 8, 8), trusted=[0])
        self.assertEqual(resumed.trusted(), [0])
        second = Journal(self.connected(), prefix="other_")
        second.open([Cell(0)])
        with second.transaction():
            second.store.list(0)
        self.assertEqual(self.lines(), [])
        for prefix in ("", "a b", "Other", "1a", "a;--", "a" * 41):
            self.assertRaises(ValueError, Journal, self.connected(), prefix=prefix)

    def test_a_connection_of_another_module(self):
        for other in (None, "host.db", object()):
            self.assertRaises(TypeError, Journal, other)
            self.assertRaises(TypeError, Follower, other)

    def test_another_version_of_the_tables(self):
        self.with_three_entries()
        self.run_in(self.connection, "UPDATE kovshenul_head SET version = 2")
        for call in (self.journal.resume, self.journal.has_store, self.journal.prune, lambda: Follower(self.connected())):
            with self.assertRaises(BadTables) as caught:
                call()
            self.assertIn("version 2", str(caught.exception))

    def test_an_altered_row_is_refused_by_its_place(self):
        self.with_three_entries()
        altered = {
            "worker": "1",
            "deed": "'take'",
            "via": "3",
            "target": "NULL",
            "rights": "'w'",
            "value": "'5'",
            "reply": "'ok 1'",
            "line": "'0 grant 1 2 w = ok'",
        }
        for name, value in altered.items():
            with self.subTest(name):
                self.alter(1, f"{name} = {value}")
        both = "line = '0 grant 1 2 rwt = ok', rights = 'rwt'"
        self.alter(1, both)
        self.alter(2, "line = '0 write 2 5 = denied write 0->2 w', value = '5', reply = 'denied write 0->2 w'")
        self.alter(2, "line = ''")
        self.alter(0, "line = '0 create rw s0 = ok 3', reply = 'ok 3'")

    def alter(self, place, change):
        """Alters a row, which is refused. Then puts the row back."""
        self.run_in(self.connection, f"CREATE TABLE kept AS SELECT * FROM kovshenul_entry WHERE place = {place}")
        self.run_in(self.connection, f"UPDATE kovshenul_entry SET {change} WHERE place = {place}")
        for call in (Journal(self.connected()).resume, lambda: Follower(self.connected()), Journal(self.connected()).prune):
            with self.assertRaises(BadEntry) as caught:
                call()
            self.assertEqual(caught.exception.at, place)
        self.run_in(self.connection, f"DELETE FROM kovshenul_entry WHERE place = {place}")
        self.run_in(self.connection, "INSERT INTO kovshenul_entry SELECT * FROM kept", "DROP TABLE kept")
        self.assertEqual(Journal(self.connected()).resume().entries(), 3)

    def test_a_missing_row_is_refused_by_its_place(self):
        self.with_three_entries()
        self.run_in(self.connection, "DELETE FROM kovshenul_entry WHERE place = 1")
        for call in (self.journal.resume, lambda: Follower(self.connected()), self.journal.prune):
            with self.assertRaises(BadPlace) as caught:
                call()
            self.assertEqual(caught.exception.at, 1)

    def test_a_table_without_its_last_row(self):
        self.with_three_entries()
        self.journal.prune()
        self.run_in(self.connection, "DELETE FROM kovshenul_entry")
        with self.assertRaises(BadPlace) as caught:
            Journal(self.connected()).resume()
        self.assertEqual(caught.exception.at, 2)

    def test_an_older_table_is_noticed(self):
        store, note = self.with_three_entries()
        last = self.journal.last
        self.run_in(self.connection, "DELETE FROM kovshenul_entry WHERE place = 2")
        self.assertRaises(Older, self.journal.transaction().__enter__)
        self.assertTrue(store.closed)
        self.assertRaises(Older, self.journal.resume)
        self.assertRaises(Older, Journal(self.connected()).resume, last=last)
        with Journal(self.connected()) as other:
            other.resume()
            with other.transaction():
                other.store.read(1, note)
            self.assertEqual(len(self.lines()), 3)
        self.assertRaises(Older, Journal(self.connected()).resume, last=last)
        self.assertEqual(Journal(self.connected()).resume(last=other.last).entries(), 3)

    # ---- snapshots

    def test_a_prune_leaves_the_store_as_it_is(self):
        store, note = self.with_three_entries()
        self.assertEqual(self.journal.prune(1), 1)
        self.assertEqual(len(self.lines()), 3)
        follower = Follower(self.connected())
        follower.trust(1)
        lagging = Follower(self.connected())
        lagging.trust(1)
        with self.journal.transaction():
            store.write(0, note, 5)
            store.remove(1, note, READ)
        self.assertEqual(follower.follow(), 5)
        self.assertEqual(self.journal.prune(), 5)
        self.assertEqual(self.lines(), ["1 remove 2 r = ok"])
        for reader in (follower, lagging):
            self.assertEqual((reader.follow(), reader._store.trusted(), reader.label(1, note)), (5, [1], Rights(0)))
        with self.journal.transaction():
            self.assertEqual(store.read(0, note), [4])
        self.assertEqual((follower.follow(), lagging.follow()), (6, 6))
        self.agree(Journal(self.connected()).resume(last=self.journal.last), store)
        self.assertEqual(Journal(self.connected()).resume(last=Last(2, "pruned")).entries(), 6)
        self.assertEqual((self.journal.prune(), self.journal.prune(), self.journal.prune(0)), (6, 6, 6))

    def test_a_prune_in_the_middle_of_a_read(self):
        """The read sees the tables of one moment, so no row is missing."""
        store, note = self.with_three_entries()
        follower, pruning = Follower(self.connected()), Journal(self.connected())
        with self.journal.transaction():
            store.write(0, note, 1)
            store.write(0, note, 2)
        real, pruned = follower._tables.first, []

        def first():
            place = real()
            pruned.append(pruning.prune())
            return place

        with mock.patch.object(follower._tables, "first", first):
            self.assertEqual(follower.follow(), 5)
        self.assertEqual((pruned[0], follower.label(1, note)), (5, READ))

    def test_two_prune_at_a_time(self):
        store, note = self.with_three_entries()
        feed = Journal._feed

        def fed(*words):
            with mock.patch.object(Journal, "_feed", feed):
                Journal(self.connected()).prune()
            return feed(*words)

        with mock.patch.object(Journal, "_feed", fed):
            self.journal.prune()
        self.assertEqual(len(self.lines()), 1)
        self.assertEqual(Journal(self.connected()).resume().entries(), 3)

    def test_an_altered_snapshot(self):
        self.with_three_entries()
        self.run_in(self.connection, "UPDATE kovshenul_head SET snapshot = 'kovshenul picture 1'")
        self.assertRaises(BadValues, Journal(self.connected()).resume)

    def test_the_table_is_a_history_for_tgaudit(self):
        """Snapshot and lines are the text of a history, of which another store is resumed."""
        store, note = self.with_three_entries()
        ((text,),) = self.run_in(self.connection, "SELECT snapshot FROM kovshenul_head")
        with Store.reopen(Snapshot(text), OPENING[2]) as again:
            again.go_on(0, map(entry_of_line, self.lines()))
            self.agree(again, store)

    # ---- readers

    def test_a_follower(self):
        store, note = self.with_three_entries()
        with Follower(self.connected(), trusted=[0]) as follower:
            self.assertEqual((follower.place, follower.label(1, note), follower.who_holds(READ, note)), (3, READ, [0, 1]))
            with self.journal.transaction():
                store.remove(1, note, READ)
                self.assertEqual(follower.follow(), 3)
            self.assertEqual((follower.label(1, note), follower.follow(), follower.label(1, note)), (READ, 4, Rights(0)))
            self.assertEqual(type(follower.could(1, WRITE, note)).__name__, "Never")
            self.assertEqual(type(follower.could(1, WRITE, note, silent=())).__name__, "Could")
            with follower.view(silent=[0]) as view:
                self.assertEqual(type(view.could(1, WRITE, note)).__name__, "Never")
            self.assertEqual((follower.subjects(), follower.names()), ([0, 1], {0, 1, 2}))
        self.assertRaises(NotOpen, follower.follow)
        self.assertRaises(NotOpen, follower.__enter__)

    # ---- settings of the host

    def test_a_host_with_rows_of_its_own_kind(self):
        store, note = self.with_three_entries()
        other = self.odd(self.connected())
        again = Journal(other)
        again.resume(last=self.journal.last)
        with again.transaction():
            again.store.write(0, note, 1)
        self.assertEqual((again.prune(), Follower(other).place), (4, 4))
        store.close()


class OverSqlite(Cases, unittest.TestCase):
    def connect(self):
        if not hasattr(self, "folder"):
            self.folder = tempfile.mkdtemp(dir=FOLDER)
            self.addCleanup(shutil.rmtree, self.folder)
        connection = sqlite3.connect(f"{self.folder}/host.db", timeout=0, check_same_thread=False)
        connection.execute("PRAGMA journal_mode=WAL")
        return connection

    def odd(self, connection):
        connection.row_factory, connection.text_factory = sqlite3.Row, bytes
        return connection

    def test_settings(self):
        levels = {"wal": ("FULL", "EXTRA"), "delete": ("EXTRA",), "truncate": ("FULL", "EXTRA"), "persist": ("FULL", "EXTRA")}
        path = f"{self.folder}/settings.db"
        for mode in ("wal", "delete", "truncate", "persist", "memory", "off"):
            for level in ("OFF", "NORMAL", "FULL", "EXTRA"):
                with self.subTest(mode=mode, level=level):
                    connection = sqlite3.connect(path)
                    connection.execute(f"PRAGMA journal_mode={mode}")
                    connection.execute(f"PRAGMA synchronous={level}")
                    if level in levels.get(mode, ()):
                        Journal(connection)
                    else:
                        with self.assertRaises(BadSettings) as caught:
                            Journal(connection)
                        self.assertIn("PRAGMA", str(caught.exception))
                    connection.close()
        self.assertRaises(BadSettings, Journal, sqlite3.connect(":memory:"))
        self.assertRaises(BadSettings, Journal, self.connected(), standby=True)

    def test_settings_that_change_later(self):
        store, note = self.with_three_entries()
        self.connection.execute("PRAGMA synchronous=NORMAL")
        self.assertRaises(BadSettings, self.journal.open, *OPENING)
        self.assertRaises(BadSettings, self.journal.transaction().__enter__)
        self.assertRaises(BadSettings, self.journal.prune)
        self.connection.execute("PRAGMA synchronous=FULL")
        with self.journal.transaction():
            store.write(0, note, 1)

    @unittest.skipIf(sys.version_info < (3, 12), "from Python 3.12 on")
    def test_autocommit(self):
        connection = sqlite3.connect(f"{self.folder}/host.db", autocommit=False)
        self.addCleanup(connection.close)
        self.assertRaises(BadSettings, Journal, connection)
        self.with_three_entries()
        connection = sqlite3.connect(f"{self.folder}/host.db", autocommit=True)
        self.addCleanup(connection.close)
        self.goes_on(connection)

    def test_each_isolation_level(self):
        store, note = self.with_three_entries()
        for level in (None, "DEFERRED", "IMMEDIATE", "EXCLUSIVE"):
            connection = self.connected()
            connection.isolation_level = level
            self.goes_on(connection)

    def goes_on(self, connection):
        """A journal over the connection commits and rolls back."""
        count = self.hosts()
        again = Journal(connection)
        store = again.resume()
        with again.transaction() as cursor:
            self.insert(cursor)
            store.write(0, 2, 1)
        with self.assertRaises(KeyError), again.transaction() as cursor:
            self.insert(cursor)
            raise KeyError
        self.assertEqual((self.hosts(), again.last.entries), (count + 1, len(self.lines())))

    def test_a_locked_database(self):
        store, note = self.with_three_entries()
        other = self.connected()
        other.execute("BEGIN IMMEDIATE")
        self.assertRaises(sqlite3.OperationalError, self.journal.transaction().__enter__)
        other.rollback()
        with self.journal.transaction():
            store.write(0, note, 1)

    def test_savepoints_of_the_body(self):
        store, note = self.with_three_entries()
        with self.journal.transaction() as cursor:
            cursor.execute("SAVEPOINT ours")
            self.insert(cursor)
            cursor.execute("ROLLBACK TO ours")
            cursor.execute("RELEASE ours")
            self.insert(cursor)
            store.write(0, note, 1)
            cursor.execute("SAVEPOINT open")
        self.assertEqual((self.hosts(), len(self.lines())), (1, 4))

    def test_killed_writers(self):
        path = f"{self.folder}/killed.db"
        writers.make_tables(writers.connected(path))
        acknowledged, entries = writers.rounds(lambda: writers.connected(path), 20, random.Random(1))
        self.assertLessEqual(acknowledged, entries)
        self.assertGreater(acknowledged, 0)

    def test_wrong_writers_are_found(self):
        wrong = [{"kind": writers.TwoTransactions}, {"kind": writers.EntriesFirst}, {"write": writers.write_early}]
        for number, words in enumerate(wrong):
            with self.subTest(words), self.assertRaises(writers.Wrong), mock.patch.object(writers, "PAUSE", 0.01):
                path = f"{self.folder}/wrong{number}.db"
                writers.make_tables(writers.connected(path))
                writers.rounds(lambda: writers.connected(path), 200, random.Random(1), **words)


@unittest.skipIf(servers.lacks(), servers.lacks())
class OverPostgres(Cases, unittest.TestCase):
    @classmethod
    def setUpClass(cls):
        cls.server = servers.Server(above=FOLDER)
        cls.addClassCleanup(cls.server.close)

    def connect(self):
        if not hasattr(self, "schema"):
            self.schema = f"s{random.getrandbits(64)}"
            self.run_in(self.server.connect(), f"CREATE SCHEMA {self.schema}")
        return self.server.connect(schema=self.schema)

    def odd(self, connection):
        from psycopg2 import extensions
        from psycopg2.extras import RealDictCursor

        connection.cursor_factory = RealDictCursor
        extensions.register_type(extensions.new_type((1700,), "NUMERIC", lambda value, _: value and float(value)), connection)
        return connection

    def test_settings(self):
        for value in ("on", "remote_apply", "remote_write", "local", "off"):
            with self.subTest(value):
                connection = self.connected()
                self.run_in(connection, f"SET synchronous_commit = {value}")
                if value != "off":
                    Journal(connection)
                    self.assertRaises(BadSettings, Journal, connection, standby=True)
                    continue
                self.assertRaises(BadSettings, Journal, connection)

    def test_settings_of_the_server(self):
        wanted = {("fsync", "off"): False, ("synchronous_standby_names", "'*'"): True}
        for (name, value), is_enough in wanted.items():
            self.set_server(name, value)
            try:
                connection = self.connected()
                if is_enough:
                    self.run_in(connection, "SET synchronous_commit = local")
                    self.assertRaises(BadSettings, Journal, connection, standby=True)
                    self.run_in(connection, "SET synchronous_commit = on")
                    Journal(connection, standby=True)
                else:
                    self.assertRaises(BadSettings, Journal, connection)
            finally:
                self.set_server(name, "DEFAULT")

    def set_server(self, name, value):
        """Sets what the server is set to, and waits until new connections have it."""
        connection = self.server.connect()
        connection.autocommit = True
        before = self.run_in(self.server.connect(), f"SHOW {name}")
        self.run_in(connection, f"ALTER SYSTEM SET {name} = {value}")
        self.run_in(connection, "SELECT pg_reload_conf()")
        connection.close()
        while self.run_in(self.server.connect(), f"SHOW {name}") == before:
            pass

    def test_a_setting_of_one_transaction(self):
        store, note = self.with_three_entries()
        with self.assertRaises(Lost) as caught, self.journal.transaction() as cursor:
            cursor.execute("SET LOCAL synchronous_commit = off")
            store.write(0, note, 1)
        self.assertIsInstance(caught.exception.__cause__, BadSettings)
        self.assertEqual(self.journal.resume().entries(), 3)

    def test_autocommit_and_isolation_levels(self):
        store, note = self.with_three_entries()
        for level, autocommit in [(None, True), ("READ COMMITTED", False), ("REPEATABLE READ", False), ("SERIALIZABLE", False)]:
            with self.subTest(level):
                connection = self.connected()
                connection.set_session(isolation_level=level, autocommit=autocommit)
                count, again = self.hosts(), Journal(connection)
                store = again.resume()
                with again.transaction() as cursor:
                    self.insert(cursor)
                    store.write(0, note, 1)
                with self.assertRaises(KeyError), again.transaction() as cursor:
                    self.insert(cursor)
                    raise KeyError
                self.assertEqual((self.hosts(), again.last), (count + 1, Last(store.entries(), self.lines()[-1])))
                self.assertEqual((again.prune(), Follower(connection).place), (again.last.entries, again.last.entries))

    def test_two_writers_at_the_same_time(self):
        """Both begin at the same place. The second insert waits for the first COMMIT, and fails then."""
        for level in ("READ COMMITTED", "REPEATABLE READ", "SERIALIZABLE"):
            with self.subTest(level):
                if not self.journal.has_store():
                    self.with_three_entries()
                journals = []
                for _ in range(2):
                    connection = self.connected()
                    connection.set_session(isolation_level=level)
                    journals.append(Journal(connection))
                    journals[-1].resume()
                first, second = journals
                count = len(self.lines())
                with self.assertRaises((Fenced, Lost)) as caught, second.transaction() as cursor:
                    self.insert(cursor)
                    second.store.write(0, 2, 9)
                    with first.transaction():
                        first.store.write(0, 2, 8)
                self.assertEqual(isinstance(caught.exception, Lost), level == "SERIALIZABLE")
                self.assertRaises(Fenced, second.resume)
                self.assertEqual((len(self.lines()), self.hosts()), (count + 1, 0))

    def test_a_statement_that_failed_in_the_body(self):
        store, note = self.with_three_entries()
        with self.assertRaisesRegex(Lost, "a statement of the transaction failed"), self.journal.transaction() as cursor:
            self.insert(cursor)
            try:
                cursor.execute("SELECT * FROM nothing")
            except self.connection.Error:
                pass
        self.assertEqual((self.hosts(), self.journal.resume().entries()), (0, 3))
        with self.journal.transaction() as cursor:
            cursor.execute("SAVEPOINT ours")
            try:
                cursor.execute("SELECT * FROM nothing")
            except self.connection.Error:
                cursor.execute("ROLLBACK TO ours")
            self.insert(cursor)
            self.journal.store.write(0, note, 1)
        self.assertEqual((self.hosts(), len(self.lines())), (1, 4))

    def test_a_connection_that_is_lost(self):
        store, note = self.with_three_entries()
        for at in ("begin", "body", "commit"):
            with self.subTest(at):
                connection = self.connected()
                again = Journal(connection)
                again.resume()
                if at == "begin":
                    self.cut(connection)
                    self.assertRaises(connection.Error, again.transaction().__enter__)
                    continue
                with self.assertRaises(Lost if at == "commit" else connection.Error), again.transaction() as cursor:
                    self.insert(cursor)
                    again.store.write(0, note, 1)
                    self.cut(connection)
                    if at == "body":
                        self.insert(cursor)
                self.assertRaises(Lost, lambda: again.store)
                self.assertRaises(Exception, again.resume)
                self.assertEqual(Journal(self.connected()).resume(last=again.last).entries(), 3)
        self.assertEqual(self.hosts(), 0)

    def cut(self, connection):
        """Ends the server's side of a connection."""
        number = connection.info.backend_pid
        self.run_in(self.connected(), f"SELECT pg_terminate_backend({number}, 5000)")

    def test_killed_writers(self):
        writers.make_tables(self.connect())
        acknowledged, entries = writers.rounds(self.connect, 10, random.Random(1))
        self.assertLessEqual(acknowledged, entries)
        self.assertGreater(acknowledged, 0)


if __name__ == "__main__":
    unittest.main()
