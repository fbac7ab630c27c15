"""The journal of a store, read back. It says what was called and what was answered."""
import pickle
import random
import unittest
from dataclasses import replace
from pathlib import Path

from back_ends import IS_CTYPES
from kovshenul import (
    APPEND,
    GRANT,
    INSPECT,
    READ,
    TAKE,
    WRITE,
    Auditor,
    BadEntry,
    BadLimits,
    BadPlace,
    BadValues,
    BadWorkers,
    Cell,
    Denied,
    Edge,
    Limits,
    Log,
    Max,
    NoSuchWorker,
    NotAudited,
    NotOpen,
    NotWhole,
    Refused,
    Rights,
    Snapshot,
    Store,
    Sum,
    Target,
    Vertex,
    VerticesFull,
    WorkersFull,
    end_text,
    journal,
    opening_text,
)

WORKERS = 3
MOST = 40
DEEDS = [
    journal.Take,
    journal.Grant,
    journal.Remove,
    journal.Read,
    journal.Write,
    journal.Append,
    journal.Inspect,
    journal.List,
    journal.Create,
]


def opening(most=MOST):
    edges = [(i, (i + 1) % WORKERS, TAKE | GRANT | INSPECT) for i in range(WORKERS)]
    return [Cell(0)] * WORKERS, edges, Limits(most, 64, 64)


def opened(most=MOST):
    return Store(*opening(most))


def drawn(rng, kind):
    """A deed of this kind, of which many are served."""
    some = {
        "via": rng.randrange(WORKERS),
        "target": rng.randrange(MOST + 2),
        "rights": Rights(rng.choice([1, 2, 4, 8, 16, 32, 64, 128, 255])),
        "value": rng.choice([0, 1, 7, 2**64 - 1]),
    }
    if kind is journal.Create:
        return journal.Create(Rights(255), rng.choice([Cell(3), Sum(2**64 - 1), Max(9), Log(1), Log(64)]))
    return kind(*(some[name] for name in kind.__annotations__))


def called(store, worker, deed):
    """Makes the call that the deed represents, and answers what is to be in the journal, or nothing."""
    call = getattr(store, type(deed).__name__.lower())
    try:
        answer = call(worker, *vars(deed).values())
    except Denied as why:
        return journal.Denied(why.rule, why.cause, why.edge, why.rights)
    except VerticesFull:
        return journal.VerticesFull()
    except WorkersFull:
        return journal.WorkersFull()
    except Refused:
        return None
    kinds = {
        journal.Read: lambda: journal.Values(tuple(answer)),
        journal.List: lambda: journal.Edges(tuple(answer)),
        journal.Inspect: lambda: journal.Edges(tuple(answer)),
        journal.Create: lambda: journal.Name(answer),
        journal.Spawn: lambda: journal.Name(answer),
    }
    return kinds.get(type(deed), journal.Done)()


class Journals(unittest.TestCase):
    def test_a_run_is_read_back(self):
        rng = random.Random(11)
        with opened() as store:
            wanted = []
            for _ in range(6_000):
                worker, deed = rng.randrange(WORKERS + 1), drawn(rng, rng.choice(DEEDS))
                reply = called(store, worker, deed)
                if reply is not None:
                    wanted.append(journal.Entry(worker, deed, reply))
                if rng.random() < 0.01:
                    store.collect(rng.randrange(2))
            told = list(store.journal())
            self.assertEqual(told, wanted)
            self.assertEqual((store.entries(), store.audit()), (len(told), len(told)))
        self.assertEqual({type(entry.deed) for entry in told}, set(DEEDS))
        self.assertEqual({type(entry.reply) for entry in told}, set(journal.REPLIES.values()) - {journal.WorkersFull})
        causes = {entry.reply.cause for entry in told if isinstance(entry.reply, journal.Denied)}
        self.assertEqual(causes, {"not distinct", "missing", "not log"})
        self.assertEqual(pickle.loads(pickle.dumps(told)), told)
        self.assertLess(len(set(told)), len(told))

    def test_it_comes_in_parts(self):
        rng, wanted, told = random.Random(13), [], []
        with opened() as store, Auditor(*opening()) as auditor:
            for _ in range(20):
                for _ in range(100):
                    worker, deed = rng.randrange(WORKERS), drawn(rng, rng.choice(DEEDS))
                    wanted.append(journal.Entry(worker, deed, called(store, worker, deed)))
                told += store.journal()
                self.assertRaises(NotAudited, auditor.forget, store, len(told))
                self.assertEqual((auditor.feed(store), auditor.at), (len(told), len(told)))
                auditor.sweep()
                auditor.forget(store, len(told))
                self.assertEqual((store.first(), store.entries()), (len(told), len(told)))
                self.assertRaises(BadPlace, store.entry, len(told) - 1)
                self.assertRaises(BadPlace, store.forget, len(told) - 1)
                self.assertRaises(BadPlace, store.forget, len(told) + 1)
                self.assertRaises(NotWhole, store.audit)
                store.forget(len(told))
            self.assertEqual(list(store.journal()), [])
        self.assertEqual(told, wanted)

    def test_what_is_given_up_in_the_middle_is_missed(self):
        with opened() as store:
            for worker in range(WORKERS):
                store.list(worker)
            entries = store.journal()
            self.assertEqual(next(entries).worker, 0)
            store.forget(1)
            self.assertEqual(next(entries).worker, 1)
            store.forget(3)
            self.assertRaises(BadPlace, next, entries)
            self.assertRaises(StopIteration, next, store.journal())
            for upto in (-1, 2**64):
                self.assertRaises(OverflowError, store.forget, upto)

    def test_what_stops_an_auditor(self):
        with opened() as store, opened() as other, Auditor(*opening(WORKERS + 1)) as auditor, Auditor(*opening()) as late:
            name = store.create(0, READ, Sum(0))
            self.assertEqual(auditor.feed(store), 1)
            self.assertRaises(BadPlace, auditor.feed, other)
            store.read(0, name)
            store.create(1, READ, Sum(0))
            for _ in range(2):
                self.assertRaises(BadEntry, auditor.feed, store)
                self.assertEqual(auditor.at, 2)
            store.forget(1)
            self.assertRaises(BadPlace, late.feed, store)
            self.assertRaises(TypeError, late.feed, auditor)
            self.assertEqual((late.at, repr(late)), (0, "<kovshenul.Auditor, open>"))
        self.assertRaises(NotOpen, late.feed, store)
        self.assertRaises(NotOpen, lambda: late.at)
        self.assertRaises(NotOpen, late.sweep)
        self.assertRaises(TypeError, pickle.dumps, late)
        self.assertRaises(BadWorkers, Auditor, [])
        self.assertEqual((late.closed, repr(late)), (True, "<kovshenul.Auditor, closed>"))

    def test_what_was_read_plays_again(self):
        rng = random.Random(12)
        with opened() as store, opened() as other:
            for _ in range(2_000):
                called(store, rng.randrange(WORKERS), drawn(rng, rng.choice(DEEDS)))
            for entry in store.journal():
                self.assertEqual(called(other, entry.worker, entry.deed), entry.reply)
            self.assertEqual(list(store.journal()), list(other.journal()))

    def test_workers_that_come_and_go_are_read_back(self):
        spawn, wanted = journal.Spawn(GRANT | INSPECT, Log(2)), []
        with opened(1_000) as store:

            def ask(worker, deed):
                wanted.append(journal.Entry(worker, deed, called(store, worker, deed)))

            for _ in range(64 - WORKERS):
                ask(0, spawn)
            for leaver in range(1, 30):
                ask(0, spawn)
                ask(leaver, journal.Retire())
                ask(0, spawn)
            self.assertEqual(store.subjects(), [0, *range(30, 93)])
            told = list(store.journal())
            self.assertEqual(told, wanted)
            self.assertEqual(store.audit(), len(told))
        self.assertEqual(sum(entry.reply == journal.WorkersFull() for entry in told), 29)
        self.assertEqual(told[0], journal.Entry(0, spawn, journal.Name(WORKERS)))
        self.assertIn(journal.Entry(1, journal.Retire(), journal.Done()), told)

    def test_past_the_end_is_refused(self):
        with opened() as store:
            self.assertRaises(BadPlace, store.entry, 0)
            self.assertEqual(list(store.journal()), [])
            store.list(1)
            self.assertEqual(store.entry(0).worker, 1)
            for at in (1, 2, 2**32, 2**64 - 1):
                self.assertRaises(BadPlace, store.entry, at)
                self.assertRaises(IndexError, store.entry, at)
            for at in (-1, 2**64):
                self.assertRaises(OverflowError, store.entry, at)
            self.assertRaises(TypeError, store.entry, None)
            self.assertEqual(store.entries(), 1)

    def test_it_is_gone_on_with(self):
        with opened() as store:
            store.list(0)
            entries = store.journal()
            self.assertEqual(next(entries).worker, 0)
            store.list(2)
            self.assertEqual(next(entries).worker, 2)
            self.assertRaises(StopIteration, next, entries)
        self.assertRaises(NotOpen, store.entry, 0)
        self.assertRaises(NotOpen, next, store.journal())

    def test_long_rows(self):
        with opened(1_000) as store:
            names = [store.create(0, READ, Log(64)) for _ in range(300)]
            store.inspect(2, 0, room=400)
            if IS_CTYPES:
                # A call that comes between has taken the room.
                store._place._room = None
            shown = store.entry(300).reply.edges
            self.assertEqual([edge.to for edge in shown], [1, *names])
            self.assertEqual(shown[-1], Target(names[-1], READ))
            self.assertIsInstance(shown[-1].rights, Rights)
            self.assertEqual(store.entry(0), journal.Entry(0, journal.Create(READ, Log(64)), journal.Name(names[0])))

    def test_an_entry_prints(self):
        with opened() as store:
            called(store, 0, journal.Write(1, 5))
            self.assertEqual(
                repr(store.entry(0)),
                "Entry(worker=0, deed=Write(target=1, value=5), "
                "reply=Denied(rule='write', cause='missing', edge=(0, 1), rights=<Rights.WRITE: 2>))",
            )



def told(store, seed, count=400):
    """Makes random calls to a store, and returns its entries."""
    rng = random.Random(seed)
    for _ in range(count):
        called(store, rng.randrange(WORKERS), drawn(rng, rng.choice(DEEDS)))
    return [*store.journal()]


class Resumed(unittest.TestCase):
    """A store that goes on from the entries of another one."""

    def test_whole(self):
        with opened() as first:
            entries = told(first, 1)
            shown = [first.subjects(), *(first.list(worker) for worker in range(WORKERS))]
        with Store.resume(*opening(), entries) as second:
            self.assertEqual([*second.journal()], entries)
            self.assertEqual([second.subjects(), *(second.list(worker) for worker in range(WORKERS))], shown)

    def test_in_parts(self):
        with opened() as first, opened() as second:
            entries = told(first, 2)
            for at in range(0, len(entries), 100):
                second.go_on(at, iter(entries[at : at + 100]))
                second.forget(second.entries())
            self.assertEqual([*map(second.list, range(WORKERS))], [*map(first.list, range(WORKERS))])
            self.assertRaises(NotWhole, second.audit)

    def test_places(self):
        with opened() as first, opened() as second:
            entries = told(first, 3, 50)
            for at in (1, 10, 2**64 - 1):
                with self.assertRaises(BadPlace) as refused:
                    second.go_on(at, entries)
                self.assertEqual((refused.exception.at, second.entries()), (at, 0))
            second.go_on(0, entries[:10])
            for part in (entries[:10], entries[11:]):
                self.assertRaises(BadPlace, second.go_on, entries.index(part[0]), part)
            second.go_on(10, entries[10:])
            self.assertEqual([*second.journal()], entries)

    def test_altered(self):
        with opened() as first:
            entries = told(first, 4, 120)
        for at, entry in enumerate(entries):
            other = journal.Entry(entry.worker, entry.deed, journal.Name(2**40))
            with self.assertRaises(BadEntry) as refused:
                Store.resume(*opening(), [*entries[:at], other])
            self.assertEqual(refused.exception.at, at)
            self.assertTrue(str(refused.exception).startswith(f"entry {at}: an entry is not legal"))
        with opened(4) as second:
            self.assertRaises(BadEntry, second.go_on, 0, entries)
            self.assertTrue(second.closed)
            self.assertRaises(NotOpen, second.entries)
            self.assertRaises(NotOpen, second.go_on, 0, entries)

    def test_what_is_refused(self):
        """The rows of bindings/tests/refused.c."""
        cells, edges, limits = [Cell(0)] * 2, [(0, 1, GRANT)], Limits(20, 8, 4)
        with Store(cells, edges, limits) as store:
            store.create(0, READ | WRITE, Sum(40))
            store.write(0, 2, 2)
            store.read(0, 2)
            store.grant(0, 1, 2, READ)
            store.read(1, 2)
            self.assertRaises(Denied, store.write, 1, 2, 7)
            store.list(0)
            store.retire(1)
            entries = [*store.journal()]
        changed = [
            ("the name of a vertex that was made", 0, 0, replace(entries[0], reply=journal.Name(3))),
            ("the number of a write, by the read after it", 1, 2, replace(entries[1], deed=journal.Write(2, 3))),
            ("the number that a read returned", 2, 2, replace(entries[2], reply=journal.Values((43,)))),
            ("the rights of a grant, by the read after it", 3, 4, replace(entries[3], deed=journal.Grant(1, 2, WRITE))),
            ("the worker that asked", 4, 4, replace(entries[4], worker=2)),
            ("the rights that a denial says are missing", 5, 5, replace(entries[5], reply=replace(entries[5].reply, rights=READ))),
            ("the rights that were listed", 6, 6, replace(entries[6], reply=journal.Edges((Target(1, GRANT), Target(2, READ))))),
        ]
        rows = [(what, place, edges, limits, [*entries[:at], entry, *entries[at + 1 :]]) for what, at, place, entry in changed]
        rows += [
            ("an entry left out", 3, edges, limits, entries[:3] + entries[4:]),
            ("another edge", 3, [(0, 1, INSPECT)], limits, entries),
            ("another limit", 0, edges, Limits(2, 8, 4), entries),
        ]
        for what, place, own, most, altered in rows:
            with self.subTest(what), self.assertRaises(BadEntry) as refused:
                Store.resume(cells, own, most, altered)
            self.assertEqual(refused.exception.at, place, what)
        with Store.resume(cells, edges, limits, entries[:3]) as store:
            for place, part in ((5, entries[5:]), (0, entries[:3])):
                with self.assertRaises(BadPlace) as refused:
                    store.go_on(place, part)
                self.assertEqual((refused.exception.at, store.entries()), (place, 3))
            store.go_on(3, entries[3:])
            self.assertEqual([*store.journal()], entries)

    def test_no_entries(self):
        denied = journal.Denied("read", "not distinct", (1, 2))
        wrong = [
            journal.Entry(0, journal.Take(1, 2, Rights(0)), journal.Done()),
            journal.Entry(0, journal.Create(Rights(0), Cell(1)), journal.Name(3)),
            journal.Entry(0, journal.List(), journal.Edges((Target(1, Rights(0)),))),
            journal.Entry(0, journal.Read(0), denied),
        ]
        with opened() as store:
            for entry in wrong:
                self.assertRaises(BadValues, store.go_on, 0, [entry])
            for entry in (None, (0, journal.List(), journal.Done()), journal.Entry(0, journal.Done(), journal.List())):
                self.assertRaises(TypeError, store.go_on, 0, [entry])
            for worker in (-1, 2**64):
                self.assertRaises(OverflowError, store.go_on, 0, [journal.Entry(worker, journal.List(), journal.Done())])
            self.assertRaises(TypeError, store.go_on, 0, [journal.Entry(0, journal.Create(Rights(1), 7), journal.Done())])
            self.assertRaises(ValueError, store.go_on, 0, [journal.Entry(0, journal.List(), journal.Denied("eat", "missing"))])
            self.assertEqual(store.entries(), 0)


LETTERS = {Cell: "c", Sum: "s", Max: "m", Log: "l"}


def words_of(deed):
    """What was asked for: its name, and its numbers, rights and value."""
    for word in (type(deed).__name__.lower(), *vars(deed).values()):
        most_or_number = getattr(word, "most", getattr(word, "number", None))
        yield f"{LETTERS[type(word)]}{most_or_number}" if type(word) in LETTERS else getattr(word, "letters", word)


def words_of_reply(reply):
    """What was answered."""
    if isinstance(reply, journal.Denied):
        missing = [f"{reply.edge[0]}->{reply.edge[1]}", reply.rights.letters] if reply.edge else []
        return ["denied", reply.rule, *(missing or [{"not distinct": "distinct", "not log": "law"}[reply.cause]])]
    if isinstance(reply, (journal.VerticesFull, journal.WorkersFull)):
        return ["refused", "vertices" if isinstance(reply, journal.VerticesFull) else "workers"]
    edges = [f"{edge.to}:{edge.rights.letters}" for edge in getattr(reply, "edges", ())]
    return ["ok", *([reply.name] if isinstance(reply, journal.Name) else getattr(reply, "numbers", edges))]


def by_hand(entry):
    """The line of an entry, written here once more."""
    return " ".join(map(str, [entry.worker, *words_of(entry.deed), "=", *words_of_reply(entry.reply)]))


class Texts(unittest.TestCase):
    """The text of a history."""

    def test_entries(self):
        for seed in range(5):
            with opened() as store:
                entries = told(store, seed)
                store.retire(2)
                for entry in (*entries, store.entry(store.entries() - 1)):
                    self.assertEqual(str(entry), by_hand(entry))
                    self.assertEqual(f"{entry}", str(entry))

    def test_long_lines(self):
        with opened(1_000) as store:
            for _ in range(300):
                store.create(0, READ, Cell(0))
            store.list(0)
            entry = store.entry(300)
            self.assertEqual(str(entry), by_hand(entry))
            self.assertGreater(len(str(entry)), 1_606)

    def test_other_lines(self):
        lines = {
            "0 spawn r l64 = refused workers": journal.Entry(0, journal.Spawn(READ, Log(64)), journal.WorkersFull()),
            "1 append 2 3 = denied append law": journal.Entry(1, journal.Append(2, 3), journal.Denied("append", "not log")),
        }
        for line, entry in lines.items():
            self.assertEqual(str(entry), line)
        none = [
            journal.Entry(0, journal.Take(1, 2, Rights(0)), journal.Done()),
            journal.Entry(-1, journal.List(), journal.Done()),
            journal.Entry(0, None, journal.Done()),
            journal.Entry(0, journal.List(), journal.Denied("eat", "missing")),
        ]
        for entry in none:
            self.assertEqual(str(entry), repr(entry))

    def test_openings(self):
        values, edges = [Cell(0), Sum(2**64 - 1), Max(3), Log(64)], [(0, 1, READ | GRANT), (3, 0, TAKE)]
        self.assertEqual(
            opening_text(values, edges, Limits(9, 8, 4)),
            "kovshenul entries 1\nopening 4 9\nworker c0\nworker s18446744073709551615\nworker m3\nworker l64\nedge 0 1 rg\nedge 3 0 t",
        )
        long = opening_text([Cell(0)] * 64)
        self.assertEqual(long, "\n".join(["kovshenul entries 1", "opening 64 1048576", *["worker c0"] * 64]))
        self.assertRaises(BadWorkers, opening_text, [])
        self.assertRaises(TypeError, opening_text, [7])
        self.assertEqual([end_text(0), end_text(2**64 - 1)], ["entries 0", "entries 18446744073709551615"])
        for count in (-1, 2**64):
            self.assertRaises(OverflowError, end_text, count)


TABLE = Path(__file__).resolve().parents[2] / "tests" / "snapshots.txt"


def refused_at(text):
    """The first line at fault, or 0 if it is the text of a snapshot."""
    try:
        Snapshot(text)
    except BadValues as refused:
        assert str(refused).startswith(f"line {refused.line}: ")
        return refused.line
    return 0


class Snapshots(unittest.TestCase):
    """What an auditor has come to, from which another one goes on."""

    def test_parts(self):
        with opened() as store, Auditor(*opening()) as whole:
            before = whole.snapshot()
            for seed in range(10):
                told(store, seed, 50)
                with Auditor.reopen(before) as part:
                    self.assertEqual(part.feed(store), whole.feed(store))
                    before = part.snapshot()
                    self.assertEqual(before, whole.snapshot())
                    self.assertEqual((part.at, whole.at), (store.entries(), store.entries()))
                store.forget(store.entries())

    def test_a_store_goes_on(self):
        with opened() as first, Auditor(*opening()) as whole:
            for seed in range(10):
                told(first, seed, 50)
                entries = whole.feed(first)
                snapshot, limits = whole.snapshot(), opening()[2]
                with Store.reopen(snapshot, limits, trusted=[0]) as again, Auditor.reopen(snapshot) as part:
                    self.assertEqual((again.entries(), again.first(), again.trusted()), (entries, entries, [0]))
                    self.assertRaises(NotWhole, again.audit)
                    self.assertEqual(told(again, seed, 50), told(first, seed, 50)[entries:])
                    self.assertEqual(part.feed(again), first.entries())
            self.assertRaises(BadLimits, Store.reopen, snapshot, limits._replace(max_vertices=limits.max_vertices + 1))
            self.assertRaises(BadLimits, Store.reopen, snapshot, limits._replace(max_blocks=0))
            self.assertRaises(NoSuchWorker, Store.reopen, snapshot, limits, trusted=[10**6])
            self.assertRaises(OverflowError, Store.reopen, snapshot, (-1, 1, 1))
        nobody = Snapshot("kovshenul picture 1\nmade 1 20 0\npicture 0")
        self.assertRaises(BadWorkers, Store.reopen, nobody, Limits(20, 8, 4))
        for wrong in (None, str(nobody), 7):
            self.assertRaises(TypeError, Store.reopen, wrong)

    def test_texts(self):
        with Auditor([Cell(7), Log(2)], [(0, 1, READ | GRANT)], Limits(9, 8, 4)) as auditor:
            snapshot = auditor.snapshot()
        lines = ["kovshenul picture 1", "made 2 9 0", "worker 0", "worker 1", "vertex 0 c7", "vertex 1 l2", "edge 0 1 rg", "picture 3"]
        self.assertEqual(str(snapshot), "\n".join(lines))
        for text in (str(snapshot), f"{snapshot}\n"):
            self.assertEqual(Snapshot(text), snapshot)
        self.assertEqual(pickle.loads(pickle.dumps(snapshot)), snapshot)
        for at in range(len(lines)):
            with self.assertRaises(BadValues) as refused:
                Snapshot("\n".join([*lines[:at], "nonsense", *lines[at + 1 :]]))
            self.assertEqual(refused.exception.line, at + 1)
            self.assertTrue(str(refused.exception).startswith(f"line {at + 1}: "))
        for text in ("", "kovshenul picture 1", f"{snapshot}\n\n", "\u20ac", f"{snapshot}\0"):
            self.assertRaises(BadValues, Snapshot, text)
        for text in (None, b"kovshenul picture 1", 7):
            self.assertRaises(TypeError, Snapshot, text)
            self.assertRaises(TypeError, Auditor.reopen, text)

    def test_what_is_refused(self):
        """The table of bindings/tests/snapshots.txt, and the whole one of its texts without its last lines."""
        table = TABLE.read_text("ascii").split("\n\n")[1:]
        self.assertGreater(len(table), 30)
        for what, text in (row.rstrip("\n").split("\n", 1) for row in table):
            line = int(what.split(":")[0])
            with self.subTest(what):
                self.assertEqual(refused_at(text), line)
            lines = [] if line else text.split("\n")
            for count in range(1, len(lines)):
                self.assertEqual(refused_at("\n".join(lines[:count])), count + 1)

    def test_what_it_shows(self):
        values, edges = [Cell(7), Log(2), Max(3)], [(2, 1, APPEND), (0, 1, READ | GRANT), (0, 2, WRITE)]
        with Store(values, edges, Limits(20, 8, 4)) as store, Auditor(values, edges, Limits(20, 8, 4)) as auditor:
            for number in (1, 8, 9):
                store.append(2, 1, number)
            made = store.create(0, READ | WRITE, Sum(2**64 - 1)), store.create(1, READ, Cell(0))
            store.remove(1, made[1], READ)
            store.retire(1)
            auditor.feed(store)
            snapshot = auditor.snapshot()
        self.assertEqual((snapshot.made, snapshot.limit, snapshot.entries), (5, 20, 7))
        self.assertEqual([*snapshot.subjects()], [0, 2])
        shown = [Vertex(0, Cell(7), (7,)), Vertex(1, Log(2), (8, 9)), Vertex(2, Max(3), (3,)), Vertex(3, Sum(2**64 - 1), (2**64 - 1,))]
        self.assertEqual([*snapshot.vertices()], shown)
        rights = [(0, 1, READ | GRANT), (0, 2, WRITE), (0, 3, READ | WRITE), (2, 1, APPEND)]
        self.assertEqual([*snapshot.edges()], [Edge(*edge) for edge in rights])
        empty = Snapshot("kovshenul picture 1\nmade 3 20 8\nworker 1\nvertex 1 l64\npicture 1")
        self.assertEqual(([*empty.vertices()], [*empty.edges()]), ([Vertex(1, Log(64), ())], []))

    def test_more_names(self):
        with opened() as first, Auditor(*opening()) as auditor:
            told(first, 1, 50)
            auditor.feed(first)
            snapshot, limits = auditor.snapshot(), opening()[2]
        raised = snapshot.with_names(snapshot.made + 3)
        self.assertEqual((raised.made, raised.limit, raised.entries), (snapshot.made + 3, snapshot.limit, snapshot.entries))
        shown = [*raised.vertices()], [*raised.edges()], [*raised.subjects()]
        self.assertEqual(shown, ([*snapshot.vertices()], [*snapshot.edges()], [*snapshot.subjects()]))
        self.assertEqual(snapshot.with_names(snapshot.made), snapshot)
        with Store.reopen(raised, limits) as store, Store.reopen(snapshot, limits) as other:
            names = [it.create(next(snapshot.subjects()), READ, Cell(0)) for it in (other, store)]
        self.assertEqual(names, [snapshot.made, snapshot.made + 3])
        full = snapshot.with_names(snapshot.limit)
        with Store.reopen(full, limits) as store:
            self.assertRaises(VerticesFull, store.create, next(full.subjects()), READ, Cell(0))
        for made in (snapshot.made - 1, 0, snapshot.limit + 1):
            self.assertRaises(BadLimits, snapshot.with_names, made)
        for made in (-1, 2**64):
            self.assertRaises(OverflowError, snapshot.with_names, made)
        self.assertRaises(TypeError, snapshot.with_names, "9")

    def test_stopped(self):
        with opened() as store, Auditor(*opening()) as auditor:
            store.create(0, READ, Cell(0))
            auditor.feed(store)
            text = str(auditor.snapshot())
            store.read(0, WORKERS)
            with Auditor.reopen(Snapshot(text.replace(f"edge 0 {WORKERS} r", f"edge 0 {WORKERS} w"))) as other:
                self.assertRaises(BadEntry, other.feed, store)
                self.assertRaises(BadEntry, other.snapshot)
        self.assertRaises(NotOpen, auditor.snapshot)


if __name__ == "__main__":
    unittest.main()
