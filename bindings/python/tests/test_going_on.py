"""Stores that go on: from a snapshot, or from the entries of another store.

Two stores are asked for the same, and each reply is compared. A collection of one of them changes nothing."""
import unittest
from itertools import product

from kovshenul import (
    APPEND,
    GRANT,
    READ,
    TAKE,
    WRITE,
    Auditor,
    BadEntry,
    BadLimits,
    BadPlace,
    BadWorkers,
    Cell,
    Denied,
    HeapFull,
    Kind,
    Limits,
    Log,
    Max,
    Refused,
    Store,
    Sum,
    journal,
)
from kovshenul.journal import Append, Create, Entry, Grant, List, Name, Read, Remove, Retire, Spawn, Take, Write

MOST, BLOCKS = 1_000, 64
VALUES = READ | WRITE | APPEND

# Who makes what, with all rights on values.
MADE = [
    (0, Create(VALUES, Log(3))),
    (0, Create(VALUES, Sum(40))),
    (0, Create(VALUES, Cell(1))),
    (1, Spawn(VALUES, Cell(0))),
    (1, Spawn(VALUES, Cell(0))),
    (5, Create(VALUES, Cell(0))),
]

# Worker 0 gives its cell up, writes to the other objects, and lets worker 1 read the log. The second subject retires.
USED = [
    (0, Append(2, 5)),
    (0, Append(2, 6)),
    (0, Remove(4, VALUES)),
    (0, Grant(1, 2, READ)),
    (0, Append(2, 7)),
    (0, Write(3, 2)),
    (5, Write(7, 9)),
    (6, Retire()),
]

# Rights are taken, granted, taken without a right to do so, and removed.
MOVES = [(0, Take(1, 5, READ)), (0, Grant(1, 3, READ)), (1, Take(0, 3, READ)), (0, Remove(5, READ))]

# Numbers are appended to the log of two and one more, and added, written and read. Worker 1 may not read vertex 4.
USES = [
    (0, Append(2, 8)),
    (1, Read(2)),
    (0, Write(3, 5)),
    (1, Read(3)),
    (5, Read(7)),
    (5, Write(7, 1)),
    (5, Read(7)),
    (1, Read(4)),
]

# A subject gives up its object and retires. All subjects list their edges, also those that retired.
ENDS = [(0, List()), (5, Remove(7, VALUES)), (5, Retire()), (5, List()), (6, List()), (1, List()), (9, List())]

# What the subjects reach once all of USED was done. Vertex 4 isn't reached. Vertex 6 retired, and worker 1 reaches it.
SHOWN = """kovshenul picture 1
made 8 1000 14
worker 0
worker 1
worker 5
vertex 0 c0
vertex 1 c0
vertex 2 l3:5,6,7
vertex 3 s42
vertex 5 c0
vertex 6 c0
vertex 7 c9
edge 0 1 tg
edge 0 2 rwa
edge 0 3 rwa
edge 1 2 r
edge 1 5 rwa
edge 1 6 rwa
edge 5 7 rwa
picture 14"""


def opening(blocks=BLOCKS):
    """Two workers with cells, and an edge `tg` between them."""
    return [Cell(0), Cell(0)], [(0, 1, TAKE | GRANT)], Limits(MOST, blocks, blocks)


def opened(blocks=BLOCKS):
    return Store(*opening(blocks))


def answer(store, worker, deed):
    """What a store answers to a deed: a value, why it is denied, or by which exception it is refused."""
    try:
        return getattr(store, type(deed).__name__.lower())(worker, *vars(deed).values())
    except Denied as why:
        return why.rule, why.cause, why.edge, why.rights
    except Refused as why:
        return type(why)


def collected(store, kind):
    """Collects the store, if a kind is given."""
    if kind is not None:
        store.collect(kind)


def used(kind):
    """A store that was used, and was collected at the end if a kind is given."""
    store = opened()
    for worker, deed in [*MADE, *USED]:
        getattr(store, type(deed).__name__.lower())(worker, *vars(deed).values())
    collected(store, kind)
    return store


def snapshot_of(store, auditor):
    """The snapshot of an auditor that is fed what the store holds."""
    auditor.feed(store)
    return auditor.snapshot()


class FromSnapshot(unittest.TestCase):
    """A store that is opened again from a snapshot."""

    def same(self, first, second, steps):
        for worker, deed in steps:
            self.assertEqual(answer(first, worker, deed), answer(second, worker, deed), (worker, deed))

    def test_a_snapshot_is_the_same_whatever_was_collected(self):
        for kind in (None, Kind.NURSERY, Kind.FULL):
            with used(kind) as store, Auditor(*opening()) as auditor:
                self.assertEqual(str(snapshot_of(store, auditor)), SHOWN)

    def test_a_store_goes_on_from_its_snapshot(self):
        """The snapshot comes after 14 entries. Each of 21 more deeds has an entry, but for two of workers that retired."""
        for before, after in product((None, Kind.NURSERY, Kind.FULL), repeat=2):
            with used(before) as first, Auditor(*opening()) as whole:
                snapshot = snapshot_of(first, whole)
                with Store.reopen(snapshot, opening()[2]) as second, Auditor.reopen(snapshot) as part:
                    collected(second, after)
                    self.compare(first, second)
                    self.assertEqual(snapshot_of(first, whole), snapshot_of(second, part))
                    self.assertEqual((second.first(), second.entries(), first.entries()), (14, 33, 33))

    def compare(self, first, second):
        self.same(first, second, [*MOVES, *USES])
        for store in (first, second):
            self.assertEqual((store.create(1, VALUES, Cell(0)), store.spawn(1, VALUES, Cell(0))), (8, 9))
        self.same(first, second, ENDS)

    def test_a_store_has_the_snapshot_of_its_auditor(self):
        """An auditor that goes on from the snapshot of the first store shows what the second store then makes."""
        with used(Kind.FULL) as first, Auditor(*opening()) as auditor:
            snapshot = snapshot_of(first, auditor)
            with Store.reopen(snapshot, opening()[2]) as store, Auditor.reopen(snapshot) as part:
                self.assertEqual(store.create(1, VALUES, Cell(0)), 8)
                self.assertEqual(store.spawn(5, VALUES, Cell(0)), 9)
                lines = str(snapshot_of(store, part)).split("\n")
        added = ["edge 1 8 rwa", "edge 5 9 rwa", "made 10 1000 16", "picture 18", "vertex 8 c0", "vertex 9 c0", "worker 9"]
        self.assertEqual(sorted({*lines} - {*SHOWN.split("\n")}), added)
        self.assertEqual({*SHOWN.split("\n")} - {*lines}, {"made 8 1000 14", "picture 14"})

    def test_a_snapshot_without_a_place_to_go_on(self):
        limits = opening()[2]
        with opened() as store, Auditor(*opening()) as auditor:
            shown = snapshot_of(store, auditor)
            for _ in range(300):
                store.create(0, VALUES, Cell(1))
            many = snapshot_of(store, auditor)
            for worker in range(2):
                store.retire(worker)
            nobody = snapshot_of(store, auditor)
        self.assertRaises(BadLimits, Store.reopen, shown, limits._replace(max_vertices=999))
        self.assertRaises(BadWorkers, Store.reopen, nobody, limits)
        self.assertRaises(HeapFull, Store.reopen, many, Limits(MOST, 3, 3))


class FromEntries(unittest.TestCase):
    """A store that goes on from entries."""

    def fed(self, store, part):
        """Has the store go on from a part, which it then forgets."""
        store.go_on(store.entries(), part)
        store.forget(store.entries())

    def work(self, store):
        """A log and a sum are written, a denied write comes between, and a subject comes and goes. Returns the entries."""
        made = [answer(store, 0, deed) for deed in (Create(VALUES, Log(3)), Create(VALUES, Sum(40)))]
        self.assertEqual(made, [2, 3])
        for value in range(4):
            store.append(0, 2, value)
            store.write(0, 3, value)
            self.assertRaises(Denied, store.write, 1, 3, value)
        store.grant(0, 1, 2, READ)
        third = store.spawn(1, READ, Max(9))
        store.list(third)
        store.retire(third)
        entries = [*store.journal()]
        store.forget(store.entries())
        return entries

    def churn(self, store):
        """Makes vertices and gives them up again, with collections in between."""
        for number in range(900):
            if number % 300 == 299:
                store.collect(Kind.FULL)
            store.remove(0, store.create(0, VALUES, Cell(number)), VALUES)

    def collections_of(self, blocks):
        """How many collections a store of so many blocks makes while it goes on from two parts. It answers as the first store."""
        with opened() as store, opened(blocks) as other:
            first = self.work(store)
            self.churn(store)
            self.fed(other, first)
            self.fed(other, store.journal())
            self.assertEqual(store.entries(), other.entries())
            counts = other.census()
            for worker, deed in product(range(2), (List(), Read(2), Read(3))):
                self.assertEqual(answer(store, worker, deed), answer(other, worker, deed))
            return counts.nursery_collections, counts.full_collections

    def test_it_collects_only_where_the_heap_is_full(self):
        self.assertEqual(self.collections_of(64), (0, 0))
        self.assertEqual(self.collections_of(12), (0, 1))

    def test_stops_where_there_is_no_room_and_goes_on_from_there(self):
        """The cells of three blocks are enough for 60 vertices and too few for 200."""
        with opened() as store, opened(3) as small:
            for _ in range(300):
                store.create(0, VALUES, Cell(1))
            entries = [*store.journal()]
            for _ in range(2):
                at = small.entries()
                with self.assertRaises(HeapFull) as refused:
                    small.go_on(at, entries[at:])
                self.assertEqual(small.entries(), refused.exception.at)
                self.assertTrue(60 < refused.exception.at < 200)
                self.assertIn(at, (0, refused.exception.at))

    def place(self, third):
        """The place of the bad entry, or else how many entries the store then has, of two legal entries and a third entry."""
        entries = [Entry(0, Create(VALUES, Cell(1)), Name(2)), Entry(0, Write(2, 7), journal.Done()), third]
        try:
            with Store.resume(*opening(8), entries) as store:
                return store.entries()
        except BadEntry as refused:
            return "bad", refused.at

    def test_a_name_that_is_not_the_next_is_found_at_its_place(self):
        """The second name was given before, and the third is ahead. The fourth entry made no vertex, although there is room."""
        replies = [Name(3), Name(2), Name(4), journal.VerticesFull()]
        bad = "bad", 2
        self.assertEqual([self.place(Entry(0, Create(VALUES, Cell(1)), reply)) for reply in replies], [3, bad, bad, bad])

    def test_a_deed_that_is_not_legal_is_found_at_its_place(self):
        for third in (Entry(9, Write(2, 7), journal.Done()), Entry(0, Write(2, 7), Name(3))):
            self.assertEqual(self.place(third), ("bad", 2))

    def test_a_part_from_another_place(self):
        with opened(8) as store, self.assertRaises(BadPlace) as refused:
            store.go_on(1, [Entry(0, List(), journal.Edges(()))])
        self.assertEqual(refused.exception.at, 1)


class FedInParts(unittest.TestCase):
    """An auditor that is fed parts of a journal. They come in their order, twice, and with one left out."""

    def test_a_part_that_was_left_out_and_one_fed_twice(self):
        """Part one, part three as if part two were lost, part two twice, part three, and part one again. A denied read is a part."""
        given = [Cell(0), Cell(0)], (), Limits(100, 4, 1)
        with Store(*given) as whole, Store(*given) as first, Store(*given) as second, Auditor(*given) as auditor:
            for _ in range(3):
                self.assertRaises(Denied, whole.read, 0, 1)
            entries = [*whole.journal()]
            first.go_on(0, entries[:1])
            second.go_on(0, entries[:2])
            second.forget(1)
            whole.forget(2)
            fed = [first, whole, second, second, whole, first]
            places = [self.place_after(auditor, store) for store in fed]
            self.assertEqual((places, auditor.at), ([1, "bad place", 2, 2, 3, "bad place"], 3))

    def place_after(self, auditor, store):
        try:
            return auditor.feed(store)
        except BadPlace:
            return "bad place"


class Hands(unittest.TestCase):
    """Rights that a worker hands on, and hands that are denied."""

    def opened(self):
        """Worker 0 may take from object 1, which may read object 2, and may grant to object 3. It has no right over object 2."""
        store = Store([Cell(0)], (), Limits(10, 8, 8))
        for rights in (TAKE | GRANT, READ | WRITE, GRANT):
            store.create(0, rights, Cell(0))
        store.grant(0, 1, 2, READ)
        store.remove(0, 2, READ | WRITE)
        return store

    def handed(self, store, to, rights):
        try:
            return store.hand(0, 1, to, 2, rights)
        except Denied as why:
            return why.rule, why.cause, why.edge, why.rights

    def test_only_the_receiver_gets_rights(self):
        """Three creates, a grant and a remove open the store. The first hand has three entries, and each other hand has one."""
        with self.opened() as store:
            seen = [self.handed(store, to, rights) for to, rights in ((3, READ), (3, WRITE), (2, READ))]
            self.assertEqual(seen, [READ, ("take", "missing", (1, 2), WRITE), ("grant", "not distinct", None, 0)])
            self.assertEqual((store.who_holds(READ, 2), store.label(0, 2), store.audit()), ([1, 3], 0, 10))


if __name__ == "__main__":
    unittest.main()
