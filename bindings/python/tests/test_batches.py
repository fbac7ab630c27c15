"""Several commands in one call. Each is answered as by its own call, and the journal has the same entries."""
import random
import unittest

from kovshenul import (
    GRANT,
    INSPECT,
    READ,
    TAKE,
    WRITE,
    BadLimits,
    BadRights,
    Cell,
    Limits,
    NoSuchWorker,
    NotOpen,
    Rights,
    Store,
    Sum,
    Target,
    journal,
)

MOST = 1024


def opened():
    """A store of three workers, each of which may take from and grant to the next."""
    edges = [(one, (one + 1) % 3, TAKE | GRANT | INSPECT) for one in range(3)]
    store = Store([Cell(0)] * 3, edges, Limits(max_vertices=40))
    for worker in range(3):
        for _ in range(6):
            store.create(worker, READ | WRITE | GRANT, Sum(worker))
    return store


def command_by(dice):
    """Some command, mostly of vertices that there are."""
    via, target, value = dice.randrange(24), dice.randrange(24), dice.randrange(100)
    rights = Rights(dice.randrange(1, 256))
    return dice.choice([
        journal.Take(via, target, rights),
        journal.Grant(via, target, rights),
        journal.Remove(target, rights),
        journal.Read(target),
        journal.Write(target, value),
        journal.Append(target, value),
        journal.Inspect(target),
        journal.List(),
    ])


class Batches(unittest.TestCase):
    def test_answers(self):
        dice = random.Random(7)
        with opened() as one, opened() as other:
            for size in (0, 1, 2, 64, MOST, 3):
                worker, commands = dice.randrange(3), [command_by(dice) for _ in range(size)]
                before = other.entries()
                replies = one.apply_all(worker, iter(commands))
                alone = [reply for command in commands for reply in other.apply_all(worker, [command])]
                self.assertEqual(replies, alone)
                self.assertEqual(one.entries(), before + size)
            self.assertEqual([*one.journal()], [*other.journal()])
            self.assertEqual(one.audit(), one.entries())

    def test_denials_go_on(self):
        with opened() as store:
            replies = store.apply_all(0, [journal.Append(3, 1), journal.Write(3, 5), journal.Read(3)])
            self.assertIsInstance(replies[0], journal.Denied)
            self.assertEqual(replies[1:], [journal.Done(), journal.Values((5,))])

    def test_a_long_row(self):
        with Store([Cell(0)]) as store:
            names = [store.create(0, READ, Cell(0)) for _ in range(200)]
            replies = store.apply_all(0, [journal.List(), journal.List()])
            self.assertEqual(replies, 2 * [journal.Edges(tuple(Target(name, READ) for name in names))])

    def test_a_retire_in_the_middle(self):
        with opened() as store:
            before = store.entries()
            with self.assertRaises(NoSuchWorker) as refused:
                store.apply_all(1, [journal.Read(9), journal.Retire(), journal.Read(9)])
            self.assertEqual(refused.exception.replies, [journal.Values((1,)), journal.Done()])
            self.assertIn("name 1", str(refused.exception))
            self.assertEqual(store.entries(), before + 2)
            with self.assertRaises(NoSuchWorker) as refused:
                store.apply_all(1, [journal.Read(9)])
            self.assertEqual((refused.exception.replies, store.apply_all(1, [])), ([], []))

    def test_nothing_of_a_bad_batch(self):
        with opened() as store:
            before = store.entries()
            self.assertRaises(BadLimits, store.apply_all, 0, [journal.List()] * (MOST + 1))
            self.assertRaises(BadRights, store.apply_all, 0, [journal.List(), journal.Remove(1, Rights(0))])
            for command in (journal.Create(READ, Cell(0)), journal.Spawn(READ, Cell(0)), journal.Done(), None, 7):
                self.assertRaises(TypeError, store.apply_all, 0, [journal.List(), command])
            for command in (journal.Read(-1), journal.Write(1, 2**64)):
                self.assertRaises(OverflowError, store.apply_all, 0, [journal.List(), command])
            self.assertRaises(OverflowError, store.apply_all, 2**64, [])
            self.assertEqual(store.entries(), before)
            store.close()
            self.assertRaises(NotOpen, store.apply_all, 0, [])


if __name__ == "__main__":
    unittest.main()
