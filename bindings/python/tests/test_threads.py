"""Eight threads on one store: each has a worker of its own that adds to a sum and reads it back."""
import random
import sys
import threading
import time
import unittest

from kovshenul import INSPECT, READ, WRITE, Cell, Denied, Limits, NotOpen, Store, Sum, Target

THREADS = 8
ROUNDS = 2_000

# How many vertices a thread holds that looks at its row, and how many entries the audit has in the middle of which others run.
ROW, ENTRIES = 70, 100_000


def add_up(store, worker, rounds, wrong):
    """Writes and reads, and notes each read that isn't its own last sum."""
    rng = random.Random(worker)
    name, total = store.create(worker, READ | WRITE, Sum(0)), 0
    for _ in range(rounds):
        number = rng.randrange(2**64)
        total = (total + number) % 2**64
        store.write(worker, name, number)
        if store.read(worker, name) != [total]:
            wrong.append((worker, name))


def look(store, worker, rounds, wrong):
    """Makes vertices and gives them up, and notes each answer of a call that only looks which isn't of its own row."""
    held, other = [], (worker + 1) % THREADS
    for number in range(rounds):
        held.append(store.create(worker, READ, Cell(number)))
        if len(held) > ROW:
            store.remove(worker, held.pop(0), READ)
        row = [Target(other, INSPECT), *(Target(name, READ) for name in held)]
        row.sort()
        names = store.names()
        looks = [
            store.list(worker) == row,
            store.list(worker, room=number % ROW) == row,
            names.issuperset(held) and names.issuperset(range(THREADS)),
            store.label(worker, held[-1]) == READ,
            store.subjects() == list(range(THREADS)),
            store.read(worker, held[-1]) == [number],
            all(rights in (INSPECT, READ) for _, rights in store.inspect(worker, other)),
            is_denied(store, worker, held[-1], number),
            store.census().vertices >= THREADS + len(held),
            store.entry(number) == store.entry(number),
        ]
        if not all(looks):
            wrong.append((worker, number, looks))


def is_denied(store, worker, name, number):
    """Whether the denial of a write is of this very write."""
    try:
        store.write(worker, name, number)
    except Denied as denial:
        return (denial.edge, denial.rights, denial.rule) == ((worker, name), WRITE, "write")
    return False


class Threads(unittest.TestCase):
    def assert_right(self, store, work, rounds):
        """Has each thread work as a worker of its own, while this one collects."""
        wrong = []
        threads = [threading.Thread(target=work, args=(store, i, rounds, wrong)) for i in range(THREADS)]
        for thread in threads:
            thread.start()
        while any(thread.is_alive() for thread in threads):
            store.collect()
            threads[0].join(0.01)
        for thread in threads:
            thread.join()
        self.assertEqual(wrong, [])
        self.assertEqual(store.audit(), store.entries())

    def test_each_reads_its_own_last_sum(self):
        with Store([Cell(0)] * THREADS, [], Limits(1000, 64, 64)) as store:
            self.assert_right(store, add_up, ROUNDS)
            self.assertEqual(store.entries(), THREADS * (1 + 2 * ROUNDS))

    def test_each_sees_its_own_row(self):
        rounds = max(1, ROUNDS // 10)
        edges = [(i, (i + 1) % THREADS, INSPECT) for i in range(THREADS)]
        with Store([Cell(0)] * THREADS, edges, Limits(2**20, 4096, 4096)) as store:
            self.assert_right(store, look, rounds)
            store.collect()
            self.assertEqual(len(store.names()), THREADS + sum(len(store.list(i)) - 1 for i in range(THREADS)))

    def test_others_run_amid_a_long_call(self):
        with Store([Cell(0)], [], Limits(2**20, 4096)) as store:
            for _ in range(ENTRIES):
                store.create(0, READ, Cell(0))
            self.assertTrue(any(runs_amid(store.audit) for _ in range(50)))

    def test_one_closes_while_others_call(self):
        for _ in range(20):
            store = Store([Cell(0)] * THREADS, [], Limits(100000, 64, 64))
            seen = []
            threads = [threading.Thread(target=create_until_closed, args=(store, i, seen)) for i in range(THREADS)]
            for thread in threads:
                thread.start()
            store.close()
            for thread in threads:
                thread.join()
            self.assertEqual(seen, [])


def runs_amid(call):
    """Whether this thread runs in the middle third of a call that another one makes. What lies before and after the call itself is
    shorter than a third of it."""
    times, seen = [], []

    def make():
        times.append(time.monotonic())
        call()
        times.append(time.monotonic())

    thread = threading.Thread(target=make)
    thread.start()
    while thread.is_alive():
        seen.append(time.monotonic())
    start, end = times
    return any(start + (end - start) / 3 < at < end - (end - start) / 3 for at in seen)


def create_until_closed(store, worker, seen):
    """Makes vertices until the store is closed, and notes what else is raised."""
    try:
        while True:
            store.remove(worker, store.create(worker, READ, Cell(0)), READ)
            store.collect()
    except NotOpen:
        pass
    except Exception as error:
        seen.append(error)


if __name__ == "__main__":
    if len(sys.argv) > 1:
        ROUNDS = int(sys.argv.pop())
    unittest.main()
