"""Calls between which a signal's handler, a finalizer or another thread calls the same store."""
import gc
import os
import signal
import sys
import threading
import time
import unittest
from contextlib import ExitStack, contextmanager
from itertools import count
from pathlib import Path
from unittest import mock

import kovshenul
from back_ends import IS_CTYPES
from kovshenul import GRANT, INSPECT, READ, WRITE, Auditor, Cell, Denied, Limits, NotOpen, Store, Target, _backend, journal

# Where the module's own functions are.
FOLDER = str(Path(kovshenul.__file__).parent)

# How long a thread waits until another thread comes to the middle of its call. The second number is how long until the two are said to
# hang.
MEETING, HANGING = 0.005, 10

# How long each of them runs, and how long after its last call a handler calls again.
SECONDS, PAUSE = 0.6, 5e-5

LIMITS = Limits(2**24, 4096, 2**20)


@contextmanager
def interrupted(call):
    """Has a signal's handler make the call again and again. Gives a function that says how often it did."""
    made, is_on = 0, True

    def handle(*_):
        nonlocal made
        if is_on:
            call()
            made += 1
            signal.setitimer(signal.ITIMER_REAL, PAUSE)

    before = signal.signal(signal.SIGALRM, handle)
    signal.setitimer(signal.ITIMER_REAL, PAUSE)
    try:
        yield lambda: made
    finally:
        is_on = False
        signal.setitimer(signal.ITIMER_REAL, 0)
        signal.signal(signal.SIGALRM, before)


class Meeting:
    """A library, or a number. A thread acts in the middle of a call at two places. It acts when it looks for the library's function, and
    when it asks for the number."""

    def __init__(self, library, deeds, number=0):
        self.library, self.deeds, self.number = library, deeds, number

    def act(self):
        deed = self.deeds.pop(threading.get_ident(), None)
        if deed is not None:
            deed()

    def __getattr__(self, name):
        self.act()
        return getattr(self.library, name)

    def __index__(self):
        self.act()
        return self.number


def interrupted_at(step, call, act):
    """Makes the call, and in the middle of it acts once, as a handler or a finalizer could. It acts after so many steps of the module's
    own functions. Returns whether the call had so many steps, and what it returned."""
    left = step

    def trace(frame, event, _):
        nonlocal left
        if not frame.f_code.co_filename.startswith(FOLDER):
            return None
        if event == "call":
            # Python 3.13 traces opcodes only of a frame that has its function already.
            frame.f_trace, frame.f_trace_opcodes, frame.f_trace_lines = trace, True, False
        if event == "opcode":
            left -= 1
            if left == 0:
                act()
        return trace

    before = sys.gettrace()
    # Python 3.12 traces opcodes only if a frame asks for it before.
    sys._getframe().f_trace_opcodes = True
    sys.settrace(trace)
    try:
        answer = call()
    finally:
        sys.settrace(before)
    return left <= 0, answer


def rounds():
    """Counts for as long as a test may run."""
    end, count = time.monotonic() + SECONDS, 0
    while time.monotonic() < end:
        yield count
        count += 1


def lists_in(store):
    """How many lists and inspects the journal has."""
    return sum(isinstance(entry.deed, (journal.List, journal.Inspect)) for entry in store.journal())


class Handlers(unittest.TestCase):
    def test_a_denial_is_of_its_own_call(self):
        def denied():
            try:
                store.append(2, 1, 5)
            except Denied:
                pass

        def told(call, *arguments):
            try:
                call(*arguments)
            except Denied as why:
                return why.rule, why.vertices
            return None

        with Store([Cell(0)] * 3, [(0, 1, READ)], LIMITS) as store:
            calls = [
                (store.write, 0, 1, 7),
                (store.take, 0, 1, 2, GRANT),
                (store.read, 1, 0),
                (store.inspect, 1, 0),
                (store.write, 0, 0, 7),
            ]
            wanted = [("write", (0, 1)), ("take", (0, 1, 2)), ("read", (1, 0)), ("inspect", (1, 0)), ("write", (0, 0))]
            wrong = 0
            with interrupted(denied) as made:
                for _ in rounds():
                    wrong += [told(*call) for call in calls] != wanted
            self.assertEqual(wrong, 0)
            self.assertGreater(made(), 0)
            self.assertEqual(store.audit(), store.entries())

    def test_names_are_those_of_vertices(self):
        with Store([Cell(0)] * 2, [], LIMITS) as store:
            store.retire(0)
            store.collect()

            class Node:
                def __init__(self):
                    self.itself = self

                def __del__(self):
                    store.collect()

            for number in range(300):
                for _ in range(50):
                    store.remove(1, store.create(1, READ, Cell(1)), READ)
                gc.set_threshold(1 + number % 9)
                Node()
                names = store.names()
                gc.set_threshold(700)
                self.assertNotIn(0, names)
            gc.collect()

    def test_names_made_in_between(self):
        with Store([Cell(0)], [], LIMITS) as store, interrupted(lambda: store.create(0, READ, Cell(0))) as made:
            for _ in rounds():
                least, names = 1 + made(), store.names()
                self.assertGreaterEqual(len(names), least)
                self.assertEqual(names, set(range(len(names))))

    def assert_row(self, row, first, least):
        """A row of vertices that were made one after the other, at least so many."""
        self.assertGreaterEqual(len(row), least)
        self.assertEqual([target.to for target in row], list(range(first, first + len(row))))

    def test_a_row_that_grows_is_listed_once(self):
        with Store([Cell(0)] * 2, [(1, 0, INSPECT)], LIMITS) as store:
            for _ in range(1000):
                store.create(0, READ, Cell(0))
            with interrupted(lambda: store.create(0, READ, Cell(0))) as made:
                for _ in range(20):
                    least = 1000 + made()
                    self.assert_row(store.list(0), 2, least)
                    self.assert_row(store.inspect(1, 0), 2, least)
            self.assertEqual(lists_in(store), 40)
            self.assertEqual(store.audit(), store.entries())

    def test_a_row_that_is_listed_in_between(self):
        with Store([Cell(0)], [], LIMITS) as store:
            for _ in range(200):
                store.create(0, READ, Cell(0))
            with interrupted(lambda: self.assert_row(store.list(0), 1, 200)) as made:
                for done in rounds():
                    self.assert_row(store.list(0), 1, 200)
            self.assertEqual(lists_in(store), done + 1 + made())

    def test_another_thread_makes_the_row_longer(self):
        with Store([Cell(0)], [], LIMITS) as store:
            ended = threading.Event()

            def grow():
                while not ended.is_set():
                    store.create(0, READ, Cell(0))

            thread = threading.Thread(target=grow)
            thread.start()
            try:
                while store.entries() < 1000:
                    time.sleep(0.001)
                for _ in range(12):
                    self.assert_row(store.list(0), 1, 1000)
            finally:
                ended.set()
                thread.join()
            self.assertEqual(lists_in(store), 12)

    def test_a_finalizer_amid_a_long_row(self):
        """The row is made of what the call was answered, also if its finalizers list, give entries up and close the store."""
        for at in range(1, 40):
            with Store([Cell(0)] * 2, [(1, 0, INSPECT)], LIMITS) as store:
                before = [Target(store.create(0, READ, Cell(0)), READ) for _ in range(self.LONG)]

                def act():
                    store.list(1)
                    store.forget(store.entries())
                    store.close()

                class Node:
                    def __init__(self):
                        self.itself = self

                    def __del__(self):
                        act()

                gc.collect()
                Node()
                gc.set_threshold(at)
                try:
                    row = store.inspect(1, 0)
                except NotOpen:
                    row = before
                finally:
                    gc.set_threshold(700)
                self.assertEqual(row, before)

    def test_what_is_open_never_looks_closed(self):
        """The library takes a store out of its place for as long as a call lasts."""
        with Store([Cell(0)], [], LIMITS) as store:
            for _ in range(5000):
                store.create(0, READ, Cell(0))
            ended = threading.Event()

            def call():
                while not ended.is_set():
                    store.audit()

            thread = threading.Thread(target=call)
            thread.start()
            try:
                self.assertEqual(sum(store.closed for _ in rounds()), 0)
            finally:
                ended.set()
                thread.join()

    # How many edges the row has that is shown at each step. The second number is how many steps of the package's functions a list or an
    # inspect has at least. In the extension it has none.
    LONG = 70
    STEPS = 100 if IS_CTYPES else 5

    def at_each_step(self, inspects, prepare):
        """A list or an inspect of a long row, with an act in the middle of it, once for each of its steps. What `prepare` is given is the
        store, and it returns the act. Gives the store, the row that was there before, and the row that was shown."""
        for step in count(1):
            store = Store([Cell(0)] * 2, [(1, 0, INSPECT)], LIMITS)
            before = [Target(store.create(0, READ, Cell(0)), READ) for _ in range(self.LONG)]
            act = prepare(store)
            show = (lambda: store.inspect(1, 0)) if inspects else (lambda: store.list(0))
            try:
                was_reached, row = interrupted_at(step, show, act)
            except NotOpen:
                continue
            if not was_reached:
                self.assertGreater(step, self.STEPS)
                return
            yield store, before, row

    def test_a_row_whose_entry_is_given_up(self):
        def forgetting(store):
            return lambda: store.forget(store.entries())

        def auditing(store):
            auditor = Auditor([Cell(0)] * 2, [(1, 0, INSPECT)], LIMITS)
            return lambda: auditor.forget(store, auditor.feed(store))

        for prepare in (forgetting, auditing, lambda store: store.close):
            for inspects in (False, True):
                for _, before, row in self.at_each_step(inspects, prepare):
                    self.assertEqual(row, before)

    def test_a_row_of_a_call_in_between(self):
        """The act makes a row of the same length whose first 64 edges are the same, and lists it."""
        rows = []

        def changing(store):
            last = store.list(0)[-1].to

            def change():
                store.remove(0, last, READ)
                store.create(0, READ, Cell(0))
                rows.append(store.list(0))

            return change

        for inspects in (False, True):
            for store, before, row in self.at_each_step(inspects, changing):
                after = [*before[:-1], Target(before[-1].to + 1, READ)]
                self.assertEqual(rows.pop(), after)
                deeds = [type(entry.deed) for entry in list(store.journal())[-4:]]
                is_shown_first = deeds[0] is (journal.Inspect if inspects else journal.List)
                self.assertEqual(row, before if is_shown_first else after)

    def test_two_threads_are_interrupted_at_once(self):
        """Each is in the middle of a call, and makes the other's call there. With a lock for each object both would wait for ever.

        While the extension is in the library no code of Python runs. So a call over it is interrupted when it asks for a number."""
        deeds = {}
        number = Meeting(None, deeds)
        edges, workers = [(1, 0, INSPECT)], [Cell(0)] * 2
        store, other, auditor = Store(workers, edges, LIMITS), Store(workers, edges, LIMITS), Auditor(workers, edges, LIMITS)
        view = store.view()

        def feed():
            return auditor.feed(store)

        def forget():
            auditor.forget(store, number)

        def could():
            return view.could(number, READ, 1)

        def lists(it):
            return lambda: it.list(number)

        calls = [(feed, lists(store)), (forget, lists(store)), (lambda: auditor.at, feed), (auditor.sweep, forget)]
        calls += [(could, lists(store)), (lists(store), lists(other))]
        with ExitStack() as stack:
            if IS_CTYPES:
                for name in ("library", "short"):
                    meeting = Meeting(getattr(_backend.back_end, name), deeds)
                    stack.enter_context(mock.patch.object(_backend.back_end, name, meeting))
            for one, two in calls:
                for _ in range(5):
                    self.assert_both_end(deeds, one, two)

    def assert_both_end(self, deeds, one, two):
        barrier = threading.Barrier(2)

        def make(call, others):
            def meet():
                try:
                    barrier.wait(MEETING)
                except threading.BrokenBarrierError:
                    pass
                others()

            deeds[threading.get_ident()] = meet
            call()
            number.act()

        threads = [threading.Thread(target=make, args=calls, daemon=True) for calls in ((one, two), (two, one))]
        for thread in threads:
            thread.start()
        for thread in threads:
            thread.join(HANGING)
            self.assertFalse(thread.is_alive(), "two threads wait for each other")

    def test_a_child_calls(self):
        """A child process can call though another thread of its parent was in a call when the child was made."""
        with Store([Cell(0)] * 2, [], LIMITS) as store:
            for _ in range(2000):
                store.create(0, READ, Cell(0))
            ended = threading.Event()

            def call():
                while not ended.is_set():
                    store.audit()

            thread = threading.Thread(target=call)
            thread.start()
            try:
                for _ in range(10):
                    self.assertEqual(self.status_of_child(store), 0)
            finally:
                ended.set()
                thread.join()

    def status_of_child(self, store):
        child = os.fork()
        if child == 0:
            signal.alarm(HANGING)
            os._exit(len(store.list(0)) - 2000)
        return os.waitpid(child, 0)[1]


if __name__ == "__main__":
    unittest.main()
