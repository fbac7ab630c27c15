"""What users of Python expect of the module beside its answers."""
import copy
import ctypes
import gc
import importlib.util
import inspect
import os
import pickle
import re
import shutil
import subprocess
import sys
import tempfile
import threading
import tracemalloc
import typing
import unittest
from pathlib import Path

import kovshenul
from back_ends import IS_CTYPES, WHO_HOLDS, answering, counted
from kovshenul import (
    APPEND,
    FREE_U,
    FREE_V,
    GRANT,
    INSPECT,
    READ,
    TAKE,
    WRITE,
    Auditor,
    Cell,
    Counts,
    Denied,
    Edge,
    HeapFull,
    Kind,
    Law,
    Limits,
    Log,
    Max,
    NoSuchWorker,
    NotOpen,
    OutOfMemory,
    Refused,
    Rights,
    Store,
    Sum,
    Target,
    View,
    _backend,
    _library,
)
from kovshenul._lock import LOCK

LIMITS = Limits(10, 8, 4)


def opened():
    return Store([Cell(0), Cell(0)], [(0, 1, GRANT)], LIMITS)


class Values(unittest.TestCase):
    def test_rights_are_a_set(self):
        self.assertEqual(READ | WRITE, 3)
        self.assertIn(READ, READ | WRITE)
        self.assertEqual((READ | WRITE) - READ, WRITE)
        self.assertEqual((READ | TAKE | GRANT).letters, "rtg")
        self.assertEqual([right.letters for right in Rights], list("rwtgaluv"))
        self.assertEqual((READ | APPEND | FREE_V, INSPECT | FREE_U), (Rights.of("var"), Rights.of("lu")))
        self.assertEqual(Rights.of("gw"), GRANT | WRITE)
        self.assertRaises(ValueError, Rights.of, "x")
        for bits in range(256):
            self.assertEqual(Rights.of(Rights(bits).letters), bits)

    def test_values_compare_and_print(self):
        self.assertEqual(Cell(3), Cell(3))
        self.assertNotEqual(Cell(3), Max(3))
        self.assertNotEqual(Cell(3), Cell(4))
        self.assertEqual(repr(Sum(40)), "Sum(number=40)")
        self.assertEqual(repr(Log(3)), "Log(most=3)")
        self.assertEqual(len({Cell(3), Cell(3), Max(3)}), 2)
        self.assertEqual(pickle.loads(pickle.dumps(Log(3))), Log(3))

    def test_an_edge_is_a_tuple(self):
        for edge in ((0, 1, GRANT), Edge(0, 1, GRANT), [0, 1, 8]):
            with Store([Cell(0)] * 2, [edge], (10, 8, 4)) as store:
                self.assertEqual(store.list(0), [(1, GRANT)])
                self.assertIsInstance(store.list(0)[0].rights, Rights)
                self.assertEqual(store.list(1), [])

    def test_numbers_out_of_range_are_refused(self):
        for wrong in (-1, 2**64, -(2**64), 2**64 + 1):
            self.assertRaises(OverflowError, Cell, wrong)
        self.assertRaises(OverflowError, Log, 2**32 + 3)
        self.assertRaises(TypeError, Cell, None)
        self.assertRaises(TypeError, Max, 1.0)

    def test_version(self):
        self.assertRegex(kovshenul.__version__, r"^0\.\d+\.\d+$")

    def test_each_call_says_its_types(self):
        self.assertTrue(Path(kovshenul.__file__).with_name("py.typed").exists())
        calls = [call for name, call in vars(Store).items() if inspect.isfunction(call) and not name.startswith("_")]
        self.assertGreater(len(calls), 15)
        for call in (*calls, Store.__init__, Denied.__init__, Refused.__init__, Rights.of):
            wanted = {"return", *inspect.signature(call).parameters} - {"self"}
            self.assertEqual(set(typing.get_type_hints(call)), wanted, call)

    def test_without_a_library_all_places_are_named(self):
        environment = {**os.environ, "KOVSHENUL_LIBRARY": "/nowhere/kovshenul.so"}
        words = [sys.executable, "-c", "import kovshenul"]
        told = subprocess.run(words, env=environment, capture_output=True, text=True).stderr
        self.assertIn("ImportError", told)
        name = f"libkovshenul.so.{_library.ABI}"
        for place in ("KOVSHENUL_LIBRARY is /nowhere/kovshenul.so", f"kovshenul/{name} is", f"looks for {name}"):
            self.assertIn(place, told)

    def test_a_library_of_another_interface_is_refused(self):
        class Older(ctypes.CDLL):
            def __init__(self, path):
                super().__init__(path)
                self.tg_abi = lambda: _library.ABI - 1

        self.assertRaisesRegex(ImportError, f"has interface {_library.ABI - 1}, and", _library._loaded, Older)


class BackEnds(unittest.TestCase):
    """The package has two back ends. All other tests run over the one that the variable KOVSHENUL_CTYPES leaves."""

    def told_by(self, folder, **variables):
        """What another process writes that imports the package of the folder, and says which back end it took."""
        environment = {**os.environ, "PYTHONPATH": str(folder), "KOVSHENUL_LIBRARY": _library.library._name, **variables}
        words = [sys.executable, "-c", "import kovshenul; print(kovshenul.BACKEND)"]
        ran = subprocess.run(words, env=environment, capture_output=True, text=True, check=True)
        return ran.stdout.strip(), ran.stderr

    def test_ctypes_may_be_chosen(self):
        folder = Path(kovshenul.__file__).parents[1]
        usual = self.told_by(folder, KOVSHENUL_CTYPES="0")[0]
        for value, name in (("1", "ctypes"), ("yes", "ctypes"), ("", usual)):
            self.assertEqual(self.told_by(folder, KOVSHENUL_CTYPES=value), (name, ""))
        self.assertTrue(IS_CTYPES or usual == "extension")

    def test_without_an_extension(self):
        """Nothing is said if there is none. One that can't be loaded is warned of."""
        with tempfile.TemporaryDirectory() as folder:
            package = Path(shutil.copytree(Path(kovshenul.__file__).parent, Path(folder) / "kovshenul"))
            module = package / "_extension.abi3.so"
            module.unlink(missing_ok=True)
            self.assertEqual(self.told_by(folder, KOVSHENUL_CTYPES=""), ("ctypes", ""))
            module.write_bytes(b"no module")
            name, warned = self.told_by(folder, KOVSHENUL_CTYPES="")
            self.assertEqual(name, "ctypes")
            self.assertRegex(warned, "RuntimeWarning: Kovshenul calls its library by ctypes, which is slower: .*_extension")

    def test_each_status_of_each_call_is_raised(self):
        """Memory that is refused too, which no test here can bring about."""
        with opened() as store, Auditor([Cell(0)] * 2, [(0, 1, GRANT)], LIMITS) as auditor, store.view() as view:
            calls = [(store.take, 0, 1, 2, 1), (store.grant, 0, 1, 2, 1), (store.remove, 0, 1, 1), (store.read, 0, 1)]
            calls += [(store.hand, 0, 1, 1, 1, 1), (Store.reopen, auditor.snapshot(), LIMITS)]
            calls += [(store.write, 0, 1, 1), (store.append, 0, 1, 1), (store.create, 0, 1, Cell(0)), (store.spawn, 0, 1, Cell(0))]
            calls += [(store.list, 0), (store.inspect, 0, 1), (store.retire, 0), (store.leave, 0), (store.label, 0, 1)]
            calls += [(store.park, 0, 1, 2), (store.unpark, 0, 1, 2), (store.law, 0, 1), (store.law_of, 1)]
            calls += [(store.who_holds, 1, 1), (store.withdraw, 1, 1), (store.edges_to, 1), (store.could, 0, 1, 1), (store.could_kind, 0, 1, 1), (store.could_any, []), (store.view,), (store.collect,), (store.census,)]
            calls += [(it,) for it in (store.names, store.subjects, store.entries, store.first, store.audit)]
            calls += [(store.entry, 0), (store.forget, 0), (auditor.feed, store), (auditor.forget, store, 0), (auditor.sweep,)]
            calls += [(view.could, 0, 1, 1), (lambda: auditor.at,), (Store, [Cell(0)]), (Auditor, [Cell(0)])]
            for kind in Refused.__subclasses__():
                with answering(kind.status):
                    for call, *words in calls:
                        self.assertRaises(kind, call, *words)
            self.assertEqual((store.entries(), auditor.at), (0, 0))

    @unittest.skipIf(IS_CTYPES, "the extension alone")
    def test_the_extension_looks_at_what_it_is_given(self):
        places = _backend.back_end.Store(), _backend.back_end.Auditor(), _backend.back_end.View()
        store, auditor, view = places
        for place in places:
            self.assertRaises(TypeError, place.open)
        calls = [(store.park, 1, 2), (store.unpark, 1, 2), (store.law, 1), (store.law_of,), (store.take, 1, 2, 3), (store.hand, 1, 2, 3, 4), (store.reopen, b""), (store.read,), (store.list, 1), (store.could, b"", b"", 1, 2), (store.could_kind, b"", b"", 1, 2), (store.could_any, b"", b""), (auditor.feed, None)]
        calls += [(auditor.forget, store), (view.could, 1, 2), (view.open, auditor, b"", b""), (view.open, store, b"", "")]
        for call, *words in calls:
            self.assertRaises(TypeError, call, *words)
        for call, *words in [(store.open, b"", b"", b""), (store.open, b"1", b"", bytes(24)), (store.create, 0, 1, bytes(32)), (store.reopen, b"", b"")]:
            with self.assertRaises(ValueError) as caught:
                call(*words)
            # NotOpen is a ValueError too.
            self.assertIs(type(caught.exception), ValueError)
        for module in (_backend.back_end, self.other_extension()):
            self.assertRaises(TypeError, module.ready)
            self.assertRaises(TypeError, module.ready, *[()] * 9)
        self.assertRaises(RuntimeError, self.other_extension().Store)
        self.assertRaises(NotOpen, store.read, 0, 1)

    def other_extension(self):
        """The same module once more, to which nothing was given."""
        spec = importlib.util.spec_from_file_location("kovshenul._extension", _backend.back_end.__file__)
        module = importlib.util.module_from_spec(spec)
        spec.loader.exec_module(module)
        return module


class Refusals(unittest.TestCase):
    def test_classes(self):
        self.assertTrue(issubclass(OutOfMemory, MemoryError))
        self.assertTrue(issubclass(NoSuchWorker, LookupError))
        with opened() as store:
            self.assertRaises(NoSuchWorker, store.read, 2, 0)
            self.assertRaises(kovshenul.BadRights, store.grant, 0, 1, 1, 256)
            self.assertRaises(kovshenul.BadLaw, store.create, 0, READ, Log(65))
            self.assertRaises(kovshenul.BadKind, store.collect, 2)
        self.assertRaises(kovshenul.BadWorkers, Store, [])
        self.assertRaises(kovshenul.BadLimits, Store, [Cell(0)], [], (0, 8, 4))
        self.assertRaises(kovshenul.BadLimits, Store, [Cell(0)], [], (10, 2**20 + 1, 4))
        self.assertRaises(kovshenul.BadEdge, Store, [Cell(0)], [(0, 1, READ)], LIMITS)
        self.assertRaises(kovshenul.BadRights, Store, [Cell(0)] * 2, [(0, 1, 0)], LIMITS)
        self.assertRaises(HeapFull, Store, [Cell(0)] * 2, [], (10, 1, 4))

    def test_they_survive_pickle(self):
        for kind in Refused.__subclasses__():
            again = pickle.loads(pickle.dumps(kind()))
            self.assertIs(type(again), kind)
            self.assertEqual((again.status, str(again)), (kind.status, str(kind())))
            self.assertNotEqual(str(again), "unknown status")
        again = pickle.loads(pickle.dumps(Refused(999)))
        self.assertEqual((again.status, str(again)), (999, "unknown status"))
        with opened() as store:
            with self.assertRaises(Denied) as caught:
                store.write(1, 0, 5)
        again = pickle.loads(pickle.dumps(caught.exception))
        self.assertEqual((again.rule, again.cause, again.edge, again.rights), ("write", "missing", (1, 0), WRITE))
        self.assertEqual((str(again), again.vertices), ("write: w is missing on 1->0", (1, 0)))
        self.assertEqual(str(copy.copy(caught.exception)), str(again))
        self.assertEqual(str(Denied("write", "missing", (1, 0), WRITE)), str(again))

    def assert_says(self, text, kind, call, *arguments):
        with self.assertRaisesRegex(kind, text):
            call(*arguments)

    def test_they_say_what_was_wrong(self):
        with opened() as store, Auditor([Cell(0)] * 2, [(0, 1, READ)], LIMITS) as auditor, store.view() as view:
            self.assert_says("not 3 \\('rw'\\)", kovshenul.BadRights, store.could, 0, READ | WRITE, 1)
            self.assert_says("not 3 \\('rw'\\)", kovshenul.BadRights, view.could, 0, READ | WRITE, 1)
            self.assert_says("not 0 \\(''\\)", kovshenul.BadRights, store.who_holds, 0, 1)
            self.assert_says("no worker reaches", kovshenul.BadEdge, store.could, 0, READ, 1, [], [(1, 7, READ)])
            calls = [(store.read, 0), (store.write, 0, 1), (store.take, 0, 1, READ), (store.create, READ, Cell(0)), (store.list,)]
            for call, *rest in [*calls, (store.inspect, 0), (store.leave,), (store.retire,), (store.label, 0)]:
                self.assert_says("has the name 99$", NoSuchWorker, call, 99, *rest)
            for call, *rest in [(store.write, 1, "rw"), (store.take, 1, 0, "rw"), (store.create, "rw", Cell(0)), (store.list, "rw")]:
                self.assert_says("'rw' is no number.*Rights.of", TypeError, call, 0, *rest)
            self.assert_says("and not -1$", OverflowError, store.write, 0, 1, -1)
            self.assert_says("a number of 9001 bits", OverflowError, store.write, 0, 1, 2**9000)
            for call, *rest in [(View,), (auditor.feed,), (auditor.forget, 0)]:
                self.assert_says("a store is wanted, and not None", TypeError, call, None, *rest)
            store.write(0, store.create(0, WRITE, Cell(0)), 1)
            store.grant(0, 1, 2, WRITE)
            self.assert_says("opened by the same workers", kovshenul.BadEntry, auditor.feed, store)
        self.assert_says("a block for each worker", HeapFull, Store, [Cell(0)] * 2, [], Limits(10, 1, 1))
        self.assert_says("max_vertices is from", kovshenul.BadLimits, Store, [Cell(0)], [], Limits(0))

    def test_all_are_errors(self):
        for kind in (Denied, Refused, *Refused.__subclasses__()):
            self.assertTrue(issubclass(kind, kovshenul.Error))
        self.assertTrue(issubclass(Denied, PermissionError))
        self.assertFalse(issubclass(Denied, Refused))
        with opened() as store:
            for call, *arguments in ((store.write, 1, 0, 5), (store.write, 7, 0, 5)):
                self.assertRaises(kovshenul.Error, call, *arguments)
            with self.assertRaises(PermissionError) as caught:
                store.read(0, 1)
        self.assertEqual(caught.exception.args, ("read", "missing", (0, 1), READ, (0, 1)))
        self.assertEqual((caught.exception.errno, caught.exception.filename), (None, None))

    def test_a_denial_of_one_vertex(self):
        with opened() as store:
            with self.assertRaises(Denied) as caught:
                store.write(1, 1, 5)
        self.assertEqual((caught.exception.cause, caught.exception.edge), ("not distinct", None))
        self.assertEqual(str(caught.exception), "write: two vertices that must differ are one (1, 1)")
        self.assertEqual(str(Denied("take", "not distinct")), "take: two vertices that must differ are one")

    def test_a_denial_of_a_law(self):
        with opened() as store:
            cell = store.create(0, APPEND, Cell(0))
            with self.assertRaises(Denied) as caught:
                store.append(0, cell, 5)
        for denied in (caught.exception, pickle.loads(pickle.dumps(caught.exception))):
            self.assertEqual((denied.rule, denied.cause, denied.edge, denied.rights), ("append", "not log", None, 0))
            self.assertEqual(str(denied), f"append: the target stores no log (0, {cell})")

    def test_each_denial_names_its_rule(self):
        with opened() as store:
            calls = [(store.take, 1, 1, READ), (store.grant, 1, 1, READ), (store.remove, 0, READ), (store.read, 0)]
            calls += [(store.write, 0, 1), (store.append, 0, 1), (store.inspect, 0)]
            for rule, (call, *rest) in zip(kovshenul.RULES, calls, strict=True):
                with self.assertRaises(Denied) as caught:
                    call(0, *rest)
                self.assertEqual((caught.exception.rule, caught.exception.cause), (rule, "not distinct"))
                named = (0, 1, 1) if rule in ("take", "grant") else (0, 0)
                self.assertEqual(caught.exception.vertices, named)
                self.assertEqual(str(caught.exception), f"{rule}: two vertices that must differ are one {named}")


class Stores(unittest.TestCase):
    def assert_closed(self, store):
        self.assertTrue(store.closed)
        self.assertRaises(NotOpen, store.read, 0, 1)
        self.assertRaises(NotOpen, store.list, 0)
        self.assertRaises(NotOpen, store.inspect, 0, 1)
        self.assertRaises(NotOpen, store.append, 0, 1, 5)
        self.assertRaises(NotOpen, store.create, 0, READ, Cell(0))
        self.assertRaises(NotOpen, store.spawn, 0, READ, Cell(0))
        self.assertRaises(NotOpen, store.retire, 0)
        self.assertRaises(NotOpen, store.subjects)
        for call in (store.collect, store.census, store.entries, store.audit, store.__enter__):
            self.assertRaises(NotOpen, call)
        store.close()

    def test_closed(self):
        store = opened()
        self.assertFalse(store.closed)
        store.close()
        self.assert_closed(store)
        self.assert_closed(Store.__new__(Store))

    def test_a_store_isnt_copied(self):
        with opened() as store:
            for copied in (copy.copy, copy.deepcopy, pickle.dumps):
                self.assertRaises(TypeError, copied, store)
            self.assertRaises(TypeError, Store)
            self.assertRaises(kovshenul.AlreadyOpen, store.__init__, [Cell(0)])
            self.assertEqual(store.entries(), 0)

    def test_values_are_values(self):
        with opened() as store:
            for wrong in (None, 3, (0, 0, 3), "Cell", Cell, kovshenul.Value, object.__new__(Cell)):
                self.assertRaises(TypeError, store.create, 0, READ, wrong)
                self.assertRaises(TypeError, Store, [wrong])
            self.assertEqual(store.entries(), 0)

    def test_laws(self):
        with opened() as store:
            for value, state in ((Cell(3), [2]), (Sum(3), [5]), (Max(3), [3]), (Log(2), [7, 2])):
                name = store.create(0, READ | WRITE, value)
                store.write(0, name, 7)
                if isinstance(value, Sum):
                    store.write(0, name, 2**64 - 7)
                if isinstance(value, Max):
                    self.assertEqual(store.read(0, name), [7])
                    continue
                store.write(0, name, 2)
                self.assertEqual(store.read(0, name), state)

    def assert_denied(self, text, call, *arguments):
        with self.assertRaises(Denied) as caught:
            call(*arguments)
        self.assertEqual(str(caught.exception), f"{call.__name__}: {text}")

    def test_logs_are_added_to_and_edges_shown(self):
        with Store([Cell(0)] * 2, [(0, 1, INSPECT)], LIMITS) as store:
            self.assertEqual(store.create(1, READ | WRITE | APPEND, Cell(0)), 2)
            self.assertEqual(store.inspect(0, 1), [Target(2, Rights.of("rwa"))])
            self.assertIsInstance(store.inspect(0, 1)[0].rights, Rights)
            self.assert_denied("l is missing on 1->0", store.inspect, 1, 0)
            self.assert_denied("the target stores no log (1, 2)", store.append, 1, 2, 5)
            self.assertEqual(store.create(1, READ | APPEND, Log(4)), 3)
            self.assertIsNone(store.append(1, 3, 5))
            self.assertEqual(store.read(1, 3), [5])
            self.assert_denied("w is missing on 1->3", store.write, 1, 3, 6)
            self.assertEqual((store.entries(), store.audit()), (9, 9))

    def test_the_law_is_looked_at_last(self):
        with opened() as store:
            self.assert_denied("a is missing on 0->7", store.append, 0, 7, 5)
            log = store.create(0, READ | WRITE, Log(2))
            self.assert_denied(f"a is missing on 0->{log}", store.append, 0, log, 5)
            self.assert_denied("l is missing on 0->7", store.inspect, 0, 7)
            for call, *arguments in ((store.append, 7, log, 5), (store.inspect, 7, 0)):
                self.assertRaises(NoSuchWorker, call, *arguments)

    def test_numbers_arrive_whole(self):
        with opened() as store:
            for number in (255, 4096, 2**31, 2**32 + 1, 2**63, 2**64 - 1):
                self.assert_denied(f"t is missing on 0->{number}", store.take, 0, number, 1, READ)
                self.assert_denied(f"r is missing on 0->{number}", store.grant, 0, 1, number, READ)
                self.assert_denied(f"r is missing on 0->{number}", store.remove, 0, number, READ)
                self.assert_denied(f"r is missing on 0->{number}", store.read, 0, number)
                self.assert_denied(f"w is missing on 0->{number}", store.write, 0, number, number)
                self.assertEqual(store.label(0, number), 0)
                for call, *arguments in ((store.list, number), (store.label, number, 1), (store.create, number, READ, Cell(0))):
                    self.assertRaises(NoSuchWorker, call, *arguments)
                self.assertRaises(kovshenul.BadPlace, store.entry, number)
                cell = store.create(0, READ | WRITE, Max(0))
                store.write(0, cell, number)
                self.assertEqual(store.read(0, cell), [number])

    def test_rights_without_a_command_are_handed_on(self):
        with opened() as store:
            name = store.create(0, FREE_U | FREE_V, Cell(0))
            store.grant(0, 1, name, FREE_V)
            self.assertEqual((store.label(0, name), store.label(1, name)), (FREE_U | FREE_V, FREE_V))
            store.remove(1, name, FREE_V)
            self.assert_denied(f"rwtgal is missing on 0->{name}", store.grant, 0, 1, name, 255)

    def test_a_worker_comes_and_goes(self):
        with opened() as store:
            document = store.create(0, READ, Sum(40))
            client = store.spawn(0, GRANT | INSPECT, Cell(0))
            store.grant(0, client, document, READ)
            self.assertEqual((store.read(client, document), store.subjects()), ([40], [0, 1, client]))
            self.assertIsNone(store.retire(client))
            for call, *arguments in ((store.read, client, document), (store.retire, client), (store.list, client)):
                self.assertRaises(NoSuchWorker, call, *arguments)
            self.assertEqual((store.subjects(), store.inspect(0, client)), ([0, 1], [(document, READ)]))
            store.remove(0, client, GRANT | INSPECT)
            self.assertEqual(store.collect(), 3)
            self.assertEqual(store.spawn(1, READ, Log(2)), client + 1)
            for wrong in (-1, 2**64):
                self.assertRaises(OverflowError, store.retire, wrong)
                self.assertRaises(OverflowError, store.spawn, wrong, READ, Cell(0))
            self.assertRaises(TypeError, store.retire, None)
            self.assertRaises(TypeError, store.spawn, 0, READ, None)
            self.assertEqual(store.audit(), store.entries())

    def test_who_leaves_holds_nothing(self):
        with opened() as store:
            client = store.spawn(0, GRANT | TAKE, Cell(0))
            documents = [store.create(client, READ, Sum(at)) for at in range(3)]
            store.take(0, client, documents[1], READ)
            self.assertEqual((store.who_holds(READ, documents[1]), store.who_holds(READ, client)), ([0, client], []))
            self.assertRaises(kovshenul.BadRights, store.who_holds, READ | TAKE, client)
            self.assertEqual(store.leave(client), 3)
            self.assertRaises(NoSuchWorker, store.leave, client)
            self.assertEqual([store.who_holds(READ, document) for document in documents], [[], [0], []])
            self.assertEqual(store.collect(), 4)
            self.assertEqual(store.audit(), store.entries())

    def test_rights_are_handed_on(self):
        with Store([Cell(0)]) as store:
            owner, reader = store.spawn(0, TAKE, Cell(0)), store.spawn(0, GRANT, Cell(0))
            document = store.create(owner, READ | WRITE, Cell(0))
            self.assertEqual(store.hand(0, owner, reader, document, READ), READ)
            self.assertEqual([store.label(x, document) for x in (0, owner, reader)], [0, READ | WRITE, READ])
            asked = [f"take {owner}", f"grant {reader}", "remove"]
            self.assertEqual([str(entry) for entry in [*store.journal()][3:]], [f"0 {word} {document} r = ok" for word in asked])
            store.set_name(reader, "reader")
            denials = {
                (0, owner, owner, document, READ): f"grant: g is missing on 0->{owner}",
                (0, owner, reader, document, GRANT): f"take: g is missing on {owner}->{document}",
                (0, reader, owner, document, READ): f"take: t is missing on 0->reader ({reader})",
                (0, 0, reader, document, READ): f"take: two vertices that must differ are one (0, 0, {document})",
                (0, owner, document, document, READ): f"grant: two vertices that must differ are one (0, {document}, {document})",
            }
            for words, text in denials.items():
                with self.assertRaises(Denied) as denied:
                    store.hand(*words)
                self.assertEqual(str(denied.exception), text)
                self.assertEqual(store.entry(store.entries() - 1).reply.rule, denied.exception.rule)
            self.assertEqual(store.entries(), 6 + len(denials))
            self.assertRaises(NoSuchWorker, store.hand, document, owner, reader, document, READ)
            self.assertRaises(kovshenul.BadRights, store.hand, 0, owner, reader, document, 0)
            self.assertEqual(store.audit(), 6 + len(denials))

    def test_rights_are_withdrawn(self):
        with Store([Cell(0)]) as store:
            document = store.create(0, READ | WRITE, Cell(0))
            readers = [store.spawn(0, GRANT | TAKE, Cell(0)) for _ in range(3)]
            for reader in readers:
                store.grant(0, reader, document, READ | WRITE)
            store.retire(readers[2])
            before = store.entries()
            self.assertEqual(store.withdraw(document, READ, [0, 99]), [0, readers[2]])
            self.assertEqual([str(entry) for entry in [*store.journal()][before:]], [f"{it} remove {document} r = ok" for it in readers[:2]])
            self.assertEqual([store.label(it, document) for it in (0, *readers[:2])], [READ | WRITE, WRITE, WRITE])
            self.assertRaises(kovshenul.BadRights, store.withdraw, document, 0)
            self.assertRaises(OverflowError, store.withdraw, document, READ, [-1])
            self.assertRaises(TypeError, store.withdraw, document, READ, 0)
            self.assertEqual((store.withdraw(999, READ), store.withdraw(document, APPEND)), ([], []))
            self.assertEqual(store.withdraw(document, READ | WRITE), [readers[2]])
            self.assertEqual(store.audit(), store.entries())

    def test_users_are_parked(self):
        with Store([Cell(0)]) as store:
            user = store.spawn(0, GRANT, Cell(0))
            letters = [store.create(user, READ | WRITE, Cell(7)) for _ in range(3)]
            account = store.create(0, TAKE | GRANT | INSPECT, Cell(0))
            store.set_name(account, "account")
            denials = {
                (0, 0, account): f"grant: two vertices that must differ are one (0, 0, account ({account}))",
                (0, user, user): f"grant: two vertices that must differ are one (0, {user}, {user})",
                (0, user, 999): "grant: g is missing on 0->999",
                (user, 0, account): f"grant: g is missing on {user}->0",
            }
            for words, text in denials.items():
                with self.assertRaises(Denied) as denied:
                    store.park(*words)
                self.assertEqual(str(denied.exception), text)
            before = store.entries()
            self.assertEqual(before, 5 + len(denials))
            for words, missing in {(0, account, account): account, (999, user, account): 999, (7, 8, 9): 7, (0, 2**64 - 1, 0): 2**64 - 1}.items():
                with self.assertRaises(NoSuchWorker) as refused:
                    store.park(*words)
                self.assertEqual(str(refused.exception), f"no such worker: no active subject has the name {missing}")
            store.grant(0, user, account, INSPECT)
            self.assertRaises(kovshenul.InUse, store.park, 0, user, account)
            store.remove(user, account, INSPECT)
            self.assertEqual(store.entries(), before + 2)
            self.assertEqual(store.park(0, user, account), 3)
            grant = f"0 grant {user} {account} g = ok"
            given = [f"{user} grant {account} {letter} rw = ok" for letter in letters]
            left = [f"{user} remove {letter} rw = ok" for letter in letters] + [f"{user} retire = ok"]
            entries = [grant, *given, f"{user} remove {account} g = ok", *left]
            self.assertEqual([str(entry) for entry in [*store.journal()][before + 2 :]], entries)
            self.assertEqual([edge.to for edge in store.inspect(0, account)], letters)
            self.assertEqual((store.subjects(), store.edges_to(user)), ([0], [Edge(0, user, GRANT)]))
            self.assertEqual(store.audit(), store.entries())

    def test_a_user_without_edges_is_parked(self):
        with opened() as store:
            account = store.create(0, GRANT, Cell(0))
            self.assertEqual((store.park(0, 1, account), store.entries()), (0, 4))
            self.assertEqual((store.collect(), store.law_of(1)), (3, Law(Cell)))

    def test_users_are_unparked(self):
        with Store([Cell(0)]) as store:
            parked = store.spawn(0, GRANT, Cell(0))
            letters = [store.create(parked, READ | WRITE, Cell(7)) for _ in range(3)]
            account = store.create(0, TAKE | GRANT | INSPECT, Cell(0))
            store.park(0, parked, account)
            user = store.spawn(0, GRANT, Cell(0))
            store.set_name(account, "account")
            denials = {
                (0, 0, account): f"grant: two vertices that must differ are one (0, 0, account ({account}))",
                (0, user, user): f"grant: two vertices that must differ are one (0, {user}, {user})",
                (0, user, 999): "grant: t is missing on 0->999",
                (user, 0, account): f"grant: g is missing on {user}->0",
            }
            for words, text in denials.items():
                with self.assertRaises(Denied) as denied:
                    store.unpark(*words)
                self.assertEqual(str(denied.exception), text)
            for words, missing in {(0, parked, account): parked, (999, user, account): 999, (0, account, user): account}.items():
                with self.assertRaises(NoSuchWorker) as refused:
                    store.unpark(*words)
                self.assertEqual(str(refused.exception), f"no such worker: no active subject has the name {missing}")
            store.grant(0, user, account, INSPECT)
            self.assertRaises(kovshenul.InUse, store.unpark, 0, user, account)
            store.remove(user, account, INSPECT)
            before = store.entries()
            self.assertEqual(store.unpark(0, user, account), 3)
            taken = [f"{user} take {account} {letter} rw = ok" for letter in letters]
            left = [f"{user} remove {account} t = ok", f"0 remove {account} tgl = ok"]
            self.assertEqual([str(entry) for entry in [*store.journal()][before:]], [f"0 grant {user} {account} t = ok", *taken, *left])
            self.assertEqual([(edge.to, edge.rights) for edge in store.list(user)], [(letter, READ | WRITE) for letter in letters])
            self.assertEqual((store.label(0, account), store.edges_to(account)), (0, []))
            again = store.spawn(0, GRANT, Cell(0))
            self.assertRaisesRegex(Denied, f"grant: t is missing on 0->account", store.unpark, 0, again, account)
            self.assertEqual(store.collect(), 7)
            self.assertNotIn(account, store.names())
            self.assertEqual(store.audit(), store.entries())

    def test_an_account_without_edges_is_left(self):
        with opened() as store:
            account = store.create(0, TAKE, Cell(0))
            self.assertEqual((store.unpark(0, 1, account), store.entries()), (0, 4))
            self.assertEqual((store.list(1), store.label(0, account)), ([], 0))

    def test_laws_are_shown(self):
        with opened() as store:
            laws = {Cell(1): Law(Cell), Sum(2): Law(Sum), Max(3): Law(Max), Log(64): Law(Log, 64)}
            for value, law in laws.items():
                name = store.create(0, APPEND | INSPECT, value)
                self.assertEqual((store.law(0, name), store.law(1, name), store.law_of(name)), (law, None, law))
                store.grant(0, 1, name, INSPECT)
                self.assertIsNone(store.law(1, name))
                store.grant(0, 1, name, APPEND)
                self.assertEqual(store.law(1, name), law)
                store.withdraw(name, APPEND | INSPECT)
                self.assertEqual((store.law(0, name), store.law_of(name)), (None, None))
            self.assertRaises(NoSuchWorker, store.law, 99, 0)
            self.assertEqual((store.law_of(99), store.law_of(2**64 - 1), store.law(0, 1), store.law_of(1)), (None, None, None, Law(Cell)))
            self.assertRaises(OverflowError, store.law_of, -1)

    def test_who_holds_is_asked_once(self):
        with Store([Cell(0)], [], Limits(400, 64, 64)) as store:
            document = store.create(0, READ, Cell(0))
            with counted("tg_who_holds", WHO_HOLDS) as asked:
                for made in range(1, 140):
                    self.assertEqual(len(store.who_holds(READ, document)), made)
                    folder = store.create(0, GRANT, Cell(0))
                    store.grant(0, folder, document, READ)
                self.assertEqual(len(asked), made)

    def test_three_who_know_each_other_leave_empty_rows(self):
        with opened() as store:
            clients = [store.spawn(0, GRANT | TAKE, Cell(0)) for _ in range(3)]
            for one in clients:
                for other in clients:
                    if one != other:
                        store.grant(0, one, other, GRANT | TAKE)
            notes = [store.create(client, READ, Cell(7)) for client in clients]
            self.assertEqual([store.leave(client) for client in clients], [3, 3, 3])
            self.assertEqual((store.collect(), store.names()), (5, {0, 1, *clients}))
            self.assertEqual([store.who_holds(GRANT, client) for client in clients], [[0], [0], [0]])
            self.assertEqual(store.edges_to(clients[1]), [Edge(0, clients[1], GRANT | TAKE)])
            self.assertEqual((store.edges_to(999), store.edges_to(notes[0])), ([], []))
            self.assertEqual([store.who_holds(READ, note) for note in notes], [[], [], []])
            self.assertEqual(store.audit(), store.entries())

    def test_a_worker_too_many_is_refused(self):
        with Store([Cell(0)] * 64, limits=(1000, 100, 64)) as store:
            self.assertRaises(kovshenul.WorkersFull, store.spawn, 0, READ, Cell(0))
            self.assertEqual(store.subjects(), list(range(64)))
            store.retire(7)
            self.assertEqual(store.spawn(0, READ, Cell(0)), 64)
            self.assertEqual((store.entries(), store.audit()), (3, 3))

    def test_a_long_row_is_shown(self):
        with Store([Cell(0)] * 2, [(1, 0, INSPECT)], (1000, 64, 64)) as store:
            names = [store.create(0, FREE_U, Cell(0)) for _ in range(200)]
            self.assertEqual(store.inspect(1, 0), [(name, FREE_U) for name in names])
            self.assertEqual(store.entries(), 201)
            self.assertEqual(store.inspect(1, 0, room=200), store.list(0, room=0))
            self.assertRaises(OverflowError, store.inspect, 1, 0, -1)

    def test_a_long_row(self):
        with Store([Cell(0)], limits=(1000, 64, 64)) as store:
            names = [store.create(0, READ, Cell(0)) for _ in range(200)]
            self.assertEqual(store.list(0), [(name, READ) for name in names])
            self.assertEqual(store.entries(), 201)
            self.assertEqual(store.list(0, room=200), store.list(0, room=0))
            self.assertRaises(OverflowError, store.list, 0, -1)
            self.assertRaises(TypeError, store.list, 0, None)

    def test_rows_of_each_length(self):
        with Store([Cell(0)] * 2, [(1, 0, INSPECT)]) as store:
            for length in range(140):
                self.assertEqual(store.list(0), [(2 + at, READ) for at in range(length)])
                self.assertEqual(store.inspect(1, 0), store.list(0))
                self.assertEqual(store.entries(), 4 * length + 3)
                store.create(0, READ, Cell(0))

    def test_a_list_takes_no_more_room_than_its_row(self):
        with Store([Cell(0)] * 2) as store:
            for _ in range(20_000):
                store.create(0, READ, Cell(0))
            self.assertEqual(len(store.list(0)), 20_000)
            tracemalloc.start()
            try:
                self.assertEqual((store.list(1), store.list(1, 10**9)), ([], []))
                self.assertLess(tracemalloc.get_traced_memory()[1], 10_000)
            finally:
                tracemalloc.stop()

    def test_limits_to_start_with_are_those_of_c(self):
        header = Path(__file__).parents[2].joinpath("kovshenul.h").read_text()
        told = re.search(r"^#define TG_LIMITS_INIT \{ (\d+), (\d+), (\d+) \}$", header, re.MULTILINE)
        self.assertEqual(Limits(), tuple(map(int, told.groups())))

    def test_a_large_heap(self):
        with Store([Cell(0)], [], Limits(2**48, 2**20, 2**20)) as store:
            self.assertEqual(store.create(0, READ, Cell(0)), 1)
            self.assertEqual(store.collect(Kind.FULL), 2)

    def test_what_the_heap_has(self):
        with opened() as store:
            store.create(0, READ, Cell(0))
            self.assertEqual(store.census()[:2], (3, 3))
            self.assertIsInstance(store.census(), Counts)
            with self.assertRaises(Denied):
                store.write(0, 1, 1)
            self.assertEqual(store.census()[3:], (2, 2, 1, 0, 0, 0, 0))
            store.remove(0, 2, READ)
            self.assertEqual(store.collect(Kind.FULL), 2)
            self.assertEqual([store.collect(Kind.NURSERY) for _ in range(2)], [2, 2])
            self.assertEqual(store.census()[8:], (2, 1))
            self.assertEqual(store.audit(), 3)

    def test_another_thread_closes_it(self):
        class Owner:
            pass

        owner = Owner()
        owner.store, owner.itself = opened(), owner
        del owner
        thread = threading.Thread(target=gc.collect)
        thread.start()
        thread.join()

    def test_a_finalizer_may_call(self):
        with opened() as store:
            cell = store.create(0, READ | WRITE, Sum(0))

            class Counted:
                def __index__(self):
                    store.write(0, cell, 1)
                    return cell

                def __del__(self):
                    store.write(0, cell, 1)

            with LOCK:
                del [Counted()][:]
                # The number of it is asked for before the store is, and it goes when the call has ended.
                self.assertEqual(store.read(0, Counted()), [2])
            self.assertEqual(store.read(0, cell), [3])


if __name__ == "__main__":
    unittest.main()
