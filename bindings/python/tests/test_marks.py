"""What the host says of its vertices: names for people, and whom it trusts. The store and the model in plain Python are asked alike."""
import copy
import pickle
import unittest

from kovshenul import APPEND, GRANT, INSPECT, READ, TAKE, WRITE, Cell, Denied, Error, Limits, Log, NoSuchWorker, NotOpen, Rights, Store, Sum
from kovshenul import journal, outlook, plain

HOST, PLUGIN, REPORT, LOG = range(4)
OPENING = [Cell(0), Cell(0)], [(HOST, PLUGIN, GRANT | TAKE)], Limits(4, 64, 64)

# A command of each kind, served or denied, and its entry without names.
CALLS = [
    ("create", (HOST, READ | WRITE | GRANT, Sum(5)), "0 create rwg s5 = ok 2"),
    ("spawn", (HOST, READ | APPEND | INSPECT, Log(2)), "0 spawn ral l2 = ok 3"),
    ("grant", (HOST, PLUGIN, REPORT, WRITE), "0 grant 1 2 w = ok"),
    ("write", (PLUGIN, REPORT, 7), "1 write 2 7 = ok"),
    ("append", (HOST, LOG, 1), "0 append 3 1 = ok"),
    ("read", (HOST, REPORT), "0 read 2 = ok 12"),
    ("list", (HOST,), "0 list = ok 1:tg 2:rwg 3:ral"),
    ("inspect", (HOST, LOG), "0 inspect 3 = ok"),
    ("read", (PLUGIN, REPORT), "1 read 2 = denied read 1->2 r"),
    ("write", (PLUGIN, PLUGIN, 1), "1 write 1 1 = denied write distinct"),
    ("append", (PLUGIN, REPORT, 1), "1 append 2 1 = denied append 1->2 a"),
    ("take", (HOST, PLUGIN, REPORT, WRITE), "0 take 1 2 w = ok"),
    ("remove", (HOST, REPORT, READ), "0 remove 2 r = ok"),
    ("inspect", (PLUGIN, LOG), "1 inspect 3 = denied inspect 1->3 l"),
    ("grant", (PLUGIN, HOST, REPORT, WRITE), "1 grant 0 2 w = denied grant 1->0 g"),
    ("remove", (PLUGIN, REPORT, READ), "1 remove 2 r = denied remove 1->2 r"),
    ("take", (PLUGIN, HOST, REPORT, READ), "1 take 0 2 r = denied take 1->0 t"),
    ("retire", (LOG,), "3 retire = ok"),
    ("create", (HOST, READ, Sum(5)), "0 create r s5 = refused vertices"),
]
DENIED = [call for call in CALLS if "denied" in call[2]]


def outcome(store, call, words):
    """What a call returns, or which exception it raises, without its text."""
    try:
        return getattr(store, call)(*words)
    except Error as why:
        return type(why), why.args


class Marks(unittest.TestCase):
    def each(self, *opening):
        """The store and the model, each opened so."""
        for kind in (Store, plain.Store):
            with self.subTest(kind=kind.__module__), kind(*(opening or OPENING)) as store:
                yield store

    def denial_of(self, store, call, words):
        with self.assertRaises(Denied) as raised:
            getattr(store, call)(*words)
        return raised.exception

    def test_texts_without_names(self):
        for store in self.each():
            for call, words, text in CALLS:
                outcome(store, call, words)
                self.assertEqual(store.named(store.entry(store.entries() - 1)), text)

    def test_names_change_no_reply(self):
        for store in self.each():
            with Store(*OPENING) as other:
                for vertex in (HOST, PLUGIN, REPORT, LOG, 99, 2**64 - 1):
                    other.set_name(vertex, "x")
                for call, words, _ in CALLS:
                    self.assertEqual(outcome(store, call, words), outcome(other, call, words))
                self.assertEqual(list(store.journal()), list(other.journal()))

    def test_texts_with_names(self):
        for store in self.each():
            for vertex, name in {HOST: "host", PLUGIN: "plugin", REPORT: "the\nreport", LOG: ""}.items():
                store.set_name(vertex, name)
            for call, words, _ in CALLS[:-1]:
                outcome(store, call, words)
            texts = [store.named(entry) for entry in store.journal()]
            self.assertEqual(texts[2], "host (0) grant plugin (1) the?report (2) w = ok")
            self.assertEqual(texts[6], "host (0) list = ok plugin (1):tg the?report (2):rwg 3:ral")
            self.assertEqual(texts[8], "plugin (1) read the?report (2) = denied read plugin (1)->the?report (2) r")
            self.assertEqual([store.named(vertex) for vertex in (0, 3, 7)], ["host (0)", "3", "7"])
            reply = store.entry(8).reply
            self.assertEqual(store.named(reply), "read: r is missing on plugin (1)->the?report (2)")

    def test_each_denial_has_names(self):
        for store in self.each():
            for call, words, _ in CALLS[:2]:
                getattr(store, call)(*words)
            store.grant(HOST, PLUGIN, REPORT, WRITE)
            store.set_name(PLUGIN, "plugin")
            for call, words, _ in DENIED:
                why = self.denial_of(store, call, words)
                self.assertIn("plugin (1)", str(why), call)
                self.assertEqual(why.names, {PLUGIN: "plugin"})
                self.assertEqual(str(Denied(*why.args)), str(why).replace("plugin (1)", "1"))
                self.assertIn("names={1: 'plugin'}", repr(why))
                self.assertNotIn("names", repr(Denied(*why.args)))
                for other in (copy.copy(why), pickle.loads(pickle.dumps(why))):
                    self.assertEqual((str(other), repr(other)), (str(why), repr(why)))
                self.assertEqual(store.named(Denied(*why.args)), str(why))

    def test_a_denial_keeps_the_names_of_its_time(self):
        for store in self.each():
            store.set_name(PLUGIN, "before")
            why = self.denial_of(store, "read", (PLUGIN, HOST))
            store.set_name(PLUGIN, "afterwards")
            self.assertEqual(str(why), "read: r is missing on before (1)->0")
            self.assertEqual(store.named(why), "read: r is missing on afterwards (1)->0")

    def test_wrong_names(self):
        for store in self.each():
            store.set_name(PLUGIN, "plugin")
            for vertex in (-1, 2**64):
                self.assertRaises(OverflowError, store.set_name, vertex, "x")
                self.assertRaises(OverflowError, store.named, vertex)
            for vertex, name in ((None, "x"), ("1", "x"), (PLUGIN, None), (PLUGIN, b"x"), (PLUGIN, 1)):
                self.assertRaises(TypeError, store.set_name, vertex, name)
            for it in (None, "x", 1.5, outlook.Never(), journal.Done()):
                self.assertRaises(TypeError, store.named, it)
            self.assertEqual(store.named(PLUGIN), "plugin (1)")
            store.set_name(PLUGIN, "")
            store.set_name(PLUGIN, "")
            self.assertEqual(store.named(PLUGIN), "1")
            store.set_name(99, "\u202enobody\x00")
            self.assertEqual(store.named(99), "?nobody? (99)")

    def test_names_outlive_the_store(self):
        for store in self.each():
            store.set_name(PLUGIN, "plugin")
            store.close()
            store.set_name(HOST, "host")
            self.assertEqual((store.named(PLUGIN), store.named(HOST)), ("plugin (1)", "host (0)"))

    def test_turns_have_names(self):
        for store in self.each([Cell(0)] * 2, [(HOST, PLUGIN, GRANT)]):
            document = store.create(HOST, READ, Cell(7))
            store.set_name(PLUGIN, "plugin")
            turns = store.could(PLUGIN, READ, document).turns
            texts = [store.named(turn) for turn in turns]
            self.assertTrue(any("plugin (1)" in text for text in texts))
            store.set_name(PLUGIN, "")
            self.assertEqual([text.replace("plugin (1)", "1") for text in texts], [store.named(turn) for turn in turns])


class Trusted(unittest.TestCase):
    def opened(self, kind, trusted=()):
        """A host, who trusts a helper that it spawned. The helper could grant a plug-in the document."""
        store = kind([Cell(0)], trusted=[HOST])
        self.plugin = store.spawn(HOST, GRANT, Cell(0))
        self.helper = store.spawn(HOST, GRANT | TAKE, Cell(0), trusted=True)
        self.document = store.create(HOST, READ | GRANT, Cell(7))
        store.grant(HOST, self.helper, self.plugin, GRANT)
        store.grant(HOST, self.helper, self.document, READ)
        return store

    def test_the_trusted_are_silent(self):
        for kind in (Store, plain.Store):
            with self.subTest(kind=kind.__module__), self.opened(kind) as store:
                asked = self.plugin, READ, self.document
                entries = store.entries()
                self.assertEqual(store.trusted(), [HOST, self.helper])
                self.assertEqual(store.could(*asked), outlook.Never())
                self.assertEqual(store.could(*asked, silent=[HOST, self.helper]), outlook.Never())
                for silent in ([], [HOST], [self.helper]):
                    self.assertIsInstance(store.could(*asked, silent=silent), outlook.Could)
                with store.view() as view, store.view(silent=[]) as other:
                    self.assertEqual((view.could(*asked), other.could(*asked)), (outlook.Never(), outlook.Perhaps()))
                edge = [(self.plugin, self.helper, TAKE)]
                self.assertIsInstance(store.could(*asked, as_if=edge), outlook.Could)
                self.assertEqual(store.entries(), entries)

    def test_a_mark_ends_with_its_worker(self):
        for kind in (Store, plain.Store):
            with self.subTest(kind=kind.__module__), self.opened(kind) as store:
                store.leave(self.helper)
                self.assertEqual(store.trusted(), [HOST])
                self.assertEqual(store.could(self.plugin, READ, self.document), outlook.Never())
                for nobody in (self.document, self.helper, 99):
                    self.assertRaises(NoSuchWorker, store.trust, nobody)
                self.assertRaises(OverflowError, store.trust, -1)
                self.assertRaises(TypeError, store.trust, None)
                store.close()
                self.assertRaises(NotOpen, store.trusted)
                self.assertRaises(NotOpen, store.trust, HOST)

    def test_whoever_is_no_worker_is_not_trusted(self):
        for kind in (Store, plain.Store):
            self.assertRaises(NoSuchWorker, kind, [Cell(0)], [], Limits(), [0, 1])
            self.assertRaises(OverflowError, kind, [Cell(0)], [], Limits(), [-1])

    def test_going_on(self):
        for kind in (Store, plain.Store):
            with self.subTest(kind=kind.__module__), self.opened(kind) as store:
                opening = [Cell(0)], [], Limits()
                entries = list(store.journal())
                with kind.resume(*opening, entries, [HOST, self.helper]) as other:
                    self.assertEqual(other.trusted(), [HOST, self.helper])
                with kind.resume(*opening, entries) as other:
                    self.assertEqual(other.trusted(), [])
                self.assertRaises(NoSuchWorker, kind.resume, *opening, entries, [self.document])


if __name__ == "__main__":
    unittest.main()
