"""Marks of the host on its vertices, which are names for people, and whom it trusts. They are kept beside the store, and change no
reply."""
from __future__ import annotations

from typing import Dict, Iterable, List, Mapping, Optional, Set, Union

from . import journal
from ._library import BITS, number_in, short_of
from ._refusals import Denied, NoSuchWorker, refusal, shown
from ._values import LETTERS, Log, Rights, Value
from .journal import Deed, Entry, Reply
from .outlook import Turn

Names = Mapping[int, str]

# The fields of a deed and of a reply that are vertices.
VERTICES = ("via", "target", "name")

# A value that has a text with names.
Named = Union[int, Denied, journal.Denied, Entry, Turn]


class Marked:
    """A store with the marks of its host."""

    __slots__ = ()

    _names: Dict[int, str]
    _trusted: Set[int]

    def subjects(self) -> List[int]:
        """Returns the names of the active workers, rising."""
        raise NotImplementedError

    def close(self) -> None:
        """Closes the store."""
        raise NotImplementedError

    def set_name(self, vertex: int, name: str) -> None:
        """Gives a vertex a name for people. Texts show the name before the number, as in `plugin (1)`. An empty name takes the name away.

        No reply, no entry and no refusal depends on it. Two vertices may have the same name. Any number from 0 to 2^64 - 1 may get a
        name, also before a vertex has this number. A name stays after its vertex was collected, because the journal still has the
        number. A character that can't be printed is shown as `?`. It raises OverflowError for another number, and TypeError if the
        name is no str. The names are as before then.
        """
        vertex = number_in(BITS, vertex)
        if not isinstance(name, str):
            raise TypeError(f"a name is a str, and not {short_of(name)}")
        if name:
            self._names[vertex] = "".join(letter if letter.isprintable() else "?" for letter in name)
        else:
            self._names.pop(vertex, None)

    def named(self, it: Named) -> str:
        """Returns a text with the names that the host gave. `it` is the number of a vertex, a denial, a turn or an entry.

        Without names, the text of an entry is its line for `tgaudit`, and the text of a turn is its line for `tgstore`.
        """
        return text_of(it, self._names)

    def trust(self, worker: int) -> None:
        """Marks a worker as trusted. From then on `could` and `view` take it as silent, unless they are asked otherwise.

        It raises NoSuchWorker if the name is no active worker. A mark ends with its worker. No reply to a command depends on it.
        """
        worker = number_in(BITS, worker)
        if worker not in self.subjects():
            raise refusal(NoSuchWorker.status, worker)
        self._trusted.add(worker)

    def trusted(self) -> List[int]:
        """Returns the names of the active workers that are trusted, rising. The journal gets no entry."""
        return [worker for worker in self.subjects() if worker in self._trusted]

    def _trust_each(self, trusted: Iterable[int]) -> None:
        """Marks these workers, or closes the store."""
        try:
            for worker in trusted:
                self.trust(worker)
        except BaseException:
            self.close()
            raise

    def _with_names(self, denial: Denied) -> Denied:
        """The same denial, which shows the names of its vertices."""
        mentioned = {*denial.vertices, *(denial.edge or ())} & self._names.keys()
        denial.names = {vertex: self._names[vertex] for vertex in mentioned}
        return denial

    def _silent(self, silent: Optional[Iterable[int]]) -> Iterable[int]:
        """Who takes no turns: these workers, or the trusted ones if it is None."""
        return silent if silent is not None else self.trusted() if self._trusted else ()


def text_of(it: Named, names: Names) -> str:
    """The text of an answer of the store, with names beside the numbers."""
    if isinstance(it, Denied):
        return str(Denied(*it.args[:-1], vertices=it.vertices, names=names))
    if isinstance(it, journal.Denied):
        return str(Denied(it.rule, it.cause, it.edge, it.rights, names=names))
    if isinstance(it, Entry):
        return f"{_asked(it.worker, it.deed, names)} = {_answered(it.reply, names)}"
    if isinstance(it, Turn):
        return _asked(it.worker, it.deed, names)
    if isinstance(it, int):
        return shown(number_in(BITS, it), names)
    raise TypeError(f"a vertex, a denial, a turn or an entry has a text with names, and not {short_of(it)}")


def _asked(worker: int, deed: Deed, names: Names) -> str:
    """The worker that asked, and its deed."""
    return " ".join([shown(worker, names), type(deed).__name__.lower(), *_words(vars(deed), names)])


def _words(fields: Mapping[str, object], names: Names) -> Iterable[str]:
    """The words of a deed: vertices, rights, numbers and a value."""
    for field, word in fields.items():
        if field in VERTICES:
            yield shown(word, names)
        elif isinstance(word, Rights):
            yield word.letters
        elif isinstance(word, Value):
            yield f"{LETTERS[type(word)]}{word.most if isinstance(word, Log) else word.number}"
        else:
            yield str(word)


def _answered(reply: Reply, names: Names) -> str:
    """The reply."""
    if isinstance(reply, journal.Denied):
        return f"denied {_cause(reply, names)}"
    if isinstance(reply, (journal.VerticesFull, journal.WorkersFull)):
        return "refused vertices" if isinstance(reply, journal.VerticesFull) else "refused workers"
    if isinstance(reply, journal.Edges):
        return " ".join(["ok", *(f"{shown(to, names)}:{rights.letters}" for to, rights in reply.edges)])
    if isinstance(reply, journal.Values):
        return " ".join(["ok", *map(str, reply.numbers)])
    return " ".join(["ok", *_words(vars(reply), names)])


def _cause(reply: journal.Denied, names: Names) -> str:
    """The rule, and the check that failed."""
    if reply.edge is None:
        return f"{reply.rule} {'law' if reply.cause == 'not log' else 'distinct'}"
    source, target = (shown(vertex, names) for vertex in reply.edge)
    return f"{reply.rule} {source}->{target} {reply.rights.letters}"
