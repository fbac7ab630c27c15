"""The exceptions of a call that wasn't served."""
from __future__ import annotations

from operator import index
from typing import Mapping, Optional, Sequence, Tuple

from ._library import text_of
from ._values import RIGHTS, Rights

RULES = ("take", "grant", "remove", "read", "write", "append", "inspect")
CAUSES = ("not distinct", "missing", "not log")

MISSING = CAUSES.index("missing")

# The texts of denials that are of no rights.
SENTENCES = {"not distinct": "two vertices that must differ are one", "not log": "the target stores no log"}


# The names of a store to which the host gave none.
NO_NAMES: Mapping[int, str] = {}

# The numbers of a denial from the library, which are rule, cause, edge from and to, and rights.
Numbers = Tuple[int, int, int, int, int]


def told_by(denial: Numbers) -> Tuple[str, str, Optional[Tuple[int, int]], Rights]:
    """The meaning of the numbers of a denial. It is the rule, the cause, and if rights are missing the edge and these rights."""
    rule, cause, source, target, rights = denial
    edge = (source, target) if cause == MISSING else None
    return RULES[rule], CAUSES[cause], edge, RIGHTS[rights]


def shown(vertex: int, names: Mapping[int, str]) -> str:
    """The number of a vertex, in brackets after its name if it has one."""
    name = names.get(vertex)
    return f"{name} ({vertex})" if name else str(vertex)


class Error(Exception):
    """An exception of a store, which is Denied or a Refused."""


class Denied(Error, PermissionError):
    """The rules don't allow a command. Only the journal changed, which has the entry.

    `rule` and `cause` are words of RULES and CAUSES. If the cause is `missing`, `rights` are the missing rights, on the edge from
    `edge[0]` to `edge[1]`. Otherwise there is no edge. The cause is `not log` if the target of an append stores no log.
    `vertices` are the vertices that the command named. They are the worker and the target, and between them the vertex `via` of a
    take or a grant. `names` has the names of these vertices that the host gave by `set_name`, for the text of the denial.
    """

    def __init__(
        self,
        rule: str,
        cause: str,
        edge: Optional[Tuple[int, int]] = None,
        rights: Rights = Rights(0),
        vertices: Tuple[int, ...] = (),
        names: Mapping[int, str] = NO_NAMES,
    ) -> None:
        # OSError's own __init__, which isn't called, would make a number and a file's name of these.
        self.args = rule, cause, edge, rights, vertices
        self.rule, self.cause, self.edge, self.rights, self.vertices = rule, cause, edge, rights, vertices
        self.names = names

    def __str__(self) -> str:
        if self.edge is not None:
            source, target = (shown(vertex, self.names) for vertex in self.edge)
            return f"{self.rule}: {self.rights.letters} is missing on {source}->{target}"
        named = f" ({', '.join(shown(vertex, self.names) for vertex in self.vertices)})" if self.vertices else ""
        return f"{self.rule}: {SENTENCES.get(self.cause, self.cause)}{named}"

    def __repr__(self) -> str:
        words = [*map(repr, self.args), *([f"names={dict(self.names)!r}"] if self.names else [])]
        return f"{type(self).__name__}({', '.join(words)})"


def denied(denial: Numbers, vertices: Tuple[int, ...]) -> Denied:
    """The denial of a command that named these vertices."""
    return Denied(*told_by(denial), vertices)


class Refused(Error):
    """A call was refused. The store is as it was, except that VerticesFull and WorkersFull have an entry in the journal.

    `status` is the library's number for it, and `text` says what was wrong.
    """

    status: int = 0
    at: Optional[int] = None
    """The place of the entry from which a store didn't go on (`Store.resume`, `Store.go_on`). Otherwise
    None."""
    replies: Optional[Sequence[object]] = None
    """The replies to the commands of a batch that are done, where a later one was refused (`Store.apply_all`). Otherwise
    None."""

    line: Optional[int] = None
    """The first line at fault in a text, counted from 1 (`Snapshot`). Otherwise None."""

    def __init__(self, status: Optional[int] = None, text: str = "") -> None:
        if status is not None:
            self.status = status
        self.text = text or text_of(self.status)
        super().__init__(self.status, text)

    def __str__(self) -> str:
        return self.text if self.at is None else f"entry {self.at}: {self.text}"


class NotOpen(Refused, ValueError):
    """The store, the auditor or the view is closed."""

    status = 16


class AlreadyOpen(Refused, ValueError):
    """The store, the auditor or the view is open already."""

    status = 17


class OutOfMemory(Refused, MemoryError):
    """Memory ran out. Make the same call again."""

    status = 32


class HeapFull(Refused):
    """The limits leave no cell or block. Collect, and try again. An opening needs a block for each worker."""

    status = 33


class VerticesFull(Refused):
    """`max_vertices` were made."""

    status = 34


class WorkersFull(Refused):
    """64 workers are active."""

    status = 35


class NoSuchWorker(Refused, LookupError):
    """No active worker has the name. It was never spawned, it is an object, or it retired."""

    status = 48


class InUse(Refused, ValueError):
    """The account of a parking holds some right already, or the user holds a right over it. Make a new object, over which the host alone
    has rights. Or the user of an unparking holds some right already, or the account holds a right over it. Spawn another user."""

    status = 49


class BadRights(Refused, ValueError):
    """No right, or a bit that is no right. Or several rights, if one is asked about."""

    status = 64


class BadLaw(Refused, ValueError):
    """A log of 0 or of more than 64 numbers."""

    status = 65


class BadKind(Refused, ValueError):
    """No such kind of collection."""

    status = 66


class BadWorkers(Refused, ValueError):
    """Not from 1 to 64 workers. A snapshot from which a store is to go on has none."""

    status = 80


class BadLimits(Refused, ValueError):
    """A limit is out of its range, which `Limits` has. `max_vertices` isn't that of a snapshot. A batch has more than 1,024
    commands."""

    status = 81


class BadEdge(Refused, ValueError):
    """An edge from a vertex to itself. An edge of an opening with an end that is no worker. A supposed edge with an end that no worker
    reaches."""

    status = 82


class BadValues(Refused, ValueError):
    """An entry to go on from that no store makes, as an entry with an empty set of rights. Or a text that is not the text of a snapshot.
    For an opening it is kept, and no value raises it."""

    status = 83


class BadEntry(Refused):
    """An entry isn't legal after the opening of the auditor, or of the store that goes on from it. It was altered, or the other store was
    opened by other workers, edges or limits. An audit of the store's own journal never answers it."""

    status = 96


class BadPlace(Refused, IndexError):
    """The journal holds no entry at the place. It wasn't made yet, or it was given up. An entry to go on from isn't the next."""

    status = 97


class NotWhole(Refused):
    """The journal doesn't have all entries since the opening, so they can't be audited. Some were given up, or the store goes on from a
    snapshot."""

    status = 98


class NotAudited(Refused):
    """Entries before the place weren't audited."""

    status = 99


BY_STATUS = {kind.status: kind for kind in Refused.__subclasses__()}


# A right that may be asked about, as a number.
SINGLE = [int(right) for right in Rights]


def refusal(status: int, worker: Optional[int] = None, right: Optional[int] = None) -> Refused:
    """The refusal with this status, of a call of this worker, or of a question about this right."""
    kind = BY_STATUS.get(status, Refused)
    if kind is NoSuchWorker and worker is not None:
        return kind(status, f"no such worker: no active subject has the name {index(worker)}")
    if kind is BadRights and right is not None and index(right) not in SINGLE:
        letters = RIGHTS[index(right) % len(RIGHTS)].letters
        return kind(status, f"one right is asked about, and not {index(right)} ('{letters}')")
    return kind(status)
