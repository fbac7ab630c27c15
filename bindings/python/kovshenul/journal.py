"""The parts of an entry of the journal. They are the worker that asked, the deed that it asked for, and the reply.

    for at, entry in enumerate(store.journal()):
        match entry:
            case journal.Entry(worker, journal.Write(target, value), journal.Denied(edge=edge)):
                print(f"{at}: {worker} may not write {value} to {target}: {edge}")

Entries are values: they compare, print and can be kept, also after the store is closed. Printed, an entry is its line in the text
that the program tgaudit reads.
"""
from __future__ import annotations

from dataclasses import dataclass
from typing import NamedTuple, Optional, Sequence, Tuple, Union

from ._refusals import CAUSES, RULES, BadValues, Numbers, told_by
from ._values import LAWS, RIGHTS, Log, Rights, Target, Value

# Deeds that are no commands of a batch.
NO_COMMAND = "a command is a deed of kovshenul.journal, but no Create and no Spawn"

# Texts that are no entry.
NO_ENTRY = "an entry is a journal.Entry of a deed and a reply of kovshenul.journal"


@dataclass(frozen=True)
class Take:
    """To take rights over the target that `via` has."""

    via: int
    target: int
    rights: Rights


@dataclass(frozen=True)
class Grant:
    """To grant rights over the target to `via`."""

    via: int
    target: int
    rights: Rights


@dataclass(frozen=True)
class Remove:
    """To give up rights over the target."""

    target: int
    rights: Rights


@dataclass(frozen=True)
class Read:
    """To read what the target stores."""

    target: int


@dataclass(frozen=True)
class Write:
    """To write to the target."""

    target: int
    value: int


@dataclass(frozen=True)
class Append:
    """To add to the log of the target."""

    target: int
    value: int


@dataclass(frozen=True)
class Inspect:
    """To list the target's edges."""

    target: int


@dataclass(frozen=True)
class List:
    """To list its own edges."""


@dataclass(frozen=True)
class Retire:
    """To retire."""


@dataclass(frozen=True)
class Create:
    """To make a vertex that stores the value at first, and to have rights over it."""

    rights: Rights
    value: Value


@dataclass(frozen=True)
class Spawn:
    """To make a worker that stores the value at first, and to have rights over it."""

    rights: Rights
    value: Value


@dataclass(frozen=True)
class Done:
    """A take, grant, remove, write, append or retire was done."""


@dataclass(frozen=True)
class Denied:
    """The rules denied it. It says what the exception of this name says."""

    rule: str
    cause: str
    edge: Optional[Tuple[int, int]] = None
    rights: Rights = Rights(0)


@dataclass(frozen=True)
class Name:
    """A vertex was made, of this name."""

    name: int


@dataclass(frozen=True)
class Values:
    """The numbers that a vertex stored when it was read."""

    numbers: Tuple[int, ...]


@dataclass(frozen=True)
class Edges:
    """The edges that a list or an inspect showed, by rising name."""

    edges: Tuple[Target, ...]


@dataclass(frozen=True)
class VerticesFull:
    """No vertex was made, because `max_vertices` were made before."""


@dataclass(frozen=True)
class WorkersFull:
    """No worker was made, because 64 were active."""


Deed = Union[Take, Grant, Remove, Read, Write, Append, Inspect, List, Retire, Create, Spawn]
Reply = Union[Done, Denied, Name, Values, Edges, VerticesFull, WorkersFull]


@dataclass(frozen=True)
class Entry:
    """An entry of the journal. Its `str` is the line of the entry in the text of a history (`kovshenul.opening_text`). An entry that
    no store makes has no line, and its `str` is its `repr`."""

    worker: int
    deed: Deed
    reply: Reply

    def __str__(self) -> str:
        # It packs entries, and so it imports this module.
        from ._texts import entry_text

        try:
            return entry_text(self)
        except (BadValues, OverflowError, TypeError, ValueError):
            return repr(self)


# By their numbers.
DEEDS = {0: Take, 1: Grant, 2: Remove, 3: Read, 4: Write, 5: Append, 6: Inspect, 8: List, 9: Retire, 16: Create, 17: Spawn}
REPLIES = {0: Done, 1: Denied, 2: Name, 3: Values, 4: Edges, 16: VerticesFull, 17: WorkersFull}


class Record(NamedTuple):
    """An entry in numbers, without the numbers of its value and its edges. A number that a deed or a reply doesn't have is 0."""

    worker: int
    deed: int
    reply: int
    law: int
    most: int
    via: int
    target: int
    rights: int
    value: int
    name: int
    denial: Numbers


def entry_of(record: Record, numbers: Sequence[int], edges: Sequence[Target]) -> Entry:
    """The entry with this record: with the numbers that were stored or read, and the edges that were shown."""
    return Entry(record.worker, deed_of(record, numbers), _reply_of(record, numbers, edges))


def deed_of(record: Record, numbers: Sequence[int]) -> Deed:
    """The deed of the record, with the numbers that a vertex stores at first."""
    kind, rights = DEEDS[record.deed], RIGHTS[record.rights]
    if kind in (Take, Grant):
        return kind(record.via, record.target, rights)
    if kind is Remove:
        return Remove(record.target, rights)
    if kind in (Write, Append):
        return kind(record.target, record.value)
    if kind in (Read, Inspect):
        return kind(record.target)
    if kind in (List, Retire):
        return kind()
    law = LAWS[record.law]
    return kind(rights, law(record.most if law is Log else numbers[0]))


def _reply_of(record: Record, numbers: Sequence[int], edges: Sequence[Target]) -> Reply:
    kind = REPLIES[record.reply]
    if kind is Denied:
        return Denied(*told_by(record.denial))
    if kind is Name:
        return Name(record.name)
    if kind is Values:
        return Values(tuple(numbers))
    if kind is Edges:
        return Edges(tuple(edges))
    return kind()


# ---- the other way

NO_DENIAL: Numbers = (0, 0, 0, 0, 0)


def command_of(deed: Deed) -> Tuple[int, int, int, int, int]:
    """The number of a command, and then its via, target, rights and value, or 0 for each that it doesn't have."""
    if type(deed) not in _DEED_NUMBERS or isinstance(deed, (Create, Spawn)):
        raise TypeError(NO_COMMAND)
    via, target, rights, value = (getattr(deed, name, 0) for name in ("via", "target", "rights", "value"))
    return _DEED_NUMBERS[type(deed)], via, target, rights, value


def record_of(entry: Entry) -> Tuple[Record, Sequence[int], Sequence[Target]]:
    """The record of an entry, with the numbers that were stored or read, and the edges that were shown."""
    if not isinstance(entry, Entry) or type(entry.deed) not in _DEED_NUMBERS or type(entry.reply) not in _REPLY_NUMBERS:
        raise TypeError(NO_ENTRY)
    deed, reply = entry.deed, entry.reply
    law, most, numbers = 0, 0, getattr(reply, "numbers", ())
    if isinstance(deed, (Create, Spawn)):
        law, most, numbers = _value_of(deed.value)
    denial = _denial_of(reply) if isinstance(reply, Denied) else NO_DENIAL
    value = deed.value if isinstance(deed, (Write, Append)) else 0
    words = (getattr(deed, name, 0) for name in ("via", "target", "rights"))
    kinds = _DEED_NUMBERS[type(deed)], _REPLY_NUMBERS[type(reply)]
    record = Record(entry.worker, *kinds, law, most, *words, value, getattr(reply, "name", 0), denial)
    return record, numbers, getattr(reply, "edges", ())


_DEED_NUMBERS = {kind: number for number, kind in DEEDS.items()}
_REPLY_NUMBERS = {kind: number for number, kind in REPLIES.items()}


def _value_of(value: Value) -> Tuple[int, int, Tuple[int, ...]]:
    """Its law, the most numbers of a log, and the first numbers."""
    if type(value) not in LAWS:
        raise TypeError(NO_ENTRY)
    law = LAWS.index(type(value))
    return (law, value.most, ()) if isinstance(value, Log) else (law, 0, (value.number,))


def _denial_of(denial: Denied) -> Numbers:
    if denial.rule not in RULES or denial.cause not in CAUSES:
        raise ValueError(f"a rule is one of {', '.join(RULES)}, and a cause one of {', '.join(CAUSES)}")
    source, target = denial.edge or (0, 0)
    return RULES.index(denial.rule), CAUSES.index(denial.cause), source, target, denial.rights
