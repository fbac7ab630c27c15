"""Reads the line of an entry, as `str` of the entry writes it. One entry has one line. A number with a leading zero, or rights in
another order, make no line."""
from __future__ import annotations

from typing import Callable, Dict, List, Tuple

from . import journal
from ._library import BITS
from ._refusals import CAUSES, MISSING, RULES, BadValues
from ._values import LETTERS, RIGHTS, Rights, Target, Value
from .journal import Deed, Entry, Reply

LAW_OF = {letter: law for law, letter in LETTERS.items()}
RIGHTS_OF = {rights.letters: rights for rights in RIGHTS[1:]}

# A cause that names no edge, by its word in a line.
CAUSE_OF = {"distinct": "not distinct", "law": "not log"}

# A command that was refused for a limit, by the last word of its line.
FULL_OF = {"vertices": journal.VerticesFull, "workers": journal.WorkersFull}


def _number(word: str) -> int:
    """A number, in its one spelling."""
    number = int(word)
    if str(number) != word or number < 0 or number >> BITS:
        raise ValueError
    return number


def _rights(word: str) -> Rights:
    """A set of rights, whose letters are in the order of the rights."""
    return RIGHTS_OF[word]


def _value(word: str) -> Value:
    """The value that a vertex stores at first, as `s40`."""
    return LAW_OF[word[:1]](_number(word[1:]))


Reader = Callable[[str], object]

# The type of each deed. Its words come in their order, by the names of their columns, each with the function that reads it.
DEEDS: Dict[str, Tuple[Callable[..., Deed], Dict[str, Reader]]] = {
    "take": (journal.Take, {"via": _number, "target": _number, "rights": _rights}),
    "grant": (journal.Grant, {"via": _number, "target": _number, "rights": _rights}),
    "remove": (journal.Remove, {"target": _number, "rights": _rights}),
    "read": (journal.Read, {"target": _number}),
    "write": (journal.Write, {"target": _number, "value": _number}),
    "append": (journal.Append, {"target": _number, "value": _number}),
    "inspect": (journal.Inspect, {"target": _number}),
    "list": (journal.List, {}),
    "retire": (journal.Retire, {}),
    "create": (journal.Create, {"rights": _rights, "value": _value}),
    "spawn": (journal.Spawn, {"rights": _rights, "value": _value}),
}


def words_of(line: str) -> Dict[str, str]:
    """The words of a line under the names of their columns. These are `worker`, `deed` and `reply`, and of `via`, `target`,
    `rights` and `value` the columns that the deed has. It raises a ValueError or a LookupError if the line has other words."""
    asked, _, reply = line.partition(" = ")
    worker, deed, *rest = asked.split(" ")
    words = zip(DEEDS[deed][1], rest, strict=True)
    return {"worker": worker, "deed": deed, **dict(words), "reply": reply}


def entry_of_line(line: str) -> Entry:
    """The entry whose line this is. BadValues if no entry has the line."""
    try:
        words = words_of(line)
        kind, readers = DEEDS[words["deed"]]
        deed = kind(*(read(words[name]) for name, read in readers.items()))
        return Entry(_number(words["worker"]), deed, _reply(words["deed"], words["reply"].split(" ")))
    except (ArithmeticError, LookupError, TypeError, ValueError):
        raise BadValues(text=f"no entry has the line {line!r}") from None


def _reply(deed: str, words: List[str]) -> Reply:
    """The reply to a deed."""
    kind, *rest = words
    if kind == "denied":
        return _denial(*rest)
    if kind == "refused":
        (limit,) = rest
        return FULL_OF[limit]()
    if kind != "ok":
        raise ValueError
    if deed == "read":
        return journal.Values(tuple(map(_number, rest)))
    if deed in ("list", "inspect"):
        return journal.Edges(tuple(map(_edge, rest)))
    if deed in ("create", "spawn"):
        (name,) = rest
        return journal.Name(_number(name))
    () = rest
    return journal.Done()


def _denial(rule: str, cause: str, *rights: str) -> journal.Denied:
    """Why a command was denied: `append law`, `take distinct`, or `read 1->2 r`."""
    if rule not in RULES:
        raise ValueError
    if not rights:
        return journal.Denied(rule, CAUSE_OF[cause])
    (letters,), (source, target) = rights, cause.split("->")
    return journal.Denied(rule, CAUSES[MISSING], (_number(source), _number(target)), _rights(letters))


def _edge(word: str) -> Target:
    """An edge that was shown, as `2:rw`."""
    to, letters = word.split(":")
    return Target(_number(to), _rights(letters))
