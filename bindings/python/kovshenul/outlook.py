"""The answers to the question whether x could ever come to hold a right over y (`Store.could`, `View.could`).

    match store.could(plugin, WRITE, document, silent=[host]):
        case outlook.Never():
            print("it never holds w over the document")
        case outlook.Could(turns):
            print(f"it could hold w, after {turns}")

An answer is about rights only. A plugin that never holds w may still append by `a`, or have another subject write for it.

Answers are values: they compare, print and can be kept, also after the store is closed.
"""
from __future__ import annotations

from dataclasses import dataclass
from typing import Sequence, Tuple, Type, Union

from .journal import Deed, Record, deed_of


@dataclass(frozen=True)
class Turn:
    """A command of a worker that acts. A create or a spawn makes the next name."""

    worker: int
    deed: Deed


@dataclass(frozen=True)
class Never:
    """x never holds it, whatever those who act do. This stays so until a silent worker acts. A host that is silent acts by each
    grant."""


@dataclass(frozen=True)
class Now:
    """x holds it."""


@dataclass(frozen=True)
class Could:
    """x holds it after these turns, each of which the rules allow when it comes. There may be a shorter list."""

    turns: Tuple[Turn, ...]


@dataclass(frozen=True)
class WantsNames:
    """x could hold it if so many more vertices may be made. This comes only if y was made and fewer than 64 names are left
    besides x."""

    turns: Tuple[Turn, ...]
    names: int


@dataclass(frozen=True)
class Unreached:
    """x was made, and no worker reaches it. Its rights stay for good."""


@dataclass(frozen=True)
class Open:
    """It is not decided whether x could hold it. A policy has to treat this as `Could`.

    It comes for a name that isn't made yet, if more than 65,536 other names come before it. The turns would have to make all of
    these names. Ask about the next name in its place. For other names it isn't known to come. If it does, x could hold the
    right, and the turns aren't known."""


@dataclass(frozen=True)
class Perhaps:
    """The view says nothing of the right. Ask `Store.could`."""


Outlook = Union[Never, Now, Could, WantsNames, Unreached, Open]

# The type of an answer, which says as much as the answer without its turns.
Kind = Type[Outlook]

# The answers of a view.
Chance = Union[Never, Unreached, Perhaps]

# By their numbers.
OUTLOOKS = {0: Never, 1: Now, 2: Could, 3: WantsNames, 4: Unreached, 5: Open, 6: Perhaps}


@dataclass(frozen=True)
class Breach:
    """The first question of a list that isn't answered `Never` (`Store.could_any`): its place in the list, and its answer."""

    at: int
    answer: Outlook


def outlook_of(number: int, names: int, turns: Sequence[Tuple[Record, Sequence[int]]]) -> Outlook:
    """The answer with this number: with the names that are lacking, and a record and a value's numbers of each turn."""
    kind = OUTLOOKS[number]
    if kind not in (Could, WantsNames):
        return kind()
    told = tuple(Turn(record.worker, deed_of(record, numbers)) for record, numbers in turns)
    return Could(told) if kind is Could else WantsNames(told, names)
