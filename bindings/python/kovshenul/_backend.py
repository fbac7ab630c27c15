"""The back end, which calls the library. There are two, and one is chosen when the package is imported.

The extension module (`_extension`, in bindings/python/extension) is chosen if it was built for this Python. Else ctypes
is (`_by_ctypes`), and also if the variable KOVSHENUL_CTYPES is set, to anything but 0. `BACKEND` names the choice.

A back end is a module with three classes, Store, Auditor and View. An object of one is a place of the library, closed at first. It has
a method for each call of the class of that name in the package, with the same name and the same numbers, and `is_open`. A method looks
at its numbers, keeps the calls apart, and raises what wasn't served. A value that is no number is packed before (`_packed`). An answer
is given in numbers, lists of numbers and tuples of them:

- a command as its call does, with the edges of a row as Targets;
- an entry as a Record, the numbers that were stored or read, and the edges that were shown; one to go on from is packed so;
- `could` as the number of the answer, how many names are lacking, and for each turn a Record and the numbers of its value;
- a census as its ten numbers, a label as its bits, a law as its number and the most numbers of a log, or None, and the `could` of a
  view as its number.

All else is in the package once. It is the types, the exceptions and their texts, the pages of help, and the lock.
"""
from __future__ import annotations

import os
import warnings
from importlib import import_module
from types import ModuleType
from typing import Protocol

from ._library import ABI, address_of, number_in
from ._lock import LOCK
from ._refusals import denied, refusal
from ._values import RIGHTS, Target
from .journal import Record


class Place(Protocol):
    """The parts that the objects of the three classes have in common."""

    def close(self) -> None:
        """Gives all memory back. A closed object may be closed again."""

    def is_open(self) -> bool:
        """Whether it is open."""


def _extension() -> ModuleType:
    """The extension module, which is given what it needs. An ImportError where it wasn't built, or is one of another interface."""
    module = import_module("._extension", __package__)
    if module.ABI != ABI:
        raise ImportError(f"{module.__file__} has interface {module.ABI}, and this package is for {ABI}")
    addresses = tuple(address_of(name) for name in module.CALLS)
    module.ready(addresses, number_in, refusal, denied, LOCK.acquire, LOCK.release, RIGHTS, Target, Record)
    return module


def _chosen() -> ModuleType:
    """The back end for this process. An extension module that is there and can't be used is warned of."""
    if os.environ.get("KOVSHENUL_CTYPES", "0") in ("", "0"):
        try:
            return _extension()
        except ModuleNotFoundError:
            pass
        except ImportError as error:
            warnings.warn(f"Kovshenul calls its library by ctypes, which is slower: {error}", RuntimeWarning, stacklevel=2)
    from . import _by_ctypes

    return _by_ctypes


back_end = _chosen()

BACKEND = "ctypes" if back_end.__name__.endswith("_by_ctypes") else "extension"
