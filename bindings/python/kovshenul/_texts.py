"""The text of a history, which the program tgaudit reads. It has the lines before the entries, a line for each entry, and the last
line.

The library writes all three. These calls look at no store, so both back ends make them by ctypes, and without the lock.
"""
from __future__ import annotations

from ctypes import byref, c_size_t, c_uint32, c_uint64, create_string_buffer
from typing import Iterable, Tuple

from ._library import BITS, library, number_in
from ._packed import EDGE_SIZE, NUMBER_SIZE, TARGET_SIZE, VALUE_SIZE, entry_in, opening_in
from ._refusals import refusal
from ._values import Limits, Value
from .journal import Entry

# Room for most lines. A line that is longer is asked for again.
ROOM = 256

for _name in ("opening_text", "entry_text", "end_text"):
    getattr(library, f"tg_{_name}").restype = c_uint32


def opening_text(
    workers: Iterable[Value],
    edges: Iterable[Tuple[int, int, int]] = (),
    limits: Tuple[int, int, int] = Limits(),
) -> str:
    """Returns the lines that come before the entries in the text of a history, of a store that is opened by the same words. There is
    no line feed after the last of them. It raises what `Store` raises for these words.

    Print these lines, then each entry, and at last `end_text`. The program tgaudit reads what was printed, and answers whether the
    entries are a legal history of the opening.
    """
    values, pairs, bounds = opening_in(workers, edges, limits)
    words = values, c_size_t(len(values) // VALUE_SIZE), pairs, c_size_t(len(pairs) // EDGE_SIZE), bounds
    return _text_by("opening_text", *words)


def end_text(count: int) -> str:
    """Returns the last line of a history that has so many entries, without its line feed."""
    return _text_by("end_text", c_uint64(number_in(BITS, count)))


def entry_text(entry: Entry) -> str:
    """The line of an entry, without its line feed. BadValues if no store makes it."""
    record, numbers, pairs = entry_in(entry)
    words = record, numbers, c_size_t(len(numbers) // NUMBER_SIZE), pairs, c_size_t(len(pairs) // TARGET_SIZE)
    return _text_by("entry_text", *words)


def _text_by(name: str, *words: object) -> str:
    """The text that a call writes, without its last line feed."""
    call, length, room = getattr(library, f"tg_{name}"), c_uint64(), ROOM
    while True:
        text = create_string_buffer(room)
        status = call(*words, text, c_size_t(room), byref(length))
        if status:
            raise refusal(status)
        if length.value < room:
            return text.value.decode("ascii").rstrip("\n")
        room = length.value + 1
