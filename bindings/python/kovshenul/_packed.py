"""Arguments of a call as bytes. They are numbers that lie one after the other, as the library reads them. Each must be in its
range."""
from __future__ import annotations

from array import array
from struct import Struct
from typing import Iterable, List, Tuple

from ._library import BITS, number_in
from ._values import Value
from .journal import Deed, Entry, command_of, record_of

# How many bytes a value, an edge, a number, a target and a command take.
VALUE_SIZE, EDGE_SIZE, NUMBER_SIZE, TARGET_SIZE, COMMAND_SIZE, QUESTION_SIZE = 16, 24, 8, 16, 40, 24

NO_VALUE = "a value is a Cell, a Sum, a Max or a Log"


def bytes_of(numbers: Iterable[int]) -> bytes:
    """Numbers of 64 bits."""
    return array("Q", [number_in(BITS, it) for it in numbers]).tobytes()


def edges_in(edges: Iterable[Tuple[int, int, int]]) -> bytes:
    """Edges, each of which is three numbers."""
    return b"".join([bytes_of((source, target, rights)) for source, target, rights in edges])


def questions_in(questions: Iterable[Tuple[int, int, int]]) -> bytes:
    """Questions, each of which is three numbers."""
    return b"".join([bytes_of((x, right, y)) for x, right, y in questions])


def value_in(value: Value) -> bytes:
    """The value that a vertex stores at first."""
    try:
        return value._packed
    except AttributeError:
        raise TypeError(NO_VALUE) from None


def opening_in(
    workers: Iterable[Value], edges: Iterable[Tuple[int, int, int]], limits: Tuple[int, int, int]
) -> Tuple[bytes, bytes, bytes]:
    """The arguments of an opening, which are values, edges and limits."""
    return b"".join([value_in(value) for value in workers]), edges_in(edges), limits_in(limits)


def limits_in(limits: Tuple[int, int, int]) -> bytes:
    """The limits of a store."""
    max_vertices, max_blocks, max_space_blocks = limits
    return bytes_of((max_vertices, max_blocks, max_space_blocks))


def scene_in(silent: Iterable[int], as_if: Iterable[Tuple[int, int, int]]) -> Tuple[bytes, bytes]:
    """Who is silent, and which edges are supposed."""
    return bytes_of(silent), edges_in(as_if)


# A record: an entry's numbers, those of its denial, and how many numbers and edges come beside it.
RECORD = Struct("=QIIIIQQQQQIIQQQQQ")


def entry_in(entry: Entry) -> Tuple[bytes, bytes, bytes]:
    """An entry, as the library writes one: its record, the numbers that were stored or read, and the edges that were shown."""
    record, numbers, edges = record_of(entry)
    *plain, (rule, cause, source, target, rights) = record
    words = [*map(_word, plain), rule, cause, *map(_word, (source, target, rights)), len(numbers), len(edges)]
    pairs: List[int] = [number for edge in edges for number in edge]
    return RECORD.pack(*words), bytes_of(numbers), bytes_of(pairs)


# A command: its number, the bytes that a struct of C leaves out, and what the command names.
COMMAND = Struct("=IxxxxQQQQ")


def commands_in(commands: Iterable[Deed]) -> bytes:
    """Commands of a batch."""
    return b"".join([COMMAND.pack(kind, *map(_word, words)) for kind, *words in map(command_of, commands)])


def _word(number: int) -> int:
    return number_in(BITS, number)
