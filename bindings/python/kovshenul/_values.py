"""The numbers that a call takes and returns, under names."""
from __future__ import annotations

from dataclasses import astuple, dataclass
from enum import IntEnum, IntFlag
from struct import Struct
from typing import NamedTuple, Optional, Tuple, Type

from ._library import number_in

MOST_NUMBERS = 64


class Rights(IntFlag):
    """A set of rights over a vertex. APPEND adds to a log, INSPECT lists the vertex's edges. FREE_U and FREE_V are for the host
    to use. They are taken, granted and removed as all others, and no command asks for them."""

    READ = 1
    WRITE = 2
    TAKE = 4
    GRANT = 8
    APPEND = 16
    INSPECT = 32
    FREE_U = 64
    FREE_V = 128

    @property
    def letters(self) -> str:
        """The letters of the rights, as `rw`, in the order `rwtgaluv`."""
        return "".join(letter for letter, right in BY_LETTER.items() if self & right)

    @classmethod
    def of(cls, letters: str) -> Rights:
        """The rights of these letters, in any order."""
        rights = cls(0)
        for letter in letters:
            if letter not in BY_LETTER:
                raise ValueError(f"{letter!r} is no letter of a right")
            rights |= BY_LETTER[letter]
        return rights


BY_LETTER = dict(zip("rwtgaluv", Rights))

# By their bits, since it takes long to make one anew.
RIGHTS = [Rights(bits) for bits in range(1 << len(BY_LETTER))]


class Kind(IntEnum):
    """A kind of collection. FULL keeps exactly what can be reached, and NURSERY looks at the young cells only."""

    FULL = 0
    NURSERY = 1


# A value: the number of its law, the most numbers of a log, and the first number.
VALUE = Struct("=IIQ")


class Value:
    """The value that a vertex stores at first, and the law by which a write changes it. It is a Cell, Sum, Max or Log."""

    _packed: bytes

    def _pack(self, law: int, most: int, first: int) -> None:
        """Keeps it as the library reads it."""
        object.__setattr__(self, "_packed", VALUE.pack(law, most, first))

    def __reduce__(self) -> Tuple[type, Tuple[int, ...]]:
        # A copy is made anew, and looks at its number again.
        return type(self), astuple(self)


@dataclass(frozen=True)
class Cell(Value):
    """Keeps the last number that was written."""

    number: int

    def __post_init__(self) -> None:
        self._pack(0, 0, number_in(64, self.number))


@dataclass(frozen=True)
class Sum(Value):
    """Adds, modulo 2^64."""

    number: int

    def __post_init__(self) -> None:
        self._pack(1, 0, number_in(64, self.number))


@dataclass(frozen=True)
class Max(Value):
    """Keeps the greatest number."""

    number: int

    def __post_init__(self) -> None:
        self._pack(2, 0, number_in(64, self.number))


@dataclass(frozen=True)
class Log(Value):
    """Keeps the last few numbers, from 1 to 64 of them. It begins empty."""

    most: int

    def __post_init__(self) -> None:
        self._pack(3, number_in(32, self.most), 0)


# The laws by their numbers. A log begins with no number.
LAWS = (Cell, Sum, Max, Log)


class Law(NamedTuple):
    """By which law a write changes what a vertex stores: `kind` is Cell, Sum, Max or Log. A log keeps the last `most` numbers. Of the
    other laws `most` is 0."""

    kind: Type[Value]
    most: int = 0

    def __repr__(self) -> str:
        return f"Law({self.kind.__name__}, {self.most})" if self.most else f"Law({self.kind.__name__})"


def law_told(numbers: Optional[Tuple[int, int]]) -> Optional[Law]:
    """The law with this number, of which a log keeps so many numbers, or none."""
    return None if numbers is None else Law(LAWS[numbers[0]], numbers[1])


# The letters of the laws, as in a script.
LETTERS = {Cell: "c", Sum: "s", Max: "m", Log: "l"}


class Edge(NamedTuple):
    """The rights of `source` over `target`: of two workers at the opening, of a snapshot's vertices, or over the vertex that is asked about."""

    source: int
    target: int
    rights: int


class Limits(NamedTuple):
    """How many vertices may ever be made, at most 2^48. How many blocks of 64 cells the heap and one space of it may have, at most 2^20
    each. `max_blocks` bounds how many vertices live at once. 65,536 blocks held 3,595,117 vertices of one row."""

    max_vertices: int = 2**20
    max_blocks: int = 4096
    max_space_blocks: int = 2**20


class Target(NamedTuple):
    """A vertex over which a worker has rights."""

    to: int
    rights: Rights


class Counts(NamedTuple):
    """The sizes of the heap, with the vertices that nobody reaches until a full collection frees them. Then how many entries were made, how
    many of these are held, and how many are denials or found a limit reached. A refusal without an entry is in none of these numbers. At
    last, how many collections of each kind were done since the store was opened, also if they moved nothing."""

    vertices: int
    payloads: int
    blocks: int
    entries: int
    held: int
    denied: int
    vertices_full: int
    workers_full: int
    nursery_collections: int
    full_collections: int
