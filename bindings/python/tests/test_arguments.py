"""Arguments of every type to every call: what is no number in its range is refused, and nothing happened."""
import random
import sys
import unittest
from fractions import Fraction

from kovshenul import GRANT, READ, WRITE, Cell, Denied, Limits, Log, Max, Refused, Rights, Store, Sum, Value

CALLS = 60_000
# On one store, since workers retire.
ROUND = 100
BIG = 2**64


class Index:
    """A number in all but its type."""

    def __init__(self, number):
        self.number = number

    def __index__(self):
        return self.number


class Liar(int):
    """Says that it is small."""

    def __lt__(self, other):
        return False

    __gt__ = __le__ = __ge__ = __lt__


RIGHT = [0, 1, 2, 3, 4, 8, 15, 16, 32, 63, 64, 65, 128, 255, 256, 2**24, 2**32 - 1, 2**32, 2**63 - 1, 2**63, BIG - 1]
WRONG = [-1, -2, BIG, BIG + 1, BIG + 2, -BIG, 2 * BIG, 10**40, 10**5000, -(2**63)]
NO_NUMBERS = [None, 1.0, float("nan"), "1", b"1", "", (), [1], {}, {1}, object(), int, Fraction(1), 1j, slice(0), print]
NUMBERS = [
    *RIGHT,
    *WRONG,
    True,
    READ | WRITE,
    Rights(256),
    *(Index(number) for number in (0, 1, BIG, -1)),
    *(Liar(number) for number in (1, BIG + 1, -1)),
    Index(1.0),
]
VALUES = [Cell(0), Sum(BIG - 1), Max(3), Log(1), Log(64), Log(0), Log(65), Log(2**32 - 1)]
NO_VALUES = [Cell, Value, *NO_NUMBERS, *NUMBERS]
SHORT = {"collect"}
# How many numbers each takes, and whether a value comes after.
TAKES = {
    "take": (4, False),
    "grant": (4, False),
    "remove": (3, False),
    "hand": (5, False),
    "write": (3, False),
    "append": (3, False),
    "create": (2, True),
    "spawn": (2, True),
    "retire": (1, False),
    "leave": (1, False),
    "park": (3, False),
    "unpark": (3, False),
    "who_holds": (2, False),
    "edges_to": (1, False),
    "read": (2, False),
    "list": (1, False),
    "inspect": (2, False),
    "label": (2, False),
    "law": (2, False),
    "law_of": (1, False),
    "collect": (1, False),
    "entry": (1, False),
}


def number_of(argument):
    """The number that an argument represents, or nothing."""
    try:
        return int.__index__(argument) if isinstance(argument, int) else int.__index__(argument.__index__())
    except (AttributeError, TypeError):
        return None


def is_number(argument, bound):
    number = number_of(argument)
    return number is not None and 0 <= number < bound


def drawn(rng, good, bad):
    """Mostly what is good."""
    return rng.choice(good) if rng.random() < 0.7 else rng.choice(bad)


def arguments_of(rng, name):
    count, has_value = TAKES[name]
    arguments = [drawn(rng, RIGHT[:6], [*NUMBERS, *NO_NUMBERS]) for _ in range(count)]
    if has_value:
        arguments.append(drawn(rng, VALUES, NO_VALUES))
    return arguments


def are_right(name, arguments):
    bound = 2**32 if name in SHORT else BIG
    return all(isinstance(it, Value) or is_number(it, bound) for it in arguments[:2]) and all(
        it in VALUES if TAKES[name][1] else is_number(it, bound) for it in arguments[2:]
    )


def outcome_of(call, arguments):
    """The kind of what is raised, or nothing."""
    try:
        call(*arguments)
    except (Denied, Refused) as answer:
        return type(answer)
    except (TypeError, OverflowError) as refused:
        return refused
    return None


def opened():
    return Store([Cell(0), Sum(0), Log(3)], [(0, 1, GRANT), (1, 0, 255), (1, 2, 255)], Limits(1000, 64, 64))


class Arguments(unittest.TestCase):
    def test_each_call(self):
        rng = random.Random(7)
        for _ in range(CALLS // ROUND):
            self.assert_calls(rng)

    def assert_calls(self, rng):
        with opened() as store:
            for _ in range(ROUND):
                name = rng.choice(list(TAKES))
                arguments = arguments_of(rng, name)
                before = store.entries()
                outcome = outcome_of(getattr(store, name), arguments)
                if are_right(name, arguments):
                    self.assertNotIsInstance(outcome, Exception, (name, arguments))
                else:
                    self.assertIsInstance(outcome, (TypeError, OverflowError), name)
                    self.assertEqual(store.entries(), before)
            self.assertEqual(store.audit(), store.entries())

    def test_openings(self):
        rng = random.Random(8)
        for _ in range(CALLS // 10):
            workers = [drawn(rng, VALUES, NO_VALUES) for _ in range(rng.randrange(4))]
            edges = [
                [drawn(rng, RIGHT[:3], [*NUMBERS, *NO_NUMBERS]) for _ in range(rng.choice([3, 3, 3, 2, 4]))]
                for _ in range(rng.randrange(3))
            ]
            limits = [drawn(rng, [100, 64], [*NUMBERS, *NO_NUMBERS]) for _ in range(3)]
            try:
                Store(workers, edges, limits).close()
            except (Refused, TypeError, OverflowError, ValueError):
                continue
            self.assertTrue(all(is_number(it, BIG) for it in limits))
            self.assertTrue(all(is_number(it, BIG) for edge in edges for it in edge))
            self.assertTrue(all(it in VALUES for it in workers))


if __name__ == "__main__":
    if len(sys.argv) > 1:
        CALLS = int(sys.argv.pop())
    unittest.main()
