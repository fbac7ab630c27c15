"""mixture.py: the commands of a server of capabilities, made at random from a seed, by 16 workers. Of 100 commands 60 are reads that
are served, 15 are reads that are denied, and 5 are looks at a row of five edges. Then there are 10 grants, 5 creates and 5 removes. A
nursery collection comes after each 10,000, and a full one after each 200,000."""
import itertools
import random
import struct
from typing import NamedTuple

WORKERS = 16
FRIENDS = (1, 5)
LETTERS = "rwtgaluv"
READ_ONLY = 1
MAKERS = 1 + 2 + 4 + 8 + 32
ROW = 5
EACH_MINOR, EACH_FULL = 10_000, 200_000

# The kinds of commands, as mixture.c numbers them.
READ, GRANT, CREATE, REMOVE, INSPECT, MINOR, FULL = range(7)


class Step(NamedTuple):
    """A command of a worker, on one vertex or two, with rights, or a collection."""

    kind: int
    worker: int = 0
    first: int = 0
    second: int = 0
    rights: int = 0


# The create of each worker. A mixture of many vertices has each of these many times.
CREATES = [Step(CREATE, worker, rights=MAKERS) for worker in range(WORKERS)]


class Held:
    """The vertices to which a worker has edges, and with which rights. It draws a random edge in constant time."""

    def __init__(self):
        self.names, self.places, self.rights = [], {}, {}

    def add(self, name, rights):
        self.rights.setdefault(name, rights)
        if name not in self.places:
            self.places[name] = len(self.names)
            self.names.append(name)

    def remove(self, name):
        place, last = self.places.pop(name), self.names.pop()
        if last != name:
            self.names[place], self.places[last] = last, place
        return self.rights.pop(name)


def edges():
    """Each worker may grant to two others."""
    return [(worker, (worker + step) % WORKERS) for worker in range(WORKERS) for step in FRIENDS]


class Mixture:
    """The steps of a mixture: those that make the vertices, and the others."""

    def __init__(self, live, commands, seed=1):
        self.random = random.Random(seed)
        self.held = [Held() for _ in range(WORKERS)]
        self.next_name = WORKERS
        self.folders = []
        self.setup = [self.create(i % WORKERS) for i in range(live)]
        self.setup += [step for i in range(max(WORKERS, live // 100)) for step in self.folder(i)]
        self.kept = {folder for _, folder in self.folders}
        self.steps = []
        for i in range(1, commands + 1):
            self.steps.append(self.command(self.random.randrange(WORKERS)))
            self.steps += [Step(MINOR)] * (i % EACH_MINOR == 0) + [Step(FULL)] * (i % EACH_FULL == 0)

    def create(self, worker):
        self.held[worker].add(self.next_name, MAKERS)
        self.next_name += 1
        return CREATES[worker]

    def folder(self, i):
        """A vertex of a worker gets edges to five others of its."""
        worker, names = i % WORKERS, self.held[i % WORKERS].names
        folder = names[i // WORKERS]
        self.folders.append((worker, folder))
        return [Step(GRANT, worker, folder, names[(i // WORKERS + 1 + k * 7) % len(names)], READ_ONLY) for k in range(ROW)]

    def command(self, worker):
        kind, held = self.random.random(), self.held[worker]
        if kind < 0.60:
            return Step(READ, worker, self.random.choice(held.names))
        if kind < 0.75:
            return Step(READ, worker, self.random.choice(self.held[(worker + 2) % WORKERS].names))
        if kind < 0.80:
            return Step(INSPECT, *self.random.choice(self.folders))
        if kind < 0.90:
            return self.grant(worker)
        return self.create(worker) if kind < 0.95 else self.remove(worker)

    def grant(self, worker):
        other = (worker + self.random.choice(FRIENDS)) % WORKERS
        name = self.random.choice(self.held[worker].names)
        self.held[other].add(name, READ_ONLY)
        return Step(GRANT, worker, other, name, READ_ONLY)

    def remove(self, worker):
        name = self.random.choice([it for it in self.random.choices(self.held[worker].names, k=20) if it not in self.kept])
        return Step(REMOVE, worker, name, rights=self.held[worker].remove(name))

    def creates(self):
        return sum(step.kind == CREATE for step in self.setup + self.steps)

    def lines(self):
        """The lines of a script of the program."""
        return [f"edge {a} {b} g" for a, b in edges()] + [line_of(step) for step in self.setup + self.steps]

    def bytes(self):
        """The bytes that mixture.c reads. They are how many steps there are, how many of them make the vertices, how many workers and
        edges there are, and these."""
        count = len(self.setup) + len(self.steps)
        packed = bytearray(struct.pack("<IIII", count, len(self.setup), WORKERS, len(edges())))
        for edge in edges():
            packed += struct.pack("<II", *edge)
        for it in itertools.chain(self.setup, self.steps):
            packed += struct.pack("<BBBBII", it.kind, it.worker, it.rights, 0, it.first, it.second)
        return packed


def letters(rights):
    return "".join(letter for bit, letter in enumerate(LETTERS) if rights >> bit & 1)


def line_of(step):
    kind, worker, first, second, rights = step
    match kind:
        case 0:
            return f"{worker} read {first}"
        case 1:
            return f"{worker} grant {first} {second} {letters(rights)}"
        case 2:
            return f"{worker} create {letters(rights)}"
        case 3:
            return f"{worker} remove {first} {letters(rights)}"
        case 4:
            return f"{worker} inspect {first}"
        case 5:
            return "minor"
        case _:
            return "full"
