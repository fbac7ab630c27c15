"""The rules of the store, in plain Python. They say which commands are served, what they change, and what is answered.

This is the take-grant model (Lipton and Snyder 1977), with the store's own commands beside take, grant, create and remove.
`kovshenul.plain` makes a store of it. The file imports no other file of the package, so it needs no library for C.

A vertex is a number, its name. x is the subject that asks. A set of rights is a number too, with a bit for each right.
"""
from __future__ import annotations

from dataclasses import dataclass, replace
from itertools import count
from typing import Collection, Dict, Iterable, List, Optional, Set, Tuple

# Bit 0 is the right of the first letter.
LETTERS = "rwtgaluv"
READ, WRITE, TAKE, GRANT, APPEND, INSPECT, FREE_U, FREE_V = (1 << bit for bit in range(len(LETTERS)))
ALL_RIGHTS = (1 << len(LETTERS)) - 1

MOST_SUBJECTS = 64
MOST_LOGGED = 64

# A turn: who acts, the command, and its words, as in (0, "take", (1, 2, READ)).
Turn = Tuple[int, str, Tuple[int, ...]]


class Denial(Exception):
    """The first check of a command that failed. `edge` and `rights` say what is missing, if the cause is `missing`."""

    def __init__(self, rule: str, cause: str, edge: Optional[Tuple[int, int]] = None, rights: int = 0) -> None:
        super().__init__(rule, cause, edge, rights)
        self.rule, self.cause, self.edge, self.rights = rule, cause, edge, rights


class Full(Exception):
    """A create or a spawn found no name left (`vertices`), or a spawn found 64 active subjects (`workers`)."""

    def __init__(self, limit: str) -> None:
        super().__init__(limit)
        self.limit = limit


@dataclass(frozen=True)
class Stored:
    """The value of a vertex. It has a law (`cell`, `sum`, `max` or `log`), its state, and for a log the most numbers that it keeps."""

    law: str
    state: Tuple[int, ...]
    most: int = 0

    def fits(self) -> bool:
        """Whether there is such a law, and the state is one of it."""
        if self.law == "log":
            return 1 <= self.most <= MOST_LOGGED and len(self.state) <= self.most
        return self.law in ("cell", "sum", "max") and len(self.state) == 1

    def written(self, number: int) -> Stored:
        """The same after the number is written."""
        if self.law == "cell":
            return replace(self, state=(number,))
        if self.law == "sum":
            return replace(self, state=((self.state[0] + number) % 2**64,))
        if self.law == "max":
            return replace(self, state=(max(self.state[0], number),))
        return replace(self, state=(*self.state, number)[-self.most :])


class Graph:
    """A protection graph. It says who holds which rights over whom, and which value each vertex stores.

    The vertices are the numbers below `made`, and at most `limit` may ever be made. The subjects issue commands.
    """

    def __init__(self, workers: Iterable[Stored], edges: Iterable[Tuple[int, int, int]], limit: int) -> None:
        self.values = [*workers]
        self.subjects = [*range(len(self.values))]
        self.limit = limit
        self.rows: Dict[int, Dict[int, int]] = {}
        for x, y, rights in edges:
            self.add(x, y, rights)

    def with_edges(self, edges: Iterable[Tuple[int, int, int]]) -> Graph:
        """A copy in which these edges are there too."""
        other = type(self)(self.values, (), self.limit)
        other.subjects, other.rows = [*self.subjects], {x: dict(row) for x, row in self.rows.items()}
        for x, y, rights in edges:
            other.add(x, y, rights)
        return other

    @classmethod
    def shown(cls, subjects: List[int], values: Dict[int, Stored], made: int, limit: int) -> Graph:
        """The graph without edges in which so many vertices were made. Those without a value can't be reached, so what they store is
        never read."""
        graph = cls([values.get(name, Stored("cell", (0,))) for name in range(made)], (), limit)
        graph.subjects = [*subjects]
        return graph

    @property
    def made(self) -> int:
        """How many vertices were made. The next one gets this name."""
        return len(self.values)

    # ---- labels

    def label(self, x: int, y: int) -> int:
        """The rights that x holds over y."""
        return self.rows.get(x, {}).get(y, 0)

    def add(self, x: int, y: int, rights: int) -> None:
        """x holds these rights over y too."""
        self.rows.setdefault(x, {})[y] = self.label(x, y) | rights

    def drop(self, x: int, y: int, rights: int) -> None:
        """x holds these rights over y no more."""
        self.rows.setdefault(x, {})[y] = self.label(x, y) & ~rights

    def row(self, x: int) -> List[Tuple[int, int]]:
        """The edges of x, by rising name of their targets."""
        return sorted((y, rights) for y, rights in self.rows.get(x, {}).items() if rights)

    # ---- the checks, each of which denies the command if it fails

    def must_differ(self, rule: str, *vertices: int) -> None:
        """No two of the vertices are one."""
        if len(set(vertices)) < len(vertices):
            raise Denial(rule, "not distinct")

    def must_hold(self, rule: str, x: int, y: int, rights: int) -> None:
        """x holds all of the rights over y."""
        missing = rights & ~self.label(x, y)
        if missing:
            raise Denial(rule, "missing", (x, y), missing)

    def must_log(self, rule: str, y: int) -> None:
        """y stores a log. A vertex that was never made stores nothing."""
        if y >= self.made or self.values[y].law != "log":
            raise Denial(rule, "not log")

    # ---- the commands of x, with the checks in their order, and then the change or the answer

    def take(self, x: int, y: int, z: int, rights: int) -> None:
        """x takes rights over z that y has."""
        self.must_differ("take", x, y, z)
        self.must_hold("take", x, y, TAKE)
        self.must_hold("take", y, z, rights)
        self.add(x, z, rights)

    def grant(self, x: int, y: int, z: int, rights: int) -> None:
        """x grants its rights over z to y."""
        self.must_differ("grant", x, y, z)
        self.must_hold("grant", x, y, GRANT)
        self.must_hold("grant", x, z, rights)
        self.add(y, z, rights)

    def remove(self, x: int, y: int, rights: int) -> None:
        """x gives up rights over y."""
        self.must_differ("remove", x, y)
        self.must_hold("remove", x, y, rights)
        self.drop(x, y, rights)

    def read(self, x: int, y: int) -> Tuple[int, ...]:
        """x is shown what y stores."""
        self.must_differ("read", x, y)
        self.must_hold("read", x, y, READ)
        return self.values[y].state

    def write(self, x: int, y: int, number: int) -> None:
        """x writes the number to y."""
        self.must_differ("write", x, y)
        self.must_hold("write", x, y, WRITE)
        self.values[y] = self.values[y].written(number)

    def append(self, x: int, y: int, number: int) -> None:
        """x adds the number to the log of y."""
        self.must_differ("append", x, y)
        self.must_hold("append", x, y, APPEND)
        self.must_log("append", y)
        self.values[y] = self.values[y].written(number)

    def inspect(self, x: int, y: int) -> List[Tuple[int, int]]:
        """x is shown the edges of y."""
        self.must_differ("inspect", x, y)
        self.must_hold("inspect", x, y, INSPECT)
        return self.row(y)

    def list(self, x: int) -> List[Tuple[int, int]]:
        """x is shown its own edges."""
        return self.row(x)

    def retire(self, x: int) -> None:
        """x is a subject no more. Its edges stay, and so do the edges that lead to it."""
        self.subjects.remove(x)

    def create(self, x: int, rights: int, value: Stored) -> int:
        """x makes a vertex, over which it has the rights. The name is the answer."""
        if self.made >= self.limit:
            raise Full("vertices")
        return self.make(x, rights, value)

    def spawn(self, x: int, rights: int, value: Stored) -> int:
        """x makes a subject, over which it has the rights. The name is the answer."""
        if self.made >= self.limit:
            raise Full("vertices")
        if len(self.subjects) >= MOST_SUBJECTS:
            raise Full("workers")
        self.subjects.append(self.made)
        return self.make(x, rights, value)

    def make(self, x: int, rights: int, value: Stored) -> int:
        """The next vertex is made, which nobody refuses."""
        self.values.append(value)
        self.add(x, self.made - 1, rights)
        return self.made - 1

    # ---- rights that are handed on, by several commands that are done completely or left undone

    def hand(self, x: int, giver: int, taker: int, z: int, rights: int) -> int:
        """x takes rights over z from the giver, grants them to the taker, and removes the rights that it lacked, which are the answer."""
        lacked = rights & ~self.label(x, z)
        self.take(x, giver, z, rights)
        try:
            self.grant(x, taker, z, rights)
        finally:
            self.drop(x, z, lacked)
        return lacked

    # ---- a user who is parked in an account

    def may_grant(self, x: int, y: int, z: int, rights: int) -> bool:
        """Whether a grant of x would be served."""
        return len({x, y, z}) == 3 and bool(self.label(x, y) & GRANT) and not rights & ~self.label(x, z)

    def in_use(self, giver: int, taker: int) -> bool:
        """Whether the taker holds something, or the giver holds a right over it."""
        return bool(self.row(taker)) or self.label(giver, taker) != 0

    # ---- what is asked without an entry

    def law(self, x: int, y: int) -> Optional[Stored]:
        """What y stores, if x may read it, write to it or append to it."""
        return self.values[y] if self.label(x, y) & (READ | WRITE | APPEND) else None

    def law_of(self, y: int) -> Optional[Stored]:
        """What y stores, if it is reached."""
        return self.values[y] if y in self.reached() else None

    def reached(self) -> Set[int]:
        """The vertices to which walks along edges lead from subjects."""
        found, ahead = set(self.subjects), [*self.subjects]
        while ahead:
            more = {y for y, _ in self.row(ahead.pop())} - found
            found |= more
            ahead += more
        return found

    def holders(self, rights: int, y: int) -> List[int]:
        """Who holds one of the rights over y, of all that are reached, by rising name."""
        return sorted(x for x in self.reached() if self.label(x, y) & rights)


class Future:
    """All that those who act can bring about, by a closure.

    Each of them makes two objects and a subject. Then they and the new subjects take and grant for as long as that adds a right. A right
    that is missing at the end never comes. A further object or subject could do only the turns that its maker's own objects or subjects
    did. There are two objects, so that the first may represent x and the second y.

    The closure is a run of the rules, which shows the turns by which a right comes. It has as many names and subjects as it needs, with
    one exception. Nobody is spawned if 64 subjects are active and one of them acts, because nobody else can retire.
    """

    def __init__(self, graph: Graph, silent: Collection[int]) -> None:
        self.first, self.limit = graph.made, graph.limit
        self.graph = graph.with_edges(())
        self.actors = [x for x in graph.subjects if x not in {*silent}]
        # The maker of each new vertex, and its command. The takes and grants, each with the rights that it added.
        self.makings: Dict[int, Tuple[int, str]] = {}
        self.moves: List[Turn] = []
        may_spawn = len(graph.subjects) < MOST_SUBJECTS or len(self.actors) > 1
        for actor in self.actors:
            for command in ("create", "create", "spawn") if may_spawn else ("create", "create"):
                self.makings[self.graph.make(actor, ALL_RIGHTS, Stored("cell", (0,)))] = actor, command
        self.objects, spawned = self.made_by("create"), self.made_by("spawn")
        before = -1
        while before < len(self.moves):
            before = len(self.moves)
            for x in self.actors + spawned:
                self.move_all(x)

    def made_by(self, command: str) -> List[int]:
        """The new vertices that this command made."""
        return [name for name, (_, other) in self.makings.items() if other == command]

    def move_all(self, x: int) -> None:
        """Makes all takes and grants of x once."""
        for y, _ in self.graph.row(x):
            for z, rights in self.graph.row(y):
                self.move(x, "take", y, z, rights)
            for z, rights in self.graph.row(x):
                self.move(x, "grant", y, z, rights)

    def move(self, x: int, command: str, y: int, z: int, rights: int) -> None:
        """Makes a take or a grant, if it is allowed and the taker gets a right that it hasn't."""
        taker = x if command == "take" else y
        added = rights & ~self.graph.label(taker, z)
        if not added or taker == z:
            return
        try:
            getattr(self.graph, command)(x, y, z, added)
        except Denial:
            return
        self.moves.append((x, command, (y, z, added)))

    def comes(self, x: int, right: int, y: int) -> Optional[Tuple[int, int]]:
        """The two vertices of the closure that represent x and y, if x could come to hold the right over y. Each new object may represent
        a name that isn't made yet."""
        if x == y or max(x, y) >= self.limit:
            return None
        holders, targets = ([name] if name < self.first else self.objects for name in (x, y))
        return next(((a, b) for a in holders for b in targets if self.graph.label(a, b) & right), None)

    def turns(self, x: int, right: int, y: int) -> Optional[List[Turn]]:
        """Turns by which x comes to hold the right over y, if it could. Takes and grants that aren't needed are left out."""
        found = self.comes(x, right, y)
        if found is None:
            return None
        kept, needed = [], {found: right}
        for actor, command, (via, target, added) in reversed(self.moves):
            taker, giver = (actor, via) if command == "take" else (via, actor)
            rights = added & needed.get((taker, target), 0)
            if rights:
                needed[taker, target] &= ~rights
                needed[actor, via] = needed.get((actor, via), 0) | (TAKE if command == "take" else GRANT)
                needed[giver, target] = needed.get((giver, target), 0) | rights
                kept.append((actor, command, (via, target, rights)))
        return self.named(kept[::-1], dict(zip(found, (x, y))))

    def named(self, moves: List[Turn], names: Dict[int, int]) -> List[Turn]:
        """The turns that make the vertices in these moves, and then the moves. `names` are the names that the two vertices of the question
        must get. The other new vertices get the lowest names that are left."""
        asked, used = {*names.values()}, {*names}
        for actor, _, (via, target, _) in moves:
            used |= {actor, via, target}
        free = (name for name in count(self.first) if name not in asked)
        for vertex in sorted(used - {*names}):
            names[vertex] = vertex if vertex < self.first else next(free)
        makings = {names[vertex]: self.makings[vertex] for vertex in used if vertex in self.makings}
        turns: List[Turn] = []
        for name in range(self.first, max(makings, default=-1) + 1):
            maker, command = makings.get(name) or (self.actors[0], "create")
            turns.append((maker, command, (ALL_RIGHTS,)))
        return turns + [(names[actor], command, (names[via], names[target], rights)) for actor, command, (via, target, rights) in moves]
