"""The take-grant rules once more, in the plainest form. With them comes a search for an order in which a race's lines get the replies
that they got.

It shares no code with the program. A line that was refused memory or a thread counts as not made."""

ORDER = "rwtgaluv"

# How many subjects may be active at a time.
MOST_SUBJECTS = 64

# How many lines a search may try. A search that comes to its end before isn't decided.
MOST_STEPS = 200_000


def missing(rule, x, y, rights, held):
    """The denial where some of the rights aren't held."""
    return f"denied {rule} {x}->{y} {''.join(it for it in ORDER if it in rights and it not in held)}" if set(rights) - set(held) else None


class World:
    """Who is a subject, who has which rights over whom, and which number each vertex stores. It is never changed, because a line that
    changes something makes another."""

    def __init__(self, rows, states, made, subjects):
        self.rows, self.states, self.made, self.subjects = rows, states, made, subjects
        self.key = made, frozenset(rows.items()), frozenset(states.items()), subjects

    def held(self, x, y):
        return dict(self.rows.get(x, ())).get(y, "")

    def with_edge(self, x, y, rights):
        row = dict(self.rows.get(x, ()))
        row[y] = "".join(it for it in ORDER if it in rights)
        row = tuple(sorted((name, it) for name, it in row.items() if it))
        return World({**self.rows, x: row}, self.states, self.made, self.subjects)

    def with_state(self, y, state):
        return World(self.rows, {**self.states, y: state}, self.made, self.subjects)

    def with_vertex(self, box, is_subject):
        subjects = self.subjects | {self.made} if is_subject else self.subjects
        return World(self.rows, {**self.states, self.made: (box, () if box == "l" else (0,))}, self.made + 1, subjects)

    def without_subject(self, x):
        return World(self.rows, self.states, self.made, self.subjects - {x})

    def reached(self):
        seen, open_ = set(self.subjects), list(self.subjects)
        while open_:
            new = {name for name, _ in self.rows.get(open_.pop(), ())} - seen
            seen |= new
            open_ += new
        return seen


def shown(row):
    """The reply that lists a row."""
    return " ".join(["ok", *(f"{name}:{rights}" for name, rights in row)])


def written(law, state, number):
    """The state of a cell, a sum, a maximum or a log of four once a number was written."""
    if law == "c":
        return (number,)
    if law == "s":
        return ((state[0] + number) % 2**64,)
    if law == "m":
        return (max(state[0], number),)
    return (state + (number,))[-4:]


class Race:
    """The lines of a race's workers, what each was answered, and the box of each create and spawn."""

    def __init__(self, script, replies, refusals):
        self.workers = range(int(script.words[script.words.index("--workers") + 1]))
        boxes = iter(boxes_of(script.words[script.words.index("--stock") + 1]))
        self.own = {x: [] for x in self.workers}
        self.entries = 0
        # Whether each line of a name that has no thread is refused.
        self.are_others_refused = True
        for line, reply in zip(script.lines, replies):
            box = next(boxes, None) if " create " in line or " spawn " in line else None
            x, *words = line.split() if " " in line else ("0", line)
            self.are_others_refused &= int(x) in self.own or reply == b"refused worker"
            if reply not in refusals and int(x) in self.own:
                self.own[int(x)].append((words, reply.decode(), box))
                self.entries += words[0] not in ("full", "minor") and reply not in (b"refused stock", b"refused worker")
        self.first = World({}, {x: ("c", (0,)) for x in self.workers}, len(self.workers), frozenset(self.workers))
        for edge in script.edges:
            _, x, y, rights = edge.split()
            self.first = self.first.with_edge(int(x), int(y), self.first.held(int(x), int(y)) + rights)

    def after(self, world, x, words, box):
        """The reply to the worker's line, and the world after it."""
        rule, *rest = words
        if rule == "minor":
            return "ok", world
        if rule == "full":
            return f"ok {len(world.reached())}", world
        if x not in world.subjects:
            return "refused worker", world
        if rule == "list":
            return shown(world.rows.get(x, ())), world
        if rule == "retire":
            return "ok", world.without_subject(x)
        if rule in ("create", "spawn"):
            return self.after_making(world, x, rule == "spawn", rest[0], box)
        return self.after_command(world, x, rule, rest)

    def after_making(self, world, x, is_subject, rights, box):
        if box is None:
            return "refused stock", world
        if is_subject and len(world.subjects) == MOST_SUBJECTS:
            return "refused workers", world
        return f"ok {world.made}", world.with_vertex(box, is_subject).with_edge(x, world.made, rights)

    def after_command(self, world, x, rule, rest):
        y, held = int(rest[0]), world.held(x, int(rest[0]))
        if rule in ("take", "grant"):
            return self.after_passing(world, x, rule, y, int(rest[1]), rest[2])
        needed = {"read": "r", "write": "w", "append": "a", "inspect": "l", "remove": rest[-1]}[rule]
        denied = f"denied {rule} distinct" if x == y else missing(rule, x, y, needed, held)
        if denied:
            return denied, world
        if rule == "remove":
            return "ok", world.with_edge(x, y, set(held) - set(needed))
        if rule == "inspect":
            return shown(world.rows.get(y, ())), world
        law, state = world.states[y]
        if rule == "read":
            return " ".join(["ok", *map(str, state)]), world
        if rule == "append" and law != "l":
            return "denied append law", world
        return "ok", world.with_state(y, (law, written(law, state, int(rest[1]))))

    def after_passing(self, world, x, rule, y, z, rights):
        giver, taker = (y, x) if rule == "take" else (x, y)
        denied = missing(rule, x, y, "t" if rule == "take" else "g", world.held(x, y)) or missing(rule, giver, z, rights, world.held(giver, z))
        if len({x, y, z}) < 3:
            return f"denied {rule} distinct", world
        if denied:
            return denied, world
        return "ok", world.with_edge(taker, z, world.held(taker, z) + rights)


def boxes_of(stock):
    """The letters of a stock's text, each as often as it says."""
    counts = stock.replace("c", " c").replace("s", " s").replace("m", " m").replace("l", " l").split()
    return "".join(it[0] * int(it[1:] or 1) for it in counts)


def has_order(race):
    """Whether there is an order in which each line gets its reply, or None if the search was cut short."""
    steps, seen = 0, set()
    open_ = [(tuple(0 for _ in race.workers), race.first)]
    while open_:
        at, world = open_.pop()
        at, steps = told_at_once(race, at, world, steps)
        if all(at[x] == len(race.own[x]) for x in race.workers):
            return True
        if steps > MOST_STEPS:
            return None
        if (at, world.key) not in seen:
            seen.add((at, world.key))
            open_ += changes(race, at, world)
    return False


def told_at_once(race, at, world, steps):
    """After the lines that change nothing and get their replies here. To take them at once is no loss: no other reply depends on it."""
    at, x = list(at), 0
    while x < len(at):
        steps += 1
        line = race.own[x][at[x]] if at[x] < len(race.own[x]) else None
        reply, after = race.after(world, x, line[0], line[2]) if line else (None, None)
        if line and reply == line[1] and after is world:
            at[x] += 1
        else:
            x += 1
    return tuple(at), steps


def changes(race, at, world):
    """The outcome of each worker's next line, if it changes something and gets its reply here."""
    for x in race.workers:
        if at[x] < len(race.own[x]):
            words, wanted, box = race.own[x][at[x]]
            reply, after = race.after(world, x, words, box)
            if reply == wanted:
                yield at[:x] + (at[x] + 1,) + at[x + 1 :], after
