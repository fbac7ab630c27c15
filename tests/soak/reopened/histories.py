"""Random histories through Python. Each is stopped at some places, where two stores go on from it. One is resumed from the entries, and
one is reopened from the snapshot of an auditor. Both answer the rest as the first store did, and have its snapshot at the end."""
import random

from kovshenul import Auditor, Cell, Denied, Kind, Limits, Log, Max, Refused, Rights, Snapshot, Store, Sum

LINES, STOPS = 60, 4
LIMITS = Limits(2**48, 4096)
RIGHTS = [*Rights]


def drawn(rng, names):
    """A call: its name and arguments."""
    worker, via, target = (rng.randrange(names) for _ in range(3))
    rights = Rights(rng.randrange(1, 256)) if rng.random() < 0.5 else rng.choice(RIGHTS)
    value = rng.choice([Cell, Sum, Max])(rng.randrange(9)) if rng.random() < 0.75 else Log(rng.randrange(1, 5))
    calls = [
        ("take", worker, via, target, rights),
        ("grant", worker, via, target, rights),
        ("grant", worker, via, target, rights),
        ("remove", worker, target, rights),
        ("read", worker, target),
        ("read", worker, target),
        ("write", worker, target, rng.randrange(9)),
        ("append", worker, target, rng.randrange(9)),
        ("inspect", worker, target),
        ("list", worker),
        ("create", worker, rights, value),
        ("create", worker, rights, value),
        ("spawn", worker, rights, value),
        ("retire", worker) if rng.random() < 0.3 else ("list", worker),
        ("hand", worker, via, rng.randrange(names), target, rights),
        ("leave", worker) if rng.random() < 0.3 else ("list", worker),
        ("who_holds", rng.choice(RIGHTS), target),
        ("label", worker, target),
        ("subjects",),
    ]
    return rng.choice(calls)


def answer(store, call):
    """The answer to a call, or what it raised."""
    name, *words = call
    try:
        return getattr(store, name)(*words)
    except (Denied, Refused) as refused:
        return type(refused).__name__, str(refused)


def may_collect(rng, store):
    kind = rng.choice([None, Kind.FULL, Kind.NURSERY])
    if kind is not None:
        store.collect(kind)


def opening(rng):
    workers = [Cell(number) for number in range(rng.randrange(1, 5))]
    ends = [(i, (i + 1) % len(workers)) for i in range(len(workers)) if len(workers) > 1]
    return workers, [(source, target, rng.randrange(1, 256)) for source, target in ends], LIMITS


def goes_on(rng, store, calls, replies, auditor, wanted):
    """Whether a store, which may collect first, gives these replies, and its auditor then has the snapshot."""
    may_collect(rng, store)
    given = []
    for call in calls:
        given.append(answer(store, call))
        if rng.random() < 0.1:
            may_collect(rng, store)
    auditor.feed(store)
    return given == replies and auditor.snapshot() == wanted


def try_history(seed):
    """Whether the stores go on alike from each place at which this history is stopped."""
    rng = random.Random(seed)
    words = opening(rng)
    calls, replies, snapshots, places = [], [], [], []
    with Store(*words) as first, Auditor(*words) as auditor:
        for at in range(LINES):
            auditor.feed(first)
            snapshots.append(str(auditor.snapshot()))
            places.append(first.entries())
            calls.append(drawn(rng, len(words[0]) + at // 4 + 1))
            replies.append(answer(first, calls[at]))
        auditor.feed(first)
        wanted, entries = auditor.snapshot(), [*first.journal()]
    for stop in rng.sample(range(LINES), STOPS):
        with Store.resume(*words, entries[: places[stop]]) as store, Auditor(*words) as auditor:
            if not goes_on(rng, store, calls[stop:], replies[stop:], auditor, wanted):
                return False
        snapshot = Snapshot(snapshots[stop])
        if [*snapshot.subjects()]:
            with Store.reopen(snapshot, LIMITS) as store, Auditor.reopen(snapshot) as auditor:
                if not goes_on(rng, store, calls[stop:], replies[stop:], auditor, wanted):
                    return False
    return True
