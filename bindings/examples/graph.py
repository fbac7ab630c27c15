"""Plays a small story, and writes the graph that it leaves as text for dot: graph.py | dot -Tsvg > graph.svg

Workers are boxes, objects circles. A vertex has its name before its number, and an edge the letters of its rights.
"""
from kovshenul import APPEND, GRANT, READ, TAKE, WRITE, Denied, Log, Store, Sum

ALICE, BOB, CAROL = range(3)
NAMES = ("alice", "bob", "carol")


def play(store):
    """Alice keeps a document and a diary. Bob may read the document and add to the diary, which he can't read. Carol takes from
    him the right to read the document."""
    document = store.create(ALICE, READ | WRITE, Sum(40))
    diary = store.create(ALICE, READ | APPEND, Log(3))
    store.grant(ALICE, BOB, document, READ)
    store.grant(ALICE, BOB, diary, APPEND)
    store.append(BOB, diary, 7)
    store.take(CAROL, BOB, document, READ)
    try:
        store.take(CAROL, BOB, diary, READ)
    except Denied:
        pass
    store.set_name(document, "document")
    store.set_name(diary, "diary")
    return document, diary


def lines_of(store, objects):
    """The graph, line by line. Each worker's row is listed, and the journal shows it."""
    yield "digraph kovshenul {"
    for worker in range(len(NAMES)):
        yield f'    v{worker} [shape=box, label="{store.named(worker)}"];'
    for vertex in objects:
        yield f'    v{vertex} [shape=ellipse, label="{store.named(vertex)}"];'
    for worker in range(len(NAMES)):
        for target, rights in store.list(worker):
            yield f'    v{worker} -> v{target} [label="{rights.letters}"];'
    yield "}"


with Store([Sum(0)] * len(NAMES), [(ALICE, BOB, GRANT), (CAROL, BOB, TAKE)], (10, 8, 4)) as store:
    for worker, name in enumerate(NAMES):
        store.set_name(worker, name)
    objects = play(store)
    print("\n".join(lines_of(store, objects)))
