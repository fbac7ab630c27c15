"""Plays a small story, and writes its journal as a script of the store's own: journal.py | viewer/page --workers 3 --stock sl >run.html

Each create takes a box of the stock. A box begins with 0, and a log of it keeps four numbers. So the page has the journal's own replies
if objects begin so.
"""
from kovshenul import APPEND, GRANT, READ, TAKE, WRITE, Denied, Log, Store, Sum
from kovshenul.journal import Create

ALICE, BOB, CAROL = range(3)
EDGES = [(ALICE, BOB, GRANT), (CAROL, BOB, TAKE)]


def play(store):
    """Alice lets Bob read a count and add to a diary. Carol takes from him what she can, and he gives the diary back."""
    count = store.create(ALICE, READ | WRITE, Sum(0))
    diary = store.create(ALICE, READ | APPEND, Log(4))
    store.grant(ALICE, BOB, count, READ)
    store.grant(ALICE, BOB, diary, APPEND)
    store.write(ALICE, count, 42)
    store.append(BOB, diary, 7)
    for wanted in (READ, WRITE):
        try:
            store.take(CAROL, BOB, count, wanted)
        except Denied:
            pass
    store.read(CAROL, count)
    store.list(BOB)
    store.remove(BOB, diary, APPEND)


def line_of(entry):
    """The line that asks for the same, without what a vertex stores at first."""
    asked, _, _ = str(entry).partition(" = ")
    return asked.rpartition(" ")[0] if isinstance(entry.deed, Create) else asked


with Store([Sum(0)] * 3, EDGES, (10, 8, 4)) as store:
    play(store)
    for worker, target, rights in EDGES:
        print(f"edge {worker} {target} {rights.letters}")
    for entry in store.journal():
        print(line_of(entry))
