"""A host that writes its journal out as tgaudit reads it. The text has the opening, a line for each entry, and how many
these are."""
from kovshenul import APPEND, GRANT, INSPECT, READ, TAKE, WRITE, Cell, Denied, Edge, Log, Max, Store, Sum, end_text, opening_text

HOST, GUEST = range(2)
OPENING = [Cell(0), Max(3)], [Edge(HOST, GUEST, GRANT | TAKE)]


def work(store):
    """A command of each kind, served or denied."""
    total = store.create(HOST, READ | WRITE | GRANT, Sum(5))
    log = store.spawn(HOST, READ | APPEND | INSPECT, Log(2))
    store.grant(HOST, GUEST, total, WRITE)
    store.write(GUEST, total, 7)
    for number in range(3):
        store.append(HOST, log, number)
    store.read(HOST, total), store.read(HOST, log), store.list(HOST), store.inspect(HOST, log)
    for asked in (lambda: store.read(GUEST, total), lambda: store.write(GUEST, GUEST, 1), lambda: store.take(HOST, GUEST, total, READ)):
        try:
            asked()
        except Denied:
            pass
    store.take(HOST, GUEST, total, WRITE)
    store.remove(HOST, total, READ)
    store.retire(log)


with Store(*OPENING) as store:
    work(store)
    print(opening_text(*OPENING))
    for entry in store.journal():
        print(entry)
    print(end_text(store.entries()))
