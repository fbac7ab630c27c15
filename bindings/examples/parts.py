"""A host that keeps its journal short: every few commands it writes the new entries out, has an auditor replay them, and gives them up.
Another store and another auditor go on after the first part."""
from kovshenul import GRANT, READ, WRITE, Auditor, Cell, Denied, Edge, Snapshot, Store, Sum

HOST, GUEST = range(2)
EVERY, COMMANDS = 4, 10
OPENING = [Cell(0), Cell(0)], [Edge(HOST, GUEST, GRANT)]


def hand_over(store, auditor):
    """Writes out what the store holds, audits it, and gives it up. Where it can't be audited the store keeps it."""
    for entry in store.journal():
        print(entry)
    audited = auditor.feed(store)
    auditor.forget(store, audited)
    print(audited, "entries audited and given up")


def gone_on(store, auditor):
    """Another store and another auditor, which go on from a snapshot, as a process does that has the text of the snapshot alone."""
    text = str(auditor.snapshot())
    store.close()
    auditor.close()
    print(text)
    snapshot = Snapshot(text)
    return Store.reopen(snapshot), Auditor.reopen(snapshot)


def add(store, total, number):
    """The guest adds to the host's sum, and once writes to an object that isn't its own."""
    try:
        store.write(GUEST, HOST if number == 6 else total, number)
    except Denied:
        pass


store, auditor = Store(*OPENING), Auditor(*OPENING)
total = store.create(HOST, READ | WRITE, Sum(0))
store.grant(HOST, GUEST, total, WRITE)
for number in range(3, COMMANDS + 1):
    add(store, total, number)
    if number % EVERY == 0:
        hand_over(store, auditor)
    if number == EVERY:
        store, auditor = gone_on(store, auditor)
hand_over(store, auditor)
store.close()
auditor.close()
