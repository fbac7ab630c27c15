"""A host whose process ends. It keeps each entry before it hands on the reply, and another process goes on from the entries that were
kept. Here both are one program."""
import pickle
import tempfile
from dataclasses import replace

from kovshenul import GRANT, READ, WRITE, BadEntry, Cell, Denied, Edge, Limits, Store, Sum

HOST, GUEST = range(2)
OPENING = [Cell(0), Cell(0)], [Edge(HOST, GUEST, GRANT)], Limits()


def keep(store, file):
    """Keeps the last entry. A file is flushed before the reply is handed on, or its last entries are lost with the process."""
    pickle.dump(store.entry(store.entries() - 1), file)
    file.flush()


def first_process(file):
    """The guest adds to a sum of the host, and may not read it."""
    with Store(*OPENING) as store:
        name = store.create(HOST, READ | WRITE, Sum(40))
        keep(store, file)
        store.grant(HOST, GUEST, name, WRITE)
        keep(store, file)
        store.write(GUEST, name, 2)
        keep(store, file)
        try:
            store.read(GUEST, name)
        except Denied:
            keep(store, file)
    return name


def kept(file):
    """The entries that were kept, one after the other."""
    file.seek(0)
    while True:
        try:
            yield pickle.load(file)
        except EOFError:
            return


def second_process(file, name):
    """All names, rights and values are there."""
    with Store.resume(*OPENING, kept(file)) as store:
        print("went on from", store.entries(), "entries")
        for _ in range(2):
            print("the sum is", *store.read(HOST, name))
            store.write(GUEST, name, 1)


def altered(entries):
    """The same entries, but the third one writes to another vertex."""
    for at, entry in enumerate(entries):
        yield replace(entry, deed=replace(entry.deed, target=0)) if at == 2 else entry


with tempfile.TemporaryFile() as file:
    second_process(file, first_process(file))
    try:
        Store.resume(*OPENING, altered(kept(file)))
    except BadEntry as bad:
        print(bad)
