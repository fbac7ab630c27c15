"""Tests a host against the model in plain Python. It is run over the store and over the model, and all answers are the same."""
import kovshenul
from kovshenul import GRANT, READ, WRITE, Cell, Denied, Log, plain

OPENING = [Cell(0), Cell(0)], [(0, 1, GRANT)]


def host(store):
    """The commands of the host to a store, and the answers to its client."""
    note = store.create(0, READ | WRITE, Log(3))
    store.write(0, note, 7)
    store.grant(0, 1, note, READ)
    answers = [store.read(1, note), store.could(1, WRITE, note, silent=[0])]
    try:
        store.write(1, note, 8)
    except Denied as why:
        answers.append(str(why))
    return answers


with kovshenul.Store(*OPENING) as store, plain.Store(*OPENING) as model:
    assert host(store) == host(model)
    assert list(store.journal()) == list(model.journal())
    print(*model.journal(), sep="\n")
