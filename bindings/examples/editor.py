"""A text editor, its two plug-ins and a document: what is denied, and what could never come about."""
from kovshenul import GRANT, READ, WRITE, Cell, Denied, Store

with Store([Cell(0)]) as store:                             # opens a store with one subject, 0: the editor
    writer = store.spawn(0, GRANT, Cell(0))                 # subject 1: 0 may grant rights to it
    viewer = store.spawn(0, GRANT, Cell(0))                 # subject 2
    document = store.create(0, READ | WRITE, Cell(40))      # object 3: it stores the number 40
    store.grant(0, writer, document, READ | WRITE)
    store.grant(0, viewer, document, READ)
    try:
        store.write(viewer, document, 2)
    except Denied as denial:
        print(denial)
    print(store.could(viewer, WRITE, document, silent=[0]))
    answer = store.could(viewer, WRITE, document, silent=[0], as_if=[(writer, viewer, GRANT)])
    print(type(answer).__name__)
