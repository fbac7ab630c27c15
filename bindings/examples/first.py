"""The first lines of a program over the store."""
from kovshenul import GRANT, READ, WRITE, Cell, Denied, Edge, Limits, Store, Sum

with Store([Cell(0), Cell(0)], [Edge(0, 1, GRANT)], Limits(10, 8, 4)) as store:
    document = store.create(0, READ | WRITE, Sum(40))
    store.grant(0, 1, document, READ)
    print(store.read(1, document))
    try:
        store.write(1, document, 2)
    except Denied as denial:
        print(denial)
