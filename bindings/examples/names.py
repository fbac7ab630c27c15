"""A host that gives its vertices names for people, and marks itself as trusted. Texts have the names, and questions leave the host out."""
from kovshenul import GRANT, READ, WRITE, Cell, Denied, Store, Sum, outlook

HOST = 0

with Store([Cell(0)], trusted=[HOST]) as store:
    report = store.create(HOST, READ | WRITE, Sum(40))
    plugin = store.spawn(HOST, GRANT, Cell(0))
    store.grant(HOST, plugin, report, READ)
    for vertex, name in {HOST: "host", report: "report", plugin: "plugin"}.items():
        store.set_name(vertex, name)
    try:
        store.write(plugin, report, 2)
    except Denied as denial:
        print(denial)
    for entry in store.journal():
        print(store.named(entry))
    assert store.could(plugin, WRITE, report) == outlook.Never()
