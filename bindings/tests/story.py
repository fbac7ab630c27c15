"""The caretaker's story of story.c, in Python."""
from kovshenul import GRANT, READ, WRITE, Cell, Denied, Edge, Limits, Refused, Store, Sum

CARETAKER, VISITOR = 0, 1


def why(denial):
    """What was wrong, without the rule: each line names its command already."""
    if denial.edge is None:
        return str(denial)
    return f"{denial.rights.letters} is missing on {denial.edge[0]}->{denial.edge[1]}"


def tell(what, command, *arguments):
    """Prints how a command ended."""
    try:
        answer = command(*arguments)
    except Denied as denial:
        print(f"{what}: denied, {why(denial)}")
    else:
        print(f"{what}: ok" if answer is None else f"{what}: ok, {answer}")


def collect(store):
    print(f"full collection: {store.collect()} vertices are left")


def hand_on(store):
    document = store.create(CARETAKER, READ | WRITE, Sum(40))
    print(f"caretaker makes a document: ok, its name is {document}")
    tell("caretaker hands r on", store.grant, CARETAKER, VISITOR, document, READ)
    return document


def ask(store, document):
    """What is held over the document, and what there is, is asked without an entry, and nothing is printed of it."""
    assert store.label(VISITOR, document) == READ
    assert store.label(CARETAKER, document) & WRITE
    assert store.label(VISITOR, CARETAKER) == 0
    assert store.names() == {CARETAKER, VISITOR, document}
    try:
        store.label(document, CARETAKER)
    except Refused as refused:
        assert refused.status == 48
    else:
        raise AssertionError("a document is no worker")


def visit(store, document):
    tell("visitor reads", store.read, VISITOR, document)
    collect(store)
    tell("visitor reads", store.read, VISITOR, document)
    tell("caretaker writes 2", store.write, CARETAKER, document, 2)
    tell("visitor reads", store.read, VISITOR, document)
    tell("visitor writes 2", store.write, VISITOR, document, 2)


def take_back(store, document):
    tell("visitor gives r back", store.remove, VISITOR, document, READ)
    collect(store)
    tell("visitor reads", store.read, VISITOR, document)
    tell("caretaker gives up rw", store.remove, CARETAKER, document, READ | WRITE)
    tell("caretaker hands r on", store.grant, CARETAKER, VISITOR, document, READ)
    collect(store)
    tell("visitor reads", store.read, VISITOR, document)


with Store([Cell(0), Cell(0)], [Edge(CARETAKER, VISITOR, GRANT)], Limits(10, 8, 4)) as store:
    document = hand_on(store)
    ask(store, document)
    visit(store, document)
    take_back(store, document)
    print(f"audit ok, {store.audit()} entries")
