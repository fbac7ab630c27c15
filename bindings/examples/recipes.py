"""The recipes of docs/RECIPES.md for hosts of a store, a function each, and a run of them."""
from kovshenul import FULL, GRANT, READ, TAKE, WRITE, Auditor, Cell, Denied, Refused, Rights, Store, outlook

HOST = 0


def take_back(store, holder, target, rights):
    """Gives up the rights in the name of their holder, as far as it has them."""
    held = store.label(holder, target) & rights
    if held:
        store.remove(holder, target, held)


def take_back_from_all(store, target, rights):
    """Withdraws the rights from all but the host. Returns each subject that could get one of them again, with the right."""
    if store.withdraw(target, rights, keep=[HOST]) == []:
        return []
    others = [subject for subject in store.subjects() if subject != HOST]
    asked = [(subject, right) for subject in others for right in Rights if right & rights]
    return [(subject, right) for subject, right in asked if store.could(subject, right, target, silent=[HOST]) != outlook.Never()]


def grant_if_safe(store, receiver, target, rights, guarded):
    """Grants the rights, unless a subject other than the host could then ever come to read the guarded vertex."""
    with store.view(silent=[HOST], as_if=[(receiver, target, rights)]) as view:
        others = [subject for subject in store.subjects() if subject != HOST]
        is_safe = all(view.could(subject, READ, guarded) == outlook.Never() for subject in others)
    if is_safe:
        store.grant(HOST, receiver, target, rights)
    return is_safe


def free_files(store, files):
    """Frees what the host keeps beside vertices that are gone. `files` has it by the names of the vertices."""
    store.collect(FULL)
    for name in files.keys() - store.names():
        del files[name]


def end(store, client):
    """Ends a client, whether it answers or not. It gives up all that it holds, and the host its own rights over it."""
    store.leave(client)
    over = store.label(HOST, client)
    if over:
        store.remove(HOST, client, over)


def log_out(store, user):
    """Parks a user who logs out. Returns the account, which holds all that the user held."""
    account = store.create(HOST, TAKE | GRANT, Cell(0))
    store.park(HOST, user, account)
    store.remove(HOST, user, TAKE | GRANT)
    return account


def log_in(store, account):
    """A subject for a user who comes back. It holds all that the account holds, and the account is given up."""
    user = store.spawn(HOST, TAKE | GRANT, Cell(0))
    store.unpark(HOST, user, account)
    return user


def archive(store, auditor, file):
    """Writes the new entries out, has them audited, and then gives them up."""
    for entry in store.journal():
        print(entry, file=file)
    auditor.forget(store, auditor.feed(store))


def create(store, subject, budget):
    """A vertex for a subject, which may make only so many."""
    if budget[subject] == 0:
        return None
    budget[subject] -= 1
    return store.create(subject, READ | WRITE, Cell(0))


def show(what, it):
    """Prints what came of a recipe."""
    print(f"{what}: {it}")


def run_of_plugins(store):
    """Two plug-ins: rights that are handed on, refused and taken back, and an end."""
    giver, receiver = (store.spawn(HOST, TAKE | GRANT, Cell(0)) for _ in range(2))
    note = store.create(giver, READ | WRITE, Cell(7))
    store.hand(HOST, giver, receiver, note, READ)
    show("handed on", store.read(receiver, note))
    show("the host kept", store.label(HOST, note).letters or "nothing")
    secret = store.create(HOST, READ, Cell(9))
    folder = store.create(HOST, READ | TAKE | GRANT, Cell(0))
    store.grant(HOST, folder, secret, READ)
    show("safe to read the folder", grant_if_safe(store, giver, folder, READ, secret))
    show("safe to take from it", grant_if_safe(store, giver, folder, TAKE, secret))
    take_back(store, receiver, note, READ | WRITE)
    try:
        store.read(receiver, note)
    except Denied as denial:
        show("taken back", denial)
    files = {note: "note.txt", secret: "secret.txt"}
    end(store, giver)
    free_files(store, files)
    show("left", list(files.values()))
    show("a budget of one", [create(store, receiver, {receiver: left}) is not None for left in (1, 0)])


def run_of_users(store):
    """A user who comes back."""
    user = store.spawn(HOST, TAKE | GRANT, Cell(0))
    letter = store.create(user, READ | WRITE, Cell(5))
    account = log_out(store, user)
    show("while the user is away", [rights.letters for _, _, rights in store.edges_to(letter)])
    user = log_in(store, account)
    show("came back", (store.label(user, letter).letters, store.read(user, letter)))
    show("left of the account", store.edges_to(account))


def run_of_a_team(store):
    """Readers of a document, one of whom has parked what it holds."""
    document = store.create(HOST, READ | WRITE, Cell(3))
    readers = [store.spawn(HOST, TAKE | GRANT, Cell(0)) for _ in range(3)]
    for reader in readers:
        store.grant(HOST, reader, document, READ)
    folder = store.create(readers[2], TAKE | GRANT, Cell(0))
    store.grant(readers[2], folder, document, READ)
    show("could get it again", [(readers.index(it), right.letters) for it, right in take_back_from_all(store, document, READ)])
    show("who holds on", [(edge.source == HOST, edge.rights.letters) for edge in store.edges_to(document)])
    store.remove(readers[2], folder, TAKE)
    show("could get it again", take_back_from_all(store, document, READ))
    for reader in readers:
        end(store, reader)


class Lines:
    """A file that counts the lines that are written to it."""

    def __init__(self):
        self.count = 0

    def write(self, text):
        self.count += text.count("\n")


OPENING = [Cell(0)], []
with Store(*OPENING) as store, Auditor(*OPENING) as auditor:
    run_of_plugins(store)
    run_of_users(store)
    run_of_a_team(store)
    file = Lines()
    archive(store, auditor, file)
    show("entries written, audited, left", (file.count, auditor.at, store.entries() - store.first()))
    try:
        store.read(77, HOST)
    except Refused as refusal:
        show("refused", refusal)
