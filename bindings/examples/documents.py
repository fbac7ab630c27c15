"""A service that shares documents. Clients come and go. Before each grant the service asks whether a rule could be broken by it."""
from kovshenul import GRANT, READ, TAKE, WRITE, Auditor, Cell, Denied, Limits, Log, Store, end_text, opening_text

HOST = 0
OPENING = [Cell(0)], [], Limits(2**40, 4096, 2**20)


class Forbidden(Exception):
    """A grant after which somebody could come to hold a right that a rule forbids."""


class Service:
    def __init__(self, write):
        """`write` gets each line of the journal's text, which `tgaudit` reads."""
        self.store, self.auditor, self.write = Store(*OPENING, trusted=[HOST]), Auditor(*OPENING), write
        self.clients, self.texts, self.rules = {}, {}, []
        write(opening_text(*OPENING))

    def join(self, name):
        self.clients[name] = self.store.spawn(HOST, TAKE | GRANT, Cell(0))

    def leave(self, name):
        client = self.clients.pop(name)
        self.store.leave(client)
        self.store.remove(HOST, client, TAKE | GRANT)

    def make(self, name, text):
        document = self.store.create(self.clients[name], READ | WRITE, Log(8))
        self.texts[document] = text
        return document

    def forbid(self, name, right, document):
        self.rules.append((name, right, document))

    def share(self, giver, receiver, document, rights):
        policy = [rule for rule in self.rules if rule[0] in self.clients]
        asked = [(self.clients[name], right, guarded) for name, right, guarded in policy]
        breach = self.store.could_any(asked, as_if=[(self.clients[receiver], document, rights)])
        if breach:
            name, right, guarded = policy[breach.at]
            raise Forbidden(f"{name} could come to hold {right.letters} over {guarded}")
        self.store.hand(HOST, self.clients[giver], self.clients[receiver], document, rights)

    def tidy(self):
        """Frees the texts of documents that nobody reaches, and gives up the entries that were written and audited."""
        self.store.collect()
        alive = self.store.names()
        self.texts = {document: text for document, text in self.texts.items() if document in alive}
        self.rules = [rule for rule in self.rules if rule[2] in alive]
        for entry in self.store.journal():
            self.write(str(entry))
        self.auditor.forget(self.store, self.auditor.feed(self.store))

    def close(self):
        self.tidy()
        self.write(end_text(self.store.entries()))
        self.auditor.close()
        self.store.close()


lines = []
service = Service(lines.append)
for name in ("ann", "ben", "eve"):
    service.join(name)
budget = service.make("ann", "budget")
service.forbid("eve", READ, budget)
service.store.write(service.clients["ann"], budget, 7)
service.share("ann", "ben", budget, READ)
print("ben reads", service.store.read(service.clients["ben"], budget))
for giver, receiver, rights in (("ben", "eve", READ), ("ben", "ann", WRITE)):
    try:
        service.share(giver, receiver, budget, rights)
    except (Forbidden, Denied) as fault:
        print(type(fault).__name__, fault)
for name in ("ann", "ben"):
    service.leave(name)
    service.tidy()
    print(f"after {name} left:", service.texts, service.store.census().vertices)
for visit in range(1000):
    service.join(visit)
    service.make(visit, "a note")
    service.leave(visit)
    if visit % 100 == 99:
        service.tidy()
print("vertices after 1,000 visits:", service.store.census().vertices)
service.close()
print(lines[-1])
