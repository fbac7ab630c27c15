"""A small actor system.

An actor's mailbox is a log, and its address is the log's vertex. An edge to the vertex is the right to send to it. Actors send numbers, and
addresses that they hold. An actor can't make an address up, because the store denies what its edges don't allow.

The system is the store's only worker, and acts for the actors. It holds an address while it runs the actor, while messages wait there, or
for as long as the host asked it to (`keep`). It holds no other, so an idle actor lives as long as another actor that lives holds its address.
A full collection removes all others, rings of actors too.

An actor never loses an address that it was sent. No rule takes an edge from a vertex, and only a worker gives up its own edges. An actor
that serves many others for long starts a new actor in its place now and then.
"""
from collections import deque
from dataclasses import dataclass

from kovshenul import APPEND, FULL, GRANT, MOST_NUMBERS, READ, TAKE, Cell, Denied, Limits, Log, Store

SYSTEM = 0
# What an edge to a mailbox holds: the right to send, and what the system needs to run the actor. It takes these from the sender.
ADDRESS = READ | TAKE | GRANT | APPEND
# A number with this bit is an address, with the name of its vertex below.
IS_ADDRESS = 1 << 63


class MailboxFull(Exception):
    """The log has no room. It would lose a message that wasn't read."""


@dataclass(frozen=True)
class Address:
    """The address of an actor. It is of use only to who holds the edge."""

    name: int


@dataclass
class Actor:
    """What the system keeps beside a mailbox: what the actor does with a message, and how many messages wait."""

    behaviour: object
    waiting: int = 0
    is_kept: bool = False


class System:
    """The actors of a store, and the queue of the actors that have mail."""

    def __init__(self, store):
        self.store, self.actors, self.queue, self.running = store, {}, deque(), None

    def start(self, behaviour):
        """Starts an actor, and returns its address. If an actor starts it, that actor holds the address. Otherwise the host keeps
        it."""
        name = self.store.create(SYSTEM, ADDRESS, Log(MOST_NUMBERS))
        self.actors[name] = Actor(behaviour, is_kept=self.running is None)
        if self.running is not None:
            self.store.grant(SYSTEM, self.running, name, ADDRESS)
            self.let_go(name)
        return Address(name)

    def send(self, to, message):
        """Sends a number or an address. Denied if the actor that runs doesn't hold the address of the message, or the address that it
        sends."""
        self.borrow(to.name)
        mailbox = self.actors[to.name]
        try:
            if mailbox.waiting == MOST_NUMBERS:
                raise MailboxFull(f"{MOST_NUMBERS} messages wait for {to.name}")
            self.store.append(SYSTEM, to.name, self.number_of(to.name, message))
            mailbox.waiting += 1
            self.queue.append(to.name)
        finally:
            self.let_go(to.name)

    def number_of(self, to, message):
        """The number that says the message. An actor that gets an address gets the edge with it."""
        if not isinstance(message, Address):
            return message
        if message.name != to:
            self.borrow(message.name)
            self.store.grant(SYSTEM, to, message.name, ADDRESS)
            self.let_go(message.name)
        return IS_ADDRESS | message.name

    def borrow(self, name):
        """The system takes an address from the actor that runs. The host's own are kept, and an actor has its own."""
        if self.running not in (None, name):
            self.store.take(SYSTEM, self.running, name, ADDRESS)

    def let_go(self, name):
        """Gives the address up, unless the system needs it still."""
        actor = self.actors[name]
        if not actor.is_kept and actor.waiting == 0 and name != self.running:
            self.store.remove(SYSTEM, name, ADDRESS)

    def forget(self, address):
        """The host gives up an address that it kept."""
        self.actors[address.name].is_kept = False
        self.let_go(address.name)

    def run(self):
        """Gives each message to its actor, in the order in which they were sent, until none waits."""
        while self.queue:
            self.running = self.queue.popleft()
            actor = self.actors[self.running]
            number = self.store.read(SYSTEM, self.running)[-actor.waiting]
            actor.waiting -= 1
            message = Address(number ^ IS_ADDRESS) if number & IS_ADDRESS else number
            try:
                actor.behaviour(self, Address(self.running), message)
            except (Denied, MailboxFull) as why:
                print(f"{self.running} fails: {why}")
            name, self.running = self.running, None
            self.let_go(name)

    def collect(self):
        """Collects, and forgets the actors that nobody reaches any more. Returns how many are left."""
        self.store.collect(FULL)
        left = self.store.names()
        self.actors = {name: actor for name, actor in self.actors.items() if name in left}
        return len(self.actors)


def counter():
    """Adds up numbers, and sends the sum to each address that it gets."""
    total = 0

    def behave(system, _me, message):
        nonlocal total
        if isinstance(message, Address):
            system.send(message, total)
        else:
            total += message

    return behave


def printer(text):
    """Prints each number."""
    return lambda _system, _me, message: print(text, message)


def link():
    """A link of a ring. It gets the address of the next one first, and then passes numbers on, each time one less."""
    following = None

    def behave(system, me, message):
        nonlocal following
        if isinstance(message, Address):
            following = message
        elif message > 0:
            system.send(following, message - 1)
        else:
            print("the ring's token has come to", me.name)

    return behave


def ring_maker(count):
    """Makes a ring of links when it gets a number, and passes the number round. It keeps the address of the first one alone."""

    def behave(system, _me, message):
        links = [system.start(link()) for _ in range(count)]
        for one, other in zip(links, links[1:] + links[:1]):
            system.send(one, other)
        system.send(links[0], message)

    return behave


def forger(system, _me, message):
    """Sends to each name up to the number, of which it holds none."""
    for name in range(1, message):
        try:
            system.send(Address(name), 1_000_000)
        except Denied as why:
            print("forged:", why)


with Store([Cell(0)], [], Limits(10_000, 64, 64)) as store:
    system = System(store)
    total, out, maker, rogue = (system.start(it) for it in (counter(), printer("the sum is"), ring_maker(100), forger))
    for number in range(1, 11):
        system.send(total, number)
    system.send(total, out)
    system.send(maker, 1000)
    system.send(rogue, 3)
    system.run()
    print(system.collect(), "actors, with the ring, which its maker holds")
    system.forget(maker)
    system.forget(rogue)
    print(system.collect(), "actors, after the host gave up the addresses of two")
    system.forget(out)
    print(system.collect(), "actors, since the counter holds the printer's address")
    system.forget(total)
    print(system.collect(), "actors, and", len(store.names()), "vertex is left")
    print("audit ok,", store.audit(), "entries")
