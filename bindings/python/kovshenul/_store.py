"""A store. Each call goes to the back end, which checks its numbers and keeps it apart from other calls."""
from __future__ import annotations

from itertools import count as from_on
from typing import Callable, Iterable, Iterator, List, Optional, Set, Tuple, Type, TypeVar

from ._backend import back_end
from ._held import Held
from ._library import BITS, number_in, short_of
from ._marks import Marked
from ._packed import bytes_of, commands_in, entry_in, limits_in, opening_in, questions_in, scene_in, value_in
from ._refusals import BadPlace, Denied, NoSuchWorker, Refused, refusal
from ._snapshot import Snapshot
from ._values import RIGHTS, Counts, Edge, Kind, Law, Limits, Rights, Target, Value, law_told
from ._view import View
from .journal import Deed, Entry, Reply, entry_of
from .outlook import OUTLOOKS, Breach, Outlook, outlook_of
from .outlook import Kind as KindOf

# The number of a list or an inspect that has no effect.
ROOM = 64

Own = TypeVar("Own", bound="Store")


class Store(Held, Marked):
    """An open store. `close`, or leaving its `with`, gives its memory back.

    The workers of `trusted` are marked as by `trust`. If one is no worker, it raises NoSuchWorker, and the store is closed.

    Any thread may call. The module's lock makes the calls come one after the other. If a number is out of its range, the call
    raises OverflowError, and nothing happened. A call that isn't served raises Denied or a Refused.
    """

    __slots__ = ("_names", "_trusted")
    _named = "a store"
    _kind = back_end.Store

    def __new__(cls, *_arguments: object, **_words: object) -> Store:
        """A closed one, without marks."""
        store = super().__new__(cls)
        store._names, store._trusted = {}, set()
        return store

    def __init__(
        self,
        workers: Iterable[Value],
        edges: Iterable[Tuple[int, int, int]] = (),
        limits: Tuple[int, int, int] = Limits(),
        trusted: Iterable[int] = (),
    ) -> None:
        self._place.open(*opening_in(workers, edges, limits))
        self._trust_each(trusted)

    @classmethod
    def resume(
        cls: Type[Own],
        workers: Iterable[Value],
        edges: Iterable[Tuple[int, int, int]],
        limits: Tuple[int, int, int],
        entries: Iterable[Entry],
        trusted: Iterable[int] = (),
    ) -> Own:
        """Opens a store that goes on from the entries of another store, which was opened with the same workers, edges and
        `max_vertices`. They begin at the first entry.

        The store does the deed of each entry again, and compares the replies. So nobody has to believe the entries. They are a legal
        history of this opening. The store then gives each later reply as the other one would. It raises what `go_on` raises, and the
        store is closed then. Entries have no marks of the host, so `trusted` names workers after the last entry.
        """
        store = cls(workers, edges, limits)
        try:
            store.go_on(0, entries)
        except BaseException:
            store.close()
            raise
        store._trust_each(trusted)
        return store

    def go_on(self, at: int, entries: Iterable[Entry]) -> None:
        """Goes on from the entries of another store, of which the first has this place. Any store may, also one that took commands.

        The `at` of its exception is the place of the entry at which it stopped. It raises BadValues if no store makes such an entry, and
        BadPlace if it isn't the next. It raises BadEntry if the entry isn't legal, because it was altered or is of another opening. The
        store is closed then. It raises OutOfMemory or HeapFull if there is no room for it, also after a full collection. After any of
        these but BadEntry the store has all entries before that place, and goes on from there.
        """
        for place, entry in enumerate(entries, at):
            packed = entry_in(entry)
            try:
                self._place.resume(place, *packed)
            except Refused as refused:
                refused.at = place
                raise

    @classmethod
    def reopen(cls: Type[Own], snapshot: Snapshot, limits: Tuple[int, int, int] = Limits(), trusted: Iterable[int] = ()) -> Own:
        """Opens a store that goes on from a snapshot, with its workers, edges and values. Names go on, and so do the places of the
        journal, of which the store holds no entry from before. From there each command is answered as by the store of which it is a
        snapshot. `Auditor.reopen` opens an auditor for it from the same snapshot.

        It raises BadLimits if `max_vertices` isn't the number of the first store, or another limit is out of its range. It raises
        BadWorkers if the snapshot has no worker. A snapshot has no marks of the host, so `trusted` names workers of the snapshot.
        """
        if not isinstance(snapshot, Snapshot):
            raise TypeError(f"a snapshot is wanted, and not {short_of(snapshot)}")
        store = cls.__new__(cls)
        store._place.reopen(snapshot._packed(), limits_in(limits))
        store._trust_each(trusted)
        return store

    def take(self, worker: int, via: int, target: int, rights: int) -> None:
        """The worker takes rights over the target that `via` has."""
        try:
            self._place.take(worker, via, target, rights)
        except Denied as denial:
            raise self._with_names(denial)

    def grant(self, worker: int, via: int, target: int, rights: int) -> None:
        """The worker grants rights over the target to `via`."""
        try:
            self._place.grant(worker, via, target, rights)
        except Denied as denial:
            raise self._with_names(denial)

    def remove(self, worker: int, target: int, rights: int) -> None:
        """The worker gives up its own rights over the target."""
        try:
            self._place.remove(worker, target, rights)
        except Denied as denial:
            raise self._with_names(denial)

    def hand(self, via: int, source: int, to: int, target: int, rights: int) -> Rights:
        """Hands rights on. The worker `via` takes the rights over the target from `source`, grants them to `to`, and removes the rights
        that it didn't hold before. This is done completely or left undone. Afterwards `to` holds the rights over the target too, and all
        else is as it was. Each command has an entry, so there are two, or three with the remove. Returns the rights that were removed,
        which may be none.

        The take is decided first, and then the grant, both on the graph before the hand. If one is denied, its entry is the only
        one, and the exception's `rule` says which it is.
        """
        try:
            return RIGHTS[self._place.hand(via, source, to, target, rights)]
        except Denied as denial:
            raise self._with_names(denial)

    def write(self, worker: int, target: int, value: int) -> None:
        """The worker writes to the target."""
        try:
            self._place.write(worker, target, value)
        except Denied as denial:
            raise self._with_names(denial)

    def append(self, worker: int, target: int, value: int) -> None:
        """The worker adds to the log of the target, by its right to append. To a target that stores no log, write by `write`."""
        try:
            self._place.append(worker, target, value)
        except Denied as denial:
            raise self._with_names(denial)

    def create(self, worker: int, rights: int, value: Value) -> int:
        """Makes a vertex over which the worker has the rights, and returns its name."""
        return self._place.create(worker, rights, value_in(value))

    def spawn(self, worker: int, rights: int, value: Value, trusted: bool = False) -> int:
        """Makes a worker over which the asking worker has the rights, and returns its name.

        The new worker holds nothing until it is granted something. At most 64 workers are active at a time, and no name is used
        again. If `trusted`, the new worker is marked as by `trust`.
        """
        name = self._place.spawn(worker, rights, value_in(value))
        if trusted:
            self._trusted.add(name)
        return name

    def retire(self, worker: int) -> None:
        """The worker retires. Each later call in its name is refused. Its vertex and its edges stay while a worker reaches them.
        So a worker with an edge to it, as its spawner has, keeps all that it held alive. Give that edge up, or remove the edges
        of the worker before it retires: `leave` does both."""
        self._place.retire(worker)

    def leave(self, worker: int) -> int:
        """The worker leaves: it gives up each of its edges, by rising name, and retires. Returns how many edges these were. Each
        remove, and the retire, has an entry. The call is done whole, or refused because memory ran out."""
        return self._place.leave(worker)

    def withdraw(self, target: int, rights: int, keep: Iterable[int] = ()) -> List[int]:
        """Withdraws rights over a target. Each worker with a name outside of `keep` removes what it holds of the rights. Each remove has
        an entry, by rising name. Afterwards no worker outside of `keep` holds any of the rights over the target, and all other labels
        are as they were. The call is done whole, or refused.

        Returns who still holds some of the rights, by rising name. They are kept workers, objects, and workers that retired, if the
        workers then reach them. If this is nobody and the target was made, no vertex that a worker reaches ever holds one of the rights
        over the target again. Otherwise a worker may take a right back, and `could` says which. Without `keep` the target may be reached
        by nobody, and then the next full collection frees it.

        A name in `keep` that isn't a worker's is ignored. From a target that was never made nothing is removed.
        """
        return self._place.withdraw(target, rights, bytes_of(keep))

    def park(self, host: int, user: int, account: int) -> int:
        """Parks a user. What the user holds goes into the account, and the user leaves, completely or not at all. Afterwards the account
        holds exactly what the user held, the user holds nothing and is no worker, and all other labels are as they were. Edges to the
        user stay, and what the user stored is lost with its vertex. Returns how many edges the user had.

        The account is a vertex that holds nothing, such as an object that the host has just made. The host has GRANT over the user and
        over the account. It needs TAKE over the account too if a worker is to take everything out later (`unpark`). Whoever else has TAKE
        over the account can take what it holds, so let the host alone have rights over it.

        Each command has an entry: two for each edge, and three more. The first one is the host's grant of GRANT over the account to the
        user. If this grant is denied, its entry is the only one. It raises NoSuchWorker if the host or the user is no worker, and InUse
        if the account holds a right, or the user holds one over it. There is no entry then, and all labels are as they were.
        """
        return self._park_by(self._place.park, host, user, account)

    def unpark(self, host: int, user: int, account: int) -> int:
        """Unparks a user. A new user takes out what an account holds (`park`), and the account is left, completely or not at all.
        Afterwards the user holds exactly what the account holds, the host holds nothing over the account, and all other labels are as
        they were. The account still holds what it held. If nobody but the host had a right over the account, the next full collection
        frees it. Returns how many edges the account has.

        The user is a worker that holds nothing yet, such as one that the host has just spawned. The host has GRANT over the user, and
        TAKE over the account.

        Each command has an entry: one for each edge, and three more. The first one is the host's grant of TAKE over the account to the
        user. If this grant is denied, its entry is the only one. A second unparking of an account is denied, because the host has no
        right over the account any more. It raises NoSuchWorker if the host or the user is no worker, and InUse if the user holds a
        right, or the account holds one over it. There is no entry then, and all labels are as they were.
        """
        return self._park_by(self._place.unpark, host, user, account)

    def _park_by(self, call: Callable[[int, int, int], int], host: int, user: int, account: int) -> int:
        """Makes a call that parks a user or unparks it."""
        host, user = number_in(BITS, host), number_in(BITS, user)
        try:
            return call(host, user, account)
        except Denied as denial:
            raise self._with_names(denial)
        except NoSuchWorker as refused:
            active = self._place.subjects()
            raise refusal(refused.status, worker=next((it for it in (host, user) if it not in active), None)) from None

    def who_holds(self, right: int, name: int) -> List[int]:
        """Returns who holds the right over the vertex with this name, by rising name. Holders are workers, objects, and workers that
        retired, if a worker reaches them. The journal gets no entry. It raises BadRights if it isn't one right."""
        return self._place.who_holds(right, name)

    def edges_to(self, name: int) -> List[Edge]:
        """Returns the edges to the vertex with this name, of all that a worker reaches, by rising name of the vertex from which each
        leads. A vertex that was never made has none. The journal gets no entry. So a host finds who holds on to a worker that left."""
        target = number_in(BITS, name)
        return [Edge(source, target, rights) for source, rights in self._place.edges_to(target)]

    def subjects(self) -> List[int]:
        """Returns the names of the active workers, rising. The journal gets no entry."""
        return self._place.subjects()

    def read(self, worker: int, target: int) -> List[int]:
        """Returns the state of the target."""
        try:
            return self._place.read(worker, target)
        except Denied as denial:
            raise self._with_names(denial)

    def list(self, worker: int, room: int = ROOM) -> List[Target]:
        """Returns the worker's edges by rising name. The journal gets one entry with all of them, however many there are.

        `room` has no effect. It must be a number.
        """
        return self._place.list(worker, room)

    def inspect(self, worker: int, target: int, room: int = ROOM) -> List[Target]:
        """Returns the target's edges by rising name, by the worker's right to inspect it. The journal gets one entry with all of
        them. `room` has no effect, as in `list`."""
        try:
            return self._place.inspect(worker, target, room)
        except Denied as denial:
            raise self._with_names(denial)

    def apply_all(self, worker: int, commands: Iterable[Deed]) -> List[Reply]:
        """Takes commands of the worker one after the other, at most 1,024, and answers their replies. Each is a deed of
        `kovshenul.journal`, but no Create and no Spawn. Each has an entry of its own, at places that follow one another.

        A denial is a reply, and the next command is taken after it. A batch of more commands raises BadLimits, and a batch with a bad
        set of rights raises BadRights. Nothing of it is done. Any other refusal is that of the first command that is refused. Its
        `replies` are the replies of the commands before it, which are done. The commands after it aren't asked for.
        """
        status, entries = self._place.apply_all(worker, commands_in(commands))
        replies = [entry_of(*entry).reply for entry in entries]
        if status:
            refused = refusal(status, worker)
            refused.replies = replies
            raise refused
        return replies

    def label(self, worker: int, target: int) -> Rights:
        """Returns the rights that the worker holds over the target, which may be none. The journal gets no entry."""
        return RIGHTS[self._place.label(worker, target)]

    def law(self, worker: int, target: int) -> Optional[Law]:
        """Returns the law by which the target stores numbers, if the worker has READ, WRITE or APPEND over the target. Otherwise it
        returns None. The journal gets no entry. The law of a vertex never changes."""
        return law_told(self._place.law(worker, target))

    def law_of(self, name: int) -> Optional[Law]:
        """Returns the law of the vertex with this name, whoever has rights over it. So it is for the host. It is None if the name was
        never made, and if no worker reaches the vertex, whether it was collected or not. The journal gets no entry."""
        return law_told(self._place.law_of(name))

    def could(
        self,
        x: int,
        right: int,
        y: int,
        silent: Optional[Iterable[int]] = None,
        as_if: Iterable[Tuple[int, int, int]] = (),
    ) -> Outlook:
        """Returns whether x could ever come to hold the right over y, by any turns of the workers that aren't silent. These are the
        trusted ones (`trust`), unless `silent` lists others: `silent=()` has all act. A worker that is spawned on the way acts too.
        A name that isn't made yet represents a vertex that those who act may make.

        The edges of `as_if` are supposed to be there too, so a host asks about a grant before it makes it. Their ends may be any
        vertices that a worker reaches.

        A collection changes no answer, and the journal gets no entry. It raises BadRights if `right` isn't one right, and NoSuchWorker
        if a silent name is no worker. It raises BadEdge if a supposed edge joins a vertex to itself, or has an end that no worker
        reaches.
        """
        return outlook_of(*self._place.could(*scene_in(self._silent(silent), as_if), x, right, y))

    def could_kind(
        self,
        x: int,
        right: int,
        y: int,
        silent: Optional[Iterable[int]] = None,
        as_if: Iterable[Tuple[int, int, int]] = (),
    ) -> KindOf:
        """Answers as `could` does, and returns the type of the answer alone, such as `outlook.Never`. It takes as long as `could`, and
        raises what `could` raises."""
        return OUTLOOKS[self._place.could_kind(*scene_in(self._silent(silent), as_if), x, right, y)]

    def could_any(
        self,
        questions: Iterable[Tuple[int, int, int]],
        silent: Optional[Iterable[int]] = None,
        as_if: Iterable[Tuple[int, int, int]] = (),
    ) -> Optional[Breach]:
        """Asks many questions at once, each of which is to be answered `Never`. Each is x, a right and y, as of `could`. Returns the
        place of the first one that isn't answered `Never`, with its answer, or None if each is. So a host asks about a policy.

            if store.could_any([(it, WRITE, document) for it in plugins], silent=[host]) is None:
                print("no plugin ever holds w over the document")

        A view is made once, and asked first. A question costs the time of the edges to its y if the view answers `Never`. Otherwise it
        costs what `could` costs. Nothing is asked after the first that isn't answered `Never`. It raises what `could` raises.
        """
        told = self._place.could_any(*scene_in(self._silent(silent), as_if), questions_in(questions))
        return None if told is None else Breach(told[0], outlook_of(*told[1]))

    def view(self, silent: Optional[Iterable[int]] = None, as_if: Iterable[Tuple[int, int, int]] = ()) -> View:
        """Opens a view of the vertices that the workers reach, in which the silent workers take no turns, as if these edges were there
        too. The silent workers are the workers of `could`. The journal gets no entry. It is refused as `could` is for a silent one or a
        supposed edge."""
        return View(self, silent, as_if)

    def collect(self, kind: int = Kind.FULL) -> int:
        """Collects, and returns how many vertices the heap then has."""
        return self._place.collect(number_in(32, kind))

    def census(self) -> Counts:
        """Counts what the heap has, and how many entries and collections were made."""
        return Counts(*self._place.census())

    def names(self) -> Set[int]:
        """Returns the names of the vertices that the heap has. Vertices that nobody reaches are among them until a full
        collection."""
        return self._place.names()

    def entries(self) -> int:
        """Returns how many entries the journal ever had, with the entries that were given up. The next entry gets this place."""
        return self._place.entries()

    def first(self) -> int:
        """Returns the place of the first entry that the journal holds. It is 0 until entries are given up."""
        return self._place.first()

    def forget(self, upto: int) -> None:
        """Gives up the entries before this place. No reply, right or name changes, and no memory is taken.

        It raises BadPlace if the place is before the first entry that is held, or after that of the next.
        """
        self._place.forget(upto)

    def entry(self, at: int) -> Entry:
        """Returns the journal's entry at this place, counted from 0. An entry never changes, and to read one makes none."""
        return entry_of(*self._place.entry(at))

    def journal(self) -> Iterator[Entry]:
        """Yields the entries that the journal holds, one after the other. Calls in between have their entries among them.

        It raises BadPlace if the next one was given up in between.
        """
        for at in from_on(self.first()):
            try:
                entry = self.entry(at)
            except BadPlace:
                if at < self.first():
                    raise
                return
            yield entry

    def audit(self) -> int:
        """Replays the journal, and returns how many entries it has. It raises NotWhole if entries were given up."""
        return self._place.audit()
