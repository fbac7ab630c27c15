"""An auditor: it replays a store's journal part after part."""
from __future__ import annotations

from typing import Iterable, Tuple, Type, TypeVar

from ._backend import back_end
from ._held import Held, place_of
from ._library import short_of
from ._packed import opening_in
from ._snapshot import Snapshot
from ._store import Store
from ._values import Limits, Value

Own = TypeVar("Own", bound="Auditor")


class Auditor(Held):
    """An auditor of a store's journal, with which the store may give up what was audited. `close`, or leaving its `with`, gives
    its memory back. The memory follows what the store's workers reach.

    Open it with the workers, edges and limits with which the store was opened. It begins at the first entry. Any thread may call.
    """

    __slots__ = ()
    _named = "an auditor"
    _kind = back_end.Auditor

    def __init__(
        self,
        workers: Iterable[Value],
        edges: Iterable[Tuple[int, int, int]] = (),
        limits: Tuple[int, int, int] = Limits(),
    ) -> None:
        self._place.open(*opening_in(workers, edges, limits))

    @classmethod
    def reopen(cls: Type[Own], snapshot: Snapshot) -> Own:
        """Opens an auditor that goes on from a snapshot. Its place is that of the snapshot. So it is fed by a store that holds the
        entry of this place, or that makes it next."""
        if not isinstance(snapshot, Snapshot):
            raise TypeError(f"a snapshot is wanted, and not {short_of(snapshot)}")
        auditor = cls.__new__(cls)
        auditor._place.reopen(snapshot._packed())
        return auditor

    def snapshot(self) -> Snapshot:
        """Takes a snapshot of the graph at its place. It raises BadEntry after a bad entry."""
        return Snapshot(self._place.snapshot().decode("ascii"))

    def feed(self, store: Store) -> int:
        """Replays the entries that the store holds, from the auditor's place on, and returns how many entries passed in all.

        It raises BadPlace if entries that it hasn't seen were given up, or if the store has made fewer than it has seen. After
        OutOfMemory and BadEntry the entries that passed stay passed, and `at` is the place of the entry at which it stopped. If
        memory ran out, feed it again. After a bad entry each later feed raises BadEntry again.
        """
        return self._place.feed(place_of("store", store))

    @property
    def at(self) -> int:
        """How many entries passed: the place of the next one."""
        return self._place.at()

    def forget(self, store: Store, upto: int) -> None:
        """Gives up the store's entries before this place, as `Store.forget` does. It raises NotAudited if the auditor hasn't come
        as far, and nothing is given up then."""
        self._place.forget(place_of("store", store), upto)

    def sweep(self) -> None:
        """Gives back what it keeps of vertices that no worker reaches any more. An auditor sweeps by itself too. It looks each
        time that it keeps a quarter as many vertices again as at its last look, and 65,536 at the least. It then sweeps if rights
        were given up or a worker retired since its last sweep."""
        self._place.sweep()
