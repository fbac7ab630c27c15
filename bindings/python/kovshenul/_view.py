"""A view, which answers many questions about the future."""
from __future__ import annotations

from typing import TYPE_CHECKING, Iterable, Optional, Tuple

from ._backend import back_end
from ._held import Held, place_of
from ._packed import edges_in, scene_in
from .outlook import OUTLOOKS, Chance

if TYPE_CHECKING:
    from ._store import Store


class View(Held):
    """A view of a store, made for many questions about the future, as of the moment of `Store.view`. A question takes the time of
    the edges to y. `close`, or leaving its `with`, gives its memory back. It outlives the store. Any thread may call.

        with store.view(silent=[host]) as view:
            for plugin in plugins:
                if view.could(plugin, WRITE, document) == outlook.Never():
                    print(f"{plugin} never holds w over {document}")

    A plugin that never holds w may still append by `a`, or have another subject write for it.
    """

    __slots__ = ()
    _named = "a view"
    _kind = back_end.View

    def __init__(self, store: Store, silent: Optional[Iterable[int]] = None, as_if: Iterable[Tuple[int, int, int]] = ()) -> None:
        place = place_of("store", store)
        self._place.open(place, *scene_in(store._silent(silent), as_if))

    def could(self, x: int, right: int, y: int) -> Chance:
        """Returns what is known of the question whether x could ever come to hold the right over y. The answers are that it never
        does, whatever those who act do, that no worker reached x, and Perhaps, which says nothing. It raises BadRights if it
        isn't one right."""
        return OUTLOOKS[self._place.could(x, right, y)]()

    def could_as_if(self, x: int, right: int, y: int, as_if: Iterable[Tuple[int, int, int]]) -> Chance:
        """Answers as `could` does, as if these edges were there too. So a host asks about a grant, by the edge from the vertex that is
        given the rights to their target. If an edge joins two parts of the view, the answer is Perhaps, and `Store.could` answers.

        It raises BadRights if it isn't one right. It raises BadEdge if an edge joins a vertex to itself, or has an end that no worker
        reached at the opening."""
        return OUTLOOKS[self._place.could_as_if(edges_in(as_if), x, right, y)]()

    def follow(self, edge: Tuple[int, int, int]) -> bool:
        """Has the view go on with an edge that came since its opening, such as the edge of a grant. The edge leads from the vertex that
        was given the rights to their target. Returns whether the view goes on. Then it answers about the graph with the edge too. If
        the edge joins two parts of the view, it stays as it was, and another view has to be opened.

        The view answers about the graph of its opening, with the edges that it followed. If other commands changed the graph since,
        open another view. It raises BadRights if the rights are none. It raises BadEdge if the edge joins a vertex to itself, or has an
        end that no worker reached at the opening."""
        source, target, rights = edge
        return bool(self._place.follow(source, target, rights))
