"""A value that the library holds for its caller. It is open or closed, stays where it is, and is given back once."""
from __future__ import annotations

from typing import ClassVar, NoReturn, Type, TypeVar

from ._backend import Place
from ._library import short_of
from ._refusals import NotOpen

Own = TypeVar("Own", bound="Held")


class Held:
    """A value in a place of the library. `close`, or leaving its `with`, gives its memory back. Any thread may call."""

    __slots__ = ("_place", "__weakref__")

    # How it is named in a sentence, and the back end's class of its place.
    _named: ClassVar[str]
    _kind: ClassVar[Type[Place]]

    def __new__(cls, *_arguments: object, **_words: object) -> Held:
        """A closed one."""
        held = super().__new__(cls)
        held._place = cls._kind()
        return held

    def close(self) -> None:
        """Gives all memory back. A closed value may be closed again."""
        self._place.close()

    @property
    def closed(self) -> bool:
        """Whether it is closed."""
        return not self._place.is_open()

    def __enter__(self: Own) -> Own:
        if self.closed:
            raise NotOpen
        return self

    def __exit__(self, *_exception: object) -> None:
        self.close()

    def __reduce__(self) -> NoReturn:
        raise TypeError(f"{self._named} can't be copied or pickled")

    def __copy__(self) -> NoReturn:
        self.__reduce__()

    def __deepcopy__(self, _memo: object) -> NoReturn:
        self.__reduce__()

    def __repr__(self) -> str:
        return f"<kovshenul.{type(self).__name__}, {'closed' if self.closed else 'open'}>"


def place_of(kind: str, it: object) -> Place:
    """The place of a store, or of another value that the library holds."""
    if not isinstance(it, Held) or it._named != f"a {kind}":
        raise TypeError(f"a {kind} is wanted, and not {short_of(it)}")
    return it._place
