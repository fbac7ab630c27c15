"""What the tests know of the two back ends. The variable KOVSHENUL_CTYPES says over which one they run, as for each user."""
import ctypes
from contextlib import contextmanager
from unittest import mock

from kovshenul import BACKEND, Target, _backend, _library, journal
from kovshenul._lock import LOCK

IS_CTYPES = BACKEND == "ctypes"

# A function of the library: what it answers, and what it is given by who_holds.
WHO_HOLDS = ctypes.c_uint32, ctypes.c_void_p, ctypes.c_uint64, ctypes.c_uint64, ctypes.c_void_p, ctypes.c_size_t, ctypes.c_void_p


def make_ready(replaced):
    """Gives the extension the addresses of the library's functions, and of others in the place of some."""
    addresses = tuple(replaced.get(name) or _library.address_of(name) for name in _backend.back_end.CALLS)
    given = _library.number_in, _backend.refusal, _backend.denied, LOCK.acquire, LOCK.release, _backend.RIGHTS, Target, journal.Record
    _backend.back_end.ready(addresses, *given)


@contextmanager
def counted(name, kinds):
    """Gives a list that gets an item for each call of the library's function with this name, of these types."""
    calls, real = [], ctypes.CFUNCTYPE(*kinds)(_library.address_of(name))

    def count(*words):
        calls.append(name)
        return real(*words)

    if IS_CTYPES:
        library = _backend.back_end.library
        counting = mock.Mock(wraps=library, **{name: lambda *words: calls.append(name) or getattr(library, name)(*words)})
        with mock.patch.object(_backend.back_end, "library", counting):
            yield calls
        return
    counting = ctypes.CFUNCTYPE(*kinds)(count)
    make_ready({name: ctypes.cast(counting, ctypes.c_void_p).value})
    try:
        yield calls
    finally:
        make_ready({})


@contextmanager
def answering(status):
    """Has each function of the library answer this status and do nothing, but for those that close."""
    if IS_CTYPES:
        library = mock.Mock(**{f"tg_{name}": lambda *_: status for name in _backend.back_end.CALLS})
        with mock.patch.multiple(_backend.back_end, library=library, short=library):
            yield
        return
    answer = ctypes.CFUNCTYPE(ctypes.c_uint32)(lambda: status)
    make_ready({name: ctypes.cast(answer, ctypes.c_void_p).value for name in _backend.back_end.CALLS if not name.endswith("close")})
    try:
        yield
    finally:
        make_ready({})
