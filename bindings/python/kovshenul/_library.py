"""The shared library: where it is found, its texts, and where its functions are. Each back end calls these in its own way."""
import ctypes
import os
import platform
from operator import index
from pathlib import Path
from reprlib import repr as short_of
from typing import Type

ABI = 4
NAME = f"libkovshenul.so.{ABI}"

BITS = 64


def number_in(bits: int, it: int) -> int:
    """The same number, which must be from 0 on and have at most so many bits."""
    try:
        number = index(it)
    except TypeError as error:
        raise TypeError(f"{short_of(it)} is no number. Rights are given as READ | WRITE, or by letters as Rights.of('rw')") from error
    if number >> bits:
        shown = f"{number}" if number.bit_length() <= 2 * bits else f"a number of {number.bit_length()} bits"
        raise OverflowError(f"a number is from 0 to 2^{bits} - 1, and not {shown}")
    return number


def _loaded(kind: Type[ctypes.CDLL]) -> ctypes.CDLL:
    """The library that the variable names, else the file beside this module, else the library that the system finds."""
    beside = Path(__file__).with_name(NAME)
    named = os.environ.get("KOVSHENUL_LIBRARY")
    path = named or (str(beside) if beside.exists() else NAME)
    try:
        library = kind(path)
    except OSError as error:
        raise ImportError(
            f"no library of Kovshenul: bindings/build makes it, as bindings/out/{NAME}. KOVSHENUL_LIBRARY is {named or 'not set'}, "
            f"{beside} {'is there' if beside.exists() else 'is not there'}, "
            f"and the system looks for {NAME}. It is code for Linux on x86-64 with glibc, and this is {platform.system()} "
            f"on {platform.machine()}. {path} did not load: {error}"
        ) from error
    if library.tg_abi() != ABI:
        raise ImportError(f"{path} has interface {library.tg_abi()}, and this module is for {ABI}")
    library.tg_status_text.argtypes, library.tg_status_text.restype = [ctypes.c_uint32], ctypes.c_char_p
    library.tg_version.argtypes, library.tg_version.restype = [], ctypes.c_char_p
    return library


library = _loaded(ctypes.CDLL)


class PlaceOfC(ctypes.Structure):
    """A store, or none if all of it is zero. An auditor, a snapshot, an answer and a view are held in the same way."""

    _fields_ = [("is_open", ctypes.c_bool), ("at", ctypes.c_void_p)]


def address_of(name: str) -> int:
    """Where the function with this name is in memory."""
    return ctypes.cast(getattr(library, name), ctypes.c_void_p).value


def text_of(status: int) -> str:
    """The outcome that a status reports."""
    return library.tg_status_text(status).decode()


def version() -> str:
    """The version of the library."""
    return library.tg_version().decode()
