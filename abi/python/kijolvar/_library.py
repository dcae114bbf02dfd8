"""Finds and loads the library, a shared object."""
from __future__ import annotations

import ctypes
import os
import pathlib
from typing import Any, Union

from ._constants import KIJOLVAR_VERSION
from ._wire import RawSettings
from .errors import LibraryError

Path = Union[str, "os.PathLike[str]"]

NAME = "libkijolvar.so"
VARIABLE = "KIJOLVAR_LIBRARY"


class Raw(ctypes.Structure):
    """A till as C sees it: a pointer that each call may change."""

    _fields_ = [("at", ctypes.c_void_p)]


def declare(library: ctypes.CDLL) -> ctypes.CDLL:
    """Declares the exports of the library to ctypes."""
    pointer, size, number = ctypes.c_void_p, ctypes.c_size_t, ctypes.c_uint32
    out, text, needed = ctypes.POINTER(pointer), ctypes.c_char_p, ctypes.POINTER(size)
    place, settings = ctypes.POINTER(ctypes.c_uint64), ctypes.POINTER(RawSettings)
    exports: dict[str, tuple[list[Any], Any]] = {
        "kijolvar_version": ([], number),
        "kijolvar_open": ([text, size, out], number),
        "kijolvar_open_file": ([text, size, text, size, out], number),
        "kijolvar_format_file": ([text, size, text, size, out], number),
        "kijolvar_migrate_file": ([text, size, text, size, out], number),
        "kijolvar_profile_mistake": ([text, size, place, text, size, needed], number),
        "kijolvar_devices": ([text, size, text, size, needed], number),
        "kijolvar_survey": ([text, size, place, text, size, needed], number),
        "kijolvar_carry_out": ([Raw, out, text, size, text, size, needed], number),
        "kijolvar_answer": ([Raw, out, text, size, needed], number),
        "kijolvar_next_errand": ([Raw, out, place, text, size, needed], number),
        "kijolvar_errand_failed": ([Raw, out], None),
        "kijolvar_host": ([Raw, out, text, size], number),
        "kijolvar_drive": ([Raw, out, text, size], number),
        "kijolvar_next_order": ([Raw, out, text, size, needed], number),
        "kijolvar_order_done": ([Raw, out, number, text, size, text, size, needed], number),
        "kijolvar_tear_off": ([Raw, out, text, size], number),
        "kijolvar_order_bytes": ([Raw, out, settings, number, number, text, size, needed], number),
        "kijolvar_replies": ([Raw, out, text, size, settings, number, text, size, needed, needed, text, size, needed],
                             number),
        "kijolvar_control": ([Raw, out, text, size, needed], number),
        "kijolvar_next_event": ([Raw, out, size, needed], number),
        "kijolvar_close": ([Raw], None),
    }
    for name, (taken, given) in exports.items():
        call = getattr(library, name)
        call.argtypes, call.restype = taken, given
    return library


def by_addresses(library: ctypes.CDLL, name: str) -> Any:
    """An export of an order's way, with addresses in place of pointers, which ctypes passes on faster."""
    call = library[name]
    place, size, text, number = ctypes.c_void_p, ctypes.c_size_t, ctypes.c_char_p, ctypes.c_uint32
    room = [place, size, place]
    given: dict[str, list[Any]] = {
        "kijolvar_carry_out": [text, size],
        "kijolvar_next_order": [],
        "kijolvar_order_done": [number, text, size],
        "kijolvar_order_bytes": [place, number, number],
        "kijolvar_replies": [text, size, place, number, text, size, place, place],
    }
    call.argtypes, call.restype = [Raw, place, *given[name], *room], number
    return call


def carrier(library: ctypes.CDLL) -> Any:
    """The export that carries out lines, by addresses."""
    return by_addresses(library, "kijolvar_carry_out")


def load(path: Path) -> ctypes.CDLL:
    """Loads the library at a path. A name without a slash that is no file here is looked for where the system has its
    libraries. Raises OSError if there is none."""
    return ctypes.CDLL(os.path.abspath(path) if os.path.exists(path) else os.fspath(path))


def places() -> list[pathlib.Path]:
    """Where the library is looked for beside the package."""
    package = pathlib.Path(__file__).resolve().parent
    return [package / NAME, package.parent / NAME]


def find(path: Path | None = None) -> ctypes.CDLL:
    """Loads the library: from the path, or from the path in KIJOLVAR_LIBRARY, or from beside the package.

    Raises:
        LibraryError: No library is there, it can't be loaded, or it is of another version.
    """
    beside = next((place for place in places() if place.exists()), None)
    where = path or os.environ.get(VARIABLE) or beside
    if where is None:
        looked = ", ".join(map(str, places()))
        raise LibraryError(f"{NAME} not found: pass library=.., set {VARIABLE}, or put it at one of: {looked}")
    try:
        library = load(where)
    except OSError as fault:
        raise LibraryError(f"{os.fspath(where)} can't be loaded: {fault}") from fault
    return checked(library)


def checked(library: ctypes.CDLL) -> ctypes.CDLL:
    """A library that was loaded, with its exports declared.

    Raises:
        LibraryError: It isn't this library, or it is of another version than this package is for.
    """
    try:
        version = library.kijolvar_version()
        if version != KIJOLVAR_VERSION:
            raise LibraryError(f"{library._name} has interface version {version}, and this package needs "
                               f"{KIJOLVAR_VERSION}")
        return declare(library)
    except AttributeError as fault:
        raise LibraryError(f"{library._name} can't be used: {fault}") from fault
