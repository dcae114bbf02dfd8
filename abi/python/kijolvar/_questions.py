"""What the library says of a profile and of a file of totals, without a till."""
from __future__ import annotations

import ctypes
import os
import pathlib
from collections.abc import Iterator
from dataclasses import dataclass
from typing import Any, Union

from . import _files, _library
from ._constants import (KIJOLVAR_BAD_PROFILE, KIJOLVAR_BAD_TEXT, KIJOLVAR_DAMAGED, KIJOLVAR_OK, KIJOLVAR_SHORT)
from ._faults import DamagedError, LibraryFault, ProfileError, library_fault
from ._library import Path

Profile = Union[str, "os.PathLike[str]"]
_ROOM = 4096
# What a line of a profile has, and hardly any path.
_NO_PATH = frozenset("=[]#\"")


def text_of(profile: Profile | None) -> str:
    """The text of a profile. To the library an empty one is the built-in profile; here that is None."""
    if profile is None:
        return ""
    if isinstance(profile, str):
        return profile or "\n"
    try:
        return pathlib.Path(profile).read_text(encoding="utf-8") or "\n"
    except UnicodeDecodeError as fault:
        # As the library says it of bytes.
        raise ProfileError("not UTF-8", *_place(fault.object[:fault.start].decode())) from None


def _place(before: str) -> tuple[int, int]:
    """The line and the column behind a text, counted from 1."""
    return before.count("\n") + 1, len(before) - before.rfind("\n")


def library_of(library: Path | ctypes.CDLL | None) -> ctypes.CDLL:
    """The library, by its path, or the one that was loaded already, by whomever."""
    return _library.checked(library) if isinstance(library, ctypes.CDLL) else _library.find(library)


def _ask(call: Any, given: bytes, *places: Any) -> tuple[int, str]:
    """Asks about bytes: the code, and the text of the answer."""
    room: Any = ctypes.create_string_buffer(_ROOM)
    needed = ctypes.c_size_t()
    while True:
        code = call(given, len(given), *places, room, len(room), ctypes.byref(needed))
        if code != KIJOLVAR_SHORT:
            return code, room[:needed.value].decode()
        room = ctypes.create_string_buffer(needed.value)


def explain(library: ctypes.CDLL, text: str) -> LibraryFault:
    """The exception for a profile that the library has refused."""
    profile, at = text.encode(), ctypes.c_uint64()
    code, reason = _ask(library.kijolvar_profile_mistake, profile, ctypes.byref(at))
    if code == KIJOLVAR_BAD_PROFILE:
        return ProfileError(reason)
    if code == KIJOLVAR_BAD_TEXT:
        before = profile[:at.value].decode(errors="replace")
        if "\n" not in text:
            reason += _hint(text)
        return ProfileError(reason, *_place(before))
    return library_fault(code)


def _hint(text: str) -> str:
    """What else is wrong if a refused text of one line is the path of a file, or looks like one."""
    if os.path.exists(text):
        missing = ""
    elif _NO_PATH.isdisjoint(text):
        missing = f" there is no file {text!r}, and"
    else:
        return ""
    return f":{missing} a str is the text of a profile; pass the path of a file as a pathlib.Path"


@dataclass(frozen=True)
class ProfileDevice:
    """A device of a profile. A number that its category doesn't have is None.

    Attributes:
        name: The name by which controls open it.
        category: "CashDrawer", "Scanner", "LineDisplay", "POSPrinter" or "HardTotals".
        rows, columns: The size of a line display.
        chars: The characters of a printer's line.
        near: How many lines of paper are left where a printer's paper is near its end.
    """

    name: str
    category: str
    rows: int | None = None
    columns: int | None = None
    chars: int | None = None
    near: int | None = None


def devices(profile: Profile | None = None, library: Path | ctypes.CDLL | None = None) -> list[ProfileDevice]:
    """The devices of a profile, in its order.

    Args:
        profile: As `kijolvar.open` takes it.
        library: Likewise.

    Raises:
        ProfileError: The profile is refused.
    """
    found, text = library_of(library), text_of(profile)
    code, lines = _ask(found.kijolvar_devices, text.encode())
    if code == KIJOLVAR_BAD_PROFILE:
        raise explain(found, text)
    if code != KIJOLVAR_OK:
        raise library_fault(code)
    return [_device(*line.split()) for line in lines.splitlines()]


def _device(name: str, category: str, *numbers: str) -> ProfileDevice:
    named = {key: int(number) for key, number in zip(numbers[::2], numbers[1::2])}
    return ProfileDevice(name, category, **named)


@dataclass(frozen=True)
class TotalsContents:
    """What a file of totals holds (docs/reference/console.md, "What a totals file holds").

    Attributes:
        layout: 1 or 2 (docs/reference/totals-file.md).
        slot: The place of the current image's slot, in bytes from the first of the file.
        sequence: The sequence of the current image.
        records: How many records are behind it.
        room: The bytes of the longest group of changes that fits behind them; None if not even an empty one fits.
        files: The files, with the changes of the records: their bytes by their names, in the order of creation.
    """

    layout: int
    slot: int
    sequence: int
    records: int
    room: int | None
    files: dict[bytes, bytes]


def _bytes_of(word: str) -> bytes:
    return b"" if word == "-" else bytes.fromhex(word)


def _files_of(lines: list[list[str]]) -> Iterator[tuple[bytes, bytes]]:
    """The names and the bytes of files, of which each has five lines."""
    for place in range(0, len(lines), 5):
        name, _, _, content, _ = lines[place:place + 5]
        yield _bytes_of(name[1]), _bytes_of(content[1])


def _survey(library: ctypes.CDLL, path: Path, data: bytes) -> str:
    """What the library says of the bytes of a file, if they are sound."""
    at = ctypes.c_uint64()
    code, told = _ask(library.kijolvar_survey, data, ctypes.byref(at))
    with _files.naming(os.fspath(path)):
        if code == KIJOLVAR_DAMAGED:
            raise DamagedError(told, at.value)
        if code != KIJOLVAR_OK:
            raise library_fault(code)
    return told


def files(path: Path, library: Path | ctypes.CDLL | None = None) -> TotalsContents:
    """What a file of totals holds. It is only read, and first synced, so that what is found stays.

    Raises:
        OSError: It can't be synced or read, as a folder or a FIFO.
        FileNotFoundError: The file is missing.
        BlockingIOError: A till or another program has the file open.
        DamagedError: The file breaks a rule; the exception says which, and where.
        UnformattedError: The file isn't formatted.
        TooSmallError: The file is too short for totals.
    """
    found = library_of(library)
    lines = [line.split(" ", 1) for line in _survey(found, path, _files.read_totals(path)).splitlines()]
    layout, slot, sequence, records, room = (word[1] for word in lines[:5])
    return TotalsContents(int(layout), int(slot), int(sequence), int(records), None if room == "none" else int(room),
                          dict(_files_of(lines[6:])))


def check(path: Path, library: Path | ctypes.CDLL | None = None) -> None:
    """Checks that a file holds sound totals. It is only read and synced.

    Raises:
        DamagedError: The file breaks a rule; the exception says which, and where.
        UnformattedError, TooSmallError, FileNotFoundError, BlockingIOError, OSError: As `kijolvar.files`.
    """
    files(path, library)


def backup(path: Path, to: Path, library: Path | ctypes.CDLL | None = None) -> None:
    """Copies a file of totals to a path where nothing is, also while a till has it open.

    The file is only read, and not locked: again and again, until two readings in a row give the same bytes. They have
    to be sound. The copy appears whole or not at all: it is written to a file beside it, with `.part` at its end, and
    synced before it gets its name. Without hard links, as on a FAT stick, an empty file takes the name first, so a
    power cut may leave it empty.

    Args:
        path: The file of totals.
        to: The path of the copy, which is for its owner alone.
        library: As `kijolvar.open` takes it.

    Raises:
        FileExistsError: Anything has the name of the copy, or that with `.part` at its end, as after a crash.
        BlockingIOError: The file changes from each reading to the next, in 1,000 of them.
        DamagedError, UnformattedError, TooSmallError, FileNotFoundError: As `kijolvar.files`.
        OSError: The file can't be read, or the copy can't be made.
    """
    found, data = library_of(library), _files.read_steady(path)
    _survey(found, path, data)
    _files.put_new(to, data)


def migrate(path: Path, library: Path | ctypes.CDLL | None = None) -> None:
    """Moves the totals in a file to layout 2, in place: their files stay, and may be more and longer from then on.

    A crash at any moment leaves the files by one layout or the other, and you can move the file again
    (docs/reference/totals-file.md, "The move to layout 2"). If it failed, restart the machine first
    (docs/reference/trouble.md).

    Raises:
        MovedError: The totals have layout 2 already.
        DamagedError, UnformattedError, TooSmallError, FileNotFoundError, BlockingIOError: As `kijolvar.files`.
        OSError: The file couldn't be written.
    """
    _files.move_totals(library_of(library), path)
