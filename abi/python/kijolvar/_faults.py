"""What goes wrong, but for the classes of the standard's codes."""
from __future__ import annotations

from typing import ClassVar

from ._constants import (KIJOLVAR_BAD_PROFILE, KIJOLVAR_BAD_SETTINGS, KIJOLVAR_CUT, KIJOLVAR_DAMAGED,
                         KIJOLVAR_DISK_FAILED, KIJOLVAR_FORMATTED, KIJOLVAR_MOVED, KIJOLVAR_NO_DEVICE,
                         KIJOLVAR_NO_MEMORY, KIJOLVAR_NO_ORDER, KIJOLVAR_TOO_SMALL, KIJOLVAR_UNFORMATTED)


class Error(Exception):
    """Anything that this package raises of its own."""


class UposError(Error):
    """A call was refused with a result code of the standard. There is a subclass for each code.

    Attributes:
        code: The result code, such as E_ILLEGAL.
        extended: The extended code, or 0 if the code isn't E_EXTENDED.
        call: The call that was refused, and the control.
        name: The name of the code, such as "E_ILLEGAL".
        summary: What the code means, in one sentence.
        reason: What it means of this call; the summary if nothing more is known.
    """

    name: ClassVar[str] = ""
    summary: ClassVar[str] = "The call was refused."

    def __init__(self, code: int, extended: int = 0, call: str = "", reason: str = "") -> None:
        super().__init__(code, extended, call, reason)
        self.code, self.extended, self.call = int(code), int(extended), call
        self.reason = reason or self.summary

    def __str__(self) -> str:
        numbers = f"{self.code} {self.extended}" if self.extended else f"{self.code}"
        named = f"{self.name} ({numbers})" if self.name else numbers
        return f"{self.call}: {named}: {self.reason}" if self.call else f"{named}: {self.reason}"


class LibraryError(Error):
    """The library can't be loaded, or it is of another version."""


class LibraryFault(Error):
    """The library answered a call with a code of its own (KIJOLVAR_..).

    Attributes:
        library_code: The code.
        text: What it means.
    """

    def __init__(self, library_code: int, text: str = "") -> None:
        super().__init__(library_code, text)
        self.library_code, self.text = library_code, text

    def __str__(self) -> str:
        return self.text or f"the library answered {self.library_code}"


class ProfileError(LibraryFault):
    """The profile is refused (docs/reference/profile.md says what a profile may have).

    Attributes:
        reason: What is wrong with it; the entry is named, if it is in one.
        line, column: Where the text stops being TOML, counted from 1; None if it is TOML.
    """

    def __init__(self, reason: str = "the profile is refused", line: int | None = None,
                 column: int | None = None) -> None:
        where = f"line {line}, column {column}: " if line is not None else ""
        super().__init__(KIJOLVAR_BAD_PROFILE, f"{where}{reason}")
        self.args = self.reason, self.line, self.column = reason, line, column


class NoMemoryError(LibraryFault, MemoryError):
    """The library had no memory for a call. Nothing has changed, unless `library_code` is KIJOLVAR_CUT: then the call
    was carried out, or some of its lines, and the answer is lost."""


class DiskError(LibraryFault):
    """The file of the totals failed, or an interrupt came while a change was written. What the last call changed may
    not be in the file; the till can only be closed."""


class DamagedError(LibraryFault):
    """The bytes of a file of totals break a rule (docs/reference/totals-file.md). Nothing was written.

    Attributes:
        reason: The rule; "" if the call doesn't say. `kijolvar.check` does.
        place: Where, counted in bytes from the first of the file; None if the call doesn't say.
        path: The path of the file.
    """

    def __init__(self, reason: str = "", place: int | None = None, path: str | None = None) -> None:
        whose = f"{path}: the totals" if path is not None else "the totals"
        where = f" at byte {place}: {reason}" if place is not None else ""
        super().__init__(KIJOLVAR_DAMAGED, f"{whose} are damaged{where}: keep the file, and work on a copy of it")
        self.args = self.reason, self.place, self.path = reason, place, path


class UnformattedError(LibraryFault):
    """The file isn't formatted: it has no totals. Nothing was written."""


class MovedError(LibraryFault):
    """The totals in the file have layout 2 already. Nothing was written."""


class FormattedError(LibraryFault):
    """The file has totals already, which stay as they are."""


class TooSmallError(LibraryFault):
    """The file of totals is shorter than KIJOLVAR_DISK_LENGTH bytes."""


class NoDeviceError(LibraryFault):
    """The profile has no such device, or no peripheral is attached to it."""


class NoOrderError(LibraryFault):
    """There is no order, or the order has no bytes for hardware of its kind."""


class SettingsError(LibraryFault, ValueError):
    """A setting of the hardware is out of its range."""


class TillClosedError(Error):
    """The till is closed."""


# What stands for the thread of a till in a process that was forked from the till's. No thread has this number.
NO_THREAD = 0


class ThreadError(Error):
    """The till was used in another thread than the one that opened it, or in a process that was forked.

    Attributes:
        owner, caller: The numbers of the threads; the owner is 0 in a process that was forked.
    """

    def __init__(self, owner: int, caller: int) -> None:
        super().__init__(owner, caller)
        self.owner, self.caller = owner, caller

    def __str__(self) -> str:
        where = f"in thread {self.owner}" if self.owner != NO_THREAD else "before this process was forked"
        return (f"a till can be used only in the thread that opened it: it was opened {where}, "
                f"and this is thread {self.caller}")


class InCallError(Error):
    """The till was used while another call of it is under way, as by a signal's handler. The call was refused, and has
    changed nothing.

    Catch it in the handler. Otherwise it passes into the call that is under way, as an interrupt does."""


class ExchangeError(Error):
    """A peripheral can't be attached or detached.

    Attributes:
        reason: "Unknown", "KindDiffers", "InUse", "Vacant", or "NoSpare" if no spare has the number.
    """

    def __init__(self, reason: str) -> None:
        super().__init__(reason)
        self.reason = reason

    def __str__(self) -> str:
        return f"the peripheral can't be exchanged: {self.reason}"


class DriverError(Error):
    """A device can't have this driver: it is of another category, or has a driver already, or the driver has another
    device. Or it is an InOrderError."""


class InOrderError(DriverError, InCallError):
    """The till was used while a driver carries out an order, by the driver or a signal's handler. The call was refused,
    and has changed nothing. A driver may call `order_bytes` and `replies` meanwhile."""


class InputError(Error):
    """What is said to have happened can't happen at a device of this kind, or a number of it is out of its range."""


class LineError(Error):
    """The text layer refused a line: its shape is wrong, or it names no control.

    Attributes:
        answer: What the line was answered.
    """

    def __init__(self, answer: str) -> None:
        super().__init__(answer)
        self.answer = answer

    def __str__(self) -> str:
        return f"the line was answered: {self.answer}"


class NameInUseError(LineError):
    """A control of the till has the name already.

    Attributes:
        control: The name.
    """

    def __init__(self, control: str) -> None:
        super().__init__("bad control")
        self.args = self.control, = control,

    def __str__(self) -> str:
        return f"a control has the name already: {self.control}"


class TooManyControlsError(Error):
    """The till has as many controls as there may be, closed ones among them."""


_FAULTS: dict[int, tuple[type[LibraryFault], str]] = {
    KIJOLVAR_NO_MEMORY: (NoMemoryError, "there was no memory, and nothing was done"),
    KIJOLVAR_CUT: (NoMemoryError, "there was no memory for the whole answer"),
    KIJOLVAR_DISK_FAILED: (DiskError, "the totals file failed: close the till; before you open the file again, read "
                           "docs/reference/trouble.md, \"After a failed sync\""),
    KIJOLVAR_FORMATTED: (FormattedError, "the file has totals already"),
    KIJOLVAR_TOO_SMALL: (TooSmallError, "the file is too short for totals"),
    KIJOLVAR_UNFORMATTED: (UnformattedError, "the file isn't formatted: it has no totals"),
    KIJOLVAR_MOVED: (MovedError, "the totals have layout 2 already: there is nothing to do"),
    KIJOLVAR_NO_DEVICE: (NoDeviceError, "the profile has no device of the name that has orders, or replies"),
    KIJOLVAR_NO_ORDER: (NoOrderError, "there is no order, or it has no bytes"),
    KIJOLVAR_BAD_SETTINGS: (SettingsError, "a setting of the hardware is out of its range"),
}


def library_fault(code: int) -> LibraryFault:
    """The exception for a code of the library that isn't KIJOLVAR_OK."""
    if code == KIJOLVAR_BAD_PROFILE:
        return ProfileError()
    if code == KIJOLVAR_DAMAGED:
        return DamagedError()
    kind, text = _FAULTS.get(code, (LibraryFault, ""))
    return kind(code, text)
