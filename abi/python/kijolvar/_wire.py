"""The bytes of orders for the hardware, and the replies of printers: what the library has to know, and what it says."""
from __future__ import annotations

import ctypes
from dataclasses import dataclass, field
from enum import IntEnum
from typing import Any, Final

# What is asked behind an order's bytes, in place of a job's number.
_PAPER_BEHIND, _DRAWER_BEHIND, _NOTHING_BEHIND = 65_536, 65_537, 65_538
_LARGEST_JOB = 65_535
_LARGEST = 2 ** 32 - 1
_NAMES = ("width", "cutter", "feed", "lines", "pin", "on", "off", "open_is_high", "protocol")


class RawSettings(ctypes.Structure):
    """The settings as C sees them."""

    _fields_ = [(name, ctypes.c_uint32) for name in _NAMES]


class Asked(IntEnum):
    """What a printer is asked. The first four are answered at once (DLE EOT), also while the printer is offline. The
    others are answered in order: once the printer has done all that came before them (GS r)."""

    PRINTER = 1
    OFFLINE_CAUSE = 2
    FAULT = 3
    PAPER = 4
    PAPER_IN_ORDER = 5
    DRAWER_IN_ORDER = 6


#: What `job` of `order_bytes` is to ask for the paper or the drawer in order, for a printer that acknowledges no jobs.
JOB_PAPER: Final = _PAPER_BEHIND
JOB_DRAWER: Final = _DRAWER_BEHIND


@dataclass(frozen=True)
class WireSettings:
    """What the hardware of a device is. Only the settings of the device's kind count.

    Attributes:
        width: Printer: how many characters it prints on a line, at least the device's RecLineChars.
        cutter: Printer: what its cutter does: 0 cuts both ways, 1 full only, 2 partial only; 3 if there is none.
        feed: Printer: how far it feeds the paper before a cut, 0 to 255 dots; without a cutter, lines.
        lines: Printer: how many lines a good roll has: more than the device's `near`, at most 100,000.
        pin: Drawer: the pin of the connector that opens it, 2 or 5.
        on: Drawer: how long the pulse lasts, 0 to 255, in 2 ms.
        off: Drawer: how long the pin is off after it at least, 0 to 255, in 2 ms.
        open_is_high: Drawer: whether pin 3 of the connector is high while it is open.
        protocol: Display: 0 is CD5220, 1 ESC/POS.
    """

    width: int = 42
    cutter: int = 0
    feed: int = 0
    lines: int = 1000
    pin: int = 2
    on: int = 25
    off: int = 250
    open_is_high: bool = True
    protocol: int = 0
    #: The settings as the library takes them.
    raw: Any = field(init=False, repr=False, compare=False, default=None)

    def __post_init__(self) -> None:
        numbers = [int(getattr(self, name)) for name in _NAMES]
        for name, number in zip(_NAMES, numbers):
            if not 0 <= number <= _LARGEST:
                raise ValueError(f"{name} is out of its range: {number}")
        object.__setattr__(self, "raw", RawSettings(*numbers))


@dataclass(frozen=True)
class Reply:
    """What was read of a printer's bytes, up to the end of its first reply.

    Attributes:
        used: How many bytes were read. Pass the others again, with what comes after them.
        skipped: How many of those are no reply.
        lines: The lines of the reply: inputs and `status ..`, or `job N` (abi/README.md). Empty if no reply ended.
    """

    used: int
    skipped: int
    lines: tuple[str, ...]

    @property
    def inputs(self) -> tuple[str, ...]:
        """The inputs by which the device becomes what the printer says, in order, such as `input r1 cover open`."""
        return tuple(line for line in self.lines if line.startswith("input "))

    @property
    def job(self) -> int | None:
        """The number of the job that is printed, or None if the reply says no such thing."""
        return next((int(line[4:]) for line in self.lines if line.startswith("job ")), None)

    @property
    def status(self) -> dict[str, str] | None:
        """What the printer says of itself, as `{"cover": "open", "paper": "good"}`, or None if it says nothing."""
        words = next((line.split()[1:] for line in self.lines if line.split()[0] == "status"), None)
        return None if words is None else dict(zip(words[::2], words[1::2]))


def behind(job: int | None) -> int:
    """What is asked behind an order's bytes, as the library takes it."""
    if job is None:
        return _NOTHING_BEHIND
    if not 0 <= job <= _DRAWER_BEHIND:
        raise ValueError(f"a job's number is 0 to {_LARGEST_JOB}: {job}")
    return int(job)


def expected(asked: int | None) -> int:
    """What a printer was asked, as the library takes it."""
    return 0 if asked is None else int(Asked(asked))
