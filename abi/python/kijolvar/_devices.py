"""What stands behind the controls: the devices of the profile, their hardware, and the orders for a host."""
from __future__ import annotations

from dataclasses import dataclass
from operator import index
from typing import TYPE_CHECKING, SupportsIndex, Union

from ._control import Text, device_word, hexed, is_true
from ._constants import KIJOLVAR_NO_DEVICE, KIJOLVAR_NO_MEMORY
from ._faults import ExchangeError, InputError, LineError, NoDeviceError, NoMemoryError

if TYPE_CHECKING:
    from .till import Till


@dataclass(frozen=True)
class WorkDone:
    """A request that was queued is printed."""

    output_id: int


@dataclass(frozen=True)
class WorkFailed:
    """A request that was queued failed, and is still the first. An ErrorEvent follows."""

    code: int
    extended: int


@dataclass(frozen=True)
class DrawerView:
    """What a cash drawer is physically."""

    is_open: bool


@dataclass(frozen=True)
class ScannerView:
    """A scanner: there is nothing to see."""


@dataclass(frozen=True)
class DisplayView:
    """What a line display shows, row by row: its characters, and the attribute of each (DISP_DT_..)."""

    characters: bytes
    attributes: tuple[int, ...]


@dataclass(frozen=True)
class PrintedLine:
    """A line of the receipt: its alignment ("left", "center" or "right"), its characters, and which are bold."""

    alignment: str
    characters: bytes
    is_bold: tuple[bool, ...]


@dataclass(frozen=True)
class PrintedCut:
    """A cut of the paper, by so many percent."""

    percentage: int


@dataclass(frozen=True)
class PrinterView:
    """What a receipt printer is physically.

    Attributes:
        is_cover_open: Whether its cover is open.
        lines_left: How many lines of paper are left.
        buffer: The line that isn't printed yet.
        items: The lines and cuts of the paper, the first one first.
    """

    is_cover_open: bool
    lines_left: int
    buffer: PrintedLine
    items: tuple[Union[PrintedLine, PrintedCut], ...]


View = Union[DrawerView, ScannerView, DisplayView, PrinterView]
_ALIGNMENTS = {"l": "left", "c": "center", "r": "right"}


@dataclass(frozen=True)
class Order:
    """An order for a device that the host has as hardware.

    Attributes:
        device: The device's name.
        name: `openDrawer`, `displayTextAt`, `clearText`, `scrollText`, `print` or `cutPaper`.
        arguments: The order's arguments: numbers, and bytes for texts (abi/README.md, "Your own devices").
    """

    device: str
    name: str
    arguments: tuple[Union[int, bytes], ...]


# Which arguments of an order are bytes.
_TEXTS = {("displayTextAt", 2), ("print", 0)}


def read_order(text: str) -> Order:
    """The order that a line tells."""
    device, name, *words = text.split()
    return Order(device, name, tuple(_unhexed(word) if (name, at) in _TEXTS else int(word)
                                     for at, word in enumerate(words)))


def _unhexed(word: str) -> bytes:
    return b"" if word == "-" else bytes.fromhex(word)


def _line(alignment: str, characters: str, bold: str) -> PrintedLine:
    is_bold = () if bold == "-" else tuple(digit == "1" for digit in bold)
    return PrintedLine(_ALIGNMENTS[alignment], _unhexed(characters), is_bold)


def _item(word: str) -> PrintedLine | PrintedCut:
    kind, *parts = word.split(":")
    return PrintedCut(int(parts[0])) if kind == "x" else _line(kind, parts[0], parts[1])


def read_view(text: str) -> View:
    """What `show` tells of a device, behind `ok`."""
    words = text.split()
    if not words:
        return ScannerView()
    if len(words) == 1:
        return DrawerView(words[0] == "open")
    if len(words) == 2:
        return DisplayView(_unhexed(words[0]), tuple(map(int, words[1])))
    cover, lines, buffer, *items = words
    return PrinterView(cover == "open", int(lines), _line("l", *buffer.split(":")), tuple(map(_item, items)))


class Device:
    """A device of the profile, as the host sees it.

    Its hardware is simulated, unless the host has it (`till.host`). Either way, say here what happens at it, and let it
    work on output that waits. Hard Totals have no such device.
    """

    def __init__(self, till: Till, name: str) -> None:
        self._till, self._name = till, device_word(name)

    @property
    def name(self) -> str:
        """The device's name in the profile."""
        return self._name.decode()

    def __repr__(self) -> str:
        return f"<kijolvar.Device {self.name!r}>"

    def _answer(self, line: bytes) -> str:
        answer = self._till._answer(line).decode().rstrip("\n")
        if answer == "bad device":
            raise NoDeviceError(KIJOLVAR_NO_DEVICE, f"there is no device {self.name!r}, or it has no peripheral")
        if answer == "memory":
            raise NoMemoryError(KIJOLVAR_NO_MEMORY, "there was no memory, and nothing was done")
        if answer == "bad spare":
            raise ExchangeError("NoSpare")
        if answer.startswith("refused "):
            raise ExchangeError(answer.split()[1])
        return answer

    def _happens(self, words: bytes, is_in_range: bool = True) -> None:
        """Says what has happened, and whether its number is in its range."""
        answer = self._answer(b"input %b %b" % (self._name, words))
        if answer == "bad input" or answer == "bad line" and not is_in_range:
            raise InputError(f"that can't happen at {self.name!r}")
        if answer == "bad line":
            raise OverflowError(f"all that is said to happen at {self.name!r} has at most 140,000 bytes in hex")
        if answer != "ok":
            raise LineError(answer)

    def power(self, is_on: bool) -> None:
        """The device is switched on or off."""
        self._happens(b"power on" if is_true(is_on) else b"power off")

    def drawer(self, is_open: bool) -> None:
        """The drawer is opened or closed by hand."""
        self._happens(b"open" if is_true(is_open) else b"closed")

    def scan(self, kind: SupportsIndex, data: Text, label: Text) -> None:
        """The scanner reads a bar code.

        Args:
            kind: The type of the bar code, 0 to 999, such as 104 (SCAN_SDT_EAN13).
            data: All that was read.
            label: The label in it.

        Raises:
            InputError: The type is out of its range, or the device is no scanner.
            OverflowError: Data and label have more than 70,000 bytes together.
        """
        self._happens(f"scan {index(kind)} {hexed(data)} {hexed(label)}".encode(), 0 <= index(kind) <= 999)

    def scan_fault(self) -> None:
        """The scanner fails to read a bar code."""
        self._happens(b"fault")

    def cover(self, is_open: bool) -> None:
        """The printer's cover is opened or closed by hand."""
        self._happens(b"cover open" if is_true(is_open) else b"cover closed")

    def paper(self, lines: SupportsIndex) -> None:
        """The printer is loaded with paper: so many lines are left, 0 to 100,000.

        Raises:
            InputError: The lines are out of their range, or the device is no printer.
        """
        self._happens(b"paper %d" % index(lines), 0 <= index(lines) <= 100_000)

    def work(self) -> WorkDone | WorkFailed | None:
        """Works on the device's output: its first request that waits is done, or fails. Returns None if none waits."""
        answer = self._answer(b"work %b" % self._name)
        verb, *words = answer.split()
        if verb == "idle":
            return None
        if verb == "done":
            return WorkDone(int(words[0]))
        if verb == "failed":
            return WorkFailed(int(words[0]), int(words[1]))
        raise LineError(answer)

    def show(self) -> View:
        """Returns what the device is physically."""
        answer = self._answer(b"show %b" % self._name)
        if answer != "ok" and not answer.startswith("ok "):
            raise LineError(answer)
        return read_view(answer[3:])

    def attach(self, spare: SupportsIndex) -> None:
        """Attaches the spare peripheral with this number, counted from 1. If the device has a driver, that drives it.

        Raises:
            ExchangeError: No spare has the number, or the device is unknown, has its peripheral, or is of another kind.
        """
        number = index(spare)
        # A line has no numbers below 0, and none of more than 18 digits. No spare has the number 0.
        self._exchanged(b"attach %b %d" % (self._name, number if 0 <= number < 10 ** 18 else 0))

    def detach(self) -> None:
        """Detaches the device's peripheral, which ends.

        Raises:
            ExchangeError: The device is unknown, has no peripheral, or a control has it open.
        """
        self._exchanged(b"detach %b" % self._name)

    def _exchanged(self, line: bytes) -> None:
        answer = self._answer(line)
        if answer != "ok":
            raise LineError(answer)
