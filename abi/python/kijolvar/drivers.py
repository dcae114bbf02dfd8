"""Drivers: they move bytes between a till and the devices on its ports.

    till.drive("r1", EscPosPrinter("/dev/usb/lp0", drawer="d1"))
    till.drive("p1", SerialDisplay(SerialPort("/dev/ttyUSB0", 9600)))
    till.drive("s1", WedgeScanner("/dev/input/by-id/usb-scanner-event-kbd"))

The library says what the bytes of orders and replies are. A driver waits for the device's acknowledgement, with a
timeout, and opens a port that was lost again. It is used in the till's thread alone. For other hardware make a class of
your own from `Driver`.
"""
from __future__ import annotations

import contextlib
import errno
import fcntl
import os
import stat
import struct
import time
from collections import deque
from dataclasses import dataclass
from typing import TYPE_CHECKING, Literal, Union

from ._codes import kind_of
from ._devices import Order
from ._library import Path
from ._links import AskedLink, PrinterLink, Wire
from ._questions import ProfileDevice
from ._unique import Unique
from ._wire import WireSettings
from .ports import FilePort, MinorFaults, Port, PortError, check_choice, port_of, unlock

if TYPE_CHECKING:
    from .till import Till

Cutter = Literal["both", "full", "partial", "absent"]
Protocol = Literal["cd5220", "escpos"]
_CUTTERS, _PROTOCOLS = ("both", "full", "partial", "absent"), ("cd5220", "escpos")
# The most lines that a printer's device counts.
_MOST_LINES = 100_000
# As many lines as a request of line feeds alone feeds; and from how many lines on the count begins again before its
# end.
_MOST_FEEDS, _LONG = 4096, 100
# How long a lost port may take to open, in seconds, while other devices wait, and that of a scanner at first.
_QUICKLY, _SCANNER_OPENS = 0.02, 2.0
# After how long without an order nobody knows what a display shows, in seconds.
_UNSEEN = 10.0
# The longest timeout or pause, in seconds: that of the drivers of C, whose milliseconds have 31 bits.
_MOST_SECONDS = 2_147_483


def _check_timeout(timeout: float) -> None:
    """Refuses a timeout in which no order can succeed, or after which none would end."""
    # NaN is no more than 0, and no less than anything.
    if not 0 < timeout <= _MOST_SECONDS:
        raise ValueError(f"the timeout is above 0 and at most {_MOST_SECONDS:,} seconds, such as 5.0: not {timeout!r}")


def _check_pause(name: str, seconds: float) -> None:
    """Refuses a pause that no clock can tell, or that would never end."""
    if not 0 <= seconds <= _MOST_SECONDS:
        raise ValueError(f"{name} is 0 to {_MOST_SECONDS:,} seconds, such as 1.0: not {seconds!r}")


class Driver(Unique):
    """What a till asks of a driver. Make a class of your own from it for your hardware. A driver can't be copied: both
    would have the same port.

    Attributes:
        category: The category of the devices that it is for, such as "POSPrinter". Without one it is for any.
        reads_orders: Whether `carry_out` looks at the order. If not, it gets one without a name and arguments.
    """

    _noun = "a driver"
    category = ""
    reads_orders = True

    @property
    def is_online(self) -> bool:
        """Whether the device is there. If not, the till takes it as switched off, once it has taken what `scans`
        returns."""
        return True

    @property
    def port_error(self) -> PortError | None:
        """Why the driver's port couldn't be opened the last time; None once it is open, or if there is no port. An
        OfflineError of a call names it."""
        return None

    @property
    def is_quiet(self) -> bool:
        """Whether the device is there and `happened` certainly has nothing to say, so that it needn't be asked."""
        return False

    def begin(self, till: Till, device: ProfileDevice) -> None:
        """Begins, as `start` does, for a driver that needs the till: its `order_bytes` and `replies`."""
        self.start(device)

    def start(self, device: ProfileDevice) -> None:
        """Begins. The device is that of the profile. Hardware that isn't there is no error: `poll` looks for it."""

    def carry_out(self, order: Order) -> bool:
        """Carries out an order, and returns whether the device has done it. It must return in a bounded time."""
        return False

    def reported(self) -> None:
        """The till has taken that the last order is done. Until then an interrupt may end the call, and the order has
        failed though the device has done it."""

    def happened(self) -> list[str]:
        """What has happened at the device since the last call: a str for each `input` line, with the words after the
        device's name, such as "cover open" and "paper 0". The till asks after an order that wasn't done, which it then
        answers accordingly."""
        return []

    def poll(self) -> None:
        """Reads what the device has said, and looks for one that was lost, without waiting."""

    def scans(self) -> list[Scan]:
        """The codes that were read since the last call."""
        return []

    def others(self) -> dict[str, Driver]:
        """Other devices of the till on the same port, by their names, and their drivers."""
        return {}

    def files(self) -> list[int]:
        """The file descriptors at which something may come."""
        return []

    def read_ahead(self) -> int | None:
        """Reads what a scanner has sent (`Port.glance`), and keeps it for `poll`, while an order waits at a `Port` of
        another device: the system keeps little of what a keyboard types. Returns the file descriptor if more may be
        read once it comes.

        It mustn't wait. The order fails if it raises anything but PortError.
        """
        return None

    def attached(self) -> None:
        """The device has another peripheral now (`attach`), which shows nothing yet of what this driver has said
        before. The orders are the driver's again."""

    def given_up(self) -> None:
        """The application has given up what a printer didn't print. The same order is a new one from now on. Once a
        line has opened a control (`Till.carry_out`), it may be another printer's."""

    def close(self) -> None:
        """Ends, and closes the port. It isn't called in a process that was forked from the till's."""


class EscPosPrinter(Driver):
    """A receipt printer with ESC/POS, and the drawer on its connector.

    An order counts as done once the printer has acknowledged it (GS ( H). If an order failed and the next one is the
    same, as a retry is, it goes on with the first line or cut that the printer hasn't acknowledged, also if the
    control was released or closed meanwhile. Output that waits (AsyncMode) does so though other orders were printed at
    once meanwhile. It is a new order, of which all is printed, if the application has given up the one that failed:
    with `clear_output`, or with the reply ER_CLEAR to its ErrorEvent. Once a line has opened a control
    (`Till.carry_out`), each gives up the failed orders of all printers. It is a new one, too, in another till, or if
    another order was printed at once meanwhile, but not if that put nothing on the paper.

    A serial line with flow control keeps what was sent while the printer is off. If the printer says nothing for 2
    seconds, or for the timeout if that is shorter, the order has failed, and what isn't acknowledged of it is printed
    again: parts of lines may be on the paper beside the whole ones. So is what it acknowledges of an order that failed
    for no reason (FailureError) while the till doesn't look for 2 seconds, as `run_devices` does: it may have been off.
    The same counts for an order during which the process stands still for 2 seconds, or the machine is suspended. One
    that has said by itself that it is offline may be silent, as while its feed button is held: it says that it goes on.
    If it has answered a question since, it counts as off once it is silent for the timeout.

    With is_asked acknowledgements have no number. If that of a line doesn't come, the next order first asks once more.
    If both answers come, however late, the line is printed. If one comes alone, the other is lost, and the order that
    failed goes on with that line. To find this out takes a second, and up to 2 beside the timeout, however short that
    is. As long as neither comes, nothing else is sent, and each order fails.

    A printer that can't print, or isn't there, as far as is known, is asked every 2 seconds, however long the timeout
    is.

    Args:
        port: The port, or its name as `port_of` takes it: /dev/usb/lp0, /dev/ttyUSB0, tcp:192.168.1.9:9100.
        drawer: The name of the till's drawer that is on the printer's connector. It is driven too (EscPosDrawer).
        width: How many characters the printer prints on a line; as many as the device's lines have if it is None.
        cutter: What the cutter does: "both" (full cuts and partial ones), "full", "partial" or "absent".
        feed: How far paper is fed before a cut, in dots; in lines if there is no cutter.
        pin: The pin of the drawer connector, 2 or 5.
        pulse: How long the pulse for the drawer lasts, and the pause after it, in 2 ms.
        is_open_high: Whether the drawer is open when pin 3 of its connector is high.
        lines: How many lines the till counts with when the sensors see enough paper, at most 100,000. If they still see
            enough when it has counted down to the near end, it begins again. With 100 lines or more it begins a quarter
            of those earlier, or 4,096, so that no long request is refused. While they see that the end is near, it
            counts with the device's `near` lines after each order: that is the longest request that may be taken then.
        is_asked: Whether the printer says nothing by itself, and doesn't know GS ( H, as simpler ones. Then it is asked
            for its status (DLE EOT), and after each line whether that is printed (GS r).
        timeout: How long the printer may go on without acknowledging a line, in seconds; more than 0, and at most
            2,147,483. An order has to end, so math.inf is refused.
        pause: How long to wait before a lost port is tried again, in seconds; 0 to 2,147,483.

    Raises:
        ValueError: No printer has such a setting, or the timeout or the pause is out of its range.
    """

    category = "POSPrinter"
    reads_orders = False

    def __init__(self, port: Union[Port, Path], *, drawer: str | None = None, width: int | None = None,
                 cutter: Cutter = "both", feed: int = 3, pin: int = 2, pulse: tuple[int, int] = (25, 250),
                 is_open_high: bool = True, lines: int = _MOST_LINES, is_asked: bool = False, timeout: float = 5.0,
                 pause: float = 1.0) -> None:
        check_choice("cutter", cutter, _CUTTERS)
        if not (0 <= feed <= 255 and pin in (2, 5) and len(pulse) == 2 and all(0 <= time <= 255 for time in pulse)):
            raise ValueError("feed and the two times of the pulse are 0 to 255, and the pin is 2 or 5")
        if not 1 <= lines <= _MOST_LINES:
            raise ValueError(f"a roll has 1 to {_MOST_LINES} lines")
        _check_timeout(timeout)
        _check_pause("the pause", pause)
        # As it is given, and as it is for a device.
        self._given_width, self._width = width, width
        self._lines = lines
        self._cutter, self._feed, self._pin, self._pulse = _CUTTERS.index(cutter), feed, pin, pulse
        self._is_open_high = is_open_high
        self.link = (AskedLink if is_asked else PrinterLink)(port_of(port), timeout, pause)
        self._wire: Wire | None = None
        self._is_known = False
        # Up to which status the till was told, and how many lines may be printed until it has to be looked at again.
        self._compared, self._lines_until, self._near = -1, 0, 0
        self._others: dict[str, Driver] = {} if drawer is None else {drawer: EscPosDrawer(self)}

    def __repr__(self) -> str:
        return f"<kijolvar.EscPosPrinter {self.link.port.name!r}, {'online' if self.is_online else 'offline'}>"

    @property
    def late_orders(self) -> int:
        """How many orders were printed after they had failed, and weren't asked for again, or were given up. The
        printer had got them before it stopped, and there is no command that takes them back."""
        return self.link.late

    @property
    def is_online(self) -> bool:
        return self.link.is_online

    @property
    def port_error(self) -> PortError | None:
        return self.link.port.open_error

    def begin(self, till: Till, device: ProfileDevice) -> None:
        chars, near = device.chars or 0, device.near or 0
        if self._given_width is not None and self._given_width < chars:
            raise ValueError(f"{device.name} has lines of {chars}, and the printer prints {self._given_width}")
        if near >= self._lines:
            raise ValueError(f"{device.name} is near its end with {near} lines, and a roll has {self._lines}")
        self._width, self._near = self._given_width or chars, near
        self._wire = self._wire_of(till, device)
        self._open()

    def _wire_of(self, till: Till, device: ProfileDevice) -> Wire:
        """The library's calls for the printer or for its drawer. The link reads replies by either."""
        on, off = self._pulse
        wire = Wire(till, device.name, WireSettings(
            width=self._width or 0, cutter=self._cutter, feed=self._feed, lines=self._lines, pin=self._pin, on=on,
            off=off, open_is_high=self._is_open_high))
        self.link.wires.append(wire)
        return wire

    def _open(self) -> None:
        """Opens the port, unless that was tried already."""
        if not self.link.is_begun:
            self.link.start()

    def carry_out(self, order: Order) -> bool:
        assert self._wire is not None
        return self.link.carry_out(self._wire)

    @property
    def is_quiet(self) -> bool:
        link = self.link
        return link.statuses == self._compared and link.lines < self._lines_until and link.is_online

    def happened(self) -> list[str]:
        assert self._wire is not None
        link = self.link
        if self.is_quiet:
            return []
        words, self._compared = _told(link, self._wire), link.statuses
        if link.told and not any(word.startswith("paper ") for word in words):
            words += self._counted_again()
        self._is_known = self._is_known or bool(link.told)
        for word in words:
            if word.startswith("paper "):
                self._lines_until = link.lines + self._counted_until(int(word[len("paper "):]))
        return words

    def _counted_again(self) -> list[str]:
        """The lines with which the till begins to count again, if the sensors see as much paper as before."""
        is_due = self.link.lines >= self._lines_until
        if self.link.has_paper:
            is_due, count = is_due and self._lines - self._near >= _LONG, self._lines
        else:
            count = self._near if self.link.is_near_end else 0
        return [f"paper {count}"] if count and (is_due or not self._is_known) else []

    def _counted_until(self, count: int) -> int:
        """How many lines on the till has to look at the sensors again, when it counts so many. It looks before a long
        request could be refused though they still see enough, and near the end after each order."""
        left = count - self._near
        if left <= 0:
            return min(count, 1)
        return left if left < _LONG else left - min(left // 4, _MOST_FEEDS)

    def poll(self) -> None:
        self.link.poll()
        self._compared = -1

    def others(self) -> dict[str, Driver]:
        return self._others

    def files(self) -> list[int]:
        return self.link.port.files()

    def attached(self) -> None:
        self._is_known, self._compared = False, -1

    def given_up(self) -> None:
        self.link.give_up()

    def close(self) -> None:
        self.link.close(self._wire)
        self._is_known = False


class EscPosDrawer(Driver):
    """The drawer on a receipt printer's connector.

    Args:
        printer: The driver of the printer, whether or not the till drives that too.
        settle: How long the drawer may take to open, in seconds; 0 to 2,147,483. If its sensor still says closed then,
            it is.

    Raises:
        ValueError: `settle` is out of its range.
    """

    category = "CashDrawer"
    reads_orders = False

    def __init__(self, printer: EscPosPrinter, settle: float = 1.0) -> None:
        _check_pause("settle", settle)
        self._printer, self._settle = printer, settle
        self._wire: Wire | None = None
        self._kicked_at: float | None = None
        self._statuses, self._compared = 0, -1

    def __repr__(self) -> str:
        return f"<kijolvar.EscPosDrawer on {self._printer!r}>"

    @property
    def is_online(self) -> bool:
        return self._printer.is_online

    @property
    def port_error(self) -> PortError | None:
        return self._printer.port_error

    @property
    def is_quiet(self) -> bool:
        link = self._printer.link
        return link.statuses == self._compared and self._kicked_at is None and link.is_online

    def begin(self, till: Till, device: ProfileDevice) -> None:
        self._wire = self._printer._wire_of(till, device)
        self._printer._open()

    def carry_out(self, order: Order) -> bool:
        assert self._wire is not None
        statuses = self._printer.link.statuses
        is_done = self._printer.link.carry_out(self._wire, is_once=False)
        if is_done:
            self._kicked_at, self._statuses = time.monotonic(), statuses
        return is_done

    def happened(self) -> list[str]:
        assert self._wire is not None
        link = self._printer.link
        if self.is_quiet:
            return []
        words, self._compared = _told(link, self._wire), link.statuses
        if self._kicked_at is not None:
            # The drawer may be on its way: a status that says closed is from before.
            is_open = "closed" not in words and link.statuses > self._statuses
            if is_open or time.monotonic() - self._kicked_at >= self._settle:
                self._kicked_at = None
            else:
                words = [word for word in words if word != "closed"]
        return words

    def poll(self) -> None:
        self._printer.poll()
        self._compared = -1

    def files(self) -> list[int]:
        return self._printer.files()

    def attached(self) -> None:
        self._kicked_at, self._compared = None, -1

    def close(self) -> None:
        self._printer.link.close(self._wire)


def _told(link: PrinterLink, wire: Wire) -> list[str]:
    """What the printer has told last, as the words of inputs, so far as the device shows something else."""
    words: list[str] = []
    for told in link.told:
        _, text = wire.reply(told.data, told.asked)
        for line in text.decode().splitlines():
            kind, *rest = line.split(" ", 2)
            if kind == "input" and rest[1] not in words:
                words.append(rest[1])
    return words


class SerialDisplay(Driver):
    """A customer display with CD5220 or ESC/POS. It shows characters: blinking and reverse ones as normal ones.

    A display answers nothing. Over a serial line and /dev/usb/lp0 an order counts as done once its bytes have left this
    machine; over TCP once the system has taken them. A display that was lost shows all its rows again with the next
    order. One with its own power supply may have been off, which nobody can see. So it also gets all its rows with an
    order that changes nothing, and with one after 10 seconds without any.

    Args:
        port: The port, or its name as `port_of` takes it. A serial line of that name has no flow control.
        protocol: "cd5220" or "escpos".
        timeout: How long an order may take, in seconds; more than 0, and at most 2,147,483. An order has to end, so
            math.inf is refused.
        pause: How long to wait before a lost port is tried again, in seconds; 0 to 2,147,483.

    Raises:
        ValueError: There is no such protocol, or the timeout or the pause is out of its range.
    """

    category = "LineDisplay"
    reads_orders = False

    def __init__(self, port: Union[Port, Path], protocol: Protocol = "cd5220", *, timeout: float = 2.0,
                 pause: float = 1.0) -> None:
        check_choice("protocol", protocol, _PROTOCOLS)
        _check_timeout(timeout)
        _check_pause("the pause", pause)
        self.port, self._timeout, self._pause = port_of(port, flow="none"), timeout, pause
        self.port.keeps_faults = False
        self._settings = WireSettings(protocol=_PROTOCOLS.index(protocol))
        self._till: Till | None = None
        self._tried_at = self._shown_at = -1e9
        self._is_new = True

    def __repr__(self) -> str:
        return f"<kijolvar.SerialDisplay {self.port.name!r}, {'online' if self.is_online else 'offline'}>"

    @property
    def is_online(self) -> bool:
        return self.port.is_open

    @property
    def port_error(self) -> PortError | None:
        return self.port.open_error

    @property
    def is_quiet(self) -> bool:
        return self.port.is_open

    def begin(self, till: Till, device: ProfileDevice) -> None:
        self._till = till
        self._connect(self._timeout)

    def carry_out(self, order: Order) -> bool:
        assert self._till is not None
        self._listen()
        if not self.port.is_open:
            return False
        data, is_done = self._bytes(self._till), False
        # Until the till has taken it as done, the display may show something else than the till.
        self._is_new = True
        try:
            with contextlib.suppress(PortError):
                is_done = self.port.write(data, self._timeout)
        finally:
            if not is_done:
                # The display may have a part of it.
                self.port.close()
        return is_done

    def _bytes(self, till: Till) -> bytes:
        """The bytes of the order that is out, with all rows if nobody knows what the display shows."""
        # The time in which the machine was suspended counts, too.
        now = time.clock_gettime(time.CLOCK_BOOTTIME)
        is_new, self._shown_at = self._is_new or now - self._shown_at >= _UNSEEN, now
        return till.order_bytes(self._settings, is_new) or till.order_bytes(self._settings, True)

    def reported(self) -> None:
        self._is_new = False

    def poll(self) -> None:
        if not self.port.is_open:
            if self.port.is_opening:
                self._connect(0)
            elif time.monotonic() - self._tried_at >= self._pause:
                self._connect(_QUICKLY)
            return
        self._listen()

    def _listen(self) -> None:
        """Finds out whether the port was lost. What a display says means nothing."""
        with contextlib.suppress(PortError):
            for _ in self.port.waiting():
                pass

    def attached(self) -> None:
        self._is_new = True

    def _connect(self, seconds: float) -> None:
        self._is_new = True
        with contextlib.suppress(PortError):
            self.port.open(seconds)
        self._tried_at = time.monotonic()

    def files(self) -> list[int]:
        return self.port.files()

    def close(self) -> None:
        self.port.close()


@dataclass(frozen=True)
class Scan:
    """A code that was read.

    Attributes:
        kind: The type of the code (`ScanDataType`), 0 if it isn't known.
        data: All that came, without the terminator.
        label: The code alone.
    """

    kind: int
    data: bytes
    label: bytes


# The longest code, and the highest type.
_LONGEST, _HIGHEST_KIND = 4096, 999
# How long the rest of a code may take, in seconds.
_REST = 1.0

# Linux input events: the time, type, code and value.
_EVENT = struct.Struct("@llHHi")
_KEY, _DROPPED, _GRAB = 1, (0, 3), 0x40044590
# Which codes of a type of events come: without any, the scan code of each key is left out, a third of the events.
_SET_MASK, _NO_SCAN_CODES = 0x40104593, struct.pack("=IIQ", 4, 0, 0)
# How many bytes of key events are kept until they are told.
_MOST_TYPED = 680 * _EVENT.size
_ENTER, _SHIFTS, _CONTROLS, _NUM_LOCK, _DOWN, _UP = (28, 96), (42, 54), (29, 97), 69, 1, 0
_KEYS: dict[int, str] = {57: "  ", 55: "**", 98: "//"}
_KEYS.update(zip(range(2, 14), ["1!", "2@", "3#", "4$", "5%", "6^", "7&", "8*", "9(", "0)", "-_", "=+"]))
_KEYS.update(zip(range(16, 28), ["qQ", "wW", "eE", "rR", "tT", "yY", "uU", "iI", "oO", "pP", "[{", "]}"]))
_KEYS.update(zip(range(30, 42), ["aA", "sS", "dD", "fF", "gG", "hH", "jJ", "kK", "lL", ";:", "'\"", "`~"]))
_KEYS.update(zip(range(43, 54), ["\\|", "zZ", "xX", "cC", "vV", "bB", "nN", "mM", ",<", ".>", "/?"]))
# The keypad.
_KEYS.update(zip(range(71, 84), [2 * key for key in "789-456+1230."]))
# What keys give: alone, and with Shift; and what Ctrl makes of that. Ctrl and ] is GS, which ends a field of GS1 codes.
_ALONE, _SHIFTED = ({key: both[place] for key, both in _KEYS.items()} for place in (0, 1))
_CONTROLLED = {"]": "\x1d"}


class _Lines:
    """Codes that a serial scanner sends, each with CR, LF or both behind it. A code that isn't whole is None."""

    def __init__(self) -> None:
        self._begun, self._is_noise = bytearray(), False

    @property
    def has_begun(self) -> bool:
        """Whether a code has begun whose end hasn't come."""
        return bool(self._begun) or self._is_noise

    def take(self, data: bytes) -> list[bytes | None]:
        self._begun += data
        *whole, rest = bytes(self._begun).replace(b"\r", b"\n").split(b"\n")
        codes: list[bytes | None] = []
        for code in whole:
            if self._is_noise or len(code) > _LONGEST:
                codes.append(None)
                self._is_noise = False
            elif code:
                codes.append(code)
        # What is longer than any code is noise, up to its end.
        self._is_noise = self._is_noise or len(rest) > _LONGEST
        self._begun[:] = b"" if self._is_noise else rest
        return codes


class _Keys:
    """Codes that a scanner types as a keyboard of the layout US, each with Enter behind it. A code that isn't whole is
    None: the system drops keys that nobody reads in time, and a key may be one that gives nothing."""

    def __init__(self) -> None:
        self._bytes, self._begun = bytearray(), bytearray()
        self._is_shifted = self._is_controlled = self._is_noise = False

    @property
    def has_begun(self) -> bool:
        """Whether a code has begun whose end hasn't come."""
        return bool(self._begun) or self._is_noise

    def take(self, data: bytes) -> list[bytes | None]:
        self._bytes += data
        codes: list[bytes | None] = []
        while len(self._bytes) >= _EVENT.size:
            *_, kind, key, value = _EVENT.unpack_from(self._bytes)
            del self._bytes[:_EVENT.size]
            if (kind, key) == _DROPPED:
                self._is_noise, self._is_shifted, self._is_controlled = True, False, False
            if kind != _KEY:
                continue
            if key in _SHIFTS:
                self._is_shifted = value != 0
            elif key in _CONTROLS:
                self._is_controlled = value != 0
            elif key in _ENTER:
                # A code that was lost up to its end ends where Enter goes up.
                codes += self._ended() if value == _DOWN or value == _UP and self._is_noise else []
            elif value == _DOWN and key != _NUM_LOCK:
                self._types(key)
        return codes

    def _types(self, key: int) -> None:
        """A key goes down. One that gives nothing is a character that would be missing."""
        given = (_SHIFTED if self._is_shifted else _ALONE).get(key, "")
        if self._is_controlled:
            given = _CONTROLLED.get(given, "")
        if not self._is_noise:
            self._begun += given.encode()
            self._is_noise = not given or len(self._begun) > _LONGEST

    def _ended(self) -> list[bytes | None]:
        """The code that Enter ends; none if nothing came."""
        code = None if self._is_noise else bytes(self._begun)
        self._begun.clear()
        self._is_noise = False
        return [] if code == b"" else [code]


def _is_keyboard(device: Union[Port, Path]) -> bool:
    """Whether it is the path of a keyboard's events, or of a link to one."""
    if isinstance(device, Port):
        return False
    path = os.fspath(device)
    return path.startswith("/dev/input/") or os.path.realpath(path).startswith("/dev/input/")


class _KeyPort(FilePort):
    """A device of Linux input events, which other programs don't see meanwhile. A terminal line is in use for any other
    port, as with FilePort."""

    _way = os.O_RDONLY

    def _prepare(self, file: int) -> None:
        kind = stat.S_IFMT(os.fstat(file).st_mode)
        if kind == stat.S_IFIFO:
            # A pipe has no keys to keep from other programs.
            return
        self._check_kind(kind)
        if os.isatty(file):
            self._set_up_own(file)
            return
        with MinorFaults(errno.ENOTTY, errno.EINVAL):
            fcntl.ioctl(file, _GRAB, 1)
        with MinorFaults():
            fcntl.ioctl(file, _SET_MASK, _NO_SCAN_CODES)

    def _let_go(self, file: int) -> None:
        """Gives the keys or the line back, also if a process that was forked has the file still. Nothing was sent."""
        if os.isatty(file):
            unlock(file)
        else:
            with MinorFaults():
                fcntl.ioctl(file, _GRAB, 0)


class WedgeScanner(Driver):
    """A scanner that sends each code with a terminator: a keyboard wedge, or a scanner on a serial line.

    A code may have an AIM identifier in front, such as `]E0`. It says which type the code has; ScanDataLabel is the
    code without it. Switch identifiers on at the scanner if you need ScanDataType.

    A keyboard wedge types as a keyboard of the layout US: characters, the keypad, and Ctrl and ] for GS. A code with
    any other key is a failed scan: the scanner gets an ErrorEvent. So is one of which the system drops key events: it
    keeps about 16 characters that nobody reads. While a call waits for a printer or a display, the till reads about
    170 more. A code from a serial line with a byte of 0 is a failed scan, too: the line has disturbed it. So is a code
    that has begun when its port is lost, or of which `run_devices` finds nothing more a second later; of a keyboard
    also a call that waits.

    Args:
        device: /dev/input/.. for a keyboard wedge, or a link to one: no other program gets its keys meanwhile. Any
            other name is that of a port (`port_of`), at which the codes come as lines. A link that leads nowhere yet is
            looked at again when the port is opened.
        kind: The type of a code without an identifier, 0 to 999; 0 is SCAN_SDT_UNKNOWN.
        keys: Whether the device sends key events. If it is None, those of /dev/input do.
        pause: How long to wait before a lost port is tried again, in seconds; 0 to 2,147,483.

    Raises:
        ValueError: There is no such type or port, or the pause is out of its range.
    """

    category = "Scanner"

    def __init__(self, device: Union[Port, Path], kind: int = 0, *, keys: bool | None = None,
                 pause: float = 1.0) -> None:
        if not 0 <= kind <= _HIGHEST_KIND:
            raise ValueError(f"the type of a code is 0 to {_HIGHEST_KIND}, not {kind}")
        _check_pause("the pause", pause)
        self._device, self._given_keys = device, keys
        self._take(_is_keyboard(device) if keys is None else keys)
        self._reader = self._new_reader()
        self._kind, self._pause, self._tried_at = kind, pause, -1e9
        # When something came last, as far as anybody looked.
        self._read_at = -1e9
        # The codes that have come whole, and whether another one hasn't.
        self._found: deque[bytes] = deque()
        self._has_failed = False

    def _take(self, has_keys: bool) -> None:
        """Takes the device as one that sends key events, or as one that sends lines."""
        device = self._device
        port: Port = _KeyPort(device) if has_keys and not isinstance(device, Port) else port_of(device)
        # What was typed while an order waited. Between two parts nothing came for so long that a code has ended.
        self.port, self._has_keys, self._typed = port, has_keys, [bytearray()]

    def __repr__(self) -> str:
        return f"<kijolvar.WedgeScanner {self.port.name!r}, {'online' if self.is_online else 'offline'}>"

    @property
    def is_online(self) -> bool:
        # What came before the port was lost is told first.
        return self.port.is_open or bool(self._found) or self._has_failed

    @property
    def port_error(self) -> PortError | None:
        return self.port.open_error

    def start(self, device: ProfileDevice) -> None:
        self._looks(_SCANNER_OPENS)

    def poll(self) -> None:
        self._looks(_QUICKLY)

    def _looks(self, seconds: float) -> None:
        """Reads what the scanner has sent. Its port has so long to open, if it isn't."""
        if not self.port.is_open:
            if not self.port.is_opening and time.monotonic() - self._tried_at < self._pause:
                return
            if self._given_keys is None and _is_keyboard(self._device) != self._has_keys:
                # It is a link that led nowhere, or to another device.
                self._take(not self._has_keys)
            self._reader = self._new_reader()
        self._read_typed()
        with contextlib.suppress(PortError):
            self._open(0 if self.port.is_opening else seconds)
            for data in self.port.waiting():
                self._read_at = time.monotonic()
                self._read(data)
        self._minds_rest()

    def _minds_rest(self) -> None:
        """A code that has begun has failed if its port is lost, or if a look after some time finds no more of it. If
        nobody has looked before, what is found then may have come in time."""
        is_late = time.monotonic() - self._read_at >= _REST
        if is_late or not self.port.is_open:
            self._ends_code()

    def _ends_code(self) -> None:
        """A code that has begun has failed: its rest doesn't come any more."""
        if self._reader.has_begun:
            self._has_failed, self._reader = True, self._new_reader()

    def _read_typed(self) -> None:
        """Finds the codes in what was typed while an order waited. An interrupt leaves the parts behind the one that is
        read."""
        self._read_part()
        while len(self._typed) > 1:
            self._ends_code()
            del self._typed[0]
            self._read_part()

    def _read_part(self) -> None:
        """Finds the codes in the first part, which is empty then."""
        part, self._typed[0] = bytes(self._typed[0]), bytearray()
        self._read(part)

    def _read(self, data: bytes) -> None:
        """Finds the codes in what has come."""
        for code in self._reader.take(data):
            if code is None or self._is_disturbed(code):
                self._has_failed = True
            else:
                self._found.append(code)

    def _count_room(self) -> int:
        """How many bytes of key events may still be kept."""
        return _MOST_TYPED - sum(len(part) for part in self._typed)

    def _has_room(self) -> bool:
        """Whether one more key event is kept."""
        return self._count_room() >= _EVENT.size

    def read_ahead(self) -> int | None:
        if self._has_keys and self.port.files() and self._has_room():
            self._glance()
        files = self.port.files() if self._has_keys and self._has_room() else []
        return files[0] if files else None

    def _glance(self) -> None:
        """Keeps what has come. If nothing has for some time, what comes next is another code (`_minds_rest`)."""
        data, now = self.port.glance(self._count_room()), time.monotonic()
        if data:
            self._typed[-1] += data
            self._read_at = now
        elif now - self._read_at >= _REST and (self._typed[-1] or len(self._typed) == 1):
            self._typed.append(bytearray())

    def _is_disturbed(self, code: bytes) -> bool:
        """Whether a serial line has disturbed a code: the system gives a 0 byte in place of one that came wrong."""
        return self.port.is_line and not self._has_keys and 0 in code

    def _new_reader(self) -> _Keys | _Lines:
        return _Keys() if self._has_keys else _Lines()

    def _open(self, seconds: float) -> None:
        try:
            self.port.open(seconds)
        finally:
            self._tried_at = time.monotonic()

    def _scan(self, code: bytes) -> Scan:
        if code[:1] == b"]" and len(code) > 3:
            return Scan(kind_of(code[1:3]), code, code[3:])
        return Scan(self._kind, code, code)

    def happened(self) -> list[str]:
        # From a failed scan on a control ignores codes, so those that have come are told first.
        if self._found or not self._has_failed:
            return []
        self._has_failed = False
        return ["fault"]

    def scans(self) -> list[Scan]:
        found = [self._scan(code) for code in self._found]
        self._found.clear()
        return found

    def files(self) -> list[int]:
        return self.port.files()

    def close(self) -> None:
        self.port.close()
        # Another till may have this driver later.
        self._typed, self._reader, self._has_failed, self._tried_at = [bytearray()], self._new_reader(), False, -1e9
        self._found.clear()
