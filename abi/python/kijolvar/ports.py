"""The ports of devices: a file such as /dev/usb/lp0, a serial line such as /dev/ttyUSB0, or a TCP port.

A driver opens its port when it needs it, and opens it again after it was lost. No call waits longer than it is told,
unless a name has to be looked up. With 0 seconds or less it doesn't wait, and with math.inf without an end.
"""
from __future__ import annotations

import contextlib
import ctypes
import errno
import fcntl
import ipaddress
import math
import os
import re
import select
import socket
import stat
import termios
import threading
import time
import weakref
from collections.abc import Iterator, Sequence
from types import TracebackType
from typing import Any, Literal, Protocol, Union

from ._files import LAST_STREAM, off_streams
from ._library import Path
from ._unique import Unique

Parity = Literal["none", "even", "odd"]
Flow = Literal["none", "rts-cts", "xon-xoff"]
# How a serial line's device says that it can take no more, if nothing else is said; and by which characters with
# XON/XOFF it says that it can, and that it can't.
_FLOW: Flow = "rts-cts"
_XON, _XOFF = b"\x11", b"\x13"
# A parity that is always 0 or 1 (CMSPAR), which `termios` doesn't name.
_STUCK_PARITY = 0x40000000
# What is no port, by the types of files.
_NO_PORTS = {stat.S_IFREG: "a file", stat.S_IFDIR: "a folder", stat.S_IFBLK: "a disk", stat.S_IFIFO: "a pipe"}
_AT_ONCE = 65_536
# In how many parts is read what has come.
_MOST_PARTS = 16
# For how long the addresses of a name are kept though nothing answers there, and for how long a name isn't looked up
# again whose look-up took longer than this and found nothing, in seconds.
_LOOKED_UP_FOR, _QUICKLY = 60.0, 0.25
# How long a host has to answer at least, though no call waits for it so long, in seconds.
_ANSWERS = 1.0
# How long the other end of a TCP port may take to acknowledge what was sent, in milliseconds; and how often it is asked
# whether it is there, while nothing is sent, in seconds. Else one that was cut off is noticed after minutes or hours.
_ACKNOWLEDGED_WITHIN, _ASKED_EVERY = 60_000, 10
# The system's number of the option for the first. Not all type stubs of `socket` have its name.
_USER_TIMEOUT = 18
_TCP = re.compile(r"tcp:(?://)?(?:\[(?P<address>[^\[\]]+)\]|(?P<name>[^:\[\]]*))(?::(?P<port>[0-9]+))?")
# The system's call: an object of `socket` would close the port's descriptor with itself.
_send = ctypes.CDLL(None, use_errno=True).send
_send.argtypes, _send.restype = [ctypes.c_int, ctypes.c_char_p, ctypes.c_size_t, ctypes.c_int], ctypes.c_ssize_t
_READABLE = select.POLLIN | select.POLLHUP | select.POLLERR | select.POLLNVAL
# The longest wait that the system takes, in milliseconds: 24 days.
_LONGEST = 2**31 - 1
# How often keyboards are read while a call waits, in seconds.
_OFTEN = 0.1


class PortError(OSError):
    """A port can't be opened, or it was lost: the cable is out, the device is off, or another program has the port."""


# An address of a TCP port as `socket` has it: the family and its own address.
Address = tuple[int, Any]


class Keyboard(Protocol):
    """What is read while a call waits for another device, as the system keeps little of it: a driver."""

    def read_ahead(self) -> int | None:
        """Reads what has come, and keeps it. The file descriptor if more may be read once it comes."""


class _Beside(threading.local):
    """The keyboards that are read while this thread waits for a port: those of the till whose order is out."""

    keyboards: Sequence[Keyboard] = ()


BESIDE = _Beside()


def reason_of(fault: BaseException) -> str:
    """What the system says of a fault, without its number and path."""
    said = fault.args[1] if len(fault.args) > 1 else None
    return said if isinstance(said, str) else str(fault)


def check_wait(name: str, seconds: float) -> None:
    """Refuses NaN as the time for which a call waits."""
    if math.isnan(seconds):
        raise ValueError(f"{name} is a number of seconds, or math.inf to wait without an end: not {seconds!r}")


def _milliseconds(seconds: float) -> float | None:
    """A time for `select.poll`, which waits for 24 days at most, or without an end."""
    if seconds > 0:
        return None if seconds == math.inf else min(seconds * 1000, _LONGEST)
    check_wait("seconds", seconds)
    return 0


def check_choice(name: str, value: str, choices: Sequence[str]) -> None:
    """Refuses what isn't one of some words, and says which there are."""
    if value not in choices:
        raise ValueError(f"{name} is {', '.join(map(repr, choices[:-1]))} or {choices[-1]!r}: not {value!r}")


class Port(Unique):
    """A port. Use FilePort, SerialPort or TcpPort, or `port_of` with the name of one.

    Attributes:
        name: The port's name.
        is_patient: Whether what was sent may wait for long, as at a printer whose cover is open. If not, a TCP port
            whose other end acknowledges nothing for a minute is lost.
        keeps_faults: Whether a serial line gives 0 for a byte that came with a wrong parity or without its stop bit,
            which a scanner needs. If not, such a byte is dropped: 0 may be a printer's answer that all is well.
    """

    _noun = "a port"
    is_patient = False
    keeps_faults = True

    def __init__(self, name: str) -> None:
        self.name = name
        self._file: int | None = None
        self._open_error: PortError | None = None
        # The process that has opened it.
        self._process = 0
        # What waits until bytes can be read, and until they can be read or written.
        self._waits = select.poll(), select.poll()
        # Whether reading no bytes means that the port is lost, and whether none came the last time.
        self._ends_empty, self._was_empty = True, False
        # What had come when a write found the port lost, and nobody had read.
        self._rest = b""
        _ports.add(self)

    def __repr__(self) -> str:
        return f"<kijolvar.{type(self).__name__} {self.name!r}, {'open' if self.is_open else 'closed'}>"

    def __del__(self) -> None:
        if getattr(self, "_file", None) is not None:
            self.close()

    @property
    def is_open(self) -> bool:
        """Whether the port is open."""
        return self._file is not None

    @property
    def open_error(self) -> PortError | None:
        """Why the last `open` failed; None if the port is open, or nobody has tried."""
        return None if self.is_open else self._open_error

    @property
    def is_opening(self) -> bool:
        """Whether `open` has begun to open the port in vain, and goes on with that when it is called again. It may be
        called with no time then."""
        return False

    @property
    def is_line(self) -> bool:
        """Whether it is a serial line, as far as is known."""
        return False

    @property
    def holds_back(self) -> bool:
        """Whether it keeps what was sent while the device takes nothing, and gives it to the device later, also if that
        was off meanwhile: a serial line with flow control does."""
        return False

    @property
    def is_holding(self) -> bool:
        """Whether something is in a port that holds back which the device hasn't taken yet."""
        if self._file is not None and self.holds_back:
            with MinorFaults():
                return _unsent(self._file) > 0
        return False

    def discard(self) -> None:
        """Drops what a port that holds back keeps, as far as its driver can."""
        if self._file is not None and self.holds_back:
            with MinorFaults():
                termios.tcflush(self._file, termios.TCOFLUSH)

    def resume(self) -> None:
        """Has a line send again though its device has said that it can take no more (XOFF). The device may have lost
        its power since then, or the line its XON: nothing would ever go out again."""

    def fileno(self) -> int:
        """The file descriptor, for `select`.

        Raises:
            PortError: The port isn't open.
        """
        if self._file is None:
            raise PortError(errno.ENOTCONN, f"{self.name} isn't open")
        return self._file

    def files(self) -> list[int]:
        """The file descriptor at which something may come, if there is one. A port that gives nothing may be readable
        all the time."""
        return [] if self._file is None or self._was_empty else [self._file]

    def open(self, seconds: float = 1.0) -> None:
        """Opens the port, unless it is open.

        Args:
            seconds: How long the call may take. With math.inf a TCP port has as long as the system tries.

        Raises:
            ValueError: The time is NaN.
            PortError: It can't be opened in that time. A TCP port may still be opened (`is_opening`).
        """
        check_wait("seconds", seconds)
        if self._file is not None:
            return
        try:
            self._open(seconds)
        except PortError as fault:
            # What a connection that is being made comes to isn't known yet.
            is_known = not (self.is_opening and self._open_error)
            if is_known and not _is_of_handler(fault):
                # Without the trace, which refers to the callers.
                self._open_error = PortError(*fault.args)
            raise
        self._open_error = None

    def _open(self, seconds: float) -> None:
        """Opens the port, which is closed."""
        file = None
        try:
            file = self._opened(seconds)
            waits = select.poll(), select.poll()
            waits[False].register(file, select.POLLIN)
            waits[True].register(file, select.POLLIN | select.POLLOUT)
            self._process, self._waits, self._was_empty, self._rest = os.getpid(), waits, False, b""
            self._file = file
        except PortError:
            raise
        except (OSError, termios.error) as fault:
            if _is_of_handler(fault):
                raise
            code = fault.args[0] if fault.args else errno.EIO
            why = "is in use" if code == errno.EBUSY else f"can't be opened: {reason_of(fault)}"
            raise PortError(code, f"{self.name} {why}") from fault
        finally:
            if file is not None and self._file is None:
                # An interrupt has come. A line that stays open would be in use for good.
                try:
                    self._let_go(file)
                finally:
                    os.close(file)

    def close(self) -> None:
        """Closes the port, if it is open. What isn't sent yet is dropped; of a TCP port the system still sends what it
        has taken. A process that is forked has the port as a closed one, and drops nothing: it is still that of the
        process that has opened it."""
        if self._file is not None:
            file, self._file = self._file, None
            try:
                if self._process == os.getpid():
                    self._let_go(file)
            finally:
                os.close(file)

    def ready(self, is_writing: bool, seconds: float) -> tuple[bool, bool]:
        """Waits until bytes can be read, or written if that is asked. Returns which of both is possible.

        Raises:
            ValueError: The time is NaN.
            PortError: The port isn't open.
        """
        if self._file is None:
            self.fileno()
        if seconds > 0 and BESIDE.keyboards:
            flags = _wait_beside(seconds, self._file, select.POLLIN | (select.POLLOUT if is_writing else 0))
        else:
            found = self._waits[is_writing].poll(_milliseconds(seconds))
            flags = found[0][1] if found else 0
        return flags & _READABLE != 0, flags & select.POLLOUT != 0

    def read_some(self) -> bytes:
        """Returns what has come, if `ready` said that something has. That may be nothing.

        Raises:
            PortError: The port was lost. It is closed then.
        """
        file = self.fileno()
        try:
            found = os.read(file, _AT_ONCE)
        except OSError as fault:
            self._loses(fault)
            return b""
        self._was_empty = not found
        if not found and self._ends_empty:
            self._loses(PortError(errno.EPIPE, f"{self.name} was closed by the device"))
        return found

    def glance(self, most: int) -> bytes:
        """Returns what has come, at most so many bytes. A port that was lost stays open, but has no `files` until it is
        read again.

        Raises:
            PortError: The port isn't open.
        """
        file = self.fileno()
        try:
            found = os.read(file, most)
        except OSError as fault:
            if _is_of_handler(fault):
                raise
            if isinstance(fault, (BlockingIOError, InterruptedError)):
                return b""
            found = b""
        self._was_empty = not found
        return found

    def waiting(self) -> Iterator[bytes]:
        """What has come, part by part. It ends after a while, also if the device sends on and on.

        Raises:
            PortError: The port isn't open, or it was lost. It is closed then.
        """
        for _ in range(_MOST_PARTS):
            if not (self.ready(False, 0)[0] and (data := self.read_some())):
                break
            yield data

    def write_some(self, data: bytes) -> int:
        """Writes what there is room for, and returns how many bytes that was.

        Raises:
            PortError: The port was lost. It is closed then.
        """
        file = self.fileno()
        try:
            return self._put(file, data[:_AT_ONCE])
        except OSError as fault:
            self._loses(fault, is_writing=True)
            return 0

    def write(self, data: bytes, seconds: float) -> bool:
        """Writes bytes, and returns whether all are out in that time. If not, some of them may be; with 0 seconds or
        less nothing is written. What comes while there is no room for them is dropped.

        Raises:
            ValueError: The time is NaN.
            PortError: The port was lost. It is closed then.
        """
        check_wait("seconds", seconds)
        end, sent = time.monotonic() + seconds, 0
        while sent < len(data):
            left = end - time.monotonic()
            if left <= 0:
                return False
            can_read, can_write = self.ready(True, left)
            if can_write:
                sent += self.write_some(data[sent:])
            elif can_read and not self.read_some():
                rest_beside(min(left, 0.001))
        return self._drained(end)

    def read(self, seconds: float = 0.0) -> bytes:
        """Returns what comes, as soon as anything does, or no bytes if nothing comes in that time.

        Raises:
            ValueError: The time is NaN.
            PortError: The port was lost. It is closed then.
        """
        end = time.monotonic() + seconds
        while self.ready(False, end - time.monotonic())[0]:
            if (data := self.read_some()) or (left := end - time.monotonic()) <= 0:
                return data
            # A port may be readable all the time, and give nothing.
            rest_beside(min(left, 0.001))
        return b""

    def _take_rest(self) -> bytes:
        """Takes what had come when a write found the port lost. Nothing more of it can be read."""
        rest, self._rest = self._rest, b""
        return rest

    def _keep_rest(self) -> None:
        """Keeps what has come to a port that is lost, and is closed then."""
        with MinorFaults():
            for _ in range(_MOST_PARTS):
                found = os.read(self.fileno(), _AT_ONCE)
                self._rest += found
                if not found:
                    break

    def _loses(self, fault: Exception, is_writing: bool = False) -> None:
        """Closes the port and says so, unless the fault means only that there is nothing to do now."""
        if _is_of_handler(fault):
            raise fault
        if isinstance(fault, (BlockingIOError, InterruptedError)):
            return
        if is_writing:
            self._keep_rest()
        self.close()
        if isinstance(fault, PortError):
            raise fault
        raise PortError(errno.EIO, f"{self.name} was lost: {reason_of(fault)}") from fault

    def _opened(self, seconds: float) -> int:
        raise NotImplementedError

    def _put(self, file: int, data: bytes) -> int:
        """Writes what there is room for to the open file, and returns how many bytes that was."""
        return os.write(file, data)

    def _let_go(self, file: int) -> None:
        """Ends what this process has done with a file, which is closed then."""

    def _stop_joining(self) -> None:
        """Closes a connection that is being made. It goes on in the process from which this one was forked."""

    def _drained(self, end: float) -> bool:
        """Whether what was written has left this machine before a time, as far as the port says that."""
        return True


def _wait_beside(seconds: float, file: int | None = None, events: int = 0) -> int:
    """Waits for a file, if there is one, and has keyboards read meanwhile, also while nothing comes: that ends a code.
    Returns what the file is ready for."""
    end = time.monotonic() + seconds
    while True:
        waits = select.poll()
        for keyboard in BESIDE.keyboards:
            # One that is lost is seen once it is asked what it has read.
            with contextlib.suppress(PortError):
                if (typing := keyboard.read_ahead()) is not None:
                    waits.register(typing, select.POLLIN)
        if file is not None:
            waits.register(file, events)
        found = dict(waits.poll(_milliseconds(min(end - time.monotonic(), _OFTEN))))
        flags = 0 if file is None else found.get(file, 0)
        left = end - time.monotonic()
        if flags or left <= 0:
            return flags
        # A file that a driver doesn't read would be ready again at once.
        time.sleep(min(left, 0.001))


def rest_beside(seconds: float) -> None:
    """Waits so long, and has keyboards read meanwhile."""
    _wait_beside(seconds)


def _is_of_handler(fault: Exception) -> bool:
    """Whether a signal's handler has raised it, behind the system's call: it is none of the port's. A handler is given
    the frame that it interrupts, which is the one that calls it. What only wraps a call of the system isn't."""
    # The first frame is that of who asks.
    trace = fault.__traceback__ and fault.__traceback__.tb_next
    while trace is not None:
        caller, given = trace.tb_frame.f_back, list(trace.tb_frame.f_locals.values())
        given += [word for words in given if type(words) is tuple for word in words]
        if caller is not None and any(word is caller for word in given):
            return True
        trace = trace.tb_next
    return False


class MinorFaults:
    """A block that ends well though the system refuses something, with one of these numbers if there are any. What a
    signal's handler raises passes through."""

    def __init__(self, *codes: int) -> None:
        self._codes = codes

    def __enter__(self) -> None:
        """Nothing is to be done before it."""

    def __exit__(self, kind: type[BaseException] | None, fault: BaseException | None,
                 trace: TracebackType | None) -> bool:
        if not isinstance(fault, (OSError, termios.error)) or _is_of_handler(fault):
            return False
        return not self._codes or fault.args[0] in self._codes


# The ports of this process. One that is forked closes them, so that closing them here ends their connections.
_ports: weakref.WeakSet[Port] = weakref.WeakSet()


def _close_forked() -> None:
    for port in list(_ports):
        Port.close(port)
        port._stop_joining()


os.register_at_fork(after_in_child=_close_forked)


class FilePort(Port):
    """A device file that takes bytes as they are, such as /dev/usb/lp0. While a serial line is open for one port, it is
    in use for any other, also in another program."""

    _way = os.O_RDWR

    def __init__(self, path: Path) -> None:
        super().__init__(os.fspath(path))
        # Whether `port_of` made it of a path that may be a link to a serial line later, the flow control of such a
        # line, and the line that it then is.
        self._may_be_line, self._flow = False, _FLOW
        self._line: SerialPort | None = None

    @property
    def is_line(self) -> bool:
        return self._line is not None

    @property
    def holds_back(self) -> bool:
        return self._line is not None and self._line.holds_back

    def resume(self) -> None:
        if self._file is not None and self.is_line and self._flow == "xon-xoff":
            with contextlib.suppress(termios.error):
                # Linux goes on only from a stop of the same kind.
                termios.tcflow(self._file, termios.TCOOFF)
                termios.tcflow(self._file, termios.TCOON)

    def _opened(self, seconds: float) -> int:
        if self._may_be_line:
            self._line = SerialPort(self.name, flow=self._flow) if _is_line(self.name) else None
            if self._line is not None:
                self._line.keeps_faults = self.keeps_faults
        file = off_streams(os.open(self.name, self._way | os.O_NONBLOCK | os.O_NOCTTY | os.O_CLOEXEC))
        try:
            self._prepare(file)
            return file
        except BaseException:
            os.close(file)
            raise

    def _prepare(self, file: int) -> None:
        """Makes a file that was opened ready."""
        self._check_kind(stat.S_IFMT(os.fstat(file).st_mode))
        # A printer on USB may send packets with nothing in them.
        self._ends_empty = os.isatty(file)
        if self._ends_empty:
            self._set_up_own(file)

    def _set_up_own(self, file: int) -> None:
        """Sets up a terminal line that nobody else has. Nothing of it may change before it is locked."""
        _lock(file)
        try:
            fcntl.ioctl(file, termios.TIOCEXCL)
            self._set_up(file)
        except BaseException:
            unlock(file)
            raise

    def _check_kind(self, kind: int) -> None:
        """Refuses what is no port. Of a pipe this program would read what it writes."""
        if kind != stat.S_IFCHR:
            raise PortError(errno.ENODEV, f"{self.name} is {_NO_PORTS.get(kind, 'something else')} and no port")

    def _let_go(self, file: int) -> None:
        if os.isatty(file):
            try:
                with MinorFaults():
                    _drop_unsent(file)
            finally:
                unlock(file)

    def _set_up(self, file: int) -> None:
        """Sets up a terminal line, so that bytes pass as they are."""
        if self._line is not None:
            self._line._set_up(file)
        else:
            termios.tcsetattr(file, termios.TCSANOW, _raw(file))

    def _drained(self, end: float) -> bool:
        """Looks whether something is left, in place of waiting for it without an end."""
        while self._is_draining():
            if time.monotonic() >= end:
                return False
            rest_beside(0.001)
        return True

    def _is_draining(self) -> bool:
        """Whether something that was written hasn't left this machine yet."""
        file = self.fileno()
        try:
            return _unsent(file) > 0
        except OSError as fault:
            # Another device is no line, also if it was taken for one.
            if fault.errno not in (errno.ENOTTY, errno.EINVAL) or _is_of_handler(fault):
                self._loses(fault)
                return False
        return not self._takes_more()

    def _takes_more(self) -> bool:
        """Whether the device takes more, or is lost. /dev/usb/lp0 takes bytes at once, and more once those have left
        this machine. If it is closed before that, they are lost."""
        return any(flags & ~select.POLLIN for _, flags in self._waits[True].poll(0))


class SerialPort(FilePort):
    """A serial line, such as /dev/ttyUSB0 or /dev/ttyS0.

    Args:
        path: The line's device file.
        speed: Bits per second, such as 9600 or 115200, as the device is set up.
        bits: 7 or 8 bits per byte.
        parity: "none", "even" or "odd".
        stops: 1 or 2 stop bits.
        flow: How the device says that it can take no more: "rts-cts", "xon-xoff" or "none".

    A byte that came with a wrong parity, or without its stop bit as at another speed, is read as 0. One from a printer
    or a display is dropped.

    Raises:
        ValueError: No line has such a setting.
    """

    def __init__(self, path: Path, speed: int = 9600, *, bits: int = 8, parity: Parity = "none", stops: int = 1,
                 flow: Flow = _FLOW) -> None:
        super().__init__(path)
        found = getattr(termios, f"B{speed}", 0)
        if not found:
            raise ValueError(f"no serial line has {speed} bits per second")
        if bits not in (7, 8) or stops not in (1, 2):
            raise ValueError("a byte has 7 or 8 bits, and 1 or 2 stop bits")
        check_choice("parity", parity, ("none", "even", "odd"))
        check_choice("flow", flow, ("none", "rts-cts", "xon-xoff"))
        self._speed, self._bits, self._parity, self._stops, self._flow = found, bits, parity, stops, flow

    @property
    def is_line(self) -> bool:
        return True

    @property
    def holds_back(self) -> bool:
        return self._flow != "none"

    def _set_up(self, file: int) -> None:
        found = _raw(file)
        control = found[2] & ~(termios.CSIZE | termios.PARENB | termios.PARODD | _STUCK_PARITY | termios.CSTOPB
                               | termios.CRTSCTS)
        control |= termios.CS8 if self._bits == 8 else termios.CS7
        control |= {"none": 0, "even": termios.PARENB, "odd": termios.PARENB | termios.PARODD}[self._parity]
        control |= termios.CSTOPB if self._stops == 2 else 0
        control |= termios.CRTSCTS if self._flow == "rts-cts" else 0
        if self._flow == "xon-xoff":
            found[0] |= termios.IXON | termios.IXOFF
            # A program that had the line before may have left it others, or none.
            found[6][termios.VSTART], found[6][termios.VSTOP] = _XON, _XOFF
        # Without a parity, too: a byte that comes at another speed lacks its stop bit.
        found[0] |= termios.INPCK if self.keeps_faults else termios.INPCK | termios.IGNPAR
        found[2], found[4], found[5] = control, self._speed, self._speed
        termios.tcsetattr(file, termios.TCSANOW, found)
        termios.tcflush(file, termios.TCIOFLUSH)


class TcpPort(Port):
    """A TCP port, as network printers have at 9100.

    A name is looked up when the port is opened first, and again a minute after that if nothing answers at its
    addresses. That may take longer than opening is told to: a number, such as 192.168.1.9, needs no look-up. If a
    look-up takes long and finds nothing, the next one is a minute later.

    Args:
        host: A name or an address, also one of IPv6.
        port: The number of the port, 1 to 65,535.

    Raises:
        ValueError: There is no such host or port.
    """

    def __init__(self, host: str, port: int = 9100) -> None:
        if not (_is_host(host) and 1 <= port <= 65_535):
            raise ValueError(f"not a host and a TCP port: {host!r}, {port}")
        super().__init__(f"tcp://[{host}]:{port}" if ":" in host else f"tcp://{host}:{port}")
        self._where = host, port
        self._addresses: list[Address] = []
        # When the addresses were found, and until when the name isn't looked up.
        self._looked_up_at, self._looks_up_from = 0.0, 0.0
        self._joining: _Joining | None = None

    @property
    def is_opening(self) -> bool:
        # That of the process from which this one was forked isn't its own.
        return self._joining is not None and self._joining.process == os.getpid()

    def close(self) -> None:
        super().close()
        self._stop_joining()

    def _let_go(self, file: int) -> None:
        """Drops what nobody has read: with that the system would drop what it hasn't sent yet."""
        with MinorFaults():
            for _ in range(_MOST_PARTS):
                if not os.read(file, _AT_ONCE):
                    break

    def _stop_joining(self) -> None:
        if self._joining is not None:
            self._joining.close()
            self._joining = None

    def _opened(self, seconds: float) -> int:
        if not self.is_opening:
            self._stop_joining()
            if not self._addresses:
                self._look_up()
            self._joining = _Joining(self._addresses, max(seconds, _ANSWERS))
        try:
            return self._connected(time.monotonic() + seconds)
        except OSError as fault:
            is_old = time.monotonic() - self._looked_up_at > _LOOKED_UP_FOR
            if is_old and not (self.is_opening or _is_of_handler(fault)):
                # For the next time. The addresses that are known stay if there are no others.
                with MinorFaults():
                    self._look_up()
            raise

    def _put(self, file: int, data: bytes) -> int:
        """As any port, but without SIGPIPE if the other end has closed: it ends a program that doesn't ignore it."""
        count = _send(file, bytes(data), len(data), socket.MSG_NOSIGNAL)
        if count < 0:
            code = ctypes.get_errno()
            raise OSError(code, os.strerror(code))
        return int(count)

    def _look_up(self) -> None:
        """Finds the addresses of the name."""
        began = time.monotonic()
        if began < self._looks_up_from:
            raise OSError(errno.EHOSTUNREACH, "its name wasn't found, and is looked up later")
        try:
            found = socket.getaddrinfo(*self._where, type=socket.SOCK_STREAM)
        except UnicodeError as fault:
            raise OSError(errno.EINVAL, f"no host has such a name: {fault}") from fault
        except OSError as fault:
            if _is_of_handler(fault):
                raise
            ended = time.monotonic()
            if ended - began > _QUICKLY:
                self._looks_up_from = ended + _LOOKED_UP_FOR
            # The numbers of looking a name up are none of the system's.
            raise OSError(errno.EHOSTUNREACH, reason_of(fault)) from fault
        self._addresses = [(family, address) for family, _, _, _, address in found]
        self._looked_up_at = time.monotonic()

    def _connected(self, end: float) -> int:
        """The connection that is being made, if it is there before a time."""
        assert self._joining is not None
        try:
            made = self._joining.made(end)
        except OSError:
            self._stop_joining()
            raise
        if made is None:
            raise _timed_out()
        self._joining = None
        with made:
            made.setsockopt(socket.IPPROTO_TCP, socket.TCP_NODELAY, 1)
            made.setsockopt(socket.SOL_SOCKET, socket.SO_KEEPALIVE, 1)
            made.setsockopt(socket.IPPROTO_TCP, socket.TCP_KEEPIDLE, _ASKED_EVERY)
            made.setsockopt(socket.IPPROTO_TCP, socket.TCP_KEEPINTVL, _ASKED_EVERY)
            if not self.is_patient:
                made.setsockopt(socket.IPPROTO_TCP, _USER_TIMEOUT, _ACKNOWLEDGED_WITHIN)
            return made.detach()


class _Joining:
    """A connection that is being made, to the first of some addresses that answers.

    Args:
        addresses: Those of a host.
        seconds: How long all of them have together, of which each one has its part. If no call has looked while an
            address had it, those behind it have theirs all the same.
    """

    def __init__(self, addresses: Sequence[Address], seconds: float) -> None:
        self.process = os.getpid()
        self._left = list(addresses)
        self._seconds, self._count = seconds, len(addresses)
        self._ends_at = time.monotonic() + seconds
        # The connection to the address whose turn it is, and until when that has time.
        self._made: socket.socket | None = None
        self._turn_ends_at = 0.0

    def __del__(self) -> None:
        self.close()

    def made(self, end: float) -> socket.socket | None:
        """The connection once it is there, if that is before a time; None if an address has time left after it.

        Raises:
            OSError: None of the addresses answers.
        """
        fault: OSError = _timed_out()
        while self._made is not None or self._left:
            try:
                if self._made is None:
                    self._begin()
                if self._is_made(min(end, self._turn_ends_at)):
                    return self._taken()
                if time.monotonic() < self._turn_ends_at:
                    return None
                fault = _timed_out()
            except OSError as found:
                if _is_of_handler(found):
                    raise
                fault = found
            self.close()
        raise fault

    def close(self) -> None:
        """Lets go of the connection that isn't made."""
        if self._made is not None:
            self._taken().close()

    def _taken(self) -> socket.socket:
        assert self._made is not None
        made, self._made = self._made, None
        return made

    def _begin(self) -> None:
        """Begins to connect to the next address."""
        now, left = time.monotonic(), len(self._left)
        self._ends_at = max(self._ends_at, now + self._seconds * left / self._count)
        self._turn_ends_at = now + (self._ends_at - now) / left
        family, address = self._left.pop(0)
        kind = socket.SOCK_STREAM | socket.SOCK_NONBLOCK
        self._made = socket.socket(family, kind)
        if self._made.fileno() <= LAST_STREAM:
            self._made = socket.socket(family, kind, fileno=off_streams(self._taken().detach()))
        _check(self._made.connect_ex(address), 0, errno.EINPROGRESS)

    def _is_made(self, end: float) -> bool:
        """Whether the connection is there before a time."""
        assert self._made is not None
        waits = select.poll()
        waits.register(self._made, select.POLLOUT)
        if not waits.poll(_milliseconds(end - time.monotonic())):
            return False
        _check(self._made.getsockopt(socket.SOL_SOCKET, socket.SO_ERROR), 0)
        if _is_own(self._made):
            raise ConnectionRefusedError(errno.ECONNREFUSED, os.strerror(errno.ECONNREFUSED))
        return True


def _is_own(made: socket.socket) -> bool:
    """Whether a connection leads to itself. The system may give it the number of the port, if nobody listens there."""
    with MinorFaults():
        return bool(made.getsockname() == made.getpeername())
    return False


def _timed_out() -> TimeoutError:
    return TimeoutError(errno.ETIMEDOUT, "timed out")


def _check(code: int, *wanted: int) -> None:
    """Raises the error of a system's number, unless it is one of some."""
    if code not in wanted:
        raise OSError(code, os.strerror(code))


def _is_host(host: str) -> bool:
    """Whether it is a name or an address. Only an address of IPv6 has colons."""
    if ":" not in host:
        return host != ""
    try:
        ipaddress.IPv6Address(host)
    except ValueError:
        return False
    return True


def _is_line(path: str) -> bool:
    """Whether a path is that of a serial line, or of a link to one."""
    return path.startswith(("/dev/tty", "/dev/serial/")) or os.path.realpath(path).startswith("/dev/tty")


def _lock(file: int) -> None:
    """Keeps other tills from a line."""
    try:
        fcntl.flock(file, fcntl.LOCK_EX | fcntl.LOCK_NB)
    except BlockingIOError as fault:
        if _is_of_handler(fault):
            raise
        raise OSError(errno.EBUSY, os.strerror(errno.EBUSY)) from fault


def unlock(file: int) -> None:
    """Lets others have a line again, also if a process that was forked has the file still."""
    try:
        with MinorFaults():
            fcntl.ioctl(file, termios.TIOCNXCL)
    finally:
        with MinorFaults():
            fcntl.flock(file, fcntl.LOCK_UN)


def _unsent(file: int) -> int:
    """How many bytes a terminal line hasn't sent yet."""
    return int.from_bytes(fcntl.ioctl(file, termios.TIOCOUTQ, bytes(4)), "little")


def _drop_unsent(file: int) -> None:
    """Drops what a terminal line hasn't sent. Closing it would wait for that, while flow control holds it back. Of a
    pseudo terminal, which says that all is sent, it would drop what the program at its other end hasn't read yet."""
    if _unsent(file):
        termios.tcflush(file, termios.TCOFLUSH)
    # What a driver can't drop goes out, and so does what is in an adapter alone.
    found = termios.tcgetattr(file)
    found[0] &= ~(termios.IXON | termios.IXOFF)
    found[2] &= ~termios.CRTSCTS
    termios.tcsetattr(file, termios.TCSANOW, found)


def _raw(file: int) -> list[Any]:
    """The attributes of a terminal line through which bytes pass as they are. A line that is cut for a moment isn't a
    byte of 0."""
    found = termios.tcgetattr(file)
    found[0], found[1], found[3] = termios.IGNBRK, 0, 0
    found[2] = found[2] & ~(termios.CSIZE | termios.PARENB) | termios.CS8 | termios.CREAD | termios.CLOCAL
    found[6][termios.VMIN], found[6][termios.VTIME] = 1, 0
    return found


def port_of(name: Union[Port, Path], flow: Flow = _FLOW) -> Port:
    """Returns the port of a name: `tcp:HOST` or `tcp:HOST:PORT`, also with `//` before HOST, or the path of a device
    file. An address of IPv6 is in brackets: `tcp:[::1]:9100`.

    A path of /dev/tty.. or /dev/serial/.., or a link to one, is a serial line of 9,600 bits per second with RTS/CTS.
    A link that leads nowhere yet is looked at again when the port is opened. For other settings use SerialPort.

    Args:
        name: The name, or a port, which is returned as it is.
        flow: How the device of a serial line says that it can take no more, as that of SerialPort.

    Raises:
        ValueError: A name that begins with `tcp:` goes on otherwise.
    """
    if isinstance(name, Port):
        return name
    text = os.fspath(name)
    if text.startswith("tcp:"):
        found = _TCP.fullmatch(text)
        if found is None:
            raise ValueError(f"not a host and a TCP port: {text!r}")
        return TcpPort(found["address"] or found["name"], int(found["port"] or 9100))
    if _is_line(text):
        return SerialPort(text, flow=flow)
    port = FilePort(text)
    port._may_be_line, port._flow = True, flow
    return port
