"""Tries a printer, a customer display or a scanner at a port, and says what it finds:

    python3 -m kijolvar printer /dev/usb/lp0 --drawer
    python3 -m kijolvar display /dev/serial/by-id/usb-display --protocol escpos
    python3 -m kijolvar scanner /dev/input/by-id/usb-scanner-event-kbd

PORT is a device file, or tcp:HOST:PORT. Each step is a line; after one that failed comes what to do. The status is 0 if
all went well, 1 if something failed, and 2 if the command line is wrong.
"""
from __future__ import annotations

import argparse
import errno
import grp
import math
import os
import pwd
import stat
import sys
import time
from collections.abc import Callable, Sequence
from typing import Union

from ._constants import ScanDataType
from ._events import ErrorEvent, Event
from ._faults import Error, LibraryError, ProfileError, UposError
from .drivers import Driver, EscPosPrinter, SerialDisplay, WedgeScanner
from .errors import CoverOpenError, FailureError, OfflineError, ReceiptEmptyError
from .ports import Flow, Port, PortError, SerialPort
from .till import Till
from .till import open as open_till

# How long a device may take to answer at first, in seconds.
_ANSWERS = 3.0
_PAGE = ("\x1b|bCKijolvar\n\x1b|N\x1b|cAin the centre\n\x1b|N\x1b|rAat the right\n\x1b|N{full}\n"
         "right below the full line\n")
# The words of the command line that stand behind what a profile has.
_WORDS = {"chars": "--columns", "columns": "--columns", "rows": "--rows"}
# Where no serial line is.
_NO_LINES = "/dev/usb/", "/dev/input/", "/dev/hidraw"


class _Trouble(Error):
    """What has gone wrong, and what to do."""

    def __init__(self, why: str, advice: str) -> None:
        super().__init__(why)
        self.advice = advice


def main(words: Sequence[str] | None = None) -> int:
    """Does what the words of the command line say, and returns the status."""
    reader = _reader()
    given = reader.parse_args(words)
    try:
        driver, till = _made(reader, given)
        with till:
            return _tried(till, driver, given)
    except LibraryError as fault:
        return _failed("library", str(fault), "set KIJOLVAR_LIBRARY to the path of the libkijolvar.so of this release")
    except Error as fault:
        return _failed(given.device, _reason(fault), _advice(fault, given))
    except KeyboardInterrupt:
        return 130


def _made(reader: argparse.ArgumentParser, given: argparse.Namespace) -> tuple[Driver, Till]:
    """The driver and the till that the words describe. Words that no device has end the program."""
    try:
        return given.driver(given), open_till(given.profile(given))
    except ProfileError as fault:
        named = fault.reason.removeprefix("device 1: ")
        what = named.split(" ", 1)[0]
        reader.error(named.replace(what, _WORDS.get(what, what), 1))
    except ValueError as fault:
        reader.error(str(fault))


def _tried(till: Till, driver: Driver, given: argparse.Namespace) -> int:
    """Tries a device, and returns the status."""
    till.drive("device", driver)
    if driver.port_error is None:
        _say("port", f"{given.port} is open")
        _wait_for(till, driver)
    why = driver.port_error
    if why is not None:
        return _failed("port", why.strerror or str(why), _advice_on_port(why, given.port, given.device))
    if not driver.is_online:
        return _failed(given.device, "it doesn't answer", _advice_on_silence(given))
    given.attempt(till, driver, given)
    return 0


def _wait_for(till: Till, driver: Driver) -> None:
    """Gives a device some time that answers late."""
    end = time.monotonic() + _ANSWERS
    while not driver.is_online and time.monotonic() < end:
        till.run_devices(timeout=0.1)


def _say(what: str, text: str) -> None:
    print(f"{what}: {text}", flush=True)


def _failed(what: str, why: str, advice: str) -> int:
    _say(what, f"FAILED: {why}")
    _say("what to do", advice)
    return 1


def _timed(what: str, call: Callable[[], object]) -> None:
    began = time.monotonic()
    call()
    _say(what, f"done after {time.monotonic() - began:.2f} s")


# ---- what went wrong, and what to do

def _reason(fault: Error) -> str:
    """What went wrong, for who has no code to read: the reason first, and the code of the standard behind it."""
    if not isinstance(fault, UposError):
        return str(fault)
    numbers = f"{fault.code} {fault.extended}" if fault.extended else f"{fault.code}"
    # The command prints at once: no OutputID is used up.
    reason = fault.reason.rstrip(".").removesuffix(", or no OutputID is left")
    return f"{reason} ({fault.name}, {numbers})"


def _advice(fault: Error, given: argparse.Namespace) -> str:
    """What to do if a device fails whose port is open."""
    if isinstance(fault, _Trouble):
        return fault.advice
    if isinstance(fault, CoverOpenError):
        return "close the cover, and try again"
    if isinstance(fault, ReceiptEmptyError):
        return "put paper in, close the cover, and try again"
    if isinstance(fault, OfflineError):
        return _advice_on_silence(given)
    if isinstance(fault, FailureError) and given.device == "printer":
        return _advice_on_printer(given)
    return "switch the device off and on, and try again"


def _advice_on_silence(given: argparse.Namespace) -> str:
    """What to do about a device that doesn't answer, or doesn't take what is sent."""
    advice = "is it on, and is its cable plugged in at both ends?"
    if given.device == "printer" and not given.asked:
        advice += " A simple printer says nothing by itself: try --asked."
    if given.port.startswith("tcp:"):
        return f"{advice} Is another program printing on it?"
    return f"{advice} On a serial line: is --speed right? Try --flow none"


def _advice_on_printer(given: argparse.Namespace) -> str:
    """What to do about a printer that answers, and doesn't say that it has printed."""
    shut = "close its cover, and put paper in; is a light on, as of a jam?"
    if given.asked:
        return f"{shut} Switch it off and on"
    return f"if it printed all the same, it doesn't acknowledge what it prints: try --asked. If not: {shut}"


def _advice_on_port(why: PortError, port: str, device: str = "device") -> str:
    """What to do about a port that can't be opened."""
    if port.startswith("tcp:"):
        return f"is the {device} on, and is that its address? A printer's own test page tells it"
    if why.errno in (errno.EACCES, errno.EPERM):
        return _advice_on_rights(port)
    if why.errno == errno.EBUSY:
        return f"another program has it: `fuser -v {port}`, as root, says which"
    if why.errno in (errno.ENODEV, errno.EISDIR) or "/" not in port:
        return ("name a device file, such as /dev/usb/lp0 or one in /dev/serial/by-id or /dev/input/by-id; or "
                "tcp:HOST:PORT")
    if port.startswith("/dev/usb/lp"):
        return f"is the {device} plugged in, and on? If it is: `modprobe usblp` as root, and take it out of CUPS"
    return f"is the {device} plugged in, and on? /dev/usb, /dev/serial/by-id and /dev/input/by-id have the ports"


def _advice_on_rights(port: str) -> str:
    """What to do about a port that this user may not open: whether its group may, or only root."""
    if os.geteuid() == 0:
        return "the system forbids it, also to root: in a container, the device has to be passed on to that"
    may_group, group = _group_of(port)
    if not may_group:
        return "run this as root"
    return f"`usermod -aG {group} {_user()}` as root, and log in again; or run this as root"


def _group_of(path: str) -> tuple[bool, str]:
    """Whether being in the group of a device file helps, and the name of that."""
    try:
        found = os.stat(path)
        wanted = stat.S_IRGRP if path.startswith("/dev/input/") else stat.S_IRGRP | stat.S_IWGRP
        return found.st_gid != 0 and found.st_mode & wanted == wanted, grp.getgrgid(found.st_gid).gr_name
    except (OSError, KeyError):
        # A folder on the way may be closed to this user, or the group has no name.
        return False, ""


def _user() -> str:
    """The name of the user who runs this."""
    try:
        return pwd.getpwuid(os.getuid()).pw_name
    except KeyError:
        return "USER"


# ---- the devices

def _port_of(given: argparse.Namespace, flow: Flow) -> Union[Port, str]:
    """The port that the words name. One with a speed or a flow control is a serial line."""
    if given.speed is None and given.flow is None:
        return str(given.port)
    if given.port.startswith("tcp:") or os.path.realpath(given.port).startswith(_NO_LINES):
        raise ValueError("--speed and --flow are for serial lines")
    return SerialPort(given.port, given.speed or 9600, flow=given.flow or flow)


def _printer_of(given: argparse.Namespace) -> Driver:
    return EscPosPrinter(_port_of(given, "rts-cts"), drawer="drawer" if given.drawer else None, is_asked=given.asked,
                         cutter=given.cutter)


def _printer_profile(given: argparse.Namespace) -> str:
    return (f'[[device]]\nname = "device"\ncategory = "POSPrinter"\nchars = {given.columns}\nlines = 1000\n'
            'near = 50\n[[device]]\nname = "drawer"\ncategory = "CashDrawer"\n')


def _try_printer(till: Till, driver: Driver, given: argparse.Namespace) -> None:
    with till.printer("device").in_use() as printer:
        paper = "at its end" if printer.rec_empty else "near its end" if printer.rec_near_end else "there"
        _say("printer", f"it answers; its cover is {'open' if printer.cover_open else 'closed'}, its paper {paper}")
        _timed("page", lambda: printer.print(_PAGE.format(full="x" * given.columns)))
        if given.cutter != "absent":
            _timed("cut", printer.cut_paper)
    if given.drawer:
        drawer = till.drawer("drawer")
        _timed("drawer", drawer.open_drawer)
        till.run_devices(timeout=1.0)
        _say("drawer", f"its sensor says that it is {'open' if drawer.drawer_opened else 'closed'}")
    _say("look", f"three short lines, the first bold, a line of {given.columns} x, and one right below it")


def _display_of(given: argparse.Namespace) -> Driver:
    return SerialDisplay(_port_of(given, "none"), given.protocol)


def _display_profile(given: argparse.Namespace) -> str:
    return (f'[[device]]\nname = "device"\ncategory = "LineDisplay"\nrows = {given.rows}\n'
            f'columns = {given.columns}\n')


def _try_display(till: Till, driver: Driver, given: argparse.Namespace) -> None:
    with till.display("device").in_use() as display:
        for row in range(given.rows):
            _timed(f"row {row + 1}", lambda: display.display_text_at(row, 0, f"row {row + 1}"[:given.columns]))
    _say("look", "each row has its number. If it shows something else, try the other --protocol. If it shows nothing: "
         "is it on? On a serial line: is --speed right?")


def _scanner_of(given: argparse.Namespace) -> Driver:
    return WedgeScanner(_port_of(given, "none"))


def _scanner_profile(given: argparse.Namespace) -> str:
    return '[[device]]\nname = "device"\ncategory = "Scanner"\n'


def _try_scanner(till: Till, driver: Driver, given: argparse.Namespace) -> None:
    with till.scanner("device").in_use() as scanner:
        scanner.decode_data = scanner.data_event_enabled = True
        _say("scanner", f"scan a code within {given.seconds:g} seconds")
        if isinstance(_scanned(till, driver, given.seconds), ErrorEvent):
            raise _Trouble("a code came that isn't whole, or was disturbed",
                           "scan it again. On a serial line: is --speed right? A scanner that types must type as a "
                           "keyboard of the layout US")
        _say("scanner", f"it has read {scanner.scan_data.decode('ascii', 'backslashreplace')!r}, of the type "
             f"{_type_of(scanner.scan_data_type)}")


def _scanned(till: Till, driver: Driver, seconds: float) -> Event:
    """The first event of a scanner."""
    end = time.monotonic() + seconds
    while time.monotonic() < end:
        till.run_devices(timeout=min(1.0, max(0.0, end - time.monotonic())))
        for event in till.events():
            return event
        if not driver.is_online:
            raise _Trouble("it is gone", "was it unplugged, or switched off? Plug it in, and try again")
    raise _Trouble("no code came", "does the scanner beep, and end each code with Enter? Is the port its own, and not "
                   "that of another keyboard or line? On a serial line: is --speed right?")


def _type_of(kind: int) -> str:
    """The type of a code, in words if it has any."""
    try:
        return f"{ScanDataType(kind).name} ({int(kind)})"
    except ValueError:
        return str(kind)


# ---- the words

def _reader() -> argparse.ArgumentParser:
    reader = argparse.ArgumentParser("python3 -m kijolvar", description=__doc__,
                                     formatter_class=argparse.RawDescriptionHelpFormatter)
    kinds = reader.add_subparsers(dest="device", required=True, metavar="DEVICE")
    printer = _device(kinds.add_parser("printer", help="print a page"), _printer_of, _printer_profile, _try_printer)
    printer.add_argument("--columns", type=int, default=42, help="characters on a line (42)")
    printer.add_argument("--drawer", action="store_true", help="open the drawer on its connector, too")
    printer.add_argument("--asked", action="store_true", help="a simple one, which doesn't know GS ( H: ask it")
    printer.add_argument("--cutter", choices=("both", "full", "partial", "absent"), default="both",
                         help="how its cutter cuts, if there is one (both)")
    display = _device(kinds.add_parser("display", help="number the rows"), _display_of, _display_profile, _try_display)
    display.add_argument("--rows", type=int, default=2, help="rows (2)")
    display.add_argument("--columns", type=int, default=20, help="characters in a row (20)")
    display.add_argument("--protocol", choices=("cd5220", "escpos"), default="cd5220",
                         help="as its manual says (cd5220)")
    scanner = _device(kinds.add_parser("scanner", help="wait for a code"), _scanner_of, _scanner_profile, _try_scanner)
    scanner.add_argument("--seconds", type=_seconds, default=30.0, help="how long to wait (30)")
    return reader


def _device(reader: argparse.ArgumentParser, driver: Callable[[argparse.Namespace], Driver],
            profile: Callable[[argparse.Namespace], str],
            attempt: Callable[[Till, Driver, argparse.Namespace], None]) -> argparse.ArgumentParser:
    """Adds what each device has."""
    reader.add_argument("port", help="a device file, or tcp:HOST:PORT")
    reader.add_argument("--speed", type=int, help="bits per second of a serial line (9600)")
    reader.add_argument("--flow", choices=("none", "rts-cts", "xon-xoff"),
                        help="how it says that it is full, on a serial line (a printer: rts-cts; others: none)")
    reader.set_defaults(driver=driver, profile=profile, attempt=attempt)
    return reader


def _seconds(word: str) -> float:
    """A time of the command line."""
    try:
        seconds = float(word)
    except ValueError:
        seconds = math.nan
    if not 0 < seconds < math.inf:
        raise argparse.ArgumentTypeError(f"a number above 0, such as 30: not {word!r}")
    return seconds


if __name__ == "__main__":
    sys.exit(main())
