"""A till: the devices of a shop counter, and the controls on them."""
from __future__ import annotations

import contextlib
import ctypes
import fcntl
import functools
import io
import os
import re
import sys
import warnings
import weakref
from collections import deque
from collections.abc import Callable, Iterator
from types import TracebackType
from typing import BinaryIO, TypeVar

from . import _files
from ._constants import KIJOLVAR_CUT, KIJOLVAR_NO_CONTROL, KIJOLVAR_NO_DEVICE, KIJOLVAR_NO_MEMORY, PTR_S_RECEIPT
from ._control import Control, Text, device_word, is_true, undoing
from ._controls import CashDrawer, LineDisplay, POSPrinter, Scanner
from ._devices import Device, Order, read_order
from ._drives import Drives
from ._events import Event
from ._faults import (Error, LibraryFault, LineError, NameInUseError, NoDeviceError, NoMemoryError, ProfileError,
                      TooManyControlsError, library_fault)
from ._library import Path
from ._questions import Profile, ProfileDevice, devices, explain, library_of, text_of
from ._session import Session
from ._unique import Unique
from ._wire import Reply, WireSettings, behind, expected
from .drivers import Driver
from .errors import NoExistError
from .ports import check_wait
from .totals import Totals

C = TypeVar("C", bound=Control)
# Lines for which a text is carried out line by line, and what each of them has: those that attach a peripheral, those
# that work on output that waits, and those that give up output, since an order after one is a new one.
_APART = re.compile(r"^ *(?:attach|work) | clear(?:Output)? *\r?$", re.M)
_WORDS_APART = "attach ", "work ", " clear"


class Printer(POSPrinter):
    """A receipt printer, with `print` for the receipt."""

    __slots__ = ()

    def print(self, data: Text) -> None:
        """Prints data on the receipt, as `print_normal` does."""
        self.print_normal(PTR_S_RECEIPT, data)


class Till(Unique):
    """The devices of a shop counter, simulated or the host's, and the controls on them. `kijolvar.open` makes one.

    `till.drawer("d1")`, `till.scanner("s1")`, `till.display("p1")`, `till.printer("r1")` and `till.totals("t1")` are
    controls; `till.device("s1")` says what happens at a device. A till can be used only in the thread that opened it,
    and it closes at the end of a `with` block. To a process that is forked it is closed. Its calls raise ThreadError
    there, and closing it changes nothing for the process that has it.

    If nothing refers to a till any more that isn't closed, it ends with a ResourceWarning, in whichever thread Python
    finds that out: its memory is freed, and the file of totals that it has opened is closed. Another thread than the
    till's doesn't close its drivers: a port closes once nothing refers to it.

    One call at a time: a signal's handler that calls the till while a call is under way gets an InCallError. It may
    close the till.
    """

    _noun = "a till"

    def __init__(self, session: Session, totals: BinaryIO | None = None, *, where: str = "in memory",
                 owns_totals: bool = False, devices: Callable[[], list[ProfileDevice]] | None = None) -> None:
        self._session, self._where = session, where
        self._carry_out = session.carry_out
        self._file, self._owns_file = totals, owns_totals
        self._controls: weakref.WeakValueDictionary[str, Control] = weakref.WeakValueDictionary()
        # Open ones that have a listener.
        self._kept: set[Control] = set()
        self._names: dict[int, str] = {}
        # The names of controls that were given back: made up ones by their category, and the categories of chosen ones.
        self._free: dict[str, deque[str]] = {}
        self._free_chosen: dict[str, str] = {}
        self._count = 0
        self._devices: Callable[[], list[ProfileDevice]] = devices or list
        self._drives = Drives(self, session)
        session.ended = self._close_file

    def __repr__(self) -> str:
        state = "closed" if self.is_closed else f"totals {self._where}, {len(self._controls)} controls"
        return f"<kijolvar.Till: {state}>"

    def __enter__(self) -> Till:
        return self

    def __exit__(self, kind: type[BaseException] | None, value: BaseException | None,
                 trace: TracebackType | None) -> None:
        with undoing(value):
            self.close()

    def __del__(self) -> None:
        session = getattr(self, "_session", None)
        if session is None or not session.may_end:
            return
        said = f"unclosed till {self!r}"
        try:
            self.close() if session.is_owner else self._end_elsewhere()
        finally:
            # It is told as an error if the program wants that, and whoever hears it may refer to the till again.
            warnings.warn(said, ResourceWarning, source=self, stacklevel=2)

    def _end_elsewhere(self) -> None:
        """Ends a till that nothing refers to any more, in another thread. Its drivers belong to the till's thread."""
        if sys.is_finalizing():
            # A thread that Python has stopped may be within a call.
            return
        with contextlib.ExitStack() as ends:
            ends.callback(self._close_file)
            self._session.collect()

    @property
    def is_closed(self) -> bool:
        """Whether the till is closed."""
        return self._session.is_closed

    def close(self) -> None:
        """Ends the till, and closes the file of totals if the till has opened it. Closing it again does nothing.

        A signal's handler, or a driver, may close the till while a call is under way. That call raises TillClosedError
        then, unless it is done, and a change of totals that it has begun is in the file or not.
        """
        if not self.is_closed:
            self._session.check()
        with contextlib.ExitStack() as ends:
            ends.callback(self._close_file)
            if not self._session.is_forked:
                ends.callback(self._drives.close)
            self._kept.clear()
            self._session.close()

    def _close_file(self) -> None:
        """Closes the file of totals, if the till has opened it. Its lock ends, though a process that was forked may
        have the file open too: that can't use it."""
        if self._session.is_ending:
            # A call that is under way may write into it: it closes the file.
            return
        if self._owns_file and self._file is not None and not self._file.closed:
            with self._file:
                if not self._session.is_forked:
                    fcntl.flock(self._file, fcntl.LOCK_UN)

    # Controls.

    def new_control(self, kind: type[C], name: str | None = None) -> C:
        """Makes a control that isn't open yet.

        Args:
            kind: CashDrawer, Scanner, LineDisplay, Printer or Totals.
            name: The control's name in the lines of the text layer, 1 to 16 letters, digits or hyphens. Once nothing
                refers to the control, you can use the name again for a control of its category.

        Raises:
            TooManyControlsError: There are 4,096 controls.
            NameInUseError: A control has the name, or one of another category had it.
            NoMemoryError: There was no memory. With KIJOLVAR_CUT the control may have been made: then the next call for
                its category returns it, or the next one with its name.
        """
        self._session.check()
        free = self._free.setdefault(kind.category, deque())
        self._session.settle_later()
        if name is None and free:
            return self._adopt(kind(self, free.popleft()))
        if name is not None and self._free_chosen.get(name) == kind.category:
            del self._free_chosen[name]
            return self._adopt(kind(self, name), is_chosen=True)
        word = name
        while True:
            if name is None:
                self._count += 1
                word = f"control-{self._count}"
            assert word is not None
            answer = self._make(word, kind.category, name is not None)
            if answer == b"ok\n":
                return self._adopt(kind(self, word), is_chosen=name is not None)
            if answer == b"refused Full\n":
                raise TooManyControlsError("there are as many controls as there may be")
            if answer == b"memory\n":
                raise NoMemoryError(KIJOLVAR_NO_MEMORY, "there was no memory for a control")
            if answer != b"bad control\n":
                raise LineError(answer.decode().strip())
            if name is not None:
                raise NameInUseError(name)

    def _make(self, name: str, category: str, is_chosen: bool) -> bytes:
        """Carries out the line that makes a control, and returns the answer. A control that was made, though the answer
        is lost, is the next one of its category, or of its name if that was chosen."""
        word = device_word(name)
        was_there = self._number_of(word) is not None
        try:
            answer = self._carry_out(b"new %b %b" % (word, category.encode()))
        except BaseException as fault:
            with undoing(fault):
                if not was_there and self._notes_made(name, word):
                    self._give_back(category, name, is_chosen)
            raise
        if answer == b"ok\n":
            self._notes_made(name, word)
        return answer

    def _notes_made(self, name: str, word: bytes) -> bool:
        """Notes the number of a control, and returns whether there is one of the name."""
        number = self._number_of(word)
        if number is not None:
            self._names[number] = name
        return number is not None

    def _number_of(self, word: bytes) -> int | None:
        """The library's number of the control of a name, or None if there is none."""
        try:
            return self._session.number_of(word)
        except LibraryFault as fault:
            if fault.library_code != KIJOLVAR_NO_CONTROL:
                raise
            return None

    def _adopt(self, control: C, is_chosen: bool = False) -> C:
        """Keeps the control's name, so that another control takes its place once nothing refers to it."""
        self._controls[control.name] = control
        end = functools.partial(_end_control, weakref.ref(self), control.category, control.name, is_chosen)
        # What ends a control mustn't keep its till: that may keep the control.
        weakref.finalize(control, _ask_later, weakref.ref(self._session), end).atexit = False
        return control

    def _keep(self, control: Control, is_kept: bool) -> None:
        """Refers to a control from now on, so that it stays open, or no more."""
        if is_kept and not self.is_closed:
            self._kept.add(control)
        else:
            self._kept.discard(control)

    def _give_back(self, category: str, name: str, is_chosen: bool) -> None:
        """Lets the name of a control that is closed be used again. A chosen one isn't used for another name."""
        if is_chosen:
            self._free_chosen[name] = category
        else:
            self._free.setdefault(category, deque()).append(name)

    def _opened(self, kind: type[C], device: str, enable: bool) -> C:
        is_enabled = is_true(enable)
        control = self.new_control(kind)
        try:
            control._open(device)
        except NoExistError as fault:
            named = self._names_of(lambda one: one.category == kind.category)
            raise NoExistError(fault.code, 0, fault.call, f"{fault.reason} The profile has {named}.") from None
        if is_enabled:
            control._do(control._set + b"DeviceEnabled true", "device_enabled")
        return control

    def _names_of(self, is_meant: Callable[[ProfileDevice], bool]) -> str:
        """The names of some of the profile's devices, as a sentence has them."""
        return ", ".join(one.name for one in self._devices() if is_meant(one)) or "none"

    def drawer(self, device: str, *, enable: bool = True) -> CashDrawer:
        """Opens a control on a cash drawer, and enables it.

        Raises:
            NoExistError: The profile has no cash drawer of the name.
            NoServiceError: No peripheral is attached to it.
        """
        return self._opened(CashDrawer, device, enable)

    def scanner(self, device: str) -> Scanner:
        """Opens a control on a scanner. Claim it and enable it, or use `with scanner.in_use():`.

        Raises:
            NoExistError: The profile has no scanner of the name.
            NoServiceError: No peripheral is attached to it.
        """
        return self._opened(Scanner, device, False)

    def display(self, device: str) -> LineDisplay:
        """Opens a control on a line display. Claim it and enable it, or use `with display.in_use():`.

        Raises:
            NoExistError: The profile has no line display of the name.
            NoServiceError: No peripheral is attached to it.
        """
        return self._opened(LineDisplay, device, False)

    def printer(self, device: str) -> Printer:
        """Opens a control on a receipt printer. Claim it and enable it, or use `with printer.in_use():`.

        Raises:
            NoExistError: The profile has no receipt printer of the name.
            NoServiceError: No peripheral is attached to it.
        """
        return self._opened(Printer, device, False)

    def totals(self, device: str, *, enable: bool = True) -> Totals:
        """Opens a control on Hard Totals, and enables it; the first one recovers the files.

        Raises:
            NoExistError: The profile has no Hard Totals of the name.
            NoHardwareError: The disk isn't formatted.
            FailureError: The files can't be recovered.
        """
        return self._opened(Totals, device, enable)

    def controls(self) -> list[Control]:
        """The controls that are open, in the order in which they were made."""
        return [control for control in list(self._controls.values()) if control.device is not None]

    # Events.

    def events(self) -> Iterator[Event]:
        """Delivers the events of all controls, until none can be delivered. The events of each control are in order.

        To reply to an ErrorEvent, call its `reply`.
        """
        for control in self._in_turn():
            event = control.next_event()
            if event is not None:
                yield event

    def next_event(self) -> Event | None:
        """Delivers the next event of any control, or returns None if none can be delivered now.

        Of several controls with an event, it is the one with the lowest number: they are numbered as they are made, and
        a new one may take the place of one that nothing refers to any more. `event.control` says whose event it is.
        """
        found = self._find(0)
        return None if found is None else found[1].next_event()

    def _find(self, start: int) -> tuple[int, Control] | None:
        """The open control with the lowest number, start or above, that has an event to deliver, and its number."""
        number = self._session.next_event(start)
        while number is not None:
            name = self._names.get(number)
            control = None if name is None else self._controls.get(name)
            if control is not None and control.device is not None:
                return number, control
            # Lines of the text layer made or opened it.
            number = self._session.next_event(number + 1)
        return None

    def _in_turn(self) -> Iterator[Control]:
        """The open controls that have an event to deliver, in turn, until none has one."""
        start = 0
        while (found := self._find(start)) is not None or start > 0:
            start = 0
            if found is not None:
                start = found[0] + 1
                yield found[1]

    def deliver(self) -> int:
        """Passes each event that can be delivered to its control's listener. Returns how many there were.

        Events of controls without a listener stay where they are.
        """
        total, start, is_any = 0, 0, False
        while (found := self._find(start)) is not None or is_any:
            if found is None:
                start, is_any = 0, False
                continue
            number, control = found
            count = control.deliver()
            total, start, is_any = total + count, number + 1, is_any or count > 0
        return total

    # Devices.

    def device(self, name: str) -> Device:
        """The device of this name, as the host sees it: its hardware, and its output that waits."""
        return Device(self, name)

    def host(self, device: str) -> None:
        """Says that the host has this device as hardware: its orders come by `orders` from then on.

        Raises:
            NoDeviceError: The profile has no device of the name, or it has no orders.
        """
        self._session.host(device_word(device))

    def orders(self) -> Iterator[Order]:
        """The orders for the devices that the host has, oldest first. Each is taken out as it is given."""
        for order in self._session.orders():
            yield read_order(order.decode())

    def drive(self, device: str, driver: Driver) -> None:
        """Has a driver carry out the orders of a device from now on. A call that orders something returns once the
        device has done it. If it hasn't, the call raises FailureError (no answer), OfflineError, CoverOpenError or
        ReceiptEmptyError.

        Hardware that isn't there is no error: the device is off until it is, and `driver.port_error` says why its port
        can't be opened. The till closes the port at its end.

        A spare that is attached to the device later (`Device.attach`, or a line) has the driver then.

        Raises:
            NoDeviceError: The profile has no device of the name, or it can't be driven, as one with `flaky`.
            DriverError: The driver is for another category, or the device has one already, or a driver of this package
                is to drive two devices.
            ValueError: The printer has another width than the device, or its rolls have too few lines.

        If it raises something, the device has no driver, and neither has the drawer that is on a printer.
        """
        self._session.check_call()
        known = {one.name: one for one in self._devices()}
        drivers = {device: driver, **driver.others()}
        for name in drivers:
            if name not in known:
                raise NoDeviceError(KIJOLVAR_NO_DEVICE, f"the profile has no device {name!r}: it has "
                                    f"{self._names_of(lambda one: True)}")
        for name, one in drivers.items():
            self._drives.check(known[name], one)
        with contextlib.ExitStack() as undo:
            for name, one in drivers.items():
                self._drives.add(known[name], one)
                undo.callback(self._drives.remove, name)
            undo.pop_all()

    def order_bytes(self, settings: WireSettings, is_new: bool = False, job: int | None = None) -> bytes:
        """The bytes by which hardware does the order that its driver is carrying out: those of an ESC/POS printer, a
        drawer on such a printer, or a display. Send them as they are. This changes nothing of the till.

        Args:
            settings: What the hardware is.
            is_new: Whether these are the first bytes of a connection, or a line failed before. They start the hardware
                then, and a display gets all its rows.
            job: What a printer is asked after the order: with a number of 0 to 65,535 to acknowledge it as that job,
                with JOB_PAPER or JOB_DRAWER for a status. None asks nothing.

        Raises:
            NoOrderError: No driver is carrying out an order, or the order has no bytes.
            SettingsError: A setting of the device's kind is out of its range.
        """
        return self._session.order_bytes(settings.raw, is_new, behind(job))

    def replies(self, device: str, settings: WireSettings, data: bytes, asked: int | None = None) -> Reply:
        """Reads bytes that a printer sent, up to the end of its first reply, for its device or the drawer on it. Call
        it again with the bytes that are left, until the reply has no lines. This changes nothing of the till.

        Args:
            device: The name of the printer, or of the drawer on its connector. What a printer sends is for both.
            settings: What the hardware is.
            data: The bytes.
            asked: What the printer was asked before (`Asked`), by bytes of the driver's own. Without it only what a
                printer says unasked is read, and that jobs are printed.

        Raises:
            NoDeviceError: The profile has no printer and no drawer of the name, or it is detached.
            SettingsError: A setting of the device's kind is out of its range.
        """
        return self._session.reply(device_word(device), settings.raw, expected(asked), bytes(data))

    def tear_off(self, device: str) -> None:
        """Takes the printed paper of a device away: what it shows has only the line that has begun then. A till keeps
        all that a printer prints, so do it now and then for a printer of which the host has the hardware. A till does
        it by itself for a printer that has a driver, after each 500 orders.

        Raises:
            NoDeviceError: The profile has no device of the name, it is one of Hard Totals, or it is detached.
        """
        self._session.tear_off(device_word(device))

    def run_devices(self, timeout: float = 0.0) -> bool:
        """Does what the driven devices need: tells the till what they say of themselves and what was scanned, opens
        lost ports again, and prints output that waits (AsyncMode), at most one request of each printer. Call it
        regularly, and then deliver events. Output that failed is tried again 100 ms later at the earliest, each time
        with an ErrorEvent.

        Args:
            timeout: How long to wait for something to happen, in seconds. Printing may take longer. With 0 or less it
                doesn't wait, and with math.inf until something happens.

        Returns:
            Whether anything was done.

        Raises:
            ValueError: The timeout is NaN.
        """
        check_wait("the timeout", timeout)
        return self._drives.run(timeout)

    # The text layer.

    def carry_out(self, lines: str) -> str:
        """Carries out lines of the text layer (docs/reference/console.md), and returns what they print.

        Raises:
            NoMemoryError: There was no memory. With KIJOLVAR_CUT some of the lines were carried out, or all.
        """
        # A text that can't be encoded is refused as a whole.
        text = lines.encode()
        self._drives.has_opened = self._drives.has_opened or "open " in lines
        if not (any(word in lines for word in _WORDS_APART) and _APART.search(lines)):
            return self._carry_out(text).decode()
        answers: list[str] = []
        try:
            for line in io.BytesIO(text):
                answers.append(self._answer(line).decode())
        except NoMemoryError:
            if not answers:
                raise
            # Lines were carried out.
            raise library_fault(KIJOLVAR_CUT) from None
        return "".join(answers)

    def _answer(self, line: bytes) -> bytes:
        """The answer to a line, which may attach a peripheral to a device."""
        verb, *words = line.split(None, 2) or [b""]
        return self._drives.attach(words[0].decode(), line) if verb == b"attach" and words else self._carry_out(line)


def _ask_later(session: weakref.ref[Session], deed: Callable[[], Callable[[], None] | None]) -> None:
    """Has a session, if it is still there, do something later."""
    found = session()
    if found is not None:
        found.later(deed)


def _end_control(till: weakref.ref[Till], category: str, name: str, is_chosen: bool) -> Callable[[], None] | None:
    """Closes a control that nothing refers to any more. Returns what lets its name be used again, or None if the
    control couldn't be closed, as without memory: then it may have a claim still."""
    found = till()
    if found is None or found.is_closed:
        return _nothing
    with contextlib.suppress(Error):
        if found._carry_out(b"close %b" % name.encode()) != b"memory\n":
            return functools.partial(found._give_back, category, name, is_chosen)
    return None


def _nothing() -> None:
    """What is to be done for a control whose till is closed."""


def open(profile: Profile | None = None, totals: Path | BinaryIO | None = None, *, create: bool = False,
         library: Path | ctypes.CDLL | None = None) -> Till:
    """Opens a till.

    Args:
        profile: The text of a profile (docs/reference/profile.md), or the path of a file with it (a pathlib.Path).
            Without one, it is the built-in profile: drawer d1, scanner s1, display p1, receipt printer r1 and Hard
            Totals t1. An empty text is a profile without devices.
        totals: The path of a file of totals, which is locked until the till is closed; or a file that open_totals or
            create_totals returned, which stays yours. Without one, the totals are in memory.
        create: Whether the file of totals is created if it is missing. Totals in memory can't be.
        library: The path of the library, or the library that `kijolvar.load` returned. Without one, it is the path in
            the environment variable KIJOLVAR_LIBRARY, or libkijolvar.so beside the package.

    Raises:
        ValueError: A file is to be created, and it has no path.
        ProfileError: The profile is refused.
        FileNotFoundError: The file of totals is missing.
        BlockingIOError: Another till has the file of totals open.
        TooSmallError: The file is too short for totals.
        LibraryError: The library isn't found, or is of another version.
    """
    may_create = is_true(create)
    if may_create and totals is None:
        raise ValueError("create needs the path of a file of totals")
    found, text = library_of(library), text_of(profile)
    with contextlib.ExitStack() as undo:
        undo.enter_context(_explaining(found, text))
        file, owns, where = _file_of(found, totals, may_create, text.encode())
        if owns and file is not None:
            undo.enter_context(file)
        name = getattr(file, "name", None)
        with _files.naming(name) if isinstance(name, str) else contextlib.nullcontext():
            session = Session(found, text.encode(), file, owns_totals=owns)
        undo.callback(session.close)
        till = Till(session, file, where=where, owns_totals=owns,
                    devices=functools.partial(devices, text or None, found))
        undo.pop_all()
    return till


@contextlib.contextmanager
def _explaining(library: ctypes.CDLL, text: str) -> Iterator[None]:
    """Says why a profile is refused, in the place of saying only that it is."""
    try:
        yield
    except ProfileError:
        raise explain(library, text) from None


def _file_of(library: ctypes.CDLL, totals: Path | BinaryIO | None, create: bool,
             profile: bytes) -> tuple[BinaryIO | None, bool, str]:
    """The file of totals, whether the till is to close it, and where the totals are, in words. A file is created only
    for a profile that isn't refused."""
    if totals is None:
        return None, False, "in memory"
    if not isinstance(totals, (str, os.PathLike)):
        return totals, False, f"in {totals.name!r}"
    where = f"in {os.fspath(totals)!r}"
    try:
        return _files.open_totals(totals), True, where
    except FileNotFoundError:
        if not create:
            raise
    try:
        return _files.create_totals(library, totals, profile), True, where
    except FileExistsError:
        # Another till created it in between.
        return _files.open_totals(totals), True, where


def create_totals(path: Path, library: Path | ctypes.CDLL | None = None) -> BinaryIO:
    """Creates a file of totals without files, and returns it open and locked. Pass it to `kijolvar.open`.

    Creating is all or nothing: a crash leaves no file, or a whole one.

    Raises:
        FileExistsError: Anything has the name already.
    """
    return _files.create_totals(library_of(library), path)
