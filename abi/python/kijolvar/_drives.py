"""The devices that a till drives: orders are answered once their drivers have carried them out."""
from __future__ import annotations

import contextlib
import functools
import select
import time
from collections import deque
from collections.abc import Callable, Iterator
from typing import TYPE_CHECKING

from ._constants import EL_OUTPUT, KIJOLVAR_CUT, KIJOLVAR_NO_MEMORY
from ._control import device_word, undoing
from ._devices import Device, Order, WorkFailed, read_order
from ._faults import DriverError, InCallError, InputError, LineError, NoDeviceError, NoMemoryError, library_fault
from ._questions import ProfileDevice
from ._session import Session, is_called
from .drivers import Driver, EscPosDrawer, EscPosPrinter, Scan, SerialDisplay, WedgeScanner
from .ports import BESIDE, PortError

if TYPE_CHECKING:
    from .till import Till


# The words of lines that give up what a printer's control has ordered, without the control's name.
_GIVES_UP: set[tuple[bytes, ...]] = {(b"call", b"clearOutput"), (b"deliver", b"clear")}
# The drivers that have one device each.
_SINGLE = EscPosPrinter, EscPosDrawer, SerialDisplay, WedgeScanner
# How many orders of a printer the till keeps the paper of.
_KEPT_ORDERS = 500
# How long the loop waits at most until it looks again, and at least until refused output is tried again, in seconds.
_OFTEN = 0.1


class Drive:
    """A device and its driver."""

    def __init__(self, device: ProfileDevice, driver: Driver) -> None:
        self.name, self.category, self.driver = device.name, device.category, driver
        self.word = device_word(device.name)
        # What a driver gets that doesn't look at its orders.
        self.order = Order(device.name, "", ())
        # Whether the device is on, by what the till was told or is to be told.
        self.is_on: bool | None = None
        # What has happened and the till hasn't taken yet: lines of inputs, and codes that were read.
        self.left = b""
        self.scans: deque[Scan] = deque()
        # How many orders it has done since its paper was taken away.
        self.orders = 0
        # When a request of its output was refused last.
        self.refused_at = -1e9

    def inputs(self) -> bytes:
        """What has happened at the device and the till hasn't taken yet, as lines of inputs. One that is back is on
        first, and one that has gone off is off after all that it has read: the till takes nothing of one that is
        off."""
        # From a failed scan on a control ignores codes, so those that have come are told before what happened.
        has_scans = self.has_scans()
        is_on = self.driver.is_online or has_scans
        if is_on:
            happened = [] if has_scans else self.happened()
            if not (self.is_on or "power on" in happened):
                happened = ["power on", *happened]
        else:
            happened = [] if self.is_on is False else ["power off"]
        # An interrupt between both costs nothing: the till is told twice.
        self.left += b"".join([b"input %b %b\n" % (self.word, words.encode()) for words in happened])
        self.is_on = is_on
        return self.left

    def happened(self) -> list[str]:
        """What the driver says has happened: the words of each input. Each has to be one line, since the till's answers
        are taken by lines."""
        found = [words for said in self.driver.happened() if (words := said.strip())]
        for words in found:
            if "\n" in words or "\r" in words:
                raise ValueError(f"the driver of {self.name!r} says {words!r} has happened: return a str for each line")
        return found

    def answered(self, answers: list[bytes]) -> None:
        """The till has answered the first lines of inputs. From the first on that found no memory, they are told again,
        so that they stay in their order."""
        count = answers.index(b"memory\n") if b"memory\n" in answers else len(answers)
        self.left = b"".join(self.left.splitlines(True)[count:])

    def taken(self, is_done: bool, answers: list[bytes]) -> None:
        """The till has taken what became of an order, and what happened at the device if it isn't done."""
        self.answered(answers)
        if is_done:
            self.driver.reported()

    def has_scans(self) -> bool:
        """Whether there are codes that the till hasn't taken yet."""
        self.scans += self.driver.scans()
        return bool(self.scans)


class Drives:
    """The drivers of a till."""

    def __init__(self, till: Till, session: Session) -> None:
        self._till, self._session = till, session
        self._drives: dict[str, Drive] = {}
        self._by_word: dict[bytes, Drive] = {}
        # What went wrong behind an order that was done.
        self._fault: Exception | None = None
        # Whether lines may have opened a control: on which device it is isn't known then.
        self.has_opened = False
        session.serve = self.serve
        session.served = self.served
        session.given_up = self.gave_up

    def check(self, device: ProfileDevice, driver: Driver) -> None:
        """Checks that a device can have a driver."""
        if driver.category not in ("", device.category):
            raise DriverError(f"{device.name!r} is a {device.category}, and the driver is for a {driver.category}")
        if device.name in self._drives:
            raise DriverError(f"{device.name!r} has a driver already")
        if isinstance(driver, _SINGLE) and any(drive.driver is driver for drive in self._drives.values()):
            # What it knows of one isn't so of the other: it would take an order of one for a retry of the other's.
            raise DriverError(f"the driver for {device.name!r} has another device: make one for each")

    def add(self, device: ProfileDevice, driver: Driver) -> None:
        """Has a driver carry out the orders of a device from now on."""
        drive = Drive(device, driver)
        try:
            with self._reading_keyboards():
                driver.begin(self._till, device)
            if device.category != "Scanner":
                self._session.keep_hosted()
                self._session.drive(drive.word)
            self._drives[device.name] = self._by_word[drive.word] = drive
            self._hand_in(drive)
        except BaseException as fault:
            with undoing(fault):
                if self._drives.get(device.name) is drive:
                    self.remove(device.name)
                else:
                    driver.close()
            raise

    def remove(self, name: str) -> None:
        """Takes the driver of a device away, if it has one, and closes that. Orders of the device fail then."""
        drive = self._drives.pop(name, None)
        if drive is not None:
            self._by_word.pop(drive.word, None)
            drive.driver.close()

    def port_error(self, name: str | None) -> PortError | None:
        """Why the port of a device's driver couldn't be opened; None if it is open, or there is no driver or port."""
        drive = None if name is None else self._drives.get(name)
        return None if drive is None else drive.driver.port_error

    def attach(self, name: str, line: bytes) -> bytes:
        """Carries out a line that attaches a peripheral to a device, and returns the answer. If the device has a
        driver, that goes on with it before another line can order something of it."""
        is_done = False
        try:
            answer = self._till._carry_out(line)
            is_done = answer == b"ok\n"
        except NoMemoryError as fault:
            # One whose answer is lost may be done.
            is_done = fault.library_code == KIJOLVAR_CUT
            raise
        finally:
            if is_done and name in self._drives:
                self._attached(self._drives[name])
        return answer

    def _attached(self, drive: Drive) -> None:
        """Has a driver go on with another peripheral. It is driven as the one before was; the till takes it as switched
        on."""
        try:
            if drive.category != "Scanner":
                self._session.drive(drive.word)
        except NoDeviceError:
            # Nothing is attached after all.
            return
        drive.is_on, drive.left = None, b""
        drive.driver.attached()
        self._hand_in_behind()

    # Orders.

    def serve(self, line: bytes) -> tuple[bool, bytes]:
        """Carries out an order: whether the device has done it, and what happened at the device if it hasn't."""
        drive = self._by_word.get(line[:line.find(b" ")])
        if drive is None:
            return False, b""
        if is_called(drive.driver, "poll"):
            raise InCallError("the devices' loop is at this device")
        driver, self._session.taken = drive.driver, drive.taken
        order = read_order(line.decode()) if driver.reads_orders else drive.order
        try:
            with self._reading_keyboards():
                is_done = driver.is_online and driver.carry_out(order)
            if is_done:
                # Only a printer has paper that is taken away.
                drive.orders += drive.category == "POSPrinter"
                return True, b""
            return False, drive.inputs()
        finally:
            if self._session.is_closed:
                self._close_again(drive)

    @contextlib.contextmanager
    def _reading_keyboards(self) -> Iterator[None]:
        """Has keyboards read while a device is waited for, but for one that is being read already: what comes from it
        now comes after that."""
        drivers = [drive.driver for drive in list(self._drives.values()) if drive.category == "Scanner"]
        before = BESIDE.keyboards
        try:
            BESIDE.keyboards = [driver for driver in drivers if not is_called(driver, "poll", "read_ahead")]
            yield
        finally:
            BESIDE.keyboards = before

    def served(self) -> None:
        """Is called once orders were carried out. It is most often all that there is to do."""
        for drive in list(self._by_word.values()):
            if not (drive.is_on and drive.driver.is_quiet and drive.orders < _KEPT_ORDERS):
                self._hand_in_behind()
                return

    def gave_up(self, line: bytes, answer: bytes | None) -> None:
        """A line was carried out. If it gives up what a printer's control has ordered, the printer's driver is told.
        One whose answer is lost was done."""
        words = line.partition(b"\n")[0].split()
        is_done = answer is None or answer.startswith((b"ok\n", b"event ErrorEvent "))
        if (*words[:1], *words[2:]) not in _GIVES_UP or not is_done:
            return
        control = self._till._controls.get(words[1].decode())
        if control is not None:
            if control.category == "POSPrinter":
                self.give_up(control._last_device)
        elif words[0] == b"call" or answer is None or answer.endswith(b" %d\n" % EL_OUTPUT):
            # Lines made the control. Only a printer's has output.
            self.give_up()

    def give_up(self, device: str | None = None) -> None:
        """The application has given up what a printer didn't print, or any printer if that isn't known."""
        for drive in list(self._drives.values()):
            is_meant = self.has_opened or device in (None, drive.name)
            if drive.category == "POSPrinter" and is_meant:
                try:
                    drive.driver.given_up()
                except Exception as fault:
                    # The call is done, and says so. The next `run` says what went wrong.
                    self._fault = fault

    # Inputs.

    def hand_in(self) -> bool:
        """Tells the till what has happened at the devices, and returns whether anything has. If something is refused,
        it tells the others first."""
        return not is_called(self, "hand_in") and self._each(self._hand_in)

    def _hand_in_behind(self) -> None:
        """The same behind something that is done, and whose call says so. The next `run` says what went wrong."""
        try:
            self.hand_in()
        except Exception as fault:
            self._fault = fault

    def _hand_in(self, drive: Drive) -> bool:
        if drive.orders >= _KEPT_ORDERS:
            drive.orders = 0
            with contextlib.suppress(NoDeviceError):
                self._session.tear_off(drive.word)
        lines = b""
        # A device that is detached shows nothing that could be compared.
        with contextlib.suppress(NoDeviceError):
            lines = drive.inputs()
        if not lines:
            return False
        # If the call raises something, all is told again.
        answers = self._session.carry_out(lines).splitlines(True)
        drive.answered(answers)
        for answer in answers:
            if answer == b"bad input\n":
                raise InputError("that can't happen at the device")
            # Nothing happens at one that is detached.
            if answer not in (b"ok\n", b"bad device\n", b"memory\n"):
                raise LineError(answer.decode().strip())
        if drive.left:
            raise library_fault(KIJOLVAR_NO_MEMORY)
        return True

    def _tells_scans(self, drive: Drive) -> bool:
        """Tells the codes that were read, each once, and returns whether there were any. One that isn't on for the
        till, for want of memory, has none yet."""
        if drive.left or not drive.has_scans():
            return False
        while drive.scans:
            scan = drive.scans.popleft()
            try:
                with contextlib.suppress(NoDeviceError):
                    Device(self._till, drive.name).scan(scan.kind, scan.data, scan.label)
            except NoMemoryError as fault:
                if fault.library_code == KIJOLVAR_NO_MEMORY:
                    drive.scans.appendleft(scan)
                raise
        # What came behind the codes, such as that the device has gone off.
        self._hand_in(drive)
        return True

    # The loop.

    def run(self, seconds: float) -> bool:
        """Does what the devices need, and waits for something to do as long as it may. Returns whether anything was
        done."""
        self._session.check_call(is_line=True)
        if is_called(self, "run"):
            raise InCallError("the devices' loop is under way")
        end = time.monotonic() + seconds
        while True:
            # A signal's handler may have closed the till meanwhile. Its ports stay closed.
            self._session.check()
            if self._fault is not None:
                fault, self._fault = self._fault, None
                raise fault
            if self._round():
                return True
            left = end - time.monotonic()
            if left <= 0:
                return False
            self._wait(min(left, _OFTEN))

    def _round(self) -> bool:
        """Does what the devices need, and returns whether anything was done. If something fails, the rest is done
        first."""
        stages: tuple[Callable[[], bool], ...] = (
            functools.partial(self._each, self._polls), self.hand_in,
            functools.partial(self._each, self._tells_scans), functools.partial(self._each, self._works))
        is_any, faults = False, list[Exception]()
        for stage in stages:
            try:
                is_any |= stage()
            except Exception as fault:
                # A till that is closed does nothing more.
                self._session.check()
                faults.append(fault)
        if faults:
            # What has gone wrong behind an order of this round is a later fault.
            self._fault = None
            raise faults[0]
        return is_any

    def _each(self, serve: Callable[[Drive], bool]) -> bool:
        """Serves each device, and returns whether anything was done. If one fails, the others are served first. A till
        that is closed meanwhile ends it."""
        is_any, faults = False, list[Exception]()
        for drive in list(self._drives.values()):
            try:
                is_any |= serve(drive)
            except Exception as fault:
                faults.append(fault)
            finally:
                if self._session.is_closed:
                    self._close_again(drive)
            self._session.check()
        if faults:
            raise faults[0]
        return is_any

    def _polls(self, drive: Drive) -> bool:
        """Has a driver read what its device has said, of which nothing is told yet."""
        # The replies of one that is detached can't be read.
        with contextlib.suppress(NoDeviceError):
            drive.driver.poll()
        return False

    def _works(self, drive: Drive) -> bool:
        """Prints the first request that waits, and returns whether one did. One that is refused is tried again a little
        later: what refused it, such as an open cover, may last."""
        if drive.category != "POSPrinter" or time.monotonic() - drive.refused_at < _OFTEN:
            return False
        done = None
        # Nothing waits for one that is detached.
        with contextlib.suppress(NoDeviceError):
            done = Device(self._till, drive.name).work()
        if isinstance(done, WorkFailed):
            drive.refused_at = time.monotonic()
        return done is not None

    def _wait(self, seconds: float) -> None:
        """Waits until a device says something."""
        waiting = select.poll()
        for drive in list(self._drives.values()):
            for file in drive.driver.files():
                waiting.register(file, select.POLLIN)
        waiting.poll(seconds * 1000)

    def close(self) -> None:
        """Takes the drivers away, and closes their ports."""
        with contextlib.ExitStack() as ends:
            for name in list(self._drives):
                ends.callback(self.remove, name)

    def _close_again(self, drive: Drive) -> None:
        """Closes the port of a driver that was at work when the till was closed, and may have opened it since."""
        if not self._session.is_forked:
            with contextlib.suppress(Exception):
                drive.driver.close()
