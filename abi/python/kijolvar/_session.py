"""The text layer: a till that is given lines, and gives the text of their answers. It does the errands of the disk."""
from __future__ import annotations

import contextlib
import ctypes
import errno
import functools
import os
import sys
import threading
import weakref
from collections import Counter, deque
from collections.abc import Callable, Iterator
from typing import Any, BinaryIO, Concatenate, NoReturn, ParamSpec, TypeVar

from ._constants import (KIJOLVAR_CUT, KIJOLVAR_DISK_FAILED, KIJOLVAR_DISK_LENGTH, KIJOLVAR_ERRANDS, KIJOLVAR_EVENT,
                         KIJOLVAR_NO_MEMORY, KIJOLVAR_NO_ORDER, KIJOLVAR_OK, KIJOLVAR_ORDER, KIJOLVAR_SHORT,
                         KIJOLVAR_SYNC, KIJOLVAR_UNDONE, KIJOLVAR_WAITS, KIJOLVAR_WRITE)
from ._faults import NO_THREAD, NoMemoryError, library_fault
from ._library import Raw, by_addresses, carrier
from ._unique import Unique
from ._wire import RawSettings, Reply
from .errors import InCallError, InOrderError, ThreadError, TillClosedError

P = ParamSpec("P")
T = TypeVar("T")

_identity = threading.get_ident
_ROOM = 1024
# How often it is tried to go on with lines for which there is no memory.
_TRIES = 3
# What says that a call hasn't written how many bytes its answer has.
_UNWRITTEN = ctypes.c_size_t(-1).value
# The codes after which an answer has to be asked for.
_UNANSWERED = KIJOLVAR_ERRANDS, KIJOLVAR_SHORT
# The codes by which lines were carried out, with or without an answer.
_CARRIED_OUT = KIJOLVAR_OK, KIJOLVAR_CUT
# The outcomes of an order.
_DONE, _NOT_DONE = 0, 1
# What a till is doing: nothing, a call, or an order that a driver carries out for one.
_NOTHING, _CALL, _ORDER = 0, 1, 2


def write_whole(file: int, data: bytes, at: int) -> None:
    """Writes all bytes at a place of a file: a full disk may take only some at first, and then says why."""
    while data:
        count = os.pwrite(file, data, at)
        if count == 0:
            raise OSError(errno.EIO, "the file takes no bytes")
        data, at = data[count:], at + count


def read_whole(file: int) -> bytes:
    """Reads what a file has, at most as many bytes as totals have: a call of the system may give only some."""
    kept = b""
    while more := os.pread(file, KIJOLVAR_DISK_LENGTH - len(kept), len(kept)):
        kept += more
    return kept


def is_called(owner: object, *names: str, passed: int = 1) -> bool:
    """Whether a method of the owner that has one of these names is among the callers of the method that asks, of which
    so many are passed over. A mark that says so could stay: an interrupt may come before it is taken away."""
    frame = sys._getframe(passed).f_back
    while frame is not None and not (frame.f_code.co_name in names and frame.f_locals.get("self") is owner):
        frame = frame.f_back
    return frame is not None


def _room_of(size: int) -> tuple[Any, int, int]:
    """Room for bytes, its address, and its size."""
    room: Any = ctypes.create_string_buffer(size)
    return room, ctypes.addressof(room), size


class _Mark:
    """What the till is doing, and whether it was closed by what interrupted that: then the call has to end it. Only an
    interrupt between a call and its end, as a trace raises one, leaves a mark; `_met` sees that."""

    __slots__ = ("doing", "is_ending")

    def __init__(self) -> None:
        self.doing, self.is_ending = _NOTHING, False


def _as_call(method: Callable[Concatenate[Session, P], T]) -> Callable[Concatenate[Session, P], T]:
    """Makes a method of a session a call: it refuses another thread, a till that is closed, and a call while another
    one is under way. A driver may make it while it carries out an order."""

    @functools.wraps(method)
    def as_call(self: Session, /, *words: P.args, **named: P.kwargs) -> T:
        if _identity() != self._thread:
            self._check_thread()
        mark = self._mark
        before = mark.doing
        if before:
            before = self._met()
        try:
            mark.doing = _CALL
            if self._is_closed:
                self._refuse_closed()
            return method(self, *words, **named)
        finally:
            mark.doing = before
            if mark.is_ending and not before:
                self._end_at_last()

    return as_call


class Session(Unique):
    """A till over a profile's text and an open file of totals, or totals in memory if there is none.

    Only the thread that made it may use it, in its own process: one that is forked has the till as a closed one. A file
    that isn't formatted opens too: enabling its totals is E_NOHARDWARE.

    One call at a time: the library's answers and the errands of the disk are in the same places for all of them. A
    signal's handler that calls the till meanwhile is refused. What it closes is ended when the call is over.

    `begin` is the export that makes the till over a file: another one formats the file first, or moves it to layout 2.
    If the till has opened the file itself (`owns_totals`), a process that is forked has that as a closed one, too: its
    lock ends with the till, though the process goes on.
    """

    _noun = "a session"

    def __init__(self, library: ctypes.CDLL, profile: bytes, totals: BinaryIO | None = None, *,
                 begin: str = "kijolvar_open_file", owns_totals: bool = False) -> None:
        self._thread, self._process = _identity(), os.getpid()
        self._library, self._totals, self._owns_totals = library, totals, owns_totals
        self._raw = Raw()
        self._mark, self._is_closed = _Mark(), False
        # The library writes what the till is from then on into the same place, so no call has to copy it.
        self._out = ctypes.cast(ctypes.pointer(self._raw), ctypes.POINTER(ctypes.c_void_p))
        self._room: Any = ctypes.create_string_buffer(_ROOM)
        self._needed = ctypes.c_size_t()
        self._needed_at = ctypes.pointer(self._needed)
        self._number = ctypes.c_size_t()
        self._number_at = ctypes.pointer(self._number)
        # The bytes of an order, or the lines of a reply: how many they are, and of a reply's bytes how many were read.
        self._count, self._used, self._skipped = ctypes.c_size_t(), ctypes.c_size_t(), ctypes.c_size_t()
        self._raw_at, self._room_at, self._has_at, self._count_at, self._used_at, self._skipped_at = map(
            ctypes.addressof, (self._raw, self._room, self._needed, self._count, self._used, self._skipped))
        # Room for the bytes of an order or the lines of a reply, its address, and how many it takes.
        self._order_room: tuple[Any, int, int] = _room_of(_ROOM)
        self._next_order, self._order_done, self._order_bytes, self._replies = (
            by_addresses(library, f"kijolvar_{name}")
            for name in ("next_order", "order_done", "order_bytes", "replies"))
        self._later: deque[Callable[[], Callable[[], None] | None]] = deque()
        self._has_served = False
        # Whether the library holds lines for which memory ran out, and what was printed of them and isn't reported yet.
        self._is_holding = False
        self._unreported: tuple[int, bytes] | None = None
        #: How many orders of each device were reported as done, or a report was begun.
        self.reports: Counter[bytes] = Counter()
        # The device whose order was carried out last.
        self._served_device = b""
        # The devices that are driven, and the orders of hosted devices that came before one of these.
        self._driven: set[bytes] = set()
        self._hosted: deque[bytes] = deque()
        #: Whether orders are of output that waits: the line is one that works on it. A till carries such lines out one
        #: by one, since nobody can see of which of several lines an order is.
        self.is_working = False
        #: Carries out an order of a driven device: whether it is done, and what happened at the device if it isn't.
        self.serve: Callable[[bytes], tuple[bool, bytes]] | None = None
        #: Is called once the till has taken what became of the order: whether it is done, and the till's answers to
        #: what happened at the device.
        self.taken: Callable[[bool, list[bytes]], object] | None = None
        #: Is called after lines whose orders were carried out so.
        self.served: Callable[[], object] | None = None
        #: Is called with a line that may give up what a driven printer didn't print, and its answer, unless that is
        #: lost.
        self.given_up: Callable[[bytes, bytes | None], object] | None = None
        #: Is called once the till has ended, if it was closed while a call was under way.
        self.ended: Callable[[], object] | None = None
        # The device and the number of the file of totals, and whether the till has it no more.
        self._place: tuple[int, int] | None = None
        self._has_ended = False
        #: Carries out lines, and returns the text of their answers, once what they changed is in the file.
        self.carry_out = self._carrier()
        try:
            self._begin(profile, begin)
        except BaseException:
            self.close()
            raise

    def _begin(self, profile: bytes, begin: str) -> None:
        """Makes the library's till."""
        library, totals = self._library, self._totals
        self._enter()
        if totals is None:
            code = library.kijolvar_open(profile, len(profile), self._out)
        else:
            kept = read_whole(totals.fileno())
            self._errand: Any = ctypes.create_string_buffer(KIJOLVAR_DISK_LENGTH)
            code = getattr(library, begin)(profile, len(profile), kept, len(kept), self._out)
        if code != KIJOLVAR_OK:
            self._raw.at = None
            raise library_fault(code)
        self._settle()

    def _enter(self) -> None:
        """Makes the till one of this process. Refuses a file that another one has: the lock of a file doesn't keep out
        who uses the same open file."""
        if self._totals is not None:
            found = os.fstat(self._totals.fileno())
            self._place = found.st_dev, found.st_ino
        with _entering:
            # A signal's handler that opens a till now has to find this one.
            _sessions.add(self)
            if any(other._has_file_of(self) for other in list(_sessions) if other is not self):
                name = getattr(self._totals, "name", None)
                raise BlockingIOError(errno.EAGAIN, "is in use: another till of this program has it open", name)

    def _has_file_of(self, other: Session) -> bool:
        """Whether this till has the file of another one. A till from before a fork has its file if the other's is the
        same open one."""
        return (self._place is not None and self._place == other._place and not self._has_ended
                and (not self.is_forked or self._totals is other._totals))

    @property
    def is_closed(self) -> bool:
        return self._is_closed

    @property
    def is_ending(self) -> bool:
        """Whether the till was closed while a call was under way, which ends it and may write to its file until
        then."""
        return self._mark.is_ending

    @property
    def is_owner(self) -> bool:
        """Whether this is the thread that may use the till."""
        return _identity() == self._thread

    @property
    def is_forked(self) -> bool:
        """Whether the till is that of a process from which this one was forked."""
        return self._thread == NO_THREAD

    def forked(self) -> None:
        """This process was forked from the till's: nothing of the till can be used or has to be ended in it."""
        self._thread, self._raw.at = NO_THREAD, None
        self._is_closed, self._mark.is_ending = True, False
        self._disown_calls()
        if self._owns_totals and self._totals is not None:
            self._leave(self._totals)

    def _leave(self, totals: BinaryIO) -> None:
        """Closes the file of totals in a process that was forked. Its lock stays: it is the till's."""
        if is_called(self, "carry_out", "as_call", "_begin"):
            # What a call has forked, as a signal's handler does, may go on with it. It has the number of the file.
            with open(os.devnull, "r+b", buffering=0) as nothing:
                os.dup2(nothing.fileno(), totals.fileno(), inheritable=False)
        else:
            totals.close()

    def close(self) -> None:
        """Ends the till, once. The file stays open. A signal's handler, or a driver, may close the till while a call is
        under way: it is closed at once, the call raises TillClosedError unless it is done, and ends the till then."""
        if self._is_closed and not (self._mark.is_ending and self.is_owner):
            return
        self._check_thread()
        if not self._is_closed:
            self._refuse_calls()
            self._is_closed = self._mark.is_ending = True
        if not (self._mark.doing and is_called(self, "carry_out", "as_call")):
            self._end()

    @property
    def may_end(self) -> bool:
        """Whether the till is open and this is its process. One that was forked from it may collect the till before
        `forked` is called."""
        return not self._is_closed and self._process == os.getpid()

    def collect(self) -> None:
        """Ends the till, to which nothing refers any more, in any thread: the library asks for one call at a time, and
        one that is under way refers to the till."""
        self._refuse_calls()
        self._is_closed = True
        self._end()

    def _end(self) -> None:
        """Ends the library's till."""
        # An interrupt comes as the library's call returns. It mustn't end the till again.
        at, self._raw.at = self._raw.at, None
        try:
            if at is not None:
                self._library.kijolvar_close(Raw(at))
        finally:
            self._mark.is_ending, self._has_ended = False, True

    def _end_at_last(self) -> None:
        """Ends the library's till, after the call during which the till was closed."""
        try:
            self._end()
        finally:
            if self.ended is not None:
                self.ended()

    def _check_thread(self) -> None:
        if _identity() != self._thread:
            raise ThreadError(self._thread, _identity())

    def _refuse_closed(self, *_: object) -> NoReturn:
        raise TillClosedError("the till is closed")

    def check(self) -> None:
        """Refuses another thread, and a till that is closed."""
        self._check_thread()
        if self._is_closed:
            self._refuse_closed()

    def check_call(self, is_line: bool = False) -> None:
        """Refuses what `check` does, and a call while another one is under way. One with lines is refused during an
        order too."""
        self.check()
        if self._mark.doing:
            self._met(is_line)

    def _met(self, is_line: bool = False) -> int:
        """What a call interrupts: nothing, or an order that a driver carries out. During another call, or with lines
        during an order, it is refused."""
        self.check()
        if not is_called(self, "carry_out", "as_call", passed=2):
            # It is over.
            self._mark.doing = _NOTHING
        if self._mark.doing == _CALL:
            raise InCallError("another call of the till is under way")
        if self._mark.doing == _ORDER and is_line:
            raise InOrderError("a driver can't run lines while it carries out an order")
        return self._mark.doing

    def later(self, deed: Callable[[], Callable[[], None] | None]) -> None:
        """Does something before the next line is carried out. Any thread may ask for it. The deed returns what is to be
        done once after it, or None if it couldn't be done: then it is tried again later."""
        self._later.append(deed)

    def settle_later(self) -> None:
        """Does what was to be done later, unless a call is under way. A deed stays until it is done, also if an
        interrupt comes."""
        if self._mark.doing or is_called(self, "settle_later"):
            return
        for _ in range(len(self._later)):
            after = self._later[0]()
            if after is None:
                self._later.rotate(-1)
            else:
                self._later.popleft()
                after()

    def _settle(self) -> None:
        """Does what the till's disk has done in the file, errand by errand."""
        if self._totals is None:
            return
        next_errand, failed = self._library.kijolvar_next_errand, self._library.kijolvar_errand_failed
        at, count, file = ctypes.c_uint64(), ctypes.c_size_t(), self._totals.fileno()
        while True:
            # A signal's handler may have closed the till meanwhile.
            self.check()
            try:
                # An interrupt in this call has taken an errand out, too.
                code = next_errand(self._raw, self._out, ctypes.byref(at), self._errand, KIJOLVAR_DISK_LENGTH,
                                   ctypes.byref(count))
                if code == KIJOLVAR_OK:
                    return
                if code == KIJOLVAR_SYNC:
                    os.fsync(file)
                elif code == KIJOLVAR_WRITE:
                    write_whole(file, self._errand[:count.value], at.value)
                else:
                    raise library_fault(KIJOLVAR_DISK_FAILED)
            except BaseException:
                # A process that a signal's handler has forked has no till.
                self._check_thread()
                failed(self._raw, self._out)
                raise

    def _settle_call(self) -> None:
        """Does the errands of a call. If the file fails, the till has ended."""
        try:
            self._settle()
        except OSError as fault:
            raise library_fault(KIJOLVAR_DISK_FAILED) from fault

    def _carrier(self) -> Callable[[bytes], bytes]:
        """The function that carries out lines. What it uses is at hand without a look at the session."""
        owner, later, raw, needed, mark = self._thread, self._later, self._raw, self._needed, self._mark
        room = self._room
        raw_at, room_at, needed_at = map(ctypes.addressof, (raw, room, needed))
        call: Callable[..., Any] = carrier(self._library)

        def carry_out(lines: bytes) -> bytes:
            if _identity() != owner:
                self._check_thread()
            if mark.doing:
                self._met(is_line=True)
            if later:
                self.settle_later()
            try:
                mark.doing = _CALL
                code = call(raw, raw_at, lines, len(lines), room_at, _ROOM, needed_at)
                if code:
                    return self._carry_on(code, lines)
                answer: bytes = room[:needed.value]
                return answer
            finally:
                mark.doing = _NOTHING
                if mark.is_ending:
                    self._end_at_last()

        def call_again(lines: bytes) -> int:
            code: int = call(raw, raw_at, lines, len(lines), room_at, _ROOM, needed_at)
            return code

        def refuse() -> None:
            nonlocal call
            call = self._refuse_closed

        def disown() -> None:
            nonlocal owner
            owner = NO_THREAD

        def watch() -> None:
            nonlocal call
            export = call

            def watched(*words: Any) -> int:
                needed.value = _UNWRITTEN
                code: int = export(*words)
                line: bytes = words[2]
                if b" clear" in line and code in _CARRIED_OUT and self.given_up is not None:
                    self.given_up(line, None if code == KIJOLVAR_CUT else room[:needed.value])
                return code

            call = watched

        self._call_again = call_again
        self._refuse_calls, self._disown_calls, self._watch_calls = refuse, disown, watch
        return carry_out

    def _carry_on(self, code: int, lines: bytes) -> bytes:
        """What is left to do where a call with lines isn't done: the errands, a longer room, and the orders for which
        lines wait. An interrupt may have left errands or lines of an earlier call; then the call is made again."""
        while True:
            if code == KIJOLVAR_UNDONE:
                self._settle_call()
            elif ((code == KIJOLVAR_WAITS or (code == KIJOLVAR_NO_MEMORY and self._is_holding))
                  and self._needed.value == _UNWRITTEN):
                # Lines of an earlier call are held, and none of these was carried out.
                self._give_up()
            else:
                break
            code = self._call_again(lines)
        self.is_working = lines.lstrip(b" ").startswith(b"work ") and lines.count(b"\n", 0, -1) == 0
        text = self._told(code)
        if self._has_served and self.served is not None:
            self._has_served = False
            # The lines are done. What comes now is calls of their own.
            self._mark.doing = _NOTHING
            self.served()
        return text

    def _told(self, code: int, is_wanted: bool = True) -> bytes:
        """The whole answer to lines, by the code of the call that began with them. The orders for which lines wait are
        carried out meanwhile, or reported as failed if nobody wants the answer. If memory runs out for the report of
        what was printed, it is reported the next time, and the call has no answer."""
        room, parts, tries, is_told = self._room, list[bytes](), 0, False
        report, self._unreported = self._unreported, None
        is_any_done = report is not None
        while True:
            if code in _UNANSWERED:
                code, room = self._answered(code, room)
            is_taken = True
            if code == KIJOLVAR_NO_MEMORY:
                # Lines are held. If they wait, the report wasn't taken. If this is said again, it was, and they go on.
                code, room = self._answered(self._answer_into(room), room)
                is_taken, tries = code == KIJOLVAR_NO_MEMORY, tries + 1
                if code == KIJOLVAR_OK or tries == _TRIES:
                    self._is_holding = code != KIJOLVAR_OK
                    if not is_taken and report is not None and report[0] == _DONE:
                        self._unreported = report
                    is_any_done |= any(parts) or is_taken and self._needed.value > 0
                    code = KIJOLVAR_CUT if is_any_done else KIJOLVAR_NO_MEMORY
                    break
            if code not in (KIJOLVAR_OK, KIJOLVAR_WAITS, KIJOLVAR_NO_MEMORY):
                break
            if is_taken:
                text: bytes = room[:self._needed.value]
                if is_told and report is not None and self.taken is not None:
                    # The answers of the inputs are first.
                    answers, count = text.splitlines(True), report[1].count(b"\n")
                    self.taken(report[0] == _DONE, answers[:count])
                    text = b"".join(answers[count:])
                parts.append(text)
                report = None if is_told else report
            if code == KIJOLVAR_OK:
                return b"".join(parts)
            if code == KIJOLVAR_NO_MEMORY:
                report = _NOT_DONE, b""
            elif report is None:
                try:
                    report = self._served() if is_wanted else self._refused()
                except NoMemoryError:
                    if not (is_any_done or any(parts)):
                        raise
                    # Lines before this one were carried out.
                    raise library_fault(KIJOLVAR_CUT) from None
            outcome, inputs = report
            is_told, is_any_done = True, is_any_done or outcome == _DONE
            room_at = self._room_at if room is self._room else ctypes.addressof(room)
            self.reports[self._served_device] += outcome == _DONE
            code = self._order_done(self._raw, self._raw_at, outcome, inputs, len(inputs), room_at, len(room),
                                    self._has_at)
        raise library_fault(code)

    def _answer_into(self, room: Any) -> int:
        """Writes the answer that is kept, and returns its code."""
        self.check()
        code: int = self._library.kijolvar_answer(self._raw, self._out, room, len(room), self._needed_at)
        return code

    def _answered(self, code: int, room: Any) -> tuple[int, Any]:
        """Does the errands, and makes a longer room, until the answer is in the room."""
        while code in _UNANSWERED:
            if code == KIJOLVAR_ERRANDS:
                self._settle_call()
            else:
                room = ctypes.create_string_buffer(self._needed.value)
            code = self._answer_into(room)
        return code, room

    def _served(self) -> tuple[int, bytes]:
        """Has the order that waits carried out: the outcome, and what happened at the device if it isn't done."""
        room, room_at, size = self._order_room
        code = self._next_order(self._raw, self._raw_at, room_at, size, self._count_at)
        order: bytes | None = room[:self._count.value] if code == KIJOLVAR_ORDER else None
        if order is None or order[:order.find(b" ")] not in self._driven:
            # It doesn't fit, or one of a hosted device came before it.
            self._hosted += [] if order is None else [order]
            order = self._driven_order()
        if order is None or self.serve is None:
            raise library_fault(KIJOLVAR_NO_ORDER)
        self._served_device = order[:order.find(b" ")]
        self._has_served = True
        try:
            self._mark.doing = _ORDER
            is_done, inputs = self.serve(order)
        except Exception:
            # It may be because the till is closed.
            self.check()
            raise
        finally:
            self._mark.doing = _CALL
        # The driver, or a signal's handler, may have closed the till meanwhile.
        self.check()
        return (_DONE, b"") if is_done else (_NOT_DONE, inputs)

    def _refused(self) -> tuple[int, bytes]:
        """The outcome of an order that waits and that nobody carries out."""
        self._driven_order()
        return _NOT_DONE, b""

    def _driven_order(self) -> bytes | None:
        """Takes out the order of the driven device for which a line waits. Those of hosted devices are kept."""
        while (order := self._take_out()) is not None:
            if order.partition(b" ")[0] in self._driven:
                break
            self._hosted.append(order)
        return order

    def _give_up(self) -> None:
        """Ends lines of an earlier call that was interrupted, or for which memory ran out: an order that wasn't printed
        has failed, and nobody wants the answer. Without memory for that nothing of the new lines was done."""
        self._is_holding = False
        try:
            self._told(self._answer_into(self._room), is_wanted=False)
        except NoMemoryError:
            raise library_fault(KIJOLVAR_NO_MEMORY) from None

    @_as_call
    def number_of(self, control: bytes) -> int:
        """The library's number of the control of this name."""
        code = self._library.kijolvar_control(self._raw, self._out, control, len(control), self._number_at)
        if code != KIJOLVAR_OK:
            raise library_fault(code)
        return self._number.value

    def next_event(self, start: int) -> int | None:
        """The lowest number, start or above, of a control that has an event to deliver, or None if none has. It changes
        nothing."""
        self.check()
        self.settle_later()
        return self._found_event(start)

    @_as_call
    def _found_event(self, start: int) -> int | None:
        next_event = self._library.kijolvar_next_event
        while (code := next_event(self._raw, self._out, start, self._number_at)) == KIJOLVAR_ERRANDS:
            self._settle_call()
        if code == KIJOLVAR_EVENT:
            return self._number.value
        if code != KIJOLVAR_OK:
            raise library_fault(code)
        return None

    @_as_call
    def host(self, device: bytes) -> None:
        """Says that the host has the device of this name: its orders come by `orders` from then on."""
        code = self._library.kijolvar_host(self._raw, self._out, device, len(device))
        if code != KIJOLVAR_OK:
            raise library_fault(code)

    def _give_up_held(self) -> None:
        """Gives up lines of an earlier call that are held: they have the order of a driven device, which is no order of
        the host's."""
        self.carry_out(b"")

    def keep_hosted(self) -> None:
        """Keeps the orders of hosted devices that nobody has taken: those of a device that is driven from now on aren't
        its driver's."""
        self._give_up_held()
        self._keep_orders()

    @_as_call
    def _keep_orders(self) -> None:
        while (order := self._take_out()) is not None:
            self._hosted.append(order)

    @_as_call
    def drive(self, device: bytes) -> None:
        """Says that the orders of the device of this name wait until the host has said what became of them."""
        code = self._library.kijolvar_drive(self._raw, self._out, device, len(device))
        if code != KIJOLVAR_OK:
            raise library_fault(code)
        if not self._driven:
            self._watch_calls()
        self._driven.add(device)

    @_as_call
    def tear_off(self, device: bytes) -> None:
        """Takes away what the device of this name has printed. Its line that has begun stays."""
        code = self._library.kijolvar_tear_off(self._raw, self._out, device, len(device))
        if code != KIJOLVAR_OK:
            raise library_fault(code)

    @_as_call
    def order_bytes(self, settings: RawSettings, is_new: bool, behind: int) -> bytes:
        """The bytes of the order that waits or that the host has. Nothing changes."""
        while True:
            room, room_at, size = self._order_room
            code = self._order_bytes(self._raw, self._raw_at, ctypes.addressof(settings), is_new, behind, room_at, size,
                                     self._count_at)
            if code == KIJOLVAR_OK:
                told: bytes = room[:self._count.value]
                return told
            self._lengthen(code, self._count.value)

    @_as_call
    def reply_text(self, device: bytes, settings: RawSettings, asked: int, data: bytes) -> tuple[int, int, bytes]:
        """Reads the first reply of what a printer sent, for its device or that of its drawer: how many bytes were read,
        how many of them are no reply, and the text of its lines. Nothing changes."""
        while True:
            room, room_at, size = self._order_room
            code = self._replies(self._raw, self._raw_at, device, len(device), ctypes.addressof(settings), asked, data,
                                 len(data), self._used_at, self._skipped_at, room_at, size, self._count_at)
            if code == KIJOLVAR_OK:
                return self._used.value, self._skipped.value, room[:self._count.value]
            self._lengthen(code, self._count.value)

    def reply(self, device: bytes, settings: RawSettings, asked: int, data: bytes) -> Reply:
        """Reads a reply as `reply_text` does."""
        used, skipped, text = self.reply_text(device, settings, asked, data)
        return Reply(used, skipped, tuple(text.decode().splitlines()))

    def _lengthen(self, code: int, size: int) -> None:
        """Makes room for the bytes of an order or the lines of a reply. Another cause of the code is raised."""
        if code != KIJOLVAR_SHORT:
            raise library_fault(code)
        # An interrupt comes before or after this: the library never gets the address of a room that is gone.
        self._order_room = _room_of(size)

    def orders(self) -> Iterator[bytes]:
        """The orders of the devices that the host has, oldest first. Each is taken out as it is given."""
        while (order := self._next_hosted()) is not None:
            yield order

    def _next_hosted(self) -> bytes | None:
        """Takes out the oldest order of the devices that the host has, if there is one."""
        self._give_up_held()
        return self._take_hosted()

    @_as_call
    def _take_hosted(self) -> bytes | None:
        return self._hosted.popleft() if self._hosted else self._take_out()

    def _take_out(self) -> bytes | None:
        """Takes out the oldest order that the library has, if there is one."""
        while True:
            self.check()
            room, room_at, size = self._order_room
            code = self._next_order(self._raw, self._raw_at, room_at, size, self._count_at)
            if code == KIJOLVAR_OK:
                return None
            if code == KIJOLVAR_ORDER:
                order: bytes = room[:self._count.value]
                return order
            if code == KIJOLVAR_ERRANDS:
                # An interrupt has left them.
                self._settle_call()
            else:
                self._lengthen(code, self._count.value)


# The tills of this process, and of those from which it was forked.
_sessions: weakref.WeakSet[Session] = weakref.WeakSet()
_entering = threading.RLock()


def _disown() -> None:
    global _entering
    # A thread that isn't here may have it.
    _entering = threading.RLock()
    with contextlib.ExitStack() as ends:
        # Closing a file may fail, as that of a server: the other tills are disowned all the same.
        for session in _sessions:
            ends.callback(session.forked)


os.register_at_fork(after_in_child=_disown)
