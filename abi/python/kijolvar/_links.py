"""The line to a receipt printer: what is sent, what has been acknowledged, and what the printer says of itself."""
from __future__ import annotations

import contextlib
import errno
import random
import re
import time
from collections import deque
from collections.abc import Callable, Iterable
from dataclasses import dataclass
from time import CLOCK_BOOTTIME, clock_gettime
from typing import TYPE_CHECKING

from ._control import device_word
from ._faults import InCallError, NoDeviceError
from ._session import is_called
from ._wire import JOB_PAPER, Asked, WireSettings
from .ports import Port, PortError, TcpPort, rest_beside

if TYPE_CHECKING:
    from .till import Till

# What is sent while no order is out; the bytes of orders are the library's. Zero bytes do nothing, and end a command
# that an earlier connection has begun.
_ZEROS = b"\0" * 12
_INITIALIZE, _STATUS_ON, _STATUS_OFF = b"\x1b@", b"\x1da\xff", b"\x1da\0"
_STATUS_NOW = b"\x10\x04"
# How many numbers of jobs there are.
_NUMBERS = 65_536
# How many bytes ask for an acknowledgement: GS ( H, which ends with four characters for the number, or GS r.
_JOB_SIZE, _NUMBER_SIZE, _QUESTION_SIZE = 11, 4, 3
# In how many bytes a reply is looked for at once; it has at most seven.
_READ_AT_ONCE = 64
# What the library has to know was asked. The questions of DLE EOT are asked in turn: the printer, why it is offline
# (which has twice its number), and the paper (which has twice that).
_PRINTER, _CAUSE, _PAPER = int(Asked.PRINTER), int(Asked.OFFLINE_CAUSE), int(Asked.PAPER)
_PAPER_IN_ORDER = int(Asked.PAPER_IN_ORDER)
# The bit of the cause that says that printing has stopped at the end of the paper.
_HAS_ENDED = 0x20
# How many pieces of an order may be due, and how many bytes behind the first of them: at any port, and at one that
# holds back what is sent, where a question waits until they have gone out.
_MOST_DUE, _ENOUGH, _ENOUGH_HELD = 32, 2048, 512
# How many bytes an automatic status has, which bits tell its first byte and those behind it, and those of the first.
_STATUS_SIZE, _FIRST_BITS, _OTHER_BITS, _FIRST = 4, 0x93, 0x90, 0x10
# How long a lost port may take to open while other devices wait, and how often a printer is asked, in seconds.
_QUICKLY, _OFTEN = 0.02, 0.1
# How long late answers may be apart, in seconds, however short the timeout is: a later question is none of theirs.
_APART = 0.5
# How long a printer whose line holds back what is sent may say nothing while something is due, and how long after it
# has stopped, or acknowledged something, it may acknowledge what was before that, in seconds.
_SILENT, _SHORTLY = 2.0, 1.0
# What ends a piece: a line feed, a pulse, a feed, or a cut.
_PIECE = re.compile(rb"(?:\x1b[^pd].|[^\n\x1b\x1d]++)*+(?:\n|\x1bp...|\x1bd.|\x1dV(?:[AB].|[^AB])|\Z)", re.S)


def _now() -> tuple[float, float]:
    """The time in seconds, by a clock that stands still while the machine is suspended, and by one that goes on."""
    return time.monotonic(), clock_gettime(CLOCK_BOOTTIME)


def pieces_of(data: bytes) -> list[bytes]:
    """The lines, cuts and pulses of an order, each with the commands that belong to it."""
    return [piece for piece in _PIECE.findall(data) if piece]


class Wire:
    """The library's two calls with bytes (`order_bytes` and `replies` of a till), for a device and its settings."""

    def __init__(self, till: Till, device: str, settings: WireSettings) -> None:
        # A till that is collected is ended: while a call of it may be under way, something has to refer to it.
        self._till = till
        self._session, self._device, self._settings = till._session, device_word(device), settings.raw

    @property
    def reports(self) -> int:
        """How many of its orders the till was told as done. It changes before an order that is done is reported."""
        return self._session.reports[self._device]

    @property
    def is_waiting(self) -> bool:
        """Whether the order that is out is output that waits (AsyncMode)."""
        return self._session.is_working

    def order(self, job: int) -> bytes:
        """The bytes of the order that is out. Behind them stands what asks for an acknowledgement."""
        return self._session.order_bytes(self._settings, False, job)

    def reply(self, data: bytes, asked: int = 0) -> tuple[int, bytes]:
        """The first reply in what the device has sent: how many bytes were read, and the text of its lines."""
        used, _, text = self._session.reply_text(self._device, self._settings, asked, data)
        return used, text


@dataclass(frozen=True)
class Told:
    """A reply that tells how the printer is: its bytes, and what was asked."""

    data: bytes
    asked: int = 0


def signs_of(text: bytes) -> dict[str, str]:
    """What a reply tells of the printer, by the words of its last line: `status cover open paper good`."""
    _, *words = text.decode().splitlines()[-1].split()
    return dict(zip(words[::2], words[1::2]))


class Job:
    """An order on its way to the paper, piece by piece.

    Attributes:
        data: Its bytes.
        pieces: Its lines, cuts and pulses; an order without any is one empty piece, so that the printer is asked.
        sent: How many pieces were sent.
        done: How many pieces are printed, as far as is known.
        is_torn: Pieces were lost, and later ones may have been printed.
        told_at: The wire and its reports when it was told as done. Until they change, it isn't reported.
        is_once: Whether it is for the paper, where the same order must not be twice.
    """

    def __init__(self, data: bytes, is_once: bool) -> None:
        self.data, self.is_once = data, is_once
        # Most orders are one line.
        is_line = data.find(b"\n") == len(data) - 1 and b"\x1dV" not in data
        self.pieces = [data] if is_line else pieces_of(data) or [b""]
        self.sent = self.done = 0
        self.is_torn = False
        self.told_at: tuple[Wire, int] | None = None

    @property
    def is_done(self) -> bool:
        """Whether all of it is printed."""
        return self.done == len(self.pieces)

    @property
    def is_reported(self) -> bool:
        """Whether the till was told that it is done."""
        return self.told_at is not None and self.told_at[0].reports != self.told_at[1]

    def is_late(self, failed: Iterable[Job]) -> bool:
        """Whether it puts something on the paper that isn't asked for any more, as those that have failed may be."""
        return self.is_once and self.data != b"" and all(self is not job for job in failed)


class _Parcel:
    """Bytes that go out whole. Once their number is acknowledged, so many pieces of the job are printed."""

    __slots__ = ("rest", "number", "job", "done", "is_begun")

    def __init__(self, rest: bytes, number: int | None = None, job: Job | None = None, done: int = 0) -> None:
        self.rest, self.number, self.job, self.done = rest, number, job, done
        self.is_begun = False

    @property
    def is_marker(self) -> bool:
        """Whether it only asks for an acknowledgement of what was sent before."""
        return self.number is not None and self.done == 0


class PrinterLink:
    """The line to a printer, which acknowledges in order what it has printed.

    Any port may stay open while the printer is off, and lose what is sent: a serial line does, and so do a cable with a
    chip of its own and a print server. So a piece is printed only if its own acknowledgement comes. One that comes for
    a later piece says that the earlier ones are printed or lost, and they are sent again.

    A line that holds back what is sent keeps a part of it while the printer is off, and gives it to the printer later:
    a tail that was kept would be acknowledged as the whole. So nothing of what is due counts any more once a printer on
    such a line has said nothing for a time, or nobody has looked for so long. One that is offline may take nothing,
    and needn't say anything.

    Answers to questions don't say what was asked, and are counted: a slow printer and a line that holds questions back
    are asked again before the first answer comes.

    An interrupt, which a signal's handler may raise between any two steps, costs at most what a lost acknowledgement
    costs. So each step stands for itself: what is to be acknowledged is noted before it may go out, and a reply is
    forgotten after what it says is noted.

    Attributes:
        wires: The library's calls for what the printer sends: by the printer's device, and by that of its drawer.
        is_begun: Whether the port was opened, or that was tried.
        statuses: How many statuses have come.
        told: The replies that tell how the printer is; none before the first one.
        signs: What they tell, by the words of a status; such as "open" for "cover".
        is_stopped: Whether the printer has said that it prints nothing now, and why.
        late: How many orders were printed whole after they had failed, while nothing asked for them again.
        lines: How many lines the orders had that were done, or more.
    """

    # What the library puts behind an order: the end of a job, whose number is another one in the end.
    _job = 0
    _start, _refresh = _ZEROS + _INITIALIZE + _STATUS_ON, _STATUS_ON
    _end_size = _JOB_SIZE
    _most_due = _MOST_DUE

    def __init__(self, port: Port, timeout: float, pause: float) -> None:
        self.port, self.timeout, self._pause = port, timeout, pause
        port.is_patient, port.keeps_faults = True, False
        # When the order that is out or the connection began, and until when something has to be acknowledged.
        self._began_at = self._ends_at = -1e9
        self.wires: list[Wire] = []
        self.is_begun = self.is_stopped = False
        self.told: list[Told] = []
        self.statuses = self.late = self.lines = 0
        self.signs: dict[str, str] = {}
        # What was begun last for the paper, and isn't reported as done: of output that waits (AsyncMode), and of other
        # orders. One of these may come before output that has failed is tried again.
        self._failed: dict[bool, Job] = {}
        # A printer may still acknowledge jobs of a host that has ended. Those shouldn't have the numbers of these.
        self._number = random.randrange(_NUMBERS)
        # What asks for an acknowledgement, as the library put it behind the last order.
        self._question = b""
        self._outbox: deque[_Parcel] = deque()
        self._due: deque[_Parcel] = deque()
        self._got = bytearray()
        self._is_there = self._was_silent = self._is_refreshing = False
        # Whether bytes of the outbox may have gone out that are still in it.
        self._is_unsure = False
        self._tried_at = self._refreshed_at = self._heard_at = self._offline_at = -1e9
        # When what has come was read last, by both clocks.
        self._looked_at = -1e9, -1e9
        self._asked_at: float | None = None
        # The last question of DLE EOT, how many aren't answered, and when it was asked or a late answer came.
        self._asked_last, self._unanswered, self._questioned_at = _PRINTER, 0, -1e9
        # Whether late answers come, as far as is known, and what was answered since the printer was asked.
        self._is_late = False
        # Whether it has answered a question that was asked after it had said that it is offline.
        self._is_hearing = False
        self._heard: dict[int, tuple[Told, dict[str, str]]] = {}

    @property
    def is_online(self) -> bool:
        """Whether the port is open and the printer answers."""
        return self._is_there and self.port.is_open

    def _is_told(self, signs: dict[str, str], told: list[Told]) -> None:
        """The printer is as these replies tell, or it isn't known how it is. Answers to earlier questions are older."""
        if not self._is_offline:
            self._offline_at, self._is_hearing = time.monotonic(), False
        self.signs, self.told = signs, told
        self._heard.clear()
        self.statuses += bool(told)
        self.is_stopped = signs.get("offline") == "yes" and (
            signs.get("cover") == "open" or signs.get("fault") == "yes" or signs.get("paper") == "empty")

    @property
    def _is_offline(self) -> bool:
        """Whether the printer has said that it is offline, for whatever cause. It says that it goes on before it
        acknowledges anything more."""
        return self.signs.get("offline") == "yes"

    @property
    def has_paper(self) -> bool:
        """Whether its sensors see enough paper."""
        return self.signs.get("paper") == "good"

    @property
    def is_near_end(self) -> bool:
        """Whether its sensors see that the end of the paper is near."""
        return self.signs.get("paper") == "near"

    # Orders.

    def carry_out(self, wire: Wire, is_once: bool = True) -> bool:
        """Sends the order that is out, and returns whether the printer acknowledged it. It has failed once the printer
        has acknowledged nothing for the timeout.

        If an order failed and the next one is the same, it goes on with what isn't acknowledged, unless it was given
        up. Output that waits has a next one of its own. An order that is done has failed, too, if an interrupt comes
        before its report. With is_once false it is sent whole.
        """
        if is_called(self, "poll"):
            # A signal's handler orders something by another driver of the line.
            raise InCallError("the devices' loop is at this printer")
        self._takes_as_sent()
        self._minds_absence(_now())
        self._began_at = time.monotonic()
        self._ends_at = self._began_at + self.timeout
        if not self.is_online:
            return False
        data = wire.order(self._job)
        self._question = data[-self._end_size:]
        try:
            self._receive()
            self._failed = {key: job for key, job in self._failed.items() if not job.is_reported}
            job = self._taken_up(data[:-self._end_size], is_once, wire.is_waiting)
            self._waits_until_it_is_back()
            if not (job.is_done or job.is_torn or self.is_stopped or self._is_due(job)) and self._has_time():
                self._post(job)
                self._writes()
                self._pump(lambda: job.is_done or job.is_torn or self.is_stopped, job)
        except PortError:
            self._lose()
            return False
        except BaseException:
            # Such as an interrupt: the order has failed.
            self._takes_as_sent()
            self._drop()
            raise
        if job.is_done:
            self.lines += job.data.count(b"\n")
            job.told_at = wire, wire.reports
            return True
        self._drop()
        if not self.is_stopped:
            self._minds_silence(is_over=True)
            self._was_silent = True
            self._ask()
            # Nobody may look for a long time, and a question that didn't go out isn't unanswered.
            self.poll()
        return False

    def give_up(self) -> None:
        """What has failed isn't asked for any more: an order from now on is a new one, also if it is the same."""
        for is_waiting in (False, True):
            self._give_up_one(is_waiting)

    def _give_up_one(self, is_waiting: bool) -> None:
        failed = self._failed.pop(is_waiting, None)
        if failed is not None and failed.is_done and failed.data and not failed.is_reported:
            # It was printed after it had failed.
            self.late += 1

    def _has_time(self) -> bool:
        """Whether the time of the order isn't over."""
        return time.monotonic() < self._ends_at

    def _taken_up(self, data: bytes, is_once: bool, is_waiting: bool) -> Job:
        """The job of an order: the one that failed if the order is the same, and how far that one has come. An order
        that puts nothing on the paper, such as a text without a line's end, doesn't give that up."""
        if not (is_once and data):
            return Job(data, is_once)
        found = [key for key in (is_waiting, not is_waiting) if key in self._failed and self._failed[key].data == data]
        if not found or found[0] != is_waiting:
            self._give_up_one(is_waiting)
            self._failed[is_waiting] = self._failed.pop(found[0]) if found else Job(data, is_once)
        job = self._failed[is_waiting]
        if found:
            self._catches_up(job)
        return job

    def _catches_up(self, job: Job) -> None:
        """Finds out how far a job has come that failed."""
        if self._is_due(job):
            self._puts_marker()
            self._pump(lambda: job.is_done or not self._is_due(job) or self.is_stopped)
        if not self._is_due(job):
            if job.sent > job.done:
                # Some of it was lost, and the printer may have begun a line.
                self._puts(self._start)
            job.sent, job.is_torn = job.done, False

    def _puts_marker(self) -> None:
        """Asks for an acknowledgement. Once it comes, all that was sent before is printed or lost. A marker that is
        still to go out serves again. One that went out and isn't answered may be lost, and is of no use any more."""
        last = self._due[-1]
        if last.is_marker and last in self._outbox:
            return
        if last.is_marker:
            self._due.pop()
        self._send(b"", None, 0)

    def _is_due(self, job: Job) -> bool:
        """Whether something of a job may still be acknowledged."""
        return bool(self._due) and any(parcel.job is job for parcel in self._due)

    def _has_order(self) -> bool:
        """Whether something of an order may still be acknowledged over this connection."""
        return bool(self._due)

    def _is_back(self) -> bool:
        """Whether the printer has answered since it was silent."""
        return not self._was_silent

    def _waits_until_it_is_back(self) -> None:
        """Waits until a printer that was silent answers, if its line would keep the order for one that is off."""
        if self.port.holds_back and not (self._is_back() or self.is_stopped):
            self._ask_at_once()
            self._pump(lambda: self._is_back() or self.is_stopped)

    def _minds_silence(self, is_over: bool = False) -> None:
        """Asks a printer whose line holds back what is sent, if it says nothing while something is due. If it doesn't
        answer in time, or the time of the order is over, what is due is lost."""
        most, now = min(self.timeout, _SILENT), time.monotonic()
        silence = now - max(self._heard_at, self._began_at)
        if not self._is_held() or silence < most / 2:
            return
        if not is_over and self.port.ready(False, 0)[0]:
            # What has come while nobody looked comes first.
            return
        had_time = self._asked_at is not None and now - self._asked_at >= most / 2
        if is_over or silence >= most and had_time:
            self._tears()
        elif self._asked_at is None:
            self._ask()

    def _minds_absence(self, now: tuple[float, float]) -> None:
        """If nobody has looked for long, a printer whose line keeps a part of what is due may have been off meanwhile:
        what it has acknowledged since is no whole line. Nobody looks while this process stands still, also within an
        order, or the machine is suspended."""
        if not (self.is_online and self._is_held()):
            return
        silence = now[0] - max(self._heard_at, self._began_at)
        unseen, unseen_in_all = (clock - looked_at for clock, looked_at in zip(now, self._looked_at))
        is_long = silence >= _SILENT and unseen >= min(self.timeout, _SILENT) / 2
        if is_long or unseen_in_all >= _SILENT:
            self._tears()

    def _looks(self) -> None:
        """Is called once what has come was read, before it counts."""
        now = _now()
        self._minds_absence(now)
        self._looked_at = now

    def _is_held(self) -> bool:
        """Whether something of a job is due of which the line may keep a part. One that is offline says that it goes
        on."""
        return self._may_keep_a_part() and not self._is_offline

    def _may_keep_a_part(self) -> bool:
        return self.port.holds_back and any(parcel.job is not None for parcel in self._due)

    def _tears(self) -> None:
        """The printer may have lost a part of what is due, and the line may have kept the rest: nothing of it counts
        any more. The printer is asked whether it is there."""
        for parcel in self._due:
            if parcel.job is not None:
                parcel.job.is_torn = True
        self.port.discard()
        self._drop()
        self._outbox.clear()
        self._discounts_due()
        self._was_silent, self._asked_at = True, None
        self._ask_at_once()

    def _discounts_due(self) -> None:
        """No acknowledgement counts for what is due: those that still come have its numbers."""
        self._due.clear()

    def _was_reset(self) -> bool:
        """Whether a printer that acknowledges something has lost its power since it was offline. It would have said
        first that it goes on."""
        return self._is_offline and self.port.holds_back and time.monotonic() - self._offline_at > _SHORTLY

    def _post(self, job: Job) -> None:
        """Sends the next pieces of a job, so many that no more are due than may be."""
        pieces, first = job.pieces, job.done
        room = _ENOUGH_HELD if self.port.holds_back else _ENOUGH
        room -= sum(len(piece) + self._end_size for piece in pieces[first + 1:job.sent])
        while job.sent < min(len(pieces), first + self._most_due):
            piece = pieces[job.sent]
            if job.sent > first:
                room -= len(piece) + self._end_size
                if room < 0:
                    return
            job.sent += 1
            self._send(piece, job, job.sent)

    def _send(self, piece: bytes, job: Job | None, done: int) -> None:
        """Puts a piece and the question for its acknowledgement into the outbox."""
        self._number = (self._number + 1) % _NUMBERS
        parcel = _Parcel(piece + self._end(self._number), self._number, job, done)
        self._due.append(parcel)
        self._outbox.append(parcel)

    def _end(self, number: int) -> bytes:
        """What asks the printer to acknowledge that everything before it is printed: the library's question, with
        another number."""
        return self._question[:-_NUMBER_SIZE] + bytes((
            0x40 | number >> 12, 0x40 | number >> 8 & 0x0F, 0x40 | number >> 4 & 0x0F, 0x40 | number & 0x0F))

    def _drop(self) -> None:
        """Takes back the pieces that haven't begun to go out."""
        for parcel in [parcel for parcel in self._outbox if not parcel.is_begun and parcel.number is not None]:
            self._outbox.remove(parcel)
            self._due.remove(parcel)
            if parcel.job is not None:
                parcel.job.sent -= 1

    def _takes_as_sent(self) -> None:
        """After an interrupt of `_writes` nobody knows what went out. All counts as sent: what wasn't is found out as
        what was lost is. The zero bytes end a command that has begun."""
        if self._is_unsure:
            self._outbox.clear()
            self._puts(_ZEROS)
            self._is_unsure = False

    # What comes.

    def _reply(self, data: bytes, asked: int) -> tuple[int, bytes]:
        """The first reply in what the printer has sent, as `Wire.reply`. Without a device, nobody reads any."""
        for wire in self.wires:
            with contextlib.suppress(NoDeviceError):
                return wire.reply(data, asked)
        return len(data), b""

    def _takes(self, data: bytes) -> None:
        """Reads replies. The bytes of one that has only begun are kept."""
        self._got += data
        while self._got:
            found = bytes(self._got[:_READ_AT_ONCE])
            asked = self._asked_last if self._unanswered else 0
            used, text = self._reply(found, asked)
            if not used:
                return
            if text:
                self._answers()
                self._hears(text, found[:used], asked)
            del self._got[:used]

    def _answers(self) -> None:
        """The printer has answered something."""
        self._asked_at, self._heard_at = None, time.monotonic()
        if self._was_silent or not self._is_there:
            self._comes_back()

    def _hears(self, text: bytes, data: bytes, asked: int) -> None:
        """What a reply says. Only an automatic status tells of the drawer's pin and of the cover."""
        if text.startswith(b"job "):
            if self._due and self._was_reset():
                self._tears()
            else:
                self._acknowledged(int(text[4:]))
            return
        signs = signs_of(text)
        if "pin" in signs and "cover" in signs:
            self._is_told(signs, [Told(data, asked)])
            self._is_refreshing = False
        else:
            self._hears_answer(Told(data, asked), signs)

    def _hears_answer(self, told: Told, signs: dict[str, str]) -> None:
        """The answer to the last question of DLE EOT, or to an earlier one while others aren't answered."""
        # After an interrupt an answer is read again.
        self._unanswered = max(self._unanswered - 1, 0)
        self._is_late = self._unanswered > 0
        if self._is_late:
            self._questioned_at = time.monotonic()
            return
        if told.asked == _PRINTER:
            self._heard.clear()
            self._is_hearing |= self._questioned_at > self._offline_at
        elif not self._heard:
            # The printer has told meanwhile how it is.
            return
        self._heard[told.asked] = told, signs
        self._asks_more(told.asked)

    def _asks_more(self, asked: int) -> None:
        """Asks a printer that is offline why, and for its paper. One that was switched on so says nothing by itself,
        and one that was off may have said something else before."""
        if self._heard[_PRINTER][1].get("offline") == "yes":
            self._asks_next(asked)
        else:
            # It has sent the status that it was asked for, or has lost the question.
            self._is_refreshing = False

    def _asks_next(self, asked: int) -> None:
        """Asks the next question. The answer to the last one tells how the printer is."""
        if asked != _PAPER:
            self._asks(2 * asked)
        else:
            self._composes()

    def _composes(self) -> None:
        """Puts the answers together to what an automatic status would tell."""
        self._forgets_end()
        heard = list(self._heard.values())
        signs = {name: sign for _, told in heard for name, sign in told.items()}
        if signs != self.signs:
            self._is_told(signs, [told for told, _ in heard])
            # It may have lost the question for its status.
            self._is_refreshing = False

    def _forgets_end(self) -> None:
        """The paper's sensor tells the most: there may be some again where printing has stopped at its end."""
        told, signs = self._heard[_CAUSE]
        self._heard[_CAUSE] = Told(bytes([told.data[-1] & ~_HAS_ENDED]), _CAUSE), signs

    def _comes_back(self) -> None:
        """The printer answers, for the first time or again. It may have been off: then it tells no status by itself."""
        self._puts(self._start)
        self._is_there, self._was_silent = True, False

    def _acknowledged(self, number: int) -> None:
        """The parcel with this number is printed, and those before it are printed or lost. Nothing of what is still to
        go out can be printed: an answer that comes for it is from before. The order that is out waits for all of them,
        also for those of an order before it, so it has the whole timeout again."""
        is_due = any(parcel.number == number and parcel not in self._outbox for parcel in self._due)
        if is_due:
            self._ends_at = time.monotonic() + self.timeout
        while is_due:
            parcel = self._due[0]
            job, is_due = parcel.job, parcel.number != number
            if job is not None:
                if is_due or job.is_torn:
                    job.is_torn = True
                elif parcel.done > job.done:
                    job.done = parcel.done
                    self.late += job.is_done and job.is_late(self._failed.values())
            self._due.popleft()

    def _puts(self, data: bytes) -> None:
        """Puts bytes that nothing acknowledges into the outbox."""
        if data:
            self._outbox.append(_Parcel(data))

    def _receive(self, until: Callable[[], bool] = lambda: False) -> None:
        """Reads what has come since the last time, until something is so."""
        self._looks()
        for data in self.port.waiting():
            self._looks()
            self._takes(data)
            if until():
                break

    def _pump(self, until: Callable[[], bool], posting: Job | None = None) -> bool:
        """Sends and reads until something is so, and returns whether it was so in time. It sends on with the job that
        is posted once nothing waits to go out."""
        while not until():
            left = self._ends_at - time.monotonic()
            if left <= 0:
                # The process may have been stopped meanwhile: what has come comes first.
                self._receive(until)
                if self._has_time():
                    continue
                return until()
            self._asks_on()
            if posting is not None and posting.sent < len(posting.pieces) and not self._outbox:
                self._post(posting)
            can_read, can_write = self.port.ready(bool(self._outbox), min(left, _OFTEN))
            data = self.port.read_some() if can_read else b""
            self._looks()
            if data:
                self._takes(data)
            self._minds_silence()
            if can_write:
                self._writes()
            elif can_read and not data:
                # A port may be readable all the time, and give nothing.
                rest_beside(min(left, _OFTEN))
        return True

    def _asks_on(self) -> None:
        """Asks again once no late answers come any more. Those that haven't come are lost."""
        is_over = self._is_late and time.monotonic() - self._questioned_at >= _APART
        if is_over and self._may_ask():
            self._unanswered, self._is_late = 0, False
            self._asks(_PRINTER)

    def _writes(self) -> None:
        """Sends of the outbox what there is room for."""
        outbox = self._outbox
        is_one = len(outbox) == 1
        self._is_unsure = True
        try:
            count = self.port.write_some(outbox[0].rest if is_one else b"".join([parcel.rest for parcel in outbox]))
        except PortError:
            # Nothing of it went out.
            self._is_unsure = False
            raise
        while outbox and count >= len(outbox[0].rest):
            count -= len(outbox.popleft().rest)
        if count:
            parcel = outbox[0]
            parcel.is_begun, parcel.rest = True, parcel.rest[count:]
        self._is_unsure = False

    # The port.

    def start(self) -> None:
        """Opens the port, and waits for the printer's first status as long as for a line. What an earlier till has
        ordered isn't asked for any more."""
        self.give_up()
        self.is_begun = True
        end = self._ends_at = time.monotonic() + self.timeout
        self._connect(self.timeout)
        if self.port.is_open:
            try:
                self._pump(lambda: bool(self.told) or time.monotonic() >= end)
            except PortError:
                self._lose()

    def poll(self) -> None:
        """Reads what has come and sends what is left, without waiting. A port that was lost is opened again."""
        now = time.monotonic()
        if not self.port.is_open:
            if self.port.is_opening:
                self._connect(0)
            elif now - self._tried_at >= self._pause:
                self._connect(min(self.timeout, _QUICKLY))
            return
        try:
            self._takes_as_sent()
            self._receive()
            self._minds_silence()
            self._look_after(now)
            self._asks_on()
            if self._outbox and self.port.ready(True, 0)[1]:
                self._writes()
        except PortError:
            self._lose()

    def _look_after(self, now: float) -> None:
        """Asks a printer that has said nothing for a time, and one that says that it can't print, for more. One on a
        network that doesn't answer is lost, unless something is due: the system might find that much later."""
        is_silent = self._notes_silence()
        if is_silent and isinstance(self.port, TcpPort) and not self._has_order():
            raise PortError(errno.ETIMEDOUT, f"{self.port.name} doesn't answer")
        most = self._longest_quiet()
        is_asking = self._asked_at is not None and now - max(self._asked_at, self._questioned_at) <= most
        is_heard = self._is_there and now - self._heard_at <= most
        if not (is_heard or is_asking or self._is_late):
            if self._may_ask():
                if is_silent:
                    self._asked_at = None
                self._ask()
                self._refreshes(now)
            elif self._asked_at is None and self._unanswered and self.port.is_holding:
                # A question that waits in the line already counts from now on.
                self._asked_at = now
        elif self.is_stopped and now - self._refreshed_at > self._pause and self._may_ask():
            self._refreshes(now)

    def _longest_quiet(self) -> float:
        """How long a printer may say nothing before it is asked. One that can't print, or isn't there, as far as is
        known, may be well again, and what it has said of that be lost: that doesn't wait for a long timeout."""
        is_well = self._is_there and self.signs.get("offline") != "yes"
        return self.timeout if is_well else min(self.timeout, _SILENT)

    def _may_ask(self) -> bool:
        """Whether a question goes out at once. In a line that holds it back it would only wait with those before it."""
        return not (self._outbox or self.port.is_holding)

    def _notes_silence(self) -> bool:
        """A printer that hasn't answered for the timeout counts as off, also while orders are tried again and again. By
        then only questions wait in its line. Returns whether it hasn't. One that is offline may take no question from
        a line that holds it back, unless it has answered one since."""
        if self._is_offline and self.port.holds_back and not self._is_hearing:
            return False
        since = self._asked_at
        if since is not None and self._is_late:
            # As long as late answers come, no question is put.
            since = max(since, self._questioned_at + _APART)
        is_silent = since is not None and time.monotonic() - since > self.timeout
        if is_silent:
            if self._may_keep_a_part():
                self._tears()
            self.port.resume()
            self._is_there = False
            self._is_told({}, [])
        return is_silent

    def _ask(self) -> None:
        """Asks whether the printer is there. A question that isn't answered yet counts from when it was asked first."""
        if self._asked_at is None:
            self._asked_at = time.monotonic()
        self._asks(_PRINTER)

    def _asks(self, question: int) -> None:
        """Asks a question of DLE EOT, unless it is still to go out."""
        self._asked_last, self._questioned_at = question, time.monotonic()
        data = _STATUS_NOW + bytes([question])
        if not any(parcel.rest == data for parcel in self._outbox):
            if not self._unanswered and self._asked_at is not None:
                # Nobody can answer what wasn't asked.
                self._asked_at = self._questioned_at
            self._unanswered += 1
            self._puts(data)

    def _ask_at_once(self) -> None:
        """Asks whether the printer is there, also if a question is out that may be lost."""
        self._ask()

    def _refreshes(self, now: float) -> None:
        """Asks for the whole status, which the printer then tells at each change, also if it was off and on again.
        While it can't print, it may keep the question for later, so that it is asked once."""
        if not self._is_refreshing:
            self._is_refreshing, self._refreshed_at = True, now
            self._puts(self._refresh)

    def _connect(self, seconds: float) -> None:
        try:
            self.port.open(seconds)
        except PortError:
            return
        finally:
            self._tried_at = self._began_at = time.monotonic()
        self._forget()
        self._puts(self._start)
        self._ask()

    def _lose(self) -> None:
        """The port was lost, with what wasn't sent. What was sent may still be acknowledged over the next one. What had
        come before counts, unless the port has kept back what it is about."""
        left = self.port._take_rest()
        if not self.port.holds_back:
            self._takes(left)
        self.port.close()
        self._forget()

    def _forget(self) -> None:
        self._takes_as_sent()
        self._drop()
        self._outbox.clear()
        self._got.clear()
        self._is_there = self._was_silent = self._is_refreshing = False
        self._is_told({}, [])
        self._asked_at, self._is_late, self._questioned_at = None, False, -1e9
        if not isinstance(self.port, TcpPort):
            # A print server may pass the answers to an earlier connection on to this one.
            self._unanswered = 0

    def close(self, wire: Wire | None) -> None:
        """Ends a driver's wire, and closes the port if no other driver has one."""
        self.wires = [one for one in self.wires if one is not wire]
        if not self.wires:
            self._lose()
            self.is_begun = False


class AskedLink(PrinterLink):
    """The line to a printer that says nothing by itself, and doesn't know the end of a job: it is asked. GS r is
    answered once everything before it is printed. Its replies have no number, so one piece at a time is out: if several
    were and one of them was lost, the answer to a later one would count for it.

    If an answer doesn't come, it may be lost, or come late. Behind the piece a marker asks once more. The printer does
    nothing between the two, so that both answers come together, however late: if one comes alone, the other is lost.
    That doesn't depend on the timeout.

    One that sends an automatic status, which it was told not to do, was reset: some send it whenever they are switched
    on. Its bytes would count as replies to GS r if they were read one by one."""

    _job = JOB_PAPER
    _start, _refresh = _ZEROS + _INITIALIZE + _STATUS_OFF, b""
    _end_size, _most_due = _QUESTION_SIZE, 1

    def __init__(self, port: Port, timeout: float, pause: float) -> None:
        super().__init__(port, timeout, pause)
        # How many rounds of questions have said that it can print since something was sent or acknowledged, or it
        # said anything else; and since when they count.
        self._calm, self._calm_at = 0, -1e9
        # How many answers have come since a marker is out, how often that was put again, and when it was last.
        self._answered, self._again, self._marked_at = 0, 0, -1e9

    @property
    def _is_offline(self) -> bool:
        """It doesn't say by itself that it goes on. Without a cause it may as well be off."""
        return self.is_stopped

    def _is_held(self) -> bool:
        """It may also be off and on again after it has told why it is offline, and then doesn't say so."""
        return self._may_keep_a_part()

    def _end(self, number: int) -> bytes:
        return self._question

    def _asks_on(self) -> None:
        """Asks all questions of DLE EOT, one after the other. It begins again if one isn't answered in time: a short
        timeout leaves the answer time, and a long one doesn't keep what the printer says now waiting."""
        super()._asks_on()
        pause = min(max(self.timeout, _APART), _SILENT) if self._unanswered else _OFTEN
        if not self._is_late and time.monotonic() - self._questioned_at >= pause and self._may_ask():
            if self._unanswered:
                self._stirs()
            self._asks(_PRINTER)

    def _stirs(self) -> None:
        """What the printer has said up to now says nothing of what comes."""
        self._calm, self._calm_at = 0, time.monotonic()

    def _ask(self) -> None:
        if self._asked_at is None:
            self._asked_at = time.monotonic()
        if not self._unanswered and self._may_ask():
            self._asks(_PRINTER)
        else:
            self._asks_on()

    def _ask_at_once(self) -> None:
        self._questioned_at = -1e9
        self._ask()

    def _takes(self, data: bytes) -> None:
        """Reads replies, each of which is a byte: to DLE EOT, or to GS r. One is forgotten before it counts, since it
        must count for one piece alone. The bytes of an automatic status that has only begun are kept."""
        self._got += data
        while self._got:
            if self._got[0] & _FIRST_BITS == _FIRST:
                size = self._count_of_status()
                if size == len(self._got) < _STATUS_SIZE:
                    return
                if size == _STATUS_SIZE:
                    self._restarts()
                del self._got[:size]
                continue
            one, text = bytes(self._got[:1]), b""
            for asked in [self._asked_last] * bool(self._unanswered) + [_PAPER_IN_ORDER] * bool(self._due):
                _, text = self._reply(one, asked)
                if text:
                    self._answers()
                    break
            del self._got[:1]
            if text:
                self._hears(text, one, asked)

    def _count_of_status(self) -> int:
        """How many bytes of an automatic status have come. If it isn't whole, the next byte is none of it."""
        size = 1
        while size < min(len(self._got), _STATUS_SIZE) and not self._got[size] & _OTHER_BITS:
            size += 1
        return size

    def _restarts(self) -> None:
        """The printer was reset, and is there. Questions that it has lost are found out as late answers are: the line
        may still have some."""
        self._tears()
        self._answers()

    def _hears(self, text: bytes, data: bytes, asked: int) -> None:
        if asked == _PAPER_IN_ORDER:
            self._hears_acknowledgement()
        else:
            self._hears_answer(Told(data, asked), signs_of(text))

    def _hears_acknowledgement(self) -> None:
        """Once a marker is out, an answer doesn't say which question it is for, unless each has one."""
        self._stirs()
        if not self._is_marked():
            self._acknowledges(1)
            return
        self._answered += 1
        self._ends_at = time.monotonic() + max(self.timeout, _SILENT)
        if self._answered >= len(self._due) + self._again:
            self._acknowledges(len(self._due))
            self._answered = self._again = 0

    def _acknowledges(self, count: int) -> None:
        """So many of the first parcels that are due are printed."""
        for parcel in list(self._due)[:count]:
            assert parcel.number is not None
            self._acknowledged(parcel.number)

    def _is_marked(self) -> bool:
        """Whether a marker is out."""
        last = self._due[-1]
        return last.is_marker and (last.is_begun or last not in self._outbox)

    def _asks_more(self, asked: int) -> None:
        self._asks_next(asked)
        if asked == _PAPER:
            self._ends_round()

    def _ends_round(self) -> None:
        """All questions are answered."""
        if self.signs.get("offline") == "no":
            self._calm += 1
        else:
            self._stirs()

    def _forgets_end(self) -> None:
        """It may have no sensor that sees the end of the paper."""
        if self._heard[_CAUSE][1].get("paper") == "empty":
            del self._heard[_PAPER]
        else:
            super()._forgets_end()

    def _taken_up(self, data: bytes, is_once: bool, is_waiting: bool) -> Job:
        self._gives_up()
        return super()._taken_up(data, is_once, is_waiting)

    def _is_due(self, job: Job) -> bool:
        """Whether any acknowledgement may still come. It wouldn't say which job it is for."""
        return bool(self._due)

    def _discounts_due(self) -> None:
        """What is due counts for nothing, but stays due. Its acknowledgements may still come, and mustn't count for
        what is sent next."""
        for parcel in self._due:
            parcel.job = None

    def _send(self, piece: bytes, job: Job | None, done: int) -> None:
        super()._send(piece, job, done)
        self._stirs()

    def _puts_marker(self) -> None:
        """Answers are counted, so that of a marker that is out comes, and serves again. It is put again, and counted,
        if there was time for it, since it may be lost, too."""
        is_first, now = not self._due[-1].is_marker, time.monotonic()
        if is_first:
            super()._puts_marker()
        elif self._calm and now - self._marked_at >= max(self.timeout, _SILENT) and self._may_ask():
            self._again += 1
            self._puts(self._question)
            self._stirs()
        else:
            return
        self._marked_at = now

    def _gives_up(self) -> None:
        """Waits for acknowledgements that are late, and finds out which are lost: once the printer says that it can
        print, and acknowledges nothing, a marker goes out."""
        if not self._due:
            return
        if self._answered:
            # Nobody may have looked for long.
            self._stirs()
            self._ends_at = max(self._ends_at, time.monotonic() + _SILENT)
        self._pump(lambda: self._calm > 0 or self._is_settled())
        if self._calm and not self._is_settled():
            self._puts_marker()
        self._pump(self._is_settled)
        if self._due and self._is_all_answered():
            self._lost_due()
            self._ends_at = time.monotonic() + self.timeout

    def _is_settled(self) -> bool:
        """Whether it is known what of that which is due is printed, or the printer has stopped."""
        return not self._due or self.is_stopped or self._is_all_answered()

    def _is_all_answered(self) -> bool:
        """Whether no answer is left of those that may come since a marker is out: one has come, and none behind it
        though the printer has said several times that it can print. The first of these rounds may have begun before."""
        return self._answered > 0 and self._calm > 1 and time.monotonic() - self._calm_at >= _SHORTLY

    def _lost_due(self) -> None:
        for parcel in self._due:
            if parcel.job is not None:
                parcel.job.is_torn = True
        self._due.clear()
        self._answered = self._again = 0

    def _has_order(self) -> bool:
        return any(parcel.job is not None for parcel in self._due)

    def _forget(self) -> None:
        """Acknowledgements may still come over another connection, and mustn't count for what is sent over that. A
        marker of its own finds out which are lost."""
        super()._forget()
        for parcel in self._due:
            if parcel.job is not None:
                parcel.job.is_torn = True
        self._discounts_due()
        self._stirs()
        self._answered, self._marked_at = 0, -1e9
