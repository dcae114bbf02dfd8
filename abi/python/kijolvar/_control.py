"""What every control has: its name in the text layer, its claim, its events, and how answers are read."""
from __future__ import annotations

import contextlib
from collections.abc import Callable, Iterator
from operator import index
from types import TracebackType
from typing import TYPE_CHECKING, Any, ClassVar, Optional, Self, SupportsIndex, TypeVar, Union

from . import _events
from ._constants import E_EXTENDED, E_OFFLINE, KIJOLVAR_CUT, KIJOLVAR_NO_MEMORY, ErrorReply
from ._events import ErrorEvent, Event
from ._faults import LineError, NoMemoryError, UposError
from ._reasons import REASONS
from ._unique import Unique
from .errors import BY_CODE, BY_EXTENDED, ClosedError
from .ports import reason_of

if TYPE_CHECKING:
    from .till import Till
    from .totals import TotalsFile

Text = Union[str, bytes, bytearray, memoryview]
Handle = Union[SupportsIndex, "TotalsFile"]
Listener = Callable[[Event], Optional[ErrorReply]]
L = TypeVar("L", bound=Optional[Listener])

OK, OK_TRUE, OK_FALSE, OK_NO_BYTES = b"ok\n", b"ok true\n", b"ok false\n", b"ok -\n"
# How `ok` begins, and no other answer.
OK_BEGIN = OK[0]


def hexed(text: Text) -> str:
    """An argument that is bytes, as a line has them. A str is ASCII."""
    if type(text) is bytes:
        return text.hex() or "-"
    if isinstance(text, str):
        return text.encode("ascii").hex() or "-"
    if isinstance(text, (bytes, bytearray, memoryview)):
        return text.hex() or "-"
    raise TypeError(f"bytes or ASCII text needed, not {type(text).__name__}")


def is_true(value: bool) -> bool:
    """Whether an argument is true. Text such as "false" is neither true nor false."""
    if value not in (True, False):
        raise TypeError(f"True or False needed, not {value!r}")
    return bool(value)


def truth(value: bool) -> str:
    """An argument that is true or false, as a line has it."""
    return "true" if is_true(value) else "false"


def handle_of(file: Handle) -> int:
    """An argument that is a file of totals, or its handle, as a line has it."""
    given: Any = file
    return index(getattr(given, "handle", given))


def undoing(value: BaseException | None) -> contextlib.AbstractContextManager[None]:
    """For what the end of a `with` block undoes: its own exceptions don't take the place of one that ends the block."""
    return contextlib.nullcontext() if value is None else contextlib.suppress(Exception)


def is_answer_lost(fault: BaseException) -> bool:
    """Whether a call was carried out, and there was no memory for its answer."""
    return isinstance(fault, NoMemoryError) and fault.library_code == KIJOLVAR_CUT


def device_word(name: str) -> bytes:
    """The name of a device, as a line has it: 1 to 16 ASCII letters, digits and hyphens."""
    if not isinstance(name, str):
        raise TypeError(f"the name of a device is a str, not {type(name).__name__}")
    word = name.encode("ascii", "replace")
    if not (1 <= len(word) <= 16 and word.replace(b"-", b"0").isalnum()):
        raise ValueError(f"a name has 1 to 16 ASCII letters, digits and hyphens: not {name!r}")
    return word


class Control(Unique):
    """A handle on a device. Each control counts as an application of its own.

    You get an open one from the till, as `till.drawer("d1")`. It is closed at the end of a `with` block, and soon after
    nothing refers to it any more, unless it has a listener. You can open a closed control again, also on another device
    of its category.
    """

    __slots__ = ("_till", "_name", "_carry_out", "_call", "_words", "_get", "_set", "_device", "_last_device",
                 "_listener", "__weakref__")

    _noun = "a control"
    category: ClassVar[str] = ""
    is_exclusive: ClassVar[bool] = False

    def __init__(self, till: Till, name: str) -> None:
        self._till = till
        self._name = device_word(name)
        self._carry_out = till._carry_out
        self._call: bytes = b"call %b " % self._name
        self._words = self._call.decode()
        self._get = b"get %b " % self._name
        self._set = b"set %b " % self._name
        self._device: str | None = None
        # The device on which it was opened last.
        self._last_device: str | None = None
        self._listener: Listener | None = None

    @property
    def till(self) -> Till:
        """The till that the control is of."""
        return self._till

    @property
    def name(self) -> str:
        """The control's name in the lines of the text layer."""
        return self._name.decode()

    @property
    def device(self) -> str | None:
        """The name of the device on which the control is open, or None."""
        return self._device

    def __repr__(self) -> str:
        where = f"on {self._device!r}" if self._device is not None else "closed"
        return f"<kijolvar.{type(self).__name__} {where}>"

    def __deepcopy__(self, memo: dict[int, Any]) -> Self:
        """Returns the control itself: an event that is copied (`dataclasses.asdict`) is still one of this control."""
        return self

    def __enter__(self) -> Self:
        return self

    def __exit__(self, kind: type[BaseException] | None, value: BaseException | None,
                 trace: TracebackType | None) -> None:
        with undoing(value):
            if self._device is not None and not self._till.is_closed:
                self._close()

    # Answers.

    def _refusal(self, answer: bytes, call: str) -> Exception:
        """The exception for an answer that isn't `ok`, by the name of the method or the property."""
        verb, *words = answer.split()
        if verb == b"err":
            code, extended = int(words[0]), int(words[1]) if len(words) > 1 else 0
            kind = BY_CODE.get(code, UposError)
            if code == E_EXTENDED:
                kind = BY_EXTENDED.get((self.category, extended), kind)
            reason = REASONS.get(call, {}).get(kind.name, "")
            fault = self._till._drives.port_error(self._device) if code == E_OFFLINE else None
            if fault is not None:
                reason = f"{(reason or kind.summary).rstrip('.')}: {reason_of(fault)}."
            return kind(code, extended, f"{call} of {self.category} {self._device or self.name}", reason)
        if answer == b"memory\n":
            return NoMemoryError(KIJOLVAR_NO_MEMORY, f"{call}: there was no memory, and nothing was done")
        if answer == b"bad line\n":
            return OverflowError(f"{call}: numbers have at most 18 digits, and all arguments 140,000 bytes in hex")
        return LineError(answer.decode().strip())

    def _do(self, line: bytes, call: str) -> None:
        """Carries out a line that gives nothing."""
        answer = self._carry_out(line)
        if answer != OK:
            raise self._refusal(answer, call)

    def _ask(self, line: bytes, call: str) -> bytes:
        """Carries out a line that gives something: the words behind `ok`."""
        answer = self._carry_out(line)
        if answer[0] != OK_BEGIN:
            raise self._refusal(answer, call)
        return answer[3:-1]

    def _open(self, device: str) -> None:
        line, before = b"open %b %b" % (self._name, device_word(device)), self._device
        # What a refusal names.
        self._device = device
        try:
            self._do(line, "open")
        except BaseException as fault:
            # An open control refuses to be opened.
            if before is None and is_answer_lost(fault):
                self._mark_open()
            else:
                self._device = before
            raise
        self._mark_open()

    def _mark_open(self) -> None:
        self._last_device = self._device
        self._till._keep(self, self._listener is not None)

    def _close(self) -> None:
        try:
            self._do(b"close %b" % self._name, "close")
        except Exception as fault:
            if isinstance(fault, ClosedError) or is_answer_lost(fault):
                self._mark_closed()
            raise
        self._mark_closed()

    def _mark_closed(self) -> None:
        self._device = None
        self._till._keep(self, False)

    def _claim(self, timeout: SupportsIndex) -> Claim:
        self._do(b"claim %b %d" % (self._name, index(timeout)), "claim")
        return Claim(self)

    def _release(self) -> None:
        self._do(b"release %b" % self._name, "release")

    def _has_claim(self) -> bool:
        """Whether there is a claim to give up: not once the control or the till is closed."""
        if self._device is None or self._till.is_closed:
            return False
        return self._ask(self._get + b"Claimed", "claimed") == b"true"

    # Events.

    def next_event(self, reply: ErrorReply | None = None) -> Event | None:
        """Delivers the control's next event, or returns None if none can be delivered now.

        Args:
            reply: The reply to the event if it is an ErrorEvent. It means nothing to other events. Without one, output
                is tried again, and input is continued (at EL_INPUT_DATA) or cleared (at EL_INPUT). You can also reply
                afterwards, by `ErrorEvent.reply`.
        """
        line = b"deliver %b" % self._name
        answer = self._carry_out(line if reply is None else b"%b %b" % (line, ErrorReply(reply).value.encode()))
        if answer == b"none\n":
            return None
        if answer[:6] != b"event ":
            raise self._refusal(answer, "deliver")
        return _events.read(self, answer[6:-1].decode())

    def events(self) -> Iterator[Event]:
        """Delivers the control's events, in order, until none can be delivered."""
        while (event := self.next_event()) is not None:
            yield event

    def listen(self, listener: L) -> L:
        """Makes a function the control's listener, in place of the one before; None ends that.

        `till.deliver()` passes each event to it. What it returns is the reply to an ErrorEvent; None is the default
        reply. You can use it as a decorator. What it raises passes through `deliver`: its event is delivered then, and
        the others wait.

        An open control with a listener stays open, also when nothing else refers to it.
        """
        self._listener = listener
        self._till._keep(self, listener is not None and self._device is not None)
        return listener

    def deliver(self) -> int:
        """Passes each event that can be delivered to the control's listener, in order. Returns how many there were."""
        count = 0
        listener = self._listener
        while listener is not None and (event := self.next_event()) is not None:
            count += 1
            reply = listener(event)
            if reply is not None and isinstance(event, ErrorEvent):
                event.reply(reply)
            listener = self._listener
        return count

    @contextlib.contextmanager
    def in_use(self, timeout: SupportsIndex = 0) -> Iterator[Self]:
        """Claims the device and enables it for a `with` block. At its end the device is disabled and released.

        Raises:
            kijolvar.TimeoutError: Another control has claimed the device.
        """
        with self._claim(timeout):
            self._do(self._set + b"DeviceEnabled true", "device_enabled")
            try:
                yield self
            except BaseException as fault:
                with undoing(fault):
                    self._disable()
                raise
            self._disable()

    def _disable(self) -> None:
        """Disables the control at the end of its use. A sharable device that was released stays enabled until then."""
        is_open = self._device is not None and not self._till.is_closed
        if is_open and not self.is_exclusive or self._has_claim():
            self._do(self._set + b"DeviceEnabled false", "device_enabled")


class Claim:
    """A claim that a control has made. At the end of a `with` block the device is released."""

    def __init__(self, control: Control) -> None:
        self._control = control

    def __repr__(self) -> str:
        return f"<kijolvar.Claim of {self._control!r}>"

    def __enter__(self) -> Claim:
        return self

    def __exit__(self, kind: type[BaseException] | None, value: BaseException | None,
                 trace: TracebackType | None) -> None:
        with undoing(value):
            if self._control._has_claim():
                self._control._release()
