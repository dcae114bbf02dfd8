"""The events that are delivered to a control.

Written by abi/python/generate.py: don't change it by hand.
"""
from __future__ import annotations

from dataclasses import dataclass
from typing import TYPE_CHECKING, Union

from ._constants import ErrorLocus, ErrorReply
from ._replies import reply_to

if TYPE_CHECKING:
    from ._control import Control


@dataclass(frozen=True)
class StatusUpdateEvent:
    """The device has another status now.

    Attributes:
        control: The control to which the event is delivered.
        status: The new status, by the category of the control, or of its power.

    UnifiedPOS 1.16, chapter Common Properties, Methods and Events.
    """

    control: Control
    status: int


@dataclass(frozen=True)
class DataEvent:
    """A bar code was read: ScanData, ScanDataLabel and ScanDataType have it now.

    Its delivery sets DataEventEnabled to false.

    Attributes:
        control: The control to which the event is delivered.

    UnifiedPOS 1.16, chapter Common Properties, Methods and Events; Scanner (Bar Code Reader).
    """

    control: Control


@dataclass(frozen=True)
class ErrorEvent:
    """Input or output failed; the reply to the event says what happens next.

    Attributes:
        control: The control to which the event is delivered.
        code: The result code.
        extended: The extended code, or 0 if the code isn't E_EXTENDED.
        locus: Where the error is.

    UnifiedPOS 1.16, chapter Common Properties, Methods and Events.
    """

    control: Control
    code: int
    extended: int
    locus: ErrorLocus

    def reply(self, reply: ErrorReply) -> None:
        """Replies to the error.

        Without a reply, output is tried again, and input is continued (at EL_INPUT_DATA) or
        cleared (at EL_INPUT). Reply before you call anything else on the control.
        """
        reply_to(self.control, self.locus, reply)


@dataclass(frozen=True)
class OutputCompleteEvent:
    """A request that was queued is printed.

    Attributes:
        control: The control to which the event is delivered.
        output_id: The OutputID of the request.

    UnifiedPOS 1.16, chapter Common Properties, Methods and Events; POS Printer.
    """

    control: Control
    output_id: int


Event = Union[StatusUpdateEvent, DataEvent, ErrorEvent, OutputCompleteEvent]


def read(control: Control, text: str) -> Event:
    """The event that a line tells, behind `event`."""
    name, *words = text.split()
    numbers = [int(word) for word in words]
    if name == "StatusUpdateEvent":
        return StatusUpdateEvent(control, numbers[0])
    if name == "DataEvent":
        return DataEvent(control)
    if name == "ErrorEvent":
        return ErrorEvent(control, numbers[0], numbers[1], ErrorLocus(numbers[2]))
    if name == "OutputCompleteEvent":
        return OutputCompleteEvent(control, numbers[0])
    raise ValueError(f"not an event: {text}")
