"""The controls of each category, with the standard's methods and properties.

Written by abi/python/generate.py: don't change it by hand.
"""
from __future__ import annotations

from binascii import unhexlify
from operator import index as integer
from typing import SupportsIndex

from ._constants import DISP_DT_NORMAL, PTR_CP_FULLCUT, PowerNotify, PowerReporting, PowerState, State
from ._control import (OK, OK_BEGIN, OK_FALSE, OK_NO_BYTES, OK_TRUE, Claim, Control, Handle, Text, handle_of, hexed,
                       truth)


# What an answer stands for, by its text.
_PowerNotify = {b"ok %d\n" % member: member for member in PowerNotify}
_PowerReporting = {b"ok %d\n" % member: member for member in PowerReporting}
_PowerState = {b"ok %d\n" % member: member for member in PowerState}
_State = {b"ok %d\n" % member: member for member in State}


class StandardControl(Control):
    """What every category has: open, claim, enable, release and close.

    UnifiedPOS 1.16, chapter Common Properties, Methods and Events.
    """

    __slots__ = ()

    @property
    def state(self) -> State:
        """What the control is doing; it can be read while the control is closed, too.

        One of S_CLOSED, S_IDLE, S_BUSY, S_ERROR.

        UnifiedPOS 1.16, chapter Common Properties, Methods and Events.
        """
        answer = self._carry_out(self._get + b"State")
        found = _State.get(answer)
        if found is None:
            raise self._refusal(answer, "state")
        return found

    @property
    def claimed(self) -> bool:
        """Whether the control has claimed its device.

        Raises:
            ClosedError: The control is closed.

        UnifiedPOS 1.16, chapter Common Properties, Methods and Events.
        """
        answer = self._carry_out(self._get + b"Claimed")
        if answer == OK_TRUE:
            return True
        if answer == OK_FALSE:
            return False
        raise self._refusal(answer, "claimed")

    @property
    def device_enabled(self) -> bool:
        """Whether the device works for this control.

        An exclusive-use device has to be claimed first. AutoDisable and a release set it to false. Enabling Hard Totals
        recovers their files, if they are off.

        You can set it.

        Raises:
            ClosedError: The control is closed.

        Raises, when you set it:
            ClosedError: The control is closed.
            ClaimedError: Another control has claimed the device, which is an exclusive-use device.
            NotClaimedError: The control hasn't claimed the device, which is an exclusive-use device.
            NoHardwareError: The disk of the totals isn't formatted.
            FailureError: The totals can't be recovered.
            DiskError: The disk failed, and the change may be in the file or not.

        UnifiedPOS 1.16, chapter Common Properties, Methods and Events.
        """
        answer = self._carry_out(self._get + b"DeviceEnabled")
        if answer == OK_TRUE:
            return True
        if answer == OK_FALSE:
            return False
        raise self._refusal(answer, "device_enabled")

    @device_enabled.setter
    def device_enabled(self, value: bool) -> None:
        answer = self._carry_out(self._set + f"DeviceEnabled {truth(value)}".encode())
        if answer != OK:
            raise self._refusal(answer, "device_enabled")

    @property
    def freeze_events(self) -> bool:
        """Whether events are held back: none is delivered while this is true.

        You can set it.

        Raises:
            ClosedError: The control is closed.

        Raises, when you set it:
            ClosedError: The control is closed.

        UnifiedPOS 1.16, chapter Common Properties, Methods and Events.
        """
        answer = self._carry_out(self._get + b"FreezeEvents")
        if answer == OK_TRUE:
            return True
        if answer == OK_FALSE:
            return False
        raise self._refusal(answer, "freeze_events")

    @freeze_events.setter
    def freeze_events(self, value: bool) -> None:
        answer = self._carry_out(self._set + f"FreezeEvents {truth(value)}".encode())
        if answer != OK:
            raise self._refusal(answer, "freeze_events")

    @property
    def cap_power_reporting(self) -> PowerReporting:
        """Whether the device reports that it is on or off.

        One of PR_NONE, PR_STANDARD.

        Raises:
            ClosedError: The control is closed.

        UnifiedPOS 1.16, chapter Common Properties, Methods and Events.
        """
        answer = self._carry_out(self._get + b"CapPowerReporting")
        found = _PowerReporting.get(answer)
        if found is None:
            raise self._refusal(answer, "cap_power_reporting")
        return found

    @property
    def power_notify(self) -> PowerNotify:
        """Whether the control gets StatusUpdateEvents of the device's power.

        Set it before you enable the device.

        You can set it. One of PN_DISABLED, PN_ENABLED.

        Raises:
            ClosedError: The control is closed.

        Raises, when you set it:
            ClosedError: The control is closed.
            IllegalError: The value is out of its range, would change while the device is enabled, or is PN_ENABLED and
                the device doesn't report its power.

        UnifiedPOS 1.16, chapter Common Properties, Methods and Events.
        """
        answer = self._carry_out(self._get + b"PowerNotify")
        found = _PowerNotify.get(answer)
        if found is None:
            raise self._refusal(answer, "power_notify")
        return found

    @power_notify.setter
    def power_notify(self, value: PowerNotify) -> None:
        answer = self._carry_out(self._set + b"PowerNotify %d" % integer(value))
        if answer != OK:
            raise self._refusal(answer, "power_notify")

    @property
    def power_state(self) -> PowerState:
        """Whether the device is on, if the control is enabled and PowerNotify is PN_ENABLED.

        One of PS_UNKNOWN, PS_ONLINE, PS_OFF_OFFLINE.

        Raises:
            ClosedError: The control is closed.

        UnifiedPOS 1.16, chapter Common Properties, Methods and Events.
        """
        answer = self._carry_out(self._get + b"PowerState")
        found = _PowerState.get(answer)
        if found is None:
            raise self._refusal(answer, "power_state")
        return found

    def open(self, device: str) -> None:
        """Opens the control on a device, and sets its properties to their defaults.

        Flags are false, except CursorUpdate, which is true. Numbers are 0, and bytes are empty. You can open a closed
        control again.

        Args:
            device: The device's name in the profile. 1 to 16 characters.

        Raises:
            IllegalError: The control is open already.
            NoExistError: No device of the control's category has the name.
            NoServiceError: No peripheral is attached to the device.

        UnifiedPOS 1.16, chapter Common Properties, Methods and Events.
        """
        self._open(device)

    def close(self) -> None:
        """Closes the control: it releases the device, deletes its events and its output that waits, and disables it.

        A control of Hard Totals also gives up its claims of files, and its transaction is dropped.

        Raises:
            ClosedError: The control is closed.

        UnifiedPOS 1.16, chapter Common Properties, Methods and Events.
        """
        self._close()

    def claim(self, timeout: SupportsIndex = 0) -> Claim:
        """Claims the device, which keeps other controls from using it.

        A claim that the control has already stays as it is. The call never waits: if another control has the device, it
        fails at once.

        Args:
            timeout: How long the claim may take; UPOS_FOREVER is without end. At least -1, in milliseconds.

        Returns:
            The claim, which releases the device at the end of a `with` block; you needn't use it.

        Raises:
            ClosedError: The control is closed.
            IllegalError: The timeout is below -1.
            kijolvar.TimeoutError: Another control has claimed the device, or a file of the totals.

        UnifiedPOS 1.16, chapter Common Properties, Methods and Events.
        """
        return self._claim(timeout)

    def release(self) -> None:
        """Releases the device that the control has claimed.

        An exclusive-use device is disabled for the control, and the control's events and output that waits are deleted.
        A sharable device stays enabled.

        Raises:
            ClosedError: The control is closed.
            IllegalError: The control hasn't claimed the device.

        UnifiedPOS 1.16, chapter Common Properties, Methods and Events.
        """
        self._release()


class CashDrawer(StandardControl):
    """A cash drawer.

    Several controls may share a drawer. A claim only keeps the others from opening it.

    UnifiedPOS 1.16, chapter Cash Drawer.
    """

    __slots__ = ()

    category = "CashDrawer"
    is_exclusive = False

    @property
    def cap_status(self) -> bool:
        """Whether the drawer reports if it is open: always true.

        Raises:
            ClosedError: The control is closed.

        UnifiedPOS 1.16, chapter Cash Drawer.
        """
        answer = self._carry_out(self._get + b"CapStatus")
        if answer == OK_TRUE:
            return True
        if answer == OK_FALSE:
            return False
        raise self._refusal(answer, "cap_status")

    @property
    def drawer_opened(self) -> bool:
        """Whether the drawer is open.

        Raises:
            ClosedError: The control is closed.
            DisabledError: The control is disabled.

        UnifiedPOS 1.16, chapter Cash Drawer.
        """
        answer = self._carry_out(self._get + b"DrawerOpened")
        if answer == OK_TRUE:
            return True
        if answer == OK_FALSE:
            return False
        raise self._refusal(answer, "drawer_opened")

    def open_drawer(self) -> None:
        """Opens the drawer; one that is open stays open.

        Raises:
            ClosedError: The control is closed.
            ClaimedError: Another control has claimed the device.
            DisabledError: The control is disabled.
            FailureError: The drawer, or the printer that it is on, can't answer.
            OfflineError: The drawer is off.

        UnifiedPOS 1.16, chapter Cash Drawer.
        """
        answer = self._carry_out(self._call + b"openDrawer")
        if answer != OK:
            raise self._refusal(answer, "open_drawer")


class Scanner(StandardControl):
    """A scanner of bar codes.

    An exclusive-use device: claim it before you enable it. What it reads comes as a DataEvent.

    UnifiedPOS 1.16, chapter Scanner (Bar Code Reader).
    """

    __slots__ = ()

    category = "Scanner"
    is_exclusive = True

    @property
    def data_event_enabled(self) -> bool:
        """Whether DataEvents and ErrorEvents of input are delivered.

        The delivery of a DataEvent sets it to false; set it to true again when you are ready for the next one.

        You can set it.

        Raises:
            ClosedError: The control is closed.

        Raises, when you set it:
            ClosedError: The control is closed.

        UnifiedPOS 1.16, chapter Common Properties, Methods and Events; Scanner (Bar Code Reader).
        """
        answer = self._carry_out(self._get + b"DataEventEnabled")
        if answer == OK_TRUE:
            return True
        if answer == OK_FALSE:
            return False
        raise self._refusal(answer, "data_event_enabled")

    @data_event_enabled.setter
    def data_event_enabled(self, value: bool) -> None:
        answer = self._carry_out(self._set + f"DataEventEnabled {truth(value)}".encode())
        if answer != OK:
            raise self._refusal(answer, "data_event_enabled")

    @property
    def auto_disable(self) -> bool:
        """Whether the next scan disables the control.

        You can set it.

        Raises:
            ClosedError: The control is closed.

        Raises, when you set it:
            ClosedError: The control is closed.

        UnifiedPOS 1.16, chapter Common Properties, Methods and Events; Scanner (Bar Code Reader).
        """
        answer = self._carry_out(self._get + b"AutoDisable")
        if answer == OK_TRUE:
            return True
        if answer == OK_FALSE:
            return False
        raise self._refusal(answer, "auto_disable")

    @auto_disable.setter
    def auto_disable(self, value: bool) -> None:
        answer = self._carry_out(self._set + f"AutoDisable {truth(value)}".encode())
        if answer != OK:
            raise self._refusal(answer, "auto_disable")

    @property
    def data_count(self) -> int:
        """How many DataEvents wait.

        It counts events.

        Raises:
            ClosedError: The control is closed.

        UnifiedPOS 1.16, chapter Common Properties, Methods and Events; Scanner (Bar Code Reader).
        """
        answer = self._carry_out(self._get + b"DataCount")
        if answer[0] != OK_BEGIN:
            raise self._refusal(answer, "data_count")
        return int(answer[3:])

    @property
    def decode_data(self) -> bool:
        """Whether a DataEvent sets ScanDataLabel and ScanDataType.

        You can set it.

        Raises:
            ClosedError: The control is closed.

        Raises, when you set it:
            ClosedError: The control is closed.

        UnifiedPOS 1.16, chapter Scanner (Bar Code Reader).
        """
        answer = self._carry_out(self._get + b"DecodeData")
        if answer == OK_TRUE:
            return True
        if answer == OK_FALSE:
            return False
        raise self._refusal(answer, "decode_data")

    @decode_data.setter
    def decode_data(self, value: bool) -> None:
        answer = self._carry_out(self._set + f"DecodeData {truth(value)}".encode())
        if answer != OK:
            raise self._refusal(answer, "decode_data")

    @property
    def scan_data(self) -> bytes:
        """All that was read, of the DataEvent that was delivered last.

        Raises:
            ClosedError: The control is closed.

        UnifiedPOS 1.16, chapter Scanner (Bar Code Reader).
        """
        answer = self._carry_out(self._get + b"ScanData")
        if answer[0] != OK_BEGIN:
            raise self._refusal(answer, "scan_data")
        return unhexlify(answer[3:-1]) if answer != OK_NO_BYTES else b""

    @property
    def scan_data_label(self) -> bytes:
        """The label of the bar code, of the DataEvent that was delivered last.

        It is empty if DecodeData was false then.

        Raises:
            ClosedError: The control is closed.

        UnifiedPOS 1.16, chapter Scanner (Bar Code Reader).
        """
        answer = self._carry_out(self._get + b"ScanDataLabel")
        if answer[0] != OK_BEGIN:
            raise self._refusal(answer, "scan_data_label")
        return unhexlify(answer[3:-1]) if answer != OK_NO_BYTES else b""

    @property
    def scan_data_type(self) -> int:
        """The type of the bar code, of the DataEvent that was delivered last.

        It is 0 if DecodeData was false then. Many types have names: SCAN_SDT_UPCA and the like.

        Raises:
            ClosedError: The control is closed.

        UnifiedPOS 1.16, chapter Scanner (Bar Code Reader).
        """
        answer = self._carry_out(self._get + b"ScanDataType")
        if answer[0] != OK_BEGIN:
            raise self._refusal(answer, "scan_data_type")
        return int(answer[3:])

    def clear_input(self) -> None:
        """Deletes the control's DataEvents and ErrorEvents of input, and ends its error state of input.

        Raises:
            ClosedError: The control is closed.
            ClaimedError: Another control has claimed the device.
            NotClaimedError: No control has claimed the device.

        UnifiedPOS 1.16, chapter Common Properties, Methods and Events; Scanner (Bar Code Reader).
        """
        answer = self._carry_out(self._call + b"clearInput")
        if answer != OK:
            raise self._refusal(answer, "clear_input")

    def clear_input_properties(self) -> None:
        """Sets ScanData, ScanDataLabel and ScanDataType to their defaults.

        Raises:
            ClosedError: The control is closed.
            ClaimedError: Another control has claimed the device.
            NotClaimedError: No control has claimed the device.

        UnifiedPOS 1.16, chapter Common Properties, Methods and Events; Scanner (Bar Code Reader).
        """
        answer = self._carry_out(self._call + b"clearInputProperties")
        if answer != OK:
            raise self._refusal(answer, "clear_input_properties")


class LineDisplay(StandardControl):
    """A line display for the customer.

    An exclusive-use device: claim it before you enable it. Each control has a cursor of its own.

    UnifiedPOS 1.16, chapter Line Display.
    """

    __slots__ = ()

    category = "LineDisplay"
    is_exclusive = True

    @property
    def rows(self) -> int:
        """How many rows the display has.

        It counts rows.

        Raises:
            ClosedError: The control is closed.

        UnifiedPOS 1.16, chapter Line Display.
        """
        answer = self._carry_out(self._get + b"Rows")
        if answer[0] != OK_BEGIN:
            raise self._refusal(answer, "rows")
        return int(answer[3:])

    @property
    def columns(self) -> int:
        """How many columns the display has.

        It counts columns.

        Raises:
            ClosedError: The control is closed.

        UnifiedPOS 1.16, chapter Line Display.
        """
        answer = self._carry_out(self._get + b"Columns")
        if answer[0] != OK_BEGIN:
            raise self._refusal(answer, "columns")
        return int(answer[3:])

    @property
    def cursor_row(self) -> int:
        """The row in which the next text begins, counted from 0.

        You can set it. 0 to Rows - 1, in rows.

        Raises:
            ClosedError: The control is closed.

        Raises, when you set it:
            ClosedError: The control is closed.
            IllegalError: The value is out of its range.

        UnifiedPOS 1.16, chapter Line Display.
        """
        answer = self._carry_out(self._get + b"CursorRow")
        if answer[0] != OK_BEGIN:
            raise self._refusal(answer, "cursor_row")
        return int(answer[3:])

    @cursor_row.setter
    def cursor_row(self, value: int) -> None:
        answer = self._carry_out(self._set + b"CursorRow %d" % integer(value))
        if answer != OK:
            raise self._refusal(answer, "cursor_row")

    @property
    def cursor_column(self) -> int:
        """The column in which the next text begins, counted from 0; Columns is right of the last.

        You can set it. 0 to Columns, in columns.

        Raises:
            ClosedError: The control is closed.

        Raises, when you set it:
            ClosedError: The control is closed.
            IllegalError: The value is out of its range.

        UnifiedPOS 1.16, chapter Line Display.
        """
        answer = self._carry_out(self._get + b"CursorColumn")
        if answer[0] != OK_BEGIN:
            raise self._refusal(answer, "cursor_column")
        return int(answer[3:])

    @cursor_column.setter
    def cursor_column(self, value: int) -> None:
        answer = self._carry_out(self._set + b"CursorColumn %d" % integer(value))
        if answer != OK:
            raise self._refusal(answer, "cursor_column")

    @property
    def cursor_update(self) -> bool:
        """Whether displayText and displayTextAt move the cursor to the end of the text.

        You can set it.

        Raises:
            ClosedError: The control is closed.

        Raises, when you set it:
            ClosedError: The control is closed.

        UnifiedPOS 1.16, chapter Line Display.
        """
        answer = self._carry_out(self._get + b"CursorUpdate")
        if answer == OK_TRUE:
            return True
        if answer == OK_FALSE:
            return False
        raise self._refusal(answer, "cursor_update")

    @cursor_update.setter
    def cursor_update(self, value: bool) -> None:
        answer = self._carry_out(self._set + f"CursorUpdate {truth(value)}".encode())
        if answer != OK:
            raise self._refusal(answer, "cursor_update")

    def display_text(self, text: Text, attribute: SupportsIndex = DISP_DT_NORMAL) -> None:
        """Shows a text from the cursor on.

        A line feed goes to the start of the next row, a carriage return to the start of its row. A text that runs past
        the last row scrolls the display. If CursorUpdate is true, the cursor moves to the end of the text.

        Args:
            text: The text: bytes 0x20 to 0x7E, line feeds and carriage returns. 0 to 4096 bytes.
            attribute: How the characters are shown. One of DISP_DT_NORMAL, DISP_DT_BLINK, DISP_DT_REVERSE,
                DISP_DT_BLINK_REVERSE.

        Raises:
            ClosedError: The control is closed.
            ClaimedError: Another control has claimed the device.
            NotClaimedError: No control has claimed the device.
            DisabledError: The control is disabled.
            IllegalError: The text has more than 4,096 bytes, or one other than 0x20 to 0x7E, LF and CR, or the
                attribute is out of its range.
            FailureError: The display didn't answer.
            OfflineError: The display is off.

        UnifiedPOS 1.16, chapter Line Display.
        """
        answer = self._carry_out(f"{self._words}displayText {hexed(text)} {integer(attribute)}".encode())
        if answer != OK:
            raise self._refusal(answer, "display_text")

    def display_text_at(self, row: SupportsIndex, column: SupportsIndex, text: Text, attribute: SupportsIndex =
                        DISP_DT_NORMAL) -> None:
        """Moves the cursor to a place, and shows a text from there on, as displayText does.

        The cursor moves to the place even if CursorUpdate is false.

        Args:
            row: The row in which it begins, counted from 0. 0 to Rows - 1, in rows.
            column: The column in which it begins, counted from 0; Columns is right of the last. 0 to Columns, in
                columns.
            text: The text: bytes 0x20 to 0x7E, line feeds and carriage returns. 0 to 4096 bytes.
            attribute: How the characters are shown. One of DISP_DT_NORMAL, DISP_DT_BLINK, DISP_DT_REVERSE,
                DISP_DT_BLINK_REVERSE.

        Raises:
            ClosedError: The control is closed.
            ClaimedError: Another control has claimed the device.
            NotClaimedError: No control has claimed the device.
            DisabledError: The control is disabled.
            IllegalError: The row, column or attribute is out of its range, or displayText refuses a byte of the text.
            FailureError: The display didn't answer.
            OfflineError: The display is off.

        UnifiedPOS 1.16, chapter Line Display.
        """
        line = (f"{self._words}displayTextAt {integer(row)} {integer(column)} "
                f"{hexed(text)} {integer(attribute)}").encode()
        answer = self._carry_out(line)
        if answer != OK:
            raise self._refusal(answer, "display_text_at")

    def clear_text(self) -> None:
        """Blanks the display, and sets the cursor to row 0, column 0.

        Raises:
            ClosedError: The control is closed.
            ClaimedError: Another control has claimed the device.
            NotClaimedError: No control has claimed the device.
            DisabledError: The control is disabled.
            FailureError: The display didn't answer.
            OfflineError: The display is off.

        UnifiedPOS 1.16, chapter Line Display.
        """
        answer = self._carry_out(self._call + b"clearText")
        if answer != OK:
            raise self._refusal(answer, "clear_text")

    def scroll_text(self, direction: SupportsIndex, units: SupportsIndex) -> None:
        """Scrolls what the display shows, and leaves blanks behind it; the cursor stays.

        Args:
            direction: Where the text moves. One of DISP_ST_UP, DISP_ST_DOWN, DISP_ST_LEFT, DISP_ST_RIGHT.
            units: How far it moves. 0 to Rows up or down, 0 to Columns left or right.

        Raises:
            ClosedError: The control is closed.
            ClaimedError: Another control has claimed the device.
            NotClaimedError: No control has claimed the device.
            DisabledError: The control is disabled.
            IllegalError: The direction or the units are out of their range.
            FailureError: The display didn't answer.
            OfflineError: The display is off.

        UnifiedPOS 1.16, chapter Line Display.
        """
        answer = self._carry_out(b"%bscrollText %d %d" % (self._call, integer(direction), integer(units)))
        if answer != OK:
            raise self._refusal(answer, "scroll_text")


class POSPrinter(StandardControl):
    """A receipt printer.

    An exclusive-use device: claim it before you enable it.

    UnifiedPOS 1.16, chapter POS Printer.
    """

    __slots__ = ()

    category = "POSPrinter"
    is_exclusive = True

    @property
    def async_mode(self) -> bool:
        """Whether printNormal and cutPaper are queued and done later.

        You can set it.

        Raises:
            ClosedError: The control is closed.

        Raises, when you set it:
            ClosedError: The control is closed.

        UnifiedPOS 1.16, chapter POS Printer.
        """
        answer = self._carry_out(self._get + b"AsyncMode")
        if answer == OK_TRUE:
            return True
        if answer == OK_FALSE:
            return False
        raise self._refusal(answer, "async_mode")

    @async_mode.setter
    def async_mode(self, value: bool) -> None:
        answer = self._carry_out(self._set + f"AsyncMode {truth(value)}".encode())
        if answer != OK:
            raise self._refusal(answer, "async_mode")

    @property
    def output_id(self) -> int:
        """The OutputID of the request that was queued last, or 0 if none was since the control was opened.

        Raises:
            ClosedError: The control is closed.

        UnifiedPOS 1.16, chapter Common Properties, Methods and Events; POS Printer.
        """
        answer = self._carry_out(self._get + b"OutputID")
        if answer[0] != OK_BEGIN:
            raise self._refusal(answer, "output_id")
        return int(answer[3:])

    @property
    def rec_line_chars(self) -> int:
        """How many characters a line of the receipt has.

        It counts characters.

        Raises:
            ClosedError: The control is closed.
            ClaimedError: Another control has claimed the device.
            NotClaimedError: No control has claimed the device.
            DisabledError: The control is disabled.

        UnifiedPOS 1.16, chapter POS Printer.
        """
        answer = self._carry_out(self._get + b"RecLineChars")
        if answer[0] != OK_BEGIN:
            raise self._refusal(answer, "rec_line_chars")
        return int(answer[3:])

    @property
    def cover_open(self) -> bool:
        """Whether the printer's cover is open.

        Raises:
            ClosedError: The control is closed.
            ClaimedError: Another control has claimed the device.
            NotClaimedError: No control has claimed the device.
            DisabledError: The control is disabled.

        UnifiedPOS 1.16, chapter POS Printer.
        """
        answer = self._carry_out(self._get + b"CoverOpen")
        if answer == OK_TRUE:
            return True
        if answer == OK_FALSE:
            return False
        raise self._refusal(answer, "cover_open")

    @property
    def rec_empty(self) -> bool:
        """Whether the receipt has no paper.

        Raises:
            ClosedError: The control is closed.
            ClaimedError: Another control has claimed the device.
            NotClaimedError: No control has claimed the device.
            DisabledError: The control is disabled.

        UnifiedPOS 1.16, chapter POS Printer.
        """
        answer = self._carry_out(self._get + b"RecEmpty")
        if answer == OK_TRUE:
            return True
        if answer == OK_FALSE:
            return False
        raise self._refusal(answer, "rec_empty")

    @property
    def rec_near_end(self) -> bool:
        """Whether the receipt's paper is near its end, or gone.

        Raises:
            ClosedError: The control is closed.
            ClaimedError: Another control has claimed the device.
            NotClaimedError: No control has claimed the device.
            DisabledError: The control is disabled.

        UnifiedPOS 1.16, chapter POS Printer.
        """
        answer = self._carry_out(self._get + b"RecNearEnd")
        if answer == OK_TRUE:
            return True
        if answer == OK_FALSE:
            return False
        raise self._refusal(answer, "rec_near_end")

    def print_normal(self, station: SupportsIndex, data: Text) -> None:
        """Prints data, with its escape sequences; if AsyncMode is true, it is queued and printed later.

        The data counts as printed whole, or not at all; an attached printer may have printed its first lines. An
        asynchronous request gets the next OutputID; an OutputCompleteEvent follows when it is printed.

        Args:
            station: The station; only the receipt is there. Always PTR_S_RECEIPT.
            data: What is printed: bytes 0x20 to 0x7E, line feeds, carriage returns and escape sequences. 0 to 4096
                bytes.

        Raises:
            ClosedError: The control is closed.
            ClaimedError: Another control has claimed the device.
            NotClaimedError: No control has claimed the device.
            DisabledError: The control is disabled.
            IllegalError: The station isn't the receipt; or the data has more than 4,096 bytes, a byte that isn't ASCII
                text, LF, CR or ESC, or a number out of range.
            BusyError: AsyncMode is false, and earlier requests still wait.
            FailureError: The printer didn't answer, or no OutputID is left.
            OfflineError: The printer is off.
            CoverOpenError: The cover is open.
            ReceiptEmptyError: There isn't enough paper.

        UnifiedPOS 1.16, chapter POS Printer.
        """
        answer = self._carry_out(f"{self._words}printNormal {integer(station)} {hexed(data)}".encode())
        if answer != OK:
            raise self._refusal(answer, "print_normal")

    def print_immediate(self, station: SupportsIndex, data: Text) -> None:
        """Prints data at once, before all requests that wait.

        The data counts as printed whole, or not at all; an attached printer may have printed its first lines.

        Args:
            station: The station; only the receipt is there. Always PTR_S_RECEIPT.
            data: What is printed: bytes 0x20 to 0x7E, line feeds, carriage returns and escape sequences. 0 to 4096
                bytes.

        Raises:
            ClosedError: The control is closed.
            ClaimedError: Another control has claimed the device.
            NotClaimedError: No control has claimed the device.
            DisabledError: The control is disabled.
            IllegalError: The station isn't the receipt; or the data has more than 4,096 bytes, a byte that isn't ASCII
                text, LF, CR or ESC, or a number out of range.
            FailureError: The printer didn't answer.
            OfflineError: The printer is off.
            CoverOpenError: The cover is open.
            ReceiptEmptyError: There isn't enough paper.

        UnifiedPOS 1.16, chapter POS Printer.
        """
        answer = self._carry_out(f"{self._words}printImmediate {integer(station)} {hexed(data)}".encode())
        if answer != OK:
            raise self._refusal(answer, "print_immediate")

    def cut_paper(self, percentage: SupportsIndex = PTR_CP_FULLCUT) -> None:
        """Cuts the receipt's paper; if AsyncMode is true, the cut is queued and done later.

        A cut of 0 percent cuts nothing, but still needs a closed cover and paper.

        Args:
            percentage: How much of the paper is cut; PTR_CP_FULLCUT is a full cut. 0 to 100, in percent.

        Raises:
            ClosedError: The control is closed.
            ClaimedError: Another control has claimed the device.
            NotClaimedError: No control has claimed the device.
            DisabledError: The control is disabled.
            IllegalError: The percentage is out of its range.
            BusyError: AsyncMode is false, and earlier requests still wait.
            FailureError: The printer didn't answer, or no OutputID is left.
            OfflineError: The printer is off.
            CoverOpenError: The cover is open.
            ReceiptEmptyError: There is no paper.

        UnifiedPOS 1.16, chapter POS Printer.
        """
        answer = self._carry_out(b"%bcutPaper %d" % (self._call, integer(percentage)))
        if answer != OK:
            raise self._refusal(answer, "cut_paper")

    def clear_output(self) -> None:
        """Deletes the requests that wait and the ErrorEvents of output, and ends the error state of output.

        OutputCompleteEvents stay.

        Raises:
            ClosedError: The control is closed.
            ClaimedError: Another control has claimed the device.
            NotClaimedError: No control has claimed the device.

        UnifiedPOS 1.16, chapter Common Properties, Methods and Events; POS Printer.
        """
        answer = self._carry_out(self._call + b"clearOutput")
        if answer != OK:
            raise self._refusal(answer, "clear_output")


class HardTotals(StandardControl):
    """Hard Totals: small files that survive a loss of power.

    Several controls may share the totals. Enabling the first one recovers the files from the disk. A change is on the
    disk before its call returns.

    UnifiedPOS 1.16, chapter Hard Totals.
    """

    __slots__ = ()

    category = "HardTotals"
    is_exclusive = False

    @property
    def totals_size(self) -> int:
        """How many bytes all files may have together.

        It counts bytes.

        Raises:
            ClosedError: The control is closed.

        UnifiedPOS 1.16, chapter Hard Totals.
        """
        answer = self._carry_out(self._get + b"TotalsSize")
        if answer[0] != OK_BEGIN:
            raise self._refusal(answer, "totals_size")
        return int(answer[3:])

    @property
    def free_data(self) -> int:
        """How many bytes are left for new files, which is TotalsSize less the sizes of all files.

        It counts bytes.

        Raises:
            ClosedError: The control is closed.
            DisabledError: The control is disabled.
            FailureError: The totals are off.

        UnifiedPOS 1.16, chapter Hard Totals.
        """
        answer = self._carry_out(self._get + b"FreeData")
        if answer[0] != OK_BEGIN:
            raise self._refusal(answer, "free_data")
        return int(answer[3:])

    @property
    def number_of_files(self) -> int:
        """How many files there are.

        It counts files.

        Raises:
            ClosedError: The control is closed.
            DisabledError: The control is disabled.
            FailureError: The totals are off.

        UnifiedPOS 1.16, chapter Hard Totals.
        """
        answer = self._carry_out(self._get + b"NumberOfFiles")
        if answer[0] != OK_BEGIN:
            raise self._refusal(answer, "number_of_files")
        return int(answer[3:])

    @property
    def transaction_in_progress(self) -> bool:
        """Whether the control is in a transaction.

        Raises:
            ClosedError: The control is closed.

        UnifiedPOS 1.16, chapter Hard Totals.
        """
        answer = self._carry_out(self._get + b"TransactionInProgress")
        if answer == OK_TRUE:
            return True
        if answer == OK_FALSE:
            return False
        raise self._refusal(answer, "transaction_in_progress")

    @property
    def cap_transactions(self) -> bool:
        """Whether there are transactions: always true.

        Raises:
            ClosedError: The control is closed.

        UnifiedPOS 1.16, chapter Hard Totals.
        """
        answer = self._carry_out(self._get + b"CapTransactions")
        if answer == OK_TRUE:
            return True
        if answer == OK_FALSE:
            return False
        raise self._refusal(answer, "cap_transactions")

    @property
    def cap_single_file(self) -> bool:
        """Whether there may be only one file: always false.

        Raises:
            ClosedError: The control is closed.

        UnifiedPOS 1.16, chapter Hard Totals.
        """
        answer = self._carry_out(self._get + b"CapSingleFile")
        if answer == OK_TRUE:
            return True
        if answer == OK_FALSE:
            return False
        raise self._refusal(answer, "cap_single_file")

    @property
    def cap_error_detection(self) -> bool:
        """Whether error detection can be chosen for a file: always false.

        Raises:
            ClosedError: The control is closed.

        UnifiedPOS 1.16, chapter Hard Totals.
        """
        answer = self._carry_out(self._get + b"CapErrorDetection")
        if answer == OK_TRUE:
            return True
        if answer == OK_FALSE:
            return False
        raise self._refusal(answer, "cap_error_detection")

    def create(self, name: Text, size: SupportsIndex, error_detection: bool = False) -> int:
        """Creates a file whose bytes are all 0, and returns its handle.

        Error detection changes nothing.

        Args:
            name: The new file's name: bytes 0x20 to 0x7F. 1 to 10 bytes.
            size: How many bytes the file has; that never changes. 0 to FreeData, in bytes.
            error_detection: Whether errors in the file are to be detected.

        Returns:
            The new file's handle.

        Raises:
            ClosedError: The control is closed.
            ClaimedError: Another control has claimed the device.
            DisabledError: The control is disabled.
            FailureError: The totals are off.
            IllegalError: The control is in a transaction, the name is bad, or the size is below 0.
            ExistsError: A file has the name.
            NoRoomError: The size is above FreeData, or there are as many files as there may be.
            FailureError: No handle is left, or the sequence of the totals has run out.
            DiskError: The disk failed, and the change may be in the file or not.

        UnifiedPOS 1.16, chapter Hard Totals.
        """
        answer = self._carry_out(f"{self._words}create {hexed(name)} {integer(size)} {truth(error_detection)}".encode())
        if answer[0] != OK_BEGIN:
            raise self._refusal(answer, "create")
        return int(answer[3:])

    def delete(self, name: Text) -> None:
        """Deletes a file; its handle is never used again.

        Args:
            name: The file's name. 1 to 10 bytes.

        Raises:
            ClosedError: The control is closed.
            ClaimedError: Another control has claimed the device.
            DisabledError: The control is disabled.
            FailureError: The totals are off.
            IllegalError: The control is in a transaction.
            NoExistError: No file has the name.
            ClaimedError: Another control has claimed the file.
            FailureError: The sequence of the totals has run out.
            DiskError: The disk failed, and the change may be in the file or not.

        UnifiedPOS 1.16, chapter Hard Totals.
        """
        answer = self._carry_out(f"{self._words}delete {hexed(name)}".encode())
        if answer != OK:
            raise self._refusal(answer, "delete")

    def find(self, name: Text) -> tuple[int, int]:
        """Finds a file by its name, and returns its handle and its size.

        Args:
            name: The file's name. 1 to 10 bytes.

        Returns:
            handle: The file's handle.
            size: How many bytes the file has.

        Raises:
            ClosedError: The control is closed.
            ClaimedError: Another control has claimed the device.
            DisabledError: The control is disabled.
            FailureError: The totals are off.
            NoExistError: No file has the name.

        UnifiedPOS 1.16, chapter Hard Totals.
        """
        answer = self._carry_out(f"{self._words}find {hexed(name)}".encode())
        if answer[0] != OK_BEGIN:
            raise self._refusal(answer, "find")
        first, second = answer[3:].split()
        return int(first), int(second)

    def find_by_index(self, index: SupportsIndex) -> bytes:
        """Returns the name of the file at an index, in the order of creation.

        Args:
            index: The file's index, counted from 0. 0 to NumberOfFiles - 1, in files.

        Returns:
            The file's name.

        Raises:
            ClosedError: The control is closed.
            ClaimedError: Another control has claimed the device.
            DisabledError: The control is disabled.
            FailureError: The totals are off.
            IllegalError: No file is at the index.

        UnifiedPOS 1.16, chapter Hard Totals.
        """
        answer = self._carry_out(b"%bfindByIndex %d" % (self._call, integer(index)))
        if answer[0] != OK_BEGIN:
            raise self._refusal(answer, "find_by_index")
        return unhexlify(answer[3:-1]) if answer != OK_NO_BYTES else b""

    def read(self, handle: Handle, offset: SupportsIndex, count: SupportsIndex) -> bytes:
        """Reads bytes of a file as they are on the disk; what a transaction has buffered isn't among them.

        Args:
            handle: The file's handle.
            offset: Where the bytes begin, counted from 0. The bytes have to be within the file.
            count: How many bytes are read. The bytes have to be within the file.

        Returns:
            The bytes.

        Raises:
            ClosedError: The control is closed.
            ClaimedError: Another control has claimed the device.
            DisabledError: The control is disabled.
            FailureError: The totals are off.
            IllegalError: No file has the handle, or the bytes aren't all within the file.
            ClaimedError: Another control has claimed the file.

        UnifiedPOS 1.16, chapter Hard Totals.
        """
        if type(handle) is not int:
            handle = handle_of(handle)
        answer = self._carry_out(b"%bread %d %d %d" % (self._call, handle, integer(offset), integer(count)))
        if answer[0] != OK_BEGIN:
            raise self._refusal(answer, "read")
        return unhexlify(answer[3:-1]) if answer != OK_NO_BYTES else b""

    def write(self, handle: Handle, offset: SupportsIndex, data: Text) -> None:
        """Writes bytes to a file; in a transaction they are buffered until it is committed.

        Args:
            handle: The file's handle.
            offset: Where the bytes begin, counted from 0. The bytes have to be within the file.
            data: The bytes that are written. The bytes have to be within the file.

        Raises:
            ClosedError: The control is closed.
            ClaimedError: Another control has claimed the device.
            DisabledError: The control is disabled.
            FailureError: The totals are off.
            IllegalError: No file has the handle, or the bytes aren't all within the file.
            ClaimedError: Another control has claimed the file.
            NoRoomError: The transaction has no room for the write.
            FailureError: There is no transaction, and the sequence of the totals has run out.
            DiskError: The disk failed, and the change may be in the file or not.

        UnifiedPOS 1.16, chapter Hard Totals.
        """
        if type(handle) is not int:
            handle = handle_of(handle)
        answer = self._carry_out(f"{self._words}write {handle} {integer(offset)} {hexed(data)}".encode())
        if answer != OK:
            raise self._refusal(answer, "write")

    def set_all(self, handle: Handle, value: SupportsIndex) -> None:
        """Sets all bytes of a file to one value; in a transaction this is buffered until it is committed.

        Args:
            handle: The file's handle.
            value: The value of each byte. 0 to 255.

        Raises:
            ClosedError: The control is closed.
            ClaimedError: Another control has claimed the device.
            DisabledError: The control is disabled.
            FailureError: The totals are off.
            IllegalError: No file has the handle, or the value isn't that of a byte.
            ClaimedError: Another control has claimed the file.
            NoRoomError: The transaction has no room for the change.
            FailureError: There is no transaction, and the sequence of the totals has run out.
            DiskError: The disk failed, and the change may be in the file or not.

        UnifiedPOS 1.16, chapter Hard Totals.
        """
        if type(handle) is not int:
            handle = handle_of(handle)
        answer = self._carry_out(b"%bsetAll %d %d" % (self._call, handle, integer(value)))
        if answer != OK:
            raise self._refusal(answer, "set_all")

    def rename(self, handle: Handle, name: Text) -> None:
        """Gives a file another name.

        Args:
            handle: The file's handle.
            name: The file's new name: bytes 0x20 to 0x7F. 1 to 10 bytes.

        Raises:
            ClosedError: The control is closed.
            ClaimedError: Another control has claimed the device.
            DisabledError: The control is disabled.
            FailureError: The totals are off.
            IllegalError: The control is in a transaction, no file has the handle, or the name is bad.
            ExistsError: A file has the name, be it this one.
            ClaimedError: Another control has claimed the file.
            FailureError: The sequence of the totals has run out.
            DiskError: The disk failed, and the change may be in the file or not.

        UnifiedPOS 1.16, chapter Hard Totals.
        """
        if type(handle) is not int:
            handle = handle_of(handle)
        answer = self._carry_out(f"{self._words}rename {handle} {hexed(name)}".encode())
        if answer != OK:
            raise self._refusal(answer, "rename")

    def claim_file(self, handle: Handle, timeout: SupportsIndex = 0) -> None:
        """Claims a file, which keeps other controls from reading and changing it.

        The call never waits: if another control has the file, it fails at once.

        Args:
            handle: The file's handle.
            timeout: How long the claim may take; UPOS_FOREVER is without end. At least -1, in milliseconds.

        Raises:
            ClosedError: The control is closed.
            DisabledError: The control is disabled.
            FailureError: The totals are off.
            IllegalError: No file has the handle, or the timeout is below -1.
            kijolvar.TimeoutError: Another control has claimed the file or the device.

        UnifiedPOS 1.16, chapter Hard Totals.
        """
        if type(handle) is not int:
            handle = handle_of(handle)
        answer = self._carry_out(b"%bclaimFile %d %d" % (self._call, handle, integer(timeout)))
        if answer != OK:
            raise self._refusal(answer, "claim_file")

    def release_file(self, handle: Handle) -> None:
        """Releases a file that the control has claimed.

        Args:
            handle: The file's handle.

        Raises:
            ClosedError: The control is closed.
            DisabledError: The control is disabled.
            FailureError: The totals are off.
            IllegalError: No file has the handle, or the control hasn't claimed it.

        UnifiedPOS 1.16, chapter Hard Totals.
        """
        if type(handle) is not int:
            handle = handle_of(handle)
        answer = self._carry_out(b"%breleaseFile %d" % (self._call, handle))
        if answer != OK:
            raise self._refusal(answer, "release_file")

    def begin_trans(self) -> None:
        """Begins a transaction: writes are buffered until it is committed or rolled back.

        Raises:
            ClosedError: The control is closed.
            DisabledError: The control is disabled.
            FailureError: The totals are off.
            IllegalError: The control is in a transaction already.

        UnifiedPOS 1.16, chapter Hard Totals.
        """
        answer = self._carry_out(self._call + b"beginTrans")
        if answer != OK:
            raise self._refusal(answer, "begin_trans")

    def commit_trans(self) -> None:
        """Ends the transaction, and makes its changes all together; a loss of power leaves all of them or none.

        Raises:
            ClosedError: The control is closed.
            ClaimedError: Another control has claimed the device.
            DisabledError: The control is disabled.
            FailureError: The totals are off.
            IllegalError: The control is in no transaction.
            NoExistError: A file of the transaction was deleted.
            ClaimedError: Another control has claimed a file of the transaction.
            FailureError: The sequence of the totals has run out; the transaction stays.
            DiskError: The disk failed, and the change may be in the file or not.

        UnifiedPOS 1.16, chapter Hard Totals.
        """
        answer = self._carry_out(self._call + b"commitTrans")
        if answer != OK:
            raise self._refusal(answer, "commit_trans")

    def rollback(self) -> None:
        """Ends the transaction, and drops its changes.

        Raises:
            ClosedError: The control is closed.
            DisabledError: The control is disabled.
            FailureError: The totals are off.
            IllegalError: The control is in no transaction.

        UnifiedPOS 1.16, chapter Hard Totals.
        """
        answer = self._carry_out(self._call + b"rollback")
        if answer != OK:
            raise self._refusal(answer, "rollback")
