"""The exceptions: one for each code of the standard, and what else goes wrong.

Written by abi/python/generate.py: don't change it by hand.
"""
from __future__ import annotations

from ._faults import (DamagedError, DiskError, DriverError, Error, ExchangeError, FormattedError, InCallError,
                      InOrderError, InputError, LibraryError, LibraryFault, LineError, MovedError, NameInUseError,
                      NoDeviceError, NoMemoryError, NoOrderError, ProfileError, SettingsError, ThreadError,
                      TillClosedError, TooManyControlsError, TooSmallError, UnformattedError, UposError)


class ClosedError(UposError):
    """E_CLOSED (101): the control is closed.

    UnifiedPOS 1.16, chapter Common Properties, Methods and Events.
    """

    name = "E_CLOSED"
    summary = "The control is closed."


class ClaimedError(UposError):
    """E_CLAIMED (102): another control has claimed the device or the file.

    UnifiedPOS 1.16, chapter Common Properties, Methods and Events.
    """

    name = "E_CLAIMED"
    summary = "Another control has claimed the device or the file."


class NotClaimedError(UposError):
    """E_NOTCLAIMED (103): the device has to be claimed first.

    UnifiedPOS 1.16, chapter Common Properties, Methods and Events.
    """

    name = "E_NOTCLAIMED"
    summary = "The device has to be claimed first."


class NoServiceError(UposError):
    """E_NOSERVICE (104): no peripheral is attached to the device.

    UnifiedPOS 1.16, chapter Common Properties, Methods and Events.
    """

    name = "E_NOSERVICE"
    summary = "No peripheral is attached to the device."


class DisabledError(UposError):
    """E_DISABLED (105): the device has to be enabled first.

    UnifiedPOS 1.16, chapter Common Properties, Methods and Events.
    """

    name = "E_DISABLED"
    summary = "The device has to be enabled first."


class IllegalError(UposError):
    """E_ILLEGAL (106): an argument is out of its range, or the control's state doesn't allow the call.

    UnifiedPOS 1.16, chapter Common Properties, Methods and Events.
    """

    name = "E_ILLEGAL"
    summary = "An argument is out of its range, or the control's state doesn't allow the call."


class NoHardwareError(UposError):
    """E_NOHARDWARE (107): the device can't be used: the disk of the totals isn't formatted.

    UnifiedPOS 1.16, chapter Common Properties, Methods and Events.
    """

    name = "E_NOHARDWARE"
    summary = "The device can't be used: the disk of the totals isn't formatted."


class OfflineError(UposError):
    """E_OFFLINE (108): the device is off.

    UnifiedPOS 1.16, chapter Common Properties, Methods and Events.
    """

    name = "E_OFFLINE"
    summary = "The device is off."


class NoExistError(UposError, KeyError):
    """E_NOEXIST (109): there is no device or file of that name.

    UnifiedPOS 1.16, chapter Common Properties, Methods and Events.
    """

    name = "E_NOEXIST"
    summary = "There is no device or file of that name."


class ExistsError(UposError):
    """E_EXISTS (110): there is a file of that name already.

    UnifiedPOS 1.16, chapter Common Properties, Methods and Events.
    """

    name = "E_EXISTS"
    summary = "There is a file of that name already."


class FailureError(UposError):
    """E_FAILURE (111): the device failed, or the totals are off. A failed disk is a DiskError.

    UnifiedPOS 1.16, chapter Common Properties, Methods and Events.
    """

    name = "E_FAILURE"
    summary = "The device or the disk failed."


class TimeoutError(UposError):
    """E_TIMEOUT (112): another control has the device or the file, so the claim failed.

    UnifiedPOS 1.16, chapter Common Properties, Methods and Events.
    """

    name = "E_TIMEOUT"
    summary = "Another control has the device or the file, so the claim failed."


class BusyError(UposError):
    """E_BUSY (113): earlier requests still wait, so a synchronous one is refused.

    UnifiedPOS 1.16, chapter Common Properties, Methods and Events.
    """

    name = "E_BUSY"
    summary = "Earlier requests still wait, so a synchronous one is refused."


class ExtendedError(UposError):
    """E_EXTENDED (114): the extended code says what is wrong.

    UnifiedPOS 1.16, chapter Common Properties, Methods and Events.
    """

    name = "E_EXTENDED"
    summary = "The extended code says what is wrong."


class NoRoomError(ExtendedError):
    """ETOT_NOROOM (201): the totals have no room for the file, or the transaction has none for the change.

    UnifiedPOS 1.16, chapter Hard Totals.
    """

    name = "ETOT_NOROOM"
    summary = "The totals have no room for the file, or the transaction has none for the change."


class CoverOpenError(ExtendedError):
    """EPTR_COVER_OPEN (201): the printer's cover is open.

    UnifiedPOS 1.16, chapter POS Printer.
    """

    name = "EPTR_COVER_OPEN"
    summary = "The printer's cover is open."


class ReceiptEmptyError(ExtendedError):
    """EPTR_REC_EMPTY (203): the receipt doesn't have enough paper.

    UnifiedPOS 1.16, chapter POS Printer.
    """

    name = "EPTR_REC_EMPTY"
    summary = "The receipt doesn't have enough paper."


BY_CODE: dict[int, type[UposError]] = {
    101: ClosedError,
    102: ClaimedError,
    103: NotClaimedError,
    104: NoServiceError,
    105: DisabledError,
    106: IllegalError,
    107: NoHardwareError,
    108: OfflineError,
    109: NoExistError,
    110: ExistsError,
    111: FailureError,
    112: TimeoutError,
    113: BusyError,
    114: ExtendedError,
}
BY_EXTENDED: dict[tuple[str, int], type[UposError]] = {
    ("HardTotals", 201): NoRoomError,
    ("POSPrinter", 201): CoverOpenError,
    ("POSPrinter", 203): ReceiptEmptyError,
}

__all__ = [
    "BusyError", "ClaimedError", "ClosedError", "CoverOpenError", "DamagedError", "DisabledError", "DiskError",
    "DriverError", "Error", "ExchangeError", "ExistsError", "ExtendedError", "FailureError", "FormattedError",
    "IllegalError", "InCallError", "InOrderError", "InputError", "LibraryError", "LibraryFault", "LineError",
    "MovedError", "NameInUseError", "NoDeviceError", "NoExistError", "NoHardwareError", "NoMemoryError", "NoOrderError",
    "NoRoomError", "NoServiceError", "NotClaimedError", "OfflineError", "ProfileError", "ReceiptEmptyError",
    "SettingsError", "ThreadError", "TillClosedError", "TimeoutError", "TooManyControlsError", "TooSmallError",
    "UnformattedError", "UposError",
]
