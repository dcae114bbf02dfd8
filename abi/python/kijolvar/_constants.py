"""The numbers of the standard and of the library.

Written by abi/python/generate.py: don't change it by hand.
"""
from __future__ import annotations

import enum
from typing import Final


KIJOLVAR_VERSION: Final = 2
KIJOLVAR_DISK_LENGTH: Final = 327680
KIJOLVAR_OK: Final = 0
KIJOLVAR_NO_MEMORY: Final = 1
KIJOLVAR_BAD_PROFILE: Final = 2
KIJOLVAR_SHORT: Final = 3
KIJOLVAR_CUT: Final = 4
KIJOLVAR_ERRANDS: Final = 5
KIJOLVAR_UNDONE: Final = 6
KIJOLVAR_DISK_FAILED: Final = 7
KIJOLVAR_FORMATTED: Final = 8
KIJOLVAR_TOO_SMALL: Final = 9
KIJOLVAR_WRITE: Final = 10
KIJOLVAR_SYNC: Final = 11
KIJOLVAR_ORDER: Final = 12
KIJOLVAR_NO_DEVICE: Final = 13
KIJOLVAR_BAD_TEXT: Final = 14
KIJOLVAR_UNFORMATTED: Final = 15
KIJOLVAR_DAMAGED: Final = 16
KIJOLVAR_MOVED: Final = 17
KIJOLVAR_EVENT: Final = 18
KIJOLVAR_NO_CONTROL: Final = 19
KIJOLVAR_WAITS: Final = 20
KIJOLVAR_NO_ORDER: Final = 21
KIJOLVAR_BAD_SETTINGS: Final = 22


E_SUCCESS: Final = 0
E_CLOSED: Final = 101
E_CLAIMED: Final = 102
E_NOTCLAIMED: Final = 103
E_NOSERVICE: Final = 104
E_DISABLED: Final = 105
E_ILLEGAL: Final = 106
E_NOHARDWARE: Final = 107
E_OFFLINE: Final = 108
E_NOEXIST: Final = 109
E_EXISTS: Final = 110
E_FAILURE: Final = 111
E_TIMEOUT: Final = 112
E_BUSY: Final = 113
E_EXTENDED: Final = 114
ETOT_NOROOM: Final = 201
EPTR_COVER_OPEN: Final = 201
EPTR_REC_EMPTY: Final = 203


class State(enum.IntEnum):
    """The values of State.

    UnifiedPOS 1.16, chapter Common Properties, Methods and Events.
    """

    S_CLOSED = 1
    """The control is closed."""
    S_IDLE = 2
    """The control is open, and nothing waits."""
    S_BUSY = 3
    """Output waits."""
    S_ERROR = 4
    """The control is in an error state of input or output."""


class DrawerStatus(enum.IntEnum):
    """The statuses of a cash drawer, in StatusUpdateEvents.

    UnifiedPOS 1.16, chapter Cash Drawer.
    """

    CASH_SUE_DRAWERCLOSED = 0
    """The drawer is closed."""
    CASH_SUE_DRAWEROPEN = 1
    """The drawer is open."""


class PrinterStatus(enum.IntEnum):
    """The statuses of a receipt printer, in StatusUpdateEvents.

    UnifiedPOS 1.16, chapter POS Printer.
    """

    PTR_SUE_COVER_OPEN = 11
    """The cover is open."""
    PTR_SUE_COVER_OK = 12
    """The cover is closed."""
    PTR_SUE_REC_EMPTY = 24
    """There is no paper."""
    PTR_SUE_REC_NEAREMPTY = 25
    """The paper is near its end."""
    PTR_SUE_REC_PAPEROK = 26
    """There is enough paper."""


class PowerStatus(enum.IntEnum):
    """The statuses of a device's power, in StatusUpdateEvents.

    UnifiedPOS 1.16, chapter Common Properties, Methods and Events.
    """

    SUE_POWER_ONLINE = 2001
    """The device is on."""
    SUE_POWER_OFF_OFFLINE = 2004
    """The device is off."""


class PowerReporting(enum.IntEnum):
    """The values of CapPowerReporting.

    UnifiedPOS 1.16, chapter Common Properties, Methods and Events.
    """

    PR_NONE = 0
    """The device doesn't report its power."""
    PR_STANDARD = 1
    """The device reports if it is on or off."""


class PowerNotify(enum.IntEnum):
    """The values of PowerNotify.

    UnifiedPOS 1.16, chapter Common Properties, Methods and Events.
    """

    PN_DISABLED = 0
    """The control gets no events of the device's power."""
    PN_ENABLED = 1
    """The control gets events of the device's power."""


class PowerState(enum.IntEnum):
    """The values of PowerState.

    UnifiedPOS 1.16, chapter Common Properties, Methods and Events.
    """

    PS_UNKNOWN = 2000
    """The control is disabled, or PowerNotify is PN_DISABLED."""
    PS_ONLINE = 2001
    """The device is on."""
    PS_OFF_OFFLINE = 2004
    """The device is off."""


class ErrorLocus(enum.IntEnum):
    """Where an error is, in ErrorEvents.

    UnifiedPOS 1.16, chapter Common Properties, Methods and Events.
    """

    EL_OUTPUT = 1
    """Output failed."""
    EL_INPUT = 2
    """Input failed, and no earlier input is held any more."""
    EL_INPUT_DATA = 3
    """Input failed, and earlier input is still held."""


class ScanDataType(enum.IntEnum):
    """Types of bar codes (ScanDataType). The standard has others, and a scan may have any of 0 to 999.

    UnifiedPOS 1.16, chapter Scanner (Bar Code Reader).
    """

    SCAN_SDT_UNKNOWN = 0
    """It isn't known."""
    SCAN_SDT_UPCA = 101
    """UPC-A; with an AIM identifier it comes as EAN-13."""
    SCAN_SDT_UPCE = 102
    """UPC-E; with an AIM identifier it comes as EAN-13."""
    SCAN_SDT_EAN8 = 103
    """EAN-8."""
    SCAN_SDT_EAN13 = 104
    """EAN-13."""
    SCAN_SDT_TF = 105
    """2 of 5."""
    SCAN_SDT_ITF = 106
    """Interleaved 2 of 5."""
    SCAN_SDT_Codabar = 107
    """Codabar."""
    SCAN_SDT_Code39 = 108
    """Code 39."""
    SCAN_SDT_Code93 = 109
    """Code 93."""
    SCAN_SDT_Code128 = 110
    """Code 128."""
    SCAN_SDT_EAN13_S = 119
    """EAN-13 with a supplement."""
    SCAN_SDT_EAN128 = 120
    """GS1-128."""
    SCAN_SDT_OCRA = 121
    """OCR-A."""
    SCAN_SDT_OCRB = 122
    """OCR-B."""
    SCAN_SDT_GS1DATABAR = 131
    """GS1 DataBar."""
    SCAN_SDT_PDF417 = 201
    """PDF417."""
    SCAN_SDT_MAXICODE = 202
    """MaxiCode."""
    SCAN_SDT_DATAMATRIX = 203
    """Data Matrix."""
    SCAN_SDT_QRCODE = 204
    """QR Code."""
    SCAN_SDT_AZTEC = 206
    """Aztec Code."""
    SCAN_SDT_OTHER = 501
    """Another type."""


class DisplayAttribute(enum.IntEnum):
    """How a line display shows characters.

    UnifiedPOS 1.16, chapter Line Display.
    """

    DISP_DT_NORMAL = 0
    """Plain."""
    DISP_DT_BLINK = 1
    """Blinking."""
    DISP_DT_REVERSE = 2
    """Reverse."""
    DISP_DT_BLINK_REVERSE = 3
    """Blinking and reverse."""


class ScrollDirection(enum.IntEnum):
    """Where scrollText moves the text.

    UnifiedPOS 1.16, chapter Line Display.
    """

    DISP_ST_UP = 1
    """Up."""
    DISP_ST_DOWN = 2
    """Down."""
    DISP_ST_LEFT = 3
    """To the left."""
    DISP_ST_RIGHT = 4
    """To the right."""


class PrinterStation(enum.IntEnum):
    """The stations of a printer.

    UnifiedPOS 1.16, chapter POS Printer.
    """

    PTR_S_RECEIPT = 2
    """The receipt."""


class PaperCut(enum.IntEnum):
    """Percentages of cutPaper with a name.

    UnifiedPOS 1.16, chapter POS Printer.
    """

    PTR_CP_FULLCUT = 100
    """A full cut."""


class Timeout(enum.IntEnum):
    """Timeouts with a name.

    UnifiedPOS 1.16, chapter Common Properties, Methods and Events.
    """

    UPOS_FOREVER = -1
    """Without end."""


class ErrorReply(enum.Enum):
    """The replies to an ErrorEvent.

    UnifiedPOS 1.16, chapter Common Properties, Methods and Events.
    """

    ER_RETRY = "retry"
    """Tries the output again; at EL_INPUT_DATA it continues, and at EL_INPUT it clears."""
    ER_CLEAR = "clear"
    """Deletes the input that is held, or the output that waits."""
    ER_CONTINUEINPUT = "continue"
    """Delivers the input that is held; at EL_INPUT it clears, and at EL_OUTPUT it tries again."""


S_CLOSED: Final = State.S_CLOSED
S_IDLE: Final = State.S_IDLE
S_BUSY: Final = State.S_BUSY
S_ERROR: Final = State.S_ERROR
CASH_SUE_DRAWERCLOSED: Final = DrawerStatus.CASH_SUE_DRAWERCLOSED
CASH_SUE_DRAWEROPEN: Final = DrawerStatus.CASH_SUE_DRAWEROPEN
PTR_SUE_COVER_OPEN: Final = PrinterStatus.PTR_SUE_COVER_OPEN
PTR_SUE_COVER_OK: Final = PrinterStatus.PTR_SUE_COVER_OK
PTR_SUE_REC_EMPTY: Final = PrinterStatus.PTR_SUE_REC_EMPTY
PTR_SUE_REC_NEAREMPTY: Final = PrinterStatus.PTR_SUE_REC_NEAREMPTY
PTR_SUE_REC_PAPEROK: Final = PrinterStatus.PTR_SUE_REC_PAPEROK
SUE_POWER_ONLINE: Final = PowerStatus.SUE_POWER_ONLINE
SUE_POWER_OFF_OFFLINE: Final = PowerStatus.SUE_POWER_OFF_OFFLINE
PR_NONE: Final = PowerReporting.PR_NONE
PR_STANDARD: Final = PowerReporting.PR_STANDARD
PN_DISABLED: Final = PowerNotify.PN_DISABLED
PN_ENABLED: Final = PowerNotify.PN_ENABLED
PS_UNKNOWN: Final = PowerState.PS_UNKNOWN
PS_ONLINE: Final = PowerState.PS_ONLINE
PS_OFF_OFFLINE: Final = PowerState.PS_OFF_OFFLINE
EL_OUTPUT: Final = ErrorLocus.EL_OUTPUT
EL_INPUT: Final = ErrorLocus.EL_INPUT
EL_INPUT_DATA: Final = ErrorLocus.EL_INPUT_DATA
SCAN_SDT_UNKNOWN: Final = ScanDataType.SCAN_SDT_UNKNOWN
SCAN_SDT_UPCA: Final = ScanDataType.SCAN_SDT_UPCA
SCAN_SDT_UPCE: Final = ScanDataType.SCAN_SDT_UPCE
SCAN_SDT_EAN8: Final = ScanDataType.SCAN_SDT_EAN8
SCAN_SDT_EAN13: Final = ScanDataType.SCAN_SDT_EAN13
SCAN_SDT_TF: Final = ScanDataType.SCAN_SDT_TF
SCAN_SDT_ITF: Final = ScanDataType.SCAN_SDT_ITF
SCAN_SDT_Codabar: Final = ScanDataType.SCAN_SDT_Codabar
SCAN_SDT_Code39: Final = ScanDataType.SCAN_SDT_Code39
SCAN_SDT_Code93: Final = ScanDataType.SCAN_SDT_Code93
SCAN_SDT_Code128: Final = ScanDataType.SCAN_SDT_Code128
SCAN_SDT_EAN13_S: Final = ScanDataType.SCAN_SDT_EAN13_S
SCAN_SDT_EAN128: Final = ScanDataType.SCAN_SDT_EAN128
SCAN_SDT_OCRA: Final = ScanDataType.SCAN_SDT_OCRA
SCAN_SDT_OCRB: Final = ScanDataType.SCAN_SDT_OCRB
SCAN_SDT_GS1DATABAR: Final = ScanDataType.SCAN_SDT_GS1DATABAR
SCAN_SDT_PDF417: Final = ScanDataType.SCAN_SDT_PDF417
SCAN_SDT_MAXICODE: Final = ScanDataType.SCAN_SDT_MAXICODE
SCAN_SDT_DATAMATRIX: Final = ScanDataType.SCAN_SDT_DATAMATRIX
SCAN_SDT_QRCODE: Final = ScanDataType.SCAN_SDT_QRCODE
SCAN_SDT_AZTEC: Final = ScanDataType.SCAN_SDT_AZTEC
SCAN_SDT_OTHER: Final = ScanDataType.SCAN_SDT_OTHER
DISP_DT_NORMAL: Final = DisplayAttribute.DISP_DT_NORMAL
DISP_DT_BLINK: Final = DisplayAttribute.DISP_DT_BLINK
DISP_DT_REVERSE: Final = DisplayAttribute.DISP_DT_REVERSE
DISP_DT_BLINK_REVERSE: Final = DisplayAttribute.DISP_DT_BLINK_REVERSE
DISP_ST_UP: Final = ScrollDirection.DISP_ST_UP
DISP_ST_DOWN: Final = ScrollDirection.DISP_ST_DOWN
DISP_ST_LEFT: Final = ScrollDirection.DISP_ST_LEFT
DISP_ST_RIGHT: Final = ScrollDirection.DISP_ST_RIGHT
PTR_S_RECEIPT: Final = PrinterStation.PTR_S_RECEIPT
PTR_CP_FULLCUT: Final = PaperCut.PTR_CP_FULLCUT
UPOS_FOREVER: Final = Timeout.UPOS_FOREVER
ER_RETRY: Final = ErrorReply.ER_RETRY
ER_CLEAR: Final = ErrorReply.ER_CLEAR
ER_CONTINUEINPUT: Final = ErrorReply.ER_CONTINUEINPUT

__all__ = [
    "CASH_SUE_DRAWERCLOSED", "CASH_SUE_DRAWEROPEN", "DISP_DT_BLINK", "DISP_DT_BLINK_REVERSE", "DISP_DT_NORMAL",
    "DISP_DT_REVERSE", "DISP_ST_DOWN", "DISP_ST_LEFT", "DISP_ST_RIGHT", "DISP_ST_UP", "DisplayAttribute",
    "DrawerStatus", "EL_INPUT", "EL_INPUT_DATA", "EL_OUTPUT", "EPTR_COVER_OPEN", "EPTR_REC_EMPTY", "ER_CLEAR",
    "ER_CONTINUEINPUT", "ER_RETRY", "ETOT_NOROOM", "E_BUSY", "E_CLAIMED", "E_CLOSED", "E_DISABLED", "E_EXISTS",
    "E_EXTENDED", "E_FAILURE", "E_ILLEGAL", "E_NOEXIST", "E_NOHARDWARE", "E_NOSERVICE", "E_NOTCLAIMED", "E_OFFLINE",
    "E_SUCCESS", "E_TIMEOUT", "ErrorLocus", "ErrorReply", "KIJOLVAR_BAD_PROFILE", "KIJOLVAR_BAD_SETTINGS",
    "KIJOLVAR_BAD_TEXT", "KIJOLVAR_CUT", "KIJOLVAR_DAMAGED", "KIJOLVAR_DISK_FAILED", "KIJOLVAR_DISK_LENGTH",
    "KIJOLVAR_ERRANDS", "KIJOLVAR_EVENT", "KIJOLVAR_FORMATTED", "KIJOLVAR_MOVED", "KIJOLVAR_NO_CONTROL",
    "KIJOLVAR_NO_DEVICE", "KIJOLVAR_NO_MEMORY", "KIJOLVAR_NO_ORDER", "KIJOLVAR_OK", "KIJOLVAR_ORDER", "KIJOLVAR_SHORT",
    "KIJOLVAR_SYNC", "KIJOLVAR_TOO_SMALL", "KIJOLVAR_UNDONE", "KIJOLVAR_UNFORMATTED", "KIJOLVAR_VERSION",
    "KIJOLVAR_WAITS", "KIJOLVAR_WRITE", "PN_DISABLED", "PN_ENABLED", "PR_NONE", "PR_STANDARD", "PS_OFF_OFFLINE",
    "PS_ONLINE", "PS_UNKNOWN", "PTR_CP_FULLCUT", "PTR_SUE_COVER_OK", "PTR_SUE_COVER_OPEN", "PTR_SUE_REC_EMPTY",
    "PTR_SUE_REC_NEAREMPTY", "PTR_SUE_REC_PAPEROK", "PTR_S_RECEIPT", "PaperCut", "PowerNotify", "PowerReporting",
    "PowerState", "PowerStatus", "PrinterStation", "PrinterStatus", "SCAN_SDT_AZTEC", "SCAN_SDT_Codabar",
    "SCAN_SDT_Code128", "SCAN_SDT_Code39", "SCAN_SDT_Code93", "SCAN_SDT_DATAMATRIX", "SCAN_SDT_EAN128",
    "SCAN_SDT_EAN13", "SCAN_SDT_EAN13_S", "SCAN_SDT_EAN8", "SCAN_SDT_GS1DATABAR", "SCAN_SDT_ITF", "SCAN_SDT_MAXICODE",
    "SCAN_SDT_OCRA", "SCAN_SDT_OCRB", "SCAN_SDT_OTHER", "SCAN_SDT_PDF417", "SCAN_SDT_QRCODE", "SCAN_SDT_TF",
    "SCAN_SDT_UNKNOWN", "SCAN_SDT_UPCA", "SCAN_SDT_UPCE", "SUE_POWER_OFF_OFFLINE", "SUE_POWER_ONLINE", "S_BUSY",
    "S_CLOSED", "S_ERROR", "S_IDLE", "ScanDataType", "ScrollDirection", "State", "Timeout", "UPOS_FOREVER",
]
