"""A till's devices: cash drawer, scanner, line display, receipt printer and Hard Totals, by UnifiedPOS 1.16.

    import kijolvar

    with kijolvar.open(totals="till.totals", create=True) as till:
        till.drawer("d1").open_drawer()
        with till.printer("r1").in_use() as printer:
            printer.print("Bread 4.50\\n")
        totals = till.totals("t1")
        if "SALES" not in totals:
            totals.create("SALES", 4)
        with totals.transaction():
            totals["SALES"].write(0, b"\\x00\\x00\\x01\\xc2")

The methods, properties, events and codes have the standard's names, in Python's spelling: `openDrawer` is
`open_drawer`, `DataEventEnabled` is `data_event_enabled`, and E_ILLEGAL raises IllegalError. Each says in its help what
it does, its ranges, its errors, and the standard's chapter.

A till can be used only in the thread that opened it.
"""
from . import _constants, errors
from ._constants import *
from ._control import Claim, Control
from ._controls import CashDrawer, HardTotals, LineDisplay, POSPrinter, Scanner, StandardControl
from ._devices import (Device, DisplayView, DrawerView, Order, PrintedCut, PrintedLine, PrinterView, ScannerView,
                       WorkDone, WorkFailed)
from ._events import DataEvent, ErrorEvent, Event, OutputCompleteEvent, StatusUpdateEvent
from ._files import open_totals
from ._library import find as load
from .drivers import Driver, EscPosDrawer, EscPosPrinter, Scan, SerialDisplay, WedgeScanner
from ._questions import ProfileDevice, TotalsContents, backup, check, devices, files, migrate
from ._wire import JOB_DRAWER, JOB_PAPER, Asked, Reply, WireSettings
from .errors import *
from .ports import FilePort, Port, PortError, SerialPort, TcpPort, port_of
from .till import Printer, Till, create_totals, open
from .totals import FileClaim, Totals, TotalsFile

__version__ = "0.1.0"

__all__ = [
    "Asked", "CashDrawer", "Claim", "Control", "DataEvent", "Device", "DisplayView", "DrawerView", "Driver",
    "ErrorEvent", "EscPosDrawer", "EscPosPrinter", "Event", "FileClaim", "FilePort", "HardTotals", "JOB_DRAWER",
    "JOB_PAPER", "LineDisplay", "Order", "OutputCompleteEvent", "POSPrinter", "Port", "PortError", "PrintedCut",
    "PrintedLine", "Printer", "PrinterView", "ProfileDevice", "Reply", "Scan", "Scanner", "ScannerView",
    "SerialDisplay", "SerialPort", "StandardControl", "StatusUpdateEvent", "TcpPort", "Till", "Totals",
    "TotalsContents", "TotalsFile", "WedgeScanner", "WireSettings", "WorkDone", "WorkFailed", "backup", "check",
    "create_totals", "devices", "files", "load", "migrate", "open", "open_totals", "port_of",
]
__all__ += _constants.__all__
__all__ += errors.__all__
