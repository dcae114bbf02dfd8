"""Emulated devices on a pseudo terminal or a TCP port: a receipt printer with a drawer, a customer display, a scanner.

They read the commands of ESC/POS and CD5220 by a reader of their own, and never use the library or its package. A test
calls their methods to open a cover, use up the paper, pull a plug or make them silent, also in the middle of an order.
`python3 tests/emulator printer --path PATH` runs one by itself (see __main__.py).
"""
from .cables import PtyCable, SilentHost, TcpCable
from .device import take_unknown
from .display import Display
from .printer import Cut, Feed, HearingPrinter, LatePrinter, Line, Printer, first_strange
from .scanner import Scanner

__all__ = ["Cut", "Display", "Feed", "HearingPrinter", "LatePrinter", "Line", "Printer", "PtyCable", "Scanner",
           "SilentHost", "TcpCable", "first_strange", "take_unknown"]
