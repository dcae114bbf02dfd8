#!/usr/bin/env python3
"""Rings up a sale: scan, show, pay, print, and the day's totals in a file. Usage: sale.py FILE

The file is created if it is missing. The library is found as `help("kijolvar.open")` says.
"""
import pathlib
import sys

sys.path.insert(0, str(pathlib.Path(__file__).resolve().parent.parent / "abi/python"))

import kijolvar
from kijolvar import (ER_CLEAR, ER_RETRY, SCAN_SDT_EAN13, DataEvent, ErrorEvent, OutputCompleteEvent,
                      StatusUpdateEvent)

PROFILE = """
device = [
    { name = "drawer", category = "CashDrawer" },
    { name = "scanner", category = "Scanner" },
    { name = "display", category = "LineDisplay", rows = 2, columns = 20 },
    { name = "printer", category = "POSPrinter", chars = 20, lines = 2, near = 1 },
    { name = "totals", category = "HardTotals" },
]
"""
ARTICLES = {b"4006381": ("Bread", 450), b"4006398": ("Milk", 139)}


def row(text, cents):
    return f"{text:<13}{cents // 100:4}.{cents % 100:02}"


def scan(till, scanner, display):
    """Returns what the customer buys. A scan that fails drops those before it, and the article is scanned again."""
    basket = []
    at_scanner = till.device("scanner")

    @scanner.listen
    def heard(event):
        if isinstance(event, ErrorEvent):
            print(f"scanner: ErrorEvent {event.code} {event.extended} {event.locus}: clear")
            return ER_CLEAR
        if isinstance(event, DataEvent):
            basket.append(ARTICLES[scanner.scan_data_label])
            display.clear_text()
            display.display_text(row(*basket[-1]) + row("Total", sum(price for _, price in basket)))
            scanner.data_event_enabled = True

    scanner.decode_data = scanner.data_event_enabled = True
    at_scanner.scan(SCAN_SDT_EAN13, "4006381", "4006381")
    till.deliver()
    at_scanner.scan(SCAN_SDT_EAN13, "4006398", "4006398")
    at_scanner.scan_fault()
    till.deliver()
    at_scanner.scan(SCAN_SDT_EAN13, "4006398", "4006398")
    till.deliver()
    print("display:", till.device("display").show().characters.decode())
    return basket


def print_receipt(till, printer, basket):
    """Prints the receipt while the sale goes on. The paper runs out, and is loaded."""
    at_printer = till.device("printer")

    @printer.listen
    def heard(event):
        if isinstance(event, ErrorEvent):
            print(f"printer: ErrorEvent {event.code} {event.extended} {event.locus}: retry")
            at_printer.paper(100)
            return ER_RETRY
        if isinstance(event, OutputCompleteEvent):
            print(f"printer: OutputCompleteEvent {event.output_id}")
        if isinstance(event, StatusUpdateEvent):
            print(f"printer: StatusUpdateEvent {event.status}")

    printer.async_mode = True
    printer.print("".join(row(*article) + "\n" for article in [*basket, ("Total", sum(cents for _, cents in basket))]))
    while at_printer.work() is not None:
        till.deliver()
    for line in at_printer.show().items:
        print("receipt:", line.characters.decode())


def book(totals, cents):
    """Adds the sale to the day's totals: both files, or none."""
    for name in ("SALES", "COUNT"):
        if name not in totals:
            totals.create(name, 8)
    with totals.transaction():
        for name, more in (("SALES", cents), ("COUNT", 1)):
            file = totals[name]
            file.write(0, (int.from_bytes(file.read(), "big") + more).to_bytes(8, "big"))


def report(totals):
    for file in totals.files():
        print(f"totals: {file.name.decode()} {int.from_bytes(file.read(), 'big')}")


def sell(till):
    with (till.scanner("scanner").in_use() as scanner, till.display("display").in_use() as display,
          till.printer("printer").in_use() as printer):
        basket = scan(till, scanner, display)
        drawer = till.drawer("drawer")
        drawer.open_drawer()
        print("drawer:", *(f"StatusUpdateEvent {event.status}" for event in drawer.events()))
        book(till.totals("totals"), sum(cents for _, cents in basket))
        print_receipt(till, printer, basket)
        till.device("printer").cover(is_open=True)
        try:
            printer.print_immediate(kijolvar.PTR_S_RECEIPT, "Thank you")
        except kijolvar.CoverOpenError as fault:
            print("print_immediate:", fault.code, fault.extended)


def main():
    try:
        kijolvar.open(PROFILE.replace("rows = 2", "rows = 9"))
    except kijolvar.ProfileError as fault:
        print("profile:", fault.reason)
    with kijolvar.open(PROFILE, totals=sys.argv[1], create=True) as till:
        sell(till)
    with kijolvar.open(PROFILE, totals=sys.argv[1]) as till:
        report(till.totals("totals"))


main()
