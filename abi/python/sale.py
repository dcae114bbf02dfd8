#!/usr/bin/env python3
"""Rings up a sale, as c/sale.c does. Usage: sale.py libkijolvar.so FILE"""
import sys

from till import Fault, Till, create_totals, load, open_totals


def code(call, *words):
    try:
        call(*words)
        return "0"
    except Fault as fault:
        return str(fault)


def tell(till, line):
    try:
        print(f"{line}: 0 {till.ask(line)}".rstrip())
    except Fault as fault:
        print(f"{line}: {fault}")


def sell(till):
    controls = [("drawer", "CashDrawer", "d1"), ("scanner", "Scanner", "s1"), ("display", "LineDisplay", "p1"),
                ("printer", "POSPrinter", "r1"), ("totals", "HardTotals", "t1")]
    print("controls:", " ".join(code(till.control, *words) for words in controls))
    tell(till, "set scanner DataEventEnabled true")
    tell(till, "input s1 scan 104 34303036333831 34303036333831")
    till.pump("scanner", lambda event: print("scanner:", event))
    tell(till, "get scanner ScanData")
    print("display:", code(till.display_text, "display", b"4.50"))
    print("print:", code(till.print, "printer", b"Bread 4.50\n"))
    tell(till, "call printer cutPaper 100")
    print("drawer:", code(till.open_drawer, "drawer"))
    till.pump("drawer", lambda event: print("drawer:", event))
    tell(till, "call totals create 64617973616c6573 4 false")
    tell(till, "call totals write 1 0 000001c2")
    tell(till, "show r1")
    tell(till, "show p1")


def look(till):
    print("totals:", code(till.control, "totals", "HardTotals", "t1"))
    tell(till, "call totals find 64617973616c6573")
    tell(till, "call totals read 1 0 4")


def totals_file(library, path):
    """The file of the totals: it is created if it is missing, else opened."""
    try:
        return open_totals(path)
    except FileNotFoundError:
        return create_totals(library, path)


library = load(sys.argv[1])
with totals_file(library, sys.argv[2]) as totals:
    for part in (sell, look):
        with Till(library, "", totals) as till:
            part(till)
