"""Tries the drivers of the Python package over emulated devices (tests/emulator).

Usage: devices.py LIBRARY [--faults N] [--seed N] [--only WORD]

LIBRARY is libkijolvar.so. N random faults are tried, by default 150, from a seed. --only tries what has the word in its
name. The last line is 'N passed, M failed'.
"""
import argparse
import contextlib
import ctypes
import errno
import fcntl
import gc
import grp
import io
import math
import os
import pathlib
import pwd
import random
import re
import select
import signal
import socket
import stat
import statistics
import struct
import subprocess
import sys
import termios
import threading
import time
import types
from unittest import mock

TOP = pathlib.Path(__file__).resolve().parent.parent
sys.path[:0] = [str(TOP / "abi/python"), str(TOP / "tests")]

import kijolvar
import kijolvar.__main__
from checks import Checks
from emulator import (Cut, Display, HearingPrinter, LatePrinter, Line, Printer, PtyCable, Scanner, SilentHost, TcpCable,
                      first_strange, take_unknown)
from emulator.scanner import KEYS
from kijolvar import (Driver, EscPosDrawer, EscPosPrinter, OutputCompleteEvent, PrintedCut, SerialDisplay, SerialPort,
                      StatusUpdateEvent, WedgeScanner, WireSettings)
from kijolvar._links import AskedLink, Job, PrinterLink, pieces_of

SCRIPTS = TOP / "tests/scripts"
PROFILE = """
[[device]]
name = "r1"
category = "POSPrinter"
chars = 42
lines = 1000
near = 20
[[device]]
name = "d1"
category = "CashDrawer"
[[device]]
name = "p1"
category = "LineDisplay"
rows = 2
columns = 20
[[device]]
name = "s1"
category = "Scanner"
[[device]]
name = "t1"
category = "HardTotals"
"""
SECOND_PRINTER = """
[[device]]
name = "r2"
category = "POSPrinter"
chars = 42
lines = 1000
near = 20
"""
# How long an order may take here, how much later than its timeout a call may return, how soon a lost port is tried again,
# and how long something may take that has to happen, in seconds.
TIMEOUT, SLACK, PAUSE, PATIENCE = 0.4, 0.6, 0.01, 10
MOST_LINES = 100_000
CHECKS = Checks()
told = CHECKS.told
made = 0


def give_time():
    """Gives orders more time, as a machine needs that does much else."""
    global TIMEOUT, SLACK, PATIENCE
    TIMEOUT, SLACK, PATIENCE = 2.0, 2.0, 60


def raised(call, *words, **named):
    """What a call is refused with: its code and extended code, or None."""
    try:
        call(*words, **named)
    except kijolvar.UposError as fault:
        return fault.code, fault.extended
    return None


def opened(profile=PROFILE, totals=None, **named):
    """A till over the library."""
    return kijolvar.open(profile, totals, library=LIBRARY, **named)


def cable(kind="usb"):
    """A new cable: "usb" hangs up with the device, "serial" doesn't, and "tcp" is a network printer's. "asked" is a
    simpler printer on "usb". With "stays" behind it, the port stays open while the device is off. With "holds" it is a
    serial line that keeps what the device doesn't take, with "adapter" behind it 256 bytes of that in an adapter."""
    global made
    made += 1
    hangs_up = kind != "serial" and "stays" not in kind
    if "tcp" in kind:
        return TcpCable(hangs_up=hangs_up)
    return PtyCable(CHECKS.work / f"port-{made}", hangs_up=hangs_up, holds="holds" in kind, keeps=256 * ("adapter" in kind))


def port_of(device, kind="usb"):
    if kind != "serial" and "holds" not in kind:
        return device.path
    return SerialPort(device.path, 115200, flow="none" if kind == "serial" else "rts-cts")


def signs_of(device):
    """What an emulated printer has to tell of itself, by the words of a status."""
    first, second, third, _ = device.status()
    return {"pin": "high" if first & 4 else "low", "offline": "yes" if first & 8 else "no",
            "cover": "open" if first & 32 else "closed",
            "paper": "empty" if third & 12 else "near" if third & 3 else "good", "fault": "yes" if second else "no"}


def until(condition, seconds=None):
    """Whether something becomes so."""
    end = time.monotonic() + (PATIENCE if seconds is None else seconds)
    while not condition():
        if time.monotonic() > end:
            return False
        time.sleep(0.001)
    return True


# ---- what is on the paper

def item_of(item, feed=3):
    """An item of `show` as the emulated printer has it on its paper."""
    if isinstance(item, PrintedCut):
        return Cut(item.percentage == 100, feed)
    return Line(item.alignment, item.characters, item.is_bold)


def same_paper(name, printer, items):
    """Whether the paper has these items of `show`, each once and in their order. Only from one on whose acknowledgement
    the host didn't get, what was sent is there once more."""
    printer.wait(lambda: printer.is_idle)
    receipt, wanted = printer.receipt(), [item_of(item) for item in items]
    place = first_strange(receipt, printer.runs, wanted)
    told(name, None, None if place is None else (place, len(receipt), len(wanted), receipt[max(place - 4, 0):place + 4]))


def not_whole(printer, items):
    """Those items of `show` that aren't on the paper as they should be, in their order. Others may be between them."""
    printer.wait(lambda: printer.is_idle)
    found = iter(printer.receipt())
    return [item for item in items if item_of(item) not in found]


def characters_of(printer):
    return [item.characters for item in printer.receipt() if isinstance(item, Line)]


# ---- scripts

class Bench:
    """A till whose printers, drawers and displays are all emulated."""

    def __init__(self, stack, profile, protocol):
        self.till = stack.enter_context(opened(profile))
        self.devices, self.drivers = {}, {}
        for device in self.till._devices():
            driver = None
            if device.category in ("POSPrinter", "CashDrawer"):
                found = stack.enter_context(self.printer(device))
                driver = EscPosPrinter(found.path, lines=max(found.lines_left, 1), timeout=5, pause=PAUSE)
                driver = driver if device.category == "POSPrinter" else EscPosDrawer(driver)
            elif device.category == "LineDisplay":
                found = stack.enter_context(Display(cable(), device.rows, device.columns, protocol))
                driver = SerialDisplay(found.path, protocol, pause=PAUSE)
            if driver is None or (device.near or 0) >= MOST_LINES:
                # What no driver is for stays simulated.
                continue
            self.devices[device.name], self.drivers[device.name] = found, driver
            self.till.drive(device.name, driver)
            if isinstance(driver, EscPosPrinter):
                # A script knows how many lines are left near the end of the paper, which a driver doesn't.
                driver._near = 0
        self.settle()

    def printer(self, device):
        if device.category == "CashDrawer":
            return Printer(cable())
        view = self.till.device(device.name).show()
        return Printer(cable(), device.chars, view.lines_left, device.near)

    def settle(self):
        """Lets the till learn what its devices show."""
        for name, device in self.devices.items():
            assert until(lambda: self.is_known(device, self.drivers[name])), name
        self.till._drives.hand_in()

    def is_known(self, device, driver):
        driver.poll()
        if driver.is_online != device.is_on or not device.is_on or isinstance(device, Display):
            return driver.is_online == device.is_on
        link = driver.link if isinstance(driver, EscPosPrinter) else driver._printer.link
        return link.signs in (signs_of(device), {})

    def happens(self, words):
        """An input of a script happens at the device first."""
        name, *what = words
        device = self.devices.get(name)
        if device is None:
            return
        if what[0] == "power":
            device.plug_in() if what[1] == "on" else device.pull_plug()
        elif not isinstance(device, Printer) or not device.is_on:
            return
        elif isinstance(self.drivers[name], EscPosPrinter):
            if what[0] == "cover":
                device.cover(what[1] == "open")
            elif what[0] == "paper" and int(what[1]) <= MOST_LINES:
                device.load(int(what[1]))
        elif what[0] in ("open", "closed"):
            device.drawer(what[0] == "open")
        self.settle()

    def runs(self, script):
        """Carries out a script: its answers, and what `show` told of a device that shows something else."""
        answers, wrong = "", []
        for line in script.splitlines():
            words = line.split()
            if words[:1] == ["input"]:
                self.happens(words[1:])
            answer = self.till.carry_out(line)
            answers += answer
            if words[:1] == ["show"] and words[1] in self.devices:
                wrong += self.differs(words[1], answer)
        return answers, wrong

    def differs(self, name, answer):
        """What `show` says and the device doesn't show."""
        device, view = self.devices[name], kijolvar._devices.read_view(answer.rstrip("\n")[3:])
        device.wait(lambda: device.is_idle)
        if isinstance(device, Display):
            if not device.is_on:
                return []
            shown = device.wait(lambda: device.shows() == view.characters, PATIENCE)
            return [] if shown else [(answer, device.shows())]
        if isinstance(view, kijolvar.DrawerView):
            return [] if view.is_open == device.is_drawer_open else [(answer, device.is_drawer_open)]
        paper = [item_of(item) for item in view.items]
        found = device.receipt(), device.is_cover_open, device.lines_left
        return [] if found == (paper, view.is_cover_open, view.lines_left) else [(answer, found)]


def try_scripts():
    """What the console's scripts print and show is on the emulated devices."""
    count = 0
    for expected in sorted(SCRIPTS.glob("*.stdout")):
        kind = expected.name.split(".")[0]
        if kind not in ("printer", "display", "drawer"):
            continue
        script = expected.with_suffix("")
        profile = pathlib.Path(f"{script}.profile")
        for protocol in ["cd5220", "escpos"] if kind == "display" else ["cd5220"]:
            with contextlib.ExitStack() as stack:
                bench = Bench(stack, profile if profile.exists() else None, protocol)
                answers, wrong = bench.runs(script.read_text())
            name = script.name + (f" ({protocol})" if kind == "display" else "")
            different = [pair for pair in zip(expected.read_text().splitlines(), answers.splitlines())
                         if pair[0] != pair[1]]
            told(f"{name}: its answers", ([], len(expected.read_text())), (different[:2], len(answers)))
            told(f"{name}: what is printed and shown", [], wrong[:1])
            count += 1
    told("there are scripts", True, count >= 15)


# ---- bytes

class Asker(Driver):
    """Asks the library for the bytes of each order: alone, at the start, and with what asks for an acknowledgement."""

    def __init__(self, settings):
        self.settings, self.asked = settings, []

    def begin(self, till, device):
        self.till = till

    def carry_out(self, order):
        ask = self.till.order_bytes
        self.asked.append([ask(self.settings), ask(self.settings, True)])
        if order.name in ("print", "openDrawer"):
            self.asked[-1] += [ask(self.settings, job=0x1234), ask(self.settings, job=65_536)]
        return True


def try_bytes():
    """What a driver sends by itself, and where it cuts an order, fit the library's bytes."""
    settings = WireSettings(width=42, cutter=0, feed=10, lines=1000, pin=2, on=10, off=250, open_is_high=1, protocol=0)
    asker = Asker(settings)
    with opened() as till:
        for name in ("r1", "d1", "p1"):
            till.drive(name, asker)
        with till.printer("r1").in_use() as printer, till.display("p1").in_use() as display:
            printer.print(TEXT + b"\x1b|50P\x1b|P")
            till.drawer("d1").open_drawer()
            display.display_text_at(1, 0, b"Bread")
            display.display_text_at(0, 0, b"Milk")
    (line, drawer), (before, after) = asker.asked[:2], asker.asked[2:]
    for name, (plain, new, job, asked), count in (("a text", line, 5), ("a drawer", drawer, 1)):
        told(f"{name}: the start", PrinterLink._start.lstrip(b"\0") + plain, new)
        told(f"{name}: the end of a job", plain + b"\x1d(H\x06\x0000ABCD", job)
        told(f"{name}: the question for paper", plain + b"\x1dr\x01", asked)
        told(f"{name}: its pieces", (count, plain), (len(pieces_of(plain)), b"".join(pieces_of(plain))))
    told("a row", b"\x1bl\x01\x02Bread" + b" " * 15, before[0])
    told("another row", b"\x1bl\x01\x01Milk" + b" " * 16, after[0])
    told("all rows of a new display", b"\x1b@\x0c" + after[0] + before[0], after[1])


# ---- commands that no device knows

def met(device, *sent):
    """The commands that an emulated device didn't know. Bytes are given to it, and something else is done."""
    with device, device.lock:
        for one in sent:
            if callable(one):
                one()
                continue
            for byte in device.arrives(one):
                device.takes(byte)
        # What was cut off, and never begun again, counts from here on.
        device.meets(b" ", True)
        found, device.unknown = device.unknown, []
    return found


def try_unknown_commands():
    """An emulated device notes what it doesn't know, but not what a host or a loss of power has cut off."""
    start, shown = PrinterLink._start, b"\x1b@\x0c"
    told("all that the library sends", [], met(
        Printer(cable()), start + b"\x1ba\x01\x1bE\x01Bread\x1bE\x00\n\x1dVA\x03\x1bp\x00\x19\xfa\x1bd\x03\x1dr\x01"
        + b"\x1d(H\x06\x0000@@@@\x10\x04\x01"))
    told("a character table, and a number out of range", [b"\x1bt", b"\x01", b"\x1dV\x05"],
         met(Printer(cable()), start + b"\x1bt\x01Bread\n\x1dV\x05Tea\n"))
    told("a simpler printer", [b"\x1da\xff", b"\x1d(H\x06\x0000@@@@"],
         met(Printer(cable(), is_simple=True), AskedLink._start + b"\x1da\xff\x1d(H\x06\x0000@@@@"))
    for cut in (b"\x1d", b"\x1d(", b"\x1d(H\x06", b"\x1d(H\x06\x000", b"\x1b", b"\x1ba", b"\x10"):
        told(f"{cut} that the host has cut off", [], met(Printer(cable()), start + cut, start + b"Bread\n"))
        printer = Printer(cable("tcp"))
        told(f"{cut} at which the power was lost", [b"\x1bt"], met(
            printer, start + cut, printer.pull_plug, printer.plug_in, b"\x06\x1bt\n", start + b"\x1btBread\n"))
        printer = Printer(cable())
        told(f"{cut} at which it was lost for a moment", [b"\x1bt"], met(
            printer, start + cut, lambda: printer.blink(0), b"\x06\x1bt\n", start + b"\x1btBread\n"))
    rows = {"cd5220": b"\x1bl\x01\x01", "escpos": b"\x1f$\x01\x01"}
    for protocol, place in rows.items():
        (other,) = (row for name, row in rows.items() if name != protocol)
        told(f"{protocol}: rows", [], met(Display(cable(), protocol=protocol), shown + place + b"Bread" + bytes(12)))
        told(f"{protocol}: a command of the other one, and a row that isn't there", [other, place[:3] + b"\x09"],
             met(Display(cable(), protocol=protocol), shown + other + place[:3] + b"\x09"))
        for size in range(1, len(place)):
            for zeros in (b"", bytes(12)):
                told(f"{protocol}: {size} bytes that the host has cut off", [], met(
                    Display(cable(), protocol=protocol), shown + place[:size], zeros + shown + place + b"Bread"))
    told("a host that writes to a scanner", [b"x"], met(Scanner(cable()), b"x"))


# ---- a printer

class Shop:
    """A till with an emulated printer, which may be in trouble."""

    def __init__(self, stack, kind="usb", lines=1000, made=Printer, **named):
        self.till = stack.enter_context(opened())
        is_asked = "asked" in kind
        self.device = stack.enter_context(made(cable(kind), lines=lines, is_simple=is_asked))
        self.driver = EscPosPrinter(port_of(self.device, kind), is_asked=is_asked,
                                    **{"timeout": TIMEOUT, "pause": PAUSE, "lines": 1000, **named})
        self.till.drive("r1", self.driver)
        self.control = self.till.printer("r1")
        stack.enter_context(self.control.in_use())

    def settle(self):
        """Waits until the till knows how the printer is."""
        device = self.device

        def is_known():
            self.driver.poll()
            return self.driver.is_online and self.driver.link.signs == signs_of(device)
        known = until(is_known)
        self.till._drives.hand_in()
        return known

    def begins(self):
        """Prints a line. Once that is answered, nothing else is on its way to the printer."""
        assert self.settle() and raised(self.control.print, b"Before\n") is None

    def same_paper(self, name):
        same_paper(name, self.device, self.till.device("r1").show().items)


TEXT = b"First line\n\x1b|cA\x1b|bCSecond line\x1b|N\n\x1b|rAThird line\n"
TROUBLES = {
    "the cover is opened": (lambda device: device.cover(True), lambda device: device.cover(False), (114, 201)),
    "the paper runs out": (lambda device: device.load(0), lambda device: device.load(1000), (114, 203)),
    "the plug is pulled": (Printer.pull_plug, Printer.plug_in, (108, 0)),
    "the printer falls silent": (Printer.hang, lambda device: device.hang(False), (111, 0)),
}


def try_troubles():
    """Trouble during an order: the answer is never ok, and a retry prints once."""
    for kind in ("usb", "tcp", "serial", "asked"):
        for trouble, (deed, undo, wanted) in TROUBLES.items():
            # A serial line doesn't tell that the device is off: the order fails, and later ones find it off.
            found_as = (111, 0) if kind == "serial" and wanted[0] == 108 else wanted
            for place in (3, 30, 50):
                name = f"{trouble} after {place} bytes, over {kind}"
                with contextlib.ExitStack() as stack:
                    shop = Shop(stack, kind)
                    shop.device.after(place, lambda: deed(shop.device))
                    began = time.monotonic()
                    told(f"{name}: the answer", found_as, raised(shop.control.print, TEXT))
                    told(f"{name}: in time", True, time.monotonic() - began < TIMEOUT + SLACK)
                    told(f"{name}: still", True, raised(shop.control.print, TEXT) is not None)
                    undo(shop.device)
                    told(f"{name}: it ends", True, shop.settle())
                    told(f"{name}: again", None, raised(shop.control.print, TEXT))
                    shop.same_paper(f"{name}: the paper")
                    told(f"{name}: nothing else", 0, shop.driver.late_orders)
                    told(f"{name}: paper", True, shop.till.device("r1").show().lines_left > 990)


def try_offline():
    """A printer that is offline when its port is opened or it is switched on, and keeps what it is sent: it is known
    why.
    """
    for kind in ("usb", "tcp", "serial"):
        for trouble, wanted in (("the cover is opened", (114, 201)), ("the paper runs out", (114, 203))):
            name = f"{trouble}, over {kind}"
            deed, undo, _ = TROUBLES[trouble]
            with contextlib.ExitStack() as stack:
                till, device = stack.enter_context(opened()), stack.enter_context(Printer(cable(kind), lines=1000))
                deed(device)
                began = time.monotonic()
                till.drive("r1", EscPosPrinter(port_of(device, kind), timeout=TIMEOUT, pause=PAUSE, lines=1000))
                control = till.printer("r1")
                stack.enter_context(control.in_use())
                told(f"{name}: the answer", wanted, raised(control.print, TEXT))
                told(f"{name}: at once", True, time.monotonic() - began < TIMEOUT)
                undo(device)
                told(f"{name}: it goes on", True, until(lambda: till.run_devices(0.01) or raised(control.print, TEXT) is None))
                same_paper(f"{name}: the paper", device, till.device("r1").show().items)
    for kind in ("serial", "usb stays", "tcp stays"):
        with contextlib.ExitStack() as stack:
            shop = Shop(stack, kind)
            told(f"{kind}: the printer is idle", True, until(lambda: not shop.till.run_devices(0.01) and shop.device.is_idle))
            shop.device.pull_plug()
            shop.device.cover(True)
            shop.device.plug_in()
            told(f"{kind}: its cover was opened while it was off", True,
                 until(lambda: shop.till.run_devices(0.01) and shop.control.cover_open))
            told(f"{kind}: an order then", (114, 201), raised(shop.control.print, TEXT))
            shop.device.cover(False)
            told(f"{kind}: it goes on", True, shop.settle())
            told(f"{kind}: that order", None, raised(shop.control.print, TEXT))
            shop.same_paper(f"{kind}: the paper")


def try_ports_that_stay():
    """A port that stays open while the printer is off, and loses what is sent: a cable with a chip of its own, or a
    print server. What was lost is never told as printed, and a retry prints it."""
    for kind in ("usb stays", "tcp stays", "asked stays"):
        for place in (0, 30, 50):
            name = f"off after {place} bytes, over {kind}"
            with contextlib.ExitStack() as stack:
                shop = Shop(stack, kind)
                if place:
                    shop.device.after(place, shop.device.pull_plug)
                else:
                    shop.device.pull_plug()
                told(f"{name}: the answer", (111, 0), raised(shop.control.print, TEXT))
                shop.device.plug_in()
                told(f"{name}: it is back", True, shop.settle())
                again = [raised(shop.control.print, TEXT)]
                while "asked" in kind and again[-1] is not None and len(again) < 4:
                    # A question that was lost just before it was back isn't asked again at once: it may count as off.
                    shop.settle()
                    again.append(raised(shop.control.print, TEXT))
                told(f"{name}: again", None, again[-1])
                told(f"{name}: another order", None, raised(shop.control.print, b"Other\n"))
                shop.same_paper(f"{name}: the paper")
                told(f"{name}: nothing else", 0, shop.driver.late_orders)


def try_power_behind_a_line():
    """A printer that loses its power in the middle of a line, on a cable that keeps the rest: that is printed once the
    printer is on again, and acknowledged. Each line is whole on the paper."""
    for kind in ("holds", "asked holds"):
        for place, pause, timeout in ((6, None, TIMEOUT), (35, None, TIMEOUT), (35, 2.5, 5.0)):
            name = f"off after {place} bytes for {pause or 'longer than the timeout'}, over {kind}"
            with contextlib.ExitStack() as stack:
                shop = Shop(stack, kind, timeout=timeout)
                shop.begins()
                shop.device.ROOM = 8
                port = shop.driver.link.port
                dropped = stack.enter_context(mock.patch.object(port, "discard", wraps=port.discard))
                shop.device.after(place if "asked" not in kind else place - 8 * (place > 14), shop.device.pull_plug)
                if pause is not None:
                    timer = threading.Timer(pause, shop.device.plug_in)
                    timer.start()
                    stack.callback(timer.join)
                told(f"{name}: the answer", (111, 0), raised(shop.control.print, TEXT))
                told(f"{name}: what the line has is dropped", True, dropped.called)
                if pause is None:
                    until(lambda: shop.till.run_devices(0.01) and False, 1.5 * TIMEOUT)
                    told(f"{name}: still off", (108, 0), raised(shop.control.print, TEXT))
                    shop.device.plug_in()
                    told(f"{name}: it is back", True, shop.settle())
                told(f"{name}: again", True, until(lambda: raised(shop.control.print, TEXT) is None))
                told(f"{name}: another order", None, raised(shop.control.print, b"Other\n"))
                items = shop.till.device("r1").show().items
                told(f"{name}: each line is whole", (5, []), (len(items), not_whole(shop.device, items)))
                told(f"{name}: at most one part of a line", True, len(shop.device.receipt()) <= 9)
                told(f"{name}: nothing else", 0, shop.driver.late_orders)


def try_end_that_nobody_saw():
    """A printer that loses its power in a line, and is back before anybody looks: the end of the line that it may have
    got and acknowledged isn't told as the whole."""
    for kind in ("holds", "asked holds", "holds adapter", "asked holds adapter"):
        for place in (6, 35):
            name = f"off after {place} bytes while nobody looks, over {kind}"
            with contextlib.ExitStack() as stack:
                shop = Shop(stack, kind)
                shop.begins()
                shop.device.ROOM = 8
                # It says something of itself before.
                shop.device.after(5, lambda: shop.device.drawer(True))
                shop.device.after(place, shop.device.pull_plug)
                told(f"{name}: the answer", (111, 0), raised(shop.control.print, TEXT))
                shop.device.plug_in()
                shop.device.wait(lambda: shop.device.is_idle)
                time.sleep(0.1)
                told(f"{name}: again", True, until(
                    lambda: shop.till.run_devices(0.01) is not None and raised(shop.control.print, TEXT) is None))
                told(f"{name}: each line is whole", [], not_whole(shop.device, shop.till.device("r1").show().items))
        with contextlib.ExitStack() as stack:
            name, shop = f"off at the end of an order, over {kind}", Shop(stack, kind)
            shop.begins()
            shop.device.ROOM = 8

            def goes_off():
                """It says something of itself until shortly before the order fails."""
                end = time.monotonic() + 0.8 * TIMEOUT
                while time.monotonic() < end:
                    shop.device.drawer(not shop.device.is_drawer_open)
                    time.sleep(0.02)
                shop.device.pull_plug()
            off = threading.Thread(target=goes_off)
            shop.device.after_characters(15, lambda: shop.device.pauses(60), off.start)
            told(f"{name}: the answer", (111, 0), raised(shop.control.print, TEXT))
            off.join()
            time.sleep(2.2)
            shop.device.plug_in()
            shop.device.wait(lambda: shop.device.is_idle)
            time.sleep(0.1)
            told(f"{name}: again", True, until(
                lambda: raised(shop.control.print, TEXT) is None or shop.till.run_devices(0.01) is None))
            told(f"{name}: each line is whole", [], not_whole(shop.device, shop.till.device("r1").show().items))


def try_order_behind_a_line():
    """A printer that is off before an order, on a cable that keeps what is sent: only the first order waits in it. A
    slow printer on it that answers isn't taken for one that is off."""
    with contextlib.ExitStack() as stack:
        shop = Shop(stack, "holds")
        shop.begins()
        shop.device.pull_plug()
        told("off before an order", (111, 0), raised(shop.control.print, TEXT))
        told("off before another one", True, raised(shop.control.print, TEXT) is not None)
        held = b""
        while some := shop.device.cable.read(4096):
            held += some
        told("how often the order waits", 1, held.count(b"Third line"))
        shop.device.plug_in()
        told("it is back", True, shop.settle())
        told("the order again", None, raised(shop.control.print, TEXT))
        shop.same_paper("off before an order: the paper")
    with contextlib.ExitStack() as stack:
        shop = Shop(stack, "holds", timeout=3 * TIMEOUT)
        stack.enter_context(mock.patch("kijolvar._links._SILENT", TIMEOUT))
        shop.begins()
        shop.device.slow(1.5 * TIMEOUT)
        told("a line takes long", None, raised(shop.control.print, TEXT))
        shop.same_paper("a line takes long: the paper")
        shop.device.hang()
        began = time.monotonic()
        told("a silent printer", (111, 0), raised(shop.control.print, TEXT))
        told("a silent printer: when it has failed", True, TIMEOUT <= time.monotonic() - began < 2.5 * TIMEOUT)


def try_late_answer_behind_a_line():
    """A printer that is asked and answers late what its line has kept: that answer, which has no number, counts for no
    line that is sent again."""
    with contextlib.ExitStack() as stack:
        shop = Shop(stack, "asked holds", timeout=max(TIMEOUT, 1.0))
        shop.begins()
        shop.device.slow(0.3)
        shop.device.after(13, shop.device.hang)
        told("it falls silent in a line", (111, 0), raised(shop.control.print, TEXT))
        shop.device.hang(False)
        told("it goes on", True, until(
            lambda: shop.till.run_devices() is not None and raised(shop.control.print, TEXT) is None))
        told("all is printed that was acknowledged", True, shop.device.is_idle)
        shop.device.slow(0)
        told("each line is whole", [], not_whole(shop.device, shop.till.device("r1").show().items))


class FewAnswers(Printer):
    """A printer that falls silent once it has acknowledged so many pieces."""

    left = None

    def _acknowledges(self, answer):
        super()._acknowledges(answer)
        self.left = None if self.left is None else self.left - 1
        if self.left == 0:
            self.hang()


def try_late_answer_of_a_line():
    """A printer that is asked, takes nothing while its cover is open, and much later acknowledges what counts for
    nothing any more: that isn't taken for a line that is sent again."""
    with contextlib.ExitStack() as stack:
        shop = Shop(stack, "asked holds", timeout=4.0, made=FewAnswers)
        device, text = shop.device, b"One\nTwo\n"
        shop.begins()
        device.after_characters(2, lambda: device.cover(True))
        told("the cover is opened in a line", 111, raised(shop.control.print, text)[0])
        device.slow(1.0)
        # The line that had begun, and the same again.
        device.left = 2
        device.cover(False)
        told("it isn't done before its last line is printed", True, raised(shop.control.print, text) is not None)
        told("that wasn't printed", {b"Before", b"One"}, set(characters_of(device)))
        device.slow(0)
        device.hang(False)
        told("it is done", True, until(
            lambda: shop.till.run_devices(0.01) is not None and raised(shop.control.print, text) is None))
        told("each line is whole", [], not_whole(device, shop.till.device("r1").show().items))


def try_cover_behind_a_line():
    """A printer that takes nothing while its cover is open, on a cable that keeps what is sent."""
    for place, pause in ((6, 0), (35, 0), (35, 3.5 * TIMEOUT)):
        name = f"the cover is open for {pause} s after {place} bytes"
        with contextlib.ExitStack() as stack:
            shop = Shop(stack, "holds")
            shop.begins()
            shop.device.ROOM = 8
            shop.device.after(place, lambda: shop.device.cover(True))
            answers = {raised(shop.control.print, TEXT)}
            until(lambda: shop.till.run_devices(0.01) is None or answers.add(raised(shop.control.print, TEXT)), pause)
            told(f"{name}: the answers", ({(114, 201)}, True), (answers, shop.driver.is_online))
            shop.device.cover(False)
            told(f"{name}: it goes on", True, shop.settle())
            told(f"{name}: again", None, raised(shop.control.print, TEXT))
            shop.same_paper(f"{name}: the paper")
            told(f"{name}: nothing else", (4, 0), (len(shop.device.receipt()), shop.driver.late_orders))
    for opens, closes, wanted in ((lambda device: device.cover(True), lambda device: device.cover(False), (114, 201)),
                                  (lambda device: device.load(0), lambda device: device.load(1000), (114, 203))):
        name = f"off and on while it has stopped ({wanted[1]})"
        with contextlib.ExitStack() as stack:
            shop = Shop(stack, "holds")
            shop.begins()
            shop.device.ROOM = 8
            shop.device.after(35, lambda: opens(shop.device))
            told(f"{name}: the answer", wanted, raised(shop.control.print, TEXT))
            shop.device.pull_plug()
            until(lambda: shop.till.run_devices(0.01) and False, 0.7)
            shop.device.plug_in()
            until(lambda: shop.till.run_devices(0.01) and False, 0.7)
            told(f"{name}: still", wanted, raised(shop.control.print, TEXT))
            closes(shop.device)
            told(f"{name}: again", True, until(
                lambda: shop.till.run_devices(0.01) is not None and raised(shop.control.print, TEXT) is None))
            items = shop.till.device("r1").show().items
            told(f"{name}: each line is whole", (4, []), (len(items), not_whole(shop.device, items)))


def try_button_behind_a_line():
    """A printer whose paper feed button is held, on a cable that keeps what is sent: it is offline, for no cause that
    the till knows. It says that it goes on, so its silence means nothing before."""
    with contextlib.ExitStack() as stack:
        shop = Shop(stack, "holds", timeout=PATIENCE)
        shop.begins()
        shop.device.ROOM = 8
        goes_on = threading.Timer(2.75, shop.device.feeds, [False])
        shop.device.after(35, lambda: shop.device.feeds(True), goes_on.start)
        told("the button is held in an order", None, raised(shop.control.print, TEXT))
        goes_on.join()
        shop.same_paper("the button is held in an order: the paper")
    with contextlib.ExitStack() as stack:
        name, shop, answers = "the button is held for longer than the timeout", Shop(stack, "holds"), []
        shop.begins()
        shop.device.ROOM = 8
        shop.device.after(35, lambda: shop.device.feeds(True))
        until(lambda: answers.append(raised(shop.control.print, TEXT)) or shop.till.run_devices(0.01) is None, 2.75)
        told(f"{name}: the answers", ({(111, 0)}, True), (set(answers), shop.driver.is_online))
        shop.device.feeds(False)
        told(f"{name}: again", True, until(
            lambda: shop.till.run_devices(0.01) is not None and raised(shop.control.print, TEXT) is None))
        shop.same_paper(f"{name}: the paper")
        told(f"{name}: nothing else", (4, 0), (len(shop.device.receipt()), shop.driver.late_orders))
    for place in (6, 35):
        with contextlib.ExitStack() as stack:
            name, shop = f"off and on while the button is held after {place} bytes", Shop(stack, "holds")
            shop.begins()
            shop.device.ROOM = 8
            shop.device.after(place, lambda: shop.device.feeds(True))
            told(f"{name}: the answer", (111, 0), raised(shop.control.print, TEXT))
            until(lambda: shop.till.run_devices(0.01) is None, 1.5)
            # It says something else of itself, and is offline still.
            shop.device.load(10)
            told(f"{name}: its paper is near its end", True, until(
                lambda: shop.till.run_devices(0.01) is not None and shop.control.rec_near_end))
            shop.device.pull_plug()
            shop.device.feeds(False)
            shop.device.plug_in()
            told(f"{name}: again", True, until(
                lambda: shop.till.run_devices(0.01) is not None and raised(shop.control.print, TEXT) is None))
            items = shop.till.device("r1").show().items
            told(f"{name}: each line is whole", (4, []), (len(items), not_whole(shop.device, items)))


def try_retries_behind_a_line():
    """An order that is tried again and again at a printer that takes nothing from its line, while the line takes bytes
    or none either: what waits to go out or to be acknowledged doesn't grow."""
    for takes in (True, False):
        name = f"retries behind a line that takes {'bytes' if takes else 'nothing'}"
        with contextlib.ExitStack() as stack:
            shop, sizes = Shop(stack, "holds"), []
            shop.begins()
            shop.device.ROOM = 8
            link, held = shop.driver.link, threading.Event()
            ready = link.port.ready

            def ready_unless_full(is_writing, seconds):
                is_full = held.is_set() and not takes
                can_read, can_write = ready(is_writing and not is_full, min(seconds, 0.01) if is_full else seconds)
                return can_read, can_write and not is_full
            stack.enter_context(mock.patch.object(link.port, "ready", ready_unless_full))
            shop.device.after(35, lambda: shop.device.feeds(True), held.set)
            for _ in range(8):
                told(f"{name}: the answer", (111, 0), raised(shop.control.print, TEXT))
                shop.till.run_devices()
                sizes.append((len(link._due), len(link._outbox)))
            told(f"{name}: what waits", sizes[3:4] * 5, sizes[3:])
            held.clear()
            shop.device.feeds(False)
            told(f"{name}: again", True, until(
                lambda: shop.till.run_devices(0.01) is not None and raised(shop.control.print, TEXT) is None))
            shop.same_paper(f"{name}: the paper")
            told(f"{name}: nothing else", (4, 0), (len(shop.device.receipt()), shop.driver.late_orders))


def try_markers_without_numbers():
    """A marker asks what is printed. That of a printer whose acknowledgements have no number isn't taken back: its
    answer comes, and would count for what is sent next. One that is still to go out serves again."""
    for made in (AskedLink, PrinterLink):
        link = made(kijolvar.FilePort("/dev/null"), TIMEOUT, PAUSE)
        link._question = b"\x1d(H\x06\x0000@@@@"
        job, found = Job(TEXT, True), []
        link._post(job)
        pieces = list(link._due)
        for _ in range(2):
            link._outbox.clear()
            link._puts_marker()
            found.append([*link._due])
        told(f"the markers of {made.__name__}", ([1, 1], made is AskedLink),
             ([len(due) - len(pieces) for due in found], found[0] == found[1]))
        link._puts_marker()
        told(f"one that is still to go out: {made.__name__}", (found[1], made is PrinterLink),
             ([*link._due], bool(link._outbox)))


def try_long_orders():
    """An order that is longer than what the printer and its line keep. Only a little of it is out at once, so that the
    printer gets questions meanwhile."""
    text = b"".join(b"Line %03d, as long as lines often are\n" % number for number in range(100))
    for kind in ("usb", "tcp", "asked"):
        with contextlib.ExitStack() as stack:
            name, shop = f"a long order over {kind}", Shop(stack, kind)
            shop.device.ROOM = 3000
            shop.device.after_characters(200, lambda: shop.device.cover(True))
            told(f"{name}: the cover is opened", (114, 201), raised(shop.control.print, text))
            until(lambda: shop.till.run_devices(0.01) is None, 3.5 * TIMEOUT)
            told(f"{name}: still", ((114, 201), True), (raised(shop.control.print, text), shop.driver.is_online))
            shop.device.cover(False)
            told(f"{name}: it goes on", True, shop.settle())
            told(f"{name}: again", None, raised(shop.control.print, text))
            shop.same_paper(f"{name}: the paper")
            told(f"{name}: nothing else", (100, 0), (len(shop.device.receipt()), shop.driver.late_orders))
    with contextlib.ExitStack() as stack:
        name, shop = "a long order over a line that keeps what is sent", Shop(stack, "holds", timeout=PATIENCE)
        shop.begins()
        shop.device.ROOM = 1024
        # That is longer than a printer may be silent.
        shop.device.after_characters(200, lambda: shop.device.pauses(2.75))
        told(name, None, raised(shop.control.print, text))
        shop.same_paper(f"{name}: the paper")


def try_process_that_stands_still():
    """The process stands still while an order waits for its printer, longer than its time. What the printer has
    acknowledged meanwhile counts, also if it was silent before, and was asked whether it is there."""
    for kind, is_silent in (("usb", False), ("tcp", False), ("asked", False), ("holds", False), ("holds", True)):
        with contextlib.ExitStack() as stack:
            name, stood = f"the process stands still, over {kind}, silent {is_silent}", []
            # One that stands still for 2 seconds may count as off, also on a machine that is busy.
            shop = Shop(stack, kind, timeout=1.0)
            shop.begins()
            link, device = shop.driver.link, shop.device
            port, ready, count = link.port, link.port.ready, len(device.receipt())
            device.hang(is_silent)

            def stands_still(is_writing, seconds):
                if seconds <= 0 or is_writing or stood or is_silent and link._asked_at is None:
                    return ready(is_writing, seconds)
                device.hang(False)
                stood.append(until(lambda: len(device.receipt()) > count))
                time.sleep(link.timeout + 0.25)
                return False, False
            with mock.patch.object(port, "ready", stands_still):
                told(f"{name}: the order", (None, [True]), (raised(shop.control.print, TEXT), stood))
            shop.same_paper(f"{name}: the paper")


def try_power_while_the_process_stands_still():
    """The process stands still within an order, or the machine is suspended, and the printer goes on meanwhile. On a
    cable that keeps what is sent it was off first: it prints and acknowledges the end of a line, which isn't printed.
    On any other cable all counts."""
    for kind, is_suspended in (("holds", False), ("holds", True), ("asked holds", False), ("asked holds", True),
                               ("usb", False), ("serial", False), ("asked", False)):
        with contextlib.ExitStack() as stack:
            name = f"{'suspended' if is_suspended else 'standing still'}, over {kind}"
            shop, stood, suspended = Shop(stack, kind, timeout=PATIENCE), [], [0.0]
            device, port = shop.device, shop.driver.link.port
            shop.begins()
            device.ROOM, count, ready = 8, len(device.receipt()), port.ready

            def stands_still(is_writing, seconds):
                if seconds <= 0 or stood or not device.is_hung:
                    return ready(is_writing, seconds)
                if "holds" in kind:
                    device.pull_plug()
                    device.plug_in()
                device.hang(False)
                stood.append(until(lambda: len(device.receipt()) > count))
                if is_suspended:
                    suspended[0] = 2.25
                else:
                    time.sleep(2.25)
                return ready(is_writing, 0)
            stack.enter_context(mock.patch.object(port, "ready", stands_still))
            stack.enter_context(mock.patch(
                "kijolvar._links.clock_gettime", lambda clock: time.clock_gettime(clock) + suspended[0]))
            device.after_characters(1, device.hang)
            told(f"{name}: the answer", ((111, 0) if "holds" in kind else None, [True]),
                 (raised(shop.control.print, TEXT), stood))
            told(f"{name}: again", True, "holds" not in kind or until(
                lambda: shop.till.run_devices(0.01) is not None and raised(shop.control.print, TEXT) is None))
            told(f"{name}: each line is whole", [], not_whole(device, shop.till.device("r1").show().items))


def prints_in_child(path):
    """Prints over a line in a process that was forked. Returns its number, and the file in which it says what became of
    the order and of the next one that is done."""
    said, says = os.pipe()
    child = os.fork()
    if child == 0:
        try:
            with opened() as till:
                till.drive("r1", EscPosPrinter(SerialPort(path, 115200), timeout=PATIENCE, pause=PAUSE, lines=1000))
                with till.printer("r1").in_use() as control:
                    found = raised(control.print, TEXT)
                    again = until(lambda: till.run_devices(0.01) is not None and raised(control.print, TEXT) is None)
            os.write(says, repr((found, again)).encode())
        finally:
            os._exit(0)
    os.close(says)
    return child, said


def try_stopped_process():
    """A process that is stopped (SIGSTOP) within an order while the printer loses its power and has it again: what the
    line has kept of the order is printed and acknowledged, and isn't the whole."""
    with Printer(cable("holds")) as device:
        device.ROOM = 8
        device.after_characters(1, device.hang)
        child, said = prints_in_child(device.path)
        told("the printer is in a line", True, until(lambda: device.is_hung))
        os.kill(child, signal.SIGSTOP)
        os.waitpid(child, os.WUNTRACED)
        device.pull_plug()
        device.plug_in()
        device.hang(False)
        told("the end of the line is printed", True, until(device.receipt))
        time.sleep(2.25)
        os.kill(child, signal.SIGCONT)
        with open(said) as text:
            told("the order, and again", repr(((111, 0), True)), text.read())
        os.waitpid(child, 0)
        told("each line is whole", True, {b"First line", b"Second line", b"Third line"} <= set(characters_of(device)))


def try_silence_that_nobody_heard():
    """A printer that has said nothing while nobody looked, on a cable that keeps what is sent: it has time to answer
    before what is due counts as lost. The loop looks at its line twice, for it and for its drawer."""
    with contextlib.ExitStack() as stack:
        shop = Shop(stack, "holds")
        link = shop.driver.link
        shop.till.drive("d1", EscPosDrawer(shop.driver))
        shop.begins()
        shop.device.hang()
        with mock.patch.object(link, "_minds_silence"):
            told("an order that takes too long", (111, 0), raised(shop.control.print, TEXT))
        stack.enter_context(mock.patch("kijolvar._links._SILENT", PATIENCE))
        dropped = stack.enter_context(mock.patch.object(link.port, "discard", wraps=link.port.discard))
        link.timeout, link._heard_at, link._began_at, link._asked_at = PATIENCE, -1e9, -1e9, None
        shop.till.run_devices()
        told("it is asked, and nothing counts as lost", (True, False), (link._asked_at is not None, dropped.called))
        shop.device.hang(False)
        told("the order again", None, raised(shop.control.print, TEXT))
        shop.same_paper("silence that nobody heard: the paper")


def try_power_that_nobody_saw():
    """An order that is interrupted in a line. The printer is switched off and on while nobody looks, on a cable that
    keeps the rest: it prints and acknowledges that, but the line isn't printed."""
    def rings(*_):
        raise LookupError("an interrupt")
    before = signal.signal(signal.SIGUSR1, rings)
    for kind in ("holds", "asked holds"):
        with contextlib.ExitStack() as stack:
            shop = Shop(stack, kind, timeout=PATIENCE)
            device = shop.device
            shop.begins()
            device.ROOM = 8
            device.after_characters(1, device.hang, lambda: os.kill(os.getpid(), signal.SIGUSR1))
            told(f"an interrupt in a line, over {kind}", "LookupError", name_of(shop.control.print, TEXT))
            # Nobody looks for long.
            clock = types.SimpleNamespace(monotonic=lambda: time.monotonic() + PATIENCE, sleep=time.sleep)
            stack.enter_context(mock.patch("kijolvar._links.time", clock))
            device.pull_plug()
            device.plug_in()
            device.hang(False)
            told(f"the end of the line is printed, over {kind}", True, until(lambda: len(device.receipt()) > 1))
            told(f"the order again, over {kind}", True, until(
                lambda: shop.till.run_devices(0.01) is not None and raised(shop.control.print, TEXT) is None))
            told(f"each line is whole, over {kind}", [], not_whole(device, shop.till.device("r1").show().items))
    signal.signal(signal.SIGUSR1, before)


def try_lost_xon():
    """A printer says that it can take no more (XOFF), and what says that it can is lost: it is found again."""
    with contextlib.ExitStack() as stack:
        till, device = stack.enter_context(opened()), stack.enter_context(Printer(cable("serial")))
        port = SerialPort(device.path, 115200, flow="xon-xoff")
        till.drive("r1", driver := EscPosPrinter(port, timeout=TIMEOUT, pause=PAUSE, lines=1000))
        control = stack.enter_context(till.printer("r1").in_use())
        told("a printer with XON/XOFF", True, driver.is_online)
        device.garbage(b"\x13")
        told("XOFF has come", True, until(lambda: not port.ready(True, 0)[1]))
        told("an order of it", (111, 0), raised(control.print, b"A\n"))
        told("nothing has gone out", [], device.receipt())
        told("it is off", True, until(lambda: till.run_devices(0.01) is not None and not driver.is_online))
        told("it is found again", True, until(lambda: till.run_devices(0.01) is not None and driver.is_online))
        told("the order again", True, until(
            lambda: till.run_devices(0.01) is not None and raised(control.print, b"A\n") is None))
        told("it is printed once", [b"A"], characters_of(device))


def try_lines_that_hold():
    """Which ports hold back what is sent, and that they drop it."""
    link = CHECKS.work / "a-line"
    with Printer(cable("holds")) as device:
        os.symlink(device.path, link)
        ports = [SerialPort(device.path), SerialPort(device.path, flow="xon-xoff"), SerialPort(device.path, flow="none"),
                 kijolvar.FilePort(device.path), kijolvar.TcpPort("127.0.0.1"), kijolvar.port_of(link),
                 kijolvar.port_of(link, flow="none")]
        with mock.patch("kijolvar.ports._is_line", return_value=True):
            for port in ports[-2:]:
                port.open()
                port.close()
        told("ports that hold back", [True, True, False, False, False, True, False], [port.holds_back for port in ports])
        told("serial lines", [True, True, True, False, False, True, True], [port.is_line for port in ports])
        device.pull_plug()
        for port in (ports[0], ports[2]):
            port.open()
            sent, found = port.write_some(b"x" * 8000), b""
            port.discard()
            while some := device.cable.read(8000):
                found += some
            told(f"what is dropped of a line that holds back: {port.holds_back}", port.holds_back, len(found) < sent)
            port.close()
        ports[0].discard()
        told("a port that is closed drops nothing", False, ports[0].is_open)


def try_blinks():
    """A port that stays open while the printer has no power for a moment, and loses a line of several: no answer to a
    later line counts for it."""
    for kind, question in (("tcp stays", 11), ("asked stays", 3)):
        with contextlib.ExitStack() as stack:
            shop = Shop(stack, kind)
            # Once it is answered, nothing else is on its way.
            told(f"an order before a blink over {kind}", None, raised(shop.control.print, b"Before\n"))
            # The first line has 14 bytes, and the second one 21.
            shop.device.after(14 + question, lambda: shop.device.blink(21 + question))
            told(f"a blink over {kind}: it is printed", True, until(
                lambda: shop.till.run_devices(0.01) is not None and raised(shop.control.print, TEXT) is None))
            told(f"a blink over {kind}: each line", [b"Before", b"First line", b"Second line", b"Third line"],
                 sorted(set(characters_of(shop.device))))
    with contextlib.ExitStack() as stack:
        shop = Shop(stack, "usb stays")
        shop.device.after(3, lambda: shop.device.blink(1000))
        told("a blink that loses an order", (111, 0), raised(shop.control.print, TEXT))
        time.sleep(1.5 * TIMEOUT)
        shop.till.run_devices()
        told("the printer is there, though nobody has looked for long", True, shop.driver.is_online)


def try_behind_lost_lines():
    """An order of which a line was lost while a slow printer has the rest: a retry has its timeout again with each line
    that is acknowledged, though it counts for nothing."""
    timeout, lines = 4 * TIMEOUT, [b"Line %02d" % number for number in range(14)]
    with contextlib.ExitStack() as stack:
        shop = Shop(stack, "tcp stays", timeout=timeout)
        shop.begins()
        shop.device.slow(timeout / 8)
        # The first line has 11 bytes, the others have 8, and 11 ask for the acknowledgement of each.
        shop.device.after(22, lambda: shop.device.blink(19))
        told("a line is lost", (111, 0), raised(shop.control.print, b"\n".join(lines) + b"\n"))
        began = time.monotonic()
        told("the order again", None, raised(shop.control.print, b"\n".join(lines) + b"\n"))
        told("it takes longer than the timeout", True, time.monotonic() - began > timeout)
        told("each line is whole", [], not_whole(shop.device, shop.till.device("r1").show().items))


def clears_output(shop):
    shop.control.clear_output()


def releases(shop):
    shop.control.release()
    shop.control.claim()
    shop.control.device_enabled = True


def closes(shop):
    shop.control.close()
    shop.control.open("r1")
    shop.control.claim()
    shop.control.device_enabled = True


def discards(shop):
    """Nothing refers to the control any more, and another one takes its place."""
    shop.control = None
    gc.collect()
    shop.control = shop.till.printer("r1")
    shop.control.claim()
    shop.control.device_enabled = True


def runs_lines(shop, *lines):
    answers = shop.till.carry_out("".join(f"{line}\n" for line in lines))
    assert "err" not in answers, answers


# How an application gives up an order that has failed: with its control, and with lines; and how it doesn't.
WAYS = {
    "clear_output": clears_output,
    "a line that clears": lambda shop: runs_lines(shop, "# No answer", f" call  {shop.control.name} clearOutput "),
}
NO_WAYS = {
    "a release": releases, "a close": closes, "a control that is discarded": discards,
    "a line that releases": lambda shop: runs_lines(
        shop, f"release {shop.control.name}", f"claim {shop.control.name} 0",
        f"set {shop.control.name} DeviceEnabled true"),
}


def try_given_up():
    """An order that failed and was given up: the same order is a new one. What comes out late is counted. One whose
    control was only released or closed isn't given up."""
    lines = [b"First line", b"Second line", b"Third line"]
    for name, does in (WAYS | NO_WAYS).items():
        with contextlib.ExitStack() as stack:
            till, device = stack.enter_context(opened()), stack.enter_context(Printer(cable()))
            shop = types.SimpleNamespace(till=till, control=till.printer("r1"))
            till.drive("r1", driver := EscPosPrinter(device.path, timeout=TIMEOUT, pause=PAUSE))
            shop.control.claim()
            shop.control.device_enabled = True
            device.after_characters(3, lambda: device.cover(True))
            told(f"{name}: the order fails", (114, 201), raised(shop.control.print, TEXT))
            does(shop)
            device.cover(False)
            late = int(name in WAYS)
            told(f"{name}: what comes out late", True, until(
                lambda: (till.run_devices(0.01), driver.late_orders == late and characters_of(device) == lines)[1]))
            until(lambda: not till.run_devices(0.01) and not driver.link.is_stopped)
            told(f"{name}: the same order", (None, lines * (1 + late)),
                 (raised(shop.control.print, TEXT), characters_of(device)))
            told(f"{name}: late orders", late, driver.late_orders)
    for name, gives_up in {"a reply": lambda event: event.reply(kijolvar.ER_CLEAR), "a reply in a line": None}.items():
        with contextlib.ExitStack() as stack:
            shop = Shop(stack)
            shop.begins()
            shop.control.async_mode = True
            shop.device.after(20, lambda: shop.device.cover(True))
            shop.control.print(TEXT)
            shop.till.run_devices()
            shop.device.cover(False)
            # It is printed before it is given up.
            shop.device.wait(lambda: len(shop.device.receipt()) == 4)
            shop.driver.poll()
            if gives_up is None:
                told(f"{name}: the event", "event ErrorEvent 114 201 1", shop.till.carry_out(
                    f"deliver {shop.control.name}\ndeliver {shop.control.name} clear").splitlines()[-1])
            else:
                events = [event for event in shop.till.events() if isinstance(event, kijolvar.ErrorEvent)
                          and gives_up(event) is None]
                told(f"{name}: the event", [201], [event.extended for event in events])
            shop.control.async_mode = False
            told(f"{name}: it is late", 1, shop.driver.late_orders)
            shop.settle()
            told(f"{name}: the same order", (None, [b"Before", *lines, *lines]),
                 (raised(shop.control.print, TEXT), characters_of(shop.device)))
            told(f"{name}: late orders", 1, shop.driver.late_orders)


def try_given_up_and_released():
    """Output that failed, and is given up by the reply to its ErrorEvent after its control was released or closed."""
    for leaves in ("release", "close"):
        with contextlib.ExitStack() as stack:
            shop = Shop(stack)
            shop.begins()
            shop.control.async_mode = True
            shop.device.after(20, lambda: shop.device.cover(True))
            shop.control.print(TEXT)
            shop.till.run_devices()
            for event in shop.till.events():
                if isinstance(event, kijolvar.ErrorEvent):
                    getattr(shop.control, leaves)()
                    event.reply(kijolvar.ER_CLEAR)
            shop.device.cover(False)
            told(f"{leaves}: it comes out late", True, until(
                lambda: shop.till.run_devices(0.01) is not None and shop.driver.late_orders == 1))
            other = stack.enter_context(shop.till.printer("r1").in_use())
            told(f"{leaves}: the same is a new order", None, raised(other.print, TEXT))
            told(f"{leaves}: it is on the paper twice", 7, len(shop.device.receipt()))


def try_given_up_by_a_text():
    """A text that gives an order up and then has the same one."""
    with contextlib.ExitStack() as stack:
        shop = Shop(stack)
        shop.begins()
        shop.device.after(20, lambda: shop.device.cover(True))
        told("an order that fails", (114, 201), raised(shop.control.print, TEXT))
        shop.device.cover(False)
        shop.settle()
        name = shop.control.name
        told("the text", "ok\nok\nok 2\n", shop.till.carry_out(
            f"call {name} clearOutput\ncall {name} printNormal 2 {TEXT.hex()}\nget {name} State\n"))
        told("it is printed twice", (7, 1), (len(shop.device.receipt()), shop.driver.late_orders))


def try_given_up_by_another_till():
    """A till that has the driver of one that is closed asks for nothing that this has ordered."""
    with contextlib.ExitStack() as stack:
        shop = Shop(stack)
        shop.begins()
        shop.device.after(20, lambda: shop.device.cover(True))
        told("an order that fails", (114, 201), raised(shop.control.print, TEXT))
        shop.till.close()
        shop.device.cover(False)
        till = stack.enter_context(opened())
        till.drive("r1", shop.driver)
        told("the next till has the printer", True, until(lambda: till.run_devices(0.01) or shop.driver.is_online))
        told("the same is a new order", None, raised(stack.enter_context(till.printer("r1").in_use()).print, TEXT))
        told("all of it is printed", 7, len(shop.device.receipt()))


def try_not_given_up():
    """What gives up nothing: other devices' controls, a refused call, and a reply to no ErrorEvent."""
    with contextlib.ExitStack() as stack:
        shop = Shop(stack)
        drawer, other = shop.till.drawer("d1"), shop.till.printer("r1")
        shop.device.after(20, lambda: shop.device.cover(True))
        told("an order that fails", (114, 201), raised(shop.control.print, TEXT))
        drawer.claim()
        drawer.release()
        drawer.close()
        told("a call that is refused", (102, 0), raised(other.clear_output))
        told("a reply to no error", True, isinstance(shop.control.next_event(kijolvar.ER_CLEAR), StatusUpdateEvent))
        told("lines that do nothing", "bad line\nbad control\n", shop.till.carry_out(" clear\ndeliver nobody clear\n"))
        with shop.till.display("p1").in_use() as display:
            told("a display that is cleared", None, raised(display.clear_text))
        shop.device.cover(False)
        shop.settle()
        told("the order again", None, raised(shop.control.print, TEXT))
        shop.same_paper("what gives up nothing: the paper")
        told("nothing is late", 0, shop.driver.late_orders)


def try_asynchronous():
    """Trouble during output that waits: an ErrorEvent, and a retry prints once."""
    for trouble, (deed, undo, wanted) in TROUBLES.items():
        for place in (3, 30, 50):
            name = f"{trouble} after {place} bytes of waiting output"
            with contextlib.ExitStack() as stack:
                shop = Shop(stack)
                shop.control.async_mode = True
                told(f"{name}: accepted", None, raised(shop.control.print, TEXT))
                told(f"{name}: nothing is printed yet", [], shop.device.receipt())
                shop.device.after(place, lambda: deed(shop.device))
                shop.till.run_devices()
                events = [event for event in shop.till.events() if not isinstance(event, StatusUpdateEvent)]
                told(f"{name}: the event", [("ErrorEvent", *wanted)],
                     [(type(event).__name__, event.code, event.extended) for event in events])
                undo(shop.device)
                shop.settle()
                events = []

                def is_complete():
                    shop.till.run_devices()
                    events.extend(event for event in shop.till.events() if not isinstance(event, StatusUpdateEvent))
                    return any(isinstance(event, OutputCompleteEvent) for event in events)
                told(f"{name}: a retry is complete", True, until(is_complete))
                told(f"{name}: one event", 1, len(events))
                shop.same_paper(f"{name}: the paper")
                told(f"{name}: three lines", 3, len(shop.till.device("r1").show().items))


def try_immediate_between():
    """Output that waits fails and comes out later, and something else is printed at once before it is tried again: it
    is printed once. If it was given up, the same output is a new one."""
    for is_given_up in (False, True):
        name = f"something between{', and given up' * is_given_up}"
        with contextlib.ExitStack() as stack:
            shop = Shop(stack)
            control, device, works = shop.control, shop.device, shop.till.device("r1").work
            control.async_mode = True
            device.after_characters(3, lambda device=device: device.cover(True))
            told(f"{name}: accepted", None, raised(control.print, TEXT))
            told(f"{name}: it fails", kijolvar.WorkFailed(114, 201), works())
            device.cover(False)
            told(f"{name}: it comes out later", True, until(
                lambda: shop.till.run_devices(0.01) is not None and len(device.receipt()) == 3))
            told(f"{name}: that is heard", True, until(
                lambda: shop.till.run_devices(0.01) is not None and not shop.driver.link._due))
            told(f"{name}: another order", None, raised(control.print_immediate, 2, b"At once\n"))
            list(control.events())
            if is_given_up:
                control.clear_output()
                told(f"{name}: accepted again", None, raised(control.print, TEXT))
            told(f"{name}: again", kijolvar.WorkDone(1 + is_given_up), works())
            text = [b"First line", b"Second line", b"Third line"]
            told(f"{name}: the paper", [*text, b"At once", *(text * is_given_up)], characters_of(device))
            told(f"{name}: what was late", int(is_given_up), shop.driver.late_orders)


def try_waiting_output_among_lines():
    """A line that works on output that waits does so in any text of lines: what is printed at once before it is tried
    again doesn't come between."""
    for lines in ("work r1\n", " work r1\n", "show d1\nwork r1\n", "work r1\r\nshow d1"):
        name = f"output that waits, by {lines!r}"
        with contextlib.ExitStack() as stack:
            shop = Shop(stack)
            control, device = shop.control, shop.device
            control.async_mode = True
            device.after_characters(3, lambda device=device: device.cover(True))
            told(f"{name}: accepted", None, raised(control.print, TEXT))
            told(f"{name}: it fails", True, "failed 114 201" in shop.till.carry_out(lines).splitlines())
            device.cover(False)
            told(f"{name}: it comes out later", True, until(
                lambda: shop.till.run_devices(0.01) is not None and len(device.receipt()) == 3))
            told(f"{name}: that is heard", True, until(
                lambda: shop.till.run_devices(0.01) is not None and not shop.driver.link._due))
            told(f"{name}: another order", None, raised(control.print_immediate, 2, b"At once\n"))
            list(control.events())
            told(f"{name}: again", True, "done 1" in shop.till.carry_out(lines).splitlines())
            told(f"{name}: the paper", [b"First line", b"Second line", b"Third line", b"At once"],
                 characters_of(device))


def try_another_between():
    """An order fails and comes out later, and another one is printed before it is tried again: it is a new order then.
    No driver can know whether it is meant once more. What puts nothing on the paper doesn't come between."""
    text = [b"First line", b"Second line", b"Third line"]
    for between, is_new in ((b"Other\n", True), (b"\x1b|100P", True), (b"", False), (b"\x1b|N", False)):
        name = f"{between} between"
        with contextlib.ExitStack() as stack:
            shop = Shop(stack)
            device = shop.device
            device.after_characters(3, lambda device=device: device.cover(True))
            told(f"{name}: it fails", (114, 201), raised(shop.control.print, TEXT))
            device.cover(False)
            told(f"{name}: it comes out later", True, until(
                lambda: shop.till.run_devices(0.01) is not None and not shop.driver.link._due) and shop.settle())
            told(f"{name}: the other one, and it again", [None] * 2,
                 [raised(shop.control.print, data) for data in (between, TEXT)])
            told(f"{name}: the paper", [*text, *[b"Other"] * (b"Other" in between), *text * is_new],
                 characters_of(device))
            told(f"{name}: what was late", int(is_new), shop.driver.late_orders)


class Losing(Printer):
    """A printer of whose acknowledgements the next one is lost."""

    is_losing = False

    def _acknowledges(self, answer):
        was_mute, self.is_mute = self.is_mute, self.is_mute or self.is_losing
        super()._acknowledges(answer)
        self.is_mute, self.is_losing = was_mute, False


def try_lost_acknowledgement():
    """The acknowledgement of a line is lost. The line may be, too, so that the order is printed again from it on, also
    if a later line is acknowledged. An order behind that is printed once."""
    for kind in ("usb", "tcp", "serial", "asked"):
        with contextlib.ExitStack() as stack:
            name, shop = f"a lost acknowledgement over {kind}", Shop(stack, kind, made=Losing)
            device = shop.device

            def is_done(text):
                return until(
                    lambda: shop.till.run_devices(0.01) is not None and raised(shop.control.print, text) is None)
            shop.begins()
            device.is_losing = True
            told(f"{name}: the order, and again", ((111, 0), True),
                 (raised(shop.control.print, b"One\nTwo\n"), is_done(b"One\nTwo\n")))
            # One that is asked gets one line at a time.
            printed = [b"Before", b"One", *[b"Two"] * ("asked" not in kind), b"One", b"Two"]
            told(f"{name}: the paper", printed, characters_of(device))
            device.is_losing = True
            told(f"{name}: another order, and one behind it", ((111, 0), True),
                 (raised(shop.control.print, b"Three\n"), is_done(b"Four\n")))
            told(f"{name}: their paper", [*printed, b"Three", b"Four"], characters_of(device))


# A timeout in which a printer can't be asked several times how it is, and one that no test waits for.
SHORT, LONG = 0.1, 600.0


def prints(shop, text):
    """Whether an order is done in the end, with the devices' loop between its retries."""
    return until(lambda: shop.till.run_devices(0.01) is not None and raised(shop.control.print, text) is None)


def try_lost_answer_at_a_short_timeout():
    """A printer that is asked, and whose acknowledgement is lost, or that of the marker behind it, too: it recovers in
    an order or two, at a timeout that no round of questions fits into."""
    for kind in ("asked", "asked stays", "asked tcp", "asked holds"):
        with contextlib.ExitStack() as stack:
            name, shop = f"a lost answer at {SHORT} s over {kind}", Shop(stack, kind, made=Losing, timeout=SHORT)
            device, counts = shop.device, (1, 2)
            told(f"{name}: it prints", True, prints(shop, b"Before\n"))
            for count in counts:
                text = b"One of %d\nTwo of %d\n" % (count, count)
                had = len(device.receipt())
                device.is_losing = True
                told(f"{name}: the order", (111, 0), raised(shop.control.print, text))
                device.is_losing = count > 1
                told(f"{name}: again", True, prints(shop, text))
                told(f"{name}: its acknowledgements were lost", False, device.is_losing)
                told(f"{name}: the paper", True, set(characters_of(device)[had:]) == set(text.split(b"\n")[:2]))
                told(f"{name}: its last line", text.split(b"\n")[1], characters_of(device)[-1])
            told(f"{name}: another order", True, prints(shop, b"Other\n"))
            told(f"{name}: it is printed, and nothing else is due", (b"Other", 0),
                 (characters_of(device)[-1], len(shop.driver.link._due)))


def try_power_at_a_short_timeout():
    """A printer that is asked and loses its power in a line, behind a port that stays: it recovers at a timeout that no
    round of questions fits into, and each line is whole."""
    for kind in ("asked stays", "asked tcp stays", "asked holds", "asked holds adapter"):
        with contextlib.ExitStack() as stack:
            name, shop = f"off in a line at {SHORT} s over {kind}", Shop(stack, kind, timeout=SHORT)
            device = shop.device
            told(f"{name}: it prints", True, prints(shop, b"Before\n"))
            device.ROOM = 8
            device.after_characters(5, device.pull_plug)
            told(f"{name}: the order", True, raised(shop.control.print, TEXT) is not None)
            device.plug_in()
            told(f"{name}: again", True, prints(shop, TEXT))
            told(f"{name}: each line is whole", [], not_whole(device, shop.till.device("r1").show().items))


def try_late_acknowledgement():
    """A printer that is asked, says that it can print, and is slow: it acknowledges a line long after the order has
    failed. That isn't taken for another line, at any timeout."""
    for timeout in (SHORT, 0.25, TIMEOUT):
        with contextlib.ExitStack() as stack:
            name, shop = f"a late acknowledgement at {timeout} s", Shop(stack, "asked", timeout=timeout)
            device, found = shop.device, []
            told(f"{name}: it prints", True, prints(shop, b"Before\n"))
            # It takes long for the first line, and stops at the first character of the second one.
            device.after_characters(1, lambda: device.pauses(8 * timeout + 2))
            device.after_characters(4, device.hang)
            told(f"{name}: the order", (111, 0), raised(shop.control.print, b"One\n"))
            told(f"{name}: another one begins", True, until(
                lambda: found.append(raised(shop.control.print, b"Two\n")) or found[-1] is None or device.is_hung))
            told(f"{name}: it isn't done before it is printed", (False, [b"Before", b"One"]),
                 (None in found, characters_of(device)))
            device.hang(False)
            told(f"{name}: it is done", True, prints(shop, b"Two\n"))
            told(f"{name}: the paper", [b"Before", b"One", b"Two"], characters_of(device))


def try_late_acknowledgement_over_another_connection():
    """A printer that is asked is slow, and its connection ends meanwhile. What it acknowledges over the next one, as
    behind a print server, isn't taken for a line that is sent over that."""
    for kind in ("asked tcp", "asked tcp stays"):
        with contextlib.ExitStack() as stack:
            name, shop = f"an acknowledgement over another connection, {kind}", Shop(stack, kind, timeout=2.0)
            device, found = shop.device, []
            told(f"{name}: it prints", True, prints(shop, b"Before\n"))
            device.after_characters(1, lambda: device.pauses(3.0))
            device.after_characters(4, device.hang)
            told(f"{name}: the order", (111, 0), raised(shop.control.print, b"One\n"))
            with device.lock:
                device.cable.drop()
            told(f"{name}: another one begins", True, until(lambda: shop.till.run_devices(0.01) is not None and (
                found.append(raised(shop.control.print, b"Two\n")) or found[-1] is None or device.is_hung)))
            told(f"{name}: it isn't done before it is printed", (False, [b"Before", b"One"]),
                 (None in found, characters_of(device)))
            device.hang(False)
            told(f"{name}: it is done", True, prints(shop, b"Two\n"))
            told(f"{name}: the paper", [b"Before", b"One", b"Two"], characters_of(device))


def try_another_connection_at_a_short_timeout():
    """A network printer that is asked, and is off for a moment while its cover is open: a question that it has lost
    doesn't keep it from being found, at a timeout that is shorter than late answers may be apart."""
    for kind in ("asked tcp", "tcp"):
        with contextlib.ExitStack() as stack:
            name, shop = f"off in a line with an open cover, at {SHORT} s over {kind}", Shop(stack, kind, timeout=SHORT)
            device = shop.device
            told(f"{name}: it prints", True, prints(shop, b"Before\n"))
            device.after_characters(5, lambda: device.cover(True))
            told(f"{name}: the order", True, raised(shop.control.print, TEXT) is not None)
            until(lambda: shop.till.run_devices(0.01) is None, 0.5)
            device.pull_plug()
            device.cover(False)
            device.plug_in()
            told(f"{name}: again", True, prints(shop, TEXT))
            told(f"{name}: each line is whole", [], not_whole(device, shop.till.device("r1").show().items))


class Distant(Printer):
    """A printer whose answers about itself come 0.3 seconds late."""

    is_about_itself = False

    def __init__(self, *words, **named):
        super().__init__(*words, **named)
        self.timers = []

    def _status_now(self, kind):
        self.is_about_itself = True
        return super()._status_now(kind)

    def send(self, data):
        if self.is_about_itself:
            self.timers.append(threading.Timer(0.3, self.garbage, [bytes(data)]))
            self.timers[-1].start()
        else:
            super().send(data)
        self.is_about_itself = False

    def ends(self):
        """Waits until nothing comes any more."""
        for timer in self.timers:
            timer.join()


def try_late_answers_at_a_short_timeout():
    """A printer that answers later than the timeout how it is: none of its answers is taken for another."""
    for kind in ("asked", "usb"):
        with contextlib.ExitStack() as stack:
            name, shop = f"answers after 0.3 s at {SHORT} s over {kind}", Shop(stack, kind, made=Distant, timeout=SHORT)
            # The bit of the drawer's pin is that of an open cover in another answer.
            shop.device.drawer(True)
            heard = []
            until(lambda: shop.till.run_devices(0.01) is None or heard.append(shop.driver.link.signs.get("cover")), 4)
            told(f"{name}: its cover was never open", False, "open" in heard)
            told(f"{name}: no event says so", [], [
                event for event in shop.control.events() if getattr(event, "status", 0) in (11, 24)])
            shop.device.ends()


def try_lost_word_at_a_long_timeout():
    """A printer is well again, and what it has said of that is lost, or it says nothing, since it was off: it is asked
    long before a long timeout is over."""
    for kind in ("usb", "serial", "tcp", "holds", "asked", "asked holds"):
        with contextlib.ExitStack() as stack:
            name = f"a lost word at {LONG} s over {kind}"
            shop = Shop(stack, kind, timeout=LONG, made=HearingPrinter if "asked" in kind else Printer)
            device = shop.device
            told(f"{name}: it prints", None, raised(shop.control.print, b"Before\n"))
            device.cover(True)
            told(f"{name}: its cover is open", True, until(
                lambda: shop.till.run_devices(0.01) is not None and shop.control.cover_open))
            # It is asked to say what changes, and keeps that for later.
            until(lambda: shop.till.run_devices(0.01) is None, 0.3)
            device.mute()
            device.cover(False)
            until(lambda: shop.till.run_devices(0.01) is None, 0.7)
            device.mute(False)
            told(f"{name}: its cover is closed", True, until(
                lambda: shop.till.run_devices(0.01) is not None and not shop.control.cover_open))
            told(f"{name}: it prints again", None, raised(shop.control.print, TEXT))
            shop.same_paper(f"{name}: the paper")
    for kind in ("usb stays", "tcp stays", "serial", "asked stays"):
        with contextlib.ExitStack() as stack:
            name, shop = f"off while its cover is open, at {LONG} s over {kind}", Shop(stack, kind, timeout=LONG)
            device = shop.device
            told(f"{name}: it prints", None, raised(shop.control.print, b"Before\n"))
            device.cover(True)
            told(f"{name}: its cover is open", True, until(
                lambda: shop.till.run_devices(0.01) is not None and shop.control.cover_open))
            device.pull_plug()
            device.cover(False)
            device.plug_in()
            told(f"{name}: its cover is closed", True, until(
                lambda: shop.till.run_devices(0.01) is not None and not shop.control.cover_open))
            told(f"{name}: it prints again", None, raised(shop.control.print, TEXT))
            shop.same_paper(f"{name}: the paper")
    for kind in ("usb", "asked"):
        with contextlib.ExitStack() as stack:
            name, shop = f"the first answer is lost, at {LONG} s over {kind}", Shop(stack, kind, timeout=LONG)
            device = shop.device
            device.pull_plug()
            told(f"{name}: it is off", True, until(
                lambda: shop.till.run_devices(0.01) is not None and not shop.driver.is_online))
            device.mute()
            device.plug_in()
            until(lambda: shop.till.run_devices(0.01) is None, 0.7)
            device.mute(False)
            told(f"{name}: it is there", True, until(
                lambda: shop.till.run_devices(0.01) is not None and shop.driver.is_online))
            told(f"{name}: it prints", None, raised(shop.control.print, TEXT))
            shop.same_paper(f"{name}: the paper")


def try_reset_connection():
    """A network printer has acknowledged lines, and its connection is reset before anybody has read that: the next
    write fails. What was acknowledged isn't printed again."""
    text = b"".join(b"Line %02d\n" % number for number in range(40))
    with contextlib.ExitStack() as stack:
        shop, waited = Shop(stack, "tcp", timeout=PATIENCE), []
        device, port = shop.device, shop.driver.link.port
        shop.begins()
        device.slow(0.02)
        write = port.write_some

        def write_late(data):
            """Nothing is read until the printer has done all that it got."""
            if b"Line 32" in data and not waited:
                waited.append(len(device.receipt()))
                device.slow(0)
                device.wait(lambda: device.is_idle and not device._sends)
                with device.lock:
                    device.cable.reset()
                ends = select.poll()
                ends.register(port.fileno(), 0)
                ends.poll(PATIENCE * 1000)
            return write(data)
        stack.enter_context(mock.patch.object(port, "write_some", write_late))
        told("a connection that is reset in an order", (108, 0), raised(shop.control.print, text))
        told("some lines were acknowledged and not read", True, waited[0] < 20)
        told("it is connected again", True, shop.settle())
        told("the order again", None, raised(shop.control.print, text))
        shop.same_paper("a connection that is reset: the paper")


def try_refused_output():
    """Output that waits and is refused, in the guide's loop: it is tried again, but not at once."""
    with contextlib.ExitStack() as stack:
        shop = Shop(stack)
        sender = stack.enter_context(Scanner(cable()))
        shop.till.drive("s1", WedgeScanner(sender.path, pause=PAUSE))
        scanner = shop.till.scanner("s1")
        scanner.claim()
        scanner.device_enabled = scanner.data_event_enabled = True
        shop.device.cover(True)
        shop.settle()
        list(shop.till.events())
        shop.control.async_mode = True
        told("accepted", None, raised(shop.control.print, TEXT))
        end, rounds, errors = time.monotonic() + 0.5, 0, 0
        while time.monotonic() < end:
            rounds += shop.till.run_devices(1.0)
            errors += sum(isinstance(event, kijolvar.ErrorEvent) for event in shop.till.events())
        told("refused output: how often it is tried", True, 1 <= errors <= 6 and rounds <= 2 * errors + 2)
        shop.device.cover(False)
        shop.settle()
        told("then it is printed", True, until(lambda: shop.till.run_devices(0.05) and shop.control.state == 2))
        shop.same_paper("refused output: the paper")
        list(shop.till.events())
        shop.device.slow(0.02)
        told("more output", [None] * 5, [raised(shop.control.print, TEXT) for _ in range(5)])
        shop.device.after(30, lambda: sender.scan(b"123"))
        rounds = []
        while sum(names.count("OutputCompleteEvent") for names in rounds) < 5 and shop.till.run_devices(1.0):
            rounds.append([type(event).__name__ for event in shop.till.events()])
        told("a call prints one request", 1, max(names.count("OutputCompleteEvent") for names in rounds))
        told("all are printed", 5, sum(names.count("OutputCompleteEvent") for names in rounds))
        told("a scan comes between requests", True, any("DataEvent" in names for names in rounds[:-1]))


def try_order_of_lines():
    """Lines after one that waits are carried out after it, and all answers come."""
    with contextlib.ExitStack() as stack:
        shop = Shop(stack)
        word = shop.control.name
        lines = f"get {word} State\ncall {word} printNormal 2 410a\n# no answer\nget {word} State\n"
        lines += f"call {word} printNormal 2 420a\ncall {word} cutPaper 100\nget {word} CoverOpen\n"
        told("lines around orders", "ok 2\nok\nok 2\nok\nok\nok false\n", shop.till.carry_out(lines))
        shop.same_paper("lines around orders: the paper")
        shop.device.after(20, lambda: shop.device.cover(True))
        lines = f"call {word} printNormal 2 430a\ncall {word} printNormal 2 440a\nget {word} CoverOpen\n"
        told("lines around an order that fails", "ok\nerr 114 201\nok true\n", shop.till.carry_out(lines))
        shop.device.cover(False)
        shop.settle()
        told("the order again", "ok\n", shop.till.carry_out(f"call {word} printNormal 2 440a\n"))
        shop.same_paper("lines around an order that fails: the paper")


def try_errands():
    """Lines that wait between lines that change the totals in a file: all is in the file once it is answered."""
    path = CHECKS.work / "errands"
    with contextlib.ExitStack() as stack:
        till = stack.enter_context(opened(PROFILE, path, create=True))
        device = stack.enter_context(Printer(cable()))
        till.drive("r1", EscPosPrinter(device.path, timeout=TIMEOUT, pause=PAUSE))
        totals = till.totals("t1")
        totals.create("COUNT", 1)
        printer = stack.enter_context(till.printer("r1").in_use())
        handle = totals["COUNT"].handle

        def lines(first, text, second):
            return (f"call {totals.name} write {handle} 0 {first:02x}\ncall {printer.name} printNormal 2 {text}\n"
                    f"call {totals.name} write {handle} 0 {second:02x}\n")

        def kept():
            return path.read_bytes(), totals["COUNT"].read(count=1)
        told("totals around an order", "ok\nok\nok\n", till.carry_out(lines(1, "410a", 2)))
        told("they are there", b"\2", kept()[1])
        device.after(5, lambda: device.cover(True))
        told("totals around an order that fails", "ok\nerr 114 201\nok\n", till.carry_out(lines(3, "420a", 4)))
        told("they are there too", b"\4", kept()[1])
        before = path.read_bytes()
        stack.pop_all().close()
    told("nothing is written at the end", True, len(path.read_bytes()) == len(before))
    told("the file", b"\4", kijolvar.files(path, library=LIBRARY).files[b"COUNT"])


def try_interrupts():
    """An interrupt during an order: it failed, and the till goes on."""
    with contextlib.ExitStack() as stack:
        shop = Shop(stack, timeout=5)
        shop.device.hang()
        signal.signal(signal.SIGALRM, signal.default_int_handler)
        signal.setitimer(signal.ITIMER_REAL, 0.1)
        try:
            shop.control.print(TEXT)
            found = "no interrupt"
        except KeyboardInterrupt:
            found = "interrupted"
        told("an interrupt during an order", "interrupted", found)
        shop.device.hang(False)
        told("the till goes on", None, raised(shop.control.print, TEXT))
        shop.same_paper("the order that was interrupted, again")
        screen = stack.enter_context(Display(cable(), 2, 20))
        driver = SerialDisplay(screen.path, pause=PAUSE)
        shop.till.drive("p1", driver)
        display = stack.enter_context(shop.till.display("p1").in_use())
        told("a row", None, raised(display.display_text, b"Bread"))

        def half(data, seconds):
            driver.port.write_some(data[:3])
            raise InterruptedError("a signal's handler")
        with mock.patch.object(driver.port, "write", half):
            told("an interrupt in a row", "InterruptedError", name_of(display.display_text_at, 1, 0, b"Milk"))
        told("the row again", True, until(lambda: shop.till.run_devices(0.01) is not None and raised(
            display.display_text_at, 1, 0, b"Milk") is None))
        wanted = b"Bread" + b" " * 15 + b"Milk" + b" " * 16
        told("both rows", True, screen.wait(lambda: screen.shows() == wanted, PATIENCE) or screen.shows())


def try_interrupted_reports():
    """An interrupt before the report of an order: what happened at the device is told later."""
    with contextlib.ExitStack() as stack:
        shop = Shop(stack)
        session, reports = shop.till._session, shop.till._session._order_done

        def interrupted(*_):
            session._order_done = reports
            raise InterruptedError("a signal's handler")
        session._order_done = interrupted
        shop.device.after(20, shop.device.pull_plug)
        told("an interrupt as an order has failed", "InterruptedError", name_of(shop.control.print, TEXT))
        shop.till.run_devices()
        told("its printer is off", (108, 0), raised(shop.control.print, TEXT))
        shop.device.plug_in()
        told("it is on again", True, shop.settle())
        told("it prints", None, raised(shop.control.print, TEXT))
        shop.same_paper("an interrupt as an order has failed: the paper")
        shop.till.drive("d1", EscPosDrawer(shop.driver))
        screen = stack.enter_context(Display(cable(), 2, 20))
        shop.till.drive("p1", SerialDisplay(screen.path, pause=PAUSE))
        display = stack.enter_context(shop.till.display("p1").in_use())
        serves = session.serve

        def serves_once(line):
            session.serve = serves
            serves(line)
            raise InterruptedError("a signal's handler")
        for order, words in ((shop.control.print, (TEXT,)), (display.display_text_at, (1, 0, b"Milk"))):
            session.serve = serves_once
            told("an interrupt as an order is done", "InterruptedError", name_of(order, *words))
        told("other orders", [None] * 2, [raised(shop.till.drawer("d1").open_drawer),
                                          raised(display.display_text, b"Bread")])
        wanted = b"Bread" + b" " * 35
        told("the display shows what the till shows", True, screen.wait(lambda: screen.shows() == wanted, PATIENCE))
        told("the first one again", None, raised(shop.control.print, TEXT))
        shop.same_paper("an interrupt as an order is done: the paper")


# The steps of an order in which an interrupt costs nothing: a retry prints once. In others an acknowledgement is lost.
STEPS = {("_links.py", "carry_out"), ("_links.py", "_post"), ("_links.py", "_send"), ("_links.py", "_writes"),
         ("_links.py", "_acknowledged"), ("_links.py", "is_done"), ("_drives.py", "serve")}


class Interrupt:
    """A trace that raises a KeyboardInterrupt before the line of this number of some steps, or of the package."""

    def __init__(self, number, steps=None):
        self.left, self.where, self.steps = number, None, steps

    def __call__(self, frame, event, argument):
        code = frame.f_code
        step = os.path.basename(code.co_filename), code.co_name
        if "/kijolvar/" not in code.co_filename or self.steps is not None and step not in self.steps:
            return None
        self.left -= event == "line"
        if self.left == 0 and event == "line":
            self.where = *step, frame.f_lineno
            raise KeyboardInterrupt
        return self


def try_interrupted_steps():
    """An interrupt before each step of an order in turn: a retry prints what is left, and nothing twice."""
    number, wrong = 0, []
    with contextlib.ExitStack() as stack:
        shop = Shop(stack, timeout=5)
        while number == 0 or trace.where is not None:
            number += 1
            lines = [b"%d %d" % (number, place) for place in range(2)]
            before, trace, faults = len(shop.device.receipt()), Interrupt(number, STEPS), []
            sys.settrace(trace)
            try:
                shop.control.print(b"".join(line + b"\n" for line in lines))
            except KeyboardInterrupt:
                sys.settrace(None)
                until(lambda: faults.append(name_of(shop.control.print, b"".join(line + b"\n" for line in lines)))
                      or faults[-1] is None)
            finally:
                sys.settrace(None)
            faults.append(name_of(shop.till.run_devices))
            shop.device.wait(lambda: shop.device.is_idle)
            found = characters_of(shop.device)[before:]
            if (found, set(faults)) != (lines, {None}):
                wrong.append((trace.where, found, faults[:3]))
        told("an interrupt before each step", (True, []), (number > 40, wrong[:3]))
        told("no order is late", 0, shop.driver.late_orders)
        shop.same_paper("an interrupt before each step: the paper")


def try_interrupts_anywhere():
    """An interrupt before each step of the loop and of an order in turn, while a display is back: it goes on, and shows
    what the till shows."""
    with contextlib.ExitStack() as stack:
        till = stack.enter_context(opened())
        screen = stack.enter_context(Display(cable(), 2, 20))
        driver = SerialDisplay(screen.path, pause=0.0)
        till.drive("p1", driver)
        display = stack.enter_context(till.display("p1").in_use())
        number, wrong = 0, []
        while number == 0 or trace.where is not None:
            number += 1
            driver.port.close()
            till.run_devices()
            trace = Interrupt(number)
            sys.settrace(trace)
            try:
                till.run_devices()
                display.display_text_at(0, 0, b"%05d" % number)
            except KeyboardInterrupt:
                pass
            finally:
                sys.settrace(None)
            faults = []
            until(lambda: faults.append(name_of(till.run_devices)) or raised(
                display.display_text_at, 1, 0, b"%05d" % number) is None)
            wanted = till.device("p1").show().characters
            if not screen.wait(lambda: screen.shows() == wanted, PATIENCE) or set(faults) != {None}:
                wrong.append((trace.where, wanted, screen.shows(), faults[:1]))
                break
        told("an interrupt anywhere", (True, []), (number > 100, wrong))


class Ringer(Driver):
    """Sends itself a signal while it carries out an order, and as it asks for the order's bytes."""

    def __init__(self, till):
        self.till, self.sent = till, []

    def carry_out(self, order):
        signal.raise_signal(signal.SIGUSR1)
        session, asks = self.till._session, self.till._session._order_bytes

        def rings(*words):
            code = asks(*words)
            signal.raise_signal(signal.SIGUSR1)
            return code
        with mock.patch.object(session, "_order_bytes", rings):
            self.sent.append(self.till.order_bytes(kijolvar.WireSettings()))
        return True


def try_handlers():
    """A signal's handler that uses the till during an order is refused, and the order is done."""
    with opened() as till:
        driver, drawer, settings = Ringer(till), till.drawer("d1"), kijolvar.WireSettings()
        till.drive("r1", driver)
        uses = {"a call": drawer.open_drawer, "a line": lambda: till.carry_out("show d1"), "the loop": till.run_devices,
                "a reply": lambda: till.replies("r1", settings, b"8\0\0\0"), "an event": till.next_event}
        found = []
        before = signal.signal(signal.SIGUSR1, lambda *_: found.append([name_of(use) for use in uses.values()]))
        with till.printer("r1").in_use() as printer:
            told("an order that handlers interrupt", None, raised(printer.print, b"Bread\n"))
        signal.signal(signal.SIGUSR1, before)
        told("what they can't do during an order", ["InOrderError"] * 3 + [None] * 2, found[0])
        told("and during a driver's call", ["InCallError"] * 5, found[1])
        told("the order's bytes are its own", (1, True), (len(driver.sent), b"Bread\n" in driver.sent[0]))
        told("the drawer is closed", False, drawer.drawer_opened)
        told("a loop in a loop", "InCallError", loop_in_loop(till))


def loop_in_loop(till):
    """What a driver's loop raises within the loop."""
    found = []

    class Looper(Driver):
        def poll(self):
            found.append(name_of(till.run_devices))
    till.drive("d1", Looper())
    till.run_devices()
    return found[0]


class Closer(Driver):
    """Closes the till while it carries out an order."""

    def __init__(self, till, is_failing):
        self.till, self.is_failing = till, is_failing

    def carry_out(self, order):
        self.till.close()
        if self.is_failing:
            raise OSError("the port is closed")
        return True


def try_closed_meanwhile():
    """A till that is closed while its call waits, by a signal's handler or by a driver: the call says so."""
    with contextlib.ExitStack() as stack:
        shop = Shop(stack, timeout=5)
        shop.device.hang()
        signal.signal(signal.SIGALRM, lambda *_: shop.till.close())
        signal.setitimer(signal.ITIMER_REAL, 0.1)
        told("closed by a handler", "TillClosedError", name_of(shop.control.print, TEXT))
        told("it is closed", True, shop.till.is_closed)
        time.sleep(2 * PAUSE)
        told("its loop leaves the port closed", ("TillClosedError", False),
             (name_of(shop.till.run_devices), shop.driver.link.port.is_open))
    with contextlib.ExitStack() as stack:
        shop = Shop(stack)
        signal.signal(signal.SIGALRM, lambda *_: shop.till.close())
        signal.setitimer(signal.ITIMER_REAL, 0.1)
        told("closed by a handler in its loop", ("TillClosedError", False),
             (name_of(shop.till.run_devices, PATIENCE), shop.driver.link.port.is_open))
    for is_failing in (False, True):
        with opened() as till:
            till.drive("d1", Closer(till, is_failing))
            told("closed by a driver", "TillClosedError", name_of(till.drawer("d1").open_drawer))


def try_memory():
    """Want of memory at each allocation of an order in turn: what is answered ok, or has no answer, is printed once."""
    heap = ctypes.CDLL(os.fspath(LIBRARY))
    if not hasattr(heap, "heap_refuses"):
        print("memory: this library's heap refuses nothing", flush=True)
        return
    with contextlib.ExitStack() as stack:
        shop = Shop(stack)
        wanted, number, refused, unanswered = [], 0, 0, 0
        while number - refused < 20 and number < 500:
            number += 1
            text = f"Line {number} " + "x" * min(number, 25) + "\n"
            code = code_without_memory(heap, number, shop.control.print, text)
            refused = refused if code is None else number
            # What has no answer was carried out.
            while code not in (None, kijolvar._constants.KIJOLVAR_CUT):
                code = code_without_memory(heap, 0, shop.control.print, text)
            unanswered += code is not None
            wanted.append(text.rstrip().encode())
        told("want of memory ends", True, 0 < refused < 480)
        told("want of memory: some orders have no answer", True, unanswered > 0)
        told("want of memory: the paper", wanted, characters_of(shop.device))
        told("want of memory: nothing is held", None, raised(shop.control.print, TEXT))
        shop.same_paper("want of memory: the till's paper")
        print(f"memory was refused at up to {refused} allocations, {unanswered} orders had no answer", flush=True)


def try_lines_without_memory():
    """Want of memory at each allocation of lines of which one orders something: if the call says that nothing was done,
    nothing was."""
    heap = ctypes.CDLL(os.fspath(LIBRARY))
    if not hasattr(heap, "heap_refuses"):
        return
    codes, wrong = set(), []
    for number in range(1, 60):
        with opened() as till:
            till.drive("d1", Own("CashDrawer"))
            till.carry_out("new mine CashDrawer\nopen mine d1\nset mine DeviceEnabled true\n")
            code = code_without_memory(heap, number, till.carry_out, "set mine FreezeEvents true\ncall mine openDrawer\n")
            codes.add(code)
            if code == kijolvar.KIJOLVAR_NO_MEMORY and till.carry_out("get mine FreezeEvents\n") != "ok false\n":
                wrong.append(number)
    told("what calls say without memory", {None, kijolvar.KIJOLVAR_NO_MEMORY, kijolvar.KIJOLVAR_CUT}, codes)
    told("lines that were carried out, and that nothing was done is said", [], wrong)


def try_controls_without_memory():
    """Want of memory at each allocation of a till's first control. Its call has no answer then, and the control was
    made or not: one that was is used next."""
    heap = ctypes.CDLL(os.fspath(LIBRARY))
    if not hasattr(heap, "heap_refuses"):
        return
    found = set()
    for number in range(1, 60):
        with opened() as till:
            code = code_without_memory(heap, number, till.new_control, kijolvar.CashDrawer)
            if code == kijolvar.KIJOLVAR_CUT:
                is_made = till.carry_out("get control-1 State\n") == f"ok {kijolvar.S_CLOSED}\n"
                found.add((is_made, till.new_control(kijolvar.CashDrawer).name))
    told("new controls without an answer", {(False, "control-2"), (True, "control-1")}, found)


def code_without_memory(heap, number, call, *words):
    """The code of a call during which the allocation of this number and all behind it are refused; None if it is
    done."""
    heap.heap_refuses(ctypes.c_long(number))
    try:
        call(*words)
    except kijolvar.NoMemoryError as fault:
        return fault.library_code
    finally:
        heap.heap_refuses(ctypes.c_long(0))
    return None


def try_slow():
    """A slow printer has time until the timeout for each line, and what comes later isn't printed again."""
    limit = 2.5 * TIMEOUT
    for kind in ("usb", "asked", "holds"):
        with contextlib.ExitStack() as stack:
            shop = Shop(stack, kind)
            shop.device.slow(TIMEOUT / 2)
            began = time.monotonic()
            told(f"a receipt that takes long over {kind}", None, raised(shop.control.print, TEXT + TEXT))
            told(f"a receipt that takes long over {kind}: how long", True, time.monotonic() - began > 2.5 * TIMEOUT)
            shop.device.slow(0)
            shop.same_paper(f"a receipt that takes long over {kind}: the paper")
    with contextlib.ExitStack() as stack:
        shop = Shop(stack, timeout=limit)
        shop.device.slow(limit / 10)
        told("a slow printer", None, raised(shop.control.print, TEXT))
        shop.device.slow(1.5 * limit)
        told("a printer that is too slow", (111, 0), raised(shop.control.print, TEXT))
        shop.device.slow(0)
        told("the same again", None, raised(shop.control.print, TEXT))
        shop.same_paper("a slow printer: the paper")
        told("a long order", None, raised(shop.control.print, b"A line that isn't as long as it might be\n" * 99))
        shop.same_paper("a long order: the paper")


def try_silence():
    """A printer whose answers are lost, and one that was silent from the start."""
    with contextlib.ExitStack() as stack:
        shop = Shop(stack)
        shop.device.mute()
        told("answers are lost", (111, 0), raised(shop.control.print, TEXT))
        shop.device.mute(False)
        told("answers are lost: again", None, raised(shop.control.print, TEXT))
        shop.same_paper("answers are lost: the paper")
        shop.device.hang()
        began = time.monotonic()
        told("silent", (111, 0), raised(shop.control.print, TEXT))
        told("silent: in time", True, TIMEOUT <= time.monotonic() - began < TIMEOUT + SLACK)
        told("after longer silence it counts as off", True,
             until(lambda: shop.till.run_devices(0.05) and raised(shop.control.print, TEXT) == (108, 0)))
        shop.device.hang(False)
        told("it answers again", True, shop.settle())
        told("it prints again", None, raised(shop.control.print, TEXT))
        shop.same_paper("silence: the paper")
        shop.device.hang()
        told("it counts as off without an order too", True,
             until(lambda: shop.till.run_devices(0.05) and not shop.driver.is_online))
        told("off", (108, 0), raised(shop.control.print, TEXT))
    with contextlib.ExitStack() as stack:
        device = stack.enter_context(Printer(cable()))
        device.hang()
        till = stack.enter_context(opened())
        began = time.monotonic()
        till.drive("r1", EscPosPrinter(device.path, timeout=TIMEOUT, pause=PAUSE))
        told("silent from the start: in time", True, time.monotonic() - began < TIMEOUT + SLACK)
        with till.printer("r1").in_use() as printer:
            told("silent from the start: it is off", (108, 0), raised(printer.print, TEXT))
            device.hang(False)
            until(lambda: till.run_devices(0.05) and raised(printer.print, TEXT) is None)
            same_paper("silent from the start: the paper", device, till.device("r1").show().items)


def try_retries():
    """A silent printer counts as off while its order is tried again and again."""
    for kind in ("usb", "asked", "serial"):
        with contextlib.ExitStack() as stack:
            shop = Shop(stack, kind)
            shop.device.hang()
            answers = []
            for _ in range(4):
                answers.append(raised(shop.control.print, TEXT))
                shop.till.run_devices()
            told(f"retries of a silent printer over {kind}", [(111, 0)] + 3 * [(108, 0)], answers)
            shop.device.hang(False)
            told(f"it answers again over {kind}", True, shop.settle())
            told(f"it prints again over {kind}", None, raised(shop.control.print, TEXT))
            shop.same_paper(f"retries over {kind}: the paper")


def try_quick_switch():
    """A printer that is switched off and on again so quickly that no question is unanswered, behind a port that stays
    open. It tells nothing by itself then, and forgets that it was asked for its status."""
    for kind in ("serial", "usb stays", "tcp stays"):
        for was_open in (True, False):
            name = f"off and on with the cover {'open' if was_open else 'closed'}, over {kind}"
            with contextlib.ExitStack() as stack:
                shop = Shop(stack, kind)
                shop.device.cover(was_open)
                shop.settle()
                shop.till.run_devices()
                shop.device.pull_plug()
                until(lambda: shop.till.run_devices(0.01) and False, TIMEOUT / 4)
                shop.device.cover(False)
                shop.device.plug_in()
                told(f"{name}: it is closed", True,
                     until(lambda: shop.till.run_devices(0.01) or not shop.control.cover_open))
                told(f"{name}: it prints", None, raised(shop.control.print, TEXT))
                until(lambda: shop.till.run_devices(0.01) and False, 1.5 * TIMEOUT)
                shop.device.cover(True)
                told(f"{name}: it tells its cover", True,
                     until(lambda: shop.till.run_devices(0.01) and shop.control.cover_open))
                shop.same_paper(f"{name}: the paper")


def try_cut_off():
    """A network printer that doesn't answer is connected to again, as one that was cut off would need; but not while an
    order is due, which it may print still."""
    for kind in ("tcp", "asked tcp"):
        with contextlib.ExitStack() as stack:
            shop = Shop(stack, kind)
            port = shop.driver.link.port
            told(f"{kind}: its connection may wait for long", 0, option_of(port, socket.TCP_USER_TIMEOUT))
            shop.device.hang()
            told(f"{kind}: it doesn't answer", True,
                 until(lambda: shop.till.run_devices(0.01) is not None and not port.is_open))
            told(f"{kind}: it counts as off", (108, 0), raised(shop.control.print, TEXT))
            shop.device.hang(False)
            told(f"{kind}: it is back", True, shop.settle())
            told(f"{kind}: it prints", None, raised(shop.control.print, TEXT))
            shop.device.hang()
            told(f"{kind}: it doesn't answer an order", (111, 0), raised(shop.control.print, TEXT))
            told(f"{kind}: it stays connected", False, until(
                lambda: shop.till.run_devices(0.01) is not None and not port.is_open, 3 * TIMEOUT))
            shop.device.hang(False)
            told(f"{kind}: it answers again", True, shop.settle())
            told(f"{kind}: it prints again", None, raised(shop.control.print, TEXT))
            shop.same_paper(f"{kind}: the paper")


def option_of(port, option):
    """An option of a TCP port's connection."""
    with socket.socket(fileno=os.dup(port.fileno())) as made:
        return made.getsockopt(socket.IPPROTO_TCP, option)


class HeldPrinter(Printer):
    """A printer behind a line that holds back what is sent for a time."""

    held = None

    def arrives(self, data):
        if self.held is None:
            return super().arrives(data)
        self.held += data
        return b""

    def hold(self, is_held):
        with self.lock:
            held, self.held = self.held, bytearray() if is_held else None
            self._got += self.arrives(held or b"")
        self._wake()


def try_held_back():
    """Late answers of a printer that is asked, to questions that a line has held back: none is taken for another."""
    with contextlib.ExitStack() as stack:
        shop = Shop(stack, "asked", made=HeldPrinter)
        # The bit of the drawer's pin is that of an open cover in another answer.
        shop.device.drawer(True)
        shop.settle()
        list(shop.control.events())
        shop.device.hold(True)
        until(lambda: shop.till.run_devices(0.01) and False, 5 * TIMEOUT)
        told("questions that are held back", (True, False), (shop.device.held.count(b"\x10\x04\1") > 2, shop.driver.is_online))
        shop.device.hold(False)
        until(lambda: shop.till.run_devices(0.01) and False, TIMEOUT)
        told("late answers", ([], True), (list(shop.control.events()), shop.driver.is_online))
        told("then it prints", None, raised(shop.control.print, TEXT))
        shop.same_paper("held back: the paper")


def try_power_behind_a_cause():
    """A printer that is asked tells why it is offline while its line holds back the end of what it was sent, and is off
    and on again: the end that it prints then isn't told as the whole."""
    with contextlib.ExitStack() as stack:
        shop = Shop(stack, "asked holds", made=LatePrinter)
        shop.begins()
        shop.device.ROOM = 8
        shop.device.cover(True)
        told("it is asked for its paper", True,
             until(lambda: shop.till.run_devices(0.01) is not None and shop.device.kept is not None))
        timer = threading.Timer(TIMEOUT / 4, shop.device.answers)
        timer.start()
        told("its cover is open", (114, 201), raised(shop.control.print, TEXT))
        timer.join()
        shop.device.pull_plug()
        until(lambda: shop.till.run_devices(0.01) and False, 1.5 * TIMEOUT)
        shop.device.plug_in()
        shop.device.cover(False)
        told("it is done after all", True, until(
            lambda: shop.till.run_devices(0.01) is not None and raised(shop.control.print, TEXT) is None))
        items = shop.till.device("r1").show().items
        told("each line is whole", (4, []), (len(items), not_whole(shop.device, items)))


def try_off_with_open_cover():
    """A printer with RTS/CTS is switched off while its cover is open. If it has answered meanwhile, its silence tells
    that it is off. If it takes nothing while it is offline, it may as well be on."""
    for kind, made in (("holds", HearingPrinter), ("asked holds", HearingPrinter), ("holds", Printer)):
        is_hearing = made is HearingPrinter
        name = f"off with an open cover, over {kind}, hearing {is_hearing}"
        with contextlib.ExitStack() as stack:
            shop = Shop(stack, kind, made=made)
            device, driver = shop.device, shop.driver
            shop.begins()
            device.after_characters(4, lambda device=device: device.cover(True))
            told(f"{name}: its cover is opened in an order", (114, 201), raised(shop.control.print, b"A line\n"))
            until(lambda: shop.till.run_devices(0.01) is None, 4 * TIMEOUT)
            told(f"{name}: it is open still", ((114, 201), True),
                 (raised(shop.control.print, b"A line\n"), driver.is_online))
            device.pull_plug()
            is_off = until(lambda: shop.till.run_devices(0.01) is not None and not driver.is_online,
                           PATIENCE if is_hearing else 4 * TIMEOUT)
            told(f"{name}: it counts as off", (is_hearing, (108, 0) if is_hearing else (114, 201)),
                 (is_off, raised(shop.control.print, b"A line\n")))
            device.cover(False)
            device.plug_in()
            told(f"{name}: again", True, until(
                lambda: shop.till.run_devices(0.01) is not None and raised(shop.control.print, b"A line\n") is None))
            told(f"{name}: the line is whole", [], not_whole(device, shop.till.device("r1").show().items))


def try_questions_behind_a_line():
    """A printer is off for long, and its line keeps what it is sent: it isn't asked again and again, since it would have
    to answer each question once it is on."""
    for kind in ("holds", "asked holds"):
        with contextlib.ExitStack() as stack:
            shop = Shop(stack, kind)
            link, device = shop.driver.link, shop.device
            shop.begins()
            device.pull_plug()
            # A pseudo terminal doesn't tell what it keeps.
            kept = stack.enter_context(mock.patch.object(
                kijolvar.SerialPort, "is_holding", mock.PropertyMock(side_effect=lambda: device.cable.waiting() > 0)))
            with mock.patch.object(link, "_asks", wraps=link._asks) as asks:
                until(lambda: shop.till.run_devices(0.01) is None, 6 * TIMEOUT)
                told(f"it is asked once, over {kind}", (True, False), (asks.call_count <= 1, shop.driver.is_online))
            told(f"the line is looked at, over {kind}", True, kept.called)
            device.plug_in()
            told(f"it is back, over {kind}", True, shop.settle())
            told(f"it prints, over {kind}", True, until(
                lambda: shop.till.run_devices(0.01) is not None and raised(shop.control.print, TEXT) is None))
            shop.same_paper(f"off for long, over {kind}: the paper")


def try_cause_behind_a_line():
    """A printer that runs out of paper while it is off, and whose line has kept questions meanwhile. An answer to one
    of them doesn't tell why it is offline."""
    with contextlib.ExitStack() as stack:
        shop = Shop(stack, "holds", made=HearingPrinter)
        shop.begins()
        device, link = shop.device, shop.driver.link
        device.pull_plug()
        with mock.patch.object(link, "_ask", wraps=link._ask) as asks:
            told("questions that the line keeps", True, until(
                lambda: shop.till.run_devices(0.01) is not None and asks.call_count > 2 and not shop.driver.is_online))
        # The bit of the drawer's pin is that of an open cover in another answer.
        device.drawer(True)
        with device.lock:
            device.lines_left, device.is_short = 0, True
        list(shop.control.events())
        device.plug_in()
        told("it has no paper", True, until(lambda: shop.till.run_devices(0.01) is not None and shop.control.rec_empty))
        told("an order then", (114, 203), raised(shop.control.print, TEXT))
        told("its cover is closed", (False, [24]), (shop.control.cover_open, [
            event.status for event in shop.control.events() if event.status < 2000]))
        device.load(1000)
        told("it prints with paper", True, until(
            lambda: shop.till.run_devices(0.01) is not None and raised(shop.control.print, TEXT) is None))
        told("each line is whole", [], not_whole(device, shop.till.device("r1").show().items))


def try_status_before_an_answer():
    """An automatic status that says that the printer is offline comes before the answer to a question: that answer
    isn't taken for the cause."""
    with contextlib.ExitStack() as stack:
        shop = Shop(stack, made=HeldPrinter)
        shop.begins()
        list(shop.control.events())
        shop.device.hold(True)
        told("a question is out", True, until(
            lambda: shop.till.run_devices(0.01) is not None and b"\x10\x04\1" in shop.device.held))
        shop.device.garbage(b"\x1c\0\0\0")
        told("it is offline", True, until(
            lambda: shop.till.run_devices(0.01) is not None and shop.driver.link.signs.get("offline") == "yes"))
        shop.till.run_devices()
        # The bit of the drawer's pin is that of an open cover in the answer to another question.
        shop.device.garbage(b"\x16")
        shop.device.wait(lambda: not shop.device._sends)
        until(lambda: shop.till.run_devices(0.01) and False, TIMEOUT / 4)
        told("its cover is closed", False, shop.control.cover_open)
        shop.device.hold(False)
        told("it is online again", True, until(
            lambda: shop.till.run_devices(0.01) is not None and shop.driver.link.signs.get("offline") == "no"))
        told("its cover was never open", [], [event.status for event in shop.control.events()])
        told("it prints", None, raised(shop.control.print, TEXT))


def try_status_before_a_cause():
    """An automatic status comes after a printer was asked why it is offline, and before its answer: that is older."""
    with contextlib.ExitStack() as stack:
        shop = Shop(stack, made=HeldPrinter, timeout=max(TIMEOUT, 1.0))
        shop.begins()
        list(shop.control.events())
        shop.device.hold(True)

        def is_asked(question):
            return until(lambda: shop.till.run_devices(0.01) is not None and b"\x10\x04" + question in shop.device.held)
        told("a question is out", True, is_asked(b"\1"))
        shop.device.garbage(b"\x1a")
        told("it is offline, and asked why", True, is_asked(b"\2"))
        # It is online, as it says by itself; its cover was open, and it had paper.
        for answers in (b"\x10\0\0\0\x16", b"\x12"):
            shop.device.garbage(answers)
            shop.device.wait(lambda: not shop.device._sends)
            until(lambda: shop.till.run_devices(0.01) is None, TIMEOUT / 4)
        told("its cover is closed", (False, []), (shop.control.cover_open, list(shop.control.events())))
        shop.device.hold(False)
        told("it prints", True, until(
            lambda: shop.till.run_devices(0.01) is not None and raised(shop.control.print, TEXT) is None))
        shop.same_paper("a status before a cause: the paper")


def try_late_answers():
    """A printer that is switched on without paper and answers late, at a port that holds nothing back. It is asked
    again meanwhile, and other questions were lost: no answer is taken for another."""
    for kind in ("usb stays", "tcp stays"):
        with contextlib.ExitStack() as stack:
            name, shop = f"late answers over {kind}", Shop(stack, kind, made=HeldPrinter)
            shop.begins()
            device = shop.device
            device.pull_plug()
            with mock.patch.object(shop.driver.link, "_ask", wraps=shop.driver.link._ask) as asks:
                told(f"{name}: questions are lost", True, until(
                    lambda: shop.till.run_devices(0.01) is not None and asks.call_count >= 2))
            # The bit of the drawer's pin is that of an open cover in another answer.
            device.drawer(True)
            with device.lock:
                device.lines_left, device.is_short = 0, True
            list(shop.control.events())
            device.hold(True)
            device.plug_in()
            told(f"{name}: it is asked again", True, until(
                lambda: shop.till.run_devices(0.01) is not None and device.held.count(b"\x10\x04\1") >= 2))
            device.hold(False)
            told(f"{name}: it has no paper", True, until(
                lambda: shop.till.run_devices(0.01) is not None and shop.control.rec_empty))
            told(f"{name}: its cover was never open", (False, [24]), (shop.control.cover_open, [
                event.status for event in shop.control.events() if event.status < 2000]))
            device.load(1000)
            told(f"{name}: it prints with paper", True, until(
                lambda: shop.till.run_devices(0.01) is not None and raised(shop.control.print, TEXT) is None))
            shop.same_paper(f"{name}: the paper")


def try_another_cause():
    """A printer that is offline, loses its power for a moment, and is offline for another cause then, behind a port
    that stays open. It says nothing by itself: it is asked, but rarely."""
    for kind in ("serial", "usb stays", "tcp stays"):
        with contextlib.ExitStack() as stack:
            name, shop = f"another cause over {kind}", Shop(stack, kind)
            shop.begins()
            device = shop.device
            device.cover(True)
            told(f"{name}: its cover is open", (True, True), (shop.settle(), shop.control.cover_open))
            device.pull_plug()
            device.cover(False)
            with device.lock:
                device.lines_left, device.is_short = 0, True
            device.plug_in()
            told(f"{name}: it has no paper", True, until(lambda: shop.till.run_devices(0.01) is not None and
                                                         shop.control.rec_empty and not shop.control.cover_open))
            told(f"{name}: an order then", (114, 203), raised(shop.control.print, TEXT))
            with mock.patch.object(shop.driver.link, "_asks", wraps=shop.driver.link._asks) as asks:
                until(lambda: shop.till.run_devices(0.01) is None, 5 * TIMEOUT)
                told(f"{name}: it is asked rarely", True, 0 < asks.call_count <= 30)
            device.load(1000)
            told(f"{name}: it prints with paper", True, until(
                lambda: shop.till.run_devices(0.01) is not None and raised(shop.control.print, TEXT) is None))
            shop.same_paper(f"{name}: the paper")


def try_order_within_the_loop():
    """A signal's handler that orders something of a printer while the loop is at it, or at its drawer."""
    with contextlib.ExitStack() as stack:
        till, device = stack.enter_context(opened()), stack.enter_context(Printer(cable()))
        driver = EscPosPrinter(device.path, drawer="d1", timeout=TIMEOUT, pause=PAUSE)
        till.drive("r1", driver)
        control, drawer, found = stack.enter_context(till.printer("r1").in_use()), till.drawer("d1"), []
        receive = driver.link._receive

        def rings():
            receive()
            found.extend(name_of(use) for use in (drawer.open_drawer, lambda: control.print(TEXT)))
        with mock.patch.object(driver.link, "_receive", rings):
            told("the loop goes on", None, name_of(till.run_devices))
        # It is at the printer, and at its drawer.
        told("orders within the loop", ["InCallError"] * 4, found)
        told("they have done nothing", ([], [], False), (device.receipt(), device.pulses, drawer.drawer_opened))
        told("the same orders behind it", [None] * 2, [raised(control.print, TEXT), raised(drawer.open_drawer)])
        same_paper("an order within the loop: the paper", device, till.device("r1").show().items)


def try_answer_from_before():
    """A late answer that comes while the line takes nothing isn't that of what is still to go out."""
    with contextlib.ExitStack() as stack:
        shop = Shop(stack, "asked")
        answers = [b"\0"]

        def takes_nothing(_):
            shop.device.garbage(answers.pop() if answers else b"")
            return 0
        with mock.patch.object(shop.driver.link.port, "write_some", takes_nothing):
            told("an order that doesn't go out", (111, 0), raised(shop.control.print, TEXT))
        told("it goes out then", True, until(lambda: shop.till.run_devices() is not None and raised(
            shop.control.print, TEXT) is None))
        shop.same_paper("an answer from before: the paper")


class Telling(Printer):
    """A simpler printer that sends its status by itself whenever it is switched on, until it is told not to: by its DIP
    switch."""

    def started(self):
        self._is_automatic = True
        self._changed()


def try_power_of_one_that_tells():
    """A printer that is asked, and sends an automatic status once it is on again after it has lost its power in a line:
    the status is no answer for the line."""
    for kind in ("asked stays", "asked tcp stays", "asked holds"):
        with contextlib.ExitStack() as stack:
            name, shop = f"one that tells, over {kind}", Shop(stack, kind, made=Telling, timeout=5 * TIMEOUT)
            shop.begins()
            told(f"{name}: it doesn't tell any more", True, shop.device.wait(lambda: not shop.device._is_automatic))
            shop.device.ROOM = 8
            timer = threading.Timer(TIMEOUT / 4, shop.device.plug_in)
            shop.device.after_characters(2, shop.device.pull_plug, timer.start)
            began = time.monotonic()
            told(f"{name}: the answer", (111, 0), raised(shop.control.print, b"A line that is longer\n"))
            told(f"{name}: it comes with the status", True, time.monotonic() - began < 5 * TIMEOUT)
            timer.join()
            told(f"{name}: again", True, until(
                lambda: raised(shop.control.print, b"A line that is longer\n") is None))
            told(f"{name}: another order", None, raised(shop.control.print, b"Other\n"))
            items = shop.till.device("r1").show().items
            told(f"{name}: each line is whole", (3, []), (len(items), not_whole(shop.device, items)))
            told(f"{name}: it was told again", True, shop.device.wait(lambda: not shop.device._is_automatic))
            told(f"{name}: it is online", (True, True), (shop.settle(), shop.driver.link.signs["offline"] == "no"))


def try_status_of_one_that_is_asked():
    """An automatic status is none of the answers that a printer is asked for, however it comes. A byte that is none of
    it is an answer."""
    for name, found, wanted, is_reset in (
            ("an answer", b"\0", None, False), ("a status", b"\x14\0\0\0", (111, 0), True),
            ("an answer and a status", b"\0\x14\0\0\0", None, True),
            ("a part of a status and a whole one", b"\x10\0\x14\0\0\0", (111, 0), True),
            ("a part of a status", b"\x14\0\0", (111, 0), False),
            ("a part, and a question's answer", b"\x14\0\x12", (111, 0), False),
            ("a part, and two answers", b"\x14\0\x12\0", None, False)):
        with contextlib.ExitStack() as stack:
            shop, written = Shop(stack, "asked"), []
            shop.begins()
            shop.device.hang()
            link = shop.driver.link

            def loses(data):
                """The line loses what is sent, and something else comes once a line is."""
                if b"Lost" in data:
                    os.write(shop.device.cable._master, found)
                written.append(data)
                return len(data)
            stack.enter_context(mock.patch.object(link.port, "write_some", loses))
            # Each byte comes alone.
            stack.enter_context(mock.patch.object(link.port, "read_some", lambda: os.read(link.port.fileno(), 1)))
            told(f"{name}: the order", wanted, raised(shop.control.print, b"Lost\n"))
            until(lambda: shop.till.run_devices(0.01) and False, TIMEOUT / 4)
            sent = b"".join(written).partition(b"Lost")[2]
            told(f"{name}: the start is sent again", is_reset, link._start in sent)
    with contextlib.ExitStack() as stack:
        device = stack.enter_context(Telling(cable("asked"), is_simple=True))
        till = stack.enter_context(opened())
        # It comes as soon as the port is open.
        till.drive("r1", driver := EscPosPrinter(device.path, is_asked=True, timeout=TIMEOUT, pause=PAUSE))
        told("a status before all", True, until(lambda: till.run_devices(0.01) is not None and driver.is_online
                                                and driver.link.signs == signs_of(device)))
        with till.printer("r1").in_use() as control:
            told("a status before all: an order", None, raised(control.print, TEXT))
            same_paper("a status before all: the paper", device, till.device("r1").show().items)


def try_absent():
    """A printer that isn't there yet."""
    with contextlib.ExitStack() as stack:
        device = Printer(cable())
        till = stack.enter_context(opened())
        till.drive("r1", EscPosPrinter(device.path, timeout=TIMEOUT, pause=PAUSE))
        printer = till.printer("r1")
        printer.power_notify = kijolvar.PN_ENABLED
        stack.enter_context(printer.in_use())
        told("absent", (108, 0), raised(printer.print, TEXT))
        stack.enter_context(device)
        until(lambda: till.run_devices(0.05) and raised(printer.print, TEXT) is None)
        told("the power that was told", [2004, 2001],
             [event.status for event in till.events() if isinstance(event, StatusUpdateEvent) and event.status > 2000])
        same_paper("absent: the paper", device, till.device("r1").show().items)
        told("not a device", "PortError", name_of(kijolvar.port_of(__file__).open))


def try_port_errors():
    """Why a device isn't there: its path is wrong, the rights are missing, or another program has it."""
    missing = "can't be opened: No such file or directory"
    with contextlib.ExitStack() as stack:
        till, device = stack.enter_context(opened()), Printer(cable())
        driver = EscPosPrinter(device.path, drawer="d1", timeout=TIMEOUT, pause=PAUSE)
        told("before a try", None, driver.port_error)
        till.drive("r1", driver)
        till.drive("p1", display := SerialDisplay("/dev/no-display", timeout=TIMEOUT, pause=PAUSE))
        till.drive("s1", scanner := WedgeScanner("/dev/input/no-scanner", pause=PAUSE))
        printer = stack.enter_context(till.printer("r1").in_use())
        told("a wrong path", (errno.ENOENT, f"{device.path} {missing}"), words_of(driver.port_error))
        told("that of the others", [f"/dev/no-display {missing}", f"/dev/input/no-scanner {missing}"],
             [one.port_error.strerror for one in (display, scanner)])
        told("it keeps no trace", (None, None), (driver.port_error.__traceback__, driver.port_error.__context__))
        fault = fault_of(printer.print, TEXT)
        told("a call says it", (108, f"The printer is off: {device.path} {missing}."), (fault.code, fault.reason))
        told("that of a drawer too", f"The drawer is off: {device.path} {missing}.",
             fault_of(till.drawer("d1").open_drawer).reason)
        told("that of a display too", f"The display is off: /dev/no-display {missing}.",
             fault_of(stack.enter_context(till.display("p1").in_use()).display_text, b"A", 0).reason)
        stack.enter_context(device)
        until(lambda: till.run_devices(0.05) and raised(printer.print, TEXT) is None)
        told("once it is open", (True, None), (driver.is_online, driver.port_error))
        device.mute()
        until(lambda: till.run_devices(0.01) is not None and not driver.is_online)
        told("a printer that says nothing at an open port", (None, "The printer is off."),
             (driver.port_error, fault_of(printer.print, TEXT).reason))
        device.mute(False)
        device.pull_plug()
        until(lambda: till.run_devices(0.01) is not None and driver.port_error is not None)
        told("a cable that is out", f"{device.path} {missing}", driver.port_error.strerror)
    with contextlib.ExitStack() as stack:
        device = stack.enter_context(Printer(cable("serial")))
        first = stack.enter_context(contextlib.closing(kijolvar.port_of(device.path)))
        first.open()
        second = kijolvar.port_of(device.path)
        told("a port that another one has", f"{device.path} is in use", refusal(second)[1])
        told("the port has it too", f"{device.path} is in use", second.open_error.strerror)
    barred = CHECKS.work / "barred"
    barred.touch(0o000)
    told("missing rights", repr((errno.EACCES, f"{barred} can't be opened: Permission denied")),
         without_rights(lambda: refusal(kijolvar.FilePort(barred))))
    told("a driver without a port", None, Driver().port_error)


def words_of(fault):
    """The system's number and text of a fault of a port."""
    return fault.errno, fault.strerror


def name_of(call, *words, **named):
    """The name of what a call raises, or None."""
    try:
        call(*words, **named)
    except Exception as fault:
        return type(fault).__name__
    return None


def try_status():
    """What a printer says of itself is what the till tells."""
    with contextlib.ExitStack() as stack:
        shop = Shop(stack)
        device, control = shop.device, shop.control
        device.cover(True)
        shop.settle()
        told("an open cover", True, control.cover_open)
        told("an open cover asks no printer", (114, 201), raised(control.print, TEXT))
        device.cover(False)
        device.load(10)
        shop.settle()
        told("near the end", (True, False, False), (control.rec_near_end, control.rec_empty, control.cover_open))
        told("the events", [11, 12, 25], [event.status for event in control.events()])
        told("prints near the end", None, raised(control.print, TEXT))
        shop.same_paper("near the end: the paper")
        device.load(0)
        shop.settle()
        told("no paper", (True, (114, 203)), (control.rec_empty, raised(control.print, TEXT)))
        device.load(1000)
        shop.settle()
        told("a new roll", (False, False), (control.rec_near_end, control.rec_empty))
        # Bytes that happen to be a status are one. It is asked for again, and put right.
        device.garbage(b"\x38\x00\x00\x00")
        told("a wrong status", True, until(lambda: shop.till.run_devices(0.01) and control.cover_open))
        told("a wrong status is put right", True,
             until(lambda: shop.till.run_devices(0.01) or not control.cover_open) and
             until(lambda: shop.till.run_devices(0.01) or not control.cover_open))
        list(control.events())
        for data in (b"\x10\x00", b"\x37\x22\x40\x40", bytes(range(32, 128)) * 3, b"\x37" * 9, b"\xff\xfe"):
            device.garbage(data)
            device.wait(lambda: not device._sends)
            told(f"garbage {data[:4]!r}", None, raised(control.print, TEXT))
        shop.same_paper("garbage: the paper")
        told("garbage tells nothing", [], list(control.events()))
        device.breaks(True)
        told("a jam", True, raised(control.print, TEXT) in ((111, 0),))
        device.breaks(False)
        shop.settle()
        told("a jam: again", None, raised(control.print, TEXT))
        shop.same_paper("a jam: the paper")


class Unseeing(Printer):
    """A printer whose sensor sees paper where there is none: nothing else tells of its end than that it has stopped."""

    def _status_now(self, kind):
        return 0x12 if kind == 4 else super()._status_now(kind)


class Lingering(Printer):
    """A printer that has stopped at the end of its paper as long as its cover is open, though there is a new roll."""

    def _status_now(self, kind):
        return super()._status_now(kind) | (kind == 2 and self.is_cover_open) << 5


def try_end_beside_the_sensor():
    """Printing has stopped at the end of the paper, where the sensor sees some. The till is told one thing, once."""
    with contextlib.ExitStack() as stack:
        shop = Shop(stack, "asked", made=Unseeing, timeout=max(TIMEOUT, 1.0))
        shop.begins()
        list(shop.control.events())
        shop.device.load(0)
        told("an end that no sensor sees", (114, 203), raised(shop.control.print, TEXT))
        until(lambda: shop.till.run_devices(0.01) and False, 1.0)
        told("it is told once", ([24], True), (
            [event.status for event in shop.control.events()], shop.control.rec_empty))
        shop.device.load(1000)
        told("a new roll", True, until(lambda: shop.till.run_devices(0.01) is not None and not shop.control.rec_empty))
        told("it is told once, too", (None, [26]), (
            raised(shop.control.print, TEXT), [event.status for event in shop.control.events()]))
        shop.same_paper("an end that no sensor sees: the paper")
    with contextlib.ExitStack() as stack:
        till, device = stack.enter_context(opened()), stack.enter_context(Lingering(cable(), lines=1000))
        device.cover(True)
        till.drive("r1", EscPosPrinter(device.path, timeout=TIMEOUT, pause=PAUSE, lines=1000))
        control = stack.enter_context(till.printer("r1").in_use())
        told("an open cover above a new roll", True, until(
            lambda: till.run_devices(0.01) is not None and control.cover_open))
        list(control.events())
        until(lambda: till.run_devices(0.01) and False, 1.0)
        told("there is paper", ([], False), (list(control.events()), control.rec_empty))


def try_near_end():
    """Paper that is near its end: the till takes a request of as many lines as its device's `near` while the printer
    sees paper."""
    for kind in ("usb", "asked"):
        with contextlib.ExitStack() as stack:
            shop = Shop(stack, kind)
            shop.device.near = 90
            shop.device.load(90)
            shop.settle()
            list(shop.control.events())
            shop.device.load(89)
            texts = [b"".join(b"%d %d\n" % (number, line) for line in range(15)) for number in range(3)]
            told(f"near the end over {kind}", [None] * 3, [raised(shop.control.print, text) for text in texts])
            shop.control.async_mode = True
            told(f"near the end over {kind}: waiting output", [None] * 2,
                 [raised(shop.control.print, b"y\n" * 10) for _ in range(2)])
            told(f"near the end over {kind}: it is printed", True,
                 until(lambda: shop.till.run_devices(0.01) and shop.control.state == 2))
            told(f"near the end over {kind}: no event but that", [], [
                event for event in shop.control.events() if not isinstance(event, OutputCompleteEvent)])
            told(f"near the end over {kind}: what it shows", (True, False),
                 (shop.control.rec_near_end, shop.control.rec_empty))
            shop.control.async_mode = False
            told(f"near the end over {kind}: as many as there may be", [None, None, (114, 203)],
                 [raised(shop.control.print, b"x\n" * count) for count in (1, 20, 21)])
            shop.till.run_devices()
            told(f"near the end over {kind}: the end", (None, (114, 203)),
                 (raised(shop.control.print, b"z\n" * 3), raised(shop.control.print, b"z\n" * 3)))
            told(f"near the end over {kind}: it is empty", (True, 0), (shop.control.rec_empty, shop.device.lines_left))
            shop.device.load(1000)
            shop.settle()
            told(f"near the end over {kind}: a new roll", None, raised(shop.control.print, b"z\n" * 3))
            shop.same_paper(f"near the end over {kind}: the paper")
    with contextlib.ExitStack() as stack:
        till = stack.enter_context(opened(PROFILE.replace("near = 20", "near = 0")))
        device = stack.enter_context(Printer(cable(), lines=90, near=90))
        till.drive("r1", EscPosPrinter(device.path, timeout=TIMEOUT, pause=PAUSE, lines=50))
        with till.printer("r1").in_use() as printer:
            told("a device that is never near its end", [None] * 2, [raised(printer.print, b"x\n" * 15) for _ in range(2)])
            told("it counts down", (False, till.device("r1").show().lines_left),
                 (printer.rec_near_end, 1000 - 30))


def try_drawer():
    """A drawer on a printer's connector."""
    for is_open_high in (True, False):
        with contextlib.ExitStack() as stack:
            till = stack.enter_context(opened())
            device = stack.enter_context(Printer(cable()))
            if not is_open_high:
                device.status = lambda plain=device.status: bytes([plain()[0] ^ 4, *plain()[1:]])
            printer = EscPosPrinter(device.path, pin=5, pulse=(20, 40), is_open_high=is_open_high, timeout=TIMEOUT,
                                    pause=PAUSE)
            till.drive("r1", printer)
            till.drive("d1", EscPosDrawer(printer, settle=0.1))
            drawer = till.drawer("d1")

            def hears(status):
                found = []

                def is_heard():
                    till.run_devices(0.01)
                    found.extend(event.status for event in drawer.events())
                    return bool(found)
                until(is_heard)
                return found == [status] or found
            told("the drawer is opened", None, raised(drawer.open_drawer))
            told("the pulse", [(5, 20, 40)], device.pulses)
            told("it is open", (True, True), (drawer.drawer_opened, hears(1)))
            device.drawer(False)
            told("it is closed by hand", (True, False), (hears(0), drawer.drawer_opened))
            device.drawer(True)
            told("it is opened by hand", True, hears(1))
            device.drawer(False)
            told("and closed", True, hears(0))
            device.is_drawer_stuck = True
            told("a drawer that sticks", None, raised(drawer.open_drawer))
            told("it is open, as far as is known", True, hears(1))
            told("it isn't, says its sensor", (True, False), (hears(0), drawer.drawer_opened))
            device.is_drawer_stuck = False
            device.hang()
            told("silent", (111, 0), raised(drawer.open_drawer))
            device.hang(False)
            device.wait(lambda: device.is_idle)
            device.drawer(False)
            pulses = len(device.pulses)
            told("an order for a drawer is always sent", None, raised(drawer.open_drawer))
            told("the pulses", pulses + 1, len(device.pulses))
            device.pull_plug()
            until(lambda: till.run_devices(0.01))
            told("the printer is off, and so is the drawer", (108, 0), raised(drawer.open_drawer))


def try_display():
    """A customer display."""
    for protocol in ("cd5220", "escpos"):
        for kind in ("usb", "tcp", "serial"):
            with contextlib.ExitStack() as stack:
                till = stack.enter_context(opened())
                device = stack.enter_context(Display(cable(kind), 2, 20, protocol))
                till.drive("p1", SerialDisplay(port_of(device, kind), protocol, pause=PAUSE))
                display = till.display("p1")
                stack.enter_context(display.in_use())
                name = f"a display with {protocol} over {kind}"

                def shows(text):
                    return device.wait(lambda: device.shows() == text, PATIENCE) or device.shows()
                display.display_text(b"Bread           4.50")
                told(f"{name}: a row", True, shows(b"Bread           4.50" + b" " * 20))
                display.display_text_at(1, 0, b"Total           9.00")
                told(f"{name}: two rows", True, shows(b"Bread           4.50Total           9.00"))
                if kind != "serial":
                    device.pull_plug()
                    until(lambda: till.run_devices(0.01))
                    told(f"{name}: off", (108, 0), raised(display.clear_text))
                    device.plug_in()
                    until(lambda: till.run_devices(0.01))
                    told(f"{name}: on again", None, raised(display.display_text_at, 0, 0, b"Milk "))
                    told(f"{name}: it shows all rows again", True, shows(b"Milk            4.50Total           9.00"))
                display.scroll_text(1, 1)
                told(f"{name}: scrolled", True, shows(b"Total           9.00" + b" " * 20))
                display.clear_text()
                told(f"{name}: cleared", True, shows(b" " * 40))


def try_display_that_takes_more_later():
    """A device that is no line, as /dev/usb/lp0, takes the bytes of an order at once, and more once they have left this
    machine: the order is done then. Here it is a pipe that is full with one part."""
    path = CHECKS.work / "lp0"
    os.mkfifo(path)
    device = os.open(path, os.O_RDWR | os.O_NONBLOCK)
    fcntl.fcntl(device, fcntl.F_SETPIPE_SZ, 4096)
    taken = []

    def takes():
        taken.append((time.monotonic(), os.read(device, 4096)))
    with opened() as till:
        driver = SerialDisplay(path, timeout=PATIENCE)
        with mock.patch("os.fstat", return_value=types.SimpleNamespace(st_mode=stat.S_IFCHR)):
            driver.port.open()
        till.drive("p1", driver)
        with till.display("p1").in_use() as display:
            taking = threading.Timer(0.3, takes)
            taking.start()
            fault, ended = raised(display.display_text, b"Hi"), time.monotonic()
            taking.join()
            told("it is done once they have left", (None, True, True),
                 (fault, ended >= taken[0][0], b"Hi" in taken[0][1]))
            driver._timeout = TIMEOUT
            told("one whose bytes don't leave isn't", ((108, 0), False),
                 (raised(display.display_text, b"Bread"), driver.is_online))
    os.close(device)


def try_terminal_that_sends_slowly():
    """A terminal that isn't set up as a serial line, as /dev/rfcomm0, says what it hasn't sent."""
    asks, left = fcntl.ioctl, [7, 7, 0]

    def holds(file, what, *words):
        if what != termios.TIOCOUTQ:
            return asks(file, what, *words)
        return (left.pop(0) if len(left) > 1 else left[0]).to_bytes(4, sys.byteorder)
    with Display(cable(), 2, 20) as device, contextlib.closing(kijolvar.port_of(device.path)) as port:
        port.open()
        with mock.patch("fcntl.ioctl", holds):
            told("it has sent all", (False, True, [0]), (port.is_line, port.write(b"Hi", PATIENCE), left))
            left[:] = [7]
            told("it hasn't", (False, True), (port.write(b"Hi", 0.05), port.is_open))
            left[:] = [0]


def try_display_that_was_off():
    """A display with its own power supply, which was off and on again while nobody could see it."""
    for kind in ("usb stays", "serial"):
        with contextlib.ExitStack() as stack:
            till = stack.enter_context(opened())
            device = stack.enter_context(Display(cable(kind), 2, 20))
            till.drive("p1", SerialDisplay(port_of(device, kind), pause=PAUSE))
            display = stack.enter_context(till.display("p1").in_use())
            blank, welcome = b" " * 40, b"Welcome" + b" " * 33

            def starts():
                # What was sent before has arrived.
                device.wait(lambda: device.is_idle and not select.select(device.cable.files(), [], [], 0)[0])
                device.pull_plug()
                device.plug_in()
                with device.lock:
                    device.cells[0][:7] = b"Welcome"

            def shows(text):
                return device.wait(lambda: device.shows() == text, PATIENCE) or device.shows()
            told(f"over {kind}: an order", None, raised(display.clear_text))
            starts()
            told(f"over {kind}: what it shows by itself", True, shows(welcome))
            told(f"over {kind}: an order that changes nothing", (None, True), (raised(display.clear_text), shows(blank)))
            told(f"over {kind}: a row", (None, True),
                 (raised(display.display_text, b"Bread"), shows(b"Bread" + b" " * 35)))
            starts()
            told(f"over {kind}: the other row soon after", (None, True),
                 (raised(display.display_text_at, 1, 0, b"Milk"), shows(b"Welcome" + b" " * 13 + b"Milk" + b" " * 16)))
            starts()
            with mock.patch("kijolvar.drivers._UNSEEN", 0.05):
                time.sleep(0.06)
                told(f"over {kind}: a row after a while", (None, True), (
                    raised(display.display_text_at, 1, 0, b"Eggs"), shows(b"Bread" + b" " * 15 + b"Eggs" + b" " * 16)))
            starts()
            now = time.clock_gettime
            with mock.patch("time.clock_gettime", lambda clock: now(clock) + 15):
                told(f"over {kind}: a row after the machine was suspended", (None, True), (
                    raised(display.display_text_at, 1, 0, b"Rice"), shows(b"Bread" + b" " * 15 + b"Rice" + b" " * 16)))


def try_no_ports():
    """A file, a folder, a disk or a pipe is no port. A pipe is one for keys alone."""
    places = {what: CHECKS.work / what for what in ("file", "folder", "pipe", "disk")}
    places["file"].touch()
    places["folder"].mkdir()
    os.mkfifo(places["pipe"])
    places["disk"].symlink_to("/dev/null")

    def refusals(what):
        """What opening each kind of port there is refused with."""
        found = []
        for kind in (kijolvar.FilePort, SerialPort, kijolvar.drivers._KeyPort):
            port = kind(places[what])
            found.append(refusal(port))
            port.close()
        return found
    for what in ("file", "pipe"):
        none = (errno.ENODEV, f"{places[what]} is a {what} and no port")
        told(f"a {what}", [none, none, None if what == "pipe" else none], refusals(what))
    told("a folder", [errno.EISDIR, errno.EISDIR, errno.ENODEV], [number for number, _ in refusals("folder")])
    with mock.patch("os.fstat", return_value=types.SimpleNamespace(st_mode=stat.S_IFBLK)):
        told("a disk", [(errno.ENODEV, f"{places['disk']} is a disk and no port")] * 3, refusals("disk"))


def try_flow():
    """What of a line's settings is as it has to be: no flow control for a display, and which bytes count."""
    with Scanner(cable()) as device:
        def flags_of(port):
            port.open()
            found = termios.tcgetattr(port.fileno())
            port.close()
            return bool(found[0] & termios.IGNBRK), bool(found[0] & termios.INPCK), bool(found[2] & termios.CRTSCTS)
        with mock.patch("kijolvar.ports._is_line", return_value=True):
            line = SerialPort(device.path)
            for name, port, wanted in (
                    ("a display", SerialDisplay(device.path).port, False),
                    ("a display at a line", SerialDisplay(line).port, True),
                    ("a printer", EscPosPrinter(device.path).link.port, True),
                    ("a scanner", WedgeScanner(device.path).port, True)):
                told(f"{name}: breaks, checks and flow", (True, True, wanted), flags_of(port))
        with mock.patch("kijolvar.ports._is_line", side_effect=[False, False, True, True]):
            told("links that lead to a line later", [False, True],
                 [flags_of(port)[2] for port in (SerialDisplay(device.path).port, EscPosPrinter(device.path).link.port)])
        told("a file that is no line", (True, False), flags_of(kijolvar.FilePort(device.path))[:2])
        for parity in ("even", "odd"):
            told(f"a line with {parity} parity", (True, True, False),
                 flags_of(SerialPort(device.path, parity=parity, flow="none")))


def try_left_settings():
    """A line with XON/XOFF has their characters, and no parity but its own, whatever another program has left."""
    with Scanner(cable()) as device:
        line = os.open(device.path, os.O_RDWR | os.O_NOCTTY)
        stuck_parity, found = 0x40000000, termios.tcgetattr(line)
        found[2] |= stuck_parity
        found[6][termios.VSTART] = found[6][termios.VSTOP] = b"\0"
        termios.tcsetattr(line, termios.TCSANOW, found)
        port = SerialPort(device.path, flow="xon-xoff")
        port.open()
        found = termios.tcgetattr(line)
        told("XON and XOFF", [b"\x11", b"\x13"], [found[6][place] for place in (termios.VSTART, termios.VSTOP)])
        told("no parity is stuck", 0, found[2] & stuck_parity)
        port.close()
        told("nothing holds a closed line back", 0, termios.tcgetattr(line)[0] & termios.IXON)
        os.close(line)


def refusal(port):
    """What opening a port is refused with: the system's number and the text, or None."""
    try:
        port.open()
    except kijolvar.PortError as fault:
        return fault.errno, fault.strerror
    return None


def is_exclusive(line):
    """Whether only a program of root can open the line again (TIOCGEXCL)."""
    return any(fcntl.ioctl(line, 0x80045440, bytes(4)))


def without_rights(call):
    """What a call returns in a process that was forked and isn't root's, as a text."""
    said, says = os.pipe()
    child = os.fork()
    if child == 0:
        try:
            if os.getuid() == 0:
                os.setuid(65534)
            os.write(says, repr(call()).encode())
        finally:
            os._exit(0)
    os.close(says)
    with open(said) as text:
        found = text.read()
    os.waitpid(child, 0)
    return found


def fails_to_set(*_):
    raise termios.error(errno.EIO, "refused")


def try_lines_in_use():
    """A serial line is open for one port at a time. A port that is refused changes nothing of it."""
    for made in (SerialPort, kijolvar.FilePort, kijolvar.drivers._KeyPort):
        with contextlib.ExitStack() as stack:
            device, name = stack.enter_context(Scanner(cable())), made.__name__
            path = os.path.realpath(device.path)
            os.chmod(path, 0o666)
            line = os.open(path, os.O_RDWR | os.O_NOCTTY)
            stack.callback(os.close, line)
            port, other, in_use = made(path), SerialPort(path, 115200), (errno.EBUSY, f"{path} is in use")
            told(f"a {name} opens a line", (None, True), (refusal(port), is_exclusive(line)))
            before = termios.tcgetattr(line)
            device.garbage(b"4006381")
            told(f"a {name}: bytes have come", True, until(lambda: device.cable.unread() == 7))
            told(f"a {name}: another port", in_use, refusal(other))
            told(f"a {name}: the line is as it was", (before, b"4006381"),
                 (termios.tcgetattr(line), port.read(PATIENCE)))
            told(f"a {name}: another program", repr((errno.EBUSY, in_use)), without_rights(
                lambda: (errno_of(os.open, path, os.O_RDWR | os.O_NOCTTY), refusal(other))))
            told(f"a {name}: a process that was forked frees nothing", (in_use, True),
                 (refusal(other), is_exclusive(line)))
            copy = os.dup(port.fileno())
            port.close()
            told(f"a {name}: the line is free, though its file is open", (False, None),
                 (is_exclusive(line), refusal(other)))
            other.close()
            os.close(copy)
            with mock.patch("termios.tcsetattr", fails_to_set):
                told(f"a {name}: a line that can't be set up", errno.EIO, refusal(port)[0])
            told(f"a {name}: it is free, too", (False, None), (is_exclusive(line), refusal(other)))
            other.close()


def try_disturbed_bytes():
    """A byte that came with a wrong parity, or without its stop bit as at another speed: a printer's or a display's is
    dropped, and a scanner's reads as 0."""
    for made, wanted in ((EscPosPrinter, True), (SerialDisplay, True), (WedgeScanner, False)):
        for way in ("parity none", "parity even", "a link that leads to a line later"):
            with Scanner(cable()) as device:
                driver = made(SerialPort(device.path, parity=way.split()[1]) if "parity" in way else device.path)
                port = driver.link.port if made is EscPosPrinter else driver.port
                with mock.patch("kijolvar.ports._is_line", return_value=True):
                    port.open()
                flags = termios.tcgetattr(port.fileno())[0]
                told(f"{made.__name__}, {way}: bytes are checked, and a wrong one is dropped", (True, wanted),
                     (bool(flags & termios.INPCK), bool(flags & termios.IGNPAR)))
                port.close()


def try_disturbed_scans():
    """A 0 byte from a serial line is one that the line has disturbed: its code is a failed scan."""
    for port, wanted in ((SerialPort, ["ErrorEvent", "DataEvent"]), (kijolvar.FilePort, ["DataEvent"] * 2)):
        with contextlib.ExitStack() as stack:
            till = stack.enter_context(opened())
            device = stack.enter_context(Scanner(cable()))
            till.drive("s1", WedgeScanner(port(device.path), pause=PAUSE))
            scanner = stack.enter_context(till.scanner("s1").in_use())
            found, codes = [], []

            def scans():
                till.run_devices(0.01)
                scanner.data_event_enabled = True
                for event in scanner.events():
                    found.append(type(event).__name__)
                    codes.append(scanner.scan_data)
                    scanner.data_event_enabled = True
                return len(found) == 2
            device.garbage(b"40063\x008133\r")
            until(lambda: scans() or len(found) == 1)
            device.garbage(b"4006381\r")
            told(f"a 0 byte at a {port.__name__}", (True, wanted, b"4006381"), (until(scans), found, codes[-1]))


def try_scanner():
    """Scanners: on a serial line, and as a keyboard."""
    codes = [(b"]E04006381333931", 104, b"4006381333931"), (b"]C1" + b"0104006381333931", 120, b"0104006381333931"),
             (b"]C0AB12", 110, b"AB12"), (b"]E3400638133393112", 119, b"400638133393112"),
             (b"]E450123452", 103, b"50123452"), (b"12345", 0, b"12345"), (b"]d1A b", 203, b"A b")]
    for keys in (False, True):
        with contextlib.ExitStack() as stack:
            till = stack.enter_context(opened())
            device = stack.enter_context(Scanner(cable()))
            driver = WedgeScanner(device.path, keys=keys, pause=PAUSE)
            till.drive("s1", driver)
            scanner = till.scanner("s1")
            stack.enter_context(scanner.in_use())
            scanner.decode_data = True
            found = []

            def scans():
                till.run_devices(0.01)
                scanner.data_event_enabled = True
                for _ in scanner.events():
                    found.append((scanner.scan_data, scanner.scan_data_type, scanner.scan_data_label))
                    scanner.data_event_enabled = True
                return len(found) == len(codes)
            for code, _, _ in codes:
                device.types(code) if keys else device.scan(code, random.choice([b"\r", b"\r\n", b"\n"]))
            until(scans)
            told(f"scans, keys {keys}", [(code, kind, label) for code, kind, label in codes], found)
            found.clear()
            device.pull_plug()
            until(lambda: till.run_devices(0.01))
            told("a scanner is off", False, driver.is_online)
            device.plug_in()
            until(lambda: driver.is_online or till.run_devices(0.01))
            device.types(b"7") if keys else device.scan(b"7")
            until(lambda: scans() or found)
            told("a scanner is back", [(b"7", 0, b"7")], found)


def commanded(*words, meanwhile=lambda: None, library=None):
    """What `python3 -m kijolvar` prints, without its times, and its status. Something may be done once it has begun."""
    variables = {**os.environ, "KIJOLVAR_LIBRARY": os.fspath(library or LIBRARY)}
    started = subprocess.Popen([sys.executable, "-m", "kijolvar", *map(str, words)], stdout=subprocess.PIPE,
                               stderr=subprocess.STDOUT, text=True, cwd=TOP / "abi/python", env=variables)
    meanwhile()
    said, _ = started.communicate()
    return re.sub(r"after \d+\.\d\d s", "after a time", said).splitlines(), started.returncode


def try_command_with_a_printer():
    """The command that tries a printer."""
    with Printer(cable()) as device:
        said, status = commanded("printer", device.path, "--drawer")
        told("a printer: each step", (0, [
            f"port: {device.path} is open", "printer: it answers; its cover is closed, its paper there",
            "page: done after a time", "cut: done after a time", "drawer: done after a time",
            "drawer: its sensor says that it is open"]), (status, said[:-1]))
        told("its page", [b"Kijolvar", b"in the centre", b"at the right", b"x" * 42,
                          b"right below the full line"], characters_of(device))
        told("its cut", True, any(isinstance(item, Cut) for item in device.receipt()))
    with Printer(cable("asked"), is_simple=True) as device:
        said, status = commanded("printer", device.path, "--asked", "--columns", 20, "--cutter", "absent")
        told("a simple printer", (0, "page: done after a time", b"x" * 20),
             (status, said[-2], characters_of(device)[3]))
        said, status = commanded("printer", device.path)
        told("a simple printer that isn't asked", (1, True),
             (status, said[-1].startswith("what to do: ") and "--asked" in said[-1]))
    told("a simple printer knows other commands", True, take_unknown() != [])


IS_SILENT = "what to do: is it on, and is its cable plugged in at both ends?"
IS_SIMPLE = " A simple printer says nothing by itself: try --asked."
AT_LINE = " On a serial line: is --speed right? Try --flow none"


def try_command_with_a_printer_in_trouble():
    """What the command says of a printer that can't print: what is wrong, in plain words, and what to do."""
    well, silent = "printer: it answers; its cover is closed, its paper there", ["printer: FAILED: it doesn't answer"]
    simpler = "what to do: if it printed all the same, it doesn't acknowledge what it prints: try --asked."
    shut = "If not: close its cover, and put paper in; is a light on, as of a jam?"
    troubles = (
        ("an open cover", "usb", lambda device: device.cover(True),
         ["printer: it answers; its cover is open, its paper there",
          "printer: FAILED: The cover is open (EPTR_COVER_OPEN, 114 201)",
          "what to do: close the cover, and try again"]),
        ("no paper", "usb", lambda device: device.load(0),
         ["printer: it answers; its cover is closed, its paper at its end",
          "printer: FAILED: There isn't enough paper (EPTR_REC_EMPTY, 114 203)",
          "what to do: put paper in, close the cover, and try again"]),
        ("it says nothing", "usb", Printer.hang, [*silent, IS_SILENT + IS_SIMPLE + AT_LINE]),
        ("it is off", "usb stays", Printer.pull_plug, [*silent, IS_SILENT + IS_SIMPLE + AT_LINE]),
        ("another speed", "usb", lambda device: (device.hang(), device.garbage(b"\xfe\x80\x00\xfe")),
         [*silent, IS_SILENT + IS_SIMPLE + AT_LINE]),
        ("the plug is pulled", "usb", lambda device: device.after_characters(12, device.pull_plug),
         [well, "printer: FAILED: The printer is off (E_OFFLINE, 108)", IS_SILENT + IS_SIMPLE + AT_LINE]),
        ("it falls silent", "usb", lambda device: device.after_characters(12, device.hang),
         [well, "printer: FAILED: The printer didn't answer (E_FAILURE, 111)", f"{simpler} {shut}"]))
    for name, kind, happens, wanted in troubles:
        with Printer(cable(kind)) as device:
            happens(device)
            told(f"{name}: what is said", ([f"port: {device.path} is open", *wanted], 1),
                 commanded("printer", device.path))
    with Printer(cable()) as device:
        device.load(19)
        said, status = commanded("printer", device.path)
        told("paper near its end", (0, "printer: it answers; its cover is closed, its paper near its end"),
             (status, said[1]))
    with socket.create_server(("127.0.0.1", 0)) as server:
        port = f"tcp:127.0.0.1:{server.getsockname()[1]}"
        other = f"{IS_SILENT} Is another program printing on it?"
        told("a host that says nothing", ([f"port: {port} is open", *silent, other], 1),
             commanded("printer", port, "--asked"))


def is_read(device):
    """Whether somebody reads what a device sends."""
    return until(lambda: is_exclusive(device.cable._slave), 60)


def try_command_with_other_devices():
    """The command that tries a display or a scanner."""
    for protocol in ("cd5220", "escpos"):
        with Display(cable(), 2, 20, protocol) as device:
            said, status = commanded("display", device.path, "--protocol", protocol)
            told(f"a display with {protocol}", (0, 4), (status, len(said)))
            told(f"its rows with {protocol}", b"row 1".ljust(20) + b"row 2".ljust(20), device.shows())
    with Scanner(cable()) as device:
        said, status = commanded("scanner", device.path, meanwhile=lambda: device.scan(b"]E04006381333931"))
        told("a scanner", (0, "scanner: it has read ']E04006381333931', of the type SCAN_SDT_EAN13 (104)"),
             (status, said[-1]))
        said, status = commanded("scanner", device.path, "--seconds", 0.1)
        told("a scanner without a code", (1, "scanner: FAILED: no code came", True),
             (status, said[-2], said[-1].startswith("what to do: does the scanner beep")))
        said, status = commanded("scanner", device.path,
                                 meanwhile=lambda: is_read(device) and device.garbage(b"4" * 5000 + b"\r"))
        told("a code that is too long", (1, "scanner: FAILED: a code came that isn't whole, or was disturbed", True),
             (status, said[-2], said[-1].startswith("what to do: scan it again.")))
        said, status = commanded("scanner", device.path, meanwhile=lambda: is_read(device) and device.pull_plug())
        told("a scanner that is unplugged", (1, "scanner: FAILED: it is gone", True),
             (status, said[-2], said[-1].startswith("what to do: was it unplugged")))


def try_command_without_a_device():
    """The command at ports that can't serve: it says why, and what to do."""
    there = CHECKS.work / "lp0"
    there.touch()
    cases = {("printer", "/dev/no/lp0"): "plugged in", ("printer", "tcp:127.0.0.1:9"): "address",
             ("scanner", "/dev/no/event0"): "plugged in", ("display", "tcp:127.0.0.1:9"): "is the display on",
             ("printer", "/dev/usb/lp99"): "modprobe usblp", ("printer", os.fspath(there)): "name a device file",
             ("printer", "127.0.0.1:9100"): "tcp:HOST:PORT", ("display", "/dev"): "name a device file"}
    for words, wanted in cases.items():
        said, status = commanded(*words)
        port = words[1].replace("tcp:", "tcp://")
        told(f"{words}: why", (1, True), (status, said[0].startswith(f"port: FAILED: {port} ")))
        told(f"{words}: what to do", (2, True), (len(said), said[-1].startswith("what to do: ") and wanted in said[-1]))
    refused = {("printer", "tcp:127.0.0.1", "--speed", 9600): "--speed and --flow are for serial lines",
               ("scanner", "/dev/input/event0", "--flow", "none"): "--speed and --flow are for serial lines",
               ("printer", "/dev/usb/lp0", "--speed", 9600): "--speed and --flow are for serial lines",
               ("printer", "tcp:a:b"): "not a host and a TCP port: 'tcp:a:b'",
               ("printer",): "arguments are required: port", ("till", "/dev/x"): "invalid choice: 'till'",
               ("printer", "/dev/ttyS9", "--speed", 7): "no serial line has 7 bits per second",
               ("printer", "/dev/no/lp0", "--columns", 0): "--columns must be 1 to 255",
               ("display", "/dev/no/tty", "--rows", 9): "--rows must be 1 to 8",
               ("display", "/dev/no/tty", "--columns", 81): "--columns must be 1 to 80",
               ("scanner", "/dev/no/event0", "--seconds", 0): "a number above 0, such as 30: not '0'",
               ("scanner", "/dev/no/event0", "--seconds", "nan"): "a number above 0, such as 30: not 'nan'"}
    for words, wanted in refused.items():
        said, status = commanded(*words)
        told(f"{words}: it is refused", (2, True), (status, "error: " in said[-1] and wanted in said[-1]))
    said, status = commanded("printer", "/dev/no/lp0", library=there)
    sets = "what to do: set KIJOLVAR_LIBRARY to the path of the libkijolvar.so of this release"
    told("without a library", (1, True, sets),
         (status, said[0].startswith(f"library: FAILED: {there} can't be loaded"), said[1]))


def said_without_rights(*words):
    """What the command prints in a process that isn't root's, and its status."""
    def says():
        with contextlib.redirect_stdout(io.StringIO()) as said:
            status = kijolvar.__main__.main(words)
        return said.getvalue().splitlines(), status
    return without_rights(says)


def try_command_without_rights():
    """The command at a port that its user may not open, or that another program has."""
    with Scanner(cable()) as device:
        path = os.path.realpath(device.path)
        os.chmod(path, 0)
        told("a port of root's", repr(([f"port: FAILED: {path} can't be opened: Permission denied",
                                        "what to do: run this as root"], 1)), said_without_rights("display", path))
    closed = CHECKS.work / "closed"
    closed.mkdir(0)
    told("one in a folder of root's", repr(([f"port: FAILED: {closed}/lp0 can't be opened: Permission denied",
                                             "what to do: run this as root"], 1)),
         said_without_rights("printer", os.fspath(closed / "lp0")))
    advice, denied = kijolvar.__main__._advice_on_port, kijolvar.PortError(errno.EACCES, "Permission denied")
    group = next(one for one in grp.getgrall() if one.gr_gid != 0)
    for mode, path, helps in ((0o660, "/dev/usb/lp0", True), (0o640, "/dev/usb/lp0", False),
                              (0o640, "/dev/input/event0", True), (0o600, "/dev/input/event0", False)):
        found = types.SimpleNamespace(st_mode=stat.S_IFCHR | mode, st_gid=group.gr_gid)
        with mock.patch("os.stat", return_value=found), mock.patch("os.geteuid", return_value=65534):
            joins = f"`usermod -aG {group.gr_name} {pwd.getpwuid(os.getuid()).pw_name}` as root, and log in again; or "
            told(f"{path} with {mode:o}", joins * helps + "run this as root", advice(denied, path))
    with mock.patch("os.geteuid", return_value=0):
        told("what to do as root", "the system forbids it, also to root: in a container, the device has to be passed "
             "on to that", advice(denied, "/dev/usb/lp0"))
    told("at a host that the system forbids", True, "is that its address?" in advice(denied, "tcp:255.255.255.255"))
    with Printer(cable()) as device, contextlib.closing(SerialPort(device.path)) as port:
        port.open()
        told("a port that another program has", (
            [f"port: FAILED: {device.path} is in use",
             f"what to do: another program has it: `fuser -v {device.path}`, as root, says which"], 1),
             commanded("printer", device.path))


def try_keyboard_links():
    """A link to a keyboard is one, also if it leads there only later."""
    link, later = CHECKS.work / "scanner", CHECKS.work / "later"
    os.symlink("/dev/input/event99", link)
    told("a link to a keyboard, and one that leads nowhere", [True, False],
         [isinstance(WedgeScanner(path).port, kijolvar.drivers._KeyPort) for path in (link, later)])
    finds = os.path.realpath

    def finds_keyboard(path, **named):
        return "/dev/input/event99" if os.fspath(path) == os.fspath(later) else finds(path, **named)
    with Scanner(cable()) as device:
        driver = WedgeScanner(later, pause=0.0)
        driver.poll()
        os.symlink(finds(device.path), later)
        with mock.patch("os.path.realpath", finds_keyboard):
            driver.poll()
        device.types(b"4006381")
        until(lambda: driver.poll() or driver.is_online and driver._found)
        told("a link that leads to one later", [b"4006381"], [scan.label for scan in driver.scans()])
        driver.close()
        driver.poll()
        told("a link to a port then", (True, False),
             (driver.is_online, isinstance(driver.port, kijolvar.drivers._KeyPort)))
        driver.close()


def pressed(*keys, values=(1, 0)):
    """The events of keys that go down and up again, one after the other."""
    return b"".join(struct.pack("@llHHi", 0, 0, 1, key, value) for key in keys for value in values)


def typed(code):
    """The key events of a code and of Enter behind it."""
    keys = {both[0]: key for key, both in KEYS.items()}
    return pressed(*[keys[character] for character in code], 28)


def try_torn_scans():
    """What isn't a whole code is a failed scan: keys that the system dropped, and what is longer than any code."""
    with contextlib.ExitStack() as stack:
        till = stack.enter_context(opened())
        device = stack.enter_context(Scanner(cable()))
        till.drive("s1", WedgeScanner(device.path, keys=True, pause=PAUSE))
        scanner = till.scanner("s1")
        stack.enter_context(scanner.in_use())
        scanner.data_event_enabled = True
        dropped = struct.pack("@llHHi", 0, 0, 0, 3, 0)
        device.garbage(typed("12") + typed("400638")[:-48] + dropped + typed("31"))
        told("dropped keys are an error", True, until(lambda: till.run_devices(0.01) and scanner.state == 4))
        told("beside the scan before it", ["ErrorEvent", "DataEvent"], [type(event).__name__ for event in scanner.events()])
        scanner.data_event_enabled = True
        told("and no scan", ["ErrorEvent"], [type(event).__name__ for event in scanner.events()])
        device.garbage(typed("31"))
        told("the next code is whole", True, until(lambda: till.run_devices(0.01) and scanner.data_count == 1))
        told("it comes", ["DataEvent"], [type(event).__name__ for event in scanner.events()])
        device.garbage(typed("12")[:-48] + dropped + typed("3") + typed("4006381"))
        told("another error", True, until(lambda: till.run_devices(0.01) and scanner.state == 4))
        scanner.data_event_enabled = True
        told("beside the code right behind it", ["ErrorEvent", "DataEvent"],
             [type(event).__name__ for event in scanner.events()])
        told("which is whole", b"4006381", scanner.scan_data)
    lines = kijolvar.drivers._Lines()
    told("a line is too long", [], lines.take(b"1" * 4000) + lines.take(b"2" * 4000))
    told("its end is no code", [None, b"34"], lines.take(b"5\r\n34\n"))
    keys = kijolvar.drivers._Keys()
    control = pressed(29, values=(1,)) + pressed(27) + pressed(29, values=(0,))
    told("Ctrl and ] is GS", [b"01\x1d10"], keys.take(typed("01")[:-48] + control + typed("10")))
    told("the keypad, with NumLock", [b"12403-."], keys.take(
        pressed(69) + typed("12")[:-48] + pressed(75, 82) + typed("3")[:-48] + pressed(74, 83, 96)))
    told("a key that is held", [b"1"], keys.take(pressed(2, values=(1, 2, 2, 0)) + pressed(28, values=(1, 2, 0))))
    shifted = pressed(54, values=(1,)) + control + pressed(54, values=(0,))
    for name, events in (("Tab", pressed(15)), ("Ctrl and A", control.replace(*map(pressed, (27, 30)))),
                         ("Ctrl, Shift and ]", shifted)):
        told(f"a key that gives nothing: {name}", [None, b"34"],
             keys.take(typed("12")[:-48] + events + typed("3") + typed("34")))
    told("too many keys", [None, b"34"], keys.take(typed("1" * 4097) + typed("34")))
    told("all but the end of Enter is dropped", [None, b"34"], keys.take(dropped + typed("")[-24:] + typed("34")))
    told("Enter was held down then", [None, b"34"], keys.take(
        dropped + pressed(28, values=(2,)) + pressed(3) + typed("")[-24:] + typed("34")))


def try_half_codes():
    """A code of which nothing more comes for a second, or whose port is lost, is a failed scan. The next one is whole.
    What comes while nobody looks belongs to what has begun."""
    for keys in (False, True):
        with contextlib.ExitStack() as stack:
            till, device = stack.enter_context(opened()), stack.enter_context(Scanner(cable()))
            till.drive("s1", driver := WedgeScanner(device.path, keys=keys, pause=PAUSE))
            scanner, found = stack.enter_context(till.scanner("s1").in_use()), []
            half, rest = (typed("40063")[:-48], typed("81")) if keys else (b"40063", b"81\r")

            def hears(count):
                till.run_devices(0.01)
                scanner.data_event_enabled = True
                for event in scanner.events():
                    found.append(scanner.scan_data if type(event).__name__ == "DataEvent" else type(event).__name__)
                    scanner.data_event_enabled = True
                return len(found) >= count

            def begins():
                found.clear()
                device.garbage(half)
                return until(lambda: not device._sends and device.cable.unread()) and until(
                    lambda: hears(1) or not device.cable.unread())

            def told_then(name, *wanted):
                told(f"{name}, keys {keys}", (True, list(wanted)), (until(lambda: hears(len(wanted))), found))
            told(f"half a code, keys {keys}", (True, []), (begins(), found))
            told_then("its rest doesn't come", "ErrorEvent")
            device.garbage(rest)
            told_then("the next code", "ErrorEvent", b"81")
            begins()
            device.pull_plug()
            told_then("its port is lost", "ErrorEvent")
            told(f"the scanner is off, keys {keys}", True, until(lambda: hears(2) or not driver.is_online))
            device.plug_in()
            told(f"the scanner is back, keys {keys}", True, until(lambda: hears(2) or driver.is_online))
            device.garbage(rest)
            told_then("the next code then", "ErrorEvent", b"81")
            begins()
            time.sleep(1.5)
            device.garbage(rest)
            told(f"its rest comes while nobody looks, keys {keys}", True, until(
                lambda: not device._sends and device.cable.unread() >= len(rest)))
            told_then("the whole code", b"4006381")


def types_all(keyboard, codes):
    """Types codes, and returns whether all of it is read in time."""
    for code in codes:
        keyboard.types(code)
    is_sent = keyboard.wait(lambda: not keyboard._sends, PATIENCE)
    keyboard.cable.settle(PATIENCE if is_sent else 0)
    return is_sent and keyboard.cable.unread() == 0


class Typing(Shop):
    """A shop with a keyboard beside the printer."""

    def __init__(self, stack):
        super().__init__(stack, timeout=4 * PATIENCE)
        self.keyboard = stack.enter_context(Scanner(cable()))
        self.reader = WedgeScanner(self.keyboard.path, keys=True, pause=PAUSE)
        self.till.drive("s1", self.reader)
        self.scanner = self.till.scanner("s1")
        self.scanner.power_notify = kijolvar.PN_ENABLED
        stack.enter_context(self.scanner.in_use())
        list(self.scanner.events())

    def told(self, count):
        """What the till tells of the keyboard, until it has told so much: codes and changes of power."""
        found = []

        def is_told():
            self.till.run_devices(0.01)
            self.scanner.data_event_enabled = True
            for event in self.scanner.events():
                found.append(getattr(event, "status", None) or self.scanner.scan_data)
                self.scanner.data_event_enabled = True
            return len(found) >= count
        until(is_told)
        return found


def try_typed_meanwhile():
    """What a keyboard types while a call waits for a printer or a display is read, and told by the loop."""
    codes = [b"%013d" % number for number in range(30)]
    with contextlib.ExitStack() as stack:
        shop, found = Typing(stack), []
        shop.device.after_characters(2, lambda: found.append(types_all(shop.keyboard, codes[:20])))
        told("an order meanwhile", None, raised(shop.control.print, TEXT))
        told("all was read before it was done", [True], found)
        told("nothing is told yet", 0, shop.scanner.data_count)
        told("all codes come", codes[:20], shop.told(20))
        shop.device.after_characters(2, lambda: [*map(shop.keyboard.types, codes), found.append(
            until(lambda: not shop.reader._has_room()))])
        told("more than the till keeps", (None, True), (raised(shop.control.print, TEXT), found[-1]))
        told("all of those come", codes, shop.told(30))
        shop.device.after_characters(2, lambda: [shop.keyboard.types(b"7"), shop.keyboard.pull_plug()])
        told("an order as it is pulled out", None, raised(shop.control.print, TEXT))
        told("that isn't told yet", True, shop.reader.is_online)
        told("its code comes before its power", [b"7", 2004], shop.told(2))
        shop.keyboard.plug_in()
        told("it is back", [2001], shop.told(1))
        told("an order beside it", None, raised(shop.control.print, TEXT))
        shop.keyboard.types(b"8")
        told("and types", [b"8"], shop.told(1))
        shop.same_paper("typed meanwhile: the paper")
        shop.till.drive("d1", own := Own("CashDrawer"))
        port = kijolvar.FilePort(stack.enter_context(Scanner(cable())).path)
        port.open()

        def waits(order):
            keyboard = shop.keyboard
            keyboard.types(b"9")
            return until(lambda: not (port.ready(False, 0.01)[0] or keyboard._sends or keyboard.cable.unread()))
        own.carry_out = waits
        told("an order of a driver of one's own", None, raised(shop.till.drawer("d1").open_drawer))
        told("what is typed meanwhile", [b"9"], shop.told(1))
        port.close()
    with contextlib.ExitStack() as stack:
        shop, found = Typing(stack), []
        line, end = os.openpty()
        stack.callback(os.close, line)
        stack.callback(os.close, end)
        port = SerialPort(os.ttyname(end), flow="none")
        shop.till.drive("p1", SerialDisplay(port, timeout=4 * PATIENCE))
        display = stack.enter_context(shop.till.display("p1").in_use())
        while port.ready(True, 0.5)[1]:
            port.write_some(bytes(1000))

        def types_first():
            found.append(types_all(shop.keyboard, codes[:20]))
            while select.select([line], [], [], 0.5)[0]:
                os.read(line, 10_000)

        def shows(name):
            found.clear()
            typing = threading.Thread(target=types_first)
            typing.start()
            told(f"a display {name}", None, raised(display.display_text, b"Bread"))
            typing.join()
            told(f"a display {name}: all was read before", ([True], codes[:20]), (found, shop.told(20)))
        shows("whose line takes nothing yet")
        with mock.patch.object(port, "_is_draining", lambda: not found):
            shows("whose line sends slowly")


def try_typed_beside_nothing():
    """What is typed while a call waits for a printer whose port is readable all the time, and gives nothing, is read as
    it comes: the system keeps little of it."""
    reading, typing, reads = *os.pipe2(os.O_NONBLOCK), []

    class Keyboard:
        def read_ahead(self):
            with contextlib.suppress(BlockingIOError):
                reads.append(os.read(reading, 1000))
            return reading

    def types():
        for _ in range(100):
            os.write(typing, b"1")
            time.sleep(0.005)
    link, thread = PrinterLink(kijolvar.FilePort("/dev/null"), 0.6, PAUSE), threading.Thread(target=types)
    with mock.patch.object(kijolvar.ports.BESIDE, "keyboards", [Keyboard()]):
        thread.start()
        link.start()
        thread.join()
    told("what is typed beside a port that gives nothing is read in small parts", True, len(reads) > 30)
    link.port.close()
    os.close(reading)
    os.close(typing)


def heard_of(shop, count):
    """What comes from a shop's keyboard, until so much has come: codes, and names of other events."""
    found = []

    def is_heard():
        shop.till.run_devices(0.01)
        shop.scanner.data_event_enabled = True
        for event in shop.scanner.events():
            found.append(shop.scanner.scan_data if type(event).__name__ == "DataEvent" else type(event).__name__)
            shop.scanner.data_event_enabled = True
        return len(found) >= count
    until(is_heard)
    return found


def types_apart(keyboard, seconds, *parts):
    """Types parts of codes, each so long after the one before, and returns whether each was read at once."""
    is_read = True
    for place, part in enumerate(parts):
        time.sleep(seconds if place else 0)
        keyboard.garbage(part)
        is_read &= keyboard.wait(lambda: not keyboard._sends, PATIENCE) and until(lambda: not keyboard.cable.unread())
    return is_read


def try_typed_apart():
    """Codes that are typed while an order waits: half of one that is followed by nothing for longer than a second is a
    failed scan, and what comes then is a code of its own: an error comes before the codes and one behind them. A shorter
    pause is none."""
    half, rest, whole = typed("40063")[:-48], typed("81"), typed("4006381")
    cases = (("two codes", 0, (whole, typed("12")), [b"4006381", b"12"]),
             ("two codes after each other", 1.5, (whole, typed("12")), [b"4006381", b"12"]),
             ("half a code and another one", 1.5, (half, rest), ["ErrorEvent", b"81", "ErrorEvent"]),
             ("half a code twice, and one", 1.5, (half, half, rest), ["ErrorEvent", b"81", "ErrorEvent"]),
             ("a code with a short pause", 0.3, (half, rest), [b"4006381"]))
    for name, seconds, parts, wanted in cases:
        with contextlib.ExitStack() as stack:
            shop, found = Typing(stack), []
            shop.device.after_characters(2, lambda: found.append(types_apart(shop.keyboard, seconds, *parts)))
            told(f"an order beside {name}", (None, [True]), (raised(shop.control.print, TEXT), found))
            told(name, wanted, heard_of(shop, len(wanted)))
            shop.keyboard.types(b"7")
            told(f"a code behind {name}", [b"7"], heard_of(shop, 1))
    with contextlib.ExitStack() as stack:
        shop, found = Typing(stack), []
        shop.keyboard.garbage(half)
        told("half a code before an order", True, until(
            lambda: not shop.till.run_devices(0.01) and shop.reader._reader.has_begun))
        shop.device.after_characters(2, lambda: found.append(
            (time.sleep(1.5), types_apart(shop.keyboard, 0, rest))[1]))
        told("the order", (None, [True]), (raised(shop.control.print, TEXT), found))
        told("another code in it", ["ErrorEvent", b"81", "ErrorEvent"], heard_of(shop, 3))
    with contextlib.ExitStack() as stack:
        shop, found = Typing(stack), []
        line, end = os.openpty()
        stack.callback(os.close, line)
        stack.callback(os.close, end)
        port = SerialPort(os.ttyname(end), flow="none")
        shop.till.drive("p1", SerialDisplay(port, timeout=4 * PATIENCE))
        display = stack.enter_context(shop.till.display("p1").in_use())
        while port.ready(True, 0.5)[1]:
            port.write_some(bytes(1000))

        def types_first():
            found.append(types_apart(shop.keyboard, 1.5, half, rest))
            while select.select([line], [], [], 0.5)[0]:
                os.read(line, 10_000)
        typing = threading.Thread(target=types_first)
        typing.start()
        told("a display whose line takes nothing yet", None, raised(display.display_text, b"Bread"))
        typing.join()
        told("half a code and another one beside it", ([True], ["ErrorEvent", b"81", "ErrorEvent"]),
             (found, heard_of(shop, 3)))


def try_typed_within_the_loop():
    """An order while the loop reads a keyboard, as a signal's handler makes one: the codes stay in their order."""
    with contextlib.ExitStack() as stack:
        shop = Typing(stack)
        takes, keyboard = shop.reader._reader.take, shop.keyboard

        def types(code):
            keyboard.types(code)
            told("it is typed", True, until(lambda: not keyboard._sends and keyboard.cable.unread()))

        def prints(data):
            shop.reader._reader.take = takes
            types(b"2")
            told("an order within the loop", None, raised(shop.control.print, TEXT))
            types(b"3")
            return takes(data)
        types(b"1")
        shop.reader._reader.take = prints
        told("the codes", [b"1", b"2", b"3"], shop.told(3))


def try_raw_keys():
    """The bytes of a terminal that types key events pass as they are, also if a program has left it otherwise."""
    with Scanner(cable()) as device, contextlib.ExitStack() as stack:
        line = os.open(device.path, os.O_RDWR | os.O_NOCTTY)
        stack.callback(os.close, line)
        settings = termios.tcgetattr(line)
        settings[0] |= termios.ICRNL
        settings[3] |= termios.ICANON | termios.ECHO
        termios.tcsetattr(line, termios.TCSANOW, settings)
        port = kijolvar.drivers._KeyPort(device.path)
        stack.callback(port.close)
        port.open()
        found = termios.tcgetattr(line)
        told("a terminal of keys is set up", (0, 0, termios.CS8),
             (found[0] & termios.ICRNL, found[3] & (termios.ICANON | termios.ECHO), found[2] & termios.CSIZE))
        events, got = typed("4006381"), []
        device.garbage(events)
        told("its bytes are as they were sent", (True, events),
             (until(lambda: got.append(port.read(0.01)) or len(b"".join(got)) >= len(events)), b"".join(got)))


def try_scan_codes():
    """The scan code of each key is left out of a keyboard's events. One that refuses that opens too. Its keys are given
    back as it is closed, though a process that was forked may have it still."""
    asked, number = [], errno.EINVAL

    def refuses(file, *words):
        asked.append(words)
        raise OSError(number, "refused")
    # A keyboard is no terminal.
    with (Scanner(cable()) as device, mock.patch("fcntl.ioctl", refuses),
          mock.patch("os.isatty", return_value=False)):
        port = kijolvar.drivers._KeyPort(device.path)
        port.open()
        told("what is asked of a keyboard", [(0x40044590, 1), (0x40104593, struct.pack("=IIQ", 4, 0, 0))], asked)
        told("it is open", True, port.is_open)
        asked.clear()
        port.close()
        told("what is asked as it is closed", [(0x40044590, 0)], asked)
        number = errno.EBUSY
        told("one that another program has", (number, f"{device.path} is in use"), refusal(port))


class Forgetful:
    """Carries out lines, but answers `memory` to the first one that has a word, or raises what a signal's handler
    would."""

    def __init__(self, carry_out, word, fault=None):
        self.carry_out, self.word, self.fault = carry_out, word, fault

    def __call__(self, lines):
        if self.word not in lines:
            return self.carry_out(lines)
        self.word = b"no such word"
        if self.fault is not None:
            raise self.fault
        return b"memory\n"


def try_scans_that_wait():
    """Codes aren't lost if their port is lost in the same round, nor if the till has no memory for one. An interrupt
    loses one of them at most."""
    with contextlib.ExitStack() as stack:
        server = stack.enter_context(socket.create_server(("127.0.0.1", 0)))
        till = stack.enter_context(opened())
        till.drive("s1", WedgeScanner(f"tcp:127.0.0.1:{server.getsockname()[1]}", pause=60))
        scanner = till.scanner("s1")
        scanner.power_notify = kijolvar.PN_ENABLED
        stack.enter_context(scanner.in_use())
        scanner.data_event_enabled = True
        list(scanner.events())
        peer, _ = server.accept()
        peer.sendall(b"123\r")
        peer.close()
        told("a code whose port is lost", True, until(lambda: till.run_devices(0.05)))
        told("comes before its power", ["DataEvent", 2004], [
            getattr(event, "status", type(event).__name__) for event in scanner.events()])
    for name, word, fault, wanted in (("a code", b" scan ", None, [b"1", b"2", b"3"]), ("a fault", b" fault", None, [4]),
                                      ("a code", b" scan ", InterruptedError(), [b"2", b"3"])):
        with contextlib.ExitStack() as stack:
            till = stack.enter_context(opened())
            device = stack.enter_context(Scanner(cable()))
            has_codes = name == "a code"
            till.drive("s1", WedgeScanner(device.path, keys=not has_codes, pause=PAUSE))
            scanner = till.scanner("s1")
            stack.enter_context(scanner.in_use())
            till._carry_out = till._session.carry_out = Forgetful(till._carry_out, word, fault)
            if has_codes:
                device.garbage(b"1\r2\r3\r")
            else:
                device.types(b"400638", dropped=4)
            device.wait(lambda: not device._sends)
            faults, found = [], []
            until(lambda: faults.append(name_of(till.run_devices, 0.01)) or faults[-1])
            told(f"{name} that isn't taken", "NoMemoryError" if fault is None else "InterruptedError", faults[-1])

            def is_told():
                till.run_devices(0.01)
                while has_codes and scanner.data_count:
                    scanner.data_event_enabled = True
                    scanner.next_event()
                    found.append(scanner.scan_data)
                return (found or [scanner.state]) == wanted
            told(f"{name}: it is told again", True, until(is_told, 2))


def try_scanner_of_two_tills():
    """What a scanner's driver has read for a till that is closed is none of the next one's."""
    with Scanner(cable()) as device:
        driver = WedgeScanner(device.path)
        for number in range(2):
            with opened() as till:
                till.drive("s1", driver)
                told("its port is open", True, driver.port.is_open)
                scanner = till.scanner("s1")
                scanner.claim()
                scanner.device_enabled = True
                told("no code is there", (False, 0), (till.run_devices(), scanner.data_count))
                device.garbage(b"123\r45")
                told("a code and a half are read", True, until(
                    lambda: driver.poll() or driver._found and driver._reader.has_begun))


class Own(Driver):
    """A device that is there, says and reads what the test wants, and does each order."""

    def __init__(self, category):
        self.category, self.is_there = category, True
        self.did, self.says, self.codes, self.to_come = [], [], [], []

    @property
    def is_online(self):
        return self.is_there

    def carry_out(self, order):
        self.did.append((order.name, *order.arguments))
        return True

    def happened(self):
        says, self.says = self.says, []
        return says

    def poll(self):
        self.codes += self.to_come
        self.to_come = []

    def scans(self):
        codes, self.codes = self.codes, []
        return codes

    def given_up(self):
        self.did.append("given up")
        if self.says:
            raise OSError("a driver's fault")


def try_own():
    """Drivers of one's own: what was before them, and in which order the till is told what they say."""
    code = kijolvar.drivers.Scan(104, b"31", b"31")
    with opened() as till:
        till.host("r1")
        with till.printer("r1").in_use() as printer:
            printer.print(b"A\n")
            till.drive("r1", own := Own("POSPrinter"))
            printer.print(b"B\n")
            printer.print(b"C\n")
            told("orders of a device that was hosted before", [("print", b"B\n"), ("print", b"C\n")], own.did)
            told("the host's", [("r1", (b"A\n",))], [(order.device, order.arguments) for order in till.orders()])
            own.did.clear()
            told("output that is cleared", (None, ["given up"]), (name_of(printer.clear_output), own.did))
            own.says = ["power on"]
            told("a driver's fault then", (None, "OSError"), (name_of(printer.clear_output), name_of(till.run_devices, 0)))
            own.did, own.says = [], []
        told("a control that is released", [], own.did)
        till.device("d1").power(False)
        till.drive("d1", drawer := Own("CashDrawer"))
        told("a device that was off before", None, raised(till.drawer("d1").open_drawer))
        till.drive("s1", scanner := Own("Scanner"))
        with till.scanner("s1").in_use() as control:
            control.data_event_enabled = True
            scanner.to_come, scanner.says = [code], ["fault"]
            told("a code and a failed scan", True, till.run_devices(0))
            came = list(control.events())
            control.data_event_enabled = True
            came += control.events()
            told("the code is first", [("ErrorEvent", 3), ("DataEvent", None), ("ErrorEvent", 2)],
                 [(type(event).__name__, getattr(event, "locus", None)) for event in came])
            scanner.is_there = False
            told("it is off", True, till.run_devices(0))
            scanner.to_come = [code]
            control.data_event_enabled = True
            told("a code of one that was on for a moment", True, till.run_devices(0))
            told("it comes", ["DataEvent"], [type(event).__name__ for event in control.events()])
            scanner.is_there = True
            drawer.says, scanner.to_come = ["paper 5"], [code]
            control.data_event_enabled = True
            told("another device says what can't be", "InputError", name_of(till.run_devices, 0))
            till.run_devices(0)
            told("the code comes all the same", ["DataEvent"], [type(event).__name__ for event in control.events()])


class Meddler(Driver):
    """Runs a line while it carries out an order, or says what no device can say."""

    def __init__(self, till, words=()):
        self.till, self.words, self.is_closed = till, list(words), False

    def carry_out(self, order):
        if not self.words:
            self.till.device("r1").paper(3)
        return True

    def happened(self):
        return self.words

    def close(self):
        self.is_closed = True
        raise OSError("the port can't be closed")


def try_meddlers():
    """Drivers of one's own that do what they may not."""
    path = CHECKS.work / "meddled"
    till = opened(totals=path, create=True)
    driver = Meddler(till)
    till.drive("d1", driver)
    with till.drawer("d1").in_use() as drawer:
        told("lines in an order", "InOrderError", name_of(drawer.open_drawer))
        told("which is an error of the driver's", True, issubclass(kijolvar.InOrderError, kijolvar.DriverError))
        driver.words = ["cover open"]
        told("an order that is done", None, name_of(drawer.open_drawer))
        told("what went wrong behind it", "InputError", name_of(till.run_devices, 0))
        driver.words = ["open"]
        told("and then nothing", None, name_of(till.run_devices, 0))
    drawer.close()
    told("a device that is detached", ("ok", None), (till.carry_out("detach d1").strip(), name_of(till.run_devices, 0)))
    driver.words = ["open"]
    told("what happens at it", None, name_of(till.run_devices, 0))
    told("a port that can't be closed", "OSError", name_of(till.close))
    told("lets the till be closed", (True, True), (till.is_closed, driver.is_closed))
    with opened(totals=path):
        pass
    with opened() as till:
        told("a printer with another's drawer", "DriverError",
             name_of(till.drive, "r1", EscPosPrinter("/dev/null", drawer="s1")))
        told("drives neither", None, name_of(till.drive, "r1", EscPosPrinter("/dev/null", drawer="d1", timeout=0.1)))


SPARES = """
[[spare]]
category = "POSPrinter"
chars = 42
lines = 1000
near = 20
[[spare]]
category = "CashDrawer"
[[spare]]
category = "LineDisplay"
rows = 2
columns = 20
[[spare]]
category = "POSPrinter"
chars = 42
lines = 1000
near = 20
flaky = [1, 1]
"""


def try_detached():
    """Devices with a driver that are detached: the others go on. A spare that is attached has the driver then."""
    with contextlib.ExitStack() as stack:
        till = stack.enter_context(opened(PROFILE + SPARES))
        device, sender = stack.enter_context(Printer(cable())), stack.enter_context(Scanner(cable()))
        screen = stack.enter_context(Display(cable(), 2, 20))
        till.drive("r1", EscPosPrinter(device.path, drawer="d1", timeout=TIMEOUT, pause=PAUSE))
        till.drive("p1", SerialDisplay(screen.path, pause=PAUSE))
        till.drive("s1", WedgeScanner(sender.path, pause=PAUSE))
        scanner, drawer = till.scanner("s1"), till.drawer("d1")
        stack.enter_context(scanner.in_use())
        with till.printer("r1").in_use() as printer, till.display("p1").in_use() as display:
            told("before", [None] * 2, [raised(printer.print, b"Before\n"), raised(display.display_text, b"Before")])
        printer.close()
        display.close()
        told("detached", "ok\nok\n", till.carry_out("detach r1\ndetach p1\n"))
        device.load(10)
        sender.scan(b"123")
        told("a round with what is detached", None, name_of(till.run_devices, 0.05))
        told("a scan meanwhile", True, until(lambda: name_of(till.run_devices, 0.01) or scanner.data_count == 1))
        told("the drawer on a printer that is detached", (None, 1), (raised(drawer.open_drawer), len(device.pulses)))
        till.device("p1").attach(3)
        with till.display("p1").in_use() as display:
            display.display_text_at(1, 0, b"Behind")
            told("a display's spare: all rows are new", True, screen.wait(
                lambda: screen.shows() == b" " * 20 + b"Behind" + b" " * 14, PATIENCE) or screen.shows())
        lines = "new x POSPrinter\nattach r1 1\nopen x r1\nclaim x 0\nset x DeviceEnabled true\n"
        told("attached by a line, before others", "ok\n" * 7,
             till.carry_out(f"{lines}call x printNormal 2 {b'Between'.hex()}0a\nclose x"))
        with till.printer("r1").in_use() as printer:
            told("what is known of it", True, printer.rec_near_end)
            told("a printer's spare", None, raised(printer.print, b"Behind\n"))
            told("its paper", [b"Before", b"Between", b"Behind"], characters_of(device))
            device.cover(True)
            told("its cover", True, until(lambda: name_of(till.run_devices, 0.01) or printer.cover_open))
        printer.close()
        told("detached again", "ok\n", till.carry_out("detach r1"))
        told("a spare whose line fails", [None] * 2,
             [name_of(till.device("r1").attach, 4), name_of(till.run_devices, 0.05)])


def try_ports_again():
    """A link that leads nowhere yet, and a name that was looked up once."""
    link = CHECKS.work / "receipt"
    port = kijolvar.port_of(link)
    told("a link that leads nowhere", "PortError", name_of(port.open))
    with Printer(cable()) as device:
        os.symlink(device.path, link)
        with mock.patch("kijolvar.ports._is_line", return_value=True):
            port.open()
        told("a link to a line", (True, True), (isinstance(port._line, SerialPort), port.write(b"\n", 1.0)))
        port.close()
        port.open()
        told("a link to another device", None, port._line)
        port.close()
    looks_up = mock.patch("socket.getaddrinfo", side_effect=socket.getaddrinfo)
    with socket.create_server(("127.0.0.1", 0)) as server, looks_up as asked:
        port = kijolvar.TcpPort("localhost", server.getsockname()[1])
        for _ in range(3):
            port.open()
            times = [option_of(port, option) for option in (socket.TCP_USER_TIMEOUT, socket.TCP_KEEPIDLE)]
            port.close()
        names = [call.args[0] for call in asked.call_args_list]
        told("a name is looked up once", 1, names.count("localhost"))
        told("a connection to nobody ends", [60_000, 10], times)
        told("one of two addresses doesn't answer", ["PortError", None], second_answers(server.getsockname()))
    told("nothing answers", "PortError", name_of(port.open))
    port._looked_up_at -= 61
    known, took, asked = list(port._addresses), 0.0, []

    def fails(name, *words, **named):
        asked.append(name)
        time.sleep(took)
        raise socket.gaierror(socket.EAI_AGAIN, "nobody answers")
    with mock.patch("socket.getaddrinfo", fails):
        told("nothing answers for a minute, nor does the name server", ("PortError", known),
             (name_of(port.open), port._addresses))
        told("it was asked", 1, asked.count("localhost"))
        for took, wanted in ((0.0, 3), (0.3, 1)):
            asked.clear()
            port = kijolvar.TcpPort("printer")
            faults = [name_of(port.open) for _ in range(3)]
            told(f"a look-up that fails after {took} s", (["PortError"] * 3, wanted), (faults, len(asked)))
            told("why", errno.EHOSTUNREACH, port.open_error.errno)
            port._looks_up_from -= 61
            told(f"a look-up that fails after {took} s, a minute later", ("PortError", wanted + 1),
                 (name_of(port.open), len(asked)))


def try_own_number():
    """A connection to a port at which nobody listens may lead to itself: it is none."""
    with socket.create_server(("127.0.0.1", 0)) as server:
        address = server.getsockname()
    files = len(os.listdir("/proc/self/fd"))
    port, connects = kijolvar.TcpPort(*address), socket.socket.connect_ex

    def binds_first(made, there):
        made.bind(there)
        return connects(made, there)
    with mock.patch("socket.socket.connect_ex", binds_first):
        told("a connection to itself", (errno.ECONNREFUSED, False), (errno_of(port.open), port.is_open))
    told("nothing is left of it", files, len(os.listdir("/proc/self/fd")))
    port.close()


def try_closed_streams():
    """A port gets no number of a standard stream that the program has closed: what is written to it goes nowhere."""
    code = """if True:
        import os, sys, kijolvar
        for stream in (0, 2):
            os.close(stream)
        ports = [kijolvar.port_of(name) for name in sys.argv[1:]]
        for port in ports:
            port.open()
        print([port.fileno() > 2 for port in ports], [os.path.exists(f"/proc/self/fd/{stream}") for stream in (0, 2)])
        ports[1].write(b"Hello", 1.0)"""
    with Scanner(cable()) as device, socket.create_server(("127.0.0.1", 0)) as server:
        words = [sys.executable, "-c", code, device.path, f"tcp:127.0.0.1:{server.getsockname()[1]}"]
        done = subprocess.run(words, stdout=subprocess.PIPE, text=True, cwd=TOP / "abi/python")
        told("a line and a connection", (0, "[True, True] [False, False]\n"), (done.returncode, done.stdout))
        with server.accept()[0] as other:
            told("the connection works", b"Hello", other.recv(9))


def try_raising_handlers():
    """A signal's handler that raises an error which the system has too: it isn't taken for one of the port."""
    before = signal.getsignal(signal.SIGUSR1)
    for fault in (TimeoutError, InterruptedError):
        def rings(*_):
            raise fault("the call takes too long")
        signal.signal(signal.SIGUSR1, rings)
        with contextlib.ExitStack() as stack:
            till, device = stack.enter_context(opened()), stack.enter_context(Display(cable(), 2, 20))
            till.drive("p1", driver := SerialDisplay(SerialPort(device.path, flow="none"), pause=PAUSE))
            display = stack.enter_context(till.display("p1").in_use())
            for name in ("fcntl.ioctl", "os.write", "os.read"):
                def interrupted(*words, call=getattr(sys.modules[name.split(".")[0]], name.split(".")[1])):
                    call(*words)
                    signal.raise_signal(signal.SIGUSR1)
                told(f"the display is there, before {name}", True, until(
                    lambda: till.run_devices(0.01) is not None and raised(display.display_text, b"Before") is None))
                if name == "os.read":
                    device.garbage(b"x")
                    device.wait(lambda: not device._sends)
                with mock.patch(name, interrupted):
                    told(f"{fault.__name__} in {name}", fault.__name__, name_of(display.display_text, b"Hi"))
            told("the order again", True, until(
                lambda: till.run_devices(0.01) is not None and raised(display.display_text, b"Hi") is None))
        told("its port is closed", False, driver.port.is_open)
    signal.signal(signal.SIGUSR1, before)


def fault_of(call, *words):
    """What a call raises, or None."""
    try:
        call(*words)
    except Exception as fault:
        return fault
    return None


def rings_once(call):
    """A call of the system before which a signal comes the first time."""
    left = [signal.SIGUSR1]

    def rings(*words, **named):
        if left:
            signal.raise_signal(left.pop())
        return call(*words, **named)
    return rings


def try_handlers_at_openings():
    """An error that a signal's handler raises as a port opens, or closes, isn't taken for one of the port."""
    def blocks(_, frame):
        raise BlockingIOError("the handler would wait")
    before = signal.signal(signal.SIGUSR1, blocks)
    with Scanner(cable()) as device, mock.patch("fcntl.flock", rings_once(fcntl.flock)):
        told("a handler as a line is locked", "BlockingIOError", name_of(SerialPort(device.path).open))
    signal.signal(signal.SIGUSR1, late)
    for name, call in (("os.open", os.open), ("fcntl.flock", fcntl.flock), ("termios.tcsetattr", termios.tcsetattr),
                       ("fcntl.ioctl", fcntl.ioctl)):
        with Scanner(cable()) as device:
            port, other = SerialPort(device.path), SerialPort(device.path)
            with mock.patch(name, rings_once(call)):
                told(f"a handler in {name} as a line opens", "InterruptedError", name_of(port.open))
            told(f"a handler in {name}: the line is free", None, refusal(other))
            with mock.patch("fcntl.ioctl", rings_once(fcntl.ioctl)):
                told("a handler as a line is closed", "InterruptedError", name_of(other.close))
            told("it is closed and free", (False, False, None),
                 (other.is_open, is_exclusive(device.cable._slave), refusal(port)))
            port.close()
    ioctl, number = fcntl.ioctl, 0

    def rings_then(file, what, *words):
        if what == number:
            signal.raise_signal(signal.SIGUSR1)
        return ioctl(file, what, *words)
    with (Scanner(cable()) as device, mock.patch("fcntl.ioctl", rings_then),
          mock.patch("os.isatty", return_value=False)):
        for number in (0x40044590, 0x40104593):
            told(f"a handler in {number:#x} as a keyboard opens", "InterruptedError", name_of(
                kijolvar.drivers._KeyPort(device.path).open))
    with opened() as till:
        paths = {name: CHECKS.work / name for name in ("p1", "r1", "s1")}
        for name, kind in zip(paths, (SerialDisplay, EscPosPrinter, WedgeScanner)):
            till.drive(name, kind(paths[name], pause=0.0))
            with mock.patch("os.open", rings_once(os.open)):
                told(f"a handler in the loop, as {name} is looked for", "InterruptedError", name_of(till.run_devices))
            till._drives.remove(name)
    signal.signal(signal.SIGUSR1, before)


def try_handlers_at_connections():
    """The same at a TCP port: as a host is waited for, and as its name is looked up."""
    before = signal.signal(signal.SIGUSR1, late)
    alarm = signal.signal(signal.SIGALRM, late)
    with SilentHost() as silent:
        port, files = kijolvar.TcpPort("printer"), len(os.listdir("/proc/self/fd"))
        found = [(socket.AF_INET, socket.SOCK_STREAM, 6, "", silent.address)] * 2
        for is_old in (False, True):
            with mock.patch("socket.getaddrinfo", return_value=found) as asked:
                signal.setitimer(signal.ITIMER_REAL, 0.05)
                fault = fault_of(port.open, 2.0)
            told("a handler while a host is waited for", InterruptedError, type(fault))
            told("nothing is left of that, and nothing looked up", (False, files, not is_old), (
                port.is_opening, len(os.listdir("/proc/self/fd")), asked.called))
            port._looked_up_at -= 61
    asked = []

    def rings(name, *words, **named):
        asked.append(name)
        time.sleep(0.3)
        signal.raise_signal(signal.SIGUSR1)
    port = kijolvar.TcpPort("printer")
    with mock.patch("socket.getaddrinfo", rings):
        told("a handler while a name is looked up", ["InterruptedError"] * 2, [name_of(port.open) for _ in range(2)])
        told("it is looked up again", ["printer"] * 2, asked)
        with socket.create_server(("127.0.0.1", 0)) as server:
            port._addresses = [(socket.AF_INET, server.getsockname())]
        told("a handler while it is, as nothing answers", "InterruptedError", name_of(port.open))
        told("it is looked up for the next time", ["printer"] * 3, asked)
    signal.signal(signal.SIGUSR1, before)
    signal.signal(signal.SIGALRM, alarm)


def try_interrupted_openings():
    """An interrupt as a port is opened leaves no file open."""
    for name, call, kind in (("a keyboard", "fcntl.ioctl", kijolvar.drivers._KeyPort),
                             ("a terminal of keys", "termios.tcsetattr", kijolvar.drivers._KeyPort),
                             ("a line", "termios.tcsetattr", kijolvar.FilePort),
                             ("a line that is locked", "fcntl.ioctl", kijolvar.FilePort),
                             ("a line that is ready", "os.getpid", kijolvar.FilePort)):
        with (Scanner(cable()) as device, mock.patch(call, side_effect=KeyboardInterrupt),
              mock.patch("os.isatty", return_value=name != "a keyboard")):
            port, files, found = kind(device.path), len(os.listdir("/proc/self/fd")), "no interrupt"
            try:
                port.open()
            except KeyboardInterrupt:
                found = "interrupted"
            told(f"an interrupt as {name} is opened", ("interrupted", files), (found, len(os.listdir("/proc/self/fd"))))


def try_forked():
    """A process that is forked leaves the devices of its till alone, and keeps no port open: closing one ends its
    connection."""
    (waits, ends), read = os.pipe(), []
    with opened() as till, socket.create_server(("127.0.0.1", 0)) as server:
        driver = Meddler(till, ["open"])
        till.drive("d1", driver)
        port = kijolvar.TcpPort("127.0.0.1", server.getsockname()[1])
        port.open()
        peer, _ = server.accept()
        child = os.fork()
        if child == 0:
            os.close(ends)
            os.read(waits, 1)
            os._exit(name_of(till.close) is not None or driver.is_closed or port.is_open)
        told("the port stays open", True, port.write(b"1", 1.0) and peer.recv(2) == b"1")
        port.close()
        peer.settimeout(1.0)
        told("it is closed for the other end", (None, [b""]), (name_of(lambda: read.append(peer.recv(1))), read))
        peer.close()
        for end in (ends, waits):
            os.close(end)
        told("it is closed in a process that was forked, and the driver isn't", 0, os.waitpid(child, 0)[1])
        driver.close = lambda: None


def try_closed_by_the_other_end():
    """A TCP port whose other end has closed is lost without SIGPIPE, which would end the program."""
    signals = []
    before = signal.signal(signal.SIGPIPE, lambda *_: signals.append("SIGPIPE"))
    with socket.create_server(("127.0.0.1", 0)) as listener:
        port = kijolvar.TcpPort(*listener.getsockname())
        port.open()
        listener.accept()[0].close()
        faults = []
        lost = until(lambda: faults.append(fault_of(port.write_some, b"x" * 3)) or faults[-1] is not None)
        told("the other end has closed", (True, "PortError", errno.EIO, True, []),
             (lost, type(faults[-1]).__name__, faults[-1].errno, "Broken pipe" in str(faults[-1]), signals))
        told("the port is closed", False, port.is_open)
        port.open()
        with listener.accept()[0] as other:
            told("it sends", (3, b"\0\1\2"), (port.write_some(b"\0\1\2"), other.recv(9)))
            told("there is no room in the end", (True, True),
                 (until(lambda: port.write_some(bytes(70_000)) == 0), port.is_open))
        port.close()
    signal.signal(signal.SIGPIPE, before)


def try_closed_with_something_unread():
    """What the system has taken for a connection is sent once that is closed, though something has come that nobody has
    read."""
    with socket.create_server(("127.0.0.1", 0)) as server:
        port = kijolvar.TcpPort("127.0.0.1", server.getsockname()[1])
        port.open()
        device, sent, got = server.accept()[0], 0, 0
        device.send(b"Hello")
        told("something has come", True, port.ready(False, PATIENCE)[0])
        while port.ready(True, 0.1)[1]:
            sent += port.write_some(bytes(65_536))
        port.close()
        with device, contextlib.suppress(ConnectionError):
            while found := device.recv(65_536):
                got += len(found)
        told("all that was taken is sent", sent, got)


def try_forked_connections():
    """A process that is forked closes a connection that is being made."""
    with SilentHost() as silent:
        port = kijolvar.port_of(silent.path)
        told("a host doesn't answer yet", (errno.ETIMEDOUT, True), (errno_of(port.open, 0), port.is_opening))
        file = port._joining._made.fileno()
        told("its connection in a process that was forked", repr(errno.EBADF), without_rights(
            lambda: errno_of(os.fstat, file)))
        told("it is made on", (errno.ETIMEDOUT, True, file),
             (errno_of(port.open, 0), port.is_opening, port._joining._made.fileno()))
        port.close()


def second_answers(address):
    """What opening a port raises, twice, whose name has two addresses, if the first one lets everybody wait: they have
    a second together."""
    with SilentHost() as silent:
        found = [(socket.AF_INET, socket.SOCK_STREAM, 6, "", one) for one in (silent.address, address)]
        with mock.patch("socket.getaddrinfo", return_value=found):
            port = kijolvar.TcpPort("printer")
            faults = [name_of(port.open, seconds) for seconds in (0.1, 1.0)]
        port.close()
        return faults


def errno_of(call, *words):
    """The system's number of what a call raises, or None."""
    try:
        call(*words)
    except OSError as fault:
        return fault.errno
    return None


def late(*_):
    raise InterruptedError("it takes too long")


def in_time(call, *words, patience=None):
    """The name of what a call raises, or None. One that takes too long is interrupted."""
    signal.signal(signal.SIGALRM, late)
    signal.setitimer(signal.ITIMER_REAL, PATIENCE if patience is None else patience)
    try:
        return name_of(call, *words)
    finally:
        signal.setitimer(signal.ITIMER_REAL, 0)


def try_endless_ports():
    """Ports at which there is always something to be read: nothing, or more."""
    for path in ("/dev/null", "/dev/zero"):
        with opened() as till:
            drivers = {"p1": SerialDisplay(path), "s1": WedgeScanner(path), "r1": EscPosPrinter(path, timeout=0.1)}
            for name, driver in drivers.items():
                told(f"{name} at {path}", None, in_time(till.drive, name, driver))
            with till.display("p1").in_use() as display:
                told(f"an order of a display at {path}", None, in_time(display.display_text, b"Hi"))
            told(f"a round with {path}", None, in_time(till.run_devices))
    with opened() as till:
        till.drive("p1", SerialDisplay(SerialPort("/dev/null")))
        with till.display("p1").in_use() as display:
            told("a file that was taken for a line", None, raised(display.display_text, b"Hi"))
    port = kijolvar.FilePort("/dev/null")
    port.open()
    for seconds in (0.2, 0.0):
        began = time.monotonic()
        told("a port that gives nothing is read for as long as was said", (b"", seconds > 0),
             (port.read(seconds), time.monotonic() - began >= 0.2))
    with mock.patch.object(port, "read_some", side_effect=[b"", b"", b"7"]):
        told("until something comes", b"7", port.read(PATIENCE))
    port.close()


def try_refusals():
    """Devices and drivers that don't fit."""
    with opened() as till:
        told("no such device", "NoDeviceError", name_of(till.drive, "r9", EscPosPrinter("/dev/null")))
        told("another category", "DriverError", name_of(till.drive, "d1", EscPosPrinter("/dev/null")))
        told("no such drawer", "NoDeviceError", name_of(till.drive, "r1", EscPosPrinter("/dev/null", drawer="d9")))
        told("a narrow printer", "ValueError", name_of(till.drive, "r1", EscPosPrinter("/dev/null", width=20)))
        with till.printer("r1").in_use() as printer:
            told("a device that isn't driven answers at once", None, raised(printer.print, TEXT))
    flaky = PROFILE.replace('category = "CashDrawer"', 'category = "CashDrawer"\nflaky = [1, 1]')
    with contextlib.ExitStack() as stack:
        device = stack.enter_context(Printer(cable()))
        driver = EscPosPrinter(device.path, drawer="d1", timeout=TIMEOUT, pause=PAUSE)
        with opened(flaky) as till:
            told("a drawer that can't be driven", "NoDeviceError", name_of(till.drive, "r1", driver))
            with till.printer("r1").in_use() as printer:
                told("its printer isn't driven", (111, 0), raised(printer.print, TEXT))
                told("but can be", None, name_of(till.drive, "r1", EscPosPrinter(
                    device.path, timeout=TIMEOUT, pause=PAUSE)))
                told("and prints", (None, 3), (raised(printer.print, TEXT), len(device.receipt())))
        with opened(PROFILE.replace("chars = 42", "chars = 48").replace("near = 20", "near = 2")) as till:
            told("a driver for another till", None, name_of(till.drive, "r1", driver))
    with contextlib.ExitStack() as stack:
        till, device = stack.enter_context(opened(flaky)), stack.enter_context(Printer(cable()))
        till.drive("r1", driver := EscPosPrinter(device.path, timeout=TIMEOUT, pause=PAUSE))
        control = stack.enter_context(till.printer("r1").in_use())
        told("a drawer that can't be driven, later", "NoDeviceError", name_of(till.drive, "d1", EscPosDrawer(driver)))
        told("its printer is there still", True, driver.is_online)
        told("and prints still", (None, 3), (raised(control.print, TEXT), len(device.receipt())))
    with contextlib.ExitStack() as stack:
        till, device = stack.enter_context(opened()), stack.enter_context(Printer(cable()))
        driver = EscPosPrinter(device.path, width=20, timeout=TIMEOUT, pause=PAUSE)
        till.drive("d1", EscPosDrawer(driver))
        told("a printer that can't be driven", "ValueError", name_of(till.drive, "r1", driver))
        told("its drawer opens still", (None, 1), (raised(till.drawer("d1").open_drawer), len(device.pulses)))
        till.close()
        told("nobody has its port", False, driver.link.port.is_open)
    with contextlib.ExitStack() as stack:
        till = stack.enter_context(opened(PROFILE + SECOND_PRINTER))
        device = stack.enter_context(Printer(cable()))
        till.drive("r1", driver := EscPosPrinter(device.path, timeout=TIMEOUT, pause=PAUSE))
        told("a driver that has a printer", "DriverError", name_of(till.drive, "r2", driver))
        control = stack.enter_context(till.printer("r1").in_use())
        told("prints each of two orders that are the same", ([None] * 2, [b"Tea"] * 2),
             ([raised(control.print, b"Tea\n") for _ in range(2)], characters_of(device)))
    seconds = "".join(f'[[device]]\nname = "{name}"\ncategory = "{category}"\n{more}' for name, category, more in (
        ("d2", "CashDrawer", ""), ("p2", "LineDisplay", "rows = 2\ncolumns = 20\n"), ("s2", "Scanner", "")))
    with contextlib.ExitStack() as stack:
        till, device = stack.enter_context(opened(PROFILE + seconds)), stack.enter_context(Printer(cable()))
        printer = EscPosPrinter(device.path, timeout=TIMEOUT, pause=PAUSE)
        for name, driver in (("d", EscPosDrawer(printer)), ("p", SerialDisplay("/dev/null")),
                             ("s", WedgeScanner("/dev/null"))):
            till.drive(f"{name}1", driver)
            told(f"one driver for two devices: {name}",
                 f"DriverError(\"the driver for '{name}2' has another device: make one for each\")",
                 repr(fault_of(till.drive, f"{name}2", driver)))
        told("the first one goes on", (None, 1), (raised(till.drawer("d1").open_drawer), len(device.pulses)))
        till.close()
        told("its port is closed with the till", False, printer.link.port.is_open)
    with opened(PROFILE.replace("near = 20", f"near = {MOST_LINES}")) as till:
        told("near its end for ever", "ValueError", name_of(till.drive, "r1", EscPosPrinter("/dev/null")))
    told("no such cutter", "cutter is 'both', 'full', 'partial' or 'absent': not 'none'",
         text_of(EscPosPrinter, "/dev/null", cutter="none"))
    told("no such pin", "ValueError", name_of(EscPosPrinter, "/dev/null", pin=3))
    told("no such pulse", ["feed and the two times of the pulse are 0 to 255, and the pin is 2 or 5"] * 2,
         [text_of(EscPosPrinter, "/dev/null", pulse=pulse) for pulse in ((25,), (25, 250, 25))])
    told("no such roll", "ValueError", name_of(EscPosPrinter, "/dev/null", lines=MOST_LINES + 1))
    told("no such protocol", "protocol is 'cd5220' or 'escpos': not 'morse'",
         text_of(SerialDisplay, "/dev/null", "morse"))
    told("no such timeout", ["ValueError"] * 14, [name_of(made, "/dev/null", timeout=timeout) for timeout in (
        0, 0.0, -1.0, math.nan, math.inf, -math.inf, 1e10) for made in (EscPosPrinter, SerialDisplay)])
    told("no such pause", ["ValueError"] * 15, [name_of(made, "/dev/null", pause=pause) for pause in (
        -1.0, math.nan, math.inf, -math.inf, 1e10) for made in (EscPosPrinter, SerialDisplay, WedgeScanner)])
    told("no drawer takes so long", ["ValueError"] * 5, [name_of(
        EscPosDrawer, EscPosPrinter("/dev/null"), settle) for settle in (-1.0, math.nan, math.inf, -math.inf, 1e10)])
    told("a refusal says what to do", "the timeout is above 0 and at most 2,147,483 seconds, such as 5.0: not inf",
         text_of(EscPosPrinter, "/dev/null", timeout=math.inf))
    told("that of a pause too", "the pause is 0 to 2,147,483 seconds, such as 1.0: not nan",
         text_of(WedgeScanner, "/dev/null", pause=math.nan))
    told("no such speed", "ValueError", name_of(SerialPort, "/dev/ttyS0", 9601))
    told("no such parity", "parity is 'none', 'even' or 'odd': not 'odder'",
         text_of(SerialPort, "/dev/ttyS0", parity="odder"))
    told("no such flow control", "flow is 'none', 'rts-cts' or 'xon-xoff': not 'dtr'",
         text_of(SerialPort, "/dev/ttyS0", flow="dtr"))
    told("a port's error has its number and path once",
         "[Errno 2] /dev/no-port can't be opened: No such file or directory",
         str(fault_of(kijolvar.port_of("/dev/no-port").open)))
    told("ports", ["FilePort", "SerialPort", "TcpPort tcp://a:1", "TcpPort tcp://a:1", "TcpPort tcp://a:9100",
                   "TcpPort tcp://[::1]:1", "TcpPort tcp://[::1]:9100"],
         [type(port).__name__ + f" {port.name}" * isinstance(port, kijolvar.TcpPort) for port in map(
             kijolvar.port_of, ("/dev/usb/lp0", "/dev/ttyUSB0", "tcp:a:1", "tcp://a:1", "tcp:a", "tcp:[::1]:1",
                                "tcp://[::1]"))])
    with mock.patch("os.path.realpath", return_value="/dev/usb/lp0"):
        told("links of such names that lead elsewhere", ["SerialPort", "SerialPort", "FilePort", "_KeyPort"],
             [type(port).__name__ for port in (*map(kijolvar.port_of, ("/dev/ttyS0", "/dev/serial/by-id/s", "/dev/p")),
                                               WedgeScanner("/dev/input/s").port)])
    told("no such ports", ["ValueError"] * 17, [name_of(kijolvar.port_of, f"tcp:{name}") for name in (
        "", ":1", "::1", "a:b", "a:0", "a:65536", "[a:b]", "::1:9100", "::1:9l00", "[::1", "[::1]9100", "a:", "a:+91",
        "[]", "[a", "a]", "[fe80::1%]")])
    told("a name that no host has", "PortError", name_of(kijolvar.port_of("tcp:.a").open))


def text_of(call, *words, **named):
    """The text of the ValueError that a call raises."""
    try:
        call(*words, **named)
    except ValueError as fault:
        return str(fault)
    return None


def try_longest_times():
    """The longest times that a driver takes, and the shortest: they overflow nothing."""
    with contextlib.ExitStack() as stack:
        printer = stack.enter_context(Printer(cable("tcp")))
        display, scanner = (stack.enter_context(made) for made in (Display(cable(), 2, 20, "cd5220"), Scanner(cable())))
        till, most = stack.enter_context(opened()), 2_147_483
        silent = stack.enter_context(SilentHost())
        driver = EscPosPrinter(printer.path, timeout=most, pause=most, lines=1000)
        till.drive("r1", driver)
        till.drive("d1", EscPosDrawer(driver, settle=most))
        till.drive("p1", SerialDisplay(display.path, timeout=most, pause=most))
        till.drive("s1", WedgeScanner(scanner.path, keys=True, pause=most))
        with till.printer("r1").in_use() as control, till.display("p1").in_use() as shown:
            told("a printer with time", None, in_time(control.print, TEXT))
            told("a drawer with time", None, in_time(till.drawer("d1").open_drawer))
            told("a display with time", None, in_time(shown.display_text, b"Hi"))
        told("a round of all", None, in_time(till.run_devices))
        port = kijolvar.port_of(silent.path)
        told("a port of a silent host", "InterruptedError", in_time(port.open, most, patience=0.5))
        port.close()
    with opened() as till:
        till.drive("s1", WedgeScanner("/dev/no-such-device", pause=0))
        told("a scanner that isn't there, tried all the time", None, in_time(till.run_devices))


def try_endless_waits():
    """Calls that wait without an end do so until something comes. NaN is no time, and less than 0 is none."""
    with contextlib.ExitStack() as stack:
        till, device = stack.enter_context(opened()), stack.enter_context(Scanner(cable()))
        till.drive("s1", WedgeScanner(device.path, pause=PAUSE))
        scanner = stack.enter_context(till.scanner("s1").in_use())
        scanner.data_event_enabled = True
        until(lambda: not till.run_devices())
        typing = threading.Timer(0.3, device.scan, [b"7"])
        typing.start()
        told("the loop waits until something is there", (None, 1),
             (in_time(till.run_devices, math.inf), scanner.data_count))
        typing.join()
        told("less than no time", [False] * 2, [till.run_devices(seconds) for seconds in (-1.0, -math.inf)])
        told("no time", "the timeout is a number of seconds, or math.inf to wait without an end: not nan",
             text_of(till.run_devices, math.nan))
    with contextlib.ExitStack() as stack:
        device = stack.enter_context(Scanner(cable()))
        server = stack.enter_context(socket.create_server(("127.0.0.1", 0)))
        port = kijolvar.TcpPort("127.0.0.1", server.getsockname()[1])
        told("a port that is opened without an end", (None, True), (in_time(port.open, math.inf), port.is_open))
        told("what is written so", [True, True], [port.write(b"A", seconds) for seconds in (math.inf, 1e300)])
        told("what can be done", (False, True), port.ready(True, math.inf))
        told("no more than no time", (b"", False), (port.read(-1.0), port.write(b"A", -math.inf)))
        told("NaN", ["ValueError"] * 4, [name_of(call, *words) for call, *words in (
            (port.open, math.nan), (port.ready, False, math.nan), (port.read, math.nan), (port.write, b"", math.nan))])
        port.close()
        line = kijolvar.FilePort(device.path)
        line.open(math.inf)
        typing = threading.Timer(0.3, device.scan, [b"7"])
        typing.start()
        told("what comes later", b"7\r", line.read(math.inf))
        typing.join()
        typing = threading.Timer(0.3, device.scan, [b"8"])
        typing.start()
        with mock.patch.object(kijolvar.ports.BESIDE, "keyboards", [WedgeScanner("/dev/null", keys=True)]):
            told("beside a keyboard", b"8\r", line.read(math.inf))
        typing.join()
        line.close()


def try_silent_host():
    """A host that doesn't answer. A port is opened on meanwhile, and keeps no other device waiting."""
    with contextlib.ExitStack() as stack:
        silent = stack.enter_context(SilentHost())
        port = kijolvar.port_of(silent.path)
        faults = [errno_of(port.open, 0) for _ in range(3)]
        told("it doesn't answer", ([errno.ETIMEDOUT] * 3, True), (faults, port.is_opening))
        told("for a second", (errno.ETIMEDOUT, False), (errno_of(port.open), port.is_opening))
        told("it has a second again", (errno.ETIMEDOUT, True), (errno_of(port.open, 0), port.is_opening))
        port.close()
        told("it is given up", False, port.is_opening)
        with mock.patch("socket.socket.connect_ex", return_value=errno.ECONNREFUSED):
            told("it refuses", errno.ECONNREFUSED, errno_of(port.open, 0))
        told("it says nothing then", (errno.ETIMEDOUT, True), (errno_of(port.open, 0), port.is_opening))
        told("until that is known it has refused", errno.ECONNREFUSED, port.open_error.errno)
        port.close()
        till = stack.enter_context(opened())
        till.drive("p1", driver := SerialDisplay(silent.path, timeout=0.01, pause=0))
        began = time.monotonic()
        for _ in range(200):
            till.run_devices()
        # If each waited for the host, these would take 50 seconds.
        told("it keeps no other device waiting", True, time.monotonic() - began < 10)
        told("it isn't there", False, driver.is_online)
        told("that it is tried is told", errno.ETIMEDOUT, errno_of(port.open, 0))
        # The system asks again after a second.
        port._joining._turn_ends_at += PATIENCE
        silent.answers()
        told("it answers", True, until(lambda: errno_of(port.open, 0) is None))
        told("nothing is left to open", (True, False), (port.is_open, port.is_opening))
        port.close()
        told("the display finds it", True, until(lambda: till.run_devices() or driver.is_online))
    with SilentHost() as first, SilentHost() as second:
        found = [(socket.AF_INET, socket.SOCK_STREAM, 6, "", silent.address) for silent in (first, second)]
        port = kijolvar.TcpPort("printer")
        with mock.patch("socket.getaddrinfo", return_value=found):
            told("two addresses that say nothing", errno.ETIMEDOUT, errno_of(port.open, 0))
        time.sleep(1.2)
        told("the second has its time though nobody looked", (errno.ETIMEDOUT, True),
             (errno_of(port.open, 0), port.is_opening))
        second.answers()
        if port.is_opening:
            select.select([], [port._joining._made], [], PATIENCE)
        time.sleep(1.2)
        told("it is found, too", None, errno_of(port.open, 0))
        port.close()
    with SilentHost() as silent:
        # The system asks again after a second.
        answering, scanner = threading.Timer(0.2, silent.answers), WedgeScanner(silent.path)
        answering.start()
        scanner.start(None)
        told("a scanner whose host answers late is there at first", True, scanner.is_online)
        answering.join()
        scanner.close()


# ---- random faults

def try_random():
    """Random trouble: each order that was answered ok is on the paper once, in order, and nothing else is. On a line
    that holds back what is sent, it may be there again, and parts of it if the printer had no power."""
    kinds = ("usb", "tcp", "asked", "usb stays", "tcp stays", "asked stays", "holds", "asked holds", "holds adapter",
             "asked holds adapter")
    for kind in kinds:
        chance, left = random.Random(f"{WORDS.seed} {kind}"), WORDS.faults // len(kinds)
        while left > 0:
            # A till keeps the paper of 500 orders of a driven printer.
            random_rounds(kind, chance, min(left, 400))
            left -= 400


def random_rounds(kind, chance, rounds):
    name, counts = f"{rounds} random faults over {kind}", {}
    with contextlib.ExitStack() as stack:
        shop = Shop(stack, kind, lines=100_000)
        shop.device.load(100_000)
        # What the printer hasn't read ahead is in the line.
        shop.device.ROOM = 8 if "holds" in kind else shop.device.ROOM
        strange = []
        for number in range(rounds):
            before = len(shop.device.receipt()), len(shop.till.device("r1").show().items)
            troubles = random_round(shop, chance, number, SIMPLE if "asked" in kind else ())
            counts |= {trouble: counts.get(trouble, 0) + 1 for trouble in troubles}
            strange += strange_on_paper(shop, *before, troubles, kind) if "holds" in kind else []
        shop.device.clear_triggers()
        if "holds" not in kind:
            shop.same_paper(f"{name}: the paper")
        told(f"{name}: no paper of a round is strange", [], strange[:1])
        told(f"{name}: each order is printed", rounds,
             len({item.characters.split()[0] for item in shop.till.device("r1").show().items
                  if not isinstance(item, PrintedCut)}))
        told(f"{name}: no late order", 0, shop.driver.late_orders)
        most = counts.get("plug", 0) + MOST_PIECES * counts.get("lost answers", 0)
        told(f"{name}: no more doubts than there was reason for", True,
             "holds" in kind or len(shop.device.doubts) <= most)
        print(f"{name}: {counts}, in doubt: {len(shop.device.doubts)}", flush=True)


def strange_on_paper(shop, had, items, troubles, kind):
    """What is wrong with the paper of a round over a line that holds back what is sent: each line of the order is
    whole. Only a printer that was silent may print more than once, and only one that had no power a part of a line."""
    shop.device.wait(lambda: shop.device.is_idle)
    wanted = [item_of(item) for item in shop.till.device("r1").show().items[items:]]
    left, others = list(wanted), []
    for item in shop.device.receipt()[had:]:
        if left and item == left[0]:
            del left[0]
        else:
            others.append(item)
    parts = [item for item in others if item not in wanted]
    repeats = {"plug", "silence", "lost answers", *(("cover", "paper", "jam") if "asked" in kind else ())}
    is_right = not left and (repeats & troubles or not others) and ("plug" in troubles or not parts)
    return [] if is_right else [(troubles, wanted, shop.device.receipt()[had:])]


# What a printer that is asked must not meet: its answers have no number.
SIMPLE = ("garbage",)
# The most lines and cuts of an order: one line of them is in doubt if the plug is pulled, and all if answers are lost.
MOST_PIECES = 5


def random_troubles(device, chance, unless):
    """One trouble, or two: the name of each, what it does, and what ends it."""
    noise = bytes(chance.randrange(256) for _ in range(chance.randrange(1, 20)))
    troubles = {
        "none": (lambda: None, lambda: None),
        "cover": (lambda: device.cover(True), lambda: device.cover(False)),
        "paper": (lambda: device.load(chance.choice([0, 1])), lambda: device.load(100_000)),
        "plug": (device.pull_plug, device.plug_in),
        "silence": (device.hang, lambda: device.hang(False)),
        "lost answers": (device.mute, lambda: device.mute(False)),
        "garbage": (lambda: device.garbage(noise), lambda: None),
        "slow": (lambda: device.slow(chance.choice([0.01, TIMEOUT / 2])), lambda: device.slow(0)),
        "jam": (lambda: device.breaks(True), lambda: device.breaks(False)),
    }
    names = [name for name in troubles if name not in unless]
    return {name: troubles[name] for name in chance.sample(names, chance.choice([1, 1, 2]))}


def random_round(shop, chance, number, unless):
    """An order, trouble during it, and retries until it is printed. Returns the names of the troubles."""
    device, control = shop.device, shop.control
    count = chance.randrange(1, 5)
    text = b"".join(b"\x1b|%bA%06d of %d\n" % (chance.choice([b"c", b"r"]), number, count) for _ in range(count))
    text += chance.choice([b"", b"", b"\x1b|P"])
    troubles = random_troubles(device, chance, unless)
    device.clear_triggers()
    for deed, _ in troubles.values():
        device.after(chance.randrange(1, 40 * count), deed)
    waits = control.async_mode = chance.random() < 0.5
    is_printed = raised(control.print, text) is None and not waits
    control.async_mode = False
    left = chance.randrange(3)
    end = time.monotonic() + PATIENCE
    while not is_printed:
        if left == 0:
            end_troubles(device, troubles)
        left -= 1
        shop.till.run_devices(0.01)
        events = list(control.events())
        if waits:
            is_printed = any(isinstance(event, OutputCompleteEvent) for event in events)
        else:
            is_printed = raised(control.print, text) is None
        if time.monotonic() > end:
            told(f"round {number}: {', '.join(troubles)} ends", True, False)
            break
    end_troubles(device, troubles)
    if not until(lambda: shop.settle() and is_over(shop)):
        told(f"round {number}: {', '.join(troubles)} is over", True, False)
    shop.till.run_devices()
    list(control.events())
    return troubles.keys()


def is_over(shop):
    """Whether nothing is left of troubles: noise may have answered a question that is out, and a printer that was off
    for a moment doesn't say by itself how it is until it is asked."""
    return shop.device._is_automatic != shop.device.is_simple and not shop.driver.link._unanswered


def end_troubles(device, troubles):
    """Ends troubles. None begins any more."""
    device.clear_triggers()
    for _, undo in troubles.values():
        undo()


def try_random_display():
    """Random trouble of a display: after an order that was answered ok it shows what the till shows."""
    for kind, protocol in (("usb", "cd5220"), ("tcp", "escpos")):
        chance = random.Random(WORDS.seed)
        rounds, wrong = WORDS.faults // 5, []
        with contextlib.ExitStack() as stack:
            till = stack.enter_context(opened())
            device = stack.enter_context(Display(cable(kind), 2, 20, protocol))
            till.drive("p1", SerialDisplay(device.path, protocol, timeout=TIMEOUT, pause=PAUSE))
            display = stack.enter_context(till.display("p1").in_use())
            for number in range(rounds):
                device.after(chance.randrange(1, 50), chance.choice([device.pull_plug, device.hang, lambda: None]))
                order = random_order(display, chance)
                raised(order)
                device.wait(lambda: device.is_idle or device.is_hung)
                device.clear_triggers()
                if chance.random() < 0.5:
                    till.run_devices(0.01)
                device.plug_in()
                device.hang(False)
                if not until(lambda: is_done_or_waits(till, order)):
                    wrong.append((number, "it isn't done"))
                wanted = till.device("p1").show().characters
                if not device.wait(lambda: device.shows() == wanted, PATIENCE):
                    wrong.append((number, wanted, device.shows()))
        told(f"{rounds} random faults of a display over {kind}", [], wrong[:1])


def is_done_or_waits(till, order):
    """Whether an order is done. If not, the devices get some time."""
    is_done = raised(order) is None
    if not is_done:
        till.run_devices(0.01)
    return is_done


def random_order(display, chance):
    """An order that has the same effect however often it is done."""
    place, text = (chance.randrange(2), chance.randrange(15)), b"%05d" % chance.randrange(100_000)
    return chance.choice([lambda: display.display_text_at(*place, text)] * 4 + [display.clear_text])


# ---- a host that is killed

HOST = """
import sys
sys.path.insert(0, sys.argv[1])
import kijolvar
library, path, port = sys.argv[2:5]
profile = sys.argv[5]
with kijolvar.open(profile, path, library=library) as till:
    till.drive("r1", kijolvar.EscPosPrinter(port))
    printer, totals = till.printer("r1"), till.totals("t1")
    with printer.in_use():
        count = int.from_bytes(totals["COUNT"].read(count=4), "big")
        while True:
            count += 1
            printer.print(b"Sale %d\\n" % count)
            print("printed", count, flush=True)
            totals["COUNT"].write(0, count.to_bytes(4, "big"))
            print("counted", count, flush=True)
"""


def try_killed():
    """A host that is killed at any moment: the totals are as they were acknowledged."""
    chance = random.Random(WORDS.seed)
    for number in range(10):
        path = CHECKS.work / f"totals-{number}"
        with opened(PROFILE, path, create=True) as till:
            till.totals("t1").create("COUNT", 4)
        with Printer(cable(), lines=100_000) as device:
            words = [sys.executable, "-c", HOST, TOP / "abi/python", LIBRARY, path, device.path, PROFILE]
            host = subprocess.Popen(words, stdout=subprocess.PIPE, text=True)
            wanted = chance.randrange(1, 40)
            said = []
            for line in host.stdout:
                said.append(line.split())
                if len(said) >= wanted:
                    break
            time.sleep(chance.random() * 0.003)
            host.kill()
            said += [line.split() for line in host.stdout.read().splitlines() if len(line.split()) == 2]
            host.wait()
            # A line that nobody has open is free for all. The emulator has this one.
            fcntl.ioctl(device.cable._slave, termios.TIOCNXCL)
            counted = max([int(count) for what, count in said if what == "counted"], default=0)
            printed = max([int(count) for what, count in said if what == "printed"], default=0)
            kept = int.from_bytes(kijolvar.files(path, library=LIBRARY).files[b"COUNT"], "big")
            device.wait(lambda: device.is_idle)
            told(f"killed {number}: the totals", True, counted <= kept <= counted + 1)
            told(f"killed {number}: the paper", True, printed <= len(characters_of(device)) <= printed + 1)
            with opened(PROFILE, path) as till:
                till.drive("r1", EscPosPrinter(device.path))
                with till.printer("r1").in_use() as printer:
                    told(f"killed {number}: the next host prints", None, raised(printer.print, b"Next\n"))
            told(f"killed {number}: what it prints", [b"Next"], characters_of(device)[printed + 1:] or
                 characters_of(device)[printed:])


# ---- the guide

GUIDE = TOP / "docs/guide/attach-your-printer.md"


def try_guide():
    """The guide's programs and commands, with emulated devices at its ports."""
    blocks = re.findall(r"```(python|sh|text)\n(.*?)```", GUIDE.read_text(), re.S)
    programs, commands, texts = ([text for kind, text in blocks if kind == word] for word in ("python", "sh", "text"))
    told("the guide's programs, commands and texts", (4, 2, 1), (len(programs), len(commands), len(texts)))
    with contextlib.ExitStack() as stack:
        printer = stack.enter_context(Printer(cable(), 8, 5, 2))
        display, scanner = stack.enter_context(Display(cable(), 2, 4)), stack.enter_context(Scanner(cable()))
        ports = {"/dev/usb/lp0": printer.path, "/dev/serial/by-id/usb-display": display.path,
                 "/dev/input/by-id/usb-scanner-event-kbd": scanner.path}
        programs = [re.sub("|".join(ports), lambda found: ports[found[0]], text) for text in programs]
        names = {}

        def said(program):
            text = io.StringIO()
            with contextlib.redirect_stdout(text):
                exec(program, names)
            return text.getvalue()
        told("the guide's first program says nothing", "", said(programs[0]))
        told("the guide's first program", ([b"Bread"], True), (characters_of(printer), printer.is_drawer_open))
        told("the guide's second program says nothing", "", said(programs[1]))
        till = stack.enter_context(names["till"])
        told("the guide's devices are there", [True] * 2,
             [drive.driver.is_online for drive in till._drives._drives.values()])
        loop = programs[2].replace("while True", "for _ in range(20)").replace("1.0", "0.05")
        scanner.scan(b"123")
        told("the guide's loop", (True, True), ("for _ in range(20)" in loop, "timeout=0.05" in loop))
        printed = said(loop)
        told("the guide's loop delivers a scan", (True, True), ("DataEvent" in printed, "b'123'" in printed))
        told("the guide's own driver", texts[0], said(programs[3]))
    with Printer(cable(), 42) as printer:
        command = commands[0].replace("/dev/usb/lp0", printer.path).split()
        told("the guide's first command", ["python3", "-m", "kijolvar"], command[:3])
        said, status = commanded(*command[3:])
        told("the guide's page", (0, True, True), (status, b"in the centre" in characters_of(printer),
                                                   printer.is_drawer_open))
    path = CHECKS.work / "guide"
    command = commands[1].replace("/tmp/printer", str(path))
    told("the guide's port", True, f"--path {path}" in command)
    pipes = {"stdin": subprocess.PIPE, "stdout": subprocess.PIPE, "text": True, "cwd": TOP}
    with subprocess.Popen(command.split(), **pipes) as emulator:
        told("the emulator says its port", str(path), emulator.stdout.readline().strip())
        with opened(None) as till:
            till.drive("r1", EscPosPrinter(path, pause=PAUSE))
            with till.printer("r1").in_use() as control:
                control.print(b"\x1b|cABread\n")
                emulator.stdin.write("cover open\nwait\n")
                emulator.stdin.flush()
                told("the emulator's cover is opened", True,
                     until(lambda: till.run_devices(0.01) or raised(control.print, b"Milk\n") == (114, 201)))
        emulator.stdin.write("show\n")
        emulator.stdin.close()
        told("the emulator shows its paper", " Bread\n", emulator.stdout.read().replace("Milk\n", ""))


def try_emulator():
    """A line that an emulated device doesn't understand once its time has come doesn't end it."""
    words = [sys.executable, str(TOP / "tests/emulator"), "printer", "--path", str(CHECKS.work / "emulated")]
    with subprocess.Popen(words, stdin=subprocess.PIPE, stdout=subprocess.PIPE, stderr=subprocess.PIPE,
                          text=True) as emulator:
        port = kijolvar.FilePort(emulator.stdout.readline().strip())
        emulator.stdin.write("after 1 covr open\ncovr closed\n")
        emulator.stdin.flush()
        told("a line that it doesn't understand", "not understood: covr closed\n", emulator.stderr.readline())
        port.open()
        told("it is sent a line", True, port.write(b"Bread\n", PATIENCE))
        emulator.stdin.write("wait\nshow\n")
        emulator.stdin.close()
        told("and prints it", ("Bread\n", "not understood: covr open\n"), (emulator.stdout.read(), emulator.stderr.read()))
        port.close()


# ---- costs

def try_cost():
    """What an order costs beside a bare round trip of the same bytes, by the medians of both in turns."""
    words = [sys.executable, str(TOP / "tests/emulator"), "printer", "--path", str(CHECKS.work / "cost"), "--lines", "100000"]
    pipes = {"stdin": subprocess.PIPE, "stdout": subprocess.PIPE, "text": True}
    with subprocess.Popen(words, **pipes) as emulator, opened() as till:
        port = emulator.stdout.readline().strip()
        driver = EscPosPrinter(port)
        till.drive("r1", driver)
        with till.printer("r1").in_use() as printer:
            line = b"A line of the length that lines often have\n"
            bare = b"\x1ba\0" + line + b"\x1d(H\x06\x00" + b"00" + b"@@@A"
            bares, orders = [], []
            for _ in range(1000):
                bares.append(timed(lambda: (driver.link.port.write(bare, 1), read_all(driver.link.port, 7))))
                orders.append(timed(lambda: printer.print(line)))
        emulator.stdin.close()
    order, bare = statistics.median(orders), statistics.median(bares)
    print(f"an order: {order * 1e6:.0f} us; a bare round trip: {bare * 1e6:.0f} us; {order / bare:.2f} times")
    told("an order costs at most twice a bare round trip", True, order <= 2 * bare)


def read_all(port, count):
    while count > 0:
        count -= len(port.read(1))


def timed(deed):
    began = time.perf_counter()
    deed()
    return time.perf_counter() - began


def main():
    for one in [value for name, value in globals().items() if name.startswith("try_")]:
        if WORDS.only in one.__name__:
            began = time.monotonic()
            CHECKS.run(one, give_time)
            print(f"{one.__name__}: {time.monotonic() - began:.1f} s", flush=True)
    CHECKS.end()


if __name__ == "__main__":
    reader = argparse.ArgumentParser(description=__doc__, formatter_class=argparse.RawDescriptionHelpFormatter)
    reader.add_argument("library")
    reader.add_argument("--faults", type=int, default=150)
    reader.add_argument("--seed", type=int, default=1)
    reader.add_argument("--only", default="")
    WORDS = reader.parse_args()
    LIBRARY = pathlib.Path(WORDS.library).resolve()
    os.environ["KIJOLVAR_LIBRARY"] = os.fspath(LIBRARY)
    if os.getloadavg()[0] > 1.5 * (os.cpu_count() or 1):
        give_time()
    main()
