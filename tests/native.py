"""Tries the drivers of a typed layer over emulated devices (tests/emulator), by a host program in its language.

Usage: native.py NAME HOST [--faults N] [--seed N] [--only WORD] [--slack SECONDS] [--preloaded LIBRARY]

HOST is the program that tests/native/host.c says the commands of. N random faults are tried, by default 100, from a
seed. --only tries what has the word in its name; --slack is how much later than its timeout a call may return.
--preloaded is tests/native/preloaded.c as a library, which HOST may preload. The last line is 'N passed, M failed'.
"""
import argparse
import contextlib
import errno
import fcntl
import itertools
import os
import pathlib
import random
import select
import shutil
import signal
import socket
import struct
import subprocess
import sys
import termios
import threading
import time

TOP = pathlib.Path(__file__).resolve().parent.parent
sys.path.insert(0, str(TOP / "tests"))

from checks import Checks
from emulator import (Cut, Display, HearingPrinter, LatePrinter, Line, Printer, PtyCable, Scanner, SilentHost, TcpCable,
                      first_strange)

PROFILE = """
[[device]]
name = "r1"
category = "POSPrinter"
chars = 42
lines = 1000
near = 20
[[device]]
name = "d1"
category = "CashDrawer"
[[device]]
name = "d2"
category = "CashDrawer"
[[device]]
name = "p1"
category = "LineDisplay"
rows = 2
columns = 20
[[device]]
name = "s1"
category = "Scanner"
[[device]]
name = "t1"
category = "HardTotals"
"""
TWO_PRINTERS = PROFILE + """
[[device]]
name = "r2"
category = "POSPrinter"
chars = 42
lines = 1000
near = 20
"""
# How long an order may take where something happens meanwhile, and where nothing does, on a machine that is busy, in
# milliseconds; how long is waited for what has to happen, and for an answer or the end of a host, in seconds.
TIMEOUT, AMPLE, PATIENCE, LIMIT = 800, 10_000, 30, 600
CHECKS = Checks()
told = CHECKS.told
made = 0


def cable(kind="usb"):
    """A new cable: "usb" hangs up with the device, a serial line doesn't, "tcp" is a network printer's. With "stays"
    behind it, the port stays open while the device is off. "holds" is a serial line with RTS/CTS, by an adapter that
    keeps 256 bytes if that is behind it."""
    global made
    made += 1
    hangs_up = "serial" not in kind and "stays" not in kind
    if "tcp" in kind:
        return TcpCable(hangs_up=hangs_up)
    keeps = 256 * ("adapter" in kind)
    return PtyCable(CHECKS.work / f"port-{made}", hangs_up=hangs_up, holds="holds" in kind, keeps=keeps)


def until(condition, seconds=PATIENCE):
    """Whether something becomes so."""
    end = time.monotonic() + seconds
    while not condition():
        if time.monotonic() > end:
            return False
        time.sleep(0.001)
    return True


class Host:
    """A program with a till. It has the terminal of a file, if one is given, and these variables too."""

    def __init__(self, stack, profile=PROFILE, *totals, terminal=None, **variables):
        # Another program may still be reading its profile: one is written once.
        self.profile = CHECKS.work / f"profile {hash(profile)}"
        if not self.profile.exists():
            self.profile.write_text(profile)
        pipes = {"stdin": subprocess.PIPE, "stdout": subprocess.PIPE, "text": True, "bufsize": 1,
                 "env": os.environ | variables}
        if terminal is not None:
            pipes |= {"start_new_session": True, "pass_fds": [terminal],
                      "preexec_fn": lambda: fcntl.ioctl(terminal, termios.TIOCSCTTY, 0)}
        self.program = subprocess.Popen([WORDS.host, self.profile, *totals], **pipes)
        stack.callback(self.close)

    def ask(self, command):
        """Gives a command, and returns its answer."""
        self.program.stdin.write(command + "\n")
        self.program.stdin.flush()
        if not select.select([self.program.stdout], [], [], LIMIT)[0]:
            self.program.kill()
        answer = self.program.stdout.readline()
        assert answer, f"the host has ended, or doesn't answer, at: {command[:80]}"
        return answer.rstrip("\n")

    def lines(self, *lines):
        """Carries out lines, and returns their answers."""
        return self.ask("lines " + ";".join(lines)).split(";")[:-1]

    def line(self, line):
        """Carries out one line, and returns its answer."""
        return self.lines(line)[0]

    def close(self):
        self.program.stdin.close()
        try:
            self.program.wait(LIMIT)
        except subprocess.TimeoutExpired:
            self.program.kill()
        told("the host ends well", 0, self.program.wait())
        self.program.stdout.close()


TEXT = b"First line\n\x1b|cA\x1b|bCSecond line\n\x1b|N\x1b|rAThird line\n"
# Why a printer refuses a text that isn't ASCII (abi/documentation.toml).
NO_ASCII = ("The station isn't the receipt; or the data has more than 4,096 bytes, a byte that isn't ASCII text, LF, "
            "CR or ESC, or a number out of range.")
PRINTED = [("left", b"First line"), ("center", b"Second line"), ("right", b"Third line")]
TROUBLES = {
    "the cover is opened": (lambda device: device.cover(True), lambda device: device.cover(False), "err 114 201"),
    "the paper runs out": (lambda device: device.load(0), lambda device: device.load(1000), "err 114 203"),
    "the plug is pulled": (Printer.pull_plug, Printer.plug_in, "err 108"),
    "the printer falls silent": (Printer.hang, lambda device: device.hang(False), "err 111"),
}


def paper_of(device):
    """What is printed, without that whose acknowledgement was lost, or at which the plug was pulled: no driver can know
    whether that was printed, and it is printed again."""
    device.wait(lambda: device.is_idle)
    items = [item for at, item in enumerate(device.receipt()) if at not in device.doubts]
    return [(item.alignment, item.characters) if isinstance(item, Line) else item for item in items]


class Shop:
    """A host whose printer is emulated, and may be in trouble. One of the kind "asked" is simpler, on "usb"."""

    def __init__(self, stack, kind="usb", words="", lines=1000, is_claimed=True, timeout=TIMEOUT, made=Printer,
                 **variables):
        self.device = stack.enter_context(made(cable(kind), lines=lines, is_simple="asked" in kind))
        self.host = Host(stack, **variables)
        words += " asked" * ("asked" in kind) + " serial 115200" * ("serial" in kind)
        words += " serial 115200 flow rts-cts" * ("holds" in kind)
        opened = f"printer r1 {self.device.path} timeout {timeout} pause 10 lines 1000 {words}"
        told("the printer is opened", "ok", self.host.ask(opened))
        # On a machine that is busy it may have been silent meanwhile.
        until(lambda: self.host.ask("state r1").startswith("online") or not self.host.ask("run 10"))
        if is_claimed:
            lines = ("new r POSPrinter", "open r r1", "claim r 0", "set r DeviceEnabled true")
            told("the printer is enabled", ["ok"] * 4, self.host.lines(*lines))

    def print(self, data):
        return self.host.line(f"call r printNormal 2 {data.hex()}")

    def settle(self):
        """Waits until the till knows that the printer is well."""
        def is_well():
            self.host.ask("run 0")
            return (self.host.ask("state r1").startswith("online") and self.host.line("get r CoverOpen") == "ok false"
                    and self.host.line("get r RecEmpty") == "ok false")
        return until(is_well)

    def paper(self):
        return paper_of(self.device)

    def late(self):
        return self.host.ask("state r1").split()[1]


def try_plain():
    """Orders by lines and by a typed call, asynchronous output, and lines around orders."""
    for kind in ("usb", "tcp", "serial", "asked", "holds", "asked holds"):
        with contextlib.ExitStack() as stack:
            shop = Shop(stack, kind, timeout=AMPLE)
            told(f"an order over {kind}", "ok", shop.print(TEXT))
            told(f"a cut over {kind}", "ok", shop.host.line("call r cutPaper 100"))
            told(f"the paper over {kind}", [*PRINTED, Cut(True, 3)], shop.paper())
            told(f"text without a line's end over {kind}", "ok", shop.print(b"Begun"))
            told(f"its end over {kind}", "ok", shop.print(b"\n"))
            told(f"the state over {kind}", "online 0", shop.host.ask("state r1"))
    with contextlib.ExitStack() as stack:
        shop = Shop(stack, is_claimed=False, timeout=AMPLE)
        told("a typed call", "ok", shop.host.ask(f"print {TEXT.hex()}"))
        told("the paper of a typed call", PRINTED, shop.paper())
        told("why a letter is refused", NO_ASCII, shop.host.ask(f"reason {'Brötchen'.encode().hex()}"))
        told("a line that is printed has no reason", "", shop.host.ask(f"reason {TEXT.hex()}"))
        shop.device.cover(True)
        told("the cover is open", "E_EXTENDED 201", shop.host.ask(f"print {TEXT.hex()}"))
        told("why a call is refused then", "The cover is open.", shop.host.ask(f"reason {TEXT.hex()}"))
    with contextlib.ExitStack() as stack:
        shop = Shop(stack, timeout=AMPLE)
        shop.device.load(21)
        told("the paper is good", "ok false", shop.host.line("get r RecNearEnd"))
        told("the paper is near its end", ["ok", "ok true"],
             [shop.print(b"Line\n"), shop.host.line("get r RecNearEnd")])
    with contextlib.ExitStack() as stack:
        shop = Shop(stack, timeout=AMPLE)
        lines = ("get r State", "call r printNormal 2 410a", "get r State", "call r printNormal 2 420a",
                 "call r cutPaper 100", "get r CoverOpen")
        told("lines around orders", ["ok 2", "ok", "ok 2", "ok", "ok", "ok false"], shop.host.lines(*lines))
        told("their paper", [("left", b"A"), ("left", b"B"), Cut(True, 3)], shop.paper())
        shop.device.after(20, lambda: shop.device.cover(True))
        lines = ("call r printNormal 2 430a", "call r printNormal 2 440a", "get r CoverOpen")
        told("lines around an order that fails", ["ok", "err 114 201", "ok true"], shop.host.lines(*lines))
        shop.device.cover(False)
        told("it ends", True, shop.settle())
        told("the order again", "ok", shop.print(b"D\n"))
        told("the paper then", [b"C", b"D"], [item[1] for item in shop.paper()[-2:]])
        text = b"".join(b"Line %d\n" % number for number in range(200))
        told("a long order", "ok", shop.print(text))
        told("its paper", text.split(b"\n")[:-1], [item[1] for item in shop.paper()[-200:]])


def try_troubles():
    """Trouble during an order: the answer is never ok, and a retry prints once."""
    for kind in ("usb", "tcp", "serial", "asked"):
        for trouble, (deed, undo, wanted) in TROUBLES.items():
            # A serial line doesn't tell that the device is off: the order fails, and later ones find it off.
            found_as = "err 111" if kind == "serial" and wanted == "err 108" else wanted
            for place in (3, 30, 50):
                name = f"{trouble} after {place} bytes, over {kind}"
                with contextlib.ExitStack() as stack:
                    shop = Shop(stack, kind)
                    shop.device.after(place, lambda: deed(shop.device))
                    began = time.monotonic()
                    told(f"{name}: the answer", found_as, shop.print(TEXT))
                    told(f"{name}: in time", True, time.monotonic() - began < TIMEOUT / 1000 + WORDS.slack)
                    told(f"{name}: still", "err", shop.print(TEXT)[:3])
                    shop.device.clear_triggers()
                    undo(shop.device)
                    told(f"{name}: it ends", True, shop.settle())
                    told(f"{name}: again", True, until(lambda: shop.print(TEXT) == "ok"))
                    told(f"{name}: the paper", PRINTED, shop.paper())
                    told(f"{name}: nothing else", "0", shop.late())


def try_long_receipt():
    """A receipt that takes longer than the timeout is printed, since each line is acknowledged in time; and it fails in
    time where no line is."""
    lines = [b"Line %d" % number for number in range(12)]
    for kind in ("usb", "tcp", "serial", "asked", "holds"):
        with contextlib.ExitStack() as stack:
            shop = Shop(stack, kind)
            shop.device.slow(TIMEOUT / 4000)
            began = time.monotonic()
            told(f"a long receipt over {kind}", "ok", shop.print(b"\n".join(lines) + b"\n"))
            told(f"it takes its time over {kind}", True, time.monotonic() - began > 2.5 * TIMEOUT / 1000)
            told(f"its paper over {kind}", lines, [item[1] for item in shop.paper()])
            ends = []
            # It stops within the fourth line.
            shop.device.after(70, shop.device.hang, lambda: ends.append(time.monotonic()))
            told(f"one that stops over {kind}", "err 111", shop.print(b"\n".join(lines) + b"\n"))
            took = time.monotonic() - ends[0] if ends else None
            told(f"it fails in time over {kind}", True, took is not None and took < TIMEOUT / 1000 + WORDS.slack)


RECEIPT = [b"Article %d of the receipt" % number for number in range(8)]


def print_receipt(shop):
    return shop.print(b"\n".join(RECEIPT) + b"\n")


def missing(shop):
    """The lines of the receipt that aren't whole on the paper."""
    shop.device.wait(lambda: shop.device.is_idle)
    return [line for line in RECEIPT if line not in [item.characters for item in shop.device.receipt()]]


def is_done_after_all(shop):
    """Whether a retry of the receipt is done."""
    return until(lambda: shop.host.ask("run 10") and print_receipt(shop) == "ok")


def try_end_held_back():
    """A serial line holds the end of a line back while the printer is off: that isn't told as printed."""
    for kind in ("holds", "asked holds"):
        for place in (10, 60, 150):
            name = f"off after {place} bytes, over {kind}"
            with contextlib.ExitStack() as stack:
                shop = Shop(stack, kind)
                shop.device.ROOM = 8
                shop.device.after(place, shop.device.pull_plug)
                told(f"{name}: the answer", "err 111", print_receipt(shop))
                end = time.monotonic() + 1.5 * TIMEOUT / 1000
                until(lambda: shop.host.ask("run 10") and time.monotonic() > end)
                told(f"{name}: still", "err", print_receipt(shop)[:3])
                shop.device.plug_in()
                told(f"{name}: again", True, is_done_after_all(shop))
                told(f"{name}: each line is whole", [], missing(shop))
                told(f"{name}: the last line", RECEIPT[-1], shop.device.receipt()[-1].characters)
            name = f"off for a while after {place} bytes, over {kind}"
            with contextlib.ExitStack() as stack:
                shop = Shop(stack, kind, timeout=5000)
                shop.device.ROOM = 8
                timer = threading.Timer(2.5, shop.device.plug_in)
                shop.device.after(place, shop.device.pull_plug, timer.start)
                told(f"{name}: it is done", True, print_receipt(shop) == "ok" or is_done_after_all(shop))
                timer.join()
                told(f"{name}: each line is whole", [], missing(shop))


def try_end_that_nobody_saw():
    """A printer is off for a while in a line, and back before anybody looks: the end of the line that it may have got
    and acknowledged isn't told as the whole."""
    for kind in ("holds", "asked holds", "holds adapter", "asked holds adapter"):
        for place in (10, 60, 150):
            name = f"off after {place} bytes while nobody looks, over {kind}"
            with contextlib.ExitStack() as stack:
                shop = Shop(stack, kind)
                shop.device.ROOM = 8
                # It says something of itself before.
                shop.device.after(5, lambda: shop.device.drawer(True))
                shop.device.after(place, shop.device.pull_plug)
                told(f"{name}: the answer", "err 111", print_receipt(shop))
                shop.device.plug_in()
                shop.device.wait(lambda: shop.device.is_idle)
                time.sleep(0.1)
                told(f"{name}: again", True, print_receipt(shop) == "ok" or is_done_after_all(shop))
                told(f"{name}: each line is whole", [], missing(shop))
        with contextlib.ExitStack() as stack:
            name, shop = f"off at the end of an order, over {kind}", Shop(stack, kind)
            shop.device.ROOM = 8

            def goes_off():
                """It says something of itself until shortly before the order fails."""
                end = time.monotonic() + 0.8 * TIMEOUT / 1000
                while time.monotonic() < end:
                    shop.device.drawer(not shop.device.is_drawer_open)
                    time.sleep(0.02)
                shop.device.pull_plug()
            off = threading.Thread(target=goes_off)
            shop.device.after_characters(30, lambda: shop.device.pauses(60), off.start)
            told(f"{name}: the answer", "err 111", print_receipt(shop))
            off.join()
            time.sleep(2.2)
            shop.device.plug_in()
            shop.device.wait(lambda: shop.device.is_idle)
            time.sleep(0.1)
            told(f"{name}: again", True, print_receipt(shop) == "ok" or is_done_after_all(shop))
            told(f"{name}: each line is whole", [], missing(shop))


def try_cover_over_line():
    """A printer whose cover is open takes nothing from a line with RTS/CTS, not even a question: its cover is known to
    be open all the time, and a retry prints once."""
    for place in (10, 60, 150):
        for seconds in (0.1, 3.5 * TIMEOUT / 1000):
            name = f"the cover is open for {seconds} s after {place} bytes"
            with contextlib.ExitStack() as stack:
                shop = Shop(stack, "holds")
                shop.device.ROOM = 8
                shop.device.after(place, lambda: shop.device.cover(True))
                answers, end = {print_receipt(shop)}, time.monotonic() + seconds
                while time.monotonic() < end:
                    shop.host.ask("run 10")
                    answers.add(print_receipt(shop))
                told(f"{name}: the answers", {"err 114 201"}, answers)
                told(f"{name}: it is on", "online 0", shop.host.ask("state r1"))
                shop.device.cover(False)
                told(f"{name}: it ends", True, shop.settle())
                told(f"{name}: again", "ok", print_receipt(shop))
                told(f"{name}: the paper", RECEIPT, [item[1] for item in shop.paper()])
                told(f"{name}: nothing else", "0", shop.late())


def try_feed_button():
    """The paper feed button of a printer is held down, so that it is offline for no cause that the till knows, and
    takes nothing from a line with RTS/CTS. However long that is, no line is printed twice, unless its power is cut."""
    for kind, place in itertools.product(("holds", "usb", "asked"), (10, 60, 150)):
        name = f"the button is held after {place} bytes over {kind}"
        with contextlib.ExitStack() as stack:
            shop = Shop(stack, kind)
            shop.device.ROOM = 8 if kind == "holds" else Printer.ROOM
            shop.device.after(place, lambda: shop.device.feeds(True))
            for turn in ("at first", "later"):
                told(f"{name}: the answer {turn}", "err 111", print_receipt(shop))
                end = time.monotonic() + 2 * TIMEOUT / 1000
                until(lambda: shop.host.ask("run 10") and time.monotonic() > end)
                told(f"{name}: it is on {turn}", "online 0", shop.host.ask("state r1"))
            shop.device.feeds(False)
            told(f"{name}: again", True, is_done_after_all(shop))
            told(f"{name}: the paper", RECEIPT, [item[1] for item in shop.paper()])
            told(f"{name}: nothing else", "0", shop.late())
    for place in (10, 60, 150):
        name = f"the button is held after {place} bytes of an order"
        with contextlib.ExitStack() as stack:
            shop = Shop(stack, "holds", timeout=AMPLE)
            shop.device.ROOM = 8
            timer = threading.Timer(3, shop.device.feeds, [False])
            shop.device.after(place, lambda: shop.device.feeds(True), timer.start)
            told(f"{name}, which has the time", "ok", print_receipt(shop))
            timer.join()
            told(f"{name}, which has the time: its paper", RECEIPT, [item[1] for item in shop.paper()])
        with contextlib.ExitStack() as stack:
            shop = Shop(stack, "holds")
            shop.device.ROOM = 8
            shop.device.after(place, lambda: shop.device.feeds(True))
            told(f"{name} and its power is cut: the answer", "err 111", print_receipt(shop))
            # What it acknowledges soon after it was offline was printed before.
            end = time.monotonic() + 1.3
            until(lambda: shop.host.ask("run 10") and time.monotonic() > end)
            shop.device.pull_plug()
            shop.device.feeds(False)
            shop.device.plug_in()
            told(f"{name} and its power is cut: again", True, is_done_after_all(shop))
            told(f"{name} and its power is cut: each line is whole", [], missing(shop))


def try_little_held():
    """A line that holds bytes back gets little of a long receipt at once, since a question waits behind it."""
    lines = [b"Line %d of a long receipt" % number for number in range(100)]
    with contextlib.ExitStack() as stack:
        shop, found = Shop(stack, "holds"), []
        device = shop.device
        device.ROOM = 8

        def counts():
            """How much waits for the printer while it is silent."""
            end = time.monotonic() + TIMEOUT / 2000
            while time.monotonic() < end:
                found.append(len(device._got) + device.cable.waiting())
                time.sleep(0.01)
        counting = threading.Thread(target=counts)
        device.after_characters(1, device.hang, counting.start)
        told("a long receipt", "err 111", shop.print(b"\n".join(lines) + b"\n"))
        counting.join()
        # Some questions wait behind it.
        told(f"what waits in the line, of which there were up to {max(found)} bytes", True, 100 < max(found) < 600)
        device.hang(False)
        told("the receipt again", True,
             until(lambda: shop.host.ask("run 10") and shop.print(b"\n".join(lines) + b"\n") == "ok"))
        printed = {item.characters for item in device.receipt()}
        told("all of it is printed", [], [line for line in lines if line not in printed])


def try_reset_with_open_cover():
    """A printer is off and on again while its cover is open: what its line held back is only the end of what it had."""
    for place in (10, 60, 150):
        name = f"it is reset after {place} bytes"
        with contextlib.ExitStack() as stack:
            shop = Shop(stack, "holds")
            shop.device.ROOM = 8
            shop.device.after(place, lambda: shop.device.cover(True))
            told(f"{name}: the answer", "err 114 201", print_receipt(shop))
            # What it acknowledges soon after it has stopped was printed before.
            end = time.monotonic() + 1.2
            until(lambda: shop.host.ask("run 10") and time.monotonic() > end)
            shop.device.pull_plug()
            shop.device.plug_in()
            told(f"{name}: still", "err 114 201", print_receipt(shop))
            shop.device.cover(False)
            told(f"{name}: again", True, is_done_after_all(shop))
            told(f"{name}: each line is whole", [], missing(shop))


def try_reset_behind_another_status():
    """A printer is off and on again while its cover is open, shortly after it has said something else: it was offline
    for longer, so what its line held back is only the end of what it had."""
    for place in (10, 60, 150):
        name = f"it is reset after {place} bytes and another status"
        with contextlib.ExitStack() as stack:
            shop = Shop(stack, "holds")
            device = shop.device
            device.ROOM = 8
            device.after(place, lambda device=device: device.cover(True))
            told(f"{name}: the answer", "err 114 201", print_receipt(shop))
            # What it acknowledges soon after it has stopped was printed before.
            end = time.monotonic() + 1.2
            until(lambda: shop.host.ask("run 10") and time.monotonic() > end)
            device.drawer(True)
            told(f"{name}: that is heard", True, until(
                lambda: shop.host.ask("run 10") and not (device._sends or device.cable.unread())))
            device.pull_plug()
            device.plug_in()
            device.cover(False)
            told(f"{name}: again", True, is_done_after_all(shop))
            told(f"{name}: each line is whole", [], missing(shop))


def try_off_with_open_cover():
    """A printer on a line with XON/XOFF is switched off while its cover is open, and on when it is closed: what it was
    asked meanwhile is lost, and it is asked again."""
    with contextlib.ExitStack() as stack:
        shop = Shop(stack, "stays", "serial 115200 flow xon-xoff")
        device = shop.device

        def shows(answer):
            return until(lambda: shop.host.ask("run 10") and shop.host.line("get r CoverOpen") == answer)
        told("it is well", True, shop.settle())
        device.cover(True)
        told("its cover is open", True, shows("ok true"))
        # It keeps what tells it to say how it is.
        told("it is told to say how it is", True, until(lambda: shop.host.ask("run 10") and device._got))
        device.pull_plug()
        device.cover(False)
        end = time.monotonic() + 2.5 * TIMEOUT / 1000
        until(lambda: shop.host.ask("run 10") and time.monotonic() > end)
        device.plug_in()
        told("its cover is closed", True, shows("ok false"))
        told("an order then", True, until(lambda: shop.print(b"Once\n") == "ok"))
        told("it is printed", True, ("left", b"Once") in shop.paper())


def try_silent_behind_cover():
    """A printer whose line holds bytes back falls silent after its cover is closed. What it may have printed isn't sent
    to it again before it answers."""
    with contextlib.ExitStack() as stack:
        shop = Shop(stack, "holds", timeout=5000)
        device = shop.device
        device.ROOM = 8
        device.after_characters(30, lambda: device.cover(True))
        told("the cover is opened", "err 114 201", print_receipt(shop))
        with device.lock:
            device.cover(False)
            device.mute()
        told("it is closed", True, shop.settle())
        told("a printer that says nothing else", "err", print_receipt(shop)[:3])
        device.wait(lambda: device.is_idle)
        printed = [item.characters for item in device.receipt()]
        told("no line is printed twice", [], [line for line in RECEIPT if printed.count(line) > 1])
        device.mute(False)
        told("it answers: again", True, is_done_after_all(shop))
        told("it answers: each line is whole", [], missing(shop))


def try_silence_that_nobody_heard():
    """A printer whose line holds bytes back has said nothing for 2 seconds, and was asked late, since nobody has looked
    often. It has time to answer before what is due counts as lost: no line is printed twice. It is asked once it was
    silent for a second, and nobody may look for a second. So each look is a quarter of a second away from both, which
    is more than a machine may stand still during a test."""
    with contextlib.ExitStack() as stack:
        shop = Shop(stack, "holds", timeout=AMPLE)
        device = shop.device
        device.after_characters(30, lambda: device.cover(True))
        told("the cover is opened", "err 114 201", print_receipt(shop))
        with device.lock:
            device.cover(False)
            device.hang()
        told("it is closed", True, shop.settle())
        for pause in (0.75, 0.75, 0.6):
            time.sleep(pause)
            shop.host.ask("run 0")
        device.hang(False)
        device.wait(lambda: device.is_idle and not device._sends)
        told("the receipt again", "ok", print_receipt(shop))
        told("its paper", RECEIPT, [item[1] for item in shop.paper()])


def try_ports_that_stay():
    """A port that stays open while the printer is off, and loses what is sent: a cable with a chip of its own, or a
    print server. What was lost is never told as printed, and a retry prints it."""
    for kind in ("usb stays", "tcp stays", "asked stays"):
        for place in (0, 30, 50):
            name = f"off after {place} bytes, over {kind}"
            with contextlib.ExitStack() as stack:
                shop = Shop(stack, kind)
                if place:
                    shop.device.after(place, shop.device.pull_plug)
                else:
                    shop.device.pull_plug()
                told(f"{name}: the answer", "err 111", shop.print(TEXT))
                shop.device.plug_in()
                told(f"{name}: it is back", True, shop.settle())
                # Answers without a number may still come, as long as nothing says that they are lost.
                patience = PATIENCE if "asked" in kind else 0
                told(f"{name}: again", True, until(lambda: shop.print(TEXT) == "ok", patience))
                told(f"{name}: another order", "ok", shop.print(b"Other\n"))
                told(f"{name}: the paper", [*PRINTED, ("left", b"Other")], shop.paper())
                told(f"{name}: nothing else", "0", shop.late())


def events_of(host):
    """The events of the printer, without those of its status."""
    events = []
    while (event := host.line("deliver r")) != "none":
        if not event.startswith("event StatusUpdateEvent"):
            events.append(event)
    return events


def try_asynchronous():
    """Trouble during output that waits: an ErrorEvent, and a retry prints once."""
    for trouble, (deed, undo, wanted) in TROUBLES.items():
        name = f"{trouble} during waiting output"
        with contextlib.ExitStack() as stack:
            shop = Shop(stack)
            told(f"{name}: accepted", ["ok", "ok"],
                 shop.host.lines("set r AsyncMode true", f"call r printNormal 2 {TEXT.hex()}"))
            told(f"{name}: nothing is printed yet", [], shop.paper())
            shop.device.after(30, lambda: deed(shop.device))
            told(f"{name}: something was done", "true", shop.host.ask("run 0"))
            code = (wanted[4:] + " 0").split()[:2]
            told(f"{name}: the event", [f"event ErrorEvent {code[0]} {code[1]} 1"], events_of(shop.host))
            undo(shop.device)
            events = []

            def is_complete():
                shop.host.ask("run 10")
                events.extend(events_of(shop.host))
                return "event OutputCompleteEvent 1" in events
            told(f"{name}: a retry is complete", True, until(is_complete))
            told(f"{name}: the paper", PRINTED, shop.paper())


def try_immediate_between():
    """Output that waits fails and comes out later, and something else is printed at once before it is tried again: it
    is printed once, wherever the line that works on it is in a text. If it was given up, the same output is a new
    one."""
    ways = [("work r1",), ("get r State", "work r1"), ("work r1", "get r State"), ("# a comment", "  work  r1 ")]
    for is_given_up, way in [*((False, way) for way in ways), (True, ways[0])]:
        name = f"something between{', and given up' * is_given_up}, worked on by {way}"
        with contextlib.ExitStack() as stack:
            shop = Shop(stack, timeout=AMPLE)
            device, ask, line = shop.device, shop.host.ask, shop.host.line
            told(f"{name}: it waits", "ok", line("set r AsyncMode true"))
            device.after_characters(3, lambda device=device: device.cover(True))
            told(f"{name}: accepted", "ok", shop.print(TEXT))
            told(f"{name}: it fails", True, "failed 114 201" in shop.host.lines(*way))
            device.cover(False)
            told(f"{name}: it comes out later", True, until(lambda: ask("run 10") and len(device.receipt()) == 3))
            told(f"{name}: that is heard", True, until(
                lambda: ask("run 10") and not (device._sends or device.cable.unread())) and shop.settle())
            told(f"{name}: another order", "ok", line("call r printImmediate 2 4174206f6e63650a"))
            until(lambda: line("deliver r") == "none")
            if is_given_up:
                told(f"{name}: given up, and accepted again", ["ok", "ok"],
                     [line("call r clearOutput"), shop.print(TEXT)])
            told(f"{name}: again", True, f"done {1 + is_given_up}" in shop.host.lines(*way))
            told(f"{name}: the paper", [*PRINTED, ("left", b"At once"), *(PRINTED * is_given_up)], shop.paper())
            told(f"{name}: what was late", str(int(is_given_up)), shop.late())


def try_work_before_another():
    """A text has a line that works on output that waits, and behind it an order that is printed at once: that is none
    of the output. The output is printed once."""
    with contextlib.ExitStack() as stack:
        shop = Shop(stack, timeout=AMPLE)
        device, ask, line = shop.device, shop.host.ask, shop.host.line
        told("it waits", ["ok", "ok"], [line("set r AsyncMode true"), shop.print(TEXT)])
        device.after_characters(3, lambda: device.cover(True))
        told("it fails", "failed 114 201", line("work r1"))
        device.cover(False)
        told("it comes out later", True, until(lambda: ask("run 10") and len(device.receipt()) == 3))
        told("that is heard", True, until(
            lambda: ask("run 10") and not (device._sends or device.cable.unread())) and shop.settle())
        until(lambda: line("deliver r") == "none")
        at_once = "call r printImmediate 2 4174206f6e63650a"
        told("one text", ["ok", "done 1", "ok"], shop.host.lines(at_once, "work r1", at_once))
        told("the paper", [*PRINTED, *[("left", b"At once")] * 2], shop.paper())
        told("nothing was late", "0", shop.late())


def try_another_between():
    """An order fails and comes out later, and another one is printed before it is tried again: it is a new order then.
    No driver can know whether it is meant once more. What puts nothing on the paper doesn't come between."""
    other = [("left", b"Other")]
    for between, found, is_new in ((b"Other\n", other, True), (b"", [], False), (b"\x1b|N", [], False)):
        name = f"{between} between"
        with contextlib.ExitStack() as stack:
            shop = Shop(stack, timeout=AMPLE)
            device, ask = shop.device, shop.host.ask
            device.after_characters(3, lambda device=device: device.cover(True))
            told(f"{name}: it fails", "err 114 201", shop.print(TEXT))
            device.cover(False)
            told(f"{name}: it comes out later", True, until(lambda: ask("run 10") and len(device.receipt()) == 3))
            told(f"{name}: that is heard", True, until(
                lambda: ask("run 10") and not (device._sends or device.cable.unread())) and shop.settle())
            told(f"{name}: the other one, and it again", ["ok"] * 2,
                 [shop.host.line(f"call r printNormal 2 {data.hex() or '-'}") for data in (between, TEXT)])
            told(f"{name}: the paper", [*PRINTED, *found, *PRINTED * is_new], shop.paper())
            told(f"{name}: what was late", str(int(is_new)), shop.late())


class Losing(Printer):
    """A printer of whose acknowledgements the next one is lost."""

    is_losing = False

    def _acknowledges(self, answer):
        was_mute, self.is_mute = self.is_mute, self.is_mute or self.is_losing
        super()._acknowledges(answer)
        self.is_mute, self.is_losing = was_mute, False


def try_lost_acknowledgement():
    """The acknowledgement of a line is lost. The line may be, too, so that the order is printed again from it on, also
    if a later line is acknowledged. An order behind that is printed once."""
    for kind in ("usb", "tcp", "serial", "asked"):
        with contextlib.ExitStack() as stack:
            name, shop = f"a lost acknowledgement over {kind}", Shop(stack, kind, made=Losing)
            device = shop.device

            def is_done(text):
                return until(lambda: shop.host.ask("run 10") and shop.print(text) == "ok")
            device.is_losing = True
            told(f"{name}: the order, and again", ("err 111", True),
                 (shop.print(b"One\nTwo\n"), is_done(b"One\nTwo\n")))
            # One that is asked gets one line at a time.
            printed = [b"One", *[b"Two"] * ("asked" not in kind), b"One", b"Two"]
            told(f"{name}: the paper", printed, [item.characters for item in device.receipt()])
            device.is_losing = True
            told(f"{name}: another order, and one behind it", ("err 111", True),
                 (shop.print(b"Three\n"), is_done(b"Four\n")))
            told(f"{name}: their paper", [*printed, b"Three", b"Four"], [item.characters for item in device.receipt()])


# A timeout in which a printer can't be asked several times how it is, and one that no test waits for, in milliseconds.
SHORT, LONG = 100, 600_000


def runs(shop, seconds):
    """Runs the devices' loop for a time."""
    end = time.monotonic() + seconds
    until(lambda: shop.host.ask("run 10") and time.monotonic() > end)


def prints(shop, text):
    """Whether an order is done in the end, with the devices' loop between its retries."""
    return until(lambda: shop.host.ask("run 10") and shop.print(text) == "ok")


def tells_cover(shop, is_open):
    """Whether the till finds the cover so."""
    wanted = f"ok {str(is_open).lower()}"
    return until(lambda: shop.host.ask("run 10") and shop.host.line("get r CoverOpen") == wanted)


def try_lost_answer_at_a_short_timeout():
    """A printer that is asked, and whose acknowledgement is lost, or that of the marker behind it, too: it recovers in
    an order or two, at a timeout that no round of questions fits into."""
    for kind in ("asked", "asked stays", "asked serial", "asked tcp", "asked holds"):
        with contextlib.ExitStack() as stack:
            name, shop = f"a lost answer at {SHORT} ms over {kind}", Shop(stack, kind, made=Losing, timeout=SHORT)
            device = shop.device
            told(f"{name}: it prints", True, prints(shop, b"Before\n"))
            for count in (1, 2):
                lines = [b"One of %d" % count, b"Two of %d" % count]
                text, had = b"\n".join(lines) + b"\n", len(device.receipt())
                device.is_losing = True
                told(f"{name}: the order", "err 111", shop.print(text))
                device.is_losing = count > 1
                told(f"{name}: again", True, prints(shop, text))
                told(f"{name}: its acknowledgements were lost", False, device.is_losing)
                found = [item.characters for item in device.receipt()[had:]]
                told(f"{name}: the paper", (set(lines), lines[-1]), (set(found), found[-1]))
            told(f"{name}: another order", True, prints(shop, b"Other\n"))
            told(f"{name}: it is printed once", 1, [item.characters for item in device.receipt()].count(b"Other"))


def try_power_at_a_short_timeout():
    """A printer that is asked and loses its power in a line, behind a port that stays: it recovers at a timeout that no
    round of questions fits into, and each line is whole."""
    for kind in ("asked stays", "asked serial", "asked tcp stays", "asked holds", "asked holds adapter"):
        with contextlib.ExitStack() as stack:
            name, shop = f"off in a line at {SHORT} ms over {kind}", Shop(stack, kind, timeout=SHORT)
            device = shop.device
            told(f"{name}: it prints", True, prints(shop, b"Before\n"))
            device.ROOM = 8
            device.after_characters(5, device.pull_plug)
            told(f"{name}: the order", "err", print_receipt(shop)[:3])
            device.plug_in()
            told(f"{name}: again", True, is_done_after_all(shop))
            told(f"{name}: each line is whole", [], missing(shop))


def try_late_acknowledgement():
    """A printer that is asked, says that it can print, and is slow: it acknowledges a line long after the order has
    failed. That isn't taken for another line, at any timeout."""
    for timeout in (SHORT, 250, TIMEOUT):
        with contextlib.ExitStack() as stack:
            name, shop = f"a late acknowledgement at {timeout} ms", Shop(stack, "asked", timeout=timeout)
            device, found = shop.device, []
            told(f"{name}: it prints", True, prints(shop, b"Before\n"))
            # It takes long for the first line, and stops at the first character of the second one.
            device.after_characters(1, lambda: device.pauses(8 * timeout / 1000 + 2))
            device.after_characters(4, device.hang)
            told(f"{name}: the order", "err 111", shop.print(b"One\n"))
            told(f"{name}: another one begins", True, until(
                lambda: found.append(shop.print(b"Two\n")) or found[-1] == "ok" or device.is_hung))
            told(f"{name}: it isn't done before it is printed", (False, [b"Before", b"One"]),
                 ("ok" in found, [item.characters for item in device.receipt()]))
            device.hang(False)
            told(f"{name}: it is done", True, prints(shop, b"Two\n"))
            told(f"{name}: the paper", [b"Before", b"One", b"Two"], [item.characters for item in device.receipt()])


def try_late_acknowledgement_over_another_connection():
    """A printer that is asked is slow, and its connection ends meanwhile. What it acknowledges over the next one, as
    behind a print server, isn't taken for a line that is sent over that."""
    for kind in ("asked tcp", "asked tcp stays"):
        with contextlib.ExitStack() as stack:
            name, shop = f"an acknowledgement over another connection, {kind}", Shop(stack, kind, timeout=2000)
            device, found = shop.device, []
            told(f"{name}: it prints", True, prints(shop, b"Before\n"))
            device.after_characters(1, lambda: device.pauses(3.0))
            device.after_characters(4, device.hang)
            told(f"{name}: the order", "err 111", shop.print(b"One\n"))
            with device.lock:
                device.cable.drop()
            told(f"{name}: another one begins", True, until(lambda: shop.host.ask("run 10") and (
                found.append(shop.print(b"Two\n")) or found[-1] == "ok" or device.is_hung)))
            told(f"{name}: it isn't done before it is printed", (False, [b"Before", b"One"]),
                 ("ok" in found, [item.characters for item in device.receipt()]))
            device.hang(False)
            told(f"{name}: it is done", True, prints(shop, b"Two\n"))
            told(f"{name}: the paper", [b"Before", b"One", b"Two"], [item.characters for item in device.receipt()])


def try_another_connection_at_a_short_timeout():
    """A network printer that is asked, and is off for a moment while its cover is open: a question that it has lost
    doesn't keep it from being found, at a timeout that is shorter than late answers may be apart."""
    for kind in ("asked tcp", "tcp"):
        with contextlib.ExitStack() as stack:
            name = f"off in a line with an open cover, at {SHORT} ms over {kind}"
            shop = Shop(stack, kind, timeout=SHORT)
            device = shop.device
            told(f"{name}: it prints", True, prints(shop, b"Before\n"))
            device.after_characters(5, lambda: device.cover(True))
            told(f"{name}: the order", "err", print_receipt(shop)[:3])
            runs(shop, 0.5)
            device.pull_plug()
            device.cover(False)
            device.plug_in()
            told(f"{name}: again", True, is_done_after_all(shop))
            told(f"{name}: each line is whole", [], missing(shop))


class Distant(Printer):
    """A printer whose answers about itself come 0.3 seconds late."""

    is_about_itself = False

    def __init__(self, *words, **named):
        super().__init__(*words, **named)
        self.timers = []

    def _status_now(self, kind):
        self.is_about_itself = True
        return super()._status_now(kind)

    def send(self, data):
        if self.is_about_itself:
            self.timers.append(threading.Timer(0.3, self.garbage, [bytes(data)]))
            self.timers[-1].start()
        else:
            super().send(data)
        self.is_about_itself = False

    def ends(self):
        """Waits until nothing comes any more."""
        for timer in self.timers:
            timer.join()


def try_late_answers_at_a_short_timeout():
    """A printer that answers later than the timeout how it is: none of its answers is taken for another."""
    for kind in ("asked", "usb"):
        with contextlib.ExitStack() as stack:
            name = f"answers after 0.3 s at {SHORT} ms over {kind}"
            shop = Shop(stack, kind, made=Distant, timeout=SHORT)
            # The bit of the drawer's pin is that of an open cover in another answer.
            shop.device.drawer(True)
            runs(shop, 4)
            events = list(iter(lambda: shop.host.line("deliver r"), "none"))
            told(f"{name}: its cover was never open", False, "event StatusUpdateEvent 11" in events)
            shop.device.ends()


def try_lost_word_at_a_long_timeout():
    """A printer is well again, and what it has said of that is lost, or it says nothing, since it was off: it is asked
    long before a long timeout is over."""
    for kind in ("usb", "serial", "tcp", "holds", "asked", "asked holds"):
        with contextlib.ExitStack() as stack:
            name = f"a lost word at {LONG} ms over {kind}"
            shop = Shop(stack, kind, timeout=LONG, made=HearingPrinter if "asked" in kind else Printer)
            device = shop.device
            told(f"{name}: it prints", "ok", shop.print(b"Before\n"))
            device.cover(True)
            told(f"{name}: its cover is open", True, tells_cover(shop, True))
            # It is asked to say what changes, and keeps that for later.
            runs(shop, 0.3)
            device.mute()
            device.cover(False)
            runs(shop, 0.7)
            device.mute(False)
            told(f"{name}: its cover is closed", True, tells_cover(shop, False))
            told(f"{name}: it prints again", "ok", shop.print(TEXT))
            told(f"{name}: the paper", [("left", b"Before"), *PRINTED], shop.paper())
    for kind in ("usb stays", "tcp stays", "serial", "asked stays"):
        with contextlib.ExitStack() as stack:
            name, shop = f"off while its cover is open, at {LONG} ms over {kind}", Shop(stack, kind, timeout=LONG)
            device = shop.device
            told(f"{name}: it prints", "ok", shop.print(b"Before\n"))
            device.cover(True)
            told(f"{name}: its cover is open", True, tells_cover(shop, True))
            device.pull_plug()
            device.cover(False)
            device.plug_in()
            told(f"{name}: its cover is closed", True, tells_cover(shop, False))
            told(f"{name}: it prints again", "ok", shop.print(TEXT))
            told(f"{name}: the paper", [("left", b"Before"), *PRINTED], shop.paper())
    for kind in ("usb", "asked"):
        with contextlib.ExitStack() as stack:
            name, shop = f"the first answer is lost, at {LONG} ms over {kind}", Shop(stack, kind, timeout=LONG)
            device = shop.device

            def is_online():
                return shop.host.ask("run 10") and shop.host.ask("state r1").startswith("online")
            device.pull_plug()
            told(f"{name}: it is off", True, until(lambda: not is_online()))
            device.mute()
            device.plug_in()
            runs(shop, 0.7)
            device.mute(False)
            told(f"{name}: it is there", True, until(is_online))
            told(f"{name}: it prints", "ok", shop.print(TEXT))
            told(f"{name}: the paper", PRINTED, shop.paper())


def try_reset_connection():
    """A network printer has acknowledged lines, and its connection is reset before anybody has read that: the next
    write fails. What was acknowledged isn't printed again."""
    if WORDS.preloaded is None:
        return
    lines = [b"Line %02d" % number for number in range(40)]
    with contextlib.ExitStack() as stack:
        delayed = CHECKS.work / "delayed"
        shop = Shop(stack, "tcp", timeout=AMPLE, LD_PRELOAD=WORDS.preloaded, DELAYED=str(delayed))
        device = shop.device
        told("an order before", "ok", shop.print(b"Before\n"))
        device.slow(0.02)
        device.after_characters(20, delayed.touch)

        def resets():
            """Lets the printer do all that it got, while nothing more is sent."""
            until(delayed.exists)
            device.slow(0)
            device.wait(lambda: device.is_idle and not device._sends)
            time.sleep(0.1)
            told("some lines are still to be sent", True, device.wait(lambda: device.is_idle) and 3 < len(
                device.receipt()) < len(lines))
            with device.lock:
                device.cable.reset()
            time.sleep(0.1)
            delayed.unlink()
        thread = threading.Thread(target=resets)
        thread.start()
        told("a connection that is reset in an order", "err 108", shop.print(b"\n".join(lines) + b"\n"))
        thread.join()
        told("it is connected again", True, shop.settle())
        told("the order again", "ok", shop.print(b"\n".join(lines) + b"\n"))
        told("its paper", [b"Before", *lines], [item[1] for item in shop.paper()])


def try_off_while_open():
    """A printer with RTS/CTS is switched off while its cover is open. If it has answered meanwhile, its silence tells
    that it is off. If it takes nothing while it is offline, it may as well be on."""
    for kind, made in (("holds", HearingPrinter), ("asked holds", HearingPrinter), ("holds", Printer)):
        is_hearing = made is HearingPrinter
        name = f"off with an open cover, over {kind}, hearing {is_hearing}"
        with contextlib.ExitStack() as stack:
            shop = Shop(stack, kind, made=made)
            device, ask = shop.device, shop.host.ask

            def runs(seconds):
                end = time.monotonic() + seconds
                until(lambda: ask("run 10") and time.monotonic() > end)
            told(f"{name}: an order", "ok", shop.print(b"Before\n"))
            device.after_characters(4, lambda device=device: device.cover(True))
            told(f"{name}: its cover is opened in an order", "err 114 201", shop.print(b"A line\n"))
            runs(4 * TIMEOUT / 1000)
            told(f"{name}: it is open still", ("err 114 201", "online 0"), (shop.print(b"A line\n"), ask("state r1")))
            device.pull_plug()
            is_off = until(lambda: ask("run 10") and ask("state r1") == "offline 0",
                           PATIENCE if is_hearing else 4 * TIMEOUT / 1000)
            told(f"{name}: it counts as off", (is_hearing, "err 108" if is_hearing else "err 114 201"),
                 (is_off, shop.print(b"A line\n")))
            device.cover(False)
            device.plug_in()
            told(f"{name}: again", True, until(lambda: ask("run 10") and shop.print(b"A line\n") == "ok"))
            told(f"{name}: the line is whole", True, ("left", b"A line") in shop.paper())


def try_off_behind_questions():
    """A printer is switched off, and its line with RTS/CTS keeps the questions that it was asked before: it counts as
    off all the same. It isn't asked again and again, since it would have to answer each question once it is on."""
    if WORDS.preloaded is None:
        return
    for kind in ("holds", "asked holds"):
        name = f"off behind questions, over {kind}"
        with contextlib.ExitStack() as stack:
            held = CHECKS.work / "held"
            held.unlink(missing_ok=True)
            shop = Shop(stack, kind, LD_PRELOAD=WORDS.preloaded, HELD=str(held))
            device, ask = shop.device, shop.host.ask
            told(f"{name}: an order", "ok", shop.print(b"Before\n"))
            device.pull_plug()
            until(lambda: ask("run 10") and device.cable.waiting() > 0)
            # A pseudo terminal doesn't tell what it keeps.
            held.touch()
            told(f"{name}: it is off", True, until(lambda: ask("run 10") and ask("state r1") == "offline 0", 10))
            waiting, end = device.cable.waiting(), time.monotonic() + 3 * TIMEOUT / 1000
            until(lambda: ask("run 10") and time.monotonic() > end)
            told(f"{name}: it isn't asked again", waiting, device.cable.waiting())
            held.unlink()
            device.plug_in()
            told(f"{name}: it is back", True, shop.settle())
            told(f"{name}: an order then", True, until(lambda: ask("run 10") and shop.print(b"Behind\n") == "ok"))
            told(f"{name}: the paper", [("left", b"Before"), ("left", b"Behind")], shop.paper())


def try_scan_between():
    """A call prints one request, and a code that comes meanwhile is told before the last is printed."""
    with contextlib.ExitStack() as stack:
        scanner = stack.enter_context(Scanner(cable()))
        shop = Shop(stack, timeout=AMPLE)
        told("a scanner", "ok", shop.host.ask(f"scanner s1 {scanner.path} keys pause 10"))
        shop.host.lines("new s Scanner", "open s s1", "claim s 0", "set s DeviceEnabled true",
                        "set s DataEventEnabled true", "set r AsyncMode true")
        told("output waits", ["ok"] * 6, shop.host.lines(*["call r printNormal 2 410a"] * 6))
        shop.device.after(1, lambda: scanner.types(b"123"))
        shop.device.slow(0.1)
        for count in range(1, 4):
            told("a request is printed", ("true", count), (shop.host.ask("run 0"), len(shop.paper())))
        told("the code", ["event DataEvent 0", "ok 313233"], shop.host.lines("deliver s", "get s ScanData"))


def scanned(host, count):
    """So many codes of a scanner that are told, or fewer if no more come."""
    found = []

    def is_all():
        host.ask("run 10")
        event, code = host.lines("set s DataEventEnabled true", "deliver s", "get s ScanData")[1:]
        if event == "event DataEvent 0":
            found.append(bytes.fromhex(code.split()[1]))
        return len(found) == count
    until(is_all, 5)
    return found


def processor_time(process):
    """The seconds that a process has worked."""
    words = pathlib.Path(f"/proc/{process}/stat").read_text().rpartition(")")[2].split()
    return sum(map(int, words[11:13])) / os.sysconf("SC_CLK_TCK")


def try_typing_between():
    """What a keyboard types while a call waits for a printer is read meanwhile, since Linux keeps little of it, and is
    told after the call. So it is if the keyboard is pulled out then."""
    codes = [b"%02d" % number for number in range(1, 21)]
    for is_pulled in (False, True):
        name = "a keyboard that is pulled out" if is_pulled else "a keyboard"
        with contextlib.ExitStack() as stack:
            scanner = stack.enter_context(Scanner(cable()))
            shop = Shop(stack, timeout=AMPLE)
            told(name, "ok", shop.host.ask(f"scanner s1 {scanner.path} keys pause 10"))
            shop.host.lines("new s Scanner", "open s s1", "claim s 0", "set s DeviceEnabled true")
            is_waiting, worked = threading.Event(), []
            shop.device.after_characters(1, shop.device.hang, is_waiting.set)

            def types():
                """It types once the call waits, and the printer goes on a second after that was read."""
                is_waiting.wait(PATIENCE)
                for code in codes:
                    scanner.types(code)
                scanner.wait(lambda: not scanner._sends)
                scanner.cable.settle()
                told(f"{name}: what it types is read", 0, scanner.cable.unread())
                if is_pulled:
                    scanner.pull_plug()
                before = processor_time(shop.host.program.pid)
                time.sleep(1)
                worked.append(processor_time(shop.host.program.pid) - before)
                shop.device.hang(False)
            thread = threading.Thread(target=types)
            thread.start()
            told(f"{name}: an order", "ok", shop.print(TEXT))
            thread.join()
            told(f"{name}: the call only waits", True, worked[0] < 0.5)
            told(f"{name}: its codes", codes, scanned(shop.host, len(codes)))
            told(f"{name}: the paper", PRINTED, shop.paper())
            if is_pulled:
                told(f"{name}: it is off", True, until(
                    lambda: shop.host.ask("run 10") and shop.host.ask("state s1") == "offline 0"))
                scanner.plug_in()
                told(f"{name}: it is on", True, until(
                    lambda: shop.host.ask("run 10") and shop.host.ask("state s1") == "online 0"))
            scanner.types(b"4006381")
            told(f"{name}: the next code", [b"4006381"], scanned(shop.host, 1))


def pressed(code):
    """The events of the keys of digits, without Enter behind them: each is pressed and let go."""
    keys = [11 if digit == ord("0") else digit - ord("0") + 1 for digit in code]
    return b"".join(struct.pack("@llHHi", 0, 0, 1, key, value) for key in keys for value in (1, 0))


def heard_of(host, wanted):
    """The codes of a scanner that are told, and whether one has failed, once it is what is wanted; or what it is
    then."""
    found = [[], False]

    def is_all():
        host.ask("run 10")
        event, code = host.lines("set s DataEventEnabled true", "deliver s", "get s ScanData")[1:]
        if event == "event DataEvent 0":
            found[0].append(bytes.fromhex(code.split()[1]))
        found[1] = found[1] or event.startswith("event ErrorEvent ")
        return found == wanted
    until(is_all, 5)
    return found


def try_typed_apart():
    """Parts of codes that are typed while a call waits for a printer. What no Enter has followed for a second is a
    failed scan, also if it was typed before the call, and what comes then is a code of its own. A shorter pause is
    none."""
    rest = pressed(b"81")
    rest += struct.pack("@llHHi", 0, 0, 1, 28, 1) + struct.pack("@llHHi", 0, 0, 1, 28, 0)
    cases = (("half a code and another one", 1.5, (pressed(b"40063"), rest), [[b"81"], True]),
             ("half a code from before and another one", 1.5, (b"", rest), [[b"81"], True]),
             ("two codes after each other", 1.5, (rest, rest), [[b"81", b"81"], False]),
             ("a code with a short pause", 0.3, (pressed(b"40063"), rest), [[b"4006381"], False]))
    for name, pause, parts, wanted in cases:
        with contextlib.ExitStack() as stack:
            scanner = stack.enter_context(Scanner(cable()))
            shop = Shop(stack, timeout=AMPLE)
            told(f"{name}: the scanner", "ok", shop.host.ask(f"scanner s1 {scanner.path} keys pause 10"))
            shop.host.lines("new s Scanner", "open s s1", "claim s 0", "set s DeviceEnabled true")
            if "before" in name:
                scanner.garbage(pressed(b"40063"))
                scanner.wait(lambda: not scanner._sends)
                told(f"{name}: it is read", True, until(lambda: shop.host.ask("run 10") and not scanner.cable.unread()))
            is_waiting = threading.Event()
            shop.device.after_characters(1, shop.device.hang, is_waiting.set)

            def types():
                """It types once the call waits, and the printer goes on then."""
                is_waiting.wait(PATIENCE)
                for place, part in enumerate(parts):
                    time.sleep(pause if place else 0)
                    scanner.garbage(part)
                    scanner.wait(lambda: not scanner._sends)
                    scanner.cable.settle()
                    told(f"{name}: part {place} is read", 0, scanner.cable.unread())
                shop.device.hang(False)
            thread = threading.Thread(target=types)
            thread.start()
            told(f"{name}: an order", "ok", shop.print(TEXT))
            thread.join()
            told(name, wanted, heard_of(shop.host, wanted))
            scanner.types(b"7")
            told(f"{name}: the next code", [b"7"], scanned(shop.host, 1))


def try_typing_while_shown():
    """What a keyboard types while the bytes of a display's order leave this machine is read meanwhile."""
    if WORDS.preloaded is None:
        return
    codes, held = [b"%02d" % number for number in range(1, 21)], CHECKS.work / "held"
    with contextlib.ExitStack() as stack:
        display = stack.enter_context(Display(cable()))
        scanner = stack.enter_context(Scanner(cable()))
        host = Host(stack, LD_PRELOAD=WORDS.preloaded, HELD=str(held))
        told("a display and a keyboard", ["ok"] * 2,
             [host.ask(f"display p1 {display.path} timeout {AMPLE} pause 10 serial 9600"),
              host.ask(f"scanner s1 {scanner.path} keys pause 10")])
        host.lines("new p LineDisplay", "open p p1", "claim p 0", "set p DeviceEnabled true",
                   "new s Scanner", "open s s1", "claim s 0", "set s DeviceEnabled true")

        def types():
            """It types once the display shows its order, and then the line says that all is out."""
            until(lambda: display.shows().startswith(b"Total"))
            for code in codes:
                scanner.types(code)
            scanner.wait(lambda: not scanner._sends)
            scanner.cable.settle()
            told("what it types is read", 0, scanner.cable.unread())
            held.unlink()
        thread = threading.Thread(target=types)
        held.touch()
        thread.start()
        told("an order of the display", "ok", host.line("call p displayTextAt 0 0 546f74616c 0"))
        thread.join()
        told("the codes", codes, scanned(host, len(codes)))


def is_still(process):
    """Whether a process is stopped."""
    return pathlib.Path(f"/proc/{process}/stat").read_text().rpartition(")")[2].split()[0] == "T"


def is_stopped_by(stops, process):
    """Whether a process that waits is stopped. One that waits no more isn't, nor is it, or another one, later."""
    stops.touch()
    is_stopped = until(lambda: is_still(process))
    stops.unlink(missing_ok=True)
    return is_stopped


def try_stopped_program():
    """The program is stopped while it waits for a printer, and goes on only after the order's time. The printer has
    acknowledged the order meanwhile, so it is done."""
    if WORDS.preloaded is None:
        return
    for kind in ("usb", "tcp", "serial", "asked"):
        with contextlib.ExitStack() as stack:
            stops = CHECKS.work / "stops"
            shop = Shop(stack, kind, timeout=2000, LD_PRELOAD=WORDS.preloaded, STOPS=str(stops))
            device, process, is_waiting = shop.device, shop.host.program.pid, threading.Event()
            device.after_characters(1, device.hang, is_waiting.set)

            def stops_it():
                is_waiting.wait(PATIENCE)
                told(f"the program is stopped over {kind}", True, is_stopped_by(stops, process))
                device.hang(False)
                told(f"its order is printed over {kind}", True, device.wait(lambda: len(device.receipt()) == 1))
                time.sleep(2.5)
                os.kill(process, signal.SIGCONT)
            thread = threading.Thread(target=stops_it)
            thread.start()
            told(f"it is done over {kind}", "ok", shop.print(b"Once\n"))
            thread.join()
            told(f"the paper over {kind}", [("left", b"Once")], shop.paper())


def try_off_while_stopped():
    """The program is stopped while it waits for a printer whose line holds bytes back, and which is off and on again
    meanwhile: the end of the line that it gets and acknowledges isn't told as the whole."""
    if WORDS.preloaded is None:
        return
    for kind, place in itertools.product(("holds", "asked holds"), (10, 60)):
        name = f"off after {place} bytes while the program is stopped, over {kind}"
        with contextlib.ExitStack() as stack:
            stops, is_off = CHECKS.work / "stops", threading.Event()
            shop = Shop(stack, kind, timeout=AMPLE, LD_PRELOAD=WORDS.preloaded, STOPS=str(stops))
            device, process = shop.device, shop.host.program.pid
            device.ROOM = 8
            device.after(place, device.pull_plug, is_off.set)

            def stops_it():
                is_off.wait(PATIENCE)
                told(f"{name}: it is stopped", True, is_stopped_by(stops, process))
                device.plug_in()
                told(f"{name}: the printer goes on", True, device.wait(lambda: device.is_idle and not device._sends))
                time.sleep(2.5)
                os.kill(process, signal.SIGCONT)
            thread = threading.Thread(target=stops_it)
            thread.start()
            told(f"{name}: the answer", "err 111", print_receipt(shop))
            thread.join()
            told(f"{name}: again", True, is_done_after_all(shop))
            told(f"{name}: each line is whole", [], missing(shop))


def try_off_while_suspended():
    """The machine is suspended within an order, and the printer goes on meanwhile. On a line that holds bytes back it
    was off first: the end of the line that it gets and acknowledges isn't told as the whole."""
    if WORDS.preloaded is None:
        return
    for kind in ("holds", "asked holds", "usb", "serial", "asked"):
        name = f"suspended, over {kind}"
        with contextlib.ExitStack() as stack:
            stops, suspended, is_waiting = CHECKS.work / "stops", CHECKS.work / "suspended", threading.Event()
            suspended.unlink(missing_ok=True)
            shop = Shop(stack, kind, timeout=AMPLE, LD_PRELOAD=WORDS.preloaded, STOPS=str(stops),
                        SUSPENDED=str(suspended))
            device, process = shop.device, shop.host.program.pid
            device.ROOM = 8
            device.after_characters(1, device.hang, is_waiting.set)

            def suspends():
                is_waiting.wait(PATIENCE)
                told(f"{name}: it stands still", True, is_stopped_by(stops, process))
                if "holds" in kind:
                    device.pull_plug()
                    device.plug_in()
                device.hang(False)
                told(f"{name}: the printer goes on", True, device.wait(lambda: len(device.receipt()) > 0))
                suspended.touch()
                os.kill(process, signal.SIGCONT)
            thread = threading.Thread(target=suspends)
            thread.start()
            told(f"{name}: the answer", "err 111" if "holds" in kind else "ok", print_receipt(shop))
            thread.join()
            told(f"{name}: again", True, "holds" not in kind or is_done_after_all(shop))
            told(f"{name}: each line is whole", [], missing(shop))


def try_display_while_suspended():
    """The machine is suspended, and a display is off and on again meanwhile: the next order shows all its rows."""
    if WORDS.preloaded is None:
        return
    with contextlib.ExitStack() as stack:
        suspended = CHECKS.work / "suspended"
        suspended.unlink(missing_ok=True)
        device = stack.enter_context(Greeting(cable("stays")))
        host = Host(stack, LD_PRELOAD=WORDS.preloaded, SUSPENDED=str(suspended))
        told("a display", "ok", host.ask(f"display p1 {device.path} pause 10"))
        host.lines("new p LineDisplay", "open p p1", "claim p 0", "set p DeviceEnabled true")
        for is_off, row in ((False, 0), (True, 1)):
            if is_off:
                device.pull_plug()
                device.plug_in()
                told("it greets", True, device.shows().startswith(b"Welcome"))
                suspended.touch()
            told(f"row {row}", "ok", host.line(f"call p displayTextAt {row} 0 546f74616c 0"))
            wanted = b"Total".ljust(20) + (b"Total" if is_off else b"").ljust(20)
            told(f"row {row} is shown", True, until(lambda: device.is_idle and device.shows() == wanted))


def try_pause_in_a_line():
    """A printer takes long for a line, while the program runs: it isn't taken for one that was off."""
    for kind in ("holds", "asked holds", "serial"):
        with contextlib.ExitStack() as stack:
            shop = Shop(stack, kind, timeout=AMPLE)
            shop.device.after_characters(30, lambda: shop.device.pauses(2.5))
            told(f"a pause in a line over {kind}", "ok", print_receipt(shop))
            told(f"its paper over {kind}", RECEIPT, [item[1] for item in shop.paper()])


def try_tear_off():
    """The till keeps the paper of at most 500 orders of a printer that has a driver, and what it prints stays right."""
    with contextlib.ExitStack() as stack:
        shop = Shop(stack, lines=100_000, timeout=AMPLE)
        for number in range(0, 520, 20):
            lines = [f"call r printNormal 2 {(b'%d' % one).hex()}0a" for one in range(number, number + 20)]
            told(f"orders from {number} on", ["ok"] * 20, shop.host.lines(*lines))
        told("the paper of all orders", [b"%d" % number for number in range(520)], [item[1] for item in shop.paper()])
        kept = len(shop.host.line("show r1").split()) - 4
        told("the paper that the till keeps", True, 20 <= kept <= 40)
        told("its paper is taken away", "ok", shop.host.ask("tear r1"))
        told("none is left", 4, len(shop.host.line("show r1").split()))
        told("a device that isn't there", "KIJ_NO_DEVICE", shop.host.ask("tear r9"))


def try_absent():
    """A printer that is off at first, one that is silent all the time, and one that comes back as another."""
    with contextlib.ExitStack() as stack:
        host = Host(stack)
        path = cable().path
        told("no printer", "ok", host.ask(f"printer r1 {path} timeout {TIMEOUT} pause 10"))
        told("it is off", "offline 0", host.ask("state r1"))
        host.lines("new r POSPrinter", "open r r1", "claim r 0", "set r DeviceEnabled true")
        told("an order of it", "err 108", host.line("call r printNormal 2 410a"))
        device = stack.enter_context(Printer(PtyCable(path)))
        told("it is found", True, until(lambda: host.ask("run 10") and host.ask("state r1") == "online 0"))
        host.ask("run 10")
        told("the order again", "ok", host.line("call r printNormal 2 410a"))
        told("it is printed", 1, len(device.receipt()))
    with contextlib.ExitStack() as stack:
        device = stack.enter_context(Printer(cable()))
        device.hang()
        host = Host(stack)
        began = time.monotonic()
        told("a silent printer", "ok", host.ask(f"printer r1 {device.path} timeout {TIMEOUT} pause 10"))
        told("it takes its timeout", True, time.monotonic() - began < TIMEOUT / 1000 + WORDS.slack)
        told("it is taken as off", "offline 0", host.ask("state r1"))


def try_offline():
    """A printer that is offline when its port is opened or it is switched on, and keeps what it is sent: it is known
    why."""
    for kind in ("usb", "tcp", "serial"):
        with contextlib.ExitStack() as stack:
            device = stack.enter_context(Printer(cable(kind)))
            device.cover(True)
            host, began = Host(stack), time.monotonic()
            words = "serial 115200" if kind == "serial" else ""
            told(f"a printer over {kind}", "ok",
                 host.ask(f"printer r1 {device.path} timeout {AMPLE} pause 10 lines 1000 {words}"))
            told(f"at once over {kind}", True, time.monotonic() - began < AMPLE / 1000)
            told(f"it is enabled over {kind}", ["ok"] * 4,
                 host.lines("new r POSPrinter", "open r r1", "claim r 0", "set r DeviceEnabled true"))
            told(f"its cover is open over {kind}", "ok true", host.line("get r CoverOpen"))
            told(f"an order over {kind}", "err 114 201", host.line("call r printNormal 2 410a"))
            device.cover(False)
            told(f"it goes on over {kind}", True,
                 until(lambda: host.ask("run 10") and host.line("get r CoverOpen") == "ok false"))
            told(f"the order again over {kind}", "ok", host.line("call r printNormal 2 410a"))
            told(f"it is printed once over {kind}", 1, len(device.receipt()))
            device.cover(True)
            told(f"it is open again over {kind}", True,
                 until(lambda: host.ask("run 10") and host.line("get r CoverOpen") == "ok true"))
    for kind in ("serial", "usb stays", "tcp stays"):
        with contextlib.ExitStack() as stack:
            shop = Shop(stack, kind)
            told(f"the printer is idle over {kind}", True,
                 until(lambda: shop.host.ask("run 10") == "false" and shop.device.is_idle))
            shop.device.pull_plug()
            shop.device.cover(True)
            shop.device.plug_in()
            told(f"its cover was opened while it was off over {kind}", True,
                 until(lambda: shop.host.ask("run 10") and shop.host.line("get r CoverOpen") == "ok true", 5))
            told(f"an order then over {kind}", "err 114 201", shop.print(TEXT))
            shop.device.cover(False)
            told(f"it goes on then over {kind}", True, shop.settle())
            told(f"that order over {kind}", "ok", shop.print(TEXT))
            told(f"its paper over {kind}", PRINTED, shop.paper())


def try_other_cause():
    """A printer whose cover is open loses its power, and has no paper when it is back with its cover closed: it is
    known why it is offline then."""
    for kind in ("serial", "usb stays", "tcp stays"):
        with contextlib.ExitStack() as stack:
            shop = Shop(stack, kind)
            device = shop.device

            def shows(line, answer):
                return until(lambda: shop.host.ask("run 10") and shop.host.line(line) == answer)
            device.cover(True)
            told(f"its cover is open over {kind}", True, shows("get r CoverOpen", "ok true"))
            device.pull_plug()
            device.cover(False)
            with device.lock:
                device.lines_left, device.is_short = 0, True
            device.plug_in()
            told(f"it has no paper over {kind}", True, shows("get r RecEmpty", "ok true"))
            told(f"its cover is closed over {kind}", "ok false", shop.host.line("get r CoverOpen"))
            told(f"an order then over {kind}", "err 114 203", shop.print(TEXT))
            device.load(1000)
            told(f"it prints with paper over {kind}", True,
                 until(lambda: shop.host.ask("run 10") and shop.print(TEXT) == "ok"))
            told(f"its paper over {kind}", PRINTED, shop.paper())


def try_long_off():
    """A printer that was off for long, behind a port that stays, and is switched on with its cover open: an order is
    refused for that at once."""
    for kind in ("serial", "usb stays", "tcp stays"):
        with contextlib.ExitStack() as stack:
            shop = Shop(stack, kind)
            told(f"it is idle over {kind}", True, until(
                lambda: shop.host.ask("run 10") == "false" and shop.device.is_idle))
            shop.device.pull_plug()
            shop.device.cover(True)
            end = time.monotonic() + 3.5 * TIMEOUT / 1000
            until(lambda: shop.host.ask("run 10") and time.monotonic() > end)
            told(f"it is off over {kind}", "offline 0", shop.host.ask("state r1"))
            shop.device.plug_in()
            told(f"it is on over {kind}", True,
                 until(lambda: shop.host.ask("run 10") and shop.host.ask("state r1") == "online 0", 5))
            told(f"an order over {kind}", "err 114 201", shop.print(TEXT))
            shop.device.cover(False)
            told(f"it goes on over {kind}", True, shop.settle())
            told(f"the order again over {kind}", "ok", shop.print(TEXT))
            told(f"its paper over {kind}", PRINTED, shop.paper())


class PrintServer(Printer):
    """A printer behind a print server, which keeps what the printer hasn't taken while it is off: also the end of a
    command of which the printer had the front."""

    cut = kept = None

    def arrives(self, data):
        if self.kept is not None:
            self.kept += data
            return b""
        at = -1 if self.cut is None else data.find(self.cut)
        if at < 0:
            return super().arrives(data)
        end = at + len(self.cut)
        self.kept = bytearray(data[end:])
        return super().arrives(data[:end])

    def goes_back_on(self):
        """The printer was off and on again. It has forgotten what it had, and gets what was kept."""
        with self.lock:
            self.forget()
            self._got.clear()
            kept, self.kept, self.cut = self.kept, None, None
            self._got += self.arrives(kept)
        self._wake()


def try_print_server():
    """What is left of a command in a print server isn't printed in front of the next order."""
    with contextlib.ExitStack() as stack:
        shop = Shop(stack, "tcp stays", made=PrintServer)
        told("an order", "ok", shop.print(b"One\n"))
        shop.device.cut = b"\x1d(H"
        told("one whose question is cut", "err 111", shop.print(b"Two\n"))
        end = time.monotonic() + 2 * TIMEOUT / 1000
        until(lambda: shop.host.ask("run 10") and time.monotonic() > end)
        shop.device.goes_back_on()
        told("it is back", True, until(lambda: shop.host.ask("run 10") and shop.host.ask("state r1") == "online 0"))
        told("another order", "ok", shop.print(b"Three\n"))
        told("the last line", ("left", b"Three"), shop.paper()[-1])


def try_garbage():
    """Bytes that are no replies, in any place, and answers that are lost."""
    for kind in ("usb", "tcp"):
        with contextlib.ExitStack() as stack:
            shop = Shop(stack, kind)
            shop.device.garbage(bytes(range(256)) * 20)
            shop.device.after(10, lambda: shop.device.garbage(b"7\"@@@"))
            told(f"garbage over {kind}", "ok", shop.print(TEXT))
            shop.device.mute()
            told(f"lost answers over {kind}", "err 111", shop.print(b"Once\n"))
            shop.device.mute(False)
            told(f"they come again over {kind}", True, shop.settle())
            told(f"the order again over {kind}", "ok", shop.print(b"Once\n"))
            told(f"its paper over {kind}", [*PRINTED, ("left", b"Once")], shop.paper())


def try_late():
    """An order that is printed after it had failed, and isn't asked for again. It is its printer's, not the
    drawer's."""
    with contextlib.ExitStack() as stack:
        shop = Shop(stack, words="drawer d1")
        shop.device.hang()
        told("an order of a silent printer", "err 111", shop.print(b"Late\n"))
        shop.device.hang(False)
        told("it is printed", True, until(lambda: len(shop.device.receipt()) == 1))
        time.sleep(0.05)
        told("it answers again", True, shop.settle())
        told("another order", "ok", shop.print(b"Other\n"))
        told("both are printed", [("left", b"Late"), ("left", b"Other")], shop.paper())
        told("one was late", "1", shop.late())
        shop.device.hang()
        told("a second order of a silent printer", "err 111", shop.print(b"Later\n"))
        told("and a third", "err", shop.print(b"Third\n")[:3])
        shop.device.hang(False)
        told("it answers at last", True, shop.settle())
        told("the third again", "ok", shop.print(b"Third\n"))
        told("all are printed", [b"Late", b"Other", b"Later", b"Third"], [item[1] for item in shop.paper()])
        told("two were late", "2", shop.late())
        told("none of them was the drawer's", "online 0", shop.host.ask("state d1"))


def is_late(shop):
    """Whether a ticket comes out that nobody waits for, and the till knows that the printer is well."""
    shop.device.cover(False)
    return until(lambda: len(shop.device.receipt()) == len(PRINTED)) and shop.settle()


def opens_cover_within(shop):
    """Opens the cover in the first line of the next order."""
    shop.device.after_characters(5, lambda: shop.device.cover(True))


def try_off_behind_a_cause():
    """A printer that is asked tells why it is offline while its line holds back the end of what it was sent, and is off
    and on again: the end that it prints then isn't told as the whole."""
    with contextlib.ExitStack() as stack:
        shop = Shop(stack, "asked holds", made=LatePrinter)
        device, ask = shop.device, shop.host.ask
        told("an order", "ok", shop.print(b"Before\n"))
        device.ROOM = 8
        device.cover(True)
        told("it is asked for its paper", True, until(lambda: ask("run 10") and device.kept is not None))
        timer = threading.Timer(0.2, device.answers)
        timer.start()
        told("its cover is open", "err 114 201", print_receipt(shop))
        timer.join()
        device.pull_plug()
        end = time.monotonic() + 1.5 * TIMEOUT / 1000
        until(lambda: ask("run 10") and time.monotonic() > end)
        device.plug_in()
        device.cover(False)
        told("it is done after all", True, is_done_after_all(shop))
        told("each line is whole", [], missing(shop))


def try_cause_behind_a_line():
    """A printer that has no paper when it is switched on, and whose line has kept questions meanwhile. A late answer to
    one of them doesn't tell why it is offline."""
    for kind in ("holds", "asked holds"):
        with contextlib.ExitStack() as stack:
            shop = Shop(stack, kind, made=HearingPrinter)
            device, ask = shop.device, shop.host.ask
            told(f"an order over {kind}", "ok", shop.print(b"One\n"))
            device.pull_plug()
            # Each question that isn't answered in time is put again.
            end = time.monotonic() + 4.5 * TIMEOUT / 1000
            until(lambda: ask("run 10") and time.monotonic() > end)
            told(f"it is off over {kind}", "offline 0", ask("state r1"))
            # The bit of the drawer's pin is that of an open cover in another answer.
            device.drawer(True)
            with device.lock:
                device.lines_left, device.is_short = 0, True
            device.plug_in()
            told(f"it has no paper over {kind}", True,
                 until(lambda: ask("run 10") and shop.host.line("get r RecEmpty") == "ok true"))
            told(f"its cover is closed over {kind}", "ok false", shop.host.line("get r CoverOpen"))
            told(f"an order then over {kind}", "err 114 203", shop.print(TEXT))
            events = []
            while (event := shop.host.line("deliver r")) != "none":
                events.append(event)
            told(f"its cover was never open over {kind}", False, "event StatusUpdateEvent 11" in events)
            device.load(1000)
            told(f"it prints with paper over {kind}", True, until(lambda: ask("run 10") and shop.print(TEXT) == "ok"))


def try_given_up():
    """An order that failed and was given up is a new one if it comes again. The first one is late."""
    again = ("claim r 0", "set r DeviceEnabled true")
    order = f"call r printNormal 2 {TEXT.hex()}"
    ways = {"cleared": ("call r clearOutput",), "released": ("release r", *again),
            "closed": (" close  r", "open r r1", *again)}
    for kind in ("usb", "asked"):
        for way, lines in ways.items():
            with contextlib.ExitStack() as stack:
                shop, is_given_up = Shop(stack, kind), way == "cleared"
                opens_cover_within(shop)
                told(f"{way} over {kind}: it fails", "err 114 201", shop.print(TEXT))
                told(f"{way} over {kind}", ["ok"] * len(lines), shop.host.lines(*lines))
                if kind == "usb":
                    told(f"{way} over {kind}: it is late", True, is_late(shop))
                    told(f"{way} over {kind}: it is counted", str(int(is_given_up)), shop.late())
                shop.device.cover(False)
                told(f"{way} over {kind}: another one", True,
                     until(lambda: shop.host.ask("run 10") and shop.print(TEXT) == "ok"))
                twice = PRINTED * 2 if kind == "usb" else [PRINTED[0], *PRINTED]
                told(f"{way} over {kind}: the paper", twice if is_given_up else PRINTED, shop.paper())
    with contextlib.ExitStack() as stack:
        shop = Shop(stack)
        shop.device.hang()
        told("an order of a silent printer", "err 111", shop.print(TEXT))
        shop.device.hang(False)
        told("it is printed late", True, is_late(shop))
        told("it may be tried again", "0", shop.late())
        told("given up and ordered in one text", ["ok", "ok"], shop.host.lines("call r clearOutput", order))
        told("it is printed twice", PRINTED * 2, shop.paper())
        told("one of them was late", "1", shop.late())
        shop.device.hang()
        told("a third one", "err 111", shop.print(TEXT))
        shop.device.hang(False)
        told("what gives up nothing", ["bad control", "err 106", "bad line"],
             shop.host.lines("call q clearOutput", "call r clearInput", "release"))
        told("it answers again", True, shop.settle())
        told("the third one again", "ok", shop.print(TEXT))
        told("it is printed once", PRINTED * 3, shop.paper())
        told("no other was late", "1", shop.late())
        shop.device.hang()
        told("a fourth one", "err 111", shop.print(TEXT))
        shop.device.hang(False)
        told("it answers once more", True, shop.settle())
        told("given up by a line that ends in CR LF", ["ok", "ok"],
             shop.host.lines("call r clearOutput\r", "get r State")[:1] + [shop.print(TEXT)])
        told("it is printed twice, too", PRINTED * 5, shop.paper())


def try_given_up_by_reply():
    """Output that failed, and is given up by the reply to its ErrorEvent: the same request is printed again."""
    with contextlib.ExitStack() as stack:
        shop = Shop(stack)
        events = []

        def is_complete(number):
            shop.host.ask("run 10")
            events.extend(events_of(shop.host))
            return f"event OutputCompleteEvent {number}" in events
        request = f"call r printNormal 2 {TEXT.hex()}"
        told("output waits", ["ok", "ok"], shop.host.lines("set r AsyncMode true", request))
        opens_cover_within(shop)
        told("it is tried", "true", shop.host.ask("run 0"))
        delivered = shop.host.line("deliver r clear")
        while delivered.startswith("event StatusUpdateEvent"):
            delivered = shop.host.line("deliver r clear")
        told("it fails, and is cleared", "event ErrorEvent 114 201 1", delivered)
        told("it is late", True, is_late(shop))
        told("the same again", "ok", shop.host.line(request))
        told("that is printed", True, until(lambda: is_complete(2)))
        told("both are on the paper", PRINTED * 2, shop.paper())
        told("one was late", "1", shop.late())


def try_given_up_typed():
    """An order that failed and was given up by a typed call, or whose control was only released or closed."""
    ways = {"cleared": ("clear",), "released": ("release", "close"), "closed": ("close",)}
    for way, words in ways.items():
        with contextlib.ExitStack() as stack:
            shop, late = Shop(stack, is_claimed=False), int(way == "cleared")
            opens_cover_within(shop)
            told(f"{way}: it fails", "E_EXTENDED 201", shop.host.ask(f"print {TEXT.hex()}"))
            told(way, ["ok"] * len(words), [shop.host.ask(word) for word in words])
            shop.device.cover(False)
            told(f"{way}: it comes out", True,
                 until(lambda: shop.host.ask("run 10") and shop.late() == str(late) and shop.paper() == PRINTED))
            told(f"{way}: another one", True,
                 until(lambda: shop.host.ask("run 10") and shop.host.ask(f"print {TEXT.hex()}") == "ok"))
            told(f"{way}: the paper", PRINTED * (1 + late), shop.paper())
            told(f"{way}: how many were late", str(late), shop.late())
    with contextlib.ExitStack() as stack:
        shop = Shop(stack, is_claimed=False)
        told("output waits", "ok", shop.host.ask(f"later {TEXT.hex()}"))
        opens_cover_within(shop)
        told("it is tried", "true", shop.host.ask("run 0"))
        told("it fails, and is cleared by a reply", "1", shop.host.ask("reply"))
        shop.device.cover(False)
        told("it is late all the same", True, until(lambda: shop.host.ask("run 10") and shop.late() == "1"))
        told("the same waits", "ok", shop.host.ask(f"later {TEXT.hex()}"))
        told("it is on the paper a second time", True,
             until(lambda: shop.host.ask("run 10") and shop.paper() == PRINTED * 2))


def try_given_up_of_one():
    """Orders of two printers fail, and one of them is given up by a typed call or by a line: the other is printed on
    from where its paper stands. Once a line has opened a control both are given up."""
    words = {"a typed call": "clear", "a line": "lines call k1 clearOutput"}
    for way, is_open in itertools.product(words, (False, True)):
        with contextlib.ExitStack() as stack:
            host = Host(stack, TWO_PRINTERS)
            devices = [stack.enter_context(Printer(cable(), lines=1000)) for _ in range(2)]
            for name, device in zip(("r1", "r2"), devices):
                opened = f"printer {name} {device.path} timeout {AMPLE} pause 10 lines 1000"
                told(f"{way}: {name} is opened", "ok", host.ask(opened))
                device.after_characters(5, lambda device=device: device.cover(True))
            fails = [(host.ask(f"print {TEXT.hex()}"), host.ask("swap")) for _ in devices]
            told(f"{way}: both fail", [("E_EXTENDED 201", "ok")] * 2, fails)
            if is_open:
                told(f"{way}: a line opens a control", ["ok"] * 2, host.lines("new d CashDrawer", "open d d2"))
            told(f"{way}: one is given up", "ok", host.ask(words[way]).rstrip(";"))
            for device in devices:
                device.cover(False)
                told(f"{way}: it comes out", True,
                     until(lambda device=device: host.ask("run 10") and paper_of(device) == PRINTED))
                is_printed = until(lambda: host.ask("run 10") and host.ask(f"print {TEXT.hex()}") == "ok")
                told(f"{way}: it is asked for again", (True, "ok"), (is_printed, host.ask("swap")))
            told(f"{way}{', and a line has opened a control' * is_open}: the paper of both",
                 [PRINTED * 2, PRINTED * (1 + is_open)], [paper_of(device) for device in devices])


def try_given_up_own():
    """A driver of one's own is told that output is given up, if it is that of its printer; and of any one once a line
    has opened a control."""
    with contextlib.ExitStack() as stack:
        host = Host(stack, TWO_PRINTERS)
        told("a driver", ["ok"] * 2, [host.ask("own r2 1 printer"), host.ask("swap")])
        told("an order", "ok", host.ask(f"print {TEXT.hex()}"))
        told("its output is given up", ["ok", "1"], [host.ask("clear"), host.ask("given")])
        told("another printer", ["ok"] * 2, [host.ask("swap"), host.ask(f"print {TEXT.hex()}")])
        told("that one's output is given up", ["ok", "1"], [host.ask("clear"), host.ask("given")])
        told("so it is by a line", ["ok", "1"], [host.line("call k2 clearOutput"), host.ask("given")])
        told("its own output is given up by a line", ["ok", "2"], [host.line("call k1 clearOutput"), host.ask("given")])
        told("output of that one waits, and fails", ["ok", "ok", "failed 114 201"],
             [host.ask(f"later {TEXT.hex()}"), *host.lines("input r1 cover open", "work r1")])
        told("a reply of a line gives it up", [["event ErrorEvent 114 201 1"], "2"],
             [error_events(host, "k2"), host.ask("given")])
        told("its own output waits, and fails", ["ok", "ok", "failed 111 0"],
             [host.ask("swap"), host.ask(f"later {TEXT.hex()}"), host.line("work r2")])
        told("a reply of a line gives that up", [["event ErrorEvent 111 0 1"], "3"],
             [error_events(host, "k1"), host.ask("given")])
        told("it is, once a line has opened a control", ["ok", "ok", "ok", "4"],
             [*host.lines("new d CashDrawer", "open d d2"), host.line("call k2 clearOutput"), host.ask("given")])


def error_events(host, control):
    """Delivers the events of a control by lines with the reply ER_CLEAR: those that are ErrorEvents."""
    events = iter(lambda: host.line(f"deliver {control} clear"), "none")
    return [event for event in events if event.startswith("event ErrorEvent")]


def try_given_up_and_released():
    """Output that failed, and is given up by the reply to its ErrorEvent, whose listener has released the control."""
    with contextlib.ExitStack() as stack:
        shop = Shop(stack, is_claimed=False, timeout=AMPLE)
        told("output waits", "ok", shop.host.ask(f"later {TEXT.hex()}"))
        opens_cover_within(shop)
        told("it is tried", "true", shop.host.ask("run 0"))
        told("it fails, and is given up", "1", shop.host.ask("drop"))
        shop.device.cover(False)
        told("it comes out late", True, until(lambda: shop.host.ask("run 10") and shop.late() == "1"))
        told("its control is closed", "ok", shop.host.ask("close"))
        told("the same is a new order", "ok", shop.host.ask(f"print {TEXT.hex()}"))
        told("it is on the paper twice", PRINTED * 2, shop.paper())


def try_behind_given_up():
    """An order behind one that was given up and is printed still: it has its timeout again with each of those lines."""
    lines = [b"Line %d" % number for number in range(20)]
    with contextlib.ExitStack() as stack:
        shop = Shop(stack, timeout=2500)
        shop.device.slow(0.25)
        opens_cover_within(shop)
        told("a long order fails", "err 114 201", shop.print(b"\n".join(lines) + b"\n"))
        told("it is given up", "ok", shop.host.line("call r clearOutput"))
        shop.device.cover(False)
        told("the printer goes on", True, shop.settle())
        began = time.monotonic()
        told("an order behind it", "ok", shop.print(b"Other\n"))
        told("it takes longer than the timeout", True, time.monotonic() - began > 2.5)
        told("all is printed", [*lines, b"Other"], [item[1] for item in shop.paper()])
        told("the first one was late", "1", shop.late())


def try_lost_xon():
    """A printer says that it can take no more (XOFF), and what says that it can is lost: it is found again."""
    with contextlib.ExitStack() as stack:
        device = stack.enter_context(Printer(cable("serial")))
        host = Host(stack)
        told("a printer with XON/XOFF", "ok",
             host.ask(f"printer r1 {device.path} timeout {TIMEOUT} pause 10 lines 1000 serial 115200 flow xon-xoff"))

        def is_online():
            host.ask("run 10")
            return host.ask("state r1").startswith("online")
        told("it is there", True, until(is_online))
        host.lines("new r POSPrinter", "open r r1", "claim r 0", "set r DeviceEnabled true")
        device.garbage(b"\x13")
        told("XOFF is sent", True, device.wait(lambda: not device._sends))
        time.sleep(0.1)
        order = "call r printNormal 2 410a"
        told("an order of it", "err", host.line(order)[:3])
        told("nothing has gone out", [], device.receipt())
        told("it is off", True, until(lambda: not is_online()))
        told("it is found again", True, until(is_online))
        told("the order again", True, until(lambda: host.ask("run 10") and host.line(order) == "ok"))
        told("it is printed once", [b"A"], [item.characters for item in device.receipt()])


class FewAnswers(Printer):
    """A printer that falls silent once it has acknowledged so many pieces."""

    left = None

    def _acknowledges(self, answer):
        super()._acknowledges(answer)
        self.left = None if self.left is None else self.left - 1
        if self.left == 0:
            self.hang()


def try_late_answer():
    """A printer that is asked, takes nothing while its cover is open, and then acknowledges what counts for nothing any
    more: that isn't taken for a line that is sent again."""
    with contextlib.ExitStack() as stack:
        shop = Shop(stack, "asked holds", timeout=AMPLE, made=FewAnswers)
        device, text = shop.device, b"One\nTwo\n"
        device.after_characters(2, lambda: device.cover(True))
        told("the cover is opened in a line", "err 111", shop.print(text))
        device.slow(0.4)
        # The line that had begun, and the same again.
        device.left = 2
        device.cover(False)
        told("it isn't done before its last line is printed", "err", shop.print(text)[:3])
        told("that wasn't printed", {b"One"}, {item.characters for item in device.receipt()})
        device.slow(0)
        device.hang(False)
        told("it is done", True, until(lambda: shop.host.ask("run 10") and shop.print(text) == "ok"))
        told("all is printed", {b"One", b"Two"}, {item[1] for item in shop.paper()})


def try_drawer():
    """The drawer on the printer's connector: its pulse, its sensor, and what the printer's trouble is for it."""
    for kind in ("usb", "asked"):
        with contextlib.ExitStack() as stack:
            shop = Shop(stack, kind, "drawer d1", timeout=AMPLE)
            host = shop.host
            lines = ("new d CashDrawer", "open d d1", "set d DeviceEnabled true")
            told(f"the drawer over {kind}", ["ok"] * 3, host.lines(*lines))
            told(f"it is closed over {kind}", "ok false", host.line("get d DrawerOpened"))
            told(f"it is opened over {kind}", "ok", host.line("call d openDrawer"))
            told(f"its pulse over {kind}", [(2, 25, 250)], shop.device.pulses)
            told(f"it is open over {kind}", "ok true", host.line("get d DrawerOpened"))
            shop.device.drawer(False)
            told(f"it is closed by hand over {kind}", True,
                 until(lambda: host.ask("run 10") and host.line("get d DrawerOpened") == "ok false"))
            shop.device.cover(True)
            told(f"the cover is open over {kind}", True,
                 until(lambda: host.ask("run 10") and host.line("get r CoverOpen") == "ok true"))
            told(f"its order over {kind}", "err 111", host.line("call d openDrawer"))
            shop.device.pull_plug()
            told(f"the plug is pulled over {kind}", True,
                 until(lambda: host.ask("run 10") and host.ask("state d1").startswith("offline")))
            told(f"its order then over {kind}", "err 108", host.line("call d openDrawer"))


def try_display():
    """A display shows what its orders say, also after it was lost."""
    for protocol in ("cd5220", "escpos"):
        with contextlib.ExitStack() as stack:
            device = stack.enter_context(Display(cable(), protocol=protocol))
            host = Host(stack)
            word = "escpos" if protocol == "escpos" else ""
            told(f"{protocol}: opened", "ok", host.ask(f"display p1 {device.path} {word} pause 10"))
            host.lines("new p LineDisplay", "open p p1", "claim p 0", "set p DeviceEnabled true")

            def shows(text, name):
                told(f"{protocol}: {name}", "ok", host.line(f"call p displayTextAt 0 0 {text.hex()} 0"))
                told(f"{protocol}: {name} is shown", True, until(lambda: device.shows().startswith(text)))
            told(f"{protocol}: a text below", "ok", host.line("call p displayTextAt 1 0 5468616e6b73 0"))
            shows(b"Total 4.50", "a text")
            device.pull_plug()
            told(f"{protocol}: it is lost", True,
                 until(lambda: host.ask("run 10") and host.ask("state p1").startswith("offline")))
            told(f"{protocol}: an order then", "err 108", host.line("call p displayTextAt 1 0 41 0"))
            device.plug_in()
            told(f"{protocol}: it is found", True,
                 until(lambda: host.ask("run 10") and host.ask("state p1").startswith("online")))
            # It shows its rows one after the other, here so slowly that it is seen.
            device.slow(0.2)
            shows(b"Total 9.00", "a text again")
            rows = b"Total 9.00".ljust(20) + b"Thanks".ljust(20)
            told(f"{protocol}: all of it", True, until(lambda: device.shows() == rows) or device.shows())
            device.slow(0)
            device.pull_plug()
            told(f"{protocol}: an order that changes nothing, without a display", True,
                 until(lambda: host.line(f"call p displayTextAt 0 0 {b'Total 9.00'.hex()} 0") == "err 108"))


class Greeting(Display):
    """A display with a power supply of its own, which shows a text when it is switched on."""

    def started(self):
        self.cells = [bytearray(b"Welcome".ljust(self.columns)) for _ in range(self.rows)]


def try_display_switched():
    """A display was off and on again, which nobody sees: an order that changes nothing shows all that is to be there.
    """
    orders = ("call p clearText", b" " * 40), ("call p displayTextAt 0 0 546f74616c 0", b"Total".ljust(40))
    for protocol in ("cd5220", "escpos"):
        for line, wanted in orders:
            with contextlib.ExitStack() as stack:
                device = stack.enter_context(Greeting(cable("stays"), protocol=protocol))
                host = Host(stack)
                word = "escpos" if protocol == "escpos" else ""
                told(f"{protocol}: a display", "ok", host.ask(f"display p1 {device.path} {word} pause 10"))
                host.lines("new p LineDisplay", "open p p1", "claim p 0", "set p DeviceEnabled true")
                for turn in ("at first", "after it was off"):
                    told(f"{protocol}: it greets {turn}", True, device.shows().startswith(b"Welcome"))
                    told(f"{protocol}: {line} {turn}", "ok", host.line(line))
                    # A blank display may have more to take.
                    told(f"{protocol}: it is shown {turn}", True,
                         until(lambda: device.is_idle and device.shows() == wanted))
                    device.pull_plug()
                    device.plug_in()


def try_long_pause():
    """A port that is tried again only after weeks is opened the first time."""
    with contextlib.ExitStack() as stack:
        display = stack.enter_context(Display(cable()))
        scanner = stack.enter_context(Scanner(cable()))
        host = Host(stack)
        told("a display with a long pause", ["ok", "online 0"],
             [host.ask(f"display p1 {display.path} pause 2147483000"), host.ask("state p1")])
        told("a scanner with a long pause", ["ok", "online 0"],
             [host.ask(f"scanner s1 {scanner.path} pause 2147483000"), host.ask("state s1")])


def is_kept(line):
    """Whether other programs are kept out of a terminal (TIOCGEXCL)."""
    return fcntl.ioctl(line, 0x80045440, bytes(4)) != bytes(4)


def try_taken():
    """A serial line that a till has open is refused to another one, which leaves its settings and its bytes alone. Once
    it is closed, the other one has it."""
    for opened in ("printer r1 {} timeout 100 serial 9600 flow rts-cts", "display p1 {} serial 9600",
                   "display p1 {}", "scanner s1 {} serial 9600", "scanner s1 {} keys"):
        name, other_device = opened.format("a line"), opened.split()[1]
        with contextlib.ExitStack() as stack:
            device = stack.enter_context(Printer(cable("serial")))
            other = Host(stack)
            with contextlib.ExitStack() as first:
                host = Host(first)
                told(f"{name}: a printer", "ok",
                     host.ask(f"printer r1 {device.path} timeout {AMPLE} pause 10 lines 1000 serial 115200"))
                host.lines("new r POSPrinter", "open r r1", "claim r 0", "set r DeviceEnabled true")
                line = device.cable._slave
                until(lambda: host.ask("run 50") == "false" and device.is_idle and device.cable.unread() == 0)
                settings, worked = termios.tcgetattr(line), device.worked
                device.cover(True)
                told(f"{name}: it says something", True, until(lambda: device.cable.unread() == 4))
                told(f"{name}: the line is refused", ["ok", "offline 0", str(errno.EBUSY)],
                     [other.ask(opened.format(device.path) + " pause 10"), other.ask(f"state {other_device}"),
                      other.ask(f"why {other_device}")])
                told(f"{name}: later too", ["false", "offline 0"],
                     [other.ask("run 30"), other.ask(f"state {other_device}")])
                told(f"{name}: its settings are as they were", settings, termios.tcgetattr(line))
                told(f"{name}: the printer got nothing", worked, device.worked if device.is_idle else None)
                told(f"{name}: what it said is there", 4, device.cable.unread())
                told(f"{name}: others are kept out", True, is_kept(line))
                told(f"{name}: it is heard", True,
                     until(lambda: host.ask("run 10") and host.line("get r CoverOpen") == "ok true"))
                device.cover(False)
                told(f"{name}: it is closed", True,
                     until(lambda: host.ask("run 10") and host.line("get r CoverOpen") == "ok false"))
                told(f"{name}: it prints", "ok", host.line("call r printNormal 2 410a"))
            told(f"{name}: nobody is kept out any more", False, is_kept(line))
            told(f"{name}: the other till has it", True,
                 until(lambda: other.ask("run 10") and other.ask(f"state {other_device}") == "online 0"))


def try_flow():
    """The flow control of serial lines, if they say which they have."""
    with contextlib.ExitStack() as stack:
        display = stack.enter_context(Display(cable()))
        scanner = stack.enter_context(Scanner(cable()))
        printer = stack.enter_context(Printer(cable()))
        host = Host(stack)
        for device, opened, wanted in ((display, f"display p1 {display.path} serial 9600 flow rts-cts", True),
                                       (scanner, f"scanner s1 {scanner.path} serial 9600", False),
                                       (printer, f"printer r1 {printer.path} serial 9600 flow rts-cts", True)):
            told(opened.split()[0], "ok", host.ask(opened))
            settings = termios.tcgetattr(device.cable._slave)
            told("its flow control", wanted, settings[2] & termios.CRTSCTS != 0)


def try_disturbed():
    """A 0 byte in a code over a serial line, which stands for one that was disturbed, makes it a failed scan. Over
    another port it is a byte of the code."""
    for kind, words in (("a serial line", "serial 9600"), ("another port", "")):
        with contextlib.ExitStack() as stack:
            device = stack.enter_context(Scanner(cable()))
            host = Host(stack)
            told(f"a scanner on {kind}", "ok", host.ask(f"scanner s1 {device.path} pause 10 {words}"))
            host.lines("new s Scanner", "open s s1", "claim s 0", "set s DeviceEnabled true")

            def comes(code, name, wanted):
                device.scan(code)
                told(f"{name} comes over {kind}", True, until(lambda: host.ask("run 10") == "true", 5))
                event = host.lines("set s DataEventEnabled true", "deliver s")[1]
                told(f"{name} over {kind}", wanted,
                     host.line("get s ScanData") if event == "event DataEvent 0" else event)
            failed = "event ErrorEvent 111 0 2"
            comes(b"40063\x0081", "a 0 byte", failed if words else "ok " + b"40063\x0081".hex())
            comes(b"4006381", "a code after it", "ok " + b"4006381".hex())
            comes(b"\0", "a 0 byte alone", failed if words else "ok 00")


def try_scanner():
    """A scanner on a line and as a keyboard, with identifiers, noise, and a plug that is pulled."""
    for kind in ("lines", "keys"):
        with contextlib.ExitStack() as stack:
            device = stack.enter_context(Scanner(cable()))
            host = Host(stack)
            opened = f"scanner s1 {device.path} {'keys' if kind == 'keys' else ''} pause 10"
            told(f"{kind}: opened", "ok", host.ask(opened))
            host.lines("new s Scanner", "open s s1", "claim s 0", "set s DeviceEnabled true",
                       "set s DecodeData true", "set s DataEventEnabled true")
            send = device.types if kind == "keys" else device.scan

            def scanned(code, wanted):
                send(code)
                told(f"{kind}: {code} comes", True, until(lambda: host.ask("run 10") == "true"))
                told(f"{kind}: {code}", ["event DataEvent 0", *wanted, "ok"],
                     host.lines("deliver s", "get s ScanDataType", "get s ScanData", "get s ScanDataLabel",
                                "set s DataEventEnabled true"))
            scanned(b"4006381333931", ["ok 0", "ok " + b"4006381333931".hex(), "ok " + b"4006381333931".hex()])
            scanned(b"]E04006381333931", ["ok 104", "ok " + b"]E04006381333931".hex(), "ok " + b"4006381333931".hex()])
            scanned(b"]E496385074", ["ok 103", "ok " + b"]E496385074".hex(), "ok " + b"96385074".hex()])
            scanned(b"]C0Ab-{1}~ x", ["ok 110", "ok " + b"]C0Ab-{1}~ x".hex(), "ok " + b"Ab-{1}~ x".hex()])
            # GS1-128, and EAN-13 with a supplement.
            for front, number, code in ((b"]C1", 120, b"0104006381333931"), (b"]E3", 119, b"978020137962452495")):
                scanned(front + code, [f"ok {number}", "ok " + (front + code).hex(), "ok " + code.hex()])
            device.pull_plug()
            told(f"{kind}: it is lost", True,
                 until(lambda: host.ask("run 10") and host.ask("state s1").startswith("offline")))
            device.plug_in()
            told(f"{kind}: it is found", True,
                 until(lambda: host.ask("run 10") and host.ask("state s1").startswith("online")))
            scanned(b"123", ["ok 0", "ok 313233", "ok 313233"])
            if kind == "lines":
                device.garbage(b"x" * 10_000 + b"\r\n")
                told("a code that is too long comes", True, until(lambda: host.ask("run 10") == "true"))
                told("a code that is too long", ["event ErrorEvent 111 0 2", "ok"],
                     host.lines("deliver s", "set s DataEventEnabled true"))
                scanned(b"456", ["ok 0", "ok 343536", "ok 343536"])


def try_scanner_halves():
    """A code whose end doesn't come is a failed scan, and the next one is whole. So it is if the scanner is lost within
    a code. What comes while nobody looks belongs to what has begun."""
    for kind in ("lines", "keys"):
        with contextlib.ExitStack() as stack:
            device = stack.enter_context(Scanner(cable()))
            host = Host(stack)
            told(f"{kind}: a scanner", "ok",
                 host.ask(f"scanner s1 {device.path} {'keys' if kind == 'keys' else ''} pause 10"))
            host.lines("new s Scanner", "open s s1", "claim s 0", "set s DeviceEnabled true")

            def begins(digits):
                """The front of a code comes, and is read."""
                keys = [(digit - ord("1")) % 10 + 2 for digit in digits]
                events = [struct.pack("@llHHi", 0, 0, 1, key, value) for key in keys for value in (1, 0)]
                device.garbage(digits if kind == "lines" else b"".join(events))
                device.wait(lambda: not device._sends and device.cable.unread() > 0)
                told(f"{kind}: {digits} isn't a code", "false", host.ask("run 10"))

            def ends(digits):
                """The end of a code is there."""
                (device.scan if kind == "lines" else device.types)(digits)
                device.wait(lambda: not device._sends and device.cable.unread() > 0)

            def comes(name, wanted):
                told(f"{kind}: {name} comes", True, until(lambda: host.ask("run 10") == "true", 5))
                event = host.lines("set s DataEventEnabled true", "deliver s")[1]
                told(f"{kind}: {name}", wanted, host.line("get s ScanData") if event == "event DataEvent 0" else event)
            failed = "event ErrorEvent 111 0 2"
            begins(b"4006")
            told(f"{kind}: nor is it a failed scan at once", "false", host.ask("run 400"))
            comes("a code without an end", failed)
            ends(b"123")
            comes("a code after it", "ok 313233")
            begins(b"12")
            told(f"{kind}: its end comes soon", "false", host.ask("run 300"))
            ends(b"34")
            comes("a code in two parts", "ok 31323334")
            begins(b"12")
            time.sleep(1.5)
            ends(b"34")
            comes("a code whose end comes while nobody looks", "ok 31323334")
            begins(b"4006")
            device.pull_plug()
            comes("a code of a scanner that is lost", failed)
            told(f"{kind}: it is off", True, until(lambda: host.ask("run 10") and host.ask("state s1") == "offline 0"))
            device.plug_in()
            told(f"{kind}: it is back", True, until(lambda: host.ask("run 10") and host.ask("state s1") == "online 0"))
            ends(b"123")
            comes("a code of it", "ok 313233")


def try_code_behind():
    """A code that comes right behind one that has failed is told first."""
    with contextlib.ExitStack() as stack:
        device = stack.enter_context(Scanner(cable("tcp")))
        host = Host(stack)
        told("a scanner on a network", "ok", host.ask(f"scanner s1 {device.path} pause 10"))
        host.lines("new s Scanner", "open s s1", "claim s 0", "set s DeviceEnabled true", "set s DataEventEnabled true")
        device.garbage(b"x" * 5_000 + b"\r\n789\r\n")
        told("both codes are sent", True, device.wait(lambda: not device._sends))
        time.sleep(0.1)
        told("one comes", True, until(lambda: host.ask("run 10") == "true"))
        told("the whole one is first", ["event DataEvent 0", "ok 373839", "ok"],
             host.lines("deliver s", "get s ScanData", "set s DataEventEnabled true"))
        told("the other one comes", True, until(lambda: host.ask("run 10") == "true"))
        told("it has failed", "event ErrorEvent 111 0 2", host.line("deliver s"))


def try_scanner_events():
    """A code of which the system has dropped events, since nobody has read them in time, is a failed scan."""
    with contextlib.ExitStack() as stack:
        device = stack.enter_context(Scanner(cable()))
        host = Host(stack)
        told("opened for keys", "ok", host.ask(f"scanner s1 {device.path} keys pause 10"))
        host.lines("new s Scanner", "open s s1", "claim s 0", "set s DeviceEnabled true", "set s DecodeData true")

        def comes(code, dropped, name, wanted):
            device.types(code, dropped)
            told(f"{name}: it comes", True, until(lambda: host.ask("run 10") == "true"))
            told(name, wanted, host.lines("set s DataEventEnabled true", "deliver s", "get s ScanDataLabel")[1:])
        code = b"]E04006381333931"
        failed, whole = ["event ErrorEvent 111 0 2", "ok -"], ["event DataEvent 0", "ok " + code[3:].hex()]
        comes(code, 10, "the front of a code was dropped", failed)
        comes(code, 0, "a code after it", whole)
        comes(b"aBC", 3, "shift is down where events were dropped", [failed[0], whole[1]])
        comes(b"abc", 0, "small letters after it", [whole[0], "ok 616263"])
        if host.ask(f"totals {CHECKS.work / 'none'}") == "not understood":
            return
        comes(b"123", 7, "all but the end of Enter was dropped", [failed[0], "ok 616263"])
        comes(code, 0, "a code after that", whole)


def try_asked_retries():
    """A printer that is asked falls silent for two retries. What it answers to them is no answer to a later order."""
    with contextlib.ExitStack() as stack:
        shop = Shop(stack, "asked")
        device = shop.device

        def goes_on(count):
            """Lets it work so many bytes off, while an order waits."""
            device.after(count, device.hang)
            timer = threading.Timer(0.2, device.hang, [False])
            timer.start()
            stack.callback(timer.join)
        device.hang()
        told("an order of a silent printer", "err 111", shop.print(b"Once\n"))
        size = len(device._got)
        told("two retries", ["err 111"] * 2, [shop.print(b"Once\n"), shop.print(b"Once\n")])
        device.after(size, device.hang)
        device.hang(False)
        told("the order is printed", True, device.wait(lambda: device.is_hung and len(device.receipt()) == 1))
        told("a third retry", "ok", shop.print(b"Once\n"))
        goes_on(6)
        told("another order isn't done", "err 111", shop.print(b"Another one\n"))
        told("nor printed", 1, len(device.receipt()))
        device.hang(False)
        told("it answers again", True, shop.settle())
        told("a retry of that", "ok", shop.print(b"Another one\n"))
        told("the paper", [b"Once", b"Another one"], [item[1] for item in shop.paper()])
        device.hang()
        for letter in b"AB":
            text = b"".join(b"%c%02d\n" % (letter, number) for number in range(40))
            told("a long order of a silent printer", "err 111", shop.print(text))
        goes_on(len(device._got))
        told("an order behind two that are due", "err 111", shop.print(b"Last\n"))
        device.hang(False)
        told("it answers at last", True, shop.settle())
        told("a retry of the last one", "ok", shop.print(b"Last\n"))
        told("it is printed once", 1, [item[1] for item in shop.paper()].count(b"Last"))


class SayingPrinter(Printer):
    """A printer that says by itself how it is once it is on, until it is told not to."""

    def started(self):
        self._is_automatic = True
        self._changed()


def try_status_of_reset():
    """A printer that is asked is reset, and sends an automatic status: none of its bytes acknowledges a line."""
    for kind in ("asked stays", "asked serial", "asked tcp stays", "asked holds"):
        with contextlib.ExitStack() as stack:
            shop = Shop(stack, kind, made=SayingPrinter)
            device = shop.device

            def is_told():
                """Whether it is told not to say how it is."""
                return until(lambda: shop.host.ask("run 10") and not device._is_automatic)
            told(f"it is told how to begin, {kind}", True, is_told())
            told(f"an order, {kind}", "ok", shop.print(b"First\n"))
            device.pull_plug()
            device.plug_in()
            told(f"it is told again, {kind}", True, is_told())
            told(f"an order after a reset, {kind}", "ok", shop.print(b"Second\n"))
            timer = threading.Timer(0.2, device.plug_in)
            device.after_characters(2, device.pull_plug, timer.start)
            told(f"a reset in a line, {kind}", "err 111", shop.print(b"Third\n"))
            timer.join()
            told(f"it is told after that, {kind}", True, is_told())
            told(f"the line isn't whole, {kind}", False, ("left", b"Third") in shop.paper())
            told(f"the order again, {kind}", True, until(lambda: shop.print(b"Third\n") == "ok"))
            told(f"it is printed once, {kind}", 1, shop.paper().count(("left", b"Third")))
            told(f"it is on, {kind}", "online 0", shop.host.ask("state r1"))


def try_status_in_parts():
    """An automatic status that comes byte by byte; and one whose end doesn't come."""
    for status in (b"\x14\0\0\0", b"\x18\x60\x0f\x6f", b"\x10\0\x10\0\0\0"):
        with contextlib.ExitStack() as stack:
            name, shop = status.hex(), Shop(stack, "asked")
            device = shop.device

            def says():
                for byte in status:
                    time.sleep(0.03)
                    device.garbage(bytes([byte]))
            saying = threading.Thread(target=says)
            device.after_characters(2, device.hang, saying.start)
            told(f"the status {name} in a line", "err 111", shop.print(b"First\n"))
            saying.join()
            told(f"nothing is printed, {name}", [], device.receipt())
            device.hang(False)
            told(f"the order again, {name}", True, until(lambda: shop.print(b"First\n") == "ok"))
            told(f"it is printed, {name}", True, ("left", b"First") in shop.paper())
    with contextlib.ExitStack() as stack:
        shop = Shop(stack, "asked", timeout=AMPLE)
        for part in (1, 2, 3):
            shop.device.garbage(b"\x14\0\0"[:part])
            # The answers to questions are none of it.
            shop.host.ask("run 1000")
            told(f"an order after {part} bytes of a status", "ok", shop.print(b"Next\n"))
        told("each is printed once", [("left", b"Next")] * 3, shop.paper())


def try_answer_too_early():
    """A byte that comes while a line is still in this machine doesn't acknowledge it."""
    with contextlib.ExitStack() as stack:
        shop = Shop(stack, "asked")
        device = shop.device
        device.hang()
        device.ROOM = 0
        os.set_blocking(device.cable._slave, False)
        # Zero bytes do nothing. The system makes a little room again a moment after its line is full.
        for _ in range(100):
            time.sleep(0.003)
            with contextlib.suppress(BlockingIOError):
                while True:
                    os.write(device.cable._slave, bytes(64))
        noise = threading.Timer(0.2, device.garbage, [b"\0"])
        noise.start()
        told("it isn't done", "err 111", shop.print(b"First\n"))
        noise.join()
        told("nothing is printed", [], device.receipt())
        device.ROOM = Printer.ROOM
        device.hang(False)
        told("it is well", True, shop.settle())
        told("the order again", True, until(lambda: shop.print(b"First\n") == "ok"))
        told("it is printed once", [("left", b"First")], shop.paper())


class Unacknowledging(Printer):
    """A printer whose acknowledgements are all lost, until it is told to send them."""

    is_losing = False

    def _acknowledges(self, answer):
        was_mute, self.is_mute = self.is_mute, self.is_mute or self.is_losing
        super()._acknowledges(answer)
        self.is_mute = was_mute


def try_begun_late():
    """An order whose time is over before it is known what became of the one that is due isn't sent: it has failed. Once
    that is known, it is sent at once."""
    with contextlib.ExitStack() as stack:
        shop = Shop(stack, "asked stays", made=Unacknowledging)
        shop.device.is_losing = True
        told("an order that isn't acknowledged", "err 111", shop.print(b"First\n"))
        told("an order that waits for the first", "err 111", shop.print(b"Second\n"))
        time.sleep(0.1)
        told("only the first is printed", [b"First"], [item.characters for item in shop.device.receipt()])
        shop.device.is_losing = False
        told("it is still on", True, shop.settle())
        told("the second order again", True, until(lambda: shop.print(b"Second\n") == "ok"))
        told("it is printed once", [b"First", b"Second"], [item.characters for item in shop.device.receipt()])
        told("nothing was late", "0", shop.late())
    with contextlib.ExitStack() as stack:
        shop = Shop(stack, "asked stays")
        shop.device.pull_plug()
        told("an order of a printer that is off", "err 111", shop.print(b"First\n"))
        shop.device.plug_in()
        told("it is on", True, shop.settle())
        told("an order that waits for the first", True, until(lambda: shop.print(b"Second\n") == "ok"))
        told("it alone is printed, and once", [("left", b"Second")], shop.paper())
        told("nothing is late", "0", shop.late())


class HeldPrinter(Printer):
    """A printer behind a line that holds back what is sent for a time."""

    held = None

    def arrives(self, data):
        if self.held is None:
            return super().arrives(data)
        self.held += data
        return b""

    def hold(self, is_held):
        with self.lock:
            held, self.held = self.held, bytearray() if is_held else None
            self._got += self.arrives(held or b"")
        self._wake()


def try_held_back():
    """Late answers of a printer that is asked, to questions that a line has held back: none is taken for another."""
    with contextlib.ExitStack() as stack:
        shop = Shop(stack, "asked", made=HeldPrinter)

        def runs(seconds):
            end = time.monotonic() + seconds
            until(lambda: shop.host.ask("run 10") and time.monotonic() > end)
        # The bit of the drawer's pin is that of an open cover in another answer.
        shop.device.drawer(True)
        told("the printer is well", True, shop.settle())
        runs(0.3)
        told("nothing else has happened", "none", shop.host.line("deliver r"))
        shop.device.hold(True)
        runs(3.5 * TIMEOUT / 1000)
        told("questions are held back", True, shop.device.held.count(b"\x10\x04\1") > 2)
        told("the printer is off", "offline 0", shop.host.ask("state r1"))
        shop.device.hold(False)
        runs(1)
        told("late answers say nothing else", "none", shop.host.line("deliver r"))
        told("the printer is back", "online 0", shop.host.ask("state r1"))
        told("an order then", "ok", shop.print(TEXT))
        told("its paper", PRINTED, shop.paper())


def try_late_causes():
    """A printer that has no paper answers late, to questions that were put again meanwhile: none of its answers is
    taken for another cause."""
    for kind in ("usb", "serial", "asked"):
        with contextlib.ExitStack() as stack:
            shop = Shop(stack, kind, made=HeldPrinter)
            device, ask = shop.device, shop.host.ask
            # The bit of the drawer's pin is that of an open cover in another answer.
            device.drawer(True)
            told(f"the printer is well over {kind}", True, shop.settle())
            device.hold(True)
            told(f"it is asked again and again over {kind}", True,
                 until(lambda: ask("run 10") and device.held.count(b"\x10\x04\1") > 2))
            with device.lock:
                device.lines_left, device.is_short = 0, True
            device.hold(False)
            told(f"it has no paper over {kind}", True,
                 until(lambda: ask("run 10") and shop.host.line("get r RecEmpty") == "ok true"))
            told(f"its cover is closed over {kind}", "ok false", shop.host.line("get r CoverOpen"))
            told(f"an order then over {kind}", "err 114 203", shop.print(TEXT))
            events = iter(lambda: shop.host.line("deliver r"), "none")
            told(f"its cover was never open over {kind}", False, "event StatusUpdateEvent 11" in list(events))
            device.load(1000)
            told(f"it prints with paper over {kind}", True, until(lambda: ask("run 10") and shop.print(TEXT) == "ok"))
            told(f"its paper over {kind}", PRINTED, shop.paper())


def is_asked_over_another(device):
    """Whether another connection has begun of which everything is held back, and the printer was asked over it."""
    _, start, rest = device.held.rpartition(b"\x1b@")
    return start and b"\x10\x04\1" in rest


def try_answers_to_another_connection():
    """A print server passes the answers to questions of an earlier connection on to the next one: none is taken for the
    answer to another question."""
    for kind in ("tcp stays", "asked tcp stays"):
        with contextlib.ExitStack() as stack:
            name, shop = f"earlier answers over {kind}", Shop(stack, kind, made=HeldPrinter)
            device, ask = shop.device, shop.host.ask
            told(f"{name}: it is well", True, shop.settle())
            device.hold(True)
            told(f"{name}: it is connected to again", True,
                 until(lambda: ask("run 10") and is_asked_over_another(device)))
            with device.lock:
                # It says nothing by itself. The bit of the drawer's pin is that of an open cover in another answer.
                device._is_automatic, device.is_drawer_open = False, True
                device.lines_left, device.is_short = 0, True
            device.hold(False)
            told(f"{name}: it has no paper", True,
                 until(lambda: ask("run 10") and shop.host.line("get r RecEmpty") == "ok true"))
            told(f"{name}: its cover is closed", "ok false", shop.host.line("get r CoverOpen"))
            events = iter(lambda: shop.host.line("deliver r"), "none")
            told(f"{name}: it was never open", False, "event StatusUpdateEvent 11" in events)
            device.load(1000)
            told(f"{name}: it prints with paper", True, until(lambda: ask("run 10") and shop.print(TEXT) == "ok"))
            told(f"{name}: the paper", PRINTED, shop.paper())


def try_late_line():
    """A link to a serial line that is made after its driver was opened is set up as a serial line. /dev/tty is the line
    here, which is the terminal of the host's session."""
    master, slave = os.openpty()
    path = CHECKS.work / "late"
    with contextlib.ExitStack() as stack:
        for file in (master, slave):
            stack.callback(os.close, file)
        settings = termios.tcgetattr(slave)
        settings[2] |= termios.CRTSCTS
        termios.tcsetattr(slave, termios.TCSANOW, settings)
        host = Host(stack, terminal=slave)
        told("a display that isn't there", "ok", host.ask(f"display p1 {path} pause 10"))
        told("it is off", "offline 0", host.ask("state p1"))
        path.symlink_to("/dev/tty")
        told("it is found", True, until(lambda: host.ask("run 10") and host.ask("state p1") == "online 0"))
        settings = termios.tcgetattr(slave)
        told("its speed", [termios.B9600] * 2, settings[4:6])
        # A display answers nothing, and may have a cable of three wires.
        told("it has no flow control", True, settings[2] & termios.CRTSCTS == 0)
        host.lines("new p LineDisplay", "open p p1", "claim p 0", "set p DeviceEnabled true")
        told("an order of it", "ok", host.line("call p displayTextAt 0 0 546f74616c 0"))
        text = b""
        while b"Total" not in text and select.select([master], [], [], PATIENCE)[0]:
            text += os.read(master, 1000)
        told("its text", True, b"Total" in text)


def try_flaky():
    """A printer or a drawer that can't be driven leaves no other one without its driver."""
    port = cable().path
    with contextlib.ExitStack() as stack:
        host = Host(stack, PROFILE.replace("near = 20", "near = 20\nflaky = [1, 1]"))
        if host.ask(f"totals {CHECKS.work / 'none'}") == "not understood":
            # This layer drives a printer and a drawer by a call each.
            return
        told("a flaky printer", "KIJ_NO_DEVICE", host.ask(f"printer r1 {port} timeout 100 drawer d1"))
        told("it leaves no driver", ["KIJ_NO_DEVICE"] * 2, [host.ask("state r1"), host.ask("state d1")])
        told("its drawer opens", ["ok"] * 4,
             host.lines("new d CashDrawer", "open d d1", "set d DeviceEnabled true", "call d openDrawer"))
    with contextlib.ExitStack() as stack:
        host = Host(stack, PROFILE.replace('"CashDrawer"', '"CashDrawer"\nflaky = [1, 1]', 1))
        told("a flaky drawer", "KIJ_NO_DEVICE", host.ask(f"printer r1 {port} timeout 100 drawer d1"))
        told("its printer is driven", ["offline 0", "KIJ_NO_DEVICE"], [host.ask("state r1"), host.ask("state d1")])


def try_refused_hardware():
    """The hardware of a device that can't be driven isn't moved: nobody connects to it, and it gets nothing."""
    flaky = "\nflaky = [1, 1]"
    profile = PROFILE.replace("near = 20", "near = 20" + flaky).replace("columns = 20", "columns = 20" + flaky)
    for opened in ("printer r1 {} timeout 100", "display p1 {} timeout 100"):
        name = opened.split()[0]
        with contextlib.ExitStack() as stack:
            device = stack.enter_context(Printer(cable("serial")))
            listener = stack.enter_context(socket.create_server(("127.0.0.1", 0)))
            listener.setblocking(False)
            settings, host = termios.tcgetattr(device.cable._slave), Host(stack, profile)
            told(f"{name}: one that can't be driven", "KIJ_NO_DEVICE",
                 host.ask(opened.format(f"tcp:127.0.0.1:{listener.getsockname()[1]}")))
            told(f"{name}: nobody has connected", False, is_called(listener))
            told(f"{name}: one on a line", "KIJ_NO_DEVICE", host.ask(opened.format(device.path) + " serial 9600"))
            told(f"{name}: the line is as it was", settings, termios.tcgetattr(device.cable._slave))
            told(f"{name}: nothing has come", (True, 0), (device.is_idle, device.worked))
            told(f"{name}: it has no driver", "KIJ_NO_DEVICE", host.ask(f"state {opened.split()[1]}"))


def is_called(listener):
    """Whether anybody has connected to a port."""
    try:
        listener.accept()[0].close()
    except BlockingIOError:
        return False
    return True


def try_totals_files():
    """What the system says of a file of totals that can't be read, where the layer passes it on."""
    short, pipe = CHECKS.work / "short", CHECKS.work / "pipe"
    short.write_bytes(bytes(100))
    os.mkfifo(pipe)
    with contextlib.ExitStack() as stack:
        host = Host(stack)
        if host.ask(f"totals {CHECKS.work / 'none'}") == "not understood":
            return
        for verb in ("totals", "migrate"):
            told(f"{verb}: no file", f"KIJ_SYSTEM {errno.ENOENT}", host.ask(f"{verb} {CHECKS.work / 'none'}"))
            told(f"{verb}: a short file", "KIJ_TOO_SMALL", host.ask(f"{verb} {short}"))
            told(f"{verb}: one that can't be read", f"KIJ_SYSTEM {errno.ESPIPE}", host.ask(f"{verb} {pipe}"))


def try_replaced():
    """A file of totals in whose place another one is put just before it is locked: the till opens that one."""
    if WORDS.preloaded is None:
        return
    path, old, other = (CHECKS.work / name for name in ("totals", "old", "other"))
    begins = ("new t HardTotals", "open t t1", "set t DeviceEnabled true")
    for file, name in ((path, "4f4c44"), (other, "4e4557")):
        with contextlib.ExitStack() as stack:
            host = Host(stack, PROFILE, file)
            told("totals", ["ok"] * 3 + ["ok 1"], host.lines(*begins, f"call t create {name} 1 false"))
    os.link(path, old)
    before, variables = old.read_bytes(), {"LD_PRELOAD": WORDS.preloaded, "REPLACED": str(path)}
    shutil.copy(other, f"{path}.1")
    with contextlib.ExitStack() as stack:
        host = Host(stack, PROFILE, path, **variables)
        told("the new totals are opened", ["ok"] * 3 + ["ok 1 1"], host.lines(*begins, "call t find 4e4557"))
        told("they are changed", "ok", host.line("call t write 1 0 05"))
        told("and locked", True, is_locked(path))
    told("the old ones stay as they were", True, old.read_bytes() == before)
    told("the change is in the new ones", False, path.read_bytes() == other.read_bytes())
    for number in range(1, 30):
        shutil.copy(other, f"{path}.{number}")
    found = subprocess.run([WORDS.host, host.profile, path], stdin=subprocess.DEVNULL, capture_output=True, text=True,
                           env=os.environ | variables)
    told("one that is replaced again and again is in use", (True, True),
         (found.returncode > 0, "in use" in found.stderr or "WouldBlock" in found.stderr))
    told("it isn't tried for ever", True, pathlib.Path(f"{path}.29").exists())


def try_removed():
    """A file of totals that is removed just before it is locked: the till creates a new one."""
    if WORDS.preloaded is None:
        return
    path, begins = CHECKS.work / "totals", ("new t HardTotals", "open t t1", "set t DeviceEnabled true")
    with contextlib.ExitStack() as stack:
        host = Host(stack, PROFILE, path)
        told("totals", ["ok"] * 3 + ["ok 1"], host.lines(*begins, "call t create 4f4c44 1 false"))
    with contextlib.ExitStack() as stack:
        host = Host(stack, PROFILE, path, LD_PRELOAD=WORDS.preloaded, REMOVED=str(path))
        told("new totals are created", ["ok"] * 3 + ["err 109", "ok 1"],
             host.lines(*begins, "call t find 4f4c44", "call t create 4e4557 1 false"))
    told("their file is there", True, path.exists())


def is_locked(path):
    """Whether a program has locked a file."""
    with open(path) as file:
        try:
            fcntl.flock(file, fcntl.LOCK_EX | fcntl.LOCK_NB)
        except BlockingIOError:
            return True
    return False


def try_idle():
    """Without drivers the call that serves them waits as long as it is told."""
    with contextlib.ExitStack() as stack:
        host = Host(stack)
        began = time.monotonic()
        told("nothing is driven", "false", host.ask("run 300"))
        # It counts whole milliseconds.
        told("it takes its time", True, time.monotonic() - began >= 0.299)


def try_dropped():
    """A code of a keyboard of which Linux has dropped events fails, and the next one is whole."""

    def events(*events):
        return b"".join(struct.pack("@llHHi", 0, 0, *event) for event in events)
    four, dropped, enter_up = [(1, 5, 1), (1, 5, 0)], (0, 3, 0), (1, 28, 0)
    with contextlib.ExitStack() as stack:
        device = stack.enter_context(Scanner(cable()))
        host = Host(stack)
        told("the scanner is opened", "ok", host.ask(f"scanner s1 {device.path} keys pause 10"))
        host.lines("new s Scanner", "open s s1", "claim s 0", "set s DeviceEnabled true", "set s DataEventEnabled true")

        def comes(name, wanted):
            told(f"{name} comes", True, until(lambda: host.ask("run 10") == "true", 5))
            found = host.line("deliver s")
            is_data = found == "event DataEvent 0"
            told(name, wanted, host.line("get s ScanData") if is_data else found)
            told(f"{name} is all", ["none", "ok"], host.lines("deliver s", "set s DataEventEnabled true"))
        device.garbage(events(*four, dropped))
        device.types(b"31")
        comes("a code with a gap", "event ErrorEvent 111 0 2")
        device.types(b"4006381")
        comes("a code after it", "ok " + b"4006381".hex())
        device.garbage(events(*four, dropped, enter_up))
        comes("a code whose Enter is dropped", "event ErrorEvent 111 0 2")
        device.types(b"123")
        device.garbage(events(*four, dropped, enter_up))
        comes("a code after that", "ok 313233")
        comes("a code with a gap behind it", "event ErrorEvent 111 0 2")


def try_counted():
    """Answers without a number, after a printer was silent for two retries: an order isn't done by one of before it."""
    with contextlib.ExitStack() as stack:
        shop = Shop(stack, "asked")
        shop.device.hang()
        for name in ("an order", "a retry", "a second retry"):
            told(f"{name} of a silent printer", "err 111", shop.print(TEXT))

        def goes_on():
            """It works off what came before the next order, and is silent again."""
            time.sleep(TIMEOUT / 4000)
            told("the next order isn't sent while answers are due", False, b"Next" in bytes(shop.device._got))
            shop.device.after(before, shop.device.hang)
            shop.device.hang(False)
        before = len(shop.device._got)
        thread = threading.Thread(target=goes_on)
        thread.start()
        told("the next order isn't done", "err 111", shop.print(b"Next\n"))
        thread.join()
        told("nor is it printed: one line had gone out before it", 1, len(shop.device.receipt()))
        shop.device.hang(False)
        told("the printer answers", True, shop.settle())
        told("the next order again", "ok", shop.print(b"Next\n"))
        told("it is printed once", [PRINTED[0], ("left", b"Next")], shop.paper())


def try_link():
    """A link to a serial line, which is made after the driver is opened. The line is the host's own terminal."""
    link = CHECKS.work / "receipt"
    with contextlib.ExitStack() as stack:
        device = stack.enter_context(Display(cable()))

        class Session(Host):
            """A host whose terminal the display is."""

            def __init__(self, stack):
                path = CHECKS.work / "profile"
                path.write_text(PROFILE)
                pipes = {"stdin": subprocess.PIPE, "stdout": subprocess.PIPE, "text": True, "bufsize": 1}
                # The first terminal that a session opens is its own.
                words = ["sh", "-c", 'exec 3< "$0" && exec 3<&- && exec "$@"', device.path, WORDS.host, path]
                self.program = subprocess.Popen(words, **pipes, start_new_session=True)
                stack.callback(self.close)
        host = Session(stack)
        with open(device.path, "rb", buffering=0) as line:
            settings = termios.tcgetattr(line)
            settings[2] |= termios.CRTSCTS
            termios.tcsetattr(line, termios.TCSANOW, settings)
        told("a link that is missing", "ok", host.ask(f"display p1 {link} pause 10"))
        told("the display is off", "offline 0", host.ask("state p1"))
        link.symlink_to("/dev/tty")
        told("it is found", True, until(lambda: host.ask("run 10") and host.ask("state p1") == "online 0", 5))
        settings = termios.tcgetattr(device.cable._slave)
        told("its line is set up", (False, termios.B9600), (settings[2] & termios.CRTSCTS != 0, settings[5]))


def try_silence():
    """A printer that falls silent is off soon, although an order is tried again and again."""
    for kind in ("usb", "tcp", "serial", "asked"):
        with contextlib.ExitStack() as stack:
            shop = Shop(stack, kind)
            shop.device.hang()
            answers = []
            for _ in range(4):
                answers.append(shop.print(b"Once\n"))
                shop.host.ask("run 10")
            told(f"retries over {kind}", ("err 111", "err 108"), (answers[0], answers[-1]))
            told(f"it is off over {kind}", "offline 0", shop.host.ask("state r1"))
            shop.device.hang(False)
            told(f"it answers again over {kind}", True, shop.settle())
            told(f"the order again over {kind}", "ok", shop.print(b"Once\n"))
            told(f"it is printed once over {kind}", [("left", b"Once")], shop.paper())
    with contextlib.ExitStack() as stack:
        shop = Shop(stack, "serial")
        shop.device.pull_plug()
        told("an order of a serial printer that is off", "err 111", shop.print(b"Once\n"))
        shop.device.plug_in()
        time.sleep(2 * TIMEOUT / 1000)
        told("it is on when somebody looks", "false", shop.host.ask("run 300"))
        told("the order again, over a line", "ok", shop.print(b"Once\n"))
        told("it is printed once, over a line", [("left", b"Once")], shop.paper())
    with contextlib.ExitStack() as stack:
        shop = Shop(stack)
        told("waiting output", ["ok", "ok"], shop.host.lines("set r AsyncMode true", "call r printNormal 2 410a"))
        shop.device.hang()
        events = []

        def has(event):
            shop.host.ask("run 10")
            events.extend(events_of(shop.host))
            return event in events
        told("it fails", True, until(lambda: has("event ErrorEvent 111 0 1")))
        told("its printer is off", True, until(lambda: has("event ErrorEvent 108 0 1")))
        shop.device.hang(False)
        told("it is complete", True, until(lambda: has("event OutputCompleteEvent 1")))
        told("it is on the paper once", [("left", b"A")], shop.paper())


def try_blinks():
    """A printer whose port stays is off for a moment, which nobody sees: its status is asked for again."""
    for kind in ("serial", "usb stays", "tcp stays"):
        with contextlib.ExitStack() as stack:
            shop = Shop(stack, kind)
            device = shop.device

            def shows(answer):
                shop.host.ask("run 10")
                return shop.host.line("get r CoverOpen") == answer
            told(f"the printer is idle over {kind}", True,
                 until(lambda: shop.host.ask("run 10") == "false" and device.is_idle))
            device.cover(True)
            told(f"the cover is open over {kind}", True, until(lambda: shows("ok true")))
            told(f"it is asked for more over {kind}", True,
                 until(lambda: shop.host.ask("run 10") and device._got and not device._got.replace(b"\x1da\xff", b"")))
            device.pull_plug()
            device.cover(False)
            device.plug_in()
            told(f"it was closed while the printer was off over {kind}", True, until(lambda: shows("ok false")))
            told(f"an order then over {kind}", "ok", shop.print(b"One\n"))
            device.pull_plug()
            device.plug_in()
            told(f"it is to say again how it is over {kind}", True,
                 until(lambda: shop.host.ask("run 10") and device._is_automatic))
            device.cover(True)
            told(f"the cover is open again over {kind}", True, until(lambda: shows("ok true")))
            device.cover(False)
            told(f"it ends over {kind}", True, shop.settle())
            told(f"an order after it over {kind}", "ok", shop.print(b"Two\n"))
            told(f"both are printed over {kind}", [b"One", b"Two"], [item[1] for item in shop.paper()])


class Unseeing(Printer):
    """A printer whose sensor sees paper where there is none: nothing else tells of its end than that it has stopped."""

    def _status_now(self, kind):
        return 0x12 if kind == 4 else super()._status_now(kind)


class Lingering(Printer):
    """A printer that has stopped at the end of its paper as long as its cover is open, though there is a new roll."""

    def _status_now(self, kind):
        return super()._status_now(kind) | (kind == 2 and self.is_cover_open) << 5


def try_end_beside_the_sensor():
    """Printing has stopped at the end of the paper, where the sensor sees some. The till is told one thing, once."""

    def events(host):
        found = []
        while (event := host.line("deliver r")) != "none":
            found.append(event)
        return found
    with contextlib.ExitStack() as stack:
        shop = Shop(stack, "asked", made=Unseeing, timeout=max(TIMEOUT, 1000))
        told("a line", "ok", shop.print(b"Before\n"))
        events(shop.host)
        shop.device.load(0)
        told("an end that no sensor sees", "err 114 203", shop.print(TEXT))
        until(lambda: shop.host.ask("run 10") == "", 1)
        told("it is told once", ["event StatusUpdateEvent 24"], events(shop.host))
        told("it is empty", "ok true", shop.host.line("get r RecEmpty"))
        shop.device.load(1000)
        told("a new roll", True, shop.settle())
        told("it prints", "ok", shop.print(TEXT))
        told("that is told once, too", ["event StatusUpdateEvent 26"], events(shop.host))
    with contextlib.ExitStack() as stack:
        device, host = stack.enter_context(Lingering(cable(), lines=1000)), Host(stack)
        device.cover(True)
        told("a printer with an open cover", "ok", host.ask(
            f"printer r1 {device.path} timeout {TIMEOUT} pause 10 lines 1000"))
        host.lines("new r POSPrinter", "open r r1", "claim r 0", "set r DeviceEnabled true")
        told("its cover is open", True, until(
            lambda: host.ask("run 10") and host.line("get r CoverOpen") == "ok true"))
        events(host)
        until(lambda: host.ask("run 10") == "", 1)
        told("there is paper", ([], "ok false"), (events(host), host.line("get r RecEmpty")))


def try_on_with_open_cover():
    """A printer that is switched on with its cover open says nothing by itself until that is closed: it is asked."""
    for kind in ("usb", "tcp", "serial", "usb stays", "asked"):
        with contextlib.ExitStack() as stack:
            shop = Shop(stack, kind, "drawer d1")

            def shows(line, answer):
                return until(lambda: shop.host.ask("run 10") and shop.host.line(line) == answer)
            told(f"the printer is well over {kind}", True, shop.settle())
            shop.device.pull_plug()
            shop.host.ask("run 10")
            shop.device.cover(True)
            shop.device.load(10)
            shop.device.drawer(True)
            shop.device.plug_in()
            told(f"the cover is open over {kind}", True, shows("get r CoverOpen", "ok true"))
            told(f"an order then over {kind}", "err 114 201", shop.print(TEXT))
            told(f"its paper is near the end over {kind}", True, shows("get r RecNearEnd", "ok true"))
            told(f"its drawer is open over {kind}", "ok open", shop.host.line("show d1"))
            shop.device.load(1000)
            told(f"a new roll over {kind}", True, shows("get r RecNearEnd", "ok false"))
            shop.device.cover(False)
            told(f"it is closed over {kind}", True, shop.settle())
            told(f"the order again over {kind}", True, until(lambda: shop.print(TEXT) == "ok"))
            told(f"its paper over {kind}", PRINTED, shop.paper())


def try_lost_scanner():
    """A code that comes just before its port is lost. The scanner is off only after it."""
    with contextlib.ExitStack() as stack:
        device = stack.enter_context(Scanner(cable("tcp")))
        host = Host(stack)
        told("the scanner is opened", "ok", host.ask(f"scanner s1 {device.path} pause 10"))
        host.lines("new s Scanner", "open s s1", "claim s 0", "set s PowerNotify 1", "set s DeviceEnabled true",
                   "set s DataEventEnabled true")
        told("it is on", "event StatusUpdateEvent 2001", host.line("deliver s"))
        device.scan(b"4006381")
        told("a code is sent", True, device.wait(lambda: not device._sends))
        device.pull_plug()
        told("it comes", "true", host.ask("run 10"))
        told("the scanner is lost", "offline 0", host.ask("state s1"))
        told("the events", ["event DataEvent 0", "event StatusUpdateEvent 2004", "none"],
             host.lines("deliver s", "deliver s", "deliver s"))
        told("the code", "ok " + b"4006381".hex(), host.line("get s ScanData"))
    with contextlib.ExitStack() as stack:
        device = stack.enter_context(Scanner(cable("tcp")))
        host = Host(stack)
        told("another scanner", "ok", host.ask(f"scanner s1 {device.path} pause 100000"))
        host.lines("new s Scanner", "open s s1", "claim s 0", "set s PowerNotify 1", "set s DeviceEnabled true",
                   "set s DataEventEnabled true")
        told("it is on, too", "event StatusUpdateEvent 2001", host.line("deliver s"))
        device.scan(b"x" * 5000)
        told("too long a code is sent", True, device.wait(lambda: not device._sends))
        device.pull_plug()
        told("it fails", True, until(lambda: host.ask("run 10") == "true"))
        host.ask("run 10")
        told("its events", ["event ErrorEvent 111 0 2", "event StatusUpdateEvent 2004"],
             host.lines("deliver s", "deliver s"))


SPARES = """
[[spare]]
category = "CashDrawer"
[[spare]]
category = "POSPrinter"
chars = 42
lines = 30
near = 20
"""


def try_exchanged():
    """A printer and its drawer: one goes on while the other is detached, and a spare has the driver of its device."""
    with contextlib.ExitStack() as stack:
        device = stack.enter_context(Printer(cable()))
        host = Host(stack, PROFILE + SPARES)
        told("both are opened", "ok", host.ask(
            f"printer r1 {device.path} timeout {AMPLE} pause 10 lines 1000 drawer d1"))
        told("the drawer is detached", ["ok"] * 5,
             host.lines("detach d1", "new r POSPrinter", "open r r1", "claim r 0", "set r DeviceEnabled true"))
        told("an order of the printer", "ok", host.line("call r printNormal 2 410a"))
        told("the drawer is a spare", ["ok"] * 4,
             host.lines("attach d1 1", "new d CashDrawer", "open d d1", "set d DeviceEnabled true"))
        told("its order", "ok", host.line("call d openDrawer"))
        told("its pulse", [(2, 25, 250)], device.pulses)
        told("the printer is detached", ["ok"] * 2, host.lines("close r", "detach r1"))
        told("an order of the drawer", "ok", host.line("call d openDrawer"))
        told("its second pulse", 2, len(device.pulses))
        told("the printer is a spare", ["ok"] * 4,
             host.lines("attach r1 2", "open r r1", "claim r 0", "set r DeviceEnabled true"))
        told("it has the paper of its sensors", "1000", host.line("show r1").split()[2])
        told("a long order of it", "ok", host.line("call r printNormal 2 " + "420a" * 40))
        told("all is printed", [b"A"] + [b"B"] * 40, [item.characters for item in device.receipt()])


def try_refused():
    """Output that waits and is refused is tried again only now and then."""
    with contextlib.ExitStack() as stack:
        shop = Shop(stack, timeout=AMPLE)
        shop.device.cover(True)
        told("the cover is open", True,
             until(lambda: shop.host.ask("run 10") and shop.host.line("get r CoverOpen") == "ok true"))
        told("output waits", ["ok", "ok"], shop.host.lines("set r AsyncMode true", "call r printNormal 2 410a"))
        count, end = 0, time.monotonic() + 0.5
        while time.monotonic() < end:
            shop.host.ask("run 1000")
            count += len(events_of(shop.host))
        told("it is tried again, and not all the time", True, 1 <= count <= 7)
        shop.device.cover(False)
        told("it is printed", True, until(lambda: shop.host.ask("run 10") and len(shop.device.receipt()) == 1))


def try_counted_down():
    """Lines that are counted down begin again while the sensors see enough paper, so that no receipt is refused."""
    with contextlib.ExitStack() as stack:
        device = stack.enter_context(Printer(cable()))
        host = Host(stack)
        told("a printer", "ok", host.ask(f"printer r1 {device.path} timeout {AMPLE} pause 10 lines 120"))
        host.lines("new r POSPrinter", "open r r1", "claim r 0", "set r DeviceEnabled true")
        for count in (60, 35, 30, 60, 100):
            told(f"{count} lines", "ok", host.line("call r printNormal 2 " + "410a" * count))
        told("all are printed", 285, len(device.receipt()))
        told("the count", "120", host.line("show r1").split()[2])
    with contextlib.ExitStack() as stack:
        device = stack.enter_context(Printer(cable(), near=300))
        host = Host(stack, PROFILE.replace("near = 20", "near = 300"))
        told("a printer that is near its end soon", "ok",
             host.ask(f"printer r1 {device.path} timeout {AMPLE} pause 10 lines 500"))
        host.lines("new r POSPrinter", "open r r1", "claim r 0", "set r DeviceEnabled true")
        answers = [host.line("call r printNormal 2 " + "410a" * 30) for _ in range(20)]
        told("it prints", ["ok"] * 20, answers)
        told("it isn't near its end", "none", host.line("deliver r"))


def try_near():
    """While the sensor sees paper near its end, requests are taken that are no longer than from where it is near, and
    nothing but that is told."""
    for near in (20, 0):
        with contextlib.ExitStack() as stack:
            device = stack.enter_context(Printer(cable(), lines=100, near=70))
            host = Host(stack, PROFILE.replace("near = 20", f"near = {near}"))
            told(f"a printer, near {near}", "ok",
                 host.ask(f"printer r1 {device.path} timeout {AMPLE} pause 10 lines 1000"))
            host.lines("new r POSPrinter", "open r r1", "claim r 0", "set r DeviceEnabled true")
            told(f"enough paper, near {near}", "none", host.line("deliver r"))
            told(f"lines up to where it is near, near {near}", "ok", host.line("call r printNormal 2 " + "410a" * 40))
            if near == 0:
                continue
            told("it is near", True, until(lambda: host.ask("run 10") and host.line("get r RecNearEnd") == "ok true"))
            told("the event", ["event StatusUpdateEvent 25", "none"], host.lines("deliver r", "deliver r"))
            for number in range(3):
                told(f"receipt {number}", "ok", host.line("call r printNormal 2 " + "420a" * 15))
                told(f"what the till counts with after receipt {number}", "20", host.line("show r1").split()[2])
            told("no other event", ["ok false", "none"], host.lines("get r RecEmpty", "deliver r"))
            told("all is on the paper", 85, len(device.receipt()))
            device.load(0)
            told("it is empty", True, until(lambda: host.ask("run 10") and host.line("get r RecEmpty") == "ok true"))
            told("an order then", "err 114 203", host.line("call r printNormal 2 430a"))


def try_refusals():
    """What can't be opened."""
    with contextlib.ExitStack() as stack:
        host = Host(stack)
        port = cable().path
        told("no device's name", ["KIJ_BAD_ARGUMENT"] * 4,
             [host.ask(words) for words in (f"printer r_1 {port}", "host d_1", "tear r_1", "state r_1")])
        told("no such device", "KIJ_BAD_DEVICE", host.ask(f"printer r9 {port}"))
        told("nor of the host's", ["KIJ_NO_DEVICE"] * 3, [host.ask(f"{verb} r9") for verb in ("host", "tear", "state")])
        told("another kind", "KIJ_KIND_DIFFERS", host.ask(f"printer d1 {port}"))
        told("another kind of drawer", "KIJ_KIND_DIFFERS", host.ask(f"printer r1 {port} drawer p1"))
        told("a display that is a printer", "KIJ_KIND_DIFFERS", host.ask(f"display r1 {port}"))
        told("a scanner that is a display", "KIJ_KIND_DIFFERS", host.ask(f"scanner p1 {port}"))
        told("a narrow printer", "KIJ_BAD_SETTINGS", host.ask(f"printer r1 {port} width 41"))
        told("a short roll", "KIJ_BAD_SETTINGS", host.ask(f"printer r1 {port} lines 20"))
        told("too long a roll", "KIJ_BAD_SETTINGS", host.ask(f"printer r1 {port} lines 100001"))
        told("no speed of a line", ["KIJ_BAD_SETTINGS"] * 2, [host.ask(f"printer r1 {port} serial {speed}")
                                                              for speed in (0, 9601)])
        told("no time for an order", ["KIJ_BAD_SETTINGS"] * 2,
             [host.ask(f"printer r1 {port} timeout 0"), host.ask(f"display p1 {port} timeout 0")])
        told("longer times than 2,147,483 seconds", ["KIJ_BAD_SETTINGS"] * 5,
             [host.ask(f"{words} {port} {key} 2147483001") for key, made in (("timeout", 2), ("pause", 3))
              for words in ("printer r1", "display p1", "scanner s1")[:made]])
        told("an order that needn't end, and a port that is never tried again", ["KIJ_BAD_SETTINGS"] * 5,
             [host.ask(f"{words} {port} {key} -1") for key, made in (("timeout", 2), ("pause", 3))
              for words in ("printer r1", "display p1", "scanner s1")[:made]])
        for name in ("tcp:", "tcp:h:", "tcp:h:91OO", "tcp:h:+91", "tcp:h:0", "tcp:h:99999", "tcp:[::1", "tcp:[::1]9101",
                     "tcp:[::1]x:9100", "tcp:a:b:9100", "tcp:::1", "tcp:::1:9100", "tcp:::1:9l00", "tcp:[]", "tcp:[h",
                     "tcp:h]", "tcp:[fe80::1%]"):
            told(f"no port: {name}", ["KIJ_BAD_SETTINGS"] * 3,
                 [host.ask(f"printer r1 {name}"), host.ask(f"display p1 {name}"), host.ask(f"scanner s1 {name}")])
        told("none is driven", "KIJ_NO_DEVICE", host.ask("state r1"))
        told("a port that isn't there", "ok", host.ask(f"printer r1 {port} timeout 100 drawer d1"))
        told("a second driver", "KIJ_DRIVEN", host.ask(f"printer r1 {port}"))
        told("a second driver of the drawer", "KIJ_DRIVEN", host.ask(f"printer r1 {port} drawer d1"))
        file = CHECKS.work / "file"
        file.touch()
        told("a file is no port", "ok", host.ask(f"display p1 {file}"))
        told("it is off", "offline 0", host.ask("state p1"))
        told("nothing to do", "false", until(lambda: host.ask("run 0") == "false") and host.ask("run 20"))


def try_endless_wait():
    """The loop waits without an end until something comes."""
    with contextlib.ExitStack() as stack:
        device = stack.enter_context(Scanner(cable()))
        host = Host(stack)
        told("it is opened", "ok", host.ask(f"scanner s1 {device.path} pause 2147483000"))
        host.lines("new s Scanner", "open s s1", "claim s 0", "set s DeviceEnabled true")
        told("nothing is to be done", True, until(lambda: host.ask("run 0") == "false"))
        typing = threading.Timer(0.3, device.scan, [b"7"])
        typing.start()
        told("a code that comes later", ["true", "ok 1"], [host.ask("run -1"), host.line("get s DataCount")])
        typing.join()


def try_hosted():
    """Orders of a hosted device that come before one of a driven device stay."""
    with contextlib.ExitStack() as stack:
        shop = Shop(stack, timeout=AMPLE)
        told("hosted", "ok", shop.host.ask("host d2"))
        shop.host.lines("new d CashDrawer", "open d d2", "set d DeviceEnabled true")
        told("orders of both", ["ok"] * 3,
             shop.host.lines("call d openDrawer", "call r printNormal 2 410a", "call r printNormal 2 420a"))
        told("the hosted one", ["d2", "none"], [shop.host.ask("order"), shop.host.ask("order")])


def try_hosted_before():
    """Orders of a device that was hosted before it was driven aren't its driver's: the host still gets them."""
    with contextlib.ExitStack() as stack:
        host = Host(stack)
        told("hosted", "ok", host.ask("host d2"))
        host.lines("new d CashDrawer", "open d d2", "set d DeviceEnabled true")
        told("an order that nobody takes out", "ok", host.line("call d openDrawer"))
        told("it is driven", "ok", host.ask("own d2 2"))
        told("its orders", ["ok", "ok", "err 111"], [host.line("call d openDrawer") for _ in range(3)])
        told("the host's", ["d2", "none"], [host.ask("order"), host.ask("order")])


def try_off_before():
    """A device that was off before it is driven is on if its hardware is there."""
    with contextlib.ExitStack() as stack:
        host = Host(stack)
        host.lines("new d CashDrawer", "open d d2", "set d DeviceEnabled true")
        told("it is off", ["ok", "err 108"], host.lines("input d2 power off", "call d openDrawer"))
        told("it is driven", "ok", host.ask("own d2 1"))
        told("an order", "ok", host.line("call d openDrawer"))


def try_refused_before():
    """A device that says what can't be keeps no other from being on, with its code."""
    with contextlib.ExitStack() as stack:
        host = Host(stack)
        told("a drawer and a scanner", ["ok", "ok"], [host.ask("own d2 9"), host.ask("own s1 9 scanner")])
        host.lines("new s Scanner", "open s s1", "claim s 0", "set s DeviceEnabled true", "set s DecodeData true",
                   "set s DataEventEnabled true")
        told("both are off", ["ok", "true"], [host.ask("there no"), host.ask("run 10")])
        host.ask("there yes")
        host.ask("says paper 5")
        host.ask("reads 104 31")
        told("both are back, and the drawer says what can't be", "KIJ_BAD_INPUT", host.ask("run 10"))
        host.ask("run 10")
        told("the code has come", ["event DataEvent 0", "ok 31"], host.lines("deliver s", "get s ScanDataLabel"))


def try_own():
    """A driver of the host's own: its orders, and what it says of its device."""
    with contextlib.ExitStack() as stack:
        host = Host(stack)
        told("a drawer of the host's own", "ok", host.ask("own d2 1"))
        host.lines("new d CashDrawer", "open d d2", "set d DeviceEnabled true")
        told("an order of its driver", "ok", host.line("call d openDrawer"))
        told("the driver got it", "d2 openDrawer", host.ask("did"))
        told("one that it can't do", "err 111", host.line("call d openDrawer"))
        told("it is there", "online 0", host.ask("state d2"))
        told("a driver already", "KIJ_DRIVEN", host.ask("own d2 1"))
        told("another kind", "KIJ_KIND_DIFFERS", host.ask("own p1 1"))
        told("it is opened by hand", ["ok", "true", "ok true"],
             [host.ask("says open"), host.ask("run 10"), host.line("get d DrawerOpened")])
        told("nothing more happens", "false", host.ask("run 10"))
        host.ask("there no")
        told("it isn't there", ["true", "offline 0", "err 108"],
             [host.ask("run 10"), host.ask("state d2"), host.line("call d openDrawer")])
        told("it is back, and what can't happen there", ["ok"] * 2, [host.ask("there yes"), host.ask("says paper 5")])
        told("the refusal", "KIJ_BAD_INPUT", host.ask("run 10"))
        told("the others go on", ["false", "online 0"], [host.ask("run 10"), host.ask("state d2")])


def try_own_printer():
    """A printer and a display of the host's own: each order as the driver gets it, and why one isn't done."""
    with contextlib.ExitStack() as stack:
        host = Host(stack, PROFILE + SPARE)
        told("a printer", "ok", host.ask("own r1 3 printer"))
        host.lines("new r POSPrinter", "open r r1", "claim r 0", "set r DeviceEnabled true")
        told("a line", ["ok", "r1 print 410a"], [host.line("call r printNormal 2 410a"), host.ask("did")])
        told("a cut", ["ok", "r1 cutPaper 100"], [host.line("call r cutPaper 100"), host.ask("did")])
        told("output that waits", ["ok", "ok"], host.lines("set r AsyncMode true", "call r printNormal 2 420a"))
        told("it is printed", ["true", "event OutputCompleteEvent 1"], [host.ask("run 10"), host.line("deliver r")])
        host.line("set r AsyncMode false")
        host.ask("says cover open")
        told("a line that isn't done, and why", "err 114 201", host.line("call r printNormal 2 430a"))
        host.ask("says cover closed;paper 0")
        told("two things at once", ["true", "ok false", "ok true"],
             [host.ask("run 10"), *host.lines("get r CoverOpen", "get r RecEmpty")])
        told("a spare that isn't there", ["bad spare", "0"],
             [host.line("attach r1 9"), host.line("show r1").split()[2]])
        told("a spare is attached", ["ok"] * 3, host.lines("close r", "detach r1", "attach r1 1"))
        told("the driver says how it is", "700", host.line("show r1").split()[2])
    with contextlib.ExitStack() as stack:
        host = Host(stack)
        told("a display", "ok", host.ask("own p1 9 display"))
        host.lines("new p LineDisplay", "open p p1", "claim p 0", "set p DeviceEnabled true")
        for line, order in (("call p displayTextAt 1 2 4f4b 1", "p1 displayTextAt 4f4b 1 2 1"),
                            ("call p scrollText 3 2", "p1 scrollText 3 2"), ("call p clearText", "p1 clearText")):
            told(line, ["ok", order], [host.line(line), host.ask("did")])


def try_own_scanner():
    """A scanner of the host's own: its codes are told in order, and before it is off."""
    with contextlib.ExitStack() as stack:
        host = Host(stack)
        told("a scanner", "ok", host.ask("own s1 0 scanner"))
        host.lines("new s Scanner", "open s s1", "claim s 0", "set s DeviceEnabled true", "set s DecodeData true")

        def reads(*codes):
            for code in codes:
                host.ask(f"reads {code}")
            return host.ask("run 10")

        def comes():
            host.line("set s DataEventEnabled true")
            return [host.line("deliver s"), *host.lines("get s ScanDataLabel", "get s ScanDataType")]
        told("two codes", "true", reads("104 313233", "0 343536"))
        told("the first", ["event DataEvent 0", "ok 313233", "ok 104"], comes())
        told("the second", ["event DataEvent 0", "ok 343536", "ok 0"], comes())
        told("a failed scan", ["true", "event ErrorEvent 111 0 2"], [reads("fault"), comes()[0]])
        told("a code and a failed scan", "true", reads("104 41", "fault"))
        told("there is input before the failed scan", "event ErrorEvent 111 0 3", comes()[0])
        told("the code", ["event DataEvent 0", "ok 41", "ok 104"], comes())
        told("the failed scan", "event ErrorEvent 111 0 2", comes()[0])
        host.ask("there no")
        told("a code of one that is gone", "true", reads("104 373839"))
        told("it comes all the same", ["event DataEvent 0", "ok 373839", "ok 104"], comes())
        told("it is off", "offline 0", host.ask("state s1"))
        host.ask("there yes")
        told("one that is back", "true", reads("501 61"))
        told("its code", ["event DataEvent 0", "ok 61", "ok 501"], comes())
        told("a type that there isn't", "KIJ_BAD_INPUT", reads("1000 62", "501 63"))
        told("the next code", ["true", ["event DataEvent 0", "ok 63", "ok 501"]], [host.ask("run 10"), comes()])


def try_offline_reasons():
    """A call that is refused since the printer is off says why the port isn't open. If it is open, it says nothing of
    what it had before."""
    with contextlib.ExitStack() as stack:
        device = stack.enter_context(Printer(cable("usb stays")))
        host, link = Host(stack), CHECKS.work / "printer-that-comes"
        told("a printer that isn't there", "ok", host.ask(f"printer r1 {link} timeout {TIMEOUT} pause 10 lines 1000"))
        reason = f"reason {TEXT.hex()}"
        told("it isn't there", "The printer is off: No such file or directory.", host.ask(reason))
        link.symlink_to(device.path)
        told("it is there", True, until(lambda: host.ask("run 10") and host.ask("state r1") == "online 0"))
        told("nothing is refused", "", host.ask(reason))
        device.pull_plug()
        told("it is off, and its port is open", True, until(
            lambda: host.ask("run 10") and host.ask("state r1") == "offline 0"))
        told("why it was off before", str(errno.ENOENT), host.ask("why r1"))
        told("that is no reason now", "The printer is off.", host.ask(reason))


def try_own_calls():
    """A driver of the host's own can't call the till. Its order is done."""
    with contextlib.ExitStack() as stack:
        host = Host(stack)
        told("it calls the till", "ok", host.ask("calls"))
        host.ask("own d2 1")
        host.lines("new d CashDrawer", "open d d2", "set d DeviceEnabled true")
        told("an order whose driver calls the till", ["ok", "KIJ_IN_CALL"],
             [host.line("call d openDrawer"), host.ask("did")])


def try_errands():
    """Lines that wait between lines that change the totals in a file."""
    path = CHECKS.work / "errands"
    with contextlib.ExitStack() as stack:
        device = stack.enter_context(Printer(cable()))
        host = Host(stack, PROFILE, path)
        told("the printer", "ok", host.ask(f"printer r1 {device.path} timeout {AMPLE} pause 10"))
        host.lines("new r POSPrinter", "open r r1", "claim r 0", "set r DeviceEnabled true", "new t HardTotals",
                   "open t t1", "set t DeviceEnabled true", "call t create 434f554e54 1 false")
        lines = ("call t write 1 0 05", "call r printNormal 2 410a", "call t write 1 0 06",
                 "call r printNormal 2 420a", "call t read 1 0 1")
        told("totals and orders", ["ok"] * 4 + ["ok 06"], host.lines(*lines))
        told("both are printed", 2, len(device.receipt()))
    with contextlib.ExitStack() as stack:
        host = Host(stack, PROFILE, path)
        host.lines("new t HardTotals", "open t t1", "set t DeviceEnabled true")
        told("the totals stay", "ok 06", host.line("call t read 1 0 1"))


def try_memory():
    """Want of memory at each allocation of an order in turn: what is answered ok is printed, and nothing is twice."""
    for kind, timeout in (("usb", 100), ("asked", 500)):
        run_out_of_memory(kind, timeout)


def run_out_of_memory(kind, timeout):
    """The same over a cable, with the milliseconds that a printer has to acknowledge a line."""
    name = f"want of memory over {kind}"
    with contextlib.ExitStack() as stack:
        host = Host(stack)
        if host.ask("memory 0") != "ok":
            return
        device = stack.enter_context(Printer(cable(kind), lines=100_000, is_simple=kind == "asked"))
        host.ask(f"printer r1 {device.path} timeout {timeout} pause 10" + " asked" * (kind == "asked"))
        host.lines("new r POSPrinter", "open r r1", "claim r 0", "set r DeviceEnabled true")
        wanted, count, refused = [], 0, 0
        while count - refused < 20 and count < 500:
            count += 1
            line = b"Line %d " % count + b"x" * min(count, 25)
            host.ask(f"memory {count}")
            answer = host.ask(f"lines call r printNormal 2 {line.hex()}0a")
            host.ask("memory 0")
            refused = count if answer != "ok;" else refused
            # What has no answer was carried out.
            end = time.monotonic() + PATIENCE
            while answer not in ("ok;", "KIJ_NO_ANSWER") and time.monotonic() < end:
                host.ask("run 0")
                answer = host.ask(f"lines call r printNormal 2 {line.hex()}0a")
            wanted.append(line)
        told(f"{name} ends", True, 0 < refused < 480)
        told(f"{name}: the paper", wanted, [item.characters for item in device.receipt()])
        told(f"{name}: the till's paper", str(100_000 - len(wanted)), host.line("show r1").split()[2])
        told(f"{name}: nothing is held", "ok", host.line("call r printNormal 2 410a"))
        print(f"{WORDS.name}: memory was refused over {kind} at up to {refused} allocations", flush=True)


def try_memory_while():
    """Want of memory for a while, which ends within the next order: each order is answered for itself."""
    with contextlib.ExitStack() as stack:
        host = Host(stack)
        if host.ask("memory 0") != "ok":
            return
        device = stack.enter_context(Printer(cable(), lines=100_000))
        host.ask(f"printer r1 {device.path} timeout 100 pause 10")
        host.lines("new r POSPrinter", "open r r1", "claim r 0", "set r DeviceEnabled true")
        wanted, found = [], []
        for first in range(1, 40):
            for count in range(1, 8):
                host.ask(f"memory {first} {count}")
                for letter in "AB":
                    line = f"{letter} {first} {count}".encode()
                    answer = host.ask(f"lines call r printNormal 2 {line.hex()}0a")
                    # One that failed may be printed all the same, if there was no memory for its acknowledgement.
                    if answer in ("ok;", "KIJ_NO_ANSWER"):
                        wanted.append(line)
                        found.append(device.receipt()[-1].characters)
                host.ask("memory 0")
        told("want of memory for a while: some orders are done", True, len(wanted) > 100)
        told("want of memory for a while: what was printed last", wanted, found)


def try_memory_lines():
    """Want of memory at each allocation of a text with two orders in turn: if nothing is said to be done, nothing
    is."""
    with contextlib.ExitStack() as stack:
        host = Host(stack)
        if host.ask("memory 0") != "ok":
            return
        device = stack.enter_context(Printer(cable(), lines=100_000))
        host.ask(f"printer r1 {device.path} timeout 100 pause 10")
        host.lines("new r POSPrinter", "open r r1", "claim r 0", "set r DeviceEnabled true")
        printed, refused = [], 0
        for number in range(1, 60):
            host.ask(f"memory {number} 1")
            before = len(device.receipt())
            orders = [f"call r printNormal 2 {(b'%c%d' % (letter, number)).hex()}0a" for letter in b"AB"]
            answer = host.ask("lines " + ";".join(orders))
            host.ask("memory 0")
            if answer == "KIJ_NO_MEMORY":
                refused += 1
                printed += [number] if len(device.receipt()) > before else []
        told("want of memory for two orders: some are refused", True, refused > 0)
        told("want of memory for two orders: what was refused and printed", [], printed)


def try_memory_own():
    """Want of memory at each allocation of an order of a driver in turn: it isn't given to the host in place of one of
    a hosted device."""
    with contextlib.ExitStack() as stack:
        host = Host(stack)
        if host.ask("memory 0") != "ok" or host.ask("own d2 1000") != "ok":
            return
        host.lines("new d CashDrawer", "open d d2", "set d DeviceEnabled true")
        answers, orders = [], []
        for number in range(1, 30):
            host.ask(f"memory {number} 1")
            answers.append(host.ask("lines call d openDrawer"))
            host.ask("memory 0")
            orders.append(host.ask("order"))
        told("want of memory for an order of a driver", True, {"ok;", "KIJ_NO_MEMORY"} <= set(answers))
        told("want of memory: orders that aren't the host's", ["none"] * 29, orders)
        opened = []
        for number in range(1, 15):
            host.ask(f"says {('closed', 'open')[number % 2]}")
            host.ask(f"memory {number}")
            host.ask("run 0")
            host.ask("memory 0")
            host.ask("run 0")
            opened.append(host.line("get d DrawerOpened"))
        told("want of memory: what a driver says", ["ok true", "ok false"] * 7, opened)


def try_memory_own_reports():
    """Want of memory at each allocation of what a driver says in turn, which says something else behind an order that
    isn't done: the till knows both in their order."""
    with contextlib.ExitStack() as stack:
        host = Host(stack)
        if host.ask("memory 0") != "ok":
            return
        host.ask("own d2 0")
        host.lines("new d CashDrawer", "open d d2", "set d DeviceEnabled true")
        opened = []
        for number in range(1, 30):
            host.ask("says open")
            host.ask(f"memory {number}")
            host.ask("run 0")
            host.ask("memory 0")
            host.ask("says closed")
            host.line("call d openDrawer")
            host.ask("run 0")
            opened.append(host.line("get d DrawerOpened"))
        told("want of memory: what a driver says before a report", ["ok false"] * 29, opened)


def try_memory_own_texts():
    """Want of memory at each allocation of what a driver of the host's own says, first of which can't be: the till
    knows the last of it."""
    with contextlib.ExitStack() as stack:
        host = Host(stack)
        if host.ask("memory 0") != "ok":
            return
        host.ask("own r1 0 printer")
        wanted, papers, answers = [], [], set()
        for number in range(1, 20):
            for count in ("", " 1", " 2"):
                host.ask(f"says open;cover open;paper {number + 100}")
                host.ask(f"memory {number}{count}")
                answers.add(host.ask("run 0"))
                host.ask("memory 0")
                answers.add(host.ask("run 0"))
                wanted.append(str(number + 100))
                papers.append(host.line("show r1").split()[2])
        told("want of memory: answers", True, {"KIJ_NO_MEMORY", "KIJ_BAD_INPUT"} <= answers)
        told("want of memory: the last that a driver says", wanted, papers)


def try_memory_own_scans():
    """Want of memory at each allocation of a code of a driver of the host's own in turn: each comes once."""
    with contextlib.ExitStack() as stack:
        host = Host(stack)
        if host.ask("memory 0") != "ok":
            return
        host.ask("own s1 0 scanner")
        host.lines("new s Scanner", "open s s1", "claim s 0", "set s DeviceEnabled true", "set s DecodeData true")
        wanted, found = [], []
        for number in range(1, 20):
            host.ask(f"reads 104 {number:02x}")
            host.ask(f"memory {number}")
            host.ask("run 0")
            host.ask("memory 0")
            host.ask("run 0")
            host.line("set s DataEventEnabled true")
            wanted.append(("event DataEvent 0", f"ok {number:02x}", "none"))
            event, label = host.lines("deliver s", "get s ScanDataLabel")
            host.line("set s DataEventEnabled true")
            found.append((event, label, host.line("deliver s")))
        told("want of memory: codes of a driver", wanted, found)


def try_memory_scans():
    """Want of memory at each allocation of a scan in turn: each code comes once, and each failed scan."""
    for opened in ("no other driver", "own d2 0"):
        with contextlib.ExitStack() as stack:
            device = stack.enter_context(Scanner(cable()))
            host = Host(stack)
            if host.ask("memory 0") != "ok":
                return
            host.ask(opened)
            host.ask(f"scanner s1 {device.path} pause 10")
            host.lines("new s Scanner", "open s s1", "claim s 0", "set s DeviceEnabled true",
                       "set s DataEventEnabled true")

            def comes(data, number):
                """What comes of a scan for which memory is refused at first."""
                device.garbage(data)
                device.wait(lambda: not device._sends)
                host.ask(f"memory {number}")
                host.ask("run 10")
                host.ask("memory 0")
                events = []

                def is_any():
                    host.ask("run 10")
                    events.append(host.line("deliver s"))
                    return events[-1] != "none"
                until(is_any, 2)
                host.line("set s DataEventEnabled true")
                return host.line("get s ScanData")[3:] if events[-1] == "event DataEvent 0" else events[-1]
            numbers = range(1, 16)
            told(f"want of memory, {opened}: scans", [(b"%d" % number).hex() for number in numbers],
                 [comes(b"%d\r" % number, number) for number in numbers])
            told(f"want of memory, {opened}: failed scans", ["event ErrorEvent 111 0 2"] * 15,
                 [comes(b"x" * 5000 + b"\r", number) for number in numbers])
            told(f"want of memory, {opened}: nothing else", "none", host.line("deliver s"))


def try_memory_inputs():
    """Want of memory at each allocation of what happens at a printer in turn: the till knows all of it in the end."""
    papers, powers, refused = [], [], 0
    for number in range(1, 40):
        with contextlib.ExitStack() as stack:
            device = stack.enter_context(Printer(cable()))
            host = Host(stack)
            opened = f"printer r1 {device.path} timeout {TIMEOUT} pause 10 lines 900"
            if host.ask(f"memory {number}") != "ok":
                return
            is_refused = host.ask(opened) != "ok"
            host.ask("memory 0")
            refused += is_refused and host.ask(opened) == "ok"
            papers.append(until(lambda: host.ask("run 10") and host.line("show r1").split()[2] == "900", 3))
            host.lines("new r POSPrinter", "open r r1", "claim r 0", "set r DeviceEnabled true")
            device.pull_plug()
            host.ask(f"memory {number}")
            host.ask("lines call r printNormal 2 410a")
            host.ask("memory 0")
            host.ask("run 10")
            powers.append(host.line("call r printNormal 2 410a"))
    told("want of memory: it may be refused", True, 0 < refused < 39)
    told("want of memory: the paper of the sensors", [True] * 39, papers)
    told("want of memory: the printer is off", ["err 108"] * 39, powers)


SPARE = """
[[spare]]
category = "POSPrinter"
chars = 42
lines = 1000
near = 20
"""


def try_stays():
    """A port that stays while its printer is off, as a print server's: what was lost then isn't told as printed."""
    for kind in ("stays", "stays asked"):
        with contextlib.ExitStack() as stack:
            shop = Shop(stack, kind)
            shop.device.pull_plug()
            told(f"an order of a printer that is off, {kind}", "err 111", shop.print(b"First\n"))
            shop.device.plug_in()
            told(f"it is on, {kind}", True, shop.settle())
            told(f"the order again, {kind}", True, until(lambda: shop.print(b"First\n") == "ok"))
            told(f"its paper, {kind}", [("left", b"First")], shop.paper())
            shop.device.after(30, shop.device.pull_plug)
            told(f"an order midway, {kind}", "err 111", shop.print(TEXT))
            shop.device.plug_in()
            told(f"it is on again, {kind}", True, shop.settle())
            told(f"the rest, {kind}", True, until(lambda: shop.print(TEXT) == "ok"))
            told(f"the whole paper, {kind}", [("left", b"First"), *PRINTED], shop.paper())
            told(f"another order, {kind}", "ok", shop.print(b"Last\n"))
            shop.device.cover(True)
            told(f"it says its status again, {kind}", True,
                 until(lambda: shop.host.ask("run 10") and shop.host.line("get r CoverOpen") == "ok true"))


def try_unheard():
    """A network printer that says nothing any more is connected to again, unless something is due."""
    with contextlib.ExitStack() as stack:
        shop = Shop(stack, "tcp")
        told("an order over a network", "ok", shop.print(b"First\n"))
        before = shop.device.cable._host
        shop.device.hang()
        told("it is off", True, until(lambda: shop.host.ask("run 10") and shop.host.ask("state r1") == "offline 0"))
        told("it is connected to again", True,
             until(lambda: shop.host.ask("run 10") and shop.device.cable._host not in (before, None)))
        shop.device.hang(False)
        told("it is back", True, shop.settle())
        told("another order over a network", "ok", shop.print(b"Last\n"))
        told("the paper over a network", [("left", b"First"), ("left", b"Last")], shop.paper())


def try_switched():
    """A serial printer that is switched off and on: it isn't told as off later, and its status is what it is then."""

    def is_open(wanted):
        """Whether the cover is told as open in time."""
        return until(lambda: shop.host.ask("run 10") and shop.host.line("get r CoverOpen") == wanted, 15)
    with contextlib.ExitStack() as stack:
        shop = Shop(stack, "serial", timeout=2000)
        shop.device.cover(True)
        told("the cover is open", True, is_open("ok true"))
        shop.host.ask("run 100")
        shop.device.pull_plug()
        shop.device.cover(False)
        # What is asked meanwhile is lost.
        shop.host.ask("run 100")
        shop.device.plug_in()
        told("it is closed", True, is_open("ok false"))
        told("an order then", "ok", shop.print(b"Once\n"))
    with contextlib.ExitStack() as stack:
        shop = Shop(stack, "serial", timeout=2000)
        until(lambda: shop.host.ask("run 100") == "false")
        shop.device.pull_plug()
        shop.device.plug_in()
        end = time.monotonic() + 3
        until(lambda: shop.host.ask("run 100") and time.monotonic() > end)
        shop.device.cover(True)
        told("a cover is told of later", True, is_open("ok true"))
    with contextlib.ExitStack() as stack:
        shop = Shop(stack, "serial")
        shop.device.pull_plug()
        told("an order while it is off", "err 111", shop.print(b"Once\n"))
        shop.device.plug_in()
        time.sleep(2 * TIMEOUT / 1000)
        told("nothing has happened", "false", shop.host.ask("run 300"))
        told("the order again", "ok", shop.print(b"Once\n"))
        told("the paper", [("left", b"Once")], shop.paper())


def try_exchange():
    """A printer and a drawer whose devices are detached and attached again."""
    with contextlib.ExitStack() as stack:
        device = stack.enter_context(Printer(cable()))
        host = Host(stack, PROFILE + 3 * SPARE)
        begun = ["new r POSPrinter", "open r r1", "claim r 0", "set r DeviceEnabled true"]
        told("a printer and a drawer", "ok", host.ask(f"printer r1 {device.path} drawer d1 timeout {AMPLE} pause 10"))
        told("the drawer is enabled", ["ok"] * 3,
             host.lines("new d CashDrawer", "open d d1", "set d DeviceEnabled true"))
        told("the drawer is opened", "ok", host.line("call d openDrawer"))
        told("the printer is detached", "ok", host.line("detach r1"))
        told("the drawer is opened again", "ok", host.line("call d openDrawer"))
        told("by the printer", 2, len(device.pulses))
        host.ask("run 100")
        told("both are there", ["online 0"] * 2, [host.ask("state r1"), host.ask("state d1")])
        told("a spare is attached", "ok", host.line("attach r1 1"))
        told("it is enabled", ["ok"] * 4, host.lines(*begun))
        told("its order", "ok", host.line("call r printNormal 2 410a"))
        told("it is printed", 1, len(device.receipt()))
        told("another spare is attached", ["ok"] * 3, host.lines("close r", "detach r1", "attach r1 2"))
        told("that is enabled", ["ok"] * 3, host.lines(*begun[1:]))
        told("its order too", "ok", host.line("call r printNormal 2 420a"))
        told("that is printed too", 2, len(device.receipt()))
        told("an order of one that is attached by the same lines", ["ok"] * 7,
             host.lines("close r", "detach r1", "attach r1 3", *begun[1:], "call r printNormal 2 430a"))
        told("that is printed as well", 3, len(device.receipt()))
        device.cover(True)
        told("its cover is open", True,
             until(lambda: host.ask("run 10") and host.line("get r CoverOpen") == "ok true"))


def try_detached_codes():
    """A code of a device that is detached is lost, and nothing else is."""
    with contextlib.ExitStack() as stack:
        device = stack.enter_context(Scanner(cable()))
        shop = Shop(stack, timeout=AMPLE)
        told("another device", "ok", shop.host.ask(f"scanner s1 {device.path} pause 10"))
        told("it is detached", "ok", shop.host.line("detach s1"))
        told("output waits", ["ok", "ok"], shop.host.lines("set r AsyncMode true", "call r printNormal 2 410a"))
        device.scan(b"4006381333931")
        time.sleep(0.1)
        told("the devices run", "true", shop.host.ask("run 10"))
        told("the output is printed", 1, len(shop.device.receipt()))


def try_refused_output():
    """Output that is refused again and again leaves time for other things."""
    with contextlib.ExitStack() as stack:
        shop, events, runs = Shop(stack), [], 0
        told("accepted", ["ok", "ok"],
             shop.host.lines("set r AsyncMode true", f"call r printNormal 2 {TEXT.hex()}"))
        shop.device.after(30, lambda: shop.device.cover(True))
        end = time.monotonic() + 2
        while time.monotonic() < end:
            shop.host.ask("run 100")
            events += events_of(shop.host)
            runs += 1
        told("some tries, and not many", True, 2 <= len(events) <= 21)
        told("no more runs than a few", True, runs <= 45)
        shop.device.cover(False)
        told("a try is complete", True,
             until(lambda: shop.host.ask("run 10") and "event OutputCompleteEvent 1" in events_of(shop.host)))
        told("the paper", PRINTED, shop.paper())


def try_roll():
    """A roll whose lines are counted down while the printer still sees enough paper."""
    with contextlib.ExitStack() as stack:
        shop = Shop(stack, lines=100_000, timeout=AMPLE)
        text = b"".join(b"Line %d\n" % number for number in range(60))
        answers = [shop.print(text) for _ in range(40)]
        told("receipts on a long roll", ["ok"] * 40, answers)
        told("their paper", 2400, len(shop.paper()))
        told("no event of the paper", ["ok false", "none"],
             shop.host.lines("get r RecNearEnd", "deliver r"))


def try_near_end():
    """A roll whose near end is early: the lines are counted down to that, and begin again before it."""
    with contextlib.ExitStack() as stack:
        device = stack.enter_context(Printer(cable()))
        host = Host(stack, PROFILE.replace("near = 20", "near = 500"))
        told("a printer", "ok", host.ask(f"printer r1 {device.path} timeout {AMPLE} pause 10 lines 1000"))
        host.lines("new r POSPrinter", "open r r1", "claim r 0", "set r DeviceEnabled true")
        told("more lines than until the near end", ["ok"] * 12,
             [host.line("call r printNormal 2 " + "410a" * 60) for _ in range(12)])
        told("no event of the paper", ["ok false", "none"], host.lines("get r RecNearEnd", "deliver r"))


def try_keys():
    """The keys of a keypad, a separator, a key that is held down, and keys that have no character."""

    def events(*keys):
        """The events of keys: each is pressed and let go, or what comes is given by a pair."""
        pairs = [pair for key in keys for pair in ([key] if isinstance(key, tuple) else [(key, 1), (key, 0)])]
        return b"".join(struct.pack("@llHHi", 0, 0, 1, *pair) for pair in [*pairs, (28, 1), (28, 0)])
    with contextlib.ExitStack() as stack:
        device = stack.enter_context(Scanner(cable()))
        host = Host(stack)
        told("opened for keys", "ok", host.ask(f"scanner s1 {device.path} keys pause 10"))
        host.lines("new s Scanner", "open s s1", "claim s 0", "set s DeviceEnabled true")

        def comes(name, wanted, *keys):
            device.garbage(events(*keys))
            told(f"{name} comes", True, until(lambda: host.ask("run 10") == "true"))
            event = host.lines("set s DataEventEnabled true", "deliver s")[1]
            told(name, wanted, host.line("get s ScanData") if event == "event DataEvent 0" else event)
        comes("a keypad", "ok " + b"789-456+1230".hex(), *range(71, 83))
        comes("a keypad behind Num Lock", "ok 3132", 69, 79, 80, 69)
        comes("a separator", "ok 301d31", 11, (29, 1), 27, (29, 0), 2)
        comes("a separator by the other key", "ok 301d31", 11, (97, 1), 27, (97, 0), 2)
        comes("a key that is held", "ok 313232", 2, (3, 1), (3, 2), (3, 2), (3, 0), 3)
        comes("a key without a character", "event ErrorEvent 111 0 2", 2, 59, 3)
        comes("a code after it", "ok 3132", 2, 3)
        comes("another control", "event ErrorEvent 111 0 2", (29, 1), 30, (29, 0))
        comes("a separator with Shift", "event ErrorEvent 111 0 2", (42, 1), (29, 1), 27, (29, 0), (42, 0))
        comes("Enter that is held", "ok 33", 4, (28, 1), (28, 2), (28, 0))


def try_keyboard_link():
    """A link to a keyboard is one, also if it leads there only after the scanner is opened."""
    if WORDS.preloaded is None:
        return
    for is_late in (False, True):
        name = "a link that leads to a keyboard later" if is_late else "a link to a keyboard"
        with contextlib.ExitStack() as stack:
            scanner = stack.enter_context(Scanner(cable()))
            if is_late:
                scanner.pull_plug()
            host = Host(stack, LD_PRELOAD=WORDS.preloaded, KEYBOARD=str(scanner.path))
            told(f"{name}: the scanner", "ok", host.ask(f"scanner s1 {scanner.path} pause 10"))
            host.lines("new s Scanner", "open s s1", "claim s 0", "set s DeviceEnabled true")
            if is_late:
                told(f"{name}: it is off", "offline 0", host.ask("state s1"))
                scanner.plug_in()
            told(f"{name}: it is on", True, until(lambda: host.ask("run 10") and host.ask("state s1") == "online 0"))
            scanner.types(b"4006381")
            told(f"{name}: a code", [b"4006381"], scanned(host, 1))


def try_silent_host():
    """A host that doesn't answer keeps no other device waiting, and is found once it does."""
    with contextlib.ExitStack() as stack:
        silent, host = stack.enter_context(SilentHost()), Host(stack)
        told("a display", "ok", host.ask(f"display p1 {silent.path} timeout 10 pause 0"))
        began = time.monotonic()
        for _ in range(200):
            host.ask("run 0")
        # If each waited for the host, these would take 50 seconds.
        told("it keeps no other device waiting", True, time.monotonic() - began < 10)
        told("it isn't there", "offline 0", host.ask("state p1"))
        silent.answers()
        told("it is found", True, until(lambda: host.ask("run 0") and host.ask("state p1") == "online 0"))
    with contextlib.ExitStack() as stack:
        silent, host = stack.enter_context(SilentHost()), Host(stack)
        # The system asks again after a second.
        answering = threading.Timer(0.2, silent.answers)
        answering.start()
        told("a scanner whose host answers late is there at first", ["ok", "online 0"],
             [host.ask(f"scanner s1 {silent.path}"), host.ask("state s1")])
        answering.join()


# ---- random faults

# The kinds of printers, and what they must not meet: answers that are asked for have no number.
KINDS = {"usb": (), "tcp": (), "serial": (), "usb stays": (), "tcp stays": (), "asked": ("garbage",),
         "asked serial": ("garbage",), "asked stays": ("garbage",)}


def random_troubles(device, chance, unless):
    """One trouble, or two: the name of each, what it does, and what ends it."""
    noise = bytes(chance.randrange(256) for _ in range(chance.randrange(1, 20)))
    troubles = {
        "none": (lambda: None, lambda: None),
        "cover": (lambda: device.cover(True), lambda: device.cover(False)),
        "paper": (lambda: device.load(chance.choice([0, 1])), lambda: device.load(100_000)),
        "plug": (device.pull_plug, device.plug_in),
        "silence": (device.hang, lambda: device.hang(False)),
        "lost answers": (device.mute, lambda: device.mute(False)),
        "garbage": (lambda: device.garbage(noise), lambda: None),
        "slow": (lambda: device.slow(chance.choice([0.01, 0.3])), lambda: device.slow(0)),
        "jam": (lambda: device.breaks(True), lambda: device.breaks(False)),
    }
    names = [name for name in troubles if name not in unless]
    return {name: troubles[name] for name in chance.sample(names, chance.choice([1, 1, 2]))}


def end_troubles(device, troubles):
    """Ends troubles. None begins any more."""
    device.clear_triggers()
    for _, undo in troubles.values():
        undo()


def random_round(shop, chance, number, unless):
    """An order, trouble during it, and retries until it is printed. Returns the order's lines and the troubles."""
    device = shop.device
    lines = [b"%06d of %d" % (number, place) for place in range(chance.randrange(1, 5))]
    text = b"".join(b"\x1b|%bA%b\n" % (chance.choice([b"c", b"r"]), line) for line in lines)
    troubles = random_troubles(device, chance, unless)
    device.clear_triggers()
    for deed, _ in troubles.values():
        device.after(chance.randrange(1, 40 * len(lines)), deed)
    is_printed = shop.print(text) == "ok"
    left, end = chance.randrange(3), time.monotonic() + PATIENCE
    while not is_printed:
        if left == 0:
            end_troubles(device, troubles)
        left -= 1
        shop.host.ask("run 10")
        is_printed = shop.print(text) == "ok"
        if time.monotonic() > end:
            told(f"round {number}: {', '.join(troubles)} ends", True, False)
            break
    end_troubles(device, troubles)
    told(f"round {number}: {', '.join(troubles)}", True, shop.settle())
    return lines, troubles


def try_random():
    """Random trouble: each order that was answered ok is on the paper once, in order, and nothing else is. Only from a
    line on whose acknowledgement was lost, what was sent is there once more."""
    for kind, unless in KINDS.items():
        chance, counts, wanted = random.Random(f"{WORDS.seed} {kind}"), {}, []
        with contextlib.ExitStack() as stack:
            shop = Shop(stack, kind, lines=100_000)
            for number in range(WORDS.faults // len(KINDS)):
                lines, troubles = random_round(shop, chance, number, unless)
                wanted += lines
                counts |= {name: counts.get(name, 0) + 1 for name in troubles}
            shop.device.wait(lambda: shop.device.is_idle)
            found = [item.characters for item in shop.device.receipt()]
            strange = first_strange(found, shop.device.runs, wanted)
            told(f"random faults over {kind}: the paper", None,
                 strange and (strange, found[max(strange - 4, 0):strange + 4]))
            told(f"random faults over {kind}: no late order", "0", shop.late())
            print(f"{WORDS.name}, {WORDS.faults // len(KINDS)} random faults over {kind}: {counts}", flush=True)


def try_random_held():
    """Random trouble at a printer whose line holds back what it doesn't take: each order that was answered ok is whole
    on the paper. What nobody knows of may be there twice."""
    for kind, unless in (("holds", ()), ("asked holds", ("garbage",)), ("holds adapter", ()),
                         ("asked holds adapter", ("garbage",))):
        chance, counts, wanted = random.Random(f"{WORDS.seed} {kind}"), {}, []
        with contextlib.ExitStack() as stack:
            shop = Shop(stack, kind, lines=100_000)
            shop.device.ROOM = 8
            for number in range(WORDS.faults // len(KINDS)):
                lines, troubles = random_round(shop, chance, number, unless)
                wanted += lines
                counts |= {name: counts.get(name, 0) + 1 for name in troubles}
            shop.device.wait(lambda: shop.device.is_idle)
            found = {item.characters for item in shop.device.receipt()}
            told(f"random faults over {kind}: no line is missing", [], [line for line in wanted if line not in found])
            print(f"{WORDS.name}, {WORDS.faults // len(KINDS)} random faults over {kind}: {counts}", flush=True)


def main():
    for name, one in list(globals().items()):
        if name.startswith("try_") and WORDS.only in name:
            CHECKS.run(one)
    CHECKS.end()


if __name__ == "__main__":
    reader = argparse.ArgumentParser(description=__doc__, formatter_class=argparse.RawDescriptionHelpFormatter)
    reader.add_argument("name")
    reader.add_argument("host")
    reader.add_argument("--faults", type=int, default=100)
    reader.add_argument("--seed", type=int, default=1)
    reader.add_argument("--only", default="")
    reader.add_argument("--slack", type=float, default=1.5)
    reader.add_argument("--preloaded")
    WORDS = reader.parse_args()
    main()
