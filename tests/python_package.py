"""Tries the Python package over the library: the console's scripts by typed calls, and what no script says.

Usage: python_package.py LIBRARY PROGRAM. PROGRAM is pos_console, which moves a disk to layout 2. The last line is
'N passed, M failed'.
"""
import builtins
import collections.abc
import contextlib
import copy
import ctypes
import dataclasses
import errno
import fcntl
import gc
import importlib
import inspect
import os
import pathlib
import pickle
import re
import shutil
import signal
import subprocess
import sys
import tempfile
import threading
import time
import warnings
import weakref
from unittest import mock

import typed
from typed import PARTS, TOP

import kijolvar
from kijolvar import (E_EXTENDED, EL_INPUT, EL_INPUT_DATA, EL_OUTPUT, ER_CLEAR, ER_CONTINUEINPUT, ER_RETRY,
                      KIJOLVAR_DISK_LENGTH, KIJOLVAR_ERRANDS, PN_ENABLED, PTR_S_RECEIPT, S_BUSY, S_CLOSED, S_ERROR, S_IDLE)

SCRIPTS = TOP / "tests/scripts"
LIBRARY, PROGRAM = (os.path.abspath(word) for word in sys.argv[1:3])
WORK = pathlib.Path(tempfile.mkdtemp())
REASONS = {"a line of a wrong shape", "an unknown control", "a property of another category",
           "a method of another category", "a property that can't be set", "a value of another type"}
passed = failed = 0


def told(name, wanted, found):
    """Whether two values are the same."""
    global passed, failed
    if wanted == found:
        passed += 1
    else:
        failed += 1
        print(f"failed: {name}\n  wanted: {wanted!r}\n  found:  {found!r}")


def raised(call, *words, **named):
    """The exception that a call raises, or None."""
    try:
        call(*words, **named)
    except Exception as fault:
        return fault
    return None


def name_of(call, *words, **named):
    """The name of the class of what a call raises, or what it returns."""
    fault = raised(call, *words, **named)
    return None if fault is None else type(fault).__name__


def late(*_):
    raise InterruptedError("it takes too long")


def in_time(call, *words):
    """What a call raises. One that takes too long is interrupted."""
    before = signal.signal(signal.SIGALRM, late)
    signal.alarm(120)
    try:
        return raised(call, *words)
    finally:
        signal.alarm(0)
        signal.signal(signal.SIGALRM, before)


def opened(profile=None, totals=None, **named):
    return kijolvar.open(profile, totals, library=LIBRARY, **named)


# ---- scripts

def places(text):
    """Places and the bytes from there on, of a file of disks; HEX*N stands for HEX N times."""
    for line in text.splitlines():
        if line.strip() and not line.startswith("#"):
            place, *words = line.split()
            parts = (word.partition("*") for word in words)
            yield int(place), b"".join(bytes.fromhex(digits) * int(times or 1) for digits, _, times in parts)


def paragraphs(text):
    return [part for part in re.split(r"\n\s*\n", text) if any(True for _ in places(part))]


def lay_disk(path, text):
    """A file with these bytes at their places among zero bytes."""
    disk = bytearray(KIJOLVAR_DISK_LENGTH)
    for place, found in places(text):
        disk[place:place + len(found)] = found
    path.write_bytes(disk)


def beside(script, ending):
    path = script.with_name(f"{script.name}.{ending}")
    return path if path.exists() else None


def left_wrong(path, text):
    """The places where a file has other bytes than it has to have."""
    disk = path.read_bytes()
    return [place for place, found in places(text) if disk[place:place + len(found)] != found]


def run_before(script, profile, disk):
    """Runs the script that is run before, and moves its disk to layout 2."""
    before = beside(script, "before")
    if before is not None:
        with opened(profile, disk) as till:
            typed.run_script(till, before.read_bytes())
        subprocess.run([PROGRAM, "migrate", "--disk", disk], check=True)


def run_over(name, script, profile, disk, counted):
    """Runs a script over a profile and a file of totals, or totals in memory."""
    if disk is not None:
        run_before(script, profile, disk)
    with opened(profile, disk) as till:
        runner, text = typed.run_script(till, script.read_bytes())
    counted["typed"] += runner.typed
    counted.update(runner.untyped)
    wanted = beside(script, "stdout").read_bytes().split(b"\n")
    wrong = [(a, b) for a, b in zip(wanted, text.split(b"\n")) if a != b][:3]
    told(f"{name} by typed calls", ([], len(wanted)), (wrong, text.count(b"\n") + 1))
    left = beside(script, "left")
    if left is not None:
        told(f"what {name} leaves", [], left_wrong(disk, left.read_text()))


def try_scripts():
    counted = collections.Counter()
    scripts = sorted(path.with_suffix("") for path in SCRIPTS.glob("*.stdout"))
    told("there are scripts", True, len(scripts) >= 70)
    for script in scripts:
        profile, disks = beside(script, "profile"), beside(script, "disk")
        disk = WORK / "disk"
        disk.unlink(missing_ok=True)
        if profile is None:
            run_over(script.name, script, None, None, counted)
        elif disks is None:
            kijolvar.create_totals(disk, LIBRARY).close()
            run_over(script.name, script, profile, disk, counted)
        else:
            for number, text in enumerate(paragraphs(disks.read_text()), 1):
                lay_disk(disk, text)
                run_over(f"{script.name} over its paragraph {number}", script, profile, disk, counted)
    lines = counted.pop("typed")
    print(f"lines by typed calls: {lines}; by the text layer: {sum(counted.values())}")
    for reason, count in sorted(counted.items()):
        print(f"  {count} for {reason}")
    told("why a line goes through the text layer", REASONS, set(counted))
    told("most lines are typed", True, lines > 3 * sum(counted.values()))


# ---- threads, and tills that are closed

# What is said of the hardware behind the built-in profile.
HARDWARE = kijolvar.WireSettings(width=48, feed=3, lines=500)


def in_thread(call, *words):
    """What a call raises in another thread."""
    found = []
    thread = threading.Thread(target=lambda: found.append(raised(call, *words)))
    thread.start()
    thread.join()
    return found[0]


def try_threads():
    with opened() as till:
        drawer, device = till.drawer("d1"), till.device("d1")
        calls = {"a call": drawer.open_drawer, "a property": lambda: drawer.state,
                 "a line": lambda: till.carry_out("show d1"), "a device": device.show,
                 "events": lambda: list(till.events()), "listeners": till.deliver,
                 "a control": lambda: till.drawer("d1"), "hosting": lambda: till.host("d1"),
                 "orders": lambda: list(till.orders()), "an order's bytes": lambda: till.order_bytes(HARDWARE),
                 "a reply": lambda: till.replies("r1", HARDWARE, b""), "closing": till.close,
                 "a driver": lambda: till.drive("d1", kijolvar.Driver()), "the devices' loop": till.run_devices}
        for name, call in calls.items():
            fault = in_thread(call)
            told(f"{name} in a second thread", "ThreadError", type(fault).__name__)
            told(f"{name} in a second thread says why", True, "only in the thread that opened it" in str(fault))
        told("repr in a second thread", None, in_thread(repr, drawer))
        drawer.open_drawer()
        told("the till goes on in its own thread", True, drawer.drawer_opened)
    found = []

    def whole():
        with opened() as till:
            till.drawer("d1").open_drawer()
            found.append(till.device("d1").show().is_open)
    threads = [threading.Thread(target=whole) for _ in range(4)]
    for thread in threads:
        thread.start()
    for thread in threads:
        thread.join()
    told("tills in threads of their own", [True] * 4, found)


class Counted:
    """A library whose tills are counted, with the threads that have ended them."""

    def __init__(self):
        self.library, self.ended = kijolvar.load(LIBRARY), []
        close = self.library.kijolvar_close

        def closes(raw):
            self.ended.append(threading.get_ident())
            close(raw)
        self.library.kijolvar_close = closes


def collect():
    """Has Python look for what nothing refers to any more, in another thread. The name of that."""
    found = []
    thread = threading.Thread(target=lambda: found.append(threading.get_ident()) or gc.collect())
    thread.start()
    thread.join()
    return found[0]


def leaves(library, path, *drivers):
    """Opens a till that isn't closed, and to which nothing refers any more, but what the drivers do."""
    till = kijolvar.open(totals=path, library=library)
    till.drawer("d1").open_drawer()
    for device, driver in zip(("r1", "s1"), drivers):
        till.drive(device, driver)


def try_collected_elsewhere():
    """A till that isn't closed ends in the thread that finds out that nothing refers to it: its memory is freed, and
    its file of totals is. It is the same if its own thread has ended."""
    path, counted = WORK / "collected elsewhere", Counted()
    kijolvar.create_totals(path, LIBRARY).close()
    gc.collect()
    gc.disable()
    try:
        with warnings.catch_warnings(record=True) as caught:
            warnings.simplefilter("always", ResourceWarning)
            leaves(counted.library, path)
            told("it isn't ended yet", ([], "BlockingIOError"), (counted.ended, name_of(opened, totals=path)))
            told("it is ended in another thread", [collect()], counted.ended)
            told("its file is free", None, raised(lambda: opened(totals=path).close()))
            # Python may find the file first, and says then that it is unclosed, too.
            found = [warning for warning in caught if isinstance(warning.source, kijolvar.Till)]
            told("that is told", [f"unclosed till <kijolvar.Till: totals in {str(path)!r}, 0 controls>"],
                 [str(warning.message) for warning in found])
            till = found[0].source
            told("it is closed for who has it from the warning", (True, "TillClosedError", None),
                 (till.is_closed, name_of(till.drawer, "d1"), raised(till.close)))
            del till, found
            caught.clear()
            thread = threading.Thread(target=leaves, args=(counted.library, path))
            thread.start()
            thread.join()
            counted.ended.clear()
            gc.collect()
            told("one whose thread has ended", [threading.get_ident()], counted.ended)
            counted.ended.clear()
            drivers = [kijolvar.EscPosPrinter("/dev/null", timeout=0.01), kijolvar.WedgeScanner("/dev/null")]
            leaves(counted.library, None, *drivers)
            collect()
            told("one whose driver is in use goes on", ([], None), (counted.ended, raised(drivers[0].poll)))
            del drivers[0]
            told("it is ended after that", [collect()], counted.ended)
            told("a driver that doesn't need it goes on", None, raised(drivers[0].poll))
            drivers[0].close()
        counted.ended.clear()
        with warnings.catch_warnings(), mock.patch("sys.unraisablehook") as heard:
            warnings.simplefilter("error", ResourceWarning)
            leaves(counted.library, path)
            told("it is ended though the warning is an error", [collect()], counted.ended)
            told("which is told", {ResourceWarning}, {call.args[0].exc_type for call in heard.call_args_list})
        told("its file is free then", None, raised(lambda: opened(totals=path).close()))
    finally:
        gc.enable()
    counted.ended.clear()
    with mock.patch("kijolvar.till.Till", side_effect=KeyboardInterrupt):
        told("an interrupt as it is opened", "KeyboardInterrupt",
             interrupted(lambda: kijolvar.open(totals=path, library=counted.library)))
    told("it is ended, and its file is free", ([threading.get_ident()], None),
         (counted.ended, raised(lambda: opened(totals=path).close())))


# A thread has a till, to which nothing refers in a process that is forked: Python forgets what its other threads have,
# and looks for what nothing refers to before the package hears of it.
LOCAL = """
import gc, os, sys, threading
os.register_at_fork(after_in_child=gc.collect)
import kijolvar
local, is_open, is_over, ended = threading.local(), threading.Event(), threading.Event(), []
library = kijolvar.load()
close = library.kijolvar_close
def closes(raw):
    ended.append(raw)
    close(raw)
library.kijolvar_close = closes
def has_till():
    local.till = kijolvar.open(totals=sys.argv[1], library=library)
    is_open.set()
    is_over.wait()
    local.till.drawer("d1").open_drawer()
    local.till.close()
thread = threading.Thread(target=has_till)
thread.start()
is_open.wait()
child = os.fork()
if child == 0:
    os._exit(len(ended))
print(os.waitpid(child, 0)[1], flush=True)
sys.stdin.read()
is_over.set()
thread.join()
"""
# A thread that Python stops at its end, and that has a till and is within calls of it.
STOPPED = """
import sys, threading, kijolvar
is_open = threading.Event()
def works(local):
    local.till = kijolvar.open(totals=sys.argv[1])
    is_open.set()
    while True:
        local.till.carry_out("show d1\\n" * 1000)
threading.Thread(target=works, args=(threading.local(),), daemon=True).start()
is_open.wait()
"""


def try_collected_in_a_fork():
    """A till that a process which was forked collects stays as it is: the lock of its totals is that of the process
    that has it. So does one whose thread is stopped as Python ends."""
    path = WORK / "collected"
    kijolvar.create_totals(path, LIBRARY).close()
    paths = {**os.environ, "PYTHONPATH": str(TOP / "abi/python"), "KIJOLVAR_LIBRARY": LIBRARY}
    pipes = {"stdin": subprocess.PIPE, "stdout": subprocess.PIPE, "stderr": subprocess.STDOUT, "text": True}
    with subprocess.Popen([sys.executable, "-c", LOCAL, path], env=paths, **pipes) as process:
        told("a process was forked, and has ended no till", "0\n", process.stdout.readline())
        told("the totals are locked", "BlockingIOError", name_of(opened, totals=path))
        told("the till goes on, up to its end", "", process.communicate()[0])
    told("it ends well", (0, None), (process.returncode, raised(lambda: opened(totals=path).close())))
    for _ in range(5):
        ended = subprocess.run([sys.executable, "-W", "ignore", "-c", STOPPED, path], env=paths, capture_output=True)
        told("a thread that is stopped within a call", (0, b""), (ended.returncode, ended.stderr))


def try_fork():
    """A process that is forked can't use the till, and nothing that it does or has changes the till's."""
    path = WORK / "forked"
    said, says = os.pipe()
    waits, ends = os.pipe()
    with opened(totals=path, create=True) as till:
        drawer = till.drawer("d1")
        child = os.fork()
        if child == 0:
            try:
                os.close(ends)
                found = name_of(drawer.open_drawer), till.is_closed, str(raised(drawer.open_drawer)).split(":")[0]
                os.write(says, repr(found).encode())
                os.read(waits, 1)
                with till:
                    pass
                os._exit(name_of(till.close) is not None)
            finally:
                os._exit(2)
        os.close(says)
        why = "a till can be used only in the thread that opened it"
        told("a till in a forked process", repr(("ThreadError", True, why)), os.read(said, 1000).decode())
        drawer.open_drawer()
        told("the till goes on", (True, "BlockingIOError"), (drawer.drawer_opened, name_of(opened, totals=path)))
    told("its lock ends with it", None, raised(lambda: opened(totals=path).close()))
    for end in (ends, waits, said):
        os.close(end)
    told("it is closed there", 0, os.waitpid(child, 0)[1])
    waits, ends = os.pipe()
    with kijolvar.open_totals(path):
        child = os.fork()
        if child == 0:
            os.close(ends)
            os.read(waits, 1)
            os._exit(0)
    told("a file that a forked process may use stays locked", "BlockingIOError", name_of(opened, totals=path))
    os.close(ends)
    os.waitpid(child, 0)
    told("as long as it has it", None, raised(lambda: opened(totals=path).close()))
    os.close(waits)
    with contextlib.ExitStack() as stack:
        tills = [stack.enter_context(opened(totals=WORK / f"forked-{number}", create=True)) for number in range(3)]
        drawers = [till.drawer("d1") for till in tills]
        with mock.patch.object(type(tills[0]._session), "_leave", side_effect=OSError("the server is away")), \
                mock.patch("sys.unraisablehook"):
            child = os.fork()
            if child == 0:
                os._exit([name_of(drawer.open_drawer) for drawer in drawers] != ["ThreadError"] * 3)
        told("no till is a forked process's though their files can't be closed there", 0, os.waitpid(child, 0)[1])
    try_killed_till(path)


# A till that forks a process, and then waits for its end.
FORKS = """
import os, signal, sys, kijolvar
till = kijolvar.open(totals=sys.argv[1])
if os.fork() == 0:
    print("forked", flush=True)
    print(sys.stdin.read() + "ended", flush=True)
    os._exit(0)
signal.pause()
"""


def try_killed_till(path):
    """A process that was forked doesn't keep the totals of a till that was killed."""
    words = [sys.executable, "-c", FORKS, path]
    paths = {**os.environ, "PYTHONPATH": str(TOP / "abi/python"), "KIJOLVAR_LIBRARY": LIBRARY}
    with subprocess.Popen(words, stdin=subprocess.PIPE, stdout=subprocess.PIPE, text=True, env=paths) as till:
        told("a till forks", "forked\n", till.stdout.readline())
        told("it has its totals", "BlockingIOError", name_of(opened, totals=path))
        till.kill()
        till.wait()
        told("it was killed: its totals are free", None, raised(lambda: opened(totals=path).close()))
        till.stdin.close()
        told("the process has gone on until now", "ended\n", till.stdout.read())


ARGUMENTS = {"number": 0, "bytes": b"", "truth": False, "device": "d1"}
KINDS = {"d1": kijolvar.CashDrawer, "s1": kijolvar.Scanner, "p1": kijolvar.LineDisplay, "r1": kijolvar.Printer,
         "t1": kijolvar.Totals}


def uses(control):
    """Each typed use of a control: its methods and its properties, with the description's names."""
    category = next(part for part in PARTS if part.get("name") == control.category)
    for part in (PARTS[0], category):
        for method in part["methods"]:
            words = [ARGUMENTS[argument["type"]] for argument in method["arguments"]]
            yield method["snake"], lambda method=method, words=words: getattr(control, method["snake"])(*words)
        for about in part["properties"]:
            yield about["snake"], lambda about=about: getattr(control, about["snake"])
            if about["writable"]:
                value = ARGUMENTS[about["type"]]
                yield f"{about['snake']} =", lambda about=about, value=value: setattr(control, about["snake"], value)


def try_closed():
    till = opened()
    controls = [till.new_control(kind) for kind in KINDS.values()]
    count = 0
    for control in controls:
        told(f"a control that isn't open: {control!r}", S_CLOSED, control.state)
        for name, use in uses(control):
            if name not in ("state", "open"):
                count += 1
                told(f"{name} of a closed {control.category}", "ClosedError", name_of(use))
    for control, device in zip(controls, KINDS):
        control.open(device)
    totals, device = controls[-1], till.device("d1")
    totals.device_enabled = True
    totals.create("A", 4)
    file = totals["A"]
    till.close()
    told("the till is closed", True, till.is_closed)
    for control in controls:
        for name, use in uses(control):
            count += 1
            told(f"{name} of a {control.category} of a closed till", "TillClosedError", name_of(use))
    others = {"a file": file.read, "a file's claim": file.claim, "a device": device.show,
              "a line": lambda: till.carry_out("show d1"), "events": lambda: list(till.events()),
              "a control's events": lambda: list(controls[0].events()),
              "listeners": till.deliver, "a control": lambda: till.drawer("d1"), "hosting": lambda: till.host("d1"),
              "orders": lambda: list(till.orders()), "a transaction": lambda: totals.transaction().__enter__(),
              "an order's bytes": lambda: till.order_bytes(HARDWARE),
              "a reply": lambda: till.replies("r1", HARDWARE, b""),
              "a driver": lambda: till.drive("d1", kijolvar.Driver()), "the devices' loop": till.run_devices,
              "a file by name": lambda: totals["A"], "files": lambda: list(totals),
              "use": lambda: controls[1].in_use().__enter__()}
    for name, use in others.items():
        told(f"{name} of a closed till", "TillClosedError", name_of(use))
    told("a closed till says so", "the till is closed", str(raised(controls[0].open_drawer)))
    told("closing it again", None, raised(till.close))
    told("its repr", "<kijolvar.Till: closed>", repr(till))
    told("each use was tried", True, count > 150)


# ---- events

def scanner_in_error(till):
    """A scanner in the input error state, with two scans before the error: EL_INPUT_DATA is to be delivered."""
    scanner = till.scanner("s1")
    scanner.claim()
    scanner.device_enabled = scanner.data_event_enabled = scanner.decode_data = True
    for code in ("111", "222"):
        till.device("s1").scan(104, code, code)
    till.device("s1").scan_fault()
    return scanner


def printer_in_error(till):
    """A printer whose first request of two failed."""
    printer = till.printer("r1")
    printer.claim()
    printer.device_enabled = printer.async_mode = True
    printer.print("one\n")
    printer.print("two\n")
    till.device("r1").cover(is_open=True)
    till.device("r1").work()
    till.device("r1").cover(is_open=False)
    return printer


def plain(event):
    return None if event is None else dataclasses.astuple(dataclasses.replace(event, control=None))


def seen_of_input(till, scanner):
    """What is to be seen of a scanner: its state, its events, and what they show."""
    found = [scanner.state, scanner.data_count]
    while (event := scanner.next_event()) is not None:
        found += [type(event).__name__, plain(event), scanner.scan_data, scanner.data_count]
        scanner.data_event_enabled = True
    return [*found, scanner.state]


def seen_of_output(till, printer):
    """What is to be seen of a printer: its state, its events, and what it prints."""
    found = [printer.state]
    while (work := till.device("r1").work()) is not None:
        found.append(work)
    return [*found, [plain(event) for event in printer.events()], till.device("r1").show(), printer.state]


def by_word(control, reply):
    """Delivers events up to the first ErrorEvent, with the reply handed in."""
    return next(event for event in iter(lambda: control.next_event(reply), None)
                if isinstance(event, kijolvar.ErrorEvent))


def by_listener(control, reply):
    """Likewise, with the reply as what the listener returns."""
    heard = []

    @control.listen
    def listener(event):
        if isinstance(event, kijolvar.ErrorEvent):
            heard.append(event)
            control.listen(None)
            return reply
        return None
    control.till.deliver()
    return heard[0]


def by_call(control, reply):
    """Likewise, with the reply to the event that an iterator has given."""
    for event in control.till.events():
        if isinstance(event, kijolvar.ErrorEvent):
            if reply is not None:
                event.reply(reply)
            return event


def at_last_input(till):
    """A scanner in the input error state, which holds no scan any more: EL_INPUT is to be delivered."""
    scanner = scanner_in_error(till)
    for _ in range(3):
        scanner.next_event()
        scanner.data_event_enabled = True
    return scanner


def try_replies():
    cases = {EL_INPUT_DATA: (scanner_in_error, seen_of_input), EL_INPUT: (at_last_input, seen_of_input),
             EL_OUTPUT: (printer_in_error, seen_of_output)}
    for locus, (begin, see) in cases.items():
        seen = {}
        for reply in (None, ER_RETRY, ER_CONTINUEINPUT, ER_CLEAR, "clear"):
            found = []
            for way in (by_word, by_listener, by_call):
                with opened() as till:
                    control = begin(till)
                    told(f"{locus!r}: an error stands", S_ERROR, control.state)
                    event = way(control, reply)
                    told(f"{locus!r}: the event", (control, locus), (event.control, event.locus))
                    found.append(see(till, control))
            told(f"{locus!r}, {reply}: the listener's reply is the reply", found[0], found[1])
            told(f"{locus!r}, {reply}: the event's reply is the reply", found[0], found[2])
            seen[reply] = found[0]
        told(f"{locus!r}: ER_RETRY and ER_CONTINUEINPUT are the default", [seen[None]] * 2,
             [seen[ER_RETRY], seen[ER_CONTINUEINPUT]])
        told(f"{locus!r}: whether ER_CLEAR is another reply", locus != EL_INPUT, seen[ER_CLEAR] != seen[None])
        told(f"{locus!r}: a reply may be its word", seen[ER_CLEAR], seen["clear"])
        with opened() as till:
            control = begin(till)
            told(f"{locus!r}: a word that is no reply", ("ValueError",) * 2,
                 (name_of(by_word, control, "delete"), name_of(by_call, control, "delete")))
    with opened() as till:
        scanner = scanner_in_error(till)

        @scanner.listen
        def release(event):
            scanner.release()
            return ER_CLEAR
        told("a listener that releases the device, and clears", 1, till.deliver())
        told("it is idle then", S_IDLE, scanner.state)


def try_events():
    with opened() as till:
        drawer = till.drawer("d1")
        drawer.open_drawer()
        till.device("d1").drawer(is_open=False)
        told("events by iterator", [kijolvar.StatusUpdateEvent(drawer, 1), kijolvar.StatusUpdateEvent(drawer, 0)],
             list(till.events()))
        told("none is left", [], list(till.events()))
        event = kijolvar.StatusUpdateEvent(drawer, 1)
        told("an event is frozen", "FrozenInstanceError", name_of(setattr, event, "status", 2))
        told("an event's repr", "StatusUpdateEvent(control=<kijolvar.CashDrawer on 'd1'>, status=1)", repr(event))
        heard = []
        told("listen is a decorator", heard.append, drawer.listen(heard.append))
        other = till.drawer("d1")
        till.device("d1").drawer(is_open=True)
        told("one event by listener", (1, [kijolvar.StatusUpdateEvent(drawer, 1)]), (till.deliver(), heard))
        told("a control without a listener keeps its events", [kijolvar.StatusUpdateEvent(other, 1)],
             list(other.events()))
        drawer.freeze_events = True
        till.device("d1").drawer(is_open=False)
        told("events are held back", (0, []), (till.deliver(), list(drawer.events())))
        drawer.freeze_events = False
        told("and come then", 1, till.deliver())
        for is_open in (True, False):
            till.device("d1").drawer(is_open=is_open)
        told("a control delivers all of its events", 2, drawer.deliver())
        scanner = till.scanner("s1")
        with scanner.in_use():
            scanner.data_event_enabled = scanner.decode_data = True
            till.device("s1").scan(104, b"\x00ab", "ab")
            told("a scan", [kijolvar.DataEvent(scanner)], list(scanner.events()))
            told("what it shows", (b"\x00ab", b"ab", 104, False),
                 (scanner.scan_data, scanner.scan_data_label, scanner.scan_data_type, scanner.data_event_enabled))
            till.device("s1").scan(kijolvar.SCAN_SDT_Code39, b"A", b"A")
            scanner.data_event_enabled = True
            told("a type of bar code by its name", (1, 108, kijolvar.ScanDataType.SCAN_SDT_Code39),
                 (len(list(scanner.events())), scanner.scan_data_type, kijolvar.ScanDataType(scanner.scan_data_type)))
        told("a scanner is released at the end", (False, False), (scanner.claimed, scanner.device_enabled))
        printer = till.printer("r1")
        printer.power_notify = PN_ENABLED
        with printer.in_use():
            printer.async_mode = True
            printer.print("hello\n")
            told("output waits", (S_BUSY, 1), (printer.state, printer.output_id))
            told("work", kijolvar.WorkDone(1), till.device("r1").work())
            told("its event", kijolvar.OutputCompleteEvent(printer, 1), list(printer.events())[-1])
            told("no work", None, till.device("r1").work())


# ---- claims, names, misuse

def constants_of_c():
    """The standard's constants in the headers for C, by their names there without the prefix."""
    headers = "".join((TOP / "abi/c" / name).read_text() for name in ("kij_controls.h", "kij.h"))
    found = {name: int(number) for name, number in re.findall(r"^ +KIJ_(\w+) = (-?\d+)", headers, re.M)}
    # Those of the layer have no prefix of a group of the standard.
    return {name: number for name, number in found.items() if name.startswith(tuple(PREFIXES))}


def constants_of_rust():
    """The standard's constants in the crate for Rust, by their names there: those of enums, and others. A reply has no
    number there."""
    text = (TOP / "abi/rust/kijolvar/src/standard.rs").read_text()
    found = {name: int(number) for name, number in re.findall(r"^pub const (\w+): u64 = (\d+);", text, re.M)}
    variants = dict(re.findall(r"(\w+::\w+) => \"([A-Z]\w+)\"", text)) | {
        f"ErrorReply::{variant}": name for name, variant in re.findall(r"/// (ER_\w+): .*\n +(\w+),", text)}
    numbers = {variant: int(number) for number, variant in re.findall(r"(\d+) => Some\((\w+::\w+)\)", text)}
    numbers |= {variant: int(number) for variant, number in re.findall(r"(ExtendedCode::\w+) => (\d+),", text)}
    return found | {name: numbers.get(variant) for variant, name in variants.items()
                    if name.startswith(tuple(PREFIXES))}


# What the names of the standard's constants begin with, and what some have in C or Rust alone: there a timeout without
# an end is no number, no error succeeds, and a listener in C may leave the reply to an ErrorEvent to the till.
PREFIXES = ["E_", "ETOT_", "EPTR_", "S_", "CASH_SUE_", "PTR_", "SUE_", "PR_", "PN_", "PS_", "EL_", "ER_", "DISP_",
            "SCAN_SDT_", "UPOS_", "FOREVER"]
APART_IN_C, APART_IN_RUST = {"FOREVER", "ER_DEFAULT"}, {"E_SUCCESS", "UPOS_FOREVER"}


def try_constants_of_others():
    """The layers for C and Rust have the constants of the standard that this one has, with the same numbers."""
    own = {name: getattr(kijolvar, name) for name in kijolvar.__all__ if name.startswith(tuple(PREFIXES))}
    replies = {name for name in own if name.startswith("ER_")}
    numbers = {name: int(value) for name, value in own.items() if name not in replies}
    told("how many there are", (74, 3), (len(numbers), len(replies)))
    of_c, of_rust = constants_of_c(), constants_of_rust()
    told("those of C alone", APART_IN_C, set(of_c) - set(own))
    told("those of C", (set(own) - {"UPOS_FOREVER"}, numbers), (set(of_c) - APART_IN_C, {
        name: of_c.get("FOREVER" if name == "UPOS_FOREVER" else name) for name in numbers}))
    told("those of Rust", (set(own) - APART_IN_RUST, {
        name: number for name, number in numbers.items() if name not in APART_IN_RUST}), (set(of_rust), {
            name: number for name, number in of_rust.items() if name not in replies}))


def try_types_of_codes():
    """The types of codes, by the AIM identifiers that the drivers of C and Rust know too."""
    types = {name.removeprefix("SCAN_SDT_").replace("_", "").lower(): kind
             for name, kind in kijolvar.ScanDataType.__members__.items()}
    in_c = re.findall(r"\{'(\w)', (?:'(\d)'|0), KIJ_SCAN_SDT_(\w+)\}", (TOP / "abi/c/kij_drivers.c").read_text())
    in_rust = re.findall(r"\(b'(\w)', (?:b'(\d)'|_)\) => ScanDataType::(\w+)",
                         (TOP / "abi/rust/kijolvar/src/drivers.rs").read_text())
    for language, found in (("C", in_c), ("Rust", in_rust)):
        told(f"AIM identifiers in {language}", [types[name.replace("_", "").lower()] for _, _, name in found],
             [kijolvar._codes.kind_of(f"{letter}{digit or 9}".encode()) for letter, digit, _ in found])
    told("how many, and another one", (18, 18, kijolvar.SCAN_SDT_OTHER),
         (len(in_c), len(in_rust), kijolvar._codes.kind_of(b"X0")))
    told("each constant is one of the group", {kind.name: kind for kind in kijolvar.ScanDataType},
         {name: getattr(kijolvar, name) for name in kijolvar.__all__ if name.startswith("SCAN_SDT_")})


def try_copies():
    """A copy would end what the till, a control or a port has. That of an event is one of the same control."""
    with opened() as till:
        totals = till.totals("t1")
        totals.create("SALES", 4)
        for noun, one in (("a till", till), ("a session", till._session), ("a control", totals),
                          ("a file of totals", totals["SALES"]), ("a port", kijolvar.FilePort("/dev/null")),
                          ("a driver", kijolvar.EscPosPrinter("/dev/null")), ("a driver", kijolvar.Driver())):
            told(f"{noun} can't be copied", [("TypeError", f"{noun} can't be copied or pickled")] * 2,
                 [(type(fault).__name__, str(fault)) for fault in (raised(copy.copy, one), raised(pickle.dumps, one))])
        told("nor deeply", ["TypeError"] * 3, [name_of(copy.deepcopy, one) for one in (
            till, totals["SALES"], kijolvar.EscPosPrinter("/dev/null"))])
        gc.collect()
        told("the till goes on", (False, [b"SALES"]), (till.is_closed, list(totals)))
        drawer = till.drawer("d1")
        drawer.open_drawer()
        event = till.next_event()
        told("an event as a dict", {"control": drawer, "status": event.status}, dataclasses.asdict(event))
        told("its copy", (True, event), (copy.deepcopy(event).control is drawer, copy.copy(event)))
        told("an event can't be pickled", "a control can't be copied or pickled", str(raised(pickle.dumps, event)))


def try_listeners():
    """A listener makes an event for a control that was asked before."""
    with opened() as till:
        drawer, scanner = till.drawer("d1"), till.scanner("s1")
        heard = []
        drawer.listen(heard.append)
        scanner.listen(lambda event: drawer.open_drawer())
        with scanner.in_use():
            scanner.data_event_enabled = True
            till.device("s1").scan(104, "1", "1")
            told("an event that a listener makes is delivered too", (2, [kijolvar.StatusUpdateEvent(drawer, 1)]),
                 (till.deliver(), heard))


def try_failing_listeners():
    """A listener that raises something, or ends its control or the till: no event is lost, or comes twice."""
    with opened() as till:
        drawer, device, heard = till.drawer("d1"), till.device("d1"), []

        def moves():
            device.drawer(True)
            device.drawer(False)

        def fails(event):
            heard.append(event.status)
            raise ValueError("the listener fails")
        moves()
        drawer.listen(fails)
        told("what a listener raises passes through", ["ValueError"] * 2, [name_of(till.deliver) for _ in range(2)])
        told("each event came once", [1, 0], heard)
        moves()
        drawer.listen(lambda event: drawer.listen(None))
        told("a listener that ends itself", (1, [0]), (till.deliver(), [event.status for event in till.events()]))
        moves()
        drawer.listen(lambda event: drawer.close())
        told("a listener that closes its control", (1, None), (till.deliver(), drawer.device))
        drawer.open("d1")
        drawer.device_enabled = True
        told("its other events are gone with it", [], list(till.events()))
        moves()
        drawer.listen(lambda event: till.close())
        told("a listener that closes the till", ("TillClosedError", True), (name_of(till.deliver), till.is_closed))


def scanned(till):
    """What a listener hears, which alone refers to its scanner's control, and that control, weakly."""
    scanner, heard = till.scanner("s1"), []
    scanner.claim()
    scanner.device_enabled = scanner.data_event_enabled = True

    @scanner.listen
    def hears(event):
        heard.append(scanner.scan_data)
        scanner.data_event_enabled = True
    return heard, weakref.ref(scanner)


def try_kept_listeners():
    """A listener keeps its control open, until that is closed or has none any more."""
    with opened() as till:
        heard = []
        till.drawer("d1").listen(heard.append)
        codes, scanner = scanned(till)
        gc.collect()
        till.device("d1").drawer(is_open=True)
        till.device("s1").scan(104, "1", "1")
        till.device("s1").scan(104, "2", "2")
        told("controls that only have a listener", (3, [1], [b"1", b"2"]),
             (till.deliver(), [event.status for event in heard], codes))
        told("are open", [kijolvar.CashDrawer, kijolvar.Scanner], [type(control) for control in till.controls()])
        told("a claim stays", "TimeoutError", name_of(lambda: till.scanner("s1").claim()))
        scanner().listen(None)
        gc.collect()
        told("one without a listener ends", (None, None), (scanner(), raised(lambda: till.scanner("s1").claim())))
        codes, scanner = scanned(till)
        scanner().close()
        gc.collect()
        told("a closed one ends too", None, scanner())
        control = till.new_control(kijolvar.Scanner)
        control.listen(heard.append)
        left = weakref.ref(control)
        del control
        gc.collect()
        told("so does one that isn't open", None, left())
        control = till.new_control(kijolvar.Scanner)
        control.listen(heard.append)
        control.open("s1")
        left = weakref.ref(control)
        del control
        gc.collect()
        told("and one that is opened later stays", "s1", left() and left().device)
        codes, scanner = scanned(till)
    gc.collect()
    told("none outlives its till", (None, None), (scanner(), left()))
    with warnings.catch_warnings(record=True) as caught:
        warnings.simplefilter("always")
        opened().drawer("d1").listen(heard.append)
        gc.collect()
    told("a till that isn't closed is told in spite of them", ["ResourceWarning"],
         [warning.category.__name__ for warning in caught])


def try_claims():
    with opened() as till:
        first, second = till.display("p1"), till.display("p1")
        told("it isn't claimed", "NotClaimedError", name_of(setattr, first, "device_enabled", True))
        with first.claim() as claim:
            told("a claim's repr", "<kijolvar.Claim of <kijolvar.LineDisplay on 'p1'>>", repr(claim))
            told("another control's claim", "TimeoutError", name_of(second.claim, kijolvar.UPOS_FOREVER))
            told("another control's use", "ClaimedError", name_of(second.display_text, "A"))
            told("a disabled control", "DisabledError", name_of(first.display_text, "A"))
            first.device_enabled = True
            first.display_text("A", kijolvar.DISP_DT_BLINK)
            view = till.device("p1").show()
            told("what it shows", (65, 1), (view.characters[0], view.attributes[0]))
        told("released at the end of the block", False, first.claimed)
        with second.claim():
            second.release()
        told("a claim that was released before the end", False, second.claimed)
        with second.in_use():
            second.close()
        told("a control that was closed before the end", "ClosedError", name_of(lambda: second.claimed))
        with till.drawer("d1").in_use() as drawer:
            drawer.open_drawer()
        told("a drawer is disabled at the end of its use", (False, False), (drawer.claimed, drawer.device_enabled))
        with drawer.in_use():
            drawer.release()
        told("also one that was released before", (False, False), (drawer.claimed, drawer.device_enabled))
        with drawer.in_use():
            drawer.close()
        told("and one that was closed isn't", None, drawer.device)
        with first:
            pass
        told("a control is closed at the end of its block", (S_CLOSED, None), (first.state, first.device))
        first.open("p1")
        told("and can be opened again", "IllegalError", name_of(first.open, "p1"))
        told("no such device", "NoExistError", name_of(till.printer, "zz"))
        told("a device of another category", "NoExistError", name_of(till.printer, "d1"))
        told("a name that no device can have", "ValueError", name_of(till.printer, "a b"))
        with first.in_use():
            told("an attribute out of range", "IllegalError", name_of(first.display_text, "A", 4))


def try_misuse():
    with opened() as till:
        drawer, display, totals = till.drawer("d1"), till.display("p1"), till.totals("t1")
        told("a property that isn't there", "AttributeError", name_of(setattr, drawer, "device_enabld", True))
        told("a property of another category", "AttributeError", name_of(setattr, drawer, "cursor_row", 1))
        told("a property that can't be set", "AttributeError", name_of(setattr, drawer, "drawer_opened", True))
        told("text for a number", "TypeError", name_of(display.scroll_text, "1", 1))
        told("a float for a number", "TypeError", name_of(display.scroll_text, 1.0, 1))
        told("a number for text", "TypeError", name_of(display.display_text, 5))
        told("text for a truth value", "TypeError", name_of(setattr, drawer, "device_enabled", "false"))
        told("nothing for one", "TypeError", name_of(setattr, drawer, "freeze_events", None))
        told("a number that is none for one", "TypeError", name_of(till.device("d1").power, 2))
        told("the drawer is as it was", (True, False), (drawer.device_enabled, drawer.freeze_events))
        drawer.freeze_events = 1
        told("1 is true", True, drawer.freeze_events)
        drawer.freeze_events = False
        told("a number that is too long", "OverflowError", name_of(display.scroll_text, 10 ** 18, 1))
        told("text that isn't ASCII", "UnicodeEncodeError", name_of(display.display_text, "é"))
        told("a line feed in a name", "ValueError", name_of(till.device, "d1\nshow"))
        scans = till.device("s1").scan
        told("numbers that can't happen", ["InputError"] * 7,
             [name_of(till.device("r1").paper, number) for number in (-1, 100_001, 10 ** 18)]
             + [name_of(scans, number, b"1", b"1") for number in (-1, 1000, 10 ** 18)]
             + [name_of(till.device("d1").paper, 5)])
        told("a scan that is too long", ["OverflowError"] * 2, [name_of(scans, 104, b"1" * 70_000, b"1"),
                                                               name_of(scans, 104, b"1", b"1" * 70_000)])
        told("text for whether it is enabled", ["TypeError"] * 2,
             [name_of(call, device, enable="no") for call, device in ((till.drawer, "d1"), (till.totals, "t1"))])
        told("for whether a file is created", ("TypeError", False),
             (name_of(opened, totals=WORK / "no", create="no"), (WORK / "no").exists()))
        told("bytes of any kind", [None] * 3, [raised(totals.create, name, 1) for name in
                                               (bytearray(b"A"), memoryview(b"B"), "C")])
        fault = raised(totals.create, "A", 1)
        told("what a fault has", (110, 0, "E_EXISTS"), (fault.code, fault.extended, fault.name))
        told("what it says", "create of HardTotals t1: E_EXISTS (110): A file has the name.", str(fault))
        fault = raised(totals.create, "D", 10 ** 9)
        told("an extended code", (E_EXTENDED, 201, "NoRoomError"), (fault.code, fault.extended, type(fault).__name__))
        told("it is E_EXTENDED and a UposError", True, isinstance(fault, kijolvar.ExtendedError)
             and isinstance(fault, kijolvar.UposError) and isinstance(fault, kijolvar.Error))
        told("what it says too", True, str(fault).startswith("create of HardTotals t1: ETOT_NOROOM (114 201): "))
        again = pickle.loads(pickle.dumps(fault))
        told("a fault can be pickled", (type(fault), str(fault)), (type(again), str(again)))
        others = [kijolvar.ThreadError(1, 2), kijolvar.InCallError("why"), kijolvar.NameInUseError("a"), kijolvar.ProfileError("a reason", 3, 4), kijolvar.DiskError(7, "a text"),
                  kijolvar.ExchangeError("InUse"), kijolvar.LineError("bad line"), kijolvar.DamagedError("a rule", 9)]
        again = [pickle.loads(pickle.dumps(other)) for other in others]
        told("the other faults too", [(type(other), str(other), vars(other)) for other in others],
             [(type(other), str(other), vars(other)) for other in again])
        printer = till.printer("r1")
        with printer.in_use():
            till.device("r1").cover(is_open=True)
            told("an open cover", "CoverOpenError", name_of(printer.print, "A\n"))
            till.device("r1").cover(is_open=False)
            till.device("r1").paper(0)
            told("no paper", "ReceiptEmptyError", name_of(printer.print, "A\n"))
        told("a device that isn't there, and which are", [
            "open of POSPrinter d1: E_NOEXIST (109): No device of the control's category has the name. The profile has r1.",
            "the profile has no device 'r9': it has d1, s1, p1, r1, t1",
            "a name has 1 to 16 ASCII letters, digits and hyphens: not 'd 1'"], [
                str(raised(*call)) for call in ((till.printer, "d1"), (till.drive, "r9", kijolvar.Driver()),
                                                (till.drawer, "d 1"))])
        told("reprs", ["<kijolvar.CashDrawer on 'd1'>", "<kijolvar.Device 'd1'>", "<kijolvar.CashDrawer closed>",
                       "<kijolvar.TotalsFile b'A': 1 bytes, handle 1>"],
             [repr(it) for it in (drawer, till.device("d1"), till.new_control(kijolvar.CashDrawer), totals["A"])])
    codes = typed.DESCRIPTION["result_codes"][1:] + typed.DESCRIPTION["extended_codes"]
    told("a class for each code", [True] * len(codes),
         [issubclass(getattr(kijolvar, code["upper"] + "Error"), kijolvar.UposError) for code in codes])
    told("each with its name", [code["name"] for code in codes],
         [getattr(kijolvar, code["upper"] + "Error").name for code in codes])


class Dropper(kijolvar.Driver):
    """Drops a control while it carries out an order, and asks for an event."""

    def __init__(self, till, controls):
        self.till, self.controls = till, controls

    def carry_out(self, order):
        self.controls.clear()
        gc.collect()
        told("no event is there for a driver", None, self.till.next_event())
        return True


def try_control_that_stays():
    """A control that can't be closed once nothing refers to it is closed later."""
    def claimed():
        return raised(lambda: till.scanner("s1").claim())
    with opened() as till:
        controls = [till.scanner("s1")]
        controls[0].claim()
        till.drive("d1", Dropper(till, controls))
        told("an order during which a control is dropped", None, raised(till.drawer("d1").open_drawer))
        told("its device is free", None, claimed())
        for answer in (b"memory\n", kijolvar.NoMemoryError(kijolvar.KIJOLVAR_NO_MEMORY), KeyboardInterrupt()):
            scanner, carry_out, made = till.scanner("s1"), till._carry_out, []
            scanner.claim()

            def closes(line):
                if not line.startswith(b"close ") or made:
                    return carry_out(line)
                made.append(line)
                if isinstance(answer, BaseException):
                    raise answer
                return answer
            till._carry_out = closes
            del scanner
            gc.collect()
            interrupted(till.next_event)
            till._carry_out = carry_out
            told(f"a control whose closing was answered {answer!r}", (1, None), (len(made), claimed()))


def try_many_controls():
    with opened() as till:
        for _ in range(5000):
            till.drawer("d1").open_drawer()
        told("controls that nothing refers to make room for others", True, till.drawer("d1").drawer_opened)
        kept = [till.new_control(kijolvar.CashDrawer) for _ in range(4000)]
        told("as many as there may be", "TooManyControlsError",
             name_of(lambda: kept.extend(till.new_control(kijolvar.CashDrawer) for _ in range(200))))
    with opened() as till:
        mine = till.new_control(kijolvar.CashDrawer, "mine")
        fault = raised(till.new_control, kijolvar.CashDrawer, "mine")
        told("a name that is in use", ("NameInUseError", "mine", "a control has the name already: mine"),
             (type(fault).__name__, getattr(fault, "control", None), str(fault)))
        del mine, fault
        gc.collect()
        other = till.new_control(kijolvar.CashDrawer)
        told("a control that needs no name doesn't get it", False, other.name == "mine")
        told("nor one of another category", "NameInUseError", name_of(till.new_control, kijolvar.Scanner, "mine"))
        mine = till.new_control(kijolvar.CashDrawer, "mine")
        mine.open("d1")
        told("the name again", ("mine", "d1"), (mine.name, mine.device))
    try_control_that_stays()
    with warnings.catch_warnings(record=True) as caught:
        warnings.simplefilter("always")
        opened()
        gc.collect()
    told("a till that isn't closed is told", ["ResourceWarning"], [warning.category.__name__ for warning in caught])


# ---- totals

class Interrupted:
    """A library of which an interrupt follows a call at once."""

    def __init__(self, library, name):
        self.library, self.name, self.calls = library, name, 0

    def __getattr__(self, name):
        return self.interrupts if name == self.name else getattr(self.library, name)

    def interrupts(self, *words):
        self.calls += 1
        getattr(self.library, self.name)(*words)
        raise KeyboardInterrupt


def interrupt():
    raise KeyboardInterrupt


def interrupted(call, *words):
    """The name of an interrupt that ends a call, or None."""
    try:
        call(*words)
    except KeyboardInterrupt as fault:
        return type(fault).__name__
    return None


def try_interrupted_blocks(path):
    """An exception that ends a block isn't replaced by what can't be undone."""
    def within(block, fault):
        """What ends a block in which a change of totals is interrupted by a fault."""
        with opened(totals=path) as till:
            totals = till.totals("t1")
            if "A" not in totals:
                totals.create("A", 1)
            file = totals["A"]
            try:
                with block(till, file), mock.patch("kijolvar._session.os.fsync", side_effect=fault):
                    file.set_all(1)
                    totals.create("B", 1)
            except BaseException as found:
                return type(found).__name__, name_of(lambda: totals.state)
    blocks = {"use": lambda till, file: till.printer("r1").in_use(), "a claim": lambda till, file: till.printer("r1").claim(),
              "a control": lambda till, file: till.printer("r1"), "a claim of a file": lambda till, file: file.claim()}
    for name, block in blocks.items():
        told(f"an interrupt in {name}", ("KeyboardInterrupt", "DiskError"), within(block, KeyboardInterrupt))
    with opened(totals=path) as till:
        totals = till.totals("t1")
        file = totals["A"]

        def disables(then):
            with file.claim():
                totals.device_enabled = False
                then()
        told("a claim of a file whose control is disabled", "KeyError", name_of(disables, lambda: {}["SALES"]))
        totals.device_enabled = True
        told("stays", "ClaimedError", name_of(till.totals("t1")["A"].read))
        file.release()
        told("which the end says", "DisabledError", name_of(disables, lambda: None))
        totals.device_enabled = True
        file.release()

        def closes():
            with totals.transaction():
                till._session._library = Interrupted(till._session._library, "kijolvar_next_errand")
                interrupted(totals.commit_trans)
                till._session._library = till._session._library.library
                raise KeyError("an exception")
        told("an exception in a transaction whose till has ended", "KeyError", name_of(closes))
    with opened(totals=path) as till:
        till.totals("t1").delete("A")


class Numbered:
    """A handle that is no int, as some libraries have numbers."""

    def __init__(self, number):
        self.number = number

    def __index__(self):
        return self.number


def try_handles(totals, file):
    """Wherever a handle is asked for, the file does too."""
    held = file.read()
    for handle in (file.handle, file, Numbered(file.handle)):
        found = [totals.set_all(handle, 5), totals.read(handle, 1, 2), totals.write(handle, 0, held),
                 totals.claim_file(handle), totals.release_file(handle), totals.rename(handle, "OTHER"),
                 list(totals)[0], totals.rename(handle, file.name), totals.read(handle, 0, 4)]
        told(f"{handle!r} as a handle", [None, b"\5\5", None, None, None, None, b"OTHER", None, held], found)
    told("what is no handle", ["TypeError"] * 3, [name_of(totals.read, word, 0, 1) for word in ("1", 1.0, None)])


def try_totals():
    path = WORK / "totals"
    told("a file that is missing", "FileNotFoundError", name_of(opened, totals=path))
    told("one that is to be created, without a path", ("ValueError", "create needs the path of a file of totals"),
         (name_of(opened, create=True), str(raised(opened, create=True))))
    with kijolvar.create_totals(WORK / "whole", LIBRARY) as file:
        told("a new file has room for all of its bytes", True, os.fstat(file.fileno()).st_blocks * 512 >= 327_680)
        told("and the path as its name", str(WORK / "whole"), file.name)
        with opened(totals=file) as till:
            told("as a till over it says", f"<kijolvar.Till: totals in {str(WORK / 'whole')!r}, 0 controls>", repr(till))
            fault = raised(opened, totals=file)
            told("and a second one", ("BlockingIOError", str(WORK / "whole")), (type(fault).__name__, fault.filename))
    with opened(totals=path, create=True) as till:
        totals = till.totals("t1")
        told("no files", (0, [], False), (len(totals), list(totals), "SALES" in totals))
        handle = totals.create("SALES", 4)
        totals.create(b"COUNT", 2)
        sales = totals["SALES"]
        told("a file", (handle, 4, b"SALES", bytes(4)), (sales.handle, sales.size, sales.name, sales.read()))
        told("files", [b"SALES", b"COUNT"], list(totals))
        told("one is there", (True, True, False), ("SALES" in totals, b"COUNT" in totals, 5 in totals))
        told("names that no file can have", [False] * 4, ["K\u00e4se" in totals, "A" * 11 in totals, "" in totals,
                                                         b"A" * 70_000 in totals])
        told("one that isn't", "NoExistError", name_of(lambda: totals["NONE"]))
        told("which is a KeyError", True, isinstance(raised(lambda: totals["NONE"]), KeyError))
        told("any mapping's methods", ([b"SALES", b"COUNT"], [(b"SALES", sales), (b"COUNT", totals["COUNT"])],
                                       [4, 2], True),
             (list(totals.keys()), list(totals.items()), [file.size for file in totals.values()],
              isinstance(totals, collections.abc.Mapping)))
        told("a dict of it", {b"SALES": sales, b"COUNT": totals["COUNT"]}, dict(totals))
        told("get", (sales, sales, None, 0, None, None),
             (totals.get("SALES"), totals.get(b"SALES", 0), totals.get("NONE"), totals.get("NONE", default=0),
              totals.get("K\u00e4se"), totals.get(b"A" * 70_000)))
        told("what is in its views", (True, False, False), (b"SALES" in totals.keys(), b"NONE" in totals.keys(),
                                                            (b"NONE", sales) in totals.items()))
        told("it names the file", ["find of HardTotals t1: E_NOEXIST (109): No file has the name NONE."] * 2,
             [str(raised(lambda: totals[name])) for name in ("NONE", b"NONE")])
        totals["SALES"].write(0, b"\x00\x00\x01\xc2")
        totals.write(totals["COUNT"], 0, b"\x00\x01")
        told("what is written", (b"\x01\xc2", b"\x01", b"\x00\x01"),
             (sales.read(offset=2), sales.read(offset=2, count=1), totals["COUNT"].read()))
        told("a number of bytes without its name", "TypeError", name_of(sales.read, 2))
        told("a file as bytes", (b"\x00\x00\x01\xc2", "TypeError"), (bytes(sales), name_of(bytearray, sales)))
        told("out of the file", "IllegalError", name_of(sales.write, 3, b"ab"))
        try_handles(totals, sales)
        with totals.transaction():
            told("in a transaction", True, totals.transaction_in_progress)
            sales.set_all(7)
            totals["COUNT"].write(0, b"\x00\x02")
            told("it is read as it was", b"\x00\x01", totals["COUNT"].read())
            told("no file is made in it", "IllegalError", name_of(totals.create, "X", 1))
            told("nor a second one begun", "IllegalError", name_of(totals.transaction().__enter__))
        told("committed", (False, b"\x07" * 4, b"\x00\x02"),
             (totals.transaction_in_progress, sales.read(), totals["COUNT"].read()))

        def fails():
            with totals.transaction():
                sales.set_all(9)
                raise KeyError("an exception")
        told("an exception passes through", "KeyError", name_of(fails))
        told("and rolls back", (False, b"\x07" * 4), (totals.transaction_in_progress, sales.read()))
        other = till.totals("t1")

        def refused():
            with other.transaction():
                other["SALES"].set_all(9)
                sales.claim()
        told("a commit that is refused", "ClaimedError", name_of(refused))
        told("is rolled back", False, other.transaction_in_progress)
        told("a file that another control has", "ClaimedError", name_of(other["SALES"].read))
        sales.release()
        with sales.claim() as claim:
            told("a claim of a file", f"<kijolvar.FileClaim of {sales!r}>", repr(claim))
            told("keeps others away", "TimeoutError", name_of(other["SALES"].claim))
        told("and ends", b"\x07" * 4, other["SALES"].read())

        def ends(how):
            totals.create("SHORT", 1)
            with totals["SHORT"].claim():
                how(totals["SHORT"])
        told("a claim that was released before the end", None, name_of(ends, lambda file: file.release()))
        totals["SHORT"].delete()
        told("a claim of a file that is deleted", None, name_of(ends, lambda file: file.delete()))
        told("an exception of the block", "KeyError", name_of(ends, lambda file: (file.delete(), {}["SHORT"])))
        begins = totals.begin_trans
        with mock.patch.object(kijolvar.Totals, "begin_trans", lambda self: (begins(), interrupt())):
            told("an interrupt as a transaction begins", "KeyboardInterrupt", interrupted(totals.transaction().__enter__))
        told("ends it", False, totals.transaction_in_progress)
        sales.rename("TOTAL")
        told("another name", ([b"TOTAL", b"COUNT"], b"TOTAL"), ([file.name for file in totals.files()], sales.name))
        del totals["COUNT"]
        told("deleted", [b"TOTAL"], list(other))

        def deletes(files):
            for file in files:
                if file not in (b"TOTAL", sales):
                    totals.delete(file if isinstance(file, bytes) else file.name)
        for files in (totals, totals.files()):
            for name in "ABC":
                totals.create(name, 1)
            told("a loop that deletes what it is at", (None, [b"TOTAL"]), (raised(deletes, files), list(totals)))
        fault = raised(opened, totals=path)
        told("another till", ("BlockingIOError", str(path)), (type(fault).__name__, fault.filename))
        told("what it says", "is in use: close the other program, or the other till of this one, that has it open",
             fault.strerror)
        told("the till's repr", f"<kijolvar.Till: totals in {str(path)!r}, 2 controls>", repr(till))
    with opened(totals=str(path)) as till:
        totals = till.totals("t1")
        told("the next till finds them", [(b"TOTAL", b"\x07" * 4)],
             [(file.name, file.read()) for file in totals.files()])
        totals["TOTAL"].delete()
    fault = raised(kijolvar.create_totals, path, LIBRARY)
    told("creating it again", ("FileExistsError", f"[Errno 17] File exists: {str(path)!r}"),
         (type(fault).__name__, str(fault)))
    fault = raised(kijolvar.create_totals, "/proc/till.totals", LIBRARY)
    told("where nothing can be created", (errno.EOPNOTSUPP, "/proc/till.totals", True),
         (fault.errno, fault.filename, fault.strerror.endswith("by pos_console format --disk FILE")))
    new = WORK / "new.totals"
    for number in (errno.ENOSPC, errno.EIO):
        with mock.patch("kijolvar._files.write_whole", side_effect=OSError(number, os.strerror(number))):
            fault = raised(kijolvar.create_totals, new, LIBRARY)
        told("on a disk that fails", (number, str(new), False), (fault.errno, fault.filename, new.exists()))
    for fault in (kijolvar.PortError(errno.EIO, "a handler's"), InterruptedError("late")):
        with mock.patch("kijolvar._files.write_whole", side_effect=fault):
            told("what a handler raises", fault, raised(kijolvar.create_totals, new, LIBRARY))
    with kijolvar.open_totals(path) as file:
        with opened(totals=file) as till:
            told("a file of one's own", 0, len(till.totals("t1")))
            fault = raised(opened, totals=file)
            told("a second till over it", ("BlockingIOError", errno.EAGAIN, str(path)),
                 (type(fault).__name__, fault.errno, fault.filename))
            told("what it says", "is in use: another till of this program has it open", fault.strerror)
            with open(os.dup(file.fileno()), "r+b", buffering=0) as again:
                told("the same open file by another object", "BlockingIOError", name_of(opened, totals=again))
            till.totals("t1").create("KEPT", 1)
            child = os.fork()
            if child == 0:
                os._exit(name_of(opened, totals=file) != "BlockingIOError")
            told("a forked process, over it", 0, os.waitpid(child, 0)[1])
        with opened(totals=file) as till:
            told("once it is closed", [b"KEPT"], list(till.totals("t1")))
            till.totals("t1").delete("KEPT")
        told("a profile that is refused", "ProfileError", name_of(opened, "foo = 1", file))
        told("leaves it free", None, raised(lambda: opened(totals=file).close()))
        told("stays open", False, file.closed)
    (WORK / "short").write_bytes(bytes(100))
    told("a file that is too short", "TooSmallError", name_of(opened, totals=WORK / "short"))
    told("it names the file", f"{WORK / 'short'}: the file is too short for totals",
         str(raised(opened, totals=WORK / "short")))
    with open(WORK / "short", "rb") as short:
        told("and isn't locked then", None, raised(fcntl.flock, short, fcntl.LOCK_EX | fcntl.LOCK_NB))
    (WORK / "zeros").write_bytes(bytes(KIJOLVAR_DISK_LENGTH))
    with opened(totals=WORK / "zeros") as till:
        told("a file that isn't formatted", "NoHardwareError", name_of(till.totals, "t1"))
    with opened(totals=path) as till:
        totals, session = till.totals("t1"), till._session
        totals.create("A", 2)
        line = f"call {totals.name} setAll {totals['A'].handle} 7".encode()
        told("errands are left", KIJOLVAR_ERRANDS, session._library.kijolvar_carry_out(
            session._raw, session._out, line, len(line), session._room, 1024, session._needed_at))
        told("the next call does them first", b"\x07\x07", totals["A"].read())
        totals["A"].delete()
    with opened(totals=path) as till:
        totals, session = till.totals("t1"), till._session
        totals.create("A", 2)
        line = f"call {totals.name} setAll {totals['A'].handle} 7".encode()
        session._library.kijolvar_carry_out(session._raw, session._out, line, len(line), session._room, 1024,
                                            session._needed_at)
        told("orders with errands left", [], list(till.orders()))
        told("are done then", b"\x07\x07", totals["A"].read())
        totals["A"].delete()
    try_interrupted_blocks(path)
    with opened(totals=path) as till:
        totals = till.totals("t1")
        totals.create("DAY", 1)
        day = totals["DAY"]
        totals.rename(day, "OLD")
        totals.create("DAY", 1)
        told("a file whose name is another's", "NoExistError", name_of(day.delete))
        told("nothing is deleted", [b"OLD", b"DAY"], list(totals)[-2:])
        totals["DAY"].delete()
        totals["OLD"].delete()
        session = till._session
        session._library = Interrupted(session._library, "kijolvar_next_errand")
        told("an interrupt as an errand is taken out", "KeyboardInterrupt", interrupted(totals.create, "A", 1))
        session._library = session._library.library
        told("ends the till", "DiskError", name_of(lambda: totals.state))
    with opened(totals=path) as till:
        told("and leaves the files before it", 0, len(till.totals("t1")))
        till._session._library = ended = Interrupted(till._session._library, "kijolvar_close")
        told("an interrupt as the till ends", ("KeyboardInterrupt", True), (interrupted(till.close), till.is_closed))
        told("its file is free", None, raised(lambda: opened(totals=path).close()))
        told("closing it again ends nothing twice", (None, 1), (raised(till.close), ended.calls))
    with mock.patch("kijolvar._files.open_totals", side_effect=[FileNotFoundError, kijolvar.open_totals(path)]):
        with opened(totals=path, create=True) as till:
            told("a file that another till has just created", 0, len(till.totals("t1")))
    till = opened(totals=WORK / "closed", create=True)
    totals = till.totals("t1")
    with mock.patch("kijolvar._session.os.fsync", side_effect=lambda file: till.close()):
        told("a till that is closed while its file is written", "TillClosedError", name_of(totals.create, "A", 1))
    with opened(totals=WORK / "closed") as till:
        told("leaves totals behind", True, len(till.totals("t1")) <= 1)
    with open(path, "rb") as unwritable, opened(totals=unwritable) as till:
        totals = till.totals("t1")
        told("a file that can't be written", "DiskError", name_of(totals.create, "A", 1))
        told("and no call after it", "DiskError", name_of(lambda: totals.state))


def try_disabled_transactions():
    """A transaction whose block disables or closes the control is rolled back, and a later write is made at once."""
    def disables(totals, _):
        totals.device_enabled = False

    def uses(totals, _):
        with totals.in_use():
            totals["A"].write(0, b"\7")

    def fails(totals, _):
        totals.device_enabled = False
        raise KeyError("an exception")

    def another_claims(totals, other):
        other.claim()
        totals.device_enabled = False

    def closes(totals, _):
        totals.close()

    def opens_again(totals, _):
        totals.close()
        totals.open("t1")

    def within(totals, other, block):
        with totals.transaction():
            totals["A"].write(0, b"\7")
            block(totals, other)

    def left(totals, other):
        return totals.transaction_in_progress, totals.device_enabled, other["A"].read()
    for block, wanted in ((disables, "DisabledError"), (uses, "DisabledError"), (fails, "KeyError"),
                          (another_claims, "ClaimedError"), (closes, "ClosedError"), (opens_again, "DisabledError")):
        with opened() as till:
            totals, other = till.totals("t1"), till.totals("t1")
            totals.create("A", 1)
            name = block.__name__
            told(f"a transaction whose block {name}", wanted, name_of(within, totals, other, block))
            if totals.device is None:
                totals.open("t1")
            told(f"is rolled back if it {name}", (False, False, b"\0"), left(totals, other))
            if other.claimed:
                other.release()
            totals.device_enabled = True
            totals["A"].write(0, b"\1")
            told(f"a later write if it {name}", b"\1", other["A"].read())
    with opened() as till:
        totals, other = till.totals("t1"), till.totals("t1")
        totals.create("A", 1)
        carry_out = totals._carry_out
        for refused in (b" DeviceEnabled true", b" rollback"):
            def forgets(line):
                return b"memory\n" if line.endswith(refused) else carry_out(line)
            with mock.patch.object(totals, "_carry_out", forgets):
                told(f"no memory for{refused.decode()}", "DisabledError", name_of(within, totals, other, disables))
            told("the control stays in the transaction", (True, False, b"\0"), left(totals, other))
            totals.device_enabled = True
            totals.rollback()
            told("which rollback ends", (False, True, b"\0"), left(totals, other))


# ---- what a signal's handler does during a call

class Signalled:
    """An export, or a library of which an export has the name, of which a signal's handler follows each call, or the call
    of a number."""

    def __init__(self, library, handler, name="", number=0):
        self.library, self.handler, self.name, self.left = library, handler, name, number

    def __getattr__(self, name):
        return self if name == self.name else getattr(self.library, name)

    def __call__(self, *words):
        code = (getattr(self.library, self.name) if self.name else self.library)(*words)
        self.left -= 1
        if self.left <= 0 and self.handler is not None:
            self.handler()
        return code


def opened_with(handler, totals=None, **named):
    """A till of which each call with lines is followed by a handler, once `handles` is called with one."""
    made = []

    def carrier(library):
        made.append(Signalled(session_carrier(library), None))
        return made[-1]
    session_carrier = kijolvar._session.carrier
    with mock.patch("kijolvar._session.carrier", carrier):
        till = opened(None, totals, **named)

    def handles(handler):
        made[0].handler = handler
    return till, handles


def try_handlers():
    path = WORK / "signalled"
    for number in range(1, 4):
        path.unlink(missing_ok=True)
        found = []
        with opened(totals=path, create=True) as till:
            drawer, totals = till.drawer("d1"), till.totals("t1")
            totals.create("SALES", 8)
            totals["SALES"].write(0, bytes(7) + b"\1")
            session = till._session
            session._library = Signalled(session._library, lambda: found.append(name_of(drawer.open_drawer)),
                                         "kijolvar_next_errand", number)
            told(f"a change that a handler interrupts after {number} errands", None,
                 raised(totals["SALES"].write, 0, bytes(7) + b"\2"))
            session._library = session._library.library
            told("its call is refused", {"InCallError"}, set(found))
            told("and changes nothing", (False, bytes(7) + b"\2"), (drawer.drawer_opened, totals["SALES"].read()))
        told("what is in the file", {b"SALES": bytes(7) + b"\2"}, kijolvar.files(path, LIBRARY).files)
    till, handles = opened_with(None)
    with till:
        drawer, printer, device = till.drawer("d1"), till.printer("r1"), till.device("r1")
        printer.claim()
        printer.device_enabled = True
        device.cover(True)
        found = {}
        uses = {"a call": drawer.open_drawer, "a property": lambda: drawer.state, "a device": device.show,
                "a line": lambda: till.carry_out("show d1"), "the next event": till.next_event,
                "events": lambda: list(till.events()), "listeners": till.deliver, "a control": lambda: till.scanner("s1"),
                "hosting": lambda: till.host("d1"), "orders": lambda: list(till.orders()),
                "an order's bytes": lambda: till.order_bytes(HARDWARE), "paper": lambda: till.tear_off("r1"),
                "a reply": lambda: till.replies("r1", HARDWARE, b""), "the devices' loop": till.run_devices,
                "a driver": lambda: till.drive("d1", kijolvar.Driver())}
        handles(lambda: found.update((name, name_of(use)) for name, use in uses.items()))
        told("a refusal that a handler interrupts", "CoverOpenError", name_of(printer.print, "Bread\n"))
        handles(None)
        told("nothing is printed, and the drawer is closed", ((), False), (device.show().items, drawer.drawer_opened))
        told("what a handler can't do", dict.fromkeys(uses, "InCallError"), found)
        handles(drawer.open_drawer)
        told("a handler that doesn't catch it", "InCallError", name_of(device.show))
        handles(None)
        told("the till goes on", None, raised(drawer.open_drawer))
        till.host("r1")
        device.cover(False)
        printer.print("A\n")
        printer.print("B\n")
        taken, asks = [], till._session._next_order
        till._session._next_order = Signalled(asks, lambda: taken.append(name_of(lambda: list(till.orders()))))
        told("orders that a handler asks for too", [(b"A\n",), (b"B\n",)], [order.arguments for order in till.orders()])
        told("are the first one's", {"InCallError"}, set(taken))


def try_closing_handlers():
    """What is closed by a handler during a call has ended after it."""
    path, other = WORK / "closing", WORK / "other"
    kijolvar.create_totals(other, LIBRARY).close()
    before = other.read_bytes()
    till, held = opened(totals=path, create=True), []
    totals = till.totals("t1")

    def closes():
        if not till.is_closed:
            till.close()
            # It would get the number of a file that was closed.
            held.append(open(other, "r+b"))
    session = till._session
    session._library = Signalled(session._library, closes, "kijolvar_next_errand")
    told("a till that is closed before an errand is done", "TillClosedError", name_of(totals.create, "A", 1))
    told("nothing is written into another file", True, held[0].close() is None and other.read_bytes() == before)
    told("its own file is closed and free", (True, None), (till._file.closed, raised(lambda: opened(totals=path).close())))
    till, handles = opened_with(None, path)
    drawer, found = till.drawer("d1"), []
    handles(lambda: found.append((till.close(), till.is_closed, till._file.closed, name_of(lambda: drawer.state))))
    told("a call that is done before its till is closed", None, raised(drawer.open_drawer))
    told("the till is closed at once, its file after the call", ([(None, True, False, "TillClosedError")], True),
         (found, till._file.closed))
    told("and free", None, raised(lambda: opened(totals=path).close()))
    till, handles = opened_with(None, path)
    drawer = till.drawer("d1")
    with mock.patch("kijolvar._session.len", lambda lines: till.close() or len(lines), create=True):
        told("a till that is closed as the library is called", None, name_of(drawer.open_drawer))
    told("has ended", (True, True), (till.is_closed, till._file.closed))


def try_forking_handlers():
    """A handler that forks during a call: the process that goes on with the call writes into no file."""
    other = WORK / "not the totals"
    other.write_bytes(b"Bread")
    for number in range(1, 4):
        said, says = os.pipe()
        with opened(totals=WORK / f"forking-{number}", create=True) as till:
            totals, children, session = till.totals("t1"), [], till._session

            def forks():
                if not children:
                    children.append(os.fork())
                    if children[0] == 0:
                        # One of these would get the number of a file that was closed.
                        children.extend([open(other, "r+b") for _ in range(5)])
            session._library = Signalled(session._library, forks, "kijolvar_next_errand", number)
            fault = name_of(totals.create, "A", 1)
            if children[0] == 0:
                os.write(says, str(fault).encode())
                os._exit(0)
            os.close(says)
            with open(said) as text:
                told(f"a call in a process that was forked after {number} errands", "ThreadError", text.read())
            told("the process ends well", 0, os.waitpid(children[0], 0)[1])
            told("and has written nothing", (5, b"Bread"), (other.stat().st_size, other.read_bytes()[:5]))
            told("the till's call is done", (None, [b"A"]), (fault, list(totals)))


def try_files():
    path = WORK / "told"
    told("no file to tell of", ("FileNotFoundError",) * 3,
         tuple(name_of(call, path, LIBRARY) for call in (kijolvar.files, kijolvar.check, kijolvar.migrate)))
    with opened(totals=path, create=True) as till:
        totals = till.totals("t1")
        for name, content in ((b"A", b"\x01\xff"), (b" b\x7f", b""), (b"C", bytes(range(256)))):
            totals.create(name, len(content))
            totals[name].write(0, content)
        held = {name: totals[name].read() for name in totals}
        told("a file that a till has", ("BlockingIOError",) * 3,
             tuple(name_of(call, path, LIBRARY) for call in (kijolvar.files, kijolvar.check, kijolvar.migrate)))
    found = kijolvar.files(path, LIBRARY)
    told("what a file holds", (1, held), (found.layout, found.files))
    text = subprocess.run([PROGRAM, "files", "--disk", path], capture_output=True, text=True, check=True).stdout
    numbers = [line.split(" ")[1] for line in text.splitlines()[:5]]
    told("as the program says", numbers, [str(number) for number in (found.layout, found.slot, found.sequence,
                                                                     found.records, found.room)])
    told("it is sound", None, kijolvar.check(path, LIBRARY))
    for number, wanted in ((None, None), (errno.EINVAL, None), (errno.EROFS, None), (errno.EIO, errno.EIO)):
        fault = number and OSError(number, os.strerror(number))
        with mock.patch("kijolvar._files.os.fsync", side_effect=fault) as syncs:
            fault = raised(kijolvar.check, path, LIBRARY)
        told(f"it is synced before it is read, with {number}", (1, wanted, wanted and str(path)),
             (syncs.call_count, getattr(fault, "errno", None), getattr(fault, "filename", None)))
    (WORK / "links").mkdir()
    (WORK / "links/totals").symlink_to(path)
    synced = []
    with mock.patch("kijolvar._files.os.fsync", lambda file: synced.append(os.readlink(f"/proc/self/fd/{int(file)}"))):
        kijolvar.open_totals(WORK / "links/totals").close()
    told("a file that is opened by a link is synced, and its folder", [str(path), str(path.parent)], synced)
    os.mkfifo(WORK / "fifo")
    faults = [in_time(call, WORK / "fifo", LIBRARY) for call in (kijolvar.files, kijolvar.check)]
    told("a FIFO isn't waited for", [(errno.ESPIPE, str(WORK / "fifo"))] * 2,
         [(fault.errno, getattr(fault, "filename", None)) for fault in faults])
    told("a folder", "IsADirectoryError", name_of(kijolvar.files, WORK, LIBRARY))
    before = path.read_bytes()
    with tempfile.NamedTemporaryFile(dir=WORK) as copy:
        copy.write(before)
        copy.flush()
        subprocess.run([PROGRAM, "migrate", "--disk", copy.name], check=True)
        kijolvar.migrate(path, LIBRARY)
        told("moved as the program moves it", True, pathlib.Path(copy.name).read_bytes() == path.read_bytes())
    found = kijolvar.files(path, LIBRARY)
    told("the files stay", (2, 1, held), (found.layout, found.sequence, found.files))
    told("the slots of layout 1 stay", True, path.read_bytes()[:65536] == before[:65536])
    told("moved already", "MovedError", name_of(kijolvar.migrate, path, LIBRARY))
    told("it names the file", f"{path}: the totals have layout 2 already: there is nothing to do",
         str(raised(kijolvar.migrate, path, LIBRARY)))
    parts, reads = [], os.pread

    def reads_some(file, count, at):
        parts.append(at)
        return reads(file, min(count, 100_000), at)

    def finds():
        with opened(totals=path) as till:
            totals = till.totals("t1")
            return {name: totals[name].read() for name in totals}
    told("a till finds them", held, finds())
    with mock.patch("os.pread", reads_some):
        fault = raised(lambda: told("a till whose file the system gives in parts finds them", held, finds()))
    told("it reads on", (None, True), (fault, len(parts) > 3))
    disk = bytearray(path.read_bytes())
    disk[found.slot + 9:found.slot + 17] = b"\xff" * 8
    path.write_bytes(disk)
    fault = raised(kijolvar.check, path, LIBRARY)
    reason = "the length of the current body is above the longest"
    told("damage", ("DamagedError", reason, found.slot + 9), (type(fault).__name__, fault.reason, fault.place))
    told("what it says", (f"{path}: the totals are damaged at byte {fault.place}: {reason}: keep the file, and work on a "
                          "copy of it", str(path)), (str(fault), fault.path))
    done = subprocess.run([PROGRAM, "files", "--disk", path], capture_output=True, text=True)
    told("as the program says", True, f"its totals are damaged at byte {fault.place}: {fault.reason}" in done.stderr)
    told("a damaged one isn't moved", f"{path}: the totals are damaged: keep the file, and work on a copy of it",
         str(raised(kijolvar.migrate, path, LIBRARY)))
    told("and stays", bytes(disk), path.read_bytes())
    for name, content, wanted in (("short", bytes(100), "TooSmallError"),
                                  ("zeros", bytes(KIJOLVAR_DISK_LENGTH), "UnformattedError")):
        path.write_bytes(content)
        told(f"a file that is {name}", (wanted,) * 3,
             tuple(name_of(call, path, LIBRARY) for call in (kijolvar.files, kijolvar.check, kijolvar.migrate)))
        told(f"a file that is {name} is named", [f"{path}: the file"] * 3,
             [str(raised(call, path, LIBRARY))[:len(f"{path}: the file")]
              for call in (kijolvar.files, kijolvar.check, kijolvar.migrate)])
        told(f"a file that is {name} stays", content, path.read_bytes())


def try_backups():
    """A file of totals is copied while a till has it. The copy is whole, or isn't there."""
    path, copy_of, part = WORK / "kept", WORK / "kept.copy", WORK / "kept.copy.part"

    def refused(*words):
        """What copying is refused with, and whether anything is there then."""
        fault = raised(kijolvar.backup, *(words or (path, copy_of)), LIBRARY)
        return type(fault).__name__, getattr(fault, "filename", None), copy_of.exists(), part.exists()
    with opened(totals=path, create=True) as till:
        totals = till.totals("t1")
        totals.create("SALES", 3)
        totals["SALES"].write(0, b"abc")
        steps = mock.Mock()
        with contextlib.ExitStack() as stack:
            for name in ("pwrite", "fsync", "link", "unlink"):
                step = stack.enter_context(mock.patch(f"os.{name}", side_effect=getattr(os, name)))
                steps.attach_mock(step, name)
            told("a copy while a till has the file", None, kijolvar.backup(path, copy_of, LIBRARY))
        told("it is synced, and then gets its name", ["pwrite", "fsync", "link", "unlink", "fsync"],
             [call[0] for call in steps.mock_calls])
        told("what it holds", {b"SALES": b"abc"}, kijolvar.files(copy_of, LIBRARY).files)
        told("its bytes, for its owner alone", (True, 0o600),
             (copy_of.read_bytes() == path.read_bytes(), copy_of.stat().st_mode & 0o777))
        told("the till has the file still", "BlockingIOError", name_of(kijolvar.files, path, LIBRARY))
        totals["SALES"].write(0, b"xyz")
        told("a copy is there", ("FileExistsError", str(copy_of), True, False), refused())
        told("it stays as it is", {b"SALES": b"abc"}, kijolvar.files(copy_of, LIBRARY).files)
        copy_of.unlink()
        copy_of.symlink_to(WORK / "no-such-file")
        told("a link that leads nowhere is there", "FileExistsError", refused()[0])
        copy_of.unlink()
        part.write_bytes(b"")
        told("a crash has left a part", ("FileExistsError", str(part), False, True), refused())
        part.unlink()
        for name, number in (("pwrite", errno.ENOSPC), ("fsync", errno.EIO), ("link", errno.EIO)):
            with mock.patch(f"os.{name}", side_effect=OSError(number, os.strerror(number))):
                told(f"{name} fails", (type(OSError(number, "")).__name__, str(copy_of if name == "link" else part),
                                       False, False), refused())
        told("no folder", ("FileNotFoundError", str(WORK / "none"), False, False), refused(path, WORK / "none/copy"))
    whole = path.read_bytes()
    for name, content, wanted in (
            ("nothing is there", None, "FileNotFoundError"), ("a short file", b"", "TooSmallError"),
            ("one that isn't formatted", bytes(KIJOLVAR_DISK_LENGTH), "UnformattedError"),
            ("a damaged one", whole[:1] + bytes(len(whole) - 1), "DamagedError")):
        (WORK / "kept.bad").unlink(missing_ok=True)
        if content is not None:
            (WORK / "kept.bad").write_bytes(content)
        told(name, (wanted, False, False), refused(WORK / "kept.bad", copy_of)[:1] + refused(WORK / "kept.bad", copy_of)[2:])
    told("a folder", "IsADirectoryError", refused(WORK, copy_of)[0])
    with mock.patch("kijolvar._files.read_whole", side_effect=[b"", b"torn", whole, b"torn", whole, whole]) as readings:
        told("a file that changes between two readings", None, kijolvar.backup(path, copy_of, LIBRARY))
    told("it is read until two are the same", (6, whole), (readings.call_count, copy_of.read_bytes()))
    copy_of.unlink()
    with mock.patch("kijolvar._files.read_whole", side_effect=[bytes([at % 2]) for at in range(1001)]) as readings:
        told("one that always changes", (("BlockingIOError", str(path), False, False), 1001),
             (refused(), readings.call_count))


def try_backups_without_links():
    """Where a file has one name, as on a FAT stick, an empty file takes the name of a copy first, and is replaced."""
    path, stick = WORK / "linked", WORK / "stick"
    kijolvar.create_totals(path, LIBRARY).close()
    stick.mkdir()
    copy_of, renames, replaced = stick / "copy", os.rename, []

    def backs_up(number, rename=renames):
        """What a copy is refused with where linking and renaming end so, and the steps to it."""
        steps = mock.Mock()
        with contextlib.ExitStack() as stack:
            for name, does in (("pwrite", os.pwrite), ("fsync", os.fsync), ("rename", rename), ("unlink", os.unlink),
                               ("link", OSError(number, os.strerror(number)))):
                steps.attach_mock(stack.enter_context(mock.patch(f"os.{name}", side_effect=does)), name)
            fault = raised(kijolvar.backup, path, copy_of, LIBRARY)
        refused = None if fault is None else (type(fault).__name__, getattr(fault, "filename", None))
        return refused, [call[0] for call in steps.mock_calls]

    def renames_over(part, name, **folders):
        replaced.append(copy_of.stat().st_size)
        renames(part, name, **folders)

    def is_interrupted(part, name, **folders):
        renames(part, name, **folders)
        raise InterruptedError
    for number in (errno.EPERM, errno.EACCES, errno.EOPNOTSUPP, errno.ENOSYS):
        name = errno.errorcode[number]
        told(f"a copy where a file has one name ({name})", (None, ["pwrite", "fsync", "link", "rename", "fsync"]),
             backs_up(number, renames_over))
        told(f"it is whole, for its owner alone, and the only file ({name})", (path.read_bytes(), 0o600, ["copy"]),
             (copy_of.read_bytes(), copy_of.stat().st_mode & 0o777, os.listdir(stick)))
        copy_of.unlink()
    told("an empty file had its name before", [0] * 4, replaced)
    copy_of.write_bytes(b"kept")
    told("a file is there", (("FileExistsError", str(copy_of)), ["pwrite", "fsync", "link", "unlink"]),
         backs_up(errno.EPERM))
    told("it is kept, and the only file", (b"kept", ["copy"]), (copy_of.read_bytes(), os.listdir(stick)))
    copy_of.unlink()
    copy_of.symlink_to(WORK / "no-such-file")
    told("a link that leads nowhere is there", "FileExistsError", backs_up(errno.EPERM)[0][0])
    copy_of.unlink()
    told("it can't be renamed", (("OSError", str(copy_of)), ["pwrite", "fsync", "link", "rename", "unlink", "unlink"]),
         backs_up(errno.EPERM, OSError(errno.EIO, os.strerror(errno.EIO))))
    told("then nothing is there", [], os.listdir(stick))
    told("a handler interrupts it", ("InterruptedError", None), backs_up(errno.EPERM, is_interrupted)[0])
    told("nothing is there then", [], os.listdir(stick))


def try_backups_beside_changes():
    """A copy that is made while a till changes two files together has both as they were at one moment."""
    path, copy_of, ending, counts = WORK / "busy", WORK / "busy.copy", threading.Event(), []
    with opened(totals=path, create=True) as till:
        totals = till.totals("t1")
        for name in ("A", "B"):
            totals.create(name, 4)

    def changes():
        with opened(totals=path) as till:
            totals = till.totals("t1")
            for count in range(1, 1_000_000):
                with totals.transaction():
                    for name in ("A", "B"):
                        totals[name].write(0, count.to_bytes(4, "big"))
                counts.append(count)
                if ending.is_set():
                    break
    with contextlib.ExitStack() as stack:
        changing = threading.Thread(target=changes)
        changing.start()
        stack.callback(changing.join)
        stack.callback(ending.set)
        is_same, is_new, end = [], [], time.monotonic() + 120
        # A change may take longer than a copy.
        while len(is_same) < 20 or len(counts) <= 20 and time.monotonic() < end:
            before = len(counts)
            kijolvar.backup(path, copy_of, LIBRARY)
            first, second = (int.from_bytes(found) for found in kijolvar.files(copy_of, LIBRARY).files.values())
            is_same.append(first == second)
            is_new.append(first >= before)
            copy_of.unlink()
    told("two files of one transaction", {True}, set(is_same))
    told("each change that was done before", {True}, set(is_new))
    told("the till has gone on", True, len(counts) > 20)


def try_replaced_totals():
    """Another file gets the name of the totals before they are locked, as `kijolvar restore --replace` gives it."""
    path, old, new = (WORK / name for name in ("replaced", "replaced.old", "replaced.new"))
    locks = fcntl.flock

    def makes(file, name):
        with opened(totals=file, create=True) as till:
            till.totals("t1").create(name, 1)

    def replaces(file, how):
        if new.exists():
            os.link(path, old)
            os.replace(new, path)
        return locks(file, how)
    makes(path, "A")
    makes(new, "B")
    with mock.patch("fcntl.flock", replaces):
        makes(path, "C")
    told("a till has the new file", ([b"B", b"C"], [b"A"]),
         tuple(list(kijolvar.files(file, LIBRARY).files) for file in (path, old)))
    old.unlink()
    makes(new, "D")
    with mock.patch("fcntl.flock", replaces):
        told("what is told of it", [b"D"], list(kijolvar.files(path, LIBRARY).files))

    def replaces_always(file, how):
        shutil.copy(path, new)
        os.replace(new, path)
        return locks(file, how)

    def removes(file, how):
        path.unlink(missing_ok=True)
        return locks(file, how)

    def refused(lock, call, *words):
        shutil.copy(old, path)
        with mock.patch("fcntl.flock", lock):
            fault = raised(call, path, *words)
        return type(fault).__name__, getattr(fault, "filename", None)
    files = len(os.listdir("/proc/self/fd"))
    for name, lock, wanted in (("a file that is replaced again and again", replaces_always, "BlockingIOError"),
                               ("a file that is removed", removes, "FileNotFoundError")):
        told(name, [(wanted, str(path))] * 2, [refused(lock, kijolvar.open_totals),
                                               refused(lock, kijolvar.files, LIBRARY)])
    told("no file stays open", files, len(os.listdir("/proc/self/fd")))


def try_any_event():
    with opened() as till:
        told("no control has an event", None, till.next_event())
        one, two = till.drawer("d1"), till.drawer("d1")
        till.device("d1").drawer(is_open=True)
        told("the next event of any control", [kijolvar.StatusUpdateEvent(one, 1), kijolvar.StatusUpdateEvent(two, 1),
                                               None], [till.next_event() for _ in range(3)])
        two.close()
        till.device("d1").drawer(is_open=False)
        told("a closed control has none", [kijolvar.StatusUpdateEvent(one, 0), None],
             [till.next_event() for _ in range(2)])
    with opened() as till:
        first = till.drawer("d1")
        told("lines make a control", "ok\nok\nok\n",
             till.carry_out("new raw CashDrawer\nopen raw d1\nset raw DeviceEnabled true\n"))
        scanner, last = till.scanner("s1"), till.drawer("d1")
        scanner.claim()
        scanner.device_enabled = first.freeze_events = True
        till.device("d1").drawer(is_open=True)
        till.device("s1").scan(104, "a", "a")
        told("a frozen event and a scan are passed over", [kijolvar.StatusUpdateEvent(last, 1), None],
             [till.next_event() for _ in range(2)])
        till.device("s1").scan_fault()
        scanner.data_event_enabled = True
        event = till.next_event()
        told("an ErrorEvent is the next", (kijolvar.ErrorEvent, scanner, EL_INPUT_DATA),
             (type(event), event.control, event.locus))
        first.freeze_events = False
        told("it is frozen no more", kijolvar.StatusUpdateEvent(first, 1), till.next_event())
        for is_open in (False, True):
            till.device("d1").drawer(is_open=is_open)
        heard = []
        first.listen(heard.append)
        told("controls without a listener are passed over", (2, 2), (till.deliver(), len(heard)))
        till.device("d1").drawer(is_open=False)
        told("one event of each in turn", [first, scanner, last, last, last], [event.control for event in till.events()])
        told("what lines made is left to lines", "event StatusUpdateEvent 1\n", till.carry_out("deliver raw\n"))
        told("none is left", (None, [], 0), (till.next_event(), list(till.events()), till.deliver()))
        kept = till.next_event
    told("a closed till", "TillClosedError", name_of(kept))


def try_lines_without_memory():
    """If there is no memory after the first of several lines, their call says that lines were carried out."""
    lines = "detach d1\nattach d1 1\nopen a d1\n"

    class Forgetful(kijolvar.Driver):
        def attached(self):
            raise kijolvar.NoMemoryError(kijolvar.KIJOLVAR_NO_MEMORY)

    def refused_at(number):
        with opened() as till:
            carry_out, asked = till._carry_out, []

            def forgets(line):
                asked.append(line)
                if len(asked) == number:
                    raise kijolvar.NoMemoryError(kijolvar.KIJOLVAR_NO_MEMORY)
                return carry_out(line)
            if number == 0:
                till.drive("d1", Forgetful())
            with mock.patch.object(till, "_carry_out", forgets):
                fault = raised(till.carry_out, lines)
            return type(fault), getattr(fault, "library_code", None), len(asked)
    told("no memory at the first line", (kijolvar.NoMemoryError, kijolvar.KIJOLVAR_NO_MEMORY, 1), refused_at(1))
    for number in (2, 3):
        told(f"no memory at line {number}", (kijolvar.NoMemoryError, kijolvar.KIJOLVAR_CUT, number), refused_at(number))
    told("no memory for what a line has attached", (kijolvar.NoMemoryError, kijolvar.KIJOLVAR_CUT, 2), refused_at(0))
    told("memory for all", (type(None), None, 3), refused_at(4))


def try_lost_openings():
    """A control whose opening or closing has no answer is open or closed all the same."""
    with opened() as till:
        drawer, heard = till.new_control(kijolvar.CashDrawer), []
        drawer.listen(heard.append)
        carry_out = drawer._carry_out

        def loses(line):
            carry_out(line)
            raise kijolvar.NoMemoryError(kijolvar.KIJOLVAR_CUT)

        def lost(call, *words):
            with mock.patch.object(drawer, "_carry_out", loses):
                return code_of(call, *words)
        told("a lost answer of open", (kijolvar.KIJOLVAR_CUT, "d1", [drawer]),
             (lost(drawer.open, "d1"), drawer.device, till.controls()))
        drawer.device_enabled = True
        till.device("d1").drawer(is_open=True)
        told("its events come", (1, 1), (till.deliver(), len(heard)))
        told("a lost answer as it is opened again", (kijolvar.KIJOLVAR_CUT, "d1"),
             (lost(drawer.open, "zz"), drawer.device))
        told("a lost answer of close", (kijolvar.KIJOLVAR_CUT, None, [], S_CLOSED),
             (lost(drawer.close), drawer.device, till.controls(), drawer.state))
        told("a lost answer of an open that is refused", kijolvar.KIJOLVAR_CUT, lost(drawer.open, "zz"))
        told("closing tells it", ("ClosedError", None), (name_of(drawer.close), drawer.device))
        with drawer:
            told("a lost answer of open in a block", kijolvar.KIJOLVAR_CUT, lost(drawer.open, "d1"))
        told("whose end closes it", S_CLOSED, drawer.state)


class Losing:
    """Carries out lines, but raises something once a line that has a word is carried out, or in place of that."""

    def __init__(self, carry_out, word, fault, is_done=True):
        self.carry_out, self.word, self.fault, self.is_done = carry_out, word, fault, is_done

    def __call__(self, line):
        if self.word not in line:
            return self.carry_out(line)
        if self.is_done:
            self.carry_out(line)
        raise self.fault()


def cut():
    return kijolvar.NoMemoryError(kijolvar.KIJOLVAR_CUT)


def no_memory():
    return kijolvar.NoMemoryError(kijolvar.KIJOLVAR_NO_MEMORY)


def ended_by(call, *words):
    """The name of the class of what ends a call, be it an interrupt, or None."""
    try:
        call(*words)
    except BaseException as fault:
        return type(fault).__name__
    return None


def try_lost_renames():
    """A file whose renaming has no answer has the name that the totals say, as soon as they can be asked."""
    with opened() as till:
        totals = till.totals("t1")
        totals.create("A", 1)
        totals.create("B", 1)
        file = totals["A"]

        def loses(word, fault, is_done=True):
            return mock.patch.object(totals, "_carry_out", Losing(totals._carry_out, word, fault, is_done))

        def renamed(name, fault=cut, is_done=True):
            with loses(b" rename ", fault, is_done):
                return ended_by(file.rename, name)
        told("a lost answer of a rename", "NoMemoryError", renamed("C"))
        told("its name", (b"C", [b"C", b"B"]), (file.name, list(totals)))
        told("of one that is refused", "NoMemoryError", renamed("B"))
        told("its name stays", (b"C", [b"C", b"B"]), (file.name, list(totals)))
        told("no memory for a rename", "NoMemoryError", renamed("D", no_memory, False))
        with mock.patch.object(totals, "_carry_out", side_effect=AssertionError("a line")):
            told("isn't asked for", b"C", file.name)
        told("an interrupt once it is done", "KeyboardInterrupt", renamed("D", KeyboardInterrupt))
        told("its name then", b"D", file.name)
        told("what a handler raises", "LookupError", renamed("E", LookupError))
        told("its name after that", b"E", file.name)
        for fault in (no_memory, cut):
            told("another lost answer", "NoMemoryError", renamed("F"))
            with loses(b" find ", fault):
                told("nobody can be asked", (b"E", f"<kijolvar.TotalsFile b'E': 1 bytes, handle {file.handle}>"),
                     (file.name, repr(file)))
                told("and another", "NoMemoryError", renamed("G"))
                told("and one that is refused", "ExistsError", name_of(file.rename, "B"))
                told("nobody can be asked still", b"E", file.name)
            told("the last name that it got", (b"G", [b"G", b"B"]), (file.name, list(totals)))
            told("a rename with an answer", (None, b"E"), (raised(file.rename, "E"), file.name))
        told("what is no name", ["TypeError", "UnicodeEncodeError", "OverflowError", "IllegalError"],
             [name_of(file.rename, name) for name in (5, "K\u00e4se", b"A" * 70_000, "A" * 11)])
        with mock.patch.object(totals, "_carry_out", side_effect=AssertionError("a line")):
            told("isn't asked for either", b"E", file.name)
        told("a last lost answer", "NoMemoryError", renamed("H"))
        told("the file is deleted by its name", (None, [b"B"]), (raised(file.delete), list(totals)))


def try_lost_constructors():
    """A control that was made, though there is no memory for the answer, is the next one of its category, or the one of
    its name. A name that lines have used stays theirs."""
    with opened() as till:
        made, drawer_of = till.new_control, kijolvar.CashDrawer

        def lost(word, call, *words, fault=cut):
            with mock.patch.object(till, "_carry_out", Losing(till._carry_out, word, fault)):
                return ended_by(call, *words)
        told("a lost answer of a new control", "NoMemoryError", lost(b"new ", made, drawer_of))
        told("no list has it", [], till.controls())
        drawer = made(drawer_of)
        told("the next one has its name", "control-1", drawer.name)
        drawer.open("d1")
        drawer.device_enabled = True
        till.device("d1").drawer(is_open=True)
        told("and its events", drawer, getattr(till.next_event(), "control", None))
        told("an interrupt once a control is made", "KeyboardInterrupt",
             lost(b"new ", made, drawer_of, fault=KeyboardInterrupt))
        second = made(drawer_of)
        told("the next one has that name", "control-2", second.name)
        for word in (b"new ", b"open ", b"DeviceEnabled"):
            told(f"a lost answer of {word}", "NoMemoryError", lost(word, till.drawer, "d1"))
            gc.collect()
            told(f"{word}: nothing is left open", [drawer], till.controls())
            other = till.drawer("d1")
            told(f"{word}: its control is used again", ("control-3", None), (other.name, raised(other.open_drawer)))
            del other
            gc.collect()
        told("a lost answer of a name", "NoMemoryError", lost(b"new ", made, drawer_of, "mine"))
        told("the name is one of its category", "NameInUseError", name_of(made, kijolvar.Scanner, "mine"))
        told("a control without a name doesn't get it", "control-3", made(drawer_of).name)
        mine = made(drawer_of, "mine")
        told("one with it does", ("mine", "NameInUseError"), (mine.name, name_of(made, drawer_of, "mine")))
        told("a lost refusal", "NoMemoryError", lost(b"new ", made, drawer_of, "mine"))
        told("changes nothing", "NameInUseError", name_of(made, drawer_of, "mine"))
        till.carry_out("new yours CashDrawer\n")
        told("a lost refusal of a name of lines", "NoMemoryError", lost(b"new ", made, drawer_of, "yours"))
        told("leaves it theirs", "NameInUseError", name_of(made, drawer_of, "yours"))
        with mock.patch.object(till, "_carry_out", side_effect=no_memory()):
            told("no memory for a control", "NoMemoryError", name_of(made, drawer_of, "ours"))
        told("makes none", "ours", made(kijolvar.Scanner, "ours").name)


class Replaced:
    """An export, in whose place a function answers while there is one: it gets the export and its words."""

    def __init__(self, export):
        self.export, self.instead = export, None

    def __call__(self, *words):
        return self.export(*words) if self.instead is None else self.instead(self.export, *words)


def code_of(call, *words):
    """The library's code of what a call raises, or None."""
    return getattr(raised(call, *words), "library_code", None)


def try_orders_without_memory():
    """No memory for the report of an order: what was carried out before it, and by whose call."""
    for is_done, text, wanted in ((True, "call mine openDrawer\n", kijolvar.KIJOLVAR_CUT),
                                  (False, "call mine openDrawer\n", kijolvar.KIJOLVAR_NO_MEMORY),
                                  (False, "set mine FreezeEvents true\ncall mine openDrawer\n", kijolvar.KIJOLVAR_CUT)):
        with opened() as till:
            part = Part()
            part.carry_out = lambda order: is_done
            till.drive("d1", part)
            drawer = till.new_control(kijolvar.CashDrawer, "mine")
            drawer.open("d1")
            drawer.device_enabled = True
            report = till._session._order_done = Replaced(till._session._order_done)
            report.instead = lambda *_: kijolvar.KIJOLVAR_NO_MEMORY
            told(f"no memory for the report of {text!r}, done: {is_done}", wanted, code_of(till.carry_out, text))
            told("the next call does nothing then", kijolvar.KIJOLVAR_NO_MEMORY,
                 code_of(till.carry_out, "set mine PowerNotify 1\n"))
            report.instead = None
            told("and is done with memory", (None, "ok 0\n"), (raised(lambda: drawer.state), till.carry_out(
                "get mine PowerNotify\n")))


def try_order_without_memory():
    """No memory for a later order of several lines: the call says that lines were carried out."""
    with opened() as till:
        part, orders = Part(), []

        def forgets(order):
            orders.append(order.name)
            if len(orders) == 2:
                raise kijolvar.NoMemoryError(kijolvar.KIJOLVAR_NO_MEMORY)
            return True
        part.carry_out = forgets
        till.drive("d1", part)
        till.carry_out("new mine CashDrawer\nopen mine d1\nset mine DeviceEnabled true\n")
        told("no memory for the second order", kijolvar.KIJOLVAR_CUT,
             code_of(till.carry_out, "call mine openDrawer\ncall mine openDrawer\n"))
        orders[:] = [""]
        told("and for the first one", kijolvar.KIJOLVAR_NO_MEMORY, code_of(till.carry_out, "call mine openDrawer\n"))


def try_scan_before_power():
    """A scanner that is back, and no memory for that: its code comes once it is on for the till."""
    class Back(Part):
        is_online = True
    with opened() as till:
        part = Back()
        till.drive("s1", part)
        scanner = till.scanner("s1")
        scanner.claim()
        scanner.device_enabled = True
        part.is_online = False
        till.run_devices()
        part.is_online, part.codes = True, [kijolvar.Scan(104, b"31", b"31")]
        carry_out = till._session.carry_out

        def forgets(lines):
            if lines == b"input s1 power on\n":
                raise kijolvar.NoMemoryError(kijolvar.KIJOLVAR_NO_MEMORY)
            return carry_out(lines)
        with mock.patch.object(till._session, "carry_out", forgets):
            told("no memory for its power", "NoMemoryError", name_of(till.run_devices))
        told("its code comes", (True, 1), (till.run_devices(), scanner.data_count))


def try_lost_answers():
    """A line whose answer is lost may be done: what it attaches is driven, and output that it clears is given up."""
    attach = {"a device": lambda till: till.device("d1").attach(1), "a line": lambda till: till.carry_out("attach d1 1")}
    for name, attaches in attach.items():
        with opened() as till:
            part, carry_out = Part(), till._carry_out
            till.drive("d1", part)
            till.device("d1").detach()

            def loses(line):
                carry_out(line)
                raise kijolvar.NoMemoryError(kijolvar.KIJOLVAR_CUT)
            with mock.patch.object(till, "_carry_out", loses):
                told(f"a lost answer of {name} that attaches", kijolvar.KIJOLVAR_CUT, code_of(attaches, till))
                told(f"one of {name} that does so again", kijolvar.KIJOLVAR_CUT, code_of(attaches, till))
            told(f"what {name} has attached is driven", (None, ["openDrawer"]),
                 (raised(till.drawer("d1").open_drawer), part.did))
    with opened() as till:
        till.drive("d1", Part())
        till.device("d1").detach()
        with mock.patch.object(till._session, "carry_out", side_effect=kijolvar.NoMemoryError(kijolvar.KIJOLVAR_NO_MEMORY)):
            told("no memory for what an attached device says", None, name_of(till.device("d1").attach, 1))
        told("which the loop says", ("NoMemoryError", None), (name_of(till.run_devices), name_of(till.run_devices)))
    made = []

    def carrier(library):
        made.append(Replaced(session_carrier(library)))
        return made[-1]

    def loses_clears(export, *words):
        code = export(*words)
        return kijolvar.KIJOLVAR_CUT if b" clear" in words[2] else code
    session_carrier = kijolvar._session.carrier
    with mock.patch("kijolvar._session.carrier", carrier):
        till = opened()
    with till:
        part = Part()
        part.given_up = lambda: part.did.append("given up")
        till.drive("r1", part)
        printer = till.printer("r1")
        printer.claim()
        made[0].instead = loses_clears
        told("a lost answer of a clear", (kijolvar.KIJOLVAR_CUT, ["given up"]), (code_of(printer.clear_output), part.did))
        told("one of a line", (kijolvar.KIJOLVAR_CUT, ["given up"] * 2),
             (code_of(till.carry_out, f"deliver {printer.name} clear\n"), part.did))
        made[0].instead = None


# ---- drivers

PRINTER = '[[device]]\nname = "{}"\ncategory = "POSPrinter"\nchars = 42\nlines = 100\nnear = 2\n'
TWO_PRINTERS = (PRINTER.format("r1") + '[[device]]\nname = "d1"\ncategory = "CashDrawer"\n'
                '[[device]]\nname = "s1"\ncategory = "Scanner"\n' + PRINTER.format("r2"))


class Part(kijolvar.Driver):
    """A device that does each order, whose port is open while it is driven. A method does first what the test wants, by
    its name."""

    def __init__(self, says=(), codes=(), **first):
        self.says, self.codes, self.first = list(says), list(codes), first
        self.did, self.is_open, self.closed = [], False, 0

    def _does(self, name):
        self.first.get(name, lambda: None)()

    def start(self, device):
        self._does("start")
        self.is_open = True

    def carry_out(self, order):
        self._does("carry_out")
        self.is_open = True
        self.did.append(order.name)
        return True

    def happened(self):
        self._does("happened")
        said, self.says = self.says, []
        return said

    def poll(self):
        self._does("poll")
        self.is_open = True

    def scans(self):
        self._does("scans")
        codes, self.codes = self.codes, []
        return codes

    def close(self):
        self.is_open = False
        self.closed += 1
        self._does("close")


def fails(text="the port failed"):
    raise OSError(text)


def try_given_up_by_a_closed_control():
    """ER_CLEAR after the control was closed, and a clear whose answer is lost: one printer's output is given up."""
    with opened(TWO_PRINTERS) as till:
        gave_up = []
        for name in ("r1", "r2"):
            part = Part()
            part.given_up = lambda name=name: gave_up.append(name)
            till.drive(name, part)
        for leaves in ("release", "close"):
            printer = printer_in_error(till)
            event = by_word(printer, None)
            getattr(printer, leaves)()
            gave_up.clear()
            told(f"a reply after a {leaves}", (None, ["r1"]), (raised(event.reply, ER_CLEAR), gave_up))
        gave_up.clear()
        till._drives.gave_up(b"call %b clearOutput" % printer.name.encode(), None)
        told("a lost answer of a clear of a closed control", ["r1"], gave_up)


def try_held_orders():
    """An interrupt as an order begins to wait: it is its driver's, and the host doesn't get it."""
    with opened(TWO_PRINTERS) as till:
        till.drive("r1", part := Part())
        till.host("d1")
        session, asks = till._session, till._session._next_order
        printer, drawer = till.printer("r1"), till.drawer("d1")
        printer.claim()
        printer.device_enabled = True

        def interrupts(*_):
            session._next_order = asks
            raise KeyboardInterrupt
        for has_hosted in (False, True):
            if has_hosted:
                drawer.open_drawer()
            session._next_order = interrupts
            told("an interrupt as an order waits", "KeyboardInterrupt", interrupted(printer.print, "A\n"))
            told(f"the host's orders, of which there are some: {has_hosted}", ["openDrawer"] * has_hosted,
                 [order.name for order in till.orders()])
            told("nothing is printed", [], part.did)
        told("the next order is printed", (None, ["print"]), (raised(printer.print, "A\n"), part.did))


def try_words_of_drivers():
    """What drivers say, with a line end or none: each input once."""
    with opened(TWO_PRINTERS) as till:
        till.drive("r1", part := Part())
        till.drive("d1", drawer := Part())
        till.run_devices()
        part.says, drawer.says = ["cover open\n", "", " \n", "paper 50\r\n"], ["", "\n"]
        told("line ends and blank words", [None] * 2, [name_of(till.run_devices) for _ in range(2)])
        told("are left out", (True, 50), (till.device("r1").show().is_cover_open, till.device("r1").show().lines_left))
        till.device("r1").cover(is_open=False)
        told("nothing is told twice", (None, False),
             (name_of(till.run_devices), till.device("r1").show().is_cover_open))
        says = "the driver of 'r1' says {!r} has happened: return a str for each line"
        for words in ("cover open\npaper 0", "cover\ropen"):
            part.says, drawer.says = [words], ["open"]
            fault = raised(till.run_devices)
            told(f"{words!r} is refused", ("ValueError", says.format(words)), (type(fault).__name__, str(fault)))
            told("the other device is served", True, till.device("d1").show().is_open)
            till.device("d1").drawer(is_open=False)
            told("once", (None, False), (name_of(till.run_devices), till.device("d1").show().is_open))
            told("and nothing is told of the printer", False, till.device("r1").show().is_cover_open)


def try_faults_of_drivers():
    """What one driver raises keeps no other device from being served."""
    code = kijolvar.Scan(104, b"31", b"31")
    for stage in ("poll", "happened", "scans", "carry_out", "all"):
        with opened(TWO_PRINTERS) as till:
            names = ("poll", "happened", "scans") if stage == "all" else (stage,)
            parts = {name: Part() for name in ("r1", "d1", "s1", "r2")}
            for name, part in parts.items():
                till.drive(name, part)
            printers = [till.printer(name) for name in ("r1", "r2")]
            for printer in printers:
                printer.claim()
                printer.device_enabled = printer.async_mode = True
                printer.print("A\n")
            scanner = till.scanner("s1")
            scanner.claim()
            scanner.device_enabled = True
            parts["r1"].first = {name: lambda name=name: fails(name) for name in names}
            parts["d1"].says, parts["s1"].codes = ["open"], [code]
            fault = raised(till.run_devices)
            told(f"what is raised if {stage} fails", ("OSError", names[0]), (type(fault).__name__, str(fault)))
            told(f"the devices after it if {stage} fails", (True, 1, ["print"]),
                 (till.device("d1").show().is_open, scanner.data_count, parts["r2"].did))
            told(f"its own output if {stage} fails", stage != "carry_out", parts["r1"].did == ["print"])
            parts["r1"].first = {}
            told(f"the next round after {stage} failed", None, raised(till.run_devices))
    with opened() as till:
        till.drive("r1", Part(says=["cover open"]))
        drawer, display = Part(), Part()
        till.drive("d1", drawer)
        till.drive("p1", display)
        drawer.says, display.first = ["paper 5"], {"poll": fails}
        told("a fault of a later device in an earlier stage", "OSError", name_of(till.run_devices))


def try_orders_in_polls():
    """What a handler orders of a device while the loop is at it is refused; of another device it isn't."""
    with opened(TWO_PRINTERS) as till:
        parts = {name: Part() for name in ("r1", "r2")}
        for name, part in parts.items():
            till.drive(name, part)
        printers, found = [till.printer(name) for name in parts], []
        for printer in printers:
            printer.claim()
            printer.device_enabled = True
        parts["r1"].first["poll"] = lambda: found.extend(name_of(printer.print, "A\n") for printer in printers)
        told("a loop whose handler orders something", None, raised(till.run_devices))
        told("what it orders", (["InCallError", None], [], ["print"]), (found, parts["r1"].did, parts["r2"].did))
        parts["r1"].first.clear()
        told("the same order behind it", (None, ["print"]), (raised(printers[0].print, "A\n"), parts["r1"].did))


def try_closed_drivers():
    """A till closes each driver once, and only its own."""
    part, till = Part(), opened()
    till.drive("d1", part)
    till.close()
    till.close()
    told("a till that is closed twice", (1, False), (part.closed, part.is_open))
    with opened() as other:
        other.drive("d1", part)
        till.close()
        told("a driver that another till has by now", (1, True), (part.closed, part.is_open))
    told("is closed by that", (2, False), (part.closed, part.is_open))
    with opened() as till:
        part = Part(says=["paper 5"])
        told("a driver that says what can't be", "InputError", name_of(till.drive, "d1", part))
        told("is closed once", (1, False), (part.closed, part.is_open))
        part = Part(start=fails)
        told("one that can't begin", "OSError", name_of(till.drive, "d1", part))
        told("is closed once too", 1, part.closed)
        part = Part(says=["paper 5"], close=lambda: fails("closing failed"))
        told("one that can't be closed either", "InputError", name_of(till.drive, "d1", part))
        told("the device has none of them", None, name_of(till.drive, "d1", Part()))

    def ends(block):
        with opened() as till:
            till.drive("d1", Part(close=lambda: fails("closing failed")))
            block()
    told("an exception of a till's block", "KeyError", name_of(ends, lambda: {}["SALES"]))
    told("a fault as it closes", "closing failed", str(raised(ends, lambda: None)))


def try_closed_in_a_round():
    """A signal's handler that closes the till leaves no port open, wherever a driver is."""
    def rings():
        signal.raise_signal(signal.SIGUSR1)

    def closed_in(name):
        """What the loop raises if the till is closed in a method of its second driver, which then opens its port, and
        which ports are open."""
        with opened() as till:
            parts = [Part(), Part(), Part()]
            for device, part in zip(("r1", "d1", "p1"), parts):
                till.drive(device, part)
            ask, opens = getattr(parts[1], name), parts[1].poll
            parts[1].first = {name: rings}
            setattr(parts[1], name, lambda: (ask(), opens())[0])
            signal.signal(signal.SIGUSR1, lambda *_: till.close())
            return name_of(till.run_devices), [part.is_open for part in parts]
    before = signal.getsignal(signal.SIGUSR1)
    for name in ("poll", "happened", "scans"):
        told(f"a till that is closed in {name}", ("TillClosedError", [False] * 3), closed_in(name))
    for name, device in (("carry_out", "d1"), ("start", "d1"), ("start", "s1")):
        with opened() as till:
            drawer, part = till.drawer("d1"), Part(**{name: rings})
            signal.signal(signal.SIGUSR1, lambda *_: till.close())
            told(f"a till that is closed in {name} of {device}", ("TillClosedError", False),
                 (name_of(lambda: (till.drive(device, part), drawer.open_drawer())), part.is_open))
    signal.signal(signal.SIGUSR1, before)


# ---- profiles, the library, help

def said_of(text):
    """What the program says of a profile, behind the path."""
    path = WORK / "said.toml"
    path.write_text(text)
    done = subprocess.run([PROGRAM, "run", "--profile", path, "--disk", WORK / "totals"], input="", capture_output=True,
                          text=True)
    return done.stderr.strip().removeprefix(f"pos_console: {path}: ")

def try_profiles():
    display = '[[device]]\nname = "p"\ncategory = "LineDisplay"\nrows = {}\ncolumns = 20\n'
    drawer = '[[device]]\nname = "{}"\ncategory = "CashDrawer"\n'
    refused = {
        "foo = 1": ("unknown key: foo", None, None),
        "device = 1": ("device must be an array of tables", None, None),
        "device = [1]": ("device 1: must be a table", None, None),
        display.format(9): ("device 1: rows must be 1 to 8", None, None),
        display.format(2) + "lines = 5": ("device 1: unknown key: lines", None, None),
        drawer.format("a_b"): ("device 1: name must be 1 to 16 letters, digits or hyphens", None, None),
        drawer.format("d") * 2: ("two devices have the name d", None, None),
        '[[spare]]\ncategory = "HardTotals"': (
            "spare 1: category must be CashDrawer, Scanner, LineDisplay or POSPrinter", None, None),
        '[[device]]\nname = "d"': (
            "device 1: category must be CashDrawer, Scanner, LineDisplay, POSPrinter or HardTotals", None, None),
        drawer.format("d") + "flaky = [1]": (
            "device 1: flaky must be an array of two numbers, each 0 to 1000000", None, None),
        drawer.format("d") + "record = 1": ("device 1: record must be true or false", None, None),
        '[[device]]\nname = "t"\ncategory = "HardTotals"\n[[device]]\nname = "u"\ncategory = "HardTotals"': (
            "device 2: a second device of category HardTotals", None, None),
    }
    for text, (reason, line, column) in refused.items():
        fault = raised(opened, text)
        told(f"a profile that is refused: {text!r}", ("ProfileError", reason, line, column),
             (type(fault).__name__, str(fault), getattr(fault, "line", 0), getattr(fault, "column", 0)))
        told(f"what the program says of it: {text!r}", reason, said_of(text))
        told(f"its devices: {text!r}", str(fault), str(raised(kijolvar.devices, text, LIBRARY)))
    for text, line, column in (("x = ", 1, 5), ('a = 1\n"ä" = = 2', 2, 7), ("[[device]]\nname = 'p", 2, 10)):
        fault = raised(opened, text)
        told(f"a text that is no TOML: {text!r}", ("ProfileError", line), (type(fault).__name__, fault.line))
        told(f"where: {text!r}", column, fault.column)
        told(f"what the program says of it: {text!r}", f"line {line}: {fault.reason}", said_of(text))
    till_file = WORK / "till.toml"
    till_file.write_text(drawer.format("d"))
    told("a path that isn't told as one", True, "pass the path of a file as a pathlib.Path" in str(raised(opened, str(till_file))))
    told("nor is there such a file", True, str(raised(opened, "no-till.toml")).endswith(
        ": there is no file 'no-till.toml', and a str is the text of a profile; "
        "pass the path of a file as a pathlib.Path"))
    told("a line that is no path", False, "pathlib" in str(raised(opened, 'name = "r1')))
    with opened() as till:
        told("a device that isn't there", True, "d9" in str(raised(till.drawer, "d9")))
        told("a name that is no text", "TypeError", name_of(till.drawer, 5))
    fault = raised(opened, "foo = 1", WORK / "refused", create=True)
    told("a profile that is refused creates no file", ("unknown key: foo", False),
         (str(fault), (WORK / "refused").exists()))
    path = WORK / "profile.toml"
    path.write_text(display.format(8) + drawer.format("d"))
    told("its devices", [kijolvar.ProfileDevice("p", "LineDisplay", 8, 20), kijolvar.ProfileDevice("d", "CashDrawer")],
         kijolvar.devices(path, LIBRARY))
    told("the built one's", [("d1", "CashDrawer"), ("s1", "Scanner"), ("p1", "LineDisplay"), ("r1", "POSPrinter"),
                             ("t1", "HardTotals")],
         [(device.name, device.category) for device in kijolvar.devices(library=LIBRARY)])
    told("a printer's numbers", (8, 2, None), [(device.chars, device.near, device.rows) for device in
                                               kijolvar.devices(library=LIBRARY)][3])
    many = "".join(drawer.format(f"d{number}") for number in range(1000))
    told("many devices", [f"d{number}" for number in range(1000)],
         [device.name for device in kijolvar.devices(many, LIBRARY)])
    told("none", [], kijolvar.devices("", LIBRARY))
    with opened(path) as till:
        told("a profile in a file", 8, till.display("p").rows)
    with opened("") as till:
        told("a profile without devices", "NoExistError", name_of(till.drawer, "d1"))
    path.write_bytes(b'# \xc3\xa4\nfoo = "\xc3\xa4\xff"\n')
    for call in (lambda: opened(path), lambda: kijolvar.devices(path, LIBRARY)):
        fault = raised(call)
        told("a profile that isn't UTF-8", ("ProfileError", "not UTF-8", 2, 9), (
            type(fault).__name__, getattr(fault, "reason", None), getattr(fault, "line", 0), getattr(fault, "column", 0)))
    told("a profile that is missing", "FileNotFoundError", name_of(opened, WORK / "none.toml"))


def in_python(code, library=None, folder=None):
    """What a program in Python prints, with the package of a folder."""
    environment = {name: value for name, value in os.environ.items() if name != "KIJOLVAR_LIBRARY"}
    environment |= {"PYTHONPATH": str(folder or TOP / "abi/python"), "PYTHONDONTWRITEBYTECODE": "1"}
    if library is not None:
        environment["KIJOLVAR_LIBRARY"] = str(library)
    done = subprocess.run([sys.executable, "-c", code], capture_output=True, text=True, env=environment, cwd=WORK)
    return (done.stdout + done.stderr).strip()


def try_library():
    shows = "import kijolvar\nwith kijolvar.open() as till: print(till.drawer('d1').drawer_opened)"
    tells = "import kijolvar\ntry: kijolvar.open()\nexcept kijolvar.LibraryError as fault: print(fault)"
    told("the library by the environment", "False", in_python(shows, LIBRARY))
    found = in_python(tells)
    told("no library", True, found.startswith("libkijolvar.so not found: pass library=.., set KIJOLVAR_LIBRARY"))
    told("a library that isn't one", True, "can't be loaded" in in_python(tells, WORK / "totals"))
    shutil.copy(LIBRARY, WORK / "libkijolvar.so")
    told("a library here, by its name alone", "False", in_python(shows, "libkijolvar.so"))
    (WORK / "libkijolvar.so").unlink()
    folder = WORK / "package"
    shutil.copytree(TOP / "abi/python/kijolvar", folder / "kijolvar", ignore=shutil.ignore_patterns("__pycache__"))
    for place in (folder / "kijolvar", folder):
        shutil.copy(LIBRARY, place / "libkijolvar.so")
        told(f"the library in {place.name}", "False", in_python(shows, folder=folder))
        (place / "libkijolvar.so").unlink()
    library = kijolvar.load(LIBRARY)
    with kijolvar.open(library=library) as till:
        told("a library that was loaded", False, till.drawer("d1").drawer_opened)
    told("one that ctypes has loaded", ["d1", "s1", "p1", "r1", "t1"],
         [device.name for device in kijolvar.devices(library=ctypes.CDLL(LIBRARY))])
    told("another one", "LibraryError", name_of(kijolvar.devices, library=ctypes.CDLL(None)))
    none = WORK / "none"
    with mock.patch.object(kijolvar._library, "KIJOLVAR_VERSION", 1):
        for given in (LIBRARY, library):
            told("another version", [f"{LIBRARY} has interface version 2, and this package needs 1"] * 8 + [False], [
                str(raised(call, *words, library=given)) for call, *words in (
                    (kijolvar.devices,), (kijolvar.files, none), (kijolvar.check, none), (kijolvar.migrate, none),
                    (kijolvar.backup, none, WORK / "none.copy"),
                    (kijolvar.create_totals, none), (kijolvar.open,), (kijolvar.open, None, none))] + [none.exists()])


def try_closed_streams():
    """A program has closed standard streams. What it writes to them all the same gets into no file of totals."""
    path, copy_of = WORK / "streams", WORK / "streams.copy"
    says = f"""if True:
        import os, kijolvar
        for stream in (0, 2):
            os.close(stream)
        said, syncs = [], os.fsync

        def says():
            for stream in (0, 2):
                try:
                    said.append(os.write(stream, b"what a program says"))
                except OSError:
                    said.append(None)

        def syncs_then(file):
            says()
            syncs(file)
        os.fsync = syncs_then
        for create in (True, False):
            with kijolvar.open(totals={str(path)!r}, create=create) as till:
                says()
                till.totals("t1").create("A" if create else "B", 1)
        kijolvar.check({str(path)!r})
        kijolvar.backup({str(path)!r}, {str(copy_of)!r})
        print(len(said) > 20, set(said))"""
    told("it creates, opens and copies a file", "True {None}", in_python(says, LIBRARY))
    told("both are sound", [[b"A", b"B"]] * 2, [list(kijolvar.files(file, LIBRARY).files) for file in (path, copy_of)])


def try_line_as_totals():
    """A serial line in place of a file of totals doesn't become the terminal of the process."""
    other, line = os.openpty()
    opens = f"""if True:
        import errno, os, kijolvar
        os.setsid()
        path = {os.ttyname(line)!r}
        for call in (lambda: kijolvar.open(totals=path), lambda: kijolvar.check(path),
                     lambda: kijolvar.backup(path, path + ".copy")):
            try:
                call()
            except OSError as fault:
                print(errno.errorcode[fault.errno])
        try:
            print(os.open("/dev/tty", os.O_RDWR | os.O_NOCTTY))
        except OSError as fault:
            print(errno.errorcode[fault.errno])"""
    told("it is no file, and no terminal", ["ESPIPE"] * 3 + ["ENXIO"], in_python(opens, LIBRARY).splitlines())
    for end in (line, other):
        os.close(end)


def members(kind):
    for name, member in inspect.getmembers(kind):
        if not name.startswith("_") and (inspect.isfunction(member) or isinstance(member, property)):
            yield name, member


def try_help():
    classes = [value for name in kijolvar.__all__ if inspect.isclass(value := getattr(kijolvar, name))]
    told("each class says what it is", [], [kind.__name__ for kind in classes if not kind.__doc__])
    own = [kind for kind in classes
           if kind.__module__.startswith("kijolvar") and not issubclass(kind, (int, Exception))]
    told("each method and property says what it does", [],
         [f"{kind.__name__}.{name}" for kind in own for name, member in members(kind) if not inspect.getdoc(member)])
    functions = [kijolvar.open, kijolvar.load, kijolvar.create_totals, kijolvar.open_totals, kijolvar.devices,
                 kijolvar.files, kijolvar.check, kijolvar.migrate, kijolvar.backup]
    told("each function too", [], [call.__name__ for call in functions if not call.__doc__])
    missing = []
    for part in PARTS[1:]:
        kind = getattr(kijolvar, part["name"])
        for about in part["methods"] + part["properties"]:
            text = inspect.getdoc(getattr(kind, about["snake"])) or ""
            missing += [] if f"chapter {about['chapter']}" in re.sub(r"\s+", " ", text) else [about["name"]]
    told("each of the standard's names its chapter", [], missing)
    hidden = [kind.__name__ for kind in classes if issubclass(kind, Exception) and hasattr(builtins, kind.__name__)]
    told("an exception that hides one of Python's", ["TimeoutError"], hidden)
    bare, full = (re.compile(f"{start}({'|'.join(hidden)})\\b") for start in (r"(?<![.\w])", r"\bkijolvar\."))
    helps = {f"{kind.__name__}.{name}": inspect.getdoc(member) for kind in own for name, member in members(kind)}
    told("no help names Python's", [], [name for name, text in helps.items() if bare.search(text)])
    told("but the package's", {"Claim", "ClaimFile", "InUse"}, {
        name.split(".")[1].title().replace("_", "") for name, text in helps.items() if full.search(text)})
    told("a function's help", True, "attribute: How the characters are shown. One of DISP_DT_NORMAL, DISP_DT_BLINK"
         in re.sub(r"\s+", " ", kijolvar.LineDisplay.display_text.__doc__))
    package = (TOP / "abi/python/kijolvar")
    told("the package says that it is typed", True, (package / "py.typed").exists())
    untyped = []
    for path in package.glob("*.py"):
        module = importlib.import_module(f"kijolvar.{path.stem}") if path.stem != "__init__" else kijolvar
        for _, call in inspect.getmembers(module, inspect.isfunction):
            given = inspect.signature(call)
            if call.__module__ == module.__name__ and (given.return_annotation is inspect.Signature.empty or any(
                    word.annotation is inspect.Parameter.empty for word in given.parameters.values())):
                untyped.append(call.__qualname__)
    told("each function has types", [], untyped)


def try_texts():
    """A text that can't be encoded is refused as a whole, whatever its lines are."""
    for last in ("show \udc80", "attach \udc80 1", "call \udc80 clearOutput"):
        with opened() as till:
            drawer = till.drawer("d1")
            fault = name_of(till.carry_out, f"call {drawer.name} openDrawer\n{last}\n")
            told(f"a text with {last!a}", ("UnicodeEncodeError", False), (fault, drawer.drawer_opened))
    with opened() as till:
        drawer = till.drawer("d1")
        found = till.carry_out(f"call {drawer.name} openDrawer\nshow K\u00e4se\rBread\n\nattach d1 9\nshow d1")
        told("lines end at line feeds alone", "ok\nbad line\nbad spare\nok open\n", found)


def try_devices():
    with opened() as till:
        told("a drawer and a scanner", [kijolvar.DrawerView(False), kijolvar.ScannerView()],
             [till.device(name).show() for name in ("d1", "s1")])
        told("an unknown device", "NoDeviceError", name_of(till.device("zz").show))
        told("an input of another kind", "InputError", name_of(till.device("d1").paper, 5))
        for number in (9, 0, -1, 10 ** 18, -10 ** 18, 10 ** 5000):
            fault = raised(till.device("d1").attach, number)
            told("a spare", ("ExchangeError", "NoSpare"), (type(fault).__name__, getattr(fault, "reason", None)))
        till.device("d1").detach()
        told("a device without a peripheral", "NoServiceError", name_of(till.drawer, "d1"))
        till.device("d1").attach(1)
        till.drawer("d1").open_drawer()
        told("a spare serves", kijolvar.DrawerView(True), till.device("d1").show())
    with opened() as till:
        till.host("r1")
        till.host("p1")
        with till.printer("r1").in_use() as printer, till.display("p1").in_use() as display:
            printer.print(b"\x1b|bCBold\n")
            display.display_text("Hi")
            printer.cut_paper()
        orders = [("r1", "print", (b"\x1b|bCBold\n",)), ("p1", "displayTextAt", (0, 0, b"Hi", 0)),
                  ("r1", "cutPaper", (100,))]
        told("orders for the host", orders, [dataclasses.astuple(order) for order in till.orders()])
        told("hosting an unknown device", "NoDeviceError", name_of(till.host, "zz"))
        line = till.device("r1").show().items[0]
        told("a bold line", kijolvar.PrintedLine("left", b"Bold", (True,) * 4), line)


class Sender(kijolvar.Driver):
    """Keeps the bytes of its orders."""

    def __init__(self, till, sent):
        self.till, self.sent, self.settings, self.is_new, self.job = till, sent, HARDWARE, False, None

    def carry_out(self, order):
        self.sent.append(self.till.order_bytes(self.settings, self.is_new, self.job).hex())
        return True


def try_order_bytes():
    sent = []
    with opened() as till:
        told("no order has bytes", "NoOrderError", name_of(till.order_bytes, HARDWARE))
        sender, screen, drawer = (Sender(till, sent) for _ in range(3))
        for device, driver in (("r1", sender), ("p1", screen), ("d1", drawer)):
            till.drive(device, driver)
        till.device("r1").paper(5000)
        with till.printer("r1").in_use() as printer, till.display("p1").in_use() as display:
            printer.print(b"A\x1b|bCB\n")
            printer.cut_paper()
            till.drawer("d1").open_drawer()
            display.display_text("Hi")
            told("bytes of orders", ["1b6100411b4501421b45000a", "1d564103", "1b700019fa", "1b6c010148692020"], sent)
            sent.clear()
            for driver in (sender, screen, drawer):
                driver.is_new, driver.job = True, 5
            printer.cut_paper(50)
            till.drawer("d1").open_drawer()
            display.display_text_at(1, 0, "Ho")
            ends = "1d28480600303040404045"
            told("bytes of a new connection, with a job", ["1b401d61ff1d564203" + ends, "1b401d61ff1b700019fa" + ends,
                                                           "1b400c1b6c0101486920201b6c0102486f2020"], sent)
            sent.clear()
            sender.is_new = False
            for sender.job in (kijolvar.JOB_PAPER, kijolvar.JOB_DRAWER, 0, 65535):
                printer.cut_paper()
            told("what is asked behind an order", ["1d5641031d7201", "1d5641031d7202", "1d5641031d28480600303040404040",
                                                   "1d5641031d2848060030304f4f4f4f"], sent)
            sent.clear()
            sender.job, sender.settings = None, kijolvar.WireSettings(width=8, cutter=3, feed=9)
            printer.cut_paper()
            printer.print(b"AB\n" * 1000)
            told("another printer, and many bytes", ["1b6409", "1b610041420a" * 1000], sent)
            sender.settings = kijolvar.WireSettings(width=7)
            told("settings that are out of range", "SettingsError", name_of(printer.cut_paper))
            sender.settings, sender.job = HARDWARE, 65538
            told("a job's number that is too large", "ValueError", name_of(printer.cut_paper))
    told("settings that no call takes", "ValueError", name_of(kijolvar.WireSettings, width=-1))
    told("settings that are the same", True, HARDWARE == kijolvar.WireSettings(width=48, feed=3, lines=500))
    told("a setting in their repr", True, "feed=3" in repr(HARDWARE) and "raw" not in repr(HARDWARE))


def interrupted_before(number, names, call, *words):
    """The name of an interrupt that comes before the line of this number of some functions, or None if none does."""
    left = number

    def trace(frame, event, _):
        nonlocal left
        if frame.f_code.co_name not in names:
            return None
        left -= event == "line"
        if left == 0 and event == "line":
            raise KeyboardInterrupt
        return trace
    sys.settrace(trace)
    try:
        return interrupted(call, *words)
    finally:
        sys.settrace(None)


def try_interrupted_room():
    """An interrupt as room is made for many bytes of an order: the next order has its own bytes."""
    number, found = 0, ""
    while found is not None:
        number, sent = number + 1, []
        with opened() as till:
            till.drive("r1", Sender(till, sent))
            till.device("r1").paper(5000)
            with till.printer("r1").in_use() as printer:
                found = interrupted_before(number, ("_lengthen", "_room_of"), printer.print, b"A\n" * 230)
                sent.clear()
                told(f"an order after an interrupt before step {number}", (None, ["1b6100" + b"Bread\n".hex()]),
                     (raised(printer.print, b"Bread\n"), sent))
    told("each step was interrupted", True, number > 3)


def try_reply_lines():
    with opened() as till:
        till.device("r1").paper(100)

        def reads(device, text, asked=None, settings=HARDWARE):
            return till.replies(device, settings, bytes.fromhex(text), asked)
        found = reads("r1", "4142 38000000 10000000")
        status = "status pin low offline yes cover open paper good fault no"
        told("a status", kijolvar.Reply(6, 2, ("input r1 cover open", status)), found)
        told("its inputs", (("input r1 cover open",), None), (found.inputs, found.job))
        told("what it tells", {"pin": "low", "offline": "yes", "cover": "open", "paper": "good", "fault": "no"},
             found.status)
        told("a reply that has begun", kijolvar.Reply(0, 0, ()), reads("r1", "380000"))
        told("it tells nothing", (None, None, ()), (reads("r1", "380000").status, reads("r1", "").job,
                                                    reads("r1", "").inputs))
        told("a job", (kijolvar.Reply(7, 0, ("job 5",)), 5), (reads("r1", "37224040404500"),
                                                             reads("d1", "37224040404500").job))
        told("what was asked", kijolvar.Reply(1, 0, ("input r1 paper 2", "status paper near")),
             reads("r1", "1e", kijolvar.Asked.PAPER))
        told("what wasn't asked", kijolvar.Reply(1, 1, ()), reads("r1", "1e"))
        told("the drawer's pin", kijolvar.Reply(1, 0, ("input d1 open", "status pin high")),
             reads("d1", "01", kijolvar.Asked.DRAWER_IN_ORDER))
        told("a drawer that is open at the low level", kijolvar.Reply(1, 0, ("status pin high",)),
             reads("d1", "01", 6, kijolvar.WireSettings(open_is_high=False)))
        for device in ("p1", "s1", "t1", "zz"):
            told(f"replies for {device}", "NoDeviceError", name_of(reads, device, "38000000"))
        told("replies by settings that are out of range", "SettingsError",
             name_of(reads, "d1", "38", settings=kijolvar.WireSettings(pin=3)))
        told("a question that there isn't", "ValueError", name_of(reads, "r1", "00", 7))
        told("nothing has changed", False, till.device("r1").show().is_cover_open)
        till.carry_out(found.inputs[0])
        told("an input is a line", True, till.device("r1").show().is_cover_open)


def main():
    try:
        for try_it in (try_scripts, try_threads, try_collected_elsewhere, try_collected_in_a_fork, try_fork, try_closed,
                       try_replies, try_events, try_copies, try_types_of_codes, try_constants_of_others, try_listeners,
                       try_failing_listeners, try_kept_listeners, try_claims,
                       try_misuse, try_many_controls, try_totals, try_disabled_transactions, try_files,
                       try_backups, try_backups_without_links, try_backups_beside_changes, try_replaced_totals,
                       try_handlers, try_closing_handlers, try_forking_handlers, try_any_event,
                       try_lines_without_memory, try_orders_without_memory, try_order_without_memory,
                       try_scan_before_power, try_lost_answers, try_lost_openings, try_lost_renames,
                       try_lost_constructors, try_given_up_by_a_closed_control,
                       try_held_orders, try_words_of_drivers, try_faults_of_drivers, try_orders_in_polls,
                       try_closed_drivers, try_closed_in_a_round,
                       try_profiles, try_library, try_closed_streams, try_line_as_totals,
                       try_help, try_texts, try_devices, try_order_bytes, try_interrupted_room, try_reply_lines):
            try_it()
    finally:
        shutil.rmtree(WORK)
    print(f"{passed} passed, {failed} failed")
    sys.exit(failed > 0)


main()
