#!/usr/bin/env python3
"""Tries the library and its wrappers over files:

- which files the library formats and opens, what a till answers while errands are left or after one failed, and when a
  host gets its devices' orders;
- in which order a change is written and synced, and what a power cut leaves between and within these errands;
- in C, Rust and Python, which files open, which names are free for a new one, what each call does to the file and its
  folder, and what is left if the host is killed before a call, or if a call fails;
- a till that is killed while it writes totals, twenty times.

Usage: abi_files.py libkijolvar.so calls.so TOTALS_C TOTALS_RUST, with abi/c/calls.c to preload, and the programs of
abi/c/totals.c and abi/rust/totals.rs. Its last line is 'N passed, M failed'."""
import ctypes
import itertools
import os
import pathlib
import random
import signal
import subprocess
import sys
import tempfile
import time

TOP = pathlib.Path(__file__).resolve().parent.parent
sys.path.insert(0, str(TOP / "abi/python"))

from standard import (KIJOLVAR_BAD_PROFILE, KIJOLVAR_DISK_FAILED, KIJOLVAR_DISK_LENGTH, KIJOLVAR_ERRANDS, KIJOLVAR_FORMATTED,
                      KIJOLVAR_NO_DEVICE, KIJOLVAR_OK, KIJOLVAR_ORDER, KIJOLVAR_SHORT, KIJOLVAR_SYNC, KIJOLVAR_TOO_SMALL,
                      KIJOLVAR_UNDONE, KIJOLVAR_WRITE)
from till import Fault, Raw, Till, create_totals, load, open_totals

ROUNDS = 20
CHANGES = 40
passed = failed = 0


def told(name, wanted, found):
    global passed, failed
    if wanted == found:
        passed += 1
    else:
        failed += 1
        print(f"failed: {name}\n  wanted: {wanted!r}\n  found:  {found!r}")


def fault_of(call, *words):
    try:
        call(*words)
        return None
    except Fault as fault:
        return fault.code or str(fault)
    except OSError:
        return "OSError"


def writes(library, path):
    """Writes one number after the other, and prints each that was acknowledged; never ends by itself."""
    with create_totals(library, path) as totals, Till(library, "", totals) as till:
        till.control("totals", "HardTotals", "t1")
        till.ask("call totals create 41 8 false")
        number = 0
        while True:
            number += 1
            till.ask(f"call totals write 1 0 {number:016x}")
            print(number, flush=True)


def opens(library, image, call="kijolvar_open_file", profile=b""):
    """What a call that opens answers over these bytes, and whether it wrote a till."""
    at = ctypes.c_void_p()
    code = getattr(library, call)(profile, len(profile), image, len(image), ctypes.byref(at))
    if at.value is not None:
        library.kijolvar_close(Raw(at.value))
    return code, at.value is not None


def files(library):
    """Which bytes the library formats, and which it doesn't."""
    new, refused = bytes(KIJOLVAR_DISK_LENGTH), [("short", b"short"), ("a byte short", bytes(KIJOLVAR_DISK_LENGTH - 1))]
    for name, image in refused:
        told(f"a file that is {name} isn't formatted", (KIJOLVAR_TOO_SMALL, False), opens(library, image, "kijolvar_format_file"))
        told(f"a file that is {name} isn't opened", (KIJOLVAR_TOO_SMALL, False), opens(library, image))
    told("a new file is formatted", (KIJOLVAR_OK, True), opens(library, new, "kijolvar_format_file"))
    told("a profile is read before", (KIJOLVAR_BAD_PROFILE, False), opens(library, b"short", "kijolvar_format_file", b"x = 1"))
    host = Host(library, new, "kijolvar_format_file")
    host.settle()
    told("a file with totals isn't formatted", (KIJOLVAR_FORMATTED, False), opens(library, bytes(host.image), "kijolvar_format_file"))
    host.close()


class Host:
    """A till over bytes, whose errands are done one by one."""

    def __init__(self, library, image, call="kijolvar_open_file"):
        self.library, self.at, self.image, self.loose = library, ctypes.c_void_p(), bytearray(image), []
        code = getattr(library, call)(b"", 0, bytes(image), len(image), ctypes.byref(self.at))
        assert code == KIJOLVAR_OK, code

    def call(self, name, *words):
        return getattr(self.library, name)(Raw(self.at.value), ctypes.byref(self.at), *words)

    def carry_out(self, lines):
        return self._told("kijolvar_carry_out", lines.encode(), len(lines))

    def answer(self):
        return self._told("kijolvar_answer")

    def _told(self, name, *words):
        text, needed = ctypes.create_string_buffer(b"x" * 64, 64), ctypes.c_size_t(99)
        code = self.call(name, *words, text, 64, ctypes.byref(needed))
        return (code, text.raw[:needed.value].decode()) if code == KIJOLVAR_OK else (code, (text.raw == b"x" * 64, needed.value))

    def host(self, device):
        """Says that the host has a device."""
        return self.call("kijolvar_host", device.encode(), len(device))

    def order(self, room=64):
        """The next order: its code, its length, and what is written."""
        text, needed = ctypes.create_string_buffer(b"x" * room, room), ctypes.c_size_t(99)
        code = self.call("kijolvar_next_order", text, room, ctypes.byref(needed))
        return code, needed.value, text.raw[:needed.value if code == KIJOLVAR_ORDER else room].decode()

    def orders(self):
        """All orders that are left."""
        found = []
        while (order := self.order(1024))[0] == KIJOLVAR_ORDER:
            found.append(order[2])
        return found if order[:2] == (KIJOLVAR_OK, 0) else order

    def errand(self, room=KIJOLVAR_DISK_LENGTH):
        """The next errand: its code, its place and its bytes."""
        at, count, kept = ctypes.c_uint64(7), ctypes.c_size_t(99), ctypes.create_string_buffer(b"x" * room, room)
        code = self.call("kijolvar_next_errand", ctypes.byref(at), kept, room, ctypes.byref(count))
        return code, at.value, count.value, kept.raw[:min(count.value, room)]

    def run(self, lines):
        """What lines print, once their errands are done."""
        code, said = self.carry_out(lines)
        if code != KIJOLVAR_ERRANDS:
            return code, said
        self.settle()
        return self.answer()

    def settle(self):
        while (errand := self.errand())[0] != KIJOLVAR_OK:
            self.does(errand)

    def does(self, errand):
        """Does an errand: what is written is loose until a sync puts it into the image."""
        code, at, _, kept = errand
        if code == KIJOLVAR_WRITE:
            self.loose.append((at, kept))
        elif code == KIJOLVAR_SYNC:
            for place, part in self.loose:
                self.image[place:place + len(part)] = part
            self.loose = []

    def cuts(self):
        """What a power cut may leave now: each loose write is missing, there, or there by its front or its back
        half."""
        for shares in itertools.product(range(4), repeat=len(self.loose)):
            image = bytearray(self.image)
            for share, (at, kept) in zip(shares, self.loose):
                begin, end = [(0, 0), (0, len(kept)), (0, len(kept) // 2), (len(kept) // 2, len(kept))][share]
                image[at + begin:at + end] = kept[begin:end]
            yield image

    def close(self):
        self.library.kijolvar_close(Raw(self.at.value))


OPENING = "new t HardTotals\nopen t t1\nclaim t 0\nset t DeviceEnabled true\n"


def errands(library):
    """What a till answers while errands are left, and after one failed."""
    host = Host(library, bytes(KIJOLVAR_DISK_LENGTH), "kijolvar_format_file")
    nothing = (True, 99)
    told("nothing is carried out before the file is formatted", (KIJOLVAR_UNDONE, nothing), host.carry_out(OPENING))
    told("nothing is answered either", (KIJOLVAR_ERRANDS, nothing), host.answer())
    host.settle()
    told("then it is", (KIJOLVAR_OK, "ok\n" * 4), host.run(OPENING))
    told("what changes no totals is answered at once", (KIJOLVAR_OK, "ok 2\n"), host.carry_out("get t State"))
    told("and leaves no errand", (KIJOLVAR_OK, 7, 99, b"x" * 99), host.errand())
    told("a change has errands", (KIJOLVAR_ERRANDS, nothing), host.carry_out("call t create 41 8 false"))
    told("so lines wait", (KIJOLVAR_UNDONE, nothing), host.carry_out("call t create 42 8 false"))
    told("so does the answer", (KIJOLVAR_ERRANDS, nothing), host.answer())
    code, at, count, kept = host.errand(1)
    told("an errand that is longer than its room stays", (KIJOLVAR_SHORT, 7, b"x"), (code, at, kept))
    told("and stays", (KIJOLVAR_SHORT, 7, b"x" * (count - 1)), tuple(host.errand(count - 1)[place] for place in (0, 1, 3)))
    first = host.errand(count)
    told("it has as many bytes as were told", (KIJOLVAR_WRITE, count), (first[0], first[2]))
    host.does(first)
    host.settle()
    told("the answer comes once all is done", (KIJOLVAR_OK, "ok 1\n"), host.answer())
    told("a change has errands again", KIJOLVAR_ERRANDS, host.carry_out("call t write 1 0 0000000000000001")[0])
    host.call("kijolvar_errand_failed")
    told("after one failed nothing is answered", (KIJOLVAR_DISK_FAILED, nothing), host.answer())
    told("or carried out", (KIJOLVAR_DISK_FAILED, nothing), host.carry_out("get t State"))
    told("or told", KIJOLVAR_DISK_FAILED, host.errand()[0])
    host.close()
    again = Host(library, host.image)
    told("another till finds what was answered", (KIJOLVAR_OK, "ok\n" * 4 + "ok 1 8\nok 0000000000000000\n"),
         again.run(OPENING + "call t find 41\ncall t read 1 0 8\n"))
    again.close()
    at, text, needed = ctypes.c_void_p(), ctypes.create_string_buffer(64), ctypes.c_size_t()
    library.kijolvar_open(b"", 0, ctypes.byref(at))
    library.kijolvar_errand_failed(Raw(at.value), ctypes.byref(at))
    code = library.kijolvar_carry_out(Raw(at.value), ctypes.byref(at), b"new d CashDrawer", 16, text, 64, ctypes.byref(needed))
    told("a till in memory has no errands that fail", (KIJOLVAR_OK, b"ok\n"), (code, text.raw[:needed.value]))
    library.kijolvar_close(Raw(at.value))


def orders(library):
    """Which orders a host is told, and when."""
    host = Host(library, bytes(KIJOLVAR_DISK_LENGTH), "kijolvar_format_file")
    told("no order while errands are left", (KIJOLVAR_ERRANDS, 99, "x" * 64), host.order())
    host.settle()
    told("none at first", [], host.orders())
    told("devices that have no orders", [KIJOLVAR_NO_DEVICE] * 3, [host.host(name) for name in ("t1", "d2", "")])
    controls = [("d", "CashDrawer", "d1"), ("p", "LineDisplay", "p1"), ("r", "POSPrinter", "r1")]
    host.run(OPENING + "".join(f"new {name} {category}\nopen {name} {device}\nclaim {name} 0\nset {name} DeviceEnabled true\n"
                               for name, category, device in controls))
    host.run("call d openDrawer")
    told("the host has devices", [KIJOLVAR_OK] * 4, [host.host(name) for name in ("d1", "p1", "r1", "d1")])
    told("what was ordered before isn't told", [], host.orders())
    host.run("call p displayText 342e3530 0\ncall d openDrawer\ncall r printNormal 2 41420a\ncall r cutPaper 100")
    wanted = ["p1 displayTextAt 0 0 342e3530 0", "d1 openDrawer", "r1 print 41420a", "r1 cutPaper 100"]
    told("the orders of three devices, in order", wanted, host.orders())
    told("each once", [], host.orders())
    host.run("call r printNormal 2 -\ncall p displayText - 0\ncall p scrollText 1 2\ncall p clearText")
    told("orders without a text", ["r1 print -", "p1 displayTextAt 0 4 - 0", "p1 scrollText 1 2", "p1 clearText"], host.orders())
    told("a change and an order", KIJOLVAR_ERRANDS, host.carry_out("call t create 41 8 false\ncall d openDrawer")[0])
    told("the order waits for what is to be in the file", (KIJOLVAR_ERRANDS, 99, "x" * 64), host.order())
    host.settle()
    told("then it is told", ["d1 openDrawer"], host.orders())
    host.run("call d openDrawer\ncall p clearText")
    told("one that is longer than its room stays", (KIJOLVAR_SHORT, 13, "x" * 12), host.order(12))
    told("and stays", (KIJOLVAR_SHORT, 13, ""), host.order(0))
    host.run("call r cutPaper 0")
    told("before those that come behind it", ["d1 openDrawer", "p1 clearText", "r1 cutPaper 0"], host.orders())
    host.run("input p1 power off\ncall p clearText\ninput r1 cover open\ncall r cutPaper 100\ncall r printNormal 3 41")
    told("what isn't carried out isn't told", [], host.orders())
    host.run("input r1 cover closed\nset r AsyncMode true\ncall r printNormal 2 41420a")
    told("what waits isn't told", [], host.orders())
    host.run("work r1")
    told("until it is done", ["r1 print 41420a"], host.orders())
    host.run("release d\nclose d\ndetach d1\nattach d1 1\nopen d d1\nset d DeviceEnabled true\ncall d openDrawer")
    told("a spare's orders aren't", [], host.orders())
    told("a change and an order", KIJOLVAR_ERRANDS, host.carry_out("call t write 1 0 0000000000000001\nset r AsyncMode false\ncall r cutPaper 0")[0])
    host.call("kijolvar_errand_failed")
    told("after an errand failed no order is told", (KIJOLVAR_DISK_FAILED, 99, "x" * 64), host.order())
    host.close()


def errands_of(host, line, look):
    """Carries out a line that changes the totals. Returns its errands, and what is found after a power cut: a set for
    each moment behind an errand. The last set is from when the line is answered."""
    done, found = [], []
    assert host.carry_out(line)[0] == KIJOLVAR_ERRANDS, line
    while (errand := host.errand())[0] != KIJOLVAR_OK:
        host.does(errand)
        done.append(errand)
        assert len(host.loose) <= 3, "more than three writes without a sync"
        found.append({look(image) for image in host.cuts()})
    assert host.answer()[0] == KIJOLVAR_OK, line
    return done, found + [{look(image) for image in host.cuts()}]


def kinds(done):
    """The order of errands: W for one or more writes, S for a sync."""
    return "".join(kind for kind, _ in itertools.groupby("W" if errand[0] == KIJOLVAR_WRITE else "S" for errand in done))


def number_in(library, image):
    """The number that a file of the totals begins with, or the answers if there is none."""
    found = Host(library, image)
    code, text = found.run(OPENING + "call t find 41\ncall t read 1 0 8\n")
    found.close()
    lines = text.split("\n") if code == KIJOLVAR_OK else []
    return int(lines[5][3:], 16) if len(lines) == 7 and lines[5].startswith("ok ") else (code, text)


def records(library):
    """A change goes into the log: its record, a sync, the record's gate, a sync, and then the answer."""
    host = Host(library, bytes(KIJOLVAR_DISK_LENGTH), "kijolvar_format_file")
    host.settle()
    host.run(OPENING + "call t create 41 8 false\n")
    amiss, looks, begin = [], 0, None

    def look(image):
        nonlocal looks
        looks += 1
        return number_in(library, image)

    for number in range(1, CHANGES + 1):
        done, found = errands_of(host, f"call t write 1 0 {number:016x}", look)
        old, new = number - 1, number
        if found != [{old}, {old}, {old, new}, {new}, {new}]:
            amiss.append((number, "a power cut leaves", found))
        (_, record, length, _), (_, gate, width, byte) = done[0], done[2]
        if [errand[0] for errand in done] != [KIJOLVAR_WRITE, KIJOLVAR_SYNC] * 2 or (width, byte) != (1, b"\xa5"):
            amiss.append((number, "the errands", [errand[:3] for errand in done]))
        if record != gate + 1 or begin not in (None, gate):
            amiss.append((number, "the places", record, gate))
        begin = record + length - 1
    host.close()
    told("a record: write, sync, write its gate, sync", [], amiss)
    told("what a power cut leaves was looked at", CHANGES * 11, looks)


def images(library):
    """A change that has no room in the log makes a new image: the slot's old gate, if it is open, and a sync; the image
    and a sync; its gate and a sync."""
    host = Host(library, bytes(KIJOLVAR_DISK_LENGTH), "kijolvar_format_file")
    host.settle()
    host.run(OPENING + "call t create 41 7000 false\n")
    orders, amiss = [], []
    for number in range(1, 10):
        done, found = errands_of(host, f"call t write 1 0 {number:016x}{'00' * 6992}", lambda image: number_in(library, image))
        old, new = number - 1, number
        orders.append(kinds(done))
        # The last write is the gate that decides.
        if found != [{old}] * (len(done) - 2) + [{old, new}, {new}, {new}] or done[-2][2:] != (1, b"\xa5"):
            amiss.append((number, orders[-1], found))
    host.close()
    # Two records fit into a log, so each third change makes an image; the first goes into a slot that was never open.
    told("an image: its old gate, the image and its gate, each synced",
         (["WSWS"] * 5 + ["WSWSWS"] + ["WSWS"] * 2 + ["WSWSWS"], []), (orders, amiss))


def failures(library, folder):
    """A host whose file can't be written any more."""
    path = os.path.join(folder, "failing")
    with create_totals(library, path) as totals, Till(library, "", totals) as till:
        till.control("totals", "HardTotals", "t1")
        till.ask("call totals create 41 8 false")
    with open(path, "rb") as totals, Till(library, "", totals) as till:
        till.control("totals", "HardTotals", "t1")
        told("a change that can't be written isn't answered", "library 7", fault_of(till.ask, "call totals write 1 0 0000000000000001"))
        told("and no line after it is", f"library {KIJOLVAR_DISK_FAILED}", fault_of(till.ask, "get totals State"))
    with open_totals(path) as totals, Till(library, "", totals) as till:
        till.control("totals", "HardTotals", "t1")
        told("another till finds what was answered", "0000000000000000", till.ask("call totals read 1 0 8"))


LOOK = ["new t HardTotals", "open t t1", "set t DeviceEnabled true", "get t NumberOfFiles"]
CHANGE = [*LOOK[:3], "call t create 41 8 false", "call t write 1 0 0000000000000001"]
FORMAT = ["lock", f"write {KIJOLVAR_DISK_LENGTH} at 0",
          *(f"write 1 at {gate}" for gate in (0, 16384, 32768, 49152, 65536, 196608)), "sync file",
          "write 14 at 1", "sync file", "write 1 at 0", "sync file"]


class Wrapper:
    """The program of a language that opens or creates a file of totals, and carries out lines over it."""

    def __init__(self, language, program, calls, folder):
        self.language, self.program, self.calls = language, program, calls
        self.folder = os.path.join(folder, language)
        os.mkdir(self.folder)
        self.path, self.record = os.path.join(self.folder, "totals"), os.path.join(folder, f"{language}.calls")

    def begins(self, word, lines=(), **environment):
        return subprocess.Popen([*self.program, word, self.path, *lines], stdout=subprocess.PIPE, stderr=subprocess.STDOUT,
                                text=True, env={**os.environ, **environment}, cwd=self.folder)

    def runs(self, word, lines=(), **environment):
        """What it prints, and how it ends."""
        running = self.begins(word, lines, **environment)
        return running.communicate()[0].split("\n")[:-1], running.returncode

    def recorded(self, word, lines=(), **environment):
        """What it prints, how it ends, and the calls that it makes."""
        pathlib.Path(self.record).write_text("")
        printed, status = self.runs(word, lines, LD_PRELOAD=self.calls, CALLS=self.record, **environment)
        return printed, status, pathlib.Path(self.record).read_text().split("\n")[:-1]

    def told(self, name, wanted, found):
        told(f"{self.language}: {name}", wanted, found)

    def has(self, image):
        """Puts a file in the place of the totals, or leaves none."""
        for name in os.listdir(self.folder):
            os.unlink(os.path.join(self.folder, name))
        if image is not None:
            pathlib.Path(self.path).write_bytes(image)


def opening(wrapper):
    """Which files open, and which names are free for a new one."""
    wrapper.has(None)
    wrapper.told("a missing file isn't opened", (["missing"], 1), wrapper.runs("open"))
    wrapper.told("and isn't made", [], os.listdir(wrapper.folder))
    wrapper.told("a new file", (["ready", "ok", "ok", "ok", "ok 0"], 0), wrapper.runs("create", LOOK))
    wrapper.told("alone in its folder", ["totals"], os.listdir(wrapper.folder))
    told_of = os.stat(wrapper.path)
    wrapper.told("its owner's, of a disk's length", (0o100600, KIJOLVAR_DISK_LENGTH), (told_of.st_mode, told_of.st_size))
    new = pathlib.Path(wrapper.path).read_bytes()
    wrapper.told("it opens", (["ready", "ok", "ok", "ok", "ok 1", "ok"], 0), wrapper.runs("open", CHANGE))
    used = pathlib.Path(wrapper.path).read_bytes()
    zeroed, foreign = bytes(KIJOLVAR_DISK_LENGTH), b"somebody's" * KIJOLVAR_DISK_LENGTH
    for name, image in [("new totals", new), ("totals", used), ("no bytes", b""), ("a short text", b"short"), ("zero bytes", zeroed),
                        ("something else", foreign)]:
        wrapper.has(image)
        wrapper.told(f"no file is created over {name}", (["exists"], 1), wrapper.runs("create"))
        wrapper.told(f"{name} stay", image, pathlib.Path(wrapper.path).read_bytes())
    for name, image, lines in [("a zeroed file isn't formatted", zeroed, ["ready", "ok", "ok", "err 107", "err 105"]),
                               ("a file of something else isn't either", foreign, ["ready", "ok", "ok", "err 107", "err 105"]),
                               ("an empty one isn't opened", b"", ["ready", f"library {KIJOLVAR_TOO_SMALL}"]),
                               ("a short one isn't opened", zeroed[1:], ["ready", f"library {KIJOLVAR_TOO_SMALL}"])]:
        wrapper.has(image)
        wrapper.told(name, lines, wrapper.runs("open", LOOK)[0])
        wrapper.told(f"{name}, and stays", image, pathlib.Path(wrapper.path).read_bytes())
    wrapper.has(None)
    os.symlink("nowhere", wrapper.path)
    wrapper.told("no file is created behind a link", (["exists"], 1), wrapper.runs("create"))
    wrapper.told("and the link stays alone", ["totals"], os.listdir(wrapper.folder))


def locks(library, wrapper):
    """A file is locked as long as a till has it, from its creation on."""
    wrapper.has(None)
    wrapper.runs("create")
    whole = pathlib.Path(wrapper.path).read_bytes()
    for word, image in [("create", None), ("open", whole)]:
        wrapper.has(image)
        printing = wrapper.recorded(word)[2].index("print ready") + 1
        wrapper.has(image)
        running = wrapper.begins(word, LD_PRELOAD=wrapper.calls, CALLS=wrapper.record, CALLS_STOP=str(printing))
        os.waitpid(running.pid, os.WUNTRACED)
        wrapper.told(f"{word}: a file in use", "BlockingIOError", name_of(open_totals, wrapper.path))
        running.send_signal(signal.SIGCONT)
        running.communicate()
    wrapper.has(None)
    with create_totals(library, wrapper.path):
        wrapper.told("a file in use isn't opened", (["in use"], 1), wrapper.runs("open"))
        wrapper.told("or created", (["exists"], 1), wrapper.runs("create"))


def name_of(call, *words):
    """The name of the error that a call raises."""
    try:
        call(*words).close()
        return None
    except OSError as error:
        return type(error).__name__


def calls(wrapper):
    """What a till does to its file and the file's folder, and when it answers."""
    folder, path = f"sync {os.path.realpath(wrapper.folder)}", wrapper.path
    for wrapper.path in ("totals", path):
        wrapper.has(None)
        wrapper.told("a new file is whole and synced before it has a name, and its folder before it is used",
                     [*FORMAT, "link totals", folder, "print ready"], wrapper.recorded("create")[2])
    found = wrapper.recorded("open", CHANGE)
    wrapper.told("file and folder are synced before it is used", ["lock", "sync file", folder, "print ready"], found[2][:4])
    wrapper.told("a record is synced before its gate, and the gate before the answer",
                 ["print ok", "print ok", "sync file", "print ok", *record(16384, 9), "print ok 1", *record(16398, 21), "print ok"],
                 found[2][4:])


def record(at, length):
    """The calls that put a record with a group of so many bytes into the log."""
    return [f"write {length + 5} at {at + 1}", "sync file", f"write 1 at {at}", "sync file"]


def finds(library, path):
    """How many files the totals have, and the number in the first, if there is one; or why they don't open."""
    try:
        with open_totals(path) as totals, Till(library, "", totals) as till:
            till.control("totals", "HardTotals", "t1")
            count = int(till.ask("get totals NumberOfFiles"))
            return count, int(till.ask("call totals read 1 0 8"), 16) if count == 1 and till.ask("call totals find 41") else None
    except (Fault, OSError) as fault:
        return repr(fault)


def creations(library, wrapper):
    """Kills the host before each call of a creation in turn, and fails each: nothing is left, and the file can be
    created again; or, once it has its name, a whole file, which opens."""
    wrapper.has(None)
    made = wrapper.recorded("create")[2]
    naming, amiss = made.index("link totals") + 1 if "link totals" in made else 0, []
    for number in range(1, len(made) + 1):
        for what, wanted in [("CALLS_KILL", ([], -signal.SIGKILL, made[:number - 1])),
                             ("CALLS_FAIL", (["failed"], 1, [*made[:number], "print failed"]))][:1 if number == len(made) else 2]:
            wrapper.has(None)
            found = wrapper.recorded("create", **{what: str(number)})
            left = os.listdir(wrapper.folder)
            if (found, left) != (wanted, ["totals"] if number > naming else []):
                amiss.append((what, number, found, left))
            is_by_program = what == "CALLS_KILL" and wrapper.language != "Python"
            again = wrapper.runs("create")[0] if is_by_program else [name_of(create_totals, library, wrapper.path)]
            if again not in ([["exists"], ["FileExistsError"]] if number > naming else [["ready"], [None]]):
                amiss.append((what, number, again))
            if (finds(library, wrapper.path), os.listdir(wrapper.folder)) != ((0, None), ["totals"]):
                amiss.append((what, number, "another file"))
    wrapper.told("a creation that is cut short leaves nothing or a whole file", ([], len(FORMAT) + 3), (amiss, len(made)))


def changes(library, wrapper):
    """Kills the host before each call of a change in turn, and fails each."""
    wrapper.has(None)
    wrapper.runs("create", CHANGE[:-1])
    image = pathlib.Path(wrapper.path).read_bytes()
    lines = [*LOOK[:3], CHANGE[-1]]
    made = wrapper.recorded("open", lines)[2]
    # The change comes after the third line is answered.
    amiss, first = [], [place for place, call in enumerate(made) if call == "print ok"][2] + 1
    for number in range(first + 1, len(made) + 1):
        for what, wanted in [("CALLS_KILL", (["ready", "ok", "ok", "ok"], -signal.SIGKILL)),
                             ("CALLS_FAIL", (["ready", "ok", "ok", "ok", "failed"], 1))][:1 if number == len(made) else 2]:
            wrapper.has(image)
            cut = wrapper.recorded("open", lines, **{what: str(number)})[:2]
            found = finds(library, wrapper.path)
            # The fourth call is the sync of the gate: from then on a process that ends leaves the change.
            if cut != wanted or found != (1, int(number > first + 3)):
                amiss.append((what, number, cut, found))
    wrapper.told("a change that is cut short isn't answered", ([], 5), (amiss, len(made) - first))


def kills(library, folder, words):
    """Kills a till at random moments: the file has to hold each number that was printed, and none that was not
    written."""
    lost = []
    for number in range(ROUNDS):
        path = os.path.join(folder, f"killed{number}")
        running = subprocess.Popen([sys.executable, "-B", __file__, *words, path], stdout=subprocess.PIPE)
        first = running.stdout.readline()
        time.sleep(random.random() * 0.2)
        running.send_signal(signal.SIGKILL)
        lines = (first + running.communicate()[0]).split(b"\n")
        acknowledged = int(lines[-2]) if len(lines) > 1 else 0
        with open_totals(path) as totals, Till(library, "", totals) as till:
            till.control("totals", "HardTotals", "t1")
            found = int(till.ask("call totals read 1 0 8"), 16)
        if not 1 <= acknowledged <= found <= acknowledged + 1:
            lost.append((acknowledged, found))
    told("what was acknowledged is there", [], lost)


def main():
    library = load(sys.argv[1])
    if len(sys.argv) == 3:
        return writes(library, sys.argv[2])
    python = [sys.executable, "-S", "-B", "-W", "error", str(TOP / "abi/python/totals.py"), sys.argv[1]]
    # In memory, if the system has such a folder: hundreds of syncs of a busy disk may take a minute.
    memory = "/dev/shm" if os.access("/dev/shm", os.W_OK) else None
    with tempfile.TemporaryDirectory(dir=memory) as folder:
        files(library)
        errands(library)
        orders(library)
        records(library)
        images(library)
        for language, program in [("C", sys.argv[3:4]), ("Rust", sys.argv[4:5]), ("Python", python)]:
            wrapper = Wrapper(language, program, sys.argv[2], folder)
            opening(wrapper)
            locks(library, wrapper)
            calls(wrapper)
            creations(library, wrapper)
            changes(library, wrapper)
        failures(library, folder)
        kills(library, folder, sys.argv[1:2])
    print(f"{passed} passed, {failed} failed")
    sys.exit(failed > 0)


main()
