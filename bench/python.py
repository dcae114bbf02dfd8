#!/usr/bin/env python3
"""What a typed call of the Python package costs, beside a bare ctypes call of the same bytes: the shortest of several
rounds each, in nanoseconds a call. A bare call has the header's types and its arguments made beforehand, and reads the
answer's bytes. Inside the package the pointers are addresses, which ctypes passes on faster; so is the lean call here.

Usage: bench/python.py LIBRARY [--small]. With --small it makes few calls, and its times mean nothing.
"""
import ctypes
import pathlib
import sys
import time

TOP = pathlib.Path(__file__).resolve().parent.parent
sys.path.insert(0, str(TOP / "abi/python"))

import kijolvar
from kijolvar._library import Raw, carrier

ROUNDS, CALLS = 150, 1_000
MOST = 1.3


class Bare:
    """A till for bare calls of the library."""

    def __init__(self, library):
        self.library, self.raw = library, Raw()
        self.out = ctypes.cast(ctypes.pointer(self.raw), ctypes.POINTER(ctypes.c_void_p))
        self.room, self.needed = ctypes.create_string_buffer(1024), ctypes.c_size_t()
        assert library.kijolvar_open(b"", 0, self.out) == 0

    def caller(self, line):
        """A call that carries out a line."""
        carry_out, raw, out, length = self.library.kijolvar_carry_out, self.raw, self.out, len(line)
        room, needed, needed_at = self.room, self.needed, ctypes.pointer(self.needed)

        def call():
            carry_out(raw, out, line, length, room, 1024, needed_at)
            return room[:needed.value]
        return call

    def lean_caller(self, line):
        carry_out, raw, length, room, needed = carrier(self.library), self.raw, len(line), self.room, self.needed
        raw_at, room_at, needed_at = map(ctypes.addressof, (raw, room, needed))

        def call():
            carry_out(raw, raw_at, line, length, room_at, 1024, needed_at)
            return room[:needed.value]
        return call

    def close(self):
        self.library.kijolvar_close(self.raw)


def once(call, calls):
    """How long a call takes, in nanoseconds, over so many calls."""
    begin = time.perf_counter_ns()
    for _ in range(calls):
        call()
    return (time.perf_counter_ns() - begin) / calls


def cases(till):
    """The typed calls, each with its line; the controls are named as in the lines."""
    drawer = till.new_control(kijolvar.CashDrawer, name="a")
    display = till.new_control(kijolvar.LineDisplay, name="b")
    totals = till.new_control(kijolvar.Totals, name="c")
    text, data = b"Bread 4.50", bytes(8)
    return {
        "get DrawerOpened": (b"get a DrawerOpened", lambda: drawer.drawer_opened),
        "get State": (b"get a State", lambda: drawer.state),
        "set FreezeEvents": (b"set a FreezeEvents false", lambda: setattr(drawer, "freeze_events", False)),
        "openDrawer": (b"call a openDrawer", drawer.open_drawer),
        "deliver": (b"deliver a", drawer.next_event),
        "displayText": (b"call b displayText %b 0" % text.hex().encode(), lambda: display.display_text(text)),
        "read": (b"call c read 1 0 8", lambda: totals.read(1, 0, 8)),
        "write": (b"call c write 1 0 %b" % data.hex().encode(), lambda: totals.write(1, 0, data)),
    }


SETUP = ["open a d1", "set a DeviceEnabled true", "open b p1", "claim b 0", "set b DeviceEnabled true", "open c t1",
         "set c DeviceEnabled true", "call c create 41 8 false"]


def main():
    calls = 10 if sys.argv[2:] == ["--small"] else CALLS
    library = kijolvar.load(sys.argv[1])
    bare = Bare(library)
    over = []
    with kijolvar.open(library=library) as till:
        named = cases(till)
        for line in ["new a CashDrawer", "new b LineDisplay", "new c HardTotals", *SETUP]:
            bare.caller(line.encode())()
        for line in SETUP:
            assert till.carry_out(line).startswith("ok"), line
        for name, (line, typed) in named.items():
            plain = bare.caller(line)
            assert plain()[:2] in (b"ok", b"ev", b"no"), plain()
            lean = bare.lean_caller(line)
            times = [[once(call, calls) for call in (plain, lean, typed)] for _ in range(ROUNDS)]
            bare_time, lean_time, typed_time = (min(column) for column in zip(*times))
            ratio = typed_time / bare_time
            over += [name] if ratio > MOST else []
            print(f"{name:16} bare {bare_time:5.0f} ns, lean {lean_time:5.0f} ns, typed {typed_time:5.0f} ns: "
                  f"{ratio:.2f} of a bare call")
    bare.close()
    print(f"above {MOST}: {', '.join(over) or 'none'}")


main()
