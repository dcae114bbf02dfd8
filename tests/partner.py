#!/usr/bin/env python3
"""Drives the program line by line through pipes, as a till does that has it for a partner: each answer has to come
before the next line is written.

Usage: tests/partner.py [PROGRAM [LINES]]. Without words it takes the program that was built in crates/pos_console/out,
and 10,000 lines. Its last line is 'N passed, M failed'; it ends with 0 where none failed."""
import os
import select
import subprocess
import sys

top = os.path.dirname(os.path.dirname(os.path.abspath(__file__)))
program = sys.argv[1] if len(sys.argv) > 1 else f"{top}/crates/pos_console/out/pos_console"
lines = int(sys.argv[2]) if len(sys.argv) > 2 else 10_000

# How long an answer may take, in seconds.
PATIENCE = 30

BEGIN = [
    (b"new a CashDrawer\n", b"ok\n"),
    (b"open a d1\n", b"ok\n"),
    (b"set a DeviceEnabled true\n", b"ok\n"),
]
TURN = [
    (b"get a State\n", b"ok 2\n"),
    (b"call a openDrawer\n", b"ok\n"),
    (b"deliver a\n", b"event StatusUpdateEvent 1\n"),
    (b"# closed by hand\n\ninput d1 closed\r\n", b"ok\n"),
    (b"deliver a\n", b"event StatusUpdateEvent 0\n"),
    (b"x" * 150_000 + b"\n", b"bad line\n"),
    (b"frob\n", b"bad line\n"),
]
LONG = 5

passed = 0
failed = 0


def told(name, wanted, found):
    """Counts whether what was found is what is wanted."""
    global passed, failed
    if wanted == found:
        passed += 1
    else:
        failed += 1
        print(f"failed: {name}\n  wanted: {wanted!r}\n  found:  {found!r}")


class Partner:
    """The program, with a pipe to it and one from it."""

    def __init__(self):
        self.program = subprocess.Popen([program], stdin=subprocess.PIPE, stdout=subprocess.PIPE, bufsize=0)
        self.answers = self.program.stdout.fileno()

    def write(self, text):
        """Writes all of a text."""
        while text:
            text = text[self.program.stdin.write(text):]

    def answer(self, patience=PATIENCE):
        """One line that the program prints; what there is of it where no more comes in time."""
        line = b""
        while not line.endswith(b"\n"):
            if not select.select([self.answers], [], [], patience)[0]:
                return line
            some = os.read(self.answers, 65_536)
            if not some:
                return line
            line += some
        return line

    def end(self):
        """Closes the pipe to it: what it still prints, and its status."""
        self.program.stdin.close()
        rest = self.program.stdout.read()
        return rest, self.program.wait()


def line_by_line():
    """Each answer comes before the next line is written."""
    partner = Partner()
    for number in range(lines):
        turn = (number - len(BEGIN)) % len(TURN)
        if number < len(BEGIN):
            line, wanted = BEGIN[number]
        elif turn == LONG and number % 50 != 0:
            line, wanted = b"get a Claimed\n", b"ok false\n"
        else:
            line, wanted = TURN[turn]
        partner.write(line)
        found = partner.answer()
        if found != wanted:
            told(f"line {number + 1}, {line[:40]!r}", wanted, found)
            break
    else:
        told(f"{lines} lines, each answered before the next", True, True)
    told("the end", (b"", 0), partner.end())


def byte_by_byte():
    """A line that isn't ended is not answered, and one that is ended is."""
    partner = Partner()
    for byte in b"show d1":
        partner.write(bytes([byte]))
    told("no answer before the line's end", b"", partner.answer(patience=0.2))
    partner.write(b"\n")
    told("the answer at the line's end", b"ok closed\n", partner.answer())
    partner.write(b"show d9")
    told("the last line", (b"bad device\n", 0), partner.end())


line_by_line()
byte_by_byte()
print(f"{passed} passed, {failed} failed")
sys.exit(failed != 0)
