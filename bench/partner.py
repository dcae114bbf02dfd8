#!/usr/bin/env python3
"""Prints the time a line takes that is answered before the next is written: by the program, and by `cat`, through the
same pipes. The median of five runs each, in turns.

Usage: bench/partner.py [LINES [PROGRAM]]. It takes 10,000 lines and the program that was built in
crates/pos_console/out."""
import os
import subprocess
import sys
import time

top = os.path.dirname(os.path.dirname(os.path.abspath(__file__)))
lines = int(sys.argv[1]) if len(sys.argv) > 1 else 10_000
program = sys.argv[2] if len(sys.argv) > 2 else f"{top}/crates/pos_console/out/pos_console"


def microseconds(command):
    """The time a line takes, in microseconds."""
    with subprocess.Popen([command], stdin=subprocess.PIPE, stdout=subprocess.PIPE, bufsize=0) as partner:
        to, back = partner.stdin.fileno(), partner.stdout.fileno()
        start = time.perf_counter()
        for _ in range(lines):
            os.write(to, b"show d1\n")
            if not os.read(back, 4096).endswith(b"\n"):
                sys.exit(f"{command} answered half a line")
        return (time.perf_counter() - start) / lines * 1e6


taken = {command: [] for command in (program, "cat")}
for _ in range(5):
    for command, times in taken.items():
        times.append(microseconds(command))
for command, times in taken.items():
    print(f"{os.path.basename(command):12} {lines} lines, {sorted(times)[2]:6.2f} microseconds each")
