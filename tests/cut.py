#!/usr/bin/env python3
"""Runs a program over standard input that is cut: each read of the program gives it one piece of N bytes.

Usage: tests/cut.py N PROGRAM [WORD ..]. It ends with the program's status."""
import os
import subprocess
import sys

size = int(sys.argv[1])
# a pipe of packets: each write is one, and a read gives one
source, pipe = os.pipe2(os.O_DIRECT)
program = subprocess.Popen(sys.argv[2:], stdin=source)
os.close(source)
script = sys.stdin.buffer.read()
try:
    for at in range(0, len(script), size):
        os.write(pipe, script[at:at + size])
except BrokenPipeError:
    pass
os.close(pipe)
sys.exit(program.wait())
