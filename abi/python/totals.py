#!/usr/bin/env python3
"""Opens or creates a file of totals, and carries out lines over it, as c/totals.c does.
Usage: totals.py libkijolvar.so open|create FILE [LINE ..]"""
import os
import sys

from till import Fault, Till, create_totals, load, open_totals


def tell(text):
    os.write(1, text.encode())


def totals_file(library, word, path):
    try:
        return create_totals(library, path) if word == "create" else open_totals(path)
    except FileNotFoundError:
        tell("missing\n")
    except FileExistsError:
        tell("exists\n")
    except BlockingIOError:
        tell("in use\n")
    except OSError:
        tell("failed\n")
    sys.exit(1)


def main():
    library = load(sys.argv[1])
    with totals_file(library, *sys.argv[2:4]) as totals:
        tell("ready\n")
        try:
            till = Till(library, "", totals)
        except Fault as fault:
            tell(f"{fault}\n")
            sys.exit(1)
        with till:
            for line in sys.argv[4:]:
                try:
                    tell(till.carry_out(line))
                except (Fault, OSError):
                    tell("failed\n")
                    sys.exit(1)


main()
