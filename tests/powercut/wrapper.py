"""A till of abi/python over totals in a file, which it creates if it is missing. It answers each line of its input
before it reads the next. Usage: wrapper.py libkijolvar.so FILE."""
import pathlib
import sys

sys.path.insert(0, str(pathlib.Path(__file__).resolve().parent.parent.parent / "abi/python"))
from till import Till, create_totals, load, open_totals


def totals_file(library, path):
    try:
        return open_totals(path)
    except FileNotFoundError:
        return create_totals(library, path)


library = load(sys.argv[1])
with totals_file(library, sys.argv[2]) as totals, Till(library, "", totals) as till:
    for line in sys.stdin:
        sys.stdout.write(till.carry_out(line))
        sys.stdout.flush()
