"""Runs an emulated device by itself, until its standard input ends. Each line there is something that happens to it.

Usage: python3 tests/emulator printer [--path PATH | --tcp PORT] [--columns N] [--lines N] [--near N] [--simple]
       python3 tests/emulator display [--path PATH | --tcp PORT] [--rows N] [--columns N] [--protocol cd5220|escpos]
       python3 tests/emulator scanner [--path PATH | --tcp PORT]

A simple printer has neither automatic status nor acknowledgements of jobs. With --tcp 0 any port is taken.

It prints the port first, and each command that it doesn't know on standard error. Then it takes: `cover open`,
`cover closed`, `paper LINES`, `drawer open`, `drawer closed`, `jam on`, `jam off`, `plug out`, `plug in`, `hang on`,
`hang off`, `mute on`, `mute off` (its answers are lost), `slow SECONDS` (for each line), `garbage HEX`, `scan TEXT`,
`after BYTES WORDS ..` (the same once so many more bytes are worked off), `wait` (until all is worked off, or for 5
seconds), `show`, which prints what is on the paper or the display, and `pulses`, which prints the pulses of the
drawer's connector: pin, on and off.
"""
import argparse
import os
import pathlib
import sys

sys.path.insert(0, str(pathlib.Path(__file__).resolve().parent.parent))

from emulator import Cut, Display, Feed, Printer, PtyCable, Scanner, TcpCable


def text_of(item, columns):
    """An item of the paper as text: bold text stands between asterisks."""
    if isinstance(item, Cut):
        return "-" * columns if item.is_full else "- " * (columns // 2)
    if isinstance(item, Feed):
        return "\n" * (item.lines - 1)
    place = {"left": str.ljust, "center": str.center, "right": str.rjust}[item.alignment]
    marked, was = "", False
    for byte, is_bold in zip(item.characters, item.is_bold):
        marked += "*" * (was != is_bold) + chr(byte)
        was = is_bold
    return place(marked + "*" * was, columns).rstrip()


def show(device):
    if isinstance(device, Printer):
        for item in device.receipt():
            print(text_of(item, device.columns))
    elif isinstance(device, Display):
        text = device.shows().decode()
        for row in range(device.rows):
            print(f"|{text[row * device.columns:(row + 1) * device.columns]}|")


def happens(device, words):
    """Does what a line says."""
    verb, *rest = words
    if verb == "after":
        device.after(int(rest[0]), lambda: takes(device, rest[1:]))
    elif verb == "cover":
        device.cover(rest[0] == "open")
    elif verb == "paper":
        device.load(int(rest[0]))
    elif verb == "drawer":
        device.drawer(rest[0] == "open")
    elif verb == "jam":
        device.breaks(rest[0] == "on")
    elif verb == "mute":
        device.mute(rest[0] == "on")
    elif verb == "pulses":
        for pulse in device.pulses:
            print(*pulse)
    elif verb == "plug":
        device.plug_in() if rest[0] == "in" else device.pull_plug()
    elif verb == "hang":
        device.hang(rest[0] == "on")
    elif verb == "slow":
        device.slow(float(rest[0]))
    elif verb == "garbage":
        device.garbage(bytes.fromhex(rest[0]))
    elif verb == "scan":
        device.scan(" ".join(rest).encode())
    elif verb == "wait":
        device.wait(lambda: device.is_idle)
    elif verb == "show":
        show(device)
    else:
        raise ValueError(verb)


def takes(device, words):
    """Does what a line says, or says that it isn't understood."""
    try:
        happens(device, words)
    except (AttributeError, IndexError, ValueError):
        print(f"not understood: {' '.join(words)}", file=sys.stderr)


def main():
    reader = argparse.ArgumentParser(description=__doc__, formatter_class=argparse.RawDescriptionHelpFormatter)
    reader.add_argument("kind", choices=["printer", "display", "scanner"])
    reader.add_argument("--path", default=None)
    reader.add_argument("--tcp", type=int, default=None)
    reader.add_argument("--columns", type=int, default=None)
    reader.add_argument("--rows", type=int, default=2)
    reader.add_argument("--lines", type=int, default=1000)
    reader.add_argument("--near", type=int, default=20)
    reader.add_argument("--simple", action="store_true")
    reader.add_argument("--protocol", default="cd5220", choices=["cd5220", "escpos"])
    words = reader.parse_args()
    if words.path is not None and os.path.lexists(words.path) and not os.path.islink(words.path):
        # An emulator that was killed has left its link there.
        reader.error(f"{words.path} is there already, and is no link: give another path")
    cable = TcpCable(words.tcp) if words.tcp is not None else PtyCable(words.path or f"/tmp/{words.kind}-{os.getpid()}")
    if words.kind == "printer":
        device = Printer(cable, words.columns or 42, words.lines, words.near, words.simple)
    elif words.kind == "display":
        device = Display(cable, words.rows, words.columns or 20, words.protocol)
    else:
        device = Scanner(cable)
    device.says_unknown = lambda command: print(f"unknown command: {command.hex(' ')}", file=sys.stderr, flush=True)
    with device:
        print(device.path, flush=True)
        for line in sys.stdin:
            if line.strip():
                takes(device, line.split())
                sys.stdout.flush()


if __name__ == "__main__":
    main()
