"""Runs a script of the console through the typed calls of the Python package. Each line becomes the typed call that it
stands for, and what that returned or raised is printed as the console prints it. A line without a typed call goes
through the text layer, and is counted by its reason.

`tests/python.sh` uses it. By itself: typed.py LIBRARY SCRIPT [PROFILE TOTALS]
"""
import collections
import json
import pathlib
import re
import sys

TOP = pathlib.Path(__file__).resolve().parent.parent
sys.path.insert(0, str(TOP / "abi/python"))

import kijolvar
from kijolvar import (CashDrawer, DataEvent, DisplayView, DrawerView, ErrorEvent, ErrorReply, LineDisplay,
                      OutputCompleteEvent, PrintedCut, Printer, PrinterView, Scanner, StatusUpdateEvent, Totals,
                      WorkDone)

CATEGORIES = {"CashDrawer": CashDrawer, "Scanner": Scanner, "LineDisplay": LineDisplay, "POSPrinter": Printer,
              "HardTotals": Totals}
NAME = re.compile(r"[A-Za-z0-9-]{1,16}")
NUMBER = re.compile(r"-?[0-9]{1,18}")
HEX = re.compile(r"-|([0-9A-Fa-f]{2})+")


class Untyped(Exception):
    """A line that no typed call stands for, with the reason."""


def number(word):
    if not NUMBER.fullmatch(word):
        raise Untyped("a line of a wrong shape")
    return int(word)


def count(word):
    found = number(word)
    if found < 0:
        raise Untyped("a line of a wrong shape")
    return found


def data(word):
    if not HEX.fullmatch(word):
        raise Untyped("a line of a wrong shape")
    return b"" if word == "-" else bytes.fromhex(word)


def truth(word):
    if word not in ("true", "false"):
        raise Untyped("a line of a wrong shape")
    return word == "true"


def value(word):
    return truth(word) if word in ("true", "false") else number(word)


DESCRIPTION = json.loads((TOP / "abi/description.json").read_text())
PARTS = [DESCRIPTION["common"], *DESCRIPTION["categories"]]
SHAPES = {"number": number, "bytes": data, "truth": truth}
# The methods of `call` lines: the name of each in Python, and the shapes of its arguments.
METHODS = {method["word"]: (method["snake"], [SHAPES[argument["type"]] for argument in method["arguments"]])
           for part in PARTS for method in part["methods"] if method["line"] == "call"}
PROPERTIES = {about["name"]: about for part in PARTS for about in part["properties"]}


def written(value):
    """What a typed call returned, as the console writes it behind `ok`."""
    if value is None:
        return "ok"
    if isinstance(value, bool):
        return f"ok {str(value).lower()}"
    if isinstance(value, bytes):
        return f"ok {value.hex() or '-'}"
    if isinstance(value, tuple):
        return " ".join(["ok", *map(str, value)])
    return f"ok {int(value)}"


def written_event(event):
    if event is None:
        return "none"
    if isinstance(event, StatusUpdateEvent):
        return f"event StatusUpdateEvent {event.status}"
    if isinstance(event, DataEvent):
        return "event DataEvent 0"
    if isinstance(event, ErrorEvent):
        return f"event ErrorEvent {event.code} {event.extended} {event.locus:d}"
    assert isinstance(event, OutputCompleteEvent)
    return f"event OutputCompleteEvent {event.output_id}"


def written_line(line):
    return f"{line.characters.hex() or '-'}:{''.join(str(int(bold)) for bold in line.is_bold) or '-'}"


def written_view(view):
    if isinstance(view, DrawerView):
        return "ok open" if view.is_open else "ok closed"
    if isinstance(view, DisplayView):
        return f"ok {view.characters.hex()} {''.join(map(str, view.attributes))}"
    if isinstance(view, PrinterView):
        items = [f"x:{item.percentage}" if isinstance(item, PrintedCut) else f"{item.alignment[0]}:{written_line(item)}"
                 for item in view.items]
        cover = "open" if view.is_cover_open else "closed"
        return " ".join(["ok", cover, str(view.lines_left), written_line(view.buffer), *items])
    return "ok"


def written_work(work):
    if work is None:
        return "idle"
    return f"done {work.output_id}" if isinstance(work, WorkDone) else f"failed {work.code} {work.extended}"


def written_fault(fault):
    """What a typed call raised, as the console writes it."""
    if isinstance(fault, kijolvar.UposError):
        return f"err {fault.code} {fault.extended}" if fault.code == kijolvar.E_EXTENDED else f"err {fault.code}"
    if isinstance(fault, kijolvar.NoMemoryError):
        return "memory"
    if isinstance(fault, kijolvar.NoDeviceError):
        return "bad device"
    if isinstance(fault, kijolvar.InputError):
        return "bad input"
    if isinstance(fault, kijolvar.TooManyControlsError):
        return "refused Full"
    if isinstance(fault, kijolvar.ExchangeError):
        return "bad spare" if fault.reason == "NoSpare" else f"refused {fault.reason}"
    if isinstance(fault, kijolvar.LineError):
        return fault.answer
    raise fault


class Runner:
    """A till whose lines are typed calls, as far as there is one."""

    def __init__(self, till):
        self.till, self.controls = till, {}
        self.typed, self.untyped = 0, collections.Counter()

    def run(self, line):
        """What a line prints, a list of bytes without its line feed; None for a quiet line."""
        if not line.strip(b" ") or line[:1] == b"#":
            return None
        try:
            answer = self.typed_answer(line)
            self.typed += 1
            return answer
        except Untyped as reason:
            self.untyped[str(reason)] += 1
            return self.till._carry_out(line).decode().rstrip("\n")

    def typed_answer(self, line):
        if len(line) > 140_000 or not all(0x20 <= byte <= 0x7E for byte in line):
            raise Untyped("a line of a wrong shape")
        verb, name, *words = [*line.decode().split(), "", ""]
        words = words[:-2] if verb and name else []
        deed = getattr(self, f"line_{verb}", None)
        if deed is None or not NAME.fullmatch(name):
            raise Untyped("a line of a wrong shape")
        call = deed(name, words)
        try:
            return call()
        except kijolvar.Error as fault:
            return written_fault(fault)

    def control(self, name):
        if name not in self.controls:
            raise Untyped("an unknown control")
        return self.controls[name]

    @staticmethod
    def shaped(words, *shapes):
        if len(words) != len(shapes):
            raise Untyped("a line of a wrong shape")
        return [shape(word) for shape, word in zip(shapes, words)]

    # Each of these finds the typed call of a line; what it returns makes the call.

    def line_new(self, name, words):
        (kind,) = self.shaped(words, CATEGORIES.get)
        if kind is None:
            raise Untyped("a line of a wrong shape")

        def make():
            self.controls[name] = self.till.new_control(kind, name=name)
            return "ok"
        return make

    def line_open(self, name, words):
        (device,) = self.shaped(words, str)
        if not NAME.fullmatch(device):
            raise Untyped("a line of a wrong shape")
        control = self.control(name)
        return lambda: written(control.open(device))

    def line_claim(self, name, words):
        (timeout,) = self.shaped(words, number)
        control = self.control(name)
        return lambda: written(control.claim(timeout) and None)

    def line_release(self, name, words):
        self.shaped(words)
        return self.made(self.control(name).release)

    def line_close(self, name, words):
        self.shaped(words)
        return self.made(self.control(name).close)

    @staticmethod
    def made(call, *words):
        return lambda: written(call(*words))

    def property_of(self, name, word):
        if word not in PROPERTIES:
            raise Untyped("a line of a wrong shape")
        control, about = self.control(name), PROPERTIES[word]
        if not hasattr(type(control), about["snake"]):
            raise Untyped("a property of another category")
        return control, about

    def line_get(self, name, words):
        (word,) = self.shaped(words, str)
        control, about = self.property_of(name, word)
        return lambda: written(getattr(control, about["snake"]))

    def line_set(self, name, words):
        word, new = self.shaped(words, str, value)
        control, about = self.property_of(name, word)
        if not about["writable"]:
            raise Untyped("a property that can't be set")
        if isinstance(new, bool) != (about["type"] == "truth"):
            raise Untyped("a value of another type")
        return self.made(setattr, control, about["snake"], new)

    def line_call(self, name, words):
        if not words or words[0] not in METHODS:
            raise Untyped("a line of a wrong shape")
        method, shapes = METHODS[words[0]]
        arguments = self.shaped(words[1:], *shapes)
        control = self.control(name)
        if not hasattr(type(control), method):
            raise Untyped("a method of another category")
        return self.made(getattr(control, method), *arguments)

    def line_deliver(self, name, words):
        replies = {reply.value: reply for reply in ErrorReply}
        if len(words) > 1 or (words and words[0] not in replies):
            raise Untyped("a line of a wrong shape")
        control = self.control(name)
        return lambda: written_event(control.next_event(*(replies[word] for word in words)))

    def line_input(self, name, words):
        word, *words = words or [""]
        device = self.till.device(name)
        call, arguments = {
            "open": (device.drawer, [True]), "closed": (device.drawer, [False]), "fault": (device.scan_fault, []),
        }.get(word, (None, []))
        if call is not None:
            self.shaped(words)
        elif word == "scan":
            call, arguments = device.scan, self.shaped(words, count, data, data)
        elif word == "paper":
            call, arguments = device.paper, self.shaped(words, count)
        elif word in ("cover", "power"):
            first, second = ("open", "closed") if word == "cover" else ("on", "off")
            (state,) = self.shaped(words, str)
            if state not in (first, second):
                raise Untyped("a line of a wrong shape")
            call, arguments = getattr(device, word), [state == first]
        else:
            raise Untyped("a line of a wrong shape")
        return self.made(call, *arguments)

    def line_work(self, name, words):
        self.shaped(words)
        return lambda: written_work(self.till.device(name).work())

    def line_show(self, name, words):
        self.shaped(words)
        return lambda: written_view(self.till.device(name).show())

    def line_attach(self, name, words):
        (spare,) = self.shaped(words, count)
        return self.made(self.till.device(name).attach, spare)

    def line_detach(self, name, words):
        self.shaped(words)
        return self.made(self.till.device(name).detach)


def lines_of(script):
    """The lines of a script (docs/reference/console.md, "Lines"): a carriage return before a line feed is dropped."""
    *lines, last = script.split(b"\n")
    lines = [line.removesuffix(b"\r") for line in lines]
    return [*lines, last] if last else lines


def run_script(till, script):
    """The runner, and what the script printed."""
    runner = Runner(till)
    answers = [answer for answer in map(runner.run, lines_of(script)) if answer is not None]
    return runner, "".join(f"{answer}\n" for answer in answers).encode()


def main():
    library, script, *over = sys.argv[1:]
    profile, totals = (pathlib.Path(over[0]), over[1]) if over else (None, None)
    with kijolvar.open(profile, totals, library=library) as till:
        runner, text = run_script(till, pathlib.Path(script).read_bytes())
    sys.stdout.buffer.write(text)
    print(f"{runner.typed} typed, {dict(runner.untyped)}", file=sys.stderr)


if __name__ == "__main__":
    main()
