"""A till for lines of text: the layer below the package kijolvar, which has typed calls. Tested, and not proved."""
from kijolvar import LibraryError, LibraryFault, TillClosedError
from kijolvar._files import create_totals, open_totals
from kijolvar._library import Raw, load
from kijolvar._session import Session
from standard import DISP_DT_NORMAL, PTR_S_RECEIPT

__all__ = ["Fault", "Raw", "Till", "create_totals", "load", "open_totals"]


class Fault(Exception):
    """A line's answer that isn't `ok`, or a code of the library. `code` and `extended` are the standard's, if it has
    them."""

    def __init__(self, text, code=None, extended=None):
        super().__init__(text)
        self.code, self.extended = code, extended


def faulty(call, *words):
    """A call of the package, whose faults become those of this module."""
    try:
        return call(*words)
    except LibraryFault as fault:
        raise Fault(f"library {fault.library_code}") from fault
    except (LibraryError, TillClosedError) as fault:
        raise Fault(str(fault)) from fault


class Till:
    """A till over a profile's text (an empty one is the built-in profile) and a file of totals, or totals in memory if
    there is none. A file that isn't formatted opens too: enabling its totals is E_NOHARDWARE. It closes itself at the
    end of a `with`, and the file stays open. Only the thread that made it may use it."""

    def __init__(self, library, profile="", totals=None):
        self._session = faulty(Session, library, profile.encode(), totals)

    def __enter__(self):
        return self

    def __exit__(self, *_):
        self.close()

    def close(self):
        """Ends the till, once."""
        self._session.close()

    def carry_out(self, lines):
        """Carries out lines: the text of their answers, once what they changed is in the file."""
        return faulty(self._session.carry_out, lines.encode()).decode()

    def ask(self, line):
        """Carries out one line: what it gives, behind `ok`."""
        text = self.carry_out(line).rstrip("\n")
        verb, _, value = text.partition(" ")
        if verb == "ok":
            return value
        if verb == "err":
            raise Fault(value, *map(int, value.split()))
        raise Fault(text)

    def pump(self, control, listen):
        """Hands each event that waits for a control to a listener, in order. A listener may ask the till again."""
        while True:
            text = self.carry_out(f"deliver {control}").rstrip("\n")
            if text == "none":
                return
            if not text.startswith("event "):
                raise Fault(text)
            listen(text[len("event "):])

    def host(self, device):
        """Says that the host has the device of this name: its orders come by `orders` from then on."""
        faulty(self._session.host, device.encode())

    def orders(self):
        """The orders of the devices that the host has, oldest first; each is taken out as it is given."""
        orders = self._session.orders()
        while (order := faulty(next, orders, None)) is not None:
            yield order.decode()

    def control(self, name, category, device):
        """A control of a category on a device, opened, claimed and enabled."""
        for line in (f"new {name} {category}", f"open {name} {device}", f"claim {name} 0"):
            self.ask(line)
        self.ask(f"set {name} DeviceEnabled true")

    def open_drawer(self, control):
        """The cash drawer's openDrawer."""
        self.ask(f"call {control} openDrawer")

    def display_text(self, control, text):
        """The line display's displayText, with the normal attribute."""
        self.ask(f"call {control} displayText {text.hex() or '-'} {DISP_DT_NORMAL}")

    def print(self, control, text):
        """The receipt printer's printNormal at the receipt station."""
        self.ask(f"call {control} printNormal {PTR_S_RECEIPT} {text.hex() or '-'}")
