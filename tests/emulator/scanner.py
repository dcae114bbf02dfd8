"""A scanner on a serial line, which sends the code and a terminator; or as a keyboard."""
import struct

from .device import Device

# The places of characters on a keyboard, without and with shift.
KEYS = {2: "1!", 3: "2@", 4: "3#", 5: "4$", 6: "5%", 7: "6^", 8: "7&", 9: "8*", 10: "9(", 11: "0)", 12: "-_", 13: "=+",
        16: "qQ", 17: "wW", 18: "eE", 19: "rR", 20: "tT", 21: "yY", 22: "uU", 23: "iI", 24: "oO", 25: "pP", 26: "[{",
        27: "]}", 30: "aA", 31: "sS", 32: "dD", 33: "fF", 34: "gG", 35: "hH", 36: "jJ", 37: "kK", 38: "lL", 39: ";:",
        40: "'\"", 41: "`~", 43: "\\|", 44: "zZ", 45: "xX", 46: "cC", 47: "vV", 48: "bB", 49: "nN", 50: "mM", 51: ",<",
        52: ".>", 53: "/?", 57: "  "}
ENTER, SHIFT = 28, 42
# The event that says that events were dropped: its type, its code and its value.
SYN_DROPPED = 0, 3, 0


class Scanner(Device):
    """A scanner."""

    def takes(self, byte):
        # A host sends it nothing.
        self._is_whole = True
        self.meets(bytes([byte]), False)
        return True

    def scan(self, code, terminator=b"\r"):
        """Sends a code, with an AIM identifier in front if it is one of the bytes."""
        self.garbage(code + terminator)

    def types(self, code, dropped=0):
        """Sends a code as the events of a keyboard. The system drops the first ones, and says so, if nobody reads them.
        """
        places = {character: (place, shift) for place, pair in KEYS.items() for shift, character in enumerate(pair)}
        events = []
        for character in code.decode():
            place, shift = places[character]
            events += [(SHIFT, 1)] * shift + [(place, 1), (place, 0)] + [(SHIFT, 0)] * shift
        events = [(1, *event) for event in [*events, (ENTER, 1), (ENTER, 0)]]
        if dropped:
            events[:dropped] = [SYN_DROPPED]
        self.garbage(b"".join(struct.pack("@llHHi", 0, 0, *event) for event in events))
