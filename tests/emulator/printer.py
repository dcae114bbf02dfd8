"""A receipt printer with a drawer (ESC/POS)."""
import dataclasses

from .device import Device

ESC, GS, DLE, EOT = 0x1B, 0x1D, 0x10, 0x04
ALIGNMENTS = {0: "left", 1: "center", 2: "right"}


@dataclasses.dataclass(frozen=True)
class Line:
    """A line on the paper."""

    alignment: str
    characters: bytes
    is_bold: tuple


@dataclasses.dataclass(frozen=True)
class Cut:
    """A cut; the paper was fed by so many dots first, or not at all."""

    is_full: bool
    feed: object


@dataclasses.dataclass(frozen=True)
class Feed:
    """Paper that was fed by lines, with nothing on it."""

    lines: int


def first_strange(receipt, runs, wanted):
    """The place of the first item of a receipt that isn't as it is wanted, or None. The runs are those of a printer:
    from each on, all that was sent has to be there again."""
    # How many items are printed, and how many were before each run that isn't there again yet.
    states, doubts = {(0, ())}, {run.start for run in runs}
    for place, item in enumerate(receipt):
        states |= {(left[at], left[:at]) for _, left in states for at in range(len(left))}
        states = {(count + 1, left + (count,) * (place in doubts)) for count, left in states
                  if count < len(wanted) and wanted[count] == item}
        if not states:
            return place
    return None if (len(wanted), ()) in states else len(receipt)


class Printer(Device):
    """A receipt printer and the drawer on its connector.

    Attributes:
        paper: What is on the paper: Line, Cut and Feed.
        lines_left: How many lines of paper are left. The sensors see the end of the paper at 0, and that it is near
            from `near` on. Printing stops when a line is needed and none is left.
        pulses: The pulses at the drawer's connector: pin, time on, time off.
        doubts: The places in `paper` of what was printed and whose acknowledgement the host didn't get: the plug was
            pulled before it was sent, or it was lost. No driver can know whether that was printed, and it is printed
            again.
        runs: The doubts in the order in which they came: the places of each time.
    """

    def __init__(self, cable, columns=42, lines=1000, near=20, is_simple=False):
        super().__init__(cable)
        #: Whether it knows neither automatic status nor the end of a job.
        self.is_simple = is_simple
        self.columns, self.near, self.lines_left = columns, near, lines
        self.is_cover_open = self.is_drawer_open = self.is_drawer_stuck = self.is_broken = self.is_feeding = False
        self.paper, self.pulses, self.doubts, self.runs = [], [], set(), []
        # Up to which place the host knows what is printed, and up to which the last acknowledgement was that was lost.
        self._known = self._lost = 0
        self.is_short = False
        # How many characters it has put into lines, and what is to be done after how many.
        self._characters, self._marks = 0, []
        self.forget()

    # What happens to it.

    def after_characters(self, count, *actions):
        """Does something once the printer has put so many more characters into a line. Commands don't count."""
        with self.lock:
            self._marks.append((self._characters + count, actions))

    def cover(self, is_open):
        """Opens or closes the cover. Nothing is printed while it is open; what the printer got stays."""
        with self.lock:
            self.is_cover_open = is_open
            self._changed()
        self._wake()

    def load(self, lines):
        """Puts in a roll with so many lines; 0 takes it out."""
        with self.lock:
            self.lines_left, self.is_short = lines, False
            self._changed()
        self._wake()

    def drawer(self, is_open):
        """Opens or closes the drawer by hand."""
        with self.lock:
            self.is_drawer_open = is_open
            self._changed()
        self._wake()

    def breaks(self, is_broken):
        """Jams the cutter, or frees it."""
        with self.lock:
            self.is_broken = is_broken
            self._changed()
        self._wake()

    def feeds(self, is_feeding):
        """Holds its paper feed button down, or lets it go. It is offline meanwhile, which none of its signs explains
        that the till knows."""
        with self.lock:
            self.is_feeding = is_feeding
            self._changed()
        self._wake()

    def receipt(self):
        """What is on the paper so far."""
        with self.lock:
            return list(self.paper)

    # How it works.

    def forget(self):
        self._misses()
        self._doubt_up_to(len(self.paper))
        self._line, self._begun, self._held = [], bytearray(), bytearray()
        self._alignment, self._is_bold, self._is_automatic, self._told = 0, False, False, None

    def _doubt_up_to(self, end):
        """The host can't know of what was printed up to here."""
        if end > self._known:
            self.runs.append(range(self._known, end))
            self.doubts.update(self.runs[-1])
            self._known = end

    def _acknowledges(self, answer):
        """Answers that all before is printed, unless the answer is lost."""
        if self.is_mute:
            self._lost = len(self.paper)
            return
        self._doubt_up_to(self._lost)
        self.send(answer)
        self._known = len(self.paper)

    def is_offline(self):
        return self.is_cover_open or self.is_short or self.is_broken or self.is_feeding

    def may_work(self):
        return not self.is_offline()

    def may_hear(self):
        return super().may_hear() and not (self.cable.holds and self.is_offline())

    def goes_on(self):
        self._changed()

    def status(self):
        """The four bytes of an automatic status."""
        first = (0x10 | self.is_drawer_open << 2 | self.is_offline() << 3 | self.is_cover_open << 5
                 | self.is_feeding << 6)
        near = 0x03 if self.lines_left <= self.near else 0
        end = 0x0C if self.lines_left == 0 else 0
        return bytes([first, self.is_broken << 3, near | end, 0])

    def _changed(self):
        """Tells what has changed, if it is to."""
        if self._is_automatic and self.is_on and not self.is_hung:
            now = self.status()
            if now != self._told:
                self._told = now
                self.send(now)

    def arrives(self, data):
        """DLE EOT is answered at once; everything else waits for its turn."""
        waits = bytearray()
        for byte in data:
            self._held.append(byte)
            if len(self._held) == 3 and self._held[:2] == bytes([DLE, EOT]) and 1 <= byte <= 4:
                self.send(bytes([self._status_now(byte)]))
                self._held.clear()
            elif not bytes([DLE, EOT]).startswith(bytes(self._held)):
                # DLE may begin again.
                keep = 1 if byte == DLE else 0
                waits += self._held[:len(self._held) - keep]
                del self._held[:len(self._held) - keep]
        return waits

    def _status_now(self, kind):
        if kind == 1:
            return 0x12 | self.is_drawer_open << 2 | self.is_offline() << 3 | self.is_feeding << 6
        if kind == 2:
            return 0x12 | self.is_cover_open << 2 | self.is_feeding << 3 | self.is_short << 5 | self.is_broken << 6
        if kind == 3:
            return 0x12 | self.is_broken << 3
        near = 0x0C if self.lines_left <= self.near else 0
        return 0x12 | near | (0x60 if self.lines_left == 0 else 0)

    def takes(self, byte):
        command = bytes(self._begun) + bytes([byte])
        if self._needs_paper(command) and self.lines_left == 0:
            self.is_short = True
            self._changed()
            return False
        self._begun.append(byte)
        if len(self._begun) >= self._length():
            self._begun.clear()
            self.meets(command, self._obeys(command))
        return True

    def is_start(self, command):
        return command == b"\x1b@"

    def _needs_paper(self, command):
        if command == b"\n":
            return True
        if len(command) == 1:
            return command[0] >= 0x20 and len(self._line) == self.columns
        return len(command) == 3 and command[:2] == b"\x1bd" and command[2] > 0

    def _length(self):
        """How many bytes the command has that has begun, or more than have come if that isn't known yet."""
        first = self._begun[0]
        if first not in (ESC, GS, DLE):
            return 1
        if len(self._begun) == 1:
            return 2
        second = self._begun[1]
        if first == DLE:
            return 3
        if first == ESC:
            return {0x40: 2, 0x61: 3, 0x45: 3, 0x64: 3, 0x70: 5}.get(second, 2)
        if second == 0x56:
            return 4 if len(self._begun) > 2 and self._begun[2] in (0x41, 0x42) else 3
        if second == 0x28:
            return 5 if len(self._begun) < 5 else 5 + self._begun[3] + 256 * self._begun[4]
        return {0x61: 3, 0x72: 3}.get(second, 2)

    def _obeys(self, command):
        """Obeys a command, and returns whether it knows it."""
        if command == b"\n":
            self._ends_line()
        elif len(command) == 1:
            if command[0] >= 0x20:
                if len(self._line) == self.columns:
                    self._ends_line()
                self._puts(command[0])
            return command[0] >= 0x20 or command[0] == 0
        elif command[0] == ESC:
            return self._obeys_escape(command)
        elif command[0] == GS:
            return self._obeys_group(command)
        else:
            return False
        return True

    def _obeys_escape(self, command):
        if command[1] == 0x40:
            self._line, self._alignment, self._is_bold = [], 0, False
        elif command[1] == 0x61 and command[2] in ALIGNMENTS:
            if not self._line:
                self._alignment = command[2]
        elif command[1] == 0x45:
            self._is_bold = command[2] % 2 == 1
        elif command[1] == 0x64:
            self._feeds(command[2])
        elif command[1] == 0x70 and command[2] in (0, 1):
            self.pulses.append((5 if command[2] else 2, command[3], command[4]))
            if not self.is_drawer_stuck:
                self.is_drawer_open = True
                self._changed()
        else:
            return False
        return True

    def _obeys_group(self, command):
        if command[1] == 0x56 and command[2] in (0, 1, 0x41, 0x42):
            if not self._line:
                self.paper.append(Cut(command[2] in (0, 0x41), command[3] if len(command) == 4 else None))
        elif command[1] == 0x61:
            self._is_automatic = command[2] != 0 and not self.is_simple
            self._told = None
            self._changed()
            return not (self.is_simple and command[2])
        elif command[1] == 0x72 and command[2] in (1, 2, 0x31, 0x32):
            paper = (0x03 if self.lines_left <= self.near else 0) | (0x0C if self.lines_left == 0 else 0)
            self._acknowledges(bytes([paper if command[2] in (1, 0x31) else self.is_drawer_open]))
        elif not self.is_simple and command[1] == 0x28 and command[2] == 0x48 and command[3:7] == b"\x06\x00\x30\x30":
            self._acknowledges(b"\x37\x22" + command[7:11] + b"\0")
        else:
            return False
        return True

    def _puts(self, character):
        """Puts a character into the line, and does what was to be done then."""
        self._line.append((character, self._is_bold))
        self._characters += 1
        due = [actions for count, actions in self._marks if count <= self._characters]
        self._marks = [mark for mark in self._marks if mark[0] > self._characters]
        for action in (action for actions in due for action in actions):
            action()

    def _ends_line(self):
        characters = bytes(byte for byte, _ in self._line)
        bold = tuple(is_bold for _, is_bold in self._line)
        self.paper.append(Line(ALIGNMENTS[self._alignment], characters, bold))
        self._line = []
        self._takes_paper(1)

    def _feeds(self, lines):
        if self._line:
            self._ends_line()
            lines -= 1
        if lines > 0:
            self.paper.append(Feed(lines))
            self._takes_paper(lines)

    def _takes_paper(self, lines):
        self.lines_left = max(0, self.lines_left - lines)
        self.line_done()
        self._changed()


class HearingPrinter(Printer):
    """A printer whose line holds bytes back only while it has no power: it hears questions while it is offline."""

    def may_hear(self):
        return self.is_on


class LatePrinter(HearingPrinter):
    """A printer whose first answer about its paper comes late while its cover is open."""

    is_about_paper, kept = False, None

    def _status_now(self, kind):
        self.is_about_paper = kind == 4
        return super()._status_now(kind)

    def send(self, data):
        if self.is_about_paper and self.is_cover_open and self.kept is None:
            self.kept = bytes(data)
        else:
            super().send(data)
        self.is_about_paper = False

    def answers(self):
        """Sends the answer."""
        with self.lock:
            super().send(self.kept)
        self._wake()
