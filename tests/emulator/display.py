"""A customer display (CD5220, or ESC/POS)."""
from .device import Device

ESC, US = 0x1B, 0x1F


class Display(Device):
    """A display of rows and columns.

    Attributes:
        protocol: "cd5220" or "escpos".
        cells: What it shows, a bytearray for each row.
    """

    #: A host may begin a connection by ESC @ without bytes of 0 in front.
    CUTS, FILLS = bytes([0, ESC]), b"\0@"

    def __init__(self, cable, rows=2, columns=20, protocol="cd5220"):
        super().__init__(cable)
        self.rows, self.columns, self.protocol = rows, columns, protocol
        self.forget()

    def forget(self):
        self.cells = [bytearray(b" " * self.columns) for _ in range(self.rows)]
        self._row = self._column = 0
        self._begun = bytearray()

    def shows(self):
        """All that it shows, row by row."""
        with self.lock:
            return b"".join(self.cells)

    def takes(self, byte):
        self._begun.append(byte)
        if self._has_ended():
            command = bytes(self._begun)
            self._begun.clear()
            self.meets(command, self._obeys(command))
        return True

    def is_start(self, command):
        return command in (b"\x1b@", b"\x0c")

    def _has_ended(self):
        command = self._begun
        if command[0] not in (ESC, US):
            return True
        if len(command) == 1:
            return False
        if command[0] == US:
            return len(command) == {0x24: 4, 0x72: 3}.get(command[1], 2)
        if command[1] == 0x6C:
            return len(command) == 4
        if command[1] == 0x51:
            return len(command) > 3 and command[-1] == 0x0D
        return True

    def _obeys(self, command):
        """Obeys a command, and returns whether it knows it."""
        if command == b"\x0c" or command == b"\x1b@":
            self.forget()
        elif command == b"\x0b":
            self._row = self._column = 0
        elif len(command) == 1:
            if command[0] >= 0x20:
                self._puts(command[0])
            return command[0] >= 0x20 or command[0] == 0
        elif command[:2] == (b"\x1bl" if self.protocol == "cd5220" else b"\x1f$"):
            return self._moves(command[2], command[3])
        elif self.protocol == "cd5220" and command[:2] == b"\x1bQ" and command[2] - 0x41 in range(min(self.rows, 2)):
            text = command[3:-1][:self.columns]
            self.cells[command[2] - 0x41][:] = text + b" " * (self.columns - len(text))
            self.line_done()
        else:
            return False
        return True

    def _moves(self, column, row):
        """Moves its cursor, and returns whether there is such a place."""
        if not (1 <= column <= self.columns and 1 <= row <= self.rows):
            return False
        self._row, self._column = row - 1, column - 1
        return True

    def _puts(self, byte):
        self.cells[self._row][self._column] = byte
        self._column += 1
        if self._column == self.columns:
            self._row, self._column = (self._row + 1) % self.rows, 0
            self.line_done()
