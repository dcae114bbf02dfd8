"""A shop's till over the library: it scans, shows, prints, keeps the day's totals, and tells all that happened."""
import os
import sys

sys.path.insert(0, os.path.join(os.path.dirname(os.path.abspath(__file__)), os.pardir, "python"))

from standard import EPTR_COVER_OPEN, EPTR_REC_EMPTY, E_EXTENDED, E_FAILURE, E_OFFLINE, PN_ENABLED, PTR_S_RECEIPT
from till import Fault, Till

CATEGORIES = {"drawer": "CashDrawer", "scanner": "Scanner", "display": "LineDisplay", "printer": "POSPrinter",
              "totals": "HardTotals"}
ARTICLES = {b"4001": ("Bread", 450), b"4002": ("Milk", 139), b"4003": ("Coffee", 899), b"4004": ("Apples", 249)}
EAN13 = 104
SALES = b"sales"
BOLD, CENTRE, NORMAL, CUT = b"\x1b|bC", b"\x1b|cA", b"\x1b|N", b"\x1b|100P"


def amount(cents):
    return f"{cents // 100}.{cents % 100:02}"


def row(left, right, width):
    return f"{left[:width - len(right) - 1]:<{width - len(right)}}{right}".encode()


class Shop(Till):
    """A till whose lines are logged, with what each was answered."""

    def __init__(self, library, profile):
        super().__init__(library, profile)
        self.log, self.basket, self.says = [], [], "Good morning."
        for name, category in CATEGORIES.items():
            self.begin(name, category)
        self.ask("set scanner DataEventEnabled true")
        self.columns, self.width = int(self.peek("get display Columns")), int(self.peek("get printer RecLineChars"))
        self.sales = int(self.ask(f"call totals create {SALES.hex()} 8 false"))
        self.welcome()
        self.settle()

    def begin(self, name, category):
        """A control on the device of its name, told of the device's power where it has any."""
        self.ask(f"new {name} {category}")
        self.ask(f"open {name} {name}")
        self.ask(f"claim {name} 0")
        if name != "totals":
            self.ask(f"set {name} PowerNotify {PN_ENABLED}")
        self.ask(f"set {name} DeviceEnabled true")

    def carry_out(self, lines):
        answers = super().carry_out(lines)
        asked = [line for line in lines.split("\n") if line.strip(" ") and not line.startswith("#")]
        for line, answer in zip(asked, answers.split("\n")):
            if not (line.startswith("deliver ") and answer == "none"):
                self.log.append({"asked": line, "answered": answer})
        return answers

    def peek(self, line):
        """What a line gives, or None; it isn't logged, and is for lines that only look."""
        verb, _, value = super().carry_out(line).rstrip("\n").partition(" ")
        return value if verb == "ok" else None

    def type(self, lines):
        """Carries out lines as they were typed in, and hears what comes of them."""
        self.carry_out(lines)
        try:
            self.settle()
        except Fault as fault:
            self.says = f"{self.reason(fault).capitalize()}."

    def settle(self):
        """Does the work that waits, and takes each event of each control."""
        while self.peek("get printer State") == "3":
            if not super().carry_out("work printer").startswith("done"):
                break
        for name in CATEGORIES:
            self.pump(name, lambda event: self.hear(name, event))

    def hear(self, name, event):
        if event.startswith("DataEvent"):
            label = bytes.fromhex(self.ask("get scanner ScanData").replace("-", ""))
            self.ask("set scanner DataEventEnabled true")
            self.sell(label)
        elif event.startswith("ErrorEvent") and name == "scanner":
            self.says = "The scanner could not read the code."

    def sell(self, label):
        """Puts an article into the basket, and shows it."""
        if label not in ARTICLES:
            self.says = f"No article has the code {label.decode(errors='replace')}."
            return
        self.basket.append(label)
        name, price = ARTICLES[label]
        self.says = f"{name}: {amount(price)}"
        self.show(row(name, amount(price), self.columns), row("Sum", amount(self.sum()), self.columns))

    def sum(self):
        return sum(ARTICLES[label][1] for label in self.basket)

    def show(self, *rows):
        """Shows a text in each row of the display, as far as it can."""
        try:
            for number, text in enumerate(rows):
                self.ask(f"call display displayTextAt {number} 0 {text.hex()} 0")
        except Fault as fault:
            self.says = f"{self.says} The display says {self.reason(fault)}."

    def welcome(self):
        self.show(b"Kijolvar".center(self.columns), b" " * self.columns)

    def receipt(self):
        """The text of the basket's receipt."""
        lines = [CENTRE + BOLD + b"KIJOLVAR", NORMAL]
        lines += [row(ARTICLES[label][0], amount(ARTICLES[label][1]), self.width) for label in self.basket]
        lines += [BOLD + row("Sum", amount(self.sum()), self.width) + NORMAL, b"", CENTRE + b"Thank you", b""]
        return b"\n".join(lines) + CUT

    def pay(self):
        """Prints the receipt, adds the sale to the day's totals, and opens the drawer."""
        if not self.basket:
            self.says = "The basket is empty."
            return
        try:
            self.ask(f"call printer printNormal {PTR_S_RECEIPT} {self.receipt().hex()}")
            self.add(self.sum())
            self.says = f"{amount(self.sum())} paid."
            self.basket = []
            self.welcome()
            self.open_drawer("drawer")
            self.settle()
        except Fault as fault:
            self.says = f"{self.reason(fault).capitalize()}."

    def add(self, paid):
        """Adds a sale to the day's totals, in one transaction."""
        total, count = self.day()
        self.ask("call totals beginTrans")
        try:
            self.ask(f"call totals write {self.sales} 0 {total + paid:08x}{count + 1:08x}")
        except Fault:
            self.ask("call totals rollback")
            raise
        self.ask("call totals commitTrans")

    def day(self):
        """The day's sum, and how many sales it has."""
        kept = self.ask(f"call totals read {self.sales} 0 8")
        return int(kept[:8], 16), int(kept[8:], 16)

    @staticmethod
    def reason(fault):
        told = {(E_OFFLINE, None): "the device is off", (E_FAILURE, None): "the device failed",
                (E_EXTENDED, EPTR_COVER_OPEN): "the printer's cover is open",
                (E_EXTENDED, EPTR_REC_EMPTY): "the printer has too little paper"}
        return told.get((fault.code, fault.extended), f"refused with {fault}")

    def files(self):
        """The files of the totals: none if another control has claimed them all, and no bytes of a file that it has."""
        for index in range(int(self.peek("get totals NumberOfFiles") or 0)):
            name = self.peek(f"call totals findByIndex {index}")
            if name is None:
                return
            handle, size = self.peek(f"call totals find {name}").split()
            kept = self.peek(f"call totals read {handle} 0 {size}")
            yield {"name": bytes.fromhex(name).decode("ascii"), "size": int(size),
                   "bytes": "claimed" if kept is None else kept.replace("-", "")}

    def display(self):
        shown = self.peek("show display")
        if shown is None:
            return None
        characters, attributes = shown.split()
        shown = bytes.fromhex(characters).decode("ascii")
        return {"columns": self.columns, "characters": shown, "attributes": attributes}

    def printer(self):
        shown = self.peek("show printer")
        if shown is None:
            return None
        cover, lines, buffer, *items = shown.split()
        return {"cover": cover, "lines": int(lines), "buffer": buffer, "items": items, "width": self.width}

    def state(self):
        """All that is to be seen of the counter. A device without a peripheral is None."""
        return {
            "says": self.says,
            "basket": [ARTICLES[label] for label in self.basket],
            "sum": self.sum(),
            "articles": [[label.decode(), *article] for label, article in ARTICLES.items()],
            "drawer": self.peek("show drawer"),
            "display": self.display(),
            "printer": self.printer(),
            "power": {name: self.peek(f"get {name} PowerState") for name in CATEGORIES if name != "totals"},
            "totals": {"size": self.peek("get totals TotalsSize"), "free": self.peek("get totals FreeData"),
                       "files": list(self.files())},
            "log": self.log[-200:],
        }
