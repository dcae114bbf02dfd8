"""Random changes of Hard Totals as lines of a script, each with its answer and the files behind it."""
import collections

# The most bytes that the files of a layout have, the most files, and how long a write is here.
LIMITS = {1: (8192, 64, 1800), 2: (65536, 250, 7000)}
BEGIN = ["new a HardTotals", "open a t1", "set a DeviceEnabled true"]
# A line, the answer that it has to get, and the files behind it.
Step = collections.namedtuple("Step", "line answer files")


class Shop:
    """Files as a table of handles, apart from everything that the program does."""

    def __init__(self, chance, layout, files):
        self.chance, (self.most, self.most_files, self.longest) = chance, LIMITS[layout]
        self.files = [[handle, name, kept] for handle, (name, kept) in enumerate(files, 1)]
        self.next = len(files) + 1
        self.steps = [Step(line, "ok", self.now()) for line in BEGIN]

    def now(self):
        return tuple((name, kept) for _, name, kept in self.files)

    def step(self, line, answer="ok"):
        self.steps.append(Step(line, answer, self.now()))

    def room(self):
        return self.most - sum(len(kept) for _, _, kept in self.files)

    def new_name(self):
        while True:
            name = bytes(self.chance.randrange(0x20, 0x80) for _ in range(self.chance.randint(1, 10)))
            if all(name != other for _, other, _ in self.files):
                return name

    def create(self):
        size = self.chance.randint(0, min(self.room(), self.longest))
        name = self.new_name()
        self.files.append([self.next, name, bytes(size)])
        self.step(f"call a create {name.hex()} {size} false", f"ok {self.next}")
        self.next += 1

    def delete(self):
        place = self.chance.randrange(len(self.files))
        _, name, _ = self.files.pop(place)
        self.step(f"call a delete {name.hex()}")

    def rename(self):
        file = self.chance.choice(self.files)
        file[1] = self.new_name()
        self.step(f"call a rename {file[0]} {file[1].hex()}")

    def edit(self, most, pending):
        """Adds a write or a setAll that changes something to the bytes of files that are pending. Its line, or nothing
        where there is no byte to change."""
        file = self.chance.choice(self.files)
        handle, kept = file[0], pending.get(file[0], file[2])
        if not kept:
            return None
        offset = self.chance.randrange(len(kept))
        byte = (kept[offset] + self.chance.randint(1, 255)) % 256
        if self.chance.random() < 0.15:
            pending[handle] = bytes([byte]) * len(kept)
            return f"call a setAll {handle} {byte}"
        count = self.chance.randint(1, min(len(kept) - offset, most))
        text = bytes([byte]) + self.chance.randbytes(count - 1)
        pending[handle] = kept[:offset] + text + kept[offset + count:]
        return f"call a write {handle} {offset} {text.hex()}"

    def settle(self, pending):
        for file in self.files:
            file[2] = pending.get(file[0], file[2])

    def change(self):
        pending = {}
        line = self.edit(self.longest, pending)
        if line:
            self.settle(pending)
            self.step(line)

    def transaction(self):
        self.step("call a beginTrans")
        pending = {}
        for _ in range(self.chance.randint(2, 6)):
            line = self.edit(self.longest // 6, pending)
            if line:
                self.step(line)
        if self.chance.random() < 0.15:
            self.step("call a rollback")
        else:
            self.settle(pending)
            self.step("call a commitTrans")

    def go_on(self, count):
        """Adds so many changes; a change of no byte and a transaction of none may be among them."""
        for _ in range(count):
            deed = self.chance.random()
            if len(self.files) < 3 or deed < 0.08 and len(self.files) < self.most_files // 4:
                self.create()
            elif deed < 0.12 or self.room() < 200 and deed < 0.2:
                self.delete()
            elif deed < 0.2:
                self.rename()
            elif deed < 0.4:
                self.transaction()
            else:
                self.change()
        return self.steps
