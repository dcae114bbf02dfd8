"""What a power cut may leave of a file, by a record of what a program did to it.

A cut comes after any entry of the record. What was written or lengthened before the last sync of the file is there.
Each later write is there or not, or a front or a back of it is, or some of its sectors or bytes. Each later length is
the old one, the new one or one between. A file that was created is there for sure once its folder was synced. No order
of writes is kept."""
import collections
import random
import struct

SECTOR, PAGE = 512, 4096
# Entries of a record: C creates the file, N creates one without a name, L gives it its name, T sets its length, W
# writes, S syncs it, D syncs its folder, A writes to standard output, X ends the program well (the driver adds it); ?
# can't be replayed.
Entry = collections.namedtuple("Entry", "kind at text")
# A moment at which the power may be cut: the number of entries before it, the bytes that are synced (None: no file),
# the writes and lengths since, whether the file has its name, whether it may be missing, and the bytes that a reader
# without a cut sees.
Moment = collections.namedtuple("Moment", "number kept loose has_name may_miss seen")


def read_record(path):
    text, at, entries = path.read_bytes(), 0, []
    while at < len(text):
        kind, place, count = struct.unpack_from("=cQQ", text, at)
        at += 17
        entries.append(Entry(kind.decode(), place, text[at:at + count]))
        at += count
    return entries


def applied(image, entry):
    """The bytes of a file behind a write or a new length."""
    image = bytearray(image or b"")
    if entry.kind == "T":
        return image[:entry.at].ljust(entry.at, b"\0")
    image[len(image):] = bytes(max(0, entry.at - len(image)))
    image[entry.at:entry.at + len(entry.text)] = entry.text
    return image


def begun(start):
    """The moment before a record, over a file that holds `start`, all of it synced."""
    return Moment(0, start, [], start is not None, start is None, start)


def after(moment, entry):
    """The moment behind one more entry."""
    number, kept, loose, has_name, may_miss, seen = moment
    if entry is None:
        pass
    elif entry.kind in "CN":
        kept, seen, has_name = bytearray(), bytearray(), entry.kind == "C"
    elif entry.kind == "L":
        has_name = True
    elif entry.kind in "TW":
        loose, seen = loose + [entry], applied(seen, entry)
    elif entry.kind == "S":
        kept, loose = seen, []
    elif entry.kind == "D":
        may_miss = may_miss and not has_name
    elif entry.kind == "?":
        raise ValueError(f"entry {number} can't be replayed")
    return Moment(number + 1, kept, loose, has_name, may_miss, seen)


def mix(old, new, mask):
    """The bytes of `new` where the mask is 0xFF, and else those of `old`."""
    count = len(new)
    old, new, mask = (int.from_bytes(text, "big") for text in (old, new, mask))
    return (old & ~mask | new & mask).to_bytes(count, "big")


SHARES = [bytes(255 if byte < most else 0 for byte in range(256)) for most in (8, 64, 128, 192, 248)]


def torn(chance, old, new):
    """Each byte old or new."""
    return mix(old, new, chance.randbytes(len(new)).translate(chance.choice(SHARES)))


def sectors(chance, old, new, at):
    """Each sector old or new."""
    first, last = at // SECTOR, (at + len(new) - 1) // SECTOR
    mask = b"".join(bytes([chance.choice((0, 255))]) * SECTOR for _ in range(first, last + 1))
    return mix(old, new, mask[at % SECTOR:at % SECTOR + len(new)])


def cut(chance, new):
    """A place within a write."""
    return chance.randrange(1, len(new)) if len(new) > 1 else 1


def leave(chance, way, old, entry):
    """What is left where a write stood, by the way in which it was cut. `old` stood there before."""
    new = entry.text
    if way == "whole":
        return new
    if way == "front":
        place = cut(chance, new)
        return new[:place] + old[place:]
    if way == "back":
        place = cut(chance, new)
        return old[:place] + new[place:]
    if way == "sectors":
        return sectors(chance, old, new, entry.at)
    if way == "bytes":
        return torn(chance, old, new)
    # the last four are neither old nor new bytes, which a disk of docs/proofs/crashes.md may leave
    if way == "gates":
        return torn(chance, torn(chance, old, new), b"\xa5" * len(new))
    if way == "any":
        return torn(chance, torn(chance, old, new), chance.randbytes(len(new)))
    if way == "noise":
        return chance.randbytes(len(new))
    return bytes([chance.choice((0, 0xFF, 0xA5, chance.randrange(256)))]) * len(new)


OLD_OR_NEW = ("whole", "front", "back", "sectors", "bytes")
ANY = OLD_OR_NEW + ("gates", "any", "noise", "fill")


def plans(chance, moment, ways, budget):
    """Ways to cut each loose entry (None: it is not there), first of all each subset of whole ones, and each of the
    last eight cut alone."""
    count = len(moment.loose)
    for subset in range(1 << count) if count <= 7 else ():
        yield ["whole" if subset >> place & 1 else None for place in range(count)]
    for place in range(max(0, count - 8), count):
        for way in ways[1:]:
            for others in (None, "whole"):
                yield [way if other == place else others for other in range(count)]
    for _ in range(budget):
        yield [chance.choice(ways + (None, "whole", "whole")) for _ in range(count)]


def build(chance, moment, plan):
    """The bytes that are left by a plan."""
    image = bytearray(moment.kept)
    for entry, way in zip(moment.loose, plan):
        if way is None:
            continue
        if entry.kind == "T":
            at = entry.at
            if way != "whole":
                at = chance.choice((chance.randint(min(len(image), at), max(len(image), at)), at // 2 // PAGE * PAGE))
            image = applied(image, Entry("T", at, b""))
            continue
        at, end = entry.at, entry.at + len(entry.text)
        old = bytes(image[at:end]).ljust(len(entry.text), b"\0")
        image[len(image):] = bytes(max(0, at - len(image)))
        image[at:end] = leave(chance, way, old, entry)
    return image


class Marks:
    """Numbers for files by their bytes, as sums over their pages; those that no loose write reached are read once."""

    def __init__(self):
        self.kept, self.pages, self.total = None, [], 0

    def page(self, image, number):
        return hash((number, bytes(image[number * PAGE:number * PAGE + PAGE])))

    def of(self, moment, image):
        """The number of a file that is left at a moment."""
        if len(image) != len(moment.kept):
            return hash(bytes(image))
        if self.kept is not moment.kept:
            self.kept = moment.kept
            self.pages = [self.page(moment.kept, page) for page in range(-(-len(moment.kept) // PAGE))]
            self.total = sum(self.pages)
        touched = set()
        for entry in moment.loose:
            if entry.kind == "W":
                touched.update(range(entry.at // PAGE, (entry.at + len(entry.text) - 1) // PAGE + 1))
        changed = sum(self.page(image, page) - self.pages[page] for page in touched if page < len(self.pages))
        return hash(self.total + changed)


def states(chance, moment, ways, budget, marks, share=1.0):
    """The files that a cut at a moment may leave, each once, with its number and the ways of its entries; of them a
    share, by chance."""
    found = set()
    if moment.may_miss and chance.random() < share:
        yield None, 0, "no file"
    if not moment.has_name:
        return
    for plan in plans(chance, moment, ways, budget) if moment.loose else [[]]:
        if chance.random() >= share:
            continue
        image = build(chance, moment, plan)
        mark = marks.of(moment, image)
        if mark not in found:
            found.add(mark)
            yield image, mark, plan
