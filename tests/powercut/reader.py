"""Reads totals files by docs/reference/totals-file.md. It is a second implementation of a recovery, written from that
document alone, so that
a hundred thousand files are read in a minute. `powercut.py` compares it with the program over a sample of them."""
import collections

LENGTH = 327680
OPEN = 0xA5
# layout: where its slots begin, how long a slot is, its longest body, where its log begins, most files, most bytes of
# files
LAYOUTS = {2: ((65536, 196608), 131072, 81907, 81920, 250, 65536), 1: ((0, 32768), 32768, 16371, 16384, 64, 8192)}

# What a file holds: `files` is a tuple of pairs of a name and its bytes.
Found = collections.namedtuple("Found", "layout slot sequence records room files")
# What it is where it holds none.
ABSENT, SHORT, UNFORMATTED, DAMAGED = "absent", "short", "unformatted", "damaged"


class Damage(Exception):
    pass


class Words:
    """Takes numbers and bytes off a list of bytes."""

    def __init__(self, text):
        self.text, self.at = text, 0

    def take(self, count):
        if self.at + count > len(self.text):
            raise Damage
        self.at += count
        return self.text[self.at - count:self.at]

    def number(self, count):
        return int.from_bytes(self.take(count), "big")

    def name(self):
        name = self.take(self.number(1))
        if not 1 <= len(name) <= 10 or any(not 0x20 <= byte <= 0x7F for byte in name):
            raise Damage
        return name

    def end(self):
        if self.at != len(self.text):
            raise Damage


def check(files, most_files, most_bytes):
    names = [name for name, _ in files]
    if len(files) > most_files or len(set(names)) < len(names) or sum(len(kept) for _, kept in files) > most_bytes:
        raise Damage


def read_body(body, most_files, most_bytes):
    words = Words(body)
    count = words.number(2)
    if count > most_files:
        raise Damage
    files = []
    for _ in range(count):
        name = words.name()
        files.append((name, words.take(words.number(4))))
    words.end()
    check(files, most_files, most_bytes)
    return files


def apply_group(files, group, most_files, most_bytes):
    """The files after a group of changes."""
    words, files = Words(group), list(files)
    count = words.number(2)
    if count == 0:
        raise Damage
    for _ in range(count):
        tag = words.number(1)
        if tag == 1:
            name, size = words.name(), words.number(4)
            if size > most_bytes:
                raise Damage
            files.append((name, bytes(size)))
        else:
            index = words.number(2)
            if index >= len(files):
                raise Damage
            name, kept = files[index]
            if tag == 2:
                del files[index]
            elif tag == 3:
                new = words.name()
                if any(new == other for other, _ in files):
                    raise Damage
                files[index] = new, kept
            elif tag == 4:
                offset, length = words.number(4), words.number(4)
                if length > 65536 or offset + length > len(kept):
                    raise Damage
                files[index] = name, kept[:offset] + words.take(length) + kept[offset + length:]
            elif tag == 5:
                files[index] = name, words.take(1) * len(kept)
            else:
                raise Damage
        check(files, most_files, most_bytes)
    words.end()
    return files


def current_slot(image, starts):
    """Where the current image of a layout begins, and its sequence; nothing where both slots are closed."""
    heads = [(int.from_bytes(image[at + 1:at + 9], "big"), at) for at in starts if image[at] == OPEN]
    if len(heads) == 2 and heads[0][0] == heads[1][0]:
        raise Damage
    return max(heads, default=None)


class Reader:
    """Reads files, and keeps the last ones in mind, as most files that a power cut leaves are read alike."""

    def __init__(self):
        self.kept = {}

    def read(self, image):
        if image is None:
            return ABSENT
        if len(image) < LENGTH:
            return SHORT
        try:
            return self.read_whole(image)
        except Damage:
            return DAMAGED

    def read_whole(self, image):
        for layout, (starts, size, longest, log, _, _) in LAYOUTS.items():
            head = current_slot(image, starts)
            if head:
                break
        else:
            return UNFORMATTED
        sequence, slot = head
        length = int.from_bytes(image[slot + 9:slot + 13], "big")
        if length > longest:
            raise Damage
        places, at = [], slot + log
        while image[at] == OPEN:
            end = at + 5 + int.from_bytes(image[at + 1:at + 5], "big")
            if end >= slot + size:
                raise Damage
            places.append((at + 5, end))
            at = end
        key = layout, slot, bytes(image[slot + 1:slot + 13 + length]), bytes(image[slot + log:at])
        found = self.kept.get(key)
        if found is None:
            if len(self.kept) > 50:
                self.kept.clear()
            found = self.kept[key] = self.decode(image, key, sequence, length, places, slot + size - at - 6)
        if found == DAMAGED:
            raise Damage
        return found

    def decode(self, image, key, sequence, length, places, room):
        layout, slot = key[:2]
        limits = LAYOUTS[layout][4:]
        try:
            files = read_body(bytes(image[slot + 13:slot + 13 + length]), *limits)
            for begin, end in places:
                files = apply_group(files, bytes(image[begin:end]), *limits)
        except Damage:
            return DAMAGED
        return Found(layout, slot, sequence, len(places), room, tuple(files))


def survey(found):
    """What `pos_console files` prints of a file (docs/reference/console.md, "What a totals file holds")."""
    lines = [f"layout {found.layout}", f"slot {found.slot}", f"sequence {found.sequence}", f"records {found.records}",
             f"room {found.room if found.room >= 0 else 'none'}", f"files {len(found.files)}"]
    for name, kept in found.files:
        lines += [f"file {name.hex()}", f"name {reads(name)}", f"size {len(kept)}", f"hex {kept.hex() or '-'}",
                  f"text {reads(kept)}"]
    return "".join(line + "\n" for line in lines)


def reads(text):
    return "".join(chr(byte) if 0x20 <= byte <= 0x7E else "." for byte in text)
