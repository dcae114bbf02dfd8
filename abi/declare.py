#!/usr/bin/env python3
"""Writes what the library declares, out of the exports and codes of crates/kijolvar/src, the settings of
crates/pos_wire and the numbers of crates/pos_service: for C kijolvar.h, for Python the constants alone. typed_c.py and
typed_rust.py write what is typed for C and Rust.

Usage: abi/declare.py c > abi/kijolvar.h
       abi/declare.py python > abi/python/standard.py
"""
import pathlib
import re
import sys
import textwrap

TOP = pathlib.Path(__file__).resolve().parent.parent
LIBRARY = TOP / "crates/kijolvar/src"
WIRE = TOP / "crates/pos_wire/src"
TYPES = {
    "u32": "uint32_t {}",
    "Till": "kijolvar_till {}",
    "&[u8]": "const uint8_t *{0}, size_t {0}_len",
    "&mut [u8]": "uint8_t *{0}, size_t {0}_len",
    "&mut u64": "uint64_t *{}",
    "usize": "size_t {}",
    "&mut usize": "size_t *{}",
    "&mut Slot": "void **{}",
    "&WireSettings": "const kijolvar_wire_settings *{}",
}
RESULTS = {"u32": "uint32_t", None: "void"}

SPECS = [TOP / "crates" / crate / "specs" for crate in ("pos_service", "pos_printer")]

# The numbers of the standard that no enum of the crates names. Each is read from a definition: its file, its name, and
# the form of the text in which the number is.
STANDARD = [
    ("States of a control (State).", {
        "S_CLOSED": ("Controls", "state_of", r"is_none control\.device then (\d+)"),
        "S_IDLE": ("Controls", "state_of", r"else (\d+)\)\)"),
        "S_BUSY": ("Controls", "state_of", r"is_outstanding \S+ then (\d+)"),
        "S_ERROR": ("Controls", "state_of", r"is_in_error control then (\d+)")}),
    ("Statuses of a cash drawer, in StatusUpdateEvents.", {
        "CASH_SUE_DRAWERCLOSED": ("Statuses", "drawer_status", r"false = (\d+)"),
        "CASH_SUE_DRAWEROPEN": ("Statuses", "drawer_status", r"true = (\d+)")}),
    ("Statuses of a printer, in StatusUpdateEvents.", {
        "PTR_SUE_COVER_OPEN": ("Statuses", "cover_status", r"true = (\d+)"),
        "PTR_SUE_COVER_OK": ("Statuses", "cover_status", r"false = (\d+)"),
        "PTR_SUE_REC_EMPTY": ("Statuses", "paper_status", r"paper\.Empty = (\d+)"),
        "PTR_SUE_REC_NEAREMPTY": ("Statuses", "paper_status", r"paper\.NearEnd = (\d+)"),
        "PTR_SUE_REC_PAPEROK": ("Statuses", "paper_status", r"paper\.Good = (\d+)")}),
    ("Statuses of power, in StatusUpdateEvents.", {
        "SUE_POWER_ONLINE": ("Statuses", "power_status", r"true = (\d+)"),
        "SUE_POWER_OFF_OFFLINE": ("Statuses", "power_status", r"false = (\d+)")}),
    ("Power: CapPowerReporting, PowerNotify, PowerState.", {
        "PR_NONE": ("Properties", "power_reporting", r"false = (\d+)"),
        "PR_STANDARD": ("Properties", "power_reporting", r"true = (\d+)"),
        "PN_DISABLED": ("Properties", "notify_number", r"false = (\d+)"),
        "PN_ENABLED": ("Properties", "notify_number", r"true = (\d+)"),
        "PS_UNKNOWN": ("Properties", "power_state", r"else (\d+)"),
        "PS_ONLINE": ("Statuses", "power_status", r"true = (\d+)"),
        "PS_OFF_OFFLINE": ("Statuses", "power_status", r"false = (\d+)")}),
    ("Attributes of a display's text, and directions of a scroll.", {
        "DISP_DT_NORMAL": ("Displays", "attribute_number_of", r"attribute\.Normal = (\d+)"),
        "DISP_DT_BLINK": ("Displays", "attribute_number_of", r"attribute\.Blink = (\d+)"),
        "DISP_DT_REVERSE": ("Displays", "attribute_number_of", r"attribute\.Reverse = (\d+)"),
        "DISP_DT_BLINK_REVERSE": ("Displays", "attribute_number_of", r"attribute\.BlinkReverse = (\d+)"),
        "DISP_ST_UP": ("Displays", "direction_number_of", r"direction\.Up = (\d+)"),
        "DISP_ST_DOWN": ("Displays", "direction_number_of", r"direction\.Down = (\d+)"),
        "DISP_ST_LEFT": ("Displays", "direction_number_of", r"direction\.Left = (\d+)"),
        "DISP_ST_RIGHT": ("Displays", "direction_number_of", r"direction\.Right = (\d+)")}),
    ("The station of a receipt printer.", {"PTR_S_RECEIPT": ("PrinterCalls", "is_receipt", r"n == (\d+)")}),
]


def definition(path, name):
    """The text of a definition: its equations, up to an empty line."""
    return re.search(rf"^{name}\b(?! :).*?(?=\n\n|\Z)", path.read_text(), re.M | re.S)[0]


def defined(file, name, form):
    """The number that a definition of the devices has in this form, once."""
    (path,) = [path for specs in SPECS if (path := specs / f"{file}.antt").exists()]
    (found,) = re.findall(form, definition(path, name))
    return int(found)


def doc_before(source, at):
    lines = [line.strip() for line in source[:at].rstrip().split("\n")]
    doc = []
    while lines and (lines[-1].startswith("///") or lines[-1].startswith("#[")):
        line = lines.pop()
        if line.startswith("///"):
            doc.insert(0, line[4:].rstrip())
    return doc


def numbers(path, name):
    """The variants of an enum by the names of the standard that their comments begin with, and their numbers."""
    source = (TOP / path).read_text()
    told = dict(re.findall(r"/// (E[A-Z]*_[A-Z_]+)[:.][^\n]*\n\s+(\w+),", source))
    by_variant = {variant: word for word, variant in told.items()}
    return {by_variant[variant]: int(number) for variant, number in re.findall(rf"{name}::(\w+) => (\d+),", source)}


def extended():
    source = (TOP / "crates/pos_service/src/code.rt").read_text()
    found = re.findall(r"pub(?:\(crate\))? const (E[A-Z]+_[A-Z_]+): u32 = (\d+);", source)
    return {word: int(number) for word, number in found}


def groups():
    """The standard's numbers, each group with what it is."""
    yield "The result codes of the standard, which stand in answers.", numbers("crates/pos_service/src/code.rt", "Code")
    yield "Extended codes, behind E_EXTENDED.", extended()
    yield "Where an error stands, in ErrorEvents.", numbers("crates/pos_service/src/event.rt", "Locus")
    for what, named in STANDARD:
        yield what, {word: defined(*where) for word, where in named.items()}


def comment(lines):
    plain = [re.sub("^# (.*)", r"\1:", line.replace("`", "")) for line in lines]
    text = "\n".join(("   " + line).rstrip() for line in plain).lstrip()
    return f"/* {text} */"


def parameters(text):
    for part in re.sub(r"\s+", " ", text).strip().strip(",").split(", "):
        name, kind = part.split(": ", 1)
        if kind != "Global":
            yield TYPES[kind].format(name)


def exports(source):
    form = r'pub extern "C" fn (\w+)\(([^)]*)\)(?: -> (\w+))?'
    for found in re.finditer(form, source):
        name, taken, given = found.groups()
        listed = ", ".join(parameters(taken)) if taken.strip() else "void"
        doc = doc_before(source, found.start())
        declared = textwrap.fill(f"{RESULTS[given]} {name}({listed});", 120, subsequent_indent="    ")
        yield f"{comment(doc)}\n{declared}"


def version(source):
    return int(re.search(r"fn kijolvar_version\(\) -> u32[^{]*\{ result ≡ (\d+) \}", source)[1])


def disk_length():
    source = (LIBRARY / "disk.rt").read_text()
    return int(re.search(r"pub(?:\(crate\))? const SIZE: usize = ([0-9_]+);", source)[1])


def codes():
    """The library's codes, each with what it means."""
    source = (LIBRARY / "codes.rt").read_text()
    for found in re.finditer(r"^pub(?:\(crate\))? const ([A-Z_]+): u32 = (\d+);", source, re.M):
        yield f"KIJOLVAR_{found[1]}", int(found[2]), doc_before(source, found.start())


def settings():
    """What a host says of the hardware: what the record is, and its fields, each with what it is."""
    texts = [path.read_text() for path in sorted(WIRE.glob("*.rt"))]
    (source,) = [text for text in texts if "pub struct WireSettings {" in text]
    start = source.index("pub struct WireSettings {")
    fields = re.finditer(r"^    pub (\w+): u32,$", source[start:source.index("\n}", start)], re.M)
    return doc_before(source, start), [(found[1], doc_before(source, start + found.start())) for found in fields]


def constants(source):
    """All numbers, each group with what it is."""
    named = {"KIJOLVAR_VERSION": version(source), "KIJOLVAR_DISK_LENGTH": disk_length()}
    named |= {word: number for word, number, _ in codes()}
    yield "The version of the library, the bytes of a file for totals, and what calls answer.", named
    yield from groups()


def c(source):
    about, fields = settings()
    print(f"""\
/* A till's devices for C: lines in, the text of their answers out. Written by abi/declare.py: don't change it by hand.
   abi/README.md says how it is used, docs/reference/console.md what the lines are. */
#ifndef KIJOLVAR_H
#define KIJOLVAR_H

#include <stddef.h>
#include <stdint.h>

#ifdef __cplusplus
extern "C" {{
#endif

/* The version of this interface, which the library's has to be. */
#define KIJOLVAR_VERSION {version(source)}u

/* The least bytes of a file for totals. */
#define KIJOLVAR_DISK_LENGTH {disk_length()}

/* A till. Each call that is given one hands out what it is from then on, which is to be given to the next call; one at
   a time. Buffers don't overlap, and one of no bytes may be null. */
typedef struct {{
    void *at;
}} kijolvar_till;

{comment(about)}
typedef struct {{""")
    print("\n".join(f"    {comment([' '.join(doc)])}\n    uint32_t {name};" for name, doc in fields))
    print("""} kijolvar_wire_settings;

/* What a call answers. */
enum {""")
    print("\n".join(f"    {comment(doc)}\n    {word} = {number}," for word, number, doc in codes()))
    print("};\n")
    for what, named in groups():
        print(f"/* {what} */\nenum {{")
        print("\n".join(f"    {word} = {number}," for word, number in named.items()))
        print("};\n")
    print("\n\n".join(exports(source)))
    print("""
#ifdef __cplusplus
}
#endif

#endif""")


def python(source):
    print('"""The numbers that stand in lines and answers. Written by abi/declare.py: don\'t change it by hand."""')
    for what, named in constants(source):
        print(f"\n# {what}")
        print("\n".join(f"{word} = {number}" for word, number in named.items()))


if __name__ == "__main__":
    if len(sys.argv) != 2 or sys.argv[1] not in ("c", "python"):
        sys.exit(__doc__)
    {"c": c, "python": python}[sys.argv[1]]((LIBRARY / "lib.rt").read_text())
