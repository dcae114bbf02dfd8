#!/usr/bin/env python3
"""Writes the tables that documents have from the tree: crates, tests, benches, calls of the library and the like.

A crate's row has the first sentence of its `//!` head and its line of crates.txt, that of a script or of a call the
first sentence of the comment before it. A table is between two marks.

Usage: tools/lists.py, or with --check to compare only. Its last line is 'N passed, M failed', a table each.
"""
import functools
import glob
import os
import re
import shlex
import sys

sys.dont_write_bytecode = True
import sources

LONGEST = 25
MARK = "<!-- {0}: tools/lists.py writes from here .. -->\n", "<!-- .. to here: {0} -->\n"


def sentence(text):
    """The first sentence of a comment, without what is in brackets at its end, as a table's cell."""
    text = " ".join(re.split(r"\n\s*\n|\n- |\n +(?:\w+ {2,}|either )", text)[0].split())
    found = re.match(r"(.*?[.:])(?= |$)(?! (?!docs/)[a-z])|(.*)", text)
    text = (found[1] or found[2]).rstrip(".:")
    if len(text.split()) > LONGEST and ":" in text:
        text = text.partition(":")[0]
    text = re.sub(r"\[(`[^`]*`)\]", r"\1", re.sub(r" \([^()]*\)$", "", text))
    return text[:1].upper() + text[1:].replace("|", "\\|")


def head_of_crate(crate):
    for root in ("lib", "main"):
        path = f"crates/{crate}/src/{root}.rt"
        if os.path.exists(os.path.join(sources.TOP, path)):
            lines = re.findall(r"^//!(.*)$", sources.read(path), re.M)
            return sentence("\n".join(line[1:] for line in lines))
    return ""


def head_of_script(path):
    text = sources.read(path)
    if path.endswith(".py"):
        return sentence(re.search(r'"""(.*?)"""', text, re.S)[1])
    lines = text.split("\n")[1:]
    end = next(number for number, line in enumerate(lines) if not line.startswith("#"))
    return sentence("\n".join(line[2:] for line in lines[:end]))


def table(head, rows):
    lines = ["| " + " | ".join(head) + " |", "|" + "---|" * len(head)]
    return "\n".join(lines + ["| " + " | ".join(row) + " |" for row in rows]) + "\n"


def short(crate):
    return crate.removeprefix("pos_")


def crates():
    """The crates that aren't tests, lowest first, with what each stands on of this tree."""
    below = {}
    for line in sources.read("crates.txt").split("\n"):
        name, colon, rest = line.partition(":")
        if colon and not line.startswith("#"):
            below[name.split(" ")[0]] = [word for word in rest.split() if word in sources.crates()]
    rows = [[short(crate), head_of_crate(crate), ", ".join(map(short, below[crate])) or "-"]
            for crate in sources.crates() if not crate.endswith("_tests")]
    return table(["Crate", "Has", "Stands on"], rows)


def tests_crates():
    rows = [[f"`{crate}`", head_of_crate(crate)] for crate in sources.crates() if crate.endswith("_tests")]
    return table(["Crate", "What it tries"], rows)


def parts():
    """The parts of the gate and those that run alone, with how many checks each makes."""
    listed = re.findall(r"^(gate|alone) +(\S+) +(.*?)(?: PROGRAM)?$", sources.read("tests/expected"), re.M)
    known = {command.split(" ")[0] for _, _, command in listed}
    more = sorted(path for path in glob.glob("tests/*.sh", root_dir=sources.TOP)
                  if os.access(os.path.join(sources.TOP, path), os.X_OK) and path not in known)
    rows = []
    for where, number, command in [*listed, *(("alone", "", path) for path in more)]:
        path = command.split(" ")[0]
        does = "Every proof, the must-fail edits, the tests crates, each program on its `stdin`"
        if "/" in path:
            does = head_of_script(path)
        rows.append([f"`{command}`", "" if where == "gate" else "by hand", number, does])
    return table(["Part", "Runs", "Checks", "What it does"], rows)


def benches():
    found = sorted(path for path in glob.glob("bench/*.*", root_dir=sources.TOP)
                   if path.endswith((".sh", ".py")) and os.access(os.path.join(sources.TOP, path), os.X_OK))
    return table(["Script", "What it does"], [[f"`{path}`", head_of_script(path)] for path in found])


@functools.cache
def counted_files():
    """The files that tests/adding.sh looks at, with their crates and texts without comments."""
    found = []
    for crate in sources.crates():
        if not crate.endswith("_tests") and crate not in ("pos_till", "pos_escpos", "pos_report"):
            for folder, ending in (("src", "rt"), ("specs", "antt"), ("proofs", "antt")):
                found += [(short(crate), path, re.sub(r"(?m)^\s*(//|--).*$", "", sources.read(path)))
                          for path in sources.Tree.paths(crate, folder, ending)]
    return found


def files_with(pattern):
    """The files that name something: how many, and a list by crates."""
    found, words = {}, re.findall(r"\w{4,}", pattern.partition("(?:")[2].replace("\\b", " "))
    for crate, path, text in counted_files():
        if any(word in text for word in words) and re.search(pattern, text):
            found.setdefault(crate, []).append(path.split("/", 2)[2].rpartition(".")[0])
    return (str(sum(map(len, found.values()))),
            "; ".join(f"{crate}: {', '.join(files)}" for crate, files in found.items()))


def additions():
    rows = []
    counts = sources.read("tests/adding.sh").replace("\\\n", "")
    for median, kind, most, words in re.findall(r'^count(_median)? "([^"]+)" (\d+) (.*)$', counts, re.M):
        pattern = rf"\b(?:{shlex.split(words)[2]})\b" if median else words.strip("'")
        name = re.findall(r"\w+", pattern.replace("\\b", "").replace("(?:", ""))[0]
        rows.append([kind, name, most, *files_with(rf"(?<!specs\.)(?<!proofs\.)(?:{pattern})")])
    return table(["Kind", "As", "At most", "Today", "Files that name it"], rows)


HEADER = "abi/kijolvar.h"
NOTE = r"/\* ((?:(?!\*/).)*?)\*/\n"


def library_calls():
    found = re.findall(NOTE + r"\w+ (kijolvar_\w+)\(", sources.read(HEADER), re.S)
    return table(["Call", "Does"], [[f"`{name}`", sentence(comment)] for comment, name in found])


def library_codes():
    found = re.findall(NOTE + r"    (KIJOLVAR_\w+) = (\d+)", sources.read(HEADER), re.S)
    return table(["Code", "Number", "Meaning"], [[f"`{name}`", number, sentence(note)] for note, name, number in found])


def file_messages():
    """The messages of a fault of the totals' file, with their status and cause."""
    text = sources.read("crates/pos_program/src/file_fault.rt")
    rows = []
    for notes, message, name in re.findall(r'((?:^    ///.*\n)+)    #\[error\("(.*)"\)\]\n    (\w+)', text, re.M):
        cause = " ".join(re.sub(r"^ *///", "", notes, flags=re.M).split()).rstrip(".")
        message = message.replace("{0}", "REASON").replace("{at}", "N").replace("{rule}", "RULE")
        rows.append(["6" if name.startswith("NoMemory") else "4", f"`FILE: {message}`", cause])
    return table(["Status", "Message", "Cause"], rows)


FIRST = {"getting-started.md", "what-is-proved.md", "architecture.md"}
FOLDERS = {"guide": "a till developer", "reference": "looking something up", "proofs": "a proof reader",
           "contributing": "a contributor"}


def documents():
    """The documents by reader, each with its first sentence."""
    rows = []
    for folder, reader in FOLDERS.items():
        names = os.listdir(os.path.join(sources.TOP, "docs", folder))
        found = sorted(names, key=lambda name: (name not in FIRST, name))
        for name in found:
            title, text = re.match(r"# (.*)\n\n((?:.+\n)+)", sources.read(f"docs/{folder}/{name}")).groups()
            text = re.sub(r"\[([^\]]*)\]\([^)]*\)", r"\1", text.replace("**", ""))
            rows.append([reader, f"[{title}]({folder}/{name})", sentence(text)])
            reader = ""
    return table(["You are", "Document", "What it has"], rows)


def count(pattern, root=sources.TOP):
    return len(glob.glob(pattern, root_dir=root))


def scripts():
    paths = glob.glob("tests/scripts/*", root_dir=sources.TOP)
    count = sum(not re.search(r"[.](stdout|profile|disk|left|before)$", path) for path in paths)
    return f"There are {count} scripts.\n"


def edits():
    return table(["Wrong bodies", "In", "How many"], [
        ["in the gate", "`crates/CRATE/must-fail/`", f"{count('crates/*/must-fail/*.edit'):,}"],
        ["outside", "`tests/edits/CRATE/`", f"{count('tests/edits/*/*.edit'):,}"],
        ["crates with a list of planted bodies", "`tests/plant/CRATE`", f"{count('tests/plant/*'):,}"]])


LISTS = {
    "scripts": ("docs/contributing/testing.md", scripts),
    "edits": ("docs/contributing/testing.md", edits),
    "documents": ("docs/README.md", documents),
    "messages": ("docs/reference/trouble.md", file_messages),
    "calls of the library": ("abi/README.md", library_calls),
    "codes of the library": ("abi/README.md", library_codes),
    "crates": ("docs/contributing/architecture.md", crates),
    "additions": ("docs/contributing/adding.md", additions),
    "parts": ("docs/contributing/testing.md", parts),
    "tests crates": ("docs/contributing/testing.md", tests_crates),
    "benches": ("docs/contributing/measures.md", benches),
}


def parts_of(page, name):
    """What is before a table in the page, the table, and what is after it; None if its marks aren't there."""
    begin, end = (mark.format(name) for mark in MARK)
    head, found, rest = page.partition(begin)
    old, closed, tail = rest.partition(end)
    return (head + begin, old, end + tail) if found and closed else None


def faults(texts):
    """How many tables there are, and those that aren't what the tree has."""
    wrong = []
    for name, (page, made) in LISTS.items():
        there = parts_of(texts[page], name)
        if not there or there[1].strip() != made().strip():
            wrong.append(f"{page}: the table {name} isn't what the tree has: run tools/lists.py")
    return len(LISTS), wrong


def main():
    texts = {page: sources.read(page) for page, _ in LISTS.values()}
    if "--check" not in sys.argv:
        for name, (page, made) in LISTS.items():
            there = parts_of(texts[page], name)
            if there:
                texts[page] = there[0] + "\n" + made() + "\n" + there[2]
        for page, text in texts.items():
            if text != sources.read(page):
                with open(os.path.join(sources.TOP, page), "w", encoding="utf-8") as file:
                    file.write(text)
                print(f"{page} was written")
    looked, wrong = faults(texts)
    print("".join(fault + "\n" for fault in wrong) + f"{looked - len(wrong)} passed, {len(wrong)} failed")
    return 1 if wrong else 0


if __name__ == "__main__":
    sys.exit(main())
