#!/usr/bin/env python3
"""Writes the lists of docs/proofs/trust.md: the definitions that the contracts of README.md and
docs/proofs/what-is-proved.md reach.

Usage: tools/trust.py, or with --check to compare only. A contract is any function that one of the two documents names
in backticks as `crate::function` or `crate::Type::function`, and each function of a type that it names as
`crate::Type`. Its last line is 'N passed, M failed', a list or a file that is read by eye each.
"""
import os
import re
import sys

sys.dont_write_bytecode = True
import sources

PAGE = "docs/proofs/trust.md"
DOCUMENTS = {"README": ["README.md"], "PROOFS": ["docs/proofs/what-is-proved.md", "docs/proofs/theorems.md"]}
BY_EYE = ["crates/pos_streams/src/adapters.rt", "crates/pos_file/src/system_file.rt",
          "crates/pos_program/src/file_system.rt", "crates/pos_program/src/held_streams.rt",
          "crates/pos_program/src/words.rt", "crates/pos_console/src/main.rt", "crates/pos_tool/src/folder.rt",
          "crates/pos_tool/src/main.rt", "crates/kijolvar/src/order_queue.rt",
          "abi/heap.c", "abi/kijolvar.h"]
TABLE = "| File | Lines | Definitions and types, with their lines |\n|---|---|---|\n"
MARK = "<!-- {0}: tools/trust.py writes from here .. -->\n", "<!-- .. to here: {0} -->\n"


def contracts_in(tree, text):
    """The functions that a document names, by their paths."""
    found = {}
    for path in re.findall(r"`((?:pos_\w+|kijolvar)::[\w:]+?)(?:\([^`]*\))?`", text):
        crate, *_, name = path.split("::")
        if name[0].isupper() and crate in sources.crates():
            named = [it for it in tree.functions(crate) if it.owner[-1:] == [name] and sources.is_exported(it)]
        else:
            named = [tree.function(path)] if crate in sources.crates() else []
        for function in named:
            if function and function.clauses:
                found[f"{crate}::{function.title()}"] = function
    return found


def in_reading_order(tree, keys):
    """The files of some items, each with its items: crates after those below, files after those that they import."""
    files = {}
    for key in keys:
        files.setdefault((tree.items[key].crate, tree.items[key].path), []).append(key)
    named = {file: {other for key in keys for other in tree.named_by(key)} for file, keys in files.items()}
    below = {file: {(tree.items[key].crate, tree.items[key].path) for key in keys} for file, keys in named.items()}
    order, seen = [], set()

    def add(file):
        if file in seen:
            return
        seen.add(file)
        for other in sorted(below[file], key=lambda it: it[1]):
            # of a file of specs/ and one of src/ that import each other the former comes first
            is_circle = other in files and file in below[other] and "/src/" in other[1] and "/specs/" in file[1]
            if other in files and other[0] == file[0] and not is_circle:
                add(other)
        order.append(file)

    for crate in sources.crates():
        for file in sorted((file for file in files if file[0] == crate), key=lambda it: it[1]):
            add(file)
    items = {file: [tree.items[key] for key in of_file] for file, of_file in files.items()}
    return [(file[1], sorted(items[file], key=lambda item: item.line)) for file in order]


def written(tree, functions, keys):
    """The text of a list: its contracts, and a table a crate, with a row a file."""
    total = sum(tree.items[key].lines for key in keys)
    ordered = in_reading_order(tree, keys)
    parts = [f"{len(keys):,} definitions and types in {len(ordered)} files, {total:,} lines, for {len(functions)} "
             "contracts:\n\n| Crate | Contracts |\n|---|---|\n"]
    for crate in sources.crates():
        names = sorted(path.partition("::")[2] for path in functions if path.startswith(f"{crate}::"))
        if names:
            parts.append(f"| {crate} | {', '.join(f'`{name}`' for name in names)} |\n")
    crate = None
    for path, items in ordered:
        if items[0].crate != crate:
            crate = items[0].crate
            lines = sum(item.lines for _, of_file in ordered for item in of_file if item.crate == crate)
            parts.append(f"\n**{crate}**, {lines:,} lines\n\n{TABLE}")
        file = path.split("/", 2)[2]
        names = ", ".join(f"`{item.name}` {item.lines}" for item in items)
        parts.append(f"| [{file}](../../{path}) | {sum(item.lines for item in items)} | {names} |\n")
    return "".join(parts)


def of_kit(tree, keys, functions):
    """What is named of the kit's own definitions: the modules, and how many names of each."""
    found = {}
    for path in sorted({tree.items[key].path for key in keys} | {function.path for function in functions}):
        for crate, module, names, alias in sources.IMPORT.findall(sources.read(path)):
            if crate not in sources.crates():
                listed = {name.strip() for name in names.split(",") if name.strip()} or {alias}
                found.setdefault((crate, module), set()).update(listed)
    rows = []
    for crate in sorted({crate for crate, _ in found}):
        modules = sorted(f"{module} {len(found[at, module])}" for at, module in found if at == crate)
        rows.append(f"| `{crate}` | {', '.join(modules)} |\n")
    return "| Library | Its modules, and how many names of each |\n|---|---|\n" + "".join(rows)


def by_eye():
    there = [path for path in BY_EYE if os.path.exists(os.path.join(sources.TOP, path))]
    counts = {path: sum(1 for line in sources.read(path).split("\n") if line.strip()) for path in there}
    rows = [f"| [{path}](../../{path}) | {count} |\n" for path, count in counts.items()]
    return "| File | Lines |\n|---|---|\n" + "".join(rows)


def lists(tree, texts):
    """Each list of the page, by its name, over the texts of the documents."""
    found, seen, functions = {}, set(), {}
    for name, documents in DOCUMENTS.items():
        named = contracts_in(tree, "".join(texts[document] for document in documents))
        more = {path: function for path, function in named.items() if path not in functions}
        functions.update(more)
        start = set().union(*(tree.named_by_contract(function) for function in more.values()))
        keys = tree.closure(start) - seen
        seen |= keys
        found[name] = written(tree, more, keys)
    found["kit"] = of_kit(tree, seen, functions.values())
    found["eye"] = by_eye()
    return found


def parts_of(page, name):
    """What is before a list in the page, the list, and what is after it; None if its marks aren't there."""
    begin, end = (mark.format(name) for mark in MARK)
    head, found, rest = page.partition(begin)
    old, closed, tail = rest.partition(end)
    return (head + begin, old, end + tail) if found and closed else None


def faults(page, texts):
    """How many lists there are, and those that aren't what the sources have."""
    found = lists(sources.Tree(), texts)
    there = {name: parts_of(page, name) for name in found}
    wrong = [f"{PAGE}: the list {name} isn't what the sources have: run tools/trust.py"
             for name, text in found.items() if not there[name] or there[name][1].strip() != text.strip()]
    wrong += [f"tools/trust.py: there is no {path} to read by eye" for path in BY_EYE
              if not os.path.exists(os.path.join(sources.TOP, path))]
    return len(found) + len(BY_EYE), wrong


def main():
    texts = {document: sources.read(document) for documents in DOCUMENTS.values() for document in documents}
    page = before = sources.read(PAGE)
    if "--check" not in sys.argv:
        for name, text in lists(sources.Tree(), texts).items():
            parts = parts_of(page, name)
            page = parts[0] + "\n" + text + "\n" + parts[2] if parts else page
        if page != before:
            with open(os.path.join(sources.TOP, PAGE), "w", encoding="utf-8") as file:
                file.write(page)
            print(f"{PAGE} was written")
    looked, wrong = faults(page, texts)
    print("".join(fault + "\n" for fault in wrong) + f"{looked - len(wrong)} passed, {len(wrong)} failed")
    return 1 if wrong else 0


if __name__ == "__main__":
    sys.exit(main())
