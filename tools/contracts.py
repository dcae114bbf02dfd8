#!/usr/bin/env python3
"""Writes docs/proofs/contracts.md: each function with a contract that a crate's users can call.

What a row says is from the function's docstring and from the names of its clauses.

Usage: tools/contracts.py, or with --check to compare only. Its last line is 'N passed, M failed', a crate each.
"""
import os
import re
import sys

sys.dont_write_bytecode = True
import sources

PAGE = "docs/proofs/contracts.md"
HEAD = """# The contracts of all crates

Every function with a contract that a crate's users can call. `tools/contracts.py` writes this page from the sources,
and `tests/documents.sh` compares it. [What is proved](what-is-proved.md) is the short list.

A heading is a crate, lowest first. A row is a function or a type:

- **What it says** is the front of its docstring. Only the clauses are proved: how many writes and syncs a call makes,
  for one, is said there, and isn't.
- **Requires** names the premises that a caller has to meet, **Ensures** what the caller gets. Both are names of
  clauses. A clause without a name counts as 1.
- A trait's functions are contracts that each type with the trait meets. "`MemDisk` as `Disk`" is such a type, with the
  definitions that it gives for the trait.
"""
TABLE = ["| Function | What it says | Requires | Ensures |", "|---|---|---|---|"]
LONGEST = 40


def summary(comment):
    """The front of a docstring: its first sentence, or of a long one its front."""
    paragraph = " ".join(comment.split("\n\n")[0].split())
    found = re.match(r"(.*?\.)(?= [A-Z0-9`\"']|$)", paragraph)
    text = re.sub(r" ?\([^()]*\)", "", found[1] if found else paragraph)
    if len(text.split()) > LONGEST:
        front = " ".join(text.split()[:LONGEST])
        cut = re.split(r"[:;,](?=[^:;,]*$)", front)[0]
        text = (cut if len(cut.split()) > LONGEST // 2 else front) + " .."
    else:
        text = text.rstrip(".:;,")
    return text.replace("|", "\\|")


def names_of(function, kind):
    names = [name for what, name in function.clauses if (what == "requires") == (kind == "requires")]
    told = [f"`{name}`" for name in dict.fromkeys(names) if name]
    bare = names.count("")
    return ", ".join(told + ([str(bare)] if bare else []))


def cells_of(function):
    name = f"[`{function.title()}`](../../{function.path})"
    return [name, summary(function.comment), names_of(function, "requires"), names_of(function, "ensures")]


def of_crate(tree, crate):
    """The rows of a crate, by file and line."""
    rows = []
    for function in tree.functions(crate):
        if function.clauses and sources.is_exported(function):
            rows.append((function.path, function.line, cells_of(function)))
    for key, item in tree.items.items():
        if key[0] == crate and " as " in item.name and item.path.startswith(f"crates/{crate}/src/"):
            kind, trait = item.name.split(" as ")
            name = f"[`{kind}` as `{trait}`](../../{item.path})"
            rows.append((item.path, item.line, [name, f"Defines {ghosts_of(item)}", "", ""]))
    return ["| " + " | ".join(cells) + " |" for _, _, cells in sorted(rows)]


def ghosts_of(item):
    text = sources.read(item.path)
    kind, trait = item.name.split(" as ")
    generics = r"(?:<[^{\n]*>)?"
    block = re.search(rf"^impl{generics} {trait}{generics} for {kind}[^{{\n]*\{{.*?^\}}", text, re.M | re.S)[0]
    return ", ".join(f"`{name}`" for name in re.findall(r"^    ghost (?!use|also)(\w+) = ", block, re.M))


def tables(tree):
    """The text of each crate that has contracts, by its name."""
    found = {}
    for crate in sources.crates():
        rows = of_crate(tree, crate) if not crate.endswith("_tests") else []
        if rows:
            found[crate] = "\n".join([f"## {crate}", "", *TABLE, *rows, ""])
    return found


def faults(page):
    """How many crates there are, and what of the page isn't what the sources have."""
    found = tables(sources.Tree())
    wrong = [f"{PAGE}: {crate} isn't what its sources have: run tools/contracts.py"
             for crate, text in found.items() if text not in page]
    if not wrong and page != "\n".join([HEAD, *found.values()]):
        wrong.append(f"{PAGE}: it has what no source has: run tools/contracts.py")
    return len(found), wrong


def main():
    if "--check" not in sys.argv:
        with open(os.path.join(sources.TOP, PAGE), "w", encoding="utf-8") as file:
            file.write("\n".join([HEAD, *tables(sources.Tree()).values()]))
        print(f"{PAGE} was written")
    looked, wrong = faults(sources.read(PAGE))
    print("".join(fault + "\n" for fault in wrong) + f"{looked - len(wrong)} passed, {len(wrong)} failed")
    return 1 if wrong else 0


if __name__ == "__main__":
    sys.exit(main())
