#!/usr/bin/env python3
"""Writes the links of docs/proofs/rules.md, with their lines, and checks each row.

Usage: tools/rules.py, or with --check to compare only. A row has a rule, the standard's section, the prose, the
definition, the function and the test. The text of a link says where it leads:
  `DOCUMENT, Heading`            prose
  `crate.Module.name`            a definition
  `crate::Type::name`            a function; for Type the name of its file will do
  `script: front of a comment`   a group of a conformance script
  `crate: name`                  a test of a tests crate
  `tests/name`, `script.left`    a file of tests/, or one beside a script
After the prose and after a file come words of a line under the heading or of the file, as in
  [model, Events](..): "wait for DataEventEnabled"
After a group come lines of it, in their order. Words of a line will do: the tool writes the line and what it prints, by
the script's `.stdout`, as in
  [totals.claims: claimFile](..): "claim b 0" => `err 112`, "call a releaseFile 1" => `ok`
Of two groups with the same front of a comment it takes the one that has the lines. A cell may have several tests, with
`; ` between them. After the function `; body` may come, and the function whose body decides, or several, each after its
own; it must if the first has no body. The contract of the first has to lead to the definition, by the names that it
uses and those that their definitions use in turn. With --check it also plants a wrong cell of each kind in a row, which
has to be found. Its last line is 'N passed, M failed', a row or a planted cell each.
"""
import ast
import glob
import os
import re
import sys

sys.dont_write_bytecode = True
import sources

PAGE = "docs/proofs/rules.md"
DOCUMENTS = sorted(os.path.relpath(path, sources.TOP) for path in glob.glob(f"{sources.TOP}/docs/*/*.md"))
SCRIPTS = "tests/scripts"


class Fault(Exception):
    pass


CELL = re.compile(r'(?:\[(.*?)\]\([^()]*\)|(.*?))(?:: "([^"]+)")?')


def parsed(cell):
    """What a cell says without its link, and the words that it quotes."""
    link, text, words = CELL.fullmatch(cell).groups()
    return (link or text).strip("`"), words


def quoted(words, text, where):
    """The words as a cell has them, if a line of the text has them too, so that a search for them finds it."""
    if not words:
        raise Fault(f"it quotes no words of {where}")
    if not any(words in line for line in text.split("\n")):
        raise Fault(f"no line of {where} has the words {words!r}")
    return f': "{words}"'


def slug(heading):
    return re.sub(r"[^\w -]", "", heading.lower()).replace(" ", "-")


def said_by(path):
    """Each line of a script with what it prints: None for a quiet line (docs/reference/console.md, "Lines")."""
    with open(os.path.join(sources.TOP, path), encoding="utf-8", errors="surrogateescape", newline="\n") as file:
        lines = file.read().replace("\r\n", "\n").split("\n")
    answers = sources.read(f"{path}.stdout").split("\n")[:-1]
    is_loud = [bool(line.strip(" ")) and not line.startswith("#") for line in lines]
    if sum(is_loud) != len(answers):
        raise Fault(f"{path} has {sum(is_loud)} lines that print, and its .stdout {len(answers)}")
    turn = iter(answers)
    return [(line, next(turn) if loud else None) for line, loud in zip(lines, is_loud)]


def line_of(path, pattern, what):
    for number, line in enumerate(sources.read(path).split("\n"), 1):
        if re.match(pattern, line):
            return number
    raise Fault(f"{path} has no {what}")


def under(path, number):
    """What is under a heading, up to the next heading of any kind."""
    block, found = False, []
    for line in sources.read(path).split("\n")[number:]:
        block ^= line.startswith("```")
        if re.match(r"#+ ", line) and not block:
            break
        found.append(line)
    return "\n".join(found)


def prose(cell):
    text, words = parsed(cell)
    document, _, heading = text.partition(", ")
    path = next((path for path in DOCUMENTS if os.path.basename(path) == f"{document}.md"), None)
    if path is None:
        raise Fault(f"there is no document {document}")
    number = line_of(path, rf"#+ {re.escape(heading)}$", f"heading {heading}")
    link = f"[{text}]({os.path.relpath(path, os.path.dirname(PAGE))}#{slug(heading)})"
    return link + quoted(words, under(path, number), text)


def definition(tree, text):
    crate, module, name = text.split(".")
    item = tree.items.get((crate, module, name))
    if item is None:
        raise Fault(f"no definition {text}")
    return f"[`{text}`](../../{item.path}#L{item.line})"


def function(tree, text):
    found = tree.function(text)
    if found is None:
        raise Fault(f"no function {text}")
    return found


def functions(tree, cell):
    """The cell of a function, and of those whose bodies decide."""
    names = [parsed(part)[0] for part in cell.split("; body ")]
    found = [(name, function(tree, name)) for name in names]
    for name, at in found[1:] or found:
        if at.contract.rstrip().endswith(";"):
            raise Fault(f"{name} has no body")
    return "; body ".join(f"[`{name}`](../../{at.path}#L{at.line})" for name, at in found)


def quoted_lines(group, quotes):
    """The lines of a group that are quoted, each after the one before, with their answers; None if it hasn't them."""
    found = []
    for words in quotes:
        exact = [at for at, (line, _) in enumerate(group) if line == words]
        at = next(iter(exact or [at for at, (line, _) in enumerate(group) if words in line]), None)
        if at is None:
            return None
        line, answer = group[at]
        found.append(f'"{line}" => `{answer}`')
        group = group[at + 1 :]
    return ", ".join(found)


def test_in_script(text, quotes):
    name, _, comment = text.partition(": ")
    path = f"{SCRIPTS}/{name}"
    if not os.path.exists(os.path.join(sources.TOP, path)):
        raise Fault(f"there is no script {name}")
    lines = said_by(path)
    front = "# " + comment.replace("\\|", "|")
    starts = [at for at, (line, _) in enumerate(lines) if line.startswith(front)]
    if not starts:
        raise Fault(f"{path} has no group {comment!r}")
    if not quotes:
        raise Fault("it quotes no words of the test's group")
    for start in starts:
        end = next(at for at, (line, _) in enumerate([*lines, ("", None)]) if at > start and not line)
        found = quoted_lines([said for said in lines[start:end] if said[1] is not None], quotes)
        if found:
            return f"[{text}](../../{path}#L{start + 1}): {found}"
    raise Fault(f"the test's group has the words {', '.join(map(repr, quotes))}, in this order")


def test_in_crate(text):
    crate, _, name = text.partition(": ")
    for path in sorted(glob.glob(os.path.join(sources.TOP, f"crates/{crate}/src/*.rt"))):
        path = os.path.relpath(path, sources.TOP)
        if re.search(rf"#\[test\]\s+fn {re.escape(name)}\b", sources.read(path)):
            number = line_of(path, rf"fn {re.escape(name)}\b", f"test {name}")
            return f"[{text}](../../{path}#L{number})"
    raise Fault(f"{crate} has no test {name}")


def remarks(path):
    """The numbers of a file's lines that are comment or docstring, and so check nothing."""
    text = sources.read(path)
    found = {number for number, line in enumerate(text.split("\n"), 1) if line.lstrip().startswith("#")}
    if path.endswith(".py"):
        for node in ast.walk(ast.parse(text)):
            if isinstance(node, (ast.Module, ast.ClassDef, ast.FunctionDef)) and ast.get_docstring(node):
                found.update(range(node.body[0].lineno, node.body[0].end_lineno + 1))
    return found


def words_in_file(text, quotes):
    path = text if text.startswith("tests/") else f"{SCRIPTS}/{text}"
    if not os.path.exists(os.path.join(sources.TOP, path)):
        raise Fault(f"there is no {path}")
    if len(quotes) != 1:
        raise Fault(f"it quotes no words of {text}")
    remarked = remarks(path) if path.startswith("tests/") and path.endswith((".sh", ".py")) else set()
    for number, line in enumerate(sources.read(path).split("\n"), 1):
        if quotes[0] in line and number not in remarked:
            return f'[{text}](../../{path}#L{number}): "{quotes[0]}"'
    raise Fault(f"no line of {text} but comments has the words {quotes[0]!r}")


QUOTE = r'"([^"]+)"(?: => `[^`]*`)?'
TEST = re.compile(rf"(?:\[(.*?)\]\([^()]*\)|(.*?))(?:: ((?:{QUOTE}(?:, )?)+))?")
# A cell's tests: what is between `; `, but not in the text of a link, in words or in an answer.
TESTS = re.compile(r'(?:\[[^\]]*\]|"[^"]*"|`[^`]*`|[^;\["`]|;(?! ))+')


def test(part):
    link, text, quotes, _ = TEST.fullmatch(part.strip()).groups()
    text, quotes = link or text, re.findall(QUOTE, quotes or "")
    if re.match(r"\w+_tests: ", text):
        return test_in_crate(text)
    return test_in_script(text, quotes) if ": " in text else words_in_file(text, quotes)


def written(tree, cells):
    """The cells of a row as they have to be."""
    if len(cells) != 6:
        raise Fault("a row has six cells")
    target, name = parsed(cells[3])[0], parsed(cells[4].partition("; body ")[0])[0]
    row = [*cells[:2], prose(cells[2]), definition(tree, target), functions(tree, cells[4]),
           "; ".join(map(test, TESTS.findall(cells[5])))]
    if tuple(target.split(".")) not in tree.closure(tree.named_by_contract(tree.function(name))):
        raise Fault(f"the contract of {name} doesn't lead to {target}")
    return row


def checked(tree, line):
    """The row as it has to be; with --check a fault if it differs."""
    row = "| " + " | ".join(written(tree, cells_of(line))) + " |"
    if row != line and "--check" in sys.argv:
        raise Fault("a link or an answer isn't what the sources have: run tools/rules.py")
    return row


# A cell of a row, what is put there that has to be found, and what the fault has to say.
PLANTS = [
    (2, lambda cell: cell.replace("](", " of nothing](", 1), "no heading"),
    (2, lambda cell: cell.replace(': "', ': "nothing of ', 1), "has the words"),
    (2, lambda cell: cell.partition(': "')[0], "quotes no words"),
    (3, lambda cell: "`pos_counter.Steps.Nothing`", "no definition"),
    (3, lambda cell: "`pos_survey.Descriptions.Describes`", "doesn't lead to"),
    (4, lambda cell: "`pos_counter::Counter::nothing`", "no function"),
    (4, lambda cell: cell + "; body `pos_common::status::nothing`", "no function"),
    (4, lambda cell: cell + "; body `pos_sims::Screen::show`", "has no body"),
    (5, lambda cell: "drawer.open: nothing of it", "no group"),
    (5, lambda cell: cell.replace(': "', ': "nothing of ', 1), "has the words"),
    (5, lambda cell: re.sub(r"=> `[^`]*`", "=> `nothing of it`", cell), "run tools/rules.py"),
    (5, lambda cell: re.sub(r"#L(\d+)", lambda at: f"#L{int(at[1]) + 1}", cell), "run tools/rules.py"),
    (5, lambda cell: "pos_run_tests: nothing_of_it", "no test"),
    (5, lambda cell: cell + '; tests/program.sh: "nothing of it"', "has the words"),
    (5, lambda cell: cell + '; tests/rules.sh: "Checks docs"', "but comments"),
    (5, lambda cell: cell + '; tests/powercut/powercut.py: "leaves its bytes"', "but comments"),
    (5, lambda cell: cell + "; disk.files.left", "quotes no words"),
]


def plants_found(tree, line):
    """How many planted cells are found, and those that aren't."""
    missed = []
    for number, (at, plant, says) in enumerate(PLANTS, 1):
        cells = cells_of(line)
        cells[at] = plant(cells[at])
        try:
            checked(tree, "| " + " | ".join(cells) + " |")
            missed.append(number)
        except Fault as fault:
            if says not in str(fault):
                missed.append(number)
    return len(PLANTS) - len(missed), missed


def cells_of(line):
    return [cell.strip() for cell in re.split(r"(?<!\\)\|", line.strip())[1:-1]]


def main():
    tree = sources.Tree()
    lines = sources.read(PAGE).split("\n")
    passed = failed = changed = 0
    for number, line in enumerate(lines):
        cells = cells_of(line) if line.startswith("| ") else []
        if not cells or cells[0] == "Rule":
            continue
        try:
            row = checked(tree, line)
            changed += row != line
            lines[number] = row
            passed += 1
        except Fault as fault:
            failed += 1
            print(f"{cells[0]}: {fault}")
    if "--check" in sys.argv and passed:
        plain = next(line for line in lines if line.startswith("| ") and "](" in line and "; body " not in line)
        found, missed = plants_found(tree, plain)
        passed, failed = passed + found, failed + len(missed)
        print("".join(f"planted cell {number}: it isn't found\n" for number in missed), end="")
    if changed:
        with open(os.path.join(sources.TOP, PAGE), "w", encoding="utf-8") as file:
            file.write("\n".join(lines))
        print(f"{PAGE}: {changed} rows were written")
    print(f"{passed} passed, {failed} failed")
    return 1 if failed or not passed else 0


if __name__ == "__main__":
    sys.exit(main())
