#!/usr/bin/env bash
# Measures the prose of README.md, CONTRIBUTING.md, CHANGELOG.md, abi/README.md, those of crates, and docs/:
#   median   half of the sentences have at most 16 words
#   longest  no sentence has more than 35
#   words    none of the words that this project replaces with plainer ones
#   repeats  no nine words in a row that another document has too
# and of docs/ as a whole:
#   size     at most 120 KB are written by hand: prose and tables, without what a tool writes, without examples and
#            drawings, and without the tables of names, which tests/documents.sh and tests/rules.sh check cell by cell
# Tables, headings and code don't count as sentences. Tables do count for repeats, cell by cell. A name in backticks
# is one word. Then it plants one fault of each kind, in memory, and its rule has to find it.
# Usage: tests/prose.sh [-v]. -v also prints how many bytes by hand, sentences and words a sentence each document has.
# Its last line is 'N passed, M failed': a rule of a document or a planted fault each. It ends with 0 if none failed.
set -u
cd "$(dirname "$0")/.." || exit 1
exec python3 - "$@" <<'PROGRAM'
import glob, os, re, statistics, sys

MEDIAN = 16
LONGEST = 35
RUN = 9
MOST = 120 * 1024
# Documents with tables of names.
TABLES = ["docs/proofs/theorems.md", "docs/proofs/glossary.md", "docs/proofs/rules.md"]
# Documents whose prose isn't measured yet.
NOT_COVERED = []
# Written by tools/contracts.py and tools/calls.py: tables.
GENERATED = ["docs/proofs/contracts.md", "docs/reference/calls.md"]
# What a tool writes into a document, between two marks.
MARKED = re.compile(r"<!-- (.*?): tools/\w+\.py writes from here \.\. -->.*?<!-- \.\. to here: \1 -->", re.S)
# Words that have a plainer one: `again`, `returns`, `prints`, `in total`, `so does`, `if` and the like.
REPLACED = re.compile(
    r"\banew\b|\bof one's own\b|\bhand(?:s|ed|ing)? (?:out|on|over)\b|\b(?:is|are|was|were) told\b|\bin sum\b"
    r"|\blikewise\b"
    r"|\bwhereof\b|\bwherein\b|\btells (?:of|whether|which|what|where|how)\b|\bstands? (?:in|for|beside|behind|apart)\b"
    r"|\bas it stands\b|\bcomes? to be\b|\bcarr(?:y|ies|ied) out\b", re.I)


def read(path):
    with open(path, encoding="utf-8") as file:
        return file.read()


def blocks_of(text):
    """The paragraphs and list items of a document, and the cells of its tables. Code, headings and what a tool writes
    are left out."""
    text = MARKED.sub("", text)
    text = re.sub(r"^( *)```.*?^\1```", "\n", text, flags=re.M | re.S)
    text = re.sub(r"<!--.*?-->", "", text, flags=re.S)
    prose, cells, lines = [], [], []

    def end():
        if lines:
            prose.append(" ".join(lines))
            lines.clear()

    in_item = False
    for line in text.split("\n"):
        item = re.match(r"\s*(?:[-*] |\d+\. )(.*)", line)
        if not line.strip():
            end()
        elif re.match(r"#+ ", line):
            end()
            in_item = False
        elif line.startswith("|"):
            end()
            if not re.fullmatch(r"[|:\- ]+", line):
                cells.extend(cell.strip() for cell in re.split(r"(?<!\\)\|", line)[1:-1])
        elif item:
            end()
            in_item = True
            lines.append(item[1])
        elif line.startswith("    ") and not lines and not in_item:
            continue
        else:
            if not line.startswith(" "):
                in_item = False
            lines.append(line.strip())
    end()
    return prose, cells


def by_hand(path, text):
    """How many bytes of a document are prose and tables that a tool neither writes nor checks cell by cell."""
    text = MARKED.sub("", text)
    text = re.sub(r"^( *)```.*?^\1```\n", "", text, flags=re.M | re.S)
    if path in TABLES:
        text = re.sub(r"^\|.*\n", "", text, flags=re.M)
    return len(text.encode())


def plain(text):
    """A block without its links' targets and pictures."""
    text = re.sub(r"!\[[^\]]*\]\([^)]*\)", "", text)
    return re.sub(r"\[([^\]]*)\]\([^)]*\)", r"\1", text)


def sentences_of(prose):
    for block in prose:
        block = re.sub(r"`[^`]*`", "x", plain(block))
        for sentence in re.split(r"(?<=[.?!])[\"'*)]*\s+", block):
            if re.search(r"\w", sentence):
                yield sentence


def length(sentence):
    return len(re.findall(r"[\w][\w'.,/:-]*", sentence))


def runs_of(prose, cells):
    """Each run of nine words of a document, in the order in which they are there."""
    for block in [*prose, *cells]:
        words = re.findall(r"\w+(?:[',]\w+)*", plain(block).lower())
        for at in range(len(words) - RUN + 1):
            yield " ".join(words[at : at + RUN])


def measure(texts):
    """What is wrong, as (document, rule): the faults."""
    faults = {}
    parts = {path: blocks_of(text) for path, text in texts.items()}
    runs = {path: list(runs_of(*part)) for path, part in parts.items()}
    owners = {}
    for path, found in runs.items():
        for run in found:
            owners.setdefault(run, set()).add(path)
    for path, (prose, cells) in parts.items():
        sentences = list(sentences_of(prose))
        lengths = [length(sentence) for sentence in sentences]
        median = statistics.median(lengths) if lengths else 0
        faults[path, "median"] = [f"the median sentence has {median:g} words"] if median > MEDIAN else []
        faults[path, "longest"] = [f"a sentence of {many} words: {sentence[:80]} .."
                                   for many, sentence in zip(lengths, sentences) if many > LONGEST]
        spoken = [re.sub(r"`[^`]*`", "x", plain(block)) for block in [*prose, *cells]]
        faults[path, "words"] = [f"`{found[0]}` in: {block[max(0, found.start() - 40) : found.end() + 30]}"
                                 for block in spoken for found in REPLACED.finditer(block)]
        repeated, before = [], False
        for run in runs[path]:
            here = len(owners[run]) > 1
            if here and not before:
                repeated.append(f"{', '.join(sorted(owners[run] - {path}))} has too: {run}")
            before = here
        faults[path, "repeats"] = repeated
    size = sum(by_hand(path, text) for path, text in texts.items() if path.startswith("docs/"))
    faults["docs/", "size"] = [f"{size:,} bytes are written by hand, of {MOST:,}"] if size > MOST else []
    return faults


def documents():
    found = ["README.md", "CONTRIBUTING.md", "CHANGELOG.md", "abi/README.md", *sorted(glob.glob("crates/*/README.md"))]
    found += sorted(glob.glob("docs/**/*.md", recursive=True))
    return [path for path in found if os.path.exists(path) and path not in GENERATED]


WORDS = "one till opens its cash drawer and adds the sale to its totals while a scanner reads the next code".split()
PLANTS = [
    ("median", "README.md", lambda: "\n\n" + " ".join(" ".join(WORDS[:17]).capitalize() + "." for _ in range(900))),
    ("longest", "README.md", lambda: "\n\nThe " + " ".join((WORDS * 2)[:LONGEST]) + ".\n"),
    ("longest", "README.md", lambda: "\n\n- The " + " ".join(WORDS) + "\n  " + " ".join(WORDS[:18]) + ".\n"),
    ("words", "README.md", lambda: "\n\nThe till is opened anew.\n"),
    ("repeats", "README.md", lambda: "\n\n| Till | " + " ".join(WORDS[:RUN]) + " |\n"),
    ("size", "docs/README.md", lambda: "\n\n" + "Tills add. " * (MOST // 10)),
]
ECHO = ("docs/README.md", "\n\nHere " + " ".join(WORDS[:RUN]) + ".\n")


def main():
    passed = failed = 0
    every = documents()
    measured = {path: read(path) for path in every if path not in NOT_COVERED}
    print(f"wanted: a median of at most {MEDIAN} words a sentence, none over {LONGEST}, no {RUN} words in a row twice")
    faults = measure(measured)
    for (path, rule), found in faults.items():
        if found:
            failed += 1
            for fault in found:
                print(f"{path}: {rule}: {fault}")
        else:
            passed += 1
    for path in NOT_COVERED:
        if path in every:
            print(f"{path}: not measured yet")
        else:
            failed += 1
            print(f"{path} isn't there: it mustn't stand on the list")
    if "-v" in sys.argv:
        for path in every:
            lengths = [length(sentence) for sentence in sentences_of(blocks_of(read(path))[0])]
            print(f"{path}: {by_hand(path, read(path)):,} bytes by hand, {len(lengths)} sentences, median "
                  f"{statistics.median(lengths or [0]):g}, longest {max(lengths or [0])}")
    size = sum(by_hand(path, text) for path, text in measured.items() if path.startswith("docs/"))
    print(f"docs/: {size:,} bytes by hand, at most {MOST:,}")
    for rule, path, text in PLANTS:
        planted = {**measured, path: measured.get(path, "") + text()}
        if rule == "repeats":
            planted[ECHO[0]] = planted.get(ECHO[0], "") + ECHO[1]
        place = "docs/" if rule == "size" else path
        if set(measure(planted)[place, rule]) - set(faults.get((place, rule), [])):
            passed += 1
        else:
            failed += 1
            print(f"a planted fault of {rule} isn't found in {path}")
    print(f"{passed} passed, {failed} failed")
    return 1 if failed or not passed else 0


sys.exit(main())
PROGRAM
