#!/usr/bin/env bash
# Checks how the crates are laid out, a check each rule: the crates of tests are left out. And how long lines of code
# are.
#   nouns     no source file is named by a participle in -ing
#   short     each source file but a root has 25 lines, or is listed here with its reason
#   heads     each source file begins with its one `//!` text
#   lists     specs/Lib.antt and proofs/Lib.antt name each file beside them, once, and no other
#   lemmas    each file of proofs/ itself is Lib, Common or named XLemmas
#   inside    functions and constants of a private module that a library's root doesn't export are pub(crate) or private
#   case      no two files or folders of a crate differ only in the case of their letters
#   width     no line has more than 120 columns, but an import
#   edits     each text that a wrong body or its twin replaces is in its file, once
#   code      no line of C, Rust, Python or shell has more than 120 columns, but as many of a file as are listed here
# Then it plants one fault of each kind, in memory, which has to be found, a check each. Usage: tests/layout.sh. Its
# last line is 'N passed, M failed'; it ends with 0 if none failed.
set -u
cd "$(dirname "$0")/.." || exit 1
exec python3 - << 'END'
import collections, glob, os, re, sys

NOUNS = {"ring", "string", "rounding", "spelling"}
SHORT = {
    "crates/pos_profile/src/laws.rt": "its path is public",
    "crates/pos_drive/src/preview.rt": "a trait that whoever is driven has, as hosted.rt is one",
    "crates/pos_drive/src/paper.rt": "a trait that whoever prints has, as preview.rt is one",
    "crates/pos_sims/src/print_preview.rt": "a trait of printers and of their wrappers, in files of their own",
    "crates/pos_sims/src/power.rt": "four devices use it, and it belongs to none more than to another",
}
LEAST = 25
MOST = 120


def read_tree():
    """The files of each crate but those of tests, with their texts."""
    tree = {}
    for pattern in ("src/**/*.rt", "specs/**/*.antt", "proofs/**/*.antt"):
        for path in glob.glob("crates/*/" + pattern, recursive=True):
            if not path.split("/")[1].endswith("_tests"):
                with open(path, encoding="utf-8") as file:
                    tree[path] = file.read()
    return tree


def read_edits():
    """The wrong bodies of each crate and their twins."""
    edits = {}
    for pattern in ("crates/*/must-fail/*.edit", "tests/edits/*/*.edit", "tests/twins/*/*.edit"):
        for path in glob.glob(pattern):
            with open(path, encoding="utf-8") as file:
                edits[path] = file.read()
    return edits


EDITS = read_edits()

# How many long lines a file may have: texts that it compares, and lines that nobody has made shorter yet. Write fewer.
LONG_LINES = {
    ".ci/run": 9, "abi/python/generate.py": 1, "tests/abi_files.py": 24, "tests/devices.py": 20, "tests/devices.sh": 1,
    "tests/documents.sh": 36, "tests/powercut/powercut.py": 30, "tests/program.sh": 15, "tests/python.sh": 2,
    "tests/python_package.py": 17, "tests/tool.sh": 77,
}


def is_code(path, text):
    return path.endswith((".c", ".h", ".rs", ".py", ".sh", ".mjs", ".java")) or text.startswith("#!")


def read_code():
    """The code outside the crates, with its text: what is built or written by a run is left out."""
    code = {}
    for path in glob.glob("*/**/*", recursive=True) + glob.glob(".ci/*"):
        is_left_out = path.startswith("crates/") or re.search(r"(^|/)(out|target|__pycache__|dist)/", path)
        if is_left_out or not os.path.isfile(path):
            continue
        with open(path, "rb") as file:
            text = file.read().decode("utf-8", "replace")
        if is_code(path, text):
            code[path] = text
    return code


CODE = read_code()


def crate_of(path):
    return path.split("/")[1]


def is_root(path):
    return re.fullmatch(r"crates/\w+/src/(lib|main)\.rt", path) is not None


def sources(tree):
    return [(path, tree[path]) for path in sorted(tree) if path.endswith(".rt")]


def nouns(tree):
    for path, _ in sources(tree):
        word = os.path.basename(path)[:-3].split("_")[-1]
        if word.endswith("ing") and word not in NOUNS:
            yield f"{path}: a participle names it"


def short(tree):
    for path, text in sources(tree):
        lines = text.count("\n")
        if lines < LEAST and not is_root(path) and path not in SHORT:
            yield f"{path}: {lines} lines; put it with a neighbour"


def heads(tree):
    for path, text in sources(tree):
        lines = text.split("\n")
        count = next(at for at, line in enumerate(lines) if not line.startswith("//!"))
        if count == 0:
            yield f"{path}: it begins without //!"
        if any(re.match(r"\s*//!", line) for line in lines[count:]):
            yield f"{path}: a second //!"


def lists(tree):
    folders = collections.defaultdict(set)
    for path in tree:
        found = re.fullmatch(r"(crates/\w+/(?:specs|proofs))/(\w+)\.antt", path)
        if found:
            folders[found[1]].add(found[2])
    for folder, names in sorted(folders.items()):
        named = collections.Counter(re.findall(r"^(?:pub )?mod (\w+)$", tree.get(f"{folder}/Lib.antt", ""), re.M))
        for name in sorted(names - {"Lib"} | set(named)):
            if named[name] != 1 or name not in names:
                yield f"{folder}/Lib.antt: {name} is there {named[name]} times"


def lemmas(tree):
    for path in sorted(tree):
        found = re.fullmatch(r"crates/\w+/proofs/(\w+)\.antt", path)
        if found and found[1] not in ("Lib", "Common") and not found[1].endswith("Lemmas"):
            yield f"{path}: name it XLemmas"


def inside(tree):
    for root in [path for path in sorted(tree) if path.endswith("/src/lib.rt")]:
        text, folder = tree[root], os.path.dirname(root)
        public = set(re.findall(r"^pub mod (\w+);", text, re.M))
        exported = collections.defaultdict(set)
        for module, names in re.findall(r"^pub use (\w+)::(\{[^}]*\}|\w+)", text, re.M):
            exported[module] |= set(re.findall(r"\w+", names))
        for path, source in sources(tree):
            module = os.path.relpath(path, folder).split("/")[0].removesuffix(".rt")
            if crate_of(path) != crate_of(root) or is_root(path) or module in public:
                continue
            for name in re.findall(r"^pub (?:const (?=fn))?(?:fn|const) (\w+)", source, re.M):
                if name not in exported[module]:
                    yield f"{path}: {name} is pub, and only the crate can name it"


def case(tree):
    seen = {}
    for path in sorted(tree):
        parts = re.sub(r"\.(rt|antt)$", "", path).split("/")
        for end in range(3, len(parts) + 1):
            it = "/".join(parts[:end])
            if seen.setdefault(it.lower(), it) != it:
                yield f"{it} and {seen[it.lower()]} differ only in case"


def width(tree):
    for path in sorted(tree):
        for number, line in enumerate(tree[path].split("\n"), 1):
            if len(line) > MOST and not re.match(r"\s*(pub |ghost )?use ", line):
                yield f"{path}:{number}: {len(line)} columns"


def edits(tree):
    for path, text in sorted(EDITS.items()):
        crate = crate_of(path) if path.startswith("crates/") else path.split("/")[2]
        for name, old in re.findall(r"^file: (.*)\nold: (.*)$", text, re.M):
            count = tree.get(f"crates/{crate}/{name}", "").count(old)
            if count != 1 and not crate.endswith("_tests"):
                yield f"{path}: {old.strip()!r} is {count} times in {name}"


def code(tree):
    files = CODE | {path: text for path, text in tree.items() if not path.startswith("crates/")}
    for path, text in sorted(files.items()):
        long = [number for number, line in enumerate(text.split("\n"), 1) if len(line) > MOST]
        if len(long) > LONG_LINES.get(path, 0):
            yield f"{path}: {len(long)} lines have more than {MOST} columns, as the line {long[-1]}"


def with_file(path, text):
    return lambda tree: tree.update({path: text})


def with_line(path, line):
    return lambda tree: tree.update({path: tree[path] + line + "\n"})


LONG = "//! One.\n" + "// a line\n" * LEAST
RULES = [
    (nouns, with_file("crates/pos_dir/src/turning.rt", LONG)),
    (short, with_file("crates/pos_dir/src/turn.rt", "//! One.\n")),
    (heads, with_file("crates/pos_dir/src/turn.rt", LONG + "//! Two.\n")),
    (lists, with_line("crates/pos_dir/proofs/Lib.antt", "pub mod Nothing")),
    (lemmas, with_file("crates/pos_dir/proofs/Turned.antt", "")),
    (inside, with_line("crates/pos_dir/src/supplies.rt", "pub fn nothing_of_it() {}")),
    (case, with_file("crates/pos_dir/specs/changes.antt", "")),
    (width, with_line("crates/pos_dir/proofs/Lib.antt", "-- " + "a" * MOST)),
    (edits, with_file("crates/pos_tool/src/whole.rt", LONG)),
    (code, with_file("abi/c/planted.c", "/* " + "a" * MOST + " */\n")),
]

tree = read_tree()
passed = failed = 0
for rule, plant in RULES:
    faults = list(rule(tree))
    for fault in faults:
        print(f"{rule.__name__}: {fault}")
    planted = dict(tree)
    plant(planted)
    missed = len(list(rule(planted))) <= len(faults)
    if missed:
        print(f"{rule.__name__}: a planted fault isn't found")
    passed += (not faults) + (not missed)
    failed += bool(faults) + missed
print(f"{passed} passed, {failed} failed")
sys.exit(failed > 0)
END
