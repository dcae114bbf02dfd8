#!/usr/bin/env bash
# Checks README.md, CONTRIBUTING.md, CHANGELOG.md, abi/README.md and docs/ against the tree. Each rule looks at one kind
# of claim:
#   paths      a file or folder in backticks exists; a command's first word is one
#   links      a link leads to a file, and to a heading or a line of it, and so does a heading that is quoted behind a link
#   comments   a document and a heading that a source, a test or a script names exist
#   names      `crate::function`, `Type::method`, `Type::Variant` and `crate.Module.name` are declared there
#   words      a single word in backticks that looks like a name is a word of the sources, or of the list of others below
#   proofs     each function that a crate's users can call and that has a clause is in the crate's table of docs/proofs/contracts.md, and
#              each function of a table is the crate's
#   generated  docs/proofs/contracts.md, docs/reference/calls.md, the lists of docs/proofs/trust.md and the tables
#   between
#              marks are what tools/contracts.py, tools/calls.py, tools/trust.py and tools/lists.py write
#   clauses    a clause that is named beside a function, and a field beside a definition, is there
#   claims     a definition that a claim of README or of docs/proofs/what-is-proved.md names is one to which the
#              contract of a function in the same claim leads, in a crate that the claim names
#   theorems   in docs/proofs/theorems.md, a function is one that its crate's users can call and has the clause, and its contract
#              leads to the relation; a quoted refusal is in docs/contributing/decisions.md; a part without a function
#              is said to be missing
#   commits    a commit's id is one of this history
#   kit        the kit that `rt version` tells is one of those that README names
#   crates     the crates and what they stand on are those of crates.txt
#   parts      the parts of the whole test are those that .ci/run runs; the tests crates, benches and additions that tables
#              name are those of the tree
#   tables     the tables of properties, methods, calls, codes and result codes have the rows of the sources, and the messages
#              of a file's faults are there
#   counts     a number in a sentence that this script lists is what the tree has
#   sections   each group of lines of a script names the section of the standard, or of a document, that it is from
# A rule that finds nothing to look at has failed. Then one wrong claim of each kind is planted in the documents, in
# memory, and its rule has to find it.
# Usage: tests/documents.sh, or with --self-test the planted claims alone. Its last line is 'N passed, M failed', a rule
# and a planted claim each; it ends with 0 where none failed.
set -u
cd "$(dirname "$0")/.." || exit 1
exec python3 - "$@" <<'PROGRAM'
import functools, glob, os, re, shutil, subprocess, sys

DOCUMENTS = ["README.md", "CONTRIBUTING.md", "CHANGELOG.md", "abi/README.md", *sorted(glob.glob("crates/*/README.md")),
             *sorted(glob.glob("docs/**/*.md", recursive=True))]
CRATES = sorted(os.path.basename(path) for path in glob.glob("crates/*"))
# Files that a command makes, or that stand for those of a reader.
MADE = {"out/pos_console", "crates/pos_console/out/pos_console", "crates/pos_tool/out/pos_tool", "out/libkijolvar.a", "crates/kijolvar/out/libkijolvar.a",
        "abi/out", "till.disk", "till.toml", "day.py", "drawer.c", "libkijolvar.a", "libkijolvar.so"}
# Words in backticks that are of the standard, of the system or of the checker, and so of no source here.
OTHERS = {"checkHealth", "directIO", "transactionPrint", "paste", "diff", "strace", "dmesg", "smartctl", "libc", "LendsIf",
          "pos_", "RedirectStandardInput", "RedirectStandardOutput", "StandardInputEncoding"}
# Names of files that the checker refuses, as docs/contributing/decisions.md says.
REFUSED = {"Contracts.antt", "proofs/Items.antt"}


def read(path):
    with open(path, encoding="utf-8", errors="replace", newline="\n") as file:
        return file.read()


def tracked_files():
    """The files of the tree: those that git lists or, if git can't, all but what a build leaves."""
    listed = subprocess.run(["git", "ls-files", "-co", "--exclude-standard"], capture_output=True, text=True)
    if listed.returncode == 0:
        return [path for path in listed.stdout.split("\n") if path and os.path.exists(path)]
    found = []
    for folder, folders, names in os.walk("."):
        folders[:] = [name for name in folders if name not in (".git", "out", "__pycache__")]
        found += [os.path.relpath(os.path.join(folder, name), ".") for name in names]
    return sorted(found)


FILES = tracked_files()
FOLDERS = {path[:at.start()] for path in FILES for at in re.finditer("/", path)}
TREE = ["/" + path for path in [*FILES, *FOLDERS]]
SCRIPTS = sorted(path for path in glob.glob("tests/scripts/*")
                 if not re.search(r"\.(stdout|profile|disk|left|before)$", path))
TEXTS = {path: read(path) for path in [*DOCUMENTS, *SCRIPTS]}


def of_documents(texts):
    return [(path, texts[path]) for path in DOCUMENTS]


def without_blocks(text):
    """The text with its fenced blocks and indented lines made empty."""
    text = re.sub(r"^( *)```.*?^\1```", lambda block: "\n" * block[0].count("\n"), text, flags=re.M | re.S)
    return re.sub(r"^    .*$", "", text, flags=re.M)


def ticked(text):
    """What stands in backticks, a line at most two."""
    return [part[1].replace("\n", " ") for part in re.finditer(r"(?<!`)`([^`\n]+(?:\n[^`\n]+)?)`(?!`)", text)]


# ---- the sources

FUNCTION = re.compile(r"^( *)(pub(?:\([^)]*\))? )?(?:unsafe |final |const |extern \"C\" )*fn (\w+)", re.M)
OWNERS = re.compile(r"^(?:pub )?(?:impl|trait)\b([^{\n]*)")
TYPE = re.compile(r"^(?:pub(?:\([^)]*\))? )?(?:struct|enum|trait|type|union) (\w+)", re.M)
CLAUSE = re.compile(r"\b(?:requires|ensures)\*? (\w+)")


class Function:
    def __init__(self, crate, path, owners, public, name, contract):
        self.crate, self.path, self.owners, self.public, self.name = crate, path, owners, public, name
        self.contract = contract
        self.clauses = set(CLAUSE.findall(contract))


def functions_in(crate, path):
    lines = read(path).split("\n")
    owners = set()
    for number, line in enumerate(lines):
        owner = OWNERS.match(line)
        if owner:
            owners = set(re.findall(r"\w+", owner[1]))
        elif line.startswith("}"):
            owners = set()
        found = FUNCTION.match(line)
        if found:
            end = number
            while not re.match(rf"^{found[1]}(\{{|\S.*\{{ .* \}};?$|.*\}};$)", lines[end]) and end < len(lines) - 1:
                if end > number and FUNCTION.match(lines[end]):
                    break
                end += 1
            contract = "\n".join(lines[number : end + 1])
            yield Function(crate, path, owners, found[2] == "pub ", found[3], contract)


def sources_of(crate):
    return sorted(glob.glob(f"crates/{crate}/src/**/*.rt", recursive=True))


FUNCTIONS = [f for crate in CRATES for path in sources_of(crate) for f in functions_in(crate, path)]
BY_NAME = {}
for function in FUNCTIONS:
    BY_NAME.setdefault(function.name, []).append(function)
TYPES = {}  # a type's name: the texts of its declarations
for crate in CRATES:
    for path in sources_of(crate):
        text = read(path)
        for found in TYPE.finditer(text):
            body = text[found.start() : text.find("\n}", found.start()) + 1]
            TYPES.setdefault(found[1], []).append((crate, body))
DEFINITIONS = {}  # a definition's name: its crate, module and text
for path in glob.glob("crates/*/specs/*.antt"):
    _, crate, _, module = path[: -len(".antt")].split("/")
    for block in re.split(r"\n(?=\S)", read(path)):
        declared = re.match(r"(?:abbrev pub|abbrev|pub data|pub record|pub) ([^\s:]+)", block)
        name = declared[1] if declared else block.split(" ")[0]
        DEFINITIONS.setdefault(name, []).append((crate, module, block))
WORDS = {crate: set() for crate in CRATES}  # all words of a crate
for path in FILES:
    if path.startswith("crates/") and path.endswith((".rt", ".antt")):
        WORDS[path.split("/")[1]].update(re.findall(r"[^\W\d]\w*", read(path)))


def long_name(crate):
    return crate if crate in CRATES else "pos_" + crate


# ---- the rules: each gives how much it has looked at, and what is wrong

RULES = {}


def rule(function):
    RULES[function.__name__] = function
    return function


def is_there(word, document):
    word = word.rstrip("/")
    here = os.path.join(os.path.dirname(document), word)
    if word in MADE | REFUSED or os.path.exists(word) or os.path.exists(here):
        return True
    return any(path.endswith(("/" + word, "/pos_" + word, "/pos_" + word + ".antt", "/" + word + ".antt", "/" + word + ".rt"))
               for path in TREE)


@rule
def paths(documents):
    looked, faults = 0, []
    for name, text in of_documents(documents):
        for span in ticked(without_blocks(text)):
            word = span.split(" ")[0]
            if not re.fullmatch(r"[\w.-]+(/[\w.-]+)*/?", word):
                continue
            if "/" not in word and not re.search(r"\w\.(rt|antt|sh|py|md|rs|c|h|edit|txt|toml|html|png|stdout)$", word):
                continue
            if re.search(r"\b(CRATE|NAME|CHAPTER)\b|^crates/crate/|^crate\.", word):
                continue
            looked += 1
            if not is_there(word, name):
                faults.append(f"{name}: there is no {word}")
    return looked, faults


def headings(path, documents):
    text = documents[path] if path in documents else read(path)
    return set(re.findall(r"^#+ (.*)$", re.sub(r"^```.*?^```", "", text, flags=re.M | re.S), re.M))


def slug(heading):
    return re.sub(r"[^\w -]", "", heading.lower()).replace(" ", "-")


def has_heading(path, heading, documents):
    """A heading, whose first words may be quoted alone where a comma or a bracket follows them."""
    return any(found == heading or re.match(re.escape(heading) + r"[ ]*[(,]", found) for found in headings(path, documents))


@rule
def links(documents):
    looked, faults = 0, []
    for name, text in of_documents(documents):
        text = re.sub(r"^```.*?^```", "", text, flags=re.M | re.S)
        for found in re.finditer(r"\[[^\]]*\]\(([^)]*)\)" + r'((?:,?\s+(?:in\s+|and\s+)?"[^"]+")*)', text):
            target, _, anchor = found[1].partition("#")
            looked += 1
            if re.match(r"https?:", target):
                continue
            path = os.path.normpath(os.path.join(os.path.dirname(name), target)) if target else name
            if not os.path.exists(path):
                faults.append(f"{name}: a link to {found[1]}, which isn't there")
                continue
            if re.fullmatch(r"L\d+", anchor):
                there = int(anchor[1:]) <= read(path).count("\n") + 1
            else:
                there = not anchor or anchor in map(slug, headings(path, documents))
            if not there:
                faults.append(f"{name}: a link to {found[1]}, which has no such heading or line")
            for heading in re.findall(r'"([^"]+)"', found[2]):
                looked += 1
                if not has_heading(path, " ".join(heading.split()), documents):
                    faults.append(f'{name}: {path} has no heading "{heading}"')
        for heading in re.findall(r'"([^"]+)",? (?:above|below)\b', text):
            looked += 1
            if not has_heading(name, " ".join(heading.split()), documents):
                faults.append(f'{name}: it has no heading "{heading}"')
    return looked, faults


@rule
def comments(documents):
    looked, faults = 0, []
    for path in FILES:
        if path.endswith(".md") or not re.match(r"(crates|tests|bench|abi|\.ci)/", path) or path == "tests/documents.sh":
            continue
        quoted = r'\b((?:docs/(?:\w+/)?|abi/)[\w-]+\.md)(?:,\s+(?:(?://[/!]?|#|--|\*)\s+)?"([^"]+)")?'
        for name, heading in re.findall(quoted, read(path)):
            looked += 1
            heading = re.sub(r"\s*\n\s*(//[/!]?|#|--|\*)?\s*", " ", heading)
            if not os.path.exists(name):
                faults.append(f"{path}: there is no {name}")
            elif heading and not has_heading(name, heading, documents):
                faults.append(f'{path}: {name} has no heading "{heading}"')
    return looked, faults


def is_declared(owner, name):
    """Whether a type has a method or a variant of this name."""
    if any(owner in f.owners for f in BY_NAME.get(name, [])):
        return True
    return any(re.search(rf"^\s+{name}\b", body, re.M) for _, body in TYPES.get(owner, []))


def is_in_package(owner, name):
    """Whether a type of the Rust package has a method or a variant of this name, in the type's file."""
    for path in glob.glob("abi/rust/**/*.rs", recursive=True):
        text = read(path)
        if re.search(rf"^pub (?:struct|enum|trait) {owner}\b", text, re.M):
            return bool(re.search(rf"\bfn {name}\b|^    {name}\b", text, re.M))
    return False


def fault_of_name(span):
    parts = re.sub(r"\(.*", "", span).split("::")
    if parts[0] in ("core", "std"):
        return None
    if parts[0] in CRATES:
        crate, *rest = parts
        if len(rest) == 1:
            here = any(f.crate == crate for f in BY_NAME.get(rest[0], []))
            here = here or any(at == crate for at, _ in TYPES.get(rest[0], []))
        else:
            here = any(f.crate == crate and (rest[-2] in f.owners or f.path.endswith(f"/{rest[-2]}.rt"))
                       for f in BY_NAME.get(rest[-1], []))
        return None if here else f"{crate} has no {'::'.join(rest)}"
    owner, name = parts[-2:]
    if is_declared(owner, name) or any(f.path.endswith(f"/{owner}.rt") for f in BY_NAME.get(name, [])):
        return None
    if is_in_package(owner, name):
        return None
    return f"there is no {span}"


@rule
def names(documents):
    looked, faults = 0, []
    for document, text in of_documents(documents):
        for span in ticked(text):
            if re.fullmatch(r"\w+(::\w+)+(\(.*\))?", span) and not span.startswith("crate::"):
                looked += 1
                fault = fault_of_name(span)
                if fault:
                    faults.append(f"{document}: {fault}")
            elif re.fullmatch(r"(?:pos_\w+|kijolvar)\.\w+\.\w+", span):
                looked += 1
                crate, module, name = span.split(".")
                if not any(found[:2] == (crate, module) for found in DEFINITIONS.get(name, [])):
                    faults.append(f"{document}: there is no definition {span}")
    return looked, faults


@functools.cache
def exports_of(crate):
    """The names and the modules that a crate's users see."""
    root = next((read(path) for path in sources_of(crate) if re.search(r"/src/(lib|main)\.rt$", path)), "")
    used = re.findall(r"^pub use [\w:]*?(?:\{([^}]*)\}|(\w+));", root, re.M)
    seen = set(re.findall(r"\w+", " ".join(listed or one for listed, one in used)))
    return seen, set(re.findall(r"^pub mod (\w+);", root, re.M)), root


def is_exported(function):
    seen, modules, root = exports_of(function.crate)
    if not function.public:
        return False
    if function.path.endswith(("/src/lib.rt", "/src/main.rt")):
        return True
    if os.path.basename(function.path)[:-3] in modules:
        return True
    return bool(function.owners & seen) if function.owners else function.name in seen


@rule
def words(documents):
    looked, faults = 0, []
    known = set().union(*WORDS.values(), CRATES, OTHERS)
    for path in FILES:
        if re.match(r"(abi|bench)/", path) and not path.endswith(".md"):
            known.update(re.findall(r"[^\W\d]\w*", read(path)))
    for document, text in of_documents(documents):
        for span in ticked(without_blocks(text)):
            if re.fullmatch(r"[A-Za-z_]\w*", span) and not re.fullmatch(r"[0-9a-f]{12,}", span):
                looked += 1
                if span not in known:
                    faults.append(f"{document}: nothing is named {span}")
    return looked, faults


def tables_of_contracts(text):
    """The crate of each heading of docs/proofs/contracts.md, with the functions that its table names, as (owner, name)."""
    for block in re.split(r"^## ", text, flags=re.M)[1:]:
        crate, _, body = block.partition("\n")
        rows = re.findall(r"^\| \[`([\w:]+)`\]", body, re.M)
        yield crate.strip(), [tuple(row.split("::")) if "::" in row else ("", row) for row in rows]


@rule
def proofs(documents):
    looked, faults = 0, []
    document = "docs/proofs/contracts.md"
    headed = set()
    for crate, rows in tables_of_contracts(documents[document]):
        headed.add(crate)
        there = [function for function in FUNCTIONS if function.crate == crate]
        for owner, name in rows:
            looked += 1
            if not any(function.name == name and (not owner or owner in function.owners) for function in there):
                faults.append(f"{document}: {crate} has no {owner + '::' if owner else ''}{name}")
        for function in there:
            if is_exported(function) and re.search(r"\bensures\b", function.contract):
                looked += 1
                if not any(name == function.name and (not owner or owner in function.owners) for owner, name in rows):
                    faults.append(f"{document}: {crate}: nothing is said of {function.name} ({function.path})")
    for crate in CRATES:
        if crate not in headed and not crate.endswith("_tests"):
            faults.append(f"{document}: {crate} has no heading")
    for crate in headed - set(CRATES):
        faults.append(f"{document}: there is no crate {crate}")
    return looked, faults


@rule
def generated(documents):
    """What the tools write, by the tools' own comparison."""
    sys.dont_write_bytecode = True
    sys.path.insert(0, "tools")
    import calls, contracts, lists, trust
    found = [contracts.faults(documents["docs/proofs/contracts.md"]), calls.faults(documents["docs/reference/calls.md"]),
             trust.faults(documents["docs/proofs/trust.md"], documents), lists.faults(documents)]
    return sum(looked for looked, _ in found), [fault for _, faults in found for fault in faults]


def has_clause(name, clause):
    """Whether a function of this name has such a clause."""
    *owner, last = re.sub(r"\(.*", "", name).split("::")
    crate = owner[0] if owner and owner[0] in CRATES else None
    return any(clause in function.clauses for function in BY_NAME.get(last, []) if crate in (None, function.crate))


def has_part(name, part):
    """Whether what has this name, a function, a type, a definition or a crate, has such a clause, method, field or function."""
    last = name.split("::")[-1]
    if has_clause(name, part) or any(last in function.owners for function in BY_NAME.get(part, [])):
        return True
    texts = [body for _, body in TYPES.get(last, [])] + [block for _, _, block in DEFINITIONS.get(last, [])]
    if any(re.search(rf"^\s+(?:pub )?{part}\b", text, re.M) for text in texts):
        return True
    return any(function.crate == last for function in BY_NAME.get(part, []))


@rule
def clauses(documents):
    looked, faults = 0, []
    one = r"`([\w:]+)`"
    for document, text in of_documents(documents):
        text = without_blocks(text)
        named = [(name, clause) for name, listed in re.findall(rf"{one}, clauses?\s+(`\w+`(?:(?:,| and)\s+`\w+`)*)", text)
                 for clause in re.findall(r"`(\w+)`", listed)]
        parts_of = [(name, part) for part, *names in re.findall(rf"`(\w+)`\s+of\s+{one}(?:\s+and\s+of\s+{one})?", text)
                    for name in names if name and part.islower()]
        looked += len(named) + len(parts_of)
        faults += [f"{document}: {name} has no clause {clause}" for name, clause in named
                   if not (has_clause(name, clause) or name in DEFINITIONS and has_part(name, clause))]
        faults += [f"{document}: {name} has no {part}" for name, part in parts_of if not has_part(name, part)]
    return looked, faults


THEOREMS = "docs/proofs/theorems.md"
# What a row has in place of a function.
NO_FUNCTION = {"missing", "every function", "every function with an error"}


@functools.cache
def sources_tree():
    sys.dont_write_bytecode = True
    sys.path.insert(0, "tools")
    import sources
    return sources, sources.Tree()


@functools.cache
def functions_named(path):
    """The functions with a contract that a path means and users can call: one, or all of a type."""
    sources, tree = sources_tree()
    crate, *_, name = path.split("::")
    if crate not in sources.crates():
        return ()
    if name[0].isupper():
        named = [function for function in tree.functions(crate) if name in function.owner]
    else:
        owner = path.split("::")[-2]
        named = [function for function in tree.functions(crate) if function.name == name and
                 (owner == crate or owner in function.owner or function.path.endswith(f"/{owner}.rt"))]
    return tuple(function for function in named if function.clauses and sources.is_exported(function))


@functools.cache
def reached_by(function):
    """The names of the clauses of a function, and of the definitions that its contract leads to."""
    _, tree = sources_tree()
    clauses = {name for _, name in function.clauses if name}
    return clauses | {name for _, _, name in tree.closure(tree.named_by_contract(function))}


@functools.cache
def definitions_behind(function):
    """The crates and names of the definitions that the contract of a function leads to."""
    _, tree = sources_tree()
    return {(crate, name) for crate, _, name in tree.closure(tree.named_by_contract(function))}


# Where the claims on proofs stand, and what a claim begins with.
CLAIMS = {"README.md": r"^(?=- \*\*)", "docs/proofs/what-is-proved.md": r"^(?=\*\*\d+\. )"}


def claims_in(text, begin):
    """The claims of a document, each up to the next one or to a heading."""
    return [re.split(r"^#", part, flags=re.M)[0] for part in re.split(begin, text, flags=re.M)[1:]]


@rule
def claims(documents):
    looked, faults = 0, []
    for document, begin in CLAIMS.items():
        for claim in claims_in(documents[document], begin):
            words = ticked(claim)
            crates = {word.split("::")[0] for word in words}
            functions = [function for word in words if "::" in word for function in functions_named(word)]
            reached = {name for function in functions for crate, name in definitions_behind(function) if crate in crates}
            names = [word for word in words if re.fullmatch(r"[A-Z]\w+", word) and word in DEFINITIONS]
            looked += len(names)
            faults += [f"{document}: no function of its claim leads to {name}" for name in names if name not in reached]
    return looked, faults


def fault_of_row(function, clause, left):
    """What is wrong with a row of docs/proofs/theorems.md."""
    paths = ticked(function)
    if not paths:
        if function not in NO_FUNCTION or not left:
            return f"no function is named, but {function!r}"
        return None if function != "missing" or left.startswith("missing") else "it isn't said to be missing"
    unknown = [path for path in paths if not functions_named(path)]
    if unknown:
        return f"no function with a contract is {unknown[0]}"
    reached = set().union(*(reached_by(found) for path in paths for found in functions_named(path)))
    for word in ticked(clause):
        name, _, part = word.partition(".")
        if name not in reached:
            return f"no clause leads to {name}"
        if part and not any(re.search(rf"^  pub {part} :", block, re.M) for _, _, block in DEFINITIONS.get(name, [])):
            return f"{name} has no {part}"
    return None if left else "nothing is said of what is left out"


@rule
def theorems(documents):
    looked, faults = 0, []
    decisions = " ".join(documents["docs/contributing/decisions.md"].split())
    for table in re.findall(r"^\| Part \|.*\n\|[-|]*\n((?:^\|.*\n)+)", documents[THEOREMS], re.M):
        for row in table.strip().split("\n"):
            cells = [cell.strip() for cell in row.strip("|").split("|")]
            looked += 1
            fault = fault_of_row(cells[2], cells[3], cells[5]) if len(cells) == 6 else "it doesn't have six cells"
            if fault:
                faults.append(f"{THEOREMS}: {cells[0]}: {fault}")
            faults += [f"{THEOREMS}: {cells[0]}: docs/contributing/decisions.md quotes no {quoted}"
                       for quoted in re.findall(r'"([^"]+)"', cells[-1]) if quoted not in decisions]
    return looked, faults


@rule
def commits(documents):
    looked, faults = 0, []
    git = functools.partial(subprocess.run, capture_output=True, text=True)
    shallow = git(["git", "rev-parse", "--is-shallow-repository"]).stdout.strip()
    for document, text in of_documents(documents):
        looked += 1
        # the bytes in a line of a script, quoted with its answer, are no commit's id
        text = re.sub(r'"[^"\n]*" => ', "", without_blocks(text))
        for word in re.findall(r"(?<![\w.])(?<!`ok )(?:[0-9a-f]{7,12}|[0-9a-f]{40})(?!\w|\.\w)", text):
            if not re.search(r"[a-f]", word) or not re.search(r"\d", word):
                continue
            if git(["git", "cat-file", "-e", word + "^{commit}"]).returncode != 0:
                why = "" if shallow == "false" else ": this clone doesn't have the whole history, so it can't be looked up"
                faults.append(f"{document}: {word} is no commit{why}")
    return looked, faults


@rule
def kit(documents):
    told = ""
    if shutil.which("rt"):
        told = subprocess.run(["rt", "version"], capture_output=True, text=True).stdout.split(" ")[0].strip()
    looked, faults = 0, []
    for document in DOCUMENTS:
        named = re.findall(r"rattle-kit-\w+", re.sub(r"^\|.*$", "", documents[document], flags=re.M))
        looked += len(named)
        if named and told not in named:
            faults.append(f"{document}: the kit is {told or 'not there: rt version tells nothing'}, not {' or '.join(named)}")
    return looked, faults


def stands_on():
    """What each crate of crates.txt stands on, with all below: of the crates of this tree alone."""
    direct = {}
    for line in read("crates.txt").split("\n"):
        name, _, rest = line.partition(":")
        if rest or line.endswith(":"):
            direct[name.split(" ")[0]] = {word for word in rest.split() if word in CRATES}

    def closed(found):
        more = set().union(found, *(direct[name] for name in found))
        return found if more == found else closed(more)

    return direct, closed


@rule
def crates(documents):
    direct, closed = stands_on()
    document, faults = "docs/contributing/architecture.md", []
    rows = {}
    for row in re.findall(r"^\|(.*)\|$", documents[document].partition("## How a call travels")[0], re.M):
        cells = [cell.strip() for cell in row.split("|")]
        if len(cells) == 3 and long_name(cells[0].split(" ")[0]) in CRATES:
            rows[long_name(cells[0].split(" ")[0])] = {long_name(word) for word in re.findall(r"\w+", cells[2])}
    for crate in CRATES:
        if crate.endswith("_tests"):
            continue
        if crate not in direct:
            faults.append(f"crates.txt doesn't name {crate}")
        elif crate not in rows:
            faults.append(f"{document}: {crate} has no row")
        elif not rows[crate] <= set(CRATES):
            faults.append(f"{document}: {crate} stands on {', '.join(rows[crate] - set(CRATES))}, which isn't there")
        elif closed(rows[crate]) != closed(direct[crate]):
            differ = closed(rows[crate]) ^ closed(direct[crate])
            faults.append(f"{document}: {crate} differs from crates.txt in {', '.join(sorted(differ))}")
    return len(rows), faults


def compare(document, what, said, there):
    faults = [f"{document}: {what}: {name} isn't there" for name in sorted(set(said) - set(there))]
    return faults + [f"{document}: {what}: {name} is missing" for name in sorted(set(there) - set(said))]


def rows_of(text, heading):
    """The cells of the rows of the first table behind a heading."""
    part = re.split(rf"^#+ {re.escape(heading)}\n", text, flags=re.M)
    table = re.search(r"(?:^\|.*\n)+", part[1] if len(part) > 1 else "", re.M)
    return [[cell.strip() for cell in row.strip("|").split("|")] for row in (table[0] if table else "").strip().split("\n")[2:]]


def scripts():
    return [os.path.basename(path) for path in SCRIPTS]


@rule
def parts(documents):
    looked, faults = 0, []

    def has(document, what, said, there):
        nonlocal looked
        looked += min(len(list(said)), 1)
        faults.extend(compare(document, what, said, there))
        if not said:
            faults.append(f"{document}: {what}: the table isn't there")

    testing = documents["docs/contributing/testing.md"]
    said = [ticked(cells[0])[0] for cells in rows_of(testing, "What is tested") if ticked(cells[0])]
    ran = re.findall(r"^gate +\S+ +(.*?)(?: PROGRAM)?$", read("tests/expected"), re.M)
    has("docs/contributing/testing.md", "the parts of .ci/run", [command for command in said if command in ran], ran)
    has("docs/contributing/testing.md", "tests crates", [ticked(cells[0])[0] for cells in rows_of(testing, "Tests crates")],
        [crate for crate in CRATES if crate.endswith("_tests")])
    added = [" ".join(pair) for pair in re.findall(r'^count(?:_median)? "([^"]+)" (\d+)', read("tests/adding.sh"), re.M)]
    has("docs/contributing/adding.md", "what an addition takes", [f"{cells[0]} {cells[2]}" for cells in
        rows_of(documents["docs/contributing/adding.md"], "What an addition takes")], added)
    benches = [os.path.basename(ticked(cells[0])[0].split(" ")[0]) for cells in rows_of(documents["docs/contributing/measures.md"], "How they are taken")]
    there = [os.path.basename(path) for path in glob.glob("bench/*.*") if re.search(r"\.(sh|py)$", path) and os.access(path, os.X_OK)]
    has("docs/contributing/measures.md", "benches", benches, there)
    return looked, faults


def variants(crate, name):
    for at, body in TYPES.get(name, []):
        if at == crate:
            return re.findall(r"^    (\w+)", re.sub(r"///.*", "", body), re.M)
    return []


@rule
def tables(documents):
    looked, faults = 0, []

    def has(document, what, said, there):
        nonlocal looked
        looked += len(set(said) & set(there))
        faults.extend(compare(document, what, said, there))

    known = documents["docs/reference/calls.md"]
    tables = re.findall(r"^\| Property \|.*\n\|[-|]*\n((?:^\|.*\n)+)", known, re.M)
    said = [row.strip("|").split("|")[0].strip() for table in tables for row in table.strip().split("\n")]
    named = re.findall(r'is\(word, "(\w+)"\) => Some\(Property::', read("crates/pos_service/src/property.rt"))
    has("docs/reference/calls.md", "properties", said, named)
    tables = re.findall(r"^\| Call \|.*\n\|[-|]*\n((?:^\|.*\n)+)", known, re.M)[1:]
    said = [ticked(row)[0] for table in tables for row in table.strip().split("\n")]
    has("docs/reference/calls.md", "methods", said, re.findall(r'codes "(\w+)"', read("crates/pos_service/specs/Calls.antt")))
    console = documents["docs/reference/console.md"]
    said = [ticked(cells[0])[0] for cells in rows_of(console, "Lines") if ticked(cells[0])]
    verbs = re.search(r"^fn named_verb.*?^}", read("crates/pos_script/src/command.rt"), re.M | re.S)[0]
    has("docs/reference/console.md", "verbs", said, re.findall(r'is\(word, "(\w+)"\)', verbs))
    header = read("abi/kijolvar.h")
    abi = documents["abi/README.md"]
    said = re.findall(r"^\| `(kijolvar_\w+)` \|", abi, re.M)
    has("abi/README.md", "calls", said, re.findall(r"^[\w ]*?\b(kijolvar_\w+)\(", header, re.M))
    said = [" ".join(pair) for pair in re.findall(r"^\| `(KIJOLVAR_\w+)` \| (\d+) \|", abi, re.M)]
    has("abi/README.md", "codes", said, [" ".join(pair) for pair in re.findall(r"^\s+(KIJOLVAR_\w+) = (\d+)", header, re.M)])
    numbers = dict(re.findall(r"Code::(\w+) => (\d+)", read("crates/pos_service/src/code.rt")))
    said = re.findall(r"^\| (1\d\d)(?: \d+)? \| E_\w+", known, re.M)
    has("docs/reference/calls.md", "result codes", said, [number for number in numbers.values() if number != "0"])
    for message in re.findall(r'^\s*#\[error\("([^"]+)"\)\]', read("crates/pos_program/src/file_fault.rt"), re.M):
        looked += 1
        if message.partition("{")[0].strip() not in documents["docs/reference/trouble.md"]:
            faults.append(f"docs/reference/trouble.md: the message isn't there: {message}")
    return looked, faults


def edits_in(pattern):
    return len(glob.glob(pattern))


def spelt(number):
    words = "none one two three four five six seven eight nine ten eleven twelve".split()
    return words[number] if number < len(words) else f"{number:,}"


COUNTS = [
    ("docs/contributing/decisions.md", r"(\S+) functions have `requires \{ Unit \{0\} \}`",
     lambda: sum(read(path).count("requires { Unit {0} }") for path in FILES if path.endswith(".rt"))),
    ("docs/contributing/testing.md", r"\| in the gate \| `crates/CRATE/must-fail/` \| (\S+) \|", lambda: edits_in("crates/*/must-fail/*.edit")),
    ("docs/contributing/testing.md", r"\| outside \| `tests/edits/CRATE/` \| (\S+) \|", lambda: edits_in("tests/edits/*/*.edit")),
    ("docs/contributing/testing.md", r"\| `tests/plant/CRATE` \| (\S+) \|", lambda: edits_in("tests/plant/*")),
    ("docs/contributing/testing.md", r"There are (\S+) scripts", lambda: len(scripts())),
]


@rule
def counts(documents):
    faults = []
    for document, pattern, count in COUNTS:
        text = re.sub(r"\s+", " ", documents[document])
        found = re.search(pattern, text)
        if not found:
            faults.append(f"{document}: no sentence {pattern!r}; if it isn't said any more, this script mustn't list it")
        elif found[1].lower() not in (spelt(count()), f"{count():,}"):
            faults.append(f"{document}: {found[0]!r}, and the tree has {count()}")
    return len(COUNTS), faults


# A heading of UnifiedPOS 1.16, as far as the scripts name them: a property, a method, an event, or a part of a chapter.
SECTION = re.compile(r"(?:[\w, ]*\b)?(?:Propert(?:y|ies)|Methods?|Events?|\w+Event|Errors|Summary|Characters|Sequences|Models?"
                     r"|Sharing|Finalization|Exclusive-Use Devices|Sharable Devices|(?:Asynchronous|Synchronous) Output)\b")


def fault_of_group(comment, first, documents):
    """What is wrong with the comment of a group: it begins with a heading of the standard, or of a document."""
    quoted = re.findall(r"(docs/[\w/-]+\.md), ([^:;,]+)", comment)
    for document, heading in quoted:
        if not os.path.exists(document) or not has_heading(document, heading, documents):
            return f"{document} has no heading {heading}"
    if quoted or comment.startswith("UnifiedPOS 1.16, "):
        return None
    begin = re.split("[:,]", comment)[0]
    if any(begin in headings(document, documents) for document in re.findall(r"docs/[\w/-]+\.md", first)):
        return None
    return None if SECTION.match(comment.partition(":")[0]) else "no section is named"


@rule
def sections(documents):
    looked, faults = 0, []
    for path in SCRIPTS:
        lines = documents[path].split("\n")
        if not re.match(r"# (UnifiedPOS 1\.16, \w|docs/[\w/-]+\.md, \w)", lines[0]):
            faults.append(f"{path}: its first line names no chapter")
        for number, line in enumerate(lines):
            if not line or number > 0 and lines[number - 1]:
                continue
            looked += 1
            fault = fault_of_group(line[2:], lines[0], documents) if line.startswith("# ") else "a group without a comment"
            if fault:
                faults.append(f"{path}:{number + 1}: {fault}: {line[:90]}")
    return looked, faults


# ---- planted claims: a rule, and what is put into a document that it has to find

def behind(document, text):
    return lambda documents: {**documents, document: documents[document] + "\n" + text + "\n"}


def instead(document, pattern, text):
    def plant(documents):
        planted = re.sub(pattern, text, documents[document], count=1, flags=re.M)
        if planted == documents[document]:
            raise ValueError(f"{document} has no {pattern!r} to plant a wrong claim in")
        return {**documents, document: planted}

    return plant


PLANTS = [
    ("paths", behind("README.md", "See `crates/pos_counter/src/nothing.rt`.")),
    ("paths", behind("docs/reference/model.md", "See `Nothing.antt`.")),
    ("paths", behind("docs/contributing/testing.md", "Run `tests/nothing.sh [CRATE]`.")),
    ("links", behind("README.md", "See [it](docs/nothing.md).")),
    ("links", behind("docs/reference/totals-file.md", "See [model.md](model.md#no-such-heading).")),
    ("links", behind("docs/reference/totals-file.md", 'See [model.md](model.md), "No such heading".')),
    ("links", behind("docs/reference/totals-file.md", 'See "No such heading", above.')),
    ("links", behind("docs/reference/totals-file.md", "See [it](../../tests/rules.sh#L999).")),
    ("comments", instead("docs/reference/totals-file.md", r"^## The layouts$", "## Layouts of the disk")),
    ("comments", instead("abi/README.md", r"^## Codes$", "## Numbers")),
    ("names", behind("README.md", "So does `pos_counter::nothing`.")),
    ("names", behind("docs/guide/totals.md", "So does `Totals::nothing`.")),
    ("names", behind("README.md", "So does `pos_counter::Counter::nothing`.")),
    ("names", behind("docs/proofs/what-is-proved.md", "So does `Counter::nothing`.")),
    ("names", behind("docs/proofs/rules.md", "So does `pos_counter.Steps.Nothing`.")),
    ("words", behind("docs/reference/model.md", "See `NothingOfIt`.")),
    ("proofs", instead("docs/proofs/contracts.md", r"^(\| \[`Log::)append(`\].*)$", r"\1append\2\n\1nothing_of_it\2")),
    ("proofs", instead("docs/proofs/contracts.md", r"^\| \[`Log::renew`\].*\n", "")),
    ("proofs", instead("docs/proofs/contracts.md", r"^## pos_log$", "## pos_lag")),
    ("generated", instead("docs/proofs/contracts.md", r"^(\| \[`Log::append`\].*)`appends`", r"\1`append`")),
    ("generated", instead("docs/proofs/trust.md", r"`MayLeave` \d+", "`MayLeave` 99")),
    ("generated", behind("docs/proofs/what-is-proved.md", "So does `pos_dir::wider_directory`.")),
    ("generated", instead("docs/reference/calls.md", r"^\| 113 \| E_BUSY", "| 113 | E_BUZZ")),
    ("generated", instead("docs/contributing/testing.md", r"^(\| `tests/rules.sh` \|.*) \|$", r"\1 or not |")),
    ("clauses", behind("README.md", "`pos_counter::Counter::call`, clause `nothing_of_it`.")),
    ("clauses", behind("docs/reference/totals-file.md", "This is `nothing_of_it` of `Images::publish`.")),
    ("clauses", instead("docs/proofs/what-is-proved.md", r"`after`, `inside` and `along`", "`after`, `inside` and `among`")),
    ("claims", instead("README.md", r"`pos_console::perform` \(`RunsProgram`\)", "`pos_console::perform` (`Performs`)")),
    ("claims", instead("docs/proofs/what-is-proved.md", r"\(`Describes`, `Breaks`\)", "(`Describes`, `RunsOverTotals`)")),
    ("theorems", instead(THEOREMS, r"`pos_store::Store::commit` \| `Commits\.crash`",
                         "`pos_store::Store::commits` | `Commits.crash`")),
    ("theorems", instead(THEOREMS, r"`pos_log::Log::append`, `pos_log::Log::open`",
                         "`pos_log::Log::append`, `pos_log::read_records`")),
    ("theorems", instead(THEOREMS, r"`any_moment`, `log`, `HasEither`", "`any_moments`, `log`, `HasEither`")),
    ("theorems", instead(THEOREMS, r"`Commits\.crash`, `LeavesBeforeOrAfter`", "`Commits.crash`, `LeavesItsFilesMoved`")),
    ("theorems", instead(THEOREMS, r"`Commits\.crash`", "`Commits.nothing_of_it`")),
    ("theorems", instead(THEOREMS, r'"makes a function pointer', '"never makes a function pointer')),
    ("theorems", instead(THEOREMS, r"\| missing as a clause: ", "| whole, as a clause: ")),
    ("commits", behind("docs/contributing/measures.md", "It was measured at 0123abcd.")),
    ("kit", instead("README.md", r"rattle-kit-\w+` or `rattle-kit-\w+", "rattle-kit-0z")),
    ("crates", instead("docs/contributing/architecture.md", r"^\| store \|.*\n", "")),
    ("crates", instead("docs/contributing/architecture.md", r"^(\| log \|.*) \| disk, image \|$", r"\1 | disk, image, dir |")),
    ("parts", instead("docs/contributing/testing.md", r"^\| `tests/rules.sh` \|.*\n", "")),
    ("parts", instead("docs/contributing/testing.md", r"`tests/growths\.sh -s 7`", "`tests/growths.sh -s 9`")),
    ("parts", instead("docs/contributing/testing.md", r"^\| `pos_run_tests` \|.*\n", "")),
    ("parts", instead("docs/contributing/adding.md", r"^\| a sign \| powered \| \d+ \|", "| a sign | powered | 3 |")),
    ("parts", instead("docs/contributing/measures.md", r"^\| `bench/store.sh` \|.*\n", "")),
    ("tables", instead("docs/reference/calls.md", r"^\| DrawerOpened \|.*\n", "")),
    ("tables", instead("docs/reference/calls.md", r"^\| `openDrawer` \|", "| `openTheDrawer` |")),
    ("tables", instead("docs/reference/console.md", r"^\| `deliver` C \|", "| `delivers` C |")),
    ("tables", instead("abi/README.md", r"^\| `KIJOLVAR_CUT` \| 4 \|", "| `KIJOLVAR_CUT` | 3 |")),
    ("tables", instead("docs/reference/calls.md", r"^\| 113 \| E_BUSY \|.*\n", "")),
    ("tables", instead("docs/reference/trouble.md", r"can't be lengthened", "can't be made longer")),
    ("counts", instead("docs/contributing/testing.md", r"There are \S+ scripts", "There are 12 scripts")),
    ("sections", instead("docs/reference/totals-file.md", r"^## The log$", "## A log")),
    ("sections", instead(SCRIPTS[0], r"^# UnifiedPOS 1\.16, ", "# ")),
    ("sections", instead(SCRIPTS[0], r"^# claim Method: the holder", "# The holder")),
    ("sections", behind(SCRIPTS[0], "\nget a State")),
]


def main():
    passed = failed = 0

    def judge(what, faults):
        nonlocal passed, failed
        if not faults:
            passed += 1
            return
        failed += 1
        for fault in faults:
            print(f"{what}: {fault}")

    plain = {}
    for name, check in RULES.items():
        looked, faults = check(TEXTS)
        plain[name] = set(faults)
        if "--self-test" not in sys.argv:
            judge(name, faults if looked else ["there is nothing that it could look at"])
            print(f"{name}: {looked} looked at")
    for number, (name, plant) in enumerate(PLANTS, 1):
        try:
            found = set(RULES[name](plant(TEXTS))[1]) - plain[name]
            judge(f"planted claim {number}, of {name}", [] if found else ["it isn't found"])
        except ValueError as fault:
            judge(f"planted claim {number}, of {name}", [str(fault)])
    print(f"{passed} passed, {failed} failed")
    return 1 if failed or not passed else 0


sys.exit(main())
PROGRAM
