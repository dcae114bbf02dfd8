"""The definitions, types and contracts of the crates, and which of them name which.

`tools/trust.py`, `tools/contracts.py` and `tools/rules.py` read the tree by this module. It reads text, and resolves a
name by what its file imports. A name that might be a definition or a field counts as the definition.
"""
import functools
import glob
import os
import re

TOP = os.path.dirname(os.path.dirname(os.path.abspath(__file__)))
WORD = re.compile(r"[^\W\d]\w*(?:\.[^\W\d]\w*)?")
IMPORT = re.compile(r"use Rattle\.(\w+)\.specs\.([\w.]+?)(?:\.\{([^}]*)\}| as (\w+))\s*;?$", re.M)
RUST_USE = re.compile(r"^\s*(?:pub )?use ([\w:]+)::(?:\{([^}]*)\}|(\w+))\s*;", re.M)
HEAD = re.compile(r"(?:(?:abbrev|unfoldable|opaque)\s+)*(?:pub\s+)?(?:(?:data|record)\s+)?([^\s:({]+)")
RUST_TYPE = re.compile(r"^(?:pub(?:\([^)]*\))? )?(struct|enum|trait|union) (\w+)", re.M)
FUNCTION = re.compile(r"^( *)(pub(?:\([^)]*\))? )?(?:unsafe |final |const |extern \"C\" )*fn (\w+)", re.M)
OWNER = re.compile(r"^(?:pub )?(?:impl|trait)\b[^{\n]*")
TRAIT_OF_TYPE = r"^impl(?:<[^{\n]*>)? (\w+)(?:<[^{\n]*>)? for (\w+)[^{\n]*\{.*?^\}"
CLAUSE = re.compile(r"^ *(requires|ensures|follows)\*?(?: (\w+))? \{", re.M)


def read(path):
    with open(os.path.join(TOP, path), encoding="utf-8") as file:
        return file.read()


@functools.cache
def crates():
    """The crates in the order in which they stand on one another, those of tests last."""
    direct = {}
    for line in read("crates.txt").split("\n"):
        name, colon, rest = line.partition(":")
        if colon and not line.startswith("#"):
            direct[name.split(" ")[0]] = rest.split()
    order = []

    def add(name):
        for below in direct.get(name, []):
            add(below)
        if name in direct and name not in order:
            order.append(name)

    for name in direct:
        add(name)
    return [name for name in order if not name.endswith("_tests")] + [name for name in order if name.endswith("_tests")]


class Item:
    """A definition of `specs/`, or a type or a trait of `src/` that definitions name: where it is, and its words."""

    def __init__(self, crate, path, name, line):
        self.crate, self.path, self.name, self.line = crate, path, name, line
        self.lines, self.words, self.comment, self.is_public = 0, set(), "", False


class Function:
    """A function with its contract."""

    def __init__(self, crate, path, line, owner, of_trait, public, name, contract, comment):
        self.crate, self.path, self.line, self.name = crate, path, line, name
        # the type and the trait of its block, and whether a trait has it
        self.owner, self.of_trait, self.public = owner, of_trait, public
        self.contract, self.comment = contract, comment
        self.clauses = CLAUSE.findall(contract)

    def title(self):
        return f"{self.owner[-1]}::{self.name}" if self.owner else self.name


def words_of(text):
    text = re.sub(r"--.*|//.*|\"[^\"\n]*\"", "", text)
    text = re.sub(r"(?<=[{;])\s*\w+(?=\s=\s)", " ", text)
    text = re.sub(r"^\s+pub \w+ :", " ", text, flags=re.M)
    return set(WORD.findall(text))


def bound_in(text):
    """Names that a block binds, by a λ, by brackets or on the left of an equation."""
    bound = set()
    for names in re.findall(r"[({]([\w ]+) :", text) + re.findall(r"λ ([\w (),]+)\.", text):
        bound.update(re.findall(r"\w+", names))
    for left in re.findall(r"^[^\s:]+((?: [^=:\n]+)?) =(?:\s|$)", text, re.M):
        bound.update(re.findall(r"(?<![.\w])[a-z_]\w*(?![.\w])", left))
    return bound


class Tree:
    def __init__(self):
        self.items = {}      # (crate, module or file, name): an Item
        self.aliases = {}    # (crate, module): what the file imports, by name
        self.modules = {}    # (crate, module): its path
        self.owners = {}     # a constructor's key: that of its type
        for crate in crates():
            for path in self.paths(crate, "src", "rt"):
                self.read_types(crate, path)
        for crate in crates():
            for path in self.paths(crate, "specs", "antt"):
                self.read_specs(crate, path)
        self.named = {}      # a type's name: the types that have it
        for key in self.items:
            if key[1] == "":
                self.named.setdefault(key[2], []).append(key)

    @staticmethod
    def paths(crate, folder, ending):
        found = glob.glob(os.path.join(TOP, f"crates/{crate}/{folder}/**/*.{ending}"), recursive=True)
        return sorted(os.path.relpath(path, TOP) for path in found)

    # ---- types of src/, by their crate and name

    def read_types(self, crate, path):
        text = read(path)
        for found in RUST_TYPE.finditer(text):
            end = text.find("\n}", found.start())
            line_end = text.find("\n", found.start())
            if end < 0 or text[found.start() : line_end].rstrip().endswith(";"):
                end = line_end
            else:
                end += 2
            self.add_type(crate, path, text, found[2], found.start(), text[found.start() : end])
        for found in re.finditer(r"^(?:pub )?type (\w+)[^;]*;", text, re.M):
            self.add_type(crate, path, text, found[1], found.start(), found[0])
        for found in re.finditer(r"^impl(?:<[^{\n]*>)? Model for (\w+)[^{\n]*\{.*?^\}", text, re.M | re.S):
            # what contracts see of a type with a model is the model
            self.add_type(crate, path, text, found[1], found.start(), found[0], model=True)
        for found in re.finditer(TRAIT_OF_TYPE, text, re.M | re.S):
            ghosts = re.findall(r"^    ghost (?!use)\w+ = \{.*?\};$", found[0], re.M | re.S)
            if ghosts and found[1] != "Model":
                self.add_type(crate, path, text, f"{found[2]} as {found[1]}", found.start(), "\n".join(ghosts))

    def add_type(self, crate, path, text, name, start, body, model=False):
        key = (crate, "", name)
        # of two types of one name the public one counts
        is_public = body.startswith("pub ")
        if key in self.items and not model and not (is_public and not self.items[key].is_public):
            return
        item = Item(crate, path, name, text.count("\n", 0, start) + 1)
        item.lines = sum(1 for line in body.split("\n") if line.strip() and not line.strip().startswith("//"))
        if model or " as " in name:
            item.words = words_of(body)
        else:
            # of a type its fields, of a trait its ghosts and contracts
            item.words = words_of(re.sub(r"#\[.*", "", body))
        item.words.discard(name)
        item.imports = {**imports_of(text), **rust_uses(text, crate)}
        item.comment = comment_before(text, start)
        item.is_public = is_public or key in self.items and self.items[key].is_public
        self.items[key] = item

    # ---- definitions of specs/

    def read_specs(self, crate, path):
        module = os.path.basename(path)[: -len(".antt")]
        text = read(path)
        imports = imports_of(text)
        self.aliases[crate, module] = imports
        self.modules[crate, module] = path
        comment, block, begins = [], [], 0
        for number, line in enumerate(text.split("\n") + ["", "-- the end"], 1):
            if not line.strip() or line[0].isspace() or line[0] in "})":
                block += [line] if block and line.strip() else []
                comment = [] if not line.strip() and not block else comment
                continue
            if block:
                self.add_definition(crate, path, module, imports, begins, "\n".join(block), " ".join(comment))
                if line.startswith("--") or first_word(line) != first_word(block[0]):
                    comment = []
                block = []
            if line.startswith("--"):
                comment.append(line.lstrip("- ").strip())
            elif not re.match(r"(pub )?(use|mod) |infix", line):
                block, begins = [line], number

    def add_definition(self, crate, path, module, imports, line, text, comment):
        name = first_word(text)
        key = (crate, module, name)
        item = self.items.get(key)
        if item is None:
            item = self.items[key] = Item(crate, path, name, line)
            item.comment, item.imports = comment, imports
        item.lines += sum(1 for part in text.split("\n") if part.strip())
        item.words |= words_of(text) - bound_in(text) - {name}
        if re.match(r"(?:abbrev )?(?:pub )?data ", text):
            for constructor in re.findall(r"^  (\w+) :", text, re.M):
                self.owners[crate, module, constructor] = key

    # ---- names

    def resolved(self, word, imports, crate, module):
        """The key of the item that a word names in a file, or None."""
        first, _, second = word.partition(".")
        target = None
        for key in ((crate, module, first), (crate, "", first)):
            if key in self.items or key in self.owners:
                target = self.owners.get(key, key)
                if module or not imports.get(first):
                    return target
        target = imports.get(first, target)
        while target is not None:
            if target[2] is None:
                target = (target[0], target[1], second)
            if target in self.owners:
                return self.owners[target]
            if target in self.items:
                return target
            if target[1] == "" and len(self.named.get(target[2], [])) == 1:
                # a type that another crate passes on
                return self.named[target[2]][0]
            target = self.aliases.get(target[:2], {}).get(target[2])
        return None

    def named_by(self, key):
        item = self.items[key]
        module = key[1]
        found = (self.resolved(word, item.imports, item.crate, module) for word in item.words)
        return {other for other in found if other and other != key}

    def closure(self, start):
        seen, todo = set(), list(start)
        while todo:
            key = todo.pop()
            if key not in seen:
                seen.add(key)
                todo.extend(self.named_by(key))
        return seen

    # ---- functions

    @functools.cache
    def functions(self, crate):
        return [function for path in self.paths(crate, "src", "rt") for function in functions_in(crate, path)]

    def function(self, path):
        """The function that `crate::Owner::name` or `crate::name` means, or None."""
        crate, *owner, name = path.split("::")
        for function in sorted(self.functions(crate), key=lambda it: it.owner[-1:] != owner[-1:]):
            here = not owner or owner[-1] in function.owner or function.path.endswith(f"/{owner[-1]}.rt")
            if function.name == name and here:
                return function
        return None

    def named_by_contract(self, function):
        text = read(function.path)
        imports = {**imports_of(text), **rust_uses(text, function.crate)}
        contract = re.sub(r"^ *//.*$", "", function.contract, flags=re.M)
        words = words_of(contract) - bound_in(contract) | set(function.owner)
        found = {self.resolved(word, imports, function.crate, "") for word in words}
        for kind, trait in re.findall(r"⟦<(\w+)[^>]*? as (\w+)>⟧", contract):
            key = self.resolved(kind, imports, function.crate, "")
            found.add((key[0], "", f"{key[2]} as {trait}") if key else None)
        return {key for key in found if key in self.items}


def first_word(line):
    found = HEAD.match(line)
    return found[1] if found else line.split(" ")[0]


def imports_of(text):
    """What a file imports of specs/: by name, (crate, module, definition), and the definition is None for a module."""
    found = {}
    for crate, module, names, alias in IMPORT.findall(text):
        parts = module.split(".")
        if parts[0] == "declared":
            kind = next((part for part in parts[1:] if part[0].isupper()), None)
            for name in [alias] if alias else [name.strip() for name in names.split(",") if name.strip()]:
                found[name.split(" as ")[-1]] = (crate, "", kind)
            continue
        if alias:
            found[alias] = (crate, parts[-1], None)
        for name in filter(None, (name.strip() for name in names.split(","))):
            found[name.split(" as ")[-1]] = (crate, parts[-1], name.split(" as ")[0])
    return found


def rust_uses(text, crate):
    """The types that a file uses, by name."""
    found = {}
    for path, names, one in RUST_USE.findall(text):
        root = path.split("::")[0]
        owner = root if root in crates() else crate
        for name in [one] if one else [name.strip() for name in names.split(",") if name.strip()]:
            found.setdefault(name.split(" as ")[-1], (owner, "", name.split(" as ")[0]))
    return found


def comment_before(text, start):
    """The documentation comment above a place, as one paragraph a line."""
    lines = []
    for line in reversed(text[:start].split("\n")[:-1]):
        if re.match(r"\s*#\[|\s*ghost also_", line):
            continue
        found = re.match(r"\s*///? ?(.*)", line)
        if not found:
            break
        lines.append(found[1])
    return "\n".join(reversed(lines))


def functions_in(crate, path):
    text = read(path)
    lines = text.split("\n")
    owner, of_trait, place = [], False, 0
    for number, line in enumerate(lines):
        found = OWNER.match(line)
        if found:
            # of `impl Trait for Type` both, the type last
            body = re.sub(r"<[^<>]*(?:<[^<>]*>[^<>]*)*>", "", found[0])
            owner = re.findall(r"[A-Z]\w*", body.partition(" where ")[0])
            owner = owner[:1] if re.match(r"(?:pub )?trait", body) else owner
            of_trait = " for " in body or bool(re.match(r"(?:pub )?trait", body))
        elif line.startswith("}"):
            owner, of_trait = [], False
        function = FUNCTION.match(line)
        if function:
            end = number
            body = rf"^{function[1]}(\{{|\S.*\{{ .* \}};?$|.*\}};$|\}};$)"
            while end < len(lines) - 1 and not re.match(body, lines[end]) and not lines[end].rstrip().endswith(" {"):
                if end > number and (FUNCTION.match(lines[end]) or re.match(r"^    (pub )?ghost |^\}", lines[end])):
                    break
                end += 1
            contract = "\n".join(lines[number : end + 1])
            yield Function(crate, path, number + 1, list(owner), of_trait, function[2] == "pub ", function[3], contract,
                           comment_before(text, place))
        place += len(line) + 1


@functools.cache
def exports_of(crate):
    """The names and the modules that a crate's users see."""
    root = next((read(path) for path in Tree.paths(crate, "src", "rt") if re.search(r"/src/(lib|main)\.rt$", path)), "")
    used = re.findall(r"^pub use [\w:]*?(?:\{([^}]*)\}|(\w+));", root, re.M)
    names = set(re.findall(r"\w+", " ".join(listed or one for listed, one in used)))
    return names, set(re.findall(r"^pub mod (\w+);", root, re.M))


def is_exported(function):
    """Whether a crate's users can call it, or meet it in a trait."""
    seen, modules = exports_of(function.crate)
    if not function.public and not function.of_trait:
        return False
    if not os.path.exists(os.path.join(TOP, f"crates/{function.crate}/src/lib.rt")):
        return function.public
    if function.path.endswith(("/src/lib.rt", "/src/main.rt")) or os.path.basename(function.path)[:-3] in modules:
        return function.public
    return bool(set(function.owner) & seen) if function.owner else function.name in seen
