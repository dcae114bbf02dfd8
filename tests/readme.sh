#!/usr/bin/env bash
# Runs the commands and the examples of README, abi/README.md, CONTRIBUTING.md, docs/guide/ and of some other
# documents, in one folder that has abi/, examples/, the library's archive and the program on its path. It leaves out
# the items of lists. By the word of a block it is
#   sh       commands, which print what is in the block `text` that follows, or nothing if none does;
#   session  lines of a script and their answers, as `LINE => ANSWER`. Without a block `toml` before it, it is a run
#            over the built-in profile; after one, over that profile and a new totals file;
#   toml     a profile, which the program takes;
#   python   a part of a program: the parts of a document run one after another, over the library as a shared object;
#   c        a whole program in C over the library;
#   rust     a whole program in Rust over the library if it has `fn main()`. Else it is Rattle, and is so in the
#            file that is named last before it. Left out lines are `// ..`;
#   csharp   which isn't run.
# A `python`, `c` or `rust` program also prints what is in the block `text` that follows. One whose first line is a
# comment with a file's name is put into that file, for the commands that follow it.
# In an indented block each line is a command. It ends well, and prints nothing, or what examples/sale.stdout has if it
# runs a sale over a file *.disk; the last one what is in the block `text` that follows. A block with semicolons at the
# ends of its lines is code in C, which isn't run.
# The lists below say which commands it doesn't run, and why; it fails for a command that neither ran nor is on a
# list, and for an entry that no command fits.
# Usage: tests/readme.sh [PROGRAM [ARCHIVE]]. Without words it takes what was built in crates/pos_console/out and
# crates/kijolvar/out; an archive that isn't there it builds by `rt lib`. It needs gcc, rustc, cargo and python3. Its
# last line is 'N passed, M failed', a block or a command each; it ends with 0 where none failed.
set -u
top=$(cd "$(dirname "$0")/.." && pwd)
program=${1:-$top/crates/pos_console/out/pos_console}
archive=${2:-$top/crates/kijolvar/out/libkijolvar.a}
work=$(mktemp -d)
trap 'rm -rf "$work"' EXIT
if [ ! -x "$program" ]; then
  echo "$program isn't there: rt run builds it"
  echo "0 passed, 1 failed"
  exit 1
fi
if [ ! -f "$archive" ]; then
  "$top/tools/libraries" archive > "$work/lib" 2>&1 || tail -n 5 "$work/lib"
fi
mkdir -p "$work/bin" "$work/top/crates/kijolvar/out"
ln -s "$(realpath "$program")" "$work/bin/pos_console"
cp -r "$top/abi" "$top/examples" "$work/top" && rm -rf "$work/top/abi/out"
cp "$archive" "$work/top/crates/kijolvar/out/libkijolvar.a"
cd "$work/top" || exit 1
PATH=$work/bin:$PATH TOP=$top python3 - <<'PROGRAM'
import glob, json, os, re, shutil, signal, subprocess, sys, tempfile, urllib.request

TOP = os.environ["TOP"]
# In this order: abi/README.md makes what others use, and docs/reference/trouble.md shows the file that
# docs/guide/getting-started.md leaves.
FIRST = ["abi/README.md", "README.md", "docs/guide/getting-started.md", "docs/reference/trouble.md"]
GUIDE = sorted(os.path.relpath(path, TOP) for path in glob.glob(os.path.join(TOP, "docs/guide/*.md")))
# Its commands need devices: tests/devices.sh runs them over emulated ones.
GUIDE.remove("docs/guide/attach-your-printer.md")
OTHERS = ["CONTRIBUTING.md", "docs/reference/console.md", "docs/reference/profile.md"]
DOCUMENTS = [*FIRST, *(path for path in GUIDE if path not in FIRST), *OTHERS]
BLOCK = re.compile(r"^```(\w*)\n(.*?)^```$|((?:^    [^\n]*\n|^\n(?=    ))+)", re.M | re.S)
NAMED = re.compile(r"`(crates/[\w/]+\.rt)`")
FILE = re.compile(r"(?:# |/\* |// )(\w+\.(?:py|c|rs))(?: \*/)?\n")
# Commands that aren't run here: what they begin with, and why.
NOT_RUN = [
    (r"\(cd crates/pos_console && rt run < stdin\)$", "it proves every crate, which the gate does"),
    (r"\(cd crates/pos_tool && rt run -- version\)$", "it proves the tool, which the gate does"),
    (r"tests/quick\.sh$", "it runs by itself; all that it tries the gate tries too"),
    (r"\.ci/run$", "it runs this"),
    (r"rt check$", "it proves a crate, which the gate does"),
    (r"rt try --test$", "it runs the tests of a crate, which the gate does"),
    (r"rt must-fail NAME$", "it tries the edits of a crate, which the gate does"),
    (r"rt fmt$", "it changes files; the gate refuses what isn't laid out by it"),
    (r"tests/(?:documents|rules|prose)\.sh$", "the gate runs it"),
    (r"sha256sum -c SHA256SUMS$", "tests/release.sh checks a release"),
    (r"tar -xzf kijolvar-\S+\.tar\.gz$", "tests/release.sh unpacks a release"),
    (r"tools/install \S+$", "tests/release.sh runs it"),
    (r"csharp", "no test has a compiler for it"),
]
# How long a command, or a server's answer, may take, in seconds.
LIMIT = 600
# The command that builds the archive: it has run before, or this has run it.
BUILDS = r"\(cd crates/kijolvar && rt lib\)$"
# A server is asked for its page, at a free port.
SERVES = r"python3 abi/page/serve\.py \S+$"
# Runs parts of a Python program that come as lines of JSON, and writes what each prints in the same way.
PARTS = """
import contextlib, io, json, sys, traceback
names = {"__name__": "__main__"}
for line in sys.stdin:
    said = io.StringIO()
    with contextlib.redirect_stdout(said):
        try:
            exec(compile(json.loads(line), "the example", "exec"), names)
        except BaseException:
            print(traceback.format_exc())
    sys.stdout.write(json.dumps(said.getvalue()) + "\\n")
    sys.stdout.flush()
"""
with open("examples/sale.stdout", encoding="utf-8") as file:
    SALE = file.read()
fitted = set()


def ends(words, said=None, folder=None):
    """How a program ends, and what it prints on standard output and on standard error. One that takes too long is
    ended, with all that it began: -9."""
    pipe = subprocess.PIPE
    running = subprocess.Popen(words, stdin=None if said is None else pipe, stdout=pipe, stderr=pipe, cwd=folder,
                               text=True, start_new_session=True)
    try:
        printed = running.communicate(said, LIMIT)
    except subprocess.TimeoutExpired:
        os.killpg(running.pid, signal.SIGKILL)
        printed = running.communicate()
    return running.returncode, *printed


def runs(commands, wanted):
    """None where the commands end well and print what is wanted, else what is wrong."""
    status, printed, errors = ends(["bash", "-c", commands])
    found = printed + errors
    if status == 0 and found == wanted:
        return None
    return f"the commands\n{commands}\nend with {status} and print\n{found}in the place of\n{wanted}"


def serves(command):
    """None where a server tells its address and gives its page there, else what is wrong."""
    server = subprocess.Popen(command.split() + ["0"], stdout=subprocess.PIPE, stderr=subprocess.STDOUT, text=True)
    try:
        address = server.stdout.readline().strip()
        if not re.fullmatch(r"http://127\.0\.0\.1:\d+/", address):
            return f"{command} prints {address!r}, which is no address"
        for path in ("", "state"):
            with urllib.request.urlopen(address + path, timeout=LIMIT) as answer:
                if not answer.read():
                    return f"{command}: {address}{path} is empty"
        return None
    except OSError as fault:
        return f"{command}: {fault}"
    finally:
        server.kill()
        server.wait()


def tries(command, wanted):
    """What is wrong with a command of an indented block; a word where it isn't run."""
    tool = re.match(r"(?:\w+=\S+ )*([\w./-]+)", command)
    if re.match(BUILDS, command):
        there = os.path.exists("crates/kijolvar/out/libkijolvar.a")
        return None if there else "crates/kijolvar/out/libkijolvar.a isn't there: rt lib built no archive"
    for pattern, why in NOT_RUN:
        if re.match(pattern, command):
            fitted.add(pattern)
            print(f"not run: {command}: {why}")
            return "not run"
    if tool and "/" not in tool[1] and tool[1] != "cd" and not shutil.which(tool[1]):
        return f"{command}: {tool[1]} isn't there: install its package"
    if re.match(SERVES, command):
        return serves(command)
    return runs(command, wanted)


def stands(code, name):
    with open(os.path.join(TOP, name), encoding="utf-8") as file:
        text = file.read()
    at = 0
    for part in re.split(r"^ *// \.\.\n", code, flags=re.M):
        at = text.find(part, at)
        if at < 0:
            return f"{name} doesn't have\n{part}"
        at += len(part)
    return None


def console(script, profile, folder):
    """What the program prints for a script: over a profile and a new totals file, or over the built-in profile."""
    words = []
    if profile is not None:
        with open(os.path.join(folder, "profile.toml"), "w", encoding="utf-8") as file:
            file.write(profile)
        subprocess.run(["pos_console", "format", "--disk", "totals"], cwd=folder, check=True)
        words = ["run", "--profile", "profile.toml", "--disk", "totals"]
    status, printed, errors = ends(["pos_console", *words], script, folder)
    return printed if status == 0 else f"status {status}: {errors}"


def answers(session, profile):
    """None where each line of a session has the answer that stands behind it, else what is wrong."""
    lines = [line.partition("=>") for line in session.rstrip("\n").split("\n")]
    wanted = [answer.strip() for _, arrow, answer in lines if arrow]
    if not wanted:
        return f"a session without an answer:\n{session}"
    with tempfile.TemporaryDirectory() as folder:
        found = console("".join(line.rstrip() + "\n" for line, _, _ in lines), profile, folder)
    return None if found == "\n".join([*wanted, ""]) else f"the session\n{session}prints\n{found}"


def takes(profile):
    with tempfile.TemporaryDirectory() as folder:
        found = console("", profile, folder)
    return None if found == "" else f"the profile\n{profile}is refused: {found}"


# A package of Rust over the typed crate, for a program in Rust.
CARGO = """[package]
name = "example"
version = "0.1.0"
edition = "2021"

[dependencies]
kijolvar = { path = "../abi/rust/kijolvar" }

[workspace]
"""
BUILDS_IT = {
    "c": "gcc -O1 -Wall -Wextra -Werror -I abi/out -o run example/src/main.c abi/out/libkijolvar.a",
    "rust": "cd example && cargo build -q --offline && cp target/debug/example ../run",
}


def compiles(kind, source, wanted):
    """None where a whole program builds and prints what is wanted, else what is wrong."""
    os.makedirs("example/src", exist_ok=True)
    with open("example/Cargo.toml", "w", encoding="utf-8") as file:
        file.write(CARGO)
    with open("example/src/main." + kind.replace("rust", "rs"), "w", encoding="utf-8") as file:
        file.write(source)
    archive = None if os.path.exists("abi/out/libkijolvar.a") else runs("abi/build.sh", "")
    return archive or runs(BUILDS_IT[kind], "") or runs("./run", wanted)


SHARES = ("gcc -shared -fPIC -o libkijolvar.so abi/heap.c"
          " -Wl,--whole-archive crates/kijolvar/out/libkijolvar.a -Wl,--no-whole-archive")


class Parts:
    """The parts of a Python program, in one interpreter, over the shared object. It makes that if no document has."""

    def __init__(self):
        library = os.path.abspath("libkijolvar.so")
        if not os.path.exists(library):
            subprocess.run(["bash", "-c", SHARES], check=True)
        places = {"PYTHONPATH": os.path.abspath("abi/python"), "KIJOLVAR_LIBRARY": library}
        self.child = subprocess.Popen([sys.executable, "-c", PARTS], stdin=subprocess.PIPE, stdout=subprocess.PIPE,
                                      text=True, env={**os.environ, **places})

    def run(self, source, wanted):
        self.child.stdin.write(json.dumps(source) + "\n")
        self.child.stdin.flush()
        line = self.child.stdout.readline()
        found = json.loads(line) if line else "nothing: the interpreter has ended"
        return None if found == wanted else f"the program\n{source}prints\n{found}in the place of\n{wanted}"

    def end(self):
        self.child.stdin.close()
        self.child.wait()


def checks(document):
    """Of each block or command whether it is right: None, or what is wrong."""
    blocks = list(BLOCK.finditer(document))
    profile = parts = None
    for block, following in zip(blocks, blocks[1:] + [None]):
        kind, text, indented = block.groups()
        wanted = following[2] if following is not None and following[1] == "text" else ""
        before, profile = profile, None
        named = FILE.match(text or "")
        if named:
            with open(named[1], "w", encoding="utf-8") as file:
                file.write(text)
        elif kind == "sh":
            yield runs(text, wanted)
        elif kind == "session":
            yield answers(text, before)
        elif kind == "toml":
            profile = text
            yield takes(text)
        elif kind == "python":
            parts = parts or Parts()
            yield parts.run(text, wanted)
        elif kind == "c" or kind == "rust" and "fn main()" in text:
            yield compiles(kind, text, wanted)
        elif kind == "rust":
            yield stands(text, NAMED.findall(document[: block.start()])[-1])
        elif kind == "csharp":
            fitted.add(kind)
            print("not run: C#: no test has a compiler for it")
            yield "not run"
        elif indented and not re.search(r";\s*(?:/\*.*\*/)?$", indented, re.M):
            text = re.sub(r"\\\n\s*", " ", indented)
            commands = [line.strip() for line in text.split("\n") if line.strip()]
            for command in commands:
                is_told = command is commands[-1] and following is not None and following[1] == "text"
                runs_sale = re.search(r"\bsale\b.* \S+\.disk\)?$", command)
                yield tries(command, following[2] if is_told else SALE if runs_sale else "")
        elif kind not in ("", "text", None):
            yield f"a block `{kind}`: commands stand in a block `sh`, or are indented"
    if parts:
        parts.end()


passed = failed = 0
for path in DOCUMENTS:
    for made in glob.glob("*.disk"):
        if path != "docs/reference/trouble.md":
            os.remove(made)
    with open(os.path.join(TOP, path), encoding="utf-8") as file:
        document = file.read()
    items = re.compile(r"^(?:[-*] |\d+\. ).*\n(?:  +.*\n)*", re.M)
    document = items.sub(lambda item: "\n" * item[0].count("\n"), document)
    looked = 0
    for fault in checks(document):
        looked += 1
        if fault is None:
            passed += 1
        elif fault != "not run":
            failed += 1
            print(f"{path}: {fault}")
    if not looked:
        failed += 1
        print(f"{path}: it has no command")
for pattern, _ in NOT_RUN:
    if pattern not in fitted:
        failed += 1
        print(f"no command fits {pattern}: it mustn't stand on the list")
print(f"{passed} passed, {failed} failed")
sys.exit(1 if failed or not passed else 0)
PROGRAM
