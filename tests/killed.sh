#!/usr/bin/env bash
# Kills the program (kill -9) while it changes Hard Totals in a file, and looks at what the file holds. A round kills it
# four times, each time over a new file:
#   in a stream: at a random moment, while it works through transactions that are written ahead;
#   between calls: in an open transaction, after the answer to its begin or to one of its writes;
#   in a commit: after it began to write the file for a commit, and before the commit's answer;
#   in a move: after a move to layout 2 began to write the file, and before it ends.
# The last two are tried until a kill has landed there: the file's bytes have changed, and nothing was answered. Each
# try is judged, also one that came too early or too late. The file must hold one file of totals, whole, as one
# transaction left it: the last that was answered or a later one that was asked for; between calls the last that was
# answered. After that the file can be moved to layout 2 exactly once, and holds the same.
# This tries the end of the process. What a loss of power leaves is the crash model of docs/proofs/crashes.md.
# Usage: tests/killed.sh [TIMES [PROGRAM]]. It does TIMES rounds, by default 25. Without PROGRAM it builds one, and
# needs rt. It needs python3, and a TMPDIR on a disk. Its last line is 'N passed, M failed', four for each round.
set -eu
top=$(cd "$(dirname "$0")/.." && pwd)
times=${1:-25}
work=$(mktemp -d)
trap 'rm -rf "$work"' EXIT
program=$(realpath "${2:-$top/crates/pos_console/out/pos_console}")
[ $# -ge 2 ] || (cd "$top/crates/pos_console" && rt run < /dev/null > /dev/null 2>&1)
cd "$work"
status=0
python3 - "$times" "$program" <<'PROGRAM' || status=$?
import os, random, subprocess, sys, time

times, program = int(sys.argv[1]), sys.argv[2]
# How long a try for a place goes on at least, in seconds, and how many kills it has at least: on a busy machine with a
# quick disk one of hundreds lands. And how many transactions a stream has.
PATIENCE, KILLS, STREAM = 60, 3000, 1500
# A transaction writes its number into each of these places of a file of 64 bytes.
PLACES = [0, 20, 41, 60]
BEGIN = ["new a HardTotals", "open a t1", "set a DeviceEnabled true", "call a create 41 64 false"]
MOVED_ALREADY = "pos_console: disk: has layout 2 already: there is nothing to do\n"

with open("profile.toml", "w") as profile:
    profile.write('[[device]]\nname = "t1"\ncategory = "HardTotals"\n')


class Wrong(Exception):
    """What a kill left isn't what it may leave."""


def calls(number):
    """The calls of a transaction."""
    writes = [f"call a write 1 {place} {number:08x}" for place in PLACES]
    return ["call a beginTrans", *writes, "call a commitTrans"]


def content(number):
    """What the file of totals holds after a transaction, in hex; number 0 stands for none."""
    held = bytearray(64)
    for place in PLACES:
        held[place:place + 4] = number.to_bytes(4, "big")
    return held.hex()


def ends(status, message, *words):
    """Demands how the program ends with these words, and gives what it printed."""
    ended = subprocess.run([program, *words], capture_output=True, text=True, stdin=subprocess.DEVNULL)
    if (ended.returncode, ended.stderr) != (status, message):
        raise Wrong(f"{words[0]} ends with {ended.returncode} and {ended.stderr!r}, not {status} and {message!r}")
    return ended.stdout


def make_disk():
    """Makes a formatted file `disk`."""
    if os.path.exists("disk"):
        os.remove("disk")
    ends(0, "", "format", "--disk", "disk")


def disk_bytes():
    with open("disk", "rb") as disk:
        return disk.read()


def held():
    """The layout of the file `disk`, and all files that it holds as `files` prints them."""
    lines = ends(0, "", "files", "--disk", "disk").splitlines()
    at = next(at for at, line in enumerate(lines) if line.startswith("files "))
    # (the line of text has only what the line of hex has)
    return lines[0], [line for line in lines[at:] if not line.startswith("text ")]


def of_transaction(number):
    return ["files 1", "file 41", "name A", "size 64", f"hex {content(number)}"]


def run(lines):
    """What the program answers to a script over the file `disk`."""
    words = [program, "run", "--profile", "profile.toml", "--disk", "disk"]
    script = "".join(f"{line}\n" for line in lines)
    ended = subprocess.run(words, input=script, capture_output=True, text=True)
    if (ended.returncode, ended.stderr) != (0, ""):
        raise Wrong(f"a run ends with {ended.returncode} and {ended.stderr!r}")
    return ended.stdout.splitlines()


def judge(least, most):
    """Demands that the file holds what a transaction of these numbers left, and can be moved once."""
    layout, files = held()
    if layout != "layout 1":
        raise Wrong(f"it has {layout}")
    found = next((number for number in range(least, most + 1) if files == of_transaction(number)), None)
    if found is None:
        raise Wrong(f"it holds none of transactions {least} to {most}: {files}")
    # the program itself finds it too, with no transaction open
    asked = [*BEGIN[:3], "call a read 1 0 64", "get a NumberOfFiles", "get a TransactionInProgress"]
    answers = ["ok", "ok", "ok", f"ok {content(found)}", "ok 1", "ok false"]
    if run(asked) != answers:
        raise Wrong(f"a run finds something else than transaction {found}")
    ends(0, "", "migrate", "--disk", "disk")
    judge_moved(of_transaction(found))
    if run(asked) != answers:
        raise Wrong(f"after the move a run finds something else than transaction {found}")
    return found


def judge_moved(files):
    """Demands that the file has layout 2 and these files, and can't be moved again."""
    if held() != ("layout 2", files):
        raise Wrong(f"after the move it holds {held()}")
    ends(4, MOVED_ALREADY, "migrate", "--disk", "disk")
    if held() != ("layout 2", files):
        raise Wrong("a refused move changes it")


class Running:
    """The program over a new file, with the file of totals made."""

    def __init__(self):
        make_disk()
        words = [program, "run", "--profile", "profile.toml", "--disk", "disk"]
        self.process = subprocess.Popen(words, stdin=subprocess.PIPE, stdout=subprocess.PIPE, bufsize=0)
        self.answers = b""
        for line, wanted in zip(BEGIN, ["ok", "ok", "ok", "ok 1"]):
            self.ask(line, wanted)

    def write(self, line):
        self.process.stdin.write(f"{line}\n".encode())

    def ask(self, line, wanted="ok"):
        """Writes a line, and demands its answer."""
        self.write(line)
        answer = self.process.stdout.readline().decode()
        if answer != f"{wanted}\n":
            raise Wrong(f"{line} is answered {answer!r}")

    def kill(self):
        """Kills it, and gives the whole lines that it still printed."""
        self.process.kill()
        rest = self.process.stdout.read()
        self.process.stdin.close()
        self.process.stdout.close()
        if self.process.wait() != -9:
            raise Wrong(f"it ended with {self.process.returncode} before it was killed")
        return rest.decode().split("\n")[:-1]


def in_stream():
    """Kills it in a stream of transactions that are written ahead. Each kill counts."""
    running = Running()
    os.set_blocking(running.process.stdin.fileno(), False)
    script = "".join(f"{line}\n" for number in range(1, STREAM + 1) for line in calls(number)).encode()
    ends_at = time.monotonic() + random.uniform(0.002, 0.4)
    written = 0
    while time.monotonic() < ends_at and written < len(script):
        # (none, where the pipe is full)
        count = running.process.stdin.write(script[written:written + 4096]) or 0
        written += count
        if count == 0:
            time.sleep(0.0005)
    printed = running.kill()
    if any(line != "ok" for line in printed):
        raise Wrong(f"it answers {set(printed)}")
    each = len(calls(1))
    asked = script[:written].count(b"commitTrans")
    judge(len(printed) // each, asked)
    return True


def between_calls():
    """Kills it in an open transaction that wasn't to be committed yet. Each kill counts."""
    running = Running()
    last = random.randrange(1, 6)
    for number in range(1, last):
        for line in calls(number):
            running.ask(line)
    lines = calls(last)
    for line in lines[:random.randrange(1, len(lines))]:
        running.ask(line)
    if running.kill():
        raise Wrong("it answers what wasn't asked")
    judge(last - 1, last - 1)
    return True


class Aim:
    """When to kill, so that about as many kills come too early as too late."""

    def __init__(self):
        self.takes = 0.001

    def wait(self, start):
        """Waits up to a random moment in the time that it takes."""
        ends_at = start + random.uniform(0, self.takes)
        while time.monotonic() < ends_at:
            pass

    def too_early(self):
        self.takes *= 1.3

    def too_late(self):
        self.takes /= 1.2


commit_aim, move_aim = Aim(), Aim()


def in_commit():
    """Kills it while it commits. It counts if the file's bytes have changed and the commit wasn't answered."""
    running = Running()
    last = random.randrange(1, 4)
    for number in range(1, last):
        for line in calls(number):
            running.ask(line)
    for line in calls(last)[:-1]:
        running.ask(line)
    before = disk_bytes()
    start = time.monotonic()
    running.write(calls(last)[-1])
    commit_aim.wait(start)
    printed = running.kill()
    if printed not in ([], ["ok"]):
        raise Wrong(f"a commit is answered {printed}")
    has_changed = disk_bytes() != before
    # answered, it is there; with no byte written, it isn't
    found = judge(last if printed else last - 1, last if has_changed else last - 1)
    if printed:
        commit_aim.too_late()
        return False
    if not has_changed:
        commit_aim.too_early()
        return False
    landed[f"in a commit, {'after' if found == last else 'before'} its last write"] += 1
    return True


def make_first():
    """Makes the file `first`, with files of totals of 64 and of 8,000 bytes: gives what it holds."""
    make_disk()
    lines = [line for number in range(1, 51) for line in calls(number)]
    run([*BEGIN, *lines, "call a create 42 8000 false", "call a setAll 2 90"])
    os.rename("disk", "first")
    return ["files 2", *of_transaction(50)[1:], "file 42", "name B", "size 8000", f"hex {'5a' * 8000}"]


def in_move():
    """Kills it while it moves the file to layout 2. It counts if the file's bytes have changed, and it hadn't ended."""
    with open("first", "rb") as first, open("disk", "wb") as disk:
        before = first.read()
        disk.write(before)
    start = time.monotonic()
    words = [program, "migrate", "--disk", "disk"]
    process = subprocess.Popen(words, stdin=subprocess.DEVNULL, stdout=subprocess.PIPE, stderr=subprocess.STDOUT)
    move_aim.wait(start)
    process.kill()
    said = process.stdout.read()
    process.stdout.close()
    status = process.wait()
    if said or status not in (0, -9):
        raise Wrong(f"a move ends with {status} and {said!r}")
    has_changed = disk_bytes() != before
    layout, files = held()
    if files != first_files:
        raise Wrong(f"it holds {files}")
    if layout == "layout 1" and status == -9:
        ends(0, "", "migrate", "--disk", "disk")
    elif layout != "layout 2" or not has_changed:
        raise Wrong(f"a move ends with {status} and leaves {layout}")
    judge_moved(first_files)
    if status == 0:
        move_aim.too_late()
        return False
    if not has_changed:
        move_aim.too_early()
        return False
    landed[f"in a move, {'after' if layout == 'layout 2' else 'before'} its last write"] += 1
    return True


landed = dict.fromkeys(
    [f"in a {what}, {when} its last write" for what in ("commit", "move") for when in ("before", "after")], 0)
first_files = make_first()
passed = failed = 0
tries = 0
kinds = {"in a stream": in_stream, "between calls": between_calls, "in a commit": in_commit, "in a move": in_move}
for number in range(1, times + 1):
    for name, kill in list(kinds.items()):
        ends_at, ends_behind = time.monotonic() + PATIENCE, tries + KILLS
        try:
            tries += 1
            while not kill():
                if time.monotonic() > ends_at and tries >= ends_behind:
                    del kinds[name]
                    raise Wrong(f"none of {KILLS} kills or more landed there in {PATIENCE} s: is TMPDIR in memory?")
                tries += 1
            passed += 1
        except (Wrong, OSError, StopIteration) as fault:
            failed += 1
            print(f"failed: round {number}, {name}: {fault}")
print(f"{tries} kills; of those that landed " + "; ".join(f"{what}: {count}" for what, count in landed.items()))
print(f"{passed} passed, {failed} failed")
sys.exit(failed > 0 or passed == 0)
PROGRAM
exit "$status"
