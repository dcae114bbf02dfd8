#!/usr/bin/env python3
"""Runs each script of tests/scripts by typed calls, and compares what is printed byte by byte with its
.stdout. tests/scripts.sh says what the files beside a script are. PROGRAM moves the disks that have layout 2.

Usage: scripts.py --count, which prints how many runs there are; or scripts.py NAME RUN FORMAT PROGRAM, with the
language's name, the program that runs a script by typed calls, one that formats a file (`FORMAT create FILE`), and
pos_console. A fifth word lists the lines that went by text. Its last line is 'N passed, M failed'.
"""
import collections
import pathlib
import re
import subprocess
import sys
import tempfile

SCRIPTS = pathlib.Path(__file__).resolve().parent.parent.parent / "tests/scripts"
LENGTH = 327680


def expand(words):
    """The bytes in hex, where HEX*N stands for HEX N times."""
    return b"".join(bytes.fromhex(word.split("*")[0]) * int((word.split("*") + ["1"])[1]) for word in words)


def places(text):
    """The places of a disk and the bytes that stand from there on."""
    for line in text.splitlines():
        if line and not line.startswith("#"):
            place, *words = line.split()
            yield int(place), expand(words)


def disks(script):
    """The disks that a script runs over, or None for a formatted one."""
    path = pathlib.Path(f"{script}.disk")
    if not path.exists():
        return [None]
    found = []
    for paragraph in re.split(r"\n\n+", path.read_text().strip("\n")):
        image = bytearray(LENGTH)
        for place, part in places(paragraph):
            image[place:place + len(part)] = part
        found.append(bytes(image))
    return found


class Run:
    """The runs of a language."""

    def __init__(self, name, run, form, program, folder):
        self.name, self.run, self.form, self.program = name, run, form, program
        self.disk = pathlib.Path(folder) / "disk"
        self.passed = self.failed = self.typed = 0
        self.by_text = collections.Counter()

    def told(self, name, wrong):
        if wrong:
            self.failed += 1
            print(f"failed: {self.name}: {name}\n  " + "\n  ".join(wrong[:8]))
        else:
            self.passed += 1

    def lay(self, script, image):
        """Makes the disk, which is moved to layout 2 if a script is run before."""
        self.disk.unlink(missing_ok=True)
        if image is None:
            subprocess.run([self.form, "create", self.disk], check=True, stdout=subprocess.DEVNULL)
        else:
            self.disk.write_bytes(image)
        before = pathlib.Path(f"{script}.before")
        if before.exists():
            words = [self.program, "run", "--profile", f"{script}.profile", "--disk", self.disk]
            subprocess.run(words, check=True, stdin=before.open("rb"), stdout=subprocess.DEVNULL)
            subprocess.run([self.program, "migrate", "--disk", self.disk], check=True)

    def runs(self, script, name, words, left):
        """Runs a script, and compares what it prints and what it leaves on the disk."""
        found = subprocess.run([self.run, *words], stdin=script.open("rb"), capture_output=True)
        said = found.stderr.decode(errors="replace").splitlines()
        wrong = [] if found.returncode == 0 else [f"it ended with {found.returncode}", *said[-2:]]
        wanted = pathlib.Path(f"{script}.stdout").read_bytes().split(b"\n")
        printed = found.stdout.split(b"\n")
        for number, (a, b) in enumerate(zip(wanted + [b"nothing"], printed + [b"nothing"]), 1):
            if a != b:
                wrong += [f"line {number}: wanted {a.decode()}", f"line {number}: found  {b.decode(errors='replace')}"]
                break
        if left is not None:
            image = self.disk.read_bytes()
            wrong += [f"other bytes at {place}" for place, part in places(left)
                      if image[place:place + len(part)] != part]
        self.told(name, wrong)
        counts = re.fullmatch(r"(\d+) typed, (\d+) by text", said[-1]) if said else None
        if counts:
            self.typed += int(counts[1])
            self.by_text.update(line.removeprefix("text: ") for line in said[:-1] if line.startswith("text: "))

    def all(self):
        for expected in sorted(SCRIPTS.glob("*.stdout")):
            script = expected.with_suffix("")
            profile, left = pathlib.Path(f"{script}.profile"), pathlib.Path(f"{script}.left")
            if not profile.exists():
                self.runs(script, script.name, ["-", "-"], None)
                continue
            images = disks(script)
            for number, image in enumerate(images, 1):
                self.lay(script, image)
                name = script.name if len(images) == 1 else f"{script.name} over its disk {number}"
                self.runs(script, name, [profile, self.disk], left.read_text() if left.exists() else None)


def main():
    if sys.argv[1:] == ["--count"]:
        print(sum(len(disks(expected.with_suffix(""))) for expected in SCRIPTS.glob("*.stdout")))
        return
    if len(sys.argv) not in (5, 6):
        sys.exit(__doc__)
    with tempfile.TemporaryDirectory() as folder:
        run = Run(*sys.argv[1:5], folder)
        run.all()
    print(f"{run.name}: {run.typed} lines by typed calls, {run.by_text.total()} by text")
    if len(sys.argv) == 6:
        for line, count in sorted(run.by_text.items()):
            print(f"  {count} {line}")
    print(f"{run.passed} passed, {run.failed} failed")


main()
