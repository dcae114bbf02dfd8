#!/usr/bin/env python3
"""Cuts the power at every moment of what the program and a wrapper do to a totals file. tests/powercut.sh says more.
Usage: powercut.py FOLDER STEP SEED PROGRAM LIBRARY, where FOLDER has recorder.so. Its last line is 'N passed, M
failed'."""
import collections
import os
import pathlib
import random
import subprocess
import sys
import traceback

import changes
import cuts
import reader

HERE = pathlib.Path(__file__).resolve().parent
NO_FILES = (1, ())
# What a cut may leave of a formatting. docs/reference/totals-file.md promises nothing of one that is cut short; this is
# what the program does.
UNMADE = [reader.ABSENT, reader.SHORT, reader.UNFORMATTED, NO_FILES]

# What a sync is of. Without one of these some cut loses an answer or the files.
RECORD, RECORD_GATE, CLOSED_GATE, IMAGE, OPEN_GATE = ("a record", "a record's open gate", "a slot's closed gate", "an image",
                                                      "a slot's open gate")
FIRST_IMAGE, FOLDER, OPENING = "the first image", "the folder", "an opening after a kill"
# Without one of these none does. Before the first gate opens, nothing counts yet, and a later sync settles their writes
# too. A program sets the length, or writes so many zero bytes.
LENGTH, ALL_GATES = "the length", "all closed gates"
# Before this one nothing is loose.
NOTHING = "nothing"

# A record of a program, and what has to be found: `allowed` gives the outcomes by the number of entries before a
# moment, `syncs` the numbers of the syncs to leave out, by what they are of, and `harmless` those kinds of which no cut
# shows it. Moments before `first` are another scenario's.
Scenario = collections.namedtuple("Scenario", "name start entries allowed ways syncs harmless first")

# The lines by which a run goes on after a fault, how often, and the last one.
AGAIN, TURNS, LAST = ["set a DeviceEnabled false", "set a DeviceEnabled true"], 4, "get a NumberOfFiles"

# After so many files that are amiss a scenario ends.
ENOUGH_AMISS = 50

passed = failed = 0


def told(name, holds, detail=""):
    global passed, failed
    if holds:
        passed += 1
    else:
        failed += 1
        print(f"failed: {name}" + (f": {detail}" if detail != "" else ""))


def outcome(found):
    return found if isinstance(found, str) else (found.layout, found.files)


def tell(value):
    """An outcome in a few words."""
    if isinstance(value, str):
        return value
    layout, files = value
    return f"layout {layout} with {len(files)} files, {[(name.hex(), kept[:4].hex(), len(kept)) for name, kept in files][:3]}"


def first_other(found, wanted):
    for place, (one, other) in enumerate(zip(found, wanted)):
        if one != other:
            return f"line {place + 1} is answered {one}, not {other}"
    return f"{len(found)} answers, not {len(wanted)}"


class Bench:
    """Runs programs over a file, and records them."""

    def __init__(self, folder, program, library):
        self.folder, self.program, self.library = pathlib.Path(folder), program, library
        self.file, self.log, self.profile = self.folder / "totals", self.folder / "log", self.folder / "profile.toml"
        self.cut = self.folder / "cut"
        self.profile.write_text('[[device]]\nname = "t1"\ncategory = "HardTotals"\n')

    def lay(self, start):
        """Begins a record over a file with these bytes, or over none."""
        self.log.write_bytes(b"")
        self.file.unlink(missing_ok=True)
        if start is not None:
            self.file.write_bytes(start)

    def verb(self, verb):
        return [self.program, verb, "--disk", str(self.file)]

    def run(self, file):
        return [self.program, "run", "--profile", str(self.profile), "--disk", str(file)]

    def wrapper(self):
        return [sys.executable, "-B", str(HERE / "wrapper.py"), self.library, str(self.file)]

    def talk(self, words, batches=(), stop=0, fault=(0, 0)):
        """Runs words, recorded, with batches of lines, each written once the one before is answered: the answers and
        the status. A fault is the number of the first write or sync that fails, and how many do."""
        env = dict(os.environ, LD_PRELOAD=str(self.folder / "recorder.so"), POWERCUT_FILE=str(self.file),
                   POWERCUT_LOG=str(self.log), POWERCUT_STOP=str(stop), POWERCUT_FAIL=" ".join(map(str, fault)))
        running = subprocess.Popen(words, stdin=subprocess.PIPE, stdout=subprocess.PIPE, stderr=subprocess.PIPE, env=env)
        answers = []
        try:
            for batch in batches:
                running.stdin.write("".join(line + "\n" for line in batch).encode())
                running.stdin.flush()
                answers += filter(None, (running.stdout.readline().decode() for _ in batch))
            running.stdin.close()
        except BrokenPipeError:
            pass
        running.stdin = None
        rest, said = running.communicate()
        if said and fault == (0, 0):
            print(said.decode()[-1000:].rstrip())
        return [line.rstrip("\n") for line in answers] + rest.decode().split("\n")[:-1], running.returncode

    def entries(self):
        return cuts.read_record(self.log)

    def makes(self, start, image):
        """Whether the record makes these bytes. Whatever it lacks would be left out of each cut."""
        moment = cuts.begun(start)
        for entry in self.entries():
            moment = cuts.after(moment, entry)
        return moment.has_name and moment.seen == image

    def survey(self, image):
        """What `files` of the program finds in a file: what the reader calls it, or its text."""
        self.cut.write_bytes(image)
        ran = subprocess.run([self.program, "files", "--disk", str(self.cut)], capture_output=True, text=True)
        for words, found in ((": is shorter than", reader.SHORT), (": has no totals", reader.UNFORMATTED),
                             (": its totals are damaged at byte", reader.DAMAGED)):
            if ran.returncode == 4 and words in ran.stderr:
                return found
        return ran.stdout if ran.returncode == 0 else ran.stderr

    def recovers(self, image, found):
        """Whether a run of the program finds the same in a file, and leaves its bytes."""
        self.cut.write_bytes(image)
        lines, wanted = list(changes.BEGIN), ["ok", "ok"]
        if isinstance(found, str):
            wanted.append("err 111" if found == reader.DAMAGED else "err 107")
        else:
            lines.append("get a NumberOfFiles")
            wanted += ["ok", f"ok {len(found.files)}"]
            for place, (name, kept) in enumerate(found.files):
                lines += [f"call a findByIndex {place}", f"call a read {place + 1} 0 {len(kept)}"]
                wanted += [f"ok {name.hex()}", f"ok {kept.hex() or '-'}"]
        ran = subprocess.run(self.run(self.cut), input="".join(line + "\n" for line in lines), capture_output=True, text=True)
        return ran.stdout.split("\n")[:-1] == wanted and self.cut.read_bytes() == image

    def is_read_alike(self, image, found):
        """Whether the program finds in a file what the reader found."""
        return self.survey(image) == (found if isinstance(found, str) else reader.survey(found)) and self.recovers(image, found)


def sync_of(entry, moment):
    """What a sync is of, by what is loose before it."""
    loose = moment.loose
    if entry.kind == "D":
        return FOLDER if moment.may_miss else NOTHING
    if not loose:
        return NOTHING
    if any(other.at + len(other.text) == reader.LENGTH and not any(other.text) for other in loose):
        return LENGTH
    if all(len(other.text) == 1 for other in loose):
        if len(loose) > 1:
            return ALL_GATES
        if all(loose[0].at not in layout[0] for layout in reader.LAYOUTS.values()):
            return RECORD_GATE
        return OPEN_GATE if loose[0].text[0] == reader.OPEN else CLOSED_GATE
    if len(loose) == 1:
        return FIRST_IMAGE if loose[0].at == 1 else RECORD
    return IMAGE


def settles_an_answer(entries, number):
    """Whether an answer comes after this entry before the next write or length."""
    for entry in entries[number + 1:]:
        if entry.kind in "AX":
            return True
        if entry.kind in "WT":
            return False
    return False


class Sample:
    """Some of what it is shown, each as likely as the others."""

    def __init__(self, chance, most):
        self.chance, self.most, self.shown, self.kept = chance, most, 0, []

    def show(self, image, found):
        self.shown += 1
        if len(self.kept) < self.most:
            self.kept.append((bytes(image), found))
        elif self.chance.random() * self.shown < self.most:
            self.kept[self.chance.randrange(self.most)] = bytes(image), found


class Judge:
    """Reads what cuts leave, and counts."""

    def __init__(self, bench, step, seed):
        self.bench, self.step, self.seed = bench, step, seed
        self.reader, self.marks, self.distinct = reader.Reader(), cuts.Marks(), set()
        self.states = self.moments = self.loose = self.looks = self.left_out = 0

    def chance(self, *words):
        return random.Random(" ".join(map(str, (self.seed,) + words)))

    def judge(self, scenario, moment, image, plan):
        """What is found in a file that a cut left, and what is amiss with it, if anything is."""
        found, allowed = self.reader.read(image), scenario.allowed(moment.number)
        if outcome(found) in allowed:
            return found, None
        loose = [(entry.kind, entry.at, len(entry.text)) for entry in moment.loose]
        return found, (f"after entry {moment.number}, loose {loose}, cut {plan}: {tell(outcome(found))}, not "
                       + " or ".join(map(tell, allowed[:3])))

    def look(self, image, found):
        self.looks += 1
        return image is None or self.bench.is_read_alike(bytes(image), found)

    def try_all(self, scenario, budget, looks):
        """Cuts the power at each moment of a scenario, and leaves out some of its syncs. What cuts left in some
        moments."""
        chance, before, wanted = self.chance(scenario.name), {}, {number for some in scenario.syncs.values() for number in some}
        amiss, unlike, sample = [], 0, Sample(self.chance(scenario.name, "sample"), 12)
        moment, loose, states = cuts.begun(scenario.start), 0, 0
        for entry in [*scenario.entries, None]:
            if moment.number in wanted:
                before[moment.number] = moment
            if moment.number >= scenario.first:
                loose += bool(moment.loose or moment.has_name and moment.may_miss)
                for image, mark, plan in cuts.states(chance, moment, scenario.ways, budget, self.marks, 1 / self.step):
                    states += 1
                    self.distinct.add(mark)
                    found, wrong = self.judge(scenario, moment, image, plan)
                    if wrong:
                        amiss.append(wrong)
                    if chance.random() < looks:
                        unlike += not self.look(image, found)
                    if moment.loose and not isinstance(found, str):
                        sample.show(image, found)
            if len(amiss) >= ENOUGH_AMISS:
                break
            if entry:
                moment = cuts.after(moment, entry)
        self.states, self.moments, self.loose = self.states + states, self.moments + moment.number + 1 - scenario.first, self.loose + loose
        print(f"{scenario.name}: {states} files at {moment.number + 1 - scenario.first} moments, {loose} of them with something to lose")
        told(f"{scenario.name}: each cut leaves what was answered", states > 0 and loose > 0 and not amiss, f"{len(amiss)} of {states} don't: {amiss[:2]}")
        told(f"{scenario.name}: the program finds what the reader finds", unlike == 0, f"{unlike} files differ")
        for kind, numbers in scenario.syncs.items():
            self.leave_out(scenario, kind, [number for number in numbers if number in before], before)
        return sample.kept

    def leave_out(self, scenario, kind, numbers, before):
        """Leaves out each of these syncs. Some cut before the next sync has to show it, if any can."""
        shown = [self.first_amiss(scenario, number, before[number]) for number in numbers]
        self.left_out += len(shown)
        missed = sum(count is None for count in shown)
        if kind in scenario.harmless:
            told(f"{scenario.name}: without the sync of {kind} nothing is lost", shown and missed == len(shown), f"{len(shown) - missed} of {len(shown)} times it is")
            return
        told(f"{scenario.name}: without the sync of {kind} something is lost", shown and missed == 0, f"{missed} of {len(shown)} times nothing is")
        if missed < len(shown):
            print(f"{scenario.name}: without one sync of {kind}, {len(shown)} tried, at the latest file {max(filter(None, shown))} is amiss")

    def first_amiss(self, scenario, number, moment):
        """How many files it takes until one is amiss without this sync; nothing if none is before the next sync. Those
        that follow before anything is written are left out with it: opening a file syncs it, and recovering what it has
        does so again."""
        chance, kind, count, is_written = self.chance(scenario.name, number), scenario.entries[number].kind, 0, False
        moment = cuts.after(moment, None)
        for entry in [*scenario.entries[number + 1:], None]:
            for image, _, plan in cuts.states(chance, moment, scenario.ways, 60, self.marks):
                count += 1
                found, wrong = self.judge(scenario, moment, image, plan)
                if wrong:
                    if not self.look(image, found):
                        told(f"{scenario.name}: the program finds what the reader finds without a sync", False, wrong)
                    return count
            if entry is None or entry.kind == kind and is_written:
                return None
            is_written = is_written or entry.kind in ("W", "T")
            moment = cuts.after(moment, None if entry.kind == kind else entry)


class Talk:
    """Lines in batches, each sent once the one before is answered, and the files behind each line."""

    def __init__(self, layout, files, steps, most=1, chance=None):
        self.layout, self.answers, self.batches, self.sent, self.known = layout, [step.answer for step in steps], [], [], {}
        self.after, lines = [files] + [step.files for step in steps], [step.line for step in steps]
        while len(self.sent) < len(lines):
            count = min(len(lines) - len(self.sent), chance.randint(1, most) if chance else 1)
            self.batches.append(lines[len(self.sent):len(self.sent) + count])
            self.sent += [len(self.sent) + count] * count
        self.sent.append(len(lines))

    def allowed(self, answered):
        """What may be found once so many lines are answered: the files behind them, or behind a line more that was
        sent."""
        if answered not in self.known:
            self.known[answered] = [(self.layout, files) for files in self.after[answered:self.sent[answered] + 1]]
        return self.known[answered]


def answered_by(entries):
    """How many lines are answered before each moment of a record."""
    counts = [0]
    for entry in entries:
        counts.append(counts[-1] + (entry.text.count(b"\n") if entry.kind == "A" else 0))
    return counts


class Recorder:
    """Makes scenarios: it runs them, recorded, and says what has to be found."""

    def __init__(self, bench, judge):
        self.bench, self.judge, self.reader = bench, judge, reader.Reader()

    def changes(self, name, layout, files, count):
        return changes.Shop(self.judge.chance(name, "changes"), layout, files).go_on(count)

    def is_recorded(self, name, start, found, wanted):
        told(f"{name}: it answers as it has to", found == wanted, f"status {found[1]}, {first_other(found[0], wanted[0])}")
        told(f"{name}: its record makes the file", self.bench.makes(start, self.bench.file.read_bytes()))

    def syncs(self, name, start, entries, kinds):
        """Some syncs of each of these kinds. Each other sync has to be of nothing."""
        numbers, moment = collections.defaultdict(list), cuts.begun(start)
        for entry in entries:
            if entry.kind in "SD":
                kind = sync_of(entry, moment)
                if kind not in (RECORD_GATE, OPEN_GATE) or settles_an_answer(entries, moment.number):
                    numbers[kind].append(moment.number)
            moment = cuts.after(moment, entry)
        told(f"{name}: it syncs what it has to", set(numbers) | {NOTHING} == kinds | {NOTHING}, f"syncs of {sorted(numbers)}")
        chance, most = self.judge.chance(name, "syncs"), 3 if self.judge.step > 1 else 25
        return {kind: chance.sample(numbers[kind], min(most, len(numbers[kind]))) for kind in sorted(kinds)}

    def run(self, name, start, layout, count, most=1, is_whole=True):
        """A run with random changes over a file, and unless it is a short one, its syncs left out."""
        files = self.reader.read(start).files
        talk = Talk(layout, files, self.changes(name, layout, files, count), most, self.judge.chance(name, "batches"))
        self.bench.lay(start)
        self.is_recorded(name, start, self.bench.talk(self.bench.run(self.bench.file), talk.batches), (talk.answers, 0))
        entries = self.bench.entries()
        answered = answered_by(entries)
        kinds = {RECORD, RECORD_GATE, CLOSED_GATE, IMAGE, OPEN_GATE}
        syncs = self.syncs(name, start, entries, kinds) if is_whole else {}
        return Scenario(name, start, entries, lambda number: talk.allowed(answered[number]), cuts.ANY, syncs, set(), 0)

    def wrapper(self, name, count):
        """A till of a wrapper that creates its file. Before its first answer the file is there whole or not at all."""
        talk = Talk(1, (), self.changes(name, 1, (), count))
        self.bench.lay(None)
        self.is_recorded(name, None, self.bench.talk(self.bench.wrapper(), talk.batches), (talk.answers, 0))
        entries = self.bench.entries()
        answered = answered_by(entries)
        syncs = self.syncs(name, None, entries, {RECORD, RECORD_GATE, CLOSED_GATE, IMAGE, OPEN_GATE, LENGTH, FIRST_IMAGE, FOLDER})
        return Scenario(name, None, entries, lambda number: talk.allowed(answered[number]) if answered[number] else [reader.ABSENT, NO_FILES],
                        cuts.ANY, syncs, {LENGTH, FIRST_IMAGE}, 0)

    def killed(self, name, words, start, layout, stop, script, count):
        """A till with the changes of a script that is killed after a write, and another one over what it finds then.
        Its opening makes stay what it finds."""
        files = self.reader.read(start).files if start is not None else ()
        one = Talk(layout, files, self.changes(script, layout, files, count))
        self.bench.lay(start)
        answers, status = self.bench.talk(words, one.batches, stop)
        begun, seen = len(self.bench.entries()), self.reader.read(self.bench.file.read_bytes())
        before = one.allowed(len(answers)) if start is not None else [reader.ABSENT, NO_FILES]
        told(f"{name}: it is killed after a change that isn't answered", status == -9 and outcome(seen) in before[1:],
             f"status {status}, {tell(outcome(seen))}")
        other = Talk(layout, seen.files, self.changes(name + " again", layout, seen.files, 3))
        self.is_recorded(name, start, self.bench.talk(words, other.batches), (other.answers, 0))
        entries = self.bench.entries()
        was_answered, is_answered = answered_by(entries[:begun]), answered_by(entries[begun:])

        def allowed(number):
            if number <= begun and start is not None:
                return one.allowed(was_answered[number])
            if number <= begun or is_answered[number - begun] < (len(changes.BEGIN) if start is not None else 1):
                return before
            return other.allowed(is_answered[number - begun])

        kind = "S" if start is not None else "D"
        opening = next((number for number in range(begun, len(entries)) if entries[number].kind == kind), None)
        syncs = {OPENING: [] if opening is None else [opening]}
        return Scenario(name, start, entries, allowed, cuts.ANY, syncs, set(), begun)

    def faulted(self, name, start, layout, fault, script, count):
        """A run with the changes of a script in which the disk fails, and another one over what it finds then. The
        change in which it fails is in the file whole or not at all. No later one is done, and the disk is asked nothing
        more until the totals are enabled anew. That syncs the file, and is in vain for good once a sync has failed."""
        at, is_sync, times = fault
        files = self.reader.read(start).files
        one = Talk(layout, files, self.changes(script, layout, files, count))
        self.bench.lay(start)
        batches = [*one.batches, *([line] for line in AGAIN * TURNS), [LAST]]
        answers, status = self.bench.talk(self.bench.run(self.bench.file), batches, fault=(at, times))
        changed, again = answers[:len(one.answers)], answers[len(one.answers):]
        done = next((place for place, pair in enumerate(zip(changed, one.answers)) if pair[0] != pair[1]), len(changed))
        entries = self.bench.entries()
        begun, was_answered = len(entries), answered_by(entries)
        told(f"{name}: a line fails, and all behind it", status == 0 and changed[done:done + 1] == ["err 111"]
             and len(changed) == len(one.answers) and all(answer in ("err 111", "err 105") for answer in changed[done:]),
             f"status {status}, {changed[done:done + 5]}")
        told(f"{name}: the disk is asked nothing more", all(
            entry.kind == "A" for number, entry in enumerate(entries) if done < was_answered[number] < len(one.answers)))
        seen = self.reader.read(self.bench.file.read_bytes())
        told(f"{name}: the change is there whole or not at all", outcome(seen) in one.allowed(done), tell(outcome(seen)))
        is_lost = is_sync or times != 1
        wanted = ["ok", "err 111" if is_lost else "ok"] * TURNS + ["err 105" if is_lost else f"ok {len(seen.files)}"]
        told(f"{name}: the totals are enabled anew", again == wanted, again)
        other = Talk(layout, seen.files, self.changes(name + " again", layout, seen.files, 3))
        self.is_recorded(name, start, self.bench.talk(self.bench.run(self.bench.file), other.batches), (other.answers, 0))
        entries = self.bench.entries()
        is_answered = answered_by(entries[begun:])

        def allowed(number):
            if number <= begun or is_answered[number - begun] < len(changes.BEGIN):
                return one.allowed(min(was_answered[min(number, begun)], done))
            return other.allowed(is_answered[number - begun])

        # The moments before the fault are another scenario's.
        first = next(number for number in range(begun + 1) if was_answered[number] >= max(done - 1, 0))
        return Scenario(name, start, entries, allowed, cuts.ANY, {}, set(), first)

    def faulted_move(self, name, start, fault):
        """A move in which the disk fails, and another one over what it left."""
        files = self.reader.read(start).files
        self.bench.lay(start)
        _, status = self.bench.talk(self.bench.verb("migrate"), fault=fault)
        seen, is_moved = self.reader.read(self.bench.file.read_bytes()), (2, files)
        told(f"{name}: it fails, and keeps the files", status == 4 and outcome(seen) in [(1, files), is_moved], f"status {status}")
        _, status = self.bench.talk(self.bench.verb("migrate"))
        told(f"{name}: the next one moves them, or they were", status == (4 if outcome(seen) == is_moved else 0), f"status {status}")
        told(f"{name}: they are moved", outcome(self.reader.read(self.bench.file.read_bytes())) == is_moved)
        return Scenario(name, start, self.bench.entries(), lambda _: [(1, files), is_moved], cuts.ANY, {}, set(), 0)

    def command(self, name, start, verb, before, behind, ways, kinds, harmless=()):
        """A command that does one thing: what has to be found before it ends well, and then."""
        self.bench.lay(start)
        self.is_recorded(name, start, self.bench.talk(self.bench.verb(verb)), ([], 0))
        entries = [*self.bench.entries(), cuts.Entry("X", 0, b"")]
        syncs = self.syncs(name, start, entries, kinds)
        return Scenario(name, start, entries, lambda number: behind if number == len(entries) else before, ways, syncs, harmless, 0)

    def format(self, name, start):
        kinds = {ALL_GATES, FIRST_IMAGE, OPEN_GATE}
        kinds |= {FOLDER} if start is None else set()
        kinds |= {LENGTH} if len(start or b"") < reader.LENGTH else set()
        return self.command(name, start, "format", UNMADE, [NO_FILES], cuts.OLD_OR_NEW, kinds, {ALL_GATES, LENGTH})

    def migrate(self, name, start):
        files = self.reader.read(start).files
        return self.command(name, start, "migrate", [(1, files), (2, files)], [(2, files)], cuts.ANY, {IMAGE, OPEN_GATE})


# Noise half of whose bytes are open gates.
GATED = bytes(byte if byte % 2 else reader.OPEN for byte in range(256))


def noise_around(chance, image):
    """A file with the same totals, and noise wherever docs/reference/totals-file.md lets any bytes stand."""
    found, noise = reader.Reader().read(image), bytearray(chance.randbytes(len(image)).translate(GATED))
    starts, size, _, log, _, _ = reader.LAYOUTS[found.layout]
    slot, length = found.slot, int.from_bytes(image[found.slot + 9:found.slot + 13], "big")
    tail = slot + size - 6 - found.room
    noise[slot:slot + 13 + length], noise[slot + log:tail] = image[slot:slot + 13 + length], image[slot + log:tail]
    noise[tail] = 0
    return bytes(close_others(noise, slot))


def close_others(image, slot=None):
    for layout in reader.LAYOUTS.values():
        for at in layout[0]:
            image[at] = image[at] if at == slot else 7
    return image


def gate_writes(entries):
    """The numbers of the writes that open a gate, counted from 1, but those of the first lines."""
    writes = [entry for entry in entries if entry.kind == "W"]
    return [number for number, entry in enumerate(writes, 1) if entry.text == b"\xa5"]


def faults(chance, entries):
    """Faults of the disk at what a change does in turn: for each kind of sync, the sync fails; the write before it
    does; and that write with one or two acts behind it, or all."""
    acts, places, moment = 0, collections.defaultdict(list), cuts.begun(b"")
    for entry in entries:
        if entry.kind in "WS":
            acts += 1
        if entry.kind == "S":
            places[sync_of(entry, moment)].append(acts)
        moment = cuts.after(moment, entry)
    for kind in (RECORD, RECORD_GATE, CLOSED_GATE, IMAGE, OPEN_GATE):
        for is_sync, times in ((True, 1), (False, 1), (False, chance.choice([2, 3, -1]))):
            what = f"the {'sync' if is_sync else 'write'} of {kind}, {'for good' if times < 0 else times}"
            yield what, (chance.choice(places[kind]) - (not is_sync), is_sync, times)


def fault_all(judge, recorder, one, start, layout, looks):
    """Has the disk fail in the changes of a run."""
    for name, fault in faults(judge.chance("faults", layout), one.entries):
        name = f"layout {layout}, a fault at {name}"
        judge.try_all(recorder.faulted(name, start, layout, fault, one.name, 420), 60, looks)


def format_all(judge, recorder, looks):
    noise = close_others(bytearray(judge.chance("noise").randbytes(reader.LENGTH + 5000).translate(GATED)))
    for name, start in (("no file", None), ("an empty file", b""), ("a short file", bytes(noise[:70000])),
                        ("zero bytes", bytes(reader.LENGTH)), ("noise", bytes(noise))):
        judge.try_all(recorder.format(f"format over {name}", start), 150, looks)


def go_on(judge, recorder, name, kept, layout, looks):
    """Goes on from files that a cut left: what a torn write left behind the tail must never count."""
    for number in range(6):
        image = kept[number][0]
        judge.try_all(recorder.run(f"{name} {number + 1}", image, layout, 12, is_whole=False), 60, looks)


def migrate_all(judge, recorder, starts, looks):
    for name, start in starts:
        kept = judge.try_all(recorder.migrate(f"migrate over {name}", start), 200, looks)
        kept = [image for image, found in kept if found.layout == 1]
        for number in range(2):
            judge.try_all(recorder.migrate(f"migrate over {name}, cut and done again {number + 1}", kept[number]), 100, looks)


def try_scenarios(judge, recorder, looks):
    bench = recorder.bench
    format_all(judge, recorder, looks)
    new = bench.file.read_bytes()[:reader.LENGTH]
    one = recorder.run("run by layout 1", new, 1, 420)
    kept = judge.try_all(one, 60, looks)
    old = bench.file.read_bytes()
    go_on(judge, recorder, "run over what a cut left", kept, 1, looks)
    judge.try_all(recorder.run("run over noise", noise_around(judge.chance("around"), old), 1, 420), 60, looks)
    judge.try_all(recorder.run("run in batches", old, 1, 150, 5, is_whole=False), 60, looks)
    for number, stop in enumerate(judge.chance("kills").sample(gate_writes(one.entries), 8)):
        judge.try_all(recorder.killed(f"run that is killed {number + 1}", bench.run(bench.file), new, 1, stop, one.name, 420), 60, looks)
    fault_all(judge, recorder, one, new, 1, looks)
    for fault in ((2, -1), (3, 1), (5, 1), (7, 2), (7, -1), (8, 1)):
        judge.try_all(recorder.faulted_move(f"a move with a fault at act {fault}", old, fault), 60, looks)
    migrate_all(judge, recorder, (("no files", new), ("files", old), ("files before noise", noise_around(judge.chance("before"), old))), looks)
    moved = bench.file.read_bytes()
    two = recorder.run("run by layout 2", moved, 2, 420)
    kept = judge.try_all(two, 60, looks)
    fault_all(judge, recorder, two, moved, 2, looks)
    go_on(judge, recorder, "run by layout 2 over what a cut left", kept, 2, looks)
    judge.try_all(recorder.wrapper("a till in Python", 420), 60, looks)
    judge.try_all(recorder.killed("a till in Python that is killed", bench.wrapper(), None, 1, -1, "killed", 5), 60, looks)


def main():
    folder, step, seed, program, library = sys.argv[1], int(sys.argv[2]), sys.argv[3], sys.argv[4], sys.argv[5]
    bench = Bench(folder, program, library)
    judge = Judge(bench, step, seed)
    try:
        try_scenarios(judge, Recorder(bench, judge), 0.01 if step == 1 else 0.03)
    except Exception:
        told("it goes on to its end", False, traceback.format_exc())
    print(f"{judge.states} files at {judge.moments} moments, {judge.loose} of them with something to lose; {len(judge.distinct)} files differ; "
          f"{judge.looks} were read by the program too; {judge.left_out} syncs were left out")
    told("as many files as there have to be", judge.states >= 100000 / step and len(judge.distinct) >= 80000 / step)
    told("as many moments with something to lose", judge.loose >= 2500)
    told("as many readings by the program", judge.looks >= (1000 if step == 1 else 250))
    told("as many syncs left out", judge.left_out >= 60)
    print(f"{passed} passed, {failed} failed")
    sys.exit(failed > 0)


if __name__ == "__main__":
    main()
