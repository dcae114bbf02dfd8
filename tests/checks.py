"""What the tests that take time have in common: their checks are counted, each has a folder of its own, and a test is
repeated if the machine stood still during it.

Usage: checks.py COMMAND [WORD ..] runs a command, again if it fails while the machine stands still, and ends with its
status. It prints what the last turn printed, and on standard error what the others did.
"""
import collections
import contextlib
import os
import pathlib
import select
import shutil
import subprocess
import sys
import tempfile
import threading
import time
import traceback

from emulator import take_unknown

# How often it is looked whether this machine goes on, and how often, in such looks, whether each thread does, which
# costs more; how many of those count together, which is half a second; and for how long of that something didn't go on
# if the machine stood still, in seconds.
OFTEN, RARELY, LOOKS, LONG = 0.05, 3, 5, 0.1
# How often a test is run at most, and for how long a machine is waited for that is busy, before the second turn, in
# seconds: before the third twice as long, and so on.
TURNS, PATIENCE = 5, 15
# How long what a test has begun is waited for once it has ended, in seconds.
LEFT = 60
# The file to which a line is written for each time that a test runs again, if a script has named one.
COUNTED = os.environ.get("KIJOLVAR_RUNS_AGAIN")


def read(path):
    with open(path, "rb", buffering=0) as file:
        return file.read(65536)


def read_waits(top):
    """How long each thread of a process, and of those that it began, has waited for a processor so far, and how long
    each processor has waited for the machine that this one runs on, by a name of each, in seconds."""
    found, processes = {}, [str(top)]
    for process in processes:
        try:
            threads = os.listdir(f"/proc/{process}/task") if process != str(os.getpid()) else []
        except OSError:
            continue
        for thread in threads:
            place = f"/proc/{process}/task/{thread}"
            try:
                found[place] = int(read(f"{place}/schedstat").split()[1]) / 1e9
                processes += read(f"{place}/children").decode().split()
            except (OSError, IndexError):
                # It has ended meanwhile.
                continue
    for line in read("/proc/stat").decode().splitlines():
        name, *times = line.split()
        if name[:3] == "cpu" and name != "cpu" and len(times) > 7:
            found[name] = int(times[7]) / os.sysconf("SC_CLK_TCK")
    return found


def watch(top):
    """Looks whether the machine goes on for a process. For each line of standard input it prints for how much of half a
    second it stood still, at most, since the last one: for its threads together, for a processor, or for this
    process."""
    late, longest, left, looks = 0.0, 0.0, 0, collections.deque(maxlen=LOOKS)
    before, worked = time.monotonic(), time.thread_time()
    while True:
        is_asked = bool(select.select([sys.stdin], [], [], OFTEN)[0])
        now, works = time.monotonic(), time.thread_time()
        # Not only the wait may have been longer: this may have stood still anywhere.
        late += max(now - before - OFTEN - (works - worked), 0.0)
        before, worked = now, works
        left -= 1
        if left <= 0 or is_asked:
            left = RARELY
            looks.append(read_waits(top) | {"late": late})
            waits = {name: waited - looks[0].get(name, 0.0) for name, waited in looks[-1].items()}
            # What goes from one thread to the next waits for each.
            threads = sum(waits.pop(name) for name in list(waits) if name.startswith("/proc/"))
            longest = max(longest, threads, *waits.values())
        if is_asked:
            if not sys.stdin.readline():
                return
            print(longest, flush=True)
            longest = 0.0


def is_calm():
    """Whether this thread gets a processor nearly all the time."""
    began, worked = time.monotonic(), time.thread_time()
    while time.monotonic() < began + 0.2:
        pass
    return time.thread_time() - worked > 0.8 * (time.monotonic() - began)


class Watch:
    """Looks whether the machine goes on, in a process of its own.

    It stands still for threads that can run and don't: as others have the processors, as the machine that this one runs
    on has them, or as all stands still.
    """

    def __init__(self):
        pipes = {"stdin": subprocess.PIPE, "stdout": subprocess.PIPE, "text": True}
        self._process = subprocess.Popen([sys.executable, __file__, "--watch", str(os.getpid())], **pipes)

    def longest(self):
        """For how much of half a second it stood still, at most, since this was asked last."""
        self._process.stdin.write("\n")
        self._process.stdin.flush()
        return float(self._process.stdout.readline())

    def end(self):
        """Ends it. A process that was forked may have its pipes still."""
        self._process.kill()
        self._process.communicate()


def tell(name, longest, turn):
    """Says that a test runs again after this turn, and waits a while for a machine that is busy."""
    print(f"{name}: the machine stood still for {longest:.1f} s, so it runs again", flush=True)
    if COUNTED:
        with open(COUNTED, "a", encoding="utf-8") as file:
            file.write(f"{name}\n")
    end = time.monotonic() + PATIENCE * turn
    while not is_calm() and time.monotonic() < end:
        time.sleep(1.0)


class Checks:
    """How many checks passed and failed.

    An order fails if its printer doesn't answer in time. The emulated one doesn't if the machine stands still, and no
    test can tell that from a fault. So a test that fails is run again if the machine stood still meanwhile. What it
    found is printed each time, and the last time alone counts, with what its threads and its devices found. The line
    before the last says how often a test ran again.

    Attributes:
        work: A folder for the files of the test that runs.
    """

    def __init__(self):
        self.passed = self.failed = self._again = 0
        # What the emulated devices didn't know, with the tests that sent it. Without a test there are no such devices.
        self._unknown, self._has_run = [], False
        self._room = self.work = pathlib.Path(tempfile.mkdtemp())
        self._watch = Watch()

    def told(self, name, wanted, found):
        """Whether two values are the same."""
        if wanted == found:
            self.passed += 1
        else:
            self.failed += 1
            print(f"failed: {name}\n  wanted: {wanted!r}\n  found:  {found!r}", flush=True)

    def run(self, test, give_time=None):
        """Runs a test, again if it fails while the machine stands still. Before that `give_time` is called, if it is
        given."""
        self._has_run = True
        for turn in range(1, TURNS + 1):
            before, others = (self.passed, self.failed), set(threading.enumerate())
            self._watch.longest()
            self.work = pathlib.Path(tempfile.mkdtemp(dir=self._room))
            try:
                test()
            except Exception as fault:
                traceback.print_exc(file=sys.stdout)
                self.told(f"{test.__name__} ends well", None, fault)
            for thread in set(threading.enumerate()) - others:
                thread.join(LEFT)
            unknown = [(test.__name__, *found) for found in take_unknown()]
            longest = self._watch.longest()
            is_good = self.failed == before[1] and not unknown
            if is_good or longest < LONG or turn == TURNS:
                self._unknown += unknown
                return
            self.passed, self.failed = before
            self._again += 1
            tell(test.__name__, longest, turn)
            if give_time is not None:
                give_time()

    def end(self):
        """Tells how many there were, and ends the program. Without any it fails."""
        self._watch.end()
        shutil.rmtree(self._room)
        if not self.passed and not self.failed:
            self.told("a test has the word of --only", True, False)
        if self._has_run:
            self.told("the emulated devices know each command", [], self._unknown[:5])
            print(f"{self._again} runs again")
        print(f"{self.passed} passed, {self.failed} failed")
        sys.exit(self.failed != 0)


def main(words):
    watching = Watch()
    for turn in range(1, TURNS + 1):
        watching.longest()
        ended = subprocess.run(words, stdout=subprocess.PIPE, stderr=subprocess.STDOUT)
        longest = watching.longest()
        if ended.returncode == 0 or longest < LONG or turn == TURNS:
            break
        sys.stderr.buffer.write(ended.stdout)
        with contextlib.redirect_stdout(sys.stderr):
            tell(" ".join(words)[:80], longest, turn)
    watching.end()
    sys.stdout.buffer.write(ended.stdout)
    sys.exit(ended.returncode)


if __name__ == "__main__":
    if sys.argv[1:2] == ["--watch"]:
        watch(int(sys.argv[2]))
    else:
        main(sys.argv[1:])
