"""What every emulated device has: its cable, its plug, and a thread that does what it is sent."""
import contextlib
import os
import select
import threading
import time

# The commands that devices got and didn't know, with the kinds of the devices, until somebody takes them.
_unknown = []


def take_unknown():
    """Returns the commands that the devices that have ended didn't know, with their kinds, and forgets them."""
    found, _unknown[:] = list(_unknown), []
    return found


class Device:
    """A device on a cable. Its methods may be called in any thread; `with device:` switches it on and ends it.

    Attributes:
        unknown: The commands that it didn't know. A host has sent them, so that they are its fault. No fault is what a
            loss of power has left of a command, and what a host had begun before it began the connection again.
    """

    #: How many bytes it takes before it has worked off what came before.
    ROOM = 4096
    #: Which bytes may end a command that was cut off where a host begins the connection again, and come behind it.
    CUTS = FILLS = b"\0"

    def __init__(self, cable):
        self.cable = cable
        self.lock = threading.RLock()
        self.is_on = False
        #: The device does nothing and answers nothing, but keeps what it got.
        self.is_hung = False
        #: The device works, but what it answers is lost.
        self.is_mute = False
        #: How long a line takes, in seconds.
        self.line_time = 0.0
        #: How many bytes it has worked off.
        self.worked = 0
        self._ready_at = 0.0
        self._got, self._sends = bytearray(), bytearray()
        # What an adapter in its cable keeps for it.
        self._kept = bytearray()
        self._triggers = []
        self.unknown = []
        # Whether it got all since the connection began, and unknown commands that the host may have cut off.
        self._is_whole, self._doubtful = False, []
        self._is_ending = False
        self._thread = None
        self._wakes, self._waker = os.pipe()
        os.set_blocking(self._waker, False)
        os.set_blocking(self._wakes, False)

    @property
    def path(self):
        """The port that a driver opens."""
        return self.cable.path

    def __enter__(self):
        self.plug_in()
        self._thread = threading.Thread(target=self._run, daemon=True)
        self._thread.start()
        return self

    def __exit__(self, *_):
        with self.lock:
            self._is_ending = True
        self._wake()
        self._thread.join()
        self.cable.pull_out(is_forever=True)
        os.close(self._wakes)
        os.close(self._waker)
        self._counts_doubtful()
        _unknown.extend((type(self).__name__, command.hex(" ")) for command in self.unknown)

    # What happens to it.

    def plug_in(self):
        """Switches the device on."""
        with self.lock:
            if not self.is_on:
                self.is_on = True
                self.cable.plug_in()
                self.started()
        self._wake()

    def pull_plug(self):
        """Takes its power: what it had got and not worked off is lost. What it sent reaches the host."""
        with self.lock:
            self._flush()
            self.cable.settle()
            self.is_on, self._ready_at = False, 0.0
            self._got.clear()
            self._sends.clear()
            self._misses()
            self.forget()
            self.cable.pull_out()
        self._wake()

    def blink(self, count):
        """Takes its power for a moment: so many bytes of what it had got and not worked off are lost."""
        with self.lock:
            self._flush()
            del self._got[:count]
            self._sends.clear()
            self._misses()
            self.forget()

    def hang(self, is_hung=True):
        """Makes the device silent: it does nothing, answers nothing, and keeps what it got. Or lets it go on."""
        with self.lock:
            self.is_hung = is_hung
            if not is_hung:
                self.goes_on()
        self._wake()

    def mute(self, is_mute=True):
        """Loses what the device answers, while it works. Or ends that."""
        with self.lock:
            self._flush()
            self.is_mute = is_mute
            self._sends.clear()

    def slow(self, line_time):
        """Makes each line take so many seconds."""
        with self.lock:
            self.line_time = line_time

    def pauses(self, seconds):
        """Works nothing off for so many seconds, or until its power is taken. It says how it is all the same."""
        with self.lock:
            self._ready_at = time.monotonic() + seconds

    def garbage(self, data):
        """Sends bytes that mean nothing."""
        with self.lock:
            self._sends += data
        self._wake()

    def after(self, count, *actions):
        """Does something once the device has worked off so many more bytes."""
        with self.lock:
            self._triggers.append((self.worked + count, actions))
            self._triggers.sort(key=lambda trigger: trigger[0])

    def clear_triggers(self):
        """Forgets what `after` was to do."""
        with self.lock:
            self._triggers.clear()

    @property
    def is_idle(self):
        """Whether it has worked off all that it got, and nothing is on its cable that it would take."""
        with self.lock:
            return not self._got and not (self.is_on and self.may_hear() and (self._kept or self.cable.waiting()))

    def wait(self, condition, seconds=5.0):
        """Waits until a condition holds, and says whether it does."""
        end = time.monotonic() + seconds
        while True:
            with self.lock:
                if condition():
                    return True
            if time.monotonic() > end:
                return False
            time.sleep(0.001)

    # What a kind of device does.

    def started(self):
        """It was switched on."""

    def forget(self):
        """What it forgets without power."""

    def goes_on(self):
        """It was silent, and goes on."""

    def arrives(self, data):
        """Bytes arrive: gives those that wait for their turn."""
        return data

    def may_work(self):
        """Whether it works off what it got."""
        return True

    def may_hear(self):
        """Whether it takes bytes from its cable. One on a cable that holds them takes none without power."""
        return self.is_on or not self.cable.holds

    def takes(self, byte):
        """Works off a byte."""
        raise NotImplementedError

    def is_start(self, command):
        """Whether a host begins a connection with it."""
        return False

    def says_unknown(self, command):
        """It doesn't know a command."""

    # Commands that it doesn't know.

    def meets(self, command, is_known):
        """Notes a command that it has worked off, if it doesn't know it."""
        if self.is_start(command):
            self._is_whole, self._doubtful = True, []
        elif not is_known and self._is_whole:
            self._doubtful.append(command)
            if not any(byte in self.CUTS for byte in command[1:]):
                self._counts_doubtful()
        elif command not in self.FILLS:
            self._counts_doubtful()

    def _counts_doubtful(self):
        """The host hasn't begun the connection again: it has sent what the device doesn't know."""
        self.unknown += self._doubtful
        for command in self._doubtful:
            self.says_unknown(command)
        self._doubtful = []

    def _misses(self):
        """What comes next may be the rest of a command."""
        self._is_whole, self._doubtful = False, []

    # The thread.

    def _count_room(self):
        """How many bytes are taken from its cable now: by an adapter in that, or by the device."""
        if self.cable.keeps:
            return self.cable.keeps - len(self._kept)
        return self.ROOM - len(self._got) if self.may_hear() else 0

    def _hears(self, found):
        """Bytes have come over its cable. One without power loses what no adapter keeps."""
        if self.cable.keeps:
            self._kept += found
        elif self.is_on and found:
            self._got += self.arrives(found)

    def _hears_kept(self):
        """Gets what an adapter has for it, as far as there is room. Returns whether it got anything, which is still to
        be worked off."""
        room = self.ROOM - len(self._got) if self.is_on and self.may_hear() else 0
        kept = bytes(self._kept[:max(room, 0)])
        del self._kept[:len(kept)]
        self._got += self.arrives(kept)
        return bool(kept)

    def send(self, data):
        """Sends an answer."""
        if not (self.is_hung or self.is_mute):
            self._sends += data

    def line_done(self):
        """A line was worked off: the next byte waits for as long as a line takes."""
        if self.line_time:
            self._ready_at = time.monotonic() + self.line_time

    def _wake(self):
        with contextlib.suppress(BlockingIOError):
            os.write(self._waker, b"x")

    def _flush(self):
        """Sends what there is room for."""
        if self._sends and self.is_on:
            del self._sends[:self.cable.write(bytes(self._sends))]

    def _works(self):
        """Works off what it may, and gives the seconds after which it goes on, or None."""
        while self.is_on and not self.is_hung and self._got and self.may_work():
            left = self._ready_at - time.monotonic()
            if left > 0:
                return left
            byte = self._got[0]
            if not self.takes(byte):
                return None
            del self._got[:1]
            self.worked += 1
            self._flush()
            while self._triggers and self._triggers[0][0] <= self.worked:
                for action in self._triggers.pop(0)[1]:
                    action()
        return None

    def _run(self):
        while True:
            with self.lock:
                if self._is_ending:
                    return
                pause = self._works()
                # There is room now for more of what an adapter has.
                if self._hears_kept():
                    continue
                self._flush()
                if self._sends:
                    pause = 0.001
                files = [self._wakes]
                if self._count_room() > 0:
                    files += self.cable.files()
            try:
                ready = select.select(files, [], [], pause)[0]
            except (OSError, ValueError):
                # The cable was pulled out meanwhile.
                continue
            if self._wakes in ready:
                with contextlib.suppress(BlockingIOError):
                    os.read(self._wakes, 4096)
            with self.lock:
                room = self._count_room()
                if room > 0:
                    self._hears(self.cable.read(room))
