"""What an emulated device is plugged into: a pseudo terminal with a name of its own, or a TCP port."""
import contextlib
import errno
import fcntl
import os
import socket
import struct
import termios
import time
import tty


def count_unread(file):
    """How many bytes have come to a file that nobody has read."""
    try:
        return int.from_bytes(fcntl.ioctl(file, termios.FIONREAD, bytes(4)), "little")
    except OSError:
        return 0


class PtyCable:
    """A pseudo terminal. `path` is a symbolic link to it, which is there only while the device is on, as that of a USB
    printer. With `hangs_up` false it is a serial line: it stays when the device goes off, and nothing answers. With
    `holds` it is one with RTS/CTS: what is sent waits while the device is off or offline. An adapter in it has up to
    `keeps` bytes of that, which the host can't drop any more."""

    def __init__(self, path, hangs_up=True, holds=False, keeps=0):
        self.path, self.hangs_up, self.holds = os.fspath(path), hangs_up and not holds, holds
        self.keeps = keeps
        self._master = self._slave = None

    def plug_in(self):
        if self._master is not None:
            return
        self._master, self._slave = os.openpty()
        tty.setraw(self._slave)
        os.set_blocking(self._master, False)
        made = f"{self.path}.new"
        with contextlib.suppress(FileNotFoundError):
            os.unlink(made)
        os.symlink(os.ttyname(self._slave), made)
        os.replace(made, self.path)

    def pull_out(self, is_forever=False):
        if self._master is None or not (self.hangs_up or is_forever):
            return
        with contextlib.suppress(FileNotFoundError):
            os.unlink(self.path)
        os.close(self._slave)
        os.close(self._master)
        self._master = self._slave = None

    def settle(self, seconds=3.0):
        """Waits until the host has read what was sent, as it would over a wire, but not longer than this."""
        end, quiet = time.monotonic() + seconds, 0
        while self._slave is not None and time.monotonic() < end and quiet < 60:
            # What was written takes a moment until it counts as there to be read, and longer on a busy machine.
            time.sleep(0.001)
            quiet = 0 if count_unread(self._slave) else quiet + 1

    def waiting(self):
        """How many bytes the host has sent that weren't read."""
        return 0 if self._master is None else count_unread(self._master)

    def unread(self):
        """How many bytes the host hasn't read."""
        return 0 if self._slave is None else count_unread(self._slave)

    def files(self):
        """The files to wait for bytes of."""
        return [] if self._master is None else [self._master]

    def read(self, size):
        """What has come, at most so many bytes."""
        if self._master is None:
            return b""
        try:
            return os.read(self._master, size)
        except (BlockingIOError, InterruptedError):
            return b""
        except OSError as fault:
            if fault.errno != errno.EIO:
                raise
            return b""

    def write(self, data):
        """Sends what there is room for, and returns how many bytes that was."""
        if self._master is None:
            return len(data)
        try:
            return os.write(self._master, data)
        except BlockingIOError:
            return 0


class TcpCable:
    """A TCP port of this machine, as a network printer's 9100. One host is connected at a time. With `hangs_up` false
    it is that of a print server: it stays when the device goes off, and nothing answers."""

    holds, keeps = False, 0

    def __init__(self, port=0, hangs_up=True):
        self.hangs_up = hangs_up
        self._port, self._listener, self._host = port, None, None

    @property
    def path(self):
        return f"tcp://127.0.0.1:{self._port}"

    def plug_in(self):
        if self._listener is None:
            self._listener = socket.create_server(("127.0.0.1", self._port), reuse_port=False)
            self._listener.setblocking(False)
            self._port = self._listener.getsockname()[1]

    def pull_out(self, is_forever=False):
        if not (self.hangs_up or is_forever):
            return
        self.drop()
        if self._listener is not None:
            # The device's thread may be waiting for it. A close alone would then keep the port until that thread goes
            # on.
            self._listener.shutdown(socket.SHUT_RDWR)
            self._listener.close()
            self._listener = None

    def settle(self, seconds=1.0):
        """Waits until what was sent has arrived, but not longer than this. What the host has sent is dropped: it would
        end the connection at once."""
        self._arrives(seconds)
        with contextlib.suppress(OSError, AttributeError):
            while self._host.recv(65536):
                pass

    def _arrives(self, seconds=1.0):
        """Waits until what was sent has arrived: the system has sent only a part of it as long as nothing is said of
        that."""
        end = time.monotonic() + seconds
        # TypeError: no host has connected.
        with contextlib.suppress(OSError, TypeError):
            while fcntl.ioctl(self._host, termios.TIOCOUTQ, bytes(4)) != bytes(4) and time.monotonic() < end:
                time.sleep(0.001)

    def waiting(self):
        return 0 if self._host is None else count_unread(self._host)

    def reset(self):
        """Ends the connection so that what the host sends from now on fails. What it was sent before arrives."""
        self._arrives()
        self._host.setsockopt(socket.SOL_SOCKET, socket.SO_LINGER, struct.pack("ii", 1, 0))
        self.drop()

    def drop(self):
        """Ends the connection; the device goes on."""
        if self._host is not None:
            # As with the listener, a close alone might come later.
            with contextlib.suppress(OSError):
                self._host.shutdown(socket.SHUT_RDWR)
            self._host.close()
            self._host = None

    def files(self):
        return [file for file in (self._listener, self._host) if file is not None]

    def read(self, size):
        self._accept()
        if self._host is None:
            return b""
        try:
            found = self._host.recv(size)
        except (BlockingIOError, InterruptedError):
            return b""
        except ConnectionError:
            found = b""
        if not found:
            self.drop()
        return found

    def _accept(self):
        if self._listener is not None:
            with contextlib.suppress(BlockingIOError):
                host, _ = self._listener.accept()
                self.drop()
                host.setblocking(False)
                host.setsockopt(socket.IPPROTO_TCP, socket.TCP_NODELAY, 1)
                self._host = host

    def write(self, data):
        if self._host is None:
            return len(data)
        try:
            return self._host.send(data)
        except (BlockingIOError, InterruptedError):
            return 0
        except ConnectionError:
            self.drop()
            return len(data)


class SilentHost:
    """A TCP port of this machine that says nothing to who connects to it, as a host that is off, since its queue is
    full. `answers` empties the queue."""

    def __init__(self):
        self._listener, self._queue = socket.socket(), []
        self._listener.bind(("127.0.0.1", 0))
        self._listener.listen(0)
        self._listener.setblocking(False)
        self.address = self._listener.getsockname()
        with contextlib.suppress(TimeoutError):
            while True:
                self._queue.append(socket.create_connection(self.address, timeout=0.5))

    @property
    def path(self):
        return f"tcp://127.0.0.1:{self.address[1]}"

    def answers(self):
        """Has it answer who connects from now on."""
        self._listener.listen(64)
        with contextlib.suppress(BlockingIOError):
            while True:
                self._queue.append(self._listener.accept()[0])

    def __enter__(self):
        return self

    def __exit__(self, *_):
        for one in (self._listener, *self._queue):
            one.close()
