"""Files of totals: opening, creating and copying them, with a lock against every other till."""
from __future__ import annotations

import contextlib
import ctypes
import errno
import fcntl
import os
from collections.abc import Iterator
from typing import BinaryIO, Literal

from ._constants import KIJOLVAR_DISK_LENGTH
from ._faults import DamagedError, FormattedError, MovedError, TooSmallError, UnformattedError
from ._library import Path
from ._session import Session, read_whole, write_whole

# How often a file is opened whose name another program gives to another file meanwhile, and how often one is read again
# that changes from one reading to the next.
_TRIES, _READINGS = 10, 1000
# The highest number of a standard stream.
LAST_STREAM = 2


def off_streams(file: int) -> int:
    """Gives an open file a number behind those of the standard streams. A program that has closed one of these, and
    writes to it all the same, would write into the file."""
    if file > LAST_STREAM:
        return file
    try:
        return fcntl.fcntl(file, fcntl.F_DUPFD_CLOEXEC, LAST_STREAM + 1)
    finally:
        os.close(file)


@contextlib.contextmanager
def naming(path: str) -> Iterator[None]:
    """A block whose faults name the file of totals: what the system refuses, and what the library says of the file."""
    try:
        yield
    except OSError as fault:
        named = OSError(fault.errno, fault.strerror, path)
        # What a signal's handler raises may have no number, or be of another class.
        if fault.errno is None or fault.filename == path or type(named) is not type(fault):
            raise
        raise named from None
    except DamagedError as fault:
        raise DamagedError(fault.reason, fault.place, path) from None
    except (FormattedError, MovedError, TooSmallError, UnformattedError) as fault:
        raise type(fault)(fault.library_code, f"{path}: {fault.text}") from None


@contextlib.contextmanager
def _folder(path: str) -> Iterator[int]:
    """The folder that a path is in, as a descriptor."""
    folder = os.open(os.path.dirname(path) or ".", os.O_RDONLY | os.O_DIRECTORY)
    try:
        yield folder
    finally:
        os.close(folder)


def _lock(totals: BinaryIO, path: str, how: int = fcntl.LOCK_EX) -> None:
    try:
        fcntl.flock(totals, how | fcntl.LOCK_NB)
    except BlockingIOError as fault:
        raise _in_use(fault.errno, path) from None


def _in_use(code: int, path: str) -> BlockingIOError:
    why = "is in use: close the other program, or the other till of this one, that has it open"
    return BlockingIOError(code, why, path)


def _locked(path: str, mode: Literal["rb", "r+b"], how: int) -> BinaryIO:
    """Opens a file and locks it. Before it has the lock, another program may give the name to another file, as
    `kijolvar restore --replace` does: then that one is opened."""
    for _ in range(_TRIES):
        with contextlib.ExitStack() as undo:
            totals = undo.enter_context(open(path, mode, buffering=0, opener=_open_at_once))
            _lock(totals, path, how)
            if _has_name(totals, path):
                undo.pop_all()
                return totals
    raise _in_use(errno.EAGAIN, path)


def _has_name(totals: BinaryIO, path: str) -> bool:
    """Whether a path is that of an open file."""
    try:
        return os.path.samestat(os.fstat(totals.fileno()), os.stat(path))
    except FileNotFoundError:
        return False


def _sync_first(totals: BinaryIO) -> None:
    """Syncs a file of totals before it is read: what a till has written last before it was killed may be in memory
    alone, and not stay. A file system that can't sync can't be written."""
    try:
        os.fsync(totals.fileno())
    except OSError as fault:
        if fault.errno not in (errno.EINVAL, errno.EROFS):
            raise


def open_totals(path: Path) -> BinaryIO:
    """Opens a file of totals, locks it against every other till, and syncs it. The lock ends when the file is closed,
    also in processes that were forked meanwhile.

    It syncs the folder too, since a creation that was killed may have named the file and not synced its name.

    Raises:
        FileNotFoundError: The file is missing.
        BlockingIOError: Another till or program has the file open.
    """
    name = os.fspath(path)
    with contextlib.ExitStack() as undo:
        with naming(name):
            totals = undo.enter_context(_locked(name, "r+b", fcntl.LOCK_EX))
            _sync_first(totals)
        # Where the path is a link, the name that such a creation gave is that to which it leads.
        with _folder(os.path.realpath(name)) as folder, naming(name):
            os.fsync(folder)
        undo.pop_all()
    return totals


def create_totals(library: ctypes.CDLL, path: Path, profile: bytes = b"") -> BinaryIO:
    """Creates a file of totals without files, and locks it against every other till.

    The file gets its name only when it is whole and synced, so a crash leaves nothing or all of it. The profile is that
    of the till to be opened over it, so that a refused one leaves no file.

    Raises:
        FileExistsError: Anything has the name already.
        OSError: The file can't be made, as on a disk that is full or read-only.
        ProfileError: The profile is refused.
    """
    name = os.fspath(path)
    with contextlib.ExitStack() as undo, _folder(name) as folder, naming(name):
        totals = undo.enter_context(open(name, "r+b", buffering=0, opener=lambda *_: _unnamed(folder)))
        _lock(totals, name)
        # All of its bytes are written, so that a disk without room for them fails now, and not later.
        write_whole(totals.fileno(), bytes(KIJOLVAR_DISK_LENGTH), 0)
        Session(library, profile, totals, begin="kijolvar_format_file").close()
        # Given a folder, os.link follows the first path to the file that it stands for.
        os.link(f"/proc/self/fd/{totals.fileno()}", os.path.basename(name), dst_dir_fd=folder)
        os.fsync(folder)
        undo.pop_all()
    return totals


def _unnamed(folder: int) -> int:
    """A file without a name in a folder, as a descriptor."""
    try:
        return off_streams(os.open(".", os.O_RDWR | os.O_TMPFILE, 0o600, dir_fd=folder))
    except OSError as fault:
        if fault.errno != errno.EOPNOTSUPP:
            raise
        why = "the file system can't do that: totals are created there by pos_console format --disk FILE"
        raise OSError(fault.errno, why) from None


def move_totals(library: ctypes.CDLL, path: Path) -> None:
    """Moves the totals in a file to layout 2."""
    with open_totals(path) as totals, naming(os.fspath(path)):
        Session(library, b"", totals, begin="kijolvar_migrate_file").close()


def read_totals(path: Path) -> bytes:
    """The bytes of a file of totals that no till has open, as many as totals have. It syncs them first.

    Raises:
        FileNotFoundError: The file is missing.
        BlockingIOError: A till or another program has the file open.
        OSError: It can't be synced or read, as a folder or a FIFO.
    """
    name = os.fspath(path)
    with naming(name), _locked(name, "rb", fcntl.LOCK_SH) as totals:
        _sync_first(totals)
        return read_whole(totals.fileno())


def read_steady(path: Path) -> bytes:
    """The bytes of a file of totals, which a till may be writing. It isn't locked: it has had these bytes at a moment,
    since two readings gave them, one right after the other.

    Raises:
        FileNotFoundError: The file is missing.
        BlockingIOError: It changes from each reading to the next.
        OSError: It can't be read, as a folder or a FIFO.
    """
    name = os.fspath(path)
    with naming(name), open(name, "rb", buffering=0, opener=_open_at_once) as totals:
        before = read_whole(totals.fileno())
        for _ in range(_READINGS):
            found = read_whole(totals.fileno())
            if found == before:
                return found
            before = found
    raise BlockingIOError(errno.EAGAIN, "changes from each reading to the next: try again", name)


def put_new(path: Path, data: bytes) -> None:
    """Makes a file with these bytes, for its owner alone, at a path where nothing is. It appears whole or not at all:
    it is written beside that, with .part at its end, and synced before it gets its name. Where a file has one name, as
    on a FAT stick, a crash may leave an empty file.

    Raises:
        FileExistsError: Anything has the name already, or the one with .part at its end.
        OSError: The file can't be made.
    """
    name = os.fspath(path)
    base, part = os.path.basename(name), f"{os.path.basename(name)}.part"
    with _folder(name) as folder, contextlib.ExitStack() as ends:
        with naming(f"{name}.part"):
            file = os.open(part, os.O_WRONLY | os.O_CREAT | os.O_EXCL | os.O_CLOEXEC, 0o600, dir_fd=folder)
            ends.callback(_remove, folder, part)
            file = off_streams(file)
            try:
                write_whole(file, data, 0)
                os.fsync(file)
            finally:
                os.close(file)
        with naming(name):
            if not _is_linked(folder, part, base):
                _take_name(folder, part, base)
                ends.pop_all()
        ends.close()
        os.fsync(folder)


def _is_linked(folder: int, part: str, name: str) -> bool:
    """Gives the file of a name in a folder a second name there, which nothing has. False if that is refused as it is
    where a file has one name, such as on a FAT stick."""
    try:
        os.link(part, name, src_dir_fd=folder, dst_dir_fd=folder)
    except OSError as fault:
        if fault.errno not in (errno.EPERM, errno.EACCES, errno.EOPNOTSUPP, errno.ENOSYS):
            raise
        return False
    return True


def _take_name(folder: int, part: str, name: str) -> None:
    """Gives the file of a name in a folder another name there, in place of its own. An empty file takes that first, so
    that nothing which has it is replaced; it is removed again if the renaming fails."""
    os.close(os.open(name, os.O_WRONLY | os.O_CREAT | os.O_EXCL | os.O_CLOEXEC, 0o600, dir_fd=folder))
    try:
        os.rename(part, name, src_dir_fd=folder, dst_dir_fd=folder)
    except BaseException:
        with contextlib.suppress(OSError):
            os.unlink(name, dir_fd=folder)
        raise


def _remove(folder: int, name: str) -> None:
    """Takes a name in a folder away, if it is there. A renaming may have been interrupted after it was done."""
    with contextlib.suppress(FileNotFoundError):
        os.unlink(name, dir_fd=folder)


def _open_at_once(path: str, flags: int) -> int:
    """Opens a file. One that isn't regular, such as a FIFO that nobody writes, isn't waited for. A serial line doesn't
    become the terminal of this process."""
    return off_streams(os.open(path, flags | os.O_NONBLOCK | os.O_NOCTTY))
