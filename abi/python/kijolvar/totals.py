"""Hard Totals as a mapping of files, and transactions as a context manager."""
from __future__ import annotations

import contextlib
from collections.abc import ItemsView, Iterator, KeysView, Mapping
from types import TracebackType
from typing import TYPE_CHECKING, SupportsIndex, TypeVar, overload

from ._constants import E_NOEXIST
from ._control import Text, is_answer_lost, undoing
from ._controls import HardTotals
from ._faults import Error
from ._unique import Unique
from .errors import DisabledError, IllegalError, NoExistError


D = TypeVar("D")
# What asking for a file raises if there is none. No file has a name that isn't ASCII, or is too long for a line.
_NO_FILE = NoExistError, UnicodeEncodeError, OverflowError


class Totals(HardTotals, Mapping[Text, "TotalsFile"]):
    """Hard Totals: small files that survive a loss of power, as a mapping of names to files.

    `totals["SALES"]` is a file, `"SALES" in totals` says whether there is one, `len(totals)` counts them, a loop gives
    their names as bytes in the order of creation, and `del totals["SALES"]` deletes one. `create` makes one. `get`,
    `keys`, `values` and `items` are those of any mapping. The standard's methods are there too.

    Two objects are equal only if they are the same control.

    A change is on the disk before its call returns. Changes in `with totals.transaction():` are made all together.
    """

    __slots__ = ()

    if TYPE_CHECKING:
        # A name may be given as any text, and is bytes.
        def keys(self) -> KeysView[bytes]: ...

        def items(self) -> ItemsView[bytes, TotalsFile]: ...

    def __getitem__(self, name: Text) -> TotalsFile:
        """The file of a name. Raises NoExistError, which is a KeyError, if there is none."""
        try:
            handle, size = self.find(name)
        except NoExistError as fault:
            raise NoExistError(fault.code, 0, fault.call, f"No file has the name {_shown(name)}.") from None
        return TotalsFile(self, handle, size, _name(name))

    def __contains__(self, name: object) -> bool:
        if not isinstance(name, (str, bytes, bytearray, memoryview)):
            return False
        try:
            self.find(name)
        except _NO_FILE:
            return False
        return True

    @overload
    def get(self, name: Text, /) -> TotalsFile | None: ...

    @overload
    def get(self, name: Text, /, default: TotalsFile | D) -> TotalsFile | D: ...

    def get(self, name: Text, /, default: object = None) -> object:
        """The file of a name, or the default if there is none."""
        try:
            return self[name]
        except _NO_FILE:
            return default

    def __eq__(self, other: object) -> bool:
        return self is other

    def __hash__(self) -> int:
        return object.__hash__(self)

    def __delitem__(self, name: Text) -> None:
        self.delete(name)

    def __len__(self) -> int:
        return self.number_of_files

    def __bool__(self) -> bool:
        return True

    def __iter__(self) -> Iterator[bytes]:
        # All names at once: a loop may delete and rename what it is at.
        yield from [self.find_by_index(index) for index in range(self.number_of_files)]

    def files(self) -> Iterator[TotalsFile]:
        """The files, in the order of creation."""
        for name in self:
            yield self[name]

    @contextlib.contextmanager
    def transaction(self) -> Iterator[Totals]:
        """Begins a transaction, and commits it at the end of the `with` block. An exception in the block rolls it back,
        and so does a commit that is refused: the totals are as before then.

        A loss of power leaves all of its changes or none. Inside it you can write and set files, but not create, delete
        or rename them, and reading gives what was there before it.

        The commit is refused if the block has disabled the control, as `in_use` does at its end. The control is enabled
        for the rollback alone. If that is refused too, as without memory, the control stays in the transaction:
        `transaction_in_progress` is true then, and `rollback` ends it. A control that is closed is in none.

        Raises:
            IllegalError: The control is in a transaction already.
            ClosedError, ClaimedError, DisabledError, NoExistError: As `commit_trans`.
            NoRoomError: Its changes are more than the totals have room for.
            FailureError: The totals are off.
            DiskError: The disk failed, and the changes may be in the file, all of them, or not.
            NoMemoryError: There was no memory. With KIJOLVAR_CUT the changes may be made, all of them, or not.
        """
        was_in_transaction = self.transaction_in_progress
        try:
            self.begin_trans()
            yield self
            self.commit_trans()
        except BaseException:
            if not was_in_transaction:
                with contextlib.suppress(Exception):
                    self._roll_back()
            raise

    def _roll_back(self) -> None:
        """Rolls the transaction back, unless it has ended. Closing the control ends it, and so does a failed disk."""
        if not self.transaction_in_progress:
            return
        try:
            self.rollback()
        except DisabledError:
            try:
                self.device_enabled = True
                self.rollback()
            finally:
                self.device_enabled = False


class TotalsFile(Unique):
    """A file of Hard Totals. Wherever a handle is asked for, you can pass the file. `bytes(file)` is all that it has.

    Attributes:
        handle: The file's handle.
        size: How many bytes it has; that never changes.
    """

    _noun = "a file of totals"

    def __init__(self, totals: Totals, handle: int, size: int, name: bytes) -> None:
        self._totals, self.handle, self.size, self._name = totals, handle, size, name
        # The names that it may have instead, by renames that nobody knows the outcome of.
        self._others: list[bytes] = []

    @property
    def name(self) -> bytes:
        """Its name. After a `rename` whose answer was lost, the totals are asked for it; until they can be, as without
        memory, it is the last one that is known."""
        if self._others:
            with contextlib.suppress(Error):
                self._find_name()
        return self._name

    def _find_name(self) -> None:
        """Finds out which of some names the file has."""
        for name in reversed(self._others):
            with contextlib.suppress(NoExistError):
                if self._totals.find(name)[0] == self.handle:
                    self._name = name
                    break
        self._others.clear()

    def __repr__(self) -> str:
        return f"<kijolvar.TotalsFile {self.name!r}: {self.size} bytes, handle {self.handle}>"

    def __bytes__(self) -> bytes:
        return self.read()

    def __len__(self) -> int:
        return self.size

    def __bool__(self) -> bool:
        return True

    def __eq__(self, other: object) -> bool:
        if not isinstance(other, TotalsFile):
            return NotImplemented
        return self._totals.till is other._totals.till and self.handle == other.handle

    def __hash__(self) -> int:
        return hash(self.handle)

    def read(self, *, offset: SupportsIndex = 0, count: SupportsIndex | None = None) -> bytes:
        """Reads so many bytes from an offset on, or all up to the end. Both need their names: `file.read(count=8)`."""
        return self._totals.read(self.handle, offset, self.size - int(offset) if count is None else count)

    def write(self, offset: SupportsIndex, data: Text) -> None:
        """Writes bytes at an offset. In a transaction they are buffered until it is committed."""
        self._totals.write(self.handle, offset, data)

    def set_all(self, value: SupportsIndex) -> None:
        """Sets all bytes to one value, 0 to 255. In a transaction this is buffered until it is committed."""
        self._totals.set_all(self.handle, value)

    def rename(self, name: Text) -> None:
        """Gives the file another name.

        Raises:
            NoMemoryError: There was no memory. With KIJOLVAR_CUT the file may have its new name: `name` says it.
        """
        # What a signal's handler raises may come once the file is renamed.
        self._others.append(_name(name))
        try:
            self._totals.rename(self.handle, name)
        except (Error, TypeError, OverflowError) as fault:
            if not is_answer_lost(fault):
                self._others.pop()
            raise
        self._name = self._others[-1]
        self._others.clear()

    def delete(self) -> None:
        """Deletes the file.

        Raises:
            NoExistError: Another file has its name by now.
        """
        if self._totals.find(self.name)[0] != self.handle:
            raise NoExistError(E_NOEXIST, 0, f"delete of {self!r}", "Another file has its name by now.")
        self._totals.delete(self.name)

    def claim(self, timeout: SupportsIndex = 0) -> FileClaim:
        """Claims the file, which keeps other controls from reading and changing it.

        The claim that it returns releases the file at the end of a `with` block; you needn't use it.

        Raises:
            kijolvar.TimeoutError: Another control has claimed the file or the device.
        """
        self._totals.claim_file(self.handle, timeout)
        return FileClaim(self)

    def release(self) -> None:
        """Releases the file."""
        self._totals.release_file(self.handle)


class FileClaim:
    """A claim of a file. At the end of a `with` block the file is released. If the block has disabled the control, that
    is a DisabledError, and the file stays claimed until the control releases it or is closed."""

    def __init__(self, file: TotalsFile) -> None:
        self._file = file

    def __repr__(self) -> str:
        return f"<kijolvar.FileClaim of {self._file!r}>"

    def __enter__(self) -> FileClaim:
        return self

    def __exit__(self, kind: type[BaseException] | None, value: BaseException | None,
                 trace: TracebackType | None) -> None:
        if self._file._totals.device is not None and not self._file._totals.till.is_closed:
            # The block may have released it, or deleted the file.
            with undoing(value), contextlib.suppress(IllegalError):
                self._file.release()


def _shown(name: Text) -> str:
    """A file's name in a message."""
    return _name(name).decode("ascii", "backslashreplace")


def _name(name: Text) -> bytes:
    return name.encode("ascii") if isinstance(name, str) else bytes(name)
