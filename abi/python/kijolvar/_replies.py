"""A reply to an ErrorEvent that was delivered with the default reply."""
from __future__ import annotations

from typing import TYPE_CHECKING

from ._constants import EL_INPUT_DATA, EL_OUTPUT, ER_CLEAR, ErrorLocus, ErrorReply
from .errors import ClaimedError, ClosedError, NotClaimedError

if TYPE_CHECKING:
    from ._control import Control

_CLEARS = {EL_INPUT_DATA: b"clearInput", EL_OUTPUT: b"clearOutput"}


def reply_to(control: Control, locus: ErrorLocus, reply: ErrorReply) -> None:
    """Makes of the default reply another one.

    The default reply tries output again, which ER_RETRY and ER_CONTINUEINPUT do too, and continues input at
    EL_INPUT_DATA, likewise. At EL_INPUT every reply clears. So only ER_CLEAR is left to do: it deletes what clearInput
    or clearOutput deletes. A control that was closed or released meanwhile has nothing left to delete, but what its
    printer didn't print is given up all the same.
    """
    if ErrorReply(reply) is ER_CLEAR and locus in _CLEARS:
        try:
            control._do(control._call + _CLEARS[locus], "reply")
        except (ClaimedError, ClosedError, NotClaimedError):
            if locus == EL_OUTPUT:
                control.till._drives.give_up(control._last_device)
