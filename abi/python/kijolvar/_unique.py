"""What is there once, such as a till: its copy would use and end the same thing."""
from __future__ import annotations

from typing import ClassVar, NoReturn, SupportsIndex


class Unique:
    """Something that can't be copied or pickled."""

    __slots__ = ()

    #: What the class is, in the words of a refusal.
    _noun: ClassVar[str] = ""

    def __reduce_ex__(self, protocol: SupportsIndex, /) -> NoReturn:
        """Refuses `copy.copy`, `copy.deepcopy` and `pickle.dumps`, which ask how to make another one.

        Raises:
            TypeError: Always.
        """
        raise TypeError(f"{self._noun} can't be copied or pickled")
