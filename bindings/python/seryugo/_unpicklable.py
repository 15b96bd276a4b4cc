"""What belongs to one process says so if it is pickled or copied."""

from __future__ import annotations

from typing import NoReturn


class Unpicklable:
    """Something that leads to the library's memory. `_instead` says what to pickle in its place."""

    __slots__ = ()

    _instead = ""

    def __reduce__(self) -> NoReturn:
        raise TypeError(
            f"{self!r} belongs to this process, so it can't be pickled or copied: {self._instead}"
        )
