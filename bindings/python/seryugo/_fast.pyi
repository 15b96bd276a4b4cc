"""The extension, whose sources are in `../fast`. `_fast_calls.py` alone uses it."""

from typing import Any, Callable, Deque, List, Optional, Set

# The version of the package that it was built for, and how many bytes a message of the library has.
VERSION: str
MESSAGE_SIZE: int

# What a place names.
SEAT: int
OF_BYTES: int
OF_STR: int
OF_INT: int

# What the methods are like: `send` and `multicast`; `put`; `recv_poll` and its like, which never
# block; `recv` and its like; and `swap`.
SENDING: int
PUTTING: int
POLLING: int
ASKING: int
SWAPPING: int

class Room:
    # The most bytes of a message. Less than there may be: then no swap goes by the extension.
    longest: int

    def __new__(
        cls,
        handle: int,
        next_due: int,
        withdraw: int,
        release: int,
        locked: Callable[[], bool],
        parked: Set[int],
        dropped: Deque[int],
        unwritten: List[Any],
        /,
    ) -> Room: ...

class Place:
    def __new__(
        cls, room: Room, number: int, kind: int, decode: Optional[Callable[[bytes], Any]], /
    ) -> Place: ...

class Call:
    def __new__(
        cls,
        shape: int,
        function: int,
        method: Callable[..., Any],
        error_of: Callable[[int, object], Exception],
        /,
    ) -> Call: ...
    def __call__(self, *arguments: Any, **named: Any) -> Any: ...
