"""Calls that the library answers at once, by the extension `_fast` if it is there.

`call` decorates a method of a seat. The extension then calls the library itself, if it can answer
at once. Else it calls the method, which has all the rules. Without the extension there is only the
method.
"""

from __future__ import annotations

import ctypes
import functools
import os
from typing import TYPE_CHECKING, Any, Callable, Deque, List, Optional, Set, TypeVar

from . import _library as library
from . import errors
from ._version import __version__

if TYPE_CHECKING:
    from ._fast import Place
    from ._fast import Room as FastRoom
    from ._messages import Codec

Method = TypeVar("Method", bound=Callable[..., Any])


def _extension() -> Any:
    """Return the extension if it is there, and the user hasn't turned it off."""
    if os.environ.get("SERYUGO_PURE_PYTHON"):
        return None
    try:
        from . import _fast
    except ImportError:
        return None
    if (_fast.VERSION, _fast.MESSAGE_SIZE) != (__version__, ctypes.sizeof(library.Bytes)):
        raise ImportError(
            f"the extension {_fast.__file__} was built for the version {_fast.VERSION}, and this "
            f"package has {__version__}. Build it again, or remove it"
        )
    return _fast


_fast = _extension()

# Whether the extension is in use.
HAS_EXTENSION: bool = _fast is not None


def _address(call: Callable[..., Any]) -> int:
    """Return where a function of the library is that ctypes has found."""
    # A function of ctypes can be cast, though its type here doesn't say so.
    function: Any = call
    address = ctypes.cast(function, ctypes.c_void_p).value
    assert address is not None
    return address


def room_of(
    handle: library.Handle,
    lock: Any,
    parked: Set[int],
    dropped: Deque[Any],
    unwritten: List[Any],
) -> Optional[FastRoom]:
    """Return what the extension has of a room, which has to live as long as its places are used.

    While the lock is held, or there is something in `dropped` or `unwritten`, no call goes by the
    extension. While `parked` is empty no seat is due.
    """
    if _fast is None:
        return None
    room: FastRoom = _fast.Room(
        ctypes.addressof(handle),
        _address(library.next_due),
        _address(library.withdraw),
        _address(library.bytes_release),
        lock.locked,
        parked,
        dropped,
        unwritten,
    )
    return room


def seat_of(room: Optional[FastRoom], number: int) -> Optional[Place]:
    """Return what the extension has of a seat: its attribute `_place`."""
    if _fast is None or room is None:
        return None
    place: Place = _fast.Place(room, number, _fast.SEAT, None)
    return place


def object_of(room: Optional[FastRoom], number: int, codec: Codec[Any]) -> Optional[Place]:
    """Return what the extension has of an object: its attribute `_place`."""
    if _fast is None or room is None:
        return None
    kinds = {bytes: _fast.OF_BYTES, str: _fast.OF_STR, int: _fast.OF_INT}
    place: Place = _fast.Place(room, number, kinds[codec.type], codec.decode)
    return place


def call(shape: str, function: Callable[..., int]) -> Callable[[Method], Method]:
    """Decorate a method of a seat that makes this call of the library, which has this shape.

    The shapes are those of `_fast.pyi`.
    """

    def decorate(method: Method) -> Method:
        if _fast is None:
            return method
        made = _fast.Call(getattr(_fast, shape), _address(function), method, errors.of_code)
        decorated: Method = functools.update_wrapper(made, method)
        return decorated

    return decorate
