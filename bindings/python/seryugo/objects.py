"""Mailboxes, channels, ports and variables, as a program names them."""

from __future__ import annotations

from ctypes import c_uint64
from typing import Any, Callable, Generic, Type

from . import _fast_calls as fast_calls
from . import _library as library
from . import errors
from ._messages import Codec, T
from ._room import Room
from ._unpicklable import Unpicklable


class Object(Unpicklable, Generic[T]):
    """An object of one switchboard, with messages of one type.

    A `Seat` makes it, and makes the calls on it.
    """

    __slots__ = ("number", "_name", "_room", "_codec", "_encode", "_decode", "_place")

    _codec: Codec[T]
    _encode: Callable[[T], bytes]
    _decode: Callable[[bytes], T]

    _instead = "pickle its `number`, by which its switchboard names it again"

    def __init__(self, room: Room, number: int, codec: Codec[T]) -> None:
        self.number = number
        self._name = c_uint64(number)
        self._room = room
        self._codec = codec
        self._encode = codec.encode
        self._decode = codec.decode
        self._place = fast_calls.object_of(room.fast, number, codec)

    @property
    def type(self) -> Type[T]:
        """The type of its messages."""
        return self._codec.type

    def __repr__(self) -> str:
        return f"<{type(self).__name__} {self.number} of {self.type.__name__}>"


class Source(Object[T]):
    """A mailbox or a port. Its length is how many messages wait there."""

    __slots__ = ()

    def __len__(self) -> int:
        """Count the messages that wait in a mailbox, or are owed to an open port.

        Fails with `NoSuch` if the port is closed.
        """
        return owed_to(self._room, self)

    def __bool__(self) -> bool:
        """Return true, also while no message waits."""
        return True


class Variable(Object[T]):
    """An i-variable or an m-variable."""

    __slots__ = ()


class Mailbox(Source[T]):
    """A mailbox: each message that is sent is received once, in order."""

    __slots__ = ()


class Channel(Object[T]):
    """A channel: each message that is multicast goes to every port."""

    __slots__ = ()


class Port(Source[T]):
    """A port of a channel: it receives what is multicast since the port was made."""

    __slots__ = ()


class IVar(Variable[T]):
    """A variable that is filled once."""

    __slots__ = ()


class MVar(Variable[T]):
    """A variable that is filled and emptied again."""

    __slots__ = ()


def owed_to(room: Room, source: Object[Any]) -> int:
    """Count what waits in a mailbox of this room, or is owed to an open port of it."""
    name = name_in(room, source)
    try:
        return room.count(library.owed, name)
    except errors.NoSuch:
        raise errors.NoSuch(f"nothing is owed to a closed port: {source!r}") from None


def name_in(room: Room, named: Object[Any]) -> c_uint64:
    """Return an object's name for a call on this room."""
    try:
        if named._room is room:
            return named._name
    except AttributeError:
        raise TypeError(f"this is no mailbox, channel, port or variable: {named!r}") from None
    raise errors.NoSuch(f"{named!r} is another switchboard's")
