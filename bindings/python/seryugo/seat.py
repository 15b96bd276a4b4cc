"""A seat, from which one thread calls."""

from __future__ import annotations

import asyncio
import operator
import threading
import time
import warnings
from ctypes import c_size_t, c_uint64
from types import TracebackType
from typing import (
    Any,
    AsyncIterator,
    Callable,
    Dict,
    Iterator,
    Optional,
    Tuple,
    Type,
    Union,
)

from . import _awaiting, errors
from . import _calls as calls
from . import _fast_calls as fast_calls
from ._library import CLOSED, DONE, MOST, NOTHING, PARKED, PUT
from ._messages import Codec, T, codec_of
from ._room import AGAIN, FIRST, Room
from ._unpicklable import Unpicklable
from .objects import Channel, IVar, Mailbox, MVar, Object, Port, Source, Variable, name_in

# In seconds, of the main thread.
_LONGEST_SLEEP = 0.5


class Seat(Unpicklable):
    """A seat at a switchboard, for one thread at a time. It leaves at the end of a `with` block.

    A call that would block fails with `Stalled` if all other seats are blocked or have left. So
    leave as soon as the thread has no more to do. A call that may block takes a `timeout` in
    seconds: after that it is withdrawn, and fails with `TimeoutError`. Ctrl-C withdraws it too.
    Any call fails with `JournalFull` if the journal is full, and with `Gone` if the seat has left.

    Under `asyncio`, await `recv_async` and its like. No thread sleeps for such a call. If its task
    is cancelled, the call is withdrawn.
    """

    _instead = "make a seat in each process"

    def __init__(self, room: Room, number: int, bell: threading.Lock) -> None:
        self.number = number
        self._has_left = False
        self._room = room
        self._seat = c_uint64(number)
        self._bell = bell
        # What cancelled calls received before the disk had it: by call and object.
        self._unreturned: Dict[Tuple[Optional[str], int], bytes] = {}
        self._place = fast_calls.seat_of(room.fast, number)

    def __enter__(self) -> Seat:
        return self

    def __exit__(
        self,
        kind: Optional[Type[BaseException]],
        error: Optional[BaseException],
        trace: Optional[TracebackType],
    ) -> None:
        self.leave()

    def __del__(self) -> None:
        if not getattr(self, "_has_left", True) and self._room.refusal is None:
            self._has_left = True
            self._room.drop(self.number)
            # Last, since a filter may make an exception of it.
            warnings.warn(f"{self!r} was dropped and had not left", ResourceWarning, source=self)

    def __repr__(self) -> str:
        return f"<Seat {self.number}>"

    def leave(self) -> None:
        """Leave: the seat makes no more calls. Does nothing if it has left."""
        if self._has_left:
            return
        try:
            code = self._room.leave(self._seat)
        except BaseException:
            # Ctrl-C may have come before the seat left.
            self._has_left = True
            self._room.drop(self.number)
            raise
        if code not in (DONE, errors.COLLECTED):
            raise errors.of_code(code)
        self._has_left = True

    # What makes an object. `of` is the type of its messages: bytes, str or int.

    def mailbox(self, of: Type[T]) -> Mailbox[T]:
        """Make a mailbox."""
        codec = codec_of(of)
        return Mailbox(self._room, self._room.make(codec, calls.new_mailbox, self._seat), codec)

    def channel(self, of: Type[T]) -> Channel[T]:
        """Make a channel."""
        codec = codec_of(of)
        return Channel(self._room, self._room.make(codec, calls.new_channel, self._seat), codec)

    def ivar(self, of: Type[T]) -> IVar[T]:
        """Make an empty i-variable."""
        codec = codec_of(of)
        return IVar(self._room, self._room.make(codec, calls.new_ivar, self._seat), codec)

    def mvar(self, of: Type[T], initial: Optional[T] = None) -> MVar[T]:
        """Make an m-variable that holds `initial`, or an empty one."""
        codec = codec_of(of)
        if initial is None:
            return MVar(self._room, self._room.make(codec, calls.new_mvar, self._seat), codec)
        data = codec.encode(initial)
        name = self._room.make(codec, calls.mvar_init, self._seat, data, c_size_t(len(data)))
        return MVar(self._room, name, codec)

    # What finds an object, or makes it. Objects have numbers from 0 on, in the order in which they
    # are made. Fails with `WrongKind` if another object has the number, and with `NoSuch` if no
    # object has the number before. Two threads that call it at once get one object.

    def mailbox_again(self, number: int, of: Type[T]) -> Mailbox[T]:
        """Find the mailbox of this number, or make it if it would be the next object."""
        codec, make = codec_of(of), calls.new_mailbox
        return Mailbox(self._room, self._again(number, codec, calls.MAILBOX, make), codec)

    def channel_again(self, number: int, of: Type[T]) -> Channel[T]:
        """Find the channel of this number, or make it if it would be the next object."""
        codec, make = codec_of(of), calls.new_channel
        return Channel(self._room, self._again(number, codec, calls.CHANNEL, make), codec)

    def ivar_again(self, number: int, of: Type[T]) -> IVar[T]:
        """Find the i-variable of this number, or make it if it would be the next object."""
        codec, make = codec_of(of), calls.new_ivar
        return IVar(self._room, self._again(number, codec, calls.IVAR, make), codec)

    def mvar_again(self, number: int, of: Type[T]) -> MVar[T]:
        """Find the m-variable of this number, or make an empty one if it would be the next."""
        codec, make = codec_of(of), calls.new_mvar
        return MVar(self._room, self._again(number, codec, calls.MVAR, make), codec)

    def port(self, channel: Channel[T]) -> Port[T]:
        """Make a port of a channel, which receives what is multicast from now on."""
        return self._port(calls.new_port, channel)

    def copy_port(self, port: Port[T]) -> Port[T]:
        """Make a port at the place of another. Fails with `Closed` if that one is closed."""
        return self._port(calls.copy_port, port)

    def close_port(self, port: Port[T]) -> bool:
        """Close a port, and return whether it was open."""
        code = self._room.call(calls.close_port, self._seat, name_in(self._room, port))
        if code not in (DONE, CLOSED):
            raise errors.of_code(code, port)
        return code == DONE

    # What sends.

    @fast_calls.call("SENDING", calls.send)
    def send(self, mailbox: Mailbox[T], message: T) -> None:
        """Send a message to a mailbox."""
        code = self._give(calls.send, mailbox, message)
        if code != DONE:
            raise errors.of_code(code, mailbox)

    @fast_calls.call("SENDING", calls.multicast)
    def multicast(self, channel: Channel[T], message: T) -> None:
        """Send a message to every port of a channel."""
        code = self._give(calls.multicast, channel, message)
        if code != DONE:
            raise errors.of_code(code, channel)

    @fast_calls.call("PUTTING", calls.put)
    def put(self, variable: Variable[T], message: T) -> bool:
        """Fill an empty variable, and return whether it was empty. A full one stays as it was."""
        code = self._give(calls.put, variable, message)
        if code not in (DONE, PUT):
            raise errors.of_code(code, variable)
        return code == DONE

    # What receives.

    @fast_calls.call("ASKING", calls.recv)
    def recv(self, source: Source[T], timeout: Optional[float] = None) -> T:
        """Receive the next message of a mailbox or a port. Blocks while there is none.

        Fails with `Closed` if the port is closed, even if another thread closes it meanwhile.
        """
        arguments = (self._seat, name_in(self._room, source))
        return source._decode(self._obtain(source, calls.recv, arguments, timeout))

    @fast_calls.call("POLLING", calls.recv_poll)
    def recv_poll(self, source: Source[T]) -> Optional[T]:
        """Receive the next message of a mailbox or a port, or return `None` if there is none."""
        return self._poll(calls.recv_poll, source)

    def iter(self, source: Source[T], timeout: Optional[float] = None) -> Iterator[T]:
        """Receive messages in a loop, until the port is closed or no other seat can send.

        Blocks while there is none. The time limit is for each message.
        """
        while True:
            try:
                message = self.recv(source, timeout)
            except (errors.Closed, errors.Stalled):
                return
            yield message

    @fast_calls.call("ASKING", calls.get)
    def get(self, variable: Variable[T], timeout: Optional[float] = None) -> T:
        """Read a variable, which keeps its message. Blocks while it is empty."""
        arguments = (self._seat, name_in(self._room, variable))
        return variable._decode(self._obtain(variable, calls.get, arguments, timeout))

    @fast_calls.call("POLLING", calls.get_poll)
    def get_poll(self, variable: Variable[T]) -> Optional[T]:
        """Read a variable, which keeps its message, or return `None` if it is empty."""
        return self._poll(calls.get_poll, variable)

    @fast_calls.call("ASKING", calls.take)
    def take(self, variable: MVar[T], timeout: Optional[float] = None) -> T:
        """Read and empty an m-variable. Blocks while it is empty."""
        arguments = (self._seat, name_in(self._room, variable))
        return variable._decode(self._obtain(variable, calls.take, arguments, timeout))

    @fast_calls.call("POLLING", calls.take_poll)
    def take_poll(self, variable: MVar[T]) -> Optional[T]:
        """Read and empty an m-variable, or return `None` if it is empty."""
        return self._poll(calls.take_poll, variable)

    @fast_calls.call("SWAPPING", calls.swap)
    def swap(self, variable: MVar[T], message: T, timeout: Optional[float] = None) -> T:
        """Store a message in a full m-variable, and return what it held before.

        Blocks while it is empty.
        """
        name, data = name_in(self._room, variable), variable._encode(message)
        arguments = (self._seat, name, data, c_size_t(len(data)))
        return variable._decode(self._obtain(variable, calls.swap, arguments, timeout))

    # The same, awaited.

    async def recv_async(self, source: Source[T], timeout: Optional[float] = None) -> T:
        """Do what `recv` does, awaited."""
        arguments = (self._seat, name_in(self._room, source))
        return source._decode(
            await self._obtain_async(source, calls.recv, arguments, timeout)
        )

    async def iter_async(
        self, source: Source[T], timeout: Optional[float] = None
    ) -> AsyncIterator[T]:
        """Do what `iter` does, awaited: `async for message in seat.iter_async(mailbox)`."""
        while True:
            try:
                message = await self.recv_async(source, timeout)
            except (errors.Closed, errors.Stalled):
                return
            yield message

    async def get_async(self, variable: Variable[T], timeout: Optional[float] = None) -> T:
        """Do what `get` does, awaited."""
        arguments = (self._seat, name_in(self._room, variable))
        return variable._decode(
            await self._obtain_async(variable, calls.get, arguments, timeout)
        )

    async def take_async(self, variable: MVar[T], timeout: Optional[float] = None) -> T:
        """Do what `take` does, awaited."""
        arguments = (self._seat, name_in(self._room, variable))
        return variable._decode(
            await self._obtain_async(variable, calls.take, arguments, timeout)
        )

    async def swap_async(
        self, variable: MVar[T], message: T, timeout: Optional[float] = None
    ) -> T:
        """Do what `swap` does, awaited."""
        name, data = name_in(self._room, variable), variable._encode(message)
        arguments = (self._seat, name, data, c_size_t(len(data)))
        return variable._decode(
            await self._obtain_async(variable, calls.swap, arguments, timeout)
        )

    # What the extension calls.

    def _ring(self, seat: int) -> None:
        self._room.ring(seat)

    def _recover(self) -> None:
        self._room.recover()

    def _again(
        self, number: int, codec: Codec[Any], kind: int, make: Callable[..., int]
    ) -> int:
        number = operator.index(number)
        if not 0 <= number <= MOST:
            raise errors.NoSuch
        try:
            return self._room.make(codec, calls.again(kind, number, make), self._seat)
        except errors.NoSuch:
            raise errors.NoSuch(f"object {number} isn't there, nor the one before it") from None
        except errors.WrongKind:
            raise errors.WrongKind(f"object {number} is of another kind") from None

    def _port(self, call: Callable[..., int], of: Union[Channel[T], Port[T]]) -> Port[T]:
        name = self._room.make(of._codec, call, self._seat, name_in(self._room, of), of=of)
        return Port(self._room, name, of._codec)

    def _give(self, call: Callable[..., int], target: Object[T], message: T) -> int:
        name, data = name_in(self._room, target), target._encode(message)
        return self._room.call(call, self._seat, name, data, c_size_t(len(data)))

    def _poll(self, call: Callable[..., int], source: Object[T]) -> Optional[T]:
        kept = self._kept(source, call)
        if kept is not None:
            self._room.settle()
            return source._decode(kept)
        code, data = self._room.poll(call, self._seat, name_in(self._room, source))
        if code == NOTHING:
            return None
        if code != DONE:
            raise errors.of_code(code, source)
        return source._decode(data)

    def _obtain(
        self,
        named: Object[T],
        call: Callable[..., int],
        arguments: Tuple[Any, ...],
        timeout: Optional[float],
    ) -> bytes:
        """Make a call that may block."""
        deadline = None if timeout is None else time.monotonic() + _checked(timeout)
        kept = self._kept(named, call)
        if kept is not None:
            self._room.settle()
            return kept
        try:
            code, data = self._room.ask(self.number, FIRST, call, arguments)
            if code == PARKED:
                code, data = self._wait(call, arguments, deadline)
            self._room.settle()
        except BaseException:
            self._room.recover(self.number)
            raise
        return _obtained(named, code, data)

    async def _obtain_async(
        self,
        named: Object[T],
        call: Callable[..., int],
        arguments: Tuple[Any, ...],
        timeout: Optional[float],
    ) -> bytes:
        """Make a call that may block, and await it."""
        limit = None if timeout is None else _checked(timeout)
        kept = self._kept(named, call)
        try:
            if kept is not None:
                code, data = DONE, kept
            else:
                ask = _awaiting.ask(self._room, self.number, call, arguments, limit)
                code, data = await ask
            await self._settle_async(named, call, code, data)
        except (asyncio.CancelledError, GeneratorExit):
            # The call was withdrawn, or what it received is kept.
            raise
        except BaseException:
            self._room.recover(self.number)
            raise
        return _obtained(named, code, data)

    async def _settle_async(
        self, named: Object[T], call: Callable[..., int], code: int, data: bytes
    ) -> None:
        """Await the disk. If that is cancelled, keep the message for the seat's next call."""
        try:
            await _awaiting.settle(self._room)
        except BaseException:
            taken = _taken_by(call)
            if code == DONE and taken is not None:
                self._unreturned[taken, named.number] = data
            raise

    def _kept(self, named: Object[T], call: Callable[..., int]) -> Optional[bytes]:
        """Take the message that a cancelled call of this kind has received from this object."""
        if not self._unreturned:
            return None
        return self._unreturned.pop((_taken_by(call), named.number), None)

    def _wait(
        self, call: Callable[..., int], arguments: Tuple[Any, ...], deadline: Optional[float]
    ) -> Tuple[int, bytes]:
        """Make the parked seat's call again when it is woken.

        At the time limit make it once more, since the seat may be due by then, and withdraw it.
        """
        while True:
            is_woken = self._sleep(deadline)
            code, data = self._room.ask(self.number, AGAIN, call, arguments)
            if code != PARKED:
                return code, data
            if not is_woken:
                self._room.give_up(self.number)
                return code, data

    def _sleep(self, deadline: Optional[float]) -> bool:
        """Sleep until the seat's bell is rung, or until the time limit. Return which it was.

        The interpreter may see a Ctrl-C only as the sleep ends, if it comes just as the sleep
        begins. So the main thread, to which it comes, never sleeps for long.
        """
        longest = _LONGEST_SLEEP if _is_main() else threading.TIMEOUT_MAX
        while True:
            left = longest if deadline is None else max(0.0, deadline - time.monotonic())
            if self._bell.acquire(timeout=min(left, longest)):
                return True
            if deadline is not None and left <= longest:
                return False


def _obtained(named: Object[Any], code: int, data: bytes) -> bytes:
    """Return the message of a call, or raise why it has none."""
    if code == PARKED:
        raise TimeoutError("the call was withdrawn at its time limit")
    if code != DONE:
        raise errors.of_code(code, named)
    return data


def _taken_by(call: Callable[..., int]) -> Optional[str]:
    """Name how a call takes a message out of its object, or return None if it takes none."""
    if call is calls.recv or call is calls.recv_poll:
        return "received"
    if call is calls.take or call is calls.take_poll:
        return "taken"
    return None


def _is_main() -> bool:
    return threading.get_ident() == threading.main_thread().ident


def _checked(timeout: float) -> float:
    if not timeout >= 0:
        raise ValueError(f"a time limit is 0 seconds or more, and not {timeout}")
    return timeout
