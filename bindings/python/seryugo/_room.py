"""A room of the library under a lock: who calls, and who is woken."""

from __future__ import annotations

import threading
import weakref
from collections import deque
from ctypes import byref, c_bool, c_uint64
from typing import (
    Any,
    Callable,
    Deque,
    Dict,
    List,
    Optional,
    Set,
    Tuple,
    Type,
    TypeVar,
)

from . import _calls as calls
from . import _fast_calls as fast_calls
from . import _library as library
from . import _lock as locks
from . import errors
from ._library import DONE, PARKED
from ._lock import Refusing, free, is_collector, is_held, new_lock
from ._messages import Codec
from .journal import Journal, Start, at_nothing

T = TypeVar("T")

# As a call that may block takes it: whether it is made again.
FIRST = c_bool(False)
AGAIN = c_bool(True)

# What a call returns if the journal has no room for its entry.
FULL = errors.JournalFull.code

# Why a keeper takes no entry.
TOO_LONG = "a message has more than 1,398,000 bytes, or both messages of a swap have more"


def message_size(room: Room, call: Callable[..., int], arguments: Tuple[Any, ...]) -> int:
    """Return how many bytes a call's messages have. Its caller has the room's lock."""
    size = 0
    for given in arguments:
        if isinstance(given, bytes):
            size = len(given)
    if call is calls.swap:
        if library.held(room.handle, arguments[1], byref(room.message)) == DONE:
            size += len(library.taken_over(room.message))
    return size


class Keeper:
    """What keeps the entries of a room's journal. Its caller has the room's lock."""

    # Whether a call returns once the disk has what it has seen.
    is_on_disk = False

    def wait(self) -> None:
        """Wait for that, without the room's lock."""

    def made(self, room: Room, call: Callable[..., int], arguments: Tuple[Any, ...]) -> int:
        """Make a call of a seat, and return its code. If the journal is full, have that cut first.

        If the call may block, its next to last argument says whether it is made again.
        """
        code = call(room.handle, *arguments)
        if code == FULL:
            self.cut(room)
            if arguments[-2] is AGAIN:
                # The refusal has ended the seat's wait.
                arguments = (*arguments[:-2], FIRST, arguments[-1])
            code = call(room.handle, *arguments)
        return code

    def cut(self, room: Room) -> None:
        """Cut the journal, and keep the entries that it had."""
        raise NotImplementedError

    def settle(self, room: Room) -> None:
        """After an exception do what a call may have left undone."""


class Room:
    """Calls the library for one room, under a lock, one call at a time.

    After each call of a seat it asks which seat is due, and wakes that seat's thread. The woken
    thread makes its call again, and so wakes the next. The handler of a signal may raise an
    exception in the midst of any method, as Ctrl-C does. Then nothing is known of the call that
    was made, so `recover` wakes all threads that wait: each makes its call again.
    """

    def __init__(self, room: library.Handle, is_fast: bool = True) -> None:
        """Make one of this handle. If `is_fast`, the extension may make calls of seats."""
        # At its end the process frees all memory, and threads may be in a call then.
        self._end = weakref.finalize(self, library.close_for_good, room)
        self._end.atexit = False
        self.handle = byref(room)
        self.lock = new_lock()
        # Why no call is made any more, if that is so.
        self.refusal: Optional[Type[errors.SeryugoError]] = None
        # What keeps the journal, if that isn't left to the switchboard's owner.
        self.keeper: Optional[Keeper] = None
        # The journal that the keeper has cut and not handed over yet, if there is one.
        self.unwritten: List[Journal] = []
        # Where the text begins to which journals are added.
        self._text = at_nothing()
        # The messages' type of each object, by its number.
        self.codecs: Dict[int, Codec[Any]] = {}
        # What the thread of each seat waits by: a lock that is free if the thread was woken.
        self._bells: Dict[int, threading.Lock] = {}
        # What wakes a task that awaits a seat's call, in place of the bell. It returns whether the
        # task may still be there.
        self._listeners: Dict[int, Callable[[], bool]] = {}
        # The seats that the library has parked. While there is none, no seat is due.
        self._parked: Set[int] = set()
        # Seats whose calls are still to be withdrawn, and whether they were dropped: then they
        # are still to leave.
        self._dropped: Deque[Tuple[int, bool]] = deque()
        # What the extension has of this room.
        self.fast = (
            fast_calls.room_of(room, self.lock, self._parked, self._dropped, self.unwritten)
            if is_fast
            else None
        )
        # Where the library writes a message, and the seat that is due.
        self.message = library.Bytes()
        self._at_message = byref(self.message)
        self._due = c_uint64()
        self._at_due = byref(self._due)

    def seat(self) -> Tuple[int, threading.Lock]:
        """Make a seat: its number, and its bell."""
        number, bell = self.count(library.new_seat), threading.Lock()
        bell.acquire()
        self._bells[number] = bell
        return number, bell

    def text_start(self) -> Start:
        """Return where the text begins to which the next journal is added.

        Its caller has the lock, and calls this before each cut: an interrupted `compact_with` may
        have named a start that a later cut doesn't make.
        """
        self._text = self._text.settled()
        return self._text

    def do(self, call: Callable[..., int], *arguments: Any) -> int:
        """Make a call that makes no seat due."""
        if locks.collector is not None:
            locks.refuse_in_a_call(self.lock)
        try:
            with self.lock:
                code = call(self.handle, *arguments)
        except BaseException:
            self.recover()
            raise
        if self._dropped:
            self._let_dropped_leave()
        self.settle()
        return code

    def settle(self) -> None:
        """Wait until the disk has what a call has seen, if the journal is kept there."""
        if self.is_on_disk:
            self.wait()

    @property
    def is_on_disk(self) -> bool:
        """Whether calls wait for the disk."""
        return self.keeper is not None and self.keeper.is_on_disk

    def wait(self) -> None:
        """Wait until the entries of all calls that returned are on the disk."""
        if self.keeper is None:
            return
        try:
            self.keeper.wait()
        except errors.FileLost:
            # Nobody's call will be kept, so nobody waits.
            self.recover()
            raise

    def within(self, action: Callable[[], T]) -> T:
        """Run this with the lock."""
        if locks.collector is not None:
            locks.refuse_in_a_call(self.lock)
        try:
            with self.lock:
                done = action()
        except BaseException:
            self.recover()
            raise
        if self._dropped:
            self._let_dropped_leave()
        return done

    def count(self, call: Callable[..., int], *arguments: Any) -> int:
        """Make a call that makes no seat due, and return the number that it writes."""
        number = c_uint64()
        code = self.do(call, *arguments, byref(number))
        if code != DONE:
            raise errors.of_code(code)
        return number.value

    def call(self, call: Callable[..., int], *arguments: Any) -> int:
        """Make a seat's call that never blocks and hands no message over."""
        if locks.collector is not None:
            locks.refuse_in_a_call(self.lock)
        try:
            with self.lock:
                if self.keeper is None:
                    code = call(self.handle, *arguments)
                else:
                    code = self.keeper.made(self, call, arguments)
                if self._parked:
                    self._wake_next()
        except BaseException:
            self.recover()
            raise
        if self._dropped:
            self._let_dropped_leave()
        self.settle()
        return code

    def make(
        self, codec: Codec[Any], call: Callable[..., int], *arguments: Any, of: object = None
    ) -> int:
        """Make an object by a seat's call, maybe one on another object. Return its number."""
        name = c_uint64()
        if locks.collector is not None:
            locks.refuse_in_a_call(self.lock)
        try:
            with self.lock:
                if self.keeper is None:
                    code = call(self.handle, *arguments, byref(name))
                else:
                    code = self.keeper.made(self, call, (*arguments, byref(name)))
                if code == DONE:
                    self.codecs.setdefault(name.value, codec)
                if self._parked:
                    self._wake_next()
        except BaseException:
            self.recover()
            raise
        if self._dropped:
            self._let_dropped_leave()
        self.settle()
        if code != DONE:
            raise errors.of_code(code, of)
        self.name_codec(name.value, codec)
        return name.value

    def name_codec(self, number: int, codec: Codec[Any]) -> None:
        """Have an object's messages be of this type. Raises `TypeError` if they are of another."""
        known = self.codecs.setdefault(number, codec)
        if known is not codec:
            raise TypeError(f"the messages of object {number} are {known.type.__name__}")

    def poll(self, call: Callable[..., int], *arguments: Any) -> Tuple[int, bytes]:
        """Make a call that never blocks, and if it is done hands a message over."""
        if locks.collector is not None:
            locks.refuse_in_a_call(self.lock)
        try:
            with self.lock:
                if self.keeper is None:
                    code = call(self.handle, *arguments, self._at_message)
                else:
                    code = self.keeper.made(self, call, (*arguments, self._at_message))
                data = library.taken_over(self.message) if code == DONE else b""
                if self._parked:
                    self._wake_next()
        except BaseException:
            self.recover()
            raise
        if self._dropped:
            self._let_dropped_leave()
        self.settle()
        return code, data

    def look(self, call: Callable[..., int], *arguments: Any) -> Tuple[int, bytes]:
        """Make a call that changes nothing, and if it is done hands a message over."""

        def looked() -> Tuple[int, bytes]:
            code = call(self.handle, *arguments, self._at_message)
            return code, library.taken_over(self.message) if code == DONE else b""

        seen = self.within(looked)
        self.settle()
        return seen

    def ask(
        self, seat: int, is_again: c_bool, call: Callable[..., int], arguments: Tuple[Any, ...]
    ) -> Tuple[int, bytes]:
        """Make a call that may block, and if it is done hands a message over.

        After an exception its caller calls `recover`. Once the call has ended, its caller waits for
        the disk, by `settle` or without blocking.
        """
        if locks.collector is not None:
            locks.refuse_in_a_call(self.lock)
        with self.lock:
            if self.keeper is None:
                code = call(self.handle, *arguments, is_again, self._at_message)
            else:
                all_arguments = (*arguments, is_again, self._at_message)
                code = self.keeper.made(self, call, all_arguments)
            data = library.taken_over(self.message) if code == DONE else b""
            if code == PARKED:
                self._parked.add(seat)
            elif is_again is AGAIN:
                self._end_wait(seat, code)
            if self._parked:
                self._wake_next()
        if self._dropped:
            self._let_dropped_leave()
        return code, data

    def leave(self, seat: c_uint64) -> int:
        """Let a seat leave. This has no entry in the journal, so that it hands none over."""
        if self.refusal is not None:
            return DONE
        if is_collector():
            self.drop(seat.value)
            return DONE

        def left() -> int:
            code = calls.leave(self.handle, seat)
            if self._parked:
                self._wake_next()
            return code

        return self.within(left)

    def give_up(self, seat: int) -> None:
        """Withdraw a seat's call, and hand on what the seat was woken for."""
        if self.refusal is not None:
            return
        if is_collector():
            self._settle_later(seat, False)
            return
        with self.lock:
            self._withdraw(seat)
        if self._dropped:
            self._let_dropped_leave()

    def listen(self, seat: int, wake: Callable[[], bool]) -> None:
        """Have this called once, in place of the seat's bell: at once if that was rung."""

        def listened() -> None:
            if self._bells[seat].acquire(blocking=False):
                wake()
            else:
                self._listeners[seat] = wake

        self.within(listened)

    def listen_no_more(self, seat: int) -> None:
        """Have a seat's bell rung again. Within a collection, `give_up` does that later."""
        if self.refusal is None and not is_collector():
            self.within(lambda: self._listeners.pop(seat, None))

    def ring(self, seat: int) -> None:
        """Wake the thread of a seat that is due. After an exception its caller calls `recover`."""
        with self.lock:
            self._ring(seat)
        if self._dropped:
            self._let_dropped_leave()

    def recover(self, *seats: int) -> None:
        """After an exception in a call, withdraw the call of this seat, and wake all that wait."""
        if self.refusal is not None or self._is_in_a_call():
            # It was refused, and has done nothing.
            return
        while True:
            try:
                free(self.lock)
                with self.lock:
                    self._recover(seats)
                if self._dropped:
                    self._let_dropped_leave()
                return
            except KeyboardInterrupt:
                # The first one goes on, once this is done.
                continue

    def drop(self, seat: int) -> None:
        """Let a seat leave, or the next call do so.

        The collector runs in the midst of any method, so this very thread may have the lock.
        """
        if self.refusal is None:
            self._settle_later(seat, True)

    def refuse(self, error: Type[errors.SeryugoError]) -> None:
        """Have each call from now on fail with this error, before it takes the lock.

        A thread that waits for the lock still gets it.
        """
        self.refusal = error
        self.lock = Refusing(error)

    def refuse_in_child(self) -> None:
        """Do so in a forked child. Another thread may have been in a call, so nothing is freed."""
        self.refuse(errors.Forked)
        self._end.detach()

    def wake_all(self) -> None:
        """Wake all threads and tasks that wait, so that they make their calls again.

        Its caller has the lock.
        """
        for seat in tuple(self._parked):
            self._ring(seat)

    def _settle_later(self, seat: int, leaves: bool) -> None:
        """Withdraw a seat's call, and let it leave, now or as soon as the lock is free."""
        self._dropped.append((seat, leaves))
        if not is_held(self.lock):
            self._let_dropped_leave()

    def _is_in_a_call(self) -> bool:
        """Return whether Python collects here, and this thread may have the lock."""
        return is_collector() and is_held(self.lock)

    def _let_dropped_leave(self) -> None:
        try:
            with self.lock:
                self._leave_all()
        except BaseException:
            free(self.lock)
            raise

    # There is no loop right below `with self.lock`: in Python 3.13 the lock stays locked if a
    # signal's handler raises an exception as such a loop begins anew.

    def _leave_all(self) -> None:
        while self._dropped:
            # To do this twice changes nothing.
            seat, leaves = self._dropped[0]
            if seat in self._parked:
                self._withdraw(seat)
            if leaves:
                calls.leave(self.handle, c_uint64(seat))
            self._wake_next()
            self._dropped.popleft()

    def _recover(self, withdrawn: Tuple[int, ...]) -> None:
        for seat in withdrawn:
            self._withdraw(seat)
        if self.keeper is not None:
            self.keeper.settle(self)
        self.wake_all()

    def _end_wait(self, seat: int, code: int) -> None:
        if code == errors.NoMemory.code:
            # The seat may still be parked.
            self._withdraw(seat)
        self._parked.discard(seat)

    def _withdraw(self, seat: int) -> None:
        library.withdraw(self.handle, seat)
        self._listeners.pop(seat, None)
        self._parked.discard(seat)
        self._bells[seat].acquire(blocking=False)
        self._wake_next()

    def _wake_next(self) -> None:
        if library.next_due(self.handle, self._at_due) == DONE:
            self._ring(self._due.value)

    def _ring(self, seat: int) -> None:
        wake = self._listeners.pop(seat, None)
        if wake is not None:
            if not wake():
                self._withdraw(seat)
            return
        bell = self._bells[seat]
        if bell.locked():
            bell.release()
