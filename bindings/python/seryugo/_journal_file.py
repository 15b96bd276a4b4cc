"""A journal that is kept in a file, by the library's part in C.

Before each call of a seat the file gets room for its entry. After it the entry is stored, before
the room's lock is released. So each call that returned survives the end of the process.
"""

from __future__ import annotations

import os
import warnings
import weakref
from ctypes import byref, c_uint64, c_void_p, get_errno
from functools import partial
from typing import Any, Callable, NamedTuple, Optional, Tuple, Union

from . import _library as library
from . import errors
from ._library import DONE, NOTHING, PARKED
from ._lock import free, new_lock, refuse_in_a_call
from ._room import AGAIN, TOO_LONG, Keeper, Room, message_size

Path = Union[str, bytes, "os.PathLike[str]", "os.PathLike[bytes]"]

# The rooms with a file, which a forked child must not use.
_rooms: weakref.WeakSet[Room] = weakref.WeakSet()

# As the library numbers the levels at which a call is kept.
LEVELS = {"process": 0, "disk": 1}
DISK = LEVELS["disk"]


def _after_fork() -> None:
    for room in tuple(_rooms):
        room.refuse_in_child()


os.register_at_fork(after_in_child=_after_fork)


class Recovered(NamedTuple):
    """What opening a journal's file found, before it exchanged the file for a short one.

    It read this many `entries` and `lines`, and kept the first `kept` bytes. After these it cut
    off `cut_off` bytes, such as a line whose call never returned, and zeros. If these were more
    than a line has, the file of the path `saved` has them. `is_new`: there was no file.

    `is_shortened`: the file was exchanged for a short one. If it should have been, and wasn't,
    `not_shortened` says why in words. The journal goes on in the old file.
    """

    entries: int
    lines: int
    kept: int
    cut_off: int
    saved: Optional[str]
    is_new: bool
    is_shortened: bool
    not_shortened: Optional[str]


class FileKeeper(Keeper):
    """Keeps a room's journal in a file. `made`, `cut` and `settle` need the room's lock."""

    def __init__(self, room: Room, path: Path) -> None:
        """Keep nothing until `open` has opened the file."""
        self.path = os.fsdecode(path)
        # Up to where the file has entries; and of a closed file why its end isn't on the disk.
        self._position = c_uint64()
        self._failure: Optional[errors.SeryugoError] = None
        self._process = os.getpid()
        self._handle = room.handle
        self._room_lock = room.lock
        self._at = c_void_p()
        # The thread that takes the file out of this closes it.
        self._unclosed = {"file": self._at}
        # Set under the room's lock: then no call uses the file.
        self._is_closed = False
        # A thread that waits for the disk or closes the file holds this. Only then the room's lock
        # may be taken.
        self._lock = new_lock()
        weakref.finalize(room, self._end)
        _rooms.add(room)

    def open(self, limit: int, options: library.FileOptions) -> Recovered:
        """Open the file, and the room on what is in it. The library writes both before it returns.

        So they are closed even if a signal's handler raises an exception then.
        """
        name, found = os.fsencode(self.path), library.FileFound()
        if b"\0" in name:
            raise ValueError("a path has no byte 0")
        self.is_on_disk = options.keep == DISK
        at = (byref(options), self._handle, byref(found), byref(self._at))
        code = library.file_open(name, library.BYTES, limit, *at)
        if code != DONE:
            raise self._refused(code, found)
        saved = os.fsdecode(found.saved)
        if saved:
            saved = os.path.join(os.path.dirname(os.path.realpath(self.path)), saved)
        return Recovered(
            found.entries,
            found.lines,
            found.kept,
            found.cut_off,
            saved or None,
            found.is_new,
            found.is_shortened,
            found.words.decode(errors="replace") or None,
        )

    def made(self, room: Room, call: Callable[..., int], arguments: Tuple[Any, ...]) -> int:
        """Make a call, and store its entry. It fails if that can't be done."""
        if self._is_closed:
            raise errors.BoardClosed
        if arguments[-2] is AGAIN and self._sleeps_on(arguments[0]):
            return PARKED
        size = message_size(room, call, arguments)
        code = library.file_reserve(self._at, self._handle, c_uint64(size))
        if code != DONE:
            raise self._error(code)
        code = super().made(room, call, arguments)
        noted = self._note()
        if noted != DONE:
            if code == DONE and getattr(arguments[-1], "_obj", None) is room.message:
                library.taken_over(room.message)
            raise self._error(noted)
        return code

    def cut(self, room: Room) -> None:
        """Store the entries of calls that a signal's handler interrupted. That cuts the journal."""
        self._note()

    def settle(self, room: Room) -> None:
        # If this fails, so does the next call.
        if not self._is_closed:
            self._note()

    def wait(self) -> None:
        """Wait until all that was stored before is on the disk.

        Another thread may close the file meanwhile, which syncs it.
        """
        refuse_in_a_call(self._lock, self._room_lock)
        position = self._position.value
        try:
            with self._lock:
                if not self._is_closed:
                    code = library.file_wait(self._at, position)
                    if code != DONE:
                        raise self._error(code)
                elif self._failure is not None:
                    raise self._failure
        except BaseException:
            free(self._lock)
            raise

    def close(self, room: Room) -> None:
        """Store what is pending, sync, and close the file. Each later call is refused.

        If it was closed, do nothing. If this fails, the file is closed too.
        """

        def refuse() -> None:
            room.refuse(errors.BoardClosed)
            room.wake_all()

        refuse_in_a_call(self._lock, self._room_lock)
        failure = self._close(refuse)
        if failure is not None:
            raise failure

    def _close(self, refuse: Callable[[], None]) -> Optional[errors.SeryugoError]:
        """Close the file, and return why that failed, if it did."""
        try:
            with self._lock:
                return self._close_once(refuse) if self._unclosed else None
        except BaseException:
            free(self._lock)
            free(self._room_lock)
            raise

    def _close_once(self, refuse: Callable[[], None]) -> Optional[errors.SeryugoError]:
        with self._room_lock:
            code = DONE if self._is_closed else self._note()
            self._is_closed = True
            refuse()
        if code == DONE:
            code = library.file_sync(self._at)
        failure = None if code == DONE else self._error(code)
        # No signal's handler runs between these two steps, so that both are made or neither is.
        take: Any = self._unclosed.pop
        closed = list(map(library.file_close, iter(partial(take, "file", None), None)))
        cause = get_errno()
        if failure is None and closed not in ([], [DONE]):
            words = "the file's end was not cut off or not synced"
            words += f": {os.strerror(cause)}" if cause else ""
            failure = errors.FileLost(words, cause, self.path)
        self._failure = failure
        return failure

    def _end(self) -> None:
        """Close the file of a room that was dropped, or is still there as the interpreter ends."""
        if not (self._at and self._unclosed) or os.getpid() != self._process:
            return
        failure = self._close(lambda: None)
        if failure is not None:
            # The interpreter prints this, since nobody can catch it.
            raise failure
        warnings.warn(f"the switchboard of {self.path!r} was not closed", ResourceWarning)

    def _note(self) -> int:
        """Store all entries that aren't stored yet, and return the code of the library."""
        return library.file_note(self._at, self._handle, byref(self._position))

    def _sleeps_on(self, seat: c_uint64) -> bool:
        """Return whether a seat was woken for nothing, so that the file need not have room."""
        is_due = library.is_due(self._handle, seat) != NOTHING
        return not is_due and library.file_state(self._at) == DONE

    def _error(self, code: int) -> errors.SeryugoError:
        """Return the error of a call on the open file."""
        if code == errors.TooLong.code:
            return errors.TooLong(TOO_LONG)
        if code not in (errors.FileFull.code, errors.FileLost.code):
            return errors.of_code(code)
        return errors.of_file(code, self.path, *library.file_error(self._at))

    def _refused(self, code: int, found: library.FileFound) -> errors.SeryugoError:
        """Return the error of a file that can't be opened."""
        words = found.words.decode(errors="replace")
        if code == errors.Fault.code:
            return errors.Fault(found.lines + 1, f"{self.path}: {words}")
        if code == errors.Unlawful.code:
            return errors.Unlawful(found.entries)
        return errors.of_file(code, self.path, words, found.error)
