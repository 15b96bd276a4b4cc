"""Why a call failed."""

from __future__ import annotations

import os
from typing import Any, Dict, Optional, Tuple, Type


class SeryugoError(Exception):
    """A call was refused. It has changed nothing."""

    # What the library returns for it.
    code = 0
    words = "the call was refused"

    def __init__(self, words: Optional[str] = None) -> None:
        super().__init__(self.words if words is None else words)


class Gone(SeryugoError):
    """The seat can't make this call: it has left, or another thread is in a call of it."""

    code = 5
    words = "the seat has left, or another thread is in a call of it"


class Busy(SeryugoError):
    """A lane or a feed is open, so that the journal can't be cut."""

    code = 6
    words = "a lane or a feed is open"


class NoSuch(SeryugoError):
    """The object is another switchboard's, or the journal has no entry at this position."""

    code = 7
    words = "there is no such object"


class WrongKind(SeryugoError):
    """The object can't take this call."""

    code = 8
    words = "the object can't take this call"


class JournalFull(SeryugoError):
    """The journal has as many entries since the last cut as its limit says.

    Cut it or take it, and call again.
    """

    code = 9
    words = "the journal is full: cut it or take it"


class Stalled(SeryugoError):
    """The call would block, and all other seats are blocked or have left.

    No thread could answer it.
    """

    code = 10
    words = "the call would block for ever: all other seats are blocked or have left"


class NoMemory(SeryugoError, MemoryError):
    """There was no memory for the call."""

    code = 11
    words = "no memory"


class Closed(SeryugoError):
    """The port is closed."""

    code = 3
    words = "the port is closed"


class OutOfBounds(SeryugoError, ValueError):
    """A limit isn't from 1 to 2^32, or a message has more than 2^32 - 1 bytes."""

    code = 16
    words = "a limit isn't from 1 to 2^32, or a message has more than 2^32 - 1 bytes"


class Unreadable(SeryugoError, UnicodeDecodeError):
    """A message isn't UTF-8, though its object was named as one of `str`.

    The call was made: if it receives, it has received the message. `object` has its bytes.
    """

    def __init__(self, encoding: str, message: bytes, start: int, end: int, reason: str) -> None:
        UnicodeDecodeError.__init__(self, encoding, message, start, end, reason)


class Unlawful(SeryugoError):
    """A checked journal is no lawful history of one thread.

    `position` has the first entry that isn't lawful.
    """

    code = 17

    def __init__(self, position: int) -> None:
        super().__init__(f"the entry at position {position} isn't lawful")
        self.position = position

    def __reduce__(self) -> Tuple[Any, ...]:
        return type(self), (self.position,)


class Fault(SeryugoError):
    """The text of a journal has a fault. `line` has its line, counted from 1."""

    code = 18

    def __init__(self, line: int, why: Optional[str] = None) -> None:
        words = f"the journal's text has a fault on line {line}"
        super().__init__(f"{words}: {why}" if why else words)
        self.line = line
        self._why = why

    def __reduce__(self) -> Tuple[Any, ...]:
        return type(self), (self.line, self._why)


class Torn(SeryugoError):
    """The text of a journal has no end: it ends within a line, or is empty."""

    code = 19
    words = "the journal's text ends within a line, or is empty"


class TextOpen(Torn):
    """The last piece of a journal's text has no end: a program still writes it, or was stopped."""

    code = 22
    words = "the last piece of the journal's text has no end"


class TooLong(SeryugoError):
    """No reader would take the line that a message has in a journal's text.

    A file and `when_full` take 1,398,000 bytes of a message, and of both messages of a swap.
    """

    code = 20
    words = "a message of the journal is so long that no reader would take its line"


class BoardClosed(SeryugoError):
    """The switchboard was closed."""

    words = "the switchboard was closed"


class KeptInFile(SeryugoError):
    """The journal is kept in a file, which alone cuts it."""

    words = "the journal is kept in a file, which alone cuts it"


class NoJournal(SeryugoError):
    """The file isn't a journal. It stays as it was."""

    code = 23
    words = "the file is no journal"


class FileBusy(SeryugoError):
    """Another switchboard or another program has the file open."""

    code = 24
    words = "another switchboard or program has the file"


class OtherVersion(SeryugoError):
    """The file is a journal of a version that this library doesn't know. It stays as it was."""

    code = 25
    words = "the journal is of another version"


class OtherMessages(SeryugoError):
    """The messages of the file's journal are numbers, not bytes. It stays as it was."""

    code = 26
    words = "the journal has messages of another type"


class BeginsLater(SeryugoError):
    """The file's journal begins after a cut: its objects aren't known. It stays as it was."""

    code = 27
    words = "the journal begins after a cut"


class _FileError(SeryugoError, OSError):
    """The system refused something. `errno` is its number, or `None` if it gave none.

    `__cause__` is the system's own error, if it gave a number.
    """

    def __init__(
        self, words: Optional[str] = None, number: int = 0, path: Optional[str] = None
    ) -> None:
        self._all = (words, number, path)
        words = words or self.words
        if number:
            OSError.__init__(self, number, words, path)
            self.__cause__ = OSError(number, os.strerror(number), path)
        else:
            OSError.__init__(self, f"{path}: {words}" if path else words)

    def __reduce__(self) -> Tuple[Any, ...]:
        return type(self), self._all


class FileFailed(_FileError):
    """The system refused a call on the file while it was opened. What it has is still there."""

    code = 28
    words = "the file can't be opened"


class FileFull(_FileError):
    """The disk is full, or the file may not grow. The call wasn't made: make it again later."""

    code = 29
    words = "there is no room for the journal's file"


class FileLost(_FileError):
    """The file has failed, or another program changed it. Each later call fails so too.

    Nobody knows whether this call is in the file. Close the switchboard, and open the file again.
    """

    code = 30
    words = "the file has failed, or was changed"


class Forked(SeryugoError):
    """The switchboard is the parent's: a process that was forked can't use it."""

    code = 31
    words = "a process that was forked can't use the switchboard of its parent"


_KINDS: Tuple[Type[SeryugoError], ...] = (
    Closed,
    Gone,
    Busy,
    NoSuch,
    WrongKind,
    JournalFull,
    Stalled,
    NoMemory,
    OutOfBounds,
    TooLong,
    NoJournal,
    FileBusy,
    OtherVersion,
    OtherMessages,
    BeginsLater,
    FileFailed,
    FileFull,
    FileLost,
    Forked,
)

# What the library returns for an object that Python has collected, in a cycle with its user.
COLLECTED = 15

_BY_CODE: Dict[int, Type[SeryugoError]] = {kind.code: kind for kind in _KINDS}


def of_code(code: int, named: object = None) -> SeryugoError:
    """Return the error for what the library has returned: a refusal, or that a port is closed.

    If the call was on an object, `NoSuch` and `WrongKind` name it.
    """
    if code == COLLECTED:
        return SeryugoError("Python has collected the switchboard or the journal")
    kind = _BY_CODE.get(code)
    if kind is None:
        return SeryugoError(f"the library returned {code}")
    if named is not None and kind in (NoSuch, WrongKind):
        return kind(f"{kind.words}: {named!r}")
    return kind()


def of_file(code: int, path: str, words: Optional[str], number: int) -> SeryugoError:
    """Return the error for what a call on a journal's file has returned.

    It has the cause in words and as errno, or 0, if the library gave them.
    """
    kind = _BY_CODE.get(code)
    if kind is None:
        return of_code(code)
    if issubclass(kind, _FileError):
        return kind(words, number, path)
    return kind(f"{path}: {words}" if words else None)
