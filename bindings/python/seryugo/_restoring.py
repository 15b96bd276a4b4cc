"""Reads the text of a journal, and opens a room after its last entry, or makes a short one."""

from __future__ import annotations

import builtins
import re
from contextlib import contextmanager
from ctypes import byref, c_uint64
from dataclasses import dataclass
from typing import Callable, Iterable, Iterator, Optional, Tuple

from . import _library as library
from . import errors
from ._library import DONE, NOTHING
from ._messages import plain
from .journal import Journal

_NO_JOURNAL = "not a journal"
_BEHIND_ZERO = "a byte 0 ends the text, and other bytes follow it"

# The most bytes of a line that are looked at: a piece's first line has no more.
_LOOKED_AT = 80


@dataclass(frozen=True)
class ValidPrefix:
    """The valid prefix of a torn text: its whole lines, but no piece's first line alone.

    It has this many entries and bytes: cut the text there. `ending` is the line that ends its last
    piece. Write it after these bytes, and the text is a whole journal. It is empty if the last
    piece has its end.

    `sum` is the sum of the last piece with this ending: pass it to `Journal.sealed_text` for the
    next one. If it is `None`, and some bytes are kept, the text has no sums: go on by
    `Journal.text`. If no bytes are kept, choose.
    """

    entries: int
    bytes: int
    ending: builtins.bytes
    sum: Optional[builtins.bytes]


class Lines:
    """How the last lines begin of a text that comes in parts."""

    def __init__(self) -> None:
        # How the last whole line begins, and the line that has no end yet.
        self._last = self._open = b""
        # A byte 0 ends the text.
        self._is_over = False

    def note(self, part: bytes) -> bool:
        """Note the next part. Return whether all bytes after a byte 0 are zeros too."""
        zero = 0 if self._is_over else part.find(b"\0")
        stop = zero if zero >= 0 else len(part)
        if not self._is_over:
            self._note_lines(part, stop)
        self._is_over = zero >= 0
        return not part[stop:].strip(b"\0")

    def _note_lines(self, part: bytes, stop: int) -> None:
        end = part.rfind(b"\n", 0, stop)
        if end >= 0:
            at = part.rfind(b"\n", 0, end) + 1
            begun = b"" if at else self._open
            self._last = (begun + part[at : min(end, at + _LOOKED_AT)])[:_LOOKED_AT]
            self._open = b""
        rest = part[end + 1 : min(stop, end + 1 + _LOOKED_AT)]
        self._open = (self._open + rest)[:_LOOKED_AT]

    def valid_prefix(self, entries: int, kept: int, last: Optional[bytes]) -> ValidPrefix:
        """Return the valid prefix, of this many bytes.

        `last` is the sum of the whole lines, if the text has sums.
        """
        if self._last.startswith(b"journal"):
            words = self._last.split(b" ")
            named = _sum_of(words[2]) if len(words) == 3 else None
            return ValidPrefix(entries, kept, b"", named)
        if not self._last or self._last.startswith(b"end"):
            return ValidPrefix(entries, kept, b"", last)
        ending = f"end {entries} {last.hex()}\n" if last else f"end {entries}\n"
        return ValidPrefix(entries, kept, ending.encode(), last)


def _sum_of(digits: bytes) -> Optional[bytes]:
    """Return the sum that has these digits in a text, if it is one."""
    return bytes.fromhex(digits.decode()) if re.fullmatch(rb"[0-9a-f]{64}", digits) else None


def restored(
    parts: Iterable[bytes], limit: int, is_torn_fine: bool
) -> Tuple[library.Handle, ValidPrefix]:
    """Open a room on a text of these parts, and say what is kept of the text."""
    room, lines = library.Handle(), Lines()
    with _read_from(parts, is_torn_fine, lines) as reading:
        kept = _counted(library.reading_kept, reading)
        prefix = lines.valid_prefix(_entries(reading), kept, _sum(reading))
        code = library.room_restore(byref(reading), limit, byref(room))
        if code != DONE:
            raise errors.of_code(code)
    return room, prefix


def compacted(parts: Iterable[bytes], is_torn_fine: bool = False) -> Journal:
    """Return a short journal that leaves what the journal leaves whose text has these parts.

    It leaves the same objects, with the same messages still to be received. Whatever may follow
    the long journal may follow the short one, with the same replies. The seat with the highest
    number of the long journal made all its entries. Their messages are `bytes`.

    Fails with `Fault`, `Unlawful`, `TextOpen` or `Torn`. If `is_torn_fine`, a text without its end
    is read up to its last whole line.
    """
    journal = Journal({})
    with _read_from(parts, is_torn_fine, Lines()) as reading:
        journal._shorten(byref(reading), library.reading_compact)
    return journal


@contextmanager
def _read_from(
    parts: Iterable[bytes], is_torn_fine: bool, lines: Lines
) -> Iterator[library.Handle]:
    """Read these parts to their end, and close the reading after the block."""
    reading = library.Handle()
    code = library.reading_open(byref(reading))
    if code != DONE:
        raise errors.of_code(code)
    try:
        _read(reading, parts, lines)
        code = library.reading_end(byref(reading))
        if code == errors.NoJournal.code:
            raise errors.Fault(1, _NO_JOURNAL)
        if code != DONE and not is_torn_fine:
            raise errors.TextOpen if code == errors.TextOpen.code else errors.Torn
        yield reading
    finally:
        library.close(reading)


def _read(reading: library.Handle, parts: Iterable[bytes], lines: Lines) -> None:
    for part in parts:
        if not isinstance(part, bytes):
            raise TypeError(f"a part of a text is bytes, and not {type(part).__name__}")
        part = plain(part)
        code = library.reading_take(byref(reading), part, len(part))
        if code != DONE:
            raise _stopped(reading, code)
        if not lines.note(part):
            count = _lines(reading)
            raise errors.Fault(count + 1, _BEHIND_ZERO if count else _NO_JOURNAL)


def _entries(reading: library.Handle) -> int:
    return _counted(library.reading_entries, reading)


def _lines(reading: library.Handle) -> int:
    return _counted(library.reading_lines, reading)


def _counted(count: Callable[..., int], reading: library.Handle) -> int:
    counted = c_uint64()
    count(byref(reading), byref(counted))
    return counted.value


def _sum(reading: library.Handle) -> Optional[bytes]:
    """Return the sum of the last piece that was read, or of its whole lines."""
    last = library.Sum()
    code = library.reading_sum(byref(reading), byref(last))
    if code not in (DONE, NOTHING):
        raise errors.of_code(code)
    return bytes(last.bytes) if last.is_there else None


def _stopped(reading: library.Handle, code: int) -> errors.SeryugoError:
    """Return why the reading of a text has stopped."""
    if code == errors.Fault.code:
        line = _lines(reading) + 1
        return errors.Fault(line, library.reading_fault(byref(reading), line))
    if code == errors.Unlawful.code:
        return errors.Unlawful(_entries(reading))
    return errors.of_code(code)
