"""Entries of the journal, a journal that was taken, and its check."""

from __future__ import annotations

import enum
import weakref
from ctypes import byref, c_uint64
from dataclasses import dataclass
from typing import Any, Callable, Dict, Iterator, Optional, Tuple

from . import _library as library
from . import errors
from ._calls import ON_NO_OBJECT, WITH_MESSAGE
from ._calls import CallKind as CallKind
from ._library import DONE
from ._lock import new_lock, refuse_in_a_call
from ._messages import BYTES, Codec, Message, read_by
from ._unpicklable import Unpicklable


# What a count has until the library writes it. No list is so long.
_UNWRITTEN = 2**64 - 1


class MakerKind(enum.Enum):
    """What makes calls."""

    SEAT = 0
    LANE = 1
    FEED = 2


class ReplyKind(enum.Enum):
    """What a call returned."""

    DONE = 0
    MADE = 1
    GOT = 2
    NOTHING = 3
    PUT = 4
    CLOSED = 5


@dataclass(frozen=True)
class Maker:
    """Who made a call: a seat, a lane or a feed, by its number."""

    kind: MakerKind
    number: int


@dataclass(frozen=True)
class Call:
    """A call, with the number of its object and the message that it sent, if it has them."""

    kind: CallKind
    object: Optional[int] = None
    message: Optional[Message] = None


@dataclass(frozen=True)
class Reply:
    """What a call returned, with the object's number that it made or the message, if any."""

    kind: ReplyKind
    made: Optional[int] = None
    message: Optional[Message] = None


@dataclass(frozen=True)
class Entry:
    """One accepted call.

    A message has its object's type. If an object of `str` has one that isn't UTF-8, it is `bytes`.
    """

    maker: Maker
    call: Call
    reply: Reply


def _bytes_at(place: library.Place) -> bytes:
    data: bytes = place.at[: place.length]
    return data


def entry_of(found: library.Entry, codecs: Dict[int, Codec[Any]]) -> Entry:
    """Copy an entry that the library has handed over, and free it."""
    try:
        call, reply = CallKind(found.call.kind), ReplyKind(found.reply.kind)
        made = found.reply.name if reply is ReplyKind.MADE else None
        on = None if call in ON_NO_OBJECT else found.call.object
        named = made if call is CallKind.MVAR_INIT else on
        codec = BYTES if named is None else codecs.get(named, BYTES)
        sent = read_by(codec, _bytes_at(found.call.message)) if call in WITH_MESSAGE else None
        got = read_by(codec, _bytes_at(found.reply.message)) if reply is ReplyKind.GOT else None
        maker = Maker(MakerKind(found.maker.kind), found.maker.number)
        return Entry(maker, Call(call, on, sent), Reply(reply, made, got))
    finally:
        library.entry_free(found)


class Start:
    """A text begins with a short journal, or with nothing.

    A call that makes a later start has the library write its length, or cut the journal. Since a
    signal's handler may raise an exception as soon as the library returns, the length or the cut
    says whether it did.
    """

    def __init__(
        self, cut: int, length: c_uint64, is_made: Optional[Callable[[], bool]] = None
    ) -> None:
        """Begin with a short journal of this length, which stands for this many entries."""
        self._cut = cut
        self._length = length
        self._is_made = is_made or (lambda: length.value != _UNWRITTEN)
        self._later: Optional[Start] = None

    def follow_by(self, later: Start) -> None:
        """Name the start that a call is to make."""
        self._later = later

    def latest(self) -> Start:
        """Return the start that was made last: this one or the one that follows."""
        later = self._later
        return later if later is not None and later._is_made() else self

    def settled(self) -> Start:
        """Return the latest start. A later one that isn't made by now is never made."""
        latest = self.latest()
        latest._later = None
        return latest

    def place(self, position: int) -> int:
        """Return where an entry is in the text. Its position counts since the room was made."""
        return position - self._cut + self._length.value


def at_nothing() -> Start:
    """Return the start of a text that begins with a room's first entry."""
    return Start(0, c_uint64())


class Journal(Unpicklable):
    """The entries that a switchboard's journal had when it was taken, oldest first.

    Any thread may read it. It waits for no call on the switchboard. `start` has the position of
    its first entry, counted since the switchboard was made, or made short by `compact_and_cut`.
    """

    _instead = "pickle its `text()`"

    def __init__(self, codecs: Dict[int, Codec[Any]], text: Optional[Start] = None) -> None:
        """Make one without entries, which is to be added to this text. `_take` gives it some."""
        handle = library.Handle()
        weakref.finalize(self, library.close_for_good, handle).atexit = False
        self._handle = byref(handle)
        self._text = text or at_nothing()
        self._start = c_uint64()
        self._count = c_uint64()
        self._codecs = codecs
        self._lock = new_lock()

    @property
    def start(self) -> int:
        return self._text.place(self._start.value)

    def __len__(self) -> int:
        return self._count.value

    def __iter__(self) -> Iterator[Entry]:
        return (self._entry(place) for place in range(len(self)))

    def text(self) -> bytes:
        """Return the entries as text: one piece of a journal, which `cml check` reads.

        The texts of all journals that were taken, one after the other, are the switchboard's
        history. `Switchboard.restore` goes on from it. Fails with `TooLong` if a message is so
        long that no reader would take its line.
        """
        text = library.Bytes()
        refuse_in_a_call(self._lock)
        with self._lock:
            code = library.journal_text(self._handle, self.start, byref(text))
        if code != DONE:
            raise errors.of_code(code)
        return library.taken_over(text)

    def sealed_text(self, after: Optional[bytes]) -> Tuple[bytes, bytes]:
        """Return the entries as a piece with a sum, which shows damage, and the sum.

        `after` is the sum of the piece before, and `None` for the first piece of a text. All
        pieces of a text have sums, or none has. If a reader finds a byte changed, or a piece left
        out, doubled or exchanged, it fails with `Fault`. The last sum names the whole text: keep
        it elsewhere, and nobody can write another text in its place unseen.

        Fails with `TooLong` as `text` does. Then the next piece follows `after`.
        """
        text, last = library.Bytes(), library.Sum()
        if after is not None:
            if not isinstance(after, bytes):
                raise TypeError(f"a sum is bytes, and not {type(after).__name__}")
            if len(after) != library.SUM_LENGTH:
                raise ValueError(f"a sum has {library.SUM_LENGTH} bytes, and not {len(after)}")
            last.is_there = True
            last.bytes[:] = after
        refuse_in_a_call(self._lock)
        with self._lock:
            code = library.sealed_text(self._handle, self.start, byref(last), byref(text))
        if code != DONE:
            raise errors.of_code(code)
        return library.taken_over(text), bytes(last.bytes)

    def _begin(self, cut: int) -> Start:
        """Return the start of a text that begins with this short journal, made at this cut.

        Until the library writes how many it has, nothing is begun.
        """
        self._count.value = _UNWRITTEN
        return Start(cut, self._count)

    def _begin_once_cut(self, cut: int, room: Any) -> Start:
        """Return the same, where nothing is begun until the room's journal is cut there."""
        now = c_uint64()

        def is_cut() -> bool:
            library.cut_at(room, byref(now))
            return now.value >= cut

        return Start(cut, self._count, is_cut)

    def _shorten(self, made: Any, compact: Callable[..., int]) -> None:
        """Take the entries of a short journal that leaves what a reading has read, or a room has.

        For a room, its caller has the room's lock.
        """
        code = compact(made, self._handle, byref(self._count))
        if code != DONE:
            raise errors.of_code(code)

    def _is_stood_for(self) -> bool:
        """Return whether a later text begins, which stands for these entries too."""
        return self._text.latest() is not self._text

    def _take(self, room: Any, take: Callable[..., int]) -> None:
        """Take the entries of a room's journal by this call, with the room's lock.

        The library writes here what it takes, before any signal's handler can run.
        """
        library.cut_at(room, byref(self._start))
        code = take(room, self._handle, byref(self._count))
        if code != DONE:
            raise errors.of_code(code)

    def _entry(self, place: int) -> Entry:
        found = library.Entry()
        refuse_in_a_call(self._lock)
        with self._lock:
            code = library.taken_entry(self._handle, place, byref(found))
        if code != DONE:
            raise errors.of_code(code)
        return entry_of(found, self._codecs)


class Checker(Unpicklable):
    """Says how far the journals of one switchboard are a lawful history of one thread.

    It keeps no entry.
    """

    _instead = "feed another one the same journals"

    def __init__(self) -> None:
        handle = library.Handle()
        code = library.checker_open(byref(handle))
        if code != DONE:
            raise errors.of_code(code)
        weakref.finalize(self, library.close_for_good, handle).atexit = False
        self._handle = byref(handle)
        self._lock = new_lock()
        # How many entries the journals had that were fed whole.
        self._whole = 0

    def feed(self, journal: Journal) -> int:
        """Check the journal that was taken next, and return how many entries are lawful so far.

        Fails with `Unlawful` once an entry isn't lawful, and then each time. If it fails with
        `NoMemory`, feed the same journal again: the check goes on where it ended.
        """
        count = c_uint64()
        refuse_in_a_call(self._lock, journal._lock)
        with self._lock, journal._lock:
            library.checker_verdict(self._handle, byref(count))
            place = count.value - self._whole
            code = library.checker_feed_journal(self._handle, journal._handle, place)
            verdict = library.checker_verdict(self._handle, byref(count))
            if code == DONE:
                self._whole = count.value
        if verdict == errors.Unlawful.code:
            raise errors.Unlawful(count.value)
        if code != DONE:
            raise errors.of_code(code)
        return count.value


def check(*journals: Journal) -> int:
    """Check all journals that were taken of a switchboard, and return how many entries they have.

    Name them in order, from the first. Fails with `Unlawful` at the first entry that isn't lawful.
    """
    checker = Checker()
    count = 0
    for journal in journals:
        count = checker.feed(journal)
    return count
