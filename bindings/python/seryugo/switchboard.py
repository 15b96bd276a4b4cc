"""A switchboard, on which threads call and wait."""

from __future__ import annotations

import operator
from ctypes import byref, c_uint64
from types import TracebackType
from typing import Any, Callable, Iterable, Optional, Type, TypeVar, Union

from . import _library as library
from . import errors
from ._calls import CHANNEL, IVAR, MAILBOX, MVAR, PORT
from ._journal_file import LEVELS, FileKeeper, Path, Recovered
from ._keeping import MESSAGE_MOST, Sink, SinkKeeper
from ._library import DONE, MOST, NOTHING
from ._messages import Codec, T, codec_of
from ._restoring import ValidPrefix, restored
from ._room import Room
from ._unpicklable import Unpicklable
from .journal import Entry, Journal, entry_of
from .objects import (
    Channel,
    IVar,
    Mailbox,
    MVar,
    Object,
    Port,
    Source,
    Variable,
    name_in,
    owed_to,
)
from .seat import Seat

R = TypeVar("R")

# Of seconds between two syncs. That is thirty years.
_LONGEST = 1e9


class Switchboard(Unpicklable):
    """Objects, the journal of every accepted call, and the seats from which threads call.

    The journal takes `limit` entries between two cuts, from 1 to 2^32. A call that finds it full
    fails with `JournalFull`. If there is a `when_full`, such a call has the journal cut, calls
    `when_full` with the entries that it had, under the lock, and is then made. If that raises an
    exception, the call fails with it. The switchboard keeps the entries, and the next call hands
    them over first.

    With a `when_full` a message of more than 1,398,000 bytes fails with `TooLong` as it is sent,
    since no text could have it. Of a swap both messages count. With `drop_entries` none does.

    `when_full` must not call the switchboard: it would wait for ever. If Ctrl-C comes just as it
    returns, it may be called with the same journal once more, which has the same `start`.

    At the end of a `with` block it hands the journal's last entries to `when_full`, by `keep`. If
    the journal is kept in a file (`open`), the file takes all entries, so that the limit fails no
    call, and the end of a `with` block closes the switchboard. Nothing else cuts that journal: what
    would fails with `KeptInFile`.
    """

    _instead = "pickle the text of its journal, and restore it"

    # What takes the entries, if something does.
    _sink: Optional[SinkKeeper] = None
    _file: Optional[FileKeeper] = None

    _restored_from: Optional[ValidPrefix] = None
    _recovered: Optional[Recovered] = None

    def __init__(self, limit: int = 65_536, when_full: Optional[Sink] = None) -> None:
        room = library.Handle()
        code = library.room_open(_bounded(limit), byref(room))
        if code != DONE:
            raise errors.of_code(code)
        self._room = Room(room)
        self._keep_by(when_full)

    def __enter__(self) -> Switchboard:
        return self

    def __exit__(
        self,
        kind: Optional[Type[BaseException]],
        error: Optional[BaseException],
        trace: Optional[TracebackType],
    ) -> None:
        self.close()

    @classmethod
    def _open(cls, path: Path, limit: int, options: library.FileOptions) -> Switchboard:
        board = cls.__new__(cls)
        # They have what the library opens, from the moment on at which it does.
        board._room = room = Room(library.Handle(), is_fast=False)
        board._file = room.keeper = FileKeeper(room, path)
        board._recovered = board._file.open(_bounded(limit), options)
        return board

    @classmethod
    def restore(
        cls,
        parts: Iterable[bytes],
        limit: int = 65_536,
        is_torn_fine: bool = False,
        when_full: Optional[Sink] = None,
    ) -> Switchboard:
        """Make a switchboard that goes on after the last entry of a text.

        The text is all that `Journal.text` returned, in order, in parts of any size: a file that
        is open for reading bytes will do. The switchboard has the objects, and what waits in
        them, but no seats. Name an object again by its number, as `mailbox(0, str)` does.

        Fails with `Fault`, `Unlawful`, `TextOpen` or `Torn`. If `is_torn_fine`, a text without its
        end is read up to its last whole line. `restored_from` says how many entries these are, how
        to end the text, and which sum the next piece follows.
        """
        board = cls.__new__(cls)
        room, board._restored_from = restored(parts, _bounded(limit), is_torn_fine)
        board._room = Room(room)
        board._keep_by(when_full)
        return board

    @property
    def recovered(self) -> Optional[Recovered]:
        """What `open` found in the journal's file, or None without a file."""
        return self._recovered

    @property
    def restored_from(self) -> Optional[ValidPrefix]:
        """What is kept of the text that this was restored from, or None if it began at nothing.

        Later calls don't change it.
        """
        return self._restored_from

    def mailbox(self, number: int, of: Type[T]) -> Mailbox[T]:
        """Name the mailbox of this number again. `of` is the type that its messages had."""
        return Mailbox(self._room, number, self._codec(number, MAILBOX, of))

    def channel(self, number: int, of: Type[T]) -> Channel[T]:
        """Name the channel of this number again."""
        return Channel(self._room, number, self._codec(number, CHANNEL, of))

    def port(self, number: int, of: Type[T]) -> Port[T]:
        """Name the port of this number again."""
        return Port(self._room, number, self._codec(number, PORT, of))

    def ivar(self, number: int, of: Type[T]) -> IVar[T]:
        """Name the i-variable of this number again."""
        return IVar(self._room, number, self._codec(number, IVAR, of))

    def mvar(self, number: int, of: Type[T]) -> MVar[T]:
        """Name the m-variable of this number again."""
        return MVar(self._room, number, self._codec(number, MVAR, of))

    def seat(self) -> Seat:
        """Make a seat.

        Make all seats before the first thread blocks: while one is free no call fails with
        `Stalled`.
        """
        return Seat(self._room, *self._room.seat())

    def take_journal(self) -> Journal:
        """Cut the journal, and return the entries that it had."""
        return self._taken(library.take_journal)

    def take_journal_open(self) -> Journal:
        """Cut the journal as `cut_open` does, and return the entries that it had."""
        return self._taken(library.take_journal_open)

    def compact(self) -> Journal:
        """Return a short journal that leaves what all calls leave.

        It leaves the same objects, with the same messages still to be received. Whatever may
        follow these calls may follow it, with the same replies. Its length depends only on what
        is left. The last seat that was made makes all its entries. The journal stays as it is.
        Other threads that call wait meanwhile.
        """
        room = self._room

        def compacted() -> Journal:
            journal = Journal(room.codecs)
            journal._shorten(room.handle, library.compact)
            return journal

        journal = room.within(compacted)
        room.settle()
        return journal

    def compact_and_cut(self) -> Journal:
        """Return a short journal as `compact` does, and cut the journal at the same moment.

        So write its text in place of all that was written before, and write what is taken next
        after it: `start` counts from its beginning. `cut_at` and `entry` go on to count since the
        switchboard was made. It also stands for entries that `when_full` didn't take.

        If there is a `when_full`, and other threads call, use `compact_with`: else another thread
        may hand what follows to `when_full` before you have the short journal.

        If Ctrl-C comes just as it returns, call it again: the next short journal stands for all.
        """
        room = self._room_to_cut()

        def compacted() -> Journal:
            entries = c_uint64()
            library.entries(room.handle, byref(entries))
            journal = Journal(room.codecs)
            # The journal is cut after the last entry that there is now.
            room.text_start().follow_by(journal._begin(entries.value))
            journal._shorten(room.handle, library.compact_and_cut)
            if self._sink:
                self._sink.forget()
            return journal

        return room.within(compacted)

    def compact_with(self, keep: Callable[[Journal], R]) -> R:
        """Make a short journal as `compact` does, and call `keep` with it.

        If that returns, cut the journal as `compact_and_cut` does, and return the same. Other
        threads wait meanwhile, so that `when_full` is handed nothing between. `keep` must not
        call the switchboard: it would wait for ever. If `keep` raises an exception, nothing is
        cut.

        If Ctrl-C comes just as `keep` returns, what it wrote may stand for nothing yet: call this
        again.
        """
        room = self._room_to_cut()

        def compacted() -> R:
            entries = c_uint64()
            library.entries(room.handle, byref(entries))
            journal = Journal(room.codecs)
            journal._shorten(room.handle, library.compact)
            kept = keep(journal)
            begun = journal._begin_once_cut(entries.value, room.handle)
            room.text_start().follow_by(begun)
            library.cut_open(room.handle)
            if self._sink:
                self._sink.forget()
            return kept

        return room.within(compacted)

    def keep(self) -> None:
        """Cut the journal now, and hand its entries to `when_full`. Without one do nothing."""
        room, sink = self._room_to_cut(), self._sink
        if sink is not None:
            cut = sink.cut
            room.within(lambda: cut(room))

    def sync(self) -> None:
        """Wait until the entries of all calls that returned are on the disk.

        Blocks for as long as the disk takes, and other threads may call meanwhile. Fails with
        `FileLost` if that can't be done. Without a file do nothing.
        """
        if self._room.refusal is not None:
            raise self._room.refusal
        self._room.wait()

    def close(self) -> None:
        """Store what is pending, sync the file, and close it. Later calls fail with `BoardClosed`.

        Blocks for as long as the disk takes. Calls that wait fail so too, and seats need not leave.
        Fails with `FileLost` or `FileFull` if entries aren't on the disk; the file is closed in any
        case. Do nothing if it was closed, or in a child of a fork. Without a file do what `keep`
        does, and close nothing.
        """
        if self._file is None:
            self.keep()
        elif self._room.refusal is not errors.Forked:
            self._file.close(self._room)

    def cut(self) -> None:
        """Cut the journal: drop its entries, so that it takes as many again.

        The objects keep what they have. Entries that `when_full` didn't take are dropped too.
        """
        self._room_to_cut().within(lambda: self._cut(library.cut))

    def cut_open(self) -> None:
        """Cut the journal also while lanes and feeds are open, which go on.

        This package opens none, so that here it does what `cut` does.
        """
        self._room_to_cut().within(lambda: self._cut(library.cut_open))

    def reserve(self, entries: int) -> None:
        """Allocate memory for this many more entries."""
        entries = operator.index(entries)
        if not 0 <= entries <= MOST:
            raise errors.NoMemory
        code = self._room.do(library.reserve, entries)
        if code != DONE:
            raise errors.of_code(code)

    def entry(self, position: int) -> Entry:
        """Return the journal's entry at this position.

        It is counted from 0 since the switchboard was made. Fails with `NoSuch` if there is none
        yet, or if it was cut away.
        """
        found = library.Entry()
        code = errors.NoSuch.code
        position = operator.index(position)
        if 0 <= position <= MOST:
            code = self._room.do(library.entry, position, byref(found))
        if code == errors.NoSuch.code:
            raise errors.NoSuch(f"the journal has no entry at position {position}")
        if code != DONE:
            raise errors.of_code(code)
        return entry_of(found, self._room.codecs)

    @property
    def entries(self) -> int:
        """How many calls were accepted since the switchboard was made."""
        return self._room.count(library.entries)

    @property
    def cut_at(self) -> int:
        """How many of these entries were cut away."""
        return self._room.count(library.cut_at)

    @property
    def limit(self) -> int:
        """How many entries the journal takes between two cuts."""
        return self._room.count(library.limit)

    @property
    def is_full(self) -> bool:
        """Whether the journal takes no more entries until it is cut."""
        return self._room.do(library.is_full) != DONE

    def sent(self, target: Union[Mailbox[T], Channel[T]]) -> int:
        """Count the messages that were sent to a mailbox, or multicast on a channel."""
        return self._room.count(library.sent, self._name(target))

    def got(self, source: Source[T]) -> int:
        """Count the messages that were received from a mailbox or a port."""
        return self._room.count(library.got, self._name(source))

    def owed(self, source: Source[T]) -> int:
        """Count the messages that wait in a mailbox, or are owed to an open port."""
        return owed_to(self._room, source)

    def kept(self, target: Union[Mailbox[T], Channel[T]]) -> int:
        """Count the messages of a mailbox or a channel that are kept."""
        return self._room.count(library.kept, self._name(target))

    def held(self, variable: Variable[T]) -> Optional[T]:
        """Return what a variable holds, or `None` if it is empty."""
        code, data = self._room.look(library.held, self._name(variable))
        if code == NOTHING:
            return None
        if code != DONE:
            raise errors.of_code(code)
        return variable._decode(data)

    def is_open(self, port: Port[T]) -> bool:
        """Return whether a port is open."""
        return self._room.count(library.is_open, self._name(port)) != 0

    def _keep_by(self, sink: Optional[Sink]) -> None:
        if sink is not None:
            self._sink = self._room.keeper = SinkKeeper(sink, self._room.unwritten)
            if self._sink.is_writing and self._room.fast is not None:
                self._room.fast.longest = MESSAGE_MOST

    def _room_to_cut(self) -> Room:
        """Return the room. Fails with `KeptInFile` if a file alone cuts its journal."""
        if self._file is not None:
            raise errors.KeptInFile
        return self._room

    def _taken(self, take: Callable[..., int]) -> Journal:
        room = self._room_to_cut()

        def taken() -> Journal:
            if self._sink:
                self._sink.hand_over()
            journal = Journal(room.codecs, room.text_start())
            journal._take(room.handle, take)
            return journal

        return room.within(taken)

    def _cut(self, cut: Callable[..., int]) -> None:
        self._room.text_start()
        code = cut(self._room.handle)
        if code != DONE:
            raise errors.of_code(code)
        if self._sink:
            self._sink.forget()

    def _codec(self, number: int, kind: int, of: Type[T]) -> Codec[T]:
        """Return the codec of an object of this kind."""
        codec = codec_of(of)
        if not 0 <= operator.index(number) <= MOST:
            raise errors.NoSuch
        if self._room.count(library.kind, number) != kind:
            raise errors.WrongKind(f"object {number} is of another kind")
        self._room.name_codec(number, codec)
        return codec

    def _name(self, named: Object[Any]) -> c_uint64:
        return name_in(self._room, named)


def _bounded(limit: int) -> int:
    """Return a limit. The library tests it too, but sees 64 bits of it alone."""
    limit = operator.index(limit)
    if not 0 < limit <= MOST:
        raise errors.OutOfBounds
    return limit


def open(
    path: Path,
    limit: int = 65_536,
    *,
    sync_every: Optional[float] = 1.0,
    short_from: int = 0,
    keep: str = "process",
    sealed: bool = False,
) -> Switchboard:
    """Open a switchboard whose journal is kept in a file: each call that returned survives a kill.

    It makes the file, or goes on where its journal ends: with its objects, and what waits in them.
    Find these by `mailbox_again` and its like. `recovered` says what was found. Close it, or use
    it in a `with` block.

    After a loss of power the file has what was synced, and a beginning of the rest. A thread syncs
    it each `sync_every` seconds. With `None` it is synced by `sync` and `close`, and where 32 MiB
    aren't synced yet. A call waits for the disk only where 64 MiB aren't.

    With `keep="disk"` a call returns once its entry is on the disk, and each entry that its answer
    rests on: each call that returned survives a loss of power. Threads that call at once share a
    sync. A time limit bounds the wait for a message alone.

    With `sealed=True` the text has sums, so that a changed byte is found: opening fails with
    `Fault`. A thread sums what was stored, and the next call seals that: after 65,536 entries, and
    each time the file is synced in the background. So does `close`. Of what isn't sealed yet
    opening finds only changes that make a line wrong or an entry unlawful.

    It exchanges a file whose text doesn't have sums as asked for, or has none and a line `end`,
    for a short one, which has what `compact` returns. It does so too with a file of `short_from`
    bytes or more, also while that is open, if it has more than four times the bytes of the short
    one. With 0 it doesn't. Positions of
    entries, and counts of what was sent and received, begin anew once it is opened again. If
    opening can't do so, it goes on with the old file, and `recovered` says why.

    These leave the file as it was: `FileBusy`, `NoJournal`, `OtherVersion`, `OtherMessages`,
    `BeginsLater`, and `Fault` or `Unlawful` if the journal was changed. So does `OutOfBounds`. If
    it fails with `FileFailed` or `NoMemory`, all that was left is still there.

    A call on it may fail with `FileFull`, `FileLost` or `TooLong`. A child of a fork can make none.
    """
    if keep not in LEVELS:
        raise ValueError(f'a file keeps calls for the "process" or on the "disk", and not {keep!r}')
    options = library.FileOptions(
        _milliseconds(sync_every),
        library.FILE_SEALED if sealed else 0,
        0,
        _length(short_from),
        LEVELS[keep],
    )
    return Switchboard._open(path, limit, options)


def _length(short_from: int) -> int:
    """Return from how many bytes on a file is exchanged, as the library takes it."""
    short_from = operator.index(short_from)
    if short_from < 0:
        raise ValueError(f"a file has 0 bytes or more, and not {short_from}")
    return min(short_from, MOST)


def _milliseconds(seconds: Optional[float]) -> int:
    """Return how often a file is synced, as the library takes it."""
    if seconds is None:
        return 0
    if not 0 < seconds < _LONGEST:
        raise ValueError(f"a file is synced each so many seconds, more than 0, and not {seconds}")
    return max(1, round(seconds * 1000))
