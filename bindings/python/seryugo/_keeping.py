"""What becomes of a full journal: who is handed the entries that it had."""

from __future__ import annotations

from typing import Any, Callable, List, Tuple

from . import _library as library
from . import errors
from ._library import NOTHING, PARKED
from ._room import AGAIN, TOO_LONG, Keeper, Room, message_size
from .journal import Journal

# The most bytes of a message, and of both messages of a swap, that a text has room for.
MESSAGE_MOST = 1_398_000

# What is called with the entries of a full journal. If it raises an exception, they are kept.
Sink = Callable[[Journal], object]


class SinkKeeper(Keeper):
    """Cuts a full journal, and keeps the entries that it had until a sink takes them.

    Its caller has the room's lock.
    """

    def __init__(self, sink: Sink, kept: List[Journal]) -> None:
        """Keep at most one journal in this list."""
        self._sink = sink
        self._kept = kept
        # Whether the sink may write the entries, so that none may be too long for a text.
        self.is_writing = sink is not drop_entries

    def made(self, room: Room, call: Callable[..., int], arguments: Tuple[Any, ...]) -> int:
        is_again = arguments[-2] is AGAIN
        if self.is_writing and message_size(room, call, arguments) > MESSAGE_MOST:
            if is_again and library.is_due(room.handle, arguments[0]) == NOTHING:
                # It was woken for nothing, and waits on.
                return PARKED
            raise errors.TooLong(TOO_LONG)
        if not is_again:
            self.hand_over()
        return super().made(room, call, arguments)

    def cut(self, room: Room) -> None:
        """Cut the journal, and hand its entries over, after those that are kept."""
        self.hand_over()
        # A signal's handler may raise an exception as soon as they are taken. Then they are here.
        journal = Journal(room.codecs, room.text_start())
        self._kept.append(journal)
        journal._take(room.handle, library.take_journal_open)
        self.hand_over()

    def forget(self) -> None:
        """Drop the entries that are kept."""
        self._kept.clear()

    def hand_over(self) -> None:
        """Hand over the entries that are kept, if there are any.

        If a short journal stands for them, they are dropped: `compact_and_cut` was interrupted.
        """
        for journal in self._kept:
            if len(journal) > 0 and not journal._is_stood_for():
                self._sink(journal)
        self._kept.clear()


def drop_entries(journal: Journal) -> None:
    """Drop the entries of a full journal: the sink of a switchboard that needs none."""
