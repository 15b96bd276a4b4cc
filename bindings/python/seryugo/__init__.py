"""Mailboxes, channels and variables for threads, by a library that is proved.

A `Switchboard` has objects with messages of `bytes`, `str` or `int`, and a journal of every
accepted call. Threads call from seats. A call that can't go on blocks, and lets the interpreter's
lock go meanwhile. `open` keeps the journal in a file, so that each call that returned survives the
end of the program.

    import threading
    from seryugo import Switchboard

    board = Switchboard()
    ann, ben = board.seat(), board.seat()
    letters = ben.mailbox(str)
    with ann, ben:
        threading.Thread(target=ann.send, args=(letters, "hello")).start()
        print("Ben received", ben.recv(letters))
"""

import warnings
from typing import TYPE_CHECKING

from ._fast_calls import HAS_EXTENSION
from ._journal_file import Recovered
from ._keeping import drop_entries
from ._restoring import ValidPrefix, compacted
from ._version import __version__
from .errors import (
    BeginsLater,
    BoardClosed,
    Busy,
    Closed,
    Fault,
    FileBusy,
    FileFailed,
    FileFull,
    FileLost,
    Forked,
    Gone,
    JournalFull,
    KeptInFile,
    NoJournal,
    NoMemory,
    NoSuch,
    OtherMessages,
    OtherVersion,
    OutOfBounds,
    SeryugoError,
    Stalled,
    TooLong,
    TextOpen,
    Torn,
    Unlawful,
    Unreadable,
    WrongKind,
)
from .journal import (
    Call,
    CallKind,
    Checker,
    Entry,
    Journal,
    Maker,
    MakerKind,
    Reply,
    ReplyKind,
    check,
)
from .objects import Channel, IVar, Mailbox, MVar, Object, Port, Source, Variable
from .seat import Seat
from .switchboard import Switchboard, open

__all__ = [
    "BeginsLater",
    "BoardClosed",
    "Busy",
    "Call",
    "CallKind",
    "Channel",
    "Checker",
    "Closed",
    "Entry",
    "Fault",
    "FileBusy",
    "FileFailed",
    "FileFull",
    "FileLost",
    "Forked",
    "Gone",
    "HAS_EXTENSION",
    "IVar",
    "Journal",
    "JournalFull",
    "KeptInFile",
    "MVar",
    "Mailbox",
    "Maker",
    "MakerKind",
    "NoJournal",
    "NoMemory",
    "NoSuch",
    "Object",
    "OtherMessages",
    "OtherVersion",
    "OutOfBounds",
    "Port",
    "Recovered",
    "Reply",
    "ReplyKind",
    "Seat",
    "SeryugoError",
    "Source",
    "Stalled",
    "Switchboard",
    "TextOpen",
    "TooLong",
    "Torn",
    "Unlawful",
    "Unreadable",
    "ValidPrefix",
    "Variable",
    "WrongKind",
    "__version__",
    "check",
    "compacted",
    "drop_entries",
    "open",
]

if TYPE_CHECKING:
    Kept = ValidPrefix
else:

    def __getattr__(name):
        """Return what had this name before."""
        if name == "Kept":
            warnings.warn("Kept is called ValidPrefix", DeprecationWarning, stacklevel=2)
            return ValidPrefix
        raise AttributeError(f"module {__name__!r} has no attribute {name!r}")
