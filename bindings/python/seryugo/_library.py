"""The shared library: its functions, structs and codes, as the header `seryugo.h` has them."""

from __future__ import annotations

import ctypes
import os
import subprocess
from ctypes import (
    POINTER,
    Structure,
    byref,
    c_bool,
    c_char,
    c_char_p,
    c_int,
    c_size_t,
    c_uint8,
    c_uint32,
    c_uint64,
    c_void_p,
)
from functools import partial
from typing import Any, Callable, Optional, Tuple, cast

from . import _version

# The most bytes of a message that lie in the struct.
IN_PLACE = 78

# How many bytes a sum has.
SUM_LENGTH = 32

# What the library takes as a number. ctypes drops what a larger one has above its 64 bits.
MOST = 2**64 - 1

# What a call returns if it isn't refused. `errors` has the refusals.
DONE = 0
NOTHING = 1
PUT = 2
CLOSED = 3
PARKED = 4


class Handle(Structure):
    """A handle to a room, a taken journal, a checker or an entry."""

    _fields_ = [("at", c_void_p)]


class Share(Structure):
    """What keeps a message of more than `IN_PLACE` bytes."""

    _fields_ = [("at", c_void_p)]


class Bytes(Structure):
    """A message that a call hands over. Up to `IN_PLACE` bytes lie in the struct itself."""

    _fields_ = [
        ("length", c_size_t),
        ("block", POINTER(c_char)),
        ("owner", Share),
        ("in_place", c_uint8 * IN_PLACE),
    ]


# The flag of a file whose text has sums.
FILE_SEALED = 2


class FileOptions(Structure):
    """How a journal's file is kept."""

    _fields_ = [
        ("sync_milliseconds", c_uint64),
        ("flags", c_uint32),
        ("segment", c_uint64),
        ("short_from", c_uint64),
        ("keep", c_uint32),
    ]


class FileFound(Structure):
    """What opening a journal's file found, or the cause why it failed."""

    _fields_ = [
        ("entries", c_uint64),
        ("lines", c_uint64),
        ("kept", c_uint64),
        ("cut_off", c_uint64),
        ("is_new", c_bool),
        ("is_shortened", c_bool),
        ("error", c_int),
        ("saved", c_char * 256),
        ("words", c_char * 256),
    ]


class Sum(Structure):
    """A sum over a piece of text, if it is there."""

    _fields_ = [("is_there", c_bool), ("bytes", c_uint8 * SUM_LENGTH)]


class Place(Structure):
    """The bytes of an entry's message."""

    _fields_ = [("at", POINTER(c_char)), ("length", c_size_t)]


class Maker(Structure):
    """Who made the call of an entry."""

    _fields_ = [("kind", c_uint32), ("number", c_uint64)]


class Call(Structure):
    """The call of an entry."""

    _fields_ = [("kind", c_uint32), ("object", c_uint64), ("message", Place)]


class Reply(Structure):
    """The reply of an entry."""

    _fields_ = [("kind", c_uint32), ("name", c_uint64), ("message", Place)]


class Entry(Structure):
    """An entry that a call hands over."""

    _fields_ = [("maker", Maker), ("call", Call), ("reply", Reply), ("owner", Handle)]


def _libdir() -> Optional[str]:
    """Return the folder of the library, if the program `pkg-config` is there and knows it."""
    command = [os.environ.get("PKG_CONFIG", "pkg-config"), "--variable=libdir", "seryugo"]
    try:
        found = subprocess.run(command, capture_output=True, text=True, check=True)
    except (OSError, subprocess.CalledProcessError):
        return None
    return found.stdout.strip()


def _found() -> str:
    """Return the path of the library, or its name if the loader finds it."""
    prefix = os.environ.get("SERYUGO_PREFIX")
    if prefix:
        return os.path.join(prefix, "lib", "libseryugo.so")
    name = "libseryugo.so.0"
    try:
        ctypes.CDLL(name)
    except OSError:
        folder = _libdir()
        return os.path.join(folder, name) if folder else name
    return name


_PATH = _found()

try:
    # The first lets the interpreter's lock go during a call, and the second keeps it.
    _FREE, _HELD = ctypes.CDLL(_PATH), ctypes.PyDLL(_PATH)
except OSError as error:
    raise ImportError(
        f"found no library seryugo ({error}). Run `sh bindings/try.sh PREFIX` to try it without a "
        "proof, or `sh bindings/install.sh PREFIX`, and name the folder by SERYUGO_PREFIX"
    ) from None


def _function(library: ctypes.CDLL, name: str) -> Any:
    try:
        function = library[f"seryugo_{name}"]
    except AttributeError:
        raise ImportError(
            f"the library {_PATH} lacks seryugo_{name}. Install one of this package's version"
        ) from None
    function.restype = c_uint32
    return function


def quick(name: str, library: ctypes.CDLL = _HELD) -> Callable[..., int]:
    """Name a call of a seat. Each argument is an instance of its type in C, or bytes.

    To test arguments and turn them into these types would take longer than most of these calls.
    """
    named: Callable[..., int] = _function(library, name)
    return named


def _short(name: str, *arguments: Any) -> Callable[..., int]:
    """Name a call that takes a microsecond. To let the interpreter's lock go would take longer."""
    short = _function(_HELD, name)
    short.argtypes = arguments
    named: Callable[..., int] = short
    return named


def _long(name: str, *arguments: Any) -> Callable[..., int]:
    """Name a call that may free or check millions of entries. Other threads go on meanwhile."""
    long = _function(_FREE, name)
    long.argtypes = arguments
    named: Callable[..., int] = long
    return named


def _of(call: Callable[..., int], wanted: int, *others: int) -> Callable[..., int]:
    """Name a call on a handle for what has this number in the header."""
    return lambda handle, *arguments: call(handle, wanted, *others, *arguments)


def _freeing(library: ctypes.CDLL, name: str, argument: Any) -> Callable[[Any], None]:
    function = _function(library, name)
    function.argtypes = (argument,)
    function.restype = None
    freeing: Callable[[Any], None] = function
    return freeing


# Before any other function is looked for, since another version may lack some.
version = _short("version")
_version.compare(version(), _PATH)

_HANDLE = POINTER(Handle)
_NUMBER = POINTER(c_uint64)

# Which messages the library is asked for.
BYTES = 1

# Rooms, and the seats that wait.
room_open = partial(_short("open_room", c_uint32, c_uint64, _HANDLE), BYTES)
new_seat = _short("new_seat", _HANDLE, _NUMBER)
withdraw = _short("withdraw", _HANDLE, c_uint64)
next_due = quick("next_due")
is_due = quick("is_due")
close = _freeing(_FREE, "close", Handle)

# What frees the memory of a message.
bytes_release = _freeing(_HELD, "bytes_release", Share)

# What an object has.
_read = _short("read", _HANDLE, c_uint32, c_uint64, _NUMBER)
sent, got, owed, kept, is_open = (_of(_read, reader) for reader in (0, 1, 2, 3, 8))
kind = _of(_read, 5)
held = _short("bytes_held", _HANDLE, c_uint64, POINTER(Bytes))

# The journal.
entries, cut_at, limit = (_of(_read, reader, 0) for reader in (9, 10, 11))
is_full = _short("is_full", _HANDLE)
_entry_at = _short("bytes_entry_at", _HANDLE, c_uint32, c_uint64, POINTER(Entry))
entry, taken_entry = _of(_entry_at, 0), _of(_entry_at, 1)
reserve = _long("reserve", _HANDLE, c_size_t)
_cut_by = _long("cut_by", _HANDLE, c_bool)
cut, cut_open = _of(_cut_by, False), _of(_cut_by, True)
_take_by = _long("take_by", _HANDLE, c_uint32, _HANDLE, _NUMBER)
take_journal, take_journal_open = _of(_take_by, 0), _of(_take_by, 1)
compact, compact_and_cut = _of(_take_by, 2), _of(_take_by, 3)
_close_entry = _freeing(_HELD, "close", Handle)
checker_open = partial(_short("open_checker", c_uint32, _HANDLE), BYTES)
checker_feed_journal = _long("checker_feed_journal", _HANDLE, _HANDLE, c_uint64)
checker_verdict = _short("checker_verdict", _HANDLE, _NUMBER)

# A journal as text.
journal_text = _long("journal_text", _HANDLE, c_uint64, POINTER(Bytes))
sealed_text = _long("sealed_text", _HANDLE, c_uint64, POINTER(Sum), POINTER(Bytes))
reading_open = partial(_short("open_reading", c_uint32, _HANDLE), BYTES)
reading_take = _long("reading_take_from", _HANDLE, c_char_p, c_size_t)
_reading_state = _short("reading_state", _HANDLE, c_uint32, _NUMBER)
reading_entries, reading_lines = _of(_reading_state, 0), _of(_reading_state, 1)
reading_kept = _of(_reading_state, 3)
reading_sum = _short("reading_sum", _HANDLE, POINTER(Sum))
room_restore = _long("room_restore", _HANDLE, c_uint64, _HANDLE)
reading_compact = _long("reading_compact", _HANDLE, _HANDLE, _NUMBER)

# A journal in a file.
_AT_FILE = (POINTER(FileOptions), _HANDLE, POINTER(FileFound), POINTER(c_void_p))
file_open = _long("file_open", c_char_p, c_uint32, c_uint64, *_AT_FILE)
# These two may wait for the disk.
file_reserve, file_note = quick("file_reserve", _FREE), quick("file_note", _FREE)
file_state = quick("file_state")
file_sync = _long("file_sync", c_void_p)
file_wait = _long("file_wait", c_void_p, c_uint64)
file_close = _function(ctypes.CDLL(_PATH, use_errno=True), "file_close")
file_close.argtypes = (c_void_p,)
_file_error = _function(_HELD, "file_error")
_file_error.argtypes = (c_void_p, POINTER(c_int))
_file_error.restype = c_char_p


def file_error(file: c_void_p) -> Tuple[Optional[str], int]:
    """Return in words why calls on a file fail, or None, and the cause as errno, or 0."""
    number = c_int()
    words = _file_error(file, byref(number))
    return words and words.decode(errors="replace"), number.value


_fault_text = _function(_HELD, "fault_text")
_fault_text.argtypes = (c_uint64, c_uint64)
_fault_text.restype = c_char_p


def reading_fault(reading: Any, line: int) -> str:
    """Return by which fault a reading has stopped on this line, in the words of `cml check`."""
    fault = c_uint64()
    _reading_state(reading, 4, byref(fault))
    words: str = _fault_text(fault, line).decode()
    return words


def reading_end(reading: Any) -> int:
    """Return the code that says how the text ends that was read."""
    return _reading_state(reading, 2, byref(c_uint64()))


def taken_over(message: Bytes) -> bytes:
    """Copy a message that the library has handed over, and free it."""
    length: int = message.length
    if length <= IN_PLACE:
        return bytes(message.in_place)[:length]
    try:
        return cast(bytes, message.block[:length])
    finally:
        bytes_release(message.owner)


# An open handle. No call of a room, a journal or a checker takes it.
_taken_by_none = Handle()
if reading_open(byref(_taken_by_none)) != DONE:
    raise MemoryError("there is no memory for the library")


def close_for_good(handle: Handle) -> None:
    """Close a handle, if it was opened, so that the library refuses each later call on it.

    If Python collects a cycle of objects, it closes their handles before it calls the `__del__` of
    any, and those may still call the library.
    """
    if handle.at:
        opened = Handle(handle.at)
        handle.at = _taken_by_none.at
        close(opened)


def entry_free(entry: Entry) -> None:
    """Free an entry that the library has handed over."""
    _close_entry(entry.owner)
