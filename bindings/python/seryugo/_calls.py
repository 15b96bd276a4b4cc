"""The calls of seats: how the journal has each, and the library's function for it."""

import enum
from ctypes import byref, c_uint64
from typing import Any, Callable

from . import _library as library
from . import errors
from ._library import DONE, quick

# The kinds of objects, as the library numbers them.
MAILBOX, CHANNEL, PORT, IVAR, MVAR = range(5)


class CallKind(enum.Enum):
    """The calls that the journal has."""

    NEW_MAILBOX = 0
    NEW_CHANNEL = 1
    NEW_PORT = 2
    COPY_PORT = 3
    CLOSE_PORT = 4
    NEW_IVAR = 5
    NEW_MVAR = 6
    MVAR_INIT = 7
    SEND = 8
    MULTICAST = 9
    RECV = 10
    RECV_POLL = 11
    PUT = 12
    GET = 13
    GET_POLL = 14
    TAKE = 15
    TAKE_POLL = 16
    SWAP = 17


# The calls on no object, and those with a message.
ON_NO_OBJECT = {
    CallKind.NEW_MAILBOX,
    CallKind.NEW_CHANNEL,
    CallKind.NEW_IVAR,
    CallKind.NEW_MVAR,
    CallKind.MVAR_INIT,
}
WITH_MESSAGE = {
    CallKind.MVAR_INIT,
    CallKind.SEND,
    CallKind.MULTICAST,
    CallKind.PUT,
    CallKind.SWAP,
}

leave = quick("leave")
new_mailbox = quick("new_mailbox")
new_channel = quick("new_channel")
new_port = quick("new_port")
copy_port = quick("copy_port")
close_port = quick("close_port")
new_ivar = quick("new_ivar")
new_mvar = quick("new_mvar")
mvar_init = quick("bytes_mvar_init_from")
send = quick("bytes_send_from")
multicast = quick("bytes_multicast_from")
put = quick("bytes_put_from")
recv = quick("bytes_recv")
recv_poll = quick("bytes_recv_poll")
get = quick("bytes_get")
get_poll = quick("bytes_get_poll")
take = quick("bytes_take")
take_poll = quick("bytes_take_poll")
swap = quick("bytes_swap_from")


def again(kind: int, number: int, make: Callable[..., int]) -> Callable[..., int]:
    """Name a call that finds the object of this number, or makes it if it would be the next one."""

    def found(room: Any, seat: c_uint64, name: Any) -> int:
        has = c_uint64()
        if library.kind(room, number, byref(has)) == DONE:
            # `name` is what byref has returned for a number.
            name._obj.value = number
            return DONE if has.value == kind else errors.WrongKind.code
        if number > 0 and library.kind(room, number - 1, byref(has)) != DONE:
            return errors.NoSuch.code
        return make(room, seat, name)

    return found
