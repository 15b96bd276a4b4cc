"""Calls that are awaited: while one waits, its seat is parked, and no thread sleeps for it."""

from __future__ import annotations

import asyncio
from typing import Any, Callable, Optional, Tuple

from ._library import PARKED
from ._room import AGAIN, FIRST, Room


async def ask(
    room: Room,
    seat: int,
    call: Callable[..., int],
    arguments: Tuple[Any, ...],
    timeout: Optional[float],
) -> Tuple[int, bytes]:
    """Make a call that may block. It is still parked if its time limit has passed."""
    loop = asyncio.get_running_loop()
    deadline = None if timeout is None else loop.time() + timeout
    code, data = room.ask(seat, FIRST, call, arguments)
    while code == PARKED:
        is_woken = await _woken(room, seat, loop, deadline)
        code, data = room.ask(seat, AGAIN, call, arguments)
        if code == PARKED and not is_woken:
            room.give_up(seat)
            return code, data
    return code, data


async def settle(room: Room) -> None:
    """Await that the disk has what a call has seen, if the journal is kept there.

    A thread of the loop's waits for that.
    """
    if room.is_on_disk:
        await asyncio.get_running_loop().run_in_executor(None, room.settle)


async def _woken(
    room: Room, seat: int, loop: asyncio.AbstractEventLoop, deadline: Optional[float]
) -> bool:
    """Await that the seat is woken, or the time limit. Return which it was.

    If the task is cancelled, or its coroutine closed, the seat's call is withdrawn.
    """
    woken: asyncio.Future[None] = loop.create_future()
    room.listen(seat, lambda: _wake(loop, woken))
    try:
        left = None if deadline is None else max(0.0, deadline - loop.time())
        await asyncio.wait([woken], timeout=left)
    except BaseException:
        room.listen_no_more(seat)
        room.give_up(seat)
        raise
    room.listen_no_more(seat)
    return woken.done()


def _wake(loop: asyncio.AbstractEventLoop, woken: asyncio.Future[None]) -> bool:
    """Wake a task, from any thread. If its loop was closed, nobody awaits it: return false."""
    try:
        loop.call_soon_threadsafe(_set, woken)
    except RuntimeError:
        return False
    return True


def _set(woken: asyncio.Future[None]) -> None:
    if not woken.done():
        woken.set_result(None)
