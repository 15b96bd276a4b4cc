"""A room's lock, which an exception of a signal's handler never leaves locked.

Before Python 3.10 such an exception may come between the end of a `with` block and the release of
its lock. So there the lock knows the thread that holds it, and `free` lets that thread release it.

Python collects garbage in the midst of any method, and calls the `__del__` of what it collects in
a thread that may hold the lock. `collector` is that thread, while Python collects.
"""

from __future__ import annotations

import gc
import sys
import threading
from typing import Any, Dict, Optional, Type

from . import errors

collector: Optional[int] = None


def _note(phase: str, _counts: Dict[str, int]) -> None:
    global collector
    collector = threading.get_ident() if phase == "start" else None


gc.callbacks.append(_note)


def is_collector() -> bool:
    """Return whether this thread calls from a `__del__` of what Python collects."""
    return collector == threading.get_ident()


def refuse_in_a_call(*locks: Any) -> None:
    """Fail if Python collects here, and a lock is held: this very thread may have it."""
    if is_collector() and any(map(is_held, locks)):
        raise errors.SeryugoError("Python collects a cycle in the midst of another call")


class Refusing:
    """A lock that no thread gets: to take it fails with this error."""

    def __init__(self, error: Type[Exception]) -> None:
        self._error = error

    def __enter__(self) -> None:
        raise self._error

    def __exit__(self, *_: object) -> None:
        pass

    def locked(self) -> bool:
        return False

    # As new_lock() has them, in each version of Python.
    _is_owned = locked


if sys.version_info >= (3, 10):

    def new_lock() -> Any:
        return threading.Lock()

    def is_held(lock: Any) -> bool:
        """Return whether a thread holds the lock, which may be this one."""
        return bool(lock.locked())

    def free(lock: Any) -> None:
        """Release what this thread has left locked: nothing, since `with` has released it."""

else:

    def new_lock() -> Any:
        return threading.RLock()

    def is_held(lock: Any) -> bool:
        """Return whether this thread holds the lock."""
        return bool(lock._is_owned())

    def free(lock: Any) -> None:
        """Release what this thread has left locked."""
        while lock._is_owned():
            lock.release()
