"""How a thread that serves waits, and how it is woken."""

from __future__ import annotations

import threading
import time
from typing import Callable, Optional

from ._lib import FOREVER

now: Callable[[], int] = time.monotonic_ns

# A sleep that is longer than this, in nanoseconds, listens to the bell, so that a stop is heard at once.
_LONG = 20_000_000


class Bell:
    """One bit that a thread waits for. It is a raw lock, since a signal handler may ring it, as no Event may be set."""

    def __init__(self) -> None:
        self._lock = threading.Lock()
        self._lock.acquire()

    def ring(self) -> None:
        """Wakes who waits, or who waits next."""
        try:
            self._lock.release()
        except RuntimeError:
            pass  # it has rung already

    def listen(self) -> None:
        """Forgets that the bell rang before."""
        self._lock.acquire(blocking=False)

    def wait(self, until: int) -> None:
        """Waits until the bell rings, or the clock shows `until`."""
        if until == FOREVER:
            self._lock.acquire()
            return
        left = until - now()
        if left > 0:
            self._lock.acquire(timeout=min(left / 1e9, 1e6))

    def sleep(self, until: int) -> None:
        """Sleeps until the clock shows `until`."""
        left = until - now()
        if left > _LONG:
            self.wait(until)
        elif left > 0:
            time.sleep(left / 1e9)


class Room:
    """Where senders wait for room in their rings."""

    def __init__(self) -> None:
        self._condition = threading.Condition()
        self._waiting = 0

    def tell(self) -> None:
        """Wakes all who wait: messages were taken from rings."""
        if self._waiting:
            with self._condition:
                self._condition.notify_all()

    def try_until(self, attempt: Callable[[], bool], timeout: Optional[float]) -> bool:
        """Tries again each time when messages were taken, for so many seconds, or without an end if None. Returns whether
        an attempt succeeded."""
        end = None if timeout is None else time.monotonic() + timeout
        with self._condition:
            self._waiting += 1
            try:
                while not attempt():
                    left = None if end is None else end - time.monotonic()
                    if left is not None and left <= 0:
                        return False
                    self._condition.wait(left)
                return True
            finally:
                self._waiting -= 1
