"""What goes wrong, as exceptions. All of them can be pickled."""

from __future__ import annotations

from typing import Any


class CbsError(Exception):
    """Whatever this package refuses."""


class Refused(CbsError):
    """A call of the library that refused. `str()` is the reason, and `status` its number in cbs.h."""

    def __init__(self, reason: str, status: int) -> None:
        super().__init__(reason)
        self.status = status

    def __reduce__(self) -> Any:
        return type(self), (self.args[0], self.status)


class RingFull(Refused):
    """The client's ring is full: there is room again once the house has polled."""


class Ended(Refused):
    """The client has ended, and sends no more jobs."""


class OutOfMemory(CbsError, MemoryError):
    """There was no memory."""


class HouseClosed(CbsError):
    """The house is closed, or it is of the process that forked this one."""


class NoServer(CbsError, KeyError):
    """A house has no server of this name."""

    def __str__(self) -> str:
        return str(self.args[0])


class Unfinished(CbsError):
    """A job that did not come to its end: its units were used up, or its house was closed."""
