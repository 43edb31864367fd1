"""Clients, which send jobs to a house from any thread."""

from __future__ import annotations

import ctypes as c
from typing import TYPE_CHECKING, Any, Callable, Generator, Iterator, Optional, TypeVar, overload

from . import _lib
from .errors import RingFull
from .jobs import Job, JobFuture, Work, job_of
from .servers import whole

if TYPE_CHECKING:
    from .house import House

T = TypeVar("T")


class Client:
    """Sends jobs to one server of a house. Any thread may call it."""

    def __init__(self, house: "House", name: str, at: int) -> None:
        """`at` is where the handle of the client lies."""
        self.name = name
        self.has_ended = False
        self._house, self._at = house, at
        self._seq = c.c_uint64()

    @overload
    def submit(
        self,
        work: Callable[..., Generator[Any, None, T]],
        *args: Any,
        units: Optional[int] = None,
        timeout: Optional[float] = 0,
    ) -> JobFuture[T]: ...

    @overload
    def submit(
        self,
        work: Generator[Any, None, T],
        *,
        units: Optional[int] = None,
        timeout: Optional[float] = 0,
    ) -> JobFuture[T]: ...

    @overload
    def submit(
        self,
        work: Callable[..., T],
        *args: Any,
        units: Optional[int] = None,
        timeout: Optional[float] = 0,
    ) -> JobFuture[T]: ...

    @overload
    def submit(
        self,
        work: Iterator[Any],
        *,
        units: Optional[int] = None,
        timeout: Optional[float] = 0,
    ) -> JobFuture[None]: ...

    def submit(
        self,
        work: Work,
        *args: Any,
        units: Optional[int] = None,
        timeout: Optional[float] = 0,
    ) -> JobFuture[Any]:
        """Sends a job, and returns the future of its result.

        A function is called with the arguments at each of its units, of which it has one unless `units` says otherwise. A
        generator function is called now, and each step of the generator is a unit; so is each step of an iterator. Such a
        job ends with the unit in which the generator returns, and `units` are at most so many. One that has more is closed,
        and its future raises Unfinished.

        If the ring is full, waits for room for `timeout` seconds, or without an end if None. Raises RingFull after that, and
        at once in a unit of the same house. Raises Ended after `end`, and Refused if `units` is 0 or more than 1000000."""
        job = job_of(work, args, units if units is None else whole("units", units, 32))
        house = self._house

        self._until(lambda: house.send(self, job), timeout)
        return job.future

    def end(self) -> None:
        """Sends the end: the server closes once all jobs before it were taken. A second end is none. It never waits: if the
        ring is full, the house sends it once there is room."""
        self.has_ended = True
        if not self.send_end():
            self._house.ends.add(self)

    def send_end(self) -> bool:
        """Sends the end to the house. Returns whether there was room for it in the ring."""
        status = _lib.lib.cbs_end(self._handle())
        if status == _lib.SEND_RING_FULL:
            return False
        if status != _lib.SEND_ENDED:
            _lib.check(status)
        self._house.bell.ring()
        return True

    @property
    def waiting(self) -> int:
        """How many messages stand in the ring, not taken yet."""
        out = c.c_uint64()
        _lib.check(_lib.lib.cbs_waiting(self._handle(), c.addressof(out)))
        return out.value

    def _until(self, sent: Callable[[], bool], timeout: Optional[float]) -> None:
        """Tries to send until there is room in the ring. Raises RingFull after so many seconds, and at once in a unit of the
        same house, which would wait for itself."""
        if sent():
            return
        house = self._house
        if timeout == 0 or house.is_served_here() or not house.room.try_until(sent, timeout):
            raise RingFull(_lib.text_of(_lib.SEND_RING_FULL), _lib.SEND_RING_FULL)

    def _handle(self) -> int:
        """Returns where the handle of the client lies. Raises HouseClosed."""
        self._house.handle()
        return self._at

    def send_token(self, token: int, job: Job) -> int:
        """Sends a token, and returns the status. After an end that waits for room nothing more is sent."""
        if self in self._house.ends:
            return _lib.SEND_ENDED
        status: int = _lib.lib.cbs_send(self._handle(), token, job.units, c.addressof(self._seq))
        return status
