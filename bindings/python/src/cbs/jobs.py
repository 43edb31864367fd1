"""Jobs of Python: what their units do, and the futures of their results."""

from __future__ import annotations

import inspect
from abc import ABC, abstractmethod
from concurrent.futures import Future
from typing import Any, Callable, Generator, Iterator, Optional, Tuple, TypeVar, Union

from .errors import Unfinished

T = TypeVar("T")

# What may be sent: a function, a generator function, or an iterator.
Work = Union[Callable[..., Any], Iterator[Any]]

# The most units of a job.
MOST_UNITS = 1_000_000


class JobFuture(Future[T]):
    """The result of a job: a `concurrent.futures.Future`, which can be awaited, too."""

    def __await__(self) -> Generator[Any, None, T]:
        import asyncio

        return asyncio.wrap_future(self).__await__()


class Job(ABC):
    """What stands behind a token: a job of so many units, and its future."""

    def __init__(self, units: int) -> None:
        self.units = units
        self.future: JobFuture[Any] = JobFuture()
        self._is_begun = False

    def unit(self, last: bool) -> bool:
        """Does the next unit. Returns whether the job is over with it.

        An exception ends the job, and goes to its future. One that ends a program, as KeyboardInterrupt, is raised,
        too."""
        if not self._is_begun:
            self._is_begun = True
            if not self.future.set_running_or_notify_cancel():
                return True
        try:
            return self._step(last)
        except Exception as error:
            self.future.set_exception(error)
        except BaseException as error:
            self.future.set_exception(error)
            raise
        return True

    def lose(self) -> None:
        """Ends the job, since its house is closed."""
        if not self.future.done() and not self.future.cancel():
            self.future.set_exception(Unfinished("the house was closed before the job had ended"))

    @abstractmethod
    def _step(self, last: bool) -> bool:
        """Does what a unit is, and sets the result if the job is over. Returns whether it is."""


class Calls(Job):
    """A job that calls a function at each unit. Its result is that of the last call."""

    def __init__(self, function: Callable[[], Any], units: int) -> None:
        super().__init__(units)
        self._function = function

    def _step(self, last: bool) -> bool:
        value = self._function()
        if last:
            self.future.set_result(value)
        return last


class Steps(Job):
    """A job that takes a step of an iterator at each unit, until its end. Its result is what a generator returns."""

    def __init__(self, iterator: Iterator[Any], units: int) -> None:
        super().__init__(units)
        self._iterator = iterator

    def _step(self, last: bool) -> bool:
        try:
            next(self._iterator)
        except StopIteration as end:
            self.future.set_result(end.value)
            return True
        if last:
            close = getattr(self._iterator, "close", None)
            if close is not None:
                close()
            raise Unfinished(f"the job has more than its {self.units} units")
        return False


def job_of(work: Work, args: Tuple[Any, ...], units: Optional[int]) -> Job:
    """Returns the job of some work. A generator function is called with the arguments now, and another function at each
    unit. Unless it is said how many units there are, a function has one, and an iterator as many as a job can have."""
    if not callable(work):
        if args:
            raise TypeError("arguments go to a function, and not to an iterator")
        return Steps(iter(work), MOST_UNITS if units is None else units)
    function = work
    if inspect.isgeneratorfunction(function):
        return Steps(function(*args), MOST_UNITS if units is None else units)
    return Calls(lambda: function(*args), 1 if units is None else units)
