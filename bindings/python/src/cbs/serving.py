"""How a house is served: its units, one after another, as fast as they are done or in real time."""

from __future__ import annotations

import asyncio
import ctypes as c
import signal
import threading
from contextlib import contextmanager
from datetime import timedelta
from typing import TYPE_CHECKING, Any, Iterator, List, Optional

from . import _lib
from .bell import now
from .errors import CbsError, OutOfMemory
from .servers import nanoseconds

if TYPE_CHECKING:
    from .house import House


class Unit:
    """A unit that is to be done now. Call it, and it does the job's next."""

    __slots__ = ("_house", "last", "number", "server", "token")

    def __init__(self, house: "House", server: str, number: int, token: int, last: bool) -> None:
        self._house = house
        self.server = server
        """The name of its server."""
        self.number = number
        """The number of its server."""
        self.token = token
        """The number of its job in the house."""
        self.last = last
        """Whether it is the last that the job asked for."""

    def __call__(self) -> None:
        self._house.do(self)


def _told(house: "House", words: memoryview, at: int) -> Unit:
    """Returns the unit that stands at this place of what a call wrote."""
    kind = words[at]
    last = kind & 0xFFFFFFFF == _lib.RUN_DONE
    return house.unit_of(kind >> 32 & 0xFFFF, words[at + _lib.UNIT_TOKEN], last)


def turned(house: "House") -> Iterator[Unit]:
    """Returns the units, each as soon as the one before it is done, until there is nothing to do."""
    turn = _lib.Turn()
    out, words = c.addressof(turn), _lib.words_of(turn)
    while not house.is_stopping:
        status = _lib.lib.cbs_turn(house.handle(), out)
        if status:
            _lib.check(status)
        took = words[_lib.TURN_TOOK]
        if took:
            house.note_taken()
        kind = words[_lib.TURN_UNIT] & 0xFFFFFFFF
        if kind >= _lib.RUN_UNIT:
            yield _told(house, words, _lib.TURN_UNIT)
            if house.recorder is not None:
                house.recorder.note_unit()
        elif turn.out_of_memory:
            raise OutOfMemory("there was no memory for a job, which stays in its ring")
        elif kind == _lib.RUN_CLOCK_END or not (took or words[_lib.TURN_ADVANCED]):
            return


def paced(house: "House", tick: timedelta) -> Iterator[Unit]:
    """Returns the units in real time, each when its tick has come, until all is over."""
    _set_pace(house, tick)
    step = _lib.Next()
    pacer, out, words = c.addressof(house.pacer), c.addressof(step), _lib.words_of(step)
    ask = _lib.lib.cbs_next
    try:
        while not house.is_stopping:
            status = ask(house.handle(), pacer, now(), out)
            if status:
                _lib.check(status)
            first = words[0]
            if first >> 32:
                house.note_taken()
            kind = first & 0xFFFFFFFF
            if kind == _lib.UNIT:
                yield _told(house, words, _lib.NEXT_UNIT)
                if house.recorder is not None:
                    house.recorder.note_unit()
            elif kind >= _lib.OVER:
                _stand(kind)
                return
            else:
                _rest(house, kind, words[_lib.NEXT_UNTIL])
    finally:
        if not house.is_closed:
            _lib.lib.cbs_done(house.handle(), pacer, now())


def _set_pace(house: "House", tick: timedelta) -> None:
    """Begins the time of a house, unless it goes on at the same tick."""
    if house.pace != tick:
        length = nanoseconds(tick)
        pacer = c.addressof(house.pacer)
        _lib.check(_lib.lib.cbs_pace(house.handle(), length, False, now(), pacer))
        house.pace = tick


def _rest(house: "House", kind: int, until: int) -> None:
    """Sleeps, listens or waits, as the library says."""
    if kind == _lib.SLEEP:
        house.bell.sleep(until)
    elif kind == _lib.LISTEN:
        house.bell.listen()
    else:
        if house.recorder is not None:
            house.recorder.write()
        house.bell.wait(until)


def _stand(kind: int) -> None:
    """Raises why nothing comes next, unless all is over."""
    if kind == _lib.NO_MEMORY:
        raise OutOfMemory("there was no memory for a job, which stays in its ring")
    if kind == _lib.CLOCK_END:
        raise CbsError("the clock of the house stands at its end")


class Serving:
    """Serves a house on a thread of its own, within a `with` or `async with` statement."""

    def __init__(self, house: "House", tick: timedelta) -> None:
        self._house, self._tick = house, tick
        self._failed: Optional[BaseException] = None
        self._thread = threading.Thread(target=self._serve, name="cbs-house", daemon=True)

    def _serve(self) -> None:
        try:
            for unit in self._house.units(self._tick):
                unit()
        except BaseException as error:
            self._failed = error

    def __enter__(self) -> "House":
        self._thread.start()
        return self._house

    def __exit__(self, kind: Any, *_: object) -> None:
        if kind is None:
            self._house.end()
        else:
            self._house.stop()
        self._thread.join()
        if kind is None and self._failed is not None:
            raise self._failed

    async def __aenter__(self) -> "House":
        return self.__enter__()

    async def __aexit__(self, kind: Any, *rest: object) -> None:
        leave = asyncio.get_running_loop().run_in_executor(None, self.__exit__, kind, *rest)
        await leave


@contextmanager
def interrupted(house: "House") -> Iterator[List[int]]:
    """On the main thread the first Ctrl-C stops the house, and the list is not empty then. A second one is as ever."""
    told: List[int] = []
    here = threading.current_thread() is threading.main_thread()
    if not here or signal.getsignal(signal.SIGINT) is not signal.default_int_handler:
        yield told
        return

    def handle(number: int, frame: Any) -> None:
        if told:
            raise KeyboardInterrupt
        told.append(number)
        house.stop()

    signal.signal(signal.SIGINT, handle)
    try:
        yield told
    finally:
        signal.signal(signal.SIGINT, signal.default_int_handler)
