"""Houses: jobs of Python under Constant Bandwidth Servers, one unit a tick."""

from __future__ import annotations

import atexit
import ctypes as c
import itertools
import os
import threading
import weakref
from datetime import timedelta
from typing import Any, Dict, Iterator, Mapping, Optional, Set, Union

from . import _lib
from .bell import Bell, Room
from .client import Client
from .errors import CbsError, HouseClosed, NoServer
from .jobs import Job
from .recording import Recorder, head_of
from .servers import Charges, Counts, Server, View, named, structs_of, whole
from .serving import Serving, Unit, interrupted, paced, turned

_houses: "weakref.WeakSet[House]" = weakref.WeakSet()


def _free(handles: Any, count: int) -> None:
    """Frees so many handles, that of the house first."""
    for place in range(count):
        _lib.lib.cbs_free(c.addressof(handles) + place * c.sizeof(_lib.Handle))


class House:
    """Servers by name, and a client of each: `house["name"]`.

    One thread serves it, by `run`, `serve`, `serving` or `units`; jobs may be sent from any. Close it, or use it in a `with`
    statement."""

    def __init__(
        self, servers: Mapping[str, Server], *, backlog: int = 64, ring: int = 64
    ) -> None:
        """Opens a house. A server has at most `backlog` jobs that are not finished, and a ring has places for `ring` jobs.

        Raises Refused if the servers do not fit together, and for a backlog outside 1 to 4096 or a ring outside 1 to 1024."""
        self.servers: Mapping[str, Server] = dict(named(servers))
        self.backlog = whole("backlog", backlog, 64)
        count = len(self.servers)
        structs = structs_of(self.servers.values())
        self._handles = (_lib.Handle * (count + 1))()
        start, size = c.addressof(self._handles), c.sizeof(_lib.Handle)
        _lib.check(
            _lib.lib.cbs_open(
                c.addressof(structs), count, self.backlog, whole("ring", ring, 64), start, start + size, count
            )
        )
        self.is_closed = False
        self._finalizer = weakref.finalize(self, _free, self._handles, count + 1)
        self._finalizer.atexit = False  # `_at_exit` frees it, once nobody serves
        self._names = tuple(self.servers)
        self._clients = {
            name: Client(self, name, start + (1 + place) * size)
            for place, name in enumerate(self._names)
        }
        self._jobs: Dict[int, Job] = {}
        self._tokens = itertools.count()
        self._served = threading.Lock()
        self._server_thread = 0
        self.bell, self.room = Bell(), Room()
        self.ends: Set[Client] = set()
        self.is_stopping = False
        self.pacer = _lib.Pacer()
        self.pace: Optional[timedelta] = None
        self.recorder: Optional[Recorder] = None
        _houses.add(self)

    # -- of clients --

    def __getitem__(self, name: str) -> Client:
        try:
            return self._clients[name]
        except KeyError:
            there = ", ".join(self._names) or "none"
            raise NoServer(f"there is no server {name!r}, but {there}") from None

    def __iter__(self) -> Iterator[str]:
        return iter(self._names)

    def __len__(self) -> int:
        return len(self._names)

    def end(self) -> None:
        """Sends the end of each client: the house is over once all that was sent is done. It never waits."""
        for client in self._clients.values():
            client.end()

    def send(self, client: Client, job: Job) -> bool:
        """Sends a job. Returns whether there was room for it in the ring."""
        token = next(self._tokens)
        self._jobs[token] = job
        status = client.send_token(token, job)
        if status:
            del self._jobs[token]
            if status == _lib.SEND_RING_FULL:
                return False
            _lib.check(status)
        self.bell.ring()
        return True

    def note_taken(self) -> None:
        """Notes that messages were taken from rings: sends the ends that wait for room, and wakes who waits for it."""
        for client in list(self.ends):
            if client.send_end():
                self.ends.discard(client)
        self.room.tell()

    # -- what it shows --

    @property
    def clock(self) -> int:
        """The house's clock, in ticks."""
        out = c.c_uint64()
        _lib.check(_lib.lib.cbs_now(self.handle(), c.addressof(out)))
        return out.value

    @property
    def counts(self) -> Counts:
        """What was seen in real time."""
        out = _lib.Counts()
        _lib.lib.cbs_counts(c.addressof(self.pacer), c.addressof(out))
        return Counts(*(getattr(out, name) for name, _ in out._fields_))

    def view(self, name: str) -> View:
        """Returns what a server shows. By the serving thread, or while nobody serves."""
        out = _lib.View()
        _lib.check(_lib.lib.cbs_view(self.handle(), self._number(name), c.addressof(out)))
        deadline = out.deadline_low | out.deadline_high << 64
        return View(out.budget, deadline, out.accepted, out.finished, out.throttled, out.closed)

    def promised(self, name: str) -> Optional[int]:
        """Returns the tick by which all that a server has taken is finished, and None if nothing is unfinished."""
        low, high = c.c_uint64(), c.c_uint64()
        _lib.check(
            _lib.lib.cbs_promised(self.handle(), self._number(name), c.addressof(low), c.addressof(high))
        )
        tick = low.value | high.value << 64
        return None if tick == (1 << 128) - 1 else tick

    def charges(self, name: str) -> Charges:
        """Returns what a server was charged."""
        total, most = c.c_uint64(), c.c_uint64()
        _lib.check(
            _lib.lib.cbs_charges(self.handle(), self._number(name), c.addressof(total), c.addressof(most))
        )
        return Charges(total.value, most.value)

    def _number(self, name: str) -> int:
        return self._names.index(self[name].name)

    # -- serving --

    def run(self) -> None:
        """Does all that there is to do, each unit as soon as the one before it is done."""
        for unit in self.units():
            unit()

    def serve(self, tick: timedelta) -> None:
        """Serves in real time, until all clients have ended and all is done, or `stop`. It may be called again, and goes on.

        Ctrl-C ends it after the unit that is being done, with KeyboardInterrupt. A second one ends the unit."""
        with interrupted(self) as told:
            for unit in self.units(tick):
                unit()
        if told:
            raise KeyboardInterrupt

    def serving(self, tick: timedelta) -> Serving:
        """Returns what serves on a thread of its own within a `with` or `async with` statement. At its end all clients end,
        and all that was sent is done. If the block raises, the thread stops after its unit."""
        return Serving(self, tick)

    def units(self, tick: Optional[timedelta] = None) -> Iterator[Unit]:
        """Returns the units, one after another, for a loop of one's own: `for unit in house.units(): unit()`.

        Without a tick each comes as soon as the one before it is done, until there is nothing to do. With one they come in
        real time, until all is over."""
        if not self._served.acquire(blocking=False):
            raise CbsError("the house is served already")
        self._server_thread = threading.get_ident()
        try:
            yield from turned(self) if tick is None else paced(self, tick)
        finally:
            self.is_stopping = False
            self._server_thread = 0
            self._served.release()

    def stop(self) -> None:
        """Ends the serving after the unit that is being done. Any thread may call it, and a unit, and a signal handler."""
        self.is_stopping = True
        self.bell.ring()

    def is_served_here(self) -> bool:
        """Returns whether this thread serves the house."""
        return self._server_thread == threading.get_ident()

    def unit_of(self, server: int, token: int, last: bool) -> Unit:
        """Returns the unit of a token that the library told."""
        return Unit(self, self._names[server], server, token, last)

    def do(self, unit: Unit) -> None:
        """Does a unit. A job that is over before its last unit leaves the house."""
        job = self._jobs[unit.token]
        is_over = True
        try:
            is_over = job.unit(unit.last)
        finally:
            if is_over:
                del self._jobs[unit.token]
                if not unit.last:
                    _lib.check(_lib.lib.cbs_finish(self.handle(), unit.number))

    # -- recording --

    def record(
        self,
        path: Union[str, "os.PathLike[str]"],
        *,
        tick: Optional[timedelta] = None,
        every: int = 256,
        room: int = 1 << 16,
    ) -> None:
        """Writes the steps of the house to a file from now on, for `cbsrun replay`. Call it before the first step.

        `tick` is told in the file. What was done is written each `every` units, and if the house waits. The steps between two
        writes may take `room` bytes, at most 16777184: a step takes 20 at most, and mostly 1 or 2. A job that ends early is no
        step of such a file: what the house does after that is not in it. Raises OSError if the file cannot be written."""
        if self.recorder is not None or not self._is_new():
            raise CbsError("a recording begins before the first step of a house")
        head = head_of(list(self.servers.items()), self.backlog, tick)
        self.recorder = Recorder(
            self.handle(), path, head, whole("room", room, 32), whole("every", every, 64)
        )

    def _is_new(self) -> bool:
        views = (self.view(name) for name in self)
        return self.clock == 0 and all(it.accepted == 0 and not it.closed for it in views)

    # -- the end --

    def handle(self) -> int:
        """Returns where the handle of the house lies. Raises HouseClosed."""
        if self.is_closed:
            raise HouseClosed("the house is closed, or of the process that forked this one")
        return c.addressof(self._handles)

    def close(self) -> None:
        """Stops the serving, ends what is recorded, cancels what is unfinished, and frees all. A second close is none."""
        if self.is_closed:
            return
        if self.is_served_here():
            raise CbsError("a unit cannot close its house: it may stop it")
        self.stop()
        if not self._served.acquire(timeout=60):
            raise CbsError("a unit takes longer than a minute: the house cannot be closed")
        try:
            self._shut()
            for job in list(self._jobs.values()):
                job.lose()
            self._jobs.clear()
        finally:
            self._served.release()

    def _shut(self) -> None:
        if self.recorder is not None:
            self.recorder.close()
        self.is_closed = True
        self._finalizer()
        self.room.tell()  # who waits there is told that the house is closed

    def __enter__(self) -> "House":
        return self

    def __exit__(self, *_: object) -> None:
        self.close()

    def __reduce__(self) -> Any:
        raise TypeError("a house is of its process, and cannot be pickled")


def _at_exit() -> None:
    """Ends the houses that are open at the end of the interpreter. One whose unit goes on is left to the system."""
    for house in list(_houses):
        house.stop()
    for house in list(_houses):
        mine = house.is_served_here()
        if not house.is_closed and not mine and house._served.acquire(timeout=1):
            house._shut()
            house._served.release()


def _after_fork() -> None:
    """Closes the houses of the parent in a child, and leaves their memory as it is."""
    for house in list(_houses):
        house.is_closed = True
        house._finalizer.detach()


# Before the interpreter joins its threads, one of which may serve a house.
getattr(threading, "_register_atexit", atexit.register)(_at_exit)
os.register_at_fork(after_in_child=_after_fork)
