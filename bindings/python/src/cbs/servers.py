"""Servers, what they show, and times."""

from __future__ import annotations

import ctypes as c
import re
from dataclasses import dataclass
from datetime import timedelta
from typing import Iterable, Literal, Mapping, Sequence, Tuple, Union

from . import _lib

Mode = Literal["soft", "throttled"]

_MODES = {"soft": 0, "throttled": 1}


@dataclass(frozen=True)
class Server:
    """A reservation: `budget` ticks in every `period` ticks, 1 <= budget <= period <= 10^9.

    With its budget used up a soft server gets what the others leave free, and a throttled one waits."""

    budget: int
    period: int
    mode: Mode = "soft"

    def __post_init__(self) -> None:
        for it in (self.budget, self.period):
            whole("a number of ticks", it, 64)
        if self.mode not in _MODES:
            raise ValueError(f"a mode is 'soft' or 'throttled', and not {self.mode!r}")


@dataclass(frozen=True)
class View:
    """What a server shows."""

    budget: int
    """The ticks that it may still use by its deadline."""
    deadline: int
    accepted: int
    """How many jobs were taken from its client."""
    finished: int
    throttled: bool
    """Whether it waits for its deadline."""
    closed: bool
    """Whether the end of its client was taken."""


@dataclass(frozen=True)
class Charges:
    """What a server was charged, in ticks."""

    total: int
    most: int
    """The most for one unit."""


@dataclass(frozen=True)
class Counts:
    """What was seen in real time. Times are in nanoseconds."""

    units: int
    overruns: int
    """How many units took longer than a tick."""
    longest: int
    """The longest unit."""
    charged: int
    """How many ticks were charged for overruns."""
    behind: int
    """How many ticks the house is behind the clock, as last seen."""
    most_behind: int


def whole(what: str, number: object, bits: int) -> int:
    """Returns a whole number of so many bits. Raises TypeError or ValueError if it is none."""
    if isinstance(number, bool) or not isinstance(number, int):
        raise TypeError(f"{what} is an int, and not {number!r}")
    if not 0 <= number < 1 << bits:
        raise ValueError(f"{what} cannot be {number}")
    return number


def nanoseconds(tick: timedelta) -> int:
    """Returns how many nanoseconds a tick has."""
    if not isinstance(tick, timedelta):
        raise TypeError(f"a tick is a timedelta, as cbs.milliseconds(1), and not {tick!r}")
    if tick <= timedelta():
        raise ValueError(f"a tick is longer than {tick}")
    return (tick // timedelta(microseconds=1)) * 1000


def milliseconds(count: float) -> timedelta:
    """Returns so many milliseconds."""
    return timedelta(milliseconds=count)


def structs_of(servers: Iterable[Server]) -> "c.Array[_lib.Server]":
    """Returns servers as the library takes them."""
    given = [_lib.Server(it.budget, it.period, _MODES[it.mode]) for it in servers]
    return (_lib.Server * max(len(given), 1))(*given)


def named(servers: Mapping[str, Server]) -> Sequence[Tuple[str, Server]]:
    """Returns servers with their names. Raises if a name is none, or a server is no Server."""
    for name, server in servers.items():
        if not isinstance(name, str) or not re.fullmatch(r"[A-Za-z0-9_-]{1,32}", name, re.ASCII):
            raise ValueError(f"a name has 1 to 32 letters, digits, - and _, and is not {name!r}")
        if not isinstance(server, Server):
            raise TypeError(f"{name} is a cbs.Server, as cbs.Server(1, 5), and not {server!r}")
    return tuple(servers.items())


def greatest_budget(servers: Union[Mapping[str, Server], Iterable[Server]], period: int) -> int:
    """Returns the greatest budget with which a server of this period would still fit beside these servers, and 0 if none
    would. Raises Refused if they do not fit themselves."""
    given = list(servers.values() if isinstance(servers, Mapping) else servers)
    out = c.c_uint64()
    structs = structs_of(given)
    _lib.check(
        _lib.lib.cbs_greatest_budget(
            c.addressof(structs), len(given), whole("a period", period, 64), c.addressof(out)
        )
    )
    return out.value
