"""Runs jobs of Python under Constant Bandwidth Servers, over the proved library of cbsrun.

    import cbs

    servers = {"control": cbs.Server(1, 5), "logging": cbs.Server(1, 10, "throttled")}
    with cbs.House(servers) as house:
        future = house["control"].submit(steps)  # a generator function: each step is a unit
        house["logging"].submit(print, "hello")
        house.end()
        house.serve(cbs.milliseconds(1))
        print(future.result())

A job has units, and a house does one unit a tick. Each server has a budget of ticks in every period, so a client that asks
for too much takes nobody else's share.
"""

from .client import Client
from .errors import (
    CbsError,
    Ended,
    HouseClosed,
    NoServer,
    OutOfMemory,
    Refused,
    RingFull,
    Unfinished,
)
from .house import House
from .jobs import JobFuture
from .servers import Charges, Counts, Server, View, greatest_budget, milliseconds
from .serving import Serving, Unit

__version__ = "0.1.0"
__all__ = [
    "CbsError",
    "Charges",
    "Client",
    "Counts",
    "Ended",
    "House",
    "HouseClosed",
    "JobFuture",
    "NoServer",
    "OutOfMemory",
    "Refused",
    "RingFull",
    "Server",
    "Serving",
    "Unfinished",
    "Unit",
    "View",
    "greatest_budget",
    "milliseconds",
]
