"""libcbs by ctypes.

No call of the library blocks, and each takes about a microsecond, so the interpreter's lock is kept (PyDLL). So another
thread of Python does not put a house off at each call, and no two calls with one handle meet.
"""

from __future__ import annotations

import ctypes as c
import os
import sys
from typing import Any

from .errors import Ended, OutOfMemory, Refused, RingFull

FOREVER = 2**64 - 1

# struct cbs_unit, what a unit is.
RUN_CLOCK_END, RUN_UNIT, RUN_DONE = 1, 2, 3

# struct cbs_next, what comes next.
UNIT, SLEEP, LISTEN, WAIT, OVER, CLOCK_END, NO_MEMORY = range(7)

# What a status says that is an exception of its own.
HOUSE_OUT_OF_MEMORY, SEND_ENDED, SEND_RING_FULL = 0x303, 0x501, 0x502

# The byte that ends a tape which has each step.
TAPE_END = b"\x04"


class Handle(c.Structure):
    _fields_ = [("full", c.c_bool), ("at", c.c_void_p)]


class Server(c.Structure):
    _fields_ = [("budget", c.c_uint64), ("period", c.c_uint64), ("mode", c.c_uint32)]


class Unit(c.Structure):
    _fields_ = [
        ("kind", c.c_uint32),
        ("server", c.c_uint16),
        ("seq", c.c_uint64),
        ("token", c.c_uint64),
    ]


class Next(c.Structure):
    _fields_ = [("kind", c.c_uint32), ("taken", c.c_uint32), ("until", c.c_uint64), ("unit", Unit)]


class Turn(c.Structure):
    _fields_ = [
        ("took", c.c_uint64),
        ("advanced", c.c_uint64),
        ("ran", Unit),
        ("out_of_memory", c.c_bool),
        ("over", c.c_bool),
    ]


class View(c.Structure):
    _fields_ = [
        ("budget", c.c_uint64),
        ("deadline_low", c.c_uint64),
        ("deadline_high", c.c_uint64),
        ("accepted", c.c_uint64),
        ("finished", c.c_uint64),
        ("throttled", c.c_bool),
        ("closed", c.c_bool),
    ]


class Pacer(c.Structure):
    _fields_ = [("own", c.c_uint64 * 76)]


class Counts(c.Structure):
    _fields_ = [
        (name, c.c_uint64)
        for name in ("units", "overruns", "longest", "charged", "behind", "most_behind")
    ]


# Where the parts of a Next and a Turn stand, as numbers of 64 bits: they are read faster so than as fields.
NEXT_UNTIL, NEXT_UNIT = Next.until.offset // 8, Next.unit.offset // 8
TURN_TOOK, TURN_ADVANCED, TURN_UNIT = (
    Turn.took.offset // 8,
    Turn.advanced.offset // 8,
    Turn.ran.offset // 8,
)
UNIT_TOKEN = Unit.token.offset // 8


def words_of(struct: c.Structure) -> memoryview:
    """Returns a struct as numbers of 64 bits, which change with it."""
    return memoryview(struct).cast("B").cast("Q")


_P, _U16, _U32, _U64, _SIZE = c.c_void_p, c.c_uint16, c.c_uint32, c.c_uint64, c.c_size_t

# The calls that return a status, with the types of what they take.
_CALLS = {
    "cbs_open": [_P, _SIZE, _U64, _U64, _P, _P, _SIZE],
    "cbs_turn": [_P, _P],
    "cbs_next": [_P, _P, _U64, _P],
    "cbs_pace": [_P, _U64, c.c_bool, _U64, _P],
    "cbs_done": [_P, _P, _U64],
    "cbs_finish": [_P, _U16],
    "cbs_send": [_P, _U64, _U32, _P],
    "cbs_end": [_P],
    "cbs_waiting": [_P, _P],
    "cbs_now": [_P, _P],
    "cbs_view": [_P, _U16, _P],
    "cbs_promised": [_P, _U16, _P, _P],
    "cbs_charges": [_P, _U16, _P, _P],
    "cbs_greatest_budget": [_P, _SIZE, _U64, _P],
    "cbs_tape_open": [_P, _U32],
    "cbs_tape_take": [_P, _P, _SIZE, _P],
    "cbs_tape_lost": [_P, _P],
    "cbs_tape_close": [_P],
}


def _path() -> str:
    """Returns where the library is: as the environment says, or beside this file, or where the system looks."""
    beside = os.path.join(os.path.dirname(os.path.abspath(__file__)), "_lib", "libcbs.so.0")
    return os.environ.get("CBS_LIBRARY") or (beside if os.path.exists(beside) else "libcbs.so.0")


def _loaded(path: str) -> Any:
    """Returns the library, whose calls know what they take. Raises ImportError if it is none for this package."""
    if sys.byteorder != "little" or not getattr(sys, "_is_gil_enabled", lambda: True)():
        raise ImportError("cbs is for little-endian machines, and an interpreter with its lock")
    try:
        library = c.PyDLL(path)
    except OSError as error:
        raise ImportError(f"there is no libcbs: {error}") from None
    for name, takes in _CALLS.items():
        call = getattr(library, name)
        call.argtypes, call.restype = takes, _U32
    library.cbs_free.argtypes, library.cbs_free.restype = [_P], None
    library.cbs_counts.argtypes, library.cbs_counts.restype = [_P, _P], None
    library.cbs_status_text.argtypes = [_U32, _P, _SIZE]
    library.cbs_status_text.restype = library.cbs_pacer_size.restype = _SIZE
    library.cbs_version.restype = _U32
    version = library.cbs_version()
    if version // 100 != 1 or library.cbs_pacer_size() != c.sizeof(Pacer):
        raise ImportError(f"{path} has the version {version}, and this package is for 0.1")
    return library


lib = _loaded(_path())


def text_of(status: int) -> str:
    """Returns the text of a status."""
    out = c.create_string_buffer(256)
    lib.cbs_status_text(status, out, len(out))
    return out.value.decode("ascii")


def check(status: int) -> None:
    """Raises what a status says, unless it is CBS_OK."""
    if status == 0:
        return
    if status == HOUSE_OUT_OF_MEMORY:
        raise OutOfMemory(text_of(status))
    kind = {SEND_RING_FULL: RingFull, SEND_ENDED: Ended}.get(status, Refused)
    raise kind(text_of(status), status)
