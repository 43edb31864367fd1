"""The steps of a house in a file, which `cbsrun replay FILE` makes again."""

from __future__ import annotations

import ctypes as c
import os
import zlib
from datetime import timedelta
from typing import BinaryIO, Optional, Sequence, Tuple, Union

from . import _lib
from .servers import Server, nanoseconds

# How much longer than asked for a tape is at most.
_MARGIN = 31

# How many bytes of steps a block has at most.
_MOST = 0xFFFFFF


def head_of(
    servers: Sequence[Tuple[str, Server]], backlog: int, tick: Optional[timedelta]
) -> bytes:
    """Returns the text of a record of these servers, and the byte that ends it."""
    lines = ["record = 1"]
    if tick is not None:
        length = nanoseconds(tick)
        if length > 1_000_000_000:
            raise ValueError(f"a recorded tick has at most a second, and not {tick}")
        lines.append('tick = "1 s"' if length == 1_000_000_000 else f'tick = "{length} ns"')
    lines += ["bound = [1, 1]", f"backlog = {backlog}", "server = ["]
    for name, it in servers:
        rate = f"budget = {it.budget}, period = {it.period}"
        lines.append(f'  {{ name = "{name}", mode = "{it.mode}", {rate} }},')
    return "\n".join([*lines, "]", "\3"]).encode("ascii")


class Recorder:
    """Writes the steps of a house.

    An error of the file ends the recording, is kept in `error`, and never stops the house."""

    def __init__(
        self, house: int, path: Union[str, "os.PathLike[str]"], head: bytes, room: int, every: int
    ) -> None:
        """`house` is where the handle of the house lies. It made no step yet."""
        if room > _MOST - _MARGIN:
            raise ValueError(f"the steps between two writes take at most {_MOST - _MARGIN} bytes")
        self.error: Optional[OSError] = None
        self.is_whole = False
        self._house = house
        self._every, self._units = every, 0
        self._buffer = c.create_string_buffer(room + _MARGIN)
        self._length = c.c_size_t()
        self._file: Optional[BinaryIO] = open(path, "wb", buffering=0)
        try:
            self._sum = zlib.crc32(head)
            self._file.write(head + self._block(b""))
            _lib.check(_lib.lib.cbs_tape_open(house, room))
        except BaseException:
            self._file.close()
            raise

    def note_unit(self) -> None:
        """Writes what was not written yet, after each `every` units."""
        self._units += 1
        if self._units >= self._every:
            self.write()

    def write(self) -> None:
        """Writes the steps that the house made since the last write."""
        self._units = 0
        if self._file is None:
            return
        buffer, length = self._buffer, self._length
        taken = _lib.lib.cbs_tape_take(
            self._house, c.addressof(buffer), len(buffer), c.addressof(length)
        )
        if taken == 0 and length.value:
            self._put(c.string_at(buffer, length.value))

    def _block(self, steps: bytes) -> bytes:
        """Returns a block with these bytes of steps.

        Their length has 3 bytes, the lowest first, and one more: the four come to 255 by exclusive or. A sum follows, of all that
        the file has then but its sums."""
        low, middle, high = len(steps).to_bytes(3, "little")
        framed = bytes((low, middle, high, low ^ middle ^ high ^ 255)) + steps
        self._sum = zlib.crc32(framed, self._sum)
        return framed + self._sum.to_bytes(4, "little")

    def _put(self, steps: bytes) -> None:
        """Writes a block with these bytes of steps, all of it, unless an error ended the recording."""
        if self._file is None:
            return
        left = memoryview(self._block(steps))
        try:
            while self._file is not None and left:
                left = left[self._file.write(left) :]
        except OSError as error:
            self.error = error
            self._shut()

    def _shut(self) -> None:
        """Closes the file, and the tape of the house."""
        file, self._file = self._file, None
        _lib.lib.cbs_tape_close(self._house)
        if file is not None:
            try:
                file.close()
            except OSError as error:
                self.error = self.error or error

    def close(self) -> None:
        """Writes the last steps, and the mark of the end, unless a step was lost. A second close is none."""
        if self._file is None:
            return
        self.write()
        lost = c.c_bool()
        if _lib.lib.cbs_tape_lost(self._house, c.addressof(lost)) == 0 and not lost.value:
            self._put(_lib.TAPE_END)
            self.is_whole = self._file is not None
        if self._file is not None:
            self._shut()
