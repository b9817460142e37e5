"""Memory of the system, for libraries that allocate none."""

from __future__ import annotations

import contextlib
import ctypes
import mmap
from typing import Dict, List

from ._library import UNIT, Units

# Memory that is reserved beyond what the system has, as far as the system allows it. Python has the name from 3.13 on.
NORESERVE = 0x4000


class Memory:
    """Zeroed memory that begins at a page. The system provides a page at its first use, so it costs what is written. A fork copies it."""

    def __init__(self, size: int) -> None:
        self.size = max(1, size)
        self.pages = mmap.mmap(-1, self.size, flags=mmap.MAP_PRIVATE | mmap.MAP_ANONYMOUS | NORESERVE)
        # A kernel without large pages refuses this.
        with contextlib.suppress(OSError):
            self.pages.madvise(mmap.MADV_NOHUGEPAGE)
        self.at = ctypes.addressof(ctypes.c_char.from_buffer(self.pages))
        self.units = Units(self.at, self.size // UNIT)


# The rooms that nobody has, by their size: a power of two.
ROOMS: Dict[int, List[Memory]] = {}


def taken(least: int) -> Memory:
    """Returns a room of at least this size. Calls one after the other share one, and calls at a time have one each."""
    size = 1 << (least - 1).bit_length()
    try:
        return ROOMS.setdefault(size, []).pop()
    except IndexError:
        return Memory(size)


def give_back(room: Memory) -> None:
    ROOMS[room.size].append(room)
