"""Captures as arguments: bytes, files and paths; and the faults of a file."""

from __future__ import annotations

import contextlib
import io
import os
from typing import Any, BinaryIO, Callable, ContextManager, Iterator, Union

from ._arguments import octets

# A capture: its bytes, a file that is open for them, or the path of one.
Capture = Union[bytes, bytearray, memoryview, BinaryIO, str, os.PathLike[str]]
WANTED = "bytes, a path or a file that is read as bytes"

# Other kinds of files, by their first bytes.
PCAPNG = b"\n\r\r\n"
KINDS = {
    PCAPNG: "the file is pcapng, which convert() reads",
    b"\x1f\x8b": "the file is compressed by gzip",
    b"\x28\xb5\x2f\xfd": "the file is compressed by zstd",
}


def file_of(capture: Any) -> ContextManager[Any]:
    """Returns a capture as a file. At its end it closes those that are open only here."""
    if isinstance(capture, (str, os.PathLike)):
        return open(capture, "rb")
    if hasattr(capture, "read"):
        return contextlib.nullcontext(capture)
    return io.BytesIO(octets("capture", capture, WANTED))


def reader_of(file: Any) -> Callable[[int], bytes]:
    """Returns a function that reads what is there of a file, at most so many bytes."""
    read = getattr(file, "read1", file.read)
    return lambda most: octets("capture", read(most), WANTED)


def path_of(capture: Capture) -> Iterator[str]:
    """Yields the path of a file if it has one."""
    path = capture if isinstance(capture, (str, os.PathLike)) else getattr(capture, "name", None)
    if isinstance(path, (str, os.PathLike)):
        yield os.fsdecode(path)


def kind_of(begin: bytes, command: str) -> Iterator[str]:
    """Yields the kind of a file that the command doesn't read, by its first bytes."""
    for first, kind in KINDS.items():
        if begin.startswith(first) and (first != PCAPNG or command not in ("check", "convert")):
            yield kind
