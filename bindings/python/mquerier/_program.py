"""Runs of the program `mquerier` over captures. It is proved, as the library is."""

from __future__ import annotations

import contextlib
import functools
import io
import json
import os
import shutil
import subprocess
import threading
from typing import Any, Callable, Dict, Iterable, Iterator, List, Optional

from ._files import Capture, file_of, kind_of, path_of, reader_of
from ._library import NATIVE, VERSION
from .faults import CaptureFault, Error, NothingJudged, words_of
from .objects import Converted, object_of

PIECE = 1 << 16
# The status of a fault, and those of a run to the end of a capture: 3 with a certain finding, 4 if nothing was judged.
FAULTY, ENDED = 1, (0, 3, 4)
DECODER, PLAIN = json.JSONDecoder(object_hook=object_of), json.JSONDecoder()
# The number of messages that are kept, and the length from which on one is not.
KEPT, LONG = 1 << 10, 1 << 10


@functools.lru_cache(None)
def program() -> str:
    """Returns the path of the program in the package, or if that has none, of the system's."""
    own = os.path.join(NATIVE, "mquerier")
    if os.path.exists(own):
        return own
    found = shutil.which("mquerier")
    if found is None:
        raise ImportError("mquerier is not there. Install the wheel, or the program into a folder of PATH", name="mquerier")
    version = subprocess.run([found, "--version"], stdout=subprocess.PIPE, text=True, check=False).stdout
    if not version.startswith(f"mquerier {VERSION}."):
        raise ImportError(f"{found} is of another version than this package, {VERSION}", name="mquerier")
    return found


class Feeder(threading.Thread):
    """Writes a capture to a program until that has ended."""

    def __init__(self, read: Callable[[int], bytes], to: Any) -> None:
        super().__init__(daemon=True)
        self.read, self.to, self.begin = read, to, b""
        self.why: Optional[BaseException] = None
        self.start()

    def run(self) -> None:
        with contextlib.suppress(BrokenPipeError), self.to:
            while piece := self.next():
                self.begin = (self.begin + piece[:4])[:4]
                left = memoryview(piece)
                while left:
                    left = left[self.to.write(left) :]

    def next(self) -> bytes:
        """Returns the next bytes, and none after a read that failed."""
        try:
            return self.read(PIECE)
        except BaseException as why:
            self.why = why
            return b""


class Run:
    """A run of the program. It reads a file with a path by itself, and gets any other capture by a pipe."""

    def __init__(self, words: List[str], capture: Capture) -> None:
        self.words, self.capture, self.opened = [program(), *words], capture, file_of(capture)

    def start(self) -> None:
        file = self.opened.__enter__()
        self.file = file if isinstance(self.capture, (str, os.PathLike)) else None
        pipe = subprocess.PIPE
        self.process = subprocess.Popen(self.words, bufsize=0, stdin=self.file or pipe, stdout=pipe, stderr=pipe)
        self.feeder = None if self.file else Feeder(reader_of(file), self.process.stdin)

    def stop(self) -> None:
        self.process.kill()
        self.process.wait()
        for it in (self.process.stdout, self.process.stderr):
            if it:
                it.close()
        self.opened.__exit__(None, None, None)

    def end(self) -> str:
        """Returns what is on standard error at the end, or raises what ended the run early."""
        said = self.process.stderr.read().decode(errors="replace") if self.process.stderr else ""
        status = self.process.wait()
        if self.feeder and self.feeder.why:
            raise self.feeder.why
        if status == FAULTY:
            raise CaptureFault(self.words_for(said))
        if status not in ENDED:
            raise Error(f"mquerier {' '.join(self.words[1:])}: status {status}: {said.strip()}")
        return said

    def words_for(self, said: str) -> str:
        """Returns the words for what is on standard error, after the path of the capture."""
        return ": ".join([*path_of(self.capture), words_of(said), *kind_of(self.begin(), self.words[1])])

    def begin(self) -> bytes:
        """Returns the first bytes of the capture. A pipe with a path doesn't have them any longer."""
        if self.feeder:
            return self.feeder.begin
        with contextlib.suppress(OSError):
            return os.pread(self.file.fileno(), 4, 0) if self.file else b""
        return b""


def objects(words: List[str], capture: Capture) -> Iterator[Any]:
    """Returns the objects of a run, which come while the program reads the capture. A fault is raised after those before it."""
    return objects_in(Run([words[0], "--json", *words[1:]], capture))


def decoded(lines: Iterable[str]) -> Iterator[Any]:
    """Yields the objects of lines. A message is the last field, and hosts repeat theirs, so the first ones are kept. The last line has no
    end if the program was killed."""
    kept: Dict[str, Any] = {}
    for line in lines:
        head, _, message = line.partition(',"message":')
        if message in kept:
            fields = PLAIN.raw_decode(head + "}")[0]
            fields["message"] = kept[message]
            yield object_of(fields)
        elif line.endswith("\n"):
            it = DECODER.raw_decode(line)[0]
            if message and len(kept) < KEPT and len(message) < LONG:
                kept[message] = it.message
            yield it


def objects_in(run: Run) -> Iterator[Any]:
    run.start()
    try:
        it = None
        for it in decoded(io.TextIOWrapper(io.BufferedReader(run.process.stdout), "ascii")):  # type: ignore[arg-type]
            yield it
        said = run.end()
        # A check that found no querier has neither an object nor a fault.
        if said and it is None:
            raise NothingJudged(run.words_for(said))
    finally:
        run.stop()


class Conversion(io.RawIOBase):
    """A classic capture of Ethernet, as a file to read from. `counts` is there at its end."""

    def __init__(self, words: List[str], capture: Capture) -> None:
        self.counts: Optional[Converted] = None
        self.name = next(path_of(capture), None)
        self._run = Run(["convert", "--json", *words], capture)
        self._run.start()

    def readable(self) -> bool:
        return True

    def readinto(self, buffer: Any) -> int:
        count: int = self._run.process.stdout.readinto(buffer)  # type: ignore[union-attr]
        if count == 0 and len(buffer) > 0 and self.counts is None:
            self.counts = DECODER.raw_decode(self._run.end())[0]
        return count

    def close(self) -> None:
        if not self.closed:
            self._run.stop()
        super().close()
