"""Inputs: what files and pipes have, kept so that it is read again and again, whoever changes them meanwhile."""

from __future__ import annotations

import contextlib
import io
import os
import stat
import tempfile
from dataclasses import dataclass
from typing import IO, Iterator, Optional, Tuple

from .outputs import take_read
from .statuses import Exit, Status, ToolError
from .streams import Patient, input_name, is_standard
from .temporary import TemporaryFault, of_temporary, temporary_told
from .versions import LIMIT


@contextlib.contextmanager
def opened(path: Optional[str]) -> Iterator[IO[bytes]]:
    """An input as it comes, which isn't a terminal. ToolError with status 4 where it can't be read, or is changed while it is."""
    try:
        with temporary_told(), io.BufferedReader(Patient(0, closefd=False) if path is None or is_standard(path) else Patient(path)) as file:
            if file.isatty():
                raise ToolError(f"{input_name(path)} is a terminal, and no drawing comes from there; name a file", Exit.USAGE)
            take_read(os.fstat(file.fileno()))
            before = state_of(file)
            yield file
            refuse_changed(file, before, input_name(path))
    except OSError as fault:
        raise ToolError(f"{input_name(path)}: {fault.strerror}", Status.READ_FAULT) from None


@dataclass(frozen=True)
class Input:
    """What an input had when it was read, in a file that nobody else changes, however often that is read: no more than one byte more than the program
    takes. `size` is how many bytes there were, `mode` that of a regular file; by `source`, one that is named, and its `state` it is seen that the input
    is changed meanwhile."""

    file: IO[bytes]
    size: int
    mode: Optional[int] = None
    source: Optional[IO[bytes]] = None
    state: Optional[Tuple[int, int]] = None

    @property
    def is_changed(self) -> bool:
        """Whether its state isn't the one that it had before it was read."""
        return self.source is not None and state_of(self.source) != self.state

    def close(self) -> None:
        """Closes it."""
        self.file.close()
        if self.source is not None:
            self.source.close()


def open_input(path: Optional[str]) -> Input:
    """An input that can be read again and again."""
    with opened(path) as file:
        return input_of(file)


def input_of(file: IO[bytes], begin: bytes = b"") -> Input:
    """An open input, of which the begin is read."""
    told, state = os.fstat(file.fileno()), state_of(file)
    take_read(told)
    mode = stat.S_IMODE(told.st_mode) if stat.S_ISREG(told.st_mode) else None
    found = kept(file, begin)
    if is_named_file(file):
        return Input(found, told.st_size, mode, again(file), state)
    return Input(found, os.fstat(found.fileno()).st_size, mode)


def again(file: IO[bytes]) -> IO[bytes]:
    """An open file that stays open where it is closed."""
    return os.fdopen(os.dup(file.fileno()), "rb")


def is_named_file(file: IO[bytes]) -> bool:
    """Whether an input is a regular file, and all of it: of standard input only what comes is."""
    return file.fileno() != 0 and stat.S_ISREG(os.fstat(file.fileno()).st_mode)


def kept(file: IO[bytes], begin: bytes = b"") -> IO[bytes]:
    """An input, of which the begin is read, in a file without a name, or else TemporaryFault: no more than one byte more than the program takes. A
    regular file of which no copy can be kept is read itself, and is refused where its size or time changes."""
    if is_named_file(file):
        with contextlib.suppress(TemporaryFault):
            return copy_of(file, LIMIT + 1)
        return from_begin(again(file))
    with of_temporary():
        found = tempfile.TemporaryFile()
    left, piece = LIMIT + 1, begin or file.read(1 << 20)
    while piece:
        with of_temporary():
            found.write(piece)
        left -= len(piece)
        piece = file.read(min(left, 1 << 20))
    with of_temporary():
        found.seek(0)
    return found


def copy_of(file: IO[bytes], most: int) -> IO[bytes]:
    """What a regular file begins with, in a file that nobody else can change, or else TemporaryFault."""
    found = private_file()
    try:
        for piece in pieces_of(file, most):
            with of_temporary():
                put(found, piece)
        return from_begin(found)
    except BaseException:
        found.close()
        raise


def put(file: IO[bytes], piece: bytes) -> None:
    """Adds all of a piece to a file without a buffer."""
    left = memoryview(piece)
    while left:
        left = left[os.write(file.fileno(), left) :]


def private_file() -> IO[bytes]:
    """A file without a name that nobody else can change, in memory where the system has such files, or else TemporaryFault."""
    with contextlib.suppress(OSError, AttributeError):
        return os.fdopen(os.memfd_create("dwg"), "w+b", buffering=0)
    with of_temporary():
        return tempfile.TemporaryFile(buffering=0)


# What is said of an input whose state isn't the one that it had.
CHANGED = "it was changed while it was read"


def state_of(file: IO[bytes]) -> Optional[Tuple[int, int]]:
    """The size of an open file and the time of its last change; None of a pipe, of which nobody changes what was read."""
    told = os.fstat(file.fileno())
    return (told.st_size, told.st_mtime_ns) if stat.S_ISREG(told.st_mode) else None


def refuse_changed(file: IO[bytes], before: Optional[Tuple[int, int]], name: str) -> None:
    """Refuses an input whose state isn't the one that it had before it was read."""
    if state_of(file) != before:
        raise ToolError(f"{name}: {CHANGED}", Status.READ_FAULT)


def from_begin(file: IO[bytes]) -> IO[bytes]:
    """A file whose descriptor, which a child reads, is at its begin: a file with a buffer may seek there and leave that where it is."""
    os.lseek(file.fileno(), 0, os.SEEK_SET)
    return file


def pieces_of(file: IO[bytes], end: int, at: int = 0) -> Iterator[bytes]:
    """The bytes of a file up to an end, wherever a child that read it has left its descriptor, and whatever its buffer holds."""
    while at < end:
        piece = os.pread(file.fileno(), min(end - at, 1 << 20), at)
        if not piece:
            return
        yield piece
        at += len(piece)


# A file of more than so many bytes is hollow where it has more than so many times what the disk has of it.
LEAST_HOLLOW, MOST_HOLLOW = 1 << 26, 64


def bytes_of(file: IO[bytes], most: int) -> bytes:
    """And all of them at once."""
    return b"".join(pieces_of(file, most))
