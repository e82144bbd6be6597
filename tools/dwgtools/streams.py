"""Standard streams: which files they are, what is said on them, and that nothing is written into what is read."""

from __future__ import annotations

import contextlib
import io
import itertools
import os
import re
import select
import stat
import sys
from typing import Any, Iterator, List, Optional, Sequence, Union

from .escapes import one_line, one_message
from .statuses import Exit, ToolError
from .versions import MOST_HEADER
from .whole_names import absolute_name


class Patient(io.FileIO):
    """A descriptor that is waited for where it doesn't block, so that no pause is taken for its end, or for a fault.

    Whether it blocks belongs to all processes that share what it leads to: that stays as it is.
    """

    def readinto(self, buffer: Any) -> int:
        """Reads what has come, once something has; 0 tells the end."""
        while True:
            # It waits before it reads: a named pipe that nobody writes into yet reads as one that has ended.
            _await(self.fileno(), select.POLLIN)
            count = super().readinto(buffer)
            if count is not None:
                return count

    def read(self, size: Optional[int] = -1) -> bytes:
        """Reads as `readinto` does, which the one of a file doesn't."""
        return io.RawIOBase.read(self, -1 if size is None else size) or b""

    def readall(self) -> bytes:
        """Reads as `readinto` does up to the end."""
        return io.RawIOBase.readall(self) or b""

    def write(self, data: Any) -> int:
        """Writes as much as there is room for, once there is any."""
        while True:
            count = super().write(data)
            if count is not None:
                return count
            _await(self.fileno(), select.POLLOUT)


def _await(handle: int, event: int) -> None:
    """Waits until a descriptor can be read or written, or has an end or a fault to tell."""
    waiting = select.poll()
    waiting.register(handle, event)
    waiting.poll()


def is_standard(path: Optional[str]) -> bool:
    """Whether a word stands for a standard stream: `-`, or none at all."""
    return path is None or path == "-"


# How the pipes of a process substitution, and standard input, are called.
_OWN_PIPE = re.compile(r"/dev/stdin|/(?:dev|proc/self)/fd/[0-9]+")


def is_own_pipe(path: str) -> bool:
    """Whether a word names what the tool has open since it began, as the shell has it for a process substitution."""
    return bool(_OWN_PIPE.fullmatch(path))


def as_file(name: str) -> str:
    """The name of a file as a word that stands for no standard stream."""
    return os.path.join(".", name) if is_standard(name) else name


def input_name(path: Optional[str]) -> str:
    """What an input is called in messages."""
    return "standard input" if path is None or is_standard(path) else one_line(path)


def output_name(path: Optional[str]) -> str:
    """What an output is called in messages."""
    return "standard output" if path is None or is_standard(path) else one_line(path)


def status_at(path: Optional[str], stream: int) -> Optional[os.stat_result]:
    """What stands at a name, links followed, or is the standard stream; None where nothing does."""
    try:
        return os.fstat(stream) if path is None or is_standard(path) else os.stat(path)
    except (OSError, ValueError):
        return None


def is_one_file(one: Optional[os.stat_result], other: Optional[os.stat_result]) -> bool:
    """Whether two are one regular file, whatever their names."""
    return one is not None and other is not None and stat.S_ISREG(one.st_mode) and os.path.samestat(one, other)


def is_one_pipe(one: Optional[os.stat_result], other: Optional[os.stat_result]) -> bool:
    """Whether two are one pipe, whatever their names."""
    return one is not None and other is not None and stat.S_ISFIFO(one.st_mode) and os.path.samestat(one, other)


def _stream_file(stream: int) -> Optional[os.stat_result]:
    """The regular file that a standard stream is; None where it is none."""
    there = status_at(None, stream)
    return there if there is not None and stat.S_ISREG(there.st_mode) else None


def outputs(is_new: bool) -> List[os.stat_result]:
    """The regular files that standard output and error go to: those that have nothing yet, or those that have something."""
    return [own for own in map(_stream_file, (1, 2)) if own is not None and is_new == (not own.st_size)]


def refuse_streams(sources: Sequence[Optional[str]], named: Sequence[str] = ()) -> None:
    """Refuses a file to read, or an output that is named, that is standard output or error too, before anything is written there.

    Where it is a file and standard error the refusal isn't said, since it would stand in it: the status alone tells. That is looked at first.
    """
    for stream, called in ((2, "error"), (1, "output")):
        own = _stream_file(stream)
        for name in itertools.chain(sources, named) if own else ():
            if is_one_file(own, status_at(name, 0)):
                if stream == 2:
                    _hush()
                # (what is said into a file that is replaced would be lost with it)
                why = "nothing is written into what is read" if name in sources else "name another output"
                raise ToolError(f"{input_name(name)} is standard {called} too; {why}", Exit.EXISTS)
    refuse_pipes(sources)


def refuse_pipes(sources: Sequence[Optional[str]]) -> None:
    """Refuses a pipe to read that is standard output or error too, of which a tool that reads what it writes would never see the end."""
    pipes = [(status_at(None, stream), called) for stream, called in ((1, "output"), (2, "error"))]
    pipes = [(own, called) for own, called in pipes if own is not None and stat.S_ISFIFO(own.st_mode)]
    for name in sources if pipes else ():
        there = status_at(name, 0)
        for own, called in pipes:
            if is_one_pipe(own, there):
                raise ToolError(f"{input_name(name)} is standard {called} too, and no pipe is read that is written into", Exit.EXISTS)


def _hush() -> None:
    """Lets all that is said on standard error from now on get lost."""
    nowhere = os.open(os.devnull, os.O_WRONLY)
    os.dup2(nowhere, 2)
    os.close(nowhere)


# What the drawings of all versions begin with, down to the first ones.
_ANY_VERSION = re.compile(rb"AC[0-9][0-9.]")


def is_any_version(data: bytes) -> bool:
    """Whether a file begins as a drawing of any version does."""
    return bool(_ANY_VERSION.match(data))


def hush_where_drawing() -> None:
    """Says nothing at all where standard error is a drawing, whoever names that: what is said would stand after its end.

    The descriptor stays, by which an input that it is too is refused.
    """
    own = _stream_file(2)
    if own is None or not own.st_size:
        return
    # (it is open to be written, and another descriptor reads it)
    with contextlib.suppress(OSError), open("/dev/fd/2", "rb") as file:
        if is_one_file(own, os.fstat(file.fileno())) and is_any_version(file.read(MOST_HEADER)):
            sys.stderr = open(os.devnull, "w", encoding="utf-8", errors="backslashreplace")


# What the names of the folder of the certificates of LOG and of a certificate end with.
FOLDER, ENDING = ".certificates", ".cert"


def hush_where_named(words: Sequence[str]) -> None:
    """Says nothing more where standard error is a file that the words or DWG may name, a drawing in a folder that they name, or a certificate of LOG."""
    own, path = _stream_file(2), absolute_name("/dev/fd/2")
    if own is None:
        return
    names = [as_file(name) for word in (*words, os.environ.get("DWG", "")) for name in _names_in(word)]
    folders = (os.path.join(os.path.realpath(name), "") for name in names if os.path.isdir(name))
    is_inside = path.lower().endswith(".dwg") and path.startswith(tuple(folders))
    is_certificate = path.endswith(ENDING) and os.path.dirname(path) in (os.path.realpath(name + FOLDER) for name in names)
    if is_inside or is_certificate or any(is_one_file(own, status_at(name, 0)) for name in (None, *names)):
        _hush()


def _names_in(word: str) -> Iterator[str]:
    """What a word may name: itself, what stands after its `=`, and after `-o`."""
    yield word
    yield word.partition("=")[2]
    if word.startswith("-o"):
        yield word[2:]


def own_name() -> str:
    """How the tool is called: a link to it may have any name."""
    return one_line(os.path.basename(sys.argv[0]))


def tell(message: str) -> bool:
    """Says a message of one line on standard error; where nobody can read it, it is lost, and nothing else. Whether it could be written."""
    with contextlib.suppress(OSError, ValueError):
        print(f"{own_name()}: {one_message(message)}", file=sys.stderr, flush=True)
        return True
    return False


def regain_error() -> None:
    """Has standard error back where the script of the tool has put it aside: what Python says before this isn't written into a drawing."""
    aside = sys._xoptions.get("error", "")  # pylint: disable=protected-access
    if isinstance(aside, str) and aside.isdigit():
        os.dup2(int(aside), 2)
        os.close(int(aside))


def open_missing_streams() -> None:
    """Opens /dev/null for each standard stream that is closed, so that no file that is opened later stands in its place."""
    for number, name in enumerate(("stdin", "stdout", "stderr")):
        try:
            os.fstat(number)
        except OSError:
            # The lowest number that is free is given, and that is this one.
            os.set_inheritable(os.open(os.devnull, os.O_RDWR), True)
        if getattr(sys, name) is None:
            mode = "r" if number == 0 else "w"
            setattr(sys, name, open(number, mode, encoding="utf-8", errors="backslashreplace", closefd=False))


def await_streams() -> None:
    """Has standard input read to its end, and standard output and error write all that they are given, whether or not they block. Where Python
    was told not to buffer them (PYTHONUNBUFFERED), a write may take a part of it, as on a disk that gets full, and nobody hears of that."""
    for number, name in enumerate(("stdin", "stdout", "stderr")):
        stream = getattr(sys, name)
        own: Union[io.BufferedReader, io.BufferedWriter]
        own = io.BufferedWriter(Patient(number, "w", closefd=False)) if number else io.BufferedReader(Patient(number, closefd=False))
        is_by_line = stream.line_buffering or number == 2
        setattr(sys, name, io.TextIOWrapper(own, encoding=stream.encoding, errors=stream.errors, line_buffering=is_by_line))
        stream.detach()
