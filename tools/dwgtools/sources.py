"""The drawings that the words of dwg-info name, and those in folders, of which those that can't be told are counted."""

from __future__ import annotations

import os
import stat
from dataclasses import dataclass
from typing import IO, Iterator, Optional, Sequence

from .drawings import Drawing
from .inputs import Input, bytes_of, input_of, refuse_changed, state_of
from .program import Program
from .statuses import Status, ToolError
from .streams import input_name, is_own_pipe, is_standard
from .temporary import temporary_told
from .versions import OURS
from .walking import Named, Walk, Walked, walked, without_new, without_outputs


@dataclass(frozen=True)
class Source(Named):
    """A drawing that a word names, or one of a folder; or a folder that can't be read, and why. One that `can_wait` may be a pipe."""

    is_named: bool = True
    can_wait: bool = False


def sources_of(words: Sequence[str], walk: Walk, new: Sequence[os.stat_result], out: Optional[os.stat_result] = None) -> Iterator[Source]:
    """What the words name, in their order, and of folders what the walk takes, without new files that the output or messages go to; `out` is the output
    that is there already. A named pipe is waited for where it holds up no other word."""
    seen = Walked()
    for word in words:
        if is_standard(word) or not os.path.isdir(word):
            yield Source(word, can_wait=len(words) == 1 or is_standard(word) or is_own_pipe(word))
            continue
        for one in without_outputs(without_new(walked(word, walk, seen), new), walk, out):
            yield Source(one.path, one.fault, is_named=one.fault is not None and one.path == word)


def drawing_of(source: Source, program: Program, page: Optional[str]) -> Drawing:
    """The drawing of a source; ToolError where it can't be read."""
    if source.fault is not None:
        raise ToolError(f"{input_name(source.path)}: {source.fault}", Status.READ_FAULT)
    return Drawing(program, source.path, None if source.can_wait else regular(source.path, source.is_named), page)


def regular(path: str, is_named: bool) -> Input:
    """A file, and nothing that isn't one: a pipe would hold up all after it. Of what begins as no drawing in a folder no more is read."""
    try:
        with temporary_told(), open_regular(path) as file:
            before = state_of(file)
            if not is_named and bytes_of(file, len(OURS[0])) not in OURS:
                raise ToolError(f"{input_name(path)}: no drawing that is read", Status.REFUSED)
            found = input_of(file)
            refuse_changed(file, before, input_name(path))
            return found
    except OSError as fault:
        raise ToolError(f"{input_name(path)}: {fault.strerror}", Status.READ_FAULT) from None


# The statuses of what is left out of folders: what is no whole drawing that the program reads, can't be read, or is too large.
LEFT_OUT = (Status.REFUSED, Status.READ_FAULT, Status.TOO_LONG)


@dataclass
class Count:
    """How many drawings were told, and lines of them; the status of the first that is told on standard error, 0 where none is; of folders how many
    files there were, how many were left out, and the status of the first of these."""

    drawings: int = 0
    lines: int = 0
    status: int = 0
    found: int = 0
    left_out: int = 0
    status_left_out: int = 0

    def leaves_out(self, source: Source, status: int) -> bool:
        """Whether a source that can't be told is only counted."""
        if source.is_named or status not in LEFT_OUT:
            self.status = self.status or status
            return False
        self.left_out += 1
        self.status_left_out = self.status_left_out or status
        return True

    def said(self) -> str:
        """What is said of all that was left out; nothing where all was told."""
        if not self.left_out:
            return ""
        return f"{self.left_out} of {self.found} files in folders {'are' if self.left_out > 1 else 'is'} left out; dwg-check says why"


def open_regular(path: str) -> IO[bytes]:
    """Opens a file, and nothing that isn't one: a pipe would never end, and who waits to write into one would lose what it has to say."""
    if not stat.S_ISREG(os.stat(path).st_mode):
        raise OSError(0, "no regular file")
    handle = os.open(path, os.O_RDONLY | os.O_NONBLOCK | os.O_CLOEXEC)
    if not stat.S_ISREG(os.fstat(handle).st_mode):
        os.close(handle)
        raise OSError(0, "no regular file")
    return os.fdopen(handle, "rb", buffering=0)
