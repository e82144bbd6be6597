"""Files without a name, and what is said where there is no place for one."""

from __future__ import annotations

import contextlib
import tempfile
from typing import Iterator

from .escapes import one_line
from .statuses import Exit, ToolError


class TemporaryFault(OSError):
    """A temporary file can't be made or written, which says nothing of what is read."""


def temporary_name() -> str:
    """What a temporary file is called in messages."""
    # (their folder is known once there was one)
    return f"the temporary file in {one_line(tempfile.tempdir)}" if tempfile.tempdir else "a temporary file"


@contextlib.contextmanager
def of_temporary() -> Iterator[None]:
    """Has each fault of the system be one of a temporary file."""
    try:
        yield
    except OSError as fault:
        raise TemporaryFault(fault.errno, fault.strerror, temporary_name()) from None


@contextlib.contextmanager
def temporary_told() -> Iterator[None]:
    """Tells a fault of a temporary file as a failure of the tool itself."""
    try:
        yield
    except TemporaryFault as fault:
        raise ToolError(f"{fault.filename}: {fault.strerror}", Exit.FAILURE) from None


class TemporaryFull(ToolError):
    """The program couldn't write all into a temporary file, as its status says."""

    def __init__(self) -> None:
        super().__init__(f"{temporary_name()} can't be written", Exit.FAILURE)
