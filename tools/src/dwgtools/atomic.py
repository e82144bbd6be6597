"""An output that is whole or absent, and never in the place of an input."""

from __future__ import annotations

import contextlib
import os
import stat
import tempfile
from typing import IO, Iterator, Optional

from .files import shown
from .statuses import Exit, ToolError


def refuse_output(path: str, is_forced: bool, source: Optional[os.stat_result]) -> None:
    """Refuses an output that stands already but with --force, that is its source under whatever
    name, and that is no regular file."""
    try:
        told = os.lstat(path)
    except FileNotFoundError:
        return
    except OSError as fault:
        raise ToolError(f"{shown(path)}: {fault.strerror}") from None
    if not stat.S_ISREG(told.st_mode):
        raise ToolError(f"{shown(path)}: no regular file; name another output", Exit.WORDS)
    if source is not None and os.path.samestat(told, source):
        raise ToolError(f"{shown(path)}: the input itself; name another output", Exit.WORDS)
    if not is_forced:
        raise ToolError(f"{shown(path)}: stands already; --force replaces it", Exit.WORDS)


@contextlib.contextmanager
def begun(folder: str) -> Iterator[IO[bytes]]:
    """A file of a passing name in a folder, which is gone at the end."""
    try:
        handle, name = tempfile.mkstemp(prefix=".dwg-", dir=folder)
    except OSError as fault:
        raise ToolError(f"{shown(folder)}: {fault.strerror}") from None
    try:
        with open(name, "w+b", opener=lambda *_: handle) as file:
            yield file
    finally:
        with contextlib.suppress(FileNotFoundError):
            os.unlink(name)


def finish(file: IO[bytes], source: Optional[os.stat_result]) -> None:
    """Has a whole file be on the disk, with no more permissions than its source."""
    file.flush()
    mask = os.umask(0o077)
    os.umask(mask)
    mode = 0o666 & ~mask
    # (a pipe has no permissions that are anybody's wish)
    if source is not None and stat.S_ISREG(source.st_mode):
        mode &= stat.S_IMODE(source.st_mode)
        if os.fstat(file.fileno()).st_gid != source.st_gid:
            # (another group may do what all others may)
            mode &= ~0o070 | (mode & 0o007) << 3
    os.fchmod(file.fileno(), mode)
    os.fsync(file.fileno())


def place(name: str, path: str, is_forced: bool, source: Optional[os.stat_result]) -> None:
    """Gives a whole file its name."""
    refuse_output(path, is_forced, source)
    try:
        if is_forced:
            os.replace(name, path)
        else:
            os.link(name, path)
    except OSError as fault:
        raise ToolError(f"{shown(path)}: {fault.strerror}") from None
