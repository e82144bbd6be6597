"""The pipes of a run of the program: what it is given, and what it writes, in pieces as these come."""

from __future__ import annotations

import contextlib
import io
import os
import select
import selectors
import time
from typing import IO, Any, Callable, Iterator, Optional, Sequence, Tuple

# How often a run is looked at, in seconds. And how many looks after its end its pipes may say nothing where they are open still: something else has
# them that a wrapper began, which may have the last of the answer, as `tee` does, or may stay for ever.
LOOK, QUIET = 0.2, 10

# How much is read at once.
PIECE = 1 << 16

_Selector = getattr(selectors, "PollSelector", selectors.SelectSelector)


class Pipes:
    """The pipes of a run, of which these ends are the tool's alone."""

    def __init__(self, sources: Sequence[int], has_ended: Callable[[], bool], look: Callable[[], None]) -> None:
        self._sources, self._has_ended, self._look = sources, has_ended, look

    def pieces(self, to: Optional[IO[bytes]] = None, given: bytes = b"") -> Iterator[Tuple[int, bytes]]:
        """What it writes, each piece with the descriptor that it came by, until it has ended; meanwhile it is given what it is to have, and looked at."""
        left, due, quiet = memoryview(given), time.monotonic() + LOOK, 0
        with _Selector() as waiting:
            for source in self._sources:
                os.set_blocking(source, False)
                waiting.register(source, selectors.EVENT_READ)
            if to is not None:
                os.set_blocking(to.fileno(), False)
                waiting.register(to, selectors.EVENT_WRITE)
            while waiting.get_map():
                ready = waiting.select(max(0.0, due - time.monotonic()))
                for key, _ in ready:
                    if key.fileobj is to:
                        left = _written(to, left)
                        if not left:
                            waiting.unregister(to)
                            to.close()
                        continue
                    piece = os.read(key.fd, PIECE)
                    if piece:
                        yield key.fd, piece
                    else:
                        waiting.unregister(key.fd)
                quiet = 0 if ready else quiet
                # (one that comes late counts as one that doesn't: the tool was stopped meanwhile)
                if time.monotonic() >= due:
                    self._look()
                    due, quiet = time.monotonic() + LOOK, quiet + 1 if self._has_ended() else 0
                if quiet > QUIET:
                    return


def _written(to: IO[bytes], left: memoryview) -> memoryview:
    """What is left to be written into a pipe that takes some; nothing where nobody reads it."""
    try:
        return left[os.write(to.fileno(), left[:PIECE]) :]
    except BlockingIOError:
        return left
    except BrokenPipeError:
        return left[:0]


class Stream(io.RawIOBase):
    """Pieces as a stream."""

    def __init__(self, pieces: Iterator[bytes]) -> None:
        super().__init__()
        self._pieces, self._left = pieces, b""

    def readable(self) -> bool:
        return True

    def readinto(self, buffer: Any) -> int:
        self._left = self._left or next(self._pieces, b"")
        count = min(len(buffer), len(self._left))
        buffer[:count], self._left = self._left[:count], self._left[count:]
        return count


def buffered(pieces: Iterator[bytes]) -> io.BufferedReader:
    """Pieces as a stream that is read by lines too."""
    return io.BufferedReader(Stream(pieces), PIECE)


def await_end(number: int, has_ended: Callable[[], bool], look: Callable[[], None]) -> None:
    """Waits until a child has ended, which mostly is soon after it has closed its pipes, and has it looked at meanwhile."""
    if has_ended():
        return
    with contextlib.ExitStack() as opened:
        pause, due, end = 0.0, time.monotonic() + LOOK, select.poll()
        # (where the system tells of the end by no descriptor, it is asked again and again)
        with contextlib.suppress(AttributeError, OSError):
            handle = os.pidfd_open(number)  # type: ignore[attr-defined]
            opened.callback(os.close, handle)
            end.register(handle, select.POLLIN)
            pause = LOOK
        while not has_ended():
            pause = min(2 * pause + 0.00005, LOOK)
            end.poll(1000 * pause)
            if time.monotonic() >= due:
                look()
                due = time.monotonic() + LOOK
