"""Processes that work on pieces side by side, each on one at a time; what becomes of these comes in their order.

A worker ends where it is sent nothing any more, which the end of the tool, whatever it is, sees to.
"""

from __future__ import annotations

import collections
import contextlib
import os
import signal
import struct
from typing import Callable, Deque, Iterator, List, Optional, Sequence, Tuple

from .processes import processors
from .signals import ENDING, uninterrupted
from .statuses import Exit, Status, ToolError

# How many there are at the most.
MOST_WORKERS = 4

_SIZE = struct.Struct("<Q")

Work = Callable[[bytes], bytes]


class Killed(ToolError):
    """A worker was ended by a signal."""

    def __init__(self, number: int) -> None:
        super().__init__(f"a process of the tool gave no answer: killed by signal {number}", Exit.FAILURE)
        self.number = number


class Worker:
    """A process that works on what it is sent, and sends what becomes of it."""

    def __init__(self, work: Work, others: Sequence["Worker"]) -> None:
        given, to = os.pipe()
        back, gives = os.pipe()
        try:
            # (what has begun and isn't among the workers, nobody would await)
            with uninterrupted():
                self.number = os.fork()
                if not self.number:
                    _serve(work, given, gives, [to, back, *(end for one in others for end in one.ends)])
        except BaseException:
            os.close(to)
            os.close(back)
            raise
        finally:
            os.close(given)
            os.close(gives)
        self._to, self._back = os.fdopen(to, "wb", buffering=0), os.fdopen(back, "rb")
        # What is done where it ends by itself, while its number is no other's.
        self.at_end: Callable[[], None] = lambda: None

    @property
    def ends(self) -> Tuple[int, int]:
        """The descriptors by which it is reached, which no other may keep open."""
        return self._to.fileno(), self._back.fileno()

    def send(self, piece: bytes) -> None:
        """Sends a piece, once what became of the one before has come."""
        left = memoryview(_SIZE.pack(len(piece)) + piece)
        with contextlib.suppress(BrokenPipeError):
            while left:
                left = left[self._to.write(left) :]

    def answer(self) -> bytes:
        """What became of the piece."""
        head = self._back.read(_SIZE.size)
        said = self._back.read(*_SIZE.unpack(head)) if len(head) == _SIZE.size else b""
        if len(head) < _SIZE.size or len(said) < _SIZE.unpack(head)[0]:
            raise self._fault()
        return said

    def _fault(self) -> BaseException:
        """Why there is no answer."""
        self.at_end()
        _, code = os.waitpid(self.number, 0)
        self.number = 0
        if os.WIFEXITED(code) and os.WEXITSTATUS(code) == Status.NO_MEMORY:
            return MemoryError()
        if os.WIFSIGNALED(code):
            return Killed(os.WTERMSIG(code))
        return ToolError(f"a process of the tool gave no answer: status {os.WEXITSTATUS(code)}", Exit.FAILURE)

    def end(self) -> None:
        """Ends it, and waits until it has ended."""
        self._to.close()
        self._back.close()
        if self.number:
            os.kill(self.number, signal.SIGKILL)
            os.waitpid(self.number, 0)
            self.number = 0


def _serve(work: Work, given: int, gives: int, others: Sequence[int]) -> None:
    """Works on what comes, and ends. Nothing of what the tool has begun is ended here, and nothing said."""
    status: int = Exit.FAILURE
    try:
        for number in (*ENDING, signal.SIGTSTP):
            if signal.getsignal(number) != signal.SIG_IGN:
                signal.signal(number, signal.SIG_DFL)
        for end in others:
            os.close(end)
        source, target = os.fdopen(given, "rb"), os.fdopen(gives, "wb")
        for head in iter(lambda: source.read(_SIZE.size), b""):
            said = work(source.read(*_SIZE.unpack(head)))
            target.write(_SIZE.pack(len(said)) + said)
            target.flush()
        status = Status.DONE
    except MemoryError:
        status = Status.NO_MEMORY
    finally:
        os._exit(int(status))


class Workers:
    """Workers in turn, each of which has a piece at the most; a context that ends them all."""

    def __init__(self, work: Work, most: int = MOST_WORKERS) -> None:
        self._all: List[Worker] = []
        self._busy: Deque[Tuple[Worker, bytes]] = collections.deque()
        count = min(most, processors())
        # Where there is no room for as many, those that there is room for work, or none; and one wouldn't be the sooner done.
        with contextlib.suppress(OSError):
            while len(self._all) < count > 1:
                with uninterrupted():
                    self._all.append(Worker(work, self._all))

    def __enter__(self) -> "Workers":
        return self

    def __exit__(self, *_: object) -> None:
        with uninterrupted():
            while self._all:
                self._all.pop().end()

    def put(self, piece: bytes) -> Iterator[Tuple[bytes, Optional[bytes]]]:
        """Sends a piece to a worker; gives an earlier piece with what became of it, or where there are no workers this one with None."""
        if not self._all:
            yield piece, None
            return
        turn = self._all[0]
        if len(self._busy) == len(self._all):
            turn, before = self._busy.popleft()
            yield before, turn.answer()
        elif self._busy:
            turn = self._all[len(self._busy)]
        turn.send(piece)
        self._busy.append((turn, piece))

    def rest(self) -> Iterator[Tuple[bytes, bytes]]:
        """The pieces that are sent, with what became of them."""
        while self._busy:
            worker, piece = self._busy.popleft()
            yield piece, worker.answer()
