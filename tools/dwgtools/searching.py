"""A regular expression in texts of strangers, some of which Python may go through for ever: none holds up the others."""

from __future__ import annotations

import contextlib
import marshal
import re
import signal
from typing import List, Optional, Sequence

from .signals import uninterrupted
from .statuses import Exit, ToolError
from .workers import Killed, Worker

# How many seconds all texts of a drawing may take that searches them, a process of its own: the system ends it then.
MOST_SECONDS = 10

# How many letters are searched at once, where each text counts with so many besides.
LETTERS, ONE_TEXT = 1 << 16, 64


class Search:
    """A pattern that is looked for in drawings; a context that ends what it has begun."""

    def __init__(self, pattern: "re.Pattern[str]") -> None:
        self._pattern = pattern
        self._worker: Optional[Worker] = None

    def __enter__(self) -> "Search":
        return self

    def __exit__(self, *_: object) -> None:
        with uninterrupted():
            if self._worker is not None:
                self._worker.end()
                self._worker = None

    def begin(self) -> None:
        """Begins with a drawing, for which the program doesn't run yet: a process that begins later would hold its pipes open. Where there is no room
        for one, the texts are searched here."""
        if self._worker is None:
            with contextlib.suppress(OSError), uninterrupted():
                self._worker = Worker(self._said, [])
        if self._worker is not None:
            self._ask(self._worker, b"")

    def finds(self, texts: Sequence[Sequence[str]]) -> List[bool]:
        """Whether the pattern is in each of some texts of the drawing, by any of its spellings; ToolError where it takes too long to say."""
        if self._worker is None:
            return [self._is_in(spellings) for spellings in texts]
        return [*map(bool, self._ask(self._worker, marshal.dumps([tuple(one) for one in texts])))]

    def _is_in(self, spellings: Sequence[str]) -> bool:
        return any(map(self._pattern.search, spellings))

    def _ask(self, worker: Worker, piece: bytes) -> bytes:
        """What the process says, which is ended where it says nothing."""
        worker.send(piece)
        try:
            return worker.answer()
        except BaseException as fault:
            self.__exit__()
            if isinstance(fault, Killed) and fault.number == signal.SIGVTALRM:
                raise ToolError(f"its texts take more than {MOST_SECONDS} seconds to be searched by PATTERN", Exit.TOO_MUCH_TEXT) from None
            raise

    def _said(self, piece: bytes) -> bytes:
        """What the process says of texts, a byte each. At the begin of a drawing, which is no text, its time begins."""
        if piece:
            return bytes(map(self._is_in, marshal.loads(piece)))
        signal.signal(signal.SIGVTALRM, signal.SIG_DFL)
        signal.setitimer(signal.ITIMER_VIRTUAL, MOST_SECONDS)
        return b""
