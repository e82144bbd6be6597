"""What is kept of a drawing until all of it is read: in memory while it is little, and else in a file without a name."""

from __future__ import annotations

import contextlib
import json
import tempfile
from typing import IO, Any, Iterator, List, Optional, cast

from .temporary import of_temporary, temporary_told

# How many bytes are kept in memory, and how many are read at once.
LITTLE, PIECE = 1 << 20, 1 << 16
# How much text is kept to be read again: that of a drawing of 32 MiB with usual entities.
MOST_KEPT = 1 << 28


class Spool:
    """Bytes that are put in one after the other, and read once all are."""

    def __init__(self) -> None:
        self._file = tempfile.SpooledTemporaryFile(LITTLE)

    def __del__(self) -> None:
        with contextlib.suppress(OSError):
            self._file.close()

    def put(self, data: bytes) -> None:
        """Puts in bytes."""
        with of_temporary():
            self._file.write(data)

    def lines(self) -> Iterator[bytes]:
        """The lines, from the begin on."""
        with temporary_told(), of_temporary():
            self._file.seek(0)
            yield from self._file

    def pieces(self, size: int) -> Iterator[bytes]:
        """The bytes in pieces of whole records of a size, from the begin on."""
        with temporary_told(), of_temporary():
            self._file.seek(0)
            yield from iter(lambda: self._file.read(PIECE // size * size), b"")


class Rows:
    """Rows of a table that are put in one after the other, and told once all are, as often as they are asked for."""

    def __init__(self) -> None:
        self._spool = Spool()

    def put(self, *row: Any) -> None:
        """Puts in a row."""
        self._spool.put(json.dumps(row).encode("ascii") + b"\n")

    def __iter__(self) -> Iterator[List[Any]]:
        return map(json.loads, self._spool.lines())


class Keeper:
    """A text that is read, and kept to be read again as long as it is short enough and finds a place."""

    def __init__(self) -> None:
        self._text: Optional[IO[bytes]] = None
        self._left = MOST_KEPT
        self._file: Optional[IO[bytes]] = cast(IO[bytes], tempfile.SpooledTemporaryFile(LITTLE))

    def of(self, text: IO[bytes]) -> IO[bytes]:
        """A text, to be read through this."""
        self._text = text
        return cast(IO[bytes], self)

    def read(self, size: int) -> bytes:
        """The next bytes."""
        assert self._text is not None
        return self._keep(self._text.read(size))

    def readline(self, size: int = -1) -> bytes:
        """The rest of a line."""
        assert self._text is not None
        return self._keep(self._text.readline(size))

    def _keep(self, data: bytes) -> bytes:
        """Keeps bytes, and gives them."""
        self._left -= len(data)
        if self._left < 0:
            self.close()
        if self._file is not None:
            try:
                self._file.write(data)
            except OSError:
                self.close()
        return data

    def kept(self) -> Optional[IO[bytes]]:
        """The text from where it was read first; None where it isn't kept."""
        if self._file is not None:
            try:
                self._file.seek(0)
            except OSError:
                self.close()
        return self._file

    def close(self) -> None:
        """Keeps nothing any more."""
        file, self._file = self._file, None
        if file is not None:
            with contextlib.suppress(OSError):
                file.close()
