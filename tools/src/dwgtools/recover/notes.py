"""What the notes of `recover` say. They stay in their file, since there may be millions."""

from __future__ import annotations

import os
from typing import IO, Dict, Iterator, Optional

from ..check.header import pages_of_map
from ..notes import Found, Kept, Loss, Note, Refusal, read_note
from ..program import ProgramFailed

# The sorts of losses, and those by which it isn't known which objects there were.
LOSSES = ("file header", "header variables", "classes", "section", "map page", "map end", "object")
MAPPING = ("file header", "map page", "map end")

# The bytes that end no step of a pair of the map.
_INNER = bytes(range(128, 256))


class Recovery:
    """A recovery by its notes. Without a refusal the input was a drawing, and nothing was lost."""

    def __init__(self, notes: IO[bytes], data: bytes) -> None:
        self._notes = os.fdopen(os.dup(notes.fileno()), "rb")
        self.refusal: Optional[Refusal] = None
        self.kept: Optional[int] = None
        # How many losses there are of each sort; how many objects had no entry of the map.
        self.lost: Dict[str, int] = dict.fromkeys(LOSSES, 0)
        self.found = 0
        for value in self._values(""):
            self._take(value)
        if self.refusal is not None and self.kept is None:
            raise ProgramFailed("the notes of `recover` aren't whole")
        self.is_map_whole = self._is_map_whole(data)

    def _take(self, value: Note) -> None:
        if self.refusal is None and isinstance(value, Refusal):
            self.refusal = value
        elif self.refusal is None or self.kept is not None:
            raise ProgramFailed("the notes of `recover` aren't whole")
        elif isinstance(value, Loss):
            self.lost[value.what] += 1
        elif isinstance(value, Found):
            self.found += 1
        elif isinstance(value, Kept):
            self.kept = value.objects
        else:
            raise ProgramFailed(f"no note of `recover`: {value}")

    @property
    def entries(self) -> int:
        """How many entries of the map are known: those that were kept and those that were lost."""
        return (self.kept or 0) - self.found + self.lost["object"]

    def _is_map_whole(self, data: bytes) -> bool:
        """Whether all entries of the map are known. It isn't noted where a page with a right check
        word has one that isn't spelled, after which none is taken: so their steps are counted."""
        if self.refusal is None or any(self.lost[sort] for sort in MAPPING):
            return self.refusal is None
        pages = [data[begin + 2 : end] for begin, end in pages_of_map(data)]
        steps = sum(len(page.translate(None, _INNER)) for page in pages)
        return steps == 2 * self.entries and not any(page[-1:] > b"\x7f" for page in pages)

    def losses(self, *sorts: str) -> Iterator[Loss]:
        """The losses of some sorts, in their order."""
        found = self._values(*(f"lost: {sort}" for sort in sorts))
        return (value for value in found if isinstance(value, Loss))

    def all_found(self) -> Iterator[Found]:
        """The objects that were found without an entry of the map, in their order."""
        return (value for value in self._values("found: ") if isinstance(value, Found))

    def _values(self, *begins: str) -> Iterator[Note]:
        """The notes that begin so. Who takes some takes no others meanwhile."""
        begin = tuple(one.encode("ascii") for one in begins)
        self._notes.seek(0)
        for line in iter(lambda: self._notes.readline(1 << 16), b""):
            if line.startswith(begin):
                yield read_note(line.decode("utf-8", "replace").rstrip("\n"))
