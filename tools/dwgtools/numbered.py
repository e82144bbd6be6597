"""Numbers by handle."""

from __future__ import annotations

import bisect
from array import array
from typing import Optional, Tuple

from .values import BadText


class Numbered:
    """So many numbers by each handle, put in by ascending handles, packed: a drawing may have very many inserts."""

    def __init__(self, count: int) -> None:
        self._count, self._handles, self._numbers = count, array("q"), array("q")

    def put(self, handle: int, *numbers: int) -> None:
        """Puts in the numbers of a handle; BadText where that isn't above those before."""
        if self._handles and handle <= self._handles[-1]:
            raise BadText("object %X after one of a handle that isn't below" % handle)
        self._handles.append(handle)
        self._numbers.extend(numbers)

    def of(self, handle: int) -> Optional[Tuple[int, ...]]:
        """The numbers of a handle; None where it has none."""
        at = bisect.bisect_left(self._handles, handle)
        if at == len(self._handles) or self._handles[at] != handle:
            return None
        return tuple(self._numbers[at * self._count : (at + 1) * self._count])
