"""What the program notes on standard error, as values. The forms are those of docs/FORMAT.md."""

from __future__ import annotations

import re
from dataclasses import dataclass
from typing import Union

# How much is read of notes, whatever the program writes.
MOST_NOTES = 1 << 16


@dataclass(frozen=True)
class Refusal:
    """Why an input is no drawing: `dwg: refused: PART INDEX at PLACE: REASON`."""

    part: str
    index: int
    place: int
    reason: str

    def __str__(self) -> str:
        return f"{self.part} {self.index} at {self.place}: {self.reason}"


@dataclass(frozen=True)
class Said:
    """Any other note, as `read fault`, or a line that is none of the program's."""

    text: str


_REFUSED = re.compile(r"dwg: refused: (\w+) (\d+) at (\d+): (\w+)")


def read_note(line: str) -> Union[Refusal, Said]:
    """The value of one line of notes."""
    at = _REFUSED.fullmatch(line)
    if at:
        return Refusal(at[1], int(at[2]), int(at[3]), at[4])
    return Said(line[len("dwg: ") :] if line.startswith("dwg: ") else line)
