"""What the program notes on standard error, as values. The forms are those of docs/FORMAT.md."""

from __future__ import annotations

import re
from dataclasses import dataclass
from typing import Callable, Dict, NamedTuple, Optional, Union


@dataclass(frozen=True)
class Refusal:
    """Why an input is no drawing: `dwg: refused: PART INDEX at PLACE: REASON`."""

    part: str
    index: int
    place: int
    reason: str

    def __str__(self) -> str:
        return f"{self.part} {self.index} at {self.place}: {self.reason}"


class Loss(NamedTuple):
    """What `recover` lost. The number is that of a section or the index of a map page."""

    what: str
    place: Optional[int] = None
    number: Optional[int] = None
    handle: Optional[int] = None


class Found(NamedTuple):
    """An object that `recover` kept without an entry of the map."""

    handle: int
    place: int


class Kept(NamedTuple):
    """How many objects the recovered drawing has."""

    objects: int


class TooLarge(NamedTuple):
    """How many bytes the canonical file would have."""

    size: int


# (a text is a note without parts: `read fault`, `input too long`, `not sound`, a usage note)
Note = Union[Refusal, Loss, Found, Kept, TooLarge, str]


# Each form of a note, and how its words become a value. (They are compiled when they are used.)
_NOTES: Dict[str, Callable[["re.Match[str]"], Note]] = {
    r"lost: (object) ([0-9A-F]+) at (\d+)": lambda at: Loss(
        at[1], int(at[3]), handle=int(at[2], 16)
    ),
    r"found: object ([0-9A-F]+) at (\d+)": lambda at: Found(int(at[1], 16), int(at[2])),
    r"kept (\d+)": lambda at: Kept(int(at[1])),
    r"dwg: refused: (\w+) (\d+) at (\d+): (\w+)": lambda at: Refusal(
        at[1], int(at[2]), int(at[3]), at[4]
    ),
    r"dwg: drawing too large: (\d+) bytes": lambda at: TooLarge(int(at[1])),
    r"lost: (file header|header variables|classes)": lambda at: Loss(at[1]),
    r"lost: (section|map page) (\d+) at (\d+)": lambda at: Loss(at[1], int(at[3]), int(at[2])),
    r"lost: (map end) at (\d+)": lambda at: Loss(at[1], int(at[2])),
}


def read_note(line: str) -> Note:
    """The value of one line of notes."""
    for form, value in _NOTES.items():
        at = re.fullmatch(form, line)
        if at:
            return value(at)
    return line


def last_note(notes: bytes) -> Note:
    """The value of the last line of notes, of which there may be millions."""
    return read_note(notes.rstrip(b"\n").rpartition(b"\n")[2].decode("utf-8", "replace"))
