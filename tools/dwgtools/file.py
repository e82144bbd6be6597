"""What a file has of its own bytes: its header and its preview."""

from __future__ import annotations

from typing import List, Optional, Tuple

from .program import Program, ProgramFailed, at_once
from .statuses import Status
from .versions import MOST_HEADER, OURS


def version_of_rest(program: Program, prefix: bytes) -> Optional[str]:
    """The version that a file header is of by all but its first six bytes, where these are others: its check word is right with one alone."""
    for version in OURS:
        status = program.run(["sections"], version + prefix[6:MOST_HEADER], patience=at_once()).status if version != prefix[:6] else Status.REFUSED
        if status == Status.DONE:
            return version.decode()
        if status != Status.REFUSED:
            raise ProgramFailed(f"status {int(status)} for `sections`")
    return None


HEADER_SENTINEL = bytes.fromhex("95A04E2899821AE55E41E05F9D3A4D00")
VARIABLES_SENTINEL = bytes.fromhex("CF7B1F23FDDE38A95F7C68B84E6D335F")
CLASSES_SENTINEL = bytes.fromhex("8DA1C4B8C4A9F8C5C0DCF45FE7CFB68A")
PREVIEW_SENTINEL = bytes.fromhex("1F256D07D43628289D57CA3F9D44102B")


def has_header(data: bytes, at: int = 0) -> bool:
    """Whether the sentinel of a file header of R14 or R2000 stands where a header that begins at a place has it."""
    count = int.from_bytes(data[at + 21 : at + 25], "little")
    place = at + 27 + 9 * count
    return 3 <= count <= 6 and data[place : place + 16] == HEADER_SENTINEL


# Where a file header has the place of the preview section.
PREVIEW_PLACE = 13


def little(data: bytes, at: int, size: int) -> int:
    """A number with its low byte first."""
    return int.from_bytes(data[at : at + size], "little")


def complement(sentinel: bytes) -> bytes:
    """What ends that which a sentinel begins."""
    return bytes(255 - byte for byte in sentinel)


def entries_of_preview(section: bytes, place: int) -> Optional[List[Tuple[int, int, int]]]:
    """The entries of a preview section at a place of a file, each with its code, its place and its size, by the rule by which `carry` carries one
    (docs/FORMAT.md, Preview section); None where there is none."""
    size = little(section, 16, 4)
    begin, end = 20, 20 + size
    if not size or section[:16] != PREVIEW_SENTINEL or section[end : end + 16] != complement(PREVIEW_SENTINEL):
        return None
    further = begin + 1 + 9 * section[begin]
    entries = [(section[at], little(section, at + 1, 4), little(section, at + 5, 4)) for at in range(begin + 1, further, 9)] if further <= end else None
    if entries is None or any(count and not further <= at - place <= end - count for _, at, count in entries):
        return None
    return entries
