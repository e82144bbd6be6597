"""What a drawing has of its own bytes: its header, its preview, and where its last part ends.

The program tells whether a drawing is whole. This reads, of a whole one alone, what that leaves.
"""

from __future__ import annotations

from dataclasses import dataclass
from typing import Iterator, List, NamedTuple, Optional, Sequence, Tuple

from ..program import Program, ProgramFailed
from ..statuses import Status

# How many bytes an input has at the most, and a file header (docs/FORMAT.md, Limits).
LIMIT, MOST_HEADER = 33_554_432, 97

# The versions that the program reads, and how others are called, by the first six bytes.
OURS = (b"AC1014", b"AC1015")
VERSIONS = {
    b"AC1009": "R12", b"AC1012": "R13", b"AC1018": "2004", b"AC1021": "2007", b"AC1024": "2010",
    b"AC1027": "2013", b"AC1032": "2018",
}  # fmt: skip

HEADER_SENTINEL = bytes.fromhex("95A04E2899821AE55E41E05F9D3A4D00")
VARIABLES_SENTINEL = bytes.fromhex("CF7B1F23FDDE38A95F7C68B84E6D335F")
CLASSES_SENTINEL = bytes.fromhex("8DA1C4B8C4A9F8C5C0DCF45FE7CFB68A")
PREVIEW_SENTINEL = bytes.fromhex("1F256D07D43628289D57CA3F9D44102B")
SECOND_HEADER_SENTINEL = bytes.fromhex("D47B21CE28939FBF53244009123CAA01")


@dataclass(frozen=True)
class Picture:
    """A picture of a preview section: its code, and how many bytes it has."""

    code: int
    bytes: int


@dataclass(frozen=True)
class Preview:
    """A preview section: how many bytes its content has, and its pictures that have any."""

    bytes: int
    pictures: Tuple[Picture, ...] = ()


class Locator(NamedTuple):
    """What stands where: the number of a section, or the code of a picture, its place and size."""

    number: int
    place: int
    size: int


# Where a file header has the place of the preview, the number of its locators, and the first of
# these, of nine bytes each.
PREVIEW_PLACE, COUNT_PLACE, LOCATORS_PLACE, LOCATOR = 13, 21, 25, 9


def little(data: bytes, at: int, size: int) -> int:
    """A number with its low byte first."""
    return int.from_bytes(data[at : at + size], "little")


def has_header(data: bytes, at: int = 0) -> bool:
    """Whether the sentinel of a file header stands where a header that begins there has it."""
    count = little(data, at + COUNT_PLACE, 4)
    place = at + LOCATORS_PLACE + LOCATOR * count + 2
    return 3 <= count <= 6 and data[place : place + 16] == HEADER_SENTINEL


def version_of_rest(program: Program, prefix: bytes) -> Optional[str]:
    """The version that a header is of by all but its first six bytes, where these are others: its
    check word is right with one alone."""
    for version in OURS:
        if version == prefix[:6]:
            continue
        status = program.run(["sections"], version + prefix[6:MOST_HEADER]).status
        if status == Status.DONE:
            return version.decode()
        if status != Status.REFUSED:
            raise ProgramFailed(f"status {status} for `sections`")
    return None


def locators_at(data: bytes, begin: int, count: int) -> List[Locator]:
    """So many locators that stand at a place."""
    places = range(begin, begin + LOCATOR * count, LOCATOR)
    return [Locator(data[at], little(data, at + 1, 4), little(data, at + 5, 4)) for at in places]


def sections_of(data: bytes) -> List[Locator]:
    """The sections that the header of a whole drawing names."""
    return locators_at(data, LOCATORS_PLACE, little(data, COUNT_PLACE, 4))


def complement(sentinel: bytes) -> bytes:
    """What ends that which a sentinel begins."""
    return bytes(255 - byte for byte in sentinel)


def end_of_sentinels(data: bytes, at: int, sentinel: bytes) -> int:
    """The end of what stands from a place between a sentinel and its complement; 0 where nothing
    does, or another begins before it ends."""
    if data[at : at + 16] != sentinel:
        return 0
    end = complement(sentinel)
    found = at + 20 + little(data, at + 16, 4)
    if data[found : found + 16] != end:
        found = data.find(end, at + 16)
        if found < 0 or data.find(sentinel, at + 16, found) >= 0:
            return 0
    return found + 16


def bit_long(data: bytes, at: int) -> Optional[int]:
    """A BL that begins with a byte."""
    bits = int.from_bytes(data[at : at + 5].ljust(5, b"\0"), "big")
    code = bits >> 38
    if code == 0:
        return little((bits >> 6 & 0xFFFFFFFF).to_bytes(4, "big"), 0, 4)
    return {1: bits >> 30 & 0xFF, 2: 0}.get(code)


def end_of_second_header(data: bytes, begin: int, ends: Sequence[int]) -> int:
    """The end of the second file header that a drawing has from a place on, by the ends of its
    other parts; 0 where it has none. It stands right after one of these, or where it says itself
    that it stands, and lies within the file."""
    at = data.find(SECOND_HEADER_SENTINEL, begin)
    while at >= 0:
        if at in ends or bit_long(data, at + 20) == at:
            is_within = at + 36 + little(data, at + 16, 4) <= len(data)
            return end_of_sentinels(data, at, SECOND_HEADER_SENTINEL) if is_within else 0
        at = data.find(SECOND_HEADER_SENTINEL, at + 16)
    return 0


def pages_of_map(data: bytes) -> Iterator[Tuple[int, int]]:
    """Begin and end of each page of the map, without its check word; the last has size 2."""
    place = {one.number: one.place for one in sections_of(data)}[2]
    while True:
        size = int.from_bytes(data[place : place + 2], "big")
        yield place, place + size
        if size <= 2:
            return
        place += size + 2


# How many bits a number that is spelled in pieces has at the most.
MOST_BITS = 64


def places_of_page(data: bytes, at: int, end: int) -> Iterator[int]:
    """The places that the pairs of a page tell."""
    place = 0
    while at < end:
        while data[at] & 128:
            at += 1
        at += 1
        step = shift = 0
        while data[at] & 128 and shift < MOST_BITS:
            step |= (data[at] & 127) << shift
            shift += 7
            at += 1
        last = data[at]
        step |= (last & 63) << shift
        place += -step if last & 64 else step
        at += 1
        yield place


def end_of_frame(data: bytes, place: int) -> int:
    """The end of an object's frame: length in units of fifteen bits, body, check word."""
    size = shift = 0
    while True:
        unit = little(data, place, 2)
        size |= (unit & 0x7FFF) << shift
        place, shift = place + 2, shift + 15
        if not unit & 0x8000 or shift > MOST_BITS:
            return place + size + 2


def end_of_drawing(data: bytes) -> int:
    """Where the last part of a whole drawing ends. The objects are only asked where no other part
    ends with the file."""
    sections = sections_of(data)
    pages = list(pages_of_map(data))
    after_map = pages[-1][1] + 2
    ends = [LOCATORS_PLACE + LOCATOR * len(sections) + 18, after_map]
    ends.append(end_of_sentinels(data, little(data, PREVIEW_PLACE, 4), PREVIEW_SENTINEL))
    for number, place, size in sections:
        if number < 2:
            ends.append(place + 38 + little(data, place + 16, 4))
        elif number > 2 and size:
            ends.append(place + size)
    end = max(*ends, end_of_second_header(data, after_map, ends))
    if end >= len(data):
        return end
    places = (place for begin, end in pages for place in places_of_page(data, begin + 2, end))
    ends.append(max((end_of_frame(data, place) for place in places), default=0))
    return max(*ends, end_of_second_header(data, after_map, ends))


def preview_of(data: bytes) -> Optional[Preview]:
    """The preview section of a whole drawing, by the rule by which `carry` carries one
    (docs/FORMAT.md, Preview section); None where it has none."""
    place = little(data, PREVIEW_PLACE, 4)
    size = little(data, place + 16, 4)
    section = data[place : place + 36 + size]
    end = 20 + size
    ends = section[:16], section[end : end + 16]
    if not size or ends != (PREVIEW_SENTINEL, complement(PREVIEW_SENTINEL)):
        return None
    further = 21 + LOCATOR * section[20]
    if further > end:
        return None
    entries = [one for one in locators_at(section, 21, section[20]) if one.size]
    if any(not further <= one.place - place <= end - one.size for one in entries):
        return None
    return Preview(size, tuple(Picture(one.number, one.size) for one in entries))
