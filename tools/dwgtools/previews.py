"""The pictures of the preview section of a drawing."""

from __future__ import annotations

import struct
from dataclasses import dataclass
from typing import IO, Any, Dict, List, Optional, Tuple

from .drawings import Drawing
from .file import PREVIEW_PLACE, entries_of_preview, little
from .inputs import CHANGED, from_begin, pieces_of
from .program import at_once
from .statuses import Exit, Status, ToolError
from .versions import LIMIT, MOST_HEADER

# What the codes of pictures mean. The first is no picture: it stands before them, of zeros.
HEADER = "header"
KINDS = {1: HEADER, 2: "BMP", 3: "WMF", 6: "PNG"}
PICTURES = ("BMP", "WMF", "PNG")


@dataclass(frozen=True)
class Entry:
    """An entry of a preview section that isn't empty: its code, and where its bytes stand in the file and how many they are."""

    code: int
    place: int
    size: int

    @property
    def kind(self) -> str:
        """What it is, in a word."""
        return KINDS.get(self.code, "unknown")


@dataclass(frozen=True)
class Section:
    """A preview section: how many bytes its content has, and its entries that have any."""

    size: int
    entries: List[Entry]

    def told(self) -> Dict[str, Any]:
        """The section as JSON has it."""
        pictures = [{"number": at, "code": one.code, "kind": one.kind, "bytes": one.size} for at, one in enumerate(self.entries, 1)]
        return {"bytes": self.size, "pictures": pictures}


def bytes_at(file: IO[bytes], place: int, count: int) -> bytes:
    """So many bytes of a file from a place on, fewer where it ends before."""
    return b"".join(pieces_of(file, place + min(count, LIMIT), place))


def section_of(file: IO[bytes]) -> Optional[Section]:
    """The preview section that stands where the header of a file says; None where none does."""
    place = little(bytes_at(file, 0, MOST_HEADER), PREVIEW_PLACE, 4)
    size = little(bytes_at(file, place + 16, 4), 0, 4)
    entries = entries_of_preview(bytes_at(file, place, size + 36), place)
    return None if entries is None else Section(size, [Entry(*one) for one in entries if one[2]])


def refuse_header(drawing: Drawing) -> None:
    """Refuses what has no whole file header, as the program does."""
    answer = drawing.program.run(["sections"], from_begin(drawing.file), patience=at_once())
    if answer.status != Status.DONE:
        said = answer.notes.decode("utf-8", "replace").strip() or f"status {int(answer.status)}"
        raise ToolError(f"{drawing.name}: {said[5:] if said.startswith('dwg: ') else said}", answer.status)


def picture_of(drawing: Drawing, number: Optional[int]) -> bytes:
    """The file of a picture of a drawing, of which the header alone must be whole: that of a number, else the first that is one of a known kind."""
    refuse_header(drawing)
    section = section_of(drawing.file)
    entries = section.entries if section else []
    chosen = entries[number - 1 : number] if number is not None else [one for one in entries if one.kind in PICTURES][:1]
    if not chosen:
        which = "" if number is None or not entries else f" {number}, but {len(entries)} in all"
        raise ToolError(f"{drawing.name}: it has no preview picture{which}", Exit.NOTHING_FOUND)
    data = bytes_at(drawing.file, chosen[0].place, chosen[0].size)
    if drawing.input.is_changed:
        raise ToolError(f"{drawing.name}: {CHANGED}", Status.READ_FAULT)
    if chosen[0].kind != "BMP":
        return data
    found = bitmap_file(data)
    if found is None:
        raise ToolError(f"{drawing.name}: its picture is no whole BMP", Exit.NOTHING_FOUND)
    return found


# How long the header of a bitmap may be, and how many bytes of masks stand after one of the usual length, by how it is compressed.
OLDEST, USUAL, LENGTHS = 12, 40, (40, 52, 56, 64, 108, 124)
MASKS = {3: 12, 6: 16}


def bitmap_file(bitmap: bytes) -> Optional[bytes]:
    """A bitmap with the header of a file of BMP before it, which a drawing leaves out; None where it isn't whole, or has no bits."""
    if bitmap[:2] == b"BM":
        return bitmap
    before = before_bits(bitmap)
    if before is None or before + least_bits(bitmap) > len(bitmap):
        return None
    return b"".join((b"BM", (14 + len(bitmap)).to_bytes(4, "little"), bytes(4), (14 + before).to_bytes(4, "little"), bitmap))


def before_bits(bitmap: bytes) -> Optional[int]:
    """How many bytes of a bitmap stand before its bits: its header, the masks after it, and its palette. None where it begins as no bitmap, or as one
    without width or height."""
    length = little(bitmap, 0, 4)
    if not (length == OLDEST or length in LENGTHS) or len(bitmap) < length or not all(size_of(bitmap)):
        return None
    if length == OLDEST:
        bits = little(bitmap, 10, 2)
        return length + (3 << bits if bits <= 8 else 0)
    bits, compression, used = little(bitmap, 14, 2), little(bitmap, 16, 4), little(bitmap, 32, 4)
    colours = used or (1 << bits if 0 < bits <= 8 else 0)
    return length + (MASKS.get(compression, 0) if length == USUAL else 0) + 4 * colours


def size_of(bitmap: bytes) -> Tuple[int, int]:
    """The width and the height of a bitmap, whose rows may go from top to bottom."""
    if little(bitmap, 0, 4) == OLDEST:
        return little(bitmap, 4, 2), little(bitmap, 6, 2)
    width, height = struct.unpack_from("<ii", bitmap, 4)
    return max(width, 0), abs(height)


def least_bits(bitmap: bytes) -> int:
    """How many bytes of bits a bitmap has at the least: each row of one that isn't compressed has whole words of four bytes, but perhaps the last."""
    is_oldest = little(bitmap, 0, 4) == OLDEST
    bits, compression = (little(bitmap, 10, 2), 0) if is_oldest else (little(bitmap, 14, 2), little(bitmap, 16, 4))
    if compression and compression not in MASKS:
        return 1
    width, height = size_of(bitmap)
    return max(1, (width * bits + 31) // 32 * 4 * (height - 1) + (width * bits + 7) // 8)
