"""Drawings of AC1014, spelled bit by bit after docs/FORMAT.md as `spelled` spells those of AC1015: for tests, and as a program for a sample.

What AC1014 doesn't spell can't be said here: lineweights, plot styles, layouts.
"""

from __future__ import annotations

import sys
from typing import Any, Sequence, Tuple

import spelled
from spelled import UP, Up, byte, long, little, real, reals, reference, short, text, word


def flat(normal: Up, thickness: float = 0.0) -> str:
    """A thickness and an extrusion, which AC1014 spells as plain BDs."""
    return real(thickness) + reals(normal)


class Drawing(spelled.Drawing):
    """A drawing of AC1014."""

    VERSION = b"AC1014"
    # The four bits of each layer.
    LAYER_BITS = "0000"

    def sized(self, number: int, handle: int, before: str, after: str, references: str) -> int:
        """An object by its main bits before the bit size and after it, and by its references."""
        head = short(number) + reference(0, handle) + before
        size = len(head) + 32 + len(after)
        self.frames.append((handle, spelled.base.framed_body(spelled.base.packed(head + little(size, 4) + after + references))))
        return handle

    def object(self, number: int, handle: int, main: str, references: Sequence[Tuple[int, int]], owner: int) -> int:
        names = reference(4, owner) + reference(3, 0) + "".join(reference(*one) for one in references)
        return self.sized(number, handle, short(0), long(0) + main, names)

    def layer(self, handle: int, name: bytes, colour: int, values: int = 0) -> int:
        flags = "".join(str(int(bool(values & weight))) for weight in (1, 2, 4, 8))
        return self.entry(51, handle, name, flags + short(colour), [(5, 0), (5, self.CONTINUOUS)])

    def block(self, handle: int, name: bytes, base_point: Up = (0.0, 0.0, 0.0), is_xref: bool = False, *, members: Sequence[int] = (), ends: Sequence[int] = (0, 0)) -> int:
        """A BLOCK HEADER; the members are its first and its last, the ends its BLOCK and its ENDBLK."""
        first_and_last = [] if is_xref else [(4, one) for one in members or (0, 0)]
        main = "00" + str(int(is_xref)) + "0" + reals(base_point) + text(b"")
        return self.entry(49, handle, name, main, [(5, 0), (3, ends[0]), *first_and_last, (3, ends[1])])

    def entity(
        self, number: int, main: str, references: Sequence[Tuple[int, int]] = (), *, handle: int = 0, owner: int = 0, mode: int = 2, layer: int = 0,
        colour: int = 256, linetype: int = 0, invisible: int = 0, links: Sequence[int] = (),
    ) -> int:  # fmt: skip
        mode = 0 if owner else mode
        common = f"{mode:02b}" + long(0) + ("0" if linetype else "1") + ("0" if links else "1") + short(colour) + "01" + short(invisible)
        names = (reference(4, owner) if owner else "") + reference(3, 0) + reference(5, layer or self.LAYER0)
        names += (reference(5, linetype) if linetype else "") + "".join(reference(4, link) for link in links)
        return self.sized(number, handle or self.free(), short(0) + "0", common + main, names + "".join(reference(*one) for one in references))

    def line(self, start: Up, end: Up, normal: Up = UP, **common: Any) -> int:
        return self.entity(19, reals(start) + reals(end) + flat(normal), **common)

    def point(self, place: Up, **common: Any) -> int:
        return self.entity(27, reals(place) + flat(UP) + real(0), **common)

    def circle(self, centre: Up, radius: float, normal: Up = UP, **common: Any) -> int:
        return self.entity(18, reals(centre) + real(radius) + flat(normal), **common)

    def arc(self, centre: Up, radius: float, begin: float, end: float, normal: Up = UP, **common: Any) -> int:
        return self.entity(17, reals(centre) + real(radius) + flat(normal) + reals([begin, end]), **common)

    def polyline(
        self, points: Sequence[Tuple[float, float]], bulges: Sequence[float] = (), widths: Sequence[Tuple[float, float]] = (), *, width: float = 0.0,
        elevation: float = 0.0, normal: Up = UP, closed: bool = False, **common: Any,
    ) -> int:  # fmt: skip
        flag = 512 * closed + 16 * bool(bulges) + 32 * bool(widths) + 4 * bool(width) + 8 * bool(elevation) + (normal != UP)
        main = short(flag) + (real(width) if width else "") + (real(elevation) if elevation else "") + (reals(normal) if normal != UP else "")
        main += long(len(points)) + (long(len(bulges)) if bulges else "") + (long(len(widths)) if widths else "")
        main += "".join(word(part) for point in points for part in point)
        return self.entity(77, main + reals(bulges) + "".join(reals(one) for one in widths), **common)

    def written(
        self, content: bytes, insertion: Tuple[float, float], height: float, *, alignment: Any = None, rotation: float = 0.0, width: float = 1.0,
        oblique: float = 0.0, generation: int = 0, horizontal: int = 0, vertical: int = 0, elevation: float = 0.0, normal: Up = UP,
    ) -> str:  # fmt: skip
        main = real(elevation) + "".join(word(part) for part in (*insertion, *(alignment or (0.0, 0.0)))) + reals(normal) + real(0)
        main += reals([oblique, rotation, height, width]) + text(content)
        return main + short(generation) + short(horizontal) + short(vertical)

    def insert(self, block: int, place: Up, scale: Up = (1.0, 1.0, 1.0), rotation: float = 0.0, normal: Up = UP, ends: Sequence[int] = (), **common: Any) -> int:
        main = reals(place) + reals(scale) + real(rotation) + reals(normal) + ("1" if ends else "0")
        return self.entity(7, main, [(5, block), *((4, end) for end in ends)], **common)

    def dictionary(self, handle: int, owner: int, items: Sequence[Tuple[bytes, int]]) -> int:
        """A DICTIONARY."""
        main = long(len(items)) + byte(0) + "".join(text(name) for name, _ in items)
        return self.object(42, handle, main, [(2, target) for _, target in items], owner)


class Plan(Drawing):
    """A plan whose references hold together: tables, both spaces, a block and an insert of it, and some entities of the model space."""

    # The block of a door, what stands in it, the first and the last of the model space, linetypes, and an application.
    DOOR, LEAF, SWING, FIRST, LAST, BY_BLOCK, BY_LAYER, ACAD = 0x1C, 0x1F, 0x20, 0x30, 0x36, 0x16, 0x17, 0x21
    # How many entities there are but those that begin and end blocks, and what header variables name.
    ENTITIES = 9
    NAMED = {
        "seed": 0xFFFF, "layer": Drawing.LAYER0, "style": Drawing.STYLE, "by_layer": BY_LAYER, "by_block": BY_BLOCK, "continuous": Drawing.CONTINUOUS,
        "blocks": 1, "layers": 2, "styles": 3, "linetypes": 5, "applications": 9, "names": 0xC, "paper": Drawing.PAPER, "model": Drawing.MODEL,
    }  # fmt: skip

    def __post_init__(self) -> None:
        self.object(48, 0x1, long(1), [(2, self.DOOR), (3, self.MODEL), (3, self.PAPER)], owner=0)
        self.control(50, 0x2, self.LAYER0, self.WALLS)
        self.control(52, 0x3, self.STYLE)
        self.object(56, 0x5, long(1), [(2, self.CONTINUOUS), (3, self.BY_BLOCK), (3, self.BY_LAYER)], owner=0)
        self.control(66, 0x9, self.ACAD)
        self.dictionary(0xC, 0, [(b"NOTES", 0xD)])
        self.dictionary(0xD, 0xC, [])
        self.table_entries()
        self.whole_block(self.MODEL, b"*MODEL_SPACE", 0x18, (self.FIRST, self.LAST), mode=2)
        self.whole_block(self.PAPER, b"*PAPER_SPACE", 0x1A, (0, 0), mode=1)
        self.whole_block(self.DOOR, b"DOOR", 0x1D, (self.LEAF, self.SWING), owner=self.DOOR)
        self.entities()

    def control(self, number: int, handle: int, *entries: int) -> int:
        """A control with its entries."""
        return self.object(number, handle, long(len(entries)), [(2, entry) for entry in entries], owner=0)

    def of_table(self, number: int, handle: int, owner: int, name: bytes, main: str, *references: Tuple[int, int]) -> int:
        """An entry of a table that its control owns."""
        return self.object(number, handle, text(name) + "0" + short(0) + "0" + main, references, owner)

    def table_entries(self) -> None:
        """Layers, a text style, linetypes and an application."""
        for handle, name, colour in ((self.LAYER0, b"0", 7), (self.WALLS, b"WALLS", 1)):
            self.of_table(51, handle, 0x2, name, self.LAYER_BITS + short(colour), (5, 0), (5, self.CONTINUOUS))
        self.of_table(53, self.STYLE, 0x3, b"STANDARD", "00" + reals([0, 1, 0]) + byte(0) + real(0) + text(b"txt") + text(b""), (5, 0))
        for handle, name in ((self.CONTINUOUS, b"CONTINUOUS"), (self.BY_BLOCK, b"BYBLOCK"), (self.BY_LAYER, b"BYLAYER")):
            self.of_table(57, handle, 0x5, name, text(b"") + real(0) + byte(65) + byte(0) + "0" * 2048, (5, 0))
        self.of_table(67, self.ACAD, 0x9, b"ACAD", byte(0), (5, 0))

    def whole_block(self, handle: int, name: bytes, begin: int, members: Sequence[int], owner: int = 0, mode: int = 2) -> None:
        """A block with its BLOCK and its ENDBLK, the handle after it."""
        main = "0000" + reals([0, 0, 0]) + text(b"")
        names = [(5, 0), (3, begin), *((4, one) for one in members), (3, begin + 1)]
        self.of_table(49, handle, 0x1, name, main, *names)
        self.entity(4, text(name), handle=begin, owner=owner, mode=mode)
        self.entity(5, "", handle=begin + 1, owner=owner, mode=mode)

    def entities(self) -> None:
        """What stands in the block and in the model space."""
        self.line((0.0, 0.0, 0.0), (0.0, 90.0, 0.0), handle=self.LEAF, owner=self.DOOR, links=(0, self.SWING))
        self.arc((0.0, 0.0, 0.0), 90.0, 0.0, 1.5707963267948966, handle=self.SWING, owner=self.DOOR, links=(self.LEAF, 0))
        self.polyline([(0.0, 0.0), (400.0, 0.0), (400.0, 300.0), (0.0, 300.0)], closed=True, handle=self.FIRST, layer=self.WALLS)
        self.line((250.0, 0.0, 0.0), (250.0, 300.0, 0.0), handle=0x31, layer=self.WALLS)
        self.circle((325.0, 150.0, 0.0), 40.0, handle=0x32)
        self.point((325.0, 150.0, 0.0), handle=0x33, colour=1)
        self.insert(self.DOOR, (100.0, 0.0, 0.0), handle=0x34)
        self.ellipse((100.0, 200.0, 0.0), (60.0, 0.0, 0.0), 0.5, 0.0, 6.283185307179586, handle=0x35, linetype=self.CONTINUOUS)
        self.text(b"ROOM 1", (60.0, 100.0), 25.0, handle=self.LAST)


if __name__ == "__main__":
    sys.stdout.buffer.write(Plan().file())
