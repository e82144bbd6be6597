"""Drawings of chosen objects, spelled bit by bit after docs/FORMAT.md with the helpers of bench/make_inputs.py: for tests alone.

What the tests expect of a drawing is worked out from what is spelled here, and from nothing that a tool or the program prints.
"""

from __future__ import annotations

import importlib.util
import struct
from dataclasses import dataclass, field
from pathlib import Path
from typing import Any, Iterable, List, Sequence, Tuple

_SPEC = importlib.util.spec_from_file_location("make_inputs", Path(__file__).resolve().parents[2] / "bench" / "make_inputs.py")
assert _SPEC is not None and _SPEC.loader is not None
base: Any = importlib.util.module_from_spec(_SPEC)
_SPEC.loader.exec_module(base)

short, long, little, reference = base.short, base.long, base.little, base.reference

Up = Tuple[float, float, float]
UP: Up = (0.0, 0.0, 1.0)
DOWN: Up = (0.0, 0.0, -1.0)


def byte(value: int) -> str:
    """An RC."""
    return little(value, 1)


def word(value: float) -> str:
    """An RD."""
    return little(struct.unpack("<Q", struct.pack("<d", value))[0], 8)


def real(value: float) -> str:
    """A BD."""
    return "01" if value == 1.0 else "00" + word(value)


def reals(values: Iterable[float]) -> str:
    """BDs."""
    return "".join(map(real, values))


def anew(value: float) -> str:
    """A DD that takes nothing of its default."""
    return "11" + word(value)


def thickness(value: float = 0.0) -> str:
    """A BT."""
    return "1" if value == 0.0 else "0" + real(value)


def extrusion(normal: Up) -> str:
    """A BE."""
    return "1" if normal == UP else "0" + reals(normal)


def text(value: bytes) -> str:
    """A TV."""
    return short(len(value)) + "".join(map(byte, value))


def inserted(place: Up, scale: Up, rotation: float, normal: Up, ends: Sequence[int] = ()) -> str:
    """The main bits of an INSERT."""
    return reals(place) + "00" + word(scale[0]) + anew(scale[1]) + anew(scale[2]) + real(rotation) + reals(normal) + ("1" if ends else "0")


@dataclass
class Drawing:
    """A drawing that objects are put into, with the tables and spaces that they need. Handles are given in ascending order."""

    frames: List[Tuple[int, bytes]] = field(default_factory=list)
    classes: str = ""
    # The unknown sections, in the order of their locators, each a number and its bytes.
    sections: List[Tuple[int, bytes]] = field(default_factory=list)
    last: int = 0x100

    # The version, which the file begins with.
    VERSION = b"AC1015"
    # The handles of what every such drawing has.
    LAYER0, WALLS, STYLE, CONTINUOUS, MODEL, PAPER = 0x10, 0x11, 0x12, 0x13, 0x14, 0x15

    def __post_init__(self) -> None:
        self.object(48, 0x1, long(1) + "", [(2, 0x16), (3, self.MODEL), (3, self.PAPER)], owner=0)
        self.layer(self.LAYER0, b"0", 7)
        self.layer(self.WALLS, b"WALLS", 1)
        self.entry(53, self.STYLE, b"STANDARD", "00" + reals([0, 1, 0]) + byte(0) + real(0) + text(b"txt") + text(b""), [(5, 0)])
        self.entry(57, self.CONTINUOUS, b"CONTINUOUS", text(b"") + real(0) + byte(65) + byte(0) + "0" * 2048, [(5, 0)])
        self.block(self.MODEL, b"*MODEL_SPACE")
        self.block(self.PAPER, b"*PAPER_SPACE")

    def free(self) -> int:
        """A handle that no object has."""
        self.last += 1
        return self.last

    def frame(self, number: int, handle: int, main: str, references: str) -> int:
        """An object by its main bits and its references."""
        own = reference(0, handle)
        size = len(short(number)) + 32 + len(own) + len(main)
        self.frames.append((handle, base.framed_body(base.packed(short(number) + little(size, 4) + own + main + references))))
        return handle

    def object(self, number: int, handle: int, main: str, references: Sequence[Tuple[int, int]], owner: int) -> int:
        """An object that is no entity."""
        names = reference(4, owner) + reference(3, 0) + "".join(reference(*one) for one in references)
        return self.frame(number, handle, short(0) + long(0) + main, names)

    def entry(self, number: int, handle: int, name: bytes, main: str, references: Sequence[Tuple[int, int]]) -> int:
        """An entry of a table, whose first own reference is its xref."""
        return self.object(number, handle, text(name) + "0" + short(0) + "0" + main, references, owner=2)

    def layer(self, handle: int, name: bytes, colour: int, values: int = 0) -> int:
        """A LAYER."""
        return self.entry(51, handle, name, short(values) + short(colour), [(5, 0), (5, 0), (5, self.CONTINUOUS)])

    def block(self, handle: int, name: bytes, base_point: Up = (0.0, 0.0, 0.0), is_xref: bool = False) -> int:
        """A BLOCK HEADER, whose entities name it as their owner."""
        main = "0" + "0" + ("1" if is_xref else "0") + "0" + "0" + reals(base_point) + text(b"") + byte(0) + text(b"") + long(0)
        ends = [] if is_xref else [(4, 0), (4, 0)]
        return self.entry(49, handle, name, main, [(5, 0), (3, 0), *ends, (3, 0), (5, 0)])

    def entity(
        self, number: int, main: str, references: Sequence[Tuple[int, int]] = (), *, handle: int = 0, owner: int = 0, mode: int = 2, layer: int = 0,
        colour: int = 256, weight: int = 29, invisible: int = 0, links: Sequence[int] = (),
    ) -> int:  # fmt: skip
        """An entity: of the model space, unless an owner or a mode is given. The links are those before and after it."""
        mode = 0 if owner else mode
        common = short(0) + "0" + f"{mode:02b}" + long(0) + ("0" if links else "1") + short(colour) + "01" + "00" + "00" + short(invisible) + byte(weight)
        names = (reference(4, owner) if owner else "") + reference(3, 0) + "".join(reference(4, link) for link in links)
        names += reference(5, layer or self.LAYER0)
        return self.frame(number, handle or self.free(), common + main, names + "".join(reference(*one) for one in references))

    def line(self, start: Up, end: Up, normal: Up = UP, **common: Any) -> int:
        """A LINE."""
        main = "0" + "".join(word(one) + anew(other) for one, other in zip(start, end))
        return self.entity(19, main + thickness() + extrusion(normal), **common)

    def point(self, place: Up, **common: Any) -> int:
        """A POINT."""
        return self.entity(27, reals(place) + thickness() + extrusion(UP) + real(0), **common)

    def circle(self, centre: Up, radius: float, normal: Up = UP, **common: Any) -> int:
        """A CIRCLE."""
        return self.entity(18, reals(centre) + real(radius) + thickness() + extrusion(normal), **common)

    def arc(self, centre: Up, radius: float, begin: float, end: float, normal: Up = UP, **common: Any) -> int:
        """An ARC."""
        return self.entity(17, reals(centre) + real(radius) + thickness() + extrusion(normal) + reals([begin, end]), **common)

    def ellipse(self, centre: Up, axis: Up, ratio: float, begin: float, end: float, normal: Up = UP, **common: Any) -> int:
        """An ELLIPSE."""
        return self.entity(35, reals(centre) + reals(axis) + reals(normal) + reals([ratio, begin, end]), **common)

    def ray(self, place: Up, vector: Up, **common: Any) -> int:
        """A RAY."""
        return self.entity(40, reals(place) + reals(vector), **common)

    def xline(self, place: Up, vector: Up, **common: Any) -> int:
        """An XLINE."""
        return self.entity(41, reals(place) + reals(vector), **common)

    def solid(self, corners: Sequence[Tuple[float, float]], elevation: float = 0.0, normal: Up = UP, number: int = 31, **common: Any) -> int:
        """A SOLID, or by its number, 32, a TRACE."""
        main = thickness() + real(elevation) + "".join(word(part) for corner in corners for part in corner)
        return self.entity(number, main + extrusion(normal), **common)

    def face(self, corners: Sequence[Up], edges: Any = None, **common: Any) -> int:
        """A 3DFACE; the edges are the bits of those that are invisible, None where it has no flags."""
        (x, y, z), *others = corners
        main = ("1" if edges is None else "0") + ("0" if z else "1") + word(x) + word(y) + (word(z) if z else "")
        main += "".join(anew(part) for corner in others for part in corner)
        return self.entity(28, main + ("" if edges is None else short(edges)), **common)

    def polyline_in_space(self, first: int, last: int, closed: bool = False, curved: bool = False, **common: Any) -> int:
        """A POLYLINE 3D."""
        return self.entity(16, byte(1 if curved else 0) + byte(1 if closed else 0), [(4, first), (4, last), (3, 0)], **common)

    def vertex(self, place: Up, owner: int, flags: int = 32, **common: Any) -> int:
        """A VERTEX 3D."""
        return self.entity(11, byte(flags) + reals(place), owner=owner, **common)

    def polyline(
        self, points: Sequence[Tuple[float, float]], bulges: Sequence[float] = (), widths: Sequence[Tuple[float, float]] = (), *, width: float = 0.0,
        elevation: float = 0.0, normal: Up = UP, closed: bool = False, **common: Any,
    ) -> int:  # fmt: skip
        """An LWPOLYLINE."""
        flag = 512 * closed + 16 * bool(bulges) + 32 * bool(widths) + 4 * bool(width) + 8 * bool(elevation) + (normal != UP)
        main = short(flag) + (real(width) if width else "") + (real(elevation) if elevation else "") + (reals(normal) if normal != UP else "")
        main += long(len(points)) + (long(len(bulges)) if bulges else "") + (long(len(widths)) if widths else "")
        for index, (x, y) in enumerate(points):
            main += anew(x) + anew(y) if index else word(x) + word(y)
        return self.entity(77, main + reals(bulges) + "".join(reals(one) for one in widths), **common)

    def written(
        self, content: bytes, insertion: Tuple[float, float], height: float, *, alignment: Any = None, rotation: float = 0.0, width: float = 1.0,
        oblique: float = 0.0, generation: int = 0, horizontal: int = 0, vertical: int = 0, elevation: float = 0.0, normal: Up = UP,
    ) -> str:  # fmt: skip
        """The main bits of a text."""
        missing = (elevation == 0) * 1 + (alignment is None) * 2 + (oblique == 0) * 4 + (rotation == 0) * 8 + (width == 1) * 16
        missing += (generation == 0) * 32 + (horizontal == 0) * 64 + (vertical == 0) * 128
        main = byte(missing) + (word(elevation) if elevation else "") + word(insertion[0]) + word(insertion[1])
        main += "" if alignment is None else anew(alignment[0]) + anew(alignment[1])
        main += extrusion(normal) + thickness() + (word(oblique) if oblique else "") + (word(rotation) if rotation else "") + word(height)
        main += (word(width) if width != 1 else "") + text(content)
        return main + "".join(short(value) for value in (generation, horizontal, vertical) if value)

    def text(self, content: bytes, insertion: Tuple[float, float], height: float, said: Any = None, **common: Any) -> int:
        """A TEXT."""
        return self.entity(1, self.written(content, insertion, height, **(said or {})), [(5, self.STYLE)], **common)

    def attribute(self, content: bytes, tag: bytes, insertion: Tuple[float, float], height: float, owner: int, flags: int = 0, **common: Any) -> int:
        """An ATTRIB of an insert."""
        main = self.written(content, insertion, height) + text(tag) + short(0) + byte(flags)
        return self.entity(2, main, [(5, self.STYLE)], owner=owner, **common)

    def definition(self, content: bytes, tag: bytes, insertion: Tuple[float, float], height: float, flags: int = 0, **common: Any) -> int:
        """An ATTDEF."""
        main = self.written(content, insertion, height) + text(tag) + short(0) + byte(flags) + text(b"prompt")
        return self.entity(3, main, [(5, self.STYLE)], **common)

    def insert(self, block: int, place: Up, scale: Up = (1.0, 1.0, 1.0), rotation: float = 0.0, normal: Up = UP, ends: Sequence[int] = (), **common: Any) -> int:
        """An INSERT; the ends are its first attribute, its last and its SEQEND."""
        return self.entity(7, inserted(place, scale, rotation, normal, ends), [(5, block), *((4, end) for end in ends)], **common)

    def minsert(
        self, block: int, place: Up, counts: Tuple[int, int], spacings: Tuple[float, float], scale: Up = (1.0, 1.0, 1.0), rotation: float = 0.0,
        normal: Up = UP, **common: Any,
    ) -> int:  # fmt: skip
        """A MINSERT: how many columns and rows there are, and how far apart."""
        main = inserted(place, scale, rotation, normal) + short(counts[0]) + short(counts[1]) + reals(spacings)
        return self.entity(8, main, [(5, block)], **common)

    def of_class(self, number: int, dxf: bytes) -> None:
        """A class of entities."""
        self.classes += short(number) + short(0) + text(b"APP") + text(b"CPP") + text(dxf) + "0" + short(0x1F2)

    def with_sections(self, data: bytes) -> bytes:
        """A file of three locators with the unknown sections after its end."""
        more, end = 9 * len(self.sections), len(data)
        located = [(number, place + more, size) for number, place, size in struct.iter_unpack("<BII", data[25:52])]
        for number, content in self.sections:
            located.append((number, end + more, len(content)))
            end += len(content)
        return bytes(base.header(located) + data[70:] + b"".join(content for _, content in self.sections))

    def file(self, code_page: int = 30) -> bytes:
        """The bytes of the drawing."""
        # (each locator more moves what is after the header)
        places, place, frames = [], 9 * len(self.sections), b""
        for handle, one in sorted(self.frames):
            places.append((handle, place))
            frames += one
            place += len(one)
        data = bytearray(self.with_sections(base.in_order(frames, places, self.classes)))
        data[:6] = self.VERSION
        data[19:21] = code_page.to_bytes(2, "little")
        end = 25 + 9 * int.from_bytes(data[21:25], "little")
        data[end : end + 2] = (base.check(0, data[:end]) ^ base.HEADER_MASKS[data[21]]).to_bytes(2, "little")
        return bytes(data)
