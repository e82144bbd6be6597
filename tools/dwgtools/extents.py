"""How far each space and each block of a drawing extends, seen from above, by the entities that are read by all their fields.

How high these stand in a block is kept too, since an insert may be tilted. Heights are told as points and arcs are, by their x alone.
"""

from __future__ import annotations

import struct
from collections import Counter
from typing import Any, Callable, Dict, Iterable, Iterator, List, Optional, Set, Tuple

from .blocks import Nesting
from .kinds import DRAWN, INSERTS
from .numbered import Numbered
from .parts import grid_of, repeated, seat_of
from .plane import Affine, Arc, Box, Step, heights, seen, turned, unit
from .shapes import FARTHEST, Context, Fields, Frame, Undrawable, check, seen_steps, swept
from .show import Object
from .spools import Spool
from .stock import DEEPEST, Block, block_of
from .values import Value, Words

# The places of the two spaces among the blocks, by the mode of their entities, and the whole of all. They are below all handles, so that blocks are
# gone through from the model space on.
SPACES = {1: -1, 2: -2}
WHOLE = -3

FRAME = Frame()
ORIGIN = Block("", (0.0, 0.0), False)

# An insert: where it stands, its block, and numbers: its map, seen from above; how far the last column and the last row are from the first; where a
# step upward in the block leads, in all three dimensions; how high the map brings x, y and the place; and how high the last column and row are.
RECORD = struct.Struct("<2q18d")

# A corner of what is seen from above, and how high it is.
Corner = Tuple[float, float, float]


class Asked(Dict[str, Value]):
    """The fields of an object by name, each of which is looked for when it is asked for, since few are; with what stands before their names or without."""

    def __init__(self, one: Object, prefix: str) -> None:
        super().__init__()
        self._one, self._prefix = one, prefix

    def get(self, name: str, missing: Any = None) -> Any:
        """A field, or what is given for a missing one."""
        value = self._one.value(self._prefix + name) if self._prefix else None
        value = self._one.value(name) if value is None else value
        return missing if value is None else value

    def __contains__(self, name: object) -> bool:
        return isinstance(name, str) and self.get(name) is not None


class FewFields(Fields):
    """The fields of an object, of which few are asked for."""

    def __init__(self, one: Object, prefix: str = "") -> None:  # pylint: disable=super-init-not-called
        self.values, self.lists = Asked(one, prefix), one.lists


def drawn(kind: str) -> Callable[[Fields], Iterable[Step]]:
    """What is drawn of a kind, by points and arcs."""
    figures = DRAWN[kind][1]
    return lambda fields: (step for figure in figures(fields, Context("ascii", False)) for step in figure.around(FRAME))


def insertion(fields: Fields) -> List[Step]:
    """Where a text is inserted; how far it reaches its font tells."""
    return [seen(fields.point("extrusion"), fields.real("elevation")).at(*fields.pair("insertion"))]


def corners(fields: Fields) -> List[Step]:
    """The corners of a face, those of edges that aren't seen too."""
    return [fields.pair(name) for name in ("first", "second", "third", "fourth")]


# By which points and arcs each kind is measured, but inserts, and polylines in space, which are by their vertices.
MEASURED: Dict[str, Callable[[Fields], Iterable[Step]]] = {
    **{kind: drawn(kind) for kind in DRAWN},
    **{"VERTEX 3D": lambda fields: [fields.pair("place")], "3DFACE": corners, "TEXT": insertion, "ATTRIB": insertion, "ATTDEF": insertion},
}

class Flat(Fields):
    """The fields of an object whose plane is looked at straight from above."""

    def __init__(self, fields: Fields) -> None:  # pylint: disable=super-init-not-called
        self.values, self.lists = fields.values, fields.lists

    def point(self, name: str, count: int = 3) -> Tuple[float, ...]:
        return (0.0, 0.0, 1.0) if name in ("extrusion", "normal") else super().point(name, count)


def in_plane(kind: str, centre: str = "", normal: str = "extrusion") -> Callable[[Fields], Iterable[Step]]:
    """How high what lies in a plane is, the elevation of which is the last number of a field, or one of its own."""

    def found(fields: Fields) -> Iterable[Step]:
        elevation = fields.point(centre)[2] if centre else fields.real("elevation")
        plane = heights(fields.point(normal) if normal in fields.values else (0.0, 0.0, 1.0), elevation)
        return seen_steps(MEASURED[kind](Flat(fields)), plane) if plane.a or plane.c else [(plane.e, 0.0)]

    return found


def in_space(*names: str) -> Callable[[Fields], Iterable[Step]]:
    """How high points are."""
    return lambda fields: [(fields.point(name)[2], 0.0) for name in names]


def of_ellipse(fields: Fields) -> Iterable[Step]:
    """How high an ellipse is, whose minor axis is the normal cross the major one."""
    (u, v, w), (a, b, _) = fields.point("axis"), unit(fields.point("extrusion"))
    return [Arc((fields.point("centre")[2], 0.0), (w, 0.0), (fields.real("ratio") * (a * v - b * u), 0.0), *swept(fields))]


# How high each kind is that is measured.
HEIGHTS: Dict[str, Callable[[Fields], Iterable[Step]]] = {
    **{kind: in_plane(kind, "centre") for kind in ("CIRCLE", "ARC")},
    **{kind: in_plane(kind) for kind in ("SOLID", "TRACE", "TEXT", "ATTRIB", "ATTDEF")},
    "LWPOLYLINE": in_plane("LWPOLYLINE", normal="normal"), "ELLIPSE": of_ellipse, "LINE": in_space("start", "end"), "POINT": in_space("place"),
    "VERTEX 3D": in_space("place"), "RAY": in_space("point"), "XLINE": in_space("point"), "3DFACE": in_space("first", "second", "third", "fourth"),
}  # fmt: skip

# What begins and ends blocks and lists of entities, and extends over nothing.
BETWEEN = {"BLOCK", "ENDBLK", "SEQEND"}


class Reach:
    """What something extends over: its box as it is seen from above, and how high it is, by the left and the right side of another, where it may be
    inserted."""

    __slots__ = ("box", "heights")

    def __init__(self) -> None:
        self.box, self.heights = Box(), Box()

    def add(self, one: Object, prefix: str, has_heights: bool) -> None:
        """Takes an entity in; Undrawable where it isn't measured."""
        fields = FewFields(one, prefix)
        self.box.add(MEASURED[one.kind](fields))
        self.heights.add(HEIGHTS[one.kind](fields) if has_heights else ())

    def take_in(self, other: "Reach") -> None:
        """Takes in all that another has."""
        self.box.add(other.box.corners())
        self.heights.add(other.heights.corners())

    def corners(self) -> List[Corner]:
        """The corners of the box with its heights; none where there is nothing."""
        ends, sides = self.box.corners(), self.heights.corners()
        return sorted({(x, y, z) for x, _ in ends for _, y in ends for z, _ in sides})


class Extents:
    """What the entities of a drawing extend over, by the block or the space that they stand in; entities are taken by ascending handles."""

    def __init__(self) -> None:
        self.reaches: Dict[int, Reach] = {}
        self.unmeasured: "Counter[str]" = Counter()
        self.inserted: "Counter[int]" = Counter()
        # Where inserts and polylines in space stand, which own attributes and vertices; and what those extend over whose owner comes after them.
        self._holders = Numbered(1)
        self._early: Dict[int, Reach] = {}
        # The inserts, the blocks that each block or space inserts, and the base points of blocks.
        self._inserts = Spool()
        self._inner: Dict[int, Set[int]] = {}
        self._bases: Dict[int, Corner] = {}

    def box(self, place: int) -> Optional[Box]:
        """What a block or a space extends over; None where nothing is in it."""
        return self.reaches[place].box if place in self.reaches else None

    def take_block(self, one: Object) -> None:
        """Takes the base point of a block, and passes all else."""
        base = base_of(one) if one.kind == "BLOCK HEADER" else (0.0, 0.0, 0.0)
        if any(base):
            self._bases[one.handle] = base

    def take(self, one: Object, kind: str, place: int) -> None:
        """Takes an entity of a kind that stands in a block or a space."""
        if one.kind not in BETWEEN:
            try:
                self._take_entity(one, place)
            except Undrawable:
                self.unmeasured[kind] += 1

    def _take_entity(self, one: Object, place: int) -> None:
        """Takes an entity at its place; Undrawable where it isn't measured."""
        if one.form != "typed":
            raise Undrawable("not read by all its fields")
        if one.kind in INSERTS or one.kind == "POLYLINE 3D":
            self._holders.put(one.handle, place)
            early = self._early.pop(one.handle, None)
            if early:
                self._reach(place).take_in(early)
        if one.kind in INSERTS:
            self._insert(FewFields(one, INSERTS[one.kind]), place)
        elif one.kind in ("VERTEX 3D", "ATTRIB"):
            self._take_part(one, place)
        elif one.kind != "POLYLINE 3D":
            if one.kind not in MEASURED:
                raise Undrawable("a kind that isn't measured")
            self._reach(place).add(one, DRAWN[one.kind][0], place > 0)

    def _take_part(self, one: Object, place: int) -> None:
        """Takes a vertex or an attribute, which stands where its owner does."""
        owner, prefix = one.target("owner"), DRAWN[one.kind][0] if one.kind in DRAWN else ""
        found = self._holders.of(owner)
        if not found and owner > one.handle:
            self._early.setdefault(owner, Reach()).add(one, prefix, True)
            return
        place = found[0] if found else place
        self._reach(place).add(one, prefix, place > 0)

    def _reach(self, place: int) -> Reach:
        """What a block or a space extends over, as far as it is known."""
        if place not in self.reaches:
            self.reaches[place] = Reach()
        return self.reaches[place]

    def _insert(self, fields: Fields, place: int) -> None:
        """Keeps an insert until its block is measured."""
        seat, grid, block = seat_of(fields, ORIGIN), grid_of(fields), fields.target("block")
        far = *grid.move(grid.columns - 1, 0), *grid.move(0, grid.rows - 1)
        self._inserts.put(RECORD.pack(place, block, *seat, *far, *heights_of_insert(fields)))
        self._inner.setdefault(place, set()).add(block)
        self.inserted[block] += 1

    def settle(self, model: int, paper: int) -> None:
        """Takes in what the inserts extend over, once all is read: by the corners of the boxes of their blocks. What stands in the block that is the
        model or the paper space stands in that. Blocks are followed so deep as a picture of them is."""
        own = {block: space for block, space in ((model, SPACES[2]), (paper, SPACES[1])) if block}
        for block, space in own.items():
            if block in self.reaches:
                self._reach(space).take_in(self.reaches[block])
            if block in self._inner:
                self._inner.setdefault(space, set()).update(self._inner[block])
        nesting = Nesting(WHOLE, lambda place: self._inner if place == WHOLE else self._inner.get(place, set()))
        # (a block without inserts has the height 1)
        for height in range(2, min(nesting.deepest, DEEPEST) + 1):
            for place, block, numbers in self._all_inserts():
                place = own.get(place, place)
                if nesting.heights.get(place) == height and (place, block) not in nesting.back and block in self.reaches:
                    self._put(place, self._placed(block, numbers))
        for block, space in own.items():
            if space in self.reaches:
                self.reaches[block] = self.reaches[space]

    def _put(self, place: int, corners_of_insert: Iterator[Corner]) -> None:
        """Takes in the corners of an insert, where these can be told."""
        try:
            found = list(corners_of_insert)
            for corner in found:
                # (how high something is in a space changes nothing)
                check(corner if place > 0 else corner[:2])
            reach = self._reach(place)
            reach.box.add((x, y) for x, y, _ in found)
            reach.heights.add((z, 0.0) for _, _, z in found)
        except Undrawable:
            self.unmeasured["INSERT"] += 1

    def _all_inserts(self) -> Iterator[Tuple[int, int, Tuple[float, ...]]]:
        """The inserts, each with its place, its block and its numbers."""
        for piece in self._inserts.pieces(RECORD.size):
            for place, block, *numbers in RECORD.iter_unpack(piece):
                yield place, block, tuple(numbers)

    def _placed(self, block: int, numbers: Tuple[float, ...]) -> Iterator[Corner]:
        """The corners of a block's box where the corners of an insert's grid put them."""
        seat, (u, v, s, t), upward, high, (w, r) = Affine(*numbers[:6]), numbers[6:10], numbers[10:13], numbers[13:16], numbers[16:]
        base = self._bases.get(block, (0.0, 0.0, 0.0))
        moves = {(0.0, 0.0, 0.0), (u, v, w), (s, t, r), (u + s, v + t, w + r)}
        for corner in self.reaches[block].corners():
            x, y, z = corner[0] - base[0], corner[1] - base[1], corner[2] - base[2]
            a, b = seat.at(x, y)
            a, b, c = a + upward[0] * z, b + upward[1] * z, high[0] * x + high[1] * y + upward[2] * z + high[2]
            yield from ((a + across, b + up, c + out) for across, up, out in moves)


def base_of(one: Object) -> Corner:
    """The base point of a block."""
    (x, y), base = block_of(one, "ascii").base, one.value("base")
    z = base.doubles()[2] if isinstance(base, Words) and len(base) > 2 else 0.0
    return x, y, z if abs(z) <= FARTHEST else 0.0


def heights_of_insert(fields: Fields) -> Tuple[float, ...]:
    """The numbers of an insert that tell how high it is, and where a step upward in its block leads."""
    (x, y, z), (across, up, out), normal = fields.point("place"), fields.point("scale"), fields.point("extrusion")
    plane, upward = heights(normal, z), (part * out for part in unit(normal))
    if not (plane.a or plane.c):
        return *upward, 0.0, 0.0, plane.e, 0.0, 0.0
    turn = plane.linear().after(turned(fields.real("rotation")))
    (columns, apart), (rows, between) = repeated(fields, "columns", "column_spacing"), repeated(fields, "rows", "row_spacing")
    return *upward, turn.a * across, turn.c * up, plane.at(x, y)[0], turn.a * apart * (columns - 1), turn.c * between * (rows - 1)
