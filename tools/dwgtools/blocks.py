"""Blocks as runs: what an insert gives to the entities of its block, how much it draws, and what that extends over."""

from __future__ import annotations

import enum
import itertools
import math
from dataclasses import dataclass, field, replace
from typing import Callable, Dict, Iterable, Iterator, List, NamedTuple, Set, Tuple, Union

from .plane import SAME, Affine, Arc, Box, Outline, Point, Step, convex, summed
from .shapes import AT_ONCE, Figure, Frame, Moved

# How much an insert counts by itself, beside the entities of its block: librsvg follows 500,000 of them.
INSERT_COST = 2


class From(enum.Enum):
    """Where what is in a block has a colour or a width from: the layer of the insert, or the insert itself."""

    LAYER = 1
    INSERT = 2


class Pen(NamedTuple):
    """A colour, and a width in hundredths of a millimetre. In a block either may come from the insert, and None stands for any."""

    colour: Union[str, From, None] = None
    width: Union[int, From, None] = None

    def taken(self) -> "Pen":
        """What of it comes from the insert."""
        return Pen(*(part if isinstance(part, From) else None for part in self))

    def given(self, layer: "Pen", insert: "Pen") -> "Pen":
        """The pen where an insert gives that of its layer and its own."""
        colour = layer.colour if self.colour is From.LAYER else insert.colour if self.colour is From.INSERT else self.colour
        width = layer.width if self.width is From.LAYER else insert.width if self.width is From.INSERT else self.width
        return Pen(colour, width)

    def agrees(self, other: "Pen") -> bool:
        """Whether both may come from one insert by one colour and one width."""
        return all(mine is None or its is None or mine is its for mine, its in zip(self, other))

    def attributes(self) -> str:
        """The attributes of an element of it, but for what comes from the insert."""
        width = f' class="w{self.width}"' if isinstance(self.width, int) else ""
        return width + (f' stroke="{self.colour}" color="{self.colour}"' if isinstance(self.colour, str) else "")


LAYER_PEN, INSERT_PEN = Pen(From.LAYER, From.LAYER), Pen(From.INSERT, From.INSERT)


@dataclass
class Drawn:
    """A figure and its pen, and whether it isn't seen where the layer of the insert is off."""

    pen: Pen
    figure: Figure
    floating: bool = False

    def cost(self) -> int:
        """How much it draws."""
        return 1

    def around(self, frame: Frame) -> Iterable[Step]:
        """Points and arcs around it."""
        return self.figure.around(frame)


def distance(step: Step) -> float:
    """How far a point is from the origin, or the farthest of those between whose coordinates an arc lies."""
    return max(math.hypot(x, y) for x, y in (step.around() if isinstance(step, Arc) else (step,)))


class Grid(NamedTuple):
    """The columns and rows that an insert stands in, and how far one is from the next."""

    columns: int = 1
    rows: int = 1
    across: Point = (0.0, 0.0)
    up: Point = (0.0, 0.0)

    def copies(self) -> int:
        """How often it stands."""
        return self.columns * self.rows

    def move(self, column: int, row: int) -> Point:
        """How far a copy is from the first."""
        return column * self.across[0] + row * self.up[0], column * self.across[1] + row * self.up[1]

    def moves(self) -> Iterator[Point]:
        """How far each copy is from the first."""
        return (self.move(column, row) for row in range(self.rows) for column in range(self.columns))

    def corners(self) -> List[Point]:
        """How far the copies at its corners are, between which all others stand."""
        return [self.move(column, row) for row in (0, self.rows - 1) for column in (0, self.columns - 1)]


@dataclass
class Copies:
    """Figures that stand together in a grid; each copy is made when it is asked for."""

    items: List[Drawn]
    grid: Grid

    def all(self) -> Iterator[Drawn]:
        """Each figure of each copy."""
        return (replace(item, figure=Moved(item.figure, move)) for move in self.grid.moves() for item in self.items)


@dataclass
class Insert:
    """An insert: its block, the pen of its layer, and its own; whether it is on layer 0 of a block, and on one of which nothing is drawn; where it
    puts its block."""

    block: int
    layer: Pen
    own: Pen
    floating: bool
    off: bool
    # How many blocks in each other are drawn, its own counted.
    level: int = 0
    # Where the first copy is put, and how far the others are from there.
    seat: Affine = SAME
    grid: Grid = Grid()

    def seats(self) -> Iterator[Affine]:
        """Where each copy is put, told when it is asked for."""
        return (self.seat.moved_to((self.seat.e + x, self.seat.f + y)) for x, y in self.grid.moves())


Item = Union[Drawn, Copies, Insert]


class Nesting:
    """Which blocks are in which, from one on, so that nothing depends on which is met first: the inserts that lead back, by which a block would be
    in itself, and how many blocks are in each other in each, itself counted. Blocks are gone through by their handles."""

    def __init__(self, first: int, inner: Callable[[int], Iterable[int]]) -> None:
        self.back: Set[Tuple[int, int]] = set()
        self.heights: Dict[int, int] = {}
        way, open_heights = [(first, iter(sorted(set(inner(first)))))], {first: 1}
        while way:
            block, rest = way[-1]
            for one in rest:
                if one in open_heights:
                    self.back.add((block, one))
                elif one not in self.heights:
                    open_heights[one] = 1
                    way.append((one, iter(sorted(set(inner(one))))))
                    break
                else:
                    open_heights[block] = max(open_heights[block], 1 + self.heights[one])
            else:
                way.pop()
                self.heights[block] = open_heights.pop(block)
                if way:
                    outer = way[-1][0]
                    open_heights[outer] = max(open_heights[outer], 1 + self.heights[block])
        self.deepest = self.heights[first] - 1


@dataclass(eq=False)
class Run:
    """Parts of a block, one after the other, that take at most one colour and one width from an insert, since SVG hands on no more than one.

    Coordinates count from a place near the block's entities. The reach is how far from there anything is, and 1 at least; but for arcs, which may be
    half as far again.
    """

    near: Point
    takes: Pen = Pen()
    parts: List["Part"] = field(default_factory=list)
    cost: int = INSERT_COST
    reach: float = 1.0
    # What its figures extend over, and outlines, each when it is asked for.
    box: Box = field(default_factory=Box)
    outlines: Dict[bool, Outline] = field(default_factory=dict)

    def add(self, part: "Part") -> bool:
        """Takes a part after the others, unless it needs another colour or width of the insert than these."""
        takes = part.pen.taken()
        if not self.takes.agrees(takes):
            return False
        self.takes = Pen(self.takes.colour or takes.colour, self.takes.width or takes.width)
        self.parts.append(part)
        self.cost += part.cost()
        self.extend(part)
        return True

    def extend(self, part: "Part") -> None:
        """Takes in how far a part reaches, and what a figure extends over."""
        frame = Frame(*self.near)
        if isinstance(part, Used):
            place, radius = part.disc(frame)
            self.reach = max(self.reach, math.hypot(*place) + radius)
            return
        steps = iter(part.around(frame))
        for first in steps:
            some = [first, *itertools.islice(steps, AT_ONCE)]
            self.box.add(some)
            self.reach = max(self.reach, max(map(distance, some)))

    def outline(self, is_flat: bool) -> Outline:
        """Its outline, or that of what is seen of it where a map brings all to one line. It is made once, whatever the maps."""
        if is_flat not in self.outlines:
            box, frame = Box(), Frame(*self.near)
            box.add(self.box.corners())
            for part in self.parts:
                if isinstance(part, Used):
                    box.add(part.around(frame))
            parts = (part for part in self.parts if isinstance(part, Used) or not is_flat or part.figure.is_seen_aslant())
            self.outlines[is_flat] = Outline(corners_in(parts, frame, is_flat, box.size()), FINE * box.size())
        return self.outlines[is_flat]


@dataclass
class Used:
    """A run that an insert draws, what it gives to it, and where it puts it."""

    run: Run
    pen: Pen
    seat: Affine

    def cost(self) -> int:
        """How much it draws."""
        return self.run.cost

    def around(self, frame: Frame) -> List[Point]:
        """Points between whose least and greatest coordinates it lies."""
        seat = frame.seat(self.seat)
        return self.run.outline(seat.is_flat()).under(seat)

    def disc(self, frame: Frame) -> Tuple[Point, float]:
        """A place, and how far it reaches from there."""
        seat = frame.seat(self.seat)
        return (seat.e, seat.f), seat.stretch() * self.run.reach

    def is_within(self, box: Box, frame: Frame) -> bool:
        """Whether it is told by its reach alone that it lies in an upright rectangle."""
        place, reach = self.disc(frame)
        return box.holds(place, ARCS_BEYOND * reach)


# How many times as far as their points arcs may be, which lie between the least and greatest coordinates of these.
ARCS_BEYOND = math.sqrt(2)

Part = Union[Drawn, Used]


def runs_of(parts: Iterable[Part], near: Point) -> List[Run]:
    """The runs of a block with parts."""
    runs: List[Run] = []
    for part in parts:
        if not runs or not runs[-1].add(part):
            runs.append(Run(near))
            runs[-1].add(part)
    return runs


# How far corners of a run stand out from its outline that aren't heeded, and so parts of arcs: of its size, and where it has very many of them.
FINE, COARSE, MANY_CORNERS = 1e-5, 1e-3, 1 << 20


def corners_in(parts: Iterable[Part], frame: Frame, is_flat: bool, size: float) -> Iterator[Point]:
    """Points whose outline is that of parts. Runs under one map stand in as many places as they may; the outline of these tells them all."""
    count = 0
    places: Dict[Tuple[Run, Affine], List[Point]] = {}
    for part in parts:
        if isinstance(part, Used):
            seat = frame.seat(part.seat)
            places.setdefault((part.run, seat.linear()), []).append((seat.e, seat.f))
            continue
        for step in part.around(frame):
            for point in step.along((FINE if count < MANY_CORNERS else COARSE) * size) if isinstance(step, Arc) else (step,):
                count += 1
                yield point
    for (run, linear), along in places.items():
        outline = run.outline(is_flat or linear.is_flat())
        corners = outline.corners if count < MANY_CORNERS else outline.fewer
        count += len(corners)
        yield from summed(convex(along), convex(linear.at(x, y) for x, y in corners))
