"""What entities look like, as figures that become elements of SVG: reading their fields, and a function for each kind that isn't a text."""

from __future__ import annotations

import itertools
import math
from array import array
from dataclasses import dataclass
from typing import Dict, Iterable, Iterator, List, NamedTuple, Optional, Sequence, Set, Tuple

from .show import Object
from .values import Reference, Text, Value, Words, read_field
from .plane import SAME, TURN, Affine, Arc, Endless, Point, Step, circular, pair, plain, seen, unit

FARTHEST = 1e15


class Undrawable(Exception):
    """Why an object can't be drawn."""


# --- Reading fields --------------------------------------------------------------------------------------------------


class Fields:
    """The fields of an object by name; where what holds a text stands before them, as with attributes, its names are left out.

    Of lists those of numbers and points alone are drawn, which the object has as numbers.
    """

    def __init__(self, one: Object, prefix: str = "") -> None:
        self.values: Dict[str, Value] = {}
        self.lists = one.lists
        for printed in one.lines:
            if b"[" not in printed[: printed.index(b" ")]:
                path, value = read_field(printed)
                self.values[path[len(prefix) :] if path.startswith(prefix) else path] = value

    def point(self, name: str, count: int = 3) -> Tuple[float, ...]:
        """The coordinates of a point, which must be there, so many of them."""
        value = self.values.get(name)
        if not isinstance(value, Words) or len(value) < count:
            raise Undrawable(f"no {name}")
        return checked(value.doubles())[:count]

    def pair(self, name: str) -> Point:
        """The x and y of a point."""
        x, y = self.point(name, 2)
        return x, y

    def real(self, name: str, missing: float = 0.0) -> float:
        """A number with a fraction."""
        value = self.values.get(name)
        return checked(value.doubles())[0] if isinstance(value, Words) else missing

    def number(self, name: str) -> int:
        """A whole number; 0 where it is absent."""
        value = self.values.get(name)
        return value if isinstance(value, int) else 0

    def text(self, name: str) -> bytes:
        """A text."""
        value = self.values.get(name)
        return value if isinstance(value, Text) else b""

    def target(self, name: str) -> int:
        """The handle that a reference names; 0 where there is none."""
        value = self.values.get(name)
        return value.handle if isinstance(value, Reference) else 0

    def numbers(self, name: str) -> "array[float]":
        """The numbers of a list of numbers or points."""
        found = self.lists.get(name, array("d"))
        check(found)
        return found


def check(values: Iterable[float]) -> None:
    """Undrawable where a number can't be drawn."""
    # (as steps that Python makes itself: there may be millions)
    sizes: Iterable[float] = map(abs, values)
    if not all(map(FARTHEST.__ge__, sizes)):
        raise Undrawable("a number that is none or too large")


def checked(values: Tuple[float, ...]) -> Tuple[float, ...]:
    """The numbers themselves, where they can be drawn."""
    check(values)
    return values


def checked_map(seat: Affine) -> Affine:
    """The map itself, where it can be drawn."""
    checked(tuple(seat))
    return seat


# --- Figures ---------------------------------------------------------------------------------------------------------


class Frame(NamedTuple):
    """Where figures are put: from a place, from which coordinates count, by a map that leaves the origin where it is.

    Programs that show SVG compute with seven digits, so coordinates count from a place nearby.
    """

    x: float = 0.0
    y: float = 0.0
    linear: Affine = SAME

    def put(self, point: Point) -> Point:
        """Where a point comes to lie."""
        x, y = point[0] - self.x, point[1] - self.y
        return (x, y) if self.linear is SAME else self.linear.at(x, y)

    def put_arc(self, arc: Arc) -> Arc:
        """Where an arc comes to lie."""
        return Arc(self.put(arc.centre), self.linear.along(*arc.first), self.linear.along(*arc.second), arc.begin, arc.sweep)

    def seat(self, inner: Affine) -> Affine:
        """The map that takes another one, which tells places of this frame, first."""
        linear = inner if self.linear is SAME else self.linear.after(inner)
        return linear.moved_to(self.put((inner.e, inner.f)))


class Figure:
    """What an entity looks like, in the coordinates of its space or block."""

    def element(self, frame: Frame) -> str:
        """The element of SVG; empty where nothing can be seen of it."""
        raise NotImplementedError

    def pieces(self, frame: Frame) -> Iterator[str]:
        """The element in pieces, so that a long one is never held as a whole."""
        yield self.element(frame)

    def around(self, frame: Frame) -> Iterable[Step]:
        """Points and arcs, in whose convex outline it lies; none where nothing can be seen of it."""
        raise NotImplementedError

    def is_seen_aslant(self) -> bool:
        """Whether something of it is seen where a map brings all to one line."""
        return True


# What stands in an element that has the colour as its inside and no line.
FILLED = ' fill="currentColor" stroke="none"'


# How many steps of a way are told at once.
AT_ONCE = 1 << 10


@dataclass
class Way:
    """Points and arcs, one after the other."""

    begin: Point
    steps: Iterable[Step]
    closed: bool = False

    def said(self, frame: Frame) -> Iterator[str]:
        """The way in a path, in pieces."""
        yield f"M{pair(frame.put(self.begin))}"
        steps = iter(self.steps)
        while True:
            said = [frame.put_arc(step).said() if isinstance(step, Arc) else "L" + pair(frame.put(step)) for step in itertools.islice(steps, AT_ONCE)]
            if not said:
                break
            yield "".join(said)
        yield "z" if self.closed else ""

    def around(self, frame: Frame) -> Iterator[Step]:
        """Its points and arcs where they come to lie."""
        return itertools.chain([frame.put(self.begin)], put(self.steps, frame))


def put(steps: Iterable[Step], frame: Frame) -> Iterator[Step]:
    """Where points and arcs come to lie."""
    return (frame.put_arc(step) if isinstance(step, Arc) else frame.put(step) for step in steps)


@dataclass
class Trail(Figure):
    """Ways, drawn by their line, or filled."""

    ways: List[Way]
    filled: bool = False

    def element(self, frame: Frame) -> str:
        return "".join(self.all_pieces(frame))

    def pieces(self, frame: Frame) -> Iterator[str]:
        return self.all_pieces(frame) if any(isinstance(way.steps, Steps) for way in self.ways) else super().pieces(frame)

    def all_pieces(self, frame: Frame) -> Iterator[str]:
        """The element in pieces, however short it is."""
        yield '<path d="'
        for way in self.ways:
            yield from way.said(frame)
        yield f'"{FILLED if self.filled else ""}/>'

    def around(self, frame: Frame) -> Iterable[Step]:
        return itertools.chain.from_iterable(way.around(frame) for way in self.ways)


def outlined(corners: Sequence[Point]) -> Trail:
    """What corners go around, filled."""
    return Trail([Way(corners[0], corners[1:], closed=True)], filled=True)


@dataclass
class Curve(Figure):
    """A circle, an ellipse, or a part of one."""

    arc: Arc

    def element(self, frame: Frame) -> str:
        arc = frame.put_arc(self.arc)
        radius = arc.radius()
        if radius:
            return f'<circle cx="{plain(arc.centre[0])}" cy="{plain(arc.centre[1])}" r="{plain(radius)}"/>'
        return f'<path d="M{pair(arc.at(arc.begin))}{arc.said()}"/>'

    def around(self, frame: Frame) -> List[Step]:
        return [frame.put_arc(self.arc)]


@dataclass
class Dot(Figure):
    """A dot of a few pixels."""

    place: Point

    def element(self, frame: Frame) -> str:
        return f'<path class="dot" d="M{pair(frame.put(self.place))}h0"/>'

    def around(self, frame: Frame) -> List[Step]:
        return [frame.put(self.place)]


@dataclass
class Band(Figure):
    """A way of a width in drawing units. It is told in its plane, as its width is seen as the plane is; its edges are told as they are seen."""

    way: Way
    plane: Affine
    width: float
    edges: Iterable[Step]

    def seat(self, frame: Frame) -> Affine:
        """Where a frame puts the plane, told from the begin of the way."""
        return frame.seat(self.plane.moved_to(self.plane.at(*self.way.begin)))

    def element(self, frame: Frame) -> str:
        return "".join(self.pieces(frame))

    def pieces(self, frame: Frame) -> Iterator[str]:
        seat = self.seat(frame)
        if seat.is_flat():
            return
        is_plain = self.plane == SAME == frame.linear
        path = self.way.said(frame if is_plain else Frame(*self.way.begin))
        yield f'<path class="wide"{"" if is_plain else seat.attribute()} stroke-width="{plain(self.width)}" d="'
        yield from path
        yield '"/>'

    def around(self, frame: Frame) -> Iterable[Step]:
        return () if self.seat(frame).is_flat() else put(self.edges, frame)

    def is_seen_aslant(self) -> bool:
        return False


@dataclass
class Moved(Figure):
    """A figure elsewhere."""

    figure: Figure
    by: Point

    def within(self, frame: Frame) -> Frame:
        """The frame that the figure itself is put into: its place is moved the other way."""
        return frame._replace(x=frame.x - self.by[0], y=frame.y - self.by[1])

    def element(self, frame: Frame) -> str:
        return self.figure.element(self.within(frame))

    def pieces(self, frame: Frame) -> Iterator[str]:
        return self.figure.pieces(self.within(frame))

    def around(self, frame: Frame) -> Iterable[Step]:
        return self.figure.around(self.within(frame))

    def is_seen_aslant(self) -> bool:
        return self.figure.is_seen_aslant()


@dataclass
class Straight(Figure):
    """A line without an end, which is cut when all of the picture is known; its place alone counts for what the picture shows."""

    line: Endless

    def within(self, frame: Frame) -> Endless:
        """The line in a frame without a map."""
        return self.line._replace(place=frame.put(self.line.place))

    def around(self, frame: Frame) -> List[Step]:
        return [frame.put(self.line.place)]


# --- Kinds -----------------------------------------------------------------------------------------------------------


class Context(NamedTuple):
    """What a figure depends on beside its entity: the code page, and whether the entity is in a block that is inserted."""

    page: str
    inside: bool


def line(fields: Fields, _: Context) -> Iterator[Figure]:
    """A line, whose points aren't told in its plane."""
    yield Trail([Way(fields.pair("start"), [fields.pair("end")])])


def point(fields: Fields, _: Context) -> Iterator[Figure]:
    """A point."""
    yield Dot(fields.pair("place"))


def swept(fields: Fields) -> Tuple[float, float]:
    """The angle that an arc begins at, and how far it goes to the left: a whole turn where both angles are one, but for rounding."""
    begin = math.fmod(fields.real("start_angle"), TURN)
    sweep = (fields.real("end_angle") - begin) % TURN
    return begin, sweep if sweep > 1e-12 else TURN


def circle(fields: Fields, _: Context) -> Iterator[Figure]:
    """A circle."""
    x, y, z = fields.point("centre")
    yield Curve(circular((x, y), abs(fields.real("radius"))).under(seen(fields.point("extrusion"), z)))


def arc(fields: Fields, _: Context) -> Iterator[Figure]:
    """An arc, to the left from one angle to the other."""
    x, y, z = fields.point("centre")
    yield Curve(circular((x, y), abs(fields.real("radius")), *swept(fields)).under(seen(fields.point("extrusion"), z)))


def ellipse(fields: Fields, _: Context) -> Iterator[Figure]:
    """An ellipse or a part of it: its angles are those of the circle that it is made from. Its centre and axes aren't told in its plane."""
    x, y, _z = fields.point("centre")
    u, v, w = fields.point("axis")
    (a, b, c), ratio = unit(fields.point("extrusion")), fields.real("ratio")
    # The minor axis is the normal cross the major one; only its x and y are seen.
    minor = (ratio * (b * w - c * v), ratio * (c * u - a * w))
    checked(minor)
    yield Curve(Arc((x, y), (u, v), minor, *swept(fields)))


def straight(fields: Fields, context: Context, both_ways: bool) -> Iterator[Figure]:
    """A line without an end."""
    found = Endless(fields.pair("point"), fields.pair("vector"), both_ways)
    if context.inside:
        raise Undrawable("in a block that is inserted")
    yield Straight(found)


def ray(fields: Fields, context: Context) -> Iterator[Figure]:
    """A line from a point on."""
    return straight(fields, context, both_ways=False)


def construction_line(fields: Fields, context: Context) -> Iterator[Figure]:
    """A line without ends."""
    return straight(fields, context, both_ways=True)


def solid(fields: Fields, _: Context) -> Iterator[Figure]:
    """A solid or a trace: its third corner lies beside its first, so that the outline goes from the second to the fourth."""
    plane = seen(fields.point("extrusion"), fields.real("elevation"))
    yield outlined([plane.at(*fields.pair(name)) for name in ("first", "second", "fourth", "third")])


def face(fields: Fields, _: Context) -> Iterator[Figure]:
    """A face: its edges, the first of them between the first two corners, but for those whose bit says that they are invisible."""
    hidden = fields.number("invisible_edges")
    corners = [fields.point(name) for name in ("first", "second", "third", "fourth")]
    edges = [edge for at, edge in enumerate(zip(corners, corners[1:] + corners[:1])) if not hidden >> at & 1 and edge[0] != edge[1]]
    if edges:
        yield Trail([Way((begin[0], begin[1]), [(end[0], end[1])]) for begin, end in edges])


CLOSED_IN_SPACE = 1


def polyline_in_space(fields: Fields, _: Context) -> Iterator[Figure]:
    """A polyline in space, whose vertices are listed among its fields."""
    numbers = fields.numbers("vertices")
    corners = list(zip(numbers[::3], numbers[1::3]))
    if len(corners) < 2:
        raise Undrawable("fewer than two points")
    yield Trail([Way(corners[0], corners[1:], closed=bool(fields.number("flags_b") & CLOSED_IN_SPACE))])


# --- Lightweight polylines -------------------------------------------------------------------------------------------


def bulged(begin: Point, end: Point, bulge: float) -> Optional[Arc]:
    """The arc between two points whose bulge is the tangent of a quarter of the sweep, and None where that is a line."""
    if abs(bulge) <= 1e-9 or begin == end:
        return None
    (x, y), (u, v) = begin, end
    aside = (1 - bulge * bulge) / (4 * bulge)
    centre = (x + u) / 2 - (v - y) * aside, (y + v) / 2 + (u - x) * aside
    radius, angle = math.hypot(x - centre[0], y - centre[1]), math.atan2(y - centre[1], x - centre[0])
    return circular(centre, radius, angle, 4 * math.atan(bulge))


@dataclass
class Segment:
    """A segment of a polyline, in its plane: its ends, its widths at both, and its arc where it is one."""

    begin: Point
    end: Point
    widths: Tuple[float, float]
    arc: Optional[Arc]

    def is_long(self) -> bool:
        """Whether it leads elsewhere."""
        return self.arc is not None or self.begin != self.end

    def at(self, part: float) -> Point:
        """A point of it: the begin at 0, the end at 1."""
        if self.arc:
            return self.arc.at(self.arc.begin + self.arc.sweep * part)
        (x, y), (u, v) = self.begin, self.end
        return x + (u - x) * part, y + (v - y) * part

    def left(self, part: float) -> Point:
        """The direction to the left at a point of it."""
        if self.arc:
            angle, inward = self.arc.begin + self.arc.sweep * part, math.copysign(1.0, -self.arc.sweep)
            return inward * math.cos(angle), inward * math.sin(angle)
        (x, y), (u, v) = self.begin, self.end
        length = math.hypot(u - x, v - y) or 1.0
        return (y - v) / length, (u - x) / length

    def beside(self, part: float, half: float) -> Point:
        """The point at a distance to the left of a point of it."""
        (x, y), (u, v) = self.at(part), self.left(part)
        return x + u * half, y + v * half

    def half(self, part: float) -> float:
        """Half the width at a point of it."""
        first, last = self.widths
        return (first + (last - first) * part) / 2

    def corner(self, part: float, side: int) -> Point:
        """The point at the edge to the left of a point of it, or for a side below 0 to the right."""
        return self.beside(part, side * self.half(part))

    def band(self) -> List[Point]:
        """The outline of a segment with widths: along its left and back along its right."""
        count = max(2, math.ceil(abs(self.arc.sweep) / (TURN / PARTS))) if self.arc else 1
        parts = [at / count for at in range(count + 1)]
        return [self.corner(part, 1) for part in parts] + [self.corner(part, -1) for part in reversed(parts)]

    def edges(self, half: float) -> List[Step]:
        """The edges of a segment of one width."""
        if self.arc:
            radius = self.arc.first[0]
            return [circular(self.arc.centre, radius + aside, self.arc.begin, self.arc.sweep) for aside in (half, -half)]
        return [self.beside(part, aside) for part in (0.0, 1.0) for aside in (half, -half)]


# In how many parts of a turn the edges of an arc are told whose width changes.
PARTS = 256
CLOSED = 512


class Segments:
    """The segments of a lightweight polyline, at least one. Their numbers are kept as they come, and a segment is told when it is asked for."""

    def __init__(self, fields: Fields) -> None:
        self.points, self.bulges = fields.numbers("points"), fields.numbers("bulges")
        self.starts, self.ends = fields.numbers("widths.start"), fields.numbers("widths.end")
        self.width, self.closed = abs(fields.real("width")), bool(fields.number("flag") & CLOSED)
        self.corners = len(self.points) // 2
        self.count = self.corners if self.closed else self.corners - 1
        if self.count < 1:
            raise Undrawable("fewer than two points")

    def corner(self, at: int) -> Point:
        """The corner of a number; after the last stands the first."""
        at = at % self.corners * 2
        return self.points[at], self.points[at + 1]

    def segment(self, at: int) -> Segment:
        """The segment of a number."""
        begin, end = self.corner(at), self.corner(at + 1)
        widths = (self.starts[at], self.ends[at]) if at < min(len(self.starts), len(self.ends)) else (self.width, self.width)
        return Segment(begin, end, widths, bulged(begin, end, self.bulges[at] if at < len(self.bulges) else 0.0))

    def __iter__(self) -> Iterator[Segment]:
        return map(self.segment, range(self.count))

    def led(self) -> Iterator[Step]:
        """Where each segment leads: to its end, or along its arc."""
        if self.bulges:
            return (one.arc or one.end for one in self)
        return (self.corner(at) for at in range(1, self.count + 1))

    def widths(self) -> Set[float]:
        """The widths that there are."""
        told = min(len(self.starts), len(self.ends), self.count)
        found = {abs(width) for some in (self.starts, self.ends) for width in itertools.islice(some, told)}
        return found if told == self.count else found | {self.width}


# From how many segments on what they become is told when it is asked for, each time anew. A list of it takes ten times as much as the numbers.
MANY = 1000


@dataclass
class Steps:
    """Where many segments lead, in their plane or as it is seen."""

    segments: Segments
    plane: Optional[Affine]

    def __iter__(self) -> Iterator[Step]:
        return self.segments.led() if self.plane is None else seen_steps(self.segments.led(), self.plane)


@dataclass
class Edges:
    """The edges of segments of one width and the corners where they meet, as they are seen."""

    segments: Segments
    plane: Affine
    half: float

    def __iter__(self) -> Iterator[Step]:
        return seen_steps(self.flat(), self.plane)

    def flat(self) -> Iterator[Step]:
        """The same in their plane."""
        yield self.segments.corner(0)
        first: Optional[Segment] = None
        last: Optional[Segment] = None
        for one in self.segments:
            if one.is_long():
                yield from one.edges(self.half)
                yield from mitred(last, one, self.half) if last else ()
                first, last = first or one, one
        if first and last and self.segments.closed:
            yield from mitred(last, first, self.half)


def polyline(fields: Fields, _: Context) -> Iterator[Figure]:
    """A lightweight polyline: a thin line, and its widths as they are."""
    segments = Segments(fields)
    normal = fields.point("normal") if "normal" in fields.values else (0.0, 0.0, 1.0)
    plane = seen(normal, fields.real("elevation"))
    yield Trail([way_of(segments, plane)])
    widths = segments.widths()
    if len(widths) > 1:
        yield from uneven(plane, segments)
    elif any(widths):
        yield even(plane, segments, widths.pop())


def way_of(segments: Segments, plane: Optional[Affine]) -> Way:
    """The way along segments, in their plane or as it is seen."""
    plane = None if plane == SAME else plane
    begin, steps = segments.corner(0), Steps(segments, plane)
    taken: Iterable[Step] = steps
    if segments.count <= MANY:
        taken = list(steps)
    return Way(begin if plane is None else plane.at(*begin), taken, segments.closed)


def seen_steps(steps: Iterable[Step], plane: Affine) -> Iterator[Step]:
    """Points and arcs of a plane as they are seen."""
    return (step.under(plane) if isinstance(step, Arc) else plane.at(*step) for step in steps)


def even(plane: Affine, segments: Segments, width: float) -> Band:
    """The width of a polyline that has one."""
    edges = Edges(segments, plane, width / 2)
    taken: Iterable[Step] = edges
    if segments.count <= MANY:
        taken = list(edges)
    return Band(way_of(segments, None), plane, width, taken)


# How many times longer than the half width a corner is at the most before it is cut off, in SVG.
LONGEST_CORNER = 4


def mitred(one: Segment, other: Segment, half: float) -> List[Point]:
    """The outer corner where two wide segments meet, unless it is cut off."""
    (a, b), (c, d) = one.left(1.0), other.left(0.0)
    along, (x, y) = 1 + a * c + b * d, one.end
    if math.hypot(a + c, b + d) >= LONGEST_CORNER * along:
        return []
    outward = math.copysign(half / along, b * c - a * d)
    return [(x + (a + c) * outward, y + (b + d) * outward)]


@dataclass
class Tapered(Figure):
    """A segment with widths, filled. Of an arc its outline has hundreds of corners, so that it is told anew each time and never kept."""

    segment: Segment
    plane: Affine

    def outline(self) -> Trail:
        """The outline as it is seen."""
        return outlined([self.plane.at(*corner) for corner in self.segment.band()])

    def element(self, frame: Frame) -> str:
        return self.outline().element(frame)

    def around(self, frame: Frame) -> Iterable[Step]:
        return self.outline().around(frame)


def uneven(plane: Affine, segments: Segments) -> Iterator[Figure]:
    """The widths of a polyline, segment by segment, and the gaps where two wide ones meet. A segment between two equal points has none to be seen."""
    for one in segments:
        if any(one.widths) and one.is_long():
            yield Tapered(one, plane)
    for at in range(segments.count if segments.closed else segments.count - 1):
        one, after = segments.segment(at), segments.segment((at + 1) % segments.count)
        if at != (at + 1) % segments.count and one.widths[1] and after.widths[0] and one.is_long() and after.is_long():
            for side in (1, -1):
                yield outlined([plane.at(*corner) for corner in (one.end, one.corner(1.0, side), after.corner(0.0, side))])
