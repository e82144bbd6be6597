"""The plane that a drawing is seen in from above: its maps, how other planes are seen in it, arcs in it, and what points extend over."""

from __future__ import annotations

import itertools
import math
from bisect import bisect_left
from functools import cached_property
from typing import Iterable, Iterator, List, NamedTuple, Optional, Tuple, Union

Point = Tuple[float, float]

TURN = 2 * math.pi


class Affine(NamedTuple):
    """A map of the plane, as SVG has it: (x, y) goes to (a x + c y + e, b x + d y + f)."""

    a: float = 1.0
    b: float = 0.0
    c: float = 0.0
    d: float = 1.0
    e: float = 0.0
    f: float = 0.0

    def at(self, x: float, y: float) -> Point:
        """Where a point goes."""
        return self.a * x + self.c * y + self.e, self.b * x + self.d * y + self.f

    def along(self, x: float, y: float) -> Point:
        """Where a direction goes."""
        return self.a * x + self.c * y, self.b * x + self.d * y

    def after(self, first: "Affine") -> "Affine":
        """The map that takes another one first."""
        a, b = self.a * first.a + self.c * first.b, self.b * first.a + self.d * first.b
        c, d = self.a * first.c + self.c * first.d, self.b * first.c + self.d * first.d
        return Affine(a, b, c, d, *self.at(first.e, first.f))

    def moved_to(self, place: Point) -> "Affine":
        """The map with the origin's image at a place."""
        return Affine(self.a, self.b, self.c, self.d, *place)

    def linear(self) -> "Affine":
        """The map that leaves the origin where it is."""
        return self.moved_to((0.0, 0.0))

    def stretch(self) -> float:
        """How many times longer a direction becomes at the most."""
        return (math.hypot(self.a + self.d, self.b - self.c) + math.hypot(self.a - self.d, self.b + self.c)) / 2

    def is_flat(self) -> bool:
        """Whether all goes to one line."""
        return abs(self.a * self.d - self.b * self.c) <= 1e-12 * self.stretch() ** 2

    def steps(self) -> Tuple["Affine", "Affine"]:
        """A linear map in two steps: the first has what changes the shape or the size, the second turns and mirrors."""
        a, b, c, d = self[:4]
        # Rounded, since it is computed a little differently at each turn.
        size = float(f"{math.sqrt(abs(a * d - b * c)):.12g}")
        away = min(abs(a - d) + abs(b + c), abs(a + d) + abs(b - c))
        if not size or away > 1e-9 * size:
            return self, SAME
        return (SAME if size == 1 else Affine(size, 0.0, 0.0, size)), Affine(a / size, b / size, c / size, d / size)

    def attribute(self) -> str:
        """The attribute of an element that it takes."""
        return f' transform="matrix({" ".join(map(plain, self))})"'


SAME = Affine()


def turned(angle: float) -> Affine:
    """A turn to the left."""
    return Affine(math.cos(angle), math.sin(angle), -math.sin(angle), math.cos(angle))


def plain(value: float) -> str:
    """A number as SVG has it."""
    said = f"{value:.9g}"
    return "0" if said == "-0" else said


def pair(point: Point) -> str:
    """A point in a path."""
    return f"{plain(point[0])} {plain(point[1])}"


def unit(direction: Tuple[float, ...]) -> Tuple[float, float, float]:
    """A direction of length 1; upward where there is none."""
    x, y, z = direction
    length = math.hypot(x, y, z)
    return (x / length, y / length, z / length) if length and math.isfinite(length) else (0.0, 0.0, 1.0)


def axes(x: float, y: float, z: float) -> Tuple[Tuple[float, float, float], Tuple[float, float, float]]:
    """The axes of a plane by its normal, which has the length 1, chosen by the rule of the arbitrary axis."""
    # The first axis is Y cross the normal where that is close to Z, else Z cross the normal.
    across = (z, 0.0, -x) if abs(x) < 1 / 64 and abs(y) < 1 / 64 else (-y, x, 0.0)
    size = math.sqrt(sum(part * part for part in across))
    a, b, c = (part / size for part in across)
    return (a, b, c), (y * c - z * b, z * a - x * c, x * b - y * a)


def seen(normal: Tuple[float, ...], elevation: float = 0.0) -> Affine:
    """How a plane with a normal is seen from above: of its axes x and y alone."""
    x, y, z = unit(normal)
    if x == 0 and y == 0 and z > 0:
        return SAME
    first, second = axes(x, y, z)
    return Affine(first[0], first[1], second[0], second[1], x * elevation, y * elevation)


def heights(normal: Tuple[float, ...], elevation: float = 0.0) -> Affine:
    """How high a plane with a normal is at its points: the x that they are brought to, for a y of 0."""
    x, y, z = unit(normal)
    if not (x or y):
        return Affine(0.0, 0.0, 0.0, 0.0, z * elevation, 0.0)
    first, second = axes(x, y, z)
    return Affine(first[2], 0.0, second[2], 0.0, z * elevation, 0.0)


# An ellipse whose minor axis is at most this part of its major one is drawn as a line, and so is an arc whose bulge is at most this.
FLAT = 1e-5


# How many points tell a turn at the most where it is told by points.
MOST_ALONG = 512


class Arc(NamedTuple):
    """A part of an ellipse: at each angle it is at the centre, the cosine times the first axis and the sine times the second.

    The axes may lie aslant to each other. The arc begins at an angle and sweeps over others, for a sweep below 0 to lesser ones.
    """

    centre: Point
    first: Point
    second: Point
    begin: float = 0.0
    sweep: float = TURN

    def at(self, angle: float) -> Point:
        """The point at an angle."""
        (x, y), (a, b), (c, d) = self.centre, self.first, self.second
        cosine, sine = math.cos(angle), math.sin(angle)
        return x + a * cosine + c * sine, y + b * cosine + d * sine

    def under(self, seat: Affine) -> "Arc":
        """Where the arc goes under a map."""
        return Arc(seat.at(*self.centre), seat.along(*self.first), seat.along(*self.second), self.begin, self.sweep)

    def inner(self, angle: float) -> List[float]:
        """Where the arc has an angle or the opposite one, in the order of the angles."""
        low, high = sorted((self.begin, self.begin + self.sweep))
        halves = range(math.ceil((low - angle) / math.pi), math.floor((high - angle) / math.pi) + 1)
        return [angle + half * math.pi for half in halves]

    def around(self) -> List[Point]:
        """Points between whose least and greatest coordinates it lies: of a part its ends, and where it is farthest out on each side."""
        if abs(self.sweep) == TURN:
            (x, y), (a, b), (c, d) = self.centre, self.first, self.second
            across, up = math.hypot(a, c), math.hypot(b, d)
            return [(x - across, y - up), (x + across, y + up)]
        angles = [self.begin, self.begin + self.sweep]
        for first, second in zip(self.first, self.second):
            angles += self.inner(math.atan2(second, first))
        return [self.at(angle) for angle in angles]

    def along(self, height: float) -> Iterator[Point]:
        """Points on it, between which it stands out by no more than a height from the lines that join them."""
        size = math.hypot(*self.first, *self.second)
        step = min(TURN / 4, math.sqrt(8 * height / size)) if size else TURN
        count = math.ceil(min(abs(self.sweep) / max(step, TURN / MOST_ALONG), MOST_ALONG)) or 1
        return (self.at(self.begin + self.sweep * part / count) for part in range(count + 1))

    def radius(self) -> Optional[float]:
        """The radius of a whole circle, and None of any other arc."""
        first, second = math.hypot(*self.first), math.hypot(*self.second)
        aslant = abs(self.first[0] * self.second[0] + self.first[1] * self.second[1])
        is_circle = abs(self.sweep) == TURN and first and abs(first - second) <= 1e-9 * first and aslant <= 1e-9 * first * first
        return first if is_circle else None

    def axes(self) -> Tuple[float, Point, Point]:
        """The angle at which it is farthest from the centre, and the longer and the shorter half axis."""
        (a, b), (c, d) = self.first, self.second
        angle = math.atan2(2 * (a * c + b * d), a * a + b * b - c * c - d * d) / 2
        cosine, sine = math.cos(angle), math.sin(angle)
        return angle, (a * cosine + c * sine, b * cosine + d * sine), (c * cosine - a * sine, d * cosine - b * sine)

    def said(self) -> str:
        """The arc in a path that has come to where it begins; of one that is flat the way to and fro."""
        angle, (a, b), (c, d) = self.axes()
        long, short = math.hypot(a, b), math.hypot(c, d)
        if short <= FLAT * long or abs(self.sweep) <= 4 * FLAT:
            corners = sorted(self.inner(angle), reverse=self.sweep < 0)
            return "".join("L" + pair(self.at(corner)) for corner in [*corners, self.begin + self.sweep])
        tilt = plain(math.degrees(math.atan2(b, a))) if long - short > 1e-9 * long else "0"
        prefix = f"A{plain(long)} {plain(short)} {tilt} 0 {int((a * d - b * c) * self.sweep > 0)} "
        return "".join([prefix + pair(self.at(end)) for end in self.ends()])

    def ends(self) -> List[float]:
        """The ends of parts of at most a third of a turn: the two ends of a longer one don't tell well where its centre is."""
        count = max(1, math.ceil(abs(self.sweep) / (TURN / 3) - 1e-9))
        return [self.begin + self.sweep * part / count for part in range(1, count + 1)]


def circular(centre: Point, radius: float, begin: float = 0.0, sweep: float = TURN) -> Arc:
    """An arc of a circle."""
    return Arc(centre, (radius, 0.0), (0.0, radius), begin, sweep)


class Endless(NamedTuple):
    """A line that begins at a place and never ends, or has no ends at all; straight up and down it is seen as that place."""

    place: Point
    direction: Point
    both_ways: bool

    def cut(self, low: Point, high: Point) -> Optional[Tuple[Point, Point]]:
        """The ends of what lies between two corners of an upright rectangle; None where nothing does."""
        (x, y), (u, v) = self.place, self.direction
        length = math.hypot(u, v)
        if not length:
            return (self.place, self.place) if low[0] <= x <= high[0] and low[1] <= y <= high[1] else None
        u, v = u / length, v / length
        begin, end = (-math.inf if self.both_ways else 0.0), math.inf
        for at, along, least, most in ((x, u, low[0], high[0]), (y, v, low[1], high[1])):
            if along:
                first, last = sorted(((least - at) / along, (most - at) / along))
                begin, end = max(begin, first), min(end, last)
            elif not least <= at <= most:
                return None
        return ((x + u * begin, y + v * begin), (x + u * end, y + v * end)) if begin <= end else None


# What ways are made of: the points that they lead to, and the arcs that they lead along.
Step = Union[Point, Arc]


class Box:
    """The upright rectangle around what is drawn."""

    def __init__(self) -> None:
        self.left = self.low = math.inf
        self.right = self.high = -math.inf

    @property
    def sides(self) -> Tuple[float, float, float, float]:
        """Its left and right side, its lower and its upper one."""
        return self.left, self.right, self.low, self.high

    @sides.setter
    def sides(self, sides: Tuple[float, float, float, float]) -> None:
        self.left, self.right, self.low, self.high = sides

    def add(self, steps: Iterable[Step]) -> None:
        """Takes points and arcs in."""
        left, right, low, high = self.left, self.right, self.low, self.high
        for step in steps:
            for x, y in step.around() if isinstance(step, Arc) else (step,):
                # (there may be millions of points, and most are inside)
                if not left <= x <= right:
                    left, right = min(left, x), max(right, x)
                if not low <= y <= high:
                    low, high = min(low, y), max(high, y)
        self.left, self.right, self.low, self.high = left, right, low, high

    def holds(self, place: Point, reach: float) -> bool:
        """Whether all is inside that is as close to a place."""
        x, y = place
        return self.left <= x - reach and x + reach <= self.right and self.low <= y - reach and y + reach <= self.high

    def meets(self, other: "Box") -> bool:
        """Whether it has a point in common with another."""
        return self.left <= other.right and other.left <= self.right and self.low <= other.high and other.low <= self.high

    def corners(self) -> List[Point]:
        """The lower left corner and the upper right one; none where nothing is drawn."""
        return [(self.left, self.low), (self.right, self.high)] if self.left <= self.right else []

    def size(self) -> float:
        """How far two of its points are apart at the most."""
        return math.hypot(self.right - self.left, self.high - self.low) if self.left <= self.right else 0.0


# --- Outlines --------------------------------------------------------------------------------------------------------


def convex(points: Iterable[Point]) -> List[Point]:
    """The corners of the convex outline of points, to the left around them, from the lowest one at the left side on."""
    ordered = sorted(set(points))
    if len(ordered) < 3:
        return ordered
    return [*half_around(ordered)[:-1], *half_around(ordered[::-1])[:-1]]


def half_around(ordered: List[Point]) -> List[Point]:
    """The corners of the convex outline from the first point to the last, where all others lie between these."""
    found: List[Point] = []
    for x, y in ordered:
        while len(found) > 1:
            (a, b), (c, d) = found[-2:]
            if (c - a) * (y - b) > (d - b) * (x - a):
                break
            found.pop()
        found.append((x, y))
    return found


def without_low(corners: List[Point], height: float) -> List[Point]:
    """The corners of a convex outline without those that stand out by no more than a height from the line between others.

    Corners that are left out stand in the triangle over that line, whose two other sides go along the first and the last edge that it spares.
    """
    if len(corners) < 3:
        return corners
    kept, first = [corners[0]], edge(corners[0], corners[1])
    for corner, after in zip(corners[1:], [*corners[2:], corners[0]]):
        last, across = edge(corner, after), math.dist(kept[-1], after)
        cosine, sine = first[0] * last[0] + first[1] * last[1], first[0] * last[1] - first[1] * last[0]
        if cosine <= 0 or across * sine > 2 * height * (cosine + math.hypot(*first) * math.hypot(*last)):
            kept.append(corner)
            first = last
    return kept


def edge(begin: Point, end: Point) -> Point:
    """The direction from one point to another, as long as that is far."""
    return end[0] - begin[0], end[1] - begin[1]


def summed(one: List[Point], other: List[Point]) -> List[Point]:
    """The convex outline of all sums of a point in each of two convex outlines: their edges, in the order of their directions."""
    if min(len(one), len(other)) < 2:
        return [(x + u, y + v) for x, y in one for u, v in other]
    found, (first, second) = [], ([*angles_of(one), math.inf], [*angles_of(other), math.inf])
    at = beside = 0
    while at < len(one) or beside < len(other):
        (x, y), (u, v) = one[at % len(one)], other[beside % len(other)]
        found.append((x + u, y + v))
        is_first = first[at] <= second[beside]
        at, beside = at + is_first, beside + (not is_first)
    return found


def angles_of(corners: List[Point]) -> List[float]:
    """The angles of the edges of a convex outline, which never become less along it."""
    found: List[float] = []
    for begin, end in zip(corners, [*corners[1:], *corners[:1]]):
        x, y = edge(begin, end)
        angle = math.atan2(y, x)
        # (an edge turns by half a turn at the most, and angles are rounded)
        found.append(angle + TURN if found and angle < found[-1] - math.pi / 2 else angle)
    return found


# Of how many points an outline is taken at once, from how many corners on those that hardly stand out are left out.
POINTS_AT_ONCE, FEW_CORNERS = 1 << 12, 16


class Outline:
    """The convex outline of points, taken once: by it is known what they extend over under any map, however many they are.

    Corners that stand out by no more than a height are left out, so that the outline of a circle has some hundreds.
    """

    def __init__(self, points: Iterable[Point], height: float) -> None:
        corners: List[Point] = []
        rest = iter(points)
        for first in rest:
            corners = convex(itertools.chain(corners, [first], itertools.islice(rest, max(POINTS_AT_ONCE, len(corners)))))
        self.corners = corners if len(corners) <= FEW_CORNERS else without_low(corners, height)
        self._height, self._angles = height, angles_of(self.corners)

    @cached_property
    def fewer(self) -> List[Point]:
        """Fewer corners, of which those are left out that stand out by a hundred times as much."""
        return without_low(self.corners, 100 * self._height)

    def farthest(self, x: float, y: float) -> float:
        """How far it extends along a direction, times the length of that."""
        first = self._angles[0]
        # (the corner where the edges turn to the left beyond the right angle to the direction, and those beside it, as angles are rounded)
        at = bisect_left(self._angles, first + (math.atan2(x, -y) - first) % TURN)
        beside = (self.corners[(at + aside) % len(self.corners)] for aside in (-1, 0, 1))
        return max(u * x + v * y for u, v in beside)

    def under(self, seat: Affine) -> List[Point]:
        """The corners of the upright rectangle around it under a map; none where there are no points."""
        if not self.corners:
            return []
        (a, b, c, d, x, y), far = seat, self.farthest
        return [(x - far(-a, -c), y - far(-b, -d)), (x + far(a, c), y + far(b, d))]
