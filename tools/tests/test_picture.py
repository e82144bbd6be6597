"""dwg-picture: the SVG is read back by a small reader of its own, and where its elements lie is compared with what geometry says."""

from __future__ import annotations

import contextlib
import io
import math
import os
import pathlib
import random
import re
import resource
import shutil
import struct
import subprocess
import tracemalloc
import types
import unittest
import unittest.mock
import xml.etree.ElementTree as ElementTree
import zlib
from dataclasses import dataclass
from typing import Any, Callable, Dict, Iterator, List, Sequence, Tuple

import common
import spelled
import test_limits
from made import PROGRAM, TOOLS, dwg, made, needs_program, program_that, shown, tool

from dwgtools import lettering, parts, plane, shapes
from dwgtools.drawings import Drawing
from dwgtools.encodings import CODE_PAGES
from dwgtools.painter import Page, Painter
from dwgtools.patterns import Patterns
from dwgtools.picture import paint
from dwgtools.pieces import objects_in
from dwgtools.program import Program
from dwgtools.show import Lists, read_objects, read_prefix
from dwgtools.statuses import ToolError
from dwgtools.values import BadText, read_value
from dwgtools.window import corners_of, head, window_of

needs_program()


SVG = "{http://www.w3.org/2000/svg}"
LINK = "{http://www.w3.org/1999/xlink}href"
Point = Tuple[float, float]
Matrix = Tuple[float, float, float, float, float, float]


def times(outer: Matrix, inner: Matrix) -> Matrix:
    """The map that takes the inner one first."""
    a, b, c, d, e, f = outer
    return (
        a * inner[0] + c * inner[1], b * inner[0] + d * inner[1], a * inner[2] + c * inner[3], b * inner[2] + d * inner[3],
        a * inner[4] + c * inner[5] + e, b * inner[4] + d * inner[5] + f,
    )  # fmt: skip


def at(matrix: Matrix, x: float, y: float) -> Point:
    """Where a point goes."""
    return matrix[0] * x + matrix[2] * y + matrix[4], matrix[1] * x + matrix[3] * y + matrix[5]


def matrix_of(element: ElementTree.Element) -> Matrix:
    """The map of an element's attributes."""
    if element.tag == SVG + "use" and element.get("x"):
        return 1, 0, 0, 1, float(element.get("x", "")), float(element.get("y", ""))
    said = element.get("transform", "matrix(1 0 0 1 0 0)")
    name, numbers = said.rstrip(")").split("(")
    values = tuple(map(float, numbers.split()))
    if name == "scale":
        return values[0], 0, 0, values[1], 0, 0
    return values  # type: ignore[return-value]


def arc_points(begin: Point, radii: Point, tilt: float, large: bool, left: bool, end: Point) -> List[Point]:
    """Points along an arc of a path, by the rules of SVG: of the two ellipses with these radii the one that the flags say."""
    cosine, sine = math.cos(math.radians(tilt)), math.sin(math.radians(tilt))
    # Where the ellipse is a circle of radius 1.
    (x, y), (u, v) = (((cosine * p + sine * q) / radii[0], (cosine * q - sine * p) / radii[1]) for p, q in (begin, end))
    half = math.hypot(u - x, v - y) / 2
    grown = max(1.0, half)
    toward = math.atan2(v - y, u - x)
    away = math.sqrt(grown * grown - half * half) * (1 if left != large else -1)
    centre = (x + u) / 2 - away * math.sin(toward), (y + v) / 2 + away * math.cos(toward)
    first, last = (math.atan2(q - centre[1], p - centre[0]) for p, q in ((x, y), (u, v)))
    sweep = (last - first) % (2 * math.pi) if left else -((first - last) % (2 * math.pi))
    angles = [first + sweep * k / 8 for k in range(9)]
    flat = [((centre[0] + grown * math.cos(angle)) * radii[0], (centre[1] + grown * math.sin(angle)) * radii[1]) for angle in angles]
    return [(cosine * p - sine * q, sine * p + cosine * q) for p, q in flat]


def path_points(path: str) -> List[Point]:
    """Points along a path: its corners, and eight parts of each arc."""
    found: List[Point] = []
    for letter, numbers in re.findall(r"([MLAhz])([^MLAhz]*)", path):
        values = [float(one) for one in numbers.split()]
        if letter in "ML":
            found.append((values[0], values[1]))
        elif letter == "A":
            x, y, tilt, large, left, *end = values
            found += arc_points(found[-1], (x, y), tilt, bool(large), bool(left), (end[0], end[1]))[1:]
        elif letter == "z":
            found.append(found[0])
    return found


def thirds(points: Sequence[Point]) -> List[Point]:
    """The begin, the middle and the end of an arc."""
    return [points[0], points[(len(points) - 1) // 2], points[-1]]


@dataclass
class Seen:
    """An element as it is seen: points along it with y upward, its colour, its width in pixels, whether it is filled, its text, the map of a
    letter of size 1 where it is a text, and its own attributes."""

    name: str
    points: List[Point]
    colour: str
    width: float
    filled: bool
    text: str
    matrix: Matrix
    element: ElementTree.Element


STYLED = ("color", "stroke", "stroke-width", "fill", "font-size")


class Picture:
    """A picture, read back."""

    def __init__(self, svg: bytes) -> None:
        self.svg = svg
        self.root = ElementTree.fromstring(svg)
        self.named: Dict[str, ElementTree.Element] = {one.get("id", ""): one for one in self.root.iter() if one.get("id")}
        self.box = tuple(map(float, self.root.get("viewBox", "").split()))
        self.unit = self.box[2] / float(self.root.get("width", "1"))
        sheet = self.root.findtext(SVG + "style", "")
        self.classes = {name: said for name, said in re.findall(r"\.(\w+){stroke-width:([^}]*)}", sheet)}
        self.seen = list(self.walk(self.root, (1, 0, 0, -1, 0, 0), {}))

    def in_drawing(self, points: Sequence[Point]) -> List[Point]:
        """Where points of the picture, with y upward, are in the drawing, as the picture says it."""
        x, y = map(float, self.root.get("data-origin", "").split())
        return [(x + u, y + v) for u, v in points]

    def of_pixel(self, across: float, down: float) -> Point:
        """Where a place is in the drawing that is so many pixels from the middle of the picture."""
        (x, y, wide, tall), scale = self.box, float(self.root.get("data-scale", ""))
        return self.in_drawing([(x + wide / 2 + scale * across, -(y + tall / 2 + scale * down))])[0]

    def walk(self, element: ElementTree.Element, outer: Matrix, style: Dict[str, str]) -> Iterator[Seen]:
        """All that is seen of an element."""
        if element.tag in (SVG + "defs", SVG + "style", SVG + "rect"):
            return
        matrix = times(outer, matrix_of(element))
        own = {name: element.get(name, "") for name in STYLED if element.get(name)}
        if element.get("class") in self.classes:
            own["stroke-width"] = self.classes[element.get("class", "")]
        style = {**style, **own}
        if element.tag == SVG + "use":
            yield from self.walk(self.named[element.get(LINK, "#")[1:]], matrix, style)
        elif element.tag in (SVG + "g", SVG + "svg"):
            for child in element:
                yield from self.walk(child, matrix, style)
        else:
            yield self.shape(element, matrix, style)

    def shape(self, element: ElementTree.Element, matrix: Matrix, style: Dict[str, str]) -> Seen:
        """One shape."""
        name = element.tag[len(SVG) :]
        if name == "path":
            points = path_points(element.get("d", ""))
        elif name == "circle":
            x, y, radius = (float(element.get(part, "0")) for part in ("cx", "cy", "r"))
            points = [(x + radius * math.cos(k * math.pi / 4), y + radius * math.sin(k * math.pi / 4)) for k in range(9)]
        else:
            points, size = [(0.0, 0.0)], float(style["font-size"])
            matrix = times(matrix, (size, 0, 0, size, 0, 0))
        filled = style.get("stroke") == "none"
        colour = style["fill"] if filled else style["stroke"]
        width = float(style["stroke-width"]) / self.unit
        seen = style["color"] if colour == "currentColor" else colour
        return Seen(name, [at(matrix, *one) for one in points], seen, width, filled, element.text or "", matrix, element)

    def drawn(self) -> List[float]:
        """The least x and y and the greatest, of what the view box has within its margin."""
        x, y, wide, tall = self.box
        margin = max(wide, tall) * 0.02 / 1.04
        return [x + margin, -y - tall + margin, x + wide - margin, -y - margin]


def pixels_of(png: bytes) -> List[List[Tuple[int, ...]]]:
    """The rows of pixels of a picture of eight bits a colour, without interlacing."""
    place, data, wide, tall, depth, size = 8, b"", 0, 0, 0, 0
    while place < len(png):
        length, kind = int.from_bytes(png[place : place + 4], "big"), png[place + 4 : place + 8]
        if kind == b"IHDR":
            wide, tall, depth, colours = struct.unpack(">IIBB", png[place + 8 : place + 18])
            assert depth == 8
            size = {2: 3, 6: 4}[colours]
        elif kind == b"IDAT":
            data += png[place + 8 : place + 8 + length]
        place += 12 + length
    raw, rows, before = zlib.decompress(data), [], bytes(wide * size)
    for row in range(tall):
        begin = row * (wide * size + 1)
        before = unfiltered(raw[begin], raw[begin + 1 : begin + 1 + wide * size], before, size)
        rows.append([tuple(before[at : at + 3]) for at in range(0, wide * size, size)])
    return rows


def unfiltered(kind: int, line: bytes, above: bytes, size: int) -> bytes:
    """A row of a PNG without its filter."""
    out = bytearray(line)
    for at, value in enumerate(line):
        left, up, corner = out[at - size] if at >= size else 0, above[at], above[at - size] if at >= size else 0
        if kind == 4:
            near = min((abs(up - corner), 0, left), (abs(left - corner), 1, up), (abs(left + up - 2 * corner), 2, corner))
            out[at] = value + near[2] & 255
        else:
            out[at] = value + (0, left, up, (left + up) // 2)[kind] & 255
    return bytes(out)


def in_plane(normal: spelled.Up, x: float, y: float, z: float) -> Point:
    """Where a point of a plane is seen from above, in three coordinates by the rule of the arbitrary axis."""
    unit = lambda one: tuple(part / math.sqrt(sum(part * part for part in one)) for part in one)
    cross = lambda one, other: tuple(one[p] * other[q] - one[q] * other[p] for p, q in ((1, 2), (2, 0), (0, 1)))
    up = unit(normal)
    right = unit(cross((0, 1, 0) if abs(up[0]) < 1 / 64 and abs(up[1]) < 1 / 64 else (0, 0, 1), up))
    forward = cross(up, right)
    return x * right[0] + y * forward[0] + z * up[0], x * right[1] + y * forward[1] + z * up[1]


RSVG = shutil.which("rsvg-convert")
BROWSER = next(filter(None, map(shutil.which, ("chromium", "chromium-browser", "google-chrome"))), None)


def counting(owner: Any, name: str) -> Any:
    """Counts the calls of a method."""
    return unittest.mock.patch.object(owner, name, autospec=True, side_effect=getattr(owner, name))


class Pictures(common.InFolder):
    """What dwg-picture draws."""

    def picture(self, one: spelled.Drawing, *words: str) -> Picture:
        """The picture of a spelled drawing, of which nothing is left out."""
        answer = tool("dwg-picture", *words, given=one.file())
        self.assertEqual((answer.returncode, answer.stderr), (0, b""))
        return Picture(answer.stdout)

    def near(self, found: Sequence[Point], expected: Sequence[Point], about: float = 1e-6) -> None:
        """That points are those expected."""
        self.assertEqual(len(found), len(expected), (found, expected))
        for one, other in zip(found, expected):
            self.assertLess(math.hypot(one[0] - other[0], one[1] - other[1]), about, (found, expected))

    def test_line_and_point(self) -> None:
        one = spelled.Drawing()
        one.line((0, 0, 5), (3, 4, -2))
        one.line((-1, 7, 0), (2, -3, 0), normal=spelled.DOWN)
        one.point((2, 1, 9))
        line, down, dot = self.picture(one).seen
        # The middle, from which coordinates count, is the median of the places: (0, 1) of (0, 0), (-1, 7) and (2, 1).
        self.near(line.points, [(0, -1), (3, 3)])
        self.near(down.points, [(-1, 6), (2, -4)])
        self.near(dot.points, [(2, 0)])

    def test_far_away(self) -> None:
        one = spelled.Drawing()
        one.line((4500000.125, 5300000.25, 0), (4500001.25, 5300002.5, 0))
        one.circle((-4500000.0625, 5300000.5, 0), 0.5, normal=spelled.DOWN)
        one.point((4500000.125, 5300000.25, 0))
        line, circle, _ = self.picture(one).seen
        self.near(line.points, [(0, 0), (1.125, 2.25)], 1e-9)
        self.near([circle.points[0], circle.points[4]], [(0.4375, 0.25), (-0.5625, 0.25)], 1e-9)
        numbers = re.findall(r"-?\d+\.?\d*", " ".join([line.element.get("d", ""), circle.element.get("cx", ""), circle.element.get("cy", "")]))
        self.assertTrue(all(abs(float(number)) < 10 for number in numbers), numbers)

    def test_circle_and_arc(self) -> None:
        one = spelled.Drawing()
        one.point((0, 0, 0))
        one.circle((0, 0, 0), 2)
        one.arc((0, 0, 0), 2, 0, math.pi / 2)
        one.arc((0, 0, 0), 2, math.pi / 2, 0)
        one.arc((0, 0, 0), 2, math.pi * 1.75, math.pi * 2.25)
        one.arc((3, 0, 0), 2, 0, math.pi / 2, normal=spelled.DOWN)
        _, circle, quarter, rest, right, mirrored = self.picture(one).seen
        self.near(circle.points[:3:2], [(2, 0), (0, 2)])
        root = math.sqrt(2)
        self.near(thirds(quarter.points), [(2, 0), (root, root), (0, 2)])
        self.near(thirds(rest.points), [(0, 2), (-root, -root), (2, 0)])
        self.near(thirds(right.points), [(root, -root), (2, 0), (root, root)])
        # Seen from below: x is turned round, so that the arc goes from the left to the top.
        self.near(thirds(mirrored.points), [(-5, 0), (-3 - root, root), (-3, 2)])

    def test_projection(self) -> None:
        one = spelled.Drawing()
        one.circle((1, 2, 3), 5, normal=(1.0, 0.0, 0.0))
        one.circle((0, 0, 10), 5, normal=(0.0, math.sin(1), math.cos(1)))
        one.point((0, 0, 0))
        standing, tilted, _ = self.picture(one).seen
        # In the plane of normal X the axes are Y and Z, and the elevation goes along X: the circle is a line at x = 3.
        self.assertEqual({round(x, 6) for x, _ in standing.points}, {3})
        self.assertEqual([round(limit(y for _, y in standing.points), 6) for limit in (min, max)], [-4, 6])
        # Z cross (0, s, c) is -X, and the other axis is (0, -c, s).
        sine, cosine = math.sin(1), math.cos(1)
        self.near(tilted.points[::6], [(-5, 10 * sine), (0, 10 * sine - 5 * cosine), (5, 10 * sine), (0, 10 * sine + 5 * cosine), (-5, 10 * sine)])

    def test_ellipses(self) -> None:
        one = spelled.Drawing()
        one.point((0, 0, 0))
        one.ellipse((0, 0, 0), (2, 0, 0), 0.5, 0, 2 * math.pi)
        one.ellipse((0, 0, 3), (0, 3, 0), 1 / 3, 0, math.pi / 2)
        one.ellipse((5, 1, 0), (2, 0, 0), 0.5, 1.5 * math.pi, 0.5 * math.pi)
        one.ellipse((0, 0, 0), (2, 0, 0), 0.5, 0, math.pi / 2, normal=(0.0, 0.0, -2.0))
        one.ellipse((0, 0, 9), (2, 0, 0), 0.5, 0, math.pi, normal=(0.0, math.sin(1), math.cos(1)))
        _, whole, quarter, right, mirrored, tilted = self.picture(one).seen
        self.near(whole.points[::6], [(2, 0), (0, 1), (-2, 0), (0, -1), (2, 0)])
        # The other axis is a quarter to the left, (-1, 0). The angle of an eighth is at a third and not at the half of what a circle would have.
        root = math.sqrt(0.5)
        self.near(thirds(quarter.points), [(0, 3), (-root, 3 * root), (-1, 0)])
        self.near(thirds(right.points), [(5, 0), (7, 1), (5, 2)])
        self.near(thirds(mirrored.points), [(2, 0), (2 * root, -root), (0, -1)])
        # The normal (0, s, c) cross (2, 0, 0) is (0, 2 c, -2 s).
        self.near(thirds(tilted.points), [(2, 0), (0, math.cos(1)), (-2, 0)])

    def test_extent_of_an_ellipse(self) -> None:
        one = spelled.Drawing()
        # A circle, whose axes lie aslant. Its angles differ by a whole turn and a little more, as numbers are rounded.
        one.ellipse((4, 4, 0), (2, 2, 0), 1.0, 1.8, 1.8 + 2 * math.pi)
        x, y, wide, tall = self.picture(one).box
        radius = 2 * math.sqrt(2)
        for found, value in zip((x, y, wide, tall), (-1.04 * radius, -1.04 * radius, 2.08 * radius, 2.08 * radius)):
            self.assertAlmostEqual(found, value, delta=0.03)

    def curves(self, normal: spelled.Up) -> Dict[str, Tuple[Callable[..., object], List[Point]]]:
        """Curves in a plane, by a name: what spells them, and many points of them as they are seen."""
        around = lambda begin, end: [(math.cos(begin + (end - begin) * k / 5000), math.sin(begin + (end - begin) * k / 5000)) for k in range(5001)]
        # A bulge of 1 is half a turn; it lies to the right of the way, here around (2, 0).
        half = lambda radius: [(2 + radius * x, radius * y, 0) for x, y in around(-math.pi, 0)]
        cases = {
            "circle": (lambda one, **where: one.circle((1, 2, 3), 5, normal, **where), [(1 + 5 * x, 2 + 5 * y, 3) for x, y in around(0, 2 * math.pi)]),
            "arc": (lambda one, **where: one.arc((0, 0, 0), 5, 0.3, 2.9, normal, **where), [(5 * x, 5 * y, 0) for x, y in around(0.3, 2.9)]),
            "bulge": (lambda one, **where: one.polyline([(0, 0), (4, 0)], [1, 0], normal=normal, **where), half(2)),
            "width": (lambda one, **where: one.polyline([(0, 0), (4, 0)], [1, 0], width=1, normal=normal, **where), half(1.5) + half(2.5) if normal[2] else half(2)),
        }  # fmt: skip
        return {name: (put, [in_plane(normal, *at) for at in points]) for name, (put, points) in cases.items()}

    def test_tilted_curves_within_the_frame(self) -> None:
        for normal in ((1.0, 1.0, 1.0), (0.3, -0.9, -0.2), (1.0, 0.0, 0.0)):
            for name, (put, points) in self.curves(normal).items():
                # A width isn't seen from the side.
                if name != "width" or normal[2]:
                    with self.subTest(name, normal=normal):
                        self.is_framed(put, points)
        sine, cosine = math.sin(0.7), math.cos(0.7)
        for name, (put, points) in self.curves((1.0, 1.0, 1.0)).items():
            with self.subTest(name, inserted=True):
                self.is_framed(lambda one: self.turned_block(one, put, 0.7), [(cosine * x - sine * y, sine * x + cosine * y) for x, y in points])

    def turned_block(self, one: spelled.Drawing, put: Callable[..., object], angle: float) -> None:
        """A block with one entity, which another block inserts turned, and that twice as large and mirrored, whose insert undoes both."""
        one.block(0x30, b"INNER")
        one.block(0x31, b"OUTER")
        put(one, owner=0x30)
        one.insert(0x30, (0, 0, 0), (-2, 2, 1), -angle, owner=0x31)
        one.insert(0x31, (0, 0, 0), (-0.5, 0.5, 1))

    def is_framed(self, put: Callable[[spelled.Drawing], object], points: Sequence[Point]) -> None:
        """That the view is no larger and no smaller than what is drawn, with three dots at the origin, from which coordinates count."""
        one = spelled.Drawing()
        for _ in range(3):
            one.point((0, 0, 0))
        put(one)
        picture = self.picture(one)
        xs, ys = [0.0, *(x for x, _ in points)], [0.0, *(y for _, y in points)]
        size = max(max(xs) - min(xs), max(ys) - min(ys))
        low = max(size / 20 - (max(ys) - min(ys)), 0) / 2, max(size / 20 - (max(xs) - min(xs)), 0) / 2
        expected = [min(xs) - low[1], min(ys) - low[0], max(xs) + low[1], max(ys) + low[0]]
        for found, value in zip(picture.drawn(), expected):
            self.assertAlmostEqual(found, value, delta=1e-4 * size)

    def test_copies_by_many_turns_take_as_many_steps_as_vertices_and_copies(self) -> None:
        """The vertices of a block aren't gone through again for each turn that it is inserted by, in a block or in the picture."""
        tapered = lambda one, count: one.polyline([(k % 7, k % 5) for k in range(count)], [1.0] * count, [(1.0, 0.0)] * count, owner=0x30)
        thin = lambda one, count: one.polyline([(k % 7, k % 5) for k in range(count)], owner=0x30)
        for put, count in ((thin, 1000), (tapered, 5)):
            for outer in (0, 0x31):
                steps = []
                for copies in (1, 100):
                    one = spelled.Drawing()
                    one.block(0x30, b"INNER")
                    one.block(0x31, b"OUTER")
                    put(one, count)
                    for turn in range(copies):
                        one.insert(0x30, (turn * 100, 0, 0), rotation=turn / 1000, owner=outer)
                    if outer:
                        one.insert(outer, (0, 0, 0))
                    with unittest.mock.patch.object(shapes.Frame, "put", autospec=True, side_effect=shapes.Frame.put) as putting:
                        self.painted(one)
                    steps.append(putting.call_count)
                self.assertLess(steps[1], steps[0] + 100 * 20, (put, outer))

    def test_outlines_are_those_of_all_points(self) -> None:
        """What an outline extends over under a map is what its points and arcs do, within a ten-thousandth."""
        chance = random.Random(11)
        some = lambda: (chance.gauss(0, 1), chance.gauss(0, 3))
        on_grid = [(float(x), float(y)) for x in range(5) for y in range(5)]
        cases: List[List[Any]] = [[], [(1.0, 2.0)], [(0.0, 0.0), (0.0, 5.0)], [(3.0, 0.0), (0.0, 0.0), (1.0, 0.0)], on_grid]
        cases += [[some() for _ in range(9000)], [plane.circular(some(), 2.0)], [plane.circular((0.0, 0.0), 1.0, k, 1.0) for k in range(3)]]
        cases.append([plane.Arc(some(), some(), some(), 1.0, -2.0)])
        for steps in cases:
            exact = plane.Box()
            exact.add(steps)
            points = [point for step in steps for point in (step.along(1e-6) if isinstance(step, plane.Arc) else [step])]
            outline = plane.Outline(points, 1e-5 * exact.size())
            self.assertLess(len(outline.corners), 1000)
            for turn in range(40):
                linear = plane.turned(turn * math.pi / 20).after(plane.Affine(turn % 3 - 1.0, chance.random(), 0.0, 1.0))
                box = plane.Box()
                box.add(step.under(linear) if isinstance(step, plane.Arc) else linear.at(*step) for step in steps)
                self.near(outline.under(linear), box.corners(), 1e-4 * (exact.size() + 1e-9))

    def test_outlines_of_sums(self) -> None:
        chance = random.Random(12)
        for count, others in ((1, 1), (1, 5), (2, 2), (2, 9), (9, 2), (30, 30)):
            for is_flat in (False, True):
                one, other = ([(chance.random(), 0.0 if is_flat else chance.random()) for _ in range(many)] for many in (count, others))
                found = plane.convex(plane.summed(plane.convex(one), plane.convex(other)))
                expected = plane.convex((x + u, y + v) for x, y in one for u, v in other)
                for angle in range(20):
                    far = lambda points: max(x * math.cos(angle) + y * math.sin(angle) for x, y in points)
                    self.assertAlmostEqual(far(found), far(expected), delta=1e-12)

    def test_blocks_in_rows_within_the_frame(self) -> None:
        """Copies that stand in a grid, in a block that is turned, are within the view, and no more is."""
        angle = 0.3
        sine, cosine = math.sin(angle), math.cos(angle)

        def put(one: spelled.Drawing) -> None:
            one.block(0x30, b"INNER")
            one.block(0x31, b"OUTER")
            one.circle((0, 0, 0), 3, owner=0x30)
            one.polyline([(9 * math.cos(k), 9 * math.sin(k) / 3) for k in range(900)], owner=0x30)
            one.minsert(0x30, (5, 0, 0), (4, 3), (20.0, 10.0), rotation=0.7, owner=0x31)
            one.insert(0x31, (0, 0, 0), rotation=angle)

        across, up = (20 * math.cos(0.7), 20 * math.sin(0.7)), (-10 * math.sin(0.7), 10 * math.cos(0.7))
        points = [
            (5 + column * across[0] + row * up[0] + x * math.cos(0.7) - y * math.sin(0.7), column * across[1] + row * up[1] + x * math.sin(0.7) + y * math.cos(0.7))
            for column in range(4) for row in range(3)
            for x, y in [(9 * math.cos(k), 9 * math.sin(k) / 3) for k in range(900)] + [(3 * math.cos(k / 100), 3 * math.sin(k / 100)) for k in range(629)]
        ]  # fmt: skip
        self.is_framed(put, [(cosine * x - sine * y, sine * x + cosine * y) for x, y in points])

    def test_arcs_that_reach_farther_than_their_ends_within_the_frame(self) -> None:
        """An arc of a block whose farthest point is neither an end nor one of its outermost: it is in the view, whichever way it is turned."""
        arc = [(8 + 5 * math.cos(k / 1000), 8 + 5 * math.sin(k / 1000), 0.0) for k in range(1571)]

        def put(one: spelled.Drawing) -> None:
            one.block(0x30, b"B")
            one.point((0, 0, 0), owner=0x30)
            one.arc((8, 8, 0), 5, 0, math.pi / 2, owner=0x30)
            # (what is in the view before: as much as the ends of the arc are away)
            one.circle((0, 0, 0), math.hypot(13, 8))
            one.insert(0x30, (0, 0, 0), rotation=math.pi / 4)

        half = math.sqrt(0.5)
        around = [(math.hypot(13, 8) * math.cos(k / 100), math.hypot(13, 8) * math.sin(k / 100)) for k in range(629)]
        self.is_framed(put, around + [(half * (x - y), half * (x + y)) for x, y, _ in arc])

    def test_nothing_is_framed_that_is_not_seen_aslant(self) -> None:
        """Texts and widths of a block that a map brings to one line widen no picture, as they aren't drawn."""
        one = spelled.Drawing()
        one.block(0x30, b"B")
        one.line((0, 0, 0), (1, 0, 0), owner=0x30)
        one.polyline([(0, 0), (1, 0)], width=50, owner=0x30)
        one.text(b"much longer than the line is", (0, 0), 5.0, owner=0x30)
        one.insert(0x30, (0, 0, 0), (1, 0, 1), 0.5)
        one.insert(0x30, (0, 0, 0), (0, 1, 1), 0.5)
        # (the line is one along its direction, and a point where that is lost)
        self.near([self.picture(one).drawn()[2:]], [(math.cos(0.5), math.sin(0.5))], 1e-6)  # type: ignore[list-item]

    def test_corners_of_wide_polylines_within_the_frame(self) -> None:
        # The corner of a right angle is as far out as the half width, on both axes; a sharper one is cut off.
        self.is_framed(lambda one: one.polyline([(-4, 0), (0, 0), (0, -4)], width=2), [(-4, -1), (1, 1), (1, -4)])
        self.is_framed(lambda one: one.polyline([(-4, 0), (0, 0), (0, 4)], width=2), [(-4, -1), (1, -1), (1, 4)])
        self.is_framed(lambda one: one.polyline([(0, 0), (4, 0), (4, 4), (0, 4)], width=2, closed=True), [(-1, -1), (5, 5)])
        self.is_framed(lambda one: one.polyline([(-4, 0), (0, 0), (-4, 0.1)], width=2), [(-4.025, -1), (0.025, 1.1)])

    def test_seen_from_the_side(self) -> None:
        one = spelled.Drawing()
        one.polyline([(0, 0), (4, 0)], width=2, normal=(1.0, 0.0, 0.0))
        one.text(b"text", (9, 9), 5, {"normal": (1.0, 0.0, 0.0)})
        one.circle((0, 1, 0), 3, normal=(0.0, 1.0, 0.0))
        one.point((0, 0, 0))
        picture = self.picture(one)
        # A text and a width aren't seen, nor do they widen the view; a circle is a line.
        self.assertEqual([found.name for found in picture.seen], ["path", "path", "path"])
        for found, value in zip(picture.drawn(), (-3, 0, 3, 4)):
            self.assertAlmostEqual(found, value, delta=1e-6)
        self.assertEqual(sorted({(round(x, 6), round(y, 6) + 0.0) for x, y in picture.seen[1].points}), [(-3, 0), (3, 0)])

    def test_lines_as_wide_without_vector_effect(self) -> None:
        one = spelled.Drawing()
        one.block(0x30, b"INNER")
        one.block(0x31, b"OUTER")
        one.circle((0, 0, 0), 2, owner=0x30, weight=23)
        one.line((0, 0, 0), (2, 0, 0), owner=0x30, weight=30)
        one.polyline([(0, 0), (2, 0)], [1, 0], owner=0x30, layer=one.WALLS, weight=16)
        one.insert(0x30, (1, 0, 0), (3, 3, 1), 1.0, owner=0x31, weight=30)
        one.insert(0x30, (1, 0, 0), (3, 0.5, 1), 1.0, owner=0x31, weight=30)
        one.insert(0x31, (0, 0, 0), (-7, 7, 1), 0.5, weight=20)
        one.circle((0, 0, 0), 5, normal=(1.0, 1.0, 1.0), weight=18)
        picture = self.picture(one)
        for found in picture.seen:
            # Turned and mirrored alone, so that no line becomes wider, and nowhere wider than elsewhere.
            a, b, c, d, *_ = found.matrix
            self.assertLess(abs(a * a + b * b - 1) + abs(c * c + d * d - 1) + abs(a * c + b * d), 1e-6)
            self.assertIsNone(found.element.get("transform"))
        width = lambda millimetres: round(millimetres * 96 / 25.4, 2)
        self.assertEqual([round(found.width, 2) for found in picture.seen], [*map(width, (2.11, 1.4, 0.9)), *map(width, (2.11, 1.4, 0.9)), width(1.06)])
        self.assertNotIn(b"vector-effect", picture.svg)
        self.assertEqual([found.name for found in picture.seen], ["circle", "path", "path", "path", "path", "path", "path"])

    def test_as_librsvg_shows_it(self) -> None:
        if not RSVG:
            self.skipTest("pictures by librsvg, as rsvg-convert isn't installed")
        one, png = self.shown_elsewhere(), self.folder / "a.png"
        svg = tool("dwg-picture", "--width", "312", given=one.file()).stdout
        subprocess.run([RSVG, "-o", str(png)], input=svg, timeout=100, check=True)
        self.looks_right(pixels_of(png.read_bytes()))

    def test_as_a_browser_shows_it(self) -> None:
        if not BROWSER:
            self.skipTest("pictures in a browser, as chromium isn't installed")
        svg = self.file("a.svg", tool("dwg-picture", "--width", "312", given=self.shown_elsewhere().file()).stdout)
        self.looks_right(self.shot(svg))

    def shown_elsewhere(self) -> spelled.Drawing:
        """A field of nine squares of ten units: what programs that show SVG tell apart that don't know all of it."""
        one = spelled.Drawing()
        for corner in ((0, 0, 0), (30, 30, 0)):
            one.point(corner)
        one.block(0x30, b"INNER")
        one.circle((0, 0, 0), 2, owner=0x30)
        one.solid([(-1, -1), (1, -1), (-1, 1), (1, 1)], owner=0x30, colour=0)
        one.block(0x31, b"OUTER")
        one.insert(0x30, (0, 0, 0), (0.5, 0.5, 1), 1.0, owner=0x31, colour=0)
        # Rings, whose middles aren't filled: a tilted one of eight pixels, whose plane has its axes to the left and downward, one in a block
        # within a block, and one of unequal scales.
        one.circle((-5, -5 / math.cos(1), 0), 4, normal=(0.0, math.sin(1), math.cos(1)), colour=1, weight=23)
        one.insert(0x31, (25, 5, 0), (4, 4, 1), 0.3, colour=5, layer=one.WALLS)
        one.insert(0x30, (15, 5, 0), (2, 1, 1), colour=3)
        # A line of eight pixels, two of one, and a polyline of three units.
        one.line((0, 15, 0), (10, 15, 0), weight=23)
        one.line((10, 15, 0), (20, 15, 0))
        one.insert(self.line_in_a_block(one), (20, 15, 0), (1000, 0.001, 1))
        one.polyline([(0, 25), (10, 25)], width=3, colour=4)
        return one

    def line_in_a_block(self, one: spelled.Drawing) -> int:
        """A block with a line that is a hundredth of a unit long."""
        one.block(0x32, b"LINE")
        one.line((0, 0, 0), (0.01, 0, 0), owner=0x32)
        return 0x32

    def looks_right(self, rows: List[List[Tuple[int, ...]]]) -> None:
        """Whether a picture of 312 pixels, ten a unit and 0.6 units around, shows what it should."""
        white, red, green, blue = (255, 255, 255), (255, 0, 0), (0, 255, 0), (0, 0, 255)
        found = lambda right, up: rows[round(312 - 10 * (up + 0.6))][round(10 * (right + 0.6))]
        dark = lambda right, up: sum(255 - sum(rows[y][round(10 * (right + 0.6))]) / 3 for y in range(round(312 - 10 * (up + 1.6)), round(312 - 10 * (up - 0.4)))) / 255
        places = {
            (5, 5): white, (1, 5): red, (5, 5 + 4 * math.cos(1)): red, (5, 5 + 3 * math.cos(1)): white, (25, 5): blue, (25, 7.9): white,
            (15, 5): green, (15, 6.5): white, (5, 25): (0, 255, 255), (5, 26.3): (0, 255, 255), (5, 26.7): white,
        }  # fmt: skip
        self.assertEqual({place: found(*place) for place in places}, places)
        # How much ink a line has across, in pixels, wherever it stands between them.
        for right, width in ((5, 7.97), (15, 1.0), (25, 1.0)):
            self.assertAlmostEqual(dark(right, 15), width, delta=0.1)
        # The ring of the block in a block is 4 units wide, its line one pixel, and red, as the layer is.
        self.assertAlmostEqual(sum(255 - rows[round(312 - 56)][x][1] for x in range(round(10 * 28.6), round(10 * 30.6))) / 255, 1.0, delta=0.1)

    def test_endless(self) -> None:
        one = spelled.Drawing()
        for corner in ((0, 0, 0), (10, 0, 0), (0, 10, 0), (10, 10, 0)):
            one.point(corner)
        one.ray((5, 5, 1), (1, 0, 7))
        one.ray((5, 5, 0), (-2e9, 1e9, 0), colour=1)
        one.ray((5, 5, 0), (0, 0, 1))
        one.xline((5, 5, 0), (0, -1e-9, 0))
        one.xline((5, 5, 0), (1, 1, 0))
        picture = self.picture(one)
        # Ten units, of which the middle is (5, 5), and two parts of a hundred around: only their places count for what the picture shows.
        for found, value in zip(picture.box, (-5.2, -5.2, 10.4, 10.4)):
            self.assertAlmostEqual(found, value)
        right, left, dot, down, aslant, *points = picture.seen
        self.near(right.points, [(0, 0), (5.2, 0)])
        self.near(left.points, [(0, 0), (-5.2, 2.6)])
        self.assertEqual((left.colour, down.colour), ("#ff0000", "#000000"))
        self.near(dot.points, [(0, 0), (0, 0)])
        self.near(down.points, [(0, 5.2), (0, -5.2)])
        self.near(aslant.points, [(-5.2, -5.2), (5.2, 5.2)])
        self.assertEqual([found.element.get("class") for found in points], ["dot"] * 4)

    def test_endless_in_a_block(self) -> None:
        one = spelled.Drawing()
        one.block(0x30, b"B")
        one.xline((0, 0, 0), (1, 0, 0), owner=0x30)
        one.ray((0, 0, 0), (1, 0, 0), owner=0x30)
        one.point((0, 0, 0), owner=0x30)
        one.insert(0x30, (0, 0, 0))
        answer = tool("dwg-picture", given=one.file())
        told = [f"dwg-picture: standard input: not drawn: 1 {kind} (in a block that is inserted)" for kind in ("RAY", "XLINE")]
        self.assertEqual((answer.returncode, answer.stderr.decode().splitlines()), (0, told))
        self.assertEqual(len(self.picture(one, "--block", "B").seen), 3)

    def test_solids(self) -> None:
        one = spelled.Drawing()
        corners = [(0, 0), (2, 0), (0, 1), (2, 1)]
        one.solid(corners)
        one.solid(corners, number=32, normal=spelled.DOWN, elevation=7)
        one.solid(corners, normal=(1.0, 0.0, 0.0), elevation=4, colour=3)
        one.point((0, 0, 0))
        one.point((0, 0, 0))
        solid, trace, standing, *_ = self.picture(one).seen
        self.assertTrue(solid.filled and trace.filled and standing.filled)
        self.assertEqual((solid.colour, standing.colour), ("#000000", "#00ff00"))
        self.near(solid.points, [(0, 0), (2, 0), (2, 1), (0, 1), (0, 0)])
        self.near(trace.points, [(0, 0), (-2, 0), (-2, 1), (0, 1), (0, 0)])
        # The axes are Y and Z, of which Z isn't seen, and the elevation goes along X.
        self.near(standing.points, [(4, 0), (4, 2), (4, 2), (4, 0), (4, 0)])

    def test_faces(self) -> None:
        one = spelled.Drawing()
        corners = [(0, 0, 1), (4, 0, 2), (4, 3, 3), (0, 3, 4)]
        one.face(corners)
        one.face(corners, edges=5)
        one.face([*corners[:3], corners[2]], edges=0)
        one.face([(0, 0, 0), (4, 0, 0), (4, 3, 0), (0, 3, 0)], edges=8)
        one.face(corners, edges=15)
        one.face(corners, edges=0, invisible=1)
        whole, half, triangle, opened = self.picture(one).seen
        first, second, third, fourth = ((x, y) for x, y, _ in corners)
        self.near(whole.points, [first, second, second, third, third, fourth, fourth, first])
        # The bits 1 and 4 are the first edge and the third, 8 is the fourth.
        self.near(half.points, [second, third, fourth, first])
        self.near(triangle.points, [first, second, second, third, third, first])
        self.near(opened.points, [first, second, second, third, third, fourth])

    def test_polylines_in_space(self) -> None:
        one = spelled.Drawing()
        one.point((0, 0, 0))
        # The chain goes 202, 203, 201: the first has no links and is followed by the handle after its own.
        one.polyline_in_space(0x202, 0x201, handle=0x200)
        one.vertex((1, 1, 0), 0x200, handle=0x201, links=(0x203, 0))
        one.vertex((0, 0, 5), 0x200, handle=0x202)
        one.vertex((1, 0, 5), 0x200, handle=0x203, links=(0x202, 0x201))
        # One that holds by the handles alone, and is closed.
        one.polyline_in_space(0x211, 0x213, handle=0x210, closed=True)
        for at in range(3):
            one.vertex((at, at * at, 1), 0x210, handle=0x211 + at)
        # A chain that goes round and doesn't come to the last.
        one.polyline_in_space(0x221, 0x999, handle=0x220)
        one.vertex((3, 0, 0), 0x220, handle=0x221, links=(0x222, 0x222))
        one.vertex((4, 0, 0), 0x220, handle=0x222, links=(0x221, 0x221))
        # A curve, whose frame isn't seen; without a curve the flag has no meaning.
        for handle, curved in ((0x230, True), (0x240, False)):
            one.polyline_in_space(handle + 1, handle + 3, handle=handle, curved=curved)
            for at, flags in enumerate((16, 8, 8)):
                one.vertex((at, 2, 0), handle, handle=handle + 1 + at, flags=flags)
        _, chained, closed, ring, curve, straight = self.picture(one).seen
        self.near(chained.points, [(0, 0), (1, 0), (1, 1)])
        self.near(closed.points, [(0, 0), (1, 1), (2, 4), (0, 0)])
        self.near(ring.points, [(3, 0), (4, 0)])
        self.near(curve.points, [(1, 2), (2, 2)])
        self.near(straight.points, [(0, 2), (1, 2), (2, 2)])

    def test_polylines_in_space_far_away(self) -> None:
        one = spelled.Drawing()
        far = (4500000.125, 5300000.25, 0.0)
        one.block(0x30, b"B", far)
        one.polyline_in_space(0x201, 0x202, handle=0x200)
        one.polyline_in_space(0x211, 0x212, handle=0x210, owner=0x30)
        one.polyline_in_space(0x231, 0x232, handle=0x230, mode=1)
        for handle in (0x200, 0x210, 0x230):
            one.vertex(far, handle, handle=handle + 1)
            one.vertex((4500001.25, 5300002.5, 0), handle, handle=handle + 2)
        one.insert(0x30, far, handle=0x220)
        seen = [*self.picture(one).seen, *self.picture(one, "--space", "paper").seen]
        self.assertEqual(len(seen), 3)
        for found in seen:
            # The block's own coordinates, too, count from a place nearby.
            self.assertEqual(found.element.get("d"), "M0 0L1.125 2.25")
            self.near(found.points, [(0, 0), (1.125, 2.25)], 1e-9)

    def test_undrawn_polylines_in_space(self) -> None:
        one = spelled.Drawing()
        one.polyline_in_space(0, 0, handle=0x200)
        one.polyline_in_space(0x211, 0x212, handle=0x210)
        one.vertex((0, 0, 0), 0x210, handle=0x211)
        one.entity(11, "11", owner=0x210, handle=0x212)
        one.polyline_in_space(0x221, 0x222, handle=0x220)
        one.vertex((0, 0, 0), 0x220, handle=0x221)
        one.vertex((math.inf, 0, 0), 0x220, handle=0x222)
        answer = tool("dwg-picture", given=one.file())
        whys = ["a number that is none or too large", "a vertex isn't read by all its fields", "fewer than two points"]
        told = ["dwg-picture: standard input: nothing is drawn", *(f"dwg-picture: standard input: not drawn: 1 POLYLINE 3D ({why})" for why in whys)]
        self.assertEqual((answer.returncode, answer.stderr.decode().splitlines()), (0, told))

    def test_numbers_of_lists_are_not_read_one_by_one(self) -> None:
        """Of very many points none is read by itself, in either of the two times that a drawing is read."""
        one = spelled.Drawing()
        one.polyline([(float(k), k % 7) for k in range(5000)], widths=[(k % 3, 1.0) for k in range(5000)])
        with unittest.mock.patch("dwgtools.show.read_value", side_effect=read_value) as reading:
            _, picture = self.painted(one)
        self.assertEqual(picture.seen[0].points[4999], (4999.0, 4999 % 7))
        self.assertLess(reading.call_count, 1000)

    def test_polylines(self) -> None:
        one = spelled.Drawing()
        one.polyline([(0, 0), (2, 0), (2, 2)])
        one.polyline([(0, 0), (2, 0), (2, 2)], closed=True)
        one.polyline([(0, 0), (2, 0)], [1.0, 0.0])
        one.polyline([(0, 0), (2, 0)], [-1.0, 0.0])
        one.polyline([(0, 0), (1, 1)], [math.tan(math.pi / 8), 0.0])
        one.polyline([(0, 0), (1, 1)], [math.tan(3 * math.pi / 8), 0.0])
        one.polyline([(0, 0), (2, 0)], [1.0, 0.0], normal=spelled.DOWN, elevation=4)
        opened, closed, lower, upper, quarter, most, mirrored = self.picture(one).seen
        self.near(opened.points, [(0, 0), (2, 0), (2, 2)])
        self.near(closed.points, [(0, 0), (2, 0), (2, 2), (0, 0), (0, 0)])
        self.near(thirds(lower.points), [(0, 0), (1, -1), (2, 0)])
        self.near(thirds(upper.points), [(0, 0), (1, 1), (2, 0)])
        # A quarter of a circle to the left from (0, 0) to (1, 1) goes around (0, 1); three quarters go around (1, 0).
        self.near(thirds(quarter.points), [(0, 0), (math.sqrt(0.5), 1 - math.sqrt(0.5)), (1, 1)])
        self.near(thirds(most.points), [(0, 0), (1 + math.sqrt(0.5), -math.sqrt(0.5)), (1, 1)])
        self.near(thirds(mirrored.points), [(0, 0), (-1, -1), (-2, 0)])

    def test_widths(self) -> None:
        one = spelled.Drawing()
        one.polyline([(0, 0), (4, 0)], width=2)
        one.polyline([(0, 0), (4, 0), (4, 4)], widths=[(2, 0), (1, 1), (0, 0)])
        one.polyline([(0, 0), (4, 0), (4, 4)], widths=[(1, 2), (2, 1), (1, 1)])
        one.polyline([(0, 0), (4, 0), (4, 4)], widths=[(1, 2), (2, 1), (1, 1)], closed=True)
        thin, wide, other, taper, even, _, _, _, inner, outer, *closed = self.picture(one).seen
        self.assertEqual((wide.element.get("class"), wide.element.get("stroke-width"), wide.filled), ("wide", "2", False))
        self.near(wide.points, thin.points)
        self.near(other.points, [(0, 0), (4, 0), (4, 4)])
        self.assertTrue(taper.filled and even.filled)
        self.near(taper.points, [(0, 1), (4, 0), (4, 0), (0, -1), (0, 1)])
        self.near(even.points, [(3.5, 0), (3.5, 4), (4.5, 4), (4.5, 0), (3.5, 0)])
        # Where two wide segments meet the corners of both are joined, at the left and at the right.
        self.near(inner.points, [(4, 0), (4, 1), (3, 0), (4, 0)])
        self.near(outer.points, [(4, 0), (4, -1), (5, 0), (4, 0)])
        self.assertEqual(len(closed), 1 + 3 + 3 * 2)

    def test_texts_too_low_to_be_drawn(self) -> None:
        one = spelled.Drawing()
        one.line((0, 0, 0), (4, 1, 0))
        one.text(b"low", (0, 0), 5e-324)
        answer = tool("dwg-picture", given=one.file())
        self.assertEqual((answer.returncode, answer.stderr), (0, b"dwg-picture: standard input: not drawn: 1 TEXT (no height)\n"))

    def test_texts_that_no_terminal_should_have(self) -> None:
        one = spelled.Drawing()
        one.text(b"a\x7fb\\U+009Bc%%127d", (0, 0), 0.72)
        one.text(b"e\\U+202Ef\\U+2066g\\U+200Fh", (0, 0), 0.72)
        seen = {found.text for found in self.picture(one).seen}
        self.assertEqual(seen, {"a\x7fb\x9bc\x7fd", "e\u202ef\u2066g\u200fh"})
        said = tool("dwg-picture", given=one.file()).stdout.decode()
        self.assertFalse(set("\x7f\x9b\u202e\u2066\u200f") & set(said))
        self.assertIn("e&#8238;f&#8294;g&#8207;h", said)

    def test_texts_come_back_as_they_are(self) -> None:
        texts = {
            b"a\rb": "a\rb", b"a\r\nb\n\rc": "a\r\nb\n\rc", b"\tleft\t \t": "\tleft\t \t", b"%%013x%%010y%%009z": "\rx\ny\tz",
            b"u\\U+000Dv\\U+000Aw": "u\rv\nw", b"  two  ": "  two  ", b"]]> <!-- &#13; &amp; \"'": "]]> <!-- &#13; &amp; \"'",
            b"s\\U+D83D\\U+DE00t": "s\U0001f600t", b"s\\U+DE00\\U+D83Dt": "s\ufffd\ufffdt", b"n\\U+FFFE\\U+FFFF\\U+0085m": "n\ufffd\ufffd\x85m",
        }  # fmt: skip
        one = spelled.Drawing()
        for content in texts:
            one.text(content, (0, 0), 0.72)
        self.assertEqual([found.text for found in self.picture(one).seen], list(texts.values()))

    def test_texts_of_any_bytes(self) -> None:
        # What XML forbids is lost, and nothing else; and no control of a terminal is written as it is.
        allowed = "\t\n\r" + "".join(map(chr, (*range(0x20, 0xD800), *range(0xE000, 0xFFFE), *range(0x10000, 0x110000, 0x1111))))
        known, content = set(allowed), lettering.readable(b" ".join(b"\\U+%04X" % code for code in range(0x10000)), "cp1252")
        self.assertEqual(content, " ".join(letter if letter in known else "\ufffd" for letter in map(chr, range(0x10000))))
        self.assertEqual(ElementTree.fromstring(f"<text>{lettering.said(allowed)}</text>").text, allowed)
        self.assertFalse(set(map(chr, (*range(0x20), *range(0x7F, 0xA0)))) & set(lettering.said(allowed)))
        # All bytes by themselves, twice each, and in each order with some; every one between two letters.
        some = [bytes(range(256)), *(bytes([65, byte, byte, 66]) for byte in range(256)), bytes(reversed(range(256))), bytes(range(0, 256, 3)), bytes(range(255, 0, -5))]
        for page in sorted(set(CODE_PAGES.values())):
            for one in some:
                content = lettering.readable(one, page)
                self.assertEqual(ElementTree.fromstring(f"<text>{lettering.said(content)}</text>").text, content, (page, one))

    def test_signs_of_texts_of_each_code_page(self) -> None:
        """cp864 has another letter for the byte of a percent sign; and some letters of two bytes end with that of a backslash."""
        for page in sorted(set(CODE_PAGES.values())):
            content = lettering.readable(b"45%%d %%C5 %%p1 %%uA%%u%%066 \\U+20AC%%%", page)
            self.assertEqual(content, "45\u00b0 \u23005 \u00b11 AB \u20ac%", page)
        self.assertEqual(lettering.readable(b"\x95\\U+20AC%%d", "cp932"), "\u8868U+20AC\u00b0")
        self.assertEqual(lettering.readable(b"100%", "cp864"), "100\u066a")
        one = spelled.Drawing()
        one.text(b"45%%d", (0, 0), 1.0)
        self.assertIn(">45\u00b0<", tool("dwg-picture", self.file("a.dwg", one.file(19))).stdout.decode())

    def test_texts(self) -> None:
        one = spelled.Drawing()
        one.text(b"plain", (1, 2), 0.72)
        one.text(b"up", (0, 0), 0.72, {"rotation": math.pi / 2, "width": 0.5})
        one.text(b"right", (0, 0), 0.72, {"horizontal": 2, "alignment": (5, 6)})
        one.text(b"middle", (0, 0), 0.72, {"horizontal": 4, "alignment": (5, 6)})
        one.text(b"top", (0, 0), 0.72, {"horizontal": 1, "vertical": 3, "alignment": (5, 6)})
        one.text(b"fit", (0, 0), 0.72, {"horizontal": 5, "alignment": (3, 4)})
        one.text(b"back", (0, 0), 0.72, {"generation": 2})
        one.text(b"down", (0, 0), 0.72, {"generation": 4})
        one.text(b"slant", (0, 0), 0.72, {"oblique": math.pi / 4})
        one.text(b"mirror", (1, 0), 0.72, {"normal": spelled.DOWN})
        one.text(b"45%%d %%c5 %%p1 %%uA%%u \\U+20AC <&> %%%", (0, 0), 0.72)
        one.text(b" ", (0, 0), 0.72)
        seen = {found.text: found for found in self.picture(one).seen}
        self.assertEqual(len(seen), 11)
        self.assertIn("45\u00b0 \u23005 \u00b11 A \u20ac <&> %", seen)
        self.near(seen["plain"].points, [(1, 2)])
        # What is to the right and upward of a letter; y in the text is downward.
        sides = lambda text: [round(value, 6) + 0.0 for value in seen[text].matrix[:2]] + [round(-value, 6) + 0.0 for value in seen[text].matrix[2:4]]
        self.assertEqual(sides("plain"), [1, 0, 0, 1])
        self.assertEqual(sides("up"), [0, 0.5, -1, 0])
        self.assertEqual(sides("back"), [-1, 0, 0, 1])
        self.assertEqual(sides("down"), [1, 0, 0, -1])
        self.assertEqual(sides("slant"), [1, 0, 1, 1])
        self.assertEqual(sides("mirror"), [-1, 0, 0, 1])
        self.near(seen["mirror"].points, [(-1, 0)])
        self.assertEqual(seen["right"].element.get("text-anchor"), "end")
        self.near(seen["right"].points, [(5, 6)])
        self.assertEqual(seen["middle"].element.get("text-anchor"), "middle")
        self.near(seen["middle"].points, [(5, 5.64)])
        self.near(seen["top"].points, [(5, 5.28)])
        # From (0, 0) to (3, 4): the letters are so wide that the length is 5, in letters of size 1, and no higher.
        length = float(seen["fit"].element.get("textLength", "")) / 100
        self.assertEqual([round(value, 6) for value in sides("fit")], [round(value, 6) for value in (3 / length, 4 / length, -0.8, 0.6)])

    def test_inserts(self) -> None:
        one = spelled.Drawing()
        block, inner = 0x30, 0x31
        one.block(block, b"TAG", (10.0, 10.0, 0.0))
        one.block(inner, b"INNER")
        one.line((10, 10, 0), (12, 10, 0), owner=block)
        one.definition(b"shown never", b"NO", (10, 10), 1.0, owner=block)
        one.definition(b"constant", b"NO", (10, 10), 1.0, flags=2, owner=block)
        one.insert(inner, (11, 10, 0), (1, -1, 1), owner=block)
        one.line((0, 0, 0), (0, 1, 0), owner=inner)
        one.point((0, 0, 0))
        first = one.insert(block, (0, 0, 0))
        one.attribute(b"A1", b"NO", (7, 7), 1.0, owner=first)
        one.attribute(b"hidden", b"NO", (7, 7), 1.0, owner=first, flags=1)
        one.insert(block, (5, 0, 0), (2, 3, 1), math.pi / 2)
        one.insert(block, (5, 0, 0), normal=spelled.DOWN)
        picture = self.picture(one)
        _, *seen = picture.seen
        texts = [found for found in seen if found.text]
        self.assertEqual(sorted(found.text for found in texts), ["A1", "constant", "constant", "constant"])
        self.near([found.points[0] for found in texts if found.text == "A1"], [(7, 7)])
        lines = [found.points for found in seen if not found.text]
        self.near(lines[0] + lines[1], [(0, 0), (2, 0), (1, 0), (1, -1)])
        self.near(lines[2] + lines[3], [(5, 0), (5, 4), (5, 2), (8, 2)])
        self.near(lines[4] + lines[5], [(-5, 0), (-7, 0), (-6, 0), (-6, -1)])
        # Each block is defined once, and once more for the insert that stretches it.
        self.assertEqual(len(picture.named), 4)
        seen = self.picture(one, "--block", "tag").seen
        self.assertEqual([found.text for found in seen if found.text], ["NO", "NO"])

    def test_inserts_in_columns_and_rows(self) -> None:
        one = spelled.Drawing()
        one.block(0x30, b"B")
        one.line((0, 0, 0), (1, 0, 0), owner=0x30)
        for _ in range(4):
            one.point((0, 0, 0))
        first = one.minsert(0x30, (10, 0, 0), (3, 2), (4.0, 5.0), (2, 1, 1), math.pi / 2)
        one.attribute(b"A", b"NO", (7, 7), 1.0, owner=first)
        one.minsert(0x30, (10, 0, 0), (2, 2), (4.0, 5.0), normal=spelled.DOWN)
        one.minsert(0x30, (1, 2, 0), (3, 0), (0.0, 5.0))
        seen = self.picture(one).seen[4:]
        # A turn to the left: columns go upward and rows to the left, and the line is twice as long; the scale doesn't change the spacings.
        places = [(10 - 5 * row, 4 * column) for row in range(2) for column in range(3)]
        self.near([found.points[0] for found in seen if found.text], [(x - 3, y + 7) for x, y in places])
        lines = [found.points for found in seen if not found.text]
        self.assertEqual(len(lines), 6 + 4 + 1)
        for found, (x, y) in zip(lines, places):
            self.near(found, [(x, y), (x, y + 2)])
        for found, (x, y) in zip(lines[6:], [(-10, 0), (-14, 0), (-10, 5), (-14, 5)]):
            self.near(found, [(x, y), (x - 1, y)])
        self.near(lines[10], [(1, 2), (2, 2)])

    def test_too_many_copies(self) -> None:
        one = spelled.Drawing()
        one.block(0x30, b"B")
        one.point((0, 0, 0), owner=0x30)
        one.minsert(0x30, (0, 0, 0), (65535, 65535), (1.0, 1.0))
        one.minsert(0x30, (0, 0, 0), (2, 1), (1.0, 1.0))
        # A block with nothing is there at once, however often.
        one.block(0x31, b"EMPTY")
        one.minsert(0x31, (0, 0, 0), (65535, 65535), (1.0, 1.0))
        answer = tool("dwg-picture", given=one.file())
        self.assertEqual((answer.returncode, answer.stderr), (0, b"dwg-picture: standard input: not drawn: 1 MINSERT (more than 1000000 copies in all)\n"))
        self.near([found.points[0] for found in Picture(answer.stdout).seen], [(0, 0), (1, 0)])

    def bounded(self, one: spelled.Drawing, most: int) -> "subprocess.CompletedProcess[bytes]":
        """What dwg-picture answers of a drawing where a picture may have so many bytes, whose memory stays small and whose picture is no longer."""
        path, told = self.file("bounded.dwg", one.file()), self.folder / "told"
        lines = [f"picture.MOST_WRITTEN, picture.TIMES_WRITTEN = {most}, 0", *test_limits.MEASURED.format(peak=str(told)).splitlines()]
        answer = test_limits.otherwise("dwg-picture", "\n".join(lines), "--program", PROGRAM, path)
        self.assertEqual(answer.returncode, 0, answer.stderr)
        peak = int(re.findall(r"VmHWM:\s*(\d+) kB", told.read_text())[0]) << 10
        self.assertLess(peak, (100 << 20) + 10 * most)
        # (what stands before the elements and after them is always there)
        self.assertLess(len(answer.stdout), most + 2000)
        return answer

    def told(self, *messages: str) -> bytes:
        """What dwg-picture says of the drawing that `bounded` gives it."""
        return "".join(f"dwg-picture: {self.folder / 'bounded.dwg'}: {message}\n" for message in messages).encode()

    def test_bytes_of_copies(self) -> None:
        one = spelled.Drawing()
        one.block(0x30, b"B")
        one.line((0, 0, 0), (1, 1, 0), owner=0x30)
        one.line((0, 0, 0), (4, 4, 0), colour=3)
        first = one.minsert(0x30, (0, 0, 0), (100, 100), (1.0, 1.0))
        one.attribute(b"<" * 60_000, b"NO", (7, 7), 1.0, owner=first)
        one.line((0, 0, 0), (5, 5, 0), colour=5)
        one.minsert(0x30, (0, 0, 0), (2, 2), (1.0, 1.0))
        answer = self.bounded(one, 1 << 20)
        self.assertEqual(answer.stderr, self.told("not drawn: 1 MINSERT (more than 1048576 bytes in all)"))
        # What would be too much takes nothing of the others away, nor does it widen the picture.
        picture = Picture(answer.stdout)
        self.assertEqual([found.points[1] for found in picture.seen[:2]], [(4, 4), (5, 5)])
        self.assertEqual((len(picture.seen), [found.colour for found in picture.seen[:2]]), (6, ["#00ff00", "#0000ff"]))
        self.near([(picture.drawn()[0], picture.drawn()[2])], [(0, 5)])

    def test_what_fits_is_drawn_in_any_order(self) -> None:
        """What is too much takes no room from what isn't, whether it stands before that or after it."""
        put: List[Callable[[spelled.Drawing], object]] = [
            lambda one: one.attribute(b"x" * 50, b"NO", (0, 0), 2.0, owner=one.minsert(0x30, (0, 0, 0), (60, 60), (1.5, 2.5))),
            lambda one: one.insert(0x31, (0, 0, 0)),
            lambda one: one.insert(0x32, (9, 0, 0)),
        ]
        for order in ((0, 0, 0, 1, 2), (1, 2, 0, 0, 0), (2, 0, 0, 1, 0), (1, 0, 2, 0, 0)):
            one = spelled.Drawing()
            for block in (0x30, 0x31, 0x32):
                one.block(block, b"B%d" % block)
            for place in range(100):
                one.line((place, 0, 0), (place, 1.25, 0), owner=0x31)
            # (much more than four times its own text)
            one.polyline([(k, k % 2) for k in range(30)], [1.0] * 30, [(1.0, 0.0)] * 30, owner=0x32)
            for number in order:
                put[number](one)
            with unittest.mock.patch.multiple("dwgtools.picture", MOST_WRITTEN=1 << 18, TIMES_WRITTEN=0):
                reader, picture = self.painted(one)
            self.assertEqual(dict(reader.undrawn), {"MINSERT (more than 262144 bytes in all)": 3}, order)
            self.assertEqual(len(picture.seen), 100 + 1 + 29, order)

    def test_copies_that_are_too_many_are_not_made(self) -> None:
        """Which of its copies a MINSERT can't have is known before any of them is made, by their bytes and by those of attributes."""
        one = spelled.Drawing()
        one.block(0x30, b"B")
        one.line((0, 0, 0), (1, 1.25, 0), owner=0x30)
        for place in range(20):
            first = one.minsert(0x30, (place, 0, 0), (50, 50), (1.5, 2.5))
            if place % 2:
                one.attribute(b"x", b"T", (0, 0), 2.0, owner=first)
        one.insert(0x30, (0, 0, 0))
        with unittest.mock.patch.multiple("dwgtools.picture", MOST_WRITTEN=1 << 14, TIMES_WRITTEN=0):
            with unittest.mock.patch.object(plane.Affine, "moved_to", autospec=True, side_effect=plane.Affine.moved_to) as moving:
                reader, picture = self.painted(one)
        self.assertEqual((dict(reader.undrawn), len(picture.seen)), ({"MINSERT (more than 16384 bytes in all)": 20}, 1))
        self.assertLess(moving.call_count, 20 * 50)

    def test_what_is_too_large_is_gone_through_once(self) -> None:
        """However many inserts there are of it, and of blocks that have it: of none each of its runs is looked at again."""
        runs, inserts = 300, 100
        one = spelled.Drawing()
        for block in (0x30, 0x31, *range(0x200, 0x200 + inserts)):
            one.block(block, b"B%d" % block)
        one.last = 0x400
        # (entities by layer and by block in turn, each of which is a run)
        for place in range(runs):
            one.polyline([(k + place, k % 2) for k in range(40)], owner=0x30, colour=256 * (place % 2))
        one.insert(0x30, (0, 0, 0), owner=0x31)
        for place in range(inserts):
            one.insert(0x31, (0, 0, 0), owner=0x200 + place)
            for block in (0x30, 0x31, 0x200 + place):
                one.insert(block, (place, 0, 0))
        with unittest.mock.patch.multiple("dwgtools.picture", MOST_WRITTEN=1 << 16, TIMES_WRITTEN=0), contextlib.ExitStack() as mended:
            looks = [mended.enter_context(counting(Painter, name)) for name in ("measured", "maps")]
            reader, picture = self.painted(one)
        self.assertEqual((dict(reader.undrawn), len(picture.seen)), ({"INSERT (more than 65536 bytes in all)": 3 * inserts}, 0))
        self.assertLess(sum(look.call_count for look in looks), 20 * (runs + inserts))

    def test_definitions_that_are_looked_at_in_vain(self) -> None:
        """However many inserts have many blocks in common, each with a little more than there is room for, no more of these are looked at in all."""
        one, blocks, inserts, most = spelled.Drawing(), 200, 60, 40000
        groups = range(0x300, 0x30A)
        for block in (0x30, *groups, *range(0x200, 0x200 + blocks), *range(0x400, 0x400 + inserts)):
            one.block(block, b"B%d" % block)
        one.last = 0x500
        for block in range(0x200, 0x200 + blocks):
            one.polyline([(k, k % 2 + block) for k in range(40)], owner=block)
            one.insert(block, (1, 2, 0), owner=groups[block % len(groups)])
        for block in groups:
            one.insert(block, (1, 2, 0), owner=0x30)
        for block in range(0x400, 0x400 + inserts):
            one.insert(0x30, (block, 0, 0), owner=block)
            one.insert(block, (0, 0, 0))
        one.line((0, 0, 0), (1, 1, 0))
        looks = []
        for sought in (100, 1 << 22):
            patches = unittest.mock.patch.multiple("dwgtools.picture", MOST_WRITTEN=most, TIMES_WRITTEN=0), unittest.mock.patch("dwgtools.painter.MOST_SOUGHT", sought)
            with patches[0], patches[1], counting(Painter, "measured") as looking:
                reader, picture = self.painted(one)
            self.assertEqual((dict(reader.undrawn), len(picture.seen)), ({f"INSERT (more than {most} bytes in all)": inserts}, 1))
            looks.append(looking.call_count)
        self.assertLess(looks[0], 3 * (blocks + inserts))
        self.assertGreater(looks[1], 10 * looks[0])

    def test_attributes_of_an_insert_are_read_once(self) -> None:
        """In a block that is drawn to many depths too, where they are hidden, and are counted as if they were read each time where they aren't."""
        for flags in (1, 0):
            one, depths = spelled.Drawing(), 40
            chain, outer = range(0x200, 0x200 + 70), range(0x300, 0x300 + depths)
            for block in (0x30, 0x31, *chain, *outer):
                one.block(block, b"B%d" % block)
            one.last = 0x400
            for below, above in ((chain, 0x30), (outer, 0)):
                for first, second in zip(below, below[1:]):
                    one.insert(second, (0, 0, 0), owner=first)
                if above:
                    one.insert(below[0], (0, 0, 0), owner=above)
            one.line((0, 0, 0), (1, 1, 0), owner=chain[-1])
            one.line((0, 0, 0), (1, 1, 0), owner=0x31)
            insert = one.insert(0x31, (0, 0, 0), owner=0x30)
            for _ in range(20):
                one.attribute(b"v", b"t", (0.0, 0.0), 1.0, owner=insert, flags=flags)
            for block in outer:
                one.insert(0x30, (0, 0, 0), owner=block)
            one.insert(outer[0], (0, 0, 0))
            with counting(parts.Reader, "read") as reading:
                reader, _ = self.painted(one)
            names = [call[0][1].kind for call in reading.call_args_list]
            self.assertEqual(names.count("ATTRIB"), 20, flags)
            self.assertGreater(names.count("INSERT"), depths)

    def test_bytes_told_in_vain(self) -> None:
        """A block that many others have, each with more than there is room for, isn't told again for each of them."""
        one = spelled.Drawing()
        tapered = lambda count, owner: one.polyline([(k, k % 2) for k in range(count)], [1.0] * count, [(1.0, 0.0)] * count, owner=owner)
        one.block(0x30, b"INNER")
        tapered(20, 0x30)
        for block in range(0x200, 0x214):
            one.block(block, b"B%d" % block)
        one.last = 0x300
        for block in range(0x200, 0x214):
            one.insert(0x30, (0, 0, 0), owner=block)
            tapered(10, block)
            one.insert(block, (0, 0, 0))
            one.insert(block, (5, 0, 0), (2, 2, 1))
        one.insert(0x30, (0, 0, 0))
        most = 1 << 17
        with unittest.mock.patch.multiple("dwgtools.picture", MOST_WRITTEN=most, TIMES_WRITTEN=0):
            with unittest.mock.patch.object(Page, "write", autospec=True, side_effect=Page.write) as writing:
                reader, picture = self.painted(one)
        self.assertEqual((dict(reader.undrawn), len(picture.seen)), ({f"INSERT (more than {most} bytes in all)": 40}, 1 + 19))
        self.assertLess(sum(len(call[0][1]) for call in writing.call_args_list), 3 * most)

    def test_temporary_files_that_are_full(self) -> None:
        one = spelled.Drawing()
        for place in range(3000):
            one.line((place, 0, 0), (place, 1.25, 0))
        path, out = self.file("a.dwg", one.file()), self.folder / "out.svg"
        limited = lambda: resource.setrlimit(resource.RLIMIT_FSIZE, (1 << 14, 1 << 14))
        for words in ([], ["-o", str(out)]):
            said = [str(TOOLS / "dwg-picture"), "--program", PROGRAM, str(path), *words]
            ran = subprocess.run(said, capture_output=True, check=False, preexec_fn=limited, env={**os.environ, "TMPDIR": str(self.folder)})
            told = f"dwg-picture: the temporary file in {self.folder} can't be written: File too large\n"
            self.assertEqual((ran.returncode, ran.stdout, ran.stderr.decode()), (70, b"", told))
            self.assertEqual([found.name for found in self.folder.iterdir()], ["a.dwg"])

    def test_bytes_of_scales(self) -> None:
        one = spelled.Drawing()
        one.block(0x30, b"B")
        one.text(b"T" * 60_000, (0, 0), 1.0, owner=0x30)
        for place in range(200):
            one.insert(0x30, (0, place, 0), (1 + place / 200, 1, 1))
        answer = self.bounded(one, 1 << 20)
        # Where scales take too much of it lines are stretched, so that nothing is lost.
        self.assertEqual(answer.stderr, self.told("blocks are inserted by so many scales that some have lines as wide as they are stretched"))
        self.assertEqual(answer.stdout.count(b"<use"), 200)
        self.assertLess(answer.stdout.count(b"<defs>"), 10)

    def test_bytes_of_tapered_arcs(self) -> None:
        one = spelled.Drawing()
        tapered = lambda count, **where: one.polyline([(k, k % 2) for k in range(count)], [1.0] * count, [(1.0, 0.0)] * count, **where)
        one.block(0x30, b"B")
        tapered(300, owner=0x30)
        tapered(300)
        tapered(5)
        one.insert(0x30, (0, 0, 0))
        one.insert(0x30, (3, 0, 0))
        one.line((0, 0, 0), (3, 3, 0))
        answer = self.bounded(one, 1 << 20)
        told = ["2 INSERT (more than 1048576 bytes in all)", "1 LWPOLYLINE (more than 1048576 bytes in all)"]
        self.assertEqual(answer.stderr, self.told(*(f"not drawn: {one}" for one in told)))
        self.assertEqual(len(Picture(answer.stdout).seen), 5 + 1)

    def test_bytes_of_one_way(self) -> None:
        one = spelled.Drawing()
        one.block(0x30, b"B")
        for owner in (0, 0x30):
            one.polyline([(k / 7, k % 2) for k in range(6000)], owner=owner, colour=2)
        one.ray((5, 5, 0), (1, 1, 0))
        one.insert(0x30, (0, 0, 0))
        one.point((0, 0, 0))
        answer = self.bounded(one, 1 << 16)
        told = ["1 INSERT (more than 65536 bytes in all)", "1 LWPOLYLINE (more than 65536 bytes in all)"]
        self.assertEqual(answer.stderr, self.told(*(f"not drawn: {one}" for one in told)))
        self.assertEqual([found.element.get("class") for found in Picture(answer.stdout).seen], [None, "dot"])

    def test_bytes_by_any_limit(self) -> None:
        """However few bytes a picture may have, it is one: of what is drawn or counted nothing is missing."""
        one = spelled.Drawing()
        one.block(0x30, b"INNER")
        one.block(0x31, b"OUTER")
        one.circle((0, 0, 0), 2, owner=0x30, weight=23)
        one.insert(0x30, (1, 0, 0), (3, 0.5, 1), 1.0, owner=0x31, colour=4)
        one.text(b"text", (0, 0), 0.72, owner=0x31)
        for place in range(4):
            one.line((place, 0, 0), (place, 1, 0), colour=1 + place)
            one.insert(0x31, (place, 0, 0), (place + 1, 1, 1), layer=one.WALLS)
            one.ray((place, 0, 0), (0, 1, 0), colour=1 + place)
        whole = len(self.picture(one).svg)
        for most in range(0, whole + 300, 97):
            with unittest.mock.patch.multiple("dwgtools.picture", MOST_WRITTEN=most, TIMES_WRITTEN=0):
                reader, picture = self.painted(one)
            self.assertLess(len(picture.svg), most + 1500)
            missed = lambda kind: reader.undrawn[f"{kind} (more than {most} bytes in all)"]
            names = [found.name for found in picture.seen]
            self.assertEqual((names.count("text"), len(names)), (4 - missed("INSERT"), 4 * 4 - missed("LINE") - missed("RAY") - 2 * missed("INSERT")), most)
            self.assertEqual(sum(reader.undrawn.values()), missed("LINE") + missed("RAY") + missed("INSERT"))
        self.assertEqual(len(picture.seen), 4 * 4)

    def painted(self, one: spelled.Drawing) -> Tuple[Any, Picture]:
        """What reads a drawing, and its picture, in this process."""
        out, given = io.BytesIO(), types.SimpleNamespace(space="model", block=None, width=1200, background="white", layers=None, window=None)
        found = Drawing(Program(PROGRAM), str(self.file("painted.dwg", one.file())))
        with contextlib.closing(found), contextlib.redirect_stderr(io.StringIO()):
            reader, _ = paint(found, out, given)
        return reader, Picture(out.getvalue())

    def test_copies_of_nothing(self) -> None:
        one = spelled.Drawing()
        for block in (0x30, 0x31, 0x32):
            one.block(block, b"B%d" % block)
        one.entity(39, "1" * 30, owner=0x31)
        one.minsert(0x30, (0, 0, 0), (65535, 65535), (1.0, 1.0), owner=0x32)
        for block in (0x30, 0x31, 0x32):
            one.minsert(block, (0, 0, 0), (65535, 65535), (1.0, 1.0))
        one.line((0, 0, 0), (1, 1, 0))
        path = self.file("a.dwg", one.file())
        limited = lambda: resource.setrlimit(resource.RLIMIT_AS, (1 << 30, 1 << 30))
        ran = subprocess.run([str(TOOLS / "dwg-picture"), "--program", PROGRAM, str(path)], capture_output=True, check=False, preexec_fn=limited)
        self.assertEqual((ran.returncode, ran.stderr), (0, f"dwg-picture: {path}: not drawn: 1 BODY\n".encode()))
        self.assertEqual(len(Picture(ran.stdout).seen), 1)

    def test_tapered_arcs_are_not_kept_corner_by_corner(self) -> None:
        one = spelled.Drawing()
        handle = one.polyline([(k, k % 2) for k in range(200)], [1.0] * 200, [(1.0, 0.0)] * 200)
        (lines,) = [lines for found, _, lines in shown(one.file()) if found == handle]
        text = "".join(f"{line}\n" for line in [f"object {handle:X} LWPOLYLINE typed 77", *(f"  {line}" for line in lines)]).encode()
        fields = shapes.Fields(next(read_objects(iter(text.splitlines(keepends=True)), lists=Lists.NUMBERS)))
        tracemalloc.start()
        figures = list(shapes.polyline(fields, shapes.Context("cp1252", False)))
        size, _ = tracemalloc.get_traced_memory()
        tracemalloc.stop()
        self.assertEqual(len(figures), 1 + 199)
        self.assertLess(size, 199 * 2000)
        self.assertGreater(len(list(figures[1].around(shapes.Frame()))), 250)

    def test_elements_of_a_list_are_alike_and_follow_each_other(self) -> None:
        """What another program than the proved one says wrongly of a list is no text of `show`: nothing of a picture is left out for it."""
        path = self.file("a.dwg", made(12, 3))
        self.assertIn(b"\n  points[1] ", dwg("show", given=path.read_bytes()).stdout)
        for change in (r"s/^  points\[1\] .*/  points[1] 5.10/", r"s/^  points\[1\] .*/  points[1] 12/", r'''s/^  points\[1\] .*/  points[1] "a"/''',
                       r"s/^  points\[1\] \([0-9A-F]*\) .*/  points[1] \1/", r"s/^  points\[1\] \([0-9A-F]*\) .*/& \1/", r"s/^  points\[1\]/  points[7]/", r"s/^  points\[0\]/  points[1]/",
                       r"s/^  points\[1\]/  points[01]/", r"s/^  points\[1\] .\{16\} /  points[1] 4050FD94 4FE0000  /", r"/^  points\[1\] /d"):
            odd = program_that(self.folder, "odd", ['[ "$1" = show ] || exec "$REAL" "$@"', f""""$REAL" show | sed '{change}'"""])
            ran = tool("dwg-picture", "--program", odd, path)
            self.assertEqual((ran.returncode, ran.stdout, ran.stderr.count(b"\n")), (70, b"", 1), (change, ran.stderr))

    def test_copies_through_nesting(self) -> None:
        one = spelled.Drawing()
        for depth in range(40):
            one.block(0x200 + depth, b"B%d" % depth)
        one.last = 0x400
        for depth in range(39):
            for place in (0, 1):
                one.insert(0x201 + depth, (place * 2.0**depth, 0, 0), owner=0x200 + depth)
        one.line((0, 0, 0), (1, 1, 0), owner=0x227)
        one.insert(0x200, (0, 0, 0))
        one.circle((0, 0, 0), 1)
        self.assertLess(len(one.file()), 12000)
        answer = tool("dwg-picture", given=one.file())
        self.assertEqual(answer.returncode, 0)
        self.assertRegex(answer.stderr.decode(), r"\Adwg-picture: standard input: not drawn: \d+ INSERT \(more than 1000000 copies in all\)\n\Z")
        self.assertLess(len(answer.stdout), 20000)
        root = ElementTree.fromstring(answer.stdout)
        # How many elements each definition draws; those that it uses stand before it.
        drawn: Dict[str, int] = {}
        count = lambda element: 1 + sum(map(count, element)) + drawn.get(element.get(LINK, "#")[1:], 0)
        for definition in root.iter(SVG + "defs"):
            drawn[definition[0].get("id", "")] = count(definition[0])
        self.assertTrue(400000 < max(drawn.values()) <= 1000000, drawn)
        self.assertEqual(len(list(root.iter(SVG + "circle"))), 1)

    def test_block_on_many_layers(self) -> None:
        one = spelled.Drawing()
        one.block(0x30, b"B")
        for layer in range(600):
            one.layer(0x1000 + layer, b"L%d" % layer, 1 + layer % 255, values=layer % 20 << 5)
        one.last = 0x2000
        for place in range(600):
            one.line((place, 0, 0), (place, 1, 0), owner=0x30)
        for layer in range(600):
            one.insert(0x30, (0, layer, 0), rotation=layer, layer=0x1000 + layer)
        answer = tool("dwg-picture", given=one.file())
        self.assertEqual((answer.returncode, answer.stderr), (0, b""))
        self.assertEqual((answer.stdout.count(b"<path"), answer.stdout.count(b"<use"), answer.stdout.count(b"<defs>")), (600, 600, 1))
        self.assertLess(len(answer.stdout), 200000)
        # Each insert hands its layer's pen on: the colours 1 to 6 and the widths 15 to 20.
        pens = [(group.get("stroke"), group.get("class")) for group in ElementTree.fromstring(answer.stdout).iter(SVG + "g") for _ in group.findall(SVG + "use")]
        self.assertEqual(len(pens), 600)
        self.assertEqual([colour for colour, _ in pens[255:261]], ["#ff0000", "#ffff00", "#00ff00", "#00ffff", "#0000ff", "#ff00ff"])
        self.assertEqual([width for _, width in pens[15:20]], ["w80", "w90", "w100", "w106", "w120"])

    def test_block_by_many_scales(self) -> None:
        one = spelled.Drawing()
        one.block(0x30, b"B")
        for place in range(400):
            one.line((place, 0, 0), (place, 1, 0), owner=0x30)
        for place in range(400):
            one.insert(0x30, (0, place, 0), (1 + place / 400, 1, 1))
        answer = tool("dwg-picture", given=one.file())
        told = b"dwg-picture: standard input: blocks are inserted by so many scales that some have lines as wide as they are stretched\n"
        self.assertEqual((answer.returncode, answer.stderr), (0, told))
        # The block is defined for itself and for 250 scales; all other inserts stretch the first of these.
        self.assertEqual((answer.stdout.count(b"<defs>"), answer.stdout.count(b"<path"), answer.stdout.count(b"<use")), (251, 251 * 400, 400))
        root = ElementTree.fromstring(answer.stdout)
        last = [use.get("transform") for use in root.iter(SVG + "use")][-1]
        self.assertEqual(last, "matrix(1.9975 0 0 1 0 200)")

    def test_pens_through_nesting(self) -> None:
        one = spelled.Drawing()
        one.layer(0x30, b"GREEN", 3, values=20 << 5)
        one.block(0x31, b"INNER")
        one.block(0x32, b"OUTER")
        # By layer 0, by block, its own, and by layer 0 and block in turn.
        for colour, weight in ((256, 29), (0, 30), (2, 15), (256, 30), (0, 29), (256, 29)):
            one.line((0, 0, 0), (1, 0, 0), owner=0x31, colour=colour, weight=weight)
        one.insert(0x31, (0, 0, 0), owner=0x32)
        one.insert(0x31, (0, 0, 0), owner=0x32, colour=0, weight=30)
        one.insert(0x31, (0, 0, 0), owner=0x32, layer=one.WALLS, colour=0, weight=30)
        one.insert(0x32, (0, 0, 0), layer=0x30, colour=5, weight=22)
        one.insert(0x32, (0, 0, 0), layer=one.WALLS, colour=6, weight=9)
        width = lambda weight: round({0: 25.4 / 96, 9: 0.35, 15: 0.8, 20: 1.4, 22: 2.0}[weight] * 96 / 25.4, 2)
        expected = []
        for (layer, at_layer), (own, at_own) in ((("#00ff00", 20), ("#0000ff", 22)), (("#ff0000", 0), ("#ff00ff", 9))):
            # What the inner block has for what is by layer 0 and by block: both the layer's, the layer's and the insert's, and WALLS' and the insert's.
            for (one_layer, at_one), (by_block, at_block) in (
                ((layer, at_layer), (layer, at_layer)), ((layer, at_layer), (own, at_own)), (("#ff0000", 0), (own, at_own)),
            ):  # fmt: skip
                pairs = [(one_layer, at_one), (by_block, at_block), ("#ffff00", 15), (one_layer, at_block), (by_block, at_one), (one_layer, at_one)]
                expected += [(colour, width(weight)) for colour, weight in pairs]
        self.assertEqual([(found.colour, round(found.width, 2)) for found in self.picture(one).seen], expected)

    def test_too_large_through_nesting(self) -> None:
        one = spelled.Drawing()
        one.block(0x30, b"INNER")
        one.block(0x31, b"OUTER")
        one.point((0, 0, 0), owner=0x30)
        one.insert(0x30, (0, 0, 0), (1e9, 1e9, 1), owner=0x31)
        one.insert(0x31, (0, 0, 0), (1e-9, 1e-9, 1))
        one.insert(0x31, (5, 0, 0), (1e9, 1e9, 1))
        answer = tool("dwg-picture", given=one.file())
        self.assertEqual((answer.returncode, answer.stderr), (0, b"dwg-picture: standard input: not drawn: 1 INSERT (a number that is none or too large)\n"))
        self.near([found.points[0] for found in Picture(answer.stdout).seen], [(0, 0)])

    def test_loop_and_missing(self) -> None:
        one = spelled.Drawing()
        one.block(0x30, b"A")
        one.block(0x31, b"B")
        one.block(0x32, b"X", is_xref=True)
        one.line((0, 0, 0), (1, 0, 0), owner=0x30)
        one.insert(0x31, (0, 1, 0), owner=0x30)
        one.insert(0x30, (0, 1, 0), owner=0x31)
        one.insert(0x30, (0, 0, 0))
        one.insert(0x99, (0, 0, 0))
        one.insert(0x32, (0, 0, 0))
        answer = tool("dwg-picture", given=one.file())
        self.assertEqual(answer.returncode, 0)
        expected = ["not drawn: 1 INSERT (an external reference)", "not drawn: 1 INSERT (of a block that isn't there)", "block A inserts itself"]
        self.assertEqual(answer.stderr.decode().splitlines(), [f"dwg-picture: standard input: {line}" for line in expected])
        self.near(Picture(answer.stdout).seen[0].points, [(0, 0), (1, 0)])

    def test_deep(self) -> None:
        one = spelled.Drawing()
        for depth in range(200):
            one.block(0x200 + depth, b"B%d" % depth)
        one.last = 0x400
        for depth in range(200):
            one.line((0, depth, 0), (1, depth, 0), owner=0x200 + depth)
            one.insert(0x200 + depth + 1, (0, 0, 0), owner=0x200 + depth)
        one.insert(0x200, (0, 0, 0))
        answer = tool("dwg-picture", given=one.file())
        self.assertEqual(answer.returncode, 0)
        self.assertEqual(answer.stderr, b"dwg-picture: standard input: not drawn: 1 INSERT (more than 64 deep)\n")
        self.assertEqual(answer.stdout.count(b"<defs>"), 64)

    def drawn_in_any_order(self, prefix: Callable[[spelled.Drawing], object], blocks: Sequence[int]) -> Tuple[List[str], Dict[int, List[float]]]:
        """What is said of inserts of blocks, and how high the lines are that each draws: the same in whichever order they stand."""
        found = []
        for order in (blocks, blocks[::-1], blocks[1::2] + blocks[::2], blocks[len(blocks) // 2 :] + blocks[: len(blocks) // 2]):
            one = spelled.Drawing()
            prefix(one)
            for block in order:
                one.insert(block, (block * 1000, 0, 0))
            for _ in range(2 * len(blocks)):
                one.point((0, 0, 0))
            answer = tool("dwg-picture", given=one.file())
            self.assertEqual(answer.returncode, 0)
            drawn: Dict[int, List[float]] = {block: [] for block in blocks}
            for line in Picture(answer.stdout).seen:
                if line.element.get("class") != "dot":
                    drawn[round(line.points[0][0] / 1000)].append(round(line.points[0][1]))
            found.append((answer.stderr.decode().splitlines(), {block: sorted(heights) for block, heights in drawn.items()}))
        for other in found[1:]:
            self.assertEqual(other, found[0])
        return found[0]

    def test_depth_in_any_order(self) -> None:
        """Each insert is followed as deep, whether its block was met in others before or not."""

        def chain(one: spelled.Drawing) -> None:
            for block in range(0x200, 0x264):
                one.block(block, b"B%d" % block)
            one.last = 0x400
            for block in range(0x200, 0x264):
                one.line((0, block, 0), (1, block, 0), owner=block)
                if block > 0x200:
                    one.insert(block - 1, (0, 0, 0), owner=block)
                # (a second way into the depth)
                if block > 0x230:
                    one.insert(block - 0x30, (0, 0, 0), owner=block)

        blocks = [0x200, 0x23E, 0x23F, 0x240, 0x241, 0x250, 0x262]
        said, drawn = self.drawn_in_any_order(chain, blocks)
        inner = lambda one: [one - 1] * (one > 0x200) + [one - 0x30] * (one > 0x230)
        expected: Dict[int, List[float]] = {block: [] for block in blocks}
        beyond = set()
        for block in blocks:
            level = [block]
            for depth in range(64):
                expected[block] += level
                beyond |= {(one, other) for one in level for other in inner(one) if depth == 63}
                level = [other for one in level for other in inner(one)]
        self.assertEqual(drawn, {block: sorted(heights) for block, heights in expected.items()})
        # An insert is counted once, however many ways lead to it.
        self.assertGreater(len(beyond), 1)
        self.assertEqual(said, [f"dwg-picture: standard input: not drawn: {len(beyond)} INSERT (more than 64 deep)"])

    def test_inserts_are_read_once_however_deep(self) -> None:
        """A chain or ring of blocks, each of which is drawn to 64 depths: each insert is read once, and stands where it stood at each depth."""
        for is_ring in (False, True):
            one = spelled.Drawing()
            blocks = range(0x30, 0x30 + 90)
            for block in blocks:
                one.block(block, b"B%d" % block)
            for block in blocks:
                one.line((0, 0, 0), (1, 0, 0), owner=block)
                if is_ring or block != blocks[-1]:
                    one.insert(block + 1 if block != blocks[-1] else blocks[0], (1, 2, 0), owner=block)
                one.insert(block, (100 * block, 0, 0))
            with counting(shapes.Fields, "__init__") as reading:
                _, picture = self.painted(one)
            deep = [min(64, blocks[-1] + 1 - block) for block in blocks]
            expected = sorted((100.0 * (block - blocks[0]) + step, 2.0 * step) for block, steps in zip(blocks, deep) for step in range(steps))
            # (coordinates count from the middle)
            found = sorted(seen.points[0] for seen in picture.seen)
            self.assertTrue([(round(x - found[0][0], 3), y) for x, y in found] == expected, is_ring)
            self.assertLess(reading.call_count, 5 * len(blocks))

    def test_loops_in_any_order(self) -> None:
        """Which insert leads back isn't told by what is met first: it is looked for by the handles of blocks."""

        def ring(one: spelled.Drawing) -> None:
            for block in range(0x30, 0x36):
                one.block(block, b"B%X" % block)
                one.line((0, block, 0), (1, block, 0), owner=block)
            for block, inner in ((0x30, 0x31), (0x31, 0x32), (0x32, 0x30), (0x33, 0x32), (0x34, 0x34), (0x35, 0x34)):
                one.insert(inner, (0, 0, 0), owner=block)

        said, drawn = self.drawn_in_any_order(ring, [0x30, 0x31, 0x32, 0x33, 0x34, 0x35])
        self.assertEqual(said, ["dwg-picture: standard input: block B30 inserts itself", "dwg-picture: standard input: block B34 inserts itself"])
        self.assertEqual(drawn, {0x30: [0x30, 0x31, 0x32], 0x31: [0x31, 0x32], 0x32: [0x32], 0x33: [0x32, 0x33], 0x34: [0x34], 0x35: [0x34, 0x35]})
        # What is looked at is the first of its ring, and is never in itself.
        self.assertEqual(self.drawn_in_any_order(ring, [0x32, 0x31]), (["dwg-picture: standard input: block B31 inserts itself"], {0x31: [0x30, 0x31, 0x32], 0x32: [0x30, 0x32]}))
        one = spelled.Drawing()
        ring(one)
        answer = tool("dwg-picture", "--block", "b32", given=one.file())
        self.assertEqual((answer.returncode, answer.stderr), (0, b"dwg-picture: standard input: block B32 inserts itself\n"))
        self.assertEqual(len(Picture(answer.stdout).seen), 3)

    def test_many_blocks_in_each_other(self) -> None:
        """Many blocks in a ring, each of which inserts three others: neither deep recursion nor copies without end."""
        one, count = spelled.Drawing(), 500
        for block in range(count):
            one.block(0x1000 + block, b"B%d" % block)
        one.last = 0x10000
        for block in range(count):
            one.point((block, 0, 0), owner=0x1000 + block)
            for step in (1, 1, 2, 250):
                one.insert(0x1000 + (block + step) % count, (0, 1, 0), owner=0x1000 + block)
        one.insert(0x1000, (0, 0, 0))
        one.insert(0x1000 + count - 1, (0, 0, 0))
        one.line((0, 0, 0), (1, 1, 0))
        path = self.file("a.dwg", one.file())
        ran = test_limits.otherwise("dwg-picture", "", "--program", PROGRAM, path)
        self.assertEqual(ran.returncode, 0, ran.stderr)
        self.assertRegex(ran.stderr.decode(), rf"\Adwg-picture: {path}: not drawn: \d+ INSERT \(more than \d+ copies in all\)\n")
        self.assertIn(b"<path d=", ran.stdout)
        self.assertLess(len(ran.stdout), 1 << 26)

    def test_colours_and_layers(self) -> None:
        one = spelled.Drawing()
        one.layer(0x30, b"OFF", 3, values=2)
        one.layer(0x31, b"FROZEN", 3, values=1)
        one.layer(0x32, b"THICK", 30, values=0x3F0 & ~0x3E0 | 15 << 5)
        one.layer(0x33, b"NEGATIVE", 0x10000 - 3)
        one.block(0x34, b"BLOCK")
        one.line((0, 0, 0), (1, 0, 0), owner=0x34)
        one.line((0, 0, 0), (1, 0, 0), owner=0x34, colour=0, weight=30)
        one.line((0, 0, 0), (1, 0, 0), owner=0x34, layer=one.WALLS, weight=0)
        drawn = [
            one.line((0, 0, 0), (1, 0, 0), layer=one.WALLS), one.line((0, 0, 0), (1, 0, 0)), one.line((0, 0, 0), (1, 0, 0), colour=5),
            one.line((0, 0, 0), (1, 0, 0), layer=0x32), one.line((0, 0, 0), (1, 0, 0), colour=251, weight=23),
        ]  # fmt: skip
        for layer in (0x30, 0x31, 0x33):
            one.line((0, 0, 0), (1, 0, 0), layer=layer)
        one.line((0, 0, 0), (1, 0, 0), invisible=1)
        one.insert(0x34, (0, 0, 0), layer=0x32, colour=4, weight=9)
        one.insert(0x34, (0, 0, 0), layer=0x30)
        one.insert(0x34, (0, 0, 0), layer=0x31)
        seen = self.picture(one).seen
        width = lambda millimetres: max(1.0, round(millimetres * 96 / 25.4, 2))
        expected = [
            ("#ff0000", 1.0), ("#000000", 1.0), ("#0000ff", 1.0), ("#ff7f00", width(0.8)), ("#5b5b5b", width(2.11)),
            # The insert's layer to what is on layer 0, its own colour and width to what is by block, and neither to what has its own.
            ("#ff7f00", width(0.8)), ("#00ffff", width(0.35)), ("#ff0000", 1.0),
            # Of the insert on a layer that is off only what is on layer 0 isn't seen: that by block is on layer 0 too.
            ("#ff0000", 1.0),
        ]  # fmt: skip
        self.assertEqual([(found.colour, round(found.width, 2)) for found in seen], expected)
        self.assertEqual(len(drawn), 5)
        white = [found.colour for found in self.picture(one, "--background", "black").seen]
        self.assertEqual(white[1], "#ffffff")
        self.assertEqual([found.colour for found in self.picture(one, "--background", "#102030").seen], white)

    def test_all_colours(self) -> None:
        # Some colours of the table that AutoCAD has, from its documentation of the colour index.
        known = {
            1: "#ff0000", 2: "#ffff00", 3: "#00ff00", 4: "#00ffff", 5: "#0000ff", 6: "#ff00ff", 8: "#808080", 9: "#c0c0c0", 10: "#ff0000",
            11: "#ff7f7f", 12: "#a50000", 13: "#a55252", 14: "#7f0000", 15: "#7f3f3f", 16: "#4c0000", 17: "#4c2626", 18: "#260000",
            19: "#261313", 20: "#ff3f00", 21: "#ff9f7f", 22: "#a52900", 23: "#a56752", 30: "#ff7f00", 40: "#ffbf00", 50: "#ffff00",
            60: "#bfff00", 90: "#00ff00", 110: "#00ff7f", 130: "#00ffff", 150: "#007fff", 170: "#0000ff", 190: "#7f00ff", 210: "#ff00ff",
            230: "#ff007f", 240: "#ff003f", 250: "#333333", 251: "#5b5b5b", 252: "#848484", 253: "#adadad", 254: "#d6d6d6", 255: "#ffffff",
        }  # fmt: skip
        one = spelled.Drawing()
        for colour in range(1, 256):
            one.point((colour, 0, 0), colour=colour)
        colours = {index: found.colour for index, found in enumerate(self.picture(one).seen, 1)}
        self.assertEqual(len(colours), 255)
        self.assertEqual({index: colours[index] for index in known}, known)
        self.assertEqual(colours[7], "#000000")

    def test_spaces(self) -> None:
        one = spelled.Drawing()
        one.line((0, 0, 0), (1, 0, 0))
        one.line((0, 0, 0), (2, 0, 0), mode=1)
        one.line((0, 0, 0), (3, 0, 0), owner=one.MODEL)
        one.line((0, 0, 0), (4, 0, 0), owner=one.PAPER)
        ends = lambda *words: [found.points[1][0] for found in self.picture(one, *words).seen]
        self.assertEqual(ends(), [1, 3])
        self.assertEqual(ends("--space", "paper"), [2, 4])
        self.assertEqual(ends("--block", "*Paper_Space"), [2, 4])
        answer = tool("dwg-picture", "--block", "none", given=one.file())
        self.assertEqual((answer.returncode, answer.stdout), (64, b""))

    def test_origin_and_scale(self) -> None:
        one, east, north = spelled.Drawing(), 4500000.0, -5300000.0
        one.block(0x30, b"B", (1.0, 0.0, 0.0))
        one.line((1, 0, 0), (4, 0, 0), owner=0x30)
        for mode in (2, 1):
            one.circle((east + 3, north + 4, 0), 2, mode=mode)
            one.insert(0x30, (east + 0.125, north + 7, 0), (2, 2, 2), math.pi / 2, mode=mode)
        window = f"{east + 20},{north - 4},{east - 4},{north + 20}"
        pictures = [self.picture(one, *words) for words in ((), ("--space", "paper", "--width", "100"), ("--window", window), ("--window", window, "--width", "7"))]
        for picture in pictures:
            circle, line = picture.seen
            self.near(picture.in_drawing(circle.points[:3:2]), [(east + 5, north + 4), (east + 3, north + 6)], 1e-6)
            self.near(picture.in_drawing(line.points), [(east + 0.125, north + 7), (east + 0.125, north + 13)], 1e-6)
        # The window is 24 units wide and high, and a pixel at the left above the middle is less far to the east, and more to the north.
        self.near([pictures[2].of_pixel(-600, -300), pictures[3].of_pixel(3.5, 3.5)], [(east - 4, north + 14), (east + 20, north - 4)])
        self.assertEqual([picture.root.get("data-scale") for picture in pictures[2:]], ["0.02", repr(24 / 7)])

    def test_layers(self) -> None:
        one = spelled.Drawing()
        for handle, name, values in ((0x30, b"Walls-Old", 0), (0x31, b"DOORS", 0), (0x32, b"DOORS-OFF", 2), (0x33, b"M\xf6bel", 0)):
            one.layer(handle, name, 3, values)
        one.block(0x40, b"INNER")
        one.line((0, 0, 0), (1, 0, 0), owner=0x40)
        one.line((0, 0, 0), (2, 0, 0), owner=0x40, layer=0x31)
        one.block(0x41, b"OUTER")
        one.insert(0x40, (0, 0, 0), owner=0x41)
        one.line((0, 0, 0), (3, 0, 0), owner=0x41, layer=0x30)
        for layer, x in ((one.LAYER0, 4), (0x30, 5), (0x31, 6), (0x32, 7), (0x33, 8), (0x99, 9)):
            one.line((0, 0, 0), (x, 0, 0), layer=layer)
        # (of two inserts what is on layer 0 of the inner block is on their layers)
        one.insert(0x41, (0, 10, 0), layer=0x30)
        insert = one.insert(0x41, (0, 20, 0), layer=0x33, handle=0x150, ends=(0x151, 0x151, 0x152))
        one.attribute(b"A", b"T", (0, 20), 1.0, insert, handle=0x151, layer=0x31)
        one.last = 0x160
        one.entity(39, "1" * 30, layer=0x31)
        one.entity(39, "1" * 30, layer=0x30)
        body, every = "not drawn: 1 BODY", [4, 5, 6, 8, 9, 11, 12, 13, 21, 22, 23, 20]
        for words, ends, told in [
            ("doors*", [6, 12, 22, 20], [body]),
            ("WALLS-OLD", [5, 11, 13, 23], [body]),
            ("m\xf6?el", [8, 21], []),
            ("[dw]*s*,0", [4, 5, 6, 11, 12, 13, 22, 23, 20], ["not drawn: 2 BODY"]),
            ("*", every, ["not drawn: 2 BODY"]),
            ("DOOR,0,NO[NE]", [4], ["no layer has a name like DOOR", "no layer has a name like NO[NE]"]),
            ("x", [], ["nothing is drawn", "no layer has a name like x"]),
        ]:
            with self.subTest(words):
                answer = tool("dwg-picture", "--layers", words, given=one.file())
                self.assertEqual((answer.returncode, answer.stderr.decode().splitlines()), (0, [f"dwg-picture: standard input: {one}" for one in told]))
                picture = Picture(answer.stdout)
                corners = [picture.in_drawing(found.points)[-1] for found in picture.seen]
                self.assertEqual(sorted(round(x + y) for x, y in corners), sorted(ends))
        self.assertEqual(len(Picture(tool("dwg-picture", given=one.file()).stdout).seen), len(every))

    def test_window(self) -> None:
        one = spelled.Drawing()
        one.block(0x30, b"B")
        one.circle((0, 0, 0), 1, owner=0x30)
        one.xline((1000, 0, 0), (-1, 1, 0))
        one.xline((1000, 0, 0), (0, 1, 0))
        one.ray((0, 990, 0), (1, 0, 0))
        one.ray((1000, 990, 0), (1, 0, 0))
        for x in range(0, 2000, 100):
            one.line((x, 990, 0), (x + 10, 990, 0))
            one.point((x, 1000, 0))
            one.circle((x, 1000, 0), 5)
            one.arc((x, 1000, 0), 5, 0, 1)
            one.text(b"T", (x, 1000), 5)
            one.polyline([(x, 1000), (x + 10, 1000)], width=4)
            one.ellipse((x, 1000, 0), (5, 0, 0), 0.5, 0, 1)
        one.minsert(0x30, (0, 1000, 0), (20, 2), (100.0, 100.0))
        everything = len(self.picture(one).seen)
        # (the two lines without ends that cross it, and the copies and entities at 500)
        picture = self.picture(one, "--window", "480,970,520,1030")
        for found, value in zip(picture.box, (-20, -30, 40, 60)):
            self.assertAlmostEqual(found, value)
        self.assertEqual((picture.root.get("data-origin"), picture.root.get("height")), ("500.0 1000.0", "1800"))
        ray, line, *others = picture.seen
        self.near(picture.in_drawing(ray.points + line.points), [(480, 990), (520, 990), (500, 990), (510, 990)])
        self.assertEqual([found.name for found in others], ["path", "circle", "path", "text", "path", "path", "path", "circle"])
        self.assertEqual(everything, 4 + 20 * 8 + 40)
        # What lies outside, but no farther than a line is wide, isn't left out: eight pixels here, of a unit each.
        edge = spelled.Drawing()
        edge.line((0, 0, 0), (10, 0, 0))
        for window, count in (("11,0,111,50", 1), ("-50,5,50,55", 1), ("-50,-105,50,-5", 1), ("17,0,117,50", 1)):
            self.assertEqual(len(self.picture(edge, f"--window={window}", "--width", "100").seen), count)
        for window in ("19,0,119,50", "-50,9,50,59", "-109,0,-9,50"):
            answer = tool("dwg-picture", f"--window={window}", "--width", "100", given=edge.file())
            self.assertEqual((answer.returncode, answer.stderr), (0, b"dwg-picture: standard input: nothing is drawn\n"))
        # Corners in any order, by any numbers; and those of a block.
        self.assertEqual(self.picture(one, "--window", "520,1030,4.8e+2,97.0e1").svg, picture.svg)
        self.assertEqual(len(self.picture(one, "--block", "B", "--window=-1,-1,0.,.5").seen), 1)
        answer = tool("dwg-picture", "--window", "3,3,4,4", given=one.file())
        self.assertEqual((answer.returncode, answer.stderr), (0, b"dwg-picture: standard input: nothing is drawn\n"))
        path = self.file("a.dwg", one.file())
        odd = " 1,2,3 1,2,3,4,5 1,2,3,x nan,0,1,1 0,0,inf,1 0,0,1e16,1e16 0,0,0,1 0,0,1,1001 1,1,1,1 1\t,0,2,2 0,0,1_0,1 0,0,1e-31,1e-31"
        for word in odd.split(" "):
            answer = tool("dwg-picture", path, f"--window={word}", "-o", self.folder / "out.svg")
            self.assertEqual((answer.returncode, answer.stdout), (64, b""), word)
            self.assertRegex(answer.stderr, rb"dwg-picture: argument --window: [^\n]+\n\Z")
        for word in ("", "A,,B", ",A", "A,"):
            answer = tool("dwg-picture", path, "--layers", word)
            self.assertEqual((answer.returncode, answer.stderr.splitlines()[-1]), (64, b"dwg-picture: argument --layers: a pattern is empty"))
        self.assertFalse((self.folder / "out.svg").exists())

    def test_extents(self) -> None:
        one = spelled.Drawing()
        one.block(0x30, b"B")
        one.circle((0, 0, 0), 1, owner=0x30)
        one.point((0, 0, 0))
        one.arc((10, 0, 0), 5, -math.pi / 4, math.pi / 4)
        one.polyline([(0, 0), (0, 6)], [1.0, 0.0])
        one.insert(0x30, (-3, 0, 0), (2, 2, 2), math.pi / 3)
        picture = self.picture(one, "--width", "500")
        # From -5 (the inserted circle) to 15 (the arc) and from -3.54 (the arc) to 6 (the polyline), with two parts of a hundred around.
        x, y, wide, tall = picture.box
        low = -5 * math.sqrt(0.5)
        expected = (-5 - 0.4, -6 - 0.4, 20.8, 6 - low + 0.8)
        for found, value in zip((x, y, wide, tall), expected):
            self.assertAlmostEqual(found, value, delta=0.02)
        self.assertEqual((picture.root.get("width"), picture.root.get("height")), ("500", str(round(500 * tall / wide))))

    def test_extents_of_any_size(self) -> None:
        sizes = [0.0, 5e-324, 1e-323, 5e-320, 2.3e-308, 1e-300, 1e-160, 1e-40, 1e-31, 1e-29, 1e-7, 1e7, 1e14, 1e15]
        for x, y in [(one, 0.0) for one in sizes] + [(0.0, one) for one in sizes] + [(one, one / 3) for one in sizes] + [(1e15, 5e-324), (5e-324, 1e15)]:
            for begin in ((0.0, 0.0), (-x, -y), (x, 0.0)):
                shown = window_of([begin, (max(x, begin[0]), max(y, begin[1]))])
                for width in (1, 1200, 100_000):
                    said = head(shown, width, "#ffffff", {5, 211}, begin) + "</g></svg>"
                    root = ElementTree.fromstring(said)
                    box = list(map(float, root.get("viewBox", "").split()))
                    widths = list(map(float, re.findall(r"stroke-width:([^}]*)}", root.findtext(SVG + "style", ""))))
                    self.assertTrue(all(map(math.isfinite, box + widths)) and 1e-36 < min(box[2:]) and 1e-41 < min(widths), (x, y, said))
                    self.assertTrue(1 <= int(root.get("height", "")) <= 21 * width, (x, y, said))

    def test_a_drawing_of_next_to_nothing(self) -> None:
        for x, y in ((5e-324, 0), (0, 5e-324), (1e-310, 1e-310), (-5e-324, 1e-320)):
            one = spelled.Drawing()
            one.line((0, 0, 0), (x, y, 0))
            one.point((0, 0, 0))
            one.circle((0, 0, 0), 5e-324)
            one.text(b"low", (0, 0), 1e-318)
            one.polyline([(0, 0), (x, y)], [1.0, 0.0], [(5e-324, 1e-310)] * 2)
            one.ellipse((0, 0, 0), (x, y, 0), 0.5, 0, 1)
            picture = self.picture(one)
            self.assertGreater(len(picture.seen), 3)
            self.assertTrue(0.01 < picture.box[2] < 2 and 0.01 < picture.box[3] < 2, picture.box)

    def test_planes_of_any_normal(self) -> None:
        upward, aslant = (0.0, 0.0, 1.0), (0.6, 0.0, 0.8)
        for size in (5e-324, 1e-320, 1e-200, 1e-162, 1e-154, 1.0, 1e15, 1e200, 1e307):
            self.assertEqual(plane.unit((0.0, 0.0, size)), upward)
            self.assertEqual(plane.unit((0.0, 0.0, -size)), (0.0, 0.0, -1.0))
            if size > 1e-300:
                self.near([plane.unit((0.6 * size, 0.0, 0.8 * size))[::2]], [aslant[::2]], 1e-9)
        for normal in ((0.0, 0.0, 0.0), (math.nan, 0.0, 1.0), (0.0, math.inf, 0.0)):
            self.assertEqual(plane.unit(normal), upward)

    def test_points_of_too_few_numbers(self) -> None:
        """What a program shows with one number for each point is counted, kind by kind, and ends nothing."""
        one = spelled.Drawing()
        tilted = (1.0, 1.0, 1.0)
        one.block(0x30, b"B", (1.0, 2.0, 0.0))
        one.line((0, 0, 0), (1, 1, 0), owner=0x30)
        one.circle((0, 0, 0), 1, tilted)
        one.solid([(0, 0), (1, 0), (0, 1), (1, 1)], 1.0, tilted)
        one.text(b"text", (0, 0), 1.0, {"normal": tilted, "alignment": (1, 1), "horizontal": 1})
        one.polyline([(0, 0), (1, 1)], normal=tilted)
        one.insert(0x30, (0, 0, 0), normal=tilted)
        one.polyline_in_space(0x201, 0x202, handle=0x200)
        one.vertex((0, 0, 0), 0x200, handle=0x201)
        one.vertex((1, 1, 0), 0x200, handle=0x202)
        cut = self.failing('"$REAL" "$@" | sed "s/^\\(  [][a-z_.0-9]* [0-9A-F]\\{16\\}\\)\\( [0-9A-F]\\{16\\}\\)*$/\\1/"')
        answer = tool("dwg-picture", "--program", cut, given=one.file())
        whys = ["CIRCLE (no centre)", "INSERT (no extrusion)", "LWPOLYLINE (fewer than two points)", "POLYLINE 3D (a vertex isn't read by all its fields)"]
        told = ["nothing is drawn", *(f"not drawn: 1 {why}" for why in [*whys, "SOLID (no extrusion)", "TEXT (no insertion)"])]
        self.assertEqual((answer.returncode, answer.stderr.decode().splitlines()), (0, [f"dwg-picture: standard input: {line}" for line in told]))

    def test_undrawn(self) -> None:
        one = spelled.Drawing()
        one.of_class(500, b"WIPEOUT")
        one.block(0x30, b"B")
        one.entity(39, "1" * 30, owner=0x30)
        one.insert(0x30, (0, 0, 0), colour=1)
        one.insert(0x30, (0, 0, 0), colour=2)
        for number in (39, 39, 35, 38, 78, 44, 500, 501):
            one.entity(number, "1" * 30)
        one.circle((math.nan, 0, 0), 1)
        one.circle((0, 0, 0), math.inf)
        one.line((0, 1e300, 0), (0, 0, 0))
        one.ellipse((0, 0, 0), (1e10, 0, 0), 1e10, 0, 1)
        one.entity(39, "1" * 30, mode=1)
        answer = tool("dwg-picture", given=one.file())
        self.assertEqual(answer.returncode, 0)
        large = "(a number that is none or too large)"
        counts = [
            "1 3DSOLID", "3 BODY", f"2 CIRCLE {large}", f"1 ELLIPSE {large}", "1 ELLIPSE (not read by all its fields)", "1 HATCH",
            f"1 LINE {large}", "1 MTEXT", "1 WIPEOUT",
        ]  # fmt: skip
        lines = answer.stderr.decode().splitlines()
        self.assertEqual(lines[0], "dwg-picture: standard input: nothing is drawn")
        self.assertEqual(lines[1:], [f"dwg-picture: standard input: not drawn: {count}" for count in counts])

    def test_made(self) -> None:
        for count, seed in ((1, 7), (50, 3), (400, 11)):
            answer = tool("dwg-picture", given=made(count, seed))
            self.assertEqual((answer.returncode, answer.stderr), (0, b""))
            kinds = [kind for _, kind, _, _ in common.made_entities(count, seed)]
            seen = Picture(answer.stdout).seen
            # The insert of the block draws its line and its attribute.
            self.assertEqual(len(seen), count + 2)
            self.assertEqual(sum(found.name == "circle" for found in seen), kinds.count("CIRCLE"))
            self.assertEqual(sum(found.name == "text" for found in seen), kinds.count("TEXT") + 1)
            for found, (_, kind, layer, body) in zip(seen[2:], common.made_entities(count, seed)):
                self.assertEqual(found.colour, "#000000" if layer == "0" else "#ff0000")
                if kind == "TEXT":
                    self.assertEqual(found.text, body["text"])

    def test_in_a_browser(self) -> None:
        if not BROWSER:
            self.skipTest("pictures in a browser, as chromium isn't installed")
        one = spelled.Drawing()
        one.block(0x30, b"B", (100.0, 0.0, 0.0))
        one.polyline([(100, 5), (110, 5)], width=10, owner=0x30, colour=0)
        # A field of nine squares of ten units, far from the origin: red below at the left, green above it, blue below at the right, turned round.
        x, y = 4000000.0, 5000000.0
        one.polyline([(x, y + 5), (x + 10, y + 5)], width=10, colour=1)
        one.polyline([(x, y + 25), (x + 10, y + 25)], widths=[(10, 10), (0, 0)], colour=3)
        one.insert(0x30, (x + 30, y + 10, 0), rotation=math.pi, colour=5)
        one.insert(0x30, (-x - 10, y + 10, 0), normal=spelled.DOWN, scale=(-1, 1, 1), colour=6)
        one.arc((x + 25, y + 25, 0), 4.9, 0, math.pi, colour=4, weight=23)
        rows = self.shot(self.file("a.svg", tool("dwg-picture", "--width", "312", given=one.file()).stdout))
        # The view has 30 units and a margin of 0.6 on each side: ten pixels a unit.
        found = lambda right, up: rows[round(312 - 10 * (up + 0.6))][round(10 * (right + 0.6))]
        squares = {(5, 5): (255, 0, 0), (5, 25): (0, 255, 0), (25, 5): (0, 0, 255), (15, 15): (255, 0, 255), (25, 15): (255, 255, 255), (15, 5): (255, 255, 255)}
        self.assertEqual({place: found(*place) for place in squares}, squares)
        self.assertEqual((found(25, 29.9), found(25, 20.1)), ((0, 255, 255), (255, 255, 255)))

    def shot(self, svg: pathlib.Path) -> List[List[Tuple[int, ...]]]:
        """What a browser shows of a picture."""
        assert BROWSER
        shot = self.folder / "a.png"
        words = [BROWSER, "--headless", "--no-sandbox", "--disable-gpu", f"--user-data-dir={self.folder / 'profile'}", "--window-size=312,500"]
        subprocess.run([*words, f"--screenshot={shot}", svg.as_uri()], stdout=subprocess.DEVNULL, stderr=subprocess.DEVNULL, timeout=100, check=True)
        return pixels_of(shot.read_bytes())

    def test_output_and_trouble(self) -> None:
        path, out = self.file("a.dwg", made(3, 1)), self.folder / "out.svg"
        self.assertEqual(tool("dwg-picture", path, "-o", out).returncode, 0)
        self.assertEqual(out.read_bytes(), tool("dwg-picture", path).stdout)
        self.assertEqual(tool("dwg-picture", path, "-o", out).returncode, 73)
        for name, data in [*common.foreign().items(), *common.damaged(made(20, 2), 20, 4)]:
            with self.subTest(name):
                answer = tool("dwg-picture", "-o", out, "--force", given=data)
                self.assertEqual((answer.returncode, answer.stdout), (3, b""))
                self.assertRegex(answer.stderr, rb"\Adwg-picture: standard input: refused: ")
        self.assertEqual(sorted(one.name for one in self.folder.iterdir()), ["a.dwg", "out.svg"])
        for words in (("--width", "0"), ("--background", "green"), ("--space", "x")):
            self.assertEqual(tool("dwg-picture", path, *words).returncode, 64)
        self.assertEqual(tool("dwg-picture", "--help").returncode, 0)

    def test_interrupted_and_failing(self) -> None:
        path, out = self.file("a.dwg", made(20, 1)), self.folder / "out.svg"
        self.assertEqual(self.interrupted("dwg-picture", path, "-o", out), 130)
        self.assertEqual([one.name for one in self.folder.iterdir()], ["a.dwg"])
        answer = tool("dwg-picture", path, "-o", out, "--program", self.failing('"$REAL" show | head -n 100', "exit 6"))
        self.assertEqual((answer.returncode, out.exists()), (6, False))


class ShownText:
    """A drawing by the text that is shown of it."""

    def __init__(self, text: bytes) -> None:
        self.shown, self.file = text, open(os.devnull, "rb")

    @contextlib.contextmanager
    def show(self, *words: Any) -> Iterator[Any]:
        """As that of a drawing."""
        file = io.BytesIO(self.shown)
        prefix = read_prefix(file)
        yield prefix, objects_in(file, prefix.count, *words)


# Words that stand for others: zeros, numbers that are none or too large, very small ones, and those of directions.
WORDS = b"""0000000000000000 8000000000000000 7FF0000000000000 7FF8000000000001 430C6BF526340000 430C6BF526340001 0000000000000001 3FF0000000000000
BFF0000000000000 C050000000000000 2000000000000000 401921FB54442D18 3EE4F8B588E368F1""".split()
ONE, NONE = "3FF0000000000000", "0000000000000000"
# Lines that stand for others.
LINES = f"""mode 0|mode 1|mode 2|mode 3|invisible 1|invisible 2|colour 0|colour 7|colour 256|colour 300|lineweight 5|lineweight 30
layer 5.17|layer 5.99|layer 5.0|flag 512|flag 1|text ""|text " "|text "A&B"|text "%%d"|text "a b"|text "\\5cU+00e4"|text "\\fc"|style 5.0
elevation {ONE}|normal {NONE} {NONE} BFF0000000000000|extrusion {ONE} {NONE} {ONE}|extrusion {NONE} {NONE} BFF0000000000000|width {ONE}
bulges[0] {ONE}|horizontal 1|rotation {ONE}|points[7] {ONE} {ONE}|thickness {ONE}|owner 4.18|values 1|values 2|x 1""".replace("\n", "|").encode().split(b"|")
# Lines that no text of `show` has.
ODD = f"""mode x|mode 02|owner 4.x|xdict 3|layer 5.10 |colour -|invisible 0000000000000000|linetype_scale 1|thickness zz|thickness {ONE[1:]}|style 5.G|text a|flag x
start {ONE} {ONE} zz|end {ONE} {ONE} {ONE} {ONE}|place {ONE} {ONE}|place {ONE}|centre {ONE}  {ONE[1:]}|centre {ONE.lower()} {ONE}|radius {ONE} {ONE}|radius 1
insertion {ONE} {ONE} x|extrusion {NONE} {NONE} {ONE} {ONE}|points {ONE} {ONE}|points[00] {ONE} {ONE}|points[01] {ONE} {ONE}|points[0] {ONE}|points[1] {ONE} {ONE} {ONE}
points[2] {ONE.lower()} {ONE}|points[3] 5.1|reactors[0] 4.1F|reactors[3] 4.1F|reactors[0] x|x[0] {ONE}|x[1] {ONE}|app[0].bytes 0|  points[0] {ONE} {ONE}""".replace("\n", "|").encode().split(b"|")


class Quickly(unittest.TestCase):
    """What is drawn at once by its text looks as what is read field by field."""

    def drawn(self, text: bytes, **words: Any) -> Any:
        """The picture and what is said of it, or why there is none."""
        usual = {"space": "model", "block": None, "width": 1200, "background": "white", "layers": None, "window": None}
        out, given = io.BytesIO(), types.SimpleNamespace(**{**usual, **words})
        drawing: Any = ShownText(text)
        with drawing.file:
            try:
                reader, painter = paint(drawing, out, given)
            except (BadText, ToolError, ValueError) as fault:
                return type(fault), str(fault)
            return out.getvalue(), sorted(reader.undrawn.items()), painter.extent.sides, painter.is_stretched

    def compare(self, text: bytes, **words: Any) -> bool:
        """Draws both ways, and tells whether there is a picture."""
        quickly = self.drawn(text, **words)
        with unittest.mock.patch("dwgtools.picture.is_placed", lambda *_: False), unittest.mock.patch("dwgtools.quick.Quick.is_drawn", lambda *_: False):
            slowly = self.drawn(text, **words)
        self.assertEqual(quickly, slowly, text)
        return len(quickly) > 2

    def changed(self, text: bytes, chance: random.Random, told_lines: Sequence[bytes]) -> bytes:
        """A text of which some lines are others."""
        lines = text.split(b"\n")
        for _ in range(chance.choice((1, 3, 10))):
            at = chance.randrange(len(lines) // 3, len(lines) - 1)
            words = lines[at].split(b" ")
            if lines[at].startswith(b"object "):
                continue
            if len(words[-1]) == 16 and chance.random() < 0.6:
                words[chance.choice((-1, -1, -min(2, len(words) - 3)))] = chance.choice(WORDS)
                lines[at] = b" ".join(words)
            elif chance.random() < 0.8:
                told = chance.choice(told_lines)
                same = [place for place, line in enumerate(lines) if line.startswith(b"  " + told.split(b" ")[0] + b" ")]
                lines[chance.choice(same) if same and chance.random() < 0.9 else at] = b"  " + told
            else:
                lines[at : at + 1] = chance.choice(([], [lines[at], lines[at]]))
        return b"\n".join(lines)

    def test_made_drawings(self) -> None:
        for seed in (1, 2):
            text = dwg("show", given=made(60, seed)).stdout
            for words in (
                {}, {"space": "paper"}, {"background": "black"}, {"block": "TAG"}, {"block": "*MODEL_SPACE"}, {"layers": Patterns("w*")},
                {"window": corners_of("65,66,68,70")}, {"window": corners_of("70,71,70.01,70.02")}, {"window": corners_of("1,1,2,2")},
            ):  # fmt: skip
                self.assertTrue(self.compare(text, **words))

    def test_changed_drawings(self) -> None:
        chance, text = random.Random(8), dwg("show", given=made(24, 3)).stdout
        self.assertGreater(sum(self.compare(self.changed(text, chance, LINES)) for _ in range(250)), 150)
        self.assertGreater(sum(self.compare(self.changed(text, chance, ODD)) for _ in range(250)), 50)
        window = {"window": corners_of("66,67,71,80"), "layers": Patterns("0")}
        self.assertGreater(sum(self.compare(self.changed(text, chance, LINES), **window) for _ in range(50)), 25)


if __name__ == "__main__":
    unittest.main()
