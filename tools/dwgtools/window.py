"""What a picture shows, and its head."""

from __future__ import annotations

import re
from decimal import Decimal
from typing import Iterable, List, NamedTuple, Tuple

from .colours import WEIGHTS, pixels
from .lettering import FONT
from .painter import LONGEST_CUT, Page, Painter, Room, Sheet
from .plane import Box, Point, plain
from .shapes import FARTHEST, Frame, Trail, Way

# The origin is the point of the drawing at 0 0 of the view box, and the scale how many units of it a pixel has.
HEAD = """<?xml version="1.0" encoding="UTF-8"?>
<svg xmlns="http://www.w3.org/2000/svg" xmlns:xlink="http://www.w3.org/1999/xlink" width="{width}" height="{height}" viewBox="{box}"
 data-origin="{origin}" data-scale="{scale}">
<style>{style}.wide{{stroke-linecap:butt;stroke-linejoin:miter}}text{{white-space:pre}}</style>
{ground}<g transform="scale(1 -1)" fill="none" stroke-linecap="round" stroke-linejoin="round" font-family="sans-serif" font-size="{font}" xml:space="preserve">
"""

END_OF_FILE = "</g>\n</svg>\n"

DOT_PIXELS = 3


class Window(NamedTuple):
    """The part of the plane that the picture shows: its lower left corner, and how wide and how high it is."""

    x: float
    y: float
    wide: float
    tall: float


# What is no larger is shown as a dot is: programs that show SVG compute with numbers that tell no less from nothing.
SMALLEST = 1e-30


def window_of(corners: List[Point]) -> Window:
    """What is drawn and a margin, at most twenty times as wide as high, or as high as wide."""
    (left, low), (right, high) = corners if corners else [(0.0, 0.0), (1.0, 1.0)]
    across, up = right - left, high - low
    larger = max(across, up)
    if larger < SMALLEST:
        larger = 1.0
    margin = larger * 0.02
    wide, tall = max(across, larger / 20) + 2 * margin, max(up, larger / 20) + 2 * margin
    return Window((left + right - wide) / 2, (low + high - tall) / 2, wide, tall)


# The lower left corner of a rectangle in the drawing and the upper right one.
Corners = Tuple[Point, Point]
# How many times as long as the other a side of a given window may be.
MOST_ASIDE = 1000
_CORNERS = re.compile(r"{0},{0},{0},{0}".format(r"([-+]?(?:[0-9]+\.?[0-9]*|\.[0-9]+)(?:[eE][-+]?[0-9]+)?)"))


def corners_of(word: str) -> Corners:
    """The lower left corner and the upper right one of a rectangle, by two opposite ones; ValueError where these are none of one that can be shown."""
    found = _CORNERS.fullmatch(word)
    if not found:
        raise ValueError("X1,Y1,X2,Y2 are four numbers")
    x, y, u, v = map(float, found.groups())
    sides = abs(u - x), abs(v - y)
    if not max(abs(x), abs(y), abs(u), abs(v)) <= FARTHEST:
        raise ValueError(f"a number is beyond {FARTHEST:.0E}")
    if min(sides) < SMALLEST or max(sides) > MOST_ASIDE * min(sides):
        raise ValueError(f"one side is no longer than {SMALLEST:.0E}, or more than {MOST_ASIDE} times as long as the other")
    return (min(x, u), min(y, v)), (max(x, u), max(y, v))


def middle_of(corners: Corners) -> Point:
    """The middle of a rectangle."""
    (left, low), (right, high) = corners
    return (left + right) / 2, (low + high) / 2


def window_at(corners: Corners, middle: Point) -> Window:
    """A rectangle as the window, whose coordinates count from a place."""
    (left, low), (right, high) = corners
    return Window(left - middle[0], low - middle[1], right - left, high - low)


def lines_in(shown: Window, width: int) -> Box:
    """What may have lines that reach into a window: what lies within the width of the widest of these around it."""
    box, beyond = Box(), pixels(max(WEIGHTS)) * shown.wide / width
    box.sides = shown.x - beyond, shown.x + shown.wide + beyond, shown.y - beyond, shown.y + shown.tall + beyond
    return box


def head(shown: Window, width: int, ground: str, widths: Iterable[int], origin: Point) -> str:
    """The begin of the file, where y goes downward, with the widths of lines that it has, since only the picture as a whole tells what a pixel is."""
    x, y, wide, tall = map(plain, (shown.x, -shown.y - shown.tall, shown.wide, shown.tall))
    rect = "" if ground == "none" else f'<rect x="{x}" y="{y}" width="{wide}" height="{tall}" fill="{ground}"/>\n'
    height = max(1, round(width * shown.tall / shown.wide))
    classes = [("dot", float(DOT_PIXELS)), *((f"w{one}", pixels(one)) for one in sorted(widths))]
    # Not every program that shows SVG reads exponents in a style.
    style = "".join(f".{name}{{stroke-width:{Decimal(plain(size * shown.wide / width)):f}}}" for name, size in classes)
    # (a picture whose height is rounded is shown as large as fits)
    scale = repr(max(shown.wide / width, shown.tall / height))
    place = " ".join(repr(part + 0.0) for part in origin)
    return HEAD.format(width=width, height=height, box=f"{x} {y} {wide} {tall}", origin=place, scale=scale, style=style, ground=rect, font=plain(FONT))


def cut(painter: Painter, shown: Window, page: Page) -> None:
    """Writes what the picture shows of lines that are endless, for which there is room."""
    sheet = Sheet(page, Room(LONGEST_CUT * len(painter.endless)), painter.widths)
    for pen, one in painter.endless:
        ends = one.cut((shown.x, shown.y), (shown.x + shown.wide, shown.y + shown.tall))
        if ends:
            sheet.put(pen, Trail([Way(ends[0], [ends[1]])]).element(Frame()))
    sheet.end()
