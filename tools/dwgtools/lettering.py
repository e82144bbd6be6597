"""Texts as elements of SVG: what is read of them, where they stand, and those of attributes."""

from __future__ import annotations

import math
import re
from dataclasses import dataclass
from functools import lru_cache
from typing import Iterator, List
from xml.sax.saxutils import escape

from .encodings import ESCAPES, decoded, letters_of
from .escapes import DIRECTIONS
from .plane import Affine, Point, Step, plain, seen, turned
from .shapes import FILLED, Context, Fields, Figure, Frame, Undrawable, checked_map

# All texts are written in one size, to which a map gives theirs, since programs that show SVG lay out very small and very large letters badly;
# and how far capitals stand above the baseline in a font without serifs, and other letters below.
FONT = 100.0
CAPITAL, DEPTH = 0.72 * FONT, 0.24 * FONT

SIGNS = {"d": "\u00b0", "c": "\u2300", "p": "\u00b1", "%": "%", "u": "", "o": "", "k": ""}
_UNSAID = re.compile("[\x00-\x08\x0b\x0c\x0e-\x1f\ufffe\uffff\ud800-\udfff]")
# What is written as a number: what turns the direction of a terminal, which a picture needs, controls of one that XML allows, and what a reader of
# XML would make another space.
_NUMBERED = {letter: f"&#{ord(letter)};" for letter in (*sorted(DIRECTIONS), *map(chr, range(0x7F, 0xA0)), "\t", "\n", "\r")}


@lru_cache(maxsize=None)
def _signs(page: str) -> "re.Pattern[str]":
    """The signs in a text of a code page, of which cp864 has another letter for the byte of `%`; all of them begin as ASCII, and no second byte of a
    letter is that one."""
    percent = re.escape(b"%".decode(page))
    return re.compile(rf"{percent}{percent}([0-9]{{3}}|[dcpuok{percent}])|({ESCAPES})", re.IGNORECASE)


def readable(text: bytes, page: str) -> str:
    """A text as it is read: with the signs that `%%`, `\\U+` and `\\M+` stand for, and a question mark in a box for what can't be shown."""

    def sign(found: "re.Match[str]") -> str:
        code, letters = found.group(1), found.group(2)
        if letters:
            return letters_of(letters, "\ufffd")
        return bytes([int(code) & 255]).decode(page, "replace") if code.isdigit() else SIGNS.get(code.lower(), "%")

    return _UNSAID.sub("\ufffd", _signs(page).sub(sign, decoded(text, page)))


def said(content: str) -> str:
    """A text in an element, from which a reader of XML gets it back letter by letter."""
    return escape(content, _NUMBERED)


# How wide letters are in fonts without serifs, in their size: between Arial and DejaVu Sans. Others of the alphabet are alike.
LETTERS = {**dict.fromkeys("ijl'|.,:;!I", 0.28), **dict.fromkeys("ft()[]/ ", 0.33), "r": 0.38, "w": 0.77, **dict.fromkeys("mMW%@", 0.92)}
SMALL, CAPITALS, WIDE = 0.59, 0.69, 1.0
# How much wider than the guess a text may be in one of these fonts.
WIDEST = 1.1


def breadth(content: str) -> float:
    """How wide a text is in the font: a guess, letter by letter."""
    return FONT * sum(LETTERS.get(letter, WIDE if letter > "\u2e7f" else CAPITALS if letter.isupper() else SMALL) for letter in content)


@dataclass(frozen=True)
class Standing:
    """Where a text stands: the point that it is put to, its turn, which part of it comes to the point, how high its baseline is, and its length."""

    place: Point
    angle: float
    anchor: str
    baseline: float
    length: float = 0.0


def standing(fields: Fields, height: float) -> Standing:
    """Where a text stands. Its second point counts unless it begins at its first, on the baseline."""
    across, up = fields.number("horizontal"), fields.number("vertical")
    first, angle = fields.pair("insertion"), fields.real("rotation")
    second = fields.pair("alignment") if "alignment" in fields.values else first
    if across in (3, 5) and first != second:
        # Between two points: 3 keeps the shape of the letters, 5 the height.
        angle = math.atan2(second[1] - first[1], second[0] - first[0])
        return Standing(first, angle, "start", 0.0, math.hypot(second[0] - first[0], second[1] - first[1]))
    if not across and not up:
        return Standing(first, angle, "start", 0.0)
    anchor = {1: "middle", 2: "end", 4: "middle"}.get(across, "start")
    middle = up == 2 or across == 4
    return Standing(second, angle, anchor, -height / 2 if middle else {1: height / 3, 3: -height}.get(up, 0.0))


@dataclass
class Writing(Figure):
    """A line of text: where its letters go, whose baseline begins, or has its middle or its end, at the origin, and whether its length is told."""

    content: str
    letters: Affine
    anchor: str
    is_fitted: bool
    # How wide it is, told once: it may have many copies.
    wide: float

    def element(self, frame: Frame) -> str:
        upright = frame.seat(self.letters).after(Affine(1.0, 0.0, 0.0, -1.0))
        if upright.is_flat():
            return ""
        anchored = "" if self.anchor == "start" else f' text-anchor="{self.anchor}"'
        fitted = f' textLength="{plain(self.wide)}" lengthAdjust="spacingAndGlyphs"' if self.is_fitted else ""
        return f"<text{upright.attribute()}{anchored}{fitted}{FILLED}>{said(self.content)}</text>"

    def around(self, frame: Frame) -> List[Step]:
        seat = frame.seat(self.letters)
        if seat.is_flat():
            return []
        length = self.wide * (1.0 if self.is_fitted else WIDEST)
        begin = {"start": 0.0, "middle": -0.5, "end": -1.0}[self.anchor] * length
        corners = [(begin, -DEPTH), (begin + length, -DEPTH), (begin, CAPITAL), (begin + length, CAPITAL)]
        return [seat.at(*corner) for corner in corners]

    def is_seen_aslant(self) -> bool:
        return False


BACKWARD, UPSIDE_DOWN = 2, 4


def written(fields: Fields, content: str) -> Iterator[Figure]:
    """A text, with its font's height, turn, slant and width."""
    height = abs(fields.real("height"))
    if not content.strip():
        return
    size = height / CAPITAL
    if not size:
        raise Undrawable("no height")
    stands, generation = standing(fields, height), fields.number("generation")
    wide = breadth(content)
    across = stands.length / wide if stands.length else size * (abs(fields.real("width", 1.0)) or 1.0)
    scale = Affine(-across if generation & BACKWARD else across, 0.0, 0.0, -size if generation & UPSIDE_DOWN else size)
    slant = Affine(1.0, 0.0, math.tan(fields.real("oblique")), 1.0)
    plane = seen(fields.point("extrusion"), fields.real("elevation"))
    letters = plane.linear().after(turned(stands.angle)).after(slant).after(scale).moved_to(plane.at(*stands.place))
    base = letters.at(0.0, stands.baseline / size)
    yield Writing(content, checked_map(letters.moved_to(base)), stands.anchor, bool(stands.length), wide)


def text(fields: Fields, context: Context) -> Iterator[Figure]:
    """A line of text."""
    return written(fields, readable(fields.text("text"), context.page))


HIDDEN, CONSTANT = 1, 2


def attribute(fields: Fields, context: Context) -> Iterator[Figure]:
    """The attribute of an insert."""
    return iter(()) if fields.number("flags") & HIDDEN else text(fields, context)


def definition(fields: Fields, context: Context) -> Iterator[Figure]:
    """The definition of an attribute: its tag where the block itself is looked at, and in an insert only what is the same for all."""
    if not context.inside:
        return written(fields, readable(fields.text("attrib.tag"), context.page))
    return text(fields, context) if fields.number("attrib.flags") & (CONSTANT | HIDDEN) == CONSTANT else iter(())
