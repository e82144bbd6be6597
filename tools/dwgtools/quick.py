"""Entities of the usual form, which are placed and drawn by their text at once: most of a drawing are such.

What has another form is left to `stock` and `parts`, which read field by field, and so is what can't be drawn. What is said here is what these say
of the same entity, letter by letter: a plane is seen as it is, so that the axes of a circle are those of the picture.
"""

from __future__ import annotations

import math
import re
import struct
from typing import Callable, Dict, Iterable, List, Match, Optional, Set

from .blocks import Pen
from .kinds import ENTITIES, INSERTS, PLACES, SILENT
from .lettering import CAPITAL, DEPTH, WIDEST, breadth
from .painter import Painter
from .parts import Reader
from .pieces import Head
from .plane import FLAT, TURN, Box, Point, circular
from .shapes import CLOSED, FARTHEST, FILLED, Fields
from .show import Object
from .stock import MODEL, PAPER, Middle, within

# --- The usual form --------------------------------------------------------------------------------------------------

# Values as they are printed.
_WORD, _NUMBER, _REFERENCE = "[0-9A-F]{16}", "[0-9]{1,5}", "[0-9A-F][.][0-9A-F]{1,16}"
_PAIR, _UP = f"{_WORD} {_WORD}", "0000000000000000 0000000000000000 3FF0000000000000"
_POINT = f"{_PAIR} {_WORD}"

# The fields of a common part, of which the mode is told apart, and those that tell how an entity is drawn.
_COMMON = (
    rf"\n  mode ([0-9])(?:\n  owner {_REFERENCE})?(?:\n  reactors\[[0-9]+\] {_REFERENCE})*\n  xdict {_REFERENCE}"
    rf"(?:\n  links[.]previous {_REFERENCE}\n  links[.]next {_REFERENCE})?(\n  colour {_NUMBER}\n  linetype_scale {_WORD}\n  linetype_flag {_NUMBER}"
    rf"(?:\n  linetype {_REFERENCE})?\n  plotstyle_flag {_NUMBER}(?:\n  plotstyle {_REFERENCE})?\n  invisible {_NUMBER}\n  lineweight {_NUMBER}"
    rf"\n  layer {_REFERENCE})"
)
# The fields of bodies, of which what is drawn is told apart.
_THICK, _ANY, _FLAT = rf"\n  thickness {_WORD}", rf"\n  extrusion {_POINT}", rf"\n  extrusion {_UP}"
_BODIES = {
    "LINE": rf"\n  start ({_POINT})\n  end ({_POINT}){_THICK}{_ANY}",
    "POINT": rf"\n  place ({_POINT}){_THICK}{_ANY}\n  angle {_WORD}",
    "CIRCLE": rf"\n  centre ({_POINT})\n  radius ({_WORD}){_THICK}{_FLAT}",
    "ARC": rf"\n  centre ({_POINT})\n  radius ({_WORD}){_THICK}{_FLAT}\n  start_angle ({_WORD})\n  end_angle ({_WORD})",
    # (of letters that each code page has, and none of which stands for another)
    "TEXT": rf'\n  insertion ({_PAIR}){_FLAT}{_THICK}\n  height ({_WORD})\n  text "([0-9A-Za-z .,:;/()=+*-]*)"\n  style {_REFERENCE}',
    "LWPOLYLINE": rf"\n  flag ({_NUMBER})((?:\n  points\[[0-9]+\] {_PAIR})+)",
}
_FORMS = {kind.encode("ascii"): re.compile(f"{_COMMON}{body}".encode("ascii")) for kind, body in _BODIES.items()}
_POLYLINE = b"LWPOLYLINE"


def usual(head: Head) -> Optional[Match[bytes]]:
    """An entity of the usual form: its mode, the fields that tell how it is drawn, and what is drawn; None of any other object."""
    form = _FORMS.get(head[2]) if head[3] == b"typed" else None
    return form.fullmatch(head.string, head.end()) if form else None


# How long the words of a point are, and what stands before those of the first points of a list, more than a piece of text may have.
_WORDS_OF_PAIR, _NUMBERED = 33, [b"  points[%d] " % number for number in range(1 << 12)]


def pairs_in(points: bytes) -> List[bytes]:
    """The words of listed points; none where these aren't numbered from 0 on."""
    lines = points.split(b"\n")[1:]
    return [line[-_WORDS_OF_PAIR:] for line in lines] if [line[:-_WORDS_OF_PAIR] for line in lines] == _NUMBERED[: len(lines)] else []


_TWO, _THREE, _FOUR, _SIX = (struct.Struct(f">{count}d").unpack for count in (2, 3, 4, 6))


def data_of(words: bytes) -> bytes:
    """The bytes of words, which may have spaces between."""
    return bytes.fromhex(words.decode("ascii"))


# --- Where entities are ----------------------------------------------------------------------------------------------

# The modes of entities that stand in a space.
_SPACES = {b"%d" % mode: mode for mode in (PAPER, MODEL)}
_MODE = re.compile(rb"\n  mode ([^\n]*)")


def _printed(kinds: Iterable[str]) -> Set[bytes]:
    return {kind.encode("ascii") for kind in kinds}


# The kinds of which more is kept than where they are, those that have a place, and others.
_KEPT = _printed(("LAYER", "BLOCK HEADER", "BLOCK CONTROL", "ATTRIB", "VERTEX 3D", "POLYLINE 3D", *INSERTS))
_PLACED, _SILENT, _ENTITIES = _printed(PLACES), _printed(SILENT), _printed(ENTITIES)


def space_of(head: Head) -> Optional[int]:
    """The mode of an object that isn't of the usual form, where that is of a space, and 0 of what is no part of a picture; None where it is to be read."""
    mode = None if head[2] in _SILENT else _MODE.search(head.string)
    return _SPACES.get(mode[1]) if mode else 0


def is_placed(middles: Dict[int, Middle], head: Head) -> bool:
    """Takes the place of an entity of a space; False where more is to be known of the object than this."""
    found = usual(head)
    if found is None:
        return head[2] not in _KEPT and b"[" not in head.string and not (head[3] == b"typed" and head[2] in _PLACED) and space_of(head) is not None
    mode, words = _SPACES.get(found[1]), pairs_in(found[4])[:1] if head[2] == _POLYLINE else [found[3][:_WORDS_OF_PAIR]]
    if mode is None or not words:
        return False
    x, y = _TWO(data_of(words[0]))
    middles[mode].take(within((x, y)))
    return True


# --- What entities look like -----------------------------------------------------------------------------------------

# How many pens are kept for a while by the text that tells them.
MOST_TEXTS = 1 << 12
# How far all numbers of an entity may be from zero, as the coordinates of one point, so that no rounding makes one of them too large.
_NEAR = FARTHEST / 2
# A size that is no less isn't taken for none by any computation.
_LEAST = 1e-100
# How many bytes there must be room for, which what is drawn at once never has: it has fewer than its text, which is in one piece.
_ROOM = 1 << 18


class Quick:
    """Draws entities of the usual form that stand in the space that is looked at."""

    def __init__(self, reader: Reader, painter: Painter) -> None:
        self.reader, self.painter = reader, painter
        # What lies in this needn't be taken in.
        self.known = Box() if painter.window else painter.extent
        self.x, self.y = painter.frame.x, painter.frame.y
        self.mode = reader.view.mode
        # Pens by the text of the fields that tell them, none where nothing is seen.
        self.pens: Dict[bytes, Optional[Pen]] = {}
        # What draws a kind: the element, empty where the picture doesn't show it, or None where it is to be read.
        self.figures: Dict[bytes, Callable[[Match[bytes]], Optional[str]]] = {
            b"LINE": self.line, b"POINT": self.dot, b"CIRCLE": self.circle, b"ARC": self.arc, b"TEXT": self.text, _POLYLINE: self.polyline,
        }  # fmt: skip

    def is_drawn(self, head: Head) -> bool:
        """Draws an entity, if anything of it is seen; False where it is to be read field by field."""
        found = usual(head)
        if found is None:
            return not (head[3] == b"raw" and head[2] in _ENTITIES) and space_of(head) not in (None, self.mode)
        mode, told = _SPACES.get(found[1]), found[2]
        if mode != self.mode:
            return mode is not None
        if told not in self.pens:
            self.take_pen(told)
        pen = self.pens[told]
        if pen is None:
            return True
        said = self.figures[head[2]](found) if self.painter.room.left > _ROOM else None
        if said:
            self.painter.sheet.put(pen, said)
        return said is not None

    def take_pen(self, told: bytes) -> None:
        """Takes the pen that fields tell."""
        if len(self.pens) >= MOST_TEXTS:
            self.pens.clear()
        self.pens[told] = self.reader.pen_outside(Fields(Object(0, "LINE", "typed", 0, told.replace(b"\n  ", b"\n") + b"\n")))

    def line(self, found: Match[bytes]) -> Optional[str]:
        """A line."""
        x, y, _, u, v, _ = numbers = _SIX(data_of(found[3] + found[4]))
        if not math.hypot(*numbers) <= _NEAR:
            return None
        begin, end = (x - self.x + 0.0, y - self.y + 0.0), (u - self.x + 0.0, v - self.y + 0.0)
        return '<path d="M%.9g %.9gL%.9g %.9g"/>' % (*begin, *end) if self.painter.take((begin, end)) else ""

    def dot(self, found: Match[bytes]) -> Optional[str]:
        """A point."""
        numbers = _THREE(data_of(found[3]))
        if not math.hypot(*numbers) <= _NEAR:
            return None
        place = numbers[0] - self.x + 0.0, numbers[1] - self.y + 0.0
        return '<path class="dot" d="M%.9g %.9gh0"/>' % place if self.painter.take((place,)) else ""

    def take(self, place: Point, radius: float, begin: float = 0.0, sweep: float = TURN) -> bool:
        """Takes an arc in, unless the whole circle is inside by more than numbers are rounded; False where the picture doesn't show it."""
        return self.known.holds(place, radius * 1.000001) or self.painter.take((circular(place, radius, begin, sweep),))

    def circle(self, found: Match[bytes]) -> Optional[str]:
        """A circle."""
        numbers = _FOUR(data_of(found[3] + found[4]))
        if not math.hypot(*numbers) <= _NEAR or abs(numbers[3]) < _LEAST:
            return None
        place, radius = (numbers[0] - self.x + 0.0, numbers[1] - self.y + 0.0), abs(numbers[3])
        return '<circle cx="%.9g" cy="%.9g" r="%.9g"/>' % (*place, radius) if self.take(place, radius) else ""

    def arc(self, found: Match[bytes]) -> Optional[str]:
        """An arc; not one that is a whole circle, or nearly nothing of one."""
        numbers = _SIX(data_of(b"".join(found.groups()[2:])))
        if not math.hypot(*numbers) <= _NEAR or abs(numbers[3]) < _LEAST:
            return None
        x, y, radius, begin = numbers[0] - self.x, numbers[1] - self.y, abs(numbers[3]), math.fmod(numbers[4], TURN)
        sweep = (numbers[5] - begin) % TURN
        if not 4 * FLAT < sweep < TURN:
            return None
        if not self.take((x, y), radius, begin, sweep):
            return ""
        # (as `Arc.ends` has them)
        count = max(1, math.ceil(sweep / (TURN / 3) - 1e-9))
        angles = [begin, *[begin + sweep * part / count for part in range(1, count + 1)]]
        places = ["%.9g %.9g" % (x + radius * math.cos(angle) + 0.0, y + radius * math.sin(angle) + 0.0) for angle in angles]
        return f'<path d="M{("A%.9g %.9g 0 0 1 " % (radius, radius)).join(places)}"/>'

    def text(self, found: Match[bytes]) -> Optional[str]:
        """A text that begins at its place."""
        numbers, content = _THREE(data_of(found[3] + found[4])), found[5].decode("ascii")
        size = abs(numbers[2]) / CAPITAL
        if not math.hypot(*numbers) <= _NEAR or size < _LEAST or not content.strip():
            return None
        x, y = numbers[0] - self.x + 0.0, numbers[1] - self.y + 0.0
        if not self.painter.take(((x, size * -DEPTH + y), (size * (breadth(content) * WIDEST) + x, size * CAPITAL + y))):
            return ""
        return f'<text transform="matrix({size:.9g} 0 0 {-size:.9g} {x:.9g} {y:.9g})"{FILLED}>{content}</text>'

    def polyline(self, found: Match[bytes]) -> Optional[str]:
        """A lightweight polyline without widths and arcs."""
        pairs = pairs_in(found[4])
        numbers = struct.unpack(f">{2 * len(pairs)}d", data_of(b"".join(pairs)))
        if len(pairs) < 2 or not math.hypot(*numbers) <= _NEAR:
            return None
        corners = [(x - self.x + 0.0, y - self.y + 0.0) for x, y in zip(numbers[::2], numbers[1::2])]
        if not self.painter.take(corners):
            return ""
        said = ["%.9g %.9g" % corner for corner in corners]
        if int(found[3]) & CLOSED:
            return f'<path d="M{"L".join(said)}L{said[0]}z"/>'
        return f'<path d="M{"L".join(said)}"/>'
