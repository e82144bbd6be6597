"""JSON of objects by their layouts: many objects of a kind have their values at the same places of their text.

So the text of an object is cut at these places at once, and what is between is looked up as a whole, with the JSON that it had before. The words of
all objects of a piece are read together. What isn't as it should be, or wasn't met before, is left to `Fragments`, which goes line by line.
"""

from __future__ import annotations

import math
import re
import struct
import sys
from array import array
from binascii import unhexlify
from json import dumps
from operator import itemgetter
from typing import Callable, Dict, Iterator, List, Optional, Sequence, Set, Tuple, cast

from .encodings import unescaped
from .fragments import MOST_LINES, Fragments, is_of_bytes
from .values import read_text

# How much text of objects is kept by which others are told, and how many that were met once are noted.
MOST_KEPT, MOST_MET = 1 << 20, 1 << 16
# How many letters of an object, after its handle, tell its layout beside its length; how many layouts may be alike in these, and of how many objects
# that have another one is looked at for its layout.
HEAD, MOST_ALIKE, EACH = 16, 4, 8
# Words that are the same in most objects, and so stand with what is between the values.
STEADY = frozenset(("linetype_scale", "thickness", "extrusion"))
# What stands for a word until all words of a piece are read: no JSON has it.
WORD = "\0"

_HANDLE = "(?:0|[1-9A-F][0-9A-F]{0,15})"
_HANDLES = re.compile(f"{_HANDLE}(?: {_HANDLE})*".encode("ascii"))
_VALUED = re.compile(r'  ([a-z][a-z0-9_.\[\]]*) (?:([0-9A-F]{16}(?: [0-9A-F]{16}){0,2})|([0-9A-F]\.[0-9A-F]{1,14}|"[ !#-~]*"))')
_REFERENCE = re.compile(rb"([0-9A-F])\.([0-9A-F]{1,14})")
_TEXT = re.compile(rb'"[ !#-~]*"')
# Letters that stand in JSON as they are, where a code page has them as ASCII does.
_PLAIN = bytes(byte for byte in range(0x20, 0x7F) if byte not in b'"\\')

# By what layouts are looked up: how long the text of an object is after its handle, and its begin.
Alike = Tuple[int, bytes]
# Where a value of a text begins and ends, and whether it is a word.
Place = Tuple[int, int, bool]
Values = Sequence[bytes]


def _picked(at: List[int]) -> Callable[[Values], Values]:
    """What gives the values of some numbers."""
    if len(at) > 1:
        return cast(Callable[[Values], Values], itemgetter(*at))
    return lambda values: [values[one] for one in at]


class Layout:
    """Where the values stand in the text of an object after its handle, and the JSON of those that have the same between them."""

    def __init__(self, places: List[Place], size: int) -> None:
        self.places = places
        form, end = "", 0
        for begin, after, _ in places:
            form += f"{begin - end}s{after - begin}s"
            end = after
        # (what is between the values has even numbers, and these have odd ones)
        self.cut = struct.Struct(f"{form}{size - end}s").unpack
        self.words = _picked([2 * at + 1 for at, place in enumerate(places) if place[2]])
        self.others = _picked([2 * at + 1 for at, place in enumerate(places) if not place[2]])
        self.plans: Dict[Tuple[bytes, ...], str] = {}


class Layouts:
    """Puts the objects of a piece together, as their fragments would."""

    def __init__(self, fragments: Fragments) -> None:
        self.fragments, self.speaker = fragments, fragments.speaker
        self._layouts: Dict[Alike, List[Layout]] = {}
        self._met: Set[int] = set()
        self._passed = 0
        self._kept = 0
        self._references: Dict[bytes, str] = {}
        self._is_plain = _PLAIN.decode(self.speaker.page, "replace") == _PLAIN.decode("ascii")

    def objects(self, parts: Sequence[bytes]) -> str:
        """Objects in JSON on a line each; Odd where one isn't put together of fragments."""
        before = self.speaker.undecoded
        try:
            return self._objects(parts)
        except ValueError:
            self.speaker.undecoded = before
            return "\n".join([*map(self.fragments.of_bytes, parts), ""])

    def _objects(self, parts: Sequence[bytes]) -> str:
        """Objects in JSON; ValueError where a handle or a word has other letters, or a word is no number."""
        said: List[str] = []
        handles: List[bytes] = []
        words: List[bytes] = []
        alike, known = self._layouts.get, self._references.get
        for part in parts:
            handle, _, text = part.partition(b" ")
            plan = ""
            between: Tuple[bytes, ...] = ()
            for layout in alike((len(text), text[:HEAD]), ()):
                values = layout.cut(text)
                between = values[::2]
                plan = layout.plans.get(between, "")
                if plan:
                    break
            if not plan:
                said.append(self._line_by_line(part, text, between))
                continue
            others = [*map(known, layout.others(values))]
            if None in others:
                others = self._others(layout.others(values))
                if "" in others:
                    said.append(self.fragments.of_bytes(part))
                    continue
            said.append(plan % (handle.decode("ascii"), *others))
            handles.append(handle)
            words += layout.words(values)
        if handles and not _HANDLES.fullmatch(b" ".join(handles)):
            raise ValueError
        return "".join(_filled("\n".join([*said, ""]).split(WORD), words))

    def _others(self, printed: Values) -> List[Optional[str]]:
        """References and texts in JSON, nothing in place of one that is left to its line."""
        before = self.speaker.undecoded
        said: List[Optional[str]] = [self._text(one) if one[:1] == b'"' else self._references.get(one) or self._reference(one) for one in printed]
        if "" in said:
            self.speaker.undecoded = before
        return said

    def _reference(self, printed: bytes) -> str:
        """A reference, which is kept for a while where the name of where it leads is decoded whole."""
        found, before = _REFERENCE.fullmatch(printed), self.speaker.undecoded
        if not found:
            return ""
        said = self.fragments.reference(found[1].decode("ascii"), found[2].decode("ascii"))
        if self.speaker.undecoded == before:
            if len(self._references) >= MOST_LINES:
                self._references.clear()
            self._references[printed] = said
        return said

    def _text(self, printed: bytes) -> str:
        """A text that has no member beside it."""
        if not _TEXT.fullmatch(printed):
            return ""
        if self._is_plain and b"\\" not in printed:
            return printed.decode("ascii")
        said = self.speaker.text(read_text(printed))
        return dumps(said) if unescaped(said) == said else ""

    def _line_by_line(self, part: bytes, text: bytes, between: Tuple[bytes, ...]) -> str:
        """An object by its fragments. The second one that has the same between its values is kept, and some that may have another layout."""
        said, alike = self.fragments.of_bytes(part), (len(text), text[:HEAD])
        met = hash((alike, between))
        if met in self._met:
            self._keep(text, alike)
            return said
        if len(self._met) >= MOST_MET:
            self._met.clear()
        self._met.add(met)
        self._passed += bool(between)
        if self._passed == EACH:
            self._passed = 0
            self._keep(text, alike, is_new=True)
        return said

    def _keep(self, text: bytes, alike: Alike, is_new: bool = False) -> None:
        """Keeps the layout of an object and what is between its values, or only where the layout is new."""
        lines, before = text.decode("ascii").split("\n"), self.speaker.undecoded
        told = lines[1:]
        begin, is_layer = self.fragments.begin("0 " + lines[0], told)
        places: List[Place] = []
        names, values = [], []
        at = len(lines[0]) + 1
        for line, one in zip(lines[1:], told):
            name, value, some = self._valued(line, one, at, is_layer)
            names.append(name)
            values.append(value)
            places += some
            at += len(line) + 1
        if self.speaker.undecoded != before:
            # (each time that such a text is met it is counted)
            self.speaker.undecoded = before
            return
        layouts = self._layouts.setdefault(alike, [])
        layout = next((one for one in layouts if one.places == places), None)
        if len(layouts) >= MOST_ALIKE if layout is None else is_new:
            return
        members = f", {self.fragments.plan(tuple(names)) % tuple(values)}" if names else "}"
        if self._kept + len(text) > MOST_KEPT:
            self._layouts.clear()
            self._kept, layout = 0, None
        self._kept += len(text)
        if layout is None:
            layout = Layout(places, len(text))
            self._layouts.setdefault(alike, []).append(layout)
        layout.plans[layout.cut(text)[::2]] = '{"object": "%s"' + _doubled(begin[len('{"object": "0"') :]) + members

    def _valued(self, line: str, told: str, at: int, is_layer: bool) -> Tuple[str, str, Sequence[Place]]:
        """The name of a line that begins at a place, what its value is in a plan, and where what is taken of each object stands."""
        found = _VALUED.fullmatch(line)
        if not found or is_of_bytes(found[1]) or (found[2] and found[1] in STEADY):
            name, said = self.fragments.field(told, is_layer)
            return name, _doubled(said), ()
        name = told[2 : told.index(" ", 2)]
        if found[3]:
            return name, "%s", [(at + found.start(3), at + found.end(3), False)]
        begins = range(at + found.start(2), at + found.end(2), 17)
        marks = ", ".join([WORD] * len(begins))
        return name, marks if len(begins) == 1 else f"[{marks}]", [(begin, begin + 16, True) for begin in begins]


def _doubled(said: str) -> str:
    """What stands in a plan as it is."""
    return said.replace("%", "%%")


def _filled(between: List[str], words: List[bytes]) -> Iterator[str]:
    """What is between words, and these as numbers in turn."""
    numbers = array("d")
    numbers.frombytes(unhexlify(b"".join(words)))
    if sys.byteorder == "little":
        numbers.byteswap()
    if not math.isfinite(sum(numbers)) and not all(map(math.isfinite, numbers)):
        raise ValueError
    filled = [""] * (len(between) + len(numbers))
    filled[::2], filled[1::2] = between, map(repr, numbers)
    return iter(filled)
