"""JSON of objects, put together of fragments that are kept by line: many lines of a drawing are the same.

What isn't as it should be is left to `Speaker`, which puts an object together field by field, and says what is wrong.
"""

from __future__ import annotations

import json
import re
import struct
from sys import intern
from typing import Dict, List, Tuple

from . import show
from .json_values import UNESCAPED, Speaker, put, texts
from .values import BYTES, BadText, Text, read_value

# How much text an object has of which the lists are told element by element: the values of all take ten times as much.
LONG = 1 << 14

# How many lines are kept for a while; and how many names of fields the plans have that are kept.
MOST_LINES, MOST_NAMES = 1 << 13, 1 << 16
# How long a line is that is kept, and what is said of words: so many digits no other line has.
LONGEST, LONGEST_OF_WORDS = 100, 25

_HEAD = re.compile(r"(0|[1-9A-F][0-9A-F]{0,15}) ([A-Z0-9]{1,12}(?: [A-Z0-9]{1,12}){0,3}) (typed|plain|raw) (0|[1-9][0-9]{0,8})")
_FIELD = re.compile(r"  ([a-z][a-z0-9_.\[\]]*) (?:([0-9A-F]{16}(?: [0-9A-F]{16}){0,2})|(.+))")
_REFERENCE = re.compile(r"([0-9A-F])\.([0-9A-F]{1,16})")
_PLACE = re.compile(r'"@([0-9]+)"')

# The members that an object begins with.
FIRST = ("object", "kind", "form", "type")

# What the names of bytes end with; some others may too.
_BYTES = tuple(name.decode("ascii") for name in BYTES)

# How one, two or three words are read and said, by how long they are.
_WORDS = {16: (struct.Struct(">d").unpack, "%r"), 33: (struct.Struct(">2d").unpack, "[%r, %r]"), 50: (struct.Struct(">3d").unpack, "[%r, %r, %r]")}

# The name of a field, and its value in JSON.
Field = Tuple[str, str]


class Odd(Exception):
    """An object that isn't put together of fragments."""


class Fragments:
    """Puts objects together, as the speaker would say them on a line each."""

    def __init__(self, speaker: Speaker) -> None:
        self.speaker = speaker
        self._encode = json.JSONEncoder().encode
        # By whether they are of a layer, whose colour is a number alone.
        self._fields: Dict[bool, Dict[str, Field]] = {False: {}, True: {}}
        self._plans: Dict[Tuple[str, ...], str] = {}
        self._planned = 0

    def of_bytes(self, part: bytes) -> str:
        """An object in JSON, by its text without the first word and the last line end."""
        if len(part) >= min(LONG, show.MOST_TEXT) or not part.isascii():
            raise Odd
        before = self.speaker.undecoded
        try:
            return self._object(part.decode("ascii"))
        except (Odd, BadText, ValueError):
            self.speaker.undecoded = before
            raise Odd from None

    def _object(self, part: str) -> str:
        head, *lines = part.split("\n")
        said, is_layer = self.begin(head, lines)
        if not lines:
            return said + "}"
        get = self._fields[is_layer].get
        names, values = zip(*[get(line) or self.field(line, is_layer) for line in lines])
        plan = self._plans.get(names) or self.plan(names)
        return f"{said}, {plan % values}"

    def begin(self, head: str, lines: List[str]) -> Tuple[str, bool]:
        """What an object begins with, and whether it is a layer; the lines of a face are told apart."""
        begin = _HEAD.fullmatch(head)
        if not begin:
            raise Odd
        handle, kind, form, type_number = begin.groups()
        if kind == "3DFACE":
            _tell_apart(lines)
        return f'{{"object": "{handle}", "kind": "{kind}", "form": "{form}", "type": {type_number}', kind == "LAYER"

    def field(self, line: str, is_layer: bool) -> Field:
        """The field of a line, which is kept where it is short and its text is decoded whole."""
        found, before = _FIELD.fullmatch(line), self.speaker.undecoded
        if not found:
            raise Odd
        name, words, printed = found.groups()
        said = (words and _said_words(name, words)) or self._value(name, words or printed, name == "colour" and not is_layer)
        field = intern(name), said
        if self.speaker.undecoded == before and len(said if words else line) < (LONGEST_OF_WORDS if words else LONGEST):
            kept = self._fields[is_layer]
            if len(kept) >= MOST_LINES:
                kept.clear()
            kept[line] = field
        return field

    def _value(self, name: str, printed: str, is_colour: bool) -> str:
        """A value in JSON."""
        if printed[1:2] == "." and not is_of_bytes(name):
            reference = _REFERENCE.fullmatch(printed)
            if reference:
                return self.reference(*reference.groups())
        value = read_value(name.encode("ascii"), printed.encode("ascii"))
        if isinstance(value, Text):
            return self._texts(name, self.speaker.text(value))
        return self._encode(self.speaker.colour(value) if is_colour else self.speaker.value(value))

    def _texts(self, name: str, said: str) -> str:
        """A text, and after it the member that it has beside it, where it has one."""
        return self._encode(texts(name[name.rfind(".") + 1 :], said))[len(self._encode(name[name.rfind(".") + 1 :])) + 3 : -1]

    def reference(self, code: str, handle: str) -> str:
        """A reference, with the name of where it leads."""
        target = int(handle, 16)
        name = self.speaker.names.get(target)
        named = "" if name is None else f', {self._encode(texts("name", self.speaker.text(name)))[1:-1]}'
        return f'{{"code": {int(code, 16)}, "handle": "{target:X}"{named}}}'

    def plan(self, names: Tuple[str, ...]) -> str:
        """The members that fields make, with a place for each value in turn, and the end of the object."""
        tree: Dict[str, object] = {}
        for at, name in enumerate(names):
            put(tree, name, f"@{at}")
        between = _PLACE.split(self._encode(tree)[1:])
        if between[1::2] != [str(at) for at in range(len(names))] or any(name in tree for name in FIRST) or any(name.endswith(UNESCAPED) for name in names):
            raise Odd
        self._planned += len(names)
        if self._planned > MOST_NAMES:
            self._plans.clear()
            self._planned = len(names)
        plan = self._plans[names] = "%s".join(between[::2])
        return plan


def is_of_bytes(name: str) -> bool:
    """Whether a field may have bytes, whose digits can look like a number."""
    return name.endswith(_BYTES)


def _said_words(name: str, words: str) -> str:
    """A number or a point; nothing where one is infinite or no number, or these are bytes."""
    unpack, form = _WORDS[len(words)]
    said = form % unpack(bytes.fromhex(words))
    return "" if "n" in said or is_of_bytes(name) else said


def _tell_apart(lines: List[str]) -> None:
    """Has the edges of a face another name than the face itself, as in `Object`."""
    is_edges = False
    for at, line in enumerate(lines):
        if line.startswith("  invisible "):
            lines[at] = line.replace("invisible", "invisible_edges", 1) if is_edges else line
            is_edges = True
