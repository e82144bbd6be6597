"""The text of `show` in pieces of whole objects, each of which is read as one, and the names that references lead to.

What isn't as it should be, and an object that is longer than a piece, is left to `show`, which reads line by line and says what is wrong.
"""

from __future__ import annotations

import io
import re
from itertools import filterfalse
from sys import intern
from typing import IO, Callable, Iterable, Iterator, List, Match, Optional, Union

from . import show
from .names import NAMED, Names
from .show import Lists, Object, further_objects, refuse_count, refuse_more, told_apart
from .statuses import ToolError
from .values import BadText, Text, read_value

# How many bytes a piece has, but for the object that it ends with.
SIZE = 1 << 16

# What a piece begins with, and what stands before each other object.
BEGIN, BETWEEN = b"object ", b"\nobject "

# A piece, or the lines of one object that is longer.
Piece = Union[bytes, Iterator[bytes]]
# Where the head of an object was found in its text, as `parts_of` gives that; this, or the object itself; and what takes some objects by their heads.
Head = Match[bytes]
Found = Union[Head, Object]
Taker = Callable[[Head], bool]


def pieces_of(text: IO[bytes]) -> Iterator[Piece]:
    """The pieces of a text of objects; the lines of a long object are to be taken before the next."""
    rest = b""
    while True:
        block = text.read(SIZE)
        rest += block
        cut = rest.rfind(BETWEEN) + 1 if block else len(rest)
        if cut:
            yield rest[:cut]
            rest = rest[cut:]
        elif len(rest) >= SIZE:
            after: List[bytes] = []
            yield _lines(rest, text, after)
            rest = b"".join(after)
        if not block:
            return


def _lines(begin: bytes, text: IO[bytes], after: List[bytes]) -> Iterator[bytes]:
    """The lines of the object that a text begins with; the line after them is noted."""
    cut = begin.rfind(b"\n") + 1
    yield from io.BytesIO(begin[:cut])
    line = begin[cut:] + text.readline()
    while line and not line.startswith(BEGIN):
        yield line
        line = text.readline()
    after.append(line)


def lines_of(piece: Piece) -> Iterator[bytes]:
    """The lines of a piece."""
    return iter(io.BytesIO(piece)) if isinstance(piece, bytes) else piece


def parts_of(piece: Piece) -> Optional[List[bytes]]:
    """The objects of a piece, each without the word before its handle and without its last line end; None where a line is neither field nor head."""
    parts = divided(piece) if isinstance(piece, bytes) else []
    return parts if parts and piece.count(b"\n") - len(parts) == piece.count(b"\n  ") else None  # type: ignore[union-attr]


def divided(piece: bytes) -> List[bytes]:
    """A piece at each line that begins an object; none where it doesn't begin and end as one. Any other line may stand in it."""
    return piece[len(BEGIN) : -1].split(BETWEEN) if piece.startswith(BEGIN) and piece.endswith(b"\n") else []


_HEAD = re.compile(rb"([0-9A-F]{1,16}) ([A-Z0-9]{1,12}(?: [A-Z0-9]{1,12}){0,3}) (typed|plain|raw) ([0-9]{1,9})(?=\n|\Z)")
_NAMED = {kind.encode("ascii") for kind in NAMED}
_NAME = b"\n  entry.name "


def objects_in(text: IO[bytes], count: int, lists: Lists = Lists.TEXT, is_taken: Optional[Taker] = None) -> Iterator[Object]:
    """The objects of a text of so many, as `read_objects` gives them, but for those that are taken by their heads."""
    return _objects_of(_all_in(text, count, lists, is_taken), lists)


def _objects_of(found: Iterable[Found], lists: Lists) -> Iterator[Object]:
    """Objects, of which some are found by their heads."""
    return (one if isinstance(one, Object) else _object_of(one, lists) for one in found)


def _all_in(text: IO[bytes], count: int, lists: Lists, is_taken: Optional[Taker]) -> Iterator[Found]:
    """The objects of a text of so many that aren't taken: each by its head, or as an object where it was read line by line."""
    found = 0
    for piece in pieces_of(text):
        heads = _sound_heads_of(piece)
        if heads and found + len(heads) <= count:
            found += len(heads)
            yield from filterfalse(is_taken, heads) if is_taken else heads
            continue
        for one in _found_in(piece, found, count, lists):
            found += 1
            if is_taken is None or isinstance(one, Object) or not is_taken(one):
                yield one
    refuse_count(found, count)


def _object_of(head: Head, lists: Lists) -> Object:
    """The object of a head."""
    part = head.string
    if lists is not Lists.TEXT and b"[" in part:
        return next(further_objects(lines_of(BEGIN + part + b"\n"), 0, None, lists))
    handle, kind, form, number = head.groups()
    # (a line feed stands before the first line too)
    text = part[head.end() :].replace(b"\n  ", b"\n") + b"\n"
    one = Object(int(handle, 16), intern(kind.decode("ascii")), intern(form.decode("ascii")), int(number), size=len(part) - head.end())
    return told_apart(one, text)


def _head_of(part: bytes) -> Optional[Head]:
    """The head of an object; None of one that is to be read line by line."""
    return _HEAD.match(part) if len(part) < show.MOST_TEXT else None


def _sound_heads_of(piece: Piece) -> List[Head]:
    """The heads of all objects of a piece; none where any of these is to be read line by line."""
    parts = parts_of(piece)
    if not parts or (len(piece) >= show.MOST_TEXT and max(map(len, parts)) >= show.MOST_TEXT):  # type: ignore[arg-type]
        return []
    heads = list(filter(None, map(_HEAD.match, parts)))
    return heads if len(heads) == len(parts) else []


def _found_in(piece: Piece, found: int, count: int, lists: Lists) -> Iterator[Found]:
    """The objects of a piece, before which so many were found."""
    parts = parts_of(piece)
    if parts is None:
        yield from further_objects(lines_of(piece), found, count, lists)
        return
    for part in parts:
        refuse_more(found, count)
        head = _head_of(part)
        if head:
            found += 1
            yield head
            continue
        for one in further_objects(lines_of(BEGIN + part + b"\n"), found, count, lists):
            found += 1
            yield one


def _take_names(heads: List[Head], names: Names) -> None:
    """Takes the names of the objects that have one."""
    for head in heads:
        if head[2] not in _NAMED:
            continue
        _, has_name, rest = head.string.partition(_NAME)
        name = read_value(b"entry.name", rest.partition(b"\n")[0]) if has_name else None
        if isinstance(name, Text):
            names.put(int(head[1], 16), name)


def names_in(text: IO[bytes], count: int) -> Names:
    """The names of layers, styles, linetypes, applications and blocks, by handle, in a text of so many objects."""
    names, found = Names(), 0
    for piece in pieces_of(text):
        heads = _sound_heads_of(piece)
        if heads and found + len(heads) <= count:
            _take_names(heads, names)
            found += len(heads)
            continue
        for one in further_objects(lines_of(piece), found, count):
            found += 1
            names.take(one)
    refuse_count(found, count)
    return names


class Course:
    """The objects of a text of so many, which are taken one by one, or passed over where another text has the same."""

    def __init__(self, text: IO[bytes], count: int, told: Callable[[Exception], Exception] = lambda fault: fault) -> None:
        self.text, self.count, self.found = text, count, 0
        # What becomes of its faults.
        self.told = told
        # What is held, where an object begins in it, and whether nothing comes after.
        self.held, self.at, self.is_whole = b"", 0, False
        # The objects of the piece in hand, which is one object but where a head is to be read by itself, and the next of these.
        self._objects: Iterator[Object] = iter(())
        self._next: Optional[Object] = None

    def fill(self) -> None:
        """Holds as much as a piece from where an object begins on, unless the text ends."""
        if not self.is_whole and len(self.held) - self.at < SIZE:
            block = self.text.read(SIZE)
            self.held, self.at, self.is_whole = self.held[self.at :] + block, 0, not block

    @property
    def is_between(self) -> bool:
        """Whether no object is in hand."""
        return self._next is None

    def take(self) -> Optional[Object]:
        """The next object; None after the last."""
        one = self._next
        if one is None:
            self._objects = self._counted(self._piece())
            one = next(self._objects, None)
        # (a long object is read to its end by this, so that the text goes on at the next)
        self._next = next(self._objects, None)
        return one

    def _piece(self) -> Piece:
        """The text of the next object, or the lines of one that is longer than a piece; nothing after the last."""
        self.fill()
        begin, end = self.at, self.held.find(BETWEEN, self.at) + 1
        if not end and not self.is_whole:
            return self._long()
        self.at = end or len(self.held)
        return self.held[begin : self.at]

    def _long(self) -> Iterator[bytes]:
        """The lines of the next object; what stands after it is held then."""
        after: List[bytes] = []
        yield from _lines(self.held[self.at :], self.text, after)
        self.held, self.at = b"".join(after), 0

    def _counted(self, piece: Piece) -> Iterator[Object]:
        """The objects of a piece, which are counted; nothing stands after the last one that is said."""
        try:
            if not piece:
                refuse_count(self.found, self.count)
                return
            for one in _objects_of(_found_in(piece, self.found, self.count, Lists.TEXT), Lists.TEXT):
                self.found += 1
                yield one
        except (BadText, ToolError) as fault:
            raise self.told(fault) from None

    def whole(self, size: int) -> int:
        """How many of so many bytes are whole objects, by what is held of them."""
        end = self.at + size
        return size if self.is_whole and end == len(self.held) else self.held.rfind(BETWEEN, self.at, end) + 1 - self.at

    def pass_over(self, piece: bytes, sound: int) -> None:
        """Passes over a piece that begins here, which has so many objects, or 0 where any of these is to be read line by line."""
        self.at += len(piece)
        if sound and self.found + sound <= self.count:
            self.found += sound
            return
        for _ in self._counted(piece):
            pass


def pass_same(one: Course, other: Course) -> None:
    """Passes over the objects that two texts have in common from where they are."""
    while True:
        one.fill()
        other.fill()
        size = _common(one, other)
        size = min(one.whole(size), other.whole(size))
        if size <= 0:
            return
        piece = one.held[one.at : one.at + size]
        sound = len(_sound_heads_of(piece))
        one.pass_over(piece, sound)
        other.pass_over(piece, sound)


# How many bytes are compared first.
FIRST = 64


def _common(one: Course, other: Course) -> int:
    """How many bytes of what is held are the same, or few less: steps are as long as all before, and half as long each from where one differs."""
    most = min(len(one.held) - one.at, len(other.held) - other.at)
    size, step, is_same = 0, FIRST, True
    while step and size < most:
        step = min(step, most - size)
        begin, beside = one.at + size, other.at + size
        if one.held[begin : begin + step] == other.held[beside : beside + step]:
            size += step
            step = max(size, FIRST) if is_same else step // 2
        else:
            is_same, step = False, step // 2
    return size
