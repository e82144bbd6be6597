"""The text of `show`, read into what stands before the objects, and the objects. docs/FORMAT.md has it, under “Texts”.

It is read line by line, and one object is held at a time, as it came: a vertex of four bits takes fifty bytes so, ten times as much by its values,
and sixteen bytes as numbers alone (`Lists`).
"""

from __future__ import annotations

import enum
import io
import itertools
import re
import struct
import sys
from array import array
from dataclasses import dataclass, field
from typing import Any, Dict, Iterable, Iterator, List, Optional, Sequence, Tuple

from .encodings import code_page
from .statuses import Exit, ToolError
from .values import BadText, Bytes, Reference, Text, Value, Words, read_bytes, read_field, read_text, read_value
from .versions import LIMIT

# How much text of one object is taken. Coordinates that are spelled in full have three times as much text as bytes, references to handles of three
# bytes six times, so that an object of these may fill a file of 32 MiB. One of repeated points or widths, which have up to 160 bytes of text to a
# byte, passes it from 1.7 MB on, where its text alone would become 5 GB.
MOST_TEXT = 1 << 28
MOST_SHOWN = 164 * LIMIT
MOST_OBJECTS, MOST_CLASSES, MOST_SECTIONS = LIMIT // 7, LIMIT * 8 // 29, 3
# The line that an object begins with.
MOST_HEAD = 100


class TooMuchText(ToolError):
    """An object has more text than is taken."""

    def __init__(self, one: "Object") -> None:
        super().__init__(f"object {one.handle:X} {one.kind} has more than {MOST_TEXT} bytes of text, which is more than the tools take", Exit.TOO_MUCH_TEXT)


_WORDS = re.compile(rb"[0-9A-Fa-f]{16}(?: [0-9A-Fa-f]{16}){0,2}")
_CLASS = re.compile(rb'class (\d{1,10}) version (\d{1,10}) proxy ([01]) item (\d{1,10}) app ("[^"]*") cpp ("[^"]*") dxf ("[^"]*")')
_DRAWING = re.compile(rb"drawing (\S+) codepage (\d{1,10}) lead (\S+) mark (\S+)")
_SECTION = re.compile(rb"section (\d{1,3}) (\S+)")

# How much of a text is split into lines at once, and of how many elements of a list numbers are made.
PIECE, ELEMENTS_AT_ONCE = 1 << 16, 1 << 12


@dataclass
class _Waiting:
    """A list of numbers or points: how many letters the words of an element have, how many elements were taken, and the text of the last ones."""

    width: int
    taken: int = 0
    values: List[bytes] = field(default_factory=list)


@dataclass
class Object:
    """An object of a drawing: handle, kind, form (`typed`, `plain`, `raw`), type number, and its fields as they are printed.

    A line feed stands before the first line too. No line begins with spaces.
    """

    handle: int
    kind: str
    form: str
    number: int
    text: bytes = b"\n"
    # The numbers of lists of numbers or points, by name without brackets, where these aren't in the text; and how much text there was in all.
    lists: Dict[str, "array[float]"] = field(default_factory=dict)
    size: int = 0
    waiting: Dict[bytes, "_Waiting"] = field(default_factory=dict)

    def take(self, printed: bytes) -> bool:
        """Takes the numbers of an element of a list, each after those of the one before; False where it has none. `settle` is called after the last.

        Elements of a list of numbers or points follow each other without a gap, and have as many words each.
        """
        name, _, value = printed.partition(b" ")
        at, end = name.index(b"["), name.index(b"]")
        listed = name[:at] + name[end + 1 :]
        # (of many the text is kept for a while, since one is read alone ten times as slowly)
        some = self.waiting.get(listed)
        if some is None:
            if b"[" in listed or not isinstance(read_value(listed, value), Words):
                return False
            some = self.waiting[listed] = _Waiting(len(value))
        if len(value) != some.width or name[at + 1 : end] != b"%d" % some.taken or not _WORDS.fullmatch(value):
            raise BadText("%s %r after %d elements of %d letters" % (name[:80].decode("ascii", "replace"), value[:80], some.taken, some.width))
        some.taken += 1
        some.values.append(value)
        if len(some.values) >= ELEMENTS_AT_ONCE:
            self.settle()
        return True

    def settle(self) -> None:
        """Makes numbers of all that is kept as text of lists."""
        for listed, some in self.waiting.items():
            numbers = array("d")
            numbers.frombytes(bytes.fromhex(b" ".join(some.values).decode("ascii")))
            if sys.byteorder == "little":
                numbers.byteswap()
            self.lists.setdefault(listed.decode("ascii", "replace"), array("d")).extend(numbers)
            some.values.clear()

    @property
    def lines(self) -> Iterator[bytes]:
        """The lines of the fields."""
        return self.lines_from(1)

    def lines_from(self, at: int) -> Iterator[bytes]:
        """The lines of the fields from a place on, where one begins."""
        while at < len(self.text):
            end = self.text.find(b"\n", at + PIECE)
            piece = self.text[at : end if end >= 0 else -1]
            at += len(piece) + 1
            yield from piece.split(b"\n")

    def elements(self, name: bytes) -> Iterator[bytes]:
        """The lines of the elements of a list, which stand one after the other."""
        prefix = name + b"["
        return itertools.takewhile(lambda line: line.startswith(prefix), self.lines_from(self.text.find(b"\n" + prefix) + 1))

    @property
    def fields(self) -> Iterator[Tuple[str, Value]]:
        """The fields in their order, each with its path and its value."""
        return map(read_field, self.lines)

    def value(self, path: str) -> Optional[Value]:
        """The value at a path, or None where the object has no such field."""
        at = self.text.find(b"\n" + path.encode("ascii") + b" ")
        return None if at < 0 else read_field(self.text[at + 1 : self.text.index(b"\n", at + 1)])[1]

    @property
    def is_entity(self) -> bool:
        """Whether it is an entity whose common part is read: these alone have a mode."""
        return self.value("mode") is not None

    def reference(self, path: str) -> Optional[Reference]:
        """The reference at a path, or None where there is none."""
        found = self.value(path)
        return found if isinstance(found, Reference) else None

    def target(self, path: str) -> int:
        """The handle that the reference at a path names; 0 where there is none."""
        found = self.reference(path)
        return found.handle if found else 0

    def integer(self, path: str, missing: int = 0) -> int:
        """The number at a path, or what is given for a missing one."""
        found = self.value(path)
        return found if isinstance(found, int) else missing


@dataclass(frozen=True)
class Class:
    """A class: what the objects of a type number are."""

    number: int
    version: int
    proxy: int
    item: int
    app: Text
    cpp: Text
    dxf: Text


class Classes(Sequence[Class]):
    """The classes of a drawing in their order, packed: of a file of 32 MiB there may be nine million, of 29 bits each."""

    # The number, the version, whether it was a proxy, the item class, and how many bytes each of the three texts has, which stand after.
    HEAD = struct.Struct("<HHBHHHH")

    def __init__(self) -> None:
        self._packed, self._places = bytearray(), array("I")

    def append(self, one: Class) -> None:
        """Puts a class after the others; BadText where it has a number that no class has."""
        texts = (one.app, one.cpp, one.dxf)
        try:
            head = self.HEAD.pack(one.number, one.version, one.proxy, one.item, *map(len, texts))
        except struct.error:
            raise BadText("a class of number %d that no drawing has" % one.number) from None
        self._places.append(len(self._packed))
        self._packed += b"".join((head, *texts))

    def __len__(self) -> int:
        return len(self._places)

    def __getitem__(self, index: Any) -> Any:
        place = self._places[index]
        number, version, proxy, item, *sizes = self.HEAD.unpack_from(self._packed, place)
        place += self.HEAD.size
        texts = []
        for size in sizes:
            texts.append(Text(self._packed[place : place + size]))
            place += size
        return Class(number, version, proxy, item, *texts)

    def __eq__(self, other: object) -> bool:
        return isinstance(other, Classes) and self._packed == other._packed

    def numbers(self) -> Iterator[int]:
        """The numbers of the classes."""
        return (self._packed[place] | self._packed[place + 1] << 8 for place in self._places)


@dataclass
class Prefix:
    """What the text of `show` says before its objects."""

    version: str
    codepage: int
    lead: Bytes
    mark: Bytes
    variables: Bytes
    classes: Classes
    sections: List[Tuple[int, Bytes]]
    count: int
    # The code page by which texts are read, where it isn't that of the header.
    read_by: Optional[str] = None

    @property
    def page(self) -> str:
        """The code page of the texts."""
        return self.read_by or code_page(self.codepage)


def _next(lines: Iterator[bytes]) -> bytes:
    """The next line without its line feed."""
    line = next(lines, b"")
    if not line.endswith(b"\n"):
        raise BadText("the text ends too early")
    return line[:-1]


def _after(word: bytes, line: bytes) -> bytes:
    """What stands after the word that a line begins with."""
    if not line.startswith(word + b" "):
        raise BadText("%r where %s should stand" % (line[:40], word.decode("ascii")))
    return line[len(word) + 1 :]


def _count(word: bytes, line: bytes, most: int) -> int:
    """The number after a word, of things of which a drawing has so many at the most."""
    printed = _after(word, line)
    if not printed.isdigit() or len(printed) > 10 or int(printed) > most:
        raise BadText("%r %s, which no drawing has" % (printed[:40], word.decode("ascii")))
    return int(printed)


def _read_class(line: bytes) -> Class:
    """A line of a class."""
    found = _CLASS.fullmatch(line)
    if not found:
        raise BadText("no class: %r" % line[:80])
    number, version, proxy, item = (int(part) for part in found.groups()[:4])
    app, cpp, dxf = (read_text(part) for part in found.groups()[4:])
    return Class(number, version, proxy, item, app, cpp, dxf)


def read_prefix(lines: Iterator[bytes]) -> Prefix:
    """Takes the lines before the objects."""
    found = _DRAWING.fullmatch(_next(lines))
    if not found:
        raise BadText("this is no text of show")
    version, codepage, lead, mark = found.groups()
    variables = read_bytes(_after(b"variables", _next(lines)))
    classes = Classes()
    for _ in range(_count(b"classes", _next(lines), MOST_CLASSES)):
        classes.append(_read_class(_next(lines)))
    sections: List[Tuple[int, Bytes]] = []
    line = _next(lines)
    section = _SECTION.fullmatch(line)
    while section and len(sections) < MOST_SECTIONS:
        sections.append((int(section[1]), read_bytes(section[2])))
        line = _next(lines)
        section = _SECTION.fullmatch(line)
    count = _count(b"objects", line, MOST_OBJECTS)
    return Prefix(version.decode("ascii"), int(codepage), read_bytes(lead), read_bytes(mark), variables, classes, sections, count)


def _head(line: bytes) -> Object:
    """The line that an object begins with."""
    if len(line) > MOST_HEAD:
        raise BadText("%r where an object should begin" % line[:80])
    parts = line.decode("ascii", "replace").split()
    if len(parts) < 5 or parts[0] != "object":
        raise BadText("%r where an object should begin" % line[:80])
    return Object(int(parts[1], 16), " ".join(parts[2:-2]), parts[-2], int(parts[-1]))


def told_apart(one: Object, text: bytes) -> Object:
    """The object with its text. In a face `show` has `invisible` twice, for the face and then for its edges; the second is `invisible_edges` here."""
    if one.kind == "3DFACE":
        edges = text.find(b"\ninvisible ", text.find(b"\ninvisible ") + 1)
        text = text if edges <= 0 else text[:edges] + text[edges:].replace(b"\ninvisible ", b"\ninvisible_edges ")
    one.text = text
    one.settle()
    return one


def _is_element(line: bytes) -> bool:
    """Whether a line has an element of a list."""
    bracket = line.find(b"[")
    return bracket >= 0 and line.find(b" ", 2, bracket) < 0


class Lists(enum.Enum):
    """What becomes of the elements of lists: they stay in the text, are left out, or where they are numbers or points become numbers, which take
    a fifth of the memory."""

    TEXT = 0
    NONE = 1
    NUMBERS = 2


def read_objects(lines: Iterable[bytes], count: Optional[int] = None, lists: Lists = Lists.TEXT) -> Iterator[Object]:
    """The objects after the prefix, one at a time; BadText where there are fewer or more than are said, TooMuchText where one has more than is taken."""
    found = 0
    for one in further_objects(lines, found, count, lists):
        found += 1
        yield one
    refuse_count(found, count)


def refuse_count(found: int, count: Optional[int]) -> None:
    """Refuses a text of so many objects where others are said."""
    if count is not None and found != count:
        raise BadText("%d objects where %d are said" % (found, count))


def refuse_more(found: int, count: Optional[int]) -> None:
    """Refuses another object after so many where no more are said."""
    if found == count:
        raise BadText("more than the %d objects that are said" % found)


def further_objects(lines: Iterable[bytes], found: int, count: Optional[int], lists: Lists = Lists.TEXT) -> Iterator[Object]:
    """The objects of some lines, after so many that were found before; BadText where there are more in all than are said."""
    current, text = None, io.BytesIO()
    for line in lines:
        if line[:2] == b"  " and current is not None:
            if line[-1:] != b"\n":
                raise BadText("the text ends too early")
            is_element = lists is not Lists.TEXT and _is_element(line)
            if is_element and lists is Lists.NONE:
                continue
            current.size += len(line)
            if current.size > MOST_TEXT:
                raise TooMuchText(current)
            if not (is_element and current.take(line[2:-1])):
                text.write(line[2:])
            continue
        if current is not None:
            # (what is written is handed on as it is, and not copied)
            yield told_apart(current, text.getvalue())
        refuse_more(found, count)
        current, text = _head(line), io.BytesIO()
        text.write(b"\n")
        found += 1
    if current is not None:
        yield told_apart(current, text.getvalue())


def objects(lines: Iterable[bytes]) -> Iterator[Object]:
    """The objects of a text of `show`."""
    taken = iter(lines)
    prefix = read_prefix(taken)
    return read_objects(taken, prefix.count)
