"""The text of `show`, read by lines: the classes, and of each object its head and some fields.

The text may have gigabytes; nothing of it is kept.
"""

from __future__ import annotations

import bisect
import re
from dataclasses import dataclass
from typing import Dict, Iterable, Iterator, NamedTuple, Optional, Sequence, Tuple

from .program import ProgramFailed

# What the number of a code page in the header means; any other number is read as 30 is.
CODE_PAGES: Dict[int, str] = {
    1: "ascii",
    **{number: "iso8859_%d" % (number - 1) for number in range(2, 11)},
    11: "cp437", 12: "cp850", 13: "cp852", 14: "cp855", 15: "cp857", 16: "cp860", 17: "cp861",
    18: "cp863", 19: "cp864", 20: "cp865", 21: "cp869", 22: "cp932", 23: "mac_roman", 24: "big5",
    25: "cp949", 26: "johab", 27: "cp866", 28: "cp1250", 29: "cp1251", 30: "cp1252", 31: "gb2312",
    32: "cp1253", 33: "cp1254", 34: "cp1255", 35: "cp1256", 36: "cp1257", 37: "cp874", 38: "cp932",
    39: "gbk", 40: "cp949", 41: "cp950", 42: "johab", 44: "cp1258",
}  # fmt: skip

_CLASS = re.compile(
    rb'class (\d+) version \d+ proxy ([01]) item \d+ app ("[^"]*") cpp ("[^"]*") dxf ("[^"]*")\n'
)
_ESCAPE = re.compile(rb"\\([0-9a-f]{2})")
_HEAD = re.compile(rb"object ([0-9A-F]+) ([0-9A-Z ]+) (typed|plain|raw) (\d+)\n")


@dataclass(frozen=True)
class Class:
    """A class: its names, and whether its objects were proxies."""

    dxf: str
    cpp: str
    application: str
    was_proxy: bool


class Object(NamedTuple):
    """An object: its head, and those of its fields that are wanted, as they are printed."""

    handle: int
    kind: str
    form: str
    number: int
    fields: Dict[bytes, bytes]

    def target(self, name: bytes) -> int:
        """The handle that a reference names; 0 where there is none."""
        return int(self.fields.get(name, b"0.0").partition(b".")[2], 16)


def place_in(handles: Sequence[int], handle: int) -> Optional[int]:
    """Where a handle stands among others that ascend."""
    at = bisect.bisect_left(handles, handle)
    return at if at < len(handles) and handles[at] == handle else None


class Text:
    """A text of `show`: what stands before its objects is known when the first one is."""

    def __init__(self) -> None:
        self._page = 0
        # The first class of each number, which is that of its objects.
        self.classes: Dict[int, Class] = {}

    def objects(self, lines: Iterable[bytes], wanted: Tuple[bytes, ...]) -> Iterator[Object]:
        """The objects in their order, with the fields of these names."""
        begins = tuple(b"  %s " % name for name in wanted)
        head, fields = b"", {}  # type: bytes, Dict[bytes, bytes]
        for line in lines:
            if line.startswith(begins):
                name, _, value = line[2:-1].partition(b" ")
                fields[name] = value
            elif line.startswith(b"object "):
                if head:
                    yield _object(head, fields)
                head, fields = line, {}
            elif not head:
                self._take(line)
        if head:
            yield _object(head, fields)

    def _take(self, line: bytes) -> None:
        """Takes a line before the objects."""
        if line.startswith(b"drawing "):
            self._page = int(line.split()[3])
        elif line.startswith(b"class "):
            found = _CLASS.fullmatch(line)
            if not found:
                raise ProgramFailed("`show` prints what is no class")
            app, cpp, dxf = (decoded(read_text(text), self._page) for text in found.groups()[2:])
            self.classes.setdefault(int(found[1]), Class(dxf, cpp, app, found[2] == b"1"))

    def value(self, one: Object, name: bytes) -> str:
        """A text of an object; empty where it has none."""
        return decoded(read_text(one.fields.get(name, b'""')), self._page)


def _object(head: bytes, fields: Dict[bytes, bytes]) -> Object:
    found = _HEAD.fullmatch(head)
    if not found:
        raise ProgramFailed("`show` prints what is no object")
    kind, form = found[2].decode("ascii"), found[3].decode("ascii")
    return Object(int(found[1], 16), kind, form, int(found[4]), fields)


def read_text(printed: bytes) -> bytes:
    """The bytes of a text that is printed between quotation marks: `\\` and two digits are one."""
    inner = printed[1:-1]
    if b"\\" not in inner:
        return inner
    return _ESCAPE.sub(lambda found: bytes.fromhex(found.group(1).decode("ascii")), inner)


def decoded(text: bytes, number: int) -> str:
    """A text by the number of its code page; a byte that isn't in it becomes a lone surrogate."""
    return text.decode(CODE_PAGES.get(number, "cp1252"), "surrogateescape")
