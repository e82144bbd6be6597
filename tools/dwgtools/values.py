"""The values of the fields that `show` prints, as docs/FORMAT.md has them under “Texts”."""

from __future__ import annotations

import binascii
import math
import re
import struct
from dataclasses import dataclass
from functools import lru_cache
from typing import List, Tuple, Union


class BadText(Exception):
    """A line that the text of `show` doesn't have, or a text that ends too early."""


@dataclass(frozen=True)
class Reference:
    """A reference: its code and the handle that it names; 0 is the null handle."""

    code: int
    handle: int

    def __str__(self) -> str:
        return "%X.%X" % (self.code, self.handle)


class Words(Tuple[int, ...]):
    """One, two or three 64-bit words on a line: a number, or a point. Each is an IEEE double."""

    def doubles(self) -> Tuple[float, ...]:
        """The words as doubles, exactly."""
        count = len(self)
        return struct.unpack(f"<{count}d", struct.pack(f"<{count}Q", *self))


class Text(bytes):
    """The bytes of a text, in the code page of the drawing."""


class Bytes(bytes):
    """Bytes that are no text."""


Value = Union[int, Reference, Words, Text, Bytes]

# The members that are printed as bytes. The digits of bytes can look like a number, so it is the name that tells.
BYTES = {b"bytes", b"graphic", b"preview", b"texts", b"rest"}

_ESCAPE = re.compile(rb"\\([0-9a-f]{2})")


def double(word: int) -> float:
    """The IEEE double that a 64-bit word is."""
    return float(struct.unpack("<d", struct.pack("<Q", word))[0])


def number(word: int) -> Union[float, str]:
    """The double that a word is; for an infinity or what is no number its name and the word, as JSON has no numbers for these."""
    value = double(word)
    if math.isfinite(value):
        return value
    name = "NaN" if math.isnan(value) else "Infinity" if value > 0 else "-Infinity"
    return f"{name} {word:016X}"


def read_text(printed: bytes) -> Text:
    """A text as it is printed, between quotation marks: a backslash and two digits are a byte."""
    if len(printed) < 2 or printed[:1] != b'"' or printed[-1:] != b'"':
        raise BadText("no text: %r" % printed[:80])
    inner = printed[1:-1]
    if b"\\" in inner:
        inner = _ESCAPE.sub(lambda found: bytes([int(found.group(1), 16)]), inner)
    return Text(inner)


def read_bytes(printed: bytes) -> Bytes:
    """Bytes as they are printed: two digits each, or a hyphen where there are none."""
    return Bytes(b"" if printed == b"-" else binascii.unhexlify(printed))


def read_value(name: bytes, printed: bytes) -> Value:
    """What is printed after the name of a field."""
    try:
        if printed[:1] == b'"':
            return read_text(printed)
        if name[name.rfind(b".") + 1 :] in BYTES:
            return read_bytes(printed)
        if b"." in printed and len(printed) <= 18:
            code, _, handle = printed.partition(b".")
            return Reference(int(code, 16), int(handle, 16))
        if len(printed) in (16, 33, 50):
            return Words(int(printed[place : place + 16], 16) for place in range(0, len(printed), 17))
        if printed.isdigit() and len(printed) <= 10:
            return int(printed)
    except ValueError:
        pass
    raise BadText("no value of %s: %r" % (name[:80].decode("ascii", "replace"), printed[:80]))


def read_line(line: bytes) -> Tuple[str, Value]:
    """A field: its path and its value."""
    name, _, printed = line.partition(b" ")
    return name.decode("ascii", "replace"), read_value(name, printed)


# Many lines of a drawing are the same, so short ones are kept for a while.
_read_short = lru_cache(maxsize=1 << 13)(read_line)


def read_field(line: bytes) -> Tuple[str, Value]:
    """A field: its path and its value."""
    return _read_short(line) if len(line) < 100 else read_line(line)


@lru_cache(maxsize=1 << 13)
def steps(path: str) -> Tuple[Union[str, int], ...]:
    """The steps of a path: `items[0].name` is `items`, 0, `name`."""
    found: List[Union[str, int]] = []
    for part in path.split("."):
        name, *indices = part.split("[")
        found.append(name)
        found.extend(int(index[:-1]) for index in indices)
    return tuple(found)
