"""What a drawing says, as lines of JSON: by layouts and fragments of objects, or where that can't be, field by field."""

from __future__ import annotations

import json
import struct
from typing import IO, Any, Dict, Iterable, List

from .drawings import Drawing
from .fragments import LONG, Fragments, Odd
from .json_values import Speaker
from .layouts import Layouts
from .pieces import BEGIN, Piece, divided, lines_of, parts_of, pieces_of
from .show import Object, further_objects, refuse_count, refuse_more
from .workers import MOST_WORKERS, Workers

# How many objects a drawing has on which several processes work.
MANY = 2_000

# What a worker says before the lines of a piece: how many objects it has, and how many texts couldn't be decoded whole.
_COUNTS = struct.Struct("<QQ")


class Lines:
    """Writes the lines of a drawing, and counts its objects."""

    def __init__(self, out: IO[bytes], speaker: Speaker, pretty: bool) -> None:
        form: Dict[str, Any] = {"indent": 2} if pretty else {"separators": (", ", ": ")}
        self._out, self._speaker = out, speaker
        self._encoder = json.JSONEncoder(allow_nan=False, **form)
        # (how far a member stands in is of its place, and in no fragment)
        self.fragments = None if pretty else Fragments(speaker)
        self._layouts = self.fragments and Layouts(self.fragments)
        self._found = 0

    def line(self, said: Dict[str, Any]) -> None:
        """Writes a line."""
        self._out.write(self._encoder.encode(said).encode("ascii") + b"\n")

    def objects(self, text: IO[bytes], count: int) -> None:
        """Writes the objects of a text of so many."""
        with Workers(self._worked, MOST_WORKERS if self.fragments and count >= MANY else 0) as workers:
            for piece in pieces_of(text):
                for each, said in workers.put(piece) if isinstance(piece, bytes) else workers.rest():
                    self._take(each, self._worked(each) if said is None else said, count)
                if not isinstance(piece, bytes):
                    self._take(piece, b"", count)
            for each, said in workers.rest():
                self._take(each, said, count)
        refuse_count(self._found, count)

    def _worked(self, piece: bytes) -> bytes:
        """What a worker makes of a piece; nothing where it is to be looked at again."""
        # (each line of them is looked at)
        parts, before = divided(piece), self._speaker.undecoded
        try:
            said = self._layouts.objects(parts) if self._layouts and parts else ""
        except Odd:
            said = ""
        undecoded, self._speaker.undecoded = self._speaker.undecoded - before, before
        return _COUNTS.pack(len(parts), undecoded) + said.encode("ascii") if parts and said else b""

    def _take(self, piece: Piece, said: bytes, count: int) -> None:
        """Writes what a worker made of a piece, and what none did."""
        found, undecoded = _COUNTS.unpack_from(said) if said else (0, 0)
        if said and self._found + found <= count:
            self._out.write(said[_COUNTS.size :])
            self._found += found
            self._speaker.undecoded += undecoded
            return
        parts = parts_of(piece) if self.fragments else None
        if parts is None:
            self._by_fields(lines_of(piece), count)
        else:
            self._by_fragments(parts, count)

    def _by_fragments(self, parts: List[bytes], count: int) -> None:
        """Writes objects by their fragments, and those of which that can't be by their fields; what is said so far is written before a fault."""
        said: List[str] = []
        try:
            for part in parts:
                refuse_more(self._found, count)
                try:
                    if self.fragments is None:
                        raise Odd
                    said.append(self.fragments.of_bytes(part))
                    self._found += 1
                except Odd:
                    self._out.write(_joined(said))
                    said = []
                    self._by_fields(lines_of(BEGIN + part + b"\n"), count)
        finally:
            self._out.write(_joined(said))

    def _by_fields(self, lines: Iterable[bytes], count: int) -> None:
        """Writes the objects of some lines field by field."""
        for one in further_objects(lines, self._found, count):
            self._found += 1
            self._put(one)

    def _put(self, one: Object) -> None:
        """Writes an object, piece by piece where it is long."""
        is_short = len(one.text) < LONG
        for piece in [self._encoder.encode(self._speaker.object(one))] if is_short else self._encoder.iterencode(self._speaker.long_object(one)):
            self._out.write(piece.encode("ascii"))
        self._out.write(b"\n")


def _joined(said: List[str]) -> bytes:
    """Objects on a line each."""
    return "\n".join([*said, ""]).encode("ascii")


def write(drawing: Drawing, out: IO[bytes], pretty: bool) -> int:
    """Writes the lines of a drawing, and gives how many texts couldn't be decoded whole."""
    with drawing.named_text() as (prefix, names, text):
        speaker = Speaker(names, prefix.page)
        lines = Lines(out, speaker, pretty)
        for line in speaker.prefix(prefix):
            lines.line(line)
        lines.objects(text, prefix.count)
    return speaker.undecoded
