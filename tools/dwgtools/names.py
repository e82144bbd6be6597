"""Names by handle, and what an object is called."""

from __future__ import annotations

import bisect
from array import array
from typing import Dict, Iterator, Mapping

from .encodings import decoded
from .show import Object, Prefix
from .values import BadText, Text

# The kinds of objects that others refer to by a name.
NAMED = {"LAYER", "STYLE", "LTYPE", "APPID", "BLOCK HEADER"}

# A name of more bytes isn't told with what refers to it: with each of a million references it would make gigabytes of a small drawing.
LONGEST_NAME = 255


class Names(Mapping[int, Text]):
    """Names by handle, which were put in by ascending handles, packed: a table may have more than a million entries of twenty bytes each.

    Those that are longer than is told aren't held.
    """

    def __init__(self) -> None:
        self._last = -1
        self._handles, self._ends, self._letters = array("Q"), array("I"), bytearray()

    def put(self, handle: int, name: Text) -> None:
        """Puts in the name of a handle; BadText where that isn't above those before."""
        if not self._last < handle < 1 << 63:
            raise BadText("object %X after one of a handle that isn't below" % handle)
        self._last = handle
        if len(name) > LONGEST_NAME:
            return
        self._handles.append(handle)
        self._letters += name
        self._ends.append(len(self._letters))

    def take(self, one: Object) -> None:
        """Puts in the name of an object, where it has one that others refer to it by."""
        name = one.value("entry.name") if one.kind in NAMED else None
        if isinstance(name, Text):
            self.put(one.handle, name)

    def __len__(self) -> int:
        return len(self._handles)

    def __iter__(self) -> Iterator[int]:
        return iter(self._handles)

    def __getitem__(self, handle: int) -> Text:
        at = bisect.bisect_left(self._handles, handle)
        if at == len(self._handles) or self._handles[at] != handle:
            raise KeyError(handle)
        return Text(self._letters[self._ends[at - 1] if at else 0 : self._ends[at]])




# What a type number below 500 is called where its kind is only ENTITY or OBJECT. The names are those of the Open Design Specification.
TYPE_NAMES: Dict[int, str] = {
    10: "VERTEX (2D)", 12: "VERTEX (MESH)", 13: "VERTEX (PFACE)", 14: "VERTEX (PFACE FACE)", 15: "POLYLINE (2D)", 20: "DIMENSION (ORDINATE)",
    21: "DIMENSION (LINEAR)", 22: "DIMENSION (ALIGNED)", 23: "DIMENSION (ANG 3-Pt)", 24: "DIMENSION (ANG 2-Ln)", 25: "DIMENSION (RADIUS)",
    26: "DIMENSION (DIAMETER)", 29: "POLYLINE (PFACE)", 30: "POLYLINE (MESH)", 33: "SHAPE", 34: "VIEWPORT", 36: "SPLINE", 37: "REGION",
    38: "3DSOLID", 39: "BODY", 43: "OLEFRAME", 44: "MTEXT", 45: "LEADER", 46: "TOLERANCE", 47: "MLINE", 60: "VIEW CONTROL", 61: "VIEW",
    62: "UCS CONTROL", 63: "UCS", 64: "VPORT CONTROL", 65: "VPORT", 68: "DIMSTYLE CONTROL", 69: "DIMSTYLE", 70: "VP ENT HDR CONTROL",
    71: "VP ENT HDR", 73: "MLINESTYLE", 74: "OLE2FRAME", 78: "HATCH", 80: "PLACEHOLDER", 82: "LAYOUT",
}  # fmt: skip


def type_name(one: Object, classes: Dict[int, str]) -> str:
    """What an object is, in a word: its kind, or for one that is only an ENTITY or OBJECT the name of its type number."""
    if one.kind not in ("ENTITY", "OBJECT", "UNKNOWN"):
        return one.kind
    return TYPE_NAMES.get(one.number) or classes.get(one.number) or "%s %d" % (one.kind, one.number)


def class_names(prefix: Prefix) -> Dict[int, str]:
    """The DXF names of the classes, by number; the first class of a number counts."""
    page = prefix.page
    names: Dict[int, str] = {}
    for one in prefix.classes:
        names.setdefault(one.number, decoded(one.dxf, page))
    return names
