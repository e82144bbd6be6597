"""What a recovered drawing has, by its text of `show`: kinds and layers.

The text, which may have gigabytes, is read line by line; numbers by handle alone are kept of it.
"""

from __future__ import annotations

from array import array
from collections import Counter
from dataclasses import dataclass, field
from typing import Dict, Iterable

from ..show import Object, Text, place_in

# The fields that are read.
WANTED = (b"mode", b"layer", b"entry.name")

# What a type number is called where its kind is only ENTITY or OBJECT. The names are those of the
# Open Design Specification.
TYPE_NAMES = {
    10: "VERTEX (2D)", 12: "VERTEX (MESH)", 13: "VERTEX (PFACE)", 14: "VERTEX (PFACE FACE)",
    15: "POLYLINE (2D)", 20: "DIMENSION (ORDINATE)", 21: "DIMENSION (LINEAR)",
    22: "DIMENSION (ALIGNED)", 23: "DIMENSION (ANG 3-Pt)", 24: "DIMENSION (ANG 2-Ln)",
    25: "DIMENSION (RADIUS)", 26: "DIMENSION (DIAMETER)", 29: "POLYLINE (PFACE)",
    30: "POLYLINE (MESH)", 33: "SHAPE", 34: "VIEWPORT", 36: "SPLINE", 37: "REGION", 38: "3DSOLID",
    39: "BODY", 43: "OLEFRAME", 44: "MTEXT", 45: "LEADER", 46: "TOLERANCE", 47: "MLINE",
    60: "VIEW CONTROL", 61: "VIEW", 62: "UCS CONTROL", 63: "UCS", 64: "VPORT CONTROL", 65: "VPORT",
    68: "DIMSTYLE CONTROL", 69: "DIMSTYLE", 70: "VP ENT HDR CONTROL", 71: "VP ENT HDR",
    73: "MLINESTYLE", 74: "OLE2FRAME", 78: "HATCH", 80: "PLACEHOLDER", 82: "LAYOUT",
}  # fmt: skip


@dataclass
class Contents:
    """How many objects of which kind a drawing has, and entities on which layer."""

    kinds: "Counter[str]" = field(default_factory=Counter)
    raw: int = 0
    handles: "array[int]" = field(default_factory=lambda: array("Q"))
    layer_names: Dict[int, str] = field(default_factory=dict)
    by_layer: "Counter[int]" = field(default_factory=Counter)

    def has(self, handle: int) -> bool:
        """Whether the drawing has an object of a handle."""
        return place_in(self.handles, handle) is not None

    @property
    def layers(self) -> Dict[str, int]:
        """How many entities each layer has, the most first."""
        counts: "Counter[str]" = Counter()
        for layer, count in self.by_layer.items():
            why = "which has no name" if self.has(layer) else "which isn't there"
            counts[self.layer_names.get(layer, f"(layer {layer:X}, {why})")] += count
        return ordered(counts)


def ordered(counts: "Counter[str]") -> Dict[str, int]:
    """Counts in order, the greatest first, and then by name."""
    return dict(sorted(counts.items(), key=lambda item: (-item[1], item[0])))


def contents_of(lines: Iterable[bytes]) -> Contents:
    """What the text of `show` says."""
    found, text = Contents(), Text()
    for one in text.objects(lines, WANTED):
        found.handles.append(one.handle)
        found.raw += one.form == "raw"
        found.kinds[_kind_of(one, text)] += 1
        if b"mode" in one.fields:
            found.by_layer[one.target(b"layer")] += 1
        elif one.kind == "LAYER" and one.form == "typed":
            found.layer_names[one.handle] = text.value(one, b"entry.name")
    return found


def _kind_of(one: Object, text: Text) -> str:
    """What an object is called: its kind, or for a mere ENTITY or OBJECT its type number's."""
    if one.kind not in ("ENTITY", "OBJECT", "UNKNOWN"):
        return one.kind
    known = text.classes.get(one.number)
    return TYPE_NAMES.get(one.number) or (known and known.dxf) or f"{one.kind} {one.number}"
