"""Which kinds of objects are drawn, and how."""

from __future__ import annotations

from typing import Callable, Dict, Iterator, Optional, Tuple

from .lettering import attribute, definition, text
from .shapes import Context, Fields, Figure, arc, circle, construction_line, ellipse, face, line, point, polyline, polyline_in_space, ray, solid
from .show import Object

# How each kind is drawn: what stands before the names of its fields, and its function. A kind that the program reads by all its fields
# in some later version needs a row here, and a function in `shapes`.
DRAWN: Dict[str, Tuple[str, Callable[[Fields, Context], Iterator[Figure]]]] = {
    "LINE": ("", line),
    "POINT": ("", point),
    "CIRCLE": ("", circle),
    "ARC": ("", arc),
    "ELLIPSE": ("", ellipse),
    "RAY": ("", ray),
    "XLINE": ("", construction_line),
    "LWPOLYLINE": ("", polyline),
    "POLYLINE 3D": ("", polyline_in_space),
    "SOLID": ("", solid),
    "TRACE": ("", solid),
    "3DFACE": ("", face),
    "TEXT": ("", text),
    "ATTRIB": ("text.", attribute),
    "ATTDEF": ("attrib.text.", definition),
}

# What stands before the names of the fields of an insert.
INSERTS = {"INSERT": "", "MINSERT": "insert."}

# The fields where an object of a kind is, and of its plane where the first is told in that.
PLACES = {
    "LINE": ("start", ""), "POINT": ("place", ""), "CIRCLE": ("centre", "extrusion"), "ARC": ("centre", "extrusion"), "ELLIPSE": ("centre", ""),
    "RAY": ("point", ""), "XLINE": ("point", ""), "LWPOLYLINE": ("points", "normal"), "SOLID": ("first", "extrusion"),
    "TRACE": ("first", "extrusion"), "3DFACE": ("first", ""), "TEXT": ("insertion", "extrusion"), "INSERT": ("place", "extrusion"),
    "MINSERT": ("insert.place", "insert.extrusion"),
}  # fmt: skip

# Entities that are no part of a picture by themselves, and kinds of entities whose raw objects are counted.
SILENT = {"BLOCK", "ENDBLK", "SEQEND", "VERTEX 3D"}
ENTITIES = {"ENTITY", "VERTEX 3D", *INSERTS, *DRAWN}


def mode_of(one: Object) -> Optional[int]:
    """The mode of an entity that can be part of a picture, and None for any other object."""
    mode = None if one.kind in SILENT else one.value("mode")
    return mode if isinstance(mode, int) else None


def inserted_by(one: Object) -> Optional[Tuple[int, int]]:
    """The block that an object inserts and the layer of the insert; None where it inserts none, or isn't visible."""
    if one.form != "typed" or one.kind not in INSERTS or one.integer("invisible") & 1:
        return None
    return one.target(f"{INSERTS[one.kind]}block"), one.target("layer")
