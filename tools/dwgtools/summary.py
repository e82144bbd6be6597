"""What a drawing has, told in one object: its versions, counts, layers, blocks, fonts, external references, extents, preview."""

from __future__ import annotations

import os
from collections import Counter
from typing import Any, Dict, Iterator, List, Optional

from .drawings import Drawing
from .encodings import decoded
from .escapes import one_line
from .extents import SPACES, Extents
from .kinds import SILENT
from .layers import Layers
from .names import Names, class_names, type_name
from .plane import Box
from .previews import section_of
from .show import Lists, Object, Prefix
from .values import Text

# Kinds of objects that name other files, which the program doesn't read by their fields.
OTHER_FILES = ("IMAGEDEF", "PDFDEFINITION", "DWFDEFINITION", "DGNDEFINITION")

# The types of vertices that are read by what all entities have.
VERTICES = range(10, 15)


class Contents:
    """What is counted and kept of a drawing while its objects are read: of entities counts and extents alone."""

    def __init__(self, prefix: Prefix) -> None:
        self.prefix, self.page = prefix, prefix.page
        self.classes = class_names(prefix)
        self.names, self.extents, self.layers = Names(), Extents(), Layers(self.page, prefix.version)
        self.kinds: "Counter[str]" = Counter()
        self.forms: "Counter[str]" = Counter()
        self.members: "Counter[int]" = Counter()
        self.blocks: List[Dict[str, Any]] = []
        self.fonts: List[Dict[str, Any]] = []
        self.references: List[Dict[str, Any]] = []
        self.model = self.paper = 0

    def take(self, one: Object) -> None:
        """Takes an object."""
        kind = type_name(one, self.classes)
        self.kinds[kind] += 1
        self.forms[one.form] += 1
        mode = one.value("mode")
        if isinstance(mode, int):
            place = SPACES.get(mode) or one.target("owner")
            self.layers.count(one, kind)
            self.extents.take(one, kind, place)
            if one.kind not in SILENT and one.kind != "ATTRIB" and one.number not in VERTICES:
                self.members[place] += 1
            return
        self.names.take(one)
        if one.form == "typed":
            self.layers.take(one)
            self.extents.take_block(one)
            self.take_entry(one)

    def take_entry(self, one: Object) -> None:
        """Takes a block, a text style, or the two spaces, and passes all else."""
        if one.kind not in ("BLOCK HEADER", "STYLE", "BLOCK CONTROL"):
            return
        head = {"handle": f"{one.handle:X}", "name": self.text(one, "entry.name")}
        if one.kind == "STYLE":
            self.fonts.append({**head, "font": self.text(one, "font"), "big_font": self.text(one, "big_font")})
        elif one.kind == "BLOCK CONTROL":
            self.model, self.paper = one.target("model"), one.target("paper")
        elif one.integer("is_xref"):
            self.references.append({**head, "path": self.text(one, "path"), "overlaid": bool(one.integer("overlaid"))})
        else:
            self.blocks.append(head)

    def text(self, one: Object, field: str) -> str:
        """A text of an object; empty where it has none."""
        value = one.value(field)
        return decoded(value, self.page) if isinstance(value, Text) else ""

    def told(self) -> Dict[str, Any]:
        """All of it, once all is read."""
        self.extents.settle(self.model, self.paper)
        own = {self.model: SPACES[2], self.paper: SPACES[1]}
        box = self.extents.box
        for said in (*self.blocks, *self.references):
            handle = int(said["handle"], 16)
            said.update(entities=self.members[handle] + (self.members[own[handle]] if handle in own else 0), inserts=self.extents.inserted[handle])
            said["extents"] = corners_of(box(handle))
        return {
            "version": self.prefix.version, "codepage": self.prefix.codepage, "encoding": self.page,
            "objects": self.prefix.count, "forms": {form: self.forms[form] for form in ("typed", "plain", "raw")},
            "classes": len(self.prefix.classes), "kinds": dict(sorted(self.kinds.items())), "layers": list(self.layers.told(self.names)),
            "blocks": self.blocks, "fonts": self.fonts, "references": self.references,
            "other_files": {kind: self.kinds[kind] for kind in OTHER_FILES if kind in self.kinds},
            "extents": {
                "model": corners_of(box(SPACES[2])), "paper": corners_of(box(SPACES[1])),
                "unmeasured": dict(sorted(self.extents.unmeasured.items())),
            },
        }  # fmt: skip


def corners_of(box: Optional[Box]) -> Optional[List[List[float]]]:
    """The lower left and the upper right corner of a box; None where it has nothing."""
    corners = box.corners() if box else []
    return [list(corner) for corner in corners] or None


def layers_in(drawing: Drawing) -> Iterator[Dict[str, Any]]:
    """The layers of a drawing, once all of it is read."""
    names = Names()
    with drawing.show(Lists.NONE) as (prefix, found):
        layers, classes = Layers(prefix.page, prefix.version), class_names(prefix)
        for one in found:
            names.take(one)
            if one.is_entity:
                layers.count(one, type_name(one, classes))
            elif one.form == "typed":
                layers.take(one)
    return layers.told(names)


def summary_of(drawing: Drawing) -> Dict[str, Any]:
    """What a drawing has."""
    with drawing.show(Lists.NUMBERS) as (prefix, found):
        contents = Contents(prefix)
        for one in found:
            contents.take(one)
    section = section_of(drawing.file)
    preview = section.told() if section else None
    return {"bytes": os.fstat(drawing.file.fileno()).st_size, **contents.told(), "preview": preview}


# --- As a text -------------------------------------------------------------------------------------------------------


def box_said(corners: Optional[List[List[float]]]) -> str:
    """Extents in a few words."""
    return " to ".join(f"{x:.9g},{y:.9g}" for x, y in corners) if corners else "none"


def layer_said(layer: Dict[str, Any]) -> str:
    """A layer in a few words."""
    if layer["name"] is None:
        return f"({layer['handle']}, which isn't there): {layer['entities']} entities"
    states = [word for word in ("frozen", "locked") if layer[word]]
    states = [*([] if layer["on"] else ["off"]), *states, *(["not plotted"] if layer["plotted"] is False else [])]
    return ", ".join([f"{one_line(layer['name'])}: {layer['entities']} entities", f"colour {layer['colour']}", *states])


def lines_of(path: str, said: Dict[str, Any]) -> Iterator[str]:
    """What a drawing has, as lines of text."""
    yield one_line(path)
    yield f"  version: {said['version']}, code page {said['codepage']} ({said['encoding']}), {said['bytes']} bytes"
    forms = ", ".join(f"{count} {form}" for form, count in said["forms"].items())
    yield f"  objects: {said['objects']} ({forms})"
    for kind, count in said["kinds"].items():
        yield f"    {one_line(kind)}: {count}"
    yield f"  layers: {len(said['layers'])}"
    for layer in said["layers"]:
        yield f"    {layer_said(layer)}"
    yield f"  blocks: {len(said['blocks'])}"
    for block in said["blocks"]:
        yield f"    {one_line(block['name'])}: {block['entities']} entities, {block['inserts']} inserts, extents {box_said(block['extents'])}"
    yield f"  fonts: {len(said['fonts'])}"
    for font in said["fonts"]:
        yield f"    {one_line(font['name'])}: {', '.join(filter(None, (one_line(font['font']), one_line(font['big_font'])))) or 'none'}"
    yield f"  external references: {len(said['references'])}"
    for one in said["references"]:
        yield f"    {one_line(one['name'])}: {one_line(one['path'])}{' (overlaid)' if one['overlaid'] else ''}, {one['inserts']} inserts"
    for kind, count in said["other_files"].items():
        yield f"    {kind}: {count}, whose files aren't read"
    for space in ("model", "paper"):
        yield f"  extents of the {space} space: {box_said(said['extents'][space])}"
    for kind, count in said["extents"]["unmeasured"].items():
        yield f"    without {one_line(kind)}: {count}"
    pictures = said["preview"]["pictures"] if said["preview"] else []
    yield f"  preview: {', '.join('%d %s of %d bytes' % (one['number'], one['kind'], one['bytes']) for one in pictures) or 'none'}"
