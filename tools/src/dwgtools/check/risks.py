"""What an archivist asks of a drawing, by the text of `show`: what it needs from elsewhere, and
what few programs understand. The text is read by lines, and no more is kept than is told."""

from __future__ import annotations

import collections
from array import array
from typing import Any, Counter, Dict, Iterable, List

from ..show import Class, Object, Text, place_in

# How many of each list are told; how many there are is told besides.
MOST_LISTED = 1000

# The fields that are read.
WANTED = (b"entry.name", b"is_xref", b"overlaid", b"path", b"font", b"big_font", b"owner")

# Definitions of files that the program doesn't read by their fields, by the names of their classes.
IMAGES = {"IMAGEDEF", "PDFDEFINITION", "DWFDEFINITION", "DGNDEFINITION"}

# Types of objects that hold those of another program.
OLE_FRAMES = {43: "OLEFRAME", 74: "OLE2FRAME"}
PROXIES = {498: "ACAD_PROXY_ENTITY", 499: "ACAD_PROXY_OBJECT"}
FIRST_CLASS = 500


class Listed:
    """A list of which no more than the first are kept."""

    def __init__(self) -> None:
        self.count, self.first = 0, []  # type: int, List[Dict[str, Any]]

    def add(self, one: Dict[str, Any]) -> None:
        """Adds one."""
        self.count += 1
        if len(self.first) < MOST_LISTED:
            self.first.append(one)

    def told(self) -> Dict[str, Any]:
        """As a report has it."""
        return {"count": self.count, "listed": self.first}


class Survey:
    """What is counted and kept of a drawing while its text is read."""

    def __init__(self) -> None:
        self._text = Text()
        self.forms = {"typed": 0, "plain": 0, "raw": 0}
        self._of_class: Counter[int] = collections.Counter()
        self._references, self._fonts, self._images, self._frames = (Listed() for _ in range(4))
        # Objects in order of handle, each with its kind as a number; and the xrecords whose owner
        # doesn't stand before them, each with that owner.
        self._handles, self._kinds = array("Q"), array("H")
        self._kind_numbers: Dict[str, int] = {}
        self._xrecords, self._owners = array("Q"), array("Q")

    def read(self, lines: Iterable[bytes]) -> None:
        """Reads the text of `show`."""
        for one in self._text.objects(lines, WANTED):
            self.forms[one.form] += 1
            self._handles.append(one.handle)
            self._kinds.append(self._kind_numbers.setdefault(one.kind, len(self._kind_numbers)))
            if one.number in OLE_FRAMES:
                self._frames.add({"handle": f"{one.handle:X}", "kind": OLE_FRAMES[one.number]})
            elif one.number >= FIRST_CLASS or one.number in PROXIES:
                self._of_class[one.number] += 1
                known = self._text.classes.get(one.number)
                if known and known.dxf in IMAGES:
                    self._images.add({"handle": f"{one.handle:X}", "kind": known.dxf})
            if one.form == "typed":
                self._take(one)

    def _take(self, one: Object) -> None:
        """Takes an object that is read by all its fields."""
        if one.kind == "XRECORD":
            owner = one.target(b"owner")
            if owner and not self.kind_of(owner):
                self._xrecords.append(one.handle)
                self._owners.append(owner)
        elif one.kind == "STYLE":
            self._fonts.add(self._told(one, "font", "big_font"))
        elif one.kind == "BLOCK HEADER" and one.fields[b"is_xref"] == b"1":
            is_overlaid = one.fields[b"overlaid"] == b"1"
            self._references.add({**self._told(one, "path"), "overlaid": is_overlaid})

    def _told(self, one: Object, *names: str) -> Dict[str, Any]:
        """An entry of a table, and some of its texts."""
        texts = {name: self._text.value(one, name.encode("ascii")) for name in names}
        name = self._text.value(one, b"entry.name")
        return {"handle": f"{one.handle:X}", "name": name, **texts}

    def kind_of(self, handle: int) -> str:
        """The kind of an object; nothing where there is none."""
        at = place_in(self._handles, handle)
        return "" if at is None else list(self._kind_numbers)[self._kinds[at]]

    def is_orphan(self, handle: int) -> bool:
        """Whether an object is an xrecord whose owner isn't in the map, as AutoCAD leaves them."""
        at = place_in(self._xrecords, handle)
        return at is not None and not self.kind_of(self._owners[at])

    def told(self) -> Dict[str, Any]:
        """The risks as a report has them."""
        own = Listed()
        for number, count in sorted(self._of_class.items()):
            unnamed = Class(PROXIES.get(number, ""), "", "", number in PROXIES)
            one = self._text.classes.get(number, unnamed)
            own.add({"class": number, **vars(one), "objects": count})
        return {
            "external_references": self._references.told(), "fonts": self._fonts.told(),
            "images": self._images.told(), "ole_frames": self._frames.told(),
            "own_objects": own.told(),
        }  # fmt: skip
