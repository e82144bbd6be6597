"""Drawings written from the text of `show`, field by field by the tables of docs/FORMAT.md: nothing of the program or of the tools is used here.

An object may have fields that no drawing has, for tests: `number`, `bitsize` and `word` are written in the place of its type number, its bit size
and the check word of its frame, and `after` are bits after its references.
"""

from __future__ import annotations

import re
from dataclasses import dataclass, field
from typing import Dict, Iterator, List, Sequence, Tuple

from spelled import base

ONE = 0x3FF0000000000000

CLASS = re.compile(r'class (\d+) version (\d+) proxy (\d) item (\d+) app (".*") cpp (".*") dxf (".*")')

# What the main bits of a kind are: a step is a code and the path of a field, and a kind in the place of a code stands for its steps. A field that is
# absent has no bits.
MAIN: Dict[str, str] = {
    "entity": "apps app; graphic graphic; size .; bb mode; count reactors; no links.previous; bs colour; bd linetype_scale; bb linetype_flag; "
    "bb plotstyle_flag; bs invisible; rc lineweight",
    "object": "apps app; size .; count reactors",
    "entry": "tv name; b flag64; bs xref_index; b xref_dependent",
    "LINE": "line .; bt thickness; be extrusion",
    "POINT": "bd place; bt thickness; be extrusion; bd angle",
    "CIRCLE": "bd centre; bd radius; bt thickness; be extrusion",
    "ARC": "CIRCLE .; bd start_angle; bd end_angle",
    "LWPOLYLINE": "bs flag; bd width; bd elevation; bd thickness; bd normal; counts .; points points; bd bulges[]; widths widths",
    "ELLIPSE": "bd centre; bd axis; bd extrusion; bd ratio; bd start_angle; bd end_angle",
    "RAY": "bd point; bd vector",
    "XLINE": "RAY .",
    "SOLID": "bt thickness; bd elevation; rd first; rd second; rd third; rd fourth; be extrusion",
    "TRACE": "SOLID .",
    "3DFACE": "face .; bs edges",
    "POLYLINE 3D": "rc flags_a; rc flags_b",
    "VERTEX 3D": "rc flags; bd place",
    "GROUP": "tv name; bs unnamed; bs selectable; count entries",
    "TEXT": "missing .; rd elevation; rd insertion; near alignment; be extrusion; bt thickness; rd oblique; rd rotation; rd height; rd width; tv text; "
    "bs generation; bs horizontal; bs vertical",
    "ATTRIB": "TEXT text.; tv tag; bs length; rc flags",
    "ATTDEF": "ATTRIB attrib.; tv prompt",
    "INSERT": "bd place; scale scale; bd rotation; bd extrusion; has attributes.first",
    "MINSERT": "INSERT insert.; bs columns; bs rows; bd column_spacing; bd row_spacing",
    "BLOCK": "tv name",
    "LAYER": "entry entry.; bs values; bs colour",
    "STYLE": "entry entry.; b flag_a; b flag_b; bd height; bd width; bd oblique; rc generation; bd last_height; tv font; tv big_font",
    "LTYPE": "entry entry.; tv description; bd length; rc alignment; dashes dashes; bytes texts",
    "APPID": "entry entry.; rc extra",
    "BLOCK HEADER": "entry entry.; b anonymous; b has_attributes; b is_xref; b overlaid; b loaded; bd base; tv path; inserts inserts; tv description; run preview",
    "BLOCK CONTROL": "count entries",
    "DICTIONARY": "count items; bs cloning; rc hard_owner; tv items[].name",
    "XRECORD": "run bytes; bs cloning",
}

# The same in AC1014, where it differs.
OLDER_MAIN: Dict[str, str] = {
    "entity": "apps app; graphic graphic; size .; bb mode; count reactors; no linetype; no links.previous; bs colour; bd linetype_scale; bs invisible",
    "LINE": "bd start; bd end; bt thickness; be extrusion",
    "TEXT": "bd elevation; rd insertion; rd alignment; be extrusion; bt thickness; bd oblique; bd rotation; bd height; bd width; tv text; bs generation; "
    "bs horizontal; bs vertical",
    "INSERT": "bd place; bd scale; bd rotation; bd extrusion; has attributes.first",
    "LAYER": "entry entry.; weights values; bs colour",
    "BLOCK HEADER": "entry entry.; b anonymous; b has_attributes; b is_xref; b overlaid; bd base; tv path",
    "DICTIONARY": "count items; rc hard_owner; tv items[].name",
    "XRECORD": "run bytes",
}

# The references of a kind in their order. Those that are absent have no bits.
REFERENCES: Dict[str, str] = {
    "entity": "owner reactors[] xdict links.previous links.next layer linetype plotstyle",
    "object": "owner reactors[] xdict",
    "POLYLINE 3D": "first last seqend",
    "GROUP": "entries[]",
    "TEXT": "style",
    "ATTRIB": "text.style",
    "ATTDEF": "attrib.text.style",
    "INSERT": "block attributes.first attributes.last attributes.seqend",
    "MINSERT": "insert.block insert.attributes.first insert.attributes.last insert.attributes.seqend",
    "LAYER": "entry.xref plotstyle linetype",
    "STYLE": "entry.xref",
    "LTYPE": "entry.xref dashes[].style",
    "APPID": "entry.xref",
    "BLOCK HEADER": "entry.xref block ends.first ends.last endblk inserts[].target layout",
    "BLOCK CONTROL": "entries[] model paper",
    "LTYPE CONTROL": "entries[] first second",
    "DICTIONARY": "items[].target",
    "XRECORD": "targets[]",
}
OLDER_REFERENCES: Dict[str, str] = {
    "entity": "owner reactors[] xdict layer linetype links.previous links.next",
    "LAYER": "entry.xref linetype",
    "BLOCK HEADER": "entry.xref block ends.first ends.last endblk",
}
for control in ("LAYER CONTROL", "STYLE CONTROL", "APPID CONTROL", "LTYPE CONTROL"):
    MAIN[control] = MAIN["BLOCK CONTROL"]
    REFERENCES.setdefault(control, "entries[]")


@dataclass
class Object:
    """An object as `show` prints it."""

    handle: int
    kind: str
    form: str
    number: int
    fields: Dict[str, str] = field(default_factory=dict)


@dataclass
class Drawing:
    """A drawing as `show` prints it."""

    version: str = "AC1015"
    code_page: int = 0
    lead: bytes = bytes(7)
    mark: bytes = bytes(2)
    variables: bytes = b""
    classes: str = ""
    sections: List[Tuple[int, bytes]] = field(default_factory=list)
    objects: Dict[int, Object] = field(default_factory=dict)


def little(value: int, size: int) -> str:
    """The bits of a number, its least byte first."""
    return str(base.little(value, size))


def short(value: int) -> str:
    """A BS."""
    return "11" if value == 256 else str(base.short(value))


def real(word: int) -> str:
    """A BD."""
    return {0: "10", ONE: "01"}.get(word) or "00" + little(word, 8)


def near(word: int, default: int) -> str:
    """A DD."""
    if word == default:
        return "00"
    if word >> 32 == default >> 32:
        return "01" + little(word & 0xFFFFFFFF, 4)
    if word >> 48 == default >> 48:
        return "10" + little(word >> 32 & 0xFFFF, 2) + little(word & 0xFFFFFFFF, 4)
    return "11" + little(word, 8)


def bytes_of(value: str) -> bytes:
    """Bytes as `show` prints them: a text between quotation marks, or two digits each; `-` is none."""
    if value.startswith('"'):
        return re.sub(rb"\\(..)", lambda found: bytes.fromhex(found[1].decode()), value[1:-1].encode())
    return b"" if value == "-" else bytes.fromhex(value)


def bits_of(data: bytes) -> str:
    """The bits of bytes."""
    return "".join(f"{byte:08b}" for byte in data)


def reference(value: str, holder: int = 0) -> str:
    """An H: `5.1F`. Digits that begin with zeros say how many bytes there are: `5.001F`, `5.00`."""
    code, digits = value.split(".")
    number = {"6": 0, "8": 0, "A": int(digits, 16) - holder, "C": holder - int(digits, 16)}.get(code, int(digits, 16))
    size = len(digits) // 2 if digits[0] == "0" and digits != "0" else (number.bit_length() + 7) // 8
    return f"{int(code, 16):04b}{size:04b}" + bits_of(number.to_bytes(size, "big"))


class Speller:
    """The bits of one object, code by code: a method for each code, which takes the path of a field."""

    def __init__(self, one: Object, is_older: bool) -> None:
        self.one, self.is_older = one, is_older
        # Before the bit size, and since.
        self.before, self.bits = "", ""

    def spell(self, kind: str, prefix: str = "") -> None:
        """The main bits of a kind."""
        steps = (OLDER_MAIN.get(kind) if self.is_older else None) or MAIN.get(kind, "")
        for step in filter(None, steps.split("; ")):
            code, path = step.rsplit(" ", 1)
            path = prefix + ("" if path == "." else path)
            if code in MAIN:
                self.spell(code, path)
            else:
                getattr(self, code)(path)

    def values(self, path: str) -> Iterator[str]:
        """The values of a field; those of a list where the path has brackets."""
        paths = [path] if "[]" not in path else (path.replace("[]", f"[{index}]") for index in range(self.length(path.split("[]")[0])))
        for each in paths:
            if each in self.one.fields:
                yield self.one.fields[each]

    def length(self, path: str) -> int:
        """How many elements a list has."""
        begin = path + "["
        return len({name[len(begin) :].partition("]")[0] for name in self.one.fields if name.startswith(begin)})

    def numbers(self, path: str) -> List[int]:
        """The words of a field."""
        return [int(word, 16) for value in self.values(path) for word in value.split(" ")]

    def number(self, path: str) -> int:
        """A field that is a number in decimal digits."""
        return int(self.one.fields[path])

    def add(self, path: str, code: str) -> None:
        """A number, where it isn't absent."""
        for value in map(int, self.values(path)):
            self.bits += {"b": f"{value:b}", "bb": f"{value:02b}", "rc": f"{value:08b}", "bs": short(value)}[code]

    def b(self, path: str) -> None:
        self.add(path, "b")

    def bb(self, path: str) -> None:
        self.add(path, "bb")

    def rc(self, path: str) -> None:
        self.add(path, "rc")

    def bs(self, path: str) -> None:
        self.add(path, "bs")

    def bd(self, path: str) -> None:
        self.bits += "".join(map(real, self.numbers(path)))

    def rd(self, path: str) -> None:
        self.bits += "".join(little(word, 8) for word in self.numbers(path))

    def bt(self, path: str) -> None:
        (word,) = self.numbers(path)
        self.bits += real(word) if self.is_older else "0" + real(word) if word else "1"

    def be(self, path: str) -> None:
        words = self.numbers(path)
        is_up = words == [0, 0, ONE] and not self.is_older
        self.bits += "1" if is_up else ("" if self.is_older else "0") + "".join(map(real, words))

    def tv(self, path: str) -> None:
        for value in self.values(path):
            self.bits += short(len(bytes_of(value))) + bits_of(bytes_of(value))

    def bytes(self, path: str) -> None:
        self.bits += bits_of(bytes_of(self.one.fields[path]))

    def run(self, path: str) -> None:
        self.bits += base.long(len(bytes_of(self.one.fields[path])))
        self.bytes(path)

    def count(self, path: str) -> None:
        self.bits += base.long(self.length(path))

    def has(self, path: str) -> None:
        self.bits += str(int(path in self.one.fields))

    def no(self, path: str) -> None:
        self.bits += str(int(path not in self.one.fields))

    def size(self, _path: str) -> None:
        """In AC1014 the bit size stands here."""
        if self.is_older:
            self.before, self.bits = self.bits, ""

    def apps(self, path: str) -> None:
        for index in range(self.length(path)):
            content = bytes_of(self.one.fields[f"{path}[{index}].bytes"])
            self.bits += short(len(content)) + reference(self.one.fields[f"{path}[{index}].application"], self.one.handle) + bits_of(content)
        self.bits += short(0)

    def graphic(self, path: str) -> None:
        self.has(path)
        for value in self.values(path):
            self.bits += little(len(bytes_of(value)), 4) + bits_of(bytes_of(value))

    def line(self, prefix: str) -> None:
        start, end = self.numbers(prefix + "start"), self.numbers(prefix + "end")
        is_flat = start[2] == end[2] == 0
        self.bits += str(int(is_flat)) + "".join(little(start[at], 8) + near(end[at], start[at]) for at in range(2 if is_flat else 3))

    def face(self, prefix: str) -> None:
        corners = [self.numbers(prefix + name) for name in ("first", "second", "third", "fourth")]
        is_flat = corners[0][2] == 0
        self.bits += str(int("edges" not in self.one.fields)) + str(int(is_flat)) + "".join(little(word, 8) for word in corners[0][: 2 if is_flat else 3])
        self.bits += "".join(near(word, last) for one, other in zip(corners, corners[1:]) for last, word in zip(one, other))

    def counts(self, prefix: str) -> None:
        flag = self.number(prefix + "flag")
        for weight, name in ((0, "points"), (16, "bulges"), (32, "widths")):
            if flag & weight == weight:
                self.count(prefix + name)

    def points(self, path: str) -> None:
        words = self.numbers(path + "[]")
        self.bits += "".join(little(word, 8) if at < 2 or self.is_older else near(word, words[at - 2]) for at, word in enumerate(words))

    def widths(self, path: str) -> None:
        for index in range(self.length(path)):
            self.bd(f"{path}[{index}].start")
            self.bd(f"{path}[{index}].end")

    def missing(self, prefix: str) -> None:
        names = ("elevation", "alignment", "oblique", "rotation", "width", "generation", "horizontal", "vertical")
        self.bits += f"{sum(1 << at for at, name in enumerate(names) if prefix + name not in self.one.fields):08b}"

    def near(self, path: str) -> None:
        defaults = self.numbers(path.replace("alignment", "insertion"))
        self.bits += "".join(near(word, default) for word, default in zip(self.numbers(path), defaults))

    def scale(self, path: str) -> None:
        x, y, z = self.numbers(path)
        if x == y == z:
            self.bits += "11" if x == ONE else "10" + little(x, 8)
        else:
            self.bits += ("01" if x == ONE else "00" + little(x, 8)) + near(y, x) + near(z, x)

    def weights(self, path: str) -> None:
        self.bits += "".join(str(self.number(path) >> at & 1) for at in range(4))

    def dashes(self, path: str) -> None:
        self.bits += f"{self.length(path):08b}"
        for index in range(self.length(path)):
            for code, name in (("bd", "length"), ("bs", "code"), ("rd", "x"), ("rd", "y"), ("bd", "scale"), ("bd", "rotation"), ("bs", "flag")):
                getattr(self, code)(f"{path}[{index}].{name}")

    def inserts(self, path: str) -> None:
        for index in range(self.length(path)):
            self.rc(f"{path}[{index}].count")
        self.bits += "00000000"

    def references(self, kind: str) -> str:
        """The references of a kind."""
        paths = (OLDER_REFERENCES.get(kind) if self.is_older else None) or REFERENCES.get(kind, "")
        return "".join(reference(value, self.one.handle) for path in paths.split() for value in self.values(path))


def body_of(one: Object, is_older: bool) -> bytes:
    """The body of an object."""
    if one.form == "raw":
        return bytes_of(one.fields["bytes"])
    speller, common = Speller(one, is_older), "entity" if "mode" in one.fields else "object"
    speller.spell(common)
    references = speller.references(common)
    if one.form == "plain":
        speller.bits += bits_of(bytes_of(one.fields.get("rest", "-")))[: int(one.fields["bits"])]
        references += "".join(reference(value, one.handle) for value in speller.values("refs[]"))
    else:
        speller.spell(one.kind)
        references += speller.references(one.kind)
    number, own = short(int(one.fields.get("number", one.number))), reference(f"0.{one.handle:X}")
    before, after = (number + own + speller.before, speller.bits) if is_older else (number, own + speller.bits)
    size = int(one.fields.get("bitsize", len(before) + 32 + len(after)))
    return bytes(base.packed(before + little(size, 4) + after + references + one.fields.get("after", "")))


def frame_of(one: Object, is_older: bool) -> bytes:
    """The frame of an object."""
    frame = bytes(base.framed_body(body_of(one, is_older)))
    return frame[:-2] + bytes.fromhex(one.fields["word"]) if "word" in one.fields else frame


def class_of(line: str) -> str:
    """The bits of a class by its line."""
    found = CLASS.fullmatch(line)
    if found is None:
        raise ValueError(line)
    number, version, proxy, item, app, cpp, dxf = found.groups()
    texts = "".join(short(len(bytes_of(text))) + bits_of(bytes_of(text)) for text in (app, cpp, dxf))
    return short(int(number)) + short(int(version)) + texts + proxy + short(int(item))


def drawing_of(lines: Sequence[str]) -> Drawing:
    """The drawing that the lines of `show` say."""
    drawing, one = Drawing(), Object(0, "", "", 0)
    for line in lines:
        name, _, rest = line.partition(" ")
        words = rest.split(" ")
        if line.startswith("  "):
            path, _, value = line[2:].partition(" ")
            # A 3DFACE has two fields of this name.
            one.fields["edges" if path == "invisible" and path in one.fields else path] = value
        elif name == "object":
            one = Object(int(words[0], 16), " ".join(words[1:-2]), words[-2], int(words[-1]))
            drawing.objects[one.handle] = one
        elif name == "drawing":
            drawing.version, drawing.code_page = words[0], int(words[2])
            drawing.lead, drawing.mark = bytes_of(words[4]), bytes_of(words[6])
        elif name == "variables":
            drawing.variables = bytes_of(rest)
        elif name == "class":
            drawing.classes += class_of(line)
        elif name == "section":
            drawing.sections.append((int(words[0]), bytes_of(words[1])))
    return drawing
