"""Inputs of the cases by their texts (tools/tests/cases/README.md): files by a name, and what is changed in them by the name of the part."""

from __future__ import annotations

import re
import struct
from dataclasses import dataclass, field, replace
from functools import lru_cache
from pathlib import Path
from typing import Any, Dict, List, Optional, Tuple

import writer
from common import made_entities
from made import dwg, made
from spelled import base

CASES = Path(__file__).resolve().parent / "cases"

# A pair of the map: a handle and a place.
Pair = Tuple[int, int]
Spans = Dict[str, Tuple[int, int]]


def bits_of(words: str) -> str:
    """Bits by words: `'0110` are bits, `5.10` is a reference, `00*256` is a word so many times, others are hexadecimal digits; `-` is none."""
    found = ""
    for word in words.split():
        if word.startswith("'"):
            found += word[1:]
        elif "." in word:
            found += writer.reference(word)
        elif "*" in word:
            digits, count = word.split("*")
            found += bits_of(digits) * int(count)
        elif word != "-":
            found += f"{int(word, 16):0{4 * len(word)}b}"
    return found


def frame_of(line: str) -> Tuple[int, bytes]:
    """A frame by its line: `NUMBER HANDLE : MAIN / REFERENCES`, where the bit size stands after the number or, as in AC1014, where MAIN has the word
    `size`; or `raw HANDLE : BITS`, the whole body."""
    head, _, rest = line.partition(" : ")
    number, handle = head.split()
    if number == "raw":
        return int(handle, 16), base.framed_body(base.packed(bits_of(rest)))
    main, _, references = rest.partition(" / ")
    before, own = writer.short(int(number)), writer.reference(f"0.{handle}")
    if "size" in main:
        first, _, main = main.partition("size")
        before, after = before + own + bits_of(first), bits_of(main)
    else:
        after = own + bits_of(main)
    size = base.little(len(before) + 32 + len(after), 4)
    return int(handle, 16), base.framed_body(base.packed(before + size + after + bits_of(references)))


@dataclass
class File:
    """The parts of a file whose parts stand one after the other, as in a canonical one, with its own spellings."""

    # Version and lead; mark and code page.
    first: bytes = b"AC1015" + bytes(7)
    mark: bytes = bytes(4)
    variables: bytes = base.framed(base.VARIABLES, b"")
    classes: bytes = base.framed(base.CLASSES, b"")
    preview: bytes = base.preview([], b"")
    frames: List[Tuple[int, bytes]] = field(default_factory=list)
    # The pages of the map, each a text of pairs; None is the canonical map.
    pages: Optional[List[str]] = None
    sections: List[Tuple[int, bytes]] = field(default_factory=list)
    # Whether the preview stands after the map.
    is_preview_last: bool = False

    def data(self) -> bytes:
        """The bytes of the file."""
        begin = 43 + 9 * (3 + len(self.sections))
        classes_at = begin + len(self.variables)
        place = preview_at = classes_at + len(self.classes)
        place += 0 if self.is_preview_last else len(self.preview)
        places = []
        for handle, frame in self.frames:
            places.append((handle, place))
            place += len(frame)
        pages = self.map_of(places)
        located = [(0, begin, len(self.variables)), (1, classes_at, len(self.classes)), (2, place, len(pages))]
        place += len(pages)
        if self.is_preview_last:
            pages, preview_at, place = pages + self.preview, place, place + len(self.preview)
        for number, content in self.sections:
            located.append((number, place, len(content)))
            place += len(content)
        head = self.first + preview_at.to_bytes(4, "little") + self.mark + len(located).to_bytes(4, "little")
        head += b"".join(struct.pack("<BII", *one) for one in located)
        head += (base.check(0, head) ^ base.HEADER_MASKS[len(located)]).to_bytes(2, "little") + base.HEADER_SENTINEL
        preview = b"" if self.is_preview_last else self.preview
        return b"".join([head, self.variables, self.classes, preview, *(frame for _, frame in self.frames), pages, *(content for _, content in self.sections)])

    def map_of(self, places: List[Pair]) -> bytes:
        """The map of frames at these places."""
        if self.pages is None:
            return bytes(base.pages(places, 2030))
        found, known = b"", dict(reversed(places))
        for page in self.pages:
            pairs, last = b"", (0, 0)
            for pair in filter(None, page.split(",")):
                handle, _, place = pair.partition(":")
                at = place_of(place or handle, known)
                pairs += base.modular(int(handle, 16) - last[0]) + base.signed_modular(at - last[1])
                last = int(handle, 16), at
            found += base.page(pairs)
        return found + base.page(b"")


def place_of(said: str, known: Dict[int, int]) -> int:
    """A place that a pair names: `C` is that of the frame of C, `C+1` is one more, `@1000` is a number."""
    if said.startswith("@"):
        return int(said[1:])
    handle, _, more = said.partition("+")
    return known[int(handle, 16)] + int(more or 0)


def spans_of(data: bytes) -> Spans:
    """The parts of a file in their order, each by a name: from where on they stand, and up to where."""
    count = data[21]
    spans = {"version": (0, 6), "lead": (6, 13), "preview_place": (13, 17), "mark": (17, 19), "code_page": (19, 21), "count": (21, 25)}
    locators = {number: (place, size) for number, place, size in struct.iter_unpack("<BII", data[25 : 25 + 9 * count])}
    for index in range(count):
        at = 25 + 9 * index
        spans.update({f"locator{index}.number": (at, at + 1), f"locator{index}.place": (at + 1, at + 5), f"locator{index}.size": (at + 5, at + 9)})
    end = 25 + 9 * count
    spans.update({"word": (end, end + 2), "sentinel": (end + 2, end + 18)})
    for name, place in (("variables", locators[0][0]), ("classes", locators[1][0]), ("preview", int.from_bytes(data[13:17], "little"))):
        size = int.from_bytes(data[place + 16 : place + 20], "little")
        word = 0 if name == "preview" else 2
        for part, length in (("begin", 16), ("size", 4), ("content", size), ("word", word), ("end", 16)):
            spans[f"{name}.{part}"] = (place, place + length)
            place += length
    return spans


def objects_of(data: bytes, begin: int) -> Tuple[List[Tuple[int, bytes]], Spans]:
    """The frames of a file from the first on, by the first pair of the map for each, and the parts of frames and of the map."""
    frames, spans, at = [], {}, next(place for number, place, _ in struct.iter_unpack("<BII", data[25:52]) if number == 2)
    known: Dict[int, int] = {}
    end, page = at, 0
    while True:
        size = int.from_bytes(data[at : at + 2], "big")
        spans.update({f"page{page}.size": (at, at + 2), f"page{page}.pairs": (at + 2, at + size), f"page{page}.word": (at + size, at + size + 2)})
        for handle, place in pairs_of(data[at + 2 : at + size]):
            known.setdefault(place, handle)
        at, page = at + size + 2, page + 1
        if size == 2:
            break
    place = begin
    while place < end:
        size = int.from_bytes(data[place : place + 2], "little")
        name = f"{known.get(place, 0):X}"
        end_of_body = place + 2 + size
        spans.update({f"{name}/length": (place, place + 2), f"{name}/body": (place + 2, end_of_body), f"{name}/word": (end_of_body, end_of_body + 2)})
        frames.append((known.get(place, 0), data[place : place + 4 + size]))
        place += 4 + size
    return frames, spans


def pairs_of(data: bytes) -> List[Pair]:
    """The pairs of a page, as far as they are spelled."""
    pairs, handle, place, at = [], 0, 0, 0
    while at < len(data):
        steps = []
        for last_bits in (0x7F, 0x3F):
            value, shift = 0, 0
            while at < len(data) and data[at] & 0x80:
                value, shift, at = value | (data[at] & 0x7F) << shift, shift + 7, at + 1
            if at == len(data):
                return pairs
            value |= (data[at] & last_bits) << shift
            steps.append(-value if last_bits == 0x3F and data[at] & 0x40 else value)
            at += 1
        handle, place = handle + steps[0], place + steps[1]
        pairs.append((handle, place))
    return pairs


def file_of(data: bytes) -> File:
    """The parts of the bytes of a canonical file."""
    spans = spans_of(data)
    end = {name: spans[f"{name}.end"][1] for name in ("variables", "classes", "preview")}
    frames, _ = objects_of(data, end["preview"])
    located = list(struct.iter_unpack("<BII", data[25 : 25 + 9 * data[21]]))
    sections = [(number, data[place : place + size]) for number, place, size in located[3:]]
    parts = [data[spans[f"{name}.begin"][0] : end[name]] for name in ("variables", "classes", "preview")]
    return File(data[:13], data[17:21], parts[0], parts[1], parts[2], frames, None, sections)


@lru_cache(maxsize=64)
def shown(data: bytes) -> writer.Drawing:
    """The drawing of a file, by the program's text of it."""
    return writer.drawing_of(dwg("show", given=data).stdout.decode().splitlines())


def written(drawing: writer.Drawing) -> bytes:
    """The canonical file of a drawing."""
    is_older = drawing.version == "AC1014"
    mark = drawing.mark + drawing.code_page.to_bytes(2, "little")
    variables, classes = base.framed(base.VARIABLES, drawing.variables), base.framed(base.CLASSES, base.packed(drawing.classes))
    frames = [(handle, writer.frame_of(one, is_older)) for handle, one in sorted(drawing.objects.items())]
    return File(drawing.version.encode() + drawing.lead, mark, variables, classes, frames=frames, sections=drawing.sections).data()


# The numbers of the types of the entities in drawings that are made, and the fields that all of them have.
TYPES = {"LINE": 19, "POINT": 27, "CIRCLE": 18, "ARC": 17, "TEXT": 1, "LWPOLYLINE": 77}
USUAL = "mode 2; xdict 3.0; colour 256; linetype_scale 3FF0000000000000; linetype_flag 0; plotstyle_flag 0; invisible 0; lineweight 29; style 5.11"
LAYERS = {"0": "5.10", "WALLS": "5.17"}


def fields_of(body: Dict[str, Any]) -> Dict[str, str]:
    """Fields as `show` prints them: numbers as words, and each list of a list by its index."""
    found: Dict[str, str] = {}
    for name, value in body.items():
        if isinstance(value, list) and isinstance(value[0], list):
            found.update(fields_of({f"{name}[{index}]": one for index, one in enumerate(value)}))
        elif isinstance(value, list):
            found[name] = " ".join(fields_of({"": one})[""] for one in value)
        else:
            found[name] = struct.pack(">d", value).hex().upper() if isinstance(value, float) else f'"{value}"' if isinstance(value, str) else str(value)
    return found


@lru_cache(maxsize=None)
def made_alike(count: int, seed: int) -> bytes:
    """The drawing that `make` makes of two numbers (docs/FORMAT.md), whose entities are spelled apart from the program."""
    drawing = shown(made(1, 7))
    objects = {handle: one for handle, one in drawing.objects.items() if handle < 0x31}
    objects[0x18] = replace(objects[0x18], fields={**objects[0x18].fields, "ends.last": f"4.{0x30 + count:X}"})
    usual = dict(pair.split(" ") for pair in USUAL.split("; "))
    for handle, kind, layer, body in made_entities(count, seed):
        objects[handle] = writer.Object(handle, kind, "typed", TYPES[kind], {**usual, "layer": LAYERS[layer], **fields_of(body)})
    objects[0x30 + count].fields.update({"links.previous": f"4.{0x2F + count:X}", "links.next": "4.0"})
    return written(replace(drawing, objects=objects))


def value_of(text: str) -> bytes:
    """Bytes by a text: ASCII between quotation marks, or hexadecimal digits."""
    return text[1:-1].encode() if text.startswith('"') else bytes.fromhex(text)


class Input:
    """An input that is changed step by step: first its parts, and then its bytes."""

    def __init__(self, data: bytes = b"", file: Optional[File] = None) -> None:
        self.data = file.data() if file else data
        self.file = file
        self.spans: Spans = {}

    def change_parts(self, **changes: Any) -> None:
        """Other parts of the file."""
        self.file = replace(self.file or file_of(self.data), **changes)
        self.data, self.spans = self.file.data(), {}

    def change_fields(self, changes: Dict[int, Dict[str, str]]) -> None:
        """Changes fields of objects, and spells these again; a field without a value is left out."""
        drawing = shown(self.data)

        def frame_with(handle: int, values: Dict[str, str]) -> bytes:
            one = drawing.objects[handle]
            fields = {path: value.replace(",", " ") for path, value in {**one.fields, **values}.items() if value}
            return writer.frame_of(replace(one, fields=fields), drawing.version == "AC1014")

        again = {handle: frame_with(handle, values) for handle, values in changes.items()}
        for handle, values in changes.items():
            for path in values:
                if frame_with(handle, {other: value for other, value in values.items() if other != path}) == again[handle]:
                    raise ValueError(f"{handle:X}.{path} changes nothing")
        self.change_parts(frames=[(handle, again.get(handle, frame)) for handle, frame in (self.file or file_of(self.data)).frames])

    def place(self, part: str) -> Tuple[int, int]:
        """Where a part stands, and where it ends: `C/body` all of it, `C/body[3]` from its byte 3 on, `middle` the byte in the middle of the input."""
        name, _, index = part.rstrip("]").partition("[")
        if name == "middle":
            return len(self.data) // 2, len(self.data) // 2 + 1
        self.spans = self.spans or spans_of(self.data)
        begin, end = self.spans[name] if name in self.spans else self.all_spans()[name]
        return (begin + int(index), end) if index else (begin, end)

    def all_spans(self) -> Spans:
        """The parts, those of objects and of the map too."""
        self.spans = self.spans or spans_of(self.data)
        self.spans.update(objects_of(self.data, self.spans["preview.end"][1])[1])
        return self.spans

    def number(self, said: str) -> int:
        """A number of bytes: decimal, or the place of a part, `@C/body+3`."""
        if not said.startswith("@"):
            return int(said)
        part, _, more = said[1:].partition("+")
        return self.place(part)[0] + int(more or 0)

    def change(self, word: str) -> None:
        """One change of a part that isn't a field, or of bytes."""
        name, is_value, value = word.partition("=")
        if word == "older":
            self.change_parts(first=b"AC1014" + bytes(7))
        elif word == "preview_last":
            self.change_parts(is_preview_last=True)
        elif name == "map":
            self.change_parts(pages=value.split("/"))
        elif name == "preview":
            content = bytes.fromhex(value)
            self.change_parts(preview=base.PREVIEW + len(content).to_bytes(4, "little") + content + bytes(255 - byte for byte in base.PREVIEW))
        elif name.startswith("section/"):
            content = named(value).data if "*" in value else writer.bytes_of(value)
            self.change_parts(sections=[*(self.file or file_of(self.data)).sections, (int(name[8:]), content)])
        else:
            self.data, self.file = self.changed(name, bool(is_value), value), None

    def changed(self, name: str, is_value: bool, value: str) -> bytes:
        """The bytes with one change. The parts stay where they stood."""
        if name == "sealed":
            begin, end = self.place("word")
            word = base.check(0, self.data[:begin]) ^ base.HEADER_MASKS[self.data[21]]
            return self.data[:begin] + word.to_bytes(2, "little") + self.data[end:]
        if name == "length":
            length = self.number(value)
            return self.data[:length] + bytes(max(0, length - len(self.data)))
        if name.startswith("~"):
            begin, _ = self.place(name[1:])
            return self.data[:begin] + bytes([self.data[begin] ^ 0xFF]) + self.data[begin + 1 :]
        if name.startswith("-"):
            first, _, last = name[1:].partition("..")
            return self.data[: self.place(first)[0]] + self.data[self.place(last)[1] :]
        if not is_value:
            raise ValueError(f"no change: {name}")
        begin, end = self.place(name)
        run = self.number(value).to_bytes(4, "little") if value.startswith("@") else value_of(value)
        if len(run) > end - begin or self.data[begin : begin + len(run)] == run:
            raise ValueError(f"{name} has {end - begin} bytes, which this changes not")
        return self.data[:begin] + run + self.data[begin + len(run) :]


def with_frames(name: str, lines: List[str]) -> Input:
    """A file by its lines: those of contents and of frames. A frame takes the place of that of its handle."""
    found = input_of(name)
    if not lines:
        return found
    frames, again = dict((found.file or file_of(found.data)).frames), []
    for line in lines:
        if line.startswith("classes : "):
            found.change_parts(classes=base.framed(base.CLASSES, base.packed(bits_of(line[10:]))))
        else:
            handle, frame = frame_of(line)
            again.append((handle, frame))
    kept = [(handle, frame) for handle, frame in frames.items() if handle not in dict(again)]
    found.change_parts(frames=sorted([*kept, *again], key=lambda one: one[0]))
    return found


@lru_cache(maxsize=None)
def files() -> Dict[str, List[str]]:
    """The paragraphs of the named files: what a file is made of, and its lines."""
    found = {}
    text = (CASES / "files").read_text(encoding="utf-8").replace("\\\n", "")
    for paragraph in text.split("\n\n"):
        lines = [line for line in paragraph.splitlines() if not line.startswith("#")]
        if lines:
            name, _, said = lines[0].partition(" = ")
            found[name] = [said, *lines[1:]]
    return found


@lru_cache(maxsize=None)
def named(name: str) -> Input:
    """An input by its name; nobody changes it."""
    if name == "nothing":
        return Input()
    if name == "smallest":
        return Input(file=File())
    if name.startswith("bytes/"):
        return Input(bytes.fromhex(name[6:]))
    if name.startswith("made/"):
        return Input(made_alike(*map(int, name[5:].split("/"))))
    if "*" in name:
        byte, count = name.split("*")
        return Input(bytes.fromhex(byte) * int(count))
    if ":" in name:
        whole, _, section = name.partition(":")
        found = named(whole)
        return Input(found.data[found.place(f"{section}.begin")[0] : found.place(f"{section}.end")[1]])
    said, *lines = files()[name]
    return with_frames(said, lines)


def certificate_of(name: str, changes: List[str]) -> bytes:
    """The certificate of a file, with changes: numbers of an entry by its handle, all hexadecimal; entries left out and added; begin and count."""
    data = dwg("certify", given=named(name).data).stdout
    begin, entries = data[:8], {row[0]: list(row) for row in struct.iter_unpack("<QQQ", data[16:])}
    count = None
    length = None
    for change in changes:
        left, _, value = change.partition("=")
        if left == "begin":
            begin = value_of(value)
        elif left == "count":
            count = int(value, 16)
        elif left == "length":
            length = int(value)
        elif left == "-":
            entries.clear()
        elif left.startswith("-"):
            del entries[int(left[1:], 16)]
        elif left.startswith("+"):
            row = [int(number, 16) for number in left[1:].split(":")]
            entries[row[0]] = row
        else:
            handle, member = left.split(".")
            entries[int(handle, 16)][("handle", "rank", "place").index(member)] = int(value, 16)
    written = begin + struct.pack("<Q", len(entries) if count is None else count) + b"".join(struct.pack("<QQQ", *row) for row in entries.values())
    return written[:length]


def input_of(text: str) -> Input:
    """An input by a text: a name, and what is changed. Fields are changed first."""
    name, *changes = text.split()
    if name.startswith("certificate/"):
        return Input(certificate_of(name[12:], changes))
    known = named(name)
    found = Input(known.data, known.file)
    fields: Dict[int, Dict[str, str]] = {}
    others = []
    for word in changes:
        is_field = re.match(r"([0-9A-F]+)\.([^=]+)=(.*)", word)
        if is_field:
            fields.setdefault(int(is_field[1], 16), {})[is_field[2]] = is_field[3]
        else:
            others.append(word)
    if fields:
        found.change_fields(fields)
    for word in others:
        found.change(word)
    return found


def bytes_of(text: str) -> bytes:
    """The bytes of inputs one after the other, ` & ` between them."""
    return b"".join(input_of(one).data for one in text.split(" & "))
