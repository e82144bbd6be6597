"""dwg-info over made drawings and spelled ones: what is expected is worked out from what is spelled, and of made ones from docs/FORMAT.md."""

from __future__ import annotations

import collections
import csv
import io
import itertools
import json
import math
import os
import struct
import sys
import unittest
import unittest.mock
from pathlib import Path
from typing import Any, Dict, Iterator, List, Sequence, Tuple

import common
import made
import older
import spelled
import test_limits
import test_safety
from made import TOOLS, flipped, layout, made as drawn, needs_program, program_that, tool

from dwgtools import outputs, searching, spools, walking
from dwgtools.previews import bitmap_file
from dwgtools.program import Program
from dwgtools.statuses import ToolError

needs_program()

INFO = made.module(TOOLS / "dwg-info", "dwg_info")


def answer(*words: object) -> Tuple[int, bytes, str]:
    """Status, output and messages of the tool, run in this process, where a run costs less."""
    out, said = io.TextIOWrapper(io.BytesIO(), encoding="utf-8"), io.StringIO()
    # (a run before this one may have read what is an output now)
    outputs.files_read.clear()
    with unittest.mock.patch.multiple(sys, argv=["dwg-info", *map(os.fspath, words)], stdout=out, stderr=said):  # type: ignore[arg-type]
        with unittest.mock.patch.object(INFO, "ready_program", lambda _: Program(made.PROGRAM)):
            try:
                status = int(INFO.main())
            except ToolError as fault:
                status = fault.status
                said.write(f"{fault}\n")
        out.flush()
    return status, out.buffer.getvalue(), said.getvalue()  # type: ignore[attr-defined]


def told(path: Path) -> Dict[str, Any]:
    """What is said of a drawing as JSON."""
    status, out, said = answer("--json", path)
    assert (status, said, out.count(b"\n")) == (0, "", 1), (status, said)
    found: Dict[str, Any] = json.loads(out)
    return found


def rows_of(out: bytes) -> List[List[str]]:
    """The rows of CSV."""
    return list(csv.reader(io.StringIO(out.decode(), newline="")))


KEYS = ["file", "bytes", "version", "codepage", "encoding", "objects", "forms", "classes", "kinds", "layers", "blocks", "fonts", "references", "other_files", "extents", "preview"]


class Summary(common.InFolder):
    """What is said of a drawing."""

    def test_made(self) -> None:
        path = self.file("a.dwg", drawn(40, 3))
        found = told(path)
        entities = list(common.made_entities(40, 3))
        kinds = collections.Counter(kind for _, kind, _, _ in entities)
        fixed = {"BLOCK CONTROL": 1, "LAYER CONTROL": 1, "STYLE CONTROL": 1, "LTYPE CONTROL": 1, "APPID CONTROL": 1, "DICTIONARY": 2, "XRECORD": 1, "LAYER": 2, "STYLE": 1}
        fixed.update({"APPID": 1, "LTYPE": 3, "BLOCK HEADER": 3, "BLOCK": 3, "ENDBLK": 3, "ATTDEF": 1, "LINE": 1, "ATTRIB": 1, "SEQEND": 1, "INSERT": 1})
        self.assertEqual(list(found), KEYS)
        self.assertEqual(found["kinds"], dict(sorted((collections.Counter(fixed) + kinds).items())))
        self.assertEqual((found["file"], found["bytes"], found["version"], found["codepage"], found["encoding"]), (str(path), len(drawn(40, 3)), "AC1015", 30, "cp1252"))
        self.assertEqual((found["objects"], found["forms"], found["classes"]), (69, {"typed": 69, "plain": 0, "raw": 0}, 0))
        zero, walls = found["layers"]
        self.assertEqual((walls["handle"], walls["name"], walls["colour"], walls["linetype"], walls["entities"]), ("17", "WALLS", 1, "CONTINUOUS", 20))
        self.assertEqual(walls["kinds"], dict(sorted(collections.Counter(kind for _, kind, layer, _ in entities if layer == "WALLS").items())))
        # (eleven of the fixed objects are entities, all on 0)
        self.assertEqual((zero["name"], zero["entities"]), ("0", 31))
        self.assertEqual([(one["name"], one["entities"], one["inserts"]) for one in found["blocks"]], [("*MODEL_SPACE", 41, 0), ("*PAPER_SPACE", 0, 0), ("TAG", 2, 1)])
        self.assertEqual(found["fonts"], [{"handle": "11", "name": "STANDARD", "font": "txt", "big_font": ""}])
        self.assertEqual((found["references"], found["other_files"], found["preview"]), ([], {}, {"bytes": 1, "pictures": []}))
        self.assertEqual(found["blocks"][2]["extents"], [[0.0, 0.0], [1.0, 0.0]])
        self.assertEqual(tool("dwg-info", "--json", given=drawn(40, 3)).stdout, answer("--json", path)[1].replace(json.dumps(str(path)).encode(), b'"-"'))

    def test_text(self) -> None:
        one = spelled.Drawing()
        one.layer(0x20, b"A\x1b[31m", 3, 1 | 2 | 8)
        self.external(one, 0x21, b"SITE", b"..\\site.dwg")
        one.line((0, 0, 0), (3, 4, 0), layer=0x20)
        one.entity(44, "1" * 30, layer=0x99)
        path = self.file("a\n.dwg", one.file())
        status, out, said = answer(path)
        self.assertEqual((status, said), (0, ""))
        lines = out.decode().splitlines()
        self.assertEqual(lines[0], f"{self.folder}/a\\n.dwg")
        for line in (
            f"  version: AC1015, code page 30 (cp1252), {len(one.file())} bytes", "  objects: 11 (10 typed, 1 plain, 0 raw)", "    MTEXT: 1",
            "    A\\x1b[31m: 1 entities, colour 3, off, frozen, locked, not plotted", "    (99, which isn't there): 1 entities",
            "    *MODEL_SPACE: 2 entities, 0 inserts, extents 0,0 to 3,4", "    STANDARD: txt", "    SITE: ..\\\\site.dwg, 0 inserts",
            "  extents of the model space: 0,0 to 3,4", "  extents of the paper space: none", "    without MTEXT: 1", "  preview: none",
        ):  # fmt: skip
            self.assertIn(line, lines)
        self.assertNotIn(b"\x1b", out)

    @staticmethod
    def external(one: spelled.Drawing, handle: int, name: bytes, path: bytes, overlaid: bool = False) -> None:
        """A block that is an external reference."""
        main = f"001{int(overlaid)}0" + spelled.reals((0, 0, 0)) + spelled.text(path) + spelled.byte(0) + spelled.text(b"") + spelled.long(0)
        one.entry(49, handle, name, main, [(5, 0), (3, 0), (3, 0), (5, 0)])

    def test_a_long_name_of_a_class_is_told_once(self) -> None:
        """With each layer that has such an entity it would make hundreds of megabytes of a small drawing."""
        for length, with_layers in ((255, None), (256, "ENTITY 500")):
            name, count = "K" * length, 20
            classes = f'classes 1\nclass 500 version 0 proxy 0 item 498 app "A" cpp "B" dxf "{name}"\n'
            text = test_limits.PREFIX.format(count=count).replace("classes 0\n", classes)
            text += "".join(f"object {at:X} ENTITY plain 500\n{test_limits.COMMON.format(mode=2).replace('5.10', f'5.{at:X}')}" for at in range(0x100, 0x100 + count))
            showing = program_that(self.folder, "showing", [f'[ "$1" != show ] || exec cat "{self.file("text", text.encode())}"'])
            with unittest.mock.patch.object(made, "PROGRAM", str(showing)):
                found = told(self.file("a.dwg", b"AC1015"))
                status, out, said = answer("--layers", "--json", self.file("a.dwg", b"AC1015"))
            kinds = {with_layers or name: 1}
            self.assertEqual((found["kinds"], found["extents"]["unmeasured"]), ({name: count}, {name: count}))
            self.assertEqual([layer["kinds"] for layer in found["layers"]], [kinds] * count)
            self.assertEqual((status, said, [json.loads(line)["kinds"] for line in out.splitlines()]), (0, "", [kinds] * count))

    def test_fonts_and_references(self) -> None:
        one = spelled.Drawing()
        style = "00" + spelled.reals([0, 1, 0]) + spelled.byte(0) + spelled.real(0) + spelled.text(b"romans.shx") + spelled.text(b"gro\xdf.shx")
        one.entry(53, 0x20, b"ROMAN", style, [(5, 0)])
        self.external(one, 0x21, b"SITE", b"C:\\plans\\site.dwg")
        self.external(one, 0x22, b"GRID", b"grid.dwg", overlaid=True)
        for _ in range(3):
            one.insert(0x21, (1, 2, 0))
        one.of_class(500, b"IMAGE")
        one.entity(500, "1" * 30)
        found = told(self.file("a.dwg", one.file()))
        self.assertEqual(found["fonts"][1], {"handle": "20", "name": "ROMAN", "font": "romans.shx", "big_font": "groß.shx"})
        same = {"entities": 0, "extents": None}
        self.assertEqual(found["references"], [{"handle": "21", "name": "SITE", "path": "C:\\plans\\site.dwg", "overlaid": False, "inserts": 3, **same}, {"handle": "22", "name": "GRID", "path": "grid.dwg", "overlaid": True, "inserts": 0, **same}])
        self.assertEqual((found["kinds"]["IMAGE"], found["classes"], found["extents"]["unmeasured"]), (1, 1, {"IMAGE": 1}))

    def test_of_the_older_version(self) -> None:
        found = told(self.file("a.dwg", older.Plan().file()))
        self.assertEqual((found["version"], found["kinds"]["LINE"], found["extents"]["unmeasured"]), ("AC1014", 2, {"ELLIPSE": 1}))
        self.assertEqual([(one["name"], one["plotted"], one["lineweight"], one["on"]) for one in found["layers"]], [("0", None, None, True), ("WALLS", None, None, True)])
        # The plan is 400 wide and 300 high; the door, inserted at 100, has a leaf of 90 and swings by a quarter of a turn.
        self.assertEqual((found["extents"]["model"], found["blocks"][2]["entities"]), ([[0.0, 0.0], [400.0, 300.0]], 2))
        self.assertTrue(all(abs(a - b) < 1e-9 for a, b in zip(sum(found["blocks"][2]["extents"], []), (0, 0, 90, 90))))


Point = Tuple[float, float, float]


def turn(begin: float = 0.0, end: float = 2 * math.pi) -> List[Tuple[float, float]]:
    """Points of a circle of radius 1 between two angles, close to each other, and those on its axes."""
    quarters = [math.pi / 2 * at for at in range(5) if begin <= math.pi / 2 * at <= end]
    return [(math.cos(angle), math.sin(angle)) for angle in [begin + (end - begin) * part / 4000 for part in range(4001)] + quarters]


def placed(normal: Sequence[float], x: float, y: float, z: float) -> Point:
    """Where a point comes to lie that is told in a plane: by the rule of the arbitrary axis."""
    size = math.sqrt(sum(part * part for part in normal))
    n = [part / size for part in normal]
    first = crossed((0, 1, 0) if abs(n[0]) < 1 / 64 and abs(n[1]) < 1 / 64 else (0, 0, 1), n)
    length = math.sqrt(sum(part * part for part in first))
    first = [part / length for part in first]
    a, b, c = (x * one + y * other + z * up for one, other, up in zip(first, crossed(n, first), n))
    return a, b, c


def crossed(one: Sequence[float], other: Sequence[float]) -> List[float]:
    """The cross product."""
    return [one[1] * other[2] - one[2] * other[1], one[2] * other[0] - one[0] * other[2], one[0] * other[1] - one[1] * other[0]]


def through(
    normal: Sequence[float], place: Point, scale: Point, rotation: float, base: Point, points: Sequence[Sequence[float]], apart: Tuple[float, float] = (0.0, 0.0)
) -> List[Point]:  # fmt: skip
    """Where an insert, and its copies farthest away, put the corners of the box around points of its block."""
    found = []
    for corner in itertools.product(*((min(some), max(some)) for some in zip(*points))):
        x, y, z = ((value - least) * by for value, least, by in zip(corner, base, scale))
        for across, up in itertools.product((0.0, apart[0]), (0.0, apart[1])):
            u, v = x + across, y + up
            turned = u * math.cos(rotation) - v * math.sin(rotation), u * math.sin(rotation) + v * math.cos(rotation)
            found.append(placed(normal, place[0] + turned[0], place[1] + turned[1], place[2] + z))
    return found


class ExtentsOf(common.InFolder):
    """What entities extend over."""

    def expect(self, one: spelled.Drawing, corners: Sequence[float], space: str = "model") -> Dict[str, Any]:
        """What is said of a drawing, a space of which extends over this."""
        found = told(self.file("a.dwg", one.file()))
        self.assertIsNotNone(found["extents"][space])
        for value, expected in zip(sum(found["extents"][space], []), corners):
            self.assertAlmostEqual(value, expected, 9)
        return found

    def test_each_kind(self) -> None:
        cases: List[Tuple[Any, Sequence[float]]] = [
            (lambda one: one.line((1, 2, 3), (-4, 5, 6)), (-4, 2, 1, 5)),
            (lambda one: one.point((7, 8, 9)), (7, 8, 7, 8)),
            (lambda one: one.circle((10, 20, 0), 3.0), (7, 17, 13, 23)),
            (lambda one: one.circle((10, 20, 0), 3.0, spelled.DOWN), (-13, 17, -7, 23)),
            (lambda one: one.arc((0, 0, 0), 2.0, 0.0, math.pi / 2), (0, 0, 2, 2)),
            (lambda one: one.ellipse((1, 1, 0), (4, 0, 0), 0.5, 0.0, 2 * math.pi), (-3, -1, 5, 3)),
            (lambda one: one.ray((5, 6, 0), (1, 0, 0)), (5, 6, 5, 6)),
            (lambda one: one.xline((5, 6, 0), (1, 0, 0)), (5, 6, 5, 6)),
            (lambda one: one.polyline([(0, 0), (10, 0)], [1.0, 0.0]), (0, -5, 10, 0)),
            (lambda one: one.polyline([(0, 0), (10, 0)], width=2.0), (0, -1, 10, 1)),
            (lambda one: one.solid([(0, 0), (4, 0), (0, 3), (4, 3)]), (0, 0, 4, 3)),
            (lambda one: one.face([(0, 0, 0), (4, 0, 1), (4, 3, 1), (0, 3, 0)], edges=15), (0, 0, 4, 3)),
            (lambda one: one.text(b"far", (3, 4), 100.0), (3, 4, 3, 4)),
            (lambda one: one.definition(b"", b"TAG", (3, 4), 100.0), (3, 4, 3, 4)),
        ]
        for spell, corners in cases:
            one = spelled.Drawing()
            spell(one)
            self.assertEqual(self.expect(one, corners)["extents"]["unmeasured"], {})

    def test_vertices_and_attributes_stand_where_their_owners_do(self) -> None:
        for is_before in (True, False):
            one = spelled.Drawing()
            first, last, attribute = (0x200, 0x201, 0x202) if is_before else (0x400, 0x401, 0x402)
            one.vertex((1, 2, 0), 0x300, handle=first)
            one.vertex((-3, 9, 0), 0x300, handle=last)
            one.attribute(b"A", b"T", (50, 0), 1.0, 0x301, handle=attribute)
            one.polyline_in_space(first, last, handle=0x300, mode=1)
            one.insert(one.MODEL, (0, 0, 0), handle=0x301, mode=1, ends=(attribute, attribute, 0))
            found = self.expect(one, (-3, 0, 50, 9), "paper")
            self.assertIsNone(found["extents"]["model"])

    def test_inserts(self) -> None:
        one = spelled.Drawing()
        one.block(0x20, b"INNER", (10.0, 0.0, 0.0))
        one.block(0x21, b"OUTER")
        one.block(0x22, b"UNUSED")
        one.line((10, 0, 0), (12, 1, 0), owner=0x20)
        one.line((900, 0, 0), (901, 1, 0), owner=0x22)
        one.insert(0x20, (100, 0, 0), owner=0x21)
        one.insert(0x21, (0, 5, 0), owner=0x20)
        one.insert(0x21, (0, 1000, 0), (2.0, 2.0, 1.0), math.pi / 2)
        one.minsert(0x20, (0, 0, 0), (3, 2), (50.0, 7.0), mode=1)
        # INNER is 2 by 1 from its base, OUTER has it at 100; twice as large and turned to the left it goes from 200 to 204 upward, and 2 to the left.
        found = self.expect(one, (-2, 1200, 0, 1204))
        self.assertEqual([[round(value, 9) for value in corner] for corner in found["extents"]["paper"]], [[0, 0], [102, 8]])
        self.assertEqual([(said["name"], said["inserts"], said["extents"]) for said in found["blocks"][3:]], [("OUTER", 2, [[100.0, 0.0], [102.0, 1.0]]), ("UNUSED", 0, [[900.0, 0.0], [901.0, 1.0]])])

    def test_tilted_inserts(self) -> None:
        """What is high in a block is seen where its insert is tilted: by corners of boxes in three dimensions, by a computation of this file."""
        tilted, across = (0.3, -0.5, 0.7), (0.01, 0.005, -1.0)
        spelled_ones: List[Tuple[Any, Any]] = [
            (lambda one, to: one.line((1, 2, 3), (-4, 5, 9), owner=to), [(1, 2, 3), (-4, 5, 9)]),
            (lambda one, to: one.point((7, 8, 9), owner=to), [(7, 8, 9)]),
            (lambda one, to: one.circle((10, 20, 5), 3.0, owner=to), [(10 + 3 * x, 20 + 3 * y, 5) for x, y in turn()]),
            (lambda one, to: one.circle((10, 20, 5), 3.0, tilted, owner=to), [placed(tilted, 10 + 3 * x, 20 + 3 * y, 5) for x, y in turn()]),
            (lambda one, to: one.arc((1, 2, 5), 4.0, 0.5, 2.5, across, owner=to), [placed(across, 1 + 4 * x, 2 + 4 * y, 5) for x, y in turn(0.5, 2.5)]),
            (lambda one, to: one.ellipse((1, 2, 3), (0, 4, 3), 0.5, 0.0, 2 * math.pi, (1.0, 0.0, 0.0), owner=to), [(1, 2 + 4 * x - 1.5 * y, 3 + 3 * x + 2 * y) for x, y in turn()]),
            (lambda one, to: one.ray((5, 6, 7), (1, 0, 0), owner=to), [(5, 6, 7)]),
            (lambda one, to: one.xline((5, 6, -7), (1, 0, 0), owner=to), [(5, 6, -7)]),
            (lambda one, to: one.polyline([(0, 0), (6, 0)], [-1.0, 0.0], elevation=2.0, normal=tilted, owner=to), [placed(tilted, 3 + 3 * x, 3 * y, 2) for x, y in turn(0.0, math.pi)]),
            (lambda one, to: one.polyline([(0, 0), (6, 0)], width=2.0, elevation=2.0, owner=to), [(0, -1, 2), (6, 1, 2)]),
            (lambda one, to: one.polyline([(0, 0), (6, 0)], width=2.0, elevation=2.0, normal=tilted, owner=to), [placed(tilted, x, y, 2) for x in (0, 6) for y in (-1, 1)]),
            (lambda one, to: one.solid([(0, 0), (4, 0), (0, 3), (4, 3)], 2.5, tilted, owner=to), [placed(tilted, x, y, 2.5) for x in (0, 4) for y in (0, 3)]),
            (lambda one, to: one.face([(0, 0, 1), (4, 0, 1), (4, 3, 5), (0, 3, -2)], owner=to), [(0, 0, 1), (4, 3, 5), (0, 3, -2)]),
            (lambda one, to: one.text(b"A", (3, 4), 1.0, {"elevation": 6.0, "normal": tilted}, owner=to), [placed(tilted, 3, 4, 6)]),
            (lambda one, to: one.insert(0x21, (1, 2, 3), (2.0, 3.0, 4.0), 0.4, tilted, owner=to), through(tilted, (1, 2, 3), (2, 3, 4), 0.4, (1, 1, 1), [(5, 6, 7), (8, 6, 9)])),
            (self.in_space, [(1, 2, 3), (-3, 9, 8)]),
        ]  # fmt: skip
        for spell, points in spelled_ones:
            for normal, rotation in ((tilted, 0.7), (across, -0.2), ((0.0, 0.0, 1.0), 0.3), ((1.0, 0.0, 0.0), 0.0)):
                one = spelled.Drawing()
                one.block(0x20, b"HIGH", (0.5, -0.25, 2.0))
                one.block(0x21, b"INNER", (1.0, 1.0, 1.0))
                one.line((5, 6, 7), (8, 6, 9), owner=0x21)
                spell(one, 0x20)
                one.minsert(0x20, (10, 20, 30), (3, 2), (50.0, 7.0), (1.5, -2.0, 3.0), rotation, normal)
                found = told(self.file("a.dwg", one.file()))["extents"]
                corners = through(normal, (10, 20, 30), (1.5, -2.0, 3.0), rotation, (0.5, -0.25, 2.0), points, (100.0, 7.0))
                expected = [min(x for x, _, _ in corners), min(y for _, y, _ in corners), max(x for x, _, _ in corners), max(y for _, y, _ in corners)]
                self.assertEqual(found["unmeasured"], {})
                # (points of arcs stand close to where these are farthest)
                for value, wanted in zip(sum(found["model"], []), expected):
                    self.assertAlmostEqual(value, wanted, delta=2e-5 if len(points) > 90 else 1e-9)

    @staticmethod
    def in_space(one: spelled.Drawing, owner: int) -> None:
        """A polyline in space in a block, the first vertex of which stands before it."""
        one.vertex((1, 2, 3), 0x300, handle=0x200)
        one.polyline_in_space(0x200, 0x400, handle=0x300, owner=owner)
        one.vertex((-3, 9, 8), 0x300, handle=0x400)

    def test_how_high_something_is_changes_no_insert_that_is_not_tilted(self) -> None:
        one = spelled.Drawing()
        one.block(0x20, b"HIGH")
        one.line((0, 0, 1e14), (1, 1, -1e14), owner=0x20)
        one.insert(0x20, (5, 5, 1e14), (1.0, 1.0, 1e9))
        self.assertEqual(self.expect(one, (5, 5, 6, 6))["extents"]["unmeasured"], {})
        # In a block, whose insert may be tilted, what is too high is told.
        one.block(0x21, b"OUTER")
        one.insert(0x20, (5, 5, 0), (1.0, 1.0, 1e9), owner=0x21)
        self.assertEqual(self.expect(one, (5, 5, 6, 6))["extents"]["unmeasured"], {"INSERT": 1})

    def test_what_cannot_be_measured_is_told(self) -> None:
        one = spelled.Drawing()
        one.point((math.nan, 0, 0))
        one.point((1e300, 0, 0))
        one.point((1, 1, 0))
        one.entity(78, "1" * 40)
        one.insert(0x20, (0, 0, 0))
        found = self.expect(one, (1, 1, 1, 1))
        self.assertEqual(found["extents"]["unmeasured"], {"HATCH": 1, "POINT": 2})


class Tables(common.InFolder):
    """Texts, layers and attributes."""

    def test_texts(self) -> None:
        one = spelled.Drawing()
        handles = [one.text(content, (0, 0), 1.0, layer=one.WALLS) for content in (b"Room 7", b"ROOM 12", b"a.b \\ \xfc\x81\r\n\x1b\t\"q\",", b"axb")]
        insert = one.free()
        value = one.attribute(b"Room 9", b"ROOM", (0, 0), 1.0, insert)
        default = one.definition(b"room", b"ROOM", (0, 0), 1.0, layer=0x99)
        path = self.file("a.dwg", one.file())
        found = lambda *words: [row[1] for row in rows_of(answer("--texts", *words, path)[1])[1:]]
        name = lambda *which: [f"{handle:X}" for handle in which]
        self.assertEqual(found("Room"), name(handles[0], value))
        self.assertEqual(found("room", "--ignore-case"), name(handles[0], handles[1], value, default))
        self.assertEqual(found(r"^R\w+ \d\d$"), name(handles[1]))
        self.assertEqual((found("a.b"), found("a.b", "--fixed"), found("A.B", "--ignore-case", "--fixed")), (name(handles[2], handles[3]), name(handles[2]), name(handles[2])))
        self.assertEqual(found(""), name(*handles, value, default))
        status, out, said = answer("--texts", "", path)
        self.assertEqual((status, said, out.splitlines()[0]), (0, "", b"file,handle,kind,layer,text"))
        rows = rows_of(out)
        self.assertEqual(rows[1], [str(path), f"{handles[0]:X}", "TEXT", "WALLS", "Room 7"])
        self.assertEqual(rows[3][4], 'a.b \\\\ ü\\x81\\r\\n\\x1b\\t"q",')
        self.assertEqual([row[2:] for row in rows[5:]], [["ATTRIB", "0", "Room 9"], ["ATTDEF", "", "room"]])
        self.assertFalse(set(out) & {0x1B, 0x0D, 0x09})
        lines = [json.loads(line) for line in answer("--texts", "a", "--json", path)[1].splitlines()]
        self.assertEqual(lines[0], {"file": str(path), "handle": f"{handles[2]:X}", "kind": "TEXT", "layer": "WALLS", "text": 'a.b \\ ü\udc81\r\n\x1b\t"q",'})
        status, out, said = answer("--texts", "nowhere", path)
        self.assertEqual((status, out, said), (1, b"file,handle,kind,layer,text\n", ""))

    def test_texts_by_the_code_page(self) -> None:
        for drawing in (spelled.Drawing(), older.Drawing()):
            handle = drawing.text("Стена".encode("cp1251"), (0, 0), 1.0)
            path = self.file("a.dwg", drawing.file(29))
            self.assertEqual(rows_of(answer("--texts", "стена", "--ignore-case", path)[1])[1], [str(path), f"{handle:X}", "TEXT", "0", "Стена"])

    def test_a_pattern_that_takes_too_long_holds_no_run_up(self) -> None:
        """Python would go through a text of some letters for years."""
        paths = []
        for content in (b"Room " + b"a" * 60, b"Room 7" + b"b" * 60):
            one = spelled.Drawing()
            handle = one.text(content, (0, 0), 1.0)
            paths.append(self.file(f"{len(paths)}.dwg", one.file()))
        with unittest.mock.patch.object(searching, "MOST_SECONDS", 1):
            status, out, said = answer("--texts", "(a|a)+!|Room 7", *paths)
        self.assertEqual((status, said), (67, f"dwg-info: {paths[0]}: its texts take more than 1 seconds to be searched by PATTERN\n"))
        self.assertEqual([row[:2] for row in rows_of(out)[1:]], [[str(paths[1]), f"{handle:X}"]])
        found = answer("--texts", "a{60}|b{60}", *paths)
        self.assertEqual((found[0], found[1].count(b"\n"), found[2]), (0, 3, ""))
        # Where no process can begin, all are searched.
        with unittest.mock.patch.object(searching, "Worker", side_effect=BlockingIOError):
            self.assertEqual(answer("--texts", "a{60}|b{60}", *paths), found)

    def test_very_many_rows_are_kept_in_a_file(self) -> None:
        path = self.file("a.dwg", drawn(60, 7))
        expected = answer("--texts", "", path)
        with unittest.mock.patch.object(spools, "LITTLE", 10):
            self.assertEqual(answer("--texts", "", path), expected)
            self.assertEqual(answer("--json", path)[0], 0)
        self.assertGreater(len(expected[1].splitlines()), 8)

    def test_layers(self) -> None:
        one = spelled.Drawing()
        for handle, name, colour, values in ((0x20, b"off, frozen", 65536 - 5, 1), (0x21, b"locked", 2, 8 + 16 + 32 * 7), (0x22, b"off", 3, 2 + 32 * 29), (0x23, b"d", 4, 16 + 32 * 31), (0x24, b"b", 4, 32 * 30)):
            one.layer(handle, name, colour, values)
        for layer in (0x20, 0x21, 0x21, 0x99):
            one.point((0, 0, 0), layer=layer)
        path = self.file("a.dwg", one.file())
        status, out, said = answer("--layers", path)
        head, *rows = rows_of(out)
        self.assertEqual((status, said, head), (0, "", ["file", "handle", "name", "colour", "linetype", "on", "frozen", "locked", "plotted", "lineweight", "entities"]))
        self.assertEqual([row[1:] for row in rows[2:]], [
            ["20", "off, frozen", "5", "CONTINUOUS", "no", "yes", "no", "no", "0.0", "1"],
            ["21", "locked", "2", "CONTINUOUS", "yes", "no", "yes", "yes", "0.25", "2"],
            ["22", "off", "3", "CONTINUOUS", "no", "no", "no", "no", "by-layer", "0"],
            ["23", "d", "4", "CONTINUOUS", "yes", "no", "no", "yes", "default", "0"],
            ["24", "b", "4", "CONTINUOUS", "yes", "no", "no", "no", "by-block", "0"],
            ["99", "", "", "", "", "", "", "", "", "1"],
        ])  # fmt: skip
        lines = [json.loads(line) for line in answer("--layers", "--json", path)[1].splitlines()]
        self.assertEqual(lines, [{"file": str(path), **layer} for layer in told(path)["layers"]])
        older_one = older.Drawing()
        older_one.layer(0x20, b"x", 3, 1 | 8)
        rows = rows_of(answer("--layers", self.file("b.dwg", older_one.file()))[1])
        self.assertEqual(rows[-1][1:], ["20", "x", "3", "CONTINUOUS", "yes", "yes", "yes", "", "", "0"])

    def test_attributes(self) -> None:
        for drawing in (spelled.Drawing(), older.Drawing()):
            drawing.block(0x20, b"DOOR")
            before, after, lost = 0x200, 0x400, 0x401
            drawing.attribute(b"A,1\n", b"NO", (0, 0), 1.0, 0x300, handle=before, layer=drawing.WALLS)
            drawing.attribute(b"oak", b"WOOD", (0, 0), 1.0, 0x300, handle=after)
            drawing.attribute(b"x", b"LOST", (0, 0), 1.0, 0x999, handle=lost)
            drawing.insert(0x20, (0, 0, 0), handle=0x300, layer=drawing.WALLS, ends=(before, after, 0))
            path = self.file("a.dwg", drawing.file())
            status, out, said = answer("--attributes", path)
            self.assertEqual((status, said), (0, ""))
            self.assertEqual(rows_of(out), [["file", "insert", "block", "layer", "tag", "value"], [str(path), "300", "DOOR", "WALLS", "NO", "A,1\\n"], [str(path), "300", "DOOR", "WALLS", "WOOD", "oak"], [str(path), "999", "", "", "LOST", "x"]])
        first = json.loads(answer("--attributes", "--json", path)[1].splitlines()[0])
        self.assertEqual(first, {"file": str(path), "insert": "300", "block": "DOOR", "layer": "WALLS", "tag": "NO", "value": "A,1\n"})


def bitmap(bits: int, used: int = 0, compression: int = 0, length: int = 40, after: bytes = b"sixteen of pixels", size: Tuple[int, int] = (2, 2)) -> bytes:
    """A bitmap without the header of a file, whose palette and masks are to be put before `after` by who asks."""
    return struct.pack("<IiiHHIIiiII", length, *size, 1, bits, compression, 0, 0, 0, used, 0) + bytes(length - 40) + after


class Previews(common.InFolder):
    """The preview pictures."""

    def with_pictures(self, *pictures: Tuple[int, bytes]) -> Path:
        """A drawing with a preview section after its end."""
        data = drawn(3, 1)
        at, entries, further = len(data) + 21 + 9 * len(pictures), [], b""
        for code, picture in pictures:
            entries.append((code, at + len(further), len(picture)))
            further += picture
        return self.file("a.dwg", made.WRITER.with_preview_at(data, len(data)) + made.WRITER.preview(entries, further))

    def test_where_the_bits_begin(self) -> None:
        core = struct.pack("<IHHHH", 12, 2, 2, 1, 8)
        for data, begin in (
            (bitmap(24), 40), (bitmap(8, after=bytes(1030)), 40 + 1024), (bitmap(4, after=bytes(70)), 40 + 64), (bitmap(1, after=bytes(13)), 48),
            (bitmap(8, used=3, after=bytes(20)), 52), (bitmap(24, used=2, after=bytes(24)), 48), (bitmap(16, compression=3, after=bytes(20)), 52),
            (bitmap(32, compression=6, after=bytes(32)), 56), (bitmap(32, compression=3, length=108), 108), (bitmap(8, length=124, after=bytes(1030)), 124 + 1024),
            (core + bytes(800), 12 + 768), (struct.pack("<IHHHH", 12, 2, 2, 1, 24) + bytes(14), 12),
            # (rows may go from top to bottom, the last may end with its last pixel, and of compressed bits it isn't told how many there are)
            (bitmap(24, after=bytes(14), size=(2, -2)), 40), (bitmap(8, compression=1, after=bytes(1025), size=(99, 99)), 40 + 1024),
        ):  # fmt: skip
            found = bitmap_file(data)
            assert found is not None
            self.assertEqual(found, b"BM" + struct.pack("<IHHI", len(found), 0, 0, 14 + begin) + data)
        self.assertEqual(bitmap_file(b"BM" + bytes(60)), b"BM" + bytes(60))
        # Without bits, or without all of them, it isn't whole; nor is one without width or height.
        for data in (
            bitmap(24, after=b""), bitmap(8, after=bytes(1024)), bitmap(24, after=bytes(13)), bitmap(8, after=bytes(1024 + 5)), bitmap(8, compression=1, after=bytes(1024)),
            bitmap(24, size=(0, 2)), bitmap(24, size=(2, 0)), bitmap(24, size=(-2, 2)), bitmap(24, size=(1 << 30, 1 << 30)), core + bytes(768 + 5), core[:4] + bytes(2) + core[6:] + bytes(800),
        ):  # fmt: skip
            self.assertIsNone(bitmap_file(data))
        for data in (b"", b"\x28", bitmap(8, after=bytes(1023)), bytes(100), bitmap(24)[:39], core[:11], bitmap(24, used=1 << 31)):
            self.assertIsNone(bitmap_file(data))

    def test_taken_out(self) -> None:
        picture, out = bitmap(8, after=bytes(range(256)) * 5), self.folder / "out"
        path = self.with_pictures((1, bytes(80)), (2, picture), (3, b"WMF"), (6, b"\x89PNG"), (9, b"?"), (2, b""))
        whole = b"BM" + struct.pack("<IHHI", 14 + len(picture), 0, 0, 14 + 40 + 1024) + picture
        for words, expected in (([], whole), (["--picture", "2"], whole), (["--picture", "3"], b"WMF"), (["--picture", "4"], b"\x89PNG"), (["--picture", "1"], bytes(80)), (["--picture", "5"], b"?")):
            self.assertEqual(answer("--preview", out, *words, path), (0, b"", ""))
            self.assertEqual(out.read_bytes(), expected)
            self.assertEqual(answer("--preview", out, *words, path)[0], 73)
            out.write_bytes(b"old")
            self.assertEqual(answer("--preview", out, "--force", *words, path)[0], 0)
            self.assertEqual(out.read_bytes(), expected)
            out.unlink()
        self.assertEqual(answer("--preview", "-", path), (0, whole, ""))
        self.assertEqual(answer("--preview", out, "--picture", "6", path), (66, b"", f"{path}: it has no preview picture 6, but 5 in all\n"))
        pictures = [(1, "header", 80), (2, "BMP", len(picture)), (3, "WMF", 3), (6, "PNG", 4), (9, "unknown", 1)]
        expected_json = [{"number": at, "code": code, "kind": kind, "bytes": size} for at, (code, kind, size) in enumerate(pictures, 1)]
        found = told(path)["preview"]
        self.assertEqual(found, {"bytes": 55 + 80 + len(picture) + 8, "pictures": expected_json})
        # dwg-check tells the same.
        checked = json.loads(tool("dwg-check", "--json", path).stdout)["preview"]
        self.assertEqual(checked, {"bytes": found["bytes"], "pictures": [{"code": code, "bytes": size} for code, _, size in pictures]})
        self.assertIn(f"  preview: 1 header of 80 bytes, 2 BMP of {len(picture)} bytes, 3 WMF of 3 bytes", answer(path)[1].decode())
        self.assertFalse(out.exists())

    def test_a_picture_of_a_damaged_drawing(self) -> None:
        path = self.with_pictures((2, bitmap(24)))
        data = path.read_bytes()
        place = layout(drawn(3, 1)).frames[5].place + 4
        path.write_bytes(data[:place] + bytes([data[place] ^ 1]) + data[place + 1 :])
        self.assertEqual(answer("--preview", "-", path)[1][14:], bitmap(24))
        self.assertEqual(answer(path)[0], 3)

    def test_refused(self) -> None:
        out = self.folder / "out"
        for path, status, said in (
            (self.file("none.dwg", drawn(3, 1)), 66, "it has no preview picture"),
            (self.with_pictures((1, bytes(80))), 66, "it has no preview picture"),
        ):
            self.assertEqual(answer("--preview", out, path), (status, b"", f"{path}: {said}\n"))
        for picture in (bitmap(8), bitmap(24, after=b"")):
            path = self.with_pictures((2, picture))
            self.assertEqual(answer("--preview", out, path), (66, b"", f"{path}: its picture is no whole BMP\n"))
        bad = self.file("bad.dwg", drawn(3, 1)[:60])
        self.assertEqual(answer("--preview", out, bad), (3, b"", f"{bad}: refused: header 0 at 60: short\n"))
        self.assertEqual(answer("--preview", path, "--force", path)[0], 73)
        self.assertFalse(out.exists())


class Runs(common.InFolder):
    """Words, and runs over many files."""

    def test_words(self) -> None:
        path = self.file("a.dwg", drawn(3, 1))
        for words, why in (
            (["--nothing"], "unrecognized arguments: --nothing"), (["-", "-"], "only one of the drawings can be standard input"),
            (["--fixed", "pump"], "--fixed is of --texts: write --texts PATTERN --fixed FILE"), (["--ignore-case", "--layers"], "--ignore-case is of --texts: write --texts PATTERN --ignore-case FILE"),
            (["--fixed", "--ignore-case"], "--fixed and --ignore-case are of --texts: write --texts PATTERN --fixed --ignore-case FILE"),
            (["--layers=WALLS"], "--layers takes no name, and prints all layers of each FILE: write --layers FILE"),
            (["--attributes=NO"], "--attributes takes no name, and prints all attributes of each FILE: write --attributes FILE"),
            (["--picture", "1"], "--picture is of --preview"), (["--preview", "x", "--picture", "0"], "argument --picture: '0' is no number from 1 to 999"),
            (["--preview", "x", path], "--preview takes one drawing, and neither --json nor --output"),
            (["--preview", "x", "--json"], "--preview takes one drawing, and neither --json nor --output"),
            (["--preview", "x", "--follow"], "--preview takes one drawing, and no folder"), (["--all", "--ext", "dwg"], "--all takes every file, and --ext some; name one of them"),
            (["--texts", "(", "--json"], "PATTERN is no regular expression: missing ), unterminated subpattern at position 0"),
            (["--layers", "--attributes"], "argument --attributes: not allowed with argument --layers"),
        ):  # fmt: skip
            status, out, said = answer(*words, path)
            self.assertEqual((status, out, said.splitlines()[-1]), (64, b"", why), words)
        self.assertEqual(answer("--texts", "(", "--fixed", path)[0], 1)
        # What is no file may be meant as a name; the others are told all the same.
        told = answer("--layers", path)[1]
        for words, said in (
            (["--layers", "WALLS"], "WALLS: No such file or directory; --layers takes no name, and prints all layers of each FILE"),
            (["--layers", "gone.dwg"], "gone.dwg: No such file or directory"), (["--layers", "--", "--layers=x"], "--layers=x: No such file or directory; --layers takes no name, and prints all layers of each FILE"),
        ):  # fmt: skip
            self.assertEqual(answer(*words, path), (4, told, f"dwg-info: {said}\n"))
        self.assertEqual(answer("--attributes", "NO", path)[::2], (4, "dwg-info: NO: No such file or directory; --attributes takes no name, and prints all attributes of each FILE\n"))
        self.assertEqual(answer("--texts", "T", "WALLS", path)[2], "dwg-info: WALLS: No such file or directory\n")

    def test_one_bad_file_never_ends_a_run(self) -> None:
        good, last = self.file("a.dwg", drawn(5, 1)), self.file("z.dwg", drawn(6, 1))
        bad = self.file("b\x1b.dwg", flipped(drawn(5, 1), layout(drawn(5, 1)).frames[9].place + 4))
        for words in ([], ["--json"], ["--texts", "T"], ["--layers"], ["--attributes"], ["--layers", "--json"]):
            expected = [answer(*words, path)[1] for path in (good, last)]
            if expected[0].startswith(b"file,"):
                expected[1] = expected[1].partition(b"\n")[2]
            status, out, said = answer(*words, good, bad, self.folder / "none", last)
            self.assertEqual((status, out), (3, b"".join(expected)), words)
            self.assertRegex(said, r"\Adwg-info: .*/b\\x1b.dwg: refused: objects \d+ at \d+: check\ndwg-info: .*/none: No such file or directory\n\Z")
        # The first that fails tells the status, whatever it is, and nothing else of a text that isn't found.
        self.assertEqual(answer("--texts", "nowhere", good, self.folder / "none", bad)[0], 4)
        out = self.folder / "out"
        self.assertEqual(answer("--json", good, bad, "-o", out)[0], 3)
        self.assertEqual(out.read_bytes(), answer("--json", good)[1])
        self.assertEqual(answer("--json", good, "-o", out)[0], 73)
        self.assertEqual(answer("--json", last, "-o", out, "--force")[0], 0)
        self.assertEqual(out.read_bytes(), answer("--json", last)[1])
        # Where nothing can be told nothing is written.
        for words in ([], ["--json"], ["--layers"]):
            self.assertEqual(answer(*words, bad, "-o", self.folder / "new")[0], 3)
            self.assertEqual(answer(*words, bad, self.folder / "none", "-o", out, "--force")[0], 3)
        self.assertEqual((out.read_bytes(), (self.folder / "new").exists()), (answer("--json", last)[1], False))
        self.assertEqual(answer("--json", last, good, "-o", bad, "--force")[0], 0)

    def test_a_program_that_fails_on_one_file(self) -> None:
        good, other = self.file("a.dwg", drawn(5, 1)), self.file("b.dwg", drawn(6, 1))
        size = len(drawn(6, 1))
        failing = program_that(self.folder, "failing", [f'[ "$1" = drill ] || [ "$(stat -Lc %s /dev/stdin)" != {size} ] || kill -9 $$', 'exec "$REAL" "$@"'])
        ran = tool("dwg-info", "--program", failing, "--layers", other, good)
        self.assertEqual((ran.returncode, ran.stdout, ran.stderr.decode()), (69, answer("--layers", good)[1], f"dwg-info: {other}: the program dwg gave no answer: killed by signal 9\n"))

    def test_foreign_files(self) -> None:
        """What a file is that is no drawing that is read, in the words of dwg-check, for which the program isn't asked."""
        rest = ", unless dwg-check says that it was one"
        zip_, cut = b"PK\x03\x04" + bytes(range(256)), drawn(3, 1)[6:]
        files = {**common.foreign(), "zip.dwg": zip_, "zeros": bytes(700), "AC1018": b"AC1018" + bytes(700), "AC1099": b"AC1099" + bytes(99), "in.dwg": b"MAC\0" + drawn(3, 1), "cut": cut}
        paths = [self.file(name, data) for name, data in files.items()]
        checked = [line.split("\t") for line in tool("dwg-check", "--quiet", *paths).stdout.decode().splitlines()[1:]]
        expected = [f"dwg-info: {path}: {verdict}: {detail}{rest if path.endswith(('zeros', 'random', 'zip.dwg')) else ''}" for path, verdict, detail, *_ in checked]
        status, out, said = answer(*paths)
        self.assertEqual((status, out, said.splitlines()), (3, b"", expected))
        for name, told in (("AC1018", "other version: AC1018 2004"), ("zip.dwg", f"no drawing: zip archive{rest}"), ("AC1032", "damaged: header 0 at 0: version (the rest of the header is that of AC1015)")):
            for words in ((name,), ("--preview", "-", name)):
                path = self.folder / words[-1]
                self.assertEqual(answer(*words[:-1], path)[2].replace("dwg-info: ", ""), f"{path}: {told}\n", words)
        ran = tool("dwg-info", "--texts", "T", given=zip_)
        self.assertEqual((ran.returncode, ran.stderr), (3, b"dwg-info: standard input: no drawing: zip archive\n"))
        # In a folder such files are counted, and neither they nor the program are asked what they were.
        counted = program_that(self.folder, "counted", [f'echo "$1" >> {self.folder}/runs', 'exec "$REAL" "$@"'])
        ran = tool("dwg-info", "--program", counted, "--texts", "T", "--all", "--exclude", "runs", "--exclude", "counted", self.folder)
        self.assertEqual((ran.returncode, ran.stderr.decode()), (3, f"dwg-info: {len(paths)} of {len(paths)} files in folders are left out; dwg-check says why\n"))
        self.assertEqual((self.folder / "runs").read_text(), "drill\n")

    def test_streams(self) -> None:
        path = self.file("a\udcff.dwg", drawn(5, 1))
        ran = tool("dwg-info", "--layers", path)
        self.assertEqual((ran.returncode, ran.stderr), (0, b""))
        self.assertTrue(ran.stdout.splitlines()[1].startswith(os.fsencode(self.folder) + b"/a\\xff.dwg,10,0,"))
        if os.path.exists("/dev/full"):
            ran = test_safety.in_bash('dwg-info "$1" >/dev/full', path)
            self.assertEqual((ran.returncode, ran.stderr.decode()), (5, "dwg-info: standard output can't be written: No space left on device\n"))
        self.assertEqual(test_safety.in_bash('dwg-info "$1" >> "$1"', path).returncode, 73)
        self.assertEqual(test_safety.in_bash('dwg-info --json < "$1" >> "$1"', path).returncode, 73)
        self.assertEqual(path.read_bytes(), drawn(5, 1))
        self.assertEqual(self.interrupted("dwg-info", path, "-o", self.folder / "out.json"), 130)
        self.assertEqual(len(list(self.folder.iterdir())), 1)


class Folders(common.InFolder):
    """Runs over folders, as dwg-check walks them."""

    def setUp(self) -> None:
        super().setUp()
        self.top = self.folder / "plans"
        damaged = flipped(drawn(5, 1), layout(drawn(5, 1)).frames[9].place + 4)
        for name, data in (("b.dwg", drawn(5, 1)), ("a/z.DWG", drawn(6, 1)), ("a/bad.dwg", damaged), ("a/new.dwg", b"AC1032" + bytes(99)), ("a/old/c.dwg", drawn(7, 1)), ("a/t.dwt", drawn(4, 1)), ("none.dwg", b"%PDF-")):
            (self.top / name).parent.mkdir(parents=True, exist_ok=True)
            self.file(f"plans/{name}", data)
        self.whole = [self.top / name for name in ("a/old/c.dwg", "a/z.DWG", "b.dwg")]
        self.left_out = "dwg-info: 3 of 6 files in folders are left out; dwg-check says why\n"

    def test_all_that_is_told(self) -> None:
        for words in ([], ["--json"], ["--texts", "T"], ["--layers"], ["--attributes"], ["--layers", "--json"]):
            self.assertEqual(answer(*words, self.top), (0, answer(*words, *self.whole)[1], self.left_out), words)
        self.assertEqual(len(tool("dwg-check", "--quiet", self.top).stdout.splitlines()), 1 + 6)
        ran = test_safety.in_bash('cd "$1" && dwg-info --layers plans', self.folder)
        self.assertEqual((ran.returncode, [line.split(",")[0] for line in ran.stdout.decode().splitlines()[1::2]]), (0, ["plans/a/old/c.dwg", "plans/a/z.DWG", "plans/b.dwg"]))

    def test_which_files_are_taken(self) -> None:
        (self.top / "link").symlink_to("a/old")
        (self.top / "link.dwg").symlink_to("b.dwg")
        (self.top / "nothing.dwg").symlink_to("nowhere")
        for words, names in (
            (["--ext", "dwt"], ["a/t.dwt"]), (["--exclude", "a"], ["b.dwg"]), (["--exclude", "a/old", "--exclude", "[b-]*.dwg"], ["a/z.DWG"]),
            (["--all"], ["a/old/c.dwg", "a/t.dwt", "a/z.DWG", "b.dwg"]), (["--follow"], ["a/old/c.dwg", "a/z.DWG", "b.dwg", "link.dwg"]), (["--follow", "--exclude", "a"], ["b.dwg", "link/c.dwg", "link.dwg"]),
        ):  # fmt: skip
            status, out, _ = answer("--json", *words, self.top)
            self.assertEqual((status, [json.loads(line)["file"] for line in out.splitlines()]), (0, [str(self.top / name) for name in names]), words)
        out = answer("--json", self.top / "b.dwg", self.top / "a" / "old", self.top / "b.dwg")[1]
        self.assertEqual([json.loads(line)["file"] for line in out.splitlines()], [str(self.top / name) for name in ("b.dwg", "a/old/c.dwg", "b.dwg")])
        self.assertEqual(answer("--ext", "bak", self.top), (66, b"", "nothing was found to look at; of folders only *.bak is taken, and --all takes every file\n"))
        self.assertEqual(answer("--preview", "-", self.top)[0], 64)

    def test_statuses(self) -> None:
        """As of a search by grep: found is found; else nothing says that there is none where not all is searched."""
        self.assertEqual([answer("--texts", "T", self.top)[0], answer("--texts", "nowhere", self.top)[0], answer("--texts", "nowhere", self.top / "a" / "old")[0]], [0, 3, 1])
        only = self.folder / "only"
        only.mkdir()
        (only / "x.dwg").symlink_to("nowhere")
        self.assertEqual(answer("--layers", only)[0], 66)
        self.assertEqual(answer("--follow", "--json", only), (4, b"", "dwg-info: 1 of 1 files in folders is left out; dwg-check says why\n"))
        # A file that was named is told, and counts, whatever is found.
        bad = self.top / "a" / "bad.dwg"
        status, _, said = answer("--texts", "T", self.folder / "none", self.top, bad)
        self.assertEqual((status, said.splitlines()[0], said.splitlines()[2] + "\n"), (4, f"dwg-info: {self.folder}/none: No such file or directory", self.left_out))
        self.assertRegex(said.splitlines()[1], r"/bad.dwg: refused: objects \d+ at \d+: check")

    def test_folders_that_cannot_be_read(self) -> None:
        locked, entries_of = str(self.top / "a" / "locked"), walking.entries_of
        os.mkdir(locked)

        def entries(folder: walking.Entry, *more: Any) -> Iterator[walking.Entry]:
            if folder.path == locked:
                raise PermissionError(13, "Permission denied")
            return entries_of(folder, *more)

        # (root reads each)
        with unittest.mock.patch.object(walking, "entries_of", entries):
            self.assertEqual(answer("--texts", "T", self.top)[2], self.left_out.replace("3 of 6", "4 of 7"))
            self.assertEqual(answer("--texts", "T", locked), (4, b"file,handle,kind,layer,text\n", f"dwg-info: {locked}: Permission denied\n"))

    def test_a_pipe_in_a_folder_holds_nothing_up(self) -> None:
        os.mkfifo(self.top / "a" / "pipe.dwg")
        status, out, said = answer("--layers", self.top)
        self.assertEqual((status, out, said), (0, answer("--layers", *self.whole)[1], self.left_out.replace("3 of 6", "4 of 7")))

    def test_a_named_pipe_holds_no_other_word_up(self) -> None:
        """Nobody may ever write into it. One that the shell made is read, and so is one that is the only word."""
        fifo, (one, two, *_) = self.folder / "fifo", self.whole
        os.mkfifo(fifo)
        code, told, said = answer("--layers", one, fifo, two)
        self.assertEqual((code, told, said), (4, answer("--layers", one, two)[1], f"dwg-info: {fifo}: no regular file\n"))
        self.assertEqual(answer("--layers", fifo, self.top)[1:], (answer("--layers", self.top)[1], f"dwg-info: {fifo}: no regular file\n{self.left_out}"))
        script = 'dwg-info --layers "$1" <(cat "$2") /dev/stdin < "$1"'
        ran = test_safety.in_bash(script, one, two)
        self.assertEqual((ran.returncode, ran.stderr), (0, b""))
        expected = [row[1:] for row in (*rows_of(answer("--layers", one, two)[1]), *rows_of(answer("--layers", one)[1])[1:])]
        self.assertEqual([row[1:] for row in rows_of(ran.stdout)], expected)
        ran = test_safety.in_bash('cat "$1" > "$2" & dwg-info --layers "$2"', one, fifo)
        self.assertEqual((ran.returncode, [row[1:] for row in rows_of(ran.stdout)]), (0, [row[1:] for row in rows_of(answer("--layers", one)[1])]))

    def test_a_fault_that_is_none_of_the_file_is_told(self) -> None:
        size = len(drawn(6, 1))
        failing = program_that(self.folder, "failing", [f'[ "$1" = drill ] || [ "$(stat -Lc %s /dev/stdin)" != {size} ] || kill -9 $$', 'exec "$REAL" "$@"'])
        ran = tool("dwg-info", "--program", failing, "--layers", self.top)
        said = f"dwg-info: {self.top}/a/z.DWG: the program dwg gave no answer: killed by signal 9\n" + self.left_out
        self.assertEqual((ran.returncode, ran.stdout, ran.stderr.decode()), (69, answer("--layers", self.whole[0], self.whole[2])[1], said))

    def test_outputs_in_the_folder(self) -> None:
        out, old = self.top / "out.dwg", (self.top / "b.dwg").read_bytes()
        expected = answer("--layers", *self.whole)[1]
        self.assertEqual((answer("--layers", self.top, "-o", out)[0], out.read_bytes()), (0, expected))
        for words in (["-o", out, "--force"], ["-o", self.top / "b.dwg", "--force"], ["-o", out]):
            self.assertEqual(answer("--layers", self.top, *words)[0], 73, words)
        out.unlink()
        self.assertEqual(test_safety.in_bash('dwg-info --layers "$1" > "$1/new.dwg"', self.top).returncode, 0)
        self.assertEqual((self.top / "new.dwg").read_bytes(), expected)
        self.assertEqual(test_safety.in_bash('dwg-info --layers "$1" >> "$1/b.dwg"', self.top).returncode, 73)
        self.assertEqual((self.top / "b.dwg").read_bytes(), old)
        # Where nothing can be told nothing is written.
        self.assertEqual(answer("--layers", self.top, "--exclude", "old", "--exclude", "[bz]*.[dD]*", "-o", out)[0], 3)
        self.assertFalse(out.exists())

    def test_one_run_of_the_program_a_drawing(self) -> None:
        counted = program_that(self.folder, "counted", [f'echo "$1" >> {self.folder}/runs', 'exec "$REAL" "$@"'])
        ran = tool("dwg-info", "--program", counted, "--texts", "T", *self.whole, self.whole[0].parent)
        self.assertEqual((ran.returncode, (self.folder / "runs").read_text().split()), (0, ["drill", *["show"] * 4]))


class Memory(common.InFolder):
    """Memory goes with one object, and not with the drawing."""

    def peak(self, text: str, *words: object) -> int:
        """The most memory that the tool has at once over a text of `show`, in bytes."""
        peak, shown = self.folder / "peak", self.file("text", text.encode())
        showing = program_that(self.folder, "showing", [f'[ "$1" != show ] || exec cat "{shown}"'])
        ran = test_limits.otherwise("dwg-info", test_limits.MEASURED.format(peak=str(peak)), "--program", showing, *words, self.file("a.dwg", b"AC1015"), "-o", self.folder / "out", "--force")
        # (a polyline has no text)
        self.assertEqual((ran.returncode, ran.stderr), (int("polyline" in words), b""))
        return 1024 * int(peak.read_text().partition("VmHWM:")[2].split()[0])

    @unittest.skipUnless(os.path.exists("/proc/self/status"), "memory, as there is no /proc/self/status")
    def test_many_objects(self) -> None:
        text = lambda count: test_limits.PREFIX.format(count=count) + "".join(point_text(0x31 + at) for at in range(count))
        few, many = text(10), text(8_000)
        for words in ([], ["--texts", ""], ["--attributes"]):
            # (a file in memory has a mebibyte before it is one on the disk)
            self.assertLess(self.peak(many, *words) - self.peak(few, *words), 60 * 8_000 + (1 << 21), words)

    @unittest.skipUnless(os.path.exists("/proc/self/status"), "memory, as there is no /proc/self/status")
    def test_an_object_of_very_many_elements(self) -> None:
        few, many = (test_limits.PREFIX.format(count=1) + test_limits.polyline_text(count) for count in (2, 60_000))
        self.assertLess(self.peak(many) - self.peak(few), 70 * 30_000)
        self.assertLess(self.peak(many, "--texts", "polyline") - self.peak(few, "--texts", "polyline"), 20 * 30_000)


def point_text(handle: int) -> str:
    """The text of an attribute that stands in no insert."""
    height = test_limits.word(1.0)
    return f"object {handle:X} ATTRIB typed 2\n{test_limits.COMMON.format(mode=2)}  text.insertion {height} {height}\n  text.extrusion {height} {height} {height}\n  text.text \"A\"\n  tag \"T\"\n"


if __name__ == "__main__":
    unittest.main()
