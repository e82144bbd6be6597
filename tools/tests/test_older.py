"""Every tool over drawings of AC1014, which no command makes: they are spelled after docs/FORMAT.md, and what is expected is worked out from that."""

from __future__ import annotations

import json
import re
import unittest
from typing import Any, Dict

import common
import older
import spelled
from made import dwg, layout, needs_program, shown, tool

needs_program()

PLAN = dwg("rewrite", given=older.Plan().file()).stdout
COUNT = 32


def without_version(data: bytes, version: bytes) -> bytes:
    """A file that begins as another version."""
    return version + data[6:]


class Program(unittest.TestCase):
    """What the tests below stand on: what is spelled is read by all its fields, and written as AC1014."""

    def test_read_and_written(self) -> None:
        objects = shown(older.Plan().file())
        self.assertEqual((len(objects), shown(PLAN)), (COUNT, objects))
        forms = re.findall(r"(?m)^object \w+ (.+) (typed|plain|raw) \d+$", dwg("show", given=PLAN).stdout.decode())
        self.assertEqual([kind for kind, form in forms if form != "typed"], ["ELLIPSE"])
        self.assertEqual((PLAN[:6], dwg("audit", given=PLAN).stdout, dwg("rewrite", given=PLAN).stdout), (b"AC1014", b"audit yes\n", PLAN))

    def test_what_is_not_spelled_has_fixed_values(self) -> None:
        fields = {handle: lines for handle, _, lines in shown(PLAN)}
        self.assertLessEqual({"linetype_flag 0", "plotstyle_flag 0", "lineweight 0"}, set(fields[0x31]))
        self.assertLessEqual({"values 0", "plotstyle 5.0"}, set(fields[older.Plan.WALLS]))
        self.assertLessEqual({"loaded 0", "layout 5.0"}, set(fields[older.Plan.DOOR]))


class Tools(common.InFolder):
    """Each tool."""

    maxDiff = None

    def test_json(self) -> None:
        head, *lines = [json.loads(line) for line in tool("dwg-json", given=PLAN).stdout.splitlines()]
        self.assertEqual((head["drawing"], head["codepage"], head["objects"], len(lines)), ("AC1014", 30, COUNT, COUNT))
        found = {one["object"]: one for one in lines}
        line, text, ellipse = found["31"], found["36"], found["35"]
        self.assertEqual((line["kind"], line["form"], line["start"], line["end"], line["extrusion"]), ("LINE", "typed", [250.0, 0.0, 0.0], [250.0, 300.0, 0.0], [0.0, 0.0, 1.0]))
        self.assertEqual((line["layer"]["name"], line["colour"], line["lineweight"]), ("WALLS", "by-layer", 0))
        self.assertEqual((text["text"], text["height"], text["alignment"], text["style"]["name"]), ("ROOM 1", 25.0, [0.0, 0.0], "STANDARD"))
        self.assertEqual((ellipse["kind"], ellipse["form"], ellipse["linetype"]["name"]), ("ELLIPSE", "plain", "CONTINUOUS"))
        self.assertEqual(found["34"]["block"]["name"], "DOOR")

    def test_diff(self) -> None:
        old, other = self.file("old.dwg", PLAN), older.Plan()
        self.assertEqual(tool("dwg-diff", old, self.file("new.dwg", older.Plan().file())).stdout, b"")
        other.frames = [frame for frame in other.frames if frame[0] != 0x33]
        other.point((325.0, 151.0, 0.0), handle=0x33, colour=1)
        ran = tool("dwg-diff", old, self.file("new.dwg", other.file()))
        lines = ["changed object 33 POINT on \"0\"", "  place: 325.0 150.0 0.0 -> 325.0 151.0 0.0", "objects: 0 added, 0 removed, 1 changed"]
        self.assertEqual((ran.returncode, ran.stdout.decode().splitlines()), (1, lines))

    def test_diff_of_versions(self) -> None:
        """Two files of one content are two drawings where their versions differ."""
        drawings = []
        for kind in (older.Drawing, spelled.Drawing):
            one = kind()
            one.line((0, 0, 0), (1, 2, 3))
            drawings.append(self.file(f"{len(drawings)}.dwg", one.file()))
        ran = tool("dwg-diff", *drawings, "--ignore", "lineweight")
        self.assertEqual((ran.returncode, ran.stdout.decode().splitlines()[:2]), (1, ["changed header", '  version: "AC1014" -> "AC1015"']))
        self.assertEqual(tool("dwg-diff", *drawings, "--ignore", "lineweight", "version").stdout, b"")

    def test_picture(self) -> None:
        """What both versions can say is drawn alike. The lineweight that AC1014 has is 0."""
        pictures = []
        for one, said in ((older.Drawing(), {}), (spelled.Drawing(), {"weight": 0})):
            more: Dict[str, Any] = said
            one.line((0, 0, 0), (10, 5, 0), layer=one.WALLS, **more)
            one.point((1, 2, 0), **more)
            one.circle((5, 5, 0), 2.0, colour=3, **more)
            one.arc((5, 5, 0), 3.0, 0.0, 1.5, **more)
            one.polyline([(0, 0), (4, 0), (4, 4)], bulges=[0.5, 0.0, 0.0], closed=True, **more)
            one.polyline([(0, 6), (4, 6), (4, 9)], widths=[(0.1, 0.5), (0.5, 0.2), (0.0, 0.0)], **more)
            one.text(b"Gr\xfc\xdfe", (1, 7), 1.5, {"rotation": 0.25, "alignment": (9.0, 7.0), "horizontal": 5}, **more)
            block = one.free()
            one.block(block, b"DOOR")
            one.line((0, 0, 0), (1, 1, 0), owner=block, **more)
            one.insert(block, (7, 1, 0), (2.0, 2.0, 2.0), 0.5, **more)
            ran = tool("dwg-picture", given=one.file())
            self.assertEqual((ran.returncode, ran.stderr), (0, b""))
            pictures.append(ran.stdout)
        self.assertEqual(pictures[0], pictures[1])
        self.assertIn("Grüße".encode(), pictures[0])

    def test_picture_of_layers_that_are_off_or_on(self) -> None:
        """Which value of the second bit means on isn't known well enough to leave anything out."""

        class Other(older.Plan):
            LAYER_BITS = "0100"

        other = Other().file()
        self.assertIn("values 2", [line for _, _, lines in shown(other) for line in lines])
        self.assertEqual(tool("dwg-picture", given=other).stdout, tool("dwg-picture", given=PLAN).stdout)

    def test_picture_tells_kinds_without_a_body(self) -> None:
        ran = tool("dwg-picture", given=PLAN)
        self.assertEqual((ran.returncode, ran.stderr), (0, b"dwg-picture: standard input: not drawn: 1 ELLIPSE (not read by all its fields)\n"))


def in_first_body(data: bytes) -> int:
    """A byte in the body of the object that stands after the classes."""
    place, size = (int.from_bytes(data[at : at + 4], "little") for at in (35, 39))
    return place + size + 3


if __name__ == "__main__":
    unittest.main()
