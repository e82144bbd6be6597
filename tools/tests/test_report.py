"""What dwg-check report tells of a drawing that has all it can tell, of what isn't one, and by which numbers."""

from __future__ import annotations

import json
import os
import pathlib
import re
import shutil
import subprocess
import sys
import tempfile
import unittest
import xml.etree.ElementTree as ElementTree
from typing import Any, Dict, List

import inputs
import made
import writer
from made import TOOLS, TOP

# What is put into a drawing that is made: classes, and objects after the others.
CLASSES = r"""
class 500 version 0 proxy 0 item 499 app "ObjectDBX Classes" cpp "AcDbRasterImageDef" dxf "IMAGEDEF"
class 501 version 0 proxy 1 item 499 app "Arch\e9" cpp "AecWall" dxf "AEC_WALL"
class 502 version 0 proxy 0 item 499 app "Arch" cpp "AecDoor" dxf "AEC_DOOR"
"""
OBJECTS = r"""
object 60 OBJECT plain 500
  owner 4.C
  xdict 3.0
  bits 8
  rest aa
object 61 OBJECT plain 501
  owner 4.C
  xdict 3.0
  bits 8
  rest aa
object 62 OBJECT plain 501
  owner 4.C
  xdict 3.0
  bits 8
  rest aa
object 63 ENTITY plain 74
  mode 0
  owner 4.C
  xdict 3.0
  links.previous 4.0
  links.next 4.0
  colour 256
  linetype_scale 3FF0000000000000
  linetype_flag 0
  plotstyle_flag 0
  invisible 0
  lineweight 29
  layer 5.10
  bits 8
  rest aa
object 64 XRECORD typed 79
  reactors[0] 4.9F
  owner 4.9F
  xdict 3.0
  bytes -
  cloning 1
object 65 BLOCK HEADER typed 49
  owner 4.1
  xdict 3.0
  entry.name "SITE"
  entry.flag64 1
  entry.xref_index 0
  entry.xref_dependent 0
  entry.xref 5.0
  anonymous 0
  has_attributes 0
  is_xref 1
  overlaid 1
  loaded 0
  base 0000000000000000 0000000000000000 0000000000000000
  path "C:\5cplans\5csite\01.dwg"
  description ""
  preview -
  block 3.19
  endblk 3.1A
  layout 5.0
"""


def rich(*more: str) -> bytes:
    """A drawing with all risks, with an xrecord whose owner isn't there, and with further objects."""
    lines = made.dwg("show", given=made.made(2)).stdout.decode().splitlines()
    at = lines.index("  entries[0] 2.20") + 1
    lines[at:at] = ["  entries[1] 2.65"]
    first = next(place for place, line in enumerate(lines) if line.startswith("objects "))
    lines[first:first] = CLASSES.split("\n")[1:-1]
    return inputs.written(writer.drawing_of([*lines, *OBJECTS.split("\n")[1:-1], *more]))


# Of the xref's block and its end, which it shares with the model space: no drawing has that, and nothing of it is known.
SHARED = ["19 claim -", "1A claim -"]
ORPHAN = ["64 resolve owner", "64 resolve reactor", "64 claim -", "64 path -"]


class Report(unittest.TestCase):
    """Each test has a folder of its own."""

    def setUp(self) -> None:
        made.needs_program()
        self.folder = pathlib.Path(tempfile.mkdtemp(prefix="dwg report "))
        self.addCleanup(shutil.rmtree, self.folder)

    def ran(self, *words: object) -> "subprocess.CompletedProcess[bytes]":
        """What the command says."""
        given = [str(TOOLS / "dwg-check"), "report", *map(str, words)]
        return subprocess.run(given, cwd=self.folder, capture_output=True, check=False, env={**os.environ, "DWG": made.PROGRAM})

    def told(self, data: bytes, *words: str) -> Dict[str, Any]:
        """What is told of a file."""
        (self.folder / "a.dwg").write_bytes(data)
        lines = self.ran("a.dwg", "--quiet", *words).stdout.splitlines()
        self.assertEqual(len(lines), 1)
        return dict(json.loads(lines[0]))

    def findings(self, told: Dict[str, Any], is_known: bool) -> List[str]:
        """The findings that are known, or aren't."""
        return [f"{one['object']} {one['rule']} {one['field'] or '-'}" for one in told["findings"]["listed"] if one["known"] == is_known]

    def test_findings_and_which_are_known(self) -> None:
        told = self.told(rich())
        self.assertEqual((told["schema"], told["verdict"], told["findings"]["count"], told["findings"]["known"]), (1, "unsound", 6, 4))
        self.assertEqual((self.findings(told, True), self.findings(told, False)), (ORPHAN, SHARED))
        reactor = told["findings"]["listed"][3]
        self.assertEqual(reactor, {
            "object": "64", "kind": "XRECORD", "rule": "resolve", "rule_number": 2, "field": "reactor", "field_number": 3, "position": 0, "target": "9F", "known": True,
        })  # fmt: skip

    def test_known_findings_are_accepted_where_there_are_no_others(self) -> None:
        self.assertEqual(self.told(rich(), "--accept-known")["verdict"], "unsound")
        lines = [*rich_orphan()]
        for words, verdict, status in (([], "unsound", 1), (["--accept-known"], "sound", 0)):
            (self.folder / "b.dwg").write_bytes(inputs.written(writer.drawing_of(lines)))
            ran = self.ran("b.dwg", *words)
            told = json.loads(ran.stdout)
            self.assertEqual((ran.returncode, told["verdict"], self.findings(told, True), self.findings(told, False)), (status, verdict, ORPHAN, []))
        # (another owner that isn't right is another finding: null, one that is no owner, one of an object that is no xrecord)
        for changed in (lines_with(lines, "64", "owner", "4.0"), lines_with(lines, "E", "owner", "4.10"), lines_with(lines, "D", "owner", "4.9F")):
            told = self.told(inputs.written(writer.drawing_of(changed)), "--accept-known")
            self.assertEqual(told["verdict"], "unsound")
            self.assertNotEqual(self.findings(told, False), [])

    def test_risks(self) -> None:
        told = self.told(rich())
        path = "C:\\plans\\site\x01.dwg"
        self.assertEqual(told["objects"], {"typed": 33, "plain": 4, "raw": 0})
        self.assertEqual(told["risks"], {
            "external_references": {"count": 1, "listed": [{"handle": "65", "name": "SITE", "path": path, "overlaid": True}]},
            "fonts": {"count": 1, "listed": [{"handle": "11", "name": "STANDARD", "font": "txt", "big_font": ""}]},
            "images": {"count": 1, "listed": [{"handle": "60", "kind": "IMAGEDEF"}]},
            "ole_frames": {"count": 1, "listed": [{"handle": "63", "kind": "OLE2FRAME"}]},
            "own_objects": {"count": 2, "listed": [
                {"class": 500, "dxf": "IMAGEDEF", "cpp": "AcDbRasterImageDef", "application": "ObjectDBX Classes", "was_proxy": False, "objects": 1},
                {"class": 501, "dxf": "AEC_WALL", "cpp": "AecWall", "application": "Arch\u00e9", "was_proxy": True, "objects": 2},
            ]},
        })  # fmt: skip

    def test_xml_tells_the_same(self) -> None:
        (self.folder / "a\n<\u202e\udcff&.dwg").write_bytes(rich())
        ran = self.ran("--xml", "--quiet", self.folder, TOP / "samples" / "flip.dwg")
        self.assertEqual((ran.returncode, ran.stderr, ran.stdout.isascii()), (3, b"", True))
        top = ElementTree.fromstring(ran.stdout)
        self.assertEqual((top.get("schema"), top[-1].tag, top[-1].get("files")), ("1", "end", "2"))
        first, second = top.findall("file")
        self.assertEqual((first.get("path"), first.get("escaped")), (f"{self.folder}/a\\n<\\xe2\\x80\\xae\\xff&.dwg", "path"))
        (reference,) = first.iter("external_reference")
        self.assertEqual((reference.get("path"), reference.get("escaped")), ("C:\\\\plans\\\\site\\x01.dwg", "path"))
        self.assertEqual([one.get("known") for one in first.iter("finding")], ["false"] * 2 + ["true"] * 4)
        self.assertEqual([one.attrib for one in second.iter("refusal")], [{"line": "30", "part": "objects", "reason": "check", "index": "56", "place": "3277"}])

    def test_a_list_is_bounded(self) -> None:
        entities = made.dwg("show", given=made.made(1500)).stdout.replace(b"  layer 5.10\n", b"  layer 5.7FF0\n").replace(b"  layer 5.17\n", b"  layer 5.7FF0\n")
        told = self.told(inputs.written(writer.drawing_of(entities.decode().splitlines())))
        self.assertEqual((told["findings"]["count"] > 1500, len(told["findings"]["listed"])), (True, 1000))

    def test_what_is_no_drawing(self) -> None:
        for data, verdict, line in ((made.made(1)[:20], "damaged", 1), (made.made(1)[:60], "damaged", 4), (b"AC1018" + bytes(300), "other version", None), (b"hello", "no drawing", None)):
            told = self.told(data)
            refusal = told["refusal"]
            self.assertEqual((told["verdict"], refusal and refusal["line"], told["findings"], told["risks"]), (verdict, line, None, None), data[:9])
        self.assertEqual((self.ran("nosuch.dwg").returncode, self.ran(self.folder / "nothing", "--quiet").returncode), (3, 3))
        (self.folder / "empty").mkdir()
        for words in (["empty"], ["empty", "--xml"]):
            self.assertEqual(self.ran(*words).returncode, 66)
        self.assertEqual(self.ran("a.dwg", "--nosuch").returncode, 2)


def rich_orphan() -> List[str]:
    """A drawing that is sound but for an xrecord whose owner isn't there."""
    lines = made.dwg("show", given=made.made(2)).stdout.decode().splitlines()
    begin = OBJECTS.index("object 64")
    return [*lines, *OBJECTS[begin : OBJECTS.index("object 65")].splitlines()]


def lines_with(lines: List[str], handle: str, name: str, value: str) -> List[str]:
    """The lines with another value of a field."""
    at = next(place for place, line in enumerate(lines) if line.startswith(f"object {handle} "))
    at = next(place for place in range(at, len(lines)) if lines[place].startswith(f"  {name} "))
    return [*lines[:at], f"  {name} {value}", *lines[at + 1 :]]


class Numbers(unittest.TestCase):
    """Those of the report are those of docs/FORMAT.md."""

    def told(self, script: str) -> Any:
        """What the package says, in a process of its own."""
        words = [sys.executable, "-B", "-c", f"import json, dwgtools.check.findings as f\nprint(json.dumps({script}))"]
        return json.loads(subprocess.run(words, capture_output=True, check=True, env={**os.environ, "PYTHONPATH": str(TOOLS / "src")}).stdout)

    def setUp(self) -> None:
        self.page = (TOP / "docs" / "FORMAT.md").read_text()

    def rows(self, title: str) -> List[List[str]]:
        """The rows of the first table of a part."""
        part = self.page.partition(f"\n## {title}\n")[2].partition("\n## ")[0]
        table = re.search(r"\n\|[-|]+\n((?:\|.*\n)+)", part)
        assert table is not None
        return [[cell.strip() for cell in row.strip("|").split("|")] for row in table[1].splitlines()]

    def test_refusals(self) -> None:
        known: Dict[str, List[str]] = {}
        part: List[str] = []
        for lines, parts, reason, *_ in self.rows("Refusals"):
            part = part if parts == "same" else parts.split(", ")
            for number, one in zip(lines.split(", "), part):
                known[number] = [one, reason]
        self.assertEqual(sorted(map(int, known)), [*range(1, 38)])
        # (no drawing is refused by the last four)
        named = [[*known[str(number)], 25 if number == 4 else 24] for number in range(1, 34)]
        self.assertEqual(self.told(f"[f.line_of(*one) for one in {named!r}]"), [*range(1, 34)])

    def test_rules_and_fields(self) -> None:
        self.assertEqual(self.told("f.RULES"), [row[0].strip("`") for row in self.rows("The audit")])
        fields = {number: name for row in self.rows("Fields and needs") for number, name in zip(row[0].split(", "), row[1].replace("`", "").split(", "))}
        self.assertEqual(self.told("f.FIELDS"), [fields[str(number)] for number in range(1, len(fields) + 1)])


if __name__ == "__main__":
    unittest.main()
