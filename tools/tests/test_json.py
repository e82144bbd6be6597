"""dwg-json over made drawings, whose fields docs/FORMAT.md tells, spelled ones, damaged and foreign files."""

from __future__ import annotations

import json
import math
import re
import unittest
from typing import Any, Dict, List

import common
import spelled
import test_limits
from made import PROGRAM, made, needs_program, tool

from dwgtools import lettering

needs_program()


def lines_of(answer: Any) -> List[Dict[str, Any]]:
    """The lines of an answer."""
    return [json.loads(line) for line in answer.stdout.splitlines()]


class Json(common.InFolder):
    """What dwg-json prints."""

    def test_made(self) -> None:
        for count, seed in ((1, 7), (50, 3), (300, 4294967295)):
            path = self.file("made.dwg", made(count, seed))
            answer = tool("dwg-json", path)
            self.assertEqual((answer.returncode, answer.stderr), (0, b""))
            self.assertEqual(tool("dwg-json", given=path.read_bytes()).stdout, answer.stdout)
            head, *objects = lines_of(answer)
            expected = {"drawing": "AC1015", "codepage": 30, "encoding": "cp1252", "lead": "00000000000000", "mark": "0000", "variables": ""}
            self.assertEqual(head, {**expected, "classes": 0, "objects": 29 + count})
            self.assertEqual(len(objects), 29 + count)
            found = {one["object"]: one for one in objects}
            for handle, kind, layer, body in common.made_entities(count, seed):
                one = found[f"{handle:X}"]
                self.assertEqual((one["kind"], one["form"], one["mode"], one["colour"], one["lineweight"]), (kind, "typed", 2, "by-layer", 29))
                self.assertEqual(one["layer"], {"code": 5, "handle": "10" if layer == "0" else "17", "name": layer})
                self.assertEqual({name: one[name] for name in body}, body)
                self.assertEqual("links" in one, handle == 0x30 + count)
                if kind == "TEXT":
                    self.assertEqual(one["style"], {"code": 5, "handle": "11", "name": "STANDARD"})

    def test_fixed_objects(self) -> None:
        found = {one["object"]: one for one in lines_of(tool("dwg-json", given=made(1, 7)))[1:]}
        name = lambda handle, name: {"code": 2, "handle": handle, "name": name}
        self.assertEqual(found["2"]["entries"], [name("10", "0"), name("17", "WALLS")])
        self.assertEqual(found["C"]["items"], [{"name": "NOTES", "target": {"code": 2, "handle": "D"}}])
        self.assertEqual((found["E"]["bytes"], found["E"]["targets"]), ("010203", [{"code": 4, "handle": "10", "name": "0"}]))
        self.assertEqual((found["17"]["entry"]["name"], found["17"]["colour"]), ("WALLS", 1))
        self.assertEqual(found["17"]["linetype"], {"code": 5, "handle": "16", "name": "CONTINUOUS"})
        self.assertEqual(found["16"]["texts"], "00" * 256)
        self.assertEqual((found["2E"]["text"]["text"], found["2E"]["text"]["height"], found["2E"]["tag"]), ("A1", 1.0, "NO"))
        self.assertEqual(found["22"]["attrib"]["tag"], "NO")
        self.assertEqual(found["30"]["block"], {"code": 5, "handle": "20", "name": "TAG"})
        self.assertEqual(found["30"]["attributes"]["seqend"], {"code": 3, "handle": "2F"})
        self.assertEqual((found["30"]["scale"], found["31"].get("app"), found["20"]["inserts"][0]["count"]), ([1.0, 1.0, 1.0], None, 1))

    def test_numbers(self) -> None:
        one = spelled.Drawing()
        values = (0.1, -0.0, 5e-324, 1.7976931348623157e308, 1 / 3, 123456789.123456789)
        handles = [one.point((value, 2.0, 0.0)) for value in values]
        strange = one.point((math.inf, -math.inf, math.nan))
        found = {said["object"]: said for said in lines_of(tool("dwg-json", given=one.file()))[1:]}
        for handle, value in zip(handles, values):
            x = found[f"{handle:X}"]["place"][0]
            self.assertEqual((x, math.copysign(1, x)), (value, math.copysign(1, value)))
        self.assertEqual(found[f"{strange:X}"]["place"], ["Infinity 7FF0000000000000", "-Infinity FFF0000000000000", "NaN 7FF8000000000000"])

    def test_colours(self) -> None:
        one = spelled.Drawing()
        handles = [one.point((0, 0, 0), colour=colour) for colour in (0, 1, 7, 255, 256)]
        found = {said["object"]: said for said in lines_of(tool("dwg-json", given=one.file()))[1:]}
        self.assertEqual([found[f"{handle:X}"]["colour"] for handle in handles], ["by-block", 1, 7, 255, "by-layer"])

    def test_texts(self) -> None:
        one = spelled.Drawing()
        contents = {b"Gr\xfc\xdfe \x80 \"\\\n\x00": "Grüße € \"\\\n\0", b"\x81\x8d": "\udc81\udc8d", b"": ""}
        handles = [one.text(content, (0, 0), 1.0) for content in contents]
        answer = tool("dwg-json", given=one.file())
        found = {said["object"]: said for said in lines_of(answer)[1:]}
        self.assertEqual([found[f"{handle:X}"]["text"] for handle in handles], list(contents.values()))
        self.assertEqual(answer.stderr, b"dwg-json: standard input: texts with bytes that the code page doesn't have: 1\n")
        self.assertTrue(answer.stdout.isascii() if hasattr(answer.stdout, "isascii") else True)
        cyrillic = spelled.Drawing()
        handle = cyrillic.text("Стена".encode("cp1251"), (0, 0), 1.0)
        head, *objects = lines_of(tool("dwg-json", given=cyrillic.file(29)))
        self.assertEqual((head["codepage"], head["encoding"]), (29, "cp1251"))
        self.assertEqual([said["text"] for said in objects if said["object"] == f"{handle:X}"], ["Стена"])

    def test_codepage(self) -> None:
        """Texts are read by a code page that is named, whatever the header says."""
        one, other = spelled.Drawing(), spelled.Drawing()
        handle, _ = one.text("Стена".encode("cp1251"), (0, 0), 1.0), other.text("Дверь".encode("cp1251"), (0, 0), 1.0)
        path, old = self.file("a.dwg", one.file(0)), self.file("old.dwg", other.file(0))
        for word in ("29", "cp1251", "CP1251"):
            head, *objects = lines_of(tool("dwg-json", "--codepage", word, path))
            self.assertEqual((head["codepage"], head["encoding"]), (0, "cp1251"))
            self.assertEqual([said["text"] for said in objects if said["object"] == f"{handle:X}"], ["Стена"])
        self.assertIn("Стена", tool("dwg-info", "--texts", "Ст", "--codepage", "29", path).stdout.decode())
        self.assertIn("Стена", tool("dwg-picture", "--codepage", "29", path).stdout.decode())
        self.assertIn('"Дверь" -> "Стена"', tool("dwg-diff", "--codepage", "29", old, path).stdout.decode())
        for word in ("0", "43", "45", "1251", "latin", "ascii,", "", "٣"):
            for name, status in (("dwg-json", 64), ("dwg-info", 64), ("dwg-diff", 2)):
                ran = tool(name, *([old] if status == 2 else []), path, "--codepage", word)
                self.assertEqual((ran.returncode, ran.stdout), (status, b""), (name, word))

    def test_escapes(self) -> None:
        """Letters that are escaped stand beside the text as it is, where they are letters."""
        one = spelled.Drawing()
        contents = {
            b"a\\U+4E2Db": "a\u4e2db", b"\\u+4e2d\\U+D83D\\U+DE00": "\u4e2d\U0001f600", b"\\M+1955C\\M+2A4A4": "\u8868\u4e2d",
            b"\\M+3B0A1 \\M+48861 \\M+5D6D0": "\uac00 \uac00 \u4e2d", b"\\U+DE00\\U+D83D\\U+0041": "\\U+DE00\\U+D83DA",
            **{raw: None for raw in (b"\\U+D83D", b"\\U+12G4", b"\\U+123", b"\\M+6D6D0", b"\\M+0D6D0", b"\\M+10041", b"\\M+1FFFF", b"U+4E2D", b"\\")},
        }  # fmt: skip
        handles = [one.text(content, (0, 0), 1.0) for content in contents]
        layer = one.layer(one.free(), b"\\U+5899", 1)
        point = one.point((0, 0, 0), layer=layer)
        one.of_class(500, b"\\U+0041")
        path = self.file("escapes.dwg", one.file())
        for words in ((), ("--pretty",)):
            said, place, decoder = tool("dwg-json", *words, path).stdout.decode("ascii"), 0, json.JSONDecoder()
            found: Dict[Any, Dict[str, Any]] = {}
            while place < len(said.rstrip()):
                read, place = decoder.raw_decode(said, place)
                found[read.get("object", read.get("class"))], place = read, place + 1
            for handle, (raw, expected) in zip(handles, contents.items()):
                text = found[f"{handle:X}"]
                self.assertEqual((text["text"], text.get("text_unescaped")), (raw.decode("ascii"), expected))
                self.assertEqual(list(text).index("text_unescaped") - list(text).index("text") if expected else 1, 1)
            named = {"name": "\\U+5899", "name_unescaped": "\u5899"}
            self.assertEqual(found[f"{point:X}"]["layer"], {"code": 5, "handle": f"{layer:X}", **named})
            self.assertEqual({name: found[f"{layer:X}"]["entry"].get(name) for name in named}, named)
            self.assertEqual((found[500]["dxf"], found[500]["dxf_unescaped"]), ("\\U+0041", "A"))
        # A picture has these letters, and dwg-info finds texts by them.
        self.assertEqual(lettering.readable(b"\\M+1955C\\M+1FFFF%%d", "cp1252"), "\u8868\ufffd\u00b0")
        pattern = "\u4e2d|D6D0"
        rows = tool("dwg-info", "--texts", pattern, path).stdout.decode().splitlines()[1:]
        said = [raw.decode("ascii") for raw, letters in contents.items() if re.search(pattern, raw.decode("ascii") + (letters or ""))]
        self.assertEqual([row.rpartition(",")[2] for row in rows], [raw.replace("\\", "\\\\") for raw in said])

    def test_classes_and_plain(self) -> None:
        one = spelled.Drawing()
        one.of_class(500, b"WIPEOUT")
        handle = one.entity(500, "10110", [(5, one.WALLS)])
        unknown = one.frame(300, one.free(), "1", "")
        _, first, *objects = lines_of(tool("dwg-json", given=one.file()))
        self.assertEqual(first, {"class": 500, "version": 0, "proxy": 0, "item": 498, "app": "APP", "cpp": "CPP", "dxf": "WIPEOUT"})
        found = {said["object"]: said for said in objects}
        plain, raw = found[f"{handle:X}"], found[f"{unknown:X}"]
        self.assertEqual((plain["kind"], plain["form"], plain["type"], plain["bits"], plain["rest"]), ("ENTITY", "plain", 500, 5, "b0"))
        self.assertEqual(plain["refs"], [{"code": 5, "handle": "11", "name": "WALLS"}])
        self.assertEqual((raw["kind"], raw["form"], raw["type"]), ("UNKNOWN", "raw", 300))

    def test_a_long_name_stands_in_its_entry_alone(self) -> None:
        """With each reference it would make gigabytes of a small drawing, or be held."""
        for length, is_told in ((255, True), (256, False), (9_000, False)):
            one, long = spelled.Drawing(), b"\x80" * length
            layer = one.layer(one.free(), long, 1)
            handles = [one.point((k, 0, 0), layer=layer) for k in range(300)]
            # (one whose references are many is said piece by piece)
            many = one.object(50, one.free(), spelled.long(3000), [(2, layer)] * 3000, owner=0)
            path = self.file("long.dwg", one.file())
            for words in ([], ["--pretty"]):
                ran = tool("dwg-json", *words, path)
                self.assertEqual((ran.returncode, ran.stderr), (0, b""))
                self.assertEqual(ran.stdout.count(b"\\u20ac" * length), 1 + 3300 * is_told, (length, words))
            found = {said.get("object"): said for said in lines_of(tool("dwg-json", path))}
            self.assertEqual(found[f"{layer:X}"]["entry"]["name"], "\u20ac" * length)
            expected = {"code": 5, "handle": f"{layer:X}", **({"name": "\u20ac" * length} if is_told else {})}
            self.assertEqual(found[f"{handles[0]:X}"]["layer"], expected)
            self.assertEqual("name" in found[f"{many:X}"]["entries"][2999], is_told)

    def test_output(self) -> None:
        path, out = self.file("a b.dwg", made(3, 1)), self.folder / "out.json"
        self.assertEqual(tool("dwg-json", path, "--output", out).returncode, 0)
        self.assertEqual(out.read_bytes(), tool("dwg-json", path).stdout)
        self.assertEqual(tool("dwg-json", path, "--output", out).returncode, 73)
        out.write_bytes(b"old")
        self.assertEqual(tool("dwg-json", self.file("bad", b"no"), "--output", out, "--force").returncode, 3)
        self.assertEqual(out.read_bytes(), b"old")
        self.assertEqual(tool("dwg-json", path, "--output", out, "--force").returncode, 0)
        self.assertEqual(len(out.read_bytes().splitlines()), 33)
        self.assertEqual(sorted(one.name for one in self.folder.iterdir()), ["a b.dwg", "bad", "out.json"])
        pretty = tool("dwg-json", path, "--pretty").stdout.decode("ascii")
        decoder, place, count = json.JSONDecoder(), 0, 0
        while place < len(pretty.rstrip()):
            _, place = decoder.raw_decode(pretty, place)
            place, count = place + 1, count + 1
        self.assertEqual(count, 33)

    def test_damaged_and_foreign(self) -> None:
        for name, data in [*common.foreign().items(), *common.damaged(made(40, 2), 60, 8)]:
            with self.subTest(name):
                answer = tool("dwg-json", given=data)
                self.assertEqual((answer.returncode, answer.stdout), (3, b""))
                self.assertRegex(answer.stderr, rb"\Adwg-json: standard input: refused: \w+ \d+ at \d+: \w+\n\Z")

    def test_faults(self) -> None:
        self.assertEqual(tool("dwg-json", self.folder / "none").returncode, 4)
        self.assertEqual(tool("dwg-json", self.folder).returncode, 4)
        self.assertEqual(tool("dwg-json", given=bytes(33_554_433)).returncode, 7)
        self.assertEqual(tool("dwg-json", "--nothing").returncode, 64)
        self.assertEqual(tool("dwg-json", "--program", self.folder / "none").returncode, 69)
        self.assertEqual(tool("dwg-json", self.file("a", made(1, 1)), "-o", self.folder / "no" / "file").returncode, 5)
        self.assertEqual(tool("dwg-json", "--help").returncode, 0)

    def test_interrupted(self) -> None:
        path = self.file("a.dwg", made(20, 1))
        self.assertEqual(self.interrupted("dwg-json", path, "-o", self.folder / "out.json"), 130)
        self.assertEqual([one.name for one in self.folder.iterdir()], ["a.dwg"])

    def test_program_fails(self) -> None:
        path, out = self.file("a.dwg", made(20, 1)), self.folder / "out.json"
        cases = {
            6: ['"$REAL" show | head -n 100', "exit 6"], 69: ['"$REAL" show | head -n 100', "kill -9 $$"], 70: ['"$REAL" show | head -n 100', "exit 0"],
            4: ["exit 4"],
        }  # fmt: skip
        for status, lines in cases.items():
            answer = tool("dwg-json", path, "-o", out, "--program", self.failing(*lines))
            self.assertEqual((answer.returncode, answer.stdout), (status, b""), answer.stderr)
        self.assertFalse(out.exists())

    def test_shown_once(self) -> None:
        """The text is read again from where it is kept; where it is too long for that, or finds no place, the drawing is shown once more."""
        path, once = self.file("a.dwg", made(20, 1)), self.folder / "once"
        lines = [f"if [ -e {once} ]; then \"$REAL\" show | head -n 100; exit 0; fi", f"touch {once}", 'exec "$REAL" show']
        program, expected = self.failing(*lines), tool("dwg-json", path).stdout
        full = "def full(self, data): raise OSError(28, 'No space left on device')\nspools.tempfile.SpooledTemporaryFile.write = full"
        for limit, status in (("", 0), ("spools.MOST_KEPT = 2000", 70), (full, 70)):
            limit = f"from dwgtools import spools\n{limit}"
            ran = test_limits.otherwise("dwg-json", limit, path, "--program", program)
            self.assertEqual((ran.returncode, ran.stdout if status == 0 else expected), (status, expected), limit)
            self.assertEqual(test_limits.otherwise("dwg-json", limit, path, "--program", PROGRAM).stdout, expected)
            once.unlink()


if __name__ == "__main__":
    unittest.main()
