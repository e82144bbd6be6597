"""The text of `show`, read into objects: each form of a value, each line before the objects, and texts that aren't of `show`."""

import struct
import sys
import unittest
from pathlib import Path

sys.path.insert(0, str(Path(__file__).resolve().parents[1]))
from dwgtools.encodings import CODE_PAGES, code_page, decoded  # noqa: E402
from dwgtools.show import objects, read_objects, read_prefix  # noqa: E402
from dwgtools.values import BadText, Bytes, Reference, Words, read_value, steps  # noqa: E402

PREFIX = b"""drawing AC1015 codepage 30 lead 00ff0000000000 mark -
variables 0102
classes 1
class 500 version 2 proxy 1 item 498 app "A\\22B" cpp "" dxf "WIPE\\5cOUT"
section 4 -
section 7 0a0b
objects 2
"""

OBJECTS = b"""object 1 BLOCK CONTROL typed 48
  owner 4.0
  entries[0] 2.20
  entries[1] A.7FFFFFFFFFFFFFFF
object 31 LINE typed 19
  app[0].application 5.12
  app[0].bytes 1234567890123456
  colour 256
  start 4050E9DAB1D10000 BFF0000000000000 0000000000000000
  thickness 3FF0000000000000
  entry.name "a b\\0a\\22\\5cn\\e4"
  texts -
"""


class ShowText(unittest.TestCase):
    """Texts that are written here by hand after docs/FORMAT.md."""

    def test_prefix(self) -> None:
        prefix = read_prefix(iter(PREFIX.splitlines(keepends=True)))
        self.assertEqual((prefix.version, prefix.codepage, prefix.count), ("AC1015", 30, 2))
        self.assertEqual((prefix.lead, prefix.mark, prefix.variables), (b"\0\xff\0\0\0\0\0", b"", b"\1\2"))
        self.assertEqual(prefix.sections, [(4, b""), (7, b"\x0a\x0b")])
        one = prefix.classes[0]
        self.assertEqual((one.number, one.version, one.proxy, one.item), (500, 2, 1, 498))
        self.assertEqual((one.app, one.cpp, one.dxf), (b'A"B', b"", b"WIPE\\OUT"))

    def test_objects(self) -> None:
        first, second = objects((PREFIX + OBJECTS).splitlines(keepends=True))
        self.assertEqual((first.handle, first.kind, first.form, first.number), (1, "BLOCK CONTROL", "typed", 48))
        self.assertEqual([path for path, _ in first.fields], ["owner", "entries[0]", "entries[1]"])
        self.assertEqual(first.reference("entries[1]"), Reference(10, (1 << 63) - 1))
        self.assertEqual(str(first.reference("entries[1]")), "A.7FFFFFFFFFFFFFFF")
        # Sixteen digits that could be a word are bytes where the name is one of bytes.
        self.assertEqual(second.value("app[0].bytes"), bytes.fromhex("1234567890123456"))
        self.assertIsInstance(second.value("app[0].bytes"), Bytes)
        start = second.value("start")
        self.assertIsInstance(start, Words)
        expected = struct.unpack(">3d", bytes.fromhex("4050E9DAB1D10000BFF00000000000000000000000000000"))
        self.assertEqual(start.doubles(), expected)
        self.assertEqual(second.value("thickness").doubles(), (1.0,))
        self.assertEqual(second.value("entry.name"), b'a b\n"\\n\xe4')
        self.assertEqual(second.value("texts"), b"")
        self.assertEqual((second.integer("colour"), second.integer("mode", 7)), (256, 7))
        self.assertIsNone(second.value("entry"))
        self.assertEqual(second.target("layer"), 0)

    def test_face(self) -> None:
        """In a face `show` has the name `invisible` twice, for the face itself and for its edges."""
        common, edges = b"  mode 2\n  invisible 0\n", b"  fourth 0000000000000000 0000000000000000 0000000000000000\n  invisible 5\n"
        heads = [b"object 31 3DFACE typed 28\n", b"object 32 3DFACE plain 28\n", b"object 33 3DFACE raw 28\n"]
        text = heads[0] + common + edges + heads[1] + common + heads[2] + b"  bytes -\n"
        typed, plain, raw = read_objects(iter(text.splitlines(keepends=True)))
        self.assertEqual((typed.value("invisible"), typed.value("invisible_edges")), (0, 5))
        self.assertEqual([path for path, _ in typed.fields], ["mode", "invisible", "fourth", "invisible_edges"])
        self.assertEqual((plain.value("invisible"), plain.value("invisible_edges"), list(raw.lines)), (0, None, [b"bytes -"]))

    def test_steps(self) -> None:
        self.assertEqual(steps("items[12].name"), ("items", 12, "name"))
        self.assertEqual(steps("points[0]"), ("points", 0))
        self.assertEqual(steps("a"), ("a",))

    def test_bad_texts(self) -> None:
        whole = (PREFIX + OBJECTS).splitlines(keepends=True)
        for cut in range(len(whole)):
            lines = whole[:cut]
            if cut >= len(PREFIX.splitlines()) + 5:
                continue  # Both objects have begun: fewer fields can't be told from all.
            with self.assertRaises(BadText, msg=f"{cut} lines"):
                list(objects(lines))
        for text in (b"", b"\x89PNG\r\n", b"drawing AC1015\n", PREFIX + OBJECTS[:-1], PREFIX + OBJECTS + b"object 40 SEQEND typed 6\n", PREFIX + b"x\n"):
            with self.assertRaises(BadText, msg=repr(text[-20:])):
                list(objects(text.splitlines(keepends=True)))
        for name, printed in ((b"colour", b"x"), (b"layer", b"5."), (b"start", b"405" * 20), (b"bytes", b"0"), (b"name", b'"a')):
            with self.assertRaises(BadText, msg=repr(name)):
                read_value(name, printed)

    def test_code_pages(self) -> None:
        self.assertEqual(decoded(b"\x80\xe4", code_page(30)), "€ä")
        self.assertEqual(decoded(b"\x81", code_page(30)), "\udc81")
        self.assertEqual(decoded(b"\xd1\xf2", code_page(29)), "Ст")
        self.assertEqual(decoded(b"\x93\xfa", code_page(38)), "日")
        self.assertEqual(code_page(999), "cp1252")
        for page in CODE_PAGES.values():
            self.assertEqual(decoded(b"A1", page), "A1")


if __name__ == "__main__":
    unittest.main()
