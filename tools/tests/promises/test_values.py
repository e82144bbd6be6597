"""What is printed of a drawing is exact: undecodable bytes are kept, and no text in it is a command
to a terminal or breaks a line, an object of JSON or an element of XML."""

from __future__ import annotations

import json
import xml.etree.ElementTree

from commands import Commands, answer
from drawings import renamed, spoiled

# A name of a layer, of five bytes, and what stands for it in JSON.
LAYERS = {
    b"W\x1b[7m": "W\x1b[7m", b"W\x8f\xff\x01S": "W\udc8f\u00ff\x01S", b"\"</>'": "\"</>'",
    b"a\nb\tc": "a\nb\tc", b"\\U+\\\\": "\\U+\\\\", b"]]>&;": "]]>&;",
}  # fmt: skip


class Values(Commands):
    """Names of layers that aren't text."""
    def drawing_of(self, layer: bytes) -> bytes:
        """A drawing with a layer of that name, which has entities."""
        return renamed(answer("make", "12", "7").stdout, b"WALLS", layer)

    def test_what_recover_says(self) -> None:
        for turn, (layer, text) in enumerate(LAYERS.items()):
            self.file("in.dwg", spoiled(self.drawing_of(layer), -3))
            ran = self.recover("in.dwg", f"{turn}.dwg")
            said = ran.out.decode("utf-8")
            self.assertEqual([one for one in said if one < " " and one != "\n"], [])
            told = json.loads(self.recover("--json", "in.dwg", f"{turn} json.dwg").out)
            self.assertEqual({*told["kept"]["layers"]}, {"0", text})
            lines = said.split("Kept entities by layer:\n")[1].split("\n")
            self.assertEqual([line[:2] == "  " for line in lines[:3]], [True, True, False], said)

    def test_what_report_says(self) -> None:
        for turn, layer in enumerate(LAYERS):
            self.file(f"plans/{turn}.dwg", self.drawing_of(layer))
        objects = self.check("report", "plans").objects
        self.assertEqual([told["schema"] for told in objects], [1] * len(LAYERS))
        ran = self.check("report", "--xml", "plans")
        xml.etree.ElementTree.fromstring(ran.out)
