"""Header variables and a class for a made drawing, so that programs which need them can read it; dwg carries the variables as bytes.

The order of the variables and their codes are those of the Open Design Specification, "HEADER VARIABLES", for R2000 and for R14. Those that name
tables and spaces have the handles of a made drawing (docs/FORMAT.md, "The made drawing") or others that are given; the others are 0, empty or null.
"""

from __future__ import annotations

import struct
from typing import Dict, List, Mapping

import make_inputs as inputs

# The codes in their order, each with a count: B, RC, BS, BL, BD, RD, TV, H. A name after a full stop has a value below.
ORDER = """
BD.first 1, BD.one 3, TV 4, BL 2, H 1, B 20, BS 27, BD.one 9, BD.one 12, TV 1, BL 8, BS.colour 1, H.seed 1, H.layer 1, H.style 1, H.by_layer 1, H 2,
BD 1, BD 9, RD 4, BD 1, BD 9, H 2, BS 1, H 1, BD 18,
BD 9, RD 4, BD 1, BD 9, H 2, BS 1, H 1, BD 18,
TV 2, BD.one 9, B 6, BS 3, BD.one 9, B 1, BS 1, B 4, BS 14, B 2, BS 4, B 1, BS 1, H 5, BS 2,
H.blocks 1, H.layers 1, H.styles 1, H.linetypes 1, H 3, H.applications 1, H 4, H.names 1, BS 2, TV 2, H 3, BL 1, BS 2, TV 2,
H.paper 1, H.model 1, H.by_layer 1, H.by_block 1, H.continuous 1, BS 4
"""

# And those of R14.
OLDER_ORDER = """
BD.first 1, BD.one 3, TV 4, BL 2, BS 1, H 1, B 26, BS 31, BD.one 9, BD.one 12, TV 1, BL 8, BS.colour 1, H.seed 1, H.layer 1, H.style 1, H.by_layer 1,
H 2, BD 9, RD 4, BD 1, BD 9, H 1,
BD 9, RD 4, BD 1, BD 9, H 1,
B 11, RC 2, B 2, RC 3, B 1, RC 4, BS 6, H.style 1, BD.one 9, BD.one 8, TV 5, BS 3,
H.blocks 1, H.layers 1, H.styles 1, H.linetypes 1, H 3, H.applications 1, H 4, H.names 1,
H.paper 1, H.model 1, H.by_layer 1, H.by_block 1, H.continuous 1, BS 4
"""

HANDLES = {
    "seed": 0xFFFFFF, "layer": 0x10, "style": 0x11, "by_layer": 0x15, "by_block": 0x14, "continuous": 0x16, "blocks": 1, "layers": 2, "styles": 3,
    "linetypes": 5, "applications": 9, "names": 0xC, "paper": 0x1B, "model": 0x18,
}  # fmt: skip
NUMBERS: Dict[str, float] = {"first": 412148564080.0, "one": 1.0}


def spelled(code: str, name: str, handles: Mapping[str, int]) -> str:
    """The bits of a variable."""
    if code == "H":
        return inputs.reference(0 if name == "seed" else 5, handles.get(name, 0))
    if code in ("BD", "RD"):
        word = struct.unpack("<Q", struct.pack("<d", NUMBERS.get(name, 0.0)))[0]
        return inputs.little(word, 8) if code == "RD" else {0.0: "10", 1.0: "01"}.get(NUMBERS.get(name, 0.0), "00" + inputs.little(word, 8))
    return {"B": "0", "RC": inputs.little(0, 1), "BS": inputs.short(256 if name == "colour" else 0), "BL": inputs.long(0), "TV": inputs.short(0)}[code]


def content(order: str, handles: Mapping[str, int]) -> bytes:
    """The content of the section."""
    bits: List[str] = []
    for part in order.replace("\n", " ").split(","):
        said, count = part.split()
        code, _, name = said.partition(".")
        bits.append(spelled(code, name, handles) * int(count))
    return bytes(inputs.packed("".join(bits)))


def a_class() -> str:
    """The bits of a class that no object has."""
    text = lambda said: inputs.short(len(said)) + "".join(inputs.little(byte, 1) for byte in said)
    names = text(b"ObjectDBX Classes") + text(b"AcDbDictionaryWithDefault") + text(b"ACDBDICTIONARYWDFLT")
    return inputs.short(500) + inputs.short(0) + names + "0" + inputs.short(0x1F3)


def completed(made: bytes, order: str = ORDER, handles: Mapping[str, int] = HANDLES) -> bytes:
    """A drawing with header variables and a class, which stand after all else; `dwg rewrite` puts them where they belong."""
    data = bytearray(made)
    sections = (inputs.framed(inputs.VARIABLES, content(order, handles)), inputs.framed(inputs.CLASSES, inputs.packed(a_class())))
    for number, section in enumerate(sections):
        locator = 25 + 9 * number
        assert data[locator] == number
        data[locator + 1 : locator + 9] = len(data).to_bytes(4, "little") + len(section).to_bytes(4, "little")
        data += section
    end = 25 + 9 * int.from_bytes(data[21:25], "little")
    data[end : end + 2] = (inputs.check(0, data[:end]) ^ inputs.HEADER_MASKS[(end - 25) // 9]).to_bytes(2, "little")
    return bytes(data)
