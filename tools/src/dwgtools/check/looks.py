"""What a file looks like that is no drawing, by its bytes."""

from __future__ import annotations

import re
from typing import Optional

from .header import CLASSES_SENTINEL, OURS, VARIABLES_SENTINEL, has_header

# A drawing inside other bytes: a version that is read, and any other with the zeros that follow.
OUR_VERSION = re.compile(b"|".join(OURS))
INNER_VERSION = re.compile(rb"AC10[0-9]{2}(?=\0{5})")

# What other files begin with.
SIGNATURES = [
    (b"\xff\xd8\xff", "JPEG picture"), (b"\x89PNG\r\n\x1a\n", "PNG picture"),
    (b"GIF8", "GIF picture"), (b"II*\0", "TIFF picture"), (b"MM\0*", "TIFF picture"),
    (b"%PDF-", "PDF document"), (b"\xd0\xcf\x11\xe0\xa1\xb1\x1a\xe1", "OLE document"),
    (b"PK\x03\x04", "zip archive"), (b"PK\x05\x06", "zip archive"),
    (b"\x1f\x8b", "gzip archive"), (b"7z\xbc\xaf\x27\x1c", "7z archive"),
    (b"AutoCAD Binary DXF\r\n", "binary DXF"),
    (b"\xff\xfe", "text in UTF-16"), (b"\xfe\xff", "text in UTF-16"),
]  # fmt: skip
DXF = re.compile(
    rb"(?:\xef\xbb\xbf)?(?:\s*999[ \t]*\r?\n[^\n]*\n)*\s*0[ \t]*\r?\n[ \t]*SECTION\s"
)
# Bytes that no text has.
NO_TEXT = re.compile(rb"[\x00-\x06\x0e-\x1a\x1c-\x1f\x7f]")


def is_text(data: bytes) -> bool:
    """Whether bytes read as a text in some code page."""
    return not NO_TEXT.search(data)


def looks_like(prefix: bytes) -> Optional[str]:
    """What a file is that is no drawing, by how it begins; None where that isn't known."""
    if not prefix.strip(b"\0"):
        return "zero bytes" if prefix else "empty"
    for begin, name in SIGNATURES:
        if prefix.startswith(begin):
            return name
    if DXF.match(prefix):
        return "DXF text"
    return "text" if is_text(prefix) else None


def zeros_of(data: bytes, size: int) -> str:
    """What bytes look like that begin with zeros, of a file that has so many."""
    if data.strip(b"\0"):
        return "unknown bytes"
    return "zero bytes" if len(data) >= size else f"the first {len(data)} bytes are zero"


def inner_drawing(data: bytes) -> Optional[str]:
    """Which drawing begins inside of other bytes, and where."""
    ours = (found for found in OUR_VERSION.finditer(data, 1) if has_header(data, found.start()))
    found = next(ours, None) or INNER_VERSION.search(data, 1)
    return f"{found[0].decode()} begins at {found.start()}" if found else None


def section_of_drawing(data: bytes) -> Optional[str]:
    """Which section of a drawing stands in bytes without a header, and where."""
    for name, sentinel in (("header variables", VARIABLES_SENTINEL), ("classes", CLASSES_SENTINEL)):
        at = data.find(sentinel)
        if at >= 0:
            return f"{name} at {at}"
    return None
