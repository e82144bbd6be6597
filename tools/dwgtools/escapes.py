"""File names and messages as they stand on a line, without what a terminal would heed."""

from __future__ import annotations

import unicodedata

_SHORT_ESCAPES = {"\\": "\\\\", "\t": "\\t", "\n": "\\n", "\r": "\\r"}

# What turns the direction of a text: with one of these in a name a terminal shows another name.
DIRECTIONS = set("\u061c\u200e\u200f\u202a\u202b\u202c\u202d\u202e\u2066\u2067\u2068\u2069")


def _escaped(letter: str) -> str:
    if letter in _SHORT_ESCAPES:
        return _SHORT_ESCAPES[letter]
    if letter not in DIRECTIONS and unicodedata.category(letter) not in ("Cc", "Cs", "Zl", "Zp"):
        return letter
    is_byte = "\udc80" <= letter <= "\udcff"
    return "".join(f"\\x{byte:02x}" for byte in letter.encode("utf-8", "surrogateescape" if is_byte else "surrogatepass"))


def one_line(text: str) -> str:
    """A file name as it stands in a line of a table or of a message.

    A backslash is `\\\\`, a tabulator `\\t`, a line feed `\\n`, a carriage return `\\r`; each byte of any other control or line end, of what
    turns the direction of a text, and each byte that isn't UTF-8, is `\\x` and two hexadecimal digits. `printf %b` of bash gives the name back.
    """
    return text if text.isprintable() and "\\" not in text else "".join(map(_escaped, text))


def one_message(text: str) -> str:
    """A message as it stands on a line: as a name does, but backslashes stay, since the names in it are escaped already."""
    return "\\".join(one_line(part) for part in text.split("\\"))
