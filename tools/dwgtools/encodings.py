"""The code pages of drawings, texts by them, and the letters that AutoCAD escapes in texts whose code page doesn't have them."""

from __future__ import annotations

import re
from typing import Dict, Optional

# What the number of a code page in the header means, of those that Python knows. Any other number is read as 30 is.
CODE_PAGES: Dict[int, str] = {
    1: "ascii",
    **{number: "iso8859_%d" % (number - 1) for number in range(2, 11)},
    11: "cp437", 12: "cp850", 13: "cp852", 14: "cp855", 15: "cp857", 16: "cp860", 17: "cp861", 18: "cp863", 19: "cp864",
    20: "cp865", 21: "cp869", 22: "cp932", 23: "mac_roman", 24: "big5", 25: "cp949", 26: "johab", 27: "cp866",
    28: "cp1250", 29: "cp1251", 30: "cp1252", 31: "gb2312", 32: "cp1253", 33: "cp1254", 34: "cp1255", 35: "cp1256",
    36: "cp1257", 37: "cp874", 38: "cp932", 39: "gbk", 40: "cp949", 41: "cp950", 42: "johab", 44: "cp1258",
}  # fmt: skip


def code_page(number: int) -> str:
    """Python's name of the code page of a number."""
    return CODE_PAGES.get(number, "cp1252")


def named_page(word: str) -> str:
    """Python's name of the code page that a word of the command line names, by its number in headers or as the tools call it; ValueError for another."""
    page = CODE_PAGES.get(int(word), "") if re.fullmatch("[0-9]{1,2}", word) else word.lower()
    if page not in CODE_PAGES.values():
        raise ValueError(f"{word!r} is no code page: name one by its number in a header, as 29, or as cp1251")
    return page


def decoded(text: bytes, page: str) -> str:
    """A text by its code page; a byte that the page doesn't have becomes a lone surrogate, DC80 to DCFF."""
    return text.decode(page, "surrogateescape")


# Letters by what is written for them: `\U+` and four digits of UTF-16, any number of times, or `\M+`, a digit for a code page and its two bytes.
ESCAPES = r"(?:\\U\+[0-9A-F]{4})+|\\M\+[1-5][0-9A-F]{4}"
_ESCAPES = re.compile(ESCAPES, re.IGNORECASE)
# The code pages of `\M+`: Shift-JIS, Big5, Wansung, Johab, GB.
_ESCAPED_PAGES = {"1": "cp932", "2": "cp950", "3": "cp949", "4": "johab", "5": "gbk"}
_UNIT = len("\\U+0000")


def letters_of(escapes: str, instead: Optional[str] = None) -> str:
    """The letters that escapes stand for. Where one stands for none, as half of a letter or bytes that the code page doesn't have, it stays, or what is
    given stands instead."""
    if escapes[1] in "Mm":
        letter = bytes.fromhex(escapes[4:]).decode(_ESCAPED_PAGES[escapes[3]], "replace")
        return letter if len(letter) == 1 and letter != "\ufffd" else escapes if instead is None else instead
    said, at = [], 0
    # (two halves of one letter that stand side by side are that letter)
    for letter in bytes.fromhex(escapes[3:].replace("\\U+", "").replace("\\u+", "")).decode("utf-16-be", "surrogatepass"):
        written = escapes[at : at + _UNIT] if instead is None else instead
        said.append(written if "\ud800" <= letter <= "\udfff" else letter)
        at += 2 * _UNIT if letter > "\uffff" else _UNIT
    return "".join(said)


def unescaped(text: str) -> str:
    """A text with the letters that are escaped in it."""
    return _ESCAPES.sub(lambda found: letters_of(found[0]), text) if "\\" in text else text
