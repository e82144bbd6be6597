"""A report as an XML document. What XML 1.0 has no letter for is escaped as in the table, and the
attribute `escaped` names where; all other texts stand as they are. The document is in ASCII."""

from __future__ import annotations

import re
from typing import Any, Dict, Iterator

from ..files import one_line

BEGIN = b'<?xml version="1.0" encoding="US-ASCII"?>\n'

# What stands for a letter in an attribute. (xml.sax would load urllib.request for this.)
_QUOTED = {ord(letter): f"&#{ord(letter)};" for letter in "&<>\"\t\n\r"}
# The letters that no document has.
_NO_LETTER = re.compile("[^\t\n\r\x20-\ud7ff\ue000-\ufffd\U00010000-\U0010ffff]")


def opened(name: str, members: Dict[str, Any], end: str = ">") -> str:
    """The tag that an element begins with: an attribute for each member that isn't an element."""
    told, escaped = [name], []
    for key, value in members.items():
        if value is None or isinstance(value, (dict, list)):
            continue
        text = str(value).lower() if isinstance(value, bool) else str(value)
        if _NO_LETTER.search(text):
            escaped.append(key)
            text = one_line(text)
        told.append(f'{key}="{text.translate(_QUOTED)}"')
    if escaped:
        told.append(f'escaped="{" ".join(escaped)}"')
    return f"<{' '.join(told)}{end}\n"


def element(name: str, members: Dict[str, Any], indent: str = "  ") -> Iterator[str]:
    """The lines of an element. A list has as elements what it lists, named by its name less `s`."""
    within = {key: one for key, one in members.items() if isinstance(one, dict)}
    listed = members.get("listed", ())
    if not within and not listed:
        yield indent + opened(name, members, "/>")
        return
    yield indent + opened(name, members)
    for key, one in within.items():
        yield from element(key, one, indent + "  ")
    for one in listed:
        yield from element(name[:-1], one, indent + "  ")
    yield f"{indent}</{name}>\n"


def encoded(text: str) -> bytes:
    """Lines of a document as they are written."""
    return text.encode("ascii", "xmlcharrefreplace")
