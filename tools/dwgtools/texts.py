"""The texts of a drawing, and the attributes of its inserts."""

from __future__ import annotations

import re
from typing import Any, Dict, Iterator, List, Mapping, Tuple

from .drawings import Drawing
from .encodings import decoded, unescaped
from .kinds import INSERTS
from .names import Names, class_names, type_name
from .numbered import Numbered
from .searching import LETTERS, ONE_TEXT, Search
from .show import Lists, Object
from .spools import Rows
from .values import Text, read_text

# The field that holds what an entity says: `text` itself, or as a member of what holds a text. A kind that calls it otherwise needs its name here.
_CONTENT = re.compile(rb'\n(?:[a-z_]+\.)*text ("[^"\n]*")(?=\n)')

TEXT_COLUMNS: Tuple[str, ...] = ("handle", "kind", "layer", "text")
ATTRIBUTE_COLUMNS: Tuple[str, ...] = ("insert", "block", "layer", "tag", "value")


def contents_of(one: Object, page: str) -> Iterator[str]:
    """What an entity says."""
    if b'text "' in one.text and one.is_entity:
        for found in _CONTENT.finditer(one.text):
            yield decoded(read_text(found[1]), page)


def name_of(names: Mapping[int, Text], handle: int, page: str) -> str:
    """A name by its handle; empty where nothing has it."""
    return decoded(names.get(handle, b""), page)


def texts_in(drawing: Drawing, search: Search) -> Iterator[Dict[str, Any]]:
    """The texts in which a pattern is found, as they are or with the letters that are escaped in them, once all of a drawing is read."""
    rows, names = Rows(), Names()
    waiting: List[Tuple[int, str, int, str]] = []
    letters = 0

    def search_all() -> None:
        spelled = ((content, unescaped(content)) for *_, content in waiting)
        for row, is_found in zip(waiting, search.finds([spellings[: len({*spellings})] for spellings in spelled])):
            if is_found:
                rows.put(*row)
        waiting.clear()

    search.begin()
    with drawing.show(Lists.NONE) as (prefix, found):
        page, classes = prefix.page, class_names(prefix)
        for one in found:
            names.take(one)
            for content in contents_of(one, page):
                waiting.append((one.handle, type_name(one, classes), one.target("layer"), content))
                letters += len(content) + ONE_TEXT
                if letters > LETTERS:
                    search_all()
                    letters = 0
        search_all()
    return ({"handle": f"{handle:X}", "kind": kind, "layer": name_of(names, layer, page), "text": content} for handle, kind, layer, content in rows)


def attributes_in(drawing: Drawing) -> Iterator[Dict[str, Any]]:
    """The attributes of inserts in order of handle, once all of a drawing is read."""
    rows, names, inserts = Rows(), Names(), Numbered(2)
    with drawing.show(Lists.NONE) as (prefix, found):
        page = prefix.page
        for one in found:
            names.take(one)
            if one.form == "typed" and one.kind in INSERTS:
                inserts.put(one.handle, one.target(f"{INSERTS[one.kind]}block"), one.target("layer"))
            elif one.form == "typed" and one.kind == "ATTRIB":
                tag, content = (one.value(field) for field in ("tag", "text.text"))
                rows.put(one.target("owner"), *(decoded(value, page) if isinstance(value, Text) else "" for value in (tag, content)))

    def told(insert: int, tag: str, content: str) -> Dict[str, Any]:
        block, layer = inserts.of(insert) or (0, 0)
        return {"insert": f"{insert:X}", "block": name_of(names, block, page), "layer": name_of(names, layer, page), "tag": tag, "value": content}

    return (told(*row) for row in rows)
