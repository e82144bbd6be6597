"""A picture of a drawing, from its objects to its bytes."""

from __future__ import annotations

import contextlib
import os
import shutil
from typing import IO, Any, Iterable, Optional, Tuple

from .blocks import Item
from .colours import ink_on
from .drawings import Drawing
from .kinds import ENTITIES, INSERTS
from .painter import NoRoom, Page, Painter, Room, temporary, told_as_temporary
from .parts import Reader
from .plane import Box
from .quick import Quick, is_placed
from .show import Lists, Object
from .stock import stock_of
from .window import END_OF_FILE, cut, head, lines_in, middle_of, window_at, window_of

# How many bytes the elements of a picture have, whatever makes them; of a drawing of many bytes so many for each.
MOST_WRITTEN, TIMES_WRITTEN = 1 << 26, 64


def draw(one: Object, reader: Reader, painter: Painter) -> None:
    """Draws an entity of what is looked at, or counts it."""
    copies = reader.drawn[-1]
    try:
        with painter.whole():
            items: Iterable[Item] = reader.items(one, reader.outside)
            if one.kind in INSERTS:
                items = list(items)
                painter.ask(items, reader.used)
            for item in items:
                for part in reader.parts(item):
                    painter.draw(part)
    except NoRoom as why:
        reader.drawn[-1] = copies
        reader.miss(one, why)


def paint(drawing: Drawing, out: IO[bytes], given: Any) -> Tuple[Reader, Painter]:
    """Draws a drawing. The elements go to a file without a name first, since the view stands before them."""
    with contextlib.ExitStack() as files:
        with told_as_temporary():
            page, endless = (Page(files.enter_context(temporary())) for _ in range(2))
            reader, painter = painted(drawing, page, given)
            shown = window_at(given.window, painter.frame[:2]) if given.window else window_of(painter.extent.corners())
            cut(painter, shown, endless)
            for part in (endless, page):
                part.file.seek(0)
        out.write(head(shown, given.width, given.background, painter.widths, painter.frame[:2]).encode("utf-8"))
        for part in (endless, page):
            shutil.copyfileobj(part.file, out, 1 << 20)
        out.write(END_OF_FILE.encode("utf-8"))
    return reader, painter


def painted(drawing: Drawing, page: Page, given: Any) -> Tuple[Reader, Painter]:
    """Draws the elements of a drawing on a page, by coordinates that count from the middle of what is shown."""
    stock, view, middle = stock_of(drawing, given, is_placed)
    room = Room(max(MOST_WRITTEN, TIMES_WRITTEN * os.fstat(drawing.file.fileno()).st_size))
    window: Optional[Box] = None
    if given.window:
        middle = middle_of(given.window)
        window = lines_in(window_at(given.window, middle), given.width)
    reader, painter = Reader(stock, view, ink_on(given.background)), Painter(middle, page, room, window)
    with drawing.show(Lists.NUMBERS, Quick(reader, painter).is_drawn) as (_, found):
        for one in found:
            if one.form == "raw" and one.kind in ENTITIES:
                reader.undrawn[f"{one.kind} (raw)"] += 1
            elif view.has(one):
                draw(one, reader, painter)
    painter.sheet.end()
    return reader, painter
