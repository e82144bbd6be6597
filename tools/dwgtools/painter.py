"""Parts as elements of SVG, as many as there is room for."""

from __future__ import annotations

import contextlib
import shutil
import tempfile
from functools import lru_cache
from typing import IO, Callable, Dict, Iterable, Iterator, List, NamedTuple, Optional, Set, Tuple

from .blocks import Copies, Drawn, Insert, Item, Part, Pen, Run, Used
from .escapes import one_line
from .plane import SAME, Affine, Box, Endless, Point, Step, plain
from .shapes import Frame, Straight, Undrawable
from .statuses import Exit, ToolError

# Of how many parts blocks are defined anew for maps that change the width of their lines, and which part of the picture these may be.
MOST_STRETCHED, PART_STRETCHED = 100_000, 4

# How many bytes a number has at the most, an element that draws a run elsewhere, one that turns it too, and the ends of a group or a definition.
LONGEST_NUMBER, LONGEST_MOVED, LONGEST_TURNED, LONGEST_GROUP = 16, 80, 160, 60
# How many bytes a line without ends has at the most, with a group of its own.
LONGEST_CUT = 200
# How many definitions are looked at in all for what needs them, once something was told in vain. What would need more isn't drawn.
MOST_SOUGHT = 1 << 22
# How many bytes of the definition of a block are held in memory.
IN_MEMORY = 1 << 20


class NoRoom(Undrawable):
    """A picture would have too many bytes."""


class Room:
    """How many bytes the elements of a picture have, which are counted before they are written anywhere, and how many they may have."""

    def __init__(self, most: int) -> None:
        self.most = most
        # How many there are, and how many were taken back.
        self.size = self.vain = 0

    @property
    def left(self) -> int:
        """How many more there may be."""
        return self.most - self.size

    def ask(self, count: int) -> None:
        """NoRoom where so many more are too many."""
        if count > self.left:
            raise NoRoom(f"more than {self.most} bytes in all")

    def take(self, count: int) -> None:
        """Counts bytes; NoRoom where there are too many."""
        self.size += count
        if self.size > self.most:
            self.ask(0)

    def back(self, size: int) -> None:
        """Takes back all but so many."""
        self.vain += self.size - size
        self.size = size


class Page:
    """A file that elements are written to, of which the last ones can be taken back."""

    def __init__(self, file: IO[bytes]) -> None:
        self.file, self.size = file, 0

    def write(self, told: bytes) -> None:
        """Writes a piece."""
        self.file.write(told)
        self.size += len(told)

    def take(self, other: "Page") -> None:
        """Writes all of another page."""
        other.file.seek(0)
        shutil.copyfileobj(other.file, self.file, 1 << 20)
        self.size += other.size

    def back(self, size: int) -> None:
        """Takes back all but so many bytes."""
        self.file.seek(size)
        self.file.truncate()
        self.size = size


def size_of(pieces: Iterable[str]) -> int:
    """How many bytes pieces have."""
    return sum(len(said) if said.isascii() else len(said.encode("utf-8")) for said in pieces)


END_OF_GROUP = b"</g>\n"


@lru_cache(maxsize=1 << 10)
def between(before: Pen, after: Pen) -> Tuple[bytes, int]:
    """What ends the group of a pen and begins that of another, and how many bytes are counted for that with its end; a pen without attributes doesn't
    need one."""
    begin = f"<g{after.attributes()}>\n".encode("ascii") if after.attributes() else b""
    return (END_OF_GROUP if before.attributes() else b"") + begin, len(begin + END_OF_GROUP) if begin else 0


class Sheet:
    """Takes elements, in groups of one pen each, and the widths of these; all is counted before it is written."""

    def __init__(self, page: Page, room: Room, widths: Set[int]) -> None:
        self.page, self.room, self.widths = page, room, widths
        self.pen = Pen()

    def put(self, pen: Pen, element: str, more: Iterable[str] = ()) -> None:
        """Takes an element, or the begin of one and what stands after that."""
        before = self.changed(pen) if pen != self.pen else b""
        for piece in more:
            self.write(element, before)
            element, before = piece, b""
        self.write(element + "\n", before)

    def write(self, said: str, before: bytes = b"") -> None:
        """Counts a piece, and writes it after what was counted before."""
        told = said.encode("utf-8")
        self.room.take(len(told))
        self.page.write(before + told)

    def changed(self, pen: Pen) -> bytes:
        """What ends the open group and begins another, which is counted."""
        told, count = between(self.pen, pen)
        self.room.take(count)
        if isinstance(pen.width, int):
            self.widths.add(pen.width)
        self.pen = pen
        return told

    def end(self) -> None:
        """Ends the open group."""
        self.page.write(between(self.pen, Pen())[0])
        self.pen = Pen()


@lru_cache(maxsize=64)
def steps(frame: Frame, inner: Affine) -> Tuple[Affine, Affine]:
    """Where a frame puts what has a map of its own, in two steps: what changes its size or shape, and what turns, mirrors and moves it."""
    seat = frame.seat(inner)
    held, turn = seat.linear().steps()
    return held, turn.moved_to((seat.e, seat.f))


@lru_cache(maxsize=64)
def place_of_use(seat: Affine) -> str:
    """The attributes of an element that draws a run elsewhere."""
    return f' x="{plain(seat.e)}" y="{plain(seat.f)}"' if seat.linear() == SAME else seat.attribute()


# What is defined for a run: itself, and the map that changes the width of its lines.
Defined = Tuple[Run, Affine]


class Size(NamedTuple):
    """How many bytes a definition has at the most, and the others that it uses."""

    own: int
    inner: List[Defined]


def longest_use(seat: Affine) -> int:
    """How many bytes the element has at the most that draws a run elsewhere."""
    return LONGEST_MOVED if seat.linear() == SAME else LONGEST_TURNED


class Painter:
    """Draws parts on a sheet. A run is defined there before it is used first, and once for each map that changes the width of its lines.

    How many bytes copies have at the most is known before any is told. Once something was told in vain, that of definitions is looked for too.
    Where a window is given, what lies outside is left out.
    """

    def __init__(self, middle: Point, page: Page, room: Room, window: Optional[Box] = None) -> None:
        self.widths: Set[int] = set()
        self.page, self.room, self.window = page, room, window
        self.frame, self.sheet, self.extent = Frame(*middle), Sheet(page, room, self.widths), Box()
        self.names: Dict[Defined, str] = {}
        # The sizes that were looked for, and definitions for which there was no room, nor will there ever be: what they need lessens by no more
        # than what is left.
        self.sizes: Dict[Defined, Size] = {}
        self.too_large: Set[Defined] = set()
        self.ends: Dict[Defined, int] = {}
        self.sought = 0
        # The runs that are defined anew, of how many parts and bytes these are, and whether there were too many.
        self.anew: Set[Defined] = set()
        self.parts_anew = self.bytes_anew = 0
        self.is_stretched = False
        self.endless: List[Tuple[Pen, Endless]] = []

    @contextlib.contextmanager
    def whole(self) -> Iterator[None]:
        """Draws an entity whole or, where there is no room, not at all."""
        size, written, pen, sides = self.room.size, self.page.size, self.sheet.pen, self.extent.sides
        names, endless, is_stretched = len(self.names), len(self.endless), self.is_stretched
        try:
            yield
        except NoRoom:
            self.room.back(size)
            self.page.back(written)
            self.sheet.pen, self.extent.sides, self.is_stretched = pen, sides, is_stretched
            while len(self.names) > names:
                self.names.popitem()
            del self.endless[endless:]
            raise

    def draw(self, part: Part) -> None:
        """Draws a part of the picture, or keeps one that is endless until the whole picture is known."""
        if isinstance(part, Drawn) and isinstance(part.figure, Straight):
            self.keep(part.pen, part.figure.within(self.frame))
        elif (isinstance(part, Used) and self.window is None and part.is_within(self.extent, self.frame)) or self.take(part.around(self.frame)):
            self.put(part, self.sheet, self.frame)

    def keep(self, pen: Pen, line: Endless) -> None:
        """Keeps a line without ends, unless it passes by the window."""
        shown = [line.place] if self.window is None else line.cut(*self.window.corners())
        if shown and self.take(shown):
            self.room.take(LONGEST_CUT)
            self.endless.append((pen, line))

    def take(self, steps: Iterable[Step]) -> bool:
        """Takes in what points and arcs extend over; False where that lies outside the window."""
        if self.window is None:
            self.extent.add(steps)
            return True
        box = Box()
        box.add(steps)
        if box.meets(self.window):
            self.extent.add(box.corners())
            return True
        return False

    def put(self, part: Part, sheet: Sheet, frame: Frame) -> None:
        """Writes the element of a part."""
        pieces = part.figure.pieces(frame) if isinstance(part, Drawn) else iter([self.use(part, frame)])
        first = next(pieces, "")
        if first:
            sheet.put(part.pen, first, pieces)

    def use(self, part: Used, frame: Frame) -> str:
        """The element that draws a run. It turns and mirrors alone, so that lines keep their width, unless there are too many definitions."""
        held, turn = self.maps(part.run, part.seat, frame)
        return f'<use xlink:href="#{self.name(part.run, held)}"{place_of_use(turn)}/>'

    def maps(self, run: Run, seat: Affine, frame: Frame) -> Tuple[Affine, Affine]:
        """The map that a run is defined for and the one that its use has."""
        held, turn = steps(frame, seat)
        if held != SAME and (run, held) not in self.anew:
            self.parts_anew += len(run.parts)
            if self.parts_anew > MOST_STRETCHED or self.bytes_anew > self.room.most // PART_STRETCHED:
                self.is_stretched = True
                return SAME, frame.seat(seat)
            self.anew.add((run, held))
        return held, turn

    def ask(self, items: Iterable[Item], used: Callable[[Insert], List[Run]]) -> None:
        """NoRoom where what an insert draws would be too much, which is known before any of it is told."""
        size = sum(self.most_of_copies(item) for item in items if isinstance(item, Copies))
        self.room.ask(size + sum(self.most_of_insert(item, used(item)) for item in items if isinstance(item, Insert)))

    def most_of_copies(self, copies: Copies) -> int:
        """How many bytes copies of figures have at the most: they differ by the two numbers of their place."""
        count = copies.grid.copies()
        if count == 1 and not self.room.vain:
            return 0
        return count * sum(size_of(item.figure.pieces(self.frame)) + 1 + 2 * LONGEST_NUMBER + LONGEST_GROUP for item in copies.items)

    def most_of_insert(self, insert: Insert, runs: List[Run]) -> int:
        """How many bytes an insert has at the most, with the definitions that it needs, where these are looked for."""
        if runs and self.room.vain and (runs[0], self.maps(runs[0], insert.seat, self.frame)[0]) in self.too_large:
            # (its runs are always needed together, and there may be very many)
            return self.room.left + 1
        maps = [self.maps(run, insert.seat, self.frame) for run in runs]
        groups = insert.grid.copies() * len(runs) if len(runs) > 1 else 1
        size = insert.grid.copies() * sum(longest_use(turn) for _, turn in maps) + groups * LONGEST_GROUP
        return size + (self.needed([(run, held) for run, (held, _) in zip(runs, maps)]) if self.room.vain else 0)

    def needed(self, first: List[Defined]) -> int:
        """How many bytes definitions have at the most that aren't there yet, with those that they use; or as many as are too many."""
        rest, met, size = list(first), set(), 0
        if any(one not in self.names and self.end_of(one) > self.room.most for one in first):
            size = self.room.left + 1
        while rest and size <= self.room.left:
            one = rest.pop()
            self.sought += 1
            if one in self.too_large or self.sought > MOST_SOUGHT:
                size = self.room.left + 1
            elif one not in met and one not in self.names:
                met.add(one)
                found = self.measured(*one)
                size += found.own
                rest += found.inner
        if size > self.room.left:
            self.too_large.update(first[:1])
        return size

    def end_of(self, one: Defined) -> int:
        """How many bytes the picture would have at the least with a definition that isn't there yet, which is looked for once: with the largest one
        that it uses and what that needs, or with all that it uses itself. What many use isn't gone through for each of them."""
        if one not in self.ends:
            found, size = self.measured(*one), self.room.size
            inner = [each for each in found.inner if each not in self.names]
            beside = size + sum(self.measured(*each).own for each in inner)
            self.ends[one] = found.own + max([beside, *map(self.end_of, inner)])
        return self.ends[one]

    def measured(self, run: Run, held: Affine) -> Size:
        """The size of a definition, which is looked for once."""
        if (run, held) not in self.sizes:
            own, inner, pen, frame = LONGEST_GROUP, [], Pen(), Frame(*run.near, held)
            for part in run.parts:
                own += 1 + (LONGEST_GROUP if part.pen != pen else 0)
                pen = part.pen
                if isinstance(part, Used):
                    inner_held, turn = self.maps(part.run, part.seat, frame)
                    own += longest_use(turn)
                    inner.append((part.run, inner_held))
                else:
                    own += size_of(part.figure.pieces(frame))
            self.sizes[run, held] = Size(own, list(dict.fromkeys(inner)))
            self.bytes_anew += own if held != SAME else 0
        return self.sizes[run, held]

    def name(self, run: Run, held: Affine) -> str:
        """The name of a run under a map, which is defined where it wasn't before."""
        if (run, held) not in self.names:
            with tempfile.SpooledTemporaryFile(IN_MEMORY) as file:
                page = Page(file)
                sheet, frame = Sheet(page, self.room, self.widths), Frame(*run.near, held)
                for part in run.parts:
                    self.put(part, sheet, frame)
                sheet.end()
                name = f"b{len(self.names)}"
                self.sheet.end()
                self.sheet.write(f'<defs><g id="{name}">\n')
                self.page.take(page)
                self.sheet.write("</g></defs>\n")
            self.names[run, held] = name
            self.bytes_anew += page.size if held != SAME and (run, held) not in self.sizes else 0
        return self.names[run, held]


@contextlib.contextmanager
def temporary() -> Iterator[IO[bytes]]:
    """A file without a name; what can't be written of it when it is closed is of no use any more."""
    file = tempfile.TemporaryFile()
    try:
        yield file
    finally:
        with contextlib.suppress(OSError):
            file.close()


@contextlib.contextmanager
def told_as_temporary() -> Iterator[None]:
    """Tells a failure while nothing but temporary files is written as one of these, and not of the output."""
    try:
        yield
    except OSError as fault:
        folder = f" in {one_line(tempfile.tempdir)}" if tempfile.tempdir else ""
        raise ToolError(f"the temporary file{folder} can't be written: {fault.strerror}", Exit.FAILURE) from None
