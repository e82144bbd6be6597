"""What is known of a drawing before anything of it is drawn: layers, blocks, vertices, and where its middle is."""

from __future__ import annotations

import statistics
from array import array
from dataclasses import dataclass, field, replace
from functools import partial
from itertools import chain
from typing import Any, Callable, Dict, Iterator, List, NamedTuple, Optional, Set, Tuple

from .drawings import Drawing
from .encodings import decoded
from .escapes import one_line
from .kinds import PLACES, inserted_by, mode_of
from .names import class_names
from .patterns import Patterns
from .pieces import Head
from .plane import Point, seen
from .shapes import FARTHEST, Undrawable
from .show import Lists, Object
from .statuses import Exit, ToolError
from .values import Text, Words

DEEPEST = 64
# How much text of entities that are in blocks, or attributes, is kept: four times as much as one object may have.
MOST_KEPT = 1 << 30
# How much all inserts draw, so that a few bytes don't make a picture without end; a drawing of many objects has so many times as much.
MOST_DRAWN, TIMES_DRAWN = 1_000_000, 10
# Which part of that may be copies that blocks have of other blocks, each of which is kept.
PARTS_OF_BLOCKS = 5

# The version in which a layer has four bits of its own.
OLDER = "AC1014"


@dataclass(frozen=True)
class Layer:
    """A layer: its name, its colour, the number of its lineweight, and whether it is off or frozen, or isn't asked for."""

    name: str = "0"
    colour: int = 7
    weight: int = 31
    off: bool = False
    frozen: bool = False
    unasked: bool = False


def layer_of(one: Object, page: str, version: str) -> Layer:
    """A layer as it is read. Of `values` the bit 1 is frozen, 2 off, and 3E0 the lineweight; a colour below 0, as 16 bits have it, is off too.

    In AC1014 the bit 2 isn't heeded: there the specification calls it on, and no picture is to be empty for it.
    """
    name, values, colour = one.value("entry.name"), one.integer("values"), one.integer("colour", 7)
    negative = 0x8000 <= colour <= 0xFFFF
    shown = 0x10000 - colour if negative else colour
    return Layer(decoded(name, page) if isinstance(name, Text) else "", shown, values >> 5 & 31, negative or (bool(values & 2) and version != OLDER), bool(values & 1))


@dataclass
class Block:
    """A block: its name, its base point, whether it is an external reference, its entities, and a place near these, from which coordinates count."""

    name: str
    base: Point
    external: bool
    members: List[Object] = field(default_factory=list)
    near: Point = (0.0, 0.0)


def within(place: Tuple[float, ...]) -> Optional[Point]:
    """The x and y of a place, where it can be drawn."""
    x, y = place[:2]
    return (x, y) if abs(x) <= FARTHEST and abs(y) <= FARTHEST else None


def place_of(one: Object) -> Optional[Point]:
    """Where an object is, seen from above, if that can be told."""
    if one.form != "typed" or one.kind not in PLACES:
        return None
    place, plane = PLACES[one.kind]
    value, normal = one.value(place), one.value(plane) if plane else None
    numbers = value.doubles() if isinstance(value, Words) else one.lists.get(place, ())
    if len(numbers) < 2:
        return None
    x, y = numbers[:2]
    return within(seen(normal.doubles()).at(x, y) if isinstance(normal, Words) and len(normal) == 3 else (x, y))


class Vertex(NamedTuple):
    """A vertex of a polyline in space: its place, none where it isn't read by all its fields, its flags, and the handle of what follows it."""

    place: Tuple[float, ...]
    flags: int
    following: int


def vertex_of(one: Object) -> Vertex:
    """A vertex as it is read. An entity without links is followed by the object of the handle after its own."""
    place, links = one.value("place"), one.reference("links.next")
    numbers = place.doubles() if isinstance(place, Words) and len(place) == 3 else ()
    return Vertex(numbers, one.integer("flags"), links.handle if links else one.handle + 1)


def chained(vertices: Dict[int, Vertex], first: int, last: int) -> List[Vertex]:
    """The vertices from the first to the last, each after the one that it follows; none where they don't lead there."""
    found: List[Vertex] = []
    at = first
    while at in vertices and len(found) < len(vertices):
        found.append(vertices[at])
        if at == last:
            return found
        at = vertices[at].following
    return []


class Middle:
    """The middle of the entities of a space, by the places of all."""

    def __init__(self) -> None:
        self.xs, self.ys = array("d"), array("d")

    def take(self, place: Optional[Point]) -> None:
        """Takes the place of an entity."""
        if place:
            self.xs.append(place[0])
            self.ys.append(place[1])

    def point(self) -> Optional[Point]:
        """The medians, where there is any."""
        return (statistics.median_low(self.xs), statistics.median_low(self.ys)) if self.xs else None


# A polyline that was made a curve has the corners of the frame that it was made from among its vertices; they aren't seen.
CURVED, OF_FRAME = 3, 16


@dataclass
class Stock:
    """What is known of a drawing before it is drawn: its code page, how many objects it has, the names of layers that are asked for, where not all
    are, layers, blocks, attributes by their insert, the vertices of polylines in space by handle, the modes of these, the two spaces, and the
    blocks and layers of the inserts in each by its mode."""

    page: str
    version: str
    classes: Dict[int, str]
    objects: int
    asked: Optional[Patterns] = None
    layers: Dict[int, Layer] = field(default_factory=dict)
    blocks: Dict[int, Block] = field(default_factory=dict)
    attributes: Dict[int, List[Object]] = field(default_factory=dict)
    vertices: Dict[int, Dict[int, Vertex]] = field(default_factory=dict)
    polylines: Dict[int, int] = field(default_factory=dict)
    owned: Dict[int, List[Object]] = field(default_factory=dict)
    spaces: Dict[int, int] = field(default_factory=dict)
    inserted: Dict[int, Set[Tuple[int, int]]] = field(default_factory=dict)
    kept: int = 0

    def take(self, one: Object) -> None:
        """Keeps what is needed later of an object."""
        if one.form == "typed" and one.kind in ("LAYER", "BLOCK HEADER", "BLOCK CONTROL", "ATTRIB"):
            self.take_part(one)
        elif one.kind == "VERTEX 3D":
            self.vertices.setdefault(one.target("owner"), {})[one.handle] = vertex_of(one)
        elif mode_of(one) == 0:
            self.keep(self.owned, one)
        else:
            found = inserted_by(one)
            if found:
                self.inserted.setdefault(mode_of(one) or 0, set()).add(found)

    def layer(self, handle: int) -> Layer:
        """The layer of a handle; one without a name where it isn't there."""
        return self.layers.get(handle) or self.as_asked(Layer(""))

    def as_asked(self, layer: Layer) -> Layer:
        """A layer by whether it is asked for."""
        return replace(layer, unasked=True) if self.asked and not self.asked.match(layer.name) else layer

    def idle_patterns(self) -> List[str]:
        """What is asked for as the name of a layer, and no layer has."""
        return self.asked.idle(layer.name for layer in self.layers.values()) if self.asked else []

    def inner(self, handle: int, mode: int = 0) -> Iterator[int]:
        """The blocks that are inserted in a block, or in the space of a mode, and may be drawn."""
        members = self.blocks[handle].members if handle in self.blocks else []
        for block, layer_handle in chain(self.inserted.get(mode, ()), filter(None, map(inserted_by, members))):
            layer = self.layer(layer_handle)
            if block in self.blocks and not self.blocks[block].external and (layer.name == "0" or not layer.frozen):
                yield block

    def keep(self, kept: Dict[int, List[Object]], one: Object) -> None:
        """Keeps an object as it is, by its owner."""
        self.kept += one.size
        if self.kept > MOST_KEPT:
            raise ToolError(f"the entities of blocks have more than {MOST_KEPT} bytes of text, which is more than is kept", Exit.TOO_MUCH_TEXT)
        kept.setdefault(one.target("owner"), []).append(one)

    def take_part(self, one: Object) -> None:
        """Keeps a layer, a block, the two spaces, an attribute."""
        if one.kind == "LAYER":
            self.layers[one.handle] = self.as_asked(layer_of(one, self.page, self.version))
        elif one.kind == "BLOCK HEADER":
            self.blocks[one.handle] = block_of(one, self.page)
        elif one.kind == "BLOCK CONTROL":
            self.spaces = {one.target("model"): MODEL, one.target("paper"): PAPER}
        else:
            self.keep(self.attributes, one)

    def take_place(self, one: Object, middles: Dict[int, Middle]) -> None:
        """Takes the place of an entity of a space; that of a polyline in space is known later."""
        mode = mode_of(one) or 0
        if mode in middles and one.kind == "POLYLINE 3D":
            self.polylines[one.handle] = mode
        elif mode in middles:
            middles[mode].take(place_of(one))

    def settle(self) -> None:
        """Gives each block its entities, once all are known."""
        for handle, block in self.blocks.items():
            block.members = self.owned.get(handle, [])
            block.near = next((place for place in map(self.place, block.members) if place), block.base)
        self.owned = {}

    def place(self, one: Object) -> Optional[Point]:
        """Where an object is, seen from above: a polyline in space where its first vertex is."""
        return self.first_place(one.handle) if one.kind == "POLYLINE 3D" else place_of(one)

    def first_place(self, polyline_handle: int) -> Optional[Point]:
        """Where the first vertex of a polyline in space is."""
        return next((within(vertex.place) for vertex in self.vertices.get(polyline_handle, {}).values() if vertex.place), None)

    def way(self, one: Object) -> List[Tuple[float, ...]]:
        """The places that a polyline in space goes through: along the chain of its vertices, or by their handles where that doesn't hold."""
        owned = self.vertices.get(one.handle, {})
        along = chained(owned, one.target("first"), one.target("last")) or list(owned.values())
        if any(not vertex.place for vertex in along):
            raise Undrawable("a vertex isn't read by all its fields")
        unseen = OF_FRAME if one.integer("flags_a") & CURVED else 0
        return [vertex.place for vertex in along if not vertex.flags & unseen]


# The modes of entities that stand in one of the two spaces.
PAPER, MODEL = 1, 2


def block_of(one: Object, page: str) -> Block:
    """A block as it is read."""
    name, base = one.value("entry.name"), one.value("base")
    x, y = base.doubles()[:2] if isinstance(base, Words) and len(base) > 1 else (0.0, 0.0)
    near = (x, y) if abs(x) <= FARTHEST and abs(y) <= FARTHEST else (0.0, 0.0)
    return Block(decoded(name, page) if isinstance(name, Text) else "", near, bool(one.integer("is_xref")))


@dataclass(frozen=True)
class View:
    """What is looked at: entities of a mode, or of a block."""

    mode: int
    block: int

    def has(self, one: Object) -> bool:
        """Whether an object belongs to it."""
        mode = mode_of(one)
        return mode == self.mode if mode else mode == 0 and one.target("owner") == self.block


def view_of(stock: Stock, space: str, name: Optional[str]) -> View:
    """What the words of the command line look at."""
    if name is None:
        mode = PAPER if space == "paper" else MODEL
        return View(mode, next((handle for handle, of in stock.spaces.items() if of == mode), -1))
    for handle, block in stock.blocks.items():
        if block.name.lower() == name.lower():
            return View(stock.spaces.get(handle, -1), handle)
    raise ToolError(f"no block has the name {one_line(name)}", Exit.USAGE)


def stock_of(drawing: Drawing, given: Any, is_placed: Callable[[Dict[int, Middle], Head], bool]) -> Tuple[Stock, View, Point]:
    """Goes over a drawing once: what is known of it, what is looked at by the words of the command line, and the middle of that."""
    middles = {PAPER: Middle(), MODEL: Middle()}
    with drawing.show(Lists.NUMBERS, partial(is_placed, middles)) as (prefix, found):
        stock = Stock(prefix.page, prefix.version, class_names(prefix), prefix.count, given.layers)
        for one in found:
            stock.take(one)
            stock.take_place(one, middles)
    for handle, mode in stock.polylines.items():
        middles[mode].take(stock.first_place(handle))
    stock.settle()
    view = view_of(stock, given.space, given.block)
    middle = middles[view.mode].point() if view.mode in middles else None
    return stock, view, middle or (stock.blocks[view.block].near if view.block in stock.blocks else (0.0, 0.0))
