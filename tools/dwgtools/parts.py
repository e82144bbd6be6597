"""The entities of a drawing as parts of a picture."""

from __future__ import annotations

from array import array
from collections import Counter
from dataclasses import replace
from itertools import chain
from typing import Dict, Iterator, List, NamedTuple, Optional, Set, Tuple, Union

from .blocks import INSERT_PEN, LAYER_PEN, Copies, Drawn, Grid, Insert, Item, Nesting, Part, Pen, Run, Used, runs_of
from .colours import BY_BLOCK_WEIGHT, BY_LAYER_WEIGHT, DEFAULT_WEIGHT, colour_of, width_of
from .kinds import DRAWN, INSERTS
from .names import type_name
from .plane import Affine, seen, turned
from .shapes import Context, Fields, Undrawable, checked, checked_map
from .show import Object
from .stock import DEEPEST, MOST_DRAWN, PARTS_OF_BLOCKS, TIMES_DRAWN, Block, Layer, Stock, View


class Setting(NamedTuple):
    """Where an entity is read: whether it is in a block that is inserted, and the pen of what is by block there."""

    inside: bool
    pen: Pen


INSIDE = Setting(True, INSERT_PEN)


class Look(NamedTuple):
    """How an entity is drawn: the pen of its layer, and its own; whether it is on layer 0 of a block, and on one of which nothing is drawn."""

    layer: Pen
    own: Pen
    floating: bool
    off: bool


def grid_of(fields: Fields) -> Grid:
    """The grid of an insert: the columns stand along its first axis and the rows along its second, whatever its scale."""
    turn = seen(fields.point("extrusion")).after(turned(fields.real("rotation")))
    columns, across = repeated(fields, "columns", "column_spacing")
    rows, up = repeated(fields, "rows", "row_spacing")
    return Grid(columns, rows, turn.along(across, 0.0), turn.along(0.0, up))


def repeated(fields: Fields, count: str, spacing: str) -> Tuple[int, float]:
    """How often an insert stands along one of its axes, and how far apart; once where its copies would all stand at one place."""
    apart = fields.real(spacing)
    return (max(1, fields.number(count)) if apart else 1), apart


class Reader:
    """Reads entities as items that can be drawn, each block once, and counts what can't be."""

    def __init__(self, stock: Stock, view: View, ink: str) -> None:
        self.stock, self.view, self.ink = stock, view, ink
        self.nesting = Nesting(view.block, lambda handle: stock.inner(handle, view.mode if handle == view.block else 0))
        self.most = max(MOST_DRAWN, TIMES_DRAWN * stock.objects)
        self.outside = Setting(False, Pen(ink, DEFAULT_WEIGHT))
        self.undrawn: "Counter[str]" = Counter()
        self.loops: Set[str] = set()
        # The items and runs of each block where so many blocks in each other are drawn; and what they are made of again where these are fewer.
        self.items_by_block: Dict[Tuple[int, int], List[Item]] = {}
        self.runs_by_block: Dict[Tuple[int, int, bool], List[Run]] = {}
        self.sums: Dict[Tuple[int, int], Tuple[int, float]] = {}
        self.known: Dict[int, Insert] = {}
        self.attributes: Dict[int, List[Item]] = {}
        self.members: Dict[int, List[Union[Object, Drawn]]] = {}
        self.missed: Set[Tuple[int, str]] = set()
        # The blocks that are being read, one in the other, and how much the inserts of the picture and of each of these draw.
        self.open: List[int] = []
        self.drawn = [0]
        self.parts_of_blocks = 0

    def items(self, one: Object, setting: Setting) -> Iterator[Item]:
        """The items of an entity, one at a time, since a polyline may have very many. It is counted where not all of it can be drawn."""
        try:
            yield from self.read(one, setting)
        except Undrawable as why:
            if not self.is_unasked(one, setting):
                self.miss(one, why)

    def is_unasked(self, one: Object, setting: Setting) -> bool:
        """Whether an entity is on a layer that isn't asked for, and so is all that it draws."""
        layer = self.stock.layer(one.target("layer"))
        return layer.unasked and one.kind not in INSERTS and not (setting.inside and layer.name == "0")

    def miss(self, one: Object, why: Undrawable) -> None:
        """Counts an entity of which not all is drawn, once, however often it is read."""
        name = type_name(one, self.stock.classes)
        said = f"{name} ({why})" if str(why) else name
        if self.is_read_again:
            if (one.handle, said) in self.missed:
                return
            self.missed.add((one.handle, said))
        self.undrawn[said] += 1

    @property
    def is_read_again(self) -> bool:
        """Whether blocks may be drawn to more than one depth."""
        return self.nesting.deepest > DEEPEST

    def read(self, one: Object, setting: Setting) -> Iterator[Item]:
        """The items of an entity; Undrawable where it can't be drawn."""
        if one.kind not in INSERTS and one.kind not in DRAWN:
            raise Undrawable("")
        if one.form != "typed":
            raise Undrawable("not read by all its fields")
        if setting.inside and one.handle in self.known:
            yield from self.insert(one, None, setting, replace(self.known[one.handle]))
            return
        prefix, figures = DRAWN.get(one.kind) or (INSERTS[one.kind], None)
        fields = Fields(one, prefix)
        look = self.look(fields, setting)
        if look is None:
            return
        if figures is None:
            yield from self.insert(one, fields, setting, Insert(fields.target("block"), *look))
        elif not look.off:
            if one.kind == "POLYLINE 3D":
                fields.lists["vertices"] = array("d", chain.from_iterable(self.stock.way(one)))
            for figure in figures(fields, Context(self.stock.page, setting.inside)):
                self.drawn[-1] += int(setting.inside)
                yield Drawn(look.own, figure, look.floating)

    def look(self, fields: Fields, setting: Setting) -> Optional[Look]:
        """How an entity is drawn by its common part; None where neither it nor what it inserts is seen."""
        layer = self.stock.layer(fields.target("layer"))
        # What is on layer 0 of a block is on the layer of the insert.
        floating = setting.inside and layer.name == "0"
        if fields.number("invisible") & 1 or (layer.frozen and not floating):
            return None
        layer_pen = LAYER_PEN if floating else self.layer_pen(layer)
        return Look(layer_pen, self.pen(fields, layer_pen, setting.pen), floating, (layer.off or layer.unasked) and not floating)

    def pen_outside(self, fields: Fields) -> Optional[Pen]:
        """The pen of an entity that is in no block that is inserted, and inserts none; None where it isn't seen."""
        look = self.look(fields, self.outside)
        return None if look is None or look.off else look.own

    def layer_pen(self, layer: Layer) -> Pen:
        """The pen of a layer."""
        return Pen(colour_of(layer.colour, self.ink), width_of(layer.weight))

    def pen(self, fields: Fields, layer: Pen, block: Pen) -> Pen:
        """The pen of an entity, where those by layer and by block are known."""
        colour, weight = fields.number("colour"), fields.number("lineweight")
        drawn = block.colour if colour == 0 else layer.colour if colour == 256 else colour_of(colour, self.ink)
        width = block.width if weight == BY_BLOCK_WEIGHT else layer.width if weight == BY_LAYER_WEIGHT else width_of(weight)
        return Pen(drawn, width)

    def insert(self, one: Object, fields: Optional[Fields], setting: Setting, insert: Insert) -> Iterator[Item]:
        """The items of an insert: its attributes, which stand where it stands itself, and its block, once or in columns and rows. One that is known
        has no fields: in a block that is drawn to other depths it stands where it stood."""
        grid = insert.grid if fields is None else grid_of(fields)
        yield from self.attached(one, Setting(setting.inside, insert.own), grid)
        block = self.stock.blocks.get(insert.block)
        if block is None or block.external:
            raise Undrawable("an external reference" if block else "of a block that isn't there")
        if (self.open[-1] if self.open else self.view.block, insert.block) in self.nesting.back:
            self.loops.add(block.name)
            return
        insert.level = min(DEEPEST - len(self.open), self.nesting.heights.get(insert.block, 0))
        if not insert.level:
            raise Undrawable(f"more than {DEEPEST} deep")
        runs = self.runs(insert.block, insert.level)
        if not runs:
            # Nothing is drawn however often: what isn't there would be counted as nothing, and put to each of its places.
            return
        cost, reach = self.sums_of(insert, runs)
        self.charge(grid.copies() * cost, grid.copies() * len(runs) if setting.inside else 0)
        if fields is not None:
            insert.seat, insert.grid = seat_of(fields, block), grid
        for x, y in grid.corners():
            checked_map(insert.seat.moved_to((insert.seat.e + x, insert.seat.f + y)))
        checked((insert.seat.stretch() * reach,))
        if setting.inside and self.is_read_again:
            self.known[one.handle] = insert
        yield insert

    def sums_of(self, insert: Insert, runs: List[Run]) -> Tuple[int, float]:
        """How much the runs of an insert draw and how far they reach, which is looked for once: a block may have very many, and very many inserts."""
        key = insert.block, insert.level
        if key not in self.sums:
            self.sums[key] = sum(run.cost for run in runs), max(run.reach for run in runs)
        return self.sums[key]

    def attached(self, one: Object, setting: Setting, grid: Grid) -> Iterator[Item]:
        """The attributes of an insert, which are read once where it may be drawn to more than one depth."""
        items = self.attributes.get(one.handle)
        if items is None:
            items = [item for attached in self.stock.attributes.get(one.handle, []) for item in self.items(attached, setting)]
            if setting.inside and self.is_read_again:
                self.attributes[one.handle] = items
        else:
            self.drawn[-1] += len(items)
        self.charge((grid.copies() - 1) * len(items))
        if items:
            yield Copies([item for item in items if isinstance(item, Drawn)], grid)

    def charge(self, cost: int, parts: int = 0) -> None:
        """Counts what an insert draws, and of how many parts a block becomes by it; Undrawable where that is too much."""
        if self.drawn[-1] + cost > self.most or self.parts_of_blocks + parts > self.most // PARTS_OF_BLOCKS:
            raise Undrawable(f"more than {self.most} copies in all")
        self.drawn[-1] += cost
        self.parts_of_blocks += parts

    def contents(self, handle: int, level: int) -> List[Item]:
        """The items of a block where so many blocks in each other are drawn, itself counted."""
        if (handle, level) not in self.items_by_block:
            # (what it is made of again counts, since it may be inserted to each depth)
            self.charge(0, len(self.members.get(handle, ())))
            self.open.append(handle)
            self.drawn.append(0)
            self.items_by_block[handle, level] = list(self.made_of(handle))
            self.drawn.pop()
            self.open.pop()
        return self.items_by_block[handle, level]

    def made_of(self, handle: int) -> Iterator[Item]:
        """The items of a block's entities, one at a time; where it may have another depth, its inserts are kept for that, and all other items."""
        members = self.members.pop(handle, None) or self.stock.blocks[handle].members
        kept: List[Union[Object, Drawn]] = []
        self.stock.blocks[handle].members = []
        for one in members:
            if isinstance(one, Drawn):
                self.drawn[-1] += 1
            found: List[Item] = [one] if isinstance(one, Drawn) else list(self.items(one, INSIDE))
            if self.is_read_again:
                kept += [one] if isinstance(one, Drawn) or one.kind in INSERTS else [item for item in found if isinstance(item, Drawn)]
            yield from found
        if kept:
            self.members[handle] = kept

    def runs(self, handle: int, level: int, hidden: bool = False) -> List[Run]:
        """The runs of a block; where the layer of its insert is off, without what is on layer 0."""
        if (handle, level, hidden) not in self.runs_by_block:
            parts = (part for item in self.contents(handle, level) for part in self.parts(item, hidden))
            self.runs_by_block[handle, level, hidden] = runs_of(parts, self.stock.blocks[handle].near)
        return self.runs_by_block[handle, level, hidden]

    def parts(self, item: Item, hidden: bool = False) -> Iterator[Part]:
        """The parts of a picture or a block that an item becomes."""
        if isinstance(item, Insert):
            runs = self.used(item, hidden)
            yield from (Used(run, run.takes.given(item.layer, item.own), seat) for seat in item.seats() for run in runs)
        else:
            found = item.all() if isinstance(item, Copies) else [item]
            yield from (one for one in found if not (one.floating and hidden))

    def used(self, insert: Insert, hidden: bool = False) -> List[Run]:
        """The runs that an insert draws."""
        return self.runs(insert.block, insert.level, insert.off or (insert.floating and hidden))


def seat_of(fields: Fields, block: Block) -> Affine:
    """Where an insert puts its block: the base point comes to its place; the map is written from the block's near place."""
    x, y, z = fields.point("place")
    across, up, _ = fields.point("scale")
    plane = seen(fields.point("extrusion"), z)
    linear = plane.linear().after(turned(fields.real("rotation"))).after(Affine(across, 0.0, 0.0, up))
    placed, inner = plane.at(x, y), linear.at(block.near[0] - block.base[0], block.near[1] - block.base[1])
    return linear.moved_to((placed[0] + inner[0], placed[1] + inner[1]))
