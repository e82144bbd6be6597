"""The layers of a drawing: what each is like, and how many entities are on it."""

from __future__ import annotations

from collections import Counter
from dataclasses import dataclass, field
from typing import Any, Dict, Iterator, Mapping, Optional, Tuple, Union

from .colours import BY_BLOCK_WEIGHT, BY_LAYER_WEIGHT, WEIGHTS
from .encodings import decoded
from .names import LONGEST_NAME, type_name
from .show import Object
from .stock import OLDER, layer_of
from .values import Text

LOCKED, PLOTTED = 8, 16


def lineweight(number: int) -> Union[float, str]:
    """A lineweight in millimetres, or in a word."""
    if number < len(WEIGHTS):
        return WEIGHTS[number] / 100
    return {BY_LAYER_WEIGHT: "by-layer", BY_BLOCK_WEIGHT: "by-block"}.get(number, "default")


@dataclass(frozen=True)
class State:
    """What a layer is like. In AC1014 it isn't told whether it is plotted, nor its lineweight."""

    name: str
    colour: int
    linetype: int
    on: bool
    frozen: bool
    locked: bool
    plotted: Optional[bool]
    lineweight: Union[float, str, None]


def state_of(one: Object, page: str, version: str) -> State:
    """What a layer is like as it is read."""
    layer, values, is_older = layer_of(one, page, version), one.integer("values"), version == OLDER
    plotted, weight = (None, None) if is_older else (bool(values & PLOTTED), lineweight(layer.weight))
    return State(layer.name, layer.colour, one.target("linetype"), not layer.off, layer.frozen, bool(values & LOCKED), plotted, weight)


@dataclass
class Layers:
    """The layers by their handles, and how many entities of each kind are on each, also where no layer has the handle that they name."""

    page: str
    version: str
    states: Dict[int, State] = field(default_factory=dict)
    kinds: Dict[int, "Counter[str]"] = field(default_factory=dict)

    def take(self, one: Object) -> None:
        """Takes a layer that is read by all its fields, and passes all else."""
        if one.kind == "LAYER":
            self.states[one.handle] = state_of(one, self.page, self.version)

    def count(self, one: Object, kind: str) -> None:
        """Counts an entity of a kind. One whose name is too long to be told with each layer is told by its number."""
        layer = one.target("layer")
        if len(kind) > LONGEST_NAME:
            kind = type_name(one, {})
        if layer not in self.kinds:
            self.kinds[layer] = Counter()
        self.kinds[layer][kind] += 1

    def told(self, names: Mapping[int, Text]) -> Iterator[Dict[str, Any]]:
        """The layers, and then what entities name as one, in order of handle, by the names of linetypes."""
        for handle in (*self.states, *sorted(self.kinds.keys() - self.states.keys())):
            state, kinds = self.states.get(handle), self.kinds.get(handle, Counter())
            said: Dict[str, Any] = {"handle": f"{handle:X}", "name": None}
            if state:
                linetype = names.get(state.linetype)
                said = {**said, "name": state.name, "colour": state.colour, "linetype": None if linetype is None else decoded(linetype, self.page)}
                said.update(on=state.on, frozen=state.frozen, locked=state.locked, plotted=state.plotted, lineweight=state.lineweight)
            yield {**said, "entities": sum(kinds.values()), "kinds": dict(sorted(kinds.items()))}


# The columns of the table, after the file.
COLUMNS: Tuple[str, ...] = ("handle", "name", "colour", "linetype", "on", "frozen", "locked", "plotted", "lineweight", "entities")
