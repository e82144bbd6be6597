"""What a drawing says, as values of JSON."""

from __future__ import annotations

from dataclasses import dataclass
from typing import Any, Callable, Dict, Iterator, List, Mapping, Union

from .encodings import decoded, unescaped
from .show import Class, Object, Prefix
from .values import BadText, Bytes, Reference, Text, Value, Words, number, read_field, read_value, steps

Tree = Union[Dict[str, Any], List[Any]]


def put(tree: Dict[str, Any], path: str, value: Any) -> None:
    """Puts a value at its path, and makes the objects and arrays on the way."""
    *way, last = steps(path)
    if not way:
        tree[path] = value
        return
    place: Tree = tree
    for step, after in zip(way, [*way[1:], last]):
        place = member(place, step, [] if isinstance(after, int) else {})
    member(place, last, value)


def member(place: Tree, step: Union[str, int], new: Any) -> Any:
    """What stands at a step, or the new value, put there."""
    if isinstance(place, dict) and isinstance(step, str):
        return place.setdefault(step, new)
    if isinstance(place, list) and isinstance(step, int) and step <= len(place):
        if step == len(place):
            place.append(new)
        return place[step]
    raise BadText("a path that doesn't fit those before it")


# What stands after the name of a text in that of the same text with the letters that are escaped in it.
UNESCAPED = "_unescaped"


def texts(name: str, said: str) -> Dict[str, str]:
    """A text by its name, and beside it the same with the letters that are escaped in it, where any are."""
    letters = unescaped(said)
    return {name: said} if letters == said or name.endswith("]") else {name: said, name + UNESCAPED: letters}


class Listed(List[Any]):
    """A list whose elements are found when they are asked for, each time anew; the encoder of `json` asks for one after the other."""

    def __init__(self, found: Callable[[], Iterator[Any]]) -> None:
        super().__init__()
        self.found = found

    def __bool__(self) -> bool:
        return True

    def __iter__(self) -> Iterator[Any]:
        return self.found()


@dataclass
class Speaker:
    """Says values in JSON: knows the names by handle and the code page, and counts the texts that it couldn't decode whole."""

    names: Mapping[int, Text]
    page: str
    undecoded: int = 0

    def text(self, value: bytes) -> str:
        """A text by the code page."""
        said = decoded(value, self.page)
        if not said.isascii() and any("\udc80" <= letter <= "\udcff" for letter in said):
            self.undecoded += 1
        return said

    def reference(self, value: Reference) -> Dict[str, Any]:
        """A reference, with the name of where it leads."""
        said: Dict[str, Any] = {"code": value.code, "handle": f"{value.handle:X}"}
        name = self.names.get(value.handle)
        if name is not None:
            said.update(texts("name", self.text(name)))
        return said

    def value(self, value: Value) -> Any:
        """Any value of a field."""
        if isinstance(value, int):
            return value
        if isinstance(value, Reference):
            return self.reference(value)
        if isinstance(value, Words):
            return number(value[0]) if len(value) == 1 else [number(word) for word in value]
        return value.hex() if isinstance(value, Bytes) else self.text(value)

    def colour(self, value: Value) -> Any:
        """The colour of what is no layer."""
        return ("by-layer" if value else "by-block") if value in (0, 256) else self.value(value)

    def head(self, one: Object) -> Dict[str, Any]:
        """What an object begins with."""
        return {"object": f"{one.handle:X}", "kind": one.kind, "form": one.form, "type": one.number}

    def put(self, said: Dict[str, Any], one: Object, path: str, value: Value) -> None:
        """Puts a field to what is said of an object."""
        self.put_value(said, path, self.colour(value) if path == "colour" and one.kind != "LAYER" else self.value(value), value)

    def put_value(self, said: Dict[str, Any], path: str, told: Any, value: Value) -> None:
        """Puts what is told of a value at its path, and beside a text what its escapes stand for."""
        for name, each in texts(path, told).items() if isinstance(value, Text) else ((path, told),):
            put(said, name, each)

    def object(self, one: Object) -> Dict[str, Any]:
        """An object of the drawing."""
        said = self.head(one)
        for path, value in one.fields:
            self.put(said, one, path, value)
        return said

    def long_object(self, one: Object) -> Dict[str, Any]:
        """An object of the drawing, of whose lists the elements are told when they are asked for."""
        said, last = self.head(one), b""
        for line in one.lines:
            name, bracket, _ = line[: line.index(b" ")].partition(b"[")
            if not bracket or b"." in name:
                self.put(said, one, *read_field(line))
            elif name != last:
                if name.decode("ascii") in said:
                    raise BadText("a path that doesn't fit those before it")
                said[name.decode("ascii")] = Listed(lambda name=name: self.elements(one, name))  # type: ignore[misc]
            last = name if bracket else b""
        return said

    def elements(self, one: Object, name: bytes) -> Iterator[Any]:
        """The elements of a list, one by one."""
        at = -1
        members: Dict[str, Any] = {}
        for line in one.elements(name):
            index, _, rest = line[len(name) + 1 :].partition(b"]")
            path, _, printed = rest.partition(b" ")
            if int(index) != at or not path:
                if members:
                    yield members
                at, members = at + 1, {}
            if int(index) != at:
                raise BadText("a path that doesn't fit those before it")
            value = read_value(name + path, printed)
            if path:
                self.put_value(members, path[1:].decode("ascii"), self.value(value), value)
            else:
                yield self.value(value)
        if members:
            yield members

    def class_line(self, one: Class) -> Dict[str, Any]:
        """A class."""
        said: Dict[str, Any] = {"class": one.number, "version": one.version, "proxy": one.proxy, "item": one.item}
        for name, text in (("app", one.app), ("cpp", one.cpp), ("dxf", one.dxf)):
            said.update(texts(name, self.text(text)))
        return said

    def prefix(self, prefix: Prefix) -> Iterator[Dict[str, Any]]:
        """The header, the classes and the unknown sections."""
        kept = {"lead": prefix.lead.hex(), "mark": prefix.mark.hex(), "variables": prefix.variables.hex()}
        counts = {"classes": len(prefix.classes), "objects": prefix.count}
        yield {"drawing": prefix.version, "codepage": prefix.codepage, "encoding": self.page, **kept, **counts}
        for one in prefix.classes:
            yield self.class_line(one)
        for section, data in prefix.sections:
            yield {"section": section, "bytes": data.hex()}
