"""In what two drawings differ."""

from __future__ import annotations

import json
import re
from array import array
from dataclasses import dataclass
from functools import cached_property, lru_cache
from itertools import accumulate, chain
from typing import Any, Callable, Dict, Iterable, Iterator, List, Mapping, Optional, Sequence, Tuple

from .drawings import Drawing
from .encodings import decoded
from .escapes import one_line
from .json_values import texts
from .pieces import Course, pass_same
from .show import Class, Object, Prefix
from .values import BadText, Bytes, Reference, Text, Value, Words, number, read_field, read_value

LONG = 40

# How many numbers a class may have; those of sections are fewer.
NUMBERS = 1 << 16

Fields = Dict[str, Value]


class Side:
    """One of the two drawings: its code page, which is known once it is shown, and its names by handle."""

    def __init__(self, drawing: Drawing) -> None:
        self.drawing, self.page = drawing, ""

    @cached_property
    def names(self) -> Mapping[int, Text]:
        """The names, for which the drawing is shown once more; where nothing differs none is asked for."""
        return self.drawing.names()

    def text(self, value: bytes) -> str:
        """A text, decoded."""
        return decoded(value, self.page)

    def name(self, handle: int) -> Optional[str]:
        """The name of a layer, style, linetype, application or block."""
        found = self.names.get(handle)
        return None if found is None else self.text(found)

    def said(self, value: Optional[Value]) -> str:
        """A value in words."""
        if value is None:
            return "absent"
        if isinstance(value, int):
            return str(value)
        if isinstance(value, Reference):
            name = self.name(value.handle)
            return str(value) if name is None else f"{value} {quoted(name)}"
        if isinstance(value, Words):
            return " ".join(str(number(word)) for word in value)
        if isinstance(value, Bytes):
            return value.hex() or "-"
        return quoted(self.text(value))

    def json(self, value: Optional[Value]) -> Any:
        """A value in JSON, as dwg-json has it."""
        if isinstance(value, Reference):
            said = {"code": value.code, "handle": f"{value.handle:X}"}
            name = self.name(value.handle)
            return said if name is None else {**said, **texts("name", name)}
        if isinstance(value, Words):
            said_words = [number(word) for word in value]
            return said_words[0] if len(said_words) == 1 else said_words
        if isinstance(value, Bytes):
            return value.hex()
        return self.text(value) if isinstance(value, Text) else value


def quoted(text: str) -> str:
    """A text between quotation marks, on one line."""
    return '"' + one_line(text).replace('"', '\\"') + '"'


@dataclass(frozen=True)
class Change:
    """A field that differs: its old and its new value, None where it is absent."""

    path: str
    old: Optional[Value]
    new: Optional[Value]


@dataclass
class Difference:
    """What differs: an object, a class, a section or the header, of one of the two or of both. The changes are told once."""

    change: str
    what: str
    head: Dict[str, Any]
    changes: Iterable[Change] = ()


@lru_cache(maxsize=1 << 13)
def plain_path(path: str) -> str:
    """A path without the brackets of lists."""
    return re.sub(r"\[\d+\]", "", path) if "[" in path else path


class Ignored:
    """The fields that aren't compared."""

    def __init__(self, names: Sequence[str]) -> None:
        self.names = [plain_path(name) for name in names]

    def __contains__(self, path: str) -> bool:
        plain = plain_path(path)
        return any(plain == name or plain.startswith(name + ".") for name in self.names)


class Elements:
    """The elements of a list of an object, by where their lines stand in its text: the values of all would take ten times as much."""

    def __init__(self, text: bytes) -> None:
        self.text, self.places, self.end = text, array("Q"), 0

    def __len__(self) -> int:
        return len(self.places)

    def take(self, index: int, place: int, size: int) -> None:
        """Takes a line, which belongs to the last element or begins the next."""
        if self.end not in (0, place):
            raise BadText("a list that stands in two places")
        if index == len(self.places):
            self.places.append(place)
        self.end = place + size

    def lines(self, index: int) -> List[bytes]:
        """What stands after the brackets of an element."""
        end = self.places[index + 1] if index + 1 < len(self.places) else self.end
        return [line.partition(b"]")[2] for line in self.text[self.places[index] : end].splitlines()]

    def values(self, name: str, index: int) -> Fields:
        """The values of an element by what stands after its brackets; none where there is no such element."""
        if index >= len(self.places):
            return {}
        parts = (line.partition(b" ") for line in self.lines(index))
        return {rest.decode("ascii"): read_value(name.encode("ascii") + rest, printed) for rest, _, printed in parts}


def split(one: Object) -> Tuple[Fields, Dict[str, Elements]]:
    """The fields of an object that stand in no list, with those of its head, and its lists by their names."""
    single: Fields = {"kind": Text(one.kind.encode("ascii")), "form": Text(one.form.encode("ascii")), "type": one.number}
    lists: Dict[str, Elements] = {}
    place = 1
    for line in one.lines:
        name, bracket, rest = line[: line.index(b" ")].partition(b"[")
        if not bracket:
            path, value = read_field(line)
            if path in single:
                raise BadText(f"a field that stands twice: {path}")
            single[path] = value
        else:
            listed = name.decode("ascii")
            if listed not in lists:
                lists[listed] = Elements(one.text)
            lists[listed].take(int(rest.partition(b"]")[0]), place, len(line) + 1)
        place += len(line) + 1
    return single, lists


def object_changes(old: Object, new: Object) -> Iterator[Change]:
    """The fields of an object that differ, in the order of the old ones and then of the new, those in lists last."""
    old_single, old_lists = split(old)
    new_single, new_lists = split(new)
    yield from changes_of(old_single, new_single)
    for name in {**old_lists, **new_lists}:
        yield from list_changes(name, old_lists.get(name) or Elements(b""), new_lists.get(name) or Elements(b""))


def changes_of(old: Fields, new: Fields) -> Iterator[Change]:
    """The fields that differ, none of which stands in a list."""
    for path in {**old, **new}:
        if old.get(path) != new.get(path):
            yield Change(path, old.get(path), new.get(path))


def list_changes(name: str, old: Elements, new: Elements) -> Iterator[Change]:
    """The elements of a list that differ. Of lists of one length they are matched by number; else equal begins and ends are left out before."""
    first, least = 0, min(len(old), len(new))
    after = 0
    if len(old) != len(new):
        while first < least and old.lines(first) == new.lines(first):
            first += 1
        while after < least - first and old.lines(len(old) - 1 - after) == new.lines(len(new) - 1 - after):
            after += 1
    for index in range(first, max(len(old), len(new)) - after):
        is_old, is_new = index < len(old) - after, index < len(new) - after
        if is_old and is_new and old.lines(index) == new.lines(index):
            continue
        one = old.values(name, index) if is_old else {}
        other = new.values(name, index) if is_new else {}
        for rest in {**one, **other}:
            if one.get(rest) != other.get(rest):
                yield Change(f"{name}[{index}]{rest}", one.get(rest), other.get(rest))


@dataclass(frozen=True)
class Numbered:
    """Classes or sections in their order, of which a number may stand twice: the numbers, and how the fields of one are had, by its place."""

    numbers: Sequence[int]
    fields: Callable[[int], Fields]


class OfOld(Exception):
    """A fault of the old drawing's text, which isn't one of the new drawing's, though that is shown too."""

    def __init__(self, fault: Exception) -> None:
        super().__init__(fault)
        self.fault = fault


class Comparison:
    """Compares two drawings, and counts how many objects were added, removed and changed."""

    def __init__(self, old: Drawing, new: Drawing, ignored: Ignored) -> None:
        self.old, self.new, self.ignored = Side(old), Side(new), ignored
        self.counts = {"added": 0, "removed": 0, "changed": 0}

    def differences(self) -> Iterator[Difference]:
        """All that differs, while both drawings are shown."""
        with self.old.drawing.text() as (prefix, text):
            self.old.page = prefix.page
            try:
                yield from self.beside(prefix, Course(text, prefix.count, OfOld))
            except OfOld as why:
                raise why.fault from None

    def beside(self, old_prefix: Prefix, old: Course) -> Iterator[Difference]:
        """All that differs, while the new drawing is shown beside the old one."""
        with self.new.drawing.text() as (prefix, text):
            self.new.page = prefix.page
            yield from self.prefixes(old_prefix, prefix)
            yield from self.objects(old, Course(text, prefix.count))

    def changed(self, what: str, head: Dict[str, Any], changes: Iterator[Change]) -> Iterator[Difference]:
        """What is changed, where any field differs that isn't ignored."""
        counted = (change for change in changes if change.path not in self.ignored)
        first = next(counted, None)
        if first is not None:
            yield Difference("changed", what, head, chain([first], counted))

    def prefixes(self, old: Prefix, new: Prefix) -> Iterator[Difference]:
        """What differs before the objects."""
        yield from self.changed("header", {}, changes_of(header_fields(old), header_fields(new)))
        if "classes" not in self.ignored and old.classes != new.classes:
            yield from self.numbered("class", "classes", classes_of(old), classes_of(new))
        if "sections" not in self.ignored and old.sections != new.sections:
            yield from self.numbered("section", "sections", sections_of(old), sections_of(new))

    def numbered(self, what: str, all_of_them: str, old: Numbered, new: Numbered) -> Iterator[Difference]:
        """What differs in classes or sections, and in the order of those that both have."""
        for place, other in partners(old.numbers, new.numbers):
            head: Dict[str, Any] = {"number": old.numbers[place]}
            if other is None:
                yield Difference("removed", what, head)
            else:
                yield from self.changed(what, head, changes_of(old.fields(place), new.fields(other)))
        for place, other in partners(new.numbers, old.numbers):
            if other is None:
                yield Difference("added", what, {"number": new.numbers[place]})
        yield from self.changed(all_of_them, {}, order_changes(old.numbers, new.numbers))

    def objects(self, old: Course, new: Course) -> Iterator[Difference]:
        """What differs in the objects, which both drawings have in ascending order of handle."""
        one: Optional[Object] = None
        other: Optional[Object] = None
        while True:
            if one is None and other is None and old.is_between and new.is_between:
                pass_same(old, new)
            one, other = one or old.take(), other or new.take()
            if one is not None and (other is None or one.handle < other.handle):
                yield self.counted(Difference("removed", "object", head_of(one, self.old)))
                one = None
            elif other is not None and (one is None or other.handle < one.handle):
                yield self.counted(Difference("added", "object", head_of(other, self.new)))
                other = None
            elif one is not None and other is not None:
                if one != other:
                    yield from map(self.counted, self.changed("object", head_of(other, self.new), object_changes(one, other)))
                one = other = None
            else:
                return

    def counted(self, difference: Difference) -> Difference:
        """The difference itself, counted."""
        self.counts[difference.change] += 1
        return difference


def header_fields(prefix: Prefix) -> Fields:
    """The header."""
    return {"version": Text(prefix.version.encode("ascii")), "codepage": prefix.codepage, "lead": prefix.lead, "mark": prefix.mark, "variables": prefix.variables}


def classes_of(prefix: Prefix) -> Numbered:
    """The classes in their order."""
    return Numbered(array("H", prefix.classes.numbers()), lambda place: class_fields(prefix.classes[place]))


def sections_of(prefix: Prefix) -> Numbered:
    """The unknown sections in their order."""
    return Numbered(array("H", (number for number, _ in prefix.sections)), lambda place: {"bytes": prefix.sections[place][1]})


def partners(numbers: Sequence[int], others: Sequence[int]) -> Iterator[Tuple[int, Optional[int]]]:
    """Each place with that of its partner in the other list, by number: the first of a number belongs to the first, the second to the second."""
    # (counted and put in order in arrays: a list for each number would take ten times as much)
    counts = array("I", bytes(4 * (NUMBERS + 1)))
    for other in others:
        counts[other + 1] += 1
    begins = array("I", accumulate(counts))
    ends, places = array("I", begins), array("I", bytes(4 * len(others)))
    for place, other in enumerate(others):
        places[ends[other]] = place
        ends[other] += 1
    for place, one in enumerate(numbers):
        if begins[one] < ends[one]:
            yield place, places[begins[one]]
            begins[one] += 1
        else:
            yield place, None


def shared(numbers: Sequence[int], others: Sequence[int]) -> Iterator[int]:
    """The numbers of what has a partner in the other list, in their order."""
    return (numbers[place] for place, partner in partners(numbers, others) if partner is not None)


def order_changes(old: Sequence[int], new: Sequence[int]) -> Iterator[Change]:
    """Where another number stands, among those that both lists have. Those of one number are the first, the second and so on in both."""
    pairs = zip(shared(old, new), shared(new, old))
    return (Change(f"order[{place}]", one, other) for place, (one, other) in enumerate(pairs) if one != other)


def class_fields(one: Class) -> Fields:
    """The fields of a class."""
    return {"version": one.version, "proxy": one.proxy, "item": one.item, "app": one.app, "cpp": one.cpp, "dxf": one.dxf}


def head_of(one: Object, side: Side) -> Dict[str, Any]:
    """What tells an object: handle, kind, and the name of its layer."""
    head: Dict[str, Any] = {"handle": f"{one.handle:X}", "kind": one.kind}
    layer = one.reference("layer")
    name = side.name(layer.handle) if layer else None
    return head if name is None else {**head, "layer": name}


def first_unlike(old: bytes, new: bytes) -> int:
    """The place of the first byte that differs."""
    return next((place for place, (one, other) in enumerate(zip(old, new)) if one != other), min(len(old), len(new)))


def change_line(change: Change, old: Side, new: Side) -> str:
    """A changed field in words."""
    one, other = change.old, change.new
    if isinstance(one, Bytes) and isinstance(other, Bytes) and max(len(one), len(other)) > LONG:
        return f"  {change.path}: {len(one)} bytes -> {len(other)} bytes, unlike from byte {first_unlike(one, other)}"
    return f"  {change.path}: {short(one, old)} -> {short(other, new)}"


def short(value: Optional[Value], side: Side) -> str:
    """A value in words, but of long bytes how many they are."""
    return f"{len(value)} bytes" if isinstance(value, Bytes) and len(value) > LONG else side.said(value)


def said_lines(difference: Difference, old: Side, new: Side) -> Iterator[str]:
    """A difference in words."""
    head = difference.head
    words = [difference.change, difference.what, *(str(head[name]) for name in ("number", "handle", "kind") if name in head)]
    if "layer" in head:
        words += ["on", quoted(head["layer"])]
    yield " ".join(words)
    for change in difference.changes:
        yield change_line(change, old, new)


def json_pieces(difference: Difference, old: Side, new: Side) -> Iterator[str]:
    """A difference in JSON, in pieces of a line."""
    said = json.dumps({"change": difference.change, "what": difference.what, **difference.head})
    if difference.change != "changed":
        yield said
        return
    yield f'{said[:-1]}, "fields": '
    prefix = "["
    for one in difference.changes:
        yield prefix + json.dumps({"field": one.path, "old": old.json(one.old), "new": new.json(one.new)})
        prefix = ", "
    yield "]}"
