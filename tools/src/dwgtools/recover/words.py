"""What dwg-recover says of a recovery, in words and in JSON."""

from __future__ import annotations

import itertools
import json
from collections import Counter
from dataclasses import dataclass
from typing import Any, Callable, Dict, Iterable, Iterator, List, Optional

from ..check.findings import findings_in
from ..files import one_line
from .contents import Contents, ordered
from .notes import LOSSES, Recovery

# How many handles are told in words.
MOST = 10


@dataclass
class Audit:
    """What `audit` says: findings by rule, and the handles that are referred to and not there."""

    rules: Dict[str, int]
    missing: List[int]

    @property
    def findings(self) -> int:
        """How many findings there are."""
        return sum(self.rules.values())


@dataclass
class Report:
    """All that is told of a recovery: from where to where, by which version it was read, of which
    the rest of a header is whose version is damaged, what was lost, and what is there."""

    source: str
    # (None is standard output)
    out: Optional[str]
    version: str
    rest: Optional[str]
    told: Recovery
    contents: Contents
    audit: Audit

    @property
    def kept(self) -> int:
        """How many objects the recovered drawing has."""
        return len(self.contents.handles)


def audited(lines: Iterable[bytes], is_there: Callable[[int], bool]) -> Audit:
    """What `audit` says of a drawing."""
    rules: "Counter[str]" = Counter()
    missing = set()
    for one in findings_in(lines):
        rules[one.rule] += 1
        if one.rule == "resolve" and one.target and not is_there(one.target):
            missing.add(one.target)
    return Audit(ordered(rules), sorted(missing))


def number(count: int, one: str, more: str = "") -> str:
    """A count with its word."""
    return f"{count} {one if count == 1 else more or one + 's'}"


def handles(some: Iterable[int], count: int) -> str:
    """The first few of so many handles."""
    more = f" and {count - MOST} more" if count > MOST else ""
    return ", ".join(f"{handle:X}" for handle in itertools.islice(some, MOST)) + more


def lines_of(report: Report) -> Iterator[str]:
    """The report in words."""
    told = report.told
    yield _first_line(report)
    if report.rest:
        yield (
            f"The rest of its header is that of {report.rest}: put {report.rest} in place of its"
            " first six bytes, and recover it again."
        )
    yield f"Kept {number(report.kept, 'object')}, by kind:"
    yield from _table(ordered(report.contents.kinds))
    layers = report.contents.layers
    if layers:
        yield "Kept entities by layer:"
        names = {name: name if name.startswith("(layer ") else f'"{name}"' for name in layers}
        yield from _table({names[name]: count for name, count in layers.items()})
    if told.refusal is not None:
        yield "Lost:"
        yield from _losses(report)
        yield f"Of those kept, found without an entry of the map: {number(told.found, 'object')}."
    yield from _audit(report)


def _table(counts: Dict[str, int]) -> Iterator[str]:
    """Lines of counts."""
    width = max((len(str(count)) for count in counts.values()), default=0)
    return (f"  {count:>{width}}  {one_line(name)}" for name, count in counts.items())


def _first_line(report: Report) -> str:
    source = one_line(report.source)
    refusal = report.told.refusal
    if report.out is None:
        out, kept, notes = "What is written", "on standard output", ""
    else:
        out = one_line(report.out)
        kept, notes = f"in {out}", f", the notes are in {out}.notes"
    if refusal is None:
        return f"{source} is a drawing: nothing of it was lost. {out} is its canonical file."
    return f"{source} is damaged: {refusal}. What is whole of it is {kept}{notes}."


def _losses(report: Report) -> Iterator[str]:
    """Lines of what the notes say is lost."""
    told, count = report.told, report.told.lost["object"]
    for loss in told.losses(*(sort for sort in LOSSES if sort != "object")):
        yield "  " + {
            "file header": "the file header: lead, mark and code page are zeros,"
            " there are no unknown sections, and the map couldn't be read",
            "section": f"the unknown section {loss.number}, at {loss.place}",
            "map page": f"page {loss.number} of the map, at {loss.place}",
            "map end": f"the map from {loss.place} on",
        }.get(loss.what, f"the {loss.what}: no such section is whole")
    lost = (loss.handle or 0 for loss in told.losses("object"))
    named = f": {handles(lost, count)}" if count else ""
    entries = number(told.entries, "entry", "entries")
    if told.is_map_whole:
        yield f"  {count} of {entries} of the map{named}"
        return
    if told.entries:
        yield f"  {count} of {entries} of the map that could be read{named}"
    what = "other objects that" if told.entries else "objects that only"
    yield f"  {what} the map named: as it isn't whole, it isn't known how many there were"


def _audit(report: Report) -> Iterator[str]:
    """Lines of what `audit` says of the recovered drawing."""
    audit = report.audit
    if not audit.findings:
        yield "The recovered drawing passes the audit."
        return
    rules = ", ".join(f"{count} {rule}" for rule, count in audit.rules.items())
    findings = number(audit.findings, "finding")
    yield f"The recovered drawing doesn't pass the audit: {findings} ({rules})."
    missing = len(audit.missing)
    if missing:
        named = handles(audit.missing, missing)
        yield f"  {number(missing, 'object')} referred to and not there: {named}"


def as_json(report: Report) -> Iterator[str]:
    """The report as an object of JSON, in pieces, since there may be millions of losses."""
    told, contents, audit = report.told, report.contents, report.audit
    missing = [f"{handle:X}" for handle in audit.missing]
    counts = {"kinds": ordered(contents.kinds), "layers": contents.layers}
    findings = {"sound": not audit.findings, "findings": audit.findings}
    yield _open(
        schema=1, input=report.source, version=report.version, rest_of_header=report.rest,
        output="-" if report.out is None else report.out,
        notes=None if report.out is None else report.out + ".notes",
        whole=told.refusal is None, refusal=vars(told.refusal) if told.refusal else None,
        kept={"objects": report.kept, "raw": contents.raw, **counts},
        audit={**findings, "rules": audit.rules, "missing": missing},
    )  # fmt: skip
    yield ', "lost": ' + _open(
        header=bool(told.lost["file header"]), classes=bool(told.lost["classes"]),
        variables=bool(told.lost["header variables"]),
        sections=[{"number": one.number, "place": one.place} for one in told.losses("section")],
        map_end=next((loss.place for loss in told.losses("map end")), None),
        map_whole=told.is_map_whole, entries=told.entries if told.refusal else report.kept,
    )  # fmt: skip
    pages = ({"index": one.number, "place": one.place} for one in told.losses("map page"))
    yield from _array("pages", pages)
    yield from _array("objects", map(_placed, told.losses("object")))
    yield "}"
    yield from _array("found", map(_placed, told.all_found()))
    yield "}\n"


def _open(**members: Any) -> str:
    """An object of JSON without its last brace."""
    return json.dumps(members)[:-1]


def _array(name: str, elements: Iterable[Any]) -> Iterator[str]:
    """A further member of an object, which is an array."""
    yield f', "{name}": ['
    for place, one in enumerate(elements):
        yield (", " if place else "") + json.dumps(one)
    yield "]"


def _placed(one: Any) -> Dict[str, Any]:
    """An object that the notes tell of."""
    return {"handle": f"{one.handle:X}", "place": one.place}
