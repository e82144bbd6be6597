"""The findings of `audit` as values, and the numbers by which docs/FORMAT.md names them: of rules,
of fields, and of the lines of its table of refusals."""

from __future__ import annotations

import re
from dataclasses import dataclass
from typing import Any, Dict, Iterable, Iterator

from ..program import ProgramFailed

RULES = ("control", "resolve", "claim", "chain", "path")

# By "Fields and needs": two fields on a row have two numbers.
FIELDS = (
    "application", "owner", "reactor", "xdict", "previous", "next", "layer", "linetype",
    "plotstyle", "style", "block", "first", "last", "seqend", "xref", "endblk", "insert",
    "layout", "entry", "model", "paper", "extra", "item", "target", "grouped",
)  # fmt: skip

# The reasons of each part in the order of the table of refusals; line 4 is the other `short` of the
# header, and those of certificates aren't among them: no drawing is refused by them.
REASONS = (
    ("header", "short version count short check sentinel repeated missing"),
    ("variables", "short begin length check end"),
    ("classes", "short begin length check end spelling number"),
    ("map", "short size check pair null duplicate"),
    ("objects", "place length overlap check head handle"),
    ("sections", "short"),
)
LINES = [(part, reason) for part, reasons in REASONS for reason in reasons.split()]
# The bytes of a header of which line 1 asks.
SHORTEST = 25


def line_of(part: str, reason: str, place: int) -> int:
    """The line of the table of refusals."""
    if (part, reason) == ("header", "short") and place >= SHORTEST:
        return 4
    return LINES.index((part, reason)) + 1


@dataclass(frozen=True)
class Finding:
    """A finding: the object that fails, which rule, by which field at which position of it, and
    where that leads (of a claim how many there are, and the owner)."""

    handle: int
    rule: str
    field: str
    position: int
    target: int

    def told(self, kind: str, is_known: bool) -> Dict[str, Any]:
        """As a report has it."""
        field = None if self.field == "-" else self.field
        return {
            "object": f"{self.handle:X}", "kind": kind,
            "rule": self.rule, "rule_number": RULES.index(self.rule) + 1,
            "field": field, "field_number": field and FIELDS.index(field) + 1,
            "position": self.position, "target": f"{self.target:X}", "known": is_known,
        }  # fmt: skip


_FINDING = re.compile(rb"finding ([0-9A-F]+) (\w+) (-|\w+) (\d+) ([0-9A-F]+)\n")


def findings_in(lines: Iterable[bytes]) -> Iterator[Finding]:
    """The findings that `audit` prints, and then how many there are."""
    count, end = 0, b""
    for line in lines:
        words = _FINDING.fullmatch(line)
        if end or not words and not line.startswith(b"audit "):
            raise ProgramFailed("`audit` prints what is no finding")
        if not words:
            end = line
            continue
        count += 1
        rule, field = words[2].decode(), words[3].decode()
        yield Finding(int(words[1], 16), rule, field, int(words[4]), int(words[5], 16))
    if end != (b"audit no %d\n" % count if count else b"audit yes\n"):
        raise ProgramFailed("`audit` doesn't end as it should")
