"""The table of dwg-check: its lines, what verdicts mean for the status, and how it is printed."""

from __future__ import annotations

import argparse
import collections
import json
import os
from dataclasses import asdict, dataclass
from typing import Any, Dict, Iterable, Optional, Sequence, Tuple

from ..cli import printed, tell
from ..files import Named, one_line, shown, utf8_name
from ..notes import Refusal
from ..statuses import Exit
from .header import Preview

# What a file can be, and the status of a run whose worst file is that.
VERDICTS: Dict[str, int] = {
    "sound": Exit.WELL,
    **dict.fromkeys(("unsound", "trailing bytes", "other version", "too large"), Exit.FOUND),
    **dict.fromkeys(("damaged", "no drawing", "unreadable", "failed"), Exit.DAMAGED),
}

# The form of JSON lines.
SCHEMA = 1


@dataclass
class Row:
    """A line of the table. One that is `lasting` is kept though its verdict is `failed`: the
    program would fail on this content again."""

    path: str
    verdict: str = ""
    detail: str = ""
    findings: Optional[int] = None
    bytes: Optional[int] = None
    trailing: Optional[int] = None
    version: str = ""
    refusal: Optional[Refusal] = None
    mtime_ns: Optional[int] = None
    sha256: Optional[str] = None
    preview: Optional[Preview] = None
    is_lasting: bool = False


def lost(named: Named) -> Row:
    """The line of a file by which a process ended."""
    return Row(named.path, "failed", "no memory")


COLUMNS = ("path", "verdict", "detail", "findings", "bytes", "trailing", "version")


def as_object(row: Any) -> Dict[str, Any]:
    """A line as an object of JSON."""
    told = {**asdict(row), "path": utf8_name(row.path), "schema": SCHEMA}
    told.pop("is_lasting", None)
    return told


def as_line(row: Any, columns: Sequence[str]) -> str:
    """A line of TSV, which begins with a path."""
    rest = (getattr(row, column) for column in columns[1:])
    told = ["" if value is None else one_line(str(value)) for value in rest]
    return "\t".join([shown(row.path), *told])


def add_words(parser: argparse.ArgumentParser, states: Iterable[str]) -> None:
    """Adds the words by which lines are printed."""
    form = parser.add_mutually_exclusive_group()
    form.add_argument("--json", action="store_true", help="print a JSON object a line")
    form.add_argument(
        "--print0", action="store_true", help="print names alone, each ended by a NUL"
    )
    known = tuple(states)

    def chosen(word: str) -> Tuple[str, ...]:
        verdicts = tuple(word.split(","))
        unknown = [one for one in verdicts if one not in known]
        if unknown:
            raise argparse.ArgumentTypeError(f"{unknown[0]!r} is none of {', '.join(known)}")
        return verdicts

    parser.add_argument(
        "--only", type=chosen, metavar="VERDICT[,VERDICT..]",
        help="print files of these verdicts alone; counts and status are those of all",
    )  # fmt: skip
    parser.add_argument("--quiet", action="store_true", help="no counts")


class Table:
    """Prints lines as they come, of all verdicts or of some, and counts all. The second column has
    what is counted."""

    def __init__(
        self, options: argparse.Namespace, columns: Sequence[str] = COLUMNS, tool: str = "dwg-check"
    ) -> None:
        self._options, self._columns, self._tool = options, columns, tool
        self.counts: Dict[str, int] = collections.Counter()
        if not options.json and not options.print0:
            printed([b"\t".join(column.encode("ascii") for column in columns) + b"\n"])

    def add(self, row: Any) -> None:
        """Prints a line."""
        verdict = getattr(row, self._columns[1])
        self.counts[verdict] += 1
        if self._options.only is None or verdict in self._options.only:
            printed([self._line(row)])

    def _line(self, row: Any) -> bytes:
        if self._options.print0:
            return os.fsencode(row.path) + b"\0"
        said = json.dumps(as_object(row)) if self._options.json else as_line(row, self._columns)
        return said.encode("utf-8", "backslashreplace") + b"\n"

    def add_all(self, rows: Iterable[Any]) -> "Table":
        """Prints lines as they come."""
        for row in rows:
            self.add(row)
        return self

    def ended(self, nothing: str, more: str = "") -> int:
        """Tells how many files are what, or that nothing is found; the status of the worst."""
        by_count = sorted(self.counts.items(), key=lambda one: -one[1])
        said = ", ".join(f"{count} {verdict}" for verdict, count in by_count)
        count = sum(self.counts.values())
        if not self._options.quiet and count:
            tell(f"{count} file{'' if count == 1 else 's'}: {said}{more}", self._tool)
        if not count:
            tell(nothing, self._tool)
            return Exit.NOTHING_FOUND
        return max(VERDICTS.get(verdict, Exit.WELL) for verdict in self.counts)
