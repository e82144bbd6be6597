"""Rows of a table, as CSV or as JSON."""

from __future__ import annotations

import csv
import io
import json
from typing import Any, Dict, Iterable, Iterator, Sequence

from .escapes import one_line


def printed(value: Any) -> str:
    """A value in a field of CSV, without any control character or line end."""
    if value is None:
        return ""
    if isinstance(value, bool):
        return "yes" if value else "no"
    return one_line(str(value))


def csv_line(values: Iterable[Any]) -> bytes:
    """A line of CSV."""
    text = io.StringIO()
    csv.writer(text, lineterminator="\n").writerow([printed(value) for value in values])
    return text.getvalue().encode("utf-8", "backslashreplace")


def json_line(said: Dict[str, Any]) -> bytes:
    """A line of JSON, in ASCII."""
    return json.dumps(said).encode("ascii") + b"\n"


def json_pieces(said: Dict[str, Any]) -> Iterator[bytes]:
    """A line of JSON as json_line makes it, in pieces: what is told of a drawing may name each kind on each layer, far longer than what is held."""
    for piece in json.JSONEncoder().iterencode(said):
        yield piece.encode("ascii")
    yield b"\n"


def lines_of(path: str, rows: Iterable[Dict[str, Any]], columns: Sequence[str], as_json: bool) -> Iterator[bytes]:
    """The lines of rows of a file."""
    for row in rows:
        if as_json:
            yield json_line({"file": path, **row})
        else:
            yield csv_line([path, *(row.get(column) for column in columns)])
