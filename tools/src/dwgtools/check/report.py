"""dwg-check report: all findings of drawings, the lines of refusals, and risks."""

from __future__ import annotations

import argparse
import functools
import json
from typing import Any, Dict, Iterable, NamedTuple

from .. import __version__, cli, files, pool
from ..files import Content, Named, utf8_name
from ..program import Program
from . import table, xml
from .findings import findings_in, line_of
from .risks import Listed, Survey
from .table import Row
from .verdict import Checker

DESCRIPTION = """\
Tells of each file its verdict and SHA-256; all findings of `dwg audit`, with the numbers of rule
and field in docs/FORMAT.md; the line of the table of refusals there by which it is damaged; and
risks for an archive: external references, fonts, images, OLE frames, objects of applications. The
first 1,000 of a list are told, and how many there are.

A finding is known where AutoCAD leaves such: owner, reactor, path or claim of an XRECORD whose
owner isn't in the map. The status is that of dwg-check."""

# The verdicts of files that are read as drawings, and of those of which nothing is known.
READ = ("sound", "unsound", "trailing bytes")
UNKNOWN = ("unreadable", "failed")

# The findings of an xrecord whose owner isn't in the map, by rule and field.
KNOWN = {("resolve", "owner"), ("resolve", "reactor"), ("path", "-"), ("claim", "-")}


def add_words(parser: argparse.ArgumentParser) -> None:
    """The words of dwg-check report."""
    parser.add_argument("files", metavar="FILE|FOLDER", nargs="+", help="- is standard input")
    form = parser.add_mutually_exclusive_group()
    form.add_argument("--json", action="store_true", help="a JSON object a line, as without words")
    form.add_argument("--xml", action="store_true", help="one XML document")
    parser.add_argument(
        "--accept-known", action="store_true", help="with known findings alone it is sound"
    )
    parser.add_argument("--quiet", action="store_true", help="no counts")
    parser.set_defaults(json=True, only=None, print0=False)
    files.add_words(parser)
    cli.add_jobs(parser)


def run(options: argparse.Namespace) -> int:
    """Reports on the files that the words name."""
    program = Program(options.program)
    walk = files.walk_of(options)
    # (a stream is read by this process, which has it)
    jobs = 1 if any(map(files.is_stream, options.files)) else options.jobs
    work = functools.partial(reported, program, options.accept_known)
    found = pool.in_order(work, files.named(options.files, walk), jobs, lost)
    shown = (Document if options.xml else Lines)(options, program)
    return shown.add_all(found).ended(files.nothing_found(walk))


class Report(NamedTuple):
    """What is told of a file."""

    verdict: str
    told: Dict[str, Any]


class Lines(table.Table):
    """Prints reports, an object of JSON a line."""

    def __init__(self, options: argparse.Namespace, program: Program) -> None:
        super().__init__(options)
        self.maker = {"tool": f"dwg-check {__version__}", "program": program.digest()}

    def _line(self, row: Report) -> bytes:
        told: Dict[str, Any] = {"schema": table.SCHEMA, **row.told, **self.maker}
        return json.dumps(told).encode("ascii") + b"\n"


class Document(Lines):
    """Prints reports as a document, which is well-formed and has no `end` where it is cut off."""

    def add_all(self, rows: Iterable[Report]) -> table.Table:
        top: Dict[str, Any] = {"schema": table.SCHEMA, **self.maker}
        cli.printed([xml.BEGIN, xml.encoded(xml.opened("report", top))])
        try:
            super().add_all(rows)
            count = sum(self.counts.values())
            cli.printed([xml.encoded("".join(xml.element("end", {"files": count})))])
        finally:
            cli.printed([b"</report>\n"])
        return self

    def _line(self, row: Report) -> bytes:
        return xml.encoded("".join(xml.element("file", row.told)))


def lost(named: Named) -> Report:
    """The report of a file by which a process ended."""
    return told_of(table.lost(named), {})


def reported(program: Program, is_accepting: bool, named: Named) -> Report:
    """The report of a file."""
    reader = Reader(program)
    row = reader.row_of(named)
    findings: Any = reader.more.get("findings")
    if is_accepting and row.verdict == "unsound" and findings["known"] == findings["count"]:
        row.verdict, row.detail = "sound", f"{findings['known']} known findings"
    return told_of(row, {} if row.verdict in UNKNOWN else reader.more)


def told_of(row: Row, more: Dict[str, Any]) -> Report:
    """A report by the line of a file and by what is read of it besides."""
    refusal = row.refusal and {
        "line": line_of(row.refusal.part, row.refusal.reason, row.refusal.place),
        **vars(row.refusal),
    }
    told = {
        "path": utf8_name(row.path), "verdict": row.verdict, "detail": row.detail,
        "version": row.version, "bytes": row.bytes, "trailing": row.trailing,
        "sha256": more.get("sha256"), "refusal": refusal, "findings": more.get("findings"),
        "objects": more.get("objects"), "risks": more.get("risks"),
    }  # fmt: skip
    return Report(row.verdict, told)


class Reader(Checker):
    """Checks a file, and reads more of it while it is open."""

    def __init__(self, program: Program) -> None:
        super().__init__(program)
        self.more: Dict[str, Any] = {}

    def found(self, content: Content, row: Row) -> None:
        """Finds the verdict of an open file, and of a drawing its findings and risks."""
        super().found(content, row)
        if row.bytes is not None:
            self.more["sha256"] = content.digest()
        if row.verdict not in READ:
            return
        survey = Survey()
        with self.program.lines(["show"], content.data) as lines:
            survey.read(lines)
            lines.refuse_unread()
        self.more.update(objects=survey.forms, risks=survey.told())
        with self.program.lines(["audit"], content.data) as lines:
            self.more["findings"] = findings_of(lines, survey)


def findings_of(lines: Iterable[bytes], survey: Survey) -> Dict[str, Any]:
    """What `audit` says of a drawing."""
    found, known = Listed(), 0
    for one in findings_in(lines):
        # (AutoCAD leaves such, which are harmless to look at)
        is_known = (one.rule, one.field) in KNOWN and survey.is_orphan(one.handle)
        known += is_known
        found.add(one.told(survey.kind_of(one.handle), is_known))
    return {"known": known, **found.told()}
