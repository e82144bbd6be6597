"""A drawing that is recovered: written by the program, and read by it before it has its name."""

from __future__ import annotations

import argparse
import contextlib
import os
import sys
import tempfile
from typing import IO, Callable, Iterator, Optional, Tuple

from ..atomic import begun, finish, place, refuse_output
from ..check.header import LIMIT, MOST_HEADER, OURS, version_of_rest
from ..cli import printed
from ..files import Content, one_line, opened, shown, utf8_name
from ..program import Program, ProgramFailed, failed_with
from ..statuses import Exit, Status, ToolError
from .contents import Contents, contents_of
from .notes import Recovery
from .words import Audit, Report, as_json, audited, lines_of

# What the name of notes ends with.
NOTES = ".notes"


def recover_one(options: argparse.Namespace) -> int:
    """Recovers the drawing that the words name, and says what became of it."""
    out = None if options.out == "-" else options.out
    if out == "":
        raise ToolError("OUT has no name", Exit.WORDS)
    if out is None and os.isatty(1):
        raise ToolError("standard output is a terminal; name a file instead of -", Exit.WORDS)
    name = "standard input" if options.source == "-" else utf8_name(options.source)
    with told_of(name, out):
        state = os.fstat(0) if options.source == "-" else os.stat(options.source)
    # (before anything is read, which may take its time)
    for path in () if out is None else (out, out + NOTES):
        refuse_output(path, options.force, state)
    program = Program(options.program)
    with told_of(name, out):
        content = opened(options.source, LIMIT)
    with content.file, outputs(out, options.force, state) as (whole, notes), told_of(name, out):
        told = recover_into(program, content, whole, notes)
        is_of_header = told.refusal is not None and told.refusal.part == "header"
        rest = version_of_rest(program, content.data[:MOST_HEADER]) if is_of_header else None
        if not told.kept and told.refusal is not None:
            more = f" (the rest of the header is that of {rest})" if rest else ""
            raise ToolError(f"{told.refusal}{more}: no object is whole", Exit.DAMAGED)
        contents, audit = read_back(program, whole)
        content.refuse_changed()
    first = content.data[:6]
    version = first.decode() if first in OURS else "AC1015"
    report = Report(name, out and utf8_name(out), version, rest, told, contents, audit)
    lines = as_json(report) if options.json else (line + "\n" for line in lines_of(report))
    stream = sys.stderr if out is None else sys.stdout
    encoded = (line.encode("utf-8", "backslashreplace") for line in lines)
    printed(encoded, stream, "; the drawing is written")
    return int(Exit.FOUND if told.refusal is not None else Exit.WELL)


@contextlib.contextmanager
def told_of(name: str, out: Optional[str]) -> Iterator[None]:
    """Has a fault tell the name of its drawing, and that of the output that isn't written."""
    more = "" if out is None else f"; {shown(out)} isn't written"
    try:
        yield
    except ToolError as fault:
        raise ToolError(f"{one_line(name)}: {fault}{more}", fault.status) from None
    except OSError as fault:
        raise ToolError(f"{one_line(name)}: {fault.strerror}{more}") from None


def recover_into(
    program: Program, content: Content, whole: IO[bytes], notes: IO[bytes]
) -> Recovery:
    """Recovers a drawing into an open file, and its notes into another."""
    if content.size > LIMIT:
        raise ToolError(f"too large: more than {LIMIT:,} bytes", Exit.DAMAGED)
    answer = program.run(["recover"], content.data, whole, notes)
    if answer.status == Status.TOO_LARGE:
        raise ToolError(f"too large: what is whole has more than {LIMIT:,} bytes", Exit.DAMAGED)
    if answer.status not in (Status.DONE, Status.FOUND):
        raise failed_with(answer.status, "recover")
    told = Recovery(notes, content.data)
    if (told.refusal is None) != (answer.status == Status.DONE):
        raise ProgramFailed(f"the notes of `recover` aren't those of status {answer.status}")
    return told


def read_back(program: Program, whole: IO[bytes]) -> Tuple[Contents, Audit]:
    """Has the program read what it wrote, before that has a name and replaces anything."""
    with program.lines(["show"], whole) as lines:
        contents = contents_of(lines)
        lines.refuse_unread()
    return contents, audit_back(program, whole, contents.has)


def audit_back(program: Program, whole: IO[bytes], is_there: Callable[[int], bool]) -> Audit:
    """What `audit` says of what the program wrote, and which handles are there."""
    with program.lines(["audit"], whole) as lines:
        audit = audited(lines, is_there)
        lines.refuse_unread()
    return audit


@contextlib.contextmanager
def outputs(
    out: Optional[str], is_forced: bool, source: os.stat_result
) -> Iterator[Tuple[IO[bytes], IO[bytes]]]:
    """Files for a drawing and its notes, which take their names at the end. Without a name the
    drawing goes to standard output."""
    if out is None:
        with tempfile.TemporaryFile() as whole, tempfile.TemporaryFile() as notes:
            yield whole, notes
            whole.seek(0)
            printed(iter(lambda: whole.read(1 << 20), b""), more="; nothing else is said")
        return
    folder = os.path.dirname(out) or "."
    try:
        with begun(folder) as whole, begun(folder) as notes:
            yield whole, notes
            place_both(whole, notes, out, is_forced, source)
    except OSError as fault:
        raise ToolError(f"{shown(out)}: {fault.strerror}") from None


def place_both(
    whole: IO[bytes], notes: IO[bytes], out: str, is_forced: bool, source: os.stat_result
) -> None:
    """Gives a drawing and its notes their names, the notes first: no drawing stands without."""
    finish(notes, source)
    finish(whole, source)
    place(notes.name, out + NOTES, is_forced, source)
    try:
        place(whole.name, out, is_forced, source)
    except BaseException:
        if not is_forced:
            os.unlink(out + NOTES)
        raise
