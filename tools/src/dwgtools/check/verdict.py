"""What dwg-check says of a file."""

from __future__ import annotations

import errno
import os
import re
from typing import Container, Optional, Tuple

from ..files import Changed, Content, Named, is_called_drawing, opened
from ..notes import Kept, Refusal, TooLarge, last_note, read_note
from ..program import Answer, Program, ProgramFailed, failed_with
from ..statuses import Status
from . import looks
from .header import LIMIT, OURS, VERSIONS, end_of_drawing, has_header, preview_of
from .header import version_of_rest
from .table import Row

# The number of the rules by which a content gets its verdict. Who changes them raises it: what a
# store has by another number is found anew.
RULES = 1

VERSION = re.compile(rb"AC[0-9]{4}")

# How much of a file is read to see what it is.
PREFIX = 65_536
TOO_LARGE = f"more than {LIMIT} bytes"

# What of the system says nothing of the file.
OF_SYSTEM = (errno.EMFILE, errno.ENFILE, errno.ENOMEM)


class Checker:
    """Checks files with the program. Where there are known contents, each by its SHA-256 and by
    whether the file is called a drawing, rows get the SHA-256, and those of known ones no more."""

    def __init__(
        self, program: Program, known: Optional[Container[Tuple[str, bool]]] = None
    ) -> None:
        self.program, self._known = program, known

    def row_of(self, named: Named) -> Row:
        """The line of a file: whatever happens to file or program, there is one."""
        row = Row(named.path)
        if named.fault:
            row.verdict, row.detail = "unreadable", named.fault
            return row
        try:
            content = opened(named.path, PREFIX + LIMIT)
            with content.file:
                self.found(content, row)
                content.refuse_changed()
        except ProgramFailed as fault:
            return _unfound(row, "failed", fault.why, fault.is_lasting)
        except (OSError, ValueError, MemoryError) as fault:
            return _unfound(row, *unread(fault))
        return row

    def found(self, content: Content, row: Row) -> None:
        """Finds the verdict of an open file."""
        if content.is_pipe and content.size > LIMIT:
            row.verdict, row.detail = "too large", TOO_LARGE
            return
        row.bytes, row.mtime_ns = content.size, None if content.is_pipe else content.mtime_ns
        if self._known is not None:
            row.sha256 = content.digest()
            if (row.sha256, is_called_drawing(row.path)) in self._known:
                return
        try:
            self.judge(content, row)
        except (LookupError, RuntimeError, TypeError, ArithmeticError) as fault:
            # (the program may answer what it doesn't have)
            raise ProgramFailed(f"its answer isn't understood ({fault})") from None

    def judge(self, content: Content, row: Row) -> None:
        """Finds the verdict by how the file begins."""
        prefix = content.head(PREFIX)
        first = prefix[:6]
        if not VERSION.fullmatch(first) or len(prefix) > 6 and looks.is_text(prefix):
            self._judge_other(content, row, prefix)
            return
        row.version = first.decode()
        if first not in OURS:
            self._judge_version(content, row, prefix)
        elif content.size > LIMIT:
            row.verdict, row.detail = "too large", TOO_LARGE
        else:
            self._judge_drawing(content, row)

    def _judge_version(self, content: Content, row: Row, prefix: bytes) -> None:
        """The verdict of a file that begins as a drawing of another version. One that no program
        writes may have been a drawing that is read."""
        why = self._rest_of_header(prefix)
        if not why and prefix[:6] not in VERSIONS:
            why = looks.section_of_drawing(content.data)
        if why:
            _without_header(row, why)
            row.version = ""
            return
        name = VERSIONS.get(prefix[:6])
        row.verdict = "other version"
        row.detail = f"{row.version} {name}" if name else row.version

    def _judge_other(self, content: Content, row: Row, prefix: bytes) -> None:
        """The verdict of a file that begins as no drawing."""
        kind = looks.looks_like(prefix)
        row.verdict, row.detail = "no drawing", kind or "unknown bytes"
        is_other = kind not in (None, "zero bytes")
        # (what is called a drawing may have been one whose first bytes are another file's)
        if is_other and not is_called_drawing(row.path):
            return
        data = content.data
        if is_other and looks.is_text(data):
            return
        if kind == "zero bytes":
            row.detail = looks.zeros_of(data, content.size)
        inner = looks.inner_drawing(data)
        if inner:
            row.detail = row.detail if is_other else inner
            return
        why = self._rest_of_header(data) or looks.section_of_drawing(data)
        if not why and content.size > LIMIT:
            # (the program reads no such file; what begins with so many zeros is told as that)
            if not kind:
                row.verdict, row.detail = "too large", TOO_LARGE
            return
        why = why or self._kept_without_header(data, row)
        if why:
            _without_header(row, why)

    def _kept_without_header(self, data: bytes, row: Row) -> Optional[str]:
        """What `recover` keeps of bytes that were a drawing once, whose first bytes are lost."""
        with open(os.devnull, "wb") as nowhere:
            answer = self.program.run(["recover"], data, nowhere)
            if answer.status == Status.READ_FAULT:
                row.verdict, row.detail = "unreadable", "read fault"
                return None
            kept = _kept_by(answer)
            if kept or answer.status == Status.DONE:
                return kept
            # What begins as no version was read as AC1015.
            older = (b"AC1014" + data)[:LIMIT]
            kept = _kept_by(self.program.run(["recover"], older, nowhere))
        return f"{kept} of AC1014" if kept else None

    def _rest_of_header(self, prefix: bytes) -> Optional[str]:
        """What is said of bytes that have a file header but for its first six."""
        version = version_of_rest(self.program, prefix) if has_header(prefix) else None
        return f"the rest of the header is that of {version}" if version else None

    def _judge_drawing(self, content: Content, row: Row) -> None:
        """The verdict of a file that begins as a drawing that is read, by what `audit` says."""
        first = last = b""
        count = 0
        with self.program.lines(["audit"], content.data) as run:
            for last in run:
                first = first or last
                count += 1
            status, notes = run.status(), run.held_notes()
        if status in (Status.DONE, Status.FOUND):
            findings = count - 1
            if last != (b"audit no %d\n" % findings if status else b"audit yes\n"):
                raise ProgramFailed("`audit` doesn't end as it should")
            row.findings = findings
            row.verdict = "unsound" if findings else "sound"
            row.detail = first.decode("ascii", "replace").rstrip("\n") if findings else ""
            _judge_end(content.data, row)
            return
        note = read_note(notes.decode("utf-8", "replace").strip())
        if isinstance(note, Refusal):
            row.verdict, row.detail, row.refusal = "damaged", str(note), note
            if (note.part, note.reason) == ("header", "check"):
                why = self._rest_of_header(content.data)
                if why:
                    row.detail, row.version = f"{note} ({why})", ""
        elif status == Status.READ_FAULT:
            row.verdict, row.detail = "unreadable", "read fault"
        else:
            raise failed_with(status, "audit")


def unread(fault: Exception) -> Tuple[str, str]:
    """The verdict of a file that can't be read to its end, and why."""
    if isinstance(fault, MemoryError):
        return "failed", "no memory"
    is_failed = isinstance(fault, Changed) or getattr(fault, "errno", None) in OF_SYSTEM
    why = getattr(fault, "strerror", None) or fault
    return "failed" if is_failed else "unreadable", str(why)


def _unfound(row: Row, verdict: str, why: str, is_lasting: bool = False) -> Row:
    """The row of a file of which no verdict is found. What of it lasts has its SHA-256."""
    found = Row(row.path, verdict, why, bytes=row.bytes, mtime_ns=row.mtime_ns)
    found.sha256, found.is_lasting = row.sha256 if is_lasting else None, is_lasting
    return found


def _without_header(row: Row, why: str) -> None:
    """Has a row tell a drawing whose header is lost, and why it was one."""
    row.verdict, row.refusal = "damaged", Refusal("header", 0, 0, "version")
    row.detail = f"{row.refusal} ({why})"


def _judge_end(data: bytes, row: Row) -> None:
    """What is said of a whole drawing's preview and of the bytes after its last part."""
    end = end_of_drawing(data)
    row.trailing, row.preview = max(0, len(data) - end), preview_of(data)
    if row.trailing:
        sound = f"unsound {row.findings}" if row.findings else "sound"
        zero = "" if data[end:].strip(b"\0") else ", all 0"
        row.verdict, row.detail = "trailing bytes", f"{row.trailing} from {end}{zero}; {sound}"


def _kept_by(answer: Answer) -> Optional[str]:
    """What `recover` kept, where that is something."""
    last = last_note(answer.notes)
    if answer.status == Status.TOO_LARGE and isinstance(last, TooLarge):
        return f"what recover keeps would have {last.size} bytes"
    if answer.status not in (Status.DONE, Status.FOUND):
        raise failed_with(answer.status, "recover")
    count = last.objects if isinstance(last, Kept) else 0
    return f"recover keeps {count} objects" if count else None
