"""What is said of an input that begins as no drawing that the program reads: the verdict of dwg-check, but for what `recover` would keep of it."""

from __future__ import annotations

import contextlib
import re
from dataclasses import dataclass
from typing import IO, Optional

from .drawings import Drawing
from .file import has_header, version_of_rest
from .inputs import bytes_of
from .looks import inner_drawing, is_text, looks_like, section_of_drawing, zeros_of
from .notes import Refusal
from .program import Program, ProgramFailed
from .statuses import Status, ToolError
from .versions import LIMIT, OURS, VERSIONS
from .walking import is_called_drawing

VERSION = re.compile(rb"AC[0-9]{4}")

# How much of a file is read to see what it is.
PREFIX = 65_536
TOO_LARGE = f"more than {LIMIT} bytes"

# What is no drawing may be the rest of one.
REST = "unless dwg-check says that it was one"


@dataclass
class Look:
    """What a file is, and the detail."""

    path: str
    bytes: int = 0
    verdict: str = "no drawing"
    detail: str = ""


class Looker:
    """Finds what a file is that begins as no drawing that the program reads."""

    def __init__(self, program: Program) -> None:
        self.program = program

    def judge(self, file: IO[bytes], look: Look) -> None:
        """Finds what an open file is."""
        prefix = bytes_of(file, PREFIX)
        if VERSION.fullmatch(prefix[:6]) and not (len(prefix) > 6 and is_text(prefix)):
            self.judge_version(file, look, prefix)
        else:
            self.judge_other(file, look, prefix)

    def judge_version(self, file: IO[bytes], look: Look, prefix: bytes) -> None:
        """What a file is that begins as a drawing of another version. One that no program writes may have been a drawing that is read."""
        why = self.rest_of_header(prefix)
        if not why and prefix[:6] not in VERSIONS:
            why = section_of_drawing(bytes_of(file, PREFIX + LIMIT))
        if why:
            look.verdict, look.detail = "damaged", f"{Refusal('header', 0, 0, 'version')} ({why})"
            return
        version, name = prefix[:6].decode(), VERSIONS.get(prefix[:6])
        look.verdict, look.detail = "other version", f"{version} {name}" if name else version

    def judge_other(self, file: IO[bytes], look: Look, prefix: bytes) -> None:
        """What a file is that begins as no drawing."""
        kind = looks_like(prefix)
        look.verdict, look.detail = "no drawing", kind or "unknown bytes"
        is_other = kind not in (None, "zero bytes")
        # (an archive may have many pictures and documents; what is called a drawing may have been one whose first bytes are another file's)
        if is_other and not is_called_drawing(look.path):
            return
        data = bytes_of(file, PREFIX + LIMIT)
        if is_other and is_text(data):
            return
        if kind == "zero bytes":
            look.detail = zeros_of(data, look.bytes)
        inner = inner_drawing(data)
        if inner:
            look.detail = look.detail if is_other else inner
            return
        why = self.rest_of_header(data) or section_of_drawing(data)
        if why:
            look.verdict, look.detail = "damaged", f"{Refusal('header', 0, 0, 'version')} ({why})"
        elif look.bytes <= LIMIT:
            look.detail += f", {REST}"
        elif not kind:
            look.verdict, look.detail = "too large", TOO_LARGE

    def rest_of_header(self, prefix: bytes) -> Optional[str]:
        """What is said of bytes that have a file header but for its first six."""
        version = version_of_rest(self.program, prefix) if has_header(prefix) else None
        return f"the rest of the header is that of {version}" if version else None


def refuse_foreign(drawing: Drawing, is_said: bool = True) -> None:
    """Refuses what doesn't begin as a drawing that the program reads, by what it is where that is said. What can't be read the program tells."""
    look = Look(drawing.name)
    with contextlib.suppress(OSError, ProgramFailed):
        if bytes_of(drawing.file, len(OURS[0])) in OURS:
            return
        if is_said:
            look.bytes = drawing.size
            Looker(drawing.program).judge(drawing.file, look)
        raise ToolError(f"{drawing.name}: {look.verdict}: {look.detail}", Status.TOO_LONG if look.verdict == "too large" else Status.REFUSED)
