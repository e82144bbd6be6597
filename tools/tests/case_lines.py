"""Cases by their lines (cases/README.md), and whether what came is what must come; over whatever program."""

from __future__ import annotations

import re
import struct
import unittest
from dataclasses import dataclass, replace
from typing import Iterator, List, Optional, Tuple

import inputs
from spelled import base

# What is left by a run: status, output, notes.
Left = Tuple[int, bytes, bytes]


@dataclass(frozen=True)
class Case:
    """A case: its first line; command and input; and what must come."""

    line: str
    command: str
    input: str
    status: int
    output: str
    notes: str


def unfolded(text: str) -> Iterator[str]:
    """The lines of a text, each with those that continue it."""
    return iter(re.sub(r"\\\n\s*", "", text).splitlines())


def cases_of(text: str) -> List[Case]:
    """The cases of a text."""
    found: List[Case] = []
    for line in unfolded(text):
        if line.startswith("  "):
            before = found[-1].output
            found[-1] = replace(found[-1], output=before + "; " * bool(before) + line[2:])
        elif line and not line.startswith("# "):
            first, _, said = line.partition(" | ")
            asked, said = (first, said) if " < " in first else said.partition(" | ")[::2]
            # (a note may have such a line between its words)
            status, output, notes = [*said.split(" | ", 2), "", ""][:3]
            if " < " not in asked or not status.isdigit():
                raise ValueError(f"no case: {line}")
            command, _, given = asked.partition(" < ")
            found.append(Case(line, command, given, int(status), "" if output == "-" else output, notes))
    return found


def all_cases() -> List[Case]:
    """The cases of all files."""
    return [case for path in sorted(inputs.CASES.glob("*.cases")) for case in cases_of(path.read_text(encoding="utf-8"))]


def asked(case: Case) -> Optional[List[str]]:
    """The words for the program; None where a case asks what its input is, which the program isn't asked."""
    return None if case.command in ("spell", "measure") else ["certify"] if case.command == "entries" else case.command.split()


def told(case: Case, left: Optional[Left]) -> Left:
    """What a case tells: what the program left, or the entries of that certificate; or its input, where the program isn't asked."""
    if left is None:
        given = inputs.bytes_of(case.input)
        return 0, given if case.command == "spell" else b"bytes %d\ncheck %04X\n" % (len(given), base.check(0xC0C1, given)), b""
    if case.command == "entries":
        status, certificate, notes = left
        rows = "".join(f"{handle:X} {rank} {place}\n" for handle, rank, place in struct.iter_unpack("<QQQ", certificate[16:]))
        return status, certificate[:8] + f" {int.from_bytes(certificate[8:16], 'little')}\n{rows}".encode(), notes
    return left


def lines_of(wanted: str) -> List[str]:
    """The lines of a text that must come."""
    return [line.replace("00*256", "00" * 256) for line in wanted.split("; ")] if wanted else []


def wanted_output(case: Case) -> Optional[bytes]:
    """The output that must come, byte by byte; None where any lines may stand in it."""
    if case.output.startswith("= "):
        return inputs.bytes_of(case.output[2:])
    lines = lines_of(case.output)
    return None if "..." in lines else "".join(f"{line}\n" for line in lines).encode()


def no_case(case: Case) -> Optional[str]:
    """Why an input of a case can't be made as it says, after the case's first line."""
    try:
        inputs.bytes_of(case.input)
        wanted_output(case)
    except (ValueError, LookupError, AttributeError, TypeError, unittest.SkipTest) as error:
        return f"{case.line}\n  no case: {error!r}"
    return None


def is_text(left: bytes, wanted: str) -> bool:
    """Whether lines came as wanted; `...` is any lines."""
    pattern = b"".join(b"(?s:.*\n)?" if line == "..." else re.escape(line.encode()) + b"\n" for line in lines_of(wanted))
    return re.fullmatch(pattern, left) is not None


def failure_of(case: Case, left: Optional[Left]) -> Optional[str]:
    """What is wrong with what the program left, after the case's first line."""
    status, output, notes = told(case, left)
    wanted = wanted_output(case)
    is_output = is_text(output, case.output) if wanted is None else output == wanted
    wrong = [name for name, is_right in (("status", status == case.status), ("output", is_output), ("notes", is_text(notes, case.notes))) if not is_right]
    return f"{case.line}\n  wrong {', '.join(wrong)}: {status}\n{output[:2000]!r}\n{notes[:2000]!r}" if wrong else None
