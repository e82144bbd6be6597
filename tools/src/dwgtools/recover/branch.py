"""What becomes of one file of a tree: it is checked, recovered or copied, and told in a line."""

from __future__ import annotations

import contextlib
import hashlib
import json
import os
import stat
from dataclasses import asdict, dataclass, field
from typing import IO, Callable, Dict, NamedTuple, Optional

from ..archive.store import Output
from ..atomic import begun, finish, place
from ..check.table import Row
from ..check.verdict import Checker
from ..files import Content, Named, shown, utf8_name
from ..program import Program, ProgramFailed
from ..statuses import Exit, ToolError
from .notes import MAPPING, Recovery
from .one import NOTES, audit_back, place_both, recover_into

# What is told of drawings of which nothing is lost.
WHOLE = ("sound", "unsound", "trailing bytes")

# What a file ends with, by what becomes of it; others may be damaged, and nothing is written.
STATUS = {
    **dict.fromkeys(WHOLE, int(Exit.WELL)), "refused": int(Exit.WORDS), "failed": int(Exit.FAILURE),
    **dict.fromkeys(("recovered", "no drawing", "other version"), int(Exit.FOUND)),
}  # fmt: skip

# What becomes of a file that nothing is written of, by the status that it would have alone.
OUTCOMES = {int(Exit.WORDS): "refused", int(Exit.DAMAGED): "too large"}

# What the names in OUT of the tool's own begin with: of the store, and of the folder that outputs
# stand in until they take their names.
OWN = ".dwg-recover."
STORE, PASSING = OWN + "db", OWN + "tmp"


@dataclass
class Line(Row):
    """A line of the table: what dwg-check says. Of a drawing that was recovered it tells how many
    objects were kept, lost (where all entries of the map are known) and found without an entry,
    and findings of the new one."""

    outcome: str = ""
    kept: Optional[int] = None
    lost: Optional[int] = None
    found: Optional[int] = None
    status: int = 0
    output: Optional[str] = None
    lost_parts: Dict[str, int] = field(default_factory=dict)

    def end(self, outcome: str, more: str = "") -> "Line":
        """Says what became of the file, and more in its detail."""
        self.outcome, self.status = outcome, STATUS.get(outcome, int(Exit.DAMAGED))
        self.detail = "; ".join(filter(None, [self.detail, more]))
        return self


class Made(NamedTuple):
    """The SHA-256 of what was written, and of its notes, by which a run knows it again."""

    output: str = ""
    notes: str = ""


class Done(NamedTuple):
    """What became of a file, and what the store is to have of it, where that is new."""

    line: Line
    output: Optional[Output] = None


class Planned(NamedTuple):
    """A file to recover, its path in the folder, and what a run made of it before."""

    named: Named
    name: str
    known: Optional[Output]

    @property
    def made(self) -> Made:
        """What stands of it as a run left it."""
        return Made() if self.known is None else Made(*json.loads(self.known.told)["made"])


@dataclass(frozen=True)
class Tree:
    """A folder that drawings are recovered into. It may be sent to another process."""

    program: Program
    digest: str
    out: str
    is_copying: bool = False
    is_forced: bool = False

    def done(self, planned: Planned) -> Done:
        """What becomes of a file: whatever happens, there is a line."""
        name, path = planned.name, planned.named.path
        if name.startswith(OWN):
            return Done(Line(path).end("refused", "dwg-recover has files of its own so called"))
        if name.endswith(NOTES) and os.path.lexists(path[: -len(NOTES)]):
            return Done(Line(path).end("refused", "its name is that of the notes of another"))
        try:
            return Branch(self, planned).done()
        except Exception as fault:  # pylint: disable=broad-except
            why = f"failure of the tool itself: {type(fault).__name__}: {fault}"
            return Done(Line(path).end("failed", why))

    def lost(self, planned: Planned) -> Done:
        """The line of a file by which a process ended."""
        return Done(Line(planned.named.path).end("failed", "no memory"))


class Branch(Checker):
    """Checks one file, and writes below OUT what is to be written of it."""

    def __init__(self, tree: Tree, planned: Planned) -> None:
        super().__init__(tree.program)
        self.tree, self.planned = tree, planned
        self.out = os.path.join(tree.out, planned.name)
        self.notes, self.passing = self.out + NOTES, os.path.join(tree.out, PASSING)
        self._done: Optional[Done] = None

    def done(self) -> Done:
        """The line of the file. It tells what stands of another state of the file too."""
        row = self.row_of(self.planned.named)
        done = self._done or Done(Line(**vars(row)).end(row.verdict))
        line = done.line
        if not line.output and line.outcome != "refused" and os.path.lexists(self.out):
            line.end(line.outcome, f"{shown(self.out)} stands from before")
        return done

    def found(self, content: Content, row: Row) -> None:
        digest, known = content.digest(), self.planned.known
        if known is not None and self._stands(known, digest):
            line = Line(**json.loads(known.told)["line"])
            line.path, line.mtime_ns = row.path, row.mtime_ns
            line.output = utf8_name(self.out) if self.planned.made.output else None
            self._done = Done(line)
            return
        super().found(content, row)
        row.sha256 = digest
        content.refuse_changed()
        line, made = Line(**vars(row)).end(row.verdict), Made()
        if row.verdict == "damaged":
            made = self._told(line, lambda: self._recover(content, line))
        elif row.verdict in WHOLE and self.tree.is_copying:
            made = self._told(line, lambda: self._copy(content, line))
        is_kept = line.outcome not in ("refused", "failed")
        is_kept = is_kept and bool(made.output or not self.planned.made.output)
        self._done = Done(line, self._kept(line, made) if is_kept else None)

    def _stands(self, known: Output, digest: str) -> bool:
        """Whether a run did all that is to be done of this content."""
        made = self.planned.made
        if (known.source_sha256, known.program) != (digest, self.tree.digest):
            return False
        if not made.output:
            is_whole = json.loads(known.told)["line"]["verdict"] in WHOLE
            return not (is_whole and self.tree.is_copying)
        stands = digest_at(self.out), digest_at(self.notes) if made.notes else ""
        return stands == made

    def _kept(self, line: Line, made: Made) -> Output:
        """What the store is to have."""
        told = json.dumps({"line": asdict(line), "made": made})
        name, source = os.fsencode(self.planned.name), line.sha256 or ""
        return Output(name, name, source, self.tree.digest, made.output, told, 1)

    def _told(self, line: Line, write: Callable[[], Made]) -> Made:
        """Writes, and has each fault be one of this file alone."""
        try:
            made = write()
            line.output = utf8_name(self.out) if made.output else None
            return made
        except ProgramFailed as fault:
            line.end("failed", fault.why)
        except ToolError as fault:
            line.end(OUTCOMES.get(fault.status, "failed"), str(fault))
        except OSError as fault:
            line.end("failed", f"{shown(self.out)}: {fault.strerror}")
        return Made()

    def _recover(self, content: Content, line: Line) -> Made:
        """Writes what is whole of a damaged drawing, and its notes, unless that stands."""
        with begun(self.passing) as whole, begun(self.passing) as notes:
            told = recover_into(self.program, content, whole, notes)
            if told.refusal is None:
                raise ProgramFailed("`recover` and `audit` don't agree")
            if not told.kept:
                line.end("nothing kept")
                return Made()
            findings = audit_back(self.program, whole, lambda _: True).findings
            made = Made(digest_of(whole), digest_of(notes))
            self._place(content, line, made, whole, notes)
            line.kept, line.found, line.findings = told.kept, told.found, findings
            line.lost = told.lost["object"] if told.is_map_whole else None
            line.lost_parts = {sort: n for sort, n in told.lost.items() if n and sort != "object"}
            line.end("recovered", _losses(told))
            return made

    def _copy(self, content: Content, line: Line) -> Made:
        """Writes a whole drawing as it is, with its times, unless it stands."""
        made = Made(line.sha256 or "")
        with begun(self.passing) as whole:
            whole.write(content.data)
            self._place(content, line, made, whole, None)
        return made

    def _place(
        self, content: Content, line: Line, made: Made, whole: IO[bytes], notes: Optional[IO[bytes]]
    ) -> None:
        """Gives what is written its name, unless that stands."""
        stands = self._standing(content, line, made)
        if stands[: 2 if notes else 1] == made[: 2 if notes else 1]:
            return
        content.refuse_changed()
        self._make_folder()
        source = os.fstat(content.file.fileno())
        if notes is not None:
            place_both(whole, notes, self.out, any(stands), source)
            return
        finish(whole, source)
        os.utime(whole.fileno(), ns=(source.st_atime_ns, source.st_mtime_ns))
        if stands.notes and stands.notes == self.planned.made.notes:
            # (they are of what was recovered, which this replaces)
            os.unlink(self.notes)
        place(whole.name, self.out, any(stands), source)

    def _standing(self, content: Content, line: Line, new: Made) -> Made:
        """The SHA-256 of what stands, of output and notes; it is refused where that may not be
        replaced by something else."""
        found = []
        for path, to_be, left in zip((self.out, self.notes), new, self.planned.made):
            digest = digest_at(path)
            why = ""
            if digest and os.path.samestat(os.lstat(path), os.fstat(content.file.fileno())):
                why = "is the input itself"
            elif digest is None and to_be:
                why = "is no regular file"
            elif digest and to_be and digest != to_be and not self.tree.is_forced:
                why = self._why(line, digest == left)
            if why:
                raise ToolError(f"{shown(path)} {why}", Exit.WORDS)
            found.append(digest or "")
        return Made(*found)

    def _why(self, line: Line, is_own: bool) -> str:
        """Why what stands isn't replaced."""
        known = self.planned.known
        if not is_own or known is None:
            return "stands already, and no run left it so; --force replaces it"
        if known.source_sha256 != line.sha256:
            return "is of what the input was before; --force replaces it"
        return "was made by another dwg; --force makes it again"

    def _make_folder(self) -> None:
        """Makes the folders that the output is to stand in, each with no more permissions than its
        own, but that it can be written into. No link is gone through."""
        out = self.tree.out
        source = self.planned.named.path[: -len(self.planned.name)]
        for part in self.planned.name.split(os.sep)[:-1]:
            out, source = os.path.join(out, part), os.path.join(source, part)
            own = os.stat(source)
            with contextlib.suppress(FileExistsError):
                os.mkdir(out, stat.S_IMODE(own.st_mode) & 0o777 | stat.S_IRWXU)
            told = os.lstat(out)
            if not stat.S_ISDIR(told.st_mode) or os.path.samestat(told, own):
                raise ToolError(f"{shown(out)} is no folder of its own", Exit.WORDS)


def _losses(told: Recovery) -> str:
    """What is said of parts that were lost, beside objects; of objects where more may be lost."""
    parts = [(sort, count) for sort, count in told.lost.items() if count and sort != "object"]
    said = [f"{count} {sort}s" if count > 1 else sort for sort, count in parts]
    if not told.is_map_whole:
        said += [] if any(told.lost[sort] for sort in MAPPING) else ["perhaps entries of the map"]
        lost = told.lost["object"]
        said += [f"at least {lost} object{'s' * (lost > 1)}"] if lost else []
    return f"lost: {', '.join(said)}" if said else ""


def digest_of(file: IO[bytes]) -> str:
    """The SHA-256 of an open file."""
    file.seek(0)
    found = hashlib.sha256()
    for piece in iter(lambda: file.read(1 << 20), b""):
        found.update(piece)
    return found.hexdigest()


def digest_at(path: str) -> Optional[str]:
    """The SHA-256 of a regular file; nothing where none stands, None where something else does."""
    try:
        if not stat.S_ISREG(os.lstat(path).st_mode):
            return None
        with open(path, "rb") as file:
            return digest_of(file)
    except (FileNotFoundError, NotADirectoryError):
        return ""
