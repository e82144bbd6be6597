"""The store of `dwg-check keep` and of `dwg-recover --tree`: one SQLite file.

Table content has what a program found of a content by its rules (`told` is the row of dwg-check
as JSON, by whether the file is called a drawing), file which content each path in the folder had,
event what changed (moved, forgotten, other content), appended only. Table output has what
dwg-recover wrote: name below OUT, source by its path in the folder, the SHA-256 of the source, of
the program and of the output (empty where nothing was kept), `told` as JSON, and whether the
output took its name (0 while it is about to). SQLite has no sums of its own: each row ends with a
CRC-32 of its values, and one with another is told and dropped.
"""

from __future__ import annotations

import contextlib
import os
import sqlite3
import time
import zlib
from typing import Any, Callable, Iterator, List, NamedTuple, Optional, Sequence, Tuple

from ..atomic import begun, finish, place
from ..files import is_called_drawing, shown
from ..statuses import Exit, ToolError

# By what a file is known as a store ("DWG1"), and the form of its tables.
APPLICATION, FORM = 0x44574731, 1

TABLES = {
    "content": "sha256 TEXT, program TEXT, rules INTEGER, is_called INTEGER, told TEXT,"
    " crc32 INTEGER, PRIMARY KEY (sha256, program, rules, is_called)",
    "file": "path BLOB PRIMARY KEY, bytes INTEGER, mtime_ns INTEGER, sha256 TEXT, crc32 INTEGER",
    "output": "name BLOB PRIMARY KEY, source BLOB, source_sha256 TEXT, program TEXT,"
    " sha256 TEXT, told TEXT, is_placed INTEGER, crc32 INTEGER",
    "event": "number INTEGER PRIMARY KEY, at TEXT, what TEXT, path BLOB, old TEXT, new TEXT,"
    " crc32 INTEGER",
}
SCHEMA = [f"CREATE TABLE {name} ({columns}) WITHOUT ROWID" for name, columns in TABLES.items()]
MARKS = [f"PRAGMA application_id = {APPLICATION}", f"PRAGMA user_version = {FORM}"]

# How many seconds of a run may be lost.
EACH = 1.0


class File(NamedTuple):
    """Which content a file had."""

    path: bytes
    bytes: int
    mtime_ns: int
    sha256: str


class Output(NamedTuple):
    """What was written of a source."""

    name: bytes
    source: bytes
    source_sha256: str
    program: str
    sha256: str
    told: str
    is_placed: int


class Maker(NamedTuple):
    """Who found something: the SHA-256 of the program, and the number of the rules."""

    program: str
    rules: int


# What a journal of SQLite begins with, where it isn't zeroed.
JOURNAL = bytes.fromhex("d9d505f920a163d7")


def crc_of(row: Sequence[Any]) -> int:
    """The CRC-32 of the values of a row."""
    return zlib.crc32(repr(tuple(row)).encode("utf-8", "surrogatepass"))


class Store:
    """Use as a context. One run at a time writes; others that read are told so. `tell` gets what
    is damaged."""

    def __init__(
        self, path: str, tell: Callable[[str], None], is_written: bool = True, is_made: bool = False
    ) -> None:
        self.path, self._is_written = path, is_written
        self.damaged = 0
        self._committed = time.monotonic()
        self._refuse_kind(is_made)
        self._refuse_side_files()
        if not os.path.lexists(path):
            self._make()
        with self._told():
            self._database = _database(path)
            try:
                self._begin(tell)
            except BaseException:
                self._database.close()
                raise

    def __enter__(self) -> "Store":
        return self

    def __exit__(self, kind: object, *_: object) -> None:
        try:
            if self._database.in_transaction:
                with self._told():
                    self._database.execute("COMMIT")
        finally:
            self._database.close()

    def _refuse_kind(self, is_made: bool) -> None:
        """Refuses what is called as a drawing, and what SQLite would wait for."""
        if is_called_drawing(self.path):
            why = "called as a drawing; name another file as STORE"
        elif os.path.isfile(self.path) or is_made and not os.path.lexists(self.path):
            return
        elif os.path.lexists(self.path):
            kind = "a folder" if os.path.isdir(self.path) else "no regular file"
            why = f"{kind}; name a file as STORE"
        else:
            why = "no store there"
        raise ToolError(f"{shown(self.path)}: {why}", Exit.WORDS)

    def _refuse_side_files(self) -> None:
        """Refuses what stands where SQLite writes beside the store, but for the store's journal."""
        for path in (f"{self.path}{side}" for side in ("-journal", "-wal", "-shm")):
            is_own = path.endswith("-journal") and os.path.lexists(self.path) and _is_journal(path)
            if os.path.lexists(path) and not is_own:
                why = "in the way of the store; move it, or name another file as STORE"
                raise ToolError(f"{shown(path)}: {why}", Exit.WORDS)

    def _make(self) -> None:
        """Makes an empty store. It has its name once it is whole: an empty file is nobody's."""
        with begun(os.path.dirname(self.path) or ".") as file, self._told():
            with contextlib.closing(_database(file.name)) as made:
                for statement in ("BEGIN EXCLUSIVE", *SCHEMA, *MARKS, "COMMIT"):
                    made.execute(statement)
            finish(file, None)
            place(file.name, self.path, False, None)

    @contextlib.contextmanager
    def _told(self) -> Iterator[None]:
        """Tells faults of SQLite in words that say what to do."""
        try:
            yield
        # (of a damaged schema sqlite3 would tell a name that is no UTF-8)
        except (sqlite3.Error, UnicodeError) as fault:
            why = str(fault)
            if "locked" in why or "busy" in why:
                why = "another run uses it; try again when that has ended"
            elif "not a database" in why:
                why = "no store of dwg-check; name another file"
            elif "malformed" in why or isinstance(fault, (sqlite3.ProgrammingError, UnicodeError)):
                why = DAMAGED
            elif "full" in why or "I/O" in why:
                why = f"its disk is full or fails ({why}); what was kept before stays"
            raise ToolError(f"{shown(self.path)}: {why}") from None

    def _begin(self, tell: Callable[[str], None]) -> None:
        if self._is_written:
            self._database.execute("PRAGMA locking_mode = EXCLUSIVE")
            self._database.execute("BEGIN EXCLUSIVE")
        else:
            self._database.execute("BEGIN")
        self._refuse_other()
        for table in TABLES:
            self._drop_damaged(table)
        if self.damaged:
            are = "row is" if self.damaged == 1 else "rows are"
            dropped = f"{self.damaged} damaged {are} dropped"
            tell(f"{shown(self.path)}: {dropped}; keep reads files again")

    def _refuse_other(self) -> None:
        """Refuses a store that isn't one, is of another form, or is damaged as a whole."""
        application, form = (
            self._database.execute(f"PRAGMA {name}").fetchone()[0]
            for name in ("application_id", "user_version")
        )
        if application != APPLICATION:
            raise ToolError(f"{shown(self.path)}: no store of dwg-check; name another file")
        if form != FORM:
            raise ToolError(
                f"{shown(self.path)}: a store of form {form}, and this dwg-check reads {FORM};"
                " name another file"
            )
        found = [row[0] for row in self._database.execute("SELECT sql FROM sqlite_master")]
        checked = self._database.execute("PRAGMA quick_check(1)").fetchone()[0]
        if found != SCHEMA or checked != "ok":
            raise ToolError(f"{shown(self.path)}: {DAMAGED}")

    def _drop_damaged(self, table: str) -> None:
        """Counts the damaged rows of a table. Where the store is written, the table is made anew
        of the others: a damaged key stands at a wrong place, where it would never be found."""
        count = good = 0
        for row in self._database.execute(f"SELECT * FROM {table}"):
            count += 1
            good += crc_of(row[:-1]) == row[-1]
        self.damaged += count - good
        if count > good and self._is_written:
            rows = list(self._rows(table))
            self._database.execute(f"DELETE FROM {table}")
            for row in rows:
                self._put(table, row)
            self.commit()

    def _rows(self, table: str) -> Iterator[Tuple[Any, ...]]:
        """The rows of a table that aren't damaged, without their sums."""
        for row in self._database.execute(f"SELECT * FROM {table}"):
            if crc_of(row[:-1]) == row[-1]:
                yield row[:-1]

    def _one(self, question: str, *values: Any) -> Optional[Tuple[Any, ...]]:
        """A row, where there is one that isn't damaged, without its sum."""
        with self._told():
            row = self._database.execute(question, values).fetchone()
        return row[:-1] if row and crc_of(row[:-1]) == row[-1] else None

    def _put(self, table: str, row: Sequence[Any]) -> None:
        marks = ", ".join("?" * (len(row) + 1))
        with self._told():
            self._database.execute(
                f"INSERT OR REPLACE INTO {table} VALUES ({marks})", (*row, crc_of(row))
            )

    def commit(self) -> None:
        """Has all that was put so far be on the disk."""
        with self._told():
            self._database.execute("COMMIT")
            self._database.execute("BEGIN EXCLUSIVE")
        self._committed = time.monotonic()

    def commit_in_time(self) -> None:
        """The same, where the last time is a second ago."""
        if time.monotonic() - self._committed > EACH:
            self.commit()

    def told_of(self, sha256: str, maker: Maker, is_called: bool) -> Optional[str]:
        """What was told of a content by this program and these rules."""
        question = (
            "SELECT * FROM content"
            " WHERE sha256 = ? AND program = ? AND rules = ? AND is_called = ?"
        )
        row = self._one(question, sha256, *maker, int(is_called))
        return None if row is None else str(row[-1])

    def put_content(self, sha256: str, maker: Maker, is_called: bool, told: str) -> None:
        """Keeps what is told of a content."""
        self._put("content", (sha256, *maker, int(is_called), told))

    def contents(self, maker: Maker) -> Iterator[Tuple[str, bool]]:
        """The contents of which this program and these rules told something."""
        with self._told():
            for sha256, *found, is_called, _ in self._rows("content"):
                if tuple(found) == maker:
                    yield sha256, bool(is_called)

    def file(self, path: bytes) -> Optional[File]:
        """Which content a file had."""
        row = self._one("SELECT * FROM file WHERE path = ?", path)
        return File(*row) if row else None

    def files(self) -> List[File]:
        """All files, in order of name."""
        with self._told():
            return sorted(File(*row) for row in self._rows("file"))

    def put_file(self, file: File) -> None:
        """Takes a file as it is."""
        old = self.file(file.path)
        if old is not None and old.sha256 != file.sha256:
            self._happened("content", file.path, old.sha256, file.sha256)
        self._put("file", file)

    def move(self, old: File, new: bytes) -> None:
        """Has a file by its new name alone."""
        self._happened("moved", old.path, old.sha256, os.fsdecode(new))
        self._remove(old.path)

    def forget(self, file: File) -> None:
        """Has a file no more."""
        self._happened("forgotten", file.path, file.sha256, "")
        self._remove(file.path)

    def _remove(self, path: bytes) -> None:
        with self._told():
            self._database.execute("DELETE FROM file WHERE path = ?", (path,))

    def _happened(self, what: str, path: bytes, old: str, new: str) -> None:
        with self._told():
            last = self._database.execute("SELECT max(number) FROM event").fetchone()[0] or 0
        now = time.strftime("%Y-%m-%dT%H:%M:%SZ", time.gmtime())
        named = new.encode("utf-8", "backslashreplace").decode()
        self._put("event", (last + 1, now, what, path, old, named))

    def output(self, name: bytes) -> Optional[Output]:
        """What was written at a name below OUT."""
        row = self._one("SELECT * FROM output WHERE name = ?", name)
        return Output(*row) if row else None

    def put_output(self, output: Output) -> None:
        """Keeps what is about to take its name, or has taken it."""
        self._put("output", output)


# What is said of a store that can't be read as a whole.
DAMAGED = "damaged as a whole; take it from its backup, or remove it and keep the folder again"


def _is_journal(path: str) -> bool:
    """Whether a file is what SQLite goes back by after a run that was killed."""
    if not os.path.isfile(path) or os.path.islink(path) or os.lstat(path).st_nlink != 1:
        return False
    with open(path, "rb") as file:
        return file.read(len(JOURNAL)) in (b"", JOURNAL, bytes(len(JOURNAL)))


def _database(path: str) -> sqlite3.Connection:
    """Opens a database that stands, of whatever name."""
    name = "".join(f"%{byte:02x}" for byte in os.fsencode(os.path.abspath(path)))
    opened = sqlite3.connect(f"file:{name}?mode=rw", uri=True, timeout=0, isolation_level=None)
    # (what is no UTF-8 is damaged, as the sum of its row says)
    opened.text_factory = lambda data: data.decode("utf-8", "surrogateescape")
    return opened
