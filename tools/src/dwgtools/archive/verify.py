"""dwg-check verify STORE FOLDER: compares a folder, or a copy of it, with what is kept."""

from __future__ import annotations

import argparse
import collections
import os
from dataclasses import dataclass
from typing import Any, Deque, Dict, Iterator, List, Optional, Tuple

from .. import cli, files, pool
from ..check import table
from ..check.verdict import unread
from ..files import shown, utf8_name
from ..statuses import Exit, ToolError
from . import folder as folders
from .folder import Folder
from .store import File, Store

DESCRIPTION = """\
Reads all files of FOLDER, which may be a copy anywhere, and compares them with what keep
remembered: same, changed, missing, new, moved (a missing one's content under a new name),
unreadable, failed. Names are paths in the folder. Nothing is written without --take.
Status: 0 all the same, or taken; 68 some not, or rows of the store are damaged; 2 wrong words, no
store; 66 no folder, or nothing kept; 70 failure, or the store is no use; 130 interrupted."""

STATES = ("same", "changed", "missing", "new", "moved", "unreadable", "failed")
COLUMNS = ("path", "verdict", "detail", "bytes", "sha256")


@dataclass
class Compared:
    """A file as it is, and what is kept of it, under another name where it moved."""

    path: str
    verdict: str = ""
    detail: str = ""
    bytes: Optional[int] = None
    mtime_ns: Optional[int] = None
    sha256: Optional[str] = None
    kept: Optional[Dict[str, Any]] = None


def add_words(parser: argparse.ArgumentParser) -> None:
    """The words of verify."""
    folders.add_words(parser)
    parser.add_argument(
        "--take", type=_taken, metavar="new,moved", default=(),
        help="remember new files, moved ones by the new name, or both",
    )  # fmt: skip
    table.add_words(parser, STATES)
    files.add_words(parser, is_followed=False)
    cli.add_jobs(parser)


def _taken(word: str) -> Tuple[str, ...]:
    states = tuple(word.split(","))
    if not set(states) <= {"new", "moved"}:
        raise argparse.ArgumentTypeError(f"{word!r} is not new, moved or both")
    return states


def run(options: argparse.Namespace) -> int:
    """Compares the files of a folder with what the store has of them."""
    folder, walk = Folder(options.folder), files.walk_of(options)
    with Store(options.store, cli.tell, is_written=bool(options.take)) as store:
        comparison = Comparison(store, folder)
        if not comparison.kept:
            raise ToolError(f"{shown(store.path)}: nothing is kept", Exit.NOTHING_FOUND)
        read = pool.in_order(_read, comparison.names(walk), options.jobs, _lost)
        printed = table.Table(options, COLUMNS).add_all(comparison.compared(read))
        printed.ended("")
        for state in options.take:
            comparison.take(state)
            if printed.counts[state] and not options.quiet:
                cli.tell(f"{shown(store.path)}: {printed.counts[state]} {state} taken")
        is_other = bool(printed.counts.keys() - {"same", *options.take})
        return Exit.NOT_AS_KEPT if is_other or store.damaged else Exit.WELL


# A file to read: its path in the folder, where it stands, and why it can't be read.
Item = Tuple[bytes, str, str]


def _read(item: Item) -> Compared:
    """A file, read to its end, whatever happens to it."""
    within, path, fault = item
    row = Compared(os.fsdecode(within), "unreadable" if fault else "", fault)
    if fault:
        return row
    try:
        content = files.opened(path, 0)
        with content.file:
            row.bytes, row.mtime_ns, row.sha256 = content.size, content.mtime_ns, content.digest()
            content.refuse_changed()
    except (OSError, ValueError, MemoryError) as why:
        (row.verdict, row.detail), row.sha256 = unread(why), None
    return row


def _lost(item: Item) -> Compared:
    return Compared(os.fsdecode(item[0]), "failed", "no memory")


class Comparison:
    """Compares files with what is kept."""

    def __init__(self, store: Store, folder: Folder) -> None:
        self._store, self._folder = store, folder
        self.kept: Dict[bytes, File] = {file.path: file for file in store.files()}
        self._gone: Dict[str, Deque[File]] = collections.defaultdict(collections.deque)
        self._unknown: List[Tuple[Compared, Optional[File]]] = []

    def names(self, walk: files.Walk) -> Iterator[Item]:
        """All files of the folder that are taken or kept. What is gone is known after the last."""
        left = dict.fromkeys(self.kept)
        for named, _ in self._folder.files(walk, self._store.path):
            within = self._folder.within(named.path)
            left.pop(within, None)
            yield within or b".", named.path, named.fault
        for within in left:
            state = self._folder.state(within)
            if state == folders.GONE:
                self._gone[self.kept[within].sha256].append(self.kept[within])
            else:
                yield within, self._folder.place(within), state

    def compared(self, read: Iterator[Compared]) -> Iterator[Compared]:
        """What each file is; the new and the moved ones after the others, then the missing."""
        unknown: List[Compared] = []
        for row in read:
            kept = self.kept.get(os.fsencode(row.path))
            row.kept = _as_object(kept) if kept else None
            if row.verdict:
                yield row
            elif kept is None:
                unknown.append(row)
            else:
                row.verdict = "same" if row.sha256 == kept.sha256 else "changed"
                row.detail = "" if row.verdict == "same" else _change(row, kept)
                yield row
        for row in unknown:
            self._know(row)
            yield row
        missing = [file for left in self._gone.values() for file in left]
        for file in sorted(missing):
            yield Compared(os.fsdecode(file.path), "missing", kept=_as_object(file))

    def _know(self, row: Compared) -> None:
        """Tells whether a file that isn't kept by its name is a missing one."""
        gone = self._gone.get(row.sha256 or "")
        file = gone.popleft() if gone else None
        row.verdict = "moved" if file else "new"
        if file:
            row.detail, row.kept = f"was {utf8_name(os.fsdecode(file.path))}", _as_object(file)
        self._unknown.append((row, file))

    def take(self, state: str) -> None:
        """Has the store have the new files, or the moved ones by their new names."""
        for row, file in self._unknown:
            if row.verdict != state:
                continue
            path = os.fsencode(row.path)
            assert row.bytes is not None and row.mtime_ns is not None and row.sha256 is not None
            self._store.put_file(File(path, row.bytes, row.mtime_ns, row.sha256))
            if file:
                self._store.move(file, path)


def _as_object(file: File) -> Dict[str, Any]:
    return {**file._asdict(), "path": utf8_name(os.fsdecode(file.path))}


def _change(row: Compared, kept: File) -> str:
    """By what a changed file differs besides: one of the same size and time is changed by no
    program, but by its disk."""
    if row.bytes != kept.bytes:
        return f"it had {kept.bytes} bytes"
    same_time = row.mtime_ns == kept.mtime_ns
    return "of the same size and time" if same_time else "of the same size"
