"""dwg-check keep STORE FOLDER: a verdict a file, and it remembers what each is."""

from __future__ import annotations

import argparse
import collections
import dataclasses
import json
import os
from typing import Any, Dict, Iterator, List, Optional, Tuple

from .. import cli, files, pool
from ..check import table
from ..check.header import Picture, Preview
from ..check.verdict import RULES, Checker
from ..files import is_called_drawing, shown
from ..notes import Refusal
from ..program import Program
from . import folder as folders
from .folder import Folder
from .store import File, Maker, Store

DESCRIPTION = """\
Checks the files of FOLDER as dwg-check does, and remembers in STORE path in the folder, size,
time, SHA-256 and verdict of each. A file of the same size and time isn't read again, and a run
that was cut off goes on where it was. Nothing is forgotten but the old name of a file that moved.
Status: as that of dwg-check."""

# What of a row is told of a content, whatever file has it.
TOLD = ("verdict", "detail", "findings", "bytes", "trailing", "version", "refusal", "preview")


def add_words(parser: argparse.ArgumentParser) -> None:
    """The words of keep."""
    folders.add_words(parser)
    table.add_words(parser, table.VERDICTS)
    files.add_words(parser, is_followed=False)
    cli.add_jobs(parser)


def run(options: argparse.Namespace) -> int:
    """Checks and remembers the files of a folder."""
    folder, walk = Folder(options.folder), files.walk_of(options)
    program = Program(options.program)
    with Store(options.store, cli.tell, is_made=True) as store:
        keeper = Keeper(store, folder, Maker(program.digest(), RULES))
        checker = Checker(program, frozenset(store.contents(keeper.maker)))

        def checked(item: Tuple[files.Named, bool]) -> table.Row:
            named, is_known = item
            return table.Row(named.path) if is_known else checker.row_of(named)

        lost = lambda item: table.lost(item[0])
        rows = pool.in_order(checked, keeper.items(walk), options.jobs, lost)
        shown_rows = table.Table(options).add_all(map(keeper.taken, rows))
        keeper.end()
    return shown_rows.ended(files.nothing_found(walk), f"; {shown(store.path)} is written")


class Keeper:
    """Takes into the store what is found of files."""

    def __init__(self, store: Store, folder: Folder, maker: Maker) -> None:
        self.store, self.folder, self.maker = store, folder, maker
        # Whether the store had files; the new ones by content, and those of another content.
        self._was_kept = bool(store.files())
        self._added: Dict[str, List[bytes]] = collections.defaultdict(list)
        self._others: List[bytes] = []

    def items(self, walk: files.Walk) -> Iterator[Tuple[files.Named, bool]]:
        """The files, and whether the store knows what each is by its size and time."""
        for named, told in self.folder.files(walk, self.store.path):
            had = None if named.fault else self.store.file(self.folder.within(named.path))
            state = told.st_size, told.st_mtime_ns
            is_same = had is not None and (had.bytes, had.mtime_ns) == state
            yield named, is_same and self._told(named.path, had and had.sha256) is not None

    def _told(self, path: str, sha256: Optional[str]) -> Optional[str]:
        """What the store has of a content, by how the file is called."""
        return self.store.told_of(sha256 or "", self.maker, is_called_drawing(path))

    def taken(self, row: table.Row) -> table.Row:
        """The row of a file, which the store has from now on."""
        within = self.folder.within(row.path)
        if not row.verdict:
            had = self.store.file(within)
            if row.sha256 is None and had is not None:
                row.sha256, row.bytes, row.mtime_ns = had.sha256, had.bytes, had.mtime_ns
            row = row_of(json.loads(self._told(row.path, row.sha256) or "{}"), row)
        elif row.sha256:
            found = table.as_object(row)
            told = json.dumps({name: found[name] for name in TOLD})
            self.store.put_content(row.sha256, self.maker, is_called_drawing(row.path), told)
        if row.sha256 and row.bytes is not None and row.mtime_ns is not None:
            self._take(File(within, row.bytes, row.mtime_ns, row.sha256))
        self.store.commit_in_time()
        return row

    def _take(self, file: File) -> None:
        had = self.store.file(file.path)
        if had == file:
            return
        self.store.put_file(file)
        if had is None and self._was_kept:
            self._added[file.sha256].append(file.path)
        elif had is not None and had.sha256 != file.sha256:
            self._others.append(file.path)

    def end(self) -> None:
        """Takes note of what moved, and tells that, and what is changed or gone."""
        moved: List[bytes] = []
        gone: List[bytes] = []
        for file in self.store.files() if self._was_kept else []:
            if self.folder.state(file.path) == folders.GONE:
                if self._added[file.sha256]:
                    self.store.move(file, self._added[file.sha256].pop(0))
                    moved.append(file.path)
                else:
                    gone.append(file.path)
        self._tell(moved, "moved, and kept by the new name")
        self._tell(self._others, "of another content than was kept, which is kept now")
        self._tell(gone, "gone, and kept until dwg-check forget")

    def _tell(self, paths: List[bytes], what: str) -> None:
        if paths:
            first, name = shown(os.fsdecode(paths[0])), shown(self.store.path)
            cli.tell(f"{name}: {len(paths)} {what}; the first is {first}")


def row_of(told: Dict[str, Any], row: table.Row) -> table.Row:
    """The row of a file by what is told of its content."""
    refusal, preview = told.get("refusal"), told.get("preview")
    if refusal:
        told["refusal"] = Refusal(**refusal)
    if preview:
        pictures = tuple(Picture(**one) for one in preview["pictures"])
        told["preview"] = Preview(preview["bytes"], pictures)
    return dataclasses.replace(row, **told)
