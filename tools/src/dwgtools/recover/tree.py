"""dwg-recover --tree: the drawings of a folder, recovered into another by their paths in it.

The store in OUT has what was made of which content. An output that stands as a run left it, of an
input that didn't change, isn't made again; what stands otherwise stays, and is told.
"""

from __future__ import annotations

import argparse
import contextlib
import itertools
import os
import shutil
import stat
from typing import Iterator

from ..archive.store import Store
from ..check.table import Table
from ..cli import tell
from ..files import Named, nothing_found, shown, walk_of, walked
from ..pool import in_order
from ..program import Program
from ..statuses import Exit, ToolError
from .branch import PASSING, STORE, Done, Line, Planned, Tree

COLUMNS = ("path", "outcome", "detail", "kept", "lost", "found", "findings", "status", "output")


def recover_tree(options: argparse.Namespace) -> int:
    """Recovers the drawings of the folder that the words name."""
    folder, out = options.folder, options.tree
    refuse_folders(folder, out)
    program = Program(options.program)
    walk = walk_of(options)
    found = walked(folder, walk)
    first = list(itertools.islice(found, 1))
    if not first:
        tell(f"{shown(folder)}: {nothing_found(walk)}", "dwg-recover")
        return Exit.NOTHING_FOUND
    tree = Tree(program, program.digest(), out, options.whole == "copy", options.force)
    with _store(folder, out) as store:
        planned = (plan(one, folder, store) for one in itertools.chain(first, found))
        all_done = in_order(tree.done, planned, options.jobs, tree.lost)
        table = Lines(options)
        # (whatever ends this, the processes end before their files go)
        with contextlib.closing(all_done):
            table.add_all(kept(done, store) for done in all_done)
    table.ended("")
    return table.worst


def kept(done: Done, store: Store) -> Line:
    """The line of a file; what became of it the store has from now on."""
    if done.output is not None:
        store.put_output(done.output)
        store.commit_in_time()
    return done.line


def refuse_folders(folder: str, out: str) -> None:
    """Refuses a folder that is none, and OUT that is no folder or has what is read."""
    read, written = os.path.realpath(folder), os.path.realpath(out)
    if not os.path.isdir(folder):
        why = f"{shown(folder)}: no folder; to recover one drawing leave out --tree"
    elif os.path.lexists(out) and not os.path.isdir(out) or not out:
        why = f"{shown(out)}: no folder; name another one"
    elif os.path.commonpath([read, written]) in (read, written):
        why = f"{shown(out)}: {shown(folder)} is in it, or has it; name a folder elsewhere"
    else:
        return
    raise ToolError(why, Exit.WORDS)


@contextlib.contextmanager
def _store(folder: str, out: str) -> Iterator[Store]:
    """The store of OUT, which is made where it isn't there. What never took its name goes, also
    where an earlier run was killed."""
    os.makedirs(out, stat.S_IMODE(os.stat(folder).st_mode) & 0o777 | stat.S_IRWXU, exist_ok=True)
    passing = os.path.join(out, PASSING)
    own = os.path.join(out, STORE)
    with Store(own, lambda said: tell(said, "dwg-recover"), is_made=True) as store:
        shutil.rmtree(passing, ignore_errors=True)
        os.mkdir(passing, stat.S_IRWXU)
        try:
            yield store
        finally:
            shutil.rmtree(passing, ignore_errors=True)


def plan(named: Named, folder: str, store: Store) -> Planned:
    """What is known of a file before it is read."""
    name = named.path[len(folder) :].lstrip(os.sep)
    return Planned(named, name, store.output(os.fsencode(name)))


class Lines(Table):
    """The table of a tree."""

    def __init__(self, options: argparse.Namespace) -> None:
        super().__init__(options, COLUMNS, "dwg-recover")
        self.worst = int(Exit.WELL)

    def add(self, row: Line) -> None:
        super().add(row)
        self.worst = max(self.worst, row.status)

    def _line(self, row: Line) -> bytes:
        if row.kept is None or row.lost is not None or self._options.json:
            return super()._line(row)
        return super()._line(argparse.Namespace(**{**vars(row), "lost": "?"}))
