"""The folder of an archive, or a copy of it: its files, by their paths in it."""

from __future__ import annotations

import argparse
import os
import stat
from typing import Iterator, Tuple

from .. import files
from ..statuses import Exit, ToolError


def add_words(parser: argparse.ArgumentParser) -> None:
    """The words STORE and FOLDER."""
    parser.add_argument("store", metavar="STORE", help="the file that remembers")
    parser.add_argument("folder", metavar="FOLDER", help="the folder; links in it aren't followed")


class Folder:
    """A folder of files. The store isn't one of them, wherever it stands."""

    def __init__(self, path: str) -> None:
        if not os.path.isdir(path):
            why = "no folder" if os.path.lexists(path) else "no folder there; is its disk mounted?"
            raise ToolError(f"{files.shown(path)}: {why}", Exit.NOTHING_FOUND)
        self.path = path

    def within(self, path: str) -> bytes:
        """The path of a file in the folder."""
        return os.fsencode(path[len(self.path) :].lstrip(os.sep))

    def place(self, within: bytes) -> str:
        """Where a file of the folder stands."""
        return os.path.join(self.path, os.fsdecode(within))

    def files(
        self, walk: files.Walk, store: str
    ) -> Iterator[Tuple[files.Named, "os.stat_result"]]:
        """The files that are taken, each with what it is, and folders that can't be read."""
        own = os.stat(store)
        ends = ("-journal", "-wal", "-shm")
        journals = {os.path.realpath(store) + end for end in ends}
        for one in files.walked(self.path, walk):
            try:
                told = os.lstat(one.path)
            except OSError as fault:
                yield files.Named(one.path, one.fault or str(fault.strerror)), own
                continue
            is_journal = one.path.endswith(ends) and os.path.realpath(one.path) in journals
            if not is_journal and not os.path.samestat(told, own):
                yield one, told

    def state(self, within: bytes) -> str:
        """Why a file of the folder can't be read; nothing where it can, `gone` where it is."""
        try:
            told = os.lstat(self.place(within))
        except (FileNotFoundError, NotADirectoryError):
            return GONE
        except OSError as fault:
            return str(fault.strerror)
        return "" if stat.S_ISREG(told.st_mode) else "no regular file"


GONE = "gone"
