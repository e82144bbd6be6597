"""dwg-check export STORE: what `sha256sum -c` takes."""

from __future__ import annotations

import argparse

from .. import cli
from ..statuses import Exit
from .store import File, Store

DESCRIPTION = """\
Prints the SHA-256 and the path in the folder of each file that STORE remembers, as sha256sum
does: `cd FOLDER && sha256sum -c` takes it, and a bag of BagIt as its manifest.
Status: 0 printed; 66 nothing is remembered; 68 damaged rows are left out; 2 wrong words, no store;
70 failure, or the store is no use."""


def add_words(parser: argparse.ArgumentParser) -> None:
    """The words of export."""
    parser.add_argument("store", metavar="STORE")


def run(options: argparse.Namespace) -> int:
    """Prints the sums."""
    with Store(options.store, cli.tell, is_written=False) as store:
        kept = store.files()
        cli.printed([line(file) for file in kept])
        if store.damaged:
            return Exit.NOT_AS_KEPT
    return Exit.WELL if kept else Exit.NOTHING_FOUND


def line(file: File) -> bytes:
    """The line of a file, with the escapes of coreutils."""
    name = file.path.replace(b"\\", b"\\\\").replace(b"\n", b"\\n").replace(b"\r", b"\\r")
    mark = b"" if name == file.path else b"\\"
    return mark + file.sha256.encode("ascii") + b"  " + name + b"\n"
