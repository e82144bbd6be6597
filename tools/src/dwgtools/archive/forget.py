"""dwg-check forget STORE NAME..: remembers files no more."""

from __future__ import annotations

import argparse
import os

from .. import cli
from ..files import shown
from ..statuses import Exit
from .store import Store

DESCRIPTION = """\
Has STORE remember files no more. A NAME is a path in the folder, as verify prints it; that of a
folder stands for all files in it.
Status: 0 forgotten; 66 some NAME isn't remembered; 2 wrong words, no store; 70 failure."""


def add_words(parser: argparse.ArgumentParser) -> None:
    """The words of forget."""
    parser.add_argument("store", metavar="STORE")
    parser.add_argument("names", metavar="NAME", nargs="+")


def run(options: argparse.Namespace) -> int:
    """Forgets files."""
    names = {os.fsencode(os.path.normpath(name)): 0 for name in options.names}
    with Store(options.store, cli.tell) as store:
        for file in store.files():
            path = file.path
            while path and path not in names:
                path = os.path.dirname(path)
            if path:
                names[path] += 1
                store.forget(file)
    unknown = [name for name, count in names.items() if not count]
    for name in unknown:
        cli.tell(f"{shown(os.fsdecode(name))}: isn't remembered in {shown(options.store)}")
    return Exit.NOTHING_FOUND if unknown else Exit.WELL
