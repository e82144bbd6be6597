"""dwg-recover: a drawing, or with --tree the drawings of a folder."""

from __future__ import annotations

import argparse
import itertools
import sys

from .. import files
from ..cli import add_jobs

DESCRIPTION = """\
Writes to OUT the canonical file of all that is whole in the drawing IN, and beside it the notes of
what became of the rest (OUT.notes). Then it says what there is, what is lost, and where references
of the new drawing lead nowhere. IN is never changed, and dwg has read OUT before it has its name.

With --tree it recovers the drawings of FOLDER into the folder OUT, by their paths in FOLDER. It
prints a line a file, and goes on where a run was cut off."""

ENDING = """\
The status is 0 where nothing was lost, 1 where something was, 2 where the words aren't understood
or an output is refused, 3 where nothing was recovered, 66 where no file was found, 70 after a
failure, 130 when interrupted. That of a tree is the greatest of its files; what is no drawing, or
of another version, counts as 1."""

USAGE = """%(prog)s [--force] [--json] [--program PATH] IN OUT
       %(prog)s --tree OUT [--whole skip|copy] [--all | --ext EXT[,EXT..]] [--exclude PATTERN]
                   [--jobs N] [--quiet] [--force] [--json] [--program PATH] FOLDER"""


def add_words(parser: argparse.ArgumentParser) -> None:
    """Adds the words; with --tree there are others."""
    parser.usage, parser.epilog = USAGE, ENDING
    words = list(itertools.takewhile(lambda word: word != "--", sys.argv))
    is_tree = any(word.partition("=")[0] == "--tree" for word in words)
    if is_tree:
        parser.add_argument("folder", metavar="FOLDER", help="the folder to recover")
    else:
        parser.add_argument("source", metavar="IN", help="the drawing; - is standard input")
        parser.add_argument("out", metavar="OUT", help="the file to write; - is standard output")
    parser.add_argument("--force", action="store_true", help="replace outputs that stand already")
    parser.add_argument("--json", action="store_true", help="print JSON, an object a line")
    parser.add_argument("--tree", metavar="OUT", help="recover the drawings of FOLDER into OUT")
    if is_tree or {"-h", "--help"} & set(words):
        parser.add_argument(
            "--whole", choices=("skip", "copy"), default="skip",
            help="of a tree leave out drawings of which nothing is lost (else), or copy them",
        )  # fmt: skip
        parser.add_argument("--quiet", action="store_true", help="no counts")
        add_jobs(parser)
        files.add_words(parser, is_followed=False)
        parser.set_defaults(print0=False, only=None)


def run(options: argparse.Namespace) -> int:
    """Recovers what the words name."""
    from .one import recover_one
    from .tree import recover_tree

    return recover_one(options) if options.tree is None else recover_tree(options)
