"""dwg-check FILE|FOLDER..: a line of each file."""

from __future__ import annotations

import argparse

from .. import cli, files, pool
from ..program import Program
from . import table
from .verdict import Checker

DESCRIPTION = """\
Says of each file whether it is a drawing of AutoCAD R14 to 2002, whether it is whole, and
whether its references hold together. Verdicts: sound, unsound, trailing bytes, damaged,
other version, no drawing, too large, unreadable, failed. Further commands:

  dwg-check keep STORE FOLDER     remember what the files of a folder are
  dwg-check verify STORE FOLDER   compare a folder, or a copy of it, with what is remembered
  dwg-check forget STORE NAME..   remember files no more
  dwg-check export STORE          print what `sha256sum -c` takes
  dwg-check report FILE|FOLDER..  print all findings and risks of drawings

A file that is called as one of these commands is written ./keep.
Status: 0 all sound; 1 some not; 3 some damaged, no drawing, unreadable or failed; 2 wrong words;
66 nothing found; 70 failure of the tool or of dwg; 130 interrupted."""


def add_words(parser: argparse.ArgumentParser) -> None:
    """The words of dwg-check."""
    parser.add_argument("files", metavar="FILE|FOLDER", nargs="+", help="- is standard input")
    table.add_words(parser, table.VERDICTS)
    files.add_words(parser)
    cli.add_jobs(parser)


def run(options: argparse.Namespace) -> int:
    """Checks the files that the words name."""
    program = Program(options.program)
    checker = Checker(program)
    walk = files.walk_of(options)
    # (a stream is read by this process, which has it)
    jobs = 1 if any(map(files.is_stream, options.files)) else options.jobs
    checked = pool.in_order(checker.row_of, files.named(options.files, walk), jobs, table.lost)
    return table.Table(options).add_all(checked).ended(files.nothing_found(walk))
