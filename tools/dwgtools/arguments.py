"""The words of a command line, and what `--version` tells."""

from __future__ import annotations

import argparse
import contextlib
import os
import re
import subprocess
import sys
from typing import Any, Callable, NoReturn, Sequence, Tuple

from . import TOP
from .encodings import named_page
from .outputs import output
from .statuses import Exit, Status, ToolError
from .streams import hush_where_named, own_name

TESTED = "This tool is tested (tools/test), not proved as the program is."


class Parser(argparse.ArgumentParser):
    """Words of a command line, with status 64 for those that aren't understood, and the exit statuses after the help."""

    def __init__(self, description: str, statuses: Sequence[Tuple[int, str]], more: str = "") -> None:
        table = "\n".join(f"  {int(number):<5}{meaning}" for number, meaning in statuses)
        end = f"{more.strip()}\n\n" if more.strip() else ""
        super().__init__(
            prog=own_name(),
            description=description,
            epilog=f"{end}exit status:\n{table}\n\n{TESTED}",
            formatter_class=argparse.RawDescriptionHelpFormatter,
            allow_abbrev=False,
        )
        self.add_argument("--version", action=_Version, help="say which commit this tool is of, and end")
        self.add_argument("--program", metavar="PATH", help="the program dwg (else the one that DWG names, else dwg beside tools/, else dwg on the PATH)")

        self._unwritten = Status.WRITE_FAULT if any(number == Status.WRITE_FAULT for number, _ in statuses) else Exit.FAILURE

    def add_codepage(self) -> None:
        """Lets the code page of texts be named."""
        told = "read texts by this code page, a number as in headers or a name as cp1251, and not by the header's, which may be lost"
        self.add_argument("--codepage", type=_page, metavar="N", help=told)

    def print_help(self, _: Any = None) -> None:
        """Prints the help; where that can't be, ToolError with the status that the tool has for any output. (argparse would say nothing)"""
        self.say(self.format_help())

    def say(self, text: str) -> None:
        """Prints what the tool says of itself."""
        try:
            with output(None, False) as out:
                out.write(text.encode("utf-8", "backslashreplace"))
        except ToolError as fault:
            raise ToolError(str(fault), self._unwritten) from None

    def error(self, message: str) -> NoReturn:
        hush_where_named(sys.argv[1:])
        with contextlib.suppress(OSError):
            self.print_usage(sys.stderr)
        raise ToolError(message, Exit.USAGE)


def whole_number(least: int, most: int) -> Callable[[str], int]:
    """What reads a word of a command line as a number from one to another: ASCII digits alone, no more than the greatest has."""

    def number(word: str) -> int:
        if not re.fullmatch("[0-9]{1,%d}" % len(str(most)), word) or not least <= int(word) <= most:
            raise argparse.ArgumentTypeError(f"{word!r} is no number from {least} to {most}")
        return int(word)

    return number


def _page(word: str) -> str:
    try:
        return named_page(word)
    except ValueError as fault:
        raise argparse.ArgumentTypeError(str(fault)) from None


class _Version(argparse.Action):
    """Says which commit a tool is of, where that is known, and ends."""

    def __init__(self, option_strings: Sequence[str], dest: str, **more: Any) -> None:
        super().__init__(option_strings, argparse.SUPPRESS, nargs=0, **more)

    def __call__(self, parser: argparse.ArgumentParser, *_: Any) -> None:
        assert isinstance(parser, Parser)
        parser.say(f"{parser.prog}, commit {commit() or 'unknown'}\n{TESTED}\n")
        parser.exit()


def commit() -> str:
    """The commit of the tools: the one that `make install` noted, else what git says of the checkout; nothing where neither knows."""
    with contextlib.suppress(OSError), open(os.path.join(TOP, "COMMIT"), encoding="ascii", errors="replace") as noted:
        return noted.readline().strip()
    if not os.path.exists(os.path.join(TOP, ".git")):
        return ""
    with contextlib.suppress(OSError, subprocess.SubprocessError):
        changes = " and changes" if _git("status", "--porcelain", "--untracked-files=no") else ""
        return _git("describe", "--always", "--exclude=*", "--abbrev=40") + changes
    return ""


def _git(*words: str) -> str:
    """What git says of the checkout, of which it writes nothing: `describe --dirty` and `diff` write its index, whatever they are told."""
    environment = {name: value for name, value in os.environ.items() if not name.startswith("GIT_")}
    environment["GIT_OPTIONAL_LOCKS"] = "0"
    said = ["git", "-C", TOP, *words]
    ran = subprocess.run(said, stdin=subprocess.DEVNULL, stdout=subprocess.PIPE, stderr=subprocess.DEVNULL, env=environment, timeout=20, check=True)
    return ran.stdout.decode("ascii", "replace").strip()
