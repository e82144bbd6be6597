"""How a tool runs: its streams and signals, its words, its statuses."""

from __future__ import annotations

import argparse
import contextlib
import importlib
import os
import signal
import sys
from typing import Any, Iterable, List, NoReturn, Optional, TextIO

from . import __version__
from .files import one_line, shown
from .pool import processors
from .statuses import Exit, ToolError

# The tools and their subcommands, each a module with DESCRIPTION, add_words(parser) and
# run(options), which gives the status. What stands first and is no subcommand is a file.
COMMANDS = {
    "dwg-check": "check.command", "dwg-check report": "check.report",
    "dwg-check keep": "archive.keep", "dwg-check verify": "archive.verify",
    "dwg-check forget": "archive.forget", "dwg-check export": "archive.export",
    "dwg-recover": "recover.command",
}  # fmt: skip


class Parser(argparse.ArgumentParser):
    """The words of a tool or of a subcommand."""

    def __init__(self, name: str, module: Any) -> None:
        super().__init__(
            prog=name, description=module.DESCRIPTION,
            formatter_class=argparse.RawDescriptionHelpFormatter, allow_abbrev=False,
        )  # fmt: skip
        version = f"{name.split()[0]} {__version__}"
        self.add_argument("--version", action="version", version=version)
        program = "the program dwg (else that of DWG, of the checkout, or on the PATH)"
        self.add_argument("--program", metavar="PATH", help=program)
        module.add_words(self)

    def options(self, words: List[str]) -> argparse.Namespace:
        """What words mean, wherever options stand before a `--`. Of an option that there isn't
        the value may be taken for a file: it is told alone."""
        parse = self.parse_known_args if "--" in words else self.parse_known_intermixed_args
        options, unknown = parse(words)
        if unknown:
            told = [word for word in unknown if word.startswith("-")] or unknown
            self.error(f"unrecognized arguments: {' '.join(told)}")
        return options

    def error(self, message: str) -> NoReturn:
        raise ToolError(f"{message}; see {self.prog} --help", Exit.WORDS)


def add_jobs(parser: argparse.ArgumentParser) -> None:
    """Adds the word for how many files are worked on at once."""
    parser.add_argument(
        "--jobs", type=_jobs, metavar="N", default=processors(),
        help="work on N files at a time (else as many as there are processors)",
    )  # fmt: skip


def _jobs(word: str) -> int:
    if not (word.isascii() and word.isdigit() and 1 <= int(word[:5]) <= 1000):
        raise argparse.ArgumentTypeError(f"{word!r} is no number from 1 to 1000")
    return int(word)


def ran(tool: str) -> int:
    """Runs a tool; what it says of a failure is a message of one line."""
    name, words = tool, sys.argv[1:]
    if words and f"{tool} {words[0]}" in COMMANDS:
        name = f"{tool} {words.pop(0)}"
    try:
        _open_streams()
        _take_signals()
        return _run(name, words)
    except SystemExit as end:
        # (a signal waits for nobody who reads)
        _drop_output()
        return end.code if isinstance(end.code, int) else 0
    except BrokenPipeError:
        _drop_output()
        return Exit.CLOSED_PIPE
    except ToolError as fault:
        tell(str(fault), tool)
        return fault.status
    except MemoryError:
        tell("no memory", tool)
    except OSError as fault:
        where = f"{shown(fault.filename)}: " if isinstance(fault.filename, str) else ""
        tell(f"{where}{fault.strerror or fault}", tool)
    except Exception as fault:  # pylint: disable=broad-except
        tell(f"failure of the tool itself: {type(fault).__name__}: {fault}", tool)
    _drop_output()
    return Exit.FAILURE


def _run(name: str, words: List[str]) -> int:
    command = importlib.import_module(f".{COMMANDS[name]}", __package__)
    try:
        options = Parser(name, command).options(words)
    except SystemExit:
        # (the help, or the version, is said)
        printed([])
        return Exit.WELL
    return int(command.run(options))


def _drop_output() -> None:
    """Has the end of Python write nothing more where nobody reads."""
    with contextlib.suppress(OSError, ValueError):
        os.dup2(os.open(os.devnull, os.O_WRONLY), 1)


def _open_streams() -> None:
    """Opens standard streams that are closed on /dev/null: no file that is read gets a number of
    theirs."""
    for number, name in enumerate(("stdin", "stdout", "stderr")):
        try:
            os.fstat(number)
        except OSError:
            os.open(os.devnull, os.O_RDWR)
        if getattr(sys, name) is None:
            setattr(sys, name, os.fdopen(number, "r" if not number else "w", closefd=False))


def _take_signals() -> None:
    """Ends the tool in order by what ends it, and once: outputs that aren't whole are removed."""
    ending = [signal.SIGINT, signal.SIGTERM, signal.SIGHUP]
    taken = [number for number in ending if signal.getsignal(number) != signal.SIG_IGN]

    def end(number: int, _: object) -> NoReturn:
        for one in taken:
            signal.signal(one, signal.SIG_IGN)
        raise SystemExit(128 + number)

    for number in taken:
        signal.signal(number, end)
    # (where the end of a child is ignored, its status isn't kept)
    signal.signal(signal.SIGCHLD, signal.SIG_DFL)


def tell(message: str, tool: str = "dwg-check") -> None:
    """Tells something on standard error, on one line (backslashes stay, since names are escaped
    already); where that is gone, nothing else ends."""
    said = "\\".join(map(one_line, message.split("\\")))
    with contextlib.suppress(OSError):
        print(f"{tool}: {said}", file=sys.stderr, flush=True)


def printed(pieces: Iterable[bytes], stream: Optional[TextIO] = None, more: str = "") -> None:
    """Prints bytes at once, on standard output or another stream; a fault says more."""
    stream = stream or sys.stdout
    try:
        stream.buffer.writelines(pieces)
        stream.flush()
    except BrokenPipeError:
        raise
    except OSError as fault:
        name = "error" if stream is sys.stderr else "output"
        raise ToolError(f"standard {name}: {fault.strerror}{more}") from None
