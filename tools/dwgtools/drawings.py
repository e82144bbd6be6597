"""A drawing that is shown, once or more often."""

from __future__ import annotations

import contextlib
import itertools
import os
from typing import IO, Iterator, Optional, Tuple

from .inputs import CHANGED, Input, open_input
from .names import Names
from .pieces import Taker, names_in, objects_in
from .program import NoTemporary, Program
from .show import PIECE, Lists, Object, Prefix, read_prefix
from .spools import Keeper
from .statuses import Exit, Status, ToolError
from .streams import input_name
from .temporary import TemporaryFull, temporary_told
from .values import BadText


class Told(ToolError):
    """A fault that is told with the name of its drawing."""


class Drawing:
    """A drawing that can be shown more than once, and is the same each time: an input, which is read here where it isn't given."""

    def __init__(self, program: Program, path: Optional[str], given: Optional[Input] = None, page: Optional[str] = None) -> None:
        # (the code page by which texts are read, where it isn't that of the header)
        self.program, self.page = program, page
        self.name = input_name(path)
        self.input = open_input(path) if given is None else given
        self.file, self.size = self.input.file, self.input.size

    @contextlib.contextmanager
    def show(self, lists: Lists = Lists.TEXT, is_taken: Optional[Taker] = None) -> Iterator[Tuple[Prefix, Iterator[Object]]]:
        """What the text of `show` says before the objects, and these, one by one, but for those that are taken by their heads; ToolError with the
        program's status where it refuses."""
        with self.text() as (prefix, text):
            yield prefix, objects_in(text, prefix.count, lists, is_taken)

    @contextlib.contextmanager
    def text(self) -> Iterator[Tuple[Prefix, IO[bytes]]]:
        """What the text of `show` says before the objects, and the text of these as it comes; ToolError with the program's status where it refuses."""
        with self._told():
            os.lseek(self.file.fileno(), 0, os.SEEK_SET)
            yield from self._shown()

    @contextlib.contextmanager
    def named_text(self) -> Iterator[Tuple[Prefix, Names, IO[bytes]]]:
        """As `text`, once the names of layers, styles, linetypes, applications and blocks are known. The drawing is shown once, where its text finds a
        place, and else once more."""
        with contextlib.closing(Keeper()) as keeper:
            with self.text() as (prefix, text):
                names = names_in(keeper.of(text), prefix.count)
            kept = keeper.kept()
            if kept is None:
                with self.text() as (prefix, text):
                    yield prefix, names, text
                return
            with self._told():
                try:
                    yield prefix, names, kept
                except BadText as bad:
                    raise ToolError(f"the text of `show` isn't as it should be: {bad}", Exit.FAILURE) from None

    @contextlib.contextmanager
    def _told(self) -> Iterator[None]:
        """Has each fault be told with the name of the drawing."""
        with temporary_told():
            try:
                yield
            except (NoTemporary, TemporaryFull, Told):
                raise
            except ToolError as fault:
                message = str(fault)
                raise Told(f"{self.name}: {message[5:] if message.startswith('dwg: ') else message}", fault.status) from None

    def _shown(self) -> Iterator[Tuple[Prefix, IO[bytes]]]:
        """Yields once, and reads on after that to the end, so that the program's status is told before any fault of the text."""
        bad: Optional[BadText] = None
        with contextlib.ExitStack() as begun:
            text = begun.enter_context(self.program.lines(["show"], self.file))
            first = text.readline()
            if first:
                try:
                    prefix = read_prefix(itertools.chain([first], text))
                    prefix.read_by = self.page
                    yield prefix, text
                except BadText as fault:
                    bad = fault
            while text.read(PIECE):
                pass
        if self.input.is_changed:
            raise ToolError(CHANGED, Status.READ_FAULT)
        if bad or not first:
            raise ToolError(f"the text of `show` isn't as it should be: {bad or 'it is empty'}", Exit.FAILURE)

    def close(self) -> None:
        """Closes its files."""
        self.input.close()

    def names(self) -> Names:
        """The names of layers, styles, linetypes, applications and blocks, by handle."""
        with self.text() as (prefix, text):
            return names_in(text, prefix.count)
