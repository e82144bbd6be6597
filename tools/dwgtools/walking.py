"""The files that the words of dwg-check name, in their order."""

from __future__ import annotations

import argparse
import errno
import os
import re
import stat
from dataclasses import dataclass
from typing import Dict, Iterable, Iterator, List, Optional, Sequence, Set, Tuple

from .patterns import compiled
from .statuses import Exit, ToolError
from .streams import is_any_version, is_one_file, status_at
from .versions import MOST_HEADER
from .whole_names import absolute_name


@dataclass(frozen=True)
class Named:
    """A file to check, or a folder that can't be read, and why."""

    path: str
    fault: Optional[str] = None


class Linked(Named):
    """A file of a folder that stands there by a link, its own or one on its way; or a link that standard input names."""


# What the names of drawings end with.
DRAWINGS = (".dwg",)


def is_called_drawing(path: str) -> bool:
    """Whether a file is called as drawings are."""
    return path.lower().endswith(DRAWINGS)


@dataclass(frozen=True)
class Walk:
    """Which files of folders are taken: all, or those with some endings; what is left out by its name; and whether symbolic links are followed."""

    every: bool = False
    endings: Tuple[str, ...] = DRAWINGS
    left_out: Tuple["re.Pattern[str]", ...] = ()
    follow: bool = False

    def takes(self, entry: "os.DirEntry[str]") -> bool:
        """Whether an entry that is no folder is taken."""
        return (self.every or entry.name.lower().endswith(self.endings)) and (self.follow or not is_link(entry))

    def leaves_out(self, path: str, top: str) -> bool:
        """Whether an entry is left out, by its name or by its path below the folder that the walk began in."""
        return bool(self.left_out) and (self.leaves_out_name(os.path.basename(path)) or any(one.match(below(path, top)) for one in self.left_out))

    def leaves_out_name(self, name: str) -> bool:
        """Whether an entry is left out in whatever folder it stands."""
        return any(one.match(name) for one in self.left_out)


def below(path: str, top: str) -> str:
    """The path of a file below the folder that a walk began in."""
    return path[len(top) :].lstrip(os.sep)


def endings_of(word: str) -> Tuple[str, ...]:
    """The endings that a word has, parted by commas, each with its point or without."""
    endings = tuple("." + one.lower()[one.startswith(".") :] for one in word.split(","))
    if any(len(one) == 1 or os.sep in one for one in endings):
        raise argparse.ArgumentTypeError(f"{word!r} has what is no ending of a name")
    return endings


def pattern_of(word: str) -> "re.Pattern[str]":
    """What a pattern of the shell matches; a slash at its end says nothing."""
    if not word.rstrip(os.sep):
        raise argparse.ArgumentTypeError(f"{word!r} matches no name")
    try:
        return compiled(word.rstrip(os.sep))
    except ValueError as fault:
        raise argparse.ArgumentTypeError(str(fault)) from None


def add_words(parser: "argparse._ActionsContainer") -> None:
    """Adds the words of a command line by which files of folders are taken."""
    parser.add_argument("--all", action="store_true", help="of folders take every file, not only *.dwg")
    parser.add_argument("--exclude", type=pattern_of, metavar="PATTERN", action="append", default=[], help="of folders leave out what PATTERN of the shell matches, by its name or by its path in the folder that is named, and folders with all that is in them; may be given again")
    parser.add_argument("--ext", type=endings_of, metavar="EXT[,EXT...]", help="of folders take the files with these endings, in any case, and not *.dwg")


def walk_of(options: argparse.Namespace) -> Walk:
    """Which files of folders the words take."""
    if options.all and options.ext is not None:
        raise ToolError("--all takes every file, and --ext some; name one of them", Exit.USAGE)
    return Walk(options.all, options.ext or DRAWINGS, tuple(options.exclude), getattr(options, "follow", False))


def nothing_found(walk: Walk, what: str) -> str:
    """What is said where no file is found."""
    taken = ", ".join("*" + ending for ending in walk.endings)
    return f"nothing was found to {what}" + ("" if walk.every else f"; of folders only {taken} is taken, and --all takes every file")


# What a file or a folder is, whatever names it has.
Place = Tuple[int, int]


def place_of(told: os.stat_result) -> Place:
    """By what a file or a folder is known again."""
    return told.st_dev, told.st_ino


@dataclass
class Entry:
    """What is to be looked at of a folder: whether it is a folder, whether a link leads there, or it is one itself, and in which folder it stands."""

    path: str
    is_folder: bool
    is_linked: bool = False
    is_link: bool = False
    folder: Optional["Entry"] = None
    # The whole name of a folder that is walked: on some file systems two have one number.
    place: str = ""


class Walked:
    """The real folders that were walked, and what patterns left out of them by the names by which that was done: by another name of the folder, or of
    one that it stands in, it is looked at again."""

    def __init__(self) -> None:
        self._places: Set[str] = set()
        self._left: Dict[str, Set[str]] = {}

    def names_left(self, folder: Entry) -> Optional[Set[str]]:
        """Which names of a folder are to be looked at; None where all are, as it is walked for the first time."""
        folder.place = absolute_name(folder.path)
        if folder.place in self._places:
            return self._left.get(folder.place, set())
        self._places.add(folder.place)
        return None

    def leave(self, at: Optional[Entry], name: str) -> None:
        """Takes note of a name of a folder that is left out, and of the folders that it stands in."""
        while at is not None:
            names, up, own = self._left.setdefault(at.place, set()), None if at.is_link else at.folder, os.path.basename(at.path)
            if name in names and (up is None or own in self._left.get(up.place, ())):
                return
            names.add(name)
            at, name = up, own

    def take(self, at: Entry, name: str) -> None:
        """Takes note of a file or a link in a folder that isn't left out any more."""
        if at.place in self._left:
            self._left[at.place].discard(name)


def walked(folder: str, walk: Walk, seen: Optional[Walked] = None) -> Iterator[Named]:
    """The files of a folder and of those in it, in order of name. Symbolic links are passed; where they are followed each real folder is walked once,
    by the first name that leads to it, and none that was seen before, but for what was left out by that."""
    seen = Walked() if seen is None else seen
    left = [Entry(folder, True)]
    while left:
        one = left.pop()
        if not one.is_folder:
            yield (Linked if one.is_linked else Named)(one.path)
            continue
        listed: List[Entry] = []
        try:
            names = seen.names_left(one) if walk.follow else None
            if names is None or names:
                for entry in entries_of(one, walk, folder, seen, names):
                    listed.append(entry)
        except OSError as fault:
            yield Named(one.path, str(fault.strerror))
        left += reversed(listed)


def is_folder(entry: "os.DirEntry[str]", follow: bool) -> Optional[bool]:
    """Whether an entry is a folder; None where that can't be told, as of a link that leads to nothing, or to where nobody may look."""
    try:
        if entry.is_dir(follow_symlinks=follow):
            return True
        if follow and entry.is_symlink():
            entry.stat()
        return False
    except OSError:
        return None


def is_link(entry: "os.DirEntry[str]") -> bool:
    """Whether an entry is a symbolic link; one of which that can't be told is looked at as a file."""
    try:
        return entry.is_symlink()
    except OSError:
        return False


def entries_of(folder: Entry, walk: Walk, top: str, seen: Walked, names: Optional[Set[str]]) -> Iterator[Entry]:
    """What is to be looked at of a folder, in order of name, of all names or some. Where its list breaks off, as by a damaged disk, that fault comes
    after what was listed."""
    found: List["os.DirEntry[str]"] = []
    broken: Optional[OSError] = None
    with os.scandir(folder.path) as entries:
        try:
            for entry in entries:
                if names is None or entry.name in names:
                    found.append(entry)
        except OSError as fault:
            broken = fault
    for entry in sorted(found, key=lambda one: os.fsencode(one.name)):
        if walk.leaves_out(entry.path, top):
            if walk.follow and not walk.leaves_out_name(entry.name):
                seen.leave(folder, entry.name)
            continue
        is_one, is_own = is_folder(entry, walk.follow), is_link(entry)
        if is_own or not is_one:
            seen.take(folder, entry.name)
        # (what may be a folder is told, whatever it is called)
        if is_one or is_one is None or walk.takes(entry):
            yield Entry(entry.path, bool(is_one), folder.is_linked or is_own, is_own, folder)
    if broken is not None:
        raise broken


def status_of(path: str) -> Optional[os.stat_result]:
    """What stands at a name, links followed; None where nothing does."""
    try:
        return os.stat(path)
    except (OSError, ValueError):
        return None


def without_new(found: Iterable[Named], new: Sequence[os.stat_result]) -> Iterator[Named]:
    """The files without a new one that the table or messages go to."""
    for named in found:
        if not new or not any(is_one_file(own, status_of(named.path)) for own in new):
            yield named


# What is said of a link to standard output or error, or to another output.
WRITTEN = "it is standard output or error, or another output"


def has_drawing(path: str, walk: Walk) -> bool:
    """Whether a regular file is a drawing, by its own name or by how it begins. What nobody may read is none by that."""
    try:
        if os.path.realpath(path).lower().endswith(walk.endings):
            return True
        # (a pipe that takes its place meanwhile isn't waited for)
        with open(path, "rb", opener=lambda name, flags: os.open(name, flags | os.O_NONBLOCK)) as file:
            return is_any_version(file.read(MOST_HEADER))
    except OSError as fault:
        return fault.errno in (errno.EMFILE, errno.ENFILE, errno.ENOMEM)


def without_outputs(found: Iterable[Named], walk: Walk, more: Optional[os.stat_result] = None) -> Iterator[Named]:
    """The files, of which those can't be read that are standard output or error, or another output, by a link that stands in a folder: whoever may make
    one ends no run. A drawing, into which nothing may be written, is refused all the same."""
    own = [one for one in (status_at(None, 1), status_at(None, 2), more) if one is not None and not stat.S_ISCHR(one.st_mode)]
    for named in found:
        there = status_of(named.path) if own and isinstance(named, Linked) else None
        is_own = there is not None and any(os.path.samestat(one, there) for one in own)
        if there is None or not is_own or stat.S_ISREG(there.st_mode) and has_drawing(named.path, walk):
            yield named
        else:
            yield Named(named.path, WRITTEN)


# How much memory the files take at the most that are known before they are checked, and how much one takes beside its name.
MOST_AHEAD, MOST_HELD = 1 << 26, 1 << 30
ONE_NAMED = 256


def held(found: Iterable[Named]) -> Iterator[Named]:
    """Files by names that come from standard input, of which all are held; refused are more than can be."""
    left = MOST_HELD
    for named in found:
        left -= len(named.path) + ONE_NAMED
        if left < 0:
            raise ToolError("too many names: with --resume, or where the table is added to a file, all are read first", Exit.USAGE)
        yield named


class Files:
    """The files to check, all of which are known."""

    def __init__(self, named: Sequence[Named]) -> None:
        self.count, self.is_whole = len(named), True
        self._left = iter(named)

    def __iter__(self) -> Iterator[Named]:
        return self

    def __next__(self) -> Named:
        return next(self._left)
