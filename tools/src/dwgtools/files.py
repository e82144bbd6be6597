"""The files that words name, their names on a line, and their bytes, read once."""

from __future__ import annotations

import argparse
import fnmatch
import hashlib
import os
import stat
import unicodedata
from dataclasses import dataclass
from typing import IO, Iterator, Optional, Sequence, Set, Tuple

_SHORT_ESCAPES = {"\\": "\\\\", "\t": "\\t", "\n": "\\n", "\r": "\\r"}

# What turns the direction of a text: with one of these in a name a terminal shows another name.
DIRECTIONS = set("\u061c\u200e\u200f\u202a\u202b\u202c\u202d\u202e\u2066\u2067\u2068\u2069")


def _escaped(letter: str) -> str:
    if letter in _SHORT_ESCAPES:
        return _SHORT_ESCAPES[letter]
    if letter not in DIRECTIONS and unicodedata.category(letter) not in ("Cc", "Cs", "Zl", "Zp"):
        return letter
    is_byte = "\udc80" <= letter <= "\udcff"
    data = letter.encode("utf-8", "surrogateescape" if is_byte else "surrogatepass")
    return "".join(f"\\x{byte:02x}" for byte in data)


def one_line(text: str) -> str:
    """A name as it stands on a line. A backslash is `\\\\`, a tabulator `\\t`, a line feed `\\n`,
    a carriage return `\\r`; each byte of another control or line end, of what turns the direction
    of a text, and each that isn't UTF-8, is `\\x` and two digits. `printf %b` gives it back."""
    if text.isprintable() and "\\" not in text:
        return text
    return "".join(map(_escaped, text))


def utf8_name(path: str) -> str:
    """The name of a file as text in UTF-8, whatever the locale is; other bytes are surrogates."""
    return os.fsencode(path).decode("utf-8", "surrogateescape")


def shown(path: str) -> str:
    """The name of a file as it stands on a line."""
    return one_line(utf8_name(path))


# What the names of drawings end with.
DRAWINGS = (".dwg",)


def is_called_drawing(path: str) -> bool:
    """Whether a file is called as drawings are."""
    return path.lower().endswith(DRAWINGS)


@dataclass(frozen=True)
class Named:
    """A file, or a folder that can't be read, and why."""

    path: str
    fault: str = ""


@dataclass(frozen=True)
class Walk:
    """Which files of folders are taken: those with some endings or all; which names are left out;
    whether symbolic links are followed."""

    endings: Tuple[str, ...] = DRAWINGS
    is_all: bool = False
    left_out: Tuple[str, ...] = ()
    is_followed: bool = False

    def takes(self, entry: "os.DirEntry[str]") -> bool:
        """Whether an entry that is no folder is taken."""
        is_called = self.is_all or entry.name.lower().endswith(self.endings)
        return is_called and (self.is_followed or not entry.is_symlink())

    def leaves_out(self, path: str, name: str) -> bool:
        """Whether an entry is left out, by its name or by its path in the folder of the words."""
        return any(fnmatch.fnmatchcase(one, out) for out in self.left_out for one in (name, path))


def add_words(parser: argparse.ArgumentParser, is_followed: bool = True) -> None:
    """Adds the words by which files of folders are taken."""
    parser.set_defaults(follow=False)
    which = parser.add_mutually_exclusive_group()
    which.add_argument("--all", action="store_true", help="of folders take every file")
    which.add_argument(
        "--ext", type=_endings, metavar="EXT[,EXT..]",
        help="of folders take files with these endings (else dwg)",
    )  # fmt: skip
    parser.add_argument(
        "--exclude", type=lambda word: word.rstrip("/"), metavar="PATTERN", action="append",
        default=[],
        help="of folders leave out names or paths in them like PATTERN; may be given again",
    )  # fmt: skip
    if is_followed:
        parser.add_argument(
            "--follow", action="store_true",
            help="of folders follow symbolic links, each folder once",
        )  # fmt: skip


def _endings(word: str) -> Tuple[str, ...]:
    endings = tuple("." + one.lower().lstrip(".") for one in word.split(","))
    if "." in endings or "/" in word:
        raise argparse.ArgumentTypeError(f"{word!r} has what is no ending of a name")
    return endings


def walk_of(options: argparse.Namespace) -> Walk:
    """Which files of folders the words take."""
    return Walk(options.ext or DRAWINGS, options.all, tuple(options.exclude), options.follow)


def walked(folder: str, walk: Walk) -> Iterator[Named]:
    """The files of a folder and of those in it, in order of name. A folder that can't be read is
    told in its place."""
    seen: Set[Tuple[int, int]] = set()
    left = [(folder, "", True)]
    while left:
        path, within, is_folder = left.pop()
        if not is_folder:
            yield Named(path)
            continue
        try:
            if walk.is_followed:
                told = os.stat(path)
                if (told.st_dev, told.st_ino) in seen:
                    continue
                seen.add((told.st_dev, told.st_ino))
            with os.scandir(path) as entries:
                found = sorted(entries, key=lambda one: os.fsencode(one.name), reverse=True)
        except OSError as fault:
            yield Named(path, str(fault.strerror))
            continue
        for entry in found:
            below = os.path.join(within, entry.name)
            if not walk.leaves_out(below, entry.name):
                is_one = _is_folder(entry, walk)
                if is_one or walk.takes(entry):
                    left.append((entry.path, below, is_one))


def _is_folder(entry: "os.DirEntry[str]", walk: Walk) -> bool:
    """Whether an entry is a folder, or can't be looked at, which is told when it is its turn."""
    try:
        return entry.is_dir(follow_symlinks=walk.is_followed)
    except OSError:
        return True


def named(words: Sequence[str], walk: Walk) -> Iterator[Named]:
    """The files that words name, in their order; a folder's are walked."""
    for word in words:
        if os.path.isdir(word):
            yield from walked(word, walk)
        else:
            yield Named(word)


def nothing_found(walk: Walk) -> str:
    """What is said where no file is found."""
    taken = ", ".join("*" + ending for ending in walk.endings)
    return "nothing found" + ("" if walk.is_all else f": of folders {taken} are taken; try --all")


# What a word names that the shell gives this process, as for a process substitution.
STREAMS = ("/dev/stdin", "/dev/fd/", "/proc/self/fd/")


def is_stream(word: str) -> bool:
    """Whether a word names standard input or what the shell has opened for this process."""
    return word == "-" or word.startswith(STREAMS)


class Changed(OSError):
    """A file was changed while it was read."""

    def __init__(self) -> None:
        super().__init__(0, "changed while it was read")


class Content:
    """An open file, read once: its size, its time, its first bytes, its SHA-256."""

    def __init__(self, file: IO[bytes], most: int, is_pipe: bool = False) -> None:
        self.file, self._most = file, most
        self._data: Optional[bytes] = None
        self.is_pipe = is_pipe
        told = os.fstat(file.fileno())
        self.size, self.mtime_ns = told.st_size, told.st_mtime_ns
        if is_pipe:
            self._data = b"".join(_pieces(file, most + 1))
            self.size = len(self._data)

    def head(self, count: int) -> bytes:
        """The first bytes, no more than so many."""
        if self._data is None:
            return os.pread(self.file.fileno(), count, 0)
        return self._data[:count]

    @property
    def data(self) -> bytes:
        """The bytes, as many as are held at the most."""
        if self._data is None:
            os.lseek(self.file.fileno(), 0, os.SEEK_SET)
            self._data = b"".join(_pieces(self.file, min(self._most, self.size)))
        return self._data

    def digest(self) -> str:
        """The SHA-256 of the whole file, of which the bytes that are held are a part."""
        found = hashlib.sha256(self.data)
        if self.size > len(self.data):
            for piece in _pieces(self.file, self.size - len(self.data)):
                found.update(piece)
        return found.hexdigest()

    def refuse_changed(self) -> None:
        """Raises Changed where the file isn't any more what it was when it was opened."""
        told = os.fstat(self.file.fileno())
        if self.is_pipe:
            return
        is_short = self._data is not None and len(self._data) != min(self._most, self.size)
        if is_short or (told.st_size, told.st_mtime_ns) != (self.size, self.mtime_ns):
            raise Changed


def _pieces(file: IO[bytes], most: int) -> Iterator[bytes]:
    while most > 0:
        piece = os.read(file.fileno(), min(most, 1 << 20))
        if not piece:
            return
        most -= len(piece)
        yield piece


def opened(path: str, most: int) -> Content:
    """Opens a file and no other kind, which might never end; a stream only where it is named as
    one. Of its bytes no more than so many are held."""
    if is_stream(path):
        handle = os.dup(0) if path == "-" else os.open(path, os.O_RDONLY | os.O_CLOEXEC)
    else:
        handle = os.open(path, os.O_RDONLY | os.O_NONBLOCK | os.O_CLOEXEC)
    file = os.fdopen(handle, "rb", buffering=0)
    try:
        is_regular = stat.S_ISREG(os.fstat(handle).st_mode)
        if not is_regular and not is_stream(path):
            raise OSError(0, "no regular file")
        return Content(file, most, not is_regular)
    except BaseException:
        file.close()
        raise


