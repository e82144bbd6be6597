"""Outputs: files written whole or not at all, and which are refused."""

from __future__ import annotations

import contextlib
import errno
import functools
import os
import secrets
import select
import stat
import sys
from typing import IO, Dict, Iterator, Optional, Sequence, Set, Tuple

from .escapes import one_line
from .signals import uninterrupted
from .statuses import Exit, Status, ToolError
from .streams import is_one_file, is_standard, output_name, refuse_streams, status_at, tell
from .whole_names import Listings

# Files that were begun and don't have their name yet, each by its folder's descriptor and its name there, with what it is called in messages:
# what an interrupt leaves of them, the end of the tool removes.
_unplaced: Dict[Tuple[int, str], str] = {}


# How many names are tried for a file that is begun: each has eight bytes by chance. And how often a name is looked at that others give and take.
TRIES = 9

# The files that are read, by what they are, wherever they are moved meanwhile: none is replaced.
files_read: Set[Tuple[int, int]] = set()


def take_read(told: os.stat_result) -> None:
    """Takes note of a file that is read."""
    files_read.add((told.st_dev, told.st_ino))


def remove_unplaced() -> None:
    """Removes the files that were begun and have no name yet."""
    while _unplaced:
        (folder, name), path = _unplaced.popitem()
        try:
            os.unlink(name, dir_fd=folder)
        except FileNotFoundError:
            pass
        except OSError as fault:
            # (a signal doesn't wait for who reads standard error)
            if select.select([], [2], [], 0)[1]:
                tell_left(path, fault)


def tell_left(path: str, fault: OSError) -> None:
    """Tells that a file stays that was to be removed, as in a folder to which files can only be added."""
    tell(f"{one_line(path)} is left there, and can't be removed: {fault.strerror}")


class Spot:
    """A name in a folder that is open, at `at`, wherever that is moved; where `at` is None, by its whole name.

    With `force` the regular file that has the name may be replaced, and nothing else; with `judged`, what was found fit to be replaced, that alone, and
    as it was then.
    """

    def __init__(self, path: str, force: bool = False, at: Optional[int] = None) -> None:
        self.path, self.force, self.at = path, force, at
        self.judged: Optional[os.stat_result] = None
        self.name = path if at is None else os.path.basename(path)

    def spare_name(self) -> str:
        """A name beside the file's, as files have that are begun."""
        # A letter has four bytes at the most, and a name 255.
        return f".{self.name[:25]}.{secrets.token_hex(8)}.part"

    def beside(self, name: str) -> str:
        """What another file of the folder is called in messages."""
        return os.path.join(os.path.dirname(self.path), name)

    def there(self, name: str) -> Optional[os.stat_result]:
        """What has a name of the folder; None where nothing has."""
        try:
            return os.stat(name, dir_fd=self.at, follow_symlinks=False)
        except FileNotFoundError:
            return None

    def has(self, name: str) -> bool:
        """Whether anything is seen to have a name of the folder."""
        with contextlib.suppress(OSError):
            return self.there(name) is not None
        return False

    def rename(self, old: str, new: str) -> None:
        """Gives what has a name of the folder another one, which it takes from what has that."""
        os.replace(old, new, src_dir_fd=self.at, dst_dir_fd=self.at)

    def renamed(self, old: str, new: str, how: int) -> bool:
        """Whether what has a name of the folder has another one now, in such a way; False where the system has no such way. FileExistsError where that
        name is taken, FileNotFoundError where there is none to exchange it with."""
        return renamed(AT_CURRENT if self.at is None else self.at, old, new, how)

    def link(self, old: str, new: str) -> None:
        """Gives what has a name of the folder another one too, that nothing has."""
        os.link(old, new, src_dir_fd=self.at, dst_dir_fd=self.at, follow_symlinks=False)

    def unlink(self, name: str) -> None:
        """Takes a name of the folder away."""
        os.unlink(name, dir_fd=self.at)

    def remove(self, name: str) -> None:
        """Takes away what had a name of the folder for a while; where that stays, it is told."""
        try:
            self.unlink(name)
        except FileNotFoundError:
            pass
        except OSError as fault:
            tell_left(self.beside(name), fault)

    def opened(self) -> int:
        """The file that has the name, opened to be read; no link is followed."""
        return os.open(self.name, os.O_RDONLY | os.O_NONBLOCK | os.O_CLOEXEC | getattr(os, "O_NOFOLLOW", 0), dir_fd=self.at)

    def readable_folder(self) -> int:
        """The folder, opened to be read, which not all are that can be written."""
        return os.open(os.curdir, os.O_RDONLY, dir_fd=self.at)

    def sync_folder(self) -> None:
        """Sees to it that the names of the folder are on the disk, where it can be read."""
        with contextlib.suppress(OSError):
            folder = self.readable_folder()
            try:
                os.fsync(folder)
            finally:
                os.close(folder)

    def replaced(self) -> Optional[os.stat_result]:
        """The regular file that is to be replaced; None where there is none, and FileExistsError where what has the name must stay."""
        there = self.there(self.name) if self.force else None
        if there is not None and not stat.S_ISREG(there.st_mode):
            raise FileExistsError(errno.EEXIST, "File exists", self.path)
        return there

    def refuse_other(self, there: Optional[os.stat_result]) -> None:
        """Refuses to replace what is no regular file, is read, or isn't as it was judged."""
        if there is None:
            raise FileNotFoundError(errno.ENOENT, "No such file or directory", self.path)
        if not stat.S_ISREG(there.st_mode):
            raise FileExistsError(errno.EEXIST, "File exists", self.path)
        if (there.st_dev, there.st_ino) in files_read:
            raise ToolError(f"{one_line(self.path)} is the input itself; name another output", Exit.EXISTS)
        if self.judged is not None and not is_as_judged(there, self.judged):
            raise ToolError(f"{one_line(self.path)} was changed or replaced meanwhile", Exit.EXISTS)

    def tell_aside(self, aside: str) -> None:
        """Tells that what somebody else gave the file's name has another one, where it has that."""
        if self.has(aside):
            tell(f"{one_line(self.beside(aside))} is what was {one_line(self.path)} for a while, and stays")

    def regained(self, aside: str) -> bool:
        """Whether what was moved aside has its name again, which nothing has had since."""
        with contextlib.suppress(OSError):
            if self.renamed(aside, self.name, RENAME_NOREPLACE):
                return True
            if not self.has(self.name):
                self.rename(aside, self.name)
                return True
        return False


class WholeFile(Spot):
    """A file that takes its name when `place` is called, and leaves nothing after where that is never called.

    Used as a context; `file` is where to write. Unless `force`, a file that has the name meanwhile is left, with FileExistsError;
    with it a regular file is replaced, and keeps its mode and its owner, and what is no regular file is left.
    All of it is in the folder that was opened first, at `at`, wherever that is moved; no whole name is made by text. That may be given open.
    It never has other permissions than `most`, and a new one none but those of `new`. With `times`, those of access and of the last change, it has these.
    """

    file: IO[bytes]
    new: int = 0o666
    times: Optional[Tuple[int, int]] = None
    # Whether it has its name, and replaced nothing.
    is_new: bool = False

    def __init__(self, path: str, force: bool = False, folder: Optional[int] = None, most: int = 0o777) -> None:
        super().__init__(path, force)
        self.most = most
        self.name = os.path.basename(path)
        self._given, self._folder, self._temporary = folder, -1, ""
        self._own: Optional[os.stat_result] = None

    def __enter__(self) -> "WholeFile":
        try:
            with uninterrupted():
                self.at = self._folder = self._opened_folder() if self._given is None else os.dup(self._given)
                self.file = os.fdopen(self._begun(), "w+b")
        except BaseException:
            self.__exit__()
            raise
        return self

    def _opened_folder(self) -> int:
        # (a folder need not be readable for this, where the system has a way)
        return os.open(os.path.dirname(self.path) or os.curdir, getattr(os, "O_PATH", os.O_RDONLY))

    def _begun(self) -> int:
        """Begins the file under a name that nothing has."""
        for _ in range(TRIES):
            name = self.spare_name()
            with contextlib.suppress(FileExistsError):
                handle = os.open(name, os.O_RDWR | os.O_CREAT | os.O_EXCL, 0o600, dir_fd=self.at)
                self._temporary, self._own = name, os.fstat(handle)
                _unplaced[self._folder, name] = self.beside(name)
                return handle
        raise OSError(errno.EBUSY, "no name is free for a temporary file", self.path)

    def finish(self) -> None:
        """Sees to it that all that was written is on the disk."""
        self.file.flush()
        handle, old = self.file.fileno(), self.replaced()
        if old:
            with contextlib.suppress(OSError):
                os.fchown(handle, old.st_uid, old.st_gid)
        os.fchmod(handle, (old.st_mode if old else self.new & ~mask_of_modes()) & self.most)
        if self.times is not None:
            # (a file system that can't have them has the file all the same)
            with contextlib.suppress(OSError):
                os.utime(handle, ns=self.times)
        os.fsync(handle)

    def place(self) -> None:
        """Gives the file its name."""
        with uninterrupted():
            aside = self.placed()
            if aside is not None:
                self.remove(aside)

    def placed(self) -> Optional[str]:
        """Gives the file its name; and the name beside it that what it replaced has then, None where it replaced nothing, or no other name is to be
        had."""
        aside = None
        for left in reversed(range(TRIES)):
            try:
                self.is_new = self.replaced() is None
                if self.is_new:
                    self._link()
                else:
                    aside = self._exchange()
                break
            except (FileExistsError, FileNotFoundError):
                # (with `force` another may have come or gone meanwhile)
                if not self.force or not left or not self._is_regular() or not self.is_own(self.there(self._temporary)):
                    raise
        self.sync_folder()
        return aside

    def _is_regular(self) -> bool:
        """Whether nothing has the name, or a regular file."""
        there = self.there(self.name)
        return there is None or stat.S_ISREG(there.st_mode)

    def _exchange(self) -> Optional[str]:
        """Takes its name from the file that has it, and gives that another one. What may not be replaced has its name again. Where the system can't
        exchange names, that file gets a link, and between a look at it and the taking lies no other step."""
        with uninterrupted():
            if self.renamed(self._temporary, self.name, RENAME_EXCHANGE):
                aside: Optional[str] = self._temporary
                try:
                    self.refuse_other(self.there(self._temporary))
                except BaseException:
                    self.is_exchanged_back(self._temporary)
                    raise
            else:
                aside = self._renamed_over()
            _unplaced.pop((self._folder, self._temporary), None)
            self._temporary = ""
            return aside

    def _renamed_over(self) -> Optional[str]:
        """Takes its name from the file that has it by a rename, and gives that another one before; None where the file system has no links."""
        aside = self._linked_aside()
        try:
            self.refuse_other(self.there(self.name))
            self.rename(self._temporary, self.name)
        except BaseException:
            if aside is not None:
                self.remove(aside)
            raise
        return aside

    def is_exchanged_back(self, old: str) -> bool:
        """Whether what was replaced has its name again, and this file the other one; what somebody else gave the name meanwhile keeps it."""
        try:
            if not self.renamed(old, self.name, RENAME_EXCHANGE):
                return False
        except FileNotFoundError:
            # (somebody took this file away)
            return self.regained(old)
        if self.is_own(self.there(old)):
            return True
        self.renamed(old, self.name, RENAME_EXCHANGE)
        return False

    def _linked_aside(self) -> Optional[str]:
        """Gives what has the name another one too; None where the file system has no links."""
        aside = self.spare_name()
        with contextlib.suppress(OSError):
            self.link(self.name, aside)
            return aside
        return None

    def is_own(self, there: Optional[os.stat_result]) -> bool:
        """Whether that is this file."""
        return there is not None and self._own is not None and os.path.samestat(there, self._own)

    def _link(self) -> None:
        """Gives the file its name where no other has it: by a link or a rename that never replaces, or else by one over a name that is taken first."""
        try:
            self.link(self._temporary, self.name)
        except FileExistsError:
            raise FileExistsError(errno.EEXIST, "File exists", self.path) from None
        except OSError:
            with uninterrupted():
                if self._renamed():
                    return
                # (who is killed between these two leaves an empty file)
                empty = self._take_name()
                try:
                    self.rename(self._temporary, self.name)
                except OSError:
                    there = self.there(self.name)
                    if there is not None and os.path.samestat(there, empty):
                        self.remove(self.name)
                    raise

    def _renamed(self) -> bool:
        """Whether the file has its name by a rename, where no other has that. Not all systems and file systems have such a one."""
        try:
            return self.renamed(self._temporary, self.name, RENAME_NOREPLACE)
        except FileExistsError:
            raise FileExistsError(errno.EEXIST, "File exists", self.path) from None

    def _take_name(self) -> os.stat_result:
        """Has an empty file take the name where nothing has it."""
        try:
            handle = os.open(self.name, os.O_WRONLY | os.O_CREAT | os.O_EXCL, dir_fd=self.at)
        except FileExistsError:
            raise FileExistsError(errno.EEXIST, "File exists", self.path) from None
        try:
            return os.fstat(handle)
        finally:
            os.close(handle)

    def refuse_moved(self, what: str) -> None:
        """Refuses a folder that somebody moved or replaced meanwhile."""
        if not self.is_in_place():
            folder = one_line(os.path.dirname(self.path) or os.curdir)
            raise ToolError(f"{folder} was moved or replaced meanwhile, and {what}", Status.WRITE_FAULT)

    def _remove_temporary(self) -> None:
        """Removes the file by the name that it was begun by; what somebody else gave that name stays, and is told."""
        if self.has(self._temporary) and not self.is_own(self.there(self._temporary)):
            self.tell_aside(self._temporary)
        else:
            self.remove(self._temporary)

    def is_in_place(self) -> bool:
        """Whether its folder is the one of its name still, which somebody may have moved or replaced."""
        with contextlib.suppress(OSError):
            return os.path.samestat(os.stat(os.path.dirname(self.path) or os.curdir), os.fstat(self._folder))
        return False

    def __exit__(self, *_: object) -> None:
        with uninterrupted():
            # What can't be written any more is given up: where it was to be kept, `finish` has told.
            with contextlib.suppress(OSError, AttributeError):
                self.file.close()
            if self._temporary:
                self._remove_temporary()
                _unplaced.pop((self._folder, self._temporary), None)
            if self._folder >= 0:
                os.close(self._folder)
                self.at = self._folder = -1


# By which `renameat2` of Linux replaces nothing, and by which two files exchange their names.
RENAME_NOREPLACE, RENAME_EXCHANGE = 1, 2
# What stands for the folder that a process is in.
AT_CURRENT = -100


def renamed(folder: int, old: str, new: str, how: int) -> bool:
    """What `Spot.renamed` tells of names of an open folder."""
    try:
        # (few outputs need this, and each tool would begin later)
        import ctypes  # pylint: disable=import-outside-toplevel

        if ctypes.CDLL(None, use_errno=True).renameat2(folder, os.fsencode(old), folder, os.fsencode(new), how) == 0:
            return True
        fault = ctypes.get_errno()
    except (ImportError, AttributeError, OSError):
        return False
    if fault in (errno.EEXIST, errno.ENOENT):
        raise OSError(fault, os.strerror(fault), new)
    return False


def is_as_judged(there: os.stat_result, judged: os.stat_result) -> bool:
    """Whether a file is the one that was looked at, and wasn't written since."""
    return os.path.samestat(there, judged) and (there.st_size, there.st_mtime_ns) == (judged.st_size, judged.st_mtime_ns)


@functools.lru_cache(maxsize=None)
def mask_of_modes() -> int:
    """The mask of modes of new files. It can be read only by changing it, so who works in threads asks for it before."""
    mask = os.umask(0o077)
    os.umask(mask)
    return mask


def refuse_output(path: Optional[str], force: bool, sources: Sequence[Optional[str]]) -> None:
    """Refuses an output before any work: one that is an input by any name, or what a standard stream goes to, one that is there, and what `force`
    doesn't replace."""
    refuse_streams(sources, [] if path is None or is_standard(path) else [path])
    name, there = output_name(path), status_at(path, 1)
    if any(is_one_file(there, status_at(source, 0)) for source in sources):
        raise ToolError(f"{name} is the input itself; name another output", Exit.EXISTS)
    if path is None or is_standard(path):
        return
    if not path:
        raise ToolError("the output has no name", Exit.USAGE)
    try:
        found = os.lstat(path)
    except FileNotFoundError:
        return
    except OSError as fault:
        raise ToolError(f"{name}: {fault.strerror}", Status.WRITE_FAULT) from None
    if stat.S_ISDIR(found.st_mode):
        raise ToolError(f"{name} is a folder", Exit.EXISTS)
    if not force:
        raise ToolError(f"{name} is there already; --force replaces it", Exit.EXISTS)
    if not stat.S_ISREG(found.st_mode):
        raise ToolError(f"{name} is no regular file, and --force replaces no other", Exit.EXISTS)
    if not Listings().have(path):
        raise ToolError(f"{name} is there by another name, which --force doesn't replace", Exit.EXISTS)


@contextlib.contextmanager
def output(path: Optional[str], force: bool) -> Iterator[IO[bytes]]:
    """Standard output, or a file that is written whole or not at all; status 5 where that fails, 73 where the file is there."""
    try:
        if path is None or is_standard(path):
            yield sys.stdout.buffer
            sys.stdout.buffer.flush()
            return
        with WholeFile(path, force) as whole:
            yield whole.file
            whole.finish()
            if whole.replaced():
                whole.refuse_moved("what is in it stays")
            whole.place()
            whole.refuse_moved(f"{one_line(path)} went with it")
    except FileExistsError:
        raise ToolError(f"{output_name(path)} is there already", Exit.EXISTS) from None
    except BrokenPipeError:
        raise
    except OSError as fault:
        raise ToolError(f"{output_name(path)} can't be written: {fault.strerror}", Status.WRITE_FAULT) from None


def write_whole(path: str, data: bytes, force: bool = False) -> None:
    """Writes a file whole or not at all."""
    with WholeFile(path, force) as whole:
        whole.file.write(data)
        whole.finish()
        whole.place()
