"""Whole names of files, whatever links lead to them: each folder's is found once, as long as it is that of the same folder."""

from __future__ import annotations

import os
from typing import Dict, FrozenSet, Optional, Tuple

# No system finds a file by a name of more bytes.
MOST_NAME = 4095

# How many folders are known at the most: those of one name may be thousands, each in the other.
MOST_KNOWN = 1 << 13

# The whole name of a folder by its name, with what the folder is.
_known: Dict[str, Tuple[str, int, int]] = {}


def _known_name(folder: str) -> Optional[str]:
    """The whole name of a folder that is known, and is where it was."""
    name, device, inode = _known.get(folder, ("", 0, 0))
    is_same = bool(name) and all((told.st_dev, told.st_ino) == (device, inode) for told in map(os.stat, {folder, name}))
    return name if is_same else None


def _take(folder: str, name: str) -> str:
    """Knows the whole name of a folder."""
    told = os.stat(name)
    if len(_known) >= MOST_KNOWN:
        _known.clear()
    _known[folder] = name, told.st_dev, told.st_ino
    return name


def _has_plain_end(path: str) -> bool:
    """Whether what has a name stands by that in the folder before it, and is no link that leads elsewhere."""
    folder, last = os.path.split(path)
    return bool(folder) and last not in ("", os.curdir, os.pardir) and not os.path.islink(path)


def _name_of_folder(folder: str) -> str:
    """The whole name of a folder that is there."""
    inner = []
    name = _known_name(folder)
    while name is None and _has_plain_end(folder):
        inner.append(folder)
        folder = os.path.dirname(folder)
        name = _known_name(folder)
    name = _take(folder, os.path.realpath(folder)) if name is None else name
    for one in reversed(inner):
        name = _take(one, os.path.join(name, os.path.basename(one)))
    return name


def absolute_name(path: str) -> str:
    """The whole name of a file, whatever links lead to it: `link/../plan.dwg` stands beside what the link leads to, and /dev/stdin is
    another file each time. Where the folder that it begins in is gone, or no file can have the name, the name itself; where more links
    lead on than Python follows, and any system, the name in that folder."""
    if len(path) > MOST_NAME:
        return path
    try:
        if _has_plain_end(path):
            folder, last = os.path.split(path)
            return os.path.join(_name_of_folder(folder), last)
    except (OSError, ValueError):
        # (a folder that isn't there, or where nobody may look)
        pass
    try:
        return os.path.realpath(path)
    except RecursionError:
        return os.path.join(absolute_name(os.curdir), path)
    except (OSError, ValueError):
        return path


def _working_folder() -> str:
    """The whole name of the folder that relative names begin in; where that is gone, the relative one."""
    try:
        return os.getcwd()
    except OSError:
        return os.curdir


def reached(name: str) -> str:
    """By what the system finds what has a whole name: where that is longer than any that it takes, from the working folder, below which it may stand."""
    if len(os.fsencode(name)) <= MOST_NAME:
        return name
    here = os.path.join(_working_folder(), "")
    return name[len(here) :] or os.curdir if os.path.join(name, "").startswith(here) else name


class Listings:
    """What folders list, each as it was when it was asked for first."""

    def __init__(self) -> None:
        self._names: Dict[str, Optional[FrozenSet[str]]] = {}

    def have(self, path: str) -> bool:
        """Whether a folder has a name as it is spelled: a file system may take it for one that differs, as by small letters; a folder that can't be read
        is believed."""
        folder, last = os.path.split(path)
        if folder not in self._names:
            try:
                self._names[folder] = frozenset(os.listdir(folder or os.curdir))
            except OSError:
                self._names[folder] = None
        names = self._names[folder]
        return names is None or last in names
