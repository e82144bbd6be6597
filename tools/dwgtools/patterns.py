"""Names by shell patterns."""

from __future__ import annotations

import fnmatch
import re
from typing import Iterable, List


# What a pattern is made of: stars, a choice of letters, and letters.
_TOKEN = re.compile(r"\*+|\[!?\]?[^]]*\]|.", re.DOTALL)


def translated(pattern: str) -> str:
    """A shell pattern as a regular expression, in which each star but the last takes as little as it can and never more, as Python translates it from
    3.9 on: else a name of many equal letters would be gone through for ever."""
    pieces = [""]
    for token in _TOKEN.findall(pattern):
        if token.startswith("*"):
            pieces.append("")
        else:
            pieces[-1] += token
    # (of what fnmatch makes of a piece the begin and the end are left out)
    first, *rest = [fnmatch.translate(piece)[4:-3] for piece in pieces]
    guarded = "".join(f"(?=(?P<g{number}>.*?{piece}))(?P=g{number})" for number, piece in enumerate(rest[:-1]))
    return f"(?s:{first}{guarded}{'.*' if rest else ''}{''.join(rest[-1:])})\\Z"


def compiled(pattern: str) -> "re.Pattern[str]":
    """What a shell pattern matches; ValueError where it has a choice of letters from a later one to an earlier, which Python before 3.9 doesn't take."""
    try:
        return re.compile(translated(pattern))
    except re.error as fault:
        raise ValueError(f"{pattern!r} is no pattern: {fault}") from None


class Patterns:
    """Shell patterns, parted by commas, for names in which small and capital letters are the same; ValueError where one is empty."""

    def __init__(self, printed: str) -> None:
        self.all = printed.split(",")
        if "" in self.all:
            raise ValueError("a pattern is empty")
        self._forms = [compiled(one.lower()) for one in self.all]

    def match(self, name: str) -> bool:
        """Whether a name is like any of them."""
        return any(form.match(name.lower()) for form in self._forms)

    def idle(self, names: Iterable[str]) -> List[str]:
        """Those that no name is like."""
        lower = [name.lower() for name in names]
        return [one for one, form in zip(self.all, self._forms) if not any(map(form.match, lower))]
