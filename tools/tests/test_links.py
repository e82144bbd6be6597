"""Every link of the documents leads somewhere: a file of the repository, and a heading where it names one."""

from __future__ import annotations

import pathlib
import re
import unittest
from functools import lru_cache
from typing import Iterator, NamedTuple, Set

from made import TOP

FENCED = re.compile(r"^(```|~~~).*?^\1[^\n]*$", re.M | re.S)
CODE = re.compile(r"`[^`\n]*`")
LINK = re.compile(r"\[[^\]]*\]\(([^)\s]+)\)")
HEADING = re.compile(r"^#{1,6} +(.+?) *#*$", re.M)


class Link(NamedTuple):
    """A link: where it stands, the file that it leads to, and the heading there, if it names one."""

    page: pathlib.Path
    target: pathlib.Path
    anchor: str


def pages() -> Iterator[pathlib.Path]:
    """The documents of the repository, without those in folders that a build or git makes."""
    for path in sorted(TOP.rglob("*.md")):
        if not {".git", "out"} & set(path.relative_to(TOP).parts):
            yield path


def prose(path: pathlib.Path) -> str:
    """A document without its blocks of code."""
    return FENCED.sub("", path.read_text(encoding="utf-8"))


@lru_cache(maxsize=None)
def anchors(path: pathlib.Path) -> Set[str]:
    """The anchors that the headings of a document get: lower case, without punctuation, a hyphen for a space, and a number from the second of a name on."""
    found: Set[str] = set()
    for heading in HEADING.findall(prose(path)):
        anchor = re.sub(r"[^\w\- ]", "", re.sub(r"\[([^\]]*)\]\([^)]*\)", r"\1", heading).lower()).replace(" ", "-")
        count = 0
        while (f"{anchor}-{count}" if count else anchor) in found:
            count += 1
        found.add(f"{anchor}-{count}" if count else anchor)
    return found


def links(path: pathlib.Path) -> Iterator[Link]:
    """The links of a document that stay in the repository."""
    for target in LINK.findall(CODE.sub("`", prose(path))):
        if not re.match(r"[a-z]+:", target):
            name, _, anchor = target.partition("#")
            yield Link(path, (path.parent / name).resolve() if name else path, anchor)


class Links(unittest.TestCase):
    """All documents together."""

    def test_links_lead_somewhere(self) -> None:
        broken = []
        count = 0
        for link in (link for page in pages() for link in links(page)):
            count += 1
            is_inside = TOP == link.target or TOP in link.target.parents
            if not is_inside or not link.target.exists() or link.anchor and link.anchor not in anchors(link.target):
                broken.append(f"{link.page.relative_to(TOP)}: {link.target}#{link.anchor}")
        self.assertEqual(broken, [])
        self.assertGreaterEqual(count, 30)

    def test_anchors(self) -> None:
        self.assertLessEqual({"kinds", "items-of-extended-data", "the-audit", "file-header"}, anchors(TOP / "docs" / "FORMAT.md"))
        self.assertNotIn("kind", anchors(TOP / "docs" / "FORMAT.md"))


if __name__ == "__main__":
    unittest.main()
