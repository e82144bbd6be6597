"""Which files of folders dwg-info takes."""

from __future__ import annotations

import fnmatch
import os
import random
import unittest
import unittest.mock
from typing import Any, List

import common
import made

from dwgtools.patterns import compiled, translated
from dwgtools.walking import DRAWINGS, Walk, endings_of, pattern_of, walked

made.needs_program()


class Walks(common.InFolder):
    """Folders in which there is a bit of everything."""

    def setUp(self) -> None:
        super().setUp()
        for name in ("a.dwg", "b.DWT", "c.bak", "old/a.dwg", "old/deep/b.dwg", "plans/a.dwg", "plans/old.dwg", "plans/x y.dwg", "notes.txt"):
            (self.folder / name).parent.mkdir(parents=True, exist_ok=True)
            self.file(name, b"x")

    def found(self, walk: Walk, folder: str = "") -> List[str]:
        """The files of a folder, by their names below it."""
        top = str(self.folder / folder)
        return [os.path.relpath(one.path, top) + (f": {one.fault}" if one.fault else "") for one in walked(top, walk)]

    def test_endings(self) -> None:
        for word, expected in (("dwg", [".dwg"]), (".DWT,bak", [".dwt", ".bak"]), ("tar.gz", [".tar.gz"])):
            self.assertEqual(endings_of(word), tuple(expected))
        for word in ("", ",", ".", "dwg,", "a/b"):
            with self.assertRaises(Exception, msg=word):
                endings_of(word)
        self.assertEqual(self.found(Walk(endings=endings_of("dwt,.BAK"))), ["b.DWT", "c.bak"])
        self.assertEqual(self.found(Walk())[0:2], ["a.dwg", "old/a.dwg"])
        self.assertEqual(DRAWINGS, (".dwg",))

    def test_left_out(self) -> None:
        for words, expected in (
            (["old"], ["a.dwg", "plans/a.dwg", "plans/old.dwg", "plans/x y.dwg"]),
            (["old*"], ["a.dwg", "plans/a.dwg", "plans/x y.dwg"]),
            (["old/"], ["a.dwg", "plans/a.dwg", "plans/old.dwg", "plans/x y.dwg"]),
            (["plans/*", "deep"], ["a.dwg", "old/a.dwg"]),
            (["old/deep"], ["a.dwg", "old/a.dwg", "plans/a.dwg", "plans/old.dwg", "plans/x y.dwg"]),
            (["[a-o]*.dwg"], ["plans/x y.dwg"]),
            (["A.dwg", "a"], ["a.dwg", "old/a.dwg", "old/deep/b.dwg", "plans/a.dwg", "plans/old.dwg", "plans/x y.dwg"]),
            (["?.dwg"], ["plans/old.dwg", "plans/x y.dwg"]),
            (["*"], []),
        ):
            for folder in ("", "."):
                self.assertEqual([name for name in self.found(Walk(left_out=tuple(map(pattern_of, words))), folder)], expected, words)
        # What is left out isn't read: a folder that can't be would be told.
        locked = self.folder / "locked"
        locked.mkdir(0)
        self.addCleanup(locked.chmod, 0o700)
        self.assertNotIn("locked", " ".join(self.found(Walk(left_out=(pattern_of("locked"),)))))

    def test_links_are_followed_once_and_end(self) -> None:
        elsewhere = self.folder / "elsewhere"
        (elsewhere / "in").mkdir(parents=True)
        (elsewhere / "in" / "far.dwg").write_bytes(b"x")
        top = self.folder / "plans"
        (top / "loop").symlink_to(top)
        (top / "up").symlink_to("../plans/loop")
        (top / "link").symlink_to(elsewhere)
        (top / "again").symlink_to(elsewhere / "in")
        (top / "to a file.dwg").symlink_to(elsewhere / "in" / "far.dwg")
        (top / "nothing.dwg").symlink_to("nowhere")
        (top / "self.dwg").symlink_to("self.dwg")
        plain = ["a.dwg", "old.dwg", "x y.dwg"]
        self.assertEqual(self.found(Walk(), "plans"), plain)
        expected = ["a.dwg", "again/far.dwg", "nothing.dwg", "old.dwg", "self.dwg", "to a file.dwg", "x y.dwg"]
        self.assertEqual(self.found(Walk(follow=True), "plans"), expected)
        # Its other name leads to no more than what wasn't seen yet.
        self.assertEqual(self.found(Walk(follow=True, left_out=(pattern_of("again"),)), "plans")[1], "link/in/far.dwg")

    def test_folders_of_one_number_are_two(self) -> None:
        """As on file systems that show several as one."""
        stat = os.stat

        def alike(path: Any, **more: Any) -> os.stat_result:
            told = stat(path, **more)
            return os.stat_result((told.st_mode, 7, *told[2:])) if os.path.isabs(path) and not os.path.basename(path).count(".") else told

        with unittest.mock.patch.object(os, "stat", alike):
            found = self.found(Walk(follow=True))
        self.assertEqual(found, self.found(Walk()))

    def test_a_link_that_may_lead_to_a_folder_is_told(self) -> None:
        """As one to a volume that isn't mounted, or to where nobody may look."""
        top = self.folder / "plans"
        for link, target in (("away", "/nowhere/plans"), ("loop", "loop"), ("through", "a.dwg/plans"), ("notes", "../notes.txt")):
            (top / link).symlink_to(target)
        self.assertEqual(self.found(Walk(), "plans"), ["a.dwg", "old.dwg", "x y.dwg"])
        self.assertEqual(self.found(Walk(follow=True), "plans"), ["a.dwg", "away", "loop", "old.dwg", "through", "x y.dwg"])

    def test_a_tree_of_links_is_no_more_work_than_its_folders(self) -> None:
        """Forty folders with links to all of them have more ways through them than can be walked."""
        top = self.folder / "many"
        for at in range(40):
            (top / f"{at}").mkdir(parents=True)
            for other in range(40):
                (top / f"{at}" / f"to {other}").symlink_to(f"../{other}")
        self.file("many/7/a.dwg", b"x")
        self.assertEqual(len(self.found(Walk(follow=True), "many")), 1)


class Translated(unittest.TestCase):
    """Patterns of the shell as regular expressions."""

    def test_as_the_library_has_them(self) -> None:
        chance = random.Random(3)
        parts = ["*", "**", "?", "[ab]", "[!a]", "[]a]", "[*?]", "[", "]", "a", "b", ".", "\\", "(", "$", "\n", "-"]
        for _ in range(3000):
            pattern = "".join(chance.choice(parts) for _ in range(chance.randrange(7)))
            try:
                form = compiled(pattern)
            except ValueError:
                self.assertRegex(pattern, r"\[.*-.*\]")
                continue
            for _ in range(10):
                name = "".join(chance.choice("ab]*?[.-\n(\\$") for _ in range(chance.randrange(8)))
                self.assertEqual(bool(form.match(name)), fnmatch.fnmatchcase(name, pattern), (pattern, name))

    def test_a_star_is_tried_once(self) -> None:
        """Python before 3.9 has it tried again for each other one."""
        self.assertEqual(translated("*a*[*]*b"), r"(?s:(?=(?P<g0>.*?a))(?P=g0)(?=(?P<g1>.*?[*]))(?P=g1).*b)\Z")
        self.assertIsNone(compiled("*-" * 20 + "b*").match("-" * 240))


if __name__ == "__main__":
    unittest.main()
