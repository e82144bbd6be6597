"""What the documents show is what is printed, and the script that says so sees what isn't."""

from __future__ import annotations

import os
import pathlib
import re
import shutil
import subprocess
import tempfile
import unittest
from typing import Dict
from unittest import mock

import made
from made import TOOLS, TOP

CHECK = made.module(TOOLS / "check-docs", "check_docs")
LAST = re.compile(r"^(\d+) examples? are as shown, (\d+) aren't, (\d+) not run \(make, make check\)$")


def check(*documents: pathlib.Path, program: str = made.PROGRAM) -> "subprocess.CompletedProcess[str]":
    """What the script says of documents."""
    words = [str(TOOLS / "check-docs"), *map(str, documents)]
    return subprocess.run(words, capture_output=True, text=True, check=False, env={**os.environ, "DWG": program})


class Docs(unittest.TestCase):
    """Documents of one's own stand in a folder of their own."""

    def setUp(self) -> None:
        self.folder = pathlib.Path(tempfile.mkdtemp(prefix="dwg shown "))
        self.addCleanup(shutil.rmtree, self.folder)

    def test_shown(self) -> None:
        made.needs_program()
        ran = check()
        last = LAST.match(ran.stdout.splitlines()[-1])
        assert last is not None, ran.stdout
        self.assertEqual((ran.returncode, last[2], last[3], ran.stderr), (0, "0", "1", ""), ran.stdout)
        self.assertGreaterEqual(int(last[1]), 30)

    def test_the_recipe_of_carry_finds_nothing_that_it_wrote(self) -> None:
        """Where the folder of the drawings is the one that it works in."""
        found = re.search(r"find -H samples crates/dwg_cli/data (.+?)-exec", (TOP / "docs" / "RECIPES.md").read_text())
        assert found is not None
        for name in ("a.dwg", "carried/drawings/a.dwg", "s/carried/b.dwg"):
            (self.folder / name).parent.mkdir(parents=True, exist_ok=True)
            (self.folder / name).touch()
        for top in (".", f"{self.folder}"):
            ran = subprocess.run(f"find -H '{top}' {found[1]} -print", shell=True, cwd=self.folder, capture_output=True, text=True, check=True)
            self.assertEqual(sorted(os.path.relpath(self.folder / path, self.folder) for path in ran.stdout.splitlines()), ["a.dwg", "s/carried/b.dwg"])

    def test_all_documents_have_examples(self) -> None:
        for document in CHECK.DOCUMENTS:
            self.assertGreaterEqual(len(CHECK.examples_of(document.read_text())), 6, document)

    def judged(self, text: str) -> "subprocess.CompletedProcess[str]":
        """What the script says of a text."""
        path = self.folder / "page.md"
        path.write_text(text)
        return check(path)

    def test_right(self) -> None:
        text = "A page.\n\n```sh\necho one > made; cat made; echo two >&2; exit 3\n```\n\n```text\none\ntwo\n```\n\n```sh\ncat made >/dev/null\n```\n\n```sh\nmake check\n```\n"
        ran = self.judged(text)
        self.assertEqual((ran.returncode, ran.stdout), (0, "2 examples are as shown, 0 aren't, 1 not run (make, make check)\n"))

    def test_where_no_program_is_built(self) -> None:
        path = self.folder / "page.md"
        path.write_text("```sh\n./dwg sections < x\n```\n\n```text\nwrong\n```\n\n```sh\ntools/dwg-check x\n```\n\n```sh\necho one\n```\n\n```text\none\n```\n")
        launcher = made.program_that(self.folder, "unbuilt", ["echo 'dwg: not built' >&2", "exit 69"])
        ran = check(path, program=str(launcher))
        self.assertEqual((ran.returncode, ran.stdout), (0, "1 examples are as shown, 0 aren't, 0 not run (make, make check), 2 left out, as the program isn't built\n"), ran.stderr)

    def test_program_and_tools(self) -> None:
        made.needs_program()
        text = "```sh\n./dwg drill 1 | head -n 1; dwg drill 2 | head -n 1; tools/dwg-check --quiet samples/cut.dwg | wc -l; dwg-diff --help | head -c 15\n```\n\n```text\ndrill 1\ndrill 2\n2\nusage: dwg-diff\n```\n"
        self.assertEqual(self.judged(text).returncode, 0)

    def test_wrong(self) -> None:
        for text, place in (
            ("```sh\necho one\n```\n\n```text\ntwo\n```\n", "page.md:2: echo one: prints something else"),
            ("```sh\necho one\n```\n\n```text\none\none\n```\n", "page.md:2: echo one: prints something else"),
            ("a\n\n```sh\necho one\n```\n", "page.md:4: echo one: prints something else"),
            ("```sh\necho one\n```\n\nWords between.\n\n```text\none\n```\n", "page.md:2: echo one: prints something else"),
            ("```text\none\n```\n", "page.md:2: a text: no command prints this"),
            ("```sh\nfalse\n```\n", "page.md:2: false: ends with status 1"),
        ):
            self.expect_wrong(text, place)

    def expect_wrong(self, text: str, place: str) -> None:
        """The script says at which place a text is wrong."""
        ran = self.judged(text)
        self.assertEqual(ran.returncode, 1, text)
        self.assertIn(place, ran.stdout)

    def test_wrong_answer_of_the_program(self) -> None:
        made.needs_program()
        text = "```sh\n./dwg audit < crates/dwg_cli/data/items.dwg\n```\n\n```text\naudit no\n```\n"
        self.expect_wrong(text, "page.md:2: ./dwg audit < crates/dwg_cli/data/items.dwg: prints something else")

    def test_left_out(self) -> None:
        for shown, printed, expected in (
            ("a", "a", True),
            ("a", "a b", False),
            ("...", "", True),
            ("a ...", "a b c", True),
            ("a ...", "b a", False),
            ("... c", "a b c", True),
            ("... c", "a b", False),
            ("a ... c", "a c", True),
            ("a ... a", "a", False),
            ("a ... b ... c", "a x b y c", True),
            ("a ... b ... c", "a x y c", False),
            ("a ... b ... b", "a b", False),
            ("a ... b c ... d ... e", "a b x b c d x e", True),
            ("a ... d ... b c ... e", "a b x b c d x e", False),
        ):
            self.assertEqual(CHECK.is_shown(printed.split(), shown.split()), expected, (shown, printed))

    def test_a_document_that_is_no_utf8(self) -> None:
        path = self.folder / "page.md"
        path.write_bytes(b"Caf\xe9.\n\n```sh\nprintf 'a\\351\\n'\n```\n\n```text\na\xe9\n```\n")
        ran = check(path)
        self.assertEqual((ran.returncode, ran.stdout[:22]), (0, "1 examples are as show"), ran.stderr)

    def test_what_is_no_file_is_not_copied(self) -> None:
        for name in ("top/tools", "top/out"):
            (self.folder / name).mkdir(parents=True)
        (self.folder / "top" / "dwg").symlink_to("nowhere")
        (self.folder / "top" / "page").touch()
        os.mkfifo(self.folder / "top" / "pipe")
        with mock.patch.object(CHECK, "TOP", self.folder / "top"), CHECK.fresh_copy("/bin/true") as copy:
            self.assertEqual((sorted(os.listdir(copy)), os.readlink(copy / "dwg")), (["dwg", "page", "tools"], "/bin/true"))

    def test_words(self) -> None:
        ran = check(self.folder / "nosuch.md")
        self.assertEqual(ran.returncode, 70)
        ran = subprocess.run([str(TOOLS / "check-docs"), "--nosuch"], capture_output=True, check=False)
        self.assertEqual(ran.returncode, 64)


class Recipes(unittest.TestCase):
    """What recipes do where something goes wrong, each in a folder of its own."""

    def setUp(self) -> None:
        made.needs_program()
        self.folder = pathlib.Path(tempfile.mkdtemp(prefix="dwg recipes "))
        self.addCleanup(shutil.rmtree, self.folder)
        (self.folder / "dwg").symlink_to(made.PROGRAM)

    def run_it(self, script: str, **more: str) -> "subprocess.CompletedProcess[str]":
        """Runs a script in the folder."""
        path = f"{self.folder}{os.pathsep}{TOOLS}{os.pathsep}{os.environ['PATH']}"
        environment = {**os.environ, "PATH": path, "DWG": made.PROGRAM, "HOME": str(self.folder), **more}
        words = ["sh", "-c", script]
        return subprocess.run(words, cwd=self.folder, env=environment, stdin=subprocess.DEVNULL, capture_output=True, text=True, check=False)

    def contents(self) -> Dict[str, bytes]:
        """What stands in the folder by the names of drawing, certificate and sums."""
        return {name: (self.folder / name).read_bytes() for name in ("made.dwg", "made.cert", "made.sha256")}

    def test_an_older_certificate_is_kept_where_none_is_made(self) -> None:
        page = (TOP / "docs" / "RECIPES.md").read_text()
        (script,) = [one.command for one in CHECK.examples_of(page) if "certify <" in (one.command or "")]
        (self.folder / "made.dwg").write_bytes(made.made(1))
        self.assertEqual(self.run_it(script).returncode, 0)
        before = self.contents()
        check_both = "sha256sum --quiet -c made.sha256 && cat made.cert made.dwg | ./dwg accept"
        self.assertEqual((self.run_it(check_both).stdout, before["made.sha256"].count(b"\n")), ("accept yes\n", 2))
        for data, status in ((made.flipped(made.made(1), 900), 3), ((made.DATA / "unsound.dwg").read_bytes(), 1)):
            (self.folder / "made.dwg").write_bytes(data)
            self.assertEqual((self.run_it(script).returncode, self.contents()), (status, {**before, "made.dwg": data}))
            self.assertNotEqual(self.run_it(check_both).returncode, 0)


if __name__ == "__main__":
    unittest.main()
