"""What stands around the tools: manual pages, completion, and that every script is sound by its own checker."""

from __future__ import annotations

import os
import pathlib
import py_compile
import re
import shutil
import subprocess
import tempfile
import unittest
from typing import List

import made
from made import TOOLS, TOP

PAGES = ["dwg.1", "dwg-check.1", "dwg-recover.1", "dwg-tools.7"]
# The tools that have a page of their own, and those that share one.
OWN = ["dwg-check", "dwg-recover"]
SHARED = ["dwg-diff", "dwg-info", "dwg-json", "dwg-picture"]
NAMES = sorted([*OWN, *SHARED])
SUBCOMMANDS = ["keep", "verify", "forget", "export", "report"]
OPTION = re.compile(r"--[a-z][a-z0-9-]*")
# What a page has no line for.
COMMON = {"--help", "--version"}


class House(unittest.TestCase):
    """Each test has a folder of its own."""

    def setUp(self) -> None:
        self.folder = pathlib.Path(tempfile.mkdtemp(prefix="dwg house "))
        self.addCleanup(shutil.rmtree, self.folder)

    def test_python(self) -> None:
        scripts = ["test", "try-cases", "check-all", "check-docs", "install", "tests/recorded/dwg", "tests/recorded/record", "tests/recorded/run", *NAMES]
        for path in [*TOOLS.rglob("*.py"), *(TOOLS / name for name in scripts)]:
            py_compile.compile(str(path), cfile=str(self.folder / "compiled"), doraise=True)

    def test_types(self) -> None:
        """Those of the package, and those of the tools that don't stand on it yet, of which the package has the same name."""
        if not shutil.which("mypy"):
            self.skipTest("types, as mypy isn't installed")
        for words in ([], ["src", "packing.py"]):
            ran = subprocess.run(["mypy", "--cache-dir", str(self.folder), *words], cwd=TOOLS, capture_output=True, text=True, check=False)
            self.assertEqual((ran.returncode, ran.stderr), (0, ""), ran.stdout)

    def test_the_package_is_laid_out(self) -> None:
        """Lines of at most 100 columns, files of at most 350 lines."""
        for path in [*(TOOLS / "src").rglob("*.py"), TOOLS / "packing.py", TOOLS / "install"]:
            lines = path.read_text().splitlines()
            self.assertEqual([line for line in lines if len(line) > 100], [], path)
            self.assertLessEqual(len(lines), 350, path)

    def test_shell(self) -> None:
        if not shutil.which("shellcheck"):
            self.skipTest("shell scripts, as shellcheck isn't installed")
        for words in (["dwg"], ["samples/make"], ["-s", "bash", "tools/completion.bash"]):
            ran = subprocess.run(["shellcheck", *words], cwd=TOP, capture_output=True, check=False)
            self.assertEqual((ran.returncode, ran.stdout), (0, b""))

    def test_manual_pages(self) -> None:
        if not shutil.which("mandoc"):
            self.skipTest("manual pages, as mandoc isn't installed")
        # A page names others, which mandoc finds in the folder that it runs in.
        ran = subprocess.run(["mandoc", "-T", "lint", *PAGES], cwd=TOP / "docs", capture_output=True, text=True, check=False)
        # (of a page that its own index lacks it tells too, which is nothing of these pages)
        told = [line for line in (ran.stdout + ran.stderr).splitlines() if not line.startswith("mandoc: outdated mandoc.db lacks ")]
        self.assertEqual((ran.returncode, told), (0, []))

    def helped(self, *words: str) -> str:
        """What a tool says of its words."""
        return subprocess.run([str(TOOLS / words[0]), *words[1:], "--help"], capture_output=True, text=True, check=True).stdout

    def test_shared_page_has_all_options(self) -> None:
        page = (TOP / "docs" / "dwg-tools.7").read_text()
        for name in SHARED:
            told = self.helped(name)
            self.assertIn(f".Nm {name}\n", page)
            section = page[page.index(f".Ss {name}\n") :]
            for option in {*OPTION.findall(told.split("exit status")[0])} - COMMON - {"--program"}:
                self.assertIn(f".It Fl -{option[2:]}", section.split("\n.Ss ")[0].split("\n.Sh ")[0], f"{name} {option}")
            self.assertTrue(told.splitlines()[-1].startswith("This tool is tested"), name)

    def test_own_pages_have_all_options_and_no_others(self) -> None:
        """But for those that only --help tells; and both pages together are short."""
        words = 0
        for name in OWN:
            page = (TOP / "docs" / f"{name}.1").read_text()
            told = "".join(self.helped(name, *more) for more in ([], *([one] for one in SUBCOMMANDS if name == "dwg-check")))
            said = {f"--{option}" for option in re.findall(r"Fl -([a-z0-9-]+)", page)}
            self.assertEqual(said - COMMON, {*OPTION.findall(told)} - COMMON, name)
            if shutil.which("mandoc"):
                shown = subprocess.run(["mandoc", "-T", "utf8", f"{name}.1"], cwd=TOP / "docs", capture_output=True, text=True, check=True).stdout
                words += len(shown.split())
        self.assertLess(words, 1500)

    def test_version(self) -> None:
        """A tool of the package says its version; another one its commit, and that it isn't proved."""
        git = ["git", "-C", str(TOP), "rev-parse", "HEAD"]
        known = subprocess.run(git, capture_output=True, text=True, check=False) if shutil.which("git") and (TOP / ".git").exists() else None
        commit = known.stdout.strip() if known and known.returncode == 0 else "unknown"
        for name in NAMES:
            # (neither the folder nor what git is told elsewhere counts)
            ran = subprocess.run([str(TOOLS / name), "--version"], capture_output=True, text=True, check=True, cwd="/", env={**os.environ, "GIT_DIR": "/nowhere"})
            if name in OWN:
                self.assertRegex(ran.stdout, rf"^{name} [0-9]+[.][0-9.]+\n$")
                continue
            first, second = ran.stdout.splitlines()
            self.assertIn(first, (f"{name}, commit {commit}", f"{name}, commit {commit} and changes"))
            self.assertTrue(second.startswith("This tool is tested (tools/test), not proved"))

    def completed(self, *words: str) -> List[str]:
        """What completion proposes for the last word."""
        script = 'source "$0"; complete -p "$1" >/dev/null || exit 9; COMP_WORDS=("$@"); COMP_CWORD=$(($# - 1)); "$(complete -p "$1" | sed "s/.*-F \\([^ ]*\\).*/\\1/")" "$1"; printf "%s\\n" "${COMPREPLY[@]}"'
        environment = {**os.environ, "PATH": f"{TOOLS}:{os.environ['PATH']}"}
        ran = subprocess.run(["bash", "-c", script, str(TOOLS / "completion.bash"), *words], cwd=self.folder, capture_output=True, text=True, check=False, env=environment)
        self.assertEqual((ran.returncode, ran.stderr), (0, ""))
        return sorted(filter(None, ran.stdout.split("\n")))

    def test_completion(self) -> None:
        for name in ("plan a.dwg", "PLAN.DWG", "notes.txt"):
            (self.folder / name).touch()
        (self.folder / "plans").mkdir()
        self.assertEqual(self.completed("dwg", "re"), ["recover", "rewrite"])
        self.assertEqual(self.completed("dwg", "c"), ["carry", "certify", "classes"])
        self.assertEqual(self.completed("dwg", "make", ""), [])
        self.assertEqual(self.completed("dwg-check", "--j"), ["--jobs", "--json"])
        self.assertEqual(self.completed("dwg-check", "k"), ["keep"])
        self.assertEqual(self.completed("dwg-check", "verify", "n"), ["notes.txt"])
        self.assertEqual(self.completed("dwg-check", "verify", "notes.txt", "p"), ["plan a.dwg", "plans"])
        self.assertEqual(self.completed("dwg-check", "verify", "--t"), ["--take"])
        self.assertEqual(self.completed("dwg-check", "verify", "--take", "m"), ["moved"])
        self.assertEqual(self.completed("dwg-check", "report", "--x"), ["--xml"])
        self.assertEqual(self.completed("dwg-recover", "--f"), ["--force"])
        self.assertEqual(self.completed("dwg-recover", "--tree", "p"), ["plans"])
        self.assertEqual(self.completed("dwg-recover", "--whole", ""), ["copy", "skip"])
        self.assertEqual(self.completed("dwg-check", "p"), ["plan a.dwg", "plans"])
        self.assertEqual(self.completed("dwg-check", "--json", "P"), ["PLAN.DWG"])
        self.assertEqual(self.completed("dwg-check", "--jobs", ""), [])
        self.assertEqual(self.completed("dwg-check", "--only", "da"), ["damaged"])
        self.assertEqual([self.completed("dwg-picture", "--window", "p"), self.completed("dwg-picture", "--layers", "p")], [[], []])
        self.assertEqual(self.completed("dwg-info", "--layers", "p"), ["plan a.dwg", "plans"])
        self.assertEqual([self.completed("dwg-info", "--f"), self.completed("dwg-info", "--ext", "p"), self.completed("dwg-info", "--tr")], [["--fixed", "--follow", "--force"], [], []])
        self.assertEqual(self.completed("dwg-picture", "--w"), ["--width", "--window"])
        for name in NAMES:
            self.assertIn("--help", self.completed(name, "--h"))


if __name__ == "__main__":
    unittest.main()
