"""`make install` and `make uninstall`: what they put where, and what they leave alone. (tests/promises has what they promise, and `pip install`.)"""

from __future__ import annotations

import os
import pathlib
import shutil
import stat
import subprocess
import sys
import tempfile
import unittest
from typing import Dict

import made
from made import TOOLS, TOP

NAMES = sorted(path.name for path in TOOLS.glob("dwg-*") if path.name.replace("-", "").isalpha())

# A name of each kind that is installed.
ONE_OF_EACH = (
    "bin/dwg", "bin/dwg-check", "lib/dwg/COMMIT", "lib/dwg/dwg", "lib/dwg/tools/dwg-info", "lib/dwg/tools/dwgtools/show.py",
    "lib/dwg/tools/src/dwgtools/check/report.py", "share/man/man1/dwg.1", "share/man/man1/dwg-json.1", "share/man/man1/dwg-check.1",
    "share/man/man7/dwg-tools.7", "share/bash-completion/completions/dwg", "share/bash-completion/completions/dwg-diff",
)  # fmt: skip


def files(folder: pathlib.Path) -> Dict[pathlib.Path, bytes]:
    """The files of a folder, and what they have."""
    return {path: path.read_bytes() for path in folder.rglob("*") if path.is_file()}


@unittest.skipUnless(shutil.which("make"), "make install, as make isn't installed")
class Install(unittest.TestCase):
    """Each test has a folder of its own."""

    def setUp(self) -> None:
        self.folder = pathlib.Path(tempfile.mkdtemp(prefix="dwg install "))
        self.addCleanup(shutil.rmtree, self.folder)
        self.top, self.program = self.folder / "it's $(HOME)", self.folder / "program"
        self.program.write_bytes(b"program")

    def goes(self, goal: str, *words: str, folder: pathlib.Path = TOP) -> "subprocess.CompletedProcess[bytes]":
        """What make says of installing a file that isn't the program."""
        given = ["make", "-s", f"PREFIX={self.top}", "DWG=true", f"PROGRAM={self.program}", *words, goal]
        return subprocess.run(given, cwd=folder, check=False, capture_output=True)

    def installed(self) -> None:
        """Installs, which goes well."""
        ran = self.goes("install")
        self.assertEqual((ran.returncode, ran.stdout, ran.stderr), (0, b"", b""))

    def place(self, name: str) -> pathlib.Path:
        """A place in a folder that is there."""
        (self.top / name).parent.mkdir(parents=True, exist_ok=True)
        return self.top / name

    def test_what_is_installed_runs_and_goes_away(self) -> None:
        made.needs_program()
        shutil.copy(pathlib.Path(made.PROGRAM).resolve(), self.program)
        self.installed()
        self.assertEqual(sorted(path.name for path in (self.top / "bin").iterdir()), ["dwg", *NAMES])
        self.assertEqual([path for path in self.top.rglob("*") if not path.exists()], [])
        environment = {name: value for name, value in os.environ.items() if name != "DWG"}
        before = files(self.top)
        for name in NAMES:
            subprocess.run([str(self.top / "bin" / name), "--help"], stdout=subprocess.DEVNULL, check=True, env=environment)
        if pathlib.Path(made.PROGRAM).resolve() != TOP / "dwg":
            ran = subprocess.run([str(self.top / "bin/dwg-check"), str(made.DATA / "items.dwg")], capture_output=True, check=False, env=environment)
            self.assertEqual(ran.returncode, 0, ran.stderr)
        # (compiled modules are there already)
        self.assertEqual(files(self.top).keys(), before.keys())
        self.assertEqual((self.goes("uninstall").returncode, self.top.exists()), (0, False))

    def test_pages_are_found(self) -> None:
        self.installed()
        for name in ("dwg", *NAMES):
            page = self.top / "share/man/man1" / f"{name}.1"
            shown = subprocess.run(["mandoc", str(page)], cwd=self.top / "share/man", capture_output=True, check=False) if shutil.which("mandoc") else None
            self.assertIn(b"DWG", shown.stdout if shown else page.read_bytes().upper(), name)

    def test_below_destdir(self) -> None:
        ran = self.goes("install", "PREFIX=/usr", f"DESTDIR={self.folder}/root")
        self.assertEqual((ran.returncode, self.top.exists()), (0, False), ran.stderr)
        self.assertEqual(os.path.realpath(self.folder / "root/usr/bin/dwg-info"), str(self.folder / "root/usr/lib/dwg/tools/dwg-info"))

    def test_nothing_that_was_there_is_replaced_or_removed(self) -> None:
        for name in ONE_OF_EACH[::4]:
            self.place(name).write_bytes(b"own")
            ran = self.goes("install")
            self.assertEqual((ran.returncode, f"{name} is there, and make install did not bring it".encode() in ran.stderr), (2, True), name)
            self.assertEqual((self.goes("uninstall").returncode, files(self.top)), (0, {self.top / name: b"own"}), name)
            shutil.rmtree(self.top)
        self.installed()
        for name in ONE_OF_EACH:
            (self.top / name).unlink()
            (self.top / name).write_bytes(b"own")
        ran = self.goes("uninstall")
        self.assertEqual((ran.returncode, files(self.top)), (0, {self.top / name: b"own" for name in ONE_OF_EACH}))
        self.assertEqual(ran.stderr.count(b"isn't as it was brought; it stays\n"), len(ONE_OF_EACH))

    def test_another_install_takes_the_place_of_the_first(self) -> None:
        """Also where that was cut off, as by a signal that nobody takes; and what isn't brought any more goes."""
        self.installed()
        before = files(self.top)
        self.program.write_bytes(b"newer")
        cut = "import os, sys, runpy\nreplace = os.replace\ndef last(*words):\n    replace(*words)\n    words[1].endswith('bin/dwg') and os.kill(os.getpid(), 9)\nos.replace = last\n"
        script = cut + "sys.argv = sys.argv[1:]\nrunpy.run_path(sys.argv[0], run_name='__main__')"
        ran = subprocess.run([sys.executable, "-B", "-c", script, str(TOOLS / "install"), "install", str(self.top), "", str(self.program)], check=False)
        self.assertEqual((ran.returncode, (self.top / "bin/dwg").read_bytes()), (-9, b"newer"))
        self.program.write_bytes(b"newest")
        self.installed()
        self.assertEqual((self.top / "bin/dwg").read_bytes(), b"newest")
        left = files(self.top).keys() - before.keys()
        self.assertEqual([path for path in left if path.name != "part"], [])
        self.assertEqual(self.goes("uninstall").returncode, 0)
        self.assertEqual([path for path in files(self.top) if path.name != "part"], [])

    def test_folders_are_open_to_all_and_those_that_were_there_stay(self) -> None:
        (self.place("bin/x")).parent.chmod(0o700)
        words = ["make", "-s", f"PREFIX={self.top}", "DWG=true", f"PROGRAM={self.program}", "install"]
        subprocess.run(words, cwd=TOP, check=True, preexec_fn=lambda: os.umask(0o077))
        (self.top / "bin").chmod(0o755)
        modes = {stat.S_IMODE(path.stat().st_mode) for path in self.top.rglob("*") if not path.is_symlink()}
        self.assertEqual(modes, {0o755, 0o644})
        self.assertEqual((self.goes("uninstall").returncode, [path.name for path in self.top.rglob("*")]), (0, ["bin"]))

    def test_what_is_refused(self) -> None:
        """A line end in a name, which make takes apart; this folder itself; a manifest that is none."""
        for word in (f"DESTDIR={self.folder}/a\nb", f"PREFIX={self.folder}/a\nb"):
            ran = self.goes("install", word)
            self.assertEqual((ran.returncode, ran.stderr.count(b"DESTDIR and PREFIX may not have line ends")), (2, 1))
        self.place("lib/dwg").symlink_to(TOP)
        ran = self.goes("install")
        self.assertEqual((ran.returncode, b"lib/dwg is this folder itself\n" in ran.stderr), (2, True))
        (self.top / "lib/dwg").unlink()
        self.place("lib/dwg/MANIFEST").write_bytes(b"[]")
        for goal in ("install", "uninstall"):
            ran = self.goes(goal)
            self.assertEqual((ran.returncode, b"MANIFEST isn't what make install wrote\n" in ran.stderr), (2, True))
        self.assertEqual([*files(self.top).values()], [b"[]"])


if __name__ == "__main__":
    unittest.main()
