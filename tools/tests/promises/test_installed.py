"""Python 3.8's standard library alone is needed; the commands work from a checkout, from `pip
install`, and from a package."""

from __future__ import annotations

import ast
import os
import shutil
import subprocess
import sys
from typing import Iterator

from commands import PATIENCE, SOUND, TOOLS, Commands

SOURCES = TOOLS / "src" / "dwgtools"


class Installed(Commands):
    """The commands wherever they are."""
    def works(self, *command: str, **variables: str) -> None:
        """The commands check and recover a drawing here."""
        self.drawing("a.dwg")
        run = lambda *words: subprocess.run(
            [*command, *words], cwd=self.folder, env={**self.variables, **variables},
            capture_output=True, check=False, timeout=PATIENCE,
        )  # fmt: skip
        ran = run("a.dwg")
        self.assertEqual((ran.returncode, ran.stdout.count(b"\tsound\t")), (SOUND, 1), ran)
        ran = run("keep", "store", ".")
        self.assertEqual(ran.returncode, SOUND, ran)
        (self.folder / "store").unlink()
        self.assertRegex(run("--version").stdout.decode(), r"\Adwg-check \d+\.\d+")
        self.assertIn(b"usage: ", run("--help").stdout)

    def test_from_a_checkout(self) -> None:
        self.works(str(TOOLS / "dwg-check"))
        (self.folder / "checks").symlink_to(TOOLS / "dwg-check")
        self.works(str(self.folder / "checks"))
        self.works("dwg-check", PATH=f"{TOOLS}:{os.environ['PATH']}")
        self.works(sys.executable, "-m", "dwgtools", "check", PYTHONPATH=str(SOURCES.parent))

    def test_by_pip_install(self) -> None:
        copy = self.top / "copy"
        shutil.copytree(TOOLS, copy, ignore=shutil.ignore_patterns("tests", "__pycache__"))
        prefix = self.folder / "venv"
        said = [sys.executable, "-m", "venv", str(prefix)]
        if subprocess.run(said, capture_output=True, check=False).returncode:
            self.skipTest("what pip installs, as there is no pip")
        said = [str(prefix / "bin" / "python"), "-m", "pip", "install", "--no-index", "-q"]
        ran = subprocess.run([*said, str(copy)], capture_output=True, check=False)
        self.assertEqual(ran.returncode, 0, ran.stderr)
        # (nothing is left in the folder that it is installed from)
        self.assertEqual([*copy.rglob("*.whl"), *copy.rglob("*.*-info"), *copy.glob("build")], [])
        self.works(str(prefix / "bin" / "dwg-check"))
        self.works(str(prefix / "bin" / "python"), "-m", "dwgtools", "check")
        said = [str(prefix / "bin" / "dwg-recover"), "--version"]
        ran = subprocess.run(said, capture_output=True, check=False)
        self.assertRegex(ran.stdout.decode(), r"\Adwg-recover \d+\.\d+")

    def test_by_the_standard_library_alone(self) -> None:
        self.works(sys.executable, "-S", "-s", str(TOOLS / "dwg-check"))
        known = getattr(sys, "stdlib_module_names", None)
        for path in SOURCES.rglob("*.py"):
            # (written in the Python of that version)
            tree = ast.parse(path.read_text(encoding="utf-8"), feature_version=(3, 8))
            for name in imported(tree):
                self.assertIn(name, known or [name], path)


def imported(tree: ast.AST) -> Iterator[str]:
    """The first names of all modules that are imported from elsewhere."""
    for node in ast.walk(tree):
        if isinstance(node, ast.Import):
            yield from (one.name.split(".")[0] for one in node.names)
        elif isinstance(node, ast.ImportFrom) and not node.level:
            yield (node.module or "").split(".")[0]
