"""The samples are those that their script makes. What their page shows of them is looked at with all documents (test_docs)."""

from __future__ import annotations

import os
import pathlib
import shutil
import subprocess
import tempfile
import unittest

import made
from made import TOP

SAMPLES = TOP / "samples"


def copy(folder: pathlib.Path) -> None:
    """Copies the samples, and what one of them is made by."""
    shutil.copytree(SAMPLES, folder / "samples")
    for path in ("tools/tests/older.py", "tools/tests/spelled.py", "bench/make_inputs.py"):
        (folder / path).parent.mkdir(parents=True, exist_ok=True)
        shutil.copy(TOP / path, folder / path)


class Samples(unittest.TestCase):
    """The samples are made in a folder of their own."""

    def test_made(self) -> None:
        made.needs_program()
        folder = pathlib.Path(tempfile.mkdtemp(prefix="dwg samples "))
        self.addCleanup(shutil.rmtree, folder)
        copy(folder)
        for path in folder.glob("samples/*.dwg"):
            path.unlink()
        subprocess.run([str(folder / "samples" / "make")], check=True, env={**os.environ, "DWG": made.PROGRAM})
        self.check(folder)

    def check(self, folder: pathlib.Path) -> None:
        """Those that were made in a folder are those of this tree."""
        for name in ("hole.dwg", "cut.dwg", "flip.dwg", "r14.dwg"):
            self.assertEqual((folder / "samples" / name).read_bytes(), (SAMPLES / name).read_bytes())
            (folder / "samples" / name).unlink()

    def test_made_from_elsewhere(self) -> None:
        """Neither the folder that it is called from, nor one in which the shell looks for folders, leads it elsewhere."""
        folder = pathlib.Path(tempfile.mkdtemp(prefix="dwg samples "))
        self.addCleanup(shutil.rmtree, folder)
        copy(folder)
        (folder / "elsewhere" / "samples").mkdir(parents=True)
        (folder / "elsewhere" / "samples" / "plan.dwg").touch()
        (folder / "dwg").symlink_to(made.PROGRAM)
        for name in ("./dwg", "dwg", str(folder / "dwg"), ""):
            environment = {**os.environ, "DWG": name, "CDPATH": str(folder / "elsewhere")}
            subprocess.run(["samples/make"], cwd=folder, check=True, env=environment)
            self.check(folder)
        self.assertEqual(os.listdir(folder / "elsewhere" / "samples"), ["plan.dwg"])

    def test_whole_or_as_it_was(self) -> None:
        """Where the program fails within its output, or the script is ended by a signal, no sample is half written, and nothing else stays."""
        made.needs_program()
        folder = pathlib.Path(tempfile.mkdtemp(prefix="dwg samples "))
        self.addCleanup(shutil.rmtree, folder)
        copy(folder)
        before = {path.name: path.read_bytes() for path in (folder / "samples").iterdir()}
        for end in ("exit 5", "kill -TERM $PPID; exit 0"):
            program = made.program_that(folder, "dwg", ['[ "$1" != rewrite ] || { head -c 10; ' + end + "; }", 'exec "$REAL" "$@"'])
            environment = {**os.environ, "DWG": str(program), "TMPDIR": str(folder)}
            ran = subprocess.run([str(folder / "samples" / "make")], check=False, capture_output=True, env=environment)
            self.assertNotEqual(ran.returncode, 0, end)
            self.assertEqual({path.name: path.read_bytes() for path in (folder / "samples").iterdir()}, before, end)
        self.assertEqual([path.name for path in folder.iterdir() if path.name.startswith("tmp")], [])


if __name__ == "__main__":
    unittest.main()
