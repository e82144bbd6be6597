"""The commands as users have them: run by their words alone, each test in a fresh folder.

DWG names the program; without it answers are taken that are recorded, and what needs others is left
out, which is told.
"""

from __future__ import annotations

import json
import os
import shutil
import signal
import stat
import subprocess
import tempfile
import time
import unittest
from dataclasses import dataclass
from functools import lru_cache
from pathlib import Path
from typing import Any, Callable, Dict, List, Tuple, Union

TOOLS = Path(__file__).resolve().parents[2]
DATA = TOOLS.parent / "crates" / "dwg_cli" / "data"
SAMPLES = TOOLS.parent / "samples"
PROGRAM = os.path.realpath(os.environ.get("DWG", TOOLS / "tests" / "recorded" / "dwg"))

# What the commands end with. The last three say that the words weren't done.
SOUND, UNSOUND, DAMAGED, NOTHING_FOUND, NOT_AS_KEPT, INTERRUPTED = 0, 1, 3, 66, 68, 130
USAGE, FAILURE = 2, 70
REFUSED = (USAGE, FAILURE)

# How many seconds a command may take at the most: a tool that hangs fails its test.
PATIENCE = 600

Word = Union[str, bytes, Path]


@dataclass(frozen=True)
class Ran:
    """What a command answered."""

    status: int
    out: bytes
    said: str

    @property
    def table(self) -> List[Dict[str, str]]:
        """The lines of the table, by the names of its columns."""
        head, *lines = self.out.decode("utf-8").split("\n")[:-1]
        columns = head.split("\t")
        assert all(line.count("\t") == head.count("\t") for line in lines), self.out
        return [dict(zip(columns, line.split("\t"))) for line in lines]

    @property
    def verdicts(self) -> Dict[str, str]:
        """The verdict of each file, or what became of it, by the last part of its name."""
        told = [(row["path"], row.get("verdict") or row["outcome"]) for row in self.table]
        found = {os.path.basename(path): verdict for path, verdict in told}
        assert len(found) == len(told), self.out
        return found

    @property
    def objects(self) -> List[Dict[str, Any]]:
        """The lines of JSON."""
        return [json.loads(line) for line in self.out.decode("ascii").splitlines()]


@lru_cache(maxsize=None)
def answer(*words: str, given: bytes = b"") -> "subprocess.CompletedProcess[bytes]":
    """What the program itself answers."""
    return subprocess.run([PROGRAM, *words], input=given, capture_output=True, check=False)


def entries(folder: Path) -> Dict[str, Tuple[int, bytes]]:
    """All that is below a folder: the mode of each entry, and its bytes or where it leads."""
    found = {}
    for path in sorted(folder.rglob("*")):
        mode, data = path.lstat().st_mode, b""
        if stat.S_ISLNK(mode):
            data = os.fsencode(os.readlink(path))
        elif stat.S_ISREG(mode):
            data = path.read_bytes()
        found[os.fsdecode(path.relative_to(folder))] = mode, data
    return found


class Commands(unittest.TestCase):
    """A test has a folder of its own, in which its commands run."""
    def setUp(self) -> None:
        self.top = Path(tempfile.mkdtemp(prefix="dwg promise "))
        self.addCleanup(shutil.rmtree, self.top, ignore_errors=True)
        self.folder = self.top / "folder"
        self.folder.mkdir()
        self.variables = {**os.environ, "DWG": PROGRAM}

    def file(self, name: str, data: bytes) -> Path:
        """Writes a file into the folder."""
        path = self.folder / name
        path.parent.mkdir(parents=True, exist_ok=True)
        path.write_bytes(data)
        return path

    def drawing(self, name: str, count: int = 3) -> Path:
        """A sound drawing that the program makes."""
        return self.file(name, answer("make", str(count), "7").stdout)

    def program(self, *lines: str) -> Path:
        """A script that stands in for the program, which it has as "$REAL"; `$1` is the command."""
        path = self.top / "program"
        script = ["#!/bin/sh", f"REAL='{PROGRAM}'", *lines, 'exec "$REAL" "$@"\n']
        path.write_text("\n".join(script))
        path.chmod(0o755)
        return path

    def run_command(self, command: str, *words: Word, **more: Any) -> Ran:
        """Runs a command to its end."""
        more = {"stdin": subprocess.DEVNULL, "cwd": self.folder, "timeout": PATIENCE, **more}
        said: List[Word] = [TOOLS / command, *words]
        ran = subprocess.run(said, env=self.variables, capture_output=True, check=False, **more)
        self.assertNotIn(b"Traceback", ran.stderr)
        return Ran(ran.returncode, ran.stdout, ran.stderr.decode("utf-8", "backslashreplace"))

    def check(self, *words: Word, **more: Any) -> Ran:
        """What dwg-check answers."""
        return self.run_command("dwg-check", *words, **more)

    def recover(self, *words: Word, **more: Any) -> Ran:
        """What dwg-recover answers."""
        return self.run_command("dwg-recover", *words, **more)

    def begun(self, command: str, *words: Word) -> "subprocess.Popen[bytes]":
        """A command that runs on in a session of its own, with all that it begins."""
        pipe, said = subprocess.PIPE, [TOOLS / command, *words]
        started = subprocess.Popen(  # pylint: disable=consider-using-with
            said, cwd=self.folder, env=self.variables, stdin=subprocess.DEVNULL, stdout=pipe,
            stderr=pipe, start_new_session=True,
        )  # fmt: skip
        self.addCleanup(end, started)
        return started

    def killed(self, after: float, command: str, *words: Word) -> None:
        """Runs a command that is killed outright after a moment, with all that it began."""
        started = self.begun(command, *words)
        time.sleep(after)
        end(started)

    def until(self, is_so: Callable[[], bool]) -> None:
        """Waits until something is so."""
        last = time.monotonic() + PATIENCE
        while not is_so():
            self.assertLess(time.monotonic(), last, "it never came to be")
            time.sleep(0.01)

    def refused(self, command: str, *words: Word, **more: Any) -> str:
        """What is said of words that aren't done; all that there is stays as it was."""
        before = entries(self.folder)
        ran = self.run_command(command, *words, **more)
        self.assertIn(ran.status, REFUSED, (words, ran))
        self.assertTrue(ran.said, words)
        self.assertEqual(entries(self.folder), before, words)
        return ran.said


def end(started: "subprocess.Popen[bytes]") -> None:
    """Kills what runs on in a session that a test began."""
    if started.poll() is None:
        os.killpg(started.pid, signal.SIGKILL)
    started.communicate()
