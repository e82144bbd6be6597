"""The processes that dwg-json has work on a large drawing: nothing is otherwise for them, and none is left, however the tool ends."""

from __future__ import annotations

import os
import signal
import subprocess
import sys
import time
import unittest
from pathlib import Path
from typing import Dict

import common
import test_limits
from made import TOOLS, program_that

from dwgtools.processes import all_processes

COUNT = 20_000
OBJECT = "object {handle:X} POINT typed 27\n  owner 4.18\n  mode 2\n  colour {colour}\n  layer 5.10\n  place 3FF0000000000000 {handle:016X} 0000000000000000\n"

# Has four workers, whatever processors there are, which do something for some objects.
WORKING = """
import os, time
from dwgtools import fragments, json_lines, layouts, workers
workers.processors = lambda: 4
own, said = os.getpid(), layouts.Layouts.objects
def otherwise(own_layouts, parts):
    for part in parts:
        if {where}:
            {line}
    return said(own_layouts, parts)
layouts.Layouts.objects = otherwise
"""


def left_in(session: int) -> Dict[int, str]:
    """The processes of a session that run."""
    return {one.number: test_limits.state_of(one.number) for one in all_processes() if one.session == session and test_limits.is_running(one.number)}


class Workers(common.InFolder):
    """A drawing of some pieces, and a program that shows it."""

    def setUp(self) -> None:
        super().setUp()
        objects = "".join(OBJECT.format(handle=0x30 + at, colour=at % 300) for at in range(COUNT))
        self.text = self.file("text", (test_limits.PREFIX.format(count=COUNT) + objects).encode())
        self.path, self.out = self.file("a.dwg", b"AC1015"), self.folder / "out"
        self.showing = program_that(self.folder, "showing", [f'[ "$1" != show ] || exec cat "{self.text}"'])

    def said(self, lines: str, program: Path) -> "subprocess.CompletedProcess[bytes]":
        """What dwg-json says, with workers in which something is otherwise."""
        return test_limits.otherwise("dwg-json", lines, "--program", program, self.path, "--output", self.out, "--force")

    def test_the_same_is_written(self) -> None:
        alone = self.said("from dwgtools import json_lines\njson_lines.MANY = 1_000_000", self.showing)
        self.assertEqual((alone.returncode, alone.stderr), (0, b""))
        written = self.out.read_bytes()
        self.assertEqual(written.count(b"\n"), COUNT + 1)
        for where in ("False", "part.endswith(b'F 0000000000000000')"):
            ran = self.said(WORKING.format(where=where, line="raise fragments.Odd"), self.showing)
            self.assertEqual((ran.returncode, ran.stderr, self.out.read_bytes() == written), (0, b"", True), where)

    def test_a_worker_that_gives_no_answer(self) -> None:
        ends = {
            "os.kill(os.getpid(), 9)": (70, "a process of the tool gave no answer: killed by signal 9"),
            "raise MemoryError": (6, "no memory was to be had"),
            "raise KeyError(1)": (70, "a process of the tool gave no answer: status 70"),
        }
        for line, (status, why) in ends.items():
            ran = self.said(WORKING.format(where="os.getpid() != own", line=line), self.showing)
            name = f"{self.path}: " if status == 70 else ""
            self.assertEqual((ran.returncode, ran.stderr.decode(), self.out.exists()), (status, f"dwg-json: {name}{why}\n", False))

    def test_no_room_for_a_worker(self) -> None:
        none = "def fork():\n    turns.append(1)\n    if len(turns) > {most}:\n        raise BlockingIOError(11, 'Resource temporarily unavailable')\n    return begin()\nturns, begin, os.fork = [], os.fork, fork\n"
        for most in (0, 2):
            ran = self.said(WORKING.format(where="False", line="pass") + none.format(most=most), self.showing)
            self.assertEqual((ran.returncode, ran.stderr, self.out.read_bytes().count(b"\n")), (0, b"", COUNT + 1))

    def test_none_is_left(self) -> None:
        """Neither where the tool is interrupted while they work, nor where it is killed."""
        begun = self.folder / "begun"
        pause = f"open({str(begun)!r}, 'w').close(); time.sleep(20)"
        code = test_limits.OTHERWISE.format(tests=str(TOOLS / "tests"), name="dwg-json", lines=WORKING.format(where="part.startswith(b'3000 ')", line=pause))
        for number, status in ((signal.SIGINT, 130), (signal.SIGTERM, 143), (signal.SIGKILL, -signal.SIGKILL)):
            words = [sys.executable, "-B", "-c", code, "--program", str(self.showing), str(self.path), "--output", str(self.out)]
            with subprocess.Popen(words, stdin=subprocess.DEVNULL, stderr=subprocess.PIPE, start_new_session=True) as started:
                while not begun.exists():
                    time.sleep(0.02)
                end = time.monotonic() + 600
                while len(left_in(started.pid)) < 5 and time.monotonic() < end:
                    time.sleep(0.02)
                self.assertEqual(len(left_in(started.pid)), 5)
                os.kill(started.pid, number)
                started.wait(timeout=600)
                end = time.monotonic() + 600
                while left_in(started.pid) and time.monotonic() < end:
                    time.sleep(0.02)
                self.assertEqual((started.returncode, left_in(started.pid), self.out.exists()), (status, {}, False))
            begun.unlink()
        left = [path.name for path in self.folder.iterdir() if path.name.endswith(".part")]
        # (one that is killed outright may leave its own)
        self.assertLessEqual(len(left), 1)


if __name__ == "__main__":
    unittest.main()
