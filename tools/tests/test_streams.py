"""Standard streams that other processes share: none is taken as ended or full where it only pauses, and none is what is replaced or added to."""

from __future__ import annotations

import fcntl
import os
import shutil
import signal
import struct
import subprocess
import sys
import termios
import time
import unittest
import unittest.mock
from pathlib import Path
from typing import Any, Callable, Dict, List, Sequence, Tuple

import common
import made
import spelled
import test_limits
from made import TOOLS, flipped, layout, made as drawn, program_that, tool


# How Linux is told how many bytes a pipe holds.
SETPIPE_SZ = 1031


def waiting_in(pipe: int) -> int:
    """How many bytes of a pipe nobody has read."""
    return int(struct.unpack("i", fcntl.ioctl(pipe, termios.FIONREAD, b"\0" * 4))[0])


def is_soon(holds: Callable[[], bool], seconds: float = 120) -> bool:
    """Whether something comes to hold in a time."""
    end = time.monotonic() + seconds
    while not holds():
        if time.monotonic() > end:
            return False
        time.sleep(0.01)
    return True


def lossy() -> bytes:
    """A drawing of which many objects are lost."""
    data = drawn(400, 3)
    for frame in layout(data).frames[29:400:2]:
        data = flipped(data, frame.place + 5)
    return data


def in_bash(script: str, folder: Path, program: Path) -> "subprocess.CompletedProcess[bytes]":
    """What a script of bash gives in a folder, in which the tools are on the path and run a program."""
    environment = {**os.environ, "DWG": str(program), "PATH": f"{TOOLS}:{os.environ['PATH']}"}
    said = ["bash", "-c", script]
    return subprocess.run(said, cwd=folder, stdin=subprocess.DEVNULL, capture_output=True, check=False, env=environment, timeout=600)


class Paused(common.InFolder):
    """A stream that doesn't block, as who shares it may leave it, is waited for."""

    def setUp(self) -> None:
        super().setUp()
        self.data = drawn(50, 3)
        self.path = self.file("a.dwg", self.data)

    def begun(self, name: str, *words: object, **more: Any) -> "subprocess.Popen[bytes]":
        """A tool that has begun."""
        said, environment = [str(TOOLS / name), *map(str, words)], {**os.environ, "DWG": made.PROGRAM}
        streams = {"stdin": subprocess.DEVNULL, "stdout": subprocess.PIPE, "stderr": subprocess.PIPE}
        started = subprocess.Popen(said, env=environment, **{**streams, **more})
        self.addCleanup(started.kill)
        return started

    def fed(self, name: str, words: Sequence[object], data: bytes, is_named: bool = False) -> Tuple[int, bytes]:
        """What a tool answers that is given data by such a pipe, the second half when it has taken the first. The words name the pipe, or it is
        standard input."""
        end, begin = os.pipe()
        os.set_blocking(end, False)
        more: Dict[str, Any] = {"pass_fds": [end]} if is_named else {"stdin": end}
        with self.begun(name, *(str(word).format(end) for word in words), **more) as started:
            for piece in (data[: len(data) // 2], data[len(data) // 2 :]):
                os.write(begin, piece)
                is_soon(lambda: not waiting_in(end) or started.poll() is not None)
                time.sleep(0.2)
            self.assertFalse(os.get_blocking(end))
            os.close(begin)
            os.close(end)
            said, _ = started.communicate(timeout=600)
        return started.returncode, said

    def test_a_drawing_that_pauses(self) -> None:
        readers: Dict[str, List[object]] = {"dwg-json": ["-"], "dwg-picture": [], "dwg-diff": [self.path, "-"]}
        for name, words in readers.items():
            expected = tool(name, *words, given=self.data)
            self.assertEqual(self.fed(name, words, self.data), (0, expected.stdout), name)
        self.assertEqual(self.fed("dwg-json", ["/dev/fd/{}"], self.data, is_named=True), (0, tool("dwg-json", self.path).stdout))

    def test_a_named_pipe_into_which_nobody_writes_yet(self) -> None:
        fifo = self.folder / "fifo"
        os.mkfifo(fifo)
        end = os.open(fifo, os.O_RDONLY | os.O_NONBLOCK)
        with self.begun("dwg-json", stdin=end) as started:
            time.sleep(0.5)
            self.assertIsNone(started.poll())
            fifo.write_bytes(self.data)
            said, _ = started.communicate(timeout=600)
        os.close(end)
        self.assertEqual((started.returncode, said), (0, tool("dwg-json", self.path).stdout))

    def held_up(self, stream: str, name: str, *words: object) -> Tuple[int, bytes]:
        """What a tool answers, and prints into such a pipe, which holds little and is read when it is full."""
        end, begin = os.pipe()
        fcntl.fcntl(begin, SETPIPE_SZ, 4096)
        os.set_blocking(begin, False)
        with self.begun(name, *words, **{"stdout": subprocess.DEVNULL, "stderr": subprocess.DEVNULL, stream: begin}) as started:
            is_soon(lambda: waiting_in(end) > 0 or started.poll() is not None)
            time.sleep(0.3)
            self.assertFalse(os.get_blocking(begin))
            os.close(begin)
            with open(end, "rb") as pipe:
                said = pipe.read()
            return started.wait(timeout=600), said

    @unittest.skipUnless(sys.platform == "linux", "pipes that hold little, which only Linux has")
    def test_an_output_that_pauses(self) -> None:
        other = self.file("b.dwg", drawn(90, 4))
        writers: Dict[str, List[List[object]]] = {
            "dwg-json": [[self.path], ["--pretty", self.path]],
            "dwg-picture": [[self.path]],
            "dwg-diff": [[self.path, other], ["--json", self.path, other]],
        }
        for name, each in writers.items():
            for words in each:
                expected = tool(name, *words)
                self.assertGreater(len(expected.stdout), 4096, words)
                self.assertEqual(self.held_up("stdout", name, *words), (expected.returncode, expected.stdout), (name, words))

    @unittest.skipUnless(sys.platform == "linux", "pipes that hold little, which only Linux has")
    def test_messages_that_pause(self) -> None:
        words = [self.folder / f"{'none' * 50}{index}" for index in range(99)]
        expected = tool("dwg-json", *words)
        self.assertGreater(len(expected.stderr), 5000)
        self.assertEqual(self.held_up("stderr", "dwg-json", *words), (64, expected.stderr))

    @unittest.skipUnless(sys.platform == "linux", "pipes that hold little, which only Linux has")
    def test_an_interrupt_while_an_output_pauses(self) -> None:
        end, begin = os.pipe()
        fcntl.fcntl(begin, SETPIPE_SZ, 4096)
        os.set_blocking(begin, False)
        with self.begun("dwg-json", self.path, stdout=begin) as started:
            self.assertTrue(is_soon(lambda: waiting_in(end) > 0))
            time.sleep(0.2)
            self.assertIsNone(started.poll())
            started.send_signal(signal.SIGINT)
            self.assertEqual(started.wait(timeout=600), 130)
        os.close(begin)
        os.close(end)


# Changes a file when what is kept of standard input begins.
CHANGING = """
import os
made_file = tempfile.TemporaryFile
def changing(*words, **more):
    if os.path.exists({path!r}):
        with open({path!r}, "ab") as file:
            file.write(b"more")
    return made_file(*words, **more)
tempfile.TemporaryFile = changing
"""


class Changed(common.InFolder):
    """A file on standard input that is changed while it is read is refused as one that is named is."""

    def test_standard_input_that_changes(self) -> None:
        data = drawn(30, 3)
        path, out = self.file("a.dwg", data), self.folder / "out"
        readers: Dict[str, Tuple[List[object], int]] = {
            "dwg-json": (["-"], 4),
            "dwg-picture": ([], 4),
            "dwg-diff": (["-", self.file("b.dwg", data)], 2),
        }
        lines = CHANGING.format(path=str(self.folder / "a.dwg"))
        for said, (words, status) in readers.items():
            name, *more = said.split()
            path.write_bytes(data)
            with open(path, "rb") as given:
                ran = test_limits.otherwise(name, lines, "--program", made.PROGRAM, *more, *words, stdin=given)
            message = f"{name}: standard input: it was changed while it was read\n".encode()
            self.assertEqual((ran.returncode, ran.stdout, ran.stderr, out.exists()), (status, b"", message, False), said)

    def swapping(self, path: Path, command: str, data: bytes) -> Path:
        """A program that has a file have other bytes of the same size, and the time that it had, once it has answered a command the first time."""
        later, stamp, once = self.file("later", data), self.file("stamp", b""), self.folder / "once"
        shutil.rmtree(once, ignore_errors=True)
        told = path.stat()
        self.assertEqual(told.st_size, len(data))
        os.utime(stamp, ns=(told.st_atime_ns, told.st_mtime_ns))
        swap = f'"$REAL" "$1"; s=$?; cat "{later}" >"{path}"; touch -r "{stamp}" "{path}"; exit $s'
        return program_that(self.folder, "swapping", [f'[ "$1" != {command} ] || ! mkdir "{once}" 2>/dev/null || {{ {swap}; }}', 'exec "$REAL" "$@"'])

    def test_a_file_that_changes_with_its_size_and_time(self) -> None:
        """What is told is that of one content, however often it is read."""
        data, out = drawn(30, 3), self.folder / "out"
        lines = []
        for place in (1.5, 9.5):
            one = spelled.Drawing()
            one.line((place, 2.5, 0), (3.5, place, 0))
            lines.append(one.file())
        path, same, elsewhere = self.folder / "a.dwg", self.file("same.dwg", lines[0]), data[:13] + bytes(4) + data[17:]
        readers: Dict[str, Tuple[List[object], str, bytes, bytes]] = {
            "dwg-picture": ([path], "show", lines[0], lines[1]),
            "dwg-info --json": ([path], "show", data, elsewhere),
            "dwg-info --preview -": ([path], "sections", data, elsewhere),
            "dwg-json": ([path], "show", lines[0], lines[1]),
            "dwg-diff": ([path, same], "show", lines[0], lines[1]),
        }
        for said, (words, command, before, later) in readers.items():
            name, *more = said.split()
            path.write_bytes(before)
            expected = tool(name, *more, *words)
            out.unlink(missing_ok=True)
            (self.folder / "out.notes").unlink(missing_ok=True)
            ran = tool(name, "--program", self.swapping(path, command, later), *more, *words)
            self.assertEqual(path.read_bytes(), later, said)
            self.assertEqual((ran.returncode, ran.stdout, ran.stderr), (expected.returncode, expected.stdout, expected.stderr), said)

    def test_standard_input_that_stays(self) -> None:
        path = self.file("a.dwg", b"before" + drawn(30, 3))
        with open(path, "rb", buffering=0) as given:
            # (what stands before the place that it is read from isn't the drawing)
            given.seek(6)
            ran = test_limits.otherwise("dwg-json", "", "--program", made.PROGRAM, stdin=given)
        self.assertEqual((ran.returncode, ran.stdout), (0, tool("dwg-json", given=drawn(30, 3)).stdout))


class Replaced(common.InFolder):
    """What --force replaces is no file that a report or messages go to."""

    def test_a_stream_that_is_replaced(self) -> None:
        path, out = self.file("a.dwg", drawn(3, 1)), self.file("out", b"old")
        os.link(out, self.folder / "link")
        noting = program_that(self.folder, "noting", [f'echo "$1" >>"{self.folder}/runs"', 'exec "$REAL" "$@"'])
        writers = {"dwg-json": "--output out a.dwg", "dwg-picture": "-oout a.dwg"}
        streams = (">>out", "2>>out", ">>link", ">>out 2>&1", ">/dev/null 2>>link")
        scripts = [f"{name} {words} {force} {into}" for name, words in writers.items() for force in ("--force", "") for into in streams]
        # (what is told of standard output isn't told there)
        scripts += ["dwg-json --force --output out a.dwg >>a.dwg 2>>out"]
        scripts += [f"dwg-json --nothing {words} a.dwg 2>>out" for words in ("--output out", "-oout", "--output=out")]
        for script in scripts:
            ran = in_bash(script, self.folder, noting)
            self.assertEqual((ran.returncode, ran.stdout), (64 if "--nothing" in script else 73, b""), script)
            # Where standard error is that file, nothing can be said.
            is_told = "2>" not in script
            self.assertEqual(ran.stderr.count(b" is standard output too; name another output\n"), int(is_told), (script, ran.stderr))
            self.assertEqual((out.read_bytes(), path.read_bytes()), (b"old", drawn(3, 1)), script)
        self.assertFalse((self.folder / "runs").exists())

    def test_another_file_is_replaced(self) -> None:
        self.file("a.dwg", drawn(3, 1))
        for name, words in {"dwg-json": "--output out a.dwg"}.items():
            self.file("out", b"old")
            self.assertEqual(in_bash(f"{name} --force {words} >report 2>errors", self.folder, Path(made.PROGRAM)).returncode, 0)
            self.assertNotEqual((self.folder / "out").read_bytes(), b"old")


if __name__ == "__main__":
    unittest.main()
