"""What goes over all tools: nothing is written into what was read, no output is half there, and each end is told by its own status."""

from __future__ import annotations

import csv
import io
import json
import os
import re
import resource
import shlex
import shutil
import signal
import socket
import stat
import subprocess
import sys
import time
import unittest
import unittest.mock
from pathlib import Path
from typing import Any, Callable, Dict, List, Sequence

import common
import made
import spelled
import test_limits
from made import TOOLS, flipped, made as drawn, program_that, tool

from dwgtools.outputs import WholeFile, write_whole

# How each tool that writes a file is told to, with the input and the output.
WRITERS: Dict[str, Callable[[object, object], List[object]]] = {
    "dwg-json": lambda source, out: [source, "--output", out],
    "dwg-picture": lambda source, out: [source, "--output", out],
    "dwg-info": lambda source, out: [source, "--output", out],
}

# Each tool over one drawing.
ALL: Dict[str, Callable[[object], List[object]]] = {
    "dwg-json": lambda source: [source],
    "dwg-picture": lambda source: [source],
    "dwg-diff": lambda source: [source, source],
    "dwg-info": lambda source: [source],
}


def in_bash(script: str, *words: object, **more: Any) -> "subprocess.CompletedProcess[bytes]":
    """What a script of bash gives, in which the tools are on the path."""
    environment = {**os.environ, "DWG": made.PROGRAM, "PATH": f"{TOOLS}:{os.environ['PATH']}"}
    return subprocess.run(["bash", "-c", script, "bash", *map(str, words)], capture_output=True, check=False, env=environment, timeout=600, **more)


# Makes so many temporary files, and then there is no place for one.
NO_TEMPORARY = """
make, left = tempfile.TemporaryFile, [{count}]
def made_file(*words, **more):
    left[0] -= 1
    if left[0] < 0:
        raise OSError(28, "No space left on device")
    return make(*words, **more)
tempfile.TemporaryFile = made_file
"""


def limited_to(size: int) -> Callable[[], None]:
    """Lets no file become larger than so many bytes: what comes after fails as on a full disk."""
    return lambda: resource.setrlimit(resource.RLIMIT_FSIZE, (size, size))


class Outputs(common.InFolder):
    """Outputs are refused before any work, or are written whole."""

    def names_of(self, path: Path) -> List[object]:
        """A file by other names: a symbolic link, a hard link, another path."""
        (self.folder / "symbolic").symlink_to(path.name)
        os.link(path, self.folder / "hard")
        return [path, self.folder / "symbolic", self.folder / "hard", f"{self.folder}/../{self.folder.name}/{path.name}"]

    def test_an_output_that_is_the_input_by_any_name_is_refused(self) -> None:
        path = self.file("a.dwg", drawn(3, 1))
        names = self.names_of(path)
        for name, words in WRITERS.items():
            for source, out in [(path, other) for other in names] + [(other, path) for other in names]:
                for more in ([], ["--force"]):
                    ran = tool(name, *words(source, out), *more)
                    self.assertEqual((ran.returncode, ran.stdout), (73, b""), (name, source, out, more))
                    self.assertIn(b"is the input itself", ran.stderr)
        self.assertEqual((path.read_bytes(), path.stat().st_nlink), (drawn(3, 1), 2))

    def test_an_output_that_is_standard_input_is_refused(self) -> None:
        path = self.file("a.dwg", drawn(3, 1))
        for name in ("dwg-json", "dwg-picture", "dwg-info", "dwg-info --layers"):
            self.assertEqual(in_bash(f'{name} --output "$1" --force < "$1"', path).returncode, 73)
        self.assertEqual(path.read_bytes(), drawn(3, 1))

    def test_a_table_or_text_is_not_added_to_the_input(self) -> None:
        path, other = self.file("a.dwg", drawn(3, 1)), self.file("b.dwg", drawn(4, 1))
        for script, status in (('dwg-json "$1" >> "$1"', 73), ('dwg-picture "$1" >> "$1"', 73), ('dwg-diff "$2" "$1" >> "$1"', 2), ('dwg-json < "$1" >> "$1"', 73), ('dwg-info "$1" >> "$1"', 73), ('dwg-info --json < "$1" >> "$1"', 73), ('dwg-info --preview - "$1" >> "$1"', 73)):
            self.assertEqual(in_bash(script, path, other).returncode, status, script)
            self.assertEqual(path.read_bytes(), drawn(3, 1), script)

    def test_force_replaces_regular_files_alone(self) -> None:
        path, target = self.file("a.dwg", drawn(3, 1)), self.file("target", b"precious")
        (self.folder / "link").symlink_to("target")
        (self.folder / "loop").symlink_to("loop")
        (self.folder / "device").symlink_to("/dev/null")
        (self.folder / "stream").symlink_to("/proc/self/fd/1")
        (self.folder / "folder").mkdir()
        os.mkfifo(self.folder / "fifo")
        with socket.socket(socket.AF_UNIX) as bound:
            bound.bind(os.path.relpath(self.folder / "socket"))
        before = {one.name: one.lstat().st_mode for one in self.folder.iterdir()}
        for name, words in WRITERS.items():
            for out in before.keys() - {"a.dwg", "target"}:
                ran = tool(name, *words(path, self.folder / out), "--force")
                self.assertEqual((ran.returncode, ran.stdout), (73, b""), (name, out, ran.stderr))
        self.assertEqual(({one.name: one.lstat().st_mode for one in self.folder.iterdir()}, target.read_bytes()), (before, b"precious"))

    def test_force_keeps_the_mode(self) -> None:
        path = self.file("a.dwg", drawn(3, 1))
        for mode in (0o600, 0o640, 0o444, 0o755):
            for name, words in WRITERS.items():
                out = self.file("out", b"old")
                out.chmod(mode)
                self.assertEqual(tool(name, *words(path, out), "--force").returncode, 0)
                self.assertEqual((stat.S_IMODE(out.stat().st_mode), out.read_bytes() != b"old"), (mode, True))
                out.unlink()

    def test_an_output_that_is_there_is_refused_before_the_work(self) -> None:
        path = self.file("a.dwg", drawn(3, 1))
        out = self.file("out", b"old")
        noting = program_that(self.folder, "noting", [f'echo "$1" >>"{self.folder}/runs"', 'exec "$REAL" "$@"'])
        for name, words in WRITERS.items():
            self.assertEqual(tool(name, "--program", noting, *words(path, out)).returncode, 73)
            # Nor is standard input read, which would never end here.
            with subprocess.Popen([str(TOOLS / name), *map(str, words("-", out))], stdin=subprocess.PIPE, stderr=subprocess.PIPE) as started:
                self.assertEqual(started.wait(timeout=600), 73)
        self.assertEqual((out.read_bytes(), (self.folder / "runs").exists()), (b"old", False))

    def test_a_full_disk_leaves_no_temporary_file(self) -> None:
        path = self.file("a.dwg", drawn(30, 1))
        for name, words in WRITERS.items():
            for size in (100, 0, 9000):
                said = [str(TOOLS / name), "--program", made.PROGRAM, *map(str, words(path, self.folder / "out"))]
                ran = subprocess.run(said, capture_output=True, check=False, preexec_fn=limited_to(size))
                if size < 9000:
                    # (a picture goes to a temporary file first, and where nothing at all can be written there is none)
                    status = 70 if name == "dwg-picture" or (name in ("dwg-json", "dwg-info") and not size) else 5
                    self.assertEqual((ran.returncode, ran.stdout), (status, b""), (name, size, ran.stderr))
                for left in ("out", "out.notes"):
                    (self.folder / left).unlink() if ran.returncode < 2 and (self.folder / left).exists() else None
                self.assertEqual(os.listdir(self.folder), ["a.dwg"], (name, size))

    def test_an_output_that_cannot_be_written_is_named(self) -> None:
        path = self.file("a.dwg", drawn(30, 1))
        for name in ("dwg-json", "dwg-picture", "dwg-info"):
            out = self.folder / "no" / "o\tut"
            ran = tool(name, *WRITERS[name](path, out))
            said = f"{name}: {self.folder}/no/o\\tut can't be written: No such file or directory\n"
            self.assertEqual((ran.returncode, ran.stderr.decode()), (5, said))
            if os.path.exists("/dev/full"):
                ran = in_bash(f'{name} "$1" >/dev/full', path)
                self.assertEqual((ran.returncode, ran.stderr.decode()), (5, f"{name}: standard output can't be written: No space left on device\n"))

    def test_a_temporary_file_that_cannot_be_written_is_told_as_one(self) -> None:
        """What is full is told, and no input or output is called bad for it."""
        path, text, cut = self.file("a.dwg", drawn(300, 1)), self.file("text", b"drawing of too few words"), self.file("cut.dwg", drawn(3, 1)[:60])
        (self.folder / "temporary").mkdir()
        name = f"the temporary file in {self.folder}/temporary"
        piped = [
            ("dwg-json", ["-"], 70, path), ("dwg-picture", ["-"], 70, path), ("dwg-diff", ["-", path], 2, path), ("dwg-info", ["-"], 70, path),
            # The notes of the program are in one too.
            ("dwg-json", [text], 70, None), ("dwg-diff", [path, text], 2, None), ("dwg-info", [cut], 70, None),
        ]  # fmt: skip
        for tool_name, words, status, given in piped:
            with self.subTest(tool_name, words=words):
                said = [str(TOOLS / tool_name), "--program", made.PROGRAM, *map(str, words)]
                environment = {**os.environ, "TMPDIR": f"{self.folder}/temporary"}
                data = given.read_bytes() if given else b""
                ran = subprocess.run(said, input=data, capture_output=True, check=False, preexec_fn=limited_to(20), env=environment)
                self.assertEqual((ran.returncode, ran.stdout), (status, b""), ran.stderr)
                of = ("standard input: " if words == ["-"] else f"{words[0]}: ") if tool_name == "dwg-info" else ""
                self.assertRegex(ran.stderr.decode(), rf"\A{tool_name}: {re.escape(of + name)}( can't be written|: File too large)\n\Z")
        # So is one that can't be made, whichever it is of those that a tool makes, and nothing is left of an output that isn't there.
        for tool_name, words, status in (("dwg-json", [path], 70), ("dwg-picture", [path], 70), ("dwg-info", [path], 70), ("dwg-diff", [path, path], 2)):
            for count in range(8):
                ran = test_limits.otherwise(tool_name, NO_TEMPORARY.format(count=count), "--program", made.PROGRAM, *words)
                if ran.returncode == 0:
                    break
                of = re.escape(f"{path}: ") if tool_name == "dwg-info" else ""
                said = rf"\A{tool_name}: {of}(the|a) temporary file( in \S+)?( can't be written)?: No space left on device\n\Z"
                self.assertEqual((ran.returncode, ran.stdout), (status, b""), (tool_name, count, ran.stderr))
                self.assertRegex(ran.stderr.decode(), said, (tool_name, count))
            self.assertTrue(0 < count < 7, tool_name)
        said = [str(TOOLS / "dwg-json"), "--program", made.PROGRAM, str(path)]
        ran = subprocess.run(said, capture_output=True, check=False, preexec_fn=limited_to(0))
        self.assertEqual((ran.returncode, ran.stdout), (70, b""), ran.stderr)
        self.assertTrue(ran.stderr.startswith(b"dwg-json: a temporary file: No usable temporary directory found in "), ran.stderr)
        self.assertEqual(sorted(os.listdir(self.folder)), ["a.dwg", "cut.dwg", "temporary", "text"])

    def test_a_temporary_file_that_is_full_at_its_last_bytes_ends_no_run(self) -> None:
        """Rows of a drawing of which the last ones, which a buffer held, find no room any more, and which are read after all was shown."""
        drawing, content = spelled.Drawing(), "x" * 2000
        for _ in range(701):
            drawing.text(content.encode(), (0, 0), 1)
        (self.folder / "d").mkdir()
        for name, data in (("a.dwg", drawn(2, 1)), ("b.dwg", drawing.file()), ("c.dwg", drawn(2, 1))):
            self.file(f"d/{name}", data)
        whole = list(csv.reader(io.StringIO(tool("dwg-info", "--texts", ".", self.folder / "d").stdout.decode())))
        size = sum(len(json.dumps([int(row[1], 16), row[2], 1, row[4]])) + 1 for row in whole if row[0].endswith("b.dwg"))
        others = [row for row in whole if not row[0].endswith("b.dwg")]
        for most in (1 << 20, size - 9000, size - 200, size - 1):
            said = [str(TOOLS / "dwg-info"), "--program", made.PROGRAM, "--texts", ".", str(self.folder / "d")]
            ran = subprocess.run(said, capture_output=True, check=False, preexec_fn=limited_to(most))
            self.assertEqual((ran.returncode, list(csv.reader(io.StringIO(ran.stdout.decode())))), (70, others), most)
            self.assertRegex(ran.stderr.decode(), rf"\Adwg-info: {self.folder}/d/b.dwg: the temporary file in \S+: File too large\n\Z")

    def test_a_temporary_file_that_stays_is_told(self) -> None:
        """As in a folder to which files can only be added."""
        path = self.file("a.dwg", drawn(20, 1))
        keeping = """
import os
unlink = os.unlink
def kept(name, **more):
    if str(name).endswith(".part"):
        raise PermissionError(1, "Operation not permitted")
    unlink(name, **more)
os.unlink = kept
"""
        runs = [(name, 0, words(path, self.folder / "new" / "out")) for name, words in WRITERS.items()]
        for name, status, words in runs:
            (self.folder / "new").mkdir()
            ran = test_limits.otherwise(name, keeping, "--program", made.PROGRAM, *words)
            left = sorted(map(str, (self.folder / "new").rglob("*.part")))
            said = sorted(line for line in ran.stderr.decode().splitlines() if line.endswith("is left there, and can't be removed: Operation not permitted"))
            self.assertEqual((ran.returncode, said), (status, [f"{name}: {one} is left there, and can't be removed: Operation not permitted" for one in left]), (name, ran.stderr))
            self.assertEqual(len(left), 1)
            shutil.rmtree(self.folder / "new")

    @unittest.skipUnless(sys.platform == "linux", "renames that replace nothing, which Linux has")
    def test_without_links_a_name_is_never_that_of_an_empty_file(self) -> None:
        out = self.folder / "out"
        with unittest.mock.patch.object(os, "link", side_effect=PermissionError(1, "Operation not permitted")), unittest.mock.patch.object(WholeFile, "_take_name", side_effect=AssertionError):
            write_whole(str(out), b"one")
            with self.assertRaises(FileExistsError):
                write_whole(str(out), b"two")
        self.assertEqual((out.read_bytes(), os.listdir(self.folder)), (b"one", ["out"]))

    def test_without_such_a_rename_either(self) -> None:
        out = self.folder / "out"
        with unittest.mock.patch.object(os, "link", side_effect=PermissionError(1, "Operation not permitted")), unittest.mock.patch("dwgtools.outputs.renamed", return_value=False):
            write_whole(str(out), b"one")
            with self.assertRaises(FileExistsError):
                write_whole(str(out), b"two")
        self.assertEqual((out.read_bytes(), os.listdir(self.folder)), (b"one", ["out"]))

    def test_an_output_is_in_its_folder_wherever_that_is_moved(self) -> None:
        path = self.file("a.dwg", drawn(3, 1))
        moving = program_that(self.folder, "moving", [f'[ "$1" = drill ] || mv "{self.folder}/new" "{self.folder}/moved" 2>/dev/null', 'exec "$REAL" "$@"'])
        for name, words in WRITERS.items():
            for force in ([], ["--force"]):
                for place, out in ((None, self.folder / "new/out"), (self.folder / "new", "out")):
                    (self.folder / "new").mkdir()
                    said = [str(TOOLS / name), "--program", str(moving), *map(str, words(path, out)), *force]
                    ran = subprocess.run(said, capture_output=True, check=False, cwd=place)
                    found = sorted(os.listdir(self.folder / "moved"))
                    # (what has a name of its folder alone is where that is)
                    status = 5 if place is None else 0
                    self.assertEqual((ran.returncode, found), (status, ["out"]), (name, force, ran.stderr))
                    if status:
                        said_so = f"{name}: {out.parent} was moved or replaced meanwhile, and {out} went with it\n"
                        self.assertEqual((ran.stdout, ran.stderr.decode()), (b"", said_so))
                    shutil.rmtree(self.folder / "moved")
            # What stands in a folder that is set aside isn't replaced.
            (self.folder / "new").mkdir()
            self.file("new/out", b"older")
            ran = tool(name, "--program", moving, *words(path, self.folder / "new" / "out"), "--force")
            self.assertEqual((ran.returncode, (self.folder / "moved" / "out").read_bytes()), (5, b"older"), ran.stderr)
            shutil.rmtree(self.folder / "moved")

    def test_an_output_is_where_links_lead_to_and_nothing_is_left_elsewhere(self) -> None:
        path = self.file("a.dwg", drawn(3, 1))
        for folder in ("real/deep", "here"):
            (self.folder / folder).mkdir(parents=True)
        (self.folder / "here/link").symlink_to("../real/deep")
        for name, words in WRITERS.items():
            for force in ([], ["--force"], ["--force"]):
                said = [str(TOOLS / name), "--program", made.PROGRAM, *map(str, words(path, "link/../out")), *force]
                ran = subprocess.run(said, capture_output=True, check=False, cwd=self.folder / "here")
                self.assertEqual((ran.returncode, ran.stderr, os.listdir(self.folder / "here")), (0, b"", ["link"]), name)
                for out in (self.folder / "real").iterdir():
                    self.assertEqual(out.stat().st_nlink if out.is_file() else 1, 1, out)
            self.assertIn("out", os.listdir(self.folder / "real"))
            for out in (self.folder / "real").glob("out*"):
                out.unlink()

    def test_an_output_in_a_folder_that_has_no_whole_name(self) -> None:
        """No system call takes one of more than 4,096 bytes."""
        path = self.file("a.dwg", drawn(3, 1))

        def deep() -> None:
            os.chdir(self.folder)
            for _ in range(17):
                os.makedirs("x" * 250, exist_ok=True)
                os.chdir("x" * 250)

        for name, words in WRITERS.items():
            for force in ([], ["--force"]):
                said = [str(TOOLS / name), "--program", made.PROGRAM, *map(str, words(path, f"{name}.out")), *force]
                ran = subprocess.run(said, capture_output=True, check=False, preexec_fn=deep)
                self.assertEqual((ran.returncode, ran.stderr), (0, b""), name)

    def test_long_names(self) -> None:
        path = self.file("a.dwg", drawn(3, 1))
        for name, out in (("dwg-json", "\u6587" * 85), ("dwg-picture", "x" * 255), ("dwg-json", "\U0001f4d0" * 63), ("dwg-info", "\u6588" * 85)):
            ran = tool(name, *WRITERS[name](path, self.folder / out))
            self.assertEqual((ran.returncode, ran.stderr), (0, b""))
            self.assertTrue((self.folder / out).is_file())


class Inputs(common.InFolder):
    """A pipe is an input as a file is, and `-` is a standard stream."""

    def test_pipes_are_inputs(self) -> None:
        old, new = self.file("old.dwg", drawn(50, 3)), self.file("new.dwg", drawn(51, 3))
        same = {
            'dwg-diff <(cat "$1") <(cat "$2")': tool("dwg-diff", old, new),
            'dwg-diff <(cat "$1") "$2"': tool("dwg-diff", old, new),
            'cat "$1" | dwg-json /dev/stdin': tool("dwg-json", old),
            'dwg-json <(cat "$1")': tool("dwg-json", old),
            'cat "$1" | dwg-json -o -': tool("dwg-json", old),
            'dwg-picture <(cat "$1") -o -': tool("dwg-picture", old),
            'cat "$1" | dwg-info | tail -n +2': in_bash('dwg-info "$1" | tail -n +2', old),
            'dwg-info <(cat "$1") | tail -n +2': in_bash('dwg-info "$1" | tail -n +2', old),
            'mkfifo "$3"; cat "$1" >"$3" & dwg-json "$3"': tool("dwg-json", old),
        }
        for script, expected in same.items():
            ran = in_bash(script, old, new, self.folder / "fifo")
            self.assertEqual((ran.returncode, ran.stdout, ran.stderr), (expected.returncode, expected.stdout, expected.stderr), script)

    def test_an_input_that_has_too_many_bytes(self) -> None:
        self.assertEqual(in_bash("dwg-json <(cat \"$1\" /dev/zero 2>/dev/null)", self.file("a.dwg", drawn(3, 1))).returncode, 7)


class Ends(common.InFolder):
    """However a tool ends, its status says how."""

    def test_closed_streams(self) -> None:
        path = self.file("a.dwg", drawn(3, 1))
        for name, words in ALL.items():
            for closed in (">&-", "2>&-", "<&-", ">&- 2>&-", "<&- >&- 2>&-"):
                ran = in_bash(f'{name} "$@" {closed}', *words(path))
                self.assertEqual(ran.returncode, 0, (name, closed, ran.stderr))
                self.assertNotIn(b"rror", ran.stderr)
        # No file that is opened takes the place of a stream.
        out = self.folder / "out.json"
        self.assertEqual(in_bash('dwg-json "$1" -o "$2" <&- >&- 2>&-', path, out).returncode, 0)
        self.assertEqual(out.read_bytes(), tool("dwg-json", path).stdout)
        ran = in_bash('dwg-json "$1" 2>&-', self.folder / "none")
        self.assertEqual((ran.returncode, ran.stdout), (4, b""))

    @unittest.skipUnless(os.path.exists("/proc/self/fd"), "what descriptors lead to, as there is no /proc")
    def test_closed_streams_where_python_is_a_script(self) -> None:
        """One that begins Python, as that of pyenv, would stand in the place of a stream that is closed; so would a tool, where sh is bash."""
        told, place = self.folder / "told", self.folder / "bin"
        look = "import os, sys; open(sys.argv[1], 'w').write(' '.join(os.path.realpath(f'/proc/self/fd/{one}') for one in range(3)))"
        place.mkdir()
        (place / "python3").write_text(f'#!/bin/bash\nexec {shlex.quote(sys.executable)} -c {shlex.quote(look)} {shlex.quote(str(told))}\n')
        (place / "python3").chmod(0o755)
        path = f"{place}:{os.environ['PATH']}"
        files = [self.file(f"stream {one}", b"") for one in range(3)]
        for name in ALL:
            for shell in ("", "bash ", "dash "):
                for closed in ("", "0", "1", "2", "12", "012"):
                    to = " ".join(f"{one}>&-" if str(one) in closed else f"{one}<>{shlex.quote(str(files[one]))}" for one in range(3))
                    if shutil.which(shell.strip() or "sh"):
                        in_bash(f'PATH={shlex.quote(path)}; {shell}{shlex.quote(str(TOOLS / name))} {to}')
                        expected = ["/dev/null" if str(one) in closed else str(files[one]).replace(" ", "?") for one in range(3)]
                        found = told.read_text().replace("stream ", "stream?").split(" ")
                        self.assertEqual(found, expected, (name, shell, closed))

    @unittest.skipUnless(os.path.exists("/dev/full"), "a full disk, as there is no /dev/full")
    def test_full_standard_streams(self) -> None:
        path = self.file("a.dwg", drawn(3, 1))
        statuses = {"dwg-json": 5, "dwg-picture": 5, "dwg-diff": 0, "dwg-info": 5}
        for name, words in ALL.items():
            self.assertEqual(in_bash(f'{name} "$@" >/dev/full 2>/dev/full', *words(path)).returncode, statuses[name], name)
        # What a tool says of itself is an output as any other.
        for name, status in {**statuses, "dwg-diff": 2}.items():
            for word in ("--help", "--version"):
                ran = in_bash(f"{name} {word} >/dev/full")
                self.assertEqual((ran.returncode, ran.stderr.decode()), (status, f"{name}: standard output can't be written: No space left on device\n"), word)
        self.assertEqual(in_bash('dwg-json "$1" 2>/dev/full', self.folder / "none").returncode, 4)
        # What can't be said of a picture takes nothing of it away.
        one = spelled.Drawing()
        one.entity(39, "1" * 30)
        nothing, out = self.file("nothing.dwg", one.file()), self.folder / "out.svg"
        for closed in ("/dev/full", ">(exec true)"):
            self.assertEqual((in_bash(f'dwg-picture "$1" -o "$2" 2> {closed}', nothing, out).returncode, out.exists()), (0, True))
            out.unlink()

    def test_variables_of_python_are_not_heeded(self) -> None:
        path = self.file("a.dwg", drawn(3, 1))
        variables = {"PYTHONSAFEPATH": "1", "PYTHONHOME": "/nowhere", "PYTHONPATH": str(self.folder), "PYTHONIOENCODING": "none", "PYTHONHASHSEED": "none"}
        (self.folder / "argparse.py").write_text("1 / 0\n")
        for name, words in ALL.items():
            expected = tool(name, *words(path))
            for variable, value in variables.items():
                ran = tool(name, *words(path), **{variable: value})
                self.assertEqual((ran.returncode, ran.stdout, ran.stderr), (0, expected.stdout, expected.stderr), (name, variable))

    def test_no_python(self) -> None:
        """The status is that of the shell or of env, which the manual page names."""
        place = self.folder / "bin"
        place.mkdir()
        for linked in ((), ("env",)):
            for name in linked:
                (place / name).symlink_to(str(shutil.which(name)))
            for name in ALL:
                ran = subprocess.run([str(TOOLS / name), "--help"], capture_output=True, check=False, env={"PATH": str(place)})
                self.assertEqual((ran.returncode, ran.stdout), (127, b""))
        said = (made.TOP / "docs" / "dwg-tools.7").read_text().partition(".Sh EXIT STATUS")[2].partition(".Sh EXAMPLES")[0]
        self.assertIn("which is 127.", said)

    def test_standard_input_that_is_a_folder(self) -> None:
        path = self.file("a.dwg", drawn(3, 1))
        for name, words in ALL.items():
            # Who doesn't read it doesn't care.
            ran = in_bash(f'{name} "$@" < /tmp', *words(path))
            self.assertEqual((ran.returncode, ran.stdout), (0, tool(name, *words(path)).stdout), (name, ran.stderr))
        for script, status in (("dwg-json", 4), ("dwg-picture", 4), ('dwg-diff - "$1"', 2), ("dwg-info", 4), ("dwg-info --preview -", 4)):
            ran = in_bash(f"{script} < /tmp", path)
            self.assertEqual((ran.returncode, ran.stdout), (status, b""), script)
            self.assertIn(b": standard input: ", ran.stderr)
            self.assertEqual(ran.stderr.count(b"\n"), 1, ran.stderr)

    def end_of(self, name: str, words: Sequence[object], wait: float, to_all: bool) -> int:
        """The status of a tool that is interrupted after a time."""
        environment = {**os.environ, "DWG": made.PROGRAM}
        said = [str(TOOLS / name), *map(str, words)]
        with subprocess.Popen(said, stdin=subprocess.DEVNULL, stdout=subprocess.PIPE, stderr=subprocess.PIPE, start_new_session=True, env=environment) as started:
            time.sleep(wait)
            (os.killpg if to_all else os.kill)(started.pid, signal.SIGINT)
            _, errors = started.communicate(timeout=600)
        self.assertNotIn(b"Traceback", errors)
        # A shell says 130 of one that the signal killed, too.
        return 130 if started.returncode == -signal.SIGINT else started.returncode

    def test_an_interrupt_that_reaches_the_program_first(self) -> None:
        path = self.file("a.dwg", drawn(20, 1))
        for name, words in ALL.items():
            killed = program_that(self.folder, "killed", ['[ "$1" != drill ] || exit 0', 'kill -INT $PPID $$; sleep 9'])
            ran = tool(name, "--program", killed, *words(path))
            self.assertEqual((ran.returncode, ran.stderr), (130, b""), name)

    def test_an_interrupt_doesnt_wait_for_who_reads(self) -> None:
        path = self.file("a.dwg", drawn(3000, 1))
        for number, status in ((signal.SIGINT, 130), (signal.SIGTERM, 143)):
            said = [str(TOOLS / "dwg-json"), "--program", made.PROGRAM, str(path)]
            with subprocess.Popen(said, stdout=subprocess.PIPE, stderr=subprocess.PIPE) as started:
                assert started.stdout is not None
                # It is held up by its output, of which nobody reads more.
                started.stdout.read(1)
                time.sleep(1)
                started.send_signal(number)
                self.assertEqual(started.wait(timeout=600), status)

    def test_a_signal_that_is_ignored_stays_so(self) -> None:
        path = self.file("a.dwg", drawn(3, 1))
        hanging = program_that(self.folder, "hanging", [f'touch "{self.folder}/begun"; sleep 1', 'exec "$REAL" "$@"'])
        script = 'trap "" HUP; dwg-json --program "$2" "$1" & until [ -e "$3" ]; do sleep 0.02; done; kill -HUP $!; wait $!'
        self.assertEqual(in_bash(script, path, hanging, self.folder / "begun").returncode, 0)

    def test_children_have_their_status_where_who_began_the_tool_ignores_their_end(self) -> None:
        """The system keeps no status of a child then, and Python takes each for 0."""
        ignored = lambda: signal.signal(signal.SIGCHLD, signal.SIG_IGN)
        path = self.file("a.dwg", flipped(drawn(3, 1), 60))
        words = {**ALL, "dwg-info": lambda source: ["--preview", "-", source]}
        for name, of in words.items():
            # (not every shell keeps it ignored for what it begins)
            said = [sys.executable, "-B", str(TOOLS / name), "--program", made.PROGRAM, *map(str, of(path))]
            usual, one = (subprocess.run(said, stdin=subprocess.DEVNULL, capture_output=True, check=False, preexec_fn=begin) for begin in (None, ignored))
            self.assertNotEqual(one.returncode, 0, name)
            self.assertEqual((one.returncode, one.stdout, one.stderr), (usual.returncode, usual.stdout, usual.stderr), name)

    def test_the_index_of_git_stays_as_it_is(self) -> None:
        (self.folder / "tools").mkdir()
        shutil.copytree(TOOLS / "dwgtools", self.folder / "tools" / "dwgtools")
        told = Path(shutil.copy(TOOLS / "dwg-info", self.folder / "tools"))
        for words in (["init", "-q"], ["add", "."], ["-c", "user.name=t", "-c", "user.email=t@example.org", "commit", "-q", "-m", "all"]):
            subprocess.run(["git", *words], cwd=self.folder, check=True, stdout=subprocess.DEVNULL)
        os.utime(told, (1, 1))
        index = self.folder / ".git" / "index"
        before = index.stat().st_ino, index.stat().st_mtime_ns
        said = subprocess.run([str(told), "--version"], capture_output=True, check=True).stdout.splitlines()[0]
        self.assertRegex(said.decode(), "^dwg-info, commit [0-9a-f]{40}$")
        self.assertEqual((index.stat().st_ino, index.stat().st_mtime_ns), before)
        told.write_bytes(told.read_bytes() + b"\n")
        self.assertEqual(subprocess.run([str(told), "--version"], capture_output=True, check=True).stdout.splitlines()[0], said + b" and changes")

    def test_nothing_turns_the_direction_of_a_terminal(self) -> None:
        letters = "\u202e\u2066\u200f\u061c\x1b\x9b"
        path = self.file(f"a{letters}.dwg", drawn(3, 1))
        for name, words in ALL.items():
            for source in (path, self.folder / f"none{letters}"):
                ran = tool(name, *words(source), "--" + letters) if source != path else tool(name, *words(source))
                for said in (ran.stderr, b"" if name == "dwg-picture" else ran.stdout):
                    self.assertFalse(set(letters) & set(said.decode()), (name, said))

    def test_the_name_of_a_tool_colours_no_terminal(self) -> None:
        for name in ALL:
            called = self.folder / f"{name}\x1b[31m"
            called.symlink_to(TOOLS / name)
            for words in (["--nonsense"], [self.folder / "none", self.folder / "out"], ["--version"], ["--help"]):
                ran = subprocess.run([str(called), *map(str, words)], capture_output=True, check=False, env={**os.environ, "DWG": made.PROGRAM})
                self.assertNotIn(b"\x1b", ran.stdout + ran.stderr, (name, words))

    def test_a_name_in_a_drawing_turns_and_colours_no_terminal(self) -> None:
        letters = "\x1b]0;t\x07\n\x9b"
        one = spelled.Drawing()
        one.of_class(500, letters.encode("latin-1"))
        odd = one.entity(500, "1" * 30, mode=1)
        one.entity(500, "1" * 30)
        # The chain of a block leads to it, which is no member.
        main = "0" * 5 + spelled.reals((0, 0, 0)) + spelled.text(b"") + spelled.byte(0) + spelled.text(b"") + spelled.long(0)
        one.entry(49, 0x30, b"B", main, [(5, 0), (3, 0), (4, odd), (4, odd), (3, 0), (5, 0)])
        path = self.file("a.dwg", one.file(2))
        for name, words in ALL.items():
            ran = tool(name, *words(path))
            said = ran.stderr + (b"" if name == "dwg-picture" else ran.stdout)
            self.assertFalse(set(letters) - set("\n]0;t") & set(said.decode()), (name, said))
        self.assertEqual(tool("dwg-picture", path).stderr, f"dwg-picture: {path}: nothing is drawn\ndwg-picture: {path}: not drawn: 1 \\x1b]0;t\\x07\\n\\xc2\\x9b\n".encode())


if __name__ == "__main__":
    unittest.main()
