"""What tools do at their limits, with programs that stand in for dwg: of time, of threads, of memory; and nothing is written into what is read."""

from __future__ import annotations

import argparse
import contextlib
import fcntl
import json
import os
import shutil
import signal
import struct
import subprocess
import sys
import termios
import threading
import time
import unittest
import unittest.mock
from pathlib import Path
from typing import IO, List, Sequence, Tuple, Union

import common
import made
from made import TOOLS, program_that

from dwgtools import plane, shapes, walking
from dwgtools.arguments import whole_number
from dwgtools.json_values import Speaker
from dwgtools.show import Lists, Object, read_objects
from dwgtools.values import BadText, Text
from dwgtools.walking import held

# A tool in a Python in which something is otherwise: the lines run first, and its module is `tool`.
OTHERWISE = """
import sys
sys.path.insert(0, {tests!r})
import made, subprocess, tempfile, threading, time
from dwgtools import outputs, picture, program, running, show, signals, stock
tool = made.module(made.TOOLS / {name!r}, "tool")
{lines}
sys.argv = [{name!r}, *sys.argv[1:]]
running.run_tool(tool.main)
"""

# Lets only so many threads begin.
FEW_THREADS = """
begin, left = threading.Thread.start, [{count}]
def start(thread):
    left[0] -= 1
    if left[0] < 0:
        raise RuntimeError("can't start new thread")
    begin(thread)
threading.Thread.start = start
"""

# Notes what is known of the process at its end, where the most memory that it had is too.
MEASURED = """
main = tool.main
def measured():
    status = main()
    with open("/proc/self/status") as told, open({peak!r}, "w") as peak:
        peak.write(told.read())
    return status
tool.main = measured
"""

# Lets one process run at a time.
ONE_PROCESS = """
begun, popen = [], subprocess.Popen
def start(*words, **more):
    if any(one.poll() is None for one in begun):
        raise BlockingIOError(11, "Resource temporarily unavailable")
    begun.append(popen(*words, **more))
    return begun[-1]
subprocess.Popen = start
"""


def otherwise(name: str, lines: str, *words: object, stdin: Union[int, IO[bytes]] = subprocess.DEVNULL) -> "subprocess.CompletedProcess[bytes]":
    """What a tool answers in such a Python."""
    code = OTHERWISE.format(tests=str(TOOLS / "tests"), name=name, lines=lines)
    return subprocess.run([sys.executable, "-B", "-c", code, *map(str, words)], stdin=stdin, capture_output=True, check=False, timeout=600)


def rows(table: bytes) -> List[List[str]]:
    """Path, verdict and detail of each line of a table."""
    return [line.split("\t")[:3] for line in table.decode().splitlines()[1:]]


# How each tool is run over one drawing, and the status that it has where the program gives no answer.
EACH = {
    "dwg-diff": (["{0}"], 2), "dwg-info": ([], 69), "dwg-json": ([], 69), "dwg-picture": ([], 69),
}  # fmt: skip


class Numbers(common.InFolder):
    """Numbers of command lines are ASCII digits alone, whatever else Python reads as a number."""

    WRONG = ("1_0", " 5", "5 ", "5\n", "+5", "-1", "0", "1e2", "", "\u0663", "\u00b2", "\uff15", "9" * 5000)

    def test_whole_numbers(self) -> None:
        for most in (999, 1000, 100_000):
            read = whole_number(1, most)
            for word in (*self.WRONG, str(most + 1), f"0{most}"):
                with self.assertRaisesRegex(argparse.ArgumentTypeError, f"is no number from 1 to {most}"):
                    read(word)
            self.assertEqual([read(word) for word in ("1", "007", str(most))], [1, 7, most])

    def test_each_tool(self) -> None:
        out, path = self.folder / "out", self.folder / "a.dwg"
        options = {
            "dwg-info": ["--picture=1_0", "--preview", out],
            "dwg-picture": ["--width=1_0", "-o", out], "dwg-json": ["--codepage=1_0"], "dwg-picture ": ["--window=0,0,1_0,5"],
        }  # fmt: skip
        for name, words in options.items():
            ran = made.tool(name.strip(), *words, path)
            self.assertEqual((ran.returncode, ran.stdout, out.exists()), (64, b"", False), (name, words))


class NoMemory(common.InFolder):
    """Where Python has no memory, a tool says so by a status that it has for that."""

    def test_each_tool(self) -> None:
        path = self.file("a.dwg", b"AC1015")
        none = "def none(*_):\n    raise MemoryError\ntool.{name} = none"
        runs = (("dwg-diff", "compare", [path, path], 2), ("dwg-json", "write", [path], 6))
        for name, called, words, status in runs:
            ran = otherwise(name, none.format(name=called), "--program", "/bin/true", *words)
            self.assertEqual((ran.returncode, ran.stdout, ran.stderr.decode()), (status, b"", f"{name}: no memory was to be had\n"))


def is_there(number: int) -> bool:
    """Whether a process of this one is there, and hasn't ended."""
    with contextlib.suppress(ChildProcessError):
        return os.waitpid(number, os.WNOHANG)[0] == 0
    return False


# Sends the tool a signal as Python lets an object go, where it drops what is raised.
AT_THE_END_OF_AN_OBJECT = """
import os, sys, signal, runpy
number, tool, sys.argv = int(sys.argv[1]), sys.argv[2], sys.argv[2:]
sys.path.insert(0, os.path.dirname(tool))
def hook(frame, event, _):
    if event == "call" and frame.f_code.co_name == "__del__" and frame.f_code.co_filename.endswith("spools.py"):
        sys.setprofile(None)
        os.kill(os.getpid(), number)
sys.setprofile(hook)
runpy.run_path(tool, run_name="__main__")
"""

# Interrupts the tool when a run has begun, and before anybody has it.
INTERRUPTED = """
import os, pathlib, signal
popen = subprocess.Popen
def start(words, **more):
    ran = popen(words, **more)
    if words[1] != "drill":
        while not pathlib.Path({begun!r}).exists():
            time.sleep(0.01)
        os.kill(os.getpid(), signal.SIGINT)
        time.sleep(0.01)
    return ran
subprocess.Popen = start
"""

# Tells of each signal that ends a tool what handles it once it ends.
HANDLED = """
import signal
signal.signal(signal.SIGHUP, signal.SIG_IGN)
def ended():
    signals.ignore_signals()
    print(*(callable(signal.getsignal(number)) and signal.getsignal(number) != signal.SIG_IGN for number in signals.ENDING))
    return 0
tool.main = ended
"""


def state_of(number: int) -> str:
    """The letter of the state of a process, Z of one that isn't there any more."""
    try:
        return Path(f"/proc/{number}/stat").read_text().rpartition(")")[2].split()[0]
    except (FileNotFoundError, ProcessLookupError):
        return "Z"


def is_running(number: int) -> bool:
    """Whether a process runs; one that ended, and of which nobody took note, doesn't."""
    return state_of(number) != "Z"


def ended(number: int) -> bool:
    """Whether a process ends in a moment: a signal that is sent need not have come yet."""
    end = time.monotonic() + 120
    while is_running(number) and time.monotonic() < end:
        time.sleep(0.01)
    return not is_running(number)


PREFIX = "drawing AC1015 codepage 30 lead 00000000000000 mark 0000\nvariables -\nclasses 0\nobjects {count}\n"
COMMON = "  owner 4.18\n  mode {mode}\n  colour 256\n  lineweight 29\n  layer 5.10\n"


def word(value: float) -> str:
    """A number as `show` prints it."""
    return struct.pack(">d", value).hex().upper()


def polyline_text(count: int, flag: int = 0, bulges: Sequence[float] = (), widths: Sequence[Tuple[float, float]] = (), width: float = 0.0, equal: bool = True, mode: int = 2) -> str:
    """The text of a polyline of so many points, which are equal or go up and down."""
    lines = [f"object 31 LWPOLYLINE typed 77\n{COMMON.format(mode=mode)}  flag {flag}\n  width {word(width)}\n  normal {word(0.0)} {word(0.6)} {word(0.8)}\n"]
    lines += [f"  points[{at}] {word(64.5 if equal else at * 0.37)} {word(-3.25 if equal else at % 5)}\n" for at in range(count)]
    lines += [f"  bulges[{at}] {word(bulge)}\n" for at, bulge in enumerate(bulges)]
    lines += [f"  widths[{at}].start {word(start)}\n  widths[{at}].end {word(end)}\n" for at, (start, end) in enumerate(widths)]
    return "".join(lines)


def first_object(text: str, lists: Lists = Lists.TEXT) -> Object:
    """The object of a text."""
    return next(read_objects(iter(text.encode().splitlines(keepends=True)), lists=lists))


# An object with lists of each form: of references with names and without, of texts, of structs and of lists in these.
LISTS = """object 20 DICTIONARY plain 42
  owner 4.18
  colour 256
  reactors[0] 4.10
  reactors[1] 4.11
  reactors[2] 4.0
  links.previous 4.0
  links.next 4.1
  items[0].name "\\fcber\\00 \\5c"
  items[0].target 2.10
  items[0].deep[0] 1
  items[0].deep[1] 2
  items[1].name "\\81"
  items[2].target 2.0
  point 3FF0000000000000 7FF0000000000000 8000000000000000
  rest -
  inner.list[0] 1
  inner.list[1].a "x"
  refs[0] 5.10
"""


class Memory(common.InFolder):
    """An object of many elements takes no more than some times its own bytes, and one of too many is refused."""

    def showing(self, text: str) -> Path:
        """A program that shows a text of each drawing, and recovers it as it is."""
        (self.folder / "text").write_text(text)
        lines = {"show": f'exec cat "{self.folder}/text"', "audit": "echo audit yes; exit 0", "recover": "exec cat"}
        return program_that(self.folder, "showing", [f'[ "$1" != {command} ] || {{ {line}; }}' for command, line in lines.items()])

    def most(self, name: str, text: str) -> int:
        """The most memory that a tool has at once, in bytes; its output is `out`."""
        peak, out = self.folder / "peak", self.folder / "out"
        ran = otherwise(name, MEASURED.format(peak=str(peak)), "--program", self.showing(text), self.file("a.dwg", b"AC1015"), "--output", out, "--force")
        self.assertEqual((ran.returncode, ran.stderr), (0, b""))
        return 1024 * int(peak.read_text().partition("VmHWM:")[2].split()[0])

    @unittest.skipUnless(os.path.exists("/proc/self/status"), "memory, as there is no /proc/self/status")
    def test_an_object_of_very_many_elements(self) -> None:
        prefix, count = PREFIX.format(count=1), 200_000
        # A vertex has four bits, and so have two widths.
        size = count // 2
        for name, most in (("dwg-json", 200), ("dwg-picture", 70)):
            least = self.most(name, prefix + polyline_text(2))
            self.assertLess(self.most(name, prefix + polyline_text(count)) - least, most * size, name)
            self.assertGreater((self.folder / "out").stat().st_size, 4 * count)
        self.assertLess(self.most("dwg-picture", prefix + polyline_text(2, widths=[(1.0, 1.0)] * count)) - least, 70 * size)

    @unittest.skipUnless(os.path.exists("/proc/self/status"), "memory, as there is no /proc/self/status")
    def test_very_many_widths_that_differ(self) -> None:
        prefix, count = PREFIX.format(count=1), 20_000
        least = self.most("dwg-picture", prefix + polyline_text(2))
        # A vertex has at least eight bytes here, its widths four bits.
        self.assertLess(self.most("dwg-picture", prefix + polyline_text(count, widths=[(1.0, 0.5)] * count, equal=False)) - least, 20 * 8 * count)

    def differing(self, count: int) -> Tuple[int, bytes]:
        """The most memory that dwg-diff has at once over two polylines of so many points, all unlike, and what it says."""
        return self.compared(*(PREFIX.format(count=1) + text for text in (polyline_text(count), polyline_text(count).replace(word(64.5), word(65.5)))))

    def compared(self, *texts: str) -> Tuple[int, bytes]:
        """The most memory that dwg-diff has at once over two drawings that differ, by the texts that are shown of them, and what it says."""
        peak, files = self.folder / "peak", []
        for name, text in zip(("old", "new"), texts):
            shown = self.file(f"{name}.txt", text.encode())
            files.append(self.file(f"{name}.dwg", f"{shown}\n".encode()))
        program = program_that(self.folder, "showing", ['[ "$1" != show ] || { read -r name; exec cat "$name"; }'])
        ran = otherwise("dwg-diff", MEASURED.format(peak=str(peak)), "--program", program, *files)
        self.assertEqual((ran.returncode, ran.stderr), (1, b""))
        return 1024 * int(peak.read_text().partition("VmHWM:")[2].split()[0]), ran.stdout

    @unittest.skipUnless(os.path.exists("/proc/self/status"), "memory, as there is no /proc/self/status")
    def test_a_difference_of_very_many_elements(self) -> None:
        count = 100_000
        (least, _), (most, said) = self.differing(2), self.differing(count)
        # Of both drawings, a vertex of which has four bits.
        self.assertLess(most - least, 200 * count)
        lines = said.splitlines()
        self.assertEqual((len(lines), lines[0]), (count + 2, b"changed object 31 LWPOLYLINE"))
        self.assertEqual(lines[-2], b"  points[99999]: 64.5 -3.25 -> 65.5 -3.25")

    @unittest.skipUnless(os.path.exists("/proc/self/status"), "memory, as there is no /proc/self/status")
    def test_very_many_classes(self) -> None:
        """A class has 29 bits at the least, so that two drawings have seven bytes of each here, of which some times as much is held."""
        texts = []
        for count in (2, 100_000):
            lines = [f'class {500 + index % 60_000} version 0 proxy 0 item 498 app "" cpp "" dxf ""\n' for index in range(count)]
            prefix = PREFIX.format(count=0).replace("classes 0\n", f"classes {count}\n%s")
            texts.append([prefix % "".join(lines), prefix % "".join([lines[-1], *lines[:-1]])])
        (least, few), (most, said) = (self.compared(*pair) for pair in texts)
        self.assertEqual(few.splitlines(), [b"changed classes", b"  order[0]: 500 -> 501", b"  order[1]: 501 -> 500", b"objects: 0 added, 0 removed, 0 changed"])
        self.assertEqual((said.splitlines()[:2], len(said.splitlines())), ([b"changed classes", b"  order[0]: 500 -> 40499"], 100_002))
        # (and two megabytes of paths that are kept for a while, however many there are)
        self.assertLess(most - least, 10 * 7 * 100_000 + 2_000_000)

    @unittest.skipUnless(os.path.exists("/proc/self/status"), "memory, as there is no /proc/self/status")
    def test_very_many_names(self) -> None:
        """An entry of a table has twenty bytes at the least."""
        texts = []
        for count in (2, 100_000):
            entries = "".join(f'object {index:X} APPID typed 67\n  entry.name ""\n  extra 0\n' for index in range(0x10, count + 0x10))
            texts.append([PREFIX.format(count=count) + entries, PREFIX.format(count=count) + entries[:-2] + "1\n"])
        (least, _), (most, said) = (self.compared(*pair) for pair in texts)
        self.assertEqual(said.splitlines()[1:], [b"  extra: 0 -> 1", b"objects: 0 added, 0 removed, 1 changed"])
        self.assertLess(most - least, 2 * 20 * 100_000)

    def test_a_long_object_is_told_as_a_short_one(self) -> None:
        texts = [LISTS, polyline_text(9, widths=[(1.0, 0.5)] * 8, bulges=[1.0, 0.1]), "object 1 UNKNOWN raw 9\n  bytes 00ff\n", "object 1 SEQEND typed 6\n"]
        for text in texts:
            for form in ({"indent": 2}, {"separators": (", ", ": ")}):
                encoder, one = json.JSONEncoder(allow_nan=False, **form), first_object(text)
                short, long = (Speaker({0x10: Text(b"WALLS")}, "cp1252") for _ in range(2))
                self.assertEqual("".join(encoder.iterencode(long.long_object(one))), encoder.encode(short.object(one)))
                self.assertEqual(long.undecoded, short.undecoded)
        self.assertEqual(json.loads(encoder.encode(Speaker({}, "cp1252").object(first_object(LISTS))))["items"][0], {"name": "über\0 \\", "target": {"code": 2, "handle": "10"}, "deep": [1, 2]})
        for text in ("  a[1] 1\n", "  a[0] 1\n  a[0] 1\n", "  a[0] 1\n  a[2] 1\n", "  a[0] 1\n  b 1\n  a[1] 1\n"):
            with self.assertRaises(BadText, msg=text):
                list(json.JSONEncoder().iterencode(Speaker({}, "cp1252").long_object(first_object("object 1 X typed 6\n" + text))))

    def test_a_long_polyline_is_drawn_as_a_short_one(self) -> None:
        frames = [shapes.Frame(), shapes.Frame(3.0, 4.0, plane.Affine(0.5, 0.25, -1.0, 2.0))]
        for more in ({}, {"bulges": [0.5, 0.0, -1.0]}, {"width": 0.5}, {"width": 0.5, "bulges": [0.5, 0.0, -1.0]}, {"widths": [(1.0, 0.5), (0.0, 0.0), (0.5, 0.5)]}):
            for flag in (0, 512):
                said = []
                for many in (1000, 1):
                    with unittest.mock.patch.object(shapes, "MANY", many, create=True):
                        figures = list(shapes.polyline(shapes.Fields(first_object(polyline_text(7, flag, equal=False, **more), Lists.NUMBERS)), shapes.Context("cp1252", False)))
                    said.append([("".join(one.pieces(frame)), one.element(frame), list(one.around(frame))) for one in figures for frame in frames])
                self.assertEqual(said[0], said[1], (more, flag))
                self.assertTrue(all(pieces == element for pieces, element, _ in said[1]))

    def test_an_object_of_too_much_text(self) -> None:
        text = PREFIX.format(count=2) + "object 30 SEQEND typed 6\n" + polyline_text(300)
        program, path, out = self.showing(text), self.file("a.dwg", b"AC1015"), self.folder / "made"
        statuses = {"dwg-json": ([], 67), "dwg-picture": ([], 67), "dwg-diff": ([path], 2)}
        for name, (more, status) in statuses.items():
            for words in [more] if name == "dwg-diff" else [more, ["--output", out]]:
                ran = otherwise(name, "show.MOST_TEXT = 10_000", "--program", program, path, *words)
                said = f"{name}: {path}: object 31 LWPOLYLINE has more than 10000 bytes of text, which is more than the tools take\n"
                self.assertEqual((ran.returncode, ran.stdout, ran.stderr.decode()), (status, b"", said))
                self.assertFalse(out.exists())
        ran = otherwise("dwg-json", "show.MOST_TEXT = 100_000", "--program", program, path, "--output", out, "--force")
        self.assertEqual((ran.returncode, ran.stderr, len(out.read_bytes().splitlines())), (0, b"", 3))

    def test_blocks_of_too_much_text(self) -> None:
        program, path = self.showing(PREFIX.format(count=2) + polyline_text(300, mode=0).replace("object 31", "object 30") + polyline_text(300, mode=0)), self.file("a.dwg", b"AC1015")
        ran = otherwise("dwg-picture", "stock.MOST_KEPT = 20_000", "--program", program, path, "--output", self.folder / "made")
        self.assertEqual((ran.returncode, ran.stderr.decode()), (67, f"dwg-picture: {path}: the entities of blocks have more than 20000 bytes of text, which is more than is kept\n"))
        self.assertFalse((self.folder / "made").exists())


# Kills the tool before or after its so manyth call of those by which files are named and come on the disk.
KILLED = """
import os, signal
left = [{turn}]
def counted(call):
    def killing(*words, **more):
        left[0] -= 1
        if left[0] == 0 and {before}:
            os.kill(os.getpid(), signal.SIGKILL)
        given = call(*words, **more)
        if left[0] == 0:
            os.kill(os.getpid(), signal.SIGKILL)
        return given
    return killing
for name in ("rename", "replace", "link", "unlink", "fsync"):
    setattr(os, name, counted(getattr(os, name)))
outputs.renamed = counted(outputs.renamed)
"""


# Lets what gives names fail by its turn; and where names can't be exchanged, no links are made either.
FAILING = """
import os
turn = [0]
def counted(call):
    def failing(*words, **more):
        turn[0] += 1
        if turn[0] in {turns}:
            raise OSError(5, "Input/output error")
        return call(*words, **more)
    return failing
def unlinked(*_, **__):
    raise OSError(1, "Operation not permitted")
for name in ("rename", "replace"):
    setattr(os, name, counted(getattr(os, name)))
os.link = counted(os.link) if {exchanges} else unlinked
outputs.renamed = counted(outputs.renamed) if {exchanges} else lambda *_: False
"""


class FullDisk(common.InFolder):
    """Tools that begin for the first time where nothing can be written."""

    def test_each_tool_begins_again_where_there_is_room(self) -> None:
        tools = self.folder / "tools"
        tools.mkdir()
        shutil.copytree(TOOLS / "dwgtools", tools / "dwgtools", ignore=shutil.ignore_patterns("__pycache__"))
        for path in (TOOLS / name for name in EACH):
            shutil.copy(path, tools)
        for tool in sorted(tools.glob("dwg-*")):
            with self.subTest(tool.name):
                # (two blocks of 512 bytes hold no compiled module)
                subprocess.run(["sh", "-c", 'ulimit -f 2; exec "$0" "$@"', tool, "--version"], stdout=subprocess.DEVNULL, stderr=subprocess.DEVNULL, check=False)
                self.assertEqual(subprocess.run([tool, "--version"], stdout=subprocess.DEVNULL, check=False).returncode, 0)


class Unbuffered(unittest.TestCase):
    """What a tool writes where Python was told not to buffer."""

    def test_all_is_written_where_a_write_stops_in_the_middle(self) -> None:
        script = f"import sys; sys.path.insert(0, {str(TOOLS)!r}); from dwgtools import running; running.run_tool(lambda: sys.stdout.buffer.write(bytes(1_000_000)) * 0)"
        with subprocess.Popen([sys.executable, "-c", script], stdout=subprocess.PIPE, env={**os.environ, "PYTHONUNBUFFERED": "1"}) as ran:
            assert ran.stdout is not None
            waiting = b"\0" * 4
            while struct.unpack("i", waiting)[0] < 65_536:
                waiting = fcntl.ioctl(ran.stdout, termios.FIONREAD, b"\0" * 4)
            ran.send_signal(signal.SIGSTOP)
            while Path(f"/proc/{ran.pid}/stat").read_text(encoding="ascii").rsplit(") ", 1)[1][0] != "T":
                pass
            ran.send_signal(signal.SIGCONT)
            # A write that ends early is heard of before more is read.
            os.sched_yield()
            written = ran.stdout.read()
        self.assertEqual((ran.returncode, len(written)), (0, 1_000_000))


if __name__ == "__main__":
    unittest.main()
