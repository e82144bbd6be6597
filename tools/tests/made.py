"""Files for the tests of the tools: drawings that the program makes, and what was done to them.

Where a drawing's parts stand is worked out here from its bytes, by the layout of the canonical file alone (docs/FORMAT.md, Drawings).
"""

from __future__ import annotations

import importlib.machinery
import importlib.util
import os
import pathlib
import subprocess
import sys
import types
import unittest
from dataclasses import dataclass
from functools import lru_cache
from typing import Dict, List, Optional, Sequence, Tuple

TOP = pathlib.Path(__file__).resolve().parents[2]
TOOLS = TOP / "tools"
DATA = TOP / "crates" / "dwg_cli" / "data"
sys.path.insert(0, str(TOOLS))

from by_format import check_word  # noqa: E402  pylint: disable=wrong-import-position
from dwgtools.program import find_program  # noqa: E402  pylint: disable=wrong-import-position

PROGRAM = os.path.realpath(find_program())
# What gives recorded answers where no program is built, and the status with which it says that it has none.
STAND_IN, UNRECORDED = str(TOP / "tools" / "tests" / "recorded" / "dwg"), 71
# No test waits for answers without a proof.
os.environ["DWG_PROVED_ONLY"] = "1"


def module(path: pathlib.Path, name: str) -> types.ModuleType:
    """A file of Python as a module, whatever it is called."""
    loader = importlib.machinery.SourceFileLoader(name, str(path))
    spec = importlib.util.spec_from_loader(name, loader)
    assert spec is not None
    loaded = importlib.util.module_from_spec(spec)
    sys.modules[name] = loaded
    loader.exec_module(loaded)
    return loaded


# The writer of the inputs of bench/run, which has check words, codes and layout a second time.
WRITER = module(TOP / "bench" / "make_inputs.py", "make_inputs")


@lru_cache(maxsize=None)
def is_built() -> bool:
    """Whether the program is there and gives an answer; a launcher that has no program built gives none then."""
    return dwg("drill", "1").returncode == 0


@lru_cache(maxsize=None)
def knows(command: str) -> bool:
    """Whether the program's usage note has a command."""
    return command in dwg().stderr.decode().replace("|", " ").split()


def needs_program() -> None:
    """Skips a test, or where a file of tests is read the whole file, if the program isn't built."""
    if PROGRAM == STAND_IN or not is_built():
        raise unittest.SkipTest("what needs the program, which isn't built (`make` proves and builds it)")


def needs_answers() -> None:
    """The same for tests that recorded answers are enough for; `recorded/record` asks the program what these ask."""
    if PROGRAM != STAND_IN:
        needs_program()


@lru_cache(maxsize=None)
def made(count: int, seed: int = 7) -> bytes:
    """The drawing that the program makes."""
    return dwg("make", str(count), str(seed)).stdout


def dwg(*words: str, given: bytes = b"") -> "subprocess.CompletedProcess[bytes]":
    """What the program answers."""
    ran = subprocess.run([PROGRAM, *words], input=given, capture_output=True, check=False)
    if ran.returncode == UNRECORDED:
        raise unittest.SkipTest("answers that aren't recorded")
    return ran


def tool(name: str, *words: object, given: bytes = b"", **more: str) -> "subprocess.CompletedProcess[bytes]":
    """What a tool answers."""
    environment = {**os.environ, "DWG": PROGRAM, **more}
    return subprocess.run([str(TOOLS / name), *map(os.fspath, words)], input=given, capture_output=True, check=False, env=environment)  # type: ignore[arg-type]


@dataclass(frozen=True)
class Frame:
    """An object in a canonical file: its handle, its place, and the size of its body; the pair of the map is that of its index."""

    handle: int
    place: int
    head: int
    size: int


@dataclass(frozen=True)
class Layout:
    """Where the parts of a canonical file without unknown sections stand."""

    variables: int
    classes: int
    preview: int
    map: int
    pages: List[Tuple[int, int]]
    frames: List[Frame]


def layout(data: bytes) -> Layout:
    """The layout of a canonical file, whose frames stand one after the other between the preview and the map."""
    places = {data[at]: int.from_bytes(data[at + 1 : at + 5], "little") for at in (25, 34, 43)}
    preview = int.from_bytes(data[13:17], "little")
    frames, at = [], preview + 37
    while at < places[2]:
        size = int.from_bytes(data[at : at + 2], "little")
        assert size < 0x8000
        frames.append(Frame(0, at, 2, size))
        at += 2 + size + 2
    pages, at = [], places[2]
    while True:
        size = int.from_bytes(data[at : at + 2], "big")
        pages.append((at, size))
        at += size + 2
        if size == 2:
            break
    assert at == len(data)
    handles = shown_handles(data)
    frames = [Frame(handle, frame.place, frame.head, frame.size) for handle, frame in zip(handles, frames)]
    return Layout(places[0], places[1], preview, places[2], pages, frames)


def shown(data: bytes) -> List[Tuple[int, str, List[str]]]:
    """The objects of a drawing as `show` prints them: handle, kind, and the lines of fields."""
    found: List[Tuple[int, str, List[str]]] = []
    for line in dwg("show", given=data).stdout.decode().splitlines():
        if line.startswith("object "):
            words = line.split(" ")
            found.append((int(words[1], 16), " ".join(words[2:-2]), []))
        elif line.startswith("  "):
            found[-1][2].append(line[2:])
    return found


def shown_handles(data: bytes) -> List[int]:
    """The handles of a drawing's objects, ascending."""
    return [handle for handle, _, _ in shown(data)]


def flipped(data: bytes, place: int, mask: int = 0xFF) -> bytes:
    """A byte changed."""
    return data[:place] + bytes([data[place] ^ mask]) + data[place + 1 :]


def with_page(data: bytes, begin: int, pairs: bytes) -> bytes:
    """Other pairs at the begin of a page of the map, with a right check word."""
    end = begin + int.from_bytes(data[begin : begin + 2], "big")
    sized = data[begin : begin + 2] + pairs + data[begin + 2 + len(pairs) : end]
    return data[:begin] + sized + check_word(0xC0C1, sized).to_bytes(2, "big") + data[end + 2 :]


def hole(data: bytes, place: int, size: int) -> bytes:
    """Zeros over some bytes."""
    return data[:place] + bytes(size) + data[place + size :]


def with_preview_at(data: bytes, place: int) -> bytes:
    """A file whose header says that the preview is elsewhere, with its check word mended."""
    return bytes(WRITER.with_preview_at(data, place))


def program_that(folder: pathlib.Path, name: str, lines: Sequence[str]) -> pathlib.Path:
    """A script that stands in for the program, and can run it as "$REAL"."""
    path = folder / name
    path.write_text("#!/bin/sh\nREAL='" + PROGRAM + "'\n" + "\n".join(lines) + "\n")
    path.chmod(0o755)
    return path


def unescaped(path: str) -> bytes:
    """What `printf %b` gives back of a path in a table."""
    out, at = bytearray(), 0
    data = path.encode("utf-8")
    short: Dict[int, Optional[int]] = {ord("\\"): 92, ord("t"): 9, ord("n"): 10, ord("r"): 13}
    while at < len(data):
        if data[at] != 92:
            out.append(data[at])
            at += 1
        elif data[at + 1] == ord("x"):
            out.append(int(data[at + 2 : at + 4], 16))
            at += 4
        else:
            out.append(short[data[at + 1]])  # type: ignore[arg-type]
            at += 2
    return bytes(out)
