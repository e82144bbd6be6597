"""What the tests of dwg-json, dwg-diff and dwg-picture share: what made drawings have by docs/FORMAT.md, other files, and damage to drawings."""

from __future__ import annotations

import random
import signal
import struct
import subprocess
import sys
import tempfile
import time
import unittest
from pathlib import Path
from typing import Any, Dict, Iterator, List, Tuple

from made import TOOLS, layout, made, program_that



def double(word: int) -> float:
    """The double that a word is."""
    return float(struct.unpack(">d", word.to_bytes(8, "big"))[0])


KINDS = ["LINE", "POINT", "CIRCLE", "ARC", "TEXT", "LWPOLYLINE"]


def made_entities(count: int, seed: int) -> Iterator[Tuple[int, str, str, Dict[str, Any]]]:
    """The entities after the fixed objects of a made drawing, by docs/FORMAT.md: handle, kind, name of the layer, and the fields of the body."""
    state = seed
    for index in range(1, count + 1):
        turns = []
        for _ in range(9):
            state = (state * 1664525 + 1013904223) % 2**32
            turns.append(state)
        x = [0.0, *(double(0x4050000000000000 + turn * 65536) for turn in turns)]
        rest = turns[0] % 6
        flat: Dict[str, Any] = {"thickness": 0.0, "extrusion": [0.0, 0.0, 1.0]}
        bodies: List[Dict[str, Any]] = [
            {"start": [x[2], x[3], 0.0], "end": [x[4], x[5], 0.0], **flat},
            {"place": [x[2], x[3], 0.0], **flat, "angle": 0.0},
            {"centre": [x[2], x[3], 0.0], "radius": x[4], **flat},
            {"centre": [x[2], x[3], 0.0], "radius": x[4], **flat, "start_angle": x[5], "end_angle": x[6]},
            {"insertion": [x[2], x[3]], "height": x[4], **flat, "text": f"T{index}"},
            {"flag": 0, "points": [[x[2], x[3]], [x[4], x[5]], [x[6], x[7]], [x[8], x[9]]]},
        ]
        yield 0x30 + index, KINDS[rest], "0" if index % 2 else "WALLS", bodies[rest]


def foreign() -> Dict[str, bytes]:
    """Files that are no drawing that is read, by a name."""
    return {
        "empty": b"",
        "text": b"This is a text.\r\n" * 40,
        "jpeg": b"\xff\xd8\xff\xe0\x00\x10JFIF\x00\x01" + bytes(400),
        "png": b"\x89PNG\r\n\x1a\n" + bytes(400),
        "dxf": b"  0\r\nSECTION\r\n  2\r\nHEADER\r\n",
        **{version.decode(): version + made(3, 1)[6:] for version in (b"AC1009", b"AC1012", b"AC1018", b"AC1032")},
        "random": random.Random(5).randbytes(3000) if hasattr(random.Random, "randbytes") else bytes(range(256)) * 12,
    }


def damaged(data: bytes, count: int, seed: int) -> Iterator[Tuple[str, bytes]]:
    """So many kinds of damage to the objects of a file, each of which the check word of an object tells; by a name."""
    chance = random.Random(seed)
    parts = layout(data)
    begin, end = parts.preview + 37, parts.map
    for turn in range(count):
        place = chance.randrange(begin, end)
        kind = turn % 4
        if kind == 0:
            yield f"cut at {place}", data[:place]
        elif kind == 1:
            yield f"byte {place} flipped", data[:place] + bytes([data[place] ^ 1 << chance.randrange(8)]) + data[place + 1 :]
        elif kind == 2:
            size = chance.randrange(4, 64)
            yield f"{size} bytes at {place} left out", data[:place] + data[place + size :]
        else:
            yield f"64 bytes at {place} changed", data[:place] + bytes(byte ^ 0xFF for byte in data[place : place + 64]) + data[place + 64 :]


class InFolder(unittest.TestCase):
    """A test with a folder of its own."""

    def setUp(self) -> None:
        self._folder = tempfile.TemporaryDirectory()
        self.folder = Path(self._folder.name)
        self.addCleanup(self._folder.cleanup)

    def file(self, name: str, data: bytes) -> Path:
        """Writes a file into the folder."""
        path = self.folder / name
        path.write_bytes(data)
        return path

    def interrupted(self, name: str, *words: object) -> int:
        """The status of a tool that is interrupted while the program, which never ends, shows its first objects."""
        begun = self.folder / "begun"
        endless = program_that(self.folder, "endless", ['[ "$1" != drill ] || exit 0', '"$REAL" show', f"touch {begun}", "exec sleep 60"])
        said = [sys.executable, str(TOOLS / name), "--program", str(endless), *map(str, words)]
        with subprocess.Popen(said, stdin=subprocess.DEVNULL, stdout=subprocess.PIPE, stderr=subprocess.PIPE) as started:
            end = time.monotonic() + 600
            while not begun.exists() and time.monotonic() < end:
                time.sleep(0.02)
            started.send_signal(signal.SIGINT)
            started.communicate(timeout=600)
        begun.unlink()
        endless.unlink()
        return started.returncode

    def failing(self, *lines: str) -> Path:
        """A program that is there, and fails."""
        return program_that(self.folder, "failing", ['[ "$1" != drill ] || exit 0', *lines])
