"""libdwg: that header and Python module have the exports of the crate, and, where `make library` has built it, that it answers as the program does.

DWG_LIBRARY names a libdwg.so that is built elsewhere, with libdwg.a beside it.
"""

from __future__ import annotations

import importlib
import os
import pathlib
import re
import shutil
import subprocess
import sys
import tempfile
import threading
import unittest
from typing import Dict, List, Optional

import made
from made import TOP

LIBRARY = TOP / "library"
HEADER = (LIBRARY / "dwg.h").read_text(encoding="utf-8")
CRATE = (TOP / "crates" / "dwg_c" / "src" / "lib.rt").read_text(encoding="utf-8")
BUILT = pathlib.Path(os.environ.get("DWG_LIBRARY") or LIBRARY / "out" / "libdwg.so")

EXPORT = re.compile(
    r'#\[unsafe\(no_mangle\)\]\npub extern "C" fn dwg_(?P<word>\w+)\(\n(?P<parameters>(?:    .+,\n)+)\) -> u8\n'
    r"    ensures answers \{ Answers \(outcome_of_input Command\.(?P<said>\w+) input\.now\) "
    r"\(record \{ status = result; output = output\.new; written = written\.new; notes = notes\.new; noted = noted\.new \}\) \}\n"
    r"\{\n    answer\(\s*alloc,\s*Command::(?P<asked>\w+),\s*input,\s*output,\s*written,\s*notes,\s*noted,?\s*\)\n\}\n"
)

# What C declares for a parameter of a type; the allocator takes no bytes.
DECLARED = {
    "Global": [],
    "&[u8]": ["const uint8_t *{0}", "size_t {0}_size"],
    "&mut [u8]": ["uint8_t *{0}", "size_t {0}_size"],
    "&mut usize": ["size_t *{0}"],
}

# The statuses of the header by those of the program.
STATUSES = {"Done": "DONE", "Found": "FOUND", "Refused": "REFUSED", "WriteFault": "TOO_SMALL", "NoMemory": "NO_MEMORY", "TooLong": "TOO_LONG", "TooLarge": "TOO_LARGE"}


def words() -> List[str]:
    """The commands that are exported."""
    return [found["word"] for found in EXPORT.finditer(CRATE)]


def prototype(found: "re.Match[str]") -> str:
    """What C declares for an export."""
    told: List[str] = []
    for line in found["parameters"].splitlines():
        name, _, kind = line.strip().rstrip(",").partition(": ")
        told += [part.format(name) for part in DECLARED[kind]]
    return f"uint8_t dwg_{found['word']}({', '.join(told)});"


class Interface(unittest.TestCase):
    """What is written down in several places, against the crate."""

    def test_each_export_is_its_command(self) -> None:
        self.assertEqual(len(words()), CRATE.count("no_mangle"))
        for found in EXPORT.finditer(CRATE):
            self.assertEqual((found["said"], found["asked"]), (found["word"].capitalize(),) * 2)

    def test_commands_that_read(self) -> None:
        table = (TOP / "crates" / "dwg_commands" / "specs" / "Commands.antt").read_text(encoding="utf-8")
        readers = re.search(r"(?m)^READERS = (.*) ∷ \[\]$", table)
        assert readers is not None
        self.assertEqual(sorted(words()), sorted(readers[1].lower().split(" ∷ ")))

    def test_prototypes(self) -> None:
        declared = [" ".join(text.split()) for text in re.findall(r"(?m)^uint8_t [^;]*;", HEADER)]
        self.assertEqual(declared, [prototype(found) for found in EXPORT.finditer(CRATE)])

    def test_statuses(self) -> None:
        codes = (TOP / "crates" / "dwg_commands" / "specs" / "Status.antt").read_text(encoding="utf-8")
        numbers = {name: number for name, number in re.findall(r"(?m)^code_of \(?(\w+)(?: \w+\))? = (\d+)$", codes)}
        declared = dict(re.findall(r"(?m)^    DWG_(\w+) = (\d+)", HEADER))
        self.assertEqual(declared, {word: numbers[name] for name, word in STATUSES.items()})

    def test_version(self) -> None:
        number = re.search(r"(?m)^#define DWG_VERSION (\d+)$", HEADER)
        self.assertIn(f"\nVersion: {number[1] if number else None}\n", (LIBRARY / "dwg.pc").read_text(encoding="utf-8"))

    def test_compiles(self) -> None:
        """As C and as C++, and more than once."""
        for compiler, language in (("cc", "c"), ("c++", "c++")):
            if not shutil.which(compiler):
                self.skipTest(f"libdwg's header, as {compiler} isn't installed")
            text = '#include "dwg.h"\n#include "dwg.h"\nint main(void) { return dwg_audit == 0 ? DWG_DONE : DWG_FOUND; }\n'
            ran = subprocess.run([compiler, "-x", language, "-fsyntax-only", "-Wall", "-Wextra", "-Wno-address", f"-I{LIBRARY}", "-"], input=text.encode(), capture_output=True, check=False)
            self.assertEqual((ran.returncode, ran.stderr), (0, b""))


class Library(unittest.TestCase):
    """What the library answers."""

    def setUp(self) -> None:
        made.needs_program()
        if not BUILT.exists():
            self.skipTest("libdwg, as make library hasn't built it")
        self.folder = pathlib.Path(tempfile.mkdtemp(prefix="dwg library "))
        self.addCleanup(shutil.rmtree, self.folder)

    def inputs(self) -> Dict[str, bytes]:
        """Some inputs, by a name."""
        given = {path.name: path.read_bytes() for path in [*TOP.glob("samples/*.dwg"), *made.DATA.glob("*.dwg")]}
        given.update({"empty": b"", "made": made.dwg("make", "400", "1").stdout, "long": bytes(2**25 + 1)})
        given["certified"] = made.dwg("certify", given=given["made"]).stdout + given["made"]
        return given

    def compile(self, name: str, text: Optional[str] = None, compiler: str = "cc") -> pathlib.Path:
        """A program over the library."""
        source = self.folder / name
        source.write_text(text or (LIBRARY / name).read_text(encoding="utf-8"), encoding="utf-8")
        words = [compiler, "-Wall", "-Wextra", "-Werror", f"-I{LIBRARY}", str(source), "-o", str(self.folder / "program")]
        subprocess.run([*words, f"-L{BUILT.parent}", "-ldwg", f"-Wl,-rpath,{BUILT.parent}"], check=True)
        return self.folder / "program"

    def test_example(self) -> None:
        if not shutil.which("cc"):
            self.skipTest("libdwg's example, as cc isn't installed")
        self.assertLessEqual((LIBRARY / "example.c").read_text(encoding="utf-8").count("\n"), 30)
        program = self.compile("example.c")
        for name, data in self.inputs().items():
            path = self.folder / name
            path.write_bytes(data)
            ran = subprocess.run([str(program), str(path)], capture_output=True, check=False)
            told = made.dwg("audit", given=data)
            self.assertEqual((ran.returncode, ran.stdout, ran.stderr), (told.returncode, told.stdout, told.stderr), name)

    def test_exported(self) -> None:
        """The library gives the commands, and nothing else."""
        if not shutil.which("nm"):
            self.skipTest("libdwg's names, as nm isn't installed")
        told = subprocess.run(["nm", "-D", "--defined-only", str(BUILT)], capture_output=True, text=True, check=True).stdout
        self.assertEqual(sorted(line.split()[-1] for line in told.splitlines()), sorted(f"dwg_{word}" for word in words()))

    def test_python(self) -> None:
        """Each function answers as the program does, also in several threads at once."""
        os.environ["DWG_LIBRARY"] = str(BUILT)
        sys.path.insert(0, str(LIBRARY))
        dwg = importlib.import_module("dwg")
        answers = {}
        inputs = self.inputs()
        for name, data in inputs.items():
            for word in words():
                told = made.dwg(word, given=data)
                answers[name, word] = dwg.Answer(told.returncode, told.stdout, told.stderr)
        others: List[object] = []

        def ask(begin: int) -> None:
            keys = sorted(answers)
            for name, word in keys[begin:] + keys[:begin]:
                told = getattr(dwg, word)(inputs[name])
                if told != answers[name, word]:
                    others.append((name, word, told))

        threads = [threading.Thread(target=ask, args=(number * 7,)) for number in range(10)]
        for thread in threads:
            thread.start()
        for thread in threads:
            thread.join()
        self.assertEqual(others, [])
        self.assertEqual(dwg.audit(memoryview(bytearray(inputs["made"]))), answers["made", "audit"])


if __name__ == "__main__":
    unittest.main()
