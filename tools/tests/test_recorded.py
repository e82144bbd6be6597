"""Recorded answers are those of the program, and what stands in its place gives them."""

from __future__ import annotations

import ast
import os
import re
import subprocess
import sys
import tempfile
import unittest
from concurrent.futures import ThreadPoolExecutor
from pathlib import Path
from typing import Iterable, Iterator, List, Optional, Tuple

import inputs
import made
from made import STAND_IN, UNRECORDED, dwg

RECORDED = Path(STAND_IN).parent
ANSWERS = made.module(Path(STAND_IN), "recorded")

# A file of tests in which one asks for what isn't recorded, and fails or passes; the last asks for what is.
TESTS = """
import subprocess, unittest
def ask(*words): return subprocess.run([{stand_in!r}, *words]).returncode
class Tests(unittest.TestCase):
    def test_failed(self): self.assertEqual(ask("make", "77", "77"), 0)
    def test_passed(self): self.assertEqual(ask("make", "77", "77"), 71)
    def test_part(self):
        with self.subTest("part"): self.assertEqual(ask("make", "77", "77"), 0)
    def test_recorded(self): self.assertEqual(ask("drill", "1"), 0)
    def test_wrong(self): self.assertEqual(ask("drill", "1"), 1)
"""


def answers(made_inputs: Iterable[bytes] = ()) -> Iterator[Tuple[List[str], Optional[bytes], Tuple[int, bytes, bytes]]]:
    """What is recorded: words, the input where its bytes are kept or it is one of those that are given, and the answer."""
    text = Path(ANSWERS.ANSWERS).read_bytes()
    known = {ANSWERS.digest(data): data for data in made_inputs}
    for line in text.decode().splitlines():
        if line.startswith("["):
            words, given, status, output, notes = line.split("\t")
            yield ast.literal_eval(words), known.get(given, ANSWERS.bytes_named(text, given)), (int(status), ANSWERS.bytes_named(text, output), ANSWERS.bytes_named(text, notes))


class Recorded(unittest.TestCase):
    """The file of answers."""

    def test_every_answer_is_the_programs(self) -> None:
        made.needs_program()
        names = {name for path in inputs.CASES.glob("*.cases") for name in re.findall(r"\bmade/\d+/\d+", path.read_text(encoding="utf-8"))}
        known = [(words, given, answer) for words, given, answer in answers(inputs.named(name).data for name in names) if given is not None]
        self.assertGreater(len(known), 10)
        with ThreadPoolExecutor(2) as pool:
            left = pool.map(lambda one: dwg(*one[0], given=one[1]), known)
            stale = [words for (words, _, answer), ran in zip(known, left) if (ran.returncode, ran.stdout, ran.stderr) != answer]
        self.assertEqual(stale, [], "tools/tests/recorded/record asks the program anew")

    def test_all_bytes_of_answers_are_kept(self) -> None:
        self.assertEqual([words for words, _, answer in answers() if None in answer], [])

    def test_what_stands_in(self) -> None:
        for words, given, answer in answers():
            if words in (["drill", "1"], ["show"], ["certify"]) and given is not None:
                ran = subprocess.run([STAND_IN, *words], input=given, capture_output=True, check=False)
                self.assertEqual((ran.returncode, ran.stdout, ran.stderr), answer)

    def test_an_answer_that_is_wanting_skips_its_test(self) -> None:
        with tempfile.TemporaryDirectory() as folder:
            (Path(folder) / "test_it.py").write_text(TESTS.format(stand_in=STAND_IN), encoding="utf-8")
            ran = subprocess.run([sys.executable, "-B", RECORDED / "run", "test_it.py"], cwd=folder, capture_output=True, text=True, check=False)
        self.assertEqual(ran.stderr.splitlines()[-1], "FAILED (failures=1, skipped=3)", ran.stderr)
        self.assertIn("test_wrong (test_it.Tests", ran.stderr)

    def test_it_marks_what_is_wanting(self) -> None:
        with tempfile.NamedTemporaryFile() as marks:
            ran = subprocess.run([STAND_IN, "make", "77", "77"], capture_output=True, check=False, env={**os.environ, "DWG_UNRECORDED": marks.name})
            self.assertEqual((ran.returncode, ran.stdout, marks.read()), (UNRECORDED, b"", b"['make', '77', '77']\n"))


if __name__ == "__main__":
    unittest.main()
