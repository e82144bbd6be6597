"""The cases of the folder `cases`: what the program answers to each input. Their language is in cases/README.md."""

from __future__ import annotations

import re
import unittest
from concurrent.futures import ThreadPoolExecutor
from typing import Dict, List, Optional

import inputs
import made
import older
import spelled
from case_lines import Case, Left, asked, cases_of, failure_of, is_text, no_case
from made import DATA, TOP, dwg


def setUpModule() -> None:
    made.needs_program()


def left_by(case: Case) -> Optional[Left]:
    """What the program leaves, where it is asked."""
    words = asked(case)
    if words is None:
        return None
    ran = dwg(*words, given=inputs.bytes_of(case.input))
    return ran.returncode, ran.stdout, ran.stderr


def failures_of(cases: List[Case]) -> List[str]:
    """The failures of cases, two of which run at a time."""
    with ThreadPoolExecutor(2) as pool:
        return [failure for failure in pool.map(lambda case: no_case(case) or failure_of(case, left_by(case)), cases) if failure]


class Cases(unittest.TestCase):
    """Each file of cases."""

    def test_what_the_program_answers(self) -> None:
        paths = sorted(inputs.CASES.glob("*.cases"))
        self.assertTrue(paths)
        for path in paths:
            with self.subTest(path.stem):
                cases = cases_of(path.read_text(encoding="utf-8"))
                self.assertEqual("\n".join(failures_of(cases)), "")

    def test_every_file_is_used(self) -> None:
        text = "\n".join(path.read_text(encoding="utf-8") for path in [*inputs.CASES.glob("*.cases"), inputs.CASES / "files"])
        unused = [name for name in inputs.files() if not re.search(rf"(< |= |& |certificate/){name}\b(?! = )", text)]
        self.assertEqual(unused, [])


# What is noted first of the drawing that is made of 1 and 7 where it is cut from a length on, up to another.
HEADER_LOST = "dwg: refused: header 0 at %d: short; lost: file header; lost: header variables; lost: classes"
CUTS = (
    (0, 70, HEADER_LOST),
    (70, 86, "dwg: refused: variables 0 at 70: short; lost: header variables; lost: classes; lost: map end at 1851"),
    (86, 108, "dwg: refused: variables 0 at 86: length; lost: header variables; lost: classes; lost: map end at 1851"),
    (108, 124, "dwg: refused: classes 0 at 108: short; lost: classes; lost: map end at 1851"),
    (124, 146, "dwg: refused: classes 0 at 124: length; lost: classes; lost: map end at 1851"),
    (146, 1920, "dwg: refused: map 0 at 1851: short; lost: map end at 1851"),
)


class Cut(unittest.TestCase):
    """A drawing that is cut is recovered with the objects whose frames end before that, and what is left is a drawing."""

    def test_cuts(self) -> None:
        whole = inputs.input_of("made/1/7")
        frames = [(name[:-5], whole.place(name[:-5] + "/length")[0], end) for name, (_, end) in whole.all_spans().items() if name.endswith("/word")]
        self.assertEqual((len(frames), frames[0], frames[-1]), (30, ("1", 183, 204), ("31", 1801, 1851)))

        def is_recovered(length: int) -> bool:
            first = next(notes for begin, end, notes in CUTS if begin <= length < end)
            found = [f"found: object {handle} at {place}" for handle, place, end in frames if end <= length]
            notes = [first % length if first is HEADER_LOST else first, *found, f"kept {len(found)}"]
            ran = dwg("recover", given=whole.data[:length])
            is_noted = ran.returncode == 1 and is_text(ran.stderr, "; ".join(notes))
            return is_noted and dwg("rewrite", given=ran.stdout).stdout == ran.stdout

        lengths = range(0, 1920, 10)
        with ThreadPoolExecutor(2) as pool:
            self.assertEqual([length for length, is_right in zip(lengths, pool.map(is_recovered, lengths)) if not is_right], [])


class Harness(unittest.TestCase):
    """A wrong expectation of each sort is reported by the first line of its case, and what is no case too."""

    RIGHT = """# Of all.
sections < smallest | 0 | ...; section 2 at 183 size 4
rewrite < one_object & bytes/41 | 0 | = one_object
what it shows | audit < one_object C.owner=4.C | 1
  ...
  finding C path - 0 C
  audit no 3

show < nothing | 3 | - | dwg: refused: header 0 at 0: short
"""

    def test_right_ones_pass(self) -> None:
        self.assertEqual(failures_of(cases_of(self.RIGHT)), [])

    def test_wrong_ones_are_reported(self) -> None:
        for line, wrong in (
            ("what it shows | sections < smallest | 1 | ...", "status"),
            ("what it shows | sections < smallest | 0 | version AC1015; ...; section 2 at 183 size 5", "output"),
            ("sections < smallest | 0", "output"),
            ("rewrite < one_object | 0 | = smallest", "output"),
            ("show < nothing | 3 | - | dwg: refused: header 0 at 1: short", "notes"),
            ("show < nothing | 3", "notes"),
            ("show < nothing | 0 | classes 0", "status, output, notes"),
            ("spell < one_object C.owner=4.D | 0 | = one_object", "output"),
            ("measure < made/1/1 | 0 | bytes 1923; check 8977", "output"),
        ):
            with self.subTest(line):
                (failure,) = failures_of(cases_of(f"# Of all.\n{line}\n"))
                self.assertEqual(failure.splitlines()[0], line)
                self.assertIn(f"wrong {wrong}:", failure)

    def test_lines_below_are_wanted_too(self) -> None:
        (failure,) = failures_of(cases_of("audit < smallest | 1\n  finding 0 control - 0 0\n  audit no 2"))
        self.assertIn("wrong output", failure)

    def test_what_is_no_case(self) -> None:
        for said in ("C.owner", "C.nothing=1", "C.owner=4.0", "7.owner=4.0", "no=00", "C/word=000000", "C/body[0]=4A", "& no_file"):
            (failure,) = failures_of(cases_of(f"show < one_object {said} | 0"))
            self.assertTrue(failure.startswith(f"show < one_object {said} | 0\n  no case: "), failure)
        for line in ("show < smallest", "show | 0", "show < smallest | yes", "what | show < smallest"):
            with self.assertRaisesRegex(ValueError, "no case: "):
                cases_of(line)


class Writer(unittest.TestCase):
    """What is written from the text of `show` is what `rewrite` writes."""

    def test_every_file(self) -> None:
        found: Dict[str, bytes] = {name: inputs.named(name).data for name in (*inputs.files(), "made/1/7", "made/6/47", "made/40/0")}
        found.update({str(path): path.read_bytes() for path in [*DATA.glob("*.dwg"), *(TOP / "samples").glob("*.dwg")]})
        found.update(newer=spelled.Drawing().file(), older=older.Plan().file())
        written = 0
        for name, data in found.items():
            again = dwg("rewrite", given=data)
            if again.returncode == 0:
                written += 1
                self.assertEqual(inputs.written(inputs.shown(data)), again.stdout, name)
        self.assertGreater(written, 40)


if __name__ == "__main__":
    unittest.main()
