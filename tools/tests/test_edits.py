"""Each edit that the prover must refuse has its place: an old text that stands nowhere, or twice, would be tried by nobody."""

from __future__ import annotations

import tempfile
import unittest
from pathlib import Path
from typing import Optional

from made import TOP


def fault_of(edit: str, crate: Path) -> Optional[str]:
    """Why an edit can't be made in its crate; further pairs apply to what the earlier ones made."""
    lines = [line.partition(":") for line in edit.splitlines()]
    if [word for word, _, _ in lines] != ["file", *["old", "new"] * (len(lines) // 2)] or len(lines) < 3:
        return "it isn't a file, and pairs of an old and a new text"
    name = lines[0][2].strip()
    if name.split("/")[0] not in ("src", "specs", "proofs") or not (crate / name).is_file():
        return f"no file {name}"
    whole = text = (crate / name).read_text(encoding="utf-8")
    for (_, _, old), (_, _, new) in zip(lines[1::2], lines[2::2]):
        count = text.count(old[1:])
        if count != 1:
            return f"{count} times in {name}: {old[1:]}"
        text = text.replace(old[1:], new[1:])
    return None if text != whole else "it changes nothing"


class Edits(unittest.TestCase):
    """Those of the gate and of the long gate."""

    def test_each_has_its_place(self) -> None:
        edits = [*TOP.glob("crates/*/must-fail/*"), *TOP.glob("edits/*/*")]
        self.assertGreater(len(edits), 400)
        for edit in sorted(edits):
            crate = edit.parts[-3] if edit.parent.name == "must-fail" else edit.parent.name
            with self.subTest(str(edit.relative_to(TOP))):
                self.assertEqual((edit.suffix, fault_of(edit.read_text(encoding="utf-8"), TOP / "crates" / crate)), (".edit", None))

    def test_what_has_none(self) -> None:
        with tempfile.TemporaryDirectory() as folder:
            (Path(folder) / "src").mkdir()
            (Path(folder) / "src" / "lib.rt").write_text("a\nb b\n", encoding="utf-8")
            cases = ["old: a\nnew: c\nold: c\nnew: ", "old: c\nnew: d", "old: b\nnew: c", "old: a\nnew: b\nold: b\nnew: c", "old: a\nnew: a", "new: c\nold: a", ""]
            faults = [fault_of("file: src/lib.rt\n" + case, Path(folder)) for case in cases]
        self.assertEqual(faults[:2], [None, "0 times in src/lib.rt: c"])
        self.assertEqual(faults[2:4], ["2 times in src/lib.rt: b", "3 times in src/lib.rt: b"])
        self.assertEqual(faults[4:], ["it changes nothing", *["it isn't a file, and pairs of an old and a new text"] * 2])
        self.assertEqual(fault_of("file: src/no.rt\nold: a\nnew: b", Path(folder)), "no file src/no.rt")


if __name__ == "__main__":
    unittest.main()
