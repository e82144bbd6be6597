"""Each file has a line, whatever it is; no file ends a run; that nothing is found has a status."""

from __future__ import annotations

import os
from typing import Dict

from commands import (DAMAGED, DATA, NOTHING_FOUND, SAMPLES, SOUND, UNSOUND, Commands, answer)
from drawings import map_of, spoiled

# What dwg reads at the most.
LIMIT = 33_554_432


class Lines(Commands):
    """Folders of all sorts of files, and programs that fail on some."""
    def files(self) -> Dict[str, str]:
        """Writes files of all sorts into `archive`; the verdict of each."""
        data = answer("make", "5", "7").stdout
        self.file("archive/sound.dwg", data)
        self.file("archive/below/sound.DWG", data)
        self.file("archive/unsound.dwg", (DATA / "unsound.dwg").read_bytes())
        self.file("archive/older.dwg", (SAMPLES / "r14.dwg").read_bytes())
        self.file("archive/spoiled.dwg", spoiled(data))
        self.file("archive/cut.dwg", data[: map_of(data)])
        self.file("archive/more.dwg", data + b"more")
        self.file("archive/newer.dwg", b"AC1032" + bytes(300))
        self.file("archive/empty.dwg", b"")
        self.file("archive/zeros.dwg", bytes(1000))
        self.file("archive/text.dwg", b"This is a text.\n")
        self.file("archive/not called a drawing.txt", b"")
        with open(self.file("archive/large.dwg", data), "r+b") as large:
            large.truncate(LIMIT + 1)
        os.mkfifo(self.folder / "archive" / "pipe.dwg")
        # (links in folders are followed with --follow alone)
        (self.folder / "archive" / "link.dwg").symlink_to("sound.dwg")
        return {
            "sound.dwg": "sound", "sound.DWG": "sound", "unsound.dwg": "unsound",
            "older.dwg": "sound", "spoiled.dwg": "damaged", "cut.dwg": "damaged",
            "more.dwg": "trailing bytes", "newer.dwg": "other version", "empty.dwg": "no drawing",
            "zeros.dwg": "no drawing", "text.dwg": "no drawing", "large.dwg": "too large",
            "pipe.dwg": "unreadable",
        }  # fmt: skip

    def test_each_file_has_its_line(self) -> None:
        expected, tables = self.files(), set()
        for jobs in ("1", "4"):
            ran = self.check("archive", "--jobs", jobs)
            self.assertEqual((ran.verdicts, ran.status), (expected, DAMAGED))
            tables.add(ran.out)
        self.assertEqual(len(tables), 1)
        ran = self.check("keep", "store", "archive")
        self.assertEqual((ran.verdicts, ran.status), (expected, DAMAGED))

    def test_a_name_that_leads_nowhere_has_its_line(self) -> None:
        self.drawing("a.dwg")
        (self.folder / "led.dwg").symlink_to("nowhere")
        ran = self.check("none.dwg", "led.dwg", "/proc/self/mem", "a.dwg", "a.dwg/b.dwg")
        expected = ["unreadable", "unreadable", "unreadable", "sound", "unreadable"]
        self.assertEqual([row["verdict"] for row in ran.table], expected)

    def test_in_a_tree_too(self) -> None:
        expected = self.files()
        lost = spoiled(answer("make", "5", "7").stdout)
        self.file("archive/nothing.dwg", b"AC1015" + bytes(range(200)))
        for path in ("lost.dwg", "below/lost.DWG"):
            self.file(f"archive/{path}", lost)
        ran = self.recover("--tree", "out", "archive")
        told = {"spoiled.dwg": "recovered", "cut.dwg": "recovered", "nothing.dwg": "nothing kept"}
        told.update({"lost.dwg": "recovered", "lost.DWG": "recovered"})
        self.assertEqual(ran.verdicts, {**expected, **told})
        outputs = [path.name for path in (self.folder / "out").rglob("*") if path.is_file()]
        for name, outcome in ran.verdicts.items():
            is_there = outcome == "recovered"
            self.assertEqual((name in outputs, f"{name}.notes" in outputs), (is_there, is_there))

    def test_no_answer_of_the_program_ends_a_run(self) -> None:
        """Whatever it does with one file, that one is `failed`, and the others have their lines."""
        for name in ("a.dwg", "b.dwg", "c.dwg"):
            self.drawing(f"archive/{name}", 4 if name == "b.dwg" else 3)
        self.file("archive/b.dwg", spoiled(answer("make", "4", "7").stdout))
        is_b = f'cmp -s "{self.folder}/archive/b.dwg" /dev/stdin'
        for does in ("kill -9 $$", "exit 6", "exit 99", "echo what; exit 0", "exit 0", "exit 3"):
            failing = self.program(f"if {is_b}; then {does}; fi")
            ran = self.check("archive", "--program", failing)
            self.assertEqual(ran.verdicts, {"a.dwg": "sound", "b.dwg": "failed", "c.dwg": "sound"})
            ran = self.recover("--tree", "out", "archive", "--program", failing)
            self.assertEqual(ran.verdicts, {"a.dwg": "sound", "b.dwg": "failed", "c.dwg": "sound"})
            self.assertEqual([*(self.folder / "out").rglob("*.dwg")], [], does)

    def test_a_file_that_changes_meanwhile_has_failed(self) -> None:
        path = self.drawing("archive/a.dwg")
        self.drawing("archive/b.dwg", 4)
        changing = self.program(f'[ "$1" = sections ] || echo >>"{path}"')
        for words in (["archive"], ["keep", "store", "archive"]):
            ran = self.check(*words, "--program", changing)
            self.assertEqual(ran.verdicts, {"a.dwg": "failed", "b.dwg": "sound"}, ran)
        ran = self.check("keep", "store", "archive")
        self.assertEqual(ran.verdicts, {"a.dwg": "trailing bytes", "b.dwg": "sound"})
        path.write_bytes(spoiled(answer("make", "3", "7").stdout))
        changing = self.program(f'[ "$1" != recover ] || echo >>"{path}"')
        ran = self.recover("--tree", "out", "archive", "--program", changing)
        self.assertEqual(ran.verdicts, {"a.dwg": "failed", "b.dwg": "sound"}, ran)
        ran = self.recover("archive/a.dwg", "out.dwg", "--program", changing)
        self.assertNotIn(ran.status, (SOUND, UNSOUND))
        self.assertIn("a.dwg", ran.said)
        self.assertFalse((self.folder / "out.dwg").exists())

    def test_that_nothing_is_found_has_a_status(self) -> None:
        (self.folder / "empty").mkdir()
        self.file("others/a.txt", b"")
        for folder in ("empty", "others"):
            self.assertEqual(self.check(folder).status, NOTHING_FOUND)
            self.assertEqual(self.check("report", folder).status, NOTHING_FOUND)
            self.assertEqual(self.recover("--tree", "out", folder).status, NOTHING_FOUND)
        self.assertEqual(self.check("keep", "store", "empty").status, NOTHING_FOUND)
