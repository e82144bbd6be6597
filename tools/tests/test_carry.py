"""`dwg carry` writes what docs/FORMAT.md says: the file of `rewrite` with the preview section of its input, moved, or else that file and a note."""

from __future__ import annotations

import os
import pathlib
import re
import shutil
import subprocess
import tempfile
import unittest
from typing import List, NamedTuple, Sequence, Tuple

import made
from made import DATA, TOP, WRITER, dwg

NOTE = b"dwg: preview dropped\n"
MOST_BYTES = 33_554_432
# Places in a canonical file of three locators: of its header's preview place, of locator 2, and of its check word.
PREVIEW_AT, MAP_AT, WORD_AT = 13, 43, 52
WITHOUT_PICTURE = 37


def setUpModule() -> None:
    """Skips all where the program doesn't know the command."""
    made.needs_program()
    if not made.knows("carry"):
        raise unittest.SkipTest("`carry`, which the program doesn't know")


class Preview(NamedTuple):
    """Entries, each a code, a place from the begin of the section and a size, and further bytes."""

    entries: Sequence[Tuple[int, int, int]]
    further: bytes

    def at(self, begin: int) -> bytes:
        """The section at a place of the file; the place of an entry without a picture stays as it is."""
        return bytes(WRITER.preview([(code, begin + place if size else place, size) for code, place, size in self.entries], self.further))

    def moved(self, begin: int) -> bytes:
        """And as `carry` writes it there."""
        return bytes(WRITER.preview([(code, begin + place if size else 0, size) for code, place, size in self.entries], self.further))


def little(data: bytes, place: int) -> int:
    """An RL."""
    return int.from_bytes(data[place : place + 4], "little")


def with_section(canonical: bytes, section: bytes) -> bytes:
    """A canonical file of three locators with this preview section in place of the one without a picture."""
    parts = made.layout(canonical)
    begin, moved = parts.preview, len(section) - WITHOUT_PICTURE
    pages = WRITER.pages([(frame.handle, frame.place + moved) for frame in parts.frames], 2030)
    place = parts.map + moved
    prefix = canonical[: MAP_AT + 1] + place.to_bytes(4, "little") + len(pages).to_bytes(4, "little")
    word = WRITER.check(0, prefix) ^ WRITER.HEADER_MASKS[3]
    return bytes(prefix + word.to_bytes(2, "little") + canonical[WORD_AT + 2 : begin] + section + canonical[begin + WITHOUT_PICTURE : parts.map] + pages)


def section_over(canonical: bytes, more: int) -> bytes:
    """A section that stands where a canonical file has one, without entries, and goes over all after it and so many bytes more."""
    further = bytes(16) + canonical[little(canonical, PREVIEW_AT) + WITHOUT_PICTURE :] + bytes(more)
    return bytes(WRITER.preview([], further))


def drawings() -> List[bytes]:
    """Canonical files of both versions, with maps of one page and of more."""
    return [made.made(1), made.made(40), made.made(3000), (TOP / "samples" / "r14.dwg").read_bytes()]


PICTURE = bytes(range(256)) * 5 + WRITER.PREVIEW
ONE = Preview([(2, 30, len(PICTURE))], PICTURE)

# Previews as they may stand: with pictures that lie in each other, entries of size 0, further bytes that no entry names, the most entries.
PREVIEWS = [
    ONE,
    Preview([], b""),
    Preview([], b"further"),
    Preview([(1, 5, 0), (2, 0xFFFFFFFF, 0)], b""),
    Preview([(1, 48, 3), (2, 49, 6), (3, 54, 1)], b"0123456789"),
    Preview([(6, 21 + 9 * 255, 4)] + [(1, 7, 0)] * 254, b"abcd"),
]

# And as none stands: with a picture that begins before the further bytes, or ends after them.
NONE = [
    Preview([(2, 29, 4)], b"0123"),
    Preview([(2, 31, 4)], b"0123"),
    Preview([(2, 30, 5)], b"0123"),
    Preview([(2, 30, 4), (2, 39, 1)], b"0123"),
]


class Carry(unittest.TestCase):
    """The command on drawings that the program made."""

    def expect_carried(self, data: bytes, canonical: bytes, section: bytes) -> None:
        """A file is carried with this section, and what is written is carried as it is."""
        ran = dwg("carry", given=data)
        self.assertEqual((ran.returncode, ran.stderr), (0, b""))
        self.assertEqual(ran.stdout, with_section(canonical, section))
        again = dwg("carry", given=ran.stdout)
        self.assertEqual((again.returncode, again.stdout == ran.stdout, again.stderr), (0, True, b""))
        self.assertEqual(dwg("rewrite", given=ran.stdout).stdout, canonical)

    def expect_dropped(self, data: bytes) -> None:
        """A file is written as by `rewrite`, with the note."""
        ran = dwg("carry", given=data)
        self.assertEqual((ran.returncode, ran.stdout, ran.stderr), (0, dwg("rewrite", given=data).stdout, NOTE))

    def test_previews(self) -> None:
        for data in drawings():
            place = little(data, PREVIEW_AT)
            for preview in PREVIEWS:
                after = made.with_preview_at(data, len(data) + 3) + b"xyz" + preview.at(len(data) + 3)
                self.expect_carried(after, data, preview.moved(place))
                self.expect_carried(after + b"more", data, preview.moved(place))

    def test_bench(self) -> None:
        """What bench/run gives it has one picture."""
        data = made.made(40)
        self.expect_carried(WRITER.with_picture(data, PICTURE), data, ONE.moved(little(data, PREVIEW_AT)))

    def test_section_over_other_parts(self) -> None:
        """Objects and map may stand inside the section that is carried."""
        data = made.made(40)
        begin, section = little(data, PREVIEW_AT), section_over(data, 0)
        self.expect_carried(data[:begin] + section, data, section)

    def test_without_picture(self) -> None:
        for data in [*drawings(), *((DATA / f"{name}.dwg").read_bytes() for name in ("smallest", "one_class", "items", "unsound"))]:
            ran = dwg("carry", given=data)
            self.assertEqual((ran.returncode, ran.stdout == data, ran.stderr), (0, True, b""))

    def test_dropped(self) -> None:
        data = made.made(5)
        end = len(data)
        for preview in NONE:
            self.expect_dropped(made.with_preview_at(data, end) + preview.at(end))
        shown = WRITER.with_picture(data, PICTURE)
        for place in (end, end + 15, end + 16, end + 19, end + 20, len(shown) - 16, len(shown) - 1):
            self.expect_dropped(made.flipped(shown, place))
        self.expect_dropped(shown[:-1])
        self.expect_dropped(made.with_preview_at(data, end) + WRITER.PREVIEW + bytes(4) + bytes(255 - byte for byte in WRITER.PREVIEW))
        for place in (0, 1, end - 1, end, 1 << 31, (1 << 32) - 1):
            self.expect_dropped(made.with_preview_at(data, place))

    def test_refused(self) -> None:
        data = WRITER.with_picture(made.made(5), PICTURE)
        for place in (0, 52, 60, 90, 200, made.layout(made.made(5)).map + 3):
            for damaged in (made.flipped(data, place), data[:place]):
                ran, rewritten = (dwg(word, given=damaged) for word in ("carry", "rewrite"))
                self.assertEqual(rewritten.returncode, 3)
                self.assertEqual((ran.returncode, ran.stdout, ran.stderr), (3, b"", rewritten.stderr))

    def test_too_large(self) -> None:
        """The limit is that of the file with its preview, which may have been about as large as its input."""
        data = made.made(40)
        begin, most = little(data, PREVIEW_AT), MOST_BYTES - 2 * len(data)
        # As long as the file that is carried has its full size, its map has the same one.
        more = most + MOST_BYTES - len(with_section(data, section_over(data, most)))
        section = section_over(data, more)
        self.assertEqual(len(with_section(data, section)), MOST_BYTES)
        self.expect_carried(data[:begin] + section, data, section)
        given = data[:begin] + section_over(data, more + 1)
        ran = dwg("carry", given=given)
        self.assertEqual((ran.returncode, ran.stdout, ran.stderr), (8, b"", f"dwg: drawing too large: {MOST_BYTES + 1} bytes\n".encode()))
        self.assertEqual(dwg("rewrite", given=given).stdout, data)
        ran = dwg("carry", given=given + bytes(MOST_BYTES))
        self.assertEqual((ran.returncode, ran.stdout, ran.stderr), (7, b"", b"dwg: input too long\n"))


class Archive(unittest.TestCase):
    """The recipe for an archive of docs/RECIPES.md, in a folder of its own. That it prints what is shown is looked at with all documents (test_docs)."""

    def setUp(self) -> None:
        self.folder = pathlib.Path(tempfile.mkdtemp(prefix="dwg carry "))
        self.addCleanup(shutil.rmtree, self.folder)
        (self.folder / "dwg").symlink_to(made.PROGRAM)
        # The roots of the recipe: a link to a folder, and a folder.
        (self.folder / "elsewhere").mkdir()
        (self.folder / "samples").symlink_to("elsewhere")
        (self.folder / "crates" / "dwg_cli" / "data").mkdir(parents=True)
        self.kept = {"samples/q.dwg": 1, "samples/q.dwg.txt/z.DWG": 2, "samples/q.dwg.part/-y\n.dwg": 3, "crates/dwg_cli/data/a.dwg": 4}
        for name, count in self.kept.items():
            (self.folder / name).parent.mkdir(exist_ok=True)
            (self.folder / name).write_bytes(WRITER.with_picture(made.made(count), PICTURE))

    def expect(self, status: int, *lines: str, but: Sequence[str] = (), **more: str) -> None:
        """The recipe ends with a status and prints these lines, and all other drawings are carried."""
        shutil.rmtree(self.folder / "carried", ignore_errors=True)
        found = re.search(r"^```sh\n(mkdir carried .*?)^```$", (TOP / "docs" / "RECIPES.md").read_text(), re.DOTALL | re.MULTILINE)
        assert found is not None
        environment = {**os.environ, "LC_ALL": "C", **more}
        ran = subprocess.run(["sh", "-c", found[1]], cwd=self.folder, env=environment, stdin=subprocess.DEVNULL, capture_output=True, check=False)
        self.assertEqual((ran.returncode, ran.stdout.decode().splitlines()), (status, [*lines]), ran.stderr)
        carried = {str(path.relative_to(self.folder)): path.read_bytes() for path in self.folder.glob("carried/**/*.[dD][wW][gG]") if path.is_file()}
        expected = [dwg("carry", given=(self.folder / name).read_bytes()).stdout for name in self.kept if name not in but]
        self.assertEqual(sorted(data for name, data in carried.items() if "notes" not in name), sorted(expected))
        self.assertEqual([path.name for path in (self.folder / "carried").rglob("*part")], [] if "samples/q.dwg" not in self.kept else ["q.dwg.part"] * 2)

    def test_all_is_carried_whatever_the_names(self) -> None:
        self.expect(0)

    def test_notes_and_refusals_are_told(self) -> None:
        shown = WRITER.with_picture(made.made(1), PICTURE)
        (self.folder / "samples" / "q.dwg").write_bytes(made.flipped(shown, len(shown) - 1))
        dropped = "0 samples/q.dwg: dwg: preview dropped"
        self.expect(0, dropped)
        (self.folder / "crates" / "dwg_cli" / "data" / "a.dwg").write_bytes(b"AC1015")
        self.expect(1, dropped, "3 crates/dwg_cli/data/a.dwg: dwg: refused: header 0 at 6: short", but=["crates/dwg_cli/data/a.dwg"])

    def test_what_cannot_be_carried_is_told(self) -> None:
        name = "samples/q.dwg.txt/z.DWG"
        shims = self.folder / "shims"
        shims.mkdir()
        shim = made.program_that(shims, "mkdir", ['case "$*" in *q.dwg.txt*) exit 1 ;; esac', f'exec {shutil.which("mkdir")} "$@"'])
        self.expect(1, f"1 {name}: ", but=[name], PATH=f"{shim.parent}{os.pathsep}{os.environ['PATH']}")

    def test_where_find_fails_the_status_says_so(self) -> None:
        shutil.rmtree(self.folder / "crates")
        del self.kept["crates/dwg_cli/data/a.dwg"]
        self.expect(1)


if __name__ == "__main__":
    unittest.main()
