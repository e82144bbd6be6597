"""Rot without a new date is seen and named; a file that moved is known by its content; and so of a
copy of the archive anywhere."""

from __future__ import annotations

import hashlib
import os
import shutil
import subprocess
from pathlib import Path
from typing import Dict, List

from commands import (DAMAGED, NOT_AS_KEPT, NOTHING_FOUND, REFUSED, SOUND, Commands, answer)
from drawings import flipped, renamed, spoiled


class Rot(Commands):
    """An archive that was kept, and copies of it."""
    def setUp(self) -> None:
        super().setUp()
        data = answer("make", "3", "7").stdout
        plans = ((one, renamed(data, b"WALLS", b"W000" + one.encode())) for one in "abcd")
        self.files = {f"{name}.dwg": plan for name, plan in plans}
        for name, content in self.files.items():
            self.file(f"archive/{name}", content)
        self.file("archive/below/e.dwg", spoiled(data))
        self.assertEqual(self.check("keep", "store", "archive").status, DAMAGED)

    def verified(self, folder: str, *words: str) -> Dict[str, str]:
        """What isn't as it was kept; the status says whether something is."""
        ran = self.check("verify", "store", folder, *words)
        found = {name: verdict for name, verdict in ran.verdicts.items() if verdict != "same"}
        self.assertEqual(ran.status, NOT_AS_KEPT if found else SOUND, ran)
        return found

    def summed(self, folder: str) -> List[str]:
        """The names that `sha256sum -c` finds not to be as they were, by what is exported."""
        sums = self.file("SHA256SUMS", self.check("export", "store").out)
        ran = subprocess.run(
            ["sha256sum", "-c", "--quiet", str(sums)],
            cwd=self.folder / folder, capture_output=True, check=False,
        )  # fmt: skip
        self.assertNotIn(b"improperly formatted", ran.stderr)
        return sorted(line.split(":")[0] for line in ran.stdout.decode().splitlines())

    @staticmethod
    def rot(path: Path) -> None:
        """Changes a bit, as a disk does it: without a new time."""
        told = path.stat()
        path.write_bytes(flipped(path.read_bytes(), 500, 1))
        os.utime(path, ns=(told.st_atime_ns, told.st_mtime_ns))

    def test_a_copy_of_an_archive(self) -> None:
        """One file of it spoiled, one deleted, one moved, one new: all four are named."""
        self.assertEqual((self.verified("archive"), self.summed("archive")), ({}, []))
        shutil.copytree(self.folder / "archive", self.folder / "backup")
        self.assertEqual((self.verified("backup"), self.summed("backup")), ({}, []))
        copy = self.folder / "backup"
        self.rot(copy / "a.dwg")
        (copy / "b.dwg").unlink()
        (copy / "c.dwg").rename(copy / "below" / "moved.dwg")
        self.drawing("backup/new.dwg", 4)
        told = {"a.dwg": "changed", "b.dwg": "missing", "moved.dwg": "moved", "new.dwg": "new"}
        self.assertEqual(self.verified("backup"), told)
        self.assertEqual(self.summed("backup"), ["a.dwg", "b.dwg", "c.dwg"])
        table = self.check("verify", "store", "backup").table
        (moved,) = [row for row in table if row["verdict"] == "moved"]
        self.assertIn("c.dwg", moved["detail"])
        # The original is as it was, and so it is where it is moved along with the store.
        self.assertEqual((self.verified("archive"), self.summed("archive")), ({}, []))
        shutil.move(self.folder / "archive", self.folder / "elsewhere")
        self.assertEqual(self.verified("elsewhere"), {})
        self.assertEqual(self.verified("elsewhere/../elsewhere/"), {})

    def test_rot_without_a_new_date(self) -> None:
        path = self.folder / "archive" / "d.dwg"
        for place in (0, 6, len(self.files["d.dwg"]) - 1):
            told = path.stat()
            path.write_bytes(flipped(self.files["d.dwg"], place, 0x80))
            os.utime(path, ns=(told.st_atime_ns, told.st_mtime_ns))
            self.assertEqual(self.verified("archive"), {"d.dwg": "changed"}, place)
            os.utime(path)
            self.assertEqual(self.verified("archive"), {"d.dwg": "changed"}, place)
        path.write_bytes(self.files["d.dwg"])
        self.assertEqual(self.verified("archive"), {})

    def test_what_verify_takes(self) -> None:
        """Without --take nothing; with it what it names, and never another content."""
        archive = self.folder / "archive"
        (archive / "a.dwg").rename(archive / "moved.dwg")
        self.drawing("archive/new.dwg", 4)
        self.rot(archive / "b.dwg")
        (archive / "c.dwg").unlink()
        told = {"moved.dwg": "moved", "new.dwg": "new", "b.dwg": "changed", "c.dwg": "missing"}
        before = self.check("export", "store").out
        self.assertEqual(self.verified("archive"), told)
        self.assertEqual(self.check("export", "store").out, before)
        self.check("verify", "store", "archive", "--take", "new,moved")
        left = {"b.dwg": "changed", "c.dwg": "missing"}
        self.assertEqual(self.verified("archive"), left)
        names = {"moved.dwg", "new.dwg", "b.dwg", "c.dwg", "d.dwg", "below/e.dwg"}
        self.assertEqual(self.names(), names)

    def names(self) -> "set[str]":
        """The names that the store has."""
        exported = self.check("export", "store").out.decode()
        return {line.split("  ")[1] for line in exported.splitlines()}

    def test_nothing_is_forgotten_that_isnt_named(self) -> None:
        """Neither where a file is gone, nor where the folder is, or has nothing."""
        before = self.names()
        self.assertEqual(len(before), 5)
        (self.folder / "archive" / "a.dwg").unlink()
        self.check("keep", "store", "archive")
        self.assertEqual(self.names(), before)
        self.assertEqual(self.verified("archive"), {"a.dwg": "missing"})
        (self.folder / "archive").rename(self.folder / "away")
        for words in (["keep", "store", "archive"], ["verify", "store", "archive"]):
            self.assertTrue(self.check(*words).said)
            self.assertIn(self.check(*words).status, (*REFUSED, NOTHING_FOUND, NOT_AS_KEPT), words)
        (self.folder / "archive").mkdir()
        ran = self.check("keep", "store", "archive")
        self.assertEqual(ran.status, NOTHING_FOUND)
        self.assertIn(self.check("verify", "store", "archive").status, (NOTHING_FOUND, NOT_AS_KEPT))
        self.assertEqual(self.names(), before)
        self.assertEqual(self.check("forget", "store", "a.dwg").status, SOUND)
        self.assertEqual(self.names(), before - {"a.dwg"})
        self.assertEqual(self.verified("away"), {})
        # Names that the store doesn't have are told.
        self.assertNotEqual(self.check("forget", "store", "none.dwg").status, SOUND)
        self.assertEqual(self.names(), before - {"a.dwg"})

    def test_every_name_is_exported_as_sha256sum_takes_it(self) -> None:
        every = bytes(byte for byte in range(1, 256) if byte != 47)
        for at in range(0, 254, 50):
            path = os.path.join(os.fsencode(self.folder), b"archive", every[at : at + 50] + b".dwg")
            with open(path, "wb") as file:
                file.write(b"text %d" % at)
        self.check("keep", "store", "archive")
        exported = self.check("export", "store").out
        self.assertEqual((len(exported.splitlines()), self.summed("archive")), (11, []))
        first = hashlib.sha256(self.files["a.dwg"]).hexdigest()
        self.assertIn(f"{first}  a.dwg\n".encode(), exported)
        self.rot(self.folder / "archive" / "a.dwg")
        self.assertEqual(self.summed("archive"), ["a.dwg"])
