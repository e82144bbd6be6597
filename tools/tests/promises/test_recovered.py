"""What is recovered is read by the program before it has its name; its notes stand beside it. It
has no more permissions than its source."""

from __future__ import annotations

import hashlib
import json
import os
import stat
from pathlib import Path

from commands import DAMAGED, FAILURE, SAMPLES, SOUND, UNSOUND, Commands, answer
from drawings import frames, map_of, refusal, spoiled


class Recovered(Commands):
    """Damaged drawings, alone and in a tree."""
    def setUp(self) -> None:
        super().setUp()
        self.whole = answer("make", "30", "7").stdout
        self.damaged = spoiled(self.whole)
        self.source = self.file("plans/in.dwg", self.damaged)
        self.out, self.notes = self.folder / "out.dwg", self.folder / "out.dwg.notes"

    def test_it_is_what_the_program_recovers(self) -> None:
        sorts = {
            "object": self.damaged, "cut": self.whole[: map_of(self.whole)],
            "map": self.whole[:-40] + bytes(40), "header": bytes(70) + self.whole[70:],
            "hole": (SAMPLES / "hole.dwg").read_bytes(), "nothing": self.whole,
            "r14": spoiled((SAMPLES / "r14.dwg").read_bytes()),
        }  # fmt: skip
        for name, data in sorts.items():
            self.source.write_bytes(data)
            expected = answer("recover", given=data)
            status = UNSOUND if expected.returncode else SOUND
            self.assertEqual(self.recover(self.source, self.out).status, status, name)
            self.assertEqual(self.out.read_bytes(), expected.stdout, name)
            self.assertEqual(self.notes.read_bytes(), expected.stderr, name)
            ran = self.recover("--tree", name, "plans")
            if status == UNSOUND:
                (made,) = (self.folder / name).rglob("in.dwg")
                self.assertEqual(made.read_bytes(), expected.stdout, name)
                beside = made.with_name("in.dwg.notes")
                self.assertEqual((beside.read_bytes(), ran.status), (expected.stderr, status), name)
            self.out.unlink()
            self.notes.unlink()

    def test_it_is_read_before_it_has_its_name(self) -> None:
        """What the program wrote it audits, while there is no output."""
        for words, place in (
            (["plans/in.dwg", "out.dwg"], "out.dwg"), (["--tree", "t", "plans"], "t/*.dwg"),
        ):  # fmt: skip
            watching = self.program(
                f'if [ "$1" = audit ]; then cat >"$0.read"; cd "{self.folder}"',
                f'echo $(sha256sum <"$0.read") $(ls {place} 2>/dev/null) >>"$0.sums"',
                'exec "$REAL" audit <"$0.read"; fi',
            )
            self.recover("--program", watching, *words)
            (made,) = {*self.folder.rglob("*.dwg")} - {self.source}
            digest = hashlib.sha256(made.read_bytes()).hexdigest()
            audits = Path(f"{watching}.sums").read_text().splitlines()
            first = [line for line in audits if line.startswith(digest)][:1]
            self.assertEqual(first, [f"{digest} -"], words)
            made.unlink()

    def test_what_is_no_drawing_gets_no_name(self) -> None:
        half = '"$REAL" recover 2>&2 | head -c 700; exit 1'
        for does in ("exit 0", half, 'cat "$0"; exit 0', "kill -9 $$", "exit 6"):
            lying = self.program(f'if [ "$1" = recover ]; then {does}; fi')
            ran = self.recover("--program", lying, "plans/in.dwg", self.out)
            self.assertNotIn(ran.status, (SOUND, UNSOUND), does)
            self.assertTrue(ran.said)
            ran = self.recover("--program", lying, "--tree", "tree", "plans")
            self.assertNotEqual(ran.verdicts["in.dwg"], "recovered", does)
            self.assertEqual([*self.folder.rglob("*.notes")], [], does)
            self.assertEqual([*self.folder.rglob("*.dwg")], [self.source], does)
        refusing = self.program('[ "$1" != audit ] || exit 3')
        ran = self.recover("--program", refusing, "plans/in.dwg", self.out)
        self.assertEqual((ran.status, self.out.exists()), (FAILURE, False))

    def test_where_nothing_is_kept_nothing_is_written(self) -> None:
        for data in (b"AC1015" + bytes(range(200)), b"This is a text.\n", b"AC1032" + bytes(99)):
            self.source.write_bytes(data)
            ran = self.recover("plans/in.dwg", self.out)
            self.assertEqual((ran.status, "in.dwg" in ran.said), (DAMAGED, True))
            self.assertFalse(self.out.exists() or self.notes.exists())
            self.recover("--tree", "tree", "plans")
            self.assertEqual([*(self.folder / "tree").rglob("in.dwg*")], [])

    def test_what_is_no_drawing_is_nothing_to_recover(self) -> None:
        """The status of a tree has 3 where a drawing is damaged and nothing of it is recovered."""
        for name, data in (("empty", b""), ("text", b"A text.\n"), ("newer", b"AC1032" + bytes(99))):
            self.file(f"plans/{name}.dwg", data)
        for _ in range(2):
            ran = self.recover("--tree", "tree", "plans")
            self.assertEqual((ran.status, len(ran.table)), (UNSOUND, 4))
        self.file("plans/nothing.dwg", b"AC1015" + bytes(range(200)))
        self.assertEqual(self.recover("--tree", "tree", "plans").status, DAMAGED)

    def test_it_has_no_more_permissions_than_its_source(self) -> None:
        before = os.umask(0o022)
        self.addCleanup(os.umask, before)
        for mode in (0o600, 0o640, 0o400, 0o444, 0o644, 0o666, 0o755, 0o4755):
            self.source.chmod(mode)
            self.recover("plans/in.dwg", self.out)
            self.recover("--tree", "tree", "plans")
            for path in [self.out, self.notes, *(self.folder / "tree").rglob("in.dwg*")]:
                got = stat.S_IMODE(path.stat().st_mode)
                # (but for who runs the tool, who may write what he made)
                self.assertEqual(got & ~0o600 & ~mode, 0, (oct(mode), oct(got)))
                self.assertEqual(got & 0o133, 0)
                path.unlink()

    def test_a_copy_has_no_more_permissions_either(self) -> None:
        whole = self.file("plans/whole.dwg", self.whole)
        whole.chmod(0o600)
        ran = self.recover("--tree", "tree", "--whole", "copy", "plans")
        (made,) = (self.folder / "tree").rglob("whole.dwg")
        self.assertEqual((made.read_bytes(), ran.verdicts["whole.dwg"]), (self.whole, "sound"))
        self.assertEqual(stat.S_IMODE(made.stat().st_mode), 0o600)
        self.recover("--tree", "skipped", "plans")
        self.assertEqual([*(self.folder / "skipped").rglob("whole.dwg")], [])

    def test_what_is_lost_is_told(self) -> None:
        index = 40
        self.source.write_bytes(spoiled(self.whole, index))
        notes = answer("recover", given=self.source.read_bytes()).stderr.decode()
        handle = notes.split("lost: object ")[1].split(" ")[0]
        ran = self.recover("plans/in.dwg", self.out)
        said = ran.out.decode()
        self.assertIn(refusal(self.whole, index), said)
        count = len(frames(self.whole))
        self.assertIn(f"\nLost:\n  1 of {count} entries of the map: {handle}\n", said)
        self.out.unlink()
        self.notes.unlink()
        told = json.loads(self.recover("--json", "plans/in.dwg", self.out).out)
        self.assertEqual((told["schema"], told["whole"]), (1, False))
        self.assertEqual([one["handle"] for one in told["lost"]["objects"]], [handle])
        self.assertEqual(told["kept"]["objects"], count - 1)
        findings = answer("audit", given=self.out.read_bytes()).stdout.count(b"finding ")
        self.assertEqual(told["audit"]["findings"], findings)
        self.assertEqual(told["audit"]["sound"], not findings)
