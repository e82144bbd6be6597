"""No file that is read is written, under any name that leads to it. An output is whole or absent;
nothing that stands is replaced without --force, and never what is no regular file."""

from __future__ import annotations

import os
import random
import resource
import signal
import socket
from pathlib import Path
from typing import Callable, List

from commands import INTERRUPTED, UNSOUND, Commands, answer, entries
from drawings import spoiled


def limited_to(size: int) -> Callable[[], None]:
    """Lets no file become larger than so many bytes: what comes after fails as on a full disk."""

    def limit() -> None:
        signal.signal(signal.SIGXFSZ, signal.SIG_IGN)
        resource.setrlimit(resource.RLIMIT_FSIZE, (size, size))

    return limit


class Outputs(Commands):
    """What dwg-recover writes, and the store."""
    def setUp(self) -> None:
        super().setUp()
        self.damaged = spoiled(answer("make", "30", "7").stdout)
        self.source = self.file("in.dwg", self.damaged)

    def names_of(self, path: Path) -> List[Path]:
        """The names of a file: a symbolic link, a hard link, and by other ways to its folder."""
        (self.folder / "symbolic.dwg").symlink_to(path.name)
        (self.folder / "around").symlink_to(".")
        os.link(path, self.folder / "hard.dwg")
        names = ["symbolic.dwg", "hard.dwg", f"around/{path.name}", "around/../around/hard.dwg"]
        return [path, *map(Path, names)]

    def test_the_input_is_no_output_under_any_name(self) -> None:
        names = self.names_of(self.source)
        for one in names:
            for words in ([self.source, one], [one, self.source]):
                self.refused("dwg-recover", *words)
                self.refused("dwg-recover", "--force", *words)
        with open(self.source, "rb") as given:
            self.refused("dwg-recover", "--force", "-", names[2], stdin=given)
        os.link(self.source, self.folder / "out.dwg.notes")
        self.refused("dwg-recover", "--force", self.source, "out.dwg")

    def test_inputs_of_a_tree_are_no_outputs_under_any_name(self) -> None:
        """Whether a file below OUT is one, a folder there leads to them, or OUT is among them."""
        plan = self.file("plans/a.dwg", self.damaged)
        self.recover("--tree", "out", "plans")
        (made,) = (self.folder / "out").rglob("a.dwg")
        for link in (os.link, os.symlink):
            made.unlink()
            link(plan, made)
            ran = self.recover("--tree", "out", "--force", "plans")
            self.assertEqual((ran.verdicts["a.dwg"], plan.read_bytes()), ("refused", self.damaged))
        (self.folder / "led").symlink_to("plans")
        for out in ("plans", "plans/out", "led"):
            self.refused("dwg-recover", "--tree", out, "--force", "plans")

    def test_a_drawing_is_no_store_under_any_name(self) -> None:
        plan = self.drawing("archive/plan.dwg")
        os.link(plan, self.folder / "hard")
        (self.folder / "symbolic").symlink_to(plan)
        for store in (plan, "hard", "symbolic", "archive"):
            for words in (["keep", store, "archive"], ["verify", store, "archive"]):
                self.refused("dwg-check", *words)
            self.refused("dwg-check", "verify", store, "archive", "--take", "new,moved")
            self.refused("dwg-check", "forget", store, "plan.dwg")
            self.refused("dwg-check", "export", store)

    def test_what_is_empty_or_leads_nowhere_is_no_store(self) -> None:
        """Nor is what is called as a drawing, which has nothing of one yet."""
        self.drawing("archive/plan.dwg")
        for name in ("empty", "empty.dwg", "empty.DWG"):
            self.file(name, b"")
        (self.folder / "led").symlink_to("nowhere")
        for store in ("empty", "empty.dwg", "empty.DWG", "led", "none.dwg"):
            self.assertIn(store, self.refused("dwg-check", "keep", store, "archive"))

    def test_what_stands_is_replaced_with_force_alone(self) -> None:
        expected = answer("recover", given=self.damaged)
        out, notes = self.folder / "out.dwg", self.folder / "out.dwg.notes"
        for standing in ([out], [notes], [out, notes]):
            for path in standing:
                path.write_bytes(b"precious")
            self.refused("dwg-recover", self.source, out)
            self.assertEqual(self.recover("--force", self.source, out).status, UNSOUND)
            self.assertEqual(out.read_bytes(), expected.stdout)
            self.assertEqual(notes.read_bytes(), expected.stderr)
            out.unlink()
            notes.unlink()
        # That is told before anything is read, which may never end here.
        out.write_bytes(b"precious")
        reading, writing = os.pipe()
        self.refused("dwg-recover", "-", out, stdin=reading)
        os.close(reading)
        os.close(writing)

    def test_in_a_tree_what_stands_is_replaced_with_force_alone(self) -> None:
        self.file("plans/a.dwg", self.damaged)
        self.recover("--tree", "out", "plans")
        (out,) = (self.folder / "out").rglob("a.dwg")
        whole = out.read_bytes()
        out.write_bytes(b"precious")
        self.assertEqual(self.recover("--tree", "out", "plans").verdicts["a.dwg"], "refused")
        self.assertEqual(out.read_bytes(), b"precious")
        self.recover("--tree", "out", "--force", "plans")
        self.assertEqual(out.read_bytes(), whole)
        # What the input became since is another content.
        self.file("plans/a.dwg", spoiled(self.damaged, 9))
        self.assertEqual(self.recover("--tree", "out", "plans").verdicts["a.dwg"], "refused")
        self.assertEqual(out.read_bytes(), whole)
        self.recover("--tree", "out", "--force", "plans")
        self.assertEqual(out.read_bytes(), answer("recover", given=spoiled(self.damaged, 9)).stdout)

    def others(self) -> List[str]:
        """The names of what is no regular file."""
        self.file("target", b"precious")
        for name, led in (("link", "target"), ("loop", "loop"), ("none", "nowhere")):
            (self.folder / name).symlink_to(led)
        (self.folder / "device").symlink_to("/dev/null")
        (self.folder / "folder").mkdir()
        os.mkfifo(self.folder / "pipe")
        with socket.socket(socket.AF_UNIX) as bound:
            bound.bind(os.path.relpath(self.folder / "socket"))
        return ["link", "loop", "none", "device", "folder", "pipe", "socket"]

    def test_what_is_no_regular_file_is_never_replaced(self) -> None:
        for name in self.others():
            self.refused("dwg-recover", "--force", self.source, name)
            if name not in ("link", "none"):
                self.refused("dwg-check", "keep", name, ".")
        for name in ("folder", "pipe", "none"):
            (self.folder / name).rename(self.folder / "out.dwg.notes")
            self.refused("dwg-recover", "--force", self.source, "out.dwg")
            (self.folder / "out.dwg.notes").rename(self.folder / name)

    def test_in_a_tree_what_is_no_regular_file_is_never_replaced(self) -> None:
        self.file("plans/a.dwg", self.damaged)
        self.recover("--tree", "out", "plans")
        (out,) = (self.folder / "out").rglob("a.dwg")
        for name in self.others():
            out.unlink()
            (self.folder / name).rename(out)
            standing = entries(out.parent)
            ran = self.recover("--tree", "out", "--force", "plans")
            self.assertEqual(ran.verdicts["a.dwg"], "refused", name)
            self.assertEqual(entries(out.parent), standing, name)
            out.rename(self.folder / name)
            out.write_bytes(b"")

    def test_on_a_full_disk_an_output_is_absent(self) -> None:
        for old in (None, b"old"):
            for size in (0, 1, 100, len(self.damaged) // 2):
                if old:
                    self.file("out.dwg", old)
                words = ["--force", self.source, "out.dwg"]
                self.refused("dwg-recover", *words, preexec_fn=limited_to(size))

    def test_killed_at_any_moment_an_output_is_whole_or_absent(self) -> None:
        whole, chance = answer("recover", given=self.damaged).stdout, random.Random(1)
        out = self.folder / "out.dwg"
        for old in (None, b"old"):
            for _ in range(12):
                out.unlink() if out.exists() else None
                if old:
                    out.write_bytes(old)
                self.killed(chance.uniform(0.03, 0.3), "dwg-recover", "--force", self.source, out)
                self.assertIn(out.read_bytes() if out.exists() else None, (whole, old))

    def test_interrupted_while_it_begins_it_says_nothing(self) -> None:
        """Here as Python imports its own module `argparse`."""
        (self.top / "argparse.py").write_text("import os\nos.kill(os.getpid(), 2)\nprint(3)\n")
        self.variables["PYTHONPATH"] = str(self.top)
        for ran in (self.check("."), self.recover("in.dwg", "out.dwg")):
            self.assertEqual((ran.status, ran.out, ran.said), (INTERRUPTED, b"", ""))

    def test_interrupted_it_leaves_nothing(self) -> None:
        waiting = self.program('echo >"$0.begun"', "sleep 30")
        begun = self.top / "program.begun"
        for number, statuses in ((signal.SIGINT, [INTERRUPTED]), (signal.SIGTERM, [143, -15])):
            started = self.begun("dwg-recover", "--program", waiting, self.source, "out.dwg")
            self.until(begun.exists)
            os.killpg(started.pid, number)
            started.communicate(timeout=600)
            self.assertIn(started.returncode, statuses)
            self.assertEqual([*entries(self.folder)], ["in.dwg"])
            begun.unlink()
