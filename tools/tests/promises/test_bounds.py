"""No file takes more than 300 seconds of computing, no pattern more than 10; nothing is answered
without an end. Pipes and process substitutions are inputs."""

from __future__ import annotations

import os
import resource
import signal
import subprocess
from pathlib import Path

from commands import INTERRUPTED, PATIENCE, SOUND, TOOLS, UNSOUND, Commands, Ran, answer
from drawings import spoiled

MOST_SECONDS = 300


class Bounds(Commands):
    """Programs that compute, wait or write without an end."""
    def setUp(self) -> None:
        super().setUp()
        self.drawing("plans/a.dwg")
        self.file("plans/b.dwg", spoiled(answer("make", "4", "7").stdout))
        self.drawing("plans/c.dwg", 5)
        self.is_b = f'if cmp -s "{self.folder}/plans/b.dwg" /dev/stdin'
        self.told = {"a.dwg": "sound", "b.dwg": "failed", "c.dwg": "sound"}

    def test_each_run_may_compute_for_so_long_alone(self) -> None:
        noting = self.program(
            "for _ in 1 2 3 4 5 6 7 8 9; do [ $(ulimit -t) = unlimited ] && sleep 0.2; done",
            'ulimit -t >>"$0.limits"',
        )
        self.check("--program", noting, "plans")
        self.recover("--program", noting, "--tree", "out", "plans")
        limits = Path(f"{noting}.limits").read_text().split()
        self.assertGreater(len(limits), 5)
        for limit in limits:
            self.assertLessEqual(int(limit if limit.isdigit() else 10**9), MOST_SECONDS)

    def test_what_computes_for_too_long_is_failed(self) -> None:
        """Here by a limit of the shell, which is lower; others have their lines."""
        spins = self.program(f"{self.is_b}; then while :; do :; done; fi")
        limit = lambda: resource.setrlimit(resource.RLIMIT_CPU, (3, 3))
        ran = self.check("--program", spins, "plans", preexec_fn=limit)
        self.assertEqual(ran.verdicts, self.told)
        ran = self.recover("--program", spins, "--tree", "o", "plans", preexec_fn=limit)
        self.assertEqual(ran.verdicts, self.told)

    def test_what_is_killed_for_computing_too_long_is_failed(self) -> None:
        """It isn't tried again, since it would be so again."""
        killed = self.program(f"{self.is_b}; then echo >>\"$0.runs\"; kill -XCPU $$; fi")
        for _ in range(2):
            ran = self.check("keep", "store", "plans", "--program", killed)
            self.assertEqual(ran.verdicts["b.dwg"], "failed")
            runs = Path(f"{killed}.runs").read_bytes()
        self.assertEqual(len(runs), 1)
        alone = self.recover("--program", killed, "plans/b.dwg", "out.dwg")
        self.assertNotIn(alone.status, (SOUND, UNSOUND))

    def test_an_answer_without_an_end_is_failed(self) -> None:
        limit = lambda: resource.setrlimit(resource.RLIMIT_FSIZE, (1 << 27, 1 << 27))
        for flood in ("yes >&2", "tr '\\0' x </dev/zero"):
            floods = self.program(f"{self.is_b}; then {flood}; exit 1; fi")
            ran = self.check("--program", floods, "plans", preexec_fn=limit)
            self.assertEqual(ran.verdicts, self.told)
            ran = self.recover("--program", floods, "plans/b.dwg", "out.dwg", preexec_fn=limit)
            self.assertNotIn(ran.status, (SOUND, UNSOUND))
            self.assertEqual([*self.folder.glob("*out.dwg*")], [])

    def test_what_hangs_ends_with_the_run(self) -> None:
        hangs = self.program('echo $$ >>"$0.ids"', "exec sleep 1000")
        ids = Path(f"{hangs}.ids")
        for words in (["dwg-check", "plans"], ["dwg-recover", "--tree", "o", "plans"]):
            ids.write_bytes(b"")
            started = self.begun(words[0], "--program", hangs, *words[1:])
            self.until(lambda: ids.stat().st_size > 0)
            os.kill(started.pid, signal.SIGINT)
            self.assertEqual(started.wait(timeout=PATIENCE), INTERRUPTED)
            for number in ids.read_text().split():
                # (what has ended has no program any more)
                self.until(lambda: not os.path.exists(f"/proc/{number}/exe"))

    def test_a_pattern_takes_no_time(self) -> None:
        for index in range(5):
            self.drawing(f"plans/{'a' * 60}{index}.dwg")
        computed = lambda: resource.getrusage(resource.RUSAGE_CHILDREN).ru_utime
        begin = computed()
        ran = self.check("plans", "--exclude", "*a" * 25 + "*b")
        self.assertLess(computed() - begin, 10)
        self.assertEqual(len(ran.table), 8)


class Pipes(Commands):
    """What is no file is read as one."""
    def in_bash(self, script: str) -> Ran:
        """Runs a script of bash, in which the commands are on the path."""
        path = f"{TOOLS}:{os.environ['PATH']}"
        ran = subprocess.run(
            ["bash", "-c", script], cwd=self.folder, env={**self.variables, "PATH": path},
            capture_output=True, check=False, timeout=PATIENCE,
        )  # fmt: skip
        return Ran(ran.returncode, ran.stdout, ran.stderr.decode())

    def test_pipes_and_process_substitutions_are_inputs(self) -> None:
        data = answer("make", "3", "7").stdout
        self.file("a.dwg", data)
        self.file("b.dwg", spoiled(data))
        os.mkfifo(self.folder / "pipe")
        for script, verdicts in (
            ("dwg-check <(cat a.dwg) <(cat b.dwg)", ["sound", "damaged"]),
            ("dwg-check <(cat a.dwg; echo more) a.dwg", ["trailing bytes", "sound"]),
            ("cat b.dwg | dwg-check /dev/stdin", ["damaged"]),
            ("dwg-check /dev/stdin < a.dwg", ["sound"]),
        ):
            told = [row["verdict"] for row in self.in_bash(script).table]
            self.assertEqual(told, verdicts, script)
        for script in (
            "cat b.dwg | dwg-recover - out.dwg", "dwg-recover <(cat b.dwg) out.dwg",
            "dwg-recover - out.dwg < b.dwg", "(sleep 0.3; cat b.dwg) | dwg-recover - out.dwg",
        ):  # fmt: skip
            self.assertEqual(self.in_bash(script).status, UNSOUND, script)
            out = self.folder / "out.dwg"
            self.assertEqual(out.read_bytes(), answer("recover", given=spoiled(data)).stdout)
            out.unlink()
            (self.folder / "out.dwg.notes").unlink()
        ran = self.in_bash("dwg-recover b.dwg - | cat")
        self.assertEqual(ran.out, answer("recover", given=spoiled(data)).stdout)
