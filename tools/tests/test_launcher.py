"""The launcher `dwg`, with a command `rt` that only looks like the toolchain's, in a copy of what it needs of the tree."""

import contextlib
import ctypes
import os
import pathlib
import pty
import shutil
import signal
import subprocess
import tempfile
import time
import unittest
from typing import Dict, Iterator, List, Optional, Tuple

import made
from made import TOP

# A tree of six crates below dwg_cli, and one that it doesn't need.
CRATES = """dwg_base: thiserror
dwg_bits: dwg_base
dwg_object: dwg_base dwg_bits
dwg_text: dwg_base hex
dwg_commands: dwg_object dwg_text
dwg_cli: dwg_commands dwg_testkit
dwg_testkit:
dwg_codec_tests: dwg_cli
"""

# It says what the toolchain says, counts its builds, makes a program that prints its words and its input, and runs one
# that isn't proved as the toolchain does: over a file alone, with all that it writes at the end.
FAKE_RT = """#!/bin/sh
case $*,${PWD##*/} in
lib,dwg_object)
    echo run >>"$RUNS"
    echo "rt: chose --jobs 4 for dwg_base"
    echo "so far: 3 of 7 functions checked; the verdict comes last"
    sleep "${SLEEP:-0}" & echo $! >"$RUNS.child"; wait
    echo "crate dwg_base: modules loaded=0 checked=83"
    echo "logic=proved functions=7"
    echo "rt: chose --jobs 4 for dwg_bits"
    sleep "${SLEEP:-0}"
    echo "rt: dwg_bits proved"
    ;;
all\\ check\\ --jobs\\ [1-9]*,dwg_cli)
    printf '== dwg_base\n== dwg_bits\n== dwg_text\ncrate dwg_text: modules\nlogic=proved functions=2\n'
    sleep "${SLEEP:-0}"
    [ -z "${BROKEN:-}" ] || { echo "error: not proved"; exit 1; }
    ;;
run\\ --\\ sections,dwg_cli)
    [ "$(head -c 6)" = AC1015 ] || exit 9
    mkdir -p out
    printf '#!/bin/sh\n' >out/dwg_cli
    chmod +x out/dwg_cli
    sleep "${LATE:-0}"
    printf 'echo "$*"; cat; exit 3\n' >>out/dwg_cli
    ;;
try\\ --seconds\\ [1-9]*\\ --*,dwg_cli)
    shift 4
    echo try >>"$RUNS.tries"
    [ -f /dev/stdin ] || { echo "run=none proved=no" >&2; exit 2; }
    sleep "${SLEEP:-0}" & echo $! >"$RUNS.child"; wait
    [ -z "${BROKEN:-}" ] || { printf 'error: no\n%s\n' "$BROKEN" >&2; exit 6; }
    kept=$(mktemp -d)
    "$UNPROVED" "$@" >"$kept/out" 2>"$kept/notes"
    status=$?
    cat "$kept/out"
    { cat "$kept/notes"; echo "checked: ended status=$status"; echo "run=ended status=$status runners=1 proved=no"; } >&2
    rm -r "$kept"
    exit "$status"
    ;;
*) exit 9 ;;
esac
"""

# Says its words, its input, and as many bytes as a word asks for.
UNPROVED = """#!/bin/sh
echo "unproved $*"
cat
echo "dwg: a note" >&2
exit 3
"""


def setUpModule() -> None:
    """Takes the signals that this process was told to ignore, as by nohup: the launcher could not take them either."""
    for number in (signal.SIGINT, signal.SIGTERM, signal.SIGHUP, signal.SIGQUIT, signal.SIGALRM):
        if signal.getsignal(number) == signal.SIG_IGN:
            signal.signal(number, signal.SIG_DFL)


def is_running(pid: int) -> bool:
    """Whether a process is there and no zombie."""
    try:
        return pathlib.Path(f"/proc/{pid}/stat").read_text().rsplit(")", 1)[1].split()[0] != "Z"
    except OSError:
        return False


# What prctl calls the process that takes the children of those that have ended.
SUBREAPER = 36


@contextlib.contextmanager
def no_reaper() -> Iterator[None]:
    """Has this process take the children of those that have ended, and never ask for their status: as the first process of some containers."""
    prctl = getattr(ctypes.CDLL(None), "prctl", None)
    if prctl is None or prctl(SUBREAPER, 1, 0, 0, 0):
        raise unittest.SkipTest("processes that nobody waits for, as this system has no subreaper")
    try:
        yield
    finally:
        prctl(SUBREAPER, 0, 0, 0, 0)


class InTree(unittest.TestCase):
    """Each test has a tree, a path and a folder for temporary files of its own."""

    # What the launcher is asked to do where nothing is built.
    HOW: Dict[str, str] = {}

    def setUp(self) -> None:
        self.folder = pathlib.Path(tempfile.mkdtemp(prefix="dwg launcher "))
        self.addCleanup(shutil.rmtree, self.folder)
        self.tree = self.folder / "tree"
        crate = self.tree / "crates" / "dwg_cli"
        for name in ("dwg_object", "dwg_cli/src", "dwg_cli/data"):
            (crate.parent / name).mkdir(parents=True)
        (crate / "src" / "main.rt").write_text("fn main() {}\n")
        shutil.copy(TOP / "crates/dwg_cli/data/smallest.dwg", crate / "data")
        (self.tree / "crates.txt").write_text(CRATES)
        shutil.copy(TOP / "dwg", self.tree)
        self.program = crate / "out" / "dwg_cli"
        self.runs = self.folder / "runs"
        self.bin = self.folder / "bin"
        self.bin.mkdir()
        for name, text in (("rt", FAKE_RT), ("unproved", UNPROVED)):
            (self.bin / name).write_text(text)
            (self.bin / name).chmod(0o755)
        self.temporary = self.folder / "temporary"
        self.temporary.mkdir()

    def environment(self, more: Dict[str, str]) -> Dict[str, str]:
        """What the launcher sees."""
        path = more.pop("PATH", f"{self.bin}:/usr/bin:/bin")
        own = {"RUNS": str(self.runs), "UNPROVED": str(self.bin / "unproved"), "TMPDIR": str(self.temporary), "LC_ALL": "C", "DWG_PAUSE": "0.1"}
        return {"PATH": path, **own, **self.HOW, **more}

    def start(self, *words: str, **more: str) -> "subprocess.Popen[bytes]":
        """Starts the launcher in a process group of its own."""
        pipe = subprocess.PIPE
        started = subprocess.Popen(
            [str(self.tree / "dwg"), *words], stdin=pipe, stdout=pipe, stderr=pipe, env=self.environment(more), start_new_session=True
        )
        self.addCleanup(lambda: started.poll() is None and started.kill())
        return started

    def run_it(self, *words: str, **more: str) -> "subprocess.CompletedProcess[bytes]":
        """Runs the launcher on an input."""
        started = self.start(*words, **more)
        out, said = started.communicate(b"input", timeout=600)
        return subprocess.CompletedProcess(words, started.returncode, out, said)

    def count_of_runs(self) -> int:
        """How often the program was built."""
        return len(self.runs.read_text().split()) if self.runs.exists() else 0

    def wait_for(self, path: pathlib.Path) -> None:
        """Waits until a file is there and has something in it."""
        for _ in range(200):
            if path.exists() and path.stat().st_size:
                return
            time.sleep(0.05)
        self.fail(f"{path.name} never came")

    def leftovers(self) -> List[str]:
        """What stands beside a program that is built."""
        out = self.program.parent
        return sorted(path.name for path in out.iterdir() if path.name not in ("dwg_cli", "dwg_cli.begun", "dwg_cli.ended", "build.lock"))

    def expect_answer(self, ran: "subprocess.CompletedProcess[bytes]", words: str) -> None:
        """The program was run on its words and its input, and its status came through."""
        self.assertEqual((ran.returncode, ran.stdout), (3, f"{words}\ninput".encode()), ran.stderr)


class Building(InTree):
    """The program is proved and built where it must be."""

    HOW = {"DWG_BUILD": "1"}

    def test_builds_once_and_passes_all_on(self) -> None:
        first = self.run_it("show", "two words")
        self.expect_answer(first, "show two words")
        self.assertIn(b"dwg: building; ", first.stderr)
        second = self.run_it("audit")
        self.expect_answer(second, "audit")
        self.assertEqual((second.stderr, self.count_of_runs(), self.leftovers()), (b"", 1, []))

    def test_a_link_from_elsewhere(self) -> None:
        link = self.folder / "link"
        link.symlink_to("tree/dwg")
        ran = subprocess.run([str(link), "x"], input=b"", capture_output=True, env=self.environment({}), cwd="/", check=False)
        self.assertEqual((ran.returncode, ran.stdout), (3, b"x\n"))

    def test_a_newer_source_is_built(self) -> None:
        self.run_it()
        later = time.time() + 5
        os.utime(self.tree / "crates/dwg_cli/src/main.rt", (later, later))
        self.run_it()
        self.assertEqual(self.count_of_runs(), 2)

    def test_who_had_it_built_is_not_kept_waiting(self) -> None:
        self.expect_answer(self.run_it("first", DWG_BUILT="1"), "first")
        later = time.time() + 5
        os.utime(self.tree / "crates/dwg_cli/src/main.rt", (later, later))
        self.expect_answer(self.run_it("second", DWG_BUILT="1"), "second")
        self.assertEqual(self.count_of_runs(), 1)

    def test_a_program_without_an_end_is_built(self) -> None:
        self.run_it()
        later = time.time() + 5
        os.utime(self.program, (later, later))
        self.run_it()
        (self.program.parent / "dwg_cli.ended").unlink()
        self.run_it()
        self.assertEqual(self.count_of_runs(), 3)

    def test_a_failed_build(self) -> None:
        ran = self.run_it(BROKEN="1")
        self.assertEqual((ran.returncode, ran.stdout), (70, b""))
        self.assertIn(b"error: not proved", ran.stderr)
        self.assertIn(b"dwg: the build failed", ran.stderr)
        self.expect_answer(self.run_it("again"), "again")

    def test_without_rt(self) -> None:
        ran = self.run_it(PATH="/usr/bin:/bin")
        self.assertEqual((ran.returncode, ran.stdout), (70, b""))
        self.assertIn(b"rt isn't on the path", ran.stderr)
        self.assertFalse(self.program.exists())

    def test_a_folder_that_cannot_be_written(self) -> None:
        (self.tree / "crates/dwg_cli/out").write_text("no folder")
        ran = self.run_it()
        self.assertEqual(ran.returncode, 70, ran.stderr)

    def test_progress_in_lines(self) -> None:
        ran = self.run_it(SLEEP="1.6", DWG_TELL_EVERY="1")
        lines = [line.rsplit(", ", 1)[0] for line in ran.stderr.decode().splitlines()[1:]]
        self.assertIn("dwg: building: 0 of 7 crates proved, at dwg_base, 3 of 7 functions", lines)
        self.assertIn("dwg: building: 1 of 7 crates proved, at dwg_bits", lines)
        self.assertIn("dwg: building: 3 of 7 crates proved", lines)

    def test_progress_on_a_terminal(self) -> None:
        ours, theirs = pty.openpty()
        started = subprocess.Popen(
            [str(self.tree / "dwg")], stdin=subprocess.DEVNULL, stdout=subprocess.DEVNULL, stderr=theirs, env=self.environment({"SLEEP": "1.4"})
        )
        os.close(theirs)
        said = b""
        while True:
            try:
                more = os.read(ours, 4096)
            except OSError:
                break
            if not more:
                break
            said += more
        os.close(ours)
        self.assertEqual(started.wait(), 3)
        self.assertIn(b"\r\x1b[Kdwg: building: 0 of 7 crates proved, at dwg_base", said)
        self.assertTrue(said.endswith(b"\r\x1b[K"), said[-80:])
        self.assertEqual(said.count(b"\n"), 1)

    def interrupted(self, number: signal.Signals, to_group: bool, **more: str) -> "subprocess.Popen[bytes]":
        """Starts a build, sends a signal, and waits for the end; all children end too."""
        started = self.start(**more)
        child = pathlib.Path(f"{self.runs}.child")
        self.wait_for(child if "SLEEP" in more else self.program)
        (os.killpg if to_group else os.kill)(started.pid, number)
        _, said = started.communicate(timeout=600)
        self.assertIn(b"dwg: the build was interrupted", said)
        if "SLEEP" in more:
            self.assertFalse(is_running(int(child.read_text())))
        return started

    def test_interrupted(self) -> None:
        for number, to_group, status in ((signal.SIGINT, True, 130), (signal.SIGTERM, False, 143), (signal.SIGHUP, True, 129)):
            with self.subTest(number):
                self.assertEqual(self.interrupted(number, to_group, SLEEP="30").returncode, status)
                pathlib.Path(f"{self.runs}.child").unlink()
                self.assertEqual((self.program.exists(), self.leftovers()), (False, []))
        self.expect_answer(self.run_it("then"), "then")

    def test_interrupted_where_nobody_waits_for_its_children(self) -> None:
        with no_reaper():
            self.assertEqual(self.interrupted(signal.SIGTERM, False, SLEEP="30").returncode, 143)
            os.waitpid(int(pathlib.Path(f"{self.runs}.child").read_text()), 0)
        self.expect_answer(self.run_it("then"), "then")

    def test_interrupted_with_a_program_half_written(self) -> None:
        self.interrupted(signal.SIGINT, True, LATE="30")
        self.assertTrue(self.program.exists())
        self.expect_answer(self.run_it("then"), "then")
        self.assertEqual(self.count_of_runs(), 2)

    def killed_outright(self, path: Optional[str] = None) -> None:
        """A launcher that is killed with its build, so that it can't tidy up."""
        more = {"SLEEP": "30", **({"PATH": path} if path else {})}
        started = self.start(**more)
        child = pathlib.Path(f"{self.runs}.child")
        self.wait_for(child)
        build = os.getpgid(int(child.read_text()))
        os.killpg(started.pid, signal.SIGKILL)
        os.killpg(build, signal.SIGKILL)
        started.communicate()

    def test_a_lock_of_a_dead_process(self) -> None:
        self.killed_outright()
        self.expect_answer(self.run_it("then"), "then")

    def two_at_once(self, **more: str) -> None:
        """Two launchers: one builds, the other waits, both answer."""
        first = self.start("first", SLEEP="1", **dict(more))
        self.wait_for(self.runs)
        second = self.start("second", SLEEP="1", **dict(more))
        out2, said2 = second.communicate(b"input", timeout=600)
        out1, _ = first.communicate(b"input", timeout=600)
        self.assertEqual((first.returncode, out1), (3, b"first\ninput"))
        self.assertEqual((second.returncode, out2), (3, b"second\ninput"))
        self.assertIn(b"dwg: waiting for another build", said2)
        self.assertEqual((self.count_of_runs(), self.leftovers()), (1, []))

    def test_two_at_once(self) -> None:
        self.two_at_once()

    def test_an_interrupted_wait_leaves_the_build(self) -> None:
        first = self.start("first", SLEEP="1")
        self.wait_for(self.runs)
        second = self.start("second")
        time.sleep(0.5)
        os.killpg(second.pid, signal.SIGINT)
        second.communicate(timeout=600)
        self.assertEqual(second.returncode, 130)
        out, _ = first.communicate(b"input", timeout=600)
        self.assertEqual((first.returncode, out, self.count_of_runs()), (3, b"first\ninput", 1))

    def path_without_flock(self) -> str:
        """A path with what the launcher needs, and no flock."""
        for name in "sh dirname readlink find head sleep awk date mkdir rmdir rm touch tail ln ps grep setsid cat chmod getconf".split():
            found = shutil.which(name, path="/usr/bin:/bin")
            if found:
                (self.bin / name).symlink_to(found)
        return str(self.bin)

    def test_two_at_once_without_flock(self) -> None:
        self.two_at_once(PATH=self.path_without_flock())

    def test_a_lock_of_a_dead_process_without_flock(self) -> None:
        path = self.path_without_flock()
        self.killed_outright(path)
        self.assertTrue((self.program.parent / "build.lock.pid").is_symlink())
        self.expect_answer(self.run_it("then", PATH=path), "then")
        self.assertEqual(self.leftovers(), [])


class Unproved(InTree):
    """Where no program is built that is newer than its sources, the answer is that of the program without its proof."""

    def expect_unproved(self, ran: "subprocess.CompletedProcess[bytes]", words: str, given: str = "", state: str = "isn't built") -> None:
        """The answer came through after a line that says what it is, and nothing is left of it."""
        self.assertEqual((ran.returncode, ran.stdout), (3, f"unproved {words}\n{given}".encode()), ran.stderr)
        first, note = ran.stderr.decode().splitlines()
        self.assertRegex(first, f"^dwg: the program {state}, so this answer is from the program compiled without its proof, .*; `make -C .*` proves and builds it, .*$")
        self.assertEqual(note, "dwg: a note")
        self.assertEqual(list(self.temporary.iterdir()), [])

    def test_answers_at_once(self) -> None:
        for word in ("show", "carry"):
            self.expect_unproved(self.run_it(word), word, "input")
        self.assertEqual((self.count_of_runs(), self.program.parent.exists()), (0, False))

    def test_what_reads_nothing_is_not_kept_waiting(self) -> None:
        for words in (["make", "1", "7"], ["show", "more"], [], ["--help"], ["drill", "1"]):
            started = self.start(*words)
            assert started.stdin is not None and started.stdout is not None and started.stderr is not None
            out, said = started.stdout.read(), started.stderr.read()
            started.stdin.close()
            self.expect_unproved(subprocess.CompletedProcess(words, started.wait(timeout=600), out, said), " ".join(words))
            started.stdout.close()
            started.stderr.close()

    def test_words_in_other_characters(self) -> None:
        for word in (b"caf\xc3\xa9", b"\xff", b"show\n"):
            ran = subprocess.run([str(self.tree / "dwg"), word], input=b"", capture_output=True, env=self.environment({}), check=False)
            self.expect_unproved(ran, "no command")

    def test_the_path_of_the_program_is_none_of_its_words(self) -> None:
        self.program.parent.mkdir()
        shutil.copy("/bin/sh", self.program)
        for name, called in (("tree", "dwg_cli"), ("a:b", f"{self.folder.resolve()}/a:b/crates/dwg_cli/out/dwg_cli")):
            self.tree = self.tree.rename(self.folder / name)
            ran = self.run_it("-c", 'echo "$0"', DWG_BUILT="1")
            self.assertEqual((ran.returncode, ran.stdout.decode()), (0, f"{called}\n"), ran.stderr)

    def test_a_program_older_than_its_sources(self) -> None:
        self.run_it(DWG_BUILD="1")
        later = time.time() + 5
        os.utime(self.tree / "crates/dwg_cli/src/main.rt", (later, later))
        self.expect_unproved(self.run_it("audit"), "audit", "input", "is older than its sources")
        self.assertEqual(self.run_it("audit", DWG_BUILT="1").stdout, b"audit\ninput")

    def refused_as_unproved(self, state: str) -> None:
        """Who wants proved answers alone gets none."""
        ran = self.run_it("show", DWG_PROVED_ONLY="1")
        self.assertEqual((ran.returncode, ran.stdout), (69, b""))
        self.assertRegex(ran.stderr.decode(), f"^dwg: the program {state}; `make -C .*` proves and builds it, .*\n$")

    def test_proved_only(self) -> None:
        self.refused_as_unproved("isn't built")
        self.run_it(DWG_BUILD="1")
        self.assertEqual(self.run_it("show", DWG_PROVED_ONLY="1").stdout, b"show\ninput")
        later = time.time() + 5
        os.utime(self.tree / "crates/dwg_cli/src/main.rt", (later, later))
        self.refused_as_unproved("is older than its sources")

    def test_the_line_names_make_as_it_is_run_here(self) -> None:
        ran = subprocess.run(["./dwg", "show"], cwd=self.tree, input=b"", capture_output=True, env=self.environment({}), check=False)
        self.assertIn(b"; `make` proves and builds it", ran.stderr)

    def test_a_folder_that_is_a_link(self) -> None:
        """`link/..` is the folder of what the link leads to."""
        for folder in ("dot/bin", "home/u", "home/tree", "tree/deep"):
            (self.folder / folder).mkdir(parents=True)
        shutil.copytree(self.tree / "crates", self.folder / "home/tree/crates")
        (self.folder / "dot/bin/dwg").symlink_to("../../tree/dwg")
        (self.folder / "home/u/bin").symlink_to("../../dot/bin")
        (self.folder / "home/link").symlink_to("../tree/deep")
        for shell in ([], ["dash"], ["bash"]):
            for name in ("home/u/bin/dwg", "home/link/../dwg"):
                if not shell or shutil.which(shell[0]):
                    ran = subprocess.run([*shell, name, "show"], cwd=self.folder, input=b"input", capture_output=True, env=self.environment({}), check=False)
                    self.expect_unproved(ran, "show", "input")
                    self.assertIn(f"`make -C {self.tree.resolve()}` proves".encode(), ran.stderr, (shell, name))

    def test_cdpath(self) -> None:
        other = self.folder / "elsewhere" / "tree"
        other.mkdir(parents=True)
        for words in (["./tree/dwg"], ["tree/dwg"]):
            ran = subprocess.run([*words, "show"], cwd=self.folder, input=b"input", capture_output=True, env=self.environment({"CDPATH": str(other.parent)}), check=False)
            self.expect_unproved(ran, "show", "input")

    def test_no_answer(self) -> None:
        for said, why in (
            ("checked: no-answer: the program wrote more than 1048576 bytes to standard output or to standard error, the limit on each\nrun=no-answer proved=no", "its output or its notes have more than 1 MiB"),
            ("checked: no-answer: the program did not end within the time limit\nrun=no-answer proved=no", "it takes more than 120 seconds"),
            ("run=none proved=no", "the toolchain ends with run=none proved=no"),
            ("run=ended status=3", "the toolchain ends with run=ended status=3"),
        ):
            ran = self.run_it("show", BROKEN=said)
            self.assertEqual((ran.returncode, ran.stdout), (70, b""))
            last = ran.stderr.decode().splitlines()[-1]
            self.assertTrue(last.startswith(f"dwg: no answer without a proof: {why}; `make"), last)
            self.assertEqual(list(self.temporary.iterdir()), [])

    def test_without_rt(self) -> None:
        ran = self.run_it("show", PATH="/usr/bin:/bin")
        self.assertEqual((ran.returncode, ran.stdout), (70, b""))
        self.assertIn(b"isn't built, and the toolchain's command rt isn't on the path", ran.stderr)

    def test_a_relative_folder_for_temporary_files(self) -> None:
        for name in ("relative", "-x"):
            (self.folder / name).mkdir()
            ran = subprocess.run([str(self.tree / "dwg"), "show"], input=b"input", capture_output=True, env=self.environment({"TMPDIR": name}), cwd=self.folder, check=False)
            self.assertEqual((ran.returncode, ran.stdout, os.listdir(self.folder / name)), (3, b"unproved show\ninput", []), ran.stderr)

    def test_no_place_for_the_input(self) -> None:
        ran = self.run_it("show", TMPDIR=str(self.folder / "nowhere"))
        self.assertEqual((ran.returncode, ran.stdout), (70, b""), ran.stderr)
        words = ["sh", "-c", 'ulimit -f 8; head -c 100000 /dev/zero | "$0" show', str(self.tree / "dwg")]
        full = subprocess.run(words, capture_output=True, env=self.environment({}), check=False)
        self.assertEqual((full.returncode, full.stdout), (70, b""))
        self.assertIn(b"can't keep the input", full.stderr)
        self.assertEqual(list(self.temporary.iterdir()), [])

    def interrupted(self, number: signal.Signals, to_group: bool, **more: str) -> int:
        """Sends a signal to the launcher while it takes its input, or while the program runs; nothing is left, and all children end."""
        started = self.start("show", **more)
        child = pathlib.Path(f"{self.runs}.child")
        assert started.stdin is not None
        if "SLEEP" in more:
            started.stdin.close()
            started.stdin = None
            self.wait_for(child)
        else:
            started.stdin.write(b"some")
            started.stdin.flush()
            time.sleep(0.5)
        (os.killpg if to_group else os.kill)(started.pid, number)
        out, said = started.communicate(timeout=600)
        self.assertEqual((out, said.count(b"\n")), (b"", 1), said)
        self.assertEqual(list(self.temporary.iterdir()), [])
        if "SLEEP" in more:
            self.assertFalse(is_running(int(child.read_text())))
            child.unlink()
        return started.returncode

    def test_interrupted(self) -> None:
        for number, to_group, status in ((signal.SIGINT, True, 130), (signal.SIGTERM, False, 143), (signal.SIGHUP, True, 129)):
            with self.subTest(number):
                self.assertEqual(self.interrupted(number, to_group, SLEEP="30"), status)
                self.assertEqual(self.interrupted(number, to_group), status)

    def test_interrupted_where_nobody_waits_for_its_children(self) -> None:
        for number, status in ((signal.SIGINT, 130), (signal.SIGTERM, 143), (signal.SIGHUP, 129)):
            with no_reaper():
                self.assertEqual(self.interrupted(number, False, SLEEP="30"), status)
                os.waitpid(-1, 0)

    def test_other_signals(self) -> None:
        for number, status in ((signal.SIGQUIT, 131), (signal.SIGALRM, 142)):
            self.assertEqual(self.interrupted(number, False, SLEEP="30"), status)

    def test_nobody_reads_what_it_says(self) -> None:
        for script, status in (('"$0" show < /', 5), ('BROKEN="run=none proved=no" "$0" show </dev/null', 70), ('"$0" show </dev/null', 5)):
            told = f"{{ sleep 1; {script}; echo $? >&3; }} 2>&1 >/dev/null 3>'{self.folder}/status' | true"
            subprocess.run(["bash", "-c", told, str(self.tree / "dwg")], env=self.environment({}), check=True, timeout=600)
            self.assertEqual((self.folder / "status").read_text(), f"{status}\n", script)
            self.assertEqual(list(self.temporary.iterdir()), [])

    def test_a_build_elsewhere_is_not_waited_for(self) -> None:
        first = self.start("first", DWG_BUILD="1", SLEEP="1")
        self.wait_for(self.runs)
        self.expect_unproved(self.run_it("show"), "show", "input")
        first.communicate(b"", timeout=600)
        self.assertEqual(first.returncode, 3)

    def test_version(self) -> None:
        outside = self.run_it("--version", GIT_CEILING_DIRECTORIES=str(self.folder))
        self.assertEqual((outside.returncode, outside.stdout), (70, b""))
        git = lambda *words: subprocess.run(["git", "-c", "user.name=t", "-c", "user.email=t@example.org", *words], cwd=self.tree, check=True, capture_output=True)
        git("init", "-q")
        git("add", ".")
        git("commit", "-q", "-m", "all")
        version = self.run_it("--version").stdout.decode()
        self.assertRegex(version, r"^dwg [0-9a-f]{7,}, not proved here: the program isn't built\n$")
        # git has such variables set where it runs a hook, in another checkout perhaps.
        other = self.folder / "other"
        other.mkdir()
        for words in (("init", "-q"), ("commit", "-q", "--allow-empty", "-m", "x")):
            subprocess.run(["git", "-c", "user.name=t", "-c", "user.email=t@example.org", *words], cwd=other, check=True)
        self.assertEqual(self.run_it("--version", GIT_DIR=str(other / ".git"), GIT_WORK_TREE=str(other)).stdout.decode(), version)
        # The index isn't written, which belongs to who works in the checkout.
        index, source = self.tree / ".git" / "index", self.tree / "crates.txt"
        os.utime(source, (1, 1))
        before = index.stat().st_ino, index.stat().st_mtime_ns
        self.assertEqual(self.run_it("--version").stdout.decode(), version)
        self.assertEqual((index.stat().st_ino, index.stat().st_mtime_ns), before)
        source.write_text(source.read_text() + "\n")
        self.assertEqual(self.run_it("--version").stdout.decode(), version.replace(",", "-dirty,", 1))
        self.run_it(DWG_BUILD="1")
        self.assertRegex(self.run_it("--version").stdout.decode(), r"^dwg [0-9a-f]{7,}(-dirty)?, proved and built\n$")


PAUSING = '(head -c 60 "$1"; sleep 5; tail -c +61 "$1") | "$0" sections'
SMALLEST = str(TOP / "crates/dwg_cli/data/smallest.dwg")


class Compared(InTree):
    """A launcher without a program, whose toolchain runs the real program as one without its proof, beside that program."""

    def setUp(self) -> None:
        made.needs_program()
        super().setUp()

    def both(self, script: str, *words: str) -> Tuple[int, bytes, bytes]:
        """What a script answers, whose "$0" is the program and whose words follow; the launcher's line aside, it is the same by both."""
        variables = self.environment({"UNPROVED": made.PROGRAM, "DWG_BUILT": "1", "PATH": f"{self.bin}:{os.environ['PATH']}"})
        built, unproved = (
            subprocess.run(["bash", "-c", script, program, *words], stdin=subprocess.DEVNULL, capture_output=True, env=variables, check=False, timeout=600)
            for program in (made.PROGRAM, str(self.tree / "dwg"))
        )
        first, _, notes = unproved.stderr.partition(b"\n")
        if not unproved.stderr.startswith(b"dwg: the program isn't built, so"):
            self.assertIn("2>", script)
            notes = unproved.stderr
        else:
            self.assertIn(b"without its proof", first)
        self.assertEqual((unproved.returncode, unproved.stdout, notes), (built.returncode, built.stdout, built.stderr), script)
        self.assertEqual(list(self.temporary.iterdir()), [])
        return built.returncode, built.stdout, built.stderr


class SameAsBuilt(Compared):
    """Without a build the launcher answers as the program that is built, by status, output and notes, however the streams are."""

    def test_inputs(self) -> None:
        self.assertEqual(self.both(PAUSING, SMALLEST)[0], 0)
        self.assertEqual(self.both('"$0" sections < /'), (4, b"", b"dwg: read fault\n"))
        self.assertEqual(self.both('"$0" sections <&-'), (4, b"", b"dwg: read fault\n"))
        self.assertEqual(self.both('head -c 60 "$1" | "$0" sections', SMALLEST), (3, b"", b"dwg: refused: header 0 at 60: short\n"))
        self.assertEqual(self.both('head -c 33554433 /dev/zero | "$0" show'), (7, b"", b"dwg: input too long\n"))
        self.assertEqual(self.both('"$0" show </dev/zero')[0], 7)
        self.assertEqual(self.both('"$0" recover < "$1"', str(TOP / "samples/flip.dwg"))[0], 1)

    def test_words(self) -> None:
        for words in (["--help"], [], ["show", "more"], ["x\ny"], [""]):
            status, out, notes = self.both('"$0" "$@"', *words)
            self.assertEqual((status, out, notes[:11]), (2, b"", b"dwg: usage:"))
        self.assertEqual(self.both("\"$0\" $'\\xff'")[0], 2)
        self.assertEqual(self.both('"$0" make 0 1'), (2, b"", b"dwg: size must be 1 to 200000\n"))
        self.assertEqual(self.both('"$0" drill 2')[0], 0)

    def test_outputs(self) -> None:
        data = str(TOP / "samples/flip.dwg")
        for script, status in (
            ('"$0" drill 1 >/dev/full', 5),
            ('"$0" drill 1 >&-', 5),
            ('"$0" recover < "$1" >/dev/full', 5),
            ('"$0" audit < "$1" >/dev/full', 3),
            ('"$0" audit < "$1" >&-', 3),
            ('"$0" audit < "$1" 2>/dev/full', 5),
            ('"$0" audit < "$1" 2>&-', 5),
            ('"$0" sections < "$1" 2>&-', 0),
            ('"$0" sections < / 2>/dev/full', 5),
            ('"$0" recover < "$1" >/dev/null', 1),
        ):
            with self.subTest(script):
                self.assertEqual(self.both(script, data)[0], status)

    def test_a_reader_that_leaves(self) -> None:
        for command in ("show", "recover"):
            script = f'{{ sleep 1; "$0" {command} < "$1"; echo "$?" >&2; }} | true'
            self.assertEqual(self.both(script, str(TOP / "samples/flip.dwg"))[0], 0)


    def test_a_terminal(self) -> None:
        for program in (made.PROGRAM, str(self.tree / "dwg")):
            ours, theirs = pty.openpty()
            variables = self.environment({"UNPROVED": made.PROGRAM, "DWG_BUILT": "1", "PATH": f"{self.bin}:{os.environ['PATH']}"})
            with subprocess.Popen([program, "sections"], stdin=theirs, stdout=subprocess.PIPE, stderr=subprocess.PIPE, env=variables) as started:
                os.close(theirs)
                # A line, and the end of the input at the beginning of the next.
                os.write(ours, b"no drawing\n\x04")
                out, said = started.communicate(timeout=600)
            os.close(ours)
            self.assertEqual((started.returncode, out, said.splitlines()[-1]), (3, b"", b"dwg: refused: header 0 at 11: short"))


class SameAsBuiltByTheToolchain(Compared):
    """The same with the toolchain itself, which compiles the program anew for each answer."""

    def setUp(self) -> None:
        if not os.environ.get("DWG_TEST_TOOLCHAIN"):
            self.skipTest("the launcher over the toolchain itself, some minutes (DWG_TEST_TOOLCHAIN=1 has it tested)")
        super().setUp()
        (self.bin / "rt").unlink()
        shutil.copytree(TOP / "crates", self.tree / "crates", ignore=shutil.ignore_patterns("out"), dirs_exist_ok=True)
        shutil.copy(TOP / "crates.txt", self.tree)

    def test_answers(self) -> None:
        flip = str(TOP / "samples/flip.dwg")
        for script, words, status in (
            (PAUSING, [SMALLEST], 0),
            ('"$0" --help', [], 2),
            ('"$0" recover < "$1"', [flip], 1),
            ('"$0" recover < "$1" >/dev/full', [flip], 5),
            ('"$0" sections < /', [], 4),
            ('"$0" sections <&-', [], 4),
        ):
            with self.subTest(script):
                self.assertEqual(self.both(script, *words)[0], status)


class Shell(unittest.TestCase):
    """The script by the shell's own checker."""

    def test_shellcheck(self) -> None:
        if not shutil.which("shellcheck"):
            self.skipTest("shell scripts, as shellcheck isn't installed")
        ran = subprocess.run(["shellcheck", str(TOP / "dwg")], capture_output=True, check=False)
        self.assertEqual((ran.returncode, ran.stdout), (0, b""))


if __name__ == "__main__":
    unittest.main()
