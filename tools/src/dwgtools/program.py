"""The program `dwg`: where it is, and how it is run within bounds."""

from __future__ import annotations

import contextlib
import functools
import hashlib
import os
import resource
import shutil
import signal
import subprocess
from dataclasses import dataclass
from typing import IO, Any, Dict, Iterator, NoReturn, Optional, Sequence, Union

from .statuses import Status, ToolError

# How many seconds a run may compute, and how many it may take on a busy machine.
MOST_SECONDS, MOST_TAKEN = 300, 1200

# How many bytes of output or notes are held, and how many a run writes otherwise at the most.
MOST_HELD, MOST_WRITTEN = 1 << 26, 1 << 33

# What a run reads: nothing, bytes, or a file from its begin.
Source = Union[None, bytes, IO[bytes]]


@dataclass(frozen=True)
class Answer:
    """What one run of the program gave: its status, its output and its notes, as far as held."""

    status: int
    output: bytes
    notes: bytes


class ProgramFailed(ToolError):
    """The program gave no answer. What takes too long would do so again (`is_lasting`)."""

    def __init__(self, why: str, is_lasting: bool = False) -> None:
        super().__init__(f"dwg: no answer: {why}")
        self.why, self.is_lasting = why, is_lasting


def failed_with(status: int, command: str) -> ProgramFailed:
    """Why a command has no answer, by a status that says nothing of what it read."""
    known: Dict[int, str] = {Status.WRITE_FAULT: "the output can't be written"}
    known[Status.NO_MEMORY] = "no memory"
    return ProgramFailed(known.get(status, f"status {status} for `{command}`"))


def find_program(given: Optional[str] = None) -> str:
    """The program: the one given, else that of DWG, else of the checkout, else of the PATH."""
    for path, origin in ((given, "--program"), (os.environ.get("DWG"), "DWG")):
        if path:
            if not _is_command(path):
                raise ToolError(f"{path}, which {origin} names, is no program")
            return os.path.abspath(path)
    beside = os.path.normpath(os.path.join(os.path.realpath(__file__), "../../../..", "dwg"))
    found = beside if _is_command(beside) else shutil.which("dwg")
    if not found:
        raise ToolError("the program dwg isn't found; name it with --program PATH, or by DWG=PATH")
    return os.path.abspath(found)


def _is_command(path: str) -> bool:
    return os.path.isfile(path) and os.access(path, os.X_OK)


class Program:
    """Runs the program. It may be sent to another process."""

    def __init__(self, given: Optional[str] = None) -> None:
        """Finds the program, and runs it once for nothing: the launcher of a checkout looks once
        whether the program is built, and not at each run."""
        self.path = find_program(given)
        self._environment = {**os.environb, b"DWG_PROVED_ONLY": b"1"}
        answer = self.run(["drill", "1"])
        if answer.status != Status.DONE:
            said = answer.notes.decode("utf-8", "replace").strip()
            raise ToolError(said or f"{self.path}: status {answer.status} for `drill 1`")
        self._environment[b"DWG_BUILT"] = b"1"

    @functools.lru_cache(maxsize=None)
    def digest(self) -> str:
        """The SHA-256 of the program's file, by which verdicts are known to be its own."""
        path = os.path.join(os.path.dirname(self.path), "crates/dwg_cli/out/dwg_cli")
        with open(path if os.path.isfile(path) else self.path, "rb") as file:
            return hashlib.sha256(file.read()).hexdigest()

    def run(
        self, words: Sequence[str], source: Source = None, output: Optional[IO[bytes]] = None,
        notes: Optional[IO[bytes]] = None,
    ) -> Answer:  # fmt: skip
        """Runs the program to its end. Output and notes go to the files that are given; else they
        are held (of notes the first 64 MiB), and more output is ProgramFailed."""
        with self._started(words, source, output or subprocess.PIPE, notes) as run:
            held = run.ran.stdout.read(MOST_HELD + 1) if run.ran.stdout else b""
            if len(held) > MOST_HELD:
                raise run.floods()
            answer = Answer(run.status(), held, run.held_notes())
        return answer

    @contextlib.contextmanager
    def lines(self, words: Sequence[str], source: Source) -> Iterator["Run"]:
        """The lines of the output as they come, of which none is held. After the last the run's
        `status` and `held_notes` tell the rest."""
        with self._started(words, source, subprocess.PIPE, None) as run:
            yield run

    @contextlib.contextmanager
    def _started(
        self, words: Sequence[str], source: Source, output: Any, notes: Optional[IO[bytes]]
    ) -> Iterator["Run"]:
        with contextlib.ExitStack() as end:
            said = notes or end.enter_context(_file())
            stdin: Any = subprocess.DEVNULL
            if isinstance(source, bytes):
                stdin = end.enter_context(_file())
                stdin.write(source)
            elif source is not None:
                stdin = source
            if source is not None:
                os.lseek(stdin.fileno(), 0, os.SEEK_SET)
            # (a signal between the begin of the program and its callback would leave it running)
            before = signal.pthread_sigmask(signal.SIG_BLOCK, {signal.SIGINT, signal.SIGTERM})
            try:
                ran = subprocess.Popen(
                    ["dwg", *words], executable=self.path, env=self._environment,
                    stdin=stdin, stdout=output, stderr=said, close_fds=False,
                )  # fmt: skip
                end.enter_context(ran)
                end.callback(ran.kill)
            except OSError as fault:
                raise ProgramFailed(str(fault.strerror)) from None
            finally:
                signal.pthread_sigmask(signal.SIG_SETMASK, before)
            _bound(ran.pid, MOST_HELD if notes is None else MOST_WRITTEN)
            run = Run(words[0], ran, said)
            # (the timer goes off again where a call begins to wait just as it does)
            signal.signal(signal.SIGALRM, run.end)
            signal.setitimer(signal.ITIMER_REAL, MOST_TAKEN, 1)
            end.callback(signal.setitimer, signal.ITIMER_REAL, 0)
            yield run


class Run:
    """A run of the program, and the lines of its output."""

    def __init__(self, command: str, ran: "subprocess.Popen[bytes]", notes: IO[bytes]) -> None:
        self._command, self.ran, self._notes = command, ran, notes

    def __iter__(self) -> Iterator[bytes]:
        assert self.ran.stdout is not None
        left = MOST_WRITTEN
        for line in iter(functools.partial(self.ran.stdout.readline, MOST_HELD), b""):
            left -= len(line)
            if not line.endswith(b"\n") or left < 0:
                raise self.floods()
            yield line

    def end(self, *_: object) -> NoReturn:
        """Ends a run that takes too long."""
        raise ProgramFailed(f"`{self._command}` has no answer in {MOST_TAKEN} seconds")

    def floods(self) -> ProgramFailed:
        """Why a run is ended that writes on and on."""
        return ProgramFailed(f"`{self._command}` writes more than any answer has")

    def held_notes(self) -> bytes:
        """The notes, as many as are held."""
        return os.pread(self._notes.fileno(), MOST_HELD, 0)

    def status(self) -> int:
        """The status, which this waits for."""
        status = self.ran.wait()
        if status == -signal.SIGXCPU:
            raise ProgramFailed(f"`{self._command}` takes more than {MOST_SECONDS} seconds", True)
        if status == -signal.SIGXFSZ:
            raise self.floods()
        if status < 0:
            raise ProgramFailed(f"`{self._command}` was killed by signal {-status}")
        return status

    def refuse_unread(self) -> None:
        """Raises where the program doesn't read as a drawing what it read so before."""
        if self.status() not in (Status.DONE, Status.FOUND):
            raise failed_with(self.status(), self._command)


def _file() -> IO[bytes]:
    """A file without a name, in memory where the system has such files."""
    try:
        if hasattr(os, "memfd_create"):
            return os.fdopen(os.memfd_create("dwg"), "w+b", buffering=0)
        import tempfile

        return tempfile.TemporaryFile(buffering=0)
    except OSError as fault:
        raise ProgramFailed(f"no temporary file: {fault.strerror}") from None


def _bound(number: int, most_written: int) -> None:
    """Bounds what a run may compute and write, where it isn't bounded closer already."""
    bounds = (resource.RLIMIT_CPU, MOST_SECONDS), (resource.RLIMIT_FSIZE, most_written)
    for limit, most in bounds:
        soft = resource.getrlimit(limit)[0]
        if soft == resource.RLIM_INFINITY or soft > most:
            # (it may have ended already; a system without prlimit has the time that it may take)
            with contextlib.suppress(OSError, AttributeError):
                resource.prlimit(number, limit, (most, most + 5))
