"""The program `dwg`: where it is, and how it is run."""

from __future__ import annotations

import contextlib
import errno
import os
import shutil
import signal
import stat
import subprocess
import tempfile
import threading
import time
from dataclasses import dataclass
from typing import IO, Any, Callable, Iterable, Iterator, Optional, Sequence, Tuple, Union

from . import TOP
from .escapes import one_line
from .notes import MOST_NOTES, Said, read_note
from .pipes import LOOK, Pipes, await_end, buffered
from .processes import computed_alone, computed_by, end_left, end_running, has_ended_untaken, is_any_running, running_now, send_to_all
from .signals import await_interrupt, uninterrupted
from .statuses import Exit, Status, ToolError
from .streams import hush_where_named
from .temporary import TemporaryFull, temporary_name
from .versions import LIMIT

# How many seconds a run waits at the most until there is room for it.
MOST_WAITING = 30

# How many seconds a run may take that has little to do, however busy the machine is: a launcher answers without a proof in a minute.
MOST_AT_ONCE = 1200

# What a run writes at the most, whatever it was given: what is held of it, and what passes by or goes to a file. And for each byte that it is given
# so much more. `show` has up to 164 bytes for one (`show.MOST_SHOWN`), `audit` no more than two findings of a hundred, `certify` 24 for an object,
# which has seven; `recover` notes what is lost by an entry of the map, which has two bytes, and what is found at a place, in fifty bytes each.
MOST_HELD, MOST_PASSED = 1 << 20, 1 << 28
EACH = {"show": 512, "audit": 512, "certify": 4}
EACH_NOTED = {"recover": 256}


@dataclass
class Patience:
    """How many seconds runs may compute together, with all that they begin, and how many they may take in all, however busy the machine is.

    What a run has used, the next one hasn't. Those in which the tool is stopped, with what it runs, don't count.
    """

    computing: float
    taking: float
    # How many seconds were computed, and how often it was looked at a run.
    computed: float = 0.0
    looks: int = 0


@dataclass(frozen=True)
class Answer:
    """What one run of the program gave: its status, its output, its notes."""

    status: Status
    output: bytes
    notes: bytes


def is_command(path: str) -> bool:
    """Whether a file can be run."""
    return os.path.isfile(path) and os.access(path, os.X_OK)


def find_program(given: Optional[str] = None) -> str:
    """The program: the one given, else the one that DWG names, else `dwg` beside the folder of the tools, else the one on the PATH."""
    for path, origin in ((given, "--program"), (os.environ.get("DWG"), "DWG")):
        if path:
            hush_where_named([path])
            if not is_command(path):
                raise ToolError(f"{one_line(path)}, which {origin} names, is no program", Exit.NO_PROGRAM)
            return in_folder(path)
    beside = os.path.join(TOP, "dwg")
    found = beside if is_command(beside) else shutil.which("dwg")
    if not found:
        raise ToolError("the program dwg isn't found; name it with --program PATH", Exit.NO_PROGRAM)
    hush_where_named([found])
    return in_folder(found)


def in_folder(path: str) -> str:
    """A name that is looked for in its folder alone, and never on the PATH; the system follows what links are in it, which no text can."""
    return os.path.join(os.curdir, path)


class ProgramFailed(ToolError):
    """The program gave no answer: it couldn't be run, was killed, or ended with a status that it doesn't have."""

    def __init__(self, why: str) -> None:
        super().__init__(f"the program dwg gave no answer: {why}", Exit.NO_PROGRAM)
        self.why = why


class NoTemporary(ProgramFailed):
    """There is no place for what the program notes, which says nothing of the file that is read, and is no fault of the program."""

    def __init__(self, fault: OSError) -> None:
        super().__init__(f"no temporary file: {fault.strerror}")
        self.args, self.status = (f"{temporary_name()}: {fault.strerror}",), int(Exit.FAILURE)


class TookTooLong(ProgramFailed):
    """The program computed longer than it may without an answer, which it would do again for the same bytes."""


class NotBuilt(ToolError):
    """The launcher has no program that is built, or one that is older than its sources; it says itself what to do."""

    def __init__(self, notes: bytes) -> None:
        line = notes.decode("utf-8", "replace").splitlines()[-1]
        note = read_note(line)
        super().__init__(note.text if isinstance(note, Said) else line, Exit.NO_PROGRAM)


class Program:
    """Runs the program. Several threads may run it at once; `stop` ends all that runs."""

    def __init__(self, path: str) -> None:
        self.path = path
        # The launcher's answers without a proof take a minute each.
        os.environ["DWG_PROVED_ONLY"] = "1"
        self._lock = threading.Lock()
        self._stopped = False

    def prepare(self) -> None:
        """Runs the program once for nothing, so that the launcher looks once whether it is built, and not at each run."""
        status = self.run(["drill", "1"], patience=at_once()).status
        if status != Status.DONE:
            raise ProgramFailed(f"status {int(status)} for `drill 1`")
        os.environ["DWG_BUILT"] = "1"

    def run(
        self,
        words: Sequence[str],
        source: Union[int, IO[bytes], bytes, None] = None,
        output: Optional[IO[bytes]] = None,
        patience: Optional[Patience] = None,
        notes: Optional[IO[bytes]] = None,
    ) -> Answer:
        """Runs the program on words, as long as there is patience. The source is a file, a descriptor, bytes, or nothing; output and notes go to
        files where these are given, and of such notes the answer has the begin. Nothing that it left behind writes into these notes or this output
        after that."""
        given = source if isinstance(source, bytes) else None
        stdin = subprocess.PIPE if given is not None else subprocess.DEVNULL if source is None else source
        stdout, stderr = (subprocess.PIPE if file is None else file for file in (output, notes))
        with self._started(words, stdin, stdout, stderr) as ran:
            watch = Watch(words[0], source, ran.pid, output, notes, patience, self.besides)
            out, said = watch.exchanged(ran, given or b"", ended_alone(ran) if notes is not None else lambda: ran.poll() is not None)
        if notes is not None:
            notes.seek(0)
            said = notes.read(MOST_NOTES)
        return Answer(status_of_run(ran.returncode, said), out, said)

    @contextlib.contextmanager
    def lines(self, words: Sequence[str], source: Union[int, IO[bytes]]) -> Iterator[IO[bytes]]:
        """The output while the program runs; what it notes goes to a file, and status 3 and above is ToolError after its end."""
        with _file_of_notes() as notes, self._started(words, source, subprocess.PIPE, notes) as ran:
            assert ran.stdout is not None
            watch = Watch(words[0], source, ran.pid, notes=notes, besides=self.besides)
            yield buffered(watch.passed(ran.stdout.fileno(), lambda: ran.poll() is not None))
            ran.stdout.close()
            watch.await_end(lambda: ran.poll() is not None)
            notes.seek(0)
            said = notes.read(MOST_NOTES)
            status = status_of_run(ran.returncode, said)
            if status == Status.WRITE_FAULT:
                # (its output is a pipe, so that it is its notes that have no place)
                raise TemporaryFull()
            if status > Status.FOUND:
                raise ToolError(said.decode("utf-8", "replace").strip() or f"the program ended with status {int(status)}", status)

    @contextlib.contextmanager
    def _started(self, words: Sequence[str], stdin: Any, stdout: Any, stderr: Any = subprocess.PIPE) -> Iterator["subprocess.Popen[bytes]"]:
        ran = self._begun(words, stdin, stdout, stderr)
        try:
            with ran:
                try:
                    yield ran
                except BaseException:
                    send_to_all([ran], signal.SIGKILL)
                    raise
        finally:
            with self._lock:
                running_now.discard(ran)

    def _begun(self, words: Sequence[str], stdin: Any, stdout: Any, stderr: Any) -> "subprocess.Popen[bytes]":
        """A run that has begun. Where there is no room for another process it waits for the other runs, though not for ever."""
        end = time.monotonic() + MOST_WAITING
        while True:
            with self._lock:
                if self._stopped:
                    raise ProgramFailed("stopped")
                try:
                    # What has begun and isn't among those that run, no signal's end of the tool would end. A session of its own has all that a
                    # wrapper begins.
                    with uninterrupted():
                        # (the program refuses words that aren't UTF-8, of which its path would be the first)
                        said = ["dwg", *words]
                        ran = subprocess.Popen(said, executable=self.path, stdin=stdin, stdout=stdout, stderr=stderr, start_new_session=True)
                        running_now.add(ran)
                    return ran
                except OSError as fault:
                    if fault.errno != errno.EAGAIN or not is_any_running() or time.monotonic() > end:
                        raise ProgramFailed(str(fault.strerror)) from None
            time.sleep(0.02)

    def besides(self) -> None:
        """What is looked at besides as long as a run goes on."""

    def stop(self) -> None:
        """Ends all runs, and lets none begin."""
        with self._lock:
            self._stopped = True
            end_running()


def ended_alone(ran: "subprocess.Popen[bytes]") -> Callable[[], bool]:
    """What tells whether a run has ended, with all of its session, which is ended with it; where the system doesn't tell, with what it can."""

    def has_ended() -> bool:
        # (what isn't known to have ended still has its number for itself)
        if ran.returncode is None and hasattr(os, "waitid"):
            if not has_ended_untaken(ran.pid):
                return False
            if not end_left(ran.pid):
                raise ProgramFailed("what it left behind can't be ended")
        return ran.poll() is not None

    return has_ended


def at_once() -> Patience:
    """The patience with a run that has little to do."""
    return Patience(float("inf"), MOST_AT_ONCE)


def size_of(source: Union[int, IO[bytes], bytes, None]) -> int:
    """How many bytes a run is given at the most."""
    if source is None or source == subprocess.DEVNULL:
        return 0
    if isinstance(source, bytes):
        return len(source)
    told = os.fstat(source if isinstance(source, int) else source.fileno())
    return min(told.st_size, LIMIT) if stat.S_ISREG(told.st_mode) else LIMIT


class Watch:
    """Sees that a run writes no more than any answer has, and takes no longer than there is patience: ProgramFailed ends it otherwise."""

    def __init__(
        self,
        command: str,
        source: Union[int, IO[bytes], bytes, None],
        number: int,
        output: Optional[IO[bytes]] = None,
        notes: Optional[IO[bytes]] = None,
        patience: Optional[Patience] = None,
        besides: Callable[[], None] = lambda: None,
    ) -> None:
        self.command, self.number, self.patience, self._besides = command, number, patience, besides
        given = size_of(source)
        self._most, self._most_noted = EACH.get(command, 0) * given, EACH_NOTED.get(command, 0) * given
        self._files = [(file, MOST_PASSED + most) for file, most in ((output, self._most), (notes, self._most_noted)) if file is not None]
        self._before, self._due = patience.computed if patience else 0.0, 0.0

    def look(self) -> None:
        """Looks at what it has written into files, and at how long it takes."""
        self._besides()
        for file, most in self._files:
            self.see(os.fstat(file.fileno()).st_size, most)
        patience = self.patience
        if patience is None:
            return
        patience.looks += 1
        patience.computed = max(patience.computed, self._before + computed_alone(self.number))
        # All processes are looked at for what it runs, and so no sooner than all processors could have computed what is left.
        if time.monotonic() >= self._due:
            patience.computed = max(patience.computed, self._before + computed_by(self.number))
            self._due = time.monotonic() + (patience.computing - patience.computed) / (os.cpu_count() or 1)
        if patience.computed >= patience.computing:
            raise TookTooLong(f"`{self.command}` takes more than {patience.computing:g} seconds")
        if patience.looks * LOOK >= patience.taking:
            raise ProgramFailed(f"`{self.command}` has no answer in {patience.taking:g} seconds")

    def see(self, count: int, most: int) -> None:
        """Sees that it has written no more than so much."""
        if count > most:
            raise ProgramFailed(f"`{self.command}` writes more than any answer has")

    def passed(self, source: int, has_ended: Callable[[], bool]) -> Iterator[bytes]:
        """Its output, in pieces, of which none is held. It has ended after the last."""
        count = 0
        for _, piece in Pipes([source], has_ended, self.look).pieces():
            count += len(piece)
            self.see(count, MOST_PASSED + self._most)
            yield piece
        self.await_end(has_ended)

    def exchanged(self, ran: "subprocess.Popen[bytes]", given: bytes, has_ended: Callable[[], bool]) -> Tuple[bytes, bytes]:
        """The output of a run that is given bytes, and the last of its notes, where these come by pipes. It has ended then."""
        out, said, noted = bytearray(), b"", 0
        sources = [stream.fileno() for stream in (ran.stdout, ran.stderr) if stream is not None]
        for source, piece in Pipes(sources, has_ended, self.look).pieces(ran.stdin, given):
            if ran.stdout is not None and source == ran.stdout.fileno():
                out += piece
                self.see(len(out), MOST_HELD + self._most)
            else:
                said, noted = (said + piece)[-MOST_NOTES:], noted + len(piece)
                self.see(noted, MOST_HELD + self._most_noted)
        self.await_end(has_ended)
        return bytes(out), said

    def await_end(self, has_ended: Callable[[], bool]) -> None:
        """Waits until it has ended."""
        await_end(self.number, has_ended, self.look)


def lines_told(pieces: Iterable[bytes]) -> Tuple[bytes, bytes, int]:
    """The first and the last line of an output that comes in pieces, and how many there are."""
    first, last, count = b"", b"", 0
    for piece in pieces:
        first = (first + piece)[:MOST_NOTES] if b"\n" not in first else first
        last = (last + piece)[-MOST_NOTES:]
        count += piece.count(b"\n")
    return first.partition(b"\n")[0], last.rstrip(b"\n").rpartition(b"\n")[2], count


def _file_of_notes() -> IO[bytes]:
    """A file without a name for notes."""
    try:
        return tempfile.TemporaryFile()
    except OSError as fault:
        raise NoTemporary(fault) from None


def ready_program(given: Optional[str]) -> Program:
    """The program that is found, which can answer at once."""
    program = Program(find_program(given))
    program.prepare()
    return program


def status_of_run(code: int, notes: bytes) -> Status:
    """The status of the program. NotBuilt where the launcher has none; ProgramFailed where it has no such status or was killed, with its last note."""
    if code == -signal.SIGXFSZ:
        return Status.WRITE_FAULT
    if code == -signal.SIGINT:
        await_interrupt()
    if code < 0:
        raise ProgramFailed(f"killed by signal {-code}")
    if code == Exit.NO_PROGRAM and notes:
        raise NotBuilt(notes)
    try:
        return Status(code)
    except ValueError:
        lines = notes.decode("utf-8", "replace").split("\n")
        said = next((line for line in reversed(lines) if line.strip()), "")
        raise ProgramFailed(f"status {code}: {said}" if said else f"status {code}") from None
