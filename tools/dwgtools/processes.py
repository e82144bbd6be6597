"""The runs of the program that have begun, each a session of processes, and how much these have computed."""

from __future__ import annotations

import contextlib
import os
import signal
import subprocess
import time
from dataclasses import dataclass
from typing import Iterable, Iterator, List, Optional, Set, Union

# The runs of the program that have begun: what a signal leaves of them, the end of the tool ends.
running_now: Set["subprocess.Popen[bytes]"] = set()


@dataclass(eq=False)
class Session:
    """A process of the tool's own with all that it runs: its number, and its status once its end is known."""

    pid: int
    returncode: Optional[int] = None


Running = Union["subprocess.Popen[bytes]", Session]

# The processes of the tool that run the program by themselves, in sessions of their own.
sessions_now: Set[Session] = set()


def is_any_running() -> bool:
    """Whether any session runs of which the end isn't known."""
    return bool(running_now) or any(one.returncode is None for one in set(sessions_now))


def all_running() -> List[Running]:
    """All sessions that have begun."""
    return [*running_now, *sessions_now]


@dataclass(frozen=True)
class Process:
    """A process: its number, its session, how many seconds it has computed, with what it began and has seen end, and whether it has ended and nobody
    has taken note of that."""

    number: int
    session: int
    computed: float
    has_ended: bool


def all_processes() -> Iterator[Process]:
    """The processes that there are; none where the system doesn't tell."""
    with contextlib.suppress(OSError):
        for name in filter(str.isdigit, os.listdir("/proc")):
            with contextlib.suppress(OSError, ValueError, IndexError):
                yield _process(int(name))


def _process(number: int) -> Process:
    with open(f"/proc/{number}/stat", "rb") as told:
        # (its second field is a name, which may have anything)
        fields = told.read().rpartition(b")")[2].split()
    return Process(number, int(fields[3]), sum(map(int, fields[11:15])) / os.sysconf("SC_CLK_TCK"), fields[0] in (b"Z", b"X"))


def send_to_all(runs: Iterable[Running], number: int) -> None:
    """Sends a signal to runs and all that they have begun, each of which is a session. One of which the end is known is passed: its number may be
    another's."""
    sessions = {ran.pid for ran in runs if ran.returncode is None}
    for session in sessions:
        with contextlib.suppress(OSError):
            os.killpg(session, number)
    # Some, as `timeout`, make themselves a group of their own in the session.
    for process in all_processes() if sessions else ():
        if process.session in sessions:
            with contextlib.suppress(OSError):
                os.kill(process.number, number)


def end_running() -> None:
    """Ends all runs."""
    send_to_all(all_running(), signal.SIGKILL)


def has_ended_untaken(number: int) -> bool:
    """Whether a child has ended, of which no note is taken: until then its number is nobody else's, nor that of its session."""
    return os.waitid(os.P_PID, number, os.WEXITED | os.WNOHANG | os.WNOWAIT) is not None


# How many seconds what a run left behind may take for the last of an answer, as `tee` does, before it is ended; and how many to end.
MOST_LEFT, MOST_ENDING = 2, 30


def end_left(session: int) -> bool:
    """Waits a while for what is left of a session of whose first process no note is taken, though it has ended, and ends it then; whether nothing is
    left."""
    begin = time.monotonic()
    while True:
        left = [process.number for process in all_processes() if process.session == session and not process.has_ended]
        took = time.monotonic() - begin
        if not left or took > MOST_LEFT + MOST_ENDING:
            return not left
        for number in left if took > MOST_LEFT else ():
            with contextlib.suppress(OSError):
                os.kill(number, signal.SIGKILL)
        time.sleep(0.01)


def computed_by(session: int) -> float:
    """How many seconds the processes of a session have computed; none where the system doesn't tell."""
    return sum(process.computed for process in all_processes() if process.session == session)


def processors() -> int:
    """How many processors this process may use."""
    return len(os.sched_getaffinity(0)) if hasattr(os, "sched_getaffinity") else os.cpu_count() or 1


def computed_alone(number: int) -> float:
    """How many seconds a process has computed, with what it began and has seen end; none where the system doesn't tell."""
    with contextlib.suppress(OSError, ValueError, IndexError):
        return _process(number).computed
    return 0.0
