"""The signals that end or stop a tool, and what they wait for."""

from __future__ import annotations

import contextlib
import os
import signal
import sys
import threading
import time
from typing import Iterator, List

from .processes import all_running, send_to_all


def _pause(number: int, _: object) -> None:
    """Stops as a terminal asks for, with all that runs, which the terminal doesn't stop; and goes on with it."""
    send_to_all(all_running(), signal.SIGSTOP)
    signal.signal(number, signal.SIG_DFL)
    # (what no shell would wake up again isn't stopped)
    os.kill(os.getpid(), number)
    signal.signal(number, _pause)
    send_to_all(all_running(), signal.SIGCONT)


# How many of `uninterrupted` the main thread, which alone takes signals, is in; and the signals that came meanwhile.
_depth: List[None] = []
_waiting: List[int] = []


@contextlib.contextmanager
def uninterrupted() -> Iterator[None]:
    """Lets no signal end the tool between steps that belong together; it ends it after them.

    No signal is blocked: a program that begins meanwhile would have it blocked for ever.
    """
    if threading.current_thread() is not threading.main_thread():
        yield
        return
    _depth.append(None)
    try:
        yield
    finally:
        _depth.pop()
        if _waiting and not _depth:
            _end(_waiting[0], None)


ENDING = (signal.SIGINT, signal.SIGTERM, signal.SIGHUP, signal.SIGQUIT)

# Whether this process was interrupted.
_interrupted: List[bool] = []


def _pass(_number: int, _frame: object) -> None:
    """Does nothing. Of a signal that waits to be handled and is ignored meanwhile Python would print a fault."""


def ignore_signals() -> None:
    """Ends the tool by no signal any more."""
    for number in ENDING:
        if signal.getsignal(number) != signal.SIG_IGN:
            signal.signal(number, _pass)


class Ended(BaseException):
    """A signal ended the tool."""

    def __init__(self, number: int) -> None:
        super().__init__(number)
        self.status = 128 + number


def _end(number: int, _: object) -> None:
    """Ends the tool once: a second signal doesn't disturb what the first makes it tidy. What may not be parted is done before."""
    if _depth:
        _waiting.append(number)
        return
    ignore_signals()
    if number == signal.SIGINT:
        _interrupted.append(True)
        raise KeyboardInterrupt
    raise Ended(number)


def _once_more(dropped: "sys.UnraisableHookArgs") -> None:
    """Has what a signal ends the tool by end it a moment later, where Python dropped it, as it does at the end of an object."""
    fault = dropped.exc_value
    if not isinstance(fault, (KeyboardInterrupt, Ended)):
        sys.__unraisablehook__(dropped)
        return
    number = fault.status - 128 if isinstance(fault, Ended) else signal.SIGINT
    signal.signal(signal.SIGALRM, lambda *_: _end(number, None))
    signal.setitimer(signal.ITIMER_REAL, 0.001)


def take_signals() -> None:
    """Ends or stops the tool by each signal that isn't ignored already, and lets in an interrupt that waited while Python began."""
    # Where it is ignored, as who began the tool may have it, the system keeps no status of a child, and subprocess would take each for 0.
    signal.signal(signal.SIGCHLD, signal.SIG_DFL)
    sys.unraisablehook = _once_more
    for number in (*ENDING, signal.SIGTSTP):
        if signal.getsignal(number) != signal.SIG_IGN:
            signal.signal(number, _end if number in ENDING else _pause)
    signal.pthread_sigmask(signal.SIG_UNBLOCK, {signal.SIGINT})


def await_interrupt() -> None:
    """Waits a moment for the interrupt that ended the program: who sends it to both may reach the program before the tool."""
    for _ in range(50):
        if _interrupted:
            raise KeyboardInterrupt
        time.sleep(0.01)
