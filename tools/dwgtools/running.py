"""How a tool begins and ends: its streams, its signals, its status."""

from __future__ import annotations

import contextlib
import os
import sys
from typing import Callable, NoReturn

from .escapes import one_line
from .outputs import remove_unplaced
from .processes import end_running
from .signals import Ended, ignore_signals, take_signals
from .statuses import Exit, Status, ToolError
from .streams import await_streams, hush_where_drawing, open_missing_streams, regain_error, tell


def answered(main: Callable[[], int]) -> int:
    """The status of a tool, whose output is all written; the words that ask for help end it by themselves."""
    try:
        status = int(main())
    except SystemExit as end:
        status = end.code if isinstance(end.code, int) else 0
    sys.stdout.flush()
    return status


def _ran(main: Callable[[], int]) -> int:
    """The status of a tool: what it says of each failure is a message of one line."""
    status: int = Exit.FAILURE
    try:
        take_signals()
        return answered(main)
    except ToolError as fault:
        tell(str(fault))
        status = fault.status
    except BrokenPipeError:
        return Exit.CLOSED_PIPE
    except MemoryError:
        tell("no memory was to be had")
        status = Status.NO_MEMORY
    except OSError as fault:
        where = f"{one_line(os.fsdecode(fault.filename))}: " if isinstance(fault.filename, (str, bytes)) else ""
        tell(f"{where}{fault.strerror or fault}")
    except Exception as fault:  # pylint: disable=broad-except
        tell(f"failure of the tool itself: {type(fault).__name__}: {fault}")
    with contextlib.suppress(OSError, ValueError):
        sys.stdout.flush()
    return status


def run_tool(main: Callable[[], int]) -> NoReturn:
    """Runs a tool and ends with its status, and never by a traceback. Its scripts begin with interrupts blocked, which this lets in."""
    regain_error()
    open_missing_streams()
    await_streams()
    hush_where_drawing()
    try:
        status = _ran(main)
        ignore_signals()
    except KeyboardInterrupt:
        status = Exit.INTERRUPTED
    except Ended as end:
        status = end.status
    end_running()
    remove_unplaced()
    # The end of Python itself would write what is left of the output: it waits where nobody reads, and has a status of its own where that fails.
    os._exit(int(status))
