"""The exit statuses of the program and of the tools, and the fault that ends a tool with one."""

from __future__ import annotations

import enum
from typing import List, Tuple


class Status(enum.IntEnum):
    """The exit statuses of the program, which the tools use too where they mean the same."""

    DONE = 0
    FOUND = 1
    USAGE = 2
    REFUSED = 3
    READ_FAULT = 4
    WRITE_FAULT = 5
    NO_MEMORY = 6
    TOO_LONG = 7
    TOO_LARGE = 8


class Exit(enum.IntEnum):
    """The exit statuses that the tools have beside those of the program."""

    USAGE = 64
    NOTHING_KEPT = 65
    NOTHING_FOUND = 66
    TOO_MUCH_TEXT = 67
    NOT_AS_KEPT = 68
    NO_PROGRAM = 69
    FAILURE = 70
    EXISTS = 73
    INTERRUPTED = 130
    CLOSED_PIPE = 141


class ToolError(Exception):
    """Why a tool ends: a message of one line, and the status that it ends with."""

    def __init__(self, message: str, status: int) -> None:
        super().__init__(message)
        self.status = int(status)


# What a tool that shows one drawing ends with.
ONE_DRAWING: List[Tuple[int, str]] = [
    (Status.DONE, "done"),
    (Status.REFUSED, "the file is no drawing, as the program tells with its first fault"),
    (Status.READ_FAULT, "the file can't be read"),
    (Status.WRITE_FAULT, "the output can't be written"),
    (Status.NO_MEMORY, "the program had no memory"),
    (Status.TOO_LONG, "the file has more than 33,554,432 bytes"),
    (Exit.USAGE, "the words aren't understood, or name what isn't there"),
    (Exit.TOO_MUCH_TEXT, "an object has more than 268,435,456 bytes of text by `dwg show`, or all entities of blocks have four times as much"),
    (Exit.NO_PROGRAM, "the program dwg isn't found or gives no answer"),
    (Exit.FAILURE, "failure of the tool itself, as where a temporary file can't be written"),
    (Exit.EXISTS, "the output is the input, is there already, or is where standard output or error goes; or standard error is the input, and nothing is said"),
    (Exit.INTERRUPTED, "interrupted"),
    (Exit.CLOSED_PIPE, "nobody reads the output any more"),
]
