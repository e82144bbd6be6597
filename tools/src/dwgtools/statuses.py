"""The exit statuses of the program and of the tools, and the fault that ends a tool with one."""

from __future__ import annotations

import enum


class Status(enum.IntEnum):
    """The exit statuses of the program."""

    DONE = 0
    FOUND = 1
    USAGE = 2
    REFUSED = 3
    READ_FAULT = 4
    WRITE_FAULT = 5
    NO_MEMORY = 6
    TOO_LONG = 7
    TOO_LARGE = 8


class Exit(enum.IntEnum):
    """The exit statuses of the tools."""

    WELL = 0
    FOUND = 1
    WORDS = 2
    DAMAGED = 3
    NOTHING_FOUND = 66
    NOT_AS_KEPT = 68
    FAILURE = 70
    CLOSED_PIPE = 141


class ToolError(Exception):
    """Why a tool ends: a message of one line, its subject first, and the status."""

    def __init__(self, message: str, status: int = Exit.FAILURE) -> None:
        super().__init__(message)
        self.status = int(status)
