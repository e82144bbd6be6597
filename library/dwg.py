"""The commands of `dwg` that read, over bytes in memory, by libdwg: `dwg.audit(data)` gives an `Answer`.

Each function is the command of its name: `status` is the program's exit status, `output` what it prints, and `notes` what it notes. Only want of
memory is an exception, MemoryError. Threads run at once, each in buffers of its own. The library is the one that the variable DWG_LIBRARY names,
or the one beside this file.
"""

from __future__ import annotations

import ctypes
import os
import threading
from typing import Callable, NamedTuple, Union

Data = Union[bytes, bytearray, memoryview]

TOO_SMALL, NO_MEMORY = 5, 6

# The buffers that a thread keeps for its next call have so many bytes.
KEPT_OUTPUT, KEPT_NOTES = 65536, 4096


class Answer(NamedTuple):
    """What a command answers."""

    status: int
    output: bytes
    notes: bytes


class Buffers:
    """The buffers of a call, and the sizes that it gives."""

    def __init__(self, room: int, note_room: int) -> None:
        self.output, self.notes = ctypes.create_string_buffer(room), ctypes.create_string_buffer(note_room)
        self.written, self.noted = ctypes.c_size_t(), ctypes.c_size_t()
        self.words = (self.output, room, ctypes.byref(self.written), self.notes, note_room, ctypes.byref(self.noted))


class Kept(threading.local):
    """The buffers that each thread keeps."""

    def __init__(self) -> None:
        self.buffers = Buffers(KEPT_OUTPUT, KEPT_NOTES)


_library = ctypes.CDLL(os.environ.get("DWG_LIBRARY") or os.path.join(os.path.dirname(os.path.abspath(__file__)), "libdwg.so"))
_kept = Kept()


def _command(word: str) -> Callable[[Data], Answer]:
    """The function of a command."""
    call = getattr(_library, f"dwg_{word}")
    number, place = ctypes.c_size_t, ctypes.POINTER(ctypes.c_size_t)
    call.argtypes = [ctypes.c_char_p, number, ctypes.c_char_p, number, place, ctypes.c_char_p, number, place]
    call.restype = ctypes.c_uint8

    def answer(data: Data) -> Answer:
        given, buffers = bytes(data), _kept.buffers
        status = call(given, len(given), *buffers.words)
        if status == TOO_SMALL:
            buffers = Buffers(buffers.written.value or 1, buffers.noted.value or 1)
            status = call(given, len(given), *buffers.words)
        if status == NO_MEMORY:
            raise MemoryError(f"dwg_{word}")
        return Answer(status, ctypes.string_at(buffers.output, buffers.written.value), ctypes.string_at(buffers.notes, buffers.noted.value))

    answer.__name__ = answer.__qualname__ = word
    answer.__doc__ = f"What `dwg {word}` answers to these bytes."
    return answer


sections, classes, show, rewrite, carry = map(_command, ("sections", "classes", "show", "rewrite", "carry"))
audit, appdata, certify, accept, recover = map(_command, ("audit", "appdata", "certify", "accept", "recover"))
