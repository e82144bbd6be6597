"""Damage to drawings that the program makes; where their parts stand is read off their bytes."""

from __future__ import annotations

from typing import List, Tuple


def number(data: bytes, place: int, size: int) -> int:
    """A number, the least significant byte first."""
    return int.from_bytes(data[place : place + size], "little")


def map_of(data: bytes) -> int:
    """Where the map begins, which stands after the objects."""
    return number(data, 44, 4)


def frames(data: bytes) -> List[Tuple[int, int]]:
    """Where each object stands, and the size of its body; the first is after the preview."""
    found, place = [], number(data, 13, 4) + 37
    while place < map_of(data):
        size = number(data, place, 2)
        found.append((place, size))
        place += 2 + size + 2
    return found


def flipped(data: bytes, place: int, mask: int = 0xFF) -> bytes:
    """A byte changed."""
    return data[:place] + bytes([data[place] ^ mask]) + data[place + 1 :]


def spoiled(data: bytes, index: int = -1) -> bytes:
    """An object changed in its middle, which its check word tells."""
    place, size = frames(data)[index]
    return flipped(data, place + 2 + size // 2)


def refusal(data: bytes, index: int = -1) -> str:
    """What is said of a drawing of which that object is changed."""
    found = frames(data)
    return f"objects {index % len(found)} at {found[index][0]}: check"


def check_word(data: bytes) -> bytes:
    """The check word of an object."""
    word = 0xC0C1
    for byte in data:
        word ^= byte
        for _ in range(8):
            word = word >> 1 ^ (0xA001 if word & 1 else 0)
    return word.to_bytes(2, "little")


def bits(data: bytes) -> str:
    """The bits of bytes."""
    return "".join(f"{byte:08b}" for byte in data)


def renamed(data: bytes, old: bytes, new: bytes) -> bytes:
    """Another text of the same length in all objects, whose check words are right."""
    for place, size in frames(data):
        end = place + 2 + size
        text = bits(data[place:end]).replace(bits(old), bits(new))
        body = int(text, 2).to_bytes(2 + size, "big")
        data = data[:place] + body + check_word(body) + data[end + 2 :]
    return data
