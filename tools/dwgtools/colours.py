"""Colours and widths of lines."""

from __future__ import annotations

from typing import Iterable

BASIC = ["#ff0000", "#ffff00", "#00ff00", "#00ffff", "#0000ff", "#ff00ff", "", "#808080", "#c0c0c0"]
SHADES = [1.0, 0.65, 0.5, 0.3, 0.15]


def colour_of(index: int, ink: str) -> str:
    """The colour of an index from 1 to 255; 7, and what is none of these, is the ink, black or white."""
    if index == 7 or not 1 <= index <= 255:
        return ink
    if index < 10:
        return BASIC[index - 1]
    if index >= 250:
        return hexadecimal([51 + (index - 250) * 40.8] * 3)
    # Twenty-four hues, a turn of 15 degrees each, in five shades; the odd ones are mixed with as much grey.
    hue, shade = divmod(index - 10, 10)
    value = 255 * SHADES[shade // 2]
    distances = [min(abs(hue - at), 24 - abs(hue - at)) for at in (0, 8, 16)]
    parts = [min(1.0, max(0.0, (8 - distance) / 4)) for distance in distances]
    return hexadecimal([value * ((1 + part) / 2 if shade % 2 else part) for part in parts])


def hexadecimal(parts: Iterable[float]) -> str:
    """A colour of three parts from 0 to 255."""
    return "#" + "".join(f"{int(part + 1e-9):02x}" for part in parts)


# The widths of lines in hundredths of a millimetre, by their number; 29 to 31 are by layer, by block and the default.
WEIGHTS = [0, 5, 9, 13, 15, 18, 20, 25, 30, 35, 40, 50, 53, 60, 70, 80, 90, 100, 106, 120, 140, 158, 200, 211]
BY_LAYER_WEIGHT, BY_BLOCK_WEIGHT, DEFAULT_WEIGHT = 29, 30, 25


def width_of(weight: int) -> int:
    """The width of a line of a number."""
    return WEIGHTS[weight] if weight < len(WEIGHTS) else DEFAULT_WEIGHT


def pixels(width: int) -> float:
    """A width in pixels; the thinnest is one pixel."""
    return max(1.0, round(width * 96 / 2540, 2))


def ink_on(ground: str) -> str:
    """Black, or white on a dark ground."""
    if not ground.startswith("#"):
        return "#ffffff" if ground == "black" else "#000000"
    red, green, blue = (int(ground[at : at + 2], 16) for at in (1, 3, 5))
    return "#ffffff" if 0.3 * red + 0.59 * green + 0.11 * blue < 128 else "#000000"
