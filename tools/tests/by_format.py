"""The smallest file with one DICTIONARY, written by docs/FORMAT.md alone: nothing of the program, of the tools or of bench is used here."""

from __future__ import annotations


# The versions (File header).
OLDER, NEWER = b"AC1014", b"AC1015"


def little(value: int, size: int) -> bytes:
    """A number, the least significant byte first."""
    return value.to_bytes(size, "little")


def check_word(word: int, data: bytes) -> int:
    """The check word of bytes (Check words)."""
    for byte in data:
        for at in range(8):
            differs = (word ^ byte >> at) & 1
            word = word >> 1 ^ (0xA001 if differs else 0)
    return word


def complemented(data: bytes) -> bytes:
    """Every byte complemented."""
    return bytes(byte ^ 0xFF for byte in data)


def bits(data: bytes) -> str:
    """The bits of bytes, the most significant of each first (Bits)."""
    return "".join(f"{byte:08b}" for byte in data)


def short(value: int) -> str:
    """A BS below 256 (Bit codes)."""
    return "10" if value == 0 else "01" + bits(little(value, 1))


def handle_code(code: int, value: int) -> str:
    """An H (References)."""
    count = (value.bit_length() + 7) // 8
    return f"{code:04b}{count:04b}" + bits(value.to_bytes(count, "big"))


def dictionary(handle: int, version: bytes = NEWER) -> str:
    """The bits of a DICTIONARY without items whose owner and extension dictionary are null, with their padding (Objects, Common parts and bodies)."""
    number, own = short(42), handle_code(0, handle)
    no_applications, no_reactors, no_items, cloning, hard_owner = "10", "10", "10", short(0), bits(little(0, 1))
    references = handle_code(4, 0) + handle_code(3, 0)
    if version == OLDER:
        before, after = number + own + no_applications, no_reactors + no_items + hard_owner
    else:
        before, after = number, own + no_applications + no_reactors + no_items + cloning + hard_owner
    unpadded = before + bits(little(len(before) + 32 + len(after), 4)) + after + references
    return unpadded + "0" * (-len(unpadded) % 8)


def frame(body: str) -> bytes:
    """The frame of an object whose body is shorter than 32,768 bytes (Objects)."""
    sized = little(len(body) // 8, 2) + int(body, 2).to_bytes(len(body) // 8, "big")
    return sized + little(check_word(0xC0C1, sized), 2)


def framed(sentinel: str) -> bytes:
    """A framed section without content (Framed sections)."""
    begin, size = bytes.fromhex(sentinel), little(0, 4)
    return begin + size + little(check_word(0xC0C1, size), 2) + complemented(begin)


def preview() -> bytes:
    """A preview section without a picture (Preview section)."""
    begin = bytes.fromhex("1F 25 6D 07 D4 36 28 28 9D 57 CA 3F 9D 44 10 2B")
    return begin + little(1, 4) + little(0, 1) + complemented(begin)


def modular(value: int, last: int) -> bytes:
    """An MC, or a signed one that isn't negative: how many values the last byte has makes the difference (Bit codes)."""
    found = bytearray()
    while value >= last:
        found.append(0x80 | value & 0x7F)
        value >>= 7
    return bytes([*found, value])


def page(pairs: bytes) -> bytes:
    """A page of the map (Object map)."""
    sized = (2 + len(pairs)).to_bytes(2, "big") + pairs
    return sized + check_word(0xC0C1, sized).to_bytes(2, "big")


def header(version: bytes, preview_place: int, *locators: bytes) -> bytes:
    """The file header of three locators (File header)."""
    prefix = version + bytes(7) + little(preview_place, 4) + bytes(2) + little(0, 2) + little(len(locators), 4) + b"".join(locators)
    return prefix + little(check_word(0, prefix) ^ 0xA598, 2) + bytes.fromhex("95 A0 4E 28 99 82 1A E5 5E 41 E0 5F 9D 3A 4D 00")


def locator(number: int, place: int, part: bytes) -> bytes:
    """A locator (File header)."""
    return little(number, 1) + little(place, 4) + little(len(part), 4)


def file_of(handle: int, version: bytes = NEWER) -> bytes:
    """The canonical file of a drawing with that DICTIONARY alone (Drawings)."""
    variables = framed("CF 7B 1F 23 FD DE 38 A9 5F 7C 68 B8 4E 6D 33 5F")
    classes = framed("8D A1 C4 B8 C4 A9 F8 C5 C0 DC F4 5F E7 CF B6 8A")
    shown, one = preview(), frame(dictionary(handle, version))
    begin = 43 + 9 * 3
    classes_at = begin + len(variables)
    preview_at = classes_at + len(classes)
    object_at = preview_at + len(shown)
    map_at = object_at + len(one)
    pages = page(modular(handle, 128) + modular(object_at, 64)) + page(b"")
    locators = locator(0, begin, variables), locator(1, classes_at, classes), locator(2, map_at, pages)
    return header(version, preview_at, *locators) + variables + classes + shown + one + pages
