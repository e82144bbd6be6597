#!/usr/bin/env python3
"""Writes the inputs of bench/run: large drawings and hostile maps, each at two sizes.

It stands apart from the program: check words, codes and layout are written here a second time.
"""

import sys
from pathlib import Path

TABLE = []
for low in range(256):
    word = low
    for _ in range(8):
        word = (word >> 1) ^ 0xA001 if word & 1 else word >> 1
    TABLE.append(word)

HEADER_MASKS = {3: 0xA598, 4: 0x8101, 5: 0x3CC4, 6: 0x8461}
HEADER_SENTINEL = bytes.fromhex("95A04E2899821AE55E41E05F9D3A4D00")
VARIABLES = bytes.fromhex("CF7B1F23FDDE38A95F7C68B84E6D335F")
CLASSES = bytes.fromhex("8DA1C4B8C4A9F8C5C0DCF45FE7CFB68A")
PREVIEW = bytes.fromhex("1F256D07D43628289D57CA3F9D44102B")


def check(word, data):
    for byte in data:
        word = (word >> 8) ^ TABLE[(word ^ byte) & 0xFF]
    return word


def framed(sentinel, content):
    sized = len(content).to_bytes(4, "little") + content
    end = bytes(255 - byte for byte in sentinel)
    return sentinel + sized + check(0xC0C1, sized).to_bytes(2, "little") + end


def header(locators):
    prefix = b"AC1015" + bytes(7) + bytes(4) + bytes(2) + bytes(2)
    prefix += len(locators).to_bytes(4, "little")
    for number, place, size in locators:
        prefix += bytes([number]) + place.to_bytes(4, "little") + size.to_bytes(4, "little")
    word = check(0, prefix) ^ HEADER_MASKS[len(locators)]
    return prefix + word.to_bytes(2, "little") + HEADER_SENTINEL


def with_preview_at(data, place):
    """A file whose header says that the preview is elsewhere, with its check word mended."""
    count = int.from_bytes(data[21:25], "little")
    prefix = data[:13] + place.to_bytes(4, "little") + data[17 : 25 + 9 * count]
    word = check(0, prefix) ^ HEADER_MASKS[count]
    return prefix + word.to_bytes(2, "little") + data[27 + 9 * count :]


def preview(entries, further):
    """A preview section of entries, each a code, a place and a size, and of further bytes."""
    content = bytes([len(entries)])
    content += b"".join(bytes([code]) + place.to_bytes(4, "little") + size.to_bytes(4, "little") for code, place, size in entries)
    content += further
    return PREVIEW + len(content).to_bytes(4, "little") + content + bytes(255 - byte for byte in PREVIEW)


def with_picture(data, picture):
    """A file with a preview section after its end, whose one entry names a picture."""
    return with_preview_at(data, len(data)) + preview([(2, len(data) + 30, len(picture))], picture)


def modular(value):
    out = bytearray()
    while value >= 128:
        out.append(128 | value & 127)
        value >>= 7
    out.append(value)
    return bytes(out)


def signed_modular(value):
    negative = 64 if value < 0 else 0
    value = abs(value)
    out = bytearray()
    while value >= 64:
        out.append(128 | value & 127)
        value >>= 7
    out.append(negative | value)
    return bytes(out)


def page(pairs):
    sized = (2 + len(pairs)).to_bytes(2, "big") + pairs
    return sized + check(0xC0C1, sized).to_bytes(2, "big")


def pages(pairs, most):
    """The map of the pairs in the order given, with pages of at most so many bytes of pairs."""
    out, body, last = bytearray(), bytearray(), (0, 0)
    for handle, place in pairs:
        # A step of the handle can't go back: a lesser handle begins a page.
        if handle < last[0]:
            out += page(bytes(body))
            body, last = bytearray(), (0, 0)
        spelled = modular(handle - last[0]) + signed_modular(place - last[1])
        if len(body) + len(spelled) > most:
            out += page(bytes(body))
            body = bytearray()
            spelled = modular(handle) + signed_modular(place)
        body += spelled
        last = (handle, place)
    if body:
        out += page(bytes(body))
    return bytes(out) + page(b"")


def little(value, size):
    """The bits of a value in so many bytes, the least first."""
    return "".join(f"{byte:08b}" for byte in value.to_bytes(size, "little"))


def short(value):
    """A BITSHORT."""
    if value == 0:
        return "10"
    return "01" + little(value, 1) if value < 256 else "00" + little(value, 2)


def long(value):
    """A BITLONG."""
    if value == 0:
        return "10"
    return "01" + little(value, 1) if value < 256 else "00" + little(value, 4)


def reference(code, value):
    """A reference by its code and the bytes of its value."""
    count = (value.bit_length() + 7) // 8
    return f"{code:04b}{count:04b}" + "".join(f"{byte:08b}" for byte in value.to_bytes(count, "big"))


def packed(bits):
    """The bytes of bits, padded with zeros."""
    size = (len(bits) + 7) // 8
    return int(bits + "0" * (8 * size - len(bits)), 2).to_bytes(size, "big") if bits else b""


def modular_short(value):
    """A size in units of fifteen bits, the least first."""
    out = bytearray()
    while value >= 0x8000:
        out += (0x8000 | value & 0x7FFF).to_bytes(2, "little")
        value >>= 15
    return bytes(out + value.to_bytes(2, "little"))


def framed_body(body):
    sized = modular_short(len(body)) + body
    return sized + check(0xC0C1, sized).to_bytes(2, "little")


def frame(handle, filler):
    """A small object: type number 200, no meaning, with so many bytes after its head."""
    return framed_body(packed(short(200) + little(0, 4) + reference(0, handle)) + bytes(filler))


def entity(number, handle, reactors, rest, references):
    """An entity with its common part, so many reactors said and no more, bits of its own, and the references given."""
    own = reference(0, handle)
    common = short(0) + "0" + "10" + long(reactors) + "1" + "11" + "01" + "00" + "00" + short(0) + little(29, 1)
    size = len(short(number)) + 32 + len(own) + len(common) + len(rest)
    return framed_body(packed(short(number) + little(size, 4) + own + common + rest + references))


def class_record(number):
    """A class of entities without names."""
    return short(number) + short(0) + short(0) * 3 + "0" + short(0x1F2)


def drawing(objects, map_bytes, class_bits=""):
    """A file of these bytes of objects, whose map is made for the place where they begin."""
    variables, classes = framed(VARIABLES, b""), framed(CLASSES, packed(class_bits))
    start = 70 + len(variables) + len(classes)
    made = map_bytes(start)
    locators = [(0, 70, len(variables)), (1, 70 + len(variables), len(classes)), (2, start + len(objects), len(made))]
    return header(locators) + variables + classes + objects + made


def frames_and_places(count, frame_of):
    """The frames of so many handles, and for each the pair of its handle and its place among them."""
    frames, places, place = [], [], 0
    for handle in range(1, count + 1):
        one = frame_of(handle)
        frames.append(one)
        places.append((handle, place))
        place += len(one)
    return b"".join(frames), places


def in_order(frames, places, class_bits=""):
    """A file of frames with a map in their order."""
    return drawing(frames, lambda start: pages([(h, start + p) for h, p in places], 2030), class_bits)


def many_objects(count):
    return in_order(*frames_and_places(count, lambda handle: frame(handle, 32)))


def plain_entities(count):
    """Entities with a common part, two reactors each, bits of their own and a reference more."""
    references = reference(4, 1) + reference(4, 2) + reference(3, 0) + reference(5, 16) + reference(5, 17)
    return in_order(*frames_and_places(count, lambda handle: entity(45, handle, 2, "101" * 40, references)))


def plain_of_classes(count):
    """As many classes as entities, whose types are numbers of classes, or of none in one of thirteen."""
    classes = "".join(class_record(500 + i % 60_000) for i in range(count))
    references = reference(3, 0) + reference(5, 16)
    of_class = lambda handle: entity(500 + handle * 7 % 65_000, handle, 0, "1", references)
    return in_order(*frames_and_places(count, of_class), classes)


def many_reactors(count):
    """One entity that refers to so many reactors, and another that says so and has none."""
    references = reference(4, 16) * count + reference(3, 0) + reference(5, 16)
    said = lambda handle: entity(45, handle, count, "1", references if handle == 1 else "")
    return in_order(*frames_and_places(2, said))


def lines(count):
    """Lines, each with words of its own, z words 0 and no thickness."""
    references = reference(3, 0) + reference(5, 16)
    word = lambda value: little(0x4050000000000000 + value, 8)
    rest = lambda handle: "1" + word(handle) + "11" + word(handle + 1) + word(2 * handle) + "00" + "1" + "1"
    return in_order(*frames_and_places(count, lambda handle: entity(19, handle, 0, rest(handle), references)))


def many_points(count):
    """One lightweight polyline of so many equal points, and another that says so and has none."""
    references = reference(3, 0) + reference(5, 16)
    points = little(0, 16) + "0000" * (count - 1)
    said = lambda handle: entity(77, handle, 0, short(0) + long(count) + (points if handle == 1 else ""), references)
    return in_order(*frames_and_places(2, said))


def descending_map(count):
    """Small objects with a map whose handles descend: a page for each pair."""
    frames, places = frames_and_places(count, lambda handle: frame(handle, 0))
    places.reverse()
    return drawing(frames, lambda start: pages([(h, start + p) for h, p in places], 2030))


def one_place(count):
    """Handles that ascend, all at the place of the first frame: refused at the second pair, after the whole map."""
    return drawing(frame(1, 0), lambda start: pages([(h, start) for h in range(1, count + 1)], 65533))


def one_handle_last(count):
    """Handles that ascend and the first of them again at the end of the map."""
    return drawing(frame(1, 0), lambda start: pages([(h, start) for h in range(1, count + 1)] + [(1, start)], 65533))


def extended(application, content):
    """Application data: how many bytes, whose they are, the bytes."""
    return short(len(content)) + reference(5, application) + "".join(f"{byte:08b}" for byte in content)


def dictionary(handle, owner, items, applications=""):
    """A DICTIONARY with its owner, what its items, all of one name, lead to, and its application data."""
    own = reference(0, handle)
    name = short(1) + little(65, 1)
    main = applications + short(0) + long(0) + long(len(items)) + short(0) + little(0, 1) + name * len(items)
    references = reference(4, owner) + reference(3, 0) + "".join(reference(2, item) for item in items)
    size = len(short(42)) + 32 + len(own) + len(main)
    return framed_body(packed(short(42) + little(size, 4) + own + main + references))


def owner_path(count):
    """DICTIONARYs, each owned by the next and its only item; the last is a root."""
    def said(handle):
        owner = handle + 1 if handle < count else 0
        return dictionary(handle, owner, [handle - 1] if handle > 1 else [])
    return in_order(*frames_and_places(count, said))


def many_claims(count):
    """One DICTIONARY of so many items that all lead to another, which is its own."""
    said = lambda handle: dictionary(handle, 0 if handle == 1 else 1, [2] * count if handle == 1 else [])
    return in_order(*frames_and_places(2, said))


def named_object(handle):
    """An item of extended data that names an object."""
    return b"\x05" + handle.to_bytes(8, "big")


def one_with_items(count):
    """One DICTIONARY with so many items in its extended data, as many in each application data as it can have; each names the DICTIONARY."""
    most = 65_535 // 9
    runs = [min(most, count - first) for first in range(0, count, most)]
    data = "".join(extended(1, named_object(1) * run) for run in runs)
    return in_order(*frames_and_places(1, lambda handle: dictionary(handle, 0, [], data)))


def five_items_each(count):
    """DICTIONARYs, each with five items in its extended data: a text, itself, the first of them, a real number and a short one."""
    items = lambda handle: (
        b"\x00\x03\x1e\x00KEY" + named_object(handle) + named_object(1) + b"\x28" + bytes(6) + b"\xf0\x3f" + b"\x46" + (handle % 65_536).to_bytes(2, "little")
    )
    return in_order(*frames_and_places(count, lambda handle: dictionary(handle, 0, [], extended(1, items(handle)))))


def one_byte(count):
    """No drawing, but bytes that say of each place that a frame of 32,639 bytes begins there."""
    return b"\x7F" * count


def lost_page(count):
    """Lines, and a wrong check word of the first page of their map: its objects are found by the scan."""
    data = bytearray(lines(count))
    place = int.from_bytes(data[44:48], "little")
    end = place + int.from_bytes(data[place : place + 2], "big")
    data[end] ^= 0xFF
    return bytes(data)


def begin_sentinels(count):
    """No drawing, but begin sentinels of the header variables, each with a length that leads to the end of the input."""
    size = 36 * count
    sections = (VARIABLES + (size - 36 * (at + 1)).to_bytes(4, "little") + bytes(16) for at in range(count))
    return b"".join(sections) + bytes(255 - byte for byte in VARIABLES)


def bytes_between(word, wanted):
    """The two bytes that bring a check word to the one that is wanted."""
    second = next(at for at in range(256) if TABLE[at] >> 8 == wanted >> 8)
    low = (wanted ^ TABLE[second]) & 0xFF
    first = next(at for at in range(256) if TABLE[at] >> 8 == low)
    return bytes([(word ^ first) & 0xFF, second ^ (word >> 8 ^ TABLE[first]) & 0xFF])


def nested_frames(size, version, reactors):
    """DICTIONARYs with right check words, each in the one before: half of these bytes are references of all, and none stands after them.

    Two bytes of each bring the check word to where it began, so all have one word there, and after it 0 before each byte 0.
    """
    head = 28 if version == "AC1015" else 24
    count = size // 2 // (head + 3)
    references = bytes(size // 2 - 1) + b"\x7F"
    out = bytearray()
    for at in range(count):
        behind = (count - at) * (head + 2) - 4
        before = short(42) + (little(8 * behind, 4) if version == "AC1015" else "") + f"{0:04b}{3:04b}{at + 1:024b}" + short(0)
        own = before + (little(8 * behind, 4) if version == "AC1014" else "") + long(reactors)
        long_form = behind + len(references) + 2 + count - at - 2
        sized = (0x8000 | long_form & 0x7FFF).to_bytes(2, "little") + (long_form >> 15).to_bytes(2, "little")
        begun = sized + packed(own).ljust(head - 4, b"\x00")
        out += begun + bytes_between(check(0xC0C1, begun), 0xC0C1)
    return bytes(out) + references + check(0xC0C1, references).to_bytes(2, "little") + bytes(count)


def nested(size):
    """No drawing, but frames in each other, each of which turns out to have no form by its last reference."""
    return nested_frames(size, "AC1015", 0)


def nested_older(size):
    """The same for AC1014, which the first bytes alone name."""
    return b"AC1014" + nested_frames(size, "AC1014", 0)


def nested_reactors(size):
    """The same with a header and an empty map, whose check word is wrong; here the references are those of reactors."""
    return drawing(nested_frames(size, "AC1015", size), lambda start: page(b"")[:2] + bytes(2))


INPUTS = {
    "objects": (many_objects, (100_000, 200_000)),
    "plain": (plain_entities, (100_000, 200_000)),
    "classes": (plain_of_classes, (100_000, 200_000)),
    "reactors": (many_reactors, (1_000_000, 2_000_000)),
    "lines": (lines, (100_000, 200_000)),
    "points": (many_points, (1_000_000, 2_000_000)),
    "descending": (descending_map, (150_000, 300_000)),
    "owner-path": (owner_path, (100_000, 200_000)),
    "claims": (many_claims, (100_000, 200_000)),
    "items": (one_with_items, (500_000, 1_000_000)),
    "five-items": (five_items_each, (100_000, 200_000)),
    "one-place": (one_place, (1_500_000, 3_000_000)),
    "repeated": (one_handle_last, (1_500_000, 3_000_000)),
    "one-byte": (one_byte, (1_048_576, 2_097_152)),
    "lost-page": (lost_page, (100_000, 200_000)),
    "sentinels": (begin_sentinels, (25_000, 50_000)),
    "nested": (nested, (44_000, 88_000)),
    "nested-older": (nested_older, (44_000, 88_000)),
    "nested-reactors": (nested_reactors, (44_000, 88_000)),
}

if __name__ == "__main__":
    folder = Path(sys.argv[1])
    for name, (make, sizes) in INPUTS.items():
        for size in sizes:
            (folder / f"{name}-{size}.dwg").write_bytes(make(size))
