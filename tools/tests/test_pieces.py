"""A text of `show` that is read piece by piece gives what it gives line by line, whatever is in it, and so does JSON by fragments."""

from __future__ import annotations

import io
import random
import unittest
import unittest.mock
from typing import Any, Callable, Iterator, List, Tuple

import test_limits
from made import PROGRAM

from dwgtools import show
from dwgtools.json_lines import Lines
from dwgtools.json_values import Speaker
from dwgtools.names import Names
from dwgtools.pieces import names_in, objects_in
from dwgtools.show import Lists, Object, read_objects, read_prefix
from dwgtools.statuses import ToolError
from dwgtools.values import BadText, Text

assert PROGRAM

# What texts begin with: some have what JSON escapes, or what isn't decoded, and in some letters are escaped.
ENDS = ("T%", '":', "\\5cU+4E2D", "\\81\\5c")

# Objects of which many lines are the same, and some are in no drawing.
OBJECTS = (
    """object 10 LAYER typed 51
  entry.name "W\\fcnde"
  colour 256
object 11 LAYER typed 51
  entry.name "\\81"
  colour 0
"""
    + test_limits.LISTS
    + """object 21 3DFACE typed 28
  mode 2
  invisible 0
  colour 0
  first 3FF0000000000000 7FF0000000000000 8000000000000000
  invisible 5
object 23 SEQEND typed 6
object 24 UNKNOWN raw 300
  bytes 1234567890123456
  a[0].bytes 00ff
  graphic -
object 30 TEXT typed 1
  owner 4.13
  items[0].name "\\5cU+4E2D"
  items[0].target 2.0
  lines[0] "\\5cU+4E2D"
  text.text "\\5cM+1955C %"
object 31 TEXT typed 1
  owner 4.1
  links.next 5.11
  style 5.10
  text ".b"
  owner 4.2
  layer 5.12
"""
    + "".join(
        f"""object 25{index:X} TEXT typed 1
  colour {256 * (index % 2)}
  linetype_scale {"3FF0000000000000" if index % 7 else "7FF0000000000000"}
  layer 5.{16 + index % 3:X}
  insertion 40505E8885DB000{index % 8} {"0000000000000000" if index % 3 else "8000000000000000"}
  bytes 1234567890123456
  text "{ENDS[index % 4]}{index % 10}"
"""
        for index in range(16)
    )
    + test_limits.polyline_text(4, equal=False, bulges=[1.0, 0.1]).replace("object 31", "object 270")
    + "".join(test_limits.polyline_text(2).replace("object 31", f"object {handle:X}") for handle in range(0x333, 0x343))
)

# Lines that a text may have in some place, most of which no text has.
ODD = """|x|  |   a 1|  a|  a |  a  1|	a 1|  colour 0|  colour 256|  colour 00|  type 5|  object.a 5|  links.next 4.1F|  links 1|  a[0] 1|  a[1] 1|  a[0].b 1|  a[x] 1
  A 1|  a%s 1|  a \udcff|  a "\udcff"|  a "|  a ""|  a 5.g|  a .5|  a 5.0001F|  a 12.1|  bytes 0g|  bytes 0|  a 4050E9DAB1D1000|  a 4050e9dab1d10000|  a 0x50E9DAB1D10000
  a 7FF8000000000001 0000000000000000|  a 00012|  a 12345678901|  a 1\r|  entry.name "N"|  entry.name 5|object 7 LAYER typed 51|object  8 LAYER typed 51|object 50 LAYER typed 51
object 50 layer typed 51|object 050 LAYER typed 51|object ab LAYER typed 51|object 50 LAYER strange 51|object 50 LAYER typed 5x|object zz LAYER typed 5|object 50 typed 5
object 8000000000000000 LAYER typed 51|  invisible 1|  interest 0000000000000000|  texts 00FF|  text_unescaped 1""".replace("\n", "|").split("|")


def changed(text: bytes, chance: random.Random) -> bytes:
    """A text in which some lines are others, or are missing."""
    lines = text.split(b"\n")
    for _ in range(chance.choice((1, 1, 2, 3))):
        at = chance.randrange(4, len(lines))
        odd = chance.choice([*ODD, lines[at].decode("utf-8", "surrogateescape") + chance.choice((" ", "1", "\r"))]).encode("utf-8", "surrogateescape")
        lines[at : at + chance.choice((0, 1, 1))] = chance.choice(([odd], [odd], [], [lines[at], lines[at]], lines[at : at + 1]))
    data = b"\n".join(lines)
    if chance.random() < 0.4:
        # (what stands elsewhere stays where it is)
        at = chance.randrange(data.index(b"\nobject ") + 1, len(data))
        data = data[:at] + chance.choice((b"0", b"a", b"g", b"F", b" ", b".", b'"', b"\n", b"\\", b"\xff")) + data[at + 1 :]
    return data[: chance.randrange(len(data))] if chance.random() < 0.1 else data


def texts() -> Iterator[bytes]:
    """A text, and changed ones of which each says how many objects it has, or not."""
    count = OBJECTS.count("object ")
    whole = (test_limits.PREFIX.format(count=count) + OBJECTS).encode()
    yield whole
    chance = random.Random(11)
    for _ in range(400):
        data = changed(whole, chance)
        yield data.replace(b"objects %d" % count, b"objects %d" % (data.count(b"\nobject ")), 1) if chance.random() < 0.5 else data


def told(read: Callable[[Any, int, Any], Any], text: bytes, given: Any) -> Tuple[Any, ...]:
    """What comes of a text, and why it ends."""
    file, said = io.BytesIO(text), []
    try:
        prefix = read_prefix(file)
        for one in read(file, prefix.count, given):
            said.append(one)
    except (BadText, ToolError, ValueError) as fault:
        return said, type(fault), str(fault)
    return (said,)


def members(one: Object) -> Tuple[Any, ...]:
    """What an object is."""
    return one.handle, one.kind, one.form, one.number, bytes(one.text), {name: list(map(repr, found)) for name, found in one.lists.items()}, one.size


class Pieces(unittest.TestCase):
    """Pieces of many sizes, some shorter than an object, and limits of an object's text."""

    def setUp(self) -> None:
        chance = random.Random(12)
        self.cases = [(text, chance.choice((1 << 16, 60, 300, 2000)), chance.choice((1 << 28, 1 << 28, 150, 1000))) for text in texts()]

    def compare(self, one: Callable[..., Any], other: Callable[..., Any], given: Any) -> int:
        """Compares two ways to read, and tells how many texts are whole."""
        whole = 0
        for text, size, most in self.cases:
            with unittest.mock.patch("dwgtools.pieces.SIZE", size), unittest.mock.patch.object(show, "MOST_TEXT", most):
                first, second = (told(read, text, given) for read in (one, other))
            self.assertEqual(first, second, text)
            whole += len(first) == 1
        return whole

    def test_objects(self) -> None:
        for lists in Lists:
            by_pieces = lambda file, count, given: map(members, objects_in(file, count, given))
            self.assertGreater(self.compare(lambda file, count, given: map(members, read_objects(file, count, given)), by_pieces, lists), 40)

    def test_names(self) -> None:
        def by_lines(file: Any, count: int, _: Any) -> Iterator[Any]:
            names = Names()
            for one in read_objects(file, count):
                names.take(one)
            yield list(names.items())

        self.assertGreater(self.compare(by_lines, lambda file, count, _: [list(names_in(file, count).items())], None), 40)

    def test_json(self) -> None:
        def by(has_fragments: bool) -> Callable[..., Iterator[Any]]:
            def lines(file: Any, count: int, speaker: Any) -> Iterator[Any]:
                out, own = io.BytesIO(), Speaker(speaker.names, speaker.page)
                written = Lines(out, own, pretty=False)
                if not has_fragments:
                    written.fragments = None
                try:
                    written.objects(file, count)
                finally:
                    # (what is written before a fault counts too)
                    self.said.append(out.getvalue())
                yield own.undecoded

            return lines

        self.said: List[bytes] = []
        speaker = Speaker({0x10: Text(b"W\xfcnde"), 0x11: Text(b"\x81"), 0x12: Text(b"W\x81" * 200), 0x13: Text(b"\\U+4E2D")}, "cp1252")
        self.assertGreater(self.compare(by(False), by(True), speaker), 40)
        self.assertEqual(self.said[::2], self.said[1::2])
        # Several processes do the same.
        self.cases, self.said = self.cases[:60], []
        with unittest.mock.patch("dwgtools.json_lines.MANY", 0), unittest.mock.patch("dwgtools.workers.processors", lambda: 3):
            self.compare(by(False), by(True), speaker)
        self.assertEqual(self.said[::2], self.said[1::2])


if __name__ == "__main__":
    unittest.main()
