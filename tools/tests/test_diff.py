"""dwg-diff over drawings whose differences are known, since they were spelled or made so."""

from __future__ import annotations

import contextlib
import io
import itertools
import json
import os
import random
import re
import shutil
import subprocess
import unittest
import unittest.mock
from typing import IO, Any, Dict, Iterator, List, Sequence, Tuple

import common
import spelled
import test_limits
import test_pieces
from made import PROGRAM, TOOLS, TOP, dwg, made, needs_program, program_that, tool

from dwgtools.differences import Comparison, Ignored, said_lines
from dwgtools.names import Names
from dwgtools.pieces import names_in
from dwgtools.show import Prefix, read_objects, read_prefix

needs_program()


class Diff(common.InFolder):
    """What dwg-diff prints, and its statuses."""

    def diff(self, old: bytes, new: bytes, *words: str) -> Any:
        """The answer for two drawings."""
        return tool("dwg-diff", self.file("old.dwg", old), self.file("new.dwg", new), *words)

    def told(self, old: bytes, new: bytes, *words: str) -> List[Dict[str, Any]]:
        """What is told as JSON, without the counts."""
        answer = self.diff(old, new, "--json", *words)
        self.assertEqual((answer.returncode, answer.stderr), (1, b""))
        return [json.loads(line) for line in answer.stdout.splitlines()][:-1]

    def test_same(self) -> None:
        for count, seed in ((1, 7), (50, 3)):
            for words in ((), ("--json",)):
                answer = self.diff(made(count, seed), made(count, seed), *words)
                self.assertEqual((answer.returncode, answer.stdout, answer.stderr), (0, b"", b""))

    def test_one_more(self) -> None:
        # By docs/FORMAT.md the entity that was last loses its links, the block's last is another, and an entity comes.
        found = self.told(made(50, 3), made(51, 3))
        kinds = {handle: kind for handle, kind, _, _ in common.made_entities(51, 3)}
        last = lambda handle: {"code": 4, "handle": f"{handle:X}"}
        links = [{"field": "links.previous", "old": last(0x30 + 49), "new": None}, {"field": "links.next", "old": last(0), "new": None}]
        expected = [
            {"change": "changed", "what": "object", "handle": "18", "kind": "BLOCK HEADER", "fields": [{"field": "ends.last", "old": last(0x62), "new": last(0x63)}]},
            {"change": "changed", "what": "object", "handle": "62", "kind": kinds[0x62], "layer": "WALLS", "fields": links},
            {"change": "added", "what": "object", "handle": "63", "kind": kinds[0x63], "layer": "0"},
        ]
        self.assertEqual(found, expected)
        self.assertEqual(self.told(made(50, 3), made(51, 3), "--ignore", "links", "ends.last"), expected[2:])
        self.assertEqual(self.told(made(51, 3), made(50, 3), "--ignore", "links", "--ignore", "ends"), [{**expected[2], "change": "removed"}])
        lines = self.diff(made(50, 3), made(51, 3)).stdout.decode().splitlines()
        self.assertEqual(lines[:2], ["changed object 18 BLOCK HEADER", "  ends.last: 4.62 -> 4.63"])
        self.assertEqual(lines[-2:], [f'added object 63 {kinds[0x63]} on "0"', "objects: 1 added, 0 removed, 2 changed"])

    def test_other_seed(self) -> None:
        old, new = list(common.made_entities(40, 1)), list(common.made_entities(40, 2))
        found = {one["handle"]: one for one in self.told(made(40, 1), made(40, 2))}
        self.assertEqual(set(found), {f"{handle:X}" for handle, _, _, _ in old})
        for (handle, kind, _, body), (_, other, _, other_body) in zip(old, new):
            changes = {change["field"]: (change["old"], change["new"]) for change in found[f"{handle:X}"]["fields"]}
            self.assertEqual(changes.get("kind"), (kind, other) if kind != other else None)
            for name in set(body) | set(other_body):
                if not isinstance(body.get(name, other_body.get(name)), list) or name != "points":
                    expected = (body.get(name), other_body.get(name))
                    self.assertEqual(changes.get(name, (None, None)), expected if expected[0] != expected[1] else (None, None))

    def spelled(self, **changed: Any) -> bytes:
        """A drawing that some words change."""
        one = spelled.Drawing()
        if "layer" in changed:
            one.frames = [frame for frame in one.frames if frame[0] != one.WALLS]
            one.layer(one.WALLS, changed["layer"], 1)
        if changed.get("class", True):
            one.of_class(500, changed.get("dxf", b"WIPEOUT"))
        one.line((0, 0, 0), changed.get("end", (1, 0, 0)), layer=changed.get("on", 0))
        one.polyline(changed.get("points", [(0, 0), (1, 0), (1, 1), (0, 1)]))
        one.text(changed.get("text", b"one"), (0, 0), 1.0)
        one.entity(47, changed.get("bits", "1" * 800))
        return one.file(changed.get("page", 30))

    def fields(self, **changed: Any) -> Dict[str, Any]:
        """The fields that differ where one thing was changed."""
        found = self.told(self.spelled(), self.spelled(**changed))
        self.assertEqual(len(found), 1)
        return {change["field"]: (change["old"], change["new"]) for change in found[0]["fields"]}

    def test_fields(self) -> None:
        self.assertEqual(self.fields(end=(1, -0.0, 0)), {"end": ([1.0, 0.0, 0.0], [1.0, -0.0, 0.0])})
        self.assertEqual(self.fields(text=b"tw\xf6"), {"text": ("one", "twö")})
        layers = [{"code": 5, "handle": "10", "name": "0"}, {"code": 5, "handle": "11", "name": "WALLS"}]
        self.assertEqual(self.fields(on=0x11), {"layer": tuple(layers)})
        self.assertEqual(self.fields(layer=b"W\xe4nde"), {"entry.name": ("WALLS", "Wände")})
        self.assertEqual(self.fields(page=29), {"codepage": (30, 29)})
        self.assertEqual(self.fields(dxf=b"OTHER"), {"dxf": ("WIPEOUT", "OTHER")})

    def test_a_long_name_is_told_where_it_is_changed_alone(self) -> None:
        paths = []
        for name, end in ((b"\x80" * 65_535, 1), (b"\x80" * 65_534 + b"x", 2)):
            one = spelled.Drawing()
            layer = one.layer(one.free(), name, 1)
            for k in range(100):
                one.point((k, end, 0), layer=layer if k else one.WALLS if end == 1 else layer)
            paths.append(self.file(f"{end}.dwg", one.file()))
        for words, head in (([], f'    layer: 5.11 "WALLS" -> 5.{layer:X}'), (["--json"], f'"new": {{"code": 5, "handle": "{layer:X}"}}}}')):
            ran = tool("dwg-diff", *words, *paths)
            said = ran.stdout.decode()
            self.assertEqual((ran.returncode, ran.stderr, said.count("POINT")), (1, b"", 100))
            self.assertIn(head.strip(), said)
            self.assertEqual((said.count("\u20ac" * 65_534) + said.count("\\u20ac" * 65_534), said.count("\u20ac" * 65_535) + said.count("\\u20ac" * 65_535)), (2, 1))

    def test_lists(self) -> None:
        self.assertEqual(self.fields(points=[(0, 0), (1, 0), (5, 5), (1, 1), (0, 1)]), {"points[2]": (None, [5.0, 5.0])})
        self.assertEqual(self.fields(points=[(1, 0), (1, 1), (0, 1)]), {"points[0]": ([0.0, 0.0], None)})
        self.assertEqual(self.fields(points=[(0, 0), (1, 0), (2, 2), (0, 1)]), {"points[2]": ([1.0, 1.0], [2.0, 2.0])})
        double = {"points[1]": ([1.0, 0.0], [0.0, 0.0]), "points[2]": ([1.0, 1.0], [1.0, 0.0]), "points[3]": ([0.0, 1.0], [1.0, 1.0]), "points[4]": (None, [0.0, 1.0])}
        found = self.fields(points=[(0, 0), (0, 0), (1, 0), (1, 1), (0, 1)])
        self.assertIn(found, [{"points[1]": (None, [0.0, 0.0])}, double])

    def test_classes_and_bytes(self) -> None:
        found = self.told(self.spelled(), self.spelled(**{"class": False}))
        self.assertEqual(found, [{"change": "removed", "what": "class", "number": 500}])
        self.assertEqual(self.diff(self.spelled(), self.spelled(**{"class": False}), "--ignore", "classes").returncode, 0)
        answer = self.diff(self.spelled(), self.spelled(bits="1" * 400 + "0" + "1" * 399))
        self.assertIn(b"  rest: 100 bytes -> 100 bytes, unlike from byte 50\n", answer.stdout)

    def listing(self, classes: Sequence[Tuple[int, bytes]] = (), sections: Sequence[Tuple[int, bytes]] = ()) -> bytes:
        """A drawing of classes, each a number and a DXF name, and of unknown sections, in these orders."""
        one = spelled.Drawing()
        for number, dxf in classes:
            one.of_class(number, dxf)
        one.sections = list(sections)
        return one.file()

    def test_what_is_the_same_is_rewritten_the_same(self) -> None:
        """Drawings are the same exactly where `rewrite` of them is, over orders of classes and sections, and over numbers that stand twice."""
        classes = itertools.permutations([(500, b"A"), (501, b"B"), (500, b"C")])
        sections = itertools.permutations([(3, b"three"), (4, b""), (200, b"more")], 2)
        drawings = [self.listing(one) for one in classes] + [self.listing((), one) for one in sections]
        drawings += [self.listing([(500, b"A"), (500, b"A"), (501, b"B")]), self.listing([(500, b"A"), (501, b"B"), (500, b"A")]), self.listing(), made(1, 1)]
        rewritten = [dwg("rewrite", given=one).stdout for one in drawings]
        self.assertEqual(len(set(rewritten)), len(drawings))
        numbered = list(zip(drawings, rewritten))
        for (old, one), (new, other) in [pair for step in range(3) for pair in zip(numbered, numbered[step:])]:
            answer = self.diff(old, new)
            self.assertEqual((answer.returncode, answer.stdout == b""), (int(one != other), one == other), (old, new))

    def test_orders(self) -> None:
        a, b, c = (500, b"A"), (501, b"B"), (502, b"C")
        fields = [{"field": "order[0]", "old": 500, "new": 501}, {"field": "order[1]", "old": 501, "new": 500}]
        changed = {"change": "changed", "what": "classes", "fields": fields}
        self.assertEqual(self.told(self.listing([a, b, c]), self.listing([b, a, c])), [changed])
        answer = self.diff(self.listing([a, b, c]), self.listing([b, a, c]))
        self.assertEqual(answer.stdout.decode().splitlines(), ["changed classes", "  order[0]: 500 -> 501", "  order[1]: 501 -> 500", "objects: 0 added, 0 removed, 0 changed"])
        # What one of the two doesn't have takes no part in the order.
        self.assertEqual(self.told(self.listing([a, b]), self.listing([c, a, b])), [{"change": "added", "what": "class", "number": 502}])
        self.assertEqual(self.told(self.listing([a, c, b]), self.listing([b, a])), [{"change": "removed", "what": "class", "number": 502}, changed])
        for words in (["order"], ["classes"]):
            self.assertEqual(self.diff(self.listing([a, b]), self.listing([b, a]), "--ignore", *words).returncode, 0)
        # Of one number the first is the first.
        twice = self.told(self.listing([a, (500, b"C")]), self.listing([(500, b"C"), a]))
        self.assertEqual([(one["what"], one["number"], one["fields"][0]["new"]) for one in twice], [("class", 500, "C"), ("class", 500, "A")])
        three, four = (3, b"three"), (4, b"")
        fields = [{"field": "order[0]", "old": 3, "new": 4}, {"field": "order[1]", "old": 4, "new": 3}]
        self.assertEqual(self.told(self.listing((), [three, four]), self.listing((), [four, three])), [{"change": "changed", "what": "sections", "fields": fields}])
        self.assertEqual(self.diff(self.listing((), [three, four]), self.listing((), [four, three]), "--ignore", "sections").returncode, 0)

    def test_trouble(self) -> None:
        good = self.file("good.dwg", made(3, 1))
        for name, data in [*common.foreign().items(), *common.damaged(made(20, 2), 12, 3)]:
            with self.subTest(name):
                for pair in ((good, self.file("bad", data)), (self.folder / "bad", good)):
                    answer = tool("dwg-diff", *pair)
                    self.assertEqual((answer.returncode, answer.stdout), (2, b""))
                    self.assertIn(b"/bad: refused: ", answer.stderr)
        self.assertEqual(tool("dwg-diff", good).returncode, 2)
        self.assertEqual(tool("dwg-diff", good, self.folder / "none").returncode, 2)
        self.assertEqual(tool("dwg-diff", "-", "-").returncode, 2)
        self.assertEqual(tool("dwg-diff", good, "-", given=made(3, 1)).returncode, 0)
        self.assertEqual(tool("dwg-diff", "--help").returncode, 0)
        other = self.file("other.dwg", made(4, 1))
        with open("/dev/full", "wb") as full:
            ran = subprocess.run([TOOLS / "dwg-diff", good, other], stdout=full, stderr=subprocess.PIPE, check=False, env={**os.environ, "DWG": PROGRAM})
        self.assertEqual((ran.returncode, ran.stderr), (2, b"dwg-diff: standard output can't be written: No space left on device\n"))

    @unittest.skipUnless(os.path.exists("/dev/full"), "a full disk, as there is no /dev/full")
    def test_help_that_cannot_be_written_is_trouble(self) -> None:
        for word in ("--help", "--version"):
            with open("/dev/full", "wb") as full:
                ran = subprocess.run([TOOLS / "dwg-diff", word], stdout=full, stderr=subprocess.PIPE, check=False)
            self.assertEqual((ran.returncode, ran.stderr), (2, b"dwg-diff: standard output can't be written: No space left on device\n"), word)

    def test_interrupted_and_failing(self) -> None:
        path = self.file("a.dwg", made(20, 1))
        self.assertEqual(self.interrupted("dwg-diff", path, path), 130)
        for lines in (["exit 6"], ['"$REAL" show | head -n 100'], ["kill -9 $$"]):
            answer = tool("dwg-diff", path, path, "--program", self.failing(*lines))
            self.assertEqual((answer.returncode, answer.stdout), (2, b""))

    def test_a_text_that_is_none_is_told_of_its_own_drawing(self) -> None:
        """Both are shown at once, and a fault of one isn't told as one of the other, nor of both."""
        good = test_limits.PREFIX.format(count=1) + "object 31 SEQEND typed 6\n"
        bad = {"more": good + "object 32 SEQEND typed 6\n", "fewer": good.replace("objects 1", "objects 2")}
        bad.update({"odd": good + "x\n", "late": good + "  a 1\n" * 3 + "y\n", "none": "z\n"})
        for name, text in {"good": good, **bad}.items():
            self.file(f"{name}.dwg", text.encode())
        program = program_that(self.folder, "showing", ['[ "$1" != show ] || exec cat'])
        for name in bad:
            for pair in ((name, "good"), ("good", name), (name, name)):
                answer = tool("dwg-diff", *(self.folder / f"{each}.dwg" for each in pair), "--program", program)
                begin = f"dwg-diff: {self.folder}/{name}.dwg: the text of `show` isn't as it should be: "
                self.assertEqual((answer.returncode, answer.stderr.startswith(begin.encode()), answer.stderr.count(b".dwg")), (2, True, 1), answer.stderr)


class Shown:
    """A drawing by the text that is shown of it, and how often that is asked for."""

    def __init__(self, shown: bytes) -> None:
        self.shown, self.times = shown, 0

    @contextlib.contextmanager
    def text(self) -> Iterator[Tuple[Prefix, IO[bytes]]]:
        """As that of a drawing."""
        self.times += 1
        file = io.BytesIO(self.shown)
        yield read_prefix(file), file

    def names(self) -> Names:
        """And so its names."""
        with self.text() as (prefix, text):
            return names_in(text, prefix.count)


def elements(count: int) -> str:
    """The lines of a list."""
    return "".join(f"  b[{at}] 1\n" for at in range(count))


SIZES = (40, 64, 150, 333, 1000, 1 << 16)


class Texts(unittest.TestCase):
    """Equal texts are passed over as bytes, in pieces of whatever size, and what differs is told object by object."""

    def shown(self, objects: Dict[int, str]) -> Shown:
        """A drawing of objects by handle, each the lines of its fields; the handle 10 is that of a layer."""
        layer = 'object 10 LAYER typed 51\n  entry.name "WALLS"\n'
        lines = [f"object {handle:X} LINE typed 19\n{objects[handle]}" for handle in sorted(objects)]
        return Shown((test_limits.PREFIX.format(count=1 + len(lines)) + layer + "".join(lines)).encode())

    def told(self, old: Any, new: Any) -> List[str]:
        """The lines that are told, and the counts."""
        comparison = Comparison(old, new, Ignored([]))
        lines = [line for one in comparison.differences() for line in said_lines(one, comparison.old, comparison.new)]
        return [*lines, str(comparison.counts)]

    def expected(self, old: Dict[int, str], new: Dict[int, str]) -> List[str]:
        """What is to be told of fields `a`, the first line of each object."""
        lines, counts = [], {"added": 0, "removed": 0, "changed": 0}
        for handle in sorted({*old, *new}):
            one, other = old.get(handle), new.get(handle)
            change = "added" if one is None else "removed" if other is None else "changed" if one != other else ""
            if change:
                counts[change] += 1
                lines.append(f'{change} object {handle:X} LINE on "WALLS"')
            if change == "changed":
                lines.append(f"  a: {one.split()[1]} -> {other.split()[1]}")
        return [*lines, str(counts)]

    def compare(self, old: Dict[int, str], new: Dict[int, str]) -> None:
        """Both ways, in pieces of each size."""
        for one, other in ((old, new), (new, old)):
            for size in SIZES:
                with unittest.mock.patch("dwgtools.pieces.SIZE", size):
                    self.assertEqual(self.told(self.shown(one), self.shown(other)), self.expected(one, other), size)

    def lines(self, count: int) -> Dict[int, str]:
        """Objects of some handles, whose texts have many lengths."""
        return {0x30 + 2 * at: f"  a {at}\n  layer 5.10\n" + elements(at * 7 % 11) for at in range(count)}

    def test_where_objects_differ(self) -> None:
        objects = self.lines(40)
        handles = list(objects)
        places: List[List[int]] = [[], [0], [39], [0, 39], [20], [20, 21], [20, 22], list(range(15, 25)), list(range(0, 40, 2)), list(range(40))]
        for some in places:
            self.compare(objects, {**objects, **{handles[at]: objects[handles[at]].replace(f"  a {at}\n", "  a 777\n") for at in some}})

    def test_runs_that_were_added(self) -> None:
        objects = self.lines(40)
        handles = list(objects)
        for begin, end in ((0, 1), (0, 20), (39, 40), (20, 40), (13, 14), (13, 29), (0, 40)):
            left = {handle: objects[handle] for handle in handles[:begin] + handles[end:]}
            self.compare(left, objects)
            # Others stand in their place, or after a change.
            self.compare({**left, **{handle + 1: objects[handle] for handle in handles[begin:end]}}, objects)
            self.compare({**left, handles[begin]: objects[handles[begin]].replace("  a ", "  a 9")}, objects)

    def test_chance(self) -> None:
        chance = random.Random(4)
        for _ in range(30):
            old, new = ({handle: lines for handle, lines in self.lines(30).items() if chance.random() < 0.9} for _ in range(2))
            self.compare(old, {handle: lines if chance.random() < 0.8 else lines.replace("  a ", "  a 5") for handle, lines in new.items()})

    def test_long_objects(self) -> None:
        long = "  a 1\n  layer 5.10\n" + elements(400)
        for handle in (0x2F, 0x43, 0x99):
            for other in (long, long.replace("  a 1", "  a 2"), ""):
                self.compare({**self.lines(20), handle: long}, {**self.lines(20), **({handle: other} if other else {})})

    def test_names_are_looked_for_where_something_differs(self) -> None:
        objects = self.lines(50)
        for change, times in ((None, (1, 1)), ({0x30: "  a 9\n"}, (2, 1)), ({0x29: "  a 9\n  layer 5.10\n"}, (1, 2))):
            old, new = self.shown(objects), self.shown({**objects, **(change or {})})
            self.told(old, new)
            self.assertEqual((old.times, new.times), times)

    def test_a_text_that_is_none_is_told_as_line_by_line(self) -> None:
        by_lines = lambda text, count, _: read_objects(text, count)
        whole, chance = 0, random.Random(5)
        for text in test_pieces.texts():
            plain = test_pieces.told(by_lines, text, None)
            with unittest.mock.patch("dwgtools.pieces.SIZE", chance.choice(SIZES)):
                comparison: Any = Comparison(Shown(text), Shown(text), Ignored([]))  # type: ignore[arg-type]
                told = test_pieces.told(lambda *_: comparison.differences(), text, None)
            self.assertEqual(told[1:], plain[1:], text)
            self.assertEqual(told[0], [], text)
            whole += len(plain) == 1
        self.assertGreater(whole, 40)


@unittest.skipUnless(shutil.which("git"), "what needs git, which isn't installed")
class Git(common.InFolder):
    """A repository with a drawing, by the configuration that docs/RECIPES.md shows."""

    def setUp(self) -> None:
        super().setUp()
        shown = re.search(r"```ini\n(.*?)```", (TOP / "docs" / "RECIPES.md").read_text(), re.DOTALL)
        assert shown is not None
        config = self.file("config", (shown[1] + "[user]\n\tname = A\n\temail = a@example.org\n").encode())
        path = f"{TOOLS}{os.pathsep}{os.environ['PATH']}"
        alone = {"GIT_CONFIG_GLOBAL": str(config), "GIT_CONFIG_NOSYSTEM": "1", "HOME": str(self.folder), "LC_ALL": "C"}
        self.environment = {**{name: value for name, value in os.environ.items() if not name.startswith("GIT_")}, **alone, "PATH": path, "DWG": PROGRAM}
        self.top = self.folder / "drawings"
        self.git("init", "--quiet", str(self.top))
        attributes = re.search(r"put `(.*?)` into `.gitattributes`", (TOP / "docs" / "RECIPES.md").read_text())
        assert attributes is not None
        (self.top / ".gitattributes").write_text(attributes[1] + "\n")
        (self.top / "a plan.dwg").write_bytes(made(1, 7))
        self.git("add", ".")
        self.git("commit", "--quiet", "--message", "The plan")

    def git(self, *words: str) -> str:
        """What git says in the repository."""
        folder = self.top if self.top.exists() else self.folder
        ran = subprocess.run(["git", *words], cwd=folder, env=self.environment, capture_output=True, check=False)
        self.assertEqual((ran.returncode, ran.stderr), (0, b""), words)
        return ran.stdout.decode()

    def test_fields_are_shown(self) -> None:
        self.assertEqual(self.git("show", "--textconv", "HEAD:a plan.dwg"), tool("dwg-json", "--pretty", self.file("old.dwg", made(1, 7))).stdout.decode())
        self.assertIn('+  "object": "31",', self.git("log", "--patch").splitlines())
        (self.top / "a plan.dwg").write_bytes(made(2, 7))
        found = self.git("diff").splitlines()
        self.assertEqual([line for line in found if line.startswith(("+  \"object\"", "-  \"object\"", "Binary"))], ['+  "object": "32",'])
        self.assertIn('+  "kind": "POINT",', found)
        self.assertTrue(any(line.startswith("@@") and line.endswith('@@ "object": "18",') for line in found), found)

    def test_what_is_no_drawing_that_is_read_ends_nothing(self) -> None:
        """What the tool says of it stands in its place, and of which content; and all else is shown."""
        for index, data in enumerate((made(2, 7)[:-9], b"AC1032", b"")):
            self.file(f"drawings/b{index}.DWG", data)
        (self.top / "c.dwg").write_bytes(made(2, 7))
        self.git("add", ".")
        self.git("commit", "--quiet", "--message", "More")
        found = self.git("log", "--patch").splitlines()
        self.assertEqual([found.count('+  "object": "31",'), sum(line.startswith("+dwg-json: ") for line in found)], [2, 3])
        # Of two files of which the same is said it is seen that they differ.
        self.file("drawings/b1.DWG", b"AC1032.")
        self.assertEqual([line[0] for line in self.git("diff").splitlines() if re.match("[-+][0-9a-f]{40}$", line)], ["-", "+"])
        # So it is where git leaves a part of their content out of what it keeps.
        for data in (b"AC1032$Id: one $", b"AC1032$Id: two $"):
            self.file("drawings/b1.DWG", data)
            self.git("commit", "--quiet", "--message", "Another", "b1.DWG")
        (self.top / ".gitattributes").write_text("*.DWG diff=dwg ident\n")
        found = self.git("diff", "HEAD~", "HEAD", "--", "b1.DWG").splitlines()
        self.assertEqual([line[0] for line in found if re.match("[-+][0-9a-f]{40}$", line)], ["-", "+"])

    def test_where_the_tool_gives_no_answer_nothing_is_shown_as_the_same(self) -> None:
        (self.top / "a plan.dwg").write_bytes(made(2, 7))
        for change, said in (({"DWG": "/nowhere/dwg"}, b"/nowhere/dwg"), ({"PATH": os.path.dirname(shutil.which("git") or "")}, b"not found")):
            ran = subprocess.run(["git", "diff"], cwd=self.top, env={**self.environment, **change}, capture_output=True, check=False)
            self.assertEqual((ran.returncode, said in ran.stderr), (128, True), ran)

    def test_a_name_that_looks_like_an_option_is_a_name(self) -> None:
        """One of a foreign repository would name a program that is run."""
        run = self.folder / "run"
        for name in ("--program=.", "-o", "--version.dwg", "-plan.dwg"):
            path = self.top / name / "x.dwg" if name.endswith((".", "o")) else self.top / name
            path.parent.mkdir(exist_ok=True)
            path.write_bytes(made(1, 7))
        self.file("drawings/x.dwg", f"#!/bin/sh\necho > {run}\n".encode())
        (self.top / "x.dwg").chmod(0o755)
        self.git("add", ".")
        self.git("commit", "--quiet", "--message", "More")
        for path in {*self.top.rglob("*.dwg")} - {self.top / "x.dwg"}:
            path.write_bytes(made(2, 7))
        self.assertEqual(self.git("diff").splitlines().count('+  "object": "32",'), 5)
        self.git("difftool", "--no-prompt", "--tool", "dwg")
        self.assertEqual((run.exists(), sorted(path.name for path in self.folder.iterdir() if path.is_file())), (False, ["config"]))

    def test_drawings_are_compared(self) -> None:
        (self.top / "a plan.dwg").write_bytes(made(2, 7))
        expected = tool("dwg-diff", self.file("old.dwg", made(1, 7)), self.top / "a plan.dwg").stdout.decode()
        self.assertIn("added object 32 POINT", expected)
        self.assertEqual(self.git("difftool", "--no-prompt", "--tool", "dwg"), expected)


if __name__ == "__main__":
    unittest.main()
