"""docs/FORMAT.md says what the definitions say, and a file that is written by the page alone is the one that the program writes."""

from __future__ import annotations

import unittest
from typing import Callable, Dict, List, NamedTuple

import by_format
import format_parts as parts
import format_tables as tables


class Sources(NamedTuple):
    """The texts that are compared: the page, and the modules of definitions."""

    page: str
    kinds: str
    hints: str
    needs: str
    sound: str
    refusals: str
    items: str
    bodies: str
    commons: str
    statuses: str
    notes: str
    objects: str
    grammar: str
    common: str
    shapes: str
    entities: str
    entries: str
    dicts: str
    code: str


SOURCES = Sources(
    page=tables.PAGE.read_text(encoding="utf-8"),
    kinds=tables.definitions("dwg_kinds", "Kinds"),
    hints=tables.definitions("dwg_classes", "Hints"),
    needs=tables.definitions("dwg_kinds", "Needs"),
    sound=tables.definitions("dwg_graph", "Sound"),
    refusals=tables.definitions("dwg_base", "Refusals"),
    items=tables.definitions("dwg_appitems", "Items"),
    bodies=tables.definitions("dwg_show", "BodyFields"),
    commons=tables.definitions("dwg_show", "CommonFields"),
    statuses=tables.definitions("dwg_commands", "Status"),
    notes=tables.definitions("dwg_text", "Notes"),
    objects=tables.definitions("dwg_object", "OwnBodies"),
    grammar=parts.crate_definitions("dwg_grammar"),
    common=parts.crate_definitions("dwg_common"),
    shapes=parts.crate_definitions("dwg_shapes"),
    entities=parts.crate_definitions("dwg_entities"),
    entries=parts.crate_definitions("dwg_tables"),
    dicts=parts.crate_definitions("dwg_dicts"),
    code="".join(parts.crate_code(crate) for crate in parts.CRATES),
)


def kinds(given: Sources) -> List[str]:
    """What differs in the kinds of numbers, and in which of them are ones of entities."""
    numbers = tables.differences(tables.page_kinds(given.page), tables.defined_kinds(given.kinds))
    classes = tables.differences(tables.page_class_kinds(given.page), tables.defined_class_kinds(given.kinds, given.hints))
    return numbers + classes + tables.differences(tables.page_entities(given.page), tables.defined_entities(given.kinds))


def fields(given: Sources) -> List[str]:
    """What differs in the names of fields."""
    defined = {number: name for number, (_, name) in tables.defined_fields(given.needs).items()}
    return tables.differences(tables.PageNeeds(given.page).fields(), defined)


def needs(given: Sources) -> List[str]:
    """What differs in which kind has which field, and in what it must lead to."""
    defined = tables.DefinedNeeds(given.kinds, given.needs, given.sound)
    return tables.differences(tables.PageNeeds(given.page).table(), defined.table())


def refusals(given: Sources) -> List[str]:
    """What differs in the parts and reasons of refusals."""
    return tables.differences(tables.page_refusals(given.page), tables.defined_refusals(given.refusals))


def items(given: Sources) -> List[str]:
    """What differs in the codes of items, what follows them and what they say."""
    return tables.differences(tables.page_items(given.page), tables.defined_items(given.items))


def bodies(given: Sources) -> List[str]:
    """What differs in the fields that are printed, and in their members."""
    page, defined = tables.PageFields(given.page), tables.DefinedFields(given.kinds, given.bodies, given.commons)
    return tables.differences(page.table(), defined.table()) + tables.differences(page.members(), defined.members())


def statuses(given: Sources) -> List[str]:
    """What differs in the statuses and their notes; those of the script `dwg` stand below the table."""
    return tables.differences(tables.page_statuses(given.page), tables.defined_statuses(given.statuses, given.notes))


def versions(given: Sources) -> List[str]:
    """What differs in the codes and references of common parts and bodies in each version, in which kinds AC1014 has, and in what is fixed there."""
    texts = (given.dicts, given.entries, given.entities, given.shapes, given.common, given.grammar)
    defined, page = parts.Definitions(dict(zip(parts.CRATES, texts))), parts.PageParts(given.page)
    bits = tables.differences(page.parts(), parts.defined_parts(defined, given.kinds, given.objects, given.code))
    same = tables.differences(page.same(), parts.defined_same(defined, given.kinds, given.objects))
    fixed = tables.differences(parts.page_fixed(given.page), parts.defined_fixed(defined, given.kinds, given.objects, given.code))
    return bits + same + page.out_of_order() + page.told_otherwise() + fixed + tables.differences(parts.page_weights(given.page), parts.defined_weights(defined))


CHECKS: Dict[str, Callable[[Sources], List[str]]] = {
    "kinds": kinds,
    "fields": fields,
    "needs": needs,
    "refusals": refusals,
    "items": items,
    "bodies": bodies,
    "statuses": statuses,
    "versions": versions,
}


class Planted(NamedTuple):
    """A change of a text that a check must see."""

    check: str
    source: str
    old: str
    new: str


PLANTED = [
    Planted("kinds", "page", "| 17 | ARC |", "| 20 | ARC |"),
    Planted("kinds", "page", "33, 34, 36 to 39", "33, 36 to 39"),
    Planted("kinds", "page", "28, 31, 32, 35, 40", "28, 31, 32, 40"),
    Planted("kinds", "kinds", 'row (Some 72) Group (codes "GROUP")', 'row (Some 73) Group (codes "GROUP")'),
    Planted("kinds", "page", "| 499 | any other | OBJECT |", "| 499 | any other | ENTITY |"),
    Planted("kinds", "hints", "class.item == 499", "class.item == 497"),
    Planted("kinds", "kinds", "hinted_kind_of hint.Other = Unknown", "hinted_kind_of hint.Other = PlainObject"),
    Planted("kinds", "kinds", "(33, 34)", "(33, 33)"),
    Planted("kinds", "kinds", '(codes "3DFACE") true', '(codes "3DFACE") false'),
    Planted("fields", "page", "| 14 | `seqend` |", "| 14 | `end` |"),
    Planted("fields", "needs", 'row 25 Grouped (codes "grouped")', 'row 26 Grouped (codes "grouped")'),
    Planted("needs", "page", "| 17 | `insert` | each insert of a BLOCK HEADER | entity |", "| 17 | `insert` | each insert of a BLOCK HEADER | any |"),
    Planted("needs", "page", "| XRECORD, GROUP | any |", "| XRECORD | any |"),
    Planted("needs", "page", "STYLE; null or STYLE", "STYLE; STYLE"),
    Planted("needs", "needs", "end_need kind.Polyline3d = Some (NullOrIs kind.Vertex3d)", "end_need kind.Polyline3d = Some (Is kind.Vertex3d)"),
    Planted("needs", "needs", "of_one kind.Group NullOrAny holder", "of_one kind.XRecord NullOrAny holder"),
    Planted("needs", "kinds", '(codes "XRECORD") false (Some Any)', '(codes "XRECORD") false (Some NullOrAny)'),
    Planted("needs", "sound", " ⊎ (kind ≡ kinds.MInsert)", ""),
    Planted("refusals", "page", "| 26 | map | duplicate |", "| 26 | map | repeated |"),
    Planted("refusals", "page", "| 13, 18 | same | end |", "| 13, 18 | same | begin |"),
    Planted("refusals", "refusals", 'nat_le line 26 then codes "map"', 'nat_le line 25 then codes "map"'),
    Planted("refusals", "refusals", 'codes "entry" ∷ []', "[]"),
    Planted("items", "page", "| 40 to 42 | RD |", "| 40 to 43 | RD |"),
    Planted("items", "page", "| 70 | RS |", "| 70 | RL |"),
    Planted("items", "items", "nat_le 10 code && nat_le code 13", "nat_le 10 code && nat_le code 12"),
    Planted("items", "items", "choose (code == 3) (variant Layer layer_in handle)", "choose (code == 3) (variant Object object_in handle)"),
    Planted("bodies", "page", "| APPID | entry, extra |", "| APPID | extra, entry |"),
    Planted("bodies", "page", "| ends | BLOCK HEADER | first, last |", "| ends | BLOCK HEADER | last, first |"),
    Planted("bodies", "page", "| text | ATTRIB | those of TEXT:", "| text | ATTRIB | those of BLOCK:"),
    Planted("bodies", "bodies", '(codes "cloning") number xrecord', '(codes "clone") number xrecord'),
    Planted("bodies", "commons", '(codes "previous")', '(codes "before")'),
    Planted("statuses", "page", "| 7 | the input", "| 9 | the input"),
    Planted("statuses", "page", "`dwg: read fault`", "`dwg: fault`"),
    Planted("statuses", "notes", 'codes "dwg: drawing too large: "', 'codes "dwg: too large: "'),
    Planted("versions", "page", "three BDs; BD; three BDs; BD |", "three BDs; three BDs; BD; BD |"),
    Planted("versions", "page", "RL bit size; BB mode", "BB mode; RL bit size"),
    Planted("versions", "page", "layer; linetype where it isn't by layer; previous and next where it has links |", "previous and next where it has links; layer; linetype where it isn't by layer |"),
    Planted("versions", "page", "BD height; BD width; TV text", "BD width; BD height; TV text"),
    Planted("versions", "page", "| owner; reactors; xdict | the same |", "| owner; xdict; reactors | the same |"),
    Planted("versions", "page", "| xref; a style for each dash |", "| a style for each dash; xref |"),
    Planted("versions", "page", "two RDs for each point;", "two RDs for the first point; two DDs for each next;"),
    Planted("versions", "page", "| xref, linetype |", "| the same |"),
    Planted("versions", "page", "| INSERT's; BS; BS; BD; BD | no body | INSERT's | no body |", "| INSERT's; BS; BS; BD; BD | INSERT's; BS; BS; BD; BD | INSERT's | the same |"),
    Planted("versions", "page", "| TEXT's; TV; BS; RC | TEXT's; TV; BS; RC |", "| TEXT's; TV; BS; RC | the same |"),
    Planted("versions", "page", "weight 1, 2, 4 and 8 in", "weight 1, 4, 2 and 8 in"),
    Planted("versions", "page", "| DICTIONARY, XRECORD | cloning is 0 |", "| DICTIONARY | cloning is 0 |"),
    Planted("versions", "page", "plotstyle is 5.0 |", "plotstyle is 4.0 |"),
    Planted("versions", "page", "values is at most 15", "values is at most 16"),
    Planted("versions", "grammar", "thickness version = in_version version bd bt", "thickness version = in_version version bt bd"),
    Planted("versions", "grammar", "NOWHERE = record { code = 5; target = 0 }", "NOWHERE = record { code = 4; target = 0 }"),
    Planted("versions", "common", "since_1015 version 0 rc)", "since_1015 version 29 rc)"),
    Planted("versions", "shapes", "before_next Ac1014 point = None", "before_next Ac1014 point = Some point"),
    Planted("versions", "entities", "in_version version bd3 newer_scale", "newer_scale"),
    Planted("versions", "entries", "in_version version layer_flags bs", "bs"),
    Planted("versions", "entries", "weight two 2 + weight four 4", "weight two 4 + weight four 2"),
    Planted("versions", "code", "impl BodyCode14 for Circle ", "impl BodyCode15 for Circle "),
    Planted("versions", "objects", "(only_1015 version (ray_body base))", "(ray_body base)"),
    Planted("versions", "objects", "(circle_body version base)", "(only_1015 version (circle_body base))"),
]


class Tables(unittest.TestCase):
    """The tables of the page against the definitions, row by row and both ways. No program is needed."""

    def test_as_defined(self) -> None:
        for name, check in CHECKS.items():
            with self.subTest(name):
                self.assertEqual(check(SOURCES), [])

    def test_sizes(self) -> None:
        page = SOURCES.page
        self.assertEqual(len(set(tables.page_kinds(page).values())), 37)
        self.assertEqual(len(tables.PageNeeds(page).fields()), 25)
        self.assertEqual(sorted(tables.page_refusals(page)), list(range(1, 38)))
        self.assertEqual(sorted(tables.page_items(page)), [0, 2, 3, 4, 5, 10, 11, 12, 13, 40, 41, 42, 70, 71])
        self.assertEqual(len(tables.PageFields(page).table()), 36)
        self.assertEqual(parts.PageParts(page).codes("three BDs; a BD; four Bs of x; so many bytes", parts.OLDER), ["three BD", "BD", "B", "B", "B", "B", "bytes"])
        self.assertEqual(sorted(tables.page_statuses(page)), list(range(9)))

    def test_changes_are_seen(self) -> None:
        for planted in PLANTED:
            with self.subTest(planted):
                text = getattr(SOURCES, planted.source)
                self.assertEqual(text.count(planted.old), 1)
                changed = SOURCES._replace(**{planted.source: text.replace(planted.old, planted.new)})
                self.assertNotEqual(CHECKS[planted.check](changed), [])


class Example(unittest.TestCase):
    """The example of the page is what is written by its rules."""

    def test_bytes(self) -> None:
        said = tables.rows(SOURCES.page, "An example", "place", "bytes", "meaning")
        at = 0
        for place, part, _ in said:
            self.assertEqual(int(place), at)
            at += len(bytes.fromhex(part))
        self.assertEqual(bytes.fromhex("".join(part for _, part, _ in said)), by_format.file_of(1))

    def test_bits(self) -> None:
        said = tables.rows(SOURCES.page, "An example", "bits", "meaning")
        self.assertEqual("".join(part.strip("`") for part, _ in said), by_format.dictionary(1))

    def test_older(self) -> None:
        """The other version's example has the bytes that differ, and its words have the rest."""
        heading, written = "The same in AC1014", by_format.file_of(1, by_format.OLDER)
        for place, part, _ in tables.rows(SOURCES.page, heading, "place", "bytes", "meaning"):
            self.assertEqual(written[int(place) :][: len(bytes.fromhex(part))], bytes.fromhex(part))
        bits = "".join(part.strip("`") for part, _ in tables.rows(SOURCES.page, heading, "bits", "meaning"))
        self.assertEqual(bits, by_format.dictionary(1, by_format.OLDER))
        said = tables.section(SOURCES.page, heading).replace("\n", " ")
        word = written[52:54].hex(" ").upper()
        self.assertIn(f"The file has {len(written)} bytes, and what differs is this. The check word at 52 is {word}, the map begins at {written[44]},", said)
        newer = bytearray(by_format.file_of(1))
        self.assertEqual((written[6:44], written[54:183], written[198:]), (newer[6:44], newer[54:183], newer[199:]))


class Written(unittest.TestCase):
    """The program takes what is written by the page alone for what it would write itself."""

    def setUp(self) -> None:
        import made  # pylint: disable=import-outside-toplevel

        made.needs_program()
        self.dwg = made.dwg

    def test_rewritten(self) -> None:
        for handle in (1, 0x7F, 0x80, 0x1234, 2**63 - 1):
            for version in (by_format.OLDER, by_format.NEWER):
                written = by_format.file_of(handle, version)
                ran = self.dwg("rewrite", given=written)
                self.assertEqual((ran.returncode, ran.stdout, ran.stderr), (0, written, b""))

    def test_shown(self) -> None:
        ran = self.dwg("show", given=by_format.file_of(0x1F))
        lines = ["objects 1", "object 1F DICTIONARY typed 42", "  owner 4.0", "  xdict 3.0", "  cloning 0", "  hard_owner 0"]
        self.assertEqual((ran.returncode, ran.stdout.decode().splitlines()[-6:], ran.stderr), (0, lines, b""))


if __name__ == "__main__":
    unittest.main()
