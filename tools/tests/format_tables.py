"""The tables of docs/FORMAT.md and the definitions that they restate, each read into the same values.

The page is read by its headings and heads of tables, the definitions by their lines. Both are texts that are given, so that a test can change them.
A line of either that isn't understood is an error: nothing is passed over.
"""

from __future__ import annotations

import pathlib
import re
from typing import Any, Dict, Iterable, Iterator, List, Mapping, Optional, Sequence, Tuple

TOP = pathlib.Path(__file__).resolve().parents[2]
PAGE = TOP / "docs" / "FORMAT.md"

# What a reference must lead to: kinds, `entity`, `any` and `null` in order of the alphabet, with ` or ` between.
Need = str


def definitions(crate: str, name: str) -> str:
    """The text of a module of definitions."""
    return (TOP / "crates" / crate / "specs" / f"{name}.antt").read_text(encoding="utf-8")


def differences(page: Mapping[Any, Any], defined: Mapping[Any, Any]) -> List[str]:
    """The rows that differ, both ways: a row that one side lacks is None there."""
    keys = sorted({*page, *defined}, key=str)
    return [f"{key}: the page has {page.get(key)}, the definitions {defined.get(key)}" for key in keys if page.get(key) != defined.get(key)]


# ---------------------------------------------------------------------------------------------------------------------
# The page
# ---------------------------------------------------------------------------------------------------------------------


def cells_of(line: str) -> List[str]:
    """The cells of a line of a table."""
    return [cell.strip().replace("\\|", "|") for cell in re.split(r"(?<!\\)\|", line)[1:-1]]


def tables(text: str) -> Iterator[List[List[str]]]:
    """The tables of a text: a head and rows each."""
    table: List[List[str]] = []
    for line in [*text.splitlines(), ""]:
        if line.startswith("|"):
            table.append(cells_of(line))
        elif table:
            yield [table[0], *table[2:]]
            table = []


def section(page: str, heading: str) -> str:
    """What stands under a heading, up to the next one."""
    found = re.search(rf"^##+ {re.escape(heading)}\n(.*?)(?=^##|\Z)", page, re.M | re.S)
    if found is None:
        raise ValueError(f"the page has no section {heading}")
    return found[1]


def rows(page: str, heading: str, *head: str) -> List[List[str]]:
    """The rows of the tables of a section that have this head."""
    found = [row for table in tables(section(page, heading)) if table[0] == list(head) for row in table[1:]]
    if not found:
        raise ValueError(f"the section {heading} has no table {head}")
    return found


def need_of(words: Iterable[str]) -> Need:
    """A need of these words."""
    return " or ".join(sorted(set(words)))


def numbers_of(said: str) -> List[int]:
    """The numbers that are said as `10, 12 to 15 and 20`."""
    found: List[int] = []
    for part in re.split(r", | and ", said):
        first, _, last = part.partition(" to ")
        found.extend(range(int(first), int(last or first) + 1))
    return found


# ---------------------------------------------------------------------------------------------------------------------
# Kinds
# ---------------------------------------------------------------------------------------------------------------------

KIND_ROW = re.compile(r'row (?:None|\(Some (\d+)\)) (\w+) \(codes "([^"]+)"\) (true|false) (None|\(Some (?:\w+|\(\w+ \w+\))\))')

# A number of each of these is told by the page, up to the first that a class can have.
FIXED_NUMBERS = range(500)


def kind_rows(kinds: str) -> List[Tuple[Optional[int], str, str, bool, str]]:
    """The rows of all kinds: number, variant, printed name, whether it is one of entities, and what owns it."""
    begin, end = kinds.index("abbrev pub UNKNOWN"), kinds.index("-- the place of a kind")
    found = KIND_ROW.findall(kinds[begin:end])
    if len(found) != kinds[begin:end].count("codes "):
        raise ValueError("a row of the kinds isn't understood")
    return [(int(number) if number else None, variant, name, is_entity == "true", owner) for number, variant, name, is_entity, owner in found]


def names_of_kinds(kinds: str) -> Dict[str, str]:
    """The printed name of each kind, by its variant."""
    return {variant: name for _, variant, name, _, _ in kind_rows(kinds)}


def defined_runs(kinds: str, name: str) -> List[int]:
    """The numbers in a list of runs."""
    found = re.search(rf"^{name} = (.*)$", kinds, re.M)
    if found is None:
        raise ValueError(f"no runs {name}")
    return [number for first, last in re.findall(r"\((\d+), (\d+)\)", found[1]) for number in range(int(first), int(last) + 1)]


def defined_kinds(kinds: str) -> Dict[int, str]:
    """The kind of each number that no class can have, by the definitions."""
    found = {number: "UNKNOWN" for number in FIXED_NUMBERS}
    found.update({number: "OBJECT" for number in defined_runs(kinds, "PLAIN_OBJECTS")})
    found.update({number: "ENTITY" for number in defined_runs(kinds, "PLAIN_ENTITIES")})
    found.update({number: name for number, _, name, _, _ in kind_rows(kinds) if number is not None})
    return found


def page_kinds(page: str) -> Dict[int, str]:
    """And by the page."""
    runs = {kind: said for said, kind in rows(page, "Kinds", "numbers", "kind")}
    found = {number: "UNKNOWN" for number in FIXED_NUMBERS}
    typed = [pair for row in rows(page, "Kinds", "number", "kind", "number", "kind") for pair in (row[:2], row[2:])]
    for kind in ("ENTITY", "OBJECT"):
        found.update({number: kind for number in numbers_of(runs[kind])})
    found.update({int(number): kind for number, kind in typed})
    if len({number for number, _ in typed}) != len(typed):
        raise ValueError("a number stands twice in the table of kinds")
    return found


def defined_class_kinds(kinds: str, hints: str) -> Dict[Tuple[str, str], str]:
    """The kind of a number that a class can have, by the item class and the DXF name, by the definitions."""
    names = names_of_kinds(kinds)
    of_hint = {hint: names[variant] for hint, variant in re.findall(r"^hinted_kind_of hint\.(\w+) = (\w+)$", kinds, re.M)}
    found = {("any other, or no class of the number", ""): " and ".join(sorted({of_hint["Absent"], of_hint["Other"]}))}
    for item, name, named, other in re.findall(r'class\.item == (\d+) then \(if bytes_eq class\.dxf_name \(codes "(\w+)"\) then (\w+) else (\w+)\)', hints):
        found.update({(item, f"`{name}`"): of_hint[named], (item, "any other"): of_hint[other]})
    return found


def page_class_kinds(page: str) -> Dict[Tuple[str, str], str]:
    """And by the page."""
    return {(item, name): kind for item, name, kind in rows(page, "Kinds", "item class", "DXF name", "kind")}


def defined_entities(kinds: str) -> Dict[str, bool]:
    """The kinds that are ones of entities, by the definitions."""
    return {name: True for _, _, name, is_entity, _ in kind_rows(kinds) if is_entity}


def page_entities(page: str) -> Dict[str, bool]:
    """And by the page."""
    said = re.search(r"^Entities are the kinds of (.*), and ENTITY\.$", section(page, "Kinds"), re.M)
    if said is None:
        raise ValueError("the page doesn't say which kinds are ones of entities")
    kinds = page_kinds(page)
    return {"ENTITY": True, **{kinds[number]: True for number in numbers_of(said[1])}}


# ---------------------------------------------------------------------------------------------------------------------
# Fields and needs
# ---------------------------------------------------------------------------------------------------------------------


def defined_fields(needs: str) -> Dict[int, Tuple[str, str]]:
    """The variant and the printed name of each field, by its number."""
    begin, end = needs.index("FIELD_ROWS =\n"), needs.index("-- the row of a field")
    found = re.findall(r'row (\d+) (\w+) \(codes "(\w+)"\)', needs[begin:end])
    if len(found) != needs[begin:end].count("codes "):
        raise ValueError("a row of the fields isn't understood")
    return {int(number): (variant, name) for number, variant, name in found}


class DefinedNeeds:
    """What `need_of` says of each field and holder."""

    def __init__(self, kinds: str, needs: str, sound: str) -> None:
        self.rows = {row[1]: row for row in kind_rows(kinds)}
        self.fields = {variant: name for variant, name in defined_fields(needs).values()}
        self.clauses: Dict[str, List[Tuple[str, str]]] = {}
        for name, holder, said in re.findall(r"^(\w+_need) (\S+) = (.*)$", needs, re.M):
            self.clauses.setdefault(name, []).append((holder, said))
        self.by_field = dict(re.findall(r"^need_of (\w+) holder = (.*)$", needs, re.M))
        attributed = re.search(r"^Meets objects Attributed target = (.*)$", sound, re.M)
        assert attributed is not None
        self.attributed = need_of(self.rows[variant][2] for variant in re.findall(r"kinds\.(\w+)", attributed[1]))

    def need(self, said: str) -> Optional[Need]:
        """The value of an expression for a need, none for `None`."""
        said = said.strip("()").replace("Some ", "").replace("kind.", "").strip("()")
        plain = {"Null": ["null"], "Any": ["any"], "NullOrAny": ["any", "null"], "Entity": ["entity"], "NullOrEntity": ["entity", "null"]}
        if said == "None":
            return None
        if said == "Attributed":
            return self.attributed
        if said in plain:
            return need_of(plain[said])
        form, variant = said.split(" ")
        return need_of([*{"Is": [], "NullOrIs": ["null"]}[form], self.rows[variant][2]])

    def of(self, said: str, holder: str) -> Optional[Need]:
        """What an expression says of a holder, by its variant."""
        one = re.fullmatch(r"of_one kind\.(\w+) (.*) holder", said)
        if one:
            return self.need(one[2]) if one[1] == holder else None
        entities = re.fullmatch(r"of_entities (.*) holder", said)
        if entities:
            return self.need(entities[1]) if self.rows[holder][3] else None
        if said == "(row_of holder).owner":
            return self.need(self.rows[holder][4])
        call = re.fullmatch(r"(\w+_need) holder", said)
        if call:
            return self.of(next(more for case, more in self.clauses[call[1]] if case in ("holder", f"kind.{holder}")), holder)
        return self.need(said)

    def table(self) -> Dict[Tuple[str, str], Need]:
        """The need of each field of each kind of holder that has it, by their printed names."""
        found = {(name, row[2]): self.of(self.by_field[variant], holder) for variant, name in self.fields.items() for holder, row in self.rows.items()}
        return {key: need for key, need in found.items() if need is not None}


class PageNeeds:
    """What the page says of each field and holder."""

    def __init__(self, page: str) -> None:
        self.rows = rows(page, "Fields and needs", "no", "field", "held by", "need")
        self.owners = rows(page, "Fields and needs", "of", "its owner")
        self.entities = set(page_entities(page))
        self.kinds = {"UNKNOWN", *page_kinds(page).values()}
        self.controls = {kind for kind in self.kinds if kind.endswith(" CONTROL")}

    def fields(self) -> Dict[int, str]:
        """The printed name of each field, by its number."""
        return {int(number): name.strip("`") for row in self.rows for number, name in zip(row[0].split(", "), row[1].split(", "))}

    def holders(self, said: str) -> List[str]:
        """The kinds that the words for holders mean."""
        if said in ("each item of application data", "every object", "each reactor"):
            return sorted(self.kinds)
        said = re.sub(r"^each (?:dash|insert|entry) of an? |, its first at position 0 and its second at 1$", "", said)
        found: List[str] = []
        for word in said.split(", "):
            group = {"entities": self.entities, "an entity with links": self.entities, "each control": self.controls}.get(word, {word})
            found.extend(group)
        unknown = set(found) - self.kinds
        if unknown:
            raise ValueError(f"no kinds: {unknown}")
        return found

    def need(self, said: str, holder: str) -> Need:
        """What the words for a need mean."""
        table = "BLOCK HEADER" if holder == "BLOCK CONTROL" else holder.replace(" CONTROL", "")
        control = "BLOCK CONTROL" if holder == "BLOCK HEADER" else f"{holder} CONTROL"
        said = said.replace(", or the kind of its entries", f" or {table}").replace("its control", control)
        words = re.split(r", | or ", said)
        unknown = set(words) - self.kinds - {"null", "any", "entity"}
        if unknown:
            raise ValueError(f"no needs: {unknown}")
        return need_of(words)

    def said(self) -> Iterator[Tuple[str, str, str]]:
        """What is said of each field: the field, words for holders, and words for their need."""
        for _, fields, held_by, needs in [*self.rows, *(["", "`owner`", *row] for row in self.owners)]:
            holders, alternatives = held_by.split("; "), needs.split("; ")
            if len(alternatives) not in (1, len(holders)):
                raise ValueError(f"so many needs for other holders: {held_by}")
            for at, group in enumerate(holders):
                for field in fields.split(", "):
                    yield field.strip("`"), group, alternatives[at % len(alternatives)]

    def table(self) -> Dict[Tuple[str, str], Need]:
        """The need of each field of each kind of holder that has it."""
        found: Dict[Tuple[str, str], Need] = {}
        for field, holders, need in self.said():
            for holder in self.holders(holders) if need != "see below" else []:
                if (field, holder) in found:
                    raise ValueError(f"{field} of {holder} stands twice on the page")
                found[field, holder] = self.need(need, holder)
        return found


# ---------------------------------------------------------------------------------------------------------------------
# Refusals
# ---------------------------------------------------------------------------------------------------------------------


def defined_refusals(refusals: str) -> Dict[int, Tuple[str, str]]:
    """The part and the reason of each line, by the definitions."""
    reasons = re.findall(r'codes "(\w+)"', refusals[refusals.index("REASONS =\n") : refusals.index("-- why a line of the table refuses")])
    said = refusals[refusals.index("part_word_of line =\n") : refusals.index("-- the reasons of the lines")]
    parts = [(int(last), word) for last, word in re.findall(r'nat_le line (\d+) then codes "(\w+)"', said)]
    others = re.findall(r'else codes "(\w+)"', said)
    return {line: (next((word for last, word in parts if line <= last), others[-1]), reason) for line, reason in enumerate(reasons, 1)}


def page_refusals(page: str) -> Dict[int, Tuple[str, str]]:
    """And by the page, where a row may say two lines, and `same` the parts of the row before."""
    found: Dict[int, Tuple[str, str]] = {}
    parts: List[str] = []
    for lines, said, reason, *_ in rows(page, "Refusals", "line", "part", "reason", "fails where", "index", "place"):
        parts = parts if said == "same" else said.split(", ")
        for line, part in zip(lines.split(", "), parts):
            if int(line) in found:
                raise ValueError(f"line {line} stands twice on the page")
            found[int(line)] = (part, reason)
    return found


# ---------------------------------------------------------------------------------------------------------------------
# Items of extended data
# ---------------------------------------------------------------------------------------------------------------------

# What each grammar of what follows a code is on the page.
FOLLOWS = {
    "marked_text": "RC n, two bytes of a mark, n bytes",
    "closing": "a byte 0 or 1",
    "handle": "8 bytes, the most significant first",
    "(counted rc rc)": "RC n, n bytes",
    "words_of_point": "three RDs",
    "rd": "RD",
    "rs": "RS",
    "rl": "RL",
}

# What each variant is called there.
SAYS = {
    "Text": "a text",
    "Brace": "a brace",
    "Layer": "a layer",
    "Bytes": "bytes",
    "Object": "an object",
    "Point": "a point",
    "Word": "a real number",
    "Short": "a number of 16 bits",
    "Long": "a number of 32 bits",
}


def defined_items(items: str) -> Dict[int, Tuple[str, str]]:
    """What follows each code byte and what it says, by the definitions."""
    lines = re.findall(r"choose \(([^()]*)\) \(variant (?:\((\w+) code\)|\((λ both\. \w+)[^()]*\)|(\w+)) \w+ (\w+|\([^()]*\))\)", items)
    if len(lines) != items[items.index("\nitem_by code =") :].count("choose ("):
        raise ValueError("a line of the items isn't understood")
    found: Dict[int, Tuple[str, str]] = {}
    for test, ranged, made, plain, grammar in lines:
        variant = ranged or plain or made.split(" ")[-1]
        codes = [int(number) for number in re.findall(r"\d+", test)]
        found.update({code: (FOLLOWS[grammar], SAYS[variant]) for code in range(codes[0], codes[-1] + 1)})
    return found


def page_items(page: str) -> Dict[int, Tuple[str, str]]:
    """And by the page, of which words after the first that name the item say more."""
    found: Dict[int, Tuple[str, str]] = {}
    for codes, follows, says in rows(page, "Items of extended data", "code", "what follows", "what it says"):
        name = re.split(r",| around ", says)[0]
        found.update({code: (follows, name) for code in numbers_of(codes)})
    return found


# ---------------------------------------------------------------------------------------------------------------------
# Fields of bodies
# ---------------------------------------------------------------------------------------------------------------------

Members = Dict[Tuple[str, str], Tuple[bool, Tuple[str, ...]]]

ENTITY, OTHER = "common part of an entity", "common part of another object"


class DefinedFields:
    """The fields that `show` prints, by the definitions."""

    def __init__(self, kinds: str, bodies: str, commons: str) -> None:
        self.printers: Dict[str, List[Tuple[str, str]]] = {}
        for name, said in re.findall(r"^unfoldable pub (\w+_fields) : .*\n((?:.+\n)+)", commons + bodies, re.M):
            self.printers[name] = re.findall(r'member path \(codes "(\w+)"\) (\w+|\(.*?\)+) \w+\.', said)
        names = names_of_kinds(kinds)
        self.holders = {names[variant]: name for variant, name in re.findall(r"^body_fields path \(bodies\.(\w+) body\) = (\w+) path body$", bodies, re.M)}
        self.holders.update({ENTITY: "entity_common_fields", OTHER: "object_common_fields"})

    def table(self) -> Dict[str, Tuple[str, ...]]:
        """The fields of each body and each common part, in their order."""
        return {holder: self.names(name) for holder, name in self.holders.items()}

    def names(self, printer: str) -> Tuple[str, ...]:
        """The names of what is printed."""
        return tuple(name for name, _ in self.printers[printer])

    def members(self) -> Members:
        """Of each field that is a struct, or a list of them, whether it is a list, and the members."""
        found: Members = {}
        for holder, name in self.holders.items():
            for field, printer in self.printers[name]:
                inner = re.search(r"\w+_fields", printer)
                if inner:
                    found[holder, field] = ("listed" in printer, self.names(inner[0]))
        return found


class PageFields:
    """And by the page."""

    def __init__(self, page: str) -> None:
        self.page = page

    def table(self) -> Dict[str, Tuple[str, ...]]:
        """The fields of each body and each common part, in their order."""
        found: Dict[str, Tuple[str, ...]] = {}
        for table in tables(self.page):
            if table[0][:2] == ["part", "fields"]:
                found.update({holder: names(row[1]) for row in table[1:] for holder in row[0].split(", ")})
        return found

    def members(self) -> Members:
        """Of each field that is a struct, or a list of them, whether it is a list, and the members."""
        found: Members = {}
        fields = self.table()
        for field, of, said in rows(self.page, "Members of fields", "field", "of", "members"):
            held = {"every common part": [ENTITY, OTHER], "the common part of an entity": [ENTITY]}.get(of, of.split(", "))
            those = re.match(r"those of (\w+):", said)
            members = fields[those[1]] if those else names(said)
            found.update({(holder, field.split(",")[0]): (field.endswith(", a list"), members) for holder in held})
        return found


def names(said: str) -> Tuple[str, ...]:
    """Names with commas between."""
    return () if said == "none" else tuple(said.split(", "))


# ---------------------------------------------------------------------------------------------------------------------
# Statuses
# ---------------------------------------------------------------------------------------------------------------------

# The notes with which a run of each status ends, where it isn't `recover`.
NOTES: Mapping[str, Sequence[str]] = {
    "Done": ["preview_dropped_note"],
    "Found": ["unsound_note"],
    "Usage": ["usage_note", "size_note"],
    "Refused": ["refusal_note"],
    "ReadFault": ["read_fault_note"],
    "TooLong": ["too_long_note"],
    "TooLarge": ["too_large_note"],
}

# What stands on the page for a part of a note.
PARTS = {
    "part_word_of refusal.line": "PART",
    "decimal refusal.index": "INDEX",
    "decimal refusal.place": "PLACE",
    "reason_word_of refusal.line": "REASON",
    "decimal size": "SIZE",
}


def defined_note(notes: str, name: str) -> str:
    """A note as the page writes it."""
    found = re.search(rf"^{name}(?: \w+)? = (?:line \()?(.*?)\)?$", notes, re.M)
    if found is None:
        raise ValueError(f"no note {name}")
    said = [part.rstrip(")") if part.startswith('codes "') else part for part in found[1].split(" ++ ")]
    return "".join(defined_note(notes, "refusal_words") if part == "refusal_words refusal" else PARTS.get(part) or part.split('"')[1] for part in said)


def defined_statuses(statuses: str, notes: str) -> Dict[int, List[str]]:
    """The notes of each status, by the definitions."""
    found = re.findall(r"^code_of \(?(\w+)[^=]* = (\d+)$", statuses, re.M)
    return {int(code): [defined_note(notes, note) for note in NOTES.get(name, [])] for name, code in found}


def page_statuses(page: str) -> Dict[int, List[str]]:
    """And by the page."""
    found: Dict[int, List[str]] = {}
    for status, _, note in rows(page, "Statuses", "status", "means", "note on standard error"):
        found.setdefault(int(status), []).extend(re.findall(r"`(dwg: .*?)`", note))
    return found
