"""The codes and the references of common parts and bodies, in each version: by the table of docs/FORMAT.md and by the definitions.

A definition is read as an expression of combinators. What it spells is the list of its codes in their order, so that what they depend on and how
often they stand isn't compared: `a BD for each bulge` is a BD. Of references the fields that name them are compared too; of main bits only that
the fields stand in their order. A combinator or a name that isn't known is an error.
"""

from __future__ import annotations

import re
from typing import Any, Dict, List, Mapping, NamedTuple, Optional, Sequence, Set, Tuple, Union

import format_tables as tables

OLDER, NEWER = "AC1014", "AC1015"

# The crates of definitions, each before those that it stands on.
CRATES = ("dwg_dicts", "dwg_tables", "dwg_entities", "dwg_shapes", "dwg_common", "dwg_grammar")

COMMON = {tables.ENTITY: ("EntityCommon", "entity_common"), tables.OTHER: ("ObjectCommon", "object_common")}

# What stands in a cell of AC1014 where it is as in AC1015, and where the kind has no body there.
SAME, NO_BODY = "the same", "no body"


class Part(NamedTuple):
    """The codes of the main bits; the references, each as the condition on which it is there, most often empty; and the fields that name them."""

    codes: List[str]
    references: List[str]
    referring: List[str]


# Both versions of a part; where AC1014 has no such body, the second is none and the first isn't told.
Both = Tuple[Part, Optional[Part]]
UNTOLD = Part([], [], [])
# What no page tells: the definitions give a kind a body in AC1014 and the code doesn't, or the other way round.
UNCLEAR = Part(["unclear"], [], [])

# ---------------------------------------------------------------------------------------------------------------------
# Definitions
# ---------------------------------------------------------------------------------------------------------------------

# A word, or what stands between brackets.
Term = Union[str, List[Any]]

TOKEN = re.compile(r'"[^"]*"|[(){}\[\]]|⋄|λ|\.(?=\s)|[^\s(){}\[\]"⋄λ]+?(?=\.?[\s(){}\[\]]|\.?$)')

# Codes by which the tables of the page are made; what isn't told by its bits there has a name.
CODES: Dict[str, List[str]] = {
    **{code: [code.upper()] for code in ("b", "bb", "rc", "rs", "rl", "rd", "bs", "bl", "bd", "dd", "bt", "be", "tv")},
    "rd2": ["two RD"],
    "dd2": ["two DD"],
    "bd3": ["three BD"],
    "width_pair": ["two BD"],
    "app_list": ["application data"],
    "entry_main": ["entry"],
    "newer_scale": ["scale"],
    "mark_counts": ["RC", "RC"],
    "always": [],
    "no_refs": [],
}

# Which arguments of a combinator hold codes, or references, in the order of their bits; -1 is the last.
ARGUMENTS: Dict[str, Sequence[int]] = {
    "seq": (0, 1),
    "shaped": (-1,),
    "image": (-1,),
    "restrict": (-1,),
    "tagged": (0, 1),
    "when": (-1,),
    "unless": (-1,),
    "items_where": (0,),
    "then_refs": (0, 1),
    "seen_refs": (-1,),
    "maybe_refs": (-1,),
}

# The conditions of references that the page tells by words of their own.
CONDITIONS = ("mode == 0", "not nolinks", "linetype_flag == 3", "plotstyle_flag == 3")

# What says that references are there, or how many, and is fixed in AC1014 so that there are none.
NEVER_OLDER = ("plotstyle_flag == 3", "length counts")


def crate_definitions(crate: str) -> str:
    """The definitions of a crate, without the laws."""
    return "".join(path.read_text(encoding="utf-8") for path in sorted((tables.TOP / "crates" / crate / "specs").glob("*.antt")) if not path.stem.endswith("Laws"))


def crate_code(crate: str) -> str:
    """The code of a crate."""
    return "".join(path.read_text(encoding="utf-8") for path in sorted((tables.TOP / "crates" / crate / "src").rglob("*.rt")))


def nested(text: str) -> List[Any]:
    """The words of an expression, with a list for what stands between brackets."""
    stack: List[List[Any]] = [[]]
    for token in TOKEN.findall(text):
        if token in ("(", "{", "["):
            stack.append([])
        elif token in (")", "}", "]"):
            inner = stack.pop()
            stack[-1].append(inner)
        else:
            stack[-1].append(token)
    if len(stack) != 1:
        raise ValueError(f"brackets don't match: {text}")
    return stack[0]


def said(term: Term) -> str:
    """A term as a text."""
    return term if isinstance(term, str) else " ".join(said(part) for part in term)


class Definitions:
    """The definitions of codes, references and bodies, by their names."""

    def __init__(self, texts: Mapping[str, str]) -> None:
        """Takes the definitions of each crate, whose name is found first in the crate itself."""
        self.clauses: Dict[str, Dict[str, List[Tuple[str, str]]]] = {crate: clauses_of(text) for crate, text in texts.items()}
        self.fixed: List[str] = []
        self.versioned = {name for text in texts.values() for name in re.findall(r"^(?:unfoldable|abbrev) pub (\w+) : Version →", text, re.M)}

    def clauses_for(self, name: str, crate: str) -> Tuple[str, List[Tuple[str, str]]]:
        """The crate of a name that is seen from a crate, and its clauses: arguments and what they are defined as."""
        for other in CRATES[CRATES.index(crate) :]:
            if name in self.clauses[other]:
                return other, self.clauses[other][name]
        raise ValueError(f"{name} isn't defined")

    def flat(self, term: Term, version: str, crate: str) -> List[str]:
        """The codes, or the conditions of the references, that an expression stands for in a version."""
        words = [term] if isinstance(term, str) else term
        if "λ" in words[:1]:
            return self.flat(words[words.index(".") + 1 :], version, crate)
        if "⋄" in words:
            at = words.index("⋄")
            return self.flat(words[:at], version, crate) + self.flat(words[at + 1 :], version, crate)
        if len(words) == 1 and not isinstance(words[0], str):
            return self.flat(words[0], version, crate)
        return self.applied(words[0], with_lambdas(words[1:]), version, crate)

    def applied(self, head: str, arguments: List[Any], version: str, crate: str) -> List[str]:
        """The same of a combinator, a code or another name, with its arguments."""
        if head in CODES:
            return CODES[head]
        if head in ("in_version", "refs_in_version"):
            return self.flat(arguments[1 if version == OLDER else 2], version, crate)
        if head in ("since_1015", "until_1014"):
            if (head == "since_1015") == (version == NEWER):
                return self.flat(arguments[2], version, crate)
            self.fixed.append(said(arguments[1]))
            return []
        if head == "ref_since_1015":
            if version == NEWER:
                return [""]
            self.fixed.append("NOWHERE")
            return []
        if head in ("some_refs", "maybe_refs") and version == OLDER and {said(one) for one in arguments} & set(NEVER_OLDER):
            return []
        if head in ("one_ref", "some_refs", "two_refs"):
            return ["", ""] if head == "two_refs" else [""]
        if head == "items":
            return ["bytes"] if arguments[0] == "rc" else self.flat(arguments[0], version, crate)
        if head == "counted":
            return self.flat(arguments[0], version, crate) + (["bytes"] if arguments[1] == "rc" else self.flat(arguments[1], version, crate))
        if head == "chain":
            # (where nothing is told of what stands before, each is told as the first is)
            before = self.named_clauses(arguments[1][0], version, crate)
            only = " None" if [meaning.strip() for _, meaning in before[1]] == ["None"] else ""
            home, clauses = self.clauses_for(arguments[0], crate)
            return [one for told, meaning in clauses if told.startswith(only) for one in self.flat(nested(meaning), version, home)]
        if head in ARGUMENTS:
            found = [one for at in ARGUMENTS[head] for one in self.flat(arguments[at], version, crate)]
            condition = said(arguments[0]) if head == "maybe_refs" else ""
            return [condition if condition in CONDITIONS else one for one in found]
        return self.named(head, version, crate)

    def named(self, name: str, version: str, crate: str) -> List[str]:
        """The same of a name."""
        home, clauses = self.named_clauses(name, version, crate)
        return [one for _, meaning in clauses for one in self.flat(nested(meaning), version, home)]

    def named_clauses(self, name: str, version: str, crate: str) -> Tuple[str, List[Tuple[str, str]]]:
        """The crate of a name, and its clauses, of those that are told by the version just those of it."""
        other = NEWER if version == OLDER else OLDER
        home, clauses = self.clauses_for(name, crate)
        return home, [clause for clause in clauses if other.capitalize() not in clause[0]]

    def part(self, name: str, version: str) -> Part:
        """The codes and the references of a body."""
        crate = next(crate for crate in CRATES if name in self.clauses[crate])
        return self.body(nested(self.clauses[crate][name][0][1]), version, crate)

    def fixed_values(self, name: str) -> Set[str]:
        """The values of a body that AC1014 doesn't spell, in the words of the page."""
        self.fixed = []
        self.part(name, OLDER)
        nowhere = re.fullmatch(r"record \{ code = (\d+); target = (\d+) \}\n", self.clauses_for("NOWHERE", "dwg_grammar")[1][0][1])
        assert nowhere is not None
        words = {"NOWHERE": f"{nowhere[1]}.{nowhere[2]}", "false": "0", "NO_EXTRAS": "empty"}
        return {word for value in self.fixed for word in ([words[value]] if value in words else re.findall(r"\b\d+\b", value))}

    def body(self, words: List[Any], version: str, crate: str) -> Part:
        """The same of what a body is defined as."""
        head, arguments = words[0], with_lambdas(words[1:])
        if head == "body":
            fields, slots = self.fields(arguments[-1], crate), self.slots(arguments[1], version, crate)
            if len(fields) not in (0, len(slots)):
                raise ValueError(f"so many fields have other references: {fields}")
            # (what several kinds share has no fields yet)
            referring_fields = [fields[at] for at, is_there in slots if is_there] if fields else []
            return Part(self.flat(arguments[0], version, crate), self.flat(arguments[1], version, crate), referring_fields)
        if head == "main_body":
            return Part(self.flat(arguments[0], version, crate), [], [])
        if head == "to_end":
            return Part(self.flat(arguments[1], version, crate), [""], self.fields(arguments[-1], crate))
        # (and takes them as its second argument)
        home, clauses = self.clauses_for(head, crate)
        return self.body(nested(clauses[0][1]), version, home)._replace(referring=self.fields(arguments[1], crate))

    def fields(self, term: Term, crate: str) -> List[str]:
        """The fields that a function takes of a value, in their order."""
        words = [term] if isinstance(term, str) else term[term.index(".") + 1 :] if "λ" in term[:1] else term
        found: List[str] = []
        for at, word in enumerate(words):
            if not isinstance(word, str):
                found.extend(self.fields(word, crate))
            elif "." in word:
                found.append(word.rstrip(",").split(".")[-1])
            elif word in self.clauses[crate] and "." not in said(words[at + 1 : at + 2]):
                found.extend(self.fields(nested(self.clauses[crate][word][0][1]), crate))
        return found

    def slots(self, term: Term, version: str, crate: str) -> List[Tuple[int, bool]]:
        """The references one after the other: at which place each stands in a value, and whether it is there in a version."""
        words = [term] if isinstance(term, str) else term
        if "λ" in words[:1]:
            return self.slots(words[words.index(".") + 1 :], version, crate)
        if len(words) == 1 and not isinstance(words[0], str):
            return self.slots(words[0], version, crate)
        head, arguments = words[0], with_lambdas(words[1:])
        if head == "then_refs":
            first, others = (self.slots(argument, version, crate) for argument in arguments)
            return first + [(at + len(first), is_there) for at, is_there in others]
        if head == "refs_in_version":
            return self.slots(arguments[1 if version == OLDER else 2], version, crate)
        if head == "seen_refs":
            # (of each part of the value, how many stand before it)
            places = [path.count("1") for path in re.findall(r"parts\.([01.]*[01])", said(arguments[0]))]
            return [(places.index(at), is_there) for at, is_there in self.slots(arguments[2], version, crate)]
        if head in ("one_ref", "some_refs", "maybe_refs", "ref_since_1015"):
            return [(0, bool(self.flat(words, version, crate)))]
        if head == "no_refs":
            return []
        home, clauses = self.clauses_for(head, crate)
        return self.slots(nested(clauses[0][1]), version, home)


def with_lambdas(words: List[Any]) -> List[Any]:
    """Arguments, where a function that isn't between brackets goes to the end."""
    return [*words[: words.index("λ")], words[words.index("λ") :]] if "λ" in words else words


def clauses_of(text: str) -> Dict[str, List[Tuple[str, str]]]:
    """The clauses of each name that a text defines."""
    found: Dict[str, List[Tuple[str, str]]] = {}
    for name, arguments, meaning in re.findall(r"^(\w+)((?:[^=\n]|\n )*?) =\s((?:.*\n)(?:[ }].*\n)*)", text, re.M):
        found.setdefault(name, []).append((arguments, meaning))
    return found


def own_bodies(objects: str) -> Dict[str, str]:
    """The name of the body of each kind, by the kind's variant."""
    found = dict(re.findall(r"^own_body version kinds\.(\w+) base = .*?\((?:only_1015 version \()?(\w+_body)\b[^()]*\)+$", objects, re.M))
    if len(found) != len(re.findall(r"^own_body .*variant bodies", objects, re.M)):
        raise ValueError("a body isn't understood")
    return found


def newer_alone(objects: str) -> Set[str]:
    """The variants of the kinds whose body AC1015 alone has."""
    return set(re.findall(r"^own_body version kinds\.(\w+) base = .*\(only_1015 version ", objects, re.M))


def bodies_of(kinds: str, objects: str) -> Dict[str, Tuple[str, str]]:
    """The struct and the definition of each part, by the page's name of it."""
    names = tables.names_of_kinds(kinds)
    return {**COMMON, **{names[variant]: (variant, body) for variant, body in own_bodies(objects).items()}}


def defined_parts(definitions: Definitions, kinds: str, objects: str, code: str) -> Dict[str, Both]:
    """Both versions of each part that AC1014 has, by the definitions and by the code; for each other kind with a body none."""
    older, newer = set(re.findall(r"^impl BodyCode14 for (\w+)", code, re.M)), newer_alone(objects)
    found: Dict[str, Both] = {}
    for name, (struct, body) in bodies_of(kinds, objects).items():
        found[name] = (definitions.part(body, NEWER), definitions.part(body, OLDER)) if struct in older - newer else (UNTOLD, None if struct in newer - older else UNCLEAR)
    return found


def defined_fixed(definitions: Definitions, kinds: str, objects: str, code: str) -> Dict[str, Set[str]]:
    """The values of each part that are fixed in AC1014, where there are any."""
    older = set(re.findall(r"^impl BodyCode14 for (\w+)", code, re.M))
    found = {name: definitions.fixed_values(body) for name, (struct, body) in bodies_of(kinds, objects).items() if struct in older}
    return {name: values for name, values in found.items() if values}


def page_fixed(page: str) -> Dict[str, Set[str]]:
    """And by the page, where a text of which no field is absent has the flags 0."""
    said_of = {name: said_part for row in tables.rows(page, "Versions", "part", "fixed in AC1014") for name in names_of(row[0]) for said_part in row[1:]}
    words = {name: said_part.replace("no field of the text is absent", "0") for name, said_part in said_of.items()}
    return {name: set(re.findall(r"(?<![\d.])(?:5\.0|empty|0|3)(?![\d.])", said_part)) for name, said_part in words.items()}


def defined_weights(definitions: Definitions) -> Dict[str, List[int]]:
    """What each B of a layer is worth, and the most that its values can be, by the definitions."""

    def numbers(name: str, before: str) -> List[int]:
        return [int(number) for number in re.findall(before + r" (\d+)", definitions.clauses_for(name, "dwg_tables")[1][0][1])]

    read, written = numbers("all_weight", r"weight [\w.]+"), numbers("flags_in", r"has values")
    return {"weights": read if read == written else [], "most": [number - 1 for number in numbers("layer_flags", r"values <")]}


def page_weights(page: str) -> Dict[str, List[int]]:
    """And by the page."""
    weights = re.search(r"four Bs of values, of weight ([\d, and]+) in this order", page)
    assert weights is not None
    return {"weights": tables.numbers_of(weights[1]), "most": [int(number) for number in re.findall(r"values is at most (\d+)", page)]}


def defined_same(definitions: Definitions, kinds: str, objects: str) -> Dict[str, bool]:
    """The kinds whose body is defined without a version."""
    return {name: True for name, (_, body) in bodies_of(kinds, objects).items() if name not in COMMON and body not in definitions.versioned}


# ---------------------------------------------------------------------------------------------------------------------
# The page
# ---------------------------------------------------------------------------------------------------------------------

HEAD = ("part", "fields", "main bits in AC1015", "main bits in AC1014", "references in AC1015", "references in AC1014")

OF_CODES = "BB|RC|RS|RL|RD|BS|BL|BD|DD|BT|BE|TV|B"
CODE = re.compile(rf"\b((?:two |three |four )?)({OF_CODES})s?\b|\b(bytes)\b")

# A field after its code, where a part of the main bits begins.
NAMED = re.compile(rf"; (?:two |three )?(?:{OF_CODES})s? (\w+)")

# What is said of references that a field has together, or for each of its members.
TOGETHER = {
    "previous and next": "links",
    "first and last": "ends",
    "first, last, seqend": "attributes",
    "a target for each insert": "inserts",
    "a target for each item": "items",
    "a style for each dash": "dashes",
}

# The conditions of references in words, and what the definitions have for them: of a flag the name of the field stands before it.
WHERE = {"the mode is 0": "mode == 0", "it has links": "not nolinks", "its flag is 3": "{}_flag == 3", "it isn't by layer": "{}_flag == 3"}


class PageParts:
    """What the table of common parts and bodies says."""

    def __init__(self, page: str) -> None:
        self.rows = {name: row for row in tables.rows(page, "Common parts and bodies", *HEAD) for name in names_of(row[0])}

    def codes(self, cell: str, version: str) -> List[str]:
        """The codes of main bits, with those of the rows that they name."""
        found: List[str] = []
        for said_part in [] if cell == "none" else cell.split("; "):
            named = re.fullmatch(r"(\S.*)'s", said_part)
            if named:
                found.extend(self.part(named[1], version).codes)
            elif said_part in ("application data", "entry", "scale"):
                found.append(said_part)
            else:
                found.extend(one for times, code, run in CODE.findall(said_part) for one in ([code] * 4 if times == "four " else [times + (code or run)]))
        return found

    def part(self, name: str, version: str) -> Part:
        """A part in a version."""
        _, _, newer, older, refs, older_refs = self.rows[name]
        if version == NEWER:
            return Part(self.codes(newer, version), references(refs), referring(refs))
        told = refs if older_refs == SAME else older_refs
        return Part(self.codes(newer if older == SAME else older, version), references(told), referring(told))

    def parts(self) -> Dict[str, Both]:
        """Both versions of each part that AC1014 has; for each other none."""
        return {name: (self.part(name, NEWER), self.part(name, OLDER)) if row[3] != NO_BODY else (UNTOLD, None) for name, row in self.rows.items()}

    def same(self) -> Dict[str, bool]:
        """The kinds whose body is the same in both versions, or has one version alone."""
        return {name: True for name, row in self.rows.items() if row[3] in (SAME, NO_BODY)}

    def out_of_order(self) -> List[str]:
        """The parts whose main bits name fields in another order than theirs."""
        found: List[str] = []
        for name, row in self.rows.items():
            fields = row[1].split(", ")
            for cell in row[2:4]:
                named = [field for field in NAMED.findall("; " + cell) if field in fields]
                found.extend([name] if named != sorted(named, key=fields.index) else [])
        return found

    def told_otherwise(self) -> List[str]:
        """The parts whose references are told in AC1014, though they are the same there, or though there are none."""
        return [name for name, row in self.rows.items() if (row[3] == NO_BODY) != (row[5] == NO_BODY) or row[4] == row[5] != NO_BODY]


def names_of(cell: str) -> List[str]:
    """The kinds of a row, or its common part."""
    return cell.split(", ")


def references(cell: str) -> List[str]:
    """The references of a cell, each as its condition."""
    found: List[str] = []
    for said_part in [] if cell == "none" else cell.split("; "):
        names, _, condition = said_part.partition(" where ")
        if condition in WHERE:
            found.extend(WHERE[condition].format(name) for name in names.split(" and "))
        else:
            found.extend("" for _ in re.split(r", | and ", said_part))
    return found


def referring(cell: str) -> List[str]:
    """The fields that name the references of a cell."""
    for words, field in TOGETHER.items():
        cell = cell.replace(words, field)
    return [part.split(" ")[-1 if part.startswith("where ") else 0] for part in re.split("; |, ", cell)] if cell != "none" else []
