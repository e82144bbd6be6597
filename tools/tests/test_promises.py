"""What PROMISES.md names is there, what it counts are the counts, and the pages and the map of the libraries are those of the sources."""

from __future__ import annotations

import re
import subprocess
import unittest
from typing import Dict, Iterator, NamedTuple, Set, Tuple

import made
from made import TOP

PAGE = (TOP / "docs" / "PROMISES.md").read_text(encoding="utf-8")
WORDS = " ".join(PAGE.split())
CRATES = made.module(TOP / "bench" / "crate_pages", "crate_pages")
CLAUSES = made.module(TOP / "bench" / "public_clauses", "public_clauses")

# A table of promises: each row has its function, or the head of the last column has that of all rows.
TABLE = re.compile(r"^\| promise \| (?:function \| clause|clause of `(?P<function>dwg_\w+::\w+)`) \|\n\|[-|]+\n(?P<rows>(?:\|.*\n)+)", re.M)
EDITS = re.compile(r"(\d+) (?:edits stand )?in the (?:long )?gate \(`([^`]*)`\)")

# Words between backticks that stand for what a reader names: a code of one's own, and the end of names.
STAND_FOR_OTHERS = {"mycode", "mycode_is_code", "Lemmas"}

SOURCES = ("crates/*/src/**/*.rt", "crates/*/specs/**/*.antt", "crates/*/proofs/**/*.antt", "tools/*", "tools/**/*.py", "bench/*", "dwg")
PLACES = ("*", "docs/*", "edits/*", "crates/*/*", "crates/*/src/**/*", "crates/*/proofs/**/*", "crates/*/must-fail/*")


class Promise(NamedTuple):
    """A row of the page: what is promised, the function, and its clauses."""

    words: str
    function: str
    clauses: Set[str]


def promises() -> Iterator[Promise]:
    """The rows of the page; a clause without a name is the empty one."""
    for table in TABLE.finditer(PAGE):
        for row in table["rows"].splitlines():
            words, *functions, clauses = (cell.strip() for cell in row.strip("|").split("|"))
            (function,) = [table["function"]] if table["function"] else [name.strip("`") for name in functions]
            yield Promise(words, function, set(re.findall(r"`(\w+)`", clauses)) or {""})


def contracts() -> Dict[str, Set[str]]:
    """The public functions of the crates, each with the names of the clauses that it ensures."""
    told = [contract for crate in CRATES.contracts().values() for contract in crate]
    return {f"{contract.crate}::{contract.name}": {clause.name for clause in contract.clauses if clause.keyword == "ensures"} for contract in told}


def public_clauses() -> Iterator[Tuple[str, str, str]]:
    """The public clauses of what the libraries give on: crate, function and head of the clause, as another script than that of the pages lists them."""
    crates = TOP / "crates"
    given = {path.parent.parent.name: set().union(*CRATES.exported(path.read_text(encoding="utf-8")).values()) for path in crates.glob("*/src/lib.rt")}
    for line in CLAUSES.public_clauses(CLAUSES.of_folder(TOP), {}):
        crate, function, clause = line.split("\t")
        head, _, name = function.rpartition("::")
        owner = CRATES.type_of(re.sub(r"^(?:pub )?(?:impl(?:<[^{]*?>)? |trait )", "", head)) if head else ""
        if (owner or name) in given.get(crate, set()):
            found = re.match(r"(requires|ensures)\*? (?:(\w+) )?", clause)
            assert found is not None, clause
            yield crate, f"{owner}::{name}" if owner else name, f"- {found[1]} `{found[2]}`:" if found[2] else f"- {found[1]}:"


def words_of_sources() -> Set[str]:
    """The words of the sources, and those of the names of files and folders."""
    words: Set[str] = set()
    for path in (path for pattern in SOURCES + PLACES for path in TOP.glob(pattern)):
        words |= set(re.findall(r"\w+", str(path.relative_to(TOP))))
        if path.is_file() and path.suffix in (".rt", ".antt", ".py", ""):
            words |= set(re.findall(r"\w+", path.read_text(encoding="utf-8", errors="replace")))
    return words


class Promises(unittest.TestCase):
    """The page against the sources."""

    def test_functions_and_clauses(self) -> None:
        there = contracts()
        self.assertGreaterEqual(len(there), 250)
        rows = list(promises())
        self.assertGreaterEqual(len(rows), 45)
        for promise in rows:
            self.assertIn(promise.function, there, promise.words)
            self.assertLessEqual(promise.clauses, there[promise.function], promise.words)

    def test_every_clause_of_the_program(self) -> None:
        there = contracts()
        for function in ("dwg_cli::run", "dwg_commands::outcome_laws", "dwg_commands::status_laws"):
            named = set().union(*(promise.clauses for promise in promises() if promise.function == function))
            self.assertEqual(named, there[function])

    def test_every_table_is_read(self) -> None:
        self.assertEqual(len(re.findall(r"(?m)^\| promise \|", PAGE)), len(TABLE.findall(PAGE)))

    def test_every_clause_of_the_libraries(self) -> None:
        """The page of a crate has each public clause of what the crate gives on."""
        clauses = list(public_clauses())
        self.assertGreaterEqual(len(clauses), 1000)
        for crate, function, head in clauses:
            page = (TOP / "crates" / crate / "README.md").read_text(encoding="utf-8")
            sections = re.findall(rf"(?m)^## {re.escape(function)}\n((?:(?!## ).*\n)*)", page)
            self.assertTrue(any(f"\n{head} " in section for section in sections), f"{crate} {function} {head}")

    def test_names(self) -> None:
        known = words_of_sources()
        for name in ("PROMISES.md", "ARCHITECTURE.md", "DECISIONS.md"):
            page = " ".join((TOP / "docs" / name).read_text(encoding="utf-8").split())
            named = {word for span in re.findall(r"`([^`]+)`", page) for word in re.findall(r"[A-Za-z_]\w*", span)}
            self.assertGreaterEqual(len(named), 80, name)
            self.assertEqual(named - known - STAND_FOR_OTHERS, set(), name)

    def test_edits(self) -> None:
        counted = [(int(count), pattern) for count, pattern in EDITS.findall(WORDS)]
        self.assertEqual([pattern for _, pattern in counted], ["crates/*/must-fail/*.edit", "edits/*/*.edit"])
        for count, pattern in counted:
            self.assertEqual(count, len(list(TOP.glob(pattern))), pattern)

    def test_trusted(self) -> None:
        printed = subprocess.run([str(TOP / "bench" / "trusted")], capture_output=True, text=True, check=True).stdout
        figures = re.findall(r": (\d+ definitions, \d+ lines in \d+ files)", printed)
        self.assertEqual(len(figures), 3)
        for figure in figures:
            self.assertIn(figure, WORDS)
        self.assertEqual(len(re.findall(r"\d+ definitions, \d+ lines in \d+ files", WORDS)), 3)

    def test_pages_of_libraries(self) -> None:
        ran = subprocess.run([str(TOP / "bench" / "crate_pages"), "--check"], capture_output=True, text=True, check=False)
        self.assertEqual((ran.returncode, ran.stdout, ran.stderr), (0, "", ""))
        pages = sorted(path.parent.name for path in (TOP / "crates").glob("*/README.md"))
        self.assertEqual(pages, sorted(CRATES.contracts()))

    def test_crates_of_the_map(self) -> None:
        page = (TOP / "docs" / "ARCHITECTURE.md").read_text(encoding="utf-8").split("\n## Crates\n")[1].split("\n## ")[0]
        order = re.findall(r"(?m)^\| \[?`(\w+)`", page)
        below = {crate.split()[0]: words.split() for crate, words in (line.split(":") for line in (TOP / "crates.txt").read_text(encoding="utf-8").splitlines())}
        self.assertEqual(sorted(order), sorted(below))
        for crate in order:
            self.assertLessEqual(set(below[crate]) & set(order), set(order[: order.index(crate)]), crate)


if __name__ == "__main__":
    unittest.main()
