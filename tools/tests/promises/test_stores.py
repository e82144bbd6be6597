"""A run that was killed goes on and does nothing twice. A store that is another program's, locked,
damaged in any bit or full is told, and nothing in it is taken for true."""

from __future__ import annotations

import contextlib
import os
import random
import re
import resource
import signal
import sqlite3
from concurrent.futures import ThreadPoolExecutor
from itertools import zip_longest
from pathlib import Path
from typing import Any, Dict, Iterator

from commands import (
    DAMAGED, FAILURE, INTERRUPTED, NOT_AS_KEPT, PATIENCE, REFUSED, SOUND, UNSOUND, Commands, Ran,
    answer, end,
)  # fmt: skip
from drawings import flipped, renamed, spoiled

DRAWING = answer("make", "1", "7").stdout


def plan(number: int) -> bytes:
    """One of many sound drawings, each of another content."""
    return renamed(DRAWING, b"WALLS", b"W%04d" % number)


class Counted(Commands):
    """A program that is slow, of which is known how often it ran."""
    def setUp(self) -> None:
        super().setUp()
        self.count = self.top / "count"
        self.count.write_bytes(b"")

    def slow(self, command: str, seconds: float = 0.15) -> Path:
        """A program that takes its time with a command."""
        return self.program(
            f'[ "$1" != {command} ] || {{ echo >>"{self.count}"; sleep {seconds}; }}'
        )

    def runs(self) -> int:
        """How often it ran since this was last asked."""
        number = len(self.count.read_bytes())
        self.count.write_bytes(b"")
        return number

    def interrupted(self, least: int, number: int, *words: object) -> None:
        """A command that is killed or interrupted once the program ran so often."""
        started = self.begun(*map(str, words))
        self.until(lambda: len(self.count.read_bytes()) >= least)
        if number == signal.SIGKILL:
            end(started)
            return
        os.killpg(started.pid, number)
        self.assertEqual(started.wait(timeout=PATIENCE), INTERRUPTED)

    def outputs(self) -> Dict[str, bytes]:
        """What stands below `out` by names of drawings and of their notes."""
        paths = (self.folder / "out").rglob("[0-9s]*.dwg*")
        return {path.name: path.read_bytes() for path in paths}


class Killed(Counted):
    """Runs that are killed go on."""
    def test_keep_goes_on(self) -> None:
        """What a store has isn't done again, and it has what was found a second before."""
        for number in range(40):
            self.file(f"archive/{number:02}.dwg", plan(number))
        words = ["dwg-check", "keep", "store", "archive", "--jobs", "2", "--program"]
        words.append(str(self.slow("audit")))
        known = 0
        for sent, more in ((signal.SIGKILL, 24), (signal.SIGINT, 4)):
            self.interrupted(more, sent, *words)
            self.assertLessEqual(self.runs(), 40 - known)
            before, known = known, self.check("export", "store").out.count(b"\n")
            self.assertGreaterEqual(known, max(1, before))
        ran = self.run_command(*words)
        self.assertEqual((set(ran.verdicts.values()), ran.status), ({"sound"}, SOUND))
        self.assertEqual((len(ran.table), self.runs()), (40, 40 - known))
        self.assertEqual((self.run_command(*words).out, self.runs()), (ran.out, 0))
        self.assertEqual(self.check("verify", "store", "archive").status, SOUND)

    def test_killed_at_any_moment_a_store_has_nothing_wrong(self) -> None:
        for number in range(12):
            self.file(f"archive/{number}.dwg", plan(number))
        chance, slow = random.Random(3), str(self.slow("audit", 0.05))
        for _ in range(8):
            moment = chance.uniform(0.05, 0.6)
            self.killed(moment, "dwg-check", "keep", "store", "archive", "--program", slow)
            ran = self.check("verify", "store", "archive")
            told = {*ran.verdicts.values()} if ran.out else set()
            self.assertTrue(told <= {"same", "new"} and (told or ran.said), ran)
        self.assertEqual(self.check("keep", "store", "archive").status, SOUND)
        self.assertEqual(set(self.check("verify", "store", "archive").verdicts.values()), {"same"})

    def test_a_tree_goes_on(self) -> None:
        """What stands is whole and stays; what stood a second before isn't done again."""
        expected: Dict[str, bytes] = {}
        for number in range(32):
            data = spoiled(plan(number))
            self.file(f"plans/{number:02}.dwg", data)
            expected[f"{number:02}.dwg"] = answer("recover", given=data).stdout
            expected[f"{number:02}.dwg.notes"] = answer("recover", given=data).stderr
        words = ["dwg-recover", "--tree", "out", "plans", "--jobs", "2", "--program"]
        words.append(str(self.slow("recover")))
        for sent, more in ((signal.SIGKILL, 24), (signal.SIGINT, 4)):
            self.interrupted(more, sent, *words)
            self.assertLess(self.runs(), 33 if sent == signal.SIGKILL else 32)
            there = self.outputs()
            self.assertEqual(there, {name: expected[name] for name in there})
        times = {path: path.stat().st_mtime_ns for path in (self.folder / "out").rglob("*.dwg")}
        ran = self.run_command(*words)
        self.assertEqual((set(ran.verdicts.values()), ran.status), ({"recovered"}, UNSOUND))
        self.assertLess(self.runs(), 28)
        self.assertEqual((self.outputs(), len(ran.table)), (expected, 32))
        self.assertEqual({path: path.stat().st_mtime_ns for path in times}, times)
        self.assertEqual((self.run_command(*words).out, self.runs()), (ran.out, 0))


class Stores(Counted):
    """Stores that can't be used are told, and stay as they are."""
    def setUp(self) -> None:
        super().setUp()
        for number in range(6):
            self.file(f"archive/{number}.dwg", plan(number))
        self.file("archive/spoiled.dwg", spoiled(DRAWING))
        self.kept = self.check("keep", "store", "archive")
        self.store = self.folder / "store"
        self.exported = self.check("export", "store").out
        self.assertEqual(self.exported.count(b"\n"), 7)

    def test_that_it_is_written_is_said_last(self) -> None:
        """Its status is that of the verdicts, which says nothing of the store."""
        last = "dwg-check: 7 files: 6 sound, 1 damaged; store is written\n"
        self.assertEqual((self.kept.status, self.kept.said), (DAMAGED, last))

    def test_what_is_no_store_of_ours_is_told(self) -> None:
        own = self.store.read_bytes()
        for name, data in (
            ("text", b"plan.dwg\tsound\n"), ("drawing", DRAWING), ("begin", own[:100]),
            ("cut", own[: len(own) // 2]), ("zeros", bytes(len(own))),
        ):  # fmt: skip
            self.file(f"bad/{name}", data)
        for name, statement in (
            ("other", "CREATE TABLE file (path BLOB PRIMARY KEY, sha256 TEXT)"),
            ("another's", "PRAGMA application_id = 7"), ("newer", "PRAGMA user_version = 1000"),
        ):  # fmt: skip
            path = self.file(f"bad/{name}", b"" if name == "other" else own)
            with database(path) as changed:
                changed.execute(statement)
        for name in sorted(os.listdir(self.folder / "bad")):
            self.assertIn(name, self.refused("dwg-check", "keep", f"bad/{name}", "archive"))
            self.refused("dwg-check", "verify", f"bad/{name}", "archive")
            self.refused("dwg-check", "forget", f"bad/{name}", "0.dwg")
            self.refused("dwg-check", "export", f"bad/{name}")

    def waiting(self, command: str) -> Path:
        """A program that answers a command when there is a file `go`."""
        wait = f'while [ ! -e "{self.top}/go" ]; do sleep 0.1; done'
        return self.program(f'[ "$1" != {command} ] || {{ echo >>"{self.count}"; {wait}; }}')

    def test_nothing_is_replaced_where_the_store_keeps_its_journal(self) -> None:
        for side in ("-journal", "-wal", "-shm"):
            for store in (self.store, self.folder / "another"):
                beside = self.file(f"{store}{side}", plan(3))
                for words in (["keep", store, "archive"], ["verify", "--take", "new", store, "."]):
                    self.assertIn(self.check(*words).status, REFUSED)
                    self.assertEqual(beside.read_bytes(), plan(3))
                os.remove(beside)
        os.makedirs(self.folder / "out", exist_ok=True)
        os.link(self.drawing("archive/0.dwg"), self.folder / "out/.dwg-recover.db-journal")
        before = (self.folder / "archive/0.dwg").read_bytes()
        self.assertIn(self.recover("--tree", "out", "archive").status, REFUSED)
        self.assertEqual((self.folder / "archive/0.dwg").read_bytes(), before)

    def test_a_store_that_another_run_has_is_told(self) -> None:
        words = ["keep", "store", "archive", "--program", self.waiting("audit")]
        first = self.begun("dwg-check", *words)
        self.until(lambda: bool(self.runs()))
        ran = self.check("keep", "store", "archive")
        self.assertEqual((ran.status in REFUSED, "store" in ran.said), (True, True), ran)
        self.assertIn(self.check("forget", "store", "0.dwg").status, REFUSED)
        (self.top / "go").touch()
        first.communicate(timeout=600)
        self.assertEqual(self.check("export", "store").out, self.exported)
        with database(self.store) as other:
            other.execute("BEGIN EXCLUSIVE")
            self.assertIn(self.check("keep", "store", "archive").status, REFUSED)

    def test_two_runs_on_a_tree_are_told(self) -> None:
        words = ["--tree", "out", "archive", "--program", self.waiting("recover")]
        first = self.begun("dwg-recover", *words)
        self.until(lambda: bool(self.runs()))
        ran = self.recover("--tree", "out", "archive")
        self.assertEqual((ran.status in REFUSED, "out" in ran.said), (True, True), ran)
        (self.top / "go").touch()
        out, _ = first.communicate(timeout=600)
        self.assertEqual(Ran(0, out, "").verdicts["spoiled.dwg"], "recovered")

    def test_a_full_disk_is_told(self) -> None:
        for number in range(300):
            self.file(f"archive/more/t{number}.dwg", b"text %d" % number)
        size = self.store.stat().st_size
        for most, name in ((0, "none"), (5000, "some"), (size, "store"), (size + 9000, "store")):
            limit = lambda: resource.setrlimit(resource.RLIMIT_FSIZE, (most, most))
            ran = self.check("keep", name, "archive", preexec_fn=limit)
            self.assertEqual((ran.status, name in ran.said), (FAILURE, True), (most, ran))
            if name == "store":
                self.assertLessEqual(
                    {*self.exported.splitlines()}, {*self.check("export", name).out.splitlines()}
                )
                told = self.check("verify", name, "archive").verdicts.values()
                self.assertLessEqual({*told}, {"same", "new"})
        for name in ("none", "some", "store"):
            self.assertEqual(len(self.check("keep", name, "archive").table), 307)
            self.assertEqual(self.check("verify", name, "archive").status, SOUND)

    def test_no_damaged_bit_is_taken_for_true(self) -> None:
        chance, data = random.Random(5), self.store.read_bytes()
        damaged = [with_flips(data, chance) for _ in range(80)]
        with ThreadPoolExecutor(4) as pool:
            told = list(pool.map(self.judged, range(80), damaged))
        self.assertGreater(sum(told), 30)

    def judged(self, index: int, data: bytes) -> bool:
        """Whether damage to the store is told; whatever is said is true all the same."""
        store = self.file(f"damaged/{index}", data)
        first = self.check(*(["verify", store, "archive"] if index % 2 else ["export", store]))
        kept = self.check("keep", store, "archive")
        after = self.check("export", store)
        is_told = [ran.status in REFUSED or "damaged" in ran.said for ran in (first, kept, after)]
        if not first.out:
            self.assertTrue(is_told[0], (index, first))
        elif index % 2:
            self.assertLessEqual({*first.verdicts.values()}, {"same", "new"}, (index, first))
            self.assertTrue(is_told[0] or set(first.verdicts.values()) == {"same"}, (index, first))
        else:
            self.assertLessEqual({*first.out.split(b"\n")}, {*self.exported.split(b"\n")}, index)
            self.assertTrue(is_told[0] or first.out == self.exported, (index, first))
        if kept.status not in REFUSED:
            self.assertEqual((kept.out, after.out), (self.kept.out, self.exported), (index, kept))
        return any(is_told)

    def test_a_row_whose_text_is_no_text_is_dropped_alone(self) -> None:
        """One flipped bit makes it no UTF-8: in what a content is, in what a file had."""
        data, lines = self.store.read_bytes(), self.exported.splitlines(keepends=True)
        places = [one.start() for one in re.finditer(lines[3].split()[0], data)]
        for place, verdict in zip_longest(places, ("same", "new")):
            path = self.file("other", flipped(data, place, 0x80))
            ran = self.check("verify", path, "archive")
            expected = {**dict.fromkeys(self.kept.verdicts, "same"), "3.dwg": verdict}
            self.assertEqual((ran.verdicts, ran.status), (expected, NOT_AS_KEPT))
            self.assertIn("1 damaged row is dropped", ran.said)
            left = [line for line in lines if verdict == "same" or b" 3.dwg" not in line]
            self.assertEqual(self.check("export", path).out, b"".join(left))
            self.assertEqual(self.check("keep", path, "archive").out, self.kept.out)
            self.assertEqual(self.check("export", path).out, self.exported)

    def test_no_other_value_is_taken_for_true(self) -> None:
        """Of each column of each table, as a disk may change it that keeps its own sums."""
        with database(self.store) as store:
            columns = store.execute(
                "SELECT t.name, c.name FROM sqlite_master t, pragma_table_info(t.name) c"
            ).fetchall()
        self.assertGreater(len(columns), 10)
        for index, (table, column) in enumerate(columns):
            path = self.file("other", self.store.read_bytes())
            with database(path) as other, contextlib.suppress(sqlite3.IntegrityError):
                values = [row[0] for row in other.execute(f"SELECT {column} FROM {table}")]
                value = values[len(values) // 2] if values else None
                said = f"UPDATE {table} SET {column} = ? WHERE {column} IS ?"
                other.execute(said, (changed_value(value), value))
            self.judged(index, path.read_bytes())

    def test_no_damaged_bit_of_a_tree_is_taken_for_true(self) -> None:
        self.recover("--tree", "out", "archive")
        table = self.recover("--tree", "out", "archive").table
        files = [path for path in (self.folder / "out").rglob("*") if path.is_file()]
        (name,) = [path for path in files if path.read_bytes()[:15] == b"SQLite format 3"]
        data, chance = name.read_bytes(), random.Random(6)
        outputs = self.outputs()
        for _ in range(30):
            name.write_bytes(with_flips(data, chance))
            ran = self.recover("--tree", "out", "archive")
            self.assertEqual(self.outputs(), outputs)
            self.assertTrue(ran.status in REFUSED or ran.table == table or "damaged" in ran.said)


@contextlib.contextmanager
def database(path: Path) -> Iterator[sqlite3.Connection]:
    """A database by the library alone."""
    with contextlib.closing(sqlite3.connect(path)) as connection, connection:
        yield connection


def with_flips(data: bytes, chance: random.Random) -> bytes:
    """Bytes with three bits flipped, where there is something."""
    changed = bytearray(data)
    places = [place for place, byte in enumerate(data) if byte]
    for place in chance.sample(places, 3):
        changed[place] ^= 1 << chance.randrange(8)
    return bytes(changed)


def changed_value(value: Any) -> Any:
    """Another value of the same type."""
    if isinstance(value, int):
        return value + 1
    if isinstance(value, bytes):
        return bytes([value[0] ^ 1]) + value[1:]
    return value.translate({48: 49, 49: 48}) + "0" * ("0" not in value) if value else "0"
