"""Verdicts, columns of the table, members of JSON and statuses are those that the manual has. Names
stand in a table without control characters and without those that turn a text's direction, and
`printf %b` gives them back."""

from __future__ import annotations

import json
import os
import subprocess
import unicodedata
from typing import Dict, Tuple

from commands import (
    DAMAGED, DATA, NOTHING_FOUND, PROGRAM, SAMPLES, SOUND, UNSOUND, USAGE, Commands, answer,
)  # fmt: skip
from drawings import flipped, map_of, refusal, spoiled

COLUMNS = "path\tverdict\tdetail\tfindings\tbytes\ttrailing\tversion"
MEMBERS = {
    "schema", "path", "verdict", "detail", "findings", "bytes", "trailing", "version", "refusal",
    "mtime_ns", "sha256", "preview",
}  # fmt: skip

# What a line says but for path and size.
REST = ("verdict", "detail", "findings", "trailing", "version")
Told = Tuple[str, str, str, str, str]


class Verdicts(Commands):
    """What is said of files by what was done to them."""
    def files(self) -> Dict[str, Tuple[bytes, Told]]:
        """Files, and what is said of each."""
        data = answer("make", "5", "7").stdout
        damaged = lambda detail: ("damaged", detail, "", "", "AC1015")
        other = lambda detail: ("no drawing", detail, "", "", "")
        trailing = lambda count, zeros: (
            ("trailing bytes", f"{count} from {len(data)}{zeros}; sound", "0", str(count), "AC1015")
        )
        lost = "header 0 at 0: version (the rest of the header is that of AC1015)"
        unsound = (DATA / "unsound.dwg").read_bytes()
        return {
            "made": (data, ("sound", "", "0", "0", "AC1015")),
            "r14": ((SAMPLES / "r14.dwg").read_bytes(), ("sound", "", "0", "0", "AC1014")),
            "unsound": (unsound, ("unsound", "finding 31 resolve layer 0 3F", "3", "0", "AC1015")),
            "last object": (spoiled(data), damaged(refusal(data))),
            "first object": (spoiled(data, 0), damaged(refusal(data, 0))),
            "cut": (data[: map_of(data)], damaged(f"map 0 at {map_of(data)}: short")),
            "header": (data[:20], damaged("header 0 at 20: short")),
            "check word": (flipped(data, 20), damaged("header 0 at 52: check")),
            "zeros after": (data + bytes(9), trailing(9, ", all 0")),
            "more after": (data + b"more", trailing(4, "")),
            "lost begin": (bytes(6) + data[6:], ("damaged", lost, "", "", "")),
            "newer": (b"AC1032" + bytes(90), ("other version", "AC1032 2018", "", "", "AC1032")),
            "empty": (b"", other("empty")),
            "zeros": (bytes(700), other("zero bytes")),
            "text": (b"AC1015 is a version\n", other("text")),
            "picture": (b"\x89PNG\r\n\x1a\n" + bytes(90), other("PNG picture")),
            "inside": (bytes([3] * 9) + data, other("AC1015 begins at 9")),
        }

    def test_each_content_has_its_verdict(self) -> None:
        files = self.files()
        for name, (data, _) in files.items():
            self.file(f"archive/{name}.dwg", data)
        ran = self.check("archive")
        self.assertEqual(ran.out.split(b"\n")[0].decode(), COLUMNS)
        told = {}
        for row in ran.table:
            name = os.path.basename(row["path"])[:-4]
            self.assertEqual(row["bytes"], str(len(files[name][0])))
            told[name] = tuple(row[column] for column in REST)
        self.assertEqual(told, {name: told for name, (_, told) in files.items()})
        self.assertEqual(self.check("keep", "store", "archive").verdicts, ran.verdicts)
        self.as_json(files)

    def as_json(self, files: Dict[str, Tuple[bytes, Told]]) -> None:
        """The same as JSON."""
        ran = self.check("--json", "archive")
        self.assertEqual(len(ran.objects), len(files))
        for told in ran.objects:
            data, line = files[os.path.basename(told["path"])[:-4]]
            self.assertLessEqual(MEMBERS, told.keys())
            self.assertEqual((told["schema"], told["bytes"]), (1, len(data)))
            values = (told[name] for name in REST)
            self.assertEqual(tuple("" if one is None else str(one) for one in values), line)
            refused = told["refusal"]
            said = "{part} {index} at {place}: {reason}".format(**refused) if refused else "none"
            self.assertEqual(line[1].startswith(said), line[0] == "damaged", told)

    def test_statuses(self) -> None:
        """0 where all is sound, 1 for unsound, 3 for damaged or no drawing, the higher of both."""
        sound, unsound = self.drawing("sound.dwg"), DATA / "unsound.dwg"
        damaged = self.file("damaged.dwg", spoiled(answer("make", "3", "7").stdout))
        other = self.file("other.dwg", b"")
        for words, status in (
            ([sound], SOUND), ([sound, sound], SOUND), ([sound, unsound], UNSOUND),
            ([sound, damaged], DAMAGED), ([unsound, damaged, sound], DAMAGED), ([other], DAMAGED),
            ([other, unsound], DAMAGED), ([], USAGE), (["--what", sound], USAGE),
            (["--jobs", "0", sound], USAGE), (["keep", "store"], USAGE), (["verify"], USAGE),
        ):  # fmt: skip
            self.assertEqual(self.check(*words).status, status, words)
        self.assertEqual(self.recover(sound, "a.dwg").status, SOUND)
        self.assertEqual(self.recover(damaged, "b.dwg").status, UNSOUND)
        self.assertEqual(self.recover(other, "c.dwg").status, DAMAGED)
        self.assertEqual(self.recover(other).status, USAGE)

    def test_options_stand_anywhere_after_a_command(self) -> None:
        """Those of all commands; of one that none has, that alone is told."""
        self.drawing("a/a.dwg")
        version = self.check("--version")
        for command, *words in (
            ("keep", "store", "a"), ("verify", "store", "a"), ("export", "store"),
            ("report", "a", "a"), ("forget", "store", "a.dwg", "a.dwg"),
        ):  # fmt: skip
            for at in (0, len(words) - 1):
                ran = self.check(command, *words[:at], "--program", PROGRAM, *words[at:])
                self.assertIn(ran.status, (SOUND, NOTHING_FOUND), ran)
            self.assertEqual(self.check(command, "--version"), version)
            ran = self.check(command, "--what", *words)
            said = f"unrecognized arguments: --what; see dwg-check {command} --help\n"
            self.assertEqual((ran.status, ran.said), (USAGE, f"dwg-check: {said}"))
        self.drawing("--all")
        self.assertEqual(self.check("--quiet", "--", "--all").verdicts, {"--all": "sound"})

    def test_a_folder_that_is_called_as_a_word_is(self) -> None:
        for name in ("keep", "verify", "forget", "export", "report"):
            self.drawing(f"{name}/a.dwg")
            self.assertEqual(self.check(f"./{name}").verdicts, {"a.dwg": "sound"}, name)
            ran = self.check("keep", f"{name}.db", name)
            self.assertEqual((ran.verdicts, ran.status), ({"a.dwg": "sound"}, SOUND))


class Names(Commands):
    """Names of files with every byte."""
    def setUp(self) -> None:
        super().setUp()
        turning = "\u202e\u2066\u200f\u061c\u2028\u0085\u00ad"
        every = bytes(byte for byte in range(1, 256) if byte != 47)
        pieces = [every[at : at + 60] for at in range(0, 254, 60)]
        texts = [turning.encode(), "\u00e4\u6587 a b".encode(), b"\\x41\\n\\\\", b"--all", b"-"]
        self.names = sorted(piece + b".dwg" for piece in pieces + texts)
        for name in self.names:
            (self.folder / "archive").mkdir(exist_ok=True)
            path = os.path.join(os.fsencode(self.folder), b"archive", name)
            with open(path, "wb") as file:
                file.write(b"text of " + name)

    def given_back(self, shown: str) -> bytes:
        """What `printf %b` of bash gives of a name that is printed."""
        said = ["bash", "-c", 'printf %b "$1"', "bash", shown]
        return subprocess.run(said, capture_output=True, check=True).stdout

    def test_names_stand_on_a_line_and_are_given_back(self) -> None:
        whole = [self.check("archive"), self.check("keep", "store", "archive")]
        whole.append(self.check("verify", "store", "archive"))
        whole.append(self.recover("--tree", "out", "archive"))
        for ran in whole:
            names = [self.given_back(row["path"]) for row in ran.table]
            self.assertEqual(sorted(map(os.path.basename, names)), self.names)
            self.plain(ran.out.decode("utf-8") + ran.said)

    def plain(self, text: str) -> None:
        """Nothing in a text is a command to a terminal."""
        for letter in text:
            self.assertIn(letter, "\t\n" if unicodedata.category(letter) == "Cc" else letter)
            self.assertNotIn(unicodedata.bidirectional(letter), ("RLO", "RLI", "RLM", "LRO", "ALM"))
            self.assertNotIn(letter, "\u200f\u061c\u2028\u2066\u202e")

    def test_messages_too(self) -> None:
        for name in self.names:
            for ran in (
                self.check("verify", os.path.join(b"none", name), "archive"),
                self.recover(os.path.join(b"archive", name), os.path.join(b"none", name)),
                self.check(b"--" + name),
            ):
                self.assertTrue(ran.said)
                self.plain(ran.said)

    def test_json_has_names_as_they_are(self) -> None:
        paths = [os.fsencode(told["path"]) for told in self.check("--json", "archive").objects]
        self.assertEqual(sorted(map(os.path.basename, paths)), self.names)
        ran = self.recover("--tree", "out", "--json", "archive")
        paths = [os.fsencode(json.loads(line)["path"]) for line in ran.out.splitlines()]
        self.assertEqual(sorted(map(os.path.basename, paths)), self.names)
