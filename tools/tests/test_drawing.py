"""Notes and statuses of the program, file names on a line, and files written whole."""

from __future__ import annotations

import errno
import os
import pathlib
import shutil
import subprocess
import tempfile
import unittest
import unittest.mock

import made
from dwgtools.escapes import one_line, one_message
from dwgtools.notes import Refusal, Said, read_note
from dwgtools.outputs import WholeFile, write_whole
from dwgtools.program import Answer, Program, ProgramFailed, find_program
from dwgtools.statuses import Exit, Status, ToolError

# A note of each form in docs/FORMAT.md, and its value.
NOTES = {
    "dwg: refused: objects 14 at 1871: check": Refusal("objects", 14, 1871, "check"),
    "dwg: refused: header 0 at 60: short": Refusal("header", 0, 60, "short"),
    "dwg: read fault": Said("read fault"),
    "dwg: input too long": Said("input too long"),
    "dwg: not sound": Said("not sound"),
    "kept 367": Said("kept 367"),
}


class Notes(unittest.TestCase):
    """Lines of notes become values."""

    def test_each_form(self) -> None:
        for line, value in NOTES.items():
            self.assertEqual(read_note(line), value)
        self.assertEqual(str(read_note("dwg: refused: map 0 at 7: pair")), "map 0 at 7: pair")


class Names(unittest.TestCase):
    """A name on a line can be told apart from each other name, and is read back."""

    def test_escapes(self) -> None:
        rows = {"a b": "a b", "a\\b": "a\\\\b", "a\tb\nc\r": "a\\tb\\nc\\r", "\u00e4\u6587": "\u00e4\u6587", "\udce4": "\\xe4", "\x1b\x7f": "\\x1b\\x7f", "\u0085\u2028": "\\xc2\\x85\\xe2\\x80\\xa8", "a\u202eb\u2066": "a\\xe2\\x80\\xaeb\\xe2\\x81\\xa6"}
        for name, line in rows.items():
            self.assertEqual(one_line(name), line)
            self.assertEqual(made.unescaped(line), os.fsencode(name))


    def test_messages(self) -> None:
        """What is escaped already isn't escaped again, and nothing that isn't goes to a terminal."""
        self.assertEqual(one_message(one_line("a\\\n") + " \x1b\u202e\n\ud800"), "a\\\\\\n \\x1b\\xe2\\x80\\xae\\n\\xed\\xa0\\x80")


class Running(unittest.TestCase):
    """The program is found and run, and what isn't an answer is told."""

    def setUp(self) -> None:
        self.folder = pathlib.Path(tempfile.mkdtemp(prefix="dwg drawing "))
        self.addCleanup(shutil.rmtree, self.folder)

    def test_answers(self) -> None:
        made.needs_program()
        program = Program(made.PROGRAM)
        program.prepare()
        data = made.made(3)
        self.assertEqual(program.run(["audit"], data), Answer(Status.DONE, b"audit yes\n", b""))
        self.assertEqual(program.run(["audit"], data[:60]), Answer(Status.REFUSED, b"", b"dwg: refused: header 0 at 60: short\n"))
        self.assertEqual(read_note(program.run(["nothing"]).notes.decode()).__class__, Said)
        self.assertEqual(program.run(["rewrite"], program.run(["make", "3", "7"]).output).output, data)

    def test_lines(self) -> None:
        made.needs_program()
        path = self.folder / "a.dwg"
        path.write_bytes(made.made(3))
        program = Program(made.PROGRAM)
        with open(path, "rb") as file, program.lines(["show"], file) as lines:
            self.assertEqual(b"".join(lines), made.dwg("show", given=made.made(3)).stdout)
        path.write_bytes(b"AC1015")
        with self.assertRaises(ToolError) as told, open(path, "rb") as file, program.lines(["show"], file) as lines:
            self.assertEqual(list(lines), [])
        self.assertEqual((told.exception.status, str(told.exception)), (3, "dwg: refused: header 0 at 6: short"))

    def test_no_answer(self) -> None:
        for line, why in (("exit 70", "status 70"), ("kill -15 $$", "killed by signal 15")):
            program = Program(str(made.program_that(self.folder, "dwg", [line])))
            with self.assertRaises(ProgramFailed) as told:
                program.run(["audit"])
            self.assertEqual((told.exception.why, told.exception.status), (why, Exit.NO_PROGRAM))
            with self.assertRaises(ProgramFailed):
                program.prepare()

    def test_not_built(self) -> None:
        program = Program(str(made.program_that(self.folder, "dwg", ['[ "${DWG_PROVED_ONLY:-}" = 1 ] || exit 0', 'echo "dwg: not built; make builds" >&2', "exit 69"])))
        with self.assertRaises(ToolError) as told, program.lines(["show"], subprocess.DEVNULL) as lines:
            self.assertEqual(list(lines), [])
        self.assertEqual((str(told.exception), told.exception.status), ("not built; make builds", Exit.NO_PROGRAM))
        with self.assertRaises(ToolError) as told:
            program.prepare()
        self.assertEqual((str(told.exception), told.exception.status), ("not built; make builds", Exit.NO_PROGRAM))

    def test_found(self) -> None:
        here = made.program_that(self.folder, "dwg", ["exit 0"])
        kept = os.environ.pop("DWG", None)
        try:
            self.assertEqual(find_program(str(here)), str(here))
            self.assertEqual(find_program(), str(made.TOP / "dwg"))
            os.environ["DWG"] = str(here)
            self.assertEqual(find_program(), str(here))
            os.environ["DWG"] = str(self.folder)
            with self.assertRaises(ToolError):
                find_program()
        finally:
            os.environ.pop("DWG", None)
            if kept is not None:
                os.environ["DWG"] = kept


class Whole(unittest.TestCase):
    """A file is written whole or not at all."""

    def setUp(self) -> None:
        self.folder = pathlib.Path(tempfile.mkdtemp(prefix="dwg whole "))
        self.addCleanup(shutil.rmtree, self.folder)
        self.path = self.folder / "file"

    def test_written(self) -> None:
        write_whole(str(self.path), b"one")
        with self.assertRaises(FileExistsError):
            write_whole(str(self.path), b"two")
        self.assertEqual(self.path.read_bytes(), b"one")
        write_whole(str(self.path), b"two", force=True)
        self.assertEqual((self.path.read_bytes(), os.listdir(self.folder)), (b"two", ["file"]))

    def test_a_file_system_without_links(self) -> None:
        """A name that is taken stays, and one that isn't is given."""
        kept, os.link = os.link, self.no_link
        try:
            write_whole(str(self.path), b"one")
            with self.assertRaises(FileExistsError):
                write_whole(str(self.path), b"two")
        finally:
            os.link = kept
        self.assertEqual((self.path.read_bytes(), os.listdir(self.folder)), (b"one", ["file"]))

    @staticmethod
    def no_link(*_: object, **__: object) -> None:
        """A file system that has no links."""
        raise PermissionError(1, "Operation not permitted")

    def test_a_temporary_name_that_is_taken(self) -> None:
        """Another name is tried, a few times, and what has one stays."""
        taken = self.folder / ".file.00.part"
        taken.write_bytes(b"own")
        with unittest.mock.patch("secrets.token_hex", side_effect=["00", "00", "01"]):
            write_whole(str(self.path), b"one")
        self.assertEqual((self.path.read_bytes(), taken.read_bytes()), (b"one", b"own"))
        with unittest.mock.patch("secrets.token_hex", return_value="00"), self.assertRaises(OSError) as raised:
            write_whole(str(self.path), b"two", force=True)
        self.assertEqual((raised.exception.errno, taken.read_bytes(), self.path.read_bytes()), (errno.EBUSY, b"own", b"one"))

    def test_left(self) -> None:
        with self.assertRaises(KeyError), WholeFile(str(self.path)) as whole:
            whole.file.write(b"half")
            raise KeyError
        with WholeFile(str(self.path)) as whole:
            whole.file.write(b"never placed")
        self.assertEqual(os.listdir(self.folder), [])


if __name__ == "__main__":
    unittest.main()
