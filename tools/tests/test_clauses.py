"""The list of public clauses has each of them, and nothing of tests; a list before a change of names is the one after it."""

from __future__ import annotations

import pathlib
import shutil
import subprocess
import tempfile
import textwrap
import unittest
from typing import Dict, List

import made
from made import TOP

SCRIPT = TOP / "bench" / "public_clauses"
LIST = made.module(SCRIPT, "public_clauses")


class Clauses(unittest.TestCase):
    """Made-up crates stand in a folder of their own."""

    def setUp(self) -> None:
        self.top = pathlib.Path(tempfile.mkdtemp(prefix="dwg clauses "))
        self.addCleanup(shutil.rmtree, self.top)

    def write(self, files: Dict[str, str]) -> None:
        """Writes files below the top."""
        for name, text in files.items():
            path = self.top / name
            path.parent.mkdir(parents=True, exist_ok=True)
            path.write_text(textwrap.dedent(text), encoding="utf-8")

    def run_script(self, *words: str) -> "subprocess.CompletedProcess[str]":
        """What the script answers over the folder."""
        command = [str(SCRIPT), "--top", str(self.top), *words]
        return subprocess.run(command, stdout=subprocess.PIPE, stderr=subprocess.PIPE, universal_newlines=True, encoding="utf-8", check=False)

    def listed(self, *words: str) -> List[str]:
        """The lines that the script prints over the folder; their number stands after them."""
        ran = self.run_script(*words)
        lines = ran.stdout.splitlines()
        self.assertEqual((ran.returncode, ran.stderr), (0, f"{len(lines)} public clauses\n"))
        return lines

    def of_library(self, text: str) -> List[str]:
        """The lines of a library whose one file this is."""
        self.write({"crates.txt": "one:\n", "crates/one/src/lib.rt": text})
        return [line.split("\t", 1)[1] for line in self.listed()]

    def test_functions(self) -> None:
        text = """\
            pub fn half(of: &[u8; 2], by: u64) -> u64
                requires { by ≢ 0 }
                ensures* value {
                    result ≡ half by
                } // } not of the clause
                // ensures { result ≡ 3 }
            {
                ask(|| requires { by ≡ 1 } { by })
            }
            pub const fn none() -> u64 {
                0
            }
            fn own(by: u64)
                requires { by ≡ 1 }
            {}
            pub(crate) fn inner()
                ensures { result ≡ 1 }
            {}
            """
        self.assertEqual(self.of_library(text), ["half\tensures* value { result ≡ half by }", "half\trequires { by ≢ 0 }"])

    def test_methods_of_traits_with_bodies(self) -> None:
        text = """\
            pub trait Code: Sized {
                fn told(&self) -> u64
                    ensures told { result ≡ 1 };

                fn given(&self) -> u64
                    ensures given { result ≡ 2 }
                {
                    2
                }

                final fn fixed(&self) -> u64
                    requires known { self.now ≡ 3 }
                    ensures fixed { result ≡ 3 }
                {
                    3
                }
            }

            impl<T> Code for Items<T>
            where
                T: Drop,
            {
                fn told(&self) -> u64
                    ensures told { result ≡ 4 }
                {
                    4
                }
            }

            impl Items {
                pub fn count(&self) -> u64
                    ensures { result ≡ 5 }
                {
                    5
                }

                fn own(&self) -> u64
                    ensures { result ≡ 6 }
                {
                    6
                }
            }
            """
        wanted = [
            "impl Items::count\tensures { result ≡ 5 }",
            "impl<T> Code for Items<T>::told\tensures told { result ≡ 4 }",
            "pub trait Code: Sized::fixed\tensures fixed { result ≡ 3 }",
            "pub trait Code: Sized::fixed\trequires known { self.now ≡ 3 }",
            "pub trait Code: Sized::given\tensures given { result ≡ 2 }",
            "pub trait Code: Sized::told\tensures told { result ≡ 1 }",
        ]
        self.assertEqual(self.of_library(text), wanted)

    def test_tests_by_crates_txt(self) -> None:
        clause = "pub fn seen()\n    ensures { result ≡ 1 }\n{}\n"
        self.write(
            {
                "crates.txt": "# a line each\nroot: kit\nhelpers_tests: root\ncases:\nlooks: root cases\nunused staticlib: root\nprogram: helpers_tests cases\n",
                "crates/root/src/lib.rt": clause + "#[cfg(test)]\nmod checks;\n",
                "crates/root/src/checks.rt": clause + "#[cfg(test)]\nmod deeper;\n",
                "crates/root/src/checks/parts.rt": clause,
                "crates/root/src/contests.rt": clause,
                "crates/helpers_tests/src/lib.rt": "use root::seen;\n" + clause,
                "crates/cases/src/lib.rt": clause,
                "crates/looks/src/lib.rt": "use cases::seen;\nmod reading;\n#[cfg(test)]\nmod tests;\n",
                "crates/looks/src/reading.rt": clause,
                "crates/looks/src/tests.rt": clause,
                "crates/unused/src/lib.rt": "use root::seen;\n" + clause,
                "crates/program/src/main.rt": "use helpers_tests::seen;\nmod run;\n// cases\n#[cfg(test)]\nmod tests;\n",
                "crates/program/src/run.rt": clause,
                "crates/program/src/tests.rt": "use cases::seen;\n" + clause,
                "crates/not_listed/src/lib.rt": clause,
            }
        )
        crates = [line.split("\t")[0] for line in self.listed()]
        self.assertEqual(crates, ["helpers_tests", "program", "root", "root", "unused"])

    def test_renames(self) -> None:
        self.write(
            {
                "crates.txt": "one:\n",
                "crates/one/src/lib.rt": "pub fn word(by: u64)\n    ensures { wordy word ≡ check.word by }\n{}\n",
                "renames": "# what is called otherwise\nword check # both at once\ncheck.word sum\n\ncheck word\none two\n",
            }
        )
        before = self.listed("--renames", str(self.top / "renames"))
        self.assertEqual(before, ["two\tcheck\tensures { wordy check ≡ sum by }"])
        self.write({"crates.txt": "two:\n", "crates/two/src/lib.rt": "pub fn check(by: u64)\n    ensures { wordy check ≡ sum by }\n{}\n"})
        self.assertEqual(before, self.listed())

    def test_renames_that_are_none(self) -> None:
        self.write({"crates.txt": "", "renames": "one two\none three\n"})
        for text, place in (("one two\none three\n", 2), ("one\n", 1), ("\none two three\n", 2)):
            self.write({"renames": text})
            ran = self.run_script("--renames", str(self.top / "renames"))
            said = f"public_clauses: line {place} of the renames is no line OLD NEW, or has an OLD twice\n"
            self.assertEqual((ran.returncode, ran.stdout, ran.stderr), (2, "", said))

    def test_no_revision(self) -> None:
        ran = self.run_script("no such revision")
        self.assertEqual((ran.returncode, ran.stdout, ran.stderr[:16]), (2, "", "public_clauses: "))

    def test_nothing(self) -> None:
        self.write({"crates.txt": ""})
        self.assertEqual(self.listed(), [])

    def test_repository(self) -> None:
        lines = LIST.public_clauses(LIST.of_folder(TOP), {})
        read = [line.split("\t")[2].split(" {")[0] for line in lines if line.startswith("dwg_common\tpub trait BodyCode: Sized::read\t")]
        names = ["reads", "refs_same_bytes", "refs_same_end", "refs_unmoved", "same_bytes", "same_end", "unmoved", "value"]
        self.assertEqual(read, [f"ensures {name}" for name in names])
        crates = {line.split("\t")[0] for line in lines}
        self.assertTrue({"dwg_base", "dwg_cli", "dwg_recover"} <= crates)
        self.assertFalse({"dwg_testkit", "dwg_codec_tests", "dwg_body_tests", "dwg_file_tests"} & crates)


if __name__ == "__main__":
    unittest.main()
