"""Other programs that read drawings of R14 and R2000, for bench/peers and bench/damage: what Debian has of them, their versions, and what they read.

None of their code stands here: the packages are installed, and libdxfrw is compiled out of the source package of LibreCAD.
"""

from __future__ import annotations

import itertools
import os
import re
import shutil
import subprocess
import sys
import tempfile
import time
from dataclasses import dataclass
from pathlib import Path
from typing import Dict, List, Optional, Sequence

sys.dont_write_bytecode = True

import header_variables  # noqa: E402  pylint: disable=wrong-import-position

TOP = Path(__file__).resolve().parents[1]
sys.path.insert(0, str(TOP / "tools"))

sys.path.insert(0, str(TOP / "tools" / "tests"))

import older  # noqa: E402  pylint: disable=wrong-import-position
from dwgtools.program import find_program  # noqa: E402  pylint: disable=wrong-import-position

PACKAGES = {"ogrinfo": "gdal-bin", "g++": "g++", "dpkg-source": "dpkg-dev"}
# ezdxf is a package for the interpreter of the system.
PYTHON = "/usr/bin/python3"
# The keys by which Debian's lists are signed.
KEYS = "/usr/share/keyrings/debian-archive-keyring.gpg"


@dataclass
class Ran:
    """A run: its status, what it printed, processor seconds, and the most memory that it had, in bytes.

    The system counts the memory of this process too, up to the moment where the other program begins: so this one must stay smaller.
    """

    status: int
    output: bytes
    seconds: float
    memory: int

    def words(self) -> str:
        """What it says, in one line: the last line of its output that says something."""
        lines = [line.strip() for line in self.output.decode("utf-8", "replace").splitlines() if line.strip()]
        return f"killed by signal {-self.status}" if self.status < 0 else lines[-1] if lines else "nothing"


def run(words: Sequence[str], source: Optional[Path] = None, output: Optional[Path] = None, limit: float = 300) -> Ran:
    """Runs a command; what it prints goes to a file, or, both together, into the answer."""
    with tempfile.TemporaryFile() as said, open(source or os.devnull, "rb") as given:
        with open(output, "wb") if output else tempfile.TemporaryFile() as out:
            target = out if output else said
            with subprocess.Popen(list(words), stdin=given, stdout=target, stderr=said) as started:
                end = time.monotonic() + limit
                while True:
                    number, status, used = os.wait4(started.pid, os.WNOHANG)
                    if number:
                        break
                    if time.monotonic() > end:
                        started.kill()
                    time.sleep(0.002)
                started.returncode = os.WEXITSTATUS(status) if os.WIFEXITED(status) else -os.WTERMSIG(status)
            said.seek(0)
            return Ran(started.returncode, said.read(), used.ru_utime + used.ru_stime, used.ru_maxrss * 1024)


def proved_program(given: Optional[str]) -> str:
    """The program that is timed: the one given, else the one that DWG names, else the one that `make` has proved and built.

    Where that isn't built, the script `dwg` says so in a line, and this process ends with its status.
    """
    program = find_program(given)
    os.environ["DWG_PROVED_ONLY"] = "1"
    ran = subprocess.run([program, "drill", "1"], stdin=subprocess.DEVNULL, stdout=subprocess.DEVNULL, check=False)
    if ran.returncode:
        sys.exit(ran.returncode)
    os.environ["DWG_BUILT"] = "1"
    return program


def make_drawing(program: str, folder: Path, entities: int, seed: int) -> Path:
    """The drawing of `make`, with header variables and a class, which other programs need. Its entities are those and two: an insert, and the line in its block."""
    path, other = folder / f"made_{entities}.dwg", folder / "other.dwg"
    run([program, "make", str(entities), str(seed)], output=path)
    other.write_bytes(header_variables.completed(path.read_bytes()))
    ran = run([program, "rewrite"], other, path)
    if ran.status:
        raise RuntimeError(f"the made drawing can't be written again: {ran.words()}")
    return path


def make_older(program: str, folder: Path) -> Path:
    """A drawing of AC1014 with header variables and a class, spelled by the writer of the tests, and written by `rewrite`."""
    path, other = folder / "older.dwg", folder / "spelled.dwg"
    other.write_bytes(header_variables.completed(older.Plan().file(), header_variables.OLDER_ORDER, older.Plan.NAMED))
    ran = run([program, "rewrite"], other, path)
    if ran.status:
        raise RuntimeError(f"the drawing of AC1014 can't be written again: {ran.words()}")
    return path


def install() -> List[str]:
    """Installs what is missing, where this may be done, and gives the names of the packages that are missing still."""
    missing = [package for command, package in PACKAGES.items() if not shutil.which(command)]
    if subprocess.run([PYTHON, "-c", "import ezdxf"], stderr=subprocess.DEVNULL, check=False).returncode:
        missing.append("python3-ezdxf")
    if missing and os.geteuid() == 0 and shutil.which("apt-get"):
        subprocess.run(["apt-get", "update", "-q"], stdout=subprocess.DEVNULL, check=False)
        subprocess.run(["apt-get", "install", "-y", "-q", "--no-install-recommends", *missing], stdout=subprocess.DEVNULL, check=False)
    return missing


def fetch_librecad(folder: Path) -> Optional[Path]:
    """The unpacked source package of LibreCAD, by a list of sources of its own, made of those of the system, so that nothing of it is changed."""
    found = sorted(folder.glob("librecad-*/libraries/libdxfrw/src"))
    if found:
        return found[-1]
    asked = ["apt-get", "indextargets", "--format", "$(REPO_URI) $(CODENAME) $(COMPONENT)", "Created-By: Packages"]
    known = sorted(set(subprocess.run(asked, stdout=subprocess.PIPE, text=True, check=False).stdout.splitlines()))
    (folder / "lists" / "partial").mkdir(parents=True, exist_ok=True)
    (folder / "sources.list").write_text("".join(f"deb-src [signed-by={KEYS}] {one}\n" for one in known), encoding="utf-8")
    options = {"Dir::Etc::SourceList": folder / "sources.list", "Dir::Etc::SourceParts": os.devnull, "Dir::State::Lists": folder / "lists"}
    words = [part for name, value in options.items() for part in ("-o", f"{name}={value}")]
    for command in (["update"], ["source", "librecad"]):
        subprocess.run(["apt-get", "-q", "-o", "APT::Sandbox::User=root", *words, *command], cwd=folder, stdout=subprocess.DEVNULL, stderr=subprocess.DEVNULL, check=False)
    found = sorted(folder.glob("librecad-*/libraries/libdxfrw/src"))
    return found[-1] if found else None


def build_counter(folder: Path) -> Optional[Path]:
    """The counter over libdxfrw, compiled where it isn't there."""
    counter, source = folder / "count_entities", fetch_librecad(folder)
    written = TOP / "bench" / "count_entities.cpp"
    if source is None:
        return None
    if not counter.exists() or counter.stat().st_mtime < written.stat().st_mtime:
        sources = [str(one) for one in [written, *source.glob("*.cpp"), *source.glob("intern/*.cpp")]]
        subprocess.run(["g++", "-O2", "-std=c++14", "-w", f"-I{source}", "-o", str(counter), *sources], check=True)
    return counter


@dataclass
class Count:
    """What a program read of a drawing: how many entities, and what it says where it doesn't read it whole."""

    entities: Optional[int]
    words: str
    ran: Ran


def count_by_libdxfrw(counter: Path, drawing: Path) -> Count:
    """How many entities libdxfrw reads."""
    ran = run([str(counter), str(drawing)])
    lines = ran.output.decode("utf-8", "replace").splitlines()
    told = re.match(r"whole ([01]) error (\S+) sum", lines[-1]) if lines else None
    if ran.status or not told:
        return Count(None, ran.words(), ran)
    entities = re.search(r" entities (\d+)", lines[-1])
    return Count(int(entities[1]) if entities else 0, "" if told[1] == "1" else f"error: {told[2]}", ran)


def count_by_gdal(drawing: Path, every: bool = False) -> Count:
    """How many features GDAL reads: all are printed where `every` is set. What it prints is read line by line, so that this process stays small."""
    with tempfile.NamedTemporaryFile() as out:
        ran = run(["ogrinfo", "-ro", "-al", *([] if every else ["-so"]), str(drawing)], output=Path(out.name))
        counts, faults, opened = [], [], ran.status == 0
        for line in itertools.chain(ran.output.splitlines(), out):
            if line.startswith((b"ERROR", b"File is")):
                faults.append(line.decode("utf-8", "replace").strip())
            elif line.startswith(b"Unable to open"):
                opened = False
            elif line.startswith(b"Feature Count: "):
                counts.append(int(line.split(b": ")[1]))
    # It tells its own faults first, and then that no driver opens the file.
    return Count(sum(counts), "", ran) if opened else Count(None, "; ".join(faults) or "Unable to open datasource", ran)


def count_by_ezdxf(drawing: Path) -> Count:
    """What ezdxf's loader of R2000 drawings says; it is a part of ezdxf that its authors call unfinished."""
    code = "import sys\nfrom ezdxf.addons.dwg import loader\ndoc = loader.readfile(sys.argv[1])\nprint('read', len(doc.modelspace()))\n"
    ran = run([PYTHON, "-c", code, str(drawing)])
    found = re.search(rb"^read (\d+)$", ran.output, re.MULTILINE)
    return Count(int(found[1]), "", ran) if found else Count(None, ran.words(), ran)


def versions(folder: Path) -> Dict[str, str]:
    """The versions of the packages that are read with."""
    found = {}
    for package in ("gdal-bin", "python3-ezdxf"):
        ran = run(["dpkg-query", "-W", "-f", "${Version}", package])
        found[package] = ran.output.decode().strip() if ran.status == 0 else "not installed"
    source = sorted(folder.glob("librecad_*.dsc"))
    found["librecad"] = source[-1].stem.split("_")[1] if source else "not fetched"
    return found


def machine() -> str:
    """What kind of machine this is, in a few words."""
    model = re.search(r"^model name\s*: (.*)", Path("/proc/cpuinfo").read_text(encoding="utf-8"), re.MULTILINE)
    return f"{model[1] if model else 'unknown processor'}, {os.cpu_count()} processors"


def is_quiet() -> bool:
    """Whether nearly nothing else runs."""
    return os.getloadavg()[0] < 0.5
