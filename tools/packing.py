"""Makes the wheel that `pip install tools/` installs, by the standard library alone (PEP 517): no
index is asked for anything, and a fresh environment needs nothing but pip."""

from __future__ import annotations

import base64
import configparser
import hashlib
import pathlib
import re
import zipfile
from typing import Any, Dict, Optional

HERE = pathlib.Path(__file__).resolve().parent
SOURCES = HERE / "src"
# Nobody's time of building: the same sources make the same bytes.
MADE_AT = (2000, 1, 1, 0, 0, 0)


def _project() -> configparser.ConfigParser:
    """What pyproject.toml says of the package; of TOML it uses what reads so too."""
    found = configparser.ConfigParser(delimiters=("=",), interpolation=None)
    found.read(HERE / "pyproject.toml", encoding="utf-8")
    return found


def _metadata() -> Dict[str, str]:
    """The files that say what the package is, by name."""
    project = _project()
    told = {name: value.strip('"') for name, value in project["project"].items()}
    init = (SOURCES / told["name"] / "__init__.py").read_text(encoding="utf-8")
    found = re.search('^__version__ = "(.+)"$', init, re.M)
    assert found is not None, "no version"
    lines = ["Metadata-Version: 2.1", f"Name: {told['name']}", f"Version: {found[1]}"]
    lines += [f"Summary: {told['description']}", f"Requires-Python: {told['requires-python']}"]
    scripts = (f"{name}={value}" for name, value in project["project.scripts"].items())
    return {
        "METADATA": "\n".join([*lines, ""]),
        "WHEEL": "Wheel-Version: 1.0\nGenerator: packing\nRoot-Is-Purelib: true\n"
        "Tag: py3-none-any\n",
        "entry_points.txt": "\n".join(["[console_scripts]", *scripts, ""]).replace('"', ""),
        "name": f"{told['name']}-{found[1]}",
    }


def build_wheel(folder: str, settings: Any = None, metadata: Optional[str] = None) -> str:
    """Makes the wheel in a folder, and says its name."""
    told = _metadata()
    name = told.pop("name")
    files = {f"{name}.dist-info/{one}": text.encode() for one, text in told.items()}
    for path in sorted(SOURCES.rglob("*.py")):
        files[path.relative_to(SOURCES).as_posix()] = path.read_bytes()
    rows = [f"{one},sha256={_digest(data)},{len(data)}\n" for one, data in files.items()]
    record = f"{name}.dist-info/RECORD"
    files[record] = "".join([*rows, f"{record},,\n"]).encode()
    wheel = f"{name}-py3-none-any.whl"
    with zipfile.ZipFile(pathlib.Path(folder) / wheel, "w", zipfile.ZIP_DEFLATED) as out:
        for one, data in sorted(files.items()):
            at = zipfile.ZipInfo(one, MADE_AT)
            at.external_attr, at.compress_type = 0o644 << 16, zipfile.ZIP_DEFLATED
            out.writestr(at, data)
    return wheel


def _digest(data: bytes) -> str:
    return base64.urlsafe_b64encode(hashlib.sha256(data).digest()).rstrip(b"=").decode()
