"""Makes the package for Python: what `pip install .` calls. It needs nothing but Python, so an installation fetches nothing.

The hooks of PEP 517 and 660 are `build_wheel`, `build_editable` and `build_sdist`. A wheel is a zip of the package `holls`, of what it carries in
holls/data (the library, the page, the released program), and of what is said of it, which is taken from pyproject.toml.
"""

from __future__ import annotations

import base64
import configparser
import hashlib
import io
import json
import pathlib
import tarfile
import zipfile
from typing import Any, Dict, Iterator, List, Optional, Tuple

HERE = pathlib.Path(__file__).resolve().parent
ROOT = HERE.parent
DATA = (("theories", ("*.hol",)), ("page", ("*.html", "*.css", "*.js", "*.svg")), ("release", ("*.xz", "about.json")))
"""The folders that are carried, with the files of each."""

SOURCES = ("pyproject.toml", "README.md", "LICENSE", "clients/wheels.py")
WHEN = (2020, 1, 1, 0, 0, 0)
"""The time of all files in it, so that the same files make the same package."""

WHEEL = "Wheel-Version: 1.0\nGenerator: hol-serve\nRoot-Is-Purelib: true\nTag: py3-none-any\n"


def about() -> Dict[str, Dict[str, Any]]:
    """The tables of pyproject.toml whose values stand in one line each."""
    read = configparser.ConfigParser(interpolation=None, delimiters=("=",))
    read.read_string((ROOT / "pyproject.toml").read_text(encoding="utf-8"))
    return {name: {key: json.loads(value) for key, value in table.items() if value[:1] in "\"["} for name, table in read.items()}


def files() -> Iterator[Tuple[str, pathlib.Path]]:
    """What is installed: the names there, and the files."""
    for path in sorted((HERE / "holls").rglob("*.py")):
        yield path.relative_to(HERE).as_posix(), path
    for folder, patterns in DATA:
        for path in sorted(path for pattern in patterns for path in (ROOT / folder).glob(pattern)):
            yield "holls/data/%s/%s" % (folder, path.name), path


def metadata() -> str:
    """What is said of the package, with README behind it."""
    tables = about()
    project = tables["project"]
    lines = ["Metadata-Version: 2.1"]
    lines += ["%s: %s" % (word, project[key]) for word, key in (
        ("Name", "name"), ("Version", "version"), ("Summary", "description"), ("Requires-Python", "requires-python"))]
    for extra, needed in tables["project.optional-dependencies"].items():
        lines.append("Provides-Extra: %s" % extra)
        lines += ["Requires-Dist: %s ; extra == '%s'" % (one, extra) for one in needed]
    lines.append("Description-Content-Type: text/markdown")
    return "\n".join(lines) + "\n\n" + (ROOT / "README.md").read_text(encoding="utf-8")


def _stem() -> str:
    project = about()["project"]
    return "%s-%s" % (project["name"].replace("-", "_"), project["version"])


def _about() -> Iterator[Tuple[str, bytes]]:
    """The files of a wheel that say what it is, but the last one."""
    scripts = "".join("%s = %s\n" % one for one in about()["project.scripts"].items())
    said = {"METADATA": metadata(), "WHEEL": WHEEL, "entry_points.txt": "[console_scripts]\n" + scripts}
    for name, text in said.items():
        yield "%s.dist-info/%s" % (_stem(), name), text.encode()
    yield "%s.dist-info/LICENSE" % _stem(), (ROOT / "LICENSE").read_bytes()


def build_wheel(wheel_directory: str, config_settings: Optional[Any] = None, metadata_directory: Optional[str] = None) -> str:
    """Writes the wheel into a folder, and answers its name."""
    return _wheel(wheel_directory, [(name, path.read_bytes()) for name, path in files()])


def build_editable(wheel_directory: str, config_settings: Optional[Any] = None, metadata_directory: Optional[str] = None) -> str:
    """Writes one by which the package runs from this clone, as `pip install -e .` wants it."""
    return _wheel(wheel_directory, [(_stem().split("-")[0] + ".pth", ("%s\n" % HERE).encode())])


def _wheel(folder: str, installed: List[Tuple[str, bytes]]) -> str:
    name = _stem() + "-py3-none-any.whl"
    record = "%s.dist-info/RECORD" % _stem()
    rows: List[str] = []
    with zipfile.ZipFile(pathlib.Path(folder, name), "w", zipfile.ZIP_DEFLATED) as wheel:
        for inside, data in [*installed, *_about()]:
            digest = base64.urlsafe_b64encode(hashlib.sha256(data).digest()).rstrip(b"=").decode()
            rows.append("%s,sha256=%s,%d\n" % (inside, digest, len(data)))
            _put(wheel, inside, data)
        _put(wheel, record, ("".join(rows) + record + ",,\n").encode())
    return name


def _put(wheel: zipfile.ZipFile, name: str, data: bytes) -> None:
    one = zipfile.ZipInfo(name, WHEN)
    one.external_attr = 0o644 << 16
    wheel.writestr(one, data, zipfile.ZIP_DEFLATED)


def build_sdist(sdist_directory: str, config_settings: Optional[Any] = None) -> str:
    """Writes the sources from which a wheel is made, and answers the archive's name."""
    name = _stem() + ".tar.gz"
    carried = [path for _, path in files()] + [ROOT / one for one in SOURCES]
    with tarfile.open(pathlib.Path(sdist_directory, name), "w:gz", format=tarfile.PAX_FORMAT) as archive:
        for path in carried:
            archive.add(str(path), "%s/%s" % (_stem(), path.relative_to(ROOT).as_posix()))
        said = metadata().encode()
        info = tarfile.TarInfo("%s/PKG-INFO" % _stem())
        info.size = len(said)
        archive.addfile(info, io.BytesIO(said))
    return name
