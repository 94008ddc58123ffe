"""The released program: it is unpacked where no other one is found, into a folder of the user's that keeps it.

release/ has the program, compressed, and what is known of it (release/make.py makes both). What is run is always what its SHA-256 says.
"""

from __future__ import annotations

import hashlib
import json
import os
import platform
import stat
import tempfile
from dataclasses import dataclass
from pathlib import Path
from typing import Optional

from holls import carried

try:
    import lzma
except ImportError:  # A Python that was built without it.
    lzma = None  # type: ignore[assignment]

PACKED, ABOUT = "hol_serve.xz", "about.json"
SYSTEM, MACHINE = "Linux", "x86_64"
MOST_BYTES = 64 << 20
"""A larger file is no program of ours."""


class Unusable(Exception):
    """Why the released program can't be used; the text says what to do."""


@dataclass(frozen=True)
class Release:
    """What is known of the released program: the commit and the kit that it was proved with, its size and its sum."""

    folder: Path
    commit: str
    kit: str
    sha256: str
    size: int

    def told(self) -> str:
        """The release in a few words."""
        return "the released program (proved, of commit %s)" % self.commit[:8]


def release() -> Optional[Release]:
    """The release that stands here; None where there is none."""
    folder = carried.folder("release")
    if not (folder / PACKED).is_file():
        return None
    try:
        about = json.loads((folder / ABOUT).read_text(encoding="utf-8"))
        return Release(folder, str(about["commit"]), str(about["kit"]), str(about["sha256"]), int(about["size"]))
    except (OSError, ValueError, KeyError, TypeError) as error:
        raise Unusable("%s doesn't say what the released program is (%s): take it from the repository anew" % (folder / ABOUT, error)) from None


def program(of: Release) -> str:
    """The path of the released program, unpacked. What stands there already is taken where its sum is right."""
    if (platform.system(), platform.machine()) != (SYSTEM, MACHINE):
        raise Unusable("the released program is for %s on %s, and this is %s on %s" % (SYSTEM, MACHINE, platform.system(), platform.machine()))
    why = []
    for folder in (_kept(), _temporary()):
        path = folder / ("hol_serve-" + of.sha256[:16])
        try:
            if why:
                _make_alone(folder)
            if not _has_sum(path, of.sha256):
                _put(path, _unpacked(of))
            return str(path)
        except OSError as error:
            why.append("%s (%s)" % (folder, error.strerror or error))
    raise Unusable("the released program can't be put into %s: have XDG_CACHE_HOME name another folder" % " or ".join(why))


def _kept() -> Path:
    """The folder that keeps it."""
    named = os.environ.get("XDG_CACHE_HOME", "")
    return (Path(named) if os.path.isabs(named) else Path(os.path.expanduser("~")) / ".cache") / "holls"


def _temporary() -> Path:
    """The folder that keeps it where the other one can't be written, as in a container or a service, whose user often has no home."""
    return Path(tempfile.gettempdir()) / ("holls-%d" % os.getuid())


def _make_alone(folder: Path) -> None:
    """Makes a folder where all may write. One that stands there already has to be this user's, and nobody else may enter it."""
    folder.mkdir(mode=0o700, exist_ok=True)
    found = os.lstat(folder)
    if not stat.S_ISDIR(found.st_mode) or found.st_uid != os.getuid() or found.st_mode & 0o077:
        raise OSError("another one may write there")


def _has_sum(path: Path, sha256: str) -> bool:
    return path.is_file() and path.stat().st_size <= MOST_BYTES and hashlib.sha256(path.read_bytes()).hexdigest() == sha256


def _unpacked(of: Release) -> bytes:
    """The program's bytes, no more than they should be, and those that the sum says."""
    if lzma is None:
        raise Unusable("this Python was built without lzma, which unpacks the released program: take another one, or unpack %s by `xz -dk`, make it "
                       "executable, and have HOL_SERVE name it" % (of.folder / PACKED))
    try:
        data = lzma.LZMADecompressor().decompress((of.folder / PACKED).read_bytes(), max_length=min(of.size, MOST_BYTES) + 1)
    except lzma.LZMAError as error:
        raise Unusable("%s can't be unpacked: %s" % (of.folder / PACKED, error)) from None
    if hashlib.sha256(data).hexdigest() != of.sha256:
        raise Unusable("%s isn't the program that %s names: take both from the repository anew" % (of.folder / PACKED, ABOUT))
    return data


def _put(path: Path, data: bytes) -> None:
    """Writes a program that can be run, whole or not at all."""
    path.parent.mkdir(mode=0o700, parents=True, exist_ok=True)
    number, own = tempfile.mkstemp(dir=str(path.parent))
    try:
        with os.fdopen(number, "wb") as stream:
            stream.write(data)
        os.chmod(own, 0o700)
        os.replace(own, str(path))
    except OSError:
        os.unlink(own)
        raise
