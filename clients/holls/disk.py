"""Files of folders that others may have filled: a regular file of bounded size is read, and nothing else is waited for."""

from __future__ import annotations

import os
import stat
from typing import Tuple

FILE_BYTES = 16 << 20
"""A larger file isn't read."""

_WITHOUT_WAITING = getattr(os, "O_NONBLOCK", 0) | getattr(os, "O_NOCTTY", 0) | getattr(os, "O_CLOEXEC", 0) | getattr(os, "O_BINARY", 0)


class CannotRead(Exception):
    """Why a file can't be read, in words that follow its name."""


def read(path: str, most: int = FILE_BYTES) -> bytes:
    """The bytes of a regular file, at most so many. CannotRead where there is none: a folder, a pipe, a device, a link that leads nowhere."""
    try:
        if not stat.S_ISREG(os.stat(path).st_mode):
            raise CannotRead("is no regular file")
        with open(os.open(path, os.O_RDONLY | _WITHOUT_WAITING), "rb") as stream:
            if not stat.S_ISREG(os.fstat(stream.fileno()).st_mode):
                raise CannotRead("is no regular file")
            data = stream.read(most + 1)
    except (OSError, ValueError) as error:
        raise CannotRead("can't be read: %s" % (getattr(error, "strerror", None) or error)) from None
    if len(data) > most:
        raise CannotRead("can't be read: it has more than %d MB" % (most >> 20) if most >> 20 else "can't be read: it is too large")
    return data


def is_regular(entry: "os.DirEntry[str]") -> bool:
    """Whether an entry of a folder is a regular file, or a link to one."""
    try:
        return entry.is_file()
    except OSError:
        return False  # A link that leads in a circle.


def is_folder(entry: "os.DirEntry[str]") -> bool:
    """Whether an entry of a folder is a folder, and no link to one."""
    try:
        return entry.is_dir(follow_symlinks=False)
    except OSError:
        return False


Moment = Tuple[int, int, int]
"""By what it is seen that a path has changed."""


def changed(path: str) -> Moment:
    """When a path changed last, how large it is, and which file it is; zeros where there is none."""
    try:
        about = os.stat(path)
        return about.st_mtime_ns, about.st_size, about.st_ino
    except (OSError, ValueError):
        return 0, 0, 0


def is_within(path: str, folder: str) -> bool:
    """Whether a path lies in a folder or below it, where links lead."""
    real, own = os.path.realpath(path), os.path.realpath(folder)
    return real == own or real.startswith(os.path.join(own, ""))
