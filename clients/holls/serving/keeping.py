"""Students' texts as the server keeps them, where a teacher names a folder for it: FOLDER/STUDENT/FILE.hol, as `holls grade` reads what was handed in.

Nobody checks the names that students give. So a folder is of the browser that came first, by the key in its cookie: one that gives the same name later
has a folder of its own, and what is in a folder that the server hasn't made is never written over.
"""

from __future__ import annotations

import hashlib
import os
import re
from collections import OrderedDict
from typing import Container, Tuple

from holls.course.layout import WORK_BYTES
from holls.projects import SUFFIX

MOST_FOLDERS = 2_000
MOST_OF_A_NAME = 20
"""So many browsers may give one name."""
NAME_BYTES, MARKED_CHARACTERS = 120, 40
REMEMBERED = 1_000
KEY_FILE = ".key"

_MARKED = re.compile(r"-[0-9a-f]{8}\Z")


class NotKept(Exception):
    """Why a text isn't kept."""


def folder_of(student: str) -> str:
    """The name of a student's folder, which no other student's name has."""
    plain = "".join(one if one.isalnum() or one in " _-." else "_" for one in student)
    is_plain = plain == student == student.strip(" .") and len(os.fsencode(student)) <= NAME_BYTES
    if is_plain and student and not _MARKED.search(student):
        return student
    return "%s-%s" % (plain.strip(" .")[:MARKED_CHARACTERS] or "student", _digest(student)[:8])


def _digest(text: str) -> str:
    return hashlib.sha256(text.encode("utf-8", "replace")).hexdigest()


class Keeping:
    """The folder, and of which files of exercises texts are kept."""

    def __init__(self, folder: str, files: Container[str]) -> None:
        self._folder, self._files = folder, files
        self._own: "OrderedDict[Tuple[str, str], str]" = OrderedDict()

    def put(self, student: str, key: str, file: str, text: str) -> None:
        """Keeps a student's text of a file of exercises. Raises NotKept."""
        data = text.encode("utf-8", "replace")
        if file not in self._files or len(data) > WORK_BYTES:
            raise NotKept("%s is too long to be kept" % file if file in self._files else "%s is no file of the course" % file)
        try:
            folder = self._folder_of(student, key)
            own = os.path.join(folder, ".%s.%d" % (file, os.getpid()))
            with open(os.open(own, os.O_WRONLY | os.O_CREAT | os.O_TRUNC | os.O_NOFOLLOW, 0o644), "wb") as stream:
                stream.write(data)
            os.replace(own, os.path.join(folder, file + SUFFIX))
        except OSError as error:
            raise NotKept("%s can't be written to: %s" % (self._folder, error.strerror or error)) from None

    def _folder_of(self, student: str, key: str) -> str:
        """The folder of a student's browser, which is made where it has none."""
        if (student, key) not in self._own:
            self._own[student, key] = self._found(student, _digest(key))
            if len(self._own) > REMEMBERED:
                self._own.popitem(last=False)
        self._own.move_to_end((student, key))
        return self._own[student, key]

    def _found(self, student: str, mark: str) -> str:
        path = os.path.join(self._folder, folder_of(student))
        for number in range(1, MOST_OF_A_NAME + 1):
            own = path if number == 1 else "%s (%d)" % (path, number)
            if self._is_of(own, mark):
                return own
        raise NotKept("%d others have given this name" % MOST_OF_A_NAME)

    def _is_of(self, path: str, mark: str) -> bool:
        """Whether a folder is the one of a key; one that isn't there is made for it."""
        key = os.path.join(path, KEY_FILE)
        if not os.path.lexists(path):
            os.makedirs(self._folder, exist_ok=True)
            if len(os.listdir(self._folder)) >= MOST_FOLDERS:
                raise NotKept("%s has %d folders already" % (self._folder, MOST_FOLDERS))
            os.mkdir(path)
            with open(key, "x", encoding="ascii") as stream:
                stream.write(mark)
            return True
        try:
            with open(key, encoding="ascii") as stream:
                return stream.read(len(mark) + 1) == mark
        except (OSError, ValueError):
            return False
