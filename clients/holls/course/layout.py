"""A course's folder: what it says of itself, its exercises, and what its students have sent.

    hol-course.json       {"title": .., "exercises": [..], "imports": [..], "forbidden": [..]}, each of which may be left out
    exercises/NAME.hol    what students are given: files with `sorry`, or with proofs that aren't ended
    theories/NAME.hol     the course's own theories, which exercises may import beside the library's
    work/STUDENT/NAME.hol what a student has sent
"""

from __future__ import annotations

import json
import os
from dataclasses import dataclass
from typing import Dict, List, Optional, Tuple

from holls import disk, projects, protocol
from holls.course.exercises import BadExercise, Exercise, exercises
from holls.projects import SUFFIX

COURSE_FILE = "hol-course.json"
EXERCISES, THEORIES, WORK = "exercises", "theories", "work"
COURSE_FILE_BYTES = 1 << 20
WORK_BYTES = 1 << 20
"""So long may a student's file be."""
MOST_STUDENTS = 10_000
MOST_EXERCISES = 200
NAME_BYTES = 48
"""So long may the name of an exercise's file be: names that are made of it are theories' names too."""
_KEYS = ("title", "exercises", "imports", "forbidden")


class BadCourse(Exception):
    """Why a folder is no course, in words that say what to do."""


@dataclass(frozen=True)
class Given:
    """A file of exercises: the name of its theory, its text, and its exercises in order."""

    name: str
    text: str
    exercises: Tuple[Exercise, ...]


@dataclass(frozen=True)
class Course:
    """A course: its folder and title, its files in order, which theories a student may import beside those that an exercise imports, and which names
    (theorems, tactics, commands) no command of a student's own may use."""

    folder: str
    title: str
    files: Tuple[Given, ...]
    imports: Tuple[str, ...]
    forbidden: Tuple[str, ...]

    @property
    def theories(self) -> str:
        """The folder of the course's own theories, which may be missing."""
        return os.path.join(self.folder, THEORIES)


def read(folder: str) -> Course:
    """The course of a folder. Raises BadCourse."""
    told = _told(os.path.join(folder, COURSE_FILE))
    inside = os.path.join(folder, EXERCISES)
    names = _names(inside)
    if not names:
        raise BadCourse("no file NAME%s is in %s: a course's exercises stand there" % (SUFFIX, inside))
    if len(names) > MOST_EXERCISES:
        raise BadCourse("%s has more than %d files" % (inside, MOST_EXERCISES))
    order = told.get("exercises", names)
    missing = next((name for name in order if name not in names), None)
    if missing is not None:
        raise BadCourse("%s names the exercise %s, and there is no file %s" % (COURSE_FILE, missing, os.path.join(inside, missing + SUFFIX)))
    own = _names(os.path.join(folder, THEORIES))
    unknown = next((name for name in told.get("imports", ()) if name not in own and not projects.in_library(name)), None)
    if unknown is not None:
        raise BadCourse("%s: `imports` names %s, which is a theory neither of the course nor of the library" % (COURSE_FILE, unknown))
    files = tuple(_given(inside, name, own) for name in order)
    return Course(folder, str(told.get("title", os.path.basename(os.path.abspath(folder)))), files,
                  tuple(told.get("imports", ())), tuple(told.get("forbidden", ())))


def _told(path: str) -> Dict[str, object]:
    """What a course says of itself; nothing where it has no such file."""
    if not os.path.lexists(path):
        return {}
    try:
        told = json.loads(disk.read(path, COURSE_FILE_BYTES).decode("utf-8"))
    except disk.CannotRead as error:
        raise BadCourse("%s %s" % (path, error)) from None
    except (ValueError, RecursionError) as error:
        raise BadCourse("%s can't be read: %s" % (path, error)) from None
    if not isinstance(told, dict):
        raise BadCourse('%s has to be an object, as {"title": "Logic"}' % path)
    other = next((key for key in told if key not in _KEYS), None)
    if other is not None:
        raise BadCourse("%s: the key `%s` means nothing; there are %s" % (path, other, ", ".join(_KEYS)))
    if not isinstance(told.get("title", ""), str):
        raise BadCourse("%s: `title` has to be a text" % path)
    for key in _KEYS[1:]:
        value = told.get(key, [])
        if not isinstance(value, list) or not all(isinstance(one, str) for one in value) or len(set(value)) < len(value):
            raise BadCourse("%s: `%s` has to be a list of different names" % (path, key))
    return told


def _names(folder: str) -> List[str]:
    """The theories of a folder that may be missing, in the order of their names."""
    try:
        with os.scandir(folder) as entries:
            return sorted(entry.name[:-len(SUFFIX)] for entry in entries if entry.name.endswith(SUFFIX) and disk.is_regular(entry))
    except OSError:
        return []


def _given(folder: str, name: str, own: List[str]) -> Given:
    """A file of exercises."""
    path = os.path.join(folder, name + SUFFIX)
    if not protocol.is_name(name) or len(name) > NAME_BYTES:
        raise BadCourse("%s: rename it: a theory's name is a letter or _, then letters, digits and _, here at most %d of them" % (path, NAME_BYTES))
    if name in own or projects.in_library(name):
        raise BadCourse("%s: rename it: %s has a theory of that name" % (path, "the course" if name in own else "the library"))
    try:
        text = disk.read(path, WORK_BYTES).decode("utf-8")
        found = exercises(text)
    except disk.CannotRead as error:
        raise BadCourse("%s %s" % (path, error)) from None
    except UnicodeDecodeError:
        raise BadCourse("%s is no UTF-8" % path) from None
    except BadExercise as error:
        raise BadCourse("%s, %s" % (path, error)) from None
    if not found:
        raise BadCourse("%s has no exercise: each is a proof that ends by sorry;; or isn't ended" % path)
    return Given(name, text, tuple(found))


def students(work: str) -> List[str]:
    """Those who have a folder in the folder of what was sent, by name. Raises BadCourse."""
    try:
        with os.scandir(work) as entries:
            found = sorted(entry.name for entry in entries if not entry.name.startswith(".") and disk.is_folder(entry))
    except OSError as error:
        raise BadCourse("%s can't be looked into: %s" % (work, error.strerror or error)) from None
    if len(found) > MOST_STUDENTS:
        raise BadCourse("%s has more than %d folders" % (work, MOST_STUDENTS))
    return found


@dataclass(frozen=True)
class Sent:
    """What a student has sent for a file: its text, or why there is none."""

    text: Optional[str]
    why_not: str = ""


def sent(work: str, student: str, name: str) -> Sent:
    """A student's file. Nothing is read that a link leads to, so that no one hands in what another has written."""
    path = os.path.join(work, student, name + SUFFIX)
    if not os.path.lexists(path):
        return Sent(None, "")
    if os.path.islink(path):
        return Sent(None, "the file is a link")
    try:
        return Sent(disk.read(path, WORK_BYTES).decode("utf-8"))
    except disk.CannotRead as error:
        return Sent(None, "the file %s" % error)
    except UnicodeDecodeError as error:
        return Sent(None, "the file is no UTF-8 (byte 0x%02x at %d)" % (error.object[error.start], error.start))
