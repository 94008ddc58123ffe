"""What a teacher sees of a class: who is there, what each has proved, and which goal has stood the longest."""

from __future__ import annotations

import html
import re
import time
from collections import OrderedDict
from dataclasses import dataclass, field
from typing import Any, Callable, Dict, List, Optional
from urllib.parse import quote, unquote

from holls.serving.progress import Exercises

COOKIE, KEY_COOKIE = "student", "browser"
"""The cookies with a student's name, and with the key of the browser in which it was given."""
NAME = 60
"""So many characters a student's name has at most."""
_KEY = re.compile(r"[A-Za-z0-9_-]{16,64}\Z")
STUDENTS = 1_000
"""Of so many it is known how far they are; of more those are forgotten of whom nothing was heard the longest."""
REFRESH_SECONDS = 10
PAUSE_SECONDS = 300
"""Who does nothing for longer has worked so long, and then paused."""


def name_of(given: str) -> str:
    """A name as it is shown: what can't be printed is left out."""
    return "".join(character for character in given if character.isprintable()).strip()[:NAME]


def to_cookie(name: str) -> str:
    """A name as a cookie has it."""
    return quote(name, safe="")


def from_cookie(value: Optional[str]) -> str:
    """And back."""
    return name_of(unquote(value or "", errors="replace"))


def key_of(value: Optional[str]) -> str:
    """The key that a cookie has, if it can be one."""
    return value if value and _KEY.match(value) else ""


@dataclass
class At:
    """How far a student is with a file, and since when the goal stands."""

    proved: int
    open: Optional[str]
    goal: Optional[str]
    since: float


@dataclass
class Student:
    """What is known of a student: by files, when something was heard last, and for how long there was something to hear again and again."""

    files: Dict[str, At] = field(default_factory=dict)
    heard: Optional[float] = None
    worked: float = 0.0


class Class:
    """The students by their names, which they give themselves."""

    def __init__(self, title: str, exercises: Exercises, clock: Callable[[], float] = time.monotonic) -> None:
        self.title, self.exercises, self._clock = title, exercises, clock
        self.students: "OrderedDict[str, Student]" = OrderedDict()

    def hear(self, name: str, told: List[Dict[str, Any]]) -> None:
        """Takes how far a student is."""
        student = self.students.pop(name, None) or Student()
        self.students[name] = student
        if len(self.students) > STUDENTS:
            self.students.popitem(last=False)
        now = self._clock()
        student.worked += min(now - student.heard, PAUSE_SECONDS) if student.heard is not None else 0.0
        student.heard = now
        for one in told:
            was = student.files.get(one["file"])
            is_same = was is not None and (was.open, was.goal) == (one["open"], one["goal"])
            student.files[one["file"]] = At(len(one["proved"]), one["open"], one["goal"], was.since if is_same else self._clock())

    def stuck(self, student: Student) -> Optional[str]:
        """The file whose goal has stood the longest, of those that were begun and aren't done."""
        begun = [name for name, at in student.files.items() if at.open is not None]
        return min(begun, key=lambda name: student.files[name].since, default=None)

    def page(self, there: List[str]) -> str:
        """The page, those first whose goal has stood the longest."""
        rows = sorted(self.students.items(), key=lambda one: self._since(one[1]))
        head = "".join("<th>%s</th>" % html.escape(name) for name in self.exercises)
        body = "".join(self._row(name, student, name in there) for name, student in rows)
        return ("<!DOCTYPE html>\n<html lang=\"en\"><head><meta charset=\"utf-8\"><title>%s</title><meta http-equiv=\"refresh\" content=\"%d\">"
                "<link rel=\"stylesheet\" href=\"../style.css\"></head><body class=\"course\"><main><h1>%s: %d here</h1>\n"
                "<table><thead><tr><th>student</th>%s<th>stands at</th><th>for</th><th>goal</th><th>worked</th></tr></thead>\n<tbody>%s</tbody></table>\n"
                "</main></body></html>\n") % (html.escape(self.title), REFRESH_SECONDS, html.escape(self.title), len(there), head, body)

    def _since(self, student: Student) -> float:
        name = self.stuck(student)
        return student.files[name].since if name else self._clock()

    def _row(self, name: str, student: Student, is_there: bool) -> str:
        cells = [name if is_there else "%s (away)" % name]
        for file, names in self.exercises.items():
            at = student.files.get(file)
            cells.append("%d of %d" % (at.proved if at else 0, len(names)))
        stuck = self.stuck(student)
        at = student.files[stuck] if stuck else None
        cells += ["%s: %s" % (stuck, at.open), "%d min" % ((self._clock() - at.since) // 60), at.goal or ""] if at else ["", "", ""]
        cells.append("%d min" % (student.worked // 60))
        return "<tr>%s</tr>\n" % "".join("<td>%s</td>" % html.escape(cell) for cell in cells)
