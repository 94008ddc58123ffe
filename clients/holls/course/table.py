"""The table of a course: for people, as CSV and as JSON."""

from __future__ import annotations

import csv
import io
import json
from dataclasses import dataclass
from typing import Dict, List, Sequence, Tuple

from holls.course.layout import Course
from holls.course.verdicts import Status, Verdict

_FORMULA = ("=", "+", "-", "@", "\t", "\r")
"""What begins a formula in a table that a spreadsheet opens."""


@dataclass(frozen=True)
class Row:
    """A student, with a verdict for each exercise, in the course's order."""

    student: str
    verdicts: Tuple[Tuple[str, Verdict], ...]
    """Each with the name of its file."""

    @property
    def proved(self) -> int:
        """How many are proved."""
        return sum(verdict.status == Status.PROVED for _, verdict in self.verdicts)


def columns(course: Course) -> List[Tuple[str, str]]:
    """The exercises of a course, each with its file."""
    return [(given.name, one.name) for given in course.files for one in given.exercises]


def as_json(course: Course, rows: Sequence[Row]) -> str:
    """The table as one JSON object."""
    told: Dict[str, object] = {
        "course": course.title, "exercises": ["%s/%s" % column for column in columns(course)],
        "students": [{
            "student": row.student, "proved": row.proved, "of": len(row.verdicts),
            "exercises": [dict(verdict.as_json(), file=file) for file, verdict in row.verdicts]} for row in rows]}
    return json.dumps(told, indent=1, ensure_ascii=False) + "\n"


def as_csv(course: Course, rows: Sequence[Row]) -> str:
    """The table with a line for each student and a column for each exercise. No cell is a formula."""
    written = io.StringIO()
    writer = csv.writer(written, lineterminator="\n")
    writer.writerow(["student", "proved", "of"] + ["%s/%s" % column for column in columns(course)])
    for row in rows:
        writer.writerow([_cell(row.student), row.proved, len(row.verdicts)] + [verdict.status.value for _, verdict in row.verdicts])
    return written.getvalue()


def _cell(text: str) -> str:
    """A text as a cell that stays one."""
    return "'" + text if text.startswith(_FORMULA) else text


def lines(row: Row) -> List[str]:
    """A student's lines: how many are proved, and what there is to say of the others."""
    told = ["%s: %d of %d proved" % (row.student, row.proved, len(row.verdicts))]
    missing = [file for file, verdict in row.verdicts if verdict.status == Status.MISSING]
    told += ["  %s: not sent" % file for file in dict.fromkeys(missing)]
    return told + [
        "  %s%s: %s: %s%s" % (file, "" if verdict.line is None else ":%d" % verdict.line, verdict.exercise, verdict.status.value,
                              ", " + verdict.detail if verdict.detail else "")
        for file, verdict in row.verdicts if verdict.status not in (Status.PROVED, Status.MISSING)]
