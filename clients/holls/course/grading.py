"""`holls grade`: judges what a course's students have sent, and makes a table of it."""

from __future__ import annotations

import argparse
import json
import os
import signal
import subprocess
import sys
from concurrent.futures import ThreadPoolExecutor
from pathlib import Path
from typing import Dict, List, Optional, Sequence

import holls
from holls import server
from holls.course import judging, layout, table
from holls.course.exercises import given_up
from holls.course.judging import Task
from holls.course.layout import BadCourse, Course, Given
from holls.course.verdicts import Status, Verdict
from holls.say import complain, say

UNCHECKED, BROKEN = 1, 2
_MODULES = str(Path(holls.__file__).resolve().parents[1])
_MOST_TOLD = 300
"""So much of what a judge says is told."""


def add_words(words: argparse.ArgumentParser) -> None:
    """The words of the command line."""
    words.add_argument("folder", metavar="FOLDER", help="the course's folder (docs/COURSES.md)")
    words.add_argument("--work", metavar="DIR", help="what the students have sent, a folder for each (FOLDER/work)")
    words.add_argument("--student", action="append", default=[], metavar="NAME", help="only this one; may be given again")
    words.add_argument("--csv", metavar="FILE", help="write the table there as CSV")
    words.add_argument("--json", metavar="FILE", help="write the table there as JSON, with all that was said")
    words.add_argument("--server", metavar="PROGRAM", help="the program hol_serve")
    words.add_argument("--seconds", type=int, default=20, help="how long one command may take (20)")
    words.add_argument("--file-seconds", type=int, default=300, help="how long one file may take (300)")
    words.add_argument("--memory", type=int, default=1000, metavar="MEGABYTES", help="how much memory a program may have (1000)")
    words.add_argument("--jobs", type=int, default=max(1, (os.cpu_count() or 2) // 2), metavar="N", help="so many files at once (half of the processors)")


def main(given: argparse.Namespace) -> int:
    """Status 0 where all was judged, 1 where something couldn't be, 2 where there is no course to judge by."""
    try:
        if min(given.seconds, given.file_seconds, given.memory, given.jobs) < 1:
            raise BadCourse("--seconds, --file-seconds, --memory and --jobs take a number from 1")
        course = layout.read(given.folder)
        work = given.work or os.path.join(given.folder, layout.WORK)
        students = _named(given.student, layout.students(work))
        program = server.find(given.server)
        server.say_which(program, given.server)
        judges = Judges(course, given, program)
        judges.check_course()
    except (BadCourse, server.NoServer) as error:
        complain(error)
        return BROKEN
    rows: List[table.Row] = []
    for row in judges.rows(work, students):
        rows.append(row)
        for line in table.lines(row):
            say(line)
        sys.stdout.flush()
    if not rows:
        complain("nobody has sent anything: %s has no folder of a student" % work)
    is_written = _written(given.csv, lambda: table.as_csv(course, rows)) and _written(given.json, lambda: table.as_json(course, rows))
    unchecked = any(verdict.status == Status.UNCHECKED for row in rows for _, verdict in row.verdicts)
    return BROKEN if not is_written else UNCHECKED if unchecked else 0


def _named(wanted: Sequence[str], known: List[str]) -> List[str]:
    """The students that are named, or all."""
    missing = next((name for name in wanted if name not in known), None)
    if missing is not None:
        raise BadCourse("--student %s: there is no folder of that name" % missing)
    return [name for name in known if name in wanted] if wanted else known


def _written(path: Optional[str], text) -> bool:
    """Writes a file where one is wanted. Answers whether nothing went wrong."""
    try:
        if path:
            Path(path).write_text(text(), encoding="utf-8", errors="backslashreplace")
        return True
    except OSError as error:
        complain("%s can't be written: %s" % (path, error.strerror or error))
        return False


class Judges:
    """Judges files side by side, each by a process of its own."""

    def __init__(self, course: Course, given: argparse.Namespace, program: Sequence[str]) -> None:
        self._course, self._program = course, tuple(os.path.abspath(word) if not number else word for number, word in enumerate(program))
        self._seconds, self._file_seconds = given.seconds, given.file_seconds
        self._memory, self._jobs = given.memory, given.jobs

    def check_course(self) -> None:
        """Judges the exercises themselves, as files in which each is given up: all else in them has to stand. Raises BadCourse."""
        with ThreadPoolExecutor(self._jobs) as pool:
            found = list(pool.map(lambda one: self._judge(one, given_up(one.text, one.exercises)), self._course.files))
        for given, verdicts in zip(self._course.files, found):
            path = os.path.join(self._course.folder, layout.EXERCISES, given.name + layout.SUFFIX)
            for exercise, verdict in zip(given.exercises, verdicts):
                if verdict.status != Status.OPEN or verdict.detail != judging.GIVEN_UP:
                    raise BadCourse("%s:%d: the exercise %s can't be given: %s" % (path, exercise.line, exercise.name, verdict.detail))

    def rows(self, work: str, students: Sequence[str]):
        """The students' rows, in order, each as soon as it stands."""
        with ThreadPoolExecutor(self._jobs) as pool:
            waiting = [(student, [pool.submit(self._sent, work, student, one) for one in self._course.files]) for student in students]
            for student, parts in waiting:
                found = [(given.name, verdict) for given, part in zip(self._course.files, parts) for verdict in part.result()]
                yield table.Row(student, tuple(found))

    def _sent(self, work: str, student: str, given: Given) -> List[Verdict]:
        """What there is to say of a student's file."""
        sent = layout.sent(work, student, given.name)
        if sent.text is None:
            status = Status.UNCHECKED if sent.why_not else Status.MISSING
            return [Verdict(one.name, status, sent.why_not) for one in given.exercises]
        return self._judge(given, sent.text)

    def _judge(self, given: Given, text: str) -> List[Verdict]:
        """What a judge says, or why it says nothing."""
        course = self._course
        task = Task(given.name, given.text, text, os.path.abspath(course.theories), course.imports, course.forbidden, self._program,
                    self._seconds, self._file_seconds)
        told = self._answer(judging.as_json(task))
        try:
            verdicts = [Verdict.from_json(one) for one in told["verdicts"]]
            if [verdict.exercise for verdict in verdicts] == [one.name for one in given.exercises]:
                return verdicts
        except (KeyError, TypeError, ValueError):
            pass
        why = str(told.get("failure", "the judge said nothing that can be read"))[:_MOST_TOLD]
        return [Verdict(one.name, Status.UNCHECKED, why) for one in given.exercises]

    def _answer(self, task: str) -> Dict[str, object]:
        """What a judge answers. It is ended, with its program, where it takes too long."""
        environment = dict(os.environ, **{server.MEMORY_VARIABLE: str(self._memory), "PYTHONPATH": _MODULES})
        process = subprocess.Popen(
            [sys.executable, "-m", "holls.course.judging"], cwd=_MODULES, env=environment, stdin=subprocess.PIPE, stdout=subprocess.PIPE,
            stderr=subprocess.DEVNULL, start_new_session=True)
        try:
            said = process.communicate(task.encode("ascii"), timeout=self._file_seconds)[0]
            told = json.loads(said.decode("utf-8"))
            return told if isinstance(told, dict) else {}
        except subprocess.TimeoutExpired:
            return {"failure": "the file takes longer than %d seconds" % self._file_seconds}
        except (ValueError, RecursionError, OSError):
            return {"failure": "the file takes too much memory or time"}
        finally:
            _end(process)


def _end(process: "subprocess.Popen[bytes]") -> None:
    """Ends a judge and all that it has started."""
    try:
        os.killpg(process.pid, signal.SIGKILL)
    except (AttributeError, ProcessLookupError, PermissionError):
        process.kill()
    process.communicate()
