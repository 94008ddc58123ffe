"""Judges a student's file, in a process of its own with a program of its own: nothing that stands in the file reaches another's.

Three theories stand in the program, behind those that are imported: the student's; the teacher's file with each exercise stated as `P ==> T`
(exercises.asked), which can't be reached from the student's; and one that imports both, and has `MP` take the second's theorem to the first's. What is
imported is the course's and the library's, never a student's. So the program itself says whether the statement is the teacher's, with all
definitions in it.

    python3 -m holls.course.judging < TASK     one JSON object each way
"""

from __future__ import annotations

import json
import os
import queue
import sys
from dataclasses import asdict, dataclass
from typing import Dict, List, Mapping, Optional, Sequence, Set, Tuple, Union

from holls import disk, files, graph, projects, protocol
from holls.checking import SERVED
from holls.course import forbidden
from holls.course.exercises import Exercise, asked, exercises, unused
from holls.course.forbidden import Use
from holls.course.verdicts import Status, Verdict
from holls.files import File
from holls.findings import Severity, findings, is_sorry
from holls.notation import OUTSIDE
from holls.projects import SUFFIX
from holls.protocol import Goals, Items, Lost, Made, Refusal
from holls.session import AHEAD, Session
from holls.sweep import Sweep, is_known
from holls.text import Command

try:
    import resource
except ImportError:
    resource = None  # Windows has none.

MEMORY_BYTES = 2 << 30
"""So much memory a judge may have, beside its program."""
AXIOM = "axiom:"
_MOST_TOLD = 500
"""So much of an error is told."""
GIVEN_UP = "it is given up by sorry"
_GONE = "hol_serve ended, or had no memory or time"


class CannotJudge(Exception):
    """Why nothing can be said of a file."""


@dataclass(frozen=True)
class Task:
    """What is to be judged: the theory's name, the teacher's text and the student's; the folder of the course's theories; what may be imported and what may
    not be used; the program, and how long a command and the whole may take."""

    name: str
    given: str
    sent: str
    theories: str
    imports: Tuple[str, ...]
    forbidden: Tuple[str, ...]
    program: Tuple[str, ...]
    seconds: int
    file_seconds: int


class _Files:
    """The files of a task: the student's, the teacher's that asks, and what they import, which is the course's and the library's alone."""

    def __init__(self, task: Task) -> None:
        self._task = task
        self._known: Dict[str, Union[File, str]] = {}
        given = exercises(task.given)
        text, self.asked_names = asked(task.given, given)
        self.exercises: Sequence[Exercise] = given
        teacher = File(task.name + SUFFIX)
        teacher.take(task.given)
        self._may_import = {*teacher.imports, *task.imports}
        self.sent = File(task.name + SUFFIX)
        self.sent.take(task.sent)
        self.asked = File(unused("given", " ".join([task.name, task.given, *self._may_import, *self.sent.imports])) + SUFFIX)
        self.asked.take(text)
        below = graph.with_imports([self.asked], self._load)
        beside = graph.with_imports([self.sent], self._load_for_student)
        imported = {file.name: file for file in below + beside if file not in (self.sent, self.asked)}
        self.imported = graph.ordered(list(imported.values()))
        if len(self.imported) + 3 > protocol.THEORIES:
            raise CannotJudge("it hangs together with %d theories by imports, and a program holds %d" % (len(self.imported) + 3, protocol.THEORIES))

    def _load_for_student(self, file: File, name: str) -> Union[File, str]:
        if file is self.sent and name not in self._may_import:
            return "this course doesn't let this file import %s" % name
        return self._load(file, name)

    def _load(self, _: File, name: str) -> Union[File, str]:
        """The course's file of a theory, or the library's. The name is one of a command `import`, so it has no path in it."""
        if name not in self._known:
            own = os.path.join(self._task.theories, name + SUFFIX)
            path = own if os.path.isfile(own) else next(iter(projects.in_library(name)), None)
            try:
                self._known[name] = files.read(path, disk.read(path)) if path else "there is no theory %s in this course" % name
            except disk.CannotRead as error:
                self._known[name] = "%s %s" % (path, error)
        return self._known[name]

    @property
    def axioms(self) -> Set[str]:
        """The axioms that a theorem may rest on: those of what is imported, and those that the teacher's file makes. A student's own of such a name is
        the same, or can't be imported beside it."""
        found = {command.name for file in self.imported for command in file.commands if command.word == "new_axiom"}
        entries = [(command, self.asked.entry(number)) for number, command in enumerate(self.asked.commands) if command.word == "new_axiom"]
        return found.union(command.name for command, entry in entries if entry and isinstance(entry.report, Made))


@dataclass
class _Answers:
    """What the program says of an exercise: on what the theorem rests, and whether it has the teacher's statement."""

    items: Optional[Tuple[str, ...]] = None
    fit: object = None


class _Judge:
    """Has the files run, and asks."""

    def __init__(self, task: Task) -> None:
        self._task, self._files = task, _Files(task)
        self._events: "queue.Queue[object]" = queue.Queue()
        self._sweep = Sweep()
        self._session = Session(list(task.program), self._events, SERVED, self._sweep, lambda: None, task.seconds, AHEAD)
        self._left = 0
        self._both: object = None
        self._answers = {one.name: _Answers() for one in self._files.exercises}

    def verdicts(self) -> List[Verdict]:
        """What there is to say of each exercise."""
        try:
            self._run()
            self._ask()
        finally:
            self._session.stop()
        if self._session.failure:
            raise CannotJudge(self._session.failure)
        used = forbidden.uses(self._files.sent, self._task.given, self._task.forbidden)
        return [self._verdict(one, used) for one in self._files.exercises]

    def _run(self) -> None:
        own = [self._files.sent, self._files.asked]
        self._sweep.begin(own)
        self._session.want([file.theory for file in [*self._files.imported, *own]])
        self._wait(lambda: self._session.is_idle and is_known(own))

    def _ask(self) -> None:
        """Asks whether what the two files make fits together, and of each exercise its theorem's statement and items."""
        sent, given = self._files.sent.theory.name, self._files.asked.theory.name
        taken = " ".join([sent, given, *self._files.sent.imports, *(file.name for file in self._files.imported)])
        beside, goal = unused("both", taken), unused("asked_for", " ".join([self._task.given, self._task.sent]))
        begun = ["import " + given, "import " + sent]
        self._ask_beside(beside, begun, lambda reply: setattr(self, "_both", reply))
        for one in self._files.exercises:
            answers = self._answers[one.name]
            step = "e MP_TAC (MP %s %s)" % (self._files.asked_names[one.name], one.name)
            self._ask_beside(beside, [*begun, "g %s `T`" % goal, step], lambda reply, answers=answers: setattr(answers, "fit", reply))
            self._left += 1
            self._session.ask(protocol.line({"op": "basis", "theory": sent, "name": one.name}), lambda reply, answers=answers: self._take_items(reply, answers))
        self._wait(lambda: not self._left)

    def _take_items(self, reply: object, answers: _Answers) -> None:
        self._left -= 1
        answers.items = reply.items if isinstance(reply, Items) else None

    def _ask_beside(self, theory: str, commands: List[str], take) -> None:
        def answer(reply: object) -> None:
            self._left -= 1
            take(reply)

        self._left += 1
        self._session.ask_beside(theory, commands, answer)

    def _wait(self, is_done) -> None:
        while not self._session.failure and not is_done():
            try:
                self._session.hear(self._events.get(timeout=self._session.deadline()))
            except queue.Empty:
                self._session.tick()

    # Words

    def _verdict(self, one: Exercise, used: Mapping[str, Use]) -> Verdict:
        """What became of an exercise: nothing counts as proved that the program hasn't said to be so."""
        made = _made(self._files.sent, one.name)
        answers = self._answers[one.name]
        if made is None:
            return self._open(one)
        line, command = made
        if not is_sorry(command) and command.word != "qed":
            return Verdict(one.name, Status.AXIOM, "it is stated by %s, and not proved" % command.word, line)
        if not self._is_asked(one) or answers.items is None:
            return Verdict(one.name, Status.UNCHECKED, _GONE, line)
        differs = self._difference(answers)
        if differs is not None:
            return Verdict(one.name, *differs, line)
        if is_sorry(command):
            return Verdict(one.name, Status.OPEN, GIVEN_UP, line)
        allowed = self._files.axioms
        axioms = [item[len(AXIOM):] for item in answers.items if item.startswith(AXIOM) and item[len(AXIOM):] not in allowed]
        if axioms:
            return Verdict(one.name, Status.AXIOM, "it rests on %s, which isn't proved" % ", ".join(axioms), line)
        if one.name in used:
            return Verdict(one.name, Status.FORBIDDEN, "%s may not be used here" % used[one.name].word, used[one.name].line)
        return Verdict(one.name, Status.PROVED, "", line)

    def _difference(self, answers: _Answers) -> Optional[Tuple[Status, str]]:
        """In what a theorem isn't the one that was asked for; None where the program has said that it is."""
        if isinstance(self._both, Refusal):
            return Status.CHANGED, "%s isn't as it was given, or what it rests on isn't" % _key(self._both)
        fit = answers.fit
        if isinstance(self._both, Made) and isinstance(fit, Goals):
            return None
        if isinstance(fit, Refusal) and fit.number == protocol.BAD_RULE:
            return Status.CHANGED, "the theorem has another statement than the exercise"
        return Status.UNCHECKED, "it can't be compared with what was asked: %s" % (fit.text if isinstance(fit, Refusal) else _GONE)

    def _is_asked(self, one: Exercise) -> bool:
        """Whether the teacher's statement stands."""
        return _made(self._files.asked, self._files.asked_names[one.name]) is not None

    def _open(self, one: Exercise) -> Verdict:
        """An exercise whose theorem the file doesn't make: the first error in its proof, or in what the file wants to import."""
        file = self._files.sent
        goal = next((number for number, command in enumerate(file.commands) if command.word == "g" and command.name == one.name), None)
        if goal is None:
            return Verdict(one.name, Status.OPEN, "its goal isn't stated")
        end = next((number for number in range(goal + 1, len(file.commands)) if file.commands[number].word in OUTSIDE), len(file.commands))
        start, stop = file.commands[goal].start, file.commands[end - 1].end
        error = next((each for each in findings(file) if each.severity == Severity.ERROR and start <= each.start <= stop), None)
        lost = next((number for number in range(goal, end) if file.entry(number) and isinstance(file.entry(number).report, Lost)), None)
        if lost is not None:
            return Verdict(one.name, Status.OPEN, file.entry(lost).report.reason, _line(file, file.commands[lost].start))
        if error is not None:
            return Verdict(one.name, Status.OPEN, error.text[:_MOST_TOLD], _line(file, error.start))
        return Verdict(one.name, Status.OPEN, "its proof isn't ended", _line(file, start))


def _line(file: File, place: int) -> int:
    return file.lines.line(place) + 1


def _key(refusal: Refusal) -> str:
    kinds = {"thm": "the theorem", "const": "the constant", "type": "the type", "tac": "the named expression"}
    kind, _, name = refusal.argument.partition(":")
    return "%s %s" % (kinds[kind], name) if kind in kinds else "an import"


def _made(file: File, name: str) -> Optional[Tuple[int, Command]]:
    """The command of a file that makes a theorem, with its line; none of an import."""
    beginning = "thm %s " % name
    for number, command in enumerate(file.commands):
        entry = file.entry(number)
        if entry and command.word != "import" and isinstance(entry.report, Made) and any(made.startswith(beginning) for made in entry.report.entries):
            return _line(file, command.start), command
    return None


def judged(task: Task) -> List[Verdict]:
    """What there is to say of a task. Raises CannotJudge."""
    return _Judge(task).verdicts()


def as_json(task: Task) -> str:
    """A task as it is handed to a judge."""
    return json.dumps(asdict(task))


def _read(text: str) -> Task:
    told = json.loads(text)
    lists = {key: tuple(value) for key, value in told.items() if isinstance(value, list)}
    return Task(**{**told, **lists})


def _limit(task: Task) -> None:
    """Has the system end this process and its program where they take more than they may: what a text does to the clients costs its student alone."""
    if resource is None:
        return
    for what, most in ((resource.RLIMIT_CPU, task.file_seconds), (resource.RLIMIT_CORE, 0)):
        hard = resource.getrlimit(what)[1]
        resource.setrlimit(what, (most if hard == resource.RLIM_INFINITY else min(most, hard), hard))
    hard = resource.getrlimit(resource.RLIMIT_AS)[1]
    resource.setrlimit(resource.RLIMIT_AS, (MEMORY_BYTES if hard == resource.RLIM_INFINITY else min(MEMORY_BYTES, hard), hard))


def main() -> int:
    """Takes a task, answers verdicts, or why there are none."""
    task = _read(sys.stdin.read())
    _limit(task)
    try:
        told: Dict[str, object] = {"verdicts": [verdict.as_json() for verdict in judged(task)]}
    except CannotJudge as error:
        told = {"failure": str(error)}
    except (MemoryError, RecursionError) as error:
        told = {"failure": "the file takes too much memory or depth (%s)" % type(error).__name__}
    except Exception as error:  # noqa: BLE001: told as this file's failure, and the others go on
        told = {"failure": "an error in holls: %s: %s" % (type(error).__name__, error)}
    json.dump(told, sys.stdout)
    sys.stdout.flush()
    return 0


if __name__ == "__main__":
    sys.exit(main())
