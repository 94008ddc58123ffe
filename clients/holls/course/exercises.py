"""The exercises of a teacher's file: its proofs that end by `sorry`, or aren't ended. And the file that only states them.

In what states them, `asked`, each exercise is a theorem `P ==> T` in place of the theorem P. It is read where the teacher wrote it, before any name of a
student, and `MP` takes it to a student's theorem exactly where that has the statement P: the same constants, the same types.
"""

from __future__ import annotations

import re
from dataclasses import dataclass
from typing import Dict, List, Optional, Sequence, Tuple

from holls import notation
from holls.packages import expansion
from holls.surface import declarations
from holls.text import Command, cut

_ENDS = ("qed", "oops")
SORRY = "sorry"
_OUTSIDE = frozenset((*notation.OUTSIDE, *expansion.WORDS, *declarations.WORDS)) - {SORRY, *expansion.OF_FILES}
"""The commands at which an open proof of a teacher's file ends."""
_NAME = re.compile(r"[A-Za-z_][A-Za-z0-9_']*")


class BadExercise(Exception):
    """Why a teacher's file can't be given as an exercise, with its line."""


@dataclass(frozen=True)
class Exercise:
    """A theorem that is to be proved: its name, its statement as it is written, its line in the teacher's file, and the commands that it takes there."""

    name: str
    statement: str
    line: int
    first: int
    end: int


def exercises(text: str) -> List[Exercise]:
    """The exercises of a teacher's file, in its order. Raises BadExercise."""
    commands = cut(text).commands
    found: List[Exercise] = []
    goal: Optional[int] = None
    for number, command in enumerate(commands):
        if goal is not None and command.word in _OUTSIDE:
            found.append(_exercise(text, commands, goal, number))
            goal = None
        if command.word == "g":
            goal = number
        elif command.word == SORRY and goal is not None:
            found.append(_exercise(text, commands, goal, number + 1))
            goal = None
        elif command.word in _ENDS:
            goal = None
    if goal is not None:
        found.append(_exercise(text, commands, goal, len(commands)))
    _check_names(found)
    return found


def _exercise(text: str, commands: Sequence[Command], goal: int, end: int) -> Exercise:
    command = commands[goal]
    line = text.count("\n", 0, command.start) + 1
    parts = command.text.split("`")
    words = parts[0].split()
    if len(parts) != 3 or parts[2].strip() or len(words) != 2 or not _NAME.fullmatch(words[1]):
        raise BadExercise("line %d: an exercise is written g NAME `statement`;;" % line)
    return Exercise(words[1], parts[1], line, goal, end)


def _check_names(found: Sequence[Exercise]) -> None:
    lines: Dict[str, int] = {}
    for one in found:
        if one.name in lines:
            raise BadExercise("line %d: the exercise %s stands on line %d already" % (one.line, one.name, lines[one.name]))
        lines[one.name] = one.line


def asked(text: str, found: Sequence[Exercise]) -> Tuple[str, Dict[str, str]]:
    """The teacher's file with each exercise stated as `P ==> T`, and the names of these theorems, by those of the exercises."""
    names: Dict[str, str] = {}
    for one in found:
        names[one.name] = unused("asked_" + one.name, " ".join([text, *names.values()]))
    return _with(text, found, lambda one: (
        "g %s `(%s) ==> T`;;\ne DISCH_TAC THEN ACCEPT_TAC TRUTH;;\nqed" % (names[one.name], one.statement))), names


def given_up(text: str, found: Sequence[Exercise]) -> str:
    """The teacher's file with each exercise given up by `sorry`, so that a file comes of it in which nothing else is wrong."""
    return _with(text, found, lambda one: "g %s `%s`;;\nsorry" % (one.name, one.statement))


def _with(text: str, found: Sequence[Exercise], written) -> str:
    """A file's commands, with another text for each exercise."""
    commands = [command.text for command in cut(text).commands]
    for one in reversed(found):
        commands[one.first:one.end] = [written(one)]
    return "".join(command + ";;\n" for command in commands)


def unused(name: str, text: str) -> str:
    """A name that doesn't occur in a text: this one, or one that begins with it."""
    while name in text:
        name += "_"
    return name
