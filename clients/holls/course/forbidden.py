"""Where a student's file uses what may not be used, by the words of its commands outside of quotations: no theorem and no function is reached without its name.

A proof or a named expression that uses such a thing may not be used either. What the teacher's file has itself may stand.
"""

from __future__ import annotations

import re
from collections import Counter
from typing import Dict, FrozenSet, List, Mapping, NamedTuple, Optional, Sequence

from holls.files import File
from holls.notation import OUTSIDE
from holls.text import Command, cut

_QUOTATION = re.compile(r"`[^`]*`?")
_WORD = re.compile(r"[A-Za-z_][A-Za-z0-9_']*")
_NAMING = ("g", "deftac", "theorems")
"""The commands that name what their words, or those of the proof that they begin, lead to."""
_ENDING = ("qed", "oops", "deftac", "theorems")
"""Behind these no such thing is begun."""


class Use(NamedTuple):
    """What is used that may not be, and at which line of the file."""

    word: str
    line: int


def uses(file: File, given: str, forbidden: Sequence[str]) -> Mapping[str, Use]:
    """By the names of a file's theorems and named expressions, what is used in each that may not be: by its own commands, or by what it cites."""
    return _Walk(file, given, frozenset(forbidden)).found if forbidden else {}


class _Walk:
    """Goes through a file's commands. `found` has the theorems and named expressions that are known to use something: all those, too, that stand behind a
    command that uses something and makes more than one thing."""

    def __init__(self, file: File, given: str, forbidden: FrozenSet[str]) -> None:
        self._file, self._forbidden = file, forbidden
        self._given = Counter(command.text for command in cut(given).commands)
        self._everywhere: Optional[Use] = None
        self._name: Optional[str] = None
        self.found: Dict[str, Use] = {}
        for command in file.commands:
            self._take(command)

    def _take(self, command: Command) -> None:
        if command.word in OUTSIDE or command.word in _NAMING:
            self._name = command.name if command.word in _NAMING else None
        use = self._use(command)
        if use and self._name:
            self.found.setdefault(self._name, use)
        elif use:
            self._everywhere = self._everywhere or use
        elif self._name and self._everywhere:
            self.found.setdefault(self._name, self._everywhere)
        self._name = self._name if command.word not in _ENDING else None

    def _use(self, command: Command) -> Optional[Use]:
        """What a command uses that may not be used."""
        is_given = self._is_given(command)
        for word in _words(command):
            if word in self._forbidden and not is_given:
                return Use(word, self._file.lines.line(command.start) + 1)
            if word in self.found and word != self._name:
                return self.found[word]
        return None

    def _is_given(self, command: Command) -> bool:
        """Whether the teacher's file has the command, and it hasn't been met so often yet. A package's commands are one of the file's."""
        written = command.as_written.text
        is_given = self._given[written] > 0
        self._given[written] -= is_given and command.package is None
        return is_given


def _words(command: Command) -> List[str]:
    """The words of a command that aren't in quotations, as it is written and as it is sent: a rule in a step has a theorem of its own in front of the
    proof, and a list's name stands for its theorems. Of a package its first word, since the rest is of its own language."""
    texts = [command.as_written.word] if command.package is not None else [command.as_written.text, command.text]
    return [word for text in texts for word in _WORD.findall(_QUOTATION.sub(" ", text))]
