"""The commands of a package as a file has them: each is one of the file's commands, at the package's place."""

from __future__ import annotations

from dataclasses import dataclass
from typing import Callable, Dict, Iterable, List, Optional, Sequence, Tuple, Union

from holls.packages import forward
from holls.packages.expansion import Expansion
from holls.packages.output import PUBLIC, Plain
from holls.packages.scope import Asking, Standing
from holls.packages.steps import Change
from holls.surface.errors import Misread
from holls.surface.translation import Translation
from holls.text import Command


class Part(Command):
    """A plain command of a package, at a command's place. What leads from it to the file is the package's text that it comes from; `is_first` of the
    package's commands."""

    __slots__ = ("whole", "plain", "is_first", "wrong")

    def __init__(self, at: Command, whole: Command, plain: Plain, is_first: bool, wrong: Optional[Misread] = None) -> None:
        super().__init__(plain.text, at.start, at.end, at.marks)
        self.whole, self.plain, self.is_first, self.wrong = whole, plain, is_first, wrong

    @property
    def package(self) -> Command:
        """The package that the command belongs to."""
        return self.whole

    @property
    def as_written(self) -> Command:
        """The package."""
        return self.whole

    @property
    def error(self) -> Optional[Misread]:
        """What is wrong with the package, told at its one command."""
        return self.wrong

    @property
    def is_public(self) -> bool:
        """Whether what the command makes is the user's."""
        return self.plain.role == PUBLIC

    def place(self, offset: int) -> int:
        """The place in the file that the command comes from; its end where the place is the text's."""
        start, end = self._where()
        return end if offset >= len(self.text) or offset >= len(self.word) else start

    def offset(self, place: int) -> int:
        """No place of the file is one in the command."""
        return 0

    def range(self, start: int, end: int) -> Tuple[int, int]:
        """The range in the file that the command comes from."""
        return self._where()

    def _where(self) -> Tuple[int, int]:
        return self.whole.range(*(self.plain.span or (0, len(self.whole.word))))


def parts(command: Command, expansion: Expansion) -> List[Command]:
    """A package's commands; where it can't be expanded one that is sent as an empty text."""
    if expansion.error is not None:
        return [Part(command, command, Plain("", PUBLIC, None), True, expansion.error)]
    return [Part(command, command, one, not number) for number, one in enumerate(expansion.plain)]


@dataclass
class InFront:
    """The hidden theorems in front of a proof, and what its steps have in place of rules: by each step's place in the file, its text and what stands there."""

    parts: List[Command]
    placed: Dict[int, Tuple[str, Union[List[Change], Misread]]]


def in_front(goal: Command, steps: Sequence[Tuple[Command, Translation]], standing: Standing) -> InFront:
    """The hidden theorems of a proof's steps. Where a rule can't be carried out its step has the error."""
    lemmas = forward.Lemmas(goal.name, Asking(standing))
    found = InFront([], {})
    for command, translation in steps:
        done = len(lemmas.plain)
        try:
            found.placed[command.start] = translation.text, forward.changes(translation.text, lemmas)
        except Misread as error:
            found.placed[command.start] = translation.text, error
            lemmas.undo(done)
        except RecursionError:
            found.placed[command.start] = translation.text, Misread(0, 1, "this is nested too deeply for a package")
            lemmas.undo(done)
        for one in lemmas.plain[done:]:
            found.parts.append(Part(goal, command, one, not found.parts))
    return found


class Course:
    """What stands as a file's commands go by: found when it is asked for."""

    def __init__(self, imported: Callable[[], Iterable[Standing]]) -> None:
        self._imported = imported
        self._standing: Optional[Standing] = None
        self._done = 0

    def behind(self, commands: Sequence[Command]) -> Standing:
        """What stands behind commands, which are those of the last time and others behind them."""
        if self._standing is None:
            self._standing = Standing.over(self._imported())
        for command in commands[self._done:]:
            if not isinstance(command, Part):
                self._standing.take(command.text)
        self._done = len(commands)
        return self._standing

    def add(self, expansion: Expansion) -> None:
        """Takes what a package makes that stands behind the commands of the last time."""
        if self._standing is not None:
            self._standing.add(expansion.made)
