"""What the interface answers: goals, refusals, theorems and findings as values; and what it raises."""

from __future__ import annotations

from dataclasses import dataclass, field
from enum import Enum
from functools import cached_property, partial
from typing import Callable, List, Optional, Tuple

from holls import protocol, words
from holls.api.shown import Read
from holls.protocol import Goal
from holls.surface.errors import Misread

__all__ = ["Goal", "Kind", "Refused", "Theorem", "Finding", "Checked", "ProverError", "ProgramDied", "CannotStand"]


class Kind(Enum):
    """What refused a step."""

    COMMAND = "command"
    """The program ran the command, and refused it: `number` is one of docs/PROTOCOL.md, 'Refusals of commands'."""
    REQUEST = "request"
    """The program didn't take the line that brought the command: `number` is one of 'Refusals of requests'."""
    NOTATION = "notation"
    """The command can't be read in the notation that is declared there, and wasn't sent; `number` is 0."""
    TIME = "time"
    """The command took longer than it may; `number` is 0."""


Told = Tuple[int, int, str]


@dataclass(frozen=True)
class Refused:
    """A command that was refused, which changes nothing. It counts as false.

    `command` is its whole text, `start` and `end` the part of it, in characters, that is to blame, `sentence` what to do about it, and
    `argument` what the program names beside the number: a name or a place. Words are found where they are asked for: of a search's refusals
    nobody reads most.
    """

    command: str
    kind: Kind
    number: int
    argument: str
    tell: Callable[[], Told] = field(repr=False, compare=False)

    @cached_property
    def _told(self) -> Told:
        return self.tell()

    @property
    def start(self) -> int:
        """Where the part that is to blame begins."""
        return self._told[0]

    @property
    def end(self) -> int:
        """Where the part that is to blame ends."""
        return self._told[1]

    @property
    def sentence(self) -> str:
        """What to do about it."""
        return self._told[2]

    def __bool__(self) -> bool:
        return False

    def __str__(self) -> str:
        return self.sentence


def refused(command: Read, refusal: protocol.Refusal) -> Refused:
    """The refusal of a command in words, with its place in the command as it is written."""
    return Refused(command.written, Kind.COMMAND, refusal.number, refusal.argument, partial(_explained, command, refusal))


def _explained(command: Read, refusal: protocol.Refusal) -> Told:
    start, end, sentence = words.explain(command.sent, refusal)
    return (*command.translation.range(start, end), sentence)


def misread(command: str, error: Misread) -> Refused:
    """The refusal of a command that can't be read in notation."""
    return Refused(command, Kind.NOTATION, 0, "", partial(_as_told, (error.start, max(error.start, error.end), error.text)))


def refused_whole(command: str, kind: Kind, sentence: str, number: int = 0) -> Refused:
    """The refusal of a command all of which is to blame."""
    return Refused(command, kind, number, "", partial(_as_told, (0, len(command), sentence)))


def _as_told(told: Told) -> Told:
    return told


_REQUESTS = {
    1: "the command is too long: a request's line has at most %d bytes" % protocol.LINE_BYTES,
    8: "too many commands: a proof with its theory's import has at most %d" % protocol.COMMANDS,
    protocol.MEMORY: "hol_serve had no memory for this command",
}


def not_taken(command: str, error: protocol.Error) -> Refused:
    """The refusal of a line that brought a command."""
    sentence = _REQUESTS.get(error.number, "the line was refused: %s" % error.text)
    return refused_whole(command, Kind.REQUEST, sentence, error.number)


def too_slow(command: str, seconds: float) -> Refused:
    """The refusal of a command that took too long."""
    return refused_whole(command, Kind.TIME, "this command was given up after %g seconds" % seconds)


@dataclass(frozen=True)
class Theorem:
    """A theorem that stands. `theory` is the one in which it was proved, empty where that isn't known.

    Of a proof that has just ended `script` has the commands, one after the other, and `basis` the items on which it rests.
    """

    name: str
    statement: str
    theory: str = ""
    script: Tuple[str, ...] = field(default=(), compare=False)
    basis: Optional[Tuple[str, ...]] = field(default=None, compare=False)

    def __str__(self) -> str:
        return "%s |- %s" % (self.name, self.statement)

    @property
    def text(self) -> str:
        """The proof as it stands in a file."""
        return "".join(command + ";;\n" for command in self.script)


@dataclass(frozen=True)
class Finding:
    """What is to be said of a place in a text: line and column from 1; `is_error` where it keeps the text from being accepted."""

    line: int
    column: int
    is_error: bool
    text: str


@dataclass(frozen=True)
class Checked:
    """What a theory came to: the findings in the order of the text, and its own theorems with what they rest on.

    `failure` says why not all is known, where the program ended or a command took too long.
    """

    findings: Tuple[Finding, ...]
    theorems: Tuple[Theorem, ...]
    failure: Optional[str] = None

    @property
    def is_accepted(self) -> bool:
        """Whether every command was accepted, and no proof is open."""
        return self.failure is None and not any(finding.is_error for finding in self.findings)

    @property
    def axioms(self) -> Tuple[str, ...]:
        """The axioms on which its theorems rest, each once."""
        items = [item for theorem in self.theorems for item in theorem.basis or ()]
        return tuple(dict.fromkeys(item[len("axiom:"):] for item in items if item.startswith("axiom:")))


class ProverError(Exception):
    """What a prover can't do; the text says what and why."""


class ProgramDied(ProverError):
    """The program ended while it was at a line. The prover goes on with a fresh one.

    `line` is the request, `reason` how the program ended, and `done` what stood before it among the steps that were tried together.
    """

    def __init__(self, line: str, reason: str) -> None:
        super().__init__("hol_serve %s at the line %s" % (reason, line if len(line) < 300 else line[:300] + ".."))
        self.line, self.reason = line, reason
        self.done: List[object] = []


class CannotStand(ProverError):
    """The program can't hold the theories that a proof needs."""
