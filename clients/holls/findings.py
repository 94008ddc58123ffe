"""What there is to say of a file, with ranges: errors, warnings and hints from its form and from the server's reports.

Nothing is said that a later report could take back. What a command's refusal means depends on the proof that is open there; so where
a report above it is missing, or a command isn't sent, only what holds in each case is said.
"""

from __future__ import annotations

from dataclasses import dataclass
from functools import lru_cache
from typing import List, Optional, Sequence, Tuple, Union

from holls import declaring, manual, notation, protocol, words
from holls.files import File
from holls.found import Finding, Severity
from holls.meant import Meant
from holls.protocol import Goals, Lost, Made, Refusal, Report
from holls.surface.errors import Misread
from holls.text import REMEMBERED, Command
from holls.view import View


@dataclass
class _Proof:
    """The open proof, as far as the reports tell."""

    number: int
    name: str
    file: File
    broken: Optional[int] = None
    is_swallowing: bool = False
    last: Optional[Goals] = None

    def __str__(self) -> str:
        return "that of %s, from line %d" % (self.name, self.file.lines.line(self.file.commands[self.number].start) + 1)


OWN = (protocol.SYNTAX, protocol.UNKNOWN_TAC)
"""The refusals that are told as errors of their own wherever they stand. (An unknown function may follow from a `deftac` that was refused above.)"""


class _Walk:
    """Goes through a file's commands with the open proof in hand.

    `is_certain` says whether all reports are known since the last place at which it was clear whether a proof is open.
    """

    def __init__(self, file: File) -> None:
        self.file, self.commands = file, file.commands
        self.meant = Meant(file)
        self.findings: List[Finding] = []
        self.proof: Optional[_Proof] = None
        self.refused_goal: Optional[int] = None
        self.is_certain = True
        self.refused_package: Optional[Command] = None
        self.unknown_package: Optional[Command] = None

    def go(self) -> None:
        """Takes the commands' reports. A declaration has none."""
        declared, behind_oops = self.file.notation.declared, self.file.behind_oops()
        for number, entry in enumerate(self.file.entries()):
            if number not in declared:
                if number in behind_oops:
                    self.give_up(number)
                self.step(number, entry.report if entry is not None else None)

    def step(self, number: int, report: Optional[Union[Report, Lost]]) -> None:
        """Takes one command's report."""
        if isinstance(report, Goals):
            self.accepted(number, report)
        elif isinstance(report, Made):
            self.proof = self.refused_goal = None
            self.is_certain = True
        elif isinstance(report, Refusal):
            self.refused(number, report)
        else:
            self.is_certain = False
            self.unknown_package = self.commands[number].package or self.unknown_package
            if report is not None:
                self.add(number, Severity.WARNING, "nothing is known of this command: %s" % report.reason)

    def give_up(self, number: int) -> None:
        """A hidden `oops` before a command ends the open proof."""
        if self.is_certain and self.proof and self.proof.broken is None:
            text = "a proof was open before this: %s; end it by qed;; or give it up by oops;;" % self.proof
            self.add(number, Severity.ERROR, text)
        self.proof = self.refused_goal = None
        self.is_certain = True

    def accepted(self, number: int, report: Goals) -> None:
        """A command after which a proof is open."""
        command = self.commands[number]
        if command.word == "g":
            self.refused_goal = None
            self.is_certain = True
            self.proof = _Proof(number, command.name, self.file)
        if self.proof:
            self.proof.last = report

    def refused(self, number: int, refusal: Refusal) -> None:
        """A refused command. What follows from an error above is a note, or isn't said."""
        command, proof = self.commands[number], self.proof
        is_own = refusal.number in OWN
        if command.error is not None:
            self.cause(number, refusal)
            return
        if not is_own and (not self.is_certain or proof and proof.is_swallowing or self.is_told(number, refusal)):
            return
        start, end, text = words.explain(command.text, refusal, str(proof) if proof else None)
        if command.package is not None:
            self.refused_part(number, refusal, text)
            return
        if refusal.number == protocol.GOALS_REMAIN and proof and proof.last:
            text += _remaining(View.of(self.file, number), proof.last)
        text += self.meant.said(number, refusal)
        if refusal.number == protocol.NAME_TAKEN:
            text += self.namesake(number, *refusal.argument.rpartition(":")[::2])
        cause = self.cause(number, refusal)
        if refusal.number == protocol.IN_A_PROOF and proof:
            proof.is_swallowing = True
            text = "%s; until then nothing below is checked" % text if cause is None else (
                "from here on nothing is checked: the proof of %s isn't mended yet" % proof.name)
        elif cause is not None:
            text = "%s (after the error on line %d)" % (text, self.line(cause))
        severity = Severity.ERROR if cause is None else Severity.NOTE
        first, last = command.range(start, end)
        last = max(last, first + 1)
        self.findings.append(Finding(first, last, severity, text, number=number, refusal=refusal))

    def refused_part(self, number: int, refusal: Refusal, text: str) -> None:
        """A refused command of a package: the first one is told, in its words, once those before it are known; the others follow from it."""
        command = self.commands[number]
        is_told, cause = command.package in (self.refused_package, self.unknown_package), self.cause(number, refusal)
        self.refused_package = command.package
        if is_told:
            return
        first = " ".join(command.text.split()[:2])
        if refusal.number == protocol.TOO_LARGE and command.package.word in manual.PACKAGES:
            text = "too large: fewer constructors, clauses or arguments"
        told = command.plain.told or "this %s stands for several commands, and the program refuses one of them, `%s ..`: %s" % (command.package.word, first, text)
        if cause is not None and command.word == "oops":
            told = "%s (after the error on line %d)" % (text, self.line(cause))
        start, end = command.range(0, 1)
        self.findings.append(Finding(start, max(end, start + 1), Severity.ERROR if cause is None else Severity.NOTE, told, number=number, refusal=refusal))

    def namesake(self, number: int, kind: str, name: str) -> str:
        """Where a command above, or an imported theory, has a name too."""
        return _namesake(self.meant, number, kind, name)

    def is_told(self, number: int, refusal: Refusal) -> bool:
        """Whether an import's refusal is told by what stands beside the file."""
        return refusal.number == protocol.UNKNOWN_THEORY and self.file.why_not(number) is not None

    def cause(self, number: int, refusal: Refusal) -> Optional[int]:
        """The refused command from which a refusal follows: the first one of the open proof, or a goal.

        None where the refusal is an error of its own.
        """
        command, proof = self.commands[number], self.proof
        if refusal.number == protocol.NO_PROOF and self.refused_goal is not None:
            cause = self.refused_goal
            self.refused_goal = None if command.word in ("qed", "oops") else cause
            return cause
        if command.word == "g" and refusal.number != protocol.IN_A_PROOF:
            self.refused_goal = number
            return None
        broken = proof.broken if proof else None
        if proof and broken is None and refusal.number != protocol.IN_A_PROOF:
            proof.broken = number
        return None if refusal.number in OWN else broken

    def finish(self) -> None:
        """Tells of a proof that is open at the end, unless an error of it was told."""
        proof = self.proof
        if self.is_certain and proof and proof.broken is None and not proof.is_swallowing:
            self.add(proof.number, Severity.NOTE, "the proof of %s isn't ended yet: add qed;; or oops;;" % proof.name, True)

    def add(self, number: int, severity: Severity, text: str, is_open: bool = False) -> None:
        """Says something of a command's first word."""
        command = self.commands[number]
        end = command.place(len(command.word)) if command.word else command.start + 1
        self.findings.append(Finding(command.start, end, severity, text, is_open, number))

    def line(self, number: int) -> int:
        """The line of a command, from 1."""
        return self.file.lines.line(self.commands[number].start) + 1


def _remaining(view: View, report: Goals) -> str:
    """How many goals remain, and the first one."""
    number = len(report.goals)
    if not number:
        return ""
    shown = view.conclusion(report.goals[0])
    return " (%d, the first one: %s)" % (number, shown if len(shown) < 200 else shown[:200] + " ..")


def findings(file: File) -> List[Finding]:
    """All that there is to say of the file now, in its order."""
    walk = _Walk(file)
    walk.go()
    walk.finish()
    said = walk.findings + _form(file) + _hints(file)
    return sorted(said, key=lambda finding: (finding.start, finding.severity))


def unknown(file: File) -> List[Tuple[int, int, bool]]:
    """The ranges of commands of which nothing is known yet, those side by side as one; and whether one runs for long already."""
    found: List[Tuple[int, int, bool]] = []
    is_last = False
    for entry, command in zip(file.entries(), file.commands):
        is_unknown = entry is not None and entry.report is None
        if is_unknown and is_last and found[-1][2] == entry.is_slow:
            found[-1] = found[-1][0], command.end, entry.is_slow
        elif is_unknown:
            found.append((command.start, command.end, entry.is_slow))
        is_last = is_unknown
    return found


def refused(file: File) -> List[Tuple[int, int]]:
    """The ranges of commands that weren't accepted, or sent: also those of which nothing is said. Those side by side are one."""
    found: List[Tuple[int, int]] = []
    is_last = False
    for number, (entry, command) in enumerate(zip(file.entries(), file.commands)):
        is_refused = not file.is_declaration(number) and (entry is None or isinstance(entry.report, (Refusal, Lost)))
        if is_refused:
            found[-1 if is_last else len(found):] = [(found[-1][0] if is_last else command.start, command.end)]
        is_last = is_refused
    return found


def _form(file: File) -> List[Finding]:
    """What is wrong with the file's form, and with its notation."""
    commands, read = file.commands, file.notation
    return [
        Finding(blemish.start, blemish.end, Severity.ERROR if blemish.is_error else Severity.WARNING, blemish.text)
        for blemish in file.blemishes + file.context + read.blemishes] + [
        Finding(*commands[number].range(0, 1), Severity.WARNING, "%s isn't proved: it is an axiom by this sorry" % commands[number].name, True, number)
        for number in (range(len(commands)) if read.has_packages else ()) if is_sorry(commands[number]) and commands[number].word == "new_axiom"] + [
        _misread(file, number, commands[number].as_written.range(commands[number].error.start, commands[number].error.end), commands[number].error)
        for number in read.misread]


def is_sorry(command: Command) -> bool:
    """Whether a command is of a `sorry`."""
    return command.package is not None and command.package.word == "sorry"


def _misread(file: File, number: int, where: Tuple[int, int], error: Misread) -> Finding:
    """What is wrong with a command as notation, with the theories that declare what isn't declared there."""
    text = error.text + (_declared_by(file, error.unknown) if error.unknown else "") + (_namesake(Meant(file), number, *error.taken) if error.taken else "")
    return Finding(*where, Severity.ERROR, text, number=number, undeclared=error.unknown, hiding=error.hiding)


def _namesake(meant: Meant, number: int, kind: str, name: str) -> str:
    """Words on where a command above, or an imported theory, has a name too. By the texts alone: what became of a command may not be known yet."""
    file = meant.file
    other = next((at for at in range(number) if file.commands[at].name == name and file.commands[at].word in notation.MAKERS), None)
    if other is not None:
        return " (it is named on line %d)" % (file.lines.line(file.commands[other].start) + 1)
    maker = meant.maker(kind, name)
    return " (it is %s's)" % maker if maker else ""


def _declared_by(file: File, written: str) -> str:
    """Words on the theories that declare what is written."""
    found = [name for name in declaring.theories(file.neighbours(), written) if name != file.name]
    return "; %s declares it: import it" % " or ".join(found[:3]) if found else ""


def _hints(file: File) -> List[Finding]:
    """Words that mean more in HOL Light than here."""
    if file.hints is None:
        file.hints = [
            Finding(*command.range(start, end), Severity.HINT,
                    "`%s` is a plain name here: no theory that this file imports declares notation with it%s" % (
                        command.text[start:end], _declared_by(file, command.text[start:end])), number=number, undeclared=command.text[start:end])
            for number, command in enumerate(file.commands) for start, end in _plain_words(command.text)]
    return file.hints


@lru_cache(REMEMBERED)
def _plain_words(text: str) -> Sequence[Tuple[int, int]]:
    return tuple(notation.plain_words(text))
