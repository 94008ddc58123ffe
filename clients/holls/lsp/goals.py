"""The state of a proof at a place of a file, and how it is shown."""

from __future__ import annotations

from dataclasses import dataclass
from typing import Any, Dict, List, Optional, Tuple, Union

from holls import protocol, words
from holls.files import File
from holls.meant import Meant
from holls.names import HIDDEN
from holls.protocol import Goal, Goals, Lost, Made, Refusal
from holls.theory import Job
from holls.view import View


TOGETHER = 300_000
"""So many characters of goals are shown, but the first goal in any case."""
SHOWN = 20_000
"""So many characters of a term are shown. A report has no limit, and editors have."""


@dataclass(frozen=True)
class State:
    """What is known at a place: the open goals or None where no proof is open, what was made, why the command there was refused.

    Without `is_known` nothing is known, and the errors say why. `plain` is the state as the program says it, where that isn't all of it, and `notes` are
    words on the notation.
    """

    number: Optional[int]
    goals: Optional[Goals]
    made: Optional[Made]
    errors: List[str]
    is_known: bool = True
    plain: Optional["State"] = None
    notes: Tuple[str, ...] = ()


def state(file: File, number: Optional[int]) -> Union[State, Job]:
    """The state after a command, looking back over refused ones; or the job that has to be done before it is known.

    A hidden `oops` leaves no proof open, so that nothing above it matters.
    """
    if number is not None and file.commands[number].package is not None:
        return _of_package(file, number)
    errors: List[str] = []
    for at in range(-1 if number is None else number, -1, -1):
        entry = file.entry(at)
        report = entry.report if entry else None
        if entry and report is None:
            return file.theory, file.slot(at)
        if isinstance(report, Goals):
            return in_notation(State(number, report, None, errors), View.of(file, number))
        if isinstance(report, Made):
            return in_notation(State(number, None, report if at == number else None, errors), View.of(file, number))
        if at == number and not file.is_declaration(at):
            errors += _error(file, at, report)
        if file.is_behind_oops(at):
            break
    return State(number, None, None, errors)


def _of_package(file: File, number: int) -> Union[State, Job]:
    """The state behind a package: what all its commands have made for the user, and the first of them that was refused."""
    package = file.commands[number].package
    first = number
    while first and file.commands[first - 1].package is package:
        first -= 1
    made: List[str] = []
    errors: List[str] = []
    for at in range(first, number + 1):
        entry = file.entry(at)
        report = entry.report if entry else None
        if entry and report is None:
            return file.theory, file.slot(at)
        if isinstance(report, Made) and file.commands[at].is_public:
            made += [text for text in report.entries if not text.split()[1].startswith(HIDDEN)]
        elif not errors and (entry is None or isinstance(report, (Refusal, Lost))):
            errors = _error(file, at, report)
    return in_notation(State(number, None, Made(tuple(made)), errors), View.of(file, number))


def _goals_in_notation(goals: Goals, view: View) -> Goals:
    """The goals, those that are shown in notation."""
    shown = _shown_goals(goals)
    return Goals(tuple(view.goal(goal) for goal in shown) + tuple(goals.goals[len(shown):]))


def in_notation(known: State, view: View) -> State:
    """A state as it is shown."""
    goals = known.goals and _goals_in_notation(known.goals, view)
    made = known.made and view.made(known.made)
    if goals == known.goals and made == known.made:
        return known
    hidden = view.hidden(known.goals.goals[0]) if known.goals and known.goals.goals else []
    notes = tuple("%s is a variable here, and no constant: it is shown as it is" % name for name in hidden)
    return State(known.number, goals, made, known.errors, known.is_known, known, notes)


def _error(file: File, number: int, report: Union[Refusal, Lost, None]) -> List[str]:
    """Why a command has changed nothing."""
    if isinstance(report, Refusal):
        command = file.commands[number]
        if command.error is not None:
            return ["not sent: " + command.error.text]
        told = file.why_not(number) if report.number == protocol.UNKNOWN_THEORY else None
        return ["refused: " + (told or words.explain(command.text, report)[2] + Meant(file).said(number, report))]
    if isinstance(report, Lost):
        return ["nothing is known of this command: " + report.reason]
    return ["this command wasn't sent"]


def text(known: State) -> str:
    """The state as the goal window shows it."""
    said = [*known.errors, *known.notes]
    lines = said + ([""] if said else [])
    if not known.is_known:
        pass
    elif known.made is not None:
        lines += [_shown(entry) for entry in known.made.entries] or ["no proof is open"]
    elif known.goals is None:
        lines.append("no proof is open")
    elif not known.goals.goals:
        lines.append("no goals are left: end the proof by qed;;")
    else:
        shown = _shown_goals(known.goals)
        for at, goal in enumerate(shown):
            lines += _goal(goal, at + 1, len(known.goals.goals))
        lines += ["and %d goals more" % (len(known.goals.goals) - len(shown))] if len(shown) < len(known.goals.goals) else []
    return "\n".join(lines).rstrip() + "\n"


def _shown_goals(goals: Goals) -> List[Goal]:
    """The first goals, as many as can be shown together."""
    left, shown = TOGETHER, []
    for goal in goals.goals:
        left -= sum(min(len(text), SHOWN) for text in (goal.conclusion, *goal.assumptions, *goal.free))
        if shown and left < 0:
            break
        shown.append(goal)
    return shown


def _goal(goal: Goal, number: int, count: int) -> List[str]:
    """A goal: its variables, its assumptions from the oldest, a line, the conclusion."""
    lines = ["goal %d of %d" % (number, count)] if count > 1 else ["1 goal"]
    lines += ["  " + _shown(name).replace(":", " : ", 1) for name in goal.free]
    lines += ["  %d  %s" % (at, _shown(text)) for at, text in enumerate(reversed(goal.assumptions))]
    return lines + ["  " + "-" * 40, "  " + _shown(goal.conclusion), ""]


def _shown(term: str) -> str:
    """A term's text, or its beginning with a word on the rest."""
    return term if len(term) <= SHOWN else "%s .. (%d characters more)" % (term[:SHOWN], len(term) - SHOWN)


def answer(known: State) -> Dict[str, Any]:
    """The state as coq-lsp's `proof/goals` answers it, with the window's text beside it; `plain` is that text as the program says it, if it differs."""
    reply: Dict[str, Any] = {"messages": _made(known), "text": text(known)}
    if known.goals is not None:
        shown = _shown_goals(known.goals)
        reply["goals"] = {"goals": [_json(goal) for goal in shown], "stack": [], "shelf": [], "given_up": [], "more": len(known.goals.goals) - len(shown)}
    if known.errors:
        reply["error"] = known.errors[0]
    if known.plain is not None:
        reply["plain"] = text(known.plain)
    return reply


def _made(known: State) -> List[str]:
    return [_shown(entry) for entry in known.made.entries] if known.made else []


def _json(goal: Goal) -> Dict[str, Any]:
    free = [{"names": [name.split(":")[0]], "ty": _shown(name.split(":", 1)[-1])} for name in goal.free]
    assumed = [{"names": [str(at)], "ty": _shown(text)} for at, text in enumerate(reversed(goal.assumptions))]
    return {"hyps": free + assumed, "ty": _shown(goal.conclusion)}
