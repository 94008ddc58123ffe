"""Named tactics (`deftac`) in a proof that was found: a use takes the place of steps where it leaves the goals that these come to."""

from __future__ import annotations

import re
import time
from typing import FrozenSet, Iterator, List, Mapping, NamedTuple, Optional, Sequence, Tuple

from holls import protocol
from holls.protocol import Goal, Goals, Refusal
from holls.prover import clock, trying
from holls.prover.asking import Asker
from holls.prover.scripts import Step

MOST_CALLS = 80
"""In a proof of more calls nothing is replaced."""
_USE_SECONDS = 0.5
"""So long a use may run that is tried."""
_MOST_LOST = 2
"""So many functions may have no answer in time; then none is tried any more, since each costs a server."""
_WORD = re.compile(r"[A-Za-z_][A-Za-z0-9_']*")


class Functions:
    """Those that may stand at a goal, the shortest name first, with the variables that they name, and the constants that they are about.

    One that doesn't stand, or has no answer in time, isn't tried again.
    """

    def __init__(self, functions: Mapping[str, FrozenSet[str]], concerns: Optional[Mapping[str, FrozenSet[str]]] = None) -> None:
        names = sorted(reversed(list(functions)), key=len)
        self.names = {name: functions[name] for name in names}
        self._concerns = {name: own for name, own in (concerns or {}).items() if all(map(_WORD.fullmatch, own))}
        self._lost = 0

    def at(self, goal: Goal) -> List[str]:
        """The functions that may be meant for a goal: it has a variable that they name, and a constant that they are about, where there are any."""
        words = frozenset(_WORD.findall(" ".join((goal.conclusion,) + goal.assumptions)))
        return [name for name, variables in self.names.items()
                if all(not own or own & words for own in (variables, self._concerns.get(name, frozenset())))]

    def after(self, asker: Asker, name: str, form: str = "%s") -> Optional[Goals]:
        """The goals after a step that uses a function, which stands then; None where it is refused or isn't tried."""
        if name not in self.names or self._lost >= _MOST_LOST:
            return None
        report = asker.attempt("e " + form % name, time.monotonic() + _USE_SECONDS)
        if isinstance(report, Goals):
            return report
        self._lost += report is None
        is_unknown = isinstance(report, Refusal) and (report.number, report.argument) == (protocol.UNKNOWN_TAC, name)
        if report is None or is_unknown:
            del self.names[name]
        return None

    def closing(self, asker: Asker, goals: Goals, forms: Sequence[str], below: Optional[int], until: float) -> Optional[str]:
        """A step that uses a function and closes the first goal, in the first of some forms that does; it is taken back.

        It counts less than so many characters, if any are given.
        """
        mark = asker.count
        for form in forms:
            for name in self.at(goals.goals[0]):
                if clock.now() > until:
                    return None
                if below is not None and len(form % "") + _weight(name) >= below:
                    continue
                found = self.after(asker, name, form)
                asker.back(mark)
                if found is not None and len(found.goals) == len(goals.goals) - 1:
                    return form % name
        return None


def forms(is_growing: bool) -> List[str]:
    """Steps that use a function, and may close a goal; by assumptions only where these don't go on for ever."""
    alone = ["%s", trying.STRIPS + "%s"]
    return alone if is_growing else alone + [form + " THEN " + trying.SHORT for form in alone]


class _Call(NamedTuple):
    """A call of a proof, the goal that it is run on, and the calls on the goals that it leaves. `written`: the step that begins with it."""

    text: str
    goal: Goal
    subs: Tuple["_Call", ...]
    written: Optional[Step]

    @property
    def step(self) -> Step:
        """The steps from this call on."""
        return _joined(self.text, [sub.step for sub in self.subs], self.written)


class _Refused(Exception):
    """A call that is refused, or leaves other goals than there are steps for, or one too many; or no time is left."""


class Uses:
    """Puts uses of functions into the steps of a proof, until a time; the program runs each where it is to stand."""

    def __init__(self, asker: Asker, functions: Functions, goals: Goals, until: float) -> None:
        self.asker, self.functions, self.until = asker, functions, until
        self._goals = self._start = goals
        self._calls = 0

    def shortened(self, step: Step) -> Optional[Step]:
        """Shorter steps for the first goal, with uses; None where there are none. What was run is taken back."""
        mark, made = self.asker.count, None
        try:
            call = self._recorded(step)
            self._back(mark, self._start)
            made = self._with_uses(call)
        except _Refused:
            pass
        self._back(mark, self._start)
        return made if made is not None and trying.cost(made) < trying.cost(step) else None

    def _back(self, mark: int, goals: Goals) -> None:
        self.asker.back(mark)
        self._goals = goals

    def _run(self, text: str) -> int:
        """Runs a call. Answers how many goals it leaves of the first one."""
        return self._left(trying.goals_after(self.asker, text))

    def _left(self, found: Optional[Goals]) -> int:
        if found is None:
            raise _Refused
        left = len(found.goals) - len(self._goals.goals) + 1
        self._goals = found
        return left

    # What a proof does

    def _recorded(self, step: Step) -> _Call:
        """Runs steps, a call at a time, and keeps the goals on which they are run."""
        subs = iter(step.subs)
        call = self._recorded_calls(trying.pieces(step.text), subs)
        if next(subs, None) is not None:
            raise _Refused
        return call._replace(written=step)

    def _recorded_calls(self, texts: Sequence[str], subs: Iterator[Step]) -> _Call:
        """Runs calls joined by THEN, and then the steps of the goals that are left."""
        self._calls += 1
        if self._calls > MOST_CALLS or clock.now() > self.until:
            raise _Refused
        goal, made = self._goals.goals[0], []
        for _ in range(self._run(texts[0])):
            if len(texts) > 1:
                made.append(self._recorded_calls(texts[1:], subs))
                continue
            sub = next(subs, None)
            if sub is None:
                raise _Refused
            made.append(self._recorded(sub))
        return _Call(texts[0], goal, tuple(made), None)

    # Uses in it

    def _with_uses(self, call: _Call) -> Step:
        """The steps from a call on, with uses in place of some; they are run on the first goal."""
        mark, before = self.asker.count, self._goals
        for name, rest in self._candidates(call):
            try:
                self._left(self.functions.after(self.asker, name))
                return _joined(name, [self._with_uses(sub) for sub in rest], call.written)
            except _Refused:
                self._back(mark, before)
        self._run(call.text)
        return _joined(call.text, [self._with_uses(sub) for sub in call.subs], call.written)

    def _candidates(self, call: _Call) -> List[Tuple[str, List[_Call]]]:
        """The functions that do what some of the calls do, and the calls that stay behind each; those that save most first."""
        mark, whole = self.asker.count, trying.cost(call.step)
        found: List[Tuple[int, str, List[_Call]]] = []
        for name in self.functions.at(call.goal):
            if clock.now() > self.until or len("e ") + _weight(name) >= whole:
                break
            after = self.functions.after(self.asker, name)
            self.asker.back(mark)
            rest = None if after is None else _rest(call, after.goals[:len(after.goals) - len(self._goals.goals) + 1])
            if rest is not None:
                made = _joined(name, [sub.step for sub in rest], None)
                found.append((trying.cost(made) - len(name) + _weight(name), name, rest))
        return [(name, rest) for cost, name, rest in sorted(found, key=lambda one: one[0]) if cost < whole]


def _weight(name: str) -> int:
    """What a use counts, in characters: one alone saves nothing where a short call does the same."""
    return max(len(name), len(trying.SHORT))


def _joined(text: str, subs: Sequence[Step], written: Optional[Step]) -> Step:
    """A step with those behind it; or as it was written, where that is no longer."""
    made = trying.merged(Step(text, tuple(subs)))
    return made if written is None or trying.cost(made) < trying.cost(written) else written


def _rest(call: _Call, left: Sequence[Goal]) -> Optional[List[_Call]]:
    """The calls behind one that are run on the goals that are left; None where some of these are none of its."""
    rest: List[_Call] = []
    waiting = list(reversed(call.subs))
    while waiting:
        sub = waiting.pop()
        if len(rest) < len(left) and _serves(left[len(rest)], sub.goal):
            rest.append(sub)
        else:
            waiting += reversed(sub.subs)
    return rest if len(rest) == len(left) else None


def _serves(goal: Goal, wanted: Goal) -> bool:
    """Whether a goal is another one, perhaps with more assumptions."""
    return (goal.conclusion == wanted.conclusion and set(goal.assumptions) >= set(wanted.assumptions) and set(goal.free) >= set(wanted.free))
