"""In which order equations are put into a goal, so that two of its parts become one."""

from __future__ import annotations

import itertools
from collections import deque
from typing import Deque, Iterator, NamedTuple, Optional, Sequence, Set, Tuple

from holls.prover import typed
from holls.prover.typed import Term

MOST_STATES = 3000
MOST_ORDERS = 2000
_MARGIN = 12
"""So many names more than at first a goal may have on the way."""

Use = Tuple[Term, bool]
"""An equation, and whether it is turned around."""


class Plan(NamedTuple):
    """The equations in order; whether each is also put into those behind it; and the left formula at the end."""

    equations: Tuple[Use, ...]
    is_joined: bool
    left: Optional[Term]


def plan(equations: Sequence[Term], left: Optional[Term], right: Term) -> Optional[Plan]:
    """How equations make the sides of a formula, or two formulas, one: put into these alone, or into one another too."""
    direct = _direct(equations, left, right)
    if direct and len(direct.equations) <= len(equations) + 1:
        return direct
    return _joined(equations, left, right) or direct


def _direct(equations: Sequence[Term], left: Optional[Term], right: Term) -> Optional[Plan]:
    """Equations that are put into the formulas alone, as often as needed, the fewest."""
    uses = [(equation, is_turned) + _sides(equation, is_turned) for equation in equations for is_turned in (False, True)]
    start = (left, right)
    largest = _size(start) + _MARGIN
    seen: Set[Tuple[Optional[Term], Term]] = {start}
    waiting: Deque[Tuple[Tuple[Optional[Term], Term], Tuple[Use, ...]]] = deque([(start, ())])
    while waiting and len(seen) < MOST_STATES:
        state, done = waiting.popleft()
        for equation, is_turned, old, new in uses:
            after = _replaced(state, old, new)
            if after in seen or _size(after) > largest:
                continue
            if _is_done(after):
                return Plan(done + ((equation, is_turned),), False, after[0])
            seen.add(after)
            waiting.append((after, done + ((equation, is_turned),)))
    return None


def _joined(equations: Sequence[Term], left: Optional[Term], right: Term) -> Optional[Plan]:
    """Equations in an order in which each is put into the formulas and into the equations behind it."""
    for uses in itertools.islice(_orders(equations), MOST_ORDERS):
        state, current = (left, right), [equation for equation, _ in uses]
        for number, (_, is_turned) in enumerate(uses):
            old, new = _sides(current[number], is_turned)
            state = _replaced(state, old, new)
            current = [typed.replaced(equation, old, new) for equation in current]
        if _is_done(state):
            return Plan(uses, True, state[0])
    return None


def _orders(equations: Sequence[Term]) -> Iterator[Tuple[Use, ...]]:
    """The orders and turns of equations, those first in which the larger side goes."""
    for turns in sorted(itertools.product((False, True), repeat=len(equations)), key=lambda turns: _risk(equations, turns)):
        yield from itertools.permutations(tuple(zip(equations, turns)))


def _risk(equations: Sequence[Term], turns: Sequence[bool]) -> int:
    sides = [_sides(equation, is_turned) for equation, is_turned in zip(equations, turns)]
    return sum(typed.size(old) < typed.size(new) for old, new in sides)


def _sides(equation: Term, is_turned: bool) -> Tuple[Term, Term]:
    """What an equation replaces, and by what."""
    _, old, new = typed.binary(equation)
    return (new, old) if is_turned else (old, new)


def _replaced(state: Tuple[Optional[Term], Term], old: Term, new: Term) -> Tuple[Optional[Term], Term]:
    left, right = state
    return None if left is None else typed.replaced(left, old, new), typed.replaced(right, old, new)


def _size(state: Tuple[Optional[Term], Term]) -> int:
    return (0 if state[0] is None else typed.size(state[0])) + typed.size(state[1])


def _is_done(state: Tuple[Optional[Term], Term]) -> bool:
    """Whether the formulas, or the sides of the one, are the same."""
    left, right = state
    if left is not None:
        return left == right
    _, one, other = typed.binary(right)
    return one == other
