"""Small numbers and truth values for which a goal is false: formulas over num without inner quantifiers are evaluated."""

from __future__ import annotations

import itertools
import math
from typing import Any, Callable, Dict, List, Optional, Sequence, Tuple

from holls.prover import clock, numerals, typed
from holls.prover.shown import Shown, stripped
from holls.prover.typed import BOOL, Term

Values = Dict[Term, Any]
_Function = Callable[[Values], Any]
_MOST_VALUES = 7
"""Numbers below this are tried, fewer where there are many variables."""
_MOST_TRIALS = 4_000
_LARGEST = 10 ** 12
"""A power or factorial beyond is not computed."""


class _Unknown(Exception):
    """A term that can't be evaluated."""


def _power(base: int, exponent: int) -> int:
    if base > 1 and exponent > 40:
        raise _Unknown
    return base ** exponent


def _factorial(value: int) -> int:
    if value > 14:
        raise _Unknown
    return math.factorial(value)


_NUMBERS: Dict[str, Tuple[int, Callable[..., Any]]] = {
    "add": (2, lambda m, n: m + n), "mult": (2, lambda m, n: m * n), "sub": (2, lambda m, n: max(m - n, 0)), "SUC": (1, lambda n: n + 1),
    "PRE": (1, lambda n: max(n - 1, 0)), "DIV": (2, lambda m, n: m // n if n else 0), "MOD": (2, lambda m, n: m % n if n else m),
    "EXP": (2, _power), "MIN": (2, min), "MAX": (2, max), "FACT": (1, _factorial),
    "le": (2, lambda m, n: m <= n), "lt": (2, lambda m, n: m < n), "GE": (2, lambda m, n: m >= n), "GT": (2, lambda m, n: m > n),
    "EVEN": (1, lambda n: n % 2 == 0), "ODD": (1, lambda n: n % 2 == 1)}
_LOGIC: Dict[str, Tuple[int, Callable[..., Any]]] = {
    "/\\": (2, lambda p, q: p and q), "\\/": (2, lambda p, q: p or q), "==>": (2, lambda p, q: not p or q), "=": (2, lambda p, q: p == q),
    "~": (1, lambda p: not p), "COND": (3, lambda p, x, y: x if p else y)}
_OPERATIONS = {**_NUMBERS, **_LOGIC}


def counterexample(shown: Shown, until: float) -> Optional[List[Tuple[str, Any]]]:
    """Names with values for which a goal's assumptions hold and what it shows doesn't; None where none are found, or it can't be evaluated."""
    goal = stripped(shown.conclusion)
    for term in shown.assumptions:
        goal = typed.mk_imp(term, goal)
    variables = sorted(typed.variables(goal), key=lambda one: one[1])
    if any(one[2] not in (BOOL, numerals.NUM) for one in variables):
        return None
    try:
        evaluate = _compiled(goal)
        return next((_named(values) for values in _choices(variables) if clock.now() < until and not evaluate(values)), None)
    except (_Unknown, RecursionError):
        return None


def _named(values: Values) -> List[Tuple[str, Any]]:
    return [(term[1], value) for term, value in values.items()]


def _choices(variables: Sequence[Term]):
    """Values for variables, the small ones first."""
    count = max(1, sum(one[2] != BOOL for one in variables))
    free = 2 ** sum(one[2] == BOOL for one in variables)
    if free > _MOST_TRIALS:
        raise _Unknown
    below = 1
    while below < _MOST_VALUES and free * (below + 1) ** count <= _MOST_TRIALS:
        below += 1
    ranges = [(True, False) if one[2] == BOOL else range(below) for one in variables]
    every = itertools.product(*ranges)
    for chosen in sorted(every, key=sum):
        yield dict(zip(variables, chosen))


def _compiled(term: Term) -> _Function:
    """What evaluates a term."""
    value = numerals.number(term)
    if value is not None:
        return lambda values: value
    if term[0] == "v":
        return lambda values: values[term]
    if term in (typed.TRUTH, typed.FALSITY):
        is_true = term == typed.TRUTH
        return lambda values: is_true
    name = numerals.head(term)
    places, operation = _OPERATIONS.get(name, (0, None))
    found = numerals.parts(term, name, places) if operation else None
    if not found or name == "=" and typed.type_of(found[0]) not in (BOOL, numerals.NUM):
        raise _Unknown
    inner = [_compiled(part) for part in found]

    def evaluate(values: Values) -> Any:
        result = operation(*[one(values) for one in inner])
        if result > _LARGEST:
            raise _Unknown
        return result

    return evaluate
