"""Propositional sequents by truth tables: whether one is valid, and steps that take each atom by its cases and rewrite."""

from __future__ import annotations

from typing import Callable, Dict, List, Optional, Sequence

from holls.prover import typed
from holls.prover.finding import Item
from holls.prover.scripts import Step
from holls.prover.typed import FALSITY, TRUTH, Term

MOST_ATOMS = 14
"""More atoms make a table too large."""
_AT_ONCE = 6
"""So many atoms are taken by cases in one command: 64 goals, within the turns that a command has."""


def atoms(items: Sequence[Item]) -> List[Term]:
    """The atoms of a sequent, in the order in which they stand."""
    found: Dict[Term, None] = {}
    waiting = [item.term for item in reversed(items)]
    while waiting:
        term = waiting.pop()
        inner, sides = typed.negated(term), typed.binary(term)
        if inner is not None:
            waiting.append(inner)
        elif sides and sides[0] != "=":
            waiting += [sides[2], sides[1]]
        elif term not in (TRUTH, FALSITY):
            found[term] = None
    return list(found)


def are_independent(own: Sequence[Term]) -> bool:
    """Whether atoms may hold or not, each by itself: they have variables alone, and no part that may be T or F."""
    for atom in own:
        for part in typed.subterms(atom):
            if part[0] not in "va" or part is not atom and typed.type_of(part) == typed.BOOL:
                return False
    return True


def is_valid(items: Sequence[Item], own: Sequence[Term]) -> bool:
    """Whether a sequent holds whatever its atoms are."""
    return _failing(items, own) == 0


def counterexample(items: Sequence[Item], own: Sequence[Term]) -> Optional[Dict[str, bool]]:
    """What the variables that are a sequent's atoms may be so that it is false; None where there is no such row, or atoms are other terms."""
    failing = _failing(items, own)
    if not failing or any(atom[0] != "v" for atom in own):
        return None
    row = (failing & -failing).bit_length() - 1
    return {atom[1]: bool(row >> number & 1) for number, atom in enumerate(own)}


def _failing(items: Sequence[Item], own: Sequence[Term]) -> int:
    """The rows in which a sequent doesn't hold: each formula has a number with a bit for each row of the table."""
    rows = 1 << len(own)
    full = (1 << rows) - 1
    values = {TRUTH: full, FALSITY: 0}
    for number, atom in enumerate(own):
        width = 1 << number
        block = ((1 << width) - 1) << width
        values[atom] = sum(block << at for at in range(0, rows, 2 * width)) if rows < 4096 else _column(rows, width)
    holds = 0
    for item in items:
        value = _value(item.term, values, full)
        holds |= full ^ value if item.is_left else value
    return full ^ holds


def _column(rows: int, width: int) -> int:
    """The bits of an atom's column in a large table."""
    column = ((1 << width) - 1) << width
    length = 2 * width
    while length < rows:
        column |= column << length
        length *= 2
    return column


def _value(term: Term, values: Dict[Term, int], full: int) -> int:
    if term in values:
        return values[term]
    inner = typed.negated(term)
    if inner is not None:
        return full ^ _value(inner, values, full)
    name, left, right = typed.binary(term)
    one, other = _value(left, values, full), _value(right, values, full)
    return {"/\\": one & other, "\\/": one | other, "==>": (full ^ one) | other, "<=>": full ^ one ^ other}[name]


def steps(items: Sequence[Item], own: Sequence[Term], middle: Callable[[Term], str], assumed: Callable[[Term], str]) -> Optional[Step]:
    """Steps that put what is assumed into the goal, take the atoms by cases, and rewrite. The last step is for each goal that is left then."""
    parts = ["MP_TAC " + assumed(item.term) for item in items if item.is_left]
    cases = ["DISJ_CASES_TAC " + middle(atom) for atom in own]
    if len(cases) <= _AT_ONCE:
        return Step(" THEN ".join(parts + cases + ["ASM_REWRITE_TAC []"]))
    first = cases[:-_AT_ONCE]
    rest = Step(" THEN ".join(cases[-_AT_ONCE:] + ["ASM_REWRITE_TAC []"]))
    return Step(" THEN ".join(parts + first + ["ASM_REWRITE_TAC []"]), (rest,), True)
