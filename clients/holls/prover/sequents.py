"""Signed formulas and their parts.

A formula stands left of a sequent (assumed, True) or right of it (to be shown, False). Its position names it and what it is a part of: the
number of a formula of the sequent, and then which part was taken each time. A part under quantifiers that take any term has as `terms` those
that were taken, in order: so position and terms name an instance.
"""

from __future__ import annotations

from typing import Any, List, NamedTuple, Optional, Tuple

from holls.prover import typed
from holls.prover.typed import Term, Type

Position = Tuple[int, ...]
Signed = Tuple[bool, Term]

ALPHA, BETA, GAMMA, DELTA, LITERAL = "alpha", "beta", "gamma", "delta", "literal"


class Formula(NamedTuple):
    """A signed formula at its place."""

    is_left: bool
    term: Term
    position: Position = ()
    terms: Tuple[Term, ...] = ()

    @property
    def signed(self) -> Signed:
        """The formula without its place."""
        return self.is_left, self.term

    def part(self, number: int, is_left: bool, term: Term) -> "Formula":
        """A part, at its place."""
        return Formula(is_left, term, self.position + (number,), self.terms)


class Shape(NamedTuple):
    """What a formula is: of ALPHA the parts that come together, of BETA those of which one holds; of quantifiers the variable and the body."""

    kind: str
    parts: Tuple[Signed, ...] = ()
    name: str = ""
    type: Optional[Type] = None
    body: Any = None


_ATOM = Shape(LITERAL)


def shape(is_left: bool, term: Term) -> Shape:
    """What a signed formula is."""
    inner = typed.negated(term)
    if inner is not None:
        return Shape(ALPHA, ((not is_left, inner),))
    found = typed.binary(term)
    if found:
        return _infix(is_left, *found)
    bound = typed.quantified(term)
    if bound:
        quantifier, name, ty, body = bound
        return Shape(GAMMA if (quantifier == "!") == is_left else DELTA, (), name, ty, body)
    return _ATOM


def _infix(is_left: bool, name: str, left: Term, right: Term) -> Shape:
    if name == "<=>":
        parts = ((is_left, typed.mk_imp(left, right)), (is_left, typed.mk_imp(right, left)))
        return Shape(ALPHA if is_left else BETA, parts)
    if name == "==>":
        return Shape(BETA if is_left else ALPHA, ((not is_left, left), (is_left, right)))
    if name in ("/\\", "\\/"):
        return Shape(ALPHA if (name == "/\\") == is_left else BETA, ((is_left, left), (is_left, right)))
    return _ATOM


def parts(formula: Formula, found: Shape) -> List[Formula]:
    """The parts of a formula that is ALPHA or BETA."""
    return [formula.part(number, is_left, term) for number, (is_left, term) in enumerate(found.parts)]


def is_trivial(is_left: bool, term: Term) -> bool:
    """Whether a formula alone closes a sequent: T or `s = s` on the right, F on the left."""
    if is_left:
        return term == typed.FALSITY
    if term == typed.TRUTH:
        return True
    sides = typed.binary(term)
    return sides is not None and sides[0] in ("=", "<=>") and sides[1] == sides[2]
