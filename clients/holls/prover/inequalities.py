"""What inequalities come to: a sum of them that can't be, a case to be made, or numbers for which they hold."""

from __future__ import annotations

from math import floor
from typing import Dict, FrozenSet, Iterator, List, NamedTuple, Optional, Sequence, Tuple, Union

from holls.prover import linear, numerals, polynomials, typed
from holls.prover.linear import Certificate
from holls.prover.numerals import ZERO, applied, successor
from holls.prover.polynomials import Atoms, Polynomial
from holls.prover.typed import BOOL, Term

_MOST_FACTORS = 14
"""Of more inequalities no products are taken."""
_MOST_PRODUCTS = 60


class Theorem(NamedTuple):
    """Where an inequality comes from: an assumption, or a theorem at some terms and, for a product, of two inequalities."""

    name: str
    terms: Tuple[Term, ...] = ()
    of: Tuple["Inequality", ...] = ()


ASSUMED = Theorem("")


class Inequality(NamedTuple):
    """An inequality `le s t`, with the polynomial t - s."""

    term: Term
    theorem: Theorem
    polynomial: Polynomial


class Either(NamedTuple):
    """A disjunction: its term, and what is known of numbers on either side."""

    term: Term
    left: Tuple[Term, ...]
    right: Tuple[Term, ...]


class Case(NamedTuple):
    """Two cases, each with its inequalities: of an assumed disjunction, or of the theorem `name` at terms. `open` says how many of them the
    inequalities leave open, `taken` which difference or the like it takes apart."""

    name: str
    terms: Tuple[Term, ...]
    left: Tuple[Term, ...]
    right: Tuple[Term, ...]
    open: int
    taken: Tuple[Term, ...] = ()


class Sum(NamedTuple):
    """Inequalities of which some, by a certificate, can't hold together."""

    known: Tuple[Inequality, ...]
    certificate: Certificate


Outcome = Union[Sum, Case, None]


def le(left: Term, right: Term) -> Term:
    """The term `le s t`."""
    return applied("le", left, right, result=BOOL)


_SPLITS = {"sub": "SUB_SPLIT", "PRE": "PRE_SPLIT", "MIN": "MIN_SPLIT", "MAX": "MAX_SPLIT"}


_Fact = Tuple[Term, Theorem]


class Situation:
    """Inequalities and disjunctions that are assumed."""

    def __init__(self, atoms: Atoms, assumed: Sequence[Term], disjunctions: Sequence[Either], done: FrozenSet[Term],
                 names: FrozenSet[str]) -> None:
        self.atoms, self.disjunctions, self.done, self.names = atoms, list(disjunctions), done, names
        self.known: List[Inequality] = []
        self.parts: Dict[Term, None] = {}
        for term in assumed:
            self._take(term, ASSUMED)
        for one in self.disjunctions:
            for term in one.left + one.right:
                self.parts.update(dict.fromkeys(_closed_parts(term)))
        for term, theorem in list(self._facts()):
            self._take(term, theorem)

    def _take(self, term: Term, theorem: Theorem) -> None:
        polynomial = self.polynomial(term)
        if all(one.polynomial != polynomial for one in self.known):
            self.known.append(Inequality(term, theorem, polynomial))
        self.parts.update(dict.fromkeys(_closed_parts(term)))

    def polynomial(self, term: Term) -> Polynomial:
        """t - s of `le s t`."""
        left, right = numerals.parts(term, "le")
        return polynomials.total(self.atoms.polynomial(right), self.atoms.polynomial(left), -1)

    def _facts(self) -> Iterator[_Fact]:
        """Inequalities that hold of differences, quotients and the like among the terms."""
        for term in list(self.parts):
            name = numerals.head(term)
            found = numerals.parts(term, name)
            if found and name == "sub":
                yield le(term, found[0]), Theorem("SUB_LE", found)
                yield le(found[0], applied("add", found[1], term)), Theorem("SUB_BOUND", found)
            elif name == "PRE" and numerals.parts(term, "PRE", 1):
                yield le(term, term[2]), Theorem("PRE_LE", (term[2],))
                yield le(term[2], successor(term)), Theorem("PRE_BOUND", (term[2],))
            elif found and name in ("MIN", "MAX") and name + "_SPLIT" in self.names:
                yield from _bounds(name, term, found)
            elif found and name in ("DIV", "MOD"):
                yield from self._quotients(found)

    @staticmethod
    def _quotients(found: Sequence[Term]) -> Iterator[_Fact]:
        """What holds of the quotient and the rest by a numeral that begins with SUC."""
        below = numerals.parts(found[1], "SUC", 1)
        if numerals.number(found[1]) is None or below is None:
            return
        terms = (found[0], below[0])
        rest = applied("MOD", *found)
        whole = applied("add", applied("mult", found[1], applied("DIV", *found)), rest)
        yield le(whole, found[0]), Theorem("DIV_LOWER", terms)
        yield le(found[0], whole), Theorem("DIV_UPPER", terms)
        yield le(rest, below[0]), Theorem("MOD_UPPER", terms)

    def refuted(self, *more: Polynomial) -> Optional[Certificate]:
        """Why the inequalities, and some more, can't all hold; None where they can for rational numbers."""
        every = [one.polynomial for one in self.known] + list(more)
        return linear.refutation(every, [_cost(one) for one in self.known] + [10] * len(more))

    def choose(self) -> Outcome:
        """The next thing to do: a sum that can't be, or a case with the fewest open sides; None where nothing helps."""
        found = self.refuted()
        if found:
            return Sum(tuple(self.known), found)
        best = self._best_case()
        if best is None or best.open:
            multiplied = self._multiplied()
            if multiplied:
                return multiplied
        return best or self._bounded()

    def _best_case(self) -> Optional[Case]:
        """A case of which as few sides as can be are left open."""
        best: Optional[Case] = None
        for make in (self._disjoined, self._divided, self._cut):
            for case in make():
                if best is None or case.open < best.open or case.open == best.open and case.name == "LE_SPLIT":
                    best = case
                if best.open == 0:
                    return best
        return best

    def _case(self, name: str, terms: Tuple[Term, ...], left: Sequence[Term], right: Sequence[Term]) -> Case:
        sides = ([self.polynomial(term) for term in left], [self.polynomial(term) for term in right])
        return Case(name, terms, tuple(left), tuple(right), sum(self.refuted(*side) is None for side in sides))

    def _disjoined(self) -> Iterator[Case]:
        for one in self.disjunctions:
            yield self._case("", (one.term,), one.left, one.right)

    def _divided(self) -> Iterator[Case]:
        """Cases of what a difference and the like is."""
        for term in self.parts:
            name = numerals.head(term)
            found = numerals.parts(term, name, 1 if name == "PRE" else 2)
            if term in self.done or not found or name not in _SPLITS or name in ("MIN", "MAX") and _SPLITS[name] not in self.names:
                continue
            left, right = _sides(name, term, found)
            yield self._case(_SPLITS[name], found, left, right)._replace(taken=(term,))

    def _cut(self) -> Iterator[Case]:
        """Cases of an inequality that holds in whole numbers: its negation can't be."""
        known = [one.polynomial for one in self.known]
        for one in linear.cuts(known):
            opposite = polynomials.total(polynomials.total({}, one, -1), polynomials.constant(-1))
            if one in known or self.refuted(opposite) is None:
                continue
            try:
                yield self._split_at(one)
            except polynomials.TooLarge:
                continue

    def _split_at(self, polynomial: Polynomial) -> Case:
        left, right = self.atoms.sides(polynomial)
        return self._case("LE_SPLIT", (left, right), (le(left, right),), (le(successor(right), left),))

    def _bounded(self) -> Optional[Case]:
        """Cases of what isn't whole at a vertex."""
        values = linear.vertex([one.polynomial for one in self.known])
        broken = [monomial for monomial, value in (values or {}).items() if value.denominator != 1]
        if not broken:
            return None
        return self._split_at(polynomials.total(polynomials.constant(floor(values[broken[0]])), {broken[0]: 1}, -1))

    def _multiplied(self) -> Optional[Sum]:
        """A sum with products of two inequalities, where there are products among the terms."""
        if not any(len(monomial) > 1 for one in self.known for monomial in one.polynomial) or len(self.known) > _MOST_FACTORS:
            return None
        wanted = {frozenset(monomial) for one in self.known for monomial in one.polynomial if len(monomial) > 1}
        single = sorted({number for monomial in wanted for number in monomial})
        factors = self.known + [Inequality(le(ZERO, self.atoms.terms[one]), Theorem("LE_0", (self.atoms.terms[one],)), {(one,): 1}) for one in single]
        made: List[Inequality] = []
        for at, one in enumerate(factors):
            for other in factors[:at + 1]:
                found = self._product(one, other)
                if found is not None and any(frozenset(monomial) in wanted for monomial in found.polynomial if len(monomial) > 1):
                    made.append(found)
        every = self.known + sorted(made, key=lambda one: len(one.polynomial))[:_MOST_PRODUCTS]
        found = linear.refutation([one.polynomial for one in every], [_cost(one) for one in every])
        return Sum(tuple(every), found) if found else None

    def _product(self, one: Inequality, other: Inequality) -> Optional[Inequality]:
        """What two inequalities say together: b - a times d - c is at least 0."""
        (a, b), (c, d) = numerals.parts(one.term, "le"), numerals.parts(other.term, "le")
        term = le(applied("add", applied("mult", a, d), applied("mult", b, c)), applied("add", applied("mult", a, c), applied("mult", b, d)))
        try:
            polynomial = polynomials.product(one.polynomial, other.polynomial)
        except polynomials.TooLarge:
            return None
        return Inequality(term, Theorem("LE_PRODUCT", (a, b, c, d), (one, other)), polynomial) if polynomial else None


def _cost(one: Inequality) -> int:
    """How dear it is to take an inequality: by the length of its step."""
    return 10 + 4 * len(one.theorem.terms) + (60 if one.theorem.of else 0)


def _closed_parts(term: Term) -> List[Term]:
    return [part for part in typed.subterms(term) if part[0] == "a" and not typed.has_loose(part)]


def _bounds(name: str, term: Term, found: Sequence[Term]) -> Iterator[_Fact]:
    for side, place in ((found[0], "LEFT"), (found[1], "RIGHT")):
        theorem = Theorem("%s_%s" % (name, place), tuple(found))
        yield (le(term, side) if name == "MIN" else le(side, term)), theorem


def _sides(name: str, term: Term, found: Sequence[Term]) -> Tuple[List[Term], List[Term]]:
    """What the theorem of a case says on either side."""
    if name == "sub":
        return [le(found[0], found[1]), le(term, ZERO)], [le(applied("add", found[1], term), found[0])]
    if name == "PRE":
        return [le(found[0], ZERO), le(term, ZERO)], [le(successor(term), found[0])]
    if name == "MIN":
        return [le(found[0], term)], [le(found[1], term)]
    return [le(term, found[0])], [le(term, found[1])]
