"""Polynomials with whole coefficients over terms of type num, and the terms that they stand for."""

from __future__ import annotations

from functools import reduce
from math import gcd
from typing import Dict, List, Tuple

from holls.prover import numerals, typed
from holls.prover.typed import Term

Monomial = Tuple[int, ...]
"""The numbers of its atoms, in order."""
Polynomial = Dict[Monomial, int]
MOST_EXPONENT = 8
MOST_MONOMIALS = 400


class TooLarge(Exception):
    """A polynomial has too many monomials, or a coefficient is too large to be written."""


def constant(value: int) -> Polynomial:
    """A number."""
    return {(): value} if value else {}


def total(one: Polynomial, other: Polynomial, factor: int = 1) -> Polynomial:
    """The sum of a polynomial and a multiple of another one."""
    found = dict(one)
    for monomial, coefficient in other.items():
        _add(found, monomial, factor * coefficient)
    return found


def _add(found: Polynomial, monomial: Monomial, coefficient: int) -> None:
    """Adds to a polynomial in its place."""
    value = found.get(monomial, 0) + coefficient
    if value:
        found[monomial] = value
    else:
        found.pop(monomial, None)


def product(one: Polynomial, other: Polynomial) -> Polynomial:
    """The product of two polynomials."""
    if len(one) * len(other) > MOST_MONOMIALS:
        raise TooLarge
    found: Polynomial = {}
    for left, first in one.items():
        for right, second in other.items():
            _add(found, tuple(sorted(left + right)), first * second)
    return found


def divisor(polynomial: Polynomial) -> int:
    """The greatest number that divides each coefficient but the constant; 0 where there is no other one."""
    return reduce(gcd, [coefficient for monomial, coefficient in polynomial.items() if monomial], 0)


def tightened(polynomial: Polynomial) -> Polynomial:
    """What follows in whole numbers where a polynomial is at least 0: divided by what divides it, its constant rounded down."""
    by = divisor(polynomial)
    if by == 0:
        return polynomial
    found = {monomial: coefficient // by for monomial, coefficient in polynomial.items() if monomial}
    rest = polynomial.get((), 0) // by
    if rest:
        found[()] = rest
    return found


class Atoms:
    """The terms that polynomials take as a whole, by their numbers."""

    def __init__(self) -> None:
        self.terms: List[Term] = []
        self._numbers: Dict[Term, int] = {}
        self._known: Dict[Term, Polynomial] = {}

    def number(self, term: Term) -> int:
        """The number of an atom."""
        if term not in self._numbers:
            self._numbers[term] = len(self.terms)
            self.terms.append(term)
        return self._numbers[term]

    def polynomial(self, term: Term) -> Polynomial:
        """What a term is. TooLarge where it has too many monomials."""
        found = self._known.get(term)
        if found is None:
            found = self._known[term] = self._polynomial(term)
        return found

    def _polynomial(self, term: Term) -> Polynomial:
        value = numerals.number(term)
        if value is not None:
            return constant(value)
        name = numerals.head(term)
        if name == "SUC" and numerals.parts(term, "SUC", 1):
            return total(self.polynomial(term[2]), constant(1))
        found = numerals.parts(term, name) if name in ("add", "mult", "EXP") else None
        if found and name == "add":
            return total(self.polynomial(found[0]), self.polynomial(found[1]))
        if found and name == "mult":
            return product(self.polynomial(found[0]), self.polynomial(found[1]))
        exponent = numerals.number(found[1]) if found else None
        if exponent is not None and exponent <= MOST_EXPONENT:
            power = constant(1)
            for _ in range(exponent):
                power = product(power, self.polynomial(found[0]))
            return power
        return {(self.number(term),): 1}

    def monomial(self, monomial: Monomial) -> Term:
        """The term of a monomial that has atoms."""
        made = self.terms[monomial[0]]
        for number in monomial[1:]:
            made = numerals.applied("mult", made, self.terms[number])
        return made

    def term(self, polynomial: Polynomial) -> Term:
        """A term of a polynomial whose coefficients are positive. TooLarge where one can't be written."""
        if any(coefficient > numerals.MOST for coefficient in polynomial.values()):
            raise TooLarge
        made = None
        for monomial, coefficient in sorted(polynomial.items()):
            if not monomial:
                continue
            one = self.monomial(monomial)
            one = numerals.applied("mult", numerals.numeral(coefficient), one) if coefficient > 1 else one
            made = one if made is None else numerals.applied("add", made, one)
        rest = polynomial.get((), 0)
        if made is None:
            return numerals.numeral(rest)
        for _ in range(rest):
            made = numerals.successor(made)
        return made

    def sides(self, polynomial: Polynomial) -> Tuple[Term, Term]:
        """The terms s and t for which `le s t` says that a polynomial is at least 0."""
        less = {monomial: -coefficient for monomial, coefficient in polynomial.items() if coefficient < 0}
        more = {monomial: coefficient for monomial, coefficient in polynomial.items() if coefficient > 0}
        return self.term(less), self.term(more)


def atoms_of(term: Term) -> List[Term]:
    """The terms that a sum or product is made of, in which nothing is rewritten."""
    if numerals.number(term) is not None:
        return []
    name = numerals.head(term)
    if numerals.parts(term, "SUC", 1):
        return atoms_of(term[2])
    found = numerals.parts(term, name)
    if found and name in ("add", "mult", "le", "=") or found and name == "EXP" and numerals.number(found[1]) is not None:
        inner = found[:1] if name == "EXP" else found
        return [atom for part in inner for atom in atoms_of(part)]
    return [] if typed.has_loose(term) else [term]
