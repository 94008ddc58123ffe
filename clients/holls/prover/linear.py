"""Linear arithmetic over whole numbers: exact simplex, certificates of what can't be, cuts, and vertices."""

from __future__ import annotations

from fractions import Fraction
from functools import reduce
from math import gcd
from typing import Dict, List, NamedTuple, Optional, Sequence, Tuple

from holls.prover import polynomials
from holls.prover.polynomials import Monomial, Polynomial

_BLAND = 40
"""After so many rounds the first column is taken, so that no basis comes again."""
_ELIMINATIONS = 12


class Certificate(NamedTuple):
    """Multipliers by which inequalities, and monomials that are at least 0, sum up to what is less than 0."""

    inequalities: Tuple[Tuple[int, int], ...]
    monomials: Tuple[Tuple[Monomial, int], ...]


class _Tableau:
    """Rows of whole numbers, each up to a positive factor; the right side stands last."""

    def __init__(self, rows: Sequence[Sequence[int]], right: Sequence[int], width: int) -> None:
        self.width, count = width, len(rows)
        self.rows: List[List[int]] = []
        for number, (row, value) in enumerate(zip(rows, right)):
            sign = -1 if value < 0 else 1
            self.rows.append([sign * one for one in row] + [int(number == other) for other in range(count)] + [sign * value])
        self.basis = [width + number for number in range(count)]

    @staticmethod
    def cleared(row: List[int], by: Sequence[int], column: int) -> List[int]:
        """A row without a column, by a row whose entry there is positive."""
        factor, scale = row[column], by[column]
        if not factor:
            return row
        row = [scale * one - factor * other for one, other in zip(row, by)]
        common = reduce(gcd, row, 0)
        return [one // common for one in row] if common > 1 else row

    def pivot(self, at: int, column: int) -> None:
        """Takes a column into the basis at a row."""
        if self.rows[at][column] < 0:
            self.rows[at] = [-one for one in self.rows[at]]
        for other in range(len(self.rows)):
            if other != at:
                self.rows[other] = self.cleared(self.rows[other], self.rows[at], column)
        self.basis[at] = column

    def minimize(self, cost: Sequence[int]) -> None:
        """Goes to a vertex with the least cost."""
        line = list(cost) + [0]
        for at, column in enumerate(self.basis):
            line = self.cleared(line, self.rows[at], column)
        rounds = 0
        while True:
            rounds += 1
            columns = [column for column in range(self.width) if line[column] < 0]
            if not columns:
                return
            column = min(columns, key=line.__getitem__) if rounds < _BLAND else columns[0]
            leaving = [(Fraction(row[-1], row[column]), self.basis[at], at) for at, row in enumerate(self.rows) if row[column] > 0]
            if not leaving:
                return
            at = min(leaving)[2]
            self.pivot(at, column)
            line = self.cleared(line, self.rows[at], column)

    def values(self) -> List[Fraction]:
        """What each column is at the vertex."""
        found = [Fraction(0)] * self.width
        for at, column in enumerate(self.basis):
            if column < self.width:
                found[column] = Fraction(self.rows[at][-1], self.rows[at][column])
        return found


def simplex(rows: Sequence[Sequence[int]], right: Sequence[int], cost: Sequence[int]) -> Optional[List[Fraction]]:
    """The x of the least cost with rows times x = right and x >= 0; None where there is none."""
    width, count = len(cost), len(rows)
    tableau = _Tableau(rows, right, width)
    tableau.minimize([0] * width + [1] * count)
    if any(row[-1] for row, column in zip(tableau.rows, tableau.basis) if column >= width):
        return None
    for at in range(count):
        if tableau.basis[at] >= width:
            column = next((column for column in range(width) if tableau.rows[at][column]), None)
            if column is not None:
                tableau.pivot(at, column)
    tableau.minimize(list(cost) + [0] * count)
    return tableau.values()


def _monomials(constraints: Sequence[Polynomial]) -> List[Monomial]:
    return sorted({monomial for one in constraints for monomial in one if monomial})


def refutation(constraints: Sequence[Polynomial], costs: Sequence[int]) -> Optional[Certificate]:
    """Why polynomials can't all be at least 0 where monomials are; None where there are rational numbers for which they are."""
    for at, one in enumerate(constraints):
        if one.get((), 0) < 0 and all(coefficient <= 0 for coefficient in one.values()):
            return Certificate(((at, 1),), tuple((monomial, -value) for monomial, value in one.items() if monomial))
    monomials, count = _monomials(constraints), len(constraints)
    cost = list(costs) + [12 + len(monomial) for monomial in monomials] + [0]
    rows = [[one.get(monomial, 0) for one in constraints] + [int(monomial == other) for other in monomials] + [0] for monomial in monomials]
    rows.append([one.get((), 0) for one in constraints] + [0] * len(monomials) + [1])
    found = simplex(rows, [0] * len(monomials) + [-1], cost)
    if found is None:
        return None
    common = reduce(lambda one, other: one * other // gcd(one, other), [value.denominator for value in found[:-1]], 1)
    whole = [int(value * common) for value in found[:-1]]
    by = reduce(gcd, whole, 0) or 1
    whole = [value // by for value in whole]
    return Certificate(
        tuple((at, value) for at, value in enumerate(whole[:count]) if value),
        tuple((monomials[at], value) for at, value in enumerate(whole[count:]) if value))


def vertex(constraints: Sequence[Polynomial]) -> Optional[Dict[Monomial, Fraction]]:
    """Rational numbers for monomials, small ones, for which polynomials are at least 0; None where there are none."""
    monomials, count = _monomials(constraints), len(constraints)
    rows = [[one.get(monomial, 0) for monomial in monomials] + [-int(at == other) for other in range(count)] for at, one in enumerate(constraints)]
    found = simplex(rows, [-one.get((), 0) for one in constraints], [1] * len(monomials) + [0] * count)
    return None if found is None else dict(zip(monomials, found))


def cuts(constraints: Sequence[Polynomial]) -> List[Polynomial]:
    """Inequalities that hold of whole numbers and not of rational ones: by common divisors, after equations are put in."""
    distinct: List[Polynomial] = []
    for one in constraints:
        if one not in distinct:
            distinct.append(one)
    work = [polynomials.tightened(one) for one in distinct]
    found = [tight for one, tight in zip(distinct, work) if one.get((), 0) % (polynomials.divisor(one) or 1)]
    used: List[Polynomial] = []
    for _ in range(_ELIMINATIONS):
        equation = next((one for one in work if _is_equation(one, work) and one not in used), None)
        if equation is None:
            break
        used += [equation, polynomials.total({}, equation, -1)]
        work = _eliminated(work, equation, found)
    return found


def _is_equation(polynomial: Polynomial, work: Sequence[Polynomial]) -> bool:
    """Whether a polynomial is 0, and says what a monomial is."""
    return any(monomial and abs(value) == 1 for monomial, value in polynomial.items()) and polynomials.total({}, polynomial, -1) in work


def _eliminated(work: Sequence[Polynomial], equation: Polynomial, found: List[Polynomial]) -> List[Polynomial]:
    """Constraints in which an equation is put for a monomial; `found` takes the cuts."""
    monomial = max((one for one, value in equation.items() if one and abs(value) == 1), key=lambda one: (len(one) == 1, one))
    opposite, made = polynomials.total({}, equation, -1), []
    for one in work:
        if monomial in one and one != equation and one != opposite:
            one = polynomials.total(one, equation, -one[monomial] * equation[monomial])
        tight = polynomials.tightened(one)
        if tight != one and one.get((), 0) % (polynomials.divisor(one) or 1) and tight not in found:
            found.append(tight)
        if tight and tight not in made:
            made.append(tight)
    return made
