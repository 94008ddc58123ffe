"""Clauses of signed formulas, for the search of instances: what stands left is asserted, what stands right denied.

In a clause a variable is a number; other terms are tuples of a symbol and its arguments. A variable of the clauses that is applied, or a
bound name that is, makes an application of two with APPLY as its symbol. A witness is a symbol of its own with the variables that its formula has.
"""

from __future__ import annotations

from typing import Any, Dict, FrozenSet, List, NamedTuple, Optional, Sequence, Tuple

from holls.prover import sequents, typed
from holls.prover.sequents import ALPHA, BETA, GAMMA, LITERAL, Formula, Position
from holls.prover.typed import Term, Type

MOST_CLAUSES = 60
"""A product of more clauses gets a name for one side."""

Coded = Any


class Symbol:
    """What a term begins with: a constant, a free variable, an abstraction, a witness's position, or a name for a formula.

    Its first `own` arguments are those on which a witness depends, or what stands in an abstraction for its holes ("h", number).
    """

    __slots__ = ("term", "type", "position", "own", "label")

    def __init__(self, term: Optional[Term], ty: Optional[Type], position: Optional[Position] = None, own: int = 0, label: str = "") -> None:
        self.term, self.type, self.position, self.own, self.label = term, ty, position, own, label

    def __repr__(self) -> str:
        return self.label


APPLY = Symbol(None, None, None, 0, "@")


class Variable(NamedTuple):
    """A variable that takes any term: the position of its quantifier, its type, and the variables outside of it, by their numbers."""

    number: int
    position: Position
    type: Type
    outside: Tuple[int, ...]


class Literal(NamedTuple):
    """An atom that is asserted or denied."""

    is_true: bool
    atom: Coded


class Clause:
    """Literals of which one holds; its variables are numbered from 0. `is_goal`: whether it comes of what is to be shown."""

    __slots__ = ("literals", "variables", "count", "is_goal")

    def __init__(self, literals: Sequence[Literal], variables: Sequence[Variable], is_goal: bool) -> None:
        self.is_goal = is_goal
        self.variables = list(variables)
        self.literals = tuple(literals)
        self.count = len(self.variables)


_Made = Tuple[Tuple[Literal, ...], FrozenSet[int]]
"""Literals with the variables that are in scope at them."""


class Builder:
    """Makes clauses of formulas. `witnesses` says at each position on which of the terms a witness depends."""

    def __init__(self) -> None:
        self.symbols: Dict[Any, Symbol] = {}
        self.variables: List[Variable] = []
        self.witnesses: Dict[Position, Tuple[int, ...]] = {}
        self.clauses: List[Clause] = []
        self._is_goal = False
        self._names = 0

    def add(self, formula: Formula, is_goal: bool) -> None:
        """Adds the clauses of a formula."""
        self._is_goal = is_goal
        for made in self._clauses(formula):
            self._keep(made)

    def _keep(self, made: _Made) -> None:
        literals = list(dict.fromkeys(made[0]))
        if any(Literal(not one.is_true, one.atom) in literals for one in literals if one.is_true):
            return
        literals = [one for one in literals if not self._is_false(one)]
        if any(self._is_false(Literal(not one.is_true, one.atom)) for one in literals):
            return
        numbers = sorted(made[1])
        renamed = {number: place for place, number in enumerate(numbers)}
        variables = [self.variables[number] for number in numbers]
        variables = [one._replace(number=renamed[one.number], outside=tuple(renamed[out] for out in one.outside)) for one in variables]
        self.clauses.append(Clause([Literal(one.is_true, _renamed(one.atom, renamed)) for one in literals], variables, self._is_goal))

    @staticmethod
    def _is_false(literal: Literal) -> bool:
        """Whether a literal is T denied, or F asserted, or `s = s` denied."""
        head = literal.atom[0].term if isinstance(literal.atom, tuple) else None
        if head == typed.TRUTH or head == typed.FALSITY:
            return literal.is_true == (head == typed.FALSITY)
        is_equation = head is not None and head[0] == "c" and head[1] == "="
        return is_equation and not literal.is_true and literal.atom[1] == literal.atom[2]

    def _clauses(self, formula: Formula) -> List[_Made]:
        """The clauses of a formula whose terms are variables."""
        found = sequents.shape(formula.is_left, formula.term)
        if found.kind == LITERAL:
            return [((Literal(formula.is_left, self.coded(formula.term)),), frozenset(term[1] for term in formula.terms))]
        if found.kind == ALPHA:
            return [made for part in sequents.parts(formula, found) for made in self._clauses(part)]
        if found.kind == BETA:
            left, right = (self._clauses(part) for part in sequents.parts(formula, found))
            return self._product(left, right, formula)
        if found.kind == GAMMA:
            variable = self._variable(formula, found.type)
            inner = Formula(formula.is_left, typed.opened(found.body, variable), formula.position + (0,), formula.terms + (variable,))
            return self._clauses(inner)
        return self._clauses(self._witnessed(formula, found))

    def _variable(self, formula: Formula, ty: Type) -> Term:
        number = len(self.variables)
        self.variables.append(Variable(number, formula.position, ty, tuple(term[1] for term in formula.terms)))
        return ("m", number, ty)

    def _witnessed(self, formula: Formula, found: sequents.Shape) -> Formula:
        """The body of a formula with a witness."""
        inside = {part for part in typed.subterms(formula.term) if part[0] == "m"}
        inside |= {part for one in typed.subterms(formula.term) if one[0] == "s" for part in one[2] if part[0] == "m"}
        kept = tuple(number for number, term in enumerate(formula.terms) if term in inside)
        self.witnesses[formula.position] = kept
        witness = ("s", formula.position, tuple(formula.terms[number] for number in kept), found.type)
        return Formula(formula.is_left, typed.opened(found.body, witness), formula.position + (0,), formula.terms)

    def _product(self, left: List[_Made], right: List[_Made], formula: Formula) -> List[_Made]:
        """The clauses of which each has one of both sides; a side of many clauses gets a name."""
        if len(left) * len(right) > MOST_CLAUSES and min(len(left), len(right)) > 1:
            self._names += 1
            ty = typed.BOOL
            for term in reversed(formula.terms):
                ty = typed.fun(term[2], ty)
            symbol = Symbol(None, ty, None, 0, "name%d" % self._names)
            variables = frozenset(term[1] for term in formula.terms)
            atom = (symbol,) + tuple(term[1] for term in formula.terms)
            for literals, numbers in right:
                self._keep(((Literal(False, atom),) + literals, numbers | variables))
            right = [((Literal(True, atom),), variables)]
        return [(one + other, numbers | more) for one, numbers in left for other, more in right]

    def coded(self, term: Term) -> Coded:
        """A term as the search has it."""
        arguments: List[Coded] = []
        while term[0] == "a":
            arguments.append(self.coded(term[2]))
            term = term[1]
        if term[0] == "m":
            found: Coded = term[1]
            for argument in reversed(arguments):
                found = (APPLY, found, argument)
            return found
        if term[0] == "s":
            symbol = self.symbol(("s", term[1]), None, term[3], term[1], len(term[2]))
            arguments += [self.coded(argument) for argument in reversed(term[2])]
        elif term[0] == "l":
            fillings: List[Term] = []
            skeleton = _with_holes(term, fillings)
            symbol = self.symbol(skeleton, skeleton, typed.type_of(term), None, len(fillings))
            arguments += [self.coded(filling) for filling in reversed(fillings)]
        else:
            symbol = self.symbol(term, term, term[2])
        return (symbol,) + tuple(reversed(arguments))

    def symbol(self, key: Any, term: Optional[Term], ty: Optional[Type], position: Optional[Position] = None, own: int = 0) -> Symbol:
        """The symbol of a key."""
        if key not in self.symbols:
            self.symbols[key] = Symbol(term, ty, position, own, str(key[1]))
        return self.symbols[key]


def _with_holes(term: Term, fillings: List[Term]) -> Term:
    """An abstraction with holes for the variables and witnesses of the search."""
    if term[0] in "ms":
        if term not in fillings:
            fillings.append(term)
        return ("h", fillings.index(term))
    if term[0] == "a":
        return ("a", _with_holes(term[1], fillings), _with_holes(term[2], fillings))
    return ("l", term[1], term[2], _with_holes(term[3], fillings)) if term[0] == "l" else term


def filled(term: Term, fillings: Sequence[Term]) -> Term:
    """An abstraction with terms for its holes."""
    if term[0] == "h":
        return fillings[term[1]]
    if term[0] == "a":
        return ("a", filled(term[1], fillings), filled(term[2], fillings))
    return ("l", term[1], term[2], filled(term[3], fillings)) if term[0] == "l" else term


def _renamed(atom: Coded, numbers: Dict[int, int]) -> Coded:
    if isinstance(atom, int):
        return numbers[atom]
    return (atom[0],) + tuple(_renamed(argument, numbers) for argument in atom[1:])
