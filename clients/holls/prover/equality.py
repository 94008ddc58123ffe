"""The axioms of equality for the search of instances, at the symbols and types that its clauses have."""

from __future__ import annotations

from typing import Dict, List, Optional, Tuple

from holls.prover import typed
from holls.prover.clauses import APPLY, Builder, Clause, Coded, Literal, Symbol, Variable
from holls.prover.typed import BOOL, Type

NOWHERE = (-1,)
"""The position of an axiom's variables: no formula has them."""


def axioms(builder: Builder) -> List[Clause]:
    """That equality is one, at each type at which there are equations, and that equals may stand for one another in each symbol."""
    equalities = {symbol.type[1]: symbol for symbol in builder.symbols.values() if _is_equality(symbol)}
    made: List[Clause] = []
    for ty, symbol in equalities.items():
        made += _of_type(symbol, ty)
    for symbol, number, is_atom in _used(builder):
        made += _congruence(symbol, number, is_atom, equalities)
    return made


def _is_equality(symbol: Symbol) -> bool:
    return symbol.term is not None and symbol.term[0] == "c" and symbol.term[1] == "=" and symbol.type[1] != BOOL


def _clause(types: List[Type], *literals: Tuple[bool, Coded]) -> Clause:
    variables = [Variable(number, NOWHERE + (number,), ty, ()) for number, ty in enumerate(types)]
    return Clause([Literal(is_true, atom) for is_true, atom in literals], variables, False)


def _of_type(symbol: Symbol, ty: Type) -> List[Clause]:
    return [
        _clause([ty], (True, (symbol, 0, 0))),
        _clause([ty, ty], (False, (symbol, 0, 1)), (True, (symbol, 1, 0))),
        _clause([ty, ty, ty], (False, (symbol, 0, 1)), (False, (symbol, 1, 2)), (True, (symbol, 0, 2)))]


def _used(builder: Builder) -> List[Tuple[Symbol, int, bool]]:
    """The symbols that are applied, with the numbers of their arguments, and whether they begin an atom; but for names of formulas, which no
    equation changes."""
    found: Dict[Tuple[Symbol, int, bool], None] = {}
    waiting: List[Tuple[Coded, bool]] = [(literal.atom, True) for clause in builder.clauses for literal in clause.literals]
    while waiting:
        term, is_atom = waiting.pop()
        if isinstance(term, int):
            continue
        is_named = term[0] is not APPLY and term[0].term is None and term[0].position is None
        if term[0] is not APPLY and not is_named and len(term) - 1 > term[0].own and not _is_equality(term[0]):
            found[(term[0], len(term) - 1, is_atom)] = None
        waiting += [(argument, False) for argument in term[1:]]
    return list(found)


def _congruence(symbol: Symbol, number: int, is_atom: bool, equalities: Dict[Type, Symbol]) -> List[Clause]:
    """For each argument of a type with equations: equals there make equals, or an atom that holds."""
    types: List[Optional[Type]] = [None] * symbol.own
    ty = symbol.type
    for _ in range(number - symbol.own):
        types.append(ty[1])
        ty = ty[2]
    made: List[Clause] = []
    if symbol.own or not is_atom and ty not in equalities:
        return made
    for at, own in enumerate(types):
        if own not in equalities:
            continue
        left = (symbol,) + tuple(range(number))
        right = (symbol,) + tuple(number if place == at else place for place in range(number))
        equal = (False, (equalities[own], at, number))
        if is_atom:
            made.append(_clause(types + [own], equal, (False, left), (True, right)))
        else:
            made.append(_clause(types + [own], equal, (True, (equalities[ty], left, right))))
    return made
