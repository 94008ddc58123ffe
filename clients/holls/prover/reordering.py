"""Equations that hold by the order of operands: of operators whose laws of commutation and association stand or are assumed. A law that would swap for
ever is put in at the operands alone that stand in the wrong order, so that rewriting ends in one order."""

from __future__ import annotations

from typing import Callable, Dict, Iterator, List, NamedTuple, Optional, Sequence, Tuple

from holls.prover import patterns, typed
from holls.prover.knowledge import Knowledge
from holls.prover.patterns import LEFT, PREMISE, SPEC, Binding, Pattern
from holls.prover.shown import Shown
from holls.prover.typed import Term
from holls.prover.writing import Unwritable

_MOST_OPERANDS = 9
_CONNECTIVES = frozenset(("/\\", "\\/", "==>", "="))

Made = Callable[[Pattern, Binding], Optional[str]]
"""A law's expression at what is bound."""


class Law(NamedTuple):
    """An equation without premises that holds of all terms, and what writes it at some."""

    pattern: Pattern
    write: Made

    def at(self, equation: Term) -> Optional[str]:
        """The theorem that is an equation; None where the law doesn't say it."""
        binding = Binding()
        return self.write(self.pattern, binding) if binding.match(self.pattern.conclusion, equation) else None


class Operator(NamedTuple):
    """An operator with its laws; `is_inward` where that of association has `f (f x y) z` on its left side."""

    function: Term
    commuting: Law
    associating: Law
    is_inward: bool


class Reordering:
    """Steps for a goal that holds by the order of operands."""

    def __init__(self, knowledge: Knowledge, shown: Shown) -> None:
        self._known, self._shown, self._quoter = knowledge, shown, knowledge.quoter
        self._operators: Dict[Term, Optional[Operator]] = {}
        self._pairs: Dict[Tuple[Term, Term, Term], None] = {}
        self._is_large = False

    def steps(self) -> Optional[List[str]]:
        """The texts of `e` commands; None where the sides of the goal aren't one by their order."""
        sides = typed.binary(self._shown.conclusion)
        if not sides or sides[0] not in ("=", "<=>") or self._ordered(sides[1]) != self._ordered(sides[2]) or self._is_large:
            return None
        used = [one for one in self._operators.values() if one is not None]
        try:
            return self._written(used) if used and self._pairs else None
        except Unwritable:
            return None

    # ---- Terms in order

    def _ordered(self, term: Term) -> Term:
        """A term with its operands in order."""
        if term[0] != "a":
            return term
        operator = self._operator(term)
        if operator is None:
            return ("a", self._ordered(term[1]), self._ordered(term[2]))
        function = operator.function
        operands = sorted((self._ordered(one) for one in _operands(term, function)), key=_key)
        self._is_large = self._is_large or len(operands) > _MOST_OPERANDS
        found = operands[-1]
        for one in reversed(operands[:-1]):
            found = typed.apply(function, one, found)
        distinct = list(dict.fromkeys(operands))[:_MOST_OPERANDS]
        self._pairs.update(((function, one, other), None) for at, one in enumerate(distinct) for other in distinct[at + 1:])
        return found

    def _operator(self, term: Term) -> Optional[Operator]:
        """The operator of a term, where it has one with laws."""
        if term[1][0] != "a" or typed.has_loose(term) or typed.type_of(term) != typed.type_of(term[2]):
            return None
        function = term[1][1]
        if function[0] not in "cv" or function[1] in _CONNECTIVES or typed.type_of(term[1][2]) != typed.type_of(term):
            return None
        if function not in self._operators:
            self._operators[function] = self._found(function, typed.type_of(term))
        return self._operators[function]

    def _found(self, function: Term, ty: typed.Type) -> Optional[Operator]:
        x, y, z = (("v", name, ty) for name in self._fresh())
        inner, outer = typed.apply(function, typed.apply(function, x, y), z), typed.apply(function, x, typed.apply(function, y, z))
        commuting = self._law(typed.mk_eq(typed.apply(function, x, y), typed.apply(function, y, x)))
        inward, outward = self._law(typed.mk_eq(inner, outer)), self._law(typed.mk_eq(outer, inner))
        associating = inward or outward
        return Operator(function, commuting, associating, inward is not None) if commuting and associating else None

    def _fresh(self) -> List[str]:
        """Three names that nothing in the goal has."""
        taken = set(self._shown.free) | self._known.constants
        return [next(name for name in (letter + "'" * number for number in range(100)) if name not in taken) for letter in "xyz"]

    def _law(self, equation: Term) -> Optional[Law]:
        """A law that says an equation of variables."""
        every = ((pattern, write) for pattern, write in self._laws(patterns.head(typed.binary(equation)[1])) if not pattern.premises)
        return next((Law(pattern, write) for pattern, write in every if Binding().match(pattern.conclusion, equation)), None)

    def _laws(self, head: Optional[str]) -> Iterator[Tuple[Pattern, Made]]:
        """The equations that are assumed, and those of a constant that stand."""
        for term in self._shown.assumptions:
            for pattern in patterns.patterns(term):
                if any(kind == SPEC for kind, _ in pattern.path):
                    yield pattern, lambda pattern, binding, term=term: self._assumed(term, pattern, binding)
        exact = self._known.exact
        for name, pattern in self._known.orders.get(head or "", ()):
            yield pattern, lambda pattern, binding, name=name: exact.expression(name, pattern, binding, ())

    def _assumed(self, term: Term, pattern: Pattern, binding: Binding) -> Optional[str]:
        """An assumption at what is bound."""
        made = "(ASSUME %s)" % self._quoter.quote(term)
        for kind, given in pattern.path:
            if kind == PREMISE:
                return None
            made = "(SPEC %s %s)" % (self._quoter.quote(binding.terms[given[1]]), made) if kind == SPEC else "(%s %s)" % (
                "CONJUNCT1" if kind == LEFT else "CONJUNCT2", made)
        return made

    # ---- Steps

    def _written(self, used: Sequence[Operator]) -> Optional[List[str]]:
        made: List[str] = []
        rules: List[Optional[str]] = []
        assumed: List[Tuple[Optional[str], Term]] = []
        for one in used:
            ty = typed.type_of(one.function)[1]
            x, y, z = (("v", name, ty) for name in self._fresh())
            inner = typed.apply(one.function, typed.apply(one.function, x, y), z)
            outer = typed.apply(one.function, x, typed.apply(one.function, y, z))
            law = one.associating.at(typed.mk_eq(inner, outer) if one.is_inward else typed.mk_eq(outer, inner))
            turned = None if law is None else "(SYM %s)" % law
            inward, outward = (law, turned) if one.is_inward else (turned, law)
            exchanged = typed.mk_eq(outer, typed.apply(one.function, y, typed.apply(one.function, x, z)))
            general = typed.mk_forall(x, typed.mk_forall(y, typed.mk_forall(z, exchanged)))
            swapped = one.commuting.at(typed.mk_eq(typed.apply(one.function, x, y), typed.apply(one.function, y, x)))
            if law is None or swapped is None:
                return None
            made += ["e SUBGOAL_THEN %s ASSUME_TAC" % self._quoter.quote(general),
                     "e %s THEN PURE_REWRITE_TAC [%s] THEN AP_THM_TAC THEN AP_TERM_TAC THEN ACCEPT_TAC %s" % (
                         " THEN ".join("X_GEN_TAC " + self._quoter.quote(variable) for variable in (x, y, z)), _bare(outward), swapped)]
            rules.append(inward)
            for function, small, large in self._pairs:
                if function == one.function:
                    swap = typed.mk_eq(typed.apply(function, large, small), typed.apply(function, small, large))
                    later = typed.mk_eq(typed.apply(function, large, typed.apply(function, small, z)),
                                        typed.apply(function, small, typed.apply(function, large, z)))
                    assumed.append((one.commuting.at(swap), swap))
                    assumed.append(("(SPEC %s (SPEC %s (ASSUME %s)))" % tuple(map(self._quoter.quote, (small, large, general))),
                                    typed.mk_forall(z, later)))
        if None in rules or any(theorem is None for theorem, _ in assumed):
            return None
        made += ["e " + " THEN ".join("ASSUME_TAC " + theorem for theorem, _ in assumed)]
        fixed = ["ASSUME %s" % self._quoter.quote(said) for _, said in assumed]  # At an assumption's variables alone, so that it swaps nothing else.
        return made + ["e REWRITE_TAC [%s]" % "; ".join([*map(_bare, rules), *fixed])]


def _operands(term: Term, function: Term) -> List[Term]:
    """The operands of an operator, however they are grouped."""
    if term[0] == "a" and term[1][0] == "a" and term[1][1] == function:
        return _operands(term[1][2], function) + _operands(term[2], function)
    return [term]


def _key(term: Term) -> Tuple[int, str]:
    return typed.size(term), str(term)


def _bare(theorem: str) -> str:
    """A theorem's expression as it stands in a list."""
    return theorem[1:-1] if theorem.startswith("(") else theorem
