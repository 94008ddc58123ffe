"""Which types a quotation has to say: what of a term's types stays open where its text says none, by the places that may say one."""

from __future__ import annotations

from typing import Any, Dict, FrozenSet, Iterable, List

from holls.prover import typed
from holls.prover.reading import Signature, Types, Unreadable
from holls.prover.typed import BOOL, Term, Type, fun

CONSTANT, BINDER = 0, 1
"""Places that may have a type beside free variables, which are kept where they can be: those of constants are left out first."""
BINDERS = ("!", "?", "?!", "@")

Point = Any
"""A free variable's name, or a place: its kind, and its number in the order in which the term is written."""


def needed(term: Term, signature: Signature) -> FrozenSet[Point]:
    """The points at which a term's text has to say types, so that it reads as the term: variables alone where that is enough, and the last ones of these
    where some are; one without which the others are enough is left out."""
    left = _Inference(signature).left(term)
    every = _said(left, left)
    names = [point for point in left if isinstance(point, str)]
    places = sorted((point for point in left if not isinstance(point, str)), key=lambda point: (point[0], point[0] * -point[1]))
    if _said(names, left) == every:
        places = []
    chosen = frozenset(names) | frozenset(places)
    for point in places + names[::-1]:
        if _said(chosen - {point}, left) == every:
            chosen -= {point}
    return chosen


def _said(points: Iterable[Point], left: Dict[Point, FrozenSet[int]]) -> FrozenSet[int]:
    """What is known where some points say their types."""
    return frozenset().union(*(left[point] for point in points))


class _Inference:
    """Finds the most general types of a term's text that says none, with its places numbered as they are written."""

    def __init__(self, signature: Signature) -> None:
        self._signature, self._types = signature, Types()
        self._points: Dict[Point, Type] = {}
        self._places = 0

    def left(self, term: Term) -> Dict[Point, FrozenSet[int]]:
        """What is left open of the types of each point."""
        self._type(term, [])
        return {point: self._types.open(ty) for point, ty in self._points.items()}

    def _place(self, kind: int, ty: Type) -> Type:
        self._places += 1
        self._points[(kind, self._places)] = ty
        return ty

    def _type(self, term: Term, bound: List[Type]) -> Type:
        found = typed.binary(term)
        if found:
            left, right = self._type(found[1], bound), self._type(found[2], bound)
            self._types.unify(left, right)
            if found[0] != "=":
                self._types.unify(left, BOOL)
            return BOOL
        if term[0] == "l" or term[0] == "a" and term[1][0] == "c" and term[1][1] in BINDERS and term[2][0] == "l":
            return self._bound(term, bound)
        if typed.negated(term) is not None:
            self._types.unify(self._type(term[2], bound), BOOL)
            return BOOL
        if term[0] == "a":
            function, argument, result = self._type(term[1], bound), self._type(term[2], bound), self._types.new()
            self._types.unify(function, fun(argument, result))
            return result
        return self._atom(term, bound)

    def _atom(self, term: Term, bound: List[Type]) -> Type:
        if term[0] == "s":
            raise Unreadable("a witness without a name")
        if term[0] == "b":
            return bound[-1 - term[1]]
        if term[0] == "c":
            return self._place(CONSTANT, self._types.fresh(self._signature.constants[term[1]], {}))
        if term[1] not in self._points:
            self._points[term[1]] = self._types.new()
        return self._points[term[1]]

    def _bound(self, term: Term, bound: List[Type]) -> Type:
        """The type of an abstraction, or of a binder with its abstraction."""
        kind, inner = ("\\", term) if term[0] == "l" else (term[1][1], term[2])
        variable = self._place(BINDER, self._types.new())
        body = self._type(inner[3], bound + [variable])
        if kind == "\\":
            return fun(variable, body)
        self._types.unify(body, BOOL)
        return variable if kind == "@" else BOOL
