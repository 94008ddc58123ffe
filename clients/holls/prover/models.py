"""Small finite models in which a goal of pure logic is false: type variables are sets of a few elements, and free variables any functions on these."""

from __future__ import annotations

import itertools
import random
from typing import Any, Callable, Dict, List, Optional, Sequence, Tuple

from holls.prover import clock, typed
from holls.prover.shown import Shown, stripped
from holls.prover.typed import BOOL, Term, Type

_SIZES = (1, 2, 2, 2, 3)
"""The numbers of elements that are tried, in turn."""
_MOST_VALUES = 81
"""A type with more values isn't gone through."""
_MOST_ROUNDS = 3_000
_SEED = 1

_Values = Dict[Term, Any]
_Function = Callable[[_Values, Tuple[Any, ...]], Any]


class _Unknown(Exception):
    """A term or type that has no value here."""


def countermodel(shown: Shown, until: float) -> Optional[List[Tuple[str, str]]]:
    """Type variables with their elements, and variables with their values, for which a goal's assumptions hold and what it shows doesn't.

    None where none is found, or the goal has a constant that isn't logical, or another type.
    """
    goal = stripped(shown.conclusion)
    for term in shown.assumptions:
        goal = typed.mk_imp(term, goal)
    variables = sorted(typed.variables(goal), key=lambda one: one[1])
    chance = random.Random(_SEED)
    kept: Dict[int, Tuple["_Types", _Function]] = {}
    try:
        for number in range(_MOST_ROUNDS):
            if clock.now() > until:
                return None
            size = _SIZES[number % len(_SIZES)]
            if size not in kept:
                types = _Types(size)
                kept[size] = types, _Compiler(types).compiled(goal, ())
            types, evaluate = kept[size]
            values = {one: types.some(one[2], chance) for one in variables}
            if not evaluate(values, ()):
                names = sorted(name for name in typed.term_types(goal) if not name.startswith("?"))
                elements = "{%s}" % ", ".join(map(str, range(size)))
                return [(name, elements) for name in names] + [(one[1], types.text(one[2], values[one])) for one in variables]
    except (_Unknown, RecursionError):
        pass
    return None


class _Types:
    """The values of types, where each type variable has so many elements. A function is the tuple of its values."""

    def __init__(self, size: int) -> None:
        self._size = size
        self._values: Dict[Type, List[Any]] = {}
        self._places: Dict[Type, Dict[Any, int]] = {}

    def values(self, ty: Type) -> List[Any]:
        """All values of a type."""
        if ty not in self._values:
            self._values[ty] = self._all(ty)
            self._places[ty] = {value: place for place, value in enumerate(self._values[ty])}
        return self._values[ty]

    def _all(self, ty: Type) -> List[Any]:
        if ty == BOOL:
            return [False, True]
        if isinstance(ty, str):
            return list(range(self._size))
        if ty[0] != "fun":
            raise _Unknown
        arguments, results = len(self.values(ty[1])), self.values(ty[2])
        if len(results) ** arguments > _MOST_VALUES:
            raise _Unknown
        return list(itertools.product(results, repeat=arguments))

    def place(self, ty: Type, value: Any) -> int:
        """The place of a value among those of its type."""
        self.values(ty)
        return self._places[ty][value]

    def some(self, ty: Type, chance: random.Random) -> Any:
        """A value of a type by chance; of functions it needs the arguments alone."""
        if isinstance(ty, tuple) and ty[0] == "fun":
            return tuple(self.some(ty[2], chance) for _ in self.values(ty[1]))
        return chance.choice(self.values(ty))

    def text(self, ty: Type, value: Any) -> str:
        """A value as it is said: of a predicate or relation what it holds of, of a function its values."""
        if ty == BOOL:
            return "T" if value else "F"
        if isinstance(ty, str):
            return str(value)
        rows, result = self._rows(ty, value)
        if result == BOOL:
            return "{%s}" % ", ".join(_tuple(arguments) for arguments, holds in rows if holds == "T")
        return "(%s)" % ", ".join("%s -> %s" % (_tuple(arguments), said) for arguments, said in rows)

    def _rows(self, ty: Type, value: Any) -> Tuple[List[Tuple[Tuple[str, ...], str]], Type]:
        """A function's values with their arguments, and the type of what it comes to at last."""
        if not isinstance(ty, tuple) or ty[0] != "fun":
            return [((), self.text(ty, value))], ty
        rows: List[Tuple[Tuple[str, ...], str]] = []
        result = ty
        for argument, part in zip(self.values(ty[1]), value):
            inner, result = self._rows(ty[2], part)
            rows += [((self.text(ty[1], argument),) + arguments, said) for arguments, said in inner]
        return rows, result


def _tuple(arguments: Sequence[str]) -> str:
    return arguments[0] if len(arguments) == 1 else "(%s)" % ", ".join(arguments)


class _Compiler:
    """Makes functions that evaluate terms."""

    def __init__(self, types: _Types) -> None:
        self._types = types

    def compiled(self, term: Term, bound: Tuple[Type, ...]) -> _Function:
        """What evaluates a term below binders of some types, the innermost first."""
        sides, inner = typed.binary(term), typed.negated(term)
        if sides:
            return self._infix(sides[0], self.compiled(sides[1], bound), self.compiled(sides[2], bound))
        if inner is not None:
            own = self.compiled(inner, bound)
            return lambda values, outer: not own(values, outer)
        if term[0] == "a":
            return self._applied(term, bound)
        if term[0] == "l":
            every, body = self._types.values(term[2]), self.compiled(term[3], (term[2],) + bound)
            return lambda values, outer: tuple([body(values, (value,) + outer) for value in every])
        if term[0] == "b":
            place = term[1]
            return lambda values, outer: outer[place]
        if term[0] == "v":
            return lambda values, outer: values[term]
        if term in (typed.TRUTH, typed.FALSITY):
            is_true = term == typed.TRUTH
            return lambda values, outer: is_true
        raise _Unknown

    def _applied(self, term: Term, bound: Tuple[Type, ...]) -> _Function:
        """What evaluates a quantified formula, or an application."""
        head = term[1]
        if head[0] == "c" and head[1] in ("!", "?", "?!"):
            own, name = self.compiled(term[2], bound), head[1]
            if name == "!":
                return lambda values, outer: all(own(values, outer))
            return (lambda values, outer: any(own(values, outer))) if name == "?" else lambda values, outer: sum(own(values, outer)) == 1
        ty = typed.type_of(term[2], bound)
        function, argument, types = self.compiled(head, bound), self.compiled(term[2], bound), self._types
        types.values(ty)
        if isinstance(ty, str) or ty == BOOL:
            return lambda values, outer: function(values, outer)[argument(values, outer)]
        return lambda values, outer: function(values, outer)[types.place(ty, argument(values, outer))]

    @staticmethod
    def _infix(name: str, left: _Function, right: _Function) -> _Function:
        if name == "/\\":
            return lambda values, outer: left(values, outer) and right(values, outer)
        if name == "\\/":
            return lambda values, outer: left(values, outer) or right(values, outer)
        if name == "==>":
            return lambda values, outer: not left(values, outer) or right(values, outer)
        return lambda values, outer: left(values, outer) == right(values, outer)
