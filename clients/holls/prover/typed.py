"""Terms with their types, as tuples.

A type is a type variable, as a string, or a tuple of a constructor's name and its arguments; while types are inferred a number stands for one
that isn't known yet. A term is ("v", name, type), ("c", name, type), ("a", function, argument), ("l", name, type, body), or ("b", number), a bound
variable counted from its binder. The search adds ("s", position, arguments, type), what a witness is called before it has a variable of its own.
"""

from __future__ import annotations

from typing import Any, Dict, FrozenSet, Iterator, List, Optional, Tuple

Type = Any
Term = Any

BOOL: Type = ("bool",)
BINARY = frozenset(("/\\", "\\/", "==>", "="))


class Hint(str):
    """A bound variable's name, in which terms don't differ."""

    __slots__ = ()

    def __eq__(self, other: object) -> bool:
        return True

    def __ne__(self, other: object) -> bool:
        return False

    def __hash__(self) -> int:
        return 0


def fun(argument: Type, result: Type) -> Type:
    """The type of functions."""
    return ("fun", argument, result)


def apply(function: Term, *arguments: Term) -> Term:
    """A function applied to arguments."""
    for argument in arguments:
        function = ("a", function, argument)
    return function


def spine(term: Term) -> Tuple[Term, List[Term]]:
    """What a term applies, and to what."""
    arguments: List[Term] = []
    while term[0] == "a":
        arguments.append(term[2])
        term = term[1]
    return term, arguments[::-1]


def abstract(variable: Term, body: Term) -> Term:
    """The abstraction of a variable."""
    return ("l", Hint(variable[1]), variable[2], _bound(body, variable, 0))


def _bound(term: Term, variable: Term, depth: int) -> Term:
    if term[0] == "a":
        return ("a", _bound(term[1], variable, depth), _bound(term[2], variable, depth))
    if term[0] == "l":
        return ("l", term[1], term[2], _bound(term[3], variable, depth + 1))
    return ("b", depth) if term == variable else term


def opened(body: Term, term: Term, depth: int = 0) -> Term:
    """A body with a term for what its binder binds. The term has no bound variable of an outer binder."""
    if body[0] == "b":
        return term if body[1] == depth else ("b", body[1] - 1) if body[1] > depth else body
    if body[0] == "a":
        function, argument = opened(body[1], term, depth), opened(body[2], term, depth)
        return body if function is body[1] and argument is body[2] else ("a", function, argument)
    if body[0] == "l":
        inner = opened(body[3], term, depth + 1)
        return body if inner is body[3] else ("l", body[1], body[2], inner)
    return body


def has_loose(term: Term, depth: int = 0) -> bool:
    """Whether a bound variable's binder stands outside of a term."""
    if term[0] == "b":
        return term[1] >= depth
    if term[0] == "a":
        return has_loose(term[1], depth) or has_loose(term[2], depth)
    return term[0] == "l" and has_loose(term[3], depth + 1)


def type_of(term: Term, bound: Tuple[Type, ...] = ()) -> Type:
    """A term's type, under binders of some types, the innermost first."""
    kind = term[0]
    if kind == "a":
        function = type_of(term[1], bound)
        return function[2]
    if kind == "l":
        return fun(term[2], type_of(term[3], (term[2],) + bound))
    if kind == "b":
        return bound[term[1]]
    return term[3] if kind == "s" else term[2]


def binary(term: Term) -> Optional[Tuple[str, Term, Term]]:
    """An infix's name and its sides; `=` at `bool` is `<=>`."""
    if term[0] == "a" and term[1][0] == "a" and term[1][1][0] == "c" and term[1][1][1] in BINARY:
        constant = term[1][1]
        name = "<=>" if constant[1] == "=" and constant[2][1] == BOOL else constant[1]
        return name, term[1][2], term[2]
    return None


def quantified(term: Term) -> Optional[Tuple[str, str, Type, Term]]:
    """A quantifier, the bound variable's name and type, and the body."""
    if term[0] == "a" and term[1][0] == "c" and term[1][1] in ("!", "?") and term[2][0] == "l":
        return term[1][1], term[2][1], term[2][2], term[2][3]
    return None


def negated(term: Term) -> Optional[Term]:
    """p of a term ~p."""
    return term[2] if term[0] == "a" and term[1][0] == "c" and term[1][1] == "~" else None


def is_equation(term: Term) -> bool:
    """Whether a term is an equation between what isn't `bool`."""
    found = binary(term)
    return found is not None and found[0] == "="


def _connective(name: str) -> Term:
    return ("c", name, fun(BOOL, fun(BOOL, BOOL)))


def mk_not(term: Term) -> Term:
    """A term ~p."""
    return ("a", ("c", "~", fun(BOOL, BOOL)), term)


def mk_imp(left: Term, right: Term) -> Term:
    """A term p ==> q."""
    return apply(_connective("==>"), left, right)


def mk_or(left: Term, right: Term) -> Term:
    """A term p \\/ q."""
    return apply(_connective("\\/"), left, right)


def mk_eq(left: Term, right: Term) -> Term:
    """An equation."""
    ty = type_of(left)
    return apply(("c", "=", fun(ty, fun(ty, BOOL))), left, right)


def mk_forall(variable: Term, body: Term) -> Term:
    """A formula for all values of a variable."""
    return ("a", ("c", "!", fun(fun(variable[2], BOOL), BOOL)), abstract(variable, body))


def mk_exists(body: Term) -> Term:
    """A formula for some value, by an abstraction."""
    return ("a", ("c", "?", fun(fun(body[2], BOOL), BOOL)), body)


TRUTH: Term = ("c", "T", BOOL)
FALSITY: Term = ("c", "F", BOOL)


def subterms(term: Term) -> Iterator[Term]:
    """A term and its parts, with bound variables as they stand there."""
    waiting = [term]
    while waiting:
        part = waiting.pop()
        yield part
        if part[0] == "a":
            waiting += [part[2], part[1]]
        elif part[0] == "l":
            waiting.append(part[3])
        elif part[0] == "s":
            waiting += part[2]


def variables(term: Term) -> FrozenSet[Term]:
    """The free variables."""
    return frozenset(part for part in subterms(term) if part[0] == "v")


def constants(term: Term) -> FrozenSet[Term]:
    """The constants, with their types."""
    return frozenset(part for part in subterms(term) if part[0] == "c")


def size(term: Term) -> int:
    """How many names a term has."""
    return sum(part[0] not in "al" for part in subterms(term))


def replaced(term: Term, old: Term, new: Term) -> Term:
    """A term with a term for each part that is another one; neither has a bound variable of an outer binder."""
    if term == old:
        return new
    if term[0] == "a":
        function, argument = replaced(term[1], old, new), replaced(term[2], old, new)
        return term if function is term[1] and argument is term[2] else ("a", function, argument)
    if term[0] == "l":
        body = replaced(term[3], old, new)
        return term if body is term[3] else ("l", term[1], term[2], body)
    return term


MOST_REDUCTIONS = 200


def reduced(term: Term) -> Term:
    """A term in which no abstraction is applied, if it comes to that soon."""
    for _ in range(MOST_REDUCTIONS):
        smaller = _reduced_once(term)
        if smaller is term:
            break
        term = smaller
    return term


def _reduced_once(term: Term) -> Term:
    if term[0] == "a":
        if term[1][0] == "l":
            return opened(term[1][3], term[2]) if not has_loose(term[2]) else _opened_inside(term)
        function, argument = _reduced_once(term[1]), _reduced_once(term[2])
        return term if function is term[1] and argument is term[2] else ("a", function, argument)
    if term[0] == "l":
        body = _reduced_once(term[3])
        return term if body is term[3] else ("l", term[1], term[2], body)
    return term


def _opened_inside(redex: Term) -> Term:
    """A redex reduced, whose argument has variables that are bound outside."""
    def put(body: Term, depth: int) -> Term:
        if body[0] == "b":
            return lifted(redex[2], depth) if body[1] == depth else ("b", body[1] - 1) if body[1] > depth else body
        if body[0] == "a":
            return ("a", put(body[1], depth), put(body[2], depth))
        return ("l", body[1], body[2], put(body[3], depth + 1)) if body[0] == "l" else body

    return put(redex[1][3], 0)


def lifted(term: Term, by: int, depth: int = 0) -> Term:
    """A term under so many more binders."""
    if term[0] == "b":
        return ("b", term[1] + by) if term[1] >= depth else term
    if term[0] == "a":
        return ("a", lifted(term[1], by, depth), lifted(term[2], by, depth))
    return ("l", term[1], term[2], lifted(term[3], by, depth + 1)) if term[0] == "l" else term


# Types

def type_variables(ty: Type) -> FrozenSet[str]:
    """The type variables of a type."""
    if isinstance(ty, tuple):
        return frozenset().union(*map(type_variables, ty[1:]))
    return frozenset((ty,)) if isinstance(ty, str) else frozenset()


def term_types(term: Term) -> FrozenSet[str]:
    """The type variables of a term."""
    kinds = [part[2] for part in subterms(term) if part[0] in "vcl"]
    return frozenset().union(*map(type_variables, kinds))


def instantiated(ty: Type, types: Dict[str, Type]) -> Type:
    """A type with types for its type variables."""
    if isinstance(ty, tuple):
        return (ty[0],) + tuple(instantiated(part, types) for part in ty[1:]) if len(ty) > 1 else ty
    return types.get(ty, ty)


def inst_type(term: Term, types: Dict[str, Type]) -> Term:
    """A term with types for its type variables."""
    kind = term[0]
    if kind in "vc":
        return (kind, term[1], instantiated(term[2], types))
    if kind == "a":
        return ("a", inst_type(term[1], types), inst_type(term[2], types))
    if kind == "l":
        return ("l", term[1], instantiated(term[2], types), inst_type(term[3], types))
    return term


def match_type(pattern: Type, ty: Type, types: Dict[str, Type]) -> bool:
    """Whether a type is an instance of another one; `types` takes what its type variables become."""
    if isinstance(pattern, str):
        return types.setdefault(pattern, ty) == ty
    if not isinstance(ty, tuple) or pattern[0] != ty[0] or len(pattern) != len(ty):
        return False
    return all(match_type(one, other, types) for one, other in zip(pattern[1:], ty[1:]))
