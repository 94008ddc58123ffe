"""The calls of functions that are defined, with the conditions under which they are made; tuples."""

from __future__ import annotations

from typing import List, Mapping, NamedTuple, Optional, Sequence, Tuple

from holls.packages.terms import Term, Type, app, const, fun, neg, spine, typeof, var

OVER_LISTS = ("MAP", "ALL", "EX")
"""The constants that call a function on the elements of a list."""


class Call(NamedTuple):
    """A call: the function, its arguments (None where it stands with too few), conditions, bound variables; `over` where it is on a list's elements."""

    function: str
    arguments: Optional[List[Term]]
    conditions: Tuple[Term, ...]
    bound: Tuple[Term, ...]
    over: Optional[str] = None


def calls(term: Term, arities: Mapping[str, int], conditions: Tuple[Term, ...] = (), bound: Tuple[Term, ...] = ()) -> List[Call]:
    """The calls in a term, inner ones first."""
    head, arguments = spine(term)
    if head[0] == "v" and head[1] in arities and head[1] not in [one[1] for one in bound]:
        number = arities[head[1]]
        inner = [found for one in arguments for found in calls(one, arities, conditions, bound)]
        return inner + [Call(head[1], arguments[:number] if len(arguments) >= number else None, conditions, bound)]
    name = head[1] if head[0] == "c" else ""
    if name in OVER_LISTS and len(arguments) == 2 and arguments[0][0] == "v" and arities.get(arguments[0][1]) == 1:
        return [Call(arguments[0][1], [arguments[1]], conditions, bound, name)] + calls(arguments[1], arities, conditions, bound)
    parts: List[Tuple[Term, Tuple[Term, ...]]] = [(one, conditions) for one in arguments]
    if name == "COND" and len(arguments) >= 3:
        parts[1] = arguments[1], conditions + (arguments[0],)
        parts[2] = arguments[2], conditions + (neg(arguments[0]),)
    elif name in ("/\\", "==>", "\\/") and len(arguments) == 2:
        parts[1] = arguments[1], conditions + (neg(arguments[0]) if name == "\\/" else arguments[0],)
    inside = calls(head[3], arities, conditions, bound + (var(head[1], head[2]),)) if head[0] == "\\" else []
    return inside + [found for one, more in parts for found in calls(one, arities, more, bound)]


def tuple_term(terms: Sequence[Term]) -> Term:
    """A tuple, or the one term."""
    found = terms[-1]
    for one in reversed(terms[:-1]):
        both: Type = ("prod", typeof(one), typeof(found))
        found = app(const("pair", fun(typeof(one), typeof(found), both)), one, found)
    return found


def product_type(types: Sequence[Type]) -> Type:
    """The type of tuples, or the one type."""
    found = types[-1]
    for one in reversed(types[:-1]):
        found = ("prod", one, found)
    return found


def projected(at: int, number: int, term: Term) -> Term:
    """One of a tuple's so many parts."""
    for _ in range(at):
        type_ = typeof(term)
        term = app(const("SND", fun(type_, type_[2])), term)
    if at < number - 1:
        type_ = typeof(term)
        term = app(const("FST", fun(type_, type_[1])), term)
    return term
