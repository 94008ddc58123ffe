"""The types of a goal's terms, which aren't shown: where its text leaves some open, they are those of the formula of the statement that it is of.

A goal is shown with the types of its free variables, and those of bound variables are what inference finds; the statement that is being proved
may have said more. The terms of a proof's goals are mostly parts of its statement, with other terms for bound variables.
"""

from __future__ import annotations

from typing import Dict, Iterable, Iterator, List, Tuple

from holls.prover import typed
from holls.prover.typed import Term, Type

OPEN = "??"
"""What the name of a type begins with that a goal's text leaves open."""

_Bound = Tuple[Type, ...]


def resolved(term: Term, statement: Term) -> Term:
    """A term with the types of the first part of a statement of which it may be an instance."""
    if not _is_open(term):
        return term
    for part, bound in _parts(statement, ()):
        types: Dict[str, Type] = {}
        if part[0] == "a" and _fits(term, part, (), 0, bound, types):
            found = typed.inst_type(term, types)
            if not _is_open(found):
                return found
    return term


def left_open(terms: Iterable[Term]) -> List[str]:
    """Variables whose types would say all types that terms leave open: for each such type one of just this type, where there is one."""
    bound = [(str(part[1]), part[2]) for term in terms for part in typed.subterms(term) if part[0] in "lv"]
    found: Dict[str, str] = {}
    for is_just in (True, False):
        for name, ty in bound:
            for other in sorted(typed.type_variables(ty)):
                if other.startswith("?") and (ty == other or not is_just):
                    found.setdefault(other, name)
    return sorted(set(found.values()))


def _is_open(term: Term) -> bool:
    return any(name.startswith(OPEN) for name in typed.term_types(term))


def _parts(term: Term, bound: _Bound) -> Iterator[Tuple[Term, _Bound]]:
    """The parts of a term, each with the types of the binders outside of it, the innermost first."""
    yield term, bound
    if term[0] == "a":
        yield from _parts(term[1], bound)
        yield from _parts(term[2], bound)
    elif term[0] == "l":
        yield from _parts(term[3], (term[2],) + bound)


def _fits(term: Term, part: Term, own: _Bound, depth: int, bound: _Bound, types: Dict[str, Type]) -> bool:
    """Whether a term is a part of a statement with some terms for what is bound outside of the part. `own` are the types of the term's binders."""
    if part[0] == "b" and part[1] >= depth:
        return _match(typed.type_of(term, own), bound[part[1] - depth], types)
    if term[0] != part[0]:
        return False
    if term[0] == "a":
        return _fits(term[1], part[1], own, depth, bound, types) and _fits(term[2], part[2], own, depth, bound, types)
    if term[0] == "l":
        return _match(term[2], part[2], types) and _fits(term[3], part[3], (term[2],) + own, depth + 1, bound, types)
    return term[1] == part[1] and (term[0] == "b" or _match(term[2], part[2], types))


def _match(ty: Type, wanted: Type, types: Dict[str, Type]) -> bool:
    """Whether a type is another one, with types for what is open in it."""
    if isinstance(ty, str):
        return types.setdefault(ty, wanted) == wanted if ty.startswith(OPEN) else ty == wanted
    if not isinstance(wanted, tuple) or ty[0] != wanted[0] or len(ty) != len(wanted):
        return False
    return all(_match(one, other, types) for one, other in zip(ty[1:], wanted[1:]))
