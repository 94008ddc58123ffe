"""Matching of the first order: which terms and types make a term of a pattern."""

from __future__ import annotations

from typing import AbstractSet, Dict, Optional

from holls.packages.terms import Term, Type, names, same, tymatch, typeof


def matched(pattern: Term, term: Term, variables: AbstractSet[str], to: Dict[str, Term], types: Dict[str, Type],
            bound: Optional[Dict[str, str]] = None) -> bool:
    """Whether a term is an instance of a pattern at its variables; `to` and `types` then make it so. No variable takes a term with a bound name."""
    bound = bound or {}
    kind = pattern[0]
    if kind == "v" and pattern[1] in variables and pattern[1] not in bound:
        if tymatch(pattern[2], typeof(term), types) is None or bound and names(term) & set(bound.values()):
            return False
        return same(to.setdefault(pattern[1], term), term)
    if kind != term[0]:
        return False
    if kind == "@":
        return all(matched(pattern[at], term[at], variables, to, types, bound) for at in (1, 2))
    if kind == "\\":
        return tymatch(pattern[2], term[2], types) is not None and matched(
            pattern[3], term[3], variables, to, types, {**bound, pattern[1]: term[1]})
    if bound.get(pattern[1], pattern[1]) != term[1] or kind == "v" and pattern[1] not in bound and term[1] in bound.values():
        return False
    return tymatch(pattern[2], term[2], types) is not None
