"""Numerals and sums with them as towers of SUC, by which patterns are compared."""

from __future__ import annotations

from typing import Optional, Tuple

from holls.packages.terms import NUM, Term, app, const, fun, spine

ZERO, SUC = const("_0", NUM), const("SUC", fun(NUM, NUM))
RULES = ("ONE", "BIT1_DEF", "BIT0_CLAUSES", "ADD_CLAUSES")
"""The theorems that make towers of numerals."""
MOST = 20
"""The greatest numeral that is a pattern."""
_MOST_TOWER = 200


def is_constant(term: Term, name: str) -> bool:
    """Whether a term is a constant of this name."""
    return term[0] == "c" and term[1] == name


def literal(term: Term) -> Optional[int]:
    """The number that a numeral is, or a tower of SUC over one; else None."""
    digits = []
    while term[0] == "@" and term[1][0] == "c" and term[1][1] in ("SUC", "BIT0", "BIT1"):
        digits.append(term[1][1])
        term = term[2]
    if term[0] != "c" or term[1] not in ("_0", "_1"):
        return None
    value = int(term[1][1])
    for one in reversed(digits):
        value = value + 1 if one == "SUC" else 2 * value + (one == "BIT1")
    return value


def tower(number: int, term: Term) -> Term:
    """So many SUCs of a term."""
    for _ in range(number):
        term = app(SUC, term)
    return term


def norm(term: Term) -> Term:
    """The term with towers for numerals, up to a size, and for sums with them."""
    number = literal(term)
    if number is not None:
        return tower(number, ZERO) if number <= _MOST_TOWER else term
    head, arguments = spine(term)
    if is_constant(head, "add") and len(arguments) == 2:
        for one, other in (arguments, arguments[::-1]):
            number = literal(other)
            if number is not None and number <= _MOST_TOWER:
                return tower(number, norm(one))
    if term[0] == "@":
        return ("@", norm(term[1]), norm(term[2]))
    return ("\\", term[1], term[2], norm(term[3])) if term[0] == "\\" else term


def of_numeral(term: Term) -> Optional[Tuple[int, Optional[Term]]]:
    """A number, or what a tower of SUC adds to a term; None where the term is neither."""
    number = literal(term)
    if number is not None:
        return number, None
    count = 0
    while term[0] == "@" and is_constant(term[1], "SUC"):
        count, term = count + 1, term[2]
    return (count, term) if count else None
