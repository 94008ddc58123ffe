"""Numbers as terms: binary numerals from a leading `_1` on, and towers of SUC."""

from __future__ import annotations

from typing import Dict, Optional

from holls.prover import typed
from holls.prover.typed import Term, Type, fun

NUM: Type = ("num",)
ZERO: Term = ("c", "_0", NUM)
SUC: Term = ("c", "SUC", fun(NUM, NUM))
_BASES: Dict[str, int] = {"_0": 0, "_1": 1}
_BITS: Dict[str, int] = {"BIT0": 0, "BIT1": 1}
MOST = 1_000
"""No larger number is written as a tower."""


def constant(name: str, places: int = 2, result: Type = NUM) -> Term:
    """A constant of numbers with so many arguments."""
    ty = result
    for _ in range(places):
        ty = fun(NUM, ty)
    return ("c", name, ty)


def applied(name: str, *arguments: Term, result: Type = NUM) -> Term:
    """A constant of numbers, applied."""
    return typed.apply(constant(name, len(arguments), result), *arguments)


def successor(term: Term) -> Term:
    """The term SUC n."""
    return ("a", SUC, term)


def number(term: Term) -> Optional[int]:
    """The number that a term is a numeral of; None where it is none."""
    added, factor = 0, 1
    while term[0] == "a" and term[1][0] == "c":
        name = term[1][1]
        if name == "SUC":
            added += factor
        elif name in _BITS:
            added += factor * _BITS[name]
            factor *= 2
        else:
            return None
        term = term[2]
    if term[0] != "c" or term[2] != NUM or term[1] not in _BASES:
        return None
    return added + factor * _BASES[term[1]]


def numeral(value: int, is_plain: bool = False) -> Term:
    """A number's numeral; a tower of SUC over `_0` where it is to be plain."""
    if is_plain:
        term = ZERO
        for _ in range(value):
            term = successor(term)
        return term
    term = ("c", "_1", NUM) if value else ZERO
    for digit in bin(value)[3:]:
        term = applied("BIT%s" % digit, term)
    return term


def head(term: Term) -> str:
    """The name of the constant that a term applies, or is; empty where it begins otherwise."""
    while term[0] == "a":
        term = term[1]
    return term[1] if term[0] == "c" else ""


def parts(term: Term, name: str, places: int = 2) -> Optional[tuple]:
    """The arguments of a constant that is applied to just so many."""
    found = []
    while term[0] == "a" and len(found) < places:
        found.append(term[2])
        term = term[1]
    is_it = len(found) == places and term[0] == "c" and term[1] == name
    return tuple(reversed(found)) if is_it else None
