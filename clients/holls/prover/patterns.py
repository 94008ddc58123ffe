"""Theorems as patterns: what they conclude at which terms, under which premises; and matching."""

from __future__ import annotations

from typing import Dict, Iterator, List, NamedTuple, Optional, Sequence, Tuple

from holls.prover import typed
from holls.prover.typed import Term, Type

SPEC, PREMISE, LEFT, RIGHT = "spec", "premise", "left", "right"
Key = Tuple[Optional[str], Optional[str], Optional[str]]
_MOST_PATTERNS = 24
"""So many conjuncts of a theorem are taken."""


class Pattern(NamedTuple):
    """One conclusion of a theorem. Variables that take any term are ("m", number, type); `path` says what is done to the theorem in order:
    it is taken at a variable, its premise is shown, or one of its two parts is taken."""

    path: Tuple[Tuple[str, object], ...]
    conclusion: Term
    count: int

    @property
    def premises(self) -> List[Term]:
        """What has to be shown."""
        return [given for kind, given in self.path if kind == PREMISE]


def patterns(statement: Term) -> List[Pattern]:
    """The conclusions of a theorem."""
    found: List[Pattern] = []
    waiting: List[Tuple[Tuple[Tuple[str, object], ...], Term, int]] = [((), statement, 0)]
    while waiting and len(found) < _MOST_PATTERNS:
        path, term, count = waiting.pop(0)
        bound, sides = typed.quantified(term), typed.binary(term)
        if bound and bound[0] == "!":
            variable = ("m", count, bound[2])
            waiting.insert(0, (path + ((SPEC, variable),), typed.opened(bound[3], variable), count + 1))
        elif sides and sides[0] == "==>":
            waiting.insert(0, (path + ((PREMISE, sides[1]),), sides[2], count))
        elif sides and sides[0] == "/\\":
            waiting[:0] = [(path + ((LEFT, None),), sides[1], count), (path + ((RIGHT, None),), sides[2], count)]
        else:
            found.append(Pattern(path, term, count))
    return found


class Binding:
    """What variables and type variables of a pattern are."""

    def __init__(self, terms: Optional[Dict[int, Term]] = None, types: Optional[Dict[str, Type]] = None) -> None:
        self.terms: Dict[int, Term] = dict(terms or {})
        self.types: Dict[str, Type] = dict(types or {})

    def copy(self) -> "Binding":
        """The same, to be changed."""
        return Binding(self.terms, self.types)

    def match(self, pattern: Term, term: Term) -> bool:
        """Whether a term is an instance; what was bound before stays, and where it isn't, more may have been bound."""
        kind = pattern[0]
        if kind == "m":
            return self._take(pattern, term)
        if kind != term[0]:
            return False
        if kind == "a":
            return self.match(pattern[1], term[1]) and self.match(pattern[2], term[2])
        if kind == "l":
            return typed.match_type(pattern[2], term[2], self.types) and self.match(pattern[3], term[3])
        if kind == "b":
            return pattern[1] == term[1]
        return pattern[1] == term[1] and typed.match_type(pattern[2], term[2], self.types)

    def _take(self, variable: Term, term: Term) -> bool:
        known = self.terms.get(variable[1])
        if known is not None:
            return known == term
        if typed.has_loose(term) or not typed.match_type(variable[2], typed.type_of(term), self.types):
            return False
        self.terms[variable[1]] = term
        return True

    def instance(self, pattern: Term) -> Optional[Term]:
        """A pattern at what is bound; None where something isn't."""
        kind = pattern[0]
        if kind == "m":
            return self.terms.get(pattern[1])
        if kind == "a":
            function = self.instance(pattern[1])
            argument = None if function is None else self.instance(pattern[2])
            return None if argument is None else ("a", function, argument)
        if kind == "l":
            body = self.instance(pattern[3])
            return None if body is None else ("l", pattern[1], typed.instantiated(pattern[2], self.types), body)
        return pattern if kind == "b" else (kind, pattern[1], typed.instantiated(pattern[2], self.types))


def head(term: Term) -> Optional[str]:
    """The name of the constant that a term begins with; None where it begins otherwise."""
    while term[0] == "a":
        term = term[1]
    return term[1] if term[0] == "c" else None


def key(conclusion: Term) -> Key:
    """What a formula, its first argument and its last one begin with."""
    last = conclusion[2] if conclusion[0] == "a" else None
    first = last
    while conclusion[0] == "a":
        first, conclusion = conclusion[2], conclusion[1]
    return head(conclusion), None if first is None else head(first), None if last is None else head(last)


def keys(wanted: Key) -> List[Key]:
    """The keys of conclusions that may match a formula with a key."""
    begun, first, last = wanted
    return [(begun, one, other) for one in dict.fromkeys((first, None)) for other in dict.fromkeys((last, None))]


def rewritten(conclusion: Term) -> Term:
    """What a theorem with a conclusion rewrites: the left side of an equation, what is denied, or all of it."""
    sides = typed.binary(conclusion)
    if sides and sides[0] in ("=", "<=>"):
        return sides[1]
    inner = typed.negated(conclusion)
    return conclusion if inner is None else inner


def fitting(premises: Sequence[Term], known: Sequence[Term], binding: Binding) -> Iterator[Binding]:
    """What variables are where each premise is one of the formulas that are known."""
    if not premises:
        yield binding
        return
    sides = typed.binary(premises[0])
    if sides and sides[0] == "/\\":
        yield from fitting([sides[1], sides[2]] + list(premises[1:]), known, binding)
        return
    for term in known:
        own = binding.copy()
        if own.match(premises[0], term):
            yield from fitting(premises[1:], known, own)
