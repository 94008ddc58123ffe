"""Finding proofs of sequents: which searches are made, in which order, and for how long."""

from __future__ import annotations

import sys
from typing import Callable, Dict, FrozenSet, List, NamedTuple, Optional, Sequence, Set, Tuple

from holls.prover import clauses, clock, connection, equality, ground, matching, sequents, typed
from holls.prover.ground import Ground, Instances, Proof
from holls.prover.sequents import ALPHA, BETA, DELTA, Formula
from holls.prover.typed import Term, Type

_DEEP = 8_000
"""So deep may calls be nested: a thread's stack holds as many."""
_PROPOSITIONAL_SECONDS = 0.5
_GROUND_SECONDS = 3.0
_FIRST_ROUNDS, _ROUNDS = 3, 5
"""So many rounds of instances are made of a whole sequent, at first and later."""
_MOST_SPLITS = 6
_INNER_SECONDS = 0.2
"""So long a sequent is searched as a whole that can be taken by more cases."""


class Item(NamedTuple):
    """A formula of a sequent; `is_goal`: it comes of what is to be shown."""

    is_left: bool
    term: Term
    is_goal: bool


class Search:
    """A search of a proof, until a time. `taken` are the names of constants; `is_cut` says that a part of it had no more time."""

    def __init__(self, taken: FrozenSet[str], until: float) -> None:
        sys.setrecursionlimit(max(sys.getrecursionlimit(), _DEEP))
        self.taken, self.until = taken, until
        self.is_cut = False

    def prove(self, items: Sequence[Item]) -> Optional[Proof]:
        """A proof of a sequent, where one is found in time."""
        found = self._ground(items, {}, {}, _PROPOSITIONAL_SECONDS)
        if found or not has_quantifier(items):
            return found
        for attempt, share in self._attempts(list(items)):
            now = clock.now()
            if now > self.until:
                self.is_cut = True
                return None
            try:
                found = attempt(now + share * (self.until - now))
            except RecursionError:
                continue
            if found:
                return found
        return None

    def _attempts(self, items: List[Item]) -> List[Tuple[Callable[[float], Optional[Proof]], float]]:
        """The searches in order, each with the part that it may have of the time that is left."""
        splits = [(lambda until, depth=depth: self._split(items, depth, until), 0.6) for depth in range(3, _MOST_SPLITS)]
        return [
            (lambda until: self._by_matching(items, until, _FIRST_ROUNDS), 0.15),
            (lambda until: self._by_instances(items, True, until), 0.12),
            (lambda until: self._split(items, 1, until), 0.25),
            (lambda until: self._by_matching(items, until, _ROUNDS), 0.3),
            (lambda until: self._split(items, 2, until), 0.4),
            (lambda until: self._by_instances(items, False, until), 0.5)] + splits

    def _ground(self, items: Sequence[Item], instances: Instances, kept: Dict, seconds: float) -> Optional[Proof]:
        """The proof at terms that are known."""
        until = min(self.until, clock.now() + seconds)
        try:
            return Ground(instances, kept, self.taken, until).prove(_formulas(items), _names(items))
        except ground.OutOfTime:
            self.is_cut = True
        except RecursionError:
            pass
        return None

    def _by_matching(self, items: Sequence[Item], until: float, most: int) -> Optional[Proof]:
        """A proof at terms that stand already, where there are equations, in so many rounds at most."""
        builder = self._builder(items)
        if not matching.is_useful(builder):
            return None
        search = matching.Matching(builder, until)
        proof, rounds = None, 0
        while proof is None and rounds < most and clock.now() < until and search.grow():
            rounds += 1
            proof = self._ground(items, _instances(items, search.found), builder.witnesses, min(1.0, until - clock.now()))
        self.is_cut = self.is_cut or clock.now() >= until
        return proof

    @staticmethod
    def _builder(items: Sequence[Item]) -> clauses.Builder:
        """The clauses of a sequent."""
        builder = clauses.Builder()
        for item, formula in zip(items, _formulas(items)):
            builder.add(formula, item.is_goal)
        return builder

    def _by_instances(self, items: Sequence[Item], is_cutting: bool, until: float) -> Optional[Proof]:
        """A proof by a search of the terms at which quantifiers are taken."""
        builder = self._builder(items)
        search = connection.Connection(builder.clauses + equality.axioms(builder), min(until, self.until), is_cutting)
        try:
            found = search.search(search.starts())
        except connection.OutOfTime:
            self.is_cut = True
            return None
        return self._ground(items, _instances(items, found), builder.witnesses, _GROUND_SECONDS) if found else None

    def _split(self, items: List[Item], depth: int, until: float) -> Optional[Proof]:
        """A proof of a sequent that is taken apart first: by what leaves one sequent, and so many times by cases."""
        for at, item in enumerate(items):
            found = sequents.shape(item.is_left, item.term)
            if found.kind in (ALPHA, DELTA):
                return self._apart(items, at, found, depth, until)
        budget = clock.now() + _INNER_SECONDS if depth else until
        proof = self._ground(items, {}, {}, _PROPOSITIONAL_SECONDS) or self._by_instances(items, True, budget)
        at = _case(items)
        if proof or depth == 0 or at is None:
            return proof
        found = sequents.shape(items[at].is_left, items[at].term)
        parts = sequents.parts(Formula(items[at].is_left, items[at].term), found)
        subs: List[Proof] = []
        for number, part in enumerate(parts):
            share = clock.now() + (until - clock.now()) / (len(parts) - number)
            sub = self._split(items[:at] + [Item(part.is_left, part.term, items[at].is_goal)] + items[at + 1:], depth - 1, share)
            if sub is None or part.signed not in sub.used:
                return sub
            subs.append(sub)
        return ground.wrapped(BETA, Formula(items[at].is_left, items[at].term), None, [[part] for part in parts], subs)

    def _apart(self, items: List[Item], at: int, found: sequents.Shape, depth: int, until: float) -> Optional[Proof]:
        """Takes a formula apart that leaves one sequent."""
        formula, variable = Formula(items[at].is_left, items[at].term), None
        if found.kind == ALPHA:
            parts = sequents.parts(formula, found)
        else:
            variable = ("v", _fresh(found.name, _names(items) | self.taken), found.type)
            parts = [Formula(formula.is_left, typed.opened(found.body, variable))]
        for part in parts:
            if sequents.is_trivial(*part.signed) or any((not one.is_left, one.term) == part.signed for one in items):
                return self._ground(items, {}, {}, _PROPOSITIONAL_SECONDS)
        own = [Item(part.is_left, part.term, items[at].is_goal) for part in parts]
        sub = self._split(items[:at] + own + items[at + 1:], depth, until)
        return ground.wrapped(found.kind, formula, variable, [parts], [sub])


def _formulas(items: Sequence[Item]) -> List[Formula]:
    """The formulas, each with its position."""
    return [Formula(item.is_left, item.term, (number,)) for number, item in enumerate(items)]


def _names(items: Sequence[Item]) -> FrozenSet[str]:
    """The names of the free variables."""
    return frozenset(one[1] for item in items for one in typed.variables(item.term))


def _fresh(name: str, names: FrozenSet[str]) -> str:
    name = str(name).rstrip("'") or "x"
    while name in names:
        name += "'"
    return name


def has_quantifier(items: Sequence[Item]) -> bool:
    """Whether a formula has a quantifier, or an equation of other things than formulas."""
    parts = [part for item in items for part in typed.subterms(item.term) if part[0] == "c"]
    return any(part[1] in ("!", "?", "?!") or part[1] == "=" and part[2][1] != typed.BOOL for part in parts)


def _case(items: Sequence[Item]) -> Optional[int]:
    """The formula that is taken by cases: one of the right side first, then the largest."""
    found = [at for at, item in enumerate(items) if sequents.shape(item.is_left, item.term).kind == BETA]
    return min(found, key=lambda at: (items[at].is_left, -typed.size(items[at].term)), default=None)


def _instances(items: Sequence[Item], found: Sequence[connection.Found]) -> Instances:
    """The terms at which quantifiers are taken; where any will do, a variable of the sequent."""
    known = {one[2]: one for item in reversed(items) for one in sorted(typed.variables(item.term), reverse=True)}
    names: Set[str] = set(_names(items))
    instances: Instances = {}
    for one in found:
        terms = tuple(_closed(term, known, names) for term in one.terms)
        for variable in one.clause.variables:
            key = variable.position, tuple(terms[number] for number in variable.outside)
            own = instances.setdefault(key, [])
            if terms[variable.number] not in own:
                own.append(terms[variable.number])
    return instances


def _closed(term: Term, known: Dict[Type, Term], names: Set[str]) -> Term:
    """A term with a variable of its type for what is open in it."""
    kind = term[0]
    if kind == "m":
        if term[2] not in known:
            known[term[2]] = ("v", _fresh("a", frozenset(names)), term[2])
            names.add(known[term[2]][1])
        return known[term[2]]
    if kind == "a":
        return ("a", _closed(term[1], known, names), _closed(term[2], known, names))
    if kind == "l":
        return ("l", term[1], term[2], _closed(term[3], known, names))
    return ("s", term[1], tuple(_closed(part, known, names) for part in term[2]), term[3]) if kind == "s" else term
