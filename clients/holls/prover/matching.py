"""Another search of instances: clauses at the terms that stand already, up to known equations, in rounds.

It finds what follows by a few instances from many equations, where connections lose themselves in the axioms of equality.
"""

from __future__ import annotations

import itertools
from typing import Dict, Iterator, List, NamedTuple, Optional, Sequence, Set, Tuple

from holls.prover import clauses, clock, typed
from holls.prover.clauses import APPLY, Builder, Clause, Coded
from holls.prover.congruence import Congruence
from holls.prover.connection import Found
from holls.prover.typed import BOOL, Term, Type

MOST_NEW = 100
"""So many instances are added in a round, the smallest first."""
MOST_OF_CLAUSE = 60
MOST_MATCHES = 1500
MOST_WITNESSES = 20
LARGEST = 40
"""An instance in whose terms more names stand isn't taken."""
_MOST_PATTERNS = 6

Binding = Tuple[Optional[Term], ...]


class _Ready(NamedTuple):
    """A clause with its literals as terms, and the patterns of which one, with those beside it, gives its variables terms; and its witnesses, each
    with the patterns that give terms to what it depends on."""

    clause: Clause
    literals: Tuple[Tuple[bool, Term], ...]
    patterns: Tuple[Tuple[Term, ...], ...]
    sides: Tuple[Tuple[Term, ...], ...]
    witnesses: Tuple[Tuple[Term, Tuple[Term, ...]], ...]


class Matching:
    """Instances of clauses, in rounds."""

    def __init__(self, builder: Builder, until: float) -> None:
        self.until = until
        self.found: List[Found] = []
        self._rounds = 0
        self._seen: Set[Tuple[int, Binding]] = set()
        self._known = Congruence()
        self._ready = [_ready(clause) for clause in builder.clauses]
        for one in self._ready:
            if not one.clause.count:
                self._take(one.literals)

    def _take(self, literals: Sequence[Tuple[bool, Term]]) -> None:
        """Takes a clause without variables: its terms, and an equation that is all of it."""
        for is_true, atom in literals:
            sides = typed.binary(atom)
            for part in sides[1:] if sides and sides[0] == "=" else (atom,):
                self._known.add(part)
            if len(literals) == 1 and is_true and sides and sides[0] == "=":
                self._known.join(sides[1], sides[2])

    def grow(self) -> bool:
        """Adds instances; whether there are more."""
        new: List[Tuple[int, int, Binding]] = []
        for number, one in enumerate(self._ready):
            if not one.clause.count:
                continue
            own: Dict[Binding, int] = {}
            for patterns in self._patterns(one):
                matches = self._matches(patterns, (None,) * one.clause.count)
                for binding in itertools.islice(matches, MOST_MATCHES):
                    if (number, binding) not in self._seen:
                        own[binding] = sum(self._known.sizes[term] for term in binding if term is not None)
                    if len(own) > MOST_OF_CLAUSE or clock.now() > self.until:
                        break
            new += [(cost, number, binding) for binding, cost in own.items() if cost <= LARGEST]
        new.sort(key=lambda one: one[:2])
        self._rounds += 1
        made = self._make_witnesses()
        for _, number, binding in new[:MOST_NEW]:
            self._seen.add((number, binding))
            self._add(self._ready[number], binding)
        return bool(new) or made

    def _patterns(self, one: _Ready) -> Sequence[Tuple[Term, ...]]:
        """The patterns of a clause in this round: at first all, later of an equation its sides, and no variable alone that others have."""
        if not self._rounds:
            return one.patterns
        return one.sides or [own for own in one.patterns if not own or own[0][0] != "m" or len(one.patterns) == 1]

    def _make_witnesses(self) -> bool:
        """Takes the witnesses of what stands already as terms; whether there are more."""
        before = self._known.count
        for one in self._ready:
            for witness, patterns in one.witnesses:
                for number, binding in enumerate(list(self._matches(patterns, (None,) * one.clause.count))):
                    if number < MOST_WITNESSES:
                        self._known.add(_filled(witness, binding))
        return self._known.count > before

    def _add(self, one: _Ready, binding: Binding) -> None:
        terms = [("m", number, one.clause.variables[number].type) if term is None else term for number, term in enumerate(binding)]
        self.found.append(Found(one.clause, tuple(_witnessed(term) for term in terms)))
        self._take([(is_true, _filled(atom, binding)) for is_true, atom in one.literals])

    def _matches(self, patterns: Sequence[Term], binding: Binding) -> Iterator[Binding]:
        """The terms of variables at which patterns stand."""
        if not patterns:
            yield binding
            return
        for root in list(self._known.members):
            if clock.now() > self.until:
                return
            if root in self._known.members:
                for found in self._match(patterns[0], root, binding):
                    yield from self._matches(patterns[1:], found)

    def _match(self, pattern: Term, root: Term, binding: Binding) -> Iterator[Binding]:
        """The terms of variables at which a pattern is of a class."""
        if pattern[0] == "m":
            known = binding[pattern[1]]
            if known is not None:
                if self._known.add(known) == root:
                    yield binding
            elif typed.type_of(root) == pattern[2]:
                yield binding[:pattern[1]] + (self._known.smallest[root],) + binding[pattern[1] + 1:]
            return
        if pattern[0] != "a":
            if pattern in self._known.members[root]:
                yield binding
            return
        for member in list(self._known.members.get(root, ())):
            if member[0] == "a":
                for first in self._match(pattern[1], self._known.find(member[1]), binding):
                    yield from self._match(pattern[2], self._known.find(member[2]), first)


def _ready(clause: Clause) -> _Ready:
    types = [variable.type for variable in clause.variables]
    literals = tuple((literal.is_true, _term(literal.atom, types)) for literal in clause.literals)
    witnesses = {part for _, atom in literals for part in typed.subterms(atom) if part[0] == "a" and _head(part)[0] == "w"}
    whole = [part for part in witnesses if _variables(part) and len(_arguments(part)) == _head(part)[3]]
    made = tuple((part, _patterns(literals, _variables(part))[0]) for part in sorted(whole, key=str))
    patterns = tuple(_patterns(literals, None))
    sides = typed.binary(literals[0][1]) if len(literals) == 1 else None
    return _Ready(clause, literals, patterns, tuple(one for one in patterns if sides and one[:1] and one[0] in sides[1:]), made)


def _term(atom: Coded, types: Sequence[Type]) -> Term:
    """A term of the search as a term; a witness is a symbol ("w", position, type, number) that is applied."""
    if isinstance(atom, int):
        return ("m", atom, types[atom])
    arguments = [_term(argument, types) for argument in atom[1:]]
    symbol = atom[0]
    if symbol is APPLY:
        return ("a", arguments[0], arguments[1])
    if symbol.term is not None:
        return typed.apply(clauses.filled(symbol.term, arguments[:symbol.own]), *arguments[symbol.own:])
    ty = symbol.type
    for argument in reversed(arguments[:symbol.own]):
        ty = typed.fun(typed.type_of(argument), ty)
    return typed.apply(("w", symbol.position if symbol.position is not None else symbol.label, ty, symbol.own), *arguments)


def _witnessed(term: Term) -> Term:
    """A term with its witnesses as terms."""
    chain: List[Term] = []
    while term[0] == "a":
        chain.append(_witnessed(term[2]))
        term = term[1]
    chain.reverse()
    if term[0] == "w":
        ty = term[2]
        for _ in range(term[3]):
            ty = ty[2]
        return typed.apply(("s", term[1], tuple(chain[:term[3]]), ty), *chain[term[3]:])
    if term[0] == "l":
        term = ("l", term[1], term[2], _witnessed(term[3]))
    return typed.apply(term, *chain)


def _filled(term: Term, binding: Binding) -> Term:
    if term[0] == "m":
        return binding[term[1]] or term
    if term[0] == "a":
        return ("a", _filled(term[1], binding), _filled(term[2], binding))
    return ("l", term[1], term[2], _filled(term[3], binding)) if term[0] == "l" else term


def _variables(term: Term) -> Set[int]:
    return {part[1] for part in typed.subterms(term) if part[0] == "m"}


def _patterns(literals: Sequence[Tuple[bool, Term]], wanted: Optional[Set[int]]) -> List[Tuple[Term, ...]]:
    """Parts of a clause that have all its variables, or those that are wanted, the smallest first; where none has, some that have them together.

    A part that begins with a variable comes after one that has it. A variable that no part has takes any term.
    """
    parts: Dict[Term, Set[int]] = {}
    for _, atom in literals:
        for part in typed.subterms(atom):
            is_plain = part[0] == "a" and _head(part)[:2] != ("c", "=") and not typed.has_loose(part)
            if is_plain and _variables(part) and not any(one[0] == "w" and one[3] for one in typed.subterms(part)):
                parts[part] = _variables(part)
    every = wanted or (set().union(*(_variables(atom) for _, atom in literals)) if literals else set())
    parts = {part: own for part, own in parts.items() if own <= every}
    alone = sorted((part for part, own in parts.items() if own == every and _head(part)[0] != "m"), key=typed.size)
    bare = {part[1]: part for _, atom in literals for part in typed.subterms(atom) if part[0] == "m"}
    if alone or not every:
        any_term = [(bare[number],) for number in every] if len(every) == 1 and wanted is None else []
        return [(part,) for part in alone[:_MOST_PATTERNS]] + any_term or [()]
    chosen: List[Term] = []
    missing = set(every)
    while missing:
        fitting = [part for part, own in parts.items() if own & missing and not (_head(part)[0] == "m" and _head(part)[1] in missing)]
        if not fitting:
            break
        best = max(fitting, key=lambda part: (len(parts[part] & missing), -typed.size(part)))
        chosen.append(best)
        missing -= parts[best]
    first = [part for part in chosen if _head(part)[0] != "m"]
    found = [tuple(own + [bare[number] for number in sorted(every.difference(*(parts[part] for part in own)))]) for own in (chosen, first)]
    return list(dict.fromkeys(found))


def _arguments(term: Term) -> List[Term]:
    found: List[Term] = []
    while term[0] == "a":
        found.append(term[2])
        term = term[1]
    return found


def _head(term: Term) -> Term:
    while term[0] == "a":
        term = term[1]
    return term


def is_useful(builder: Builder) -> bool:
    """Whether there are equations between other things than formulas."""
    return any(symbol.term is not None and symbol.term[0] == "c" and symbol.term[1] == "=" and symbol.type[1] != BOOL
               for symbol in builder.symbols.values())
