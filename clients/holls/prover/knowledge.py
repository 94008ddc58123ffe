"""What is known of the theorems that stand, for all goals at one place: found once."""

from __future__ import annotations

from functools import cached_property
from typing import Dict, FrozenSet, List, Optional, Sequence, Tuple

from holls.prover import patterns, reading, scripts, typed
from holls.prover.exact import Exact
from holls.prover.facts import Computed
from holls.prover.orders import Order
from holls.prover.patterns import Pattern
from holls.prover.premises import Premises
from holls.prover.scope import Scope
from holls.prover.typed import Term, Type
from holls.prover.writing import Quoter

_SETS = ("EXTENSION", "SUBSET", "PSUBSET", "DISJOINT")
"""Theorems that say of sets what they say of elements."""
_MEMBERSHIP = "IN"
"""The theorem that says what an element of a set is: the last one of all."""
_FUNCTIONS = ("FUN_EQ_THM", "o_THM", "I_THM", "K_THM")
_MOST_LONGER = 2
_LOGICAL = frozenset(("=", "~", "ONE_ONE", "IN"))
_TRUTH = frozenset(("T", "F"))
_CONDITIONALS = ("COND_CLAUSES",)


class Knowledge:
    """The theorems that stand, by what they conclude and by their constants, and those that rewrite a goal to first order logic."""

    def __init__(self, standing: Scope) -> None:
        self.scope = standing
        self.quoter = Quoter(standing.signature)
        self.middle = standing.named(scripts.MIDDLE)
        self.constants = frozenset(standing.signature.constants)
        self.facts = [standing.fact(name) for name in standing.theorems]
        self.exact = Exact(self.facts, self.quoter)
        self.premises = Premises(self.facts, frozenset(reading.PRELUDE))
        self.order = Order(standing.signature.constants)
        self._decreasing: Dict[str, bool] = {}
        self.members = self._members()
        self.sets = [name for name in _SETS if name in standing.theorems] if _MEMBERSHIP in standing.theorems else []
        self.functions = [name for name in _FUNCTIONS if name in standing.theorems]
        self.unfolding = self._unfolding()
        self.inductions = [found for fact in self.facts for found in fact.inductions]
        self.guards = frozenset(patterns.head(one.guard) for one in self.inductions if one.guard is not None)
        constructors = frozenset().union(*(one.constructors for one in self.inductions)) - _TRUTH if self.inductions else frozenset()
        self.clauses = self._clauses(constructors)

    @cached_property
    def orders(self) -> Dict[str, List[Tuple[str, Pattern]]]:
        """The equations without premises both of whose sides begin with one constant: the theorem and the conclusion, by that constant."""
        found: Dict[str, List[Tuple[str, Pattern]]] = {}
        for fact in self.facts:
            for pattern in fact.patterns:
                sides = typed.binary(pattern.conclusion)
                head = patterns.head(sides[1]) if sides and sides[0] in ("=", "<=>") and not pattern.premises else None
                if head is not None and head == patterns.head(sides[2]):
                    found.setdefault(head, []).append((fact.name, pattern))
        return found

    def is_decreasing(self, name: str) -> bool:
        """Whether rewriting by a theorem, with others of which this holds, ends: its conclusions are equations with a smaller right side."""
        if name not in self._decreasing:
            self._decreasing[name] = all(self._decreases(pattern) for pattern in self.scope.fact(name).patterns)
        return self._decreasing[name]

    def is_plain(self, name: str, is_named: bool) -> bool:
        """Whether a theorem is a definition, or says equations without premises by which rewriting ends; one that is named may unfold a constant."""
        every = [(pattern, typed.binary(pattern.conclusion)) for pattern in self.scope.fact(name).patterns]
        if any(pattern.premises or not sides or sides[0] not in ("=", "<=>") for pattern, sides in every):
            return False
        unfolds = is_named and all(patterns.head(sides[1]) and patterns.head(sides[1]) not in {part[1] for part in typed.constants(sides[2])}
                                   for _, sides in every)
        return unfolds or name in self.scope.definitions or self.is_decreasing(name)

    def _decreases(self, pattern: Pattern) -> bool:
        sides = typed.binary(pattern.conclusion)
        if pattern.premises or sides and sides[0] not in ("=", "<=>"):
            return False
        if sides:
            return self.order.decreases(sides[1], sides[2])
        inner = typed.negated(pattern.conclusion)
        return patterns.head(pattern.conclusion if inner is None else inner) is not None

    def equations(self, names: Sequence[str]) -> List[str]:
        """Those of some theorems by which rewriting ends, and which make terms hardly larger."""
        return [name for name in names if name not in self.scope.definitions and self.is_decreasing(name) and self._is_short(name)]

    def _is_short(self, name: str) -> bool:
        every = [typed.binary(pattern.conclusion) for pattern in self.scope.fact(name).patterns]
        return all(sides is None or typed.size(sides[2]) <= typed.size(sides[1]) + _MOST_LONGER for sides in every)

    def _members(self) -> Dict[str, str]:
        """The theorems that say what the elements of a set are, by the constant that makes it."""
        found: Dict[str, str] = {}
        for fact in self.facts:
            own = fact.patterns
            sides = typed.binary(own[0].conclusion) if len(own) == 1 else None
            if not sides or sides[0] != "<=>" or own[0].premises or patterns.head(sides[1]) != "IN" or sides[1][1][0] != "a":
                continue
            constant = patterns.head(sides[1][2])
            if constant and all(part[0] == "m" for part in _arguments(sides[1][2])):
                found.setdefault(constant, fact.name)
        for name in ("NOT_IN_EMPTY", "IN_UNIV"):
            if name in self.scope.theorems:
                found.setdefault("EMPTY" if name == "NOT_IN_EMPTY" else "UNIV", name)
        return found

    def _unfolding(self) -> Dict[str, str]:
        """The definitions of predicates by formulas that aren't about predicates in their turn, by the constant."""
        found: Dict[str, str] = {}
        for name, constant in self.scope.definitions.items():
            own = self.scope.fact(name).patterns if name in self.scope.theorems else ()
            sides = typed.binary(own[0].conclusion) if len(own) == 1 else None
            if sides and _is_predicate(self.scope.signature.constants.get(constant)) and _is_first_order(sides[2]):
                found[constant] = name
        return found

    def _clauses(self, constructors: FrozenSet[str]) -> Dict[str, List[str]]:
        """Of each function theorems that say what it is of what constructors build: those with most equations first, and for each constructor at
        each place one."""
        every: Dict[str, List[Tuple[int, str, FrozenSet[Tuple[int, str]]]]] = {}
        for fact in self.facts:
            if constructors not in fact.computed:
                fact.computed[constructors] = [_computed(pattern, constructors) for pattern in fact.patterns]
            found = fact.computed[constructors]
            if found and None not in found and len({name for name, _ in found}) == 1:
                covered = frozenset(place for _, places in found for place in places)
                every.setdefault(found[0][0], []).append((-len(found), fact.name, covered))
        chosen: Dict[str, List[str]] = {}
        self.places = {constant: frozenset(place for _, _, covered in own for place, _ in covered) for constant, own in every.items()}
        for constant, own in every.items():
            known: FrozenSet[Tuple[int, str]] = frozenset()
            for _, name, covered in sorted(own, key=lambda one: (one[0], len(one[1]))):
                if not covered <= known:
                    chosen.setdefault(constant, []).append(name)
                    known |= covered
        return chosen

    def computing(self, terms: Sequence[Term]) -> List[str]:
        """The theorems that say what functions of a goal are of what constructors build."""
        found: Dict[str, None] = {}
        waiting = sorted({part[1] for term in terms for part in typed.constants(term)})
        while waiting:
            for name in self.clauses.get(waiting.pop(), ()):
                if name not in found:
                    found[name] = None
                    waiting += sorted(self.scope.fact(name).constants)
        return list(found)

    def simple(self, terms: Sequence[Term]) -> List[str]:
        """The theorems that bring a goal to a simpler one: those of `computing`, of conditionals, and those that files declare by `simp`."""
        declared = [name for name in self.declared(terms) if self.is_decreasing(name)]
        return list(dict.fromkeys(self.computing(terms) + [name for name in _CONDITIONALS if name in self.scope.theorems] + declared))

    def declared(self, terms: Sequence[Term]) -> List[str]:
        """The theorems that files declare by `simp`, all of whose constants a goal has, but for one."""
        own = frozenset().union(*map(self.premises.symbols, terms)) if terms else frozenset()
        every = self.scope.simplifying()
        return [name for name in every if len(self.scope.fact(name).constants - self.premises.logical - own) <= 1] if every else []

    def recursion(self, term: Term, variable: Term) -> int:
        """How often a variable stands in a term where a function is computed by what constructors build."""
        found = 0
        for part in typed.subterms(term):
            own = _arguments(part)
            if variable in own:
                found += sum(own[place] == variable for place in self.places.get(patterns.head(part) or "", ()) if place < len(own))
        return found

    def is_inductive(self, terms: Sequence[Term]) -> bool:
        """Whether a goal has functions that are computed by what constructors build, or predicates that are defined by induction."""
        return bool(self.guards & {part[1] for term in terms for part in typed.constants(term)}) or bool(self.computing(terms))

    def membership(self, terms: List[Term]) -> List[str]:
        """The theorems by which a goal about sets is one about their elements; none where it isn't about sets."""
        constants = {part[1] for term in terms for part in typed.constants(term)}
        if not self.sets or not (constants & self.members.keys() or constants & {"IN", "SUBSET", "PSUBSET", "DISJOINT"} or _equates_sets(terms)):
            return []
        rules = {**self.members, **{name: name for name in self.sets}}
        reached: Dict[str, None] = dict.fromkeys(["EXTENSION"] if "EXTENSION" in self.sets else [])
        waiting = sorted(constants & rules.keys())
        while waiting:
            constant = waiting.pop()
            if constant not in reached:
                reached[constant] = None
                waiting += sorted({part[1] for part in typed.constants(self.scope.theorems[rules[constant]])} & rules.keys())
        return [rules[constant] for constant in sorted(reached, key=lambda one: (one in self.sets, one))] + [_MEMBERSHIP]

    def unfolded(self, terms: List[Term]) -> List[str]:
        """The definitions of a goal's predicates, and of those that they need."""
        found: Dict[str, None] = {}
        waiting = sorted({part[1] for term in terms for part in typed.constants(term)})
        while waiting:
            constant = waiting.pop()
            name = self.unfolding.get(constant)
            if name is not None and name not in found:
                found[name] = None
                waiting += sorted({part[1] for part in typed.constants(self.scope.theorems[name])})
        return list(found)


def _computed(pattern: Pattern, constructors: FrozenSet[str]) -> Optional[Computed]:
    """The function of which an equation says what it is of what constructors build, and at which places these stand."""
    sides = typed.binary(pattern.conclusion)
    left = sides[1] if sides and sides[0] in ("=", "<=>") else typed.negated(pattern.conclusion) or pattern.conclusion
    arguments, head = _arguments(left), patterns.head(left)
    places = [(number, patterns.head(one)) for number, one in enumerate(arguments) if patterns.head(one) in constructors]
    is_plain = all(inner[0] in "mv" for one in arguments for inner in (_arguments(one) if patterns.head(one) in constructors else [one]))
    return (head, places) if head and places and is_plain and not pattern.premises and head not in constructors | _LOGICAL else None


def _arguments(term: Term) -> List[Term]:
    """The arguments of what a term begins with."""
    found = []
    while term[0] == "a":
        found.append(term[2])
        term = term[1]
    return found[::-1]


def _is_predicate(ty: Optional[Type]) -> bool:
    while isinstance(ty, tuple) and ty[0] == "fun":
        ty = ty[2]
    return ty == typed.BOOL


def _is_first_order(term: Term) -> bool:
    """Whether a formula has no choice, no recursion, and binds nothing but elements."""
    for part in typed.subterms(term):
        if part[0] == "c" and (part[1] == "@" or part[1].endswith("_REC")):
            return False
        if part[0] == "l" and isinstance(part[2], tuple) and part[2][0] == "fun":
            return False
    return True


def _equates_sets(terms: List[Term]) -> bool:
    """Whether there is an equation of functions into `bool`."""
    constants: FrozenSet[Term] = frozenset().union(*map(typed.constants, terms)) if terms else frozenset()
    return any(one[1] == "=" and isinstance(one[2][1], tuple) and one[2][1][0] == "fun" and one[2][1][2] == typed.BOOL for one in constants)


def equates_functions(terms: List[Term]) -> bool:
    """Whether there is an equation of functions."""
    constants: FrozenSet[Term] = frozenset().union(*map(typed.constants, terms)) if terms else frozenset()
    return any(one[1] == "=" and isinstance(one[2][1], tuple) and one[2][1][0] == "fun" for one in constants)
