"""Theorems of a recorded derivation at the terms and types that stand for their variables, as theorem expressions of ours."""

from __future__ import annotations

from typing import Dict, List, NamedTuple, Optional, Tuple

from holls.exchange.citing import Citations
from holls.exchange.neutral import Record, Theorem, Translator, Untranslatable
from holls.prover import typed
from holls.prover.scope import Scope
from holls.prover.typed import Term, Type
from holls.prover.writing import Quoter, Unwritable

MOST_CHARACTERS = 700
_DEEPEST = 40
_FORWARD = frozenset("SPEC SYM CONJUNCT1 CONJUNCT2 MP INST INST_TYPE ASSUME REFL".split())


class NoInstance(Exception):
    """A theorem of which no expression is an instance."""


class Leaf(NamedTuple):
    """What stands for type variables, and for variables at the types that come of that."""

    types: Dict[str, Type]
    terms: Dict[Term, Term]

    def put(self, term: Term) -> Term:
        """A term with all of that."""
        if not self.types and not self.terms:
            return term
        return self._put(term, {})

    def _put(self, term: Term, made: Dict[int, Term]) -> Term:
        kind = term[0]
        if kind == "b":
            return term
        found = made.get(id(term))
        if found is not None:
            return found
        if kind == "v":
            variable = self.variable(term)
            new = self.terms.get(variable, variable)
        elif kind == "c":
            new = ("c", term[1], typed.instantiated(term[2], self.types)) if self.types else term
        elif kind == "a":
            new = ("a", self._put(term[1], made), self._put(term[2], made))
        else:
            new = ("l", term[1], typed.instantiated(term[2], self.types), self._put(term[3], made))
        made[id(term)] = new
        return new

    def variable(self, variable: Term) -> Term:
        return ("v", variable[1], typed.instantiated(variable[2], self.types)) if self.types else variable

    def binding(self, variable: Term, term: Term) -> "Leaf":
        """The same with a term for one variable more."""
        return Leaf(self.types, {**self.terms, variable: term})


class Instance:
    """Expressions for the theorems of a record."""

    def __init__(self, record: Record, translator: Translator, citations: Citations, quoter: Quoter, scope: Scope) -> None:
        self.record, self.translator, self.citations, self.quoter, self.scope = record, translator, citations, quoter, scope
        self._texts: Dict[Tuple[int, int], Tuple[Leaf, Optional[str]]] = {}

    def name(self, number: int) -> Optional[str]:
        """The name under which a theorem stands here."""
        name = self.citations.names.get(number)
        return name if name in self.scope.theorems else None

    def is_leaf(self, number: int) -> bool:
        return self.name(number) is not None

    def under(self, theorem: Theorem, env: Leaf) -> Leaf:
        """What stands for the variables of INST's and INST_TYPE's premise."""
        if theorem.rule == "INST_TYPE":
            numbers = [number for kind, number in theorem.arguments if kind == "y"]
            types = {self.translator.type(old): typed.instantiated(self.translator.type(new), env.types) for new, old in zip(numbers[::2], numbers[1::2])}
            return Leaf({**env.types, **types}, env.terms)
        numbers = [number for kind, number in theorem.arguments if kind == "t"]
        terms = {env.variable(self.translator.term(old)): env.put(self.translator.term(new)) for new, old in zip(numbers[::2], numbers[1::2])}
        return Leaf(env.types, {**env.terms, **terms})

    def general(self, number: int) -> Optional[str]:
        """The named theorem that one is an instance of by SPEC, INST and INST_TYPE alone."""
        for _ in range(_DEEPEST):
            name = self.name(number)
            if name:
                return name
            theorem = self.record.theorems[number]
            if theorem.rule not in ("SPEC", "INST", "INST_TYPE"):
                return None
            number = next(part for kind, part in theorem.arguments if kind == "h")
        return None

    def text(self, number: int, env: Leaf) -> Optional[str]:
        """The expression, which may stand as an argument; None where there is none that is short."""
        known = self._texts.get((number, id(env)))
        if known is None:
            known = self._texts[number, id(env)] = env, self._short(number, env)
        return known[1]

    def _short(self, number: int, env: Leaf) -> Optional[str]:
        try:
            text = self._text(number, env, 0)
        except (NoInstance, Untranslatable, Unwritable):
            return None
        return text if len(text) <= MOST_CHARACTERS else None

    def _text(self, number: int, env: Leaf, depth: int) -> str:
        name = self.name(number)
        if name:
            return self._named(name, number, env)
        theorem = self.record.theorems[number]
        if depth > _DEEPEST or theorem.rule not in _FORWARD:
            raise NoInstance
        parts = [part for kind, part in theorem.arguments if kind == "h"]
        if theorem.rule in ("INST", "INST_TYPE"):
            return self._text(parts[0], self.under(theorem, env), depth + 1)
        if theorem.rule == "ASSUME":
            return "(ASSUME %s)" % self.quoter.quote(env.put(self.translator.term(theorem.conclusion)))
        if theorem.rule == "REFL":
            sides = typed.binary(env.put(self.translator.term(theorem.conclusion)))
            return "(REFL %s)" % self.quoter.quote(sides[1])
        if theorem.rule == "SPEC":
            given = next(part for kind, part in theorem.arguments if kind == "t")
            return "(SPEC %s %s)" % (self.quoter.quote(env.put(self.translator.term(given))), self._text(parts[0], env, depth + 1))
        return "(%s %s)" % (theorem.rule, " ".join(self._text(part, env, depth + 1) for part in parts))

    def _named(self, name: str, number: int, env: Leaf) -> str:
        """A theorem that stands here at types, and at terms for the variables that are free in HOL Light's."""
        ours, theirs = self.scope.theorems[name], self.translator.term(self.record.theorems[number].conclusion)
        types: Dict[str, Type] = {}
        free: List[Term] = []
        if not same(ours, theirs, types):
            types, free = {}, list(dict.fromkeys(part for part in typed.subterms(theirs) if part[0] == "v"))
            if not same(ours, closed(theirs, free), types):
                raise NoInstance
        elif any(env.put(variable) != env.variable(variable) for variable in typed.variables(theirs)):
            raise NoInstance
        put = {variable: typed.instantiated(ty, env.types) for variable, ty in types.items()}
        text = self.citations.at_types(name, put)
        for variable in free:
            text = "(SPEC %s %s)" % (self.quoter.quote(env.put(variable)), text)
        return text


def closed(term: Term, variables: List[Term]) -> Term:
    """A term for all of some variables."""
    for variable in reversed(variables):
        term = typed.mk_forall(variable, term)
    return term


def same(ours: Term, theirs: Term, types: Dict[str, Type]) -> bool:
    """Whether a statement is another one but for the names of its type variables; `types` takes what ours become."""
    waiting = [(ours, theirs)]
    while waiting:
        one, other = waiting.pop()
        if one[0] != other[0]:
            return False
        if one[0] == "a":
            waiting += [(one[2], other[2]), (one[1], other[1])]
        elif one[0] == "l":
            if not typed.match_type(one[2], other[2], types):
                return False
            waiting.append((one[3], other[3]))
        elif one[0] == "b":
            if one[1] != other[1]:
                return False
        elif one[1] != other[1] or not typed.match_type(one[2], other[2], types):
            return False
    return True
