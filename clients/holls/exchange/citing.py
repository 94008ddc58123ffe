"""Theorems of a record as theorem expressions of ours."""

from __future__ import annotations

from typing import Dict, FrozenSet, Iterator, List, Optional, Sequence, Set, Tuple

from holls.exchange.neutral import Record, Translator, Untranslatable
from holls.prover import typed
from holls.prover.scope import Scope
from holls.prover.typed import Term, Type
from holls.prover.writing import Quoter, type_text

_SAME = frozenset("SPEC_ALL GEN_ALL GEN EQT_INTRO EQT_ELIM EQF_INTRO NOT_ELIM NOT_INTRO UNDISCH_ALL BETA_RULE".split())
"""Rules behind which a theorem serves as before it, where it is rewritten or matched by."""
_DEEPEST = 12


class Uncitable(Exception):
    """A theorem that no expression is: it has to be shown as it is used."""


class Citations:
    """Expressions of theorems over what stands in a scope."""

    def __init__(self, record: Record, translator: Translator, scope: Scope, quoter: Quoter) -> None:
        self.record, self.translator, self.scope, self.quoter = record, translator, scope, quoter
        self.names: Dict[int, str] = {}
        for name, (number, _) in record.names.items():
            self.names.setdefault(number, name)

    def conclusion(self, number: int) -> Term:
        return self.translator.term(self.record.theorems[number].conclusion)

    def stands_by_name(self, number: int) -> bool:
        return self.names.get(number, "") in self.scope.theorems

    def text(self, number: int, depth: int = 0) -> str:
        """The expression, which may stand as an argument. Uncitable, Untranslatable or Unwritable where there is none."""
        if depth > _DEEPEST:
            raise Uncitable
        if self.stands_by_name(number):
            return self.names[number]
        theorem = self.record.theorems[number]
        parts = [part for kind, part in theorem.arguments if kind == "h"]
        given = [self.translator.term(part) for kind, part in theorem.arguments if kind == "t"]
        rule = theorem.rule
        if rule == "ASSUME" or theorem.conclusion in theorem.hypotheses:
            return "(ASSUME %s)" % self.quoter.quote(self.translator.term(theorem.conclusion))
        if rule == "REFL":
            return "(REFL %s)" % self.quoter.quote(given[0])
        if rule in ("SPEC", "ISPEC", "SPECL", "ISPECL"):
            return self.specialized(parts[0], given, depth)
        if rule == "GSYM":
            return self.turned(parts[0], depth)
        if rule in ("SYM", "CONJUNCT1", "CONJUNCT2"):
            return "(%s %s)" % (rule, self.text(parts[0], depth + 1))
        if rule == "MP":
            return "(MP %s %s)" % (self.text(parts[0], depth + 1), self.text(parts[1], depth + 1))
        if rule == "MATCH_MP":
            return self.matched(parts[0], parts[1], depth)
        if rule in _SAME:
            return self.text(parts[0], depth + 1)
        raise Uncitable

    def specialized(self, number: int, given: Sequence[Term], depth: int) -> str:
        """A theorem at terms for its first variables."""
        text, statement = self.text(number, depth + 1), self.conclusion(number)
        types: Dict[str, Type] = {}
        for term in given:
            found = typed.quantified(statement)
            if not found or found[0] != "!" or not typed.match_type(found[2], typed.type_of(term), types):
                raise Uncitable
            statement = typed.opened(found[3], term)
        text = self.at_types(text, types)
        for term in given:
            text = "(SPEC %s %s)" % (self.quoter.quote(term), text)
        return text

    @staticmethod
    def at_types(text: str, types: Dict[str, Type]) -> str:
        pairs = "; ".join("`:%s`,`:%s`" % (type_text(ty), name) for name, ty in sorted(types.items()) if ty != name)
        return "(INST_TYPE [%s] %s)" % (pairs, text) if pairs else text

    def turned(self, number: int, depth: int) -> str:
        """An equation turned round, at its own variables."""
        text, statement = self.text(number, depth + 1), self.conclusion(number)
        used: Set[str] = {one[1] for one in typed.variables(statement)} | set(self.scope.signature.constants)
        while True:
            found = typed.quantified(statement)
            if not found or found[0] != "!":
                break
            name = str(found[1])
            while name in used:
                name += "'"
            used.add(name)
            variable = ("v", name, found[2])
            text, statement = "(SPEC %s %s)" % (self.quoter.quote(variable), text), typed.opened(found[3], variable)
        sides = typed.binary(statement)
        if not sides or sides[0] not in ("=", "<=>"):
            raise Uncitable
        return "(SYM %s)" % text

    def matched(self, implication: int, premise: int, depth: int) -> str:
        """A theorem !xs. p ==> q, at what makes p a theorem's conclusion."""
        text, other = self.text(implication, depth + 1), self.text(premise, depth + 1)
        statement, wanted = self.conclusion(implication), self.conclusion(premise)
        names, statement = opened(statement)
        sides = typed.binary(statement)
        if not sides or sides[0] != "==>":
            raise Uncitable
        terms: Dict[str, Term] = {}
        types: Dict[str, Type] = {}
        if not match(sides[1], wanted, terms, types) or set(terms) != {name for name, _ in names}:
            raise Uncitable
        text = self.at_types(text, types)
        for name, _ in names:
            text = "(SPEC %s %s)" % (self.quoter.quote(terms[name]), text)
        return "(MP %s %s)" % (text, other)

    def leaves(self, number: int, depth: int = 0) -> Iterator[str]:
        """The names of the theorems that one was made of."""
        if self.stands_by_name(number):
            yield self.names[number]
        elif depth < _DEEPEST:
            for kind, part in self.record.theorems[number].arguments:
                if kind == "h":
                    yield from self.leaves(part, depth + 1)

    def closed(self, number: int) -> Term:
        """What a theorem says, for all that its hypotheses don't name."""
        theorem = self.record.theorems[number]
        kept: FrozenSet[Term] = frozenset()
        for hypothesis in theorem.hypotheses:
            kept |= typed.variables(self.translator.term(hypothesis))
        term = self.conclusion(number)
        for variable in sorted(typed.variables(term) - kept, reverse=True, key=lambda one: (one[1], str(one[2]))):
            quantifier = ("c", "!", typed.fun(typed.fun(variable[2], typed.BOOL), typed.BOOL))
            term = ("a", quantifier, typed.abstract(variable, term))
        return term


def match(pattern: Term, term: Term, terms: Dict[str, Term], types: Dict[str, Type], depth: int = 0) -> bool:
    """Matching; the pattern's variables with names that begin with `?` may become anything closed, and functions where they are applied to
    different bound variables."""
    kind = pattern[0]
    applied = _applied(pattern)
    if applied:
        made = _function(applied, term, types)
        return made is not None and terms.setdefault(applied[0][1], made) == made
    if kind == "v" and pattern[1].startswith("?"):
        if typed.has_loose(term) or not typed.match_type(pattern[2], typed.type_of(term), types):
            return False
        return terms.setdefault(pattern[1], term) == term
    if kind != term[0]:
        return False
    if kind == "a":
        return match(pattern[1], term[1], terms, types) and match(pattern[2], term[2], terms, types)
    if kind == "l":
        return typed.match_type(pattern[2], term[2], types) and match(pattern[3], term[3], terms, types)
    if kind == "b":
        return pattern == term
    return pattern[1] == term[1] and typed.match_type(pattern[2], term[2], types)


def _applied(pattern: Term) -> Optional[Tuple[Term, List[int]]]:
    """A variable that may become a function, and the bound variables that it is applied to."""
    bound: List[int] = []
    while pattern[0] == "a" and pattern[2][0] == "b":
        bound.append(pattern[2][1])
        pattern = pattern[1]
    is_one = bound and pattern[0] == "v" and pattern[1].startswith("?") and len(set(bound)) == len(bound)
    return (pattern, bound[::-1]) if is_one else None


def _function(applied: Tuple[Term, List[int]], term: Term, types: Dict[str, Type]) -> Optional[Term]:
    """The function of bound variables that a term is; None where it has other ones."""
    variable, bound = applied
    places = {number: len(bound) - 1 - place for place, number in enumerate(bound)}

    def put(part: Term, depth: int) -> Term:
        if part[0] == "b":
            if part[1] < depth:
                return part
            return ("b", places[part[1] - depth] + depth)
        if part[0] == "a":
            return ("a", put(part[1], depth), put(part[2], depth))
        return ("l", part[1], part[2], put(part[3], depth + 1)) if part[0] == "l" else part

    try:
        made = put(term, 0)
    except KeyError:
        return None
    ty, names = variable[2], []
    for _ in bound:
        names.append(ty[1])
        ty = ty[2]
    for own in reversed(names):
        made = _contracted(("l", typed.Hint("x"), typed.instantiated(own, types), made))
    try:
        return made if typed.match_type(variable[2], typed.type_of(made), types) else None
    except (IndexError, TypeError):
        return None


def opened(statement: Term) -> Tuple[List[Tuple[str, Type]], Term]:
    """A statement's outer variables, with names that `match` may put something for, and what stands behind them."""
    names: List[Tuple[str, Type]] = []
    while True:
        found = typed.quantified(statement)
        if not found or found[0] != "!":
            return names, statement
        names.append(("?%d" % len(names), found[2]))
        statement = typed.opened(found[3], ("v", names[-1][0], found[2]))


def _contracted(term: Term) -> Term:
    """A function `\\x. f x` as f."""
    body = term[3]
    if body[0] != "a" or body[2] != ("b", 0) or any(part == ("b", 0) for part in _outer(body[1])):
        return term
    return _lowered(body[1], 0)


def _outer(term: Term, depth: int = 0) -> Iterator[Term]:
    """The bound variables of a term that are bound outside, as they are counted there."""
    if term[0] == "b":
        if term[1] >= depth:
            yield ("b", term[1] - depth)
    elif term[0] == "a":
        yield from _outer(term[1], depth)
        yield from _outer(term[2], depth)
    elif term[0] == "l":
        yield from _outer(term[3], depth + 1)


def _lowered(term: Term, depth: int) -> Term:
    """A term under one binder less."""
    if term[0] == "b":
        return ("b", term[1] - 1) if term[1] > depth else term
    if term[0] == "a":
        return ("a", _lowered(term[1], depth), _lowered(term[2], depth))
    return ("l", term[1], term[2], _lowered(term[3], depth + 1)) if term[0] == "l" else term
