"""Conditional rewriting: instances of theorems whose conditions can be shown, each put in as a step."""

from __future__ import annotations

from typing import Dict, Iterator, List, NamedTuple, Optional, Sequence, Tuple

from holls.prover import patterns, shaping, typed
from holls.prover.knowledge import Knowledge
from holls.prover.patterns import PREMISE, Binding, Pattern
from holls.prover.shown import Shown
from holls.prover.typed import Term

_MOST_RULES = 200
_MOST_INSTANCES = 8
_MOST_PARTS = 400


class Rule(NamedTuple):
    """A theorem by which a part of a goal may be rewritten under conditions."""

    name: str
    pattern: Pattern
    left: Term
    right: Optional[Term]


class Instance(NamedTuple):
    """A rule at some terms: its theorem's expression, the part that it rewrites, and the conditions that aren't assumed. Of a part under binders also the
    variables that are bound outside of it, and the equation for all their values."""

    theorem: str
    part: Term
    conditions: Tuple[Term, ...]
    bound: Tuple[Term, ...] = ()
    said: Optional[Term] = None


def rules(names: Sequence[str], knowledge: Knowledge) -> List[Rule]:
    """The conditional rules of some theorems: equations whose right side has no variable more, and other conclusions, which are true."""
    found: List[Rule] = []
    for name in names:
        for pattern in knowledge.scope.fact(name).patterns:
            left = _left(pattern)
            if left is not None:
                sides = typed.binary(pattern.conclusion)
                found.append(Rule(name, pattern, left, sides[2] if sides and sides[1] is left else None))
    return found[:_MOST_RULES]


def _left(pattern: Pattern) -> Optional[Term]:
    """What a conditional theorem rewrites."""
    if not any(kind == PREMISE for kind, _ in pattern.path):
        return None
    sides = typed.binary(pattern.conclusion)
    if not sides or sides[0] not in ("=", "<=>"):
        inner = typed.negated(pattern.conclusion)
        return pattern.conclusion if inner is None else inner
    if sides[1][0] == "m" or not _variables(sides[2]) <= _variables(sides[1]) or sides[1] == sides[2]:
        return None
    return sides[1]


def _variables(term: Term) -> frozenset:
    return frozenset(part[1] for part in typed.subterms(term) if part[0] == "m")


class Instances:
    """The instances of rules at a goal."""

    def __init__(self, every: Sequence[Rule], knowledge: Knowledge) -> None:
        self._knowledge = knowledge
        self._heads: Dict[Optional[str], List[Rule]] = {}
        for rule in every:
            self._heads.setdefault(patterns.head(rule.left), []).append(rule)

    def at(self, shown: Shown) -> List[Instance]:
        """Those at parts under no binder first; then with the fewest conditions that aren't assumed, and of these at the largest parts."""
        found = {one.theorem: one for one in self._all(shown)}
        return sorted(found.values(), key=lambda one: (len(one.bound), len(one.conditions), -typed.size(one.part)))[:_MOST_INSTANCES]

    def _all(self, shown: Shown) -> Iterator[Instance]:
        names = {one[1] for one in typed.variables(shown.conclusion)} | set(shown.free) | self._knowledge.constants
        every = dict(part for part, _ in zip(shaping.parts(shown.conclusion, names), range(_MOST_PARTS)))
        for part, bound in every.items():
            outside = [one for one in bound if one in typed.variables(part)]
            for rule in self._heads.get(patterns.head(part), []):
                binding = Binding()
                if (not outside or rule.right is not None) and binding.match(rule.left, part):
                    yield from self._conditioned(rule, binding, part, outside, shown)

    def _conditioned(self, rule: Rule, binding: Binding, part: Term, bound: Sequence[Term], shown: Shown) -> Iterator[Instance]:
        """A rule at a part, with what isn't bound by it found among the assumptions."""
        premises = rule.pattern.premises
        loose = [premise for premise in premises if binding.instance(premise) is None]
        whole = next(patterns.fitting(loose, shown.assumptions, binding), None)
        if whole is None or len(whole.terms) < rule.pattern.count:
            return
        conditions = [whole.instance(premise) for premise in premises]
        assumed = list(shown.assumptions) + [one for one in conditions if one is not None]
        theorem = self._knowledge.exact.expression(rule.name, rule.pattern, whole, assumed)
        if theorem is None:
            return
        outside, said = shaping.said_of(part, typed.reduced(whole.instance(rule.right)), bound) if bound else ((), None)
        yield Instance(theorem, part, tuple(one for one in conditions if one not in shown.assumptions), outside, said)
