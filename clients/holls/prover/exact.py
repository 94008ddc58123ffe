"""Theorems that say what a goal says: as they stand, at some terms, turned round, or by assumptions."""

from __future__ import annotations

import itertools
from typing import Dict, Iterator, List, NamedTuple, Optional, Sequence, Tuple

from holls.prover import patterns, typed
from holls.prover.facts import Fact
from holls.prover.patterns import LEFT, PREMISE, SPEC, Binding, Key, Pattern
from holls.prover.shown import Shown
from holls.prover.typed import Term
from holls.prover.writing import Quoter, Unwritable, type_text

_MOST = 12
"""So many theorems are tried for a goal."""


class Candidate(NamedTuple):
    """A step that may close a goal, or leave what a theorem needs; `is_whole` where nothing is left."""

    step: str
    is_whole: bool
    name: str


class Exact:
    """Looks for theorems that conclude a goal."""

    def __init__(self, facts: Sequence[Fact], quoter: Quoter) -> None:
        self.quoter = quoter
        self._facts = {fact.name: fact for fact in facts}
        self._wholes: Dict[Optional[str], List[Fact]] = {}
        self._heads: Dict[Key, List[Tuple[str, Pattern]]] = {}
        for fact in facts:
            self._wholes.setdefault(fact.head, []).append(fact)
            for key, pattern in zip(fact.keys, fact.patterns):
                self._heads.setdefault(key, []).append((fact.name, pattern))

    def whole(self, shown: Shown) -> List[str]:
        """Steps that close a goal as it stands, the short ones first."""
        found = itertools.islice((one for one in self._candidates(shown) if one.is_whole), _MOST)
        return sorted({one.step for one in found}, key=lambda step: (len(step), step))

    def leaving(self, shown: Shown) -> List[str]:
        """Steps that leave of a goal what a theorem needs, the names that most of the goal's constants stand in first."""
        constants = frozenset(part[1] for part in typed.subterms(shown.conclusion) if part[0] == "c")
        found = {one.step: one.name for one in self._candidates(shown) if not one.is_whole}
        return sorted(found, key=lambda step: (len(self._facts[found[step]].constants ^ constants), step))[:_MOST]

    def _candidates(self, shown: Shown) -> Iterator[Candidate]:
        goal = shown.conclusion
        for fact in self._wholes.get(patterns.head(goal), ()):
            if Binding().match(fact.term, goal):
                yield Candidate("ACCEPT_TAC " + self._typed(fact, goal), True, fact.name)
        turned = _turned(goal)
        for wanted, is_turned in ((goal, False), (turned, True)):
            if wanted is None:
                continue
            for name, pattern in itertools.chain.from_iterable(self._heads.get(key, ()) for key in patterns.keys(patterns.key(wanted))):
                binding = Binding()
                if pattern.path and binding.match(pattern.conclusion, wanted):
                    yield from self._used(name, pattern, binding, shown.assumptions, is_turned)

    def _used(self, name: str, pattern: Pattern, binding: Binding, assumptions: Sequence[Term], is_turned: bool) -> Iterator[Candidate]:
        """Steps by a theorem that concludes a goal."""
        whole = next(patterns.fitting(pattern.premises, assumptions, binding), None)
        if whole is not None and len(whole.terms) == pattern.count:
            expression = self.expression(name, pattern, whole, assumptions)
            if expression is not None:
                yield Candidate("ACCEPT_TAC " + ("(SYM %s)" % expression if is_turned else expression), True, name)
                return
        if not is_turned and pattern.premises and all(kind in (SPEC, PREMISE) for kind, _ in pattern.path):
            yield Candidate("MATCH_MP_TAC " + name, False, name)

    def expression(self, name: str, pattern: Pattern, binding: Binding, assumptions: Sequence[Term]) -> Optional[str]:
        """A theorem at what is bound, its premises by assumptions; None where it can't be written."""
        names = self._facts[name].types
        types = {variable: binding.types[variable] for variable in names if binding.types.get(variable, variable) != variable}
        pairs = "; ".join("`:%s`,`:%s`" % (type_text(ty), variable) for variable, ty in types.items())
        made = "(INST_TYPE [%s] %s)" % (pairs, name) if pairs else name
        try:
            for kind, given in pattern.path:
                if kind == SPEC:
                    made = "(SPEC %s %s)" % (self.quoter.quote(binding.terms[given[1]]), made)
                elif kind == PREMISE:
                    premise = self._shown(binding.instance(given), assumptions)
                    if premise is None:
                        return None
                    made = "(MP %s %s)" % (made, premise)
                else:
                    made = "(%s %s)" % ("CONJUNCT1" if kind == LEFT else "CONJUNCT2", made)
        except Unwritable:
            return None
        return made

    def _shown(self, term: Optional[Term], assumptions: Sequence[Term]) -> Optional[str]:
        return "(ASSUME %s)" % self.quoter.quote(term) if term is not None and term in assumptions else None

    def _typed(self, fact: Fact, goal: Term) -> str:
        """A theorem at the types of a goal that it says."""
        binding = Binding()
        binding.match(fact.term, goal)
        pairs = "; ".join("`:%s`,`:%s`" % (type_text(ty), variable) for variable, ty in sorted(binding.types.items()) if ty != variable)
        return "(INST_TYPE [%s] %s)" % (pairs, fact.name) if pairs else fact.name


def _turned(goal: Term) -> Optional[Term]:
    """An equation turned round."""
    sides = typed.binary(goal)
    return typed.mk_eq(sides[2], sides[1]) if sides and sides[0] in ("=", "<=>") else None
