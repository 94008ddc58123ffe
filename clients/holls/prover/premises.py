"""The choice of theorems for a goal, by their constants and how rare these are: the relevance filter that J. Meng and L. C. Paulson describe
(Lightweight relevance filtering for machine-generated resolution problems, Journal of Applied Logic 7, 2009), as Isabelle's Sledgehammer has it."""

from __future__ import annotations

import math
from typing import Dict, FrozenSet, List, Sequence

from holls.prover import typed
from holls.prover.facts import Fact
from holls.prover.typed import Term

_FIRST_MARK = 0.5
_CONVERGENCE = 2.4
_ROUNDS = 6
_LARGEST = 60
"""A theorem with more names isn't taken."""


class Premises:
    """Theorems with their constants. `logical` are constants that say nothing of a theorem."""

    def __init__(self, facts: Sequence[Fact], logical: FrozenSet[str]) -> None:
        self.logical = logical
        self._symbols: Dict[str, FrozenSet[str]] = {}
        counts: Dict[str, int] = {}
        for fact in facts:
            own = fact.constants - logical
            if own and fact.size <= _LARGEST and fact.is_closed:
                self._symbols[fact.name] = own
                for symbol in own:
                    counts[symbol] = counts.get(symbol, 0) + 1
        self._weights = {symbol: 1.0 + 2.0 / math.log2(count + 1.0) for symbol, count in counts.items()}

    def symbols(self, term: Term) -> FrozenSet[str]:
        """A term's constants, but for the logical ones."""
        return frozenset(part[1] for part in typed.subterms(term) if part[0] == "c" and part[1] not in self.logical)

    def chosen(self, terms: Sequence[Term], most: int) -> List[str]:
        """The theorems that are chosen for a sequent, the likeliest first."""
        wanted = frozenset().union(*map(self.symbols, terms)) if terms else frozenset()
        left, chosen, mark = dict(self._symbols), [], _FIRST_MARK
        for _ in range(_ROUNDS):
            marked = [(self._mark(own, wanted), self._weight(own & wanted), name) for name, own in left.items() if own & wanted]
            taken = sorted((-value, -weight, number, name) for number, (value, weight, name) in enumerate(marked) if value >= mark)
            for _, _, _, name in taken[:most - len(chosen)]:
                chosen.append(name)
                wanted |= left.pop(name)
            if len(chosen) >= most:
                break
            mark = mark + (1.0 - mark) / _CONVERGENCE if taken else mark * 0.7
        return chosen

    def _mark(self, own: FrozenSet[str], wanted: FrozenSet[str]) -> float:
        shared = self._weight(own & wanted)
        return shared / (shared + len(own - wanted))

    def _weight(self, symbols: FrozenSet[str]) -> float:
        return sum(self._weights.get(symbol, 1.0) for symbol in symbols)
