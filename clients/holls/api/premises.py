"""Which theorems a proof of a goal may need: those that statements like it have cited, and those that are like it themselves.

The nearest statements vote for what their own commands cite, as in the machine learning of premises by nearest neighbours (Kaliszyk, Urban:
HOL(y)Hammer). Statements are compared by their symbols, of which a rare one weighs more.
"""

from __future__ import annotations

import math
import re
from collections import Counter
from typing import Dict, FrozenSet, List, Mapping, Optional, Sequence, Tuple

from holls.protocol import Goal

NEIGHBOURS = 40
"""So many of the nearest statements vote."""
RECENT, RECENT_WEIGHT = 20, 0.3
"""The theorems that were made last get a share of their own, the last one of this weight."""

_SYMBOL = re.compile(r"[A-Za-z_][A-Za-z0-9_']*|[=~/\\<>!?@]+")
_BOUND = re.compile(r"(?:[!?@\\]|\?!)([A-Za-z_][A-Za-z0-9_' ]*)\.")


def symbols(text: str) -> FrozenSet[str]:
    """The constants and connectives of a term's text, and such free variables as no binder in it has."""
    bound = {name for names in _BOUND.findall(text) for name in names.split()}
    return frozenset(_SYMBOL.findall(_BOUND.sub(" ", text))) - bound


class Ranking:
    """Theorems in the order in which they were made, with their statements and with what their commands cite."""

    def __init__(self, theorems: Sequence[Tuple[str, str]], cited: Mapping[str, Sequence[str]]) -> None:
        self._symbols = [symbols(statement) for _, statement in theorems]
        counts = Counter(one for found in self._symbols for one in found)
        self._weights: Dict[str, float] = {one: math.log((1 + len(theorems)) / count) ** 2 for one, count in counts.items()}
        self._lengths = [self._length(found) for found in self._symbols]
        places = {name: at for at, (name, _) in enumerate(theorems)}
        self._cited = [[places[word] for word in cited.get(name, ()) if word in places] for name, _ in theorems]
        self._recent = [RECENT_WEIGHT * max(0.0, 1 - (len(theorems) - at) / RECENT) for at in range(len(theorems))]

    def _length(self, found: FrozenSet[str]) -> float:
        return math.sqrt(sum(self._weights.get(one, 0.0) for one in found)) or 1.0

    def ranked(self, goal: Optional[Goal], most: Optional[int] = None) -> List[int]:
        """The places of the theorems, the likeliest first; of equal ones the later first."""
        wanted = symbols(" ".join((goal.conclusion,) + goal.assumptions)) if goal else frozenset()
        length = self._length(wanted)
        likeness = [sum(self._weights[one] for one in found & wanted) / (length * own) for found, own in zip(self._symbols, self._lengths)]
        scores = [like + recent for like, recent in zip(likeness, self._recent)]
        for near in sorted(range(len(scores)), key=lambda at: -likeness[at])[:NEIGHBOURS]:
            for at in self._cited[near]:
                scores[at] += likeness[near] ** 2
        return sorted(range(len(scores)), key=lambda at: (-scores[at], -at))[:most]
