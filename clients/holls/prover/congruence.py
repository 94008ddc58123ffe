"""Which terms are equal by equations: congruence closure over applications."""

from __future__ import annotations

from typing import Dict, List, Optional, Sequence, Tuple

from holls.prover import typed
from holls.prover.typed import Term


class Congruence:
    """The classes of terms under equations. A class has the terms that are in it, the smallest of them, and the applications that a term of it
    is part of."""

    def __init__(self, equations: Sequence[Term] = ()) -> None:
        self._roots: Dict[Term, Term] = {}
        self.members: Dict[Term, List[Term]] = {}
        self.smallest: Dict[Term, Term] = {}
        self.sizes: Dict[Term, int] = {}
        self._above: Dict[Term, List[Term]] = {}
        self._signatures: Dict[Tuple[Term, Term], Term] = {}
        for equation in equations:
            _, left, right = typed.binary(equation)
            self.join(left, right)

    def are_equal(self, one: Term, other: Term) -> bool:
        """Whether two terms are equal."""
        if one == other:
            return True
        self.add(one)
        self.add(other)
        return self.find(one) == self.find(other)

    @property
    def count(self) -> int:
        """How many terms there are."""
        return len(self._roots)

    def find(self, term: Term) -> Term:
        """The term that stands for the class of one that was added."""
        return self._roots[term]

    def add(self, term: Term) -> Term:
        """Takes a term with its parts. Answers what stands for its class."""
        found = self._roots.get(term)
        if found is not None:
            return found
        self._roots[term], self.members[term], self._above[term] = term, [term], []
        self.smallest[term], self.sizes[term] = term, typed.size(term)
        if term[0] == "a":
            function, argument = self.add(term[1]), self.add(term[2])
            self._above[function].append(term)
            self._above[argument].append(term)
            other = self._signatures.setdefault((function, argument), term)
            if other is not term:
                self.join(term, other)
        return self._roots[term]

    def join(self, one: Term, other: Term) -> None:
        """Takes an equation."""
        self.add(one)
        self.add(other)
        waiting = [(one, other)]
        while waiting:
            one, other = (self._roots[term] for term in waiting.pop())
            if one == other:
                continue
            if len(self.members[one]) > len(self.members[other]):
                one, other = other, one
            for term in self.members[one]:
                self._roots[term] = other
            self.members[other] += self.members.pop(one)
            self.smallest[other] = min(self.smallest[other], self.smallest.pop(one), key=self.sizes.__getitem__)
            moved = self._above.pop(one)
            self._above[other] += moved
            for term in moved:
                signature = self._roots[term[1]], self._roots[term[2]]
                like = self._signatures.setdefault(signature, term)
                if self._roots[like] != self._roots[term]:
                    waiting.append((term, like))


def explanation(equations: Sequence[Term], one: Term, other: Term) -> Optional[List[Term]]:
    """A few of the equations by which two terms are equal; None where they aren't."""
    if not Congruence(equations).are_equal(one, other):
        return None
    needed = list(equations)
    width = max(1, len(needed) // 2)
    while width:
        at = 0
        while at < len(needed):
            fewer = needed[:at] + needed[at + width:]
            if Congruence(fewer).are_equal(one, other):
                needed = fewer
            else:
                at += width
        width //= 2
    return needed
