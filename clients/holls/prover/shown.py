"""Goals that the program shows, as terms."""

from __future__ import annotations

from typing import Dict, List, NamedTuple, Optional, Tuple

from holls.protocol import Goal
from holls.prover import reading, retyping, typed
from holls.prover.reading import Signature
from holls.prover.typed import Term, Type


class Shown(NamedTuple):
    """A goal's assumptions, the newest first, what it shows, and the types of its free variables by their names."""

    assumptions: Tuple[Term, ...]
    conclusion: Term
    free: Dict[str, Type]


class Reader:
    """Reads goals over what stands; a text is read once. `statement` is what is being proved, which says types that a goal leaves open."""

    def __init__(self, signature: Signature, statement: Optional[Term] = None) -> None:
        self.signature, self.statement = signature, statement
        self._known: Dict[Tuple[str, Tuple[str, ...]], Term] = {}
        self._types: Dict[str, Type] = {}

    def read(self, goal: Goal) -> Shown:
        """A goal's terms. Unreadable where the prover's reader can't have one of them."""
        free: Dict[str, Type] = {}
        for text in goal.free:
            name, _, ty = text.partition(":")
            if ty not in self._types:
                self._types[ty] = reading.type_text(ty, self.signature)
            free[name] = self._types[ty]
        read = [self._term(text, goal.free, free) for text in goal.assumptions + (goal.conclusion,)]
        return Shown(tuple(read[:-1]), read[-1], free)

    def _term(self, text: str, names: Tuple[str, ...], free: Dict[str, Type]) -> Term:
        key = text, names
        if key not in self._known:
            term = reading.term(text, self.signature, free, typed.BOOL, retyping.OPEN)
            self._known[key] = term if self.statement is None else retyping.resolved(term, self.statement)
        return self._known[key]


def stripped(term: Term) -> Term:
    """A formula without its outer `!`, at variables of the same names."""
    names: List[str] = [one[1] for one in typed.variables(term)]
    while True:
        found = typed.quantified(term)
        if not found or found[0] != "!":
            return term
        _, name, ty, body = found
        fresh = str(name)
        while fresh in names:
            fresh += "'"
        names.append(fresh)
        term = typed.opened(body, ("v", fresh, ty))
