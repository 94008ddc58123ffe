"""What is found of a theorem's statement, once for all goals."""

from __future__ import annotations

from functools import cached_property
from typing import Dict, FrozenSet, List, Optional, Tuple

from holls.prover import induction, patterns, typed
from holls.prover.induction import Induction
from holls.prover.patterns import Key, Pattern
from holls.prover.typed import Term

Computed = Tuple[str, List[Tuple[int, str]]]


class Fact:
    """A theorem's statement."""

    def __init__(self, name: str, term: Term) -> None:
        self.name, self.term = name, term
        self.computed: Dict[FrozenSet[str], List[Optional[Computed]]] = {}
        """Of each conclusion the function that it computes, and where constructors stand in it, by the constructors that there are."""

    @cached_property
    def patterns(self) -> List[Pattern]:
        """What it concludes."""
        return patterns.patterns(self.term)

    @cached_property
    def keys(self) -> List[Key]:
        """What its conclusions and their arguments begin with."""
        return [patterns.key(one.conclusion) for one in self.patterns]

    @cached_property
    def head(self) -> Optional[str]:
        """The constant that it begins with."""
        return patterns.head(self.term)

    @cached_property
    def heads(self) -> FrozenSet[str]:
        """The constants that what it concludes begins with, or the left side of it where that is an equation."""
        return frozenset(filter(None, (patterns.head(patterns.rewritten(one.conclusion)) for one in self.patterns)))

    @cached_property
    def constants(self) -> FrozenSet[str]:
        """The names of its constants."""
        return frozenset(part[1] for part in typed.subterms(self.term) if part[0] == "c")

    @cached_property
    def size(self) -> int:
        """How many names it has."""
        return typed.size(self.term)

    @cached_property
    def is_closed(self) -> bool:
        """Whether no variable is free in it."""
        return not typed.variables(self.term)

    @cached_property
    def types(self) -> List[str]:
        """Its type variables, in order."""
        return sorted(typed.term_types(self.term))

    @cached_property
    def inductions(self) -> List[Induction]:
        """The inductions that it states."""
        return induction.of(self.name, self.term)
