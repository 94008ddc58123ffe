"""The first goal of a proof in a server, and what is known there."""

from __future__ import annotations

from typing import List, Optional, Sequence

from holls.protocol import Goals
from holls.prover import clock, named, trying
from holls.prover.asking import Asker
from holls.prover.finding import Item
from holls.prover.knowledge import Knowledge
from holls.prover.scripts import Step
from holls.prover.shown import Reader, Shown

LEAVING_SECONDS = 0.15
"""So long calls are left out that nothing needs."""


class Place:
    """A goal, in a proof that stands in a server. Unreadable where the prover's reader can't have a term of it."""

    def __init__(self, asker: Asker, known: Knowledge, functions: named.Functions, reader: Reader, goals: Goals) -> None:
        self.asker, self.known, self.functions, self.reader, self.goals = asker, known, functions, reader, goals
        self.shown: Shown = reader.read(goals.goals[0])
        terms = list(self.shown.assumptions) + [self.shown.conclusion]
        self.terms = terms
        self.items = [Item(True, term, False) for term in terms[:-1]] + [Item(False, terms[-1], True)]
        self.is_growing = any(trying.grows(term) for term in terms) or trying.grow_together(terms)

    @property
    def count(self) -> int:
        """How many goals are open."""
        return len(self.goals.goals)

    def at(self, goals: Goals) -> "Place":
        """The first of other goals of the same proof."""
        return Place(self.asker, self.known, self.functions, self.reader, goals)

    def after(self, text: str) -> Optional[Goals]:
        """The goals behind a step, which then stands; None where it is refused."""
        return trying.goals_after(self.asker, text)

    def closes(self, text: str) -> bool:
        """Whether a step closes the goal, and leaves the others as they are; it is taken back."""
        return trying.check(self.asker, ["e " + text], self.goals)

    def checked(self, texts: Optional[List[str]], first: Optional[int] = None) -> Optional[List[str]]:
        """Commands that close the goal, without calls that it doesn't need; None where they don't."""
        return self.fewer(texts, first) if texts and trying.check(self.asker, texts, self.goals) else None

    def fewer(self, texts: List[str], first: Optional[int] = None) -> List[str]:
        """Commands that close the goal, without calls and theorems that it doesn't need; or so many of them at the beginning."""
        until = clock.now() + LEAVING_SECONDS
        made = trying.fewer(self.asker, texts, self.goals, until, first)
        if len(made) != len(texts):  # The first ones are one less.
            first = None if first is None else first - 1
        return trying.shorter(self.asker, made, self.goals, until, first)

    def fine(self, names: Sequence[str]) -> List[str]:
        """Those of some theorems by which rewriting is likely to end."""
        return [name for name in names if self.known.is_decreasing(name) or not trying.grows(self.known.scope.theorems[name])]


def has(step: Step, text: str) -> bool:
    """Whether a text stands in steps."""
    return text in step.text or any(has(sub, text) for sub in step.subs)
