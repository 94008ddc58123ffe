"""A found proof made shorter: theorems that its lists don't need and calls that it can do without are taken out, as long as it still ends."""

from __future__ import annotations

import re
import time
from typing import List, Optional, Sequence, Tuple

from holls.protocol import Goals
from holls.prover import trying
from holls.prover.asking import Asker

_LIST = re.compile(r"\[((?:[^\[\]`]|`[^`]*`|\[(?:[^\[\]`]|`[^`]*`)*\])*)\]")
_STEP_SECONDS = 2.0


class Polisher:
    """Makes proofs shorter in a server's copy, each within some seconds."""

    def __init__(self, asker: Asker, seconds: float) -> None:
        self.asker, self.seconds = asker, seconds

    def shorter(self, commands: Sequence[str]) -> Optional[List[str]]:
        """The commands of a proof, from its `g` to its `qed`, made fewer or shorter; None where they are no proof here. The copy is as before."""
        mark = self.asker.count
        until = time.monotonic() + self.seconds
        try:
            if not isinstance(self.asker.step(commands[0]), Goals):
                return None
            steps = [text[len("e "):] for text in commands[1:-1]]
            if not self._ends(steps):
                return None
            steps = self._without_theorems(steps, mark + 1, until)
            self.asker.back(mark + 1)
            goals = self.asker.report(mark)
            texts = ["e " + step for step in steps]
            if isinstance(goals, Goals) and time.monotonic() < until:
                texts = trying.fewer(self.asker, texts, goals, until)
            self.asker.back(mark + 1)
            return [commands[0], *texts, commands[-1]] if self._ends([text[len("e "):] for text in texts]) else None
        finally:
            self.asker.back(mark)

    def depths(self, commands: Sequence[str]) -> Optional[List[int]]:
        """How many goals are open behind each command of a proof but the last; None where one is refused. The copy is as before."""
        mark, made = self.asker.count, []
        try:
            for text in commands[:-1]:
                report = self.asker.step(text)
                if not isinstance(report, Goals):
                    return None
                made.append(len(report.goals))
            return made
        finally:
            self.asker.back(mark)

    def _ends(self, steps: Sequence[str]) -> bool:
        """Whether steps close all goals; they stand then."""
        report: object = None
        for step in steps:
            report = self.asker.attempt("e " + step, time.monotonic() + _STEP_SECONDS)
            if not isinstance(report, Goals):
                return False
        return isinstance(report, Goals) and not report.goals

    def _without_theorems(self, steps: List[str], mark: int, until: float) -> List[str]:
        steps = list(steps)
        for at in reversed(range(len(steps))):
            number = 0
            while time.monotonic() < until:
                lists = [found for found in _LIST.finditer(steps[at]) if not found.group(1).lstrip().startswith("`:")]
                if number >= len(lists):
                    break
                steps[at] = self._without(steps, at, lists[number].span(1), mark, until)
                number += 1
            self.asker.back(mark + at)
        return steps

    def _without(self, steps: List[str], at: int, span: Tuple[int, int], mark: int, until: float) -> str:
        """A step whose list at a place has no theorem that isn't needed; the last ones are tried first."""
        text, (begin, end) = steps[at], span
        items = _items(text[begin:end])
        if not items or any(_is_expression(item) for item in items):
            return text
        for place in reversed(range(len(items))):
            fewer = items[:place] + items[place + 1:]
            tried = text[:begin] + "; ".join(fewer) + text[end:]
            self.asker.back(mark + at)
            if time.monotonic() > until:
                break
            if self._ends([tried] + steps[at + 1:]):
                items, text = fewer, tried
                end = begin + len("; ".join(items))
        return text


def _items(text: str) -> List[str]:
    """The items of a list, between semicolons outside of brackets and quotations."""
    made, depth, begun, is_quoted = [], 0, 0, False
    for place, character in enumerate(text):
        if character == "`":
            is_quoted = not is_quoted
        elif not is_quoted:
            depth += (character in "([") - (character in ")]")
            if character == ";" and depth == 0:
                made.append(text[begun:place].strip())
                begun = place + 1
    last = text[begun:].strip()
    return made + [last] if last else made


def _is_expression(item: str) -> bool:
    """Whether an item is an expression on goals, as in a list behind THENL, and no theorem."""
    return re.search(r"_TAC\b|\bTHEN\b", item.split("`")[0]) is not None
