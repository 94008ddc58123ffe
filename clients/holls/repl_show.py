"""How the prompt shows goals, refusals and names: with colours where a terminal has them."""

from __future__ import annotations

import os
import re
from typing import List, TextIO

from holls.api import Refused, State
from holls.protocol import Goal

MOST_GOALS = 5
"""So many goals are shown in full."""

BOLD, DIM, RED, GREEN, CYAN, PLAIN = "\x1b[1m", "\x1b[2m", "\x1b[31m", "\x1b[32m", "\x1b[36m", "\x1b[0m"
_CONTROL = re.compile("[\x00-\x08\x0b-\x1f\x7f-\x9f]")


def has_colours(stream: TextIO) -> bool:
    """Whether what is written there is coloured: on a terminal that isn't dumb, unless NO_COLOR is set."""
    return stream.isatty() and not os.environ.get("NO_COLOR") and os.environ.get("TERM", "dumb") != "dumb"


class Show:
    """Makes text of what is to be shown."""

    def __init__(self, is_coloured: bool) -> None:
        self._is_coloured = is_coloured

    def _in(self, colour: str, text: str) -> str:
        return colour + text + PLAIN if self._is_coloured else text

    def goals(self, state: State) -> str:
        """The open goals, the first one last, next to the prompt, as HOL Light shows them."""
        count = len(state.goals)
        if not count:
            return self._in(GREEN, "no goal is open: qed makes the theorem %s" % state.proof.name)
        shown = state.goals[:MOST_GOALS]
        parts = [self._goal(state.proof.theory.view.goal(goal)) for goal in reversed(shown)]
        head = "%d goal%s" % (count, "" if count == 1 else "s, the first one last")
        more = ["(the other %d are shown when these are done)" % (count - len(shown))] if len(shown) < count else []
        return "\n\n".join([self._in(DIM, head)] + more + parts) + "\n"

    def _goal(self, goal: Goal) -> str:
        lines: List[str] = []
        for at, text in enumerate(reversed(goal.assumptions)):
            lines.append("%s [%s]" % (self._in(DIM, "%3d" % at), self._in(CYAN, "`%s`" % text)))
        return "\n".join(lines + ([""] if lines else []) + [self._in(BOLD, "`%s`" % goal.conclusion)])

    def refused(self, refused: Refused) -> str:
        """A refusal: the command with its part that is to blame marked, and the sentence."""
        lines = refused.command.split("\n")
        before = refused.command[:refused.start].split("\n")
        line, column = len(before) - 1, len(before[-1])
        width = max(1, min(refused.end - refused.start, len(lines[line]) - column))
        shown, mark = plain(lines[line]), " " * column + "^" * width
        if len(shown) > 200:
            return self._in(RED, "refused: ") + refused.sentence
        return "%s\n%s\n%s%s" % (shown, self._in(RED, mark), self._in(RED, "refused: "), refused.sentence)

    def wrong(self, text: str) -> str:
        """Words on why a line can't be carried out."""
        return self._in(RED, text)


def plain(text: str) -> str:
    """A line without what would move a terminal's cursor, a character for each."""
    return _CONTROL.sub("?", text)
