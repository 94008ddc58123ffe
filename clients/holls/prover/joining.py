"""A found proof as one step: its commands joined by THEN and THENL, by the goals that each leaves."""

from __future__ import annotations

from typing import List, Optional, Sequence, Tuple

from holls.protocol import Goals
from holls.prover import trying
from holls.prover.asking import Asker

_MOST = 100
"""A proof of more commands stays as it is."""


def as_one(asker: Asker, texts: Sequence[str], goals: Goals) -> Optional[str]:
    """The command `e` that does what several do, which the program has run; None for a proof of one command, and where it isn't accepted."""
    if not 1 < len(texts) <= _MOST:
        return None
    mark = asker.count
    made = _joined(asker, list(texts), 0, len(goals.goals))
    asker.back(mark)
    if made is None or made[1] != len(texts):
        return None
    text = "e " + made[0]
    return text if trying.check(asker, [text], goals) else None


def _joined(asker: Asker, texts: List[str], at: int, count: int) -> Optional[Tuple[str, int]]:
    """The commands that close the first of so many goals as one expression, and the number of the command behind them."""
    if at >= len(texts):
        return None
    call = texts[at][len("e "):]
    found = trying.goals_after(asker, call)
    if found is None:
        return None
    call = "(%s)" % call if trying.pieces(call) == [call] and " ORELSE " in call else call
    left, at = len(found.goals) - count + 1, at + 1
    parts: List[str] = []
    for number in range(left):
        inner = _joined(asker, texts, at, count + left - 1 - number)
        if inner is None:
            return None
        part, at = inner
        parts.append(part)
    if left > 1:
        return "%s THENL [%s]" % (call, "; ".join(parts)), at
    return (call + " THEN " + parts[0] if parts else call), at
