"""The edits that lead from the commands that stand in the server to those that are wanted."""

from __future__ import annotations

from dataclasses import dataclass
from difflib import SequenceMatcher
from typing import List, NamedTuple, Optional, Sequence

from holls.common import ends
from holls.protocol import COMMANDS

REPLACE, REMOVE, INSERT = "replace", "remove", "insert"


class Edit(NamedTuple):
    """An edit at a place of a theory's commands: `replace` and `insert` have a text."""

    op: str
    at: int
    text: str = ""

    def apply(self, texts: List[str]) -> None:
        """Does to a list of texts what the server does to the theory."""
        carry_out(texts, self.op, self.at, self.text)


def carry_out(texts: List[str], op: str, at: int, text: str) -> None:
    """Does to a list of texts what the server does to a theory at an edit."""
    if op == INSERT:
        texts.insert(at, text)
    elif op == REPLACE:
        texts[at] = text
    else:
        del texts[at]


@dataclass(frozen=True)
class Middle:
    """What differs of two lists: `old` elements of the first and `new` of the second, after a common beginning."""

    start: int
    old: int
    new: int


def middle(old: Sequence[str], new: Sequence[str]) -> Middle:
    """What is left of two lists without their common beginning and end."""
    start, end = ends(old, new)
    return Middle(start, len(old) - start - end, len(new) - start - end)


def difference(old: Sequence[str], new: Sequence[str], served: Sequence[str] = (REPLACE, REMOVE)) -> Optional[List[Edit]]:
    """The edits that make `new` of `old` by what is served beside `insert`; None where that needs more. Their places ascend, but for
    removes: an edit runs what it affects, and what stands above the next one is as it is to be."""
    part = middle(old, new)
    removes = REMOVE in served
    if part.old and REPLACE not in served:
        return _anew(part, new) if removes else None
    if part.old > part.new and not removes:
        return None
    parts = old[part.start:part.start + part.old], new[part.start:part.start + part.new]
    if removes and min(part.old, part.new) > 1:
        edits: List[Edit] = []
        for _, first, last, start, stop in SequenceMatcher(None, *parts).get_opcodes():
            edits += _hunk(parts[0][first:last], part.start + start, parts[1][start:stop])
        if _most(len(old), edits) <= COMMANDS:
            return edits
    return _hunk(parts[0], part.start, parts[1])


def _most(number: int, edits: Sequence[Edit]) -> int:
    """How many commands stand at most while the edits are made."""
    most = number
    for edit in edits:
        number += (edit.op == INSERT) - (edit.op == REMOVE)
        most = max(most, number)
    return most


def _hunk(old: Sequence[str], start: int, new: Sequence[str]) -> List[Edit]:
    """The edits that put `new` in the place of `old`, which begins at `start`."""
    both = min(len(old), len(new))
    edits = [Edit(REPLACE, start + at, new[at]) for at in range(both) if old[at] != new[at]]
    edits += [Edit(REMOVE, at) for at in range(start + len(old) - 1, start + len(new) - 1, -1)]
    return edits + [Edit(INSERT, start + at, new[at]) for at in range(both, len(new))]


def _anew(part: Middle, new: Sequence[str]) -> List[Edit]:
    """The middle taken out from the back, and the new one put in."""
    edits = [Edit(REMOVE, at) for at in range(part.start + part.old - 1, part.start - 1, -1)]
    return edits + [Edit(INSERT, at, new[at]) for at in range(part.start, part.start + part.new)]
