"""What two texts, or two lists, have in common."""

from __future__ import annotations

from typing import Callable, Sequence, Tuple


def ends(old: Sequence[str], new: Sequence[str]) -> Tuple[int, int]:
    """How many elements both have in common at their beginning, and how many of the others at their end."""
    most = min(len(old), len(new))
    head = _largest(most, lambda number: old[:number] == new[:number])
    return head, _largest(most - head, lambda number: old[len(old) - number:] == new[len(new) - number:])


def _largest(most: int, holds: Callable[[int], bool]) -> int:
    """The largest number up to `most` for which something holds that holds of all smaller ones too."""
    least = 0
    while least < most:
        middle = (least + most + 1) // 2
        if holds(middle):
            least = middle
        else:
            most = middle - 1
    return least
