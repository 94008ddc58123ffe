"""What packages put into other commands: the plain steps of `INDUCT_ON` and its like, and the theorems of named lists."""

from __future__ import annotations

import re
from functools import lru_cache
from typing import AbstractSet, Callable, List, Optional, Sequence, Tuple, Union

from holls.packages import listed, steps
from holls.packages.scope import Asking, Standing
from holls.packages.steps import Change
from holls.surface.errors import Misread
from holls.surface.plain import Segment
from holls.surface.translation import Translation
from holls.text import REMEMBERED

_NAMES = re.compile(r"[A-Za-z_][A-Za-z0-9_']*")
Placed = Tuple[str, Union[List[Change], Misread]]
"""A step's text, and what stands in place of its rules, or what is wrong with one."""
USING = ("e", "deftac", "theorems")
"""The commands in which lists of theorems stand."""


def translated(found: Translation, word: str, lists: AbstractSet[str], standing: Callable[[], Standing], placed: Optional[Placed] = None) -> Translation:
    """A command's translation with what packages put into it; `placed` is what stands in place of its rules."""
    if word not in USING or found.error is not None:
        return found
    text = found.text
    may_have_step, has_types = _asks(text)
    has_step = may_have_step and word == "e"
    has_list = bool(lists) and not lists.isdisjoint(_NAMES.findall(text))
    has_rules = placed is not None and placed[0] == text
    if not has_step and not has_list and not has_rules and not has_types:
        return found
    now = standing()
    asking = Asking(now)
    try:
        if has_rules and isinstance(placed[1], Misread):
            raise placed[1]
        rules: List[Change] = placed[1] if has_rules else []
        made = rules + (_outside(listed.changes(found.text, asking), rules) if has_list else [])
        made += _outside(listed.of_types(found.text, asking), rules) if has_types else []
        if has_step:
            statement = now.open[1] if now.open else None
            made += steps.changes(found.text, asking, statement, now.steps)
    except Misread as error:
        return Translation("", None, Misread(*found.range(error.start, error.end), error.text), found.answers)
    except RecursionError:
        return Translation("", None, Misread(0, 1, "this is nested too deeply for a package"), found.answers)
    return replaced(found, made) if made else found


@lru_cache(REMEMBERED)
def _asks(text: str) -> Tuple[bool, bool]:
    """Whether a step of packages may stand in a text, and whether words for what a type's constructors are do."""
    return bool(steps.MAYBE.search(text)), listed.may_have_types(text) and bool(listed.OF_TYPES.search(text))


def _outside(changes: Sequence[Change], others: Sequence[Change]) -> List[Change]:
    """Changes that lie in no other one."""
    return [one for one in changes if not any(other.start <= one.start < other.end for other in others)]


def replaced(found: Translation, changes: Sequence[Change]) -> Translation:
    """A translation in which other texts stand at some ranges outside of quotations."""
    text = found.text
    segments: List[Segment] = list(found.segments) if found.segments is not None else [(0, 0, len(text))]
    for change in sorted(changes, reverse=True):
        start, end = found.range(change.start, change.end)
        grown = len(change.text) - (change.end - change.start)
        before = [one for one in segments if one[0] < change.start]
        behind = [(offset + grown, first, last) for offset, first, last in segments if offset >= change.end]
        rest = found.range(change.end, len(found.text))[0] if change.end < len(found.text) else end
        whole = _last_end(segments, change.end, len(found.text))
        if before and before[-1][2] > start:
            before[-1] = (before[-1][0], before[-1][1], start)
        middle: List[Segment] = [(change.start, start, end)]
        if change.end < len(text) and (not behind or behind[0][0] > change.end + grown):
            middle.append((change.end + grown, rest, whole))
        segments = [*before, *middle, *behind]
        text = text[:change.start] + change.text + text[change.end:]
    return Translation(text, segments, None, found.answers)


def _last_end(segments: Sequence[Segment], offset: int, length: int) -> int:
    """Where the segment of a place ends in the command as it is written."""
    return max((last for start, _, last in segments if start < max(offset, 1)), default=length) if segments else length
