"""The part of a step at a place, and what has to be run so that the goals before it are seen: at each THEN, THENL and ORELSE, in brackets too.

    A THEN (B THENL [C; D THEN E])        before E: `A THEN B THENL [ALL_TAC; D]`, and of its goals those behind the first one
"""

from __future__ import annotations

import re
from typing import Callable, List, NamedTuple, Optional, Tuple

_TOKEN = re.compile(r"`[^`]*`?|[\[\](){};]|[A-Za-z_][A-Za-z0-9_']*")
_INFIXES = ("THEN", "THENL", "ORELSE")
_ROUND = re.compile(r"(?:(?:TRY|REPEAT|CHANGED_TAC|REPLICATE_TAC\s+[0-9]+)\s*)?\(")
_LISTED = re.compile(r"(EVERY|FIRST)\s*\[")
_CLOSED = {"(": ")", "[": "]"}
_DEEPEST = 50

Wrap = Callable[[str], str]


class Part(NamedTuple):
    """A part of a step: the expression before it in its chain, the infix, its own text, what puts an expression of the chain where it stands, and of how
    many goals before and behind those of the chain there are by that. It is an alternative where ORELSE stands beside its chain."""

    before: str
    infix: str
    text: str
    wrap: Wrap
    first: int
    last: int
    is_alternative: bool
    is_top: bool

    @property
    def beginning(self) -> Optional[str]:
        """What leads to the goals before the part; None where these are those before the step."""
        return self.wrap(self.before) if self.before else None if self.is_top else self.wrap("ALL_TAC")

    @property
    def whole(self) -> str:
        """What leads to the goals behind the part."""
        return self.wrap(" ".join(one for one in (self.before, self.infix, self.text) if one))

    def on(self, at: int, count: int) -> str:
        """What runs the part on one of so many goals alone."""
        calls = "; ".join(self.text if other == at else "ALL_TAC" for other in range(count))
        return self.wrap("%s THENL [%s]" % (self.before or "ALL_TAC", calls))


class _Element(NamedTuple):
    """A call of a chain: the infix before it, where that begins, and the range of the call."""

    infix: str
    start: int
    begin: int
    end: int


def part_at(text: str, place: int) -> Optional[Part]:
    """The innermost part of an expression at a place; None where brackets don't close."""
    wrap: Wrap = lambda inner: inner
    start, end, first, last, is_top, is_alternative = 0, len(text), 0, 0, True, False
    for _ in range(_DEEPEST):
        chains = _chains(text, start, end)
        if chains is None:
            return None
        chain = next((one for one in reversed(chains) if one[0].start <= place), chains[0])
        is_alternative = is_alternative or len(chains) > 1
        element = next((one for one in reversed(chain) if one.start <= place), chain[0])
        before = text[chain[0].begin:element.start].strip() if element.infix else ""
        call = text[element.begin:element.end]
        part = Part(before, element.infix, call.strip(), wrap, first, last, is_alternative, is_top)
        inner = _inside(text, element, place, part)
        if inner is None:
            return part
        (start, end), wrap, more, behind = inner
        first, last, is_top = first + more, last + behind, is_top and not part.before and wrap is part.wrap
    return None


def _inside(text: str, element: _Element, place: int, part: Part) -> Optional[Tuple[Tuple[int, int], Wrap, int, int]]:
    """The range of the expression in a call's brackets at a place, with what puts it there, and the goals before and behind it."""
    begin, end = element.begin, element.end
    while begin < end and text[begin] in " \t\r\n":
        begin += 1
    while end > begin and text[end - 1] in " \t\r\n":
        end -= 1

    def behind(inner: str) -> str:
        return part.wrap("%s THEN %s" % (part.before, inner) if part.before else inner)

    if element.infix == "THENL" and text[begin:begin + 1] == "[":
        members = _members(text, begin, end)
        at = _member(members, place)
        if at is None:
            return None
        number = len(members)

        def among(inner: str) -> str:
            return part.wrap("%s THENL [%s]" % (part.before, "; ".join(inner if one == at else "ALL_TAC" for one in range(number))))

        return members[at], among, at, number - 1 - at
    opened = _ROUND.match(text, begin, end)
    if opened and _closing(text, opened.end() - 1, end) == end - 1 and opened.end() <= place < end:
        return (opened.end(), end - 1), part.wrap if not part.before else behind, 0, 0
    listed = _LISTED.match(text, begin, end)
    if listed and _closing(text, listed.end() - 1, end) == end - 1:
        members = _members(text, listed.end() - 1, end)
        at = _member(members, place)
        if at is None:
            return None
        calls = [text[one:other].strip() for one, other in members[:at]] if listed.group(1) == "EVERY" else []
        return members[at], lambda inner: behind(" THEN ".join(["(%s)" % call for call in calls] + [inner])), 0, 0
    return None


def _chains(text: str, start: int, end: int) -> Optional[List[List[_Element]]]:
    """The alternatives of an expression, each a chain of calls; None where brackets don't close."""
    found: List[List[_Element]] = [[]]
    infix, since, begin = "", start, start
    depth: List[str] = []
    for match in _TOKEN.finditer(text, start, end):
        token = match.group()
        if token in _CLOSED:
            depth.append(_CLOSED[token])
        elif token in ")]":
            if not depth or depth.pop() != token:
                return None
        elif token in _INFIXES and not depth:
            found[-1].append(_Element(infix, since, begin, match.start()))
            if token == "ORELSE":
                found.append([])
            infix, since, begin = "" if token == "ORELSE" else token, match.start(), match.end()
    if depth:
        return None
    found[-1].append(_Element(infix, since, begin, end))
    return found


def _closing(text: str, at: int, end: int) -> int:
    """Where the bracket closes that opens at a place; -1 where it doesn't."""
    depth = 0
    for match in _TOKEN.finditer(text, at, end):
        depth += (match.group() in _CLOSED) - (match.group() in ")]")
        if not depth:
            return match.start()
    return -1


def _members(text: str, at: int, end: int) -> List[Tuple[int, int]]:
    """The ranges of the members of a list whose bracket opens at a place."""
    found: List[Tuple[int, int]] = []
    depth, begin = 0, at + 1
    for match in _TOKEN.finditer(text, at, end):
        token = match.group()
        depth += (token in _CLOSED) - (token in ")]")
        if token == ";" and depth == 1 or not depth:
            found.append((begin, match.start()))
            begin = match.end()
        if not depth:
            break
    return found


def _member(members: List[Tuple[int, int]], place: int) -> Optional[int]:
    return next((number for number, (start, end) in enumerate(members) if start <= place <= end), None)
