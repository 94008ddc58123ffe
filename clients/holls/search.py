"""Finding theorems: by words of their names, and by a pattern of what they state.

A query's words are parts of names, unless it has a symbol of the notation, a `_` alone or parentheses: then it is a pattern. So is what
stands between backquotes: ``conj `_ /\\ _ <=> _` `` asks for both.
"""

from __future__ import annotations

import re
from dataclasses import dataclass
from typing import Any, Dict, FrozenSet, Iterable, List, Optional, Sequence, Tuple

from holls import terms
from holls.names import IN_TERMS, THEOREM, Known
from holls.surface.errors import Misread
from holls.view import PLAIN, View

MOST = 200
"""So many results are kept."""

_QUOTED = re.compile(r"`([^`]*)`?")
_PATTERN = re.compile(r"[=~\\!?@(){}\[\]<>+*|;,#-]|/\\|(?<![A-Za-z0-9_'])_(?![A-Za-z0-9_'])")


class BadQuery(Exception):
    """A query that can't be read; the text says why."""


@dataclass(frozen=True)
class Query:
    """What is looked for: parts of the name, and a pattern of the statement, or of what it concludes alone."""

    words: Tuple[str, ...]
    pattern: Optional[terms.Tree] = None
    of_conclusion: bool = False


@dataclass(frozen=True)
class _Statement:
    """A statement, read."""

    tree: terms.Tree
    stripped: terms.Tree
    conclusion: terms.Tree
    symbols: FrozenSet[str]
    parts: Dict[Any, List[Tuple[terms.Tree, int]]]

    @staticmethod
    def of(tree: terms.Tree) -> "_Statement":
        """A statement by its tree; its parts by what they begin with, each with its depth."""
        by_head: Dict[Any, List[Tuple[terms.Tree, int]]] = {}
        for begins, part, depth in terms.parts(tree):
            by_head.setdefault(begins, []).append((part, depth))
        names = {begins[0] if isinstance(begins, tuple) else begins for begins in by_head}
        symbols = frozenset(name for name in names if isinstance(name, str))
        return _Statement(tree, terms.stripped(tree), terms.conclusion(tree), symbols, by_head)


def query(text: str, of_conclusion: bool = False, view: View = PLAIN) -> Query:
    """Reads a query, whose pattern may be in the notation of a view. Raises `BadQuery`."""
    patterns = _QUOTED.findall(text)
    rest = _QUOTED.sub(" ", text)
    if not patterns and _PATTERN.search(rest):
        patterns, rest = [rest], ""
    if len(patterns) > 1:
        raise BadQuery("a query has one pattern")
    try:
        pattern = terms.read(view.plain(patterns[0])) if patterns and patterns[0].strip() else None
    except (terms.Unreadable, Misread) as error:
        raise BadQuery("the pattern can't be read: %s" % error) from None
    return Query(tuple(rest.lower().split()), pattern, of_conclusion)


class Index:
    """Theorems with their statements read; a statement is read once."""

    def __init__(self) -> None:
        self._read: Dict[str, Optional[_Statement]] = {}

    def find(self, asked: Query, known: Iterable[Known]) -> List[Known]:
        """The theorems that a query finds, those first that fit best: by the name, then by where the pattern fits, then the shortest."""
        every = list(known)
        constants = frozenset(one.name for one in every if one.kind in IN_TERMS)
        needed = frozenset() if asked.pattern is None else terms.symbols(asked.pattern, constants)
        found: List[Tuple[Tuple[int, int, int, str], Known]] = []
        for one in every:
            if one.kind != THEOREM:
                continue
            by_name = _name_fit(one.name.lower(), asked.words)
            if by_name is None:
                continue
            try:
                by_pattern = 0 if asked.pattern is None else self._pattern_fit(one.shown, asked, needed, constants)
            except RecursionError:  # A function with more arguments than Python recurses.
                continue
            if by_pattern is not None:
                found.append(((by_name, by_pattern, len(one.shown), one.name), one))
        found.sort(key=lambda pair: pair[0])
        return [one for _, one in found[:MOST]]

    def _pattern_fit(self, shown: str, asked: Query, needed: FrozenSet[str], constants: FrozenSet[str]) -> Optional[int]:
        """How well a pattern fits: 0 for all of a statement under its `!`, 1 for what it concludes, 2 and more for a part; None where not."""
        if any(name not in shown for name in needed):  # So that most statements needn't be read.
            return None
        statement = self.statement(shown)
        if statement is None or not needed <= statement.symbols:
            return None
        pattern = asked.pattern
        candidates = self._candidates(pattern, statement, constants)
        fitting = [(part, depth) for part, depth in candidates if terms.matches(pattern, part, constants)]
        wholes = ((0, statement.stripped), (0, statement.tree), (1, statement.conclusion))
        found = [fit for fit, whole in wholes if any(part is whole for part, _ in fitting)]
        if not asked.of_conclusion:
            found += [2 + depth for _, depth in fitting]
        return min(found, default=None)

    @staticmethod
    def _candidates(pattern: terms.Tree, statement: _Statement, constants: FrozenSet[str]) -> Iterable[Tuple[terms.Tree, int]]:
        """The parts that may be a pattern: those that begin as it does, where that is fixed."""
        begins = terms.head(pattern)
        if isinstance(begins, tuple) and isinstance(begins[0], str) and terms.is_hole(begins[0], constants):
            return [one for found in statement.parts.values() for one in found]
        return statement.parts.get(begins, [])

    def statement(self, shown: str) -> Optional[_Statement]:
        """A statement, read; None where it can't be."""
        if shown not in self._read:
            try:
                self._read[shown] = _Statement.of(terms.read(shown))
            except terms.Unreadable:
                self._read[shown] = None
        return self._read[shown]


def _name_fit(name: str, words: Sequence[str]) -> Optional[int]:
    """How well words fit a name: 0 for the name, 1 for its beginning, 2 for words of it, 3 for other parts; None where one is missing."""
    if not all(word in name for word in words):
        return None
    if not words or words == (name,):
        return 0
    if name.startswith(words[0]):
        return 1
    return 2 if all(word in name.split("_") for word in words) else 3
