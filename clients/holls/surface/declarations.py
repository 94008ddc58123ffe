"""The commands that declare notation. They are the file's own: the program never gets them.

    infixr 16 + add;;  infixl 22 DIV;;      an infix: its precedence, its symbol or word, and the constant where that has another name
    type_infixr 6 # prod;;                  an infix of types
    notation if COND;;                      a form and its constants: if, list, set, pair, let, num, and 1 for the type of one element
    sets UNION 0 1 result;;                 which arguments of a constant, counted from 0, are sets, so that functions there are shown as {x | p};
                                            and whether it makes a set, so that the other side of an equation is one
    abbreviate `c x = term`;;               has `c x` read as the term (abbreviating.py)
    no_notation +;;                         takes an operator, a form or an abbreviation back
    local infixr 16 + add;;                 for this file alone, as any of these
"""

from __future__ import annotations

import re
from typing import Dict, List, NamedTuple, Optional, Tuple

from holls.surface.abbreviations import Abbreviation
from holls.surface.errors import Misread
from holls.surface.table import EMPTY, FORMS, LEFT, MOST_PRECEDENCE, RESULT, RIGHT, Clash, Operator, Table

WORDS: Dict[str, str] = {
    "infixr": "infixr NUM OPERATOR [CONSTANT]", "infixl": "infixl NUM OPERATOR [CONSTANT]", "type_infixr": "type_infixr NUM OPERATOR CONSTRUCTOR",
    "notation": "notation FORM CONSTANT ..", "sets": "sets CONSTANT PLACE ..", "no_notation": "no_notation OPERATOR", "local": "local DECLARATION",
    "abbreviate": "abbreviate `NAME x .. = term`",
}
"""The words that begin a declaration, and how each is written."""

_LEAST = {"list": 2, "set": 2, "num": 2}
"""The forms that need more than one constant."""
_WORD = re.compile(r"[^ \t\r\n]+")
_NAME = re.compile(r"[A-Za-z_][A-Za-z0-9_']*\Z")
_MOST_PLACE = 15
_RESULT = "result"


class Declaration(NamedTuple):
    """A declaration: what it does, with its words and their ranges in the command's text, and whether it holds in its file alone."""

    kind: str
    words: Tuple[str, ...]
    ranges: Tuple[Tuple[int, int], ...]
    is_local: bool

    @property
    def constants(self) -> List[Tuple[str, int, int]]:
        """The constants that it speaks of, with their ranges."""
        first = {"infixr": 2, "infixl": 2, "notation": 1, "sets": 0}.get(self.kind)
        if first is None or self.kind == "notation" and self.words[0] == "1":
            return []
        last = 1 if self.kind == "sets" else len(self.words)
        places = range(first, last) if first < len(self.words) else (1,)
        return [(self.words[at], *self.ranges[at]) for at in places]

    def added(self, table: Table) -> Table:
        """The table with what is declared. Raises `Misread` where that can't stand."""
        words = self.words
        try:
            if self.kind in ("infixr", "infixl"):
                grouping = RIGHT if self.kind == "infixr" else LEFT
                return table.with_operator(Operator(words[1], int(words[0]), grouping, words[-1]))
            if self.kind == "type_infixr":
                return table.with_type_operator(Operator(words[1], int(words[0]), RIGHT, words[2]))
            if self.kind == "notation":
                return table.with_form(words[0], words[1:])
            if self.kind == "sets":
                return table.with_sets(words[0], tuple(RESULT if word == _RESULT else int(word) for word in words[1:]))
        except Clash as clash:
            raise Misread(*self.ranges[0 if self.kind == "notation" else 1], str(clash)) from None
        without = table.without(words[0])
        if without is None:
            raise Misread(*self.ranges[0], "`%s` is no operator, no form and no abbreviation that is declared here" % words[0])
        return without


def read(text: str) -> Optional[Declaration]:
    """The declaration that a command's text is; None where its first word begins none. Raises `Misread` where it can't be read."""
    found = [(match.group(), match.start(), match.end()) for match in _WORD.finditer(text)]
    if not found or found[0][0] not in WORDS:
        return None
    is_local = found[0][0] == "local"
    rest = found[1:] if is_local else found
    if not rest or rest[0][0] not in WORDS or rest[0][0] == "local":
        raise Misread(found[0][1], found[0][2], "a declaration follows here, as in local infixr 16 + add")
    kind = rest[0][0]
    _check(kind, rest)
    return Declaration(kind, tuple(word for word, _, _ in rest[1:]), tuple((start, end) for _, start, end in rest[1:]), is_local)


def _check(kind: str, found: List[Tuple[str, int, int]]) -> None:
    """Raises `Misread` where a declaration's words don't fit its form."""
    words = [word for word, _, _ in found[1:]]
    most = {"infixr": 3, "infixl": 3, "type_infixr": 3, "no_notation": 1, "notation": 1 + len(FORMS.get(words[0] if words else "", ()))}.get(kind, 17)
    least = {"infixr": 2, "infixl": 2, "type_infixr": 3, "no_notation": 1}.get(kind, 2)

    def wrong(at: int, text: str) -> Misread:
        word = found[min(at, len(found) - 1)]
        return Misread(word[1], word[2], "%s: %s" % (text, WORDS[kind]))

    if kind == "notation" and words:
        if words[0] not in FORMS:
            raise wrong(1, "`%s` is none of the forms, which are %s" % (words[0], ", ".join(FORMS)))
        least = 1 + _LEAST.get(words[0], 1)
    if len(words) < least:
        raise wrong(len(found), "something is missing behind this")
    if len(words) > most or kind == "notation" and words[0] == "num" and len(words) == 4:
        raise wrong(min(most + 1, len(words)), "this is too much, or too little")
    if kind in ("infixr", "infixl", "type_infixr") and not (words[0].isdecimal() and 1 <= int(words[0][:9]) <= MOST_PRECEDENCE):
        raise wrong(1, "the precedence is a number from 1 to %d" % MOST_PRECEDENCE)
    if kind == "sets":
        for at, word in enumerate(words[1:], 2):
            if word != _RESULT and not (word.isdecimal() and int(word[:9]) <= _MOST_PLACE):
                raise wrong(at, "a place is a number from 0 to %d, or the word result" % _MOST_PLACE)
    names = {"infixr": words[-1:], "infixl": words[-1:], "type_infixr": words[2:], "notation": words[1:], "sets": words[:1]}.get(kind, [])
    for name in names:
        if not _NAME.match(name):
            at = next(number for number, word in enumerate(words, 1) if word == name)
            raise wrong(at, "a name is wanted here, and `%s` is none" % name)


class Scope(NamedTuple):
    """What is declared at a place of a file, and what of it files that import this one have too."""

    table: Table
    exported: Table

    def declared(self, declaration: Declaration) -> "Scope":
        """The scope behind a declaration. Raises `Misread` as `Declaration.added` does."""
        table = declaration.added(self.table)
        if declaration.is_local:
            return Scope(table, self.exported)
        try:
            return Scope(table, declaration.added(self.exported))
        except Misread:  # What a local one has, and the file's importers haven't.
            return Scope(table, self.exported)

    def abbreviated(self, new: Abbreviation, is_local: bool) -> "Scope":
        """The scope behind an abbreviation. Raises `Clash`."""
        return Scope(self.table.with_abbreviation(new), self.exported if is_local else self.exported.with_abbreviation(new))

    def imported(self, other: Table) -> Tuple["Scope", List[str]]:
        """The scope behind an import, and why some of what it declares can't be had."""
        table, clashes = self.table.joined(other)
        exported = table if self.exported is self.table else self.exported.joined(other)[0]
        return Scope(table, exported), clashes


NOTHING = Scope(EMPTY, EMPTY)
"""The scope at a file's beginning."""
