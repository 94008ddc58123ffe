"""Which name was meant: the one like a misspelt one of those that stand before a command, by the texts of the file and of those that it imports.

Two names are like one another where one letter is missing, too many, another one or in another place, capitals and underscores apart.
"""

from __future__ import annotations

import re
from functools import lru_cache
from typing import Dict, Iterable, Iterator, List, Optional, Tuple

from holls import binders, declaring, manual, names, notation, protocol
from holls.files import File
from holls.names import CONSTANT, IN_TERMS, TACTIC, THEOREM, TYPE
from holls.protocol import Refusal
from holls.text import REMEMBERED

LEAST = 3
"""Shorter names of quotations are those of variables, which may be like any constant's."""
_MOST_LETTERS = 100
_MOST_ELSEWHERE = 20
"""Of so many names it is looked at whether theories have them that aren't imported."""
_MOST_STRANGE = 20
"""Of so many names of a quotation it is looked at whether they are bound, or stand in types."""
_NAME = re.compile(r"(?<![A-Za-z0-9_'?])[A-Za-z_][A-Za-z0-9_']*")
_KINDS = {"thm": THEOREM, "const": CONSTANT, "type": TYPE, "tac": TACTIC}
"""The program's words for kinds of names."""
Likes = Dict[str, List[Tuple[int, str]]]
"""Names by what they are like, each with the command that makes it, or -1 where another file does."""
_OF_QUOTATIONS = (protocol.UNTYPABLE, protocol.NOT_BOOL, protocol.ARITY)


class Meant:
    """The names that stand in a file, by what they are like. They are gathered where the first name is looked for; those of what it imports once, as
    long as that doesn't change."""

    def __init__(self, file: File) -> None:
        self.file = file
        self._likes: Dict[str, Tuple[Likes, Likes]] = {}
        self._makers: Dict[str, List[str]] = {}

    def said(self, number: int, refusal: Refusal) -> str:
        """Words on the names that were meant in a refused command, or none."""
        name = refusal.argument
        elsewhere = self._elsewhere(name) if refusal.number in (protocol.UNKNOWN_THEOREM, protocol.UNKNOWN_TAC) else ""
        if elsewhere:
            return elsewhere
        if refusal.number == protocol.UNKNOWN_THEOREM:
            return _question(self.like(THEOREM, name, number))
        if refusal.number == protocol.UNKNOWN_TAC:
            is_told = name in notation.FORWARD or name in notation.ELSEWHERE or notation.near_tactic(name)
            return "" if is_told else _question(self.like(TACTIC, name, number))
        if refusal.number == protocol.NOT_CLOSED:
            near = self.like(CONSTANT, name, number)
            return "; or did you mean the constant %s?" % near if near else ""
        return self._in_quotation(number, refusal.argument) if refusal.number in _OF_QUOTATIONS else ""

    def _elsewhere(self, name: str) -> str:
        """Words on the theories that have a name and aren't imported. Of a few names: the texts of all files are looked at."""
        if name not in self._makers:
            if len(self._makers) >= _MOST_ELSEWHERE:
                return ""
            known = {file.name for file in self.file.with_imports()}
            self._makers[name] = [one for one in declaring.makers(self.file.neighbours(), name) if one not in known]
        makers = self._makers[name]
        return "; %s has it: import it" % " or ".join(makers[:3]) if makers else ""

    def maker(self, kind: str, name: str) -> Optional[str]:
        """The imported theory, or the prelude, in which a name is made; by the program's word for its kind."""
        of_kind = _KINDS.get(kind, kind)
        if any(one.kind == of_kind and one.name == name for one in names.PRELUDE):
            return "the prelude"
        makers = [file.name for file in self.file.with_imports()[1:] if any(one.kind == of_kind and one.name == name for one in names.written(file))]
        return makers[0] if makers else None

    def like(self, kind: str, name: str, number: int) -> Optional[str]:
        """The name of a kind that stands before a command and is like one that doesn't: of several the last one that was made."""
        if kind in IN_TERMS and len(name) < LEAST:
            return None
        if kind not in self._likes:
            own = ((one.last, one.name) for one in _standing(self.file, kind))
            self._likes[kind] = self._of_imports(kind), _by_keys(own)
        found = [made for key in _keys(name) for likes in self._likes[kind] for made in likes.get(key, ()) if made[0] < number and made[1] != name]
        return max(found)[1] if found else None

    def _of_imports(self, kind: str) -> Likes:
        """The names of a kind that the prelude has, and what is imported: kept with the file as long as these are the same."""
        files = self.file.with_imports()[1:]
        read = [file.notation for file in files]
        if self.file.likes is None or self.file.likes[0] != read:
            self.file.likes = read, {}
        kept: Dict[str, Likes] = self.file.likes[1]
        if kind not in kept:
            fixed = [one.name for one in names.PRELUDE if one.kind == kind] + (list(manual.FUNCTIONS) if kind == TACTIC else [])
            kept[kind] = _by_keys((-1, name) for name in [*fixed, *(one.name for file in files for one in _standing(file, kind))])
        return kept[kind]

    def _in_quotation(self, number: int, place: str) -> str:
        """Words on the first name in the quotation at a place that no constant and no type has, and one that stands is like."""
        text = self.file.commands[number].text
        start, end = notation.quotation(text, int(place) if place.isdecimal() and len(place) < 9 else 0)
        for name, at in self._strange(text, start, end, number):
            kind = TYPE if binders.is_in_type(text, at) else CONSTANT
            near = self.like(kind, name, number)
            if near and not binders.is_bound(text, at):
                return "; no %s `%s`: did you mean `%s`?" % (kind, name, near)
        return ""

    def _strange(self, text: str, start: int, end: int, number: int) -> List[Tuple[str, int]]:
        """Names in a quotation that no constant and no type has, and one that stands is like; but not that of a constant that is defined there."""
        vocabulary = self.file.notation.vocabulary_at(number - 1)
        names_in = {found.group(): found.start() for found in reversed(list(_NAME.finditer(text, start, end)))}
        defined = min(names_in.values(), default=0) if text.startswith("new_definition") else -1
        found = [
            (name, at) for name, at in sorted(names_in.items(), key=lambda one: one[1])
            if at != defined and not vocabulary.is_constant(name) and vocabulary.takes_arguments(name) is None
            and any(self.like(kind, name, number) for kind in IN_TERMS)]
        return found[:_MOST_STRANGE]


def _question(near: Optional[str]) -> str:
    return "; did you mean %s?" % near if near else ""


def _standing(file: File, kind: str) -> Iterator[names.Written]:
    """The names of a kind that a file's commands make. Of a given-up proof there is none."""
    return (one for one in names.written(file) if one.kind == kind and file.commands[one.last].text != "oops")


def _by_keys(made: Iterable[Tuple[int, str]]) -> Likes:
    """Names by what they are like."""
    likes: Likes = {}
    for at, name in made:
        for key in _keys(name):
            likes.setdefault(key, []).append((at, name))
    return likes


@lru_cache(REMEMBERED)
def _keys(name: str) -> Tuple[str, ...]:
    """What names that are like one another have in common: themselves, and what is left where one letter goes."""
    plain = name[:_MOST_LETTERS].upper().replace("_", "")
    return tuple(dict.fromkeys([plain] + [plain[:at] + plain[at + 1:] for at in range(len(plain))]))
