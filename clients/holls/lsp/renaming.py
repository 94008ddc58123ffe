"""Other names for what a project's files make: changed where it is made and wherever it is used.

A package is one thing here too. What it makes with names of its own (`exp_INDUCTION`, for the type `exp`) gets other names with what they are made of,
and none by itself.
"""

from __future__ import annotations

import os
import re
from dataclasses import dataclass
from typing import Any, Dict, Iterator, List, Optional, Sequence, Set, Tuple

from holls import graph, manual, names
from holls.files import File
from holls.lsp import features, lookup
from holls.lsp.navigation import Navigation
from holls.lsp.workspace import Document
from holls.names import IN_TERMS, TYPE, Known
from holls.packages.scope import INDUCT, SPLIT
from holls.packages.steps import outside
from holls.packages.terms import LOGIC
from holls.protocol import RESERVED
from holls.text import Command

_NAME = re.compile(r"[A-Za-z_][A-Za-z0-9_']*\Z")
_OF_TYPES, _OF_RELATIONS = ("distinctness", "injectivity"), ("RULE_INDUCT",)
"""Behind these words of steps a type's name stands, or a relation's."""
_OF_THEOREMS = ("theorems", "simp", "let", "abbreviate")
"""Declarations that have no names of constants and types outside of their quotations."""

Range = Tuple[int, int]


class CannotRename(Exception):
    """Why a name stays; the text says what to do."""


@dataclass(frozen=True)
class Change:
    """A name that is made, and what it is to be called."""

    known: Known
    new: str


class Renaming:
    """Other names in the files of a document's project."""

    def __init__(self, navigation: Navigation, document: Document, files: Sequence[File]) -> None:
        self.navigation, self.document, self.files = navigation, document, files
        self.every = navigation.workspace.every_file(document.project, files)
        opened = [other.file.path for other in navigation.workspace.documents.values() if other.project is document.project]
        self.own = {os.path.abspath(path) for path in [*document.project.paths(), *opened]}

    def range(self, place: int) -> Range:
        """The range of the name at a place, which can have another one. Raises `CannotRename`."""
        start, end, known = self._at(place)
        _together(known, known.name)
        return start, end

    def edits(self, place: int, new: str) -> Dict[str, List[Dict[str, Any]]]:
        """The edits, by the files' addresses, after which what has a name at a place is called otherwise. Raises `CannotRename`."""
        known = self._at(place)[2]
        if new == known.name:
            return {}
        _check(new)
        changes = _together(known, new)
        touched = self._knowing(known)
        for change in changes:
            self._check_free(change, touched)
        found: Dict[File, Dict[Range, str]] = {}
        for change in changes:
            for file, start, end in self._places(change.known, touched):
                found.setdefault(file, {})[start, end] = change.new
        stranger = next((file for file in found if os.path.abspath(file.path) not in self.own), None)
        if stranger is not None:
            raise CannotRename("`%s` is of the theory %s, which isn't this project's" % (known.name, stranger.name))
        return {self.navigation.uri(file): [{"range": features.span(file, *at), "newText": text} for at, text in sorted(every.items())]
                for file, every in found.items()}

    def _at(self, place: int) -> Tuple[int, int, Known]:
        """The name at a place, with its range."""
        word = lookup.word(self.files, self.document.file, place)
        known = word.known if word else None
        if word is None or known is None:
            raise CannotRename("no theorem, constant, type or tactic has its name here")
        if known.file is None:
            raise CannotRename("`%s` is the prelude's" % known.name)
        if self.document.file.lines.text[word.start:word.end] != known.name:
            raise CannotRename("this stands for `%s`: rename it where it is written so" % known.name)
        if os.path.abspath(known.file.path) not in self.own:
            raise CannotRename("`%s` is of the theory %s, which isn't this project's" % (known.name, known.file.name))
        return word.start, word.end, known

    def _knowing(self, known: Known) -> List[File]:
        """The files that know what a file makes."""
        by_name = {file.name: file for file in self.every}
        return [file for file in self.every if file is known.file or known.file in graph.all_imports(file, by_name)]

    def _places(self, known: Known, touched: Sequence[File]) -> Iterator[Tuple[File, int, int]]:
        """Where a name is written, as such."""
        for file, start, end in names.uses(touched, known):
            if file.lines.text[start:end] == known.name:
                yield file, start, end
        for file in touched:
            for start, end in _bare(file, known):
                yield file, start, end

    def _check_free(self, change: Change, touched: Sequence[File]) -> None:
        """Raises `CannotRename` where a new name stands for something else in a file that knows the old one, or in what these import."""
        by_name = {file.name: file for file in self.every}
        seen = {other.path: other for file in touched for other in graph.all_imports(file, by_name)}
        is_term = change.known.kind in IN_TERMS
        for file in seen.values():
            if any(one.name == change.new and (one.kind in IN_TERMS) == is_term for one in names.written(file)):
                raise CannotRename("`%s` stands already, in the theory %s" % (change.new, file.name))
        for file in touched:
            place = _written(file, change.new, is_term)
            if place is not None:
                raise CannotRename("`%s` stands already, on line %d of %s: take another name" % (change.new, file.lines.utf16(place)[0] + 1, file.path))


def _check(new: str) -> None:
    """Raises `CannotRename` for what is no name, or has a meaning of its own."""
    if not _NAME.match(new):
        raise CannotRename("`%s` is no name: a letter or `_`, then letters, digits, `_` and `'`" % new)
    if new in RESERVED or new in LOGIC or manual.entry(new) or new in manual.PRELUDE or new in manual.CONSTANTS or new in manual.TYPES:
        raise CannotRename("`%s` is a word of the language, or the prelude's" % new)
    if new.startswith(names.HIDDEN):
        raise CannotRename("names that begin with %s are those of packages" % names.HIDDEN)


def _together(known: Known, new: str) -> List[Change]:
    """A name with those that are made of it. Raises `CannotRename` where it is made of another one itself."""
    assert known.file is not None
    commands = known.file.commands
    package = commands[known.number].package
    if package is None:
        return [Change(known, new)]
    made = [one for one in names.known(known.file) if commands[one.number].package is package]
    bases = {one.name for one in made if _is_in(package, one.name)}
    base = _base(known.name, bases)
    if base is None:
        return [Change(known, new)]
    if base != known.name:
        raise CannotRename("`%s` is made of `%s` by this %s: rename that" % (known.name, base, package.word))
    return [Change(one, one.name.replace(base, new, 1)) for one in made if _base(one.name, bases) == base]


def _base(name: str, bases: Set[str]) -> Optional[str]:
    """Which of a package's written names a name is made of; itself where it is written."""
    if name in bases:
        return name
    return max((one for one in bases if name.startswith((one + "_", "set_%s_" % one))), key=len, default=None)


def _is_in(command: Command, name: str) -> bool:
    return _pattern(name).search(command.text, len(command.word)) is not None


def _pattern(name: str) -> "re.Pattern[str]":
    return re.compile(r"(?<![A-Za-z0-9_'])" + re.escape(name) + r"(?![A-Za-z0-9_'])")


def _bare(file: File, known: Known) -> Iterator[Range]:
    """Where a file has a constant's or a type's name outside of quotations: in `distinctness "exp"`, in `exp_SPLIT`, in `RULE_INDUCT STAR`, and where
    notation is declared."""
    if known.kind not in IN_TERMS:
        return
    pattern = _pattern(known.name)
    made = re.compile(r"(?<![A-Za-z0-9_'])%s(?=(?:%s|%s)(?![A-Za-z0-9_']))" % (re.escape(known.name), INDUCT, SPLIT)) if known.kind == TYPE else None
    for number, command in enumerate(file.commands):
        written = command.as_written
        is_declaration = file.is_declaration(number) and written.word not in _OF_THEOREMS
        for found in pattern.finditer(written.text):
            before = written.text[:found.start()].rstrip(' "')
            if before.count("`") % 2 == 0 and (is_declaration or before.endswith(_OF_TYPES if known.kind == TYPE else _OF_RELATIONS)):
                yield written.range(found.start(), found.end())
        for found in made.finditer(outside(written.text)) if made and written.word == "e" else ():
            yield written.range(*found.span())


def _written(file: File, name: str, is_term: bool) -> Optional[int]:
    """Where a file has a word in a quotation, or outside of them."""
    pattern = _pattern(name)
    for command in file.commands:
        written = command.as_written
        for found in pattern.finditer(written.text):
            if (written.text.count("`", 0, found.start()) % 2 == 1) == is_term:
                return written.range(found.start(), found.end())[0]
    return None
