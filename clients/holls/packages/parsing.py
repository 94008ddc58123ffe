"""Reading a package's text: its words, and what stands between backquotes."""

from __future__ import annotations

import re
from typing import List, NamedTuple, Optional, Tuple

from holls.packages.inference import check_depth
from holls.surface.errors import Misread
from holls.surface.reader import Reader
from holls.surface.table import Table
from holls.surface.tree import Term as Tree
from holls.surface.vocabulary import Vocabulary

NAME = re.compile(r"[A-Za-z_][A-Za-z0-9_']*\Z")
_PARTS = re.compile(r"`([^`]*)`|[A-Za-z_][A-Za-z0-9_']*|[0-9]+|[^ \t\r\n]")


class Word(NamedTuple):
    """A word, a sign, or a quotation, with its range in the text; of a quotation the text and its range are those inside the backquotes."""

    text: str
    start: int
    end: int
    is_quoted: bool


class Place(NamedTuple):
    """What a package's text is read by."""

    table: Table
    vocabulary: Vocabulary

    def term(self, word: Word) -> Tree:
        """The term of a quotation. Raises `Misread`."""
        reader = Reader(word.text, self.table, self.vocabulary, word.start)
        return check_depth(reader.ended(reader.term()))


def words(text: str) -> List[Word]:
    """A command's words, with its first one."""
    found: List[Word] = []
    for match in _PARTS.finditer(text):
        quoted: Optional[str] = match.group(1)
        where: Tuple[int, int] = match.span(1) if quoted is not None else match.span()
        found.append(Word(quoted if quoted is not None else match.group(), where[0], where[1], quoted is not None))
    return found


def usage(text: str, form: str) -> Misread:
    """The error of a command that hasn't its form."""
    return Misread(0, max(1, len(text)), "this has to be of the form " + form)


def name_of(word: Word, form: str, text: str) -> str:
    """A word that has to be a name. Raises `Misread`."""
    if word.is_quoted or not NAME.match(word.text):
        raise usage(text, form)
    return word.text
