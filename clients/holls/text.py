"""Cutting a file into commands.

A command ends with `;;`. Comments `(* .. *)` nest and stand anywhere, also in quotations. A command is sent without its comments
and with ASCII for the mathematical symbols of SYMBOLS; its marks lead from a place in what was sent back to the file.
"""

from __future__ import annotations

import re
from bisect import bisect_left, bisect_right
from dataclasses import dataclass, field
from functools import lru_cache
from typing import Dict, Iterator, List, NamedTuple, Optional, Tuple

from holls.common import ends
from holls.surface.errors import Misread

SPACE = " \t\r\n"
"""The white space of the notation, and no other."""

SYMBOLS = {
    "∀": "!", "∃!": "?!", "∃": "?", "λ": "\\", "ε": "@", "∧": "/\\", "∨": "\\/", "¬": "~", "⇒": "==>", "⟹": "==>",
    "⇔": "<=>", "⟺": "<=>", "→": "->", "∈": "IN", "∪": "UNION", "∩": "INTER", "∖": "DIFF", "⊆": "SUBSET", "⊂": "PSUBSET", "∅": "{}", "≤": "<=",
    "≥": ">=", "×": "#", "∘": "o",
}
"""Symbols that may stand in a file for the notation's own, and for operators that theories declare."""
_OF_OPERATORS = frozenset("∈∪∩∖⊆⊂∅≤≥×∘")

REMEMBERED = 16_384
"""Of so many commands' texts what they say is remembered."""

_MARKS = re.compile(r"\(\*|\*\)|;;")
_SYMBOL = re.compile("|".join(SYMBOLS) + "|[\ud800-\udfff]")
_JOINING = set("<=>\\/-?!~@") | {key[0] for key in SYMBOLS}
_WORD_OR_OPERATOR = frozenset("_'+*#&|^%$:.")
_WORD = re.compile(r"[A-Za-z_][A-Za-z0-9_']*")

Marks = Tuple[Tuple[int, int], ...]


class Command:
    """One command: the text that is sent, its range in the file, and for places in the text the places in the file.

    Of the marks (in text, in file) the first one is at 0; from each to the next one, places run side by side. `word` is the first word or the empty
    string, and `name` the second one: of `g`, `deftac`, `import` and the `new_` commands, the name that it is about.
    """

    __slots__ = ("text", "start", "end", "marks", "word", "name")

    def __init__(self, text: str, start: int, end: int, marks: Marks) -> None:
        self.text, self.start, self.end, self.marks = text, start, end, marks
        self.word, self.name = _words(text)

    def moved(self, by: int) -> "Command":
        """The same command, so many places behind."""
        marks = self.marks
        moved = ((0, marks[0][1] + by),) if len(marks) == 1 else tuple([(in_text, in_file + by) for in_text, in_file in marks])
        return Command(self.text, self.start + by, self.end + by, moved)

    def place(self, offset: int) -> int:
        """The place in the file of a place in the text, which may be the text's length."""
        if offset >= len(self.text):
            return self.end
        at = bisect_right([in_text for in_text, _ in self.marks], offset) - 1
        in_text, in_file = self.marks[at]
        place = in_file + offset - in_text
        return place if at + 1 == len(self.marks) else min(place, self.marks[at + 1][1] - 1)

    def offset(self, place: int) -> int:
        """The place in the text of a place in the file, at most the text's length."""
        at = max(0, bisect_right([in_file for _, in_file in self.marks], place) - 1)
        in_text, in_file = self.marks[at]
        most = self.marks[at + 1][0] if at + 1 < len(self.marks) else len(self.text)
        return max(0, min(in_text + place - in_file, most))

    def range(self, start: int, end: int) -> Tuple[int, int]:
        """The range in the file of a range of the text."""
        first = self.place(start)
        return first, max(first, self.place(end))

    @property
    def as_written(self) -> "Command":
        """The command as the file has it, but for comments and symbols."""
        return self

    @property
    def error(self) -> Optional[Misread]:
        """What is wrong with the command as notation; of one that is sent as it is written nothing is."""
        return None

    @property
    def package(self) -> Optional["Command"]:
        """The package that the command belongs to, if it does to one."""
        return None

    @property
    def is_public(self) -> bool:
        """Whether what the command makes is the user's: not so of what only serves the other commands of a package."""
        return True


@lru_cache(REMEMBERED)
def _words(text: str) -> Tuple[str, str]:
    """A command's first word and its second one, or empty strings. A text that is edited has nearly all its commands again and again."""
    first = _WORD.search(text)
    end = text.find("`")
    second = _WORD.search(text, first.end(), len(text) if end < 0 else end) if first else None
    return first.group() if first and not first.start() else "", second.group() if second else ""


@dataclass(frozen=True)
class Blemish:
    """What is wrong with the file's form, with its range: an error, or else a warning."""

    start: int
    end: int
    text: str
    is_error: bool


@dataclass(frozen=True)
class Cut:
    """A file cut into its commands, with the ranges of its outermost comments.

    `pieces` are what it is cut into: each place behind a `;;` that ends one, with how many commands, comments and blemishes stand before it.
    """

    commands: List[Command]
    comments: List[Tuple[int, int]]
    blemishes: List[Blemish]
    pieces: List[Tuple[int, int, int, int]] = field(default_factory=list)


class _Piece(NamedTuple):
    """What stands between two marks `;;`, with the comments in it."""

    start: int
    end: int
    comments: Tuple[Tuple[int, int], ...]


def cut(text: str, old_text: str = "", old: Optional[Cut] = None) -> Cut:
    """The commands of a file. What stands behind an unclosed comment's beginning belongs to the comment.

    Of a text that was another one before, what stands in both from the beginning up to a `;;`, or from one to the end, is cut as it was.
    """
    kept = _kept(text, old_text, old) if old is not None else _NOTHING
    _, *before = kept.head
    made = Cut(*(part[:number] for part, number in zip((old.commands, old.comments, old.blemishes), before)), old.pieces[:kept.pieces]) if old else Cut([], [], [])
    opened = _cut_between(text, made, kept)
    if opened is None:
        _take_tail(made, old, kept)
    else:
        _cut_last(text, made, *opened)
    return made


class _Kept(NamedTuple):
    """What of an old cut stays: so many pieces, up to `head`; and from which places behind a `;;` in the new text on, so many places `by` behind the old
    one, all is as it was there: the numbers of the pieces by these places."""

    head: Tuple[int, int, int, int]
    pieces: int
    tails: Dict[int, int]
    by: int


_NOTHING = _Kept((0, 0, 0, 0), 0, {}, 0)


def _kept(text: str, old_text: str, old: Cut) -> _Kept:
    """What of an old cut stays where the text has changed."""
    head, tail = ends(old_text, text)
    by = len(text) - len(old_text)
    places = [end for end, _, _, _ in old.pieces]
    number = bisect_right(places, head)
    first = max(number, bisect_left(places, len(old_text) - tail))
    return _Kept(old.pieces[number - 1] if number else _NOTHING.head, number, {places[at] + by: at for at in range(first, len(places))}, by)


def _cut_between(text: str, made: Cut, kept: _Kept) -> Optional[Tuple[int, int, List[Tuple[int, int]]]]:
    """Cuts what stands behind the head, up to a tail that stays: None. Where there is none, answers where the last piece begins, where the unclosed
    comment in it begins or -1, and its comments."""
    comments: List[Tuple[int, int]] = []
    depth, start, opened = 0, kept.head[0], 0
    for mark in _MARKS.finditer(text, start):
        kind = mark.group()
        if kind == "(*":
            opened = opened if depth else mark.start()
            depth += 1
        elif kind == "*)" and depth:
            depth -= 1
            if not depth:
                comments.append((opened, mark.end()))
        elif kind == ";;" and not depth:
            _take_piece(text, made, _Piece(start, mark.start(), tuple(comments)))
            comments, start = [], mark.end()
            if start in kept.tails:
                return None
    if depth:
        comments.append((opened, len(text)))
    return start, opened if depth else -1, comments


def _take_piece(text: str, made: Cut, piece: _Piece) -> None:
    """Takes a piece that a `;;` ends."""
    command = _command(text, piece)
    if command is not None:
        made.commands.append(command)
    else:
        made.blemishes.append(Blemish(piece.end, piece.end + 2, "no command stands before this `;;`", False))
    made.comments.extend(piece.comments)
    made.pieces.append((piece.end + 2, len(made.commands), len(made.comments), len(made.blemishes)))


def _take_tail(made: Cut, old: Cut, kept: _Kept) -> None:
    """Takes what stands behind the last piece from the old cut."""
    (last, *now), by = made.pieces[-1], kept.by
    number = kept.tails[last]
    _, *was = old.pieces[number]
    made.commands.extend([command.moved(by) for command in old.commands[was[0]:]] if by else old.commands[was[0]:])
    made.comments.extend((start + by, end + by) for start, end in old.comments[was[1]:])
    made.blemishes.extend(Blemish(one.start + by, one.end + by, one.text, one.is_error) for one in old.blemishes[was[2]:])
    more = [new - old for new, old in zip(now, was)]
    made.pieces.extend([(end + by, commands + more[0], comments + more[1], blemishes + more[2]) for end, commands, comments, blemishes in old.pieces[number + 1:]])


def _cut_last(text: str, made: Cut, start: int, unclosed: int, comments: List[Tuple[int, int]]) -> None:
    """Takes the last piece, which no `;;` ends."""
    last = _command(text, _Piece(start, len(text), tuple(comments)))
    made.comments.extend(comments)
    if last is not None:
        made.commands.append(last)
    if unclosed >= 0:
        made.blemishes.append(Blemish(unclosed, unclosed + 2, "this comment is never closed: end it by `*)`", True))
    elif last is not None:
        made.blemishes.append(Blemish(last.end - 1, last.end, "the last command lacks its `;;`", False))


def _command(text: str, piece: _Piece) -> Optional[Command]:
    """The piece's command, or None where it holds white space and comments alone."""
    plain = text[piece.start:piece.end]
    if not piece.comments and plain.isascii():
        sent = plain.strip(SPACE)
        start = piece.start + len(plain) - len(plain.lstrip(SPACE))
        return Command(sent, start, start + len(sent), ((0, start),)) if sent else None
    return _mended(list(_parts(text, piece)))


def _parts(text: str, piece: _Piece) -> Iterator[Tuple[str, int, int]]:
    """What is sent of a piece: parts as (text, place in the file, length in the file)."""
    at = piece.start
    for start, end in piece.comments + ((piece.end, piece.end),):
        for match in _SYMBOL.finditer(text, at, start):
            yield text[at:match.start()], at, match.start() - at
            yield _ascii(text, match), match.start(), match.end() - match.start()
            at = match.end()
        yield text[at:start], at, start - at
        if end > start:
            yield " ", start, end - start
        at = end


def _ascii(text: str, match: "re.Match[str]") -> str:
    """A symbol in ASCII, apart from neighbours with which it would be read as another one; half a character as U+FFFD."""
    before = text[match.start() - 1:match.start()] if match.start() else ""
    after = text[match.end():match.end() + 1]
    plain = SYMBOLS.get(match.group(), "\ufffd")
    if match.group() in _OF_OPERATORS:
        return " " * _would_join(before) + plain + " " * _would_join(after)
    return (" " if before in _JOINING else "") + plain + (" " if after in _JOINING else "")


def _would_join(neighbour: str) -> bool:
    """Whether a character beside an operator would be read as one with it."""
    return neighbour in _JOINING or neighbour in _OF_OPERATORS or neighbour.isalnum() or neighbour in _WORD_OR_OPERATOR


def _mended(parts: List[Tuple[str, int, int]]) -> Optional[Command]:
    """A command of parts, without white space at its ends; None where nothing is left. A byte order mark counts as white space."""
    parts = [part for part in parts if part[0]]
    blank = SPACE + "\ufeff"
    while parts and not parts[0][0].strip(blank):
        parts.pop(0)
    while parts and not parts[-1][0].strip(SPACE):
        parts.pop()
    if not parts:
        return None
    parts[0] = _shortened(parts[0], blank)
    sent, place, length = parts[-1]
    end = place + (len(sent.rstrip(SPACE)) if length == len(sent) else length)
    marks, at = [], 0
    for part, in_file, _ in parts:
        marks.append((at, in_file))
        at += len(part)
    return Command("".join(part[0] for part in parts).rstrip(SPACE), parts[0][1], end, tuple(marks))


def _shortened(part: Tuple[str, int, int], blank: str) -> Tuple[str, int, int]:
    """A part without the white space at its beginning."""
    sent, place, length = part
    if length != len(sent):
        return sent.lstrip(SPACE), place, length
    rest = sent.lstrip(blank)
    return rest, place + len(sent) - len(rest), len(rest)
