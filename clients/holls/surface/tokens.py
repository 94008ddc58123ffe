"""A quotation's text cut into tokens with their ranges."""

from __future__ import annotations

import re
import string
from functools import partial
from itertools import accumulate
from operator import add, sub
from typing import AbstractSet, Dict, List, NamedTuple, Optional, Sequence

from holls.surface.errors import Misread
from holls.surface.table import RUN, Table

MOST_CHARACTERS = 200_000
"""The longest text that is read."""

WORD, NUMBER, VARIABLE, SYMBOL, END = "word", "number", "variable", "symbol", "end"
OF_FIRST = {**dict.fromkeys(string.ascii_letters + "_", WORD), **dict.fromkeys(string.digits, NUMBER)}
"""The kinds of words and numbers by their first characters."""
_VARIABLE = re.compile(r"\?[0-9]")
_SPACE = " \t\r\n"
_MOST_KEPT = 20_000


class Token(NamedTuple):
    """A token with its range. VARIABLE is a type variable `?0`, END stands behind the last token."""

    kind: str
    text: str
    start: int
    end: int


_MAKE = partial(tuple.__new__, Token)


class _Kinds(Dict[str, Optional[str]]):
    """The kinds of tokens by their texts, found as they are asked for; None where nothing begins so."""

    def __init__(self, symbols: AbstractSet[str]) -> None:
        super().__init__()
        self._symbols = symbols

    def __missing__(self, part: str) -> Optional[str]:
        if len(self) >= _MOST_KEPT:
            self.clear()
        kind = OF_FIRST.get(part[0]) or (SYMBOL if part in self._symbols else VARIABLE if _VARIABLE.match(part) else None)
        self[part] = kind
        return kind


def _kinds(table: Table) -> _Kinds:
    found = table.memory.get("kinds")
    if found is None:
        found = table.memory["kinds"] = _Kinds(table.symbols)
    return found


def tokens(text: str, table: Table, base: int = 0) -> List[Token]:
    """The tokens of a text that begins at a place, with one more at its end. Raises `Misread` at what begins no token."""
    if len(text) > MOST_CHARACTERS:
        raise Misread(base, base + 1, "this text has over %d characters" % MOST_CHARACTERS)
    last = len(text.rstrip(_SPACE))
    found: List[Token] = []
    pieces = table.tokens.findall(text, 0, last)
    if pieces:  # All at once, column by column: a loop over the tokens takes twice as long.
        spaces, parts = zip(*pieces)
        lengths = list(map(len, parts))
        ends = list(accumulate(map(add, map(len, spaces), lengths), initial=base))[1:]
        kinds = list(map(_kinds(table).__getitem__, parts))
        if None in kinds:
            at = kinds.index(None)
            raise unknown(text, ends[at] - lengths[at] - base, base)
        found += map(_MAKE, zip(kinds, parts, map(sub, ends, lengths), ends))
    found.append(Token(END, "", last + base, last + base))
    return found


def misread(token: Token, base: int, text: str) -> Misread:
    """The error at a token; at the end of a text that begins at a place, the last character is marked."""
    if token.kind is END:
        return Misread(max(token.start - 1, base), max(token.start, base + 1), text)
    return Misread(token.start, token.end, text)


def unknown(text: str, place: int, base: int) -> Misread:
    """The error at a place where no symbol begins: it names the run of characters that it stands in."""
    run = next((one for one in RUN.finditer(text) if one.start() <= place < one.end()), None)
    if run is None:
        shown = text[place] if text[place].isprintable() else "U+%04X" % ord(text[place])
        return Misread(base + place, base + place + 1, "`%s` begins no symbol of the notation" % shown)
    symbol = run.group()
    return Misread(base + run.start(), base + run.end(), "`%s` is no operator here" % symbol, symbol)


def bars(found: Sequence[Token]) -> Dict[int, List[int]]:
    """For each opening `{` the places among the tokens of the `|` that stand in it and in no bracket inside."""
    places: Dict[int, List[int]] = {}
    opened: List[int] = []
    for at, token in enumerate(found):
        if token.kind != SYMBOL:
            continue
        if token.text in ("(", "[", "{"):
            opened.append(at)
        elif token.text in (")", "]", "}"):
            if opened:
                opened.pop()
        elif token.text == "|" and opened and found[opened[-1]].text == "{":
            places.setdefault(opened[-1], []).append(at)
    return places
