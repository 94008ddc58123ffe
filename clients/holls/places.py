"""Lines and columns of places in a text, and the changes that an editor sends of it."""

from __future__ import annotations

import re
from bisect import bisect_right
from functools import cached_property
from itertools import accumulate
from typing import List, Tuple

_LINE_END = re.compile(r"\r\n|\n|\r")
_LINE = re.compile(r"[^\n]*\n")


class Lines:
    """Where the lines of a text begin. Lines and columns count from 0."""

    def __init__(self, text: str) -> None:
        self.text = text

    @cached_property
    def starts(self) -> List[int]:
        """Where they begin."""
        if "\r" in self.text:
            return [0] + [match.end() for match in _LINE_END.finditer(self.text)]
        ended = self.text[:self.text.rfind("\n") + 1]  # Behind it the expression would look for an end from each character.
        return [0, *accumulate(map(len, _LINE.findall(ended)))]

    def line(self, place: int) -> int:
        """The line of a place in the text."""
        return bisect_right(self.starts, place) - 1

    def column(self, place: int) -> Tuple[int, int]:
        """Line and column, in characters."""
        line = self.line(place)
        return line, place - self.starts[line]

    def utf16(self, place: int) -> Tuple[int, int]:
        """Line and column, in UTF-16 units, as editors count."""
        line, column = self.column(place)
        start = self.starts[line]
        return line, column + _astral(self.text[start:place])

    def place(self, line: int, units: int) -> int:
        """The place of a line and a column in UTF-16 units. Behind a line's end is its end, behind the last line the text's."""
        if line < 0:
            return 0
        if line >= len(self.starts):
            return len(self.text)
        start = self.starts[line]
        end = self.starts[line + 1] if line + 1 < len(self.starts) else len(self.text)
        return start + _characters(self.text[start:end].rstrip("\r\n"), units)


def _astral(text: str) -> int:
    """How many characters count two UTF-16 units."""
    return 0 if text.isascii() else sum(character > "\uffff" for character in text)


def _characters(line: str, units: int) -> int:
    """How many characters of the line so many UTF-16 units are, at most all of them."""
    if line.isascii():
        return max(0, min(units, len(line)))
    at = 0
    while at < len(line) and units > 0:
        units -= 2 if line[at] > "\uffff" else 1
        at += 1
    return at


def changed(lines: Lines, start: Tuple[int, int], end: Tuple[int, int], new: str) -> Tuple[str, int]:
    """The text with what stands between two places, each a line and a column in UTF-16 units, replaced; and the place behind the new text."""
    first, last = lines.place(*start), lines.place(*end)
    return lines.text[:first] + new + lines.text[max(first, last):], first + len(new)
