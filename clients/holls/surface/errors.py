"""What is wrong with a text in notation."""

from __future__ import annotations

from typing import Optional, Tuple


class Misread(Exception):
    """A text that can't be read, or that the program can't take, with the range where it fails and what to do.

    `unknown` is an operator or a numeral that stands for nothing here, `hiding` a bound variable that has a constant's name, and `taken` the kind (`const`,
    `type` or `thm`) and the name of what stands already, where that is wrong.
    """

    def __init__(self, start: int, end: int, text: str, unknown: Optional[str] = None, hiding: Optional[str] = None,
                 taken: Optional[Tuple[str, str]] = None) -> None:
        super().__init__(text)
        self.start, self.end, self.text, self.unknown, self.hiding, self.taken = start, end, text, unknown, hiding, taken
