"""The seam of the notation: how commands go to the program, and how a refusal of one comes back to what was written."""

from __future__ import annotations

from typing import NamedTuple

from holls.surface.translation import Translation, translated
from holls.text import cut
from holls.view import View


class Read(NamedTuple):
    """A command as it is written, in the program's ASCII, and as it is sent."""

    written: str
    translation: Translation

    @property
    def sent(self) -> str:
        """What the program gets."""
        return self.translation.text


def read(text: str, view: View) -> Read:
    """A command in the notation of a place; the symbols that may stand in a file may stand here too."""
    if not text.isascii():
        found = cut(text)
        text = found.commands[0].text if len(found.commands) == 1 and not found.comments else text
    return Read(text, translated(text, view.table, view.vocabulary))
