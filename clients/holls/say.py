"""What is printed for people: one line a call, whatever stands in it."""

from __future__ import annotations

import sys
from typing import Optional, TextIO


def printable(text: str) -> str:
    """A text without characters that could end a line, move the cursor or turn the writing's direction: these are shown as escapes."""
    return text if text.isprintable() else "".join(
        character if character.isprintable() else character.encode("unicode_escape").decode("ascii") for character in text)


def say(text: str, to: Optional[TextIO] = None) -> None:
    """Prints a line."""
    print(printable(text), file=to or sys.stdout)


def complain(text: object) -> None:
    """Prints what is wrong, on standard error."""
    say("holls: %s" % text, sys.stderr)
