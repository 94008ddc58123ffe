"""`simp`: theorems by which the clients' searches simplify, beside the equations of functions by constructors.

    simp LENGTH_APPEND REVERSE_REVERSE;;
"""

from __future__ import annotations

from typing import List

from holls.packages.parsing import NAME, words
from holls.packages.scope import Asking
from holls.surface.errors import Misread

FORM = "simp THEOREM THEOREM .."
MOST = 200


def read(text: str, asking: Asking) -> List[str]:
    """The theorems that are declared; names of lists stand for theirs. Raises `Misread`."""
    parts = words(text)[1:]
    if not parts:
        raise Misread(0, max(1, len(text)), "this has to be of the form " + FORM)
    found: List[str] = []
    for one in parts:
        if one.is_quoted or not NAME.match(one.text):
            raise Misread(one.start, max(one.end, one.start + 1), "a theorem's name is wanted here: " + FORM)
        members = asking.list_of(one.text)
        if members is None and not asking.is_theorem(one.text):
            raise Misread(one.start, one.end, "no theorem and no list `%s` stands before this command" % one.text)
        found += [name for name in members if NAME.match(name)] if members is not None else [one.text]
    if len(found) > MOST:
        raise Misread(0, len("simp"), "this declares over %d theorems: split it" % MOST)
    return found
