"""`let`: a name for a quotation that a proof says often.

    let two = `SUC (SUC 0)`;;                                  behind it, in this file's steps
    e (let n = `x + 1` in EXISTS_TAC n THEN MP_TAC (SPEC n LE_0))    in the rest of an expression
"""

from __future__ import annotations

import re
from typing import Mapping, Optional, Tuple

from holls import notation
from holls.packages.replacing import replaced
from holls.packages.scope import Asking
from holls.packages.steps import WORDS as STEPS
from holls.packages.steps import Change, outside
from holls.surface.errors import Misread
from holls.surface.translation import Translation

FORM = "let NAME = `term`"
_IN = "let NAME = `term` in STEP"
_WHOLE = re.compile(r"let\s+([A-Za-z_][A-Za-z0-9_']*)\s*=\s*(`[^`]*`)\s*\Z")
_INNER = re.compile(r"([A-Za-z_][A-Za-z0-9_']*)\s*=\s*(`[^`]*`)\s*in(?![A-Za-z0-9_'])\s*")
_LET = re.compile(r"(?<![A-Za-z0-9_'])let(?![A-Za-z0-9_'])\s*")
_WORD = re.compile(r"[A-Za-z_][A-Za-z0-9_']*")
_MOST = 40
"""So many are in one expression."""
_USING = ("e", "deftac", "theorems")
"""The commands in which such names stand."""


def read(text: str, asking: Asking) -> Tuple[str, str]:
    """The name of a command `let`, and its quotation. Raises `Misread`."""
    found = _WHOLE.match(text)
    if found is None:
        hint = ": in one step it is written e (%s)" % _IN if re.search(r"`\s*in\b", text) else ""
        raise Misread(0, max(1, len(text)), "this has to be of the form %s%s" % (FORM, hint))
    _check(found.group(1), *found.span(1), asking)
    return found.group(1), found.group(2)


def _check(name: str, start: int, end: int, asking: Optional[Asking]) -> None:
    is_taken = name in notation.TACS or name in notation.TACTICALS or name in notation.FORWARD or name in STEPS
    if is_taken or asking is not None and (asking.is_theorem(name) or asking.list_of(name) is not None):
        raise Misread(start, end, "`%s` is a name in steps already: another name for this term" % name)


def translated(found: Translation, word: str, lets: Mapping[str, str]) -> Translation:
    """A command's translation with quotations for the names that stand for them."""
    if word not in _USING or found.error is not None or not lets and "let" not in found.text:
        return found
    try:
        for _ in range(_MOST):
            inner = _first(found) if word == "e" and "let" in found.text else None
            if inner is None:
                break
            found = inner
        return _replaced(found, lets, 0, len(found.text)) if lets else found
    except Misread as error:
        return Translation("", None, Misread(*found.range(error.start, error.end), error.text), found.answers)


def _first(found: Translation) -> Optional[Translation]:
    """A translation without its first `let`; None where it has none."""
    plain = outside(found.text)
    begun = _LET.search(plain)
    if begun is None:
        return None
    inner = _INNER.match(found.text, begun.end())
    if inner is None:
        raise Misread(begun.start(), begun.start() + len("let"), "in a step this is written %s" % _IN)
    name, quotation = inner.groups()
    _check(name, *inner.span(1), None)
    end = _end(plain, inner.end())
    made = _replaced(found, {name: quotation}, inner.end(), end)
    return replaced(made, [Change(begun.start(), inner.end(), "")])


def _end(plain: str, at: int) -> int:
    """Where the brackets end that are open at a place."""
    depth = 0
    for place in range(at, len(plain)):
        depth += (plain[place] in "([") - (plain[place] in ")]")
        if depth < 0:
            return place
    return len(plain)


def _replaced(found: Translation, lets: Mapping[str, str], start: int, end: int) -> Translation:
    """A translation with quotations for names in a range."""
    plain, begin = outside(found.text), _WORD.match(found.text)
    first = begin.end() if begin else 0
    changes = [Change(one.start(), one.end(), lets[one.group()])
               for one in _WORD.finditer(plain, max(start, first), end) if one.group() in lets]
    return replaced(found, changes) if changes else found
