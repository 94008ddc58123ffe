"""Which theories of a project declare an operator or a form, or make a theorem or a tactic, by their files' texts: for words on one that isn't known
where it is written."""

from __future__ import annotations

import os
import re
import stat
from functools import lru_cache
from typing import FrozenSet, Iterator, List, Sequence, Set, Tuple

from holls.projects import SUFFIX, Moment, changed

MOST_FILES, MOST_BYTES = 500, 2_000_000
"""So many files are looked at, and none that is larger."""
NUMERALS = "num"
_DECLARED = re.compile(r"^[ \t]*(?:infix[rl][ \t]+[0-9]+|notation)[ \t]+([^\s;]+)", re.M)
_MADE = re.compile(r"^[ \t]*(?:g|new_axiom|new_definition|deftac)\s+([A-Za-z_][A-Za-z0-9_']*)", re.M)
_IMPORTED = re.compile(r"^[ \t]*import[ \t]+([A-Za-z_][A-Za-z0-9_']*)", re.M)
_PACKAGED = re.compile(r"^[ \t]*(define_type|define|inductive|specification)\s+([A-Za-z_][A-Za-z0-9_']*)", re.M)
_BY_PACKAGES = {
    "define_type": ("%s_INDUCTION", "%s_INDUCT", "%s_RECURSION", "%s_CASES", "%s_SPLIT", "%s_DISTINCT", "%s_INJECTIVE"), "define": ("%s",),
    "inductive": ("%s_RULES", "%s_INDUCT", "%s_STRONG_INDUCT", "%s_CASES"), "specification": ("%s",)}
"""The theorems that packages make, by the first name in them."""
_FORMS = {"if": "if", "then": "if", "else": "if", "let": "let", "in": "let", "and": "let"}


def theories(paths: Sequence[str], written: str) -> List[str]:
    """The theories whose files declare what is written: an operator, a word of a form, or a numeral."""
    wanted = NUMERALS if written.isdigit() else _FORMS.get(written, written)
    return [_theory(path) for path in paths[:MOST_FILES] if wanted in _declared(path, changed(path))]


def makers(paths: Sequence[str], name: str) -> List[str]:
    """The theories whose files make a theorem or a tactic of a name."""
    return [_theory(path) for path in paths[:MOST_FILES] if name in _made(path, changed(path))]


def beginning(paths: Sequence[str], start: str) -> Iterator[Tuple[str, str]]:
    """The theorems and tactics whose names begin so, whatever their letters' size, each with the theory whose file makes it."""
    small = start.lower()
    for path in paths[:MOST_FILES]:
        for name in sorted(_made(path, changed(path))):
            if name.lower().startswith(small):
                yield name, _theory(path)


def importers(paths: Sequence[str], name: str) -> Set[str]:
    """A theory, and those whose files import it, by way of others too."""
    imports = {_theory(path): _imported(path, changed(path)) for path in paths[:MOST_FILES]}
    found, count = {name}, 0
    while len(found) > count:
        count = len(found)
        found |= {theory for theory, own in imports.items() if own & found}
    return found


def _theory(path: str) -> str:
    return os.path.basename(path)[:-len(SUFFIX)]


@lru_cache(maxsize=2 * MOST_FILES)
def _imported(path: str, moment: Moment) -> FrozenSet[str]:
    """The theories that a file imports, as it was at a moment."""
    return frozenset(_IMPORTED.findall(_text(path)))


@lru_cache(maxsize=2 * MOST_FILES)
def _declared(path: str, moment: Moment) -> FrozenSet[str]:
    """What a file declares, as it was at a moment."""
    return frozenset(_DECLARED.findall(_text(path)))


@lru_cache(maxsize=2 * MOST_FILES)
def _made(path: str, moment: Moment) -> FrozenSet[str]:
    """The theorems and tactics that a file makes, as it was at a moment."""
    text = _text(path)
    packaged = [form % name for word, name in _PACKAGED.findall(text) for form in _BY_PACKAGES[word]]
    return frozenset(_MADE.findall(text) + packaged)


def _text(path: str) -> str:
    """A file's text; none of one that isn't looked at."""
    try:
        about = os.stat(path)
        if not stat.S_ISREG(about.st_mode) or about.st_size > MOST_BYTES:
            return ""
        with open(path, encoding="utf-8", errors="replace") as stream:
            return stream.read()
    except OSError:
        return ""
