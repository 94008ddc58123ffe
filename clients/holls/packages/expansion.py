"""Expands packages: a pure function of a package's text and of what stands before it, kept as long as that says the same."""

from __future__ import annotations

from dataclasses import dataclass
from typing import Any, Dict, List, Mapping, Optional, Tuple

from holls.packages import forms, lets, listed, simplifying
from holls.packages.output import HIDDEN, PUBLIC, Output, Plain
from holls.packages.parsing import Place
from holls.packages.scope import THEORY, Asking, Standing, agrees
from holls.surface.errors import Misread
from holls.surface.table import Table
from holls.surface.vocabulary import Asked, Vocabulary
from holls.surface.vocabulary import agrees as vocabulary_agrees

_MOST_KEPT = 500
_MOST_WAYS = 4
"""So many expansions of one text are kept, by what stands before it."""


@dataclass(frozen=True)
class Expansion:
    """What a package stands for: plain commands, and what they make; or what is wrong with it."""

    plain: Tuple[Plain, ...]
    made: Standing
    error: Optional[Misread] = None


@dataclass(frozen=True)
class _Kept:
    """An expansion with all that was asked for it, and the answers."""

    expansion: Expansion
    answers: Mapping[Tuple[str, str], Any]
    vocabulary: Mapping[Tuple[str, str], Optional[bool]]


MAKING = ("define_type", "define", "inductive", "specification", "record")
"""The packages that stand for commands."""
WORDS: Dict[str, str] = {"define_type": forms.DEFINE_TYPE, "define": forms.DEFINE, "inductive": forms.INDUCTIVE,
                         "specification": forms.SPECIFICATION, "record": forms.RECORD, "sorry": "sorry", "theorems": listed.FORM,
                         "let": lets.FORM, "simp": simplifying.FORM}
"""The words that begin a package, and how each is written."""
OF_FILES = ("theorems", "let", "simp")
"""Those that only name something for steps and for searches: the program never gets them, and they may stand in a proof."""


def expanded(text: str, word: str, table: Table, vocabulary: Vocabulary, standing: Standing) -> Expansion:
    """What a package stands for at a place. It is kept, and found again while all that was asked has the same answers."""
    kept: Dict[str, List[_Kept]] = table.memory.setdefault("packages", {})
    ways = kept.setdefault(text, [])
    for one in ways:
        if vocabulary_agrees(vocabulary, one.vocabulary) and agrees(standing, one.answers):
            return one.expansion
    if len(kept) > _MOST_KEPT:
        kept.clear()
        ways = kept.setdefault(text, [])
    asked, asking = Asked(vocabulary), Asking(standing)
    found = _expanded(text, word, Place(table, asked), asking)
    ways.insert(0, _Kept(found, asking.answers, asked.answers))
    del ways[_MOST_WAYS:]
    return found


def _expanded(text: str, word: str, place: Place, asking: Asking) -> Expansion:
    from holls.packages.expanding import PACKAGES  # Here alone: most files have no package, and are read without what expands one.

    out = Output(asking)
    try:
        if not asking.has_base:
            raise Misread(0, len(word), "%s rests on the theory %s: write import %s;; above it" % (word, THEORY, THEORY))
        PACKAGES[word](text, place, out)
        out.check(word, len(word))
    except Misread as error:
        return Expansion((), Standing(), error)
    except RecursionError:
        return Expansion((), Standing(), Misread(0, len(word), "this %s is nested too deeply: split it" % word))
    except Exception as error:  # noqa: BLE001: told at this package, and the rest of the file goes on
        return Expansion((), Standing(), Misread(0, len(word), "an error in holls: %s: %s" % (type(error).__name__, error)))
    return Expansion(tuple(out.plain), asking.own)


def sorry(standing: Standing) -> Expansion:
    """What `sorry` stands for: the open proof is given up, and its goal is an axiom."""
    if standing.open is None:
        return Expansion((), Standing(), Misread(0, 5, "no proof is open here that `sorry` could end"))
    name, statement = standing.open
    plain = Plain("oops", HIDDEN, None), Plain("new_axiom %s `%s`" % (name, statement), PUBLIC, None)
    return Expansion(plain, Standing(theorems={name: statement}))
