"""What a type's theorem of induction comes to for a goal of any body: theorems `.. ==> (!) P` by induction and by cases, which MATCH_MP_TAC takes to it.

Of the types of theories/ they stand. Of those that packages make they are a step or two from the theorem of induction, and are made where they are needed.
"""

from __future__ import annotations

import re
from typing import AbstractSet, Optional, Tuple

from holls.packages.layout import Layout
from holls.packages.output import PUBLIC, Output
from holls.packages.scope import INDUCT, SPLIT, Asking, Data

EVERY = "pk_EVERY"
_CITED = re.compile(r"(?<![A-Za-z0-9_'])([A-Za-z_][A-Za-z0-9_']*)(?:%s|%s)(?![A-Za-z0-9_'])" % (INDUCT, SPLIT))


def cites(text: str, types: AbstractSet[str]) -> bool:
    """Whether a text may name such a theorem of one of these types."""
    return bool(types) and not types.isdisjoint(_CITED.findall(text))


def named(name: str, asking: Asking) -> Optional[Tuple[str, str]]:
    """The statement and the proof of such a theorem by its name, where it doesn't stand; None of other names."""
    found = _CITED.match(name)
    data = asking.data_of(found.group(1)) if found else None
    if data is None or data.is_of_library or asking.is_theorem(name):
        return None
    return (_by_cases if name.endswith(SPLIT) else _by_induction)(data, asking)


def need_split(data: Data, out: Output) -> None:
    """Has the theorem by cases of a type stand."""
    if data.is_of_library or data.split in out.asking.own.theorems or out.asking.is_theorem(data.split):
        return
    out.prove(data.split, *_by_cases(data, out.asking), PUBLIC)


def by_induction(data: Data) -> str:
    """The step by which a goal for all elements of a type becomes what induction asks of it."""
    return "%s THEN BETA_TAC" % (_opened(data) if not data.is_of_library else "MATCH_MP_TAC " + data.induct)


def by_cases(data: Data, asking: Asking) -> str:
    """The step by which a goal for all elements of a type becomes one for each constructor."""
    if data.is_of_library or asking.is_theorem(data.split):
        return "MATCH_MP_TAC %s THEN BETA_TAC" % data.split
    if not data.is_recursive:
        return by_induction(data)
    return "(SUBGOAL_THEN `%s` MATCH_MP_TAC THENL [%s; BETA_TAC])" % _by_cases(data, asking)


def _opened(data: Data) -> str:
    return "MATCH_MP_TAC %s THEN MATCH_MP_TAC %s" % (EVERY, data.induction)


def _by_induction(data: Data, asking: Asking) -> Tuple[str, str]:
    layout = Layout(data, asking)
    statement = "!%s. %s ==> (!) %s" % (layout.predicate, layout.every(lambda at: inductive(layout, at)), layout.predicate)
    return statement, "GEN_TAC THEN DISCH_TAC THEN %s THEN FIRST_ASSUM ACCEPT_TAC" % _opened(data)


def _by_cases(data: Data, asking: Asking) -> Tuple[str, str]:
    """The theorem by cases. What a goal assumes in which it is proved changes nothing: no step looks at that."""
    layout = Layout(data, asking)
    own, name = "pk_P:%s->bool" % layout.tight, layout.predicate
    assumed = layout.every(lambda at: "%s %s" % ("pk_P" if at else "(%s)" % own, layout.term(at)))
    proof = "X_GEN_TAC `%s` THEN DISCH_TAC THEN %s THEN REWRITE_TAC [ASSUME `%s`; FORALL_SIMP]" % (own, _opened(data), assumed)
    return "!%s. %s ==> (!) %s" % (name, layout.every(lambda at: "%s %s" % (name, layout.term(at))), name), proof


def inductive(layout: Layout, at: int) -> str:
    """What induction on a predicate asks of a constructor."""
    hypotheses = [("%s %s" if one.kind == "r" else "ALL %s %s") % (layout.predicate, one.name) for one in layout.arguments[at] if one.kind in "rl"]
    concluded = "%s %s" % (layout.predicate, layout.term(at))
    return "%s ==> %s" % (" /\\ ".join(hypotheses), concluded) if hypotheses else concluded
