"""`theorems`: a name for a list of theorems, which stands in any list.

    theorems BASIC = [FORALL_SIMP; EXISTS_SIMP; NOT_CLAUSES];;      e REWRITE_TAC [BASIC; ADD_CLAUSES];;
"""

from __future__ import annotations

import re
from itertools import chain, count, takewhile
from typing import List, Tuple

from holls.packages.parsing import NAME, words
from holls.packages.scope import Asking
from holls.packages.steps import Change, outside
from holls.surface.errors import Misread

FORM = "theorems NAME = [THEOREM; THEOREM; ..]"
MOST = 500
OF_TYPES = re.compile(r"(?<![A-Za-z0-9_'])(distinctness|injectivity)(?![A-Za-z0-9_'])(?:\s*\"([A-Za-z_][A-Za-z0-9_']*)\")?")
"""HOL Light's words for what a type's constructors are."""
_LIBRARY = {"num": {"distinctness": ("NOT_SUC",), "injectivity": ("SUC_INJ",)}, "list": {"distinctness": ("NOT_CONS_NIL",), "injectivity": ("CONS_11",)},
            "option": {"distinctness": ("option_DISTINCT",), "injectivity": ("option_INJ",)},
            "sum": {"distinctness": ("sum_DISTINCT",), "injectivity": ("sum_INJECTIVE",)}, "prod": {"injectivity": ("PAIR_EQ",)}}
_LIST = re.compile(r"\s*theorems\s+[A-Za-z_][A-Za-z0-9_']*\s*=\s*\[(.*)\]\s*\Z", re.S)
_WORD = re.compile(r"[A-Za-z_][A-Za-z0-9_']*")


def may_have_types(text: str) -> bool:
    """Whether one of HOL Light's words for what a type's constructors are may stand in a text: looked for in no time."""
    return "distinctness" in text or "injectivity" in text


def read(text: str, asking: Asking) -> Tuple[str, Tuple[str, ...]]:
    """A list's name, and its theorems as they are written, those of lists in it among them. Raises `Misread`."""
    found = _LIST.match(text)
    parts = words(text)
    if found is None or len(parts) < 4 or not NAME.match(parts[1].text):
        raise Misread(0, max(1, len(text)), "this has to be of the form " + FORM)
    name = parts[1]
    if asking.is_theorem(name.text) or asking.list_of(name.text) is not None:
        raise Misread(name.start, name.end, "`%s` names a theorem or a list already: another name for this list" % name.text)
    members: List[str] = []
    at = found.start(1)
    for one in _pieces(found.group(1)):
        stripped = one.strip()
        start = at + len(one) - len(one.lstrip())
        at += len(one) + 1
        if not stripped:
            raise Misread(start - 1, start, "a theorem is missing here: " + FORM)
        if NAME.match(stripped):
            inner = asking.list_of(stripped)
            if inner is None and not asking.is_theorem(stripped):
                raise Misread(start, start + len(stripped), "no theorem and no list `%s` stands before this command" % stripped)
            members += inner if inner is not None else (stripped,)
        else:
            members.append(stripped)
    if len(members) > MOST:
        raise Misread(name.start, name.end, "a list has at most %d theorems" % MOST)
    return name.text, tuple(members)


def _pieces(text: str) -> List[str]:
    """The parts of a text between semicolons that stand in no bracket and no quotation."""
    plain, depth, found, last = outside(text), 0, [], 0
    for at, sign in enumerate(plain):
        depth += (sign in "[(") - (sign in "])")
        if sign == ";" and not depth:
            found.append(text[last:at])
            last = at + 1
    return found + [text[last:]]


def of_types(text: str, asking: Asking) -> List[Change]:
    """What a command has in place of `distinctness "t"` and `injectivity "t"`. Raises `Misread`."""
    plain = outside(text)
    found: List[Change] = []
    for one in OF_TYPES.finditer(plain):
        word, name = one.groups()
        known = _LIBRARY.get(name or "")
        of_library = [theorem for theorem in (known or {}).get(word, ()) if asking.is_theorem(theorem)]
        stem = "%s_%s" % (name, "DISTINCT" if word == "distinctness" else "INJECTIVE")
        own = list(takewhile(asking.is_theorem, chain([stem], (stem + str(number) for number in count(2)))))
        if name is None or not of_library and not own:
            why = "is written %s \"TYPE\"" % word if name is None else "isn't known of `%s`: its constructors have nothing to tell, or it isn't by define_type" % name
            raise Misread(one.start(), one.end(), "`%s` %s" % (word, why))
        found.append(Change(one.start(), one.end(), "; ".join(of_library or own)))
    return found


def changes(text: str, asking: Asking) -> List[Change]:
    """What a command has in place of the names of lists. Raises `Misread` where one stands outside of a list."""
    plain = outside(text)
    found: List[Change] = []
    for one in _WORD.finditer(plain):
        members = asking.list_of(one.group())
        if members is None:
            continue
        before, behind = plain[:one.start()].rstrip(), plain[one.end():].lstrip()
        if before[-1:] not in ("[", ";") or behind[:1] not in ("]", ";"):
            raise Misread(one.start(), one.end(), "`%s` is a list of theorems: it stands among those of a list, [%s; ..]" % (one.group(), one.group()))
        found.append(Change(one.start(), one.end(), "; ".join(members)))
    return found
