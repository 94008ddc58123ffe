"""Refusals of commands in words: where the error stands in the command's text, and what to do about it."""

from __future__ import annotations

import re
from functools import lru_cache
from typing import List, Optional, Sequence, Tuple

from holls import manual, notation, protocol, syntax
from holls.protocol import Refusal

Told = syntax.Told

_FIXED = {
    protocol.NO_PROOF: "no proof is open here: begin one by g NAME `term`;;",
    protocol.TOO_LARGE: "too large: a term here has over 20,000 nodes, those of its types counted; split the statement",
    protocol.BAD_RULE: "%s doesn't fit what it is given",
    protocol.HYPOTHESES: "%s was given a theorem with a hypothesis that is none of the goal's assumptions",
    protocol.NO_GOAL: "no goal is left here: end the proof by qed;;",
    protocol.TURN_LIMIT: "the turn limit was reached: a tactic doesn't end (rewriting? ONCE_REWRITE_TAC, or SUBST1_TAC at an instance), or "
                         "takes more turns than a step has: split it into several e",
    protocol.GOALS_REMAIN: "the proof isn't done: goals remain",
    protocol.NOTHING_TO_UNDO: "nothing to undo: the proof is at its beginning",
    protocol.IMPORT_CLASH: "the import gives %s another value than the one that stands here: rename one of the two",
    protocol.UNKNOWN_THEORY: "there is no theory %s before this one",
    protocol.UNKNOWN_THEOREM: "no theorem %s stands before this command",
    protocol.NOT_CLOSED: "%s is free in what is defined: make it an argument of the constant",
    protocol.NOT_REFLECTED: "the type variable %s occurs in the definition and not in the constant's type: annotate the constant",
}

_OF_COMMANDS = {
    "new_basic_type_definition": {
        protocol.NOT_CLOSED: "%s is free in the P of the theorem `P x`: the type's condition has to be closed",
        protocol.BAD_RULE: "%s takes a theorem `P x` as its last name, and this one is no application",
    },
    "e": {
        protocol.TOO_LARGE: "too large: a term here or a term that a tactic makes has over 20,000 nodes, those of its types counted: rewriting that "
                            "doesn't end? ONCE_REWRITE_TAC, or SUBST1_TAC at an instance",
    },
    "deftac": {
        protocol.TOO_LARGE: "too large: a term here, or the expression with its terms, its theorems and the expressions that it names, has over "
                            "20,000 nodes",
    },
}
"""What some commands' refusals say."""

_RECURSIVE = ("%s stands on its own right side: new_definition can't be recursive; define makes functions by clauses, behind import packages "
              "(docs/PACKAGES.md)")
"""What refusal 11 says of a definition's own constant, which is free on the right."""

_ARGUMENT = re.compile(r"\s*([`(\[]|(?!(THEN|THENL|ORELSE)(?![A-Za-z0-9_']))[A-Za-z_])")
"""An argument behind a function's name."""


_QUOTED = {
    protocol.UNTYPABLE: "this term has no typing: somewhere in it two types don't agree, or what is applied is no function",
    protocol.NOT_BOOL: "this term isn't of type bool: annotate what leaves its type open, as in (P:A->bool) x, or state an "
                       "equation",
    protocol.ARITY: "a type in this term has arguments that its constructor doesn't take: bool and ind take none, and a name "
                    "that is no constructor none (a variable with its type before another one stands in parentheses: "
                    "!(x:A) y. p)",
}
"""The refusals that name a quotation's place."""


@lru_cache(1 << 10)
def explain(text: str, refusal: Refusal, opened: Optional[str] = None) -> Told:
    """What a refusal of a command says. `opened` tells of the proof that is open, where one is."""
    number = refusal.number
    if number == protocol.SYNTAX:
        return syntax.explain(text, _place(text, refusal))
    if number in (protocol.UNTYPABLE, protocol.NOT_BOOL, protocol.ARITY):
        return _quotation(text, refusal)
    if number in (protocol.UNKNOWN_TAC, protocol.UNKNOWN_THEOREM):
        missing = syntax.missing_end(text)
        if missing:
            return missing
    start, end = _marked(text, number, refusal.argument)
    own = _OF_COMMANDS.get(notation.token(text, 0) or "", {})
    if number == protocol.IN_A_PROOF:
        words = "a proof is open: %s; end it by qed;; or give it up by oops;;" % (opened or "end it first")
    elif number == protocol.UNKNOWN_TAC:
        words = _unknown_tac(text, refusal.argument, start)
    elif number == protocol.REFUSED:
        words = _refused(text, refusal.argument)
    elif number == protocol.NAME_TAKEN:
        is_twice = text.startswith("new_") and text.split().count(refusal.argument.split(":")[-1]) > 1
        twice = " or is made twice here" if is_twice else ""
        words = "%s stands already%s: choose another name" % (_key(refusal.argument), twice)
    elif number == protocol.IMPORT_CLASH:
        words = _FIXED[number] % _key(refusal.argument)
    elif number in own:
        words = own[number].replace("%s", refusal.argument)
    elif number == protocol.NOT_CLOSED and notation.tokens_before(text, len(text))[3:4] == [refusal.argument]:
        words = _RECURSIVE % refusal.argument
    elif number == protocol.BAD_RULE and refusal.argument in manual.RULES:
        words = "%s doesn't fit what it is given: it wants %s" % (refusal.argument, manual.RULES[refusal.argument].wants)
    else:
        words = _FIXED.get(number, refusal.text + " %s").replace("%s", refusal.argument).strip()
    return start, end, words + _inside(text, number, refusal.argument)


def rests(items: Sequence[str]) -> str:
    """On what a theorem rests."""
    return "rests on " + (", ".join(items) or "no axioms or definitions of its own")


def _key(argument: str) -> str:
    """A key as `thm:N` in words."""
    kind, _, name = argument.partition(":")
    return "%s %s" % ({"thm": "the theorem", "const": "the constant", "type": "the type", "tac": "the tactic"}.get(kind, kind), name)


def _place(text: str, refusal: Refusal) -> int:
    """The place that a refusal names: decimal digits, in no more than the text has."""
    place = refusal.argument
    return min(int(place), len(text)) if place.isdecimal() and len(place) < 9 else 0


def _marked(text: str, number: int, argument: str) -> Tuple[int, int]:
    """The range of the name that a refusal is about. Where it is a function's that is called more than once, all its calls are in it."""
    name = argument.split(":")[-1]
    places = notation.word_ranges(text, name) if number == protocol.NAME_TAKEN else _uses(text, name)
    if not places:
        return _expression(text) if number in _OF_CALLS else _first_word(text)
    is_any = number in _OF_CALLS or number == protocol.BAD_RULE or number == protocol.UNKNOWN_TAC and name in notation.TACS
    return places[0][0], places[-1 if is_any else 0][1]


def _uses(text: str, name: str) -> List[Tuple[int, int]]:
    """Where a name stands outside quotations, but for the one that `deftac` gives."""
    return [where for where in notation.word_ranges(text, name) if not notation.is_made_name(text, where[0])]


def _expression(text: str) -> Tuple[int, int]:
    """The range of a step's expression."""
    _, end = _first_word(text)
    return end + len(text[end:]) - len(text[end:].lstrip()), len(text)


def _inside(text: str, number: int, name: str) -> str:
    """What is said where the function that a refusal is about stands inside a named one."""
    return "; it stands in an expression that is named here" if number in _OF_CALLS and not _uses(text, name) else ""


def _first_word(text: str) -> Tuple[int, int]:
    word = notation.token(text, 0)
    return 0, len(word) if word else min(1, len(text))


def _quotation(text: str, refusal: Refusal) -> Told:
    """The words for the refusals that name a quotation's place."""
    start, end = notation.quotation(text, _place(text, refusal))
    return start, end, _QUOTED[refusal.number]


def _unknown_tac(text: str, name: str, start: int) -> str:
    """The words for refusal 6."""
    if name in notation.TACS:
        takes = notation.TACS[name] or "no arguments"
        handing = _handing(text, start)
        if handing and notation.TACS[name].endswith("a theorem"):
            return "%s hands its theorem to %s, whose last argument is left out: write %s %s" % (handing, name, handing, name)
        if handing:
            return ("%s hands a theorem to the tactic behind it, and %s takes %s; write %s MP_TAC or the like, a tactic whose last "
                    "argument is a theorem%s" % (handing, name, takes, handing, _by_assumptions(name)))
        return "%s takes %s" % (name, takes)
    if name in notation.FORWARD:
        return "%s makes a theorem and is no tactic: write ACCEPT_TAC (%s ..), MP_TAC (%s ..) or the like" % (name, name, name)
    if name in notation.ELSEWHERE:
        instead = notation.ELSEWHERE[name]
        return "HOL Light's %s isn't here%s" % (name, ": " + instead if instead else "; docs/TACTICS.md lists the tactics that are")
    if name in notation.SEARCHES:
        return "%s is no step of a proof: %s" % (name, notation.SEARCHES[name])
    near = notation.near_tactic(name)
    meant = "; did you mean %s?" % near if near else ""
    if not near and any(_ARGUMENT.match(text, end) or _handing(text, first) for first, end in _uses(text, name)):
        return "no tactic %s takes arguments: what deftac names takes none" % name
    return "there is no tactic %s%s" % (name, meant)


def _handing(text: str, start: int) -> Optional[str]:
    """The tactical that hands a theorem to the function at a place, or None."""
    before = [token for token in notation.tokens_before(notation.without_quotations(text), start) if token != "("]
    return before[-1] if before and before[-1] in notation.HANDING else None


def _by_assumptions(name: str) -> str:
    """What a rewrite by an assumption is written as."""
    return "; rewriting by the assumptions is ASM_REWRITE_TAC []" if "REWRITE" in name else ""


_TYPED = ("EXISTS_TAC", "X_GEN_TAC", "X_CHOOSE_TAC", "UNDISCH_TAC")
"""The functions whose term has to have the type that the goal, or a theorem, has at its place."""

_OF_CALLS = (protocol.HYPOTHESES, protocol.REFUSED)
"""The refusals that name what was run."""

_OF_TACTICALS = {
    "THENL": "THENL needs as many expressions in its list as there are goals where it stands", "FIRST": "FIRST has nothing to try",
    "CHANGED_TAC": "what CHANGED_TAC runs leaves the goal as it was",
}


def _refused(text: str, name: str) -> str:
    """The words for refusal 17. Only a function that is called alone is called on the first goal."""
    if name in _OF_TACTICALS:
        return _OF_TACTICALS[name]
    goal = "the first goal" if is_alone(text, name) else "the goal that it is run on"
    entry = manual.entry(name)
    return "%s doesn't fit %s%s%s" % (name, goal, ": it wants " + entry.wants if entry and entry.wants else "", _left_open(text, name))


def is_alone(text: str, name: str) -> bool:
    """Whether a step's expression is one call of a function, perhaps in parentheses: so that it is run on the first goal."""
    called = [token for token in notation.tokens_before(text, len(text)) if token != "("][1:2]
    return called == [name] and not notation.has_tactical(text)


def bare_variable(text: str, name: str) -> Optional[Tuple[int, int]]:
    """The range of a quotation's term that is a name alone, behind a function that wants a term of a certain type: its type is left open."""
    found = re.search(r"(?<![A-Za-z0-9_'])%s\s*\(?\s*`\s*([A-Za-z_][A-Za-z0-9_']*)\s*`" % re.escape(name), text)
    return found.span(1) if found and name in _TYPED and found.group(1) not in ("T", "F") else None


def _left_open(text: str, name: str) -> str:
    """What is said of a term whose type nothing says. A quotation is typed by itself, whatever the goal is."""
    found = bare_variable(text, name)
    if not found:
        return ""
    variable = text[slice(*found)]
    return "; a variable %s has its type left open here, since a quotation takes none from the goal: write it, as in `%s:A`" % (variable, variable)
