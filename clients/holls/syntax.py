"""Words for a text that is no command: where it fails, and what was probably meant."""

from __future__ import annotations

import re
from typing import List, Optional, Tuple

from holls import notation, protocol

Told = Tuple[int, int, str]
"""A range in the command's text, and words."""

_IN_TERMS = {
    "!": "; a binder as an argument stands in parentheses: f (!x. P x)",
    "\\": "; a binder as an argument stands in parentheses: f (\\x. t)",
    "`": "; the quotation ends too soon, or a backquote is missing",
    ":": "; a binder's variable with a type before another one stands in parentheses: !(x:A) y. p",
    "0": "; numerals are notation, and none is declared here: theories/numbers.hol declares them",
    "+": "; operators are notation, and none is declared here: theories/arithmetic.hol declares those on numbers",
}
"""Hints at tokens in a quotation, that at "0" for each numeral, that at "+" for each of _OPERATORS."""
_OPERATORS = "+-*<>"
_QUOTES = "\"'\u2018\u2019\u201c\u201d\u00b4"
_IN_WORDS = {"forall": "!", "exists": "?", "exists_unique": "?!", "lambda": "\\", "fun": "\\", "not": "~"}
"""Words of other provers for signs of the notation."""
_LINE_WORD = re.compile(r"\n[ \t\r]*([A-Za-z_][A-Za-z0-9_']*)")
_COMMENT = re.compile(r"//|/\*|--|#|%")
_WITHOUT_NAME = re.compile(r"(%s)\s*`" % "|".join(word for word, form in notation.COMMANDS.items() if form.startswith(word + " NAME `")))
"""The commands that have a name before a quotation, without it."""
_GOES_ON = {"r": re.compile(r"\s*[0-9]"), "e": re.compile(r"\s*[A-Za-z(]"), "b": re.compile(r"\s*\Z|\s*\n")}
"""How a command goes on whose word may well be the name of a theorem."""


def explain(text: str, place: int) -> Told:
    """The words for refusal 1 at a place."""
    token = notation.token(text, place)
    before = notation.tokens_before(text, place)
    told = _comment(text, place, before) or unclosed(text) or _missing_before(text, place) or _without_name(text, before)
    if told:
        return told
    if before == ["deftac"] and token:
        return place, place + len(token), "a name is missing before the expression: %s" % notation.COMMANDS["deftac"]
    if place >= len(text):
        return max(0, place - 1), place, "the command ends too soon: something has to follow here"
    if not before and token in notation.COMMANDS:
        return place, place + len(token), "the program reads `%s` and doesn't run it in this form" % token
    if not before and token and token[0].isalpha():
        return place, place + len(token), _no_command(token)
    if len(before) >= protocol.TOKENS:
        return place, place + 1, "a command has at most %d tokens: split the statement" % protocol.TOKENS
    if sum(before.count(bracket) for bracket in "([") - sum(before.count(bracket) for bracket in ")]") >= protocol.BRACKETS:
        return place, place + 1, "more than %d brackets are open at once here" % protocol.BRACKETS
    return _unexpected(text, place, token, before)


def _comment(text: str, place: int, before: List[str]) -> Optional[Told]:
    """A comment in another language's style, at which the text fails: none of these marks begins a token."""
    found = _COMMENT.match(text, place)
    if not found or before.count("`") % 2:
        return None
    begins = "no symbol of the notation" if before else "no command"
    return place, found.end(), "`%s` begins %s; comments are (* .. *)" % (found.group(), begins)


def unclosed(text: str) -> Optional[Told]:
    """A backquote that is missing: quotations have two each."""
    places = [at for at, character in enumerate(text) if character == "`"]
    if len(places) % 2 == 0:
        return None
    start = _unpaired(text, places)
    return start, start + 1, "this quotation is never closed: a backquote is missing"


def _unpaired(text: str, places: List[int]) -> int:
    """The backquote that has none to go with: the first one whose partner stands at a line's first word that is a command, else the last."""
    for first, second in zip(places[::2], places[1::2]):
        if any(word in notation.COMMANDS for word in _LINE_WORD.findall(text, first, second)):
            return first
    return places[-1]


def _missing_before(text: str, place: int) -> Optional[Told]:
    """A `;;` that is missing before a word, where the text fails there or behind it; what fails before would fail with a `;;` too."""
    missing = missing_end(text)
    return missing if missing and missing[0] <= place else None


def missing_end(text: str) -> Optional[Told]:
    """A `;;` that is missing before a line that begins with a command's word, or before `qed`; nothing in quotations counts."""
    blank = notation.without_quotations(text)
    for found in _LINE_WORD.finditer(blank):
        goes_on = _GOES_ON.get(found.group(1))
        if goes_on and not goes_on.match(blank, found.end()):
            continue
        if found.group(1) in notation.COMMANDS and blank[:found.start()].strip():
            return found.start(1), found.end(1), "a `;;` is missing before `%s`" % found.group(1)
    last = re.search(r"\S\s+(qed|oops)\s*\Z", blank)
    if last and not re.search(r"\b(g|import|deftac|new_\w+)\s+(qed|oops)\s*\Z", blank):
        return last.start(1), last.end(1), "a `;;` is missing before `%s`" % last.group(1)
    return None


def _without_name(text: str, before: List[str]) -> Optional[Told]:
    """A command that makes something, and has no name for it."""
    found = _WITHOUT_NAME.match(text)
    if not found or len(before) > 1:
        return None
    word = found.group(1)
    return found.end() - 1, found.end(), "a name is missing before the quotation: %s" % notation.COMMANDS[word]


def _no_command(token: str) -> str:
    """The words for a first word that begins no command."""
    near = notation.near(token, [word.upper() for word in notation.COMMANDS])
    if token in notation.TACS or token in notation.TACTICALS:
        return "`%s` begins no command: a step begins with e, as in e %s;;" % (token, token)
    if near:
        return "`%s` begins no command; did you mean %s?" % (token, near.lower())
    function = notation.near_tactic(token) if "_" in token else None
    if function:
        return "`%s` begins no command; did you mean e %s?" % (token, function)
    return "`%s` begins no command; commands begin with %s" % (token, ", ".join(notation.COMMANDS))


def _unexpected(text: str, place: int, token: Optional[str], before: List[str]) -> Told:
    """The words for a token with which no command goes on, or for a character that begins none."""
    if token is None:
        shown = text[place] if text[place].isprintable() else "U+%04X" % ord(text[place])
        is_operator = text[place] in _OPERATORS and before.count("`") % 2
        hint = "; `*)` closes no comment here" if text.startswith("*)", place) else _IN_TERMS["+"] if is_operator else (
            "; a term stands in backquotes, as `x = x`" if text[place] in _QUOTES else "")
        return place, place + 1, "`%s` begins no symbol of the notation%s" % (shown, hint)
    rule = _rule(text, place, before)
    if rule:
        return rule
    return place, place + len(token), "unexpected `%s`%s" % (token, _hint(text, token, before))


def _hint(text: str, token: str, before: List[str]) -> str:
    """What was probably meant by a token with which no command goes on."""
    is_word = token[0].isalpha() or token[0] == "_"
    if before[:1] == ["deftac"] and len(before) == 2 and token == "=":
        return "; the expression stands right behind the name: %s" % notation.COMMANDS["deftac"]
    if text.startswith("new_type") and token.isdigit():
        return "; a type constructor takes 0 to 16 arguments"
    if text.startswith("new_definition") and token in ("/\\", "\\/", "==>", "<=>"):
        return "; the right side of a definition's = stands in parentheses, or has <=> before it"
    if before.count("`") % 2 == 0:
        if token == ";":
            return "; a command ends with `;;`"
        if token in notation.FORWARD and before[:1] and before[0] in notation.STEPS:
            return _rule_bare(token, before)
        is_short = before and before[0] in notation.COMMANDS and before[0] not in notation.STEPS
        return "; expected %s" % notation.COMMANDS[before[0]] if is_short else ""
    if before[0] == "new_definition":
        return _in_definition(token, before[3:]) if is_word else _in_term(token)
    if before[-1] == "`" and (is_word or token == "("):
        return "; a type's quotation begins with `:`"
    opened = len(before) - before[::-1].index("`")
    word = next((word for word in before[opened:] if word in _IN_WORDS), None)
    if word and token in (".", ",", ":", "("):
        return "; `%s` is a plain name here: write `%s`" % (word, _IN_WORDS[word])
    return _in_term(token)


def _rule_bare(rule: str, before: List[str]) -> str:
    """The hint at a rule outside of parentheses: where a tactic is to stand, or as its argument."""
    if before[-1] in (*notation.STEPS, *notation.TACTICALS, "(", "[", ";") or before[0] == "deftac" and len(before) == 2:
        own = rule + "_TAC"
        return "; it makes a theorem, and a tactic is wanted here: ACCEPT_TAC (%s)%s" % (notation.FORWARD[rule], ", or " + own if own in notation.TACS else "")
    return "; a rule stands in parentheses here: (%s)" % notation.FORWARD[rule]


def _in_term(token: str) -> str:
    """The hint at a token of a quotation."""
    return _IN_TERMS.get("0" if token.isdigit() else token, "")


def _in_definition(token: str, before: List[str]) -> str:
    """The hint at a name behind what stands before it in a definition's quotation: as an argument, each name stands once."""
    is_in_parentheses = before.count("(") > before.count(")")
    if not before or "=" in before or "<=>" in before or is_in_parentheses and before[-1] != "(":
        return ""
    if token == before[0]:
        return "; no argument may have the name of the constant"
    return "; the argument %s stands twice" % token if token in before else ""


def _rule(text: str, place: int, before: List[str]) -> Optional[Told]:
    """A name that is used as a forward rule, and is none: as GSYM in [GSYM th]."""
    if len(before) < 2 or before[-2] not in ("[", "(", ";") or before.count("`") % 2 or not before[-1][0].isalpha():
        return None
    name = before[-1]
    if name in notation.FORWARD or name in notation.TACS or name in notation.TACTICALS:
        return None
    start = text.rindex(name, 0, place)
    instead = notation.RULES_ELSEWHERE.get(name)
    hint = "; in its place: %s" % instead if instead else "" if name in notation.RULES_ELSEWHERE or before[-2] == "(" else (
        "; theorems in a list stand apart by `;`")
    return start, start + len(name), "`%s` is none of the forward rules, which are %s%s" % (name, ", ".join(notation.FORWARD), hint)
