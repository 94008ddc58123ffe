"""The type of a variable in a quotation, asked of the program by a goal of its own.

The quotation is written anew with a mark at the variable: a free variable MARK that is applied to it. The program types the whole, as it
does where the quotation stands, and a goal's report has the types of its free variables, MARK's among them. So this is the type that the
quotation has by itself: the program takes no types from the goal either.
"""

from __future__ import annotations

import re
from typing import FrozenSet, List, NamedTuple, Optional, Tuple

from holls import notation

MARK, UNUSED, WHOLE = "holls_mark", "holls_unused", "holls_whole"
_BINDERS = ("\\", "!", "?", "?!", "@")
_TOKEN = re.compile(r"[A-Za-z_][A-Za-z0-9_']*|<=>|==>|\\/|/\\|->|\?!|[^\s]")


class _Token(NamedTuple):
    text: str
    start: int
    depth: int


class _Name(NamedTuple):
    """A name in a quotation: the quotation's text, its tokens, which of them the name is, and the binder's token, if it is bound."""

    term: str
    tokens: List[_Token]
    at: int
    binder: Optional[int]


def _name_in_term(text: str, place: int) -> Optional[_Name]:
    """The name at a place of a command's text, where it stands in a quotation; of a type's there is none."""
    opened = text.rfind("`", 0, place)
    if opened < 0 or text.count("`", 0, place) % 2 == 0:
        return None
    closed = text.find("`", place)
    term = text[opened + 1:closed if closed >= 0 else len(text)]
    start, end = notation.word_at(text, place)
    if start == end or term.lstrip().startswith(":"):
        return None
    tokens = _tokens(term)
    at = next((number for number, token in enumerate(tokens) if token.start == start - opened - 1), None)
    if at is None or _is_in_type(tokens, at):
        return None
    return _Name(term, tokens, at, _binder(tokens, at, text[start:end]))


def is_in_type(text: str, place: int) -> bool:
    """Whether the name at a place of a command's text, which is in a quotation, is a type's."""
    return _name_in_term(text, place) is None


def is_bound(text: str, place: int) -> bool:
    """Whether the name at a place of a command's text is a variable that a binder binds."""
    found = _name_in_term(text, place)
    return found is not None and found.binder is not None


def names(text: str, place: int) -> FrozenSet[str]:
    """The names in the quotation that a place of a command's text is in."""
    found = _name_in_term(text, place)
    return frozenset(token.text for token in found.tokens) if found else frozenset()


def question(text: str, place: int) -> Optional[str]:
    """The command whose report tells the type of the variable at a place of a command's text; None where no variable stands there."""
    found = _name_in_term(text, place)
    if found is None:
        return None
    term, name = found.term, found.tokens[found.at].text
    if found.binder is None:
        marked = "(\\%s:bool. %s) (%s %s)" % (UNUSED, term, MARK, name)
    else:
        start, end = _body(found.tokens, found.binder, len(term))
        marked = "%s (\\%s:bool. %s) (%s %s)%s" % (term[:start], UNUSED, term[start:end], MARK, name, term[end:])
    return "g %s `(\\%s. T) (%s)`" % (WHOLE, WHOLE, marked)


def _tokens(term: str) -> List[_Token]:
    """The tokens of a term, each with the number of brackets that are open at it."""
    found, depth = [], 0
    for match in _TOKEN.finditer(term):
        depth -= match.group() == ")"
        found.append(_Token(match.group(), match.start(), depth))
        depth += match.group() == "("
    return found


def _is_in_type(tokens: List[_Token], at: int) -> bool:
    """Whether a token stands in an annotation: behind a `:`, with nothing between that ends one."""
    for token in reversed(tokens[:at]):
        if token.depth > tokens[at].depth:
            continue
        if token.text == ":":
            return True
        if token.text in (".", "=", "<=>", "==>", "/\\", "\\/", "~") or token.text in _BINDERS or token.depth < tokens[at].depth:
            return False
    return False


def _variables(tokens: List[_Token], binder: int) -> Optional[Tuple[List[int], int]]:
    """The places of a binder's variables among the tokens, and that of its dot."""
    found, is_type, at = [], False, binder + 1
    while at < len(tokens) and tokens[at].text != ".":
        if tokens[at].text == ":":
            is_type = True
        elif tokens[at].text == ")":
            is_type = False
        elif tokens[at].text[0].isalpha() or tokens[at].text[0] == "_":
            found += [] if is_type else [at]
        elif tokens[at].text not in ("(", "->", ","):
            return None
        at += 1
    return (found, at) if at < len(tokens) and found else None


def _binder(tokens: List[_Token], at: int, name: str) -> Optional[int]:
    """The binder of the variable at a token: the innermost one around it that has its name; None where it is free."""
    lowest = tokens[at].depth
    for number in range(at - 1, -1, -1):
        lowest = min(lowest, tokens[number].depth + (tokens[number].text == ")"))
        if tokens[number].text not in _BINDERS or tokens[number].depth > lowest:
            continue
        variables = _variables(tokens, number)
        if variables and any(tokens[place].text == name for place in variables[0]) and (at > variables[1] or at in variables[0]):
            return number
    return None


def _body(tokens: List[_Token], binder: int, length: int) -> Tuple[int, int]:
    """The range of a binder's body: from its dot as far to the right as it can reach."""
    dot = _variables(tokens, binder)[1]
    end = next((token.start for token in tokens[dot + 1:] if token.text == ")" and token.depth < tokens[binder].depth), length)
    return tokens[dot].start + 1, end


def answer(free: Tuple[str, ...]) -> Optional[str]:
    """The type in a report's free variables."""
    found = next((text.split(":", 1)[1] for text in free if text.startswith(MARK + ":")), None)
    if found is None or not found.endswith("->bool"):
        return None
    found = found[:-len("->bool")]
    return found[1:-1] if found.startswith("(") and found.endswith(")") and _is_one(found) else found


def _is_one(text: str) -> bool:
    """Whether a text's first bracket closes at its end."""
    depth = 0
    for at, character in enumerate(text):
        depth += {"(": 1, ")": -1}.get(character, 0)
        if not depth:
            return at == len(text) - 1
    return False
