"""What REWRITE_TAC makes of a term by some theorems, found from their statements alone (docs/TACTICS.md, Rewriting)."""

from __future__ import annotations

from typing import Dict, Iterable, List, NamedTuple, Optional, Sequence, Tuple

from holls.packages.matching_terms import matched
from holls.packages.terms import BOOL, Term, Type, const, eq, frees, is_operation, strip, subst, term_tyvars, tyinst

_MOST_TURNS = 2_000
"""So many parts are replaced at most."""
_MOST_NODES = 20_000
"""A term with more nodes isn't rewritten any more."""
TRUE, FALSE = const("T", BOOL), const("F", BOOL)

_Key = Optional[Tuple[str, int]]


class Endless(Exception):
    """Rewriting didn't end; the text says in how many steps, or in how large a term."""


class Rule(NamedTuple):
    """What a rule replaces, and what by; the names of the variables that take terms."""

    left: Term
    right: Term
    variables: frozenset


def rules(statement: Term) -> List[Rule]:
    """The rules of a theorem without hypotheses."""
    found: List[Rule] = []
    waiting = [statement]
    while waiting:
        _, body = strip(waiting.pop())
        if is_operation(body, "/\\"):
            waiting += [body[2], body[1][2]]
        else:
            found.append(_rule(body))
    return found


def _rule(body: Term) -> Rule:
    left, right = body, TRUE
    if is_operation(body, "="):
        lost = set(frees(body[2])) - set(frees(body[1][2])) or set(term_tyvars(body[2])) - set(term_tyvars(body[1][2]))
        left, right = (body, TRUE) if lost else (body[1][2], body[2])
    elif body[0] == "@" and body[1][0] == "c" and body[1][1] == "~":
        left, right = body[2], FALSE
    return Rule(left, right, frozenset(frees(left)))


def _basic() -> List[Rule]:
    """The basic rewrites of the prelude."""
    t, x = ("v", "t", BOOL), ("v", "x", "A")

    def joined(name: str, left: Term, right: Term) -> Term:
        return ("@", ("@", const(name, ("fun", BOOL, ("fun", BOOL, BOOL))), left), right)

    def negated(term: Term) -> Term:
        return ("@", const("~", ("fun", BOOL, BOOL)), term)

    pairs = [(eq(x, x), TRUE), (eq(TRUE, t), t), (eq(t, TRUE), t), (eq(FALSE, t), negated(t)), (eq(t, FALSE), negated(t)), (negated(TRUE), FALSE),
             (negated(FALSE), TRUE)]
    for name, values in (("/\\", (t, t, FALSE, FALSE, t)), ("\\/", (TRUE, TRUE, t, t, t)), ("==>", (t, TRUE, TRUE, TRUE, negated(t)))):
        sides = ((TRUE, t), (t, TRUE), (FALSE, t), (t, t), (t, FALSE)) if name == "==>" else ((TRUE, t), (t, TRUE), (FALSE, t), (t, FALSE), (t, t))
        pairs += [(joined(name, *side), value) for side, value in zip(sides, values)]
    return [Rule(left, right, frozenset(frees(left))) for left, right in pairs]


BASIC = _basic()


def _key(term: Term) -> _Key:
    """The constant that a term begins with, and the number of its arguments; None for another term."""
    number = 0
    while term[0] == "@":
        term, number = term[1], number + 1
    return (term[1], number) if term[0] == "c" else None


class Rewriting:
    """Rewrites terms by rules, the first part in preorder first, until none matches."""

    def __init__(self, every: Iterable[Rule]) -> None:
        self._rules: Dict[_Key, List[Tuple[int, Rule]]] = {}
        for number, rule in enumerate(every):
            self._rules.setdefault(_key(rule.left), []).append((number, rule))
        self._done: Dict[int, Term] = {}
        self._turns = 0

    def normal(self, term: Term) -> Term:
        """What rewriting makes of a term. Endless where it makes too many steps."""
        while True:
            made = self._once(term)
            if made is None:
                return term
            self._turns += 1
            if self._turns > _MOST_TURNS:
                raise Endless("in %d steps" % _MOST_TURNS)
            if _size(made) > _MOST_NODES:
                raise Endless("in a term of %d nodes" % _MOST_NODES)
            term = made

    def _once(self, term: Term) -> Optional[Term]:
        """The term with its first part replaced that a rule matches; None where none does."""
        if id(term) in self._done:
            return None
        made = self._replaced(term)
        if made is None and term[0] == "@":
            function = self._once(term[1])
            if function is not None:
                return ("@", function, term[2])
            argument = self._once(term[2])
            return self._noted(term) if argument is None else ("@", term[1], argument)
        if made is None and term[0] == "\\":
            body = self._once(term[3])
            return self._noted(term) if body is None else ("\\", term[1], term[2], body)
        return self._noted(term) if made is None else made

    def _noted(self, term: Term) -> None:
        """Takes it that no rule matches in a term."""
        self._done[id(term)] = term

    def _replaced(self, term: Term) -> Optional[Term]:
        key = _key(term)
        fitting = self._rules.get(key, [])
        if None in self._rules and key is not None:
            fitting = sorted(fitting + self._rules[None], key=lambda one: one[0])
        for _, rule in fitting:
            to: Dict[str, Term] = {}
            types: Dict[str, Type] = {}
            if matched(rule.left, term, rule.variables, to, types):
                return subst(tyinst(rule.right, types), to)
        return None


def _size(term: Term) -> int:
    number, waiting = 0, [term]
    while waiting:
        one = waiting.pop()
        number += 1
        if one[0] == "@":
            waiting += [one[1], one[2]]
        elif one[0] == "\\":
            waiting.append(one[3])
    return number


def rewritten(statement: Term, theorems: Sequence[Term], is_pure: bool = False) -> Term:
    """A statement rewritten by theorems, and unless it is to be by these alone by the basic rewrites. Endless where that doesn't end."""
    every = [rule for one in theorems for rule in rules(one)] + ([] if is_pure else BASIC)
    return Rewriting(every).normal(statement)
