"""Terms as plain text in which every type is determined, so that nothing is left open."""

from __future__ import annotations

from functools import lru_cache
from typing import Callable, FrozenSet, List, Optional, Set, Tuple

from holls.packages.terms import BOOL, LOGIC, Term, Type, args_of, arity, is_binder, spine, tyshow, typeof, tyvars, walk
from holls.surface.tree import BINDERS, PRECEDENCES

_NEGATION, _FUNCTION, _ARGUMENT = 13, 14, 15
_INFIXES = ("/\\", "\\/", "==>", "=")


def show(term: Term, type_of: Callable[[str], Type], level: int = 0, told: Optional[Set[str]] = None) -> str:
    """A term as the program reads it. `type_of` gives a constant's most general type; free variables that are `told` have their types already."""
    return _Printer(type_of, set() if told is None else told).term(term, level, frozenset())


class _Printer:
    """Binders are annotated, free variables where they come first, constants where their arguments don't say their types."""

    def __init__(self, type_of: Callable[[str], Type], told: Set[str]) -> None:
        self.type_of, self.told = type_of, told

    def term(self, term: Term, level: int, bound: FrozenSet[str]) -> str:
        if term[0] == "v":
            if term[1] not in bound and term[1] not in self.told:
                self.told.add(term[1])
                return "(%s:%s)" % (term[1], tyshow(term[2]))
            return term[1]
        if term[0] == "\\" or term[0] == "@" and term[1][0] == "c" and term[1][1] in BINDERS and term[2][0] == "\\":
            return self.binder(term, level, bound)
        head, arguments = spine(term)
        if head[0] == "c" and head[1] in _INFIXES and len(arguments) == 2:
            return self.infix(head[1], arguments, level, bound)
        if head[0] == "c" and head[1] == "~" and len(arguments) == 1:
            return _bracketed("~" + self.term(arguments[0], _NEGATION, bound), level > _NEGATION)
        name = self.constant(head, len(arguments)) if head[0] == "c" else self.term(head, _ARGUMENT, bound)
        shown = " ".join([name] + [self.term(one, _ARGUMENT, bound) for one in arguments])
        if head[0] == "c" and _is_open(LOGIC[head[1]] if head[1] in LOGIC else self.type_of(head[1]), len(arguments)):
            return "(%s:%s)" % (shown, tyshow(typeof(term)))
        return _bracketed(shown, bool(arguments) and level > _FUNCTION)

    def binder(self, term: Term, level: int, bound: FrozenSet[str]) -> str:
        kind = "\\" if term[0] == "\\" else term[1][1]
        variables: List[str] = []
        while term[0] == "\\" if kind == "\\" else is_binder(term, kind):
            inner = term if kind == "\\" else term[2]
            variables.append("(%s:%s)" % (inner[1], tyshow(inner[2])))
            bound = bound | {inner[1]}
            term = inner[3]
        return _bracketed("%s%s. %s" % (kind, " ".join(variables), self.term(term, 0, bound)), level > 0)

    def infix(self, name: str, arguments: List[Term], level: int, bound: FrozenSet[str]) -> str:
        symbol = "<=>" if name == "=" and walk(typeof(arguments[0])) == BOOL else name
        at = PRECEDENCES[symbol]
        right = at + 1 if name == "=" else at
        shown = "%s %s %s" % (self.term(arguments[0], at + 1, bound), symbol, self.term(arguments[1], right, bound))
        return _bracketed(shown, level > at)

    @staticmethod
    def constant(head: Term, _: int) -> str:
        name = head[1]
        return "(%s)" % name if name in LOGIC and not name.isidentifier() else name


@lru_cache(4_096)
def _is_open(general: Type, number: int) -> bool:
    """Whether so many arguments of a constant don't say all of its type."""
    most = arity(general)
    arguments, result = args_of(general, min(number, most))
    said = {name for one in arguments for name in tyvars(one)}
    return number <= most and bool(set(tyvars(result)) - said)


def _bracketed(text: str, is_needed: bool) -> str:
    return "(%s)" % text if is_needed else text


def shown_briefly(term: Term, of_numeral: Callable[[Term], Optional[Tuple[int, Optional[Term]]]]) -> str:
    """A pattern without its types, for messages. `of_numeral` is what a term adds to another one, as `n + 2` does."""
    numeral = of_numeral(term)
    if numeral is not None:
        number, rest = numeral
        return str(number) if rest is None else "(%s + %d)" % (shown_briefly(rest, of_numeral), number)
    head, arguments = spine(term)
    parts = [head[1]]
    for one in arguments:
        shown = shown_briefly(one, of_numeral)
        parts.append("(%s)" % shown if one[0] == "@" and of_numeral(one) is None else shown)
    return " ".join(parts)
