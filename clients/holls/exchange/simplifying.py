"""Rewriting by theorems with premises: of an instance in the goal the premise is shown first, and then the equation is one to rewrite by."""

from __future__ import annotations

from typing import Dict, Iterator, List, NamedTuple, Sequence, Set, Tuple

from holls.exchange.citing import match, opened
from holls.prover import typed
from holls.prover.typed import Term, Type

_MOST_PREMISES = 4


class Conditional(NamedTuple):
    """A theorem `!xs. p ==> l = r`: its expression, its variables, p, and what is replaced."""

    text: str
    names: Tuple[Tuple[str, Type], ...]
    premise: Term
    left: Term


class Instance(NamedTuple):
    """Where a theorem fits: the premise there, and the theorem without it, which needs the premise as `%s`."""

    premise: Term
    text: str


def conditionals(theorems: Sequence[Tuple[str, Term]]) -> List[Conditional]:
    """The theorems with a premise among some, by their expressions."""
    made: List[Conditional] = []
    for text, statement in theorems:
        for part, expression in _conjuncts(statement, text):
            names, behind = opened(part)
            sides = typed.binary(behind)
            if not sides or sides[0] != "==>":
                continue
            equation = typed.binary(sides[2])
            left = equation[1] if equation and equation[0] in ("=", "<=>") else sides[2]
            inner = typed.negated(left)
            left = inner if inner is not None and not equation else left
            if left[0] == "v" or not {name for name, _ in names} <= {one[1] for one in typed.variables(left)}:
                continue
            made.append(Conditional(expression, tuple(names), sides[1], left))
    return made


def _conjuncts(statement: Term, text: str) -> Iterator[Tuple[Term, str]]:
    sides = typed.binary(statement)
    if sides and sides[0] == "/\\":
        yield from _conjuncts(sides[1], "(CONJUNCT1 %s)" % text)
        yield from _conjuncts(sides[2], "(CONJUNCT2 %s)" % text)
    else:
        yield statement, text


def instances(goal: Term, ways: Sequence[Conditional], quote, at_types) -> Iterator[Instance]:
    """Where theorems fit in a goal, the outermost parts first, each once."""
    seen: Set[Tuple[str, Term]] = set()
    for part in _parts(goal):
        for way in ways:
            terms: Dict[str, Term] = {}
            types: Dict[str, Type] = {}
            if not match(way.left, part, terms, types) or len(terms) != len(way.names):
                continue
            text = at_types(way.text, types)
            premise = typed.inst_type(way.premise, types)
            for name, ty in way.names:
                text = "(SPEC %s %s)" % (quote(terms[name]), text)
                premise = typed.replaced(premise, ("v", name, typed.instantiated(ty, types)), terms[name])
            premise = typed.reduced(premise)
            if (text, premise) not in seen:
                seen.add((text, premise))
                yield Instance(premise, "(MP %s (ASSUME %s))" % (text, quote(premise)))


def _parts(term: Term) -> Iterator[Term]:
    """The parts of a term that name no bound variable of outside, from the outside."""
    waiting = [term]
    while waiting:
        part = waiting.pop(0)
        if part[0] == "a":
            if not typed.has_loose(part):
                yield part
            waiting += [part[1], part[2]]
        elif part[0] == "l":
            waiting.append(part[3])
