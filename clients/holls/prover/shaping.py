"""Rewriting by equations with variables for functions of what is bound, as `(!x. ?y. P x y) <=> ..`: the program matches no such shape, so that the
equation at a goal's part is found here, and put in as a step."""

from __future__ import annotations

from typing import AbstractSet, Iterator, List, NamedTuple, Optional, Sequence, Tuple

from holls.prover import patterns, typed
from holls.prover.knowledge import Knowledge
from holls.prover.patterns import Binding, Pattern
from holls.prover.shown import Shown
from holls.prover.typed import Term, Type
from holls.prover.writing import Unwritable

Bound = Tuple[str, Type]
"""A bound variable's name and its type."""
_MOST_PARTS = 400
_MOST_INSTANCES = 6
_PLACE = "\0%d"
"""The name of what is bound at a place, while a function of it is made."""


class Shape(NamedTuple):
    """An equation of a theorem, perhaps turned round, whose left side has a variable for a function of what is bound."""

    name: str
    pattern: Pattern
    left: Term
    right: Term
    is_turned: bool


class Instance(NamedTuple):
    """What a shape says of a part of a goal: the theorem's expression, the variables that are bound outside of the part, and the equation."""

    theorem: str
    bound: Tuple[Term, ...]
    said: Term
    size: int


def shapes(names: Sequence[str], knowledge: Knowledge) -> List[Shape]:
    """Those of some theorems' equations that have such a variable, as they stand first."""
    found: List[Shape] = []
    for name in names:
        for pattern in knowledge.scope.fact(name).patterns:
            sides = typed.binary(pattern.conclusion)
            if sides and sides[0] in ("=", "<=>") and not pattern.premises:
                found += [Shape(name, pattern, left, right, is_turned) for left, right, is_turned in (
                    (sides[1], sides[2], False), (sides[2], sides[1], True)) if patterns.head(left) and _is_flexible(left)]
    return sorted(found, key=lambda one: one.is_turned)


def _is_flexible(term: Term) -> bool:
    for part in typed.subterms(term):
        head, arguments = typed.spine(part)
        if head[0] == "m" and arguments and all(one[0] == "b" for one in arguments):
            return True
    return False


class _Binding(Binding):
    """As patterns' own, with functions of what is bound."""

    def match(self, pattern: Term, term: Term, bound: Tuple[Bound, ...] = ()) -> bool:
        """Whether a term under binders, the innermost first, is an instance."""
        head, arguments = typed.spine(pattern)
        if head[0] == "m" and arguments:
            return self._take_function(head, arguments, term, bound)
        kind = pattern[0]
        if kind == "a":
            return term[0] == "a" and self.match(pattern[1], term[1], bound) and self.match(pattern[2], term[2], bound)
        if kind == "l":
            return term[0] == "l" and typed.match_type(pattern[2], term[2], self.types) and self.match(pattern[3], term[3], ((term[1], term[2]),) + bound)
        return super().match(pattern, term)

    def _take_function(self, head: Term, arguments: List[Term], term: Term, bound: Tuple[Bound, ...]) -> bool:
        places = [one[1] for one in arguments if one[0] == "b"]
        if len(places) < len(arguments) or len(set(places)) < len(places):
            return False
        made = _with_places(term, bound)
        for place in reversed(places):
            name, ty = bound[place]
            made = ("l", name) + typed.abstract(("v", _PLACE % place, ty), made)[2:]
        if any(one[1].startswith(_PLACE[0]) for one in typed.variables(made)):
            return False
        known = self.terms.get(head[1])
        if known is not None:
            return known == made
        if not typed.match_type(head[2], typed.type_of(made), self.types):
            return False
        self.terms[head[1]] = made
        return True


def _with_places(term: Term, bound: Tuple[Bound, ...], depth: int = 0) -> Term:
    """A term with variables for what is bound outside of it."""
    if term[0] == "b":
        at = term[1] - depth
        return ("v", _PLACE % at, bound[at][1]) if at >= 0 else term
    if term[0] == "a":
        return ("a", _with_places(term[1], bound, depth), _with_places(term[2], bound, depth))
    return ("l", term[1], term[2], _with_places(term[3], bound, depth + 1)) if term[0] == "l" else term


def instances(shown: Shown, every: Sequence[Shape], knowledge: Knowledge) -> List[Instance]:
    """What shapes say of a goal's parts, the largest ones first."""
    found = {one.said: one for one in _all(shown.conclusion, every, knowledge, {one[1] for one in typed.variables(shown.conclusion)} | set(shown.free))}
    return sorted(found.values(), key=lambda one: -one.size)[:_MOST_INSTANCES]


def _all(goal: Term, every: Sequence[Shape], knowledge: Knowledge, names: AbstractSet[str]) -> Iterator[Instance]:
    for number, (part, bound) in enumerate(parts(goal, names | knowledge.constants)):
        if number > _MOST_PARTS:
            return
        begin = patterns.head(part)
        for shape in every:
            if patterns.head(shape.left) == begin:
                instance = _at(shape, part, bound, knowledge)
                if instance is not None:
                    yield instance


def parts(term: Term, names: AbstractSet[str]) -> Iterator[Tuple[Term, Tuple[Term, ...]]]:
    """A term's parts, at variables for what is bound outside, with these; they have none of some names."""
    waiting: List[Tuple[Term, Tuple[Term, ...]]] = [(term, ())]
    while waiting:
        part, bound = waiting.pop()
        if part[0] == "a":
            yield part, bound
            waiting += [(part[2], bound), (part[1], bound)]
        elif part[0] == "l":
            name, used = str(part[1]).rstrip("'") or "x", {one[1] for one in bound}
            while name in names or name in used:
                name += "'"
            variable = ("v", name, part[2])
            waiting.append((typed.opened(part[3], variable), bound + (variable,)))


def _at(shape: Shape, part: Term, bound: Tuple[Term, ...], knowledge: Knowledge) -> Optional[Instance]:
    binding = _Binding()
    if not binding.match(shape.left, part) or len(binding.terms) < shape.pattern.count:
        return None
    other = binding.instance(shape.right)
    theorem = None if other is None else knowledge.exact.expression(shape.name, shape.pattern, binding, ())
    if theorem is None or typed.reduced(other) == part:
        return None
    outside, said = said_of(part, typed.reduced(other), bound)
    return Instance("(SYM %s)" % theorem if shape.is_turned else theorem, outside, said, typed.size(part))


def said_of(part: Term, other: Term, bound: Sequence[Term]) -> Tuple[Tuple[Term, ...], Term]:
    """That a part is another term, for all values of those variables in it that are bound outside; and these."""
    outside = tuple(one for one in bound if one in typed.variables(part))
    said = typed.mk_eq(part, other)
    for variable in reversed(outside):
        said = typed.mk_forall(variable, said)
    return outside, said


def taken(variables: Sequence[Term], knowledge: Knowledge) -> str:
    """The beginning of a step that takes variables off a goal. Unwritable where one can't be written."""
    return "".join("X_GEN_TAC %s THEN " % knowledge.quoter.quote(one) for one in variables)


def step(instance: Instance, knowledge: Knowledge) -> Optional[str]:
    """A step that puts an equation into a goal; None where it can't be written."""
    try:
        said = knowledge.quoter.quote(instance.said)
        shown = "%sMP_TAC %s THEN BETA_TAC THEN DISCH_THEN ACCEPT_TAC" % (taken(instance.bound, knowledge), instance.theorem)
    except Unwritable:
        return None
    if not instance.bound:
        return "SUBGOAL_THEN %s SUBST1_TAC THENL [%s; ALL_TAC]" % (said, shown)
    return "SUBGOAL_THEN %s ASSUME_TAC THENL [%s; ONCE_REWRITE_TAC [ASSUME %s]]" % (said, shown, said)
