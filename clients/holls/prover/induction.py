"""Induction: theorems of induction among those that stand, the variables of a goal that they may be used at, and the steps that begin it."""

from __future__ import annotations

from typing import Callable, Dict, FrozenSet, List, NamedTuple, Optional, Sequence, Tuple

from holls.prover import patterns, typed
from holls.prover.shown import Shown
from holls.prover.typed import BOOL, Term, Type
from holls.prover.writing import Quoter, Unwritable, type_text

_MOST = 6
"""So many ways to begin are proposed."""


class Induction(NamedTuple):
    """A theorem `!..P.. cases ==> !xs. P xs`, or `.. !xs. Q xs ==> P xs`.

    `before` are the variables that it is taken at before P, `predicate` P, `guard` Q's atom where there is one, `is_whole` whether it concludes
    `(!) P`, `cases` how many cases it has, and `constructors` what the cases build.
    """

    name: str
    before: Tuple[Term, ...]
    predicate: Term
    guard: Optional[Term]
    is_whole: bool
    cases: int
    constructors: FrozenSet[str]


class Beginning(NamedTuple):
    """A step that begins an induction."""

    step: str
    name: str


def of(name: str, statement: Term) -> List[Induction]:
    """The inductions that a theorem states."""
    variables: List[Term] = []
    term = statement
    while True:
        found = typed.quantified(term)
        if not found or found[0] != "!":
            break
        variables.append(("m", len(variables), found[2]))
        term = typed.opened(found[3], variables[-1])
    sides = typed.binary(term)
    predicates = [one for one in variables if _takes_values(one[2])]
    if not sides or sides[0] != "==>" or not predicates:
        return []
    return [made for made in (_concluding(name, variables, predicate, sides[1], sides[2]) for predicate in predicates) if made]


def _takes_values(ty: Type) -> bool:
    """Whether a type is that of predicates."""
    if not isinstance(ty, tuple) or ty[0] != "fun":
        return False
    while isinstance(ty, tuple) and ty[0] == "fun":
        ty = ty[2]
    return ty == BOOL


def _concluding(name: str, variables: Sequence[Term], predicate: Term, premise: Term, conclusion: Term) -> Optional[Induction]:
    """The induction of a predicate, where that is what is concluded."""
    before = tuple(one for one in variables if one != predicate)
    cases = _conjuncts(premise)
    built = frozenset(constant for case in cases for constant in _built(case, predicate))
    if conclusion == ("a", ("c", "!", typed.fun(predicate[2], BOOL)), predicate) and not before and built:
        return Induction(name, before, predicate, None, True, len(cases), built)
    bound: List[Term] = []
    while typed.quantified(conclusion) and typed.quantified(conclusion)[0] == "!":
        bound.append(("m", -1 - len(bound), typed.quantified(conclusion)[2]))
        conclusion = typed.opened(typed.quantified(conclusion)[3], bound[-1])
    sides = typed.binary(conclusion)
    guard = sides[1] if sides and sides[0] == "==>" else None
    if not bound or (sides[2] if guard is not None else conclusion) != typed.apply(predicate, *bound):
        return None
    if guard is None and (before or len(bound) > 1 or not built) or guard is not None and not _is_guard(guard, bound, before):
        return None
    return Induction(name, before, predicate, guard, False, len(cases), built)


def _is_guard(guard: Term, bound: Sequence[Term], before: Sequence[Term]) -> bool:
    """Whether a formula is a constant applied to variables, the bound ones last."""
    arguments = []
    while guard[0] == "a":
        arguments.append(guard[2])
        guard = guard[1]
    return guard[0] == "c" and set(arguments) == set(bound) | set(before) and len(arguments) == len(bound) + len(before)


def _conjuncts(term: Term) -> List[Term]:
    found = typed.binary(term)
    return _conjuncts(found[1]) + _conjuncts(found[2]) if found and found[0] == "/\\" else [term]


def _built(case: Term, predicate: Term) -> List[str]:
    """What a case concludes the predicate of."""
    while True:
        bound, sides = typed.quantified(case), typed.binary(case)
        if bound and bound[0] == "!":
            case = bound[3]
        elif sides and sides[0] == "==>":
            case = sides[2]
        else:
            break
    if case[0] == "a" and case[1] == predicate:
        name = patterns.head(case[2])
        return [name] if name else []
    return []


class Beginnings:
    """The ways to begin an induction at a goal that has no outer quantifier: its variables are free."""

    def __init__(self, found: Sequence[Induction], quoter: Quoter, shown: Shown, weight: Callable[[Term, Term], int]) -> None:
        self._found, self._quoter, self._shown, self._weight = found, quoter, shown, weight

    def all(self) -> List[Beginning]:
        """Steps, the likeliest first: at assumptions that are defined by induction, then at variables by which most is computed."""
        made: List[Beginning] = []
        goal = self._shown.conclusion
        variables = sorted(typed.variables(goal), key=lambda one: (-self._weight(goal, one), -_uses(goal, one), one[1]))
        # (Of several at one type the one stated first is the type's own.)
        first = self._found[::-1]
        wholes = {one.predicate[2][1][0] if isinstance(one.predicate[2][1], tuple) else "": one for one in first if one.guard is None}
        wholes.update({one.predicate[2][1][0]: one for one in first if one.is_whole and isinstance(one.predicate[2][1], tuple)})
        try:
            made += self._guarded()
            for variable in variables:
                one = wholes.get(variable[2][0]) if isinstance(variable[2], tuple) else None
                if one is not None and variable[2] != BOOL:
                    others = [other for other in variables if other != variable]
                    made += [self._whole(one, variable, [])] + ([self._whole(one, variable, others)] if others else [])
        except Unwritable:
            pass
        return made[:_MOST]

    def _moved(self, variables: Sequence[Term], but: Sequence[Term] = ()) -> Tuple[List[str], Term]:
        """Calls that move what is assumed of some variables into the goal, and the goal behind them."""
        goal, calls = self._shown.conclusion, []
        for term in self._shown.assumptions:
            if term not in but and any(one in typed.variables(term) for one in variables):
                calls.append("MP_TAC (ASSUME %s)" % self._quoter.quote(term))
                goal = typed.mk_imp(term, goal)
        return calls, goal

    def _whole(self, one: Induction, variable: Term, others: Sequence[Term]) -> Beginning:
        """An induction at a variable, with others generalized."""
        calls, goal = self._moved([variable])
        for other in others:
            calls.append("SPEC_TAC (%s, %s)" % (self._quoter.quote(other), self._quoter.quote(other)))
            goal = typed.mk_forall(other, goal)
        calls.append("SPEC_TAC (%s, %s)" % (self._quoter.quote(variable), self._quoter.quote(variable)))
        if one.is_whole:
            calls.append("MATCH_MP_TAC %s THEN BETA_TAC" % one.name)
        else:
            calls.append(self._specialized(one, typed.abstract(variable, goal), {}))
        return Beginning(" THEN ".join(calls + ["REPEAT CONJ_TAC"] * (one.cases > 1)), one.name)

    def _guarded(self) -> List[Beginning]:
        """Inductions at what is assumed."""
        made = []
        for one in self._found:
            for term in self._shown.assumptions if one.guard is not None else ():
                binding = patterns.Binding()
                if not binding.match(one.guard, term):
                    continue
                bound = [binding.terms[number] for number in sorted((key for key in binding.terms if key < 0), reverse=True)]
                if any(value[0] != "v" for value in bound) or len(set(bound)) < len(bound):
                    continue
                calls, goal = self._moved(bound, (term,))
                predicate = goal
                for value in reversed(bound):
                    predicate = typed.abstract(value, predicate)
                calls.append("UNDISCH_TAC %s" % self._quoter.quote(term))
                calls += ["SPEC_TAC (%s, %s)" % (self._quoter.quote(value), self._quoter.quote(value)) for value in reversed(bound)]
                calls.append(self._specialized(one, predicate, binding.terms))
                made.append(Beginning(" THEN ".join(calls + ["REPEAT CONJ_TAC"] * (one.cases > 1)), one.name))
        return made

    def _specialized(self, one: Induction, predicate: Term, terms: Dict[int, Term]) -> str:
        """A theorem at a predicate, matched when it is reduced."""
        values = dict(terms)
        values[one.predicate[1]] = predicate
        types: Dict[str, Type] = {}
        for variable in one.before + (one.predicate,):
            typed.match_type(variable[2], typed.type_of(values[variable[1]]), types)
        pairs = "; ".join("`:%s`,`:%s`" % (type_text(ty), name) for name, ty in sorted(types.items()) if ty != name)
        theorem = "(INST_TYPE [%s] %s)" % (pairs, one.name) if pairs else one.name
        for variable in sorted(one.before + (one.predicate,), key=lambda own: own[1]):
            theorem = "(SPEC %s %s)" % (self._quoter.quote(values[variable[1]]), theorem)
        return "MP_TAC %s THEN BETA_TAC THEN DISCH_THEN MATCH_MP_TAC" % theorem


def _uses(term: Term, variable: Term) -> int:
    return sum(part == variable for part in typed.subterms(term))

