"""Steps that bring a goal nearer to first order logic: sets to their elements, functions to their values, predicates to their definitions."""

from __future__ import annotations

from typing import Callable, Dict, Iterator, List, Optional, Sequence, Tuple

from holls.prover import typed
from holls.prover.knowledge import Knowledge, equates_functions
from holls.prover.shown import Shown
from holls.prover.typed import Term
from holls.prover.writing import Unwritable


def preparations(shown: Shown, knowledge: Knowledge, named: Sequence[str] = ()) -> List[str]:
    """Steps that rewrite a goal with what is assumed in it, each perhaps in vain."""
    terms = list(shown.assumptions) + [shown.conclusion]
    try:
        moved = "".join("MP_TAC (ASSUME %s) THEN " % knowledge.quoter.quote(term) for term in reversed(shown.assumptions) if _is_moved(term, knowledge))
    except Unwritable:
        return []
    if typed.quantified(shown.conclusion) and typed.quantified(shown.conclusion)[0] == "!":
        moved = "REPEAT GEN_TAC THEN " + moved
    found: List[str] = []
    sets, unfolded = knowledge.membership(terms), knowledge.unfolded(terms)
    functions = list(knowledge.functions) if equates_functions(terms) and not sets else []
    for rules in (sets, [name for name in unfolded if name not in sets] + sets, functions + unfolded):
        rules = list(dict.fromkeys(list(named) + rules))
        if rules:
            found.append("%sREWRITE_TAC [%s] THEN BETA_TAC" % (moved, "; ".join(rules)))
    if "ETA_AX" in knowledge.scope.theorems and any(_is_expanded(part) for term in terms for part in typed.subterms(term)):
        found.append("%sREWRITE_TAC [ETA_AX]" % moved)
    return list(dict.fromkeys(found))


def _is_expanded(part: Term) -> bool:
    """Whether a part is `\\x. f x`."""
    return part[0] == "l" and part[3][0] == "a" and part[3][2] == ("b", 0) and not any(one == ("b", 0) for one in typed.subterms(part[3][1])) and \
        part[3][1][0] != "l"


def _is_moved(term: Term, knowledge: Knowledge) -> bool:
    """Whether rewriting may change what is assumed."""
    return bool(knowledge.membership([term]) or knowledge.unfolded([term]) or equates_functions([term]))


def conditionals(terms: Sequence[Term]) -> List[Term]:
    """What holds of each conditional in some formulas: `(b ==> COND b x y = x) /\\ (~b ==> COND b x y = y)`, for all that is bound outside."""
    return list(dict.fromkeys(found for term in terms for found in _said(term, [], _of_conditional)))


def members(terms: Sequence[Term]) -> List[Term]:
    """What the elements of each predicate are that is an abstraction: `!x. IN x (\\x. p) <=> p`, for all that is bound outside."""
    return list(dict.fromkeys(found for term in terms for found in _said(term, [], _of_abstraction)))


def choices(terms: Sequence[Term]) -> List[Tuple[Term, List[Term], Term]]:
    """What is said of each choice `@x. p` where there is such an x: the formula, the variables that are bound outside, and the abstraction."""
    found: Dict[Term, Tuple[Term, List[Term], Term]] = {}
    for term in terms:
        for bound, part in _choices(term, []):
            outside = [one for one in bound if one in typed.variables(part)]
            said = typed.mk_imp(typed.mk_exists(part), typed.opened(part[3], ("a", ("c", "@", typed.fun(typed.fun(part[2], typed.BOOL), part[2])), part)))
            for variable in reversed(outside):
                said = typed.mk_forall(variable, said)
            found.setdefault(said, (said, outside, part))
    return list(found.values())


def _choices(term: Term, bound: List[Term]) -> Iterator[Tuple[List[Term], Term]]:
    if term[0] == "l":
        variable = ("v", "%s%d" % (str(term[1]).rstrip("'") or "x", len(bound)), term[2])
        yield from _choices(typed.opened(term[3], variable), bound + [variable])
    elif term[0] == "a":
        if term[1][0] == "c" and term[1][1] == "@" and term[2][0] == "l":
            yield bound, term[2]
        yield from _choices(term[1], bound)
        yield from _choices(term[2], bound)


def _said(term: Term, bound: List[Term], say: Callable[[Term, bool], Optional[Term]], is_body: bool = False) -> Iterator[Term]:
    """What is said of the parts of a term; `is_body`: a quantifier takes it."""
    said = say(term, is_body)
    if said is not None:
        for variable in reversed([one for one in bound if one in typed.variables(said)]):
            said = typed.mk_forall(variable, said)
        yield said
    if term[0] == "l":
        variable = ("v", "%s%d" % (str(term[1]).rstrip("'") or "x", len(bound)), term[2])
        yield from _said(typed.opened(term[3], variable), bound + [variable], say)
    elif term[0] == "a":
        yield from _said(term[1], bound, say)
        yield from _said(term[2], bound, say, term[1][0] == "c" and term[1][1] in ("!", "?", "?!", "@"))


def _of_conditional(term: Term, _: bool) -> Optional[Term]:
    parts = _condition(term) if term[0] == "a" else None
    if parts is None:
        return None
    condition, left, right = parts
    return _both(typed.mk_imp(condition, typed.mk_eq(term, left)), typed.mk_imp(typed.mk_not(condition), typed.mk_eq(term, right)))


def _of_abstraction(term: Term, is_body: bool) -> Optional[Term]:
    if term[0] != "l" or is_body or typed.has_loose(term):
        return None
    variable = ("v", "%s0" % (str(term[1]).rstrip("'") or "x"), term[2])
    while variable in typed.variables(term):
        variable = ("v", variable[1] + "0", term[2])
    body = typed.opened(term[3], variable)
    if typed.type_of(body) != typed.BOOL:
        return None
    member = typed.apply(("c", "IN", typed.fun(term[2], typed.fun(typed.fun(term[2], typed.BOOL), typed.BOOL))), variable, term)
    return typed.mk_forall(variable, typed.mk_eq(member, typed.reduced(body)))


def _condition(term: Term) -> Optional[Tuple[Term, Term, Term]]:
    """The parts of a conditional."""
    if term[1][0] == "a" and term[1][1][0] == "a" and term[1][1][1][0] == "c" and term[1][1][1][1] == "COND":
        return term[1][1][2], term[1][2], term[2]
    return None


def _both(left: Term, right: Term) -> Term:
    return typed.apply(("c", "/\\", typed.fun(typed.BOOL, typed.fun(typed.BOOL, typed.BOOL))), left, right)
