"""HOL Light's ten rules on terms with names, as fusion.ml has them: what the generator of derivations goes by, and the checker doesn't.

A term is ("Var", name, type), ("Const", name, type), ("Comb", function, argument) or ("Abs", variable, body); types are those of terms.py. Bound variables
are renamed where they would capture, by primes. `nameless` leads to the terms in which sequents are written down."""

import dataclasses
from typing import Dict, FrozenSet, Iterator, Optional, Tuple

from .terms import BOOL, Type

Named = Tuple


def function_type(domain: Type, codomain: Type) -> Type:
    return ("TyApp", "fun", (domain, codomain))


def type_of(term: Named) -> Type:
    if term[0] == "Comb":
        return type_of(term[1])[2][1]
    return function_type(term[1][2], type_of(term[2])) if term[0] == "Abs" else term[2]


def frees(term: Named) -> FrozenSet[Named]:
    if term[0] == "Var":
        return frozenset([term])
    if term[0] == "Comb":
        return frees(term[1]) | frees(term[2])
    return frees(term[2]) - {term[1]} if term[0] == "Abs" else frozenset()


def variables(term: Named) -> Iterator[Named]:
    """All variables, bound ones too."""
    if term[0] == "Var":
        yield term
    elif term[0] in ("Comb", "Abs"):
        yield from variables(term[1])
        yield from variables(term[2])


def size(term: Named) -> int:
    return 1 + size(term[1]) + size(term[2]) if term[0] in ("Comb", "Abs") else 1


def variant(avoid: FrozenSet[Named], variable: Named) -> Named:
    while variable in avoid:
        variable = ("Var", variable[1] + "'", variable[2])
    return variable


def vsubst(put: Dict[Named, Named], term: Named, renames: bool = True) -> Named:
    """Terms for free variables; without renaming it captures."""
    if term[0] == "Var":
        return put.get(term, term)
    if term[0] == "Comb":
        return ("Comb", vsubst(put, term[1], renames), vsubst(put, term[2], renames))
    if term[0] == "Const":
        return term
    _, variable, body = term
    inner = {x: t for x, t in put.items() if x != variable}
    if renames and any(variable in frees(t) and x in frees(body) for x, t in inner.items()):
        renamed = variant(frees(vsubst(inner, body)), variable)
        return ("Abs", renamed, vsubst({**inner, variable: renamed}, body))
    return ("Abs", variable, vsubst(inner, body, renames))


def type_inst(types: Dict[str, Type], ty: Type) -> Type:
    return types.get(ty[1], ty) if ty[0] == "TyVar" else ("TyApp", ty[1], tuple(type_inst(types, part) for part in ty[2]))


class Clash(Exception):
    pass


def inst(types: Dict[str, Type], term: Named, bound: Tuple = (), renames: bool = True) -> Named:
    """Types for type variables; `bound` has each binder passed, as it was and as it is, the innermost first."""
    if term[0] == "Var":
        new = ("Var", term[1], type_inst(types, term[2]))
        binder = next((old for old, now in bound if now == new), term)
        if renames and binder != term:
            raise Clash(new)
        return new
    if term[0] == "Const":
        return ("Const", term[1], type_inst(types, term[2]))
    if term[0] == "Comb":
        return ("Comb", inst(types, term[1], bound, renames), inst(types, term[2], bound, renames))
    _, variable, body = term
    new = ("Var", variable[1], type_inst(types, variable[2]))
    try:
        return ("Abs", new, inst(types, body, ((variable, new),) + bound, renames))
    except Clash as clash:
        if clash.args[0] != new:
            raise
        avoid = frozenset(inst(types, free) for free in frees(body))
        renamed = ("Var", variant(avoid, new)[1], variable[2])
        return inst(types, ("Abs", renamed, vsubst({variable: renamed}, body)), bound)


def aconv(left: Named, right: Named, bound: Tuple = ()) -> bool:
    if left[0] != right[0]:
        return False
    if left[0] == "Var":
        for one, other in bound:
            if one == left or other == right:
                return one == left and other == right
        return left == right
    if left[0] == "Comb":
        return aconv(left[1], right[1], bound) and aconv(left[2], right[2], bound)
    if left[0] == "Abs":
        return left[1][2] == right[1][2] and aconv(left[2], right[2], ((left[1], right[1]),) + bound)
    return left == right


def nameless(term: Named, places: Optional[Dict[Named, int]] = None, depth: int = 0) -> Tuple:
    places = places or {}
    if term[0] == "Var":
        return ("bound", depth - 1 - places[term]) if term in places else ("free", term[1], term[2])
    if term[0] == "Const":
        return ("fixed", term[1], term[2])
    if term[0] == "Comb":
        return ("app", nameless(term[1], places, depth), nameless(term[2], places, depth))
    base = term[1][1]
    while base.endswith("'"):
        base = base[:-1]
    return ("lam", base, term[1][2], nameless(term[2], {**places, term[1]: depth}, depth + 1))


def with_names(term: Tuple, binders: Tuple = ()) -> Named:
    """A named term of a closed nameless one: no two binders around a place have one name."""
    if term[0] == "bound":
        return binders[term[1]]
    if term[0] == "app":
        return ("Comb", with_names(term[1], binders), with_names(term[2], binders))
    if term[0] == "fixed":
        return ("Const", term[1], term[2])
    variable = variant(frozenset(binders), ("Var", term[1], term[2]))
    return ("Abs", variable, with_names(term[3], (variable,) + binders))


def mk_eq(left: Named, right: Named) -> Named:
    ty = type_of(left)
    return ("Comb", ("Comb", ("Const", "=", function_type(ty, function_type(ty, BOOL))), left), right)


def dest_eq(term: Named) -> Optional[Tuple[Named, Named]]:
    is_one = term[0] == "Comb" and term[1][0] == "Comb" and term[1][1][:2] == ("Const", "=")
    return (term[1][2], term[2]) if is_one else None


def union(hyps: Tuple[Named, ...], more: Tuple[Named, ...]) -> Tuple[Named, ...]:
    for one in more:
        if not any(aconv(one, other) for other in hyps):
            hyps += (one,)
    return hyps


def remove(hyps: Tuple[Named, ...], one: Named) -> Tuple[Named, ...]:
    return tuple(other for other in hyps if not aconv(one, other))


# ---- theorems


@dataclasses.dataclass(frozen=True, eq=False)
class Theorem:
    hyps: Tuple[Named, ...]
    concl: Named
    rule: str
    above: Tuple["Theorem", ...] = ()
    given: Tuple = ()  # as the line has it, in nameless terms


def variable_of(variable: Named) -> Tuple[str, Type]:
    return variable[1], variable[2]


def refl(term: Named) -> Theorem:
    return Theorem((), mk_eq(term, term), "by_refl", (), (nameless(term),))


def trans(one: Theorem, other: Theorem) -> Theorem:
    return Theorem(union(one.hyps, other.hyps), mk_eq(dest_eq(one.concl)[0], dest_eq(other.concl)[1]), "by_trans", (one, other))


def mk_comb(one: Theorem, other: Theorem) -> Theorem:
    (f, g), (x, y) = dest_eq(one.concl), dest_eq(other.concl)
    return Theorem(union(one.hyps, other.hyps), mk_eq(("Comb", f, x), ("Comb", g, y)), "by_mk_comb", (one, other))


def abs_rule(variable: Named, one: Theorem) -> Theorem:
    left, right = dest_eq(one.concl)
    return Theorem(one.hyps, mk_eq(("Abs", variable, left), ("Abs", variable, right)), "by_abs", (one,), (variable_of(variable),))


def beta(abstraction: Named) -> Theorem:
    _, variable, body = abstraction
    return Theorem((), mk_eq(("Comb", abstraction, variable), body), "by_beta", (), (variable_of(variable), nameless(abstraction)[3]))


def assume(term: Named) -> Theorem:
    return Theorem((term,), term, "by_assume", (), (nameless(term),))


def eq_mp(one: Theorem, other: Theorem) -> Theorem:
    return Theorem(union(one.hyps, other.hyps), dest_eq(one.concl)[1], "by_eq_mp", (one, other))


def deduct_antisym(one: Theorem, other: Theorem) -> Theorem:
    hyps = union(remove(one.hyps, other.concl), remove(other.hyps, one.concl))
    return Theorem(hyps, mk_eq(one.concl, other.concl), "by_deduct_antisym", (one, other))


def inst_type(types: Dict[str, Type], one: Theorem) -> Theorem:
    hyps = union((), tuple(inst(types, hyp) for hyp in one.hyps))
    return Theorem(hyps, inst(types, one.concl), "by_inst_type", (one,), (tuple((ty, name) for name, ty in types.items()),))


def inst_rule(put: Dict[Named, Named], one: Theorem) -> Theorem:
    hyps = union((), tuple(vsubst(put, hyp) for hyp in one.hyps))
    given = tuple((nameless(term), variable_of(variable)) for variable, term in put.items())
    return Theorem(hyps, vsubst(put, one.concl), "by_inst", (one,), (given,))
