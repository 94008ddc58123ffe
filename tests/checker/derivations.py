"""Derivations and legal lists of items: Derivation.antt and Legal.antt of hol_kernel.

A derivation is written down line by line: a line names its rule, the lines above that it takes, what else it needs, and the sequent that it claims. What
the definitions have as a tree is here one in which a line may be taken more than once. Each function below gives the sequent of one kind of node, from the
sequents that it takes, or raises `Refused` by the condition that isn't met; the claim has to be that very sequent, base names and all."""

import dataclasses
from typing import Callable, Dict, FrozenSet, List, Optional, Tuple

from . import prelude
from .basis import Basis, Item, item_keys, new_type
from .terms import (
    BOOL, Term, Type, Variable, abs_rep, base_of, bind, equation, free_occurrences, fun_parts, fun_type, open_with, rep_abs, sides, strip,
    term_subst, term_tyvars, types_inst, tyvars,
)

Sequent = Tuple[FrozenSet[Term], Term]  # hypotheses, base names left out, and a conclusion


@dataclasses.dataclass(frozen=True)
class Line:
    rule: str
    above: Tuple[int, ...]  # the lines that it takes, counted from 0
    given: Tuple  # what else the rule needs
    hyps: FrozenSet[Term]
    concl: Term


@dataclasses.dataclass(frozen=True)
class Made:
    """An item in its list, with the lines that show a type definition's predicate of some term."""

    item: Item
    inhabited: Tuple[Line, ...] = ()


@dataclasses.dataclass(frozen=True)
class Record:
    """A legal list of items, the oldest first, and a derivation over it."""

    made: Tuple[Made, ...]
    lines: Tuple[Line, ...]


class Refused(Exception):
    """By which condition, and at which place: ('item', number) or ('line', number)."""

    def __init__(self, why: str, place: Tuple = ()):
        super().__init__(why)
        self.why, self.place = why, place


def needs(holds: object, why: str) -> None:
    if not holds:
        raise Refused(why)


NO_HYPS: FrozenSet[Term] = frozenset()


# ---- the kinds of nodes


def equation_of(sequent: Sequent) -> Tuple[Type, Term, Term]:
    found = sides(sequent[1])
    needs(found, "no equation")
    return found


def of_type(basis: Basis, term: Term, ty: Optional[Type] = None) -> Type:
    found = basis.type_over(term)
    needs(found, "not well typed")
    needs(ty is None or found == ty, "another type")
    return found


def by_refl(basis: Basis, above: List[Sequent], t: Term) -> Sequent:
    return NO_HYPS, equation(of_type(basis, t), t, t)


def by_trans(basis: Basis, above: List[Sequent]) -> Sequent:
    (hs, _), (ks, _) = above
    (a, s, m), (_, n, t) = equation_of(above[0]), equation_of(above[1])
    needs(strip(m) == strip(n), "the middles differ")
    return hs | ks, equation(a, s, t)


def by_mk_comb(basis: Basis, above: List[Sequent]) -> Sequent:
    (hs, _), (ks, _) = above
    (ty, f, g), (a, x, y) = equation_of(above[0]), equation_of(above[1])
    parts = fun_parts(ty)
    needs(parts and parts[0] == a, "the types don't fit")
    return hs | ks, equation(parts[1], ("app", f, x), ("app", g, y))


def by_abs(basis: Basis, above: List[Sequent], v: Variable) -> Sequent:
    hs, (a, left, right) = above[0][0], equation_of(above[0])
    needs(basis.is_type(v[1]), "no type")
    needs(all(v not in free_occurrences(h) for h in hs), "free in a hypothesis")
    return hs, equation(fun_type(v[1], a), bind(v, left), bind(v, right))


def by_beta(basis: Basis, above: List[Sequent], v: Variable, b: Term) -> Sequent:
    redex = ("app", ("lam", base_of(v[0]), v[1], b), ("free", *v))
    a = of_type(basis, redex)
    needs(v not in free_occurrences(b), "free in the abstraction")
    return NO_HYPS, equation(a, redex, open_with(("free", *v), 0, b))


def by_assume(basis: Basis, above: List[Sequent], p: Term) -> Sequent:
    of_type(basis, p, BOOL)
    return frozenset([strip(p)]), p


def by_eq_mp(basis: Basis, above: List[Sequent]) -> Sequent:
    (hs, _), (ks, m) = above
    _, left, right = equation_of(above[0])
    needs(strip(left) == strip(m), "the left side is another formula")
    return hs | ks, right


def by_deduct_antisym(basis: Basis, above: List[Sequent]) -> Sequent:
    (hs, p), (ks, q) = above
    return (hs - {strip(q)}) | (ks - {strip(p)}), equation(BOOL, p, q)


def by_inst_type(basis: Basis, above: List[Sequent], pairs: Tuple) -> Sequent:
    hs, p = above[0]
    needs(all(basis.is_type(ty) for ty, _ in pairs), "no type")
    return frozenset(strip(types_inst(pairs, h)) for h in hs), types_inst(pairs, p)


def by_inst(basis: Basis, above: List[Sequent], pairs: Tuple) -> Sequent:
    hs, p = above[0]
    for t, variable in pairs:
        of_type(basis, t, variable[1])
    return frozenset(strip(term_subst(pairs, 0, h)) for h in hs), term_subst(pairs, 0, p)


def by_postulate(basis: Basis, above: List[Sequent], which: str) -> Sequent:
    needs(which in prelude.STATEMENTS, "no such statement")
    return NO_HYPS, prelude.STATEMENTS[which]


def by_axiom(basis: Basis, above: List[Sequent], n: str, p: Term) -> Sequent:
    needs(("declared_axiom", n, p) in basis.items, "no such item")
    of_type(basis, p, BOOL)
    return NO_HYPS, p


def by_definition(basis: Basis, above: List[Sequent], c: str, r: Term) -> Sequent:
    needs(("defined_constant", c, r) in basis.items, "no such item")
    a = of_type(basis, r)
    return NO_HYPS, equation(a, ("fixed", c, a), r)


def type_defined(basis: Basis, c: str, to_new: str, from_new: str, p: Term) -> Type:
    """The type of which p is a predicate."""
    needs(("defined_type", c, to_new, from_new, p) in basis.items, "no such item")
    parts = fun_parts(of_type(basis, p))
    needs(parts and parts[1] == BOOL, "another type")
    return parts[0]


def by_abs_rep(basis: Basis, above: List[Sequent], c: str, to_new: str, from_new: str, p: Term) -> Sequent:
    s = type_defined(basis, c, to_new, from_new, p)
    return NO_HYPS, abs_rep(to_new, from_new, s, new_type(c, p))


def by_rep_abs(basis: Basis, above: List[Sequent], c: str, to_new: str, from_new: str, p: Term) -> Sequent:
    s = type_defined(basis, c, to_new, from_new, p)
    return NO_HYPS, rep_abs(to_new, from_new, p, s, new_type(c, p))


# Each kind of node, with how many sequents and how many other things it takes.
NODES: Dict[str, Tuple[Callable, int, int]] = {
    "by_refl": (by_refl, 0, 1),
    "by_trans": (by_trans, 2, 0),
    "by_mk_comb": (by_mk_comb, 2, 0),
    "by_abs": (by_abs, 1, 1),
    "by_beta": (by_beta, 0, 2),
    "by_assume": (by_assume, 0, 1),
    "by_eq_mp": (by_eq_mp, 2, 0),
    "by_deduct_antisym": (by_deduct_antisym, 2, 0),
    "by_inst_type": (by_inst_type, 1, 1),
    "by_inst": (by_inst, 1, 1),
    "by_postulate": (by_postulate, 0, 1),
    "by_axiom": (by_axiom, 0, 2),
    "by_definition": (by_definition, 0, 2),
    "by_abs_rep": (by_abs_rep, 0, 4),
    "by_rep_abs": (by_rep_abs, 0, 4),
}


def derived(basis: Basis, lines: Tuple[Line, ...]) -> Sequent:
    """The sequent of the last line, where each line is a node over those above it that it takes."""
    found: List[Sequent] = []
    for number, line in enumerate(lines):
        try:
            needs(line.rule in NODES, "no such rule")
            node, takes, given = NODES[line.rule]
            needs(len(line.above) == takes and len(line.given) == given, "another number of parts")
            needs(all(0 <= above < number for above in line.above), "not above")
            hyps, concl = node(basis, [found[above] for above in line.above], *line.given)
            needs(concl == line.concl, "another conclusion")
            needs(hyps == line.hyps, "other hypotheses")
        except Refused as refused:
            raise Refused(refused.why, ("line", number)) from None
        found.append((hyps, concl))
    needs(found, "no line")
    return found[-1]


# ---- legal lists


def is_closed(term: Term) -> bool:
    return not any(True for _ in free_occurrences(term))


def sound(earlier: Basis, made: Made) -> None:
    """What an item asks of those before it, its names apart."""
    kind, *parts = made.item
    if kind == "declared_constant":
        needs(earlier.is_type(parts[1]), "no type")
    elif kind == "declared_axiom":
        of_type(earlier, parts[1], BOOL)
    elif kind == "defined_constant":
        ty = of_type(earlier, parts[1])
        needs(is_closed(parts[1]), "not closed")
        needs(set(term_tyvars(parts[1])) <= set(tyvars(ty)), "a hidden type variable")
    elif kind == "defined_type":
        _, to_new, from_new, predicate = parts
        needs(to_new != from_new, "one constant twice")
        found = fun_parts(of_type(earlier, predicate))
        needs(found and found[1] == BOOL, "another type")
        needs(is_closed(predicate), "not closed")
        hyps, concl = derived(earlier, made.inhabited)
        needs(not hyps, "shown under a hypothesis")
        needs(concl[0] == "app" and concl[1] == predicate, "shown of another predicate")
    else:
        needs(kind == "declared_type", "no such item")


def legal(made: Tuple[Made, ...]) -> Basis:
    """The basis of a legal list."""
    earlier = Basis(())
    for number, one in enumerate(made):
        try:
            needs(all(earlier.is_new(key) for key in item_keys(one.item)), "a name that stands")
            sound(earlier, one)
        except Refused as refused:
            raise Refused(refused.why, ("item", number)) from None
        earlier = Basis([*earlier.items, one.item])
    return earlier


def check(record: Record) -> Sequent:
    """The theorem's sequent, or `Refused`."""
    return derived(legal(record.made), record.lines)
