"""Derivations by chance: worlds of items, and theorems by the rules of named.py on what stands. Nothing here asks the checker."""

import random
from typing import Dict, List, Optional, Tuple

from . import named, prelude
from .derivations import Line, Made, Record
from .named import Named, Theorem, aconv, dest_eq, frees, function_type, nameless, size, type_of
from .terms import BOOL, Type

A, B = ("TyVar", "A"), ("TyVar", "B")
NAMES = ("x", "y", "x'", "z", "f", "p")
LARGEST_TERM, MOST_LINES = 60, 12
STATEMENTS: Dict[str, Named] = {name: named.with_names(term) for name, term in prelude.STATEMENTS.items()}


def instance_for(generic: Type, wanted: Type, found: Dict[str, Type]) -> bool:
    if generic[0] == "TyVar":
        return found.setdefault(generic[1], wanted) == wanted
    return wanted[0] == "TyApp" and wanted[1] == generic[1] and all(instance_for(g, w, found) for g, w in zip(generic[2], wanted[2]))


class World:
    """A legal list of items, and what can be written and shown over it."""

    def __init__(self, rng: random.Random):
        self.rng = rng
        self.made: List[Made] = []
        self.types: List[Type] = [BOOL, A, B, ("TyApp", "ind", ())]
        self.constants: Dict[str, Type] = dict(prelude.CONSTANTS)
        self.leaves: List[Theorem] = []  # what the items say
        for number in range(rng.randrange(2, 7)):
            kinds = (self.declare_type, self.declare_constant, self.define, self.define_type, self.declare_axiom)
            rng.choice(kinds)(f"k{number}")

    # ---- terms

    def type(self, depth: int = 2) -> Type:
        if depth and self.rng.random() < 0.35:
            return function_type(self.type(depth - 1), self.type(depth - 1))
        return self.rng.choice(self.types)

    def variable(self, ty: Optional[Type] = None) -> Named:
        return ("Var", self.rng.choice(NAMES), ty or self.type())

    def constant(self, ty: Type) -> Optional[Named]:
        fitting = [name for name, generic in self.constants.items() if instance_for(generic, ty, {})]
        return ("Const", self.rng.choice(fitting), ty) if fitting else None

    def term(self, ty: Type, depth: int = 3, scope: Tuple[Named, ...] = ()) -> Named:
        """A term of this type; binders around it are used more often than other variables."""
        rng, chance = self.rng, self.rng.random()
        bound = [variable for variable in scope if variable[2] == ty]
        if bound and chance < 0.4:
            return rng.choice(bound)
        if depth and ty[1] == "fun" and ty[0] == "TyApp" and chance < 0.75:
            variable = self.variable(ty[2][0])
            return ("Abs", variable, self.term(ty[2][1], depth - 1, scope + (variable,)))
        if depth and ty == BOOL and chance < 0.7:
            of = self.type(1)
            return named.mk_eq(self.term(of, depth - 1, scope), self.term(of, depth - 1, scope))
        if depth and chance < 0.8:
            of = self.type(1)
            return ("Comb", self.term(function_type(of, ty), depth - 1, scope), self.term(of, depth - 1, scope))
        return (self.constant(ty) if chance < 0.9 else None) or self.variable(ty)

    def closed_term(self) -> Named:
        """A closed term, all of whose type variables occur in its type."""
        for _ in range(5):
            ty = self.type()
            term = self.term(ty, 2)
            for variable in frees(term):
                term = ("Abs", variable, term)
            if type_variables_in(term) <= type_variables(type_of(term)):
                return term
        return ("Const", "T", BOOL)

    def renamed(self, term: Named) -> Named:
        """The term with other names for some bound variables."""
        if term[0] == "Comb":
            return ("Comb", self.renamed(term[1]), self.renamed(term[2]))
        if term[0] == "Abs":
            body = self.renamed(term[2])
            new = named.variant(frees(body), ("Var", self.rng.choice(NAMES), term[1][2]))
            return ("Abs", new, named.vsubst({term[1]: new}, body)) if self.rng.random() < 0.5 else ("Abs", term[1], body)
        return term

    # ---- items

    def declare_type(self, name: str) -> None:
        arity = self.rng.randrange(3)
        self.made.append(Made(("declared_type", name, arity)))
        self.types.append(("TyApp", name, tuple(self.rng.choice((A, B, BOOL)) for _ in range(arity))))

    def declare_constant(self, name: str) -> None:
        ty = self.type()
        self.made.append(Made(("declared_constant", name, ty)))
        self.constants[name] = ty

    def declare_axiom(self, name: str) -> None:
        statement = self.term(BOOL)
        self.made.append(Made(("declared_axiom", name, nameless(statement))))
        self.leaves.append(Theorem((), statement, "by_axiom", (), (name, nameless(statement))))

    def define(self, name: str) -> None:
        right = self.closed_term()
        self.made.append(Made(("defined_constant", name, nameless(right))))
        self.constants[name] = type_of(right)
        self.leaves.append(Theorem((), named.mk_eq(("Const", name, type_of(right)), right), "by_definition", (), (name, nameless(right))))

    def define_type(self, name: str) -> None:
        """Of what equals some closed term, or of all x for which x = x."""
        if self.rng.random() < 0.5:
            member = self.closed_term()
            shown = named.refl(member)
            predicate, old = shown.concl[1], type_of(member)
        else:
            variable = self.variable()
            predicate, old = ("Abs", variable, named.mk_eq(variable, variable)), variable[2]
            shown = self.by_equation_turned(named.beta(predicate), named.refl(variable))
        self.made.append(Made(("defined_type", name, f"to{name}", f"from{name}", nameless(predicate)), lines_of(shown)))
        new = ("TyApp", name, tuple(("TyVar", a) for a in sorted(type_variables_in(predicate))))
        self.types.append(new)
        there, back = ("Const", f"to{name}", function_type(old, new)), ("Const", f"from{name}", function_type(new, old))
        self.constants.update({there[1]: there[2], back[1]: back[2]})
        given, a, r = (name, there[1], back[1], nameless(predicate)), ("Var", "a", new), ("Var", "r", old)
        self.leaves.append(Theorem((), named.mk_eq(("Comb", there, ("Comb", back, a)), a), "by_abs_rep", (), given))
        turned = named.mk_eq(("Comb", back, ("Comb", there, r)), r)
        self.leaves.append(Theorem((), named.mk_eq(("Comb", predicate, r), turned), "by_rep_abs", (), given))

    @staticmethod
    def by_equation_turned(equation: Theorem, right: Theorem) -> Theorem:
        """From l = r and r, l."""
        left = equation.concl[1][2]
        sign = named.refl(equation.concl[1][1])
        both = named.mk_comb(named.mk_comb(sign, equation), named.refl(left))
        return named.eq_mp(named.eq_mp(both, named.refl(left)), right)

    # ---- theorems

    def theorem(self, pool: List[Theorem]) -> Optional[Theorem]:
        """A theorem by a rule that fits, of what stands in the pool or is made for it."""
        return self.rng.choice(RULES)(self, pool)

    def equation_in(self, pool: List[Theorem]) -> Theorem:
        found = [one for one in pool if dest_eq(one.concl)]
        if found and self.rng.random() < 0.8:
            return self.rng.choice(found)
        return named.assume(named.mk_eq(*(self.term(ty, 2) for ty in [self.type(1)] * 2)))

    def with_left(self, pool: List[Theorem], left: Named) -> Theorem:
        """An equation whose left side is this one up to names of bound variables."""
        found = [one for one in pool if dest_eq(one.concl) and aconv(dest_eq(one.concl)[0], left)]
        if found and self.rng.random() < 0.7:
            return self.rng.choice(found)
        left = self.renamed(left)
        return named.refl(left) if self.rng.random() < 0.5 else named.assume(named.mk_eq(left, self.term(type_of(left), 2)))

    def by_refl(self, pool: List[Theorem]) -> Theorem:
        return named.refl(self.term(self.type()))

    def by_assume(self, pool: List[Theorem]) -> Theorem:
        return named.assume(self.term(BOOL))

    def by_two_formulas(self, pool: List[Theorem]) -> Theorem:
        """Of two variables of one type, for which one term may be put later."""
        one = self.variable()
        said = named.mk_eq(one, self.term(one[2], 1))
        return named.deduct_antisym(named.assume(said), named.assume(named.vsubst({one: self.variable(one[2])}, said)))

    def by_beta(self, pool: List[Theorem]) -> Theorem:
        variable = self.variable()
        return named.beta(("Abs", variable, self.term(self.type(), 3, (variable,))))

    def by_trans(self, pool: List[Theorem]) -> Theorem:
        one = self.equation_in(pool)
        return named.trans(one, self.with_left(pool, dest_eq(one.concl)[1]))

    def by_mk_comb(self, pool: List[Theorem]) -> Theorem:
        one = self.equation_in(pool)
        ty = type_of(dest_eq(one.concl)[0])
        if ty[1] != "fun":
            function = named.refl(self.term(function_type(ty, self.type(1)), 2))
            return named.mk_comb(function, one)
        found = [other for other in pool if dest_eq(other.concl) and type_of(dest_eq(other.concl)[0]) == ty[2][0]]
        return named.mk_comb(one, self.rng.choice(found) if found and self.rng.random() < 0.7 else named.refl(self.term(ty[2][0], 2)))

    def by_abs(self, pool: List[Theorem]) -> Optional[Theorem]:
        one = self.equation_in(pool)
        taken = frozenset().union(*map(frees, one.hyps))
        free = sorted(frees(one.concl) - taken)
        variable = self.rng.choice(free) if free and self.rng.random() < 0.8 else self.variable()
        return None if variable in taken else named.abs_rule(variable, one)

    def by_eq_mp(self, pool: List[Theorem]) -> Optional[Theorem]:
        found = [one for one in pool if dest_eq(one.concl) and type_of(dest_eq(one.concl)[0]) == BOOL]
        one = self.rng.choice(found) if found else named.assume(named.mk_eq(self.term(BOOL), self.term(BOOL)))
        left = dest_eq(one.concl)[0]
        standing = [other for other in pool if aconv(other.concl, left)]
        return named.eq_mp(one, self.rng.choice(standing) if standing else named.assume(self.renamed(left)))

    def by_deduct_antisym(self, pool: List[Theorem]) -> Optional[Theorem]:
        if not pool:
            return None
        one, other = self.rng.choice(pool), self.rng.choice(pool)
        if one.hyps and self.rng.random() < 0.5:
            other = named.assume(self.renamed(one.hyps[0]))
        return named.deduct_antisym(one, other)

    def by_inst_type(self, pool: List[Theorem]) -> Optional[Theorem]:
        return named.inst_type({name: self.type(1) for name in self.rng.choice(("A", "B", "AB"))}, self.rng.choice(pool)) if pool else None

    def by_inst(self, pool: List[Theorem]) -> Optional[Theorem]:
        if not pool:
            return None
        one = self.rng.choice(pool)
        free = sorted(frees(one.concl).union(*map(frees, one.hyps)))
        put: Dict[Named, Named] = {}
        if free and self.rng.random() < 0.3:
            only = self.rng.choice(free)
            put = {variable: only for variable in free if variable[2] == only[2] and variable != only}
            return named.inst_rule(put, one) if put else None
        for variable in self.rng.sample(free, min(len(free), self.rng.randrange(1, 3))):
            same = sorted(other for other in named.variables(one.concl) if other[2] == variable[2])
            put[variable] = self.rng.choice(same) if same and self.rng.random() < 0.5 else self.term(variable[2], 2)
        return named.inst_rule(put, one) if put else None

    def by_statement(self, pool: List[Theorem]) -> Theorem:
        if self.leaves and self.rng.random() < 0.7:
            return self.rng.choice(self.leaves)
        which = self.rng.choice(sorted(STATEMENTS))
        return Theorem((), STATEMENTS[which], "by_postulate", (), (which,))

    def theorems(self, number: int) -> List[Theorem]:
        """So many theorems of a few lines each."""
        pool: List[Theorem] = []
        for _ in range(50 * number):
            one = self.theorem(pool)
            small = one and size(one.concl) + sum(map(size, one.hyps)) <= LARGEST_TERM
            if small and len(ancestors(one)) <= MOST_LINES:
                pool.append(one)
            if len(pool) == number:
                break
        return pool


STARTS = (World.by_refl, World.by_assume, World.by_two_formulas, World.by_beta, World.by_statement)
RULES = STARTS + 2 * (World.by_trans, World.by_mk_comb, World.by_abs, World.by_eq_mp, World.by_deduct_antisym, World.by_inst_type, World.by_inst)


def type_variables(ty: Type) -> frozenset:
    return frozenset([ty[1]]) if ty[0] == "TyVar" else frozenset().union(*map(type_variables, ty[2]))


def type_variables_in(term: Named) -> frozenset:
    if term[0] in ("Comb", "Abs"):
        return type_variables_in(term[1]) | type_variables_in(term[2])
    return type_variables(term[2])


def ancestors(theorem: Theorem) -> List[Theorem]:
    """What it stands on and itself, each behind what it takes."""
    found: Dict[Theorem, None] = {}

    def visit(one: Theorem) -> None:
        if one not in found:
            for above in one.above:
                visit(above)
            found[one] = None

    visit(theorem)
    return list(found)


def bare(term: Tuple) -> Tuple:
    """A nameless term without base names."""
    if term[0] == "app":
        return ("app", bare(term[1]), bare(term[2]))
    return ("lam", "", term[2], bare(term[3])) if term[0] == "lam" else term


def claim(theorem: Theorem) -> Tuple:
    return frozenset(bare(nameless(hyp)) for hyp in theorem.hyps), nameless(theorem.concl)


def lines_of(theorem: Theorem) -> Tuple[Line, ...]:
    order = ancestors(theorem)
    places = {one: place for place, one in enumerate(order)}
    return tuple(Line(one.rule, tuple(places[above] for above in one.above), one.given, *claim(one)) for one in order)


def records(rng: random.Random, number: int, each: int):
    """So many records with the theorem that each is of and its world, a few over each world."""
    made = 0
    while made < number:
        world = World(rng)
        for theorem in world.theorems(min(each, number - made)):
            yield world, theorem, Record(tuple(world.made), lines_of(theorem))
            made += 1
