"""Records that are no derivations, or whose items are no legal list: of a right record one thing is changed, or a step or an item is added that breaks one
condition. Each way has its name, the condition by which it has to be refused, and the place where."""

import dataclasses
import random
from typing import Callable, Dict, Iterable, NamedTuple, Optional, Tuple

from . import named
from .derivations import Line, Made, Record
from .generator import STATEMENTS, World, lines_of
from .named import Named, Theorem, dest_eq, frees, function_type, nameless, type_of
from .terms import BOOL, Type

A = ("TyVar", "A")
NOWHERE: Type = ("TyApp", "nowhere", ())
FALSE: Named = ("Const", "F", BOOL)
TRUE: Named = ("Const", "T", BOOL)


class Given(NamedTuple):
    """What is broken: a right record, the theorem that it is of, and its world."""

    rng: random.Random
    world: World
    theorem: Theorem
    record: Record


Broken = Optional[Tuple[Record, Tuple]]  # nothing where this record can't be broken so
WAYS: Dict[str, Tuple[Callable[[Given], Broken], str]] = {}


def way(name: str, why: str) -> Callable:
    def kept(function: Callable[[Given], Broken]) -> Callable[[Given], Broken]:
        WAYS[name] = (function, why)
        return function

    return kept


def with_line(record: Record, number: int, **changes: object) -> Broken:
    lines = list(record.lines)
    lines[number] = dataclasses.replace(lines[number], **changes)
    return dataclasses.replace(record, lines=tuple(lines)), ("line", number)


def ending(given: Given, theorem: Theorem) -> Broken:
    """The record of a theorem whose last line is wrong."""
    lines = lines_of(theorem)
    return Record(given.record.made, lines), ("line", len(lines) - 1)


def with_item(given: Given, *made: Made) -> Broken:
    """The record with these behind its items, of which the last is wrong."""
    more = given.record.made + made
    return dataclasses.replace(given.record, made=more), ("item", len(more) - 1)


def a_line(given: Given, fits: Callable[[Line], bool] = lambda line: True) -> Optional[int]:
    found = [number for number, line in enumerate(given.record.lines) if fits(line)]
    return given.rng.choice(found) if found else None


def base_changed(term: Tuple) -> Tuple:
    """The term with another base name at its first abstraction; the same term where it has none."""
    if term[0] == "lam":
        return ("lam", term[1] + "q", term[2], term[3])
    if term[0] == "app":
        function = base_changed(term[1])
        return ("app", function, term[2]) if function != term[1] else ("app", term[1], base_changed(term[2]))
    return term


def equation_with(world: World, variable: Named) -> Named:
    """An equation in which the variable is free."""
    return named.mk_eq(variable, world.term(variable[2], 2))


def other_term(world: World, ty: Type, than: Named) -> Optional[Named]:
    return next((term for term in (world.term(ty, 2) for _ in range(5)) if not named.aconv(term, than)), None)


# ---- what a line claims


@way("a hypothesis is dropped", "other hypotheses")
def hypothesis_dropped(given: Given) -> Broken:
    number = a_line(given, lambda line: bool(line.hyps))
    if number is None:
        return None
    hyps = given.record.lines[number].hyps
    return with_line(given.record, number, hyps=hyps - {given.rng.choice(sorted(hyps, key=repr))})


@way("a hypothesis is added", "other hypotheses")
def hypothesis_added(given: Given) -> Broken:
    number = a_line(given)
    return with_line(given.record, number, hyps=given.record.lines[number].hyps | {("free", "extra", BOOL)})


@way("a hypothesis keeps the name of a bound variable", "other hypotheses")
def hypothesis_with_a_base(given: Given) -> Broken:
    number = a_line(given, lambda line: any(base_changed(hyp) != hyp for hyp in line.hyps))
    return None if number is None else with_line(given.record, number, hyps=frozenset(map(base_changed, given.record.lines[number].hyps)))


@way("the conclusion is another", "another conclusion")
def another_conclusion(given: Given) -> Broken:
    number = a_line(given)
    other = nameless(given.world.term(BOOL))
    return None if other == given.record.lines[number].concl else with_line(given.record, number, concl=other)


@way("a bound variable of the conclusion has another name", "another conclusion")
def another_base(given: Given) -> Broken:
    number = a_line(given, lambda line: base_changed(line.concl) != line.concl)
    return None if number is None else with_line(given.record, number, concl=base_changed(given.record.lines[number].concl))


@way("the sides of an equation are exchanged", "another conclusion")
def sides_exchanged(given: Given) -> Broken:
    found = dest_eq(given.theorem.concl)
    if not found or found[0] == found[1]:
        return None
    turned = nameless(named.mk_eq(found[1], found[0]))
    return None if turned == nameless(given.theorem.concl) else with_line(given.record, len(given.record.lines) - 1, concl=turned)


# ---- how lines stand on one another


@way("a line takes itself or a later one", "not above")
def takes_a_later_line(given: Given) -> Broken:
    number = a_line(given, lambda line: bool(line.above))
    if number is None:
        return None
    line = given.record.lines[number]
    return with_line(given.record, number, above=(given.rng.randrange(number, number + 3),) + line.above[1:])


@way("a line lacks a part", "another number of parts")
def lacks_a_part(given: Given) -> Broken:
    number = a_line(given)
    line = given.record.lines[number]
    return with_line(given.record, number, **({"above": line.above[1:]} if line.above else {"given": line.given[1:]}))


@way("a rule that isn't one", "no such rule")
def unknown_rule(given: Given) -> Broken:
    return with_line(given.record, a_line(given), rule=given.rng.choice(("by_oracle", "by_sym", "", "refl")))


# ---- terms that aren't well typed


def refl_of(given: Given, term: Tuple) -> Broken:
    lines = (Line("by_refl", (), (term,), frozenset(), term),)
    return Record(given.record.made, lines), ("line", 0)


@way("REFL of an unknown constant", "not well typed")
def unknown_constant(given: Given) -> Broken:
    return ending(given, named.refl(named.mk_eq(("Const", "nowhere", A), given.world.term(A, 2))))


@way("REFL of a constant at no instance of its type", "not well typed")
def no_instance(given: Given) -> Broken:
    wrong = (("T", A), ("=", function_type(BOOL, function_type(A, BOOL))), ("!", function_type(BOOL, BOOL)), ("@", function_type(function_type(A, BOOL), BOOL)))
    return ending(given, named.refl(("Const", *given.rng.choice(wrong))))


@way("REFL of an application that doesn't fit", "not well typed")
def application_that_misfits(given: Given) -> Broken:
    return refl_of(given, ("app", nameless(given.world.term(function_type(BOOL, A), 2)), nameless(given.world.term(A, 2))))


@way("REFL of an application of what is no function", "not well typed")
def application_of_no_function(given: Given) -> Broken:
    return refl_of(given, ("app", nameless(given.world.term(BOOL, 2)), nameless(given.world.term(BOOL, 2))))


@way("REFL of an index without a binder", "not well typed")
def index_without_a_binder(given: Given) -> Broken:
    return refl_of(given, given.rng.choice((("bound", 0), ("lam", "x", A, ("bound", 1)), ("app", nameless(given.world.term(function_type(A, A), 2)), ("bound", 3)))))


@way("REFL of an abstraction whose base name ends with a prime", "not well typed")
def primed_base(given: Given) -> Broken:
    return refl_of(given, ("lam", given.rng.choice(("x'", "'", "f''")), given.world.type(), nameless(given.world.term(BOOL, 2))))


@way("REFL of a variable of an unknown type, or with another number of arguments", "not well typed")
def unknown_type(given: Given) -> Broken:
    wrong = (NOWHERE, ("TyApp", "bool", (A,)), ("TyApp", "fun", (A,)), function_type(A, NOWHERE))
    return ending(given, named.refl(("Var", "x", given.rng.choice(wrong))))


# ---- rules


@way("TRANS of equations that don't meet", "the middles differ")
def trans_of_others(given: Given) -> Broken:
    one = given.world.equation_in([given.theorem])
    middle = dest_eq(one.concl)[1]
    other = other_term(given.world, type_of(middle), middle)
    return other and ending(given, named.trans(one, named.refl(other)))


@way("MK_COMB of an argument of another type", "the types don't fit")
def mk_comb_that_misfits(given: Given) -> Broken:
    domain, other = given.world.type(1), given.world.type(1)
    if domain == other:
        return None
    return ending(given, named.mk_comb(named.refl(given.world.term(function_type(domain, BOOL), 2)), named.refl(given.world.term(other, 2))))


@way("MK_COMB of what is no function", "the types don't fit")
def mk_comb_of_no_function(given: Given) -> Broken:
    one = named.refl(given.world.term(BOOL, 2))
    return ending(given, Theorem((), TRUE, "by_mk_comb", (one, one)))


@way("ABS of a variable that is free in a hypothesis", "free in a hypothesis")
def abs_of_a_free_variable(given: Given) -> Broken:
    variable = given.world.variable()
    return ending(given, named.abs_rule(variable, named.assume(equation_with(given.world, variable))))


@way("ABS of a variable that is free in one of two hypotheses", "free in a hypothesis")
def abs_of_a_variable_free_in_one(given: Given) -> Broken:
    variable = given.world.variable()
    one, other = named.assume(equation_with(given.world, variable)), given.world.equation_in([])
    both = named.deduct_antisym(one, other)
    return ending(given, named.abs_rule(variable, both)) if any(variable in frees(hyp) for hyp in both.hyps) and len(both.hyps) > 1 else None


@way("ABS of a variable of an unknown type", "no type")
def abs_of_an_unknown_type(given: Given) -> Broken:
    return ending(given, named.abs_rule(("Var", "x", NOWHERE), named.refl(given.world.term(BOOL, 2))))


@way("ABS of what is no equation", "no equation")
def abs_of_no_equation(given: Given) -> Broken:
    one = named.assume(given.world.variable(BOOL))
    return ending(given, Theorem(one.hyps, one.concl, "by_abs", (one,), (("x", A),)))


@way("BETA with a variable that is free in the abstraction", "free in the abstraction")
def beta_of_a_free_variable(given: Given) -> Broken:
    variable = given.world.variable()
    body = nameless(("Abs", ("Var", "unused", variable[2]), equation_with(given.world, variable)))[3]
    one = named.beta(("Abs", variable, TRUE))
    return ending(given, dataclasses.replace(one, given=(one.given[0], body)))


@way("BETA that leaves the redex", "another conclusion")
def beta_that_leaves_the_redex(given: Given) -> Broken:
    variable = given.world.variable()
    one = named.beta(("Abs", variable, equation_with(given.world, variable)))
    return ending(given, dataclasses.replace(one, concl=named.mk_eq(dest_eq(one.concl)[0], dest_eq(one.concl)[0])))


@way("ASSUME of what is no formula", "another type")
def assume_of_no_formula(given: Given) -> Broken:
    ty = given.world.type()
    return None if ty == BOOL else ending(given, named.assume(given.world.term(ty, 2)))


@way("EQ_MP of another formula", "the left side is another formula")
def eq_mp_of_another(given: Given) -> Broken:
    left = given.world.term(BOOL, 2)
    other = other_term(given.world, BOOL, left)
    return other and ending(given, named.eq_mp(named.assume(named.mk_eq(left, given.world.term(BOOL, 2))), named.assume(other)))


@way("EQ_MP backwards", "the left side is another formula")
def eq_mp_backwards(given: Given) -> Broken:
    left = given.world.term(BOOL, 2)
    right = other_term(given.world, BOOL, left)
    one = right and named.assume(named.mk_eq(left, right))
    return one and ending(given, Theorem(named.union(one.hyps, (right,)), left, "by_eq_mp", (one, named.assume(right))))


@way("EQ_MP of what is no equation", "no equation")
def eq_mp_of_no_equation(given: Given) -> Broken:
    one = named.assume(("Comb", ("Comb", ("Const", "==>", function_type(BOOL, function_type(BOOL, BOOL))), TRUE), FALSE))
    return ending(given, Theorem(one.hyps, FALSE, "by_eq_mp", (one, given.theorem)))


def two_with_hypotheses(given: Given) -> Tuple[Theorem, Theorem]:
    """p |- p, and q |- p by a definition of p from q and back: each has a hypothesis, and one is the other's conclusion."""
    p, q = given.world.term(BOOL, 2), given.world.term(BOOL, 2)
    return named.assume(p), named.eq_mp(named.assume(named.mk_eq(q, p)), named.assume(q))


@way("DEDUCT_ANTISYM_RULE removes the conclusion beside it", "other hypotheses")
def deduct_antisym_removes_its_own(given: Given) -> Broken:
    one, other = two_with_hypotheses(given)
    right = named.deduct_antisym(other, one)
    wrong = named.remove(named.remove(named.union(one.hyps, other.hyps), one.concl), other.hyps[0])
    return ending(given, dataclasses.replace(right, hyps=wrong)) if len(wrong) != len(right.hyps) else None


@way("DEDUCT_ANTISYM_RULE removes nothing", "other hypotheses")
def deduct_antisym_removes_nothing(given: Given) -> Broken:
    p = given.world.term(BOOL, 2)
    one = named.assume(p)
    right = named.deduct_antisym(one, named.assume(given.world.renamed(p)))
    return ending(given, dataclasses.replace(right, hyps=one.hyps))


# ---- instances


@way("INST_TYPE with an unknown type, or with another number of arguments", "no type")
def inst_type_with_an_unknown_type(given: Given) -> Broken:
    wrong = given.rng.choice((NOWHERE, ("TyApp", "ind", (A,)), function_type(NOWHERE, A)))
    return ending(given, named.inst_type({"A": wrong}, given.theorem))


@way("INST_TYPE by which two variables become one", "another conclusion")
def inst_type_that_merges(given: Given) -> Broken:
    ty = given.world.type()
    name = given.world.variable()[1]
    general, fixed = ("Var", name, A), ("Var", name, ty)
    if ty == A or type_of(fixed) != named.type_inst({"A": ty}, ty):
        return None
    both = ("Comb", ("Comb", given.world.term(function_type(A, function_type(ty, BOOL)), 1), general), fixed)
    one = named.refl(("Abs", general, both))
    return ending(given, dataclasses.replace(named.inst_type({"A": ty}, one), concl=named.inst({"A": ty}, one.concl, (), False)))


@way("INST_TYPE that leaves the hypotheses", "other hypotheses")
def inst_type_leaves_hypotheses(given: Given) -> Broken:
    one = named.assume(equation_with(given.world, given.world.variable(A)))
    return ending(given, dataclasses.replace(named.inst_type({"A": BOOL}, one), hyps=one.hyps))


@way("INST by which a variable is captured", "another conclusion")
def inst_that_captures(given: Given) -> Broken:
    world = given.world
    ty, binder = world.type(1), world.variable()
    variable = world.variable(ty)
    if variable == binder:
        return None
    inside = named.mk_eq(("Comb", world.term(function_type(ty, binder[2]), 1), variable), binder)
    put = {variable: binder if ty == binder[2] else ("Comb", world.term(function_type(binder[2], ty), 1), binder)}
    one = named.refl(("Abs", binder, inside))
    wrong = named.vsubst(put, one.concl, renames=False)
    return ending(given, dataclasses.replace(named.inst_rule(put, one), concl=wrong))


@way("INST by which a variable of a hypothesis is captured", "other hypotheses")
def inst_that_captures_in_a_hypothesis(given: Given) -> Broken:
    binder, variable = given.world.variable(A), given.world.variable(A)
    if binder == variable:
        return None
    closing = ("Comb", ("Const", "!", function_type(function_type(A, BOOL), BOOL)), ("Abs", binder, named.mk_eq(binder, variable)))
    one, put = named.assume(closing), {variable: binder}
    return ending(given, dataclasses.replace(named.inst_rule(put, one), hyps=(named.vsubst(put, closing, renames=False),)))


@way("INST with a term of another type", "another type")
def inst_of_another_type(given: Given) -> Broken:
    variable = given.world.variable()
    ty = given.world.type()
    return None if ty == variable[2] else ending(given, named.inst_rule({variable: given.world.term(ty, 2)}, named.refl(variable)))


@way("INST with a term that isn't well typed", "not well typed")
def inst_of_no_term(given: Given) -> Broken:
    variable = given.world.variable()
    return ending(given, named.inst_rule({variable: ("Const", "nowhere", variable[2])}, given.theorem))


@way("INST that leaves the hypotheses", "other hypotheses")
def inst_leaves_hypotheses(given: Given) -> Broken:
    variable = given.world.variable(BOOL)
    one = named.assume(variable)
    return ending(given, dataclasses.replace(named.inst_rule({variable: FALSE}, one), hyps=one.hyps))


@way("INST of one variable after the other", "another conclusion")
def inst_in_turn(given: Given) -> Broken:
    one, other = given.world.variable(BOOL), given.world.variable(BOOL)
    if one == other:
        return None
    theorem = named.refl(named.mk_eq(one, other))
    wrong = named.vsubst({other: one}, named.vsubst({one: other}, theorem.concl))
    return ending(given, dataclasses.replace(named.inst_rule({one: other, other: one}, theorem), concl=wrong))


# ---- statements


def statement_line(given: Given, rules: Iterable[str]) -> Optional[Theorem]:
    found = [leaf for leaf in given.world.leaves if leaf.rule in rules]
    return given.rng.choice(found) if found else None


@way("an axiom that isn't among the items", "no such item")
def unknown_axiom(given: Given) -> Broken:
    statement = given.world.term(BOOL)
    return ending(given, Theorem((), statement, "by_axiom", (), (given.rng.choice(("nowhere", "k0", "ETA_AX")), nameless(named.mk_eq(statement, statement)))))


@way("an axiom with another statement", "no such item")
def axiom_with_another_statement(given: Given) -> Broken:
    one = statement_line(given, ("by_axiom",))
    return ending(given, dataclasses.replace(one, given=(one.given[0], nameless(FALSE)))) if one and one.concl != FALSE else None


@way("a definition that isn't among the items", "no such item")
def unknown_definition(given: Given) -> Broken:
    one = statement_line(given, ("by_definition",))
    return one and ending(given, dataclasses.replace(one, given=(one.given[0] + "q", one.given[1])))


@way("a type definition with its constants exchanged", "no such item")
def constants_exchanged(given: Given) -> Broken:
    one = statement_line(given, ("by_abs_rep", "by_rep_abs"))
    return one and ending(given, dataclasses.replace(one, given=(one.given[0], one.given[2], one.given[1], one.given[3])))


@way("the two statements of a type definition exchanged", "another conclusion")
def statements_exchanged(given: Given) -> Broken:
    one = statement_line(given, ("by_abs_rep", "by_rep_abs"))
    return one and ending(given, dataclasses.replace(one, rule="by_abs_rep" if one.rule == "by_rep_abs" else "by_rep_abs"))


@way("a statement of the prelude at an instance", "another conclusion")
def statement_at_an_instance(given: Given) -> Broken:
    which = given.rng.choice(sorted(STATEMENTS))
    instance = named.inst({"A": BOOL}, STATEMENTS[which])
    return None if instance == STATEMENTS[which] else ending(given, Theorem((), instance, "by_postulate", (), (which,)))


@way("a statement that the prelude has not", "no such statement")
def unknown_statement(given: Given) -> Broken:
    return ending(given, Theorem((), FALSE, "by_postulate", (), (given.rng.choice(("FALSITY", "TRUTH", "")),)))


# ---- items


@way("an item with a name of the prelude", "a name that stands")
def name_of_the_prelude(given: Given) -> Broken:
    items = (
        ("declared_type", "bool", 0), ("declared_type", "ind", 1), ("declared_constant", "T", BOOL), ("declared_constant", "ONTO", A),
        ("defined_constant", "F", nameless(TRUE)), ("declared_axiom", "SELECT_AX", nameless(FALSE)),
    )
    return with_item(given, Made(given.rng.choice(items)))


@way("an item with a name that stands", "a name that stands")
def name_that_stands(given: Given) -> Broken:
    item = given.rng.choice(given.record.made).item
    again = {
        "declared_type": ("declared_type", item[1], 5), "declared_constant": ("declared_constant", item[1], BOOL), "declared_axiom": ("declared_axiom", item[1], nameless(TRUE)),
        "defined_constant": ("declared_constant", item[1], A), "defined_type": given.rng.choice((("declared_type", item[1], 0), ("declared_constant", item[2], A))),
    }
    return with_item(given, Made(again[item[0]]))


@way("the same item twice", "a name that stands")
def item_twice(given: Given) -> Broken:
    return with_item(given, given.rng.choice(given.record.made))


@way("a constant defined by a term with a free variable", "not closed")
def definition_of_an_open_term(given: Given) -> Broken:
    variable = given.world.variable()
    under = ("Abs", given.world.variable(function_type(variable[2], BOOL)), variable)
    return with_item(given, Made(("defined_constant", "new", nameless(given.rng.choice((variable, under))))))


@way("a constant defined with a type variable that its type has not", "a hidden type variable")
def definition_with_a_hidden_type(given: Given) -> Broken:
    variable = given.world.variable(A)
    identity = ("Abs", variable, variable)
    return with_item(given, Made(("defined_constant", "new", nameless(named.mk_eq(identity, identity)))))


@way("a constant defined by itself", "not well typed")
def definition_by_itself(given: Given) -> Broken:
    negated = ("Comb", ("Const", "~", function_type(BOOL, BOOL)), ("Const", "new", BOOL))
    return with_item(given, Made(("defined_constant", "new", nameless(negated))))


@way("an axiom that is no formula", "another type")
def axiom_of_no_formula(given: Given) -> Broken:
    ty = given.world.type()
    return None if ty == BOOL else with_item(given, Made(("declared_axiom", "new", nameless(given.world.term(ty, 2)))))


@way("a constant of an unknown type", "no type")
def constant_of_an_unknown_type(given: Given) -> Broken:
    return with_item(given, Made(("declared_constant", "new", given.rng.choice((NOWHERE, ("TyApp", "bool", (BOOL,)), function_type(A, NOWHERE))))))


@way("an item before what it speaks of", "not well typed")
def item_before_what_it_needs(given: Given) -> Broken:
    later, earlier = Made(("declared_constant", "later", A)), Made(("declared_axiom", "new", nameless(named.mk_eq(("Const", "later", A), given.world.term(A, 2)))))
    made, place = with_item(given, earlier)
    return dataclasses.replace(made, made=made.made + (later,)), place


# ---- type definitions


def type_definition(predicate: Named, shown: Theorem, to_new: str = "to_it", from_new: str = "from_it") -> Made:
    return Made(("defined_type", "new", to_new, from_new, nameless(predicate)), lines_of(shown))


def member_of(given: Given) -> Tuple[Named, Theorem]:
    """A closed predicate and a theorem that it holds of something."""
    shown = named.refl(given.world.closed_term())
    return shown.concl[1], shown


@way("a type defined with one constant both ways", "one constant twice")
def type_with_one_constant(given: Given) -> Broken:
    return with_item(given, type_definition(*member_of(given), "it", "it"))


@way("a type defined with a constant that stands", "a name that stands")
def type_with_a_constant_that_stands(given: Given) -> Broken:
    return with_item(given, type_definition(*member_of(given), given.rng.choice(("T", "=", "@"))))


@way("a type defined by a predicate with a free variable", "not closed")
def type_of_an_open_predicate(given: Given) -> Broken:
    shown = named.refl(given.world.variable())
    return with_item(given, type_definition(shown.concl[1], shown))


@way("a type defined by what is no predicate", "another type")
def type_of_no_predicate(given: Given) -> Broken:
    member, shown = given.world.closed_term(), member_of(given)[1]
    ty = type_of(member)
    return None if ty[1] == "fun" and ty[2][1] == BOOL else with_item(given, type_definition(member, shown))


@way("a type defined by what a hypothesis says to hold of something", "shown under a hypothesis")
def type_under_a_hypothesis(given: Given) -> Broken:
    variable = given.world.variable()
    predicate = ("Abs", variable, FALSE)
    return with_item(given, type_definition(predicate, named.assume(("Comb", predicate, variable))))


@way("a type defined by another predicate than is shown", "shown of another predicate")
def type_of_another_predicate(given: Given) -> Broken:
    return with_item(given, type_definition(("Abs", given.world.variable(), FALSE), member_of(given)[1]))


@way("a type defined by a predicate that is shown by a wrong line", "the middles differ")
def type_shown_wrongly(given: Given) -> Broken:
    shown = named.refl(given.world.closed_term())
    return with_item(given, type_definition(shown.concl[1], named.trans(shown, named.refl(named.mk_eq(shown.concl, TRUE)))))


@way("a type defined by a predicate that is shown by a later axiom", "no such item")
def type_shown_by_a_later_axiom(given: Given) -> Broken:
    predicate = ("Abs", given.world.variable(), FALSE)
    statement = ("Comb", predicate, ("Var", "x", predicate[1][2]))
    shown = Theorem((), statement, "by_axiom", (), ("later", nameless(statement)))
    record, place = with_item(given, type_definition(predicate, shown))
    return dataclasses.replace(record, made=record.made + (Made(("declared_axiom", "later", nameless(statement))),)), place
