"""Documents of goals that a theorem matches or nearly matches, and of goals with redexes."""

import functools

from model.documents import Observed, copied, run_command
from model.random_documents import with_turns
from model.random_terms import DECLARED, IND, KINDS, Terms, for_all, put, typed_text
from model.showing import term_text, type_text
from model.terms import BOOL, FALSE, TRUE, A, B, free_variables, fun, indices, joined, leaves, type_of, type_put, type_variables_in, with_put
from model.theories import Theory

OTHER = ("constant", "o", BOOL)
CONSTANTS = [f"new_constant {name} `:{type_text(ty)}`" for name, ty in DECLARED.items()]


def renamed(rng, term):
    """The term with other names of some bound variables."""
    if term[0] == "comb":
        return ("comb", renamed(rng, term[1]), renamed(rng, term[2]))
    if term[0] == "lambda":
        return ("lambda", rng.choice([term[1], "x", "y"]), term[2], renamed(rng, term[3]))
    return term


def parts(term, scope=()):
    """The parts of a term, each with the types of the variables that are bound around it."""
    found = [(term, scope)]
    if term[0] == "comb":
        found += parts(term[1], scope) + parts(term[2], scope)
    return found + parts(term[3], (term[2], *scope)) if term[0] == "lambda" else found


def with_other(term, at, other):
    """The term with another part in the place of this number, and how many places are still before it."""
    if at == 0:
        return other, -1
    at -= 1
    if term[0] == "comb":
        function, at = with_other(term[1], at, other)
        if at < 0:
            return ("comb", function, term[2]), at
        argument, at = with_other(term[2], at, other)
        return ("comb", function, argument), at
    if term[0] == "lambda":
        body, at = with_other(term[3], at, other)
        return ("lambda", term[1], term[2], body), at
    return term, at


def spoiled(rng, terms, term):
    """The term with another part somewhere, which may have variables that are bound there: any, a leaf, or one that begins with the same constant, of other types."""
    found, kind = list(enumerate(parts(term))), rng.choice(["any", "leaf", "leaf", "constant", "constant"])
    single = [row for row in found if row[1][0][0] in ("free", "bound", "constant")]
    begun = [row for row in found if row[1][0][0] == "comb" and head(row[1][0])[1] in KINDS and type_of(row[1][0]) == BOOL]
    at, (part, scope) = rng.choice({"any": found, "leaf": single, "constant": begun or found}[kind])
    if kind == "constant" and begun:
        return with_other(term, at, terms.atom(head(part)[1], 1, scope))[0]
    return with_other(term, at, terms.of(type_of(part), 1 if kind == "any" else 0, scope))[0]


def head(term):
    while term[0] == "comb":
        term = term[1]
    return term


def nearly_put(rng, terms, term, types, taken, scope=()):
    """The term with these types, and with these terms for variables, but now and then with another, which may have variables that are bound around it."""
    if term in taken:
        return terms.of(type_put(types, term[2]), rng.choice([0, 1]), scope) if rng.random() < (0.6 if scope else 0.3) else taken[term]
    if term[0] == "comb":
        return ("comb", *(nearly_put(rng, terms, part, types, taken, scope) for part in term[1:]))
    ty = type_put(types, term[2])
    return ("lambda", term[1], ty, nearly_put(rng, terms, term[3], types, taken, (ty, *scope))) if term[0] == "lambda" else (*term[:2], ty)


def repeated(rng, term):
    """The term with a free variable that it has in the place of another part, too."""
    found = [(at, part) for at, (part, _) in enumerate(parts(term)) if at > 0 and not indices(part)]
    places = [(at, variable) for at, part in found for variable in sorted(free_variables(term)) if part != variable and type_of(part) == variable[2]]
    return with_other(term, *rng.choice(places))[0] if places else term


def one_name_at_two_types(rng, names):
    """The two sides of an implication and a hypothesis, of variables that are told apart by their types alone once they are called as the last part says."""
    pairs = rng.sample([(name, ty) for name in names for ty in (A, B, BOOL)], rng.choice([2, 3, 3, 4, 5]) if len(names) > 1 else 3)
    variables = [("free", f"v{at}", ty) for at, (_, ty) in enumerate(pairs)]
    atom = lambda variable: ("comb", ("constant", "S", fun(variable[2], BOOL)), variable)
    sides, names_of_hypothesis = [[], [], []], set()
    for variable, (name, _) in zip(variables, pairs):
        for side in rng.choice([[0], [0], [0], [0], [0], [0, 1], [1], [2], [2], [1, 2]]):
            if side < 2 or name not in names_of_hypothesis:
                sides[side].append(atom(variable))
                names_of_hypothesis.update([name] * (side == 2))
    sides[1] += [atom(("free", name, ty)) for name, ty in (("y", A), ("z", B)) if rng.random() < 0.8]
    sides[2] += [("constant", "x'", BOOL)] * (len(names) == 1)
    left, right, hypothesis = (functools.reduce(lambda behind, before: joined("/\\", behind, before), reversed(side)) if side else OTHER for side in sides)
    return left, right, hypothesis if sides[2] else None, [(old, ("free", *pair)) for old, pair in zip(variables, pairs)]


class Lemma:
    """A theorem by chance, `!xs. s ==> t`, maybe under a hypothesis: its axiom, and how it is written from that, where variables are called as others are."""

    def __init__(self, rng, name, names):
        terms, self.hypothesis, called = Terms(rng, rng.choice([[BOOL, A], [BOOL, A], [A, B], [BOOL, A, B, IND]])), None, []
        if rng.random() < 0.4:
            left, self.right, self.hypothesis, called = one_name_at_two_types(rng, names)
        else:
            self.right, left = terms.of(BOOL, rng.choice([0, 3, 3, 3])), terms.of(BOOL, rng.choice([1, 2, 2]))
            self.right = repeated(rng, self.right) if rng.random() < 0.7 else self.right
            self.hypothesis = terms.of(BOOL, rng.choice([0, 1, 2])) if rng.random() < 0.4 else None
        outer = [variable for variable in sorted(free_variables(left, self.right)) if rng.random() < (0.15 if called else 0.5)]
        self.statement = joined("==>", left, self.right)
        if rng.random() < 0.08:
            self.statement, self.right = rng.choice([left, ("comb", ("constant", "~", fun(BOOL, BOOL)), left)]), FALSE
        for variable in rng.sample(outer, len(outer)) + [("free", "y", rng.choice([BOOL, A]))] * (rng.random() < 0.1):
            self.statement = for_all(variable, self.statement)
        self.axiom, self.text, self.called = joined("==>", self.hypothesis, self.statement) if self.hypothesis else self.statement, name, dict(called)
        for old, _ in called:
            self.axiom = for_all(old, self.axiom)
        for _, new in reversed(called):
            self.text = f"(SPEC `{typed_text(new)}` {self.text})"
        if self.hypothesis:
            self.hypothesis = put(self.hypothesis, {}, self.called)
            self.text = f"(MP {self.text} (ASSUME `{typed_text(self.hypothesis)}`))"

    def goal(self, rng):
        return instance(rng, put(self.right, {}, self.called), [self.hypothesis] if self.hypothesis else [])


def instance(rng, right, fixed):
    """A goal that is an instance of a term, or nearly one, but for what is free in fixed terms."""
    fixed = fixed if rng.random() < 0.9 else []
    kept, kept_types = free_variables(*fixed), set().union(*map(type_variables_in, fixed))
    goals = Terms(rng, rng.choice([[BOOL], [A, BOOL], [BOOL, IND], [fun(A, BOOL), BOOL]]), sorted(kept))
    types = {name: goals.type() for name in "AB" if rng.random() < 0.8 and name not in kept_types}
    terms = {variable: goals.of(type_put(types, variable[2]), rng.choice([0, 1, 2, 2])) for variable in sorted(free_variables(right) - kept)}
    has_lambda = any(leaf[0] == "lambda" for leaf in leaves(right))
    found = nearly_put(rng, goals, right, types, terms) if rng.random() < (0.5 if has_lambda else 0.25) else put(right, types, terms)
    found = renamed(rng, found) if rng.random() < 0.5 else found
    return spoiled(rng, goals, found) if rng.random() < 0.3 else found


HANDED = ["DISCH_THEN MATCH_MP_TAC", "DISCH_TAC THEN FIRST_ASSUM MATCH_MP_TAC", "DISCH_TAC THEN POP_ASSUM MATCH_MP_TAC"]


def matching(rng, turns):
    """Theorems, each on some goals: written, also with other types, and handed over, where they are their own hypotheses; then maybe another one on what is left."""
    names = rng.choice([["x", "x'"]] * 3 + [["x"]])
    texts = CONSTANTS + ["new_constant x' `:bool`"] * ("x'" not in names)
    for at in range(6):
        lemma = Lemma(rng, f"L{at}", names)
        as_text = term_text if lemma.text == f"L{at}" and rng.random() < 0.2 else typed_text
        texts += [f"new_axiom L{at} `{as_text(lemma.axiom)}`", f"g G{at} `{typed_text(lemma.hypothesis) if lemma.hypothesis else 'T'} ==> T`"]
        for _ in range(5):
            goal, use = as_text(lemma.goal(rng)), f"MATCH_MP_TAC {lemma.text}"
            if rng.random() < 0.1:
                use = f"MATCH_MP_TAC (INST_TYPE [`:{rng.choice(['bool', 'B', 'ind', 'A->A'])}`, `:{rng.choice('AB')}`] {lemma.text})"
            elif rng.random() < 0.12:
                goal, use = f"{typed_text(lemma.statement)} ==> {typed_text(instance(rng, lemma.right, [lemma.statement]))}", rng.choice(HANDED)
            use += f" THEN TRY (MATCH_MP_TAC L{rng.randrange(at + 1)})" if rng.random() < 0.2 else ""
            texts += [f"e DISCH_TAC THEN SUBGOAL_THEN `{goal}` MP_TAC THENL [{use}; ALL_TAC]", "b"]
        texts.append("oops")
    return [("A", texts)]


# ---- goals with redexes

# What is put for a variable, and around it: of 20,000 nodes after one step, and of 20,001; then the same with what is small after another step.
LARGE = [
    ("{}", 35, 57, ["T", "T", "?x:A. T", "?x:A. T"]), ("{}", 37, 54, ["T", "?x:A. T"]),
    ("(\\y:bool. T) ({})", 35, 57, ["n T", "?x:A. T", "?x:A. T"]), ("(\\y:bool. T) ({})", 35, 57, ["n T", "T", "T", "?x:A. T"]),
]  # fmt: skip
REDUCTIONS = ["BETA_TAC", "CHANGED_TAC BETA_TAC", "TRY BETA_TAC", "REPEAT (CHANGED_TAC BETA_TAC)", "STRIP_TAC THEN BETA_TAC"]


def large_redex(form, outer, inner, beside):
    """A goal that is large after one step: so many conjuncts for so many variables."""
    joined_texts = " /\\ ".join
    body = form.format(joined_texts([f"({text})" for text in beside] + ["x"] * outer))
    return f"(\\x. {body}) ({joined_texts(['p'] * inner)})"


def expanded(rng, terms, term):
    """A redex that becomes the term: any part of it is put for a variable, or what isn't in it."""
    part = rng.choice([part for part, _ in parts(term) if not indices(part)] + [terms.of(terms.type(), 1)])
    ty = type_of(part)
    return ("comb", ("lambda", rng.choice("xyz"), ty, with_put(term, part, lambda depth: ("bound", depth, ty))), part)


def redexes(rng):
    terms = Terms(rng, rng.choice([[BOOL], [BOOL, A], [A, B]]), redexes=rng.choice([0.1, 0.3, 0.5]))
    term = TRUE if rng.random() < 0.3 else terms.of(BOOL, rng.choice([2, 3, 4]))
    for _ in range(rng.choice([0, 1, 2, 4])):
        at, (part, scope) = rng.choice([row for row in enumerate(parts(term)) if row[1][1]] or list(enumerate(parts(term))))
        term = expanded(rng, terms, term) if rng.random() < 0.5 or term == TRUE else with_other(term, at, terms.redex(type_of(part), 2, scope))[0]
    return rng.choice([typed_text, typed_text, term_text])(term)


def reducing(rng, turns):
    """Goals with redexes, which are reduced with as many turns as that takes, and with one less."""
    texts, theory, goals = list(CONSTANTS), Theory(), [redexes(rng) for _ in range(6)] + [large_redex(*rng.choice(LARGE))] * (rng.random() < 0.25)
    for text in texts:
        run_command(theory, text, {}, turns)
    for at, goal in enumerate(goals):
        opened = [f"g B{at} `{goal}`"] if rng.random() < 0.8 else [f"g B{at} `({redexes(rng)}) ==> ({goal})`", "e DISCH_TAC"]
        for text in opened:
            run_command(theory, text, {}, turns)
        observed = Observed()
        run_command(copied(theory), "e BETA_TAC", {}, turns, observed)
        texts += opened
        for beyond in (0, 1) if observed.turns and at < 6 else ():
            texts += with_turns(turns - observed.turns[0] + beyond, "BETA_TAC")
        texts += [f"e {rng.choice(REDUCTIONS)}", "qed", "oops"]
        run_command(theory, "oops", {}, turns)
    return [("A", texts)]
